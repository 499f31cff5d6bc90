"""Requests whose timeout is that of all that they do. The one of urllib is that of each read: who answers by a byte at a time is waited for
without end."""
import http.client
import io
import socket
import ssl
import time
import typing
import urllib.request
from collections.abc import Callable

if typing.TYPE_CHECKING:
    from _typeshed import WriteableBuffer


def _left(ends: float) -> float:
    """How much time there is, which is some."""
    left = ends - time.monotonic()
    if left <= 0:
        raise TimeoutError("timed out")
    return left


def _connected(host: str, port: int, ends: float) -> socket.socket:
    """A connection to a host by the first of its addresses that has one."""
    last: OSError = OSError(f"{host} has no address")
    for family, kind, protocol, _, address in socket.getaddrinfo(host, port, 0, socket.SOCK_STREAM):
        made = socket.socket(family, kind, protocol)
        try:
            made.settimeout(_left(ends))
            made.connect(address)
            made.setsockopt(socket.IPPROTO_TCP, socket.TCP_NODELAY, 1)
            return made
        except OSError as fault:
            made.close()
            last = fault
    raise last


class _Reads(io.RawIOBase):
    """What is read of a socket until a time."""

    def __init__(self, of: socket.socket, ends: float) -> None:
        self._of, self._raw, self._ends = of, of.makefile("rb", buffering=0), ends

    def readable(self) -> bool:
        return True

    def readinto(self, room: "WriteableBuffer") -> int | None:
        self._of.settimeout(_left(self._ends))
        return self._raw.readinto(room)

    def close(self) -> None:
        self._raw.close()
        super().close()


class _Timed:
    """A socket that reads and writes until a time, as far as http.client uses one."""

    def __init__(self, of: socket.socket, ends: float) -> None:
        self._of, self._ends = of, ends

    def sendall(self, of: bytes) -> None:
        rest = memoryview(of)
        while rest:
            self._of.settimeout(_left(self._ends))
            rest = rest[self._of.send(rest) :]

    def makefile(self, mode: str) -> io.BufferedReader:
        return io.BufferedReader(_Reads(self._of, self._ends))

    def close(self) -> None:
        self._of.close()


class _InTime(http.client.HTTPConnection):
    """A connection whose timeout is that of all that is done by it, but for finding the addresses of a name."""

    # (what urllib sets, and what http.client keeps, are names that its declarations leave out)
    timeout: float
    _tunnel_host: str | None
    _tunnel: Callable[[], None]

    def connect(self) -> None:
        ends = time.monotonic() + self.timeout
        plain = _connected(self.host, self.port, ends)
        self.sock = typing.cast(socket.socket, _Timed(plain, ends))
        if self._tunnel_host:
            self._tunnel()
        plain.settimeout(_left(ends))
        self.sock = typing.cast(socket.socket, _Timed(self._secured(plain), ends))

    def _secured(self, plain: socket.socket) -> socket.socket:
        return plain


class _SecureInTime(_InTime, http.client.HTTPSConnection):
    """The same by TLS."""

    _context: ssl.SSLContext

    def _secured(self, plain: socket.socket) -> socket.socket:
        return self._context.wrap_socket(plain, server_hostname=self._tunnel_host or self.host)


class _Plain(urllib.request.HTTPHandler):
    def http_open(self, request: urllib.request.Request) -> http.client.HTTPResponse:
        return self.do_open(_InTime, request)


class _Secure(urllib.request.HTTPSHandler):
    def https_open(self, request: urllib.request.Request) -> http.client.HTTPResponse:
        # (urllib makes it as it makes its own; its declarations know of connections without TLS alone)
        return self.do_open(_SecureInTime, request)  # type: ignore[arg-type]


class _Straight(urllib.request.HTTPRedirectHandler):
    """Follows no redirection: a POST would be made a GET, which brings nothing and succeeds."""

    def redirect_request(self, *_: object) -> None:
        return None


opener = urllib.request.build_opener(_Straight, _Plain, _Secure)
