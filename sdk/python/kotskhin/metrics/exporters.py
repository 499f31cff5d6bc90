"""What brings exports to where they are taken."""
import contextlib
import http.client
import os
import pathlib
import secrets
import sys
import time
import typing
import urllib.error
import urllib.request
from collections.abc import Callable

from kotskhin.export import Export
from kotskhin.gateway import Ask, Gateway
from kotskhin.metrics.answers import MOST, NotTaken, exports_not_taken, points_not_taken
from kotskhin.metrics.deadline import opener

OTLP, OWN = "application/x-protobuf", "application/vnd.kotskhin.export"
# How many bytes are told of the body of an answer that refuses.
TOLD = 1 << 10


class ExportFailed(Exception):
    """An export was not brought: why, and the export where there is one. The last one of a provider is covered by no other."""

    def __init__(self, what: str, why: Exception, unsent: Export | None) -> None:
        super().__init__(what, why, unsent)
        self.what, self.why, self.unsent = what, why, unsent
        self.__cause__ = why

    def __str__(self) -> str:
        return f"{self.what} failed: {type(self.why).__name__}: {self.why}"


class MetricExporter(typing.Protocol):
    """Brings an export, within so many seconds. Its calls come one after another, from a thread of the reader's."""

    def export(self, export: Export, timeout: float) -> object:
        """Brings it."""


# An exporter, or a function of an export.
Exporter = typing.Union[MetricExporter, Callable[[Export], object]]


def export_of(exporter: Exporter) -> Callable[[Export, float], object]:
    """What an exporter, or a function of an export, does with one."""
    export = getattr(exporter, "export", None)
    if export is not None:
        return typing.cast("Callable[[Export, float], object]", export)
    if not callable(exporter):
        raise TypeError(f"an exporter has export(export, timeout), or is a function: {exporter!r}")
    function = exporter
    return lambda export, timeout: function(export)


def ending_of(exporter: Exporter) -> Callable[[], object]:
    """What ends an exporter, where it has such a call."""
    return typing.cast("Callable[[], object]", getattr(exporter, "shutdown", lambda: None))


class FileExporter:
    """Keeps the bytes of the newest export in a file. It is replaced as a whole, so that who reads it finds one export and no half of
    one. Who may read it the umask says, as of any file."""

    def __init__(self, path: "str | os.PathLike[str]") -> None:
        self._path = pathlib.Path(path)

    def export(self, export: Export, timeout: float) -> None:
        """Replaces the file."""
        # (a name of this call's own: other threads and processes may export to the same path)
        written = self._path.with_name(f".{self._path.name}.{secrets.token_hex(8)}")
        place = os.open(written, os.O_WRONLY | os.O_CREAT | os.O_EXCL | os.O_CLOEXEC, 0o666)
        try:
            with open(place, "wb") as file:
                file.write(export.encode())
                file.flush()
                os.fsync(file.fileno())
            os.replace(written, self._path)
        except BaseException:
            os.unlink(written)
            raise


class HttpRefused(Exception):
    """An export was answered other than by 2xx: by a `status` and its `reason`, and what the first line of the answer says, `said`."""

    def __init__(self, status: int, reason: str, said: str = "") -> None:
        super().__init__(status, reason, said)
        self.status, self.reason, self.said = status, reason, said

    def __str__(self) -> str:
        return f"{self.status} {self.reason}".rstrip() + (f": {self.said}" if self.said else "")


def _first_line(body: bytes) -> str:
    """The first line of an answer's body, as far as it is told, of characters that can be printed."""
    lines = body[:TOLD].decode(errors="replace").strip().splitlines()
    return "".join(filter(str.isprintable, lines[0])) if lines else ""


class HttpExporter:
    """Posts each export: as a request of the OpenTelemetry protocol, to a URL that ends in /v1/metrics as a Collector has it; or as the
    kit's own bytes, where `otlp` is false. An answer other than 2xx is a failure, a redirection too: an HttpRefused. One that says that
    some of the export was not taken is raised as a NotTaken. The timeout is that of the request as a whole."""

    def __init__(self, url: str, headers: typing.Mapping[str, str] | None = None, *, otlp: bool = True) -> None:
        self._url, self._otlp = url, otlp
        self._headers = {"Content-Type": OTLP if self._otlp else OWN, **(headers or {})}

    def export(self, export: Export, timeout: float) -> None:
        """Posts it."""
        body = export.otlp() if self._otlp else export.encode()
        request = urllib.request.Request(self._url, body, dict(self._headers), method="POST")
        try:
            with opener.open(request, timeout=timeout) as answer:
                told, late = answer.read(MOST + 1), answer.headers.get("Kotskhin-Late", "")
        except urllib.error.HTTPError as fault:
            raise self._to_refusal(fault) from None
        if why := points_not_taken(told) or exports_not_taken(late):
            raise why

    @staticmethod
    def _to_refusal(fault: urllib.error.HTTPError) -> HttpRefused:
        said = b""
        # (the status says that it is refused, whatever becomes of the body)
        with fault, contextlib.suppress(OSError, http.client.HTTPException):
            said = fault.read(TOLD)
        return HttpRefused(fault.code, str(fault.reason), _first_line(said))


class FirstOf:
    """Brings each export by one of several exporters, as to gateways of which any may take it: by the one that took the last one, and where
    that fails by the next. It fails where all did, and at once by a NotTaken: others would say the same. Each has its part of the time that
    is left."""

    def __init__(self, *exporters: Exporter) -> None:
        self._exporters, self._last = exporters, 0
        if not exporters:
            raise ValueError("there is no exporter")

    def export(self, export: Export, timeout: float) -> None:
        """Brings it by the first that takes it."""
        end, count = time.monotonic() + timeout, len(self._exporters)
        for turn in range(count):
            at = (self._last + turn) % count
            try:
                export_of(self._exporters[at])(export, max((end - time.monotonic()) / (count - turn), 0.001))
            except NotTaken:
                self._last = at
                raise
            except Exception:
                if turn == count - 1:
                    raise
            else:
                self._last = at
                return

    def shutdown(self) -> None:
        """Ends them all."""
        for exporter in self._exporters:
            ending_of(exporter)()


class ConsoleMetricExporter:
    """Prints the tables of each export: one for each stream, below its scope, name and unit."""

    def __init__(self, out: typing.TextIO | None = None) -> None:
        self._out = out

    def export(self, export: Export, timeout: float) -> None:
        """Prints it."""
        with Gateway(0) as gateway:
            gateway.take(export)
            with gateway.streams() as streams:
                for number, stream in enumerate(streams):
                    head = " ".join(word for word in (stream.scope, stream.name, stream.unit) if word)
                    with Ask.stream(streams, number) as ask:
                        print(f"{head}\n{gateway.table(ask)}", end="", file=self._out or sys.stdout, flush=True)
