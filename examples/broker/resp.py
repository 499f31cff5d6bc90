"""A plain client of Redis: its protocol over one socket of the loopback (RESP, version 2)."""
import socket


class Refused(Exception):
    """The server answered with an error."""


class Redis:
    def __init__(self, port, timeout=10):
        self.socket = socket.create_connection(("127.0.0.1", port), timeout)
        self.answers = self.socket.makefile("rb")

    def __call__(self, *words):
        """Sends a command, and reads its answer: bytes, a number, a list of answers, or nothing."""
        words = [word if isinstance(word, bytes) else str(word).encode() for word in words]
        self.socket.sendall(b"*%d\r\n" % len(words) + b"".join(b"$%d\r\n%s\r\n" % (len(word), word) for word in words))
        return self.answer()

    def answer(self):
        line = self.answers.readline()
        if not line.endswith(b"\r\n"):
            raise ConnectionError("the server is gone")
        kind, rest = line[:1], line[1:-2]
        if kind == b"-":
            raise Refused(rest.decode())
        if kind == b"+":
            return rest
        number = int(rest)
        if kind == b":":
            return number
        if number < 0:
            return None
        if kind == b"*":
            return [self.answer() for _ in range(number)]
        text = self.answers.read(number + 2)
        if len(text) < number + 2:
            raise ConnectionError("the server is gone")
        return text[:-2]
