"""What writers export, here or as bytes."""
import typing
from ctypes import byref, c_size_t, c_uint64

from kotskhin import calls
from kotskhin.handle import Handle, LockedHandle
from kotskhin.library import BytesLike, Checked, copy_out, data
from kotskhin.plan import Streams


class ExportHead(typing.NamedTuple):
    """What stands on an export: whose it is, from when to when, and how many points it has."""

    service: str
    instance: int
    start: int
    time: int
    points: int


class Export(LockedHandle):
    """The points of one collection: all that its writer recorded since its start. A gateway may take it, and so may others."""

    def head(self) -> ExportHead:
        """Whose it is: what a receiver compares with the name under which it knows the sender."""
        high, low, start, time, points = c_uint64(), c_uint64(), c_uint64(), c_uint64(), c_size_t()
        with self._lock:
            calls.kit_export_read(self, *map(byref, (high, low, start, time, points)))
            service = copy_out(calls.kit_export_service, self).decode()
        return ExportHead(service, high.value << 64 | low.value, start.value, time.value, points.value)

    def streams(self) -> Streams:
        """The streams of its points, each once."""
        made = Streams()
        with self._lock:
            calls.kit_export_streams(self, made)
        return made

    def encode(self) -> bytes:
        """Its bytes, for another process."""
        return encode(calls.kit_export_encode, self)

    def otlp(self) -> bytes:
        """The body of a POST to /v1/metrics that brings it to a Collector, as application/x-protobuf."""
        return encode(calls.kit_export_otlp, self)

    def __reduce__(self) -> tuple[object, ...]:
        # (pickled it is its bytes)
        return type(self).decode, (self.encode(),)

    @classmethod
    def decode(cls, of: BytesLike) -> "Export":
        """The export of bytes that encode made."""
        made = cls()
        calls.kit_export_decode(made, *data(of))
        return made

    @classmethod
    def of_otlp(cls, of: BytesLike) -> "list[Export]":
        """The exports that the body of a POST to /v1/metrics brings: `head` tells of whom each is."""
        with Handle() as made:
            calls.kit_exports_of_otlp(made, *data(of))
            count = c_size_t()
            calls.kit_exports_len(made, byref(count))
            exports = [cls() for _ in range(count.value)]
            for number, export in enumerate(exports):
                calls.kit_exports_read(made, number, export)
            return exports


def encode(call: Checked, of: LockedHandle) -> bytes:
    """The bytes that a call makes of a thing."""
    with Handle() as made:
        with of._lock:
            call(of, made)
        return copy_out(calls.kit_bytes_copy, made)
