"""Of whom gateways and messages have points."""
import typing
from ctypes import byref, c_size_t, c_uint64

from kotskhin import calls
from kotskhin.handle import Handle, LockedHandle
from kotskhin.library import Checked, copy_out


class Incarnation(typing.NamedTuple):
    """Of whom there are points: a service, an instance and a start, the greatest time of its points, and how many points there are."""

    service: str
    instance: int
    start: int
    newest: int
    points: int


def incarnations_of(call: Checked, of: LockedHandle) -> list[Incarnation]:
    """The incarnations that a call makes of a thing, by service, instance and start."""
    with Handle() as made:
        with of._lock:
            call(of, made)
        count = c_size_t()
        calls.kit_incarnations_len(made, byref(count))
        return [_incarnation(made, number) for number in range(count.value)]


def _incarnation(made: Handle, number: int) -> Incarnation:
    high, low, start, newest, points = c_uint64(), c_uint64(), c_uint64(), c_uint64(), c_size_t()
    calls.kit_incarnations_read(made, number, *map(byref, (high, low, start, newest, points)))
    service = copy_out(calls.kit_incarnations_service, made, number).decode()
    return Incarnation(service, high.value << 64 | low.value, start.value, newest.value, points.value)
