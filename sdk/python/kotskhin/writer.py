"""Writers, recorders and seats: all that records."""
import secrets
import time
import typing
from ctypes import byref, c_size_t

from kotskhin import calls
from kotskhin.attributes import Attributes
from kotskhin.calls import RawTaken
from kotskhin.errors import Refused, refusal
from kotskhin.export import Export
from kotskhin.handle import Handle
from kotskhin.library import MOST_SIZE, Checked, halves, text
from kotskhin.plan import Plan


def unique_instance() -> int:
    """An instance of 128 bits, drawn anew at each call: no two processes share it, nor do a process and the one that it forks."""
    return secrets.randbits(128)


class Taken(typing.NamedTuple):
    """What became of recordings that a writer took in from the front of a recorder: how many were recorded, how many were refused, each by
    itself, and of these the first, where there is one: its place among those that were taken in, from 0, and why, as a Refused."""

    recorded: int
    refused: int
    first: int | None
    why: Refused | None


def _hold(call: Checked, at: Handle, instrument: int, attributes: Attributes) -> int:
    """The number of an instrument and a set."""
    number = c_size_t()
    call(at, instrument, attributes, byref(number))
    return number.value


def _take_in(call: Checked, at: Handle, recorder: "Recorder", most: int | None) -> Taken:
    """What became of at most so many recordings of a recorder, or of all."""
    told = RawTaken()
    call(at, recorder, MOST_SIZE if most is None else most, byref(told))
    if not told.code:
        return Taken(told.recorded, told.refused, None, None)
    return Taken(told.recorded, told.refused, told.first, refusal(told.code, told.place))


class Recorder(Handle):
    """A thread's own log of recordings, up to a capacity: what it notes is looked at once a writer or a seat takes it in.

    RecorderFull says that it is to be taken in first. One that is given up loses what it has. Of several the one that is taken in last
    has the last word on a gauge, whenever its values were noted: record a gauge that threads set in turn at the writer itself."""

    def __init__(self, capacity: int) -> None:
        super().__init__()
        calls.kit_recorder_new(self, capacity)

    def measure(self, instrument: int, attributes: Attributes, value: int) -> None:
        """Notes a value of an instrument at a set."""
        calls.kit_recorder_measure(self, instrument, attributes, value)

    def measure_held(self, number: int, value: int) -> None:
        """Notes a value at what the writer that will take it in holds under a number."""
        calls.kit_recorder_measure_held(self, number, value)

    def __len__(self) -> int:
        count = c_size_t()
        calls.kit_recorder_len(self, byref(count))
        return count.value

    def clear(self) -> None:
        """Forgets what it has."""
        calls.kit_recorder_clear(self)


class Seat(Handle):
    """A place at a writer that threads share. While another thread's call has the writer a call is refused as Busy."""

    def split(self) -> "Seat":
        """Another seat at the same writer, for another thread."""
        made = Seat()
        calls.kit_seat_split(self, made)
        return made

    def measure(self, instrument: int, attributes: Attributes, value: int) -> None:
        """Records a value of an instrument at a set."""
        calls.kit_seat_measure(self, instrument, attributes, value)

    def hold(self, instrument: int, attributes: Attributes) -> int:
        """The number of an instrument and a set, which any seat of the writer may use."""
        return _hold(calls.kit_seat_hold, self, instrument, attributes)

    def measure_held(self, number: int, value: int) -> None:
        """Records at what the writer holds under a number."""
        calls.kit_seat_measure_held(self, number, value)

    def take_in(self, recorder: Recorder, most: int | None = None) -> Taken:
        """As of a writer: by pieces others get in between."""
        return _take_in(calls.kit_seat_take_in, self, recorder, most)

    def collect(self, time: int) -> Export:
        """All that any seat recorded before it."""
        made = Export()
        calls.kit_seat_collect(self, time, made)
        return made


class Writer(Handle):
    """The points of a plan's instruments since a start. Of two writers that share service, instance and start a gateway keeps one alone.

    So without an instance the writer has one that is drawn anew, and without a start that of the clock: `instance` and `start` tell."""

    def __init__(self, plan: Plan, service: str, instance: int | None = None, start: int | None = None) -> None:
        super().__init__()
        self.instance = unique_instance() if instance is None else instance
        self.start = time.time_ns() if start is None else start
        calls.kit_writer_start(self, plan, *text(service), *halves(self.instance), self.start)

    def measure(self, instrument: int, attributes: Attributes, value: int) -> None:
        """Records a value of an instrument at a set."""
        calls.kit_writer_measure(self, instrument, attributes, value)

    def hold(self, instrument: int, attributes: Attributes) -> int:
        """The number of an instrument and a set, which the writer holds from then on: the same at each call."""
        return _hold(calls.kit_writer_hold, self, instrument, attributes)

    def measure_held(self, number: int, value: int) -> None:
        """Records at what the writer holds under a number: the shortest way."""
        calls.kit_writer_measure_held(self, number, value)

    def take_in(self, recorder: Recorder, most: int | None = None) -> Taken:
        """Takes in recordings from the front of a recorder, at most so many, as if each was made now; what memory is wanting for stays."""
        return _take_in(calls.kit_writer_take_in, self, recorder, most)

    def collect(self, time: int) -> Export:
        """All that was recorded since the start: exports are cumulative."""
        made = Export()
        calls.kit_writer_collect(self, time, made)
        return made

    def shutdown(self, time: int) -> Export:
        """Collects for the last time, and closes the writer to recordings."""
        made = Export()
        calls.kit_writer_shutdown(self, time, made)
        return made

    def restart(self, start: int) -> None:
        """Begins anew under a later start: the writer is open and has recorded nothing."""
        calls.kit_writer_restart(self, start)
        self.start = start

    def share(self) -> Seat:
        """The first seat at the writer: each call of the writer's own is refused as Nothing from then on."""
        made = Seat()
        calls.kit_writer_share(self, made)
        return made
