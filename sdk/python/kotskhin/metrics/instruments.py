"""Instruments: what records."""
import marshal
import operator
import typing
from collections.abc import Callable, Sequence
from ctypes import byref, c_int64, c_size_t, c_uint64

from kotskhin.attributes import Attributes, Pairs, Value, plain
from kotskhin.errors import refusal
from kotskhin.library import as_they_are
from kotskhin.plan import Kind
from kotskhin.writer import Writer

if typing.TYPE_CHECKING:
    from kotskhin.metrics.provider import MeterProvider

LEAST, MOST = -(1 << 63), (1 << 63) - 1
# (a call whose types are not looked at takes half the time: what it is given here is of them)
_measure_held = as_they_are("kit_writer_measure_held")
# A map as bytes that are equal for equal maps alone: a truth, a whole number and a text are told apart, which equality does not. What is
# not plain has no bytes, which is a ValueError.
_dumps = typing.cast("Callable[[object, int], bytes]", marshal.dumps)
_FORM = 2
# What a recording at a set that has a number hands to the call: the number, and where a place is told, as ctypes has them.
Held: typing.TypeAlias = "tuple[c_size_t, object, c_uint64]"


class Refusal(typing.NamedTuple):
    """What was refused: of which instrument, what was to be recorded, and why. That is a kotskhin.Refused, an OverflowError of a value that
    no 64 bits hold, a TypeError of another type, or a ForkedError.

    Where no recording is refused, `value` and `attributes` are None: of a view that can't be applied to the instrument, which is passed
    over, `why` is what the kit refuses of it, and of attribute sets beyond the limit of a stream a CardinalityLimit."""

    instrument: "Instrument"
    value: object
    attributes: object
    why: Exception


class Instrument:
    """An instrument of a provider. Any thread may record by it, before the provider starts and after it is shut down too: it raises nothing
    and waits for nobody.

    Each attribute set gets a number at its first recording, and is looked up from then on: a map of texts by its items, and any other by
    its bytes. What is no dict of plain values is looked up by the one that it comes to. The provider bounds how many."""

    __slots__ = ("scope", "name", "unit", "_provider", "_number", "_advised", "_at", "_texts", "_held", "__weakref__")
    kind: typing.ClassVar[Kind]

    def __init__(
        self, provider: "MeterProvider", number: int, scope: str, name: str, unit: str, advised: Sequence[int] | None = None
    ) -> None:
        self.scope, self.name, self.unit = scope, name, unit
        self._provider, self._number, self._advised = provider, number, advised
        self._begin_anew()

    def _begin_anew(self) -> None:
        """From now on it records into no writer yet."""
        self._at: object = None
        self._texts: dict[tuple[tuple[str, object], ...], Held] = {}
        self._held: dict[bytes, Held] = {}

    def _record(self, amount: typing.SupportsIndex, attributes: Pairs | None = None, context: object = None) -> None:
        """Records a whole number of 64 bits at a set of attributes; of a counter and of a histogram it is at least 0. (contexts are not
        kept)"""
        try:
            held = self._texts.get(tuple(attributes.items())) if type(attributes) is dict else None
            number, told, place = held or self._held[_dumps(attributes, _FORM)]
        except Exception:
            # (that of a set without a number, and whatever a value raises that is hashed or compared: it is looked at below, and told)
            return self._record_anew(amount, attributes)
        if type(amount) is not int or not LEAST <= amount <= MOST:
            return self._record_anew(amount, attributes)
        # (Python's own lock is kept from the call on until it answers, so threads record one after another and none waits)
        code = _measure_held(self._at, number, c_int64(amount), told)
        if code:
            self._provider._refuse(Refusal(self, amount, attributes, refusal(code, place.value)))

    def _record_anew(self, amount: typing.SupportsIndex, attributes: Pairs | None) -> None:
        """A recording at a set that has no number yet, or of what has to be looked at."""
        try:
            whole = operator.index(amount)
            if not LEAST <= whole <= MOST:
                raise OverflowError(f"{whole} is not within {LEAST} to {MOST}")
            writer = self._provider._writer_for(self)
            of = plain(() if attributes is None else attributes)
            number = self._number_of(of, writer)
            if number is not None:
                return writer.measure_held(number, whole)
            with Attributes(of) as made:
                writer.measure(self._number, made, whole)
        except Exception as fault:
            # (whatever was given, and whatever fails: a recording raises nothing, and this tells it)
            self._provider._refuse(Refusal(self, amount, attributes, fault))

    def _number_of(self, of: dict[str, Value], writer: Writer) -> int | None:
        """The number of a set, which gets one where there is room for it."""
        is_texts = all(type(value) is str for value in of.values())
        with self._provider._lock:
            held = self._texts.get(tuple(of.items())) if is_texts else self._held.get(_dumps(of, _FORM))
            if held:
                return held[0].value
            if not self._provider._has_room():
                return None
            with Attributes(of) as made:
                number = writer.hold(self._number, made)
            place = c_uint64()
            self._keep(of, is_texts, (c_size_t(number), byref(place), place))
            return number

    def _keep(self, of: dict[str, Value], is_texts: bool, held: Held) -> None:
        if is_texts:
            self._texts[tuple(of.items())] = held
        else:
            self._held[_dumps(of, _FORM)] = held
        if not of:
            # (no attributes may be given by nothing, too)
            self._held[_dumps(None, _FORM)] = held
        self._provider._held_count += 1

    def __repr__(self) -> str:
        return f"{type(self).__name__}({self.scope!r}, {self.name!r}, {self.unit!r})"


class Counter(Instrument):
    """A sum that only rises."""

    __slots__ = ()
    kind = Kind.COUNTER

    add = Instrument._record


class UpDownCounter(Instrument):
    """A sum that rises and falls."""

    __slots__ = ()
    kind = Kind.UP_DOWN

    add = Instrument._record


class Gauge(Instrument):
    """The last value."""

    __slots__ = ()
    kind = Kind.GAUGE

    set = Instrument._record


class Histogram(Instrument):
    """How values of at least 0 lie between bounds."""

    __slots__ = ()
    kind = Kind.HISTOGRAM

    record = Instrument._record
