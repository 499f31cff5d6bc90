"""Plans: instruments and views, and the streams that they come to."""
import dataclasses
import enum
import typing
from collections.abc import Iterable, Sequence
from ctypes import byref, c_size_t, c_uint8, c_int64

from kotskhin import calls
from kotskhin.attributes import keys_of
from kotskhin.handle import Handle, Items
from kotskhin.library import copy_out, integers, text

DEFAULT_LIMIT = 2000


class Kind(enum.IntEnum):
    """Kinds of instruments."""

    COUNTER = 0
    UP_DOWN = 1
    GAUGE = 2
    HISTOGRAM = 3


COUNTER, UP_DOWN, GAUGE, HISTOGRAM = Kind.COUNTER, Kind.UP_DOWN, Kind.GAUGE, Kind.HISTOGRAM


class Instrument(typing.NamedTuple):
    """An instrument of a plan. Its number there is its place, from 0."""

    scope: str
    name: str
    unit: str
    kind: int


class Aggregation(enum.IntEnum):
    """What a view makes of values, beside a histogram of bounds of its own."""

    DEFAULT = 0
    SUM = 1
    LAST_VALUE = 2
    DROP = 3


@dataclasses.dataclass(frozen=True)
class View:
    """Which instruments a view is of, and what it makes of them: without a name of every instrument, without keys all of them, and with
    a list of bounds in the place of an aggregation a histogram of these."""

    name: str | None = None
    kind: int | None = None
    scope: str | None = None
    rename: str | None = None
    keep: Iterable[str] | None = None
    aggregation: int | Sequence[int] | None = None

    def __post_init__(self) -> None:
        # (whatever is given is read once: many plans may have one view)
        if isinstance(self.keep, str):
            raise TypeError(f"keys are a list of texts, not the text {self.keep!r}")
        for name in ("keep", "aggregation"):
            if isinstance(getattr(self, name), Iterable):
                object.__setattr__(self, name, tuple(getattr(self, name)))

    def _make(self) -> Handle:
        view = Handle()
        if self.name is None:
            calls.kit_view_of_every(view)
        else:
            calls.kit_view_of_name(view, *text(self.name))
        if self.kind is not None:
            calls.kit_view_kind(view, self.kind)
        if self.scope is not None:
            calls.kit_view_scope(view, *text(self.scope))
        if self.rename is not None:
            calls.kit_view_rename(view, *text(self.rename))
        if self.keep is not None:
            calls.kit_view_keep(view, keys_of(self.keep))
        if isinstance(self.aggregation, Sequence):
            calls.kit_view_buckets(view, *integers(self.aggregation))
        elif self.aggregation is not None:
            calls.kit_view_aggregation(view, self.aggregation)
        return view


class Shape(enum.IntEnum):
    """What the points of a stream are."""

    MONOTONIC_SUM = 0
    SUM = 1
    GAUGE = 2
    HISTOGRAM = 3


class Stream(typing.NamedTuple):
    """A stream, by all that an ask wants. Only a histogram has bounds."""

    scope: str
    name: str
    unit: str
    shape: Shape
    bounds: tuple[int, ...] = ()


class Streams(Items[Stream]):
    """The streams of a plan, under the numbers that an overflow tells, or those that a gateway holds points of."""

    def __len__(self) -> int:
        count = c_size_t()
        calls.kit_streams_len(self, byref(count))
        return count.value

    def _item(self, number: int) -> Stream:
        shape, count = c_uint8(), c_size_t()
        calls.kit_streams_shape(self, number, byref(shape), byref(count))
        room = (c_int64 * max(count.value, 1))()
        calls.kit_streams_bounds(self, number, room, count.value, byref(count))
        scope, name, unit = (copy_out(calls.kit_streams_text, self, number, part).decode() for part in range(3))
        return Stream(scope, name, unit, Shape(shape.value), tuple(room[: count.value]))


class Plan(Handle):
    """Instruments of any scopes, views, and for how many attribute sets each stream has points of their own. Many writers may start under
    one plan."""

    def __init__(
        self, instruments: Iterable[tuple[str, str, str, int]], limit: int = DEFAULT_LIMIT, views: Iterable[View] = ()
    ) -> None:
        super().__init__()
        with Handle() as made, Handle() as seen:
            for scope, name, unit, kind in instruments:
                calls.kit_instruments_add(made, *text(scope), *text(name), *text(unit), kind)
            for view in views:
                calls.kit_views_add(seen, view._make())
            calls.kit_plan_build(self, made, seen, limit)

    def streams(self) -> Streams:
        """What streams it comes to, under the numbers that an overflow tells."""
        made = Streams()
        calls.kit_plan_streams(self, made)
        return made
