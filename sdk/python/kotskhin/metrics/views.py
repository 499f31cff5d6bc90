"""Views, by the words of OpenTelemetry's SDK."""
import dataclasses
import typing
from collections.abc import Iterable, Sequence

import kotskhin.plan
from kotskhin.errors import BadAggregation, BadBounds, BadRename, Refused, WildcardRename
from kotskhin.plan import Aggregation, Kind, Plan

if typing.TYPE_CHECKING:
    from kotskhin.metrics.instruments import Instrument


class DefaultAggregation:
    """As the kind of the instrument does."""

    made: typing.ClassVar = Aggregation.DEFAULT


class SumAggregation:
    """A sum."""

    made: typing.ClassVar = Aggregation.SUM


class LastValueAggregation:
    """The last value."""

    made: typing.ClassVar = Aggregation.LAST_VALUE


class DropAggregation:
    """No stream at all."""

    made: typing.ClassVar = Aggregation.DROP


@dataclasses.dataclass(frozen=True)
class ExplicitBucketHistogramAggregation:
    """A histogram of bounds that rise, which are whole numbers."""

    boundaries: Iterable[int]

    def __post_init__(self) -> None:
        # (whatever is given is read once)
        object.__setattr__(self, "boundaries", tuple(self.boundaries))

    @property
    def made(self) -> Sequence[int]:
        """The bounds."""
        return tuple(self.boundaries)


AnyAggregation = typing.Union[
    DefaultAggregation, SumAggregation, LastValueAggregation, DropAggregation, ExplicitBucketHistogramAggregation
]


def fold(name: str) -> str:
    """A name of an instrument as others are compared with it: the letters of ASCII have no case."""
    return name.lower() if name.isascii() else name


@dataclasses.dataclass(frozen=True)
class View:
    """Which instruments a view is of, and what it makes of them. Without an instrument's name, or with "*", it is of every one."""

    instrument_type: "type[Instrument] | None" = None
    instrument_name: str | None = None
    meter_name: str | None = None
    name: str | None = None
    attribute_keys: Iterable[str] | None = None
    aggregation: AnyAggregation | None = None

    def __post_init__(self) -> None:
        if self.instrument_name and self.instrument_name != "*" and any(sign in self.instrument_name for sign in "*?"):
            raise ValueError(f"a view is of one name or of every one: {self.instrument_name!r} is neither")
        if isinstance(self.attribute_keys, str):
            raise TypeError(f"attribute_keys are a list of texts, not the text {self.attribute_keys!r}")
        if self.attribute_keys is not None:
            object.__setattr__(self, "attribute_keys", tuple(self.attribute_keys))

    @property
    def _of(self) -> str | None:
        """The name that it is of; none where it is of every one."""
        return None if self.instrument_name == "*" else self.instrument_name

    def _matches(self, instrument: "Instrument") -> bool:
        """Whether it is of an instrument."""
        is_named = self._of is None or fold(self._of) == fold(instrument.name)
        return is_named and self._kind in (None, instrument.kind) and self.meter_name in (None, instrument.scope)

    @property
    def _kind(self) -> Kind | None:
        if self.instrument_type is None:
            return None
        kind = getattr(self.instrument_type, "kind", None)
        if not isinstance(kind, Kind):
            raise TypeError(f"an instrument's type is Counter, UpDownCounter, Gauge or Histogram, not {self.instrument_type!r}")
        return kind

    def _to_kit(self) -> kotskhin.plan.View:
        """The view of the kit."""
        aggregation = None if self.aggregation is None else self.aggregation.made
        return kotskhin.plan.View(self._of, self._kind, self.meter_name, self.name, self.attribute_keys, aggregation)


class Applied:
    """A view, and to which kinds of instruments it can be applied. Of any other it is as if it were not there.

    What the kit refuses of a view is of the view alone, or of its aggregation and an instrument's kind: so it is asked once, with an
    instrument of each kind."""

    def __init__(self, view: View) -> None:
        self.view, self._kit_view = view, view._to_kit()
        self.faults: dict[Kind, Refused] = {}
        tried = dataclasses.replace(self._kit_view, name=None if self._kit_view.name is None else "tried", kind=None, scope=None)
        for kind in Kind:
            try:
                Plan([("", "tried", "", kind)], 1, [tried]).close()
            except (BadBounds, BadRename, WildcardRename, BadAggregation) as fault:
                self.faults[kind] = fault

    def is_of(self, instrument: "Instrument") -> bool:
        """Whether it makes a stream of an instrument."""
        return self.view._matches(instrument) and instrument.kind not in self.faults

    def kit_views(self) -> list[kotskhin.plan.View]:
        """The views of the kit: where it can't be applied to each kind, one for each that it can be applied to."""
        if not self.faults:
            return [self._kit_view]
        kinds = [kind for kind in Kind if kind not in self.faults and self._kit_view.kind in (None, kind)]
        return [dataclasses.replace(self._kit_view, kind=kind) for kind in kinds]
