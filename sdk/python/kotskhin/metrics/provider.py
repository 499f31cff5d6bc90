"""Providers and meters."""
import atexit
import contextlib
import itertools
import logging
import operator
import os
import sys
import threading
import time
import typing
import uuid
import weakref
from collections.abc import Callable, Iterable, Mapping
from ctypes import byref

import kotskhin.plan
from kotskhin.errors import Closed, Code, ForkedError, Refused, refusal
from kotskhin.export import Export
from kotskhin.metrics.exporters import ExportFailed
from kotskhin.metrics.instruments import Counter, Gauge, Histogram, Instrument, Refusal, UpDownCounter
from kotskhin.metrics.limits import Limits
from kotskhin.metrics.reader import PeriodicExportingMetricReader
from kotskhin.metrics.views import Applied, View, fold
from kotskhin.plan import DEFAULT_LIMIT, Plan, Streams
from kotskhin.writer import Writer, unique_instance

log = logging.getLogger("kotskhin")
# How many attribute sets, over all instruments, have a number of their own where nothing else is said.
DEFAULT_HELD = 10_000
SERVICE, INSTANCE = "service.name", "service.instance.id"
# A child of multiprocessing calls this last of what it calls at its end.
LAST = -1000
It = typing.TypeVar("It", bound=Instrument)
# What tells instruments of a provider apart: scope, name, unit and kind.
Key: typing.TypeAlias = "tuple[str, str, str, int]"
_providers: "weakref.WeakSet[MeterProvider]" = weakref.WeakSet()


def _in_child() -> None:
    for provider in list(_providers):
        provider._in_child()


os.register_at_fork(after_in_child=_in_child)


class ProviderStarted(RuntimeError):
    """An instrument is declared after its provider started, which a plan does not allow."""


class Resource(dict[str, object]):
    """Whose measurements they are: the attributes `service.name` and `service.instance.id`, which is a UUID, its text, or a number of 128
    bits. Without an instance one is drawn anew."""

    @classmethod
    def create(cls, attributes: Mapping[str, object] | None = None) -> "Resource":
        """The resource of these attributes."""
        return cls(attributes or {})

    def _identity(self) -> tuple[str, int | None]:
        if others := sorted(set(self) - {SERVICE, INSTANCE}):
            raise ValueError(f"of a resource {SERVICE} and {INSTANCE} are kept, and no {', '.join(map(str, others))}")
        service, instance = self.get(SERVICE, "unknown_service"), self.get(INSTANCE)
        if not isinstance(service, str):
            raise TypeError(f"{SERVICE} is a text, and not {service!r}")
        if isinstance(instance, str):
            instance = uuid.UUID(instance)
        if isinstance(instance, uuid.UUID):
            return service, instance.int
        if instance is not None and not isinstance(instance, typing.SupportsIndex):
            raise TypeError(f"{INSTANCE} is a UUID, its text, or a number, and not {instance!r}")
        return service, None if instance is None else operator.index(instance)


def _place() -> str:
    """The line of the caller outside of this package, to be told."""
    frame = sys._getframe()
    while frame.f_back and frame.f_globals.get("__name__", "").startswith("kotskhin."):
        frame = frame.f_back
    return f"{frame.f_code.co_filename}:{frame.f_lineno}"


class Meter:
    """Makes the instruments of one scope."""

    def __init__(self, provider: "MeterProvider", scope: str) -> None:
        self._provider, self.scope = provider, scope

    def create_counter(self, name: str, unit: str = "", description: str = "") -> Counter:
        """A sum that only rises. (descriptions are not kept)"""
        return self._provider._declare(Counter, self.scope, name, unit)

    def create_up_down_counter(self, name: str, unit: str = "", description: str = "") -> UpDownCounter:
        """A sum that rises and falls."""
        return self._provider._declare(UpDownCounter, self.scope, name, unit)

    def create_gauge(self, name: str, unit: str = "", description: str = "") -> Gauge:
        """The last value."""
        return self._provider._declare(Gauge, self.scope, name, unit)

    def create_histogram(
        self, name: str, unit: str = "", description: str = "", *, explicit_bucket_boundaries_advisory: Iterable[int] | None = None
    ) -> Histogram:
        """How values lie between bounds: those that are advised, unless a view is of this histogram."""
        return self._provider._declare(Histogram, self.scope, name, unit, explicit_bucket_boundaries_advisory)


class MeterProvider:
    """A writer, the instruments that record into it, and the readers that collect from it.

    It starts at the first recording or by `start`; instruments are declared before. `limit` is for how many attribute sets a stream has
    points of their own. `held` bounds how many sets, over all instruments, are looked up by a number; others are made anew at each
    recording. `on_refused` is called with each Refusal, in the thread that records; without one the first refusal of each kind is logged.
    What is refused while the hook is at work in the same thread is counted and logged: the hook is not called inside itself.

    A view that can't be applied to an instrument is told to the hook, too, and is for that instrument as if it were not there.

    After a fork the child's provider begins anew, under an instance of its own. Where the instance was given, the child's recordings are
    refused, since two writers would have one identity."""

    def __init__(
        self,
        resource: Mapping[str, object] | None = None,
        metric_readers: Iterable[PeriodicExportingMetricReader] = (),
        views: Iterable[View] = (),
        *,
        limit: int = DEFAULT_LIMIT,
        held: int = DEFAULT_HELD,
        on_refused: Callable[[Refusal], object] | None = None,
        shutdown_on_exit: bool = True,
    ) -> None:
        self.service, self._given = Resource.create(resource)._identity()
        self._views, self._limit, self._most_held, self._hook = [Applied(view) for view in views], limit, held, on_refused
        self._lock, self._telling, self._ends_at_exit = threading.RLock(), threading.local(), shutdown_on_exit
        # (replaced as a whole, so that what interrupts a declaration is seen)
        self._instruments: dict[Key, Instrument] = {}
        self._told: set[tuple[object, ...]] = set()
        self._passed_over: set[int] = set()
        self._count, self._is_closed, self._is_forked = 0, False, False
        self._unstarted()
        self._probe()
        self._readers = list(metric_readers)
        for reader in self._readers:
            reader._of(self)
        _providers.add(self)
        if shutdown_on_exit:
            atexit.register(_at_exit, weakref.ref(self))

    def _unstarted(self) -> None:
        self._writer: Writer | None = None
        # The writer of the first start that has one: of starts inside each other all have this one.
        self._chosen: dict[str, Writer] = {}
        self._started_at: str | None = None
        self._held_count, self._last_time, self._limits = 0, 0, Limits(self._limit)
        self.instance = unique_instance() if self._given is None else self._given

    def _probe(self) -> None:
        """Refuses at once what is wrong with identity, limit and the texts of views by themselves."""
        with self._plan([]) as plan:
            Writer(plan, self.service, self.instance, 0).close()

    def get_meter(
        self, name: str, version: str | None = None, schema_url: str | None = None, attributes: Mapping[str, object] | None = None
    ) -> Meter:
        """The meter of a scope, of which the name alone is kept."""
        return Meter(self, name)

    @property
    def refused(self) -> int:
        """How many recordings were refused."""
        return self._count

    @property
    def streams(self) -> Streams:
        """The streams of its plan, under the numbers that an overflow tells. It starts the provider."""
        self.start()
        with self._plan(self._instruments.values()) as plan:
            return plan.streams()

    def _declare(self, made: type[It], scope: str, name: str, unit: str, advised: Iterable[int] | None = None) -> It:
        """The instrument of these words: one that is declared already is the same."""
        bounds = None if advised is None else tuple(advised)
        key = scope, fold(name) if isinstance(name, str) else name, unit, made.kind.value
        while True:
            with self._lock:
                known = self._instruments
                if key in known:
                    return typing.cast(It, known[key])
                if self._started_at:
                    told = f"the instrument {name!r} of {scope!r} is declared at {_place()}, after its provider started"
                    raise ProviderStarted(f"{told} at {self._started_at}: declare all instruments before the first recording")
                new = made(self, len(known), scope, name, unit, bounds)
                self._check(new)
                grown: dict[Key, Instrument] = {**known}
                grown[key] = new
                # (what interrupts this thread, as a signal's handler, may have declared another one meanwhile, or started)
                if self._instruments is known and not self._started_at:
                    self._instruments = grown
                    break
        self._tell_what_is_passed_over(new)
        return new

    def _check(self, new: Instrument) -> None:
        """Raises what the kit refuses of an instrument, by itself and beside those that are declared."""
        bounds = [] if new._advised is None else [kotskhin.plan.View(new.name, aggregation=new._advised)]
        try:
            Plan([(new.scope, new.name, new.unit, new.kind)], 1, bounds).close()
        except Refused as fault:
            fault.of = f"the instrument {new.name!r} of {new.scope!r}"
            raise
        if self._views:
            self._plan([*self._instruments.values(), new]).close()

    def _tell_what_is_passed_over(self, new: Instrument) -> None:
        """Tells of each view that can't be applied to an instrument: once where that is the view's own fault, and not the pair's."""
        for number, applied in enumerate(self._views):
            fault = applied.faults.get(new.kind)
            if not fault or not applied.view._matches(new):
                continue
            is_own = fault.code is not Code.BAD_AGGREGATION
            if is_own and number in self._passed_over:
                continue
            self._passed_over.add(number)
            why = refusal(fault.code, number) if is_own else refusal(fault.code, new._number, number)
            self._tell(Refusal(new, None, None, why), "%r: a view is passed over: %s", new, why)

    def _plan(self, instruments: Iterable[Instrument]) -> Plan:
        """The plan of instruments, each under its own name, but for those of bounds that are advised."""
        views, rows, of = [view for applied in self._views for view in applied.kit_views()], [], list(instruments)
        taken = {fold(one.name) for one in of} | {fold(view.name) for view in views if view.name is not None}
        for instrument in of:
            name = instrument.name
            if instrument._advised is not None and not any(applied.is_of(instrument) for applied in self._views):
                name, view = _advice(instrument, taken)
                views.append(view)
            rows.append((instrument.scope, name, instrument.unit, instrument.kind))
        return Plan(rows, self._limit, views)

    def start(self) -> None:
        """Starts it, if it has not: its instruments record from now on, and no other is declared. Raises what the plan refuses."""
        with self._lock:
            if self._writer or self._is_closed or self._is_forked:
                return
            place = _place()
            # (else it is a start inside a start, of what interrupts this thread: the outer one does what is to be done once)
            is_outermost = self._started_at is None
            if is_outermost:
                self._started_at = place
            try:
                self._begin()
            finally:
                if is_outermost and not self._writer:
                    self._started_at = None
            if not is_outermost or not self._writer:
                return
            for reader in self._readers:
                reader._begin()
        self._end_with_child()
        # (once all is done, since a handler of logs may record)
        for of in self._views:
            if not any(map(of.view._matches, self._instruments.values())):
                log.warning("%s is of no instrument", of.view)

    def _begin(self) -> None:
        """Makes the writer and records into it from now on, or into that of a start inside this one: whichever has it first, all record
        into one."""
        instruments = list(self._instruments.values())
        with self._plan(instruments) as plan:
            made = Writer(plan, self.service, self.instance, time.time_ns())
        writer = self._chosen.setdefault("writer", made)
        self._last_time = max(self._last_time, writer.start)
        for instrument in instruments:
            instrument._at = byref(writer._raw)
        # (now other threads see it: none holds a set before its instrument knows where to record)
        if not self._is_closed:
            self._writer = writer

    def _writer_for(self, instrument: Instrument) -> Writer:
        """The writer that an instrument records into, which is started if it has not."""
        if self._is_forked:
            raise ForkedError("this MeterProvider was made before a fork, under an instance that was given: make one in each process")
        if not self._writer:
            self.start()
        if not self._writer:
            raise Closed(Code.CLOSED)
        return self._writer

    def _has_room(self) -> bool:
        """Whether one more set may be held."""
        return self._held_count < self._most_held

    def _refuse(self, of: Refusal) -> None:
        """Counts a recording that is refused, and tells it."""
        with self._lock:
            self._count += 1
        self._tell(of, "%r: a recording of %r is refused: %s", of.instrument, of.value, of.why)

    def _tell(self, of: Refusal, said: str, *words: object) -> None:
        """Tells the hook. Where there is none, or it is at work in this thread, the first of each kind is logged: what hooks and handlers
        of logs record may be refused, too."""
        is_outermost = not getattr(self._telling, "is_on", False)
        self._telling.is_on = True
        try:
            if self._hook and is_outermost:
                self._hook(of)
            elif self._is_first(of):
                log.warning(said, *words)
        except Exception:
            # (a recording raises nothing of what a hook does, nor of what a handler of logs does)
            with contextlib.suppress(Exception):
                log.exception("on_refused failed")
        finally:
            if is_outermost:
                self._telling.is_on = False

    def _is_first(self, of: Refusal) -> bool:
        """Whether none of its kind was logged; from now on it was."""
        kind = of.instrument, type(of.why), getattr(of.why, "stream", None)
        with self._lock:
            is_first = kind not in self._told
            self._told.add(kind)
            return is_first

    def collect(self) -> Export | None:
        """All that was recorded since the start, at the time of the clock, or right after the last collection where the clock was put back.
        None where nothing has started, or after a shutdown."""
        with self._lock:
            if not self._writer or self._is_closed or self._is_forked:
                return None
            export = self._collect_by(self._writer.collect)
        self._tell_of_limits(export)
        return export

    def _collect_by(self, call: Callable[[int], Export]) -> Export:
        self._last_time = max(time.time_ns(), self._last_time + 1)
        return call(self._last_time)

    def _tell_of_limits(self, export: Export) -> None:
        """Tells of each stream that has come beyond its limit of attribute sets, once, with the instrument that it is of."""
        try:
            found = self._limits.beyond(export)
        except Refused:
            # (memory was refused: the export goes its way, and the next collection looks again)
            return
        for why in found:
            for of in self._instruments.values():
                if why.stream in self._plan([of]).streams():
                    self._tell(Refusal(of, None, None, why), "%r: %s", of, why)

    def force_flush(self, timeout_millis: float = 30_000) -> bool:
        """Collects and exports by each reader now. Raises what failed first."""
        ends = time.monotonic() + timeout_millis / 1000
        faults = [fault for reader in self._readers if (fault := _fault_of(reader._ask, None, ends))]
        if faults:
            raise faults[0]
        return True

    def shutdown(self, timeout_millis: float = 30_000) -> None:
        """Collects for the last time, and closes the writer: recordings are refused as Closed from then on. Each reader exports that, and
        ends. Raises ExportFailed of the first that fails, with the export, which no later one covers. Later calls do nothing."""
        with self._lock:
            if self._is_closed or self._is_forked:
                return
            last = self._collect_by(self._writer.shutdown) if self._writer else None
            self._is_closed = True
        if last:
            self._tell_of_limits(last)
        ends = time.monotonic() + timeout_millis / 1000
        faults = [fault for reader in self._readers if (fault := _fault_of(reader._end, last, ends))]
        if faults:
            raise faults[0] if isinstance(faults[0], ExportFailed) else ExportFailed("the last export", faults[0], last)

    def __enter__(self) -> "MeterProvider":
        return self

    def __exit__(self, *_: object) -> None:
        self.shutdown()

    def _in_child(self) -> None:
        """After a fork: threads and locks of the parent are not here, and its writer is not ours."""
        self._lock, self._is_forked = threading.RLock(), self._given is not None and self._writer is not None
        self._unstarted()
        for instrument in self._instruments.values():
            instrument._begin_anew()
        for of in self._readers:
            of._of(self)

    def _end_with_child(self) -> None:
        """Sees to it that it is shut down at the end of a child of multiprocessing, which ends by os._exit, and calls finalizers before.

        Those that are there when a child begins are forgotten, as where its main module has started this: so it is done again then."""
        multiprocessing, util = map(sys.modules.get, ("multiprocessing", "multiprocessing.util"))
        if multiprocessing is None or util is None or not self._ends_at_exit:
            return
        util.register_after_fork(self, MeterProvider._end_with_child)
        if multiprocessing.parent_process() is not None:
            util.Finalize(self, _at_exit, (weakref.ref(self),), exitpriority=LAST)


def _advice(of: Instrument, taken: set[str]) -> tuple[str, kotskhin.plan.View]:
    """Bounds that are advised: a name that nothing else has, for the instrument in the plan, and a view of that name, which gives the
    stream the instrument's own name and those bounds. (a view of the instrument's name would be of another unit's instrument, too)"""
    name = next(name for name in map("advised.{}".format, itertools.count()) if name not in taken)
    taken.add(name)
    return name, kotskhin.plan.View(name, rename=of.name, aggregation=of._advised)


def _fault_of(call: Callable[..., object], *given: object) -> Exception | None:
    """What a call raises."""
    try:
        call(*given)
    except Exception as fault:
        return fault
    return None


def _at_exit(of: "weakref.ref[MeterProvider]") -> None:
    provider = of()
    if provider and (fault := _fault_of(provider.shutdown)):
        log.warning("%s", fault)
