"""OpenTelemetry's names in trouble: what interrupts a start, hooks that are refused, views that can't be applied, limits, and attributes of
odd types. None of it loses a recording, or is silent."""
import collections
import contextlib
import enum
import http
import itertools
import logging
import pathlib
import pickle
import signal
import sys
import threading
import types
import unittest
import unittest.mock

SDK = pathlib.Path(__file__).resolve().parents[3] / "sdk"
sys.path.insert(0, str(SDK / "python"))
import kotskhin
from kotskhin import Ask, Gateway
from kotskhin.metrics import (
    Counter, CardinalityLimit, DropAggregation, ExplicitBucketHistogramAggregation, ExportFailed, HttpRefused, MeterProvider, NotTaken,
    PeriodicExportingMetricReader, ProviderStarted, SumAggregation, View,
)

PACKAGE = str(SDK / "python" / "kotskhin")


def make_provider(*readers, **given):
    return MeterProvider({"service.name": "shop"}, readers, shutdown_on_exit=False, **given)


def reader(exporter):
    """A reader that collects when it is asked alone."""
    return PeriodicExportingMetricReader(exporter, 3_600_000)


def told(export, ask):
    """The rows that an export comes to, by their attributes: of each its total."""
    with Gateway(1) as gateway:
        gateway.take(export)
        return [(row.attributes, row.total) for row in gateway.rows(ask)]


def total(export, name="requests"):
    """What all rows of a counter come to."""
    return sum(count for _, count in told(export, Ask.sum("app", name, ""))) if export else 0


def interrupted(work, at, then):
    """Runs work. At one place of the package, the one of this number that it comes to, something else is run, as a signal's handler is:
    Python runs these where a function begins, and where one of C has returned. Tells whether work came to that place."""
    places, is_reached = itertools.count(), False

    def look(frame, event, _):
        nonlocal is_reached
        if event in ("call", "c_return") and frame.f_code.co_filename.startswith(PACKAGE) and next(places) == at:
            is_reached = True
            then()

    sys.setprofile(look)
    try:
        work()
    finally:
        sys.setprofile(None)
    return is_reached


class Handler(logging.Handler):
    """A handler of the package's logs that does something at each line."""

    def __init__(self, work):
        super().__init__()
        self.work = work

    def emit(self, record):
        self.work()

    def __enter__(self):
        logging.getLogger("kotskhin").addHandler(self)
        return self

    def __exit__(self, *_):
        logging.getLogger("kotskhin").removeHandler(self)


class Interrupted(unittest.TestCase):
    """What records while a provider starts, on the same thread: a signal's handler, a __del__, a handler of logs."""

    @unittest.mock.patch.object(PeriodicExportingMetricReader, "_begin", autospec=True, side_effect=PeriodicExportingMetricReader._begin)
    def test_a_recording_at_each_place_of_the_first_one(self, begun):
        for at in itertools.count():
            exports = []
            provider = make_provider(reader(exports.append))
            requests, others = (provider.get_meter("app").create_counter(name) for name in ("requests", "others"))

            def then():
                requests.add(10)
                others.add(100, {"route": "/"})

            is_reached = interrupted(lambda: requests.add(1), at, then)
            requests.add(1000)
            export = provider.collect()
            wanted = (1011, 100, 0) if is_reached else (1001, 0, 0)
            self.assertEqual((total(export), total(export, "others"), provider.refused), wanted, at)
            provider.shutdown()
            self.assertEqual((begun.call_count, len(exports)), (1, 1))
            begun.reset_mock()
            if not is_reached:
                break
        self.assertGreater(at, 50)

    def test_a_shutdown_at_each_place_of_the_first_recording(self):
        for at in itertools.count():
            exports = []
            provider = make_provider(reader(exports.append), on_refused=lambda of: None)
            requests = provider.get_meter("app").create_counter("requests")
            is_reached = interrupted(lambda: requests.add(1), at, provider.shutdown)
            provider.shutdown()
            self.assertEqual(sum(map(total, exports)) + provider.refused, 1, at)
            if not is_reached:
                break

    def test_a_start_at_each_place_of_a_declaration(self):
        for at in itertools.count():
            provider = make_provider(views=[View(instrument_name="absent", name="other")])
            first, made = provider.get_meter("app").create_counter("first"), []

            def declared():
                with contextlib.suppress(ProviderStarted):
                    made.append(provider.get_meter("app").create_counter("requests"))

            logging.disable()
            is_reached = interrupted(declared, at, lambda: first.add(1))
            first.add(1)
            for one in made:
                one.add(5)
            logging.disable(logging.NOTSET)
            export = provider.collect()
            self.assertEqual((total(export), total(export, "first"), provider.refused), (5 * len(made), 1 + is_reached, 0), at)
            if not is_reached:
                break

    def test_two_declarations_inside_each_other(self):
        for at in itertools.count():
            provider = make_provider()
            meter, made = provider.get_meter("app"), []

            def declare(name):
                made.append(meter.create_counter(name))

            is_reached = interrupted(lambda: declare("requests"), at, lambda: declare("inner"))
            for one in made:
                one.add(7)
            export = provider.collect()
            self.assertEqual((total(export), total(export, "inner"), provider.refused), (7, 7 * is_reached, 0), at)
            if not is_reached:
                break

    def test_signals(self):
        handled, current = [0], [None]

        def handle(*_):
            if current[0]:
                handled[0] += 1
                current[0].add(1, {"by": "signal"})

        before = signal.signal(signal.SIGALRM, handle)
        try:
            recorded = counted = refused = 0
            # (how many signals come within a call hangs on the machine: 700 turns, and more until there were enough)
            for turn in range(70_000):
                if turn >= 700 and handled[0] > 100:
                    break
                provider = make_provider()
                current[0] = provider.get_meter("app").create_counter("requests")
                signal.setitimer(signal.ITIMER_REAL, 1e-5 * (1 + turn % 40))
                current[0].add(1, {"by": "us"})
                signal.setitimer(signal.ITIMER_REAL, 0)
                recorded += 1
                requests, current[0] = current[0], None
                counted, refused = counted + total(provider.collect()), refused + provider.refused
                self.assertEqual((counted, refused), (recorded + handled[0], 0), requests)
        finally:
            signal.setitimer(signal.ITIMER_REAL, 0)
            signal.signal(signal.SIGALRM, before)
        self.assertGreater(handled[0], 100)

    def test_a_handler_of_logs_while_it_starts(self):
        provider = make_provider(reader(lambda export: None))
        requests = provider.get_meter("app").create_counter("requests")
        with Handler(lambda: requests.add(10)), unittest.mock.patch.object(threading.Thread, "start", side_effect=RuntimeError("none")):
            requests.add(1)
        self.assertEqual((total(provider.collect()), provider.refused), (11, 0))


class Hooks(unittest.TestCase):
    def test_one_that_is_refused_itself(self):
        called = []

        def hook(of):
            called.append(of)
            requests.add(-2)

        provider = make_provider(on_refused=hook)
        requests = provider.get_meter("app").create_counter("requests")
        with self.assertLogs("kotskhin", logging.WARNING) as logged:
            for _ in range(3):
                requests.add(-1)
        self.assertEqual(([of.value for of in called], provider.refused, len(logged.output)), ([-1] * 3, 6, 1))
        self.assertIn("a recording of -2 is refused", logged.output[0])

    def test_handlers_of_logs_that_are_refused_themselves(self):
        for hook in (None, lambda of: 1 / 0):
            provider = make_provider(on_refused=hook)
            requests = provider.get_meter("app").create_counter("requests")

            def work():
                requests.add(-2)
                raise KeyError("a handler that fails")

            with Handler(work):
                requests.add(-1)
                requests.add("1")
            self.assertLess(provider.refused, 12)
            requests.add(1)
            self.assertEqual(total(provider.collect()), 1)

    def test_hooks_of_two_providers_that_record_into_each_other(self):
        one = make_provider(on_refused=lambda of: second.add(-1))
        two = make_provider(on_refused=lambda of: first.add(-1))
        first, second = (each.get_meter("app").create_counter("requests") for each in (one, two))
        logging.disable()
        first.add(-1)
        logging.disable(logging.NOTSET)
        self.assertEqual((one.refused, two.refused), (2, 1))


class Views(unittest.TestCase):
    def test_one_that_cannot_be_applied_is_told_once_and_silences_nobody(self):
        views = [
            View(name="all"), View(instrument_name="load", name="9"), View(aggregation=ExplicitBucketHistogramAggregation([5])),
            View(instrument_name="load", attribute_keys=["route"]),
            View(instrument_name="bad", aggregation=ExplicitBucketHistogramAggregation([2, 1])),
        ]
        refused = []
        provider = make_provider(views=views, on_refused=refused.append)
        meter = provider.get_meter("app")
        load, size, depth = meter.create_counter("load"), meter.create_histogram("size"), meter.create_up_down_counter("depth")
        load.add(1, {"route": "/", "user": 5})
        size.record(6)
        depth.add(-3)
        wanted = [
            (load, None, None, kotskhin.WildcardRename, 0, None), (load, None, None, kotskhin.BadRename, 1, None),
            (depth, None, None, kotskhin.BadAggregation, 2, 2),
        ]
        self.assertEqual([(*of[:3], type(of.why), of.why.place, of.why.second) for of in refused], wanted)
        self.assertEqual(provider.refused, 0)
        export = provider.collect()
        self.assertEqual(told(export, Ask.sum("app", "load", "")), [({"route": "/"}, 1)])
        self.assertEqual(told(export, Ask.histogram("app", "size", "", [5])), [({}, 6)])
        self.assertEqual(told(export, Ask.sum("app", "depth", "", False)), [({}, -3)])

    def test_without_a_hook_it_is_logged(self):
        provider = make_provider(views=[View(instrument_name="load", name="9")])
        with self.assertLogs("kotskhin", logging.WARNING) as logged:
            load = provider.get_meter("app").create_counter("load")
            load.add(1)
        self.assertEqual(len(logged.output), 1)
        self.assertRegex(logged.output[0], r"Counter\('app', 'load', ''\): a view is passed over: BAD_RENAME: .* \(view 0\)")

    def test_one_stream_of_two_instruments(self):
        provider = make_provider(views=[View(instrument_name="a", name="b")])
        meter = provider.get_meter("app")
        one = meter.create_counter("a")
        with self.assertRaises(kotskhin.SameStream) as caught:
            meter.create_counter("B")
        self.assertEqual((caught.exception.place, caught.exception.second), (0, 1))
        for wrong in ("9 lives", ""):
            with self.assertRaises(kotskhin.BadName):
                meter.create_counter(wrong)
        fine = meter.create_counter("fine")
        one.add(1)
        fine.add(2)
        export = provider.collect()
        self.assertEqual((total(export, "b"), total(export, "fine"), provider.refused), (1, 2, 0))

    def test_advised_bounds(self):
        """Names of the plan's own are nobody else's, and views of the user go before advice."""
        views = [View(instrument_name="Advised.2", aggregation=SumAggregation()), View(meter_name="other", aggregation=DropAggregation())]
        provider = make_provider(views=views)
        meter = provider.get_meter("app")
        for name in ("advised.0", "ADVISED.1"):
            meter.create_histogram(name)
        meter.create_histogram("size", explicit_bucket_boundaries_advisory=[1])
        self.assertEqual([(of.name, of.bounds) for of in provider.streams if of.bounds == (1,)], [("size", (1,))])
        self.assertEqual(len(provider.streams), 3)
        provider = make_provider(views=views)
        for scope, name in (("app", "advised.2"), ("other", "size"), ("app", "Size.Of")):
            provider.get_meter(scope).create_histogram(name, "s", explicit_bucket_boundaries_advisory=[1])
        told_of = [(of.scope, of.name, of.unit, of.shape, of.bounds) for of in provider.streams]
        shapes = kotskhin.Shape
        self.assertEqual(told_of, [("app", "advised.2", "s", shapes.MONOTONIC_SUM, ()), ("app", "size.of", "s", shapes.HISTOGRAM, (1,))])

    def test_an_overflow_tells_the_streams_number(self):
        refused = []
        provider = make_provider(on_refused=refused.append)
        meter = provider.get_meter("app")
        meter.create_histogram("a", explicit_bucket_boundaries_advisory=[1])
        size = meter.create_histogram("b", explicit_bucket_boundaries_advisory=[2])
        for _ in range(2):
            size.record((1 << 63) - 1)
        seen = [(type(refusal.why), refusal.instrument, provider.streams[refusal.why.place].name) for refusal in refused]
        self.assertEqual(seen, [(kotskhin.Overflow, size, "b")])


class Limit(unittest.TestCase):
    def test_each_stream_is_told_once(self):
        refused = []
        provider = make_provider(limit=2, on_refused=refused.append, views=[View(instrument_name="b", name="c"), View(instrument_name="b")])
        one, two, few = map(provider.get_meter("app").create_counter, ("A", "b", "few"))
        few.add(1)
        for turn in range(3):
            for number in range(turn + 2):
                one.add(1, {"n": number})
                two.add(1, {"n": number})
            provider.collect()
        self.assertEqual([(of.instrument, of.value, of.why.stream.name, of.why.limit) for of in refused],
                         [(one, None, "a", 2), (two, None, "b", 2), (two, None, "c", 2)])
        self.assertIn("of 'app' has points of its own for 2 attribute sets: ", str(refused[0].why))
        self.assertIn("otel.metric.overflow=true", str(refused[0].why))
        self.assertEqual(provider.refused, 0)

    def test_without_a_hook_it_is_logged(self):
        provider = make_provider(reader(lambda export: None), limit=1)
        requests = provider.get_meter("app").create_counter("requests")
        for number in range(3):
            requests.add(1, {"n": number})
        with self.assertLogs("kotskhin", logging.WARNING) as logged:
            provider.shutdown()
        self.assertEqual(len(logged.output), 1)
        self.assertIn("CARDINALITY_LIMIT", logged.output[0])

    def test_exports_below_it_are_not_looked_into(self):
        provider = make_provider(limit=3)
        requests = provider.get_meter("app").create_counter("requests")
        with unittest.mock.patch("kotskhin.metrics.limits.Gateway", side_effect=AssertionError("it is looked into")) as made:
            for number in range(3):
                requests.add(1, {"n": number})
                provider.collect()
            self.assertEqual(made.call_count, 0)
            requests.add(1, {"n": 3})
            with self.assertRaises(AssertionError):
                provider.collect()


class Text(str):
    pass


class Colour(str, enum.Enum):
    RED = "red"


class Level(enum.IntEnum):
    HIGH = 3


class Wild(str):
    """A text that fails where it is hashed or compared."""

    def __hash__(self):
        raise RuntimeError("no hash")

    def __eq__(self, other):
        raise RuntimeError("no equality")


class OddAttributes(unittest.TestCase):
    def setUp(self):
        self.refused = []
        self.provider = make_provider(on_refused=self.refused.append)
        self.requests = self.provider.get_meter("app").create_counter("requests")

    def test_they_are_kept_by_their_plain_value(self):
        sets = [
            ({"a": http.HTTPStatus.OK}, {"a": 200}), (collections.OrderedDict(a="x"), {"a": "x"}),
            (types.MappingProxyType({"a": 5}), {"a": 5}), ({"a": Text("y")}, {"a": "y"}), ({Text("a"): True}, {"a": True}),
            ({"a": Colour.RED}, {"a": "red"}), ({"a": Level.HIGH}, {"a": 3}), ({"a": Wild("w")}, {"a": "w"}),
            ([("a", 1), ("a", "z")], {"a": "z"}), (collections.defaultdict(int, a=7), {"a": 7}),
        ]
        for _ in range(3):
            for odd, plain in sets:
                self.requests.add(1, odd)
                self.requests.add(1, plain)
            self.requests.add(1, (pair for pair in [("a", "generated")]))
        rows = told(self.provider.collect(), Ask.sum("app", "requests", ""))
        wanted = [*((plain, 6) for _, plain in sets), ({"a": "generated"}, 3)]
        self.assertEqual(sorted(map(repr, rows)), sorted(map(repr, wanted)))
        self.assertEqual([type(value) for of, _ in rows for value in of.values() if type(value) not in (str, int, bool)], [])
        self.assertEqual((self.refused, self.provider._held_count), ([], len(rows)))

    def test_they_use_up_no_places(self):
        odd = [
            lambda: {"status": http.HTTPStatus.OK}, lambda: collections.OrderedDict(route="/"),
            lambda: types.MappingProxyType({"route": "/"}), lambda: (pair for pair in [("route", "/")]),
            lambda: {"route": Text("/")}, lambda: {"a": 1.5}, lambda: {"a": [1]}, lambda: 5,
        ]
        for number in range(12_000):
            self.requests.add(1, odd[number % len(odd)]())
        self.assertLessEqual(self.provider._held_count, 2)
        sets = [{"route": f"/{number}", "method": "GET"} for number in range(50)]
        for _ in range(2):
            for of in sets:
                self.requests.add(1, of)
        with unittest.mock.patch.object(Counter, "_record_anew", side_effect=AssertionError("it is not held")):
            for of in sets:
                self.requests.add(1, of)
        self.assertEqual(total(self.provider.collect()), 12_000 * 5 // 8 + 150)

    def test_what_is_no_attribute_is_refused(self):
        wrong = [{"a": 1.5}, {"a": None}, {"a": b"x"}, {"a": [1]}, {5: "a"}, 5, 0, object(), "ab", {"a": Level}, [("a",)], {"a": {}}]
        for of in wrong * 2:
            self.requests.add(1, of)
        self.assertEqual((self.provider.refused, total(self.provider.collect())), (len(wrong) * 2, 0))

    def test_by_the_name_of_the_parameter(self):
        meter = make_provider().get_meter("app")
        sums = meter.create_counter("a").add, meter.create_up_down_counter("b").add
        for call in (*sums, meter.create_gauge("c").set, meter.create_histogram("d").record):
            call(amount=1)
            call(amount=2, attributes={"a": 1}, context=None)


class Exceptions(unittest.TestCase):
    def test_they_are_pickled(self):
        provider = make_provider()
        provider.get_meter("app").create_counter("requests").add(7)
        stream = provider.streams[0]
        for why in (
            ExportFailed("an export", HttpRefused(403, "Forbidden", "no"), None),
            ExportFailed("an export", OSError(5, "no"), provider.collect()),
            HttpRefused(503, "Service Unavailable", "busy"), NotTaken(points=3, message="late"), CardinalityLimit(stream, 5),
            ProviderStarted("late"), kotskhin.ForkedError("no"), kotskhin.Closed(kotskhin.Code.CLOSED),
            kotskhin.Overflow(kotskhin.Code.OVERFLOW, 3),
        ):
            again = pickle.loads(pickle.dumps(why))
            self.assertEqual((type(again), str(again)), (type(why), str(why)))
        again = pickle.loads(pickle.dumps(ExportFailed("the last export", NotTaken(points=3), provider.collect())))
        self.assertEqual((total(again.unsent), again.why.points, again.__cause__), (7, 3, again.why))


if __name__ == "__main__":
    unittest.main(verbosity=2)
