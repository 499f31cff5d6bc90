"""OpenTelemetry's names in Python: what they record, what they refuse, readers, exporters, threads and forks."""
import contextlib
import http.server
import io
import logging
import os
import pathlib
import random
import re
import socket
import subprocess
import sys
import tempfile
import threading
import time
import unittest
import urllib.error
import urllib.request
import uuid

SDK = pathlib.Path(__file__).resolve().parents[3] / "sdk"
sys.path.insert(0, str(SDK / "python"))
import kotskhin
from kotskhin import Ask, Export, Gateway
from kotskhin.metrics import (
    ConsoleMetricExporter, Counter, DropAggregation, ExplicitBucketHistogramAggregation, ExportFailed, FileExporter, FirstOf,
    Histogram, HttpExporter, HttpRefused, MeterProvider, NotTaken, PeriodicExportingMetricReader, ProviderStarted, Resource,
    SumAggregation, View,
)

SHOP = {"service.name": "shop"}


def make_provider(*readers, **given):
    return MeterProvider(SHOP, readers, shutdown_on_exit=False, **given)


def reader(exporter, **given):
    """A reader that collects when it is asked alone."""
    return PeriodicExportingMetricReader(exporter, 3_600_000, **given)


def rows_of(export, ask):
    """The rows that an export comes to: each its attributes and its total."""
    with Gateway(1) as gateway, export:
        gateway.take(export)
        return [(row.attributes, row.total if row.value is None else row.value) for row in gateway.rows(ask)]


def totals(of, name="requests"):
    return rows_of(of.collect(), Ask.sum("app", name, ""))


class Recording(unittest.TestCase):
    def setUp(self):
        self.refused = []
        self.provider = make_provider(on_refused=self.refused.append)
        self.meter = self.provider.get_meter("app", "1.0")
        self.requests = self.meter.create_counter("requests")

    def tearDown(self):
        self.provider.shutdown()

    def test_each_kind(self):
        open_, depth = self.meter.create_up_down_counter("open"), self.meter.create_gauge("depth")
        size = self.meter.create_histogram("size", unit="By", explicit_bucket_boundaries_advisory=[10, 100])
        for value in (1, 2, 3):
            self.requests.add(value, {"route": "/"})
            open_.add(-value)
            depth.set(value - 5)
            size.record(value * 50)
        export = self.provider.collect()
        gateway = Gateway(1)
        gateway.take(export)
        self.assertEqual(rows_of(self.provider.collect(), Ask.gauge("app", "depth", "")), [({}, -2)])
        self.assertEqual(totals(self.provider), [({"route": "/"}, 6)])
        row = gateway.rows(Ask.histogram("app", "size", "By", [10, 100]))[0]
        self.assertEqual((row.count, row.total, row.buckets, row.least, row.greatest), (3, 300, (0, 2, 1), 50, 150))
        self.assertEqual(gateway.rows(Ask.sum("app", "open", "", False))[0].total, -6)
        self.assertEqual((self.refused, self.provider.refused), ([], 0))

    def test_values_of_attributes_are_told_apart(self):
        """A truth, a whole number and a text are three values, also where Python says that they are equal; the order of keys is none."""
        for turn in range(3):
            for value in (True, 1, "1", False, 0):
                self.requests.add(1, {"v": value})
            self.requests.add(10, {"a": 1, "b": 2})
            self.requests.add(10, {"b": 2, "a": 1})
            self.requests.add(100, [("b", 2), ("a", 1)])
            self.requests.add(1000)
            self.requests.add(1000, {})
        told = totals(self.provider)
        self.assertEqual([total for _, total in told], [6000, 360] + [3] * 5)
        self.assertEqual([repr(attributes["v"]) for attributes, _ in told[2:]], ["'1'", "False", "True", "0", "1"])
        self.assertEqual(self.refused, [])

    def test_what_is_refused_is_counted_and_told(self):
        wrong = [
            (-1, None, kotskhin.Negative), (1 << 63, None, OverflowError), (-(1 << 64) + 5, None, OverflowError), (1.5, None, TypeError),
            (None, None, TypeError), ("1", None, TypeError), (1, {"a": 1.5}, TypeError), (1, {"a": {"b": 1}}, TypeError), (1, 5, TypeError),
            (1, {"": 1}, kotskhin.EmptyKey), (1, {"n": 1 << 63}, OverflowError), (1, {"\udcff": 1}, kotskhin.NotText),
            (1, {1: 1}, TypeError),
        ]
        for turn in range(2):
            for value, attributes, _ in wrong:
                self.requests.add(value, attributes)
        self.assertEqual([type(refusal.why) for refusal in self.refused], [why for _, _, why in wrong] * 2)
        self.assertEqual((self.provider.refused, self.refused[0].instrument, self.refused[0].value), (26, self.requests, -1))
        self.assertEqual(self.refused[9].why.place, 0)
        self.requests.add((1 << 63) - 1)
        self.requests.add(1)
        self.assertEqual((type(self.refused[-1].why), self.refused[-1].why.place), (kotskhin.Overflow, 0))
        self.assertEqual(totals(self.provider), [({}, (1 << 63) - 1)])
        self.provider.shutdown()
        self.requests.add(1)
        self.assertIsInstance(self.refused[-1].why, kotskhin.Closed)
        self.assertIsNone(self.provider.collect())

    def test_a_hook_that_fails_fails_nothing(self):
        with make_provider(on_refused=lambda refusal: 1 / 0) as provider, self.assertLogs("kotskhin", logging.ERROR):
            provider.get_meter("app").create_counter("requests").add(-1)

    def test_without_a_hook_each_kind_is_logged_once(self):
        with make_provider() as provider, self.assertLogs("kotskhin", logging.WARNING) as logged:
            requests = provider.get_meter("app").create_counter("requests")
            for _ in range(5):
                requests.add(-1)
                requests.add(1.5)
        self.assertEqual(len(logged.output), 2)
        self.assertIn("requests", logged.output[0])

    def test_whole_numbers_of_other_types(self):
        class Seven:
            def __index__(self):
                return 7

        for _ in range(2):
            self.requests.add(Seven(), {"n": Seven()})
            self.requests.add(True, {"n": Seven()})
        self.assertEqual(totals(self.provider), [({"n": 7}, 16)])


class Declaring(unittest.TestCase):
    def test_after_the_start(self):
        provider = make_provider()
        meter = provider.get_meter("app")
        requests = meter.create_counter("requests")
        self.assertIs(meter.create_counter("Requests"), requests)
        requests.add(1)
        self.assertIs(provider.get_meter("app").create_counter("requests"), requests)
        with self.assertRaisesRegex(ProviderStarted, r"'orders' of 'app' is declared at .*metrics\.py:\d+, after .* at .*metrics\.py:\d+"):
            meter.create_counter("orders")
        provider.shutdown()

    def test_an_explicit_start(self):
        provider = make_provider()
        requests = provider.get_meter("app").create_counter("requests")
        self.assertIsNone(provider.collect())
        provider.start()
        provider.start()
        self.assertEqual(totals(provider), [])
        requests.add(1)
        self.assertEqual(totals(provider), [({}, 1)])
        self.assertEqual([stream.name for stream in provider.streams], ["requests"])

    def test_what_is_wrong_is_refused_at_once(self):
        meter = make_provider().get_meter("app")
        for name, unit, why in (("9 lives", "", kotskhin.BadName), ("", "", kotskhin.BadName), ("fine", "µ", kotskhin.BadUnit)):
            with self.assertRaises(why) as caught:
                meter.create_counter(name, unit)
            told = f"{caught.exception.name}: the instrument {name!r} of 'app': {caught.exception.code.says}"
            self.assertEqual(str(caught.exception), told)
        with self.assertRaises(kotskhin.BadBounds):
            meter.create_histogram("size", explicit_bucket_boundaries_advisory=[2, 1])
        with self.assertRaises(kotskhin.BadLimit):
            make_provider(limit=0)
        with self.assertRaises(ValueError):
            View(instrument_name="req*")
        with self.assertRaises(TypeError):
            PeriodicExportingMetricReader(5)

    def test_no_meter_has_the_scope_of_tombstones(self):
        provider = make_provider()
        requests, archive = provider.get_meter("app").create_counter("requests"), provider.get_meter("kotskhin.archive")
        for declare in (archive.create_counter, archive.create_up_down_counter, archive.create_gauge, archive.create_histogram):
            with self.assertRaises(kotskhin.ReservedScope) as caught:
                declare("adopted", "ns")
            self.assertEqual((caught.exception.place, caught.exception.second), (0, None))
        requests.add(3)
        self.assertEqual(totals(provider), [({}, 3)])
        self.assertEqual([stream.scope for stream in provider.streams], ["app"])

    def test_resources(self):
        drawn = uuid.uuid4()
        for instance in (drawn, str(drawn), drawn.int):
            provider = MeterProvider(Resource.create({**SHOP, "service.instance.id": instance}), shutdown_on_exit=False)
            self.assertEqual((provider.service, provider.instance), ("shop", drawn.int))
        self.assertNotEqual(make_provider().instance, make_provider().instance)
        self.assertEqual(MeterProvider(shutdown_on_exit=False).service, "unknown_service")
        with self.assertRaisesRegex(ValueError, "host.name"):
            MeterProvider({"host.name": "h"})
        with self.assertRaises(OverflowError):
            MeterProvider({"service.instance.id": 1 << 128})
        with self.assertRaises(kotskhin.NotText):
            MeterProvider({"service.name": "\udcff"})

    def test_views(self):
        by_route = View(instrument_type=Histogram, instrument_name="size", meter_name="app", name="size.by.route",
                        attribute_keys=(key for key in ["route"]), aggregation=ExplicitBucketHistogramAggregation(bound for bound in [10]))
        views = [by_route, View(instrument_name="gone", aggregation=DropAggregation()),
                 View(instrument_name="size", aggregation=SumAggregation()), View(instrument_type=Counter, instrument_name="absent")]
        provider = make_provider(views=views)
        size = provider.get_meter("app").create_histogram("size", explicit_bucket_boundaries_advisory=[1, 2, 3])
        gone = provider.get_meter("app").create_counter("gone")
        with self.assertLogs("kotskhin", logging.WARNING) as logged:
            size.record(5, {"route": "/", "status": 200})
        self.assertRegex(logged.output[0], "absent.* is of no instrument")
        gone.add(1)
        told = [(stream.name, stream.shape, stream.bounds) for stream in provider.streams]
        self.assertEqual(told, [("size.by.route", kotskhin.Shape.HISTOGRAM, (10,)), ("size", kotskhin.Shape.MONOTONIC_SUM, ())])
        self.assertEqual(rows_of(provider.collect(), Ask.histogram("app", "size.by.route", "", [10])), [({"route": "/"}, 5)])


class Logs(unittest.TestCase):
    def test_a_handler_of_logs_may_record(self):
        provider = make_provider(views=[View(instrument_name="absent")])
        logs = provider.get_meter("app").create_counter("logs")

        class Handler(logging.Handler):
            def emit(self, record):
                logs.add(1, {"level": record.levelname})

        handler = Handler()
        logging.getLogger("kotskhin").addHandler(handler)
        try:
            logs.add(-1)
            logs.add(-1)
        finally:
            logging.getLogger("kotskhin").removeHandler(handler)
        self.assertEqual((totals(provider, "logs"), provider.refused), ([({"level": "WARNING"}, 2)], 2))


class Bounds(unittest.TestCase):
    def test_sets_beyond_those_that_are_held(self):
        provider = make_provider(held=10)
        requests = provider.get_meter("app").create_counter("requests")
        for turn in range(3):
            for number in range(100):
                requests.add(1, {"n": number})
        self.assertEqual(len(requests._texts) + len(requests._held), 10)
        self.assertEqual(totals(provider), [({"n": number}, 3) for number in range(100)])

    def test_sets_beyond_the_limit(self):
        provider = make_provider(limit=2)
        requests = provider.get_meter("app").create_counter("requests")
        for number in (0, 1, 2, 3, 0):
            requests.add(1, {"n": number})
        self.assertEqual(totals(provider), [({"n": 0}, 2), ({"n": 1}, 1), ({"otel.metric.overflow": True}, 2)])


class Threads(unittest.TestCase):
    def test_totals_are_exact(self):
        exports = []
        provider = make_provider(PeriodicExportingMetricReader(lambda export: exports.append(export.head()), 5), held=20)
        requests, size = provider.get_meter("app").create_counter("requests"), provider.get_meter("app").create_histogram("size")

        def work(number):
            for turn in range(2000):
                requests.add(1, {"thread": number})
                requests.add(1, {"turn": turn % 50})
                size.record(turn)

        threads = [threading.Thread(target=work, args=(number,)) for number in range(8)]
        switch = sys.getswitchinterval()
        sys.setswitchinterval(1e-5)
        try:
            for thread in threads:
                thread.start()
            for thread in threads:
                thread.join()
        finally:
            sys.setswitchinterval(switch)
        told = totals(provider)
        self.assertEqual([total for attributes, total in told if "thread" in attributes], [2000] * 8)
        self.assertEqual([total for attributes, total in told if "turn" in attributes], [320] * 50)
        self.assertEqual(rows_of(provider.collect(), Ask.histogram("app", "size", "")), [({}, 8 * 1999 * 1000)])
        provider.shutdown()
        times = [head.time for head in exports]
        self.assertEqual((times, provider.refused), (sorted(set(times)), 0))


    def test_the_first_recordings_at_once(self):
        for _ in range(50):
            provider = make_provider()
            instruments = [provider.get_meter("app").create_counter(f"requests{number}") for number in range(4)]
            gate = threading.Barrier(4)

            def work():
                gate.wait()
                for one in instruments * 5:
                    one.add(1, {"route": "/"})

            threads = [threading.Thread(target=work) for _ in range(4)]
            for thread in threads:
                thread.start()
            for thread in threads:
                thread.join()
            told = [totals(provider, f"requests{number}") for number in range(4)]
            self.assertEqual((told, provider.refused), ([[({"route": "/"}, 20)]] * 4, 0))


class Readers(unittest.TestCase):
    def test_it_collects_once_in_an_interval(self):
        exports, enough = [], threading.Event()

        def export(one):
            exports.append(one.encode())
            if len(exports) == 3:
                enough.set()

        provider = make_provider(PeriodicExportingMetricReader(export, 10))
        requests = provider.get_meter("app").create_counter("requests")
        time.sleep(0.05)
        self.assertEqual(exports, [])
        requests.add(7)
        self.assertTrue(enough.wait(60))
        requests.add(1)
        provider.shutdown()
        provider.shutdown()
        count = len(exports)
        time.sleep(0.05)
        self.assertEqual((len(exports), rows_of(Export.decode(exports[-1]), Ask.sum("app", "requests", ""))), (count, [({}, 8)]))

    def test_flushing(self):
        exports = []
        provider = make_provider(reader(exports.append), reader(exports.append))
        provider.force_flush()
        self.assertEqual(exports, [])
        provider.get_meter("app").create_counter("requests").add(1)
        self.assertTrue(provider.force_flush())
        self.assertEqual(len(exports), 2)
        provider.shutdown()
        self.assertEqual(len(exports), 4)

    def test_failures_are_told(self):
        faults = []

        def export(one):
            raise OSError("no route")

        provider = make_provider(reader(export, on_failed=faults.append))
        provider.get_meter("app").create_counter("requests").add(1)
        with self.assertRaisesRegex(ExportFailed, "OSError: no route"):
            provider.force_flush()
        with self.assertRaises(ExportFailed) as caught:
            provider.shutdown()
        self.assertEqual((len(faults), [type(fault.why) for fault in faults]), (2, [OSError] * 2))
        self.assertEqual(rows_of(caught.exception.unsent, Ask.sum("app", "requests", "")), [({}, 1)])

    def test_without_a_hook_failures_are_logged(self):
        provider = make_provider(reader(lambda one: 1 / 0))
        provider.get_meter("app").create_counter("requests").add(1)
        with self.assertLogs("kotskhin", logging.WARNING) as logged, self.assertRaises(ExportFailed):
            provider.force_flush()
        self.assertIn("ZeroDivisionError", logged.output[0])
        with self.assertLogs("kotskhin"), contextlib.suppress(ExportFailed):
            provider.shutdown()

    def test_an_export_that_takes_too_long(self):
        goes, faults, told = threading.Event(), [], threading.Event()

        def failed(fault):
            faults.append(fault)
            told.set()

        of = reader(lambda one: goes.wait(600), export_timeout_millis=20, on_failed=failed)
        provider = make_provider(of)
        provider.get_meter("app").create_counter("requests").add(1)
        began = time.monotonic()
        with self.assertRaises(ExportFailed) as caught:
            provider.force_flush(50)
        self.assertIsInstance(caught.exception.why, TimeoutError)
        self.assertLess(time.monotonic() - began, 30)
        self.assertTrue(told.wait(60))
        self.assertIsInstance(faults[0].why, TimeoutError)
        goes.set()
        provider.shutdown()

    def test_recording_waits_for_no_export(self):
        goes, came = threading.Event(), threading.Event()

        def export(one):
            came.set()
            goes.wait(60)

        provider = make_provider(PeriodicExportingMetricReader(export, 1))
        requests = provider.get_meter("app").create_counter("requests")
        requests.add(1)
        self.assertTrue(came.wait(60))
        for number in range(2000):
            requests.add(1, {"n": number % 10})
        self.assertEqual(sum(total for _, total in totals(provider)), 2001)
        self.assertFalse(goes.is_set())
        goes.set()
        provider.shutdown()

    def test_an_exporter_is_ended(self):
        ended = []

        class Exporter:
            def export(self, export, timeout):
                ended.append(timeout)

            def shutdown(self):
                ended.append("end")

        provider = make_provider(reader(Exporter(), export_timeout_millis=5000))
        provider.get_meter("app").create_counter("requests").add(1)
        provider.shutdown()
        self.assertEqual(ended, [5.0, "end"])
        provider = make_provider(reader(Exporter()))
        provider.shutdown()
        self.assertEqual(ended, [5.0, "end", "end"])

    def test_a_clock_that_is_put_back(self):
        provider = make_provider()
        provider.get_meter("app").create_counter("requests").add(1)
        one = provider.collect().head().time
        provider._last_time = one + (1 << 50)
        self.assertEqual(provider.collect().head().time, one + (1 << 50) + 1)


@contextlib.contextmanager
def answering(*answers):
    """The URLs of servers, each of which answers by a status, a body and how many exports were late, and how often each was asked."""
    asked = [0] * len(answers)

    def serve(number, status, body, late=None):
        class Handler(http.server.BaseHTTPRequestHandler):
            def do_POST(self):
                self.rfile.read(int(self.headers["Content-Length"]))
                asked[number] += 1
                self.send_response(status)
                if late is not None:
                    self.send_header("kotskhin-LATE", late)
                self.end_headers()
                # (who looks at no more may hang up)
                with contextlib.suppress(OSError):
                    self.wfile.write(body)

            def log_message(self, *_):
                pass

        server = ends.enter_context(http.server.HTTPServer(("127.0.0.1", 0), Handler))
        # (it is ended soon)
        threading.Thread(target=server.serve_forever, args=(0.01,), daemon=True).start()
        ends.callback(server.shutdown)
        return f"http://127.0.0.1:{server.server_port}"

    with contextlib.ExitStack() as ends:
        yield [serve(number, *answer) for number, answer in enumerate(answers)], asked


def partial(points, why):
    """An answer of OTLP: so many points were rejected, for a reason."""
    inner = bytes([8, points, 18, len(why)]) + why
    return bytes([10, len(inner)]) + inner


class Answers(unittest.TestCase):
    """What answers of 2xx say was not taken."""

    def said(self, body, late=None, status=200):
        """What an exporter makes of an answer: points, exports and a message that were not taken; nothing where it takes it as brought."""
        counter = MeterProvider(SHOP, shutdown_on_exit=False)
        counter.get_meter("app").create_counter("requests").add(7)
        with answering((status, body, late)) as ((url,), asked), counter.collect() as export:
            try:
                HttpExporter(url, otlp=late is None).export(export, 60)
            except NotTaken as why:
                return why.points, why.exports, why.message
            finally:
                self.assertEqual(asked, [1])
        return None

    def test_points(self):
        good = partial(3, b"why")
        for body, wanted in (
            (partial(3, b"3 points: LATE"), (3, 0, "3 points: LATE")), (partial(3, b""), (3, 0, "")),
            (partial(3, b"\xff"), (3, 0, "\ufffd")),
            # (fields that are not known, one that comes twice, and a number below 0)
            (b"\x12\1a\x1d1234\x2112345678\x28\x7f" + good + b"\x12\0", (3, 0, "why")), (good + b"\n\2\x08\5", (5, 0, "why")),
            (b"\n\x09\n\1a\x10\7\x18\7\x08\3", (3, 0, "")), (b"\n\x0b\x08" + b"\xff" * 9 + b"\1", None), (b"\x08\5", None),
            (partial(0, b"a warning"), None), (b"", None), (b"\n\0", None), (b"OK\n", None), (b'{"late":1}', None),
            (b"\0", None), (good + b"\n", None), (good + b"\x0b", None), (b"\n\x0c\x08" + b"\xff" * 11, None),
            # (one that is as long as is looked at, and one that is longer)
            (good + b"\x12\xf3\xff\3" + b"x" * 0xfff3, (3, 0, "why")), (good + b"\x12\xf4\xff\3" + b"x" * 0xfff4, None),
        ):
            with self.subTest(body[:40]):
                self.assertEqual(self.said(body), wanted)
        for cut in range(1, len(good)):
            self.assertIsNone(self.said(good[:cut]), cut)
        with self.assertRaisesRegex(HttpRefused, "^503 Service Unavailable: why$"):
            self.said(good, "2", 503)

    def test_exports(self):
        for late, wanted in (
            ("2", (0, 2, "")), ("2 ", (0, 2, "")), ("9" * 19, (0, 10**19 - 1, "")), ("0", None), ("", None), ("two", None), ("-2", None),
            ("+2", None), ("2.0", None), ("2_0", None), ("\xb2", None), ("2" * 25, None),
        ):
            with self.subTest(late):
                self.assertEqual(self.said(b'{"exports":3,"points":3,"late":2}', late), wanted)
        self.assertEqual(self.said(b"x" * 0x10001, "2"), (0, 2, ""))
        self.assertEqual(self.said(partial(3, b"why"), "2"), (3, 0, "why"))

    def test_texts(self):
        self.assertEqual(str(NotTaken(points=3, message="LATE")), "3 points were not taken: LATE")
        self.assertEqual(str(NotTaken(points=3)), "3 points were not taken")
        self.assertEqual(str(NotTaken(exports=2)), "2 exports came late, and were not taken")

    def test_no_other_gateway_is_asked(self):
        failed = []
        with answering((503, b""), (200, b"", "1"), (200, b"")) as (urls, asked):
            told = reader(FirstOf(*(HttpExporter(url, otlp=False) for url in urls)), on_failed=failed.append)
            provider = make_provider(told)
            provider.get_meter("app").create_counter("requests").add(7)
            for turn in (1, 2):
                with self.assertRaisesRegex(ExportFailed, "NotTaken: 1 exports came late"):
                    provider.force_flush()
                self.assertEqual(asked, [1, turn, 0])
            with self.assertRaises(ExportFailed) as last:
                provider.shutdown()
        self.assertEqual([(type(fault.why), fault.why.exports) for fault in failed], [(NotTaken, 1)] * 3)
        self.assertEqual((told.failed, rows_of(last.exception.unsent, Ask.sum("app", "requests", ""))), (3, [({}, 7)]))


class Exporters(unittest.TestCase):
    def test_files(self):
        with tempfile.TemporaryDirectory() as room:
            path = pathlib.Path(room) / "shop.ktsk"
            provider = make_provider(reader(FileExporter(path)))
            requests = provider.get_meter("app").create_counter("requests")
            for total in (1, 2):
                requests.add(1)
                provider.force_flush()
                self.assertEqual(rows_of(Export.decode(path.read_bytes()), Ask.sum("app", "requests", "")), [({}, total)])
            provider.shutdown()
            self.assertEqual(os.listdir(room), ["shop.ktsk"])
            provider = make_provider(reader(FileExporter(pathlib.Path(room) / "no" / "file"), on_failed=lambda fault: None))
            provider.get_meter("app").create_counter("requests").add(1)
            with self.assertRaises(ExportFailed):
                provider.shutdown()

    def test_posts(self):
        posted, status = [], [200]

        class Handler(http.server.BaseHTTPRequestHandler):
            def do_POST(self):
                posted.append((dict(self.headers), self.rfile.read(int(self.headers["Content-Length"]))))
                self.send_response(status[0])
                self.send_header("Location", "/other")
                self.end_headers()

            def do_GET(self):
                self.send_response(200)
                self.end_headers()

            def log_message(self, *_):
                pass

        with http.server.HTTPServer(("127.0.0.1", 0), Handler) as server:
            threading.Thread(target=server.serve_forever, daemon=True).start()
            for otlp in (True, False):
                exporter = HttpExporter(f"http://127.0.0.1:{server.server_port}/v1/metrics", {"X-Key": "k"}, otlp=otlp)
                provider = make_provider(reader(exporter, on_failed=lambda fault: None))
                provider.get_meter("app").create_counter("requests").add(7)
                provider.force_flush()
                for status[0] in (500, 302):
                    with self.assertRaisesRegex(ExportFailed, str(status[0])):
                        provider.force_flush()
                status[0] = 200
                provider.shutdown()
            server.shutdown()
        types = [(headers["Content-Type"], headers["X-Key"]) for headers, _ in posted]
        self.assertEqual(types, [("application/x-protobuf", "k")] * 4 + [("application/vnd.kotskhin.export", "k")] * 4)
        self.assertEqual(rows_of(Export.of_otlp(posted[3][1])[0], Ask.sum("app", "requests", "")), [({}, 7)])
        self.assertEqual(rows_of(Export.decode(posted[7][1]), Ask.sum("app", "requests", "")), [({}, 7)])

    def test_the_next_exporter_where_one_fails(self):
        asked, down, timeouts = [], set(), []

        class Gateway:
            def __init__(self, number):
                self.number = number

            def export(self, export, timeout):
                asked.append(self.number)
                timeouts.append(timeout)
                if self.number in down:
                    raise OSError(f"{self.number} is down")

            def shutdown(self):
                asked.append(-self.number)

        first = FirstOf(*map(Gateway, (1, 2, 3)))
        for away, wanted in (((), [1]), ((1, 2), [1, 2, 3]), ((), [3])):
            asked.clear()
            down.clear()
            down.update(away)
            first.export(None, 900)
            self.assertEqual(asked, wanted)
        self.assertTrue(290 < timeouts[0] <= 300 and timeouts[2] <= 450 and timeouts[3] <= 900, timeouts)
        down.update((1, 2, 3))
        with self.assertRaisesRegex(OSError, "2 is down"):
            first.export(None, 900)
        first.shutdown()
        self.assertEqual(asked[-3:], [-1, -2, -3])
        with self.assertRaises(ValueError):
            FirstOf()

    def test_console(self):
        out = io.StringIO()
        with make_provider(reader(ConsoleMetricExporter(out))) as provider:
            provider.get_meter("app").create_counter("requests", "1").add(7)
        self.assertEqual(out.getvalue(), "app requests 1\nattributes  points  conflicts  total\n{}               1          0  7\n")


def free_port():
    """A port that is free, below those that the system gives to who asks for any: so nobody gets it until it is used."""
    while True:
        with socket.socket() as found, contextlib.suppress(OSError):
            found.bind(("127.0.0.1", random.randrange(20_000, 32_000)))
            return found.getsockname()[1]


class Page(unittest.TestCase):
    """The gateway of docs/use/PYTHON.md, in a process of its own."""

    def test_a_gateway_that_is_posted_to(self):
        page = (SDK.parent / "docs" / "use" / "PYTHON.md").read_text(encoding="utf-8")
        script = re.search(r"^```python\n(import http\.server\n.*?)^```$", page, re.M | re.S)[1]
        first_of = re.search(r"^```python\n([^`]*\nexporter = FirstOf\([^`]*)^```$", page, re.M | re.S)[1]
        port = free_port()
        command = [sys.executable, "-B", "-c", script.replace("9464", str(port))]
        with subprocess.Popen(command, cwd=SDK / "python", stderr=subprocess.DEVNULL) as server:
            try:
                self.post(f"http://127.0.0.1:{port}")
                self.post_to_the_first(first_of, port)
            finally:
                server.terminate()

    def post(self, url):
        for service, why in (("shop", None), ("thief", "403")):
            provider = MeterProvider({"service.name": service}, [reader(HttpExporter(f"{url}/v1/metrics"), on_failed=lambda fault: None)],
                               shutdown_on_exit=False)
            provider.get_meter("app").create_counter("requests").add(7)
            for _ in range(2000):
                try:
                    provider.force_flush()
                    break
                except ExportFailed as fault:
                    if why and why in str(fault):
                        break
                    time.sleep(0.05)
            with contextlib.suppress(ExportFailed):
                provider.shutdown()
        with urllib.request.urlopen(url, timeout=60) as answer:
            told = answer.read().decode()
            self.assertEqual(answer.headers["Content-Type"], kotskhin.PROMETHEUS_TYPE)
        self.assertIn('requests_total{otel_scope_name="app",service_name="shop"} 7\n', told)
        self.assertNotIn("thief", told)
        with self.assertRaisesRegex(urllib.error.HTTPError, "MALFORMED"):
            urllib.request.urlopen(urllib.request.Request(url, b"\n\5", method="POST"), timeout=60)


    def post_to_the_first(self, script, port):
        """The page's worker, of whose two gateways the first is away."""
        with socket.socket() as nobody:
            nobody.bind(("127.0.0.1", 0))
            for said, used in (("9465", nobody.getsockname()[1]), ("9464", port)):
                script = script.replace(f"127.0.0.1:{said}", f"127.0.0.1:{used}")
            subprocess.run([sys.executable, "-B", "-c", script], cwd=SDK / "python", check=True, timeout=600)
        with urllib.request.urlopen(f"http://127.0.0.1:{port}", timeout=60) as answer:
            self.assertIn('transfers_total{otel_scope_name="bank.tills",service_name="bank"} 1\n', answer.read().decode())


class Processes(unittest.TestCase):
    """Children of a fork record under identities of their own, and nothing is lost or counted twice."""

    def children(self, count, work):
        """What each child hands back."""
        for _ in range(count):
            ours, theirs = os.pipe()
            if (child := os.fork()) == 0:
                with contextlib.suppress(BaseException):
                    os.write(theirs, work())
                os._exit(0)
            os.close(theirs)
            with open(ours, "rb") as answer:
                yield answer.read()
            os.waitpid(child, 0)

    def test_children_begin_anew(self):
        exports = []
        provider = make_provider(reader(lambda export: exports.append(export.encode())))
        requests = provider.get_meter("app").create_counter("requests")
        requests.add(7, {"route": "/"})

        def work():
            for _ in range(100):
                requests.add(1, {"route": "/"})
            provider.shutdown()
            return exports[-1]

        gateway = Gateway(1)
        for bytes_ in self.children(4, work):
            gateway.take(Export.decode(bytes_))
        requests.add(1, {"route": "/"})
        provider.shutdown()
        gateway.take(Export.decode(exports[-1]))
        row = gateway.rows(Ask.sum("app", "requests", ""))[0]
        self.assertEqual((row.points, row.conflicts, row.total), (5, 0, 408))

    def test_under_an_instance_that_was_given(self):
        refused = []
        provider = MeterProvider({**SHOP, "service.instance.id": 5}, on_refused=refused.append, shutdown_on_exit=False)
        requests = provider.get_meter("app").create_counter("requests")
        requests.add(7)

        def work():
            requests.add(1)
            requests.add(1)
            provider.shutdown()
            return f"{[type(refusal.why).__name__ for refusal in refused]} {provider.collect()}".encode()

        self.assertEqual(list(self.children(1, work)), [b"['ForkedError', 'ForkedError'] None"])
        self.assertEqual(totals(provider), [({}, 7)])

    def test_while_threads_record_and_collect(self):
        provider = make_provider(PeriodicExportingMetricReader(lambda export: None, 1))
        requests, done = provider.get_meter("app").create_counter("requests"), threading.Event()

        def record():
            while not done.is_set():
                requests.add(1, {"route": "/"})
                requests.add(-1)

        logging.getLogger("kotskhin").setLevel(logging.ERROR)
        threads = [threading.Thread(target=record) for _ in range(3)]
        for thread in threads:
            thread.start()

        def work():
            requests.add(5)
            told = totals(provider)
            provider.shutdown()
            return repr(told).encode()

        told = list(self.children(10, work))
        done.set()
        for thread in threads:
            thread.join()
        provider.shutdown()
        logging.getLogger("kotskhin").setLevel(logging.NOTSET)
        self.assertEqual(told, [b"[({}, 5)]"] * 10)

    def test_the_last_export_at_exit(self):
        with tempfile.TemporaryDirectory() as room:
            script = f"""
import atexit
from kotskhin.metrics import FileExporter, MeterProvider, PeriodicExportingMetricReader
it = MeterProvider({SHOP!r}, [PeriodicExportingMetricReader(FileExporter({room!r} + "/file"))])
requests = it.get_meter("app").create_counter("requests")
"""
            for last in ("requests.add(7)", "atexit.register(requests.add, 7)"):
                command = [sys.executable, "-B", "-c", script + last]
                done = subprocess.run(command, cwd=SDK / "python", capture_output=True, check=True, timeout=600)
                told = rows_of(Export.decode(pathlib.Path(room, "file").read_bytes()), Ask.sum("app", "requests", ""))
                self.assertEqual(told, [({}, 7)], done.stderr)
                pathlib.Path(room, "file").unlink()


if __name__ == "__main__":
    unittest.main(verbosity=2)
