"""Python's package: what it refuses before a call, what it tells of a refusal, what is left of a parent's things after a fork, and
threads."""
import contextlib
import copy
import os
import pathlib
import pickle
import re
import subprocess
import sys
import threading
import time
import unittest
import uuid

SDK = pathlib.Path(__file__).resolve().parents[3] / "sdk"
sys.path.insert(0, str(SDK / "python"))
import kotskhin
from kotskhin import CODES, COUNTER, GAUGE, HISTOGRAM, UP_DOWN, Archive, Ask, Attributes, Code, Export, ForkedError, Gateway, Message
from kotskhin import Plan, Recorder, Refused, Taking, View, Writer

INSTRUMENTS = [("app", "requests", "1", COUNTER), ("app", "balance", "1", UP_DOWN)]


def told(writer, time=200):
    """The totals of one writer's counter and of its other sum."""
    gateway = Gateway(1)
    gateway.take(writer.collect(time))
    return gateway.sum("app", "requests", "1"), gateway.sum("app", "balance", "1", False)


def children(*works):
    """What each work tells in a child of its own."""
    for work in works:
        ours, theirs = os.pipe()
        if (child := os.fork()) == 0:
            with contextlib.suppress(BaseException):
                os.write(theirs, work())
            os._exit(0)
        os.close(theirs)
        with open(ours, "rb") as answer:
            yield answer.read()
        os.waitpid(child, 0)


class Numbers(unittest.TestCase):
    """A number that does not fit is an OverflowError, and nothing is recorded, made or taken."""

    def setUp(self):
        self.plan, self.none = Plan(INSTRUMENTS), Attributes()
        self.writer = Writer(self.plan, "shop", 1, 100)

    def overflows(self, call, *given):
        with self.assertRaises(OverflowError, msg=f"{call} of {given}"):
            call(*given)

    def test_values(self):
        number = self.writer.hold(1, self.none)
        recorder, seat = Recorder(10), Writer(self.plan, "shop", 2, 100).share()
        for value in (1 << 64 | 3, 1 << 63, -(1 << 64) + 5, -(1 << 63) - 1):
            for one in (self.writer, recorder, seat):
                self.overflows(one.measure, 1, self.none, value)
                self.overflows(one.measure_held, number, value)
            self.overflows(Attributes, {"n": value})
        self.assertEqual(len(recorder), 0)
        self.writer.measure(1, self.none, -(1 << 63))
        self.writer.measure(0, Attributes({"n": (1 << 63) - 1}), (1 << 63) - 1)
        sums = told(self.writer)
        self.assertTrue(sums[0].endswith("{n=9223372036854775807}       1          0  9223372036854775807\n"), sums[0])
        self.assertTrue(sums[1].endswith("-9223372036854775808\n"), sums[1])

    def test_instruments_and_numbers(self):
        recorder, seat = Recorder(10), Writer(self.plan, "shop", 2, 100).share()
        for wrong in (-1, 1 << 64):
            for one in (self.writer, recorder, seat):
                self.overflows(one.measure, wrong, self.none, 1)
                self.overflows(one.measure_held, wrong, 1)
            for one in (self.writer, seat):
                self.overflows(one.hold, wrong, self.none)
                self.overflows(one.take_in, recorder, wrong)
            self.overflows(Recorder, wrong)
        self.assertEqual(told(self.writer), ("attributes  points  conflicts  total\n",) * 2)

    def test_identities_and_times(self):
        for wrong in (-1, 1 << 64):
            self.overflows(Writer, self.plan, "shop", 1, wrong)
            self.overflows(self.writer.collect, wrong)
            self.overflows(self.writer.shutdown, wrong)
            self.overflows(self.writer.restart, wrong)
            self.overflows(Gateway(1).newest, "shop", 1, wrong)
        for wrong in (-1, 1 << 128, (1 << 128) + 1):
            self.overflows(Writer, self.plan, "shop", wrong, 100)
            self.overflows(Gateway(1).newest, "shop", wrong, 100)
        greatest = Writer(self.plan, "shop", (1 << 128) - 1, 100)
        gateway = Gateway((1 << 32) - 1)
        greatest.measure(0, self.none, 1)
        gateway.take(greatest.collect((1 << 64) - 1))
        self.assertEqual(gateway.newest("shop", (1 << 128) - 1, 100), (1 << 64) - 1)

    def test_ids_limits_and_kinds(self):
        for wrong in (-1, 1 << 32):
            self.overflows(Gateway, wrong)
            self.overflows(Gateway(1).send, wrong)
        for wrong in (-1, 1 << 64):
            self.overflows(Plan, INSTRUMENTS, wrong)
        for wrong in (-1, 256):
            self.overflows(Plan, [("app", "requests", "1", wrong)])

    def test_other_types(self):
        for wrong in (1.0, "1", None):
            with self.assertRaises(TypeError):
                self.writer.measure(0, self.none, wrong)
        for wrong in (200.5, None, b"200", ["/"]):
            with self.assertRaisesRegex(TypeError, "'http.status'"):
                Attributes({"http.route": "/", "http.status": wrong})
        for wrong in ([(1, "1")], [(None, 1)], [(b"key", True)]):
            with self.assertRaisesRegex(TypeError, "is no text"):
                Attributes(wrong)
        with self.assertRaisesRegex(TypeError, "is no text"):
            Writer(self.plan, None)
        for wrong in ("", None, {}, self.writer):
            with self.assertRaises(TypeError):
                self.writer.measure(0, wrong if wrong is not self.writer else {"a": 1}, 1)
        bytes_ = self.writer.collect(200).encode()
        for wrong in (None, 5, "KTSK"):
            with self.assertRaises(TypeError):
                Export.decode(wrong)
            with self.assertRaises(TypeError):
                Message.decode(wrong)
        self.assertEqual(Export.decode(memoryview(bytearray(bytes_))).encode(), bytes_)


class Refusals(unittest.TestCase):
    """A refusal tells its name, and the places that the kit tells, 0 too."""

    def refused(self, code, places, words, call, *given):
        with self.assertRaises(Refused) as caught:
            call(*given)
        why = caught.exception
        self.assertEqual((why.code, why.name, (why.place, why.second)), (code, code.name, places))
        self.assertEqual(str(why), f"{code.name}: {code.says}{words}")

    def test_places(self):
        plan, none = Plan(INSTRUMENTS), Attributes()
        writer = Writer(plan, "shop", 1, 100)
        writer.measure(1, none, (1 << 63) - 1)
        bytes_ = bytearray(writer.collect(200).encode())
        self.refused(Code.TIME_NOT_AFTER, (200, None), " (time 200)", writer.collect, 200)
        self.refused(Code.START_NOT_AFTER, (100, None), " (start 100)", writer.restart, 50)
        self.refused(Code.EMPTY_KEY, (1, None), " (pair 1)", Attributes, {"a": 1, "": 2})
        self.refused(Code.EMPTY_KEY, (0, None), " (pair 0)", Attributes, {"": 2})
        bad = [*INSTRUMENTS[:1], ("app", "9 lives", "1", COUNTER)]
        self.refused(Code.BAD_NAME, (1, None), " (instrument 1)", Plan, bad)
        reserved = [*INSTRUMENTS[:1], ("kotskhin.archive", "adopted", "ns", GAUGE)]
        self.refused(Code.RESERVED_SCOPE, (1, None), " (instrument 1)", Plan, reserved)
        with self.assertRaises(kotskhin.ReservedScope):
            Plan(reserved)
        bytes_[3] ^= 1
        self.refused(Code.BAD_MAGIC, (3, None), " (byte 3)", Export.decode, bytes(bytes_))
        self.refused(Code.TRUNCATED, (0, None), " (byte 0)", Export.decode, b"")
        # (without views no plan of this wrapper comes to one of two places)
        self.assertEqual(str(Refused(Code.SAME_STREAM, 0, 2)), f"SAME_STREAM: {Code.SAME_STREAM.says} (instrument 0, instrument 2)")

    def test_without_places(self):
        writer, none = Writer(Plan(INSTRUMENTS), "shop", 1, 100), Attributes()
        self.refused(Code.NEGATIVE, (None, None), "", writer.measure, 0, none, -1)
        self.refused(Code.BAD_NUMBER, (None, None), "", Plan, [("app", "requests", "1", 4)])
        self.refused(Code.NO_HELD, (None, None), "", writer.measure_held, 0, 1)
        writer.shutdown(200)
        self.refused(Code.CLOSED, (None, None), "", writer.measure, 0, none, 1)


class Identities(unittest.TestCase):
    def test_instances_are_drawn_anew(self):
        plan = Plan(INSTRUMENTS)
        writers = [Writer(plan, "shop") for _ in range(8)]
        self.assertEqual(len({writer.instance for writer in writers}), 8)
        gateway = Gateway(1)
        for writer in writers:
            writer.measure(0, Attributes(), 1)
            gateway.take(writer.collect(writer.start + 1))
            self.assertEqual(gateway.newest("shop", writer.instance, writer.start), writer.start + 1)
        self.assertTrue(gateway.sum("app", "requests", "1").endswith("{}               8          0  8\n"))

    def test_an_instance_may_be_a_uuid(self):
        drawn, gateway = uuid.uuid4(), Gateway(1)
        writer = Writer(Plan(INSTRUMENTS), "shop", drawn, 100)
        writer.measure(0, Attributes(), 1)
        export = writer.collect(200)
        self.assertEqual(export.head().instance, drawn.int)
        gateway.take(export)
        self.assertEqual(gateway.newest("shop", drawn, 100), 200)

    def test_archives_draw_theirs(self):
        archives = [Archive("shop", 10) for _ in range(8)]
        self.assertEqual(len({archive.instance for archive in archives}), 8)
        for archive in archives:
            head = archive.export(archive.start + 1).head()
            self.assertEqual((head.instance, head.start), (archive.instance, 1))

    def test_a_child_draws_its_own(self):
        drawn = set(children(*[lambda: str(kotskhin.unique_instance()).encode()] * 8))
        self.assertEqual(len(drawn), 8)


class Forks(unittest.TestCase):
    """A fork: what the parent made is an error in the child, says so, and goes on in the parent."""

    def test_what_the_parent_made(self):
        plan, none = Plan(INSTRUMENTS), Attributes()
        writer, gateway = Writer(plan, "shop", 1, 100), Gateway(1)
        recorder, message, export = Recorder(10), Gateway(2).send(1), writer.collect(200)
        archive = Archive("shop", 10)
        mine = {"Writer": lambda: writer.collect(300), "Plan": lambda: Writer(plan, "shop", 2, 100), "Recorder": recorder.clear,
                "Gateway": lambda: Archive("shop", 10).adopt(gateway, "shop", 1, 100), "Message": message.encode, "Export": export.encode,
                "Archive": lambda: archive.start,
                "Attributes": lambda: Writer(Plan(INSTRUMENTS), "shop", 3, 100).measure(0, none, 1)}

        def named(call):
            def work():
                try:
                    call()
                except ForkedError as fault:
                    return str(fault).encode()
                return b"no error"
            return work

        for name, answer in zip(mine, children(*map(named, mine.values()))):
            self.assertIn(f"this {name} was made before a fork", answer.decode())
        writer.measure(0, none, 7)
        self.assertTrue(told(writer, 300)[0].endswith("  7\n"))

    def test_what_the_child_makes(self):
        Writer(Plan(INSTRUMENTS), "shop").measure(0, Attributes(), 1)

        def work():
            writer = Writer(Plan(INSTRUMENTS), "shop")
            for _ in range(100):
                writer.measure(0, Attributes(), 1)
            return writer.collect(writer.start + 1).encode()

        gateway = Gateway(1)
        for bytes_ in children(work, work, work, work):
            gateway.take(Export.decode(bytes_))
        self.assertTrue(gateway.sum("app", "requests", "1").endswith("{}               4          0  400\n"))

    def test_the_lock_of_another_thread(self):
        gateway, has, done = Gateway(1), threading.Event(), threading.Event()

        def hold():
            with gateway._lock:
                has.set()
                done.wait()

        thread = threading.Thread(target=hold)
        thread.start()
        has.wait()

        def work():
            with contextlib.suppress(ForkedError):
                gateway.conflicts()
            gateway.close()
            return str(Gateway(2).conflicts()).encode()

        answers = list(children(work))
        done.set()
        thread.join()
        self.assertEqual(answers, [b"0"])


class Archives(unittest.TestCase):
    """An archive adopts what has ended, and a gateway forgets it."""

    def setUp(self):
        self.gateway, self.archive = Gateway(1), Archive("shop", 10)

    def last(self, instance):
        """The last export of a worker that counted 7."""
        worker = Writer(Plan(INSTRUMENTS), "shop", instance, 100)
        worker.measure(0, Attributes(), 7)
        return worker.shutdown(200)

    def test_a_gateway_takes(self):
        last = self.last(1)
        self.assertEqual([self.gateway.take(last) for _ in range(2)], [(1, False), (0, False)])
        self.archive.adopt(self.gateway, "shop", 1, 100)
        self.assertEqual(self.gateway.take(self.archive.export(2000)), Taking(changed=2, is_late=False))
        self.assertEqual(self.gateway.take(last), Taking(changed=0, is_late=True))
        self.assertEqual(self.gateway.head(), (1, 2))
        self.assertTrue(self.gateway.sum("app", "requests", "1").endswith("{}               1          0  7\n"))

    def test_a_page_shows_the_live_metric(self):
        """The page of a metric that an old plan had under another kind, before and after the old one is adopted by an archive of today."""
        now = time.time_ns()
        old = Writer(Plan([("app", "sales", "1", COUNTER)]), "shop", 1, now - 2)
        live = Writer(Plan([("app", "sales", "1", UP_DOWN)]), "shop", 2, now - 1)
        for writer in (old, live):
            writer.measure(0, Attributes(), 7)
            self.gateway.take(writer.collect(now))
        archive, wanted = Archive("shop", 10), ["# TYPE sales gauge", 'sales{otel_scope_name="app",service_name="shop"} 7']
        archive.adopt(self.gateway, "shop", 1, now - 2)
        self.assertEqual(self.sales(), wanted)
        self.gateway.take(archive.export(time.time_ns()))
        self.assertEqual(self.sales(), wanted)

    def sales(self):
        """The lines of a page of that metric."""
        page = self.gateway.openmetrics("shop")
        return [line for line in page.splitlines() if line.startswith(("sales", "# TYPE sales"))]

    def test_a_seal_is_told(self):
        self.gateway.take(self.last(1))
        self.archive.adopt(self.gateway, "shop", 1, 100)
        self.assertEqual((self.archive.start, self.archive.adopted), (1, 1))
        with self.assertRaises(kotskhin.Unexported):
            self.archive.seal(3000)
        self.archive.export(2000)
        with self.assertRaises(kotskhin.StartNotLater):
            self.archive.seal(2000)
        self.archive.seal(3000)
        self.assertEqual((self.archive.start, self.archive.adopted), (3000, 0))

    def test_other_types(self):
        for wrong in (self.last(1), None):
            with self.assertRaises((TypeError, AttributeError, kotskhin.WrongKind)):
                self.archive.adopt(wrong, "shop", 1, 100)
        with self.assertRaisesRegex(TypeError, "is no text"):
            self.archive.adopt(self.gateway, b"shop", 1, 100)

    def test_threads_adopt_and_take(self):
        """Threads adopt from one gateway into one archive, while others take what it exports and ask."""
        often, failed = 20, []

        def work(number):
            try:
                for turn in range(often):
                    instance = number * often + turn + 1
                    self.gateway.take(self.last(instance + 1000))
                    self.archive.adopt(self.gateway, "shop", instance + 1000, 100)
                    self.gateway.sum("app", "requests", "1")
                    self.archive.adopted
            except BaseException as fault:
                failed.append(fault)

        threads = [threading.Thread(target=work, args=(number,)) for number in range(4)]
        for thread in threads:
            thread.start()
        for thread in threads:
            thread.join(120)
        self.assertEqual((failed, [thread.is_alive() for thread in threads], self.archive.adopted), ([], [False] * 4, 4 * often))
        self.gateway.take(self.archive.export(2000))
        self.assertEqual(self.gateway.head(), (1, 4 * often + 1))
        self.assertTrue(self.gateway.sum("app", "requests", "1").endswith(f"  {7 * 4 * often}\n"))


class Imports(unittest.TestCase):
    def test_without_the_library(self):
        for named in (None, "", "/nowhere/libkotskhin.so.0", "libc.so.6"):
            given = {key: value for key, value in os.environ.items() if key not in ("KOTSKHIN_SO", "LD_LIBRARY_PATH")}
            if named is not None:
                given["KOTSKHIN_SO"] = named
            command = [sys.executable, "-B", "-c", "import kotskhin"]
            done = subprocess.run(command, cwd=SDK / "python", env=given, capture_output=True, text=True, check=False)
            last = done.stderr.strip().splitlines()[-1]
            self.assertRegex(last, r"^ImportError: .*set KOTSKHIN_SO to the path of libkotskhin\.so\.0, .*: .", named)


class Declared(unittest.TestCase):
    """What is declared is what the library says."""

    def test_version(self):
        told, more = kotskhin.calls.kit_version(), kotskhin.library.NOT_PROVED
        self.assertIn(told, (kotskhin.VERSION, kotskhin.VERSION + more))
        self.assertEqual(kotskhin.version(), kotskhin.__version__ + ", not proved" * (told != kotskhin.VERSION))

    def test_codes(self):
        self.assertEqual([kotskhin.code_text(number) for _, number, _, _ in CODES], [says for _, _, says, _ in CODES])
        numbers = {number for _, number, _, _ in CODES}
        self.assertEqual({kotskhin.code_text(number) for number in range(-2, 256) if number not in numbers}, {""})
        self.assertEqual(len({says for _, _, says, _ in CODES}), len(CODES))

    def test_each_code_has_a_class_of_its_name(self):
        for code in Code:
            made = Refused(code)
            self.assertEqual(re.sub(r"(?<=[a-z])(?=[A-Z])", "_", type(made).__name__).upper(), code.name)
            self.assertIn(type(made).__name__, kotskhin.__all__)

    def test_what_checkers_see_of_codes(self):
        text = (SDK / "python" / "kotskhin" / "errors.py").read_text(encoding="utf-8")
        seen = re.findall(r"^        ([A-Z_]+) = (\d+)$", text, re.M)
        self.assertEqual(seen, [(name, str(number)) for name, number, _, _ in CODES[1:]])
        for name in kotskhin.__all__:
            self.assertTrue(hasattr(kotskhin, name), name)

    def test_each_class_has_a_code(self):
        self.assertEqual(set(Refused.__subclasses__()), set(Refused._classes.values()))

    def test_refusals_are_copied(self):
        why = Refused(Code.SAME_STREAM, 0, 2)
        for again in (pickle.loads(pickle.dumps(why)), copy.copy(why)):
            self.assertEqual((type(again), again.place, again.second), (kotskhin.SameStream, 0, 2))


class Lives(unittest.TestCase):
    """Things are given up once, by whichever way."""

    def test_with(self):
        with Gateway(1) as gateway:
            self.assertEqual(gateway.head(), (1, 0))
        with self.assertRaises(kotskhin.Nothing):
            gateway.head()

    def test_sequences(self):
        plan = Plan([*INSTRUMENTS, ("app", "size", "By", HISTOGRAM), ("app", "depth", "1", GAUGE)])
        writer, gateway = Writer(plan, "shop", 1, 100), Gateway(1)
        for number in range(4):
            writer.measure(number, Attributes({"n": number}), number + 1)
        gateway.take(writer.collect(200))
        streams = gateway.streams()
        self.assertEqual([stream.name for stream in streams], ["balance", "depth", "requests", "size"])
        self.assertEqual(len(list(reversed(streams))), 4)
        rows = gateway.rows(Ask.histogram("app", "size", "By"))
        self.assertEqual([(row.attributes, row.count, row.total) for row in rows], [({"n": 2}, 1, 3)])
        for wrong in (4, -5):
            with self.assertRaises((kotskhin.NoItem, OverflowError)):
                streams[wrong]
        self.assertTrue(gateway.gauge("app", "depth", "1").startswith("attributes"))

    def test_attributes(self):
        made = Attributes([("b", 1), ("a", True), ("b", "x")])
        self.assertEqual((made.pairs(), len(made)), ([("a", True), ("b", "x")], 2))
        self.assertEqual(repr(made), "Attributes({'a': True, 'b': 'x'})")
        self.assertIs(made.pairs()[0][1], True)
        with self.assertRaises(TypeError):
            Ask.sum("app", "requests", "1").keep("route")
        with self.assertRaises(TypeError):
            View(keep="route")
        view = View("requests", keep=(key for key in ["route"]))
        for _ in range(2):
            writer, gateway = Writer(Plan(INSTRUMENTS, views=[view]), "shop", 1, 100), Gateway(1)
            writer.measure(0, Attributes({"route": "/", "user": 5}), 1)
            gateway.take(writer.collect(200))
            self.assertEqual([row.attributes for row in gateway.rows(Ask.sum("app", "requests", "1"))], [{"route": "/"}])

    def test_threads_record_while_another_is_in_a_long_call(self):
        """A call that takes long lets go of Python's lock, and of none that a recording wants."""
        writer, none, ended = Writer(Plan(INSTRUMENTS, limit=50_000), "shop", 1, 100), Attributes(), threading.Event()
        for number in range(20_000):
            writer.measure(0, Attributes({"n": number}), 1)
        bytes_ = writer.collect(200).encode()
        recorder, noted, during, often = Recorder(1000), [0], [], 40

        def work():
            for _ in range(often):
                before = noted[0]
                made = Export.decode(bytes_)
                during.append(noted[0] - before)
                made.close()
            ended.set()

        # (nobody is asked for the lock: so who records goes on inside a call that lets go of it, where a processor is free, or never)
        usual = sys.getswitchinterval()
        sys.setswitchinterval(3600)
        try:
            thread = threading.Thread(target=work)
            thread.start()
            while not ended.is_set():
                if noted[0] % 1000 == 0:
                    recorder.clear()
                recorder.measure(0, none, 1)
                noted[0] += 1
                if noted[0] % 100 == 0:
                    time.sleep(0.0001)
            thread.join()
        finally:
            sys.setswitchinterval(usual)
        self.assertGreater(max(during), 10, during)

    @unittest.skipUnless(kotskhin.library.has_own_lock, "where Python has no lock of its own, all calls are under one")
    def test_recorders_wait_for_no_call_of_another_thread(self):
        """A recorder's thread goes on while another thread is inside a call: no lock of the package's is round calls."""
        came, goes = threading.Event(), threading.Event()

        class Slow(Attributes):
            @property
            def _as_parameter_(self):
                if threading.current_thread() is not threading.main_thread():
                    came.set()
                    goes.wait(600)
                return super()._as_parameter_

        recorders, sets = [Recorder(10), Recorder(10)], [Slow(), Attributes()]
        threads = [threading.Thread(target=one.measure, args=(0, of, 1)) for one, of in zip(recorders, sets)]
        try:
            threads[0].start()
            self.assertTrue(came.wait(60))
            threads[1].start()
            threads[1].join(60)
            self.assertFalse(threads[1].is_alive(), "a recorder waits for another thread's call")
        finally:
            goes.set()
        for thread in threads:
            thread.join()
        self.assertEqual([len(recorder) for recorder in recorders], [1, 1])

    def test_many_threads_ask_and_take(self):
        """Gateways are merged into each other from threads, which ask them meanwhile."""
        writer, gateways, failed = Writer(Plan(INSTRUMENTS), "shop", 1, 100), [Gateway(1), Gateway(2)], []
        for number in range(100):
            writer.measure(0, Attributes({"n": number}), 1)
        export = writer.collect(200)

        def work(number):
            try:
                for turn in range(50):
                    gateways[number % 2].take(export)
                    gateways[number % 2].merge(gateways[turn % 2])
                    gateways[turn % 2].same(gateways[number % 2])
                    gateways[turn % 2].sum("app", "requests", "1")
                    Export.decode(export.encode()).close()
            except BaseException as fault:
                failed.append(fault)

        threads = [threading.Thread(target=work, args=(number,)) for number in range(4)]
        for thread in threads:
            thread.start()
        for thread in threads:
            thread.join(120)
        self.assertEqual((failed, [thread.is_alive() for thread in threads]), ([], [False] * 4))
        self.assertTrue(gateways[0].same(gateways[1]))


if __name__ == "__main__":
    unittest.main(verbosity=2)
