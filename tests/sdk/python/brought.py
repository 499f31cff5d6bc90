"""What is brought by exporters, and what is not: servers that drip, refuse or hang up, files that are replaced, and children of
multiprocessing at their end."""
import concurrent.futures
import contextlib
import os
import pathlib
import socket
import stat
import subprocess
import sys
import tempfile
import threading
import time
import unittest

SDK = pathlib.Path(__file__).resolve().parents[3] / "sdk"
sys.path.insert(0, str(SDK / "python"))
from kotskhin import Ask, Export, Gateway
from kotskhin.metrics import FileExporter, HttpExporter, HttpRefused, MeterProvider

# How long a dripping server may hold an exporter whose timeout is TIMEOUT: far less than all that it drips takes. The timeout of one that
# waits for the head of a refusal is LONG, within which a machine that is busy has brought that head.
TIMEOUT, LONG, MOST = 0.5, 5, 30


def export_of(total):
    """An export of one counter."""
    provider = MeterProvider({"service.name": "shop"}, shutdown_on_exit=False)
    provider.get_meter("app").create_counter("requests").add(total)
    return provider.collect()


def read_request(peer):
    """Reads a request to its end. The system resets a connection that is closed while some of that is unread, and with it goes what the
    other side has not got yet of the answer; and a client sends its head and its body each by itself."""
    with peer.makefile("rb") as request:
        head = iter(lambda: request.readline().strip(), b"")
        lengths = [int(line.split(b":")[1]) for line in head if line.lower().startswith(b"content-length:")]
        request.read(sum(lengths))


@contextlib.contextmanager
def answering(*pieces, pause=0.0):
    """The port of a server that answers by these pieces of bytes, with a pause behind each, whatever it is asked."""
    def serve():
        with contextlib.suppress(OSError):
            while True:
                peer, _ = server.accept()
                with peer, contextlib.suppress(OSError):
                    read_request(peer)
                    for piece in pieces:
                        peer.sendall(piece)
                        time.sleep(pause)

    with socket.create_server(("127.0.0.1", 0)) as server:
        thread = threading.Thread(target=serve, daemon=True)
        thread.start()
        try:
            yield server.getsockname()[1]
        finally:
            # (else it waits on, and may come to answer for a later socket that has the number of this one)
            server.shutdown(socket.SHUT_RDWR)
            thread.join()


def by_bytes(of):
    return [of[place : place + 1] for place in range(len(of))]


class Posts(unittest.TestCase):
    def failure(self, port, timeout=60):
        """How a post fails, and after what time."""
        began = time.monotonic()
        with self.assertRaises(Exception) as caught:
            HttpExporter(f"http://127.0.0.1:{port}/v1/metrics").export(export_of(7), timeout)
        return caught.exception, time.monotonic() - began

    def test_a_server_that_drips(self):
        head = b"HTTP/1.1 200 OK\r\nX-Long: " + b"x" * 300 + b"\r\nContent-Length: 1000\r\n\r\n"
        refused = b"HTTP/1.1 403 Forbidden\r\nContent-Length: 1000\r\n\r\n"
        for pieces in (by_bytes(head), [head, *by_bytes(b"x" * 1000)], [b"HTTP/1.1 100 Continue\r\n\r\n"] * 300):
            with answering(*pieces, pause=0.2) as port:
                fault, took = self.failure(port, TIMEOUT)
                self.assertRegex(repr(fault), "timed out")
                self.assertLess(took, MOST)
        with answering(refused, *by_bytes(b"x" * 1000), pause=0.2) as port:
            fault, took = self.failure(port, LONG)
            self.assertEqual((type(fault), fault.status), (HttpRefused, 403))
            self.assertLess(took, MOST)

    def test_a_proxy_that_drips(self):
        with answering(*by_bytes(b"HTTP/1.1 200 Connection established\r\n" * 20), pause=0.2) as port:
            script = "import brought, sys; from kotskhin.metrics import HttpExporter; " \
                "HttpExporter('https://example.invalid/v1/metrics').export(brought.export_of(7), brought.TIMEOUT)"
            given = {**os.environ, "https_proxy": f"http://127.0.0.1:{port}", "no_proxy": ""}
            began = time.monotonic()
            done = subprocess.run([sys.executable, "-B", "-c", script], cwd=pathlib.Path(__file__).parent, env=given, capture_output=True,
                                  text=True, timeout=600, check=False)
            self.assertIn("timed out", done.stderr)
            self.assertLess(time.monotonic() - began, 2 * MOST)

    def test_a_server_that_does_not_read(self):
        with socket.create_server(("127.0.0.1", 0)) as server:
            fault, took = self.failure(server.getsockname()[1], TIMEOUT)
            self.assertRegex(repr(fault), "timed out")
            self.assertLess(took, MOST)

    def test_what_a_refusal_says(self):
        for body, wanted in (
            (b"the token does not speak for the service nope\nand more\n", "403 Forbidden: the token does not speak for the service nope"),
            (b"", "403 Forbidden"), (b"\r\n \n", "403 Forbidden"),
            (b"\n\x1b[31mred\x07\x00\x9b \xff\n", "403 Forbidden: [31mred\ufffd \ufffd"),
            ("x\u202ey\u2028z".encode(), "403 Forbidden: xy"), (b"y" * 5000, "403 Forbidden: " + "y" * 1024),
        ):
            with answering(b"HTTP/1.1 403 Forbidden\r\nContent-Length: %d\r\n\r\n" % len(body), body) as port:
                fault, _ = self.failure(port)
                self.assertEqual((type(fault), str(fault)), (HttpRefused, wanted))
        with answering(b"HTTP/1.1 503 Busy\r\nContent-Length: 50\r\n\r\n", b"cut") as port:
            self.assertEqual(str(self.failure(port)[0])[:8], "503 Busy")

    def test_a_server_that_answers_in_pieces(self):
        answer = b"HTTP/1.1 200 OK\r\nTransfer-Encoding: chunked\r\n\r\n0\r\n\r\n"
        with answering(*by_bytes(answer)) as port:
            HttpExporter(f"http://localhost:{port}/v1/metrics").export(export_of(7), 60)


class Files(unittest.TestCase):
    def setUp(self):
        room = tempfile.TemporaryDirectory()
        self.addCleanup(room.cleanup)
        self.room = pathlib.Path(room.name)

    def test_their_mode_is_the_umasks(self):
        for mask, mode in ((0o022, 0o644), (0o077, 0o600), (0o000, 0o666)):
            before = os.umask(mask)
            try:
                FileExporter(self.room / "file").export(export_of(7), 60)
            finally:
                os.umask(before)
            self.assertEqual(stat.S_IMODE((self.room / "file").stat().st_mode), mode)
        self.assertEqual(os.listdir(self.room), ["file"])

    def test_nothing_is_left_behind(self):
        (self.room / "folder").mkdir()
        (self.room / "folder" / "held").touch()
        closed = export_of(7)
        closed.close()
        for path, export in ((self.room / "folder", export_of(7)), (self.room / "file", closed), (self.room / "no" / "file", export_of(7))):
            with self.assertRaises(Exception):
                FileExporter(path).export(export, 60)
        self.assertEqual(os.listdir(self.room), ["folder"])

    def test_threads_of_one_path(self):
        def work(_):
            for number in range(50):
                FileExporter(self.room / "file").export(export_of(number), 60)

        with concurrent.futures.ThreadPoolExecutor(4) as threads:
            working = threads.map(work, range(4))
            for _ in range(50):
                with contextlib.suppress(FileNotFoundError):
                    Export.decode((self.room / "file").read_bytes())
            # (what failed in one of them is raised here)
            list(working)
        self.assertEqual(os.listdir(self.room), ["file"])


CHILDREN = '''
import concurrent.futures, multiprocessing, os, pathlib, sys
from kotskhin.metrics import MeterProvider, PeriodicExportingMetricReader

def export(it):
    pathlib.Path({room!r}, str(os.getpid())).write_bytes(it.encode())

provider = MeterProvider({{"service.name": "shop"}}, [PeriodicExportingMetricReader(export)])
requests = provider.get_meter("app").create_counter("requests")
if {early!r} and __name__ != "__main__":
    requests.add(100, {{"at": "import"}})

def work(number):
    requests.add(1, {{"by": "child"}})
    return number

def main():
    requests.add(1000, {{"by": "parent"}})
    for way in ("fork", "spawn", "forkserver"):
        context = multiprocessing.get_context(way)
        children = [context.Process(target=work, args=(number,)) for number in range(5)]
        for child in children:
            child.start()
        for child in children:
            child.join()
        with concurrent.futures.ProcessPoolExecutor(2, mp_context=context) as pool:
            list(pool.map(work, range(20)))

if __name__ == "__main__":
    main()
    provider.shutdown()
'''


class Children(unittest.TestCase):
    """What children of multiprocessing recorded is brought at their end, under an identity of each."""

    def brought(self, early):
        with tempfile.TemporaryDirectory() as room:
            script, exports = pathlib.Path(room) / "script.py", pathlib.Path(room) / "exports"
            exports.mkdir()
            script.write_text(CHILDREN.format(room=str(exports), early=early), encoding="utf-8")
            given = {**os.environ, "PYTHONPATH": str(SDK / "python")}
            done = subprocess.run([sys.executable, "-B", script], env=given, capture_output=True, text=True, timeout=1800, check=False)
            self.assertEqual((done.returncode, done.stderr), (0, ""))
            gateway = Gateway(1)
            for path in exports.iterdir():
                gateway.take(Export.decode(path.read_bytes()))
            rows = {tuple(row.attributes.values()): (row.points, row.total) for row in gateway.rows(Ask.sum("app", "requests", ""))}
            return rows, len(gateway.incarnations())

    def test_at_their_end(self):
        rows, count = self.brought(early=False)
        self.assertEqual((rows["parent",], rows["child",][1]), ((1, 1000), 15 + 60))
        self.assertGreaterEqual(rows["child",][0], 15 + 3)
        self.assertEqual(count, rows["child",][0] + 1)

    def test_where_the_main_module_records(self):
        rows, _ = self.brought(early=True)
        self.assertEqual((rows["parent",], rows["child",][1]), ((1, 1000), 15 + 60))
        # (each spawned child imports it, and the server of forks once, before or after it forks)
        self.assertGreaterEqual(rows["import",][0], 5 + 1)
        self.assertEqual(rows["import",][1], 100 * rows["import",][0])

    def test_nothing_is_imported_for_them(self):
        script = "import sys; from kotskhin.metrics import MeterProvider; it = MeterProvider(); it.start(); it.shutdown(); " \
            "print([name for name in sys.modules if name.startswith('multiprocessing')])"
        command = [sys.executable, "-B", "-c", script]
        done = subprocess.run(command, cwd=SDK / "python", capture_output=True, text=True, timeout=600, check=True)
        self.assertEqual(done.stdout, "[]\n")


if __name__ == "__main__":
    unittest.main(verbosity=2)
