"""What stands between workers and gateways, and brings exports late, twice and out of order; and links between gateways that can be cut
where no namespaces can be made."""
import http.server
import random
import socket
import threading
import time

from fleet import ANSWER, PORT, asked

KEPT = 50  # exports that are kept to be brought once more


class Proxy:
    """Brings what is posted to /NUMBER/PATH to the gateway of this number. What it does beside that, a nemesis says."""

    def __init__(self, addresses, seed, port=PORT):
        self.addresses, self.port, self.chance = addresses, port, random.Random(f"proxy {seed}")
        self.guard, self.old, self.late = threading.Lock(), [], []
        self.delay = self.twice = self.holds = self.again = 0.0
        self.counts = {"brought": 0, "delayed": 0, "twice": 0, "held back": 0, "brought again": 0}
        self.server = http.server.ThreadingHTTPServer(("127.0.0.1", 0), self.handler())
        self.server.daemon_threads = True
        self.url = f"127.0.0.1:{self.server.server_address[1]}"
        threading.Thread(target=self.server.serve_forever, daemon=True).start()

    def close(self):
        self.server.shutdown()
        self.server.server_close()
        for thread in self.late:
            thread.join()

    def calm(self):
        """Everything is brought once, at once. What was held back is brought before this returns."""
        self.delay = self.twice = self.holds = self.again = 0.0
        for thread in self.late:
            thread.join()

    def drawn(self, chance):
        with self.guard:
            return self.chance.random() < chance

    def count(self, what):
        with self.guard:
            self.counts[what] += 1

    def other(self, number):
        with self.guard:
            return self.chance.choice([other for other in self.addresses if other != number])

    def bring(self, number, path, body, heads, timeout=ANSWER):
        return asked(self.addresses[number], "POST", path, body, heads, timeout, self.port)

    def take(self, number, path, body, heads):
        """What is answered to a worker: status and body."""
        if self.drawn(self.holds):
            # (its worker gives it up, and sends later ones before this one comes)
            self.count("held back")
            late = threading.Thread(target=self.bring_late, args=(number, path, body, heads), daemon=True)
            self.late.append(late)
            late.start()
            return 504, b"held back"
        if self.drawn(0.5):
            if self.delay:
                self.count("delayed")
            time.sleep(self.delay)
        if self.drawn(self.twice):
            self.count("twice")
            self.bring(self.other(number) if self.drawn(0.5) else number, path, body, heads)
        status, _, told = self.bring(number, path, body, heads)
        self.count("brought")
        with self.guard:
            self.old = [*self.old[-KEPT:], (number, path, body, heads)]
        if self.drawn(self.again):
            with self.guard:
                old = self.chance.choice(self.old)
            self.count("brought again")
            self.bring(*old)
        return status, told

    def bring_late(self, number, path, body, heads):
        time.sleep(self.delay + 0.3)
        self.bring(number, path, body, heads)

    def handler(proxy):  # noqa: N805 (the handler has a self of its own)
        class Handler(http.server.BaseHTTPRequestHandler):
            """One export of a worker."""

            def do_POST(self):
                body = self.rfile.read(int(self.headers["Content-Length"]))
                _, number, path = self.path.split("/", 2)
                heads = {name: self.headers[name] for name in ("Content-Type", "Content-Encoding") if name in self.headers}
                status, told = proxy.take(int(number), f"/{path}", body, heads)
                try:
                    self.send_response(status or 502)
                    self.send_header("Content-Length", str(len(told)))
                    self.end_headers()
                    self.wfile.write(told)
                except OSError:
                    pass  # (the worker has given it up)

            def log_message(self, format, *args):
                """Nothing is logged."""

        return Handler


class Link:
    """A way from one gateway to another on the loopback, which can be cut."""

    def __init__(self, to):
        self.to, self.is_cut, self.guard, self.open = to, False, threading.Lock(), set()
        self.listens = socket.create_server(("127.0.0.1", 0))
        self.port = self.listens.getsockname()[1]
        threading.Thread(target=self.serve, daemon=True).start()

    def serve(self):
        while True:
            try:
                near, _ = self.listens.accept()
            except OSError:
                return
            threading.Thread(target=self.join, args=(near,), daemon=True).start()

    def join(self, near):
        try:
            if self.is_cut:
                raise OSError("cut")
            far = socket.create_connection(self.to, timeout=5)
            far.settimeout(None)
        except OSError:
            near.close()
            return
        with self.guard:
            self.open |= {near, far}
        for source, sink in ((near, far), (far, near)):
            threading.Thread(target=self.pump, args=(source, sink), daemon=True).start()

    def pump(self, source, sink):
        try:
            while piece := source.recv(1 << 16):
                sink.sendall(piece)
        except OSError:
            pass
        self.end(source, sink)

    def end(self, *sockets):
        for one in sockets:
            with self.guard:
                self.open.discard(one)
            try:
                one.shutdown(socket.SHUT_RDWR)
            except OSError:
                pass
            one.close()

    def cut(self, is_cut):
        self.is_cut = is_cut
        if is_cut:
            with self.guard:
                sockets = list(self.open)
            self.end(*sockets)

    def close(self):
        self.listens.close()
        self.cut(True)


class Loopback:
    """Gateways on addresses of the loopback, with a link from each to each other. There is no loss, for want of iptables."""

    has_loss = False

    def __init__(self, count, port):
        self.addresses = {number: f"127.0.0.{10 + number}" for number in range(1, count + 1)}
        self.links = {
            (one, other): Link((self.addresses[other], port)) for one in self.addresses for other in self.addresses if one != other
        }

    def inside(self, _):
        return []

    def cut(self, number, others):
        for (one, other), link in self.links.items():
            if number in (one, other) and ({one, other} - {number}) & set(others):
                link.cut(True)

    def heal(self):
        for link in self.links.values():
            link.cut(False)

    def close(self):
        for link in self.links.values():
            link.close()
