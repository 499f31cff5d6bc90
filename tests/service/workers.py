"""Workers that count, and push what they counted to the first gateway that takes it. Each knows what it was told was taken."""
import http.client
import json
import random
import threading
import time
import typing

from fleet import ANSWER, PATIENCE, Fault
from kotskhin import COUNTER, HISTOGRAM, UP_DOWN, Attributes, Plan, Writer, unique_instance

SCOPE = "service.test"
ROUTES = ("/", "/cart", "/pay")
PLAN = ((SCOPE, "requests", "1", COUNTER), (SCOPE, "open", "1", UP_DOWN), (SCOPE, "latency", "ms", HISTOGRAM))
SECONDS = 1.0  # that a gateway has to take an export, while things go wrong


class Pushed(typing.NamedTuple):
    """What an export says: of each stream and route what it comes to."""

    time: int
    totals: dict


class Life:
    """A worker from a start on: what it collected, and the newest of that of which it was told that it was taken."""

    def __init__(self, seed, worker, number):
        self.seed, self.worker, self.number = seed, worker, number
        self.pushed, self.told = [], -1

    def name(self):
        return f"{self.seed}-{self.worker}-{self.number}"


class Worker:
    """Counts at random, from a seed; dies and comes back where it is told to."""

    def __init__(self, number, seed, proxy, gateways):
        self.number, self.seed, self.proxy, self.gateways = number, seed, proxy, list(gateways)
        self.chance = random.Random(f"worker {number} {seed}")
        self.service, self.instance = ("shop", "till")[number % 2], unique_instance()
        self.plan, self.lives, self.last, self.time = Plan(PLAN), [], 0, 0
        self.begin()
        self.dies, self.ends, self.fault = threading.Event(), threading.Event(), None
        self.rests, self.is_resting = threading.Event(), threading.Event()
        self.thread = threading.Thread(target=self.run, daemon=True)
        self.counts = {"taken": 0, "not taken": 0, "late": 0}

    def now(self):
        """The clock's time, which always rises."""
        self.time = max(self.time + 1, time.time_ns())
        return self.time

    def begin(self):
        """A life begins: the same instance, under a later start."""
        self.lives.append(Life(self.seed, self.number, len(self.lives) + 1))
        self.writer = Writer(self.plan, self.service, self.instance, self.now())
        life = self.lives[-1].name()
        self.sets = {route: Attributes({"route": route, "life": life}) for route in ROUTES}
        self.totals = {}

    def count(self):
        for _ in range(self.chance.randrange(1, 20)):
            route, value = self.chance.choice(ROUTES), self.chance.randrange(0, 1000)
            for instrument, each in enumerate((value, value - 500, value)):
                self.writer.measure(instrument, self.sets[route], each)
                at = instrument, route
                self.totals[at] = self.totals.get(at, 0) + each

    def push(self):
        """One collection; whether a gateway took it."""
        life, self.time = self.lives[-1], max(self.time + 1, time.time_ns())
        export = self.writer.collect(self.time)
        life.pushed.append(Pushed(self.time, dict(self.totals)))
        number = len(life.pushed) - 1
        is_otlp = self.chance.random() < 0.3
        body = export.otlp() if is_otlp else export.encode()
        heads = {"Content-Type": "application/x-protobuf" if is_otlp else "application/vnd.kotskhin.export"}
        path = "v1/metrics" if is_otlp else "v1/exports"
        for turn in range(len(self.gateways)):
            at = (self.last + turn) % len(self.gateways)
            told = self.posted(f"/{self.gateways[at]}/{path}", body, heads)
            if told is not None and is_late(told, is_otlp):
                # (it was taken for dead: what it was told before counts, and what it counts from now on is another life's)
                self.counts["late"] += 1
                self.begin()
                return False
            if told is not None:
                self.last, life.told = at, number
                self.counts["taken"] += 1
                return True
        self.counts["not taken"] += 1
        return False

    def posted(self, path, body, heads):
        """The answer of a gateway that takes it; nothing of another."""
        connection = http.client.HTTPConnection(self.proxy.url, timeout=ANSWER if self.ends.is_set() else SECONDS)
        try:
            connection.request("POST", path, body, heads)
            answer = connection.getresponse()
            told = answer.read()
            if answer.status in (400, 401, 403, 404, 405, 413, 415, 421, 500):
                raise Fault(f"worker {self.number}: {path} answers {answer.status}: {told[:300]}")
            return told if answer.status == 200 else None
        except (OSError, http.client.HTTPException):
            return None
        finally:
            connection.close()

    def run(self):
        try:
            while not self.ends.is_set():
                if self.rests.is_set():
                    self.is_resting.set()
                    self.ends.wait(0.02)
                    continue
                self.count()
                if self.dies.is_set():
                    # (what it counted since its last collection dies with it: nobody was told of that)
                    self.dies.clear()
                    self.begin()
                    continue
                self.push()
                self.ends.wait(self.chance.random() * 0.1)
        except Exception as fault:
            self.fault = fault

    def rest(self, patience=PATIENCE):
        """Has it push nothing until its rest is over."""
        self.is_resting.clear()
        self.rests.set()
        if not self.is_resting.wait(patience):
            raise self.fault or Fault(f"worker {self.number} does not rest")

    def finish(self, patience):
        """Ends the thread, and brings the last collection to a gateway, for certain."""
        self.ends.set()
        self.thread.join(patience)
        if self.thread.is_alive():
            raise Fault(f"worker {self.number} does not end")
        if self.fault:
            raise self.fault
        end = time.monotonic() + patience
        self.count()
        while not self.push():
            self.count()
            if time.monotonic() > end:
                raise Fault(f"worker {self.number}: no gateway takes its last collection")
            time.sleep(0.05)


def is_late(told, is_otlp):
    """Whether an answer says that the incarnation was adopted: to OTLP as points that were refused."""
    return b"LATE" in told if is_otlp else json.loads(told).get("late", 0) > 0
