"""Archives in the service: workers come, end and are adopted. A Prometheus that scrapes meanwhile sees no reset and the true growth, and
no tombstone. The memory of a gateway through which many incarnations go stays as it is."""
import json
import os
import random
import threading
import time

from fleet import Fault, Gateway, free_port, page_of, until
from kotskhin import COUNTER, HISTOGRAM, UP_DOWN, Attributes, Plan, Writer, unique_instance
from prometheus import running, samples_of

ADDRESS, SCOPE = "127.0.0.1", "service.test"
PLAN = ((SCOPE, "requests", "1", COUNTER), (SCOPE, "open", "1", UP_DOWN), (SCOPE, "latency", "ms", HISTOGRAM))
ROUTES = [f"/{number}" for number in range(40)]
# (a machine that is busy is not to be taken for one that stopped)
ARCHIVES = ("--archive", "shop", "--archive-after", "1s", "--archive-every", "250ms")
GOSSIP = ("--gossip-interval", "100ms", "--gossip-longest-pause", "500ms")
WORKERS, SECONDS, SCRAPES, AT_A_TIME = 4, 20, "1s", 20
# Of the soak: points of an incarnation, what a gateway may hold beside tombstones, and how much its memory may grow once a quarter is
# through, also by each tombstone.
POINTS, MOST_POINTS, MOST_GROWTH, EACH = 200, 50_000, 16 << 20, 4096
AT_ONCE = 100


def posted(gateway, export):
    """Posts an export, and tells whether it was late."""
    status, _, told = gateway.ask("/v1/exports", "POST", export.encode())
    if status != 200:
        raise Fault(f"an export is answered {status}: {told}\n{gateway.tail()}")
    return json.loads(told).get("late", 0) == 1


def figure(gateway, name):
    """A figure of a gateway, over all its labels."""
    return sum(value for (found, _), value in samples_of(gateway.text("/metrics") or "").items() if found == f"kotskhin_gateway_{name}")


class Worker(threading.Thread):
    """Lives again and again: counts, pushes, and ends without a word. What it was told was taken is what it counted; of what came late it
    counts again in its next life what was not taken before."""

    def __init__(self, number, gateway, ends):
        super().__init__(daemon=True)
        self.chance, self.gateway, self.ends, self.plan = random.Random(number), gateway, ends, Plan(PLAN)
        self.sets = [Attributes({"route": route}) for route in ROUTES]
        self.taken, self.owed, self.lives, self.points, self.late, self.last, self.fault = {}, {}, 0, 0, 0, None, None

    def run(self):
        try:
            while not self.ends.is_set() or self.owed:
                self.live()
        except Exception as fault:
            self.fault = fault

    def live(self):
        """One life, from its first count to its last push."""
        self.last = Writer(self.plan, "shop", unique_instance(), time.time_ns())
        self.lives += 1
        for _ in range(self.chance.randrange(2, 8)):
            counted, self.owed = self.owed or self.counted(), {}
            for (instrument, route), value in counted.items():
                self.last.measure(instrument, self.sets[route], value)
            export = self.last.collect(time.time_ns())
            if posted(self.gateway, export):
                self.late, self.owed = self.late + 1, counted
                break
            points = export.head().points
            for at, value in counted.items():
                self.taken[at] = self.taken.get(at, 0) + value
            self.ends.wait(self.chance.random() * 0.4)
        self.points += points

    def counted(self):
        """What is counted next: at some routes a value each, at each instrument."""
        found = {}
        for _ in range(AT_A_TIME):
            value, route = self.chance.randrange(1000), self.chance.randrange(len(ROUTES))
            found |= {(0, route): value, (1, route): value - 500, (2, route): value}
        return found


def totals_of(workers):
    """What all of them were told was taken, as a page has it."""
    found = {}
    for worker in workers:
        for (instrument, route), value in worker.taken.items():
            name = ("requests_total", "open", "latency_milliseconds_sum")[instrument]
            at = name, (("otel_scope_name", SCOPE), ("route", ROUTES[route]), ("service_name", "shop"))
            found[at] = found.get(at, 0) + value
    return found


def kept(page):
    """Of a page what the workers counted."""
    return {at: value for at, value in samples_of(page).items() if at[0] in ("requests_total", "open", "latency_milliseconds_sum")}


def tombstones_of(gateway, asked):
    """How many tombstones stand on a page that is asked for so."""
    return sum(at[0] == "adopted_nanoseconds" for at in samples_of(gateway.text("/metrics" + asked) or ""))


class Scraped:
    """Two gateways, of which the first adopts, and a Prometheus that scrapes both."""

    def __init__(self, program, room):
        self.room, ports = room, [free_port(), free_port()]
        self.gateways = []
        for number, port in enumerate(ports):
            peers, flags = [f"http://{ADDRESS}:{ports[1 - number]}"], GOSSIP + (ARCHIVES if number == 0 else ())
            state, log = room / f"archives{number}", room / f"archives{number}.log"
            self.gateways.append(Gateway(program, number, ADDRESS, peers, state, log, flags=flags, port=port))

    def run(self):
        for gateway in self.gateways:
            gateway.start()
        try:
            until(lambda: all(gateway.is_ready() for gateway in self.gateways), lambda: f"they are not ready\n{self.gateways[0].tail()}")
            targets = [f"{ADDRESS}:{gateway.port}" for gateway in self.gateways]
            with running(self.room / "archives", targets, port=free_port(), every=SCRAPES) as prometheus:
                return self.ran(prometheus)
        finally:
            for gateway in self.gateways:
                gateway.kill()

    def ran(self, prometheus):
        ends = threading.Event()
        workers = [Worker(number, self.gateways[0], ends) for number in range(WORKERS)]
        self.zeros(workers[0])
        until(lambda: len(prometheus.ask("requests_total")) == 2 * len(ROUTES), "Prometheus keeps no zeros")
        for worker in workers:
            worker.start()
        time.sleep(SECONDS)
        ends.set()
        for worker in workers:
            worker.join()
            if worker.fault:
                raise worker.fault
        lives, wanted = sum(worker.lives for worker in workers), totals_of(workers)
        # (each life, and what counted the zeros, has a tombstone, and there are as many totals as routes and instruments)
        points = lives + 1 + len(PLAN) * len(ROUTES)
        for gateway in self.gateways:
            until(lambda: figure(gateway, "held_points") == points, lambda: f"not all is forgotten: {figure(gateway, 'held_points')}, {points}")
            if kept(page_of(gateway)) != wanted:
                raise Fault(f"gateway {gateway.number} does not show what was counted\n{gateway.tail()}")
            found = [tombstones_of(gateway, asked) for asked in ("", "?tombstones=false", "?tombstones=true")]
            if found != [0, 0, lives + 1]:
                raise Fault(f"gateway {gateway.number} shows {found} tombstones of {lives + 1}")
        self.late(workers[0].last, wanted)
        self.hold(prometheus, wanted)
        late, came = (sum(getattr(worker, what) for worker in workers) for what in ("late", "points"))
        return f"{lives} lives with {came} points were adopted, {late} of them while they lived; {points} points are left"

    def zeros(self, worker):
        """Each series is scraped at 0 first."""
        writer = Writer(worker.plan, "shop", unique_instance(), time.time_ns())
        for instrument in range(len(PLAN)):
            for at, labels in enumerate(worker.sets):
                writer.measure(instrument, labels, 0)
                worker.taken[instrument, at] = 0
        if posted(self.gateways[0], writer.collect(time.time_ns())):
            raise Fault("what is new is late")

    def late(self, writer, wanted):
        """A worker that was taken for dead reports to each gateway: nothing moves."""
        writer.measure(0, Attributes({"route": "/0"}), 1_000_000)
        for gateway in self.gateways:
            if not posted(gateway, writer.collect(time.time_ns())):
                raise Fault(f"gateway {gateway.number} does not say what is late")
            if kept(page_of(gateway)) != wanted or figure(gateway, "late_exports_total") < 1:
                raise Fault(f"gateway {gateway.number} takes what is late\n{gateway.tail()}")

    def hold(self, prometheus, wanted):
        """Of each series Prometheus saw no reset, and as much growth as there was."""
        names = ("requests_total", "latency_milliseconds_count", "latency_milliseconds_sum", "latency_milliseconds_bucket")
        for gateway in self.gateways:
            target = f"{ADDRESS}:{gateway.port}"
            until(lambda: prometheus.page_of(target) == samples_of(page_of(gateway)), f"Prometheus does not keep the page of {target}")
        resets = {value for name in names for _, value in prometheus.ask(f"resets({name}[10m])")}
        scrapes = min(value for _, value in prometheus.ask("count_over_time(requests_total[10m])"))
        if resets != {0} or scrapes < 5:
            raise Fault(f"{scrapes} scrapes saw resets: {resets}")
        # (what `increase` adds for the time behind the last scrape is a step and a tenth at most)
        most, seen = 1 + 1.1 / (scrapes - 1), 0
        for metric, grown in prometheus.ask("increase(requests_total[10m])"):
            value = wanted["requests_total", (("otel_scope_name", SCOPE), ("route", metric["route"]), ("service_name", "shop"))]
            seen += 1
            if not value - 1e-6 <= grown <= value * most + 1e-6:
                raise Fault(f"{metric} grew by {grown}, and not by {value}")
        if seen != 2 * len(ROUTES):
            raise Fault(f"Prometheus keeps {seen} series")


def resident(process):
    with open(f"/proc/{process.pid}/status", encoding="utf-8") as status:
        return next(int(line.split()[1]) << 10 for line in status if line.startswith("VmRSS"))


class Soak:
    """One gateway through which incarnations go: it could hold few of them at once."""

    def __init__(self, program, room, count):
        os.environ["MALLOC_ARENA_MAX"] = "2"
        flags = (*ARCHIVES, "--save-interval", "1s", "--max-points", str(MOST_POINTS + 2 * count))
        self.gateway = Gateway(program, 1, ADDRESS, [], room / "soak", room / "soak.log", flags=flags, port=free_port())
        self.count, self.plan, self.seen = count, Plan([(SCOPE, "requests", "1", COUNTER)]), []
        self.sets = [Attributes({"route": f"/{number % 20}", "status": number // 20}) for number in range(POINTS)]

    def run(self):
        self.gateway.start()
        try:
            until(self.gateway.is_ready, lambda: f"it is not ready\n{self.gateway.tail()}")
            for number in range(self.count):
                self.live()
                if (number + 1) % AT_ONCE == 0:
                    self.settle(number + 1)
            return self.held()
        finally:
            self.gateway.kill()

    def live(self):
        writer = Writer(self.plan, "shop", unique_instance(), time.time_ns())
        for labels in self.sets:
            writer.measure(0, labels, 1)
        if posted(self.gateway, writer.collect(time.time_ns())):
            raise Fault("what is new is late")

    def settle(self, number):
        """So many that are new wait for no more than as many that are not adopted yet."""
        until(lambda: figure(self.gateway, "adopted_total") >= number - AT_ONCE, lambda: f"it forgets nothing\n{self.gateway.tail()}")
        self.seen.append(resident(self.gateway.process))

    def held(self):
        """In the end all is adopted and counted, and the memory is what it was."""
        until(lambda: figure(self.gateway, "adopted_total") == self.count, lambda: f"not all is adopted\n{self.gateway.tail()}")
        found = [value for (name, _), value in samples_of(page_of(self.gateway)).items() if name == "requests_total"]
        if found != [self.count] * POINTS:
            raise Fault(f"{len(found)} series, {sorted(set(found))}, where {self.count} were counted at each of {POINTS}")
        points, quarter = figure(self.gateway, "held_points"), self.seen[len(self.seen) // 4]
        grown = max(self.seen[len(self.seen) // 4 :]) - quarter
        told = f"{self.count} incarnations of {POINTS} points, of which {points:.0f} points are left; resident {quarter >> 20} MB after a quarter"
        if grown > MOST_GROWTH + EACH * self.count:
            raise Fault(f"{told}, and {grown >> 20} MB more later")
        return f"{told}, at most {max(self.seen) >> 20} MB in all"


def trials(program, room, count):
    return [
        ("a Prometheus sees no reset while workers are adopted", lambda: Scraped(program, room).run()),
        ("memory stays as it is while incarnations come and go", lambda: Soak(program, room, count).run()),
    ]
