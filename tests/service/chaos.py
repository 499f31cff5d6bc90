"""One seed: three gateways, eight workers, and a nemesis. Half-way all rest, and what is held is adopted. In the end each gateway's tables and page, and what Prometheus keeps of it, are
the same, and what the workers were told was taken."""
import time

from fleet import PATIENCE, PORT, Fault, Gateway, page_of, tables_of, until
from nemesis import Nemesis
from prometheus import samples_of
from proxy import Proxy
from workers import ROUTES, SCOPE, Worker

GATEWAYS, WORKERS = 3, 8
FLAGS = ("--gossip-interval", "100ms", "--gossip-longest-pause", "500ms", "--gossip-timeout", "5s", "--save-interval", "2s")
# What the first gateway is told once, while all workers rest.
ARCHIVES = ("--archive", "shop,till", "--archive-after", "1s", "--archive-every", "250ms")


def gateways_of(program, network, disks, room, seed):
    made = {}
    for number, address in network.addresses.items():
        others = [other for other in network.addresses if other != number]
        links = getattr(network, "links", None)
        if links:
            peers = [f"http://127.0.0.1:{links[number, other].port}" for other in others]
        else:
            peers = [f"http://{network.addresses[other]}:{PORT}" for other in others]
        log = room / f"gateway{number}.{seed}.log"
        made[number] = Gateway(program, number, address, peers, disks.folders[number], log, network.inside(number), FLAGS)
    return made


def agreed(gateways):
    """The tables and the page that all gateways give; nothing while they differ, or are not ready."""
    told = []
    for gateway in gateways.values():
        tables = tables_of(gateway)
        page = tables and page_of(gateway)
        if not page:
            return None
        told.append((tables, page))
    return told[0] if all(one == told[0] for one in told) else None


class Seed:
    """What runs of a seed."""

    def __init__(self, seed, program, network, disks, prometheus, room):
        self.seed, self.network, self.prometheus = seed, network, prometheus
        disks.clear()
        self.gateways = gateways_of(program, network, disks, room, seed)
        self.proxy = Proxy(network.addresses, seed)
        self.workers = [Worker(number, seed, self.proxy, network.addresses) for number in range(1, WORKERS + 1)]
        self.nemesis = Nemesis(seed, self.gateways, network, disks, self.proxy, self.workers)

    def run(self, seconds):
        """Tells what was done, and what it came to."""
        try:
            return self.ran(seconds)
        except Fault as fault:
            logs = "\n".join(f"--- gateway {gateway.number}\n{gateway.tail()}" for gateway in self.gateways.values())
            raise Fault(f"seed {self.seed}: {fault}\ndone: {self.nemesis.done}\n{logs}") from fault
        finally:
            for worker in self.workers:
                worker.ends.set()
            self.nemesis.heal_quietly()
            for gateway in self.gateways.values():
                gateway.kill()
            self.proxy.close()

    def ran(self, seconds):
        for gateway in self.gateways.values():
            gateway.start()
        until(lambda: all(gateway.is_ready() for gateway in self.gateways.values()), "the gateways are not ready")
        for worker in self.workers:
            worker.thread.start()
        self.nemesis.run(seconds / 2)
        self.adopt_all()
        self.nemesis.run(seconds / 2)
        healed = time.monotonic()
        until(lambda: all(gateway.is_ready() for gateway in self.gateways.values()), "the gateways are not ready once all is healed")
        for worker in self.workers:
            worker.finish(PATIENCE)
        tables, page = self.converged()
        took = time.monotonic() - healed
        self.compare(tables)
        self.scraped(page)
        return self.told(took)

    def adopt_all(self):
        """While all rest, the first gateway adopts each life that left something. Those of workers who live are told so once they go on."""
        until(lambda: all(gateway.is_ready() for gateway in self.gateways.values()), "the gateways are not ready while all rest")
        for worker in self.workers:
            worker.rest()
        lives = len({name for name, *_ in totals_in(self.converged()[0])})
        self.begin_anew(ARCHIVES)
        until(lambda: self.adopted() == lives, lambda: f"{self.adopted()} of {lives} lives are adopted")
        self.converged()
        self.begin_anew()
        for worker in self.workers:
            worker.rests.clear()

    def begin_anew(self, flags=()):
        """Ends the first gateway in order, and begins it with these flags beside its own, this once."""
        first, words = self.gateways[1], self.gateways[1].words
        first.stop()
        first.words = [*words, *flags]
        first.start()
        first.words = words
        until(first.is_ready, lambda: f"the first gateway is not ready\n{first.tail()}")

    def converged(self):
        """What all gateways say once they agree, and nothing that a worker was told is missing any more."""
        return until(lambda: self.whole(agreed(self.gateways)), lambda: f"the gateways do not agree: {self.differing()}")

    def whole(self, told):
        return told if told and not self.missing(totals_in(told[0])) else None

    def missing(self, found):
        """The lives of which less is held than was told."""
        return [life.name() for life in self.lives() if life.told >= 0 and self.place_of(life, found) < life.told]

    def lives(self):
        return [life for worker in self.workers for life in worker.lives]

    def place_of(self, life, found):
        """Which collection of a life is held, by its totals; -1 of none, and -2 of what it never said."""
        held = {at: found[life.name(), *at] for at in ((i, route) for i in range(3) for route in ROUTES) if (life.name(), *at) in found}
        if not held:
            return -1
        places = [number for number, push in enumerate(life.pushed) if push.totals == held]
        return max(places) if places else -2

    def compare(self, tables):
        """Of each life all gateways hold one collection, which is none before the newest that was told."""
        found = totals_in(tables)
        strange = {name for name, *_ in found} - {life.name() for life in self.lives()}
        if strange:
            raise Fault(f"there are totals of {sorted(strange)}, who never lived")
        for life in self.lives():
            place = self.place_of(life, found)
            if place < life.told:
                raise Fault(f"life {life.name()}: collection {place} is held, and {life.told} was told of {len(life.pushed)}")
        for worker in self.workers:
            if self.place_of(worker.lives[-1], found) != len(worker.lives[-1].pushed) - 1:
                raise Fault(f"worker {worker.number}: its last collection is not what is held")

    def scraped(self, page):
        """Prometheus keeps of each gateway just this page."""
        wanted = samples_of(page)
        for gateway in self.gateways.values():
            until(
                lambda: self.prometheus.page_of(f"{gateway.address}:{PORT}") == wanted,
                lambda: f"Prometheus does not keep the page of gateway {gateway.number}",
            )

    def resets(self):
        """How often Prometheus saw a counter of this seed fall: a gateway that comes back shows no less than before, but for what peers
        told it while its disk was full."""
        count = 0
        for name in ("requests_total", "latency_milliseconds_count"):
            found = self.prometheus.ask(f'resets({name}{{life=~"{self.seed}-.*"}}[10m])')
            if not found:
                raise Fault(f"Prometheus kept no {name}")
            count += int(sum(value for _, value in found))
        return count

    def adopted(self):
        """How many lives have a tombstone."""
        return (self.gateways[1].text("/metrics?tombstones=true") or "").count("\nadopted_nanoseconds{")

    def differing(self):
        told = {gateway.number: (tables_of(gateway), gateway.json("/v1/peers")) for gateway in self.gateways.values()}
        found = {number: tables and self.missing(totals_in(tables)) for number, (tables, _) in told.items()}
        return f"missing lives: {found}; peers: {[peers for _, peers in told.values()]}"

    def told(self, took):
        taken, not_taken, late = (sum(worker.counts[what] for worker in self.workers) for what in ("taken", "not taken", "late"))
        return {
            "done": dict(sorted(self.nemesis.done.items())), "exports told": taken, "not taken": not_taken, "late": late,
            "lives": len(self.lives()), "adopted": self.adopted(), "starts": sum(gateway.starts for gateway in self.gateways.values()),
            "proxy": dict(self.proxy.counts), "seconds to agree": round(took, 2), "resets seen": self.resets(),
        }


INSTRUMENTS = {"requests": 0, "open": 1, "latency": 2}


def totals_in(tables):
    """Of each life, instrument and route the total."""
    found = {}
    for stream, table in tables.items():
        words = dict(stream)
        if words["scope"] != SCOPE:
            continue
        for row in table.splitlines()[1:]:
            attributes, points, conflicts, total = parted(row)
            if (points, conflicts) != ("1", "0"):
                raise Fault(f"{words['name']}: the row {row} is not of one point")
            total = int(total.split("sum=")[1].split()[0]) if "sum=" in total else int(total)
            found[attributes["life"], INSTRUMENTS[words["name"]], attributes["route"]] = total
    return found


def parted(row):
    braced, rest = row.split("}", 1)
    pairs = (pair.split("=", 1) for pair in braced.lstrip("{").split(","))
    points, conflicts, total = rest.split(None, 2)
    return {name: value.strip('"') for name, value in pairs}, points, conflicts, total
