"""Schedules of archives and keepers, made from a chance, and what each event must be answered by.

Workers come, export, end and are adopted; some export again thereafter (zombies). Exports come again, late and elsewhere. Keepers merge,
and send messages that are lost, doubled and late; at times they are parted in two, and no message or merge goes between. Archives
export, are sealed, and their exports come to keepers never, once or more often. At the end all of it comes to all keepers."""
import collections

import plain

KEEPERS = 4
SERVICES = ("shop", "till")
ARCHIVES = 100  # (the first instance of an archive)
# How a schedule's archivists part their work: by services, by instances, or not at all. In the last, identities are shared too, exports
# are cut short, and totals leave their range.
KINDS = ("services", "halves", "careless")

WEIGHTS = {
    "take": 20, "again": 6, "worker": 4, "restart": 2, "zombie": 4, "adopt": 12, "export": 6, "give": 12, "seal": 2, "merge": 2,
    "send": 10, "hand": 16, "part": 1, "show": 4, "points": 2, "page": 3, "same": 2, "odd": 1,
}


class Worker:
    def __init__(self, service, instance, start, value, points):
        self.incarnation = plain.Incarnation(service, instance, start)
        self.value, self.points = value, points
        self.newest, self.adopted = None, None  # (the value, the number of points and the time of its collections)

    def __str__(self):
        return f"{self.incarnation.service}/{self.incarnation.instance}"


class Schedule:
    """A schedule: its lines, and what each must print: a text, a set of lines, or rows of a page."""

    def __init__(self, chance, kind, is_tame):
        self.chance, self.kind, self.is_tame = chance, kind, is_tame
        self.lines, self.answers, self.counts = [], [], collections.Counter()
        self.keepers = [plain.Keeper(number) for number in range(1, KEEPERS + 1)]
        self.workers, self.archives, self.exports, self.messages = [], [], [], []
        self.given, self.handed, self.takes = collections.Counter(), collections.Counter(), []
        self.clock, self.instances, self.side, self.pages, self.latest = 1000, 0, None, {}, 0
        self.say(f"keepers {KEEPERS}")
        self.begin()

    def say(self, line, answer=None):
        self.lines.append(line)
        if answer is not None:
            self.answers.append((len(self.lines), line, answer))

    def tick(self):
        self.clock += self.chance.randint(1, 3)
        return self.clock

    def begin(self):
        """The archives begin, and the first workers."""
        for number in (1, 2):
            service = SERVICES[number - 1] if self.kind == "services" else SERVICES[0]
            limit = 4 if self.kind == "careless" and number == 2 else 1000
            start = self.tick()
            self.archives.append(plain.Archive(service, ARCHIVES + number, start, limit))
            self.say(f"archive {number} {service}/{ARCHIVES + number} {start} {limit}")
        for _ in range(4):
            self.worker()

    def answered(self, line, name, call):
        """Says a line whose answer is what a call gives, or the refusal's name."""
        try:
            answer = call()
        except plain.Refused as refusal:
            answer = str(refusal)
            self.counts[f"{name}: {answer.split('(')[0]}"] += 1
        self.say(line, answer)

    # Workers.

    def worker(self):
        self.instances += 1
        service = self.chance.choice(SERVICES) if self.kind != "halves" else SERVICES[0]
        value = self.chance.choice([0, 5, 1 << 62]) if self.kind == "careless" else self.chance.randrange(100)
        self.workers.append(Worker(service, self.instances, self.tick(), value, self.chance.randint(1, 5)))

    def live(self):
        return [worker for worker in self.workers if worker.adopted is None] or self.workers

    def restart(self):
        before = self.chance.choice(self.live())
        service, instance, _ = before.incarnation
        self.workers.append(Worker(service, instance, self.tick(), self.chance.randrange(100), before.points))

    def exported(self, worker):
        """A worker exports: its sums grow, and it may have more of them; where schedules are careless, fewer, or other ones at one time."""
        time, careless = self.tick(), self.kind == "careless" and self.chance.random() < 0.4
        if careless and worker.newest:
            time = self.chance.choice([worker.newest[2], time, worker.incarnation.start])
            worker.points = self.chance.randint(0, 5)
        else:
            worker.points = min(8, worker.points + (self.chance.random() < 0.2))
        worker.value += self.chance.randrange(10)
        worker.newest = worker.value, worker.points, time
        self.take_in(worker, self.chance.randint(1, KEEPERS), *worker.newest)

    def take_in(self, worker, keeper, value, points, time):
        self.takes.append((worker, value, points, time))
        self.taken(worker, keeper, value, points, time)

    def taken(self, worker, keeper, value, points, time):
        counted = "" if points == 3 and self.chance.random() < 0.5 else f" {points}"

        def took():
            answer = self.keepers[keeper - 1].take(plain.worker_export(worker.incarnation, time, value, points))
            self.counts[answer.split()[0]] += 1
            return answer

        self.answered(f"take {keeper} {worker} {worker.incarnation.start} {time} {value}{counted}", "take", took)

    def take(self):
        live = [worker for worker in self.live() if not self.is_tame or worker.adopted is None]
        if not live:
            self.worker()
            live = self.workers[-1:]
        self.exported(self.chance.choice(live))

    def zombie(self):
        ended = [worker for worker in self.workers if worker.adopted is not None]
        if ended and not self.is_tame:
            self.counts["zombies"] += 1
            self.exported(self.chance.choice(ended))

    def again(self):
        """An export comes again, maybe to another keeper."""
        if self.takes:
            worker, *told = self.chance.choice(self.takes[-40:])
            self.taken(worker, self.chance.randint(1, KEEPERS), *told)

    # Archives.

    def is_of(self, worker, archive):
        """Whether a worker is an archive's to adopt."""
        return self.kind != "halves" or worker.incarnation.instance % 2 == archive % 2

    def is_spoilt(self, keeper, worker):
        """Whether a keeper holds a conflict of a worker's."""
        points = self.keepers[keeper - 1].points.items()
        return any(key.incarnation == worker.incarnation and cell.payload is plain.CONFLICT for key, cell in points)

    def adopt(self):
        archive, keeper = self.chance.randint(1, 2), self.chance.randint(1, KEEPERS)
        held = {key.incarnation: cell.time for key, cell in self.keepers[keeper - 1].points.items()}
        mine = [worker for worker in self.workers if self.is_of(worker, archive) and (worker.incarnation in held or self.chance.random() < 0.05)]
        if self.is_tame:
            mine = [worker for worker in mine if worker.adopted is None and worker.newest and worker.newest[2] == held.get(worker.incarnation)]
        if not mine:
            return
        spoilt = [worker for worker in mine if self.is_spoilt(keeper, worker)]
        worker = self.chance.choice(spoilt if spoilt and self.chance.random() < 0.5 else mine)
        part = [cell for key, cell in self.keepers[keeper - 1].points.items() if key.incarnation == worker.incarnation]

        def adopted():
            self.archives[archive - 1].adopt(self.keepers[keeper - 1], worker.incarnation)
            worker.adopted = sum(cell.payload[1] for cell in part)
            self.counts["adopted"] += 1
            return "adopted"

        self.answered(f"adopt {archive} {keeper} {worker} {worker.incarnation.start}", "adopt", adopted)

    def export(self, archive=None):
        archive = archive or self.chance.randint(1, 2)
        time = self.tick() if self.chance.random() < 0.9 else self.archives[archive - 1].exported

        def made():
            self.exports.append(self.archives[archive - 1].export(time))
            return f"export {len(self.exports)} of {len(self.exports[-1].points)}"

        self.answered(f"export {archive} {time}", "export", made)

    def give(self, number=None, keeper=None):
        if not self.exports:
            return
        number = number or self.chance.randint(max(1, len(self.exports) - 6), len(self.exports))
        keeper = keeper or self.chance.randint(1, KEEPERS)
        self.given[number] += 1
        self.say(f"give {number} {keeper}", self.keepers[keeper - 1].take(self.exports[number - 1]))

    def seal(self):
        archive = self.chance.randint(1, 2)
        start = self.tick() if self.chance.random() < 0.8 else self.archives[archive - 1].exported

        def sealed():
            self.archives[archive - 1].seal(start)
            self.counts["sealed"] += 1
            return "sealed"

        self.answered(f"seal {archive} {start}", "seal", sealed)

    # Keepers among one another.

    def part(self):
        """Parts the keepers in two, or heals them."""
        self.side = None if self.side else set(self.chance.sample(range(1, KEEPERS + 1), 2))
        self.counts["partitions"] += self.side is not None

    def is_parted(self, one, other):
        return self.side is not None and (one in self.side) != (other in self.side)

    def merge(self, one=None, other=None):
        one, other = one or self.chance.randint(1, KEEPERS), other or self.chance.randint(1, KEEPERS)
        if not self.is_parted(one, other):
            changed = self.keepers[one - 1].join(dict(self.keepers[other - 1].points))
            self.say(f"merge {one} {other}", f"merged {changed}")

    def send(self):
        one, other = self.chance.randint(1, KEEPERS), self.chance.randint(1, KEEPERS)
        self.messages.append(self.keepers[one - 1].send(other))
        self.say(f"send {one} {other}", f"message {len(self.messages)} of {len(self.messages[-1].cells)}")

    def hand(self):
        """Hands a message, mostly a new one."""
        if not self.messages:
            return
        far = 60 if self.chance.random() < 0.2 else 6
        number = self.chance.randint(max(1, len(self.messages) - far), len(self.messages))
        message = self.messages[number - 1]
        if self.is_parted(message.source, message.to):
            return
        self.counts["late messages"] += number < self.latest
        self.latest = max(self.latest, number)
        self.handed[number] += 1
        self.counts["doubled messages"] += self.handed[number] == 2
        answer = self.keepers[message.to - 1].hand(message)
        if answer is None:
            self.say(f"hand {number}", "handed")
        else:
            self.messages.append(answer)
            self.say(f"hand {number}", f"answered by {len(self.messages)}")

    # What is asked.

    def show(self, keeper=None):
        keeper = keeper or self.chance.randint(1, KEEPERS)
        points, incarnations, total, conflicts = self.keepers[keeper - 1].held()
        self.say(f"show {keeper}", f"points {points} incarnations {incarnations} total {total} conflicts {conflicts}")

    def points(self, keeper=None):
        keeper = keeper or self.chance.randint(1, KEEPERS)
        self.say(f"points {keeper}", {plain.line_of(*point) for point in self.keepers[keeper - 1].points.items()})

    def page(self, keeper=None):
        """A page. Where workers end before they are adopted, no row of it falls."""
        keeper = keeper or self.chance.randint(1, KEEPERS)
        rows = self.keepers[keeper - 1].rows()
        if self.is_tame:
            fell = [row for row, total in self.pages.get(keeper, {}).items() if rows.get(row, 0) < total]
            if fell:
                raise AssertionError(f"rows of the page of keeper {keeper} fell: {fell}")
            self.pages[keeper] = rows
        self.counts["pages"] += 1
        self.say(f"page {keeper}", {f'requests_total{{otel_scope_name="app",service_name="{service}",shard="{attrs[0][1]}"}} {total}'
                                    for (service, attrs), total in rows.items()})

    def same(self, one=None, other=None):
        one, other = one or self.chance.randint(1, KEEPERS), other or self.chance.randint(1, KEEPERS)
        is_same = self.keepers[one - 1].points == self.keepers[other - 1].points
        self.counts["same"] += is_same and one != other
        self.say(f"same {one} {other}", "same" if is_same else "different")

    def odd(self):
        """What no careful host does: an archive adopts an archive, or what nobody has; an export is none."""
        archive, keeper = self.chance.randint(1, 2), self.chance.randint(1, KEEPERS)
        whom = self.chance.choice([*self.archives, None])
        service, instance, start = (whom.service, whom.instance, whom.start) if whom else ("shop", 77, 5)

        def adopted():
            self.archives[archive - 1].adopt(self.keepers[keeper - 1], plain.Incarnation(service, instance, start))
            raise AssertionError("an archive was adopted")

        self.answered(f"adopt {archive} {keeper} {service}/{instance} {start}", "adopt", adopted)
        self.taken(Worker("shop", 78, 50, 0, 0), keeper, self.chance.choice([-1, 5]), 3, self.chance.choice([50, 40]))
        self.taken(Worker("shop", 79, 50, 0, 0), keeper, -1, 2, 60)

    def settle(self):
        """All exports come to the first keeper, and what any keeper holds to all of them."""
        self.counts["lost messages"] = len(self.messages) - len(self.handed)
        self.counts["exports that came to nobody before the end"] = len(self.exports) - len(self.given)
        self.side = None
        for archive in (1, 2):
            self.answered(f"export {archive} {self.clock + 1}", "export", lambda: self.made(archive))
        for number in range(1, len(self.exports) + 1):
            self.give(number, 1)
        for other in range(2, KEEPERS + 1):
            self.merge(1, other)
        for other in range(2, KEEPERS + 1):
            self.merge(other, 1)
            self.same(1, other)
        self.show(1)
        self.points(2)
        self.page(1)

    def made(self, archive):
        self.exports.append(self.archives[archive - 1].export(self.clock + 1))
        return f"export {len(self.exports)} of {len(self.exports[-1].points)}"

    def is_counted_once(self):
        """Whether the total is that of each adopted collection, and of each other incarnation's newest one, once."""
        recorded = sum(worker.adopted if worker.adopted is not None else newest_total(worker) for worker in self.workers)
        return self.keepers[0].held()[2] == recorded

    def play(self, events):
        names, weights = list(WEIGHTS), list(WEIGHTS.values())
        if self.is_tame:
            weights[names.index("zombie")] = 0
        while len(self.lines) < events:
            getattr(self, self.chance.choices(names, weights)[0])()
        self.settle()
        if self.kind != "careless" and not self.is_counted_once():
            raise AssertionError("the total at the end is not what was recorded")
        self.counts["events"] = len(self.lines)
        return self


def newest_total(worker):
    if worker.newest is None:
        return 0
    value, points, _ = worker.newest
    return sum(value + at for at in range(points))
