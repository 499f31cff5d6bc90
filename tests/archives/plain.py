"""Archives and keepers as docs/use/ARCHIVES.md and docs/design/GOSSIP.md tell of them, in plain dictionaries.

A state is a dictionary of keys to cells. A key is an incarnation, the name of a stream and its attributes; a cell is a time, and a
payload or CONFLICT. An incarnation is a service, an instance and a start. A sum is ("Sum", total), a gauge ("Gauge", value)."""
import collections
import uuid

CONFLICT = None
LAST_TOLD = (1 << 63) - 1
LEAST, GREATEST = -(1 << 63), (1 << 63) - 1

Incarnation = collections.namedtuple("Incarnation", "service instance start")
Key = collections.namedtuple("Key", "incarnation stream attrs")
Cell = collections.namedtuple("Cell", "time payload")
Export = collections.namedtuple("Export", "incarnation time points")
Message = collections.namedtuple("Message", "source to cells number ack whole")


class Refused(Exception):
    """A refusal, by its name."""


def joined(one, other):
    """The cell of the later time; at one time that of equal payloads, else a conflict."""
    if one.time != other.time:
        return max(one, other, key=lambda cell: cell.time)
    return one if one.payload == other.payload else Cell(one.time, CONFLICT)


def told(incarnation):
    """The attributes of the tombstone of an incarnation."""
    service, instance, start = incarnation
    return ("instance", str(uuid.UUID(int=instance))), ("service", service), ("start", min(start, LAST_TOLD))


def is_tombstone(key):
    return key.stream == "adopted"


def named(state):
    """What the tombstones of a state name."""
    return {key.attrs for key in state if is_tombstone(key)}


def shown(state):
    names = named(state)
    return {key: cell for key, cell in state.items() if is_tombstone(key) or told(key.incarnation) not in names}


def state_of(export):
    """What a state of one export holds."""
    return {Key(export.incarnation, *point): Cell(export.time, payload) for point, payload in export.points.items()}


def worker_export(incarnation, time, value, points):
    """An export of so many sums, of which the first has this value."""
    if time <= incarnation.start:
        raise Refused("TimeNotAfterStart")
    if points and value < 0:
        raise Refused("NegativeTotal(0)")
    return Export(incarnation, time, {("requests", (("shard", at),)): ("Sum", value + at) for at in range(points)})


class Keeper:
    """A node that forgets what is hidden. It numbers its changes, and knows what each peer acknowledged."""

    def __init__(self, number):
        self.number = number
        self.points, self.numbers, self.change, self.acked = {}, {}, 0, {}

    def join(self, coming):
        """Joins cells and forgets what is named then; answers how many keys the join changed."""
        changed = {}
        for key, cell in coming.items():
            after = joined(self.points[key], cell) if key in self.points else cell
            if after != self.points.get(key):
                changed[key] = after
        if changed:
            self.change += 1
            self.points.update(changed)
            self.numbers.update(dict.fromkeys(changed, self.change))
            self.points = shown(self.points)
            self.numbers = {key: self.numbers[key] for key in self.points}
        return len(changed)

    def take(self, export):
        late = told(export.incarnation) in named(self.points)
        changed = self.join(state_of(export))
        return "late" if late else f"taken {changed}" if changed else "stale"

    def send(self, to):
        acked = self.acked.get(to)
        cells = {key: cell for key, cell in self.points.items() if acked is None or self.numbers[key] > acked}
        return Message(self.number, to, cells, self.change, None, dict(self.points))

    def hand(self, message):
        """Takes a message in; the message that answers it, or None."""
        if message.ack is not None:
            self.acked[message.source] = max(self.acked.get(message.source, 0), message.ack)
            return None
        # What its sender held, joined whole, would show the same: an Ack tells what is kept.
        whole = dict(self.points)
        for key, cell in message.whole.items():
            whole[key] = joined(whole[key], cell) if key in whole else cell
        self.join(message.cells)
        if self.points != shown(whole):
            raise AssertionError("a delta shows other points than all that its sender held")
        return Message(self.number, message.source, {}, None, message.number, {})

    def held(self):
        """How many points and incarnations, the total of all sums, and how many conflicts."""
        sums = [cell.payload[1] for cell in self.points.values() if cell.payload and cell.payload[0] == "Sum"]
        conflicts = sum(cell.payload is CONFLICT for cell in self.points.values())
        return len(self.points), len({key.incarnation for key in self.points}), sum(sums), conflicts

    def rows(self):
        """The rows of the page of all sums: the total by service and attributes, where no point of it is a conflict."""
        rows, spoilt = collections.Counter(), set()
        for key, cell in self.points.items():
            row = key.incarnation.service, key.attrs
            if not is_tombstone(key):
                rows[row] += cell.payload[1] if cell.payload else 0
                spoilt |= {row} if cell.payload is CONFLICT else set()
        return {row: total for row, total in rows.items() if row not in spoilt}


class Archive:
    """A writer of what it adopted, added up."""

    def __init__(self, service, instance, start, limit):
        self.service, self.instance, self.limit = service, instance, limit
        self.adopted = set()
        self.begin(start)

    def begin(self, start):
        self.start = self.exported = start
        self.totals, self.tombstones, self.unexported = {}, {}, False

    def adopt(self, keeper, incarnation):
        part = {key: cell for key, cell in keeper.points.items() if key.incarnation == incarnation}
        times = {cell.time for cell in part.values()}
        if incarnation.service != self.service:
            raise Refused("OtherService")
        if incarnation[:2] == (self.service, self.instance) or any(is_tombstone(key) for key in part):
            raise Refused("IsArchive")
        if told(incarnation) in self.adopted:
            raise Refused("Adopted")
        if not part:
            raise Refused("Nothing")
        if any(cell.payload is CONFLICT for cell in part.values()):
            raise Refused("Conflict")
        if len(times) > 1:
            raise Refused("Torn")
        time = times.pop()
        totals = dict(self.totals)
        for key, cell in part.items():
            totals[key[1:]] = totals.get(key[1:], 0) + cell.payload[1]
        if max(incarnation.start, time) >= LAST_TOLD or not all(LEAST <= value <= GREATEST for value in totals.values()):
            raise Refused("OutOfRange")
        if len(totals) > self.limit:
            raise Refused("SetLimit")
        self.totals, self.unexported = totals, True
        self.adopted.add(told(incarnation))
        self.tombstones[told(incarnation)] = time

    def export(self, time):
        if time <= self.exported:
            raise Refused("TimeNotLater")
        self.exported, self.unexported = time, False
        points = {point: ("Sum", total) for point, total in self.totals.items()}
        points |= {("adopted", attrs): ("Gauge", adopted_at) for attrs, adopted_at in self.tombstones.items()}
        return Export(Incarnation(self.service, self.instance, self.start), time, points)

    def seal(self, start):
        if start <= self.exported:
            raise Refused("StartNotLater")
        if self.unexported:
            raise Refused("Unexported")
        self.begin(start)


def line_of(key, cell):
    """A point as the program tells it."""
    service, instance, start = key.incarnation
    attrs = "".join(f" {name}={value}" for name, value in key.attrs)
    payload = "Conflict" if cell.payload is CONFLICT else "%s(%d)" % cell.payload
    return f"{service}/{instance} {start} {key.stream}{attrs} {cell.time} {payload}"
