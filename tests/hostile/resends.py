"""Scripts made from a seed in which a gateway is told the same incarnation again and again.

A writer's own exports keep their order and lose nothing. Writers that share an identity are one incarnation to a gateway, and each has
an order and sets of its own: so what comes next may have another order than what came last, lack points, or have new ones among them.
Exports also repeat and come late, and gateways tell each other what they hold in between."""

IDENTITY = "shop 00000000-0000-0000-0000-000000000001 100"
OTHERS = ["shop 00000000-0000-0000-0000-000000000001 150", "till 00000000-0000-0000-0000-000000000002 100"]
INSTRUMENTS = ["instrument c counter app requests 1", "instrument h histogram app size By", "instrument g gauge app temp -"]
REPORTS = ["app requests 1 sum+ * - *", "app size By hist * - *", "app temp - gauge * - *"]
KINDS = ["order", "lost", "front", "middle", "end", "repeat", "late"]


def changes(last, held, came):
    """How the keys that came differ from those that came last, and where new ones stand among those that were held."""
    known = [place for place, key in enumerate(came) if key in held]
    for place, key in enumerate(came):
        if key not in held and known:
            yield "front" if place < known[0] else "end" if place > known[-1] else "middle"
    both = set(last) & set(came)
    if [key for key in last if key in both] != [key for key in came if key in both]:
        yield "order"
    if set(last) - set(came):
        yield "lost"


class Resender:
    """Makes scripts by a source of chance, and counts what is delivered in them, and of each kind."""

    def __init__(self, chance):
        self.chance = chance
        self.delivered = 0
        self.kinds = dict.fromkeys(KINDS, 0)

    def begin(self):
        self.lines = list(INSTRUMENTS)
        own = [(f"w{number}", IDENTITY) for number in range(self.chance.choice([1, 2, 2, 3]))]
        others = [(f"v{number}", name) for number, name in enumerate(OTHERS) if self.chance.random() < 0.3]
        self.writers = dict(own + others)
        self.lines += [f"writer {label} {name}" for label, name in self.writers.items()]
        self.gateways = self.chance.choice([1, 1, 2, 3])
        self.lines += [f"gateway {number + 1}" for number in range(self.gateways)]
        self.lines.append("begin")
        self.clocks = dict.fromkeys(self.writers, 200)
        self.series = {label: [] for label in self.writers}
        self.exports, self.mails = [], 0
        self.told = {}
        sets = self.chance.choice([3, 10, 40])
        self.sets = [f"k={number}" if self.chance.random() < 0.7 else f"a={number % 3},host=h{number}" for number in range(sets)]

    def measure(self):
        """Recordings of one writer: of sets from one on, or at random, so that writers see them in orders of their own."""
        label, count = self.chance.choice(list(self.writers)), self.chance.choice([1, 3, len(self.sets)])
        first, step = self.chance.randrange(len(self.sets)), self.chance.choice([1, -1, 7])
        for number in range(count):
            attrs = self.sets[(first + step * number) % len(self.sets)] if step != 7 else self.chance.choice(self.sets)
            instrument = self.chance.choice("ccchg")
            self.lines.append(f"measure {label} {instrument} {self.chance.choice([0, 1, 5, 7])} {attrs}")
            if (instrument, attrs) not in self.series[label]:
                self.series[label].append((instrument, attrs))

    def collect(self):
        label = self.chance.choice(list(self.writers))
        self.clocks[label] += self.chance.choice([1, 1, 10])
        self.lines.append(f"collect {label} {self.clocks[label]}")
        # (a collection has the series of one stream after another)
        keys = sorted(self.series[label], key=lambda key: "chg".index(key[0]))
        self.exports.append((self.writers[label], self.clocks[label], keys))

    def deliver(self):
        """Mostly what was collected last, else anything that was."""
        if not self.exports:
            return
        count = len(self.exports)
        place = count - 1 if self.chance.random() < 0.6 else self.chance.randrange(count)
        gateway = self.chance.randrange(self.gateways)
        self.lines.append(f"deliver {place + 1} {gateway + 1}")
        self.delivered += 1
        name, time, keys = self.exports[place]
        if keys:
            last, held, newest, places = self.told.setdefault((gateway, name), ([], set(), 0, set()))
            found = {*changes(last, held, keys), *["repeat"] * (place in places), *["late"] * (time < newest)}
            for kind in found:
                self.kinds[kind] += 1
            self.told[gateway, name] = keys, held | set(keys), max(newest, time), places | {place}

    def gossip(self):
        one, other = self.chance.randrange(self.gateways) + 1, self.chance.randrange(self.gateways) + 1
        if self.chance.random() < 0.5:
            self.lines.append(f"merge {one} {other}")
        else:
            self.lines.append(f"send {one} {other}")
            self.mails += 1
            self.lines.append(f"hand {self.chance.randint(1, self.mails)} {other}")

    def ask(self):
        gateway = self.chance.randrange(self.gateways) + 1
        self.lines += [f"report {gateway} {self.chance.choice(REPORTS)}", f"conflicts {gateway}"]

    def script(self):
        self.begin()
        steps = [self.measure] * 4 + [self.collect] * 4 + [self.deliver] * 8 + [self.gossip, self.ask]
        for _ in range(self.chance.choice([20, 60, 120])):
            self.chance.choice(steps)()
        for gateway in range(1, self.gateways + 1):
            self.lines += [f"report {gateway} {ask}" for ask in REPORTS]
            self.lines += [f"same 1 {gateway}", f"conflicts {gateway}"]
        return "\n".join(self.lines).encode() + b"\n"
