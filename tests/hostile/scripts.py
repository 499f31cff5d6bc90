"""Scripts made from a seed: lines of the grammar over small stores of words, edge numbers, and mutations of scripts that are good."""

UUIDS = [f"00000000-0000-0000-0000-00000000000{digit}" for digit in "123"]
NUMBERS = ["0", "1", "2", "3", "100", "101", "65535", "4294967295", "4294967296", "9223372036854775807", "9223372036854775808"]
NUMBERS += ["18446744073709551614", "18446744073709551615", "18446744073709551616"]
BAD_NUMBERS = ["", "-0", "01", "+1", "1.5", "0x1", "-", "99999999999999999999999999", "1 ", "\u0661"]
VALUES = ["0", "1", "5", "6", "10", "11", "7", "-1", "-8", "9223372036854775807", "-9223372036854775808"]
BAD_VALUES = ["9223372036854775808", "-9223372036854775809", *BAD_NUMBERS]
BAD_LABELS = ["A", "abcdefghijklmnopq", "a_b", "", "zz"]
NAMES = ["requests", "size", "depth", "temp", "requests", "size", "Requests", "x/y.z-w_v", "a" * 255, "9x", "a" * 256, "*", "-"]
SCOPES = ["app", "app", "app", "-", "*", "lib"]
UNITS = {"requests": "1", "size": "By", "depth": "-", "temp": "-"}
BAD_UNITS = ["1", "u" * 63, "u" * 64]
KINDS = {"requests": "counter", "size": "histogram", "depth": "updown", "temp": "gauge"}
SHAPES = {"requests": ["sum+"], "size": ["hist", "hist:0,5,10", "sum+", "hist:"], "depth": ["sum"], "temp": ["gauge"]}
BOUNDS = ["0,5,10", "0,5,10", "", "0", "-5,5", ",".join(map(str, range(1024))), "5,5", ",".join(map(str, range(1025)))]
KEEPS = ["*", "*", "-", "route", "route,host", "k", "*,a"]
BAD_KEEPS = [",", "a,,b", ""]
ATTRS = ["-", "-", "k=1", "k=2", "k='1", "route=x,host=p", "route=x,host=q", "k=true", "k=", "k=1,k=2", "a=b=c", "-=1"]
ATTRS += ["otel.metric.overflow=true", 'k="\\', "k=-9223372036854775808", "k=9223372036854775808", "k=" + "v" * 40]
BAD_ATTRS = [",", "=x", "k", "k=1,", ",k=1", "k=1,,j=2"]
RENAMES = ["-", "-", "requests.all", "*", "size", "a b", "9x"]
SERVICES = ["shop", "till", "-"]
EVENTS = ["measure"] * 8 + ["collect"] * 4 + ["deliver"] * 4 + ["merge", "send", "send", "hand", "hand", "restart", "shutdown"]
QUERIES = ["report"] * 3 + ["same", "conflicts", "newest"]


class Maker:
    """Makes scripts by a source of chance. `wrong` says how often a word is one that does not fit."""

    def __init__(self, chance, seeds):
        self.chance = chance
        self.seeds = seeds
        self.begin(0.0)

    def begin(self, wrong):
        self.wrong = wrong
        self.instruments, self.writers, self.gateways = ["c"], ["a"], ["1"]
        self.clock = 100
        self.exports = self.mails = 0

    def of(self, words, bad=()):
        """One of the words, seldom a bad one."""
        return self.chance.choice(bad if bad and self.chance.random() < self.wrong else words)

    def near(self, words):
        """One of the words, most often one of the first."""
        return words[min(int(self.chance.expovariate(3.0 / len(words))), len(words) - 1)]

    def number(self, wanted):
        return self.of([str(wanted)], NUMBERS + BAD_NUMBERS)

    def value(self):
        return self.of([self.near(VALUES)], BAD_VALUES)

    def attrs(self):
        return self.of([self.near(ATTRS)], BAD_ATTRS)

    def keep(self):
        return self.of([self.near(KEEPS)], BAD_KEEPS)

    def time(self):
        self.clock += self.chance.choice([0, 1, 50, 100])
        return self.number(self.clock)

    def place(self, count):
        """The number of an export or a mail: mostly one that may be there."""
        return self.number(self.chance.randint(0, count + 1))

    def gateway(self):
        return self.of(self.gateways, NUMBERS + BAD_NUMBERS)

    def writer(self):
        return self.of(self.writers, BAD_LABELS)

    def declare_instrument(self):
        label, name = self.of(["h", "u", "g", "d", "e"], ["c"] + BAD_LABELS), self.near(NAMES)
        self.instruments.append(label)
        kind = KINDS.get(name.lower(), "counter")
        return [label, self.of([kind], list(KINDS.values()) + ["Counter"]), self.of(SCOPES[:3], SCOPES), name, self.unit(name)]

    def unit(self, name):
        return self.of([UNITS.get(name.lower(), "1")], BAD_UNITS)

    def declare_view(self):
        name = self.of(["*"] + NAMES[:4], NAMES)
        rename = "-" if name == "*" else self.near(RENAMES)
        way = self.of(["default", "default", "drop", "sum", "last", "buckets:" + self.near(BOUNDS)], ["avg", "buckets:,"])
        return [name, self.of(["*"] + list(KINDS.values()), ["-"]), self.of(["*", "*", "app"], SCOPES), rename, self.keep(), way]

    def declare_writer(self):
        label = self.of(["b", "c", "w"], ["a"] + BAD_LABELS)
        self.writers.append(label)
        return [label, self.of(SERVICES), self.of(UUIDS, ["1", "{" + UUIDS[0] + "}", "urn:uuid:" + UUIDS[1]]), self.number(100)]

    def declare_gateway(self):
        number = self.of(["2", "3", "4294967295"], NUMBERS + BAD_NUMBERS)
        self.gateways.append(number)
        return [number]

    def words(self, first):
        """The words behind the first of a line."""
        made = {
            "instrument": self.declare_instrument,
            "view": self.declare_view,
            "writer": self.declare_writer,
            "gateway": self.declare_gateway,
            "limit": lambda: [self.of(["1", "2", "100"], NUMBERS + BAD_NUMBERS)],
            "measure": lambda: [self.writer(), self.of(self.instruments, BAD_LABELS), self.value(), self.attrs()],
            "collect": lambda: [self.writer(), self.time()],
            "shutdown": lambda: [self.writer(), self.time()],
            "restart": lambda: [self.writer(), self.time()],
            "deliver": lambda: [self.place(self.exports), self.gateway()],
            "merge": lambda: [self.gateway(), self.gateway()],
            "send": lambda: [self.gateway(), self.gateway()],
            "hand": lambda: [self.place(self.mails), self.gateway()],
            "report": self.ask,
            "same": lambda: [self.gateway(), self.gateway()],
            "conflicts": lambda: [self.gateway()],
            "newest": lambda: [self.gateway(), self.writer(), self.number(100)],
        }[first]()
        self.exports += first in ("collect", "shutdown")
        self.mails += first in ("send", "hand")
        return made

    def ask(self):
        name = self.of(list(UNITS), NAMES)
        shape = self.of(SHAPES.get(name, ["sum+"]), ["sum-", "hist:x", "Hist", "sum", "hist:5,5"])
        return [self.gateway(), self.of(["app"], SCOPES), name, self.unit(name), shape, self.of(["*", "*"] + SERVICES),
                self.of(["-", "-", "k=1", "route=x"], BAD_ATTRS), self.keep()]

    def line(self, first):
        words = [first, *self.words(first)]
        if self.chance.random() < self.wrong:
            place = self.chance.randrange(len(words))
            words[place : place + 1] = self.chance.choice([[], [words[place]] * 2, [""], ["x"], [words[place] + "\r"]])
        return " ".join(words)

    def grown(self):
        """A script of grammar lines: declarations that mostly fit one another, `begin`, events and queries."""
        self.begin(self.chance.choice([0.0, 0.0, 0.002, 0.02, 0.1]))
        lines = ["instrument c counter app requests 1", "writer a shop " + UUIDS[0] + " 100", "gateway 1"]
        for _ in range(self.chance.choice([0, 1, 3, 5])):
            lines.append(self.line(self.chance.choice(["instrument", "view", "writer", "gateway", "gateway", "limit"])))
        lines.append("begin")
        for _ in range(self.chance.choice([1, 10, 30, 80])):
            lines.append(self.line(self.chance.choice(EVENTS if self.chance.random() < 0.85 else QUERIES)))
        return "\n".join(lines).encode() + self.chance.choice([b"\n", b"\n", b"\n", b""])

    def mutated(self):
        """A script that is good, cut, spliced or changed at some bytes, words or lines."""
        self.begin(0.1)
        script = bytearray(self.chance.choice(self.seeds))
        for _ in range(self.chance.choice([1, 1, 2, 5])):
            lines = script.split(b"\n")
            place = self.chance.randrange(len(lines))
            at = self.chance.randrange(len(script) + 1)
            kind = self.chance.randrange(8)
            if kind == 0:
                script[at : at + 1] = bytes([self.chance.randrange(256)])
            elif kind == 1:
                del script[at:]
            elif kind == 2:
                del lines[place]
            elif kind == 3:
                lines.insert(place, self.chance.choice(lines))
            elif kind == 4:
                lines[place], lines[-1 - place] = lines[-1 - place], lines[place]
            elif kind == 5:
                words = lines[place].split(b" ")
                words[self.chance.randrange(len(words))] = self.chance.choice(NUMBERS + VALUES + ATTRS + BAD_VALUES).encode()
                lines[place] = b" ".join(words)
            elif kind == 6:
                lines.insert(place, self.line(self.chance.choice(["view", "instrument", *EVENTS, *QUERIES])).encode())
            else:
                other = self.chance.choice(self.seeds)
                script[at:] = other[self.chance.randrange(len(other)) :]
            if 2 <= kind <= 6:
                script = bytearray(b"\n".join(lines))
        return bytes(script)

    def noise(self):
        """Bytes that are no script."""
        return bytes(self.chance.choice(b"\n\n  \x00\xff#abc019-=,:'\r\t") for _ in range(self.chance.choice([0, 1, 10, 300])))

    def script(self):
        kind = self.chance.random()
        return self.grown() if kind < 0.55 else self.mutated() if kind < 0.97 else self.noise()
