"""A plain reading of scripts: what each must print, the exit status, and what is told of it beside that. It keeps lists and maps and
takes no care of speed."""
import re

LONGEST = 1_048_576
DEFAULT_BOUNDS = (0, 5, 10, 25, 50, 75, 100, 250, 500, 750, 1000, 2500, 5000, 7500, 10000)
OVERFLOW = (("otel.metric.overflow", (1, True)),)
CONFLICT = "conflict"
MOST_NOTES = 100
DECLARATIONS = {"instrument": 5, "view": 6, "writer": 4, "gateway": 1, "limit": 1, "begin": 0}
WORDS = {**DECLARATIONS, "measure": 4, "collect": 2, "shutdown": 2, "restart": 2, "deliver": 2, "merge": 2, "send": 2, "hand": 2}
WORDS |= {"report": 8, "same": 2, "conflicts": 1, "newest": 3}
I64 = range(-(1 << 63), 1 << 63)
U64 = 1 << 64
FITS = {
    "counter": {"default": "sum+", "sum": "sum+", "buckets": "hist"},
    "updown": {"default": "sum", "sum": "sum"},
    "gauge": {"default": "gauge", "last": "gauge"},
    "histogram": {"default": "hist", "sum": "sum+", "buckets": "hist"},
}


class BadLine(Exception):
    """The line is none of the grammar."""


class Refused(Exception):
    """What is asked for is refused: the text that is printed."""


def need(fits):
    if not fits:
        raise BadLine


def number(word, end=U64):
    need(re.fullmatch(r"0|[1-9][0-9]{0,19}", word) and int(word) < end)
    return int(word)


def is_value(word):
    return re.fullmatch(r"0|-?[1-9][0-9]{0,18}", word) is not None and int(word) in I64


def value(word):
    need(is_value(word))
    return int(word)


def label(word):
    need(re.fullmatch(r"[a-z0-9]{1,16}", word))
    return word


def blank(word):
    return "" if word == "-" else word


def instance(word):
    digits = "[0-9a-fA-F]"
    hyphened = f"{digits}{{8}}-{digits}{{4}}-{digits}{{4}}-{digits}{{4}}-{digits}{{12}}"
    need(re.fullmatch(f"{digits}{{32}}|{hyphened}|\\{{{hyphened}\\}}|(?i:urn:uuid:){hyphened}", word))
    return int(re.sub(r"(?i:urn:uuid:)|[-{}]", "", word), 16)


def bounds(text):
    return tuple(value(word) for word in text.split(",")) if text else ()


def aggregation(word):
    if word.startswith("buckets:"):
        return "buckets", bounds(word[8:])
    need(word in ("default", "sum", "last", "drop"))
    return word, None


def shape(word):
    if word.startswith("hist:"):
        return "hist", bounds(word[5:])
    need(word in ("sum+", "sum", "gauge", "hist"))
    return word, DEFAULT_BOUNDS if word == "hist" else None


def keep(word):
    """The keys that are kept, or None for all."""
    if word in "*-":
        return None if word == "*" else ()
    keys = tuple(word.split(","))
    need(all(keys))
    return keys


def attribute(text):
    """A value, with its place in the order of kinds before it."""
    if text in ("true", "false"):
        return 1, text == "true"
    if is_value(text):
        return 2, int(text)
    return 0, text[1:] if text.startswith("'") else text


def attributes(word):
    pairs = {}
    for text in [] if word == "-" else word.split(","):
        key, equals, rest = text.partition("=")
        need(key and equals)
        pairs[key] = attribute(rest)
    return tuple(sorted(pairs.items()))


def kept(attrs, keys):
    return attrs if keys is None else tuple(pair for pair in attrs if pair[0] in keys)


def is_name(text):
    return re.fullmatch(r"[A-Za-z][A-Za-z0-9_.\-/]{0,254}", text) is not None


def rises(numbers):
    return len(numbers) <= 1024 and all(one < other for one, other in zip(numbers, numbers[1:]))


def joined(one, other):
    """Of two cells the later, or at one time what both hold."""
    if one[0] != other[0]:
        return max(one, other, key=lambda cell: cell[0])
    return one if one[1] == other[1] else (one[0], CONFLICT)


class Writer:
    def __init__(self, service, number, start):
        self.name = service, number
        self.restart(start)

    def restart(self, start):
        self.start = self.last = start
        self.open = True
        self.series = {}


class Plan:
    """The feeds of each instrument, (stream's number, keys), and the streams."""

    def __init__(self, instruments, views, limit):
        self.refuse_own(instruments, views)
        owners = [next(k for k, other in enumerate(instruments) if self.same(one, other)) for one in instruments]
        for i, one in enumerate(instruments):
            for v, view in enumerate(views):
                if self.matches(view, one) and view["way"][0] not in ("drop", *FITS[one["kind"]]):
                    raise Refused(f"BadAggregation({i}, {v})")
        self.streams, fed = [], []
        for i, one in enumerate(instruments):
            fed.append([])
            for view in self.applied(views, one) if owners[i] == i else []:
                way, own = view["way"]
                if way != "drop":
                    form = FITS[one["kind"]][way]
                    stated = own if way == "buckets" else DEFAULT_BOUNDS if form == "hist" else None
                    name = (view["rename"] or one["name"]).lower()
                    fed[i].append((len(self.streams), view["keep"]))
                    self.streams.append((i, (one["scope"], name, one["unit"], (form, stated))))
        clashes = [(j, i) for b, (j, s) in enumerate(self.streams) for i, t in self.streams[:b] if s == t]
        if clashes:
            raise Refused("SameStream({1}, {0})".format(*min(clashes)))
        if limit == 0:
            raise Refused("BadLimit")
        self.limit = limit
        self.streams = [stream for _, stream in self.streams]
        self.feeds = [fed[owner] for owner in owners]
        self.kinds = [one["kind"] for one in instruments]

    @staticmethod
    def refuse_own(instruments, views):
        looked = [
            ("BadName", [not is_name(one["name"]) for one in instruments]),
            ("BadUnit", [len(one["unit"]) > 63 for one in instruments]),
            ("BadBounds", [view["way"][0] == "buckets" and not rises(view["way"][1]) for view in views]),
            ("BadRename", [view["rename"] is not None and not is_name(view["rename"]) for view in views]),
            ("WildcardRename", [view["rename"] is not None and view["name"] is None for view in views]),
        ]
        for text, bad in looked:
            if True in bad:
                raise Refused(f"{text}({bad.index(True)})")

    @staticmethod
    def same(one, other):
        return one["name"].lower() == other["name"].lower() and all(one[part] == other[part] for part in ("scope", "unit", "kind"))

    @staticmethod
    def matches(view, one):
        named = view["name"] is None or view["name"].lower() == one["name"].lower()
        return named and view["kind"] in (None, one["kind"]) and view["scope"] in (None, one["scope"])

    def applied(self, views, one):
        every = {"name": None, "kind": None, "scope": None, "rename": None, "keep": None, "way": ("default", None)}
        return [view for view in views if self.matches(view, one)] or [every]


def short(word):
    """A word as it is told."""
    return (word if len(word) <= 40 else word[:40] + "..") or "-"


def stream_words(stream):
    """The words by which a report asks for a stream, as they are told."""
    scope, name, unit, (kind, stated) = stream
    if kind == "hist" and stated != DEFAULT_BOUNDS:
        kind += ":" + ",".join(map(str, stated[:5])) + ".." * (len(stated) > 5)
    return " ".join([short(scope), short(name), short(unit), kind])


def steps(one, other):
    """How far a stream is from another one."""
    name = 0 if one[1] == other[1] else 1 if one[1].lower() == other[1].lower() else 4
    return name + sum(one[part] != other[part] for part in (0, 2, 3))


class Reading:
    """A script as far as it is read."""

    def __init__(self, answers):
        self.answers = answers
        self.instruments, self.views, self.labels = [], [], {}
        self.writers, self.ids, self.most = {}, [], None
        self.number, self.notes, self.id_lines, self.limit_line = 0, [], [], None
        self.plan = None
        self.exports, self.mails, self.gateways = [], [], {}
        self.printed = []

    def refuse(self, text):
        self.printed.append(f"refused: {text}")

    def line(self, words):
        first, *rest = words
        need(len(rest) == WORDS.get(first))
        need((first in DECLARATIONS) == (self.plan is None))
        try:
            getattr(self, first)(*rest)
        except Refused as refused:
            self.refuse(refused)
            need(first != "begin")
            self.notes.append((self.number, f"refused: {refused}"))

    def instrument(self, word, kind, scope, name, unit):
        need(label(word) not in self.labels and kind in FITS)
        self.labels[word] = len(self.instruments)
        self.instruments.append({"kind": kind, "scope": blank(scope), "name": name, "unit": blank(unit), "line": self.number})

    def view(self, name, kind, scope, rename, keys, way):
        need(kind == "*" or kind in FITS)
        self.views.append({
            "name": None if name == "*" else name,
            "kind": None if kind == "*" else kind,
            "scope": None if scope == "*" else blank(scope),
            "rename": None if rename == "-" else rename,
            "keep": keep(keys),
            "way": aggregation(way),
            "line": self.number,
        })

    def writer(self, word, service, uuid, start):
        need(label(word) not in self.writers)
        self.writers[word] = Writer(service, instance(uuid), number(start))

    def gateway(self, word):
        self.ids.append(number(word, 1 << 32))
        self.id_lines.append(self.number)

    def limit(self, word):
        need(self.most is None)
        self.most, self.limit_line = number(word), self.number

    def begin(self):
        try:
            plan = Plan(self.instruments, self.views, 2000 if self.most is None else self.most)
            same = [(j, i) for j, one in enumerate(self.ids) for i in range(j) if self.ids[i] == one]
            if same:
                raise Refused("SameGateway({1}, {0})".format(*min(same)))
        except Refused as refused:
            name, *places = re.findall(r"\w+", str(refused))
            self.notes.append(self.why(name, *map(int, places)))
            raise
        self.plan = plan
        self.gateways = {one: {} for one in self.ids}
        for view in self.views:
            if not any(plan.matches(view, one) for one in self.instruments):
                self.notes.append((view["line"], f"the view of '{short(view['name'] or '*')}' matches no instrument"))

    def why(self, name, first=0, second=0):
        """The line and the text of the note on a `begin` that is refused by this name, at these places."""
        of = (self.ids if name == "SameGateway" else self.instruments if name in ("BadName", "BadUnit", "BadAggregation", "SameStream") else self.views)
        one = of[first] if first < len(of) else None
        if name in ("BadName", "BadRename"):
            word = short(one["name" if name == "BadName" else "rename"])
            return one["line"], f"'{word}' is no name: a name has at most 255 letters, digits, _, ., - and /, a letter first"
        if name == "BadUnit":
            return one["line"], f"'{short(one['unit'])}' is no unit: a unit has at most 63 characters"
        if name == "BadBounds":
            return one["line"], "the bounds of a view rise, and are at most 1024"
        if name == "WildcardRename":
            return one["line"], "a view of every name gives no new one"
        if name == "BadAggregation":
            view = self.views[second]
            return view["line"], f"no {one['kind']} has the aggregation '{view['way'][0]}', and this view matches that of line {one['line']}"
        if name == "SameStream":
            return self.why_same(one, self.instruments[second])
        if name == "SameGateway":
            return self.id_lines[second], f"line {self.id_lines[first]} declares the gateway {one} too"
        return self.limit_line, "a limit is at least 1"

    def fed(self, one):
        """The streams of an instrument, each with the line of its view."""
        views = [view for view in self.views if Plan.matches(view, one)]
        lone = [(view["line"], Plan([one], [view], 1).streams) for view in views] or [(0, Plan([one], [], 1).streams)]
        return [(line, stream) for line, streams in lone for stream in streams]

    def why_same(self, one, other):
        ours, theirs = self.fed(one), self.fed(other)
        if one is not other:
            stream = next(one for _, one in theirs if one in [held for _, held in ours])
            return other["line"], f"the instruments of lines {one['line']} and {other['line']} have one stream, '{stream_words(stream)}'"
        for place, (line, stream) in enumerate(ours):
            for earlier, held in ours[:place]:
                if stream == held:
                    text = f"the views of lines {earlier} and {line} give the instrument of line {one['line']} one stream, '{stream_words(stream)}'"
                    return line, text
        raise AssertionError("no two feeds of one stream")

    def of(self, word):
        need(word in self.writers)
        return self.writers[word]

    def at(self, word):
        need(number(word, 1 << 32) in self.gateways)
        return number(word)

    def measure(self, word, instrument, text, attrs):
        writer, amount, attrs = self.of(word), value(text), attributes(attrs)
        need(instrument in self.labels)
        place = self.labels[instrument]
        if not writer.open:
            raise Refused("Closed")
        if amount < 0 and self.plan.kinds[place] in ("counter", "histogram"):
            raise Refused("Negative")
        changes = []
        for stream, keys in self.plan.feeds[place]:
            series = writer.series.get(stream, {})
            own = kept(attrs, keys)
            held = [one for one in series if one != OVERFLOW]
            if own != OVERFLOW and own not in series and len(held) >= self.plan.limit:
                own = OVERFLOW
            payload = self.added(self.plan.streams[stream][3], series.get(own), amount)
            if payload is None:
                raise Refused(f"Overflow({stream})")
            changes.append((stream, own, payload))
        for stream, own, payload in changes:
            writer.series.setdefault(stream, {})[own] = payload

    @staticmethod
    def added(form, payload, amount):
        """A payload with a value more, or None where it is out of range."""
        kind, stated = form
        if kind == "gauge":
            return amount
        if kind != "hist":
            total = (payload or 0) + amount
            return total if total in I64 else None
        count, total, buckets, least, most = payload or (0, 0, (0,) * (len(stated) + 1), amount, amount)
        if total + amount not in I64:
            return None
        place = sum(bound < amount for bound in stated)
        buckets = tuple(held + (n == place) for n, held in enumerate(buckets))
        return count + 1, total + amount, buckets, min(least, amount), max(most, amount)

    def collect(self, word, text, closing=False):
        writer, time = self.of(word), number(text)
        if not writer.open:
            raise Refused("Closed")
        if time <= writer.last:
            raise Refused(f"TimeNotAfter({writer.last})")
        writer.last, writer.open = time, not closing
        self.exports.append({
            (*writer.name, writer.start, self.plan.streams[stream], attrs): (time, payload)
            for stream, series in writer.series.items() for attrs, payload in series.items()
        })

    def shutdown(self, word, text):
        self.collect(word, text, True)

    def restart(self, word, text):
        writer, start = self.of(word), number(text)
        if start <= writer.start:
            raise Refused(f"StartNotAfter({writer.start})")
        writer.restart(start)

    def join(self, gateway, cells):
        held = self.gateways[gateway]
        for key, cell in cells.items():
            held[key] = joined(held[key], cell) if key in held else cell

    def deliver(self, text, word):
        place, gateway = number(text), self.at(word)
        if not 0 < place <= len(self.exports):
            raise Refused("NoExport")
        self.join(gateway, self.exports[place - 1])

    def merge(self, into, source):
        self.join(self.at(into), dict(self.gateways[self.at(source)]))

    def send(self, source, to):
        self.mails.append((self.at(source), self.at(to), dict(self.gateways[self.at(source)])))

    def hand(self, text, word):
        place, gateway = number(text), self.at(word)
        if not 0 < place <= len(self.mails):
            raise Refused("NoMail")
        source, to, cells = self.mails[place - 1]
        if to != gateway:
            raise Refused("NotAddressed")
        self.join(gateway, cells or {})
        if self.answers and cells is not None:
            self.mails.append((to, source, None))

    def same(self, one, other):
        same = self.gateways[self.at(one)] == self.gateways[self.at(other)]
        self.printed.append("same yes" if same else "same no")

    def conflicts(self, word):
        held = self.gateways[self.at(word)].values()
        self.printed.append(f"conflicts {sum(cell[1] == CONFLICT for cell in held)}")

    def newest(self, word, writer, text):
        gateway, name, start = self.at(word), self.of(writer).name, number(text)
        times = [cell[0] for key, cell in self.gateways[gateway].items() if key[:3] == (*name, start)]
        self.printed.append(f"newest {max(times, default='none')}")

    def report(self, word, scope, name, unit, form, service, only, keys):
        gateway = self.gateways[self.at(word)]
        stream = blank(scope), name, blank(unit), shape(form)
        only, keys = attributes(only), keep(keys)
        if stream not in self.plan.streams:
            near = min(self.plan.streams, key=lambda other: steps(stream, other), default=None)
            but = f", but '{stream_words(near)}'" if near and steps(stream, near) <= 4 else ""
            self.notes.append((self.number, f"there is no stream '{stream_words(stream)}'{but}"))
        groups = {}
        for key, cell in gateway.items():
            if key[3] == stream and service in ("*", key[0]) and all(pair in key[4] for pair in only):
                groups.setdefault(kept(key[4], keys), []).append((cell, key))
        rows = [(set_text(attrs), *totals(stream[3], groups[attrs])) for attrs in sorted(groups)]
        cells = [("attributes", "points", "conflicts", "total"), *rows]
        widths = [max(len(row[column]) for row in cells) for column in range(3)]
        for row in cells:
            self.printed.append(f"{row[0]:<{widths[0]}}  {row[1]:>{widths[1]}}  {row[2]:>{widths[2]}}  {row[3]}")


def quoted(text):
    return '"' + text.replace("\\", "\\\\").replace('"', '\\"') + '"'


def set_text(attrs):
    texts = []
    for key, (kind, held) in attrs:
        shown = str(held).lower() if kind else quoted(held)
        plain = re.fullmatch(r"[A-Za-z0-9_.\-/]+", key)
        texts.append(f"{key if plain else quoted(key)}={shown}")
    return "{" + ",".join(texts) + "}"


def totals(form, cells):
    """The texts of a row behind its attributes."""
    held = [(cell[0], key, cell[1]) for cell, key in cells if cell[1] != CONFLICT]
    kind, stated = form
    if kind == "gauge":
        newest = max(held, key=lambda point: (point[0], point[1][:3], point[1][4]), default=None)
        total = f"{newest[2]}@{newest[0]}" if newest else "-"
    elif kind == "hist":
        buckets = [sum(point[2][2][n] for point in held) for n in range(len(stated) + 1)]
        total = f"count={sum(point[2][0] for point in held)} sum={sum(point[2][1] for point in held)}"
        total += " buckets=" + ",".join(map(str, buckets))
        if held:
            total += f" min={min(point[2][3] for point in held)} max={max(point[2][4] for point in held)}"
    else:
        total = str(sum(point[2] for point in held))
    return str(len(held)), str(len(cells) - len(held)), total


def told(script, answers):
    """What a script must print, the status, and what is told of it besides. `answers` says whether a handed mail is answered by one."""
    if len(script) > LONGEST:
        return b"too long\n", 1, b""
    reading, ends = Reading(answers), []
    *lines, rest = script.split(b"\n")
    for place, line in enumerate([*lines, rest] if rest else lines):
        reading.number = place + 1
        try:
            need(place < len(lines))
            if line and not line.startswith(b"#"):
                need(re.fullmatch(rb"[\x21-\x7e]+( [\x21-\x7e]+)*", line))
                reading.line(line.decode().split(" "))
        except BadLine:
            ends = [f"line {place + 1}"]
            break
    notes = [f"line {line}: {text}" for line, text in reading.notes[:MOST_NOTES]]
    printed, besides = ("".join(text + "\n" for text in texts).encode() for texts in ([*reading.printed, *ends], notes))
    return printed, len(ends), besides
