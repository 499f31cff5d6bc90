#!/usr/bin/env python3
"""How long requests of OTLP are read that are made to be hard to read.

    worst.py [BYTES]        the path of libkotskhin.so.0 is in KOTSKHIN_SO

Each case is read at about BYTES bytes (262,144), and at twice, four and eight times as many; of three readings the least is told, in
milliseconds of the processor.
Where time is linear each number is twice the one before it. What is refused is said behind the name: to find that out takes time as well."""
import pathlib
import struct
import sys
import time

SDK = pathlib.Path(__file__).resolve().parents[2] / "sdk"
BYTES, TURNS, ROUNDS = 262144, 4, 3
GAUGE, SUM, HISTOGRAM = 5, 7, 9


def number(value):
    made = b""
    while value >= 128:
        made, value = made + bytes([value & 127 | 128]), value >> 7
    return made + bytes([value])


def block(field, content):
    return number(8 * field + 2) + number(len(content)) + content


def fixed(field, value):
    return number(8 * field + 1) + struct.pack("<Q", value)


def pair(key, value):
    return block(1, key) + block(2, block(1, value))


HEAD = block(1, pair(b"service.name", b"shop")) + block(1, pair(b"service.instance.id", b"00000000-0000-0000-0000-000000000001"))


def resource(*scopes, more=b""):
    return block(1, block(1, HEAD + more) + b"".join(scopes))


def scope(name, *metrics, version=b""):
    return block(2, block(1, block(1, name) + (block(2, version) if version else b"")) + b"".join(metrics))


def metric(name, points, unit=b"", kind=GAUGE):
    cumulative = b"" if kind == GAUGE else number(16) + number(2)
    return block(2, block(1, name) + (block(3, unit) if unit else b"") + block(kind, b"".join(points) + cumulative))


def one(*points):
    """A request of one gauge."""
    return resource(scope(b"s", metric(b"m", points)))


def point(value, attributes=b"", time=200):
    return block(1, fixed(3, time) + fixed(6, value) + attributes)


def points(count):
    """Points that differ in an attribute."""
    return [point(7, block(7, block(1, b"k") + block(2, number(24) + number(turn)))) for turn in range(count)]


def twice(made):
    """The same with the first once more, so that each is looked at again."""
    return made + made[:1]


def histogram(bounds, time=200):
    count = len(bounds)
    buckets = struct.pack(f"<{count + 1}Q", *[0] * (count + 1))
    return block(1, fixed(2, 100) + fixed(3, time) + fixed(5, 0) + block(6, buckets) + block(7, struct.pack(f"<{count}d", *bounds)))


def text(value, size=8):
    """Texts that differ late."""
    return (b"%d" % value).rjust(size, b"a")


def scattered(count, size=8):
    """Attributes whose keys do not come in order."""
    return b"".join(block(7, pair(text(turn * 7919 % 1000003, size), b"v")) for turn in range(count))


def nested(size):
    """Lists of values, each in another."""
    heads, within = [], 0
    while within < size:
        for field in (1, 5):
            heads.append(number(8 * field + 2) + number(within))
            within += len(heads[-1])
    return b"".join(reversed(heads))


FULL = b"b" * 1024

CASES = {
    "half of it a name, over many points": lambda n: resource(scope(b"s", metric(b"a" * (n // 2), twice(points(n // 60))))),
    "half of it a scope, over many metrics": lambda n: resource(
        scope(b"a" * (n // 2), *[metric(text(turn), [point(1)]) for turn in range(n // 96)])),
    "all of it a name, over 64 points": lambda n: resource(scope(b"s", metric(b"a" * n, twice(points(63))))),
    "all of it a scope, over 64 metrics": lambda n: resource(scope(b"a" * n, *twice([metric(text(turn), [point(1)]) for turn in range(63)]))),
    "names of 1,025 bytes, each over 64 points": lambda n: resource(
        scope(b"s", *twice([metric(text(turn, 1025), points(64)) for turn in range(n // 2900)]))),
    "scope, name and unit of 1,024 bytes, over many points": lambda n: resource(
        scope(FULL, metric(FULL, twice(points(n // 30)), unit=FULL))),
    "a scope of 1,024 bytes, over many metrics": lambda n: resource(
        scope(FULL, *twice([metric(text(turn), [point(1)]) for turn in range(n // 42)]))),
    "many points": lambda n: one(*points(n // 30)),
    "many points, two of one key": lambda n: one(*twice(points(n // 30))),
    "many attributes of a point": lambda n: one(point(7, scattered(n // 19))),
    "the same, of keys that differ late in 1,000 bytes": lambda n: one(point(7, scattered(n // 1013, 1000))),
    "points of 128 such attributes": lambda n: one(*[point(turn, scattered(128, 1000), time=200 + turn) for turn in range(n // 130000)]),
    "points of 16 such attributes, of 200 bytes": lambda n: one(*[point(turn, scattered(16, 200), time=200 + turn) for turn in range(n // 3400)]),
    "many bounds": lambda n: resource(scope(b"s", metric(b"m", [histogram(list(range(n // 16)))], kind=HISTOGRAM))),
    "bounds that differ in turn, long texts of 1,024 bytes": lambda n: resource(
        scope(FULL, metric(FULL, [histogram([turn % 2], 200 + turn) for turn in range(n // 60)], unit=FULL, kind=HISTOGRAM))),
    "many scopes": lambda n: resource(*[scope(text(turn), metric(b"m", [point(1)])) for turn in range(n // 50)]),
    "scopes that differ late in 1,000 bytes": lambda n: resource(*[scope(text(turn, 1000), metric(b"m", [point(1)])) for turn in range(n // 1050)]),
    "one scope again and again": lambda n: resource(*[scope(b"s", metric(text(turn), [point(1)])) for turn in range(n // 50)]),
    "the same, with a version of 1,000 bytes": lambda n: resource(
        *[scope(b"s", metric(text(turn), [point(1)]), version=FULL[:1000]) for turn in range(n // 1050)]),
    "many windows": lambda n: one(*[point(1, time=200 + turn) for turn in range(n // 20)]),
    "many resources": lambda n: resource(scope(b"s", metric(b"m", [point(1)]))) * (n // 136),
    "many attributes of a resource": lambda n: resource(more=b"".join(block(1, pair(text(turn), b"v")) for turn in range(n // 19))),
    "fields that are not known": lambda n: b"\x78\x00" * (n // 2),
    "values within values": lambda n: one(point(7, block(7, block(1, b"k") + block(2, nested(n))))),
}


def reading(request):
    """The least milliseconds of reading a request, and why it is refused."""
    from kotskhin import Export, Refused

    least, why = float("inf"), ""
    for _ in range(ROUNDS):
        begin = time.thread_time()
        try:
            made = Export.of_otlp(request)
        except Refused as refused:
            made, why = [], type(refused).__name__
        least = min(least, time.thread_time() - begin)
        for export in made:
            export.close()
    return least * 1000, why


def line(name, size, read):
    figures, why = [], ""
    for turn in range(TURNS):
        took, why = read(CASES[name](size << turn))
        figures.append(f"{took:9.2f}")
    return f"{name:<56}{''.join(figures)}  {why}".rstrip()


def main():
    sys.path.insert(0, str(SDK / "python"))
    size = int(sys.argv[1]) if len(sys.argv) > 1 else BYTES
    for name in CASES:
        print(line(name, size, reading), flush=True)


if __name__ == "__main__":
    main()
