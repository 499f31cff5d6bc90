#!/usr/bin/env python3
"""What `otm` does on files: its tables, pages, requests and states, its refusals, and what docs/use/FILES.md shows.

    tests/files/run.py [PROGRAM..]      these programs in place of those that lie in crates/otm/out

The files are written by kept.py, from docs/design/BYTES.md alone. Each row has words, the status that they end with, and what both streams get. The blocks of
docs/use/FILES.md that are fenced as `console` are run too, over the files that the page names: a line `$ otm ..`, and below it what is printed.
Where a file is written, its old bytes must stay whatever fails: under a limit of a file's size, on a disk that is full, and where a call of calls.c is refused.
The state that `otm merge` writes must be, byte for byte, the message that kept.py makes of the same cells, and `otm otlp` must write what the crate's tests
hold `encode_otlp` to.

This ends with a status other than 0 where one is not as told, or where there is no program."""
import os
import pathlib
import re
import resource
import shlex
import shutil
import signal
import subprocess
import sys
import tempfile

sys.dont_write_bytecode = True
sys.path.append(str(pathlib.Path(__file__).resolve().parents[1] / "gate"))
import checks
import kept

HERE = pathlib.Path(__file__).resolve().parent
TOP = HERE.parents[1]
PAGE = TOP / "docs" / "use" / "FILES.md"
BYTES = TOP / "docs" / "design" / "BYTES.md"
BUILDS = ("otm", "otm.by-rattle")
SECONDS = 60

SALES = ("app", "sales", "1", "sum+")
LATENCY = ("app", "latency", "ms", (0, 5, 10))
HEAT = ("", "heat", "C", "gauge")
TEA, MILK = {"item": "tea"}, {"item": "milk", "size": "1"}
SHOP, TILL = ("shop", 7), ("till", 8)
# (another worker of the shop, an archive of it, and one that is begun later)
SECOND, ARCHIVE, NEXT = ("shop", 9), ("shop", 32), ("shop", 33)
TOMBS = ("kotskhin.archive", "adopted", "ns", "gauge")

EXAMPLE = kept.export(*SHOP, 100, 200, [(SALES, TEA, 6), (SALES, MILK, 3)])
LATER = kept.export(*SHOP, 100, 300, [(SALES, TEA, 10)])
OTHER = kept.export(*TILL, 50, 250, [(SALES, TEA, 5), (LATENCY, {}, (12, [0, 2, 1, 0], (3, 6))), (HEAT, {"room": "a b"}, -4)])
TWIN = kept.export(*SHOP, 100, 200, [(SALES, TEA, 7)])
EMPTY = kept.export("a\nb \\", 1, 0, 18446744073709551615, [])
THIRD = kept.export(*SECOND, 500, 600, [(SALES, TEA, 4), (HEAT, {}, 1)])
STATE = kept.message(3, 3, [(SHOP, 100, SALES, MILK, 200, 3), (SHOP, 100, SALES, TEA, 300, 10)])
DELTA = kept.message(1, 2, [(SHOP, 100, SALES, MILK, 200, 3), (SHOP, 100, SALES, TEA, 200, 6)], 1)
CONFLICT = kept.message(1, 1, [(SHOP, 100, SALES, TEA, 200, None)])
FALLING = kept.export(*SHOP, 100, 200, [(SALES, TEA, -1)])
WIDE = kept.export(*SHOP, 100, 200, [(("app", "wide", "1", (2**53, 2**53 + 1)), {}, (0, [0, 0, 0], None))])

FILES = {
    "a.ktsk": EXAMPLE,
    "later.ktsk": LATER,
    "b.ktsk": OTHER,
    "c.ktsk": THIRD,
    "twin.ktsk": TWIN,
    "empty.ktsk": EMPTY,
    "three.ktsm": STATE,
    "delta.ktsm": DELTA,
    "conflict.ktsm": CONFLICT,
    "ack.ktsm": kept.ack(2, 1, 9),
    "falling.ktsk": FALLING,
    "wide.ktsk": WIDE,
    "cut.ktsk": EXAMPLE[:-1],
    "torn.ktsk": EXAMPLE[:30] + b"x" + EXAMPLE[31:],
    "two.ktsk": EXAMPLE + LATER,
    "text.txt": b"no export\n",
    "journal.3": b"KTSJ\x01" + b"\0" * 40,
    "nothing": b"",
}

NONE = b"this is no export, message or state\n"
JOURNAL = b"this is a journal of kotskhin-gateway: state.ktsm beside it is read here, and has all once the gateway has ended\n"
NO_EXPORT = b"this is a message or a state, and no export\n"
BEHIND = b"something stands behind the export or message, from byte %d on\n" % len(EXAMPLE)

ASK = ["report", "app", "sales", "1", "sum+", "*", "-", "*"]
HEADER = b"attributes  points  conflicts  total\n"
TABLE = b"""attributes              points  conflicts  total
{item="milk",size="1"}       1          0  3
{item="tea"}                 1          0  %d
"""
BOTH = TABLE.replace(b"1          0  %d", b"2          0  11")
ALONE = b"""attributes    points  conflicts  total
{item="tea"}       1          %d  %s
"""
KEPT_SUMS = b"""attributes  points  conflicts  total
{}               3          0  14
"""
SLOW = b"""attributes  points  conflicts  total
{}               1          0  count=3 sum=12 buckets=0,2,1,0 min=3 max=6
"""
WARM = b"""attributes  points  conflicts  total
{}               1          0  1@600
"""

# What a tombstone tells of an incarnation, and those of the archive's.
def told(writer, start):
    return {"instance": f"00000000-0000-0000-0000-{writer[1]:012x}", "service": writer[0], "start": start}


OF_SHOP, OF_SECOND = (TOMBS, told(SHOP, 100), 200), (TOMBS, told(SECOND, 500), 600)
ARCHIVED = kept.export(*ARCHIVE, 1000, 2000, [(SALES, MILK, 3), (SALES, TEA, 10), OF_SHOP, OF_SECOND])


def adopt(writer, *words):
    return ["archive", "-o", "new.ktsk", "shop", told(writer, 0)["instance"], *words]


def refusal(writer, start, reason):
    return f"shop {told(writer, 0)['instance']}, start {start} is not adopted: {reason}\n".encode()


# By its name what the program is given, words and input, and what it must do: its status, its standard output, its standard error.
ROWS = {
    "an export": ([*ASK, "a.ktsk"], b"", 0, TABLE % 6, b""),
    "the input": ([*ASK, "-"], EXAMPLE, 0, TABLE % 6, b""),
    "an export twice": ([*ASK, "a.ktsk", "a.ktsk"], b"", 0, TABLE % 6, b""),
    "a later export": ([*ASK, "a.ktsk", "later.ktsk"], b"", 0, TABLE % 10, b""),
    "a later export, before": ([*ASK, "later.ktsk", "a.ktsk"], b"", 0, TABLE % 10, b""),
    "two writers": ([*ASK, "a.ktsk", "b.ktsk"], b"", 0, BOTH, b""),
    "two writers in one row": ([*ASK[:-1], "-", "b.ktsk", "later.ktsk", "-"], DELTA, 0, KEPT_SUMS.replace(b"14", b"18"), b""),
    "one service": ([*ASK[:5], "till", *ASK[6:], "a.ktsk", "b.ktsk"], b"", 0, ALONE % (0, b"5"), b""),
    "a pair": ([*ASK[:6], "item=tea", "*", "a.ktsk"], b"", 0, ALONE % (0, b"6"), b""),
    "a state": ([*ASK, "three.ktsm"], b"", 0, TABLE % 10, b""),
    "a delta": ([*ASK, "delta.ktsm"], b"", 0, TABLE % 6, b""),
    "an Ack": ([*ASK, "ack.ktsm"], b"", 0, HEADER, b"there is no stream 'app sales 1 sum+'\n"),
    "a message's conflict": ([*ASK, "conflict.ktsm"], b"", 0, b'attributes    points  conflicts  total\n{item="tea"}       0          1  0\n', b""),
    "a shared identity": ([*ASK, "a.ktsk", "twin.ktsk"], b"", 0, TABLE.replace(b"1          0  %d", b"0          1  0"), b""),
    "a stream that is not there": ([*ASK[:4], "sum", *ASK[5:], "a.ktsk"], b"", 0, HEADER, b"there is no stream 'app sales 1 sum', but 'app sales 1 sum+'\n"),
    "a stream that no other is near": (["report", "app", "sale", *ASK[3:], "later.ktsk", "b.ktsk"], b"", 0, HEADER, b"there is no stream 'app sale 1 sum+', but 'app sales 1 sum+'\n"),
    "a stream far from all": (["report", "-", "sale", *ASK[3:], "b.ktsk"], b"", 0, HEADER, b"there is no stream '- sale 1 sum+'\n"),
    "a stream that no point of the service has": ([*ASK[:5], "none", *ASK[6:], "a.ktsk"], b"", 0, HEADER, b""),
    "a counter": ([*ASK[:4], "counter", *ASK[5:], "a.ktsk", "b.ktsk"], b"", 0, BOTH, b""),
    "an up-down counter": ([*ASK[:4], "updown", *ASK[5:], "a.ktsk"], b"", 0, HEADER, b"there is no stream 'app sales 1 sum', but 'app sales 1 sum+'\n"),
    "a histogram": (["report", "app", "latency", "ms", "histogram:0,5,10", *ASK[5:], "b.ktsk"], b"", 0, SLOW, b""),
    "a histogram of the default bounds": (["report", "app", "latency", "ms", "histogram", *ASK[5:], "b.ktsk"], b"", 0, HEADER, b"there is no stream 'app latency ms hist', but 'app latency ms hist:0,5,10'\n"),
    "a histogram of no bounds": (["report", "app", "latency", "ms", "histogram:x", *ASK[5:], "b.ktsk"], b"", 2, b"", b"'hist:x' is no shape: a shape is sum+, sum, gauge, hist, or hist: and values with commas between\n"),
    "no file": ([*ASK, "none"], b"", 4, b"", b"read failed: none\n"),
    "a folder": ([*ASK, "a.ktsk", "."], b"", 4, b"", b"read failed: .\n"),
    "nothing": ([*ASK, "nothing"], b"", 1, b"", b"nothing: the bytes end at 0, too early\n"),
    "a text": ([*ASK, "a.ktsk", "text.txt", "cut.ktsk"], b"", 1, b"", b"text.txt: " + NONE),
    "a text of the input": (["show", "-"], b"KTSX\x02 and more", 1, b"", b"-: " + NONE),
    "a journal": (["show", "a.ktsk", "journal.3"], b"", 1, b"", b"journal.3: " + JOURNAL),
    "a journal merged": (["merge", "-o", "-", "journal.3", "text.txt"], b"", 1, b"", b"journal.3: " + JOURNAL),
    "a request of a journal": (["otlp", "journal.3"], b"", 1, b"", b"journal.3: " + JOURNAL),
    "an odd byte behind a state": (["show", "-"], STATE + b"\n", 1, b"", b"-: " + BEHIND.replace(b"%d" % len(EXAMPLE), b"%d" % len(STATE))),
    "a cut file": ([*ASK, "cut.ktsk", "text.txt"], b"", 1, b"", b"cut.ktsk: the bytes end at %d, too early\n" % (len(EXAMPLE) - 1)),
    "a torn file": ([*ASK, "torn.ktsk"], b"", 1, b"", b"torn.ktsk: the checksum at byte %d is not that of the bytes before it\n" % (len(EXAMPLE) - 4)),
    "two exports in one file": ([*ASK, "two.ktsk"], b"", 1, b"", b"two.ktsk: " + BEHIND),
    "a sum that fell": ([*ASK, "falling.ktsk"], b"", 1, b"", None),
    "no shape": ([*ASK[:4], "sum-", *ASK[5:], "a.ktsk"], b"", 2, b"", b"'sum-' is no shape: a shape is sum+, sum, gauge, hist, or hist: and values with commas between\n"),
    "two words in one": (["report", "app x", *ASK[2:], "a.ktsk"], b"", 2, b"", b"'report' wants a gateway, a scope, a name, a unit, a shape, a service, attributes and keys to keep\n"),
    "an empty word": (["report", "", *ASK[2:], "a.ktsk"], b"", 2, b"", b"a line has one space between two words, and none at its ends\n"),
    "an ask without a file": (ASK, b"", 2, b"", None),
    "expose without a file": (["expose"], b"", 2, b"", None),
    "merge without an output": (["merge", "a.ktsk"], b"", 2, b"", None),
    "a request of a message": (["otlp", "a.ktsk", "delta.ktsm"], b"", 1, b"", b"delta.ktsm: " + NO_EXPORT),
    "a request of bounds that are one double": (["otlp", "a.ktsk", "wide.ktsk", "text.txt"], b"", 1, b"", b"wide.ktsk: the bounds of point 0 do not rise as doubles\n"),
    "an export shown": (["show", "a.ktsk"], b"", 0, b"a.ktsk: export of shop 00000000-0000-0000-0000-000000000007, start 100, time 200\napp sales 1 sum+\n" + TABLE % 6, b""),
    "odd names": (["show", "empty.ktsk"], b"", 0, b"empty.ktsk: export of a\\x0ab\\x20\\\\ 00000000-0000-0000-0000-000000000001, start 0, time 18446744073709551615\n", b""),
    "messages shown": (["show", "ack.ktsm", "conflict.ktsm"], b"", 0, b'ack.ktsm: ack 9 of gateway 2, for 1\nconflict.ktsm: state of gateway 1, for 1\napp sales 1 sum+\nattributes    points  conflicts  total\n{item="tea"}       0          1  0\n', b""),
    "streams shown": (["show", "b.ktsk"], b"", 0, b"""b.ktsk: export of till 00000000-0000-0000-0000-000000000008, start 50, time 250
- heat C gauge
attributes    points  conflicts  total
{room="a b"}       1          0  -4@250
app latency ms hist:0,5,10
attributes  points  conflicts  total
{}               1          0  count=3 sum=12 buckets=0,2,1,0 min=3 max=6
app sales 1 sum+
attributes    points  conflicts  total
{item="tea"}       1          0  5
""", b""),
    "nothing is shown of a file before a bad one": (["show", "a.ktsk", "text.txt"], b"", 1, b"", b"text.txt: " + NONE),
    "an output that no file can have": (["merge", "-o", "none/x", "a.ktsk"], b"", 4, b"", b"write failed\n"),
    "a conflict adopted": (adopt(NEXT, "1000", "2000", "c.ktsk", "twin.ktsk", "a.ktsk"), b"", 1, b"", refusal(SHOP, 100, "a point of it is a conflict")),
    "a torn state adopted": (adopt(NEXT, "1000", "2000", "c.ktsk", "three.ktsm"), b"", 1, b"", refusal(SHOP, 100, "its points are not of one time")),
    "more totals than the limit": (["archive", "--limit", "1", *adopt(NEXT, "1000", "2000", "a.ktsk")[1:]], b"", 1, b"", refusal(SHOP, 100, "there would be more totals than the limit")),
    "a worker's incarnation taken": (adopt(SHOP, "100", "2000", "a.ktsk"), b"", 1, b"", b"the files hold points of this instance and start\n"),
    "an archive that ends as it begins": (adopt(NEXT, "2000", "2000", "a.ktsk", "text.txt"), b"", 2, b"", b"the time is not later than the start\n"),
    "an archive of a bad file": (adopt(NEXT, "1000", "2000", "a.ktsk", "text.txt"), b"", 1, b"", b"text.txt: " + NONE),
    "an archive of no file": (adopt(NEXT, "1000", "2000"), b"", 2, b"", None),
    "an archive without an output": (["archive", *adopt(NEXT, "1000", "2000", "a.ktsk")[3:]], b"", 2, b"", None),
    "an archive without a UUID": (["archive", "-o", "new.ktsk", "shop", "7", "1000", "2000", "a.ktsk"], b"", 2, b"", b"'7' is no UUID: a UUID has 32 hexadecimal digits, with hyphens or without\n"),
    "a start that is no number": (adopt(NEXT, "01", "2000", "a.ktsk"), b"", 2, b"", b"'01' is no number: a number has digits alone, and no leading zero\n"),
    "a time that is no number": (adopt(NEXT, "1000", "2e3", "a.ktsk"), b"", 2, b"", b"'2e3' is no number: a number has digits alone, and no leading zero\n"),
    "a limit that is no number": (["archive", "--limit", "x", *adopt(NEXT, "1000", "2000", "a.ktsk")[1:]], b"", 2, b"", b"'x' is no number: a number has digits alone, and no leading zero\n"),
}


def ran(program, folder, words, given=b""):
    # (its texts call it by its first word, whichever build it is)
    ran = subprocess.run(["otm", *words], executable=program, cwd=folder, input=given, capture_output=True, timeout=SECONDS)
    return ran.returncode, ran.stdout, ran.stderr


def differs(did, wanted):
    """What a run did otherwise than told, or an empty text. Of a stream that is not told only that it says something."""
    same = all(here == there or there is None and here for here, there in zip(did, wanted))
    return "" if same else f"status {did[0]}, wrote {did[1]!r}, and on the standard error {did[2]!r}"


def states(program, folder):
    """What `otm merge` writes, into a file and to the standard output, and what it leaves."""
    merged = kept.message(0, 0, [
        (SHOP, 100, SALES, MILK, 200, 3), (SHOP, 100, SALES, TEA, 300, 10),
        (TILL, 50, HEAT, {"room": "a b"}, 250, -4), (TILL, 50, LATENCY, {}, 250, (12, [0, 2, 1, 0], (3, 6))), (TILL, 50, SALES, TEA, 250, 5),
    ])
    for name, files in {"a state of three files": ["a.ktsk", "b.ktsk", "later.ktsk"], "of states": ["three.ktsm", "delta.ktsm", "b.ktsk"]}.items():
        yield name, differs(ran(program, folder, ["merge", "-o", "-", *files]), (0, merged, b""))
        yield f"{name}, kept", differs(ran(program, folder, ["merge", "--output", "all.ktsm", *files]), (0, b"", b""))
        yield f"{name}, read again", "" if (folder / "all.ktsm").read_bytes() == merged else "other bytes"
        yield f"{name}, merged alone", differs(ran(program, folder, ["merge", "-o", "-", "all.ktsm"]), (0, merged, b""))
    conflict = kept.message(0, 0, [(SHOP, 100, SALES, MILK, 200, 3), (SHOP, 100, SALES, TEA, 200, None)])
    yield "a state with a conflict", differs(ran(program, folder, ["merge", "-o", "-", "twin.ktsk", "a.ktsk"]), (0, conflict, b""))
    before = (folder / "all.ktsm").read_bytes()
    yield "a state of a bad file", differs(ran(program, folder, ["merge", "-o", "all.ktsm", "a.ktsk", "text.txt"]), (1, b"", None))
    yield "what stays then", "" if (folder / "all.ktsm").read_bytes() == before else "another file"
    (folder / "all.ktsm").unlink()
    yield "files besides", "" if {path.name for path in folder.iterdir()} == set(FILES) else f"{sorted(path.name for path in folder.iterdir())}"


def archives(program, folder):
    """What `otm archive` writes, and what files show that have it beside what it adopted."""
    workers = ["a.ktsk", "c.ktsk"]
    write = lambda writer, start, time, *files: adopt(writer, str(start), str(time), *files)
    read = lambda: (folder / "new.ktsk").read_bytes() if (folder / "new.ktsk").is_file() else None
    yield "nothing is written of a refusal", "" if read() is None else "a file"
    for name, files in {"an archive": workers, "an archive, in another order": [*workers[::-1], "b.ktsk"], "an archive of a state": ["both.ktsm", "a.ktsk"]}.items():
        ran(program, folder, ["merge", "-o", "both.ktsm", *workers])
        yield name, differs(ran(program, folder, write(ARCHIVE, 1000, 2000, *files)), (0, b"", b""))
        yield f"{name}, read again", "" if read() == ARCHIVED else f"other bytes: {read()!r}"
    yield "an archive with room", differs(ran(program, folder, ["archive", "--limit", "2", "-o", "-", *write(ARCHIVE, 1000, 2000, *workers)[3:]]), (0, ARCHIVED, b""))
    for files in (["new.ktsk"], [*workers, "new.ktsk"], ["new.ktsk", *workers], ["c.ktsk", "new.ktsk", "both.ktsm", "new.ktsk"]):
        yield f"shown of {' '.join(files)}", differs(ran(program, folder, [*ASK, *files]), (0, TABLE % 10, b""))
    status, page, said = ran(program, folder, ["expose", *workers, "new.ktsk"])
    once = page.count(b"sales_total{") == 2 and b'item="tea",otel_scope_name="app",service_name="shop"} 10' in page
    bare = b"kotskhin.archive" not in page and b"\nkotskhin_keys 2\n" in page
    yield "a page of them", "" if (status, said) == (0, b"") and once and bare else f"status {status}, wrote {page!r}"
    state = kept.message(0, 0, [
        (ARCHIVE, 1000, SALES, MILK, 2000, 3), (ARCHIVE, 1000, SALES, TEA, 2000, 10),
        (ARCHIVE, 1000, TOMBS, OF_SHOP[1], 2000, 200), (ARCHIVE, 1000, TOMBS, OF_SECOND[1], 2000, 600),
    ])
    yield "a state of them", differs(ran(program, folder, ["merge", "-o", "-", *workers, "new.ktsk"]), (0, state, b""))
    nothing = kept.export(*NEXT, 1000, 3000, [])
    yield "what is adopted is not adopted again", differs(ran(program, folder, ["archive", "-o", "-", *write(NEXT, 1000, 3000, *workers, "new.ktsk")[3:]]), (0, nothing, b""))
    yield "its own export", differs(ran(program, folder, write(ARCHIVE, 1000, 3000, *workers, "new.ktsk")), (1, b"", b"the files hold points of this instance and start\n"))
    heat = ["report", "-", "heat", "C", "gauge", "*", "-", "*"]
    yield "a gauge of a worker", differs(ran(program, folder, [*heat, *workers]), (0, WARM, b""))
    yield "a gauge of what is adopted is shown no more", differs(ran(program, folder, [*heat, *workers, "new.ktsk"]), (0, HEADER, b"there is no stream '- heat C gauge'\n"))
    later = kept.export(*ARCHIVE, 2000, 3000, [(SALES, TEA, 4), OF_SECOND])
    ran(program, folder, write(ARCHIVE, 1000, 2000, "a.ktsk"))
    own = kept.export(*SECOND, 1000, 2000, [(SALES, MILK, 3), (SALES, TEA, 6), OF_SHOP])
    yield "its own instance is left alone", differs(ran(program, folder, ["archive", "-o", "-", *write(SECOND, 1000, 2000, *workers)[3:]]), (0, own, b""))
    yield "begun anew", differs(ran(program, folder, ["archive", "-o", "-", *write(ARCHIVE, 2000, 3000, *workers, "new.ktsk")[3:]]), (0, later, b""))
    for name in ("new.ktsk", "both.ktsm"):
        (folder / name).unlink()


def most_bytes(count):
    """No file of the process, or of what it becomes, may have more bytes."""
    resource.setrlimit(resource.RLIMIT_FSIZE, (count, count))


def calls(folder):
    """The library that is preloaded, built in this folder."""
    compiler = shutil.which("cc") or shutil.which("clang")
    if not compiler:
        raise SystemExit("no C compiler: cc or clang")
    built = folder / "calls.so"
    subprocess.run([compiler, "-O2", "-Wall", "-Werror", "-shared", "-fPIC", "-o", built, HERE / "calls.c"], check=True)
    return built


def kept_files(program, folder, room):
    """What becomes of a file that is to be written, where that fails: its bytes stay, and nothing lies beside it."""
    words, others, old, new = ["merge", "-o", "all.ktsm", "three.ktsm", "b.ktsk"], set(FILES), DELTA, None
    path, library = folder / "all.ktsm", calls(room)

    def kept(name, did, status, bytes_now, beside=()):
        left = {path.name for path in folder.iterdir()} - others - {"all.ktsm"}
        fits = (did.returncode, did.stdout) == (status, b"") and did.stderr == (b"write failed\n" if status == 4 else b"")
        fits = fits and path.read_bytes() == bytes_now and left == set(beside)
        return name, "" if fits else f"{did}, {path.read_bytes()!r}, and beside it {left}"

    def did(**more):
        path.write_bytes(old)
        return subprocess.run(["otm", *words], executable=program, cwd=folder, capture_output=True, timeout=SECONDS, **more)

    def preloaded(refused=""):
        (room / "calls").write_text("")
        ran = did(env={**os.environ, "LD_PRELOAD": str(library), "CALLS": str(room / "calls"), "REFUSED": refused})
        return ran, (room / "calls").read_text().split()

    new = ran(program, folder, ["merge", "-o", "-", *words[3:]])[1]
    yield kept("a file written", did(), 0, new)
    yield kept("a limit of a file's size", did(preexec_fn=lambda: most_bytes(len(new) - 1), restore_signals=False), 4, old)
    killed = did(preexec_fn=lambda: most_bytes(len(new) - 1))
    yield kept("a process that such a limit ends", killed, -signal.SIGXFSZ, old, ["all.ktsm.0.part"])
    (folder / "all.ktsm.0.part").write_bytes(b"another's")
    yield kept("what another left beside it", did(), 0, new, ["all.ktsm.0.part"])
    stays = (folder / "all.ktsm.0.part").read_bytes() == b"another's"
    yield "that stays as it was", "" if stays else "other bytes"
    (folder / "all.ktsm.0.part").unlink()
    for refused, wanted in {"": ["fsync", "rename"], "fsync": ["fsync", "unlink"], "rename": ["fsync", "rename", "unlink"]}.items():
        told, made = preloaded(refused)
        yield kept(f"{refused or 'nothing'} refused", told, 4 if refused else 0, old if refused else new)
        yield f"{refused or 'nothing'} refused, the calls", "" if made == wanted else f"{made}"
    path.unlink()
    # (by links, so that a program which renames over a device takes the link's place alone)
    for name, status in {"full": 4, "null": 0}.items():
        link = folder / name
        link.symlink_to(f"/dev/{name}")
        yield f"a device, {name}", differs(ran(program, folder, ["merge", "-o", name, *words[3:]]), (status, b"", b"write failed\n" if status else b""))
        yield f"a device, {name}, stays one", "" if link.is_symlink() else "a file"
        link.unlink()
    yield from full_disk(program, folder)


# In a mount of the size of two pages, of which other files take all: what a run says, and then what is there.
FULL = """mount -t tmpfs -o size=8k none "$1" || exit 99
cp delta.ktsm "$1/all.ktsm"; head -c 1000000 /dev/zero > "$1/rest" 2> /dev/null
"$0" merge -o "$1/all.ktsm" three.ktsm b.ktsk; echo "$?"
cmp "$1/all.ktsm" delta.ktsm && ls "$1" """


def full_disk(program, folder):
    """The same on a disk that is full, where one may be mounted."""
    with tempfile.TemporaryDirectory() as disk:
        mount = ["unshare", "--mount", *(["--map-root-user"] if os.geteuid() else []), "bash", "-c", FULL, program, disk]
        ran = subprocess.run(mount, cwd=folder, capture_output=True, timeout=SECONDS)
        if ran.returncode in (1, 99) and b"mount" in ran.stderr + b"unshare":
            return print(f"{program.name}: a full disk: NOT TRIED, since nothing may be mounted here: {ran.stderr.decode().strip()}")
        fits = (ran.returncode, ran.stdout, ran.stderr) == (0, b"4\nall.ktsm\nrest\n", b"write failed\n")
        yield "a full disk", "" if fits else f"{ran}"


def requests(program, folder):
    """What `otm otlp` writes: the request of each export, one behind the other."""
    one, other = (ran(program, folder, ["otlp", name]) for name in ("a.ktsk", "b.ktsk"))
    yield "a request", "" if one[0] == 0 and one[1][:1] == b"\x0a" and b"service.name" in one[1] and not one[2] else f"{one}"
    yield "two requests", differs(ran(program, folder, ["otlp", "a.ktsk", "b.ktsk"]), (0, one[1] + other[1], b""))


def pages(program, folder):
    """What `otm expose` writes."""
    lines = b'sales_total{item="tea",otel_scope_name="app",service_name="%s"} %d\n'
    for words, service, here, end in ((["expose"], None, b"# TYPE sales_total counter\n", b""), (["expose", "--openmetrics", "--service", "till"], b"till", b"# TYPE sales counter\n", b"# EOF\n")):
        status, page, said = ran(program, folder, [*words, "a.ktsk", "b.ktsk"])
        shown = here in page and lines % (b"till", 5) in page and (lines % (b"shop", 6) in page) == (service is None) and page.endswith(end or b"\n")
        yield " ".join(words), "" if (status, said) == (0, b"") and shown else f"status {status}, wrote {page!r}, and on the standard error {said!r}"


def told_bytes():
    """The bytes of the worked example of docs/design/BYTES.md."""
    rows = re.findall(r"^\| ([0-9 ,]+) \| ", BYTES.read_text().split("## A worked example")[1].split("\n## ")[0], re.M)
    return bytes(int(found) for row in rows for found in re.findall(r"[0-9]+", row))


def blocks():
    """The words of each example of the page, and what it shows."""
    for block in re.findall(r"^```console\n(.*?)^```$", PAGE.read_text(), re.S | re.M):
        for part in block.split("$ otm ")[1:]:
            words, shown = part.split("\n", 1)
            yield shlex.split(words), shown.encode()


def helps(program, folder):
    """Whether `otm --help` lists each command of the page, with the first line of the command's own help."""
    listed = ran(program, folder, ["--help"])[2].decode()
    for name in re.findall(r"^\| `otm (\w+) ", PAGE.read_text(), re.M):
        about = ran(program, folder, ["help", name])[2].decode().splitlines()[0]
        yield f"{name} in otm --help", "" if f"  {name:<7}  {about}\n" in listed else f"{listed!r} has no {about!r}"


def cases(program, folder, room):
    for name, (words, given, *wanted) in ROWS.items():
        yield name, differs(ran(program, folder, words, given), wanted)
    yield from helps(program, folder)
    yield from pages(program, folder)
    yield from requests(program, folder)
    yield from states(program, folder)
    yield from archives(program, folder)
    yield from kept_files(program, folder, room)
    for words, shown in blocks():
        status, text, said = ran(program, folder, words)
        # (a shell shows both streams; help ends with a blank line)
        yield f"{PAGE.name}: otm {shlex.join(words)}", "" if (text + said).rstrip() == shown.rstrip() else f"status {status}, {text + said!r}"


def main():
    given = [pathlib.Path(word).resolve() for word in sys.argv[1:]]
    programs = given or [path for path in (TOP / "crates" / "otm" / "out" / name for name in BUILDS) if path.is_file()]
    failed = not programs
    if failed:
        print("NO PROGRAM: rt ci, or rt run in crates/otm, makes it")
    failed = failed or told_bytes() != EXAMPLE
    checks.note("the worked example", told_bytes() == EXAMPLE)
    print(f"the worked example: {'as told' if told_bytes() == EXAMPLE else 'OTHER BYTES'}")
    for program in programs:
        with tempfile.TemporaryDirectory() as folder, tempfile.TemporaryDirectory() as room:
            folder, room = pathlib.Path(folder), pathlib.Path(room)
            for name, content in FILES.items():
                (folder / name).write_bytes(content)
            for name, told in cases(program, folder, room):
                failed = failed or bool(told)
                checks.note(f"{program.name}: {name}", not told)
                print(f"{program.name}: {name}: {'NOT AS TOLD: ' + told if told else 'as told'}")
    return int(failed)


sys.exit(main())
