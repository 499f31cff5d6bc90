#!/usr/bin/env python3
"""The tables of docs/maintain/PERFORMANCE.md, as the built program measures them.

    python3 crates/kit_bench/tables.py [RUNS] [PART..]    each part that many times (1), all parts where none is named

`rt run` in crates/kit_bench builds the program first. A cell is the least of the runs and, in parentheses, their median."""
import pathlib
import re
import statistics
import subprocess
import sys

PROGRAM = pathlib.Path(__file__).resolve().parent / "out" / "kit_bench"
LINE = re.compile(r"^(.*), (\d+): ([\d.]+) ns each$")
HOLDERS = {"hold-gateway": "a gateway", "hold-tree": "`BTreeMap` of the kit's sets to cells", "hold-map": "`HashMap` of the same",
           "hold-incarnations": "a node of incarnations", "hold-keys": "`BTreeMap` of keys to cells by hand, of incarnations"}
# Those of so many points each; the others hold points of a few incarnations.
OF = {"hold-incarnations": (1, 10, 100), "hold-keys": (1, 10, 100)}
POINTS = 1_000_000


def lines_of(part, runs):
    """Each line that is told, under what was said before it, with what each run measured."""
    found = {}
    for run in range(runs):
        told = subprocess.run([PROGRAM, "full", part], stderr=subprocess.PIPE, text=True, check=True)
        above, seen = "", {}
        for line in told.stderr.splitlines():
            match = LINE.match(line)
            if not match:
                above = line
                continue
            what, count, each = match[1], int(match[2]), float(match[3])
            # A line that comes again, as that of one key does, is one of another size.
            place = seen[above, what, count] = seen.get((above, what, count), 0) + 1
            found.setdefault((above, what, count, place), []).append(each)
    return found


def cell(values):
    def number(it):
        return f"{it:.1f}" if it < 20 else f"{it:,.0f}"

    return f"{number(min(values))} ({number(statistics.median(values))})"


def tell(part, runs):
    print(f"\n## {part}\n\n| | | each of | nanoseconds |\n|---|---|---|---|")
    for (above, what, count, _), values in lines_of(part, runs).items():
        print(f"| {above} | {what} | {count:,} | {cell(values)} |")


def peak(*words):
    """The greatest resident size of a run, in bytes."""
    timed = subprocess.run(["/usr/bin/time", "-f", "%M", PROGRAM, *words], stderr=subprocess.PIPE, text=True, check=True)
    return int(timed.stderr.split()[-1]) * 1024


def tell_held():
    print("\n## held\n\n| Held by | Bytes a point |\n|---|---|")
    for word, name in HOLDERS.items():
        for points in OF.get(word, [1]):
            each = (peak(word, str(POINTS // points), str(points)) - peak(word, "0")) / POINTS
            print(f"| {name}{f' of {points}' * (word in OF)} | {each:.0f} |")


PARTS = ["turns", "recordings", "held-points", "threads", "fleets", "gateways", "gossip", "bytes", "rounds", "rollups", "pages", "incarnations", "held"]


def main(words):
    runs = int(words.pop(0)) if words and words[0].isdigit() else 1
    for part in words or PARTS:
        if part == "held":
            tell_held()
        else:
            tell(part, runs)


if __name__ == "__main__":
    main(sys.argv[1:])
