#!/usr/bin/env python3
"""Schedules of archives and keepers beside a plain reading of docs/use/ARCHIVES.md, and a soak whose memory is measured.

The proved program `archivists` plays schedules that are made from a seed (schedules.py), with zombies, exports that come again and late, keepers that
are parted, messages that are lost, doubled and late, and two archivists of two services, of disjoint incarnations, or careless ones.
Each answer must be what the plain reading (plain.py) tells: what a keeper takes, merges, sends and shows, and each refusal. The
schedules check besides that a delta shows what all of its sender would have shown, and that at the end each incarnation counts once: by
its adopted collection, or by its newest one. Where workers end before they are adopted, no row of a page falls.

In the soak incarnations come and go at one keeper, and an archive adopts each. The resident memory is read while it runs, and must stay
under LEAST and what a tombstone costs. Bad lines must end with status 2.

    tests/archives/run.py [--seed S] [--schedules N] [--events N] [--soak INCARNATIONS] [PROGRAM..]

This ends with a status other than 0 where something is not as told, or where there is no program."""
import argparse
import collections
import pathlib
import random
import re
import subprocess
import sys
import time

sys.dont_write_bytecode = True
sys.path.append(str(pathlib.Path(__file__).resolve().parents[1] / "gate"))
import careless
import checks
import schedules

TOP = pathlib.Path(__file__).resolve().parents[2]
BUILDS = ("archivists", "archivists.by-rattle")
SECONDS = 120
SCHEDULES, EVENTS = 30, 400
SEED = 1

# The soak: so many incarnations of so many sums, and an export after so many adoptions.
INCARNATIONS, POINTS, EVERY = 30_000, 500, 20
# What the process may have resident without any tombstone, and what one may cost, in bytes.
LEAST, TOMBSTONE = 8 << 20, 780

# Lines that are none, each behind good ones.
BAD = [
    b"x", b"show", b"show 3", b"show 0", b"show -1", b"show one", b"show 1 2", b"keepers 4294967296", b"take 1 shop/1 1 2", b"take 1 shop 1 2 3",
    b"take 1 shop/1 1 2 3 4 5", b"take 1 shop/1 1 2 9223372036854775807 2", b"take 3 shop/1 1 2 3", b"archive 3 shop/9 1 1", b"archive 1 shop/9 1 1",
    b"adopt 2 1 shop/1 1", b"adopt 1 3 shop/1 1", b"export 2 5", b"seal 2 5", b"give 1 1", b"merge 1 3", b"merge 3 1", b"send 1 3", b"send 3 1",
    b"hand 1", b"same 1 3", b"same 3 1", b"page 3", b"points 3", b"soak 1 0 1", b"soak 1 1", b" show 1", b"show 1 ", b"show  1", b"\xff",
]
GOOD = b"keepers 2\n\n# two keepers\narchive 1 shop/9 1 1\n"


def run_program(program, script):
    return subprocess.run([program], input=script, capture_output=True, timeout=SECONDS)


def paired(wanted, lines):
    """Each answer that is wanted, with what was printed: a line, or the lines up to an empty one."""
    lines = iter(lines)
    for number, line, answer in wanted:
        if isinstance(answer, str):
            yield number, line, answer, next(lines, None)
            continue
        found = []
        while (text := next(lines, "")) != "":
            found.append(text)
        if line.startswith("page"):
            found = [line for line in found if line.startswith("requests_total{")]
        yield number, line, answer, set(found)
        if len(found) != len(set(found)):
            yield number, line, "each line once", found
    for text in lines:
        yield 0, "nothing more", None, text


def differs(program, lines, answers):
    """Where a program answers lines otherwise than told."""
    ran = run_program(program, "".join(f"{line}\n" for line in lines).encode())
    for number, line, wanted, found in paired(answers, ran.stdout.decode().splitlines()):
        if wanted != found:
            more = f"wanted {wanted!r}, found {found!r}" if isinstance(wanted, str) else f"too few {sorted(wanted - found)}, too many {sorted(found - wanted)}"
            return [f"line {number}, {line}: {more}"]
    return [] if (ran.returncode, ran.stderr) == (0, b"") else [f"status {ran.returncode}, and on the standard error {ran.stderr!r}"]


def made(seed, count, events):
    """So many schedules of about so many events: each is played by the plain reading as it is made."""
    for number in range(count):
        kind = schedules.KINDS[number % len(schedules.KINDS)]
        chance = random.Random(f"{seed} {number}")
        yield number, kind, schedules.Schedule(chance, kind, kind != "careless" and number % 2 == 0)


def play(programs, seed, count, events):
    """Plays schedules; what was wrong, and counts."""
    wrong, counts = [], collections.Counter()
    for number, kind, schedule in made(seed, count, events):
        try:
            schedule.play(events)
        except AssertionError as fault:
            wrong.append(f"schedule {number} ({kind}): the plain reading: {fault}")
            continue
        counts.update(schedule.counts)
        for program in programs:
            wrong += [f"{program.name}, schedule {number} ({kind}): {fault}" for fault in differs(program, schedule.lines, schedule.answers)]
    return wrong, counts


def scripts(program):
    """What was wrong with scripts of careless archivists."""
    for name, script in careless.SCRIPTS.items():
        for fault in differs(program, *careless.read(script)):
            yield f"{program.name}: {name}: {fault}"


def bad_lines(program):
    """What was wrong with how bad lines end."""
    for line in BAD:
        ran = run_program(program, GOOD + line + b"\nshow 1\n")
        ended = re.fullmatch(rb"line 5: [ -~]+\n", ran.stderr) if line != b"\xff" else ran.stderr
        if ran.returncode != (2 if line != b"\xff" else 4) or ran.stdout or not ended:
            yield f"{program.name}: the bad line {line!r}: status {ran.returncode}, wrote {ran.stdout!r}, and on the standard error {ran.stderr!r}"


def resident(process):
    """What a process has resident, in bytes."""
    try:
        found = re.search(r"VmRSS:\s+(\d+) kB", pathlib.Path(f"/proc/{process.pid}/status").read_text())
    except OSError:
        return 0
    return int(found[1]) << 10 if found else 0


def soaked(program, incarnations):
    """Lets incarnations come and go. What is told, what was resident as it ran, and how long it took."""
    began, most = time.monotonic(), []
    with subprocess.Popen([program], stdin=subprocess.PIPE, stdout=subprocess.PIPE, text=True) as process:
        process.stdin.write(f"soak {incarnations} {POINTS} {EVERY}\n")
        process.stdin.close()
        while process.poll() is None:
            most.append(resident(process))
            time.sleep(0.02)
        told = process.stdout.read()
    return told, most, time.monotonic() - began


def soak(program, incarnations):
    """What was wrong with a soak."""
    told, most, took = soaked(program, incarnations)
    found = re.fullmatch(r"points (\d+) incarnations (\d+) total (\d+) conflicts 0\n", told)
    points, archives, total = map(int, found.groups()) if found else (0, 0, 0)
    wanted = incarnations * sum(range(1, POINTS + 1))
    bound = LEAST + incarnations * TOMBSTONE
    peak, middle = max(most), most[len(most) // 2]
    print(f"{program.name}: {incarnations} incarnations of {POINTS} points came and went in {took:.1f} s: at the end {points} points, in {archives} incarnations "
          f"of the archive. At most {peak / 1e6:.1f} MB were resident, after half of the time {middle / 1e6:.1f}: "
          f"{peak / max(1, incarnations):.0f} bytes an incarnation, all told; {bound / 1e6:.0f} MB are allowed")
    if (points, total) != (incarnations + archives * POINTS, wanted):
        yield f"{program.name}: the soak told {told!r}"
    if peak > bound:
        yield f"{program.name}: the soak had {peak} bytes resident, more than {bound}"


def lacking(counts):
    """What schedules should have had, and have not."""
    wanted = ["adopted", "late", "zombies", "sealed", "partitions", "lost messages", "doubled messages", "late messages", "pages", "same"]
    wanted += [f"adopt: {name}" for name in ("OtherService", "IsArchive", "Adopted", "Nothing", "Conflict", "Torn", "OutOfRange", "SetLimit")]
    wanted += ["seal: StartNotLater", "seal: Unexported", "export: TimeNotLater", "take: TimeNotAfterStart", "take: NegativeTotal"]
    return [f"no schedule has any of: {name}" for name in wanted if not counts[name]]


def main():
    words = argparse.ArgumentParser()
    words.add_argument("--seed", type=int, default=SEED)
    words.add_argument("--schedules", type=int, default=SCHEDULES)
    words.add_argument("--events", type=int, default=EVENTS)
    words.add_argument("--soak", type=int, default=INCARNATIONS)
    words.add_argument("programs", nargs="*", type=pathlib.Path)
    asked = words.parse_args()
    programs = [path.resolve() for path in asked.programs] or [path for path in (TOP / "crates" / "archivists" / "out" / name for name in BUILDS) if path.is_file()]
    if not programs:
        print("NO PROGRAM: rt ci, or rt run in crates/archivists, makes it")
        return True
    began = time.monotonic()
    wrong, counts = play(programs, asked.seed, asked.schedules, asked.events)
    if asked.schedules >= SCHEDULES and asked.events >= EVENTS:
        wrong += lacking(counts)
    told = ", ".join(f"{name} {number}" for name, number in sorted(counts.items()))
    print(f"{asked.schedules} schedules from seed {asked.seed}, in {time.monotonic() - began:.1f} s: {told}")
    for program in programs:
        wrong += scripts(program)
        wrong += bad_lines(program)
    if asked.soak:
        wrong += soak(programs[0], asked.soak)
    tried = asked.schedules + (len(careless.SCRIPTS) + len(BAD)) * len(programs) + bool(asked.soak)
    checks.note_all("schedules, scripts, bad lines and a soak", tried, wrong)
    for line in wrong[:8]:
        print(f"  NOT AS TOLD: {line}")
    print("archives: " + (f"{len(wrong)} NOT AS TOLD" if wrong else "all as told"))
    return bool(wrong)


if __name__ == "__main__":
    sys.exit(main())
