#!/usr/bin/env python3
"""Malformed scripts and failing streams, and soaks of scripts made from a seed: of all sorts, of exports that come again, and of gossip.

`otm run` must answer each with a bad line, of which its standard error says what is wrong, or as the script says: statuses 0 and
1, and 4 for a stream that failed, never by a signal. What the scripts of a soak must print is told by a plain reading of them
(plain.py), in which a mail carries all that its sender holds. The second soak delivers exports of the same incarnations again and again
(resends.py). Scripts of gossip (gossip.py) have 20,000 events together, among which deltas and Acks are lost, doubled, late and out
of order: this prints how many, and some of each must be there. It ends with a status other than 0 where something is not as told.

    tests/hostile/run.py [--scripts N] [--exports N] [--seed S]     N scripts in the first soak and N exports in the second, made from this seed; it is printed"""
import argparse
import concurrent.futures
import itertools
import os
import pathlib
import random
import re
import subprocess
import sys
import tempfile

sys.dont_write_bytecode = True
sys.path.insert(0, str(pathlib.Path(__file__).resolve().parents[1] / "faults"))
sys.path.append(str(pathlib.Path(__file__).resolve().parents[1] / "gate"))
import checks
import faults
import gossip
import plain
import resends
import scripts

WORKERS = 2
SCRIPTS = 4_000
EXPORTS = 10_000
GOSSIPS = 40
CHUNK = 1_000
LONGEST = 1_048_576
BAD_END = re.compile(rb"(?:\A|\n)(line [0-9]+)\n\Z")
SHARES = {"otm": 1, "otm.by-rattle": 10}

FIRST = (faults.TOP / "examples" / "first.otm").read_bytes()
UUID = b"00000000-0000-0000-0000-000000000001"
HEAD = b"instrument c counter app requests 1\nwriter a shop " + UUID + b" 100\ngateway 1\n"

BAD_FIRST_LINES = [
    b"gateway 01", b"gateway 4294967296", b"gateway  1", b"gateway -0", b"gateway 1 ", b" gateway 1", b"gateway", b"gateway 1 1",
    b"writer A shop " + UUID + b" 100", b"writer abcdefghijklmnopq shop " + UUID + b" 100", b"writer a shop 1 100",
    b"writer a shop " + UUID + b" 18446744073709551616", b"instrument c counter app x", b"instrument c Counter app x 1",
    b"view * * * - * avg", b"view * * * - , default", b"view * * * - * buckets:1,", b"limit -1", b"limit 01", b"collect a 200",
    b"gateway 1\r", b"\r", b"\t", b" ", b"gateway\t1", b"gateway 1\x00", b"\x00", b"\xff\xfe", b"gateway \xc3\xa9", b"x" * 100_000,
    b"x" * (LONGEST - 1), b" " * (LONGEST - 1), b"gateway " + b"1" * 1_000_000, b"\xef\xbb\xbfgateway 1", b"Begin", b"begin begin",
]

# Scripts, and what they print and the status.
SCRIPTS_TOLD = [
    (b"", b"", 0),
    (b"\n" * 100_000, b"", 0),
    (b"\n" * LONGEST, b"", 0),
    (b"\n" * 100_000 + b"x\n", b"line 100001\n", 1),
    (b"#" * (LONGEST - 1) + b"\n", b"", 0),
    (b"#" * LONGEST + b"\n", b"too long\n", 1),
    (b"\x00" * (LONGEST + 1), b"too long\n", 1),
    (b"#\xff\x00\r\x80\n" * 1000, b"", 0),
    (b"#", b"line 1\n", 1),
    (b"\x00" * 1000, b"line 1\n", 1),
    (HEAD.replace(b"\n", b"\r\n"), b"line 1\n", 1),
    (b"gateway 1\nbegin\nconflicts 1\nconfl", b"conflicts 0\nline 4\n", 1),
    (b"gateway 1\ngateway 1\nbegin\n", b"refused: SameGateway(0, 1)\nline 3\n", 1),
    (b"limit 0\nbegin\n", b"refused: BadLimit\nline 2\n", 1),
    (b"instrument c counter app " + b"a" * 1_000_000 + b" 1\nbegin\n", b"refused: BadName(0)\nline 2\n", 1),
    (b"view * * * - * buckets:" + b",".join(b"%d" % n for n in range(100_000)) + b"\nbegin\n", b"refused: BadBounds(0)\nline 2\n", 1),
    (HEAD + b"begin\nmeasure a c 1 " + b",".join([b"k=1"] * 250_000) + b"\ncollect a 200\ndeliver 1 1\nnewest 1 a 100\n", b"newest 200\n", 0),
    (HEAD + b"begin\nmeasure a c 1 " + b",".join(b"k%d=1" % n for n in range(90_000)) + b"\nconflicts 1\n", b"conflicts 0\n", 0),
    (HEAD + b"begin\n" + b"deliver 18446744073709551615 1\nhand 0 1\n", b"refused: NoExport\nrefused: NoMail\n", 0),
]

# Rows of tests/examples that print refusals: of events, and of a `begin`, which is a bad line then.
REFUSING = ("refused-events-change-nothing", "refused-by-second-feed", "times-must-rise", "plan-bad-name", "refusals-and-cut-word")

# A script whose second `hand` is of the mail that the first one answers by, where it does.
ANSWERED = b"gateway 1\ngateway 2\nbegin\nsend 1 2\nhand 1 2\nhand 2 1\n"


def run_program(program, script):
    """What `otm run` does with a script: its status and what it wrote to both streams."""
    ran = subprocess.run([program, "run"], input=script, capture_output=True, timeout=faults.SECONDS, close_fds=False)
    return ran.returncode, ran.stdout, ran.stderr


def is_told(ran, status, text, notes=rb"(?:line [0-9]+: [ -~]{1,300}\n){,100}"):
    """Whether a run wrote this and ended so, and told these notes, and behind them of a bad line what is wrong with it."""
    mark = BAD_END.search(text) if status == 1 else None
    says = re.escape(mark.group(1)) + rb": [ -~]{1,300}\n" if mark else b""
    return ran[:2] == (status, text) and bool(re.fullmatch(notes + says, ran[2]))


def shown(script):
    return repr(script if len(script) < 400 else script[:200] + b" .. " + script[-100:])


def cut_scripts():
    """The first script cut before each byte: nothing is printed but the number of a line that was cut."""
    for length in range(len(FIRST)):
        script = FIRST[:length]
        whole = not script or script.endswith(b"\n")
        yield script, b"" if whole else b"line %d\n" % (script.count(b"\n") + 1), 0 if whole else 1


def malformed(program, pool):
    """Does the scripts of which all is told. The number of them, and what was not as told."""
    rows = [*cut_scripts(), *((line + b"\n", b"line 1\n", 1) for line in BAD_FIRST_LINES), *SCRIPTS_TOLD]
    wrong = []
    for (script, text, status), told in zip(rows, pool.map(lambda row: run_program(program, row[0]), rows)):
        if not is_told(told, status, text):
            wrong.append(f"{shown(script)}: status {told[0]}, {shown(told[1])}, {shown(told[2])}")
    return len(rows), wrong


def streams(library, program):
    """Lets each read and each write of the runs of the examples and of REFUSING fail, in turn: but for the writes of `line N`, behind
    which nothing is done. The number of runs, and what was not as told."""
    runs, wrong = 0, []

    def check(script, wanted, status, front, **said):
        ran = faults.run(library, [program, "run"], script, **said)
        text = {0: b"", 4: b"read failed\n" if "reads" in said else b"write failed\n"}[status]
        fits = wanted.startswith(ran.out) and ran.out != wanted if front else ran.out == wanted
        if ran.status != status or ran.err != text or not fits:
            wrong.append(f"{said}: status {ran.status}, {shown(ran.out)}, {shown(ran.err)}")

    rows = [faults.TOP / "tests" / "examples" / "rows" / f"{name}.otm" for name in REFUSING]
    for script in sorted((faults.TOP / "examples").glob("*.otm")) + rows:
        given, wanted = script.read_bytes(), script.with_suffix(".out").read_bytes()
        mark = BAD_END.search(wanted)
        whole = faults.run(library, [program, "run"], given, short=1)
        if (whole.status, whole.out, whole.writes) != (1 if mark else 0, wanted, len(wanted)):
            wrong.append(f"{script.name}, a byte at a time: status {whole.status}, {shown(whole.out)}")
        writes = mark.start(1) if mark else whole.writes
        for number in range(1, whole.reads + 1):
            check(given, b"", 4, False, reads=f"{number}-", short=1)
        for number in range(1, writes + 1):
            check(given, wanted, 4, True, writes=f"{number}-", short=1)
            check(given, wanted, 4, True, writes=f"{number}-", short=1, error=0)
        runs += 1 + whole.reads + 2 * writes
    return runs, wrong


def closed(program):
    """Streams that are closed, full or no file. The number of runs, and what was not as told."""
    rows = [
        ("<&-", b"read failed\n"), ("< /", b"read failed\n"), (">&-", b"write failed\n"), ("> /dev/full", b"write failed\n"),
    ]
    wrong = []
    for end, text in rows:
        words = ["bash", "-c", f'"$0" run {end}', program]
        ran = subprocess.run(words, input=FIRST, capture_output=True, timeout=faults.SECONDS)
        if (ran.returncode, ran.stdout, ran.stderr) != (4, b"", text):
            wrong.append(f"{end}: status {ran.returncode}, {shown(ran.stdout)}, {shown(ran.stderr)}")
    reader, writer = os.pipe()
    os.close(reader)
    ran = subprocess.run([program, "run"], input=FIRST, stdout=writer, stderr=subprocess.PIPE, timeout=faults.SECONDS)
    os.close(writer)
    if (ran.returncode, ran.stderr) != (4, b"write failed\n"):
        wrong.append(f"a pipe without a reader: status {ran.returncode}, {shown(ran.stderr)}")
    return len(rows) + 1, wrong


def made(count, seed):
    """So many scripts made from a seed."""
    seeds = [path.read_bytes() for path in sorted((faults.TOP / "examples").glob("*.otm"))]
    maker = scripts.Maker(random.Random(seed), seeds)
    for _ in range(count):
        yield maker.script()


def resent(maker, count):
    """Scripts of this maker, until so many exports are delivered in them."""
    while maker.delivered < count:
        yield maker.script()


def soak(programs, all_scripts, pool):
    """Does scripts, a tenth of them by the second build too. How they ended, and what was wrong."""
    answers = run_program(programs[0], ANSWERED)[1] == b""
    ends, wrong, works = {}, [], enumerate(all_scripts)

    def judged(work):
        number, script = work
        text, status, notes = plain.told(script, answers)
        for program in programs:
            if number % SHARES[program.name]:
                continue
            told = run_program(program, script)
            if not is_told(told, status, text, re.escape(notes)):
                return script, told[0], f"{program.name}: status {told[0]}, {shown(told[1])}, {shown(told[2])}, not {shown(text)}, {shown(notes)}"
        return script, status, ""

    while chunk := list(itertools.islice(works, CHUNK)):
        for script, status, told in pool.map(judged, chunk):
            ends[status] = ends.get(status, 0) + 1
            if told:
                wrong.append(f"{told}: {shown(script)}")
    return ends, wrong


def soak_gossip(programs, seed, pool):
    """Does scripts of gossip, made from a seed. What was among their events, and what was wrong."""
    all_scripts, fates = gossip.made(random.Random(seed), GOSSIPS)
    ends, wrong = soak(programs, all_scripts, pool)
    told, few = gossip.told(GOSSIPS, fates)
    return f"{GOSSIPS} scripts from seed {seed}: {ended(ends)}; {told}", wrong + few


def ended(ends):
    return ", ".join(f"{number} with status {status}" for status, number in sorted(ends.items()))


def say(text, wrong):
    """Prints what was done, and what was not as told. Whether something was not."""
    print(text)
    checks.note(text, not wrong)
    for line in wrong[:6]:
        print(f"  NOT AS TOLD: {line}")
    if len(wrong) > 6:
        print(f"  NOT AS TOLD: {len(wrong) - 6} more")
    return bool(wrong)


def main():
    words = argparse.ArgumentParser()
    words.add_argument("--scripts", type=int, default=SCRIPTS)
    words.add_argument("--exports", type=int, default=EXPORTS)
    words.add_argument("--seed", type=int, default=random.SystemRandom().randrange(1 << 32))
    asked = words.parse_args()
    programs = faults.programs("otm")
    if not programs:
        print("NO PROGRAM: rt ci, or rt run in crates/otm, makes it")
        return True
    failed = False
    with tempfile.TemporaryDirectory(prefix="hostile-") as room, concurrent.futures.ThreadPoolExecutor(WORKERS) as pool:
        library = faults.library(room)
        for program in programs:
            count, wrong = malformed(program, pool)
            failed |= say(f"{program.name}: {count} scripts that are malformed, or large", wrong)
            count, wrong = closed(program)
            failed |= say(f"{program.name}: {count} runs with streams that are closed, full or no file", wrong)
        count, wrong = streams(library, programs[0])
        failed |= say(f"{programs[0].name}: {count} runs with reads and writes of one byte, each failing in turn", wrong)
        ends, wrong = soak(programs, made(asked.scripts, asked.seed), pool)
        failed |= say(f"soak: {asked.scripts} scripts from seed {asked.seed}: {ended(ends)}", wrong)
        maker = resends.Resender(random.Random(asked.seed))
        ends, wrong = soak(programs, resent(maker, asked.exports), pool)
        kinds = ", ".join(f"{kind} {number}" for kind, number in maker.kinds.items())
        wrong += [f"no export of the kind {kind}" for kind, number in maker.kinds.items() if not number and asked.exports >= EXPORTS]
        failed |= say(f"soak: {maker.delivered} exports that come again from seed {asked.seed} ({kinds}): {ended(ends)}", wrong)
        text, wrong = soak_gossip(programs, asked.seed, pool)
        failed |= say(f"gossip: {text}", wrong)
    print("hostile: " + ("NOT ALL AS TOLD" if failed else "all as told"))
    return failed


sys.exit(main())
