#!/usr/bin/env python3
"""Each growth refused in turn, and nothing lost.

The proved program `refusals` makes one call a run, and says when the call begins and ends. Between the two each growth is
refused, alone and then with all that follow it: the call must answer the want of memory that is its own, leave all as it was,
and where it is made again answer as it does with ample memory. A call of which nothing was refused, though it takes memory,
fails, and so does one that takes memory though it should not. A few calls are only made, and what they print is compared.

`otm run` is then given the scripts of examples/, and each growth is refused from the first of the process on: it must end with
status 3, `no memory` and before that a front of what the script prints, or do the whole script where that growth was not
needed. The same holds of a script that outgrows the memory that the process may have. `otm fleet` must tell the right totals, or that memory
was wanting, or that the fleet failed, and never other totals.

This ends with a status other than 0 where one of these does not hold, or a program is missing."""
import concurrent.futures
import pathlib
import re
import subprocess
import sys
import tempfile

sys.dont_write_bytecode = True
sys.path.insert(0, str(pathlib.Path(__file__).resolve().parents[1] / "faults"))
sys.path.append(str(pathlib.Path(__file__).resolve().parents[1] / "gate"))
import checks
import faults

WORKERS = 2
KIBIBYTES = 200_000

MADE = ("Err(NoMemory)",)
KEPT = ("Err(NoMemory) | as before",)
REFUSED = ("Err(Refused(NoMemory)) | as before",)
EXPORT = ("Err(ExportRefused) | as before",)
PUSHED = ("Err(NoMemory) | as before", "Err(ExportRefused) | collected")
HANDED_BACK = ("NoMemory | as before",)
NO_MEMORY_TAKEN = ()

# What one schedule replies at one writer of two instruments and one gateway: to recordings at a second writer and a third
# instrument, to deliveries at a second gateway and of a first export, to a merge of the gateway with itself, and to a mail to itself.
REPLIES = "[Refused(NoWriter), Refused(NoInstrument), Refused(NoGateway), Refused(NoExport), Changed(0), Sent(1), Handed(Some(2))]"

FLEET = ("fleet", "--recorders", "3", "--each", "5")
TOTALS = b"gateway 1 total 30\ngateway 2 total 30\n"
FLEET_FAULTS = ((3, re.compile(rb"no memory\n")), (1, re.compile(rb"fleet failed\n|missing gateway [12] writer [01]\n")))

# Calls of which one growth alone may be spared: an arena asks for half of a piece that it is refused, and a list that is
# collected grows as it goes where room for all of it is refused.
SPARING = ("place", "Writer::look_round", "Writer::collect", "Writer::shutdown", "SharedWriter::try_collect", "SharedWriter::collect")
SPARING += ("Periodic::tick", "Periodic::flush", "World::apply, Collect", "World::apply, Shutdown", "replay", "Plan::build", "rollup")
# A take that brings in new keys sets its guesses at places right where there is memory for it, and else leaves them.
SPARING += ("World::apply, Deliver",)

# Where the points of a log's set stand is kept where there is memory for it, and else they are looked up again. So it is of a held set
# at a feed that keeps some keys of it: what is kept is copied to find its point.
SPARING += ("Tally::measure_held, a list of keys", "Recorder::give_to", "Writer::take_in", "SharedWriter::try_take_in", "SharedWriter::take_in")

# How many growths, a call's last, are those of the guesses at places or of the places that are kept: they may be spared alone and with
# all that follow.
GUESSING = {"Gateway::take, a new writer": 1, "SharedGateway::try_take": 1, "SharedGateway::take": 1, "Node::take": 1}
GUESSING |= {"Tally::measure_held, a list of keys": 2, "Writer::take_in": 3, "SharedWriter::try_take_in": 3, "SharedWriter::take_in": 3}

# A log of one recording that is taken in, and one of which nothing was taken in for want of memory.
TAKEN = "Taken { recorded: 1, refused: 0, first: None }"
NONE_TAKEN = "Taken { recorded: 0, refused: 0, first: None }"

# The calls. What each prints with ample memory: the answer, and of a call that changes something what it left and what it
# answers when it is made again; and what a refused growth makes of the first two, each of which must come. The third is then
# the first answer of ample memory.
CALLS = [
    ("AttrSet::from_pairs", "Ok", MADE),
    ("AttrSet::kept", "Ok", MADE),
    ("AttrSet::try_copy", "Ok", MADE),
    ("Export::build", "Ok", MADE),
    ("Export::try_copy", "Ok", MADE),
    ("SharedStream::new", "Ok", MADE),
    ("Key::try_copy", "Ok", MADE),
    ("Cell::try_copy", "Ok", MADE),
    ("Plan::build", "Ok", MADE),
    ("Plan::try_copy", "Ok", MADE),
    ("Tally::new", "Ok", MADE),
    ("Tally::measure, two feeds", "Ok(()) | changed | Ok(())", KEPT),
    ("Tally::measure, one feed", "Ok(()) | changed | Ok(())", KEPT),
    ("Tally::measure, a held set", "Ok(()) | changed | Ok(())", NO_MEMORY_TAKEN),
    ("Tally::restart", "Ok(()) | changed | Ok(())", KEPT),
    ("Tally::try_copy", "Ok", MADE),
    ("Tally::hold", "Ok(0) | changed | Ok(1)", KEPT),
    ("Tally::measure_held, two feeds", "Ok(()) | changed | Ok(())", KEPT),
    ("Tally::measure_held, one feed", "Ok(()) | changed | Ok(())", KEPT),
    ("Tally::measure_held, a list of keys", "Ok(()) | changed | Ok(())", KEPT),
    ("Tally::measure_held, a held set", "Ok(()) | changed | Ok(())", NO_MEMORY_TAKEN),
    ("Tally::measure_held, a set held twice", "Ok(()) | changed | Ok(())", NO_MEMORY_TAKEN),
    ("Recorder::new", "Ok", MADE),
    ("Recorder::measure, a new set", "Ok(()) | changed | Ok(())", KEPT),
    ("Recorder::measure, a noted set", "Ok(()) | changed | Ok(())", NO_MEMORY_TAKEN),
    ("Recorder::measure_held", "Ok(()) | changed | Ok(())", NO_MEMORY_TAKEN),
    ("Recorder::give_to", "true | whole | true", ("false | whole",)),
    ("place", "Ok", MADE),
    ("Round::copy_out", "Ok", MADE),
    ("Writer::start", "Ok", MADE),
    ("Writer::measure", "Ok(()) | changed | Ok(())", REFUSED),
    ("Writer::hold", "Ok(0) | changed | Ok(1)", REFUSED),
    ("Writer::take_in", f"Ok({TAKEN}) | changed | Ok({NONE_TAKEN})", (f"Ok({NONE_TAKEN}) | as before",)),
    ("Writer::look_round", "Ok", MADE),
    ("Writer::collect", "Ok(3) | changed | Err(TimeNotAfter(200))", KEPT),
    ("Writer::shutdown", "Ok(3) | changed | Err(Closed)", KEPT),
    ("Writer::restart", "Ok(()) | changed | Err(StartNotAfter(200))", KEPT),
    ("Writer::try_copy", "Ok", MADE),
    ("SharedWriter::new", '"Ok" | changed', HANDED_BACK),
    ("SharedWriter::try_measure", "Ok(()) | changed | Err(Exhausted)", ("Err(Refused(Refused(NoMemory))) | as before",)),
    ("SharedWriter::measure", "Ok(()) | changed | Err(Exhausted)", ("Err(Refused(Refused(NoMemory))) | as before",)),
    ("SharedWriter::try_hold", "Ok(0) | changed | Err(Exhausted)", ("Err(Refused(Refused(NoMemory))) | as before",)),
    ("SharedWriter::hold", "Ok(0) | changed | Err(Exhausted)", ("Err(Refused(Refused(NoMemory))) | as before",)),
    ("SharedWriter::try_take_in", f"Ok({TAKEN}) | changed | Ok({NONE_TAKEN})", (f"Ok({NONE_TAKEN}) | as before",)),
    ("SharedWriter::take_in", f"Ok({TAKEN}) | changed | Ok({NONE_TAKEN})", (f"Ok({NONE_TAKEN}) | as before",)),
    ("SharedWriter::try_collect", "Ok(3) | changed | Err(Exhausted)", REFUSED),
    ("SharedWriter::collect", "Ok(3) | changed | Err(Exhausted)", REFUSED),
    ("Gateway::take, a new writer", "Ok(3) | changed | Ok(0)", KEPT),
    ("Gateway::take, later points", "Ok(3) | changed | Ok(0)", KEPT),
    ("Gateway::take, no points", "Ok(0) | as before | Ok(0)", NO_MEMORY_TAKEN),
    ("Gateway::merge, a new writer", "Ok(3) | changed | Ok(0)", KEPT),
    ("Gateway::merge, later points", "Ok(3) | changed | Ok(0)", KEPT),
    ("Gateway::merge, an empty one", "Ok(0) | as before | Ok(0)", NO_MEMORY_TAKEN),
    ("Gateway::join_cell", "Ok(true) | changed | Ok(false)", KEPT),
    ("Gateway::try_copy", "Ok", MADE),
    ("SharedGateway::new", '"Ok" | changed', HANDED_BACK),
    ("SharedGateway::try_take", "Ok(3) | changed | Err(Exhausted)", REFUSED),
    ("SharedGateway::take", "Ok(3) | changed | Err(Exhausted)", REFUSED),
    ("SharedGateway::try_take, the last of two", "Ok(3) | changed | Err(Exhausted)", REFUSED),
    ("SharedGateway::try_merge", "Ok(3) | changed | Err(Exhausted)", REFUSED),
    ("SharedGateway::merge", "Ok(3) | changed | Err(Exhausted)", REFUSED),
    ("Node::take", "Ok(3) | changed | Ok(0)", KEPT),
    ("Node::merge", "Ok(3) | changed | Ok(0)", KEPT),
    ("Node::send", "Ok", MADE),
    ("Node::hand", "None | changed | None", ("Some(NoMemory) | as before",)),
    ("Node::hand, an answer", "None | changed | None", ("Some(NoMemory) | as before",)),
    ("rollup", "Ok", MADE),
    ("table", "Ok", MADE),
    ("MemoryExporter::export", "Ok(()) | changed | Ok(())", EXPORT),
    ("ChannelExporter::export", "Ok(()) | changed | Ok(())", EXPORT),
    ("Periodic::measure", "Ok(()) | changed | Ok(())", REFUSED),
    ("Periodic::tick, into memory", "Ok(Exported(3)) | collected | Ok(Exported(3))", PUSHED),
    ("Periodic::tick, into a channel", "Ok(Exported(3)) | collected | Ok(Exported(3))", PUSHED),
    ("Periodic::flush, into memory", "Ok(3) | collected | Ok(3)", PUSHED),
    ("Periodic::flush, into a channel", "Ok(3) | collected | Ok(3)", PUSHED),
    ("World::new", "Ok", MADE),
    ("World::apply, Measure", "Ok(Done) | changed | Ok(Done)", KEPT),
    ("World::apply, Collect", "Ok(Made(2)) | changed | Ok(Refused(TimeNotAfter(300)))", KEPT),
    ("World::apply, Shutdown", "Ok(Made(2)) | changed | Ok(Refused(Closed))", KEPT),
    ("World::apply, Restart", "Ok(Done) | changed | Ok(Refused(StartNotAfter(300)))", KEPT),
    ("World::apply, Deliver", "Ok(Changed(2)) | changed | Ok(Changed(0))", KEPT),
    ("World::apply, Merge", "Ok(Changed(2)) | changed | Ok(Changed(0))", KEPT),
    ("World::apply, Send", "Ok(Sent(2)) | as before | Ok(Sent(3))", KEPT),
    ("World::apply, Hand", "Ok(Handed(Some(2))) | changed | Ok(Handed(Some(3)))", KEPT),
    ("replay", "Ok", tuple(f"Err(NoMemory({done}))" for done in range(4))),
]

# Calls of which no growth is refused here, and what they print: the replies of one schedule, what is wrong with the parts of
# histograms, and texts that no script prints.
PRINTED = [
    ("replay, all replies", REPLIES),
    (
        "Export::build, histograms",
        "None\nSome(CountMismatch(0))\nNone\nSome(BadRange(0))\nSome(BadRange(0))\nSome(BucketCount(0))\nSome(WrongShape(0))",
    ),
    (
        "texts",
        "the key of pair 1 is empty; no memory\npoint 2 has the key of an earlier point\n"
        'Txt { text: "shop" }; Some(ShortText { text: "shop" })\n1',
    ),
]


def told(ran):
    """What a run printed on its one line, or how it ended otherwise."""
    if ran.status or ran.err:
        return f"status {ran.status}: {ran.err.decode(errors='replace')}"
    return ran.out.decode(errors="replace").rstrip("\n")


def call_faults(library, program, call, ample, heads):
    """How many growths of a call were refused in turn, and what was not as it must be."""
    first, *rest = ample.split(" | ")
    lines = [f"{head} | {first}" if len(rest) == 2 else head for head in heads]
    whole = faults.run(library, [program, call], marked=1)
    if told(whole) != ample:
        return 0, [f"with ample memory: {told(whole)}"]
    if bool(whole.growths) != bool(lines):
        return 0, [f"it takes {whole.growths} growths"]
    guesses = max((count for name, count in GUESSING.items() if call.startswith(name)), default=0)
    wrong, came = [], set()
    for number in range(1, whole.growths + 1):
        for refused in (f"{number}-{number}", f"{number}-"):
            line = told(faults.run(library, [program, call], marked=1, growths=refused))
            came.add(line)
            spared = refused == f"{number}-{number}" and call.startswith(SPARING)
            spared |= number > whole.growths - guesses
            if line not in lines and not (spared and line == ample):
                wrong.append(f"growth {refused} of {whole.growths}: {line}")
    wrong += [f"never answered: {line}" for line in lines if line not in came]
    return whole.growths, wrong


def script_faults(library, program, script, wanted):
    """How many growths of a script's run were refused in turn, how many of them were not needed, and what was not as it must be."""
    whole = faults.run(library, [program, "run"], script)
    if (whole.status, whole.out) != (0, wanted):
        return 0, 0, ["with ample memory it is not as told"]
    wrong, spared = [], 0
    for number in range(1, whole.growths + 1):
        for refused in (f"{number}-{number}", f"{number}-"):
            ran = faults.run(library, [program, "run"], script, growths=refused)
            if (ran.status, ran.out) == (0, wanted):
                spared += 1
            elif not is_front(ran, wanted):
                wrong.append(f"growth {refused} of {whole.growths}: status {ran.status}, {ran.out!r}, {ran.err!r}")
    return whole.growths, spared, wrong


def fleet_faults(library, program):
    """The same of a fleet, whose threads make growths in no fixed order: the right totals, or one of its faults."""
    whole = faults.run(library, [program, *FLEET])
    if (whole.status, whole.out) != (0, TOTALS):
        return 0, 0, ["with ample memory it is not as told"]
    wrong, spared = [], 0
    for number in range(1, whole.growths + 1):
        for refused in (f"{number}-{number}", f"{number}-"):
            ran = faults.run(library, [program, *FLEET], growths=refused)
            if (ran.status, ran.out) == (0, TOTALS):
                spared += 1
            elif ran.err or not any(ran.status == status and text.fullmatch(ran.out) for status, text in FLEET_FAULTS):
                wrong.append(f"growth {refused} of {whole.growths}: status {ran.status}, {ran.out!r}, {ran.err!r}")
    return whole.growths, spared, wrong


def is_front(ran, wanted):
    """Whether a run ended for want of memory after a front of what was wanted."""
    front, mark, end = ran.out.rpartition(b"no memory\n")
    return ran.status == 3 and not ran.err and mark and not end and wanted.startswith(front)


def outgrown(program):
    """What is wrong with a script whose exports grow with the square of its length, where memory is short."""
    head = (
        "instrument c counter app requests 1\nwriter a shop 00000000-0000-0000-0000-000000000001 100\ngateway 1\n"
        "limit 1000000\nbegin\n"
    )
    lines = [f"measure a c 1 k={number}\ncollect a {number + 101}\nconflicts 1\n" for number in range(20_000)]
    script = (head + "".join(lines)).encode()
    words = ["sh", "-c", f'ulimit -v {KIBIBYTES} && exec "$0" run', program]
    ran = subprocess.run(words, input=script, capture_output=True, timeout=faults.SECONDS)
    print(f"{program.name}: a script that outgrows {KIBIBYTES} KiB: status {ran.returncode} after {ran.stdout.count(b'0')} answers")
    return [] if is_front(faults.Run(ran.returncode, ran.stdout, ran.stderr, 0, 0, 0, 0), b"conflicts 0\n" * 20_000) else ["NOT AS TOLD"]


def say(name, text, wrong):
    """Prints what came of a call or a script, and whether something is wrong."""
    print(f"{name}: {text}")
    checks.note(name, not wrong)
    for line in wrong[:6]:
        print(f"  NOT AS TOLD: {line}")
    if len(wrong) > 6:
        print(f"  NOT AS TOLD: {len(wrong) - 6} more")
    return bool(wrong)


def refuse_calls(library, pool):
    """Refuses the growths of each call, by each build of the program. Whether something is wrong, and how many were refused."""
    failed, total = False, 0
    for program in faults.programs("refusals"):
        answers = pool.map(lambda row: call_faults(library, program, *row), CALLS)
        for (call, _, lines), (growths, wrong) in zip(CALLS, answers):
            total += growths
            text = f"{growths} growths refused in turn" if lines else "no growth"
            failed |= say(f"{program.name}: {call}", text, wrong)
        for call, wanted in PRINTED:
            printed = told(faults.run(library, [program, call]))
            failed |= say(f"{program.name}: {call}", "printed", [] if printed == wanted else [printed])
    return failed, total


def refuse_scripts(library, pool):
    """The same of the scripts of examples/."""
    failed, total = False, 0
    scripts = sorted((faults.TOP / "examples").glob("*.otm"))
    failed |= not scripts
    for program in faults.programs("otm"):
        work = [(library, program, script.read_bytes(), script.with_suffix(".out").read_bytes()) for script in scripts]
        for script, (growths, spared, wrong) in zip(scripts, pool.map(lambda row: script_faults(*row), work)):
            total += growths
            text = f"{growths} growths refused in turn, {spared} times not needed"
            failed |= say(f"{program.name}: examples/{script.name}", text, wrong)
        growths, spared, wrong = fleet_faults(library, program)
        total += growths
        failed |= say(f"{program.name}: {' '.join(FLEET)}", f"{growths} growths refused in turn, {spared} times not needed", wrong)
        wrong = outgrown(program)
        checks.note(f"{program.name}: a script that outgrows its memory", not wrong)
        failed |= bool(wrong)
    return failed, total


def main():
    if not faults.programs("refusals") or not faults.programs("otm"):
        print("NO PROGRAM: rt ci, or rt run in crates/otm and crates/refusals, makes them")
        return True
    with tempfile.TemporaryDirectory(prefix="refusals-") as room, concurrent.futures.ThreadPoolExecutor(WORKERS) as pool:
        library = faults.library(room)
        calls_failed, in_calls = refuse_calls(library, pool)
        scripts_failed, in_scripts = refuse_scripts(library, pool)
    print(
        f"refusals: {in_calls} growths of {len(CALLS)} calls and {in_scripts} of scripts were refused, alone and with all that follow: "
        + ("NOT ALL AS TOLD" if calls_failed or scripts_failed else "nothing was lost")
    )
    return calls_failed or scripts_failed


sys.exit(main())
