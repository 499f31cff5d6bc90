#!/usr/bin/env python3
"""The merge gate.

    python3 tests/gate/run.py [--anew]          the gate; with --anew it tries each edit, also those that are known, and proves all
    python3 tests/gate/run.py edits [NAME..]    the must-fail edits alone, over what earlier checks of the crates kept
    python3 tests/gate/run.py tests [NAME..]    the proofs of crates' tests alone, likewise

Two tiers, until GATE_MINUTES (165) are over. First, always: every proof of a product crate from nothing and its tests, by the toolchain's own `rt ci` with all
that it refuses; the runners of tests/; and each must-fail edit that the ledger (known.py, known.txt) does not know and that is of the change at hand. One of these
for which there is no time fails. Then, as time allows: the programs that promise nothing (known.LATER) where they or what they run changed, the edits that were
left before, and of the known ones a few that chance picks. Edits are tried over the crates' own proofs, many in one check (edits.py, trials.py).

Not proved are the programs that promise nothing, which are built and run all the same, and tests whose proof the ledger knows, but for a
few that chance picks (unproved.py). The table names both. GATE_WHOLE=1 proves them, as --anew does.

All kinds of runs write what they saw to known.txt. The table of tiers and costs goes to docs/maintain/log/gate.md. The last line is 'N passed, M
failed', with ', K skipped' for what was left. A crate, a check of a runner and an edit count one each; what is known counts as passed."""
import contextlib
import io
import os
import pathlib
import random
import re
import subprocess
import sys
import tempfile
import threading
import time
import types

sys.dont_write_bytecode = True
import checks
import costs
import known
import trials
import unproved
from kit import ONE_JOB, can_try, edits_of, patiently, rt, rtlib, version, what_is_free, whole_gate

HERE = pathlib.Path(__file__).resolve().parent
TOP = HERE.parents[1]
TIMED = [sys.executable, str(HERE / "timed.py")]
BEGAN = time.time()
MINUTES = float(os.environ.get("GATE_MINUTES", "165"))
# What proofs have more than edits have: with the runners of tests/, the last line then still comes in time.
MORE_MINUTES = 8
# What checks take of the memory that the toolchain reckons for each: kit_c 3.4 GB of 10.4, otm_kit 3.3 of 7.3, gateway_kit 2.5 of 7.0. Few take
# more than this share, and those are small (script_kit 2.5 of 3.5). By the whole of it two great crates would leave processors idle.
NEEDS = 0.65
# Known edits that a run tries again all the same, and known proofs of tests that it makes again.
TRIED_AGAIN, PROVED_AGAIN = 10, 2
COUNT = re.compile(r"^(\d+) passed, (\d+) failed$")
FAILED = re.compile(r"^rt: FAILED: (.*)$")


class Crate(rt.Crate):
    """A crate whose proof is kept in a folder of this run, so that its tests and its edits stand on it."""

    # (late are those that the end of the time stopped; of those in spared the tests are not proved)
    proved, functions, late, spared = {}, {}, set(), set()

    def has_tests(self):
        """Whether there are tests to prove."""
        return self.name not in Crate.spared and self.is_tested()

    def is_tested(self):
        return super().has_tests()

    def prove(self, *commands):
        out = self.out
        with tempfile.TemporaryFile("w+", errors="replace") as self.out:
            try:
                status = super().prove(*[self.keeping(it) for it in commands])
                self.out.seek(0)
                said = self.out.read()
            finally:
                self.out = out
        print(said, end="", file=out, flush=True)
        if not any("--test" in it for it in commands):
            Crate.functions[self.name] = trials.functions_in(self, said)
        return status

    def keeping(self, words):
        return [*[it for it in words if it != "--statements"], "--incremental", "out/incremental"]

    def ci(self, flags, tests):
        is_linked = (self.is_program or self.is_static) and not tests
        status = self.ci_of_linked(flags) if is_linked else super().ci(flags, tests)
        Crate.proved[self.name, tests] = not status
        if status and trials.is_over():
            Crate.late.add(self.name)
        return status

    def ci_of_linked(self, flags):
        """Proves a program or a static library into that folder, from which each compiler takes it.

        The toolchain's own way keeps no work for the edits, and makes no archive."""
        words, toolchain = self.words(flags, keeps=False), ["--toolchain", f"{rt.KIT}/toolchain"]
        to, by_llvm = f"out/{self.name}", [*words, *toolchain, "--backend", "llvm", "-o"]
        if self.is_static:
            return self.prove(["build", *by_llvm, f"out/lib{self.name}.a"])
        status = self.prove(["build", *by_llvm, f"{to}.o"]) or self.link(f"{to}.o", to)
        return status or self.compile_by("rattle", [*self.keeping(words), *toolchain], to)


class Passing(io.TextIOBase):
    """Standard output without the toolchain's own count, and the names of what failed, which are kept."""

    def __init__(self, out):
        self.out, self.line, self.count, self.failed, self.guard = out, "", None, [], threading.Lock()

    def write(self, text):
        with self.guard:
            *whole, self.line = (self.line + text).split("\n")
            for line in whole:
                found = COUNT.match(line)
                self.count = (int(found[1]), int(found[2])) if found else self.count
                names = FAILED.match(line)
                self.failed += re.findall(r"\S+(?: \(\w+\))?", names[1]) if names else []
                if not found and not names:
                    print(line, file=self.out, flush=True)
        return len(text)

    def flush(self):
        self.out.flush()

    @property
    def buffer(self):
        return types.SimpleNamespace(write=lambda text: self.write(text.decode(errors="replace")), flush=self.flush)


def tell_runs(ledger):
    """Has the ledger tell what each run of a program, or of a crate's tests, cost."""
    run, drop_to_nobody, here = rt.run, rt.drop_to_nobody, threading.local()

    def run_of(crate, *given):
        here.name = crate.name
        return run(crate, *given)

    def timed_words():
        words = drop_to_nobody()
        return words if words is None else [*TIMED, "--run", here.name, ledger, *words]

    rt.run, rt.drop_to_nobody = run_of, timed_words


def reckon_less():
    """Has the toolchain's gate start as many checks at a time as memory holds by what they take."""
    reckoned = rt.need
    rt.need = lambda crate: NEEDS * reckoned(crate)


def prepare(ledger):
    """Has the toolchain's gate keep its work, tell its costs and leave the edits to this one."""
    os.environ["GATE_LEDGER"] = ledger
    reckon_less()
    guarded = rtlib.guarded
    rtlib.guarded = lambda: [*guarded(), *TIMED]
    tell_runs(ledger)
    # (the folder is new in each run, so nothing in it is taken on trust from an earlier one)
    rtlib.VERDICT = re.compile(rtlib.VERDICT.pattern.replace(r"statements=trusted\n", r"statements=trusted( incremental=trusted)?\n"), re.M)
    rt.Crate = Crate


def after_proofs(tasks):
    """The toolchain's tasks, of which a crate's tests wait for its proof."""
    made = {}
    for (name, kind), (waits, lines, needs, call) in tasks.items():
        made[name, kind] = [*waits, (name, "proof")] if kind == "tests" else waits, lines, needs, patiently(f"{name}: {kind}", call)
    return made


def over_given(tasks, given):
    """These tasks, behind others that are done and gave this."""
    return {
        key: ([it for it in waits if it in tasks], lines, needs, lambda new, jobs, call=call: call({**given, **new}, jobs))
        for key, (waits, lines, needs, call) in tasks.items()
    }


def runners(names, ledger):
    """Runs tests/NAME/run.py of these; gives how many of their checks passed, and the names of those that failed."""
    passed, failed = 0, []
    for name in names:
        sys.stdout.flush()
        with tempfile.NamedTemporaryFile("r", encoding="utf-8", prefix="gate-checks-") as told:
            words = [*TIMED, "--run", f"tests/{name}", ledger, sys.executable, f"tests/{name}/run.py"]
            status = subprocess.run(words, cwd=TOP, stdin=subprocess.DEVNULL, env={**os.environ, checks.FILE: told.name}).returncode
            good, bad = checks.read(told.name)
        # (one that tells no check counts as one, and so does one that fails and tells none that does)
        passed += good or (not status and not bad)
        failed += [f"tests/{name}: {it}" for it in bad] or [f"tests/{name}"] * bool(status)
    return passed, failed


def changed(crate):
    """When the crate changed last, by the repository's history."""
    said = subprocess.run(["git", "log", "-1", "--format=%ct", "--", crate.folder], cwd=TOP, capture_output=True, text=True).stdout.strip()
    return int(said) if said.isdigit() else 0


def until(minutes):
    """Has proofs and edits end so many minutes after the start."""
    os.environ["GATE_UNTIL"] = str(BEGAN + 60 * minutes)


class Gate:
    """One whole run: what it tried, what was known and what it left."""

    def __init__(self, ledger, is_anew):
        rtlib.Crate = Crate
        self.ledger, self.is_anew, self.book, self.every = ledger, is_anew, known.Known(), rtlib.crates_below(str(TOP))
        self.kinds = {(crate.name, path): self.book.kind(crate, path) for crate, path in known.edits_in(self.every)}
        self.later = [it for it in self.every if it.name in known.LATER]
        self.is_whole = is_anew or os.environ.get("GATE_WHOLE", "") not in ("", "0") or not can_try()
        self.spared = [] if self.is_whole else [it for it in self.later if self.is_known(it)]
        self.known_tests, self.tested = self.tests_known(), {}
        Crate.spared = {it.name for it in self.known_tests}
        self.passed, self.failed, self.skipped, self.tiers, self.stages, self.took = 0, [], [], [], [], {}
        self.listed, self.left, self.unproved, self.at = None, [], [], time.time()

    def is_known(self, program):
        """Whether a run saw the program proved, and each of its edits refused, as they are."""
        return self.book.has_program(program, self.every) and not self.edits_of([program], known.BEFORE, known.CHANGED)

    def tests_known(self):
        """The crates whose tests are run without a proof of their own, since the ledger knows it: all such but for a few."""
        found = [] if self.is_whole else [it for it in self.every if it not in self.later and it.is_tested() and self.book.has_tests(it)]
        again = random.SystemRandom().sample(found, min(PROVED_AGAIN, len(found)))
        return [it for it in found if it not in again]

    def edits_of(self, crates, *kinds):
        return [it for it in known.edits_in(crates) if self.kinds[it[0].name, it[1]] in kinds]

    def proved(self):
        return [it for it in self.every if Crate.proved.get((it.name, False)) and Crate.proved.get((it.name, True), True)]

    def stage(self, name):
        self.stages.append((name, time.time() - self.at))
        self.at = time.time()

    def tier(self, name, passed, failed, spared=0, left=()):
        """Counts what came of one sort of work: what passed, what failed, how much was known, and what there was no time for."""
        self.passed, self.failed, self.skipped = self.passed + passed + spared, self.failed + failed, [*self.skipped, *left]
        self.tiers.append((name, passed, len(failed), spared, len(left)))

    def try_edits(self, pairs):
        """Tries these edits, those of crates that changed most lately first; gives how many were refused, which were not, and which were left."""
        until(MINUTES)
        order = sorted(dict.fromkeys(crate for crate, _ in pairs), key=lambda it: -changed(it))
        tried = [trials.Trial(it, [path for of, path in pairs if of is it], Crate.functions[it.name]) for it in order]
        refused, failed, took = trials.all_edits(tried, lambda trials: note(self.book, trials, self.every))
        self.took.update(took)
        return refused, failed, [known.name_of(it.crate, path) for it in tried for path in it.left()]

    def hooked(self):
        """Has the toolchain's gate prove the product crates first, and the programs that promise nothing behind what each run must do."""
        crates_of, in_lanes = rt.crates_of, rt.in_lanes

        def listed(root):
            self.listed = crates_of(root)
            return self.listed

        def in_tiers(tasks):
            tasks = after_proofs(tasks)
            later = {it.name for it in self.later} if self.listed is not None else set()
            given = in_lanes({key: task for key, task in tasks.items() if key[0] not in later})
            self.note_tests()
            self.stage("proofs and tests")
            if all(given.values()):
                self.first()
            until(MINUTES)
            asked = {it.name for it in self.later if it not in self.spared} & later
            proved = asked if self.is_whole else set()
            if all(given.values()) and not trials.is_over():
                given |= in_lanes(over_given({key: task for key, task in tasks.items() if key[0] in proved}, given))
                self.without_proof([it for it in self.later if it.name in asked - proved])
            self.left = sorted(it for it in asked if not self.is_built(it, given))
            # (of these the toolchain neither counts nor runs anything)
            for crate in [it for it in self.listed or [] if it.name in later and it.name not in proved - {*self.left}]:
                self.listed.remove(crate)
            self.stage("programs that promise nothing")
            until(MINUTES + MORE_MINUTES)
            return given

        # (the toolchain finds no edits, which are tried here)
        rt.crates_of, rt.in_lanes, rt.edits_of = listed, in_tiers, lambda crate: ([], [])

    def is_built(self, name, given):
        """Whether there was time to prove a program that promises nothing, or to build it without a proof, whatever came of it."""
        return name in self.unproved or (name, "proof") in given and name not in Crate.late

    def without_proof(self, programs):
        """Builds these without a proof, and runs each and its tests. What the end of the time stopped is left."""
        built = {}

        def build(crate):
            came = not trials.is_over() and unproved.build_program(crate, self.every)
            built[crate.name] = True if came else None if trials.is_over() else False

        trials.side_by_side([(unproved.MEMORY, lambda it=it: patiently(it.name, build)(it)) for it in programs])
        self.unproved = [it for it in built if built[it] is not None]
        done = [it for it in programs if it.name in self.unproved]
        passed = [it for it in done if built[it.name] and rt.run(it, False) and (not it.is_tested() or unproved.run_tests(it))]
        failed = [f"{it.name} (built without a proof)" for it in done if it not in passed]
        self.tier("programs that promise nothing, built without a proof", len(passed), failed)

    def note_tests(self):
        """Notes in the ledger which crates' tests were proved in this run, and which were not."""
        for crate in self.every:
            told = Crate.proved.get((crate.name, True))
            if told or told is False and crate.name not in Crate.late:
                self.book.note_tests(crate, told)
        self.book.write(self.every)

    def tests_alone(self):
        """Runs the tests whose proof the ledger knows: each must pass in time."""

        def run(crate):
            self.tested[crate.name] = not trials.is_over() and unproved.run_tests(crate)

        trials.side_by_side([(unproved.MEMORY, lambda it=it: patiently(f"{it.name}: its tests", run)(it)) for it in self.known_tests])
        failed = [f"{it.name} (tests)" for it in self.known_tests if not self.tested[it.name]]
        self.tier("tests whose proof is known, run without it", len(self.tested) - len(failed), failed)
        self.stage("tests without their proofs")

    def first(self):
        """What each run does once the product crates are proved: tests without their proofs, the runners, and the edits of the change."""
        self.tests_alone()
        behind = {folders[0] for folders, _ in known.LATER.values() if folders} if self.listed is not None else set()
        names = sorted(it.parent.name for it in TOP.glob("tests/*/run.py") if it.parent != HERE)
        self.tier("runners of tests/", *runners([it for it in names if it not in behind], self.ledger))
        self.stage("runners of tests/")
        refused, failed, left = self.try_edits([it for it in self.edits_of(self.proved(), known.CHANGED) if it[0] not in self.later])
        if left:
            rt.say(f"NO TIME for {len(left)} edits of this change. `python3 tests/gate/run.py edits NAME..` tries them in a clone; commit its known.txt")
        self.tier("edits of this change", refused, failed + left)
        self.stage("edits of this change")

    def rest(self):
        """What time allows, once all is proved: the runners of the later programs, the edits that were left before, and known ones by chance."""
        for crate in self.later:
            for name in [it for it in known.LATER[crate.name][0][:1] if self.listed is not None]:
                is_there = crate.name not in self.left and crate not in self.spared
                ran = runners([name], self.ledger) if is_there else (0, [])
                self.tier(f"the runner tests/{name}", *ran, int(crate in self.spared), [f"tests/{name}"] if crate.name in self.left else [])
        self.tier("programs that promise nothing", 0, [], len(self.spared), self.left)
        waiting = self.edits_of(self.every, known.BEFORE) + self.edits_of(self.later, known.CHANGED)
        refused, failed, left = self.try_edits([it for it in waiting if it[0] in self.proved()])
        left += [known.name_of(*it) for it in waiting if it[0] not in self.proved()]
        self.tier("edits left before", refused, failed, 0, left)
        told = self.edits_of(self.every, known.KNOWN)
        here = [it for it in told if it[0] in self.proved()]
        again = here if self.is_anew else random.SystemRandom().sample(here, min(TRIED_AGAIN, len(here)))
        refused, failed, left = self.try_edits(again)
        self.tier("known edits, some tried again by chance", refused, failed, len(told) - len(again) + len(left))
        self.stage("other edits")

    def run(self, from_nothing):
        """The gate, once what earlier runs left is set aside."""
        out = Passing(sys.stdout)
        self.hooked()
        until(MINUTES + MORE_MINUTES)
        with contextlib.redirect_stdout(out):
            status = from_nothing()
        passed, lost = out.count or (0, 1)
        # (a name for each that failed, or more, so that none is counted as passed)
        failed = out.failed + ["rt ci"] * (max(lost, status != 0) - len(out.failed))
        self.tier("crates, their tests and programs", passed, failed)
        self.tiers.insert(0, self.tiers.pop())
        self.stage("runs of tests and programs")
        if self.failed and trials.is_over():
            rt.say(f"NO TIME: {MINUTES + MORE_MINUTES:.0f} minutes were over before all was proved")
        misplaced = [os.path.relpath(path, TOP) for it in self.every for path in edits_of(it)[1]]
        self.tier("files of must-fail/ that are no edit", 0, misplaced)
        if not self.failed:
            self.rest()
        if not self.failed:
            for crate in self.later:
                if crate.name not in self.left and crate not in self.spared and crate.name not in self.unproved:
                    self.book.note_program(crate, self.every)
        self.book.write(self.every)
        for crate in self.later:
            if crate.name in self.unproved:
                unproved.clear(crate)
        self.tell()
        return ended(self.passed, self.failed, len(self.skipped))

    def tell(self):
        """Writes the table of what was tried, known and left, and of what it cost."""
        self.stages.append(("all", time.time() - BEGAN))
        count = f"{self.passed} passed, {len(self.failed)} failed, {len(self.skipped)} left"
        head = [f"Written by `tests/gate/run.py`: {count}, on {rt.processors()} processors, {version()}.", "", *self.not_proved()]
        page = costs.table(self.ledger, head, self.tiers, self.stages, self.took)
        (TOP / "docs" / "maintain" / "log").mkdir(parents=True, exist_ok=True)
        (TOP / "docs" / "maintain" / "log" / "gate.md").write_text(page, encoding="utf-8")
        print(page)
        rt.say("minutes by the clock: " + ", ".join(f"{name} {seconds / 60:.1f}" for name, seconds in self.stages))
        rt.say(" ".join(self.not_proved()))
        if self.skipped:
            rt.say(f"left, {'for want of time' if self.is_whole else 'for want of time or of a proof'}: {' '.join(self.skipped)}")

    def not_proved(self):
        """What this run did not prove, as sentences."""
        alone, spared = " ".join(self.tested), " ".join(it.name for it in self.spared)
        told = [f"Built without a proof, and run: {' '.join(self.unproved)}."] * bool(self.unproved)
        told += [f"Proved by an earlier run, and neither built nor run: {spared}."] * bool(spared)
        told += [f"Tests run without their proof, which an earlier run made of the same texts: {alone}."] * bool(alone)
        return told or ["Nothing was built or run without its proof."]


def note(book, tried, every):
    """Writes what came of these trials to the ledger."""
    for trial in tried:
        for path, (is_refused, _) in trial.told.items() if trial.is_untouched() else ():
            if is_refused is not None:
                book.note(trial.crate, path, is_refused)
    book.write(every)


def ended(passed, failed, left):
    """Says what failed, and the last line; gives the status."""
    for it in failed:
        rt.say(f"FAILED: {it}")
    print(f"{passed} passed, {len(failed)} failed" + (f", {left} skipped" if left else ""), flush=True)
    return 1 if failed else 0


def edits_alone(names, is_anew):
    """The edits of these crates, or all, over what earlier checks kept: those that are not known, or with is_anew each."""
    rtlib.Crate, book = Crate, known.Known()
    begun, every, spared = [], rtlib.crates_below(str(TOP)), 0
    for crate in every:
        paths, misplaced = edits_of(crate)
        if names and crate.name not in names or not paths + misplaced:
            continue
        waiting = [it for it in paths if is_anew or book.kind(crate, it) != known.KNOWN]
        spared += len(paths) - len(waiting)
        if not waiting + misplaced:
            continue
        if any(dep.build_rlib(ONE_JOB, anew=False) for dep in crate.below()):
            return ended(0, [crate.name], 0)
        if misplaced or not os.path.isdir(f"{crate.folder}/out/incremental"):
            rt.say(f"{crate.name}: each edit stands right in must-fail/ and ends in .edit, and rt check is to prove the crate first")
            return ended(0, [crate.name], 0)
        begun.append(trials.Trial(crate, waiting, []))
        if not begun[-1].is_proved():
            rt.say(f"{crate.name}: it is not proved over what was kept: rt check tells why")
            return ended(0, [crate.name], 0)
    refused, failed, took = trials.all_edits(begun, lambda trials: note(book, trials, every))
    for name, seconds in sorted(took.items(), key=lambda it: -it[1]):
        print(f"{seconds:6.1f} {name}")
    if spared:
        print(f"{spared} of these were known; with --anew they are tried too")
    return ended(refused + spared, failed, sum(len(it.left()) for it in begun))


def tests_alone(names, is_anew):
    """The proofs of these crates' tests, or of all, over what earlier checks kept: those that are not known, or with is_anew each."""
    rtlib.Crate, Crate.allowed, book, failed = Crate, rt.handles_of(str(TOP)), known.Known(), []
    every = rtlib.crates_below(str(TOP))
    asked = [it for it in every if it.is_tested() and it.name not in known.LATER and (not names or it.name in names)]
    waiting = [it for it in asked if is_anew or not book.has_tests(it)]
    for crate in waiting:
        was, is_proved = known.ground_of_tests(crate, book.toolchain), proves_tests(crate)
        failed += [f"{crate.name} (tests)"] * (not is_proved)
        # (a text that changed meanwhile is not the one that was proved)
        book.note_tests(crate, is_proved and was == known.ground_of_tests(crate, book.toolchain))
        book.write(every)
        rt.say(f"{crate.name}: its tests are {'proved' if is_proved else 'NOT PROVED'}")
    if len(waiting) < len(asked):
        print(f"{len(asked) - len(waiting)} of these were known; with --anew they are proved too")
    return ended(len(asked) - len(failed), failed, 0)


def proves_tests(crate):
    """Whether the tests of a crate are proved over what earlier checks kept, as the gate proves them over the crate's own proof."""
    is_below = not any(dep.build_rlib(ONE_JOB, anew=False) for dep in crate.below())
    return is_below and not crate.prove(["check", *crate.words(ONE_JOB, tests=True, keeps=False)])


def main(words):
    is_anew, words = "--anew" in words, [it for it in words if it != "--anew"]
    if words and words[0] not in ("edits", "tests"):
        print(__doc__)
        return 0 if words[0] in ("-h", "--help") else 2
    os.chdir(TOP)
    with tempfile.TemporaryDirectory(prefix="gate-") as room:
        ledger = f"{room}/ledger"
        pathlib.Path(ledger).touch()
        prepare(ledger)
        rtlib.guarded()
        if words:
            lacking = {*words[1:]} - {it.name for it in rtlib.crates_below(str(TOP))}
            if lacking:
                return ended(0, [f"crates.txt names no {it}" for it in sorted(lacking)], 0)
            return (edits_alone if words[0] == "edits" else tests_alone)(words[1:], is_anew)
        print(f"free: {what_is_free()}", flush=True)
        try:
            gate = Gate(ledger, is_anew)
        except SystemExit:
            return ended(0, ["crates.txt"], 0) + 1
        return whole_gate(gate.run)


if __name__ == "__main__":
    sys.exit(main(sys.argv[1:]))
