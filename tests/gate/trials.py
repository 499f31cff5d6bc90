"""Trials of the must-fail edits: many in a check (edits.py), over what the crate's own proof left."""
import concurrent.futures
import os
import pathlib
import re
import shutil
import signal
import subprocess
import tempfile
import time

import edits
from kit import BAD, ONE_JOB, REFUSED, linked, listing, must_fail, patiently, rt, rtlib

# More edits in one check than this would be lost at once where time is over.
MOST_TOGETHER = 40
# What a check over kept work takes of the memory that one from nothing is reckoned to take: 40 edits of attr_kit took 1.6 GB of 1.7.
SHARE = 0.9
FUNCTION = re.compile(r"^fn (\w+)::(\S+?): ", re.M)
ENDED = re.compile(r"^checked (\w+)::(\S+), \d+ of \d+$")
COUNTS = re.compile(r"^only=\d+ proved=\d+$")


def is_over():
    return time.time() >= float(os.environ.get("GATE_UNTIL", "inf"))


def source_of(crate):
    def source(path):
        return pathlib.Path(crate.folder, path).read_text(encoding="utf-8")

    return source


def functions_in(crate, said):
    """The crate's functions that a check told of, as it names them below the crate."""
    return list(dict.fromkeys(name for of, name in FUNCTION.findall(said) if of == crate.name))


def check(crate, texts, only, kept):
    """Checks these functions, or all, of a copy of the crate with these texts in place of its own.

    Gives the status, what was said, and the seconds by the clock that each function's proof took, by its name."""
    with tempfile.TemporaryDirectory(prefix=f"rt-edit-{os.getpid()}-") as room:
        for part in rtlib.PARTS:
            if os.path.isdir(f"{crate.folder}/{part}"):
                shutil.copytree(f"{crate.folder}/{part}", f"{room}/{part}")
        for path, text in texts.items():
            pathlib.Path(room, path).write_text(text, encoding="utf-8")
        flags = [*ONE_JOB, *[word for name in only for word in ("--only", name)], "--progress", "--incremental", kept]
        how = {"cwd": room, "stdin": subprocess.DEVNULL, "stdout": subprocess.PIPE, "stderr": subprocess.STDOUT, "errors": "replace", "text": True}
        lines, took, at = [], {}, time.time()
        with subprocess.Popen([*rtlib.guarded(), rtlib.RATTLE, "check", *crate.words(flags, keeps=False)], **how) as ran:
            for line in ran.stdout:
                lines.append(line.rstrip("\n"))
                ended = ENDED.match(lines[-1])
                if ended:
                    took[ended[2]], at = time.time() - at, time.time()
        return ran.returncode, lines, took


class Trial:
    """The edits of a crate, and what came of each, by its file: (whether it was refused, or None where time was too short; what to say)."""

    def __init__(self, crate, paths, functions):
        self.crate, self.edits, self.functions = crate, [edits.read(it) for it in paths], functions
        self.seed = f"{crate.folder}/out/incremental"
        self.was = listing(self.seed)
        self.rounds, self.single = edits.rounds_of(self.edits, source_of(crate), MOST_TOGETHER)
        self.told, self.took = {}, {}

    def over_seed(self, call):
        """The call's answer, given a copy of its own of the work that the crate's proof left: no check then meets another's wrong bodies."""
        room = tempfile.mkdtemp(prefix="edits-", dir=f"{self.crate.folder}/out")
        try:
            linked(self.seed, f"{room}/kept")
            return call(f"{room}/kept")
        finally:
            shutil.rmtree(room, ignore_errors=True)

    def is_proved(self):
        """Whether the crate without edits is proved over that work, and what its functions are called."""
        status, lines, _ = self.over_seed(lambda kept: check(self.crate, {}, [], kept))
        self.functions = functions_in(self.crate, "\n".join(lines))
        return status == 0

    def try_round(self, texts, members):
        """Tries the edits of a round in one check of the functions that they change; one that it does not tell apart stays untold."""
        if is_over():
            self.told.update({it.path: (None, "") for it in members})
            return
        changed = {it.path: edits.functions_of(it, source_of(self.crate), self.functions) for it in members}
        if not all(changed.values()):
            members = [it for it in members if changed[it.path]]
            texts = edits.texts_of(members, source_of(self.crate))
        only = list(dict.fromkeys(name for it in members for name in changed[it.path]))
        if not only:
            return
        for _ in range(2):
            status, lines, took = self.over_seed(lambda kept: check(self.crate, texts, only, kept))
            if status != -signal.SIGKILL:
                break
        if is_over():
            self.told.update({it.path: (None, "") for it in members})
            return
        is_read = not any(rt.unread(it, texts) for it in lines) and not any(rtlib.STALE.search(it) for it in lines)
        if status != 1 or not COUNTS.match(lines[-1]) or not is_read:
            return
        for edit in members:
            line = edits.refused_in(lines, texts, edit, source_of(self.crate), self.functions)
            if line:
                self.told[edit.path] = True, f"must-fail {self.crate.name}/{edit.name}: refused, as it must be: {line[:160]}"
                self.took[edit.name] = sum(took.get(it, 0) for it in changed[edit.path])

    def try_alone(self, edit):
        """Tries an edit by itself, and from nothing where it is not refused over the seed."""
        for kept in (True, False):
            if is_over():
                self.told[edit.path] = None, ""
                return
            began, one = time.time(), lambda over: must_fail(self.crate, edit.path, over)
            kind, text = self.over_seed(one) if kept else one(None)
            is_refused = kind == REFUSED
            self.told[edit.path] = (None, "") if not is_refused and is_over() else (is_refused, text)
            self.took[edit.name] = time.time() - began
            if is_refused or kind == BAD:
                return

    def untold(self):
        return [it for it in self.edits if it.path not in self.told]

    def is_untouched(self):
        """Whether the seed is as the crate's proof left it; if not, no result that stands on it counts."""
        return listing(self.seed) == self.was

    def left(self):
        """The files of the edits for which there was no time."""
        return [path for path, (is_refused, _) in self.told.items() if is_refused is None]

    def end(self):
        """Tells what came of the edits; gives how many were refused, and the names of those that were not."""
        for path, (_, text) in sorted(self.told.items()):
            if text:
                rt.say(text)
        if not self.is_untouched():
            rt.say(f"{self.crate.name}: a check of edits changed what the proof left, so nothing is known of them: run this again")
            return 0, [f"{self.crate.name}/must-fail"]
        left = len(self.left())
        failed = [f"{self.crate.name}/{os.path.basename(path)}" for path, (it, _) in self.told.items() if it is False]
        rt.say(f"{self.crate.name}: {len(self.told) - left} of {len(self.told)} edits tried" + (f", no time for {left}" if left else ""))
        return len(self.told) - left - len(failed), failed


def side_by_side(tasks):
    """Makes these calls, each given as the memory that it needs and the call: as many at a time as there are processors, and as memory holds.

    The first that fits is made next, so a small one goes past a great one that waits for room."""
    left, running = list(tasks), {}
    lanes, memory = rt.processors(), 0.85 * rt.free()
    with concurrent.futures.ThreadPoolExecutor(lanes) as pool:
        while left or running:
            for task in list(left):
                if len(running) < lanes and (not running or sum(running.values()) + task[0] <= memory):
                    left.remove(task)
                    running[pool.submit(task[1])] = task[0]
            for it in concurrent.futures.wait(running, return_when=concurrent.futures.FIRST_COMPLETED).done:
                del running[it]
                it.result()


def all_edits(trials, keep):
    """Tries the edits of these trials: rounds first, those of the most edits before the others, and then what is tried alone. After each of the two `keep` is called.

    Gives how many were refused, the names of those that were not, and the seconds that each took."""
    refused, failed, took = 0, [], {}
    rounds = [(trial, texts, members) for trial in trials for texts, members in trial.rounds]
    side_by_side([(SHARE * rt.need(it.crate), round_of(it, texts, members)) for it, texts, members in sorted(rounds, key=lambda it: -len(it[2]))])
    keep(trials)
    for trial in trials:
        rt.say(f"{trial.crate.name}: {len(trial.told)} of {len(trial.edits)} edits told by {len(trial.rounds)} rounds")
    side_by_side([(SHARE * rt.need(it.crate), alone(it, edit)) for it in trials for edit in it.untold()])
    keep(trials)
    for trial in trials:
        good, bad = trial.end()
        refused, failed = refused + good, failed + bad
        took.update({f"{trial.crate.name}/{name}": seconds for name, seconds in trial.took.items()})
    return refused, failed, took


def round_of(trial, texts, members):
    return lambda: patiently(trial.crate.name, trial.try_round)(texts, members)


def alone(trial, edit):
    return lambda: patiently(trial.crate.name, trial.try_alone)(edit)
