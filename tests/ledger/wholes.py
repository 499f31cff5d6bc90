"""What whole runs of the gate come to, where nothing is proved: the toolchain, builds and edits answer at once what a row says."""
import contextlib
import io
import os
import pathlib
from unittest import mock

import known
import run as gate

HEAD = f"import sys\nsys.dont_write_bytecode = True\nsys.path.append({str(pathlib.Path(gate.__file__).parent)!r})\nimport checks\n"
GOOD, BAD = "checks.note('a', True)\nchecks.note('b', True)\n", "checks.note('a', True)\nchecks.note('b', False)\n"
EDIT = "it_is_the_same.edit"
# What is wrong in a run, the count and the names of what fails, and what is left. In each there are two crates, of whose tests the ledger knows those of
# `high`, and a program that promises nothing; each has an edit that it does not know. The runner has two checks.
ROWS = {
    "all is well": ({}, "8 passed, 0 failed, 1 skipped", []),
    "a proof fails": ({"unproved": ["low"]}, "1 passed, 1 failed", ["low"]),
    "known tests fail": ({"tests": ["high"]}, "7 passed, 1 failed", ["high (tests)"]),
    "a check of a runner fails": ({"runner": BAD}, "7 passed, 1 failed", ["tests/docs: b"]),
    "an edit is not refused": ({"edits": ["low"]}, "7 passed, 1 failed", [f"low/{EDIT}"]),
    "an edit has no time": ({"untried": ["high"]}, "7 passed, 1 failed", [f"high/{EDIT}"]),
    "a program is not built": ({"builds": ["kit_bench"]}, "7 passed, 1 failed", ["kit_bench (built without a proof)"]),
    "a program writes something else": ({"runs": ["kit_bench"]}, "7 passed, 1 failed", ["kit_bench (built without a proof)"]),
    "much is wrong": ({"tests": ["high"], "runner": BAD, "edits": ["low"], "runs": ["kit_bench"]}, "4 passed, 4 failed",
                      ["high (tests)", "tests/docs: b", f"low/{EDIT}", "kit_bench (built without a proof)"]),
    "all is proved": ({"GATE_WHOLE": "1"}, "8 passed, 0 failed", []),
    "all is proved, and a program is not": ({"GATE_WHOLE": "1", "unproved": ["kit_bench"]}, "6 passed, 1 failed", ["kit_bench"]),
}


class Toolchain:
    """The toolchain's own gate, and all that is built and tried beside it, for one row."""

    def __init__(self, crates, row):
        self.crates, self.row = crates, row

    def is_well(self, what, crate):
        return crate.name not in self.row.get(what, ())

    def tasks(self):
        """A proof, and the proof of tests, of each crate."""
        made = {}
        for crate in self.crates:
            made[crate.name, "proof"] = [], 1, 1, lambda given, jobs, it=crate: self.prove(it, False)
            made[crate.name, "tests"] = [], 1, 1, lambda given, jobs, it=crate: self.prove(it, True)
        return made

    def prove(self, crate, tests):
        gate.Crate.proved[crate.name, tests] = tests or self.is_well("unproved", crate)
        return gate.Crate.proved[crate.name, tests]

    def from_nothing(self):
        listed = gate.rt.crates_of("")
        given = gate.rt.in_lanes(self.tasks())
        failed = [it.name for it in listed if not given[it.name, "proof"] or not given[it.name, "tests"]]
        print(*[f"rt: FAILED: {' '.join(failed)}\n"] * bool(failed), f"{len(listed) - len(failed)} passed, {len(failed)} failed", sep="")
        return bool(failed)

    def edits(self, _, pairs):
        names = {known.name_of(*it): it[0] for it in pairs}
        failed = [name for name, crate in names.items() if not self.is_well("edits", crate)]
        left = [name for name, crate in names.items() if not self.is_well("untried", crate)]
        return len(names) - len(failed) - len(left), failed, left


@contextlib.contextmanager
def in_place(top, crates, row):
    """Has all that the gate calls answer for a row, over a ledger that knows the tests of one crate."""
    made, book = Toolchain(crates, row), known.Known(f"{top}/known.txt", "one")
    book.lines = {}
    book.note_tests(crates[1], True)
    pathlib.Path(top, "tests", "docs", "run.py").write_text(HEAD + row.get("runner", GOOD), encoding="utf-8")
    with contextlib.ExitStack() as stood:
        for of, name, by in (
            (gate, "TOP", pathlib.Path(top)),
            (gate.known, "Known", lambda: book),
            (gate, "PROVED_AGAIN", 0),
            (gate.rtlib, "crates_below", lambda _: crates),
            (gate.rt, "crates_of", lambda _: [*crates]),
            (gate.rt, "in_lanes", lambda tasks: {key: task[3]({}, 1) for key, task in tasks.items()}),
            (gate.rt, "edits_of", None),
            (gate.rt, "run", lambda crate, tests: made.is_well("runs", crate)),
            (gate.unproved, "run_tests", lambda crate: made.is_well("tests", crate)),
            (gate.unproved, "build_program", lambda crate, _: made.is_well("builds", crate)),
            (gate.Gate, "try_edits", lambda *given: made.edits(*given)),
            (gate.Crate, "proved", {}),
            (gate.Crate, "spared", set()),
        ):
            stood.enter_context(mock.patch.object(of, name, by))
        stood.enter_context(mock.patch.dict(os.environ, {"GATE_WHOLE": row.get("GATE_WHOLE", "")}))
        yield made


def all_of(top, crates):
    """What whole runs come to: a name for each, and whether it is as told."""
    ledger = pathlib.Path(top, "costs")
    pathlib.Path(top, "tests", "docs").mkdir(parents=True)
    ledger.touch()
    for name, (row, count, failed) in ROWS.items():
        with in_place(top, crates, row) as made, contextlib.redirect_stdout(io.StringIO()) as told:
            status = gate.Gate(str(ledger), False).run(made.from_nothing)
        lines = told.getvalue().splitlines()
        named = [it.removeprefix("rt: FAILED: ") for it in lines if it.startswith("rt: FAILED: ")]
        yield f"a run in which {name}", (status, lines[-1], sorted(named)) == (int(bool(failed)), count, sorted(failed))
