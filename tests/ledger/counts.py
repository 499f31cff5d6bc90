"""What the gate counts, held to small runners and crates made for it: nothing that failed is counted as passed, and each is named."""
import contextlib
import io
import os
import pathlib
import types

import run as gate

HEAD = f"import sys\nsys.dont_write_bytecode = True\nsys.path.append({str(pathlib.Path(gate.__file__).parent)!r})\nimport checks\n"
# What a runner does, how many of its checks then passed, and the names of those that failed.
RUNNERS = {
    "two checks pass": ("checks.note('a', True)\nchecks.note('b', True)\n", 2, []),
    "many at once pass": ("checks.note_all('a', 40, [])\n", 40, []),
    "two of many fail": ("checks.note_all('a', 40, ['b', 'c'])\n", 38, ["tests/docs: a: b", "tests/docs: a: c"]),
    "more fail than were tried": ("checks.note_all('a', 1, ['b', 'c'])\n", 0, ["tests/docs: a: b", "tests/docs: a: c"]),
    "one check fails": ("checks.note('a', True)\nchecks.note('b: of two', False)\nsys.exit(1)\n", 1, ["tests/docs: b: of two"]),
    "one fails, and the status hides it": ("checks.note('a', False)\n", 0, ["tests/docs: a"]),
    "it breaks off behind a check": ("checks.note('a', True)\nsys.exit(3)\n", 1, ["tests/docs"]),
    "it tells no check": ("", 1, []),
    "it tells none, and fails": ("sys.exit(1)\n", 0, ["tests/docs"]),
}
SAID = "rt: low proved\nrt: FAILED: low high (tests) page (run)\n3 passed, 3 failed\n"


def of_runners(top):
    """What runners are counted as: a name for each, and whether it is as told."""
    file, was = pathlib.Path(top, "tests", "docs", "run.py"), gate.TOP
    file.parent.mkdir(parents=True)
    gate.TOP = pathlib.Path(top)
    for name, (text, passed, failed) in RUNNERS.items():
        file.write_text(HEAD + text, encoding="utf-8")
        yield f"a runner of which {name}", gate.runners(["docs"], os.devnull) == (passed, failed)
    gate.TOP = was


def of_the_toolchain():
    """What the toolchain's own gate said."""
    told = io.StringIO()
    out = gate.Passing(told)
    out.write(SAID)
    yield "the toolchain's count is taken over", out.count == (3, 3) and out.failed == ["low", "high (tests)", "page (run)"]
    yield "and what else it says is passed on", told.getvalue() == "rt: low proved\n"


def begun(crates):
    """A run that has come past its proofs."""
    made = gate.Gate.__new__(gate.Gate)
    made.every, made.known_tests, made.tested, made.unproved, made.spared = crates, crates, {}, [], []
    made.passed, made.failed, made.skipped, made.tiers, made.stages, made.at = 0, [], [], [], [], 0
    return made


def without_proofs():
    """What is counted of tests and programs without a proof, of which one is well, one fails, and one has no time."""
    crates = [types.SimpleNamespace(name=it, is_tested=lambda: False) for it in ("well", "bad", "late")]
    over = [False]
    kept = gate.unproved.run_tests, gate.unproved.build_program, gate.rt.run, gate.trials.is_over, gate.rt.processors

    def come(crate, *_):
        over[0] = over[0] or crate.name == "late"
        return crate.name == "well"

    gate.unproved.run_tests, gate.unproved.build_program, gate.rt.run = come, come, lambda crate, tests: True
    gate.trials.is_over, gate.rt.processors = lambda: over[0], lambda: 1
    with contextlib.redirect_stdout(io.StringIO()):
        tests, programs = begun(crates), begun(crates)
        tests.tests_alone()
        over[0] = False
        programs.without_proof(crates)
        gate.rt.run, over[0] = lambda crate, tests: False, False
        wrong = begun(crates[:1])
        wrong.without_proof(crates[:1])
    gate.unproved.run_tests, gate.unproved.build_program, gate.rt.run, gate.trials.is_over, gate.rt.processors = kept
    failed = ["bad (tests)", "late (tests)"]
    yield "tests that fail without a proof, or have no time, fail", (tests.passed, tests.failed) == (1, failed)
    yield "a program that is not built fails", (programs.passed, programs.failed) == (1, ["bad (built without a proof)"])
    yield "one for which there was no time is left", not programs.is_built("late", {}) and programs.unproved == ["well", "bad"]
    yield "one that runs otherwise than it must fails", (wrong.passed, wrong.failed) == (0, ["well (built without a proof)"])


def all_of(top):
    yield from of_runners(top)
    yield from of_the_toolchain()
    yield from without_proofs()
