#!/usr/bin/env python3
"""The gate's ledger, and what it counts (counts.py), held to what docs/maintain/GATE.md says of them, on a small tree: nothing is proved here.

This ends with a status other than 0 where one of these does not hold."""
import pathlib
import sys
import tempfile

sys.dont_write_bytecode = True
sys.path.insert(0, str(pathlib.Path(__file__).resolve().parents[1] / "gate"))
import checks
import counts
import known
import wholes
from known import BEFORE, CHANGED, KNOWN

SOURCE = """\
ghost use Rattle.low.specs.Words.{IsWord};

use low::next as below;

#[cfg(test)]
mod tests;

/// A number.
pub struct Number {
    value: u32,
}

impl Model for Number {
    ghost Value = { ℕ };

    ghost view = { λ n. n.value };
}

fn kept(n: u32) -> u32
    ensures value { result ≡ n }
{
    n
}

pub fn next(n: u32) -> u32
    ensures value { result ≡ n + 1 }
{
    n + 1
}

pub fn last(n: u32) -> u32
    ensures value { IsWord result n }
{
    below(n)
}
"""
WORDS = "use Rattle.low.specs.Letters.{IsLetter}\n"
EDIT = "file: src/lib.rt\nold:     n + 1\nnew:     n\n"


class Crate:
    """A crate as the ledger sees one."""

    def __init__(self, top, name, *below):
        self.name, self.folder, self.deps = name, f"{top}/{name}", below
        for part in ("src", "specs", "must-fail"):
            pathlib.Path(self.folder, part).mkdir(parents=True)
        self.write("src/lib.rt", SOURCE)
        self.write("specs/Words.antt", WORDS)
        self.write("must-fail/it_is_the_same.edit", EDIT)

    def below(self):
        return [*self.deps]

    def is_tested(self):
        return self.name == "high"

    def write(self, path, text):
        pathlib.Path(self.folder, path).write_text(text, encoding="utf-8")

    def edit(self):
        return self, f"{self.folder}/must-fail/it_is_the_same.edit"


class Trial:
    """A tree of three crates, and a ledger of it."""

    def __init__(self, top):
        self.low = Crate(top, "low")
        self.high = Crate(top, "high", self.low)
        self.program = Crate(top, "kit_bench", self.high, self.low)
        self.crates, self.file, self.faults, self.looked = [self.low, self.high, self.program], f"{top}/known.txt", [], 0

    def book(self, toolchain="one"):
        return known.Known(self.file, toolchain)

    def found(self):
        return known.edits_in(self.crates)

    def says(self, what, is_so):
        self.looked += 1
        checks.note(what, is_so)
        if not is_so:
            self.faults.append(what)

    def kinds(self, toolchain="one"):
        book = self.book(toolchain)
        return [book.kind(*edit) for edit in self.found()]

    def all_refused(self):
        book = self.book()
        for edit in self.found():
            book.note(*edit, True)
        book.note_program(self.program, self.crates)
        book.write(self.crates)

    def has_program(self):
        return self.book().has_program(self.program, self.crates)

    def changes(self):
        """What becomes of lines as texts change, each change taken back after it."""
        self.says("without a ledger each edit is of the change", self.kinds() == [CHANGED] * 3)
        self.all_refused()
        self.says("what a run saw refused is known", self.kinds() == [KNOWN] * 3 and self.has_program())
        for what, path, text, kinds, is_kept in (
            ("a comment changes nothing", "src/lib.rt", "// Why.\n" + SOURCE, [KNOWN] * 3, True),
            ("a body changes its own edits, and what runs it", "src/lib.rt", SOURCE.replace("    n + 1\n}", "    let _ = n;\n    n + 1\n}"), [CHANGED, KNOWN, KNOWN], False),
            ("another body changes what runs it alone", "src/lib.rt", SOURCE.replace("below(n)", "below(n / 1)"), [KNOWN] * 3, False),
            ("a contract changes the crates above too", "src/lib.rt", SOURCE.replace("result ≡ n + 1", "result ≥ n"), [CHANGED] * 3, False),
            ("another contract does so", "src/lib.rt", SOURCE.replace("IsWord result n", "IsWord n result"), [CHANGED] * 3, False),
            ("a private function's contract changes its crate alone", "src/lib.rt", SOURCE.replace("result ≡ n }", "result ≥ n }"), [CHANGED, KNOWN, KNOWN], False),
            ("so does what a modelled type is made of", "src/lib.rt", SOURCE.replace("value: u32", "value: u64"), [CHANGED, KNOWN, KNOWN], False),
            ("and how it is seen as a value", "src/lib.rt", SOURCE.replace("λ n. n.value", "λ n. n.value + 0"), [CHANGED, KNOWN, KNOWN], False),
            ("as which it is seen changes the crates above", "src/lib.rt", SOURCE.replace("Value = { ℕ }", "Value = { Int }"), [CHANGED] * 3, False),
            ("a definition that a contract cites does so", "specs/Words.antt", "word\n" + WORDS, [CHANGED] * 3, False),
            ("one that such a definition cites does so", "specs/Letters.antt", "letter", [CHANGED] * 3, False),
            ("one that nothing outside cites changes its crate alone", "specs/Inside.antt", "word", [CHANGED, KNOWN, KNOWN], True),
            ("and one in a file named as a proof's", "specs/Answers.antt", "word", [CHANGED, KNOWN, KNOWN], True),
            ("a lemma changes its crate alone", "proofs/Steps.antt", "step", [CHANGED, KNOWN, KNOWN], True),
            ("a function's proof changes its own edits", "proofs/next/Answers.antt", "step", [CHANGED, KNOWN, KNOWN], True),
            ("a loop's proof does so", "proofs/+next/Invariants.antt", "step", [CHANGED, KNOWN, KNOWN], True),
            ("another function's proof changes none", "proofs/last/Answers.antt", "step", [KNOWN] * 3, True),
            ("a test changes nothing", "src/tests.rt", "fn test() {}\n", [KNOWN] * 3, True),
            ("nor does what is below it", "src/tests/tables.rt", "fn table() {}\n", [KNOWN] * 3, True),
            ("nor does its proof", "proofs/tests/Steps.antt", "step", [KNOWN] * 3, True),
            ("nor that there are tests", "src/lib.rt", SOURCE.replace("#[cfg(test)]\nmod tests;\n", ""), [KNOWN] * 3, True),
            ("another public type changes the crates above", "src/texts.rt", "pub struct Text;\n", [CHANGED] * 3, False),
            ("a private type changes its crate alone", "src/texts.rt", "struct Text;\n", [CHANGED, KNOWN, KNOWN], False),
            ("an edit changes itself alone", "must-fail/it_is_the_same.edit", EDIT + "\n", [CHANGED, KNOWN, KNOWN], True),
        ):
            file = pathlib.Path(self.low.folder, path)
            file.parent.mkdir(exist_ok=True, parents=True)
            was = file.read_text(encoding="utf-8") if file.is_file() else None
            self.low.write(path, text)
            self.says(what, self.kinds() == kinds and self.has_program() == is_kept)
            file.unlink() if was is None else self.low.write(path, was)
        self.says("what is as it was is known again", self.kinds() == [KNOWN] * 3 and self.has_program())

    def proofs_of_tests(self):
        """What becomes of the lines of tests, whose proofs stand on all texts of their crate."""
        book, low, high = self.book(), self.low, self.high
        self.low.write("src/tests.rt", "fn test() {}\n")
        self.says("without a line no proof of tests is known", not book.has_tests(low) and not book.has_tests(high))
        book.note_tests(low, True)
        book.note_tests(high, True)
        book.write(self.crates)
        self.says("what a run saw proved is known", self.tests_known() == [True, True])
        for what, path, text, known_ in (
            ("a comment changes no proof of tests", "src/tests.rt", "// Why.\nfn test() {}\n", [True, True]),
            ("another test changes its crate's alone", "src/tests.rt", "fn other() {}\n", [False, True]),
            ("what is below a module of tests does so", "src/tests/tables.rt", "fn table() {}\n", [False, True]),
            ("so does a proof of a test", "proofs/tests/test/Answers.antt", "step", [False, True]),
            ("so does a body", "src/lib.rt", SOURCE.replace("below(n)", "below(n / 1)"), [False, True]),
            ("so does a lemma", "proofs/Steps.antt", "step", [False, True]),
            ("a contract changes those above too", "src/lib.rt", SOURCE.replace("result ≡ n + 1", "result ≥ n"), [False, False]),
            ("so does a definition that one cites", "specs/Words.antt", "word\n" + WORDS, [False, False]),
            ("an edit changes none", "must-fail/it_is_the_same.edit", EDIT + "\n", [True, True]),
        ):
            file = pathlib.Path(self.low.folder, path)
            file.parent.mkdir(exist_ok=True, parents=True)
            was = file.read_text(encoding="utf-8") if file.is_file() else None
            self.low.write(path, text)
            self.says(what, self.tests_known() == known_)
            file.unlink() if was is None else self.low.write(path, was)
        self.says("under another toolchain no proof of tests is known", not self.book("two").has_tests(low))
        known.HANDLES.write_text("Handles allowed: Wait.\n", encoding="utf-8")
        self.says("nor where other handles are allowed", self.tests_known() == [False, False])
        known.HANDLES.unlink()
        book = self.book()
        book.note_tests(high, False)
        book.write(self.crates)
        self.says("what a run saw not proved is known no more", self.tests_known() == [True, False])
        pathlib.Path(self.low.folder, "src/tests.rt").unlink()

    def tests_known(self):
        return [self.book().has_tests(it) for it in (self.low, self.high)]

    def leaving(self):
        """What may be left, and what may not."""
        book = self.book()
        self.low.write("src/lib.rt", SOURCE.replace("result ≡", "result ≥"))
        self.says("what a run saw refused can't be left", len(known.leave(book, self.found())) == 3 and not book.untried())
        book.lines = {}
        self.says("a ledger without lines begins with all left", not known.leave(book, self.found()))
        book.write(self.crates)
        self.says("what is left is told as left", self.kinds() == [BEFORE] * 3)
        book = self.book()
        book.note(*self.high.edit(), True)
        book.write(self.crates)
        self.says("what is tried is left no more", self.kinds() == [BEFORE, KNOWN, BEFORE] and self.book().untried() == 2)
        self.low.write("src/lib.rt", SOURCE)
        self.says("what was left and then changed is of the change", self.kinds() == [CHANGED] * 3)
        book = self.book()
        self.says("it may be left again, and nothing else", known.leave(book, self.found()) == [self.high.edit()])
        book.write(self.crates)
        self.says("and is then told so", self.kinds() == [BEFORE, CHANGED, BEFORE])
        self.all_refused()

    def toolchains(self):
        self.says("under another toolchain nothing is known, and all was left", self.kinds("two") == [BEFORE] * 3)
        book = self.book("two")
        book.note(*self.high.edit(), True)
        book.note_tests(self.high, True)
        book.note_program(self.program, self.crates)
        book.write(self.crates)
        self.says("it begins a ledger of its own", self.kinds("two") == [BEFORE, KNOWN, BEFORE] and self.book("two").untried() == 2)
        fresh = self.book("two")
        self.says("in which proofs of tests count that were made under it", not fresh.has_tests(self.low) and fresh.has_tests(self.high))
        self.says("and programs that were proved under it", fresh.has_program(self.program, self.crates))

    def merging(self, other):
        pathlib.Path(self.file).unlink()
        book = self.book()
        book.note(*self.low.edit(), True)
        book.note_tests(self.low, True)
        book.write(self.crates)
        pathlib.Path(self.file).rename(other)
        book = self.book()
        book.note(*self.high.edit(), True)
        self.says("an edit and a proof of tests of another clone come in", known.merge(book, self.crates, [other]) == 2)
        book.write(self.crates)
        self.says("and both edits are known", self.kinds() == [KNOWN, KNOWN, CHANGED])
        self.says("and the proof of tests", self.tests_known() == [True, False])
        self.low.write("src/lib.rt", SOURCE.replace("result ≡", "result ≥"))
        self.says("a line of another text does not", known.merge(self.book(), self.crates, [other]) == 0)


def main():
    with tempfile.TemporaryDirectory(prefix="ledger-") as top:
        known.HANDLES = pathlib.Path(top, "HANDLES")
        trial = Trial(top)
        trial.changes()
        trial.proofs_of_tests()
        trial.leaving()
        trial.toolchains()
        trial.merging(f"{top}/other.txt")
        for what, is_so in [*counts.all_of(f"{top}/counted"), *wholes.all_of(f"{top}/whole", trial.crates)]:
            trial.says(what, is_so)
    book = known.Known()
    for fault in trial.faults:
        print(f"NOT SO: {fault}")
    print(f"ledger: {trial.looked} rules looked at, {len(trial.faults)} not so; {len(book.lines)} lines, {book.untried()} untried")
    return 1 if trial.faults else 0


if __name__ == "__main__":
    sys.exit(main())
