#!/usr/bin/env python3
"""Which edits are known to be refused: a ledger that runs write, and that is committed.

    tests/gate/known.py                what the ledger says of each edit, by crates
    tests/gate/known.py merge FILE..   takes from ledgers of other clones the lines that hold of this tree
    tests/gate/known.py leave          leaves edits of this change that no run ever saw refused, where they were left before

An edit's result is known where nothing that it stands on changed since a run saw it refused. That is the edit, the text and the proof of the functions that it
changes, the contracts, types, definitions and lemmas of its crate, what it sees of the crates below (seen.py), and the toolchain. All of that is one digest,
and a line of the ledger is an edit's name with it. A function is proved from the contracts of what it calls, so other bodies and their proofs take no part. Where
an edit lies in no function, all of its crate takes part. A line that ends in `untried` says of an edit that no run has tried it at just this text.

An edit that has no line, or one with another digest, is of the change at hand: a gate that leaves it untried fails. `leave` excuses those of them whose line
says `untried` already. A new edit, and one that a run saw refused once, can't be left; so lines `untried` only grow fewer.

A program of LATER has a line too, under its crate's name: with all that it runs, its digest has the bodies of the crates below.

The tests of a crate have a line as CRATE/tests, once a run saw them proved. Its digest has all texts of the crate, those of tests too, what these see of the
crates below, HANDLES and the toolchain. Where it is today's, a gate runs the tests without proving them again; else it proves them."""
import collections
import hashlib
import os
import pathlib
import re
import sys

sys.dont_write_bytecode = True
import edits
import seen
from kit import edits_of, rtlib, version

TOP = pathlib.Path(__file__).resolve().parents[2]
LEDGER = TOP / "tests" / "gate" / "known.txt"
HANDLES = TOP / "HANDLES"
OWN = ("src", "specs", "proofs")
# The files of proofs/ that are of one function, whose folder has its name, or that with a plus before it.
OF_FUNCTIONS = ("Answers.antt", "Invariants.antt", "Proof.antt")
# Programs that promise nothing, and come after the edits: the folders of tests/ that run each, and the programs that these run too.
LATER = {"kit_bench": ((), ()), "refusals": (("refusals", "faults"), ("otm",)), "archivists": (("archives",), ())}
GIVEN = ("args", "stdin", "stdout", "status")
# A module that only a build of tests has: no edit is tried on one.
OF_TESTS = re.compile(r"^ *#\[cfg\(test\)\]\n *mod (\w+);\n", re.M)
# What the ledger says of an edit: a run saw it refused; it was left at just this text; or it is of the change at hand.
KNOWN, BEFORE, CHANGED = "known", "left before", "of this change"
HEAD = """\
# Edits that a run saw refused, each with the digest of what it stands on, and those that were left (`untried`). Written by tests/gate (known.py).
# toolchain: {toolchain}
"""


def texts(folder, parts, with_tests=False):
    """The files of these parts of a crate, each with its name, in order, without lines that are comments; tests only where asked for."""
    modules = set() if with_tests else modules_of_tests(pathlib.Path(folder, "src"))
    files = [it for part in parts for it in pathlib.Path(folder, part).rglob("*") if it.suffix in (".rt", ".antt")]
    named = [(it.relative_to(folder), it) for it in sorted(files)]
    return [(str(name), told(it, with_tests)) for name, it in named if not modules & {*modules_above(name)}]


def modules_of_tests(src):
    """The modules that only a build of tests has, as the paths of their files below src/ and proofs/, without an ending."""
    found = set()
    for file in src.rglob("*.rt"):
        name = file.relative_to(src).with_suffix("")
        above = name.parent if name.name in ("lib", "main", "mod") else name
        found |= {above / it for it in OF_TESTS.findall(file.read_text(encoding="utf-8"))}
    return found


def modules_above(name):
    """The modules that a file of src/ or proofs/ can be of, from the one that has its name."""
    inner = pathlib.PurePath(*name.parts[1:])
    return inner.with_suffix(""), *inner.parents


def told(file, with_tests=False):
    text = file.read_text(encoding="utf-8")
    return without_comments(text if with_tests else OF_TESTS.sub("", text), "//") if file.suffix == ".rt" else without_comments(text, "--")


def without_comments(text, begins):
    return "\n".join(it for it in text.split("\n") if not it.lstrip().startswith(begins))


def without_bodies(text):
    """A source file, in rt fmt's layout, without what stands between the braces of its functions."""
    kept, indent, is_body = [], None, False
    for line in text.split("\n"):
        if is_body and line != indent + "}":
            continue
        is_body = False
        head = edits.HEAD.match(line)
        indent = head["indent"] if head else indent
        kept.append(line)
        if indent is not None and (line == indent + "{" or line.endswith(" {") and not edits.CLAUSE.search(line)):
            is_body = True
        elif line.endswith((";", "}")) and not edits.CLAUSE.search(line):
            indent = None
    return "\n".join(kept)


def digest_of(pieces):
    sum_ = hashlib.sha256()
    for piece in pieces:
        sum_.update(f"{len(piece)}:{piece}".encode())
    return sum_.hexdigest()


def contracts_of(crate):
    """The digest of what functions see of others of their crate."""
    found = [(name, without_bodies(text) if name.endswith(".rt") else text) for name, text in texts(crate.folder, OWN) if not is_of_function(name)]
    return digest_of([crate.name, *(it for pair in found for it in pair)])


def seen_below(crate, with_tests=False):
    """The digest of what a crate, or its tests, see of those below it."""
    below, own = crate.below(), "\n".join(text for _, text in texts(crate.folder, OWN, with_tests))
    outsides = {it.name: seen.outside_of(tuple(texts(it.folder, ("src",)))) for it in below}
    sources = seen.sources_seen("\n".join(text for _, text in texts(crate.folder, ("src",), with_tests)), seen.words_of(own), outsides)
    files = [(of, *it) for of in sorted(sources) for it in sources[of]]
    specs = {(it.name, module_of(name)): text for it in below for name, text in texts(it.folder, ("specs",))}
    found = seen.definitions_seen(specs, seen.cited(crate.name, own).union(*(seen.cited(of, text) for of, _, text in files)))
    types = seen.types_seen(outsides, [*found.values(), *(text for _, _, text in files)])
    return digest_of([*(it for part in files + types for it in part), *(it for of in sorted(found) for it in (*of, found[of]))])


def module_of(name):
    """The module that a file of specs/ is."""
    return ".".join(pathlib.PurePath(name).with_suffix("").parts[1:])


def is_of_function(name):
    return name.startswith("proofs/") and name.endswith(OF_FUNCTIONS)


def sources_of(crate):
    """The digest of what a crate does when it runs."""
    return digest_of([crate.name, *(it for pair in texts(crate.folder, ("src",)) for it in pair)])


def ground_of(crate, toolchain):
    """The digest of what the edits of a crate stand on, but for their own texts."""
    own = [it for pair in texts(crate.folder, OWN) for it in pair]
    return digest_of([toolchain, *own, seen_below(crate)])


def ground_of_functions(crate, toolchain):
    """The digest of what each edit of a crate stands on, but for the functions that it changes and its own text."""
    return digest_of([toolchain, contracts_of(crate), seen_below(crate)])


def ground_of_tests(crate, toolchain):
    """The digest of what the proof of a crate's tests stands on."""
    own = [it for pair in texts(crate.folder, OWN, with_tests=True) for it in pair]
    handles = HANDLES.read_text(encoding="utf-8") if HANDLES.is_file() else ""
    return digest_of([toolchain, "tests", handles, crate.name, *own, seen_below(crate, with_tests=True)])


def functions_of(crate, path, proofs):
    """The texts and the proofs of the functions that an edit changes, of these proofs by functions; none where it changes anything else."""

    def source(file):
        return pathlib.Path(crate.folder, file).read_text(encoding="utf-8")

    try:
        made = edits.applied({}, edits.read(path), source)
    except OSError:
        return []
    found = []
    for file, folder, owner in made[1] if made else ():
        lines = source(file).split("\n")
        spans = [it for it in edits.spans_of(file, source(file)) if (it.folder, it.owner) == (folder, owner)]
        found += [file, *(without_comments("\n".join(lines[it.first - 1 : it.last]), "//") for it in spans)]
        found += proofs.get(folder.rpartition("/")[2], [])
    return found


def proofs_of(crate):
    """The texts of the proofs of functions, by the functions' names: of two that share one both."""
    found = collections.defaultdict(list)
    for name, text in texts(crate.folder, ("proofs",)):
        if is_of_function(name):
            found[pathlib.Path(name).parent.name.removeprefix("+")] += [name, text]
    return found


def ground_of_program(crate, toolchain, crates):
    """The digest of what a program of LATER, and whoever runs it, stands on."""
    folders, beside = LATER[crate.name]
    files = [pathlib.Path(crate.folder, it) for it in GIVEN] + [it for of in folders for it in sorted((TOP / "tests" / of).rglob("*.[pc]*"))]
    given = [f"{it.name}:{it.read_text(encoding='utf-8', errors='replace')}" for it in files if it.is_file() and "__pycache__" not in it.parts]
    others = [it for it in crates if it.name in beside]
    run = {it.name: it for of in [crate, *others] for it in of.below()} | {it.name: it for it in others}
    return digest_of([ground_of(crate, toolchain), *given, *(sources_of(run[name]) for name in sorted(run))])


class Known:
    """The ledger, and which of the edits that are asked for it knows."""

    def __init__(self, file=LEDGER, toolchain=None):
        self.file, self.toolchain, self.grounds, self.found = pathlib.Path(file), toolchain or version(), {}, {}
        self.of, self.lines = self.toolchain, {}
        for line in self.file.read_text(encoding="utf-8").splitlines() if self.file.is_file() else []:
            if line.startswith("# toolchain: "):
                self.of = line.removeprefix("# toolchain: ")
            elif line and not line.startswith("#"):
                name, digest, *untried = line.split(" ")
                self.lines[name] = digest, not untried

    def ground(self, of, crate, *toolchain):
        if (of, crate.name, *toolchain) not in self.grounds:
            self.grounds[of, crate.name, *toolchain] = of(crate, *toolchain)
        return self.grounds[of, crate.name, *toolchain]

    def digests(self, crate, path, toolchain):
        """The digest of an edit's text and all that it stands on; and one in which all of its crate takes part, which a line may have too."""
        if (path, toolchain) not in self.found:
            text, functions = pathlib.Path(path).read_text(encoding="utf-8"), functions_of(crate, path, self.ground(proofs_of, crate))
            whole = digest_of([self.ground(ground_of, crate, toolchain), text])
            own = digest_of([self.ground(ground_of_functions, crate, toolchain), text, *functions]) if functions else whole
            self.found[path, toolchain] = own, whole
        return self.found[path, toolchain]

    def digest(self, crate, path):
        return self.digests(crate, path, self.toolchain)[0]

    def kind(self, crate, path):
        """What the ledger says of an edit. Under another toolchain than the ledger's nothing is known, and what it tells of was left."""
        digest, was_refused = self.lines.get(name_of(crate, path), ("", False))
        if digest not in self.digests(crate, path, self.of):
            return CHANGED
        return KNOWN if was_refused and self.of == self.toolchain else BEFORE

    def has_program(self, crate, crates):
        """Whether a run saw this program proved, and run well, as it is."""
        digest, was_proved = self.lines.get(crate.name, ("", False))
        return was_proved and digest == ground_of_program(crate, self.toolchain, crates)

    def note(self, crate, path, is_refused):
        """Notes what came of an edit."""
        if is_refused:
            self.lines[name_of(crate, path)] = self.digest(crate, path), True
        else:
            self.lines.pop(name_of(crate, path), None)

    def note_program(self, crate, crates):
        self.lines[crate.name] = ground_of_program(crate, self.toolchain, crates), True

    def has_tests(self, crate):
        """Whether a run saw the tests of this crate proved, as they are."""
        return self.lines.get(tests_of(crate)) == (ground_of_tests(crate, self.toolchain), True)

    def note_tests(self, crate, is_proved):
        """Notes what came of the proof of a crate's tests."""
        if is_proved:
            self.lines[tests_of(crate)] = ground_of_tests(crate, self.toolchain), True
        else:
            self.lines.pop(tests_of(crate), None)

    def untried(self):
        return sum(not was_refused for _, was_refused in self.lines.values())

    def leave(self, crate, path):
        """Says of an edit that it is left as it is."""
        self.lines[name_of(crate, path)] = self.digest(crate, path), False

    def renew(self, crates):
        """Begins the ledger anew under another toolchain: what no run has seen refused or proved under this one is not known, and edits are left."""
        found = edits_in(crates)
        fresh = {name_of(*it): self.lines.get(name_of(*it)) == (self.digest(*it), True) for it in found}
        waiting = [it for it in found if not fresh[name_of(*it)] and self.kind(*it) != CHANGED]
        fresh |= {tests_of(it): self.has_tests(it) for it in crates} | {it.name: self.has_program(it, crates) for it in crates if it.name in LATER}
        self.lines = {name: line for name, line in self.lines.items() if fresh.get(name)}
        for it in waiting:
            self.leave(*it)
        self.of = self.toolchain

    def write(self, crates):
        """Writes the ledger, with what there is in these crates alone."""
        found = edits_in(crates)
        if self.of != self.toolchain:
            self.renew(crates)
        for it in found:
            digest, was_refused = self.lines.get(name_of(*it), ("", False))
            if digest in self.digests(*it, self.toolchain):
                self.lines[name_of(*it)] = self.digest(*it), was_refused
        names = {name_of(*it) for it in found} | {tests_of(it) for it in crates} | set(LATER)
        self.lines = {name: line for name, line in self.lines.items() if name in names}
        lines = [f"{name} {digest}{'' if was_refused else ' untried'}\n" for name, (digest, was_refused) in sorted(self.lines.items())]
        self.file.write_text(HEAD.format(toolchain=self.toolchain) + "".join(lines), encoding="utf-8")


def name_of(crate, path):
    return f"{crate.name}/{os.path.basename(path)}"


def tests_of(crate):
    """The name of the line of a crate's tests."""
    return f"{crate.name}/tests"


def edits_in(crates):
    """Each edit of these crates, with its crate."""
    return [(crate, path) for crate in crates for path in edits_of(crate)[0]]


def merge(book, crates, files):
    """Takes the lines of other ledgers that hold of this tree; gives how many were not known before."""
    new = 0
    for file in files:
        other = Known(file, book.toolchain)
        for crate, path in edits_in(crates):
            if book.kind(crate, path) != KNOWN and other.kind(crate, path) == KNOWN:
                book.note(crate, path, True)
                new += 1
        for crate in crates:
            if other.has_tests(crate) and not book.has_tests(crate):
                book.note_tests(crate, True)
                new += 1
    return new


def leave(book, found):
    """Leaves what is of this change and was left before, or all where the ledger is without lines; gives what can't be left."""
    is_new, changed = not book.lines, [it for it in found if book.kind(*it) == CHANGED]
    may = [it for it in changed if is_new or not book.lines.get(name_of(*it), ("", True))[1]]
    for it in may:
        book.leave(*it)
    return [it for it in changed if it not in may]


def main(words):
    crates = rtlib.crates_below(str(TOP))
    book, found = Known(), edits_in(crates)
    if words[:1] == ["merge"] and words[1:]:
        print(f"{merge(book, crates, words[1:])} edits and proofs of tests more are known")
        book.write(crates)
    elif words == ["leave"]:
        for it in leave(book, found):
            print(f"{name_of(*it)} is new, or a run saw it refused: it is to be tried")
        book.write(crates)
    elif words:
        print(__doc__)
        return 2
    kinds = collections.Counter((crate.name, book.kind(crate, path)) for crate, path in found)
    for name in dict.fromkeys(crate.name for crate, _ in found):
        print(f"{name}: " + ", ".join(f"{kinds[name, kind]} {kind}" for kind in (KNOWN, BEFORE, CHANGED) if kinds[name, kind]))
    tested = [it for it in crates if it.name not in LATER and it.has_tests()]
    for what, is_known in (("known", True), ("of this change", False)):
        print(f"proofs of tests {what}: {' '.join(it.name for it in tested if book.has_tests(it) == is_known) or 'none'}")
    print(f"{len(found)} edits: " + ", ".join(f"{sum(n for (_, it), n in kinds.items() if it == kind)} {kind}" for kind in (KNOWN, BEFORE, CHANGED)))
    return 0


if __name__ == "__main__":
    sys.exit(main(sys.argv[1:]))
