"""The must-fail edits of a crate, tried many at a time.

An edit changes the body of one function, and the prover must then refuse that function. Functions are proved one by one, each
from the contracts of those that it calls, so edits of different functions are tried in one check: each is refused where the check
finds an open goal in the very function that it changes. An edit that lies in no function's body, shares a file with one that cannot
be placed, or is not told apart, is tried alone."""
import dataclasses
import os
import re

HEAD = re.compile(r'^(?P<indent> *)(?:pub(?:\([a-z]+\))? )?(?:const )?(?:unsafe )?(?:extern "C" )?fn (?P<name>\w+)')
BLOCK = re.compile(r"^(?:unsafe )?impl\b")
CLAUSE = re.compile(r"\b(requires|ensures|ghost|invariant)\b")
AT_SOURCE = re.compile(r"^(?:note: )?(?:\./)?(src/\S+?\.rt):(\d+):\d+: (.*)")
AT_PROOF = re.compile(r"^(?:\./)?proofs/(\S+)/(?:Answers|Invariants|Proof)\.antt:\d+:\d+: error: (.*)")
AT_NAME = re.compile(r"^fn \w+::(\S+): no proof: expected answers in (.*)")
VANISHED = re.compile(r"has no field|is not in scope|has no `|was not admitted")
OPEN = re.compile(r"it is not proved that|error:")


@dataclasses.dataclass(frozen=True)
class Span:
    """The lines of a function, counted from 1, and what its folder of proofs is called."""

    file: str
    first: int
    last: int
    folder: str
    owner: str


@dataclasses.dataclass
class Edit:
    """An edit's file, and its pairs of texts: (file, old, new)."""

    path: str
    pairs: list

    @property
    def name(self):
        return os.path.basename(self.path)


def read(path):
    """The edit that a file tells."""
    pairs, file, old = [], "", None
    with open(path, encoding="utf-8") as lines:
        for line in lines.read().split("\n"):
            if line.startswith("file: "):
                file = line.removeprefix("file: ").strip()
            elif line.startswith("old: "):
                old = line.removeprefix("old: ")
            elif line.startswith("new:") and old is not None:
                pairs.append((file, old, line.removeprefix("new:").removeprefix(" ")))
                old = None
    return Edit(path, pairs)


def owner_of(line):
    """The words by which a block's folder of proofs is named: the type, and the trait where there is one."""
    bare = re.sub(r"<[^<>]*>", "", re.sub(r"<[^<>]*>", "", re.sub(r"<[^<>]*>", "", line)))
    words = re.search(r"impl\s+(?:(?:\w+::)*(\w+)\s+for\s+)?&?(?:'\w+ )?(?:\w+::)*(\w+)", bare)
    return (words[2], words[1] or "") if words else ("", "")


def spans_of(file, text):
    """The functions of a source file in rt fmt's layout: each ends at the first line that is its indent and a brace."""
    found, block, lines = [], ("", ""), text.split("\n")
    module = file.removeprefix("src/").removesuffix(".rt").removesuffix("/mod")
    module = "" if module in ("lib", "main") else module
    for at, line in enumerate(lines):
        if BLOCK.match(line):
            block = owner_of(line)
        elif line == "}":
            block = ("", "")
        head = HEAD.match(line)
        if not head:
            continue
        end = at
        if not line.rstrip().endswith("}") or line.count("{") != line.count("}"):
            end = next((k for k in range(at + 1, len(lines)) if lines[k] == head["indent"] + "}"), len(lines) - 1)
        while at and lines[at - 1].lstrip().startswith("#["):
            at -= 1
        folder = "/".join(it for it in (module, "*" if block[0] else "", head["name"]) if it)
        found.append(Span(file, at + 1, end + 1, folder, "|".join(block) if block[0] else ""))
    return found


def names_of(span, functions):
    """Which of the functions the span may be, as the prover calls them: a type's stand in its own module where the block's bounds are the type's."""
    name = span.folder.rpartition("/")[2]
    if not span.owner:
        return [it for it in functions if it == span.folder.replace("/", "::")]
    module = span.folder.rpartition("*/")[0].rstrip("/").replace("/", "::")
    kind, of = span.owner.split("|")
    kind = kind[:1].upper() + kind[1:]
    found = []
    for function in functions:
        above, _, last = function.rpartition("::")
        above, _, block = above.rpartition("::")
        rest = block.removeprefix(kind)
        if last == name and rest != block and (of in rest if of else rest[:1] in ("", "+")):
            found.append((above, function))
    return [it for above, it in found if above == module] or [it for _, it in found]


def functions_of(edit, source, functions):
    """The names of the functions that an edit changes; none where one of them has none."""
    made = applied({}, edit, source)
    names = [names_of(Span(file, 0, 0, folder, owner), functions) for file, folder, owner in made[1]] if made else []
    return [name for it in names for name in it] if all(names) else []


def texts_of(members, source):
    """The texts of the files that these edits change, with all of them."""
    texts = {}
    for edit in members:
        texts = applied(texts, edit, source)[0]
    return texts


def applied(texts, edit, source):
    """The texts after the edit too, and the spans of the functions that it changes; none where it does not fit, or changes more than bodies."""
    after, spans = dict(texts), []
    for file, old, new in edit.pairs:
        text = after[file] if file in after else source(file)
        if text.count(old) != 1 or CLAUSE.search(old) or not file.startswith("src/"):
            return None
        at = text.index(old)
        first, last = text.count("\n", 0, at) + 1, text.count("\n", 0, at + len(old)) + 1
        inside = [it for it in spans_of(file, text) if it.first <= first and last <= it.last]
        if not inside or first == inside[-1].first and HEAD.match(text.split("\n")[first - 1]) and "{" not in old:
            return None
        spans.append((file, inside[-1].folder, inside[-1].owner))
        after[file] = text[:at] + new + text[at + len(old):]
    return after, spans


def rounds_of(edits, source, most):
    """Rounds of edits that fit together, at most one for each function and `most` a round; and the edits that want a check of their own."""
    rounds, alone = [], []
    for edit in edits:
        if applied({}, edit, source) is None:
            alone.append(edit)
            continue
        for texts, taken, members in rounds:
            made = applied(texts, edit, source)
            if made and len(members) < most and not taken & set(made[1]):
                texts.update(made[0])
                taken |= set(made[1])
                members.append(edit)
                break
        else:
            texts, spans = applied({}, edit, source)
            rounds.append((texts, set(spans), [edit]))
    return [(texts, members) for texts, _, members in rounds], alone


def refused_in(said, texts, edit, source, functions):
    """What the check of a round says against the function that the edit changes: a line, or none."""
    made = applied({}, edit, source)
    if made is None:
        return ""
    spans = [it for file, name, owner in made[1] for it in spans_of(file, texts[file]) if (it.folder, it.owner) == (name, owner)]
    names = {name for it in spans for name in names_of(it, functions)}
    vanished = ""
    for line in said:
        at = AT_SOURCE.match(line)
        if at and OPEN.search(line) and any(it.file == at[1] and it.first <= int(at[2]) <= it.last for it in spans):
            return line
        at = AT_NAME.match(line)
        if at and at[1] in names:
            return line
        at = AT_PROOF.match(line)
        if at and at[1].replace("/", "::") in names:
            if not VANISHED.search(at[2]):
                return line
            vanished = vanished or line
    return vanished
