"""What a crate sees of those below it: the contracts of the public functions whose names stand in its texts, public types and traits, and the definitions
that these or its own texts cite.

A crate below is seen where its name stands in the crate's own sources, or in what is seen of one that is seen: a value of its types comes by a signature that
names them. Not seen are private functions and types, unless a definition cites the type, and how a public type is made inside that contracts see as one value.

Sources are read in rt fmt's layout: an item of a file ends at the first line without an indent that ends in a brace or a semicolon. Comments are gone before."""
import collections
import dataclasses
import functools
import re

from edits import owner_of

HIDDEN = re.compile(r"^(?:pub\([^)]*\) )?(?:const )?(?:unsafe )?(?:fn|struct|enum|trait|type|const|static|mod)\b")
FUNCTION = re.compile(r"^(?:pub(?:\([^)]*\))? )?(?:const )?(?:unsafe )?(?:extern \"C\" )?fn (?P<name>\w+)")
TYPE = re.compile(r"^(?P<pub>pub(?:\([^)]*\))? )?(?:struct|enum|trait) (?P<name>\w+)")
BLOCK = re.compile(r"^(?:unsafe )?impl\b")
USE = re.compile(r"^(?P<head> *(?:ghost )?use (?:[\w.]+\.|[\w:]+::)?)\{(?P<names>[^{}]*)\};?$")
CITED = re.compile(r"\bRattle\.(\w+)\.specs\.([A-Z]\w*(?:\.[A-Z]\w*)*)(?:\.\{([^{}]*)\}|\.([^\s(){},;.]+))?")
OWN_CITED = re.compile(r"\bcrate::specs::([A-Z]\w*(?:::[A-Z]\w*)*)(?:::([a-z_]\w*))?")
DECLARED = re.compile(r"\bRattle\.(\w+)\.specs\.declared(?:\.\w+)*?\.([A-Z]\w*)\b")
WORD = re.compile(r"[^\s(){}\[\],;.λ→:=|]+")
NAMED = re.compile(r"^ *(?:abbrev )?(?:pub )?(?:record |data |module )?(?P<name>[^\s:({]+)")


def items_of(text):
    """The items of a file, or of a block without its own indent: each its attributes and its lines."""
    found, lines = [], []
    for line in text.split("\n"):
        if not line.strip() and not lines:
            continue
        lines.append(line)
        if line[:1] not in ("", " ") and line.endswith((";", "}")):
            found.append("\n".join(lines))
            lines = []
    return found + ["\n".join(lines)] * bool("".join(lines).strip())


def head_of(item):
    """The first line of an item that is no attribute."""
    return next((line for line in item.split("\n") if line and not line.startswith("#")), "")


def without_body(function):
    """A function's signature and clauses."""
    lines = function.split("\n")
    if "{" in lines:
        return "\n".join(lines[: lines.index("{")])
    at = next((at for at, line in enumerate(lines) if line.endswith(" {") and not line.lstrip().startswith(("requires", "ensures", "ghost"))), len(lines) - 1)
    return "\n".join(lines[: at + 1])


def inside_of(block):
    """The lines of a block up to its brace; and what stands between its braces, without its indent."""
    lines = block.split("\n")
    at = next((at for at, line in enumerate(lines) if line == "{" or line.endswith(" {") and not line.startswith(" ")), None)
    if at is None:
        return block, ""
    return "\n".join(lines[: at + 1]), "\n".join(line.removeprefix("    ") for line in lines[at + 1 : -1])


@dataclasses.dataclass
class Piece:
    """A part of what is seen of a file. One of a function is seen by those alone who name it."""

    text: str
    function: str = ""


def pieces_of_block(block, hidden):
    """What is seen of an impl: of one of a trait all that contracts see, of another one its public functions."""
    head, inside = inside_of(block)
    of, trait = owner_of(head_of(block))
    if of in hidden:
        return []
    items = items_of(inside)
    if trait == "Model":
        items = [it for it in items if not head_of(it).startswith(("ghost view", "ghost invariant"))]
    if trait:
        kept = [without_body(it) if FUNCTION.match(head_of(it)) else it for it in items]
        return [Piece("\n".join([head, *kept]))]
    told = [(FUNCTION.match(head_of(it)), it) for it in items]
    return [Piece(f"{head}\n{without_body(it)}", found["name"]) for found, it in told if found and head_of(it).startswith("pub ")]


def piece_of_type(item, modelled):
    """A public type; of one that contracts see as one value, without its private members."""
    if TYPE.match(head_of(item))["name"] not in modelled:
        return Piece(item)
    head, inside = inside_of(item)
    return Piece("\n".join([head, *(line for line in inside.split("\n") if line.startswith("pub "))]))


def pieces_of_file(text, hidden, modelled):
    """What is seen of a source file; and its uses."""
    kept, uses = [], []
    for item in items_of(text):
        first = head_of(item)
        if first.startswith(("use ", "ghost use ")):
            uses.append(item)
        elif BLOCK.match(first):
            kept += pieces_of_block(item, hidden)
        elif HIDDEN.match(first):
            continue
        elif FUNCTION.match(first):
            kept.append(Piece(without_body(item), FUNCTION.match(first)["name"]))
        else:
            kept.append(piece_of_type(item, modelled) if first.startswith("pub struct") else Piece(item))
    return kept, uses


def used(item, rest):
    """A use with those of its names alone that stand in the rest of what is seen."""
    found = USE.match(" ".join(item.split()))
    if not found:
        return item
    names, words = [it.strip() for it in found["names"].split(",") if it.strip()], words_of(rest)
    shorts = [(it.split(" as ")[-1].strip("◌"), it) for it in names]
    kept = [it for short, it in shorts if (short in words if short.isidentifier() else short in rest)]
    return f"{found['head']}{{{', '.join(sorted(kept))}}}" if kept else ""


@dataclasses.dataclass
class Outside:
    """What other crates can see of a crate's sources: by files the pieces and the uses; and its private types, which a definition may cite."""

    files: list
    types: dict

    def seen_by(self, words):
        """What is seen by whoever has these words: files, each with its name."""
        found = []
        for name, (pieces, uses) in self.files:
            lines = "\n".join(it.text for it in pieces if not it.function or it.function in words).split("\n")
            rest = "\n".join(it for it in lines if not it.startswith("ghost use "))
            if rest.strip():
                found.append((name, "\n".join(it for it in [used(use, rest) for use in uses] + [used(line, rest) for line in lines] if it)))
        return found


@functools.cache
def outside_of(sources):
    """What other crates can see of these source files, a tuple, each given with its name."""
    items = [it for _, text in sources for it in items_of(text)]
    types = [(TYPE.match(head_of(it)), it) for it in items]
    hidden = {told["name"]: it for told, it in types if told and told["pub"] != "pub "}
    owners = [owner_of(head_of(it)) for it in items if BLOCK.match(head_of(it))]
    modelled = {of for of, trait in owners if trait == "Model"}
    return Outside([(name, pieces_of_file(text, hidden, modelled)) for name, text in sources], hidden)


def sources_seen(own, words, outsides):
    """What a crate with such sources and words sees of these: by the names of crates, files, each with its name."""
    found, left = {}, [own]
    while left:
        text = left.pop()
        for name in outsides:
            if name not in found and re.search(rf"\b{name}::", text):
                found[name] = outsides[name].seen_by(words)
                left += [it for _, it in found[name]]
    return found


@functools.cache
def words_of(text):
    return frozenset(re.findall(r"\w+", text))


# ---- definitions


@functools.cache
def cited(crate, text):
    """The definitions that a text cites, each as a crate, a module and a name, or no name where it is the whole module."""
    found = set()
    for of, module, names, name in CITED.findall(text):
        listed = [it.split(" as ")[0].strip() for it in names.split(",") if it.strip()]
        found |= {(of, module, it) for it in listed or [name]}
    return found | {(crate, module.replace("::", "."), name) for module, name in OWN_CITED.findall(text)}


@functools.cache
def definitions_of(text):
    """The definitions of a file, each its names and its lines; and its uses. Those of a parameterized module are one."""
    found, uses = [], []
    for line in text.split("\n"):
        if line.startswith(("use ", "pub use ")):
            uses.append(line)
        elif line.strip():
            names = {it["name"] for it in [NAMED.match(line)] if it}
            is_marked = found and found[-1][0] == {"unfoldable"}
            if not line.startswith(" ") and not is_marked and not (found and names & found[-1][0]):
                found.append((set(), []))
            found[-1][0].update(names)
            found[-1][1].append(line)
    return [(frozenset(names), "\n".join(lines)) for names, lines in found], uses


def part_of(text, wanted):
    """What of a file's definitions these names are, and what they cite of the file; all of it where the empty name is wanted."""
    definitions, uses = definitions_of(text)
    known, left, kept = {it for names, _ in definitions for it in names}, set(wanted), set()
    if "" in left or not left <= known or any("◌" in it for it in known):
        return text
    while left:
        name = left.pop()
        for at, (names, lines) in enumerate(definitions):
            if name in names and at not in kept:
                kept.add(at)
                left |= set(WORD.findall(lines)) & known
    rest = "\n".join(lines for at, (_, lines) in enumerate(definitions) if at in kept)
    return "\n".join([it for it in (used(use, rest) for use in uses) if it] + [rest])


def definitions_seen(specs, roots):
    """What is seen of files of definitions, given by crates and modules, by whoever cites these."""
    wanted, found, left = collections.defaultdict(set), {}, set(roots)
    while left:
        fresh = collections.defaultdict(set)
        for crate, module, name in left:
            of, name = ((crate, module), name) if (crate, module) in specs else ((crate, module.rpartition(".")[0]), module.rpartition(".")[2])
            if of in specs and name not in wanted[of]:
                fresh[of].add(name)
        for of, names in fresh.items():
            wanted[of] |= names
            found[of] = part_of(specs[of], wanted[of])
        left = set().union(*(cited(of[0], found[of]) for of in fresh))
    return found


def types_seen(outsides, texts):
    """The private types that texts cite, each with its crate's name."""
    of = set(DECLARED.findall("\n".join(texts)))
    return sorted((name, type_, it) for name, outside in outsides.items() for type_, it in outside.types.items() if (name, type_) in of)
