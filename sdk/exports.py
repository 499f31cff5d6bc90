"""What crates/kit_c exports, as its sources and its proved definitions say: kinds of handles, structs, codes, and calls with their pages.

A call is `pub extern "C" fn` under `#[unsafe(no_mangle)]`; its page is the `///` above it. A handle that a call only reads is one of
which a
clause says, without a condition, that it is as it was, but for those of APART. A kind is a struct whose first field is a handle. The codes
are those of specs/Codes.antt and of the crate's constants. What each says is what `kit_code_text` tells, and the places that it tells are
those that specs/Places.antt gives it."""
import dataclasses
import pathlib
import re

CRATE = pathlib.Path(__file__).resolve().parent.parent / "crates" / "kit_c"

EXPORT = re.compile(
    r'((?:^///[^\n]*\n)*)(?:^#\[[^\n]*\n)*?^#\[unsafe\(no_mangle\)\]\n(?:^#\[[^\n]*\n)*'
    r'^pub extern "C" fn (\w+)\(([^)]*)\)(?: -> (\w+))?(.*?)^\{',
    re.M | re.S,
)
STRUCT = re.compile(r"((?:^///[^\n]*\n)*)^#\[repr\(C\)\]\n(?:^#\[[^\n]*\n)*^pub struct (Kit\w+) \{\n(.*?)^\}", re.M | re.S)
FIELD = re.compile(r"((?:^ +///[^\n]*\n)*)^ +pub (\w+): (\w+),$", re.M)
CODE = re.compile(r"^\w+_(?:code|of) \(?(?:\w+\.)?(?:Refused \(?)?(?:\w+\.)?(\w+)[^=]*= pos (\d+)$", re.M)
# A variant whose code has another name, since one of another refusal has its own.
RENAMED = re.compile(r"^\w+_code \(?(\w+)\.(\w+)(?: \w+)*\)? = ([a-z]\w+)$", re.M)
NAMED_CODE = re.compile(r"^(\w+) = pos (\d+)$", re.M)
CONSTANT = re.compile(r"^pub\(crate\) const ([A-Z_]+): i32 = (\d+);$", re.M)
# An equation of what a refusal tells: its variant, and the word for what is told.
PLACE = re.compile(r"^(?:\w*place\w*|(second_of)) .*?(\w+)\.(\w+)(?: [a-z]\w*)+\)+ = Some (\w+)$", re.M)
PLACES = {"i": "instrument", "j": "instrument", "v": "view", "at": "byte", "last": "time"}
# What the place of a refused request of OTLP is that of, where it is no point's: a fault has its reason and its place.
OF_REQUESTS = {
    **dict.fromkeys(("MALFORMED", "NOT_TEXT", "TOO_LONG_TEXT"), "byte"),
    **dict.fromkeys(("NO_SERVICE", "NO_INSTANCE", "NOT_UUID"), "resource"),
    **dict.fromkeys(("EXPONENTIAL_HISTOGRAM", "SUMMARY", "NO_DATA", "DELTA", "NO_TEMPORALITY"), "metric"),
    **{"SCOPE_TWICE": "scope", "NO_EXPORT": "export"},
}
REASON = re.compile(r"^reason_code \(?reasons\.(\w+)[^=]* = (?!no_memory)", re.M)
KEPT = re.compile(r"(?:(\w+_(?:of|in)) )?\(?(\w+)\.new([\w.]*)\)? ≡ (?:\1 )?\(?\2\.old\3\)?$")
# A handle that stays as it is though the call takes what it has apart meanwhile. tests/sdk/reads.c finds each by races.
APART = {("kit_writer_hold", "attributes"), ("kit_seat_hold", "attributes")}
SAID = re.compile(r'^ +(\d+)(?: \| \d+)* =>\s+"([^"\n]+)",$', re.M)
VERSION = re.compile(r"^const (MAJOR|MINOR|PATCH): u32 = (\d+);$", re.M)


@dataclasses.dataclass(frozen=True)
class Parameter:
    """A parameter: its type as Rattle has it, and whether it is a handle that the call only reads."""

    name: str
    kind: str
    is_read: bool = False


@dataclasses.dataclass(frozen=True)
class Call:
    name: str
    module: str
    given: tuple
    result: str
    page: tuple


@dataclasses.dataclass(frozen=True)
class Struct:
    """A struct that crosses: of a kind of handles no field is told."""

    name: str
    page: tuple
    fields: tuple
    is_kind: bool


@dataclasses.dataclass(frozen=True)
class Code:
    """A code: what it says, and the words for the places that it tells."""

    name: str
    number: int
    says: str
    places: tuple


def sources():
    """The files of the crate: (module, text)."""
    for file in sorted((CRATE / "src").glob("*.rt")):
        yield file.stem, file.read_text(encoding="utf-8")


def page_of(text):
    """The paragraphs of a `///` comment."""
    lines = [line.strip().removeprefix("///").strip() for line in text.strip().splitlines()]
    return tuple(" ".join(paragraph.split()) for paragraph in "\n".join(lines).split("\n\n") if paragraph.strip())


def clauses(text):
    """The clauses of a contract, each as one line."""
    for body in re.findall(r"ensures (?:\w+ )?\{(.*?)\}(?=\s*(?:ensures|requires|$))", text, re.S):
        yield " ".join(body.split())


def kept(contract):
    """The parameters of which a contract says that they stay as they are, whatever is answered."""
    for clause in clauses(contract):
        parts = [KEPT.search(part.strip().strip("()")) for part in clause.split(" × ")]
        if "→" not in clause and all(parts):
            yield from (found[2] for found in parts)


def exports():
    """The calls, by their modules."""
    for module, text in sources():
        found = EXPORT.findall(text)
        if len(found) != text.count("#[unsafe(no_mangle)]"):
            raise ValueError(f"{module}.rt: an export that is not read: {len(found)} are")
        for page, name, given, result, contract in found:
            words = [pair.split(":", 1) for pair in re.split(r",\s*", given.strip().rstrip(",")) if pair]
            stays = set(kept(contract)) - {word for call, word in APART if call == name}
            given = tuple(Parameter(word.strip(), kind.strip(), word.strip() in stays) for word, kind in words)
            yield Call(name, module, tuple(one for one in given if one.kind != "Global"), result, page_of(page))


def structs():
    """The structs that cross, but for the handle itself."""
    for _, text in sources():
        for page, name, body in STRUCT.findall(text):
            if name != "KitHandle":
                fields = tuple((field, kind, page_of(said)) for said, field, kind in FIELD.findall(body))
                is_kind = fields[0][1] == "KitHandle"
                yield Struct(name, page_of(page), () if is_kind else fields, is_kind)


def upper(name):
    """A variant's name as a code has it."""
    return re.sub(r"(?<=[a-z])(?=[A-Z])", "_", name).upper()


def numbers():
    """The codes by their names."""
    text = (CRATE / "specs" / "Codes.antt").read_text(encoding="utf-8")
    told = {name: int(number) for _, source in sources() for name, number in CONSTANT.findall(source)}
    told |= {name.upper(): int(number) for name, number in NAMED_CODE.findall(text)}
    return told | {upper(name): int(number) for name, number in CODE.findall(text)}


def sayings():
    """What kit_code_text says of each code."""
    for _, text in sources():
        if "fn kit_code_text" in text:
            return {int(number): said for number, said in SAID.findall(text)}
    return {}


def places():
    """The words for the places that each code tells, by its name."""
    coded = (CRATE / "specs" / "Codes.antt").read_text(encoding="utf-8")
    renamed = {(of, name): code.upper() for of, name, code in RENAMED.findall(coded)}
    reasons = [renamed.get(("reasons", name), upper(name)) for name in REASON.findall(coded)]
    told = {reason: [OF_REQUESTS.get(reason, "point")] for reason in reasons}
    lines = PLACE.findall((CRATE / "specs" / "Places.antt").read_text(encoding="utf-8"))
    for second, of, name, word in sorted(lines, key=lambda line: line[0]):
        words = told.setdefault(renamed.get((of, name), upper(name)), [])
        if second or PLACES.get(word, word) not in words:
            words.append(PLACES.get(word, word))
    return told


def codes():
    """The codes, in the order of their numbers."""
    told, said = places(), sayings()
    named = numbers()
    return [Code(name, named[name], said.get(named[name], ""), tuple(told.get(name, ()))) for name in sorted(named, key=named.get)]


def version():
    """The three numbers of the version that kit_version tells."""
    for _, text in sources():
        if "fn kit_version" in text:
            told = dict(VERSION.findall(text))
            return tuple(int(told[part]) for part in ("MAJOR", "MINOR", "PATCH"))
    return (0, 0, 0)


def answers():
    """The codes that each call may answer beside OK, in the order of its page; those of the calls that it names stand in their place."""
    pages = {call.name: " ".join(part for part in call.page if part.startswith("Refused") or " Refused" in part) for call in exports()}
    named = {code.name: code.number for code in codes()}
    found = {}

    def of(name, seen=()):
        if name in found or name in seen:
            return found.get(name, [])
        told = []
        for begin, end, code, other in re.findall(r"`([A-Z_]+)` to `([A-Z_]+)`|`([A-Z_]+)`|as `(kit_\w+)` is", pages[name]):
            if begin:
                told += [name for name in named if named[begin] <= named[name] <= named[end]]
            elif other:
                told += of(other, (*seen, name))
            elif code in named:
                told.append(code)
        found[name] = list(dict.fromkeys(told))
        return found[name]

    return {name: of(name) for name in pages}
