#!/usr/bin/env python3
"""Makes the declarations of what kit_c exports, in each language that cannot read them from it.

    declarations.py [--check] [--archive PATH]

Of the exports (exports.py) it writes c/kotskhin.h, by its frame c/kotskhin.h.in, the tables of Rust, Go and Python, and Python's calls.
With --check it writes none of them, and tells those that differ from what it would write. An archive of kit_c that is given must define
each export, and no other function of its names: one that was built before they changed is refused. So is a place that says another
version than VERSION (version.py). Ends with a status other than 0 where one differs."""
import argparse
import keyword
import pathlib
import re
import subprocess
import sys
import textwrap

import exports
import version

SDK = pathlib.Path(__file__).resolve().parent
C_TYPES = {"u8": "uint8_t", "i32": "int32_t", "u32": "uint32_t", "i64": "int64_t", "u64": "uint64_t", "usize": "size_t", "bool": "bool"}
# The names of ctypes, behind their `c_`; and each type's word in the exports by its name in C.
PYTHON_TYPES = {"u8": "uint8", "i32": "int32", "u32": "uint32", "i64": "int64", "u64": "uint64", "usize": "size_t", "bool": "bool"}
RUST_NAMES = {in_c: word for word, in_c in C_TYPES.items()}
BYTES = {"u8": 1, "i32": 4, "u32": 4, "i64": 8, "u64": 8, "usize": 8, "bool": 1}
# (`export` is a word of C++)
C_NAMES = {"export": "export_"}
WIDE = 140
MADE = "Made by sdk/declarations.py of what crates/kit_c exports."
# What is exported.
CALLS, CODES, ANSWERS = list(exports.exports()), exports.codes(), exports.answers()
NUMBERS = {code.name for code in CODES}
KINDS = [struct for struct in exports.structs() if struct.is_kind]
TOLD = [struct for struct in exports.structs() if not struct.is_kind]


def snake(name):
    """A struct's name as C has it."""
    return re.sub(r"(?<=[a-z])(?=[A-Z])", "_", name).lower()


def item_of(kind):
    """The item of a slice as C and as Rust have it."""
    return (C_TYPES[kind], kind) if kind in C_TYPES else (snake(kind), kind.removeprefix("Kit"))


def cross(one):
    """A parameter as it crosses: (name, C type, Rust type) for each word of the machine."""
    name, kind = C_NAMES.get(one.name, one.name), one.kind
    if found := re.fullmatch(r"&(mut )?\[(\w+)\]", kind):
        in_c, in_rust = item_of(found[2])
        if found[1]:
            return [(name, f"{in_c} *", f"*mut {in_rust}"), ("room", "size_t ", "usize")]
        return [(name, f"const {in_c} *", f"*const {in_rust}"), (f"{name}_len", "size_t ", "usize")]
    if found := re.fullmatch(r"&mut (Kit\w+)", kind):
        return [(name, f"{'KIT_READS ' * one.is_read}{snake(found[1])} *", f"*mut {found[1].removeprefix('Kit')}")]
    if found := re.fullmatch(r"&mut (\w+)", kind):
        return [(name, f"{C_TYPES[found[1]]} *", f"*mut {found[1]}")]
    return [(name, f"{C_TYPES[kind]} ", kind)]


def words_of(call):
    return [word for one in call.given for word in cross(one)]


def prototype(call):
    """The words of a call's declaration in C: what it answers, and its parameters."""
    given = [f"{kind}{name}" for name, kind, _ in words_of(call)]
    return C_TYPES[call.result] if call.result else "void", given


def to_c(text):
    """A line of a page as C says it: codes with their prefix, and no marks of code."""
    return re.sub(r"`([^`]+)`", lambda found: f"KIT_{found[1]}" if found[1] in NUMBERS else found[1], text)


def comment(paragraphs):
    """A comment of paragraphs, of which a first one that is short stands alone."""
    wrapper = textwrap.TextWrapper(WIDE - 3, break_long_words=False, break_on_hyphens=False)
    lines = [line for paragraph in paragraphs for line in (*wrapper.wrap(paragraph), "")][:-1]
    text = "\n".join(f" * {line}".rstrip() for line in lines)
    return f"/*{text[2:]} */"


def page(call):
    """The page of a call in C, and the codes of those that it names."""
    told = [to_c(line) for line in call.page]
    if any(re.search(r"as `kit_\w+` is", line) for line in call.page):
        told.append("In all: " + ", ".join(f"KIT_{answer}" for answer in ANSWERS[call.name]) + ".")
    return comment(told)


def declaration(call):
    """A call as C declares it, below its page."""
    result, given = prototype(call)
    head = f"{'KIT_CHECKED' if call.result == 'i32' else 'KIT_CALL'} {result} {call.name}("
    parameters = ", ".join(parameter.replace(" ", "\0") for parameter in given) or "void"
    lines = textwrap.wrap(parameters, WIDE - len(head) - 2, break_long_words=False)
    text = ("\n" + " " * len(head)).join(lines).replace("\0", " ")
    return f"{page(call)}\n{head}{text});"


def declare_modules(modules):
    """The calls of modules, each with its page."""
    return "\n\n".join(declaration(call) for module in modules for call in CALLS if call.module == module)


def kinds_in_c():
    """The kinds of handles, each with what gives it up."""
    made = []
    for kind in KINDS:
        name = snake(kind.name)
        made.append(
            f"{comment([kind.page[0]])}\ntypedef struct {name} {{ kit_handle handle; }} {name};\n"
            f"KIT_SIZE({name}, 16);\nstatic inline KIT_CALL void {name}_free({name} *own) {{ kit_free(&own->handle); }}"
        )
    return "\n\n".join(made)


def size_of(struct):
    """How many bytes a struct has: each field begins at a multiple of its own, and the struct has a multiple of the widest."""
    sizes = [BYTES[kind] for _, kind, _ in struct.fields]
    end = 0
    for size in sizes:
        end += -end % size + size
    return end + -end % max(sizes)


def structs_in_c():
    """What calls tell in structs, each with its size."""
    made = []
    for struct in TOLD:
        name = snake(struct.name)
        fields = []
        for field, kind, said in struct.fields:
            fields.append(f"    {C_TYPES[kind]} {field};" + (f" {comment([to_c(' '.join(said))])}" if said else ""))
        made += [comment([to_c(part) for part in struct.page]), f"typedef struct {name} {{", *fields, f"}} {name};"]
        made += [f"KIT_SIZE({name}, {size_of(struct)});", ""]
    return "\n".join(made[:-1])


def places(code):
    """How C says the places that a code tells."""
    return "".join(f"{sign} {word}" for sign, word in zip((": * the", " and ** the"), code.places))


def codes_in_c():
    wide = max(len(f"{code.name} = {code.number},") for code in CODES)
    lines = []
    for before, code in zip([CODES[0], *CODES], CODES):
        if code.number // 10 != before.number // 10:
            lines.append("")
        lines.append(f"    KIT_{f'{code.name} = {code.number},':{wide}} /* {code.says}{places(code)} */")
    return "\n".join(lines)


def names_in_c():
    return "\n".join(f'    case KIT_{code.name}: return "KIT_{code.name}";' for code in CODES)


def whole_version():
    """The version as kit_version tells it."""
    major, minor, patch = version.numbers()
    return major << 16 | minor << 8 | patch


def version_in_c():
    number = f"#define KIT_VERSION {whole_version()} /* {version.VERSION}: the first number * 65536 + the second * 256 + the third */"
    return f'{number}\n#define KIT_VERSION_TEXT "{version.VERSION}"'


def header():
    """The header, by its frame."""
    placed = []

    def of(found):
        word, *modules = found[1].split()
        if word == "calls":
            placed.extend(modules)
            return declare_modules(modules)
        return {"version": version_in_c, "kinds": kinds_in_c, "structs": structs_in_c, "codes": codes_in_c, "names": names_in_c}[word]()

    text = re.sub(r"^@([\w ]+)@$", of, (SDK / "c" / "kotskhin.h.in").read_text(encoding="utf-8"), flags=re.M)
    if wrong := sorted({call.module for call in CALLS} ^ set(placed)):
        sys.exit(f"kotskhin.h.in: not once each: the modules {', '.join(wrong)}")
    return text


def in_rust():
    """The declarations for Rust."""
    lines = [f"//! {MADE}", "use crate::Handle;", ""]
    lines += [f"pub const VERSION: u32 = {whole_version()};", ""]
    lines += [f"/// {code.says[:1].upper() + code.says[1:]}.\npub const {code.name}: i32 = {code.number};" for code in CODES]
    lines += ["", "/// The words for the places that a code tells.", "pub const fn places(code: i32) -> &'static [&'static str] {"]
    lines.append("    match code {")
    for words in dict.fromkeys(code.places for code in CODES if code.places):
        named = " | ".join(code.name for code in CODES if code.places == words)
        arm = f"{named} => &[{', '.join(map(quote, words))}],"
        lines += textwrap.wrap(arm, WIDE, initial_indent=" " * 8, subsequent_indent=" " * 12, break_long_words=False)
    lines += ["        _ => &[],", "    }", "}"]
    for kind in KINDS:
        lines += ["", f"kind!(\n    /// {kind.page[0]}\n    {kind.name.removeprefix('Kit')}\n);"]
    for struct in TOLD:
        fields = "\n".join(f"    pub {field}: {kind}," for field, kind, _ in struct.fields)
        said = "\n".join(f"/// {line}" for line in textwrap.wrap(" ".join(struct.page), WIDE - 4))
        lines += ["", said, "#[repr(C)]", "#[derive(Clone, Copy, Debug, Default)]"]
        lines += [f"pub struct {struct.name.removeprefix('Kit')} {{", fields, "}"]
    lines += ["", 'unsafe extern "C" {']
    for call in CALLS:
        given = "".join(f"\n        {name}: {kind}," for name, _, kind in words_of(call))
        given = given and given + "\n    "
        lines.append(f"    pub fn {call.name}({given}){f' -> {call.result}' if call.result else ''};")
    return "\n".join([*lines, "}"]) + "\n"


def in_go():
    """The codes for Go, laid out as gofmt does."""
    told = [code for code in CODES if code.number]
    names = {code.name: "Err" + "".join(word.capitalize() for word in code.name.split("_")) for code in told}
    wide = max(map(len, names.values()))
    lines = ["// Code generated by sdk/declarations.py of what crates/kit_c exports. DO NOT EDIT.", "", "package kotskhin", ""]
    lines += ["// Version is that of this module, and of the library that it was made for."]
    lines += [f"const Version = {quote(version.VERSION)}", "", "const ("]
    lines += [f"\t{names[code.name]:{wide}} Code = {code.number}" for code in told]
    lines += [")", "", "// The name of each code, what it says, and the words for the places that it tells."]
    lines += ["var codes = map[Code]struct {"]
    lines += ["\tname, says string", "\tplaces     []string", "}{"]
    for code in told:
        words = f"[]string{{{', '.join(quote(word) for word in code.places)}}}" if code.places else "nil"
        lines.append(f"\t{names[code.name] + ':':{wide + 1}} {{{quote(code.name)}, {quote(code.says)}, {words}}},")
    return "\n".join([*lines, "}"]) + "\n"


def quote(text):
    return '"' + text.replace("\\", "\\\\").replace('"', '\\"') + '"'


def write_tuple(words):
    """A tuple of texts, as Python writes it."""
    return "(" + ", ".join(map(quote, words)) + "," * (len(words) == 1) + ")"


def codes_in_python():
    """The codes for Python."""
    lines = [f'"""{MADE}"""', "", f"VERSION = {whole_version()}", ""]
    lines += ["# Each code: its name, its number, what it says, and the words for the places that it tells.", "CODES = ("]
    lines += [fill("    (", [quote(code.name), str(code.number), quote(code.says), write_tuple(code.places)], "),") for code in CODES]
    return "\n".join([*lines, ")"]) + "\n"


def struct_in_python(struct):
    """A struct as ctypes has it."""
    lines = [f"class {struct.name.replace('Kit', 'Raw', 1)}(Structure):", f'    """The struct {snake(struct.name)} of C."""', ""]
    lines += [f"    {field}: {'bool' if kind == 'bool' else 'int'}" for field, kind, _ in struct.fields]
    lines += ["", "    _fields_ = ["]
    lines += [f"        ({quote(field)}, c_{PYTHON_TYPES[kind]})," for field, kind, _ in struct.fields]
    return "\n".join([*lines, "    ]"])


def python_type(name, kind):
    """A parameter, declared in C as this kind: its type for ctypes, its type for who calls, and how what is given is held to it."""
    if not kind.endswith("*"):
        of = PYTHON_TYPES[RUST_NAMES[kind.strip()]]
        is_length = of == "size_t" and (name == "room" or name.endswith("_len"))
        return f"c_{of}", "bool" if of == "bool" else "Whole", name if of == "bool" or is_length else f"{of}({name})"
    of = kind.removeprefix("KIT_READS ").removeprefix("const ").removesuffix("*").strip()
    if of == "uint8_t" and (kind.startswith("const ") or name == "into"):
        return "c_char_p", "Given", name
    if of in RUST_NAMES:
        return f"POINTER(c_{PYTHON_TYPES[RUST_NAMES[of]]})", "Given", name
    told = [struct for struct in TOLD if snake(struct.name) == of]
    return f"POINTER({told[0].name.replace('Kit', 'Raw', 1) if told else 'Raw'})", "Given", name


def call_in_python(call):
    """The function of a call, and the one that holds what is given to its types and raises what is refused."""
    safe = {name: f"{name}_" if keyword.iskeyword(name) else name for name, _, _ in words_of(call)}
    words = [(safe[name], *python_type(safe[name], kind)) for name, kind, _ in words_of(call)]
    types, result = [kind for _, kind, _, _ in words], f"c_{PYTHON_TYPES[call.result]}" if call.result else "None"
    if call.result != "i32":
        return fill(f"{call.name} = function(", [quote(call.name), result, *types], ")")
    places = [name for name, *_ in words if name in ("place", "second")]
    given = words[: len(words) - len(places)]
    head = fill(f"_{call.name} = function(", [quote(call.name), result, *types], ")")
    taken = fill(f"def {call.name}(", [f"{name}: {of}" for name, _, of, _ in given], ") -> None:")
    check = ("check", "check_at", "check_at_both")[len(places)]
    return f"{head}\n\n\n{taken}\n" + fill(f"    {check}(", [f"_{call.name}", *(held for *_, held in given)], ")")


def fill(front, words, end):
    """Words with commas between, in a line, or where that is long in as many as they fill."""
    line = f"{front}{', '.join(words)}{end}"
    if len(line) <= WIDE:
        return line
    indent = " " * (len(front) - len(front.lstrip()))
    lines = textwrap.wrap(", ".join(word.replace(" ", "\0") for word in words) + ",", WIDE - 4 - len(indent), break_long_words=False)
    return "\n".join([front, *(f"{indent}    {line}".replace("\0", " ") for line in lines), f"{indent}{end}"])


def calls_in_python():
    """The structs and the calls for Python."""
    parts = [*map(struct_in_python, TOLD), *map(call_in_python, CALLS)]
    text = "\n\n\n".join(parts)
    in_ctypes = sorted({"POINTER", "Structure", *re.findall(r"\bc_\w+", text)})
    held = sorted(set(re.findall(r"\b(?:u?int\d+|size_t)(?=\()", text)))
    own = ["Given", "Raw", "Whole", "check", "check_at", "check_at_both", "function", *held]
    lines = [f'"""{MADE}', "", "A call holds each number to the range of its type, and raises what is refused. Whatever else it is given"]
    lines += ['ctypes looks at."""']
    lines += [f"from ctypes import {', '.join(in_ctypes)}", "", f"from kotskhin.library import {', '.join(own)}", "", "", text]
    return "\n".join(lines) + "\n"


def files():
    """What is made, by its place below sdk/."""
    yield "c/kotskhin.h", header()
    yield "rust/kotskhin-sys/src/declared.rs", in_rust()
    yield "go/declared.go", in_go()
    yield "python/kotskhin/declared.py", codes_in_python()
    yield "python/kotskhin/calls.py", calls_in_python()


def of_archive(path):
    """What an archive lacks of the exports, and what it has beside them."""
    told = subprocess.run(["nm", "--defined-only", "-g", path], capture_output=True, text=True, check=True).stdout
    defined, wanted = set(re.findall(r" T (kit_\w+)$", told, re.M)), {call.name for call in CALLS}
    missing = [f"{path}: missing: {name}" for name in sorted(wanted - defined)]
    return missing + [f"{path}: not of kit_c: {name}" for name in sorted(defined - wanted)]


def main():
    asked = argparse.ArgumentParser(description="Makes the declarations of what kit_c exports.")
    asked.add_argument("--check", action="store_true", help="write nothing, and tell what differs")
    asked.add_argument("--archive", type=pathlib.Path, help="an archive of kit_c, which is held to them")
    given = asked.parse_args()
    wrong = version.others()
    wrong += [f"{call.name}: it has no page" for call in CALLS if not call.page]
    wrong += [f"{code.name}: kit_code_text says nothing of it" for code in CODES if not code.says]
    for name, text in files():
        file = SDK / name
        if given.check:
            there = file.read_text(encoding="utf-8") if file.is_file() else ""
            wrong += [f"{name} is not what kit_c exports: sdk/declarations.py makes it anew"] if there != text else []
        else:
            file.write_text(text, encoding="utf-8")
    wrong += of_archive(given.archive) if given.archive else []
    print("\n".join(wrong) or f"{len(CALLS)} calls, {len(KINDS)} kinds and {len(CODES)} codes are declared as kit_c has them")
    return 1 if wrong else 0


if __name__ == "__main__":
    sys.exit(main())
