#!/usr/bin/env python3
"""Each handle of each call, given a handle of each other kind: the compiler must refuse every one, and none that is right.

    kinds.py FOLDER COMPILER..        FOLDER has kotskhin.h

It writes a caller with a line for each, and compiles it with -Werror=incompatible-pointer-types. A line of one that is refused has an error,
one that is right has none, nor has a static handle that begins as KIT_EMPTY. handles.c forces each by a cast, and holds the library to what it answers then. Ends with a status other than 0
where a compiler lets one pass, or refuses what is right."""
import pathlib
import re
import subprocess
import sys
import tempfile

TOP = pathlib.Path(__file__).resolve().parents[2]
sys.path.insert(0, str(TOP / "sdk"))
import declarations

HEAD = """#include <kotskhin.h>
static uint8_t byte, told[8];
static size_t size;
static int64_t whole;
static uint64_t word;
static uint32_t id;
static bool truth;
static kit_taken taken;
"""
# What stands for a parameter that is no handle.
GIVEN = {"uint8_t *": "told", "const uint8_t *": "&byte", "const int64_t *": "&whole", "size_t *": "&size", "int64_t *": "&whole"}
GIVEN |= {"uint64_t *": "&word", "uint32_t *": "&id", "bool *": "&truth", "kit_taken *": "&taken"}


def parameters(call):
    """The types of a call's parameters, as C has them."""
    return [kind.removeprefix("KIT_READS ").strip() for _, kind, _ in declarations.words_of(call)]


def caller():
    """The lines of the caller, and of each whether it is right."""
    kinds = [declarations.snake(kind.name) for kind in declarations.KINDS]
    lines, right = [f"static {kind} the_{kind} = KIT_EMPTY;" for kind in kinds], []
    lines = HEAD.splitlines() + lines + ["int32_t calls(void) {", "    int32_t code = 0;"]
    right = [True] * len(lines)
    for call in declarations.CALLS:
        types = parameters(call)
        handles = [at for at, type_ in enumerate(types) if type_.removesuffix(" *") in kinds]
        given = [f"&the_{type_.removesuffix(' *')}" if at in handles else GIVEN.get(type_, "0") for at, type_ in enumerate(types)]
        for at, kind in [(None, None), *((at, kind) for at in handles for kind in kinds)]:
            is_right = at is None or given[at] == f"&the_{kind}"
            words = given if at is None else [*given[:at], f"&the_{kind}", *given[at + 1 :]]
            if call.result == "i32" and handles:
                lines.append(f"    code |= {call.name}({', '.join(words)});")
                right.append(is_right)
    return [*lines, "    return code;", "}"], [*right, True, True]


def main():
    folder, compilers = sys.argv[1], sys.argv[2:]
    lines, right = caller()
    wrong = [number for number, is_right in enumerate(right, 1) if not is_right]
    fault = False
    for compiler in compilers:
        is_cpp = compiler.endswith("++")
        with tempfile.TemporaryDirectory() as room:
            file = pathlib.Path(room) / ("caller.cpp" if is_cpp else "caller.c")
            file.write_text("\n".join(lines) + "\n", encoding="utf-8")
            many = "-ferror-limit=0" if "clang" in compiler else "-fmax-errors=0"
            flags = ["-std=c++17"] if is_cpp else ["-std=c11", "-pedantic-errors", "-Werror=incompatible-pointer-types"]
            done = subprocess.run([compiler, *flags, many, "-fsyntax-only", f"-I{folder}", str(file)], capture_output=True, text=True, check=False)
        refused = {int(line) for line in re.findall(r"caller\.c(?:pp)?:(\d+):\d+: error:", done.stderr)}
        passed, barred = sorted(set(wrong) - refused), sorted(refused - set(wrong))
        fault |= bool(passed or barred)
        for what, numbers in (("lets pass", passed), ("refuses what is right", barred)):
            for number in numbers[:5]:
                print(f"{compiler} {what}: {lines[number - 1].strip()}")
        print(f"{compiler}: {len(refused)} of {len(wrong)} swapped kinds are refused, over {len(declarations.CALLS)} calls")
    return 1 if fault else 0


if __name__ == "__main__":
    sys.exit(main())
