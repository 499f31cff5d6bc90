#!/usr/bin/env python3
"""What tells a library that was made without its proofs from one that was made with them.

    quick.py KIT                KIT is what sdk/build made with proofs
    quick.py KIT --quick        also what sdk/build --quick makes, which takes some minutes
    quick.py KIT QUICK          also what it made before

The version of each must tell whether it was proved: as a number and as a text in C, as a text in C++, Python, Go and Rust, and by
pkg-config. sdk/package/make must refuse a library that is marked as a quick one is, and the quick one, and leave nothing.

This ends with a status other than 0 where one of these does not hold."""
import os
import pathlib
import shutil
import subprocess
import sys
import tempfile

sys.dont_write_bytecode = True
SDK = pathlib.Path(__file__).resolve().parents[2] / "sdk"
sys.path += [str(SDK), str(SDK / "package")]
import exports
import there
from laid_out import MARK

NUMBERS = ".".join(map(str, exports.version()))
IN_C = """#include <kotskhin.h>
#include <stdio.h>
int main(void) { return kit_version() == KIT_VERSION ? puts(kit_version_text()) < 0 : 1; }
"""
IN_CPP = """#include <kotskhin.hpp>
#include <iostream>
int main() { std::cout << kotskhin::version() << "\\n"; }
"""
IN_PYTHON = "import kotskhin; print(kotskhin.version())"
SECONDS = 3600


def ran(*command, **given):
    """The status of a command, and all that it printed."""
    how = {"stdin": subprocess.DEVNULL, "stdout": subprocess.PIPE, "stderr": subprocess.STDOUT, "text": True, "timeout": SECONDS}
    done = subprocess.run([str(it) for it in command], check=False, **how, **given)
    return done.returncode, done.stdout.strip()


def linked(kit, room, compiler, name, source):
    """What a program in C or C++ tells of the library that it is linked with."""
    (room / name).write_text(source, encoding="utf-8")
    made = ran(compiler, f"-I{kit}/include", room / name, f"-L{kit}/lib", "-lkotskhin", "-pthread", "-o", room / "told")
    return made if made[0] else ran(room / "told")


def versions(kit, room, wanted):
    """What each language tells of a library: its name, what came of it, and what had to."""
    env = {**os.environ, "KOTSKHIN_SO": f"{kit}/shared/libkotskhin.so.0", "PYTHONPATH": str(SDK / "python"), "KOTSKHIN_LIB": f"{kit}/lib"}
    env |= {"PKG_CONFIG_PATH": f"{kit}/lib/pkgconfig", "GOFLAGS": "-mod=mod", "GOPROXY": "off", "CARGO_TARGET_DIR": str(room / "rust")}
    # (the tests in Go and Rust compare with this text; what Go built over one library it takes for another, unless a flag tells them apart)
    env |= {"KOTSKHIN_VERSION": wanted, "PYTHONDONTWRITEBYTECODE": "1", "CGO_LDFLAGS": f"-O2 -g -L{kit}/lib"}
    if there.has("C", "gcc"):
        yield "C", linked(kit, room, "gcc", "told.c", IN_C), (0, wanted)
    if there.has("C++", "g++"):
        yield "C++", linked(kit, room, "g++", "told.cpp", IN_CPP), (0, wanted)
    yield "Python", ran(sys.executable, "-B", "-c", IN_PYTHON, env=env), (0, wanted)
    if there.has("pkg-config", "pkg-config"):
        yield "pkg-config", ran("pkg-config", "--modversion", "kotskhin", env=env), (0, wanted.replace(", ", "-").replace(" ", "-"))
    if there.has("Go", "go", "pkg-config"):
        status, said = ran("go", "test", "-count=1", "-run", "^TestLibraryVersion$", ".", cwd=SDK / "go", env=env)
        yield "Go", (status, "" if not status and said.startswith("ok") else said), (0, "")
    if there.has("Rust", "cargo"):
        status, said = ran("cargo", "test", "-q", "--offline", "--locked", "--test", "version", cwd=SDK / "rust", env=env)
        yield "Rust", (status, "" if "1 passed" in said else said), (0, "")


def marked(kit, room):
    """A copy of a library that is proved, with the mark of one that is not."""
    shutil.copytree(kit, room / "marked", symlinks=True)
    (room / "mark.c").write_text(f"const char {MARK} = 1;\n", encoding="utf-8")
    subprocess.run(["gcc", "-c", room / "mark.c", "-o", room / "mark.o"], check=True)
    subprocess.run(["ar", "r", room / "marked" / "lib" / "libkotskhin.a", room / "mark.o"], capture_output=True, check=True)
    return room / "marked"


def release(kit, room):
    """What sdk/package/make makes of a library that is not proved: it must refuse, and leave nothing."""
    status, said = ran(sys.executable, "-B", SDK / "package" / "make", "--kit", kit, room / "released")
    return "a release", (status, "never released" in said, (room / "released").exists()), (1, True, False)


def looked_at(kit, quick, room):
    """All that is looked at: of which library, what, what came of it, and what had to."""
    yield from (("proved", *it) for it in versions(kit, room, NUMBERS))
    if there.has("a release", "gcc"):
        yield "marked", *release(marked(kit, room), room)
    if quick:
        yield from (("quick", *it) for it in versions(quick, room, f"{NUMBERS}, not proved"))
        yield "quick", *release(quick, room)


def main():
    kit, given, failed = pathlib.Path(sys.argv[1]).resolve(), sys.argv[2:], 0
    with tempfile.TemporaryDirectory(prefix="quick-") as made:
        room = pathlib.Path(made)
        quick = pathlib.Path(given[0]).resolve() if given and given[0] != "--quick" else None
        if given == ["--quick"]:
            quick = room / "quick"
            status, said = ran(sys.executable, "-B", SDK / "build", "--quick", quick)
            if status:
                print(f"sdk/build --quick: status {status}\n{said}")
                return 1
        for of, what, told, wanted in looked_at(kit, quick, room):
            failed += told != wanted
            print(f"{of}, {what}: {'ok' if told == wanted else f'{told}, and not {wanted}'}", flush=True)
    return min(failed, 1)


if __name__ == "__main__":
    sys.exit(main())
