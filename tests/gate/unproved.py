"""Programs and tests of crates without a proof, by the compiler that `rt try` runs: it takes a crate and all below it as sources.

That compiler hands LLVM one module and runs what comes of it. For a program, or a library, that module is kept in place of being run, and
compiled as a proved one is. Nothing that is made here is proved. A landing builds so what promises nothing, and runs so the tests whose own
proof the ledger knows (known.py); sdk/build makes a library so, for trying."""
import os
import pathlib
import re
import subprocess
import tempfile

from kit import is_text_right, rt, rtlib, trial_of

# What one such build takes: the greatest was seen to take 1.6 GB.
MEMORY = 2_000_000_000
# Keeps the module that is to be run, and what clang was to do with it, and goes no further.
KEEPER = """#!/bin/sh
case " $* " in
*" -fsanitize=address "*)
    for word; do case "$word" in *.bc) cp "$word" "{room}/module.bc" ;; esac; done
    printf '%s\\n' "$@" > "{room}/words"
    exit 1 ;;
esac
exec "{clang}" "$@"
"""
HOW = {"stdin": subprocess.DEVNULL, "stdout": subprocess.PIPE, "stderr": subprocess.STDOUT, "errors": "replace", "text": True}
TESTED = re.compile(r"^test result: ok\. ([1-9]\d*) passed; 0 failed;", re.M)
ENDED_WELL = re.compile(r"^run=ended status=0 .*proved=no\n\Z", re.M)


class NotBuilt(Exception):
    """What was said where nothing came of it."""


def clang():
    return f"{rt.KIT}/toolchain/bin/clang"


def keeping_toolchain(room):
    """A toolchain whose clang keeps the module that is to be run in the room."""
    bin_ = pathlib.Path(room, "toolchain", "bin")
    bin_.mkdir(parents=True)
    bin_.parent.joinpath("lib").symlink_to(f"{rt.KIT}/toolchain/lib")
    for it in os.listdir(f"{rt.KIT}/toolchain/bin"):
        if it != "clang":
            bin_.joinpath(it).symlink_to(f"{rt.KIT}/toolchain/bin/{it}")
    bin_.joinpath("clang").write_text(KEEPER.format(room=room, clang=clang()), encoding="utf-8")
    bin_.joinpath("clang").chmod(0o755)
    return str(bin_.parent)


def module_of(crate, room):
    """The module of a program, kept in the room; and the words that compile one as the toolchain does, but for what is compiled to what."""
    words = trial_of(crate, False, keeping_toolchain(room))
    said = subprocess.run([*rtlib.guarded(), *words], cwd=crate.folder, env={**os.environ, "TMPDIR": str(room)}, **HOW).stdout
    kept, module = pathlib.Path(room, "words"), pathlib.Path(room, "module.bc")
    if not kept.is_file() or not module.is_file():
        raise NotBuilt(said)
    told = kept.read_text(encoding="utf-8").splitlines()
    flags = [it for it in told if not it.startswith(("-O", "--sysroot", "-fsanitize=")) and not it.endswith(".bc")]
    at = flags.index("-o")
    return module, [clang(), f"--sysroot={rt.KIT}/toolchain", *flags[:at], *flags[at + 2 :]]


def compiled(words, module, into, *flags):
    """Compiles a module into an object file."""
    ran = subprocess.run([*rtlib.guarded(), *words, *flags, str(module), "-o", str(into)], **HOW)
    if ran.returncode:
        raise NotBuilt(ran.stdout)


def clear(crate):
    """Removes what was built of a program."""
    for ending in (".o", *rt.BACKENDS.values()):
        pathlib.Path(crate.folder, "out", crate.name + ending).unlink(missing_ok=True)


def build_program(crate, crates):
    """Builds a program without a proof, where `rt ci` builds a proved one; gives whether that could be done.

    Its text, and what it calls of the system, are held to the same rules."""
    if not is_text_right(crate, crates):
        return False
    clear(crate)
    to = f"out/{crate.name}"
    with tempfile.TemporaryDirectory(prefix=f"rt-edit-{os.getpid()}-unproved-") as room:
        try:
            module, words = module_of(crate, room)
            pathlib.Path(crate.folder, "out").mkdir(exist_ok=True)
            compiled(words, module, f"{crate.folder}/{to}.o", "-O2")
        except NotBuilt as fault:
            rt.say(f"{crate.name} was not built: {fault}")
            return False
    return not crate.link(f"{to}.o", to)


def run_tests(crate):
    """Runs the tests of a crate without a proof, as `rt try --test` does; gives whether they passed."""
    with tempfile.TemporaryDirectory(prefix=f"rt-edit-{os.getpid()}-unproved-") as room:
        words = trial_of(crate, True, f"{rt.KIT}/toolchain")
        ran = subprocess.run([*rtlib.guarded(), *words], cwd=crate.folder, env={**os.environ, "TMPDIR": room}, **HOW)
    passed = not ran.returncode and TESTED.search(ran.stdout) and ENDED_WELL.search(ran.stdout)
    if not passed:
        print(ran.stdout, flush=True)
    rt.say(f"{crate.name}: its tests, not proved in this run, {'passed' if passed else 'FAILED'}")
    return bool(passed)
