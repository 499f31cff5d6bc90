"""The archive of kit_c without any proof, for who wants to try the kit before its proofs are done.

The compiler that `rt try` runs makes modules of programs alone (tests/gate/unproved.py). So a copy of kit_c gets a `main` that names each
export, in calls that are never made. In the module's text each export then gets the name by which C calls it, and what began with `main`
is called by nobody. Nothing else differs, but for the version: the copy's tells NOT_PROVED more, and the archive defines MARK."""
import copy
import pathlib
import re
import shutil
import subprocess
import sys
import tempfile

import exports
from laid_out import MARK, NOT_PROVED

TOP = pathlib.Path(__file__).resolve().parents[1]
sys.path.append(str(TOP / "tests" / "gate"))

SUM = "MAJOR * 65_536 + MINOR * 256 + PATCH"
NEVER = "\nfn never<T>() -> T {\n    loop {}\n}\n"
NAMED = re.compile(r'@"kit_c::\w+::(kit_\w+)"')


class Fault(Exception):
    """Why there is no archive."""


def calls():
    """The module and the name of each export, and how many parameters it has in Rattle."""
    for module, text in exports.sources():
        for _, name, given, _, _ in exports.EXPORT.findall(text):
            yield module, name, len([it for it in re.split(r",\s*", given.strip().rstrip(",")) if it])


def program(crate, folder):
    """The copy of the crate as a program, in a folder."""
    for part in ("src", "specs"):
        shutil.copytree(f"{crate.folder}/{part}", folder / part)
    src = folder / "src"
    version = (src / "version.rt").read_text(encoding="utf-8")
    if version.count(SUM) != 1:
        raise Fault(f"version.rt has not {SUM!r} once")
    (src / "version.rt").write_text(version.replace(SUM, f"{NOT_PROVED} + {SUM}"), encoding="utf-8")
    lines = [f"{module}::{name}({', '.join(['never()'] * given)});" for module, name, given in calls()]
    named = "".join(f"    if never::<bool>() {{\n        {it}\n    }}\n" for it in lines)
    (src / "main.rt").write_text(f"{(src / 'lib.rt').read_text(encoding='utf-8')}{NEVER}\nfn main() {{\n{named}}}\n", encoding="utf-8")
    (src / "lib.rt").unlink()
    made = copy.copy(crate)
    made.folder, made.is_program, made.is_static = str(folder), True, False
    return made


def named_for_c(lines, names):
    """The lines of a module's text, in which each export has the name by which C calls it."""
    for line in lines:
        if "kit_c::" in line:
            found = NAMED.search(line)
            if line.startswith("define internal ") and found and found[1] in names and line.index(found[0]) < line.index("("):
                line = line.replace("define internal ", "define ", 1)
            line = NAMED.sub(lambda it: f"@{it[1]}" if it[1] in names else it[0], line)
        if line.startswith("define") and "@main(" in line:
            line = re.sub(r"^define (.*)@main\(", r"define internal \1@never_called(", line)
        yield line


def compiled(unproved, crate, room):
    """The object file of the crate's copy, whose exports have their names in C."""
    module, words = unproved.module_of(crate, room)
    text, named, names = room / "module.ll", room / "named.ll", {name for _, name, _ in calls()}
    unproved.compiled([unproved.clang(), "-S", "-emit-llvm", "-x", "ir", "-O0", "-Xclang", "-disable-llvm-passes"], module, text)
    with text.open(encoding="utf-8") as lines, named.open("w", encoding="utf-8") as written:
        written.writelines(named_for_c(lines, names))
        written.write(f"\n@{MARK} = constant i8 1\n")
    unproved.compiled(words, named, room / "kit.o", "-fPIC", "-O2")
    return room / "kit.o"


def archive(into):
    """Makes the archive."""
    # (only here, since it wants the toolchain)
    import unproved
    from kit import rtlib

    crate = next(it for it in rtlib.crates_below(str(TOP)) if it.name == "kit_c")
    with tempfile.TemporaryDirectory(prefix="kotskhin-quick-") as made:
        room = pathlib.Path(made)
        try:
            kit = compiled(unproved, program(crate, room / "kit_c"), room)
        except unproved.NotBuilt as fault:
            raise Fault(f"kit_c is not compiled:\n{fault}") from None
        into.unlink(missing_ok=True)
        subprocess.run(["ar", "rc", str(into), str(kit)], check=True)
