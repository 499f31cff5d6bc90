#!/usr/bin/env python3
"""Callers that must not compile.

A folder tests/misuse/CRATE holds callers of a crate, NAME.caller (the gate reads files ending in .rt in crates alone). A
line that the borrow checker must refuse ends in a comment `//~ borrow-eNNNN`, the name of the error. The callers of each
crate are compiled beside it, in a copy of the repository, and the errors must be exactly those: this ends with a status
other than 0 where a misuse compiles, or anything else is refused."""
import pathlib
import re
import shutil
import subprocess
import sys
import tempfile

sys.dont_write_bytecode = True
sys.path.append(str(pathlib.Path(__file__).resolve().parents[1] / "gate"))
import checks

TOP = pathlib.Path(__file__).resolve().parents[2]
ROOT_FILE = "#![tactic(auto)]\n\n{modules}\n\n#[cfg(test)]\nmod tests {{\n    #[test]\n    fn compiles() {{}}\n}}\n"


def wanted(callers):
    """The errors that the callers' comments name: (file, line, error)."""
    found = set()
    for caller in callers:
        for number, line in enumerate(caller.read_text(encoding="utf-8").splitlines(), 1):
            if mark := re.search(r"//~ (borrow-e\d+)$", line):
                found.add((f"{caller.stem}.rt", number, mark.group(1)))
    return found


def told(callers, crate):
    """The errors that compiling the callers gives, and all that was printed."""
    with tempfile.TemporaryDirectory(prefix="misuse-") as room:
        top = pathlib.Path(room)
        shutil.copytree(TOP / "crates", top / "crates", ignore=shutil.ignore_patterns("out"))
        lines = (TOP / "crates.txt").read_text(encoding="utf-8")
        below = re.search(rf"^{crate}\b[^:\n]*:(.*)$", lines, re.MULTILINE).group(1)
        (top / "crates.txt").write_text(f"{lines.rstrip()}\nmisuse: {crate}{below}\n", encoding="utf-8")
        sources = top / "crates" / "misuse" / "src"
        sources.mkdir(parents=True)
        for caller in callers:
            shutil.copy(caller, sources / f"{caller.stem}.rt")
        modules = "\n".join(f"mod {caller.stem};" for caller in callers)
        (sources / "lib.rt").write_text(ROOT_FILE.format(modules=modules), encoding="utf-8")
        ran = subprocess.run(
            ["rt", "try", "--test"], cwd=sources.parent, stdout=subprocess.PIPE, stderr=subprocess.STDOUT, text=True
        )
    errors = re.findall(r"^src/([^:]+):(\d+):\d+: error\[([^\]]+)\]", ran.stdout, re.MULTILINE)
    return {(name, int(line), error) for name, line, error in errors}, ran.stdout


def main():
    failed = False
    for folder in sorted(path for path in (TOP / "tests" / "misuse").iterdir() if path.is_dir()):
        callers = sorted(folder.glob("*.caller"))
        want = wanted(callers)
        got, output = told(callers, folder.name)
        for name, line, error in sorted(want & got):
            checks.note(f"{folder.name}/{name}:{line} {error}", True)
            print(f"refused: {folder.name}/{name}:{line} {error}")
        for name, line, error in sorted(want - got):
            checks.note(f"{folder.name}/{name}:{line} {error}", False)
            print(f"NOT REFUSED: {folder.name}/{name}:{line} {error}")
        for name, line, error in sorted(got - want):
            checks.note(f"{folder.name}/{name}:{line} should compile", False)
            print(f"REFUSED, BUT SHOULD COMPILE: {folder.name}/{name}:{line} {error}")
        if want != got or not want:
            failed = True
            print(output)
    return failed


sys.exit(main())
