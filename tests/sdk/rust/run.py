#!/usr/bin/env python3
"""The Rust crates beside their tests: laid out, without warnings, packed, and as docs/use/RUST.md says.

    run.py FOLDER TARGET WHAT     FOLDER is what sdk/build made, TARGET a folder for cargo; WHAT is clean, package or page

clean: `cargo fmt`, `cargo clippy` and `cargo doc` say nothing. package: `cargo package` packs both crates, and builds what it packed.
page: the programs of docs/use/RUST.md are the crate's examples, and its line of a refusal is what the library says. The first
program, in a fresh crate that the page's line adds the kit to, and the third one print what that page says; the second one pushes to the
first of several places that takes what it has. It ends with a status other than 0 where one does not hold."""
import os
import pathlib
import re
import shutil
import subprocess
import sys
import tempfile

sys.dont_write_bytecode = True
TOP = pathlib.Path(__file__).resolve().parents[3]
sys.path[:0] = [str(TOP / "tests" / "sdk"), str(TOP / "sdk")]
import exports
import posted
import there

RUST = TOP / "sdk" / "rust"
SECONDS = 1800


class Crates:
    """The workspace, over a kit."""

    def __init__(self, kit, target):
        self.env = {**os.environ, "KOTSKHIN_LIB": f"{kit}/lib", "CARGO_TARGET_DIR": str(target)}
        self.env |= {"RUSTFLAGS": "-D warnings", "RUSTDOCFLAGS": "-D warnings"}

    def cargo(self, *words, folder=RUST):
        command = ["cargo", *words]
        told = subprocess.run(command, cwd=folder, env=self.env, stdin=subprocess.DEVNULL, capture_output=True, timeout=SECONDS, check=False)
        if told.returncode:
            sys.exit(f"{' '.join(command)}: status {told.returncode}\n{(told.stdout + told.stderr).decode(errors='replace')}")
        return told.stdout.decode()

    def clean(self):
        if there.has("Rust: clean", "rustfmt"):
            self.cargo("fmt", "--check")
        if there.has("Rust: clean", "cargo-clippy"):
            self.cargo("clippy", "-q", "--offline", "--locked", "--all-targets", "--", "-D", "warnings")
        self.cargo("doc", "-q", "--offline", "--locked", "--no-deps", "-p", "kotskhin", "-p", "kotskhin-sys")

    def package(self):
        # (cargo keeps what it unpacked, by its version: a home of this run's own has nothing of another run's)
        with tempfile.TemporaryDirectory() as home:
            self.env["CARGO_HOME"] = home
            self.cargo("package", "-q", "--offline", "--locked", "--allow-dirty", "-p", "kotskhin-sys", "-p", "kotskhin")

    def fresh(self, text):
        """What the first program of a page prints in a crate of its own, with the kit added as the page says."""
        with tempfile.TemporaryDirectory() as room:
            folder = pathlib.Path(room, "shop")
            self.cargo("new", "-q", "--vcs", "none", folder)
            line = re.search(r"^cargo (add [^#\n]*)", text, re.M)[1]
            self.cargo(*line.replace("$R", str(TOP)).split(), "-q", "--offline", folder=folder)
            shutil.copy(RUST / "kotskhin" / "examples" / "shop.rs", folder / "src" / "main.rs")
            return self.cargo("run", "-q", "--offline", folder=folder)

    def page(self):
        text = (TOP / "docs" / "use" / "RUST.md").read_text(encoding="utf-8")
        first, third = re.findall(r"^```text\n(.*?)^```$", text, re.M | re.S)
        for name, program in zip(("shop", "first_of", "archive"), re.findall(r"^```rust\n(.*?)^```$", text, re.M | re.S), strict=True):
            if program != (RUST / "kotskhin" / "examples" / f"{name}.rs").read_text(encoding="utf-8").split("\n", 1)[1]:
                sys.exit(f"docs/use/RUST.md: a program is not sdk/rust/kotskhin/examples/{name}.rs")
        says = next(code.says for code in exports.codes() if code.name == "BAD_UNIT")
        if not re.search(rf"^kotskhin: BadUnit: '.*', declared at .*, is refused: {re.escape(says)}$", text, re.M):
            sys.exit(f"docs/use/RUST.md: of a bad unit the library says: {says}")
        if (told := self.fresh(text)) != first:
            sys.exit(f"docs/use/RUST.md: its first program prints\n{told}")
        if (told := self.cargo("run", "-q", "--offline", "--locked", "--example", "archive")) != third:
            sys.exit(f"docs/use/RUST.md: its third program prints\n{told}")
        self.cargo("build", "-q", "--offline", "--locked", "--example", "first_of")
        program = pathlib.Path(self.env["CARGO_TARGET_DIR"]) / "debug" / "examples" / "first_of"

        def run(*words):
            return subprocess.run([program, *words], stdin=subprocess.DEVNULL, capture_output=True, timeout=SECONDS, check=False).returncode

        if fault := posted.first_of(run):
            sys.exit(f"docs/use/RUST.md: its second program: {fault}")


def main():
    kit, target, what = pathlib.Path(sys.argv[1]).resolve(), pathlib.Path(sys.argv[2]).resolve(), sys.argv[3]
    {"clean": Crates.clean, "package": Crates.package, "page": Crates.page}[what](Crates(kit, target))
    return 0


if __name__ == "__main__":
    try:
        sys.exit(main())
    except there.Lacking as fault:
        sys.exit(str(fault))
