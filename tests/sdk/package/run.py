#!/usr/bin/env python3
"""What sdk/package/make packs: unpacked into a fresh folder, it is used by two commands in each language.

    run.py FOLDER      FOLDER is what sdk/build made

The commands are those of the package's README.md, which are run as they stand. Then a project of CMake in C and one in C++, and the same
package once more, which must be the same bytes. It ends with a status other than 0 where one fails or prints other than it should, or
where something is not there that GATE_WITHOUT does not name."""
import hashlib
import os
import pathlib
import re
import shutil
import subprocess
import sys
import tempfile

sys.dont_write_bytecode = True
TOP = pathlib.Path(__file__).resolve().parents[3]
sys.path.insert(0, str(TOP / "tests" / "sdk"))
import there

SDK = TOP / "sdk"
FIRST, VERSION = ((TOP / name).read_text(encoding="utf-8") for name in ("examples/first.out", "VERSION"))
SECONDS = 1800
PROJECT = """cmake_minimum_required(VERSION 3.16)
project(shop LANGUAGES {languages})
find_package(kotskhin 0.1 REQUIRED{components})
add_executable(shop {source})
target_link_libraries(shop {target})
"""


def shop():
    """What the first program with OpenTelemetry's names prints."""
    text = (TOP / "docs" / "use" / "CPP.md").read_text(encoding="utf-8")
    return re.search(r"^```text\n(.*?)^```$", text, re.M | re.S)[1]


class Package:
    """What was unpacked, and a room for fresh folders."""

    def __init__(self, room, kit):
        self.room, self.failed = room, 0
        self.file = self.packed(kit, room / "one")
        is_same = self.sum(self.file) == self.sum(self.packed(kit, room / "two"))
        self.say("packed again it is the same bytes", None if is_same else "it is not")
        subprocess.run(["tar", "-xzf", self.file, "-C", room], check=True)
        self.folder = room / self.file.name.removesuffix(".tar.gz")
        self.env = {**os.environ, "D": str(self.folder), "PKG_CONFIG_PATH": f"{self.folder}/lib/pkgconfig", "CARGO_NET_OFFLINE": "true"}
        self.env |= {"GOPROXY": "off", "GOFLAGS": "-mod=mod", "GOCACHE": f"{room}/gocache", "PIP_DISABLE_PIP_VERSION_CHECK": "1"}
        self.env.pop("KOTSKHIN_LIB", None)
        self.env.pop("KOTSKHIN_SO", None)

    @staticmethod
    def packed(kit, into):
        subprocess.run([sys.executable, "-B", SDK / "package" / "make", "--kit", kit, into], stdout=subprocess.DEVNULL, check=True)
        return next(into.glob("*.tar.gz"))

    @staticmethod
    def sum(file):
        return hashlib.sha256(file.read_bytes()).hexdigest()

    def say(self, what, fault):
        self.failed += bool(fault)
        print(f"{what}: {fault or 'ok'}", flush=True)

    def fresh(self, name):
        """A fresh folder, with a program where a language wants it there."""
        made = self.room / name
        made.mkdir()
        if name == "rust":
            (made / "src").mkdir()
            shutil.copy(self.folder / "examples" / "shop.rs", made / "src" / "main.rs")
        if name == "go":
            shutil.copy(self.folder / "examples" / "first.go", made / "main.go")
        return made

    def ran(self, what, folder, commands, wanted):
        """Runs commands in a folder; the last prints what is wanted, and nothing but it stands at the end."""
        done = subprocess.run(["sh", "-ec", commands], cwd=folder, env=self.env, stdin=subprocess.DEVNULL, capture_output=True,
                              timeout=SECONDS, text=True, check=False)
        fault = None
        if done.returncode or not done.stdout.endswith(wanted):
            fault = f"status {done.returncode}\n{done.stdout}{done.stderr}"
        self.say(what, fault)

    def by_readme(self):
        """Each language, as README.md has it."""
        wants = {"c": ("cc", FIRST), "cpp": ("c++", shop()), "rust": ("cargo", shop()), "go": ("go", FIRST), "python": ("python3", FIRST)}
        wants["service"] = ("go", f"kotskhin-gateway {VERSION}")
        text = (self.folder / "README.md").read_text(encoding="utf-8")
        for turn, (name, commands) in enumerate(re.findall(r"^```sh (\w+)\n(.*?)^```$", text, re.M | re.S)):
            program, wanted = wants[name]
            if not there.has(name, program, "pkg-config", *(["python3-ensurepip"] if name == "python" else [])):
                continue
            folder = self.fresh(name if not (self.room / name).exists() else f"{name}{turn}")
            self.ran(f"{name}, by README.md", folder, commands, wanted)

    def by_cmake(self):
        if not there.has("CMake", "cmake"):
            return
        for name, languages, source, target, components, wanted in (
            ("C", "C", "first.c", "kotskhin::kotskhin", "", FIRST),
            ("C, shared", "C", "first.c", "kotskhin::shared", "", FIRST),
            ("C++", "CXX", "shop.cpp", "kotskhin::cpp", "", shop()),
            ("C++ with libcurl", "C CXX", "shop.cpp", "kotskhin::http", " COMPONENTS http", shop()),
        ):
            if "libcurl" in name and not there.has(name, "pkg-config", "libcurl"):
                continue
            folder = self.room / f"cmake {name}"
            folder.mkdir()
            shutil.copy(self.folder / "examples" / source, folder)
            project = PROJECT.format(languages=languages, source=source, target=target, components=components)
            (folder / "CMakeLists.txt").write_text(project, encoding="utf-8")
            commands = "cmake -DCMAKE_PREFIX_PATH=$D -B built && cmake --build built && built/shop"
            self.ran(f"{name}, by CMake", folder, commands, wanted)


def main():
    with tempfile.TemporaryDirectory() as room:
        package = Package(pathlib.Path(room), pathlib.Path(sys.argv[1]).resolve())
        package.by_readme()
        package.by_cmake()
    return 1 if package.failed else 0


if __name__ == "__main__":
    try:
        sys.exit(main())
    except there.Lacking as fault:
        sys.exit(str(fault))
