#!/usr/bin/env python3
"""The kit in other languages: every caller, in each language.

    run.py [FOLDER]      FOLDER is what sdk/build made; it is made in a folder of this run where none is given

The archive is crates/kit_c/out/libkit_c.a, which `rt lib` builds in crates/kit_c, and the gate before it calls this: nothing is
proved here. The declarations are held to the exports (sdk/build). Then the first script, in C and C++ under each
compiler that is there, in Rust, Go and Python: each must print examples/first.out.

In C every refusal is raised once, with what it says, each growth of each call is refused in turn, threads record and threads read, logs that
are taken in come to what one writer records one by one, and exports go as bytes, which are then changed, cut and made up, or of texts and
sets that were picked to be slow, each plainly and under AddressSanitizer and UBSan with the leak check. A generic exporter prints all that a
gateway holds. Under valgrind, where it is, refusals are raised, and helgrind looks for races of calls that only read.

A handle of each kind in the place of each other is refused by each compiler of C and C++ (kinds.py). In Rust, Go and Python the tests run,
and callers in C and Rust that misuse the library must not compile. The shared library has its name, and gives the calls of the header alone.
Then exports between processes: examples/pipe, a writer in C and a gateway in Rust, and examples/broker, where there is a redis-server.

mypy finds no fault in Python's package, nor in the programs of its page. Linters find nothing: gofmt, go vet and staticcheck, pyflakes and
pycodestyle (python/lint.py), clang-tidy, rustfmt and clippy.

In Go and Python the wrappers perform the cases that all languages share (cases.json, otel_cases.json), the wheel is put into a fresh environment, and the first
programs of docs/use/GO.md and docs/use/PYTHON.md print what these say.

In C++ and Rust they perform the cases, too (cpp/run.py, and a test of the crates). cpp/run.py and rust/run.py do what else is of one of
these alone; package/run.py uses what sdk/package/make packs, in each language by two commands.

The lines that docs/use/SDK.md has one type are run twice over one folder, and each wrapper has each call, or it is said why not
(features.py). The first programs of the languages' pages are short, and print one thing (pages.py). Bugs that the wrappers once had are
brought back, one after the other, and a test must see each (bugs.py).

A language that this machine lacks is a failure, and so is what else is wanted and not there, unless GATE_WITHOUT names it (there.py):
GATE_WITHOUT=go,redis-server leaves these out, and says so.

This ends with a status other than 0 where one fails or differs. It leaves nothing in the tree but what lies in out/."""
import os
import pathlib
import re
import shutil
import subprocess
import sys
import tempfile
import time

sys.dont_write_bytecode = True
TOP = pathlib.Path(__file__).resolve().parents[2]
SDK = TOP / "sdk"
HERE = TOP / "tests" / "sdk"
sys.path.insert(0, str(HERE))
sys.path.append(str(HERE.parent / "gate"))
import checks
import there

ARCHIVE = TOP / "crates" / "kit_c" / "out" / "libkit_c.a"
WANTED = (TOP / "examples" / "first.out").read_bytes()
EXPORTED = (HERE / "exporter.out").read_bytes()
PIPE, BROKER = TOP / "examples" / "pipe", TOP / "examples" / "broker"
C = ["-std=c11", "-Wall", "-Wextra", "-Werror"]
CPP = ["-std=c++17", "-Wall", "-Wextra", "-Werror"]
ASAN = ["-g", "-fsanitize=address,undefined", "-fno-sanitize-recover=all", "-fno-omit-frame-pointer"]
# How long a command may take: some take a minute alone, and ten times as long beside proofs on few processors.
SECONDS = 3600
FEW = ("2000", "50000")
FEW_LISTS = ("1000",)
FEW_POINTS = ("1024",)
FEW_READS = "4"
WRAPPED = ["-Wl,--wrap=malloc,--wrap=realloc"]
FREED = ["-Wl,--wrap=free"]
# What raises refusals in C.
REFUSALS = ("refusals.c", "formats.c", "archives.c")
ERROR = re.compile(r"^// (error\[E\d+\])$", re.M)
WARNING = re.compile(r"^// error: ([\w-]+)$", re.M)


class Run:
    """What was run, and what failed."""

    def __init__(self, kit, room):
        self.kit, self.room, self.passed, self.failed = kit, room, 0, 0
        self.linked = [f"-I{kit}/include", f"-L{kit}/lib", "-lkotskhin", "-pthread"]

    def say(self, what, fault):
        self.passed += not fault
        self.failed += bool(fault)
        checks.note(what, not fault)
        print(f"{what}: {fault or 'ok'}", flush=True)

    def run(self, what, *command, prints=None, **given):
        """Runs a command: it must succeed, and print what is wanted where something is."""
        try:
            done = subprocess.run([str(word) for word in command], stdin=subprocess.DEVNULL, capture_output=True, timeout=SECONDS, **given)
        except (OSError, subprocess.TimeoutExpired) as fault:
            self.say(what, repr(fault))
            return False
        fault = None
        if done.returncode:
            fault = f"status {done.returncode}\n{(done.stdout + done.stderr).decode(errors='replace')}"
        elif prints is not None and done.stdout != prints:
            fault = f"it printed\n{done.stdout.decode(errors='replace')}"
        self.say(what, fault)
        return not fault

    def built(self, what, compiler, source, flags, program):
        """Compiles one file over the kit."""
        libraries = [path for path in self.linked if not path.startswith("-I")]
        return self.run(f"{what}: compiled", compiler, *flags, self.linked[0], source, *libraries, "-o", program)

    def compiled(self, what, compiler, source, flags, prints=None, words=()):
        """Compiles one file over the kit, and runs it."""
        program = self.room / "program"
        if self.built(what, compiler, source, flags, program):
            self.run(what, program, *words, prints=prints, env={**os.environ, "ASAN_OPTIONS": "detect_leaks=1"})

    def exporter(self, what, compiler, flags):
        """The exporter prints all that a gateway holds, whose bytes another program makes."""
        made, program = self.room / "made", self.room / "program"
        are_built = self.built(f"{what}: its gateway", compiler, HERE / "exported.c", flags, made)
        if are_built and self.built(what, compiler, SDK / "c" / "exporter.c", flags, program):
            env = {**os.environ, "ASAN_OPTIONS": "detect_leaks=1"}
            self.run(what, "sh", "-ec", '"$0" > "$0.bytes"; "$1" < "$0.bytes"', made, program, prints=EXPORTED, env=env)

    def covered(self):
        """Whether calls.h has a row for each call that the header has, which reads what it says, and REFUSALS raise each code, but for that of a
        request of 2 GiB, and of points that no export has: no call lets them in."""
        header = (SDK / "c" / "kotskhin.h").read_text(encoding="utf-8")
        wanted, rows = set(), set()
        for name, given in re.findall(r"KIT_CHECKED int32_t kit_(\w+)\(([^)]*)\);", header):
            handles = re.findall(r"(KIT_READS )?kit_(?!(?:taken|row|count) )\w+ \*", given)
            wanted.add((name, *(bool(handle) for handle in handles)))
        for name, hands in re.findall(r"ROW\((\w+), (\{[^()]*\})\)", (HERE / "calls.h").read_text(encoding="utf-8")):
            rows.add((name, *("READ" in found for found in re.findall(r"\{(\w+),", hands))))
        fault = f"not {sorted(row[0] for row in wanted ^ rows)}" if wanted != rows else None
        self.say("C: calls.h has each call, and what it reads", fault)
        answers = re.search(r"What calls answer.*?};", header, re.S)[0]
        codes = set(re.findall(r"(KIT_\w+) = [1-9]", answers)) - {"KIT_TOO_LONG", "KIT_UNSOUND"}
        raised = {found for name in REFUSALS for found in re.findall(r"== (KIT_\w+)", (HERE / name).read_text(encoding="utf-8"))}
        self.say("C: each code is raised", f"not {sorted(codes - raised)}" if codes - raised else None)

    def lacking(self):
        """What is not there is a fault, so that no language is left out unseen."""
        try:
            there.has("None", "no-such-program")
        except there.Lacking:
            self.say("What is not there is a fault", None)
        else:
            self.say("What is not there is a fault", "it is passed over")

    def c(self):
        self.covered()
        for compiler in ("gcc", "clang"):
            if not there.has("C", compiler):
                continue
            self.run(f"C, {compiler}: a kind in the place of another", sys.executable, "-B", HERE / "kinds.py", self.kit / "include", compiler)
            for how, flags in (("", ["-O2"]), (" under sanitizers", ASAN)):
                self.compiled(f"C, {compiler}{how}: the first script", compiler, SDK / "c" / "first.c", C + flags, WANTED)
                self.exporter(f"C, {compiler}{how}: an exporter", compiler, C + flags)
                self.compiled(f"C, {compiler}{how}: refusals", compiler, HERE / "refusals.c", C + flags + WRAPPED + FREED)
                self.compiled(f"C, {compiler}{how}: other formats, and incarnations", compiler, HERE / "formats.c", C + flags + WRAPPED)
                self.compiled(f"C, {compiler}{how}: keepers and archives", compiler, HERE / "archives.c", C + flags + WRAPPED)
                self.compiled(f"C, {compiler}{how}: handles", compiler, HERE / "handles.c", C + flags + WRAPPED)
                self.compiled(f"C, {compiler}{how}: threads", compiler, HERE / "threads.c", C + flags)
                self.compiled(f"C, {compiler}{how}: threads that read", compiler, HERE / "reads.c", C + flags)
                self.compiled(f"C, {compiler}{how}: recorders", compiler, HERE / "taken_in.c", C + flags, words=FEW_LISTS if how else ())
                self.compiled(f"C, {compiler}{how}: bytes", compiler, HERE / "mutated.c", C + flags + WRAPPED, words=FEW if how else ())
                self.compiled(f"C, {compiler}{how}: picked texts and sets", compiler, HERE / "chosen.c", C + flags, words=FEW_POINTS if how else ())
            self.installed(compiler)
            self.stopped(compiler)
            for caller in sorted((HERE / "misuse").glob("*.c")):
                self.warned(compiler, caller)

    def watched(self):
        """Under valgrind, which sees into the archive where sanitizers do not: every refusal, and threads that read."""
        compiler = self.compiler()
        if not there.has("C", "valgrind", compiler):
            return
        program, libraries = self.room / "program", [path for path in self.linked if not path.startswith("-I")]
        for what, source, flags, tool in (
            ("every refusal", "refusals.c", WRAPPED + FREED, ["--leak-check=full", "--track-origins=no"]),
            ("other formats", "formats.c", WRAPPED, ["--leak-check=full", "--track-origins=no"]),
            ("keepers and archives", "archives.c", WRAPPED, ["--leak-check=full", "--track-origins=no"]),
            ("threads that read", "reads.c", [], ["--tool=helgrind"]),
        ):
            command = [compiler, *C, "-g", "-O1", *flags, self.linked[0], HERE / source, *libraries, "-o", program]
            if self.run(f"C, valgrind: {what}: compiled", *command):
                self.run(f"C, valgrind: {what}", "valgrind", "-q", "--error-exitcode=9", *tool, program, FEW_READS)

    def stopped(self, compiler):
        """UBSan stops at a null pointer."""
        program, libraries = self.room / "program", [path for path in self.linked if not path.startswith("-I")]
        if self.run(f"C, {compiler}: a null pointer: compiled", compiler, *C, *ASAN, self.linked[0], HERE / "null.c", *libraries, "-o", program):
            done = subprocess.run([program], capture_output=True, text=True, check=False)
            is_told = done.returncode and "null pointer passed as argument 1" in done.stderr
            self.say(f"C, {compiler}: UBSan stops at a null pointer", None if is_told else f"status {done.returncode}\n{done.stderr}")

    def warned(self, compiler, caller):
        """A caller that a compiler must warn of, and the warning that says so."""
        wanted = WARNING.search(caller.read_text(encoding="utf-8"))[1]
        command = [compiler, *C, self.linked[0], "-c", str(caller), "-o", f"{self.room}/misuse"]
        done = subprocess.run(command, capture_output=True, text=True, check=False)
        told = set(re.findall(r"\[-W(?:error[=,])?(?:-W)?([\w-]+)\]", done.stderr))
        fault = None if done.returncode and told == {wanted} else f"not {wanted} alone\n{done.stderr}"
        self.say(f"C, {compiler}: refused: {caller.stem}", fault)

    def installed(self, compiler):
        """The same by pkg-config, as a service is built."""
        if not there.has("C", "pkg-config"):
            return
        given = {**os.environ, "PKG_CONFIG_PATH": f"{self.kit}/lib/pkgconfig"}
        told = subprocess.run(["pkg-config", "--cflags", "--libs", "kotskhin"], capture_output=True, text=True, env=given, check=False).stdout
        program = self.room / "program"
        if self.run(f"C, {compiler}: compiled by pkg-config", compiler, SDK / "c" / "first.c", *told.split(), "-o", program):
            self.run(f"C, {compiler}: the first script by pkg-config", program, prints=WANTED)

    def cpp(self):
        for compiler in ("g++", "clang++"):
            if not there.has("C++", compiler):
                continue
            self.run(f"C++, {compiler}: a kind in the place of another", sys.executable, "-B", HERE / "kinds.py", self.kit / "include", compiler)
            for how, flags in (("", ["-O2"]), (" under sanitizers", ASAN)):
                self.compiled(f"C++, {compiler}{how}: the first script", compiler, SDK / "cpp" / "first.cpp", CPP + flags, WANTED)
                self.compiled(f"C++, {compiler}{how}: recorders", compiler, HERE / "recorders.cpp", CPP + flags)
        for what in ("cases", "otel_cases", "kit", "otel", "readers", "page", "tidy"):
            self.run(f"C++: {what}", sys.executable, "-B", HERE / "cpp" / "run.py", self.kit, what)

    def rust(self):
        if not there.has("Rust", "cargo"):
            return
        target = self.room / "rust"
        given = {**os.environ, "KOTSKHIN_LIB": f"{self.kit}/lib", "CARGO_TARGET_DIR": str(target), "RUSTFLAGS": "-D warnings"}
        cargo = {"cwd": SDK / "rust", "env": given}
        self.run("Rust: tests", "cargo", "test", "-q", "--offline", "--locked", **cargo)
        self.run("Rust: the first script", "cargo", "run", "-q", "--offline", "--locked", "--example", "first", prints=WANTED, **cargo)
        self.run("Rust: built", "cargo", "build", "-q", "--offline", "--locked", **cargo)
        for caller in sorted((HERE / "misuse").glob("*.rs")):
            self.misused(caller, target / "debug")
        for what in ("clean", "package", "page"):
            self.run(f"Rust: {what}", sys.executable, "-B", HERE / "rust" / "run.py", self.kit, target, what)

    def misused(self, caller, built):
        """A caller that must not compile, and the error that says so."""
        wanted = ERROR.search(caller.read_text(encoding="utf-8"))[1]
        command = ["rustc", "--edition", "2024", "--crate-type", "lib", "--emit", "metadata", "--extern", f"kotskhin={built}/libkotskhin.rlib"]
        command += ["-L", f"dependency={built}/deps", "-o", f"{self.room}/misuse", str(caller)]
        done = subprocess.run(command, capture_output=True, text=True, check=False)
        told = sorted(set(re.findall(r"^error\[E\d+\]", done.stderr, re.M)))
        self.say(f"Rust: refused: {caller.stem}", None if done.returncode and told == [wanted] else f"not {wanted} alone\n{done.stderr}")

    def go(self):
        if not there.has("Go", "go", "pkg-config"):
            return
        given = {"PKG_CONFIG_PATH": f"{self.kit}/lib/pkgconfig", "GOCACHE": f"{self.room}/go", "GOFLAGS": "-mod=mod", "GOPROXY": "off"}
        program = self.room / "program"
        if "HOME" not in os.environ:
            given["STATICCHECK_CACHE"] = f"{self.room}/staticcheck"
        go = {"cwd": SDK / "go", "env": {**os.environ, **given}}
        if self.run("Go: compiled", "go", "build", "-o", program, "./first", **go):
            self.run("Go: the first script", program, prints=WANTED)
        self.run("Go: as gofmt has it", "gofmt", "-l", ".", prints=b"", **go)
        self.run("Go: vetted", "go", "vet", "./...", **go)
        if there.has("Go: staticcheck", "go-staticcheck"):
            self.run("Go: staticcheck", "go-staticcheck", "./...", **go)
        self.run("Go: the shared cases, tests and examples", "go", "test", "-count=1", "-timeout=50m", "./...", **go)
        self.run("Go: the first program of its page", sys.executable, "-B", HERE / "go" / "page.py", env=go["env"])

    def shared(self):
        """The shared library has its name, and gives the calls of the header and nothing else."""
        shared = self.kit / "shared" / "libkotskhin.so.0"
        told = subprocess.run(["nm", "-D", "--defined-only", str(shared)], capture_output=True, text=True, check=False).stdout
        header = (self.kit / "include" / "kotskhin.h").read_text(encoding="utf-8")
        wanted = set(re.findall(r"^KIT_(?:CALL|CHECKED) \w+ (kit_\w+)\(", header, re.M))
        other = {line.split()[-1] for line in told.splitlines()} ^ wanted
        self.say("Shared library: the calls of the header alone", f"not {sorted(other)}" if other else None)
        told = subprocess.run(["readelf", "-d", str(shared)], capture_output=True, text=True, check=False).stdout
        self.say("Shared library: its name", None if "soname: [libkotskhin.so.0]" in told else told)

    def python(self):
        shared = self.kit / "shared" / "libkotskhin.so.0"
        if not shared.is_file():
            raise there.Lacking("there is no shared library, which sdk/build makes by a compiler of C")
        given = {**os.environ, "KOTSKHIN_SO": str(shared)}
        self.run("Python: the first script", sys.executable, "-B", SDK / "python" / "first.py", prints=WANTED, env=given)
        tests = (("the shared cases", "cases"), ("the shared cases of OpenTelemetry's names", "otel_cases"), ("the kit", "kit"))
        names = (("OpenTelemetry's names", "metrics"), ("OpenTelemetry's names in trouble", "trouble"), ("what is brought", "brought"))
        for what, name in (*tests, *names):
            self.run(f"Python: {what}", sys.executable, "-B", HERE / "python" / f"{name}.py", env=given)
        if there.has("Python: lint", "pyflakes3", "pycodestyle"):
            self.run("Python: lint", sys.executable, "-B", HERE / "python" / "lint.py")
        if there.has("Python: types", "mypy"):
            self.run("Python: types", sys.executable, "-B", HERE / "python" / "typed.py")
        if there.has("Python: the wheel", "python3-ensurepip"):
            self.run("Python: the wheel", sys.executable, "-B", HERE / "python" / "package.py", env=given)
        self.broker(given)

    def broker(self, given):
        """Workers and gateways, each a process, over a broker: it compares what the gateways say with what the workers counted."""
        if not there.has("Broker", "redis-server"):
            return
        wanted = (BROKER / "broker.out").read_bytes()
        self.run("Broker: workers and gateways", sys.executable, "-B", BROKER / "run.py", prints=wanted, env=given)

    def pipe(self):
        """A writer in C, a pipe, and a gateway in Rust, whose total is what the writer counted."""
        compiler, gateway = self.compiler(), self.room / "rust" / "debug" / "examples" / "pipe"
        if not there.has("Pipe", compiler, "cargo"):
            return
        writer, libraries = self.room / "writer", self.linked[1:]
        if not self.run("Pipe: the writer compiled", compiler, *C, "-O2", self.linked[0], PIPE / "writer.c", *libraries, "-o", writer):
            return
        with subprocess.Popen([writer], stdin=subprocess.DEVNULL, stdout=subprocess.PIPE, stderr=subprocess.PIPE) as sends:
            done = subprocess.run([gateway], stdin=sends.stdout, capture_output=True, timeout=SECONDS, check=False)
            sends.stdout.close()
            counted, status = sends.stderr.read(), sends.wait(SECONDS)
        fault = None
        if status or done.returncode:
            fault = f"status {status} and {done.returncode}\n{(counted + done.stderr).decode(errors='replace')}"
        elif done.stdout != (PIPE / "pipe.out").read_bytes() or not done.stdout.endswith(b"\n" + counted):
            fault = f"it printed\n{done.stdout.decode(errors='replace')}\nwhere the writer {counted.decode(errors='replace')}"
        self.say("Pipe: what the gateway has is what the writer counted", fault)

    def package(self):
        """What sdk/package/make packs, unpacked into a fresh folder."""
        self.run("Package: two commands in each language", sys.executable, "-B", HERE / "package" / "run.py", self.kit)

    def quick(self):
        """A library that is not proved says so, and is never released; sdk/build --quick makes one where the gate proves all."""
        built = ["--quick"] if os.environ.get("GATE_WHOLE", "") not in ("", "0") else []
        self.run("Quick: the version says what is not proved, and no release is made of it", sys.executable, "-B", HERE / "quick.py", self.kit,
                 *built, env={**os.environ, "GOCACHE": f"{self.room}/go"})

    def bugs(self):
        """Bugs of the wrappers, each brought back."""
        self.run("Bugs brought back: a test sees each", sys.executable, "-B", HERE / "bugs.py", self.kit,
                 env={**os.environ, "GOCACHE": f"{self.room}/go"})

    def documented(self):
        """The lines of docs/use/SDK.md, twice over one folder: what the first turn leaves must not stand in the way of the second."""
        self.run("Docs: what each language has", sys.executable, "-B", HERE / "features.py")
        self.run("Docs: first programs of at most ten lines, which print one thing", sys.executable, "-B", HERE / "pages.py")
        folder = self.room / "documented"
        shutil.copytree(self.kit, folder, symlinks=True)
        page = (TOP / "docs" / "use" / "SDK.md").read_text(encoding="utf-8")
        lines = re.search(r"^```sh\nK=.*?\n(.*?)^```$", page, re.M | re.S)[1].splitlines()
        wants = re.compile(r"\b(cc|c\+\+|pkg-config|cargo|go|python3)(?= )")
        wanted = [line for line in lines if there.has("Docs", *wants.findall(line))]
        given = {**os.environ, "K": str(folder), "PYTHONDONTWRITEBYTECODE": "1"}
        given |= {"CARGO_NET_OFFLINE": "true", "GOCACHE": f"{self.room}/go", "GOPROXY": "off"}
        for turn in ("once", "twice"):
            many = len([line for line in wanted if "first" in line])
            self.run(f"Docs: the first scripts, {turn}", "sh", "-ec", "\n".join(wanted), prints=WANTED * many, cwd=TOP, env=given)

    @staticmethod
    def compiler():
        """A compiler of C that is not left out."""
        return next((name for name in ("gcc", "clang") if name not in there.left_out()), "gcc")


def laid_out(kit):
    """Whether the archive that is there was laid out as an installation."""
    if not ARCHIVE.is_file():
        print(f"there is no {ARCHIVE.relative_to(TOP)}: `rt lib` in crates/kit_c builds it")
        return False
    command = [sys.executable, "-B", str(SDK / "build"), "--archive", str(ARCHIVE), str(kit)]
    return not subprocess.run(command, stdin=subprocess.DEVNULL, check=False).returncode


def main():
    began = time.time()
    with tempfile.TemporaryDirectory() as made:
        room = pathlib.Path(made)
        kit = pathlib.Path(sys.argv[1]).resolve() if len(sys.argv) > 1 else room / "kit"
        if len(sys.argv) < 2 and not laid_out(kit):
            return 1
        run = Run(kit, room)
        in_c, others = (run.c, run.watched, run.shared), (run.cpp, run.rust, run.pipe, run.go, run.python)
        for tried in (run.lacking, *in_c, *others, run.bugs, run.package, run.quick, run.documented):
            try:
                tried()
            except there.Lacking as fault:
                run.say(tried.__name__, str(fault))
    print(f"{run.passed} passed, {run.failed} failed, in {time.time() - began:.0f} s")
    return 1 if run.failed else 0


if __name__ == "__main__":
    sys.exit(main())
