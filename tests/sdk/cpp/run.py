#!/usr/bin/env python3
"""The C++ wrapper: one of its programs, compiled and run in each way that the machine has.

    run.py FOLDER WHAT      FOLDER is what sdk/build made; WHAT is cases, otel_cases, kit, otel, plugin, forks, misuse, readers, page or
tidy

cases and otel_cases perform the lists that all languages share. kit is what C++ has words of its own for, otel OpenTelemetry's names, and
then what plugin, forks and misuse are by themselves; readers is the periodic readers and exporters, with libcurl where it is. Each is
compiled by g++ under AddressSanitizer and UBSan, and by clang++ plainly; those with threads of their own are run under ThreadSanitizer,
too. plugin is run with libraries that it opens, forks without sanitizers (a fork amid threads may leave their own locks taken), and lines
of misuse must not compile. page is the programs of docs/use/CPP.md: the first one, compiled by that page's line, and the third one print
what it says; the second one, with libcurl, pushes to the first of several places that takes what it has.

Headers come from FOLDER/include. It ends with a status other than 0 where one fails, or where something is not there that GATE_WITHOUT
does not name."""
import os
import pathlib
import re
import subprocess
import sys
import tempfile

sys.dont_write_bytecode = True
HERE = pathlib.Path(__file__).resolve().parent
TOP = HERE.parents[2]
sys.path.insert(0, str(HERE.parent))
import posted
import there

FLAGS = ["-std=c++17", "-Wall", "-Wextra", "-Wpedantic", "-Werror", "-g", "-O1"]
ASAN = ["-O0", "-fsanitize=address,undefined", "-fno-sanitize-recover=all", "-fno-omit-frame-pointer"]
TSAN = ["-fsanitize=thread"]
THREADED = ("otel_cases", "otel", "readers")
# What is run with another word, and what is run without sanitizers.
WITH, PLAIN = {"otel": ("otel", "plugin", "forks", "misuse")}, ("forks",)
WORDS = {word: [str(HERE.parent / f"{word}.json")] for word in ("cases", "otel_cases")}
SECONDS = 1800


def call(*command):
    """Runs a command, and tells its output where it fails."""
    given = {**os.environ, "ASAN_OPTIONS": "detect_leaks=1:quarantine_size_mb=16"}
    told = subprocess.run([str(word) for word in command], stdin=subprocess.DEVNULL, stdout=subprocess.PIPE, stderr=subprocess.STDOUT,
                          timeout=SECONDS, env=given, check=False)
    if told.returncode:
        sys.exit(f"{' '.join(map(str, command))}: status {told.returncode}\n{told.stdout.decode(errors='replace')}")
    return told.stdout.decode(errors="replace")


def curl():
    """The flags of libcurl, where it is."""
    if not there.has("C++", "pkg-config", "libcurl"):
        return []
    told = subprocess.run(["pkg-config", "--cflags", "--libs", "libcurl"], capture_output=True, text=True, check=True).stdout
    return ["-DWITH_CURL", *told.split()]


def compile_program(kit, room, compiler, source, flags):
    """A program, compiled over the kit."""
    program = room / "program"
    more = curl() if source.stem in ("readers", "first_of") else []
    call(compiler, *FLAGS, *flags, f"-I{kit}/include", source, f"-L{kit}/lib", "-lkotskhin", "-pthread", *more, "-o", program)
    return program


def run_program(kit, room, compiler, source, flags, words=()):
    """What a program prints that is compiled over the kit."""
    return call(compile_program(kit, room, compiler, source, flags), *words)


def plugin(kit, room, compiler, flags):
    """What a program prints that opens libraries, whose statics are each one's own."""
    libraries = [room / f"lib{visibility}.so" for visibility in ("hidden", "default")]
    for library in libraries:
        more = ["-shared", "-fPIC", f"-fvisibility={library.stem.removeprefix('lib')}", "-o", library]
        call(compiler, *FLAGS, *flags, f"-I{kit}/include", HERE / "plugin_library.cpp", f"-L{kit}/lib", "-lkotskhin", "-pthread", *more)
    return run_program(kit, room, compiler, HERE / "plugin.cpp", [*flags, "-ldl"], libraries)


def misuse(kit, compiler):
    """What must not compile is refused, each line by the error that stands there."""
    source = HERE / "misuse.cpp"
    command = [str(word) for word in (compiler, "-std=c++17", "-fsyntax-only", f"-I{kit}/include", source)]
    told = subprocess.run(command, stdin=subprocess.DEVNULL, capture_output=True, text=True, timeout=SECONDS, check=False).stderr
    lines = source.read_text(encoding="utf-8").splitlines()
    wanted = {number: error[1] for number, line in enumerate(lines, 1) if (error := re.search("// error: (.*)", line))}
    errors = [(file, int(line), why) for file, line, why in re.findall(r"^(.*?):(\d+):\d+: error: (.*)", told, re.M)]
    is_good = all(file == str(source) and re.search(wanted.get(line, "(?!)"), why) for file, line, why in errors)
    if not is_good or {line for _, line, _ in errors} != set(wanted):
        sys.exit(f"{' '.join(command)}: not the errors that stand there alone\n{told}")
    return f"{len(wanted)} lines are refused"


def page(kit, room, compiler):
    """The programs of docs/use/CPP.md, and what the first and the third one print."""
    text = (TOP / "docs" / "use" / "CPP.md").read_text(encoding="utf-8")
    first, third = re.findall(r"^```text\n(.*?)^```$", text, re.M | re.S)
    sources = [TOP / "sdk" / "cpp" / f"{name}.cpp" for name in ("otel", "first_of", "archive")]
    for source, program in zip(sources, re.findall(r"^```cpp\n(.*?)^```$", text, re.M | re.S), strict=True):
        if program != source.read_text(encoding="utf-8").split("\n", 1)[1]:
            sys.exit(f"docs/use/CPP.md: a program is not {source.relative_to(TOP)}")
    line = re.search(r"^c\+\+( -std=c\+\+17 \$R.*)", text, re.M)[1]
    given = f"cd {room}; R={TOP} PKG_CONFIG_PATH={kit}/lib/pkgconfig; export PKG_CONFIG_PATH; {compiler}"
    if (told := call("sh", "-ec", given + line)) != first:
        sys.exit(f"docs/use/CPP.md: its first program prints\n{told}")
    if (told := run_program(kit, room, compiler, sources[2], [])) != third:
        sys.exit(f"docs/use/CPP.md: its third program prints\n{told}")
    if not there.has("C++", "pkg-config", "libcurl"):
        return
    program = compile_program(kit, room, compiler, sources[1], [])

    def run(*words):
        return subprocess.run([program, *words], stdin=subprocess.DEVNULL, capture_output=True, timeout=SECONDS, check=False).returncode

    if fault := posted.first_of(run):
        sys.exit(f"docs/use/CPP.md: its second program: {fault}")


def tidy(kit):
    """clang-tidy says nothing of the headers, as two programs include them: sdk/cpp/.clang-tidy lists what it looks for."""
    if not there.has("C++", "clang-tidy"):
        return
    for name in ("otel.cpp", "first_of.cpp"):
        if "first_of" not in name or there.has("C++", "pkg-config", "libcurl"):
            call("clang-tidy", "--quiet", TOP / "sdk" / "cpp" / name, "--", "-std=c++17", f"-I{TOP}/sdk/cpp", f"-I{kit}/include")
    print("clang-tidy finds nothing")


def try_word(kit, room, what, compiler, flags):
    """What one of the words comes to, by a compiler."""
    if what == "page":
        return page(kit, room, compiler) or what
    if what == "plugin":
        return plugin(kit, room, compiler, flags)
    if what == "misuse":
        return misuse(kit, compiler)
    return run_program(kit, room, compiler, HERE / f"{what}.cpp", flags, WORDS.get(what, ()))


def main():
    kit, word = pathlib.Path(sys.argv[1]).resolve(), sys.argv[2]
    if word == "tidy":
        return tidy(kit) or 0
    with tempfile.TemporaryDirectory() as made:
        for what in WITH.get(word, (word,)):
            ways = [("g++", [] if what in PLAIN else ASAN), ("clang++", [])] + [("clang++", TSAN)] * (what in THREADED)
            for compiler, flags in ways:
                if there.has("C++", compiler):
                    print(what, compiler, *flags, try_word(kit, pathlib.Path(made), what, compiler, flags).strip(), flush=True)
    return 0


if __name__ == "__main__":
    try:
        sys.exit(main())
    except there.Lacking as fault:
        sys.exit(str(fault))
