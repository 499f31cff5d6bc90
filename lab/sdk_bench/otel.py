#!/usr/bin/env python3
"""What a recording costs by OpenTelemetry's names, beside Debian's client libraries for Prometheus; docs/maintain/PERFORMANCE.md has the figures.

    otel.py FOLDER [TURNS]        FOLDER is what sdk/build made

A counter is incremented at one set of four attributes, which each recording gives anew as its language gives them: by one thread, on one
processor, and by four. Programs of one language run in turn, TURNS times (7), and a program tells the least of its rounds (5). Each line
is the least of the turns, in nanoseconds for each recording of all threads together, and in parentheses the median: by the clock; then the
least and the median of what processors ran, which other work on the machine changes less. A round of the kit's ends with a collection, and
at its end the total is compared with what was recorded.

Beside them run, where Debian's packages are there, client_golang (golang-github-prometheus-client-golang-dev), python3-prometheus-client
under Debian's own Python, prometheus-cpp (prometheus-cpp-dev) and the crate `prometheus` (librust-prometheus-dev), each by the quicker of
its ways to look a counter up by its labels. It leaves nothing in the tree."""
import os
import pathlib
import re
import shutil
import statistics
import subprocess
import sys
import tempfile

HERE = pathlib.Path(__file__).resolve().parent
SDK, OTEL = HERE.parents[1] / "sdk", HERE / "otel"
CRATES, GOCODE = pathlib.Path("/usr/share/cargo/registry"), pathlib.Path("/usr/share/gocode")
# (Debian's library for Python is of Debian's Python)
PYTHON = "/usr/bin/python3"
MODULE = "module otel\n\ngo 1.19\n\nrequire kotskhin.example/sdk/go v0.0.0\n\nreplace kotskhin.example/sdk/go => {}\n"
ROUNDS, TURNS, FOUR = "5", 7, "4"
ONE = {max(os.sched_getaffinity(0))}
LINE = re.compile(r"(.{55}) *([\d.]+) +([\d.]+)\n")


def run(*command, **given):
    subprocess.run([str(word) for word in command], stdin=subprocess.DEVNULL, check=True, **given)


def cpp(kit, room):
    flags = ["-std=c++17", "-O2"]
    run("c++", *flags, f"-I{kit}/include", OTEL / "bench.cpp", f"-L{kit}/lib", "-lkotskhin", "-lcurl", "-pthread", "-o", room / "cpp")
    yield [room / "cpp"], {}
    if pathlib.Path("/usr/include/prometheus/counter.h").is_file():
        run("c++", *flags, OTEL / "prometheus.cpp", "-lprometheus-cpp-core", "-pthread", "-o", room / "prometheus-cpp")
        yield [room / "prometheus-cpp"], {}


def rust(kit, room):
    given = {**os.environ, "KOTSKHIN_LIB": f"{kit}/lib", "CARGO_TARGET_DIR": f"{room}/rust"}
    run("cargo", "build", "-q", "--release", "--offline", "--locked", "--example", "otel-bench", cwd=SDK / "rust", env=given)
    yield [room / "rust/release/examples/otel-bench"], {}
    if list(CRATES.glob("prometheus-*")):
        shutil.copytree(HERE / "prometheus", room / "prometheus")
        there = ["--config", 'source.crates-io.replace-with="debian"', "--config", f'source.debian.directory="{CRATES}"']
        run("cargo", "build", "-q", "--release", "--offline", *there, cwd=room / "prometheus", env=given)
        yield [room / "rust/release/bench-prometheus"], {"words": ["beside"]}


def go(kit, room):
    made = room / "otel"
    shutil.copytree(OTEL / "go", made)
    (made / "go.mod").write_text(MODULE.format(f"{SDK}/go"), encoding="utf-8")
    given = {**os.environ, "GOCACHE": f"{room}/cache", "PKG_CONFIG_PATH": f"{kit}/lib/pkgconfig", "GOFLAGS": "-mod=mod", "GOPROXY": "off"}
    run("go", "build", "-o", room / "go", ".", cwd=made, env=given)
    yield [room / "go"], {}
    if (GOCODE / "src/github.com/prometheus").is_dir():
        given = {**os.environ, "GO111MODULE": "off", "GOPATH": str(GOCODE), "GOCACHE": f"{room}/cache"}
        run("go", "build", "-o", room / "client_golang", ".", cwd=HERE / "go", env=given)
        yield [room / "client_golang"], {"words": ["beside"]}


def python(kit, _room):
    given = {**os.environ, "KOTSKHIN_SO": f"{kit}/shared/libkotskhin.so.0", "PYTHONPATH": str(SDK / "python"), "PYTHONDONTWRITEBYTECODE": "1"}
    yield [PYTHON, OTEL / "bench.py"], {"env": given}
    if not subprocess.run([PYTHON, "-c", "import prometheus_client"], capture_output=True, check=False).returncode:
        yield [PYTHON, OTEL / "prometheus.py"], {}


def told(command, threads, words=(), **given):
    """What a program tells: names, each with its nanoseconds by the clock and of processors."""
    pinned = {} if threads == FOUR else {"preexec_fn": lambda: os.sched_setaffinity(0, ONE)}
    command = [*map(str, command), ROUNDS, *words, threads]
    done = subprocess.run(command, stdin=subprocess.DEVNULL, stdout=subprocess.PIPE, text=True, check=True, **pinned, **given)
    return {name.strip(): (float(clock), float(processor)) for name, clock, processor in LINE.findall(done.stdout)}


def by_turns(programs, turns):
    """Runs each in turn, and prints the least and the median of each line."""
    figures = {}
    for _ in range(turns):
        for threads in ("1", FOUR):
            for command, how in programs:
                for name, each in told(command, threads, **how).items():
                    figures.setdefault(name, []).append(each)
    for name, all_told in figures.items():
        clock, processor = (f"{min(seconds):7.1f} ({statistics.median(seconds):.1f})" for seconds in zip(*all_told))
        print(f"{name:<55} {clock}, {processor}", flush=True)


def main():
    kit = pathlib.Path(sys.argv[1]).resolve()
    turns = int(sys.argv[2]) if len(sys.argv) > 2 else TURNS
    with tempfile.TemporaryDirectory() as made:
        for language in (cpp, rust, go, python):
            print(f"load {os.getloadavg()[0]:.1f}", flush=True)
            by_turns(list(language(kit, pathlib.Path(made))), turns)


if __name__ == "__main__":
    main()
