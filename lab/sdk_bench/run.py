#!/usr/bin/env python3
"""What a recording costs from other languages, and what exports as bytes cost; docs/maintain/PERFORMANCE.md has the figures.

    run.py FOLDER [TURNS]        FOLDER is what sdk/build made

The programs of one thread run in turn, TURNS times (21), all on one processor: each line is the least of their turns, in nanoseconds for
each recording, and in parentheses the median. In a turn a program tells the least of three rounds of 400,000 recordings, fewer of sets that
are made anew. Then programs of four threads and of bytes, once each: the least of 25 rounds. From C and from Rust, and where Debian's
librust-prometheus-dev and golang-github-prometheus-client-golang-dev are there, beside the crate `prometheus` and client_golang; where
crates/kit_bench is built (`rt run` there), beside the kit's own tally, each turn the least of its rounds of 2,000,000. It leaves nothing in
the tree."""
import os
import pathlib
import re
import shutil
import statistics
import subprocess
import sys
import tempfile

HERE = pathlib.Path(__file__).resolve().parent
KIT_BENCH = HERE.parents[1] / "crates" / "kit_bench" / "out" / "kit_bench"
CRATES, GOCODE = pathlib.Path("/usr/share/cargo/registry"), pathlib.Path("/usr/share/gocode")
ROUNDS, TURNS = 3, 21
# The last of the processors that this may use.
ONE = {max(os.sched_getaffinity(0))}


def run(*command, **given):
    subprocess.run([str(word) for word in command], stdin=subprocess.DEVNULL, check=True, **given)


def on_one_processor():
    os.sched_setaffinity(0, ONE)


def told(program, *words, **given):
    """What a program tells: names, each with its nanoseconds."""
    command = [str(program), *words]
    done = subprocess.run(command, stdin=subprocess.DEVNULL, stdout=subprocess.PIPE, text=True, check=True, **given)
    return {line[:55].strip(): float(line[55:]) for line in done.stdout.splitlines()}


def own():
    """The kit's own recordings at one set of no and of 4 attributes, found and bound, as kit_bench tells them, which is stopped once it has."""
    least = {}
    command = [str(KIT_BENCH), "full", "bound"]
    with subprocess.Popen(command, stdin=subprocess.DEVNULL, stderr=subprocess.PIPE, text=True, preexec_fn=on_one_processor) as bench:
        at = "no thread beside"
        for line in bench.stderr:
            if found := re.fullmatch(r"(.*attributes: \d+)\n", line):
                at = found[1]
            elif found := re.fullmatch(r"([a-z ]+), \d+: ([\d.]+) ns each\n", line):
                least[f"the kit's own: {at}: {found[1]}"] = float(found[2])
            if at.endswith(": 10"):
                break
        bench.kill()
    return least


def by_turns(ways, turns):
    """Runs each in turn, and prints the least and the median of each line."""
    figures = {}
    for _ in range(turns):
        for way in ways:
            for name, each in way().items():
                figures.setdefault(name, []).append(each)
    for name, all_told in figures.items():
        print(f"{name:<55} {min(all_told):7.1f} ({statistics.median(all_told):.1f})", flush=True)


def built(kit, room):
    """The programs: of recordings, and of bytes with the word that asks for them."""
    compiler = shutil.which("clang") or "cc"
    for name in ("bench", "bytes"):
        run(compiler, "-O2", f"-I{kit}/include", HERE / f"{name}.c", f"-L{kit}/lib", "-lkotskhin", "-pthread", "-o", room / name)
    given = {**os.environ, "KOTSKHIN_LIB": f"{kit}/lib", "CARGO_TARGET_DIR": f"{room}/rust"}
    run("cargo", "build", "-q", "--release", "--offline", "--locked", "--example", "bench", cwd=HERE.parents[1] / "sdk" / "rust", env=given)
    recordings, of_bytes = [room / "bench", room / "rust/release/examples/bench"], [(room / "bytes",)]
    if list(CRATES.glob("prometheus-*")):
        shutil.copytree(HERE / "prometheus", room / "prometheus")
        there = ["--config", 'source.crates-io.replace-with="debian"', "--config", f'source.debian.directory="{CRATES}"']
        run("cargo", "build", "-q", "--release", "--offline", *there, cwd=room / "prometheus", env=given)
        recordings.append(room / "rust/release/bench-prometheus")
    if shutil.which("go") and (GOCODE / "src/github.com/prometheus").is_dir():
        given = {**os.environ, "GO111MODULE": "off", "GOPATH": str(GOCODE), "GOCACHE": f"{room}/cache"}
        run("go", "build", "-o", room / "go", ".", cwd=HERE / "go", env=given)
        recordings.append(room / "go")
        of_bytes.append((room / "go", "25", "bytes"))
    return recordings, of_bytes


def main():
    kit = pathlib.Path(sys.argv[1]).resolve()
    turns = int(sys.argv[2]) if len(sys.argv) > 2 else TURNS
    with tempfile.TemporaryDirectory() as made:
        recordings, of_bytes = built(kit, pathlib.Path(made))
        ways = [lambda recording=recording: told(recording, str(ROUNDS), preexec_fn=on_one_processor) for recording in recordings]
        by_turns([own, *ways] if KIT_BENCH.is_file() else ways, turns)
        for program in recordings:
            run(program, "25", "threads")
        for command in of_bytes:
            run(*command)


if __name__ == "__main__":
    main()
