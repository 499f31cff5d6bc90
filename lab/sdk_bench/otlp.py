#!/usr/bin/env python3
"""What an export as OTLP costs beside the classes that protoc makes for C++; docs/maintain/PERFORMANCE.md has the figures.

    otlp.py [TURNS]

It makes the classes of tests/interop/otlp_metrics.proto with Debian's protobuf-compiler and libprotobuf-dev, builds otlp.cpp, and runs it in turn with
the part `bytes` of kit_bench (`rt run` in crates/kit_bench builds that), TURNS times (7), all on one processor. Each line is the least of the turns in
nanoseconds for each point, and in parentheses the median. It leaves nothing in the tree."""
import os
import pathlib
import re
import shutil
import statistics
import subprocess
import sys
import tempfile

HERE = pathlib.Path(__file__).resolve().parent
TOP = HERE.parents[1]
KIT_BENCH = TOP / "crates" / "kit_bench" / "out" / "kit_bench"
PROTO = TOP / "tests" / "interop" / "otlp_metrics.proto"
TURNS = 7


def built(room):
    """The program in C++."""
    subprocess.run(["protoc", f"-I{PROTO.parent}", f"--cpp_out={room}", PROTO.name], check=True)
    compiler = shutil.which("clang++") or "c++"
    program = room / "otlp"
    subprocess.run([compiler, "-O2", f"-I{room}", HERE / "otlp.cpp", room / "otlp_metrics.pb.cc", "-lprotobuf", "-lpthread", "-o", program], check=True)
    return program


def told(command):
    """What a program tells on either stream: names, each with its nanoseconds."""
    done = subprocess.run([str(word) for word in command], stdin=subprocess.DEVNULL, capture_output=True, text=True, check=True)
    for line in done.stdout.splitlines():
        yield line[:55].strip(), float(line[55:])
    for name, each in re.findall(r"^(export [a-zA-Z ]+), \d+: ([\d.]+) ns each$", done.stderr, re.M):
        yield f"the kit: {name}", float(each)


def main():
    turns = int(sys.argv[1]) if len(sys.argv) > 1 else TURNS
    os.sched_setaffinity(0, {max(os.sched_getaffinity(0))})
    figures = {}
    with tempfile.TemporaryDirectory() as room:
        ways = [[built(pathlib.Path(room))]]
        if KIT_BENCH.is_file():
            ways.append([KIT_BENCH, "full", "bytes"])
        else:
            print(f"no {KIT_BENCH.relative_to(TOP)}: rt run there makes it")
        for _ in range(turns):
            for way in ways:
                for name, each in told(way):
                    figures.setdefault(name, []).append(each)
    for name, all_told in figures.items():
        print(f"{name:<55} {min(all_told):7.1f} ({statistics.median(all_told):.1f})")


main()
