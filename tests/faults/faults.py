"""Programs run with faults on demand: refused growths, failed reads and writes (faults.c)."""
import collections
import os
import pathlib
import re
import shutil
import subprocess

HERE = pathlib.Path(__file__).resolve().parent
TOP = HERE.parents[1]
SECONDS = 60
REPORT = re.compile(rb"faults: growths (\d+) refused (\d+) reads (\d+) writes (\d+)\n\Z")

Run = collections.namedtuple("Run", "status out err growths refused reads writes")


def library(room):
    """The library that is preloaded, built in this folder."""
    compiler = shutil.which("cc") or shutil.which("clang")
    if not compiler:
        raise SystemExit("no C compiler: cc or clang")
    built = pathlib.Path(room) / "faults.so"
    subprocess.run([compiler, "-O2", "-Wall", "-Werror", "-shared", "-fPIC", "-o", built, HERE / "faults.c"], check=True)
    return built


def programs(name):
    """The builds of a program that lie in its crate: as clang builds it, and as Rattle's own compiler does."""
    out = TOP / "crates" / name / "out"
    return [path for path in (out / name, out / f"{name}.by-rattle") if path.is_file()]


def run(preloaded, words, given=b"", **faults):
    """A run of a program by these words, with this on its standard input. The faults are those of faults.c, as `growths="3-3"`.

    A status below 0 is the signal that ended it. Where a program ends without a report, the counts are None."""
    said = {f"FAULTS_{name.upper()}": str(value) for name, value in faults.items()}
    ran = subprocess.run(
        words,
        input=given,
        capture_output=True,
        timeout=SECONDS,
        env={**os.environ, "LD_PRELOAD": str(preloaded), **said},
        close_fds=False,
    )
    report = REPORT.search(ran.stderr)
    counts = [int(count) for count in report.groups()] if report else [None] * 4
    return Run(ran.returncode, ran.stdout, ran.stderr[: report.start()] if report else ran.stderr, *counts)
