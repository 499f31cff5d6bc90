#!/usr/bin/env python3
"""Linters of Python: pyflakes finds nothing in the SDKs, their tests and the service's, and pycodestyle nothing in the SDKs, of which
setup.cfg has what is asked. (Debian has no ruff.) It ends with a status other than 0 where they find something."""
import pathlib
import re
import subprocess
import sys

HERE = pathlib.Path(__file__).resolve().parent
TOP = HERE.parents[2]
SDK, TESTS = [TOP / "sdk"], [TOP / "tests" / "sdk", TOP / "tests" / "service"]
# (the package gives each refusal by its name, which errors.__all__ lists)
STAR = re.compile(r"/__init__\.py:.* '(from kotskhin\.errors import \*' used; |kotskhin\.errors\.\*' imported but unused)")


def find(rooms, *command):
    """The lines that a linter prints."""
    done = subprocess.run([*command, *map(str, rooms)], stdin=subprocess.DEVNULL, capture_output=True, text=True, check=False)
    lines = (done.stdout + done.stderr).splitlines()
    if done.returncode and not lines:
        sys.exit(f"{command[0]}: status {done.returncode}")
    return [line.replace(f"{TOP}/", "") for line in lines]


def main():
    faults = [line for line in find(SDK + TESTS, "pyflakes3") if not STAR.search(line)]
    faults += find(SDK, "pycodestyle", f"--config={HERE / 'setup.cfg'}")
    print("\n".join(faults) or "pyflakes and pycodestyle find nothing")
    return 1 if faults else 0


if __name__ == "__main__":
    sys.exit(main())
