#!/usr/bin/env python3
"""Installs what the runners of tests/ want beside the toolchain, as Debian packages it.

    python3 tests/gate/packages.py [--list]     with --list it only tells what is there and what is not

What is there already is left as it is, and then nothing is asked of a registry. Where something is still not there in the end, this says
which runner wants it, and ends with status 1: a gate that passes has tried each language. GATE_WITHOUT names what is left out on purpose,
as GATE_WITHOUT=go,redis-server: then the runners say what they leave out."""
import os
import shutil
import subprocess
import sys
import typing

# The Python that Debian's modules are for; another may come first on the path.
PYTHON = "/usr/bin/python3"


class Want(typing.NamedTuple):
    """Something that a runner calls, the package that has it, and whose it is."""

    name: str
    package: str
    runner: str

    def is_there(self):
        if self.name.startswith("python3-"):
            module = self.name.removeprefix("python3-").replace("-", "_")
            return subprocess.run([PYTHON, "-c", f"import {module}"], check=False, capture_output=True).returncode == 0
        if self.name.startswith("lib"):
            return subprocess.run(["pkg-config", "--exists", self.name], check=False, capture_output=True).returncode == 0
        return shutil.which(self.name) is not None


WANTED = [
    Want("pkg-config", "pkg-config", "tests/sdk"),
    Want("gcc", "gcc", "tests/sdk"),
    Want("g++", "g++", "tests/sdk"),
    Want("clang", "clang", "tests/sdk"),
    Want("valgrind", "valgrind", "tests/sdk"),
    Want("go", "golang-go", "tests/sdk, tests/service"),
    Want("redis-server", "redis-server", "tests/sdk, examples/broker"),
    Want("ip", "iproute2", "tests/service"),
    Want("iptables", "iptables", "tests/service"),
    Want("cmake", "cmake", "tests/sdk"),
    Want("libcurl", "libcurl4-openssl-dev", "tests/sdk"),
    Want("python3-ensurepip", "python3-venv", "tests/sdk"),
    Want("mypy", "mypy", "tests/sdk"),
    Want("pyflakes3", "pyflakes3", "tests/sdk"),
    Want("pycodestyle", "pycodestyle", "tests/sdk"),
    Want("go-staticcheck", "go-staticcheck", "tests/sdk, tests/service"),
    Want("clang-tidy", "clang-tidy", "tests/sdk"),
    Want("protoc", "protobuf-compiler", "tests/interop"),
    Want("promtool", "prometheus", "tests/interop"),
    Want("prometheus", "prometheus", "tests/interop, tests/service"),
    Want("prometheus-pushgateway", "prometheus-pushgateway", "tests/interop"),
    Want("python3-prometheus-client", "python3-prometheus-client", "tests/interop"),
]


def missing():
    """What is not there, but for what is left out on purpose."""
    left_out = set(os.environ.get("GATE_WITHOUT", "").split(","))
    return [it for it in WANTED if it.name not in left_out and not it.is_there()]


def install(packages):
    """Installs packages; whether they come is seen afterwards. Their services are not started."""
    quiet = {**os.environ, "DEBIAN_FRONTEND": "noninteractive", "RUNLEVEL": "1"}
    for words in (["update", "-qq"], ["install", "-y", "-qq", "--no-install-recommends", *packages]):
        subprocess.run(["apt-get", *words], env=quiet, stdin=subprocess.DEVNULL, stdout=subprocess.DEVNULL, check=False)


def main():
    wanted = missing()
    if wanted and "--list" not in sys.argv[1:] and shutil.which("apt-get"):
        install(sorted({it.package for it in wanted}))
        wanted = missing()
    for it in wanted:
        print(f"there is no {it.name}, which {it.runner} wants (Debian's {it.package})")
    print(f"packages: {len(WANTED) - len(wanted)} of {len(WANTED)} are there")
    return 1 if wanted else 0


if __name__ == "__main__":
    sys.exit(main())
