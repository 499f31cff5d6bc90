"""What this machine has. What it lacks is a fault, unless GATE_WITHOUT names it, as GATE_WITHOUT=go,redis-server: a run that passes has
tried each language."""
import os
import shutil
import subprocess
import sys


class Lacking(Exception):
    """Something is wanted that is not there."""


def left_out():
    """What is left out on purpose."""
    return set(os.environ.get("GATE_WITHOUT", "").split(",")) - {""}


def is_there(name):
    """Whether a program answers, pkg-config knows a library, or Python has a module, as the gate names it: python3-ensurepip."""
    if name.startswith("python3-"):
        return not subprocess.run([sys.executable, "-c", f"import {name[8:]}"], capture_output=True, check=False).returncode
    if name.startswith("lib"):
        return is_there("pkg-config") and not subprocess.run(["pkg-config", "--exists", name], check=False).returncode
    if name == "valgrind" or not shutil.which(name):
        return bool(shutil.which(name))
    asked = "version" if name == "go" else "--version"
    return not subprocess.run([name, asked], capture_output=True, stdin=subprocess.DEVNULL, check=False).returncode


def has(what, *names):
    """Whether all of these are there. What is left out on purpose is told, and nothing of it is tried; what else is not there is a fault."""
    for name in names:
        if name in left_out():
            print(f"{what}: {name} is left out, as GATE_WITHOUT says", flush=True)
            return False
        if not is_there(name):
            raise Lacking(f"there is no {name} on this machine, and GATE_WITHOUT does not name it")
    return True
