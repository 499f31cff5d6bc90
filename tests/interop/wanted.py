"""What the runners of this folder want beside the toolchain."""
import os


def look(name, is_there):
    """Whether this is used, and how many faults that makes. What is not on this machine is one, unless GATE_WITHOUT names it."""
    if name in os.environ.get("GATE_WITHOUT", "").split(","):
        print(f"interop: {name} is left out, as GATE_WITHOUT says")
        return False, 0
    if not is_there:
        print(f"interop: there is no {name} on this machine, and GATE_WITHOUT does not name it")
    return bool(is_there), 0 if is_there else 1
