"""What a runner of tests/ tells the gate of each of its checks: the gate counts them one by one, and names those that fail.

The gate gives a runner the name of a file by GATE_CHECKS. Without one, nothing is told."""
import os

FILE = "GATE_CHECKS"
# So much of what a check is called is told.
MOST = 200


def note(what, is_passed):
    """Tells what came of a check."""
    tell("1" if is_passed else "failed", what)


def note_all(what, tried, wrong):
    """Tells what came of so many checks of one kind, of which these were not as told."""
    for it in wrong:
        tell("failed", f"{what}: {it}")
    if tried > len(wrong):
        tell(str(tried - len(wrong)), what)


def tell(came, what):
    file = os.environ.get(FILE)
    if file:
        with open(file, "a", encoding="utf-8") as lines:
            lines.write(f"{came}\t{' '.join(str(what).split())[:MOST]}\n")


def read(file):
    """How many checks passed, and the names of those that failed."""
    passed, failed = 0, []
    with open(file, encoding="utf-8") as lines:
        for line in lines:
            came, _, name = line.rstrip("\n").partition("\t")
            if came == "failed":
                failed.append(name)
            else:
                passed += int(came)
    return passed, failed
