#!/usr/bin/env python3
"""A map of the proofs: each module of lemmas, what it is about, and whose proofs cite it.

    tests/docs/proofs.py [CRATE..]      of these crates, or of all
    tests/docs/proofs.py --uncited      the modules that nothing cites

A module is a file of a crate's proofs/ that is no proof of one function: crates/CRATE/proofs/NAME.antt. It is cited by proofs of functions (their files in folders of
proofs/), by a tactic in the sources (`using(crate::proofs::NAME::..)`), and by other modules."""
import collections
import pathlib
import re
import sys

TOP = pathlib.Path(__file__).resolve().parents[2]
USE = re.compile(r"\bRattle\.(\w+)\.proofs\.((?:\w+\.)*)(\w+)\b")
USING = re.compile(r"crate::proofs::(\w+)")
PROOFS = {"Answers.antt", "Invariants.antt", "Proof.antt"}


def modules():
    """Each module, as (crate, name), with its file."""
    files = [file for file in sorted(TOP.glob("crates/*/proofs/*.antt")) if file.name not in PROOFS | {"Lib.antt"}]
    return {(file.parts[-3], file.stem): file for file in files}


def about(file):
    first = file.read_text(encoding="utf-8").split("\n", 1)[0]
    return first.removeprefix("--").strip() if first.startswith("--") else ""


def citers(known):
    """Of each module who cites it: functions by their folder of proofs or their source file, and other modules."""
    found = collections.defaultdict(set)
    for file in TOP.glob("crates/*/proofs/**/*.antt"):
        crate, inside = file.parts[len(TOP.parts) + 1], file.relative_to(file.parents[len(file.parts) - len(TOP.parts) - 4])
        whose = f"{crate}/{inside.parent}" if file.name in PROOFS else f"{crate}/{file.stem}"
        for of, path, name in USE.findall(file.read_text(encoding="utf-8")):
            for module in [(of, name), *((of, part) for part in path.split(".") if part)]:
                if module in known and file != known[module]:
                    found[module].add(whose)
    for file in TOP.glob("crates/*/src/**/*.rt"):
        crate = file.parts[len(TOP.parts) + 1]
        for name in USING.findall(file.read_text(encoding="utf-8")):
            if (crate, name) in known:
                found[crate, name].add(f"{crate}/{file.relative_to(TOP / 'crates' / crate / 'src')}")
    return found


def main(words):
    known = modules()
    found = citers(known)
    if words == ["--uncited"]:
        lonely = [f"{crate}/proofs/{name}.antt" for crate, name in known if not found[crate, name]]
        print("\n".join(lonely) or "each module is cited")
        return 1 if lonely else 0
    for (crate, name), file in known.items():
        if not words or crate in words:
            whose = sorted(one.removeprefix(f"{crate}/") for one in found[crate, name])
            print(f"{crate}/{name}: {about(file)}\n    cited by {len(whose)}: {', '.join(whose[:8])}{' ..' if whose[8:] else ''}")
    return 0


if __name__ == "__main__":
    sys.exit(main(sys.argv[1:]))
