#!/usr/bin/env python3
"""Fleets by the built program: a thousand with exact totals, what other options print, words that it refuses, and a full device.

    tests/fleets/run.py [COUNT]     COUNT fleets in place of a thousand

This ends with a status other than 0 where one is not as told, or where there is no program."""
import pathlib
import subprocess
import sys

sys.dont_write_bytecode = True
sys.path.append(str(pathlib.Path(__file__).resolve().parents[1] / "gate"))
import checks

TOP = pathlib.Path(__file__).resolve().parents[2]
BUILDS = ("otm", "otm.by-rattle")
SECONDS = 60
COUNT = 1_000

MANY = ["--writers", "2", "--recorders", "4", "--each", "1000", "--gateways", "3"]

# Options, and the totals that each gateway tells.
TOTALS = [
    ([], 2, 4_000),
    (["--writers", "2", "--recorders", "3", "--each", "1000", "--gateways", "2"], 2, 6_000),
    (["--each", "0"], 2, 0),
    (["--writers", "1", "--recorders", "2", "--each", "0"], 2, 0),
    (["--writers", "8", "--recorders=3", "--each", "0", "--gateways", "1"], 1, 0),
    (["--each=1", "--writers=8", "--recorders=8", "--gateways=8"], 8, 64),
    # each option at its least and at its greatest
    (["--writers", "1"], 2, 2_000),
    (["--writers", "8", "--each", "10"], 2, 160),
    (["--recorders", "1"], 2, 2_000),
    (["--recorders", "8", "--each", "10"], 2, 160),
    (["--gateways", "1"], 1, 4_000),
    (["--gateways", "8"], 8, 4_000),
    (["--each", "1000000", "--writers", "1", "--recorders", "2", "--gateways", "1"], 1, 2_000_000),
    (["--each", "+5", "--writers", "+1"], 2, 10),
]

REFUSED = [
    ["--writers", "0"],
    ["--writers", "9"],
    ["--recorders", "0"],
    ["--recorders", "9"],
    ["--gateways", "0"],
    ["--gateways", "9"],
    ["--each", "1000001"],
    ["--each", "-1"],
    ["--each", "x"],
    ["--each"],
    ["--writer", "1"],
    ["run"],
    ["writers", "2"],
]


def wrong(program, options, gateways, total):
    """What a fleet does otherwise than told, or an empty text."""
    text = "".join(f"gateway {number} total {total}\n" for number in range(1, gateways + 1)).encode()
    ran = subprocess.run([program, "fleet", *options], stdin=subprocess.DEVNULL, capture_output=True, timeout=SECONDS)
    is_told = (ran.returncode, ran.stdout, ran.stderr) == (0, text, b"")
    return "" if is_told else f"{options}: status {ran.returncode}, wrote {ran.stdout!r}, and on the standard error {ran.stderr!r}"


def taken(program, options):
    """What the program does with options that it refuses otherwise than with status 2 and a text on the standard error."""
    ran = subprocess.run([program, "fleet", *options], stdin=subprocess.DEVNULL, capture_output=True, timeout=SECONDS)
    is_refused = ran.returncode == 2 and not ran.stdout and ran.stderr.startswith(b"error: ")
    return "" if is_refused else f"{options}: status {ran.returncode}, wrote {ran.stdout!r}, and on the standard error {ran.stderr!r}"


def unwritten(program):
    """What a fleet does otherwise than end in status 4 where the output is a full device."""
    with open("/dev/full", "wb") as full:
        ran = subprocess.run([program, "fleet"], stdin=subprocess.DEVNULL, stdout=full, stderr=subprocess.PIPE, timeout=SECONDS)
    is_told = (ran.returncode, ran.stderr) == (4, b"write failed\n")
    return "" if is_told else f"a full device: status {ran.returncode}, and on the standard error {ran.stderr!r}"


def main():
    count = int(sys.argv[1]) if len(sys.argv) > 1 else COUNT
    programs = [path for path in (TOP / "crates" / "otm" / "out" / name for name in BUILDS) if path.is_file()]
    failed = not any(path.name == BUILDS[0] for path in programs)
    if failed:
        print("NO PROGRAM: rt ci, or rt run in crates/otm, makes the program")
    for program in programs:
        faults = [wrong(program, *row) for row in TOTALS] + [taken(program, options) for options in REFUSED] + [unwritten(program)]
        faults += [wrong(program, MANY, 3, 8_000) for _ in range(count)]
        tried, faults = len(faults), [fault for fault in faults if fault]
        checks.note_all(f"{program.name}: fleets", tried, faults)
        for fault in faults[:6]:
            print(f"{program.name}: NOT AS TOLD: {fault}")
        print(f"{program.name}: {count + len(TOTALS)} fleets, {len(REFUSED)} refused words, a full device: {f'{len(faults)} NOT AS TOLD' if faults else 'as told'}")
        failed |= bool(faults)
    return failed


sys.exit(main())
