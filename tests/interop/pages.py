#!/usr/bin/env python3
"""Pages of page_kit beside Prometheus' own readers.

    pages.py

The pages are the constants of crates/page_kit/src/tests.rt, to which the crate's tests hold `openmetrics` and `prometheus`: a page is a
list of parts. `promtool` checks each page of the text format, and both parsers of Prometheus' client for Python read theirs: no sample
may stand twice, and the families are those that the page's metadata names. A reader that is not on this machine is a fault, unless
GATE_WITHOUT names it, as GATE_WITHOUT=promtool,python3-prometheus-client.

This ends with a status other than 0 where one refuses a page."""
import json
import pathlib
import re
import shutil
import subprocess
import sys
import typing

sys.dont_write_bytecode = True
sys.path.append(str(pathlib.Path(__file__).resolve().parents[1] / "gate"))
import checks
import wanted

TESTS = pathlib.Path(__file__).resolve().parents[2] / "crates" / "page_kit" / "src" / "tests.rt"
PART = re.compile(r'^const (\w+): &str =\s+("(?:[^"\\]|\\.)*");', re.M | re.S)
PAGE = re.compile(r"^const (\w+): \[&str; \d+\] = \[([^]]*)\];", re.M)
# A status of promtool: the page was read, and there are remarks on its names.
REMARKS = 3
READER = """
import sys
from prometheus_client.openmetrics.parser import text_string_to_metric_families as openmetrics
from prometheus_client.parser import text_string_to_metric_families as prometheus
page = sys.stdin.read()
seen = set()
for family in (openmetrics if sys.argv[1] == "openmetrics" else prometheus)(page):
    print(family.name)
    for sample in family.samples:
        key = (sample.name, tuple(sorted(sample.labels.items())))
        if key in seen:
            sys.exit(f"{key} stands twice")
        seen.add(key)
"""


class Page(typing.NamedTuple):
    """A page: the name of its constant, its format, and its text."""

    name: str
    form: str
    text: str


def pages():
    """Each page of the tests, in their order."""
    tests = TESTS.read_text(encoding="utf-8")
    parts = {name: json.loads(literal.replace("\n", "\\n")) for name, literal in PART.findall(tests)}
    for name, names in PAGE.findall(tests):
        text = "".join(parts[name] for name in re.findall(r"\w+", names))
        yield Page(name, "openmetrics" if text.endswith("# EOF\n") else "prometheus", text)


def families(text):
    """The families that the metadata of a page names."""
    return set(re.findall(r"^# TYPE (\S+) ", text, re.M))


def python():
    """A Python that has Prometheus' client, if there is one."""
    for python in (sys.executable, "/usr/bin/python3"):
        if subprocess.run([python, "-c", "import prometheus_client"], capture_output=True, check=False).returncode == 0:
            return python
    return None


def fault_of(reader, page):
    """What the client's parser has against a page."""
    said = subprocess.run([reader, "-c", READER, page.form], input=page.text, capture_output=True, text=True, timeout=60, check=False)
    if said.returncode:
        return said.stderr
    told = families(page.text)
    read = {name + "_total" if page.form == "prometheus" and name + "_total" in told else name for name in said.stdout.split()}
    return "" if read == told else f"the parser reads the families {sorted(read)}"


def remarks_of(page):
    """What promtool has against a page of the text format; what it remarks on names is none."""
    said = subprocess.run(["promtool", "check", "metrics"], input=page.text, capture_output=True, text=True, timeout=60, check=False)
    return said.stderr if said.returncode not in (0, REMARKS) else ""


def main():
    reader = python()
    reads, faults = wanted.look("python3-prometheus-client", reader)
    looks, more = wanted.look("promtool", shutil.which("promtool"))
    faults += more
    for page in pages():
        fault = fault_of(reader, page) if reads else ""
        if looks and page.form == "prometheus":
            fault += remarks_of(page)
        faults += bool(fault)
        checks.note(page.name, not fault)
        print(f"{page.name}: {fault or 'ok'}")
    return min(faults, 1)


if __name__ == "__main__":
    sys.exit(main())
