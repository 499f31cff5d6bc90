"""Types: mypy --strict over the package, over the programs of docs/use/PYTHON.md as their users check them, and over wrong uses. It must
refuse each of these: so no public name is of any type."""
import os
import pathlib
import re
import subprocess
import tempfile
import unittest

TOP = pathlib.Path(__file__).resolve().parents[3]
PYTHON = TOP / "sdk" / "python"
# (the oldest Python that the package is for)
MYPY = ["mypy", "--strict", "--python-version", "3.10", "--no-error-summary"]
# What a program of a page has from elsewhere, as its text says: a module of the service's.
SHOP = "from kotskhin.metrics import MeterProvider\n\nprovider = MeterProvider()\n"
WRONG = """\
from kotskhin import Attributes, Closed, Code, Export, Gateway, NoSuchName, Plan, Writer
from kotskhin.metrics import FileExporter, HttpExporter, MeterProvider, PeriodicExportingMetricReader, View

provider = MeterProvider()
requests = provider.get_meter("app").create_counter("requests")
requests.add("1")
requests.add(1.5)
requests.add(1, {"a": 1.5})
requests.set(1)
requests.add(value=1)
number: str = provider.refused
code: str = Code.CLOSED
Code.NO_SUCH_CODE
Closed("closed")
head: int = Export().head()
page: bytes = Gateway(1).prometheus()
Writer(Plan([("app", "requests", "1")]), "shop")
Attributes({"a": [1]})
View(aggregation="sum")
PeriodicExportingMetricReader(5)
PeriodicExportingMetricReader(lambda one, two, three: None)
HttpExporter(5)
FileExporter(5)
MeterProvider(on_refused=lambda of: of.no_such_field)
MeterProvider(metric_readers=[FileExporter("file")])
"""
RIGHT = """\
from http import HTTPStatus

from kotskhin import Ask, Attributes, Closed, Code, Gateway, Refused
from kotskhin.metrics import CardinalityLimit, MeterProvider, Refusal, View

one = {"route": "/"}


def told(of: Refusal) -> str:
    if isinstance(of.why, CardinalityLimit):
        return of.why.stream.name
    return of.why.name if isinstance(of.why, Refused) else f"{of.instrument.name}: {of.why}"


with MeterProvider(on_refused=told, views=[View(name="other", instrument_name="requests")]) as provider:
    requests = provider.get_meter("app").create_counter("requests")
    requests.add(amount=1, attributes={"route": "/", "status": HTTPStatus.OK, "ok": True})
    requests.add(1, [("a", 1), ("b", "x")])
    requests.add(1, one.items())
    requests.add(1, one)
    requests.add(1, (it for it in [("a", 1)]))
made = Attributes({"a": 1, "b": "x", "c": True})
Gateway(1).rows(Ask.sum("app", "requests", "1").only({"a": 1, "b": "x"}).keep(["a"]))[:2]
try:
    raise Closed(Code.CLOSED)
except Refused as why:
    print(why.code is Code.CLOSED, why.place)
"""


def programs():
    """The programs of the page, by the line where each stands."""
    text = (TOP / "docs" / "use" / "PYTHON.md").read_text(encoding="utf-8")
    for fence in re.finditer(r"^```python\n(.*?)^```$", text, re.M | re.S):
        yield f"line_{text[: fence.start()].count(chr(10)) + 1}", fence[1]


class Types(unittest.TestCase):
    def setUp(self):
        room = tempfile.TemporaryDirectory()
        self.addCleanup(room.cleanup)
        self.room = pathlib.Path(room.name)

    def checked(self, *of):
        """The lines that mypy says."""
        given = {**os.environ, "MYPYPATH": str(PYTHON)}
        done = subprocess.run([*MYPY, "--cache-dir", self.room / "cache", *of], cwd=self.room, env=given, capture_output=True, text=True,
                              timeout=600, check=False)
        self.assertEqual(done.stderr, "")
        return done.stdout.splitlines()

    def test_the_package(self):
        self.assertEqual(self.checked("-p", "kotskhin"), [])

    def test_programs_of_the_page(self):
        (self.room / "shop.py").write_text(SHOP, encoding="utf-8")
        of = dict(programs())
        self.assertGreaterEqual(len(of), 5)
        for name, text in of.items():
            (self.room / f"{name}.py").write_text(text, encoding="utf-8")
        self.assertEqual(self.checked(*(f"{name}.py" for name in of), PYTHON / "first.py"), [])

    def test_wrong_uses(self):
        (self.room / "wrong.py").write_text(WRONG, encoding="utf-8")
        told = {int(line.split(":")[1]) for line in self.checked("wrong.py") if ": error: " in line}
        self.assertEqual(told, set(range(1, len(WRONG.splitlines()) + 1)) - {2, 3, 4, 5})

    def test_right_uses(self):
        (self.room / "right.py").write_text(RIGHT, encoding="utf-8")
        self.assertEqual(self.checked("right.py"), [])


if __name__ == "__main__":
    unittest.main(verbosity=2)
