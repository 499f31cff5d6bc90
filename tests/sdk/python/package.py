"""The wheel: it carries the library, and in a fresh environment the first script and the first page run, with no path in any variable."""
import os
import pathlib
import re
import shutil
import subprocess
import sys
import tempfile
import unittest
import zipfile

TOP = pathlib.Path(__file__).resolve().parents[3]
PYTHON = TOP / "sdk" / "python"
sys.path.insert(0, str(PYTHON / "backend"))
import kotskhin_wheel


def page(name):
    """Each script of a page of which it says what it prints, and that."""
    text = (TOP / "docs" / "use" / name).read_text(encoding="utf-8")
    return re.findall(r"^```python\n((?:(?!^```).)*)^```\n(?:\n[^\n]+\n)?\n```text\n(.*?)^```$", text, re.M | re.S)


class Wheel(unittest.TestCase):
    def setUp(self):
        self.room = pathlib.Path(tempfile.mkdtemp())
        self.addCleanup(shutil.rmtree, self.room)

    def run_in(self, *command, **given):
        words = [str(word) for word in command]
        done = subprocess.run(words, cwd=self.room, capture_output=True, text=True, timeout=1800, check=False, **given)
        self.assertEqual(done.returncode, 0, done.stdout + done.stderr)
        return done.stdout

    def test_what_it_has(self):
        name = kotskhin_wheel.build_wheel(self.room)
        self.assertRegex(name, r"^kotskhin-\d+\.\d+\.\d+-py3-none-manylinux_2_\d+_x86_64\.whl$")
        with zipfile.ZipFile(self.room / name) as wheel:
            names = wheel.namelist()
            self.assertIsNone(wheel.testzip())
        for wanted in ("kotskhin/__init__.py", "kotskhin/metrics/provider.py", "kotskhin/py.typed", "kotskhin/libkotskhin.so.0"):
            self.assertIn(wanted, names)
        self.assertEqual(len(names), len(set(names)))
        first = (self.room / name).read_bytes()
        kotskhin_wheel.build_wheel(self.room)
        self.assertEqual((self.room / name).read_bytes(), first)

    def test_without_the_library(self):
        with self.assertRaisesRegex(FileNotFoundError, "sdk/build"):
            kotskhin_wheel.library({"library": "/nowhere/libkotskhin.so.0"})

    def test_in_a_fresh_environment(self):
        self.run_in(sys.executable, "-m", "venv", "fresh")
        python = self.room / "fresh" / "bin" / "python"
        quiet = {**os.environ, "PYTHONDONTWRITEBYTECODE": "1"}
        self.run_in(python, "-m", "pip", "install", "--quiet", "--no-index", "--disable-pip-version-check", PYTHON, env=quiet)
        given = {key: value for key, value in os.environ.items() if key not in ("KOTSKHIN_SO", "LD_LIBRARY_PATH", "PYTHONPATH")}
        shutil.copy(PYTHON / "first.py", self.room)
        self.assertEqual(self.run_in(python, "first.py", env=given), (TOP / "examples" / "first.out").read_text(encoding="utf-8"))
        where = self.run_in(python, "-c", "import kotskhin; print(kotskhin.__file__, kotskhin.__version__)", env=given)
        self.assertIn("fresh", where)
        scripts = page("PYTHON.md")
        self.assertEqual(len(scripts), 3)
        for script, printed in scripts:
            (self.room / "page.py").write_text(script, encoding="utf-8")
            self.assertEqual(self.run_in(python, "page.py", env=given), printed)


if __name__ == "__main__":
    unittest.main(verbosity=2)
