#!/usr/bin/env python3
"""The first program of each language's page, and that of its section Archives, where it has one: at most MOST lines of body. All first ones
print one thing. README shows that of Python whole, the body of that of Go, and what they print.

The body is what stands in `main`, and in Python all but imports. No line of it is empty, or wider than MOST_WIDE. The runner of each
language tries that its programs print what the page says."""
import pathlib
import re
import sys

TOP = pathlib.Path(__file__).resolve().parents[2]
DOCS = TOP / "docs" / "use"
MOST, MOST_WIDE = 10, 140
# The fence of a program, what it begins with in front of its body, and what ends it.
FRAMES = {
    "RUST": ("rust", r"(?:.*\n)*?fn main\(\) -> Result<\(\), \w+> \{\n", r"\}\n"),
    "CPP": ("cpp", r"(?:.*\n)*?int main\(\) \{\n", r"\}\n"),
    "GO": ("go", r"(?:.*\n)*?func main\(\) \{\n", r"\}\n"),
    "PYTHON": ("python", r"(?:(?:from|import) .*\n)+\n", ""),
}


def first(name, text):
    """The body of the first program of a text, line by line, and what the program prints."""
    fence, begins, ends = FRAMES[name]
    program, printed = (re.search(rf"^```{word}\n(.*?)^```$", text, re.M | re.S)[1] for word in (fence, "text"))
    return re.fullmatch(rf"{begins}((?:.*\n)*){ends}", program)[1].splitlines(), printed


def shown(text, fence):
    """The first block of a fence, or an empty text."""
    found = re.search(rf"^```{fence}\n(.*?)^```$", text, re.M | re.S)
    return found[1] if found else ""


def readme():
    """What README shows otherwise than the pages, whose programs the runners of Python and Go run."""
    page, python, go = (path.read_text(encoding="utf-8") for path in (TOP / "README.md", DOCS / "PYTHON.md", DOCS / "GO.md"))
    body = "".join(f"{line.removeprefix(chr(9))}\n" for line in first("GO", go)[0])
    wanted = {"python": shown(python, "python"), "go": body, "text": shown(python, "text")}
    wrong = [language for language, text in wanted.items() if not text or shown(page, language) != text]
    return [f"README.md: its first block of {language} is not that of the page" for language in wrong]


def main():
    faults, printed = readme(), {}
    for name in FRAMES:
        whole, _, archives = (DOCS / f"{name}.md").read_text(encoding="utf-8").partition("\n## Archives\n")
        for what, text in (("first program", whole), ("program of archives", archives)):
            if not text:
                continue
            lines, printed[what, name] = first(name, text)
            widths = [len(line.expandtabs(4)) for line in lines]
            if len(lines) > MOST or not 0 < min(widths) <= max(widths) <= MOST_WIDE:
                faults.append(f"docs/use/{name}.md: the {what}'s body has {len(lines)} lines, of widths {widths}")
            print(f"docs/use/{name}.md: {len(lines)} lines of body in the {what}")
    if len({prints for (what, _), prints in printed.items() if what == "first program"}) > 1:
        faults.append(f"the first programs print several things: {printed}")
    print("".join(f"{fault}\n" for fault in faults), end="")
    return 1 if faults else 0


if __name__ == "__main__":
    sys.exit(main())
