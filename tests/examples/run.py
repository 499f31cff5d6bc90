#!/usr/bin/env python3
"""The scripts of examples/ and of the docs, and what each prints; how the program ends otherwise; and what the docs quote.

The proved program `otm run` is given each NAME.otm of examples/ and of tests/examples/rows, and must write NAME.out, byte for byte, and
end with status 0. Those that have a bad line end with status 1: the last line of their NAME.out says which. NAME.err has what the standard error says; where there is none, it says nothing. So it must with
each script in PAGES, fenced as `otm`: the next block, fenced as `table`, has what it writes. Then it is given what it does not do to the end: each
kind of bad line, a script that is too long, words that it refuses, an input that cannot be read, an output that cannot be
written. There its status and both its streams are told below. `rt ci`
leaves the program in crates/otm/out, as each of two compilers builds it, and `rt run` as the first does: every build that lies
there does all of it.

What PAGES quote of the crates must stand there: a comment `<!-- FILE: fn NAME -->` names what the next block, fenced as
`rust`, has whole. `, body` after it asks for the lines between its braces, `, use` for all but its clauses and ghosts, and `, contract` for
its head and its clauses alone. Under the words `otm --help`, `otm help fleet` and
`otm --version` COMMANDS_PAGE shows what these print, below SENTENCES_HEADING each text of SENTENCES and of NAMES, and no other, and
below NOTES_HEADING each text of NOTES, and no other. Some bad line or some row gets each of them here.

    tests/examples/run.py --quote

This only writes each quotation of the crates into PAGES anew.

This ends with a status other than 0 where one differs, or where there is no program or no script."""
import os
import pathlib
import re
import subprocess
import sys

sys.dont_write_bytecode = True
sys.path.append(str(pathlib.Path(__file__).resolve().parents[1] / "gate"))
import checks

TOP = pathlib.Path(__file__).resolve().parents[2]
ROWS = pathlib.Path(__file__).resolve().parent / "rows"
BAD_END = re.compile(rb"(?:.*\n)?line [0-9]+\n", re.S)
BUILDS = ("otm", "otm.by-rattle")
QUOTED = re.compile(r"^(<!-- (\S+): ([\w<> ]+?)(?:, (body|use|contract))? -->\n\n?```rust\n)(.*?)^```$", re.S | re.M)
# A clause of a function or a ghost of an impl, with the lines that go on with it.
CLAUSE = re.compile(r"^    (?:requires|ensures|ghost)\b.*\n(?:        .*\n)*", re.M)
SECONDS = 60
PAGES = ("README.md", "docs/use/GUIDE.md", "docs/use/SCRIPTS.md")
COMMANDS_PAGE = "docs/use/SCRIPTS.md"
SENTENCES_HEADING = "## What is wrong with a bad line"
SENTENCES = "crates/script_kit/src/sentence.rt"
NAMES = "crates/script_kit/src/reason.rt"
NOTES_HEADING = "## What else is told of a script"
NOTES = [f"crates/otm_kit/src/{name}.rt" for name in ("notes", "misplans", "unmatched")]

NO_COMMAND = b"""error: 'otm' requires a subcommand but one was not provided
  [subcommands: run, fleet, help]

Usage: otm <COMMAND>

For more information, try '--help'.

"""
WRONG_COMMAND = b"""error: unrecognized subcommand 'garbage'

Usage: otm <COMMAND>

For more information, try '--help'.

"""
WORD_BEHIND = b"""error: unexpected argument 'extra' found

Usage: otm run

For more information, try '--help'.

"""
HELP = b"""Metrics by scripts and by fleets of threads, with totals that are proved

Usage: otm <COMMAND>

Commands:
  run    Do the script of the standard input, and print what its lines say
  fleet  Record with many threads, and print the total of each gateway
  help   Print this message or the help of the given subcommand(s)

Options:
  -h, --help     Print help
  -V, --version  Print version

Commands on files:
  show     Print what files are of, and their points
  merge    Write one state of what files say, joined
  report   Print a table of what files say, joined
  expose   Print what files say, joined, as a page for Prometheus
  otlp     Write the OTLP request of files of exports
  archive  Write the export of an archive that adopts what files hold

"""
RUN_HELP = b"""Do the script of the standard input, and print what its lines say

Usage: otm run

Options:
  -h, --help  Print help

"""
FLEET_HELP = b"""Record with many threads, and print the total of each gateway

Usage: otm fleet [OPTIONS]

Options:
      --writers <writers>      How many writers, 1 to 8 [default: 2]
      --recorders <recorders>  How many recorder threads each writer has, 1 to 8 [default: 2]
      --each <each>            How many recordings each recorder makes, at most 1000000 [default: 1000]
      --gateways <gateways>    How many gateways, 1 to 8 [default: 2]
  -h, --help                   Print help

"""
VERSION = f"otm {(TOP / 'VERSION').read_text(encoding='utf-8')}\n".encode()
NO_VERSION = b"""error: unexpected argument '--version' found

Usage: otm run

For more information, try '--help'.

"""

# By its name what the program is given, words and input, and what it must do: its status, its standard output, its standard error.
ENDS = {
    "a bad line": (["run"], b"gateway 1\nbegin\nconflicts 1\nconfl", 1, b"conflicts 0\nline 4\n", b"line 4: a line ends with a line feed\n"),
    "a script of the greatest length": (["run"], b"#" * 1_048_575 + b"\n", 0, b"", b""),
    "a script of a byte more": (["run"], b"#" * 1_048_576 + b"\n", 1, b"too long\n", b""),
    "no command": ([], b"", 2, b"", NO_COMMAND),
    "a wrong command": (["garbage", "run"], b"", 2, b"", WRONG_COMMAND),
    "a word behind": (["run", "extra"], b"", 2, b"", WORD_BEHIND),
    "help": (["--help"], b"", 2, b"", HELP),
    "help by its letter": (["-h"], b"", 2, b"", HELP),
    "help by its word": (["help"], b"", 2, b"", HELP),
    "help of run": (["run", "--help"], b"", 2, b"", RUN_HELP),
    "help of run by its word": (["help", "run"], b"", 2, b"", RUN_HELP),
    "help of fleet": (["fleet", "--help"], b"", 2, b"", FLEET_HELP),
    "help of fleet by its word": (["help", "fleet"], b"", 2, b"", FLEET_HELP),
    "the version": (["--version"], b"", 2, b"", VERSION),
    "the version by its letter": (["-V"], b"", 2, b"", VERSION),
    "a version that no command has": (["run", "--version"], b"", 2, b"", NO_VERSION),
    "a word that is no text": ([b"\xff"], b"", 2, b"", b"the words are no text\n"),
}

UUID = b"00000000-0000-0000-0000-000000000001"
COUNTER = b"instrument c counter app requests 1\nwriter a shop " + UUID + b" 100\ngateway 1\n"
HEADER = b"attributes  points  conflicts  total\n"
MANY = 10_000

CUT = "a line ends with a line feed"
BYTES = "a line has only spaces and visible ASCII characters, and no"
SPACES = "a line has one space between two words, and none at its ends"
NO_LABEL = "is no label: a label has at most 16 of a to z and 0 to 9"
KINDS = "a kind is counter, updown, gauge or histogram"
KINDS_ASKED = "a kind is counter, updown, gauge, histogram, or * for any"
NO_UUID = "is no UUID: a UUID has 32 hexadecimal digits, with hyphens or without"
NO_NUMBER = "is no number: a number has digits alone, and no leading zero"
NO_VALUE = "is no value: a value is a whole number of 64 bits, with no plus sign and no leading zero"
NO_SHAPE = "is no shape: a shape is sum+, sum, gauge, hist, or hist: and values with commas between"
NO_ATTRIBUTES = "lists no attributes: a list is -, or pairs of a key, = and a value, with commas between"
NO_KEYS = "lists no keys: a list is *, -, or keys with commas between"
NO_AGGREGATION = "is no aggregation: an aggregation is default, sum, last, drop, or buckets: and values with commas between"
TOO_GREAT = "18446744073709551616 is too great for"

# Lines that are bad wherever they stand, and what is said of each.
BAD_LINES = [
    (b" ", SPACES),
    (b"begin ", SPACES),
    (b" begin", SPACES),
    (b"gateway  1", SPACES),
    (b"begin\r", f"{BYTES} carriage return"),
    (b"gateway\t1", f"{BYTES} tab"),
    (b"gateway \xc3\xa9", f"{BYTES} byte 195"),
    (b"\x00\r", f"{BYTES} byte 0"),
    (b"unknown", "no line begins with 'unknown'"),
    (b"x" * 41 + b" 1", f"no line begins with '{'x' * 40}..'"),
    (b"x" * 40, f"no line begins with '{'x' * 40}'"),
    (b"instrument c", "'instrument' wants a label, a kind, a scope, a name and a unit"),
    (b"instrument c app requests", "'instrument' wants a label, a kind, a scope, a name and a unit"),
    (b"instrument c counter", "'counter' wants a scope, a name and a unit"),
    (b"instrument C gauge app temp", "'gauge' wants a scope, a name and a unit"),
    (b"instrument c updown app requests 1 2", "'updown' wants a scope, a name and a unit"),
    (b"view * * * -", "'view' wants a name, a kind, a scope, a new name, keys to keep and an aggregation"),
    (b"writer a shop", "'writer' wants a label, a service, a UUID and a start"),
    (b"gateway", "'gateway' wants an id"),
    (b"limit 1 2", "'limit' wants a number"),
    (b"begin now", "'begin' wants no other word"),
    (b"measure a c 1", "'measure' wants a writer, an instrument, a value and attributes"),
    (b"collect a", "'collect' wants a writer and a time"),
    (b"shutdown a", "'shutdown' wants a writer and a time"),
    (b"restart a 1 2", "'restart' wants a writer and a start"),
    (b"deliver 1", "'deliver' wants an export and a gateway"),
    (b"merge 1", "'merge' wants two gateways"),
    (b"send 1", "'send' wants two gateways"),
    (b"hand 1", "'hand' wants a mail and a gateway"),
    (b"report 1", "'report' wants a gateway, a scope, a name, a unit, a shape, a service, attributes and keys to keep"),
    (b"same 1", "'same' wants two gateways"),
    (b"conflicts", "'conflicts' wants a gateway"),
    (b"newest 1 a", "'newest' wants a gateway, a writer and a start"),
    (b"gateway 01", f"'01' {NO_NUMBER}"),
    (b"gateway -0", f"'-0' {NO_NUMBER}"),
    (b"gateway +1", f"'+1' {NO_NUMBER}"),
    (b"gateway 4294967296", "4294967296 is too great for an id"),
    (b"merge 1 4294967296", "4294967296 is too great for an id"),
    (b"limit 18446744073709551616", f"{TOO_GREAT} a limit"),
    (b"writer A shop " + UUID + b" 100", f"'A' {NO_LABEL}, and no 'A'"),
    (b"writer abcdefghijklmnopq shop " + UUID + b" 100", f"'abcdefghijklmnopq' {NO_LABEL}"),
    (b"writer a-b_c shop " + UUID + b" x", f"'a-b_c' {NO_LABEL}, and no '-'"),
    (b"writer a shop " + UUID[:-1] + b" 100", f"'{UUID[:-1].decode()}' {NO_UUID}"),
    (b"writer a shop " + UUID + b" 18446744073709551616", f"{TOO_GREAT} a start"),
    (b"instrument c summary app x 1", f"no kind is called 'summary': {KINDS}"),
    (b"view * summary * - * default", f"no kind is called 'summary': {KINDS_ASKED}"),
    (b"view * * * - a,,b default", f"'a,,b' {NO_KEYS}"),
    (b"view * * * - * buckets:1,", f"'buckets:1,' {NO_AGGREGATION}"),
    (b"view * * * - * buckets", f"'buckets' {NO_AGGREGATION}"),
    (b"measure a c 9223372036854775808 -", f"'9223372036854775808' {NO_VALUE}"),
    (b"measure a c -0 -", f"'-0' {NO_VALUE}"),
    (b"measure a c 05 -", f"'05' {NO_VALUE}"),
    (b"measure a C 5 -", f"'C' {NO_LABEL}, and no 'C'"),
    (b"measure a " + b"c" * 41 + b"+ 5 -", f"'{'c' * 40}..' {NO_LABEL}, and no '+'"),
    (b"measure a c 5 route", f"'route' {NO_ATTRIBUTES}"),
    (b"measure a c 5 =x", f"'=x' {NO_ATTRIBUTES}"),
    (b"measure a c 5 a=1,", f"'a=1,' {NO_ATTRIBUTES}"),
    (b"collect a 18446744073709551616", f"{TOO_GREAT} a time"),
    (b"shutdown a 18446744073709551616", f"{TOO_GREAT} a time"),
    (b"restart a 18446744073709551616", f"{TOO_GREAT} a start"),
    (b"newest 1 a 18446744073709551616", f"{TOO_GREAT} a start"),
    (b"newest 1 a " + b"1" * 41, f"{'1' * 40}.. is too great for a start"),
    (b"restart a x", f"'x' {NO_NUMBER}"),
    (b"deliver 18446744073709551616 1", f"{TOO_GREAT} the number of an export"),
    (b"hand 18446744073709551616 1", f"{TOO_GREAT} the number of a mail"),
    (b"report 1 app requests 1 sum- * - *", f"'sum-' {NO_SHAPE}"),
    (b"report 1 app requests 1 counter * - *", f"'counter' {NO_SHAPE}; 'counter' is written 'sum+' here"),
    (b"report 1 app requests 1 updown * - *", f"'updown' {NO_SHAPE}; 'updown' is written 'sum' here"),
    (b"report 1 app requests 1 histogram * - *", f"'histogram' {NO_SHAPE}; 'histogram' is written 'hist' here"),
    (b"report 1 app requests 1 histogram:" + b"5," * 20 + b"5 * - *", f"'histogram:{'5,' * 15}..' {NO_SHAPE}; 'histogram' is written 'hist' here"),
    (b"report 1 app requests 1 histograms * - *", f"'histograms' {NO_SHAPE}"),
    (b"report 1 app requests 1 sum * x *", f"'x' {NO_ATTRIBUTES}"),
    (b"report 1 app requests 1 sum * - ,", f"',' {NO_KEYS}"),
]

# Lines of the grammar that are bad where they stand: as the first line, behind three declarations, and behind `begin`.
EARLY = [b"measure a c 1 -", b"collect a 200", b"merge 1 1", b"report 1 app requests 1 sum+ * - *", b"same 1 1"]
TWICE = [
    (b"instrument c gauge app other 1", "'c' was declared before"),
    (b"writer a other " + UUID + b" 100", "'a' was declared before"),
    (b"limit 5\nlimit 5", "'limit' was declared before"),
]
LATE = [
    (b"begin", "'begin' wants no 'begin' before it"),
    (b"gateway 2", "'gateway' wants no 'begin' before it"),
    (b"instrument d counter app other 1", "'instrument' wants no 'begin' before it"),
    (b"measure b c 1 -", "no writer is called 'b'"),
    (b"measure a x 1 -", "no instrument is called 'x'"),
    (b"measure b d 1 -", "no writer is called 'b'"),
    (b"collect b 200", "no writer is called 'b'"),
    (b"deliver 1 2", "no gateway has the id 2"),
    (b"merge 2 3", "no gateway has the id 2"),
    (b"merge 1 3", "no gateway has the id 3"),
    (b"send 1 3", "no gateway has the id 3"),
    (b"hand 1 3", "no gateway has the id 3"),
    (b"report 3 app requests 1 sum+ * - *", "no gateway has the id 3"),
    (b"same 1 3", "no gateway has the id 3"),
    (b"conflicts 3", "no gateway has the id 3"),
    (b"newest 3 a 100", "no gateway has the id 3"),
    (b"newest 1 b 100", "no writer is called 'b'"),
]

def many_streams():
    """Many counters, each under a view of its own, and the total of the last. A walk over all pairs would be seen here."""
    lines = [b"instrument i%d counter app name_%d 1\nview name_%d * * - * sum\n" % (number, number, number) for number in range(MANY)]
    ends = b"writer a shop " + UUID + b" 100\ngateway 1\nbegin\nmeasure a i%d 7 -\ncollect a 200\ndeliver 1 1\n" % (MANY - 1)
    script = b"".join(lines) + ends + b"report 1 app name_%d 1 sum+ * - *\n" % (MANY - 1)
    return script, HEADER + b"{}               1          0  7\n"


def many_points():
    """Many points of one stream, in one row and each in a row of its own."""
    lines = [b"measure a c %d n=%d\n" % (number, number) for number in range(MANY)]
    ends = b"collect a 200\ndeliver 1 1\nreport 1 app requests 1 sum+ * - -\nreport 1 app requests 1 sum+ * - *\n"
    script = COUNTER + b"limit %d\nbegin\n" % MANY + b"".join(lines) + ends
    rows = [b"%-10s       1          0  %d\n" % (b"{n=%d}" % number, number) for number in range(MANY)]
    return script, HEADER + b"{}           10000          0  49995000\n" + HEADER + b"".join(rows)


def many_pairs():
    """One set of many pairs, whose keys come in an order that jumps about, as it is and restricted to every other key."""
    keys = [b"key.%d" % (number * 7919 % MANY) for number in range(MANY)]
    half = keys[::2]
    ends = b"collect a 200\ndeliver 1 1\nreport 1 app requests 1 sum+ * - *\nreport 1 app requests 1 sum+ * - %s\n" % b",".join(half)
    script = COUNTER + b"begin\nmeasure a c 7 " + b",".join(key + b"=true" for key in keys) + b"\n" + ends
    cells = [b"{" + b",".join(key + b"=true" for key in sorted(held)) + b"}" for held in (keys, half)]
    head, row = b"attributes".ljust, b"       1          0  7\n"
    return script, b"".join(head(len(cell)) + HEADER.removeprefix(b"attributes") + cell + row for cell in cells)


def many_notes():
    """Many reports of a stream that is not there: their tables, and what is told of the first hundred."""
    script = COUNTER + b"begin\n" + b"report 1 app requests 1 sum * - *\n" * MANY
    note = b"line %d: there is no stream 'app requests 1 sum', but 'app requests 1 sum+'\n"
    return script, HEADER * MANY, b"".join(note % (5 + number) for number in range(100))


# A script of some length, that prints a line.
LARGE = b"gateway 1\nbegin\n" + b"#" * 1_000_000 + b"\nconflicts 1\n"


def ended(program, words, wanted, **streams):
    """What a run does otherwise than told, or an empty text. Streams that are not named are empty, or caught."""
    streams = {"stdout": subprocess.PIPE, "stderr": subprocess.PIPE, **streams}
    # (its texts call it by its first word, whichever build it is)
    ran = subprocess.run(["otm", *words], executable=program, timeout=SECONDS, **streams)
    did = (ran.returncode, ran.stdout, ran.stderr)
    return "" if did == wanted else f"status {did[0]}, wrote {did[1]!r}, and on the standard error {did[2]!r}"


def unread(program):
    """The same where the input is a folder."""
    folder = os.open("/", os.O_RDONLY)
    try:
        return ended(program, ["run"], (4, b"", b"read failed\n"), stdin=folder)
    finally:
        os.close(folder)


def unwritten(program):
    """The same where the output takes nothing."""
    with open("/dev/full", "wb") as full:
        return ended(program, ["run"], (4, None, b"write failed\n"), input=LARGE, stdout=full)


def told_scripts():
    """Each script that a page tells, by the page and its place there, and what the page says that it writes."""
    for page in PAGES:
        blocks = re.findall(r"^```otm\n(.*?)^```$(.*?)^```table\n(.*?)^```$", (TOP / page).read_text(), re.S | re.M)
        for place, (script, between, table) in enumerate(blocks, 1):
            assert "```" not in between, f"{page}: a script without a table behind it"
            yield f"{page}, script {place}", script.encode(), table.encode()


def function_of(text, name, form):
    """The lines of what stands under this name, its comment and attributes left out; or the part of them that a form asks for."""
    whole = re.search(rf"^((?:pub )?{re.escape(name)}\b.*?^)}}$", text, re.S | re.M)
    if whole is None:
        return None
    head, _, body = whole.group(1).partition("\n{\n")
    if form == "contract":
        return head + "\n"
    if form == "body":
        return "".join(line.removeprefix("    ") + "\n" for line in body.splitlines())
    if form == "use" and body:
        return CLAUSE.sub("", head + "\n").rstrip() + " {\n" + body + "}\n"
    if form == "use":
        return re.sub(r"\{\n\n+", "{\n", re.sub(r"\n{3,}", "\n\n", CLAUSE.sub("", whole.group(1)))).rstrip() + "\n}\n"
    return whole.group(1) + "}\n"


def quotes():
    """Each quotation of a page, and what is wrong with it, or an empty text."""
    for page in PAGES:
        text = (TOP / page).read_text()
        marks = QUOTED.findall(text)
        if len(marks) != text.count("```rust"):
            yield page, "a quotation that names no function"
        for _, file, name, form, quoted in marks:
            stands = function_of((TOP / file).read_text(), name, form)
            yield f"{page}: {name}", "" if stands == quoted else f"{file} has {stands!r}"


def quote():
    """Writes each quotation of a page anew."""
    for page in map(TOP.joinpath, PAGES):
        page.write_text(QUOTED.sub(lambda found: found[1] + (function_of((TOP / found[2]).read_text(), found[3], found[4]) or found[5]) + "```", page.read_text()))


def shown():
    """Each text of the command line that a page shows, and what is wrong with it, or an empty text."""
    page = (TOP / COMMANDS_PAGE).read_text()
    for words, text in {"otm --help": HELP, "otm help fleet": FLEET_HELP, "otm --version": VERSION}.items():
        block = f"`{words}`:\n\n```text\n{text.decode().rstrip()}\n```\n"
        yield f"{COMMANDS_PAGE}: {words}", "" if block in page else "another text, or none"


def texts_of(file):
    """The texts of more than a word in a file of a crate, with those of its constants where they stand in others."""
    text = (TOP / file).read_text()
    constant = r'^const ([A-Z_]+): &str =\s*"([^"]*)";$'
    named = dict(re.findall(constant, text, re.M))
    texts = [found for found in re.findall(r'"([^"]*)"', re.sub(constant, "", text, flags=re.M)) if " " in found]
    return [re.sub(r"{([A-Z_]+)}", lambda gap: named[gap[1]], found) for found in texts]


def listed_below(heading):
    """What COMMANDS_PAGE lists below a heading, in the first cells of its tables."""
    section = (TOP / COMMANDS_PAGE).read_text().split(f"{heading}\n")[1].split("\n## ")[0]
    return {found for cell in re.findall(r"^\| (`.*?) \| ", section, re.M) for found in re.findall(r"`([^`]+)`", cell)}


def row_sentences():
    """What the standard error says of the rows, without the numbers of their lines."""
    return {line.split(": ", 1)[1] for file in ROWS.glob("*.err") for line in file.read_text().splitlines()}


def filled(text, gaps):
    """A pattern of what a text may be with its gaps filled: each by the pattern of its name, or by a word."""
    return re.sub(r"\\{(\w+)\\}", lambda gap: gaps.get(gap[1], r"[!-~]+"), re.escape(text))


def compared(patterns, whole, tried, told):
    """Each text by its pattern, whether it was tried and is told; and each that is told, whether it is a whole text."""
    for name, pattern in patterns:
        here, there = (any(re.fullmatch(pattern, one) for one in them) for them in (tried, told))
        yield f"{COMMANDS_PAGE}: {name}", "" if here and there else "the page has it not" if here else "nothing here gets it"
    for sentence in sorted(told):
        yield f"{COMMANDS_PAGE}: {sentence}", "" if any(re.fullmatch(pattern, sentence) for pattern in whole) else "the program has no such text"


def told_sentences():
    """Each text of SENTENCES and of NAMES, and each sentence of COMMANDS_PAGE; and what is wrong with it, or an empty text."""
    tried = {line for _, lines in bad_lines() for _, line in lines} | row_sentences()
    texts, names = texts_of(SENTENCES), texts_of(NAMES)
    # (a text has gaps for a word, for a form or a noun, which NAMES has, for what is odd there, which begins with a comma, and for what is meant)
    odd, meant = ({text: filled(text, {}) for text in texts if text.startswith(mark)} for mark in (", ", "; "))
    named = f"(?:{'|'.join(map(re.escape, names))})"
    gaps = {"form": named, "noun": named, "odd": f"(?:{'|'.join(odd.values())})?", "meant": f"(?:{'|'.join(meant.values())})?"}
    whole = {text: filled(text, gaps) for text in texts if text not in odd | meant}
    ends = {name: f".* {re.escape(name)}" for name in names} | {name: f".*{pattern}" for name, pattern in (odd | meant).items()}
    yield from compared([*whole.items(), *ends.items()], whole.values(), tried, listed_below(SENTENCES_HEADING))


def told_notes():
    """Each text of NOTES, and each note of COMMANDS_PAGE; and what is wrong with it, or an empty text."""
    texts = [text for file in NOTES for text in texts_of(file) if "{note}" not in text]
    stream = " ".join([r"[!-~]+"] * 4)
    whole = {text: filled(text, {"named": stream, "near": stream}) for text in texts}
    yield from compared(whole.items(), whole.values(), row_sentences(), listed_below(NOTES_HEADING))


def said(text, sentence):
    """What the standard error says of the bad line that the last line of this text tells."""
    return text.splitlines()[-1] + b": " + sentence.encode() + b"\n"


def bad_lines():
    """The lines that are bad, with what is said of each, behind what goes before them."""
    early = [(line, f"'{line.split()[0].decode()}' wants a 'begin' before it") for line in EARLY]
    return [(b"", BAD_LINES + early), (COUNTER, TWICE + early), (COUNTER + b"begin\n", BAD_LINES + LATE)]


def cases(program):
    """Each case's name, and what the program does otherwise."""
    for name, script, table in told_scripts():
        yield name, ended(program, ["run"], (0, table, b""), input=script)
    for script in [*sorted((TOP / "examples").glob("*.otm")), *sorted(ROWS.glob("*.otm"))]:
        text, told = script.with_suffix(".out").read_bytes(), script.with_suffix(".err")
        wanted = int(bool(BAD_END.fullmatch(text))), text, told.read_bytes() if told.is_file() else b""
        yield script.name, ended(program, ["run"], wanted, input=script.read_bytes())
    for before, lines in bad_lines():
        for line, sentence in lines:
            text = b"line %d\n" % ((before + line).count(b"\n") + 1)
            yield f"{before[-6:]}{line}", ended(program, ["run"], (1, text, said(text, sentence)), input=before + line + b"\n")
    for made in (many_streams, many_points, many_pairs):
        script, text = made()
        yield made.__name__, ended(program, ["run"], (0, text, b""), input=script)
    script, *wanted = many_notes()
    yield many_notes.__name__, ended(program, ["run"], (0, *wanted), input=script)
    for name, (words, given, *wanted) in ENDS.items():
        yield name, ended(program, words, tuple(wanted), input=given)
    yield "an input that cannot be read", unread(program)
    yield "an output that cannot be written", unwritten(program)


def main():
    if sys.argv[1:] == ["--quote"]:
        return quote()
    programs = [path for path in (TOP / "crates" / "otm" / "out" / name for name in BUILDS) if path.is_file()]
    failed = not list((TOP / "examples").glob("*.otm")) or not list(ROWS.glob("*.otm")) or not any(path.name == BUILDS[0] for path in programs)
    if failed:
        print("NO PROGRAM OR NO SCRIPT: rt ci, or rt run in crates/otm, makes the program")
    for name, told in [*quotes(), *shown(), *told_sentences(), *told_notes()]:
        failed = failed or bool(told)
        checks.note(name, not told)
        print(f"{name}: {'NOT AS TOLD: ' + told if told else 'as told'}")
    for program in programs:
        for name, told in cases(program):
            failed = failed or bool(told)
            checks.note(f"{program.name}: {name}", not told)
            print(f"{program.name}: {name}: {'NOT AS TOLD: ' + told if told else 'as told'}")
    return failed


sys.exit(main())
