#!/usr/bin/env python3
"""What the docs name must stand in the code.

In docs/design/PROMISES.md and the crate table of ARCHITECTURE a run of calls with clauses behind it, `Type::call`, `call` (`clause`, `clause`),
says that each of these calls has each of these clauses, an `ensures clause { .. }` of its own; `clause` of `call` says the same. A call
without a type is one of the type named before it in its cell, or a function. The crate is that of the row, or the one that `of` names,
or any. A word of a group in capitals is one of the specs of the crate.

In every page each relative link leads to a file and to a heading, each crate that is named is one, and no line cites a paper by number.
In PAGES each name in code letters that is no path stands in the code. Each path of the repository that any page, program or comment names
is there. The files of specs/ that DEFINITIONS names exist. ARCHITECTURE's table has each crate once, and its list what crates.txt says.
The crates that README copies are COPIED and those that it stands on. The files that CONTRIBUTING lists as rooms of a word are those that
name it, and those that it lists of a text those that have it.

PAGES are README, CONTRIBUTING and all of docs/ but its log. They are easy to read. No sentence has more than MOST_WORDS words, code in letters
counted as one; a heading, a cell of a table and a list's item stand by themselves. No line is wider than MOST_WIDE, but for a row of a table, what is
fenced, and a word that can't be parted. No cell of a table is wider than MOST_IN_CELL.

The page of each library, the first comment of its lib.rt, names the file of its caller, whose lines it shows; but for PAGES_ALONE. Each name that it
links stands in the crate, and each file of specs/ that it names.

Each text that a must-fail edit replaces stands once in its file, where the edit's earlier texts are replaced.

Each public type of a library that Rattle calls is imported by a caller in crates/uses, but for those of OF_THE_KIT. Of those of OF_CONTRACTS no value is made, so
a clause of a caller names them. GUIDE names each caller.

    tests/docs/run.py [FOLDER]      FOLDER in place of this repository

This ends with a status other than 0 where one of these does not hold, and names each place."""
import collections
import os
import pathlib
import re
import sys

sys.dont_write_bytecode = True
sys.path.append(str(pathlib.Path(__file__).resolve().parents[1] / "gate"))
import checks

TOP = pathlib.Path(sys.argv[1] if sys.argv[1:] else pathlib.Path(__file__).resolve().parents[2]).resolve()
PAGES = ["README.md", "CONTRIBUTING.md", *sorted(str(page.relative_to(TOP)) for page in (TOP / "docs").glob("*/*.md"))]
MOST_WORDS, MOST_WIDE, MOST_IN_CELL = 29, 140, 200
# The program that README copies to another repository.
COPIED = "crates/uses/src/first.rt"
# Names in code letters that are none of the kit's.
FOREIGN = {"arrayvec::ArrayString", "Equivalent", "clap", "HANDLES", "libc_c", "mv", "getrandom", "gunicorn.conf.py", "replica", "std::cerr", "errors.Is", "http.Header", "http.Client"}
# (OpenTelemetry's and its Collector's, CMake's, gunicorn's, and what Prometheus makes of names)
FOREIGN |= {"OTLPMetricExporter", "otlphttp", "deltatocumulative", "CMAKE_PREFIX_PATH", "post_fork", "exported_instance", "exported_job", "meters_per_second"}
# The pages whose names are those of the SDKs and of the service, and not of Rattle.
OF_OTHERS = {f"docs/use/{name}.md" for name in ("C", "CPP", "GO", "PYTHON", "RUST", "SDK", "SERVICE")}
# A page of both, whose names in small letters are the service's.
REASONS = "docs/use/INTEROP.md"
# A name of a thing in such a page: parts, and what is called with.
PARTED = re.compile(r"[*&]*(\w+(?:(?:::|\.|->)\w+)*)(?:\(.*\)\??)?")
# Libraries whose pages show no caller: laws without calls, what is for the kit alone, and the callers themselves.
PAGES_ALONE = {"archive_kit", "schedule_kit", "shelf_kit", "uses"}
# The public types, by their crates, that contracts speak of and that no code makes.
OF_CONTRACTS = {"gateway_kit": {"GatewayChange"}, "writer_kit": {"WriterChange"}}
# Those that are for other crates of the kit alone, or a part of one of OF_CONTRACTS.
OF_THE_KIT = {
    "agg_kit": {"Places"},
    # (archives and keepers are in no guide yet)
    "archive_kit": {"Archive", "AdoptFault", "ExportRefusal", "SealRefusal", "Keeper", "Taking"},
    "shelf_kit": {"Shelves", "Target", "Walk"},
    # (why a request is refused: RequestFault has it beside its place)
    "otlp_kit": {"RequestReason"},
    "writer_kit": {"Recordings"},
    # (the program `otm` is the caller of file_kit)
    "file_kit": {"PageFormat", "Reported", "FileCommand", "CommandFault", "FileFault", "SendFault", "Misfit", "Archiving", "ArchiveFault"},
    # (and that of what notes are told of)
    "otm_kit": {"Refused"},
}
FN = re.compile(r"( *)(?:pub(?:\(crate\))? )?(?:unsafe )?(?:extern \"C\" )?fn (\w+)")
OWNER = re.compile(r"(?:pub(?:\(crate\))? )?(?:unsafe )?(?:impl|trait)\b(?:<[^{]*?> )? ?(?:[\w:<>, &']+ for )?&?(?:\w+::)*(\w+)")
SPAN = r"`[^`\n]+`"
RUN = rf"{SPAN}(?:(?:, and |, | and ){SPAN})*"
CLAIM = re.compile(rf"(?P<calls>{RUN})(?: \((?P<group>`[^()]*)\))?(?: of `(?P<crate>\w+)`)?")
TURNED = re.compile(rf"(?P<clauses>{RUN}) of (?P<calls>{RUN})")
UNREAD = re.compile(rf"{SPAN} of {SPAN} \(`[^()]*\)")
# A path from the top of the repository, behind `../` or alone; `embed` is what sdk/ and service/ once were together.
PATH = re.compile(r"(?<![\w./$*}{)>~-])(?:\.\./)*((?:crates|docs|tests|sdk|service|lab|examples|wip|embed)(?:/(?:\*+(?:\.\w+)?|[\w.-]*\w))+)")
# A file's name alone.
FILE = re.compile(r"[\w-]+\.(?:h|hpp|so|a|so\.0|ktsm|ktsk|json|toml|py|md|txt|rs|go)")
# The crate that README has a reader make in a repository of his own.
ELSEWHERE = "crates/first"
# Where no path is looked for: what builds leave, and texts of the prover, edits, patches and the ledger, which name none.
UNREAD_FOLDERS, UNREAD_FILES = {".git", "out", "target", "__pycache__"}, (".antt", ".edit", ".patch", "known.txt", ".pyc")
PAPER = re.compile(r"\b[TDRW][0-9]{1,2}[a-z]?\b|\bpapers? [0-9]")


def text_of(file):
    return file.read_text(encoding="utf-8", errors="replace")


def spans(text):
    return re.findall(r"`([^`\n]+)`", text)


def passages(text):
    """The line and the text of each paragraph, item and cell of a page; what is fenced or drawn is left out."""
    open_at, lines, is_fenced = 0, [], False
    for number, line in enumerate([*text.splitlines(), ""], 1):
        is_drawn, line, is_fenced = line.startswith("    ") and not lines, line.strip(), is_fenced != line.startswith("```")
        if is_drawn:
            continue
        ends = is_fenced or not line or line.startswith(("#", "|", "<!--", "```")) or re.match(r"[-*] |\d+\. ", line)
        if ends and lines:
            yield open_at, " ".join(lines)
            lines = []
        if line.startswith("|") and not is_fenced:
            yield from ((number, cell) for cell in line.strip("|").split("|"))
        elif not is_fenced and line and not line.startswith(("#", "<!--", "```")):
            open_at, lines = number if not lines else open_at, [*lines, line]


def long_sentences(text):
    """The line, the number of words and the beginning of each sentence that is too long."""
    for number, passage in passages(text):
        passage = re.sub(r"\]\([^)]*\)", "]", re.sub(SPAN, "X", passage))
        for sentence in re.split(r"(?<=[.!?])[)*]*\s+(?=[A-Z\[0-9(*\"])", passage):
            count = len(re.findall(r"[A-Za-z0-9][\w'.@/-]*", sentence))
            if count > MOST_WORDS:
                yield number, count, sentence[:60]


def crates():
    """The crates of the kit, with what crates.txt says that each stands on."""
    lines = [line for line in text_of(TOP / "crates.txt").splitlines() if line and not line.startswith("#")]
    return {line.split(":")[0].split()[0]: line.split(":")[1].split() for line in lines}


def functions():
    """Each function by its crate, type (None for none) and name, with its clauses: one set for each that has this name."""
    found = collections.defaultdict(list)
    files = [file for file in sorted(TOP.glob("crates/*/src/**/*.rt")) if file.stem != "tests" and file.parent.name != "tests"]
    for file in files:
        crate, owner, inside = file.relative_to(TOP).parts[1], None, None
        for line in text_of(file).splitlines():
            begins, head = OWNER.match(line), FN.match(line)
            if begins:
                owner = begins[1]
            elif line == "}":
                owner = inside = None
            elif head:
                inside, clauses = head[1], set()
                found[crate, owner if inside else None, head[2]].append(clauses)
            elif inside is not None and line == inside + "{":
                inside = None
            elif owner and (member := re.match(r"    ghost (\w+) = ", line)):
                found[crate, owner, member[1]].append(set())
            elif inside is not None and (clause := re.match(inside + r"    ensures (\w+) \{", line)):
                clauses.add(clause[1])
    return found


class Docs:
    def __init__(self):
        self.crates, self.functions, self.faults, self.claims = crates(), functions(), [], 0
        kinds = ("rt", "antt", "edit", "rs", "py", "go", "h", "c", "cpp", "hpp", "in", "cmake", "toml", "json", "yml")
        code = [file for kind in kinds for file in TOP.glob(f"*/**/*.{kind}")]
        code = [file for file in code if not {"out", "target"} & set(file.relative_to(TOP).parts) and file.parent != TOP / "tests" / "docs"]
        self.words = {word for file in code for word in [file.stem, *re.findall(r"\w+", text_of(file))]}
        self.words.update(re.findall(r"\w+", text_of(TOP / "crates.txt")))

    def fault(self, where, what):
        self.faults.append(f"{where}: {what}")

    def stand(self, crate, owner, name):
        """The clauses of each function of this name: of the type where it has one, or of none."""
        kinds = [(key, found) for key, found in self.functions.items() if key[2] == name and crate in (None, key[0])]
        return [one for key, found in kinds if key[1] == owner for one in found] or [one for key, found in kinds if key[1] is None for one in found]

    def is_spec(self, crate, word):
        return any(re.search(rf"\b{word}\b", text_of(file)) for file in TOP.glob(f"crates/{crate or '*'}/specs/**/*.antt"))

    def check_claim(self, where, crate, owner, calls, clauses):
        """Whether each call has each clause; gives the type of the last one."""
        for call in calls:
            typed, _, name = call.rpartition("::")
            owner = typed or owner
            found = self.stand(crate, owner, name)
            if not found:
                self.fault(where, f"no function `{call}`" + (f" of {crate}" if crate else "") + (f" or of {owner}" if owner and not typed else ""))
            for clause in clauses:
                self.claims += 1
                if found and clause[0].isupper() and not self.is_spec(crate, clause):
                    self.fault(where, f"no word `{clause}` in the specs of {crate or 'any crate'}")
                elif found and clause[0].islower() and not any(clause in one for one in found):
                    self.fault(where, f"`{call}` has no clause `{clause}`")
        return owner

    def check_cell(self, where, crate, cell):
        if UNREAD.search(cell):
            self.fault(where, f"clauses stand behind a crate, where none is looked for: {UNREAD.search(cell)[0]}")
        for turned in TURNED.finditer(cell):
            if turned["calls"].strip("`") not in self.crates:
                self.check_claim(where, crate, None, spans(turned["calls"]), spans(turned["clauses"]))
        owner = None
        for claim in CLAIM.finditer(TURNED.sub(lambda found: found[0] if found["calls"].strip("`") in self.crates else "", cell)):
            calls, clauses = spans(claim["calls"]), spans(claim["group"] or "")
            if clauses:
                owner = self.check_claim(where, claim["crate"] or crate, owner, calls, clauses)
            else:
                named = [call for call in calls if re.fullmatch(r"\w+::\w+|[a-z]\w*_\w+", call) and call not in self.crates]
                owner = self.check_claim(where, claim["crate"] or crate, owner, named, [])

    def check_rows(self, page):
        """The rows of a page whose first cell is a crate, or empty below one; and all rows of PROMISES."""
        crate = None
        for number, line in enumerate(text_of(TOP / page).splitlines(), 1):
            cells = [cell.strip() for cell in line.strip("|").split("|")] if line.startswith("|") else []
            crate = cells[0] if cells and cells[0] in self.crates else crate if cells and not cells[0] else None
            if cells and (crate or page == "docs/design/PROMISES.md"):
                for cell in cells:
                    self.check_cell(f"{page}:{number}", crate, cell)

    def check_page(self, page):
        """What holds of every page."""
        text, is_fenced = text_of(TOP / page), False
        for number, line in enumerate(text.splitlines(), 1):
            where, is_fenced = f"{page}:{number}", is_fenced != line.startswith("```")
            for target in re.findall(r"\]\(([^)\s]+)\)", line):
                self.check_link(where, page, target)
            for word in re.findall(r"\b(?:\w+_kit|kit_[a-z]+)\b", line):
                if word not in self.crates and word not in self.words:
                    self.fault(where, f"no crate {word}")
            if PAPER.search(line) and not is_fenced:
                self.fault(where, f"cites a paper by number: {PAPER.search(line)[0]}")
            if page in PAGES and not is_fenced:
                for span in spans(line):
                    is_of_others = page in OF_OTHERS or page == REASONS and re.fullmatch("[a-z]+(?:_[a-z]+)*", span)
                    (self.check_other if is_of_others else self.check_name)(where, span)

    def check_reading(self, page):
        """Whether a page is easy to read: its sentences, its lines and the cells of its tables."""
        for number, count, opening in long_sentences(text_of(TOP / page)):
            self.fault(f"{page}:{number}", f"a sentence of {count} words: {opening} ..")
        is_fenced = False
        for number, line in enumerate(text_of(TOP / page).splitlines(), 1):
            is_fenced = is_fenced != line.startswith("```")
            if line.startswith("|") and not is_fenced:
                for cell in line.strip("|").split("|"):
                    if len(cell.strip()) > MOST_IN_CELL:
                        self.fault(f"{page}:{number}", f"a cell of {len(cell.strip())} characters: {cell.strip()[:60]} ..")
            elif len(line) > MOST_WIDE and not is_fenced and " " in re.sub(rf"{SPAN}|\[[^\]]*\]\([^)]*\)", "_", line.strip()):
                self.fault(f"{page}:{number}", f"a line of {len(line)} characters")

    def check_link(self, where, page, target):
        if re.match(r"\w+:", target):
            return
        path, _, heading = target.partition("#")
        file = ((TOP / page).parent / path).resolve() if path else TOP / page
        if not file.exists():
            self.fault(where, f"the link {target} leads to no file")
        elif heading and heading not in [re.sub(r"[^\w -]", "", title).strip().lower().replace(" ", "-") for title in re.findall(r"^#+ (.*)$", text_of(file), re.M)]:
            self.fault(where, f"the link {target} leads to no heading")

    def check_name(self, where, span):
        if PATH.fullmatch(span):
            return
        call = re.fullmatch(r"(\w+)::([a-z_]\w*)(?:\(.*\))?", span)
        if call and not any(function[1:] == call.groups() for function in self.functions):
            self.fault(where, f"no function `{call[1]}::{call[2]}`")
        name = re.fullmatch(r"(\w+(?:::\w+)*)(?: [a-z])?", span)
        if name and span not in FOREIGN and not span.isdigit() and any(part not in self.words for part in name[1].split("::")):
            self.fault(where, f"`{name[1]}` stands nowhere in the code")

    def check_other(self, where, span):
        """A name of an SDK or of the service: each part of it stands in the code. A figure may be named by its end, and a code in small letters."""
        name = None if PATH.fullmatch(span) or FILE.fullmatch(span) else PARTED.fullmatch(span)
        if not name or name[1] in FOREIGN or name[1].isdigit() or name[1].startswith("OTEL_"):
            return
        for part in re.split(r"::|\.|->", name[1]):
            is_there = part in self.words or part.upper() in self.words
            is_there |= part[0] == "_" and any(word.endswith(part.removesuffix("_total")[1:]) for word in self.words)
            if not is_there and not part.isdigit():
                self.fault(where, f"`{span}` stands nowhere in the code: {part}")

    def check_paths(self):
        """Each path of the repository that a file names is there: in prose, in a command or in code. What a build leaves in out/ need not be."""
        for folder, folders, names in os.walk(TOP):
            folders[:] = [folder for folder in folders if folder not in UNREAD_FOLDERS]
            for file in (pathlib.Path(folder, name) for name in names if not name.endswith(UNREAD_FILES)):
                where = file.relative_to(TOP)
                for number, line in enumerate(text_of(file).splitlines(), 1):
                    for path in PATH.findall(line):
                        self.claims += 1
                        is_placeholder = {"out", "NAME", "CRATE"} & set(re.split(r"[/.]", path)) or path.startswith(ELSEWHERE)
                        if not is_placeholder and not (TOP / path).exists() and not list(TOP.glob(path)):
                            self.fault(f"{where}:{number}", f"no file {path}")

    def check_definitions(self):
        page = "docs/design/DEFINITIONS.md"
        for number, line in enumerate(text_of(TOP / page).splitlines(), 1):
            for crate, files in re.findall(r"`(\w+_kit)` ((?:[A-Z]\w+(?:, )?)+)", line):
                for file in files.strip(", ").split(", "):
                    self.claims += 1
                    if not (TOP / "crates" / crate / "specs" / f"{file}.antt").is_file():
                        self.fault(f"{page}:{number}", f"no file {file}.antt in the specs of {crate}")

    def check_tables(self):
        page = "docs/design/ARCHITECTURE.md"
        rows = re.findall(r"^\| ([\w, ]+?) \|[^|]*\|$", text_of(TOP / page), re.M)
        named = [crate for row in rows for crate in row.split(", ")]
        drawn = {}
        for line in text_of(TOP / page).splitlines():
            name, *words = line.split() if line.startswith("    ") else [""]
            if name in self.crates:
                drawn[name] = " ".join(words).replace(",", "").split()
        for crate, below in self.crates.items():
            if named.count(crate) != 1:
                self.fault(page, f"the table has {crate} {named.count(crate)} times")
            if not (TOP / "crates" / crate).is_dir():
                self.fault("crates.txt", f"no folder of {crate}")
            reached, waiting = set(), list(drawn.get(crate, []))
            while waiting:
                name = waiting.pop()
                waiting += [] if name in reached else drawn.get(name, [])
                reached.add(name)
            wrong = set(drawn.get(crate, [])) - set(below) | {name for name in below if name in self.crates} - reached
            if crate not in drawn or wrong:
                self.fault(page, f"{crate} is not drawn as crates.txt has it: {', '.join(sorted(wrong)) or 'missing'}")

    def check_copied(self):
        readme = text_of(TOP / "README.md")
        loop = re.search(r"^for crate in (.*); do$", readme, re.M)
        line = re.search(r'^echo "first: (.*)" >> crates\.txt$', readme, re.M)
        named = set(re.findall(r"(?:^use |^ghost use Rattle\.|-> )(\w+)(?:::|\.)", text_of(TOP / COPIED), re.M)) - {"std"}
        if not line or set(line[1].split()) != named:
            self.fault("README.md", f"the line of crates.txt for {COPIED} is to name {', '.join(sorted(named))}")
        reached, waiting = set(), [crate for crate in named if crate in self.crates]
        while waiting:
            name = waiting.pop()
            waiting += [crate for crate in self.crates[name] if crate in self.crates and crate not in reached]
            reached.add(name)
        wrong = reached ^ set(loop[1].split() if loop else [])
        if wrong:
            self.fault("README.md", f"what it copies is not {COPIED} and the crates below: {', '.join(sorted(wrong))}")

    def check_library_pages(self):
        for crate in self.crates:
            file = TOP / "crates" / crate / "src" / "lib.rt"
            if not file.is_file():
                continue
            page = [line.removeprefix("//!").removeprefix(" ") for line in text_of(file).splitlines() if line.startswith("//!")]
            shown = [line.strip() for line in page if line.startswith("    ")]
            named = re.findall(r"`((?:crates|sdk)/[\w/]+\.\w+)`", "\n".join(page))
            lines = {line.strip() for name in named if (TOP / name).is_file() for line in text_of(TOP / name).splitlines()}
            self.claims += len(shown)
            if not shown and crate not in PAGES_ALONE:
                self.fault(file.relative_to(TOP), "the page shows no caller")
            for line in shown:
                if line not in lines:
                    self.fault(file.relative_to(TOP), f"the page shows a line that its caller has not: {line}")
            for link in re.findall(r"\[`(\w+(?:::\w+)*)`\]", "\n".join(page)):
                if not any(link.rpartition("::")[2] in text_of(other) for other in file.parent.glob("**/*.rt") if other != file):
                    self.fault(file.relative_to(TOP), f"the page links {link}, which stands nowhere in the crate")
            for told in re.findall(r"\bspecs\b[^.]*\.(?!\w)", "\n".join(page).replace("specs/", "specs")):
                for name in re.findall(r"(?<!\[)`([A-Z]\w+)`", told):
                    self.claims += 1
                    if not (TOP / "crates" / crate / "specs" / f"{name}.antt").is_file():
                        self.fault(file.relative_to(TOP), f"the page names {name}, no file of its specs")

    def check_rooms(self):
        """The files that CONTRIBUTING lists under `<!-- rooms: WORD -->` are those whose code names the word."""
        page = "CONTRIBUTING.md"
        for word, listed in re.findall(r"^<!-- rooms: (\S+) -->\n\n((?:- .*\n)+)", text_of(TOP / page), re.M):
            files = [file for file in TOP.glob("crates/*/src/**/*.rt") if file.stem != "tests" and file.parent.name != "tests"]
            there = {str(file.relative_to(TOP)) for file in files if re.search(rf"^(?!\s*//).*\b{word}\b", text_of(file), re.M)}
            self.claims += len(there)
            for file in sorted(there ^ set(spans(listed))):
                self.fault(page, f"{file} {'names' if file in there else 'does not name'} {word}, and is {'not ' if file in there else ''}among its rooms")

    def check_texts(self):
        """The files that CONTRIBUTING lists under `<!-- texts: WORDS -->` are those that have the words."""
        page, kinds = "CONTRIBUTING.md", {".rt", ".antt", ".md", ".py", ".c", ".h", ".go", ".rs", ".hpp", ".cpp"}
        files = [file for folder in ("crates", "docs", "sdk", "service", "tests") for file in TOP.glob(f"{folder}/**/*") if file.suffix in kinds]
        files = [file for file in files if not UNREAD_FOLDERS & set(file.relative_to(TOP).parts)]
        for words, listed in re.findall(r"^<!-- texts: (.+) -->\n\n((?:- .*\n)+)", text_of(TOP / page), re.M):
            there = {str(file.relative_to(TOP)) for file in files if words in text_of(file)}
            self.claims += len(there)
            for file in sorted(there ^ set(spans(listed))):
                self.fault(page, f"{file} {'has' if file in there else 'has not'} '{words}', and is {'not ' if file in there else ''}in its list")

    def check_edits(self):
        """Whether each must-fail edit fits the code of today."""
        for edit in sorted(TOP.glob("crates/*/must-fail/*.edit")):
            texts, name, old = {}, None, None
            for line in text_of(edit).splitlines():
                if line.startswith("file: "):
                    name = line.removeprefix("file: ").strip()
                    file = edit.parents[1] / name
                    texts.setdefault(name, text_of(file) if file.is_file() else "")
                elif line.startswith("old: "):
                    old = line.removeprefix("old: ")
                elif line.startswith("new:") and name and old is not None:
                    self.claims += 1
                    if texts[name].count(old) != 1:
                        self.fault(edit.relative_to(TOP), f"stands {texts[name].count(old)} times in {name}: {old.strip()}")
                    texts[name], old = texts[name].replace(old, line.removeprefix("new:").removeprefix(" "), 1), None

    def check_callers(self):
        """What a library re-exports in its lib.rt and defines as a type has a caller: one that imports it, or whose clauses name it."""
        texts = [text_of(file) for file in TOP.glob("crates/uses/src/**/*.rt")]
        guide = text_of(TOP / "docs" / "use" / "GUIDE.md")
        for name in re.findall(r"^pub fn (\w+)", "\n".join(texts), re.M):
            self.claims += 1
            if f"`{name}`" not in guide:
                self.fault("docs/use/GUIDE.md", f"its callers are without `{name}`")
        imports = [found for text in texts for found in re.findall(r"^use (\w+)::([^;]*);", text, re.M)]
        called = {(crate, name) for crate, names in imports for name in re.findall(r"\w+", names)}
        cited = {found for text in texts for found in re.findall(r"^ghost use Rattle\.(\w+)\.specs\.declared\.[\w.]*?(\w+)(?:\.TheVariants)?(?:\.\{| as )", text, re.M)}
        for crate in self.crates:
            folder = TOP / "crates" / crate / "src"
            if crate in ("uses", "kit_c") or not (folder / "lib.rt").is_file():
                continue
            exported = set(re.findall(r"\w+", " ".join(re.findall(r"^pub use ([^;]*);", text_of(folder / "lib.rt"), re.M))))
            for file in sorted(folder.glob("**/*.rt")):
                for name in re.findall(r"^pub (?:struct|enum|trait) (\w+)", text_of(file), re.M):
                    self.claims += 1
                    found = cited if name in OF_CONTRACTS.get(crate, ()) else called
                    if name in exported and name not in OF_THE_KIT.get(crate, ()) and (crate, name) not in found:
                        self.fault(file.relative_to(TOP), f"no caller in crates/uses has the public type {name}")

    def check(self):
        for page in ("docs/design/ARCHITECTURE.md", "docs/design/PROMISES.md"):
            self.check_rows(page)
        for file in sorted([TOP / "README.md", TOP / "CONTRIBUTING.md", *TOP.glob("docs/**/*.md"), *TOP.glob("wip/*.md")]):
            self.check_page(str(file.relative_to(TOP)))
        for page in PAGES:
            self.check_reading(page)
        self.check_paths()
        self.check_definitions()
        self.check_tables()
        self.check_copied()
        self.check_library_pages()
        self.check_rooms()
        self.check_texts()
        self.check_edits()
        self.check_callers()


def main():
    docs = Docs()
    docs.check()
    checks.note_all("claims", docs.claims, docs.faults)
    for fault in docs.faults:
        print(f"NOT AS TOLD: {fault}")
    print(f"docs: {docs.claims} claims of clauses and files looked at, {len(docs.faults)} not as told")
    return 1 if docs.faults or not docs.claims else 0


if __name__ == "__main__":
    sys.exit(main())
