#!/usr/bin/env python3
"""What each language has of the kit, read off the wrappers' sources.

    features.py              checks: each export is used by each wrapper, or stands in WITHOUT with a sentence that says why not
    features.py --table      prints the table, as docs/use/SDK.md has it below HEADING

Each code of refusals is raised by a case that all languages share (cases.json), or stands in UNRAISED with a sentence that says why not.

Each export stands in a row of FEATURES. A wrapper has a row where it uses all calls of it, and where it has its word. The table of the
page, where it has one, is the one that is printed. This ends with a status other than 0 where one of these does not hold."""
import json
import pathlib
import re
import sys

TOP = pathlib.Path(__file__).resolve().parents[2]
sys.path.insert(0, str(TOP / "sdk"))
import exports

PAGE, HEADING = TOP / "docs" / "use" / "SDK.md", "## What each language has"
# Why a language has not what the last rows are of, as the page says it below the table. The cells of all others say yes.
WHY_NOT = {"C": "C has none of the last seven rows: OpenTelemetry has no API of C, and threads, timers and sockets are the host's there."}
# Of each language the files where it calls the library. C is the header itself.
WRAPPERS = {"C++": "cpp/**/*.hpp", "Rust": "rust/kotskhin/src/**/*.rs", "Go": "go/**/*.go", "Python": "python/kotskhin/**/*.py"}
# How a wrapper makes a call. In C++ and Rust comments are left out, and a name that is imported is used, or a compiler says so.
MADE = {"C++": r"\b{}\b", "Rust": r"\b{}\b", "Go": r"\bC\.{}\(", "Python": r"[\". ]{}\b"}
# Calls that the wrapper of a language does not make, and why not.
WITHOUT = {
    ("Go", "kit_version"): "kit_version_text of the header calls it",
    ("C++", "kit_version"): "kit_version_text of the header calls it",
    ("Go", "kit_code_text"): "the texts stand in declared.go, which is made",
}
CASES = pathlib.Path(__file__).resolve().parent / "cases.json"
# Codes that no shared case raises, and why not. The tests in C raise each, but for the last two (refusals.c, formats.c, archives.c).
UNRAISED = {
    "WRONG_KIND": "a handle of another kind is given by a cast in C alone: the wrappers' types tell kinds apart",
    "FULL": "a wrapper fills handles that it has just made",
    "BUSY": "it takes two calls at once: the threads of the case with seats go on where it is raised, which no test can force",
    "EXHAUSTED": "it takes 2^62 changes",
    "TOO_LONG": "it takes a request of 2 GiB",
    "UNSOUND": "exports and messages bring sound points alone, so a gateway of the library has no others",
    "WRONG_SHAPE": "it takes the text of an attribute that is none, and the wrappers look at its kind first",
}
# A row: what it is, its calls (a * at the end stands for what follows), and a word that a wrapper has beside them, where it has it.
FEATURES = [
    ("sets of texts, whole numbers and truths", "kit_pairs_add_* kit_attributes_make kit_free", ""),
    ("a set read back, pair by pair", "kit_attributes_len kit_attributes_key kit_attributes_value kit_attributes_text", ""),
    ("plans of several scopes, with a limit", "kit_instruments_add kit_plan_build", ""),
    ("views", "kit_view_* kit_views_add kit_keys_add", ""),
    ("recording by a set and by a number", "kit_writer_measure kit_writer_hold kit_writer_measure_held", ""),
    ("collecting, shutting down, beginning anew", "kit_writer_start kit_writer_collect kit_writer_shutdown kit_writer_restart", ""),
    ("recorders of threads", "kit_recorder_* kit_writer_take_in", ""),
    ("seats", "kit_writer_share kit_seat_*", ""),
    ("gateways, merged and compared", "kit_gateway_open kit_gateway_take kit_gateway_merge kit_gateway_same", ""),
    ("whether a collection came", "kit_gateway_newest", ""),
    ("whose an export is; a gateway's id and size", "kit_export_read kit_export_service kit_gateway_read kit_message_read", ""),
    ("of whom there are points", "kit_gateway_incarnations kit_message_incarnations kit_incarnations_* kit_gateway_service", ""),
    ("asks of each shape, of a service, by keys", "kit_ask_*", ""),
    ("streams of a plan, of a gateway and of an export", "kit_plan_streams kit_gateway_streams kit_export_streams kit_streams_* kit_default_bounds", ""),
    ("tables", "kit_gateway_rows kit_rows_table kit_text_copy", ""),
    ("rows as data, with attributes and wide totals", "kit_rows_*", ""),
    ("gateways that tell each other by messages", "kit_gateway_send kit_gateway_hand", ""),
    ("archives, which adopt what has ended", "kit_archive_*", ""),
    ("bytes of exports", "kit_export_encode kit_export_decode kit_bytes_copy", ""),
    ("bytes of messages, and of gateways", "kit_message_encode kit_message_decode kit_gateway_encode kit_gateway_merge_bytes", ""),
    ("requests of OTLP", "kit_export_otlp", ""),
    ("exports of requests of OTLP", "kit_exports_*", ""),
    ("pages for Prometheus", "kit_gateway_openmetrics kit_gateway_prometheus", ""),
    ("refusals by name, with both places", "kit_version kit_code_text", ""),
    ("an instance that is drawn anew", "", r"unique_?instance"),
    ("providers, meters and instruments", "", r"MeterProvider"),
    ("refused recordings told to a hook", "", r"on_?refused"),
    ("a periodic reader", "", r"Periodic\w*Reader"),
    ("exports into files and by HTTP", "", r"(?s)File_?Exporter.*Http_?Exporter|Http_?Exporter.*File_?Exporter"),
    ("exports to the first of several that takes them", "", r"\bFirstOf\b"),
    ("exports that fail by what an answer says was not taken", "", r"\bNotTaken(Error)?\b"),
]


def sources(pattern):
    """What a wrapper says."""
    made = ("declared.py", "declared.rs", "declared.go", "calls.py")
    files = [file for file in sorted((TOP / "sdk").glob(pattern)) if not file.stem.endswith("_test") and file.name not in made]
    text = "\n".join(file.read_text(encoding="utf-8") for file in files)
    return re.sub(r"^\s*//.*$", "", text, flags=re.M)


def of_row(words, there):
    """The calls of a row."""
    return {name for word in words.split() for name in there if name == word or word.endswith("*") and name.startswith(word[:-1])}


def raised(of):
    """The codes of steps that are refused, as cases.json writes them."""
    if isinstance(of, list):
        return {code for step in of for code in raised(step)}
    if not isinstance(of, dict):
        return set()
    told = of.get("refused")
    return raised(list(of.values())) | ({told["code"]} if isinstance(told, dict) else set())


def unraised():
    """What does not hold of the codes that shared cases raise."""
    codes = {code.name for code in exports.codes() if code.number}
    told = raised(json.loads(CASES.read_text(encoding="utf-8"))["cases"])
    yield from (f"no shared case raises {code}, and UNRAISED does not say why" for code in sorted(codes - told - set(UNRAISED)))
    yield from (f"a shared case raises {code}, and UNRAISED says that none does" for code in sorted(told & set(UNRAISED)))
    yield from (f"{code} is no code" for code in sorted((told | set(UNRAISED)) - codes))


def main():
    there = {call.name for call in exports.exports()}
    texts = {language: sources(pattern) for language, pattern in WRAPPERS.items()}
    lacks = {language: {call for call in there if not re.search(MADE[language].format(call), text)} for language, text in texts.items()}
    table, covered, wrong = [], set(), []
    for what, words, word in FEATURES:
        calls = of_row(words, there)
        covered |= calls
        if words and not calls:
            continue
        row = [f"| {what} | {'yes' if words else 'no'} |"]
        told = {"C": bool(words)}
        for language, text in texts.items():
            missing = {call for call in calls & lacks[language] if (language, call) not in WITHOUT}
            is_there = not missing and (not word or re.search(word, text, re.I))
            row.append(f" {'yes' if is_there else 'part' if calls - missing and words else 'no'} |")
            told[language] = is_there
        wrong += [f"{language} has not: {what}, and WHY_NOT does not say why" for language, has in told.items() if not has and language not in WHY_NOT]
        table.append("".join(row))
    wrong += [f"FEATURES has no row of {call}" for call in sorted(there - covered)]
    for language, calls in lacks.items():
        wrong += [f"{language} does not use {call}, and WITHOUT does not say why" for call in sorted(calls) if (language, call) not in WITHOUT]
    wrong += unraised()
    wrong += [f"{language} uses {call}, and WITHOUT says that it does not" for language, call in WITHOUT if call in there - lacks[language]]
    head = [f"| What | C | {' | '.join(WRAPPERS)} |", f"|{'---|' * (len(WRAPPERS) + 2)}"]
    made = "\n".join([*head, *table])
    page = PAGE.read_text(encoding="utf-8")
    said = " ".join(page.split())
    wrong += [f"{PAGE.name}: below the table it is not said: {sentence}" for sentence in WHY_NOT.values() if sentence not in said]
    if HEADING in page and made not in page:
        wrong.append(f"{PAGE.name}: the table is not what features.py --table prints")
    if "--table" in sys.argv:
        print(made)
        return 0
    told = f"{len(there)} calls: each is used in {', '.join(WRAPPERS)}, or it is said why not; so is each code raised by a shared case"
    print("\n".join(wrong) or told)
    return 1 if wrong else 0


if __name__ == "__main__":
    sys.exit(main())
