"""What goes wrong where identities are shared, and what does not: scripts for `archivists`, with what each line must print.

docs/use/ARCHIVES.md asks that each archive begins with a start or an instance of its own, and says what tells where that was not so."""

BEGUN = """
take 1 shop/1 100 200 5 1   | taken 1
take 1 shop/2 100 300 8 1   | taken 1
adopt 1 1 shop/1 100        | adopted
adopt 2 1 shop/2 100        | adopted
"""

# By its name a script; behind a bar what its line prints.
SCRIPTS = {
    "two archives of one identity and start: the later one takes the other's total, and points of two times tell": f"""
keepers 1
archive 1 shop/9 1000 10
archive 2 shop/9 1000 10
{BEGUN}
export 1 2000               | export 1 of 2
export 2 3000               | export 2 of 2
give 1 1                    | taken 2
give 2 1                    | taken 2
show 1                      | points 3 incarnations 1 total 8 conflicts 0
points 1                    | shop/9 1000 requests shard=0 3000 Sum(8) / shop/9 1000 adopted {{1}} 2000 Gauge(200) / shop/9 1000 adopted {{2}} 3000 Gauge(300)
""",
    "the same at one time: a conflict tells": f"""
keepers 1
archive 1 shop/9 1000 10
archive 2 shop/9 1000 10
{BEGUN}
export 1 2000               | export 1 of 2
export 2 2000               | export 2 of 2
give 1 1                    | taken 2
give 2 1                    | taken 2
show 1                      | points 3 incarnations 1 total 0 conflicts 1
""",
    "the same with equal totals: five are lost, and nothing tells": """
keepers 1
archive 1 shop/9 1000 10
archive 2 shop/9 1000 10
take 1 shop/1 100 200 5 1   | taken 1
take 1 shop/2 100 300 5 1   | taken 1
adopt 1 1 shop/1 100        | adopted
adopt 2 1 shop/2 100        | adopted
export 1 2000               | export 1 of 2
export 2 2000               | export 2 of 2
give 1 1                    | taken 2
give 2 1                    | taken 1
show 1                      | points 3 incarnations 1 total 5 conflicts 0
""",
    "two archives of one identity and two starts lose nothing": f"""
keepers 1
archive 1 shop/9 1000 10
archive 2 shop/9 1001 10
{BEGUN}
export 1 2000               | export 1 of 2
export 2 2000               | export 2 of 2
give 1 1                    | taken 2
give 2 1                    | taken 2
show 1                      | points 4 incarnations 2 total 13 conflicts 0
""",
    "what an older export of an archive names stays hidden once a newer one names it no more": """
keepers 2
archive 1 shop/9 1000 10
take 1 shop/1 100 200 5 1   | taken 1
adopt 1 1 shop/1 100        | adopted
export 1 2000               | export 1 of 2
give 1 1                    | taken 2
seal 1 2001                 | sealed
take 2 shop/1 100 400 9 1   | taken 1
take 1 shop/2 100 300 8 1   | taken 1
adopt 1 1 shop/2 100        | adopted
export 1 3000               | export 2 of 2
give 2 1                    | taken 2
give 2 2                    | taken 2
take 1 shop/1 100 500 11 1  | late
merge 1 2                   | merged 1
show 1                      | points 4 incarnations 2 total 13 conflicts 0
merge 2 1                   | merged 2
show 2                      | points 4 incarnations 2 total 13 conflicts 0
same 1 2                    | same
""",
    "an earlier start of an adopted instance is another incarnation, and counts": """
keepers 1
archive 1 shop/9 1000 10
take 1 shop/1 200 300 5 1   | taken 1
adopt 1 1 shop/1 200        | adopted
export 1 2000               | export 1 of 2
give 1 1                    | taken 2
take 1 shop/1 100 150 8 1   | taken 1
show 1                      | points 3 incarnations 2 total 13 conflicts 0
""",
}


def told(instance):
    """The attributes of the tombstone of an instance of the shop that began at 100."""
    return f"instance=00000000-0000-0000-0000-{instance:012} service=shop start=100"


def read(script):
    """The lines of a script, and each that prints, with what that is: a text, or a set of lines."""
    lines, answers = [], []
    for line in filter(None, map(str.strip, script.splitlines())):
        line, bar, answer = (part.strip() for part in line.partition("|"))
        lines.append(line)
        if bar:
            found = {word.strip().replace("{1}", told(1)).replace("{2}", told(2)) for word in answer.split("/ ")}
            answers.append((len(lines), line, found if line.startswith("points") else answer))
    return lines, answers
