"""What the gate cost: processor minutes by crate and kind of work, as a table."""
import collections

KINDS = ("proofs", "tests", "builds", "runs", "edits")


def read(ledger):
    """Processor seconds and seconds by the clock by (crate, kind)."""
    used = collections.defaultdict(lambda: [0.0, 0.0])
    with open(ledger, encoding="utf-8") as lines:
        for line in lines:
            crate, kind, processor, clock = line.rstrip("\n").split("\t")
            used[crate, kind][0] += float(processor)
            used[crate, kind][1] += float(clock)
    return used


def minutes(seconds):
    return f"{seconds / 60:.1f}" if seconds else ""


# The edits that the page tells.
DEAREST = 20


def table(ledger, head, tiers, stages, took):
    """The page: what ran and where, the tiers, minutes by the clock of each stage, the costs, and the dearest edits of those whose seconds are given."""
    used = read(ledger)
    crates = sorted({crate for crate, _ in used}, key=lambda it: -sum(used[it, kind][0] for kind in KINDS))
    lines = ["# The gate's last run", "", *head, "", "| What | Passed | Failed | Known | Left |", "|---|---|---|---|---|"]
    lines += [f"| {name} | {' | '.join(str(it or '') for it in counts)} |" for name, *counts in tiers if any(counts)]
    lines += ["", "| Stage | Minutes by the clock |", "|---|---|"]
    lines += [f"| {name} | {minutes(seconds) or '0.0'} |" for name, seconds in stages]
    lines += ["", "Processor minutes:", "", "| Crate or runner | Proofs | Tests' own proofs | Builds | Runs | Edits | Together |", "|---|---|---|---|---|---|---|"]
    for crate in crates:
        spent = [used[crate, kind][0] for kind in KINDS]
        lines.append(f"| {crate} | {' | '.join(minutes(it) for it in spent)} | {minutes(sum(spent))} |")
    whole = [sum(used[crate, kind][0] for crate in crates) for kind in KINDS]
    lines.append(f"| all | {' | '.join(minutes(it) for it in whole)} | {minutes(sum(whole))} |")
    lines += ["", "The dearest edits, seconds by the clock:", "", "| Edit | Seconds |", "|---|---|"]
    lines += [f"| {name} | {seconds:.0f} |" for name, seconds in sorted(took.items(), key=lambda it: -it[1])[:DEAREST]]
    return "\n".join(lines) + "\n"
