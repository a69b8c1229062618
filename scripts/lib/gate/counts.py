"""How long and how wide the code and its proofs are.

For each crate, the one with the most proof for its code first: the lines of src/, specs/ and
proofs/ that aren't blank, the lines of proofs for one of code, the lines of all three over 120 and
over 200 columns, and the clauses over 120: lines of src/ that begin with `requires`, `ensures` or
`invariant`. The sums are of the relay's crates, and of those of tests and measurements.
Usage: scripts/gate counts [CRATE..]: all crates if none is named
"""
import pathlib
import re
import sys

from lib.command import ROOT, end_with_usage

PARTS = ("src", "specs", "proofs")
TESTS = ("tests_", "bench", "driver")
CLAUSE = re.compile(r"\s*(requires|ensures|invariant)\b")


def lines_of(crate, part):
    """The lines of a part of a crate that aren't blank."""
    files = [it for it in (crate / part).rglob("*") if it.suffix in (".rt", ".antt")]
    return [line for it in files for line in it.read_text().split("\n") if line.strip()]


def count(crate):
    """The numbers of a row: lines of each part, lines over 120 and 200 columns, and clauses over 120."""
    parts = [lines_of(crate, part) for part in PARTS]
    wide = [line for lines in parts for line in lines if len(line) > 120]
    clauses = sum(len(line) > 120 and bool(CLAUSE.match(line)) for line in parts[0])
    return [*map(len, parts), len(wide), sum(len(line) > 200 for line in wide), clauses]


def row(name, numbers):
    code, specs, proofs, *rest = numbers
    return f"| {name} | {code} | {specs} | {proofs} | {proofs / max(code, 1):.2f} | {' | '.join(map(str, rest))} |"


def main():
    crates = {it.parent.name: it.parent for it in pathlib.Path(ROOT, "crates").glob("*/src")}
    names = sys.argv[1:] or list(crates)
    if not set(names) <= set(crates):
        end_with_usage(__doc__)
    counts = {name: count(crates[name]) for name in names}
    print("| crate | code | specs | proofs | for one of code | over 120 | over 200 | clauses over 120 |")
    print("|---|---|---|---|---|---|---|---|")
    for name in sorted(names, key=lambda it: -counts[it][2] / max(counts[it][0], 1)):
        print(row(name, counts[name]))
    tests = {it for it in names if it.startswith(TESTS)}
    for kind, which in (("the relay", set(names) - tests), ("tests, bench, driver", tests)):
        if which:
            print(row(kind, [sum(it) for it in zip(*map(counts.get, which))]))
    return 0
