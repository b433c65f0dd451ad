#!/usr/bin/env python3
"""Prints what each part of a gate cost, as a table for docs/GATE.md: of each crate its proof, its tests with their proof,
its edits, and its programs; then the other commands.

    python3 bench/times/gate.py [FILE]

FILE is what `.ci/run` left, out/gate.tsv where none is given (sample.py says what stands there). Of each part it tells the
minutes of the clock from its beginning to its end and, after a stroke, those of a processor. `From` is when the proof began,
in minutes after the run did, and `Memory` the most that one check took, in GB, with what processes share counted in each.
"""

import csv
import sys
from pathlib import Path

TOP = Path(__file__).resolve().parents[2]
# The columns, and which parts each has.
COLUMNS = {"Proof": ("proof",), "Tests": ("tests", "run tests"), "Edits": ("edits",), "Run": ("build", "run")}


def main(file):
    with open(file) as lines:
        parts = [
            {**it, **{key: float(it[key]) for key in ("began", "ended", "processor", "memory")}}
            for it in csv.DictReader(lines, delimiter="\t")
        ]
    if not parts:
        sys.exit(f"gate.py: {file} has no part")
    start, end = min(it["began"] for it in parts), max(it["ended"] for it in parts)
    commands = [it for it in parts if it["part"] == "command" and it["name"] != "rt ci"]
    of_crates = [it for it in parts if it["part"] != "command"]
    print(f"| Crate | From | {' | '.join(COLUMNS)} | Memory |")
    print(f"|---|--:|{'--:|' * len(COLUMNS)}--:|")
    for name in dict.fromkeys(it["name"] for it in sorted(of_crates, key=lambda it: it["began"])):
        own = [it for it in of_crates if it["name"] == name]
        row([f"`{name}`", f"{(min(it['began'] for it in own) - start) / 60:.1f}"], own)
    row(["all", ""], of_crates)
    print()
    print("| Other commands | Minutes |")
    print("|---|--:|")
    for name in dict.fromkeys(it["name"] for it in commands):
        print(f"| `{name}` | {cost([it for it in commands if it['name'] == name])} |")
    print()
    whole = sum(it["processor"] for it in parts)
    print(f"From the first to the last {(end - start) / 60:.0f} minutes of the clock, and {whole / 60:.0f} of a processor.")


def row(cells, parts):
    """Prints a row of these cells and what the parts cost."""
    cells += [cost([it for it in parts if it["part"] in kinds]) for kinds in COLUMNS.values()]
    most = max(it["memory"] for it in parts) / 1e9
    print(f"| {' | '.join([*cells, f'{most:.1f}'])} |")


def cost(parts):
    """The minutes from the first to the last, and of a processor, or nothing where there are none."""
    if not parts:
        return ""
    clock = max(it["ended"] for it in parts) - min(it["began"] for it in parts)
    return f"{clock / 60:.1f} / {sum(it['processor'] for it in parts) / 60:.1f}"


if __name__ == "__main__":
    main(sys.argv[1] if len(sys.argv) > 1 else TOP / "out/gate.tsv")
