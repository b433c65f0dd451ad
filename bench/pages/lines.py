#!/usr/bin/env python3
"""lines.py BEFORE AFTER [CRATE..]: how long crates were at one commit, and are at another.

A row for each crate: lines of code (`src`), of definitions (`specs`) and of proofs (`proofs`), empty ones and comments aside, and
functions. Names joined by `+` are one row, as `naga_scope+naga_tables` of what stood in one crate before. If none is named, the
rows are all crates that changed, in the order of crates.txt. The last row has the sums.
"""

import io
import re
import subprocess
import sys
import tarfile
from collections import Counter

PARTS = {"src": (".rt", "//"), "specs": (".antt", "--"), "proofs": (".antt", "--")}
COLUMNS = {"src": "Code", "specs": "Definitions", "proofs": "Proofs", "fn": "Functions"}
FUNCTION = re.compile(r"^\s*(?:pub(?:\([^)]*\))? )?(?:const |unsafe )*fn \w+")


def git(*words):
    return subprocess.run(["git", *words], check=True, capture_output=True).stdout


def counts(commit):
    """The counts of each crate at a commit."""
    found = {}
    with tarfile.open(fileobj=io.BytesIO(git("archive", commit, "crates"))) as tree:
        for file in tree:
            _, crate, part, *_ = [*file.name.split("/"), "", ""]
            end, comment = PARTS.get(part, ("/", ""))
            if file.name.endswith(end):
                lines = [line.lstrip() for line in tree.extractfile(file).read().decode().splitlines()]
                count = found.setdefault(crate, Counter())
                count[part] += sum(bool(line) and not line.startswith(comment) for line in lines)
                if part == "src":
                    count["fn"] += sum(bool(FUNCTION.match(line)) for line in lines)
    return found


def cell(before, after):
    return f"{before} → {after} ({after - before:+})" if before != after else f"{after}"


def main(before, after, *rows):
    old, new = counts(before), counts(after)
    listed = "".join(git("show", f"{commit}:crates.txt").decode() for commit in (after, before))
    crates = dict.fromkeys(re.findall(r"^(\w+)[^:#\n]*:", listed, re.M))
    rows = rows or [it for it in crates if old.get(it) != new.get(it)]
    sums = [Counter(), Counter()]
    print("| Crate | " + " | ".join(COLUMNS.values()) + " |\n|---|" + "---|" * len(COLUMNS))
    for row in [*rows, None]:
        pair = sums
        if row:
            pair = [sum((of.get(it, Counter()) for it in row.split("+")), Counter()) for of in (old, new)]
            sums = [one + other for one, other in zip(sums, pair)]
        name = row.replace("+", "`, `") if row else "together"
        print(f"| `{name}` | " + " | ".join(cell(pair[0][it], pair[1][it]) for it in COLUMNS) + " |")


if __name__ == "__main__":
    if len(sys.argv) < 3:
        sys.exit(__doc__)
    main(*sys.argv[1:])
