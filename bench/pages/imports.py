#!/usr/bin/env python3
"""Which imports name what their file hasn't, and which attributes of code a lemma that is not there. Quiet where none does.

A renamed definition or lemma is found here in seconds that a proof finds after the crates below it. What Rattle makes from
the code (`declared`, `Goals`, `Given`, contracts) is not looked up.
"""

import re
import sys
from functools import cache
from pathlib import Path

CRATES = Path(__file__).resolve().parents[2] / "crates"
NAME = r"[^\s(){}\[\],;:.λ\"]+"
IMPORT = re.compile(r"use Rattle\.([a-z_]+)\.((?:specs|proofs)[\w.+]*)\.\{([^}]*)\}")
ATTRIBUTE = re.compile(r"\b([a-z_]+)::((?:specs|proofs)(?:::[\w+]+)*)::([\w\-]+)")
MADE = re.compile(r"\.declared\.|\.Goals$|\.Given$|\.contracts")


@cache
def names_of(crate, path):
    """The names in the file to which a path leads, or of which it names a type; none if there is no such file."""
    for parts in (path, path[:-1]):
        file = CRATES.joinpath(crate, *parts).with_suffix(".antt")
        if file.exists():
            return set(re.findall(NAME, file.read_text()))
    return set()


def imports(text):
    """The names that a text imports, each with the crate and the path in it."""
    for match in IMPORT.finditer(text):
        crate, path, names = match.groups()
        if (CRATES / crate).exists() and not MADE.search("." + path):
            for name in re.split(r",\s*", names.strip()):
                yield name.split(" as ")[0].strip(), crate, tuple(path.split("."))


def attributes(text, own):
    """The lemmas that attributes name."""
    for match in ATTRIBUTE.finditer(text):
        crate, path, name = match.groups()
        crate = own if crate == "crate" else crate
        if (CRATES / crate).exists():
            yield name, crate, tuple(path.split("::"))


def main():
    status = 0
    for file in sorted(CRATES.glob("*/**/*")):
        parts = file.relative_to(CRATES).parts
        if file.suffix not in {".rt", ".antt"} or "out" in parts:
            continue
        text = file.read_text()
        for name, crate, path in [*imports(text), *attributes(text, parts[0])]:
            if name and "◌" not in name and name not in names_of(crate, path):
                print(f"{'/'.join(parts)}: {'.'.join((crate, *path))} has no {name}")
                status = 1
    return status


if __name__ == "__main__":
    sys.exit(main())
