#!/usr/bin/env python3
"""Which contracts a file of lemmas serves, and which files of lemmas serve a contract.

A file of lemmas serves a function where the function's answers, or an attribute of its code, rest on it, by whatever many
files between. In some crates a line of the head of each such file says so, after what the file shows: `-- Serves ..`. Of
many contracts it names the one that is nearest. Where no contract of its own crate rests on it, it serves the crates whose
proofs import it; what only computes, as worked examples, has no such line. Run at the top of the repository:

    serves.py               says where a line tells something else, and is quiet where none does
    serves.py --write CRATE..    writes these lines
    serves.py CRATE FUNCTION     the files that serve it, those that its answers import first
"""

import re
import sys
from collections import defaultdict
from pathlib import Path

CRATES = Path(__file__).resolve().parents[2] / "crates"
ANSWERS = {"Answers", "Invariants", "Proof", "Empty", "Numbered"}
IMPORT = re.compile(r"\bRattle\.(\w+)\.proofs((?:\.[\w+]+)+)")
ATTRIBUTE = re.compile(r"\b(\w+)::proofs((?:::[\w+]+)+)")
FUNCTION = re.compile(r"\bfn (\w+)")
LINE = re.compile(r"(?m)^-- Serves (?:.+\n-- )*?.*\.\n(?!-- )")
# The most contracts that a line names.
MOST = 4
WIDTH = 100


def files_of_proofs():
    """The files of proofs, by crate and path below proofs/."""
    found = {}
    for file in CRATES.glob("*/proofs/**/*.antt"):
        crate, _, *path = file.relative_to(CRATES).with_suffix("").parts
        found[crate, *path] = file
    return {key: file for key, file in found.items() if key[-1] != "Lib"}


def named(files, crate, path):
    """The file that a path leads to, whose last names may be items of it."""
    keys = ((crate, *path[:end]) for end in range(len(path), 0, -1))
    return next((key for key in keys if key in files), None)


def imports(files):
    """The files of proofs that each one imports."""
    found = {}
    for key, file in files.items():
        paths = ((crate, path.split(".")[1:]) for crate, path in IMPORT.findall(file.read_text()))
        found[key] = {named(files, *each) for each in paths} - {None, key}
    return found


def roots(files):
    """The files on which each function's proof rests at once: its answers, and what attributes of its code name."""
    found = defaultdict(set)
    for key in files:
        if key[-1] in ANSWERS:
            found[key[0], key[-2].strip("+")].add(key)
    for file in CRATES.glob("*/src/**/*.rt"):
        crate, waiting = file.relative_to(CRATES).parts[0], set()
        for line in file.read_text().splitlines():
            for name, path in ATTRIBUTE.findall(line):
                waiting.add(named(files, crate if name == "crate" else name, path.split("::")[1:]))
            if (match := FUNCTION.search(line)) and waiting:
                found[crate, match.group(1)] |= waiting - {None}
                waiting = set()
    return found


def reached(below, start):
    """The files that these rest on, the nearest first, with the number of steps to each."""
    found = dict.fromkeys(sorted(start), 0)
    left = list(found)
    for key in left:
        new = [each for each in sorted(below[key]) if each not in found]
        found.update(dict.fromkeys(new, found[key] + 1))
        left += new
    return found


def told(names):
    """Names one after another, the last after an `and`."""
    *first, last = [f"`{name}`" for name in names]
    return f"{', '.join(first)} and {last}" if first else last


def lines(files, below):
    """What the line of each file of lemmas says, or nothing of one that only computes."""
    serves, users = defaultdict(dict), defaultdict(set)
    for (crate, function), start in roots(files).items():
        for key, steps in reached(below, start).items():
            if key[0] == crate:
                serves[key][function] = steps
    for key, imported in below.items():
        for each in imported:
            users[each].add(key[0])
    found = {}
    for key in files:
        own = sorted(serves[key], key=lambda it: (serves[key][it], it))
        others = sorted(users[key] - {key[0]})
        if key[-1] in ANSWERS or not own and not others:
            continue
        if len(own) > MOST:
            found[key] = f"Serves {len(own)} contracts, {told(own[:1])} among them."
        elif own:
            found[key] = f"Serves {told(sorted(own))}."
        else:
            found[key] = f"Serves {told(others)}." if len(others) <= MOST else f"Serves {len(others)} crates."
    return found


def folded(text):
    """A text as lines of a comment."""
    out = ["--"]
    for word in text.split():
        if len(out[-1]) + 1 + len(word) > WIDTH:
            out.append("--")
        out[-1] += " " + word
    return "".join(line + "\n" for line in out)


def with_line(text, line):
    """The text of a file with this line after what its head says first."""
    without = LINE.sub("", text, count=1)
    head = re.match(r"(?:-- .*\n)*", without).group()
    return head + folded(line) + without[len(head) :]


def main(words):
    files = files_of_proofs()
    below = imports(files)
    said = lines(files, below)
    if words[:1] == ["--write"]:
        for key, line in said.items():
            if key[0] in words[1:]:
                files[key].write_text(with_line(files[key].read_text(), line))
    elif words:
        for key in reached(below, roots(files)[tuple(words)]):
            print(files[key].relative_to(CRATES.parent))
    else:
        texts = {key: file.read_text() for key, file in files.items()}
        crates = {key[0] for key, text in texts.items() if LINE.search(text)}
        wrong = [
            key
            for key, text in texts.items()
            if key[0] in crates and text != (with_line(text, said[key]) if key in said else LINE.sub("", text))
        ]
        for key in wrong:
            print(f"{files[key].relative_to(CRATES.parent)}: its line is another: serves.py --write {key[0]}")
        return 1 if wrong else 0
    return 0


if __name__ == "__main__":
    sys.exit(main(sys.argv[1:]))
