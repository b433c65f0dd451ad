"""Which lemmas and definitions nothing uses: run at the top of the repository, quiet where there is none.

A declaration of a file of proofs or definitions is used where a line outside it names it: one of another declaration
that is used, a clause, an answer, an attribute of code. An import alone is no use, but one that gives it another name is.
What computes worked examples, the answers and the fields of contracts are their own purpose.
"""

import re
import sys
from collections import defaultdict
from pathlib import Path

NAME = r"[\w\-+'≢≡≤<₀-₉?!]+"
DECLARATION = re.compile(rf"^( *)(?:abbrev |unfoldable )?(?:pub )?({NAME}) : ")
RENAMED = re.compile(rf"({NAME}) as ")
# Files of which each declaration has a purpose of its own: what Rattle looks for by its name, and what is computed.
OWN_PURPOSE = re.compile(r"(Answers|Invariants|Empty|Numbered)\.antt$|Examples|/Rows|/\w*Rows\.antt$")


def indent(line):
    return len(line) - len(line.lstrip())


def names_in(line, is_code):
    """The names in a line, without its comment. A dash at an end of one belongs to no name."""
    text = line if is_code else line.split("-- ")[0]
    found = set(re.findall(NAME, text))
    return found | {name.strip("-") for name in found}


def lines_of(lines, start):
    """The numbers of a declaration's lines: its statement, its equations and what stands in them."""
    own, blanks = [start], []
    name = DECLARATION.match(lines[start]).group(2)
    for number in range(start + 1, len(lines)):
        line = lines[number]
        if not line.strip():
            blanks.append(number)
            continue
        first = line.split()[0]
        here = indent(line) == indent(lines[start])
        if indent(line) < indent(lines[start]) or here and first not in (name, "unfolding", "where", ")", "}", "]"):
            break
        own += [*blanks, number]
        blanks = []
    return own


def declarations(files):
    """The declarations, by file and line: their names and lines."""
    found = {}
    for file, lines in files.items():
        if file.suffix != ".antt" or OWN_PURPOSE.search(str(file)):
            continue
        for start, line in enumerate(lines):
            match = DECLARATION.match(line)
            if match and len(match.group(1)) <= 2 and not line.lstrip().startswith("--"):
                found[file, start] = match.group(2), lines_of(lines, start)
    return found


def uses(files, found):
    """By each name, who names it: declarations, and lines that stand in none."""
    owner = {}
    for place, (_, own) in found.items():
        for number in own:
            owner.setdefault((place[0], number), place)
    users = defaultdict(set)
    for file, lines in files.items():
        is_code = file.suffix == ".rt"
        for number, line in enumerate(lines):
            if not is_code and line.startswith("use "):
                names = set(RENAMED.findall(line))
            else:
                names = names_in(line, is_code)
            for name in names:
                users[name].add(owner.get((file, number), (file, number, "line")))
    return users


def unused(files):
    """The declarations that nothing uses, nor what they alone use."""
    found = declarations(files)
    users = uses(files, found)
    dead, before = set(), -1
    while len(dead) != before:
        before = len(dead)
        for place, (name, _) in found.items():
            if place not in dead and not users[name] - dead - {place}:
                dead.add(place)
    return sorted((str(file), start + 1, found[file, start][0]) for file, start in dead)


def main():
    files = {
        file: file.read_text().split("\n")
        for file in sorted(Path("crates").rglob("*"))
        if file.suffix in (".antt", ".rt") and "out" not in file.parts
    }
    faults = unused(files)
    for file, line, name in faults:
        print(f"{file}:{line}: nothing uses {name}")
    return 1 if faults else 0


if __name__ == "__main__":
    sys.exit(main())
