#!/usr/bin/env python3
"""words.py [WORD..]: the names of items in which words of docs/WORDS.md stand.

For each row, or those of the words that are given, it prints what the word is, and then each name that has the word or its
plural among its parts: of a file, a type, a field, a variant, a function, a clause, a definition or a lemma, with the file
and the beginning of its definition. Of a row of several words it lists the names that have all of them. So a reader can
judge, line by line, whether a word has somewhere another sense than its row says.

Files that name what others define are left out: answers and invariants, and what stands in `out`.
"""

import re
import sys
from collections import defaultdict
from pathlib import Path

TOP = Path(__file__).resolve().parents[2]
CRATES = TOP / "crates"
WIDTH = 170
SMALL = {"of", "a", "an", "the", "or", "by", "and"}
# a definition or a lemma, with its type or as the start of a record or a data type
DEFINITION = [
    re.compile(r"^\s*(?:abbrev\s+|unfoldable\s+)?(?:pub\s+)?(?:data|record)\s+([A-Za-z_][\w\-]*)"),
    re.compile(r"^\s*(?:abbrev\s+|unfoldable\s+)?(?:pub\s+)?([A-Za-z_][\w\-]*)\s*(?:\(.*\)\s*)?:\s"),
]
# an item of code, a field, a variant, a clause
CODE = [
    re.compile(r"\b(?:fn|struct|enum|trait|mod|type|const|static)\s+([A-Za-z_]\w*)"),
    re.compile(r"^\s+(?:pub(?:\([a-z]+\))?\s+)?([a-z_]\w*):\s"),
    re.compile(r"^    ([A-Z]\w*)(?:[,({]|$)"),
    re.compile(r"^\s*(?:requires|ensures)\s+([a-z_]+)\s*\{"),
]


def rows():
    """The words of the page, each with what it is."""
    for line in (TOP / "docs/WORDS.md").read_text().splitlines():
        if line.startswith("| ") and not line.startswith("| Word"):
            word, sense = line.strip("|").split("|")[:2]
            yield word.strip().replace("`", ""), sense.strip()


def source_files():
    for path in sorted(CRATES.glob("*/**/*")):
        if path.suffix in {".rt", ".antt", ".edit"} and "out" not in path.relative_to(CRATES).parts:
            yield path


def definitions():
    """Each name with the files that define it, and how the definition begins there."""
    found = defaultdict(list)
    for path in source_files():
        file = path.relative_to(CRATES)
        if path.stem in {"Answers", "Invariants"}:
            continue
        found[path.stem].append((file, ""))
        patterns = {".rt": CODE, ".antt": DEFINITION}.get(path.suffix, [])
        lines = path.read_text().splitlines()
        for number, line in enumerate(lines):
            names = dict.fromkeys(match.group(1) for pattern in patterns for match in pattern.finditer(line))
            for name in names:
                begins = " ".join(part.strip() for part in lines[number : number + 2])
                found[name].append((file, begins[:WIDTH]))
    return found


def parts(name):
    spaced = re.sub(r"([a-z0-9])([A-Z])", r"\1_\2", name)
    return {part.lower() for part in re.split(r"[_\-]", spaced) if part}


def forms(word):
    plurals = {word + "s", word + "es"}
    return {word} | plurals | ({word[:-1] + "ies"} if word.endswith("y") else set())


def main():
    asked = {word.lower() for word in sys.argv[1:]}
    found = definitions()
    for word, sense in rows():
        if asked and word.lower() not in asked:
            continue
        print(f"\n{word}: {sense}")
        wanted = [forms(one.lower()) for one in re.split(r"[ ,]+", word) if one not in SMALL]
        for name in sorted(found):
            if all(parts(name) & forms_of_one for forms_of_one in wanted):
                for file, begins in found[name]:
                    print(f"    {name}  [{file}]  {begins}".rstrip())


if __name__ == "__main__":
    main()
