#!/usr/bin/env python3
"""mentions.py [NAME..]: where constructors of the IR stand.

For each name (those of EXAMPLES, if none is given) it lists every declaration of code, specs and proofs
in which the name stands, in the spelling of the IR (`Kill`) or of statement trees (`kill`): imports,
comments and strings aside, and without samples and tests. Files come in the order of crates.txt.

mentions.py --write   writes the counts of EXAMPLES into docs/ADDING.md
mentions.py --check   tells whether they stand there, as bench/pages/check.sh asks
"""
import os
import re
import sys

ASIDE = {
    "sample_modules", "wgsl_rows", "word_tests", "module_tests", "wgsl_tests", "wgsl_cases", "example_tint",
}
# the IR with its own tables, its reader and its builder
OF_THE_IR = {"naga_ir", "naga_fields", "naga_json", "naga_builder"}
EXAMPLES = {
    "Select": "an operator that is called by a word",
    "Splat": "an operator whose text names its type, and of which constants are made",
    "CooperativeStore": "a statement that is an act",
    "Kill": "a statement that is a jump",
}
TOP = os.path.join(os.path.dirname(os.path.abspath(__file__)), "..", "..")
CRATES = os.path.join(TOP, "crates")
ADDING = os.path.join(TOP, "docs", "ADDING.md")
BEGIN, END = "<!-- bench/pages/mentions.py --write -->\n", "<!-- end -->\n"
TREES = os.path.join(CRATES, "naga_ir", "specs", "StatementTree.antt")
DEFINED = re.compile(
    r"^\s*(?:abbrev |unfoldable )?(?:pub )?(?:abbrev )?(?:data |record |ruleset )?([\w-]+)(?: \([^)]*\))?\s*:"
)
FUNCTION = re.compile(r"^\s*(?:pub(?:\([^)]*\))? )?(?:ghost )?(?:fn|enum|struct|const|static) (\w+)")


def crates():
    """The crates that may name a constructor, lowest first."""
    for line in open(os.path.join(TOP, "crates.txt")):
        name = line.split("#")[0].split(":")[0].split()
        if name and name[0] not in ASIDE:
            yield name[0]


def sources(crate):
    """The files of a crate: specs, then code, then proofs."""
    for part in ("specs", "src", "proofs"):
        for folder, folders, files in os.walk(os.path.join(CRATES, crate, part)):
            folders.sort()
            for name in sorted(files):
                if name.endswith((".rt", ".antt")):
                    yield os.path.join(folder, name)


def code_of(line, is_code):
    """A line without imports, comments and strings."""
    if re.match(r"\s*(pub |ghost )*use\b", line):
        return ""
    line = re.sub(r'"[^"]*"', '""', line)
    return line.split("//" if is_code else "-- ")[0]


def declarations(path, spelled):
    """The declarations of a file in which the name stands, and on how many lines it does."""
    is_code = path.endswith(".rt")
    pattern = FUNCTION if is_code else DEFINED
    found, lines, last = [], 0, ""
    for line in open(path):
        code = code_of(line, is_code)
        begun = pattern.match(code)
        if begun and begun.group(1) != "by":
            last = begun.group(1)
        if spelled.search(code):
            lines += 1
            if last not in found:
                found.append(last)
    return found, lines


def rows_of(name):
    """The files in which a name stands: the crate, the path, the declarations and how many lines."""
    snake = re.sub(r"(?<!^)(?=[A-Z])", "_", name).lower()
    of_trees = snake if re.search(r"\b%s\b" % snake, open(TREES).read()) else name
    spelled = re.compile(r"(?<![\w-])(%s|%s)(?![\w-])" % (name, of_trees))
    for crate in crates():
        for path in sources(crate):
            found, lines = declarations(path, spelled)
            if found:
                yield crate, os.path.relpath(path, CRATES).removesuffix(".antt"), found, lines


def table(name):
    """Prints where a name stands."""
    rows = list(rows_of(name))
    print("### %s: %d files, %d lines\n" % (name, len(rows), sum(row[3] for row in rows)))
    print("| File | Declarations | Lines |\n|---|---|---|")
    for _, path, found, lines in rows:
        print("| `%s` | %s | %d |" % (path, ", ".join("`%s`" % f for f in found), lines))
    print()


def counts():
    """The table of docs/ADDING.md."""
    text = "| Name | Is | In `naga_ir`, `naga_fields`, `naga_json`, `naga_builder` | In all other crates |\n|---|---|---|---|\n"
    for name, what in EXAMPLES.items():
        rows = list(rows_of(name))
        of_ir = [row[3] for row in rows if row[0] in OF_THE_IR]
        others = [row[3] for row in rows if row[0] not in OF_THE_IR]
        cells = ["%d files, %d lines" % (len(lines), sum(lines)) for lines in (of_ir, others)]
        text += "| `%s` | %s | %s |\n" % (name, what, " | ".join(cells))
    return text


def main(words):
    if words not in (["--write"], ["--check"]):
        for name in words or EXAMPLES:
            table(name)
        return 0
    page = open(ADDING).read()
    front, rest = page.split(BEGIN)
    wanted = front + BEGIN + counts() + END + rest.split(END)[1]
    if words == ["--write"]:
        open(ADDING, "w").write(wanted)
    elif page != wanted:
        print("docs/ADDING.md: the counts are others than `bench/pages/mentions.py --write` writes")
        return 1
    return 0


sys.exit(main(sys.argv[1:]))
