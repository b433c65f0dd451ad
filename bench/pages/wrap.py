"""Wraps the prose of pages: python3 bench/pages/wrap.py [--check] [PAGE..], at the top of the repository.

A paragraph or an entry of a list is laid out in lines of at most 120 columns, README's of at most 100. Tables, headings and
what stands in code are left as they are. With --check nothing is written: it tells each line that is longer, and each
paragraph of more than six lines, which is to be cut in two.
"""

import re
import sys
import textwrap
from pathlib import Path

COLUMNS, README_COLUMNS, PARAGRAPH_LINES = 120, 100, 6
ENTRY = re.compile(r"(\s*)([-*]|\d+\.) ")
# where a link leads, which a reader does not see
LINK = re.compile(r"(\])\([^)\s]*\)")


def blocks(text):
    """The lines of a page in groups: each paragraph, each entry of a list, and each other line by itself, with whether it is prose."""
    group, in_code = [], False
    for line in text.split("\n"):
        fence = line.lstrip().startswith("```")
        prose = not (in_code or fence or not line.strip() or line.startswith(("|", "#", "    ", "<", "![")))
        if fence:
            in_code = not in_code
        if group and (not prose or ENTRY.match(line)):
            yield group, True
            group = []
        if prose:
            group.append(line)
        else:
            yield [line], False
    if group:
        yield group, True


def wrapped(lines, columns):
    entry = ENTRY.match(lines[0])
    indent = " " * len(entry[0]) if entry else re.match(r"\s*", lines[0])[0]
    text = " ".join(line.strip() for line in lines)
    first = re.match(r"\s*", lines[0])[0]
    return textwrap.wrap(text, columns, initial_indent=first, subsequent_indent=indent, break_long_words=False, break_on_hyphens=False)


def main(words):
    check = "--check" in words
    named = [Path(word) for word in words if not word.startswith("--")]
    pages = named or [Path("README.md"), *sorted(Path("docs").glob("*.md")), *sorted(Path("bindings").glob("*/README.md"))]
    faults = []
    for page in pages:
        columns = README_COLUMNS if page.name == "README.md" else COLUMNS
        made, number = [], 1
        for lines, is_prose in blocks(page.read_text()):
            laid_out = wrapped(lines, columns) if is_prose else lines
            if is_prose and check:
                if max(map(len, lines)) > columns:
                    faults.append(f"{page}:{number}: a line of more than {columns} columns")
                shown = wrapped([LINK.sub(r"\1", line) for line in laid_out], columns)
                if len(shown) > PARAGRAPH_LINES:
                    faults.append(f"{page}:{number}: a paragraph of {len(shown)} lines, more than {PARAGRAPH_LINES}")
            made += laid_out
            number += len(lines)
        if not check:
            page.write_text("\n".join(made))
    print("\n".join(faults), end="\n" if faults else "")
    return 1 if faults else 0


if __name__ == "__main__":
    sys.exit(main(sys.argv[1:]))
