"""What is asked of the pages that newcomers read first.

README has at most 130 lines. DESIGN, DECISIONS and SPEED have at most so many words, and no sentence of PROVED more than 40.
Every link leads to something. No page says "behind": it is "after", or another word. In the walk of READING to the promise no
file uses one that comes later. bench/pages/check.sh runs this.
"""

import re
import sys
from pathlib import Path

TOP = Path.cwd()
README, PROVED, READING = (TOP / page for page in ("README.md", "docs/PROVED.md", "docs/READING.md"))

README_LINES, SENTENCE_WORDS = 130, 40
PAGE_WORDS = {"DESIGN": 2500, "DECISIONS": 4500, "SPEED": 1500}

# The end of a sentence, with what closes around it.
END = re.compile(r"(?<=[.?!])[)`*]*\s+")
LINK = re.compile(r"\]\(([^)#\s]*)(?:#([^)\s]*))?\)")
USE = re.compile(r"^use Rattle\.([\w.]+?)\.?(?:\{| as |$)", re.M)


def sentences(text):
    """The sentences of a page: a cell of a table, a heading and an entry of a list end one too."""
    block = []
    for line in [*text.splitlines(), ""]:
        if line.startswith("|"):
            yield from (sentence for cell in line.split(" | ") for sentence in END.split(cell))
        elif line.startswith(("#", "- ")) or not line.strip():
            yield from END.split(" ".join(block))
            block = [line]
        else:
            block.append(line)
    yield from END.split(" ".join(block))


def words(text):
    """What of a text stands between blanks and has a letter or a digit."""
    return [word for word in text.split() if re.search(r"\w", word)]


def anchors(page):
    """The names by which links lead to the headings of a page."""
    headings = re.findall(r"(?m)^#+ (.*)$", page.read_text())
    return {re.sub(r"[^\w -]", "", heading.lower()).replace(" ", "-") for heading in headings}


def link_faults(page):
    """The links of a page that lead nowhere."""
    for path, anchor in LINK.findall(page.read_text()):
        if path.startswith("http"):
            continue
        target = page.parent / path if path else page
        if not target.exists() or (anchor and anchor not in anchors(target)):
            yield f"{page.relative_to(TOP)}: nothing stands where `{path}{'#' + anchor if anchor else ''}` leads"


def walk_faults():
    """Files of the first table of READING that use one that comes later. The two that begin use all others."""
    table = READING.read_text().split("\n## ")[1]
    rows = [line for line in table.splitlines() if re.match(r"\| \d", line)]
    paths = [path for row in rows for path, _ in LINK.findall(row)][2:]
    files = [(READING.parent / path).resolve() for path in paths]
    modules = [".".join(path.relative_to(TOP / "crates").with_suffix("").parts) for path in files]
    for number, path in enumerate(files):
        for used in USE.findall(path.read_text()):
            if used in modules[number + 1:]:
                yield f"docs/READING.md: {modules[number]} uses {used}, which comes later"


def faults():
    """What is not as it is asked."""
    lines = len(README.read_text().splitlines())
    if lines > README_LINES:
        yield f"README.md has {lines} lines, more than {README_LINES}"
    for page, most in PAGE_WORDS.items():
        count = len(words((TOP / "docs" / f"{page}.md").read_text()))
        if count > most:
            yield f"docs/{page}.md has {count} words, more than {most}"
    for sentence in sentences(PROVED.read_text()):
        if len(words(sentence)) > SENTENCE_WORDS:
            yield f"docs/PROVED.md: a sentence of {len(words(sentence))} words: {sentence[:70]}.."
    for page in (README, *sorted((TOP / "docs").glob("*.md"))):
        yield from link_faults(page)
        for number, line in enumerate(page.read_text().splitlines(), 1):
            if re.search(r"(?i)\bbehind\b", line):
                yield f"{page.relative_to(TOP)}:{number}: `behind`"
    yield from walk_faults()


def main():
    found = dict.fromkeys(faults())
    for fault in found:
        print(fault)
    sys.exit(bool(found))


main()
