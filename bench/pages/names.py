"""Names in the pages that are not in the tree. bench/pages/check.sh says what is looked for. elsewhere.txt beside this has the words
of tools, of Rust and of the grammar's notation, and made-up names, that pages use and the tree has not."""

import pathlib
import re
import sys

TOP = pathlib.Path.cwd()
HERE = pathlib.Path(__file__).parent

# What is left out of a file before its words are taken.
COMMENTS = {".rt": r"//[^\n]*", ".antt": r"--(?=\s)[^\n]*", ".txt": r"//[^\n]*", ".py": r"#[^\n]*", ".sh": r"#[^\n]*"}

# A word of Rust, or of a definition, where `-` joins words.
WORD = re.compile(r"[A-Za-z_][A-Za-z0-9_']*(?:-[A-Za-z_][A-Za-z0-9_']*)*")
PATH = re.compile(r"(?<![/\w])[\w.*-]+(?:/[\w.*+-]+)+/?")
ITEM = re.compile(r"(\w+)((?:::\w+)+)")
SPAN = re.compile(r"`([^`]+)`")
# some names, and the file or the crate that has them
NAMES = r"((?:`[^`]+`(?:, | and |, and )?)+)"
OWNED = [re.compile(NAMES + r" of `([\w/]+)`"), re.compile(NAMES + r" \(`([\w.]+/[\w./]+)`\)")]

# A name that stands for any other.
ANY = re.compile(r"\b(?:NAME|WHAT|PATH)\b")


def files():
    """The files of the tree that names may stand in."""
    for folder in ("crates", "bench", "bindings", "examples", "scripts", "web"):
        for path in sorted((TOP / folder).rglob("*")):
            parts = path.relative_to(TOP).parts
            if path.is_file() and "out" not in parts and "__pycache__" not in parts:
                yield path
    yield from (path for path in TOP.iterdir() if path.is_file() and path.suffix != ".md")


def words_in(text):
    """The words of a text, those that `-` joins by themselves too."""
    joined = WORD.findall(text)
    return {*joined, *(piece for word in joined for piece in word.split("-"))}


def words_of(path):
    """The words of a file outside comments."""
    text = path.read_text(errors="replace")
    return words_in(re.sub(COMMENTS.get(path.suffix, r"(?m)^#[^\n]*"), "", text))


class Tree:
    """What stands in the tree."""

    def __init__(self):
        self.of_file = {}
        self.of_crate = {}
        self.words = set((HERE / "elsewhere.txt").read_text().split())
        self.words.update(word for path in (TOP / "docs").rglob("*") for word in ("docs", path.stem, path.suffix[1:]))
        for path in files():
            if path.parent == HERE:
                continue
            parts = path.relative_to(TOP).parts
            found = words_of(path)
            self.of_file[path] = found
            found = found | words_in(" ".join(parts))
            self.words |= found
            if parts[0] == "crates":
                self.of_crate.setdefault(parts[1], set()).update(found)
        crates = [TOP / "crates" / crate for crate in self.of_crate]
        # what pages leave out in front of a path
        self.roots = [TOP, TOP / "crates", TOP / "docs", *crates, *(crate / "src" for crate in crates)]

    def at(self, path):
        """The files and folders of this path, which may lack its front and its ending."""
        pattern = ANY.sub("*", path.rstrip("/"))
        endings = ("", ".rt", ".antt", ".md")
        return [found for root in self.roots for ending in endings for found in root.glob(pattern + ending)]

    def words_at(self, owner):
        """The words of a crate, or of the files of a path; nothing where it is neither."""
        if owner in self.of_crate:
            return self.of_crate[owner]
        found = self.at(owner) if "/" in owner else []
        return set().union(*(self.of_file.get(path, set()) for path in found))

    def faults(self, span):
        """What of a span in backticks is not there."""
        if span.startswith("rt "):
            return
        for path in PATH.findall(span):
            first = path.split("/")[0]
            is_ours = first in self.of_crate or first in ("bench", "crates", "docs", "examples", "proofs", "scripts", "specs", "src")
            if is_ours and not self.at(path):
                yield path
        for crate, rest in ITEM.findall(span):
            words = self.of_crate.get(crate, self.words)
            yield from (f"{crate}::{word}" for word in rest.split("::") if word and word not in words)
        for word in sorted(words_in(ANY.sub("", span))):
            if len(word) > 1 and "-" not in word and word not in self.words:
                yield word

    def misplaced(self, line):
        """Names that the file or the crate has not of which a line says that it has them."""
        for names, owner in (found for pattern in OWNED for found in pattern.findall(line)):
            words = self.words_at(owner)
            for name in SPAN.findall(names) if words else []:
                if WORD.fullmatch(name) and name not in words:
                    yield f"{name}` of `{owner}"


def lines_of(page):
    """The lines of a page outside blocks of code, with their numbers."""
    is_block = False
    for number, line in enumerate(page.read_text().splitlines(), 1):
        if line.startswith("```"):
            is_block = not is_block
        elif not is_block and not line.startswith("    "):
            yield number, line


# A line of a grammar, and after at least two blanks the definitions that have it.
DEFINED = re.compile(r"\S.*?  +((?:[A-Za-z_]\w*)(?:, [A-Za-z_]\w*)*)$")


def definitions_of(page):
    """The names in the right column of a page's blocks of grammar, with the numbers of their lines."""
    is_block = False
    for number, line in enumerate(page.read_text().splitlines(), 1):
        if line.startswith("```"):
            is_block = not is_block
        elif is_block and (found := DEFINED.match(line)):
            yield from ((number, name) for name in found[1].split(", "))


def main(pages):
    tree = Tree()
    of_grammar = [
        (page, number, name)
        for page in pages
        if page.stem == "GRAMMAR"
        for number, name in definitions_of(page)
        if name not in tree.of_crate["wgsl_text"]
    ]
    faults = of_grammar + [
        (page, number, fault)
        for page in pages
        for number, line in lines_of(page)
        for fault in [*(fault for span in SPAN.findall(line) for fault in tree.faults(span)), *tree.misplaced(line)]
    ]
    for page, number, fault in dict.fromkeys(faults):
        print(f"{page.relative_to(TOP)}:{number}: `{fault}`")
    sys.exit(bool(faults))


main([TOP / page for page in sys.argv[1:]] or [TOP / "README.md", *sorted((TOP / "docs").glob("*.md"))])
