#!/usr/bin/env python3
"""Says which edits no longer stand: those of crates/*/must-fail, and those of bench/edits and bench/edits/tested, by
their crates' folders.

An edit names files of its crate, and after each pairs of an old and a new text. Each old one must stand there exactly
once, as the pairs before it left the file. Where all stand it says nothing, and its status is 0. It tries no edit:
`rt must-fail`, `.ci/edits`, `bench/edits/try.sh` and `bench/edits/try_tested.py` do. Run it from anywhere.
"""

import sys
from pathlib import Path

TOP = Path(__file__).resolve().parents[2]


def main():
    faults = [(edit, fault) for edit, crate in edits() for fault in faults_of(edit, TOP / "crates" / crate)]
    for edit, fault in faults:
        print(f"{edit.relative_to(TOP)}: {fault}")
    sys.exit(1 if faults else 0)


def edits():
    """Each edit, with the name of its crate."""
    own = [(edit, edit.parent.parent.name) for edit in TOP.glob("crates/*/must-fail/*.edit")]
    others = [*TOP.glob("bench/edits/*/*.edit"), *TOP.glob("bench/edits/tested/*/*.edit")]
    return sorted(own + [(edit, edit.parent.name) for edit in others])


def faults_of(edit, crate):
    """What is wrong with an edit, up to the first pair that does not stand."""
    sources, path, old = {}, None, None
    for word, _, text in (line.partition(": ") for line in edit.read_text().splitlines()):
        if word in ("file", "old") and old is not None:
            return [f"no new text for: {old.strip()}"]
        if word == "file":
            path = crate / text
            if not path.is_file():
                return [f"no file {text} in {crate.name}"]
            sources.setdefault(path, path.read_text())
        elif word in ("old", "new") and path is None:
            return ["a pair in front of the file"]
        elif word == "old":
            old = text
            if sources[path].count(old) != 1:
                return [f"stands {sources[path].count(old)} times: {old.strip()}"]
        elif word == "new":
            if old is None:
                return [f"no old text for: {text.strip()}"]
            sources[path], old = sources[path].replace(old, text), None
    if old is not None:
        return [f"no new text for: {old.strip()}"]
    is_changed = any(source != path.read_text() for path, source in sources.items())
    return [] if is_changed else ["changes nothing"]


main()
