"""Files that are made of case files: written, or compared with what stands there. The joiners of all programs of cases share it."""

import sys


def check_or_write(words, script, crate, wanted):
    """Writes to a crate's folder the texts by their files' names, or, where the words are `--check`, says which of them are
    not what stands there. The script is named where they are to be made anew. It gives the status."""
    if words == ["--check"]:
        stale = [name for name, text in wanted.items() if read(crate / name) != text]
        for name in stale:
            print(f"{crate / name} is not what the case files say: run {script}", file=sys.stderr)
        return 1 if stale else 0
    if words:
        print(f"usage: {script} [--check]", file=sys.stderr)
        return 2
    for name, text in wanted.items():
        (crate / name).write_text(text, encoding="utf-8")
    return 0


def read(path):
    return path.read_text(encoding="utf-8") if path.exists() else None
