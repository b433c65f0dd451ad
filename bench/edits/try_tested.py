#!/usr/bin/env python3
"""Tries the edits of bench/edits/tested: wrong bodies that the tests of `wgsl_tests` are to refuse. Nothing else refuses
them, since no contract says when memory is there. Each is made on a copy of the crates, whose tests and cases are run without
any proof; one of them must fail.

Run it at the top of the repository, with the names of edits for these alone. Each takes some minutes.
"""

import re
import shutil
import subprocess
import sys
import tempfile
from pathlib import Path

TOP = Path(__file__).resolve().parents[2]
# The crates of tests, or of a program with cases, that are to refuse the edits of a crate.
TESTS = {"naga_wgsl_out": ["wgsl_tests"]}


def main(names):
    edits = sorted((TOP / "bench/edits/tested").glob("*/*.edit"))
    passed = [edit for edit in edits if not names or edit.stem in names if not is_refused(edit)]
    sys.exit(1 if passed else 0)


def is_refused(edit):
    """Whether a test or a case fails on a copy where the edit is made; says so."""
    told = []
    with tempfile.TemporaryDirectory() as folder:
        copy = Path(folder)
        shutil.copytree(TOP / "crates", copy / "crates", ignore=shutil.ignore_patterns("out"))
        for name in ("HANDLES", "crates.txt"):
            shutil.copy(TOP / name, copy / name)
        make(edit, copy / "crates" / edit.parent.name)
        for crate in TESTS[edit.parent.name]:
            failed, output = failures(copy / "crates" / crate)
            told.append(output)
            if failed:
                break
    print(f"{edit.stem}: {'refused by ' + ', '.join(failed) if failed else 'NOT REFUSED'}", flush=True)
    if not failed:
        print("".join(output[-2000:] for output in told), file=sys.stderr)
    return bool(failed)


def failures(crate):
    """The tests of a crate that fail, or the case of its program that is first answered otherwise; and what was printed."""
    if not (crate / "stdin").exists():
        run = tried(crate, ["--test"], subprocess.DEVNULL, subprocess.STDOUT)
        return re.findall(r"^test (\S+) .*FAILED", run.stdout, re.MULTILINE), run.stdout
    with open(crate / "stdin", encoding="utf-8") as cases:
        run = tried(crate, [], cases, subprocess.PIPE)
    wanted = (crate / "stdout").read_text(encoding="utf-8").splitlines()
    name = ""
    for want, got in zip(wanted, run.stdout.splitlines()):
        if want != got:
            return [name or want], run.stdout
        name = want if want.startswith("== ") else name
    return [], run.stdout + run.stderr


def tried(crate, words, read, errors):
    """A run of the tests or of the program, without a proof."""
    return subprocess.run(
        ["rt", "try", *words, "--seconds", "600"], cwd=crate, text=True, stdin=read, stdout=subprocess.PIPE, stderr=errors)


def make(edit, crate):
    """Makes the edit, each old text of which stands once (`bench/edits/stand.py`)."""
    path, old = None, None
    for word, _, text in (line.partition(": ") for line in edit.read_text().splitlines()):
        if word == "file":
            path = crate / text
        elif word == "old":
            old = text
        elif word == "new":
            path.write_text(path.read_text().replace(old, text))


main(sys.argv[1:])
