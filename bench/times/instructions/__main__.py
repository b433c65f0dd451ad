"""Counts by callgrind what programs take that answer as `yorwethul --lines`, to modules of several shapes (`shapes.py`).

For each shape it prints the instructions of one `Writer::write` by each program, and those for an item: that is the call
alone, without JSON, acceptance and counting. Then it prints those of a whole answer, JSON and all, to a module that is
written and to the same with one fault on its first line, on one in the middle and on its last, where it is refused; and
to one of thirty functions, of which the last has the fault.

Programs are compared that were compiled alike, as two trees by `scripts/unproved_program`.

Usage: instructions PROGRAM ..
"""

import json
import re
import subprocess
import sys
import tempfile
from pathlib import Path

from shapes import FAULTS, PLACES, SHAPES, faulty, faulty_functions

WRITE = "naga_wgsl_out::writer::Writer::write::"


def main():
    programs = sys.argv[1:]
    for shape, (items, module) in SHAPES.items():
        counts = [of_write(program, module()) for program in programs]
        print(shape, *counts, *(round(count / items) for count in counts), sep="\t", flush=True)
    for fault in FAULTS:
        for place in PLACES if fault else PLACES[:1]:
            counts = [of_answer(program, faulty(fault, place)) for program in programs]
            print(f"{fault} {place}" if fault else "written", *counts, sep="\t", flush=True)
    for fault in FAULTS:
        counts = [of_answer(program, faulty_functions(fault)) for program in programs]
        print(f"{fault or 'written'}, thirty functions", *counts, sep="\t", flush=True)


def of_write(program, module):
    """The instructions of `write` for this module."""
    with tempfile.TemporaryDirectory() as room:
        kept = Path(room) / "callgrind"
        counted(program, [module], kept)
        told = subprocess.run(
            ["callgrind_annotate", "--inclusive=yes", "--threshold=100", "--show-percs=no", kept],
            stdout=subprocess.PIPE, text=True, check=True).stdout
    return next(number(line.split()[0]) for line in told.splitlines() if WRITE in line)


def of_answer(program, module):
    """The instructions of one answer more."""
    few, many = (counted(program, [module] * count, "/dev/null") for count in (1, 3))
    return (many - few) // 2


def counted(program, modules, kept):
    """The instructions of a whole run, whose profile is kept there."""
    lines = "".join(json.dumps({**module, "plain": True}, separators=(",", ":")) + "\n" for module in modules)
    told = subprocess.run(
        ["valgrind", "--tool=callgrind", f"--callgrind-out-file={kept}", program, "--lines"],
        input=lines, stdout=subprocess.PIPE, stderr=subprocess.PIPE, text=True, check=True)
    answers = list(map(json.loads, told.stdout.splitlines()))
    assert all("text" in answer for answer in answers), answers
    return number(re.search("Collected : ([0-9]+)", told.stderr)[1])


def number(digits):
    return int(digits.replace(",", ""))


main()
