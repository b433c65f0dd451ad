"""Tells modules over every form, and compares what a program reads of them with what was told.

The program prints each module that it reads, and what is known of it, as `Debug` has them (`main.rt.txt`). The forms
tell a value as JSON and as `Debug` has it at once, apart from the reader. Five hundred modules tell every form.

Usage: whole_modules PROGRAM MODULES SEED
"""

import re
import subprocess
import sys
from pathlib import Path

sys.path.append(str(Path(__file__).resolve().parents[3] / "crates/wgsl_cases/ir"))
from forms import EVERY, Chance, object_of  # noqa: E402
from ir import INFO, MODULE  # noqa: E402

BATCH = 500


def main():
    program, modules, seed = sys.argv[1], int(sys.argv[2]), int(sys.argv[3])
    r = Chance(seed)
    differ = sum(compare(program, r, first, min(BATCH, modules - first)) for first in range(0, modules, BATCH))
    untold = sorted(EVERY - set(r.told))
    print(f"{modules:8} modules of seed {seed}\n{len(r.told):8} structs and variants told of {len(EVERY)}")
    print(f"{min(r.told.values()):8} times each at least\n{differ:8} differ")
    if untold:
        print("untold:", *untold)
    sys.exit(1 if differ or untold else 0)


def compare(program, r, first, count):
    """How many of so many modules are read otherwise than they are told."""
    told = [(MODULE.tell(r), INFO.tell(r)) for _ in range(count)]
    lines = [object_of([("module", module.json), ("info", info.json)]) for module, info in told]
    shown = printed(program, lines)
    assert len(shown) == count, (len(shown), count)
    differ = 0
    for number, (line, given, (module, info)) in enumerate(zip(lines, shown, told), first):
        wanted = f"{module.debug}\t{info.debug}"
        if given != wanted:
            differ += 1
            tell_difference(number, line, given, wanted)
    return differ


def printed(program, lines):
    """What the program prints for each line."""
    text = "".join(line + "\n" for line in lines)
    answer = subprocess.run([program], input=text.encode(), stdout=subprocess.PIPE, check=True)
    return [unescaped(line) for line in answer.stdout.decode().split("\n")[:-1]]


def unescaped(line):
    """The line with the characters that are told by their numbers as themselves: which these are is the printer's."""
    return re.sub(r"(\\\\)|\\u\{([0-9a-f]+)\}", lambda m: m[1] or chr(int(m[2], 16)), line)


def tell_difference(number, line, given, wanted):
    at = next((at for at, (a, b) in enumerate(zip(given, wanted)) if a != b), min(len(given), len(wanted)))
    print(f"module {number} is read otherwise\n---- given\n..{given[max(0, at - 80):at + 80]}\n---- wanted\n"
          f"..{wanted[max(0, at - 80):at + 80]}\n---- told\n{line[:2000]}")


main()
