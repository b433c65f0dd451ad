#!/usr/bin/env python3
"""Says which examples are not the first lines of crates/yorwethul/stdin, in the order of their names, which texts
beside them are missing or not what becomes of them, and where README shows another text of its first example.

Each example stands in two lines, of which the second asks for its plain text, and neither for types of `let`s. So the
gate runs the program on each of them in both ways, and crates/yorwethul/stdout has what becomes of it. A line may have
other members beside. Where each example stands, each `NAME.wgsl` is the text of the first line of `NAME.json`, each
example that is refused as a plain text alone has one, and README shows the end of one, it says nothing, and its status
is 0. Run it from anywhere.
"""

import json
import re
import sys
from textwrap import dedent
from itertools import zip_longest
from pathlib import Path

TOP = Path(__file__).resolve().parent.parent
LINES, ANSWERS = (TOP / "crates/yorwethul" / name for name in ("stdin", "stdout"))


def main():
    faults = [*missing_lines(), *missing_texts(), *other_texts(), *other_words_of_readme()]
    for fault in faults:
        print(fault)
    sys.exit(1 if faults else 0)


def examples():
    return sorted(TOP.glob("examples/*.json"))


def missing_lines():
    """Examples that are not where they should be."""
    asked = [(example, is_plain) for example in examples() for is_plain in (False, True)]
    lines = LINES.read_text().splitlines()[:len(asked)]
    for number, ((example, is_plain), line) in enumerate(zip_longest(asked, lines, fillvalue=""), 1):
        if not stands_in(example, is_plain, line):
            plainly = " with a plain text" if is_plain else ""
            yield f"examples/{example.name}{plainly} is not line {number} of crates/yorwethul/stdin"


def stands_in(example, is_plain, line):
    """Whether this line of JSON has the example's module and info, and asks for such a text."""
    wanted, told = json.loads(example.read_text()), object_of(line)
    has_module = all(told.get(member) == wanted[member] for member in ("module", "info"))
    return has_module and told.get("plain", False) is is_plain and told.get("explicit_types", False) is False


def missing_texts():
    """Examples without a text beside them that have one, but no plain one: it shows how their floats are written."""
    for example, plain in zip(examples(), answers()[1::2]):
        if example.stem in texts() and "refused" in plain and not example.with_suffix(".wgsl").exists():
            yield f"examples/{example.stem}.wgsl is missing"


def other_texts():
    """Texts that the program does not give, and those of no example."""
    for path in sorted(TOP.glob("examples/*.wgsl")):
        if path.read_text() != texts().get(path.stem):
            yield f"examples/{path.name} is not the text that crates/yorwethul/stdout has of examples/{path.stem}.json"


def texts():
    """What the program gives of each example, where that is a text."""
    told = zip(examples(), answers()[::2])
    return {example.stem: answer["text"] for example, answer in told if "refused" not in answer}


def answers():
    return list(map(object_of, ANSWERS.read_text().splitlines()))


def other_words_of_readme():
    """README, where the first text in it is not the end of that of the first example in it."""
    readme = (TOP / "README.md").read_text()
    name = re.search(r"\./yorwethul examples/(\w+)\.json", readme)[1]
    shown = dedent(re.search(r"(?m)^    @(?:.*\n(?=    |\n    ))*.*\n", readme)[0])
    if not texts().get(name, "").endswith(shown):
        yield f"README.md shows another text than that of examples/{name}.json"


def object_of(line):
    """The object that a line holds, or an empty one."""
    try:
        told = json.loads(line)
    except ValueError:
        return {}
    return told if isinstance(told, dict) else {}


main()
