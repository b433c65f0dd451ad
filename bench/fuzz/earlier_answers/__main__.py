"""Generates modules, and compares what two programs answer to them, an earlier one and one of this tree, as `yorwethul
--lines` does: whole answers, so texts, the names of refusals and faults, positions, labels and what is said after them.

Each module is asked for in the four styles of `generated_modules/model`. What was decided in between is told apart by
three rules, and by nothing else:

- No override sets a workgroup's size, since the earlier program reads no module that says so.
- In texts for standard compilers names keep the digits that they end in now. There, a label of other characters than
  letters of ASCII and underscores gets the letter `x` at its end, so that no name ends in a digit of its label. Plain
  texts are asked for under the labels as they are.
- The greatest `f32` and the least have other digits once floats are decimal: those of now count as the earlier ones.

The types of all modules are given, since the earlier program takes none without. The modules in which the answers differ
are kept, with both answers, in a directory that is told.

Usage: earlier_answers EARLIER PROGRAM MODULES SEED
"""

import json
import random
import re
import subprocess
import sys
import tempfile
from collections import Counter
from pathlib import Path

TOP = Path(__file__).resolve().parents[3]
sys.path += [str(TOP / "crates/wgsl_cases" / each) for each in ("ir", "runs")]
sys.path.append(str(TOP / "bench/fuzz/generated_modules/model"))

from asking import STYLES  # noqa: E402
from generator import generate  # noqa: E402
from serde import Serde  # noqa: E402

BATCH = 500
MAXIMUM = "340282346638528850000000000000000000000", "340282350000000000000000000000000000000"
# the members of modules that hold labels
NAMED = ("types", "constants", "overrides", "global_variables")


def main():
    earlier, program, modules, seed = sys.argv[1], sys.argv[2], int(sys.argv[3]), int(sys.argv[4])
    r, tally, kept = random.Random(seed), Counter(differ=0), None
    for first in range(0, modules, BATCH):
        lines = [line for _ in range(min(BATCH, modules - first)) for line in lines_of(Serde(generate(r)).known())]
        pairs = zip(answers_to(earlier, lines), answers_to(program, lines))
        for number, (line, (before, now)) in enumerate(zip(lines, pairs)):
            style = STYLES[number % len(STYLES)]
            tally.update(told(json.loads(now), *style))
            if before == now.replace(*MAXIMUM):
                tally["with the greatest f32"] += before != now
                continue
            tally["differ"] += 1
            kept = kept or Path(tempfile.mkdtemp(prefix="earlier-"))
            name = f"{seed}-{first + number // len(STYLES)}-{number % len(STYLES)}.json"
            (kept / name).write_text(f"{line}{before}\n{now}\n")
    tally["modules"] = modules
    for name, count in sorted(tally.items()):
        print(f"{count:8} {name}")
    if kept:
        print(f"kept in {kept}")
    sys.exit(1 if tally["differ"] else 0)


def answers_to(program, lines):
    answer = subprocess.run([program, "--lines"], input="".join(lines).encode(), stdout=subprocess.PIPE, check=True)
    answers = answer.stdout.decode().split("\n")[:-1]
    assert len(answers) == len(lines), (len(answers), len(lines))
    return answers


def told(answer, is_plain, explicit):
    """What is told, for counts; of refusals by their names."""
    kind = next((each for each in ("error", "not_accepted", "refused") if each in answer), "text")
    what = {"error": "not read", "not_accepted": "not accepted", "text": "written"}.get(kind)
    yield f"answers: {what or 'refused'}"
    if kind == "refused":
        yield f"answers: refused: {answer[kind]}"


# ---- lines
def lines_of(known):
    """The line of a module for each style."""
    known["module"] = without_settings(known["module"])
    by_plain = {True: text_of(known), False: text_of({**known, "module": lettered(known["module"])})}
    return [
        f'{by_plain[is_plain].removesuffix("}")},"plain":{json.dumps(is_plain)},"explicit_types":{json.dumps(explicit)}}}\n'
        for is_plain, explicit in STYLES]


def text_of(known):
    return json.dumps(known, separators=(",", ":"), allow_nan=False)


def without_settings(module):
    for point in module["entry_points"]:
        point["workgroup_size_overrides"] = None
    return module


def lettered(module):
    """The module, in which no label is cleaned to a name that ends in a digit."""
    functions = [*map(in_function, module["functions"])]
    points = [
        {**in_name(point), "function": in_function(point["function"])} for point in module["entry_points"]]
    return {
        **module, **{list_: [*map(in_name, module[list_])] for list_ in NAMED},
        "types": [*map(in_type, module["types"])], "functions": functions, "entry_points": points}


def with_letter(label):
    return label if label is None or re.fullmatch("[A-Za-z_]*", label) else label + "x"


def in_name(item):
    return {**item, "name": with_letter(item["name"])}


def in_type(ty):
    ty, inner = in_name(ty), ty["inner"]
    if "Struct" not in inner:
        return ty
    struct = inner["Struct"]
    return {**ty, "inner": {"Struct": {**struct, "members": [*map(in_name, struct["members"])]}}}


def in_function(function):
    return {
        **in_name(function), "arguments": [*map(in_name, function["arguments"])],
        "local_variables": [*map(in_name, function["local_variables"])],
        "named_expressions": in_labels(function["named_expressions"])}


def in_labels(labels):
    return {handle: with_letter(label) for handle, label in labels.items()}


main()
