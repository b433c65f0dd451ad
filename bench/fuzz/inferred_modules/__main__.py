"""Generates modules, takes away what is known of them, and compares what is found by the modules alone with
`crates/wgsl_cases/ir/inference.py`, which was written apart from the code, and with what was taken away.

`types` compares types: a program prints what the crate naga_inference gives each expression (`main.rt.txt`), by the
types that were generated of those before it, and by the module alone. Half of the modules are spoiled: one of their
expressions has another operand.

`texts` compares what a program answers, as `yorwethul --lines` does: to a module alone, to the same with the types that
the rules in Python give, and to the same with those that were generated. An expression to which the rules give another
type than was generated is replaced by the zero value of that type, so that what was generated follows the rules.

Usage: inferred_modules types PROGRAM MODULES SEED
       inferred_modules texts PROGRAM MODULES SEED
"""

import json
import random
import subprocess
import sys
from collections import Counter
from pathlib import Path

TOP = Path(__file__).resolve().parents[3]
sys.path += [str(TOP / "crates/wgsl_cases" / each) for each in ("ir", "runs")]
sys.path.append(str(TOP / "bench/fuzz/generated_modules/model"))

from asking import STYLES, answers_to  # noqa: E402
from generator import generate  # noqa: E402
from inference import Untyped, expression_type, is_same_type, module_types, named, told  # noqa: E402
from serde import Serde  # noqa: E402

BATCH = 1000
# the handle that stands for no type
NONE = 2**32 - 1
# fields of one operand, by which most types go
OPERANDS = (
    "base", "value", "vector", "pointer", "image", "expr", "left", "right", "accept", "argument", "arg", "arg1", "c")


def main():
    what, program, modules, seed = sys.argv[1], sys.argv[2], int(sys.argv[3]), int(sys.argv[4])
    make, compare = {"types": (spoiled, compare_types), "texts": (mended, compare_texts)}[what]
    r, tally = random.Random(seed), Counter(differ=0)
    for first in range(0, modules, BATCH):
        samples = [make(r, Sample(generate(r))) for _ in range(min(BATCH, modules - first))]
        tally["modules"] += len(samples)
        for number, difference in compare(program, samples, tally):
            tally["differ"] += 1
            tell_difference(first + number, samples[number], *difference)
    for name, count in tally.items():
        print(f"{count:8} {name}")
    sys.exit(1 if tally["differ"] else 0)


class Sample:
    """A module, with what was generated of its types."""

    def __init__(self, generated):
        known = Serde(generated).known()
        self.module, self.given = known["module"], known["info"]

    def scopes(self):
        """The expressions that stand together: of which function, if of one, and the types that were generated."""
        points = [point["function"] for point in self.module["entry_points"]]
        functions = [*self.module["functions"], *points]
        types = [*self.given["functions"], *self.given["entry_points"]]
        own = (None, self.module["global_expressions"], self.given["const_expression_types"])
        return [own, *((function, function["expressions"], each) for function, each in zip(functions, types))]

    def by_given(self):
        """The types that the rules give by those that were generated, in the form of an info."""
        own, *rest = [
            [self.type_by(function, types, handle, expression) for handle, expression in enumerate(expressions)]
            for function, expressions, types in self.scopes()]
        count = len(self.module["functions"])
        return {"functions": rest[:count], "entry_points": rest[count:], "const_expression_types": own}

    def type_by(self, function, types, handle, expression):
        ty = expression_type(self.module, function, [told(each) for each in types[:handle]], expression)
        return NONE if ty is None else ty

    def alone(self):
        """The types by the module alone, and where the first expression stands that has none."""
        try:
            return module_types(self.module), None
        except Untyped as error:
            return {}, str(error)


def types_in(info):
    return [ty for each in (*info["functions"], *info["entry_points"], info["const_expression_types"]) for ty in each]


def spoiled(r, sample):
    """Gives one expression of every other module another operand, of which most have another type."""
    scopes = [expressions for _, expressions, _ in sample.scopes() if expressions]
    if not scopes or r.random() < 0.5:
        return sample
    expressions = r.choice(scopes)
    handle = r.randrange(len(expressions))
    _, content = named(expressions[handle])
    operands = [name for name in OPERANDS if isinstance(content, dict) and isinstance(content.get(name), int)]
    if operands:
        content[r.choice(operands)] = r.randrange(handle + 1)
    return sample


def mended(_, sample):
    """Puts zero values in the place of expressions to which the rules give another type than was generated. A struct is
    told by its handle then."""
    for function, expressions, types in sample.scopes():
        for handle, ty in enumerate(map(told, types)):
            if isinstance(ty, dict) and "Struct" in ty["Value"]:
                ty = types[handle] = handle_of(sample.module, ty)
            rule = sample.type_by(function, types, handle, expressions[handle])
            if not is_same_type(sample.module, rule, ty):
                expressions[handle] = {"ZeroValue": handle_of(sample.module, ty)}
    return sample


def handle_of(module, ty):
    """The handle of a type, which is added where the module does not have it."""
    if not isinstance(ty, dict):
        return ty
    types = module["types"]
    unnamed = {"name": None, "inner": ty["Value"]}
    if unnamed not in types:
        types.append(unnamed)
    return types.index(unnamed)


# ---- types

def compare_types(program, samples, tally):
    """The modules of which a program gives other types, with what it prints and what was wanted."""
    alone = [sample.alone() for sample in samples]
    lines = [
        line_of({"module": each.module, "info": each.given, "by_told": each.by_given(), "alone": found})
        for each, (found, _) in zip(samples, alone)]
    answer = subprocess.run([program], input="".join(lines).encode(), stdout=subprocess.PIPE, check=True)
    shown = answer.stdout.decode().split("\n")[:-1]
    assert len(shown) == len(samples), (len(shown), len(samples))
    for number, (sample, (found, untyped), line) in enumerate(zip(samples, alone, shown)):
        if line.startswith("error: "):
            tally["not read"] += 1
            continue
        by_given, inferred = line.split("\t")
        tally["types by those generated"] += len(types_in(sample.given))
        tally["without a type"] += untyped is not None
        tally["found and accepted"] += inferred == "found"
        tally["types of these"] += len(types_in(found)) if inferred == "found" else 0
        if by_given != "same" or not is_answer(inferred, untyped):
            yield number, (line, untyped or found)


def is_answer(inferred, untyped):
    """Whether `infer` may answer so, where the first expression without a type stands there, or there is none."""
    endings = [": it has no type", ": the module has no special type for it"]
    if untyped is not None:
        return inferred in [untyped + ending for ending in endings]
    return inferred == "found" or " and not " not in inferred and not inferred.endswith(tuple(endings))


# ---- texts

def compare_texts(program, samples, tally):
    """The modules to which a program gives other answers without their infos, with both."""
    alone = answers_in(program, [{"module": sample.module} for sample in samples])
    found = answers_in(program, [{"module": sample.module, "info": sample.alone()[0]} for sample in samples])
    given = answers_in(program, [{"module": sample.module, "info": sample.given} for sample in samples])
    for number, (one, other, third) in enumerate(zip(alone, found, given)):
        tally["written in each style"] += all("text" in each and "refused" not in each for each in one)
        tally["not accepted"] += all("not_accepted" in each for each in one)
        if one != other or one != third:
            yield number, (one, other if one != other else third)


def answers_in(program, knowns):
    """What a program answers to each of these in each style."""
    lines = [
        line_of({**known, "plain": is_plain, "explicit_types": explicit})
        for known in knowns for is_plain, explicit in STYLES]
    answers = [without_reason(answer) for answer in answers_to(program, lines)]
    count = len(STYLES)
    return [answers[first:first + count] for first in range(0, len(answers), count)]


def without_reason(answer):
    """The answer without the types that a fault names: one that can't be spelled is told by its handle, if that is known."""
    if "not_accepted" in answer:
        answer["not_accepted"].pop("reason", None)
    return answer


def line_of(known):
    return json.dumps(known, separators=(",", ":"), allow_nan=False) + "\n"


def tell_difference(number, sample, given, wanted):
    module = json.dumps(sample.module)[:3000]
    print(f"module {number}\n---- given\n{given}\n---- wanted\n{wanted}\n---- module\n{module}")


main()
