"""Plants one construct in each of many generated modules, and asks a program where it is refused.

Modules are those of the model's generator that are accepted and written. Each construct of
`constructs.py` is planted in turn, at a place that is known beforehand, so that the module stays
accepted by the model, and has nothing else for which it is refused. In each style of the model the
program has to tell this construct, this place and this function, and in one, where all that can be
refused is, the text in front. In a style in which the construct does not stand, as a float where
floats are decimal, the module has to be written.

Usage: planted PROGRAM MODULES SEED
       planted PROGRAM many

Where PROGRAM is `-`, no program is asked. Lines whose answers differ are kept in a directory that
is told. The status is 1 where one differs. `many` asks for one module alone, of more entry points
than a name's key can tell.
"""

import pickle
import random
import sys
import tempfile
from collections import Counter, deque
from itertools import islice
from pathlib import Path

HERE = Path(__file__).resolve()
CASES = HERE.parents[4] / "crates/wgsl_cases"
sys.path += [str(HERE.parents[1] / "model"), str(CASES / "ir"), str(CASES / "runs")]

from acceptance import is_accepted, is_read
from asking import STYLES, answers_to
from constructs import CONSTRUCTS, FULL_KEY, NOT_PLANTED
from declaration_rows import MOST, many
from generator import generate
from positions import Planted
from refusals import refusal
from serde import lines_of
from texts import answers_of

BATCH = 2000
# how many constructs are planted in copies of one module
PLANTS = 4
# the style in which all stands that stands in any, as it is plain and `let`s tell types
FULL = (True, True)


class Sample:
    """A module with a construct: where it comes from, what is wanted, its lines, and the texts that
    may be in front."""

    def __init__(self, construct, source, planted, lines, texts):
        self.construct, self.source, self.lines, self.texts = construct, source, lines, texts
        self.wanted = [planted.wanted(style[1]) if planted.stands(*style) else None for style in STYLES]

    def differs(self, answers):
        """The first style whose answer is another than is wanted, with both."""
        for style, wanted, answer in zip(STYLES, self.wanted, answers):
            if wanted is None:
                is_right = answer.keys() == {"text"}
            elif style == FULL:
                is_right = any(answer == {**wanted, "text": text} for text in self.texts)
            else:
                is_right = answer == {**wanted, "text": answer.get("text")}
            if not is_right:
                return style, wanted, answer
        return None


class Tally:
    def __init__(self, seed):
        self.seed, self.planted, self.unfit, self.differ = seed, Counter(), Counter(), Counter()
        self.kept = None

    def tell(self, number, sample, style, wanted, answer):
        self.differ[sample.construct] += 1
        self.kept = self.kept or Path(tempfile.mkdtemp(prefix="planted-"))
        path = self.kept / f"{self.seed}-{number}.json"
        path.write_text(sample.lines[STYLES.index(style)])
        is_plain, explicit = style
        print(f"seed {self.seed}, module {sample.source}, planted {number}: {sample.construct}")
        print(f"  {path}\n  plain {is_plain}, explicit types {explicit}")
        print(f"  wanted {'a text' if wanted is None else wanted}\n  given  {answer}")

    def __str__(self):
        counts = [
            f"{self.planted[name]:8} {name}: {self.differ[name]} differ"
            f" ({self.unfit[name]} modules had no room)"
            for name in (*CONSTRUCTS, FULL_KEY) if self.planted[name] or self.unfit[name]]
        counts += [f"not planted: {name}: {why}" for name, why in NOT_PLANTED.items()]
        counts.append(f"{self.planted.total():8} planted, {self.differ.total()} differ")
        return "\n".join(counts)


def main():
    program, is_many = sys.argv[1], sys.argv[2:] == ["many"]
    count, seed = (1, 0) if is_many else map(int, sys.argv[2:])
    tally = Tally(seed)
    samples = iter([full_sample()]) if is_many else samples_of(seed, tally)
    for start in range(0, count, BATCH):
        compare(program, start, list(islice(samples, min(BATCH, count - start))), tally)
    print(tally)
    sys.exit(1 if tally.differ else 0)


def compare(program, start, batch, tally):
    tally.planted.update(sample.construct for sample in batch)
    if program == "-":
        return
    answers = answers_to(program, [line for sample in batch for line in sample.lines])
    for number, sample in enumerate(batch):
        found = sample.differs(answers[len(STYLES) * number:len(STYLES) * (number + 1)])
        if found is not None:
            tally.tell(start + number, sample, *found)


def samples_of(seed, tally):
    """Modules with one construct each. One that does not fit is tried with the next module."""
    waiting = deque(CONSTRUCTS)
    for source, module in written_modules(seed):
        kept, later = pickle.dumps(module), []
        for turn in range(PLANTS):
            construct, r = waiting.popleft(), random.Random(f"{seed}/{source}/{turn}")
            sample = planted_in(pickle.loads(kept), construct, source, r)
            if sample is None:
                tally.unfit[construct] += 1
                later.append(construct)
            else:
                waiting.append(construct)
                yield sample
        waiting.extendleft(later)


def written_modules(seed):
    """Modules that are accepted and written in each style, each with its number."""
    number = 0
    while True:
        module = generate(random.Random(f"{seed}/{number}"))
        if is_read(module) and is_accepted(module) and answers_of(module, True)[0]:
            yield number, module
        number += 1


def planted_in(module, construct, source, r):
    """The module with the construct, if there is room for it and it is accepted and has nothing
    else."""
    planted = CONSTRUCTS[construct](r, module)
    if planted is None or not is_read(module) or not is_accepted(module):
        return None
    _, texts = answers_of(module, True)
    ending = refusal(planted.name)
    if not all(text.endswith(ending) for text in texts):
        return None
    in_front = [text.removesuffix(ending) for text in texts]
    return Sample(construct, source, planted, lines_of(module, STYLES), in_front)


def full_sample():
    """A module of one entry point too many, whose items get no names."""
    module, _ = many(MOST + 1)
    planted = Planted(FULL_KEY, None, lambda: "")
    return Sample(FULL_KEY, "many", planted, lines_of(module, STYLES), [""])


main()
