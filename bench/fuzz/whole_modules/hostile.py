"""Tells modules that are spoiled in one place, and looks at what a program answers.

Each value of each module is replaced in turn by others, each member of an object left out, another member put beside
each, content put after each name of a variant that has none, the last item of each list doubled, and the text cut
off at each tenth character; texts nest deep, or tell no module. The program (`main.rt.txt`) must answer each with a
module or with an error, and go on. An error must tell the place that was spoiled, or one in or around it, and a problem
that can be there; where a number is read, it must be the one that was told.

Usage: hostile PROGRAM MODULES SEED
"""

import json
import re
import struct
import subprocess
import sys
from collections import Counter
from pathlib import Path
from typing import NamedTuple

sys.path.append(str(Path(__file__).resolve().parents[3] / "crates/wgsl_cases/ir"))
from forms import EVERY, Chance, object_of  # noqa: E402
from ir import INFO, MODULE  # noqa: E402

BATCH = 2000
# what a value is replaced by, and what no error may say of that
OTHERS = {
    "null": ["no null"], "true": ["no truth value"], "1": ["no number", "no whole number", "number out of range"],
    "-1": ["no number", "no whole number"], "1.5": ["no number", "number out of range"],
    "18446744073709551615": ["no number", "no whole number"], "18446744073709551616": ["no number"],
    '"x"': ["no text"], "[]": ["no list"], "{}": ["no object"]}
# JSON has this number, but no double
BEYOND = "1e999"
MARK = "\x01"
# what must be refused
NEVER_READ = ("cut off", "no module", "content after a name")
# what is let be in a module, whatever stands in it
LET_BE = re.compile(
    r"\.(doc_comments|mesh_info\.(?!output_variable)\w+|RayQuery\.fun)\b")
# what is told by its name alone is one of these
VARIANTS = {name.split("::")[1] for name in EVERY if "::" in name}


class Spoiled(NamedTuple):
    """A text, what was done to it, at which place, and what no error may say."""
    text: str
    what: str
    place: str
    never: tuple = ()


class Tally:
    def __init__(self):
        self.counts, self.faults = Counter(), 0

    def add(self, *what):
        self.counts[" | ".join(what)] += 1

    def fault(self, what, spoiled, answer):
        self.faults += 1
        if self.faults <= 50:
            print(f"---- {what}: {spoiled.what} at {spoiled.place}\n{answer[:300]}\n{spoiled.text[:1000]}")

    def __str__(self):
        counts = "\n".join(f"{self.counts[what]:8} {what}" for what in sorted(self.counts))
        return f"{counts}\n{sum(self.counts.values()):8} answers, of which {self.faults} are wrong"


def main():
    program, modules, seed = sys.argv[1], int(sys.argv[2]), int(sys.argv[3])
    r, tally = Chance(seed, most=1, absent=0.4), Tally()
    answer(program, [*nested(), *others()], tally)
    for _ in range(modules):
        line = object_of([("module", MODULE.tell(r).json), ("info", INFO.tell(r).json)])
        for part in parts(json.loads(line)):
            answer(program, list(spoiled(part)), tally)
    print(f"{tally}\n{modules:8} modules of seed {seed}, with {len(r.told)} variants and structs")
    sys.exit(1 if tally.faults else 0)


# ---- what is spoiled
def parts(known):
    """The module in parts, each of one member: the others may all be absent, and short texts are soon read. Beside it
    stands an empty one that is known, since the reader of an info asks for such a member."""
    for name, value in known["module"].items():
        # the leaf is one of the filters
        filters = {"diagnostic_filters": known["module"].get("diagnostic_filters", [])} if name == "diagnostic_filter_leaf" else {}
        yield {"module": {"types": [], **filters, name: value}, "info": {}}
    for name, value in known["info"].items():
        yield {"module": {}, "info": {"functions": [], name: value}}


def spoiled(known):
    """The module as it is, and spoiled in each way."""
    text = json.dumps(known)
    yield Spoiled(text, "as it is", "")
    for parent, key, place in places(known, ""):
        value = parent[key]
        parent[key] = MARK
        frame = json.dumps(known)
        # a number in place of an info is its type, which may be the same
        done = "an info replaced by " if isinstance(value, dict) and "ref_count" in value else "replaced by "
        for other, never in OTHERS.items():
            yield Spoiled(frame.replace(json.dumps(MARK), other), done + other, place, tuple(never))
        yield Spoiled(frame.replace(json.dumps(MARK), BEYOND), "replaced by " + BEYOND, place)
        if isinstance(value, str) and value in VARIANTS:
            yield Spoiled(frame.replace(json.dumps(MARK), object_of([(value, "7")])), "content after a name", place)
        if isinstance(value, list) and value:
            doubled = json.dumps(value + value[-1:])
            yield Spoiled(frame.replace(json.dumps(MARK), doubled), "one doubled", f"{place}[{len(value)}]")
        if isinstance(parent, dict):
            del parent[key]
            yield Spoiled(json.dumps(known), "left out", place)
            beside = json.dumps(value) + ', "beside": 0'
            yield Spoiled(frame.replace(json.dumps(MARK), beside), "one beside", parent_of(place))
        parent[key] = value
    for length in range(0, len(text), 10):
        yield Spoiled(text[:length], "cut off", "")


def places(value, place):
    """Each value in this one, by what it stands in and its key, with its place."""
    items = value.items() if isinstance(value, dict) else enumerate(value) if isinstance(value, list) else ()
    for key, inner in list(items):
        step = f"[{key}]" if isinstance(key, int) else f".{key}" if place else key
        yield value, key, place + step
        yield from places(inner, place + step)


def parent_of(place):
    return re.sub(r"(\.|^)[^.\[\]]*$|\[\d+\]$", "", place)


def nested():
    """Texts that nest deep. Of JSON lists and objects may be refused that nest more than 127 deep."""
    known, body = '{"module":{"types":[],"doc_comments":%s},"info":{}}', '{"module":{"functions":[{"body":%s}]},"info":{}}'
    wraps = {
        "lists": (known, "[", "", "]"), "objects": (known, '{"a":', "0", "}"),
        "blocks": (body, '[{"Block":', "[]", "}]"),
        "choices": (body, '[{"If":{"condition":0,"accept":', "[]", "}}]"),
        "loops": (body, '[{"Loop":{"body":[],"continuing":', "[]", "}}]"),
        "cases": (body, '[{"Switch":{"selector":0,"cases":[{"value":"Default","body":', "[]", "}]}}]")}
    for name, (around, before, inner, after) in wraps.items():
        # around the depths at which a block and what stands around it nest 127 deep
        for count in (1, *range(20, 30), *range(38, 45), *range(58, 66), *range(122, 130), 10000):
            text = around % (before * count + inner + after * count)
            depth = depth_of(text)
            kind = "10,000 times" if count == 10000 else "more than 127 deep" if depth > 127 else "at most 127 deep"
            yield Spoiled(text, f"{name} nested {kind}", "")
            if count in (1, 129, 10000):
                yield Spoiled(text[:len(text) // 2], f"{name} nested and cut off", "")


def depth_of(text):
    depth = most = 0
    for character in text:
        depth += (character in "[{") - (character in "]}")
        most = max(most, depth)
    return most


def others():
    """Texts that tell no module."""
    for text in (
            "", " ", "\ufeff{}", "nul", '"\\ud800"', '"\\ud800\\u0041"', '{"module":{},"info":{}} x', "[]", "0", '"x"',
            "-", "01", "1.", ".5", "+1", "1e", "'x'", "{module:{}}", '{"module":{},}', "[1,]", '"\t"', "[" * 10000,
            '{"a":' * 10000):
        yield Spoiled(text, "no module", "")


# ---- what is answered
def answer(program, texts, tally):
    """Judges what the program answers to these texts, of which the first is one that is not spoiled, or none is."""
    whole = None
    for first in range(0, len(texts), BATCH):
        batch = texts[first:first + BATCH]
        answers = answers_to(program, batch)
        if answers is None:
            answers = [(answers_to(program, [each]) or ["stopped"])[0] for each in batch]
        whole = whole or answers[0]
        for each, given in zip(batch, answers):
            judge(each, given, whole, tally)


def answers_to(program, batch):
    """A line for each text, or None where the program stopped."""
    lines = "".join(each.text + "\n" for each in batch)
    run = subprocess.run([program], input=lines.encode(), stdout=subprocess.PIPE)
    answers = run.stdout.decode().split("\n")[:-1]
    return answers if run.returncode == 0 and len(answers) == len(batch) else None


def judge(spoiled, given, whole, tally):
    if given.startswith("Module {"):
        judge_module(spoiled, given, whole, tally)
    elif given.startswith("error: "):
        judge_error(spoiled, given.removeprefix("error: "), tally)
        if spoiled.what == "as it is" or spoiled.what.endswith("at most 127 deep"):
            tally.fault("sound, and refused", spoiled, given)
    else:
        tally.add(spoiled.what, "stopped")
        tally.fault("no answer", spoiled, given)


def judge_module(spoiled, given, whole, tally):
    tally.add(spoiled.what, "the same module" if given == whole else "another module")
    never = spoiled.what in NEVER_READ or spoiled.what.endswith("more than 127 deep") or is_lost(spoiled)
    if never or (spoiled.what == "as it is" and given != whole):
        tally.fault("a module is read", spoiled, given)
    shown = SHOWN.get(spoiled.what.removeprefix("replaced by "))
    if shown and given != whole and not shown & changed(whole, given):
        tally.fault("another value is read", spoiled, " ".join(changed(whole, given)))


def is_lost(spoiled):
    """Whether a member is put beside others of a module, where it would be lost."""
    in_module = spoiled.place.startswith("module") and not LET_BE.search(spoiled.place)
    return spoiled.what == "one beside" and in_module


def bits_of(number):
    """A number as a whole one, and the bits of it as a double and as a single."""
    pairs = (("<Q", "<d"), ("<I", "<f"))
    return {number, *(str(struct.unpack(whole, struct.pack(real, float(number)))[0]) for whole, real in pairs)}


# how `Debug` shows what was read in place of another value
SHOWN = {number: bits_of(number) for number in OTHERS if number[0] in "-1"}
SHOWN.update({"null": {"None"}, "true": {"true"}, '"x"': {"x"}})


def changed(whole, given):
    """The words and numbers that stand in the second text where it is another than the first."""
    shorter = min(len(whole), len(given))
    start = next((at for at in range(shorter) if whole[at] != given[at]), shorter)
    after = next((at for at in range(shorter - start) if whole[-1 - at] != given[-1 - at]), shorter - start)
    end = len(given) - after
    while start > 0 and re.match(r"[\w-]", given[start - 1]):
        start -= 1
    while end < len(given) and re.match(r"\w", given[end]):
        end += 1
    return set(re.findall(r"-?\w+", given[start:end]))


def judge_error(spoiled, error, tally):
    place, problem = re.fullmatch(r"(?:(\S+): )?(.+)", error).groups()
    kind = re.sub(r"`.*`", "`..`", re.sub(r"\d+", "N", problem))
    if kind.startswith("no JSON"):
        tally.add(spoiled.what, kind)
        if spoiled.what not in ("cut off", "no module", "replaced by " + BEYOND) and " nested " not in spoiled.what:
            tally.fault("JSON is called none", spoiled, error)
        return
    where = relation(place or "", spoiled.place)
    tally.add(spoiled.what, kind, where)
    # a leaf, told after the filters, may be none of those that are left
    is_leaf = place == "module.diagnostic_filter_leaf" and spoiled.place.startswith("module.diagnostic_filters")
    if where == "elsewhere" and not is_leaf:
        tally.fault("another place", spoiled, error)
    elif where == "there" and kind in spoiled.never:
        tally.fault("no such problem", spoiled, error)


def relation(told, place):
    """Where the told place stands from the spoiled one."""
    if told == place:
        return "there"
    if told.startswith(place) and told[len(place)] in ".[" or not place:
        return "in it"
    return "around it" if place.startswith(told) and (not told or place[len(told)] in ".[") else "elsewhere"


main()
