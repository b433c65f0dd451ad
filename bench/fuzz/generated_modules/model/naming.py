"""Identifiers of labels, one after another."""

import re
import unicodedata
from functools import lru_cache

from words import KEYWORDS, RESERVED

PREFIXES = ("__", "_naga")
EXTERNAL_IMAGE = ("external",)
OUTPUTS = {"Vertex": "VertexOutput", "Fragment": "FragmentOutput", "Compute": "ComputeOutput"}
EXTRA = ["_plane0", "_plane1", "_plane2", "_params"]


def is_plain(character):
    return character.isascii() and (character.isalnum() or character == "_")


@lru_cache(10000)
def base_of(label):
    """What a label becomes before it is told apart from others."""
    while label and unicodedata.category(label[0]) in ("Nd", "Nl", "No"):
        label = label[1:]
    pieces = ""
    for character in label.rstrip("_"):
        if character in ":<>,":
            piece = "_"
        elif is_plain(character):
            piece = character
        else:
            piece = f"_u{ord(character):04x}_" if pieces else f"u{ord(character):04x}_"
        for each in piece:
            if each != "_" or not pieces.endswith("_"):
                pieces += each
    base = pieces.rstrip("_") or "unnamed"
    return "gen_" + base if base.startswith(PREFIXES) else base


# digits that a name has which is told apart, or which nobody gave
NUMBER = re.compile("(_|^_e)[0-9]+$")


def has_bad_end(base, keeps_digits):
    """Whether the base ends in digits that a name may not end in."""
    return base[-1].isdigit() and not (keeps_digits and NUMBER.search(base) is None)


class Namer:
    def __init__(self, words, keeps_digits):
        self.words, self.keeps_digits, self.times = words, keeps_digits, {}

    def name(self, label):
        """A base that comes again gets `_` and how often it came before."""
        base = base_of(label)
        count = self.times.get(base, 0)
        self.times[base] = count + 1
        if count:
            return f"{base}_{count}"
        return base + "_" if has_bad_end(base, self.keeps_digits) or base in self.words else base

    def name_or(self, label, fallback):
        return self.name(fallback if label is None else label)


def is_external(ty):
    return ty[0] == "image" and ty[3] == EXTERNAL_IMAGE


class FunctionNames:
    """The names of a function and of what it declares."""

    def __init__(self, namer, label, function, has_extra):
        self.function, self.arguments = namer.name(label), []
        for label, ty in function.arguments:
            self.arguments.append(namer.name_or(label, "param"))
            if has_extra and is_external(ty):
                name_extra(namer, label, "param")
        self.locals = [namer.name_or(label, "local") for label, _, _ in function.locals]


def name_extra(namer, label, fallback):
    """The further names of an external image."""
    return [namer.name((fallback if label is None else label) + "_" + extra) for extra in EXTRA]


class Names:
    """The names of a module's items, in the order in which they are given, and the namer as it is after them."""

    def __init__(self, module):
        self.namer = namer = Namer(KEYWORDS, module.keeps_digits)
        outputs = output_labels(module)
        self.types = [namer.name_or(label, outputs.get(h, "type")) for h, label in enumerate(module.labels)]
        entry_points = [FunctionNames(namer, p.label, p, False) for p in module.entry_points]
        labels = ["function" if f.label is None else f.label for f in module.functions]
        functions = [FunctionNames(namer, label, f, True) for label, f in zip(labels, module.functions)]
        self.bodies = functions + entry_points
        self.variables, self.extra = [], []
        for variable in module.variables:
            self.variables.append(namer.name_or(variable.label, "global"))
            if is_external(module.type_at(variable)):
                self.extra.append(name_extra(namer, variable.label, "global"))
        self.constants, self.overrides = (
            [namer.name_or(item.label, f"{word}_{self.types[item.place]}") for item in items]
            for word, items in (("const", module.constants), ("override", module.overrides)))
        self.structs = {ty[2]: name for ty, name in zip(module.types, self.types) if ty[0] == "struct"}

    def in_text(self, text):
        """A text, with the names of structs and overrides in the place of their numbers."""
        return re.sub("#(s|o)([0-9]+)", self.name_of, text) if "#" in text else text

    def name_of(self, told):
        number = int(told[2])
        return self.structs[number] if told[1] == "s" else self.overrides[number]


def output_labels(module):
    """What structs without a label are called that an entry point gives, by the last one of a stage with a word."""
    outputs = {}
    for p in module.entry_points:
        if p.result is not None and p.result[0] == "struct" and p.stage in OUTPUTS:
            outputs[module.handle_of(p.result)] = OUTPUTS[p.stage]
    return outputs


def member_names(labels, keeps_digits):
    """The names of a struct's members, which are told apart from one another and from reserved words alone."""
    namer = Namer(RESERVED, keeps_digits)
    return [namer.name_or(label, "member") for label in labels]
