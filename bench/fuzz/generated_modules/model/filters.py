"""Filters of diagnostics, and the directives that stand for those that hold in a whole module."""

import re

from words import RESERVED

SEVERITIES = ["Off", "Info", "Warning", "Error"]
STANDARD = "derivative_uniformity"
# names of rules that are good in WGSL, and others
NAMES = ["spelling", "derivative_uniformity", "_x1", "x__y", "f32"]
BAD_NAMES = ["", "_", "__x", "1x", "a b", "a.b", "x); fn f() {}", "if", "é", "x\n"]
UNNAMED = "diagnostic rule without a WGSL name"


class Filter:
    """A severity, the names that a rule has, one or two of a tool, or none for the rule of the standard; and the number of
    the filter before it, or none."""

    def __init__(self, severity, names, parent):
        self.severity, self.names, self.parent = severity, names, parent

    def rule(self):
        return ".".join(self.names) if self.names else STANDARD

    def has_name(self):
        return all(map(is_name, self.names))

    def form(self):
        tagged = {0: ("Standard", "DerivativeUniformity"), 1: ("Unknown", *self.names), 2: ("User", list(self.names))}
        kind, content = tagged[len(self.names)]
        return {"inner": {"new_severity": self.severity, "triggering_rule": {kind: content}}, "parent": self.parent}


def is_name(word):
    return re.fullmatch(r"(?!__|_\Z)[A-Za-z_][A-Za-z0-9_]*", word) is not None and word not in RESERVED


def in_force(module):
    """For each rule the filter nearest to the leaf, the outermost first."""
    nearest, number = {}, module.leaf
    while number is not None:
        each = module.filters[number]
        nearest.setdefault(each.rule(), each)
        number = each.parent
    return list(reversed(nearest.values()))


def directives(module):
    """The directives by their severities and rules."""
    return [(each.severity.lower(), each.rule()) for each in in_force(module)]


def lacks_name(module):
    return not all(each.has_name() for each in in_force(module))


def directives_text(module):
    lines = [f"diagnostic({severity}, {rule});\n" for severity, rule in directives(module)]
    return "".join([*lines, "\n"] if lines else [])


# ---- by chance
def make_filters(r, module):
    """Now and then some filters, most often in one chain."""
    if r.random() > 0.15:
        return
    is_named = r.random() < 0.8
    for number in range(r.choice([1, 1, 1, 2, 3, 6])):
        parent = None if number == 0 else r.choice([number - 1, number - 1, number - 1, r.randrange(number), None])
        module.filters.append(Filter(r.choice(SEVERITIES), some_rule(r, is_named), parent))
    if r.random() < 0.9:
        module.leaf = r.choice([len(module.filters) - 1, r.randrange(len(module.filters))])


def some_rule(r, is_named):
    names = NAMES if is_named or r.random() < 0.6 else BAD_NAMES
    return tuple(r.choice(names) for _ in range(r.choice([0, 0, 0, 1, 2])))
