"""What both runs share: terms, a world that answers, and how a run ends.

Each operator stands for any function, so that a value is a term; equal terms are one object. A world tells of a
condition whether it is true, of a selector which label it is, and answers what is asked by the number of events before.
"""

import zlib

# how often a loop turns, and how many events a run has, at most
TURNS, MOST_EVENTS = 3, 200
# the numbers that selectors have, by the kinds of their scalars
SELECTED = {"sint": [-2**31, -1, 0, 1, 2, 3, 2**31 - 1], "uint": [0, 1, 2, 3, 2**32 - 1]}


class Term:
    """A word over other terms."""

    made = {}

    def __init__(self, parts):
        self.parts = parts
        told = [part.bits if isinstance(part, Term) else part for part in parts]
        self.bits = zlib.crc32(repr(told).encode())

    def __repr__(self):
        return "(" + " ".join(map(str, self.parts)) + ")"


def term(*parts):
    if parts not in Term.made:
        Term.made[parts] = Term(parts)
    return Term.made[parts]


class NoValue(Exception):
    """What is wanted has not been given."""


class Ended(Exception):
    """The whole run ends here: by a discard, out of turns, where a call gives no result, or after enough events."""


class World:
    def __init__(self, number):
        self.number, self.events, self.entries = number, [], 0

    def add(self, *event):
        if len(self.events) == MOST_EVENTS:
            raise Ended("enough")
        self.events.append(event)

    def ask(self, *event):
        """The answer to a question."""
        self.add(*event)
        return term("answer", len(self.events) - 1)

    def enter(self, number, arguments):
        """How many functions were entered before."""
        self.add("entry", number, *arguments)
        self.entries += 1
        return self.entries - 1

    def chance(self, value):
        return zlib.crc32(f"{self.number} {value.bits}".encode())

    def is_true(self, value):
        return self.chance(value) % 2 == 1

    def selected(self, value, labels):
        """The label of the selector's number, or the default, which is none, where it has no label."""
        kinds = [label[0] for label in labels if label is not None]
        if not kinds:
            return None
        numbers = SELECTED[kinds[0]]
        label = (kinds[0], numbers[self.chance(value) % len(numbers)])
        return label if label in labels else None


def ending_of(world, run):
    """The events of a run, how it ends, and what it gives."""
    try:
        ending = run()
    except Ended as ended:
        ending = str(ended)
    return world.events, ending
