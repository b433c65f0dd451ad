"""What both runs share beside values: memory, which stores change and loads read, and a world that answers the rest.

Events are kept in their order: entries of functions with their arguments, first values of locals, loads and stores with
their values, what is asked, and discards. What nothing stored is decided by its place and the world's number, and what
is asked, but of integers in memory, by the events so far. An answer has the type that the module's run was given there.
"""

import zlib

from integer_values import along, computed, held, is_over, made, parts_of

# how many events a run has, and how often a loop turns, at most
MOST_EVENTS, TURNS = 250, 4
ATOMICS = {"Add": "+", "Sub": "-", "And": "&", "Or": "|", "Xor": "^", "Min": "min", "Max": "max"}


class Ended(Exception):
    """The whole run ends here."""


class World:
    def __init__(self, number, types):
        self.number, self.types, self.events, self.entries = number, types, [], 0
        self.past, self.stores, self.initial = number, {}, {}

    def add(self, *event):
        if len(self.events) == MOST_EVENTS:
            raise Ended("after many events")
        self.events.append(event)
        self.past = zlib.crc32(repr(event).encode(), self.past)

    def enter(self, number, arguments):
        """How many functions were entered before."""
        self.add("entry", number, *arguments)
        self.entries += 1
        return self.entries - 1

    def given(self, what, number, ty):
        """An argument of the whole run, what a variable holds that is at no place, or the value of an override."""
        return made(ty, what, number, self.number)

    def discard(self):
        self.add("discard")
        raise Ended("discarded")

    # ---- memory
    def first(self, place, value):
        self.add("first", place, value)
        if value is not None:
            self.put(place, value)

    def put(self, place, value):
        root, path = place[1]
        self.stores.setdefault(root, []).append((path, value))

    def store(self, place, value):
        self.add("store", place, value)
        self.put(place, value)

    def load(self, place):
        value = self.read(*place[1], held(place[0][3]))
        self.add("load", place, value)
        return value

    def read(self, root, path, ty):
        """What was stored last, in this place, around it or in its parts."""
        if root not in self.stores and root in self.initial:
            self.stores[root] = [((), self.initial[root]())]
        after = self.stores.get(root, [])
        for at, (stored, value) in reversed(list(enumerate(after))):
            if path[:len(stored)] == stored:
                return along(value, path[len(stored):])
            if stored[:len(path)] == path:
                parts = parts_of(ty)
                if parts is not None:
                    return ty, tuple(
                        self.read(root, (*path, number), held(part)) for number, part in enumerate(parts))
                inner = [(each[len(path):], value) for each, value in after[:at + 1] if each[:len(path)] == path]
                return made(ty, "parts", root, path, inner)
        return made(ty, "memory", self.number, root, *path)

    # ---- answers
    def ask(self, word, operands, ty=None):
        """The answer to a question, or none where no value is wanted of it."""
        ty = self.types.setdefault(len(self.events), ty)
        self.add("asked", word, *operands)
        value = self.of_memory(word, operands, ty)
        if ty is None or value is not None and value[0] == ty:
            return value
        return made(ty, "answer", self.past)

    def of_memory(self, word, operands, ty):
        """What is asked of a place, which may change what is there."""
        is_atomic = isinstance(word, str) and word.startswith("atomic")
        if not (is_atomic or word == "workgroupUniformLoad") or not is_over(operands[0][0], "pointer"):
            return None
        place, *values = operands
        old = self.read(*place[1], held(place[0][3]))
        action = word.removeprefix("atomic")
        if action == "CompareExchangeWeak":
            if values[0] == old:
                self.put(place, values[1])
            pair = [old, ("bool", values[0] == old)]
            is_pair = is_over(ty, "undeclared") and list(ty[2]) == [of for of, _ in pair]
            return (ty, tuple(pair)) if is_pair else None
        if action in ("Store", "Exchange"):
            self.put(place, values[0])
        elif action in ATOMICS:
            new = computed(ATOMICS[action], [old, *values])
            self.put(place, made(old[0], word, old, *values) if new is None else new)
        return old
