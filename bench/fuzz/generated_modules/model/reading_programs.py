"""Reads whole texts: their directives of diagnostics, what they enable and declare, their functions and their entry
points, in this order.

Each group of declarations has an empty line after it, but entry points, between which there is one.
"""

import re

from enables import EXTENSIONS
from reading import TextFunction, declared, identifier, read_attributes, type_at
from words import RESERVED, words_of

SPACES = words_of("private uniform storage immediate workgroup function task_payload incoming_ray_payload ray_payload")
ACCESSES = words_of("read write read_write atomic")


class Program:
    """What stands in a text."""

    def __init__(self, text):
        assert text == "" or text.endswith("\n"), text
        self.left = text.split("\n")[:-1]
        self.directives = self.group(r"diagnostic\((\w+), (\w+(?:\.\w+)?)\);", lambda found: found.groups())
        self.enables = self.group(r"enable (\w+);", lambda found: found[1])
        assert all(word in EXTENSIONS for word in self.enables), self.enables
        self.structs = []
        while self.starts_with("struct "):
            self.structs.append(self.struct())
        self.constants = self.group("const (.*)", lambda found: declared(found[1]))
        self.overrides = self.group(r"(?:@id\(([0-9]+)\) )?override (.*)", override)
        self.variables = self.read_variables()
        self.functions, self.entry_points = [], []
        while self.starts_with("fn "):
            self.functions.append(self.function())
            self.empty_line()
        while self.left:
            if self.entry_points:
                self.empty_line()
            attributes, rest = read_attributes(self.left.pop(0))
            assert rest == "" and attributes, rest
            self.entry_points.append((attributes, self.function()))

        self.struct_names = [name for name, _ in self.structs]
        # held variables, and functions that may be called, by name
        self.held = {v[3]: number for number, v in enumerate(self.variables) if v[1] is None}
        self.callees = {f.name: number for number, f in enumerate(self.functions)}
        names = [*self.struct_names, *(name for name, _, _ in self.constants), *(o[1] for o in self.overrides)]
        names += [*(v[3] for v in self.variables), *(f.name for f in self.bodies())]
        self.names = set(names)
        assert len(self.names) == len(names), names

    def starts_with(self, *words):
        return bool(self.left) and self.left[0].startswith(words)

    def empty_line(self):
        assert self.left.pop(0) == "", self.left

    def group(self, pattern, read):
        """The lines of this form that come next, read, with an empty line after them."""
        items = []
        while self.left:
            found = re.fullmatch(pattern, self.left[0])
            if found is None:
                break
            self.left.pop(0)
            items.append(read(found))
        if items:
            self.empty_line()
        return items

    def struct(self):
        name = re.fullmatch(r"struct (\w+) \{", self.left.pop(0))[1]
        members = []
        while self.starts_with("    "):
            attributes, rest = read_attributes(self.left.pop(0).removeprefix("    "))
            member, rest = rest.split(": ", 1)
            assert member not in RESERVED and member.isascii() and member.isidentifier(), member
            ty = type_at(rest)
            assert rest[len(ty):] == ",", rest
            members.append((attributes, member, ty))
        assert self.left.pop(0) == "}", name
        self.empty_line()
        return identifier(name), members

    def read_variables(self):
        variables = []
        # the stage of an entry point is told by other attributes
        while self.starts_with("@group", "@coherent", "@volatile", "var"):
            line = self.left.pop(0)
            if line.startswith("@group"):
                line += self.left.pop(0)
            attributes, rest = read_attributes(line)
            found = re.fullmatch(r"var(?:<(\w+)(?:, (\w+))?>)? (.*)", rest)
            space, access, rest = found.groups()
            assert space is None or space in SPACES and (access is None or space == "storage" and access in ACCESSES)
            variables.append((attributes, space, access, *declared(rest)))
        if variables:
            self.empty_line()
        return variables

    def function(self):
        lines = [self.left.pop(0)]
        while lines[-1] != "}":
            lines.append(self.left.pop(0))
        return TextFunction(lines)

    def bodies(self):
        """Functions, and after them entry points."""
        return self.functions + [function for _, function in self.entry_points]


def override(found):
    number, rest = found.groups()
    return (None if number is None else int(number), *declared(rest))
