"""Runs a function of a text that was read.

Each expression is evaluated anew at each use, and a reference is read where a value is wanted. The word of a member is
one of the type of its base.
"""

import re

from integer_values import INTEGERS, NoMeaning, is_over, part, part_at, step_into
from integer_world import TURNS, Ended
from text_trees import NoReading

SCALARS = {*INTEGERS, "bool", "f16", "f32", "f64"}
ASKING = re.compile(
    r"texture[A-Z]\w*|atomic[A-Z]\w*|subgroup\w+|quad(Broadcast|Swap)\w*|dpd[xy]\w*|fwidth\w*|coop(Load|Store)T?|"
    r"workgroupUniformLoad|traceRay|\w+Barrier")
SIZED = {"vec([234])": "vector", "mat([234])x([234])": "matrix", "coop_mat(8|16)x(8|16)": "cooperative"}
HANDLES = re.compile(r"texture_\w+|sampler|sampler_comparison|acceleration_structure|ray_query")
REFERENCES = ("local", "target")


class Program:
    """A text that was read, with its types, and what its operators mean."""

    def __init__(self, read, meaning):
        self.items, self.functions, self.meaning = read.items, read.functions, meaning

    def type(self, told):
        """The type that a word with what stands in its angle brackets tells."""
        word, *inner = told
        if word in self.items:
            kind, number, *members = self.items[word]
            if kind != "struct":
                raise NoReading(f"{word} is no type")
            return kind, number, tuple(self.type(member) for _, member in members[0])
        if word in SCALARS:
            return word
        for form, kind in SIZED.items():
            found = re.fullmatch(form, word)
            if found and inner:
                roles = [role for role, in inner[1:]]
                return kind, *map(int, found.groups()), self.type(inner[0]), *roles
        if word == "ptr":
            access = inner[2][0] if len(inner) > 2 else None
            return "pointer", inner[0][0], access, self.type(inner[1])
        if word == "atomic":
            return word, self.type(inner[0])
        if word in ("array", "binding_array"):
            return word, self.type(inner[0]), self.length(inner[1]) if len(inner) > 1 else None
        if HANDLES.fullmatch(word):
            return "depth" if word.startswith("texture_depth") else "opaque"
        raise NoReading(f"{word} stands for nothing")

    def length(self, told):
        """How many elements: a number, or an override."""
        if isinstance(told, int):
            return told
        kind, number, *_ = self.items.get(told[0], (None, None))
        if kind != "override":
            raise NoReading(f"{told[0]} is no length")
        return kind, number

    def member(self, ty, word):
        """Which part a word is: a letter of a vector, or a member of a struct."""
        if is_over(ty, "struct"):
            members = next(item[2] for item in self.items.values() if item[:2] == ty[:2])
            names = [name for name, _ in members]
        elif is_over(ty, "vector"):
            names = list("xyzw"[:ty[1]])
        else:
            names = ty[1] if is_over(ty, "undeclared") else []
        if word not in names:
            raise NoMeaning(f"{ty} has no {word}")
        return names.index(word)


def run_of_text(program, number, world):
    """What a function of the text gives."""
    for kind, at, *told in program.items.values():
        if kind == "var" and told[1] is not None:
            world.initial["variable", at] = lambda value=told[1]: Values(program, world).value(value)
    arguments = [
        world.given("argument", at, program.type(ty)) for at, ty in enumerate(program.functions[number].arguments)]
    return TextRun(program, number, arguments, world).run()


class Values:
    """Evaluates expressions. Outside a function there is nothing but what the text declares."""

    def __init__(self, program, world):
        self.program, self.world, self.names = program, world, {}

    def is_reference(self, e):
        kind, *inner = e
        if kind in ("member", "element"):
            return self.is_reference(inner[0])
        return kind in REFERENCES or kind == "item" and self.is_variable(inner[0])

    def is_variable(self, name):
        kind, _, *told = self.program.items[name]
        return kind == "var" and told[2] != []

    def reference(self, e):
        """The place of a reference."""
        kind, *inner = e
        if not self.is_reference(e):
            raise NoMeaning(f"{kind} is no reference")
        if kind == "target":
            place = self.value(inner[0])
            if not is_over(place[0], "pointer"):
                raise NoMeaning("what is pointed at by no pointer")
            return place
        if kind == "local":
            return self.names[e]
        if kind == "item":
            _, number, ty, _, (space, *access) = self.program.items[inner[0]]
            access = access[0] if access else None
            return ("pointer", space, access, self.program.type(ty)), (("variable", number), ())
        place = self.reference(inner[0])
        return step_into(place, self.step(kind, place[0][3], inner[1]))

    def step(self, kind, base, e):
        if kind == "member":
            return self.program.member(base, e)
        ty, step = self.value(e)
        if isinstance(ty, tuple) or ty == "bool":
            raise NoMeaning("an index that is no whole number")
        if ty == "abstract" and part_at(base, step)[0] != step:
            raise NoMeaning("an index out of range")
        return step

    def value(self, e):
        kind, *inner = e
        if kind == "literal":
            return inner[0]
        if kind == "address":
            return self.reference(inner[0])
        if self.is_reference(e):
            return self.world.load(self.reference(e))
        if kind in ("argument", "let"):
            return self.names[e]
        if kind == "item":
            return self.item(*self.program.items[inner[0]])
        if kind == "call":
            value = self.called(*inner)
            if value is None:
                raise Ended("no result")
            return value
        if kind in ("member", "element"):
            return self.part(kind, *inner)
        if kind in ("&&", "||"):
            left = self.value(inner[0])
            if left == ("bool", kind == "||"):
                return left
            return self.program.meaning.apply(kind, [left, self.value(inner[1])])
        return self.program.meaning.apply(kind, list(map(self.value, inner)))

    def part(self, kind, base, told):
        base = self.value(base)
        if is_over(base[0], "pointer"):
            raise NoMeaning("a part of a pointer")
        if kind == "member" and is_over(base[0], "vector") and re.fullmatch("[xyzw]{2,4}", told):
            return self.program.meaning.apply(("swizzle", tuple(map("xyzw".index, told))), [base])
        return part(base, self.step(kind, base[0], told))

    def item(self, kind, number, *told):
        if kind == "const":
            return self.value(told[1])
        if kind not in ("override", "var"):
            raise NoMeaning(f"{kind} is no value")
        return self.world.given("override" if kind == "override" else "held", number, self.program.type(told[0]))

    def called(self, told, *operands):
        """What a call gives, or none."""
        word, *inner = told
        values = list(map(self.value, operands))
        kind, number, *_ = self.program.items.get(word, (None, None))
        if kind == "fn":
            return self.entered(number, values)
        meaning = self.program.meaning
        if word == "bitcast":
            return meaning.apply((word, self.program.type(inner[0])), values)
        if re.fullmatch("vec[234]", word) and not inner:
            return meaning.apply(("splat", int(word[3])), values)
        if kind is None and ASKING.fullmatch(word):
            return self.world.ask((word, self.program.type(inner[0])) if inner else word, values)
        if kind is not None or inner or word in SCALARS or HANDLES.fullmatch(word):
            return meaning.apply(("construct", self.program.type(told)), values)
        return meaning.apply(word, values)

    def entered(self, number, values):
        raise NoMeaning("a call outside a function")


class TextRun(Values):
    def __init__(self, program, number, arguments, world):
        super().__init__(program, world)
        self.number, self.function = number, program.functions[number]
        if len(arguments) != len(self.function.arguments):
            raise NoMeaning("another number of arguments")
        self.names = {("argument", at): value for at, value in enumerate(arguments)}
        self.entry = world.enter(number, arguments)

    def entered(self, number, values):
        if number >= self.number:
            raise NoMeaning("a call of a function that is not in front")
        return TextRun(self.program, number, values, self.world).run()

    def run(self):
        ending = self.block(self.function.body)
        return ending[1] if ending else None

    # ---- statements; a block ends at its end, or by a word with what is returned
    def block(self, body):
        for statement in body:
            ending = self.statement(*statement)
            if ending:
                return ending
        return None

    def statement(self, kind, *told):
        if kind == "let":
            number, ty, value = told
            self.names["let", number] = value = self.value(value)
            if ty is not None and self.program.type(ty) != value[0]:
                raise NoMeaning(f"a let tells {ty} of a value of type {value[0]}")
        elif kind == "var":
            number, ty, first = told
            first = None if first is None else self.value(first)
            place = ("pointer", "function", None, self.program.type(ty)), (("local", self.entry, number), ())
            self.names["local", number] = place
            self.world.first(place, first)
        elif kind == "assign":
            self.world.store(self.reference(told[0]), self.value(told[1]))
        elif kind == "call":
            if told[0][0] != "call":
                raise NoReading("a statement that is no call")
            self.called(*told[0][1:])
        elif kind in ("break", "continue"):
            return kind, None
        elif kind == "return":
            return kind, None if told[0] is None else self.value(told[0])
        elif kind == "discard":
            self.world.discard()
        elif kind == "block":
            return self.block(told[0])
        elif kind == "if":
            return self.block(told[1] if self.is_true(told[0]) else told[2])
        elif kind == "switch":
            return self.switch(self.value(told[0]), told[1])
        elif kind == "loop":
            return self.loop(*told)
        else:
            raise NoReading(f"{kind} where it can't stand")
        return None

    def is_true(self, e):
        ty, what = self.value(e)
        if ty != "bool":
            raise NoMeaning(f"a condition of type {ty}")
        return what

    def switch(self, selector, groups):
        wanted = [group for group in groups if selector in group[0] or ("abstract", selector[1]) in group[0]]
        wanted += [group for group in groups if None in group[0]]
        if not wanted:
            raise NoReading("a switch without a default")
        ending = self.block(wanted[0][1])
        return None if ending and ending[0] == "break" else ending

    def loop(self, body, continuing, break_if):
        for _ in range(TURNS):
            ending = self.block(body)
            if ending and ending[0] != "continue":
                return ending if ending[0] == "return" else None
            ending = self.block(continuing)
            if ending:
                return ending
            if break_if is not None and self.is_true(break_if):
                return None
        raise Ended("out of turns")
