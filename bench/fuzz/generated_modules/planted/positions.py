"""Positions, as they are told of what is refused, and what stands there.

Numbers change until all is planted, so that a place knows the items themselves and is told
afterwards.
"""

from modules import statements_in
from roots import BREAK_IF, EMITTING, HERE, root_text
from writer import emitted_by, first_lines


def index_of(items, item):
    return next(index for index, each in enumerate(items) if each is item)


def always(is_plain, explicit):
    return True


class Planted:
    """A construct, by what is told of it; the function that it is in, or none; what tells the
    place after that of the function or of the module; in which styles it stands there; and what tells
    why an operand there has no value, if it has none."""

    def __init__(self, name, f, part, stands=always, root=None):
        self.name, self.f, self.part, self.stands, self.root = name, f, part, stands, root

    def wanted(self, explicit):
        """What an answer has beside the text, where `let`s tell types or not."""
        if self.f is None:
            return {"refused": self.name, "position": "module" + self.part()}
        told = {"refused": self.name, "position": self.position_of_function() + self.part()}
        if self.root is not None:
            told["root"] = self.root()
        return told if self.f.label is None else {**told, "function": self.f.label}

    def position_of_function(self):
        number, count = self.f.module.number_of(self.f), len(self.f.module.functions)
        if number < count:
            return f"module.functions[{number}]"
        # the head of an entry point is its own, and not of its function
        entry_point = f"module.entry_points[{number - count}]"
        return entry_point if isinstance(self, Head) else entry_point + ".function"


class LetFirst(Planted):
    """An expression that is written, and a `let`: where `let`s tell types and this one stands on a
    line in front, it is the first."""

    def __init__(self, name, f, e, bound):
        super().__init__(name, f, lambda: expression_on_line(f, e))
        self.e, self.bound = e, bound

    def wanted(self, explicit):
        line = (1, index_of(statements_in(self.f.body), let_of(self.f, self.bound)))
        is_first = explicit and line < tuple(first_line(self.f, self.e)[:2])
        return at_let(self.name, self.f, self.bound).wanted(explicit) if is_first else super().wanted(explicit)


class Head(Planted):
    """What a function or an entry point takes or gives, or its stage."""

    def __init__(self, name, f):
        super().__init__(name, f, lambda: "")


# ---- declarations
def at_struct(name, module, ty):
    return Planted(name, None, lambda: f".types[{module.types.index(ty)}]")


def at_item(name, module, item, stands=always):
    """A constant, an override or a variable."""
    lists = {
        "constants": module.constants, "overrides": module.overrides,
        "global_variables": module.variables}

    def part():
        word = next(word for word, items in lists.items() if any(each is item for each in items))
        return f".{word}[{index_of(lists[word], item)}]"
    return Planted(name, None, part, stands)


# ---- functions
def expression(f, e):
    return f".expressions[{index_of(f.expressions, e)}]"


def statement(f, s):
    return f"statement {index_of(statements_in(f.body), s)}"


def first_line(f, e):
    return first_lines(f)[index_of(f.expressions, e)]


def expression_on_line(f, e):
    is_statement, number, *further = first_line(f, e)
    if not is_statement:
        line = f"first value of local_variables[{number}]"
    elif further == [1]:
        line = f"in statement {number}"
    else:
        line = f"in break if of statement {-further[1]}"
    return f"{expression(f, e)}, {line}"


def at_expression(name, f, e, stands=always):
    """What is written, with the first line that writes it."""
    return Planted(name, f, lambda: expression_on_line(f, e), stands)


def at_value(name, f, e, stands=always):
    """What is written of a type without a form, or a local of that type in front of its line."""
    def part():
        numbers = [number for number, (_, ty, _) in enumerate(f.locals) if ty == e.type]
        is_before = numbers and (0, numbers[0]) < first_line(f, e)
        return f".local_variables[{numbers[0]}]" if is_before else expression_on_line(f, e)
    return Planted(name, f, part, stands)


def let_of(f, e):
    """The statement that has its `let`."""
    h = index_of(f.expressions, e)
    return next(s for s in statements_in(f.body) if s.result == h or h in emitted_by(s))


def at_let(name, f, e):
    """A type that a `let` tells, where `let`s tell types."""
    def part():
        return f"{expression(f, e)}, the type of its let in {statement(f, let_of(f, e))}"
    return Planted(name, f, part, lambda is_plain, explicit: explicit)


def at_type(name, f, ty):
    """The first of this type of the arguments, the result and the locals."""
    def part():
        declared = [
            *((f".arguments[{number}]", each) for number, (_, each) in enumerate(f.arguments)),
            (".result", f.result),
            *((f".local_variables[{number}]", each) for number, (_, each, _) in enumerate(f.locals))]
        return next(place for place, each in declared if each == ty)
    return Planted(name, f, part)


def at_statement(name, f, s):
    return Planted(name, f, lambda: ", " + statement(f, s))


# ---- scope
# By which fields those hold their operands that use what is out of scope, in the order of the operands.
FIELDS = {
    "image store": ("image", "coordinate", "value"), "gather": ("argument", "index"), "ballot": ("predicate",),
    "store": ("pointer", "value"), "if": ("condition",), "loop": ("break_if",), "unary": ("expr",), "derivative": ("expr",)}


def operand(f, e, user):
    """An operand of an expression or a statement, by the first field that holds it."""
    return f"operand {FIELDS[user.kind][user.operands.index(index_of(f.expressions, e))]}"


def at_operand(name, f, e, s):
    def root():
        stop = BREAK_IF if s.kind == "loop" else HERE
        return root_text(f, index_of(f.expressions, e), index_of(statements_in(f.body), s), stop)
    part = lambda: f"{expression(f, e)}, {operand(f, e, s)} of {statement(f, s)}"
    return Planted(name, f, part, root=root)


def at_operand_of_emitted(name, f, x, e, s):
    def part():
        return f"{expression(f, x)}, {operand(f, x, e)} of {expression(f, e)[1:]} in {statement(f, s)}"

    def root():
        number, emitting = index_of(statements_in(f.body), s), index_of(f.expressions, e)
        return root_text(f, index_of(f.expressions, x), number, EMITTING, emitting)
    return Planted(name, f, part, root=root)


def at_second(name, f, e, s):
    """What is in scope, where it is given again."""
    return Planted(name, f, lambda: f"{expression(f, e)}, given again by {statement(f, s)}")


def at_needless(name, f, e, s):
    """What is in an `Emit` that it does not need."""
    def part():
        return f"{expression(f, e)}, which needs no Emit, in {statement(f, s)}"
    return Planted(name, f, part)


def at_first_value(name, f, e, number):
    def part():
        return f"{expression(f, e)}, first value of local_variables[{number}]"
    return Planted(name, f, part)
