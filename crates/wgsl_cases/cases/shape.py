"""Whether a module is one that naga could write: each name known, each member told that has to be.

What the IR has is told once, by ../ir/ir.py. The reader lets unknown members be, so that a misspelt
one would test nothing.
"""

import sys
from pathlib import Path

sys.path.insert(0, str(Path(__file__).resolve().parents[1] / "ir"))
from forms import (  # noqa: E402
    Bare, Enum, Fixed, Flags, Listed, Maybe, Needed, Number, Numbered, Paired, Handle, Short, Shown,
    Struct, Text, Truth, name_of)
from ir import BLOCK, EXPRESSION, MODULE, SHORT_RESOLUTION, STATEMENT, TYPE_INNER  # noqa: E402

COUNTED = Struct("Counted", ("ref_count", Number(0, 2**64 - 1)), ("ty", SHORT_RESOLUTION))
KNOWN = Listed(Short(COUNTED, SHORT_RESOLUTION))
INFO = Struct(
    "ModuleInfo", ("functions", Listed(KNOWN)), ("entry_points", Listed(KNOWN)),
    ("const_expression_types", Listed(SHORT_RESOLUTION)))
TOLD = Struct("Told", ("counted", Truth()), ("module", MODULE), ("info", INFO))


class ShapeError(Exception):
    """What is wrong with a value, and where in it."""

    def __init__(self, position, message):
        super().__init__(f"{position}: {message}" if position else message)


def check(form, value, position=""):
    """Raises `ShapeError` unless the value has the form."""
    if isinstance(form, Short):
        check_one_of(form.forms, value, position)
    elif form is BLOCK:
        check_items(STATEMENT, value, position)
    elif isinstance(form, (Needed, Shown)):
        check(form.form, value, position)
    elif isinstance(form, Maybe):
        if value is not None:
            check(form.form, value, position)
    elif isinstance(form, Struct):
        check_struct(form, value, position)
    elif isinstance(form, Enum):
        check_variant(form, value, position)
    elif isinstance(form, Paired):
        for index, pair in enumerate(of_type(list, value, position)):
            check(form.key, pair[0], f"{position}[{index}][0]")
            check(form.form, pair[1], f"{position}[{index}][1]")
    elif isinstance(form, Fixed) and len(of_type(list, value, position)) != form.count:
        raise ShapeError(position, f"{form.count} items are wanted")
    elif isinstance(form, (Listed, Fixed)):
        check_items(form.form, value, position)
    else:
        check_plain(form, value, position)


def check_one_of(forms, value, position):
    """The value has one of the forms; if none, the first one's fault is told."""
    first = None
    for form in forms:
        try:
            return check(form, value, position)
        except ShapeError as error:
            first = first or error
    raise first


def check_items(form, value, position):
    for index, item in enumerate(of_type(list, value, position)):
        check(form, item, f"{position}[{index}]")


def check_struct(form, value, position):
    members = {member.name: member.form for member in form.members}
    for name, content in of_type(dict, value, position).items():
        if name in members:
            check(members[name], content, joined(position, name))
        elif name not in form.others:
            raise ShapeError(joined(position, name), f"{form.name} has no such member")
    for name, inner in members.items():
        if inner.absent is None and name not in value and form is not TOLD:
            raise ShapeError(joined(position, name), "missing")


def check_variant(form, value, position):
    """A name alone, or an object of one member."""
    is_object = isinstance(value, dict) and len(value) == 1
    name, content = next(iter(value.items())) if is_object else (value, None)
    found = [variant for variant in form.variants if name_of(variant) == name]
    if not found:
        raise ShapeError(position, f"{form.name} has no {name}")
    if not is_object:
        if not any(isinstance(variant, (str, Bare)) for variant in found):
            raise ShapeError(position, f"{name} without what it has")
        return
    with_content = [variant for variant in found if not isinstance(variant, (str, Bare))]
    if not with_content:
        raise ShapeError(position, f"{name} has nothing")
    variant = with_content[0]
    check(variant if isinstance(variant, Struct) else variant[1], content, joined(position, name))


def check_plain(form, value, position):
    """Numbers, texts, flags and the map of names."""
    if isinstance(form, Truth):
        of_type(bool, value, position)
    elif isinstance(form, (Text, Flags)):
        of_type(str, value, position)
    elif isinstance(form, Numbered):
        for name in of_type(dict, value, position).values():
            of_type(str, name, position)
    elif isinstance(form, (Number, Handle)):
        number = of_type(int, value, position)
        low, high = getattr(form, "low", 0), getattr(form, "high", 2**32 - 1)
        if not low <= number <= high:
            raise ShapeError(position, f"{number} is none of {low} to {high}")
    elif isinstance(value, dict):
        if list(value) != ["bits"]:
            raise ShapeError(position, "no number")
    elif isinstance(value, bool) or not isinstance(value, (int, float)):
        raise ShapeError(position, "no number")


def of_type(kind, value, position):
    names = {dict: "object", list: "list", str: "text", int: "whole number", bool: "truth"}
    if not isinstance(value, kind) or kind is int and isinstance(value, bool):
        raise ShapeError(position, f"no {names[kind]}")
    return value


def joined(position, name):
    return f"{position}.{name}" if position else name
