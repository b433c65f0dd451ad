"""Values of one concrete meaning, in which whole numbers and truth values are as WGSL computes with them.

A value is a pair: its type, and what it is. That is a whole number for a scalar, the values of its parts for a vector,
a matrix, a struct or a short array, and a root with a path of steps for a pointer. What WGSL computes otherwise, as
with floats, is mixed of the word and the operands, so that it is the same wherever these are.

A type is the word of a scalar, or one of

    vector SIZE SCALAR; matrix COLUMNS ROWS SCALAR; atomic SCALAR; cooperative COLUMNS ROWS SCALAR ROLE
    array BASE LENGTH; binding_array BASE LENGTH, of which the length is a number, an override or none
    struct NUMBER TYPES, by its number among the structs that a text declares; undeclared NAMES TYPES
    pointer SPACE ACCESS BASE

An image, a sampler and the like are `opaque`. `unknown` is the type of what no expression of the module is typed like.
"""

import operator
import zlib
from fractions import Fraction

INTEGERS = {f"{sign}{bits}": (sign == "i", bits) for sign in "iu" for bits in (16, 32, 64)}
# arrays up to this length are told part by part
SHORT = 8
COMPARISONS = {
    "==": operator.eq, "!=": operator.ne, "<": operator.lt, "<=": operator.le, ">": operator.gt, ">=": operator.ge}
BITWISE = {"&": operator.and_, "|": operator.or_, "^": operator.xor}
ARITHMETIC = {"+": operator.add, "-": operator.sub, "*": operator.mul}


class NoMeaning(Exception):
    """What is wanted has no value, or no such value."""


# ---- types
def is_over(ty, *kinds):
    return isinstance(ty, tuple) and ty[0] in kinds


def parts_of(ty):
    """The types of the parts of what is told part by part, or none."""
    if is_over(ty, "vector"):
        return [ty[2]] * ty[1]
    if is_over(ty, "matrix"):
        return [("vector", ty[2], ty[3])] * ty[1]
    if is_over(ty, "struct", "undeclared"):
        return ty[2]
    if is_over(ty, "array") and isinstance(ty[2], int) and ty[2] <= SHORT:
        return [ty[1]] * ty[2]
    return None


def part_at(ty, step):
    """The step to a part, and the part's type. Steps go round where the number of parts is known."""
    parts = parts_of(ty)
    if parts:
        return step % len(parts), parts[step % len(parts)]
    if not is_over(ty, "array", "binding_array"):
        raise NoMeaning(f"{ty} has no parts")
    return (step % ty[2] if isinstance(ty[2], int) else step), ty[1]


def held(ty):
    """The type of what is at a place: an atomic holds its scalar."""
    return ty[1] if is_over(ty, "atomic") else ty


# ---- values
def exact(negative, digits, exponent):
    """The number of a literal of a float, without any rounding; zero has a sign."""
    return ("-" if negative else "") + str(Fraction(digits) * Fraction(10) ** exponent)


def made(ty, *seed):
    """A value of this type that the seed decides. Small numbers are frequent, so that labels are met."""
    parts = parts_of(ty)
    if parts is not None:
        return ty, tuple(made(part, *seed, number) for number, part in enumerate(parts))
    if is_over(ty, "array", "binding_array"):
        return ty, ("made", *seed)
    number = zlib.crc32(repr(seed).encode())
    if ty == "bool":
        return ty, number >> 7 & 1 == 1
    if ty in INTEGERS:
        small = (number >> 4) % 6 - 2
        return ty, wrapped(ty, (small, small, number * 0x9E3779B1, (1 << INTEGERS[ty][1] - 1) - small)[number & 3])
    # places that are of no variable hold values of one type alone
    return ty, (("made", ty, number), ()) if is_over(ty, "pointer") else number


def zero(ty):
    parts = parts_of(ty)
    if parts is not None:
        return ty, tuple(map(zero, parts))
    if is_over(ty, "pointer"):
        return ty, (("nowhere", ty), ())
    return ty, ("zero",) if is_over(ty, "array", "binding_array") else False if ty == "bool" else 0


def part(value, step):
    """A part of a value."""
    ty, what = value
    step, inner = part_at(ty, step)
    if parts_of(ty):
        return what[step]
    return zero(inner) if what[0] == "zero" else made(inner, *what[1:], step)


def along(value, path):
    for step in path:
        value = part(value, step)
    return value


def step_into(place, step):
    """The place of a part of what is at a place."""
    (_, space, access, base), (root, path) = place
    step, inner = part_at(base, step)
    return ("pointer", space, access, inner), (root, (*path, step))


# ---- what WGSL computes; none is another's result
def wrapped(ty, number):
    signed, bits = INTEGERS[ty]
    number &= (1 << bits) - 1
    return number - (1 << bits) if signed and number >> bits - 1 else number


def divided(a, b):
    """The quotient without its fraction, and what is left; by nothing, the number itself and nothing."""
    if b == 0:
        return a, 0
    quotient = abs(a) // abs(b) * (1 if (a < 0) == (b < 0) else -1)
    return quotient, a - quotient * b


def of_scalars(sign, left, right):
    (ty, a), (other, b) = left, right
    if sign in ("<<", ">>") and ty in INTEGERS and other in INTEGERS:
        amount = b % INTEGERS[ty][1]
        return ty, wrapped(ty, a << amount if sign == "<<" else a >> amount)
    if ty != other or ty not in (*INTEGERS, "bool", "abstract"):
        return None
    if sign in COMPARISONS and (ty != "bool" or sign in ("==", "!=")):
        return "bool", COMPARISONS[sign](a, b)
    if ty == "bool":
        logical = {"&&": "&", "||": "|"}.get(sign, sign)
        return (ty, BITWISE[logical](a, b)) if logical in "&|" else None
    if sign in ARITHMETIC:
        number = ARITHMETIC[sign](a, b)
    elif sign in ("/", "%"):
        number = divided(a, b)[sign == "%"]
    elif sign in BITWISE:
        number = BITWISE[sign](a, b)
    elif sign in ("min", "max"):
        number = min(a, b) if sign == "min" else max(a, b)
    else:
        return None
    return ty, number if ty == "abstract" else wrapped(ty, number)


def of_one(sign, value):
    ty, a = value
    if ty == "bool":
        return (ty, not a) if sign == "!" else None
    if ty not in INTEGERS or sign not in ("-", "~", "abs"):
        return None
    return ty, wrapped(ty, {"-": -a, "~": ~a, "abs": abs(a)}[sign])


def converted(scalar, value):
    """A scalar as one of another type."""
    ty, what = value
    if ty == scalar:
        return value
    if ty not in (*INTEGERS, "bool", "abstract") or scalar not in (*INTEGERS, "bool"):
        return None
    return scalar, what != 0 if scalar == "bool" else wrapped(scalar, int(what))


def same_bits(scalar, value):
    is_whole = value[0] in INTEGERS and scalar in INTEGERS and INTEGERS[value[0]][1] == INTEGERS[scalar][1]
    return converted(scalar, value) if is_whole else None


def by_components(compute, *operands):
    """What is computed of scalars, or of the components of vectors, among which scalars are the same for each."""
    sizes = {ty[1] for ty, _ in operands if is_over(ty, "vector")}
    if not sizes:
        return compute(*operands)
    if len(sizes) > 1:
        return None
    spread = [what if is_over(ty, "vector") else [(ty, what)] * max(sizes) for ty, what in operands]
    return vector_of([compute(*each) for each in zip(*spread)])


def vector_of(components):
    if None in components or len({ty for ty, _ in components}) != 1:
        return None
    return ("vector", len(components), components[0][0]), tuple(components)


def constructed(ty, operands):
    """A value of parts, or a conversion."""
    if not operands:
        return zero(ty)
    if isinstance(ty, str):
        return converted(ty, operands[0]) if len(operands) == 1 else None
    if ty[0] == "vector":
        components = [each for of, what in operands for each in (what if is_over(of, "vector") else [(of, what)])]
        if len(components) == 1:
            components *= ty[1]
        value = vector_of([converted(ty[2], each) for each in components])
        return value if value is not None and value[0] == ty else None
    parts = parts_of(ty)
    if ty[0] == "matrix" and len(operands) == ty[1] * ty[2]:
        columns = [vector_of(operands[at:at + ty[2]]) for at in range(0, len(operands), ty[2])]
        operands = [] if None in columns else columns
    fits = parts is not None and [of for of, _ in operands] == list(parts)
    return (ty, tuple(operands)) if fits else None


def chosen(reject, accept, condition):
    return (accept if condition[1] else reject) if condition[0] == "bool" else None


def computed(word, operands):
    """What WGSL computes with whole numbers and truth values, or none."""
    if word in ("&&", "||") and operands[0] == ("bool", word == "||"):
        # the left side decides, whatever the right one is
        return operands[0]
    if word[0] == "construct":
        return constructed(word[1], operands)
    if word[0] == "bitcast":
        scalar = word[1][2] if is_over(word[1], "vector") else word[1]
        return by_components(lambda value: same_bits(scalar, value), *operands)
    if word[0] == "splat":
        return vector_of(operands * word[1])
    if word[0] == "swizzle":
        return vector_of([part(operands[0], step) for step in word[1]]) if is_over(operands[0][0], "vector") else None
    if word == "select":
        return chosen(*operands) if operands[2][0] == "bool" else by_components(chosen, *operands)
    if word == "clamp":
        low = by_components(lambda a, b: of_scalars("max", a, b), *operands[:2])
        return None if low is None else by_components(lambda a, b: of_scalars("min", a, b), low, operands[2])
    if word in ("all", "any") and is_over(operands[0][0], "vector") and operands[0][0][2] == "bool":
        return "bool", (all if word == "all" else any)(what for _, what in operands[0][1])
    if len(operands) == 2:
        return by_components(lambda a, b: of_scalars(word, a, b), *operands)
    return by_components(lambda a: of_one(word, a), *operands) if len(operands) == 1 else None


class Meaning:
    """What operators mean. The types that the module's expressions have tell that of what an operator gives: where WGSL
    computes a value of this type it is that, else it is mixed."""

    def __init__(self, types):
        self.types = types

    def apply(self, word, operands):
        wanted = self.types.get((word, *(ty for ty, _ in operands)))
        value = computed(word, operands)
        if value is not None and wanted in (None, value[0]):
            return value
        return made(wanted or "unknown", word, *operands)
