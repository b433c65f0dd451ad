"""Types and labels by chance."""

import struct

from layouts import Layouts
from numerals import FORMS
from operators import NUMERALS, numeral_fits
from spelling import (
    ATOMIC, BOOL, F16, F32, F64, FUNCTION, HALVES, HANDLE, I32, I64, LOAD, SPACES, STORE, U32, U64, pointer_to)
from words import FORMATS

# labels that are alike, that are words of WGSL, that end in digits, or whose names are put together
LABELS = [
    "x", "x", "x", "a", "f", "y", "x1", "x_1", "a_1", "f1", "_e5", "_e", "_e0", "e", "fn", "let", "type", "type_1",
    "vec3", "min", "textureLoad", "i32", "__x", "_naga", "_naga_a", "a:b<c>", "", "_", "9_", "é", "1x", "²y", "x²",
    "\u0663k", "a b", "param", "local", "function", "function_1", "self", "Self", "unnamed", "gen_", "gen__naga",
    "coop_mat8x8", "rgba8unorm", "read", "x_", "_x", "x__1", "ß,x", "😀", "x_plane0", "x_params", "param_plane2",
    "pass2", "x_02", "x_e5", "_e05"]
# those that what is declared gets where it has none, and what is put together of these
DECLARED_LABELS = [
    "VertexOutput", "FragmentOutput", "ComputeOutput", "VertexOutput_1", "const_type", "const_i32", "override_type",
    "override_", "const_", "global", "global_1", "member", "global_plane0", "global__plane0", "global_params",
    "t__params", "main", "main", "S", "coherent", "volatile", "workgroup", "storage", "position", "vertex", "var",
    "const", "override", "struct", "enable", "f16"]
# labels of members: the good words, what becomes one of these, and others
MEMBER_LABELS = [
    "fract", "fract", "whole", "exp", "old_value", "exchanged", "fract_", "_fract", "__fract", "1exp", "exp2", "exp:",
    "old__value", "old:value", "exchanged_1", "FRACT", "part", "member", "fn", "self", "Self", "struct", "min", "f32",
    "texture_2d", "", "é", "_naga_exp", "fract<whole>", None]
PIECES = ["x", "x", "_", "1", "é", ":", "a", "_1", "²", "naga"]


def some_label(r):
    if r.random() < 0.8:
        return r.choice(LABELS if r.random() < 0.8 else DECLARED_LABELS)
    return "".join(r.choice(PIECES) for _ in range(r.randint(0, 5)))


def some_member_label(r):
    return r.choice(MEMBER_LABELS) if r.random() < 0.85 else some_label(r)


# scalars without a word
ODD_SCALARS = [("abstract", 8), ("abstract float", 8), ("float", 3), ("sint", 3), ("uint", 16), ("bool", 4)]


def some_scalar(r):
    if r.random() < 0.002:
        return r.choice(ODD_SCALARS)
    return r.choice([BOOL, I32, I32, I32, U32, I64, U64, F32, F64])


def some_number(r):
    """A scalar, a vector or a matrix."""
    scalar, shape = some_scalar(r), r.random()
    scalar = r.choice([*HALVES]) if r.random() < 0.04 else scalar
    if shape < 0.5:
        return ("scalar", scalar)
    if shape < 0.75:
        return ("vector", r.randint(2, 4), scalar)
    return ("matrix", r.randint(2, 4), r.randint(2, 4), r.choice([F32, F32, F32, F64, F64, F64, F16]))


def some_array(r):
    base = some_array(r) if r.random() < 0.2 else some_number(r)
    stride = Layouts(None).stride(base)
    if stride is None or stride >= 2**32 or r.random() < 0.15:
        stride = r.choice([4, 16])
    return ("array", base, r.choice([0, 1, 2, 3, 4, 4000000000]), stride)


def some_space(r):
    if r.random() < 0.5:
        return FUNCTION
    # now and then the space of images and samplers, whose pointers are not accepted
    space = r.choice([s for s in SPACES if s != HANDLE or r.random() < 0.02])
    return ("storage", r.choice([LOAD, LOAD | STORE, LOAD | ATOMIC, STORE, 0])) if space[0] == "storage" else space


def some_pointer_type(r):
    space, what = some_space(r), r.random()
    if what < 0.3:
        scalar = r.choice([*HALVES]) if r.random() < 0.1 else some_scalar(r)
        return ("value pointer", r.choice([0, 2, 3, 4]), scalar, space)
    if what < 0.6:
        return pointer_to(some_array(r), space)
    if what < 0.97:
        return pointer_to(some_number(r), space)
    if what < 0.98:
        return pointer_to(("atomic", r.choice([I32, U32, I64])), space)
    return pointer_to(some_type(r), space)


def some_image(r):
    what = r.random()
    if what < 0.45:
        # there are no images of truth values
        image = ("sampled", r.choice(["float", "float", "sint", "uint"] if r.random() < 0.99 else ["bool"]), coin(r))
    elif what < 0.7:
        image = ("depth", coin(r))
    elif what < 0.9:
        image = ("storage", r.randrange(len(FORMATS)), r.randrange(8))
    else:
        image = ("external",)
    return ("image", r.choice([0, 1, 1, 1, 2, 3]), coin(r), image)


def coin(r):
    return r.random() < 0.3


def some_type(r):
    what = r.random()
    if what < 0.55:
        return some_number(r)
    if what < 0.7:
        return some_array(r)
    if what < 0.85:
        return some_pointer_type(r)
    if what < 0.93:
        return some_image(r)
    if what < 0.96:
        return ("sampler", coin(r))
    if what < 0.975:
        return ("binding array", some_type(r), r.choice([0, 1, 2, 4000000000]))
    if what < 0.985:
        return ("cooperative", *some_tile(r), r.choice([F32, F32, F16, I32]), r.choice("ABC"))
    return (r.choice(["ray query", "acceleration"]), coin(r))


def some_tile(r):
    """The columns and rows of a cooperative matrix."""
    return r.choice([8, 16]), r.choice([8, 16])


def some_numeral(r, scalar):
    """A sign, digits and a power of ten, most often of a usual number, and almost always of one that the type has."""
    number = NUMERALS[scalar]
    while True:
        digits = r.choice([0, 1, 5, 10, r.randint(1, 999), r.randint(1, 99999999), r.randint(0, 2**64 - 1), 2**64 - 1])
        least, greatest = r.choice([(-3, 0), (-3, 0), (-9, 9), (-9, 17), (-30, 30), (-400, 400)])
        value = r.random() < 0.4, digits, r.randint(least, greatest)
        if numeral_fits(number, value) or r.random() < 0.01:
            return value


def some_bits(r, scalar):
    """The bits of a float, most often of a usual number; of another type 0 or 1."""
    if scalar not in FORMS:
        return r.randint(0, 1)
    whole, real = FORMS[scalar]
    number = r.choice([r.randint(-99, 99), r.randint(-999, 999) / 8, r.random(), r.randint(-2000, 2000) / 100])
    usual, = struct.unpack(whole, struct.pack(real, number))
    infinity, = struct.unpack(whole, struct.pack(real, float("inf")))
    odd = r.choice([0, 1, infinity - 1, infinity, r.randrange(256 ** scalar[1])])
    return odd if r.random() < 0.3 else usual
