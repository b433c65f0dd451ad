"""Types, how they are spelled, and their parts.

A scalar is its kind and its width in bytes. A type is a tuple that begins with what it is:

    scalar S; vector SIZE S; matrix COLUMNS ROWS S; array BASE LENGTH STRIDE; binding array BASE LENGTH
    pointer BASE SPACE; value pointer SIZE S SPACE (to one scalar: 0); cooperative COLUMNS ROWS S ROLE
    image DIMENSION ARRAYED CLASS; sampler COMPARISON; ray query VERTICES; acceleration VERTICES; atomic S
    struct MEMBERS NUMBER

A length is a number, 0 where none is told, or `override N`. A space is its word and what may be done there, if it is
`storage`: 1 load, 2 store, 4 atomics. A member of a struct is its label, or none, and its type; the numbers tell the
structs of one module apart.

The spelling of a struct is `#s` and its number, and that of an override `#o` and its number. Their names take the
place of these in a text.
"""

from functools import lru_cache

from words import FORMATS

SCALAR_KINDS = ["sint", "uint", "float", "bool", "abstract", "abstract float"]
BOOL, I32, U32, I64, U64, F32, F64 = [
    ("bool", 1), ("sint", 4), ("uint", 4), ("sint", 8), ("uint", 8), ("float", 4), ("float", 8)]
# types of these need an extension
I16, U16, F16 = [("sint", 2), ("uint", 2), ("float", 2)]
HALVES = {I16: "i16", U16: "u16", F16: "f16"}
SCALARS = {BOOL: "bool", I32: "i32", U32: "u32", I64: "i64", U64: "u64", F32: "f32", F64: "f64", **HALVES}
INTEGERS = [("scalar", s) for s in (I16, U16, I32, U32, I64, U64)]
DIMENSIONS = ["1d", "2d", "3d", "cube"]
LOAD, STORE, ATOMIC = 1, 2, 4
# types over one other type, which stands in front
OVER_ONE = ("array", "binding array", "pointer")

FUNCTION = ("function", 0)
# the space of images and samplers, which has no word
HANDLE = ("", 0)
SPACES = [
    FUNCTION, ("private", 0), ("workgroup", 0), ("uniform", 0), ("storage", LOAD), HANDLE, ("immediate", 0),
    ("task_payload", 0), ("ray_payload", 0), ("incoming_ray_payload", 0)]


@lru_cache(10000)
def spelled(ty):
    """A type's text, or none where it has no form."""
    kind = ty[0]
    if kind == "scalar":
        return SCALARS.get(ty[1])
    if kind == "vector":
        return with_word("vec{}<{}>", ty[1], SCALARS.get(ty[2]))
    if kind == "matrix":
        return with_word("mat{}x{}<{}>", ty[1], ty[2], SCALARS.get(ty[3]))
    if kind in ("array", "binding array"):
        return with_word("{}<{}{}>", kind.replace(" ", "_"), spelled(ty[1]), spelled_length(ty[2]))
    if kind == "pointer":
        return spelled_pointer(spelled(ty[1]), ty[2])
    if kind == "value pointer":
        return spelled_pointer(spelled(pointed_at(ty)), ty[3]) if ty[3] != HANDLE else None
    if kind == "image":
        return spelled_image(ty)
    if kind == "sampler":
        return "sampler_comparison" if ty[1] else "sampler"
    if kind == "atomic":
        return with_word("atomic<{}>", SCALARS.get(ty[1]))
    if kind == "struct":
        return f"#s{ty[2]}"
    if kind == "cooperative":
        return with_word("coop_mat{}x{}<{},{}>", ty[1], ty[2], SCALARS.get(ty[3]), ty[4])
    word = {"ray query": "ray_query", "acceleration": "acceleration_structure"}[kind]
    return word + "<vertex_return>" if ty[1] else word


def spelled_length(length):
    if is_override(length):
        return f", #o{length[1]}"
    return f", {length}" if length else ""


def is_override(length):
    """Whether a length is that of an override."""
    return isinstance(length, tuple)


def with_word(form, *parts):
    """The form with its parts, or none where one of them has none."""
    return None if None in parts else form.format(*parts)


def spelled_pointer(base, space):
    word, access = space
    if word != "storage":
        return with_word("ptr<{}, {}>", word, base)
    mode = ", atomic" if access & ATOMIC else ", read_write" if access & STORE else ""
    return with_word("ptr<storage, {}{}>", base, mode)


def spelled_image(ty):
    dimension = DIMENSIONS[ty[1]] + ("_array" if ty[2] else "")
    kind, *rest = ty[3]
    if kind == "external":
        return "texture_external"
    if kind == "storage":
        access = rest[1]
        mode = "write"
        if access & ATOMIC:
            mode = "atomic"
        elif access & LOAD:
            mode = "read_write" if access & STORE else "read"
        return f"texture_storage_{dimension}<{FORMATS[rest[0]]},{mode}>"
    multi = "multisampled_" if rest[-1] else ""
    if kind == "depth":
        return f"texture_depth_{multi}{dimension}"
    return with_word("texture_{}{}<{}>", multi, dimension, SCALARS.get((rest[0], 4)))


def alike(left, right):
    """Types of one spelling are alike; one without a form is a type of its own."""
    return identity(left) == identity(right)


def identity(ty):
    return spelled(ty) or ty


def is_pointer(ty):
    return ty[0] in ("pointer", "value pointer")


def pointed_at(ty):
    if ty[0] == "pointer":
        return ty[1]
    return ("vector", ty[1], ty[2]) if ty[1] else ("scalar", ty[2])


def held(ty):
    """What is loaded from a place of this type and stored there: of an atomic its scalar."""
    return ("scalar", ty[1]) if ty[0] == "atomic" else ty


def points_to_atomic(ty):
    return is_pointer(ty) and pointed_at(ty)[0] == "atomic"


def scalar_of(ty):
    """The scalar of a scalar, a vector or a matrix; none of another type."""
    return ty[-1] if ty[0] in ("scalar", "vector", "matrix") else None


def is_integer(ty):
    """Whether a type is an integer, of whatever width."""
    return ty[0] == "scalar" and ty[1][0] in ("sint", "uint")


def lacking_scalar(ty):
    """The scalar without a word that a type is over, if it is over one."""
    if ty[0] in OVER_ONE:
        return lacking_scalar(ty[1])
    scalar = scalar_of(ty)
    if ty[0] in ("value pointer", "atomic", "cooperative"):
        scalar = ty[{"value pointer": 2, "atomic": 1, "cooperative": 3}[ty[0]]]
    if ty[0] == "image" and ty[3][0] == "sampled":
        scalar = (ty[3][1], 4)
    return None if scalar in SCALARS else scalar


def with_scalar(ty, scalar):
    return (*ty[:-1], scalar)


def value_part(ty, index):
    """A component, a column, an element, or the member at a known index."""
    if ty[0] == "struct":
        return ty[1][index][1] if index is not None and index < len(ty[1]) else None
    if ty[0] == "vector":
        return ("scalar", ty[2])
    if ty[0] == "matrix":
        return ("vector", ty[2], ty[3])
    return ty[1] if ty[0] in ("array", "binding array") else None


def whole_of(ty):
    """What parts are taken of: the type itself, or what it points at."""
    return pointed_at(ty) if is_pointer(ty) else ty


def has_parts(ty):
    return whole_of(ty)[0] in ("vector", "matrix", "array", "binding array", "struct")


def part_of(ty, index=None):
    """The type of the part at a computed index, or a known one, or of a pointer to it; none where there is none."""
    whole = whole_of(ty)
    part = value_part(whole, index)
    if not part or not is_pointer(ty):
        return part
    # of a vector or a matrix it is a pointer by value, which matters where it has no spelling
    if whole[0] in ("vector", "matrix"):
        return ("value pointer", part[1] if part[0] == "vector" else 0, part[-1], space_of(ty))
    return pointer_to(part, space_of(ty))


def space_of(pointer):
    return pointer[-1]


def pointer_to(ty, space):
    return ("pointer", ty, space)


def count_of_parts(ty):
    """How many parts there are; none where no number is told."""
    whole = whole_of(ty)
    if whole[0] == "struct":
        return len(whole[1])
    if whole[0] in ("array", "binding array"):
        return None if is_override(whole[2]) else whole[2] or None
    return whole[1]


def bases_of(ty):
    """The types that a type is made of, which stand in its module in front of it."""
    if ty[0] == "struct":
        return [member for _, member in ty[1]]
    return [ty[1]] if ty[0] in OVER_ONE else []


def override_of(ty):
    """The override that tells a type's length, if one does."""
    return ty[2][1] if ty[0] in ("array", "binding array") and is_override(ty[2]) else None


@lru_cache(10000)
def has_pointer_to_handle(ty):
    return (ty[0] == "pointer" and ty[2] == HANDLE) or any(has_pointer_to_handle(base) for base in bases_of(ty))
