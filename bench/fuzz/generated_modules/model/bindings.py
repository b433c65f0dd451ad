"""What arguments, results and members are bound to, and variables.

A binding is `builtin NAME FLAG`, whose flag tells whether a position is invariant or a barycentric in perspective, or
`location NUMBER INTERPOLATION SAMPLING BLEND_SRC PER_PRIMITIVE`, of which the middle three may be none.
"""

import re

from words import BUILTIN_NAMES, BUILTIN_WORDS, INTERPOLATIONS, SAMPLINGS

# those that a flag belongs to, by its name in naga
FLAGS = {"Position": "invariant", "Barycentric": "perspective"}
WITHOUT_WORD = BUILTIN_NAMES[-6:]


def builtin(name, flag=False):
    return ("builtin", name, flag)


def location(number, interpolation=None, sampling=None, blend_src=None, per_primitive=False):
    return ("location", number, interpolation, sampling, blend_src, per_primitive)


def snake(name):
    """A name in small letters, with `_` in front of each capital but the first."""
    return re.sub("(?<!^)([A-Z])", r"_\1", name).lower()


def builtin_word(name, flag):
    """What WGSL calls a builtin value, or none where it has no word."""
    if name == "Barycentric":
        return "barycentric" if flag else "barycentric_no_perspective"
    return BUILTIN_WORDS.get(name, snake(name))


def unsupported_binding(binding):
    """What is told of a binding without a form."""
    if binding is None or binding[0] == "location" or builtin_word(*binding[1:]) is not None:
        return set()
    return {f"Unsupported builtin value: {binding[1]}"}


def attributes(binding):
    """The attributes of a binding, each with a blank after it."""
    if binding is None:
        return ""
    if binding[0] == "builtin":
        _, name, flag = binding
        is_invariant = name == "Position" and flag
        return f"@builtin({builtin_word(name, flag)}) " + ("@invariant " if is_invariant else "")
    _, number, interpolation, sampling, blend_src, per_primitive = binding
    text = f"@location({number}) "
    if blend_src is not None:
        text += f"@blend_src({blend_src}) "
    if sampling not in (None, "Center"):
        text += f"@interpolate({snake(interpolation or 'Perspective')}, {snake(sampling)}) "
    elif interpolation not in (None, "Perspective"):
        text += f"@interpolate({snake(interpolation)}) "
    return text + ("@per_primitive " if per_primitive else "")


def meant(binding):
    """What a binding means, where absent words are told."""
    if binding is None:
        return None
    if binding[0] == "builtin":
        _, name, flag = binding
        return ("builtin", builtin_word(name, flag), name == "Position" and flag)
    _, number, interpolation, sampling, blend_src, per_primitive = binding
    told = snake(interpolation or "Perspective"), snake(sampling or "Center")
    return ("location", number, *told, blend_src, per_primitive)


# ---- by chance, and naga's forms
def some_builtin(r, has_word=True):
    name = r.choice(BUILTIN_NAMES[:-6] if has_word else WITHOUT_WORD)
    return builtin(name, name in FLAGS and r.random() < 0.5)


def some_binding(r, has_word=True):
    if not has_word or r.random() < 0.4:
        return some_builtin(r, has_word)
    number = r.choice([0, 1, 2, 7, 2**32 - 1]) if r.random() < 0.3 else r.randrange(4)
    return location(
        number, r.choice([None, None, *INTERPOLATIONS]), r.choice([None, None, *SAMPLINGS]),
        r.choice([0, 1, 2**32 - 1]) if r.random() < 0.15 else None, r.random() < 0.15)


def binding_form(binding):
    if binding is None:
        return None
    if binding[0] == "builtin":
        _, name, flag = binding
        return {"BuiltIn": {name: {FLAGS[name]: flag}} if name in FLAGS else name}
    names = ("location", "interpolation", "sampling", "blend_src", "per_primitive")
    return {"Location": dict(zip(names, binding[1:]))}
