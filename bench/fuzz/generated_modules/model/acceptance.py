"""Which modules are accepted."""

from modules import EVENTS, LEAVES, PARTS, RESULTS, statements_in
from operators import LITERALS, is_numeral, numeral_fits, word_of
from spelling import (
    BOOL, FUNCTION, I32, U32, alike, count_of_parts, has_parts, has_pointer_to_handle, held, identity, is_integer,
    is_override, override_of, part_of, pointed_at, pointer_to, is_pointer, scalar_of)


def is_read(module):
    """Whether each number is one of its bits, as a reader of a module's form asks."""
    lengths = [ty[2] for ty in types_of(module) if ty[0] in ("array", "binding array") and not is_override(ty[2])]
    strides = [ty[3] for ty in types_of(module) if ty[0] == "array"]
    indexes = [e.what[0] for f in module.groups() for e in f.expressions if e.kind == "access index"]
    resources = [number for v in module.variables if v.binding is not None for number in v.binding]
    sizes = [size for p in module.entry_points for size in p.size]
    placed = [number for offsets, span in module.placements.values() for number in (*offsets, span)]
    bound = [*module.bindings.values(), *(b for f in module.bodies() for b in f.bindings.values())]
    locations = [number for b in bound if b[0] == "location" for number in (b[1], b[4]) if number is not None]
    return (
        all(number < 2**32 for number in [*lengths, *strides, *indexes, *resources, *sizes, *locations, *placed])
        and all(o.number is None or o.number < 2**16 for o in module.overrides))


def is_accepted(module):
    return (
        declarations_fit(module)
        and all(map(ranges_fit, module.groups()))
        and all(initialiser_stands_before(module, h, e) for h, e in enumerate(module.own.expressions))
        and None not in module.special_types()
        and not any(has_pointer_to_handle(ty) for ty in types_of(module))
        and all(map(override_is_there, ((module, ty) for ty in types_of(module))))
        # a struct does not stand by itself
        and all(e.by_handle or e.type[0] != "struct" for f in module.groups() for e in f.expressions)
        and all(function_is_sound(f) for f in module.groups())
        and all(initialiser_fits(module, item) for item in declared_in(module))
        and operators_agree(module))


def types_of(module):
    """The types of the module and those that are known of its expressions."""
    return module.types + [e.type for f in module.groups() for e in f.expressions]


def override_is_there(of):
    """Whether a type's length is told by an override that is there, if by one."""
    module, ty = of
    number = override_of(ty)
    return number is None or number < len(module.overrides)


def declared_in(module):
    return [*module.constants, *module.overrides, *module.variables]


def declarations_fit(module):
    """Types and initialisers are there, and so are the variables and overrides of entry points."""
    return (
        all(item.place < len(module.types) for item in declared_in(module))
        and all(item.init is None or item.init < len(module.own.expressions) for item in declared_in(module))
        and all(number < len(module.variables) for p in module.entry_points for number in p.variables())
        and all(number < len(module.overrides) for p in module.entry_points for number in p.overrides()))


def initialiser_stands_before(module, h, e):
    """One of the module's own expressions stands after the initialiser of what it names."""
    if e.kind not in ("constant", "override"):
        return True
    init = (module.constants if e.kind == "constant" else module.overrides)[e.what[0]].init
    return init is None or init < h


def initialiser_fits(module, item):
    return item.init is None or alike(module.own.type_of(item.init), module.type_at(item))


def ranges_fit(f):
    """What is named is there, and operands stand before what they belong to."""
    count, module = len(f.expressions), f.module
    named = {
        "argument": f.arguments, "local": f.locals, "constant": module.constants, "override": module.overrides,
        "global": module.variables, "call result": module.functions}
    return (
        all(operand < h for h, e in enumerate(f.expressions) for operand in e.operands)
        and all(e.what[0] < len(named[e.kind]) for e in f.expressions if e.kind in named)
        and all(numeral_fits(*e.what) for e in f.expressions if e.kind == "literal" and is_numeral(e.what[0]))
        and all(h < count for h in f.labels)
        and all(init is None or init < count for _, _, init in f.locals)
        and all(statement_range_fits(f, s, count) for s in statements_in(f.body)))


def callable_by(f):
    """How many functions may be called: those in front of this one, and all by an entry point."""
    return 0 if f is f.module.own else min(f.module.number_of(f), len(f.module.functions))


def statement_range_fits(f, s, count):
    if s.kind == "emit":
        # a range may be empty or turned: both its ends are at most the number of expressions
        return s.what[0] <= count and s.what[1] + 1 <= count
    handles = s.operands + [s.result] * (s.result is not None)
    return all(h < count for h in handles) and (s.kind != "call" or s.what[0] < callable_by(f))


def function_is_sound(f):
    return (
        all(expression_is_sound(f, e) for e in f.expressions)
        and all(init is None or alike(f.type_of(init), ty) for _, ty, init in f.locals)
        and block_is_sound(f, f.body, False, False))


def expression_is_sound(f, e):
    """It has its type, and its operands are what it asks for."""
    of = [f.type_of(h) for h in e.operands]
    if e.kind in PARTS:
        return part_is_sound(e, of)
    wanted = e.type
    if e.kind == "literal":
        wanted = ("scalar", LITERALS[e.what[0]])
    elif e.kind == "argument":
        wanted = f.arguments[e.what[0]][1]
    elif e.kind == "local":
        wanted = pointer_to(f.locals[e.what[0]][1], FUNCTION)
    elif e.kind in ("constant", "override"):
        items = f.module.constants if e.kind == "constant" else f.module.overrides
        wanted = f.module.type_at(items[e.what[0]])
    elif e.kind == "global":
        wanted = f.module.variable_type(e.what[0])
    elif e.kind in ("zero", "compose", "atomic result", "uniform result", "subgroup result"):
        wanted = e.what[0]
    elif e.kind == "call result":
        wanted = f.module.functions[e.what[0]].result
        if wanted is None:
            return False
    elif e.kind == "load":
        if not is_pointer(of[0]):
            return False
        wanted = held(pointed_at(of[0]))
    elif e.kind == "splat":
        if of[0][0] not in ("scalar", "vector"):
            return False
        wanted = ("vector", e.what[0], scalar_of(of[0]))
    elif e.kind == "swizzle":
        size, *letters = e.what
        if of[0][0] != "vector" or any(c >= of[0][1] for c in letters[:size]):
            return False
        wanted = ("vector", size, scalar_of(of[0]))
    elif e.kind == "cooperative load":
        return is_pointer(of[0]) and pointed_at(of[0])[0] in ("scalar", "vector")
    elif e.kind == "binary" and word_of(f, e) in ("&&", "||") and of[0] == ("scalar", BOOL):
        wanted = ("scalar", BOOL)
    return alike(e.type, wanted)


def part_is_sound(e, of):
    """A computed index is an integer and of what has parts that are no members; a known one is below their number."""
    if e.kind == "access":
        part = part_of(of[0])
        return part is not None and is_integer(of[1]) and alike(e.type, part)
    if not has_parts(of[0]):
        # a known part of what has none is accepted, of any type
        return True
    count = count_of_parts(of[0])
    return (count is None or e.what[0] < count) and alike(e.type, part_of(of[0], e.what[0]))


def block_is_sound(f, body, breaks, continues):
    return all(statement_is_sound(f, s, breaks, continues) for s in body)


def statement_is_sound(f, s, breaks, continues):
    """It gets what it wants; `breaks` and `continues` tell whether there is something to leave and to go on with."""
    of = [f.type_of(h) for h in s.operands]
    if s.kind in ("break", "continue"):
        return breaks if s.kind == "break" else continues
    if s.kind == "store":
        return is_pointer(of[0]) and alike(held(pointed_at(of[0])), of[1])
    if s.kind == "return":
        return alike(f.result, of[0]) if of and f.result is not None else not of and f.result is None
    if s.kind == "if":
        is_sound = of[0] == ("scalar", BOOL)
    elif s.kind == "switch":
        is_sound, breaks = labels_fit(of[0], s.what), True
    elif s.kind == "loop":
        body, continuing = s.blocks
        is_sound = block_is_sound(f, body, True, True) and block_is_sound(f, continuing, False, False)
        return is_sound and of in ([], [("scalar", BOOL)])
    else:
        is_sound = act_is_sound(f, s, of)
    return is_sound and all(block_is_sound(f, block, breaks, continues) for block in s.blocks)


def labels_fit(selector, cases):
    """Labels of the selector's type, each once, one of them the default; the last case does not fall through."""
    labels = [label for label, _ in cases]
    return (
        selector in (("scalar", I32), ("scalar", U32))
        and all(label is None or label[0] == selector[1][0] for label in labels)
        and len(set(labels)) == len(labels) and None in labels
        and not cases[-1][1])


def act_is_sound(f, s, of):
    if s.kind == "atomic" and not (of[0][0] == "pointer" and pointed_at(of[0])[0] == "atomic"):
        return False
    if s.kind == "cooperative store" and not (is_pointer(of[1]) and pointed_at(of[1])[0] in ("scalar", "vector")):
        return False
    if s.kind == "call" and not is_called_with(f.module.functions[s.what[0]], of):
        return False
    if s.result is None:
        return True
    e = f.expressions[s.result]
    if s.kind == "call":
        callee = f.module.functions[s.what[0]]
        return callee.result is not None and e.kind == "call result" and e.what[0] == s.what[0]
    return e.kind == {
        "atomic": "atomic result", "uniform load": "uniform result", "ballot": "ballot result"
    }.get(s.kind, "subgroup result")


def is_called_with(callee, of):
    wanted = [ty for _, ty in callee.arguments]
    return len(of) == len(wanted) and all(map(alike, of, wanted))


def operators_agree(module):
    """Operators of one word over operands of types alike have types alike."""
    seen = {}
    for f in module.groups():
        for e in f.expressions:
            # what the world answers need not agree
            if e.kind in (*EVENTS, *RESULTS, *LEAVES):
                continue
            use = (operator_of(f, e), tuple(identity(f.type_of(h)) for h in e.operands))
            if seen.setdefault(use, identity(e.type)) != identity(e.type):
                return False
    return True


def operator_of(f, e):
    """An operator's word, or all that it is beside its operands where it has none."""
    has_part = e.kind not in PARTS or has_parts(f.type_of(e.operands[0]))
    word = word_of(f, e) if has_part else None
    return word or (e.kind, *e.what)
