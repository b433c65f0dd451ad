"""Modules by chance."""

from chance import some_label, some_number, some_type
from declarations import EntryPointMaker, FaultMaker, OwnMaker
from filters import make_filters
from functions import FunctionMaker
from modules import Expression, Module
from spelling import BOOL, F32, FUNCTION, I32, U32, pointer_to
from structs import StructMaker


def generate(r):
    module = Module()
    types = [some_type(r) for _ in range(r.randint(1, 5))]
    if r.random() < 0.35:
        types += [("image", 1, r.random() < 0.3, r.choice([("sampled", "float", False), ("depth", False)]))]
        types += [("sampler", r.random() < 0.3), ("vector", 2, F32), ("scalar", r.choice([I32, F32]))]
    if r.random() < 0.3:
        structs = StructMaker(r, module)
        types += [("scalar", F32), ("vector", r.randint(2, 4), F32)] + structs.make_named()
    computes = r.random() < 0.3
    if computes:
        # functions that call one another with whole numbers and pointers to locals, and branch by these numbers
        whole = [("scalar", scalar) for scalar in (I32, I32, U32, BOOL)]
        types = types[:1] + whole + [pointer_to(("scalar", scalar), FUNCTION) for scalar in (I32, I32, U32)]
    own = OwnMaker(r, module, types)
    if r.random() < (0.2 if computes else 0.8):
        declare(r, module, types, own)
    for _ in range(r.choice([2, 2, 3] if computes else [0, 1, 1, 1, 2, 3])):
        # functions of one module share some of their types
        module.functions.append(FunctionMaker(r, module, some_of(r, types)).make())
    if r.random() < 0.5:
        for _ in range(r.choice([1, 1, 2, 3])):
            module.entry_points.append(EntryPointMaker(r, module, some_of(r, types)).make())
    if r.random() < 0.2:
        for _ in range(r.choice([1, 1, 1, 2])):
            FaultMaker(r, module, own).make()
    make_filters(r, module)
    for f in module.bodies():
        if f.result is None:
            # a result was wanted, and nothing of its type is returned
            f.bindings.pop("result", None)
    name_settings(module)
    return module


def name_settings(module):
    """One of the module's own expressions is each override that sets a workgroup's size: naga's form has it there."""
    there = {e.what[0] for e in module.own.expressions if e.kind == "override"}
    for number in sorted({number for p in module.entry_points for number in p.overrides()} - there):
        place = module.overrides[number].place
        if place < len(module.types):
            named = Expression("override", module.types[place], [number])
            named.by_handle = named.type[0] == "struct"
            module.own.add(named)
        else:
            for p in module.entry_points:
                p.settings = [None if each == number else each for each in p.settings]


def generate_structs(r):
    """A module of types alone, with structs that a text declares."""
    module = Module()
    types = [some_type(r) for _ in range(r.randint(1, 3))]
    for _ in range(r.choice([1, 1, 2, 2, 3, 4])):
        types.append(StructMaker(r, module).make_declared(types))
    for ty in types:
        module.handle_of(ty)
    make_twins(r, module, types)
    return module


def some_of(r, types):
    return [ty for ty in types if r.random() < 0.8] or types


def declare(r, module, types, own):
    """Structs, constants, overrides and variables, some of which go by others that stand in front."""
    overrides = r.choice([0, 0, 0, 1, 1, 2, 3])
    for number in range(overrides):
        if r.random() < 0.5:
            elements = [ty for ty in types if ty[0] in ("scalar", "vector", "struct")] or [some_number(r)]
            types.append(("array", r.choice(elements), ("override", number), r.choice([4, 16])))
    for _ in range(r.choice([0, 0, 1, 1, 2, 3]) if r.random() < 0.9 else r.randint(4, 8)):
        plain = [ty for ty in types if not module.names_undeclared(ty)]
        types.append(StructMaker(r, module).make_declared(plain or [("scalar", I32)]))
    for ty in types:
        module.handle_of(ty)
    make_twins(r, module, types)
    makers = [own.make_override] * overrides + [own.make_constant] * r.choice([0, 0, 1, 2, 3, 4])
    makers += [own.make_variable] * r.choice([0, 0, 1, 1, 2, 3, 5])
    makers += [own.make_loose] * r.choice([0, 0, 0, 1, 2, 4])
    r.shuffle(makers)
    for make in makers:
        make()


def make_twins(r, module, types):
    """Now and then a type that stands in the module again, under another label."""
    if r.random() < 0.15:
        ty = r.choice(types)
        if ty[0] == "struct":
            twin = None if module.names_undeclared(ty) else StructMaker(r, module).make_twin(ty)
            if twin is not None:
                types.append(twin)
        else:
            labels = {label for each, label in zip(module.types, module.labels) if each == ty}
            label = some_label(r)
            if label not in labels:
                module.types.append(ty)
                module.labels.append(label)
