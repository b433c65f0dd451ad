"""What a module offers, told apart from its text, and what a text offers: structs, constants, overrides, variables, and
what functions and entry points take and give. Absent words are told, and an initialiser by its value."""

from bindings import meant
from enables import enabled
from filters import directives
from layouts import Layouts
from naming import Names, member_names
from reading_layouts import TextLayouts
from runs import OwnValues, TextConstants
from spelling import ATOMIC, STORE, spelled


# ---- of a module
def module_interface(module, is_portable=False):
    names, layouts = Names(module), Layouts(module)
    return {
        "directives": directives(module) if is_portable else [],
        "enables": enabled(module, is_portable),
        "structs": [struct(module, layouts, names, h) for h in module.declared_structs()],
        **items(module, names),
        "functions": [function(f, names, number) for number, f in enumerate(module.bodies())],
        "stages": [stage(p, names) for p in module.entry_points]}


def told(names, ty):
    return names.in_text(spelled(ty))


def struct(module, layouts, names, h):
    ty = module.types[h]
    members = zip(layouts.sizes(ty), member_names([label for label, _ in ty[1]], module.keeps_digits), ty[1])
    return names.types[h], [
        (size, meant(module.bindings.get((ty, number))), name, told(names, member))
        for number, (size, name, (_, member)) in enumerate(members)]


def kept_layouts(module):
    """The offsets of structs that are to be kept, and their spans where these are, by their names."""
    names, layouts = Names(module), Layouts(module)
    kept = {names.types[h]: layouts.kept(module.types[h]) for h in module.declared_structs()}
    return {name: each for name, each in kept.items() if each is not None}


def items(module, names):
    own = OwnValues(module, names)

    def item(name, each):
        return name, told(names, module.type_at(each)), None if each.init is None else own.value(each.init)

    return {
        "constants": [
            item(name, each) for name, each in zip(names.constants, module.constants) if each.label is not None],
        "overrides": [(each.number, *item(name, each)) for name, each in zip(names.overrides, module.overrides)],
        "variables": [
            (each.binding, bool(each.memory & 1), bool(each.memory & 2), *space(*each.space), *item(name, each))
            for name, each in zip(names.variables, module.variables)]}


def space(word, access):
    if word != "storage":
        return word or None, None
    return word, "atomic" if access & ATOMIC else "read_write" if access & STORE else None


def function(f, names, number):
    own = names.bodies[number]
    arguments = [
        (meant(f.bindings.get(at)), name, told(names, ty))
        for at, (name, (_, ty)) in enumerate(zip(own.arguments, f.arguments))]
    result = None if f.result is None else (meant(f.bindings.get("result")), told(names, f.result))
    return own.function, arguments, result, [told(names, ty) for _, ty, _ in f.locals]


def stage(p, names):
    """The stage, with what a text tells of it."""
    sizes = p.sizes(names) if p.stage in ("Compute", "Task", "Mesh") else None
    mesh, task, ray = (None if number is None else names.variables[number] for number in (p.mesh, p.task, p.ray))
    return (
        p.stage, sizes, mesh if p.stage == "Mesh" else None, task if p.stage in ("Task", "Mesh") else None,
        ray if p.stage in ("AnyHit", "ClosestHit", "Miss") else None)


# ---- of a text
def text_interface(program):
    constants = TextConstants(program)

    def value(e):
        return None if e is None else constants.value(e)

    return {
        "directives": program.directives,
        "enables": program.enables,
        "structs": [
            (name, [(*sized(attributes), member, ty) for attributes, member, ty in members])
            for name, members in program.structs],
        "constants": [(name, ty, value(e)) for name, ty, e in program.constants],
        "overrides": [(number, name, ty, value(e)) for number, name, ty, e in program.overrides],
        "variables": [variable(*each[:-1], value(each[-1])) for each in program.variables],
        "functions": list(map(text_function, program.bodies())),
        "stages": [text_stage(attributes) for attributes, _ in program.entry_points]}


def sized(attributes):
    """The size that a member is given, if one, and what it is bound to."""
    if attributes and attributes[0][0] == "size":
        return int(attributes[0][1]), bound(attributes[1:])
    return None, bound(attributes)


def text_layouts(program, kept):
    """The same of a text's structs as of those that are kept."""
    layouts = TextLayouts(program)
    found = {name: layouts.of_struct(name) for name in kept}
    return {
        name: (offsets, size if kept[name][1] is not None else None) for name, (offsets, (_, size)) in found.items()}


def bound(attributes):
    """What the attributes of an argument, a result or a member mean. Each stands once, in this order."""
    if not attributes:
        return None
    (word, over), *rest = attributes
    if word == "builtin":
        assert rest == [] or rest == [("invariant",)] and over == "position", attributes
        return ("builtin", over, bool(rest))
    assert word == "location", attributes
    order = ["blend_src", "interpolate", "per_primitive"]
    places = [order.index(each[0]) for each in rest]
    assert places == sorted(set(places)), attributes
    said = {word: more for word, *more in rest}
    interpolation, sampling = (said.get("interpolate", ["perspective"]) + ["center"])[:2]
    blend_src = int(said["blend_src"][0]) if "blend_src" in said else None
    return ("location", int(over), interpolation, sampling, blend_src, "per_primitive" in said)


def variable(attributes, space, access, name, ty, value):
    words = [word for word, *_ in attributes]
    order = ["group", "binding", "coherent", "volatile"]
    assert words == [word for word in order if word in words] and ("group" in words) == ("binding" in words), attributes
    binding = (int(attributes[0][1]), int(attributes[1][1])) if "group" in words else None
    return binding, "coherent" in words, "volatile" in words, space, access, name, ty, value


def text_function(f):
    arguments = [(bound(attributes), name, ty) for attributes, name, ty in f.arguments]
    result = None if f.result is None else (bound(f.result[0]), f.result[1])
    return f.name, arguments, result, [ty for _, ty, _ in f.locals]


STAGES = {
    "vertex": "Vertex", "fragment": "Fragment", "compute": "Compute", "task": "Task", "mesh": "Mesh",
    "ray_generation": "RayGeneration", "any_hit": "AnyHit", "closest_hit": "ClosestHit", "miss": "Miss"}


def text_stage(attributes):
    (word, *mesh), *rest = attributes
    said = {word: over for word, *over in rest}
    assert len(said) == len(rest), attributes
    sizes = [int(part) if part.isdigit() else part for part in said.get("workgroup_size", [])] or None
    task, ray = (said[word][0] if word in said else None for word in ("payload", "incoming_payload"))
    return STAGES[word], sizes, mesh[0] if mesh else None, task, ray
