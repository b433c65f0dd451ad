"""The texts of whole modules."""

from bindings import attributes
from enables import enables_text
from filters import UNNAMED, directives_text, lacks_name
from layouts import Layouts
from naming import Names, member_names
from refusals import refusal, standing_in, standing_in_declarations
from spelling import ATOMIC, STORE, spelled
from writer import own_text


def answers_of(module, explicit, is_portable=False):
    """Whether the module is written, and what may be told of it, with the directives of its filters in front for standard
    compilers, or that a rule of these has no name."""
    if not is_portable:
        return answers_after_directives(module, explicit, False)
    if lacks_name(module):
        return False, {refusal(UNNAMED)}
    is_written, answers = answers_after_directives(module, explicit, True)
    return is_written, {directives_text(module) + answer for answer in answers}


def answers_after_directives(module, explicit, is_portable):
    """Whether the module is written, and its text; or all that may be told of it, since which of the constructs that
    stand in it is told is open. What the module declares is looked at before there is any text, and each function
    before its text, so that those in front of the first one that is refused stand in front of the refusal."""
    standing = standing_in_declarations(module)
    if standing:
        return False, set(map(refusal, standing))
    names = Names(module)
    text = enables_text(module, is_portable) + declarations_text(module, names)
    for f in module.functions:
        standing, own = standing_in(f, names, explicit, is_portable)
        if standing:
            return False, {names.in_text(text) + refusal(name) for name in standing}
        text += own + "\n"
    for number, p in enumerate(module.entry_points):
        standing, own = standing_in(p, names, explicit, is_portable)
        parted = text + "\n" if number else text
        if standing:
            # whether the line between two entry points stands after the first one is open
            return False, {names.in_text(t) + refusal(name) for name in standing for t in (text, parted)}
        text = parted + stage_text(p, names) + own
    return True, {names.in_text(text)}


def declarations_text(module, names):
    """The structs, constants, overrides and variables."""
    layouts = Layouts(module)
    structs = [struct_text(module, layouts, names, h) for h in module.declared_structs()]
    constants = [
        f"const {names.constants[number]}: {item_text(module, names, constant)}"
        for number, constant in enumerate(module.constants) if constant.label is not None]
    overrides = [override_text(module, names, number) for number in range(len(module.overrides))]
    variables = [variable_text(module, names, number) for number in range(len(module.variables))]
    groups = [lines + ["\n"] if lines else [] for lines in (constants, overrides, variables)]
    return "".join(structs + [line for group in groups for line in group])


def struct_text(module, layouts, names, h):
    ty = module.types[h]
    members = zip(layouts.sizes(ty), member_names([label for label, _ in ty[1]], module.keeps_digits), ty[1])
    lines = [
        f"    {size_text(size)}{attributes(module.bindings.get((ty, number)))}{name}: {spelled(member)},\n"
        for number, (size, name, (_, member)) in enumerate(members)]
    return f"struct {names.types[h]} {{\n{''.join(lines)}}}\n\n"


def size_text(size):
    return "" if size is None else f"@size({size}) "


def item_text(module, names, item):
    """The type of an item, and its initialiser if it has one."""
    value = "" if item.init is None else f" = {own_text(module, names, item.init)}"
    return f"{spelled(module.type_at(item))}{value};\n"


def override_text(module, names, number):
    override = module.overrides[number]
    bound = "" if override.number is None else f"@id({override.number}) "
    return f"{bound}override {names.overrides[number]}: {item_text(module, names, override)}"


def variable_text(module, names, number):
    variable = module.variables[number]
    bound = "" if variable.binding is None else "@group({}) @binding({}) \n".format(*variable.binding)
    memory = ("@coherent " if variable.memory & 1 else "") + ("@volatile " if variable.memory & 2 else "")
    item = item_text(module, names, variable)
    return f"{bound}{memory}var{space_text(*variable.space)} {names.variables[number]}: {item}"


def space_text(word, access):
    """A space, and what may be done there; the space of images has no word."""
    if word != "storage":
        return f"<{word}>" if word else ""
    if access & ATOMIC:
        return "<storage, atomic>"
    return "<storage, read_write>" if access & STORE else "<storage>"


def stage_text(p, names):
    """The attributes of a stage, in a line."""
    sizes = "@workgroup_size({}, {}, {}) ".format(*p.sizes(names))
    mesh, task, ray = (None if number is None else names.variables[number] for number in (p.mesh, p.task, p.ray))
    payload = f"@payload({task}) " if task is not None else ""
    incoming = f"@incoming_payload({ray}) "
    return {
        "Vertex": "@vertex ", "Fragment": "@fragment ", "Compute": f"@compute {sizes}",
        "Mesh": f"@mesh({mesh}) {sizes}{payload}", "Task": f"@task {payload}{sizes}",
        "RayGeneration": "@ray_generation ", "AnyHit": f"@any_hit {incoming}", "ClosestHit": f"@closest_hit {incoming}",
        "Miss": f"@miss {incoming}"}[p.stage] + "\n"
