"""The extensions that a module's text enables."""

from modules import statements_in
from operators import barrier_words, wanted_scalar
from spelling import F16, I16, U16, scalar_of
from words import BUILTIN_NAMES, words_of

# in the order of a text
EXTENSIONS = words_of("""
f16 wgpu_int16 dual_source_blending clip_distances wgpu_mesh_shader wgpu_binding_array draw_index primitive_index
wgpu_cooperative_matrix wgpu_ray_tracing_pipeline wgpu_per_vertex subgroups
""")


def names_between(first, last):
    return BUILTIN_NAMES[BUILTIN_NAMES.index(first):BUILTIN_NAMES.index(last) + 1]


# builtin values by what they need, if they need anything
BUILTINS = {
    "ClipDistances": "clip_distances", "DrawIndex": "draw_index", "PrimitiveIndex": "primitive_index",
    **dict.fromkeys(names_between("MeshTaskSize", "CullPrimitive"), "wgpu_mesh_shader"),
    **dict.fromkeys(names_between("RayInvocationId", "WorldToObject"), "wgpu_ray_tracing_pipeline")}
SUBGROUP_BUILTINS = ("NumSubgroups", "SubgroupId", "SubgroupSize", "SubgroupInvocationId")
KINDS = {
    "binding array": "wgpu_binding_array", "cooperative": "wgpu_cooperative_matrix",
    "acceleration": "wgpu_ray_tracing_pipeline"}
SPACES = {
    "task_payload": "wgpu_mesh_shader", "ray_payload": "wgpu_ray_tracing_pipeline",
    "incoming_ray_payload": "wgpu_ray_tracing_pipeline"}
STAGES = {
    "Task": "wgpu_mesh_shader", "Mesh": "wgpu_mesh_shader",
    **dict.fromkeys(("RayGeneration", "Miss", "AnyHit", "ClosestHit"), "wgpu_ray_tracing_pipeline")}


def needed_for_type(ty):
    if ty[0] in KINDS:
        return {KINDS[ty[0]]}
    if scalar_of(ty) == F16:
        return {"f16"}
    return {"wgpu_int16"} if scalar_of(ty) in (I16, U16) else set()


def needed_for_binding(binding):
    if binding is None:
        return set()
    if binding[0] == "builtin":
        return {BUILTINS[binding[1]]} if binding[1] in BUILTINS else set()
    _, _, interpolation, _, blend_src, per_primitive = binding
    needed = set()
    if blend_src is not None:
        needed.add("dual_source_blending")
    if per_primitive:
        needed.add("wgpu_mesh_shader")
    return needed or ({"wgpu_per_vertex"} if interpolation == "PerVertex" else set())


def needed_for(module):
    """All bindings of members count, and those of what entry points take and give."""
    needed = set()
    for ty in module.types:
        needed |= needed_for_type(ty)
    for (ty, _), binding in module.bindings.items():
        needed |= needed_for_binding(binding) if ty in module.types else set()
    for variable in module.variables:
        needed |= {SPACES[variable.space[0]]} if variable.space[0] in SPACES else set()
    for p in module.entry_points:
        needed |= {STAGES[p.stage]} if p.stage in STAGES else set()
        for binding in p.bindings.values():
            needed |= needed_for_binding(binding)
    return needed


def asked_for(module):
    """What standard compilers ask for besides: wherever a type is spelled over `f16`, if only by a `let`, a conversion
    or a literal, and wherever something of subgroups stands."""
    asked = set()
    types = [*module.types, *(e.type for f in module.groups() for e in f.expressions)]
    conversions = ((f.type_of(e.operands[0]), e.what) for f in module.bodies() for e in f.expressions if e.kind == "conversion")
    converted = (wanted_scalar(ty, what) for ty, what in conversions if scalar_of(ty) is not None)
    if F16 in (*map(scalar_over, types), *converted):
        asked.add("f16")
    bindings = [b for (ty, _), b in module.bindings.items() if ty in module.types]
    bindings += [b for p in module.entry_points for b in p.bindings.values()]
    if any(b is not None and b[0] == "builtin" and b[1] in SUBGROUP_BUILTINS for b in bindings):
        asked.add("subgroups")
    if any(is_of_subgroups(s) for f in module.bodies() for s in statements_in(f.body)):
        asked.add("subgroups")
    return asked


def scalar_over(ty):
    """The scalar of a type, of an atomic, or of what a pointer by itself or a cooperative matrix is of."""
    at = {"value pointer": 2, "cooperative": 3, "atomic": 1}
    return ty[at[ty[0]]] if ty[0] in at else scalar_of(ty)


def is_of_subgroups(s):
    if s.kind == "barrier":
        return "subgroupBarrier" in barrier_words(s)
    return s.kind in ("ballot", "gather", "collective")


def enabled(module, is_portable):
    words = needed_for(module) | (asked_for(module) if is_portable else set())
    return [word for word in EXTENSIONS if word in words]


def enables_text(module, is_portable=False):
    """The lines in front of a module's declarations."""
    lines = [f"enable {word};\n" for word in enabled(module, is_portable)]
    return "".join(lines) + ("\n" if lines else "")
