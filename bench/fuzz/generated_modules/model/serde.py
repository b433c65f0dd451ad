"""Modules, with the types that are known of their expressions, as naga's `serde` forms have them in JSON."""

import json
import math
import struct

import words
from bindings import binding_form
from ir import (
    ATOMIC_FUNCTION, AXIS, BARRIER, BINARY_OPERATOR, COMPONENT, DIRECTION, GATHER_MODE, IMAGE_DIMENSION, IMAGE_QUERY,
    MEMORY_DECORATIONS, RELATIONAL, STORAGE_ACCESS, STORAGE_FORMAT, UNARY_OPERATOR)
from spelling import F32, F64, SCALAR_KINDS, is_override
from operators import LITERALS, is_numeral
from tables import COOPERATIVE_SIZES, OPERANDS, SPACE_WORDS, VECTOR_SIZES
from words import COMPARING, MATH, OPERATIONS

SIZES = {number: name for name, number in VECTOR_SIZES.items()}
COOPERATIVE = {number: name for name, number in COOPERATIVE_SIZES.items()}
SPACES = {**{word: name for name, word in SPACE_WORDS.items()}, "": "Handle"}
DIMENSIONS, FORMATS = IMAGE_DIMENSION.names(), STORAGE_FORMAT.names()
UNARY, BINARY, RELATIONALS = UNARY_OPERATOR.names(), BINARY_OPERATOR.names(), RELATIONAL.names()
AXES, CONTROLS = AXIS.names(), [word or "None" for word in words.CONTROLS]
COMPONENTS, QUERIES = COMPONENT.names(), IMAGE_QUERY.names()
# what atomics do, by their numbers, but exchanges
ATOMICS = ATOMIC_FUNCTION.names()[:-1]
# the modes of gathers with the directions of the last one in its place
GATHERS = GATHER_MODE.names()[:-1] + DIRECTION.names()
COLLECTIVES = [f"{word}Scan" if word else "Reduce" for word in words.COLLECTIVES]
PREDECLARED = {"modf": "ModfResult", "frexp": "FrexpResult", "exchange": "AtomicCompareExchangeWeakResult"}
EXTERNAL = {"params": "external_texture_params", "transfer": "external_texture_transfer_function"}
RESULTS = {
    "atomic result": "AtomicResult", "uniform result": "WorkGroupUniformLoadResult",
    "subgroup result": "SubgroupOperationResult", "ballot result": "SubgroupBallotResult",
    "proceed result": "RayQueryProceedResult"}
NAMES = {
    "load": "Load", "unary": "Unary", "binary": "Binary", "select": "Select", "math": "Math",
    "relational": "Relational", "splat": "Splat", "swizzle": "Swizzle", "access": "Access",
    "access index": "AccessIndex", "conversion": "As", "derivative": "Derivative",
    "multiply add": "CooperativeMultiplyAdd", "intersection": "RayQueryGetIntersection",
    "vertex positions": "RayQueryVertexPositions"}
LEAF_NAMES = {
    "argument": "FunctionArgument", "local": "LocalVariable", "constant": "Constant", "override": "Override",
    "global": "GlobalVariable"}


def line_of(module, explicit, is_plain=True):
    """The module with what is known of it, in a line, as one whose `let`s are to tell types or not, in a plain text or
    in one that has decimal floats and what standard compilers ask for."""
    return lines_of(module, [(is_plain, explicit)])[0]


def lines_of(module, styles):
    """Such a line for each style."""
    known = json.dumps(module.json(), separators=(",", ":"), allow_nan=False).removesuffix("}")
    return [
        f'{known},"plain":{json.dumps(is_plain)},"explicit_types":{json.dumps(explicit)}}}\n'
        for is_plain, explicit in styles]


class Serde:
    """The forms of a module, in which types are told by their places."""

    def __init__(self, module):
        self.module, places = module, {}
        for place, ty in enumerate(module.types):
            places.setdefault(ty, place)
        self.place_of = places.__getitem__

    def known(self):
        """The module, and what is known of it: the types of its expressions, as lists."""
        module = self.module
        special, external = self.special()
        return {
            "module": {
                "types": [{"name": label, "inner": self.inner(ty)} for label, ty in zip(module.labels, module.types)],
                "special_types": {"predeclared_types": special, **external},
                "constants": list(map(item_form, module.constants)),
                "overrides": [{**item_form(item), "id": item.number} for item in module.overrides],
                "global_variables": list(map(variable_form, module.variables)),
                "global_expressions": [self.expression(e) for e in module.own.expressions],
                "functions": [self.function(f, f.label) for f in module.functions],
                "entry_points": list(map(self.entry_point, module.entry_points)),
                "diagnostic_filters": [each.form() for each in module.filters],
                "diagnostic_filter_leaf": module.leaf},
            "info": {
                "functions": list(map(self.resolutions, module.functions)),
                "entry_points": list(map(self.resolutions, module.entry_points)),
                "const_expression_types": self.resolutions(module.own)}}

    def special(self):
        """The special types of functions by what gives them, and those of external images: of those for the same the
        last, in the place of the first, as a map leaves them."""
        special, external = [], {}
        for (giver, size, scalar), ty in dict(self.module.special).items():
            place = len(self.module.types) if ty is None else self.place_of(ty)
            if giver in EXTERNAL:
                external[EXTERNAL[giver]] = place
                continue
            content = {"size": SIZES.get(size), "scalar": scalar_form(scalar)}
            content = scalar_form(scalar) if giver == "exchange" else content
            special.append([{PREDECLARED[giver]: content}, place])
        return special, external

    # ---- types
    def resolutions(self, f):
        return [self.resolution(e) for e in f.expressions]

    def resolution(self, e):
        return self.place_of(e.type) if e.by_handle else {"Value": self.inner(e.type)}

    def inner(self, ty):
        kind, *rest = ty
        if kind == "scalar":
            return {"Scalar": scalar_form(rest[0])}
        if kind == "vector":
            return {"Vector": {"size": SIZES[rest[0]], "scalar": scalar_form(rest[1])}}
        if kind == "matrix":
            columns, rows, scalar = rest
            return {"Matrix": {"columns": SIZES[columns], "rows": SIZES[rows], "scalar": scalar_form(scalar)}}
        if kind in ("array", "binding array"):
            base, length, *stride = rest
            form = {"base": self.place_of(base), "size": size_form(length)}
            return {"Array": {**form, "stride": stride[0]}} if stride else {"BindingArray": form}
        if kind == "cooperative":
            columns, rows, scalar, role = rest
            sizes = {"columns": COOPERATIVE[columns], "rows": COOPERATIVE[rows]}
            return {"CooperativeMatrix": {**sizes, "scalar": scalar_form(scalar), "role": role}}
        if kind == "pointer":
            return {"Pointer": {"base": self.place_of(rest[0]), "space": space_form(rest[1])}}
        if kind == "value pointer":
            size, scalar, space = rest
            form = {"size": SIZES.get(size), "scalar": scalar_form(scalar), "space": space_form(space)}
            return {"ValuePointer": form}
        if kind == "image":
            dimension, arrayed, image_class = rest
            return {"Image": {"dim": DIMENSIONS[dimension], "arrayed": arrayed, "class": class_form(*image_class)}}
        if kind == "struct":
            offsets, span = self.module.placement(ty)
            members = [
                self.struct_member(ty, number, offset, *each) for number, (offset, each) in enumerate(zip(offsets, rest[0]))]
            return {"Struct": {"members": members, "span": span}}
        if kind == "atomic":
            return {"Atomic": scalar_form(rest[0])}
        if kind == "sampler":
            return {"Sampler": {"comparison": rest[0]}}
        name = {"ray query": "RayQuery", "acceleration": "AccelerationStructure"}[kind]
        return {name: {"vertex_return": rest[0]}}

    def struct_member(self, struct_type, number, offset, label, ty):
        binding = binding_form(self.module.bindings.get((struct_type, number)))
        return {"name": label, "ty": self.place_of(ty), "binding": binding, "offset": offset}

    # ---- functions
    def function(self, f, label):
        return {
            "name": label,
            "arguments": [
                {"name": label, "ty": self.place_of(ty), "binding": binding_form(f.bindings.get(number))}
                for number, (label, ty) in enumerate(f.arguments)],
            "result": None if f.result is None else {
                "ty": self.place_of(f.result), "binding": binding_form(f.bindings.get("result"))},
            "local_variables": [
                {"name": label, "ty": self.place_of(ty), "init": init} for label, ty, init in f.locals],
            "expressions": [self.expression(e) for e in f.expressions],
            "named_expressions": {str(h): label for h, label in f.labels.items()},
            "body": block_form(f.body),
            # a function has the module's, as naga's front end for WGSL tells it, or none, as its others do
            "diagnostic_filter_leaf": self.module.leaf if len(f.expressions) % 2 else None}

    def entry_point(self, p):
        return {
            "name": p.label, "stage": p.stage, "workgroup_size": p.size,
            "workgroup_size_overrides": [self.setting(number) for number in p.settings],
            "function": self.function(p, p.inner_label),
            "mesh_info": None if p.mesh is None else {"output_variable": p.mesh}, "task_payload": p.task,
            "incoming_ray_payload": p.ray}

    def setting(self, number):
        """The module's own expression that is the override of this number, if one is to be."""
        own = self.module.own.expressions
        return None if number is None else next(
            h for h, e in enumerate(own) if e.kind == "override" and e.what[0] == number)

    def expression(self, e):
        if e.kind == "literal":
            return {"Literal": literal_form(*e.what)}
        if e.kind in LEAF_NAMES:
            return {LEAF_NAMES[e.kind]: e.what[0]}
        if e.kind == "zero":
            return {"ZeroValue": self.place_of(e.what[0])}
        if e.kind == "call result":
            return {"CallResult": e.what[0]}
        if e.kind in ("ballot result", "proceed result"):
            return RESULTS[e.kind]
        if e.kind in RESULTS:
            comparison = {"comparison": e.what[1]} if e.kind == "atomic result" else {}
            return {RESULTS[e.kind]: {"ty": self.place_of(e.what[0]), **comparison}}
        if e.kind == "compose":
            return {"Compose": {"ty": self.place_of(e.what[0]), "components": e.operands}}
        if e.kind == "array length":
            return {"ArrayLength": e.operands[0]}
        if e.kind == "sample":
            return {"ImageSample": sampling_form(e.what[0], list(e.operands))}
        if e.kind == "image load":
            return {"ImageLoad": image_load_form(e.what, list(e.operands))}
        if e.kind == "image query":
            return {"ImageQuery": query_form(e.what[0], *e.operands)}
        if e.kind == "cooperative load":
            columns, rows, role, by_rows = e.what
            pointer, stride = e.operands
            return {"CooperativeLoad": {
                "columns": COOPERATIVE[columns], "rows": COOPERATIVE[rows], "role": role,
                "data": {"pointer": pointer, "stride": stride, "row_major": by_rows}}}
        name = NAMES[e.kind]
        return {name: {**what_form(e), **dict(zip(OPERANDS[name].split(), e.operands))}}


def scalar_form(scalar):
    kind, width = scalar
    return {"kind": kind_form(kind), "width": width}


def kind_form(kind):
    return {"abstract": "AbstractInt", "abstract float": "AbstractFloat"}.get(kind, kind.capitalize())


def size_form(length):
    if is_override(length):
        return {"Pending": length[1]}
    return {"Constant": length} if length else "Dynamic"


# ---- what is declared
def item_form(item):
    return {"name": item.label, "ty": item.place, "init": item.init}


def variable_form(variable):
    group, number = variable.binding or (None, None)
    memory = flags_form(MEMORY_DECORATIONS, variable.memory)
    return {
        **item_form(variable), "space": space_form(variable.space), "memory_decorations": memory,
        "binding": None if variable.binding is None else {"group": group, "binding": number}}


def flags_form(form, bits):
    return " | ".join(word for bit, word in enumerate(form.words) if bits >> bit & 1)


def access_form(access):
    return flags_form(STORAGE_ACCESS.form, access)


def space_form(space):
    word, access = space
    return {"Storage": {"access": access_form(access)}} if word == "storage" else SPACES[word]


def class_form(kind, *rest):
    if kind == "sampled":
        return {"Sampled": {"kind": kind_form(rest[0]), "multi": rest[1]}}
    if kind == "depth":
        return {"Depth": {"multi": rest[0]}}
    if kind == "storage":
        return {"Storage": {"format": FORMATS[rest[0]], "access": access_form(rest[1])}}
    return "External"


def literal_form(number, value):
    scalar = LITERALS[number]
    if is_numeral(number):
        negative, digits, exponent = value
        return {f"DecimalF{8 * scalar[1]}": {"negative": negative, "digits": digits, "exponent": exponent}}
    kind, width = scalar
    letter = {"sint": "I", "uint": "U", "float": "F"}.get(kind)
    name = kind_form(kind) if letter is None else letter + str(8 * width)
    if scalar in (F32, F64) or kind == "abstract float":
        return {name: float_form(*("<I", "<f") if scalar == F32 else ("<Q", "<d"), value)}
    return {name: bool(value) if name == "Bool" else value}


def float_form(whole, real, bits):
    """The number of these bits; where JSON has none, the bits."""
    number = struct.unpack(real, struct.pack(whole, bits))[0]
    return number if math.isfinite(number) else {"bits": bits}


def what_form(e):
    """What an expression is beside its operands."""
    what = e.what
    if e.kind == "unary":
        return {"op": UNARY[what[0]]}
    if e.kind == "binary":
        return {"op": BINARY[what[0]]}
    if e.kind == "math":
        word = MATH[what[0]][0]
        return {"fun": {"smoothstep": "SmoothStep"}.get(word, word[0].upper() + word[1:])}
    if e.kind == "relational":
        return {"fun": RELATIONALS[what[0]]}
    if e.kind == "splat":
        return {"size": SIZES[what[0]]}
    if e.kind == "swizzle":
        return {"size": SIZES[what[0]], "pattern": [COMPONENTS[c] for c in what[1:]]}
    if e.kind == "access index":
        return {"index": what[0]}
    if e.kind == "conversion":
        return {"kind": kind_form(SCALAR_KINDS[what[0]]), "convert": what[1] or None}
    if e.kind == "derivative":
        return {"axis": AXES[what[0]], "ctrl": CONTROLS[what[1]]}
    return {"committed": what[0]} if e.kind in ("intersection", "vertex positions") else {}


def sampling_form(how, operands):
    """A sampling, whose operands are taken in the order in which they are written."""
    def next_if(is_there):
        return operands.pop(0) if is_there else None

    return {
        "image": operands.pop(0), "sampler": operands.pop(0),
        "gather": None if how.gather is None else COMPONENTS[how.gather], "coordinate": operands.pop(0),
        "array_index": next_if(how.layer), "depth_ref": next_if(how.depth), "level": level_form(how.level, operands),
        "offset": next_if(how.offset), "clamp_to_edge": how.clamp}


def level_form(level, operands):
    if level == "gradient":
        return {"Gradient": {"x": operands.pop(0), "y": operands.pop(0)}}
    return {level.capitalize(): operands.pop(0)} if level in ("exact", "bias") else level.capitalize()


def image_load_form(what, operands):
    form = {"image": operands.pop(0), "coordinate": operands.pop(0)}
    for name, is_there in zip(("array_index", "sample", "level"), what):
        form[name] = operands.pop(0) if is_there else None
    return form


def query_form(number, image, level=None):
    name = QUERIES[number]
    return {"image": image, "query": {name: {"level": level}} if name == "Size" else name}


def block_form(body):
    return [statement_form(s) for s in body]


def statement_form(s):
    """A statement, whose operands are taken in the order in which they are written."""
    operands = list(s.operands)
    if s.kind in ("break", "continue", "kill"):
        return s.kind.capitalize()
    if s.kind == "emit":
        return {"Emit": {"start": s.what[0], "end": s.what[1] + 1}}
    if s.kind == "return":
        return {"Return": {"value": operands.pop() if operands else None}}
    if s.kind == "barrier":
        kind, bits = s.what
        return {kind: flags_form(BARRIER, bits)}
    if s.kind in ("block", "if", "switch", "loop"):
        return with_blocks_form(s, operands)
    return act_form(s, operands)


def with_blocks_form(s, operands):
    blocks = list(map(block_form, s.blocks))
    if s.kind == "block":
        return {"Block": blocks[0]}
    if s.kind == "if":
        return {"If": {"condition": operands[0], "accept": blocks[0], "reject": blocks[1]}}
    if s.kind == "loop":
        break_if = operands[0] if operands else None
        return {"Loop": {"body": blocks[0], "continuing": blocks[1], "break_if": break_if}}
    cases = [
        {"value": label_form(label), "body": body, "fall_through": falls}
        for (label, falls), body in zip(s.what, blocks)]
    return {"Switch": {"selector": operands[0], "cases": cases}}


def label_form(label):
    return "Default" if label is None else {{"sint": "I32", "uint": "U32"}[label[0]]: label[1]}


def act_form(s, operands):
    if s.kind == "store":
        return {"Store": dict(zip(("pointer", "value"), operands))}
    if s.kind == "call":
        return {"Call": {"function": s.what[0], "arguments": operands, "result": s.result}}
    if s.kind == "atomic":
        form = {"pointer": operands.pop(0), "fun": atomic_form(s.what[0], operands), "value": operands.pop(0)}
        return {"Atomic": {**form, "result": s.result}}
    if s.kind in ("image store", "image atomic"):
        return texel_form(s, operands)
    if s.kind == "uniform load":
        return {"WorkGroupUniformLoad": {"pointer": operands[0], "result": s.result}}
    if s.kind == "ray query":
        return {"RayQuery": {"query": operands[0]}}
    if s.kind == "ballot":
        return {"SubgroupBallot": {"result": s.result, "predicate": operands[0] if operands else None}}
    if s.kind == "gather":
        argument, *index = operands
        mode = GATHERS[s.what[0]]
        mode = {mode: index[0]} if index else mode if mode == "BroadcastFirst" else {"QuadSwap": mode}
        return {"SubgroupGather": {"mode": mode, "argument": argument, "result": s.result}}
    if s.kind == "collective":
        form = {"op": OPERATIONS[s.what[1]], "collective_op": COLLECTIVES[s.what[0]], "argument": operands[0]}
        return {"SubgroupCollectiveOperation": {**form, "result": s.result}}
    if s.kind == "cooperative store":
        target, pointer, stride = operands
        return {"CooperativeStore": {"target": target, "data": {
            "pointer": pointer, "stride": stride, "row_major": s.what[0]}}}
    names = ("acceleration_structure", "descriptor", "payload")
    return {"RayPipelineFunction": {"TraceRay": dict(zip(names, operands))}}


def atomic_form(number, operands):
    """What an atomic does; the value that it compares with stands next."""
    if number < len(ATOMICS):
        return ATOMICS[number]
    return {"Exchange": {"compare": operands.pop(0) if number == COMPARING else None}}


def texel_form(s, operands):
    form = {"image": operands.pop(0), "coordinate": operands.pop(0)}
    form["array_index"] = operands.pop(0) if s.what[-1] else None
    if s.kind == "image store":
        return {"ImageStore": {**form, "value": operands[0]}}
    return {"ImageAtomic": {**form, "fun": atomic_form(s.what[0], operands), "value": operands[0]}}
