"""The types of a module's expressions, by the module alone: what WGSL and naga's typifier say of each kind, written
apart from the crate naga_inference, so that each of the two tests the other.

A module is naga's JSON. The type of an expression is the handle of one of the module's types, or `{"Value": inner}`, a
type by itself. `module_types` gives those of a whole module, and `expression_type` that of one expression by the types
of those before it, or None if it has none.
"""

BOOL, I32, U32, F32 = (
    {"kind": kind, "width": width} for kind, width in (("Bool", 1), ("Sint", 4), ("Uint", 4), ("Float", 4)))
# The scalars of literals; that of an abstract one has 8 bytes.
LITERALS = {
    "F64": ("Float", 8), "F32": ("Float", 4), "F16": ("Float", 2),
    "DecimalF64": ("Float", 8), "DecimalF32": ("Float", 4), "DecimalF16": ("Float", 2),
    "U64": ("Uint", 8), "U32": ("Uint", 4), "U16": ("Uint", 2),
    "I64": ("Sint", 8), "I32": ("Sint", 4), "I16": ("Sint", 2),
    "Bool": ("Bool", 1), "AbstractInt": ("AbstractInt", 8), "AbstractFloat": ("AbstractFloat", 8),
}
COMPARISONS = {"Equal", "NotEqual", "Less", "LessEqual", "Greater", "GreaterEqual"}
# What is packed into the bits of one number, and what is unpacked out of them.
PACKED = {
    "Dot4I8Packed": I32, "Dot4U8Packed": U32, "Pack4x8snorm": U32, "Pack4x8unorm": U32, "Pack2x16snorm": U32,
    "Pack2x16unorm": U32, "Pack2x16float": U32, "Pack4xI8": U32, "Pack4xU8": U32, "Pack4xI8Clamp": U32,
    "Pack4xU8Clamp": U32,
}
UNPACKED = {
    "Unpack4x8snorm": ("Quad", F32), "Unpack4x8unorm": ("Quad", F32), "Unpack2x16snorm": ("Bi", F32),
    "Unpack2x16unorm": ("Bi", F32), "Unpack2x16float": ("Bi", F32), "Unpack4xI8": ("Quad", I32),
    "Unpack4xU8": ("Quad", U32),
}


class Untyped(Exception):
    """The first expression without a type: `global expression 3`, `function 0, expression 3`."""


def named(value):
    """The name of a variant, and what it has."""
    if isinstance(value, dict):
        (name, content), = value.items()
        return name, content
    return value, None


def item(items, handle):
    """The item with this handle, if there is one."""
    return items[handle] if 0 <= handle < len(items) else None


def scalar_type(scalar):
    return {"Value": {"Scalar": scalar}}


def vector_type(size, scalar):
    return {"Value": {"Vector": {"size": size, "scalar": scalar}}}


def matrix_type(columns, rows, scalar):
    return {"Value": {"Matrix": {"columns": columns, "rows": rows, "scalar": scalar}}}


def told(ty):
    """A type as it is told, with its handle plain."""
    return ty["Handle"] if isinstance(ty, dict) and "Handle" in ty else ty


class Scope:
    """Expressions that stand together: the module, the function in which they stand, or None for the module's own, and
    the types of those that are known, by handle."""

    def __init__(self, module, function, known):
        self.module = module
        self.function = function
        self.known = known

    def items(self, name):
        return self.module.get(name) or []

    def of_function(self, name, handle):
        return None if self.function is None else item(self.function.get(name) or [], handle)

    def inner_at(self, handle):
        """A type of the module by itself: its name and what it has, or two Nones."""
        ty = item(self.items("types"), handle)
        return (None, None) if ty is None else named(ty["inner"])

    def inner(self, handle):
        """The type of an operand by itself."""
        ty = None if handle is None else item(self.known, handle)
        if ty is None:
            return None, None
        return named(ty["Value"]) if isinstance(ty, dict) else self.inner_at(ty)

    def same(self, handle):
        """The type of an operand once more. A struct has a handle."""
        ty = item(self.known, handle)
        return None if isinstance(ty, dict) and "Struct" in ty["Value"] else ty


# ---- parts, and what pointers point to

def member_type(members, index):
    return None if index is None or index >= len(members) else members[index]["ty"]


def value_part(inner, index):
    """The part of a value."""
    name, it = inner
    if name == "Vector":
        return scalar_type(it["scalar"])
    if name == "Matrix":
        return vector_type(it["rows"], it["scalar"])
    if name in ("Array", "BindingArray"):
        return it["base"]
    return member_type(it["members"], index) if name == "Struct" else None


def value_pointer(size, scalar, space):
    held = {"scalar": scalar, "space": space} if size is None else {"size": size, "scalar": scalar, "space": space}
    return {"Value": {"ValuePointer": held}}


def pointed_part(space, inner, index):
    """The pointer to a part of what is pointed to."""
    name, it = inner
    if name == "Vector":
        return value_pointer(None, it["scalar"], space)
    if name == "Matrix":
        return value_pointer(it["rows"], it["scalar"], space)
    base = value_part(inner, index)
    return None if base is None else {"Value": {"Pointer": {"base": base, "space": space}}}


def part_type(scope, base, index):
    """The part at an index, which is None where it is computed."""
    name, it = scope.inner(base)
    if name == "Pointer":
        return pointed_part(it["space"], scope.inner_at(it["base"]), index)
    if name == "ValuePointer":
        return None if it.get("size") is None else value_pointer(None, it["scalar"], it["space"])
    return value_part((name, it), index)


def pointee_type(scope, pointer):
    """What is read through a pointer; of an atomic, its scalar."""
    name, it = scope.inner(pointer)
    if name == "ValuePointer":
        return scalar_type(it["scalar"]) if it.get("size") is None else vector_type(it["size"], it["scalar"])
    if name != "Pointer":
        return None
    stored, scalar = scope.inner_at(it["base"])
    if stored is None:
        return None
    return scalar_type(scalar) if stored == "Atomic" else it["base"]


def component_scalar(inner):
    """The scalar of a number, or of a vector's components."""
    name, it = inner
    if name == "Scalar":
        return it
    return it["scalar"] if name == "Vector" else None


# ---- operators

def truth_type(inner):
    """`bool`, or as many of them as there are components."""
    name, it = inner
    if name == "Scalar":
        return scalar_type(BOOL)
    return vector_type(it["size"], BOOL) if name == "Vector" else None


def product_type(scope, left, right):
    (one, it), (other, that) = scope.inner(left), scope.inner(right)
    if one is None or other is None:
        return None
    if one == "Scalar":
        return scope.same(right)
    if other == "Scalar":
        return scope.same(left)
    if one == "Matrix" and other == "Matrix":
        return matrix_type(that["columns"], it["rows"], it["scalar"])
    if one == "Matrix" and other == "Vector":
        return vector_type(it["rows"], it["scalar"])
    if one == "Vector" and other == "Matrix":
        return vector_type(that["columns"], that["scalar"])
    return scope.same(left) if one == "Vector" and other == "Vector" else None


def binary_type(scope, it):
    if it["op"] == "Multiply":
        return product_type(scope, it["left"], it["right"])
    if it["op"] in COMPARISONS:
        return truth_type(scope.inner(it["left"]))
    if it["op"] in ("LogicalAnd", "LogicalOr"):
        return scalar_type(BOOL) if scope.inner(it["left"]) == ("Scalar", BOOL) else None
    return scope.same(it["left"])


def relational_type(scope, it):
    return scalar_type(BOOL) if it["fun"] in ("All", "Any") else truth_type(scope.inner(it["argument"]))


def conversion_type(scope, it):
    name, operand = scope.inner(it["expr"])
    if name not in ("Scalar", "Vector", "Matrix"):
        return None
    width = (operand if name == "Scalar" else operand["scalar"])["width"]
    scalar = {"kind": it["kind"], "width": width if it.get("convert") is None else it["convert"]}
    return scalar_type(scalar) if name == "Scalar" else {"Value": {name: {**operand, "scalar": scalar}}}


def math_type(scope, it):
    """What a function of numbers gives."""
    function, operand = it["fun"], scope.inner(it["arg"])
    name, content = operand
    if name is None:
        return None
    if function in PACKED:
        return scalar_type(PACKED[function])
    if function in UNPACKED:
        return vector_type(*UNPACKED[function])
    if function in ("Dot", "Distance", "Length"):
        scalar = component_scalar(operand)
        return None if scalar is None else scalar_type(scalar)
    if function in ("Modf", "Frexp"):
        return special_result(scope, f"{function}Result", operand)
    if function == "Transpose":
        return matrix_type(content["rows"], content["columns"], content["scalar"]) if name == "Matrix" else None
    if function == "Determinant":
        return scalar_type(content["scalar"]) if name == "Matrix" else None
    if function == "Outer":
        other, second = scope.inner(it.get("arg1"))
        is_made = name == "Vector" and other == "Vector"
        return matrix_type(second["size"], content["size"], content["scalar"]) if is_made else None
    return scope.same(it["arg"])


def special_result(scope, wanted, operand):
    """The struct that the module tells for a function that gives two values."""
    scalar = component_scalar(operand)
    size = operand[1]["size"] if operand[0] == "Vector" else None
    special = scope.module.get("special_types") or {}
    for key, handle in special.get("predeclared_types") or []:
        name, given = named(key)
        if name == wanted and scalar is not None and (given.get("size"), given["scalar"]) == (size, scalar):
            return handle
    return None


# ---- images

def texel_scalar(form):
    if form == "R64Uint":
        return {"kind": "Uint", "width": 8}
    return U32 if form.lower().endswith("uint") else I32 if form.lower().endswith("sint") else F32


def texel_type(scope, image, gathers):
    """What is sampled, loaded or gathered."""
    name, it = scope.inner(image)
    if name != "Image":
        return None
    kind, of_kind = named(it["class"])
    if kind == "Sampled":
        return vector_type("Quad", {"kind": of_kind["kind"], "width": 4})
    if kind == "Depth" and not gathers:
        return scalar_type(F32)
    if kind == "Storage" and not gathers:
        return vector_type("Quad", texel_scalar(of_kind["format"]))
    return vector_type("Quad", F32)


def query_type(scope, it):
    if named(it["query"])[0] != "Size":
        return scalar_type(U32)
    name, image = scope.inner(it["image"])
    if name != "Image":
        return None
    size = {"D1": None, "D2": "Bi", "Cube": "Bi", "D3": "Tri"}[image["dim"]]
    return scalar_type(U32) if size is None else vector_type(size, U32)


# ---- all kinds

def of_scalar(scalar, make):
    return None if scalar is None else make(scalar)


def declared(entry):
    """The type of a declaration, if it is there."""
    return None if entry is None else entry["ty"]


def variable_type(variable):
    """A pointer, but for what lives among the handles."""
    if variable is None or named(variable["space"])[0] == "Handle":
        return declared(variable)
    return {"Value": {"Pointer": {"base": variable["ty"], "space": variable["space"]}}}


def local_type(local):
    return None if local is None else {"Value": {"Pointer": {"base": local["ty"], "space": "Function"}}}


def swizzle_type(scope, it):
    name, vector = scope.inner(it["vector"])
    return vector_type(it["size"], vector["scalar"]) if name == "Vector" else None


def cooperative_type(scope, it):
    name, pointer = scope.inner((it.get("data") or it.get("data_"))["pointer"])
    scalar = None
    if name == "Pointer":
        scalar = component_scalar(scope.inner_at(pointer["base"]))
    elif name == "ValuePointer":
        scalar = pointer["scalar"]
    made = {"columns": it["columns"], "rows": it["rows"], "role": it["role"]}
    return of_scalar(scalar, lambda own: {"Value": {"CooperativeMatrix": {**made, "scalar": own}}})


def special_type(scope, name):
    return (scope.module.get("special_types") or {}).get(name)


RULES = {
    "Literal": lambda s, it: scalar_type(dict(zip(("kind", "width"), LITERALS[named(it)[0]]))),
    "Constant": lambda s, it: declared(item(s.items("constants"), it)),
    "Override": lambda s, it: declared(item(s.items("overrides"), it)),
    "ZeroValue": lambda s, it: it,
    "Compose": lambda s, it: it["ty"],
    "AtomicResult": lambda s, it: it["ty"],
    "WorkGroupUniformLoadResult": lambda s, it: it["ty"],
    "SubgroupOperationResult": lambda s, it: it["ty"],
    "Access": lambda s, it: part_type(s, it["base"], None),
    "AccessIndex": lambda s, it: part_type(s, it["base"], it["index"]),
    "Splat": lambda s, it: of_scalar(component_scalar(s.inner(it["value"])), lambda own: vector_type(it["size"], own)),
    "Swizzle": swizzle_type,
    "FunctionArgument": lambda s, it: declared(s.of_function("arguments", it)),
    "GlobalVariable": lambda s, it: variable_type(item(s.items("global_variables"), it)),
    "LocalVariable": lambda s, it: local_type(s.of_function("local_variables", it)),
    "Load": lambda s, it: pointee_type(s, it["pointer"]),
    "CallResult": lambda s, it: declared((item(s.items("functions"), it) or {}).get("result")),
    "ImageSample": lambda s, it: texel_type(s, it["image"], it.get("gather") is not None),
    "ImageLoad": lambda s, it: texel_type(s, it["image"], False),
    "ImageQuery": query_type,
    "Unary": lambda s, it: s.same(it["expr"]),
    "Binary": binary_type,
    "Select": lambda s, it: s.same(it["accept"]),
    "Derivative": lambda s, it: s.same(it["expr"]),
    "Relational": relational_type,
    "Math": math_type,
    "As": conversion_type,
    "ArrayLength": lambda s, it: scalar_type(U32),
    "RayQueryProceedResult": lambda s, it: scalar_type(BOOL),
    "RayQueryGetIntersection": lambda s, it: special_type(s, "ray_intersection"),
    "RayQueryVertexPositions": lambda s, it: special_type(s, "ray_vertex_return"),
    "SubgroupBallotResult": lambda s, it: vector_type("Quad", U32),
    "CooperativeLoad": cooperative_type,
    "CooperativeMultiplyAdd": lambda s, it: s.same(it["c"]),
}


def expression_type(module, function, known, expression):
    """The type of an expression, by the types of those before it."""
    kind, content = named(expression)
    return told(RULES[kind](Scope(module, function, known), content))


def types_of(module, function, expressions, where):
    known = []
    for handle, expression in enumerate(expressions):
        ty = expression_type(module, function, known, expression)
        if ty is None:
            raise Untyped(f"{where}expression {handle}")
        known.append(ty)
    return known


def module_types(module):
    """The types of all expressions, as a `ModuleInfo` has them; it raises `Untyped`."""
    def of_functions(functions, where):
        return [
            types_of(module, function, function.get("expressions") or [], f"{where} {index}, ")
            for index, function in enumerate(functions)]

    own = types_of(module, None, module.get("global_expressions") or [], "global ")
    points = [point["function"] for point in module.get("entry_points") or []]
    return {
        "functions": of_functions(module.get("functions") or [], "function"),
        "entry_points": of_functions(points, "entry point"),
        "const_expression_types": own,
    }


# ---- types that are told in two ways

def plain_space(space):
    """An address space with its access as a set."""
    name, content = named(space)
    access = (content or {}).get("access", "")
    flags = frozenset(word.strip() for word in access.split("|")) if isinstance(access, str) else access
    return name, flags


def plain_inner(inner):
    """A type by itself, which is equal to itself however it is written."""
    name, content = named(inner)
    if name in ("Pointer", "ValuePointer"):
        return name, content.get("base"), content.get("size"), content.get("scalar"), plain_space(content["space"])
    return name, content


def is_told_so(one, other):
    """Whether two types are told in the same way: both by this handle, or both as this type by itself."""
    if isinstance(one, dict) and isinstance(other, dict):
        return plain_inner(one["Value"]) == plain_inner(other["Value"])
    return one == other


def is_same_type(module, one, other):
    """Whether they are one type, which may be told by its handle and by itself. A struct is told by its handle."""
    if is_told_so(one, other):
        return True
    types = module.get("types") or []

    def inner(ty):
        found = ty["Value"] if isinstance(ty, dict) else (item(types, ty) or {}).get("inner")
        return None if found is None or named(found)[0] == "Struct" else plain_inner(found)

    return inner(one) is not None and inner(one) == inner(other)


def types_in(info):
    """The types of all lists of an info, one list after another: of functions, of entry points and of the module."""
    for known in (*info.get("functions", []), *info.get("entry_points", []), info.get("const_expression_types", [])):
        yield [ty["ty"] if isinstance(ty, dict) and "ty" in ty else told(ty) for ty in known]


def follows_rules(module, info):
    """Whether each type that is told is the one that the rules give, and none is missing."""
    try:
        found = list(types_in(module_types(module)))
    except Untyped:
        return False
    given = list(types_in(info))
    return [len(types) for types in given] == [len(types) for types in found] and all(
        is_same_type(module, one, other) for types in zip(given, found) for one, other in zip(*types))


def with_info(known):
    """A module with what is known of it, which is found where nothing is told."""
    return known if "info" in known else {**known, "info": module_types(known["module"])}
