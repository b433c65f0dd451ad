"""A module and what is known of it, read from JSON.

It tells types, and the word and the operands that WGSL has for each expression and each statement that asks the world.
"""

import re
import sys
from pathlib import Path

from integer_values import Meaning, held, is_over

sys.path.append(str(Path(__file__).resolve().parents[1] / "ir"))
from inference import with_info  # noqa: E402
from ir import COMPONENT, STORAGE_ACCESS  # noqa: E402
from tables import (  # noqa: E402
    BINARY_SIGNS, BLOCKS, COOPERATIVE_SIZES, OPERANDS, SPACE_WORDS, UNARY_SIGNS, VECTOR_SIZES)

# these are events where they are used or have a name, and those of images anyhow
READS = ("Load", "Derivative", "CooperativeLoad")
EVENTS = (*READS, "ImageSample", "ImageLoad", "ImageQuery")
SIZES = {**VECTOR_SIZES, **COOPERATIVE_SIZES}
KINDS = {"Sint": "i", "Uint": "u", "Float": "f"}
COMPONENTS = COMPONENT.names()
SIGNS = {**BINARY_SIGNS, **UNARY_SIGNS}
ATOMICS = {"Subtract": "Sub", "ExclusiveOr": "Xor", "InclusiveOr": "Or"}
LEVELS = {"Auto": "", "Zero": "Level", "Exact": "Level", "Bias": "Bias", "Gradient": "Grad"}
AXES = {"X": "dpdx", "Y": "dpdy", "Width": "fwidth"}


def tagged(form):
    """The name of a variant, and its content."""
    return (form, None) if isinstance(form, str) else next(iter(form.items()))


def operands_in(kind, content):
    """The operands that are there."""
    found = [content] if kind == "ArrayLength" else []
    for path in OPERANDS.get(kind, "").split():
        at = content
        for word in path.split("."):
            at = at.get(word) if isinstance(at, dict) else None
        found += at if isinstance(at, list) else [] if at is None else [at]
    return found


def statements_in(block):
    for kind, c in map(tagged, block):
        yield kind, c
        blocks = [c] if kind == "Block" else [c.get(name, []) for name in BLOCKS.get(kind, ())]
        for inner in blocks + ([case["body"] for case in c["cases"]] if kind == "Switch" else []):
            yield from statements_in(inner)


def flags(form, names):
    """The flags of these names that are told, by their words or as a number."""
    told = form.split(" | ") if isinstance(form, str) else [n for bit, n in enumerate(names) if form >> bit & 1]
    return [name for name in names if name in told]


def scalar(kind, width):
    """The word of a scalar; one that has none, as a wide truth value, has a word that no text has."""
    return "bool" if (kind, width) == ("Bool", 1) else f"{KINDS.get(kind, kind)}{8 * width}"


def space_of(form):
    """A space, and the access that a pointer into it tells."""
    name, content = tagged(form)
    if name != "Storage":
        return SPACE_WORDS[name], None
    access = flags(content["access"], STORAGE_ACCESS.form.words)
    return "storage", "atomic" if "ATOMIC" in access else "read_write" if "STORE" in access else None


def member_word(label):
    """The word of a member of WGSL's own structs, without the signs in a label that no word has."""
    while label[:1].isnumeric():
        label = label[1:]
    return re.sub("[:<>,_]+", "_", label).rstrip("_")


class Module:
    """A module: its types, what its operators mean, and its functions, of which entry points are the last."""

    def __init__(self, told):
        self.json, info = told["module"], with_info(told)["info"]
        self.is_counted = told.get("counted", False)
        special = self.json.get("special_types", {})
        self.undeclared = [place for _, place in special.get("predeclared_types", [])]
        self.undeclared += [special.get(f"external_texture_{word}") for word in ("params", "transfer_function")]
        self.types, self.structs = [], 0
        for place, ty in enumerate(self.items("types")):
            self.types.append(self.inner(ty["inner"], place))
        functions = [*self.items("functions"), *(entry["function"] for entry in self.items("entry_points"))]
        known = [*info.get("functions", []), *info.get("entry_points", [])]
        own = {"expressions": self.items("global_expressions")}
        self.own = Body(self, own, info.get("const_expression_types", []))
        self.bodies = [Body(self, *each) for each in zip(functions, known)]
        self.meaning = Meaning({key: ty for body in [self.own, *self.bodies] for key, ty in body.operators()})

    def items(self, kind):
        return self.json.get(kind, [])

    def resolution(self, form):
        """The type of an expression, which is told by its handle or by itself."""
        form = form.get("ty", form) if isinstance(form, dict) else form
        if isinstance(form, int):
            return self.types[form]
        name, content = tagged(form)
        return self.types[content] if name == "Handle" else self.inner(content)

    def inner(self, form, place=None):
        kind, c = tagged(form)
        of = scalar(**c["scalar"]) if isinstance(c, dict) and "scalar" in c else None
        if kind == "Scalar":
            return scalar(**c)
        if kind == "Atomic":
            return "atomic", scalar(**c)
        if kind == "Vector":
            return "vector", SIZES[c["size"]], of
        if kind == "Matrix":
            return "matrix", SIZES[c["columns"]], SIZES[c["rows"]], of
        if kind == "CooperativeMatrix":
            return "cooperative", SIZES[c["columns"]], SIZES[c["rows"]], of, c["role"]
        if kind in ("Pointer", "ValuePointer"):
            size = c.get("size")
            base = self.types[c["base"]] if kind == "Pointer" else of if size is None else ("vector", SIZES[size], of)
            space, access = space_of(c["space"])
            return base if space == "handle" else ("pointer", space, access, base)
        if kind in ("Array", "BindingArray"):
            length, count = tagged(c["size"])
            count = ("override", count) if length == "Pending" else count
            return "array" if kind == "Array" else "binding_array", self.types[c["base"]], count
        if kind != "Struct":
            # the runs ask of an image whether it is one of depths
            return "depth" if kind == "Image" and "Depth" in c["class"] else "opaque"
        types = tuple(self.types[member["ty"]] for member in c["members"])
        if place in self.undeclared:
            return "undeclared", tuple(member_word(member.get("name") or "") for member in c["members"]), types
        self.structs += 1
        return "struct", self.structs - 1, types


class Body:
    """A function, or the module's own expressions, each with its type, word and operands."""

    def __init__(self, module, function, known):
        self.module, self.function = module, function
        known = known["expressions"] if isinstance(known, dict) else known
        self.types = list(map(module.resolution, known))
        self.expressions = list(map(tagged, function.get("expressions", [])))
        self.operands = [operands_in(*e) for e in self.expressions]
        self.words = [self.word(h, *e) for h, e in enumerate(self.expressions)]
        named = {int(h) for h in function.get("named_expressions", {})}
        used = [each.get("ref_count", 0) if isinstance(each, dict) else 0 for each in known]
        if not module.is_counted:
            statements = [operands_in(*s) for s in statements_in(function.get("body", []))]
            places = [h for operands in self.operands + statements for h in operands]
            used = [places.count(h) for h in range(len(self.expressions))]
        # what is an event only where somebody uses it, or it has a name
        self.unmade = {
            h for h, (kind, _) in enumerate(self.expressions) if kind in READS and not used[h] and h not in named}

    def operators(self):
        """Of each operator its word with the types of its operands, and the type of what it gives."""
        for h, (kind, _) in enumerate(self.expressions):
            if self.words[h] is not None and kind not in EVENTS:
                yield (self.words[h], *(self.types[k] for k in self.operands[h])), self.types[h]

    def word(self, h, kind, c):
        """The word of an operator or an event; a leaf, a result and a part at an index have none."""
        types = self.module.types
        if kind in ("ZeroValue", "Compose"):
            return "construct", types[c if kind == "ZeroValue" else c["ty"]]
        if kind == "Splat":
            return "splat", SIZES[c["size"]]
        if kind == "Swizzle":
            return "swizzle", tuple(map(COMPONENTS.index, c["pattern"][:SIZES[c["size"]]]))
        if kind in ("Unary", "Binary"):
            return SIGNS[c["op"]]
        if kind in ("Relational", "Math"):
            return "smoothstep" if c["fun"] == "SmoothStep" else c["fun"][0].lower() + c["fun"][1:]
        if kind == "As":
            return conversion(self.types[c["expr"]], c["kind"], c.get("convert"))
        if kind == "Derivative":
            return AXES[c["axis"]] + c["ctrl"].replace("None", "")
        if kind == "CooperativeLoad":
            pointer = self.types[c["data"]["pointer"]]
            base = held(pointer[3]) if is_over(pointer, "pointer") else None
            matrix = SIZES[c["columns"]], SIZES[c["rows"]], base[2] if is_over(base, "vector") else base, c["role"]
            return "coopLoadT" if c["data"].get("row_major") else "coopLoad", ("cooperative", *matrix)
        if kind == "ImageSample":
            return self.sampling(h, c)
        if kind == "ImageQuery":
            return f"texture{tagged(c['query'])[0].replace('Size', 'Dimensions')}"
        if kind.startswith("RayQuery") and kind != "RayQueryProceedResult":
            return kind, c.get("committed")
        return {"Select": "select", "ArrayLength": "arrayLength", "CooperativeMultiplyAdd": "coopMultiplyAdd",
                "Load": "load", "ImageLoad": "textureLoad"}.get(kind)

    def sampling(self, h, c):
        """The word of a sampling, whose operands get the number of what is gathered, and level zero, where a text has
        them."""
        compare, level = "" if c.get("depth_ref") is None else "Compare", tagged(c["level"])[0]
        if c.get("gather") is not None:
            if self.types[c["image"]] != "depth":
                self.operands[h].insert(0, ("abstract", COMPONENTS.index(c["gather"])))
            return f"textureGather{compare}"
        if level == "Zero" and c.get("clamp_to_edge"):
            return f"textureSample{compare}BaseClampToEdge"
        if level == "Zero" and not compare:
            at = len(self.operands[h]) - (c.get("offset") is not None)
            self.operands[h].insert(at, ("abstract float", "0.0"))
        return f"textureSample{compare}{LEVELS[level]}"


def conversion(ty, kind, width):
    """What a conversion does: the components of a matrix are converted in any case."""
    if not isinstance(ty, str) and ty[0] not in ("vector", "matrix"):
        return "conversion without a form", kind, width
    old = int(re.sub(r"\D", "", ty if isinstance(ty, str) else ty[-1]) or 8) // 8
    new = scalar(kind, width or old)
    converts = width is not None or ty[0] == "matrix"
    return "construct" if converts else "bitcast", new if isinstance(ty, str) else (*ty[:-1], new)


def act_word(kind, c):
    """The word of a statement that asks the world."""
    if kind in ("Atomic", "ImageAtomic"):
        fun, content = tagged(c["fun"])
        compares = content is not None and content.get("compare") is not None
        name = "CompareExchangeWeak" if compares else ATOMICS.get(fun, fun)
        return f"{'atomic' if kind == 'Atomic' else 'textureAtomic'}{name}"
    if kind == "SubgroupGather":
        mode, way = tagged(c["mode"])
        return f"quadSwap{way}" if mode == "QuadSwap" else mode.replace("Quad", "quad") if "Quad" in mode else (
            f"subgroup{mode}")
    if kind == "SubgroupCollectiveOperation":
        return f"subgroup{c['collective_op'].removesuffix('Scan').replace('Reduce', '')}{c['op']}"
    if kind == "CooperativeStore":
        return "coopStoreT" if c["data"].get("row_major") else "coopStore"
    return {"ImageStore": "textureStore", "WorkGroupUniformLoad": "workgroupUniformLoad",
            "SubgroupBallot": "subgroupBallot", "RayPipelineFunction": "traceRay"}[kind]
