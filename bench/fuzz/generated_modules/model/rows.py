"""Modules with texts that were made by hand, which the model must give before it judges others."""

from acceptance import is_accepted
from bindings import builtin, location
from modules import EntryPoint, Expression, Function, Module, Sampling, emit, returns, store
from naming import Namer, member_names
from reading_programs import Program
from refusals import UNDECLARED, refusal
from runs import module_runs, text_runs
from spelling import BOOL, F16, F32, F64, FUNCTION, I32, SCALAR_KINDS, U16, pointer_to
from texts import answers_of
from words import KEYWORDS
from words import MATH
from worlds import term

INT, TRUTH, FLOAT = ("scalar", I32), ("scalar", BOOL), ("scalar", F32)
PAIR, TRIPLE, COLOUR = ("vector", 2, F32), ("vector", 3, I32), ("vector", 4, F32)
ADD, MULTIPLY = 0, 2
MODF, FREXP = [[word for word, _ in MATH].index(word) for word in ("modf", "frexp")]

LABELS = [
    (["x", "x", "x1", "__x", "1___x"], ["x", "x_1", "x1_", "_x", "_x_1"]),
    (["a:b<c>"], ["a_b_c"]),
    (["", "___"], ["unnamed", "unnamed_1"]),
    (["é", "x²", "²y"], ["u00e9_", "x_u00b2_", "y"]),
    (["fn", "_naga_x", "traceRay"], ["fn_", "gen__naga_x", "traceRay_"]),
    (["_e5", "_e", "_e"], ["_e5_", "_e", "_e_1"]),
    (["\u0663k", "\u2167v", "v\u2167", "é9"], ["k", "v", "v_u2167_", "u00e9_9_"]),
    (["Self", "self", "self"], ["Self_", "self_", "self_1"]),
    (["x_1", "x", "x"], ["x_1_", "x", "x_1"])]

# where names keep the digits that their labels end in
LABELS_WITH_DIGITS = [
    (["pass2", "pass2", "pass2_1", "pass_2"], ["pass2", "pass2_1", "pass2_1_", "pass_2_"]),
    (["_e5", "_e05", "x_e5", "_ee5", "e5"], ["_e5_", "_e05_", "x_e5", "_ee5", "e5"]),
    (["vec2", "vec5", "é9", "x_02", "x_2y3"], ["vec2_", "vec5", "u00e9_9_", "x_02_", "x_2y3"])]

MEMBERS = [
    (["fract", "whole", "exp", "old_value", "exchanged"], ["fract", "whole", "exp", "old_value", "exchanged"]),
    (["fract", "fract", "fract_"], ["fract", "fract_1", "fract_2"]),
    (["__fract", "1exp", "old__value", "exp2"], ["_fract", "exp", "old_value", "exp2_"]),
    (["min", "fn", "self", "texture_2d", "_naga_a", None, None],
     ["min", "fn_", "self_", "texture_2d", "gen__naga_a", "member", "member_1"])]


def of_module(kind, ty, what, operands=()):
    """An expression whose type is told by its handle."""
    e = Expression(kind, ty, what, operands)
    e.by_handle = True
    return e


def function(label, result, *arguments):
    f = Function(label)
    f.result, f.arguments = result, list(arguments)
    for number, (_, ty) in enumerate(arguments):
        f.add(of_module("argument", ty, [number]))
    return f


def literal(value):
    return Expression("literal", INT, [1, value])


def local(f, ty, init=None, label="a"):
    f.locals.append((label, ty, init))
    return f.add(Expression("local", pointer_to(ty, FUNCTION), [len(f.locals) - 1]))


def load(f, pointer, ty=INT):
    return f.add(Expression("load", ty, [], [pointer]))


def binary(f, op, left, right):
    return f.add(Expression("binary", INT, [op], [left, right]))


def stored(value):
    """A local that is loaded, then stored to; the load or the other value is returned."""
    f = function("g", INT)
    f.add(literal(1))
    held = load(f, local(f, INT, 0))
    two = f.add(literal(2))
    f.body = [emit(held, held), store(1, two), returns(value)]
    return f


def late():
    f = function("p", INT)
    f.add(literal(1))
    held = load(f, local(f, INT, 0))
    total = binary(f, ADD, held, 0)
    two = f.add(literal(2))
    f.body = [emit(held, total), store(1, two), returns(total)]
    return f


def twofold():
    f = function("q", INT, ("x", INT))
    a = local(f, INT)
    total = binary(f, ADD, 0, 0)
    held = load(f, a)
    product = binary(f, MULTIPLY, total, held)
    f.body = [emit(total, total), store(a, total), emit(held, product), returns(product)]
    return f


def element(label):
    f = function("h", None)
    array = ("array", INT, 4, 4)
    arr = local(f, array, label="arr")
    p = f.add(Expression("access index", pointer_to(INT, FUNCTION), [0], [arr]))
    two = f.add(literal(2))
    f.labels = {p: label} if label else {}
    f.body = [emit(p, p), store(p, two)]
    return f


def increment():
    f = function("inc", None, ("p", pointer_to(INT, FUNCTION)))
    one = f.add(literal(1))
    held = load(f, 0)
    total = binary(f, ADD, held, one)
    f.body = [emit(held, total), store(0, total)]
    return f


def negated(is_swizzled):
    f = function("neg", TRIPLE if is_swizzled else INT, ("v", TRIPLE))
    f.add(Expression("unary", TRIPLE, [0], [0]))
    part = Expression("access index", INT, [0], [1])
    last = f.add(Expression("swizzle", TRIPLE, [3, 2, 1, 0, 0], [1]) if is_swizzled else part)
    f.body = [emit(1, last), returns(last)]
    return f


def chosen():
    f = function("sel", INT, ("c", TRUTH), ("a", INT), ("b", INT))
    last = f.add(Expression("select", INT, [], [2, 1, 0]))
    f.body = [emit(last, last), returns(last)]
    return f


def named(name, label, argument="x", is_emitted=True):
    f = function(name, INT, (argument, INT))
    total = binary(f, ADD, 0, 0)
    f.labels = {total: label, 0: label}
    f.body = [emit(total, total), returns(total)] if is_emitted else [returns(0)]
    return f


def idle():
    f = function("u", INT)
    f.add(Expression("literal", FLOAT, [5, 0]))
    f.body = [returns(f.add(literal(1)))]
    return f


def numeral(ty, number, *value):
    f = function("w", ty)
    f.body = [returns(f.add(Expression("literal", ty, [number, value])))]
    return f


def sampled(gather=None, level="zero", offset=False):
    image = ("image", 1, False, ("sampled", "float", False))
    f = function("sp", COLOUR, ("t", image), ("s", ("sampler", False)), ("p", PAIR))
    if offset:
        f.add(Expression("splat", ("vector", 2, I32), [2], [f.add(literal(1))]))
    how = Sampling(gather, level, False, False, offset, False)
    last = f.add(Expression("sample", COLOUR, [how], [0, 1, 2] + ([4] if offset else [])))
    f.body = [emit(last, last), returns(last)]
    return f


def converted(width):
    f = function("c", ("scalar", ("uint", 4)), ("x", INT))
    last = f.add(Expression("conversion", f.result, [SCALAR_KINDS.index("uint"), width], [0]))
    f.body = [emit(last, last), returns(last)]
    return f


# ---- structs that no text declares
def parts(*labels):
    return ("struct", tuple((label, FLOAT) for label in labels), 8)


PARTS, POWER = parts("fract", "whole"), ("struct", (("fract", FLOAT), ("exp", INT)), 8)


def member(f, base, index):
    struct = f.type_of(base)
    return f.add(Expression("access index", struct[1][index][1], [index], [base]))


def split(struct, index, word=MODF, label=None):
    """A function that returns a member of what `modf` or `frexp` gives."""
    f = function("m", struct[1][index][1], ("x", FLOAT))
    base = f.add(of_module("math", struct, [word], [0]))
    part = member(f, base, index)
    f.labels = {base: label} if label else {}
    f.body = [emit(base, part), returns(part)]
    return f


def both():
    f = function("b", FLOAT, ("x", FLOAT))
    base = f.add(of_module("math", PARTS, [MODF], [0]))
    total = f.add(Expression("binary", FLOAT, [ADD], [member(f, base, 0), member(f, base, 1)]))
    f.body = [emit(base, total), returns(total)]
    return f


def through_pointer(label=None):
    f = function("t", None, ("x", FLOAT))
    base = f.add(Expression("derivative", pointer_to(PARTS, FUNCTION), [0, 0], [0]))
    part = f.add(Expression("access index", pointer_to(FLOAT, FUNCTION), [1], [base]))
    f.labels = {base: label} if label else {}
    f.body = [emit(base, part), store(part, 0)]
    return f


def made(kind, ty, is_used):
    """A zero value or a composition, of which a part is returned or nothing is."""
    f = function("m", FLOAT, ("x", FLOAT))
    base = f.add(of_module(kind, ty, [ty], [] if kind == "zero" else [0, 0]))
    whole = base
    if ty[0] == "array":
        whole = f.add(of_module("access index", PARTS, [0], [base]))
    part = member(f, whole, 0)
    f.body = [emit(base + (kind == "zero"), part), returns(part if is_used else 0)]
    return f


def declared(ty, what):
    f = function("d", None, ("x", FLOAT))
    if what == "argument":
        return function("d", None, ("x", ty))
    if what == "local":
        f.locals.append(("a", ty, None))
    else:
        f.result = ty
        h = f.add(of_module("math", ty, [MODF], [0]))
        f.body = [emit(h, h), returns(h)]
    return f


OVER = [PARTS, ("array", PARTS, 2, 8), pointer_to(PARTS, FUNCTION), pointer_to(("array", PARTS, 0, 8), FUNCTION)]
ONE = "fn m(x: f32) -> {0} {{\n    return {1};\n}}\n\n"
# the text is the same where `let`s tell types
SPLIT = [
    (split(PARTS, 0), ONE.format("f32", "modf(x).fract")),
    (split(PARTS, 1), ONE.format("f32", "modf(x).whole")),
    (split(POWER, 1, FREXP), ONE.format("i32", "frexp(x).exp")),
    (split(parts("min", "9fract_"), 1), ONE.format("f32", "modf(x).fract")),
    (split(PARTS, 0, label="q"), "fn m(x: f32) -> f32 {\n    let q = modf(x);\n    return q.fract;\n}\n\n"),
    (both(), "fn b(x: f32) -> f32 {\n    let _e1 = modf(x);\n    return (_e1.fract + _e1.whole);\n}\n\n"),
    (through_pointer(), "fn t(x: f32) {\n    let _e1 = dpdx(x);\n    (*_e1).whole = x;\n}\n\n"),
    (through_pointer("whole"), "fn t(x: f32) {\n    let whole = dpdx(x);\n    (*whole).whole = x;\n}\n\n"),
    *((made(kind, ty, False), ONE.format("f32", "x")) for kind in ("zero", "compose") for ty in OVER[:2]),
    *((f, refusal(UNDECLARED)) for f in (
        split(parts("part", "whole"), 0), split(parts("fract", "fract"), 1), split(parts("exp", "exp2"), 1),
        split(parts("FRACT"), 0), split(parts(None), 0),
        *(made(kind, ty, True) for kind in ("zero", "compose") for ty in OVER[:2]),
        *(declared(ty, what) for ty in OVER for what in ("argument", "local", "result"))))]


def module_of(functions, special=()):
    """A module of these functions, and of the types that they name."""
    module = Module()
    module.functions = [f for f in functions if not isinstance(f, EntryPoint)]
    module.entry_points = functions[len(module.functions):]
    module.special = [(("modf", 0, F32), ty) for ty in special]
    for f in functions:
        f.module = module
        for ty in [*(e.type for e in f.expressions), *(ty for _, ty in f.arguments), *(ty for _, ty, _ in f.locals)]:
            module.handle_of(ty)
    return module


def check_structs():
    for labels, names in MEMBERS:
        assert member_names(labels, False) == names, labels
    assert member_names(["vec2", "x2", "x2", "x_2"], True) == ["vec2", "x2", "x2_1", "x_2_"]
    for f, told in SPLIT:
        struct = [ty for ty in module_of([f]).types if ty[0] == "struct"]
        for explicit in (False, True):
            module = module_of([f], struct)
            wanted = not told.startswith("refused"), {told}
            assert is_accepted(module) and answers_of(module, explicit) == wanted, (answers_of(module, explicit), told)
            # a text declares the struct
            is_written, answers = answers_of(module_of([f]), explicit)
            assert is_written and answers.pop().startswith("struct "), told


# what a member is bound to, and what that enables
BOUND = [
    (builtin("VertexIndex"), ""), (builtin("HitKind"), ""), (location(0, "Flat"), ""),
    (builtin("ClipDistances"), "enable clip_distances;\n\n"),
    (builtin("MeshTaskSize"), "enable wgpu_mesh_shader;\n\n"),
    (builtin("WorldToObject"), "enable wgpu_ray_tracing_pipeline;\n\n"),
    (location(0, "PerVertex"), "enable wgpu_per_vertex;\n\n"),
    (location(0, "PerVertex", None, 0), "enable dual_source_blending;\n\n"),
    (location(0, "PerVertex", None, None, True), "enable wgpu_mesh_shader;\n\n"),
    (location(0, None, None, 1, True), "enable dual_source_blending;\nenable wgpu_mesh_shader;\n\n")]


def check_enables():
    module = module_of([])
    for ty in [("vector", 2, U16), ("value pointer", 0, F16, FUNCTION), ("matrix", 2, 2, F16), INT]:
        module.handle_of(ty)
    assert answers_of(module, False) == (True, {"enable f16;\nenable wgpu_int16;\n\n"})
    for binding, text in BOUND:
        module = module_of([], [PARTS])
        module.handle_of(PARTS)
        module.bindings[PARTS, 1] = binding
        assert is_accepted(module) and answers_of(module, False) == (True, {text}), (binding, text)


SAMPLED = (
    "fn sp(t: texture_2d<f32>, s: sampler, p: vec2<f32>) -> vec4<f32> {{\n"
    "    let {0} = {1};\n    return {0};\n}}\n\n")
TEXTS = [
    ([stored(2)], "fn g() -> i32 {\n    var a: i32 = 1i;\n\n    let _e2 = a;\n    a = 2i;\n    return _e2;\n}\n\n"),
    ([stored(3)], "fn g() -> i32 {\n    var a: i32 = 1i;\n\n    a = 2i;\n    return 2i;\n}\n\n"),
    ([late()], "fn p() -> i32 {\n    var a: i32 = 1i;\n\n    let _e2 = a;\n    a = 2i;\n    return (_e2 + 1i);\n}\n\n"),
    ([twofold()], "fn q(x: i32) -> i32 {\n    var a: i32;\n\n    let _e2 = (x + x);\n    a = _e2;\n"
                  "    let _e3 = a;\n    return (_e2 * _e3);\n}\n\n"),
    ([element("p")], "fn h() {\n    var arr: array<i32, 4>;\n\n    let p = (&arr[0]);\n    (*p) = 2i;\n}\n\n"),
    ([element(None)], "fn h() {\n    var arr: array<i32, 4>;\n\n    arr[0] = 2i;\n}\n\n"),
    ([increment()], "fn inc(p: ptr<function, i32>) {\n    let _e2 = (*p);\n    (*p) = (_e2 + 1i);\n}\n\n"),
    ([negated(False)], "fn neg(v: vec3<i32>) -> i32 {\n    return (-(v)).x;\n}\n\n"),
    ([negated(True)], "fn neg(v: vec3<i32>) -> vec3<i32> {\n    return (-(v)).zyx;\n}\n\n"),
    ([chosen()], "fn sel(c: bool, a: i32, b: i32) -> i32 {\n    return select(b, a, c);\n}\n\n"),
    ([named("e", "x")], "fn e(x: i32) -> i32 {\n    let x_1 = (x + x);\n    return x_1;\n}\n\n"),
    ([named("f", "z", is_emitted=False), named("g", "z", "y")],
     "fn f(x: i32) -> i32 {\n    return x;\n}\n\nfn g(y: i32) -> i32 {\n    let z = (y + y);\n    return z;\n}\n\n"),
    ([idle()], "fn u() -> i32 {\n    return 1i;\n}\n\n"),
    ([numeral(FLOAT, 12, False, 5, -1)], "fn w() -> f32 {\n    return 0.5f;\n}\n\n"),
    ([numeral(("scalar", F16), 14, True, 12, 1)], "enable f16;\n\nfn w() -> f16 {\n    return -120h;\n}\n\n"),
    ([numeral(("scalar", F64), 13, False, 1, 16)], "fn w() -> f64 {\n    return 1e16lf;\n}\n\n"),
    ([numeral(("scalar", F64), 13, True, 15, -6)], "fn w() -> f64 {\n    return -1.5e-5lf;\n}\n\n"),
    ([sampled()], SAMPLED.format("_e3", "textureSampleLevel(t, s, p, 0.0)")),
    ([sampled(1, "auto")], SAMPLED.format("_e3", "textureGather(1, t, s, p)")),
    ([sampled(None, "auto", True)], SAMPLED.format("_e5", "textureSample(t, s, p, vec2(1i))")),
    ([converted(4)], "fn c(x: i32) -> u32 {\n    return u32(x);\n}\n\n"),
    ([converted(0)], "fn c(x: i32) -> u32 {\n    return bitcast<u32>(x);\n}\n\n")]


def check_rows():
    for keeps_digits, rows in ((False, LABELS), (True, LABELS_WITH_DIGITS)):
        for labels, names in rows:
            namer = Namer(KEYWORDS, keeps_digits)
            assert [namer.name(label) for label in labels] == names, labels
    for functions, text in TEXTS:
        module = module_of(functions)
        assert is_accepted(module) and answers_of(module, False) == (True, {text}), (answers_of(module, False), text)
    check_structs()
    check_enables()
    check_run_of_late()


def check_run_of_late():
    """What is loaded is what the world answers in front of the store."""
    f = late()
    module = module_of([f])
    answer, one = term("answer", 2), term("literal", "1i")
    place = term("local", 0, 0, "ptr<function, i32>")
    events = [
        ("entry", 0), ("first", place, one), ("load", place), ("store", place, term("literal", "2i"))]
    for runs in (module_runs(module, f), text_runs(Program(TEXTS[2][1]), 0)):
        assert all(run == (events, term("+", answer, one)) for run in runs), runs
