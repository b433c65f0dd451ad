"""Rows of texts and of modules with what their runs give, where a mistake would hide one of a writer."""

from comparison import FAULTS
from integer_values import Meaning
from integer_world import Ended, World
from module_forms import Module
from module_run import run_of_module
from text_run import Program, run_of_text
from text_trees import Reader

LEAST = "i32(-2147483648)"
# what an expression gives
EXPRESSIONS = {
    "(2147483647i + 1i)": -2**31, "(0u - 1u)": 2**32 - 1, f"({LEAST} - 1i)": 2**31 - 1, f"-({LEAST})": -2**31,
    "(9223372036854775807li * 2li)": -2, "(i64(-9223372036854775807 - 1) - 1li)": 2**63 - 1,
    "(0lu - 1lu)": 2**64 - 1, "(i16(32767) + i16(1))": -2**15, "(u16(65535) * u16(65535))": 1,
    "(-7i / 2i)": -3, "(-7i % 2i)": -1, "(7i / 0i)": 7, "(7i % 0i)": 0, f"({LEAST} / -1i)": -2**31,
    f"({LEAST} % -1i)": 0,
    "(-8i >> 1u)": -4, "(4294967288u >> 1u)": 2147483644, "(1i << 33u)": 2, "(1i << 31u)": -2**31, "~(5i)": -6,
    "(3i >= 3i)": True, "(3i <= 2i)": False, "(6i ^ 3i)": 5, "(6i & 3i)": 2, "(true & false)": False, "!(true)": False,
    "u32(-1i)": 2**32 - 1, "i32(4294967295u)": -1, "bitcast<i32>(2147483648u)": -2**31, "bool(2i)": True,
    "i32(true)": 1, "select(1i, 2i, true)": 2, "(-(vec2<i32>(1i, 2i))).y": -2,
    "vec3<i32>(vec2<i32>(1i, 2i), 3i).zyx.x": 3, "(vec2<i32>(1i, 2i) + vec2(3i)).y": 5,
    "mat2x2<i32>(1i, 2i, 3i, 4i)[1].x": 3, "array<vec2<i32>, 2>()[1].x": 0,
    "min(-1i, 2i)": -1, "clamp(9i, 0i, 3i)": 3, "all(vec2<bool>(true, false))": False, "P(1i, 2i, P2(7i)).xy.xy": 7}
# what the last function of a text gives, where `x` is an argument of 5, or what is wrong with it
BODIES = {
    "let a = 1i; { let a = 2i; } return a;": 1,
    "let a = 1i; { let a = (a + 2i); return a; }": 3,
    "if true { let a = 1i; } return a;": "stands for nothing",
    "if true { let a = 1i; } else { let a = a; } return 1i;": "stands for nothing",
    "let a = 1i; let a = 2i; return a;": "declared twice",
    "let x = 1i; return x;": "declared twice",
    "loop { let a = 1i; break; } return a;": "stands for nothing",
    "loop { if false { continue; } let a = 1i; continuing { g = a; } } return 1i;": "stands for nothing",
    "var i: i32 = 0i; loop { let a = 2i; if (i < 5i) { continue; } break; continuing { i = (i + a); } } return i;": 6,
    "var i: i32 = 0i; loop { continue; continuing { i = (i + 1i); break if (i == 3i); } } return i;": 3,
    "var i: i32 = 0i; loop { switch i { case 2: { break; } default: { } } i = (i + 1i); if (i == 3i) { break; } } "
    "return i;": 3,
    "var i: i32 = 0i; loop { i = (i + 1i); switch i { case 1, 2: { continue; } default: { break; } } break; } "
    "return i;": 3,
    "loop { continuing { break if true; let a = 1i; } } return 1i;": "break if",
    "loop { } return 1i;": "out of turns",
    "switch x { case 5, default: { return 1i; } case 6: { } } return 2i;": 1,
    "switch x { case 6: { return 1i; } case default, 7: { return 3i; } } return 2i;": 3,
    "var v: vec2<i32> = vec2<i32>(1i, 2i); v.x = 7i; let w = v; v.y = 8i; return ((w.x * w.y) + v[1]);": 22,
    "var v: array<i32, 3> = array<i32, 3>(); v[x] = 4i; let p = (&v[2]); (*p) = ((*p) + 1i); return v[2];": 5,
    "var a: i32 = 1i; let b = a; a = 2i; return b;": 1,
    "var a: i32 = 1i; inc((&a)); inc((&a)); return a;": 3,
    "var a: i32 = 1i; if (false && side()) { } if (true || side()) { } return g;": 6,
    "var a: i32 = 1i; if (true && side()) { } return g;": 7,
    "var p: Q; p.inner.xy = 4i; p.y = 3i; return p.inner.xy;": 4,
    "var a: i32; let p = (&a); return p.x;": "part of a pointer",
    "let a: u32 = 1i; return 1i;": "tells",
    "return side;": "no value",
    "let a = inc; return 1i;": "no value",
    "return nothing;": "stands for nothing",
    "discard; return 1i;": "discarded"}
PROGRAM = """
struct P2 { xy: i32, }
struct P { x: i32, y: i32, xy: P2, }
struct Q { y: i32, inner: P2, }
var<private> g: i32 = 6i;
fn inc(p: ptr<function, i32>) { var b: i32 = 1i; (*p) = ((*p) + b); b = 5i; }
fn side() -> bool { g = (g + 1i); return true; }
fn f(x: i32) -> i32 { %s }
"""

INT, TRUTH, LOCAL = 0, 1, {"LocalVariable": 0}
ONE, TWO, TRUE = {"Literal": {"I32": 1}}, {"Literal": {"I32": 2}}, {"Literal": {"Bool": True}}
LOAD, SUM = {"Load": {"pointer": 0}}, {"Binary": {"op": "Add", "left": 1, "right": 2}}
GIVE, RETURN = {"Emit": {"start": 3, "end": 4}}, {"Return": {"value": 3}}


def emit(start, end):
    return {"Emit": {"start": start, "end": end}}


def store(value):
    return {"Store": {"pointer": 0, "value": value}}


def case(value, falls, *body):
    return {"value": value, "fall_through": falls, "body": list(body)}


# what a function of a local of 7, of 1, 2 and what the row tells does: its events but the first two, and its result
MODULES = {
    "a value is kept over a store": (
        [LOAD], [emit(3, 4), store(1), {"Return": {"value": 3}}], ["load", "store"], 7),
    "a load that nobody uses is not made": ([LOAD], [emit(3, 4), {"Return": {"value": 1}}], [], 1),
    "a case falls through": (
        [], [{"Switch": {"selector": 1, "cases": [
            case({"I32": 1}, True), case({"I32": 2}, True, store(2)), case("Default", False, store(1))]}},
            {"Return": {"value": 1}}], ["store", "store"], 1),
    "a break leaves a switch": (
        [], [{"Switch": {"selector": 1, "cases": [case({"I32": 1}, True, "Break"), case("Default", False, store(1))]}},
             {"Return": {"value": 2}}], [], 2),
    "a continue goes to continuing": (
        [TRUE], [{"Loop": {"body": ["Continue", store(1)], "continuing": [store(2)], "break_if": 3}},
                 {"Return": {"value": 1}}], ["store"], 1),
    "a loop evaluates what it gives again": (
        [LOAD, {"Binary": {"op": "Add", "left": 3, "right": 1}}, {"Literal": {"I32": 9}},
         {"Binary": {"op": "Greater", "left": 4, "right": 5}}],
        [{"Loop": {"body": [emit(3, 5), store(4)], "continuing": [{"Emit": {"start": 6, "end": 7}}], "break_if": 6}},
         {"Return": {"value": 4}}], ["load", "store"] * 3, 10)}


def faults():
    """What each row is told by that does not give what it has."""
    found = []
    for text, wanted in [*((f"return {e};", value) for e, value in EXPRESSIONS.items()), *BODIES.items()]:
        told = result_of_text(PROGRAM % text)
        if isinstance(wanted, str) and isinstance(told, str):
            told = wanted if wanted in told else told
        if (type(told), told) != (type(wanted), wanted):
            found.append(f"{text} gives {told}")
    for name, (expressions, body, events, wanted) in MODULES.items():
        told = run_of_row(expressions, body)
        if told != (events, wanted):
            found.append(f"{name}: {told}")
    return found


def result_of_text(text):
    world = World(0, {})
    world.given = lambda what, number, ty: (ty, 5)
    try:
        program = Program(Reader(text), Meaning({}))
        return run_of_text(program, len(program.functions) - 1, world)[1]
    except (Ended, *FAULTS) as error:
        return repr(error)


def run_of_row(expressions, body):
    expressions = [LOCAL, ONE, TWO, *expressions]
    pointer = {"Value": {"Pointer": {"base": INT, "space": "Function"}}}
    types = [pointer, *(TRUTH if "Bool" in repr(e) or "Greater" in repr(e) else INT for e in expressions[1:])]
    scalars = [{"kind": "Sint", "width": 4}, {"kind": "Bool", "width": 1}]
    module = Module({
        "module": {
            "types": [{"inner": {"Scalar": form}} for form in scalars],
            "functions": [{
                "result": {"ty": INT}, "local_variables": [{"name": "a", "ty": INT, "init": len(expressions)}],
                "expressions": [*expressions, {"Literal": {"I32": 7}}], "body": body}]},
        "info": {"functions": [[*types, INT]]}})
    world = World(0, {})
    ty, value = run_of_module(module, 0, world)
    return [event[0] for event in world.events[2:]], value
