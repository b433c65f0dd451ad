"""Modules of all statements with texts that were made by hand, and texts that do something else."""

from acceptance import is_accepted
from modules import Expression, Statement, branch, emit, loop, returns, store, switch
from rows import ADD, INT, TRUTH, binary, function, literal, load, local, module_of, of_module
from reading_programs import Program
from refusals import OUT_OF_SCOPE, refusal
from runs import module_runs, text_runs
from spelling import ATOMIC, FUNCTION, LOAD, STORE, U32, pointer_to
from texts import answers_of
from words import ATOMICS, BARRIERS, COLLECTIVES, FORMATS, GATHERS, OPERATIONS

WHOLE, CELL = ("scalar", U32), ("atomic", U32)
WORKGROUP = ("workgroup", 0)
TEXELS = ("image", 1, False, ("storage", FORMATS.index("r32uint"), LOAD | STORE | ATOMIC))
# in how many worlds these modules run
MANY = 12
CONTINUE, BREAK, KILL = Statement("continue"), Statement("break"), Statement("kill")


def act(kind, what, *operands, result=None):
    return Statement(kind, what, operands, result)


def block(*body):
    return Statement("block", (), (), None, [body])


def barrier(bits, kind="ControlBarrier"):
    return Statement("barrier", [kind, bits])


def result(f, kind, ty=WHOLE):
    """What a statement gives, of a type that is told."""
    what = {"atomic result": [ty, False], "ballot result": []}.get(kind, [ty])
    return f.add(of_module(kind, ty, what))


def with_body(f, *body):
    f.body = list(body)
    return f


# ---- the rows
def switched(*cases):
    return with_body(function("s", None, ("x", INT)), switch(0, *cases))


def sibling(label=None):
    f = function("k", INT, ("c", TRUTH), ("x", INT))
    total = binary(f, ADD, 1, 1)
    f.labels = {total: label} if label else {}
    return with_body(f, branch(0, [emit(total, total), returns(total)], [emit(total, total), returns(total)]))


def tail():
    f = function("lp", None, ("x", INT))
    a = local(f, INT)
    total = binary(f, ADD, 0, 0)
    always = f.add(Expression("literal", TRUTH, [0, 1]))
    return with_body(f, loop([emit(total, total), store(a, total)], [store(a, total)], always))


def folded():
    f = function("cf", None, ("c", TRUTH))
    a, one = local(f, INT), f.add(literal(1))
    total = binary(f, ADD, one, one)
    body = [branch(0, [CONTINUE]), emit(total, total), store(a, total)]
    return with_body(f, loop(body, [store(a, total)], 0))


def skipped():
    f = function("n", None, ("c", TRUTH), ("x", INT))
    a = local(f, INT)
    total = binary(f, ADD, 1, 1)
    return with_body(f, loop([branch(0, [CONTINUE]), emit(total, total)], [store(a, total)], 0))


def given_anew(label=None):
    """What a `continue` skips is given again in `continuing`."""
    f = function("n", None, ("c", TRUTH))
    a = local(f, INT)
    held = load(f, a)
    f.labels = {held: label} if label else {}
    again = [emit(held, held), store(a, held)]
    return with_body(f, loop([branch(0, [CONTINUE]), *again], again))


def increment():
    f = function("inc", None, ("p", pointer_to(INT, FUNCTION)))
    one = f.add(literal(1))
    held = load(f, 0)
    total = binary(f, ADD, held, one)
    return with_body(f, emit(held, total), store(0, total))


def run():
    f = function("run", INT)
    a = local(f, INT)
    held = load(f, a)
    return with_body(f, act("call", [0], a), emit(held, held), returns(held))


def twice_called():
    """A function, and another that calls it with what it gave."""
    first = with_body(function("f", INT, ("x", INT)), returns(0))
    f = function("g", INT, ("y", INT))
    results = [f.add(of_module("call result", INT, [0])) for _ in range(2)]
    calls = [act("call", [0], 0, result=results[0]), act("call", [0], results[0], result=results[1])]
    return [first, with_body(f, *calls, returns(results[1]))]


def deep(depth):
    inner = block()
    for _ in range(depth - 1):
        inner = block(inner)
    return with_body(function("deep", None), inner)


def cell(kind, what, gives=None, more=1):
    """A function over a pointer to an atomic, a whole number and a truth value, whose statement asks of these."""
    f = function("f", None, ("p", pointer_to(CELL, WORKGROUP)), ("x", WHOLE), ("c", TRUTH))
    given = None if gives is None else result(f, gives)
    return with_body(f, act(kind, what, *([0] if kind != "ballot" else []), *[1] * more, result=given))


def asked(kind, what, *operands, gives=None):
    f = function("f", None, ("t", TEXELS), ("x", WHOLE), ("c", TRUTH))
    given = None if gives is None else result(f, gives)
    return with_body(f, act(kind, what, *operands, result=given))


def nested_loops():
    """Names of a loop are forgotten after it."""
    f = function("l", None, ("c", TRUTH))
    a = local(f, INT)
    held = load(f, a)
    inner = loop([emit(held, held)], [store(a, held)], 0)
    return with_body(f, loop([inner, emit(held, held)], [store(a, held)], 0), emit(held, held), store(a, held))


HEAD = "fn f(p: ptr<workgroup, atomic<u32>>, x: u32, c: bool) {{\n    {}\n}}\n\n"
TEXEL = "fn f(t: texture_storage_2d<r32uint,atomic>, x: u32, c: bool) {{\n    {}\n}}\n\n"
GIVES = "let _e3[: u32] = {};"
SIBLING = (
    "fn k(c: bool, x: i32) -> i32 {{\n    if c {{\n        let {0}[: i32] = (x + x);\n        return {0};\n"
    "    }} else {{\n        let {1}[: i32] = (x + x);\n        return {1};\n    }}\n}}\n\n")
CASES = "fn s(x: i32) {{\n    switch x {{\n{}    }}\n}}\n\n"
EMPTY = "        {}: {{\n        }}\n"
ANEW = (
    "fn n(c: bool) {{\n    var a: i32;\n\n    loop {{\n        if c {{\n            continue;\n        }}\n"
    "        let {0}[: i32] = a;\n        a = {0};\n        continuing {{\n            let {1}[: i32] = a;\n"
    "            a = {1};\n        }}\n    }}\n}}\n\n")


def one(number):
    return ("sint", number)


TEXTS = [
    ([switched((one(1), True, []), (one(2), True, []), (None, False, []))],
     CASES.format(EMPTY.format("case 1, 2, default"))),
    ([switched((None, True, []), (one(3), False, []))], CASES.format(EMPTY.format("case default, 3"))),
    ([switched((None, False, []), (one(-1), False, []))],
     CASES.format(EMPTY.format("default") + EMPTY.format("case -1"))),
    ([switched((one(1), False, [BREAK]), (one(2), True, []), (None, False, [returns()]))],
     CASES.format(
         "        case 1: {\n            break;\n        }\n"
         "        case 2, default: {\n            return;\n        }\n")),
    ([with_body(function("s", None, ("x", WHOLE)), switch(0, (("uint", 7), False, [KILL]), (None, False, [])))],
     "fn s(x: u32) {\n    switch x {\n        case 7u: {\n            discard;\n        }\n"
     "        default: {\n        }\n    }\n}\n\n"),
    ([with_body(function("b", None), barrier(15), barrier(0))],
     "fn b() {\n    storageBarrier();\n    workgroupBarrier();\n    subgroupBarrier();\n    textureBarrier();\n}\n\n"),
    *(([with_body(function("b", None), barrier(1 << bit, "MemoryBarrier"))], f"fn b() {{\n    {word}();\n}}\n\n")
      for bit, word in enumerate(BARRIERS)),
    ([sibling()], SIBLING.format("_e2", "_e2")),
    ([sibling("y")], SIBLING.format("y", "y_1")),
    ([with_body(function("l", None, ("c", TRUTH)), loop([], [], 0))],
     "fn l(c: bool) {\n    loop {\n        continuing {\n            break if c;\n        }\n    }\n}\n\n"),
    ([with_body(function("l", None), loop([BREAK]))], "fn l() {\n    loop {\n        break;\n    }\n}\n\n"),
    # an `else` and a `continuing` stand where they have a statement, also one without a line
    ([with_body(function("l", None, ("c", TRUTH)), branch(0, [], [barrier(0)]), loop([], [barrier(0)]))],
     "fn l(c: bool) {\n    if c {\n    } else {\n    }\n    loop {\n        continuing {\n        }\n    }\n}\n\n"),
    ([tail()],
     "fn lp(x: i32) {\n    var a: i32;\n\n    loop {\n        let _e2[: i32] = (x + x);\n        a = _e2;\n"
     "        continuing {\n            a = _e2;\n            break if true;\n        }\n    }\n}\n\n"),
    ([folded()],
     "fn cf(c: bool) {\n    var a: i32;\n\n    loop {\n        if c {\n            continue;\n        }\n"
     "        let _e3[: i32] = (1i + 1i);\n        a = _e3;\n        continuing {\n            a = (1i + 1i);\n"
     "            break if c;\n        }\n    }\n}\n\n"),
    ([given_anew()], ANEW.format("_e2", "_e2")),
    ([given_anew("y")], ANEW.format("y", "y_1")),
    ([nested_loops()],
     "fn l(c: bool) {\n    var a: i32;\n\n    loop {\n        loop {\n            let _e2[: i32] = a;\n"
     "            continuing {\n                a = _e2;\n                break if c;\n            }\n        }\n"
     "        let _e2[: i32] = a;\n        continuing {\n            a = _e2;\n            break if c;\n"
     "        }\n    }\n"
     "    let _e2[: i32] = a;\n    a = _e2;\n}\n\n"),
    ([increment(), run()],
     "fn inc(p: ptr<function, i32>) {\n    let _e2[: i32] = (*p);\n    (*p) = (_e2 + 1i);\n}\n\n"
     "fn run() -> i32 {\n    var a: i32;\n\n    inc((&a));\n    let _e1[: i32] = a;\n    return _e1;\n}\n\n"),
    (twice_called(),
     "fn f(x: i32) -> i32 {\n    return x;\n}\n\nfn g(y: i32) -> i32 {\n    let _e1[: i32] = f(y);\n"
     "    let _e2[: i32] = f(_e1);\n    return _e2;\n}\n\n"),
    ([deep(3)], "fn deep() {\n    {\n        {\n            {\n            }\n        }\n    }\n}\n\n"),
    *(([cell("atomic", [fun])], HEAD.format(f"atomic{word}(p, x);")) for fun, word in enumerate(ATOMICS[:8])),
    *(([cell("atomic", [fun], "atomic result")], HEAD.format(GIVES.format(f"atomic{word}(p, x)")))
      for fun, word in enumerate(ATOMICS[:8])),
    ([cell("atomic", [8], more=2)], HEAD.format("atomicCompareExchangeWeak(p, x, x);")),
    ([cell("atomic", [8], "atomic result", 2)], HEAD.format(GIVES.format("atomicCompareExchangeWeak(p, x, x)"))),
    ([cell("uniform load", [], "uniform result", 0)], HEAD.format(GIVES.format("workgroupUniformLoad(p)"))),
    ([cell("ballot", [], "ballot result", 0)], HEAD.format(GIVES.format("subgroupBallot()"))),
    ([cell("ballot", [], "ballot result", 1)], HEAD.format(GIVES.format("subgroupBallot(x)"))),
    *(([asked("image atomic", [fun, False], 0, 1, 1)], TEXEL.format(f"textureAtomic{word}(t, x, x);"))
      for fun, word in enumerate(ATOMICS[:8])),
    ([asked("image atomic", [0, True], 0, 1, 2, 1)], TEXEL.format("textureAtomicAdd(t, x, c, x);")),
    ([asked("image store", [False], 0, 1, 2)], TEXEL.format("textureStore(t, x, c);")),
    ([asked("image store", [True], 0, 1, 1, 2)], TEXEL.format("textureStore(t, x, x, c);")),
    *(([asked("gather", [mode], 1, *[2] * count, gives="subgroup result")],
       TEXEL.format(GIVES.format(f"{word}({', '.join(['x', 'c'][:count + 1])})")))
      for mode, (word, count) in enumerate(GATHERS)),
    *(([asked("collective", [0, op], 1, gives="subgroup result")], TEXEL.format(GIVES.format(f"subgroup{word}(x)")))
      for op, word in enumerate(OPERATIONS)),
    ([asked("collective", [1, 2], 1, gives="subgroup result")], TEXEL.format(GIVES.format("subgroupExclusiveAdd(x)"))),
    ([asked("collective", [2, 3], 1, gives="subgroup result")], TEXEL.format(GIVES.format("subgroupInclusiveMul(x)"))),
    ([asked("trace", [], 0, 1, 2)], TEXEL.format("traceRay(t, x, c);")),
    *(([with_body(function("f", None, ("p", pointer_to(WHOLE, FUNCTION)), ("x", WHOLE)),
                  act("cooperative store", [by_rows], 1, 0, 1))],
       f"fn f(p: ptr<function, u32>, x: u32) {{\n    {word}(x, p, x);\n}}\n\n")
      for by_rows, word in enumerate(["coopStore", "coopStoreT"]))]

REFUSED = [
    (switched((one(1), True, [returns()]), (one(2), True, []), (None, False, [])), "fall-through switch case block"),
    (switched((one(1), True, [barrier(0)]), (None, False, [])), "fall-through switch case block"),
    (skipped(), OUT_OF_SCOPE),
    (asked("ray query", [], 0), "ray query"),
    (asked("image atomic", [8, False], 0, 1, 1, 1), "image compare exchange"),
    *((asked("collective", [scan, OPERATIONS.index(op)], 1, gives="subgroup result"), "subgroup operation")
      for scan in range(1, len(COLLECTIVES)) for op in ("All", "Any", "Max", "Min", "And", "Or", "Xor"))]


# ---- scope: a value of x is given and used, each at one of these places
def placed(give, use, kind="result"):
    """A function whose statements are made of these two, with handles 2 of a value that is given and 3 of a pointer."""
    f = function("f", None, ("c", TRUTH), ("x", WHOLE))
    given = result(f, "subgroup result") if kind == "result" else f.add(Expression("binary", WHOLE, [ADD], [1, 1]))
    a = local(f, WHOLE)
    assert (given, a) == (2, 3)
    gives = act("gather", [0], 1, result=given) if kind == "result" else emit(given, given)
    return with_body(f, *give(gives, store(a, given)), *use)


# whether the use is in scope
SCOPES = [
    (lambda gives, uses: [gives, uses], True),
    (lambda gives, uses: [uses, gives], False),
    (lambda gives, uses: [block(gives, uses)], True),
    (lambda gives, uses: [block(gives), uses], False),
    (lambda gives, uses: [gives, block(block(uses))], True),
    (lambda gives, uses: [branch(0, [gives], [uses])], False),
    (lambda gives, uses: [branch(0, [gives]), uses], False),
    (lambda gives, uses: [branch(0, [gives, uses], [gives, uses]), gives, uses], True),
    (lambda gives, uses: [gives, gives], False),
    (lambda gives, uses: [gives, block(gives)], False),
    (lambda gives, uses: [switch(1, (("uint", 1), False, [gives]), (None, False, [uses]))], False),
    (lambda gives, uses: [switch(1, (("uint", 1), False, [gives, uses]), (None, False, [gives, uses]))], True),
    (lambda gives, uses: [loop([gives], [uses], 0)], True),
    (lambda gives, uses: [loop([gives, CONTINUE], [uses])], True),
    (lambda gives, uses: [loop([CONTINUE, gives], [uses])], False),
    (lambda gives, uses: [loop([branch(0, [], [block(CONTINUE)]), gives], [uses])], False),
    (lambda gives, uses: [loop([switch(1, (None, False, [CONTINUE])), gives], [uses])], False),
    (lambda gives, uses: [loop([loop([CONTINUE]), gives], [uses])], True),
    (lambda gives, uses: [loop([block(gives)], [uses])], False),
    (lambda gives, uses: [loop([gives, BREAK], []), uses], False),
    (lambda gives, uses: [loop([], [gives]), uses], False),
    (lambda gives, uses: [loop([gives], [gives])], False),
    (lambda gives, uses: [loop([CONTINUE, gives, uses], [gives, uses])], True),
    (lambda gives, uses: [gives, loop([CONTINUE, uses], [uses])], True),
    (lambda gives, uses: [loop([uses], [gives])], False)]


def check_scopes():
    for number, (give, fits) in enumerate(SCOPES):
        for kind in ("result", "operator"):
            module = module_of([placed(give, [], kind)])
            assert is_accepted(module), number
            is_written, answers = answers_of(module, True)
            assert is_written == fits and (fits or answers == {refusal(OUT_OF_SCOPE)}), (number, kind, answers)
            if is_written:
                check_runs(module, answers.pop().replace(": u32 =", " ="))


# ---- constant trees, which are in scope everywhere, and are given once in a loop's body and its `continuing`
def tree(body):
    f = function("f", None, ("c", TRUTH))
    a, one_ = local(f, INT), f.add(literal(1))
    total = binary(f, ADD, one_, one_)
    return with_body(f, *body(emit(total, total), store(a, total)))


TREES = [
    (lambda gives, uses: [uses, block(gives, uses), uses], True),
    (lambda gives, uses: [gives, block(gives)], False),
    (lambda gives, uses: [block(gives), block(gives), gives], True),
    (lambda gives, uses: [loop([CONTINUE, gives], [uses])], True),
    (lambda gives, uses: [loop([CONTINUE, gives], [gives])], False),
    (lambda gives, uses: [loop([gives], [gives])], False),
    (lambda gives, uses: [loop([block(gives)], [gives])], True),
    (lambda gives, uses: [loop([gives], []), gives], True)]


def check_trees():
    for number, (body, fits) in enumerate(TREES):
        module = module_of([tree(body)])
        is_written, answers = answers_of(module, False)
        assert is_accepted(module) and is_written == fits, (number, answers)
        if is_written:
            check_runs(module, answers.pop())


# ---- what is not accepted
def unaccepted():
    truth = ("x", TRUTH)
    yield with_body(function("f", None), BREAK)
    yield with_body(function("f", None), CONTINUE)
    yield with_body(function("f", None), loop([], [BREAK]))
    yield with_body(function("f", None), loop([], [branch(0, [CONTINUE])]))
    yield with_body(function("f", None, ("x", INT)), switch(0, (None, False, [CONTINUE])))
    yield with_body(function("f", None, ("x", INT)), branch(0, []))
    yield with_body(function("f", None, ("x", INT)), loop([], [], 0))
    yield with_body(function("f", None, truth), switch(0, (None, False, [])))
    yield switched((one(1), False, []))
    yield switched((None, False, []), (one(1), True, []))
    yield switched((None, False, []), (None, False, []))
    yield switched((one(1), False, []), (one(1), False, []), (None, False, []))
    yield switched((("uint", 1), False, []), (None, False, []))
    yield with_body(function("f", None, truth), block(block(returns(0))))
    yield with_body(function("f", None, truth), act("call", [0], 0))
    yield with_body(function("f", None, ("p", pointer_to(WHOLE, WORKGROUP))), act("atomic", [0], 0, 0))
    yield with_body(function("f", None, ("p", pointer_to(CELL, WORKGROUP))), act("cooperative store", [False], 0, 0, 0))
    yield cell("atomic", [0], "uniform result")
    yield cell("uniform load", [], "subgroup result", 0)
    yield asked("gather", [0], 1, gives="atomic result")
    yield asked("collective", [0, 0], 1, gives="ballot result")


# ---- texts that do something else than their modules, or the same in other words
def ended():
    cases = (one(1), True, []), (one(2), False, [KILL]), (None, False, [BREAK])
    return with_body(function("s", None, ("x", INT)), switch(0, *cases), barrier(1))


OTHERS = [
    ([tail()], "a = _e2;\n            break", "a = (x + 1i);\n            break", False),
    # `break if` first
    ([tail()], "            a = _e2;\n            break if true;", "            break if true;\n            a = _e2;",
     False),
    # a name that a sibling block gave
    ([sibling()], "    } else {\n        let _e2 = (x + x);\n", "    } else {\n", False),
    ([sibling()], "if c {\n        let _e2 = (x + x);\n        return _e2;", "if c {\n        return x;", False),
    # names that a `continue` skips
    ([given_anew()], "continuing {\n            let _e2 = a;\n", "continuing {\n", False),
    ([folded()], "a = (1i + 1i);", "a = _e3;", False),
    # a name of a loop after it
    ([nested_loops()], "    }\n    let _e2 = a;\n", "    }\n", False),
    ([ended()], "case 1, 2", "case 1, 3", False),
    ([ended()], "case 1, 2", "case 2, 1", True),
    ([ended()], "default: {", "case 0, default: {", True),
    ([ended()], "            break;\n", "            return;\n", False),
    ([TEXTS[5][0][0]], "    storageBarrier();\n    workgroupBarrier();\n",
     "    workgroupBarrier();\n    storageBarrier();\n", False)]


def runs_of(text):
    try:
        program = Program(text)
        return [text_runs(program, at, MANY) for at in range(len(program.bodies()))]
    except (AssertionError, IndexError, KeyError, TypeError, ValueError) as error:
        return f"no reading: {error!r}"


def meant_by(module):
    return [module_runs(module, f, MANY) for f in module.bodies()]


def check_runs(module, text):
    meant, told = meant_by(module), runs_of(text)
    assert told == meant, (text, told, meant)


def check_others():
    for functions, old, new, is_same in OTHERS:
        functions = [increment()] * (functions[0].label == "run") + functions
        module = module_of(functions)
        text, = answers_of(module, False)[1]
        assert text.count(old) == 1, (text, old)
        assert (runs_of(text.replace(old, new)) == meant_by(module)) == is_same, (text, new)


def check_statement_rows():
    for functions, text in TEXTS:
        module = module_of(functions)
        for explicit in (False, True):
            wanted = text.replace("[:", ":").replace("] =", " =") if explicit else plain(text)
            assert is_accepted(module), text
            assert answers_of(module, explicit) == (True, {wanted}), (answers_of(module, explicit), wanted)
        check_runs(module, plain(text))
    for f, name in REFUSED:
        module = module_of([f])
        assert is_accepted(module) and answers_of(module, False) == (False, {refusal(name)}), answers_of(module, False)
    for number, f in enumerate(unaccepted()):
        assert not is_accepted(module_of([f])), number
    check_scopes()
    check_trees()
    check_others()


def plain(text):
    for ty in ("i32", "u32"):
        text = text.replace(f"[: {ty}]", "")
    return text
