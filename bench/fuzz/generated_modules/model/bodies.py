"""Statements by chance, of which most use what is in scope."""

from modules import (
    LEAVES, RESULTS, Expression, Statement, Variable, emit, holds_continue, loop, returns, statements_in, store)
from spelling import (
    BOOL, FUNCTION, HANDLE, I32, U32, alike, held, pointed_at, pointer_to, is_pointer, points_to_atomic, scalar_of)
from words import ATOMICS, BINARY, COMPARING, GATHERS, OPERATIONS
from worlds import SELECTED
from writer import constants_of

TRUTH = ("scalar", BOOL)
# types of conditions and selectors
DECIDING = (TRUTH, ("scalar", I32), ("scalar", U32))
# types of which there are no zero values
OPAQUE = ("image", "sampler", "ray query", "pointer", "value pointer")


class BodyMaker:
    """Makes the body of a function; the maker of its expressions makes more of them where they are wanted."""

    def __init__(self, maker):
        self.maker, self.r, self.f, self.module, self.chance = maker, maker.r, maker.f, maker.module, maker.chance
        self.is_hostile = self.chance(0.2)
        self.deepest = self.r.choice([1, 2, 2, 3, 4, 9])
        # how many statements are still wanted
        self.left = self.r.choice([4, 8, 16, 30])
        # what was given in this block and those around it, and the constant trees among it, of which those of a loop's
        # body are known in its `continuing`
        self.given, self.trees = set(), set()
        self.constants = []
        taken = [ty for f in self.module.functions for _, ty in f.arguments]
        self.calls = 0.2 if any(is_pointer(ty) and ty[2] == FUNCTION for ty in taken) else 0.07

    # ---- scope
    def is_tree(self, h):
        if len(self.constants) != len(self.f.expressions):
            self.constants = constants_of(self.f)
        return self.constants[h]

    def is_usable(self, h):
        return self.f.expressions[h].kind in LEAVES or h in self.given or self.is_tree(h)

    def handles(self, test):
        """The handles in scope that pass a test; now and then any."""
        is_any = self.is_hostile and self.chance(0.05)
        return [h for h, e in enumerate(self.f.expressions) if test(e) and (is_any or self.is_usable(h))]

    def some(self, test=lambda e: True):
        """One of these, more often than not one of the last."""
        found = self.handles(test)
        return self.r.choice(found[-4:] if self.chance(0.6) else found) if found else None

    def some_value(self):
        is_any = self.chance(0.1)
        h = self.some(lambda e: is_any or e.type[0] not in OPAQUE)
        return self.zero(self.r.choice([("scalar", I32), TRUTH])) if h is None else h

    def of_type(self, ty):
        """A value of this type, which is made if there is none; none of what has no zero value."""
        h = self.some(lambda e: alike(e.type, ty))
        if h is None and ty in DECIDING and self.chance(0.6):
            # so that not the same is decided always
            self.module.handle_of(ty)
            self.f.arguments.append((self.maker.label("x"), ty))
            return self.f.add(Expression("argument", ty, [len(self.f.arguments) - 1]))
        if h is None and ty[0] not in OPAQUE:
            return self.zero(ty)
        return h

    def zero(self, ty):
        self.module.handle_of(ty)
        e = Expression("zero", ty, [ty])
        e.by_handle = ty[0] == "struct"
        return self.f.add(e)

    def new_local(self, ty, first=None):
        self.module.handle_of(ty)
        self.f.locals.append((self.maker.label("a"), ty, first))
        return self.f.add(Expression("local", pointer_to(ty, FUNCTION), [len(self.f.locals) - 1]))

    # ---- blocks
    def make(self):
        self.f.result = self.some_result()
        body = self.block(0, False, False)
        # what has not been given yet, and more
        while self.left > 0:
            body += self.statement(0, False, False)
        if self.chance(0.9 if self.f.result is not None else 0.3):
            body += self.make_return()
        self.f.body = body

    def some_result(self):
        if self.maker.wanted is not None:
            return self.maker.wanted
        types = [e.type for e in self.f.expressions if not is_pointer(e.type) or self.chance(0.05)]
        types = [ty for ty in types if not self.module.names_undeclared(ty) or self.chance(0.02)]
        if not types or self.chance(0.35):
            return None
        ty = self.maker.told(self.r.choice(types))
        self.module.handle_of(ty)
        return ty

    def block(self, level, breaks, continues):
        """The statements of a block, after which what they gave is left as it is."""
        body = []
        for _ in range(self.r.choice([0, 1, 1, 2, 2, 3, 5])):
            body += self.statement(level, breaks, continues)
        if level and self.chance(0.3):
            body += self.jump(breaks, continues)
        return body

    def inner(self, level, breaks, continues):
        """A block of its own: what it gave is forgotten."""
        given, trees = set(self.given), set(self.trees)
        body = self.block(level + 1, breaks, continues)
        self.given, self.trees = given, trees
        return body

    def statement(self, level, breaks, continues):
        """A statement, most often one without blocks; or none, where there is nothing to make it of."""
        self.left -= 1
        around = (level, breaks, continues)
        makers = [
            (0.4, self.make_emit), (0.14, self.make_store), (self.calls, self.make_call), (0.04, self.make_atomic),
            (0.03, self.make_texel), (0.02, self.make_uniform_load), (0.03, self.make_barrier),
            (0.05, self.make_subgroup), (0.02, self.make_other), (0.07, self.make_expressions),
            (0.01, lambda: self.jump(breaks, continues))]
        if level < self.deepest and self.left > 0:
            makers += [
                (0.04, lambda: self.make_block(*around)), (0.1, lambda: self.make_branch(*around)),
                (0.06, lambda: self.make_switch(*around)), (0.1, lambda: self.make_loop(*around))]
        return self.r.choices([maker for _, maker in makers], [share for share, _ in makers])[0]()

    def make_block(self, level, breaks, continues):
        return [Statement("block", (), (), None, [self.inner(level, breaks, continues)])]

    def make_branch(self, level, breaks, continues):
        condition = self.of_type(TRUTH)
        accept = self.inner(level, breaks, continues)
        reject = self.inner(level, breaks, continues) if self.chance(0.6) else []
        return [Statement("if", (), [condition], None, [accept, reject])]

    def make_switch(self, level, breaks, continues):
        r = self.r
        scalar = r.choice([I32, U32])
        selector = self.of_type(("scalar", scalar))
        numbers = r.sample(SELECTED[scalar[0]], r.randint(0, 4))
        labels = [(scalar[0], number) for number in numbers] + [None]
        r.shuffle(labels)
        if self.chance(0.006):
            # labels twice, none, or of the other type
            labels = r.choice([labels * 2, labels[1:], [("uint" if scalar == I32 else "sint", 1), None]])
        cases = []
        for at, label in enumerate(labels):
            falls = self.chance(0.35) and (at + 1 < len(labels) or self.chance(0.004))
            has_body = not falls or self.chance(0.01)
            cases.append((label, falls, self.inner(level + 1, True, continues) if has_body else []))
        return [Statement("switch", [case[:2] for case in cases], [selector], None, [body for _, _, body in cases])]

    def make_loop(self, level, breaks, continues):
        given, trees = set(self.given), set(self.trees)
        body, unskipped = [], None
        for _ in range(self.r.choice([0, 1, 2, 3, 4])):
            before = set(self.given)
            more = self.statement(level + 1, True, True)
            if self.chance(0.2):
                more.append(self.skip())
            body += more
            if unskipped is None and any(map(holds_continue, more)):
                unskipped = before if holds_continue(more[0]) else set(self.given)
        if self.chance(0.5):
            jump = self.jump(True, True)
            unskipped = set(self.given) if unskipped is None and any(map(holds_continue, jump)) else unskipped
            body += jump
        if unskipped is not None:
            # the names of trees are forgotten, but these are not given again
            self.given = unskipped
        continuing = self.block(level + 1, False, False) if self.chance(0.6) else []
        break_if = self.of_type(TRUTH) if self.chance(0.6) else None
        if self.chance(0.3):
            counting, break_if = self.count()
            continuing += counting
        self.given, self.trees = given, trees
        return [loop(body, continuing, break_if)]

    def count(self):
        """Statements that count the turns of a loop, and whether there were enough."""
        whole = ("scalar", I32)
        none, one, most = (self.maker.put("literal", whole, [1, number]) for number in (0, 1, self.r.randint(1, 3)))
        counter = self.new_local(whole, none)
        before = self.maker.put("load", whole, [], [counter])
        after = self.maker.put("binary", whole, [BINARY.index("+")], [before, one])
        is_enough = self.maker.put("binary", TRUTH, [BINARY.index(">=")], [after, most])
        return [emit(before, is_enough), store(counter, after)], is_enough

    def skip(self):
        """A branch that goes on with the next turn, or leaves the loop."""
        kind = "continue" if self.chance(0.8) else "break"
        accept = [Statement(kind)]
        if self.chance(0.2):
            accept = [Statement("block", (), (), None, [accept])]
        blocks = [accept, []] if self.chance(0.8) else [[], accept]
        return Statement("if", (), [self.of_type(TRUTH)], None, blocks)

    def jump(self, breaks, continues):
        what = self.r.random()
        if what < 0.4 and (breaks or self.chance(0.01)):
            return [Statement("break")]
        if what < 0.75 and (continues or self.chance(0.01)):
            return [Statement("continue")]
        if what < 0.93:
            return self.make_return() if self.chance(0.5) else []
        return [Statement("kill")] if self.chance(0.6) else []

    def make_return(self):
        if self.f.result is None:
            return [returns()] if self.chance(0.998) else [returns(self.some_value())]
        h = self.of_type(self.f.result)
        return [] if h is None else [returns(h)]

    # ---- statements without blocks
    def make_emit(self):
        """A run of handles that follow one another, of which most may be given here."""
        if self.is_hostile and self.chance(0.02):
            h = self.r.randrange(len(self.f.expressions)) if self.f.expressions else 0
            return [emit(h, h)] if self.f.expressions else []
        found = [h for h in range(len(self.f.expressions)) if self.may_emit(h)]
        if not found:
            return self.make_expressions()
        first = found[0] if self.chance(0.7) else self.r.choice(found)
        last = first
        self.give(first)
        while last + 1 < len(self.f.expressions) and self.may_emit(last + 1) and self.chance(0.75):
            last += 1
            self.give(last)
        # one of nothing, whose range is empty or turned
        more = [emit(first, self.r.randrange(-1, first))] if first and self.chance(0.01) else []
        return [emit(first, last)] + more

    def may_emit(self, h):
        e = self.f.expressions[h]
        if e.kind in (*LEAVES, *RESULTS) or h in self.given or h in self.trees:
            return False
        return all(map(self.is_usable, e.operands))

    def give(self, h):
        self.given.add(h)
        if self.is_tree(h):
            self.trees.add(h)

    def make_expressions(self):
        for _ in range(self.r.choice([1, 1, 2, 3])):
            self.maker.make_expression()
        return []

    def make_store(self):
        p = self.some(lambda e: is_pointer(e.type))
        if p is None:
            p = self.new_local(self.r.choice(self.maker.types)) if self.maker.types else None
        value = None if p is None else self.of_type(held(pointed_at(self.f.type_of(p))))
        return [] if value is None else [store(p, value)]

    def result(self, kind, ty, what):
        """A new expression for what a statement gives, and often an operator over it."""
        ty = self.maker.told(ty)
        e = Expression(kind, ty, [ty if each is None else each for each in what])
        if kind in ("atomic result", "uniform result", "subgroup result"):
            self.module.handle_of(ty)
        e.by_handle = ty in self.module.types and self.chance(0.9995 if ty[0] == "struct" else 0.7)
        h = self.f.add(e)
        self.given.add(h)
        if self.chance(0.5) and scalar_of(ty) is not None:
            self.maker.put("binary", ty, [self.r.randrange(3)], [h, h])
        elif self.chance(0.5):
            self.maker.make_expression()
        return h

    def again(self, kind):
        """Now and then a result that there is already, which is given again."""
        if not self.chance(0.1):
            return None
        found = [
            h for h, e in enumerate(self.f.expressions)
            if e.kind == kind and (h not in self.given or self.is_hostile and self.chance(0.1))]
        h = self.r.choice(found) if found else None
        self.given |= {h} if h is not None else set()
        return h

    def some_given(self):
        what = self.r.random()
        if what < 0.3:
            return ("scalar", self.r.choice([U32, I32, BOOL]))
        if what < 0.32 and self.maker.structs():
            return self.maker.some_over_struct()
        return self.r.choice(self.maker.types) if self.maker.types else ("scalar", U32)

    def make_call(self):
        if not self.module.functions:
            return self.make_store()
        number = self.r.randrange(len(self.module.functions))
        callee = self.module.functions[number]
        arguments = [self.argument(ty) for _, ty in callee.arguments]
        if self.chance(0.003):
            arguments = arguments[1:]
        if None in arguments:
            return []
        outcome = None
        if callee.result is not None and self.chance(0.85):
            outcome = self.again("call result")
            if outcome is None or self.f.expressions[outcome].what[0] != number:
                outcome = self.result("call result", callee.result, [number])
        return [Statement("call", [number], arguments, outcome)]

    def argument(self, ty):
        if ty[0] == "pointer" and ty[2] == FUNCTION and self.chance(0.6):
            return self.new_local(ty[1])
        if ty[0] == "pointer" and ty[2] not in (FUNCTION, HANDLE) and self.chance(0.7):
            return self.variable_of(ty)
        return self.of_type(ty)

    def variable_of(self, ty):
        """The name of a variable that a pointer of this type is to, which is made if there is none."""
        count = len(self.module.variables)
        known = [number for number in range(count) if alike(self.module.variable_type(number), ty)]
        if not known:
            place = self.module.handle_of(ty[1])
            self.module.variables.append(Variable(self.maker.label("g"), place, ty[2]))
            known = [count]
        return self.maker.put_named("global", self.r.choice(known))

    def make_atomic(self):
        p = self.some(lambda e: e.type[0] == "pointer" and points_to_atomic(e.type))
        if p is None or self.chance(0.1):
            p = self.new_local(("atomic", self.r.choice([U32, I32])))
        if self.chance(0.003):
            p = self.some_value()
        ty = self.f.type_of(p)
        scalar = pointed_at(ty)[1] if points_to_atomic(ty) else U32
        fun = self.r.randrange(len(ATOMICS))
        operands = [p] + [self.of_type(("scalar", scalar)) for _ in range(1 + (fun == COMPARING))]
        if self.chance(0.4):
            return [Statement("atomic", [fun], operands)]
        outcome = self.again("atomic result")
        if outcome is None:
            given = ("exchange", 0, scalar) if scalar in (I32, U32) else None
            if fun == COMPARING and given and self.maker.structs():
                ty = self.maker.exchanged(given) or ("scalar", scalar)
            else:
                ty = ("scalar", scalar) if self.chance(0.9) else self.some_given()
            outcome = self.result("atomic result", ty, [None, fun == COMPARING])
        return [Statement("atomic", [fun], operands, outcome)]

    def make_texel(self):
        image = self.some(lambda e: e.type[0] == "image")
        image = self.some_value() if image is None or self.chance(0.1) else image
        layered, is_store = self.chance(0.3), self.chance(0.5)
        operands = [image, *(self.some_value() for _ in range(2 + layered))]
        if is_store:
            return [Statement("image store", [layered], operands)]
        fun = self.r.randrange(COMPARING) if self.chance(0.97) else COMPARING
        more = [self.some_value()] if fun == COMPARING else []
        return [Statement("image atomic", [fun, layered], operands + more)]

    def make_uniform_load(self):
        p = self.some(lambda e: is_pointer(e.type))
        p = self.some_value() if p is None else p
        outcome = self.again("uniform result")
        if outcome is None:
            ty = self.f.type_of(p)
            ty = held(pointed_at(ty)) if is_pointer(ty) and self.chance(0.8) else self.some_given()
            outcome = self.result("uniform result", ty, [None])
        return [Statement("uniform load", [], [p], outcome)]

    def make_barrier(self):
        kind = self.r.choice(["ControlBarrier", "MemoryBarrier"])
        return [Statement("barrier", [kind, self.r.choice([0, 1, 2, 4, 8, 15, self.r.randrange(16)])])]

    def make_subgroup(self):
        what = self.r.random()
        if what < 0.25:
            operands = [self.of_type(TRUTH) if self.chance(0.8) else self.some_value()] if self.chance(0.6) else []
            outcome = self.again("ballot result")
            if outcome is None:
                ty = ("vector", 4, U32) if self.chance(0.7) else self.some_given()
                outcome = self.result("ballot result", ty, [])
            return [Statement("ballot", [], operands, outcome)]
        argument = self.some_value()
        ty = self.f.type_of(argument)
        outcome = self.again("subgroup result")
        if outcome is None:
            ty = ty if self.chance(0.8) else self.some_given()
            outcome = self.result("subgroup result", ty, [None])
        if what < 0.6:
            mode = self.r.randrange(len(GATHERS))
            return [Statement("gather", [mode], [argument] + [self.some_value()] * GATHERS[mode][1], outcome)]
        op = self.r.randrange(len(OPERATIONS))
        collective = self.r.randrange(3) if OPERATIONS[op] in ("Add", "Mul") or self.chance(0.03) else 0
        return [Statement("collective", [collective, op], [argument], outcome)]

    def make_other(self):
        """A store of a matrix, a ray, and now and then a step of a ray query."""
        what = self.r.random()
        if what < 0.05:
            return [Statement("ray query", [], [self.some_value()])]
        if what < 0.5:
            return [Statement("trace", [], [self.some_value() for _ in range(3)])]
        p = self.some(lambda e: is_pointer(e.type) and pointed_at(e.type)[0] in ("scalar", "vector"))
        p = self.new_local(("scalar", I32)) if p is None else p
        p = self.some_value() if self.chance(0.004) else p
        return [Statement("cooperative store", [self.chance(0.5)], [self.some_value(), p, self.some_value()])]


def spoil(r, f):
    """Another operand of a statement, or another end of an `Emit`, which may be nowhere."""
    other = r.randrange(len(f.expressions) + 1)
    s = r.choice(list(statements_in(f.body)))
    if s.kind == "emit":
        s.what = (s.what[0], other)
    elif s.result is not None and r.random() < 0.3:
        s.result = other
    elif s.operands:
        s.operands[r.randrange(len(s.operands))] = other
