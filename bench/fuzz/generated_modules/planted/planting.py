"""New expressions and statements in a function that is there, at any place in it."""

from functions import FunctionMaker
from modules import LEAVES, RESULTS, Expression, Statement, emit, store, statements_in
from refusals import unsupported, unsupported_type
from spelling import BOOL, F32, FUNCTION, I32, U32, alike, pointer_to, is_pointer

INT, TRUTH, FLOAT = ("scalar", I32), ("scalar", BOOL), ("scalar", F32)


class Planter(FunctionMaker):
    """Plants in one function. New expressions stand after all others until they are moved."""

    def __init__(self, r, module, f):
        super().__init__(r, module, [], f)
        self.new = []

    def put(self, kind, ty, what=(), operands=()):
        h = self.put_as(kind, ty, what, operands)
        self.new.append(self.f.expressions[h])
        return h

    def at(self, h):
        return self.f.expressions[h]

    # ---- expressions that are no construct
    def leaf(self, test=lambda ty: True, ty=INT):
        """What is in scope everywhere, has a form, and is of a type that passes the test; else a
        zero value."""
        known = self.handles(lambda e: e.kind in LEAVES and test(e.type))
        known = [h for h in known if not unsupported(self.f, h)]
        return self.r.choice(known) if known and self.chance(0.85) else self.put_typed("zero", ty)

    def leaf_of(self, ty):
        return self.leaf(lambda each: each == ty, ty)

    def leaves(self, count):
        return [self.leaf() for _ in range(count)]

    def local(self, ty, first=None):
        self.module.handle_of(ty)
        self.f.locals.append((self.label("a"), ty, first))
        return self.put("local", pointer_to(ty, FUNCTION), [len(self.f.locals) - 1])

    def asked(self, ty):
        """What the world is asked for, so that it is no constant, of this type."""
        return self.put("derivative", ty, [self.r.randrange(3), self.r.randrange(3)], [self.leaf()])

    def result(self, kind, ty):
        if kind == "subgroup result":
            self.module.handle_of(ty)
        return self.put(kind, ty, [ty] if kind == "subgroup result" else [])

    def unwritten(self, e):
        """Now and then the same expression again, which nothing writes."""
        if self.chance(0.3) and all(self.at(h).kind in LEAVES for h in e.operands):
            twin = Expression(e.kind, e.type, e.what, e.operands)
            twin.by_handle = e.by_handle
            self.new.append(twin)
            self.f.add(twin)

    # ---- statements
    def spots(self):
        """The places in blocks. An inner block that is empty stays so, as one that falls through
        has to."""
        inner = [block for s in statements_in(self.f.body) for block in s.blocks if block]
        return [(block, at) for block in (self.f.body, *inner) for at in range(len(block) + 1)]

    def insert(self, *statements):
        """Puts statements into a block, one after another, with others between them or not."""
        block, at = self.r.choice(self.spots())
        for s in statements:
            block.insert(at, s)
            at = at + 1 if self.chance(0.6) else self.r.randint(at + 1, len(block))

    def use(self, h, is_stored=True):
        """Statements of which the first one has the expression as an operand, once."""
        ty, users = self.f.type_of(h), [self.texel, self.gather, self.ballot]
        if is_stored and not is_pointer(ty):
            users += [self.store] * 2
        if ty == TRUTH:
            users += [self.branch] * 2
        return self.r.choice(users)(h)

    def texel(self, h):
        return [Statement("image store", [False], self.shuffled(h, 3))]

    def gather(self, h):
        result = self.result("subgroup result", ("scalar", U32))
        return [Statement("gather", [2], self.shuffled(h, 2), result)]

    def ballot(self, h):
        return [Statement("ballot", [], [h], self.result("ballot result", ("vector", 4, U32)))]

    def store(self, h):
        return [store(self.local(self.f.type_of(h)), h)]

    def branch(self, h):
        return [Statement("if", (), [h], None, [[self.barrier()], []])]

    def barrier(self):
        return Statement("barrier", ["ControlBarrier", self.r.choice([1, 2, 8])])

    def shuffled(self, h, count):
        operands = [h, *self.leaves(count - 1)]
        self.r.shuffle(operands)
        return operands

    # ---- what writes an expression
    def write(self, h, *before, is_stored=True):
        """Has an expression written, in front of which these are emitted."""
        e, top = self.at(h), h
        needs_emit = e.kind not in (*LEAVES, *RESULTS)
        if not needs_emit and self.chance(0.4) and (self.replace(h) or is_stored and self.begin(h)):
            return
        emitted = [*before, *([h] if needs_emit else [])]
        if self.chance(0.25):
            top = self.put("derivative", FLOAT, [0, 0], [h])
            emitted.append(top)
        statements = self.emits(emitted)
        if emitted and self.chance(0.3):
            self.f.labels[top] = self.label("x") or "x"
        else:
            statements += self.use(top, is_stored)
        self.insert(*statements)

    def emits(self, emitted):
        """One `Emit` of handles that follow one another, or one for each."""
        if emitted and emitted == list(range(emitted[0], emitted[-1] + 1)) and self.chance(0.5):
            return [emit(emitted[0], emitted[-1])]
        return [emit(h, h) for h in emitted]

    def begin(self, h):
        """The first value of a new local."""
        self.f.locals.append((self.label("a"), self.f.type_of(h), h))
        self.module.handle_of(self.f.type_of(h))
        return True

    def replace(self, h):
        """Stands for an operand of a statement, if one is of its type."""
        found = self.operands(lambda ty: alike(ty, self.f.type_of(h)) and not is_pointer(ty))
        if found:
            _, _, s, number = self.r.choice(found)
            s.operands[number] = h
        return bool(found)

    def wrap(self, kind, what, test=lambda ty: True):
        """An expression over an operand of a statement, in this one's place; none where no operand
        passes the test."""
        found = [each for each in self.operands(test) if each[2].kind != "loop"]
        if not found:
            return None
        block, at, s, number = self.r.choice(found)
        h = self.put(kind, self.f.type_of(s.operands[number]), what, [s.operands[number]])
        s.operands[number] = h
        block.insert(at, emit(h, h))
        return h

    def operands(self, test):
        """The operands of statements that are no pointers and pass a test."""
        blocks = [self.f.body, *(block for s in statements_in(self.f.body) for block in s.blocks)]
        found = [
            (block, at, s, number) for block in blocks for at, s in enumerate(block)
            for number in range(len(s.operands))]
        types = [self.f.type_of(s.operands[number]) for _, _, s, number in found]
        return [each for each, ty in zip(found, types) if not is_pointer(ty) and test(ty)]

    # ---- places of expressions
    def move(self):
        """Moves new expressions further in front, after their operands and out of each `Emit`."""
        expressions = self.f.expressions
        for e in self.new:
            old = next(h for h, each in enumerate(expressions) if each is e)
            ranges = [s.what for s in statements_in(self.f.body) if s.kind == "emit"]
            is_in_run = any(first <= old <= last and first < last for first, last in ranges)
            if is_in_run or self.chance(0.3):
                continue
            free = [
                h for h in range(max(e.operands, default=-1) + 1, old + 1)
                if not any(first < h <= last for first, last in ranges)]
            self.renumber(old, self.r.choice(free))

    def renumber(self, old, new):
        """The expression stands further in front now, and those between after it."""
        f = self.f
        f.expressions.insert(new, f.expressions.pop(old))

        def of(h):
            return new if h == old else h + 1 if h is not None and new <= h < old else h

        for e in f.expressions:
            e.operands = list(map(of, e.operands))
        f.labels = {of(h): label for h, label in f.labels.items()}
        f.locals = [(label, ty, of(first)) for label, ty, first in f.locals]
        for s in statements_in(f.body):
            s.operands, s.result = list(map(of, s.operands)), of(s.result)
            if s.kind == "emit" and s.what[0] <= s.what[1]:
                s.what = tuple(map(of, s.what))
