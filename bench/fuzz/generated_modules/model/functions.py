"""Functions by chance."""

from bindings import some_binding
from bodies import BodyMaker, spoil
from chance import some_bits, some_label, some_numeral, some_scalar, some_tile, some_type
from modules import CONSTANTS, LEAVES, RESULTS, Expression, Function, Sampling, emit, returns, store
from operators import LITERALS, NUMERALS, conversion_word, is_numeral, wanted_scalar
from refusals import unsupported_own
from spelling import (
    BOOL, F32, F64, FUNCTION, HALVES, I16, I32, I64, INTEGERS, SCALAR_KINDS, U16, U32, U64, alike, bases_of,
    count_of_parts, has_parts, held, part_of, pointed_at, pointer_to, is_pointer, scalar_of, whole_of, with_scalar)
from structs import StructMaker
from words import MATH, QUERIES, RELATIONAL

RANGES = {
    I32: (-2**31, 2**31 - 1), U32: (0, 2**32 - 1), I64: (-2**63, 2**63 - 1), U64: (0, 2**63 - 1),
    I16: (-2**15, 2**15 - 1), U16: (0, 2**16 - 1)}
COMPARISONS = range(5, 11)
LOGICAL = (14, 15)
MATH_NUMBERS = {word: number for number, (word, _) in enumerate(MATH)}
# kinds of images' types, with what is sampled with them
IMAGE_KINDS = ("image", "sampler")


class FunctionMaker:
    def __init__(self, r, module, types, f=None):
        self.r, self.module, self.types = r, module, types
        for ty in types:
            module.handle_of(ty, some_label(r) if self.chance(0.05) else None)
        self.has_hard_labels = r.random() < 0.6
        # a type that is to be returned, if any
        self.wanted = None
        self.f = f or Function(self.label("f"), module)

    # ---- labels
    def label(self, usual):
        if not self.has_hard_labels or self.r.random() < 0.4:
            return usual
        return None if self.r.random() < 0.15 else some_label(self.r)

    def give_labels(self):
        """Labels of front ends, also on what is not emitted."""
        if self.r.random() < 0.5:
            share = self.r.choice([0.05, 0.2, 0.6])
            for h in range(len(self.f.expressions)):
                if self.r.random() < share:
                    self.f.labels[h] = some_label(self.r)

    # ---- choices
    def chance(self, share):
        return self.r.random() < share

    def handles(self, test):
        return [h for h, e in enumerate(self.f.expressions) if test(e)]

    def of_type(self, ty):
        return self.handles(lambda e: alike(e.type, ty))

    def some_of(self, handles):
        return self.r.choice(handles) if handles else None

    def some_operand(self):
        """Most often a value, now and then a pointer, an image or a sampler."""
        is_any = self.chance(0.1)
        return self.some_of(self.handles(lambda e: is_any or not (is_pointer(e.type) or e.type[0] in IMAGE_KINDS)))

    def some_pointer(self):
        # the last ones are to parts, more often than not
        pointers = self.handles(lambda e: is_pointer(e.type))
        return self.some_of(pointers[-3:] if self.chance(0.5) else pointers)

    # ---- a function
    def make(self):
        r, f = self.r, self.f
        self.make_arguments()
        self.make_literals()
        for _ in range(r.choice([0, 0, 1, 2])):
            self.put_typed("zero", r.choice(self.types))
        for _ in range(r.choice([0, 1, 2, 3])):
            self.put_declared()
        if self.chance(0.3):
            self.make_constants()
        self.make_locals()
        for _ in range(r.randint(0, 14)):
            self.make_expression()
        if self.chance(0.65):
            BodyMaker(self).make()
        else:
            self.make_body()
        self.give_labels()
        if self.chance(0.04):
            self.make_fault()
        return f

    def make_arguments(self):
        f = self.f
        f.arguments = [(self.label("x"), self.r.choice(self.types)) for _ in range(self.r.randint(0, 5))]
        for number, (_, ty) in enumerate(f.arguments):
            if self.chance(0.9):
                self.put("argument", ty, [number])
            if self.chance(0.02):
                f.bindings[number] = some_binding(self.r)

    def put(self, kind, ty, what=(), operands=()):
        """Adds an expression, now and then of another type."""
        if None in operands:
            return None
        return self.put_as(kind, self.r.choice(self.types) if self.chance(0.002) else ty, what, operands)

    def put_as(self, kind, ty, what=(), operands=()):
        """Adds an expression of this type, which stands by itself or is told by its handle."""
        ty = self.told(ty)
        e = Expression(kind, ty, what, operands)
        e.by_handle = ty in self.module.types and self.chance(0.9995 if ty[0] == "struct" else 0.7)
        return self.f.add(e)

    def put_typed(self, kind, ty, operands=()):
        self.module.handle_of(ty)
        return self.put(kind, ty, [ty], operands)

    def told(self, ty):
        """A pointer to a scalar or a vector can be told in two ways. What a type is made of is put into the module."""
        if ty[0] == "pointer" and ty[1][0] in ("scalar", "vector") and ty not in self.module.types and self.chance(0.7):
            size = ty[1][1] if ty[1][0] == "vector" else 0
            return ("value pointer", size, scalar_of(ty[1]), ty[2])
        for base in [ty] if ty[0] == "struct" else bases_of(ty):
            self.module.handle_of(base)
        return ty

    def make_literals(self):
        r = self.r
        for _ in range(r.randint(0, 3)):
            number = r.randrange(5) if self.chance(0.88) else r.randrange(5, len(LITERALS))
            number = r.choice(list(NUMERALS.values())) if number > 4 and self.chance(0.6) else number
            value = some_numeral(r, LITERALS[number]) if is_numeral(number) else some_bits(r, LITERALS[number])
            if LITERALS[number] in RANGES:
                low, high = RANGES[LITERALS[number]]
                value = r.choice([low, high, 0, 1, r.randint(max(low, -9), 9)])
            self.put("literal", ("scalar", LITERALS[number]), [number, value])

    def make_locals(self):
        structs = [self.module.types[h] for h in self.module.declared_structs()]
        for _ in range(self.r.randint(0, 3)):
            ty = self.r.choice(structs if structs and self.chance(0.25) else self.types)
            init = self.some_of(self.of_type(ty)) if self.chance(0.6) else None
            self.f.locals.append((self.label("a"), ty, init))
        for local, (_, ty, _) in enumerate(self.f.locals):
            self.put("local", pointer_to(ty, FUNCTION), [local])
        self.make_pointing_locals()

    def make_pointing_locals(self):
        """Now and then a first value that is a pointer to a local, which may stand after it."""
        for at, (label, ty, _) in enumerate(self.f.locals):
            if is_pointer(ty) and self.chance(0.5):
                self.f.locals[at] = (label, ty, self.some_of(self.of_type(ty)))

    def put_declared(self):
        """A constant, an override or a variable of the module, if it has any; most often a constant with a text."""
        module = self.module
        named = [("constant", number) for number, c in enumerate(module.constants) if self.is_clean(c.init)]
        named += [("override", number) for number in range(len(module.overrides))]
        named += [("global", number) for number in range(len(module.variables))] * 2
        if named:
            self.put_named(*self.r.choice(named))

    def is_clean(self, init):
        """Whether one of the module's own expressions can be written, or now and then whether or not."""
        is_there = init < len(self.module.own.expressions)
        return self.chance(0.03) or is_there and not unsupported_own(self.module, init)

    def put_named(self, kind, number):
        items = {"constant": self.module.constants, "override": self.module.overrides}
        is_variable = kind == "global"
        ty = self.module.variable_type(number) if is_variable else self.module.type_at(items[kind][number])
        return self.put(kind, ty, [number])

    def make_constants(self):
        """Trees over literals and constants, some of which apply an operator, as an offset may not."""
        for _ in range(self.r.randint(1, 4)):
            leaves = self.handles(
                lambda e: e.kind in ("literal", "constant", "override", "compose", "splat") and e.type[0] == "scalar")
            x = self.some_of(leaves)
            if x is None:
                self.put("literal", ("scalar", I32), [1, self.r.randint(-8, 7)])
                continue
            ty, what = self.f.type_of(x), self.r.random()
            if what < 0.4:
                self.compose(x)
            elif what < 0.75:
                self.put("splat", ("vector", 2, ty[1]), [2], [x])
            else:
                self.put("unary", ty, [0], [x])

    # ---- expressions
    def make_expression(self):
        makers = [
            (0.2, self.make_part), (0.13, self.make_load), (0.2, self.make_binary), (0.07, self.make_unary),
            (0.05, self.make_select), (0.07, self.make_math), (0.02, self.make_relational), (0.02, self.make_splat),
            (0.03, self.make_composed), (0.03, self.make_swizzle), (0.04, self.make_conversion),
            (0.02, self.make_derivative), (0.06, self.make_sampling), (0.03, self.make_image_load),
            (0.03, self.make_query), (0.03, self.make_length), (0.01, self.make_sum_of_products),
            (0.02, self.make_cooperative_load), (0.003, self.make_found)]
        if self.structs():
            makers.append((0.25, self.make_split))
        if self.module.variables:
            makers.append((0.12, self.make_use_of_variable))
        if self.module.declared_structs():
            makers.append((0.12, self.make_declared_member))
        weights = [share for share, _ in makers]
        self.r.choices(makers, weights)[0][1]()

    def make_load(self):
        p = self.some_pointer() if self.chance(0.998) else self.some_operand()
        if p is not None:
            ty = self.f.type_of(p)
            self.put("load", held(pointed_at(ty)) if is_pointer(ty) else ty, [], [p])

    def make_unary(self):
        x = self.some_operand()
        if x is not None:
            self.put("unary", self.f.type_of(x), [self.r.randrange(3)], [x])

    def make_binary(self):
        x = self.some_operand()
        if x is None:
            return
        ty, op = self.f.type_of(x), self.r.randrange(18)
        y = self.some_of(self.of_type(ty)) if self.chance(0.97) else self.some_operand()
        if op in COMPARISONS or op in LOGICAL:
            ty = ("scalar", BOOL) if scalar_of(ty) is None else with_scalar(ty, BOOL)
        # now and then a type that no operator of this word has
        self.put("binary", some_type(self.r) if self.chance(0.003) else ty, [op], [x, y])

    def make_select(self):
        x = self.some_pointer() if self.chance(0.2) else self.some_operand()
        if x is not None:
            condition = self.some_of(self.of_type(("scalar", BOOL)) or [self.some_operand()])
            ty = self.f.type_of(x)
            self.put("select", ty, [], [self.some_of(self.of_type(ty)), x, condition])

    def make_math(self):
        x = self.some_operand()
        if x is None:
            return
        fun = self.r.randrange(7 if self.chance(0.85) else 11 if self.chance(0.5) else len(MATH))
        ty = self.f.type_of(x)
        given = ("scalar", scalar_of(ty)) if MATH[fun][0] == "dot" and scalar_of(ty) else ty
        others = [self.some_of(self.of_type(ty)) for _ in range(MATH[fun][1] - 1)]
        self.put("math", given, [fun], [x, *others])

    def make_relational(self):
        x = self.some_operand()
        fun = self.r.randrange(len(RELATIONAL)) if self.chance(0.2) else self.r.randrange(2)
        self.put("relational", ("scalar", BOOL), [fun], [x])

    def make_splat(self):
        x = self.some_of(self.handles(lambda e: e.type[0] == "scalar"))
        x = self.some_operand() if self.chance(0.01) else x
        if x is not None:
            size, ty = self.r.randint(2, 4), self.f.type_of(x)
            self.put("splat", ("vector", size, scalar_of(ty) or I32), [size], [x])

    def make_composed(self):
        x = self.some_operand()
        if x is not None:
            self.compose(x)

    def compose_struct(self):
        """A value of a struct that a text declares, most often of values of its members' types."""
        ty = self.module.types[self.r.choice(self.module.declared_structs())]
        parts = [self.some_of(self.of_type(member)) for _, member in ty[1]]
        if None in parts or self.chance(0.05):
            parts = [h for h in parts if h is not None]
        self.put_typed("compose", ty, parts)

    def compose(self, x):
        """A vector of scalars, a matrix of vectors, or a value of any type, of any parts."""
        if self.chance(0.3) and self.module.declared_structs():
            return self.compose_struct()
        ty = self.f.type_of(x)
        like = self.of_type(ty)
        count = self.r.randint(2, 4)
        parts = [x] + [self.r.choice(like) for _ in range(count - 1)]
        if ty[0] == "scalar" and self.chance(0.8):
            ty = ("vector", count, ty[1])
        elif ty[0] == "vector" and ty[2] in (F32, F64) and self.chance(0.8):
            ty = ("matrix", count, *ty[1:])
        else:
            ty = self.r.choice(self.types)
            parts = parts[:self.r.choice([0, 1, 1, 2, count])]
        self.module.handle_of(ty)
        self.put_typed("compose", ty, parts)

    def make_swizzle(self):
        x = self.some_of(self.handles(lambda e: e.type[0] == "vector"))
        if x is None:
            return
        ty, size = self.f.type_of(x), self.r.randint(2, 4)
        count = ty[1] if self.chance(0.99) else 4
        letters = [self.r.randrange(count) for _ in range(size)] + [self.r.randrange(4) for _ in range(4 - size)]
        self.put("swizzle", ("vector", size, ty[2]), [size, *letters], [x])

    def make_conversion(self):
        """To a scalar that has a word or none, with bits kept or not, now and then of what is no number."""
        x = self.some_operand() if self.chance(0.95) else self.some_pointer()
        if x is None:
            return
        kind, width = some_scalar(self.r)
        if self.chance(0.1):
            kind, width = self.r.choice([*HALVES, ("float", 3), ("sint", 3), ("abstract", 8), ("bool", 4)])
        what = (SCALAR_KINDS.index(kind), 0 if self.chance(0.4) else width)
        ty = self.f.type_of(x)
        if conversion_word(ty, what) and (wanted_scalar(ty, what) not in HALVES or self.chance(0.5)):
            ty = with_scalar(ty, wanted_scalar(ty, what))
        # what is known of the type of a conversion is asked by no clause but that operators agree
        self.put("conversion", some_type(self.r) if self.chance(0.004) else ty, what, [x])

    def make_derivative(self):
        x = self.some_operand()
        if x is not None:
            ty = some_type(self.r) if self.chance(0.1) else self.f.type_of(x)
            self.put("derivative", ty, [self.r.randrange(3), self.r.randrange(3)], [x])

    # ---- structs
    def structs(self):
        """Those that are given for something, the first ones first."""
        return [ty for _, ty in self.module.special if ty is not None and ty[0] == "struct"]

    def exchanged(self, giver):
        """The struct that is given for what an exchange gives, which is made if there is none."""
        return StructMaker(self.r, self.module).given_for(giver)

    def make_split(self):
        """What `modf` or `frexp` gives, or another value of a struct or over one; and some of its members."""
        floats = self.handles(lambda e: e.type[0] in ("scalar", "vector") and scalar_of(e.type) == F32)
        x = self.some_of(floats) if floats and self.chance(0.97) else self.some_operand()
        if x is None:
            return
        ty, what = self.f.type_of(x), self.r.random()
        if what < 0.8:
            size = ty[1] if ty[0] == "vector" else 0
            word = self.r.choice(["modf", "frexp"])
            struct = StructMaker(self.r, self.module).given_for((word, size, scalar_of(ty) or F32))
            # now and then of another type
            struct = self.r.choice(self.structs()) if self.chance(0.003) or struct is None else struct
            self.put("math", struct, [MATH_NUMBERS[word]], [x])
        elif what < 0.9:
            self.make_struct_pointer(x)
        elif what < 0.96:
            self.put("derivative", self.some_over_struct(), [0, 0], [x])
        elif what < 0.98:
            self.make_struct_value(x)
        for _ in range(self.r.choice([0, 1, 1, 2, 3])):
            self.make_member()

    def some_over_struct(self):
        return StructMaker(self.r, self.module).some_over(self.r.choice(self.structs()))

    def make_struct_pointer(self, x):
        """A pointer to a struct, or an array of one, that is no local and no argument. `abs` has two operands here, so
        that all its uses agree."""
        struct = self.structs()[0]
        if self.chance(0.4):
            self.put("math", pointer_to(struct, FUNCTION), [MATH_NUMBERS["abs"]], [x, x])
        else:
            over = self.some_over_struct()
            self.put("derivative", over if is_pointer(over) else pointer_to(over, FUNCTION), [1, 0], [x])

    def make_struct_value(self, x):
        """A zero value or a composition of a struct or of what is over one, which a text can't have."""
        ty = self.some_over_struct()
        self.module.handle_of(ty)
        if self.chance(0.5):
            self.put_typed("zero", ty)
        else:
            self.put_typed("compose", ty, [x] * self.r.choice([0, 1, 2]))

    def make_member(self):
        """A member, most often of one of the newest structs, or an element of an array of these."""
        bases = self.handles(
            lambda e: "struct" in (whole_of(e.type)[0], *(base[0] for base in bases_of(whole_of(e.type)))))
        if bases:
            self.make_part_of(self.some_of(bases[-3:]))

    # ---- what is declared
    def make_use_of_variable(self):
        """A part of a variable of the module, or of a part of it, and what is loaded there."""
        variables = self.handles(lambda e: e.kind == "global")
        h = self.some_of(variables) if self.chance(0.6) else None
        if h is None:
            h = self.put_named("global", self.r.randrange(len(self.module.variables)))
        for _ in range(3):
            if has_parts(self.f.type_of(h)) and self.chance(0.7):
                h = self.make_part_of(h) or h
        if is_pointer(self.f.type_of(h)) and self.chance(0.6):
            self.put("load", held(pointed_at(self.f.type_of(h))), [], [h])

    def make_declared_member(self):
        """A member of a struct that a text declares, or of one that is pointed at, most often what it holds."""
        structs = [self.module.types[h] for h in self.module.declared_structs() if self.module.types[h][1]]
        bases = self.handles(lambda e: whole_of(e.type) in structs)
        h = self.some_of([h for h in bases if is_pointer(self.f.type_of(h)) or self.chance(0.4)])
        if h is None and structs:
            h = self.put_typed("zero", self.r.choice(structs))
        if h is not None:
            h = self.make_part_of(h)
        if h is not None and is_pointer(self.f.type_of(h)) and self.chance(0.6):
            self.put("load", held(pointed_at(self.f.type_of(h))), [], [h])

    # ---- parts
    def make_part(self):
        """A part at a computed or a known index; now and then of what has none, or where none is."""
        bases = self.handles(lambda e: has_parts(e.type) or self.chance(0.001))
        if not bases:
            return
        signed = [h for h in bases if self.f.expressions[h].kind == "unary"]
        base = self.some_of(signed if signed and self.chance(0.5) else bases)
        # now and then of the newest, which is often a part itself
        self.make_part_of(bases[-1] if self.chance(0.3) else base)

    def make_part_of(self, base):
        of = self.f.type_of(base)
        if has_parts(of) and count_of_parts(of) == 0 and not self.chance(0.01):
            return None
        indexes = self.handles(lambda e: e.type in INTEGERS or self.chance(0.0005))
        # no member has a computed index
        is_computed = indexes and self.chance(0.4 if whole_of(of)[0] != "struct" else 0.001)
        if not has_parts(of):
            return self.put("access index", of, [self.r.randrange(3)], [base])
        if is_computed:
            return self.put("access", part_of(of) or of, [], [base, self.r.choice(indexes)])
        index = self.some_index(count_of_parts(of))
        return self.put("access index", part_of(of, index) or of, [index], [base])

    def some_index(self, count):
        if count is None:
            return self.r.choice([0, 1, 9, 2**32 - 1])
        if count == 0:
            return 0
        if self.chance(0.002):
            return count + self.r.choice([0, 1, 9])
        return min(self.r.choice([0, 1, self.r.randrange(count)]), count - 1)

    # ---- images
    def of_kind(self, *kinds):
        """Most often one of these kinds, else any."""
        known = self.handles(lambda e: e.type[0] in kinds)
        return self.some_of(known) if known and self.chance(0.9) else self.some_operand()

    def make_sampling(self):
        r = self.r
        gather = r.randrange(4) if self.chance(0.3) else None
        has_form = self.chance(0.85)
        level = r.choice(["auto", "zero"] if gather is not None and has_form else Sampling.LEVELS)
        depth, clamp = self.chance(0.3), self.chance(0.25)
        if has_form:
            clamp = clamp and level == "zero" and gather is None
            depth = depth and not clamp
        offset = self.some_offset() if self.chance(0.45) else None
        how = Sampling(gather, level, self.chance(0.3), depth, offset is not None, clamp)
        levels = {"exact": 1, "bias": 1, "gradient": 2}.get(level, 0)
        operands = [self.of_kind("image"), self.of_kind("sampler")]
        operands += [self.some_operand() for _ in range(1 + how.layer + how.depth + levels)]
        self.put("sample", self.some_given(), [how], operands + ([offset] if how.offset else []))

    def some_offset(self):
        constants = self.handles(lambda e: e.kind in CONSTANTS)
        for h, e in enumerate(self.f.expressions):
            if e.kind in ("compose", "splat", "unary") and all(k in constants for k in e.operands):
                constants.append(h)
        return self.some_of(constants) if constants and self.chance(0.9) else self.some_operand()

    def some_given(self):
        return ("vector", 4, F32) if self.chance(0.5) else self.r.choice(self.types)

    def make_image_load(self):
        layer, sample, level = self.chance(0.3), self.chance(0.3), self.chance(0.3)
        sample = sample and (not level or self.chance(0.3))
        operands = [self.of_kind("image")] + [self.some_operand() for _ in range(1 + layer + sample + level)]
        self.put("image load", self.some_given(), [layer, sample, level], operands)

    def make_query(self):
        query = self.r.randrange(len(QUERIES))
        has_level = query == 0 and self.chance(0.5)
        operands = [self.of_kind("image")] + ([self.some_operand()] if has_level else [])
        self.put("image query", self.some_given(), [query, has_level], operands)

    def make_length(self):
        arrays = self.handles(lambda e: is_pointer(e.type) and pointed_at(e.type)[0] == "array")
        x = self.some_of(arrays) if arrays and self.chance(0.9) else self.some_operand()
        self.put("array length", ("scalar", U32), [], [x])

    def make_sum_of_products(self):
        x = self.some_operand()
        if x is not None:
            self.put("multiply add", self.f.type_of(x), [], [self.some_operand(), self.some_operand(), x])

    def make_cooperative_load(self):
        pointers = self.handles(
            lambda e: is_pointer(e.type) and pointed_at(e.type)[0] in ("scalar", "vector") or self.chance(0.0005))
        if pointers:
            what = [*some_tile(self.r), self.r.choice("ABC"), self.chance(0.5)]
            p = self.some_of(pointers)
            of = self.f.type_of(p)
            scalar = scalar_of(pointed_at(of)) if is_pointer(of) else None
            ty = ("cooperative", *what[:2], scalar or F32, what[2])
            self.put("cooperative load", ty if self.chance(0.9) else some_type(self.r), what, [p, self.some_operand()])

    def make_found(self):
        """What a ray query found."""
        kind = self.r.choice(["intersection", "vertex positions", "proceed result"])
        what, operands = ([], []) if kind == "proceed result" else ([self.chance(0.5)], [self.some_operand()])
        self.put(kind, self.r.choice(self.types), what, operands)

    # ---- statements
    def make_body(self):
        r, f = self.r, self.f
        emitted = self.handles(lambda e: e.kind not in (*LEAVES, *RESULTS) or self.chance(0.001))
        at = 0
        while at < len(emitted):
            # a run of handles that follow one another
            end = at + 1
            while end < len(emitted) and emitted[end] == emitted[end - 1] + 1 and self.chance(0.7):
                end += 1
            if self.chance(0.95):
                f.body.append(emit(emitted[at], emitted[end - 1]))
            if self.chance(0.01) and emitted[at] > 0:
                # an `Emit` of nothing, whose range is empty or turned
                f.body.append(emit(emitted[at], r.randrange(-1, emitted[at])))
            at = end
            if self.chance(0.5):
                self.make_store(emitted[end - 1])
        if not emitted or self.chance(0.1):
            self.make_store(len(f.expressions))
        if self.chance(0.02) and emitted:
            h = r.choice(emitted)
            f.body.append(emit(h, h))
        self.make_return()

    def make_store(self, last):
        """A store of what stands no further than this, or almost so."""
        given = [h for h in range(len(self.f.expressions)) if h <= last or self.chance(0.02)]
        pointers = [h for h in given if is_pointer(self.f.type_of(h))]
        p = self.some_of(pointers[-3:] if self.chance(0.5) else pointers)
        if p is None:
            return
        wanted = held(pointed_at(self.f.type_of(p)))
        values = [h for h in given if alike(self.f.type_of(h), wanted) or self.chance(0.0005)]
        if values:
            self.f.body.append(store(p, self.r.choice(values)))

    def make_return(self):
        f = self.f
        values = self.handles(
            lambda e: self.chance(0.05) if self.module.names_undeclared(e.type)
            else not is_pointer(e.type) or self.chance(0.2))
        values = self.of_type(self.wanted) if self.wanted is not None else values
        if values and self.chance(0.9):
            h = self.r.choice(values[-4:])
            f.result = self.told(f.type_of(h))
            self.module.handle_of(f.result)
            f.body.append(returns(h))
            if self.chance(0.02):
                # what stands after a return is written all the same
                self.make_store(len(f.expressions))
        elif self.chance(0.3):
            f.body.append(returns())
        if self.chance(0.002):
            f.body.append(returns(self.some_of(values)))

    def make_fault(self):
        """Another operand of an expression or a statement, which may stand after it, or nowhere."""
        f = self.f
        with_operands = self.handles(lambda e: e.operands)
        other = self.r.randrange(len(f.expressions) + 1)
        if with_operands and self.chance(0.7):
            e = f.expressions[self.r.choice(with_operands)]
            e.operands[self.r.randrange(len(e.operands))] = other
        elif f.body:
            spoil(self.r, f)
