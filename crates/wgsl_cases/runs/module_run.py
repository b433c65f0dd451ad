"""Runs a function of a module, by handles.

An `Emit` evaluates its handles in their order and keeps their values, which uses take; what no `Emit` gave is a tree of
constants, and is evaluated where it is used. A load, a derivative or the load of a cooperative matrix that nobody uses
and that has no name is not made.
"""

from integer_values import NoMeaning, exact, is_over, made, part, step_into
from integer_world import TURNS, Ended
from module_forms import EVENTS, act_word, flags, operands_in, space_of, tagged

BARRIERS = {"STORAGE": "storage", "WORK_GROUP": "workgroup", "SUB_GROUP": "subgroup", "TEXTURE": "texture"}


def run_of_module(module, number, world):
    """What a function of the module gives."""
    for at, variable in enumerate(module.items("global_variables")):
        if variable.get("init") is not None:
            world.initial["variable", at] = lambda h=variable["init"]: OwnValues(module, world).value(h)
    types = [module.types[argument["ty"]] for argument in module.bodies[number].function.get("arguments", [])]
    arguments = [world.given("argument", at, ty) for at, ty in enumerate(types)]
    return ModuleRun(module, number, arguments, world).run()


class ModuleRun:
    def __init__(self, module, number, arguments, world):
        self.module, self.body, self.world = module, module.bodies[number], world
        self.arguments, self.values = arguments, {}
        self.entry = world.enter(number, arguments)

    def run(self):
        for number, local in enumerate(self.body.function.get("local_variables", [])):
            init = local.get("init")
            self.world.first(self.local(number), None if init is None else self.value(init))
        ending = self.block(self.body.function.get("body", []))
        return ending[1] if ending else None

    def local(self, number):
        ty = self.module.types[self.body.function["local_variables"][number]["ty"]]
        return ("pointer", "function", None, ty), (("local", self.entry, number), ())

    # ---- statements; a block ends at its end, or by a word with what is returned
    def block(self, body):
        for kind, c in map(tagged, body):
            ending = self.statement(kind, c, [] if kind == "Loop" else list(map(self.value, operands_in(kind, c))))
            if ending:
                return ending
        return None

    def statement(self, kind, c, values):
        if kind == "Emit":
            for h in range(c["start"], c["end"]):
                self.emit(h)
        elif kind == "Block":
            return self.block(c)
        elif kind == "If":
            return self.block(c["accept"] if is_true(values[0]) else c.get("reject", []))
        elif kind == "Switch":
            return self.switch(values[0], c["cases"])
        elif kind == "Loop":
            return self.loop(c["body"], c.get("continuing", []), c.get("break_if"))
        elif kind in ("Break", "Continue"):
            return kind, None
        elif kind == "Return":
            return kind, values[0] if values else None
        elif kind == "Kill":
            self.world.discard()
        elif kind in ("ControlBarrier", "MemoryBarrier"):
            for flag in flags(c, list(BARRIERS)):
                self.world.ask(f"{BARRIERS[flag]}Barrier", [])
        elif kind == "Store" and not is_over(values[0][0][3], "atomic"):
            self.world.store(*values)
        elif kind == "Store":
            self.world.ask("atomicStore", values)
        else:
            self.act(kind, c, values, c.get("result"))
        return None

    def act(self, kind, c, values, h):
        if kind == "Call":
            value = ModuleRun(self.module, c["function"], values, self.world).run()
        else:
            value = self.world.ask(act_word(kind, c), values, None if h is None else self.body.types[h])
        if h is not None:
            if value is None:
                raise Ended("no result")
            self.values[h] = value

    def switch(self, selector, cases):
        labels = [tagged(case["value"]) for case in cases]
        wanted = selector[0].upper(), selector[1]
        for case in cases[labels.index(wanted if wanted in labels else ("Default", None)):]:
            ending = self.block(case["body"])
            if ending or not case.get("fall_through"):
                return None if ending and ending[0] == "Break" else ending
        return None

    def loop(self, body, continuing, break_if):
        for _ in range(TURNS):
            ending = self.block(body)
            if ending and ending[0] != "Continue":
                return ending if ending[0] == "Return" else None
            ending = self.block(continuing)
            if ending:
                return ending
            if break_if is not None and is_true(self.value(break_if)):
                return None
        raise Ended("out of turns")

    # ---- values
    def emit(self, h):
        kind, _ = self.body.expressions[h]
        if h in self.body.unmade:
            return
        if kind not in EVENTS:
            self.values.pop(h, None)
            try:
                self.values[h] = self.applied(h)
            except NoMeaning:
                pass
            return
        word, operands = self.body.words[h], list(map(self.value, self.body.operands[h]))
        if kind == "Load" and not is_over(operands[0][0][3], "atomic"):
            self.values[h] = self.world.load(operands[0])
        else:
            self.values[h] = self.world.ask("atomicLoad" if kind == "Load" else word, operands, self.body.types[h])

    def value(self, h):
        if not isinstance(h, int):
            # a number that a text has beside the operands
            return h
        if h in self.values:
            return self.values[h]
        kind, c = self.body.expressions[h]
        if kind == "Literal":
            return literal(*tagged(c))
        if kind == "FunctionArgument":
            return self.arguments[c]
        if kind == "LocalVariable":
            return self.local(c)
        if kind in ("Constant", "Override", "GlobalVariable"):
            return item(self.module, self.world, kind, c)
        if kind in EVENTS or kind.endswith("Result"):
            raise NoMeaning(f"expression {h} was not given")
        return self.applied(h)

    def applied(self, h):
        word, operands = self.body.words[h], list(map(self.value, self.body.operands[h]))
        if word is not None:
            return self.module.meaning.apply(word, operands)
        step = operands[1][1] if len(operands) == 2 else self.body.expressions[h][1]["index"]
        return (step_into if is_over(operands[0][0], "pointer") else part)(operands[0], step)


class OwnValues(ModuleRun):
    """The values of the module's own expressions."""

    def __init__(self, module, world):
        self.module, self.body, self.world, self.values = module, module.own, world, {}


def item(module, world, kind, number):
    """What an item of the module stands for."""
    if kind == "Constant":
        return OwnValues(module, world).value(module.items("constants")[number]["init"])
    if kind == "Override":
        return world.given("override", number, module.types[module.items("overrides")[number]["ty"]])
    variable = module.items("global_variables")[number]
    space, access = space_of(variable["space"])
    ty = module.types[variable["ty"]]
    if space == "handle":
        return world.given("held", number, ty)
    return ("pointer", space, access, ty), (("variable", number), ())


def literal(kind, what):
    if kind == "AbstractInt":
        return "abstract", what
    if kind.startswith("Decimal"):
        number = what.get("negative", False), what["digits"], what["exponent"]
        return kind.removeprefix("Decimal").lower(), exact(*number)
    return kind.lower(), what if isinstance(what, int) else made(kind.lower(), repr(what))[1]


def is_true(value):
    ty, what = value
    if ty != "bool":
        raise NoMeaning(f"a condition of type {ty}")
    return what
