"""Compares what a module does with what its text does, in some worlds, from each function and entry point.

The module's run sees the module and what is known of it as JSON alone, the text's run the bytes alone. They share what
operators mean, and a world each, which answers alike where it is asked alike.
"""

from integer_values import NoMeaning
from integer_world import Ended, World
from module_forms import operands_in, statements_in
from module_run import run_of_module
from text_run import Program, run_of_text
from text_trees import NoReading, Reader

# in how many worlds each function runs
WORLDS = 4
# what tells that a text is no program, or that it has no run
FAULTS = (NoMeaning, NoReading, ArithmeticError, LookupError, TypeError, ValueError, RecursionError)


def outcome(world, run):
    """The events of a run, how it ends, and what it gives."""
    try:
        return world.events, "returned", run()
    except Ended as ended:
        return world.events, str(ended), None


def runs_of(module, text, worlds=WORLDS):
    """Of each function in each world its number, what the module does, and what the text does, or what is wrong with
    it."""
    program, fault = None, None
    try:
        program = Program(Reader(text), module.meaning)
        if len(program.functions) != len(module.bodies):
            fault = "another number of functions"
    except FAULTS as error:
        fault = repr(error)
    for number in range(len(module.bodies)):
        for at in range(worlds):
            types = {}
            world = World(at, types)
            meant = outcome(world, lambda: run_of_module(module, number, world))
            yield number, meant, fault or told_of(program, number, World(at, types))


def told_of(program, number, world):
    try:
        return outcome(world, lambda: run_of_text(program, number, world))
    except FAULTS as error:
        return repr(error)


def features(body):
    """What a function has of which a run is of interest."""
    statements = list(statements_in(body.function.get("body", [])))
    kinds = {kind for kind, _ in statements}
    words = {"branches": {"If"}, "switches": {"Switch"}, "loops": {"Loop"}, "jumps": {"Break", "Continue", "Kill"}}
    told = [word for word, wanted in words.items() if kinds & wanted]
    passed = [h for kind, c in statements if kind == "Call" for h in operands_in(kind, c)]
    return told + ["calls with pointers to locals"] * any(is_in_local(body, h) for h in passed)


def is_in_local(body, h):
    kind, c = body.expressions[h]
    return kind == "LocalVariable" or kind in ("Access", "AccessIndex") and is_in_local(body, c["base"])
