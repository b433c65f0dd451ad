"""Why an operand that is out of scope has no value, as `docs/USING.md` has it.

An expression has a value or none at a point of a body. Of one that has none, the reason is kept: nothing gave it in
sight, a `continue` may have skipped what did, or its `Emit` did while an operand had none, for that one's reason.
"""

from modules import CONSTANTS, LEAVES, holds_continue, statements_in
from writer import constants_of, emitted_by

HERE, EMITTING, BREAK_IF = "before", "emitting", "break if"


class Arrived(Exception):
    """The walk has come to the point."""


class Reasons:
    """Why the expressions of a function have no value, by handle, where a walk through its body stands."""

    def __init__(self, f, statement, stop, emitting=None):
        self.f, self.statement, self.stop, self.emitting = f, statement, stop, emitting
        self.numbers = {id(s): number for number, s in enumerate(statements_in(f.body))}
        constants = constants_of(f)
        self.lacks = {
            h: (None, None) for h, e in enumerate(f.expressions)
            if e.kind not in (*LEAVES, *CONSTANTS) and not constants[h]}

    def of(self, h):
        """The expression that has no value by itself, the statement that needed it, and what may be skipped."""
        try:
            self.block(self.f.body)
        except Arrived:
            pass
        return self.reason(self.statement, h)

    def reason(self, number, h):
        if h not in self.lacks:
            return None
        skipped, lacking = self.lacks[h]
        return lacking or (h, number, skipped)

    def block(self, body):
        for s in body:
            self.inside(s)
            self.give(s)

    def inside(self, s):
        is_here = s is self.statement_at()
        if is_here and self.stop == HERE:
            raise Arrived
        if is_here and self.stop == EMITTING:
            for h in emitted_by(s):
                if h == self.emitting:
                    raise Arrived
                self.emit(s, h)
        for number, block in enumerate(s.blocks):
            outside = dict(self.lacks)
            if s.kind == "loop" and number == 1:
                self.turn(s.blocks[0])
            self.block(block)
            self.lacks = outside
        if is_here and self.stop == BREAK_IF:
            for block in s.blocks:
                self.turn(block)
            raise Arrived

    def statement_at(self):
        return next(s for s in statements_in(self.f.body) if self.numbers[id(s)] == self.statement)

    def turn(self, body):
        """What a block of a loop leaves to what stands after it in the loop."""
        is_skipped = False
        for s in body:
            is_skipped = is_skipped or holds_continue(s)
            if is_skipped:
                for h in given_by(s):
                    if self.lacks.get(h) == (None, None):
                        self.lacks[h] = (self.numbers[id(s)], None)
            else:
                self.give(s)

    def give(self, s):
        for h in emitted_by(s):
            self.emit(s, h)
        if s.result is not None:
            self.lacks.pop(s.result, None)

    def emit(self, s, h):
        number = self.numbers[id(s)]
        reasons = [self.reason(number, k) for k in self.f.expressions[h].operands]
        lacking = next((reason for reason in reasons if reason), None)
        if lacking is None:
            self.lacks.pop(h, None)
        else:
            self.lacks[h] = (None, lacking)


def given_by(s):
    return [*emitted_by(s), *([] if s.result is None else [s.result])]


def root_text(f, operand, statement, stop, emitting=None):
    """What is told of an operand out of scope after its position and label."""
    reasons = Reasons(f, statement, stop, emitting)
    expression, needing, skipped = reasons.of(operand)
    giving = [number for number, s in enumerate(statements_in(f.body)) if expression in given_by(s)]
    end = needing
    if stop == BREAK_IF and needing == statement:
        loop = reasons.statement_at()
        end += 1 + sum(1 for block in loop.blocks for _ in statements_in(block))
    if skipped is not None:
        giver = f"statement {skipped} gives it, where a continue may skip it"
    elif not giving:
        giver = "no statement gives it"
    elif giving[0] < end:
        giver = f"statement {giving[0]} gives it, in a block that has ended"
    else:
        giver = f"statement {giving[0]} gives it, too late"
    if (expression, needing) == (operand, statement):
        return giver
    return f"expressions[{expression}] has no value at statement {needing}; {giver}"
