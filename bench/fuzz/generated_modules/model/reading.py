"""Reads the text of a function: its head, its lines by their levels, and the expressions in them.

An expression is a tuple: `literal TEXT`, `name X`, `address E` and `target E` for `&` and `*`, `part WORD E [INDEX]`,
`call WORD E..` for what is called, and `apply WORD E..` for an operator between or before its operands.
"""

import re

from operators import LEAST, LEVEL_ZERO, WHOLE_LEVEL_ZERO
from words import ASKING, KEYWORDS


class TextFunction:
    """A function of a text: its name, its arguments with their attributes, names and types, the attributes and the type
    of its result, its locals with their types and first values, and its statements."""

    def __init__(self, lines):
        head, *lines = lines
        assert head.startswith("fn ") and head.endswith(" {"), head
        self.name, rest = head.removeprefix("fn ").removesuffix(" {").split("(", 1)
        identifier(self.name)
        self.arguments, rest = read_parameters(rest)
        self.result = None
        if rest:
            attributes, rest = read_attributes(rest.removeprefix(" -> "))
            self.result = attributes, read_whole_type(rest)
        self.locals = []
        # what stands after the locals is parted from them by an empty line
        while lines and lines[0].startswith("    var "):
            self.locals.append(declared(lines.pop(0).removeprefix("    var ")))
        if self.locals:
            assert lines.pop(0) == "", head
        assert lines.pop() == "}", head
        self.body = Lines(lines).block(1)


def asks(word):
    """Whether the call of a word asks the world."""
    return word.split("<")[0] in ASKING


def declared(text):
    """What is declared: its name, its type, and its value if it has one."""
    assert text.endswith(";"), text
    name, rest = text[:-1].split(": ", 1)
    ty = type_at(rest)
    value = rest[len(ty):]
    assert value == "" or value.startswith(" = "), text
    return identifier(name), ty, expression(value[3:]) if value else None


def read_parameters(s):
    """The parameters in front of a closing bracket, and what stands after it."""
    parameters = []
    while not s.startswith(")"):
        attributes, s = read_attributes(s)
        name, s = s.split(": ", 1)
        ty = type_at(s)
        parameters.append((attributes, identifier(name), ty))
        s = s[len(ty):]
        assert s.startswith(")") or s.startswith(", ") and not s.startswith(", )"), s
        s = s.removeprefix(", ")
    return parameters, closed(s)


def read_attributes(s):
    """The attributes that a text begins with, each as its word and what it is over, and what stands after them."""
    attributes = []
    while s.startswith("@"):
        found = re.match(r"@(\w+)(?:\(([^()]*)\))? ", s)
        word, over = found.groups()
        attributes.append((word, *(over.split(", ") if over else ())))
        s = s[found.end():]
    return attributes, s


def read_whole_type(s):
    assert type_at(s) == s, s
    return s


class Lines:
    """The lines of a function after its locals."""

    def __init__(self, lines):
        self.left = lines

    def block(self, level):
        """The statements at this level, as far as they go. None of them is left at the end of the text."""
        body = []
        while self.is_at(level) and not self.left[0].strip().startswith(("}", "continuing {")):
            body.append(self.statement(level))
        assert level > 1 or not self.left, self.left
        return body

    def is_at(self, level):
        return bool(self.left) and re.match(" *", self.left[0])[0] == "    " * level

    def take(self, level):
        """The next line, which stands at this level."""
        assert self.is_at(level), (level, self.left)
        return self.left.pop(0).strip()

    def closed(self, level, text="}"):
        line = self.take(level)
        assert line == text, (line, text)

    def statement(self, level):
        line = self.take(level)
        if line == "{":
            body = self.block(level + 1)
            self.closed(level)
            return "block", body
        if line == "loop {":
            return self.loop(level)
        if line.startswith("if "):
            return self.branch(line, level)
        if line.startswith("switch "):
            return self.switch(line, level)
        assert line.endswith(";"), line
        return simple_statement(line[:-1])

    def branch(self, line, level):
        accept, reject = self.block(level + 1), []
        if self.left[0].strip() == "} else {":
            self.take(level)
            reject = self.block(level + 1)
        self.closed(level)
        return "if", expression(in_braces(line, "if ")), accept, reject

    def switch(self, line, level):
        groups = []
        while self.is_at(level + 1):
            head = self.take(level + 1)
            assert head.endswith(": {"), head
            head = head.removesuffix(": {")
            labels = [None] if head == "default" else list(map(label, head.removeprefix("case ").split(", ")))
            assert head == "default" or head.startswith("case "), head
            body = self.block(level + 2)
            self.closed(level + 1)
            groups.append((labels, body))
        self.closed(level)
        return "switch", expression(in_braces(line, "switch ")), groups

    def loop(self, level):
        body, continuing, break_if = self.block(level + 1), [], None
        if self.left[0].strip() == "continuing {":
            self.take(level + 1)
            continuing = self.block(level + 2)
            if continuing and continuing[-1][0] == "break if":
                break_if = continuing.pop()[1]
            self.closed(level + 1)
        self.closed(level)
        unskipped = next((at for at, line in enumerate(body) if has_continue(line)), len(body))
        return "loop", body, continuing, break_if, unskipped


def has_continue(line):
    """Whether a `continue` of the loop around it stands in a statement."""
    kind, *parts = line
    if kind == "continue":
        return True
    if kind == "block":
        return any(map(has_continue, parts[0]))
    if kind == "if":
        return any(map(has_continue, parts[1] + parts[2]))
    return kind == "switch" and any(has_continue(each) for _, body in parts[1] for each in body)


def in_braces(line, word):
    assert line.endswith(" {"), line
    return line.removeprefix(word).removesuffix(" {")


def label(text):
    if text == "default":
        return None
    number = text.removesuffix("u")
    assert re.fullmatch(r"-?[0-9]+u?", text), text
    return ("uint" if text != number else "sint", int(number))


def simple_statement(line):
    if line in ("break", "continue", "discard"):
        return (line,)
    if line == "return" or line.startswith("return "):
        return "return", expression(line[7:]) if line[7:] else None
    if line.startswith("break if "):
        return "break if", expression(line[9:])
    if line.startswith("let "):
        name, value = line[4:].split(" = ", 1)
        return "let", identifier(name.split(":")[0]), expression(value)
    target, rest = read(line)
    if rest == "":
        assert target[0] == "call", line
        return "call", target
    assert rest.startswith(" = "), (line, rest)
    return "assign", target, expression(rest[3:])


def identifier(name):
    assert name not in KEYWORDS and name.isascii() and name.isidentifier(), name
    return name


# ---- expressions
def expression(text):
    e, rest = read(text)
    assert rest == "", (text, rest)
    return e


def read(s):
    # a sign is of all that follows it, with the parts that are taken of that
    if s[0] in "-!~" and s[1] == "(":
        e, rest = read(s[1:])
        return ("apply", s[0], e), rest
    return read_parts(*read_base(s))


def read_parts(e, rest):
    """The parts that are taken of what was read."""
    while rest.startswith((".", "[")):
        if rest.startswith("."):
            word = type_at(rest[1:])
            e, rest = ("part", "." + word, e), rest[1 + len(word):]
        elif rest[1:rest.index("]")].isdigit():
            word, rest = rest.split("]", 1)
            e = ("part", word + "]", e)
        else:
            index, rest = read(rest[1:])
            e, rest = ("part", "[_]", e, index), closed(rest, "]")
    return e, rest


def read_base(s):
    if s.startswith(("(&", "(*")):
        e, rest = read(s[2:])
        return ({"&": "address", "*": "target"}[s[1]], e), closed(rest)
    if s[0] == "(":
        return read_in_parentheses(s[1:])
    short = re.match(r"[iu]16\(-?[0-9]+\)|-?[0-9]+(\.[0-9]+)?(h|f|(e-?[0-9]+)?lf)", s)
    for text in [*([short[0]] if short else []), *LEAST, "0.0"]:
        if s.startswith(text):
            return ("literal", text), s[len(text):]
    word = type_at(s)
    rest = s[len(word):]
    if rest.startswith("("):
        return read_call(word, rest[1:])
    if word in ("true", "false") or word.lstrip("-")[:1].isdigit():
        return ("literal", word), rest
    return ("name", identifier(word)), rest


def read_in_parentheses(s):
    left, rest = read(s)
    if rest.startswith(")"):
        return left, rest[1:]
    op, rest = rest[1:].split(" ", 1)
    right, rest = read(rest)
    return ("apply", op, left, right), closed(rest)


def read_call(word, s):
    operands = []
    while not s.startswith(")"):
        e, s = read(s)
        operands.append(e)
        s = s[2:] if s.startswith(", ") else s
    if word == "textureSampleLevel":
        # level zero may be whole
        operands = [("literal", LEVEL_ZERO) if e == ("literal", WHOLE_LEVEL_ZERO) else e for e in operands]
    return ("call", word, *operands), s[1:]


def type_at(s):
    """The name, the number or the type that a text begins with; `<` belongs to a type if it follows at once."""
    word = plain_word_at(s)
    rest = s[len(word):]
    if not rest.startswith("<"):
        return word
    depth = 0
    for at, character in enumerate(rest):
        depth += (character == "<") - (character == ">")
        if depth == 0:
            return word + rest[:at + 1]
    raise AssertionError(s)


def plain_word_at(s):
    end = 0
    while end < len(s) and (s[end].isalnum() or s[end] == "_" or (end == 0 and s[0] == "-")):
        end += 1
    return s[:end]


def closed(s, bracket=")"):
    assert s.startswith(bracket), s
    return s[1:]
