"""Reads the bytes of a text as tokens, trees and what names stand for.

Each identifier is looked up where it stands: in the blocks around it, the innermost first, then among what the text
declares. A `let` is in scope after itself to the end of its block, and in a loop's `continuing` if it stands in the
body in front of the first statement in which a `continue` of this loop stands.

    literal VALUE; argument N; local N; let N; item NAME; call TYPE E..; address E; target E; a sign with E or E E
    member E WORD; element E E

A type is a word with what stands in its angle brackets.
"""

import re

from integer_values import exact, wrapped

TOKEN = re.compile(
    r"[A-Za-z_][A-Za-z0-9_]*|-?[0-9]+(?:\.[0-9]+)?(?:h|f|(?:e-?[0-9]+)?lf|li|lu|i|u)?"
    r"|&&|\|\||<<|<=|==|!=|[-{}()\[\]<>,;:.=+*/%&|^!~@]")
SUFFIXES = {"i": "i32", "u": "u32", "li": "i64", "lu": "u64", "": "abstract"}
FLOAT = re.compile(r"(-?)([0-9]+)(?:\.([0-9]+))?(?:e(-?[0-9]+))?(h|f|lf)")
FLOATS = {"h": "f16", "f": "f32", "lf": "f64"}
SIGNS = ("+", "-", "*", "/", "%", "==", "!=", "<", "<=", ">", "&", "^", "|", "&&", "||", "<<")
# the words after which `<` begins a list
GENERATORS = re.compile(
    r"vec[234]|mat[234]x[234]|array|binding_array|atomic|ptr|bitcast|acceleration_structure|ray_query|coopLoadT?|"
    r"coop_mat(8|16)x(8|16)|texture_(multisampled_|storage_)?(1d|2d|3d|cube)(_array)?")


class NoReading(Exception):
    """The text is no program, or a name in it stands for nothing."""


def tokens_of(text):
    tokens = TOKEN.findall(text)
    if "".join(tokens) != re.sub(r"[ \n]+", "", text):
        raise NoReading("what is no token")
    return tokens


class Function:
    """Its name, the types of its arguments, and its statements."""

    def __init__(self, name, arguments, body):
        self.name, self.arguments, self.body = name, arguments, body


class Reader:
    """A program: what it declares by name, with its number among those of its kind, and its functions in order."""

    def __init__(self, text):
        self.tokens, self.at = [*tokens_of(text), ""], 0
        self.items, self.functions = {}, []
        # the names in sight, the innermost block last; how many locals and `let`s there were; what items were named
        self.scopes, self.counts, self.named = [], {}, set()
        numbers = {"struct": 0, "const": 0, "override": 0, "var": 0, "fn": 0}
        while self.next != "":
            self.attributes()
            kind = self.take()
            if kind == "enable":
                self.take()
                self.take(";")
            elif kind == "diagnostic":
                while self.take() != ";":
                    pass
            elif kind in numbers:
                name, *told = getattr(self, f"read_{kind}")()
                if name in self.items:
                    raise NoReading(f"{name} is declared twice")
                self.items[name] = (kind, numbers[kind], *told)
                numbers[kind] += 1
            else:
                raise NoReading(f"{kind} begins no declaration")
        for name in self.named - set(self.items):
            raise NoReading(f"{name} stands for nothing")

    # ---- tokens
    @property
    def next(self):
        return self.tokens[self.at]

    def take(self, *wanted):
        token = self.next
        if token == "" or wanted and token not in wanted:
            raise NoReading(f"{token or 'the end'} in the place of {' or '.join(wanted)}")
        self.at += 1
        return token

    def takes(self, token):
        """Whether this token is next, which is taken then."""
        is_next = self.next == token
        self.at += is_next
        return is_next

    def identifier(self):
        if not re.match("[A-Za-z_]", self.next):
            raise NoReading(f"{self.next} is no identifier")
        return self.take()

    def listed(self, end, read):
        """What is read up to the end, parted by commas."""
        found = []
        while self.next != end:
            found.append(read())
            if self.next != end:
                self.take(",")
        self.take(end)
        return found

    def attributes(self):
        while self.next == "@":
            self.at += 1
            self.identifier()
            if self.next == "(":
                self.at += 1
                self.listed(")", self.take)

    # ---- declarations
    def read_struct(self):
        name = self.identifier()
        self.take("{")
        return name, self.listed("}", self.parameter)

    def parameter(self):
        self.attributes()
        return self.typed()

    def typed(self):
        name = self.identifier()
        self.take(":")
        return name, self.type()

    def valued(self):
        """A name with its type and its first value, if it has one."""
        name, ty = self.typed()
        value = None
        if self.next == "=":
            self.at += 1
            value = self.expression()
        self.take(";")
        return name, ty, value

    read_const = read_override = valued

    def read_var(self):
        space = []
        if self.next == "<":
            self.at += 1
            space = self.listed(">", self.take)
        return *self.valued(), space

    def read_fn(self):
        name = self.identifier()
        self.take("(")
        parameters = self.listed(")", self.parameter)
        if self.next == "-":
            self.at += 1
            self.take(">")
            self.attributes()
            self.type()
        self.scopes, self.counts = [{}], {"argument": 0, "local": 0, "let": 0}
        for parameter, _ in parameters:
            self.declare("argument", parameter)
        self.take("{")
        self.functions.append(Function(name, [ty for _, ty in parameters], self.statements()))
        self.take("}")
        self.scopes = []
        return name,

    def type(self):
        word = self.identifier()
        self.is_outside(word)
        return (word, *self.generics(word))

    def generics(self, word):
        if self.next != "<" or not GENERATORS.fullmatch(word):
            return []
        self.at += 1
        return self.listed(">", lambda: int(self.take()) if self.next.isdigit() else self.type())

    # ---- names
    def declare(self, kind, name):
        if name in self.scopes[-1]:
            raise NoReading(f"{name} is declared twice")
        self.scopes[-1][name] = kind, self.counts[kind]
        self.counts[kind] += 1
        return self.counts[kind] - 1

    def lookup(self, name):
        for names in reversed(self.scopes):
            if name in names:
                return names[name]
        self.named.add(name)
        return "item", name

    def is_outside(self, word):
        """A type and what is called is no name that a function gives."""
        if any(word in names for names in self.scopes):
            raise NoReading(f"{word} is hidden")

    # ---- statements
    def block(self):
        self.take("{")
        self.scopes.append({})
        body = self.statements()
        self.scopes.pop()
        self.take("}")
        return body

    def statements(self):
        body = []
        while self.next not in ("}", "continuing", ""):
            body.append(self.statement())
        return body

    def statement(self):
        word = self.next
        if word == "{":
            return "block", self.block()
        if word in ("let", "var", "if", "switch", "loop", "return", "break", "continue", "discard"):
            self.at += 1
        if word == "let":
            name = self.identifier()
            ty = self.type() if self.takes(":") else None
            self.take("=")
            value = self.expression()
            told = "let", self.declare("let", name), ty, value
        elif word == "var":
            name, ty, value = self.valued()
            return "var", self.declare("local", name), ty, value
        elif word == "if":
            condition, accept = self.expression(), self.block()
            return "if", condition, accept, self.block() if self.takes("else") else []
        elif word == "switch":
            selector = self.expression()
            self.take("{")
            groups = []
            while not self.takes("}"):
                groups.append((self.labels(), self.block()))
            return "switch", selector, groups
        elif word == "loop":
            return self.loop()
        elif word == "return":
            told = word, None if self.next == ";" else self.expression()
        elif word == "break" and self.takes("if"):
            told = "break if", self.expression()
        elif word in ("break", "continue", "discard"):
            told = (word,)
        else:
            target = self.expression()
            told = ("assign", target, self.expression()) if self.takes("=") else ("call", target)
        self.take(";")
        return told

    def labels(self):
        if self.takes("default"):
            labels = [None]
            self.take(":")
        else:
            self.take("case")
            labels = self.listed(":", self.label)
        return labels

    def label(self):
        return None if self.takes("default") else number(self.take())

    def loop(self):
        self.take("{")
        self.scopes.append({})
        body, in_sight = [], None
        while self.next not in ("}", "continuing", ""):
            before = dict(self.scopes[-1])
            body.append(self.statement())
            if in_sight is None and has_continue(body[-1]):
                in_sight = before
        if in_sight is not None:
            self.scopes[-1] = in_sight
        continuing = self.block() if self.takes("continuing") else []
        self.scopes.pop()
        self.take("}")
        break_if = continuing.pop()[1] if continuing and continuing[-1][0] == "break if" else None
        if any(statement[0] == "break if" for statement in body + continuing):
            raise NoReading("a break if that is not the last statement of continuing")
        return "loop", body, continuing, break_if

    # ---- expressions
    def expression(self):
        left = self.unary()
        if self.next not in SIGNS:
            return left
        sign = self.take()
        if sign == ">" and self.next in (">", "="):
            sign += self.take()
        return sign, left, self.unary()

    def unary(self):
        if self.next in ("-", "!", "~", "&", "*"):
            sign = self.take()
            return {"&": "address", "*": "target"}.get(sign, sign), self.unary()
        return self.parts(self.primary())

    def parts(self, e):
        while self.next in (".", "["):
            if self.take() == ".":
                e = "member", e, self.identifier()
            else:
                e = "element", e, self.expression()
                self.take("]")
        return e

    def primary(self):
        if self.takes("("):
            e = self.expression()
            self.take(")")
            return e
        if re.match("-?[0-9]", self.next):
            return "literal", number(self.take())
        word = self.identifier()
        if word in ("true", "false"):
            return "literal", ("bool", word == "true")
        generics = self.generics(word)
        if not generics and self.next != "(":
            return self.lookup(word)
        self.is_outside(word)
        self.take("(")
        operands = self.listed(")", self.expression)
        if word == "textureSampleLevel":
            # level zero of an image of depths is whole in a text for standard compilers
            operands = [("literal", ("abstract float", "0.0")) if e == ("literal", ("abstract", 0)) else e
                        for e in operands]
        return "call", (word, *generics), *operands


def number(token):
    told = FLOAT.fullmatch(token)
    if told:
        sign, whole, fraction, power, suffix = told.groups()
        fraction = fraction or ""
        return FLOATS[suffix], exact(sign == "-", int(whole + fraction), int(power or 0) - len(fraction))
    digits, point, suffix = re.fullmatch(r"(-?[0-9]+)(\.[0-9]+)?(\w*)", token).groups()
    if point:
        return "abstract float", token
    ty, told = SUFFIXES[suffix], int(digits)
    if suffix and wrapped(ty, told) != told:
        raise NoReading(f"{token} is out of range")
    return ty, told


def has_continue(statement):
    """Whether a `continue` of the loop around it stands in a statement."""
    kind, *told = statement
    blocks = told if kind == "block" else told[1:] if kind == "if" else []
    if kind == "switch":
        blocks = [body for _, body in told[1]]
    return kind == "continue" or any(has_continue(each) for body in blocks for each in body)
