"""The words of a line in the notation of modules: values and types of naga's IR. README.md describes them."""

import json
import re

SCALARS = {
    "i16": ("Sint", 2), "i32": ("Sint", 4), "i64": ("Sint", 8),
    "u16": ("Uint", 2), "u32": ("Uint", 4), "u64": ("Uint", 8),
    "f16": ("Float", 2), "f32": ("Float", 4), "f64": ("Float", 8),
    "bool": ("Bool", 1), "abstract_int": ("AbstractInt", 8), "abstract_float": ("AbstractFloat", 8),
}
KINDS = {"Sint", "Uint", "Float", "Bool", "AbstractInt", "AbstractFloat"}
SIZES = {"2": "Bi", "3": "Tri", "4": "Quad"}
COOPERATIVE_SIZES = {"8": "Eight", "16": "Sixteen"}
SPACES = {
    "function": "Function", "private": "Private", "workgroup": "WorkGroup", "uniform": "Uniform",
    "handle": "Handle", "immediate": "Immediate", "task_payload": "TaskPayload",
    "ray_payload": "RayPayload", "incoming_ray_payload": "IncomingRayPayload",
}
DIMENSIONS = {"1d": "D1", "2d": "D2", "3d": "D3", "cube": "Cube"}
ACCESSES = {
    "read": "LOAD", "write": "STORE", "read_write": "LOAD | STORE",
    "atomic": "LOAD | STORE | ATOMIC",
}
# What stands for a word and not for an absent value: the control of a derivative.
WORD_NONE = {"ctrl"}
# The fields and variants that hold a type.
OF_A_TYPE = {"ty", "ZeroValue"}

TOKEN = re.compile(
    r"""\s*(?:(?P<text>"(?:[^"\\]|\\.)*")
    |(?P<number>-?(?:\d+\.\d+(?:e[+-]?\d+)?|\d+(?:e[+-]?\d+)?))
    |(?P<word>[A-Za-z_][A-Za-z0-9_]*)
    |(?P<mark>\.\.|->|[{}()\[\],:<>|=@\#*~?;]))""",
    re.VERBOSE,
)


class Reader:
    """The words of one line."""

    def __init__(self, text, types, fail):
        self.types = types
        self.fail = fail
        self.tokens = []
        at = 0
        text = text.rstrip()
        while at < len(text):
            match = TOKEN.match(text, at)
            if not match:
                fail(f"`{text[at:].strip()[:20]}` is no word")
            self.tokens.append((match.lastgroup, match.group(match.lastgroup)))
            at = match.end()
        self.at = 0

    def peek(self):
        return self.tokens[self.at][1] if self.at < len(self.tokens) else None

    def kind(self):
        return self.tokens[self.at][0] if self.at < len(self.tokens) else None

    def next(self):
        if self.at == len(self.tokens):
            self.fail("the line ends too early")
        self.at += 1
        return self.tokens[self.at - 1][1]

    def takes(self, *words):
        """Whether these words come next; if so they are taken."""
        end = self.at + len(words)
        if [token[1] for token in self.tokens[self.at:end]] != list(words):
            return False
        self.at = end
        return True

    def has(self, mark):
        """Whether this mark stands somewhere in the line."""
        return ("mark", mark) in self.tokens

    def want(self, *words):
        for word in words:
            if not self.takes(word):
                self.fail(f"`{word}` is wanted in front of `{self.peek()}`")

    def end(self):
        if self.at != len(self.tokens):
            self.fail(f"`{self.peek()}` is too much")

    def number(self):
        if self.kind() != "number":
            self.fail(f"a number is wanted in front of `{self.peek()}`")
        return int(self.next())

    def label(self):
        """A label, where `_` is none."""
        if self.kind() == "text":
            return json.loads(self.next())
        if self.kind() != "word":
            self.fail(f"a label is wanted in front of `{self.peek()}`")
        word = self.next()
        return None if word == "_" else word

    # ---- values

    def value(self, name=None):
        """A value, which stands in the field or variant of this name."""
        if name in OF_A_TYPE:
            return self.handle()
        if name == "scalar":
            return self.scalar()
        kind, token = self.kind(), self.peek()
        if kind == "number":
            return self.number_or_range()
        if kind == "text":
            return json.loads(self.next())
        if token == "[":
            return self.list_of("[", "]")
        if token == "{":
            return self.fields()
        if kind == "word":
            return self.named(name)
        return self.fail(f"a value is wanted in front of `{token}`")

    def number_or_range(self):
        token = self.next()
        value = float(token) if re.search(r"[.e]", token) else int(token)
        if self.takes(".."):
            return {"start": value, "end": self.number()}
        return value

    def list_of(self, first, last, name=None):
        self.want(first)
        items = []
        while not self.takes(last):
            items.append(self.value(name))
            if not self.takes(","):
                self.want(last)
                break
        return items

    def fields(self):
        self.want("{")
        found = {}
        while not self.takes("}"):
            name = self.label()
            if name in found:
                self.fail(f"`{name}` is told twice")
            self.want(":")
            found[name] = self.value(name)
            if not self.takes(","):
                self.want("}")
                break
        return {name: value for name, value in found.items() if value is not None}

    def named(self, name):
        word = self.next()
        if word in ("true", "false"):
            return word == "true"
        if word == "None" and name not in WORD_NONE:
            return None
        if word in ("inf", "nan"):
            return self.fail(f"write the bits of {word}, as `{{ bits: 2139095040 }}`")
        if self.peek() == "(":
            if word == "Some":
                return self.content(name)
            return {word: self.content(word)}
        if self.peek() == "{":
            return {word: self.fields()}
        while self.takes("|"):
            word += " | " + self.next()
        return word

    def content(self, name):
        """What stands in brackets after a name."""
        if name in ("Scalar", "Atomic", "AtomicCompareExchangeWeakResult"):
            self.want("(")
            value = self.scalar()
            self.want(")")
            return value
        items = self.list_of("(", ")", name)
        return items[0] if len(items) == 1 else items

    # ---- types

    def handle(self):
        """The handle of a type: `#` and a number, or the type itself."""
        if self.takes("#"):
            return self.number()
        labelled = self.types.labels.get(self.peek()) if self.kind() in ("word", "text") else None
        if labelled is not None:
            self.next()
            return labelled
        return self.types.index(None, self.inner())

    def resolution(self):
        """What is known of an expression's type: a handle, or after `~` the type itself."""
        if self.takes("*"):
            return {"Value": {"Pointer": {"base": self.handle(), "space": "Function"}}}
        if self.takes("~"):
            return {"Value": self.inner()}
        return self.handle()

    def scalar(self):
        if self.peek() == "{":
            return self.fields()
        word = self.next()
        if word in SCALARS:
            kind, width = SCALARS[word]
            return {"kind": kind, "width": width}
        if word in KINDS:
            return {"kind": word, "width": self.number()}
        return self.fail(f"`{word}` is no scalar")

    def is_scalar(self):
        return self.peek() in SCALARS or self.peek() in KINDS

    def scalar_kind(self):
        word = self.next()
        return SCALARS[word][0] if word in SCALARS else word

    def inner(self):
        if self.is_scalar():
            return {"Scalar": self.scalar()}
        word = self.peek()
        for pattern, method in INNERS:
            match = re.fullmatch(pattern, word or "")
            if match:
                self.next()
                return method(self, *match.groups())
        if self.kind() != "word" or not word[0].isupper():
            self.fail(f"`{word}` is no type")
        return self.named(None)

    def between(self, method):
        self.want("<")
        value = method()
        self.want(">")
        return value

    def vector(self, size):
        return {"Vector": {"size": SIZES[size], "scalar": self.between(self.scalar)}}

    def matrix(self, columns, rows):
        scalar = self.between(self.scalar)
        return {"Matrix": {"columns": SIZES[columns], "rows": SIZES[rows], "scalar": scalar}}

    def cooperative(self, columns, rows):
        self.want("<")
        scalar = self.scalar()
        self.want(",")
        role = self.next()
        self.want(">")
        columns, rows = COOPERATIVE_SIZES[columns], COOPERATIVE_SIZES[rows]
        return {"CooperativeMatrix": {
            "columns": columns, "rows": rows, "scalar": scalar, "role": role}}

    def atomic(self):
        return {"Atomic": self.between(self.scalar)}

    def space(self):
        word = self.next()
        if word == "storage":
            self.want("(")
            access = self.flags()
            self.want(")")
            return {"Storage": {"access": access}}
        if word not in SPACES:
            self.fail(f"`{word}` is no address space")
        return SPACES[word]

    def flags(self):
        """Words with `|` between, or nothing."""
        words = []
        while self.kind() == "word":
            words.append(self.next())
            self.takes("|")
        return " | ".join(words)

    def pointer(self):
        self.want("<")
        space = self.space()
        self.want(",")
        base = self.handle()
        self.want(">")
        return {"Pointer": {"base": base, "space": space}}

    def value_pointer(self):
        self.want("<")
        space = self.space()
        self.want(",")
        inner = self.inner()
        self.want(">")
        held = inner.get("Vector") or {"scalar": inner["Scalar"]}
        return {"ValuePointer": {**held, "space": space}}

    def length(self):
        """The length of an array, after a comma if it has one."""
        if not self.takes(","):
            return "Dynamic"
        if self.takes("override"):
            return {"Pending": self.number()}
        return {"Constant": self.number()}

    def array(self):
        self.want("<")
        base = self.handle()
        size, stride = "Dynamic", None
        if self.tokens[self.at + 1:self.at + 2] != [("word", "stride")]:
            size = self.length()
        if self.takes(",", "stride"):
            stride = self.number()
        self.want(">")
        if stride is None:
            stride = self.types.stride(base)
        if stride is None:
            self.fail("the stride of this array has to be told, as `array<S, 4, stride 16>`")
        return {"Array": {"base": base, "size": size, "stride": stride}}

    def binding_array(self):
        self.want("<")
        base = self.handle()
        size = self.length()
        self.want(">")
        return {"BindingArray": {"base": base, "size": size}}

    def image(self, multi, dimension, arrayed):
        kind = self.between(self.scalar_kind)
        sampled = {"Sampled": {"kind": kind, "multi": multi is not None}}
        return image(dimension, arrayed, sampled)

    def depth_image(self, multi, dimension, arrayed):
        return image(dimension, arrayed, {"Depth": {"multi": multi is not None}})

    def storage_image(self, dimension, arrayed):
        self.want("<")
        word = self.next()
        self.want(",")
        access = self.flags()
        self.want(">")
        stored = {"format": word[0].upper() + word[1:], "access": ACCESSES.get(access, access)}
        return image(dimension, arrayed, {"Storage": stored})

    def external_image(self):
        return image("2d", None, "External")

    def sampler(self, comparison):
        return {"Sampler": {"comparison": comparison is not None}}

    def returning(self, name):
        return {name: {"vertex_return": self.takes("<", "vertex_return", ">")}}

    def acceleration_structure(self):
        return self.returning("AccelerationStructure")

    def ray_query(self):
        return self.returning("RayQuery")

    # ---- bindings

    def binding(self):
        """The binding of an argument, a result or a member, if one is told."""
        if self.takes("@", "location"):
            self.want("(")
            location = {"location": self.number()}
            while self.takes(","):
                name = self.label()
                self.want(":")
                location[name] = self.value(name)
            self.want(")")
            return {"Location": location}
        if self.takes("@", "builtin"):
            self.want("(")
            value = self.value()
            self.want(")")
            return {"BuiltIn": value}
        return None


def image(dimension, arrayed, kind):
    return {"Image": {
        "dim": DIMENSIONS[dimension], "arrayed": arrayed is not None, "class": kind}}


INNERS = [
    (r"vec([234])", Reader.vector),
    (r"mat([234])x([234])", Reader.matrix),
    (r"coop_mat(8|16)x(8|16)", Reader.cooperative),
    (r"atomic", Reader.atomic),
    (r"ptr", Reader.pointer),
    (r"value_ptr", Reader.value_pointer),
    (r"array", Reader.array),
    (r"binding_array", Reader.binding_array),
    (r"texture_(multisampled_)?(1d|2d|3d|cube)(_array)?", Reader.image),
    (r"texture_depth_(multisampled_)?(1d|2d|3d|cube)(_array)?", Reader.depth_image),
    (r"texture_storage_(1d|2d|3d|cube)(_array)?", Reader.storage_image),
    (r"texture_external", Reader.external_image),
    (r"sampler(_comparison)?", Reader.sampler),
    (r"acceleration_structure", Reader.acceleration_structure),
    (r"ray_query", Reader.ray_query),
]
