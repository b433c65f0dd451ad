"""The notation of modules in case files: from lines to naga's JSON. README.md describes it."""

import re

from shape import EXPRESSION, STATEMENT, TOLD, TYPE_INNER, ShapeError, check, name_of
from inference import expression_type
from reader import Reader


class CaseError(Exception):
    """What is wrong with a case file, and where."""


STAGES = {
    "vertex": "Vertex", "task": "Task", "mesh": "Mesh", "fragment": "Fragment",
    "compute": "Compute", "ray_generation": "RayGeneration", "miss": "Miss", "any_hit": "AnyHit",
    "closest_hit": "ClosestHit",
}
# What tells the variable of a stage, and the member that it stands in.
VARIABLES = {
    "output": "mesh_info", "payload": "task_payload", "incoming": "incoming_ray_payload",
}
EXPRESSIONS = {name_of(variant) for variant in EXPRESSION.variants}
STATEMENTS = {name_of(variant) for variant in STATEMENT.variants}


def labelled(label, inner):
    """A type with its label, if it has one."""
    return {"name": label, "inner": inner} if label is not None else {"inner": inner}


class Types:
    """The types of a module, in the order in which they are declared or first named."""

    def __init__(self):
        self.items = []
        self.labels = {}

    def index(self, label, inner):
        """The index of a type, which is added if it is absent."""
        item = labelled(label, inner)
        if item in self.items:
            return self.items.index(item)
        return self.append(item)

    def append(self, item):
        self.items.append(item)
        if item.get("name") is not None:
            self.labels.setdefault(item["name"], len(self.items) - 1)
        return len(self.items) - 1

    def stride(self, base):
        """How far elements of a type lie apart, for the types of which that is plain."""
        inner = self.items[base]["inner"] if base < len(self.items) else {}
        if "Scalar" in inner or "Atomic" in inner:
            return (inner.get("Scalar") or inner.get("Atomic"))["width"]
        if "Vector" in inner:
            components = {"Bi": 2, "Tri": 4, "Quad": 4}[inner["Vector"]["size"]]
            return components * inner["Vector"]["scalar"]["width"]
        return None


class Scope:
    """The expressions of a function, or the module's own, with what is known of each, and their lines."""

    def __init__(self, function):
        self.function = function
        self.expressions = []
        self.known = []
        self.lines = []


class Module:
    """A module that is made line by line, with what is known of it."""

    def __init__(self, case):
        self.case = case
        self.types = Types()
        self.module = {}
        self.info = {}
        self.settings = []
        self.scopes = []
        self.own = None
        self.is_counted = False
        self.kinds = set()

    @classmethod
    def of(cls, lines, case):
        """The module of these lines, and what is known of it, as members of an object; and which
        kinds of expressions and statements it has."""
        made = cls(case)
        for line, children in tree(lines, case):
            made.add(line, children)
        if made.types.items:
            made.module = {"types": made.types.items, **made.module}
        for scope in made.scopes:
            made.infer(scope)
        told = {"module": made.module, "info": made.info}
        if made.is_counted:
            told = {"counted": True, **told}
        made.check(TOLD, told)
        for line, path, value in made.settings:
            made.set(told, line, path, value)
            made.check(TOLD, told, line)
        return told, made.kinds

    def infer(self, scope):
        """Gives each expression of which no type is told the one by the rules."""
        types = [ty["ty"] if isinstance(ty, dict) and "ty" in ty else ty for ty in scope.known]
        for handle, ty in enumerate(types):
            if ty is None:
                before, expression = types[:handle], scope.expressions[handle]
                ty = expression_type(self.module, scope.function, before, expression)
                if ty is None:
                    raise self.case.error("the rules give it no type: tell one", scope.lines[handle])
                types[handle] = scope.known[handle] = ty

    def check(self, form, value, line=None):
        """The value has this form of the IR."""
        try:
            check(form, value)
        except ShapeError as error:
            raise self.case.error(error, line) from None

    def fails_at(self, line):
        def fail(message):
            raise self.case.error(message, line)

        return fail

    def reader(self, line, text=None):
        return Reader(line.text if text is None else text, self.types, self.fails_at(line))

    def append(self, list_name, item):
        self.module.setdefault(list_name, []).append(item)

    def add(self, line, children):
        word = line.text.split("<")[0].split(" ")[0].rstrip(":")
        if line.text.startswith("@") or word == "fn":
            return self.add_function(line, children)
        if word == "struct":
            return self.add_struct(line, children)
        methods = {
            "type": self.add_type, "const": self.add_constant, "override": self.add_override,
            "var": self.add_global, "global": self.add_global_expression,
            "predeclared": self.add_predeclared, "special": self.add_special,
        }
        if word != "set" and word not in methods:
            raise self.case.error(f"`{word}` begins no line of a module", line)
        self.has_nothing_below(children)
        if word == "set":
            return self.add_setting(line)
        reader = self.reader(line)
        reader.next()
        methods[word](reader, line)
        return reader.end()

    def add_type(self, reader, line):
        """`type INNER`, or `type LABEL = INNER`."""
        label = None
        if [token[1] for token in reader.tokens[reader.at + 1:reader.at + 2]] == ["="]:
            label = reader.label()
            reader.want("=")
        inner = reader.inner()
        self.check(TYPE_INNER, inner, line)
        self.types.append(labelled(label, inner))

    def add_struct(self, line, children):
        """`struct LABEL span 8`, and below it the members, as `a: i32 at 0`."""
        reader = self.reader(line)
        reader.want("struct")
        label = reader.label()
        reader.want("span")
        span = reader.number()
        reader.end()
        members = [self.member(child, below) for child, below in children]
        inner = {"Struct": {"members": members, "span": span}}
        self.types.append(labelled(label, inner))

    def member(self, line, below):
        self.has_nothing_below(below)
        reader = self.reader(line)
        item = self.typed(reader)
        reader.want("at")
        item["offset"] = reader.number()
        reader.end()
        return item

    def typed(self, reader):
        """`LABEL: TYPE BINDING`."""
        label = reader.label()
        reader.want(":")
        item = {"ty": reader.handle()}
        if label is not None:
            item = {"name": label, **item}
        binding = reader.binding()
        if binding is not None:
            item["binding"] = binding
        return item

    def initialised(self, reader, item):
        if reader.takes("="):
            item["init"] = reader.number()

    def add_constant(self, reader, line):
        item = self.typed(reader)
        self.initialised(reader, item)
        self.append("constants", item)

    def add_override(self, reader, line):
        item = self.typed(reader)
        if reader.takes("@", "id", "("):
            item["id"] = reader.number()
            reader.want(")")
        self.initialised(reader, item)
        self.append("overrides", item)

    def add_global(self, reader, line):
        reader.want("<")
        space = reader.space()
        reader.want(">")
        item = {**self.typed(reader), "space": space}
        if reader.takes("@", "group", "("):
            group = reader.number()
            reader.want(")", "@", "binding", "(")
            item["binding"] = {"group": group, "binding": reader.number()}
            reader.want(")")
        if reader.takes("@", "memory", "("):
            item["memory_decorations"] = reader.flags()
            reader.want(")")
        self.initialised(reader, item)
        self.append("global_variables", item)

    def add_global_expression(self, reader, line):
        """`global 0: EXPRESSION`, `global 0: TYPE = EXPRESSION`."""
        if self.own is None:
            self.own = Scope(None)
            self.scopes.append(self.own)
            self.module["global_expressions"] = self.own.expressions
            self.info["const_expression_types"] = self.own.known
        self.expression(reader, line, self.own, None)

    def add_predeclared(self, reader, line):
        """`predeclared KEY = TYPE`."""
        key = reader.value()
        reader.want("=")
        special = self.module.setdefault("special_types", {})
        special.setdefault("predeclared_types", []).append([key, reader.handle()])

    def add_special(self, reader, line):
        """`special external_texture_params = TYPE`."""
        name = reader.label()
        reader.want("=")
        self.module.setdefault("special_types", {})[name] = reader.handle()

    def add_setting(self, line):
        """`set PATH = VALUE`, at last."""
        path, equals, value = line.text[len("set "):].partition("=")
        if not equals:
            raise self.case.error("a setting is `set PATH = VALUE`", line)
        reader = self.reader(line, value)
        self.settings.append((line, path.strip(), reader.value()))
        reader.end()

    def set(self, told, line, path, value):
        """Sets what stands at the path: all of it but the last member is there."""
        *steps, last = path.split(".")
        at = told
        try:
            for step in steps:
                at = at[step] if isinstance(at, dict) else at[int(step)]
            at[last if isinstance(at, dict) else int(last)] = value
        except (IndexError, KeyError, TypeError, ValueError):
            raise self.case.error(f"there is no {path}", line) from None

    # ---- functions

    def add_function(self, line, children):
        reader = self.reader(line)
        point = self.attributes(reader)
        reader.want("fn")
        label = reader.label()
        function = {"name": label} if label is not None else {}
        if point is not None:
            point["name"] = label or ""
        if point is not None and reader.takes("as"):
            inner = reader.label()
            function = {"name": inner} if inner is not None else {}
        self.signature(reader, function)
        reader.end()
        scope = Scope(function)
        self.scopes.append(scope)
        self.fill(scope, children)
        if point is None:
            self.append("functions", function)
            self.info.setdefault("functions", []).append(scope.known)
        else:
            self.append("entry_points", {**point, "function": function})
            self.info.setdefault("entry_points", []).append(scope.known)

    def attributes(self, reader):
        """What an entry point has in front of `fn`: none for a function."""
        point = None
        while reader.takes("@"):
            word = reader.next()
            numbers = reader.list_of("(", ")") if reader.peek() == "(" else []
            if word in STAGES and point is not None:
                reader.fail("two stages")
            elif word in STAGES:
                point = {"stage": STAGES[word], "workgroup_size": numbers or [0, 0, 0]}
            elif word == "sizes" and point is not None:
                point["workgroup_size_overrides"] = numbers
            elif word not in VARIABLES:
                reader.fail(f"`@{word}` is no attribute of an entry point")
            elif point is None:
                reader.fail(f"the stage stands in front of `@{word}`")
            elif VARIABLES[word] in point:
                reader.fail(f"`@{word}` is told twice")
            elif len(numbers) != 1:
                reader.fail(f"`@{word}` has the number of a variable")
            else:
                point[VARIABLES[word]] = numbers[0]
        if point is not None and "mesh_info" in point:
            point["mesh_info"] = {"output_variable": point["mesh_info"]}
        return point

    def signature(self, reader, function):
        reader.want("(")
        arguments = []
        while not reader.takes(")"):
            arguments.append(self.typed(reader))
            if not reader.takes(","):
                reader.want(")")
                break
        if arguments:
            function["arguments"] = arguments
        if reader.takes("->"):
            result = {"ty": reader.handle()}
            binding = reader.binding()
            if binding is not None:
                result["binding"] = binding
            function["result"] = result

    def fill(self, scope, children):
        function, statements, names = scope.function, [], {}
        for line, below in children:
            if re.match(r"\d+( |:)", line.text):
                self.has_nothing_below(below)
                self.expression(self.reader(line), line, scope, names)
            elif line.text.startswith("var "):
                self.has_nothing_below(below)
                reader = self.reader(line)
                reader.want("var")
                item = self.typed(reader)
                self.initialised(reader, item)
                reader.end()
                function.setdefault("local_variables", []).append(item)
            else:
                statements.append((line, below))
        if scope.expressions:
            function["expressions"] = scope.expressions
        if names:
            function["named_expressions"] = names
        if statements:
            function["body"] = self.block(statements)

    def expression(self, reader, line, scope, names):
        """`3: EXPRESSION`, `3 LABEL: EXPRESSION`, and with what is known of its type: `3: TYPE = EXPRESSION`,
        `3: TYPE used 2 = EXPRESSION`; `?` is no known type. The module's own expressions have no names, which are
        None, and aren't counted."""
        number = reader.number()
        if number != len(scope.expressions):
            reader.fail(f"the expression {len(scope.expressions)} comes next")
        if reader.peek() != ":":
            self.add_label(reader, str(number), names)
        reader.want(":")
        if reader.has("="):
            self.told_type(reader, scope, names is not None)
            reader.want("=")
        else:
            self.know(reader, scope, None)
        self.has_kind(reader.peek(), EXPRESSIONS, line)
        expression = reader.value()
        reader.end()
        self.check(EXPRESSION, expression, line)
        scope.expressions.append(expression)
        scope.lines.append(line)

    def told_type(self, reader, scope, is_in_function):
        """What is told of the type of the next expression: `TYPE`, `TYPE used 2`, or `?` where nothing is known."""
        is_known = not reader.takes("?")
        if is_known:
            self.know(reader, scope, reader.resolution())
        if reader.takes("used"):
            if not is_in_function or not is_known:
                reader.fail("the uses are told of an expression of a function, with its type")
            scope.known[-1] = {"ref_count": reader.number(), "ty": scope.known[-1]}
            self.is_counted = True

    def know(self, reader, scope, ty):
        """Adds what is known of the next expression: a type, or None, which is one by the rules."""
        if len(scope.known) < len(scope.expressions):
            reader.fail("nothing is known of the expression before")
        scope.known.append(ty)

    def add_label(self, reader, number, names):
        """The label of an expression, which stands after its number."""
        if names is None:
            reader.fail("an expression of the module has no label")
        label = reader.label()
        if label is None:
            reader.fail("an expression without a label has no `_`")
        names[number] = label

    def has_kind(self, word, words, line):
        """The line has an expression or a statement of this kind, which is one of the words."""
        if word not in words:
            raise self.case.error(f"`{word}` is none of the kinds that there are", line)
        self.kinds.add(word)

    # ---- statements

    def block(self, lines):
        statements, at = [], 0
        while at < len(lines):
            at = self.statement(statements, lines, at)
        return statements

    def statement(self, statements, lines, at):
        """Adds the statement at `at`, and tells where the next one stands."""
        line, below = lines[at]
        word, _, rest = line.text.partition(" ")
        self.has_kind(re.match(r"\w*", word).group(0), STATEMENTS, line)
        if word == "If":
            accept, reject = self.block(below), []
            if self.follows(lines, at + 1, "else"):
                at += 1
                reject = self.block(lines[at][1])
            condition = self.handle_in(line, rest)
            statements.append({"If": {"condition": condition, "accept": accept, "reject": reject}})
            return at + 1
        if word in ("Loop", "Block") and rest:
            raise self.case.error(f"what {word} has stands below it", line)
        if word == "Loop":
            return self.loop(statements, lines, at)
        if word == "Switch":
            cases = [self.switch_case(child, below_child) for child, below_child in below]
            statements.append({"Switch": {"selector": self.handle_in(line, rest), "cases": cases}})
            return at + 1
        if word == "Block":
            statements.append({"Block": self.block(below)})
            return at + 1
        self.has_nothing_below(below)
        statement = self.plain_statement(line, word, rest)
        self.check(STATEMENT, statement, line)
        statements.append(statement)
        return at + 1

    def has_nothing_below(self, below):
        if below:
            raise self.case.error("nothing stands below the line before", below[0][0])

    def follows(self, lines, at, text):
        return at < len(lines) and lines[at][0].text == text

    def handle_in(self, line, text):
        reader = self.reader(line, text)
        number = reader.number()
        reader.end()
        return number

    def loop(self, statements, lines, at):
        loop = {"body": self.block(lines[at][1]), "continuing": []}
        if self.follows(lines, at + 1, "continuing"):
            at += 1
            loop["continuing"] = self.block(lines[at][1])
        if at + 1 < len(lines) and lines[at + 1][0].text.startswith("break if "):
            at += 1
            self.has_nothing_below(lines[at][1])
            loop["break_if"] = self.handle_in(lines[at][0], lines[at][0].text[len("break if "):])
        statements.append({"Loop": loop})
        return at + 1

    def switch_case(self, line, below):
        """`case 1`, `case 1u` or `default`, with ` falls through` after."""
        match = re.fullmatch(r"(?:case (-?\d+)(u?)|default)( falls through)?", line.text)
        if not match:
            raise self.case.error("a case is `case 1`, `case 1u` or `default`", line)
        number, unsigned, falls = match.groups()
        value = "Default" if number is None else {"U32" if unsigned else "I32": int(number)}
        return {"value": value, "body": self.block(below), "fall_through": falls is not None}

    def plain_statement(self, line, word, rest):
        if word == "Return":
            return {"Return": {"value": self.handle_in(line, rest)} if rest else {}}
        if word == "Emit":
            reader = self.reader(line, rest)
            value = reader.value()
            reader.end()
            return {"Emit": value}
        reader = self.reader(line)
        value = reader.value()
        reader.end()
        if isinstance(value, dict) and "Call" in value:
            value["Call"].setdefault("arguments", [])
        return value


def tree(lines, case):
    """The lines with those below each, by their indentation, which the lines of a block share."""
    root = []
    open_blocks = [(-1, root)]
    for line in lines:
        while line.indent <= open_blocks[-1][0]:
            open_blocks.pop()
        siblings, below = open_blocks[-1][1], []
        if siblings and siblings[0][0].indent != line.indent:
            raise case.error("the lines of a block are indented alike", line)
        siblings.append((line, below))
        open_blocks.append((line.indent, below))
    return root
