"""Modules with what is known of them, each with how many items it has."""

I32 = {"name": None, "inner": {"Scalar": {"kind": "Sint", "width": 4}}}
MATRIX = {
    "name": None,
    "inner": {"Matrix": {"columns": "Bi", "rows": "Bi", "scalar": {"kind": "Float", "width": 4}}}}
BOOL = {"Value": {"Scalar": {"kind": "Bool", "width": 1}}}


def pointer_to(ty):
    return {"Value": {"Pointer": {"base": ty, "space": "Function"}}}


class Function:
    """A function with a local of each type and an argument."""

    def __init__(self, name="f"):
        self.name, self.expressions, self.types, self.body = name, [], [], []
        self.named, self.locals = {}, [{"name": "x", "ty": 0, "init": None}, {"name": "m", "ty": 1, "init": None}]
        self.x = self.add({"LocalVariable": 0}, pointer_to(0))
        self.m = self.add({"LocalVariable": 1}, pointer_to(1))
        self.argument = self.add({"FunctionArgument": 0}, 0)

    def add(self, expression, ty=0):
        self.expressions.append(expression)
        self.types.append(ty)
        return len(self.expressions) - 1

    def sum(self, left, right):
        return self.add({"Binary": {"op": "Add", "left": left, "right": right}})

    def emit(self, first, body=None):
        body = self.body if body is None else body
        body.append({"Emit": {"start": first, "end": len(self.expressions)}})

    def store(self, value, body=None):
        body = self.body if body is None else body
        body.append({"Store": {"pointer": self.x, "value": value}})

    def lines(self, count, body=None):
        """So many expressions: loads and stored sums by turns."""
        for _ in range(count // 2):
            load = self.add({"Load": {"pointer": self.x}})
            value = self.sum(load, load)
            self.emit(load, body)
            self.store(value, body)

    def matrix_line(self, fault=None):
        """The matrix is stored again, transposed. It can't be inverted, and without its `Emit` it has no value."""
        load = self.add({"Load": {"pointer": self.m}}, 1)
        fun = "Inverse" if fault == "without a form" else "Transpose"
        value = self.add({"Math": {"fun": fun, "arg": load, "arg1": None, "arg2": None, "arg3": None}}, 1)
        self.body.append({"Emit": {"start": load, "end": value if fault == "out of scope" else value + 1}})
        self.body.append({"Store": {"pointer": self.m, "value": value}})

    def form(self):
        return {
            "name": self.name, "arguments": [{"name": "a", "ty": 0, "binding": None}], "result": None,
            "local_variables": self.locals, "expressions": self.expressions, "named_expressions": self.named,
            "body": self.body}


def module(*functions):
    return {
        "module": {"types": [I32, MATRIX], "functions": [function.form() for function in functions]},
        "info": {"functions": [function.types for function in functions]}}


def lines(count):
    function = Function()
    function.lines(count)
    return module(function)


def lines_in(blocks, count, block):
    """Lines in so many blocks of their own."""
    function = Function()
    for _ in range(blocks):
        body = []
        function.lines(count // blocks, body)
        function.body.append(block(function, body))
    return module(function)


def plain_block(function, body):
    return {"Block": body}


def loop(function, body):
    """A loop that goes on while the argument is less than itself, which is told in front of it."""
    condition = function.add({"Binary": {"op": "Less", "left": function.argument, "right": function.argument}}, BOOL)
    emit = {"Emit": {"start": condition, "end": condition + 1}}
    return {"Loop": {"body": body, "continuing": [emit], "break_if": condition}}


def branch(function, body):
    condition = function.add({"Binary": {"op": "Less", "left": function.argument, "right": function.argument}}, BOOL)
    function.body.append({"Emit": {"start": condition, "end": condition + 1}})
    return {"If": {"condition": condition, "accept": body, "reject": []}}


def sums(count, uses, is_named=False):
    """Each sum is of the one before it, used so often, or of the argument."""
    function, value = Function(), None
    first = len(function.expressions)
    for number in range(count):
        value = function.argument if value is None else value
        value = function.sum(value, value if uses == 2 else function.argument)
        if is_named:
            function.named[str(value)] = f"v{'abcdefghij'[number % 10]}"
    function.emit(first)
    function.store(value)
    return module(function)


def functions(count):
    made = []
    for _ in range(count):
        function = Function()
        first = function.sum(function.argument, function.argument)
        function.emit(first)
        function.store(first)
        made.append(function)
    return module(*made)


def locals_(count):
    function = Function()
    function.locals += [{"name": "y", "ty": 0, "init": None} for _ in range(count - 2)]
    return module(function)


SHAPES = {
    "empty": (1, module),
    "10 lines": (10, lambda: lines(10)),
    "1,000 lines": (1000, lambda: lines(1000)),
    "1,000 lines in a hundred blocks": (1000, lambda: lines_in(100, 1000, plain_block)),
    "1,000 lines in a hundred loops": (1000, lambda: lines_in(100, 1000, loop)),
    "1,000 lines in a hundred branches": (1000, lambda: lines_in(100, 1000, branch)),
    "1,000 bound sums": (1000, lambda: sums(1000, 2)),
    "1,000 named sums": (1000, lambda: sums(1000, 2, True)),
    "100 nested operands": (100, lambda: sums(100, 1)),
    "1,000 nested operands": (1000, lambda: sums(1000, 1)),
    "10 functions": (10, lambda: functions(10)),
    "1,000 functions": (1000, lambda: functions(1000)),
    "1,000 locals": (1000, lambda: locals_(1000)),
}

FAULTS = [None, "without a form", "out of scope"]
PLACES = ["on the first line", "in the middle", "on the last line"]


def faulty(fault, place):
    """Two thousand loads and stored sums, and three of a matrix among them, of which one has this fault."""
    function = Function()
    for where in PLACES:
        function.matrix_line(fault if where == place else None)
        if where != PLACES[-1]:
            function.lines(1000)
    return module(function)


def faulty_functions(fault):
    """Thirty functions of twenty loads and stored sums and a line of a matrix. The last line has this fault."""
    made = []
    for number in range(30):
        function = Function()
        function.lines(20)
        function.matrix_line(fault if number == 29 else None)
        made.append(function)
    return module(*made)
