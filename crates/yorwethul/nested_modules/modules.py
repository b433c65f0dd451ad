"""Modules that are nested: nested(KIND, DEPTH) is one as a text of JSON, with what is known of it.

Each kind stands for the functions that go into it one after the other, by a construct whose levels all call the same. The
others are built of the same calls. Texts are joined of pieces, since a million levels would be slow as objects.
"""

I32 = '{"inner":{"Scalar":{"kind":"Sint","width":4}}}'
BOOL = '{"inner":{"Scalar":{"kind":"Bool","width":1}}}'
PAIR = '{"inner":{"Vector":{"size":"Bi","scalar":{"kind":"Sint","width":4}}}}'
NUMBERS = '{"inner":{"Array":{"base":0,"size":{"Constant":4},"stride":4}}}'
ARRAY = '{"inner":{"Array":{"base":%d,"size":{"Constant":1},"stride":4}}}'
ARGUMENT = '{"FunctionArgument":%d}'
ONE = '{"Literal":{"I32":1}}'
PART = '{"AccessIndex":{"base":%d,"index":0}}'
COMPOSITION = '{"Compose":{"ty":%d,"components":[%d]}}'


def each(template, *ranges):
    """The template with the numbers of these ranges, one after the other, as members of a list."""
    return ",".join(map(template.__mod__, zip(*ranges)))


def joined(*lists):
    """Members of lists, in one list."""
    return ",".join(filter(None, lists))


def function(arguments, result, expressions, count, first, locals=""):
    """A function over these arguments, with so many expressions, of which those from the first on are emitted and whose last is
    returned."""
    arguments = each('{"name":"x%d","ty":%d}', range(len(arguments)), arguments)
    body = f'{{"Emit":{{"start":{first},"end":{count}}}}},{{"Return":{{"value":{count - 1}}}}}'
    return (f'{{"name":"f","arguments":[{arguments}],"result":{{"ty":{result}}},"local_variables":[{locals}],'
            f'"expressions":[{expressions}],"body":[{body}]}}')


def module(types, functions="", known="", more="", info=""):
    """A module of these types and functions, of whose expressions this is known, and of more members."""
    known = f'[{known}]' if functions else ""
    return f'{{"module":{{"types":[{types}],"functions":[{functions}]{more}}},"info":{{"functions":[{known}]{info}}}}}'


def chain(types, arguments, operator, ty):
    """A function whose result is an operator over itself, so many levels deep, down to its first argument."""
    def made(depth):
        count = len(arguments)
        operands = [0, *range(count, count + depth - 2)]
        expressions = joined(each(ARGUMENT, range(count)), each(operator, operands[:depth - 1]))
        known = joined(each("%d", arguments), ",".join([str(ty)] * (depth - 1)))
        return module(",".join(types), function(arguments, ty, expressions, count + depth - 1, count), known)
    return made


def arrays(depth):
    """Types: a number, and arrays of one element over one another."""
    return joined(I32, each(ARRAY, range(depth - 1)))


def array_types(depth):
    return module(arrays(depth), more=f',"global_variables":[{{"name":"v","space":"Private","ty":{depth - 1}}}]')


def pointer_types(depth):
    types = joined(I32, each('{"inner":{"Pointer":{"base":%d,"space":"Function"}}}', range(depth - 1)))
    return module(types, function([depth - 1, 0], 0, each(ARGUMENT, range(2)), 2, 2), f"{depth - 1},0")


def zero_values(depth):
    return module(arrays(depth), function([], depth - 1, f'{{"ZeroValue":{depth - 1}}}', 1, 1), str(depth - 1))


def struct_types(depth):
    struct = '{"name":"s%d","inner":{"Struct":{"span":4,"members":[{"name":"a","ty":%d,"offset":0}]}}}'
    return module(joined(I32, each(struct, range(depth - 1), range(depth - 1))))


def parts(depth):
    """Parts of a value of an array that is as deep."""
    expressions = joined(ARGUMENT % 0, each(PART, range(depth - 1)))
    known = each("%d", range(depth - 1, -1, -1))
    return module(arrays(depth), function([depth - 1], 0, expressions, depth, 1), known)


def places(depth):
    """Parts of a variable, and its load."""
    expressions = joined('{"LocalVariable":0}', each(PART, range(depth - 2)), f'{{"Load":{{"pointer":{depth - 2}}}}}')
    pointer = '{"Value":{"Pointer":{"base":%d,"space":"Function"}}}'
    known = joined(each(pointer, range(depth - 2, -1, -1)), "0")
    variable = f'{{"name":"v","ty":{depth - 2}}}'
    return module(arrays(depth - 1), function([], 0, expressions, depth, 1, variable), known)


def composed(depth):
    """Expressions: a number, and values of arrays over one another, each made of the one before."""
    return joined(ONE, each(COMPOSITION, range(1, depth), range(depth - 1)))


def compositions(depth):
    """A value of an array that is as deep, made of one another in a function."""
    return module(arrays(depth), function([], depth - 1, composed(depth), depth, 1), each("%d", range(depth)))


def global_compositions(depth):
    constant = f'{{"name":"c","ty":{depth - 1},"init":{depth - 1}}}'
    more = f',"constants":[{constant}],"global_expressions":[{composed(depth)}]'
    return module(arrays(depth), more=more, info=f',"const_expression_types":[{each("%d", range(depth))}]')


def unnamed_constants(depth):
    """Constants without names, each of which is composed of the one before."""
    count = depth // 2
    later = range(1, count)
    pair = '{"Constant":%d},' + COMPOSITION
    expressions = joined(ONE, each(pair, range(count - 1), later, range(1, 2 * count - 2, 2)))
    last = f'{{"name":"c","ty":{count - 1},"init":{2 * count - 2}}}'
    constants = joined(each('{"ty":%d,"init":%d}', range(count - 1), range(0, 2 * count - 2, 2)), last)
    known = joined("0", each("%d,%d", range(count - 1), later))
    more = f',"constants":[{constants}],"global_expressions":[{expressions}]'
    return module(arrays(count), more=more, info=f',"const_expression_types":[{known}]')


def blocks(depth):
    """Blocks, which JSON holds no deeper than it nests itself."""
    body = '{"Block":[' * depth + "]}" * depth
    return module("", f'{{"name":"f","body":[{body}]}}')


def doubled(depth):
    """Parts that are used twice, and that no `let` binds: their text doubles with each level."""
    twice = PART + ',{"Compose":{"ty":1,"components":[%d,%d]}}'
    expressions = joined(ARGUMENT % 0, each(twice, range(0, 2 * depth, 2), *[range(1, 2 * depth, 2)] * 2))
    known = joined("1", ",".join(["0,1"] * depth))
    return module(f"{I32},{PAIR}", function([1], 1, expressions, 2 * depth + 1, 1), known)


KINDS = {
    "negations": chain([I32], [0], '{"Unary":{"op":"Negate","expr":%d}}', 0),
    "sums": chain([I32], [0], '{"Binary":{"op":"Add","left":%d,"right":0}}', 0),
    "right sums": chain([I32], [0], '{"Binary":{"op":"Add","left":0,"right":%d}}', 0),
    "minima": chain([I32], [0], '{"Math":{"fun":"Min","arg":0,"arg1":%d}}', 0),
    "selections": chain([I32, BOOL], [0, 1], '{"Select":{"condition":1,"accept":%d,"reject":0}}', 0),
    "conversions": chain([I32], [0], '{"As":{"expr":%d,"kind":"Sint","convert":4}}', 0),
    "swizzles": chain([I32, PAIR], [1], '{"Swizzle":{"size":"Bi","vector":%d,"pattern":["Y","X","X","X"]}}', 1),
    "indices": chain([I32, NUMBERS], [0, 1], '{"Access":{"base":1,"index":%d}}', 0),
    "parts": parts,
    "places": places,
    "array types": array_types,
    "pointer types": pointer_types,
    "zero values": zero_values,
    "struct types": struct_types,
    "compositions": compositions,
    "global compositions": global_compositions,
    "unnamed constants": unnamed_constants,
}


def nested(kind, depth):
    return KINDS[kind](depth)


def levels(kind, depth):
    """How many levels such a module has: a constant without a name and what it is made of are two."""
    return depth // 2 * 2 if kind == "unnamed constants" else depth


def levels_of_types(kind, depth):
    """How many levels its types have, of which an array of four numbers has two."""
    if kind in ("array types", "pointer types", "zero values", "struct types", "parts", "compositions", "global compositions"):
        return depth
    return {"places": depth - 1, "unnamed constants": depth // 2}.get(kind, 2)
