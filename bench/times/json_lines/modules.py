"""Prints small modules with what is known of them, as JSON, one a line: modules.py HOW_MANY SEED.

Each has one function of two to four arguments and four to twelve operators over integers. In one of eight modules there is
a local too, that is stored and loaded.
"""

import json
import random
import sys

I32 = {"name": None, "inner": {"Scalar": {"kind": "Sint", "width": 4}}}
OPERATORS = ["Add", "Subtract", "Multiply", "And", "ExclusiveOr", "InclusiveOr"]
POINTER = {"Value": {"Pointer": {"base": 0, "space": "Function"}}}


def module_of(rng, index):
    arguments = rng.randint(2, 4)
    expressions = [{"FunctionArgument": i} for i in range(arguments)]
    types = [0] * arguments
    values = list(range(arguments))
    body = []
    has_local = rng.randrange(8) == 0
    if has_local:
        expressions.append({"LocalVariable": 0})
        types.append(POINTER)
        body.append({"Store": {"pointer": arguments, "value": 0}})
        expressions.append({"Load": {"pointer": arguments}})
        types.append(0)
        values.append(arguments + 1)
    first = len(expressions) - has_local
    for _ in range(rng.randint(4, 12)):
        binary = {"op": rng.choice(OPERATORS), "left": rng.choice(values), "right": rng.choice(values)}
        values.append(len(expressions))
        expressions.append({"Binary": binary})
        types.append(0)
    body += [
        {"Emit": {"start": first, "end": len(expressions)}},
        {"Return": {"value": len(expressions) - 1}},
    ]
    function = {
        "name": f"mixed_{index}",
        "arguments": [{"name": f"x{i}", "ty": 0, "binding": None} for i in range(arguments)],
        "result": {"ty": 0, "binding": None},
        "local_variables": [{"name": "kept", "ty": 0, "init": None}] * has_local,
        "expressions": expressions,
        "named_expressions": {},
        "body": body,
    }
    return {"id": index, "module": {"types": [I32], "functions": [function]}, "info": {"functions": [types]}}


def main():
    rng = random.Random(int(sys.argv[2]))
    for index in range(int(sys.argv[1])):
        print(json.dumps(module_of(rng, index), separators=(",", ":")))


if __name__ == "__main__":
    main()
