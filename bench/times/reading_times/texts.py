"""Writes to a folder modules with what is known of them, as JSON: texts.py FOLDER. They are read, and make no sense else.

small.json is one of the modules of `bench/times/json_lines`, large.json has seven hundred functions with each common shape of an
expression and of a statement, and whole_info.json is that one with all members of an info that naga tells.
"""

import json
import random
import sys
from pathlib import Path

sys.path.insert(0, str(Path(__file__).resolve().parent.parent / "json_lines"))
from modules import I32, module_of

VECTOR = {"name": None, "inner": {"Vector": {"size": "Bi", "scalar": {"kind": "Float", "width": 4}}}}
SAMPLE = {"image": 0, "sampler": 1, "gather": None, "coordinate": 2, "array_index": None, "offset": None}
SAMPLE |= {"level": "Auto", "depth_ref": None, "clamp_to_edge": False}


def uniformity():
    return {"non_uniform_result": None, "requirements": ""}


def function_of(rng, index):
    """A function, and the types of its expressions."""
    small = module_of(rng, index)
    function = small["module"]["functions"][0]
    first = len(function["expressions"])
    function["expressions"] += [
        {"Literal": {"F32": 1.5}},
        {"Literal": {"I32": 7}},
        {"Compose": {"ty": 1, "components": [first, first]}},
        {"AccessIndex": {"base": first + 2, "index": 1}},
        {"Splat": {"size": "Tri", "value": first}},
        {"Math": {"fun": "Clamp", "arg": first, "arg1": first, "arg2": first, "arg3": None}},
        {"ImageSample": SAMPLE},
        {"As": {"expr": 1, "kind": "Float", "convert": 4}},
    ]
    function["named_expressions"] = {str(place): f"name_{place}" for place in range(0, first, 3)}
    accept = [{"Store": {"pointer": 1, "value": 2}}, {"Emit": {"start": 1, "end": 2}}]
    function["body"] += [
        {"If": {"condition": 0, "accept": accept, "reject": []}},
        {"Call": {"function": 0, "arguments": [0, 1, 2], "result": 5}},
    ]
    return function, small["info"]["functions"][0] + [0] * 8


def expression_info(ty):
    resolution = {"Handle": ty} if isinstance(ty, int) else ty
    return {"uniformity": uniformity(), "ref_count": 1, "assignable_global": None, "ty": resolution}


def function_info(types):
    """What naga tells of a function, with all its members."""
    return {
        "flags": "",
        "available_stages": "VERTEX | FRAGMENT",
        "uniformity": uniformity(),
        "may_kill": False,
        "sampling_set": [],
        "global_uses": [],
        "expressions": [expression_info(ty) for ty in types],
        "sampling": [],
        "dualsource_blending": False,
        "diagnostic_filter_leaf": None,
    }


def main():
    folder = Path(sys.argv[1])
    rng = random.Random(7)

    def write(name, value):
        (folder / f"{name}.json").write_text(json.dumps(value, separators=(",", ":")))

    write("small", module_of(rng, 0))
    functions, types = zip(*(function_of(rng, index) for index in range(700)))
    module = {"types": [I32, VECTOR], "functions": functions}
    write("large", {"module": module, "info": {"functions": types}})
    whole = {"type_flags": ["DATA", "DATA"], "functions": [function_info(each) for each in types], "entry_points": []}
    write("whole_info", {"module": module, "info": whole | {"const_expression_types": []}})


main()
