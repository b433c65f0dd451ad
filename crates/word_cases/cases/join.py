#!/usr/bin/env python3
"""Makes the files stdin and stdout of word_cases of the case files beside this script.

`join.py` writes both, and `join.py --check` says whether they are what it would write. README.md tells how a case is
written.
"""

import json
import re
import sys
from pathlib import Path

sys.dont_write_bytecode = True
HERE = Path(__file__).resolve().parent
CRATE = HERE.parent
sys.path.insert(0, str(CRATE.parent / "wgsl_cases" / "cases"))
from made import check_or_write  # noqa: E402

MEMBER = re.compile(r"([a-z]+): (.*)")
REPEATED = re.compile(r'("[^"]*") \* (\d+)')
PARTS = ["Plane(0)", "Plane(1)", "Plane(2)", "Params"]

# Where an item of a list stands in a module.
LISTS = {
    "types": lambda items: {"types": [{"inner": item} for item in items]},
    "spaces": lambda items: {"global_variables": [{"space": item, "ty": 0} for item in items]},
    "predeclared": lambda items: {"special_types": {"predeclared_types": [[item, 0] for item in items]}},
    "bindings": lambda items: {"functions": [{"arguments": [{"ty": 0, "binding": item} for item in items]}]},
    "mathematics": lambda items: {"functions": [{"expressions": [{"Math": {"fun": item, "arg": 0}} for item in items]}]},
}


class CaseError(Exception):
    """What is wrong with a case file."""


class Case:
    """A case, with its members and its rows."""

    def __init__(self, name):
        self.name = name
        self.asks = ""
        self.members = {}
        self.rows = []


def cases_of(file):
    """The cases of a file."""
    cases, lines = [], file.read_text(encoding="utf-8").splitlines()
    for number, line in enumerate(lines, 1):
        where = f"{file.name}:{number}"
        if not line or line.startswith("# "):
            continue
        if line.startswith("case "):
            cases.append(Case(line[len("case "):]))
        elif not cases:
            raise CaseError(f"{where}: no case begins before")
        elif line.startswith("asks "):
            cases[-1].asks = line[len("asks "):]
        elif line.startswith("like "):
            cases[-1].members |= members_of(where, cases, line[len("like "):])
        elif line.startswith(" "):
            last = list(cases[-1].members)[-1]
            cases[-1].members[last] += line.strip()
        elif " => " in line:
            asked, wanted = line.rsplit(" => ", 1)
            cases[-1].rows.append((json_of(where, asked), wanted))
        elif MEMBER.fullmatch(line):
            member, told = MEMBER.fullmatch(line).groups()
            cases[-1].members[member] = told
        else:
            raise CaseError(f"{where}: no row and no member")
    return cases


def members_of(where, cases, name):
    """The members of a case that stands before."""
    found = [case for case in cases if case.name == name]
    if not found:
        raise CaseError(f"{where}: no case `{name}` stands before")
    return found[0].members


def json_of(where, text):
    """The value that a row asks about."""
    repeated = REPEATED.fullmatch(text)
    try:
        return json.loads(repeated.group(1)) * int(repeated.group(2)) if repeated else json.loads(text)
    except ValueError as error:
        raise CaseError(f"{where}: {error}") from error


def handle(index):
    """The debug text of a handle."""
    return f"ItemIndex {{ index: {index}, mark: PhantomData<_> }}"


def is_external(module, ty):
    types = module.get("types", [])
    image = types[ty]["inner"].get("Image", {}) if ty < len(types) else {}
    return image.get("class") == "External"


def keys_of(module):
    """The keys of what a module declares, as `NameKey` shows them."""
    keys = []
    for ty, item in enumerate(module.get("types", [])):
        keys.append(f"Type_({handle(ty)})")
        members = item["inner"].get("Struct", {}).get("members", [])
        keys += [f"StructMember({handle(ty)}, {index})" for index in range(len(members))]
    keys += [f"EntryPoint({index})" for index in range(len(module.get("entry_points", [])))]
    for function, item in enumerate(module.get("functions", [])):
        keys.append(f"Function({handle(function)})")
        for index, argument in enumerate(item.get("arguments", [])):
            of_argument = f"FunctionArgument({handle(function)}, {index}"
            keys.append(f"{of_argument})")
            if is_external(module, argument["ty"]):
                keys += [f"ExternalTexture{of_argument}, {part})" for part in PARTS]
    for variable, item in enumerate(module.get("global_variables", [])):
        keys.append(f"GlobalVariable({handle(variable)})")
        if is_external(module, item["ty"]):
            keys += [f"ExternalTextureGlobalVariable({handle(variable)}, {part})" for part in PARTS]
    keys += [f"Constant({handle(index)})" for index in range(len(module.get("constants", [])))]
    keys += [f"Override({handle(index)})" for index in range(len(module.get("overrides", [])))]
    return keys


def lines_of_names(case, module, named):
    """What the program prints of the names: each after its key, in the order of these lines."""
    keys, names = keys_of(module), named.split()
    if len(keys) != len(names):
        raise CaseError(f"{case.name}: {len(names)} names for {len(keys)} keys")
    # the one that the map had before
    return sorted([f"{key}: {name}" for key, name in zip(keys, names)] + ["EntryPoint(65535): kept"])


def asked_of(case):
    """What the program reads of a case, and the lines that it must print, for each line of its input."""
    members = {member: json.loads(told) for member, told in case.members.items()}
    asked, wanted = [asked for asked, _ in case.rows], [wanted for _, wanted in case.rows]
    if case.asks == "names":
        return [(case.name, {"asks": "names", **members, "labels": asked}, wanted)]
    if case.asks == "items":
        named = lines_of_names(case, members["module"], members.pop("named"))
        return [(case.name, {"asks": "items", **members, "labels": asked}, named + wanted)]
    if case.asks == "types":
        types = [told if isinstance(told, int) else {"Value": told} for told in asked]
        return [(case.name, {"asks": "types", **members, "info": {"const_expression_types": types}}, wanted)]
    if case.asks.startswith("words of ") and case.asks[len("words of "):] in LISTS:
        module = LISTS[case.asks[len("words of "):]](asked)
        return [(case.name, {"asks": "words", "module": module}, wanted)]
    if case.asks == "severity":
        return [(f"{case.name}: {json.dumps(word)}", {"asks": "severity", "severity": word}, [told]) for word, told in case.rows]
    if case.asks == "rule":
        return [(f"{case.name}: {json.dumps(word)}", {"asks": "rule", **rule_of(word)}, [told]) for word, told in case.rows]
    raise CaseError(f"{case.name}: nothing known is asked")


def rule_of(word):
    """A word, or two of a list: those of a tool."""
    return {"rule": word} if isinstance(word, str) else {"tool": word[0], "rule": word[1]}


def joined():
    """What the program reads, and what it must print."""
    read, printed, names = [], [], set()
    for file in sorted(HERE.glob("*.cases")):
        for case in cases_of(file):
            for name, line, wanted in asked_of(case):
                if name in names:
                    raise CaseError(f"a case `{name}` stands before")
                names.add(name)
                if not wanted:
                    raise CaseError(f"{name}: nothing is expected")
                read.append(json.dumps({"name": name, **line}, ensure_ascii=False, separators=(",", ":")) + "\n")
                printed += [f"== {name}\n"] + [f"{line}\n" for line in wanted]
    return {"stdin": "".join(read), "stdout": "".join(printed)}


def main(words):
    try:
        wanted = joined()
    except CaseError as error:
        print(error, file=sys.stderr)
        return 1
    return check_or_write(words, __file__, CRATE, wanted)


if __name__ == "__main__":
    sys.exit(main(sys.argv[1:]))
