#!/usr/bin/env python3
"""Makes the files stdin and stdout of listing_cases of the case files beside this script.

`join.py` writes both, and `join.py --check` says whether they are what it would write. README.md tells how a case is
written: modules as in the cases of wgsl_cases, whose scripts read them.
"""

import json
import re
import sys
from pathlib import Path

sys.dont_write_bytecode = True
HERE = Path(__file__).resolve().parent
CRATE = HERE.parent
sys.path.insert(0, str(CRATE.parent / "wgsl_cases" / "cases"))
from importlib import util  # noqa: E402

spec = util.spec_from_file_location("wgsl_join", CRATE.parent / "wgsl_cases" / "cases" / "join.py")
wgsl = util.module_from_spec(spec)
spec.loader.exec_module(wgsl)
from made import check_or_write  # noqa: E402
from notation import CaseError, Module  # noqa: E402

LISTED = re.compile(r"(declarations|function (\d+)|entry point (\d+))(?:, ([a-z ]+?) (\d+))?(?:, beside ([a-z ]+?) (\d+))?")


# How a module is told without an info, from the members of one with it.
ALONE = {
    "info left out": lambda told: {"module": told["module"]},
    "info null": lambda told: {"module": told["module"], "info": None},
    "module bare": lambda told: {"whole": told["module"]},
}


def position_of(case, head):
    """What a line `shows POSITION` asks for."""
    match = LISTED.fullmatch(head.text[len("shows "):])
    if not match:
        raise case.error("a position is `function 0, expression 3`, and so on", head)
    whole, function, entry_point, spot, index, beside, beside_index = match.groups()
    number = function or entry_point
    told = {"listed": whole.rsplit(" ", 1)[0] if number else whole, "number": int(number or 0)}
    if spot:
        told |= {"spot": spot, "index": int(index)}
    if beside:
        told |= {"beside": beside, "beside_index": int(beside_index)}
    return told


def text_of(lines):
    """The listing: its lines without the indentation of the first."""
    depth = min(line.indent for line in lines if line.text)
    return "".join(line.raw[depth:] + "\n" for line in lines if line.text)


def joined():
    """What the program reads, and what it must print."""
    modules, read, printed = {}, [], []
    for file in sorted(HERE.glob("*.cases")):
        for made in wgsl.cases_of(file):
            for case in wgsl.rows_of(wgsl.with_definitions(made)):
                module, listings, likes, edits, forms = [], [], [], [], []
                for head, lines in wgsl.sections(case):
                    if head.text.startswith("shows "):
                        listings.append((head, lines))
                    elif head.text in ALONE:
                        forms.append(ALONE[head.text])
                    elif head.text.startswith("like "):
                        likes.append((head, head.text[len("like "):]))
                    elif "=>" in head.text:
                        edits.append(head)
                    else:
                        module += [head] + lines
                for head, name in likes:
                    if name not in modules:
                        raise case.error(f"no case `{name}` stands before", head)
                    module = wgsl.edited(case, modules[name], edits) + module
                if not listings:
                    raise case.error("nothing is shown")
                modules[case.name] = module
                told, _ = Module.of(module, case)
                for form in forms:
                    told = form(told)
                for head, lines in listings:
                    name = f"{case.name}: {head.text[len('shows '):]}"
                    line = {"name": name, **position_of(case, head), **told}
                    read.append(json.dumps(line, ensure_ascii=False, separators=(",", ":")) + "\n")
                    printed.append(f"== {name}\n{text_of(lines)}")
    for name, line, told in rows_not_read(HERE / "not_read.rows"):
        read.append(line + "\n")
        printed.append(f"== {name}\n{told}\n")
    return {"stdin": "".join(read), "stdout": "".join(printed)}


def rows_not_read(file):
    """The rows of what is no module or no info: a name, what the program reads, and what it prints. The JSON stays as it is
    written there."""
    rows, told = [], {}
    for number, text in enumerate(file.read_text(encoding="utf-8").splitlines(), 1):
        if not text or text.startswith("# "):
            continue
        word, rest = text.split(" ", 1)
        if word == "not":
            name = f"not read: row {len(rows) + 1}"
            module, info = told.get("module", "{}"), told.get("info", "{}")
            members = f'"whole":{told["whole"]}' if "whole" in told else f'"module":{module},"info":{info}'
            rows.append((name, f'{{"name":{json.dumps(name)},{members}}}', text))
            told = {}
        elif word in ("module", "info", "whole") and word not in told:
            told[word] = rest
        else:
            raise CaseError(f"{file.name}:{number}: a row has a module, an info and an answer, or the whole and an answer")
    return rows


def main(words):
    try:
        wanted = joined()
    except CaseError as error:
        print(error, file=sys.stderr)
        return 1
    return check_or_write(words, __file__, CRATE, wanted)


if __name__ == "__main__":
    sys.exit(main(sys.argv[1:]))
