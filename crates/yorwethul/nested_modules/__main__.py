"""How much of the stack a level takes, and whether any module ends the program with a signal.

    python3 crates/yorwethul/nested_modules PROGRAM
        asks the program, with 8 MB of stack, for modules of each kind that are nested 10 to 1,000,000 deep, in each of its
        ways, and for texts that double; each is to be answered by its status and its whole line. It says what was not.
    python3 crates/yorwethul/nested_modules PROGRAM gate
        the same in a minute or two, as `.ci/run` does: texts of all, and the other ways just at the limit and a level past
        it, and of some kinds a million deep. Nothing is said where each is answered so.
    python3 crates/yorwethul/nested_modules PROGRAM levels
        says how many bytes of the stack a level of each kind takes, by the deepest module that the program writes in 1 MB
        and in 2 MB.

With the last words `--nesting N` the program is asked with them.
"""

import json
import resource
import subprocess
import sys
from concurrent.futures import ThreadPoolExecutor

from modules import KINDS, blocks, doubled, levels, levels_of_types, nested

MEGABYTE = 1 << 20
# A stack that holds as many levels as are asked for.
MUCH = 1 << 31
WITHOUT_LIMITS = ["--nesting", "4294967295", "--text", "4294967295"]
# How deep a module may be where no word says it.
STANDARD = 4_000
MILLION = 1_000_000
DEPTHS = [10, 100, 1_000, 10_000, 100_000, MILLION]
WRITTEN = ""
WAYS = [WRITTEN, "--check", "--layout", "--explain", "--lines"]
# Of these kinds the gate asks for each way a million deep.
LONG = ["negations", "array types"]
# So many blocks nest as deep as JSON may, in the 127 lists and objects in one another that it may have.
DEEPEST_BLOCKS = 61
TOO_LONG = "refused: text too long\n"


def run(program, text, stack, *words):
    """The status with which the program ends in so much stack, its output and its error output."""
    # what is begun from here has this limit too; all that run at once are asked with the same
    resource.setrlimit(resource.RLIMIT_STACK, (stack, resource.getrlimit(resource.RLIMIT_STACK)[1]))
    done = subprocess.run([program, *filter(None, words)], input=text.encode(), capture_output=True)
    return done.returncode, done.stdout.decode(), done.stderr.decode()


def asked(limit, is_short):
    """Kinds, how deep, and in which way."""
    for depth in sorted({*DEPTHS, limit, limit + 1}):
        for kind in KINDS:
            for way in WAYS:
                if not is_short or is_asked_in_short(limit, kind, depth, way):
                    yield kind, depth, way


def is_asked_in_short(limit, kind, depth, way):
    # their texts are long, and are made for each way but two
    is_long_text = "compositions" in kind and depth == limit and way in ("--explain", "--lines")
    is_at_limit = depth in (limit, limit + 1) and not is_long_text
    return way == WRITTEN or is_at_limit or depth == MILLION and kind in LONG


def is_written(way, status, out, err):
    """Whether this is what is answered of a module that has a text."""
    wholes = {"--check": "accepted\n", "--explain": "written\n"}
    begins = {WRITTEN: "", "--layout": "", "--lines": '{"text":"'}
    is_out = out == wholes[way] if way in wholes else out.startswith(begins[way])
    return status == 0 and is_out and err == ""


def is_refused(way, line, status, out, err):
    """Whether this is what is answered of a module that is refused with this line."""
    if way == "--explain":
        return (status, out, err) == (1, line, "")
    if way == "--lines":
        reason = line.removeprefix("refused: ").rstrip()
        told = json.loads(out) if out.endswith("\n") else None
        return (status, err) == (0, "") and told and told.pop("text") is not None and told == {"refused": reason}
    return (status, out, err) == (1, "", f"standard input: {line}")


def is_right(kind, depth, way, limit, told):
    """Whether this is what is to be answered of such a module."""
    if levels_of_types(kind, depth) > limit:
        return is_refused(way, "refused: nested too deep: types\n", *told)
    if levels(kind, depth) > limit:
        return is_refused(way, "refused: nested too deep: operands\n", *told)
    # each of these spells its type, which is as deep, or half as deep
    if "compositions" in kind and depth == STANDARD and way in (WRITTEN, "--explain", "--lines"):
        return is_refused(way, TOO_LONG, *told)
    return is_written(way, *told)


def is_right_of_blocks(depth, status, out, err):
    """Whether this is what is to be answered of blocks that deep."""
    if depth <= DEEPEST_BLOCKS:
        return is_written(WRITTEN, status, out, err)
    return (status, out, err) == (2, "", "standard input: lists and objects nest more than 127 deep\n")


def short(told):
    return ", ".join(repr(part[:100]) if isinstance(part, str) else f"status {part}" for part in told)


def fault_of(program, words, limit, kind, depth, way):
    told = run(program, nested(kind, depth), 8 * MEGABYTE, way, *words)
    return None if is_right(kind, depth, way, limit, told) else f"{kind}, {depth} deep, {way or 'written'}: {short(told)}"


def faults(program, words, limit, is_short=False):
    """What was not answered so."""
    with ThreadPoolExecutor(4) as pool:
        yield from filter(None, pool.map(lambda each: fault_of(program, words, limit, *each), asked(limit, is_short)))
    for depth in (10, 100, 1_000):
        told = run(program, doubled(depth), 8 * MEGABYTE, *words)
        is_deep = 2 * depth >= limit
        line = "refused: nested too deep: operands\n" if is_deep else TOO_LONG
        if not (is_written(WRITTEN, *told) if depth == 10 else is_refused(WRITTEN, line, *told)):
            yield f"doubled {depth} times: {short(told)}"
    for depth in (10, DEEPEST_BLOCKS, DEEPEST_BLOCKS + 1, 100, 1_000, 100_000 if is_short else MILLION):
        told = run(program, blocks(depth), 8 * MEGABYTE, *words)
        if not is_right_of_blocks(depth, *told):
            yield f"blocks, {depth} deep: {short(told)}"


def stands(program, text, stack, words):
    """Whether the program answers in so much stack. It allows no more levels than the stack holds that it begins with, so
    that is much, and made less as soon as it has told how many those are."""
    hard = resource.getrlimit(resource.RLIMIT_STACK)[1]
    much = lambda: resource.setrlimit(resource.RLIMIT_STACK, (MUCH, hard))
    with subprocess.Popen([program, *words, *WITHOUT_LIMITS], stdin=subprocess.PIPE, stdout=subprocess.DEVNULL,
                          stderr=subprocess.PIPE, preexec_fn=much) as child:
        child.stderr.readline()
        resource.prlimit(child.pid, resource.RLIMIT_STACK, (stack, hard))
        child.communicate(text.encode())
    return child.returncode >= 0


def deepest(program, kind, stack, words):
    """How deep the deepest module of the kind is that the program answers in so much stack."""
    low, high = 2, 4
    while stands(program, nested(kind, high), stack, words):
        low, high = high, 2 * high
        if high > MUCH // 4_096:
            return None
    while high - low > low // 64:
        middle = (low + high) // 2
        low, high = (middle, high) if stands(program, nested(kind, middle), stack, words) else (low, middle)
    return low


def tell_levels(program):
    for kind in KINDS:
        words = ["--layout"] if kind == "struct types" else []
        one, two = (deepest(program, kind, n * MEGABYTE, words) for n in (1, 2))
        told = f"{MEGABYTE // (two - one)} bytes a level" if one and two else "no bound"
        print(f"{kind}: {one} levels in 1 MB, {two} in 2 MB, {told}", flush=True)


def main():
    program, *words = sys.argv[1:]
    way = words.pop(0) if words[:1] in (["gate"], ["levels"]) else None
    if way == "levels":
        tell_levels(program)
        return
    limit = int(words[1]) if words[:1] == ["--nesting"] else STANDARD
    found = list(faults(program, words, limit, way == "gate"))
    if found or way != "gate":
        print("\n".join(found) if found else "each was answered so")
    sys.exit(1 if found else 0)


main()
