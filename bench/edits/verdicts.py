"""What a check says of an edit: which clause of which function stays open, or why that isn't known."""

import re

# An error by which a text isn't read, where an edit that only makes a statement false reads well.
UNREAD = r"is not in scope|has no field|has no `|is no name|was not admitted|operand is missing|expected the end|cannot continue"
# A limit of the prover's own.
LIMIT = r"antt ran out of|outgrew the memory limit|stopped at the step limit"


def judged(status, said, functions):
    """What a check with an edit comes to, as a word and what is to be told: of 'refused' the clauses that stay open, as
    pairs of a function and a clause; of 'proved' nothing; of 'bad' and 'unknown' why. These are the functions that the edit
    changes, as far as that is known."""
    lines = said.rstrip("\n").split("\n")
    last = lines[-1]
    if status == 0:
        return "proved", None
    if re.search(r"module .Rattle-\w+-.*Run the lower steps again", said):
        return "unknown", "the library of a crate below is of other sources: make it again"
    if status != 1 or re.search(LIMIT, said):
        return "unknown", next((it for it in lines if re.search(LIMIT, it)), f"status {status}: {last}")[:300]
    if not last.startswith(("only=", "logic=")):
        return "bad", next((it for it in lines if re.search(r"\berror\b", it)), last)[:300]
    found = open_clauses(lines, functions)
    if found:
        return "refused", found
    errors = [it for it in lines if ": error" in it]
    return "bad", "it takes away what a file names: " + (errors[0] if errors else last)[:300]


def open_clauses(lines, functions):
    """The clauses that stay open, in the order in which they are told."""
    found = []
    for line in lines:
        told = re.match(r"(?:\./)?proofs/(\S+?)\.antt:\d+:\d+: error: (?:`([^`]*)`: )?(.*)", line)
        if told and told[2] and not re.search(UNREAD, re.sub(r"`[^`]*`", "", told[3])):
            found.append(clause_in(told[1], told[2], functions))
        told = re.match(r"fn \S+: no proof: .*?proofs/(\S+)\.antt; `search` did not prove (.*)", line)
        if told:
            found += [clause_in(told[1], goal, functions) for goal in re.findall(r"`([^`]*)`", told[2])]
    return list(dict.fromkeys(found))


def clause_in(file, goal, functions):
    """The function and the clause that a goal in this file of proofs/ is of. Functions that call one another have one file,
    in a folder `+NAME`, where each goal begins with its function."""
    *above, name = re.sub(r"/(Answers|Invariants|Proof)$", "", file).split("/")
    if name.startswith("+"):
        names = {it.split("::")[-1]: it for it in functions or ()}
        if name[1:] in names and not goal.startswith(f"{name[1:]}-"):
            return names[name[1:]], clause_of(goal)
        name, _, goal = goal.partition("-")
        return names.get(name, "::".join([*above, name])), clause_of(goal)
    return "::".join([*above, name]), clause_of(goal)


def clause_of(goal):
    """The clause that a goal is of, by the goal's name: `returns-in_err-told-clause-placed` is of the clause `placed`,
    `write_name-named-requires-clause-can` of `write_name.can`, `returns` of `ensures`, which has no name, and
    `loop-index-preserved` of `index.invariant`. The name of any other goal stays."""
    named = re.search(r"-clause-(.+)$", goal)
    called = re.match(r"(\w+)(?:-.*)?-requires(?:-|$)", goal)
    if called:
        return f"{called[1]}.{named[1] if named else 'requires'}"
    if named:
        return named[1]
    loop = re.match(r"loop-(\w+)(?:-\d+)?-(\w+)", goal)
    if loop:
        return f"{loop[1]}.{'invariant' if loop[2] in ('preserved', 'init') else 'decreases'}"
    return "ensures" if goal.split("-")[0] == "returns" else goal
