"""What a program answers to modules, a line of JSON for each, as `yorwethul --lines` does."""

import json
import subprocess

# whether a text is plain, without what only standard compilers ask for, with floats as they are and with names that end
# in no digit; and whether its `let`s tell types
STYLES = [(is_plain, explicit) for is_plain in (True, False) for explicit in (False, True)]


def answers_to(program, lines):
    """What the program answers to each of these lines."""
    answer = subprocess.run([program, "--lines"], input="".join(lines).encode(), stdout=subprocess.PIPE, check=True)
    answers = answer.stdout.decode().split("\n")[:-1]
    assert len(answers) == len(lines), (len(answers), len(lines))
    return list(map(json.loads, answers))
