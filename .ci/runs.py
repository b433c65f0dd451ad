#!/usr/bin/env python3
"""runs.py PROGRAM FOLDER

Runs the program as each `FOLDER/*.runs` says, and compares what it prints, what it tells and its status. It prints each run that
ends otherwise, and nothing where all are as they should be; its status is 0 then. FOLDER lies in the folder of the crate, by whose
name the runs call the program.

A run begins with a line of Bash, and ends with the status. Between them stand the lines that are printed and those that are told
on the error output:

    $ yorwethul --plain half.json
    ! refused: float literal: module.functions[0].expressions[0], in statement 0, in "half"
    = 1

    $ yorwethul double.json
    | fn double(x: i32) -> i32 {
    |~     return
    = 0

After `|~` or `!~` stands how the rest begins, or nothing. Else what stands there is all, and what is not there is empty. `#` begins a remark.

Each run has a folder of its own with the files `FOLDER/*.json`. Of a module with what is known of it, `half.json`, both parts stand
there alone too, as `half.module.json` and `half.info.json`.
"""

import json
import re
import subprocess
import sys
import tempfile
from concurrent.futures import ThreadPoolExecutor
from dataclasses import dataclass, field
from pathlib import Path

SECONDS = 120
# A line that is printed or told, where an empty one has no blank after its mark, and the line that ends a run.
TOLD = re.compile(r"([|!])(~)?(?: (.*))?")
STATUS = re.compile(r"= (\d+)")


class Unread(Exception):
    """Why a line of a file of runs can't be read."""


@dataclass
class Stream:
    """What is wanted of an output: a text, or how it begins."""

    text: str = ""
    is_whole: bool = True

    def add(self, line, begins):
        """Adds a line that is wanted next, or how the rest begins."""
        if not self.is_whole:
            raise Unread("a line after the one that says how the rest begins")
        self.is_whole = not begins
        self.text += line if begins else line + "\n"

    def is_told(self, told):
        return told == self.text if self.is_whole else told.startswith(self.text)


@dataclass
class Run:
    """A line of Bash, where it stands, and what is wanted of it."""

    position: str
    command: str
    out: Stream = field(default_factory=Stream)
    err: Stream = field(default_factory=Stream)
    status: int | None = None


def runs_of(path):
    """The runs of a file, in their order."""
    run = None
    for number, line in enumerate(path.read_text().splitlines(), 1):
        try:
            if line.startswith("$ ") and (run is None or run.status is not None):
                run = Run(f"{path}:{number}", line[2:])
            elif line and not line.startswith("#"):
                read_line(run, line)
                if run.status is not None:
                    yield run
        except Unread as reason:
            sys.exit(f"{path}:{number}: {reason}")
    if run is None or run.status is None:
        sys.exit(f"{path}: the last run has no status")


def read_line(run, line):
    """Reads a line of a run that has begun and has no status yet."""
    if run is None or run.status is not None or line.startswith("$"):
        raise Unread("no run has begun, or the one before has no status")
    if told := TOLD.fullmatch(line):
        mark, begins, rest = told.groups()
        (run.out if mark == "|" else run.err).add(rest or "", bool(begins))
    elif status := STATUS.fullmatch(line):
        run.status = int(status[1])
    else:
        raise Unread("no line of a run")


def fill(room, folder, program):
    """Puts into an empty folder what a run finds there, and gives the folder where its program stands."""
    for path in sorted(folder.glob("*.json")):
        text = path.read_text()
        (room / path.name).write_text(text)
        for part in ("module", "info"):
            (room / f"{path.stem}.{part}.json").write_text(json.dumps(json.loads(text)[part]))
    commands = room / "commands"
    commands.mkdir()
    (commands / folder.parent.name).symlink_to(program)
    return commands


def fault_of(run, folder, program):
    """How a run ends otherwise than it should, or nothing."""
    with tempfile.TemporaryDirectory() as name:
        room = Path(name)
        commands = fill(room, folder, program)
        environment = {"PATH": f"{commands}:/usr/local/bin:/usr/bin:/bin", "LC_ALL": "C"}
        words = ["bash", "-c", run.command]
        try:
            done = subprocess.run(words, cwd=room, env=environment, stdin=subprocess.DEVNULL, capture_output=True, timeout=SECONDS)
        except subprocess.TimeoutExpired:
            return f"{run.position}: {run.command}: no end in {SECONDS} seconds"
    out, err = done.stdout.decode(), done.stderr.decode()
    if done.returncode == run.status and run.out.is_told(out) and run.err.is_told(err):
        return None
    return f"{run.position}: {run.command}\n{shown('|', out)}{shown('!', err)}= {done.returncode}"


def shown(mark, text):
    return "".join(f"{mark} {line}".rstrip() + "\n" for line in text.splitlines())


def main():
    program, folder = (Path(word).resolve() for word in sys.argv[1:])
    runs = [run for path in sorted(folder.glob("*.runs")) for run in runs_of(path)]
    if not runs:
        sys.exit(f"{folder} has no runs")
    if not program.is_file():
        sys.exit(f"{program} is not there")
    with ThreadPoolExecutor(4) as pool:
        faults = list(filter(None, pool.map(lambda run: fault_of(run, folder, program), runs)))
    for fault in faults:
        print(fault)
    sys.exit(1 if faults else 0)


main()
