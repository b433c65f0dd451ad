#!/usr/bin/env python3
"""Notes what each part of a gate costs, for gate.py: it looks once a second at the processes that a shell started, and
writes a line for each part to a file, as soon as the part has ended: what it is, its crate, when it began and ended, by
the clock in seconds, how many seconds of a processor it took, and the most bytes of memory.

    python3 bench/times/sample.py FILE PID </dev/null >/dev/null 2>&1 &

A part is a check, a build or a run that `rt ci` started, or another command of the shell. It only reads /proc, ends when
the shell of this PID does, and nothing waits for it. What takes less than a second may be missed.
"""

import os
import re
import sys
import time
from pathlib import Path

TICKS, PAGE = os.sysconf("SC_CLK_TCK"), os.sysconf("SC_PAGE_SIZE")


class Process:
    """What /proc tells of a process."""

    def __init__(self, pid):
        after = Path(f"/proc/{pid}/stat").read_text().rpartition(")")[2].split()
        self.pid, self.above, self.is_ended = pid, int(after[1]), after[0] == "Z"
        # Its own time of a processor and that of the children it waited for; when it began, in ticks since the start.
        self.own, self.waited_for = (sum(map(int, after[at : at + 2])) / TICKS for at in (11, 13))
        self.began, self.memory = int(after[19]) / TICKS, PAGE * int(after[21])

    def words(self):
        """The words of its command, none where it has ended."""
        return Path(f"/proc/{self.pid}/cmdline").read_bytes().decode(errors="replace").split("\0")[:-1]

    def folder(self):
        """Where it runs."""
        return os.readlink(f"/proc/{self.pid}/cwd")


def processes():
    """All that run, by their numbers."""
    found = {}
    for name in os.listdir("/proc"):
        if name.isdigit():
            try:
                found[int(name)] = Process(int(name))
            except (OSError, ValueError, IndexError):
                pass
    return found


def part_of(process, is_of_shell):
    """What a process does, as a word and the name of its crate or script, or None where it is part of another's."""
    try:
        words, folder = process.words(), process.folder()
    except OSError:
        return None
    program = os.path.basename(words[0]) if words else ""
    run = re.search(r"/rt-run-[^/]*/bin/(\w+)", " ".join(words))
    if run:
        return ("run tests" if run[1].endswith("_tests") else "run"), run[1].removesuffix("_tests")
    if program == "rattle" and "--crate-name" in words:
        crate = words[words.index("--crate-name") + 1]
        if "/rt-edit-" in folder:
            return "edits", crate
        if "--crate-checked" in words:
            return "build", crate
        return ("tests" if "--test" in words else "proof"), crate
    if program == "rattle-link":
        return "build", os.path.basename(folder)
    if is_of_shell:
        scripts = [it for it in words[:3] if not it.startswith("-") and os.path.basename(it) not in ("python3", "bash", "sh", "env")]
        name = " ".join(os.path.relpath(it, folder) if it.startswith("/") else it for it in scripts[:1])
        return "command", "rt ci" if re.search(r"\brt ci\b", " ".join(map(os.path.basename, words))) else name or program
    return None


class Part:
    """A part of the gate, and what was seen of it."""

    def __init__(self, began):
        self.kind = self.name = None
        self.began = self.ended = began
        # Seconds of a processor, with those of the parts inside it, and the most memory.
        self.whole, self.memory, self.inside = 0.0, 0, []

    def line(self):
        """What stands of it in the file."""
        own = max(self.whole - sum(it.whole for it in self.inside), 0)
        return f"{self.kind}\t{self.name}\t{self.began:.0f}\t{self.ended:.0f}\t{own:.1f}\t{self.memory}\n"


class Parts:
    """The parts that run below a shell."""

    def __init__(self, file, shell):
        self.file, self.shell, self.running = file, shell, {}
        # So much is to be added to the time since the start to get the clock's.
        self.start = time.time() - time.clock_gettime(time.CLOCK_BOOTTIME)

    def look(self):
        """Notes what runs now, and writes what runs no longer. It gives whether the shell is there."""
        found, below, taken = processes(), {}, {}
        for it in found.values():
            below.setdefault(it.above, []).append(it)

        def visit(process, above, is_of_shell):
            key, part = (process.pid, process.began), above
            is_inside = above is not None and above.kind != "command"
            told = None if is_inside else part_of(process, is_of_shell)
            if told:
                # Until it runs a program of its own a process has the words of the one that began it.
                part = self.running.setdefault(key, Part(self.start + process.began))
                part.kind, part.name = told
                if above is not None and part not in above.inside:
                    above.inside.append(part)
            if part:
                times, memory = taken.get(part, (0, 0))
                taken[part] = times + process.own + process.waited_for, memory + process.memory
            for child in below.get(process.pid, []):
                visit(child, part, False)

        is_there = self.shell in found and not found[self.shell].is_ended
        for child in below.get(self.shell, []) if is_there else []:
            if child.pid != os.getpid():
                visit(child, None, True)
        now = time.time()
        for part, (times, memory) in taken.items():
            part.whole, part.memory, part.ended = max(part.whole, times), max(part.memory, memory), now
        for key in [key for key, part in self.running.items() if part not in taken]:
            self.write(self.running.pop(key))
        return is_there

    def write(self, part):
        """Adds the line of a part to the file."""
        with open(self.file, "a") as to:
            to.write(part.line())


def main(file, shell):
    os.makedirs(os.path.dirname(file) or ".", exist_ok=True)
    with open(file, "w") as to:
        to.write("part\tname\tbegan\tended\tprocessor\tmemory\n")
    parts = Parts(file, shell)
    while parts.look():
        time.sleep(1)
    for part in parts.running.values():
        parts.write(part)


if __name__ == "__main__":
    main(sys.argv[1], int(sys.argv[2]))
