#!/usr/bin/env python3
"""Tries the wrong bodies of bench/edits/feared.txt, each of which the prover must refuse by the clause that stands there.

    .ci/edits [--jobs N] [--list] [CRATE | CRATE/EDIT ..]

With no names it tries all of feared.txt; a crate stands for its lines there, or, where it has none, for the edits of its
must-fail/; CRATE/EDIT for one edit, also one of bench/edits that feared.txt doesn't have. --list names them and tries none.

It works over the libraries that a gate, or `rt lib`, left in crates/*/out/rlib, on a copy of the crate's sources, and
changes nothing in the clone. First the functions that the edits of a crate change are checked as they stand, so that what
they call is proved once; they must be proved. Then each edit is checked over what that kept: the functions whose bodies it
changes, since their contracts, and so all other proofs, stay as they were; or the whole crate, where it changes anything
else. N edits are tried at a time: by default as many as there are processors, and as 4 GB of free memory for each allow.

For each edit it prints 'CRATE/EDIT: refused by FUNCTION: CLAUSE', with each clause of which a goal stays open. Its status is 1 where one is proved, cannot be made or
read, has no verdict, or is refused by other clauses alone than feared.txt says; 2 where libraries are missing.
"""

import os
import re
import shutil
import signal
import subprocess
import sys
import tempfile
import threading
import time
from argparse import ArgumentParser, RawDescriptionHelpFormatter
from concurrent.futures import FIRST_COMPLETED, ThreadPoolExecutor, wait
from pathlib import Path

sys.dont_write_bytecode = True
import places  # noqa: E402
import verdicts  # noqa: E402

TOP = Path(__file__).resolve().parents[2]
EDITS = TOP / "bench/edits"
# What one check is taken to need of memory.
BYTES = 4_000_000_000
# The checks that run, and whether they are to end.
CHECKS, STOPPED = set(), threading.Event()


class Feared:
    """An edit, and the function and clause by which it is to be refused, where that is known."""

    def __init__(self, crate, name, refused_by=None):
        self.crate, self.name, self.refused_by = crate, name, refused_by
        places_of_it = [EDITS / crate / f"{name}.edit", TOP / "crates" / crate / "must-fail" / f"{name}.edit"]
        self.file = next((it for it in places_of_it if it.is_file()), None)
        if self.file is None:
            sys.exit(f"edits: there is no edit {crate}/{name}")

    def __str__(self):
        return f"{self.crate}/{self.name}"


def shown(refused_by):
    """A function and its clause."""
    return "%s: %s" % refused_by


def listed():
    """The edits of feared.txt."""
    found = []
    for line in (EDITS / "feared.txt").read_text().splitlines():
        words = line.partition("#")[0].split()
        if len(words) not in (0, 4):
            sys.exit(f"edits: a line of feared.txt has not four words: {line}")
        if words:
            found.append(Feared(words[0], words[1], (words[2], words[3])))
    return found


def chosen(names):
    """The edits that the names stand for: all of feared.txt where there are none."""
    every, found = listed(), []
    for name in names:
        crate, slash, edit = name.removesuffix(".edit").partition("/")
        of_crate = [it for it in every if it.crate == crate]
        if slash:
            found += [it for it in of_crate if it.name == edit] or [Feared(crate, edit)]
        else:
            own = sorted(TOP.glob(f"crates/{crate}/must-fail/*.edit"))
            found += of_crate or [Feared(crate, it.stem) for it in own] or sys.exit(f"edits: no edit of {name}")
    return found if names else every


def kit():
    """The module `rtlib` of the kit, which knows the words of a check."""
    rt = shutil.which("rt") or sys.exit("edits: there is no command rt")
    sys.path.insert(0, os.path.dirname(os.path.realpath(rt)))
    import rtlib

    return rtlib


def lacking(crates):
    """The crates whose libraries aren't there, or are of other sources, lowest first."""
    below = {it.name: it for crate in crates for it in crate.below()}
    return [name for name, crate in below.items() if not is_built(crate)]


def is_built(crate):
    """Whether a crate's library is of its sources: by the stamp of `rt lib`, or, where a gate made it, by its age."""
    stamp, made = Path(crate.folder, "out/rlib/stamp"), Path(crate.rlib, "format")
    if not made.is_file():
        return False
    if stamp.is_file():
        return crate.is_built()
    files = [it for part in ("src", "specs", "proofs") for it in Path(crate.folder, part).rglob("*") if it.is_file()]
    return all(it.stat().st_mtime <= made.stat().st_mtime for it in files)


def lanes():
    """How many checks to run at a time."""
    with open("/proc/meminfo") as lines:
        free = next((1024 * int(it.split()[1]) for it in lines if it.startswith("MemAvailable:")), 0)
    return max(1, min(len(os.sched_getaffinity(0)), free // BYTES))


class Trying:
    """A crate whose edits are tried: its sources, and what a check of them as they stand kept."""

    def __init__(self, rtlib, crate, edits, room):
        self.rtlib, self.crate, self.edits = rtlib, crate, edits
        self.seed, self.room, self.made = room / f"{crate.name}-kept", room, {}
        # Whether each check is of the whole crate, since a check knows a function by another name.
        self.is_whole = False
        for edit in edits:
            try:
                self.made[edit.name] = places.made(edit.file, Path(crate.folder))
            except (places.BadEdit, OSError, UnicodeDecodeError) as error:
                self.made[edit.name] = str(error)

    def functions(self):
        """The functions that the edits change, or None where one changes something else too."""
        found = [it[1] for it in self.made.values() if not isinstance(it, str)]
        return None if self.is_whole or None in found else sorted({path for paths in found for path in paths})

    def prepare(self, jobs):
        """Checks what the edits change as it stands, over what a check in the clone kept, and gives why it isn't proved."""
        started = Path(self.crate.folder, "out/incremental")
        try:
            if started.is_dir():
                linked(started, self.seed)
        except (OSError, shutil.Error):
            # Another check may write there meanwhile, so this one begins with nothing.
            shutil.rmtree(self.seed, ignore_errors=True)
        self.seed.mkdir(exist_ok=True)
        if self.functions() == []:
            return None
        status, said = self.check({}, self.functions(), self.seed, jobs)
        if status == 2 and self.functions() is not None:
            self.is_whole = True
            status, said = self.check({}, None, self.seed, jobs)
        return None if status == 0 else f"it is not proved as it stands: {failure(said)}"

    def try_edit(self, edit):
        """Tries an edit, and gives whether it is refused as it is to be, and what to tell."""
        if isinstance(self.made[edit.name], str):
            return False, f"BAD EDIT: {self.made[edit.name]}"
        texts, paths = self.made[edit.name]
        kept = self.room / f"{self.crate.name}-{edit.name}"
        linked(self.seed, kept)
        try:
            asked = None if self.is_whole else paths
            status, said = self.check(texts, asked, kept, 1)
            if status == -signal.SIGKILL and not STOPPED.is_set():
                status, said = self.check(texts, asked, kept, 1)
        finally:
            shutil.rmtree(kept, ignore_errors=True)
        word, told = verdicts.judged(status, said, paths)
        if word != "refused":
            return False, {"proved": "NOT REFUSED: it is proved", "bad": f"BAD EDIT: {told}"}.get(word, f"NO VERDICT: {told}")
        is_well = edit.refused_by is None or edit.refused_by in told
        # The one of feared.txt stands first.
        told.sort(key=lambda it: it != edit.refused_by)
        said = f"refused by {', '.join(map(shown, told))}"
        return is_well, said if is_well else f"{said}, and NOT by {shown(edit.refused_by)}, as feared.txt says"

    def check(self, texts, paths, kept, jobs):
        """Checks a copy of the crate with these texts in place of its own, and gives the status and what was said."""
        with tempfile.TemporaryDirectory(prefix="crate-", dir=self.room) as copy:
            for part in ("src", "specs", "proofs"):
                if Path(self.crate.folder, part).is_dir():
                    shutil.copytree(Path(self.crate.folder, part), Path(copy, part))
            for path, text in texts.items():
                Path(copy, path).write_text(text)
            words = self.crate.words(["--jobs", str(jobs)], keeps=False)
            words += ["--incremental", str(kept), *(word for path in paths or () for word in ("--only", path))]
            with subprocess.Popen(
                [*GUARD, self.rtlib.RATTLE, "check", *words], cwd=copy, stdin=subprocess.DEVNULL, stdout=subprocess.PIPE,
                stderr=subprocess.STDOUT, text=True, errors="replace") as run:
                CHECKS.add(run)
                try:
                    said = "" if STOPPED.is_set() else run.communicate()[0]
                finally:
                    CHECKS.discard(run)
        return run.returncode, said


def failure(said):
    """The lines that tell most of why a check failed."""
    lines = said.rstrip("\n").split("\n")
    told = [it for it in lines if re.search(r": error|error\[|not proved|no proof", it)] or lines
    return "\n    ".join(it[:300] for it in [*told[:4], lines[-1]])


def linked(folder, to):
    """Copies a folder of kept work. A check replaces a file of what it proved and changes none, so a link serves there."""

    def copy(one, other):
        try:
            if one.endswith(".oantt"):
                return os.link(one, other)
        except OSError:
            pass
        return shutil.copy2(one, other)

    shutil.copytree(folder, to, symlinks=True, copy_function=copy)


def try_all(tryings, number):
    """Tries the edits of these crates, so many at a time, and gives how many weren't refused as they are to be."""
    failed, begun, printing = 0, time.monotonic(), threading.Lock()
    # Processors that no other crate's first check takes.
    jobs = max(1, number // len(tryings))

    def tell(text, since):
        with printing:
            if not STOPPED.is_set():
                print(f"{text} ({time.monotonic() - since:.0f} s)", flush=True)

    def prepare(trying):
        since = time.monotonic()
        why = trying.prepare(jobs)
        tell(f"{trying.crate.name}: {why or f'what {len(trying.edits)} edits change is proved as it stands'}", since)
        return why

    def try_one(trying, edit):
        since = time.monotonic()
        is_well, text = trying.try_edit(edit)
        tell(f"{edit}: {text}", since)
        return is_well

    with ThreadPoolExecutor(number) as pool:
        running = {pool.submit(prepare, it): it for it in tryings}
        try:
            while running:
                for done in wait(running, return_when=FIRST_COMPLETED).done:
                    trying = running.pop(done)
                    if trying is None:
                        failed += not done.result()
                    elif done.result():
                        failed += len(trying.edits)
                    else:
                        running.update({pool.submit(try_one, trying, it): None for it in trying.edits})
        except BaseException:
            stop(pool)
            raise
    return failed, time.monotonic() - begun


def stop(pool):
    """Ends the checks that run, and begins no other."""
    STOPPED.set()
    pool.shutdown(wait=False, cancel_futures=True)
    for check in list(CHECKS):
        group = os.getpgid(check.pid)
        # Those of one run are a group of their own.
        os.killpg(group, signal.SIGKILL) if group != os.getpgrp() else check.kill()


def main():
    parser = ArgumentParser(prog=".ci/edits", description=__doc__, formatter_class=RawDescriptionHelpFormatter, usage="%(prog)s [--jobs N] [--list] [CRATE | CRATE/EDIT ..]")
    parser.add_argument("--jobs", type=int, help="how many edits to try at a time")
    parser.add_argument("--list", action="store_true", help="name the edits, and try none")
    parser.add_argument("names", nargs="*", metavar="NAME")
    given = parser.parse_args()
    edits = chosen(given.names)
    if given.list:
        print("\n".join(f"{it} {shown(it.refused_by) if it.refused_by else ''}".rstrip() for it in edits))
        return 0
    rtlib = kit()
    crates = [it for it in rtlib.crates_below(str(TOP)) if it.name in {edit.crate for edit in edits}]
    missing = lacking(crates)
    if missing:
        print(f"edits: of these crates there is no library, or it is older than its sources: {' '.join(missing)}. `rt ci` at the top"
              " makes all, and `rt lib` in the folder of one that one and those below it.", file=sys.stderr)
        return 2
    number = given.jobs or lanes()
    with tempfile.TemporaryDirectory(prefix=f"edits-{os.getpid()}-") as room:
        tryings = [Trying(rtlib, it, [edit for edit in edits if edit.crate == it.name], Path(room)) for it in crates]
        failed, seconds = try_all(tryings, number)
    print(f"{len(edits) - failed} of {len(edits)} edits refused as they are to be, in {seconds / 60:.1f} minutes, {number} at a time")
    return 1 if failed else 0


if __name__ == "__main__":
    # The checks end with this run, however it ends, and what it made is removed.
    for each in (signal.SIGINT, signal.SIGTERM, signal.SIGHUP):
        signal.signal(each, lambda number, _: sys.exit(128 + number))
    GUARD = kit().guarded()
    sys.exit(main())
