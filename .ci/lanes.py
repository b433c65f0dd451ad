"""Prints how many proofs `rt ci` is to run side by side, or nothing where it is to reckon that by itself.

It reckons the memory of a proof by its lines, at up to 12 GB, and leaves processors idle where so much isn't free.
One proof was seen to take 6, and four side by side 12. So it is told to use all processors where 5 to 12 GB are free
for each and no control group sets bounds. Told so, it takes no heed of memory, and proves each crate by one process.
"""
import os

# Bytes for each processor: from where on it is told, and from where on it needs no telling.
ENOUGH, RECKONED = 5_000_000_000, 12_000_000_000
# What bounds memory and processors, and the word or number of no bound.
BOUNDS = [
    ("/sys/fs/cgroup/memory.max", "max"),
    ("/sys/fs/cgroup/cpu.max", "max"),
    ("/sys/fs/cgroup/memory/memory.limit_in_bytes", "9223372036854771712"),
    ("/sys/fs/cgroup/cpu/cpu.cfs_quota_us", "-1"),
]


def first_word(file):
    """The first word of a file, or None where there is no such file."""
    try:
        with open(file) as text:
            return (text.read().split() or [None])[0]
    except OSError:
        return None


def available():
    """The bytes of memory that are free, or 0 where the system doesn't tell."""
    try:
        with open("/proc/meminfo") as lines:
            told = dict(line.split(":", 1) for line in lines)
        return 1024 * int(told["MemAvailable"].split()[0])
    except (OSError, KeyError, ValueError, IndexError):
        return 0


def lanes():
    """The number, or None."""
    if any(first_word(file) not in (None, unbound) for file, unbound in BOUNDS):
        return None
    processors = len(os.sched_getaffinity(0))
    return processors if ENOUGH * processors <= available() < RECKONED * processors else None


if __name__ == "__main__":
    print(lanes() or "")
