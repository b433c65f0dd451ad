"""Which public names of naga_wgsl_out no line of crates/wgsl_tests/src/public.rt uses: run at the top of the repository.

It is quiet where there is none. That file is read by the gate, so each name stands where users find it. Modules that pass
a crate on as a whole are left out.
"""

import re
import sys
from pathlib import Path

SOURCES = Path("crates/naga_wgsl_out/src")
USED = Path("crates/wgsl_tests/src/public.rt")

MODULE = re.compile(r"^pub mod (\w+);", re.M)
PASSED_ON = re.compile(r"^pub use [\w:]+?::(?:\{([^}]*)\}|(\w+));", re.M)
DECLARED = re.compile(r"^pub (?:const )?(?:fn|struct|enum|trait|const|type) (\w+)", re.M)


def names_in(text):
    """The names that a module passes on, and those that it declares."""
    for many, one in PASSED_ON.findall(text):
        yield from filter(None, (name.strip() for name in (many or one).split(",")))
    yield from DECLARED.findall(text)


def main():
    used = USED.read_text()
    missing = [
        f"naga_wgsl_out::{module}::{name}"
        for module in MODULE.findall((SOURCES / "lib.rt").read_text())
        for name in names_in((SOURCES / f"{module}.rt").read_text())
        if not re.search(rf"^use naga_wgsl_out::{module}::{name}\b", used, re.M)
    ]
    for name in missing:
        print(f"{USED}: it does not use {name}")
    return 1 if missing else 0


if __name__ == "__main__":
    sys.exit(main())
