#!/usr/bin/env python3
"""Says where yorwethul.h, the exports of crates/yorwethul_c and what calls them differ.

It compares the calls with their parameters, the statuses and flags with their numbers, the versions, that of the program
too, and the longest text. Where it finds nothing it is quiet, and its status is 0. It reads sources alone. Run it from anywhere.
"""

import re
import sys
from pathlib import Path

BINDINGS = Path(__file__).resolve().parent.parent
TOP = BINDINGS.parent
CRATE = TOP / "crates/yorwethul_c/src"
RUST = BINDINGS / "rust"

# How a parameter of an export is declared in C; a Global has no bytes.
IN_C = {
    "Global": [],
    "&[u8]": ["const uint8_t *", "size_t"],
    "&mut [u8]": ["uint8_t *", "size_t"],
    "&mut usize": ["size_t *"],
    "u32": ["uint32_t"],
}
# How Rust declares it.
IN_RUST = {
    "const uint8_t *": "*const u8",
    "uint8_t *": "*mut u8",
    "size_t": "usize",
    "size_t *": "*mut usize",
    "uint32_t": "u32",
}
# By which word the page and the programs to copy ask for a flag.
ASKED_BY = {"explicit": "EXPLICIT_TYPES", "portable": "PORTABLE", "floats": "DECIMAL_FLOATS"}


def main():
    header = re.sub(r"/\*.*?\*/", "", (BINDINGS / "c/yorwethul.h").read_text(), flags=re.DOTALL)
    faults = [
        *differences("yorwethul.h", declared(header), "crates/yorwethul_c", exported()),
        *differences("yorwethul.h", numbers_of_header(header), "crates/yorwethul_c", numbers_of_crate()),
        *differences("yorwethul.h", in_rust(declared(header)), "bindings/rust", declared_in_rust()),
        *rust_numbers_differ(numbers_of_header(header)),
        *unknown_flags_differ(),
        *statuses_differ(numbers_of_header(header)),
        *flags_differ(numbers_of_header(header)),
        *versions_differ(numbers_of_header(header)["VERSION"]),
    ]
    for fault in faults:
        print(fault)
    sys.exit(1 if faults else 0)


def differences(here, ours, there, theirs):
    """Where two tables differ."""
    return [
        f"{name}: {ours.get(name, 'nothing')} in {here}, {theirs.get(name, 'nothing')} in {there}"
        for name in sorted({*ours, *theirs})
        if ours.get(name) != theirs.get(name)
    ]


# ---- calls


def declared(header):
    """Each call of the header with its parameters: names and types."""
    calls = re.findall(r"uint32_t (yorwethul_\w+)\(([^)]*)\);", header)
    return {name: [parameter(part) for part in parts.split(",") if part.strip() != "void"] for name, parts in calls}


def parameter(text):
    """The name of a parameter and its type."""
    words = re.fullmatch(r"\s*(.*?)(\w+)\s*", text, re.DOTALL)
    return words[2], " ".join(words[1].split())


def exported():
    """The calls that the crate exports. A slice is a pointer and a length."""
    source = (CRATE / "lib.rt").read_text()
    exports = re.findall(r'#\[unsafe\(no_mangle\)\]\npub extern "C" fn (\w+)\(([^)]*)\) -> u32', source)
    return {name: [each for part in parts.split(",") if part.strip() for each in in_c(part)] for name, parts in exports}


def in_c(part):
    """What an export's parameter is in C."""
    name, kind = (word.strip() for word in part.split(":"))
    return [(each, ty) for each, ty in zip((name, f"{name}_length"), IN_C[kind])]


def declared_in_rust():
    """The calls that the Rust crate declares."""
    source = (RUST / "src/sys.rs").read_text()
    calls = re.findall(r"pub fn (\w+)\(([^)]*)\) -> u32;", source)
    return {name: [declared_parameter(part) for part in parts.split(",") if part.strip()] for name, parts in calls}


def declared_parameter(part):
    return tuple(word.strip() for word in part.split(":"))


def in_rust(calls):
    """The calls of the header as Rust declares them."""
    return {name: [(each, IN_RUST[ty]) for each, ty in parts] for name, parts in calls.items()}


# ---- numbers


LIMITS = ("LONGEST_TEXT", "DEEPEST_NESTING")


def numbers_of_header(header):
    told = re.findall(r"YORWETHUL_(\w+) = (\d+)", header) + re.findall(r"#define YORWETHUL_(\w+) (\d+)u", header)
    return {name: int(number) for name, number in told}


def numbers_of_crate():
    told = dict(re.findall(r"Status::(\w+) => (\d+),", (CRATE / "status.rt").read_text()))
    numbers = {re.sub(r"(?<=.)(?=[A-Z])", "_", name).upper(): int(number) for name, number in told.items()}
    answers = (CRATE / "answers.rt").read_text()
    version = re.search(r"fn yorwethul_version.*?\{\n    ([\d_]+)\n\}", (CRATE / "lib.rt").read_text(), re.DOTALL)
    numbers["VERSION"] = int(version[1])
    for name in LIMITS:
        numbers[name] = int(re.search(rf"{name}: usize = ([\d_]+);", answers)[1])
    return {**numbers, **flags_of_calls()}


def flags_of_calls():
    """The writer's flags, and the one by which floats become decimal, which is the calls' own."""
    told = re.findall(r"const (\w+) = (\d+);", (TOP / "crates/naga_back/src/flags.rt").read_text())
    told += re.findall(r"const (DECIMAL_FLOATS): u32 = (\d+);", (CRATE / "answers.rt").read_text())
    return {name: int(number) for name, number in told}


def unknown_flags_differ():
    """Where a call takes more flags than there are, or less."""
    most = int(re.search(r"ALL_FLAGS: u32 = (\d+);", (CRATE / "answers.rt").read_text())[1])
    known = sum(flags_of_calls().values())
    return [] if most == known else [f"crates/yorwethul_c knows flags up to {most}, and there are those up to {known}"]


def rust_numbers_differ(wanted):
    """Where a constant of the Rust crate has another number. An unknown flag can't come there."""
    told = re.findall(r"pub const (\w+): u32 = (\d+);", (RUST / "src/sys.rs").read_text())
    left_out = {"UNKNOWN_FLAG", "VERSION", *LIMITS}
    ours = {name: number for name, number in wanted.items() if name not in left_out}
    return differences("yorwethul.h", ours, "bindings/rust", {name: int(number) for name, number in told})


def statuses_differ(wanted):
    """Where the page in web/, the library's test or Python's module gives another number to a status."""
    left_out = {"VERSION", *LIMITS, *flags_of_calls()}
    statuses = {name: number for name, number in wanted.items() if name not in left_out}
    return [
        *differences("yorwethul.h", statuses, "web/index.html", numbered(statuses_of_page())),
        *differences("yorwethul.h", statuses, "bindings/tests/test.py", numbered(statuses_of_test())),
        *differences("yorwethul.h", statuses, "bindings/python/yorwethul.py", statuses_of_python()),
    ]


def numbered(names):
    return {name: number for number, name in enumerate(names)}


def statuses_of_page():
    told = re.search(r"const statuses = \[(.*?)\];", source_of("web/index.html"))[1]
    return [name.upper().replace(" ", "_") for name in re.findall(r'"([^"]*)"', told)]


def statuses_of_test():
    return re.search(r"(?m)^(DONE, .*) = range\(\d+\)$", source_of("bindings/tests/test.py"))[1].split(", ")


def flags_differ(wanted):
    """Where the page, Python's module or the library's test gives another number to a flag."""
    flags = {name: number for name, number in wanted.items() if name in flags_of_calls()}
    told = {
        "web/index.html": asked_flags("web/index.html", r"const bitOf = {(.*)};"),
        "bindings/python/yorwethul.py": flags_of_python(),
        "bindings/tests/test.py": flags_of_test(),
    }
    return [fault for path, numbers in told.items() for fault in differences("yorwethul.h", flags, path, numbers)]


def asked_flags(path, table):
    """The flags in a table of words and numbers. A word by which none is to be asked for stands for itself."""
    told = re.findall(r'"?(\w+)"?: (\d+)', re.search(table, source_of(path))[1])
    return {ASKED_BY.get(word, word): int(number) for word, number in told}


def flags_of_python():
    told = re.search(r"class Flags.*?\n\n(.*?)\n    DEFAULT", source_of("bindings/python/yorwethul.py"), re.DOTALL)[1]
    return {name: int(number) for name, number in re.findall(r"(\w+) = (\d+)", told)}


def statuses_of_python():
    told = re.search(r"class Status.*?\n\n(.*?)\n\n", source_of("bindings/python/yorwethul.py"), re.DOTALL)[1]
    return {name: int(number) for name, number in re.findall(r"(\w+) = (\d+)", told)}


def flags_of_test():
    table = r"(?m)^(EXPLICIT_TYPES, .*) = ([\d, ]+)$"
    names, numbers = re.search(table, source_of("bindings/tests/test.py")).groups()
    return dict(zip(names.split(", "), map(int, numbers.split(", "))))


def source_of(path):
    return (TOP / path).read_text()


def versions_differ(number):
    """Where another version than the header's is told, or asked for by its first two numbers."""
    front = f"{number // 1_000_000}.{number // 1_000 % 1_000}"
    told = {
        RUST / "Cargo.toml": r'(?m)^version = "(.*)"',
        BINDINGS / "c/yorwethul.pc": r"(?m)^Version: (.*)",
        BINDINGS / "c/yorwethul-config-version.cmake": r"PACKAGE_VERSION (\d.*)\)",
        BINDINGS / "c/yorwethul.h": r"/\* (\d\S*); yorwethul_version",
        TOP / "crates/yorwethul_input/src/words.rt": r'\.version\("(.*)"\)',
    }
    asked_for = {
        BINDINGS / "rust-naga/Cargo.toml": r'(?m)^yorwethul = \{ version = "(.*?)"',
        BINDINGS / "c/CMakeLists.txt": r"find_package\(yorwethul (\S+)",
    }
    return [*other_versions(told, f"{front}.{number % 1_000}"), *other_versions(asked_for, front)]


def other_versions(patterns, wanted):
    """Where what is found in each file is not the wanted version."""
    found = {path: re.search(pattern, path.read_text()) for path, pattern in patterns.items()}
    return [
        f"{path.relative_to(TOP)}: version {match[1] if match else 'not told'}, by yorwethul.h {wanted}"
        for path, match in found.items()
        if not match or match[1] != wanted
    ]


main()
