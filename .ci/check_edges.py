#!/usr/bin/env python3
"""Refuses a dependency in crates.txt that its crate doesn't cite: each one makes the crate wait for another, and be checked again with it.

A library is cited by a path that begins with its name in src/, as `use NAME::..`, or by `Rattle.NAME.` in src/, specs/ or proofs/.
"""

import pathlib
import re
import sys

ROOT = pathlib.Path(__file__).resolve().parent.parent

# What the toolchain wants of a crate that doesn't cite it: (crate, dependency), and why.
EXCEPTIONS = {}


def listed():
    """The dependencies of each crate that crates.txt lists."""
    found = {}
    for line in (ROOT / "crates.txt").read_text(encoding="utf-8").splitlines():
        head, colon, rest = line.partition("#")[0].partition(":")
        if colon:
            found[head.split()[0]] = rest.split()
    return found


def code(crate, folder, ending, comment):
    """The lines of a crate's files below a folder, without those that are comments."""
    files = sorted((ROOT / "crates" / crate / folder).rglob("*" + ending))
    lines = (line for file in files for line in file.read_text(encoding="utf-8").splitlines())
    return "\n".join(line for line in lines if not line.lstrip().startswith(comment))


def cites(rust, logic, name):
    """Whether code or definitions and proofs name a library."""
    return bool(re.search(rf"(?<![\w:]){name}::", rust) or re.search(rf"\bRattle\.{name}\.", rust + "\n" + logic))


def main():
    crates = listed()
    if not crates:
        print("crates.txt lists no crate")
        return 1
    faults, edges = [], set()
    for crate, names in crates.items():
        rust = code(crate, "src", ".rt", "//")
        logic = "\n".join(code(crate, folder, ".antt", "--") for folder in ("specs", "proofs"))
        if not rust:
            faults.append(f"{crate}: there is no code in crates/{crate}/src")
        for name in names:
            if (crate, name) in edges:
                faults.append(f"{crate}: {name} is listed twice")
            edges.add((crate, name))
            if not cites(rust, logic, name) and (crate, name) not in EXCEPTIONS:
                faults.append(f"{crate}: {name} is listed, and not cited")
            elif cites(rust, logic, name) and (crate, name) in EXCEPTIONS:
                faults.append(f"{crate}: {name} is cited, so it is no exception")
    faults += [f"{crate}: {name} is an exception, and not listed" for crate, name in EXCEPTIONS if (crate, name) not in edges]
    for fault in faults:
        print(fault)
    print(f"{len(edges)} dependencies of {len(crates)} crates, {len(faults)} faults")
    return 1 if faults else 0


if __name__ == "__main__":
    sys.exit(main())
