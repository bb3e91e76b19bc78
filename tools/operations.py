#!/usr/bin/env python3
"""Lists the functions of built libraries by their operations, most first, and what their proofs may cost.

    tools/operations.py [--over N] [CRATE ..]

Without a crate's name it takes all libraries that are built; with --over N it lists functions of more than N
operations alone. For each function: operations, seconds on busy cores by the formula of `seconds`, and the name
as the compiler has it.

A proof goes through a function's operations one by one: the assignments, calls, branches and sequences that the
compiler made of it, with each derived drop opened where it may happen. The file mir.json of a built library lists
each function with its `body`, in which each entry is one operation. A library is built by `rt lib` in its folder,
by `rt check` in the folder of a crate above it, and by `rt ci`. Programs have no such file.
"""
import json
import os
import re
import shutil
import sys

TOP = os.path.dirname(os.path.dirname(os.path.abspath(__file__)))


class NotBuilt(Exception):
    """Says why nothing can be read of a crate's operations."""


def seconds(operations):
    """The seconds that a proof of a function takes on busy cores, fitted to the proofs of some thirty crates."""
    return 0.6 + 0.047 * operations + 0.00012 * operations**2


def crates_listed():
    """The crates of crates.txt, in its order: of each the crates of the repository that it names."""
    with open(os.path.join(TOP, "crates.txt"), encoding="utf-8") as it:
        lines = [line.partition("#")[0].strip() for line in it]
    parts = [line.partition(":") for line in lines if line]
    named = {head.split()[0]: re.findall(r"[\w-]+", uses) for head, _, uses in parts}
    return {crate: [it for it in uses if it in named] for crate, uses in named.items()}


def with_all_below(crate, crates):
    """The crate and all that it stands on."""
    found, left = set(), [crate]
    while left:
        it = left.pop()
        if it not in found:
            found.add(it)
            left += crates[it]
    return found


def sources(crate):
    """The files of a crate's source."""
    for at, _, names in os.walk(os.path.join(TOP, "crates", crate, "src")):
        yield from (os.path.join(at, name) for name in sorted(names) if name.endswith(".rt"))


def is_library(crate):
    return not os.path.exists(os.path.join(TOP, "crates", crate, "src/main.rt"))


def built_folder(crate):
    return os.path.join(TOP, "crates", crate, "out/rlib")


def mir_file(crate):
    return os.path.join(built_folder(crate), f"{crate}.rlib/toolchain/mir.json")


def newer_source(crate, crates, built):
    """A source file that has changed since then, in the crate or below it, or None."""
    for it in sorted(with_all_below(crate, crates)):
        for file in sources(it):
            if os.stat(file).st_ctime > built:
                return os.path.relpath(file, TOP)
    return None


def operations_of(crate, crates):
    """The functions of a built library with their operations. NotBuilt if it isn't there, older than its source or unreadable."""
    file = mir_file(crate)
    short = os.path.relpath(file, TOP)
    try:
        # (a library that rt takes over from an earlier run is a new link to an old file: its last change is when it came)
        newer = newer_source(crate, crates, os.stat(file).st_ctime)
        with open(file, encoding="utf-8") as it:
            found = [(name, len(function["body"])) for name, function in json.load(it)]
    except FileNotFoundError:
        raise NotBuilt(f"{crate} isn't built: there is no {short}") from None
    except (OSError, ValueError, TypeError, KeyError) as fault:
        raise NotBuilt(f"{crate}: {short} isn't a list of functions with bodies: {fault}") from None
    if newer:
        raise NotBuilt(f"{crate}: {newer} has changed since it was built")
    return found


def clear_outdated():
    """Removes built libraries that are older than their source, which any run would build anew."""
    crates = crates_listed()
    for crate in filter(is_library, crates):
        file = mir_file(crate)
        if os.path.exists(file) and newer_source(crate, crates, os.stat(file).st_mtime):
            shutil.rmtree(built_folder(crate))


def main(words):
    over = -1
    if words[:1] == ["--over"]:
        if len(words) < 2 or not words[1].isdigit():
            sys.exit("operations: --over wants a number")
        over, words = int(words[1]), words[2:]
    crates = crates_listed()
    for it in words:
        if it not in crates or not is_library(it):
            sys.exit(f"operations: {it} is no library of crates.txt")
    found, faults = [], []
    for crate in words or filter(is_library, crates):
        try:
            found += operations_of(crate, crates)
        except NotBuilt as why:
            faults.append(str(why))
    for name, count in sorted(found, key=lambda it: (-it[1], it[0])):
        if count > over:
            print(f"{count:5d} {seconds(count):7.1f}  {name}")
    print(f"{len(found)} functions, {sum(count for _, count in found)} operations, "
          f"about {sum(seconds(count) for _, count in found):.0f} s")
    if words:
        for it in faults:
            print(f"operations: {it}", file=sys.stderr)
        return 1 if faults else 0
    if faults:
        print(f"{len(faults)} libraries aren't built, or have changed since")
    return 0


if __name__ == "__main__":
    sys.exit(main(sys.argv[1:]))
