#!/usr/bin/env python3
"""Compares the clauses of public functions, and the definitions of a crate, between two commits.

    tools/compare_clauses.py BEFORE AFTER [CRATE ..]

It prints by name which public functions are new, gone, or have other clauses. Of each CRATE it prints the lines of `specs/` that
differ otherwise than by `use`. The status is 1 where a clause changed or a function is gone, or where such a line differs.
"""
import re
import subprocess
import sys

FUNCTION = re.compile(r"(?m)^ *pub fn (\w+)[^{;]*?((?:\n +(?:requires|ensures)[^\n]*)*)\n? *[{;]")


def git(*words):
    return subprocess.run(["git", *words], capture_output=True, text=True, check=True).stdout


def clauses(commit):
    """The clauses of each public function, by its crate and name."""
    found = {}
    for file in git("ls-tree", "-r", "--name-only", commit, "crates").split():
        if not re.fullmatch(r"crates/\w+/src/.*\.rt", file):
            continue
        for name, text in FUNCTION.findall(git("show", f"{commit}:{file}")):
            found.setdefault((file.split("/")[1], name), []).append(" ".join(text.split()))
    return {key: sorted(texts) for key, texts in found.items()}


def main(before, after, *crates):
    old, new = clauses(before), clauses(after)
    print(f"{len(old)} public functions before, {len(new)} after")
    differs = False
    for crate, name in sorted({*old, *new}):
        was, has = old.get((crate, name)), new.get((crate, name))
        if was is None:
            print(f"new: {crate}::{name}")
        elif was != has:
            differs = True
            print(f"{'gone' if has is None else 'other clauses'}: {crate}::{name}")
    for crate in crates:
        lines = git("diff", "-M", before, after, "--", f"crates/{crate}/specs").split("\n")
        for line in lines:
            if re.match(r"[-+](?![-+]|use )", line):
                differs = True
                print(f"{crate}: {line}")
    return int(differs)


if __name__ == "__main__":
    if len(sys.argv) < 3:
        sys.exit(__doc__)
    sys.exit(main(*sys.argv[1:]))
