#!/usr/bin/env python3
"""Tries the edits of some crates: wrong bodies that the prover has to refuse.

    tools/try_edits.py [--only WORD]... CRATE..
    tools/try_edits.py [--only WORD]... --all

The edits of tools/edits/CRATE, or those whose names have one of the WORDs, stand in crates/CRATE/must-fail while
`rt must-fail` runs over them and over those that stand there always, and are taken away again whatever happens. The
status is 0 only if all of them were refused. A crate costs a whole check of it, and each edit some 20 to 60 seconds
more, so name the crates whose contracts you have changed. Each gate tries a twentieth of these edits (`.ci/rt_ci.py`).
"""
import argparse
import os
import sys

import edit_files
from edit_files import TOP, Fault


def chosen_of(crates, words):
    """By crate the names of its edits that have one of these words; of all of them where there are no words."""
    chosen = {}
    for crate in crates:
        if not os.path.isdir(os.path.join(TOP, "crates", crate)):
            raise Fault(f"there is no crate {crate}")
        names = edit_files.tried_in_turns(crate)
        if not names and not edit_files.always_tried(crate):
            raise Fault(f"{crate} has no edits")
        chosen[crate] = [it for it in names if not words or any(word in it for word in words)]
    return {crate: names for crate, names in chosen.items() if names or not words}


def try_edits(chosen):
    """Tries these edits and those that stand in must-fail/ always. How many there were, and what is wrong."""
    tried = {crate: sorted([*names, *edit_files.always_tried(crate)]) for crate, names in chosen.items()}
    for crate, names in chosen.items():
        print(f"{crate}: {len(names)} edits of tools/edits/{crate}, {len(tried[crate]) - len(names)} of its must-fail/", flush=True)
    with edit_files.stand_in(chosen):
        status, told = edit_files.run_rt(["must-fail", *chosen])
    faults = [it for crate, names in tried.items() for it in told.faults_of(crate, names)]
    if status and not faults:
        faults = [f"rt must-fail ended with status {status}"]
    return sum(map(len, tried.values())), faults


def arguments():
    parser = argparse.ArgumentParser(description="Tries the edits of some crates.")
    parser.add_argument("crates", nargs="*", metavar="CRATE", help="a crate that has edits")
    parser.add_argument("--all", action="store_true", help="all crates that have some in tools/edits")
    parser.add_argument("--only", action="append", default=[], metavar="WORD", help="only edits of tools/edits whose names have this word")
    given = parser.parse_args()
    if given.all == bool(given.crates):
        parser.error("name crates, or give --all")
    return given


def main():
    given = arguments()
    edit_files.end_by_signals()
    try:
        chosen = chosen_of(edit_files.crates_with_edits_apart() if given.all else dict.fromkeys(given.crates), given.only)
        if not chosen:
            raise Fault(f"no edit has {' or '.join(given.only)} in its name")
        tried, faults = try_edits(chosen)
    except Fault as fault:
        sys.exit(f"try_edits: {fault}")
    except OSError as fault:
        sys.exit(f"try_edits: {fault.strerror}: {fault.filename}")
    for it in faults:
        print(f"not refused: {it}")
    print(f"try_edits: {tried} tried, {len(faults)} not refused")
    sys.exit(1 if faults else 0)


if __name__ == "__main__":
    main()
