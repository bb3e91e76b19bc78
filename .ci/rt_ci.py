#!/usr/bin/env python3
"""Runs rt ci with the edits of this gate's turn in their places, and fails also where one of them can't be tried.

    .ci/rt_ci.py                        with the edits of the turn that tools/edits/turn names
    .ci/rt_ci.py --edits CRATE ..       with these, and with all edits of these crates
    .ci/rt_ci.py --edits all            with all edits

docs/BUDGET.md says which crates' edits belong to which turn. They stand in the crates' must-fail/ while rt ci runs, and
are taken away again whatever happens: so they are tried beside the proofs, each over what its crate's own check proved.
`rt must-fail` would do the same only after it had proved all libraries below these crates once more, since those that
rt ci builds are of statements alone and serve no later command.

rt ci fails where an edit isn't refused or wasn't tried. This fails too where one can't be applied or compiled, which rt
ci passes over. out/edits.json has how many edits of each crate this run tried, those left out that an earlier run on this
machine had tried.
"""
import json
import os
import sys

import budget as budgets
from budget import TOP, TURNS, edit_files

TABLE = os.path.join(TOP, "out/edits.json")


def chosen_by(words, budget):
    """By crate the names of the edits in tools/edits that are to be tried, and in words which these are."""
    apart = {crate: edit_files.tried_in_turns(crate) for crate in budget.shares}
    if words == ["--edits", "all"]:
        return apart, "all edits"
    turn = edit_files.turn_now() % TURNS
    chosen, which = budget.edits_in(turn), f"turn {turn} of {TURNS}"
    if words:
        lacking = [it for it in words[1:] if it not in budget.rows]
        if words[0] != "--edits" or len(words) < 2 or lacking:
            sys.exit(f"rt_ci: no such crate: {', '.join(lacking)}" if lacking else __doc__)
        chosen.update((crate, apart[crate]) for crate in words[1:] if crate in apart)
        which += f", and all edits of {', '.join(words[1:])}"
    return chosen, which


def write_table(tried, told):
    """Leaves how many edits of each crate this run tried."""
    now = {crate: len(names) - told.kept.get(crate, 0) for crate, names in tried.items()}
    os.makedirs(os.path.dirname(TABLE), exist_ok=True)
    with open(TABLE, "w", encoding="utf-8") as it:
        json.dump({"tried": now}, it, indent=1)
        it.write("\n")


def main(words):
    budget = budgets.read_budget()
    edit_files.end_by_signals()
    try:
        chosen, which = chosen_by(words, budget)
        apart = ", ".join(f"{crate} {len(names)}" for crate, names in chosen.items())
        print(f"rt_ci: {which}: beside the edits of must-fail/ those of {apart or 'no crate'}", flush=True)
        with edit_files.stand_in(chosen):
            tried = {crate: edit_files.always_tried(crate) for crate in budget.rows}
            status, told = edit_files.run_rt(["ci"])
    except edit_files.Fault as fault:
        sys.exit(f"rt_ci: {fault}")
    except OSError as fault:
        sys.exit(f"rt_ci: {fault.strerror}: {fault.filename}")
    write_table({crate: names for crate, names in tried.items() if names}, told)
    faults = [it for crate, names in tried.items() for it in told.faults_of(crate, names)]
    for it in faults:
        print(f"not refused: {it}")
    print(f"rt_ci: {which}: {sum(map(len, tried.values()))} edits, {len(faults)} not refused; rt ci ended with status {status}")
    return status or (1 if faults else 0)


if __name__ == "__main__":
    sys.exit(main(sys.argv[1:]))
