#!/usr/bin/env python3
"""Fails where the repository has more of what makes its gate dear than docs/BUDGET.md allows.

    .ci/check_budget.py                  the check, after rt ci
    .ci/check_budget.py --turns          prints the turns in which the edits of tools/edits are tried, with what each takes
    .ci/check_budget.py --clear          before rt ci: removes built libraries that are older than their source
    .ci/check_budget.py --write FILE     takes what timed.py measured of the gate's rt ci into docs/BUDGET.md, with lines of source
    .ci/check_budget.py --rows           brings the rows in line with crates.txt and with the edits that are there: a new crate gets
                                         the edits that it has, and the lightest turns for those in tools/edits; each other row
                                         allows no more than are there, and keeps its turns
    .ci/check_budget.py --deal           as --rows, and gives all crates new turns: the dearest first, each in the lightest turns.
                                         Twenty turns try all only if none of them is dealt anew, so do it after a measure alone

What it refuses:
- a crate of crates.txt that the table of docs/BUDGET.md doesn't have, and a row of it for a crate that isn't there
- a crate of over 1500 lines of source that the list of docs/BUDGET.md doesn't name, or over what it is allowed there; and
  an entry of that list for a crate that isn't
- more edits in a crate's must-fail/ than its row allows
- edits in tools/edits whose crate has no turn, and a crate with turns for none
- edits that take more than a gate may, by what the tables say: those of must-fail/, those of a turn, or with them the whole
- a test outside of the crate of tests, and more than 3 tests in it
- a function past 250 operations that the list of docs/BUDGET.md doesn't name, or past what it is allowed there; and
  an entry of that list for a function that isn't past 250
- a library whose operations can't be told, since it isn't built or its source has changed since

rt ci puts the built libraries back that stood there before it, so --clear removes those that would hide its own.
"""
import json
import os
import re
import sys

import budget as budgets
from budget import BUDGET, KINDS, TOP, TURNS, Share, edit_files, lines_of, operations

MEASURE = os.path.join(TOP, "out/minutes.json")
TESTS, MOST_TESTS = "crate_tests", 3
MOST_OPERATIONS = 250
MOST_LINES = 1500
MEASURED = re.compile(r"^Measured .*$", re.MULTILINE)

COMMENT_OR_TEXT = re.compile(
    r"//[^\n]*|/\*.*?\*/|b?r(?P<h>#*)\".*?\"(?P=h)|b?\"(?:\\.|[^\"\\])*\"|b?'(?:\\.[^']*|[^'\\])'", re.DOTALL
)
OF_TESTS = re.compile(r"#\s*!?\s*\[[^\]]*\btest\b|\bcfg!\s*\([^)]*\btest\b")
TEST = re.compile(r"#\s*\[\s*(?:\w+\s*::\s*)*test\b[^\]]*\]")


# ---- what is refused

def faults_of_table(crates, budget):
    yield from (f"{it} has no row in docs/BUDGET.md" for it in crates if it not in budget.rows)
    yield from (f"docs/BUDGET.md has a row for {it}, which crates.txt doesn't list" for it in budget.rows if it not in crates)


def faults_of_lines(crates, budget):
    for crate in crates:
        count, allowed = lines_of(crate), budget.large.get(crate, MOST_LINES)
        if count > allowed:
            yield f"{crate} has {count} lines of source, and {allowed} are allowed: cut it, or say in docs/BUDGET.md why not"
    for crate in budget.large:
        if crate not in crates or lines_of(crate) <= MOST_LINES:
            yield f"docs/BUDGET.md allows more lines to {crate}, which hasn't over {MOST_LINES}"


def faults_of_edits(crates, budget):
    for crate in crates:
        count, allowed = len(edit_files.always_tried(crate)), budget.allowed(crate)
        if crate in budget.rows and count > allowed:
            yield f"{crate} has {count} edits in must-fail/, and {allowed} are allowed"


def faults_of_turns(budget):
    apart = [it for it in edit_files.crates_with_edits_apart() if edit_files.tried_in_turns(it)]
    lacking, needless = [it for it in apart if it not in budget.shares], [it for it in budget.shares if it not in apart]
    yield from (f"{it} has edits in tools/edits and no turn in docs/BUDGET.md: --rows gives it one" for it in lacking)
    yield from (f"docs/BUDGET.md has a turn for {it}, which has no edits in tools/edits: --rows takes it out" for it in needless)
    for crate, share in budget.shares.items():
        if any(turn >= TURNS for turn in share.turns):
            yield f"docs/BUDGET.md: {crate}: the turns are those from 0 to {TURNS - 1}"


def faults_of_costs(budget):
    """What passes the minutes that a gate may take, as far as these are reckoned."""
    always, turn, whole = (budget.most[it] for it in budgets.MOST)
    if budget.cost_always() > always:
        yield f"the edits of must-fail/ take {budget.cost_always():.1f} processor minutes, and {always} are allowed"
    for at in range(TURNS):
        if budget.cost_of_turn(at) > turn:
            yield f"the edits of turn {at} take {budget.cost_of_turn(at):.1f} processor minutes, and {turn} are allowed"
    if budget.whole() > whole:
        yield f"a gate takes {budget.whole():.1f} processor minutes in its dearest turn, and {whole} are allowed"


def faults_of_tests(crates):
    for crate in crates:
        count = 0
        for file in operations.sources(crate):
            with open(file, encoding="utf-8") as it:
                code = COMMENT_OR_TEXT.sub(" ", it.read())
            count += len(TEST.findall(code))
            if crate != TESTS and OF_TESTS.search(code):
                yield f"{os.path.relpath(file, TOP)} has a test, and its place is tests/, or {TESTS}"
        if crate == TESTS and count > MOST_TESTS:
            yield f"{TESTS} has {count} tests, and {MOST_TESTS} are allowed"


def faults_of_operations(crates, budget):
    past, is_whole = {}, True
    # (the crate of tests has no function but these)
    for crate in (it for it in crates if it != TESTS and operations.is_library(it)):
        try:
            found = operations.operations_of(crate, crates)
        except operations.NotBuilt as why:
            is_whole = False
            yield str(why)
            continue
        past.update((name, count) for name, count in found if count > MOST_OPERATIONS)
    for name, count in sorted(past.items()):
        if count > budget.exceptions.get(name, MOST_OPERATIONS):
            yield f"{name} has {count} operations, and {budget.exceptions.get(name, MOST_OPERATIONS)} are allowed"
    for name in budget.exceptions:
        if is_whole and name not in past:
            yield f"docs/BUDGET.md allows more operations to {name}, which isn't past {MOST_OPERATIONS}"


def check(crates, budget):
    show(crates, budget)
    faults = [
        *faults_of_table(crates, budget),
        *faults_of_lines(crates, budget),
        *faults_of_edits(crates, budget),
        *faults_of_turns(budget),
        *faults_of_costs(budget),
        *faults_of_tests(crates),
        *faults_of_operations(crates, budget),
    ]
    for it in faults:
        print(f"check_budget: {it}")
    print("check_budget: " + (f"faults: {len(faults)}" if faults else "all within the budget"))
    return 1 if faults else 0


# ---- what is shown

def show(crates, budget):
    """Prints of each crate what the budget is about."""
    try:
        measured, source = measure_of(MEASURE)["crates"], os.path.relpath(MEASURE, TOP)
    except ValueError:
        measured, source = {}, "docs/BUDGET.md"
    print(f"{'crate':24}{'lines':>7}{'edits':>7}{'allowed':>9}{'apart':>7}" + "".join(f"{it:>8}" for it in KINDS))
    sums, edits, apart = dict.fromkeys(KINDS, 0.0), 0, 0
    for crate in crates:
        minutes = measured.get(crate, {}) if measured else budget.minutes(crate)
        sums = {it: sums[it] + minutes.get(it, 0.0) for it in KINDS}
        own, others = len(edit_files.always_tried(crate)), len(edit_files.tried_in_turns(crate))
        edits, apart = edits + own, apart + others
        print(f"{crate:24}{lines_of(crate):7}{own:7}{budget.allowed(crate):9}{others:7}"
              + "".join(f"{minutes[it]:8.2f}" if it in minutes else f"{'-':>8}" for it in KINDS))
    print(f"{'all':24}{sum(map(lines_of, crates)):7}{edits:7}{sum(map(budget.allowed, crates)):9}{apart:7}"
          + "".join(f"{sums[it]:8.2f}" for it in KINDS))
    print(f"(processor minutes as of {source})")
    print(f"reckoned: {budget.cost_always():.1f} for the edits of must-fail/, at most "
          f"{max(map(budget.cost_of_turn, range(TURNS))):.1f} for those of a turn, {budget.whole():.1f} for the whole in that turn")


def show_turns(budget):
    """Prints which crates' edits are tried in which turn, and what that takes beside those that each gate tries."""
    now = edit_files.turn_now() % TURNS
    for turn in range(TURNS):
        found = {crate: (len(names), len(edit_files.tried_in_turns(crate))) for crate, names in budget.edits_in(turn).items()}
        crates = ", ".join(f"{crate} {count}" + (f" of {whole}" if count < whole else "") for crate, (count, whole) in found.items())
        count = sum(count for count, _ in found.values())
        print(f"{turn:2}{' *' if turn == now else '  '}{budget.cost_of_turn(turn):6.1f} minutes{count:5} edits: {crates or 'none'}")
    always = sum(len(edit_files.always_tried(it)) for it in budget.rows)
    apart = sum(len(edit_files.tried_in_turns(it)) for it in budget.shares)
    print(f"each gate: {budget.cost_always():.1f} minutes for {always} edits of must-fail/; "
          f"all turns: {sum(map(budget.cost_of_turn, range(TURNS))):.1f} for {apart}")
    return 0


# ---- what is written

def measure_of(file):
    """What timed.py wrote of the gate's rt ci, where that passed. ValueError where the file is something else."""
    try:
        with open(file, encoding="utf-8") as it:
            found = json.load(it)
        command = os.path.basename(found["command"][0])
        is_whole = command == "rt_ci.py" and found["status"] == 0
        minutes = [found["total"], found["others"], *(row[it] for row in found["crates"].values() for it in KINDS)]
        if not all(isinstance(it, float) for it in minutes):
            raise TypeError("a time is no number")
    except (OSError, ValueError, LookupError, TypeError, AttributeError) as fault:
        raise ValueError(f"{file} is no table of timed.py: {fault!r}") from None
    if not is_whole:
        raise ValueError(f"{file} is of {command} with status {found['status']}, and not of a .ci/rt_ci.py that passed")
    return found


def tried_in(file):
    """How many edits of each crate the run of this measure tried, as rt_ci.py left it beside it. ValueError where that can't be read."""
    try:
        with open(os.path.join(os.path.dirname(file), "edits.json"), encoding="utf-8") as it:
            found = json.load(it)
        return {crate: int(count) for crate, count in found["tried"].items()}
    except (OSError, ValueError, LookupError, TypeError, AttributeError) as fault:
        raise ValueError(f"no edits.json of rt_ci.py lies beside {file}: {fault!r}") from None


def with_measure(budget, found, tried):
    """The shares as this measure has them, and a crate's minutes by kind: where others were tried beside the edits of must-fail/, what
    these take is reckoned."""
    for crate, share in budget.shares.items():
        if tried.get(crate, 0) > max(len(edit_files.always_tried(crate)), 1):
            budget.shares[crate] = share._replace(tried=tried[crate], minutes=found["crates"][crate]["edits"])

    def minutes(crate):
        row, always = dict(found["crates"][crate]), len(edit_files.always_tried(crate))
        if tried.get(crate, 0) != always:
            row["edits"] = row["proof"] + (always - 1) * budget.further(crate) if always else 0.0
        return row

    return budget.shares, minutes


def save(text):
    with open(BUDGET, "w", encoding="utf-8") as it:
        it.write(text)


def write_measure(file, crates, budget):
    """Puts the measured minutes into the tables, with the date and the machine."""
    try:
        found, tried = measure_of(file), tried_in(file)
    except ValueError as why:
        sys.exit(f"check_budget: {why}")
    faults = [*faults_of_table(crates, budget), *(f"{file} has nothing of {it}" for it in crates if it not in found["crates"])]
    if faults or len(MEASURED.findall(budget.text)) != 1:
        sys.exit("check_budget: " + ("; ".join(faults) or "docs/BUDGET.md hasn't one line that begins with Measured"))
    # (what an edit takes is reckoned with the proof as it was measured beside it)
    budget = budgets.Budget(budget.with_rows(crates, budget.allowed, found["crates"].get))
    shares, minutes = with_measure(budget, found, tried)
    budget = budgets.Budget(budget.with_rows(crates, budget.allowed, minutes))
    line = (f"Measured {found['date']} on {found['machine']}: {found['total']:.0f} processor minutes in all, "
            f"{found['others']:.1f} of them beside the crates, in {found['minutes']:.0f} minutes, with {sum(tried.values())} edits tried.")
    save(MEASURED.sub(lambda _: line, budget.with_shares(shares)))
    return 0


def write_rows(crates, budget, deals):
    """Adds rows of new crates, takes out those of crates that are gone, and lowers the edits allowed. It raises none."""
    def allowed(crate):
        count = len(edit_files.always_tried(crate))
        return min(count, budget.allowed(crate)) if crate in budget.rows else count

    budget = budgets.Budget(budget.with_rows(crates, allowed, budget.minutes))
    apart = [it for it in crates if edit_files.tried_in_turns(it)]
    save(budget.with_shares(budget.dealt(apart, {} if deals else budget.shares)))
    return 0


def main(words):
    if words == ["--clear"]:
        operations.clear_outdated()
        return 0
    crates, budget = operations.crates_listed(), budgets.read_budget()
    if len(words) == 2 and words[0] == "--write":
        return write_measure(words[1], crates, budget)
    if words in (["--rows"], ["--deal"]):
        return write_rows(crates, budget, words == ["--deal"])
    if words == ["--turns"]:
        return show_turns(budget)
    return check(crates, budget) if not words else sys.exit(__doc__)


if __name__ == "__main__":
    sys.exit(main(sys.argv[1:]))
