#!/usr/bin/env python3
"""Runs `trials rules` over the schemas and models of tests/data/reports, and compares the verdicts and the culprits of each WHERE clause
of an entity and of each rule with those of the reports, which were worked out by hand.

    tests/evaluation_reports.py [PROGRAM]

PROGRAM is as for evaluation.py. Looked at are the reports of one model without links in which everything was begun: the program takes
one file, and reckons each evaluation by itself. The last line is 'evaluation_reports: N passed, M failed', and the status is 0 only
if none failed.
"""
import json
import sys
from collections import defaultdict

from evaluation import LISTS, evaluated, list_of, program_of
from expression_rows import MOST_STEPS
from lib.harness import run_parts
from lib.report_rows import read_reports

# of so many reports at least
FEWEST = 25


def is_whole(one):
    """Whether the report is of one model without links, and everything was begun."""
    return len(one.models) == 1 and not one.models[0].links and not any("NOT_RUN" in entry or '"not_run"' in entry for entry in one.entries)


def wanted_of(one):
    """The entries of WHERE clauses and rules: by owner and label the verdict, and the culprits of each list."""
    checks = [json.loads(entry) for entry in one.entries]
    return {(check["of"], check["rule"]): (check["verdict"], {key: [f"#{it[2]}" for it in check[key]] for key in LISTS if key in check})
            for check in checks if check["check"] in ("where", "rule")}


def seen_of(found, conditions):
    """The same by the program, of these conditions: one that no instance has to do with is TRUE. A rule has no culprits."""
    lists = {condition: defaultdict(list) for condition in conditions}
    for (_, owner, label, itself), outcome in found.items():
        if list_of(outcome):
            lists.setdefault((owner, label), defaultdict(list))[list_of(outcome)].append(itself)
    verdicts = {condition: next((key.upper() for key in LISTS if key in of), "TRUE") for condition, of in lists.items()}
    return {condition: (verdicts[condition], {key: some for key, some in of.items() if some != ["?"]}) for condition, of in lists.items()}


def each_report(it):
    whole = [one for one in read_reports() if is_whole(one)]
    it.expect(f"{FEWEST} reports of one model", len(whole) >= FEWEST, True)
    for one in whole:
        found, wanted = evaluated(it.folder, one.schema, one.models[0].whole_file(one.schema_name()), [MOST_STEPS]), wanted_of(one)
        seen = found if isinstance(found, str) else seen_of(found, wanted)
        it.expect(f"{one.topic}, {one.name}", seen, wanted)


if __name__ == "__main__":
    run_parts("evaluation_reports", (each_report,), program_of(sys.argv[1:]))
