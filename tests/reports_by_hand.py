#!/usr/bin/env python3
"""Compares the reports of tests/data/reports/ and of docs/REPORTS.md, which were worked out by hand, with what the plain reading of
rules in lib/ makes of the same schemas and models, byte for byte, and with the replies of the plain repository to the requests that
make these models. It runs no program.

    tests/reports_by_hand.py [PROGRAM]

What a file may hold is said in the README beside them. The last line is 'reports by hand: N passed, M failed', and the status is 0
only if none failed.
"""
import json
import os
import re
import sys
from collections import Counter

from expression_rows import counted
from lib import plain_files
from lib.harness import TOP, run_parts
from lib.plain_model import Repository, compact
from lib.report_rows import read_reports
from lib.rule_texts import binding_schema, report, tree_of

PAGE = os.path.join(TOP, "docs/REPORTS.md")
CHECKS = ("unset", "bounds", "reference", "type", "where", "unique", "inverse", "rule")


def the_reports(it):
    """Each has entries to the byte, in the order of the checks, and steps that are their sum; no two have a name."""
    found = read_reports()
    it.expect("names of two", [name for name, count in Counter(one.name for one in found).items() if count > 1], [])
    for one in found:
        it.expect(f"{one.name}: entries as they are written", [compact(json.loads(entry)).decode() for entry in one.entries], one.entries)
        places = [CHECKS.index(json.loads(entry)["check"]) for entry in one.entries]
        it.expect(f"{one.name}: the order of checks", places, sorted(places))
        it.expect(f"{one.name}: the steps", counted(one.steps), int(one.steps.partition("=")[0]))
    for topic, count in Counter(one.topic for one in found).items():
        print(f"{count:4} reports of {topic}")


def by_the_plain_reading(it):
    for one in read_reports():
        it.expect(f"{one.topic}, {one.name}", compact({"ok": report(one.schema, one.population())}), one.answer())


def replies_to(one):
    """What the plain repository answers to the requests of a report."""
    tree = tree_of(one.schema)
    repository = Repository(one.partners(), [binding_schema(tree)], plain_files.read, plain_files.read_mapping, None, {tree.name: one.schema})
    replies = []
    for line in one.requests():
        reply, change = repository.step(line)
        if change:
            change()
        replies.append(reply)
    return replies


def by_the_plain_repository(it):
    for one in read_reports():
        *before, reply = replies_to(one)
        it.expect(f"{one.topic}, {one.name}: refused requests", [it for it in before if not it.startswith(b'{"ok"')], [])
        it.expect(f"{one.topic}, {one.name}, by requests", reply, one.answer())


def blocks_of_page(text, words):
    return re.findall(rf"^```{re.escape(words)}\n(.*?)^```$", text, re.MULTILINE | re.DOTALL)


def the_page(it):
    """The report that the page shows is that of the file that it puts, by its schema."""
    with open(PAGE, encoding="utf-8") as file:
        text = file.read()
    schemas = blocks_of_page(text, "express file=workshop.exp")
    asked = [json.loads(line) for block in blocks_of_page(text, "json request") for line in block.splitlines()]
    replies = [line for block in blocks_of_page(text, "json reply") for line in block.splitlines()]
    it.expect("blocks of the page", (len(schemas), len(asked)), (1, len(replies)))
    models = [(one["owner"], one["model"], one["file"]) for one in asked if one["do"] == "put"]
    shown = [reply for one, reply in zip(asked, replies) if one["do"] == "validate"]
    it.expect("the report of the page", [compact({"ok": report(schemas[0], models)}).decode()], shown)


if __name__ == "__main__":
    run_parts("reports by hand", (the_reports, by_the_plain_reading, by_the_plain_repository, the_page), sys.argv[1:])
