#!/usr/bin/env python3
"""Compares the plain reading of rules in lib/ with what others worked out by hand, who shared nothing with it: each row of
data/expressions, its value and its steps, and each report of example/assembly, byte for byte. It runs no program.

    tests/rules_by_hand.py [PROGRAM]

The last line is 'rules by hand: N passed, M failed', and the status is 0 only if none failed.
"""
import os
import sys

from expression_rows import NONE, Value, read_rows, written
from lib import plain_binding, plain_express, plain_reports, plain_rules
from lib.harness import TOP, run_parts
from lib.plain_model import compact
from lib.plain_rules import Environment, Evaluation, PastLimit, deep
from lib.rule_texts import model_of, report, tree_of

sys.path.insert(0, os.path.join(TOP, "tools"))

from ask import requests_in  # noqa: E402

ASSEMBLY = os.path.join(TOP, "example/assembly")


# ---- rows

def value_of(found):
    """A value of the plain reading as rows have it."""
    if isinstance(found, plain_binding.Typed):
        return Value("CARRIED", (found.keyword, value_of(found.value)))
    if isinstance(found, plain_rules.Many):
        kind = "" if found.kind == plain_rules.INITIALISER else found.kind
        return Value("AGGREGATE", (kind, found.low, tuple(map(value_of, found.elements))))
    if isinstance(found, plain_rules.Instance):
        return Value("INSTANCE", (found.place[2],))
    if isinstance(found, plain_express.Item):
        return Value("ITEM", (found.type, found.word))
    if isinstance(found, plain_express.Logical):
        return Value("LOGICAL", (found.name,))
    if isinstance(found, plain_binding.Bits):
        return Value("BINARY", (found.text,))
    if isinstance(found, plain_binding.Real):
        return Value("REAL", tuple(found))
    sorts = {int: "INTEGER", str: "STRING"}
    return Value(sorts[type(found)], (found,)) if type(found) in sorts else NONE


def told(value, steps):
    return "LIMIT" if value is None else f"{written(value)} in {steps}"


def evaluated(row):
    """What a row comes to, and its steps: a clause of the entity of its instance, or of a rule behind the rule's statements."""
    schema, name = tree_of(row.schema()), row.name.upper()
    population = plain_reports.population_of(schema, [model_of(schema, "ann", "m", row.setting.file())])
    evaluation = Evaluation(schema, plain_reports.extents_of(schema, population))
    try:
        if row.rule:
            rule = schema.rules[name]
            found = deep(plain_reports.outcome_of_rule, evaluation, rule, dict(rule.rules)[name])
        else:
            clause = next(it for entity in schema.entities.values() for label, it in entity.rules if label == name)
            itself = next(it for it in population if it.place[2] == row.self_name)
            found = deep(evaluation.value, clause, Environment(itself, {}))
    except PastLimit:
        return "LIMIT"
    return told(value_of(found), evaluation.steps)


def rows(it):
    for row in read_rows([])[1]:
        it.expect(f"{row.setting.name}: {row.name}", evaluated(row), told(row.value, row.steps))


# ---- reports

def text_of(*path):
    with open(os.path.join(ASSEMBLY, *path), encoding="utf-8") as it:
        return it.read()


def expect_report(it, name, models):
    found = compact({"ok": report(text_of("assembly.exp"), models)}).decode() + "\n"
    it.expect(f"the report {name}", found, text_of("reports", f"{name}.json"))


def reports(it):
    for file in sorted(os.listdir(os.path.join(ASSEMBLY, "broken"))):
        name = os.path.splitext(file)[0]
        expect_report(it, name, [("ann", name, text_of("broken", file))])
    puts = [request.keys for request in requests_in(ASSEMBLY) if request.keys["do"] == "put"]
    expect_report(it, "assembly", [(keys["owner"], keys["model"], keys["file"], keys.get("links", [])) for keys in puts])


if __name__ == "__main__":
    run_parts("rules by hand", (rows, reports), sys.argv[1:])
