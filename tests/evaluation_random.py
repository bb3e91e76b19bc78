#!/usr/bin/env python3
"""Compares what `trials rules` tells of random schemas and populations with the plain reading of rules in lib/.

    tests/evaluation_random.py [--schemas N] [--populations N] [--instances N] [--seed S] [--kept] [PROGRAM]

PROGRAM is as for evaluation.py. Of each schema each WHERE clause of an entity, for each of its instances, and each clause of a global
rule has to have the value and the steps of lib/plain_rules.py, or to be LIMIT, with a limit of 20,000 steps and with one that is the
steps of a clause. `trials kept` has to write the same lines. With --kept alone this is tested, with other limits, and nothing is read
plainly, which takes most of the time. Schemas and populations are those of lib/random_rules.py, and the seed tells them. The last line is
'evaluation_random: N passed, M failed', and the status is 0 only if none failed.
"""
import argparse
import sys

from evaluation import evaluated, program_of
from expression_rows import written
from lib import plain_reports
from lib.harness import run_parts
from lib.plain_express import read
from lib.plain_rules import Environment, Evaluation, PastLimit, deep
from lib.random_rules import INSTANCE_OUTSIDE, random_population, random_schema
from lib.rule_texts import FILE, model_of
from rules_by_hand import value_of

LIMIT = 20_000
# in an order in which a value is kept before it is asked with few steps, and after
LIMITS_OF_KEPT = (100, LIMIT, 7, 30, 300, 3_000)
ENTITIES = 40


def outcome(schema, extents, run):
    """What a clause comes to by the plain reading, and its steps where it has a value."""
    evaluation = Evaluation(schema, extents, LIMIT)
    try:
        value = deep(run, evaluation)
    except PastLimit:
        return "LIMIT", None
    return f"{written(value_of(value))} {evaluation.steps}", evaluation.steps


def outcomes(schema, lines):
    """Each clause of a schema over a population, by owner, label and SELF."""
    extents = plain_reports.extents_of(schema, plain_reports.population_of(schema, [model_of(schema, "me", "m", lines)]))
    found = {}
    for name, entity in schema.entities.items():
        for label, rule in entity.rules:
            for me in extents[name]:
                found[name, label, f"#{me.place[2]}"] = outcome(schema, extents, lambda it: it.value(rule, Environment(me, {})))  # noqa: B023
    for name, algorithm in schema.rules.items():
        for label, rule in algorithm.rules:
            found[name, label, "?"] = outcome(schema, extents, lambda it: plain_reports.outcome_of_rule(it, algorithm, rule))  # noqa: B023
    return found


def compare(it, name, text, schema, lines):
    """Compares each clause with the limit, and with the steps that one of them takes and one less."""
    told = outcomes(schema, lines)
    some = max((steps for _, steps in told.values() if steps), default=1)
    limits = sorted({LIMIT, some, some - 1})
    found = evaluated(it.folder, text, FILE.format(schema.name, lines), limits)
    if isinstance(found, str):
        it.expect(name, found, "")
        return
    wanted = {(limit, *clause): value if steps is not None and steps <= limit else "LIMIT" for limit in limits for clause, (value, steps) in told.items()}
    for key in {**wanted, **found}:
        it.expect(f"{name}, {key}", found.get(key), wanted.get(key))


def expect_same(it, name, text, schema, lines):
    """That `trials kept` writes what `trials rules` does."""
    found = evaluated(it.folder, text, FILE.format(schema.name, lines), LIMITS_OF_KEPT)
    it.expect(name, found if isinstance(found, str) else "", "")


def random_ones(given):
    compared = expect_same if given.kept else compare

    def run(it):
        for number in range(given.schemas):
            seed = f"evaluation {given.seed + number}"
            text = random_schema(seed, ENTITIES)
            schema = read(text)
            for place in range(given.populations):
                models = random_population(f"{seed} {place}", schema, given.instances)
                compared(it, f"{seed}, population {place}", text, schema, "".join(model[2] for model in models) + INSTANCE_OUTSIDE)
    return run


def main(words):
    parser = argparse.ArgumentParser(prog="tests/evaluation_random.py", allow_abbrev=False)
    parser.add_argument("--schemas", type=int, default=4)
    parser.add_argument("--populations", type=int, default=2)
    parser.add_argument("--instances", type=int, default=20)
    parser.add_argument("--seed", type=int, default=1)
    parser.add_argument("--kept", action="store_true")
    parser.add_argument("program", nargs="*")
    given = parser.parse_args(words)
    run_parts("evaluation_random", (random_ones(given),), program_of(given.program))


if __name__ == "__main__":
    main(sys.argv[1:])
