#!/usr/bin/env python3
"""Compares what the program answers to `validate` with what the plain reading of rules in lib/ gives, byte for byte, over random
populations: of random schemas with rules, of the schema of example/assembly, and of one that has a rule of each sort.

    tests/random_reports.py [--schemas N] [--populations N] [--entities N] [--instances N] [--assemblies N] [--rounds N] [--seed S] [PROGRAM]

One process of the program takes the populations of one schema, one after the other in the same two models. The first difference of each
schema is told with its seeds, then instances are left out as long as there is one, and what is left is told. How often each check had
each verdict is counted: each that it can have has to come 50 times, where nothing else is asked for than is by default, but for a LIMIT
of an inverse attribute, which takes 200,000 uses, and has to come three times. The last line is 'random reports: N passed, M failed',
and the status is 0 only if none failed.
"""
import argparse
import collections
import json
import os
import random
import re
import sys
from typing import NamedTuple

from lib import random_assembly
from lib.harness import end, shortened, take_program
from lib.messages import Repository, create, file_of, grant, line, link, put
from lib.plain_express import read
from lib.plain_model import compact
from lib.random_rules import ALONE, INSTANCE_OUTSIDE, MODELS, OUTSIDE, random_population, random_schema
from lib.rule_texts import report

LABEL = "random reports"
OWNER = MODELS[0][0]
CONFIG = {"partners": [{"name": name, "token": name} for name in (*(owner for owner, _ in MODELS), OUTSIDE[0])], "schemas": ["it.exp"]}
OK = b'{"ok":{}}'

ENOUGH = 50
VERDICTS = {
    **dict.fromkeys(("unset", "bounds", "reference"), ("TRUE", "FALSE")), "unique": ("TRUE", "FALSE", "LIMIT", "NOT_RUN"),
    "inverse": ("TRUE", "FALSE", "NOT_RUN"), **dict.fromkeys(("type", "where", "rule"), ("TRUE", "FALSE", "UNKNOWN", "LIMIT", "NOT_RUN")),
}


class Schema(NamedTuple):
    """A schema by its name and its text, with an instance that can stand alone, as a file has it behind `#1=`."""

    name: str
    text: str
    alone: str


# ---- a schema with a rule of each sort, whose conditions have the verdict that a number in the file asks for

ASKED = Schema("A", """SCHEMA a;
FUNCTION doubled (n : INTEGER) : INTEGER;
LOCAL s : STRING := 'a'; END_LOCAL;
  REPEAT i := 1 TO n; s := s + s; END_REPEAT;
  RETURN (LENGTH(s));
END_FUNCTION;
FUNCTION verdict (n : INTEGER) : LOGICAL;
  IF n > 9 THEN RETURN (doubled(20) = 0); END_IF; IF n = 2 THEN RETURN (UNKNOWN); END_IF; RETURN (n <> 1);
END_FUNCTION;
FUNCTION itself (n : INTEGER) : INTEGER; IF n > 9 THEN RETURN (doubled(20)); END_IF; RETURN (n); END_FUNCTION;
TYPE first = INTEGER; WHERE w : verdict(SELF); END_TYPE;
TYPE second = INTEGER; WHERE w : verdict(SELF); END_TYPE;
ENTITY part; INVERSE users : BAG [0:2] OF user FOR parts; END_ENTITY;
ENTITY user; parts : BAG [0:?] OF part; END_ENTITY;
ENTITY one; a : first; b : second; c : INTEGER; d : OPTIONAL INTEGER; s : STRING (2); p : OPTIONAL part;
DERIVE e : INTEGER := itself(d); UNIQUE u : e; WHERE w : verdict(c); END_ENTITY;
RULE last FOR (one); WHERE w : verdict(SIZEOF(QUERY(x <* one | x.c = 5))); END_RULE;
END_SCHEMA;
""", "PART()")
# so many that a tenth of them can be without it, and there still are 99 evaluations that have no end; and more than nine
CROWD, FEW = 130, 14


class Asked:
    """Random instances of that schema: each number has the verdict that most have in this population, or another one."""

    def __init__(self, seed):
        self.random = random.Random(seed)
        self.usual = {name: self.random.choice([0, 0, 0, 1, 2, 10]) for name in "abc"}
        self.usual["c"] = self.random.choice([0, 0, 1, 2, 2, 10])
        self.usual["d"] = self.random.choice([None, None, 10])
        self.parts = self.random.randrange(1, 4)
        self.count = self.random.choice([0, 2, 6, FEW, FEW, CROWD])
        if self.count == CROWD:
            # what comes behind a hundred evaluations that have no end isn't begun
            self.usual[self.random.choice("aaabc")] = 10
        self.fives = self.random.choice([0, 1, 2, FEW, FEW]) if self.count >= FEW else self.random.randrange(3)

    def number(self, name):
        if self.random.random() < 0.1:
            return self.random.choice([0, 1, 2, 10])
        return self.usual[name]

    def one(self, place):
        at = lambda value: "$" if value is None else str(value)
        text = self.random.choice(["a", "ab", "ab", "ab", "abc"] if self.random.random() < 0.3 else ["ab"])
        c = 5 if place < self.fives else self.number("c")
        d = self.usual["d"] if self.random.random() < 0.7 else self.random.choice([None, place, 3, 3, 10])
        part = self.random.choice(["$", "$", f"#{self.random.randint(1, self.parts)}", f"#{ALONE}"] if self.random.random() < 0.3 else ["$"])
        a = at(None if self.random.random() < 0.02 else self.number("a"))
        return f"ONE({a},{self.number('b')},{c},{at(d)},'{text}',{part})"

    def user(self):
        return "USER((" + ",".join(f"#{self.random.randint(1, self.parts)}" for _ in range(self.random.randrange(4))) + "))"

    def models(self):
        """All in one model but some users, which refer to the parts by links."""
        lines = ["PART()"] * self.parts + [self.one(place) for place in range(self.count)] + [self.user() for _ in range(self.random.randrange(3))]
        file = "".join(f"#{place}={it};\n" for place, it in enumerate(lines, 1))
        links = [(ALONE, *OUTSIDE, ALONE)] if f"#{ALONE}" in file else []
        others = [self.user() for _ in range(self.random.randrange(2))]
        there = "".join(f"#{500 + place}={it};\n" for place, it in enumerate(others))
        used = sorted({int(it) for it in re.findall(r"[(,]#(\d+)", there)})
        return [(*MODELS[0], file, links), (*MODELS[1], there, [(it, *MODELS[0], it) for it in used])]


# ---- requests

def opening(schema):
    """Lines that make the models and the group, with their replies. Its owner may write all models, and so give them links to each other."""
    lines = [line(OWNER, "create_group", name="g", schema=schema.name)]
    for owner, name in (*MODELS, OUTSIDE):
        lines += [create(owner, name, schema.name), grant(owner, name, OWNER, "write")]
    lines += [line(OWNER, "include", group="g", owner=owner, model=name) for owner, name in MODELS]
    outside = put(OUTSIDE[0], *OUTSIDE, file_of(f"#{ALONE}={schema.alone};", schema.name))
    return [(it, OK) for it in lines] + [(outside, b'{"ok":{"instances":1}}')]


def turns(schema, models, counts):
    """Lines that put the models and then validate, with their replies. Links go both ways, so each model has instances of its names first."""
    names = [[it.split("=")[0] for it in instances.splitlines()] for _, _, instances, _ in models]
    lines = [put(OWNER, owner, name, file_of("".join(f"{it}={schema.alone};" for it in its), schema.name))
             for (owner, name, _, _), its in zip(models, names)]
    lines += [put(OWNER, owner, name, file_of(instances, schema.name), *(link(*it) for it in links)) for owner, name, instances, links in models]
    taken = [compact({"ok": {"instances": len(its)}}) for its in names]
    told = report(schema.text, models)
    counts.update((it["check"], it["verdict"]) for it in told["checks"])
    return [*zip(lines, [*taken, *taken]), (line(OWNER, "validate", owner=OWNER, group="g"), compact({"ok": told}))]


def first_difference(schema, its):
    """The place of the first line that isn't answered as it has to be, with both replies, or None."""
    with Repository(CONFIG, it=schema.text) as folder:
        status, output, fault = folder.batch(b"\n".join(asked for asked, _ in its))
    if status:
        sys.exit(f"{LABEL}: status {status}: {shortened(fault).decode()}")
    seen = output.splitlines()
    return next(((place, one, wanted) for place, (one, (_, wanted)) in enumerate(zip(seen, its)) if one != wanted), None)


# ---- differences

def entries(seen, wanted):
    """Of two reports the first entries that differ, or both where they tell the same entries, or aren't reports."""
    checks = [json.loads(it).get("ok", {}).get("checks", []) for it in (seen, wanted)]
    found = next(((compact(one), compact(other)) for one, other in zip(*checks) if one != other), (seen, wanted))
    return "  {}\n  in place of\n  {}".format(*(shortened(it).decode() for it in found))


def without(models, number):
    """Models without the instance of a number: what refers to it refers to one outside."""
    found = []
    for owner, name, instances, links in models:
        lines = [it for it in instances.splitlines() if not it.startswith(f"#{number}=")]
        used = {int(it) for one in lines for it in re.findall(r"#(\d+)", one.split("=", 1)[1])}
        kept = [it for it in links if it[0] != number and it[0] in used]
        found.append((owner, name, "".join(it + "\n" for it in lines), kept + [(number, *OUTSIDE, ALONE)] * (number in used)))
    return found


def smallest(schema, models):
    """The models with as few instances as leaving one out after the other gives, so that there still is a difference."""
    for number in [int(it) for _, _, instances, _ in models for it in re.findall(r"^#(\d+)=", instances, re.MULTILINE)]:
        fewer = without(models, number)
        if first_difference(schema, [*opening(schema), *turns(schema, fewer, collections.Counter())]):
            models = fewer
    return models


def compare(schema, populations, counts):
    """How many populations, by their names, are answered as they have to be up to the first that isn't, and how many aren't."""
    its, ends = opening(schema), []
    for models in populations.values():
        its += turns(schema, models, counts)
        ends.append(len(its))
    found = first_difference(schema, its)
    if not found:
        return len(populations), 0
    place, *replies = found
    count = sum(it <= place for it in ends)
    name, models = list(populations.items())[count]
    print(f"population {name!r}: {shortened(its[place][0]).decode()}\n{entries(*replies)}")
    models = smallest(schema, models)
    left = first_difference(schema, [*opening(schema), *turns(schema, models, collections.Counter())])
    if left:
        print("with fewer instances:", *models, entries(*left[1:]), sep="\n")
    return count, 1


# ---- all

def random_ones(given):
    """Each schema with its populations, by their names."""
    for number in range(given.schemas):
        name = f"{given.seed} {number}"
        text = random_schema(name, given.entities)
        seeds = [f"{name} {place}" for place in range(given.populations)]
        schema = read(text)
        yield Schema("R", text, INSTANCE_OUTSIDE.partition("=")[2].rstrip(";")), {it: random_population(it, schema, given.instances) for it in seeds}
    assemblies = [f"{given.seed} {number}" for number in range(given.assemblies)]
    yield (Schema("MECHANICAL_ASSEMBLY", random_assembly.SCHEMA_TEXT, "APPLICATION_CONTEXT('')"),
           {f"assembly {it}": random_assembly.random_population(it, given.instances) for it in assemblies})
    rounds = {f"asked {given.seed} {number}": Asked(f"{given.seed} {number}").models() for number in range(given.rounds)}
    yield ASKED, rounds


def wanting(counts):
    """The verdicts of checks that came less often than they have to."""
    for check, verdicts in VERDICTS.items():
        for verdict in verdicts:
            if counts[check, verdict] < ENOUGH:
                yield f"{check} {verdict}: {counts[check, verdict]} times, and {ENOUGH} are wanted"


def main(words):
    parser = argparse.ArgumentParser(prog="tests/random_reports.py", allow_abbrev=False)
    numbers = {"schemas": 4, "populations": 6, "entities": 40, "instances": 20, "assemblies": 40, "rounds": 480, "seed": 1}
    for name, number in numbers.items():
        parser.add_argument(f"--{name}", type=int, default=number)
    parser.add_argument("program", nargs="*")
    given = parser.parse_args(words)
    take_program(LABEL, given.program)
    passed = failed = 0
    counts = collections.Counter()
    for schema, populations in random_ones(given):
        more, less = compare(schema, populations, counts)
        passed, failed = passed + more, failed + less
    for (check, verdict), count in sorted(counts.items()):
        print(f"{check:10} {verdict:8} {count:8}")
    if all(getattr(given, name) == number for name, number in numbers.items()):
        lacking = list(wanting(counts))
        print(*lacking, sep="\n")
        failed += len(lacking)
    end(LABEL, passed, failed)


if __name__ == "__main__":
    main(sys.argv[1:])
