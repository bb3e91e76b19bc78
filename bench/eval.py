#!/usr/bin/env python3
"""Measures evaluation by `trials rules`: steps, memory, and the domain of a population.

    bench/eval.py [PROGRAM]

PROGRAM is that of the trials, crates/trials/out/trials where it is left out. The first table has a rule's clause for each
sort of expression, over 100,000 instances: millions of steps in a second of a processor, the best of three runs and the middle
one. Each run evaluates it so often that this takes some seconds, and what loading takes, with the limit of that run 0, is taken
off. The second has what the process holds after 1,000 evaluations and after 1,000,000, and what it holds after as many of a
literal. The third has the domain of 200,000 instances like those of a CAD exporter: the seconds of a processor that it takes, by
runs with a limit and without one, and the bytes that it holds, against those of the content. Both runs compile the schema, so what
that takes isn't of the domain: it stands beside it, by runs with a file of as many bytes that has no instances.

All values and steps are compared with what they must be.
"""
import math
import os
import re
import statistics
import sys
from typing import NamedTuple

from harness import FILE_LIMIT, TOP, Table, compare, run_bench
from make_part21 import part21

PROGRAM = os.path.join(TOP, "crates/trials/out/trials")
SCHEMA = os.path.join(TOP, "tests/data/automotive_design.exp")

HEAD = "ISO-10303-21;HEADER;FILE_DESCRIPTION((''),'2;1');FILE_NAME('','',(''),(''),'','','');FILE_SCHEMA(('S'));ENDSEC;DATA;\n"
TAIL = "ENDSEC;END-ISO-10303-21;\n"
INSTANCES = 100_000
RUNS = 3
# how long a run evaluates, as is reckoned from a run of so many turns
SECONDS = 2
FIRST_TURNS = 10
# past what one evaluation takes
LIMIT = 100_000_000
TURNS = 250_000


# ---- steps

DECLARATIONS = """SCHEMA s;
CONSTANT five : INTEGER := 5; END_CONSTANT;
TYPE label = STRING; END_TYPE;
TYPE measure = REAL; END_TYPE;
ENTITY p; x : measure; n : label; INVERSE us : SET OF e FOR p; END_ENTITY;
ENTITY e; a, b : INTEGER; p : p; l : LIST OF INTEGER; DERIVE d : INTEGER := a + b; {} END_ENTITY;
FUNCTION f (n : INTEGER) : INTEGER; RETURN (n + 1); END_FUNCTION;
FUNCTION g (n : INTEGER) : INTEGER; LOCAL r : INTEGER := 0; END_LOCAL; REPEAT i := 1 TO n; r := r + i; END_REPEAT; RETURN (r); END_FUNCTION;
FUNCTION h (n : INTEGER) : INTEGER; LOCAL r : INTEGER := 0; END_LOCAL;
REPEAT WHILE r < n; IF r >= 0 THEN r := r + 1; END_IF; END_REPEAT; RETURN (r); END_FUNCTION;
{} END_SCHEMA;
"""


def instances(parts, users):
    """So many P, and twice as many E, of which two use each of the first half of P, or as many as are asked for."""
    lines = [f"#{k}=P({k}.5,'n{k}');\n" for k in range(1, parts + 1)]
    lines += [f"#{parts + k}=E({k},{k % 7},#{(k + 1) // 2},({k},1,2));\n" for k in range(1, users + 1)]
    return HEAD + "".join(lines) + TAIL


class Kind(NamedTuple):
    """A sort of expression: what is asked of each X of an entity, its steps for each and beside those, and how many it is TRUE for.
    Where there is no entity it is the whole clause, with its steps and its value."""

    name: str
    aim: int
    entity: str
    condition: str
    steps: int
    more: int
    count: int

    def clause(self):
        return f"SIZEOF(QUERY(x <* {self.entity} | {self.condition}))" if self.entity else self.condition

    def whole(self):
        """The steps of the clause. SIZEOF, QUERY and the entity's name are three, and of an element there are one in the name, one in
        QUERY, and those of the condition."""
        return 3 + INSTANCES * (2 + self.steps) + self.more if self.entity else self.steps


def numbers():
    return range(1, INSTANCES + 1)


KINDS = [
    Kind("stored, x.a > 3", 50, "e", "x.a > 3", 4, 0, INSTANCES - 3),
    Kind("stored, sums", 50, "e", "x.a + x.b * 2 - x.a > x.b + 3", 15, 0, sum(k % 7 > 3 for k in numbers())),
    Kind("stored, logic", 50, "e", "{1 <= x.b <= 5} AND NOT (x.b = 2)", 11, 0, sum(k % 7 in (1, 3, 4, 5) for k in numbers())),
    Kind("stored, x.p.x", 50, "e", "x.p.x > 1.5", 5, 0, INSTANCES - 2),
    Kind("stored, strings", 50, "e", "x.p.n = 'n7'", 5, 0, 2),
    Kind("strings joined", None, "e", "x.p.n + 'x' = 'n7x'", 7, sum(len(str((k + 1) // 2)) + 2 for k in numbers()), 2),
    Kind("derived", 40, "e", "x.d > 3", 4 + 3, 0, sum(k + k % 7 > 3 for k in numbers())),
    Kind("constants", 40, "e", "x.a > five", 4 + 1, 0, INSTANCES - 5),
    Kind("inverse", 40, "p", "SIZEOF(x.us) = 2", 5, INSTANCES, INSTANCES // 2),
    Kind("calls", None, "e", "f(x.a) > 3", 5 + 4, 0, INSTANCES - 2),
    Kind("USEDIN, a role", None, "p", "SIZEOF(USEDIN(x, 'S.E.P')) = 2", 6, INSTANCES, INSTANCES // 2),
    Kind("USEDIN, all roles", None, "p", "SIZEOF(USEDIN(x, '')) = 2", 6, INSTANCES, INSTANCES // 2),
    Kind("TYPEOF", None, "e", "'S.E' IN TYPEOF(x)", 4 + 1 + 1, 0, INSTANCES),
    Kind("index", None, "e", "x.l[2] = 1", 6, 0, INSTANCES),
    Kind("inner QUERY", None, "e", "SIZEOF(QUERY(z <* x.l | z > 1)) > 1", 6 + 3 * 4, 0, INSTANCES - 1),
    Kind("initialisers", None, "e", "x.b IN [1, 2, 3]", 3 + (1 + 3 + 4) + 3, 0, sum(k % 7 in (1, 2, 3) for k in numbers())),
    # (a call with a literal, LOCAL, REPEAT with its bounds, an assignment with a sum in each turn, RETURN)
    Kind("REPEAT, increment", None, "", f"g({TURNS})", 2 + 1 + 3 + 4 * TURNS + 2, 0, TURNS * (TURNS + 1) // 2),
    # (REPEAT, its condition in each turn and once more, in each turn an IF with its condition and an assignment with a sum)
    Kind("REPEAT, WHILE and IF", None, "", f"h({TURNS})", 2 + 1 + 1 + 3 * (TURNS + 1) + (4 + 4) * TURNS + 2, 0, TURNS),
]


def words(*limits):
    return ("rules", "schema.exp", "file.step", *map(str, limits))


def evaluated_seconds(folder, kind, load, turns):
    """The seconds in which a clause was evaluated so often."""
    seconds, written = folder.processor_run(words(*[LIMIT] * turns))
    compare(written, b"%d R.Q ? %d %d\n" % (LIMIT, kind.count, kind.whole()) * turns)
    return max(seconds - load, 1e-3)


def measure_steps(folder):
    table = Table({"evaluated": "20", "steps": "12,", "turns": "6", "M steps/s": "9.1f", "middle": "7.1f", "aim": "4"})
    folder.write("file.step", instances(INSTANCES, INSTANCES))
    for kind in KINDS:
        folder.write("schema.exp", DECLARATIONS.format("", f"RULE r FOR (e, p); WHERE q : {kind.clause()}; END_RULE;"))
        load = min(folder.processor_run(words(0))[0] for _ in range(RUNS))
        turns = math.ceil(SECONDS * FIRST_TURNS / evaluated_seconds(folder, kind, load, FIRST_TURNS))
        rates = [turns * kind.whole() / 1e6 / evaluated_seconds(folder, kind, load, turns) for _ in range(RUNS)]
        table.row(kind.name, kind.whole(), turns, max(rates), statistics.median(rates), kind.aim or "")


# ---- memory

EVALUATED = 1_000
CLAUSE = ("SIZEOF(QUERY(z <* l | z + d > five)) + SIZEOF(USEDIN(p, 'S.E.P')) + LENGTH(p.n + 'x') + SIZEOF(p.us + [SELF]) "
          "+ g(f(b)) + SIZEOF(TYPEOF(SELF) * ['S.E']) > 0")


def held_by(folder, clause, times):
    """The most bytes that are held by so many evaluations of a clause that is TRUE for each of the instances, less the lines."""
    folder.write("schema.exp", DECLARATIONS.format(f"WHERE w : {clause};", ""))
    memory, written = folder.memory_of(words(*[LIMIT] * times))
    lines = written.splitlines()
    compare(b"%d" % sum(b" TRUE " in line for line in lines), b"%d" % (times * EVALUATED))
    return memory - len(written)


def measure_memory(folder):
    """What is held beside the lines that a run writes at its end, with the first so many evaluations, and with a thousand times as
    many. What came of each evaluation is held too: it is the same of a clause that is a literal."""
    table = Table({"evaluations": "12,", "held": "12,", "of a literal": "12,", "beside that": "12,"})
    folder.write("file.step", instances(EVALUATED, EVALUATED))
    for times in (1, 1_000):
        memory, literal = held_by(folder, CLAUSE, times), held_by(folder, "TRUE", times)
        table.row(times * EVALUATED, memory, literal, memory - literal)


# ---- the domain

POPULATION = 200_000


def without_conditions(schema):
    """A schema without the WHERE clauses of its entities and types."""
    return re.sub(r"\bWHERE\b.*?(?=\bEND_(?:ENTITY|TYPE)\b)", "", schema, flags=re.DOTALL)


def held(folder, name, before=0, *limits):
    """The allocations of a run, the bytes held before one of them, the most behind that, and those behind the last."""
    return folder.held(("rules", "schema.exp", name, *map(str, limits)), before=before)[0]


def least_seconds(folder, name, *limits):
    return min(folder.processor_run(("rules", "schema.exp", name, *limits))[0] for _ in range(5))


def measure_domain(folder):
    with open(SCHEMA, encoding="utf-8") as it:
        folder.write("schema.exp", without_conditions(it.read()))
    # (lines that aren't broken, or 8 MiB hold less)
    file = re.sub(r"\n *", "", part21(POPULATION)).replace(" = ", "=")
    if len(file) > FILE_LIMIT:
        sys.exit(f"bench: {POPULATION} instances take {len(file)} bytes")
    folder.write("file.step", file)
    # (of the same length, with no instances)
    nothing = part21(0)
    folder.write("nothing.step", nothing + " " * (len(file) - len(nothing)))
    without, within = (least_seconds(folder, "file.step", *limit) for limit in ((), ("0",)))
    loaded = {name: held(folder, name)[0] for name in ("file.step", "nothing.step")}
    (_, before, most, last), (_, empty, _, _) = (held(folder, name, loaded[name] + 1, 0) for name in ("file.step", "nothing.step"))
    content = before - empty
    table = Table({"instances": "10,", "file": "10,", "schema": "6.3f", "load": "6.2f", "domain": "6.3f", "content": "12,",
                   "domain, bytes": "13,", "at most": "12,", "of content": "10.2f"})
    table.row(POPULATION, len(file), least_seconds(folder, "nothing.step"), without, within - without, content, last - before,
              most - before, (last - before) / content)


def measure(folder):
    measure_steps(folder)
    measure_memory(folder)
    measure_domain(folder)


if __name__ == "__main__":
    run_bench(measure, sys.argv[1:], PROGRAM)
