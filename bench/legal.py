#!/usr/bin/env python3
"""Measures what instances of sets of entities take, each of which is legal or not.

    bench/legal.py [PROGRAM]

For each schema and set it prints how many entities the schema has, how many names its longest supertype expression, how many
members the set, and the microseconds that a processor runs the program for a put of a file with one instance of the set; and
of a legal set those for each of 200 instances more, whose parts stand in other orders: those of many parts are each decided
anew, and those of few known by then. What is decided is compared. The status is 1 where an instance takes ten milliseconds or more.
"""
import json
import random
import sys

from harness import Session, Table, compare, processor_seconds, request, run_bench
from make_part21 import FOOTER, HEADER

COUNT = 200
LIMIT = 10_000.0
OF_SCHEMA = HEADER.replace("AUTOMOTIVE_DESIGN", "S")


def schema(supertypes, expressions):
    """A schema of the entities n0, n1 and so on, each with its supertypes and, where it has one, an expression."""
    entities = []
    for number, above in enumerate(supertypes):
        allowed = f" SUPERTYPE OF ({expressions[number]})" if number in expressions else ""
        below = f" SUBTYPE OF ({', '.join(f'n{k}' for k in above)})" if above else ""
        entities.append(f"ENTITY n{number}{allowed}{below}; END_ENTITY;\n")
    return f"SCHEMA S;\n{''.join(entities)}END_SCHEMA;\n"


def names(numbers):
    return [f"n{number}" for number in numbers]


def star(count, expression):
    """One entity with so many direct subtypes."""
    return schema([[]] + [[0]] * count, {0: expression})


def levels(depth):
    """An expression of so many levels: of one name and the rest in turn one of, both and either or both."""
    text = f"n{depth + 1}"
    for level in range(depth, 0, -1):
        text = (f"ONEOF(n{level}, {text})", f"(n{level} AND {text})", f"(n{level} ANDOR {text})")[level % 3]
    return text


def allowed(depth):
    """The numbers of a combination of `levels`: of each alternative the rest."""
    return [level for level in range(1, depth + 1) if level % 3] + [depth + 1]


def chains(count, length):
    """Chains of subtypes, each entity with an expression of the next one."""
    supertypes = [[] if number % length == 0 else [number - 1] for number in range(count)]
    return schema(supertypes, {k: f"n{k + 1}" for k in range(count) if (k + 1) % length})


def families():
    """Of each: what it is called, its schema, the counts of its entities and of the names in its longest expression, and
    its sets, each with what is decided."""
    one_of = f"ONEOF({', '.join(names(range(1, 10_001)))})"
    yield "one of 10,000", star(10_000, one_of), 10_001, 10_000, [
        ([0, 5_000], "legal"), ([0, 1, 10_000], "not legal"), (range(101), "not legal")]
    yield "10,000 ANDOR", star(10_000, " ANDOR ".join(names(range(1, 10_001)))), 10_001, 10_000, [
        ([0, 5_000], "legal"), (range(101), "legal")]
    yield "1,000 AND", star(1_001, " AND ".join(names(range(1, 1_002)))), 1_002, 1_001, [
        (range(1_002), "legal"), (range(1_001), "not legal"), ([0], "legal")]
    yield "60 levels", star(61, levels(60)), 62, 61, [
        ([0, *allowed(60)], "legal"), ([0, *allowed(60)[:-2]], "not legal"), (range(62), "not legal")]
    yield "5,000 in chains", chains(5_000, 100), 5_000, 1, [
        (range(100), "legal"), (range(4_900, 5_000), "legal"), (range(1, 101), "not legal")]
    yield "5,000, flat", star(4_999, " ANDOR ".join(names(range(1, 100)))), 5_000, 99, [
        (range(100), "legal"), (range(4_900, 5_000), "not legal"), ([0, *range(4_901, 5_000)], "legal")]


def instance(name, numbers):
    return f"#{name}=({''.join(f'N{number}()' for number in numbers)});\n"


def microseconds(session, orders, wanted):
    """How long a put takes for each instance of a file of instances whose entities stand in these orders."""
    text = OF_SCHEMA + "".join(instance(k, numbers) for k, numbers in enumerate(orders, 1)) + FOOTER
    reply = {"ok": {"instances": len(orders)}} if wanted == "legal" else {
        "refused": {"code": 12, "instance": 1, "kind": "IllegalCombination", "name": "InstanceFault"}}
    begin = processor_seconds(session.process)
    told = session.ask(request("put", owner="ann", model="m", file=text))[0]
    taken = processor_seconds(session.process) - begin
    compare(told, json.dumps(reply, sort_keys=True, separators=(",", ":")).encode() + b"\n")
    return taken / len(orders) * 1e6


def others(numbers):
    """The numbers in so many other orders."""
    draw = random.Random(1)
    return [draw.sample(numbers, len(numbers)) for _ in range(COUNT)]


def measure(folder):
    table = Table({"schema": "16", "entities": "9,", "names": "7,", "members": "8,", "decided": "12", "one": "9.1f",
                   "of 200": "9"})
    slowest = 0.0
    for name, text, entities, named, sets in families():
        folder.configure(measured=text)
        with Session(folder) as session:
            compare(session.ask(request("create_model", name="m", schema="S"))[0], b'{"ok":{}}\n')
            for numbers, wanted in sets:
                one = microseconds(session, [list(numbers)], wanted)
                each = microseconds(session, others(list(numbers)), wanted) if wanted == "legal" else None
                slowest = max(slowest, one, each or 0.0)
                table.row(name, entities, named, len(numbers), wanted, one, "" if each is None else f"{each:.1f}")
    return int(slowest >= LIMIT)


if __name__ == "__main__":
    run_bench(measure, sys.argv[1:])
