#!/usr/bin/env python3
"""Measures how the time of `rp_server check` grows with the number of entities, each run in a process of its own.

    bench/names.py [PROGRAM]

The schemas have 250 to 4,000 entities, each with an attribute and a rule: in one chain, where each is a subtype of the
one before; as diamonds, where two are subtypes of one and a fourth is a subtype of both, and so on upon it; flat,
without supertypes; and as namesakes, flat with one name for all attributes. In the first two each rule uses the
attribute of the first entity. What is answered of an entity are its ancestors and the attributes that files write:
in a chain and in diamonds these lists grow with the square of the entities. For each schema it prints how long the
lists of all entities are, the seconds from the program's start to its end (the best of five), the nanoseconds for a
byte of the schema, and those for a byte or an element of the lists. The aim is that the last column grows with the
logarithm at most.
"""
import sys

from harness import Table, run_bench

COUNTS = (250, 500, 1000, 2000, 4000)


def entity(number, supertypes, first):
    """An entity with an attribute and a rule, which uses the attribute of the first one."""
    below = f"\n  SUBTYPE OF ({', '.join(f'item_{k}' for k in supertypes)})" if supertypes else ""
    return (f"ENTITY item_{number}{below};\n  length_{number} : INTEGER;\n"
            f"WHERE\n  wr1 : length_{first} + length_{number} > 0;\nEND_ENTITY;\n\n")


def chain(count):
    return [entity(k, [k - 1] if k else [], 0) for k in range(count)]


def diamonds(count):
    """Of each three behind the first the first two are subtypes of the one before them, and the last of both."""
    return [entity(k, [] if k == 0 else [k - 1] if k % 3 == 1 else [k - 2] if k % 3 == 2 else [k - 2, k - 1], 0)
            for k in range(count)]


def flat(count):
    return [entity(k, [], k) for k in range(count)]


def namesakes(count):
    return [text.replace(f"length_{k}", "extent") for k, text in enumerate(flat(count))]


# of the entity of each number, how many ancestors it has
ANCESTORS = {
    chain: lambda number: number,
    diamonds: lambda number: number - 1 if number % 3 == 2 else number,
    flat: lambda number: 0,
    namesakes: lambda number: 0,
}


def answered(entities_of, count):
    """How many ancestors and attributes all entities have: with its own attribute each has one of each ancestor."""
    return sum(2 * ANCESTORS[entities_of](number) + 1 for number in range(count))


def schema(entities):
    return f"SCHEMA measured;\n\n{''.join(entities)}END_SCHEMA;\n".encode()


def measure(folder):
    table = Table({"schema": "10", "entities": "8,", "bytes": "9,", "listed": "11,", "seconds": "8.4f",
                   "ns/byte": "8.1f", "ns/all": "8.1f"})
    for entities_of in (chain, diamonds, flat, namesakes):
        for count in COUNTS:
            text = schema(entities_of(count))
            listed = answered(entities_of, count)
            seconds = folder.check_seconds(text, b"MEASURED: ok\n", 5)
            table.row(entities_of.__name__, count, len(text), listed, seconds,
                      seconds / len(text) * 1e9, seconds / (len(text) + listed) * 1e9)


if __name__ == "__main__":
    run_bench(measure, sys.argv[1:])
