#!/usr/bin/env python3
"""Measures requests for single instances of a model of 180,000, and links to them, in one process.

    bench/single.py [PROGRAM] [COUNT]

It puts a file like those of a CAD exporter, and asks for so many of each, 10,000 where nothing is said: lines that are
refused because the model isn't there, then `get`, `add`, `set` and `drop`; and then puts as many links, at most 10,000, into
another model at once, first where it isn't there. It prints the microseconds that a processor ran the program for each request
and for each link in the mean, and the same less what the refused ones take.

Then it puts a file of one instance 3,000 times, of one leaf and of several entities, under a schema of one entity, under that of
the CAD files, and under one of 1,854 entities, and prints the microseconds of each put, and how many times that is what it takes
under the schema of one entity.
"""
import os
import sys

from harness import OK, TOP, Session, Table, compare, processor_seconds, request, run_bench
from make_express import express
from make_part21 import FOOTER, HEADER, part21

SCHEMA = os.path.join(TOP, "tests/data/automotive_design.exp")
INSTANCES = 180_000
NO_SUCH_ITEM = b'{"refused":{"code":7,"name":"NoSuchItem"}}\n'
# an odd number of steps leads through all names before one comes again
STEP = 7919
LINKS = 10_000

PUTS = 3_000
# as many pieces as a schema of 1 MiB has, of three entities each
PIECES = 618
PLAIN = """SCHEMA plain;
ENTITY point;
  name : STRING;
  coordinates : LIST [1:3] OF REAL;
END_ENTITY;
END_SCHEMA;
"""
# of each schema an instance of one leaf, and one whose entities are all listed
ALONE = {
    "PLAIN": ("POINT('',(1.,0.,-1.5))", "(POINT('',(1.,0.,-1.5)))"),
    "AUTOMOTIVE_DESIGN": ("CARTESIAN_POINT('',(1.,0.,-1.5))", "(LENGTH_UNIT()NAMED_UNIT(*)SI_UNIT(.MILLI.,.METRE.))"),
    "MEASURED": ("POINT_300('',$,(1.,0.,-1.5))", "(ITEM_300('',$)POINT_300((1.,0.,-1.5)))"),
}


def single(do, model="m", **keys):
    return request(do, owner="ann", model=model, **keys)


def point(k):
    return f"CARTESIAN_POINT('',({k}.,0.E+000,-1.5))"


def written(k):
    """The text of a point in canonical text."""
    digits, zeros = str(k).rstrip("0"), len(str(k)) - len(str(k).rstrip("0"))
    return f"CARTESIAN_POINT('',({digits}.{f'E{zeros}' if zeros else ''},0.,-15.E-1))"


def put_of(model, links):
    """A put of an empty file with links."""
    return single("put", model, file=HEADER + FOOTER, links=links)


def turns_of(count):
    """The lines of each sort with their replies, and how many they count for. What is read, and then dropped, is what was added
    and then set."""
    added = range(INSTANCES + 1, INSTANCES + 1 + count)
    mixed = [added[k * STEP % count] for k in range(count)]
    yield "refused", count, [(single("get", model="z", instance=k), NO_SUCH_ITEM) for k in added]
    yield "add", count, [(single("add", text=point(k)), b'{"ok":{"name":%d}}\n' % k) for k in added]
    yield "set", count, [(single("set", instance=k, text=point(k + 1)), OK) for k in mixed]
    yield "get", count, [(single("get", instance=k), b'{"ok":{"text":"#%d=%s;"}}\n' % (k, written(k + 1).encode())) for k in mixed]
    yield "drop", count, [(single("drop", instance=k), OK) for k in mixed]
    number = min(count, LINKS)
    links = [{"name": k, "owner": "ann", "model": "m", "instance": 1 + k * STEP % INSTANCES} for k in range(number)]
    yield "refused", number, [(put_of("z", links), NO_SUCH_ITEM)]
    yield "link", number, [(put_of("n", links), b'{"ok":{"instances":0}}\n')]


def measure_puts(folder):
    """Puts of a file of one instance under each schema."""
    with open(SCHEMA, encoding="utf-8") as it:
        folder.configure(plain=PLAIN, automotive_design=it.read(), measured=express(PIECES))
    table = Table({"schema": "18", "instance": "9", "microseconds": "12.1f", "times": "6.2f"})
    first = {}
    with Session(folder) as session:
        for schema, instances in ALONE.items():
            compare(session.ask(request("create_model", name=schema, schema=schema))[0], OK)
            for sort, instance in zip(("leaf", "several"), instances):
                head = HEADER.replace("AUTOMOTIVE_DESIGN { 1 0 10303 214 1 1 1 1 }", schema)
                line = single("put", schema, file=f"{head}#1={instance};\n{FOOTER}")
                compare(session.ask(line)[0], b'{"ok":{"instances":1}}\n')
                begin = processor_seconds(session.process)
                for _ in range(PUTS):
                    compare(session.ask(line)[0], b'{"ok":{"instances":1}}\n')
                mean = (processor_seconds(session.process) - begin) / PUTS * 1e6
                table.row(schema.lower(), sort, mean, mean / first.setdefault(sort, mean))


def measure(count, folder):
    with open(SCHEMA, encoding="utf-8") as it:
        folder.configure(automotive_design=it.read())
    table = Table({"request": "8", "microseconds": "12.1f", "less a refused one": "18.1f"})
    with Session(folder) as session:
        compare(session.ask(request("create_model", name="m", schema="AUTOMOTIVE_DESIGN"))[0], OK)
        compare(session.ask(single("put", file=part21(INSTANCES)))[0], b'{"ok":{"instances":%d}}\n' % INSTANCES)
        compare(session.ask(request("create_model", name="n", schema="AUTOMOTIVE_DESIGN"))[0], OK)
        for name, number, turns in turns_of(count):
            begin = processor_seconds(session.process)
            for line, reply in turns:
                compare(session.ask(line)[0], reply)
            mean = (processor_seconds(session.process) - begin) / number * 1e6
            refused = mean if name == "refused" else refused
            table.row(name, mean, mean - refused)
    measure_puts(folder)


if __name__ == "__main__":
    words = sys.argv[1:]
    asked = int(words.pop()) if words and words[-1].isdigit() else 10_000
    run_bench(lambda folder: measure(asked, folder), words)
