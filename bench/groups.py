#!/usr/bin/env python3
"""Measures requests on groups in a repository of many partners, in one process.

    bench/groups.py [PROGRAM] [PARTNERS]

Each of 1,000 partners, or of so many, has 100 models and 100 groups. A group lists a model of its owner's and one of the next
partner, who grants it; each partner may read a group of the one before him. In front of them stands ann, whose group lists a
model of 200,000 instances. It prints the milliseconds that a processor ran the program for one request, in the mean of as many
as stand beside it, and how many bytes a reply has.
"""
import sys

from harness import OK, Session, Table, asked, compare, processor_seconds, request, run_bench

MODELS = 100
INSTANCES = 200_000
SCHEMA = "SCHEMA t; ENTITY p; x : REAL; END_ENTITY; ENTITY q; a : p; END_ENTITY; END_SCHEMA;"
HEADER = "ISO-10303-21;HEADER;FILE_DESCRIPTION((''),'2;1');FILE_NAME('','',(''),(''),'','','');FILE_SCHEMA(('T'));ENDSEC;DATA;"
FOOTER = "ENDSEC;END-ISO-10303-21;"


def name_of(number):
    return f"p{number:04}"


def holdings(count):
    """The lines that make what the partners have, those of each partner together."""
    for number in range(count):
        who, other = name_of(number), name_of((number + 1) % count)
        before = name_of((number - 1) % count)
        for place in range(MODELS):
            yield asked(who, "create_model", name=f"m{place:02}", schema="T")
            yield asked(who, "grant", kind="model", name=f"m{place:02}", to=before, level="group")
            yield asked(who, "create_group", name=f"g{place:02}", schema="T")
        yield asked(who, "grant", kind="group", name="g00", to=other, level="read")


def members(count):
    """The lines by which each group lists its models."""
    for number in range(count):
        who, other = name_of(number), name_of((number + 1) % count)
        for place in range(MODELS):
            yield asked(who, "include", group=f"g{place:02}", owner=who, model=f"m{place:02}")
            yield asked(who, "include", group=f"g{place:02}", owner=other, model=f"m{place:02}")


def many_instances(count):
    """A file of one p and of q's that use it, so many together."""
    return HEADER + "#1=P(1.);" + "".join(f"#{k}=Q(#1);" for k in range(2, count + 1)) + FOOTER


def make_group(session, count):
    """Ann's group g, which lists her model m of so many instances."""
    session.ask_all([(request("create_model", name="m", schema="T"), OK), (request("create_group", name="g", schema="T"), OK),
                     (request("include", group="g", owner="ann", model="m"), OK)])
    compare(session.reply(request("put", owner="ann", model="m", file=many_instances(count))), b'{"ok":{"instances":%d}}\n' % count)


def turns_of(count):
    """Requests of a partner in the middle, each with its words and how often it is asked."""
    who, other, before = (name_of((count // 2 + k) % count) for k in (0, 1, -1))
    yield "names of his own model", 200, asked(who, "names", owner=who, model="m07")
    yield "names of a granted model", 200, asked(who, "names", owner=other, model="m07")
    yield "names of one seen through a group", 50, asked(who, "names", owner=before, model="m00")
    yield "names of an unseen model", 50, asked(who, "names", owner=before, model="m50")
    yield "members of a group", 200, asked(who, "members", owner=who, group="g07")
    yield "exclude, and include", 100, asked(who, "exclude", group="g07", owner=other, model="m07") + asked(who, "include", group="g07", owner=other, model="m07")
    yield "revoke, and grant", 100, asked(who, "revoke", kind="model", name="m07", to=before) + asked(who, "grant", kind="model", name="m07", to=before, level="group")
    yield "list", 5, asked(who, "list")
    yield "extent of 200,000", 5, request("extent", owner="ann", group="g", type="q")
    yield "extent of none of 200,000", 5, request("extent", owner="ann", group="g", type="nothing")
    yield "users, 199,999", 5, request("users", owner="ann", group="g", of=["ann", "m", 1], role="T.Q.A")
    yield "users, none", 5, request("users", owner="ann", group="g", of=["ann", "m", 2], role="")


def measure(count, folder):
    partners = ["ann", *(name_of(k) for k in range(count))][:1000]
    count = len(partners) - 1
    folder.configure(*partners, t=SCHEMA)
    table = Table({"request": "34", "times": "6", "milliseconds": "13.3f", "bytes": "10,"})
    with Session(folder) as session:
        make_group(session, INSTANCES)
        for lines in (holdings(count), members(count)):
            session.ask_all((line, OK) for line in lines)
        for words, times, lines in turns_of(count):
            begin = processor_seconds(session.process)
            for _ in range(times):
                session.process.stdin.write(lines)
                session.process.stdin.flush()
                replies = [session.process.stdout.readline() for _ in range(lines.count(b"\n"))]
            table.row(words, times, (processor_seconds(session.process) - begin) / times / len(replies) * 1000, len(replies[0]))
        print(f"{session.memory() / 2**20:.0f} MiB held")


if __name__ == "__main__":
    words = sys.argv[1:]
    number = int(words.pop()) if words and words[-1].isdigit() else 1000
    run_bench(lambda folder: measure(number, folder), words)
