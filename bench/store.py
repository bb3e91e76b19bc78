#!/usr/bin/env python3
"""Measures what a request costs beside all that others hold, and what the store holds of instances and names.

    bench/store.py [--quick] [--only PART ..] [PROGRAM] [--before PROGRAM]

It has five parts: single, granted, names, memory and rates. With --only those alone are run that are named.

The first table has requests on a model of 180,000 instances like those of a CAD exporter: alone, and among 1,000 models of 100 others
that all link to it, and all to the instance whose users are asked. Two processes are asked the same, round by round, line by line. A
request's time is what a processor took for it in the mean of a round; the best round is told, and the middle one. What is dropped, set
and asked for lies anywhere in the model, but where the table says the place. The others' models are in no group of hers.

The second has what a partner pays for what others grant him: 100 partners have 50 models and 50 groups each, every group lists all
50 models of its owner, and all groups are granted to ann, who asks for models of the first, of a middle and of the last partner.

The third has 100,000 models whose names have 59 of 64 characters in common, beside as many whose names are random. Nothing that names
of partners and models stand in is a table of hashes: they are compared byte by byte in sorted tables. So none can be chosen against a
seed, and what names can cost is what they have in common.

The fourth has memory. Of an instance with one reference it tells the bytes of blocks, by what a model holds more of so many of them; of
rounds that add, set and drop an instance, and of models that are created and deleted under new names, what the process holds. Of each
hundred such models one is granted, nine link to it, and one is a member of a group.

The fifth has a put of 8 MiB, and `extent` and `users` of 200,000 instances. With --before the program of before is asked in turn, and
the ratio of the two rates is told; so is the memory of an instance.

All replies are compared. Then the aims are told; the status is 1 where one is missed. With --quick all sizes are a tenth, and what is
aimed at for all of them together is too.
"""
import argparse
import itertools
import json
import os
import random
import statistics
import sys
from typing import NamedTuple

import groups
import make_part21
import run
from harness import BATCH, FILE_LIMIT, OK, Aims, Folder, Session, Table, asked, compare, held_now, processor_seconds, request, run_bench
from make_part21 import CONTEXT, FACE, count_within, part21, texts
from single import NO_SUCH_ITEM, SCHEMA, STEP, single

SCHEMA_NAME = "AUTOMOTIVE_DESIGN"
IN_USE = b'{"refused":{"code":15,"name":"InUse"}}\n'


class Sizes(NamedTuple):
    """How much there is of each thing, and how often it is asked."""

    instances: int = 180_000
    last: int = 10_000
    owners: int = 100
    granting: int = 100
    named: int = 1_000
    referring: int = 90_000
    changes: int = 100_000
    lives: int = 1_000_000
    wide: int = 200_000
    put: int = FILE_LIMIT
    rounds: int = 15
    each: int = 50

    def tenth(self):
        return Sizes(*(it // 10 for it in self))._replace(rounds=8, each=25)


# the models of each of the others, and the links of each of their models
OWNED = 10
LINKS = 10

# ---- what is aimed at, in milliseconds, of a request alone and among others
MILLISECONDS = {
    "get": 0.1, "grant": 0.1, "add, referring anywhere": 0.1, "add, referring to the first": 0.1, "set": None, "create_model": 0.1,
    "create_model, amid others": 0.1, "delete_model": None, "delete_model, amid others": None,
    "drop, of the last 10,000": 0.1, "drop, of the first": 1, "drop, in the middle": 1, "drop that is refused": None,
    "users of ten": 0.2, "extent of one": 0.2,
}
AMONG_OTHERS = 1.5
GRANTED = 0.1
LIST_OF_ONE = 100 / 5000
# names that have much in common are compared up to their ends
LONG_NAMES = 1.25
# bytes of an instance more than before, and how many those were before there were indexes
MORE_OF_INSTANCE = 60
OF_INSTANCE = 88
# bytes that a process may hold more and yet hold the same
SAME = 64 * 1024
OF_LIVES = 100_000_000 / 1_000_000
# of a put, and of what keeps its rate: the best of many measures of one program differ by a twentieth
PUT_OF_BEFORE = 0.85
OTHERS_OF_BEFORE = 0.95
PUTS, WIDE = 9, 25


def reply_of(**content):
    return json.dumps({"ok": content}, sort_keys=True, separators=(",", ":")).encode() + b"\n"


def best_and_middle(seconds):
    return min(seconds), statistics.median(seconds)


# ---- single requests, alone and among others

class Rounds:
    """Rounds of requests of ann's on her model m, each with its reply. The model is that of part21 and nine instances more, so that a
    point in its middle has ten users."""

    def __init__(self, sizes):
        count = sizes.instances
        self.random = random.Random(1)
        self.texts = dict(enumerate(texts(count), 1))
        faces = range(len(CONTEXT) + 1, count - FACE, FACE)
        # (as many as half of the last are added behind them)
        last = [it for it in faces if it > count - sizes.last // 2]
        self.faces = faces
        self.few, self.each = len(last) // sizes.rounds, sizes.each
        self.used = faces[len(faces) // 2] + 6
        self.users = [self.used - 1, *range(count + 1, count + 10)]
        self.next = count + 10
        # faces are used by nothing; each is dropped once. Those of a quarter are set.
        self.last = iter([last[k * STEP % len(last)] for k in range(len(last))])
        self.first = iter(faces)
        self.middle = iter(faces[len(faces) // 2:])
        self.are_set = faces[len(faces) // 4:len(faces) // 3]
        self.levels = itertools.cycle(["read", "group", "write"])
        self.owners = sizes.owners
        self.partners = itertools.cycle(map(groups.name_of, range(sizes.owners)))

    def make(self, session, count):
        """Makes the model, in ann's group g."""
        session.ask_all([(request("create_model", name="m", schema=SCHEMA_NAME), OK), (request("create_group", name="g", schema=SCHEMA_NAME), OK),
                         (request("include", group="g", owner="ann", model="m"), OK)])
        compare(session.reply(single("put", file=part21(count))), reply_of(instances=count))
        session.ask_all((single("add", text=f"VERTEX_POINT('',#{self.used})"), reply_of(name=it)) for it in self.users[1:])

    def anywhere(self, places=(1, 2, 3, 4, 5, 8)):
        """An instance of a face, but none that is dropped or set, nor one that has reals. The face itself uses its places 1 and 8."""
        return self.random.choice(self.faces) + self.random.choice(places)

    def gets(self):
        return [(single("get", instance=it), reply_of(text=f"#{it}={self.texts[it]};")) for it in (self.anywhere() for _ in range(self.each))]

    def grants(self):
        return [(request("grant", kind="model", name="m", to=next(self.partners), level=next(self.levels)), OK) for _ in range(self.each)]

    def adds(self, target=None):
        names = range(self.next, self.next + self.each)
        self.next += self.each
        return [(single("add", text=f"VERTEX_POINT('',#{target or self.anywhere()})"), reply_of(name=it)) for it in names]

    def sets(self):
        faces = [self.random.choice(self.are_set) for _ in range(self.each)]
        return [(single("set", instance=it, text=f"ADVANCED_FACE('',(#{self.anywhere()}),#{self.anywhere()},.T.)"), OK) for it in faces]

    def drops(self, faces):
        return [(single("drop", instance=it), OK) for it in itertools.islice(faces, self.few)]

    def turns(self):
        """The lines of one round by the words that tell of them."""
        names = [f"c{k:02}" for k in range(60)]
        # (ann's models stand before all others, and his in their middle)
        who = groups.name_of(self.owners // 2)
        roles = ["", f"{SCHEMA_NAME}.VERTEX_POINT.VERTEX_GEOMETRY"]
        users = reply_of(users=[["ann", "m", it] for it in self.users])
        return {
            "get": self.gets(), "grant": self.grants(), "add, referring anywhere": self.adds(), "add, referring to the first": self.adds(1),
            "set": self.sets(), "create_model": [(request("create_model", name=it, schema=SCHEMA_NAME), OK) for it in names],
            "delete_model": [(request("delete_model", name=it), OK) for it in names],
            "create_model, amid others": [(asked(who, "create_model", name=it, schema=SCHEMA_NAME), OK) for it in names],
            "delete_model, amid others": [(asked(who, "delete_model", name=it), OK) for it in names],
            "drop, of the last 10,000": self.drops(self.last), "drop, of the first": self.drops(self.first), "drop, in the middle": self.drops(self.middle),
            "drop that is refused": [(single("drop", instance=self.anywhere((2, 3, 4, 5))), IN_USE) for _ in range(self.few)],
            "users of ten": [(request("users", owner="ann", group="g", of=["ann", "m", self.used], role=roles[k % 2]), users) for k in range(20)],
            "extent of one": [(request("extent", owner="ann", group="g", type="product"), reply_of(extent=[["ann", "m", 7]]))] * 20,
        }


def others(sizes, used):
    """The lines by which others make their models, each with links to instances of ann's, of which one is that which is used."""
    chance = random.Random(2)
    file = make_part21.HEADER + "".join(f"#{k}=VERTEX_POINT('',#{LINKS + k});\n" for k in range(1, LINKS + 1)) + make_part21.FOOTER
    for number, place in itertools.product(range(sizes.owners), range(OWNED)):
        who, name = groups.name_of(number), f"m{place}"
        targets = [used, *(chance.randint(1, sizes.instances) for _ in range(LINKS - 1))]
        links = [{"name": LINKS + k, "owner": "ann", "model": "m", "instance": it} for k, it in enumerate(targets, 1)]
        yield asked(who, "create_model", name=name, schema=SCHEMA_NAME), OK
        yield asked(who, "put", owner=who, model=name, file=file, links=links), reply_of(instances=LINKS)


def measure_single(folder, sizes, aims):
    partners = [groups.name_of(k) for k in range(sizes.owners)]
    with open(SCHEMA, encoding="utf-8") as it:
        folder.configure("ann", *partners, automotive_design=it.read())
    rounds = Rounds(sizes)
    alone, among = {}, {}
    with Session(folder) as one, Session(folder) as other:
        for session in (one, other):
            rounds.make(session, sizes.instances)
            session.ask_all((request("grant", kind="model", name="m", to=it, level="read"), OK) for it in partners)
        other.ask_all(others(sizes, rounds.used))
        for _ in range(sizes.rounds):
            for words, turns in rounds.turns().items():
                alone.setdefault(words, []).append(one.mean_seconds(turns))
                among.setdefault(words, []).append(other.mean_seconds(turns))
    table = Table({f"ms, of {sizes.instances:,}": "28", "alone": "8.4f", "middle": "8.4f", f"among {sizes.owners * OWNED:,}": "11.4f", "middle ": "8.4f",
                   "/ alone": "8.2f"})
    for words, asked_for in MILLISECONDS.items():
        mine, its = ([it * 1000 for it in best_and_middle(seconds[words])] for seconds in (alone, among))
        table.row(words, *mine, *its, its[0] / mine[0])
        if asked_for:
            aims.at_most(f"ms, {words}, alone", mine[0], asked_for)
            aims.at_most(f"ms, {words}, among others", its[0], asked_for)
        aims.at_most(f"{words}, among others / alone", its[0] / mine[0], AMONG_OTHERS)


# ---- what others grant

GROUPS = 50


def holdings(owners):
    """The lines of partners who have as many models as groups. Each group lists all models of its owner, and is granted to ann; one model
    more is in none."""
    file = groups.HEADER + "#1=P(1.);" + groups.FOOTER
    for who in owners:
        for place in range(GROUPS):
            yield asked(who, "create_model", name=f"m{place:02}", schema="T"), OK
            yield asked(who, "put", owner=who, model=f"m{place:02}", file=file), reply_of(instances=1)
        yield asked(who, "create_model", name="z", schema="T"), OK
        for place in range(GROUPS):
            yield asked(who, "create_group", name=f"g{place:02}", schema="T"), OK
            yield asked(who, "grant", kind="group", name=f"g{place:02}", to="ann", level="read"), OK
            for member in range(GROUPS):
                yield asked(who, "include", group=f"g{place:02}", owner=who, model=f"m{member:02}"), OK


def listed(owners):
    """What ann is told that she sees."""
    rows = {kind: [{"level": "read", "name": f"{kind[0]}{place:02}", "owner": who, "schema": "T"} for who in owners for place in range(GROUPS)]
            for kind in ("groups", "models")}
    rows["models"].insert(0, {"level": "owner", "name": "own", "owner": "ann", "schema": "T"})
    return reply_of(**rows)


def granted_turns(owners):
    """Requests of ann's: their words, each with its reply and how often it is asked at a time."""
    names, text = reply_of(names=[{"name": 1, "type": "P"}]), reply_of(text="#1=P(1.);")
    for words, who, name in (("first", owners[0], "m00"), ("middle", owners[len(owners) // 2], "m25"), ("last", owners[-1], "m49")):
        yield f"names, of the {words}", [(request("names", owner=who, model=name), names)] * 20
        yield f"get, of the {words}", [(request("get", owner=who, model=name, instance=1), text)] * 20
    yield "names, of what she doesn't see", [(request("names", owner=owners[-1], model="z"), NO_SUCH_ITEM)] * 20
    yield "names, of her own", [(request("names", owner="ann", model="own"), reply_of(names=[]))] * 20
    yield "list", [(request("list"), listed(owners))] * 3


def measure_granted(folder, sizes, aims):
    owners = [groups.name_of(k) for k in range(sizes.granting)]
    folder.configure("ann", *owners, t=groups.SCHEMA)
    count = sizes.granting * GROUPS
    table = Table({f"ms, where {count:,} groups are granted": "40", "best": "8.4f", "middle": "8.4f"})
    with Session(folder) as session:
        session.ask_all([(request("create_model", name="own", schema="T"), OK), *holdings(owners)])
        for words, turns in granted_turns(owners):
            best, middle = best_and_middle([session.mean_seconds(turns) * 1000 for _ in range(5)])
            table.row(words, best, middle)
            aims.at_most(f"ms, {words}, {count:,} groups granted", best, LIST_OF_ONE * count if words == "list" else GRANTED)


# ---- names

OF_EACH = 100


def long_names(owner):
    """Names of one owner's models that have as much in common as they can, also with those of others."""
    return [f"{owner * OF_EACH + place:064}" for place in range(OF_EACH)]


def random_names(owner):
    chance = random.Random(owner)
    return sorted("".join(chance.choices("abcdefghijklmnopqrstuvwxyz0123456789", k=64)) for _ in range(OF_EACH))


def named_turns(owners, names):
    """The lines of a round by their words."""
    chance = random.Random(3)
    places = [(chance.randrange(len(owners)), chance.randrange(OF_EACH)) for _ in range(100)]
    some = [(owners[owner], names[owner][place]) for owner, place in places]
    return {
        "names": [(asked(who, "names", owner=who, model=name), reply_of(names=[])) for who, name in some],
        "delete and create": [(asked(who, do, name=name, **more), OK) for who, name in some[:20]
                              for do, more in (("delete_model", {}), ("create_model", {"schema": "T"}))],
    }


def measure_names(folder, sizes, aims):
    owners = [groups.name_of(k) for k in range(sizes.named)]
    folder.configure(*owners, t=groups.SCHEMA)
    found = {}
    with Session(folder) as one, Session(folder) as other:
        made = [(session, [make(k) for k in range(sizes.named)]) for session, make in ((one, long_names), (other, random_names))]
        for place, who in enumerate(owners):
            for session, names in made:
                session.ask_all((asked(who, "create_model", name=it, schema="T"), OK) for it in names[place])
        found["create"] = [[processor_seconds(session.process) / sizes.named / OF_EACH] for session, _ in made]
        turns = [(session, named_turns(owners, names)) for session, names in made]
        for words in turns[0][1]:
            each = [[session.mean_seconds(lines[words]) for session, lines in turns] for _ in range(2 * sizes.rounds)]
            found[words] = list(zip(*each))
    count = sizes.named * OF_EACH
    table = Table({f"ms, of {count:,} models": "24", "long": "8.4f", "random": "8.4f", "long / random": "13.2f"})
    for words, its in found.items():
        best = [min(it) * 1000 for it in its]
        table.row(words, *best, best[0] / best[1])
        aims.at_most(f"{words}, names with much in common / others", best[0] / best[1], LONG_NAMES)


# ---- memory

def referring_file(count, what, size):
    """A file of so many p's, and as many q's, of which each uses what this makes of its place; and blanks, up to so many bytes."""
    users = "".join(f"#{count + k}=Q(#{what(k)});" for k in range(1, count + 1)) if what else ""
    file = groups.HEADER + "".join(f"#{k}=P(1.);" for k in range(1, count + 1)) + users + groups.FOOTER
    return file + " " * (size - len(file))


def held_with(folder, file, count):
    """The bytes that are held once a file of so many instances is put."""
    lines = request("create_model", name="m", schema="T") + request("put", owner="ann", model="m", file=file) + request("schemas")
    (_, _, _, held), written = folder.held(BATCH, lines)
    compare(written, OK + reply_of(instances=count) + reply_of(schemas=["T"]))
    return held


def instance_bytes(folder, count):
    """The bytes of an instance with one reference, where all refer to one and where each refers to another."""
    size = len(referring_file(count, lambda k: k, 0))
    none = held_with(folder, referring_file(count, None, size), count)
    return [(held_with(folder, referring_file(count, what, size), 2 * count) - none) / count for what in (lambda k: 1, lambda k: k)]


def measure_instances(folders, sizes, aims):
    for it in folders:
        it.configure(t=groups.SCHEMA)
    table = Table({"bytes of an instance that refers": "32", "held": "8.1f", "before": "8.1f"})
    each = [instance_bytes(it, sizes.referring) for it in folders]
    for place, words in enumerate(("to the same as all others", "to another than all others")):
        held, before = each[0][place], each[1][place] if len(each) > 1 else OF_INSTANCE
        table.row(words, held, before)
        aims.at_most(f"bytes of an instance that refers {words}, more than before", held - before, MORE_OF_INSTANCE)


def changes(first, last, count):
    """Rounds, of these numbers, that add an instance, set it and drop it. The model has so many p's, and as many q's."""
    for number in range(first, last):
        name = 2 * count + 1 + number
        used, other = (1 + k * STEP % count for k in (number, number + 1))
        yield single("add", text=f"Q(#{used})"), reply_of(name=name)
        yield single("set", instance=name, text=f"Q(#{other})"), OK
        yield single("drop", instance=name), OK


def measure_changes(folder, sizes, aims):
    count = 500
    folder.configure(t=groups.SCHEMA)
    first = sizes.changes // 100
    with Session(folder) as session:
        session.ask_all([(request("create_model", name="m", schema="T"), OK)])
        compare(session.reply(single("put", file=referring_file(count, lambda k: k, 0))), reply_of(instances=2 * count))
        session.ask_all(changes(0, first, count))
        before = held_now(session.process)
        session.ask_all(changes(first, sizes.changes, count))
        after = held_now(session.process)
    table = Table({"rounds of add, set, drop": "24,", "held": "12,"})
    table.row(first, before)
    table.row(sizes.changes, after)
    aims.at_most(f"bytes more after {sizes.changes:,} rounds than after {first:,}", after - before, SAME)


LIVES = 100


def lives_of(block):
    """The lines of so many models of new names, from their creation to their end. The first is granted, nine link to it, and one of these
    is a member of a group for as long."""
    names = [f"{block * LIVES + k:064}" for k in range(LIVES)]
    file = groups.HEADER + "#1=P(1.);#2=Q(#1);" + groups.FOOTER
    user = groups.HEADER + "#1=Q(#9);" + groups.FOOTER
    link = {"name": 9, "owner": "ann", "model": names[0], "instance": 1}
    yield from ((request("create_model", name=it, schema="T"), OK) for it in names)
    yield single("put", names[0], file=file), reply_of(instances=2)
    yield request("grant", kind="model", name=names[0], to="bob", level="read"), OK
    yield request("include", group="g", owner="ann", model=names[1]), OK
    yield from ((single("put", it, file=user, links=[link]), reply_of(instances=1)) for it in names[1:LINKS])
    yield from ((request("delete_model", name=it), OK) for it in names)
    yield request("exclude", group="g", owner="ann", model=names[1]), OK


def measure_lives(folder, sizes, aims):
    folder.configure("ann", "bob", t=groups.SCHEMA)
    with Session(folder) as session:
        session.ask_all([(request("create_group", name="g", schema="T"), OK), *lives_of(0)])
        before = held_now(session.process)
        session.ask_all(it for block in range(1, sizes.lives // LIVES + 1) for it in lives_of(block))
        after = held_now(session.process)
    table = Table({"models created and deleted": "26,", "held": "12,"})
    table.row(LIVES, before)
    table.row(LIVES + sizes.lives, after)
    aims.at_most(f"bytes more after {sizes.lives:,} models", after - before, round(OF_LIVES * sizes.lives))


# ---- beside the program of before

def put_seconds(folders, sizes):
    """The seconds of puts, of each program in turn."""
    count = count_within(sizes.put)
    file, wanted = part21(count), reply_of(instances=count)
    with open(SCHEMA, encoding="utf-8") as it:
        text = it.read()
    for it in folders:
        it.configure(automotive_design=text)
    each = [[run.run_once(it, file, wanted).put for it in folders] for _ in range(PUTS)]
    return "put", len(file), list(zip(*each))


def wide_seconds(folders, sizes):
    """The seconds of an extent and of users that are nearly all instances, of each program in turn."""
    places = [["ann", "m", k] for k in range(2, sizes.wide + 1)]
    lines = {"extent": (request("extent", owner="ann", group="g", type="q"), reply_of(extent=places)),
             "users": (request("users", owner="ann", group="g", of=["ann", "m", 1], role="T.Q.A"), reply_of(users=places))}
    for it in folders:
        it.configure(t=groups.SCHEMA)
    sessions = [Session(it) for it in folders]
    for session in sessions:
        groups.make_group(session, sizes.wide)
    for words, turn in lines.items():
        each = [[session.mean_seconds([turn]) for session in sessions] for _ in range(WIDE)]
        yield words, len(turn[1]), list(zip(*each))
    for session in sessions:
        with session:
            pass


def measure_rates(folders, sizes, aims):
    table = Table({"MB/s": "8", "bytes": "12,", "best": "8.1f", "middle": "8.1f", "before, best": "12", "middle ": "8", "/ before": "8"})
    for words, size, seconds in [put_seconds(folders, sizes), *wide_seconds(folders, sizes)]:
        rates = [[size / 1e6 / it for it in best_and_middle(its)] for its in seconds]
        before, ratio = ["", ""], ""
        if len(rates) > 1:
            before = [f"{it:.1f}" for it in rates[1]]
            ratio = rates[0][0] / rates[1][0]
            aims.at_least(f"MB/s, {words}, of those before", ratio, PUT_OF_BEFORE if words == "put" else OTHERS_OF_BEFORE)
            ratio = f"{ratio:.3f}"
        table.row(words, size, *rates[0], *before, ratio)


# ---- all

def measure_memory(folders, sizes, aims):
    measure_instances(folders, sizes, aims)
    measure_changes(folders[0], sizes, aims)
    measure_lives(folders[0], sizes, aims)


PARTS = {
    "single": lambda folders, *given: measure_single(folders[0], *given), "granted": lambda folders, *given: measure_granted(folders[0], *given),
    "names": lambda folders, *given: measure_names(folders[0], *given), "memory": measure_memory, "rates": measure_rates,
}


def measure(folder, before, parts, sizes):
    aims = Aims()
    folders = [folder, Folder(before, folder.path)] if before else [folder]
    for it in parts:
        PARTS[it](folders, sizes, aims)
    return aims.told() if aims.rows else 0


def main(words):
    parser = argparse.ArgumentParser(prog="bench/store.py", allow_abbrev=False)
    parser.add_argument("program", nargs="?")
    parser.add_argument("--before")
    parser.add_argument("--quick", action="store_true")
    parser.add_argument("--only", action="append", choices=PARTS)
    given = parser.parse_args(words)
    before = os.path.abspath(given.before) if given.before else None
    if before and not os.access(before, os.X_OK):
        sys.exit(f"bench: there is no program {before}")
    sizes = Sizes().tenth() if given.quick else Sizes()
    run_bench(lambda folder: measure(folder, before, given.only or PARTS, sizes), [given.program] if given.program else [])


if __name__ == "__main__":
    main(sys.argv[1:])
