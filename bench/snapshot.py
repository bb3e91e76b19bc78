#!/usr/bin/env python3
"""Measures `batch --load FILE --save FILE`: a processor's time beside that of put and export, memory, growth, and peers.

    bench/snapshot.py [--quick] [PROGRAM]

The first table has a repository of five models of 8 MiB, like those that `run.py` puts, in rounds of four processes: one puts the
models' canonical texts, exports them and saves; one loads that snapshot, exports and saves; one does this without saving; and one
loads a snapshot without rows. A load is what a processor took up to the first reply, less that of the last process. A save is what
it took behind the last reply, less that of the process that doesn't save. All rates count the bytes of the models' texts. The
seconds by the clock have what the system syncs.

The second table has memory: the most that a process held up to its first reply, against the bytes of the snapshot; and the most
that it held behind its last reply, beside what it held by then, against those of the largest model's text. For the latter the C
library gives large blocks back at once, so that none that was let go before hides what a save takes.

The third has growth: repositories of small models, of such as link to one another, whose targets lie in any order, and of lists of
grants. The last of each sort has a text about ten times as long as the others. Seconds are the least of some runs, each less that of a run without rows, or without saving.

The fourth has peers, with the instances of the five models: SQLite's `.dump` and `.read` of a table with a row for each and an index
on its type, and Python's `json` of such rows, and of the five texts as strings.

All that is saved is compared with what it must be. Then the aims are told; the status is 1 where one is missed. With --quick there are
two rounds in place of five, and the small repositories are a fifth.
"""
import json
import os
import re
import shutil
import sqlite3
import statistics
import sys
import time
from typing import NamedTuple

from harness import (FILE_LIMIT, OK, TOP, Aims, Folder, Session, Table, compare, expect_success, forget_most, held_now, most_memory,
                     processor_seconds, request, run_bench)
from make_part21 import count_within, part21
from single import STEP

SCHEMA = os.path.join(TOP, "tests/data/automotive_design.exp")
SCHEMA_NAME = "AUTOMOTIVE_DESIGN"
FIRST_LINE = b"STEPREPO 1\n"
MODELS = [f"m{k}" for k in range(5)]

# Of the aims, the last is how many times as long a byte may take in a text that is ten times as long.
LOAD_OF_PUT = 0.6
SAVE_OF_EXPORT = 0.75
LOAD_OF_FILE = 9
SAVE_OF_MODEL = 4
GROWTH = 2

# Files in the folder: a snapshot that is loaded, what is saved, and a snapshot without rows.
MADE, SAVED, EMPTY = "made", "saved", "empty"


# ---- snapshots

def name_of(number):
    """The names of partners, in their order."""
    return f"p{number:04}" if number else "ann"


def configure(folder, partners):
    """Writes a configuration of so many partners."""
    with open(SCHEMA, encoding="utf-8") as it:
        folder.configure(*(name_of(k) for k in range(partners)), automotive_design=it.read())
    folder.write(EMPTY, snapshot_of([]))


def model_row(owner, name, file, greatest, grants=(), links=()):
    return {"file": file, "grants": [[it, "read"] for it in grants], "greatest": greatest, "links": list(links), "name": name, "owner": owner,
            "schema": SCHEMA_NAME}


def snapshot_of(models):
    return FIRST_LINE + json.dumps({"groups": [], "models": models}, separators=(",", ":")).encode()


def compare_saved(folder, wanted):
    with open(os.path.join(folder.path, SAVED), "rb") as it:
        if it.read() != wanted:
            sys.exit("bench: what is saved isn't what it must be")


# ---- runs

class End(NamedTuple):
    """What a process took from its last reply to its end: of a processor, by the clock, and the most bytes beside what it held."""

    processor: float
    clock: float
    memory: int


class Run(Session):
    """A process that loads and saves what it is told to. It is asked something at once, since by then it has loaded."""

    def __init__(self, folder, *options, **devices):
        begin = time.monotonic()
        super().__init__(folder, *options, **devices)
        compare(self.ask(request("schemas"))[0], b'{"ok":{"schemas":["%s"]}}\n' % SCHEMA_NAME.encode())
        self.clock = time.monotonic() - begin
        self.processor = processor_seconds(self.process)
        self.most = self.memory()

    def all_seconds(self, turns):
        """How long a processor ran it for requests, each with its reply."""
        total = 0
        for line, wanted in turns:
            reply, _, seconds = self.ask(line)
            compare(reply, wanted)
            total += seconds
        return total

    def end(self):
        """Ends it, and looks at its memory until it is gone."""
        busy = processor_seconds(self.process)
        forget_most(self.process)
        before = most = held_now(self.process)
        begin = time.monotonic()
        self.process.stdin.close()
        ended = 0
        while not ended:
            time.sleep(0.001)
            most = most_memory(self.process) or most
            ended, status, usage = os.wait4(self.process.pid, os.WNOHANG)
        self.process.returncode = os.waitstatus_to_exitcode(status)
        expect_success(self.process.returncode)
        return End(usage.ru_utime + usage.ru_stime - busy, time.monotonic() - begin, most - before)


def start_and_end(folder, *options, **devices):
    """A run that is asked nothing more, and its end."""
    with Run(folder, *options, **devices) as run:
        return run, run.end()


# ---- five models

class Models:
    """The canonical text of a model of so many instances, and five of that text: their requests with the replies, and their rows."""

    def __init__(self, folder, count):
        put_reply = b'{"ok":{"instances":%d}}\n' % count
        with Run(folder) as run:
            run.all_seconds([(request("create_model", name="m", schema=SCHEMA_NAME), OK),
                             (request("put", owner="ann", model="m", file=part21(count)), put_reply)])
            exported = run.ask(request("export", owner="ann", model="m"))[0]
        self.text = json.loads(exported)["ok"]["file"]
        self.bytes = len(MODELS) * len(self.text)
        self.creates = [(request("create_model", name=it, schema=SCHEMA_NAME), OK) for it in MODELS]
        self.puts = [(request("put", owner="ann", model=it, file=self.text), put_reply) for it in MODELS]
        self.exports = [(request("export", owner="ann", model=it), exported) for it in MODELS]
        self.rows = [model_row("ann", it, self.text, count) for it in MODELS]


class Times:
    """What each act took in the runs that did it, and what stands beside it in runs that didn't."""

    def __init__(self):
        self.done = []
        self.without = []

    def least(self):
        return min(self.done) - min(self.without, default=0)

    def middle(self):
        return statistics.median(self.done) - (statistics.median(self.without) if self.without else 0)

    def rates(self, size):
        """MB in a second, of the least one and of the middle one."""
        return size / 1e6 / self.least(), size / 1e6 / self.middle()


class Acts:
    """The times of a processor, and of a load and a save by the clock."""

    def __init__(self):
        self.put, self.load, self.export, self.save, self.load_clock, self.save_clock = (Times() for _ in range(6))

    def loads(self, run):
        self.load.done.append(run.processor)
        self.load_clock.done.append(run.clock)

    def saves(self, end):
        self.save.done.append(end.processor)
        self.save_clock.done.append(end.clock)

    def loads_nothing(self, run):
        self.load.without.append(run.processor)
        self.load_clock.without.append(run.clock)

    def saves_nothing(self, end):
        self.save.without.append(end.processor)
        self.save_clock.without.append(end.clock)


def one_round(folder, models, snapshot, acts):
    with Run(folder, "--save", SAVED) as run:
        run.all_seconds(models.creates)
        acts.put.done.append(run.all_seconds(models.puts))
        acts.export.done.append(run.all_seconds(models.exports))
        acts.saves(run.end())
    compare_saved(folder, snapshot)
    with Run(folder, "--load", MADE, "--save", SAVED) as run:
        acts.loads(run)
        acts.export.done.append(run.all_seconds(models.exports))
        acts.saves(run.end())
    compare_saved(folder, snapshot)
    with Run(folder, "--load", MADE) as run:
        acts.loads(run)
        acts.export.done.append(run.all_seconds(models.exports))
        acts.saves_nothing(run.end())
    acts.loads_nothing(start_and_end(folder, "--load", EMPTY)[0])


def measure_acts(folder, models, rounds, aims):
    """The times of each act for five models. The rates of a save and of a load."""
    acts = Acts()
    snapshot = snapshot_of(models.rows)
    folder.write(MADE, snapshot)
    for _ in range(rounds):
        one_round(folder, models, snapshot, acts)
    table = Table({"five models": "11", "bytes": "12,", "seconds": "8.3f", "MB/s": "7.1f", "middle": "7.1f", "by the clock": "12",
                   "beside": "7", "of its MB/s": "11", "middle ": "7"})
    for act, beside, asked in (("put", "", 0), ("load", "put", LOAD_OF_PUT), ("export", "", 0), ("save", "export", SAVE_OF_EXPORT)):
        times = getattr(acts, act)
        rates, shares, clock = times.rates(models.bytes), ("", ""), ""
        if beside:
            shares = [mine / its for mine, its in zip(rates, getattr(acts, beside).rates(models.bytes))]
            aims.at_least(f"MB/s, {act} / {beside}", shares[0], asked)
            shares = [f"{it:.2f}" for it in shares]
            clock = f"{getattr(acts, f'{act}_clock').least():.3f}"
        table.row(act, models.bytes, times.least(), *rates, clock, beside, *shares)
    return acts.save.rates(models.bytes), acts.load.rates(models.bytes)


# ---- memory

# Blocks of 128 KiB and more are taken from the system one by one, and given back.
GIVES_BACK = {"MALLOC_MMAP_THRESHOLD_": "131072"}


def measure_memory(folder, models, aims):
    table = Table({"models": "6", "snapshot": "12,", "most of a load": "14,", "/snapshot": "9.2f", "a model": "12,",
                   "beside by a save": "16,", "/model": "7.2f"})
    for count in (len(MODELS), 1):
        snapshot = snapshot_of(models.rows[:count])
        folder.write(MADE, snapshot)
        most = max(start_and_end(folder, "--load", MADE)[0].most for _ in range(2))
        beside = start_and_end(folder, "--load", MADE, "--save", SAVED, **GIVES_BACK)[1].memory
        compare_saved(folder, snapshot)
        table.row(count, len(snapshot), most, most / len(snapshot), len(models.text), beside, beside / len(models.text))
        aims.at_most(f"memory of a load / snapshot of {count}", most / len(snapshot), LOAD_OF_FILE)
        aims.at_most(f"memory beside by a save / model, of {count}", beside / len(models.text), SAVE_OF_MODEL)


# ---- growth

class Shape(NamedTuple):
    """A repository of small models: its partners, how many of them own models, the models of each owner, the grants on each model, to
    partners that stand as far apart as can be, and whether each model links to another one."""

    partners: int
    owners: int
    models: int
    grants: int
    is_linked: bool = False

    def rows(self, text):
        names = [name_of(k) for k in range(self.partners)]
        owners = names[::self.partners // self.owners][:self.owners]
        linking = re.sub("#1=.*;", "#1=VERTEX_POINT('',#2);", text)
        for number, owner in enumerate(owners):
            others = [it for it in names if it != owner]
            grants = others[::len(others) // self.grants][:self.grants] if self.grants else []
            for k in range(self.models):
                link = self.link(owners, number * self.models + k) if self.is_linked else None
                yield model_row(owner, f"m{k:02}", linking, 2, grants, [link]) if link else model_row(owner, f"m{k:02}", text, 1, grants)

    def link(self, owners, place):
        """The link of the model in this place. Each model is the target of one."""
        other = (place * STEP + 1) % (self.owners * self.models)
        return {"instance": 1, "model": f"m{other % self.models:02}", "name": 2, "owner": owners[other // self.models]}


def shapes(share):
    """Repositories of each sort, of which the last has the long text. Where the partners are as many, the text alone grows."""
    models, owners = 100 // share, 10 // share
    of_models = [(100, 100, models, 0), (1000, 1000, models // 10, 0), (1000, 1000, models, 0)]
    yield "small models", [Shape(*it) for it in of_models]
    yield "linked models", [Shape(*it, is_linked=True) for it in of_models]
    yield "rows of grants", [Shape(100, owners, 100, 99), Shape(1000, owners, 100, 99), Shape(1000, owners, 100, 999)]


def measure_shape(folder, snapshot, runs):
    """The least seconds of a load and of a save, and the most memory of a load."""
    folder.write(MADE, snapshot)
    acts, most = Acts(), 0
    for _ in range(runs):
        acts.loads_nothing(start_and_end(folder, "--load", EMPTY)[0])
        saving, end = start_and_end(folder, "--load", MADE, "--save", SAVED)
        compare_saved(folder, snapshot)
        acts.saves(end)
        loading, end = start_and_end(folder, "--load", MADE)
        acts.saves_nothing(end)
        for it in (saving, loading):
            acts.loads(it)
            most = max(most, it.most)
    return acts.load.least(), acts.save.least(), most


def measure_growth(folder, text, share, runs, aims):
    table = Table({"of": "14", "partners": "8,", "models": "8,", "grants": "10,", "snapshot": "12,", "load": "8.3f", "ms/MB": "7.2f",
                   "save": "8.3f", "ms/MB ": "7.2f", "most of a load": "14,", "/snapshot": "9.2f"})
    for words, of_sort in shapes(share):
        each = []
        for shape in of_sort:
            configure(folder, shape.partners)
            snapshot = snapshot_of(list(shape.rows(text)))
            load, save, most = measure_shape(folder, snapshot, runs)
            count = shape.owners * shape.models
            each.append((load / len(snapshot) * 1e9, save / len(snapshot) * 1e9))
            table.row(words, shape.partners, count, count * shape.grants, len(snapshot), load, each[-1][0], save, each[-1][1], most,
                      most / len(snapshot))
        for act, found in zip(("load", "save"), zip(*each)):
            aims.at_most(f"ms/MB of a {act}, {words}, long / short", found[-1] / min(found[:-1]), GROWTH)


# ---- peers

TABLE = "CREATE TABLE instances (model TEXT, name INTEGER, type TEXT, text TEXT); CREATE INDEX types ON instances (type);"


def instances_of(models):
    """Rows of all instances: the model, the name, the type where it is one, and what follows."""
    found = [(int(name), kind, text) for name, kind, text in re.findall(r"^#(\d+)=(\w*)(.*);$", models.text, re.MULTILINE)]
    return [(model, *it) for model in MODELS for it in found]


def of_sqlite(folder, instances):
    """How long a processor runs SQLite for `.dump` and for `.read`."""
    sqlite = Folder(shutil.which("sqlite3"), folder.path)
    if not os.path.exists(os.path.join(folder.path, "instances.db")):
        base = sqlite3.connect(os.path.join(folder.path, "instances.db"))
        base.executescript(TABLE)
        base.executemany("INSERT INTO instances VALUES (?, ?, ?, ?)", instances)
        base.commit()
        base.close()
    dump, text = sqlite.processor_run(("instances.db", ".dump"))
    folder.write("dump.sql", text)
    read, _ = sqlite.processor_run(("read.db", ".read dump.sql"))
    compare(sqlite.processor_run(("read.db", "SELECT count(*) FROM instances"))[1], b"%d\n" % len(instances))
    os.remove(os.path.join(folder.path, "read.db"))
    return dump, read


def of_json(value):
    """How long a processor runs Python for `dumps` and for `loads`."""
    begin = time.process_time()
    text = json.dumps(value)
    middle = time.process_time()
    again = json.loads(text)
    end = time.process_time()
    compare(again[-1][-1], value[-1][-1])
    return middle - begin, end - middle


def measure_peers(folder, models, own, rounds):
    table = Table({"of the five models": "34", "written, MB/s": "13.1f", "middle": "7.1f", "read, MB/s": "10.1f", "middle ": "7.1f"})
    table.row("this program, --save and --load", *own[0], *own[1])
    instances = instances_of(models)
    peers = [("Python's json, an instance a row", of_json, (instances,)),
             ("Python's json, a model a string", of_json, ([models.text] * len(MODELS),))]
    if shutil.which("sqlite3"):
        peers.insert(0, ("SQLite, an instance a row", of_sqlite, (folder, instances)))
    else:
        print("sqlite3 isn't installed, and left out")
    for words, take, given in peers:
        written, read = Times(), Times()
        for _ in range(rounds):
            of_write, of_read = take(*given)
            written.done.append(of_write)
            read.done.append(of_read)
        table.row(words, *written.rates(models.bytes), *read.rates(models.bytes))


# ---- all

def measure(folder, is_quick):
    rounds, runs, share = (2, 2, 5) if is_quick else (5, 3, 1)
    aims = Aims()
    configure(folder, 1)
    models = Models(folder, count_within(FILE_LIMIT))
    own = measure_acts(folder, models, rounds, aims)
    measure_memory(folder, models, aims)
    measure_growth(folder, Models(folder, 1).text, share, runs, aims)
    measure_peers(folder, models, own, min(rounds, 3))
    return aims.told()


if __name__ == "__main__":
    run_bench(lambda folder: measure(folder, "--quick" in sys.argv), [it for it in sys.argv[1:] if it != "--quick"])
