#!/usr/bin/env python3
"""Measures `put` and `export` of Part 21 files, each in a process of its own.

    bench/run.py [PROGRAM]

For files of 1,000, 10,000 and 100,000 instances and one of about 8 MiB, the greatest that a request may
bring, it prints of a put how many seconds a processor ran the program from the request to its reply, the
megabytes of the file in each of them, the most memory that the process has held since it started, and that
memory as a multiple of the file; then the same of an export, by the bytes of the canonical text. Each is put
and exported five times, by processes of their own: the best is printed, as by `check.py`, and beside it the
middle one. Where they differ much, other work ran.

The file that is exported is put again and exported again, and has to be the same then.
"""
import json
import os
import statistics
import sys
from typing import NamedTuple

from harness import FILE_LIMIT, TOP, Session, Table, compare, request, run_bench
from make_part21 import count_within, part21

SCHEMA = os.path.join(TOP, "tests/data/automotive_design.exp")
TIMES = 5


class Run(NamedTuple):
    """What one process took."""

    put: float
    export: float
    memory: int
    text: int


def put(file):
    return request("put", owner="ann", model="m", file=file)


EXPORT = request("export", owner="ann", model="m")


def exported(reply):
    """The file of an export's reply."""
    return json.loads(reply)["ok"]["file"]


def run_once(folder, file, wanted):
    with Session(folder) as session:
        compare(session.ask(request("create_model", name="m", schema="AUTOMOTIVE_DESIGN"))[0], b'{"ok":{}}\n')
        reply, _, put_seconds = session.ask(put(file))
        compare(reply, wanted)
        memory = session.memory()
        export, _, export_seconds = session.ask(EXPORT)
        text = exported(export)
        compare(session.ask(put(text))[0], wanted)
        compare(session.ask(EXPORT)[0], export)
    return Run(put_seconds, export_seconds, memory, len(text))


def megabytes(size, seconds):
    """The megabytes in a second, of the best run and of the middle one."""
    return size / 1e6 / min(seconds), size / 1e6 / statistics.median(seconds)


def measure(folder):
    table = Table({"instances": "10,", "file": "12,", "run": "8.3f", "MB/run s": "8.1f", "middle": "8.1f", "memory": "12,",
                   "memory/file": "11.1f", "text": "12,", "export": "8.3f", "MB/run s ": "9.1f", "middle ": "8.1f"})
    with open(SCHEMA, encoding="utf-8") as it:
        folder.configure(automotive_design=it.read())
    for count in (1000, 10000, 100000, count_within(FILE_LIMIT)):
        file = part21(count)
        wanted = b'{"ok":{"instances":%d}}\n' % count
        runs = [run_once(folder, file, wanted) for _ in range(TIMES)]
        memory = max(it.memory for it in runs)
        puts, exports, text = [it.put for it in runs], [it.export for it in runs], runs[0].text
        table.row(count, len(file), min(puts), *megabytes(len(file), puts), memory, memory / len(file), text, min(exports),
                  *megabytes(text, exports))


if __name__ == "__main__":
    run_bench(measure, sys.argv[1:])
