#!/usr/bin/env python3
"""Runs the built program over devices that move a byte at a time, each read and each write of them failing in turn, and compares
all that it writes.

    tests/failing_devices.py [PROGRAM]

tools/fail.c has them fail. The last line is 'failing devices: N passed, M failed', and the status is 0 only if none failed.
"""
import os
import sys
from concurrent.futures import ThreadPoolExecutor

from lib.harness import TOP, Wrong, run_tests
from lib.messages import BAD_REQUEST, FIRST_EXPORT, FIRST_LINES, FIRST_NAMES, FIRST_REPLIES, Repository, export, names

sys.path.insert(0, os.path.join(TOP, "tools"))

from each_refusal import shim_in  # noqa: E402

# The last line has no line feed.
INPUT = b"\n".join([*FIRST_LINES, b"", names("ann", "ann", "m"), export("ann", "ann", "m")])
REPLIES = [it + b"\n" for it in (*FIRST_REPLIES, BAD_REQUEST, FIRST_NAMES, FIRST_EXPORT)]
OUTPUT = b"".join(REPLIES)
UNREAD = b"rp_server: standard input can't be read\n"
UNWRITTEN = b"rp_server: standard output can't be written\n"


def expect_each(name, wanted, **more):
    """The Nth call of this name fails, for each N from 1: then the status, the output and the errors have to be the Nth of these."""
    with Repository() as folder, ThreadPoolExecutor(os.cpu_count() or 1) as pool:
        devices = {"LD_PRELOAD": shim_in(folder.folder.name, "fail"), "FAIL_SHORT": "1", **more}
        seen = pool.map(lambda n: folder.run("batch", "--config", "config.json", text=INPUT, env={**devices, name: str(n)}),
                        range(1, len(wanted) + 1))
        for n, (it, that) in enumerate(zip(seen, wanted), 1):
            if it != that:
                raise Wrong(f"{name}={n} {more or ''}: {it!r} in place of {that!r}")


def test_each_read_fails():
    """The lines before are answered, and no other. Each byte is a read, and so is the end."""
    before = [(2, b"".join(REPLIES[:INPUT[:n].count(b"\n")]), UNREAD) for n in range(len(INPUT) + 1)]
    expect_each("FAIL_READ", [*before, (0, OUTPUT, b"")])


def test_each_write_fails():
    """What was written before is the front of the replies. Each byte is a write."""
    before = [(2, OUTPUT[:n], UNWRITTEN) for n in range(len(OUTPUT))]
    expect_each("FAIL_WRITE", [*before, (0, OUTPUT, b"")])


def test_each_write_takes_nothing():
    """A write that takes nothing is one that fails."""
    before = [(2, OUTPUT[:n], UNWRITTEN) for n in range(len(OUTPUT))]
    expect_each("FAIL_WRITE", [*before, (0, OUTPUT, b"")], FAIL_TAKES="0")


if __name__ == "__main__":
    run_tests("failing devices", globals(), sys.argv[1:])
