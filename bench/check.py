#!/usr/bin/env python3
"""Measures `rp_server check` over EXPRESS schemas, each in a process of its own.

    bench/check.py [PROGRAM]

For schemas of about 64 KiB, 1 MiB and 8 MiB, the greatest that it takes, it prints the megabytes a second from the
program's start to its end (the best of five), the most memory that the process held, and that memory as a multiple
of the text.
"""
import sys

from harness import FILE_LIMIT, KIB, MIB, Table, run_bench
from make_express import count_within, express


def measure(folder):
    table = Table({"schema": "12,", "seconds": "8.3f", "MB/s": "7.2f", "memory": "12,", "memory/text": "11.1f"})
    for limit in (64 * KIB, MIB, FILE_LIMIT):
        text = express(count_within(limit)).encode()
        seconds = folder.check_seconds(text, b"MEASURED: ok\n", 5)
        memory = folder.check_memory()
        size = len(text)
        table.row(size, seconds, size / 1e6 / seconds, memory, memory / size)


if __name__ == "__main__":
    run_bench(measure, sys.argv[1:])
