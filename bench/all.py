#!/usr/bin/env python3
"""Makes all tables of bench/README.md anew, and its chart of growth.

    bench/all.py [--hostile] [PROGRAM]

It runs the other scripts of this folder one after the other, on PROGRAM or else on the program that was built, and prints what they
print; eval.py on the program of the trials, where that was built. The hostile inputs take long, and come with --hostile
alone.
At the end stands the chart: the nanoseconds that each byte takes, of each kind of work at each size.
"""
import os
import subprocess
import sys
import tempfile

import check
import kinds
import names
import run
from harness import PROGRAM, TOP, Folder, Table

BENCH = os.path.join(TOP, "bench")
TRIALS = os.path.join(TOP, "crates/trials/out/trials")
NANOSECONDS_A_SIGN = 4


def heading(name):
    print(f"\n== {name}", flush=True)


def measured(module, folder):
    """The rows of a script that is run here, and its status."""
    heading(f"bench/{module.__name__}.py")
    Table.rows.clear()
    status = module.measure(folder)
    return list(Table.rows), status or 0


def run_script(name, *words):
    """Runs a script in a process of its own, and answers its status."""
    heading(" ".join([f"bench/{name}", *words[:-1]]))
    return subprocess.run([sys.executable, os.path.join(BENCH, name), *words], check=False).returncode


def size_of(count):
    return f"{count / 1e6:.1f} MB" if count >= 1e6 else f"{count / 1e3:.0f} KB"


def show_chart(series):
    """A bar for each size of each kind of work: how long a byte takes."""
    heading(f"time for each byte, a sign for {NANOSECONDS_A_SIGN} nanoseconds")
    for name, points in series:
        for place, (count, seconds) in enumerate(points):
            each = seconds / count * 1e9
            print(f"{name if place == 0 else '':22} {size_of(count):>7} {'#' * round(each / NANOSECONDS_A_SIGN)} {each:.0f}")


def grouped(rows, key, sizes):
    """The points of each group of rows, in their order."""
    series = {}
    for row in rows:
        series.setdefault(key(row), []).append((row[sizes], row["seconds"]))
    return list(series.items())


def measure(folder, program, with_hostile):
    files, failed = measured(run, folder)
    schemas, status = measured(check, folder)
    of_kinds, within = measured(kinds, folder)
    of_names, other = measured(names, folder)
    failed = failed or status or within or other
    failed = run_script("single.py", program) or failed
    failed = run_script("groups.py", program) or failed
    failed = run_script("validate.py", program) or failed
    failed = run_script("derived.py", program) or failed
    failed = run_script("store.py", program) or failed
    failed = run_script("snapshot.py", program) or failed
    failed = run_script("legal.py", program) or failed
    failed = run_script("delivery.py", program) or failed
    if os.access(TRIALS, os.X_OK):
        failed = run_script("eval.py", TRIALS) or failed
    if with_hostile:
        failed = run_script("hostile.py", program) or failed
    show_chart([
        ("put of a file", [(row["file"], row["run"]) for row in files]),
        ("export", [(row["text"], row["export"]) for row in files]),
        ("check of a schema", [(row["schema"], row["seconds"]) for row in schemas]),
        *grouped([row for row in of_kinds if row["way"] == "check"], lambda row: f"check, {row['family']}", "bytes"),
        *grouped(of_names, lambda row: f"names, {row['schema']}", "bytes"),
    ])
    return 1 if failed else 0


def main(words):
    with_hostile = words[:1] == ["--hostile"]
    words = words[1:] if with_hostile else words
    program = os.path.abspath(words[0] if words else PROGRAM)
    if len(words) > 1 or not os.access(program, os.X_OK):
        sys.exit(f"bench: there is no program {program}: run rt ci first, or name it")
    with tempfile.TemporaryDirectory() as path:
        sys.exit(measure(Folder(program, path), program, with_hostile))


if __name__ == "__main__":
    main(sys.argv[1:])
