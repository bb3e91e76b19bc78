"""Rows of the scripts over the program before its proof: `rt try --cases` builds it once, with checks in it, and runs it on
each of many inputs.

A row is a function `test_*` of a script. Rows are called twice. At first each run that one asks for is kept, and none is made;
then all are made by one command, and the rows are called once more and look at what was written. A run is made where it has the
configuration and the schemas that most have, and on standard input lines of at most 1 MiB, since a build with checks takes
minutes for more. A row that asks for another one is left out: for another configuration, for `check`, for a pipe or a device,
for more lines, and where more is written than `rt try` hands on. So is each script without such functions.
"""
import collections
import importlib.util
import os
import sys
import time

from lib.harness import TESTS, TOP, Folder, LeftOut, Wrong
from lib.messages import Repository

sys.path.append(os.path.join(TOP, "tools"))
from try_cases import Case, Fault, try_cases  # noqa: E402

BATCH = ("batch", "--config", "config.json")

# how long one run may take, and how many bytes its lines may have
SECONDS = 120
MIB = 1024 * 1024


class Runs:
    """The runs that rows ask for, by their inputs: they are kept, until it is known what was seen of them."""

    def __init__(self):
        with Repository() as folder:
            self.files = folder.files
        self.kept = []
        self.seen = None

    def __call__(self, folder, words, text, devices):
        if words != BATCH or devices or folder.files != self.files or len(text) > MIB:
            raise LeftOut
        if self.seen is None:
            self.kept.append(text)
            return None
        if text not in self.seen:
            raise LeftOut
        return self.seen[text]

    def make(self):
        """Makes those that are kept."""
        inputs = list(dict.fromkeys(self.kept))
        seen = try_cases([Case(BATCH, text) for text in inputs], self.files, "trial", SECONDS)
        self.seen = {text: it for text, it in zip(inputs, seen) if not it.is_cut}


# ---- rows

def rows_of(name):
    """The rows of a script, by their names."""
    path = os.path.join(TESTS, f"{name}.py")
    if not os.path.isfile(path):
        return {}
    spec = importlib.util.spec_from_file_location(f"rows_of_{name}", path)
    module = importlib.util.module_from_spec(spec)
    before = list(sys.path)
    spec.loader.exec_module(module)
    sys.path[:] = before  # (a script that looks into another folder would hide modules of this one)
    return {row: test for row, test in vars(module).items() if row.startswith("test_")}


def keep(rows):
    """Calls the rows while runs are kept. What they make of runs that aren't made yet counts for nothing."""
    for row in rows.values():
        try:
            row()
        except Exception:  # noqa: BLE001
            continue


def look(name, rows):
    """Calls the rows of a script once their runs are made, and counts how they ended."""
    counts = collections.Counter()
    for row, test in rows.items():
        try:
            test()
            counts["passed"] += 1
        except LeftOut:
            counts["left out"] += 1
        except Wrong as fault:
            print(f"{row}: FAILED: {fault}")
            counts["failed"] += 1
    print(f"{name}: {counts['passed']} rows passed, {counts['failed']} failed, {counts['left out']} left out", flush=True)
    return counts


def run(names):
    """Runs the rows of the scripts of these names, and answers how many rows failed."""
    begin = time.monotonic()
    rows = {name: rows_of(name) for name in names}
    Folder.stand_in = runs = Runs()
    for its in rows.values():
        keep(its)
    try:
        runs.make()
    except Fault as fault:
        sys.exit(f"trial: {fault}")
    counts = sum((look(name, its) for name, its in rows.items() if its), collections.Counter())
    whole = [name for name, its in rows.items() if not its]
    print(f"left out: {counts['left out']} rows that want another configuration, `check`, a pipe, a device or more than 1 MiB"
          + (f", and all rows of {', '.join(whole)}" if whole else ""))
    print(f"trial: {time.monotonic() - begin:.0f} s, of which {os.times().children_user + os.times().children_system:.0f} s of a processor")
    print(f"{counts['passed']} passed, {counts['failed']} failed")
    return counts["failed"]
