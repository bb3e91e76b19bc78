#!/usr/bin/env python3
"""Runs a command, and tells how many processor minutes it took, by crate and by kind of work.

    .ci/timed.py [--table FILE] COMMAND ..

The command has this script's input and output, and its exit status is handed on, whatever becomes of the measure.
The total is the user and system time of all processes that the command ran and waited for. What each crate took of
it is looked up twice a second in /proc: the prover's processes name their crate, and are proofs, edits or tests. A
process is seen last up to half a second before its end; what was missed so, and what names no crate, is `others`.
With --table the measure is also written to FILE, for check_budget.py.
"""
import collections
import datetime
import json
import os
import re
import resource
import signal
import subprocess
import sys

TOP = os.path.dirname(os.path.dirname(os.path.abspath(__file__)))
KINDS = ("proof", "edits", "tests")
PAUSE = 0.5
TICKS_A_MINUTE = 60 * os.sysconf("SC_CLK_TCK")

# One process: its parent, when it started, its own ticks and those of the processes that it waited for.
Process = collections.namedtuple("Process", "parent start own waited")


def processes():
    """All processes that run now, by their ids."""
    found = {}
    for name in os.listdir("/proc"):
        if not name.isdigit():
            continue
        try:
            with open(f"/proc/{name}/stat", encoding="utf-8", errors="replace") as it:
                # (the program's name before the last parenthesis may have blanks)
                words = it.read().rpartition(")")[2].split()
        except OSError:
            continue
        user, system, users, systems = map(int, words[11:15])
        found[int(name)] = Process(int(words[1]), int(words[19]), user + system, users + systems)
    return found


def work_of(words, folder):
    """The crate and the kind of work of a process, by its words and its working folder, or None."""
    if not words or not os.path.basename(words[0]).startswith("rattle"):
        return None
    # (what tests are linked to; crates have such names too)
    of_tests = [found for it in words if (found := re.search(r"(?:^out|/bin)/(\w+)_tests(?:\.o)?$", it))]
    at_home = re.match(re.escape(TOP) + r"/crates/(\w+)(?:/|$)", folder)
    if "--crate-name" in words[:-1]:
        crate = words[words.index("--crate-name") + 1]
    elif of_tests or at_home:
        crate = (of_tests[0] if of_tests else at_home)[1]
    else:
        return None
    if os.path.basename(folder).startswith("rt-edit-"):
        return crate, "edits"
    return crate, "tests" if of_tests or "--test" in words else "proof"


def work_of_process(number):
    try:
        with open(f"/proc/{number}/cmdline", encoding="utf-8", errors="replace") as it:
            words = it.read().split("\0")
        return work_of(words, os.readlink(f"/proc/{number}/cwd"))
    except OSError:
        return None


class Measure:
    """What the processes below one have taken, as far as it was seen."""

    def __init__(self, top):
        self.top = top
        self.works = {}
        self.ticks = collections.Counter()

    def look(self):
        """Takes the present state of each prover's process. It counts what it waited for, and what it hasn't waited for yet."""
        found = processes()
        below = collections.defaultdict(list)
        for number, it in found.items():
            below[it.parent].append(number)
        now, left = collections.Counter(), [(self.top, None)]
        while left:
            number, key = left.pop()
            if number not in found:
                continue
            it = found[number]
            if key is None:
                key = (number, it.start)
                if key not in self.works and (work := work_of_process(number)):
                    self.works[key] = work
                key = key if key in self.works else None
            if key:
                now[key] += it.own + it.waited
            left += [(child, key) for child in below[number]]
        for key, ticks in now.items():
            self.ticks[key] = max(self.ticks[key], ticks)

    def by_crate(self):
        """The minutes of each crate, by kind."""
        table = {}
        for key, (crate, kind) in sorted(self.works.items(), key=lambda it: it[1]):
            row = table.setdefault(crate, dict.fromkeys(KINDS, 0.0))
            row[kind] += self.ticks[key] / TICKS_A_MINUTE
        return table


def machine():
    """The machine in a few words."""
    with open("/proc/cpuinfo", encoding="utf-8") as it:
        model = re.search(r"model name\s*: (.*)", it.read())
    with open("/proc/meminfo", encoding="utf-8") as it:
        memory = re.search(r"MemTotal:\s*(\d+)", it.read())
    return (f"{len(os.sched_getaffinity(0))} cores ({model[1].strip() if model else 'unknown'}), "
            f"{round(int(memory[1]) / 2**20)} GB")


def measured(words, status, started, measure):
    """All that the measure tells, as it is written to the table's file."""
    used = resource.getrusage(resource.RUSAGE_CHILDREN)
    total, crates = (used.ru_utime + used.ru_stime) / 60, measure.by_crate()
    seen = sum(sum(row.values()) for row in crates.values())
    return {
        "command": words,
        "status": status,
        "date": started.date().isoformat(),
        "machine": machine(),
        "minutes": (datetime.datetime.now() - started).total_seconds() / 60,
        "total": total,
        "others": max(total - seen, 0.0),
        "crates": crates,
    }


def show(found):
    print(f"{'processor minutes':28}" + "".join(f"{it:>9}" for it in KINDS))
    for crate, row in found["crates"].items():
        print(f"{crate:28}" + "".join(f"{row[it]:9.2f}" for it in KINDS))
    sums = [sum(row[it] for row in found["crates"].values()) for it in KINDS]
    print(f"{'all crates':28}" + "".join(f"{it:9.2f}" for it in sums))
    print(f"{'others':28}{found['others']:9.2f}")
    print(f"{'total':28}{found['total']:9.2f} in {found['minutes']:.2f} minutes on {found['machine']}", flush=True)


def write(found, file):
    os.makedirs(os.path.dirname(os.path.abspath(file)), exist_ok=True)
    with open(file, "w", encoding="utf-8") as it:
        json.dump(found, it, indent=1)
        it.write("\n")


def run(words):
    """Runs the command to its end, and gives its status and what was measured."""
    started = datetime.datetime.now()
    child = subprocess.Popen(words)
    # The command decides what a signal ends; an interrupt from the terminal reaches it by itself.
    signal.signal(signal.SIGINT, signal.SIG_IGN)
    for it in (signal.SIGTERM, signal.SIGHUP):
        signal.signal(it, lambda number, _: child.send_signal(number))
    measure, is_looking = Measure(child.pid), True
    while True:
        try:
            status = child.wait(PAUSE)
            break
        except subprocess.TimeoutExpired:
            pass
        try:
            if is_looking:
                measure.look()
        except Exception as fault:
            is_looking = False
            print(f"timed: the crates' times are wanting from here on: {fault!r}", file=sys.stderr)
    return (status if status >= 0 else 128 - status), started, measure


def main(words):
    file = None
    if words[:1] == ["--table"] and len(words) > 1:
        file, words = words[1], words[2:]
    if not words or words[0].startswith("-"):
        sys.exit(__doc__)
    try:
        status, started, measure = run(words)
    except OSError as fault:
        print(f"timed: {fault}", file=sys.stderr)
        return 127
    try:
        found = measured(words, status, started, measure)
        show(found)
        if file:
            write(found, file)
    except Exception as fault:
        print(f"timed: no table: {fault!r}", file=sys.stderr)
    return status


if __name__ == "__main__":
    sys.exit(main(sys.argv[1:]))
