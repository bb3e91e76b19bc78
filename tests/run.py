#!/usr/bin/env python3
"""Runs the test scripts, and says which failed.

    tests/run.py                        all scripts of tests/, and tools/each_refusal.py, over the program that was built here
    tests/run.py --program PROGRAM ..   over another program
    tests/run.py NAME ..                those of these names, as grants
    tests/run.py --list                 prints the names
    tests/run.py --trial ..             before any proof: the rows that one build of the unproved program can be run on

The name of a script stands before what it prints, and behind that how it ended and how long it took. The last line is
'N passed, M failed', which counts scripts, and rows with --trial; the status is 0 only if none failed. What a trial leaves out
is told by trial.py, and how many rows by its last lines but one.
"""
import argparse
import os
import subprocess
import sys
import time

from lib import trial

TESTS = os.path.dirname(os.path.abspath(__file__))
TOP = os.path.dirname(TESTS)
PROGRAM = os.path.join(TOP, "crates/rp_server/out/rp_server")

# What a script is given beside the program, and runs of scripts by other names.
OPTIONS = {"random_lines": ["--lines", "3000", "--runs", "3"]}
OTHERS = {
    "indexes_self_test": [os.path.join(TESTS, "indexes.py"), "--self-test"],
    "two_runs_self_test": [os.path.join(TESTS, "two_runs.py"), "--self-test"],
    "each_refusal": [os.path.join(TOP, "tools/each_refusal.py")],
}


def is_script(path):
    with open(path, encoding="utf-8") as it:
        return '\nif __name__ == "__main__":\n' in it.read()


def scripts(program):
    """What each script is run with, by its name. A script of tests/ is a file with a main part, this one aside."""
    names = [name for name, ending in map(os.path.splitext, sorted(os.listdir(TESTS))) if ending == ".py" and name != "run"]
    paths = {name: os.path.join(TESTS, f"{name}.py") for name in names}
    found = {name: [path, program, *OPTIONS.get(name, [])] for name, path in paths.items() if is_script(path)}
    return {**found, **{name: [*words, program] for name, words in OTHERS.items()}}


def run(name, words):
    """Runs a script, which prints what it prints, and answers whether it passed."""
    print(f"== {name}", flush=True)
    begin = time.monotonic()
    status = subprocess.run([sys.executable, *words], cwd=TOP, check=False).returncode
    print(f"-- {name}: {'FAILED' if status else 'passed'} in {time.monotonic() - begin:.1f} s", flush=True)
    return status == 0


def main(words):
    parser = argparse.ArgumentParser(prog="tests/run.py", allow_abbrev=False)
    parser.add_argument("--program", default=PROGRAM)
    parser.add_argument("--list", action="store_true")
    parser.add_argument("--trial", action="store_true")
    parser.add_argument("names", nargs="*", metavar="NAME")
    given = parser.parse_args(words)
    known = scripts(os.path.abspath(given.program))
    if given.list:
        print("\n".join(known))
        return
    unknown = [name for name in given.names if name not in known]
    if unknown:
        sys.exit(f"run: there is no script {', '.join(unknown)}: --list prints the names")
    if given.trial:
        sys.exit(1 if trial.run(given.names or list(known)) else 0)
    if not os.access(given.program, os.X_OK):
        sys.exit(f"run: there is no program {given.program}: run rt ci first, or name it")
    failed = [name for name in given.names or known if not run(name, known[name])]
    for name in failed:
        print(f"failed: {name}")
    print(f"{len(given.names or known) - len(failed)} passed, {len(failed)} failed")
    sys.exit(1 if failed else 0)


if __name__ == "__main__":
    main(sys.argv[1:])
