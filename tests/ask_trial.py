#!/usr/bin/env python3
"""Runs `tools/ask.py --trial` with a stand-in for `rt`, which builds nothing and runs the built program.

    tests/ask_trial.py [PROGRAM]

The stand-in takes the words of `rt try --cases` and writes its output in the same form. The rows show that one call of rt serves all
requests, what is printed, and how each failure is reported. They don't show that a build works. The last line is
'ask trial: N passed, M failed'; the status is 0 only if none failed.
"""
import json
import os
import re
import signal
import subprocess
import sys
import tempfile

from lib.harness import TOP, Folder, LeftOut, Wrong, run_tests

TOOLS = os.path.join(TOP, "tools")
EXAMPLE = os.path.join(TOP, "example")
SECONDS = 60

# For each run `rt try` writes the output, then the standard error and a line with the status, and at the end a line of counts.
# With STAND_IN_FAULT the stand-in writes this and fails, as a build does; STAND_IN_STOPPED replaces the end of the first run.
STAND_IN = r'''#!/usr/bin/env python3
import os, shutil, subprocess, sys, tempfile, time

def main(words):
    log = os.environ["STAND_IN_LOG"]
    data = [words[at + 1] for at, word in enumerate(words) if word == "--data"]
    cases = words[words.index("--cases") + 1]
    names = sorted(it for it in os.listdir(cases) if not it.endswith(".args"))
    with open(log, "a") as it:
        print(os.getpid(), words[0], os.path.basename(os.getcwd()), len(names), file=it)
    time.sleep(float(os.environ.get("STAND_IN_SECONDS", "0")))
    if "STAND_IN_FAULT" in os.environ:
        sys.stderr.write(os.environ["STAND_IN_FAULT"])
        return 2
    with tempfile.TemporaryDirectory() as place:
        for name, _, path in (it.partition("=") for it in data):
            shutil.copy(path, os.path.join(place, name))
        for name in names:
            stopped = os.environ.get("STAND_IN_STOPPED") if name == "run0" else None
            with open(os.path.join(cases, name + ".args")) as it:
                more = it.read().splitlines()
            with open(os.path.join(cases, name), "rb") as it:
                done = subprocess.run([os.environ["STAND_IN_PROGRAM"], *more], cwd=place, stdin=it, capture_output=True)
            if not stopped:
                sys.stdout.buffer.write(b"== " + name.encode() + b"\n" + done.stdout)
                sys.stderr.buffer.write(done.stderr)
            ended = stopped or f"case={name} run=ended status={done.returncode} runners=1 proved=no\n"
            sys.stderr.buffer.write(ended.encode())
            sys.stderr.flush()
    print(f"cases={len(names)} ended={len(names)} fault=0 differs=0 no-answer=0 proved=no", file=sys.stderr)
    return 0
'''

# runs ask.py with another pause between two lines of progress
WITH_PAUSE = "import sys; sys.path.insert(0, {tools!r}); import try_cases; try_cases.PAUSE = {pause}; import ask; ask.main()"

STARTED = r"ask: rt try builds the program before its proof, and runs it on {count} inputs?\..*\n"


class Asking:
    """A folder with a stand-in for rt, in which ask.py is run."""

    def __init__(self, has_rt=True, **said):
        if Folder.stand_in:
            raise LeftOut
        self.place = tempfile.TemporaryDirectory()
        self.log = os.path.join(self.place.name, "log")
        path = os.path.join(self.place.name, "rt")
        if has_rt:
            with open(path, "w", encoding="utf-8") as it:
                it.write(STAND_IN)
            os.chmod(path, 0o755)
        else:
            os.symlink(sys.executable, os.path.join(self.place.name, "python3"))
        found = f"{self.place.name}:{os.environ['PATH']}" if has_rt else self.place.name
        self.env = {**os.environ, "PATH": found, "STAND_IN_LOG": self.log, "STAND_IN_PROGRAM": Folder.program,
                    **{f"STAND_IN_{name.upper()}": text for name, text in said.items()}}

    def __enter__(self):
        return self

    def __exit__(self, *_):
        self.place.cleanup()

    def write(self, name, text):
        with open(os.path.join(self.place.name, name), "w", encoding="utf-8") as it:
            it.write(text)

    def calls(self):
        """The calls of rt: for each the process, the first word, the folder and the number of inputs."""
        if not os.path.exists(self.log):
            return []
        with open(self.log, encoding="utf-8") as it:
            return [line.split() for line in it]

    def start(self, *words, pause=None):
        script = ["-c", WITH_PAUSE.format(tools=TOOLS, pause=pause)] if pause else [os.path.join(TOOLS, "ask.py")]
        return subprocess.Popen([sys.executable, *script, *words], cwd=self.place.name, env=self.env, stdin=subprocess.DEVNULL,
                                stdout=subprocess.PIPE, stderr=subprocess.PIPE, text=True)

    def ask(self, *words, **how):
        """The status, and what is written on standard output and standard error."""
        process = self.start("--trial", *words, **how)
        output, errors = process.communicate(timeout=SECONDS)
        return process.returncode, output, errors


def expect(what, seen, wanted):
    if seen != wanted:
        raise Wrong(f"{what}: {seen!r} in place of {wanted!r}")


def expect_form(what, seen, form):
    if not re.fullmatch(form, seen, re.DOTALL):
        raise Wrong(f"{what}: {seen!r} isn't of the form {form!r}")


def expect_one_call(asking, count):
    expect("calls of rt", [it[1:] for it in asking.calls()], [["try", "rp_server", str(count)]])


def answer_in_deliveries():
    """What docs/DELIVERIES.md says that the example prints."""
    with open(os.path.join(TOP, "docs/DELIVERIES.md"), encoding="utf-8") as it:
        return re.search(r"^tools/ask\.py example\n```\n\n```text output\n(.*?)^```$", it.read(), re.MULTILINE | re.DOTALL)[1]


# ---- answers

def test_one_call_answers_the_example():
    with Asking() as it:
        status, output, errors = it.ask(EXAMPLE)
        expect("status", status, 0)
        expect("output", output, answer_in_deliveries())
        expect_form("errors", errors, STARTED.format(count=4))
        # the requests, and the file of each of the three puts
        expect_one_call(it, 4)


def test_one_call_answers_a_file_of_ones_own():
    with Asking() as it:
        status, output, _ = it.ask(os.path.join(EXAMPLE, "plate.exp"), os.path.join(EXAMPLE, "torn.step"))
        expect("status", status, 0)
        expect("output", output, """\
ann create_model name=m schema=plate
    {"ok":{}}
ann put owner=ann model=m file=@file.step
    {"refused":{"code":12,"instance":50,"kind":"Undefined","name":"InstanceFault"}}
    | line 20 column 1
    |   #40));
    |   ^
    |   attribute 3, holes: LIST OF HOLE
    |   #40 is no instance of this file
""")
        expect_one_call(it, 2)


def test_one_file_that_is_put_twice_is_one_input():
    with Asking() as it:
        it.write("config.json", '{"partners":[{"name":"ann","token":"t"}],"schemas":["a.exp"]}')
        it.write("a.exp", "SCHEMA A; ENTITY e; END_ENTITY; END_SCHEMA;")
        it.write("requests.txt", "ann put owner=ann model=m file=x\nann put owner=ann model=m file=x\nann put owner=ann model=m file:=5\n")
        status, output, _ = it.ask(".")
        expect("status", status, 0)
        expect("requests", output.splitlines()[::2], ["ann put owner=ann model=m file=x"] * 2 + ["ann put owner=ann model=m file:=5"])
        expect_one_call(it, 2)


def test_columns_need_no_validation():
    with Asking() as it:
        status, output, _ = it.ask("--columns", EXAMPLE)
        expect("status", status, 0)
        expect_form("output", output, r'ann +bob\n\n> ann: create_model name=cover schema=PLATE\n\{"ok":\{\}\} +\.\n.*InstanceFault"\}\}\n')
        expect_one_call(it, 1)


def test_a_fault_of_the_configuration_is_the_programs():
    with Asking() as it:
        it.write("config.json", "[]")
        it.write("requests.txt", "ann list\n")
        status, output, errors = it.ask(".")
        expect("status", (status, output), (1, ""))
        expect_form("errors", errors, STARTED.format(count=1) + r"ask: status 2, 0 replies to 1 requests\nrp_server: .*config\.json.*\n+")


# ---- progress

def test_lines_report_the_progress():
    with Asking(seconds="2") as it:
        status, output, errors = it.ask(EXAMPLE, pause=0.2)
        expect("status", status, 0)
        expect("output", output, answer_in_deliveries())
        expect_form("errors", errors, STARTED.format(count=4) + r"(ask: \d+ s: rt is at work, \d+\.\d GB\n){3,}"
                    r"(ask: \d+ s: the program runs, [1-4] of 4 runs ended, \d+\.\d GB\n)*")


def test_a_line_is_due_within_15_seconds():
    pause = subprocess.run([sys.executable, "-c", "import try_cases; print(try_cases.PAUSE)"], cwd=TOOLS, capture_output=True, text=True, check=True)
    if not 1 <= float(pause.stdout) <= 14:
        raise Wrong(f"a line each {pause.stdout} seconds")


# ---- failures

def expect_failure(asking, words, form, calls=0):
    status, output, errors = asking.ask(*words)
    expect("status", (status, output), (1, ""))
    expect_form("errors", errors, form)
    expect("number of calls", len(asking.calls()), calls)


def test_a_build_that_fails():
    fault = "src/main.rt:4:1: error[unknown]: a fault\nrun=none proved=no\n"
    with Asking(fault=fault) as it:
        expect_failure(it, [EXAMPLE], STARTED.format(count=4) + "ask: rt try ended with status 2, and the program wasn't run:\n"
                       r"src/main\.rt:4:1: error\[unknown\]: a fault\n", 1)


def test_a_build_that_is_killed():
    with Asking(fault="run=none proved=no\n") as it:
        expect_failure(it, [EXAMPLE], STARTED.format(count=4) + "ask: rt try ended with status 2, and the program wasn't run:\n"
                       r"the compiler ended without a message\. Memory may have run out: [^\n]*\n", 1)


def test_a_run_that_a_check_stops():
    with Asking(stopped="checked: fault kind=overflow in=a::b\ncase=run0 run=fault proved=no\n") as it:
        expect_failure(it, [EXAMPLE], STARTED.format(count=4) + r"ask: status fault, 0 replies to 8 requests\n"
                       r"checked: fault kind=overflow in=a::b\n", 1)


def test_an_answer_that_is_too_long_for_rt():
    told = "checked: no-answer: the program wrote more than 1048576 bytes to standard output or to standard error, the limit on each\n"
    with Asking(stopped=f"{told}case=run0 run=no-answer proved=no\n") as it:
        expect_failure(it, [EXAMPLE], STARTED.format(count=4) + r"ask: the answer is longer than 1 MiB, the limit of a trial: [^\n]*\n", 1)


def test_what_is_missing_is_reported_before_a_build():
    with Asking() as it:
        it.write("empty", "")
        expect_failure(it, ["."], r"ask: \./requests\.txt: No such file or directory\n")
        it.write("requests.txt", "ann put owner=ann model=m file=@no.step\n")
        expect_failure(it, ["."], r"ask: \./no\.step: No such file or directory\n")
        it.write("requests.txt", "ann list\n")
        expect_failure(it, ["."], r"ask: \./config\.json: No such file or directory\n")
        it.write("config.json", json.dumps({"partners": [], "schemas": ["no.exp"]}))
        expect_failure(it, ["."], r"ask: \./no\.exp: No such file or directory\n")
        expect_failure(it, ["no.exp", "no.step"], r"ask: no\.exp: No such file or directory\n")
        status, _, errors = it.ask("empty")
        expect("status", status, 2)
        expect_form("errors", errors, r".*error: empty isn't a folder: [^\n]*\n")


def test_rt_is_missing():
    with Asking(has_rt=False) as it:
        expect_failure(it, [EXAMPLE], r"ask: rt isn't in the PATH: [^\n]*\n")


def is_there(number):
    try:
        os.kill(number, 0)
    except ProcessLookupError:
        return False
    return True


def expect_ended_by(number):
    with Asking(seconds=str(SECONDS)) as it:
        process = it.start("--trial", EXAMPLE, pause=0.1)
        # (the stand-in is ready for a signal once it has written its log)
        process.stderr.readline()
        while not it.calls():
            process.stderr.readline()
        process.send_signal(number)
        output, errors = process.communicate(timeout=SECONDS / 2)
        expect("status", (process.returncode, output), (128 + number, ""))
        expect("last line", errors.splitlines()[-1:], ["ask: interrupted: rt is stopped, too"])
        expect("rt", [is_there(int(rt)) for rt, *_ in it.calls()], [False])


def test_control_c_ends_rt():
    expect_ended_by(signal.SIGINT)


def test_a_signal_ends_rt():
    expect_ended_by(signal.SIGTERM)


if __name__ == "__main__":
    run_tests("ask trial", globals(), sys.argv[1:])
