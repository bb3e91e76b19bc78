"""What the benchmarks share: the program, a folder in which its runs are timed and compared, and tables.

A benchmark is its families of inputs and the rows that it prints of them. It ends by `run_bench`. All that the program
writes is compared with what it must be, and a difference ends the benchmark.
"""
import fcntl
import itertools
import json
import os
import re
import shutil
import subprocess
import sys
import tempfile
import time

KIB = 1024
MIB = 1024 * KIB

# The most bytes of a file that is put, and of a schema.
FILE_LIMIT = 8 * MIB

TOP = os.path.dirname(os.path.dirname(os.path.abspath(__file__)))
PROGRAM = os.path.join(TOP, "crates/rp_server/out/rp_server")
HELD = os.path.join(TOP, "tools/held.c")

SCHEMA_FILE = "measured.exp"
CHECK = ("check", SCHEMA_FILE)
BATCH = ("batch", "--config", "config.json")

# the reply to a request that is done and tells nothing
OK = b'{"ok":{}}\n'
# how many lines are asked at once, where they are
BLOCK = 500


def compare(written, wanted):
    if written != wanted:
        sys.exit(f"bench: the program writes {written[:300]!r} in place of {wanted[:300]!r}")


def expect_success(status):
    if status != 0:
        sys.exit(f"bench: the program ended with status {status}")


def asked(who, do, **keys):
    """A request of a partner's, as a line."""
    return json.dumps({"as": who, "do": do, **keys}).encode() + b"\n"


def request(do, **keys):
    """A request of ann's, as a line."""
    return asked("ann", do, **keys)


# ---- a process that runs

def status_bytes(process, key):
    """The bytes that /proc tells of a running process under a key, or nothing once it has let go of its memory."""
    with open(f"/proc/{process.pid}/status", encoding="ascii") as it:
        found = re.search(rf"^{key}:\s*(\d+) kB$", it.read(), re.MULTILINE)
    return int(found[1]) * KIB if found else None


def most_memory(process):
    """The most bytes that a running process has held."""
    return status_bytes(process, "VmHWM")


def held_now(process):
    """The bytes that a running process holds."""
    return status_bytes(process, "VmRSS")


def forget_most(process):
    """The most bytes that a running process has held are reckoned anew from here on."""
    with open(f"/proc/{process.pid}/clear_refs", "w", encoding="ascii") as it:
        it.write("5")


def processor_seconds(process):
    """How long a processor has run a running process of one thread."""
    with open(f"/proc/{process.pid}/schedstat", encoding="ascii") as it:
        return int(it.read().split()[0]) / 1e9


def wait_until_it_waits(process):
    """Waits until a running process waits for something, so that all that it has done for a reply counts."""
    while True:
        with open(f"/proc/{process.pid}/stat", encoding="ascii") as it:
            if it.read().rpartition(")")[2].split()[0] != "R":
                return
        time.sleep(0.0002)


# The number of the system call write on x86-64, as /proc tells it.
WRITE = "1 "


def waits_to_write(process):
    with open(f"/proc/{process.pid}/wchan", encoding="ascii") as it:
        if "pipe" in it.read():
            return True
    with open(f"/proc/{process.pid}/syscall", encoding="ascii") as it:
        return it.read().startswith(WRITE)


def full_pipe():
    """A pipe into which nothing more can be written until it is read."""
    reader, writer = os.pipe()
    os.set_blocking(writer, False)
    try:
        while True:
            os.write(writer, bytes(4 * KIB))
    except BlockingIOError:
        os.set_blocking(writer, True)
    return reader, writer


# ---- runs

class Folder:
    """A folder in which the program is run, each time as a process of its own."""

    def __init__(self, program, path):
        self.program = program
        self.path = path

    def write(self, name, text):
        with open(os.path.join(self.path, name), "wb") as it:
            it.write(text if isinstance(text, bytes) else text.encode())

    def configure(self, *partners, **schemas):
        """Writes a configuration of these partners, or of ann alone, and the files of these schemas."""
        for name, text in schemas.items():
            self.write(f"{name}.exp", text)
        rows = [{"name": it, "token": it} for it in partners] or [{"name": "ann", "token": "ta"}]
        self.write("config.json", json.dumps({"partners": rows, "schemas": [f"{name}.exp" for name in schemas]}))

    def seconds(self, words, text, wanted):
        """The seconds from the program's start to its end."""
        given = {"input": text} if text else {"stdin": subprocess.DEVNULL}
        begin = time.monotonic()
        done = subprocess.run([self.program, *words], cwd=self.path, capture_output=True, check=False, **given)
        seconds = time.monotonic() - begin
        compare(done.stdout, wanted)
        expect_success(done.returncode)
        return seconds

    def check_seconds(self, text, wanted, times):
        """The least seconds of so many checks of a schema."""
        self.write(SCHEMA_FILE, text)
        return min(self.seconds(CHECK, b"", wanted) for _ in range(times))

    def batch_seconds(self, lines, wanted, times):
        """The least seconds of so many batches of these lines."""
        return min(self.seconds(BATCH, lines, wanted) for _ in range(times))

    def processor_run(self, words):
        """How long a processor ran the program, from its start to its end, and what it wrote."""
        with subprocess.Popen([self.program, *words], cwd=self.path, stdin=subprocess.DEVNULL, stdout=subprocess.PIPE) as process:
            written = process.stdout.read()
            _, status, usage = os.wait4(process.pid, 0)
            process.returncode = os.waitstatus_to_exitcode(status)
        expect_success(process.returncode)
        return usage.ru_utime + usage.ru_stime, written

    def memory_of(self, words):
        """The most bytes that a run holds, and what it writes. Its standard output is a pipe that is full, so that it can be
        looked at when all its work is done and it waits to write."""
        reader, writer = full_pipe()
        filled = fcntl.fcntl(reader, fcntl.F_GETPIPE_SZ)
        with subprocess.Popen([self.program, *words], cwd=self.path, stdin=subprocess.DEVNULL, stdout=writer) as process:
            os.close(writer)
            while process.poll() is None and not waits_to_write(process):
                time.sleep(0.005)
            expect_success(process.returncode or 0)
            memory = most_memory(process)
            with open(reader, "rb") as it:
                written = it.read()[filled:]
        expect_success(process.returncode)
        return memory, written

    def check_memory(self):
        """The most bytes that the check of the schema that was checked last holds."""
        return self.memory_of(CHECK)[0]

    def held(self, words, text=b"", before=0):
        """The allocations of a run, the bytes held before one of them, the most behind that, and those behind the last; and what was
        written."""
        counter, (begin, end) = os.path.join(self.path, "held.so"), os.pipe()
        if not os.path.exists(counter):
            compiler = shutil.which("gcc") or shutil.which("clang")
            subprocess.run([compiler, "-O2", "-shared", "-fPIC", "-o", counter, HELD, "-ldl"], check=True)
        try:
            devices = {"LD_PRELOAD": counter, "HELD_BEFORE": str(before), "HELD_REPORT": str(end)}
            done = subprocess.run([self.program, *words], cwd=self.path, input=text, stdout=subprocess.PIPE, env=devices, pass_fds=[end],
                                  check=False)
        finally:
            os.close(end)
        expect_success(done.returncode)
        with os.fdopen(begin, "rb") as it:
            return [int(number) for number in it.read().split()], done.stdout


class Session:
    """A process of the program that is asked line by line, with options of `batch` and devices in its environment."""

    def __init__(self, folder, *options, **devices):
        self.process = subprocess.Popen([folder.program, *BATCH, *options], cwd=folder.path, env={**os.environ, **devices},
                                        stdin=subprocess.PIPE, stdout=subprocess.PIPE)

    def __enter__(self):
        return self

    def __exit__(self, kind, fault, trace):
        self.process.stdin.close()
        self.process.stdout.read()
        status = self.process.wait()
        if kind is None:
            expect_success(status)

    def reply(self, line):
        self.process.stdin.write(line)
        self.process.stdin.flush()
        return self.process.stdout.readline()

    def ask(self, line):
        """The reply to a line, the seconds until it came, and how many of these a processor ran the program."""
        begin, busy = time.monotonic(), processor_seconds(self.process)
        reply = self.reply(line)
        return reply, time.monotonic() - begin, processor_seconds(self.process) - busy

    def mean_seconds(self, turns):
        """How long a processor ran it for a request, in the mean of these, each with its reply. They are asked one by one."""
        wait_until_it_waits(self.process)
        busy, count = processor_seconds(self.process), 0
        for line, wanted in turns:
            compare(self.reply(line), wanted)
            count += 1
        wait_until_it_waits(self.process)
        return (processor_seconds(self.process) - busy) / count

    def ask_all(self, turns):
        """Asks lines, each with its reply, many at once. They and their replies have to be short."""
        turns = iter(turns)
        while block := list(itertools.islice(turns, BLOCK)):
            self.process.stdin.write(b"".join(line for line, _ in block))
            self.process.stdin.flush()
            for line, wanted in block:
                reply = self.process.stdout.readline()
                if reply != wanted:
                    sys.exit(f"bench: {line[:300]!r} is answered by {reply[:300]!r} in place of {wanted[:300]!r}")

    def memory(self):
        """The most bytes that it has held so far."""
        return most_memory(self.process)


# ---- what is printed

class Table:
    """Columns, each with its title and the form of its values, as '12,' or '8.3f'. Its head is printed at once."""

    # each row of all tables that were printed, by the titles of its columns
    rows = []

    def __init__(self, columns):
        self.titles = list(columns)
        self.forms = list(columns.values())
        widths = [re.match(r"\d+", form)[0] for form in self.forms]
        print(" ".join(f"{title:>{width}}" for title, width in zip(columns, widths)))

    def row(self, *values):
        Table.rows.append(dict(zip(self.titles, values)))
        print(" ".join(f"{value:>{form}}" for value, form in zip(values, self.forms, strict=True)), flush=True)


class Aims:
    """What is aimed at, and what was found."""

    def __init__(self):
        self.rows = []

    def at_least(self, words, found, asked):
        self.rows.append((words, found, f"at least {asked}", found >= asked))

    def at_most(self, words, found, asked):
        self.rows.append((words, found, f"at most {asked}", found <= asked))

    def told(self):
        """Tells them, and answers the status."""
        width = max(len(words) for words, *_ in self.rows)
        table = Table({"aim": f"{width}", "found": "9.3f", "asked": "14", "": "6"})
        for words, found, asked, is_met in self.rows:
            table.row(words, found, asked, "met" if is_met else "missed")
        return 0 if all(is_met for *_, is_met in self.rows) else 1


def run_bench(measure, words, built=PROGRAM):
    """Runs a benchmark in a new folder by the program that the words name, or else the one that was built, and ends the
    script. What the benchmark answers is the status, where that isn't 0."""
    program = os.path.abspath(words[0] if words else built)
    if not os.access(program, os.X_OK):
        sys.exit(f"bench: there is no program {program}: run rt ci first, or name it")
    with tempfile.TemporaryDirectory() as path:
        sys.exit(measure(Folder(program, path)))
