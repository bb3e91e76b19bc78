#!/usr/bin/env python3
"""Measures what a stranger can keep the program busy with.

    bench/hostile.py [--family WORD].. [--way WAY].. [--size MIB] [--timeout SECONDS] [--list] [PROGRAM]

Families of EXPRESS texts (hostile_texts.py) go through `check` and through the request check_schema; families of
exchange files (hostile_files.py) through the request put, and whole lines (hostile_lines.py) through `batch`. Families of schemas with
rules (hostile_rules.py) are loaded, a file is put by them, and a group of it is validated. Texts and files have 8 MiB,
lines 16 MiB, or what --size says of a text. Each run is a process of its own, and is stopped at the timeout. For each
it prints how many parts the text has, its bytes, the seconds of the run, those in which a processor ran it, and the
most memory that it held; and behind them what is over 10 seconds of a processor or 1 GiB, what was stopped, and what
answers otherwise than it must. Status 1 means that there is such a run. A validation's run has the load and the put in it. --family takes
those families whose name holds the word, --way one of check, check_schema, put, line, validate.
"""
import argparse
import json
import os
import re
import subprocess
import sys
import time

from harness import CHECK, BATCH, FILE_LIMIT, KIB, MIB, SCHEMA_FILE, Table, most_memory, request, run_bench
from hostile_files import FILES, SCHEMA
from hostile_lines import LINES, answer
from hostile_rules import FILE, RULES
from hostile_texts import TEXTS

SECONDS_LIMIT = 10
MEMORY_LIMIT = 1024 * MIB
TIMEOUT = 60

# So much less than its limit a file is, that its line keeps the line's limit where each of its bytes is escaped.
FILE_ROOM = FILE_LIMIT - KIB
LINE_TO_TEXT = 2

MARK = re.compile(r"⟦(\w+)⟧")
WARNING = "SelectInTypeof"


# ---- texts that fit

def length_of(text):
    return len(text) if isinstance(text, bytes) or text.isascii() else len(unmarked(text)[0])


def fitting(text_of, size, most=None):
    """A count of parts, at most the most, with which a text fills the size, but for some hundredths of it."""
    count = 64
    for _ in range(10):
        length = length_of(text_of(count))
        if 0.97 * size <= length <= size or (count == most and length <= size):
            break
        count = max(2, int(count * 0.99 * size / length))
        count = min(count, most) if most else count
    return count


def unmarked(text):
    """The text's bytes without its marks, and each mark's word with the byte at which it stood."""
    pieces = MARK.split(text)
    marks, at = [], 0
    for kind, before in zip(pieces[1::2], pieces[::2]):
        at += len(before)
        marks.append((kind, at))
    return "".join(pieces[::2]).encode(), marks


def told(kind, text, at):
    begin = text.rfind(b"\n", 0, at) + 1
    return b"%s line %d column %d\n" % (kind.encode(), text.count(b"\n", 0, at) + 1, at - begin + 1)


def of_check(text, marks):
    """What `check` prints of a text, and its status."""
    faults = [mark for mark in marks if mark[0] != WARNING]
    if faults:
        return told(faults[0][0], text, faults[0][1]), 1
    lines, line, begin, before = [b"MEASURED: ok\n"], 1, 0, 0
    for kind, at in marks:
        line += text.count(b"\n", before, at)
        begin, before = max(begin, text.rfind(b"\n", before, at) + 1), at
        lines.append(b"warning %s line %d column %d\n" % (kind.encode(), line, at - begin + 1))
    return b"".join(lines), 0


def of_check_schema(marks):
    """What check_schema is answered."""
    faults = [{"at": at, "kind": kind} for kind, at in marks if kind != WARNING]
    warnings = [{"at": at, "kind": kind} for kind, at in marks]
    return answer({"ok": {"fault": faults[0]} if faults else {"schema": "MEASURED", "warnings": warnings}}) + b"\n"


# ---- runs

class Run:
    """One run of the program, to its end or to the timeout."""

    def __init__(self, folder, words, given, timeout):
        self.folder = folder
        self.timeout = timeout
        self.memory = 0
        self.is_stopped = False
        begin = time.monotonic()
        with open(folder.input_path, "rb") as source, open(folder.output_path, "wb") as written:
            with subprocess.Popen([folder.program, *words], cwd=folder.path, stderr=subprocess.PIPE,
                                  stdin=source if given else subprocess.DEVNULL, stdout=written) as process:
                usage, self.status = self.watch(process, begin + timeout)
                self.errors = process.stderr.read()
                process.returncode = self.status
        self.seconds = time.monotonic() - begin
        self.busy = usage.ru_utime + usage.ru_stime

    def watch(self, process, until):
        """Waits for the end, and looks at the memory meanwhile, of which the most that was held is kept."""
        while True:
            try:
                self.memory = max(self.memory, most_memory(process))
            except (OSError, TypeError):
                pass
            ended, status, usage = os.wait4(process.pid, os.WNOHANG)
            if ended:
                return usage, os.waitstatus_to_exitcode(status)
            if time.monotonic() > until and not self.is_stopped:
                self.is_stopped = True
                process.kill()
            time.sleep(0.004)

    def verdict(self, wanted, status):
        """What is wrong with the run."""
        if self.is_stopped:
            return "STOPPED"
        found = []
        if self.status != status:
            found.append(f"STATUS {self.status} {self.errors[:60]!r}")
        else:
            with open(self.folder.output_path, "rb") as it:
                written = it.read()
            seen = verdicts_in(written) if isinstance(wanted, dict) else written
            if seen != wanted:
                found.append(f"ANSWERS {str(seen)[:120]} in place of {str(wanted)[:120]}")
        if self.busy > SECONDS_LIMIT:
            found.append("TIME")
        if self.memory > MEMORY_LIMIT:
            found.append("MEMORY")
        return ", ".join(found)


def verdicts_in(replies):
    """The verdicts by rule in the last reply, and those of the checks of attributes that aren't TRUE."""
    last = json.loads(replies.splitlines()[-1])
    return {it.get("rule") or it["check"]: it["verdict"] for it in last["ok"]["checks"] if "rule" in it or it["verdict"] != "TRUE"}


def write(path, *pieces):
    with open(path, "wb") as it:
        for piece in pieces:
            it.write(piece if isinstance(piece, bytes) else piece.encode())


class Bench:
    """The families that are asked for, each run, and what was found."""

    def __init__(self, folder, asked):
        self.folder = folder
        self.asked = asked
        self.over = 0
        folder.input_path = os.path.join(folder.path, "input")
        folder.output_path = os.path.join(folder.path, "output")
        folder.configure(schema=SCHEMA)
        write(folder.input_path, b"")
        self.table = Table({"family": "30", "way": "13", "count": "11,", "of": "14", "bytes": "11,", "seconds": "8.2f",
                            "run": "8.2f", "memory": "14,", "": "1"})

    def goes(self, way):
        return not self.asked.way or way in self.asked.way

    def chosen(self, families):
        words = self.asked.family
        return [(name, *it) for name, it in families.items() if not words or any(word in name for word in words)]

    def row(self, name, way, count, counted, size, words, wanted, status=0, who=""):
        """Runs the program and prints what it took, and who can bring it about where something is wrong; answers whether it ended."""
        run = Run(self.folder, words, way != "check", self.asked.timeout)
        verdict = run.verdict(wanted, status)
        if verdict and who:
            verdict += f", by {who}"
        self.table.row(name, way, count, counted, size, run.seconds, run.busy, run.memory, verdict)
        self.over += verdict != ""
        return not run.is_stopped

    def text(self, name, counted, text_of):
        count = fitting(text_of, self.asked.size)
        text, marks = unmarked(text_of(count))
        ends = True
        if self.goes("check"):
            write(os.path.join(self.folder.path, SCHEMA_FILE), text)
            wanted, status = of_check(text, marks)
            ends = self.row(name, "check", count, counted, len(text), CHECK, wanted, status)
        # What is stopped in one way is so in the other.
        if self.goes("check_schema") and ends:
            write(self.folder.input_path, request("check_schema", text=text.decode()))
            self.row(name, "check_schema", count, counted, len(text), BATCH, of_check_schema(marks))

    def file(self, name, counted, most, file_of):
        count = fitting(lambda count: file_of(count)[0], min(self.asked.size, FILE_ROOM), most)
        file, reply, schema = (*file_of(count), SCHEMA)[:3]
        self.folder.configure(schema=schema)
        create = request("create_model", name="m", schema="MEASURED")
        write(self.folder.input_path, create, request("put", owner="ann", model="m", file=file))
        self.row(name, "put", count, counted, len(file), BATCH, b'{"ok":{}}\n' + reply + b"\n")

    def rules(self, name, counted, most, who, made_of):
        made = lambda count: FILE.format(made_of(count).instances)
        count = fitting(made, min(self.asked.size, FILE_ROOM), most)
        text, instances, verdicts = made_of(count)
        self.folder.configure(schema=text)
        lines = [request("create_model", name="m", schema="MEASURED"), request("put", owner="ann", model="m", file=FILE.format(instances)),
                 request("create_group", name="g", schema="MEASURED"), request("include", owner="ann", group="g", model="m")]
        replies = [b'{"ok":{}}\n', answer({"ok": {"instances": instances.count(";\n")}}) + b"\n"]
        for way, given, wanted, size in (("load", [], b"", len(text)), ("put", lines[:2], b"".join(replies), len(instances)),
                                         ("validate", [*lines, request("validate", owner="ann", group="g")], verdicts, len(instances))):
            write(self.folder.input_path, *given)
            if not self.row(name, way, count, counted, size, BATCH, wanted, who=who):
                return

    def line(self, name, counted, line_of):
        count = fitting(lambda count: line_of(count)[0], LINE_TO_TEXT * self.asked.size)
        line, reply = line_of(count)
        write(self.folder.input_path, line, b"\n")
        self.row(name, "line", count, counted, len(line), BATCH, reply + b"\n")

    def run(self):
        if self.goes("check") or self.goes("check_schema"):
            for it in self.chosen(TEXTS):
                self.text(*it)
        if self.goes("put"):
            for it in self.chosen(FILES):
                self.file(*it)
        if self.goes("validate"):
            for it in self.chosen(RULES):
                self.rules(*it)
        if self.goes("line"):
            self.folder.configure(schema=SCHEMA)
            for it in self.chosen(LINES):
                self.line(*it)
        print(f"{self.over} runs over a limit or otherwise than they must be")
        return 1 if self.over else 0


def options():
    parser = argparse.ArgumentParser(description="Measures what a stranger can keep the program busy with.")
    parser.add_argument("--family", action="append", help="families whose name holds this")
    parser.add_argument("--way", action="append", choices=("check", "check_schema", "put", "line", "validate"))
    parser.add_argument("--size", type=lambda it: int(float(it) * MIB), default=FILE_LIMIT, help="MiB of a text or a file")
    parser.add_argument("--timeout", type=float, default=TIMEOUT, help="seconds after which a run is stopped")
    parser.add_argument("--list", action="store_true", help="names the families")
    parser.add_argument("program", nargs="?")
    return parser.parse_args()


def main():
    asked = options()
    if asked.list:
        for families in (TEXTS, FILES, RULES, LINES):
            print("\n".join(families))
        return
    run_bench(lambda folder: Bench(folder, asked).run(), [asked.program] if asked.program else [])


if __name__ == "__main__":
    main()
