"""What the test scripts share: the program, folders in which it is run, whole outputs that are compared, and the count.

A script has either functions `test_*`, which raise Wrong, and ends by `run_tests`; or parts, which count by a Checker,
and ends by `run_parts`. The last line of a script is 'NAME: N passed, M failed', and its status is 0 only if none failed.
"""
import os
import re
import subprocess
import sys
import tempfile
from concurrent.futures import ThreadPoolExecutor

TESTS = os.path.dirname(os.path.dirname(os.path.abspath(__file__)))
TOP = os.path.dirname(TESTS)
PROGRAM = os.path.join(TOP, "crates/rp_server/out/rp_server")

# how long a run of the program may take
SECONDS = 300

# A mark as ⟦Token⟧ in a text stands before the first byte of a fault or of a warning.
MARK = re.compile(r"⟦(\w+)⟧")
WARNING = "SelectInTypeof"


class Wrong(Exception):
    """What was seen isn't what has to be."""


class LeftOut(Exception):
    """A run of the program wants another way than the one in which runs are made here."""


def shortened(text):
    return text if len(text) <= 600 else text[:400] + b" .. " + text[-150:]


def of_text(text):
    return text if isinstance(text, bytes) else text.encode()


def unmarked(text):
    """The bytes of a text without its marks, and each mark's word with the byte where it stood."""
    pieces = MARK.split(text)
    marks = []
    at = 0
    for kind, before in zip(pieces[1::2], pieces[::2]):
        at += len(before.encode())
        marks.append((kind, at))
    return "".join(pieces[::2]).encode(), marks


def place_of(text, at):
    """The line and the column of a byte, from 1."""
    before = text[:at]
    return before.count(b"\n") + 1, at - (before.rfind(b"\n") + 1) + 1


def told(kind, text, at):
    """The line that `check` writes of a fault or a warning at a byte."""
    line, column = place_of(text, at)
    return b"%s line %d column %d\n" % (kind.encode(), line, column)


def wanted_of(schema, text):
    """The bytes of a marked text, and what `check` tells of it: the first of its faults, or the name and the warnings."""
    plain, marks = unmarked(text)
    for kind, at in marks:
        if kind != WARNING:
            return plain, (1, told(kind, plain, at), b"")
    warnings = b"".join(b"warning " + told(kind, plain, at) for kind, at in marks)
    return plain, (0, schema.encode() + b": ok\n" + warnings, b"")


# ---- running the program

class Folder:
    """A new folder with these files, in which the program is run."""

    program = PROGRAM
    # what makes runs in the program's stead, if anything does: a function of the folder, the words, the input and the devices
    stand_in = None

    def __init__(self, **files):
        self.folder = tempfile.TemporaryDirectory()
        self.files = {}
        for name, text in files.items():
            self.write(name, text)

    def __enter__(self):
        return self

    def __exit__(self, *_):
        self.folder.cleanup()

    def path(self, name):
        return os.path.join(self.folder.name, name)

    def write(self, name, text):
        self.files[name] = of_text(text)
        os.makedirs(os.path.dirname(self.path(name)), exist_ok=True)
        with open(self.path(name), "wb") as it:
            it.write(self.files[name])

    def run(self, *words, text=b"", seconds=SECONDS, **devices):
        """The status, and what was written on standard output and standard error."""
        if Folder.stand_in:
            return Folder.stand_in(self, words, text, devices)
        given = {} if "stdin" in devices else {"input": text}
        done = subprocess.run([Folder.program, *words], cwd=self.folder.name, timeout=seconds, check=False,
                              **{"stdout": subprocess.PIPE, "stderr": subprocess.PIPE, **given, **devices})
        return done.returncode, done.stdout, done.stderr

    def start(self, *words):
        """A run that is talked with through pipes."""
        if Folder.stand_in:
            raise LeftOut
        return subprocess.Popen([Folder.program, *words], cwd=self.folder.name, stdin=subprocess.PIPE, stdout=subprocess.PIPE,
                                stderr=subprocess.PIPE, bufsize=0)


class Checker:
    """Runs `check` on texts, several at a time, compares all that is written, and counts."""

    def __init__(self, folder, pool):
        self.folder = folder
        self.pool = pool
        self.passed = 0
        self.failed = 0

    def expect(self, name, seen, wanted):
        if seen == wanted:
            self.passed += 1
        else:
            self.failed += 1
            print(f"{name}: {seen!r} in place of {wanted!r}")

    def check(self, text, seconds=SECONDS):
        """What the program writes of a text, and its status."""
        handle, path = tempfile.mkstemp(".exp", dir=self.folder.folder.name)
        try:
            with os.fdopen(handle, "wb") as it:
                it.write(of_text(text))
            return self.folder.run("check", path, seconds=seconds)
        except subprocess.TimeoutExpired:
            return f"nothing in {seconds} seconds"
        finally:
            os.remove(path)

    def run(self, cases, seconds=SECONDS):
        """Each case is a name, the schema's name, and a marked text. Answers for each what is told, and what is to be."""
        wanted = [wanted_of(schema, text) for _, schema, text in cases]
        seen = self.pool.map(lambda it: self.check(it[0], seconds), wanted)
        return [(got, it[1]) for got, it in zip(seen, wanted)]

    def looks(self, cases, seconds=SECONDS):
        for (name, _, _), (seen, wanted) in zip(cases, self.run(cases, seconds)):
            self.expect(name, seen, wanted)

    def accepts(self, name, text, schema=b"A"):
        self.expect(name, self.check(text), (0, schema + b": ok\n", b""))

    def refuses(self, name, text, kind, at):
        self.expect(name, self.check(text), (1, told(kind, text, at), b""))


# ---- running a script

def take_program(label, words):
    """The program that the words name, or else the one that was built, is run from here on."""
    Folder.program = os.path.abspath(words[0] if words else PROGRAM)
    if not os.access(Folder.program, os.X_OK):
        sys.exit(f"{label}: there is no program {Folder.program}: run rt ci first, or name it")


def end(label, passed, failed):
    """Says how many passed and failed, and ends the script."""
    print(f"{label}: {passed} passed, {failed} failed")
    sys.exit(1 if failed or not passed else 0)


def run_tests(label, given, words):
    """Runs each function `test_*` of these, and ends the script."""
    take_program(label, words)
    passed = failed = 0
    for name, test in list(given.items()):
        if not name.startswith("test_"):
            continue
        try:
            test()
            passed += 1
        except (Wrong, subprocess.TimeoutExpired) as fault:
            print(f"{name}: FAILED: {fault}")
            failed += 1
    end(label, passed, failed)


def run_parts(label, parts, words):
    """Runs the parts, each over one Checker, and ends the script."""
    take_program(label, words)
    with Folder() as folder, ThreadPoolExecutor(os.cpu_count() or 1) as pool:
        it = Checker(folder, pool)
        for part in parts:
            part(it)
    end(label, it.passed, it.failed)
