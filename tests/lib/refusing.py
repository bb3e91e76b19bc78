"""Runs of the program in which tools/refuse.c refuses allocations, many cases for each run.

A run waits at its start, and again each time it has answered all lines of its input. A case is a fork of the waiting run: it reads lines
of its own, one of its windows has allocations refused, and it exits. The run itself is unchanged, so all cases start from the same state.
"""
import contextlib
import os
import signal
import socket
import struct
import subprocess
import tempfile
from typing import NamedTuple

from lib.harness import Folder, LeftOut, Wrong
from lib.shims import shim_in

# what is refused: one allocation, or it and all later ones; with the description, and of how many allocations one has such a case
ALONE, ONWARDS = 1, 2
REFUSALS = {ALONE: ("allocation %d", 1), ONWARDS: ("all from allocation %d on", 3)}
# the windows of a case: the whole of it, that before its first read, and its first line; the last one, from the end of input on, has the
# number of lines plus 1
WHOLE, START, FIRST_LINE = -1, 0, 1
SECONDS = 120
NUMBERS = struct.Struct("@lll")


class Ended(NamedTuple):
    """The result of a case: its status, its output and errors, and how many allocations of the window occurred and were refused."""

    status: int
    output: bytes
    errors: bytes
    allocations: int
    refusals: int


class Run:
    """A run of the program in a folder that `refusing` has prepared."""

    def __init__(self, folder, words=("batch", "--config", "config.json")):
        if Folder.stand_in:
            raise LeftOut
        self.has_begun = False
        self.files = [tempfile.TemporaryFile(buffering=0) for _ in range(3)]
        self.socket, theirs = socket.socketpair()
        self.socket.settimeout(SECONDS)
        with theirs:
            env = {"LD_PRELOAD": os.path.join(folder, "refuse.so"), "REFUSE_CASES": str(theirs.fileno())}
            given, output, errors = self.files
            self.process = subprocess.Popen([Folder.program, *words], cwd=folder, stdin=given, stdout=output, stderr=errors, env=env,
                                            pass_fds=[theirs.fileno()], start_new_session=True)
        self.expect_waiting()

    def __enter__(self):
        return self

    def __exit__(self, kind, *_):
        """A run that has read lines reads the end of its input and exits."""
        if not self.has_begun or kind:
            # (a fork that hangs ends too)
            with contextlib.suppress(ProcessLookupError):
                os.killpg(self.process.pid, signal.SIGKILL)
        self.socket.close()
        self.process.wait(SECONDS)
        for it in self.files:
            it.close()
        if self.has_begun and not kind and self.process.returncode:
            raise Wrong(f"the run ended with status {self.process.returncode}")

    def answer(self):
        """Three numbers from the run."""
        found = b""
        while len(found) < NUMBERS.size:
            try:
                more = self.socket.recv(NUMBERS.size - len(found))
            except TimeoutError:
                raise Wrong(f"no answer in {SECONDS} seconds") from None
            if not more:
                raise Wrong(f"the run has ended: {self.written()!r}")
            found += more
        return NUMBERS.unpack(found)

    def expect_waiting(self):
        if self.answer() != (0, 0, 0):
            raise Wrong("the run doesn't wait")

    def ask(self, lines, *what):
        """Replaces the input by these lines, empties the outputs, and sends a command."""
        for it, text in zip(self.files, (b"".join(line + b"\n" for line in lines), b"", b"")):
            it.seek(0)
            it.truncate()
            it.write(text)
        self.socket.sendall(NUMBERS.pack(*what))

    def written(self):
        return tuple(os.pread(it.fileno(), os.fstat(it.fileno()).st_size, 0) for it in self.files[1:])

    def go(self, lines=()):
        """The run itself reads these lines without refusals. Returns its output."""
        self.has_begun = True
        self.ask(lines, 0, 0, 0)
        self.expect_waiting()
        output, errors = self.written()
        if errors:
            raise Wrong(f"{errors!r} on standard error")
        return output

    def case(self, lines, window=FIRST_LINE, refusal=ALONE, place=0):
        """A case that reads these lines, with one allocation of a window refused, or with it and all later ones. Place 0 refuses none."""
        self.ask(lines, refusal, place, window)
        status, allocations, refusals = self.answer()
        return Ended(status, *self.written(), allocations, refusals)

    def each(self, lines, window=FIRST_LINE, first=1, prepare=lambda: None):
        """Cases of these lines: for each allocation of the window one that refuses it, and for each third one that refuses it and all later
        ones; and one without refusals, before and after these. Yields each with a description. `prepare` is called before each."""
        prepare()
        whole = self.case(lines, window)
        yield "without refusals", whole
        count = whole.allocations
        for refusal, (words, step) in REFUSALS.items():
            for place in range(first, count + 1, step):
                prepare()
                seen = self.case(lines, window, refusal, place)
                if seen.refusals < 1 or refusal == ALONE and seen.refusals > 1:
                    raise Wrong(f"{words % place} of {count}: {seen.refusals} are refused")
                yield f"{words % place} of {count}", seen
        prepare()
        last = self.case(lines, window, ONWARDS, count + 1)
        if last.refusals:
            raise Wrong(f"an allocation follows the last of {count}")
        yield "all after the last allocation", last


def refusing(folder):
    """The path of the folder, with the compiled refuse.c in it."""
    shim_in(folder.folder.name)
    return folder.folder.name
