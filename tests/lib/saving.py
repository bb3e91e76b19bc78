"""The program as it loads and saves snapshots: runs of `batch`, each with files of its own, and what is left in their folder."""
import itertools
import os
import re
import stat
import time
from concurrent.futures import ThreadPoolExecutor
from typing import NamedTuple

from lib.harness import Folder, LeftOut, Wrong, shortened
from lib.messages import CONFIG, Repository

THREE = {"partners": [*CONFIG["partners"], {"name": "cyd", "token": "tc"}], "schemas": ["t.exp", "l.exp", "e.exp"]}

# what stands where a run saves, before it does
OLD = b"what was saved before\n"


class Ended(NamedTuple):
    """How a run ended: its status, what it wrote, what it was told by, and the files that are left by their names."""

    status: int
    output: bytes
    errors: bytes
    path: str
    files: dict


class Saving(Repository):
    """A folder with a configuration and schemas, in which `batch` loads and saves. Several runs may go on at a time."""

    def __init__(self, config=None, **files):
        if Folder.stand_in:
            raise LeftOut
        super().__init__(THREE if config is None else config, **files)
        self.numbers = itertools.count(1)

    def place(self, **files):
        """A new folder with these files: its path for the program."""
        name = f"run{next(self.numbers)}"
        os.mkdir(self.path(name))
        for file, text in files.items():
            with open(self.path(f"{name}/{file}"), "wb") as it:
                it.write(text)
        return name

    def ask(self, lines=(), load=None, save=True, config="config.json", words=(), **devices):
        """A run of these lines that loads a snapshot, if there is one, and saves where something is saved already, if it is to."""
        name = self.place(**({} if load is None else {"snap": load}), **({"kept": OLD} if save else {}))
        given = [*(["--load", f"{name}/snap"] if load is not None else []), *(["--save", f"{name}/kept"] if save else []), *words]
        return self.ended(name, "batch", "--config", config, *given, text=b"".join(it + b"\n" for it in lines), **devices)

    def ended(self, name, *words, **given):
        """How a run ended, and what it left in a folder."""
        status, output, errors = self.run(*words, **given)
        return Ended(status, output or b"", errors, f"{name}/snap", files_in(self.path(name)))


def files_in(path):
    """The contents of the files of a folder by their names; of what is no file, the letter of what it is."""
    found = {}
    for name in os.listdir(path):
        place = os.path.join(path, name)
        mode = os.lstat(place).st_mode
        if stat.S_ISREG(mode):
            with open(place, "rb") as it:
                found[name] = it.read()
        else:
            found[name] = stat.filemode(mode)[0]
    return found


def replies_of(lines):
    return b"".join(it + b"\n" for it in lines)


def expect_saved(seen, data, replies=()):
    """The run answered so, and what was saved is this. Nothing is left beside it."""
    if (seen.status, seen.errors) != (0, b""):
        raise Wrong(f"status {seen.status}, {shortened(seen.output)!r}, {seen.errors!r}")
    if seen.output != replies_of(replies):
        raise Wrong(f"{shortened(seen.output)!r} is answered in place of {shortened(replies_of(replies))!r}")
    if seen.files.get("kept") != data:
        raise Wrong(f"{difference(seen.files.get('kept'), data)} is saved")
    if not set(seen.files) <= {"snap", "kept"}:
        raise Wrong(f"{sorted(seen.files)} are left")


def in_runs(folder, parts, load=None):
    """The replies to lines in several runs, each of which loads what the one before has saved, and what the last one saves."""
    output = b""
    for part in parts:
        seen = folder.ask(part, load=load)
        if (seen.status, seen.errors) != (0, b""):
            raise Wrong(f"status {seen.status}, {seen.errors!r} after {output[-200:]!r}")
        output, load = output + seen.output, seen.files["kept"]
    return output, load


def difference(seen, wanted):
    """What differs first in two texts."""
    if seen is None:
        return "nothing"
    at = next((k for k, (one, other) in enumerate(zip(seen, wanted)) if one != other), min(len(seen), len(wanted)))
    return f".. {seen[max(0, at - 40):at + 80]!r}, from byte {at} on another text than .. {wanted[max(0, at - 40):at + 80]!r},"


def shown(text):
    """A text as the program shows it: in quotation marks, with its two ends where it is long, and signs that nobody sees by their codes."""
    data = text.encode()
    if len(data) > 300:
        return f"{shown(data[:200].decode(errors='ignore'))}..{shown(data[-60:].decode(errors='ignore'))}"
    known = {'"': '\\"', "\\": "\\\\", "\n": "\\n", "\r": "\\r", "\t": "\\t", "\0": "\\0"}
    return '"%s"' % "".join(known.get(it) or (it if it.isprintable() else f"\\u{{{ord(it):x}}}") for it in text)


def expect_untouched(seen, words):
    """The run ended with status 2 and this line of its snapshot, or one of this pattern, and wrote and saved nothing; what was saved before is
    there."""
    pattern = words if isinstance(words, re.Pattern) else re.compile(re.escape(words.encode()))
    line = re.compile(re.escape(f"rp_server: {shown(seen.path)}".encode()) + pattern.pattern + rb"\n")
    if (seen.status, seen.output) != (2, b"") or not line.fullmatch(seen.errors) or seen.errors.count(b"\n") != 1:
        raise Wrong(f"status {seen.status}, {shortened(seen.output)!r}, {seen.errors!r} in place of {getattr(words, 'pattern', words)!r}")
    if seen.files.get("kept") != OLD or not set(seen.files) <= {"snap", "kept"}:
        raise Wrong(f"{sorted(seen.files)} are left, and {shortened(seen.files.get('kept') or b'nothing')!r} is saved")


def each(look, rows, threads=None):
    """Looks at each row, several at a time, and tells which are wrong."""
    def one(row):
        try:
            look(row)
        except Wrong as fault:
            return f"{row[0]}: {fault}"
        return None

    with ThreadPoolExecutor(threads or os.cpu_count() or 1) as pool:
        faults = [it for it in pool.map(one, rows) if it]
    if faults:
        raise Wrong("\n  ".join([f"{len(faults)} rows:", *faults]))


def until(holds, seconds=20):
    """Waits until something holds, and answers whether it does."""
    end = time.monotonic() + seconds
    while not holds():
        if time.monotonic() > end:
            return False
        time.sleep(0.01)
    return True
