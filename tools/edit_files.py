"""Where the edits lie, which belong to which part of a crate, and how some of them are handed to rt.

An edit is a wrong body that the prover has to refuse. Those of crates/CRATE/must-fail are tried by each gate, those of
tools/edits/CRATE in turns. rt reads the former folder alone, so the others stand there while rt runs.
"""
import contextlib
import fcntl
import filecmp
import os
import re
import shutil
import signal
import subprocess
import sys

TOP = os.path.dirname(os.path.dirname(os.path.abspath(__file__)))
EDITS = os.path.join(TOP, "tools/edits")
TURN = os.path.join(EDITS, "turn")
# rt, which sums the files of each crate once.
RT = os.path.join(TOP, ".ci/rt_once.py")
# What stands in must-fail/ for a while, a path in a line; whoever puts edits there holds a lock on it.
STANDING = os.path.join(TOP, "out/standing")

TOLD = re.compile(r"rt: must-fail (?P<crate>\w+)/(?P<name>[\w.-]+): (?P<verdict>.*)")
KEPT = re.compile(r"rt: (?P<crate>\w+): (?P<count>\d+) of its \d+ must-fail edits were tried by an earlier run")
REFUSED = "refused, as it must be"
SIGNALS = (signal.SIGINT, signal.SIGTERM, signal.SIGHUP)
# How many seconds rt may take to end once it is asked to.
PATIENCE = 20


class Fault(Exception):
    """Why edits can't be tried."""


def must_fail_folder(crate):
    return os.path.join(TOP, "crates", crate, "must-fail")


def names_below(folder):
    """The names of the edits in a folder, sorted; none where it isn't there."""
    return sorted(it for it in os.listdir(folder) if it.endswith(".edit")) if os.path.isdir(folder) else []


def always_tried(crate):
    """The names of the edits that each gate tries."""
    return names_below(must_fail_folder(crate))


def tried_in_turns(crate):
    """The names of the edits that lie apart."""
    return names_below(os.path.join(EDITS, crate))


def crates_with_edits_apart():
    """The crates that have a folder in tools/edits, sorted."""
    return sorted(it for it in os.listdir(EDITS) if os.path.isdir(os.path.join(EDITS, it)))


def parts_of(crate, count):
    """The edits of a crate that lie apart, in so many parts. An edit's name alone says its part, so that a new one moves no other."""
    parts = [[] for _ in range(count)]
    for name in tried_in_turns(crate):
        parts[sum(name.encode()) % count].append(name)
    return parts


def turn_now():
    """The number in tools/edits/turn, which whoever lands raises."""
    with open(TURN, encoding="utf-8") as it:
        text = it.read()
    if not re.fullmatch(r"\d{1,9}\n", text):
        raise Fault(f"{os.path.relpath(TURN, TOP)} has to hold one number and nothing else")
    return int(text)


# ---- edits that stand in must-fail/ for a while

def take_away(paths):
    """Removes copies of edits, and the folders that are empty then."""
    for path in paths:
        with contextlib.suppress(FileNotFoundError):
            os.remove(path)
    for folder in {os.path.dirname(path) for path in paths}:
        with contextlib.suppress(OSError):
            os.rmdir(folder)


def take_away_leftovers(listed):
    """Removes what a run that was killed left: of the paths listed, each that is still what lies in tools/edits."""
    left = []
    for path in listed.read().split("\n"):
        found = re.fullmatch(r"crates/(\w+)/must-fail/([\w.-]+\.edit)", path)
        original = found and os.path.join(EDITS, found[1], found[2])
        if found and os.path.isfile(original) and os.path.isfile(os.path.join(TOP, path)):
            if filecmp.cmp(original, os.path.join(TOP, path), shallow=False):
                left.append(os.path.join(TOP, path))
    take_away(left)


@contextlib.contextmanager
def held_list():
    """The list of what stands in must-fail/ for a while, held by one run at a time and empty."""
    os.makedirs(os.path.dirname(STANDING), exist_ok=True)
    with open(STANDING, "a+", encoding="utf-8") as listed:
        try:
            fcntl.flock(listed, fcntl.LOCK_EX | fcntl.LOCK_NB)
        except BlockingIOError:
            raise Fault("another run in this checkout tries edits") from None
        listed.seek(0)
        take_away_leftovers(listed)
        listed.truncate(0)
        yield listed


@contextlib.contextmanager
def stand_in(chosen):
    """Has edits of tools/edits stand in must-fail/ for a while, by crate the names of those that do."""
    with held_list() as listed:
        pairs = [(os.path.join(EDITS, crate, name), os.path.join(must_fail_folder(crate), name))
                 for crate, names in chosen.items() for name in names]
        taken = [os.path.relpath(path, TOP) for _, path in pairs if os.path.lexists(path)]
        if taken:
            raise Fault(f"{', '.join(taken)}: the name stands in tools/edits too, so remove or rename one")
        try:
            listed.writelines(os.path.relpath(path, TOP) + "\n" for _, path in pairs)
            listed.flush()
            for original, path in pairs:
                os.makedirs(os.path.dirname(path), exist_ok=True)
                shutil.copyfile(original, path)
            yield
        finally:
            take_away([path for _, path in pairs])
            listed.truncate(0)


# ---- rt

class Told:
    """What rt says of edits: the verdict of each by crate and name, and how many of a crate an earlier run tried."""

    def __init__(self):
        self.verdicts, self.kept = {}, {}

    def read(self, line):
        found = TOLD.match(line)
        if found:
            self.verdicts[found["crate"], found["name"]] = found["verdict"]
        found = KEPT.match(line)
        if found:
            self.kept[found["crate"]] = int(found["count"])

    def faults_of(self, crate, names):
        """Of these edits of a crate those that weren't refused, each with what was said; in one line, where nothing was said of any."""
        if names and not any((crate, name) in self.verdicts for name in names):
            yield f"{crate}: NOT TRIED: nothing was said of its edits, as of those of a crate that isn't proved ({len(names)})"
            return
        for name in names:
            verdict = self.verdicts.get((crate, name), "NOT TRIED: nothing was said of it")
            if not verdict.startswith(REFUSED):
                yield f"{crate}/{name}: {verdict}"


def stop(process):
    """Ends the process; what it started ends with it."""
    process.send_signal(signal.SIGINT)
    try:
        process.wait(PATIENCE)
    except subprocess.TimeoutExpired:
        os.killpg(process.pid, signal.SIGKILL)
        process.wait()


def end(number, _):
    """A signal ends a script as an exception does, so that all is put back; a second one doesn't break into that."""
    for it in SIGNALS:
        signal.signal(it, signal.SIG_IGN)
    sys.exit(128 + number)


def end_by_signals():
    for number in SIGNALS:
        signal.signal(number, end)


def run_rt(words):
    """Runs rt at the top of the repository, and shows what it says. Its status, and what it told of edits."""
    told = Told()
    how = {"cwd": TOP, "stdin": subprocess.DEVNULL, "stdout": subprocess.PIPE, "stderr": subprocess.STDOUT, "errors": "replace"}
    # Ctrl-C reaches the script alone, which then ends rt before it takes the edits away.
    process = subprocess.Popen([sys.executable, RT, *words], start_new_session=True, **how)
    try:
        for line in process.stdout:
            print(line, end="", flush=True)
            told.read(line)
        return process.wait(), told
    finally:
        if process.poll() is None:
            stop(process)
