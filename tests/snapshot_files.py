#!/usr/bin/env python3
"""Runs the built program with `--save` where files fail, where it is killed, and where something else stands in the place: what is saved is
replaced as a whole or not at all.

    tests/snapshot_files.py [PROGRAM]

tools/file_faults.c has each of the program's calls on files fail, and kills it at each; tools/refuse.c refuses its allocations. The last
line is 'snapshot files: N passed, M failed', and the status is 0 only if none failed.
"""
import collections
import copy
import errno
import os
import random
import re
import resource
import shutil
import signal
import socket
import subprocess
import sys
import time

from lib.harness import TOP, Folder, Wrong, run_tests, shortened
from lib.messages import FILE_LIMIT, MIB, OK, add, create, create_group, file_of, grant, include, instances, link, list_of, listed, names, put
from lib.plain_binding import Entity, Schema
from lib.plain_files import read, read_mapping
from lib.plain_model import Repository as PlainRepository
from lib.plain_snapshots import model, snapshot, snapshot_of
from lib.saving import OLD, Saving, difference, each, files_in, replies_of, shown, until

sys.path.insert(0, os.path.join(TOP, "tools"))

from each_refusal import NO_MEMORY, run, shim_in  # noqa: E402

CONFIG = {"partners": [{"name": "ann", "token": "ta"}, {"name": "bob", "token": "tb"}], "schemas": ["t.exp"]}
# the lines of a run, their replies, and what it saves
LINES = [create("ann", "m"), put("ann", "ann", "m", file_of("#1=P(1.,'" + "x" * 3000 + "');")), create("bob", "b"), list_of("bob")]
REPLIES = replies_of([OK, instances(1), OK, listed((b"owner", b"b", b"bob"))])
NEW = snapshot([], [model("ann", "m", "#1=P(1.,'" + "x" * 3000 + "');"), model("bob", "b")])
LINE = re.compile(rb"rp_server: [^\n]+\n")
BATCH = ("batch", "--config", "config.json")


def saving(folder, name, env=None, lines=LINES, *words, **devices):
    """A run that saves in this folder."""
    return folder.ended(name, *BATCH, *words, "--save", f"{name}/kept", text=b"".join(it + b"\n" for it in lines), **({"env": env} if env else {}), **devices)


def expect_new(seen, data=NEW, replies=REPLIES):
    if seen[:3] != (0, replies, b"") or seen.files != {"kept": data}:
        raise Wrong(f"{seen[:3]}, {sorted(seen.files)} are left, and {difference(seen.files.get('kept'), data)} is saved")


# why a call fails, as it is told
WHY = {
    errno.EIO: "Input/output error (os error 5)", errno.ENOSPC: "No space left on device (os error 28)", errno.EACCES: "permission is denied",
    errno.EDQUOT: "Disk quota exceeded (os error 122)", errno.EFBIG: "File too large (os error 27)", 0: "write zero",
}
NO_FILE = "it is no regular file"
TAKEN = "another program replaces it too"


def line_of(path, why):
    return f"rp_server: {shown(path)} can't be saved: {why}\n".encode()


def expect_fault(seen, output, files, why, path=None):
    """Status 2 with its line, these replies, and these files."""
    line = line_of(seen.path.replace("/snap", "/kept") if path is None else path, why)
    if seen[:3] != (2, output, line) or seen.files != files:
        raise Wrong(f"{seen[:3]} in place of {line!r}, and {files_shown(seen.files)} is left")


def files_shown(files):
    return {name: shortened(it) if isinstance(it, bytes) else it for name, it in files.items()}


class Faults:
    """A folder with a shim that has the calls of a run on its files fail."""

    def __init__(self):
        self.folder = Saving(CONFIG)
        self.shim = shim_in(self.folder.folder.name, "file_faults")

    def __enter__(self):
        return self

    def __exit__(self, *_):
        self.folder.__exit__()

    def run(self, files, lines=LINES, load=None, **faults):
        """A run whose folder has these files, and the calls that it made there; or, where it loads a file, those that it made on this one."""
        name = self.folder.place(**files)
        log = self.folder.path(f"log-{name}")
        within = name if load is None else f"{name}/{load}"
        env = {"LD_PRELOAD": self.shim, "FAULT_IN": within, "FAULT_LOG": log, **{f"FAULT_{key.upper()}": str(it) for key, it in faults.items()}}
        seen = saving(self.folder, name, env, lines, *([] if load is None else ["--load", within]))
        with open(log, encoding="utf-8") as it:
            calls = [(call, os.path.relpath(path, name)) for call, path in (line.rstrip("\n").split(" ", 1) for line in it)]
        return name, seen, calls


def test_the_order_of_calls():
    """All is written and synced before it is renamed, and the folder is synced behind that: a crash at any moment leaves the old or the new
    text."""
    with Faults() as faults:
        for files in ({}, {"kept": OLD}, {"kept": OLD, "kept.part": b"left"}):
            _, seen, calls = faults.run(files)
            expect_new(seen)
            of = collections.defaultdict(list)
            for at, call in enumerate(calls):
                of[call].append(at)
            try:
                (renamed,), made = of["rename", "kept.part"], of["create", "kept.part"][-1]
                is_in_order = (made < min(of["write", "kept.part"]) and max(of["write", "kept.part"]) < min(of["sync", "kept.part"])
                               and max(of["sync", "kept.part"]) < renamed < max(of["sync", "."]))
            except (IndexError, ValueError):
                is_in_order = False
            touched = [call for call in calls if call[1] == "kept" and call[0] not in ("look",)]
            if not is_in_order or touched:
                raise Wrong(f"the calls are {calls}")


def test_each_call_fails():
    """Status 2 and one line: nothing is answered where it is begun, or all; the old text is there, or the new one where only its folder
    wasn't synced. Nothing is left beside it."""
    with Faults() as faults:
        for files in ({"kept": OLD}, {"kept": OLD, "kept.part": b"left"}):
            _, _, calls = faults.run(files)
            synced = max(at for at, call in enumerate(calls) if call == ("sync", "."))

            def look(row, files=files, calls=calls, synced=synced):
                at, error = row
                name, seen, made = faults.run(files, at=at + 1, error=error)
                if calls[at][0] == "close":
                    expect_new(seen)
                    return
                is_begun = any(it[0] == "write" for it in made[:at + 1])
                # (what an earlier run left is there until it is removed)
                is_left = "kept.part" in files and ("remove", "kept.part") not in calls[:at]
                wanted = {"kept": NEW if at == synced else OLD, **({"kept.part": b"left"} if is_left else {})}
                unsynced = "it is replaced, but its folder can't be synced: " if at == synced else ""
                expect_fault(seen, REPLIES if is_begun else b"", wanted, unsynced + WHY[error])
                if files_in(faults.folder.path(name)) != wanted:
                    raise Wrong("something changes behind the end")

            each(look, [(at, error) for at in range(len(calls)) for error in (errno.EIO, errno.ENOSPC, errno.EACCES)])
        _, _, calls = faults.run({"kept": OLD})

        def takes_nothing(row):
            _, seen, _ = faults.run({"kept": OLD}, at=row[0] + 1, error=0)
            expect_fault(seen, REPLIES, {"kept": OLD}, WHY[0])

        each(takes_nothing, [(at,) for at, call in enumerate(calls) if call[0] == "write"])


def test_each_call_of_a_load_fails():
    """Status 2 and one line; nothing is answered, and nothing saved."""
    with Faults() as faults:
        files = {"kept": OLD, "snap": NEW}
        _, seen, calls = faults.run(files, [], "snap")
        if seen[:3] != (0, b"", b"") or seen.files != {"kept": NEW, "snap": NEW} or not {("open", "snap"), ("read", "snap")} <= set(calls):
            raise Wrong(f"{seen[:3]}, {calls}")

        def look(row):
            at, error, many = row
            _, seen, _ = faults.run(files, LINES, "snap", at=at + 1, error=error, many=many)
            line = re.escape(f"rp_server: {shown(seen.path)} can't be read".encode()) + rb"[^\n]*\n"
            if seen[:2] != (2, b"") or seen.files != files or not re.fullmatch(line, seen.errors):
                raise Wrong(f"{calls[at]}: {seen[:3]}, {files_shown(seen.files)}")

        each(look, [(at, error, many) for at, call in enumerate(calls) if call[0] in ("open", "read")
                    for error in (errno.EIO, errno.EACCES, errno.EISDIR) for many in (1, 100)])


def test_a_byte_at_a_time():
    """Reads and writes that move a byte each load and save the same bytes."""
    with Faults() as faults:
        _, seen, _ = faults.run({"kept": OLD}, short=1)
        expect_new(seen)
        _, seen, _ = faults.run({"kept": OLD, "snap": NEW}, [], "snap", short=1)
        if seen[:3] != (0, b"", b"") or seen.files != {"kept": NEW, "snap": NEW}:
            raise Wrong(f"{seen[:3]}, {files_shown(seen.files)}")


def test_a_full_disk():
    """Where there is room for only so many bytes, the old text stays, and nothing is left; with more room it is replaced."""
    with Faults() as faults:
        def look(row):
            room, error = row
            _, seen, _ = faults.run({"kept": OLD}, bytes=room, error=error)
            if room >= len(NEW):
                expect_new(seen)
            else:
                expect_fault(seen, REPLIES, {"kept": OLD}, WHY[error])

        rooms = [*range(0, len(NEW), 397), len(NEW) - 1, len(NEW)]
        each(look, [(room, error) for error in (errno.ENOSPC, errno.EDQUOT, errno.EFBIG) for room in rooms])

    def limited(room):
        signal.signal(signal.SIGXFSZ, signal.SIG_IGN)
        resource.setrlimit(resource.RLIMIT_FSIZE, (room, room))

    def under_limit(row):
        name = folder.place(kept=OLD)
        seen = saving(folder, name, preexec_fn=lambda: limited(row[0]))
        if row[0] < len(NEW):
            expect_fault(seen, REPLIES, {"kept": OLD}, WHY[errno.EFBIG])
        else:
            expect_new(seen)

    with Saving(CONFIG) as folder:
        each(under_limit, [(0,), (1,), (100,), (len(NEW) // 2,), (len(NEW) - 1,), (len(NEW),)])


MOUNTED = """mount -t tmpfs -o size=64k tmpfs full && cp old full/kept || exit 99
"$@" --save full/kept <large; echo "status $?"; ls full; cmp old full/kept; "$@" --save full/kept <small; echo "status $?"; ls full; cmp new full/kept"""


def test_a_disk_that_is_full():
    """The same on a disk of 64 KiB, where one may be mounted: a text of 200 KB isn't saved, and then one of 30 KB is."""
    with Saving(CONFIG) as folder:
        for name, size in (("large", 200_000), ("small", 30_000)):
            folder.write(name, create("ann", "m") + b"\n" + put("ann", "ann", "m", file_of("#1=P(1.,'" + "x" * size + "');")) + b"\n")
        folder.write("old", OLD)
        folder.write("new", snapshot([], [model("ann", "m", "#1=P(1.,'" + "x" * 30_000 + "');")]))
        os.mkdir(folder.path("full"))
        alone = ["unshare", "--mount", *(["--map-root-user"] if os.geteuid() else [])]
        done = subprocess.run(["sh", "-c", '"$@"', "sh", *alone, "sh", "-c", MOUNTED, "sh", Folder.program, *BATCH], cwd=folder.folder.name,
                              capture_output=True, check=False)
        if b"status" not in done.stdout:
            print(f"snapshot files: no disk may be mounted here, so the row of one that is full is left out: {done.stderr.decode().strip()}")
            return
        told = OK.decode() + '\n{"ok":{"instances":1}}\n'
        if done.stdout.decode() != f"{told}status 2\nkept\n{told}status 0\nkept\n" or done.stderr != line_of("full/kept", WHY[errno.ENOSPC]):
            raise Wrong(f"{done.stdout!r}, {done.stderr!r}")


# ---- killed

def expect_old_or_new(files, *texts):
    """One of these texts is there whole, and at most what was begun beside it."""
    if files.get("kept") not in texts or not set(files) <= {"kept", "kept.part"}:
        raise Wrong(f"{files_shown(files)} is left")


def test_killed_at_each_call():
    """The old or the new text is there, whole. What was begun may be left, and the next save takes it away."""
    with Faults() as faults:
        left = []

        def look(row):
            files, fault = row[1:]
            name, seen, made = faults.run(files, **fault)
            if seen.status != -signal.SIGKILL:
                raise Wrong(f"it ended with status {seen.status}")
            expect_old_or_new(seen.files, OLD, NEW)
            if (seen.files["kept"] == NEW) != (("rename", "kept.part") in made[:-1]):
                raise Wrong(f"{files_shown(seen.files)} is there after {made}")
            left.append("kept.part" in seen.files)
            expect_new(saving(faults.folder, name))

        for files in ({"kept": OLD}, {"kept": OLD, "kept.part": b"left" * 5000}):
            _, _, calls = faults.run(files)
            rows = [(f"at call {at} of {len(calls)}, {calls[at - 1]}", files, {"at": at}) for at in range(1, len(calls) + 1)]
            rows += [(f"after {count} bytes", files, {"bytes": count}) for count in [*range(0, len(NEW), 211), len(NEW) - 1]]
            each(look, rows)
        if not any(left) or all(left):
            raise Wrong("of all that were killed none left what it had begun, or all did")


# a text of some 4 MB
LARGE = [f"#{k}=P({k}5.E-1,'{'a b c d e f g ' * 8}');" for k in range(1, 30_001)]


def test_killed_at_any_moment():
    """A hundred times, at a random moment of a save: the old or the new text is there, and the next save is whole."""
    chance = random.Random(3)
    old = snapshot([], [model("ann", "m", *LARGE)])
    new = snapshot([], [model("ann", "m", *LARGE), model("ann", "n")])
    counts = collections.Counter()
    with Saving(CONFIG) as folder:
        folder.write("old", old)

        def begun(name):
            process = folder.start(*BATCH, "--load", "old", "--save", f"{name}/kept")
            process.stdin.write(create("ann", "n") + b"\n")
            if process.stdout.readline() != OK + b"\n":
                raise Wrong(f"it doesn't answer: {process.communicate()!r}")
            process.stdin.close()
            return process, time.monotonic()

        def whole():
            """How long a save takes here and now, about."""
            process, begin = begun(folder.place(kept=old))
            with process:
                status = process.wait()
            if status:
                raise Wrong(f"status {status}")
            return time.monotonic() - begin

        seconds = max(whole(), whole())

        def look(row):
            name = folder.place(kept=old)
            process, _ = begun(name)
            with process:
                time.sleep(row[1])
                process.kill()
                status = process.wait()
            files = files_in(folder.path(name))
            expect_old_or_new(files, old, new)
            counts["new" if files["kept"] == new else "old"] += 1
            counts["left"] += "kept.part" in files
            if status == 0 and files != {"kept": new}:
                raise Wrong(f"it ended, and {sorted(files)} are there")
            if row[0] % 10 == 0:
                expect_new(saving(folder, name))
            shutil.rmtree(folder.path(name))

        each(look, [(k, chance.random() * seconds * 1.1) for k in range(100)], 2)
    if min(counts["old"], counts["left"]) < 5:
        raise Wrong(f"of a hundred kills {dict(counts)}: they missed the saves")


# ---- what stands there

def test_what_is_no_file():
    """A symbolic link, one that leads nowhere, a folder, a pipe, a socket and a device are refused before the first line; what they are or
    lead to is as it was."""
    with Saving(CONFIG) as folder:
        name = folder.place(target=OLD)
        place = folder.path(name)
        os.symlink("target", f"{place}/link")
        os.symlink("nowhere", f"{place}/dangling")
        os.mkdir(f"{place}/folder")
        os.mkfifo(f"{place}/pipe")
        with socket.socket(socket.AF_UNIX) as it:
            # (a relative path, since those of sockets are short)
            before = os.getcwd()
            os.chdir(place)
            it.bind("socket")
            os.chdir(before)
        files = files_in(place)
        why = {**dict.fromkeys(("link", "dangling", "folder", "folder/", "pipe", "socket", "."), NO_FILE),
               **dict.fromkeys(("target/", "target/x"), "a part of its path is no folder"), "absent/x": "there is no such folder"}
        for path, it in why.items():
            path = f"{name}/{path}"
            expect_fault(folder.ended(name, *BATCH, "--save", path, text=LINES[0], seconds=20), b"", files, it, path)
        expect_fault(folder.ended(name, *BATCH, "--save", "a\nb/c", text=LINES[0]), b"", files, "there is no such folder", "a\nb/c")
        for path in ("/dev/null", "/dev/full", "/", "/proc/self", "", "."):
            expect_fault(folder.ended(name, *BATCH, "--save", path, text=LINES[0], seconds=20), b"", files, NO_FILE, path)
        if os.path.exists("/dev/null.part") or os.listdir(f"{place}/folder"):
            raise Wrong("something is made beside what is no file")
        # of a path that is too long, and of one whose part would be
        for length in (251, 256):
            path = f"{name}/" + "n" * length
            expect_fault(folder.ended(name, *BATCH, "--save", path, text=LINES[0]), b"", files, "File name too long (os error 36)", path)
        seen = folder.ended(name, *BATCH, "--save", f"{name}/" + "n" * 250, text=LINES[0])
        if seen[:3] != (0, OK + b"\n", b"") or seen.files != {**files, "n" * 250: snapshot([], [model("ann", "m")])}:
            raise Wrong(f"a name of 250 bytes: {seen[:3]}, {sorted(seen.files)}")


def test_what_an_earlier_run_left():
    """What stands where it is begun is removed, and not written over: a longer file that all may read, a link, whose target stays. A folder
    there is a fault."""
    with Saving(CONFIG) as folder:
        name = folder.place(kept=OLD, **{"kept.part": b"x" * 100_000})
        place = folder.path(name)
        os.chmod(f"{place}/kept.part", 0o666)
        expect_new(saving(folder, name))
        name = folder.place(kept=OLD, target=b"target")
        place = folder.path(name)
        os.symlink("target", f"{place}/kept.part")
        seen = saving(folder, name)
        if seen[:3] != (0, REPLIES, b"") or seen.files != {"kept": NEW, "target": b"target"}:
            raise Wrong(f"{seen[:3]}, {files_shown(seen.files)}")
        os.link(f"{place}/target", f"{place}/kept.part")
        seen = saving(folder, name)
        if seen[:3] != (0, REPLIES, b"") or seen.files != {"kept": NEW, "target": b"target"}:
            raise Wrong(f"{seen[:3]}, {files_shown(seen.files)}")
        os.mkdir(f"{place}/kept.part")
        expect_fault(saving(folder, name), b"", {"kept": NEW, "target": b"target", "kept.part": "d"}, "Is a directory (os error 21)")


def mode_of(path):
    return os.stat(path).st_mode & 0o7777


def test_modes_and_other_names():
    """Only its owner may read what is saved, whatever the mask is and what stood there. Another name of what stood there keeps it."""
    with Saving(CONFIG) as folder:
        for mask, mode in ((0, None), (0o22, 0o644), (0, 0o777), (0o777, 0o400), (0o22, 0o000)):
            name = folder.place(**({} if mode is None else {"kept": OLD}))
            place = folder.path(f"{name}/kept")
            if mode is not None:
                os.chmod(place, mode)
                os.link(place, folder.path(f"{name}/other"))
            seen = saving(folder, name, preexec_fn=lambda mask=mask: os.umask(mask))
            files = {"kept": NEW, **({} if mode is None else {"other": OLD})}
            if seen[:3] != (0, REPLIES, b"") or seen.files != files or mode_of(place) != 0o600 & ~mask:
                raise Wrong(f"mask {mask:o}: {seen[:3]}, {sorted(seen.files)}, mode {mode_of(place):o}")


def test_paths():
    """From the working directory, from the root, through a folder that is a link, and with points and slashes."""
    with Saving(CONFIG) as folder:
        name = folder.place()
        place = folder.path(name)
        os.symlink(name, folder.path("linked"))
        for path in (f"{name}/kept", f"./{name}/kept", f"{name}//kept", f"{name}/./kept", f"{name}/../{name}/kept", f"{place}/kept", "linked/kept"):
            expect_new(folder.ended(name, *BATCH, "--save", path, text=b"".join(it + b"\n" for it in LINES)))
            os.remove(f"{place}/kept")
        seen = folder.ended(".", *BATCH, "--save", "kept here", text=b"".join(it + b"\n" for it in LINES))
        if seen[:3] != (0, REPLIES, b"") or seen.files["kept here"] != NEW or "kept here.part" in seen.files:
            raise Wrong(f"{seen[:3]}, {sorted(seen.files)}")


# ---- who may

def another():
    """Who else runs the program, where this one may write everywhere."""
    return {"user": 65_534, "group": 65_534, "extra_groups": []} if os.geteuid() == 0 else {}


def as_another(folder, *words):
    """How a run of another ended."""
    done = subprocess.run([folder.path("program"), *BATCH, *words], cwd=folder.folder.name, input=b"".join(it + b"\n" for it in LINES),
                          capture_output=True, check=False, **another())
    return done.returncode, done.stdout, done.stderr


def test_who_may_not():
    """In a folder that may not be written, or not be searched, nothing is begun. Where the folder may be written, what another one's file
    stood for is replaced, and is one's own. What may not be read isn't loaded."""
    with Saving(CONFIG) as folder:
        shutil.copy(Folder.program, folder.path("program"))
        for it, mode in ((".", 0o755), ("program", 0o755), ("config.json", 0o644), ("t.exp", 0o644)):
            os.chmod(folder.path(it), mode)
        for mode in (0o555, 0o444, 0o000):
            name = folder.place(kept=OLD)
            os.chmod(folder.path(f"{name}/kept"), 0o666)
            if os.geteuid() == 0:
                os.chown(folder.path(name), 65_534, 65_534)
            os.chmod(folder.path(name), mode)
            seen = as_another(folder, "--save", f"{name}/kept")
            os.chmod(folder.path(name), 0o755)
            files = files_in(folder.path(name))
            if seen != (2, b"", line_of(f"{name}/kept", WHY[errno.EACCES])) or files != {"kept": OLD}:
                raise Wrong(f"folder {mode:o}: {seen}, {files}")
        name = folder.place(kept=OLD, snap=NEW)
        os.chmod(folder.path(name), 0o777)
        seen = as_another(folder, "--save", f"{name}/kept")
        files = files_in(folder.path(name))
        if seen != (0, REPLIES, b"") or files != {"kept": NEW, "snap": NEW} or mode_of(folder.path(f"{name}/kept")) != 0o600:
            raise Wrong(f"a folder that all may write: {seen}, {sorted(files)}")
        os.chmod(folder.path(f"{name}/snap"), 0o200)
        seen = as_another(folder, "--load", f"{name}/snap", "--save", f"{name}/kept")
        line = f"rp_server: {shown(f'{name}/snap')} can't be read: permission is denied\n".encode()
        if seen != (2, b"", line) or files_in(folder.path(name)) != {"kept": NEW, "snap": NEW}:
            raise Wrong(f"a snapshot that may not be read: {seen}")


def test_what_cant_be_loaded():
    """It is told why. What a link leads to is loaded, and so is a pipe."""
    folders = "a part of its path is no folder"
    rows = [("absent", "there is no such file"), ("", "there is no such file"), ("sub/absent", "there is no such file"), (".", "it is a folder"),
            ("sub", "it is a folder"), ("snap/", folders), ("snap/x", folders), ("x" * 256, "its path is too long"), ("circle", "its links lead in a circle"),
            ("a\nb", "there is no such file"), ('"', "there is no such file")]
    with Saving(CONFIG) as folder:
        folder.write("snap", NEW)
        os.mkdir(folder.path("sub"))
        os.symlink("circle", folder.path("circle"))
        os.symlink("snap", folder.path("link"))
        for path, why in rows:
            name = folder.place(kept=OLD)
            seen = folder.ended(name, *BATCH, "--load", path, "--save", f"{name}/kept", text=LINES[0])
            if seen[:3] != (2, b"", f"rp_server: {shown(path)} can't be read: {why}\n".encode()) or seen.files != {"kept": OLD}:
                raise Wrong(f"{path}: {seen[:3]}, {seen.files}")
        name = folder.place()
        expect_new(folder.ended(name, *BATCH, "--load", "link", "--save", f"{name}/kept"), replies=b"")
        os.mkfifo(folder.path("pipe"))
        name = folder.place()
        with subprocess.Popen(["sh", "-c", "cat snap >pipe"], cwd=folder.folder.name):
            expect_new(folder.ended(name, *BATCH, "--load", "pipe", "--save", f"{name}/kept", seconds=20), replies=b"")


# ---- two at once

def test_two_at_once():
    """Of two runs that replace one file the later takes the place where it is begun; the other one saves nothing, and takes nothing away."""
    with Saving(CONFIG) as folder:
        name = folder.place(kept=OLD)
        part = folder.path(f"{name}/kept.part")
        with folder.start(*BATCH, "--save", f"{name}/kept") as one:
            if not until(lambda: os.path.exists(part)):
                raise Wrong("nothing is begun")
            before = os.stat(part).st_ino
            with folder.start(*BATCH, "--save", f"{name}/kept") as other:
                if not until(lambda: os.path.exists(part) and os.stat(part).st_ino != before):
                    raise Wrong("nothing is begun anew")
                _, errors = one.communicate(create("ann", "lost") + b"\n")
                if (one.returncode, errors) != (2, line_of(f"{name}/kept", TAKEN)) or files_in(folder.path(name)) != {"kept": OLD, "kept.part": b""}:
                    raise Wrong(f"the first ends with status {one.returncode}, {errors!r}, {files_in(folder.path(name))}")
                output, errors = other.communicate(b"".join(it + b"\n" for it in LINES))
        if (other.returncode, output, errors) != (0, REPLIES, b"") or files_in(folder.path(name)) != {"kept": NEW}:
            raise Wrong(f"the second ends with status {other.returncode}, {errors!r}, {files_shown(files_in(folder.path(name)))}")


def test_what_changes_meanwhile():
    """The file becomes a folder, its folder is removed, or another one stands in its place, between the begin and the end: nothing is saved
    then, and nothing is lost."""

    def meanwhile(change, why=TAKEN):
        name = folder.place(kept=OLD)
        place = folder.path(name)
        with folder.start(*BATCH, "--save", f"{name}/kept") as process:
            if not until(lambda: os.path.exists(f"{place}/kept.part")):
                raise Wrong("nothing is begun")
            change(place)
            output, errors = process.communicate(LINES[0] + b"\n")
        if (process.returncode, output, errors) != (2, OK + b"\n", line_of(f"{name}/kept", why)):
            raise Wrong(f"status {process.returncode}, {output!r}, {errors!r}")
        return place

    def folder_there(place):
        os.remove(f"{place}/kept")
        os.mkdir(f"{place}/kept")

    def moved(place):
        os.rename(place, f"{place}-moved")
        os.mkdir(place)

    with Saving(CONFIG) as folder:
        if files_in(meanwhile(folder_there, "Is a directory (os error 21)")) != {"kept": "d"}:
            raise Wrong("something is left beside the folder")
        if os.path.exists(meanwhile(shutil.rmtree)):
            raise Wrong("the folder is there again")
        place = meanwhile(moved)
        files = files_in(f"{place}-moved")
        if os.listdir(place) or files.pop("kept") != OLD or set(files) - {"kept.part"}:
            raise Wrong(f"{files_in(place)}, {sorted(files)}")
        if files_in(meanwhile(lambda place: os.remove(f"{place}/kept.part"))) != {"kept": OLD}:
            raise Wrong("it is saved though what was begun is gone")


# ---- memory

SMALL = Schema("S", {}, {"e": Entity({"a": "e"}, optional=["a"])})
HELD = [create("ann", "m", "S"), put("ann", "ann", "m", file_of("#1=E($);#2=E(#1);", "S")), grant("ann", "m", "bob", "write"),
        create_group("ann", "g", "S"), include("ann", "g", "ann", "m"), create("bob", "b", "S"),
        put("bob", "bob", "b", file_of("#1=E(#9);", "S"), link(9, "ann", "m", 1))]
ASKED = [names("ann", "ann", "m"), add("bob", "ann", "m", "E(#2)"), create("bob", "c", "S"), list_of("bob")]


def plain(lines):
    """The plain repository behind these lines."""
    repository = PlainRepository(["ann", "bob"], [SMALL], read, read_mapping, None)
    for it in lines:
        _, change = repository.step(it)
        if change:
            change()
    return repository


def told_and_saved(repository, replies):
    """What is to be saved where these lines got these replies, each the exact one or NoMemory; and how many got NoMemory."""
    repository, count = copy.deepcopy(repository), 0
    for asked, reply in zip(ASKED, replies):
        if reply == NO_MEMORY:
            count += 1
            continue
        wanted, change = repository.step(asked)
        if reply != wanted:
            raise Wrong(f"{asked!r} is answered {reply!r} in place of {wanted!r} or NoMemory")
        if change:
            change()
    return snapshot_of(repository), count


def test_each_refusal_of_memory():
    """Each allocation of a run that loads and saves is refused, alone and with all behind it: what is asked is answered or NoMemory, and saved
    accordingly; or the run ends with status 2 and one line, before the first line or behind the last, and saves nothing."""
    before = plain(HELD)
    data = snapshot_of(before)
    seen = collections.Counter()
    with Saving({**CONFIG, "schemas": ["s.exp"]}, s="SCHEMA S; ENTITY e; a : OPTIONAL e; END_ENTITY; END_SCHEMA;") as folder:
        shim_in(folder.folder.name)
        folder.write("snap", data)
        top = folder.folder.name
        alone = run(Folder.program, top, ASKED)
        load = ["--load", "snap"]

        def one(**refusal):
            name = folder.place(kept=OLD)
            done = run(Folder.program, top, ASKED, [*BATCH, *load, "--save", f"{name}/kept"], **refusal)
            return done, files_in(folder.path(name))

        whole, files = one()
        if whole.status or whole.errors or files != {"kept": told_and_saved(before, whole.output.split(b"\n")[:-1])[0]}:
            raise Wrong(f"without a refusal: {whole}, {files_shown(files)}")

        def look(row):
            key, at = row
            done, files = one(**{key: str(at)})
            replies = done.output.split(b"\n")[:-1]
            if not done.refusals:
                raise Wrong("nothing is refused")
            if done.status == 2 and LINE.fullmatch(done.errors) and files == {"kept": OLD} and len(replies) in (0, len(ASKED)):
                told_and_saved(before, replies)
                seen["before" if not replies else "behind"] += 1
                return
            if len(replies) != len(ASKED) or done.status or done.errors:
                raise Wrong(f"status {done.status}, {done.output!r}, {done.errors!r}, {files_shown(files)}")
            saved, count = told_and_saved(before, replies)
            if files != {"kept": saved} or count > done.refusals:
                raise Wrong(f"{done.output!r}, and {difference(files.get('kept'), saved)} is saved, {sorted(files)}")
            seen["saved"] += 1

        first = max(1, alone.before_input - 40)
        each(look, [(key, at) for key in ("REFUSE_NTH", "REFUSE_FROM") for at in range(first, whole.allocations + 1)])
    if min(seen["before"], seen["behind"], seen["saved"]) < 5:
        raise Wrong(f"of {whole.allocations} allocations, {alone.before_input} of them before a run that loads nothing reads: {dict(seen)}")


def test_limits_of_memory():
    """Under a limit of its address space a snapshot that has no room isn't loaded, and what has none when it is written isn't saved, though
    all lines were answered; what was saved before is there."""
    def limited():
        resource.setrlimit(resource.RLIMIT_AS, (112 * MIB, 112 * MIB))

    with Saving(CONFIG) as folder:
        folder.write("snap", snapshot([], [model("ann", f"m{k}", "#1=P(1.,'" + "x" * (10 * MIB) + "');") for k in range(6)]))
        name = folder.place(kept=OLD)
        seen = saving(folder, name, None, LINES, "--load", "snap", preexec_fn=limited)
        if seen[:3] != (2, b"", b"rp_server: out of memory\n") or seen.files != {"kept": OLD}:
            raise Wrong(f"{seen[:3]}, {files_shown(seen.files)}")
        # (each of the other letters takes 16 bytes of what is saved)
        lines = [create("ann", "m"), put("ann", "ann", "m", file_of("#1=P(1.,'" + "aé" * (FILE_LIMIT // 3 - 1000) + "');")), list_of("bob")]
        seen = saving(folder, name, None, lines, preexec_fn=limited)
        expect_fault(seen, replies_of([OK, instances(1), listed()]), {"kept": OLD}, "out of memory")
        expect_new(saving(folder, name, preexec_fn=limited))


if __name__ == "__main__":
    run_tests("snapshot files", globals(), sys.argv[1:])
