#!/usr/bin/env python3
"""Runs `rp_server serve` with `--save`: what is saved while it serves, when, and what is there after a restart.

    tests/snapshot_serving.py [PROGRAM]

What takes a minute is tested side by side. tools/file_faults.c has saves take longer than they do. The last line is 'snapshot serving:
N passed, M failed', and the status is 0 only if none failed.
"""
import contextlib
import errno
import functools
import os
import re
import select
import shutil
import signal
import stat
import subprocess
import sys
import tempfile
import threading
import time
from concurrent.futures import ThreadPoolExecutor

from lib.harness import TOP, Folder, LeftOut, Wrong, run_tests, take_program
from lib.messages import (
    CONFIG, EXISTS, NO_SUCH_ITEM, OK, add, added, canonical, create, create_group, export, exported, file_of, got, grant, include, instances, link,
    list_of, listed, named, names, put,
)
from lib.messages import get as get_instance
from lib.plain_http import answer
from lib.plain_snapshots import compact, group, model, snapshot
from lib.saving import OLD, difference, files_in, until
from lib.serving import Client, Server, as_post, get

sys.path.insert(0, os.path.join(TOP, "tools"))

from each_refusal import NO_MEMORY, shim_in  # noqa: E402

ONE_SCHEMA = {**CONFIG, "schemas": ["t.exp"]}
DONE = answer(OK)
EMPTY = snapshot()
ASKED = get("/v1/schemas")
SCHEMAS = answer(b'{"ok":{"schemas":["T"]}}')
# how soon a change is saved, and how long after a save the next one may begin and has to be done
SOON, NOT_BEFORE, BY = 2, 58, 65
LINE = re.compile(rb"rp_server: [^\n]+\n")


class Place:
    """A folder in which servers save, one after the other."""

    def __init__(self, **files):
        self.folder = tempfile.TemporaryDirectory()
        self.kept = os.path.join(self.folder.name, "kept")
        for name, text in files.items():
            self.write(name, text)

    def __enter__(self):
        return self

    def __exit__(self, *_):
        self.folder.cleanup()

    def path(self, name):
        return os.path.join(self.folder.name, name)

    def write(self, name, text):
        with open(self.path(name), "wb") as it:
            it.write(text)

    def serve(self, *words, loads=False, config=ONE_SCHEMA, env=None, **given):
        load = ["--load", self.kept] if loads else []
        more = {"env": {**os.environ, **env}} if env else {}
        return Server(*load, "--save", self.kept, *words, config=config, **more, **given)

    def slow(self, seconds, *words, **given):
        """A server whose saves take so many seconds."""
        env = {"LD_PRELOAD": shim_in(self.folder.name, "file_faults"), "FAULT_IN": os.path.basename(self.folder.name), "FAULT_SLOW": str(seconds)}
        return self.serve(*words, env=env, **given)

    def files(self):
        return {name: it for name, it in files_in(self.folder.name).items() if not name.endswith(".so")}

    def saved(self):
        """What is saved, if anything is."""
        try:
            with open(self.kept, "rb") as it:
                return it.read()
        except FileNotFoundError:
            return None

    def identity(self):
        """Another one once it was saved anew."""
        found = os.stat(self.kept)
        return found.st_ino, found.st_mtime_ns

    def expect(self, data):
        """This is there, whole, and nothing beside it."""
        if self.files() != ({} if data is None else {"kept": data}):
            raise Wrong(f"{sorted(self.files())} are there, and {difference(self.saved(), data or b'')} is saved")

    def expect_soon(self, data, seconds=SOON):
        if not until(lambda: os.path.exists(self.kept) and os.stat(self.kept).st_size == len(data) and self.saved() == data, seconds):
            raise Wrong(f"after {seconds} s {difference(self.saved(), data)} is saved")

    def expect_still(self, data, end):
        """This stays there until then."""
        while time.monotonic() < end:
            if self.saved() != data:
                raise Wrong(f"{end - time.monotonic():.1f} s too soon {difference(self.saved(), data or b'')} is saved")
            time.sleep(0.05)


def told(server):
    """What the program wrote on standard error since."""
    seen = b""
    while select.select([server.process.stderr], [], [], 0)[0]:
        piece = os.read(server.process.stderr.fileno(), 4096)
        if not piece:
            break
        seen += piece
    return seen


def ask(server, *turns, token=None):
    """Asks each over a connection of its own."""
    for asked, reply in turns:
        with Client(server) as client:
            client.ask(as_post(asked), answer(reply))


def models(*held):
    """The snapshot of models of ann's."""
    return snapshot([], [model("ann", name) for name in held])


def listing(*held):
    return listed(*((b"owner", name.encode(), b"ann") for name in held))


def changes(stays_silent):
    """Two changes over a connection that stays open, and what is there after it is killed."""
    with Place() as place:
        with place.serve() as server, Client(server) as client:
            place.expect(None)
            client.ask(as_post(list_of("ann")) + as_post(names("ann", "ann", "m")), answer(listing()) + answer(NO_SUCH_ITEM))
            place.expect_still(None, time.monotonic() + 1)
            client.ask(as_post(create("ann", "m")), DONE)
            place.expect_soon(models("m"))
            saved = time.monotonic()
            place.expect(models("m"))
            if stat.S_IMODE(os.stat(place.kept).st_mode) != 0o600:
                raise Wrong(f"it has the mode {os.stat(place.kept).st_mode:o}")
            client.ask(as_post(add("ann", "ann", "m", "P(1.,$)")), answer(added(1)))
            for k in range(1, 12):
                place.expect_still(models("m"), saved + NOT_BEFORE * k / 11)
                if not stays_silent:
                    client.ask(ASKED, SCHEMAS)
            data = snapshot([], [model("ann", "m", "#1=P(1.,$);")])
            place.expect_soon(data, saved + BY - time.monotonic())
            place.expect(data)
            if not stays_silent:
                client.ask(ASKED, SCHEMAS)
        with place.serve(loads=True) as server:
            place.expect(data)
            ask(server, (list_of("ann"), listing("m")), (get_instance("ann", "ann", "m", 1), got("#1=P(1.,$);")), (create("ann", "m"), EXISTS))
            place.expect_still(data, time.monotonic() + 1)
            ask(server, (add("ann", "ann", "m", "P(2.,$)"), added(2)))
            place.expect_soon(snapshot([], [model("ann", "m", "#1=P(1.,$);", "#2=P(2.,$);")]))


def reading():
    """What changes nothing saves nothing, not at first and not a minute after a save."""
    data = snapshot([group("ann", "g", members=[["ann", "m"]])], [model("ann", "m", "#1=P(1.,$);"), model("ann", "n")])
    asked = [(list_of("ann"), listed((b"owner", b"m", b"ann"), (b"owner", b"n", b"ann"), groups=[(b"owner", b"g", b"ann")])),
             (names("ann", "ann", "m"), named((1, "P"))), (create("ann", "m"), EXISTS), (names("bob", "ann", "m"), NO_SUCH_ITEM),
             (export("ann", "ann", "m"), exported(canonical("#1=P(1.,$);")))]
    with Place(kept=data) as place:
        before = place.identity()
        with place.serve(loads=True) as server:
            for _ in range(10):
                ask(server, *asked)
                with Client(server) as client:
                    client.ask(ASKED + get("/v1/models/ann/m") + as_post(list_of("bob")), SCHEMAS + answer(named((1, "P"))) + answer(listed()))
                time.sleep(0.3)
            if place.identity() != before:
                raise Wrong("it is saved though nothing was changed")
            ask(server, (create("bob", "b"), OK))
            then = data[:-2] + b",%s]}" % compact(model("bob", "b"))
            place.expect_soon(then)
            before, end = place.identity(), time.monotonic() + 64
            while time.monotonic() < end:
                ask(server, *asked)
                time.sleep(1)
            if place.identity() != before:
                raise Wrong("it is saved again though nothing was changed since")
            place.expect(then)


def failing(prepare, repair, **given):
    """While it can't be saved one line tells so, requests are answered, and what failed is tried again a minute later."""
    with Place(kept=OLD) as place:
        os.chmod(place.folder.name, 0o777)
        with place.serve(**given) as server:
            prepare(place)
            before = place.files()
            ask(server, (create("ann", "m"), OK))
            if not until(lambda: select.select([server.process.stderr], [], [], 0)[0], SOON):
                raise Wrong("nothing is told of a save that fails")
            failed = time.monotonic()
            time.sleep(0.1)
            lines = told(server)
            if not LINE.fullmatch(lines) or place.kept.encode() not in lines or b"can't be saved" not in lines:
                raise Wrong(f"{lines!r} is told")
            for k in range(20):
                ask(server, (create("ann", f"m{k}"), OK), (list_of("ann"), listing(*sorted(["m", *(f"m{n}" for n in range(k + 1))]))))
            time.sleep(20)
            if told(server) or place.files() != before:
                raise Wrong("more is told, or something changes before the next save is due")
            repair(place)
            place.expect_still(OLD, failed + NOT_BEFORE)
            data = models(*sorted(["m", *(f"m{n}" for n in range(20))]))
            place.expect_soon(data, failed + BY - time.monotonic())
            place.expect(data)
            ask(server, (create("ann", "n"), OK))


def failing_by_a_folder():
    """A folder stands where the new text is begun."""
    failing(lambda place: os.makedirs(place.path("kept.part/x")), lambda place: os.removedirs(place.path("kept.part/x")))


def failing_by_rights():
    """The folder may not be written any more. Who may write everywhere has another run the program."""
    if os.geteuid():
        failing(lambda place: os.chmod(place.folder.name, 0o555), lambda place: os.chmod(place.folder.name, 0o777))
        return

    def prepare(place):
        os.chown(place.kept, 65_534, 65_534)
        os.chmod(place.folder.name, 0o555)

    def as_another():
        os.chmod(".", 0o755)
        os.setgroups([])
        os.setgid(65_534)
        os.setuid(65_534)

    with tempfile.TemporaryDirectory() as folder:
        os.chmod(folder, 0o755)
        program = shutil.copy(Folder.program, folder)
        os.chmod(program, 0o755)
        failing(prepare, lambda place: os.chmod(place.folder.name, 0o777), program=program, preexec_fn=as_another)


def deadlines():
    """The time that a save takes counts for no deadline, and ten times of it pass before the next."""
    with Place() as place, place.slow(35) as server:
        idle, half, busy = Client(server), Client(server), Client(server, seconds=60)
        silent = [Client(server) for _ in range(100)]
        idle.ask(ASKED, SCHEMAS)
        begin = time.monotonic()
        half.send(ASKED[:-1])
        time.sleep(0.5)
        busy.ask(as_post(create("ann", "m")), DONE)
        if not until(lambda: os.path.exists(place.path("kept.part")), SOON):
            raise Wrong("no save is begun")
        busy.ask(ASKED, SCHEMAS)
        if time.monotonic() < begin + 35:
            raise Wrong("it answers while it saves")
        place.expect_soon(models("m"))
        # the head was begun longer ago than a head may take
        half.ask(ASKED[-1:], SCHEMAS)
        for it in silent:
            it.ask(ASKED, SCHEMAS)
        busy.ask(as_post(create("ann", "n")), DONE)
        time.sleep(max(0, begin + 70 - time.monotonic()))
        # and nothing moved here for longer than nothing may
        idle.ask(ASKED, SCHEMAS)
        place.expect(models("m"))


def ten_times():
    """A save of seven seconds is followed by the next no sooner than seventy seconds later."""
    with Place() as place, place.slow(7) as server:
        ask(server, (create("ann", "m"), OK))
        place.expect_soon(models("m"), 15)
        saved = time.monotonic()
        ask(server, (create("ann", "n"), OK))
        place.expect_still(models("m"), saved + 64)


def another_server():
    """A second one of the same address ends with status 2, and leaves what is there; so it does with another address that isn't there."""
    with Place() as place, place.serve() as server:
        ask(server, (create("ann", "m"), OK))
        place.expect_soon(models("m"))
        before = place.identity()
        address = f"{server.address[0]}:{server.address[1]}"
        for listen in (address, "192.0.2.1:9"):
            done = subprocess.run([Folder.program, "serve", "--config", "config.json", "--listen", listen, "--save", place.kept],
                                  cwd=server.folder.folder.name, stdin=subprocess.DEVNULL, capture_output=True, timeout=20, check=False)
            line = re.escape(f"rp_server: {listen} can't be listened on: ".encode()) + rb"[^\n]+\n"
            if (done.returncode, done.stdout) != (2, b"") or not re.fullmatch(line, done.stderr):
                raise Wrong(f"status {done.returncode}, {done.stdout!r}, {done.stderr!r}")
            place.expect(models("m"))
            if place.identity() != before:
                raise Wrong("what was saved is another file")
        ask(server, (list_of("ann"), listing("m")))


def counted_connections():
    """With `--connections` it is saved at the end alone, also where nothing was changed; what isn't saved then is status 2."""
    with Place(kept=OLD) as place:
        with place.serve("--connections", "3") as server:
            with Client(server) as stays:
                stays.ask(as_post(create("ann", "m")), DONE)
                ask(server, (create("ann", "n"), OK))
                place.expect_still(OLD, time.monotonic() + 3)
                ask(server, (create("ann", "o"), OK))
                place.expect(OLD)
                stays.ask(ASKED, SCHEMAS)
            server.expect_ended()
        place.expect(models("m", "n", "o"))
        with place.serve("--connections", "1", loads=True) as server:
            before = place.identity()
            ask(server, (list_of("ann"), listing("m", "n", "o")))
            server.expect_ended()
        place.expect(models("m", "n", "o"))
        if place.identity() == before:
            raise Wrong("it isn't saved at the end where nothing was changed")
        with place.serve("--connections", "1", loads=True) as server:
            os.mkdir(place.path("kept.part"))
            ask(server, (create("ann", "p"), OK))
            server.expect_ended(2, re.compile(rb"rp_server: [^\n]*kept[^\n]* can't be saved: [^\n]+\n"))
        os.rmdir(place.path("kept.part"))
        place.expect(models("m", "n", "o"))
        # an end by a fault is followed by no save
        env = {"LD_PRELOAD": shim_in(place.folder.name, "fail"), "FAIL_ACCEPT": "2", "FAIL_ERROR": str(errno.EBADF)}
        with place.serve("--connections", "3", loads=True, env=env) as server:
            with Client(server) as client:
                client.ask(as_post(create("ann", "p")), DONE)
                with contextlib.suppress(OSError):
                    Client(server).socket.close()
                server.expect_ended(2, re.compile(rb"rp_server: connections can't be accepted[^\n]*\n"))
        place.expect(models("m", "n", "o"))


def end_of_input():
    """With `--until-input-ends` it is saved while it serves, and at the end of standard input at once."""
    with Place() as place:
        with place.serve("--until-input-ends", stdin=subprocess.PIPE) as server, Client(server) as client:
            client.ask(as_post(create("ann", "m")), DONE)
            place.expect_soon(models("m"))
            client.ask(as_post(create("ann", "n")), DONE)
            place.expect_still(models("m"), time.monotonic() + 1)
            client.send(as_post(create("ann", "o")) + ASKED[:-1])
            client.expect(DONE)
            server.expect_ended()
        place.expect(models("m", "n", "o"))
        with place.serve("--until-input-ends", "--connections", "2", loads=True, stdin=subprocess.PIPE) as server:
            ask(server, (create("ann", "p"), OK))
            place.expect_still(models("m", "n", "o"), time.monotonic() + 3)
            server.expect_ended()
        place.expect(models("m", "n", "o", "p"))
        with place.serve("--until-input-ends", loads=True) as server:
            # (whose input is at its end from the start)
            server.expect_ended()
        place.expect(models("m", "n", "o", "p"))


def killed():
    """Killed while it saves, or ended by a signal, the old text is there; the next server takes away what was begun."""
    with Place(kept=models("m")) as place:
        with place.slow(20, loads=True) as server:
            ask(server, (create("ann", "n"), OK))
            if not until(lambda: (place.files().get("kept.part") or b"") == models("m", "n"), 10):
                raise Wrong(f"{place.files()} is there while it saves")
            server.kill()
        if place.files() != {"kept": models("m"), "kept.part": models("m", "n")}:
            raise Wrong(f"{place.files()} is left")
        with place.serve(loads=True) as server:
            place.expect(models("m"))
            ask(server, (create("ann", "o"), OK))
            place.expect_soon(models("m", "o"))
            ask(server, (create("ann", "p"), OK))
            server.process.send_signal(signal.SIGTERM)
            server.expect_ended(-signal.SIGTERM)
        place.expect(models("m", "o"))


def large():
    """A repository of 12 MB: it is loaded, a change is saved, silent connections outlive that, and others are answered behind it."""
    text = canonical(*(f"#{k}=P({k}5.E-1,'{'a' * 60}');" for k in range(1, 30_001)))
    held = [model("ann", f"m{k}", file=text, greatest=30_000) for k in range(5)]
    data = snapshot([], held)
    with Place(kept=data) as place, place.serve(loads=True) as server:
        silent = [Client(server, seconds=60) for _ in range(200)]
        before = place.identity()
        with Client(server, seconds=60) as client:
            client.ask(as_post(create("ann", "n")), DONE)
            client.ask(ASKED, SCHEMAS)
        place.expect_soon(snapshot([], [*held, model("ann", "n")]), 30)
        if place.identity() == before:
            raise Wrong("it is the same file")
        for it in silent:
            it.ask(ASKED, SCHEMAS)
        last = f"#30000=P(300005.E-1,'{'a' * 60}');"
        ask(server, (names("ann", "ann", "n"), named()), (get_instance("ann", "ann", "m4", 30_000), got(last)))


def many():
    """Changes of several partners over many connections: what is there in the end is what was answered."""
    with Place() as place:
        with place.serve("--until-input-ends", stdin=subprocess.PIPE) as server, ThreadPoolExecutor(16) as pool:
            def work(k):
                who = ("ann", "bob")[k % 2]
                ask(server, (create(who, f"m{k:02}"), OK), *((add(who, who, f"m{k:02}", f"P({n}.,$)"), added(n)) for n in range(1, 4)))

            list(pool.map(work, range(60)))
            with Client(server) as client:
                for asked in (grant("ann", "m00", "bob", "group"), create_group("bob", "g"), include("bob", "g", "ann", "m00")):
                    client.ask(as_post(asked), DONE)
                client.ask(as_post(put("bob", "bob", "m01", file_of("#1=Q(#7);"), link(7, "ann", "m00", 2))), answer(instances(1)))
            server.expect_ended()
        lines = [f"#{n}=P({n}.,$);" for n in range(1, 4)]
        hers = [model("ann", f"m{k:02}", *lines) for k in range(0, 60, 2)]
        his = [model("bob", f"m{k:02}", *lines) for k in range(1, 60, 2)]
        hers[0]["grants"] = [["bob", "group"]]
        his[0] = model("bob", "m01", "#1=Q(#7);", links=[link(7, "ann", "m00", 2)], greatest=7)
        data = snapshot([group("bob", "g", members=[["ann", "m00"]])], [*hers, *his])
        place.expect(data)
        with place.serve("--connections", "1", loads=True) as server:
            with Client(server) as client:
                client.ask(get("/v1/groups/bob/g", token="tb"), answer(b'{"ok":{"members":[{"counts":true,"model":"m00","owner":"ann"}]}}'))
            server.expect_ended()
        place.expect(data)


def busy():
    """It is saved as soon though requests come without a pause, one after the other and many at once."""
    with Place() as place, place.serve() as server, ThreadPoolExecutor(4) as pool:
        stop = threading.Event()

        def work(many):
            with Client(server) as client:
                while not stop.is_set():
                    client.ask(ASKED * many, SCHEMAS * many)

        working = [pool.submit(work, many) for many in (1, 1, 50, 1000)]
        try:
            time.sleep(0.5)
            ask(server, (create("ann", "m"), OK))
            place.expect_soon(models("m"))
        finally:
            stop.set()
        for it in working:
            it.result()
        place.expect(models("m"))


# ---- memory

def one_reply(server, asked):
    """The reply, or None where the connection ends without a byte of it."""
    with Client(server) as client:
        try:
            client.socket.sendall(asked)
            first = client.socket.recv(1)
        except (BrokenPipeError, ConnectionResetError):
            return None
        return first + client.reply() if first else None


def create_each(server, place, names_of_models):
    """Creates models one after the other, the second once the first is saved or a save has failed: what may be held then."""
    held = [()]
    for name in names_of_models:
        reply = one_reply(server, as_post(create("ann", name)))
        if reply not in (DONE, NONE_LEFT, None):
            raise Wrong(f"{reply!r} is answered")
        held = [*(held if reply != DONE else []), *([(*it, name) for it in held] if reply != NONE_LEFT else [])]
        if reply == DONE and not until(lambda: place.saved() or select.select([server.process.stderr], [], [], 0)[0], 10):
            raise Wrong("a change is neither saved, nor is it told that it can't be")
    return held


def session(shim, names_of_models=("m", "n"), may_end=False, more=(), **refusal):
    """Creates models and ends the input: what is saved in the end is what was answered, or the end is a fault and what was saved before is
    there. Answers how many lines told of a save that failed."""
    env = {"LD_PRELOAD": shim, **{name: str(it) for name, it in refusal.items()}}
    with Place() as place, place.serve("--until-input-ends", stdin=subprocess.PIPE, env=env, pass_fds=more) as server:
        try:
            held = create_each(server, place, names_of_models)
        except (ConnectionRefusedError, ConnectionResetError):
            # (who connects as it ends is reset)
            if not may_end:
                raise Wrong("it ended") from None
            held = [()]
        output, errors = server.process.communicate(timeout=60)
        server.is_over = True
        server.folder.__exit__()
        lines, status = errors.split(b"\n")[:-1], server.process.returncode
        if output or any(not UNSAVED.fullmatch(it) for it in lines if it != b"rp_server: out of memory"):
            raise Wrong(f"{output!r}, {errors!r}")
        may = [models(*it) for it in held] if status == 0 else [None, EMPTY, *(models(*it[:k]) for it in held for k in (1, 2))]
        if status not in (0, 2) or status and not lines or place.files() not in [{} if it is None else {"kept": it} for it in may]:
            raise Wrong(f"status {status}, {errors!r}, {place.files()}")
        return len(lines)


NONE_LEFT = answer(NO_MEMORY)
UNSAVED = re.compile(rb"rp_server: [^\n]*kept[^\n]* can't be saved: [^\n]+")


def counted(shim, names_of_models):
    """How many allocations such a session makes."""
    with tempfile.TemporaryFile() as report:
        session(shim, names_of_models, more=(report.fileno(),), REFUSE_REPORT=report.fileno())
        report.seek(0)
        return int(report.read().split()[0])


def refusals():
    """Each allocation from the first connection on is refused, alone, and at times with all behind it."""
    time.sleep(10)
    with tempfile.TemporaryDirectory() as folder, ThreadPoolExecutor(2) as pool:
        shim = shim_in(folder)
        before, whole = counted(shim, ()), counted(shim, ("m", "n"))

        def one(row):
            key, at = row
            try:
                return session(shim, may_end=at <= before, **{key: at})
            except Wrong as fault:
                # (before it listens it may end with status 2)
                return 0 if at <= before and "doesn't listen" in str(fault) else f"{key}={at} of {whole}: {fault}"

        first = max(1, before - 40)
        seen = list(pool.map(one, [(key, at) for key, step in (("REFUSE_NTH", 1), ("REFUSE_FROM", 5)) for at in range(first, whole + 1, step)]))
    faults = [it for it in seen if isinstance(it, str)]
    if faults:
        raise Wrong("\n  ".join([f"{len(faults)} refusals:", *faults[:20]]))
    if sum(it == 1 for it in seen) < 5:
        raise Wrong(f"of {len(seen)} refusals {sum(it == 1 for it in seen)} made a save fail")


# ---- running them side by side

PARTS = {
    "changes": functools.partial(changes, False), "changes in silence": functools.partial(changes, True), "reading": reading,
    "by a folder": failing_by_a_folder, "by rights": failing_by_rights, "refusals": refusals, "deadlines": deadlines, "ten times": ten_times,
    "another": another_server, "counted": counted_connections, "end of input": end_of_input, "killed": killed, "large": large, "many": many, "busy": busy,
}


@functools.lru_cache(maxsize=None)
def begun(name):
    """A part that runs beside the others, from its first mention on."""
    return ThreadPoolExecutor(1).submit(PARTS[name])


def result(name):
    if Folder.stand_in:
        raise LeftOut
    begun(name).result()


def test_changes_over_a_connection_that_stays_open():
    """A change is saved within two seconds, the next within 65, and no sooner than a minute later; killed then and started again it has both."""
    result("changes")


def test_changes_while_nothing_moves():
    """So it is where no connection moves any more."""
    result("changes in silence")


def test_what_changes_nothing():
    """Reading requests and refused ones save nothing."""
    result("reading")


def test_a_folder_in_the_way():
    """One line tells of a save that fails, all others are served, and a later save succeeds."""
    result("by a folder")


def test_a_folder_that_may_not_be_written():
    """So it is where rights are wanting."""
    result("by rights")


def test_deadlines():
    """The time that a save takes counts for none: a head that was begun before it, and connections on which nothing moves, outlive it."""
    result("deadlines")


def test_the_time_between_two_saves():
    """It is ten times what a save took, where that is more than a minute."""
    result("ten times")


def test_a_second_server():
    """It has status 2 where the address is taken, and leaves what is saved."""
    result("another")


def test_counted_connections():
    """With `--connections` it is saved at the end alone."""
    result("counted")


def test_the_end_of_input():
    """With `--until-input-ends` it is saved then."""
    result("end of input")


def test_killed_while_it_saves():
    """What was there before is there, and the next server begins anew."""
    result("killed")


def test_a_large_repository():
    """Silent connections outlive its save."""
    result("large")


def test_each_refusal_of_memory():
    """A save that finds no memory is told, or the request isn't done; the next one, or the one at the end, is whole."""
    result("refusals")


def test_many_connections():
    """What was answered is there after a restart."""
    result("many")


def test_requests_without_a_pause():
    """A change among them is saved as soon."""
    result("busy")


def main(words):
    take_program("snapshot serving", words)
    for name in PARTS:
        begun(name)
    run_tests("snapshot serving", globals(), words)


if __name__ == "__main__":
    main(sys.argv[1:])
