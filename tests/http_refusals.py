#!/usr/bin/env python3
"""Runs `rp_server serve` with each of its allocations refused in turn, from its first connection on, and with all from one on, and
compares all that it writes.

    tests/http_refusals.py [PROGRAM]

tools/refuse.c refuses them. Each request is answered exactly, or by NoMemory, or its connection ends; what was answered `ok` is done,
what was answered NoMemory isn't; and other connections are served. The last line is 'http refusals: N passed, M failed', and the status is
0 only if none failed.
"""
import os
import subprocess
import sys
import tempfile
from concurrent.futures import ThreadPoolExecutor

from lib.harness import TOP, Wrong, run_tests, shortened
from lib.messages import BAD_REQUEST, CONFIG, NO_SUCH_ITEM, OK, canonical, create, file_of, instances, linked, listed, loaded, put, refused
from lib.plain_http import answer, bare
from lib.serving import FAULT, Client, Server, as_post, get, post

sys.path.insert(0, os.path.join(TOP, "tools"))

from each_refusal import shim_in  # noqa: E402

ONE_SCHEMA = {**CONFIG, "schemas": ["t.exp"]}
NO_MEMORY = answer(refused(18, "NoMemory"))
MODELS = ["m1", "m2"]
# longer than one read, and than a reply that is sent with its head
LETTERS = "x" * 70_000
FILE = file_of(f"#1=P(1.,'{LETTERS}');")
LINE = f"#1=P(1.,'{LETTERS}');"


def serving(shim, connections, more=(), **refusal):
    env = {**os.environ, "LD_PRELOAD": shim, **{name: str(it) for name, it in refusal.items()}}
    return Server("--connections", str(connections), config=ONE_SCHEMA, env=env, pass_fds=more)


# ---- what is asked, and what is there then: each model by its name, and whether it has its file

def file_path(name):
    return get(f"/v1/models/ann/{name}/file")


def steps_of(name):
    """What a session asks of one model: a change by its word, and what it asks."""
    return [
        ("create", as_post(create("ann", name))), ("", get("/v1/schemas")), ("", post(b" " * 3_000, token="x")),
        ("put", as_post(put("ann", "ann", name, FILE))), ("", file_path(name)), ("", post(b" " * 100_000, token="x")), ("", get("/v1/nothing")),
        ("", post(b"{")), ("", post(b"{" + b" " * 100_000)), ("", get("/v1/items")),
    ]


def changed(there, change, name):
    """What is there after a change of this model, and the JSON that tells that it is done."""
    if change == "create":
        return {**there, name: False}, OK
    return ({**there, name: True}, instances(1)) if name in there else (there, NO_SUCH_ITEM)


def shown(there, name):
    """The JSON of a model's file."""
    if name not in there:
        return NO_SUCH_ITEM
    return linked(canonical(*([LINE] if there[name] else [])))


def items(there):
    return listed(*((b"owner", it.encode(), b"ann") for it in there))


def answer_of(there, asked, name):
    """What is told to a request that changes nothing."""
    if asked == get("/v1/items"):
        return answer(items(there))
    if asked == file_path(name):
        return answer(shown(there, name))
    if asked == get("/v1/schemas"):
        return answer(loaded("T"))
    return bare(404) if asked == get("/v1/nothing") else bare(401) if b"Bearer x" in asked else answer(BAD_REQUEST)


def session(server):
    """Asks one request after the other. Answers what has to be there; where the connection ended, also what may be there instead."""
    there = {}
    with Client(server) as client:
        for name in MODELS:
            for change, asked in steps_of(name):
                then, text = changed(there, change, name) if change else (there, None)
                wanted = answer(text) if change else answer_of(there, asked, name)
                seen = one_reply(client, asked)
                if seen is None:
                    return there, then
                if seen not in (wanted, NO_MEMORY):
                    raise Wrong(f"{shortened(asked)!r} is answered {shortened(seen)!r}")
                if seen == wanted:
                    there = then
    return there, there


def is_there(server, there):
    """Whether this is what other connections are told. Where one ends, or is told NoMemory, it is asked once more."""
    def told(asked):
        for _ in range(3):
            with Client(server) as client:
                seen = one_reply(client, asked)
            if seen not in (None, NO_MEMORY):
                return seen
        return None

    return told(get("/v1/items")) == answer(items(there)) and all(told(file_path(it)) == answer(shown(there, it)) for it in MODELS)


def one_reply(client, asked):
    """The reply, or None where the connection ends without a byte of it."""
    try:
        client.socket.sendall(asked)
        first = client.socket.recv(1)
    except (BrokenPipeError, ConnectionResetError):
        return None
    except TimeoutError:
        raise Wrong(f"{asked[:200]!r} gets no reply, and no end") from None
    return first + client.reply() if first else None


def allocations(shim, talk):
    """How many allocations there are where one connection talks so."""
    with tempfile.TemporaryFile() as report:
        with serving(shim, 1, (report.fileno(),), REFUSE_REPORT=report.fileno()) as server:
            talk(server)
            server.expect_ended()
        report.seek(0)
        return int(report.read().split()[0])


def nothing(server):
    Client(server).socket.close()


def look(shim, refusal, may_end):
    """A session with an allocation refused, and then other connections, where there is room again. Before the first connection it may end
    with status 2."""
    try:
        server = serving(shim, 4_000_000, **refusal)
    except Wrong:
        if may_end:
            return
        raise
    with server:
        try:
            there, then = session(server)
            is_right = "REFUSE_NTH" not in refusal or is_there(server, there) or is_there(server, then)
        except ConnectionError:
            if not may_end:
                raise Wrong("it ended") from None
            server.expect_ended(2, FAULT)
            return
        if may_end and has_ended(server):
            server.expect_ended(2, FAULT)
        elif not is_right:
            raise Wrong(f"{there} has to be there, or {then}, and isn't")


def has_ended(server):
    """Whether the program exits soon: it may have accepted a connection before."""
    try:
        server.process.wait(0.2)
    except subprocess.TimeoutExpired:
        return False
    return True


def expect_each(name, step):
    """Looks at refusals of this name: of the last allocations before the first connection, and of those of a session."""
    with tempfile.TemporaryDirectory() as place, ThreadPoolExecutor(os.cpu_count() or 1) as pool:
        shim = shim_in(place)
        before, all_of_them = allocations(shim, nothing), allocations(shim, session)
        if not before < all_of_them:
            raise Wrong(f"{all_of_them} allocations in a session, and {before} before it")

        def one(nth):
            try:
                look(shim, {name: nth}, nth <= before)
            except Wrong as fault:
                return f"allocation {nth} of {all_of_them}: {fault}"
            return None

        faults = [it for it in pool.map(one, range(max(1, before - 10), all_of_them + 1, step)) if it]
    if faults:
        raise Wrong(f"{len(faults)} refusals, the first {faults[0]}")


def test_each_refusal():
    """Each allocation of a session is refused, alone."""
    expect_each("REFUSE_NTH", 1)


def test_no_more_memory():
    """All allocations are refused from one on. It goes on serving: what can't be answered is told so, or its connection ends."""
    expect_each("REFUSE_FROM", 5)


def test_a_session_without_refusals():
    """What the others are compared with: each model is made, and has its file."""
    with Server(config=ONE_SCHEMA) as server:
        there, then = session(server)
        if there != then or there != {it: True for it in MODELS} or not is_there(server, there):
            raise Wrong(f"{there} and {then} come of a session")


if __name__ == "__main__":
    run_tests("http refusals", globals(), sys.argv[1:])
