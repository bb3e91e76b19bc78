#!/usr/bin/env python3
"""Runs `rp_server serve` beside hundreds of clients: silent ones, slow ones, those that break off, and those that write.

    tests/http_load.py [--long] [PROGRAM]

What takes time is tested beside the rest: a head and a body that don't come. With --long the deadlines of 60 s are tested too. The last
line is 'http load: N passed, M failed', and the status is 0 only if none failed.
"""
import functools
import json
import os
import random
import resource
import signal
import sys
import threading
import time
from concurrent.futures import ThreadPoolExecutor

from lib.harness import Folder, Wrong, run_tests, shortened, take_program
from lib.messages import CONFIG, MIB, add, check, create, file_of, get as get_instance, got, put
from lib.plain_http import answer, bare
from lib.serving import Client, Server, as_post, get, head, post

ONE_SCHEMA = {**CONFIG, "schemas": ["t.exp"]}
SCHEMAS = b'HTTP/1.1 200 OK\r\nContent-Type: application/json\r\nContent-Length: 24\r\n\r\n{"ok":{"schemas":["T"]}}'
DONE = b'HTTP/1.1 200 OK\r\nContent-Type: application/json\r\nContent-Length: 9\r\n\r\n{"ok":{}}'
ASKED = b"GET /v1/schemas HTTP/1.1\r\nAuthorization: Bearer ta\r\n\r\n"

# how many connections there may be, and how long another's request may take beside them
ROOM = 512
LONGEST = 0.2
# a file whose reply no socket holds
LETTERS = 7 * MIB
# how many seconds clients write
WRITING = 10


def many_descriptors():
    _, most = resource.getrlimit(resource.RLIMIT_NOFILE)
    resource.setrlimit(resource.RLIMIT_NOFILE, (min(most, 8192), most))


def serving(*words, descriptors=1024, **given):
    """A server with so many descriptors."""
    many_descriptors()
    limits = (descriptors, resource.getrlimit(resource.RLIMIT_NOFILE)[1])
    return Server(*words, config=ONE_SCHEMA, preexec_fn=lambda: resource.setrlimit(resource.RLIMIT_NOFILE, limits), **given)


def close_all(clients):
    for it in clients:
        it.socket.close()


def seconds_of_a_request(server):
    """How long a newcomer waits for his reply."""
    begin = time.monotonic()
    with Client(server) as client:
        client.ask(ASKED, SCHEMAS)
    return time.monotonic() - begin


def fill(server):
    """A model whose file has some 7 MiB."""
    with Client(server) as client:
        client.ask(as_post(create("ann", "m")), DONE)
        client.ask(as_post(put("ann", "ann", "m", file_of("#1=P(1.,'" + "x" * LETTERS + "');"))), answer(b'{"ok":{"instances":1}}'))


# ---- those who hold others up

def trickle(clients, stop):
    """Sends a byte of a head on each of these connections, again and again."""
    text = b"GET /v1/items HTTP/1.1\r\nX: " + b"y" * 10_000
    for byte in text:
        for client in clients:
            if stop.is_set():
                return
            client.send(bytes([byte]))
        time.sleep(0.02)


def break_off(server, stop, faults):
    """Connections that are reset, or end their side, at any time."""
    chance = random.Random(5)
    texts = [b"", ASKED, ASKED[:20], ASKED * 30, post(b"x" * 100_000)[:50_000], get("/v1/models/ann/m"), b"GET  ",
             head("POST", "/v1/requests", "Content-Length: 16777216", token=None)]
    while not stop.is_set():
        try:
            with Client(server) as client:
                client.send(chance.choice(texts))
                if chance.random() < 0.3:
                    client.half_close()
                time.sleep(chance.choice([0.001, 0.005, 0.01]))
                client.reset()
        except (Wrong, OSError) as fault:
            faults.append(fault)


def test_a_request_beside_those_who_hold_others_up():
    """400 silent connections, 100 that send a byte at a time, five that ask for a long file again and again and take nothing, resets and
    half-closed ones: another's request takes at most 200 ms, and who takes nothing costs no more than the reply that he is sent."""
    with serving() as server:
        fill(server)
        for _ in range(3):
            seconds_of_a_request(server)
        before = server.memory()
        silent = [Client(server) for _ in range(400)]
        slow = [Client(server) for _ in range(100)]
        stopped = [Client(server, room=4096) for _ in range(5)]
        stop, faults = threading.Event(), []
        threads = [threading.Thread(target=trickle, args=(slow, stop)), threading.Thread(target=break_off, args=(server, stop, faults))]
        try:
            for it in stopped:
                it.send(get("/v1/models/ann/m/file") * 20)
            # (the five files are made before it)
            time.sleep(0.2)
            seconds_of_a_request(server)
            for it in threads:
                it.start()
            seen = []
            for _ in range(100):
                seen.append(seconds_of_a_request(server))
                time.sleep(0.02)
            held = server.memory() - before
        finally:
            stop.set()
            for it in threads:
                it.join()
        if max(seen) > LONGEST:
            raise Wrong(f"a request took {max(seen):.3f} s, {sorted(seen)[50]:.3f} s in the middle")
        if faults:
            raise Wrong(f"{len(faults)} connections broke, the first by {faults[0]}")
        if held > 5 * (LETTERS + MIB) + 16 * MIB:
            raise Wrong(f"{held / MIB:.0f} MiB are held for five who take nothing of a reply of {LETTERS / MIB:.0f}")
        close_all(silent + slow + stopped)


def test_more_connections_than_there_is_room_for():
    """Of 700 that come one after the other and stay, each is served; those that were quiet longest are ended."""
    with serving() as server:
        clients = []
        for k in range(700):
            clients.append(Client(server))
            clients[-1].ask(ASKED, SCHEMAS)
            if k % 100 == 99:
                clients[0].ask(ASKED, SCHEMAS)
        if server.descriptors() > ROOM + 16:
            raise Wrong(f"{server.descriptors()} descriptors are open")
        # the first one spoke now and then, so it is there; those behind it are gone
        clients[0].ask(ASKED, SCHEMAS)
        for it in clients[1:150]:
            it.expect_end()
        for it in clients[-400:]:
            it.ask(ASKED, SCHEMAS)
        close_all(clients)
    with serving() as server:
        silent = [Client(server) for _ in range(600)]
        for _ in range(20):
            if (seconds := seconds_of_a_request(server)) > LONGEST:
                raise Wrong(f"a newcomer is served in {seconds:.3f} s beside 600 silent ones")
        close_all(silent)


def burst(server, count):
    """So many connections that come at once, each with a request: what is written to each."""
    os.kill(server.process.pid, signal.SIGSTOP)
    clients = []
    for _ in range(count):
        clients.append(Client(server))
        clients[-1].send(ASKED)
    os.kill(server.process.pid, signal.SIGCONT)
    lost = 0
    for it in clients:
        try:
            it.expect(SCHEMAS)
        except Wrong:
            lost += 1
    close_all(clients)
    if lost:
        raise Wrong(f"{lost} of {count} that came at once aren't served")


def test_more_at_once_than_there_is_room_for():
    """What has come of a connection is read before it is ended, so each of 700 that come at once is answered; under `ulimit -n 100` each
    of 150."""
    for descriptors, count in ((1024, 500), (1024, 700), (100, 150)):
        with serving(descriptors=descriptors) as server:
            seconds_of_a_request(server)
            burst(server, count)


def test_newcomers_beside_busy_ones():
    """Where all that there is room for have many requests under way, newcomers are served, and one of the others is ended for each."""
    with serving() as server:
        busy = [Client(server) for _ in range(ROOM)]
        for it in busy:
            it.ask(ASKED, SCHEMAS)
        os.kill(server.process.pid, signal.SIGSTOP)
        for it in busy:
            it.send(ASKED * 1_000)
        newcomers = [Client(server) for _ in range(60)]
        for it in newcomers:
            it.send(ASKED)
        os.kill(server.process.pid, signal.SIGCONT)
        for it in newcomers:
            it.expect(SCHEMAS)
        if server.descriptors() > ROOM + 16:
            raise Wrong(f"{server.descriptors()} descriptors are open")
        close_all(busy + newcomers)


def test_few_descriptors():
    """Under `ulimit -n 100` each newcomer is served, beside silent ones too."""
    with serving(descriptors=100) as server:
        clients = []
        for _ in range(300):
            clients.append(Client(server))
            clients[-1].ask(ASKED, SCHEMAS)
        for it in clients[-60:]:
            it.ask(ASKED, SCHEMAS)
        clients[0].expect_end()
        close_all(clients)
    with serving(descriptors=100) as server:
        silent = [Client(server) for _ in range(200)]
        for _ in range(20):
            seconds_of_a_request(server)
        close_all(silent)


# ---- memory

def send_half(server, make):
    """Sends a head and 8 MiB of the 16 MiB that it announces."""
    client = Client(server, seconds=60)
    client.send(make())
    block = bytes(MIB)
    for _ in range(8):
        client.send(block)
    return client


def test_bodies_of_strangers():
    """400 who have no token, or ask for what isn't there, and send 8 of 16 MiB each, cost at most 64 MiB together. Each is told so at
    the end of his body."""
    heads = [lambda: head("POST", "/v1/requests", "Content-Length: 16777216", token=None), lambda: head("POST", "/v1/requests",
                                                                                                        "Content-Length: 16777216", token="xx"),
             lambda: head("POST", "/v1/nothing", "Content-Length: 16777216"), lambda: head("PUT", "/v1/requests", "Content-Length: 16777216")]
    with serving() as server, ThreadPoolExecutor(8) as pool:
        seconds_of_a_request(server)
        before = server.memory()
        clients = list(pool.map(lambda k: send_half(server, heads[k % 10 if k % 10 < 4 else 0]), range(400)))
        seconds_of_a_request(server)
        held = server.status_of("VmHWM") - before
        if held > 64 * MIB:
            raise Wrong(f"{held / MIB:.0f} MiB were held")
        for k, status in enumerate((401, 401, 404, 405)):
            clients[k].send(bytes(8 * MIB) + ASKED)
            clients[k].expect(bare(status) + SCHEMAS)
        close_all(clients)


def come_and_go(server, count):
    """So many connections, one after the other, of several kinds."""
    kinds = [ASKED, ASKED * 3, b"GET  ", ASKED[:9], get("/v1/schemas", "Connection: close"), get("/v1/items", token=None), post(b"{" + b" " * 5_000),
             padded()]
    for k in range(count):
        with Client(server) as client:
            data = kinds[k % len(kinds)]
            client.send(data)
            if data != ASKED[:9]:
                client.piece()
            if k % 3 == 0:
                client.reset()


def padded():
    return get("/v1/schemas", "X: " + "y" * 10_000)


def test_many_connections_leave_nothing():
    """After 10,000 connections the process holds within 1 MiB of what it held after 1,000, and as many descriptors."""
    with serving() as server:
        come_and_go(server, 1_000)
        time.sleep(0.5)
        before, descriptors = server.memory(), server.descriptors()
        with ThreadPoolExecutor(4) as pool:
            list(pool.map(lambda _: come_and_go(server, 2_250), range(4)))
        after = server.memory()
        if after > before + MIB:
            raise Wrong(f"{(after - before) / 1024:.0f} KiB more than after 1,000 connections, which is {before / MIB:.1f} MiB")
        end = time.monotonic() + 10
        while server.descriptors() > descriptors and time.monotonic() < end:
            time.sleep(0.1)
        if server.descriptors() > descriptors:
            raise Wrong(f"{server.descriptors()} descriptors in place of {descriptors}")


# ---- what is written is there

def names_of(server, who, model):
    """The numbers of a model's instances, as another connection is told."""
    with Client(server) as client:
        client.send(get(f"/v1/models/{who}/{model}", token=f"t{who[0]}"))
        return [it["name"] for it in json.loads(client.reply().partition(b"\r\n\r\n")[2])["ok"]["names"]]


def write_for(server, who, model, end):
    """Adds instances to a model of one's own and reads each, until the time has come; answers how many."""
    count = 0
    with Client(server) as client:
        client.ask(as_post(create(who, model)), DONE)
        while count == 0 or time.monotonic() < end:
            count += 1
            client.ask(as_post(add(who, who, model, f"P({count}.5,$)")), answer(b'{"ok":{"name":%d}}' % count))
            client.ask(as_post(get_instance(who, who, model, count)), answer(got(f"#{count}=P({count}5.E-1,$);")))
    return count


def test_each_finds_what_he_wrote():
    """200 clients write for ten seconds, each into a model of his own, and each finds all that he was told `ok` of."""
    with serving() as server, ThreadPoolExecutor(200) as pool:
        end = time.monotonic() + WRITING
        rows = [(who, f"m{k}") for who in ("ann", "bob") for k in range(100)]
        counts = list(pool.map(lambda row: write_for(server, *row, end), rows))
        for (who, model), count in zip(rows, counts):
            if names_of(server, who, model) != list(range(1, count + 1)):
                raise Wrong(f"{model} of {who} hasn't the {count} instances that were added")


def write_and_break(server, model, count):
    """Adds so many instances, asks for one more, and breaks the connection."""
    with Client(server) as client:
        client.ask(as_post(create("ann", model)), DONE)
        for k in range(1, count + 1):
            client.ask(as_post(add("ann", "ann", model, "P(1.,$)")), answer(b'{"ok":{"name":%d}}' % k))
        text = as_post(add("ann", "ann", model, "P(2.,$)"))
        client.send(text if count % 3 else text[:-1])
        client.reset()


def test_a_connection_that_breaks():
    """It leaves all that was answered, and at most one change more; none where the request wasn't whole."""
    with serving() as server, ThreadPoolExecutor(16) as pool:
        list(pool.map(lambda k: write_and_break(server, f"m{k}", k % 10), range(100)))
        time.sleep(0.3)
        for k in range(100):
            found, count = names_of(server, "ann", f"m{k}"), k % 10
            if found not in ([[*range(1, count + 1)], [*range(1, count + 2)]] if count % 3 else [[*range(1, count + 1)]]):
                raise Wrong(f"{count} instances were added, and {found} are there")


# ---- time

def ends_at(client, begin, least, most):
    """The connection ends without a reply, between these seconds after the begin."""
    client.socket.settimeout(max(0.1, begin + most - time.monotonic()))
    try:
        seen = client.socket.recv(1000)
    except TimeoutError:
        raise Wrong(f"it's open after {most} s") from None
    except ConnectionResetError:
        seen = b""
    after = time.monotonic() - begin
    if seen:
        raise Wrong(f"{shortened(seen)!r} came after {after:.1f} s")
    if after < least:
        raise Wrong(f"it ended after {after:.1f} s")


def is_taken(client):
    """Whether a byte that is sent is taken, as far as it's known yet."""
    try:
        client.socket.send(b"x")
    except OSError:
        return False
    return True


def deadlines():
    """What has to end 30 s after it began, and what hasn't."""
    with serving() as server:
        begin = time.monotonic()
        clients = {name: Client(server) for name in ("head", "slow head", "later head", "empty lines", "body", "slow body", "good body", "early body",
                                                     "idle", "pipeline", "silent", "closed")}
        large = head("POST", "/v1/requests", "Content-Length: 100000")
        clients["head"].send(ASKED[:-1])
        clients["later head"].ask(ASKED, SCHEMAS)
        clients["later head"].send(b"G")
        clients["empty lines"].send(b"\r\n")
        clients["body"].send(large)
        clients["early body"].send(large + b" " * 50_000)
        clients["good body"].send(large)
        clients["slow body"].send(large)
        clients["idle"].ask(ASKED, SCHEMAS)
        clients["pipeline"].ask(ASKED * 100, SCHEMAS * 100)
        clients["closed"].ask(get("/v1/schemas", "Connection: close"), SCHEMAS)
        clients["closed"].expect_end()
        taken = []
        for k in range(29):
            taken.append(is_taken(clients["closed"]))
            clients["slow head"].send(ASKED[k:k + 1])
            clients["slow body"].send(b" " * 10)
            clients["good body"].send(b" " * 2_000)
            time.sleep(max(0, begin + k + 1 - time.monotonic()))
        # (what a client sends that was closed is taken for 5 s; that it isn't any more is told by the next that he sends)
        if not all(taken[:5]) or any(taken[8:]):
            raise Wrong(f"what is sent behind the last reply is taken so, second by second: {taken}")
        for name in ("head", "slow head", "later head", "empty lines", "body", "slow body"):
            try:
                ends_at(clients[name], begin, 29, 33)
            except Wrong as fault:
                raise Wrong(f"{name}: {fault}") from fault
        time.sleep(max(0, begin + 33 - time.monotonic()))
        refused = answer(b'{"refused":{"code":1,"name":"BadRequest"}}')
        clients["early body"].ask(b" " * 50_000, refused)
        clients["good body"].ask(b" " * (100_000 - 29 * 2_000), refused)
        for name in ("idle", "pipeline", "silent"):
            clients[name].ask(ASKED, SCHEMAS)
        close_all(clients.values())


def long_deadlines():
    """A connection on which nothing moves for 60 s, and a reply of which nothing goes for 60 s, are ended."""
    with serving() as server:
        fill(server)
        silent, idle, stopped, slow = Client(server), Client(server), Client(server, room=4096), Client(server, room=4096)
        idle.ask(ASKED, SCHEMAS)
        stopped.send(get("/v1/models/ann/m/file"))
        slow.send(get("/v1/models/ann/m/file"))
        begin = time.monotonic()
        for k in range(58):
            slow.some(40_000)
            time.sleep(max(0, begin + k + 1 - time.monotonic()))
        ends_at(silent, begin, 59, 64)
        ends_at(idle, begin, 59, 64)
        time.sleep(max(0, begin + 66 - time.monotonic()))
        slow.some(1)
        try:
            seen = len(stopped.rest())
            if seen >= LETTERS:
                raise Wrong("all of a reply came that nobody took for 60 s")
        except Wrong as fault:
            if "broke" not in str(fault):
                raise
        close_all((silent, idle, stopped, slow))


def busy_deadlines():
    """While the program works on what others ask, no deadline comes nearer."""
    text = "SCHEMA A; " + "".join(f"ENTITY e{k}; x : REAL; END_ENTITY; " for k in range(200_000)) + "END_SCHEMA;"
    asked, told_of_it = as_post(check("ann", text)), answer(b'{"ok":{"schema":"A","warnings":[]}}')
    with serving() as server, Client(server) as half, Client(server, seconds=300) as busy:
        half.send(ASKED[:-1])
        begin = time.monotonic()
        while time.monotonic() < begin + 40:
            busy.ask(asked, told_of_it)
        half.ask(ASKED[-1:], SCHEMAS)


@functools.lru_cache(maxsize=None)
def begun(part):
    """A part that runs beside the others, from its first mention on."""
    return ThreadPoolExecutor(1).submit(part)


def test_deadlines():
    """A head that isn't whole 30 s after its first byte, and a body that comes too slowly from then on, are ended without a reply. What
    is idle, and a body of 1 KiB a second, stays."""
    if Folder.stand_in:
        serving()
    begun(deadlines).result()


def test_long_deadlines():
    """With --long: 60 s without a move end a connection."""
    if "--long" in sys.argv:
        begun(long_deadlines).result()


def test_deadlines_beside_work():
    """With --long: a head that isn't whole 40 s after its first byte, since the program works nearly all of that time, is answered."""
    if "--long" in sys.argv:
        begun(busy_deadlines).result()


def main(words):
    is_long = "--long" in words
    words = [it for it in words if it != "--long"]
    take_program("http load", words)
    begun(deadlines)
    if is_long:
        begun(long_deadlines)
        begun(busy_deadlines)
    run_tests("http load", globals(), words)


if __name__ == "__main__":
    main(sys.argv[1:])
