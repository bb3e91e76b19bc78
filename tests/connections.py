#!/usr/bin/env python3
"""Serves one connection over streams in memory by the program of the trials, and compares what is written to it and what the repository
holds afterwards.

    tests/connections.py [PROGRAM]

PROGRAM is as for evaluation.py. Each connection comes whole and byte by byte, and each of its reads and each of its writes fails in turn.
Some take all reads of a connection, or more, and one has each of its allocations refused. What is answered over sockets is in http.py.
"""
import collections
import itertools
import sys
from typing import NamedTuple

from evaluation import USAGE, program_of
from lib.harness import Wrong, run_parts
from lib.messages import (
    FIRST_EXPORT, FIRST_LINES, FIRST_NAMES, FIRST_REPLIES, OK, canonical, create, export, file_of, instances, linked, loaded, names, put, refused,
)
from lib.plain_http import answer, bare
from lib.plain_snapshots import model, snapshot
from lib.refusing import WHOLE as ALL
from lib.refusing import Run, refusing
from lib.serving import as_post, get, head

SCHEMA = (b"SCHEMA T; ENTITY p; x : REAL; n : OPTIONAL STRING; INVERSE u : SET [0:?] OF q FOR a; "
          b"WHERE w1 : SIZEOF(u) <= 2; END_ENTITY; ENTITY q; a : p; END_ENTITY; END_SCHEMA;")

ASKED = b"GET /v1/schemas HTTP/1.1\r\nAuthorization: Bearer ta\r\n\r\n"
TOLD = b'HTTP/1.1 200 OK\r\nContent-Type: application/json\r\nContent-Length: 24\r\n\r\n{"ok":{"schemas":["T"]}}'

# What connections bring, and what is written to them.
ROWS = [
    ("one request", ASKED, TOLD),
    ("two requests",
     b"GET /v1/schemas HTTP/1.1\r\nAuthorization: Bearer ta\r\n\r\nGET /v1/schemas HTTP/1.0\r\nAuthorization: Bearer ta\r\n\r\n",
     b'HTTP/1.1 200 OK\r\nContent-Type: application/json\r\nContent-Length: 24\r\n\r\n{"ok":{"schemas":["T"]}}'
     b'HTTP/1.1 200 OK\r\nContent-Type: application/json\r\nContent-Length: 24\r\n\r\n{"ok":{"schemas":["T"]}}'),
    ("a model is made, filled and read",
     b"POST /v1/requests HTTP/1.1\r\nAuthorization: Bearer ta\r\nContent-Length: 45\r\n\r\n"
     b'{"do":"create_model","name":"m","schema":"T"}'
     b"POST /v1/requests HTTP/1.1\r\nAuthorization: Bearer ta\r\nContent-Length: 212\r\n\r\n"
     b'{"do":"put","owner":"ann","model":"m","file":"ISO-10303-21;HEADER;FILE_DESCRIPTION((\'\'),\'2;1\');'
     b"FILE_NAME('','',(''),(''),'','','');FILE_SCHEMA(('T'));ENDSEC;DATA;#2=Q(#1);#1=P(0.10,'a');ENDSEC;END-ISO-10303-21;\"}"
     b"GET /v1/models/ann/m/file HTTP/1.1\r\nAuthorization: Bearer ta\r\n\r\n",
     b'HTTP/1.1 200 OK\r\nContent-Type: application/json\r\nContent-Length: 9\r\n\r\n{"ok":{}}'
     b'HTTP/1.1 200 OK\r\nContent-Type: application/json\r\nContent-Length: 22\r\n\r\n{"ok":{"instances":2}}'
     b"HTTP/1.1 200 OK\r\nContent-Type: application/json\r\nContent-Length: 216\r\n\r\n"
     b"{\"ok\":{\"file\":\"ISO-10303-21;\\nHEADER;\\nFILE_DESCRIPTION((''),'2;1');\\nFILE_NAME('','',(''),(''),'','','');\\n"
     b"FILE_SCHEMA(('T'));\\nENDSEC;\\nDATA;\\n#1=P(1.E-1,'a');\\n#2=Q(#1);\\nENDSEC;\\nEND-ISO-10303-21;\\n\",\"links\":[]}}"),
    ("a model that isn't there", b"GET /v1/models/ann/z HTTP/1.1\r\nAuthorization: Bearer tb\r\n\r\n",
     b'HTTP/1.1 404 Not Found\r\nContent-Type: application/json\r\nContent-Length: 42\r\n\r\n{"refused":{"code":7,"name":"NoSuchItem"}}'),
    ("no request", b"POST /v1/requests HTTP/1.1\r\nAuthorization: Bearer ta\r\nContent-Length: 1\r\n\r\n{",
     b'HTTP/1.1 400 Bad Request\r\nContent-Type: application/json\r\nContent-Length: 42\r\n\r\n{"refused":{"code":1,"name":"BadRequest"}}'),
    ("a body that is too long", b"POST /v1/requests HTTP/1.1\r\nContent-Length: 16777217\r\n\r\n",
     b"HTTP/1.1 413 Payload Too Large\r\nContent-Length: 0\r\n\r\n"),
    ("a body in chunks", b"POST /v1/requests HTTP/1.1\r\nTransfer-Encoding: chunked\r\n\r\nGET",
     b"HTTP/1.1 501 Not Implemented\r\nContent-Length: 0\r\n\r\n"),
    ("a wrong token, and a wrong path",
     b"GET /v1/schemas HTTP/1.1\r\nAuthorization: Bearer x\r\n\r\nGET /v1/x HTTP/1.1\r\nAuthorization: Bearer ta\r\n\r\n",
     b"HTTP/1.1 401 Unauthorized\r\nContent-Length: 0\r\n\r\nHTTP/1.1 404 Not Found\r\nContent-Length: 0\r\n\r\n"),
    ("a wrong method", b"PUT /v1/schemas HTTP/1.1\r\nAuthorization: Bearer ta\r\n\r\nGET",
     b"HTTP/1.1 405 Method Not Allowed\r\nContent-Length: 0\r\n\r\n"),
]

LARGE_HEAD = b"HTTP/1.1 431 Request Header Fields Too Large\r\nContent-Length: 0\r\n\r\n"

# Snapshots: of nothing, of an empty model, and of a filled one.
EMPTY = b'STEPREPO 1\n{"groups":[],"models":[]}'
MADE = snapshot(models=[model("ann", "m")])
FILLED = snapshot(models=[model("ann", "m", "#1=P(1.E-1,'a');", "#2=Q(#1);")])

# ---- exchanges, message by message


class Turn(NamedTuple):
    """A message, its answer, and the snapshot of the repository after it."""

    message: bytes
    answer: bytes
    held: bytes


CLOSING = "Connection: close"
FIRST_TURNS = [Turn(as_post(line), answer(reply), held) for line, reply, held in (
    (FIRST_LINES[0], FIRST_REPLIES[0], MADE), (FIRST_LINES[1], FIRST_REPLIES[1], FILLED),
    (names("ann", "ann", "m"), FIRST_NAMES, FILLED), (export("ann", "ann", "m"), FIRST_EXPORT, FILLED))]

# The messages that are answered, and the input after one that closes the connection.
EXCHANGES = {
    "the schemas": ([Turn(ASKED, TOLD, EMPTY)], b""),
    "a wrong token, and the schemas": ([Turn(get("/v1/schemas", token="x"), bare(401), EMPTY), Turn(ASKED, TOLD, EMPTY)], b""),
    "a model is made, filled, listed and exported": (FIRST_TURNS, b""),
    "the schemas, and it closes": ([Turn(get("/v1/schemas", CLOSING), TOLD, EMPTY)], ASKED),
    "a model is made and filled, and it closes": (
        [FIRST_TURNS[0], FIRST_TURNS[1]._replace(message=as_post(FIRST_LINES[1], CLOSING))], as_post(create("ann", "n")) + get("/v1/items")),
}

# at least as much as these connections read or write at once
WHOLE = 16_384
SIZES = [("whole", WHOLE), ("byte by byte", 1)]

# Which call fails, with the line on standard error: a read, a write, or a write that takes no byte.
FAULTS = {"read": b"trials: a read failed\n", "write": b"trials: a write failed\n", "none": b"trials: a write failed\n"}


def answers_of(turns, count):
    """The answers to the first messages."""
    return b"".join(turn.answer for turn in turns[:count])


def held_after(turns, count):
    """The snapshot after the first messages."""
    return turns[count - 1].held if count else EMPTY


def printed(turns):
    """What is printed of a connection that ends in order."""
    return answers_of(turns, len(turns)) + held_after(turns, len(turns))


def after_reads(turns, came):
    """What is printed if a read fails after so many bytes came: each message that came whole has its answer."""
    count = sum(came >= sum(len(turn.message) for turn in turns[:number]) for number in range(1, len(turns) + 1))
    return {answers_of(turns, count) + held_after(turns, count)}


def after_writes(turns, length):
    """What may be printed if a write fails after so many bytes were written. A message is done if a part of its answer is written. If nothing of it is
    written, the message may be done or not."""
    whole = max(count for count in range(len(turns)) if len(answers_of(turns, count)) <= length)
    counts = [whole + 1] if len(answers_of(turns, whole)) < length else [whole, whole + 1]
    return {answers_of(turns, len(turns))[:length] + held_after(turns, count) for count in counts}


def cut_short(turns, behind, fault):
    """What may be printed if the Nth call fails, for each N from 1, where each call moves one byte."""
    if fault != "read":
        return [after_writes(turns, length) for length in range(len(answers_of(turns, len(turns))))]
    # (if no message closes the connection, one more read finds the end)
    reads = sum(len(turn.message) for turn in turns) + (0 if behind else 1)
    return [after_reads(turns, came) for came in range(reads)]


# ---- runs

def served(it, name, fault, number, size, room):
    """The status, the answers with the snapshot after them, and the line on standard error."""
    return it.folder.run("connection", "schema.exp", name, fault, str(number), str(size), str(room))


def served_whole(it, asked, size, room=WHOLE):
    """The same of a connection of which no call fails."""
    it.folder.write("input", asked)
    return served(it, "input", "read", 0, size, room)


def expect_one_of(it, name, seen, may_be):
    it.expect(name, may_be if seen in may_be else seen, may_be)


def in_order(it):
    """Connections that end in order. Nothing after a message that closes is answered or done."""
    it.folder.write("schema.exp", SCHEMA)
    for name, asked, told in ROWS:
        held = FILLED if b"create_model" in asked else EMPTY
        for pieces, size in SIZES:
            it.expect(f"{name}, {pieces}", served_whole(it, asked, size), (0, told + held, b""))
    it.expect("a head that is too long", served_whole(it, b"M" * 16384, 4000), (0, LARGE_HEAD + EMPTY, b""))
    for name, (turns, behind) in EXCHANGES.items():
        it.folder.write(name, b"".join(turn.message for turn in turns) + behind)
        for (pieces, size), (parts, room) in itertools.product(SIZES, SIZES):
            it.expect(f"{name}, read {pieces}, written {parts}", served(it, name, "read", 0, size, room), (0, printed(turns), b""))


def each_call_fails(it):
    """Each call fails in turn, where each moves one byte. With the number after the last call, none fails."""
    for name, (turns, behind) in EXCHANGES.items():
        for fault, line in FAULTS.items():
            rows = [*({(2, told, line) for told in its} for its in cut_short(turns, behind, fault)), {(0, printed(turns), b"")}]
            seen = it.pool.map(lambda number: served(it, name, fault, number, 1, 1), range(1, len(rows) + 1))
            for number, (got, may_be) in enumerate(zip(seen, rows), 1):
                expect_one_of(it, f"{name}, {fault} {number} of {len(rows)}", got, may_be)


def each_whole_call_fails(it):
    """Each call fails in turn, where each moves as much as there is. How much that is, is the program's choice, but for the first call."""
    for name, (turns, behind) in EXCHANGES.items():
        for fault, line in FAULTS.items():
            rows = [{(2, told, line) for told in its} for its in cut_short(turns, behind, fault)]
            seen = list(itertools.takewhile(lambda got: got[0], (served(it, name, fault, number, WHOLE, WHOLE) for number in range(1, 100))))
            expect_one_of(it, f"{name}, whole, the first {fault}", seen[0], rows[0])
            for got in seen:
                expect_one_of(it, f"{name}, whole, each {fault}", got, set().union(*rows))
            it.expect(f"{name}, whole, a {fault} for each answer", len(seen) >= (1 if fault == "read" else len(turns)), True)
            it.expect(f"{name}, whole, no {fault}", served(it, name, fault, len(seen) + 1, WHOLE, WHOLE), (0, printed(turns), b""))


def created_by(size, *lines):
    """A message of so many bytes that makes a model."""
    length = size - len(head("POST", "/v1/requests", *lines, "Content-Length: 999999"))
    data = head("POST", "/v1/requests", *lines, f"Content-Length: {length}") + b'{"do":"create_model","name":"m","schema":"T"}'.ljust(length)
    assert len(data) == size
    return data


def a_million_reads(it):
    """A connection has 1,000,000 reads. Here each gives a byte, and one more finds the end."""
    done, fault = answer(OK) + MADE, FAULTS["read"]
    for name, asked, wanted in (
            ("one byte too many", created_by(1_000_001), (2, EMPTY, fault)),
            ("no read left to find the end", created_by(1_000_000), (2, done, fault)),
            ("no read left, and it closes", created_by(1_000_000, CLOSING), (0, done, b"")),
            ("one read left to find the end", created_by(999_999), (0, done, b""))):
        it.expect(name, served_whole(it, asked, 1), wanted)


# ---- want of memory

OUT_OF_MEMORY = b"trials: out of memory\n"
NO_MEMORY, GONE = answer(refused(18, "NoMemory")), answer(refused(7, "NoSuchItem"))
CONNECTION = [as_post(create("ann", "m")), as_post(put("ann", "ann", "m", file_of("#1=P(1.,$);"))), get("/v1/models/ann/m/file"), get("/v1/schemas")]
PUT = snapshot(models=[model("ann", "m", "#1=P(1.,$);")])


def answers(is_made, is_put, is_shown, is_listed):
    """The replies to this connection, where these of its requests find memory."""
    text = answer(linked(canonical(*(["#1=P(1.,$);"] if is_put else []))))
    exact = [answer(OK), answer(instances(1)) if is_made else GONE, text if is_made else GONE, answer(loaded("T"))]
    return [it if there else NO_MEMORY for it, there in zip(exact, (is_made, is_put, is_shown, is_listed))]


def held_by(is_made, is_put, count):
    """What the repository holds after so many of these requests."""
    return (PUT if is_put and count > 1 else MADE) if is_made and count else EMPTY


def what_may_be():
    """Each end that this connection may have where allocations are refused (its status, output and errors), with a word for it and the
    number of replies that are NoMemory."""
    found = {(2, b"", OUT_OF_MEMORY): ("cut off", 0)}
    for there in itertools.product((True, False), repeat=len(CONNECTION)):
        its = answers(*there)
        # (a write into memory fails where it finds no room, and then the request before it is done)
        found.update({(2, b"".join(its[:count]) + held_by(*there[:2], done), line): ("cut off", its[:count].count(NO_MEMORY))
                      for count in range(len(its) + 1) for done in (count, count + 1) for line in (OUT_OF_MEMORY, FAULTS["write"])})
        found[0, b"".join(its) + held_by(*there[:2], len(its)), b""] = ("answered" if all(there) else "NoMemory", there.count(False))
    return found


def each_refusal(it):
    """Where an allocation is refused, alone or with all later ones, each request gets its reply, or NoMemory and has no effect; or the
    connection ends for want of memory after some of these replies."""
    it.folder.write("schema.exp", SCHEMA)
    it.folder.write("nothing", b"")
    it.folder.write("input", b"".join(CONNECTION))
    place, words = refusing(it.folder), ("connection", "schema.exp", "input", "read", "0", "16384", "10000")
    with Run(place, (*words[:2], "nothing", *words[3:])) as run:
        before = run.case([], ALL).allocations
    exact, may_be, counts = (0, b"".join(answers(True, True, True, True)) + PUT, b""), what_may_be(), collections.Counter()
    try:
        with Run(place, words) as run:
            for name, ended in run.each([], ALL, before):
                outcome, no_memory = may_be.get(ended[:3], ("neither", 0))
                is_right = outcome != "neither" and no_memory <= ended.refusals if ended.refusals else ended[:3] == exact
                it.expect(name, None if is_right else ended[:3], None)
                counts[outcome] += 1
    except Wrong as fault:
        it.expect("each refusal", str(fault), None)
    it.expect("replies of each sort", all(counts[outcome] > 2 for outcome in ("answered", "NoMemory", "cut off")), True)


def faulty_words(it):
    """One line, and status 2."""
    it.folder.write("schema.exp", SCHEMA)
    it.folder.write("none.exp", b"SCHEMA")
    it.folder.write("input", ASKED)
    words = ["connection", "schema.exp", "input", "read", "0", "1", "9"]
    no_number = b"a number is not a whole one up to 18446744073709551615"
    no_file = b"a file can't be read or is over 8 MiB"
    for name, given, told in (
            ("no words", [], USAGE), ("no such trial", ["sockets", *words[1:]], USAGE), ("no room", words[:6], USAGE),
            ("a word too many", [*words, "9"], USAGE), ("no size", [*words[:5], "all", "9"], no_number),
            ("a negative room", [*words[:6], "-1"], no_number),
            ("another fault", [*words[:3], "open", *words[4:]], b"the fault is neither read, write nor none"),
            ("no file of a schema", ["connection", "schema", *words[2:]], no_file),
            ("no file of an input", [*words[:2], "output", *words[3:]], no_file),
            ("no schema", ["connection", "none.exp", *words[2:]], b"Syntax line 1 column 7")):
        it.expect(name, it.folder.run(*given), (2, b"", b"trials: %s\n" % told))


if __name__ == "__main__":
    run_parts("connections", (in_order, each_call_fails, each_whole_call_fails, a_million_reads, each_refusal, faulty_words), program_of(sys.argv[1:]))
