#!/usr/bin/env python3
"""Runs `rp_server serve`, talks with it over sockets, and compares all that it writes, byte for byte.

    tests/http.py [PROGRAM]

Where many inputs are alike, what has to be written to each is found by the plain reading of HTTP (lib/plain_http.py). Each server has
to be serving at the end of its test still, unless its test says otherwise. The last line is 'http: N passed, M failed', and the
status is 0 only if none failed.

(This folder has no other module of the name http: whoever wants Python's own asks a process for it.)
"""
import json
import random
import re
import resource
import shutil
import signal
import socket
import subprocess
import sys
import threading
import time
from concurrent.futures import ThreadPoolExecutor

from lib.harness import Wrong, run_tests, shortened
from lib.messages import (
    BAD_NAME, BAD_REQUEST, CONFIG, E, EXISTS, FIRST_EXPORT, FIRST_NAMES, FILE_LIMIT, HAS_LINKS, IN_USE, MEMBERSHIP, MIB, NO_RIGHT, NO_SUCH_INSTANCE,
    NO_SUCH_ITEM, OK, TOO_LARGE, TOO_MANY, UNKNOWN_PARTNER, UNKNOWN_SCHEMA, WRONG_SCHEMA, Repository, add, added, canonical, create, create_group,
    delete, drop, exclude, expect_fault, export, file_fault, file_of, get as get_instance, got, grant, include, instance_fault,
    instances, line, link, link_fault, linked, list_of, listed, loaded, members, members_are, named, names, put, refused, revoke, schemas,
    set_instance, validate,
)
from lib.plain_http import BODY_LIMIT, HEAD_LIMIT, answer, answers, place_behind
from lib.serving import Client, Server, as_post, get, head, post

ONE_SCHEMA = {**CONFIG, "schemas": ["t.exp"]}
TOKENS = {b"ta": "ann", b"tb": "bob"}
NO_MEMORY = refused(18, "NoMemory")

# ---- replies, as they are written down

SCHEMAS = b'HTTP/1.1 200 OK\r\nContent-Type: application/json\r\nContent-Length: 24\r\n\r\n{"ok":{"schemas":["T"]}}'
DONE = b'HTTP/1.1 200 OK\r\nContent-Type: application/json\r\nContent-Length: 9\r\n\r\n{"ok":{}}'
NOT_SEEN = b'HTTP/1.1 404 Not Found\r\nContent-Type: application/json\r\nContent-Length: 42\r\n\r\n{"refused":{"code":7,"name":"NoSuchItem"}}'
NO_REQUEST = b'HTTP/1.1 400 Bad Request\r\nContent-Type: application/json\r\nContent-Length: 42\r\n\r\n{"refused":{"code":1,"name":"BadRequest"}}'
BAD = b"HTTP/1.1 400 Bad Request\r\nContent-Length: 0\r\n\r\n"
UNAUTHORIZED = b"HTTP/1.1 401 Unauthorized\r\nContent-Length: 0\r\n\r\n"
NOT_FOUND = b"HTTP/1.1 404 Not Found\r\nContent-Length: 0\r\n\r\n"
NOT_ALLOWED = b"HTTP/1.1 405 Method Not Allowed\r\nContent-Length: 0\r\n\r\n"
LARGE_BODY = b"HTTP/1.1 413 Payload Too Large\r\nContent-Length: 0\r\n\r\n"
LARGE_HEAD = b"HTTP/1.1 431 Request Header Fields Too Large\r\nContent-Length: 0\r\n\r\n"
CODED = b"HTTP/1.1 501 Not Implemented\r\nContent-Length: 0\r\n\r\n"

ASKED = b"GET /v1/schemas HTTP/1.1\r\nAuthorization: Bearer ta\r\n\r\n"


def told(status, phrase, text):
    """The reply of this status with this JSON."""
    return b"HTTP/1.1 %d %s\r\nContent-Type: application/json\r\nContent-Length: %d\r\n\r\n%s" % (status, phrase.encode(), len(text), text)


def ok(text):
    return told(200, "OK", text)


# ---- what is asked of a server

def serving(*words, **given):
    return Server(*words, **{"config": ONE_SCHEMA, **given})


def expect_whole(server, data, wanted, closes=False):
    """One connection brings these bytes, and is written these. Then it is closed, or answers another request."""
    with Client(server) as client:
        client.ask(data, wanted)
        if closes:
            client.expect_end()
        else:
            client.ask(ASKED, SCHEMAS)


def each(rows, look):
    """Looks at each row, and says which is wrong."""
    for row in rows:
        try:
            look(*row)
        except Wrong as fault:
            raise Wrong(f"{shortened(repr(row[0]).encode()).decode()}: {fault}") from fault


def at_once(pool, rows, look):
    """The same by several threads."""
    def one(row):
        try:
            look(*row)
        except Wrong as fault:
            return f"{shortened(repr(row[0]).encode()).decode()}: {fault}"
        return None

    faults = [it for it in pool.map(one, rows) if it]
    if faults:
        raise Wrong(f"{len(faults)} rows, the first {faults[0]}")


def expect_turns(turns, **given):
    """The program answers each line of `batch`, asked by POST, with the status and the JSON beside it, on one connection of each partner."""
    with Server(**given) as server:
        clients = {who: Client(server) for who in ("ann", "bob")}
        for text, wanted in turns:
            try:
                clients[json.loads(text)["as"]].ask(as_post(text), wanted)
            except Wrong as fault:
                raise Wrong(f"{shortened(text)!r}: {fault}") from fault
        for client in clients.values():
            client.socket.close()


# ---- requests and their replies

def test_the_first_reply():
    """A request is answered by these bytes: in one piece, byte by byte, and twice in one piece."""
    with serving() as server:
        expect_whole(server, ASKED, SCHEMAS)
        expect_whole(server, ASKED + ASKED, SCHEMAS + SCHEMAS)
        with Client(server) as client:
            for byte in ASKED:
                client.send(bytes([byte]))
                time.sleep(0.0005)
            client.expect(SCHEMAS)
            client.ask(ASKED, SCHEMAS)


def test_a_model_by_http():
    """It is made and filled by POST, and read by GET."""
    file = file_of("#2=Q(#1);#1=P(0.10,'a');")
    with serving() as server:
        expect_whole(server, post(b'{"do":"create_model","name":"m","schema":"T"}'), DONE)
        expect_whole(server, post(json.dumps({"do": "put", "owner": "ann", "model": "m", "file": file}).encode()), ok(b'{"ok":{"instances":2}}'))
        rows = [
            (get("/v1/models/ann/m"), ok(FIRST_NAMES)),
            (get("/v1/models/ann/m/file"), ok(FIRST_EXPORT[:-2] + b',"links":[]}}')),
            (get("/v1/models/ann/z"), NOT_SEEN), (get("/v1/models/ann/z/file"), NOT_SEEN), (get("/v1/groups/ann/m"), NOT_SEEN),
            (get("/v1/models/ann/m", token="tb"), NOT_SEEN), (get("/v1/models/ann/z", token="tb"), NOT_SEEN),
            (get("/v1/items"), ok(listed((b"owner", b"m", b"ann")))), (get("/v1/items", token="tb"), ok(b'{"ok":{"groups":[],"models":[]}}')),
            (post(b'{"do":"create_group","name":"g","schema":"T"}'), DONE), (get("/v1/groups/ann/g"), ok(b'{"ok":{"members":[]}}')),
            (post(b'{"do":"include","group":"g","owner":"ann","model":"m"}'), DONE), (get("/v1/groups/ann/g"), ok(members_are(("ann", "m", True)))),
            (get("/v1/groups/ann/g", token="tb"), NOT_SEEN),
        ]
        each(rows, lambda asked, wanted: expect_whole(server, asked, wanted))


def test_a_file_with_links():
    """The path of a model's file tells the links too."""
    links = [link(9, "ann", "m", 1)]
    with serving() as server, Client(server) as client:
        for text in (create("ann", "m"), grant("ann", "m", "bob", "read"), create("bob", "b")):
            client.ask(as_post(text), DONE)
        client.ask(as_post(add("ann", "ann", "m", "P(1.,$)")), ok(added(1)))
        client.ask(as_post(put("bob", "bob", "b", file_of("#1=Q(#9);"), *links)), ok(instances(1)))
        client.ask(get("/v1/models/bob/b/file", token="tb"), ok(linked(canonical("#1=Q(#9);"), *links)))
        client.ask(as_post(export("bob", "bob", "b")), told(409, "Conflict", HAS_LINKS))


def test_a_status_for_each_code():
    """Each refusal has its status, and the connection stays."""
    conflict = "Conflict"
    full = [create("ann", f"c{k}") for k in range(95)]
    expect_turns([
        (create("ann", "m"), DONE), (create("bob", "b"), DONE), (create_group("ann", "g"), DONE), (create("ann", "e", "E"), DONE),
        (put("ann", "ann", "m", file_of("#2=Q(#1);#1=P(0.10,'a');")), ok(instances(2))),
        (line("ann", "fetch"), NO_REQUEST), (line("ann", "schemas", more=1), NO_REQUEST),
        (put("ann", "ann", "m", "x" * (FILE_LIMIT + 1)), told(413, "Payload Too Large", TOO_LARGE)),
        (create("ann", "a b"), told(400, "Bad Request", BAD_NAME)), (names("ann", "carl", "m"), told(400, "Bad Request", UNKNOWN_PARTNER)),
        (create("ann", "n", "Z"), told(400, "Bad Request", UNKNOWN_SCHEMA)), (create("ann", "m"), told(409, conflict, EXISTS)),
        (names("bob", "ann", "m"), NOT_SEEN), (delete("bob", "m"), NOT_SEEN),
        (grant("ann", "m", "bob", "read"), DONE), (add("bob", "ann", "m", "P(1.,$)"), told(403, "Forbidden", NO_RIGHT)),
        (include("ann", "g", "ann", "e"), told(409, conflict, WRONG_SCHEMA)), (exclude("ann", "g", "ann", "m"), told(409, conflict, MEMBERSHIP)),
        (put("ann", "ann", "m", "ISO"), told(409, conflict, file_fault("Syntax", 0))),
        (add("ann", "ann", "m", "P($)"), told(409, conflict, instance_fault("WrongCount", 3))),
        (put("ann", "ann", "m", file_of("#1=Q(#9);"), link(9, "ann", "m", 1)), told(409, conflict, link_fault("Own", 9))),
        (get_instance("ann", "ann", "m", 7), told(404, "Not Found", NO_SUCH_INSTANCE)), (drop("ann", "ann", "m", 1), told(409, conflict, IN_USE)),
        *((it, DONE) for it in [*full, create("ann", "last1"), create("ann", "last2"), create("ann", "last3")]),
        (create("ann", "over"), told(409, conflict, TOO_MANY)),
        (put("bob", "bob", "b", file_of("#1=Q(#9);"), link(9, "ann", "m", 1)), ok(instances(1))),
        (export("bob", "bob", "b"), told(409, conflict, HAS_LINKS)), (set_instance("ann", "ann", "m", 1, "P(5.,$)"), DONE),
        (get_instance("ann", "ann", "m", 1), ok(got("#1=P(5.,$);"))),
    ], config={**CONFIG, "schemas": ["t.exp", "e.exp"]}, files={"e": E})


def test_bodies_that_are_no_request():
    """They are told so in JSON, and the connection stays. `as` has no place in a body."""
    good = [b'{"do":"schemas"}', b' {"do":"schemas"}\r\n', b'{"do":"list","do":"schemas"}', b'\n\n{"d\\u006f":"schemas"}\t ']
    bad = [b"", b"{", b"{}", b"[]", b"null", b'"schemas"', b"schemas", b"\n", b"{\"do\":\"schemas\"", b'{"do":"schemas"}{"do":"schemas"}',
           b'{"do":"schemas"}\0', b'{"as":"ann","do":"schemas"}', b'{"do":"schemas","as":"bob"}', b'{"as":null,"do":"schemas"}', b'{"do":"serve"}',
           b'{"do":"Schemas"}', b'{"do":["schemas"]}', b'{"do":"create_model","name":"m"}', b'{"do":"schemas","x":1}', b'\xff', b'{"do":"\xff"}',
           b'\xef\xbb\xbf{"do":"schemas"}', b"GET /v1/schemas HTTP/1.1\r\n\r\n", b"{" * 100_000, b'{"do":"schemas",}', b"do=schemas",
           b"[" * 200 + b"]" * 200]
    with serving() as server:
        each([(post(it),) for it in good], lambda asked: expect_whole(server, asked, SCHEMAS))
        each([(post(it),) for it in bad], lambda asked: expect_whole(server, asked, NO_REQUEST))
        expect_whole(server, b"".join(post(it) for it in bad), NO_REQUEST * len(bad))


def test_who_asks():
    """A partner is known by the token that stands behind `Authorization: Bearer ` on the first such line, and by nothing else."""
    schema_of = "GET /v1/schemas HTTP/1.1\r\n{}\r\n\r\n"
    good = ["Authorization: Bearer ta", "authorization: Bearer ta", "AUTHORIZATION:Bearer ta", "Authorization: \t  Bearer ta \t ",
            "Authorization: Bearer tb", "Authorization: Bearer ta\r\nAuthorization: Bearer xx", "X: y\r\nAuthorization: Bearer ta",
            "Authorization: Bearer ta\r\nAuthorization: Basic ta"]
    bad = ["Authorization: Bearer xx", "Authorization: Bearer", "Authorization: Bearer ", "Authorization:", "Authorization: ta",
           "Authorization: bearer ta", "Authorization: BEARER ta", "Authorization: Bearer  ta", "Authorization: Bearer\tta",
           "Authorization: Bearer ta, Bearer tb", "Authorization: Bearer ta ta", "Authorization: Bearer t", "Authorization: Bearer taa",
           "Authorization: Bearer Ta", 'Authorization: Bearer "ta"', "Authorization: Bearer ta;", "Authorizatio: Bearer ta",
           "Authorization_: Bearer ta", "Proxy-Authorization: Bearer ta", "Authorization: Bearer xx\r\nAuthorization: Bearer ta",
           "Authorization: Basic dGE6\r\nAuthorization: Bearer ta", "Authorization:\r\nAuthorization: Bearer ta", "Authorization: Token ta",
           "Authorization: Bearer%20ta", "Cookie: token=ta", "Authorization: Bearer ann", "X: Authorization: Bearer ta"]
    with serving() as server:
        each([(it,) for it in good], lambda it: expect_whole(server, schema_of.format(it).encode(), SCHEMAS))
        each([(it,) for it in bad], lambda it: expect_whole(server, schema_of.format(it).encode(), UNAUTHORIZED))
        expect_whole(server, b"GET /v1/schemas HTTP/1.1\r\n\r\n", UNAUTHORIZED)
        expect_whole(server, b"GET /v1/schemas HTTP/1.1\r\nAuthorization: Bearer t\xff\r\n\r\n", UNAUTHORIZED)
        # (a body goes with its request, whoever asks)
        expect_whole(server, post(ASKED, token="no"), UNAUTHORIZED)
        expect_whole(server, post(b"x" * 3_000_000, token=None), UNAUTHORIZED)


def test_tokens_as_long_as_they_may_be():
    """Each of 128 characters, and of each character that a token may have; one that is shorter or longer is no other's."""
    characters = "ABCDEFGHIJKLMNOPQRSTUVWXYZabcdefghijklmnopqrstuvwxyz0123456789_.-"
    long = (characters * 2)[:128]
    config = {"partners": [{"name": "ann", "token": long}, {"name": "bob", "token": long[:-1]}, {"name": "cyd", "token": "-"}], "schemas": ["t.exp"]}
    with Server(config=config) as server:
        for token, name in ((long, "ann"), (long[:-1], "bob"), ("-", "cyd")):
            expect = ok(listed((b"owner", name.encode(), name.encode())))
            with Client(server) as client:
                client.ask(post(json.dumps({"do": "create_model", "name": name, "schema": "T"}).encode(), token=token), DONE)
                client.ask(get("/v1/items", token=token), expect)
        for token in (long + "A", long[:-2], long[1:], long[:-1] + "a", "--", "."):
            with Client(server) as client:
                client.ask(get("/v1/items", token=token), UNAUTHORIZED)


METHODS = ["GET", "POST", "PUT", "DELETE", "HEAD", "OPTIONS", "BREW"]
PATHS = {"/v1/requests": "POST", "/v1/schemas": "GET", "/v1/items": "GET", "/v1/models/ann/m": "GET", "/v1/models/ann/m/file": "GET",
         "/v1/groups/ann/g": "GET"}


def test_each_path_with_each_token_and_method():
    """Who isn't known comes first, then the path, then the method. The connection stays."""
    answers_to = {"/v1/requests": NO_REQUEST, "/v1/schemas": SCHEMAS, "/v1/items": ok(b'{"ok":{"groups":[],"models":[]}}')}
    rows = []
    for path, its in [*PATHS.items(), ("/v1/nothing", None), ("/", None), ("*", None)]:
        for token in ("ta", "tx", None):
            for method in METHODS:
                known = answers_to.get(path, NOT_SEEN) if method == its else NOT_ALLOWED
                wanted = UNAUTHORIZED if token != "ta" else NOT_FOUND if its is None else known
                rows.append((head(method, path, token=token), wanted))
    with serving() as server:
        each(rows, lambda asked, wanted: expect_whole(server, asked, wanted))
        expect_whole(server, b"".join(asked for asked, _ in rows), b"".join(wanted for _, wanted in rows))
        # (what a body says doesn't help)
        for method in METHODS[2:]:
            expect_whole(server, head(method, "/v1/requests", "Content-Length: 16") + b'{"do":"schemas"}', NOT_ALLOWED)
        for method in ("get", "Get", "GETS", "GE", "!#$%&'*+-.^_`|~", "M" * 10_000):
            expect_whole(server, head(method, "/v1/schemas"), NOT_ALLOWED)


def empty_repository(who, body):
    """What a repository without models and groups answers to the requests of paths."""
    try:
        asked = json.loads(body)
    except ValueError:
        return BAD_REQUEST
    if asked["do"] == "schemas":
        return loaded("T")
    if asked["do"] == "list":
        return b'{"ok":{"groups":[],"models":[]}}'
    given = [asked["owner"], asked.get("model", asked.get("group"))]
    if not all(re.fullmatch(r"[A-Za-z0-9_.-]{1,64}", it) for it in given):
        return BAD_NAME
    return NO_SUCH_ITEM if asked["owner"] in ("ann", "bob") else UNKNOWN_PARTNER


def expect_plain(server, data):
    """The connection is written what the plain reading says of an empty repository, whether or not the input ends."""
    wanted, closes = answers(data, TOKENS, empty_repository)
    with Client(server) as client:
        client.send(data)
        if not closes:
            client.half_close()
        client.expect(wanted)
        client.expect_end()


def test_paths_that_are_none():
    """A path is the whole target, as it stands: nothing is decoded, cut off or joined."""
    none = ["/v1/schemas/", "/v1/schemas?", "/v1/schemas?x=1", "/v1/schemas#x", "//v1/schemas", "/V1/schemas", "/v1/Schemas", "/v1//schemas",
            "/v1/./schemas", "/v1/x/../schemas", "/v1/%73chemas", "v1/schemas", "/v1/schema", "/v1/schemass", "/v1", "/v1/", "/v2/schemas",
            "http://127.0.0.1/v1/schemas", "127.0.0.1:80", "/v1/models", "/v1/models/", "/v1/models/ann", "/v1/models/ann/", "/v1/models//m",
            "/v1/models//", "/v1/models///", "/v1/models/ann/m/", "/v1/models/ann/m/file/", "/v1/models/ann/m/files", "/v1/models/ann/m/File",
            "/v1/models/ann/m/file/file", "/v1/models/ann//file", "/v1/models//m/file", "/v1/model/ann/m", "/v1/groups/ann", "/v1/groups/ann/",
            "/v1/groups//g", "/v1/groups/ann/g/", "/v1/groups/ann/g/file", "/v1/groups", "/v1/items/", "/v1/items/ann", "/v1/requests/",
            "/v1/requests/1", "/v1/{owner}", "/favicon.ico", "/v1/schemas\u00e9", "\u00e9", "/" * 16_000]
    known = [("/v1/models/ann/file", NO_SUCH_ITEM), ("/v1/models/file/file", UNKNOWN_PARTNER), ("/v1/models/%61nn/m", BAD_NAME),
             ("/v1/models/ann/m?x", BAD_NAME), ("/v1/models/ann/{name}", BAD_NAME), ("/v1/models/ann/" + "m" * 65, BAD_NAME),
             ("/v1/models/ann/" + "m" * 64, NO_SUCH_ITEM), ("/v1/models/carl/m", UNKNOWN_PARTNER), ("/v1/models/carl/m%20", BAD_NAME),
             ("/v1/models/ann/\u00e9", BAD_NAME), ("/v1/models/\U0001f600/m/file", BAD_NAME), ("/v1/models/./..", UNKNOWN_PARTNER),
             ("/v1/models/ann/..", NO_SUCH_ITEM), ("/v1/groups/ann/file", NO_SUCH_ITEM), ("/v1/groups/carl/g", UNKNOWN_PARTNER),
             ("/v1/groups/ann/a,b", BAD_NAME), ("/v1/models/ann/m%2Ffile", BAD_NAME), ("/v1/models/ann:x/m", BAD_NAME), ("/v1/models/*/*", BAD_NAME),
             ("/v1/models/ann/" + "\u00e9" * 5_000, BAD_NAME)]
    with serving() as server:
        each([(get(it),) for it in none], lambda asked: expect_whole(server, asked, NOT_FOUND))
        each([(get(path), answer(text)) for path, text in known], lambda asked, wanted: expect_whole(server, asked, wanted))


def test_paths_of_one_edit():
    """Each path with a byte left out, another in its place, or one more: all on one connection."""
    bytes_tried = b"/a.%\xc3?:"
    rows = []
    for path, method in PATHS.items():
        text = path.encode()
        edits = {text[:at] + text[at + 1:] for at in range(len(text))}
        edits |= {text[:at] + bytes([it]) + text[at + 1:] for at in range(len(text)) for it in bytes_tried}
        edits |= {text[:at] + bytes([it]) + text[at:] for at in range(len(text) + 1) for it in bytes_tried}
        rows += [b"%s %s HTTP/1.1\r\nAuthorization: Bearer ta\r\n\r\n" % (method.encode(), it) for it in sorted(edits) if it]
    data = b"".join(rows)
    with serving() as server, Client(server) as client:
        wanted = [answers(it, TOKENS, empty_repository) for it in rows]
        sender = threading.Thread(target=client.send, args=(data,))
        sender.start()
        each([(row, text) for row, (text, _) in zip(rows, wanted)], lambda row, text: client.expect(text))
        sender.join()
        client.ask(ASKED, SCHEMAS)


def test_targets_that_are_not_utf8():
    """They are paths that nobody knows; the connection stays. One that isn't whole yet may become a head."""
    targets = [b"\xff", b"/v1/schemas\xff", b"/v1/models/ann/\xff", b"/v1/models/ann/\xc3", b"/v1/models/\xc3\x28/m", b"/v1/models/ann/m\xed\xa0\x80",
               b"/\x80" * 8_000, b"/v1/models/ann/\xf4\x90\x80\x80", b"/v1/groups/\xfe/g", b"/v1/models/\xc0\xaf/m/file"]
    with serving() as server:
        for target in targets:
            known = b"GET " + target + b" HTTP/1.1\r\nAuthorization: Bearer ta\r\n\r\n"
            other = b"GET " + target + b" HTTP/1.1\r\nX: " + target[:50] + b"\r\n\r\n"
            expect_whole(server, known, NOT_FOUND)
            expect_whole(server, other, UNAUTHORIZED)
            expect_whole(server, ASKED + known + other + ASKED, SCHEMAS + NOT_FOUND + UNAUTHORIZED + SCHEMAS)
            expect_whole(server, b"PUT " + target + b" HTTP/1.1\r\nAuthorization: Bearer ta\r\nContent-Length: 3\r\n\r\nabc", NOT_FOUND)
            with Client(server) as client:
                client.send(b"GET " + target)
                client.expect_silence(0.02)
                client.ask(b" HTTP/1.1\r\n\r\n", UNAUTHORIZED)
                client.send(b"GET " + target)
                client.half_close()
                client.expect_end()
        expect_whole(server, b"GET /\xff HTTP/1.0\r\nAuthorization: Bearer ta\r\n\r\n", NOT_FOUND, closes=True)
        expect_whole(server, b"GET /\xff\x7f HTTP/1.1\r\n\r\n", BAD, closes=True)
        expect_whole(server, b"GET /\xff\0", BAD, closes=True)


# ---- heads

def test_heads_as_they_may_be_written():
    """Empty lines before, line feeds alone, header lines of any kind, and blanks and tabs around a value are accepted."""
    good = [
        b"\r\nGET /v1/schemas HTTP/1.1\r\nAuthorization: Bearer ta\r\n\r\n", b"\n\r\n\n\n" + ASKED, b"\r\n" * 8_000 + ASKED,
        b"GET /v1/schemas HTTP/1.1\nAuthorization: Bearer ta\n\n", b"GET /v1/schemas HTTP/1.1\r\nAuthorization: Bearer ta\n\r\n",
        b"GET /v1/schemas HTTP/1.1\nAuthorization:Bearer ta\r\n\n",
        b"GET /v1/schemas HTTP/1.1\r\nHost:\r\nA:\t\r\nb: \x80\xff \"\r\n!#$%&'*+-.^_`|~09: ::\r\nAuthorization: Bearer ta\r\nAuthorization: ta\r\n\r\n",
        ASKED[:-2] + b"Expect: 100-continue\r\nUpgrade: h2c\r\nConnection: Upgrade\r\nTE: trailers\r\nContent-Encoding: gzip\r\n\r\n",
        b"GET /v1/schemas HTTP/1.1\r\nAuthorization: Bearer ta\r\nContent-Length: 0\r\n\r\n",
        b"GET /v1/schemas HTTP/1.1\r\nAuthorization: Bearer ta\r\nContent-Length: 5\r\n\r\nabcde",
        b"GET /v1/schemas HTTP/1.1\r\nAuthorization: Bearer ta\r\nContent-Length: %d\r\n\r\n" % len(ASKED) + ASKED,
    ]
    with serving() as server:
        each([(it,) for it in good], lambda asked: expect_whole(server, asked, SCHEMAS))
        expect_whole(server, b"".join(good), SCHEMAS * len(good))


def test_heads_that_are_none():
    """They are told so, at the first byte that no continuation completes, and the connection is closed."""
    bad = [
        b" ", b"\t", b"GET  ", b"GET /\r", b"GET /\n", b"GET /v1/schemas\r", b"GET / HTTP/1.1 ", b"GET / HTTP/1.2", b"GET / HTTP/2", b"GET / h",
        b"GET / HTTP/1.1\rX", b"GET /\t", b"GET /\x7f", b"GET\t", b"GET\r", b"GET\n", b"G\xc3", b"\0", b"\xff", b"\x80", b"\r\r", b"\n\n ",
        b"\r\n\rG", b"GET / HTTP/0", b"GET / HTTP/1,", b"GET / HTTP/1.11", b"GET / HTTP/1.1\r\n ", b"GET / HTTP/1.1\r\nA: b\r\n ",
        b"GET / HTTP/1.1\r\nA: b\n\t", b"GET / HTTP/1.1\r\nA ", b"GET / HTTP/1.1\r\nA\t", b"GET / HTTP/1.1\r\nA\r", b"GET / HTTP/1.1\r\nA\n",
        b"GET / HTTP/1.1\r\n:", b"GET / HTTP/1.1\r\nA: b\0", b"GET / HTTP/1.1\r\nA: \x7f", b"GET / HTTP/1.1\r\nA: \x1b", b"GET / HTTP/1.1\r\nA: b\rc",
        b"GET / HTTP/1.1\r\nA: b\r\r", b"GET / HTTP/1.1\r\nA\xc3", b"GET / HTTP/1.1\r\n(", b"GET / HTTP/1.1\r\n\rX",
        b"GET / HTTP/1.1\r\nA: b\r\n\r\r", b"{", b"\xef", b"GET / F", b"GET / /", b"/", b"<", b"GET:",
        b"GET / HTTP/1.1\r\nAuthorization: Bearer ta\r\n\x00", b"GET / HTTP/1.1\r\nContent-Length: 5\r\nX ",
    ]
    with serving() as server:
        for text in bad:
            front = text[:-1]
            if place_behind(front) is None or place_behind(text) is not None:
                raise Wrong(f"{text!r}: the row doesn't end with its first wrong byte")
        each([(it,) for it in bad], lambda asked: expect_whole(server, asked, BAD, closes=True))
        each([(ASKED + it,) for it in bad], lambda asked: expect_whole(server, asked, SCHEMAS + BAD, closes=True))
        # (one byte before, it may become a head, and nothing is written)
        for text in bad[::4]:
            with Client(server) as client:
                client.send(text[:-1])
                client.expect_silence(0.02)
                client.ask(text[-1:], BAD)
                client.expect_end()


def test_a_wrong_byte_at_each_place_of_a_head():
    """Other bytes in place of each of a head, of each sort and at each place others: where no continuation completes it, it is told so as
    soon as that byte is there; else nothing is written before the head's end, and then what the head asks for."""
    base = b"\nGET /v1/items HTTP/1.1\r\nAuthorization:Bearer ta\r\nX: y\n\r\n"
    rows = []
    always = set(b"\0\x08\t\n\x0b\x0c\r\x1f !\"(),/0:;<=>?@A[\\]a{|}~\x7f\x80\x9f\xa0\xc3\xff")
    for at in range(len(base)):
        front = base[:at]
        for byte in range(256):
            if byte == base[at] or (byte % 5 != at % 5 and byte not in always):
                continue
            text = front + bytes([byte])
            if place_behind(text) is None:
                rows.append((text, True))
            elif byte % 4 == at % 4:
                rows.append((text + base[at + 1:], False))

    def look(text, is_wrong):
        if not is_wrong:
            expect_plain(server, text)
            return
        with Client(server) as client:
            client.ask(text, BAD)
            client.expect_end()

    with serving() as server, ThreadPoolExecutor(8) as pool:
        at_once(pool, rows, look)


def test_heads_cut_at_each_byte():
    """The input ends behind each byte of two requests: what is whole is answered, and nothing else is."""
    data = b"\r\n" + post(b'{"do":"schemas"}', "X: y") + ASKED
    with serving() as server, ThreadPoolExecutor(8) as pool:
        at_once(pool, [(data[:at],) for at in range(len(data) + 1)], lambda front: expect_plain(server, front))


def test_two_pieces_at_each_byte():
    """A pause between two bytes of an input changes nothing."""
    data = post(b'{"do":"schemas"}') + head("GET", "/v1/\xe9", token=None) + ASKED

    def look(at):
        with Client(server) as client:
            client.send(data[:at])
            time.sleep(0.01)
            client.send(data[at:])
            client.expect(SCHEMAS + UNAUTHORIZED + SCHEMAS)
            client.ask(ASKED, SCHEMAS)

    with serving() as server, ThreadPoolExecutor(16) as pool:
        at_once(pool, [(at,) for at in range(1, len(data))], look)


def padded_head(length, line_of="X: "):
    """A head of so many bytes, by one header line."""
    front, end = b"GET /v1/schemas HTTP/1.1\r\nAuthorization: Bearer ta\r\n" + line_of.encode(), b"\r\n\r\n"
    return front + b"y" * (length - len(front) - len(end)) + end


def test_heads_at_their_limit():
    """A head ends within 16,384 bytes, the empty lines before it counted. A wrong byte within them comes first."""
    with serving() as server:
        for make in (padded_head, lambda length: b"\n" * (length - len(ASKED)) + ASKED,
                     lambda length: b"\r\n" * ((length - 1000) // 2) + padded_head(1000 + length % 2)):
            good, long = make(HEAD_LIMIT), make(HEAD_LIMIT + 1)
            if (len(good), len(long)) != (16_384, 16_385):
                raise Wrong(f"{len(good)} and {len(long)} bytes")
            expect_whole(server, good, SCHEMAS)
            expect_whole(server, good + good, SCHEMAS + SCHEMAS)
            expect_whole(server, long, LARGE_HEAD, closes=True)
            expect_whole(server, ASKED + long, SCHEMAS + LARGE_HEAD, closes=True)
            # (16,384 bytes without an end are enough, and one less may become a head)
            expect_whole(server, long[:HEAD_LIMIT], LARGE_HEAD, closes=True)
            with Client(server) as client:
                client.send(long[:HEAD_LIMIT - 1])
                client.expect_silence(0.05)
                client.ask(long[HEAD_LIMIT - 1:HEAD_LIMIT], LARGE_HEAD)
                client.expect_end()
        for text, wanted in ((b"\n" * HEAD_LIMIT, LARGE_HEAD), (b"\r\n" * (HEAD_LIMIT // 2), LARGE_HEAD), (b"M" * HEAD_LIMIT, LARGE_HEAD),
                             (b"GET /" + b"x" * HEAD_LIMIT, LARGE_HEAD), (b"GET /" + b"\xff" * HEAD_LIMIT, LARGE_HEAD),
                             (b"M" * (HEAD_LIMIT - 1) + b"\0", BAD), (b"M" * HEAD_LIMIT + b"\0", LARGE_HEAD),
                             (padded_head(HEAD_LIMIT)[:-1] + b"\0", BAD), (padded_head(HEAD_LIMIT + 1)[:-1] + b"\0", LARGE_HEAD),
                             (padded_head(20_000), LARGE_HEAD), (padded_head(HEAD_LIMIT + 1, "Transfer-Encoding: "), LARGE_HEAD),
                             (padded_head(HEAD_LIMIT, "Transfer-Encoding: "), CODED)):
            expect_whole(server, text, wanted, closes=True)
        # (what was used up of an input counts for no head after it)
        expect_whole(server, padded_head(16_000) * 20, SCHEMAS * 20)
        expect_whole(server, post(b" " * 20_000) + padded_head(HEAD_LIMIT), NO_REQUEST + SCHEMAS)


def test_as_many_header_lines_as_there_may_be():
    """A head has room for 5,461 lines of three bytes but for its own first and last ones."""
    first, end = b"GET /v1/schemas HTTP/1.1\nAuthorization:Bearer ta\n", b"\n"
    count = (HEAD_LIMIT - len(first) - len(end)) // 3
    full = b"A / HTTP/1.1\n" + b"a:\n" * ((HEAD_LIMIT - 14) // 3)
    with serving() as server:
        expect_whole(server, first + b"a:\n" * count + end, SCHEMAS)
        expect_whole(server, b"a".join([first, *[b":\n"] * count]) + end, SCHEMAS)
        expect_whole(server, (first + b"a:\n" * count + end) * 3, SCHEMAS * 3)
        expect_whole(server, b"GET /v1/schemas HTTP/1.1\n" + b"a:\n" * count + b"Authorization:Bearer ta\n\n", SCHEMAS)
        expect_whole(server, first + b"a:\n" * (count + 2) + end, LARGE_HEAD, closes=True)
        expect_whole(server, full + b"\n", UNAUTHORIZED)
        expect_whole(server, full + b"a:\n\n", LARGE_HEAD, closes=True)
        expect_whole(server, b"a:\n" * 5_461, BAD, closes=True)


def test_framing():
    """The length of a body: each fault in its order, and the connection is closed; all that is no fault stays."""
    faults = [
        (["Transfer-Encoding: chunked"], CODED), (["transfer-encoding:identity"], CODED), (["Transfer-Encoding:"], CODED),
        (["TRANSFER-ENCODING: gzip, chunked"], CODED), (["Content-Length: 3", "Transfer-Encoding: chunked"], CODED),
        (["Transfer-Encoding: chunked", "Content-Length: x"], CODED), (["Content-Length: 99999999", "Transfer-Encoding: x"], CODED),
        (["Content-Length:"], BAD), (["Content-Length: +5"], BAD), (["Content-Length: -5"], BAD), (["Content-Length: 5,5"], BAD),
        (["Content-Length: 5 5"], BAD), (["Content-Length: 0x5"], BAD), (["Content-Length: 5."], BAD), (["Content-Length: five"], BAD),
        (["Content-Length: " + "0" * 19], BAD), (["Content-Length: " + "0" * 18 + "5"], BAD), (["Content-Length: \xff5"], BAD),
        (["Content-Length: 1000000000000000000"], BAD), (["Content-Length: 5", "Content-Length: 6"], BAD),
        (["Content-Length: 5", "Content-Length: "], BAD), (["Content-Length: 5", "Content-Length: 5x"], BAD),
        (["Content-Length: x", "Content-Length: 99999999"], BAD), (["Content-Length: 99999999", "Content-Length: 99999998"], BAD),
        (["Content-Length: 5", "X: y", "content-length: 50"], BAD), (["Content-Length: 16777217"], LARGE_BODY),
        (["Content-Length: 99999999"], LARGE_BODY), (["Content-Length: 999999999999999999"], LARGE_BODY),
        (["Content-Length: 000000000016777217"], LARGE_BODY), (["Content-Length: 16777217", "Content-Length: 016777217"], LARGE_BODY),
    ]
    good = [["Content-Length: 16"], ["content-length:\t 16 \t"], ["Content-Length: 000000000000000016"],
            ["Content-Length: 16", "Content-Length: 016"], ["CONTENT-LENGTH: 16", "Content-Length: 16"],
            ["X-Transfer-Encoding: chunked", "Content-Length: 16"], ["Transfer-Encodings: x", "Content-Length: 16", "Content-Lengths: 5"],
            ["Expect: 100-continue", "Content-Length: 16"], ["Content-Type: text/plain", "Content-Length: 16"],
            ["Content-Encoding: gzip", "Content-Length: 16"]]

    def asked(lines, method="POST", path="/v1/requests", token="ta", version="1.1"):
        return head(method, path, *lines, token=token, version=version).decode().encode("latin-1")

    with serving() as server:
        for lines, wanted in faults:
            # before anything is known of who asks, of what, and of the body
            each([(asked(lines), wanted), (asked(lines, token=None), wanted), (asked(lines, "GET", "/nothing"), wanted),
                  (asked(lines, "PUT", version="1.0"), wanted), (ASKED + asked(lines), SCHEMAS + wanted), (asked(lines) + ASKED, wanted),
                  (asked([*lines, "Connection: keep-alive"]), wanted)], lambda text, reply: expect_whole(server, text, reply, closes=True))
        for lines in good:
            expect_whole(server, asked(lines) + b'{"do":"schemas"}', SCHEMAS)
        # (a fault of the head comes before, and a head that isn't whole has no fault of its length yet)
        expect_whole(server, b"POST /v1/requests HTTP/1.1\r\nTransfer-Encoding: chunked\r\n\0", BAD, closes=True)
        with Client(server) as client:
            client.send(b"POST /v1/requests HTTP/1.1\r\nTransfer-Encoding: chunked\r\n")
            client.expect_silence(0.02)
            client.ask(b"\r\n", CODED)
            client.expect_end()
        expect_whole(server,
                     head("POST", "/v1/requests", "Transfer-Encoding: chunked") + b'10\r\n{"do":"schemas"}\r\n0\r\n\r\n', CODED, closes=True)


def test_what_closes():
    """HTTP/1.0, and `close` as the whole value of the first Connection line, close the connection behind the reply."""
    closes = ["Connection: close", "connection:CLOSE", "Connection: \t Close\t", "Connection: close\r\nConnection: keep-alive",
              "X: y\r\nConnection: close"]
    stays = ["Connection: keep-alive", "Connection: close, x", "Connection: x, close", "Connection: closed", "Connection: clos",
             "Connection: \"close\"", "Connection:", "Connection: close;", "Connection: keep-alive\r\nConnection: close", "Connection: Upgrade",
             "Connections: close", "Proxy-Connection: close", "X: Connection: close"]
    with serving() as server:
        for lines in closes:
            expect_whole(server, get("/v1/schemas", lines), SCHEMAS, closes=True)
            expect_whole(server, ASKED + get("/v1/schemas", lines) + ASKED, SCHEMAS + SCHEMAS, closes=True)
            each([(get("/v1/schemas", lines, token="x"), UNAUTHORIZED), (get("/nothing", lines), NOT_FOUND),
                  (head("PUT", "/v1/items", lines), NOT_ALLOWED), (post(b"{", lines), NO_REQUEST), (get("/v1/models/ann/m", lines), NOT_SEEN),
                  (post(b'{"do":"schemas"}', lines), SCHEMAS)], lambda asked, wanted: expect_whole(server, asked, wanted, closes=True))
        for lines in stays:
            expect_whole(server, get("/v1/schemas", lines), SCHEMAS)
            expect_whole(server, get("/v1/schemas", lines, version="1.0"), SCHEMAS, closes=True)
        each([(get("/v1/schemas", version="1.0"), SCHEMAS), (get("/v1/schemas", version="1.0", token=None), UNAUTHORIZED),
              (get("/nothing", version="1.0"), NOT_FOUND), (head("PUT", "/v1/items", version="1.0"), NOT_ALLOWED),
              (post(b"{", version="1.0"), NO_REQUEST), (post(b'{"do":"schemas"}', version="1.0"), SCHEMAS),
              (ASKED + get("/v1/schemas", version="1.0") + ASKED, SCHEMAS + SCHEMAS)], lambda asked,
             wanted: expect_whole(server, asked, wanted, closes=True))


def test_greetings_of_others():
    """TLS, HTTP/2 and others are told that they are no head, and the connection is closed."""
    hello = bytes.fromhex("16030100c6010000c20303") + bytes(range(32)) + b"\x20" + bytes(32) + b"\x00\x20" + bytes(range(64))
    greetings = [hello, bytes.fromhex("16030102000100"), b"PRI * HTTP/2.0\r\n\r\nSM\r\n\r\n" + b"\0\0\x12\4\0\0\0\0\0",
                 b"SSH-2.0-OpenSSH_9.2p1 Debian\r\n", b"\x80\x2e\1\0\2", bytes(100), b"\3\0\0\x13\x0e\xe0\0\0\0\0\0\1\0\x08\0\3\0\0\0",
                 b"GET /v1/schemas\r\n", b"EHLO x\r\n", b"*1\r\n$4\r\nPING\r\n", b"\xff\xfb\x1f", b"CONNECT a:1 HTTP/2\r\n\r\n"]
    with serving() as server:
        each([(it,) for it in greetings], lambda text: expect_whole(server, text, BAD, closes=True))


# ---- how an input comes

SESSION = [
    (create("ann", "m"), DONE), (put("ann", "ann", "m", file_of("#2=Q(#1);#1=P(0.10,'a');")), ok(instances(2))), (names("bob", "ann", "m"), NOT_SEEN),
    (grant("ann", "m", "bob", "write"), DONE), (add("bob", "ann", "m", "P(2.,'\u00e9')"), ok(added(3))),
    (names("bob", "ann", "m"), ok(named((1, "P"), (2, "Q"), (3, "P")))), (line("ann", "nothing"), NO_REQUEST),
    (set_instance("bob", "ann", "m", 3, "P(5.,$)"), DONE), (get_instance("ann", "ann", "m", 3), ok(got("#3=P(5.,$);"))),
    (revoke("ann", "m", "bob"), DONE), (get_instance("bob", "ann", "m", 3), NOT_SEEN), (list_of("bob"), ok(listed())), (delete("ann", "m"), DONE),
]
SESSION_INPUT = b"".join([
    *(as_post(text) for text, _ in SESSION), get("/v1/models/ann/m"), b"\r\n", get("/v1/m\xe9"), head("PUT", "/v1/items"), ASKED,
    get("/v1/schemas", "Connection: close"),
])
SESSION_OUTPUT = b"".join(wanted for _, wanted in SESSION) + NOT_SEEN + NOT_FOUND + NOT_ALLOWED + SCHEMAS + SCHEMAS


def test_any_pieces_give_the_same_bytes():
    """A session of two partners over one connection: whole, byte by byte, and in random pieces."""
    chance = random.Random(7)
    with serving() as server:
        for size in (len(SESSION_INPUT), 1, *[None] * 30):
            with Client(server) as client:
                at = 0
                while at < len(SESSION_INPUT):
                    step = size or chance.choice([1, 2, 3, 10, 50, 200, 1000])
                    client.send(SESSION_INPUT[at:at + step])
                    at += step
                    if not size and chance.random() < 0.3:
                        time.sleep(0.001)
                client.expect(SESSION_OUTPUT)
                client.expect_end()


def test_pipelines():
    """A thousand requests in one piece are answered in their order, each once; those of another are as ever beside them."""
    with serving() as server:
        expect_whole(server, ASKED * 1000, SCHEMAS * 1000)
        expect_whole(server, (ASKED + get("/nothing") + post(b"{")) * 1000, (SCHEMAS + NOT_FOUND + NO_REQUEST) * 1000)
        with Client(server) as client:
            client.ask(as_post(create("ann", "m")), DONE)
            data = b"".join(as_post(add("ann", "ann", "m", f"P({k}.,$)")) for k in range(1, 1001))
            client.ask(data, b"".join(ok(added(k)) for k in range(1, 1001)))
            mixed = [(get_instance("ann", "ann", "m", k), ok(got(f"#{k}=P({written(k)},$);"))) for k in range(1, 1001, 3)]
            client.ask(b"".join(as_post(it) for it, _ in mixed), b"".join(it for _, it in mixed))
        expect_whole(server, ASKED * 999 + b"GET  ", SCHEMAS * 999 + BAD, closes=True)
        with Client(server) as client:
            client.send(ASKED * 1000 + ASKED[:-1])
            client.half_close()
            client.expect(SCHEMAS * 1000)
            client.expect_end()


def written(number):
    """A whole number as canonical text has it where a decimal is due."""
    digits = str(number).rstrip("0")
    zeros = len(str(number)) - len(digits)
    return f"{digits}.E{zeros}" if zeros else f"{digits}."


def test_half_closed():
    """A client that ends its side gets its answers, long ones too."""
    file = file_of("".join(f"#{k}=P({k}.,$);" for k in range(1, 40_001)))
    with serving() as server:
        with Client(server) as client:
            client.send(as_post(create("ann", "m")) + as_post(put("ann", "ann", "m", file)) + get("/v1/models/ann/m") + ASKED)
            client.half_close()
            client.expect(DONE + ok(instances(40_000)) + ok(named(*((k, "P") for k in range(1, 40_001)))) + SCHEMAS)
            client.expect_end()
        for data, wanted in ((b"", b""), (b"\r\n", b""), (ASKED[:-1], b""), (post(b"{}")[:-1], b""), (ASKED + b"POST", SCHEMAS),
                             (b"GET / HTTP/2", BAD)):
            with Client(server) as client:
                client.send(data)
                client.half_close()
                client.expect(wanted)
                client.expect_end()


def test_large_bodies():
    """A body has at most 16 MiB. A put whose JSON is padded with blanks up to that is taken, and one byte more is refused at the head."""
    with serving() as server, Client(server) as client:
        client.ask(as_post(create("ann", "m")), DONE)
        padding = BODY_LIMIT - len(post_body(file_of("#1=P(1.,$);")))
        full = post_body(file_of("#1=P(1.,$);")) + b" " * padding
        client.ask(post(full), ok(instances(1)))
        client.ask(post(b" " * padding + post_body(file_of("#1=P(1.,$);"))) + ASKED, ok(instances(1)) + SCHEMAS)
        expect_whole(server, post(full + b" ")[:-len(full) - 1], LARGE_BODY, closes=True)
        expect_whole(server, ASKED + post(full + b" "), SCHEMAS + LARGE_BODY, closes=True)
        with Client(server) as other:
            chance, text, at = random.Random(3), post(full), 0
            while at < len(text):
                step = chance.choice([1, 100, 10_000, 1_000_000])
                other.send(text[at:at + step])
                at += step
            other.expect(ok(instances(1)))
        client.ask(post(b"\0" * BODY_LIMIT), NO_REQUEST)
        client.ask(post(b"{" * BODY_LIMIT, token="x"), UNAUTHORIZED)
        client.ask(post(b"{" * BODY_LIMIT, path="/nothing"), NOT_FOUND)
        client.ask(post(b"{" * BODY_LIMIT, path="/v1/schemas") + ASKED, NOT_ALLOWED + SCHEMAS)


def post_body(file):
    return json.dumps({"do": "put", "owner": "ann", "model": "m", "file": file}).encode()


def test_answers_that_close_arrive():
    """400, 413, 431 and 501 arrive though 4 MiB more are under way, and so does a last reply to a request."""
    more = b"x" * (4 * MIB)
    rows = [
        (b"GET  / HTTP/1.1\r\n\r\n", BAD), (b"\x16\x03\x01", BAD), (head("POST", "/v1/requests", "Content-Length: 5x"), BAD),
        (head("POST", "/v1/requests", "Content-Length: 99999999"), LARGE_BODY), (padded_head(HEAD_LIMIT + 1), LARGE_HEAD),
        (head("POST", "/v1/requests", "Transfer-Encoding: chunked"), CODED), (get("/v1/schemas", "Connection: close"), SCHEMAS),
        (get("/v1/schemas", version="1.0"), SCHEMAS), (get("/v1/schemas", "Connection: close", token=None), UNAUTHORIZED),
    ]
    with serving() as server:
        def look(data, wanted):
            with Client(server) as client:
                client.send(data + more)
                client.expect(wanted)
                client.expect_end()
            with Client(server) as client:
                client.send(data)
                time.sleep(0.05)
                client.send(more)
                client.expect(wanted)
                client.expect_end()

        each(rows, look)


def test_each_reply_before_the_next_request():
    """A request is handled once the reply before it is written: while a client takes nothing, what it asked behind isn't done."""
    file = file_of("#1=P(1.,'" + "x" * (7 * MIB) + "');")
    text = canonical("#1=P(1.,'" + "x" * (7 * MIB) + "');")
    with serving() as server, Client(server) as client, Client(server, room=4096) as slow:
        client.ask(as_post(create("ann", "m")), DONE)
        client.ask(as_post(put("ann", "ann", "m", file)), ok(instances(1)))
        slow.send(get("/v1/models/ann/m/file") + as_post(create("ann", "later")))
        time.sleep(0.5)
        client.ask(get("/v1/items"), ok(listed((b"owner", b"m", b"ann"))))
        slow.take_all()
        slow.expect(ok(linked(text)))
        slow.expect(DONE)
        client.ask(get("/v1/items"), ok(listed((b"owner", b"later", b"ann"), (b"owner", b"m", b"ann"))))


def test_random_inputs():
    """Inputs of requests with random edits give what the plain reading says, and none ends the program."""
    chance = random.Random(11)
    pieces = [ASKED, get("/v1/items", token="tb"), post(b"{"), post(b"", path="/v1/items"), get("/nothing"),
              get("/v1/models/ann/m/file", "Connection: close"), b"\r\n", b"\n", b"GET /v1/schemas HTTP/1.0\n\n",
              head("POST", "/v1/requests", "Content-Length: 7"), head("POST", "/v1/items", "Transfer-Encoding: x"),
              ASKED[:-2] + b"Content-Length: 3\r\n", ASKED[:-2] + b"Connection: close\r\n", b"Authorization: Bearer tb\r\n",
              get("/v1/groups/ann/g", token=None), padded_head(2_000)]

    def made():
        data = bytearray(b"".join(chance.choice(pieces) for _ in range(chance.randrange(1, 6))))
        for _ in range(chance.choice([0, 1, 1, 2, 5])):
            at, kind = chance.randrange(len(data) + 1), chance.random()
            if kind < 0.3:
                data[at:at + 1] = bytes([chance.choice(b"\0\t\n\r :/x\x7f\x80\xff05")])
            elif kind < 0.5:
                data[at:at] = chance.choice([b"\r\n", b"\n", b" ", b"\r\n\r\n", b"Content-Length: 1\r\n", bytes([chance.randrange(256)])])
            elif kind < 0.7:
                del data[at:at + chance.choice([1, 2, 10])]
            else:
                del data[at:]
        return bytes(data)

    inputs = [made() for _ in range(2_000)]
    seen = {wanted[9:12] for wanted, _ in (answers(it, TOKENS, empty_repository) for it in inputs[:300])}
    if not seen >= {b"200", b"400", b"401", b"404", b"405", b"501", b""}:
        raise Wrong(f"the inputs are answered by {seen} alone")
    with serving() as server, ThreadPoolExecutor(8) as pool:
        at_once(pool, [(it,) for it in inputs], lambda data: expect_plain(server, data))


# ---- memory

def test_a_body_without_room():
    """It is read to its end and answered NoMemory, the connection stays, and nothing has changed. Where there is room again, it is taken."""
    body = post_body(file_of("#1=P(1.,$);")) + b" " * (12 * MIB)
    with serving() as server, Client(server) as client:
        client.ask(as_post(create("ann", "m")), DONE)
        before = resource.prlimit(server.process.pid, resource.RLIMIT_AS)
        small = server.status_of("VmSize") + 4 * MIB
        resource.prlimit(server.process.pid, resource.RLIMIT_AS, (small, before[1]))
        refusal = told(503, "Service Unavailable", NO_MEMORY)
        client.ask(post(body) + ASKED, refusal + SCHEMAS)
        client.ask(post(body) + get("/v1/models/ann/m"), refusal + ok(named()))
        expect_whole(server, post(body, "Connection: close") + ASKED, refusal, closes=True)
        # (a body that nobody looks at needs no room)
        client.ask(post(body, token="x"), UNAUTHORIZED)
        client.ask(post(body, path="/v1/x"), NOT_FOUND)
        client.ask(post(body, path="/v1/items"), NOT_ALLOWED)
        resource.prlimit(server.process.pid, resource.RLIMIT_AS, before)
        client.ask(post(body), ok(instances(1)))
        client.ask(get("/v1/models/ann/m"), ok(named((1, "P"))))


# ---- partners

def replies_of(server, who, turns):
    """What a partner is told, byte for byte, where the others ask on connections of their own."""
    clients = {it: Client(server) for it in ("ann", "bob")}
    told_to = []
    for text in turns:
        asker = json.loads(text)["as"]
        clients[asker].send(as_post(text))
        seen = clients[asker].reply()
        if asker == who:
            told_to.append(seen)
    for client in clients.values():
        client.socket.close()
    return told_to


def test_isolation():
    """What bob is told doesn't depend on models of ann's that he doesn't see: the same bytes in two runs."""
    of_bob = [list_of("bob"), names("bob", "ann", "m"), create("bob", "m"), put("bob", "bob", "m", file_of("#1=P(1.,$);")),
              export("bob", "ann", "m", links=True), create_group("bob", "g"), include("bob", "g", "ann", "m"), include("bob", "g", "bob", "m"),
              members("bob", "bob", "g"), validate("bob", "bob", "g"), put("bob", "bob", "m", file_of("#1=Q(#9);"), link(9, "ann", "m", 1)),
              grant("bob", "m", "ann", "read"), names("bob", "ann", "z"), schemas("bob"), list_of("bob")]
    of_ann = [create("ann", "m"), put("ann", "ann", "m", file_of("#1=P(1.,$);#2=Q(#1);")), create_group("ann", "g"), include("ann", "g", "ann", "m"),
              add("ann", "ann", "m", "Q(#1)"), put("ann", "ann", "m", file_of("#5=P(1.,$);")), delete("ann", "m"), create("ann", "m"),
              create("ann", "n"), list_of("ann"), names("ann", "bob", "m"), create("ann", "z")]
    mixed = [it for pair in zip(of_ann, of_bob) for it in pair] + of_bob[len(of_ann):]
    with serving() as one, serving() as other:
        alone, beside = replies_of(one, "bob", of_bob), replies_of(other, "bob", mixed)
    for asked, seen, wanted in zip(of_bob, beside, alone):
        if seen != wanted:
            raise Wrong(f"{asked!r}: {shortened(seen)!r} beside ann's models, and {shortened(wanted)!r} without")
    if len(set(alone)) < 6 or len(alone) != len(of_bob):
        raise Wrong(f"bob is told {len(set(alone))} things in {len(alone)} replies")


def test_replies_go_to_who_asked():
    """Twenty connections of two partners, each with requests of its own under way at once: each gets its own replies."""
    with serving() as server:
        clients = [Client(server) for _ in range(20)]
        for k, client in enumerate(clients):
            who = ("ann", "bob")[k % 2]
            client.ask(as_post(create(who, f"m{k}")), DONE)
            client.ask(as_post(add(who, who, f"m{k}", f"P({k + 1}.,$)")), ok(added(1)))
        for _ in range(30):
            for k, client in enumerate(clients):
                who = ("ann", "bob")[k % 2]
                other = ("bob", "ann")[k % 2]
                client.send(as_post(get_instance(who, who, f"m{k}", 1)) + get(f"/v1/models/{who}/m{k}", token=f"t{who[0]}"))
                client.send(as_post(get_instance(who, other, f"m{k}", 1)))
            for k, client in enumerate(clients):
                client.expect(ok(got(f"#1=P({written(k + 1)},$);")) + ok(named((1, "P"))) + NOT_SEEN)
        for client in clients:
            client.socket.close()


# ---- the program

def expect_serve_fault(folder, *words, config="config.json", listen="127.0.0.1:0"):
    given = ["--config", config, *(["--listen", listen] if listen is not None else [])]
    try:
        expect_fault(folder.run("serve", *given, *words, seconds=20, stdin=subprocess.DEVNULL))
    except (Wrong, subprocess.TimeoutExpired) as fault:
        raise Wrong(f"{given} {words}: {fault}") from fault


def test_command_line_faults():
    """A wrong command line ends it with status 2 and one line."""
    good = ["--config", "config.json", "--listen", "127.0.0.1:0"]
    wrong = [
        [], good[:2], good[2:], ["config.json"], [*good, "x"], [*good, "--connections"], [*good, "--connections", ""],
        [*good, "--config", "config.json"], [*good, "--listen", "127.0.0.1:0"], [*good, "--until-input-ends", "--until-input-ends"],
        [*good, "--until-input-ends=1"], [*good, "--connections", "1", "--connections", "1"], [*good, "--connection", "1"], [*good, "--port", "1"],
        [*good, "--load"], [*good, "--save"], [*good, "--load", "x", "--load", "x"], [*good, "--save", "x", "--save", "x"], [*good[:2], "--listen"], [*good[:2], "--listen", "-x"], [*good, "--", "x"],
        [*good, "-c", "1"],
    ]
    numbers = ["0", "00", "-1", "+1", "1.0", "1e3", " 1", "1 ", "x", "4294967296", "99999999999999999999", "0x1", "\u0661", "1,000"]
    addresses = ["", "127.0.0.1", ":8080", "8080", "localhost:0", "127.0.0.1:", "127.0.0.1:65536", "127.0.0.1:-1", "127.0.0.1:x", "127.0.0:0",
                 "256.0.0.1:0", "127.0.0.1:0 ", " 127.0.0.1:0", "127.0.0.1:0:0", "::1:0", "[::1]", "[::1:0", "[::g]:0", "http://127.0.0.1:0",
                 "127.0.0.1:0/", "[127.0.0.1]:0", "127.0.0.1:+1"]
    with Repository(ONE_SCHEMA) as folder:
        for words in wrong:
            try:
                expect_fault(folder.run("serve", *words, seconds=20, stdin=subprocess.DEVNULL))
            except (Wrong, subprocess.TimeoutExpired) as fault:
                raise Wrong(f"{words}: {fault}") from fault
        for number in numbers:
            expect_serve_fault(folder, f"--connections={number}")
        for address in addresses:
            expect_serve_fault(folder, listen=address)
        expect_serve_fault(folder, config="absent.json")
        # (where no one can listen: another's address, which is told last)
        expect_serve_fault(folder, listen="192.0.2.1:0")
        for k in ("1", "0001", "4294967295", "000000000000000000001"):
            with Server("--connections", k, config=ONE_SCHEMA) as server:
                expect_whole_once(server)
                if int(k) == 1:
                    server.expect_ended()
        with Server(config=ONE_SCHEMA, listen="127.0.0.1:00000") as server:
            expect_whole(server, ASKED, SCHEMAS)


def expect_whole_once(server):
    with Client(server) as client:
        client.ask(ASKED, SCHEMAS)


def test_faults_in_their_order():
    """The command line, the configuration, its schemas, what they make together, the tokens, and then the address."""
    ann, bad = {"name": "ann", "token": "ta"}, {"name": "bob", "token": "t b"}
    with Repository({"partners": [ann, bad], "schemas": ["t.exp"]}, broken="SCHEMA") as folder, socket.socket() as taken:
        taken.bind(("127.0.0.1", 0))
        taken.listen()
        address = "127.0.0.1:%d" % taken.getsockname()[1]
        rows = [
            ({"partners": [ann, bad], "schemas": ["t.exp"], "x": 1}, "config.json"),
            ({"partners": [ann, ann, bad], "schemas": ["broken.exp"]}, "broken.exp"), ({"partners": [ann, ann, bad], "schemas": ["t.exp"]}, '"ann"'),
            ({"partners": [ann, bad], "schemas": ["t.exp"]}, "token"), ({"partners": [ann], "schemas": ["t.exp"]}, address),
        ]
        for config, word in rows:
            folder.write("config.json", json.dumps(config))
            try:
                expect_fault(folder.run("serve", "--config", "config.json", "--listen", address, seconds=20, stdin=subprocess.DEVNULL), word)
            except Wrong as fault:
                raise Wrong(f"{config}: {fault}") from fault


def test_wrong_files():
    """A configuration or a schema that isn't there, isn't one, or is too long ends it with status 2 and one line."""
    ann = '{"partners":[{"name":"ann","token":"ta"}],"schemas":%s}'
    texts = {
        "empty.json": "", "list.json": "[]", "word.json": "config", "cut.json": ann[:-4], "key.json": '{"partners":[],"schemas":[],"listen":"x"}',
        "partner.json": '{"partners":[{"name":"a b","token":"ta"}],"schemas":["t.exp"]}', "token.json": '{"partners":[{"name":"ann"}],"schemas":[]}',
        "absent.json": ann % '["nothing.exp"]', "folder.json": ann % '["folder"]', "broken.json": ann % '["t.exp","broken.exp"]',
        "twice.json": ann % '["t.exp","t.exp"]', "long.json": ann % '["t.exp"]' + " " * FILE_LIMIT, "schema.json": ann % '["long.exp"]',
    }
    with Repository(ONE_SCHEMA, broken="SCHEMA A; END_SCHEMA", long="SCHEMA A; END_SCHEMA;" + " " * FILE_LIMIT) as folder:
        folder.write("folder/x", "")
        for name, text in texts.items():
            folder.write(name, text)
        for name in (*texts, "nothing.json", "folder", ""):
            expect_serve_fault(folder, config=name)


def test_wrong_tokens():
    """A token is 1 to 128 characters that a name may have, and no two partners have one. `batch` asks for no less."""
    def partners(*tokens):
        return {"partners": [{"name": f"p{k}", "token": it} for k, it in enumerate(tokens)], "schemas": ["t.exp"]}

    bad = [[""], ["a b"], ["a\n"], [" a"], ["\u00e9"], ["x" * 129], ["a/b"], ["a:b"], ["a+b"], ["a="], ["\0"], ["ta", ""], ["ta", "ta", "a b"]]
    twice = [["ta", "ta"], ["ta", "tb", "ta"], ["x" * 128, "x", "x" * 128]]
    for tokens, words in [*((it, "a token isn't 1 to 128 of") for it in bad), *((it, "two partners have one token") for it in twice)]:
        with Repository(partners(*tokens)) as folder:
            expect_fault(folder.run("serve", "--config", "config.json", "--listen", "127.0.0.1:0", seconds=20, stdin=subprocess.DEVNULL), words)
            expect_fault(folder.batch(b'{"as":"p0","do":"schemas"}'), words)
    for tokens in (["x" * 128], ["t", "T"], ["-", "_", "."], ["0"], ["t", "tt", "ttt"]):
        with Repository(partners(*tokens)) as folder:
            seen = folder.batch(b'{"as":"p0","do":"schemas"}')
            if seen != (0, loaded("T") + b"\n", b""):
                raise Wrong(f"{tokens}: {seen!r}")
        with Server(config=partners(*tokens)) as server, Client(server) as client:
            client.ask(get("/v1/schemas", token=tokens[-1]), SCHEMAS)


def test_a_taken_port():
    """A port that another listens on is status 2 and one line; the other goes on."""
    with serving() as server, Repository(ONE_SCHEMA) as folder:
        expect_serve_fault(folder, listen="%s:%d" % server.address)
        expect_whole(server, ASKED, SCHEMAS)


def test_ipv6():
    """An address in brackets is served where the machine has it."""
    try:
        with socket.socket(socket.AF_INET6) as it:
            it.bind(("::1", 0))
    except OSError:
        return
    with Server(config=ONE_SCHEMA, listen="[::1]:0") as server:
        expect_whole(server, ASKED, SCHEMAS)
        if server.family != socket.AF_INET6:
            raise Wrong(f"it says that it listens on {server.address}")


def test_all_addresses():
    """0.0.0.0 is every address of the machine; the line says what was asked for, and the port."""
    with Server(config=ONE_SCHEMA, listen="0.0.0.0:0") as server:
        if server.address[0] != "0.0.0.0" or not server.address[1]:
            raise Wrong(f"it says that it listens on {server.address}")
        server.address = "127.0.0.1", server.address[1]
        expect_whole(server, ASKED, SCHEMAS)


def test_so_many_connections():
    """It takes N connections and ends with status 0 when the last of them has ended, however they end."""
    with serving("--connections", "1") as server:
        expect_whole_once(server)
        server.expect_ended()
    with serving("--connections", "4") as server:
        first, second, third = Client(server), Client(server), Client(server)
        first.ask(ASKED, SCHEMAS)
        second.send(b"GET  ")
        second.expect(BAD)
        second.expect_end()
        second.socket.close()
        third.send(ASKED[:10])
        third.reset()
        with Client(server) as fourth:
            fourth.ask(ASKED, SCHEMAS)
            first.ask(ASKED, SCHEMAS)
            first.socket.close()
            time.sleep(0.3)
            if server.process.poll() is not None:
                raise Wrong("it ended before its last connection")
            fourth.ask(get("/v1/schemas", "Connection: close"), SCHEMAS)
            fourth.expect_end()
        server.expect_ended()
    with serving("--connections=100") as server:
        for k in range(100):
            with Client(server) as client:
                client.ask(get("/v1/schemas", *(["Connection: close"] if k % 2 else [])), SCHEMAS)
        server.expect_ended()
    # (one more isn't served)
    with serving("--connections", "1") as server, Client(server) as client:
        client.ask(ASKED, SCHEMAS)
        try:
            with Client(server, seconds=1) as other:
                other.send(ASKED)
                if other.piece():
                    raise Wrong("a connection more than it takes is served")
        except (OSError, Wrong) as fault:
            if "is served" in str(fault):
                raise
        client.ask(ASKED, SCHEMAS)
        client.socket.close()
        server.expect_ended()


def test_until_the_input_ends():
    """It ends with status 0 once its standard input has ended, and what came whole is answered before. What stands there isn't looked at."""
    with serving("--until-input-ends", stdin=subprocess.PIPE) as server:
        expect_whole(server, ASKED, SCHEMAS)
        server.process.stdin.write(b"some lines\n" * 10_000)
        expect_whole(server, ASKED, SCHEMAS)
        server.process.stdin.close()
        server.process.stdin = None
        server.expect_ended()
    with serving("--until-input-ends", stdin=subprocess.PIPE) as server, Client(server, room=4096) as client, \
            Client(server) as silent, Client(server) as half:
        silent.ask(ASKED, SCHEMAS)
        half.send(ASKED[:20])
        client.ask(as_post(create("ann", "m")), DONE)
        client.ask(as_post(put("ann", "ann", "m", file_of("#1=P(1.,'" + "x" * (6 * MIB) + "');"))), ok(instances(1)))
        client.send(get("/v1/models/ann/m/file") + ASKED)
        time.sleep(0.5)
        server.process.stdin.close()
        server.process.stdin = None
        client.take_all()
        client.expect(ok(linked(canonical("#1=P(1.,'" + "x" * (6 * MIB) + "');"))))
        client.expect(SCHEMAS)
        client.expect_end()
        server.expect_ended()
        for it in (silent, half):
            it.expect_end()
    with serving("--until-input-ends", stdin=subprocess.DEVNULL) as server:
        server.expect_ended()
    with open(__file__, "rb") as text, serving("--until-input-ends", stdin=text) as server:
        server.expect_ended()
    with serving("--until-input-ends", "--connections", "2", stdin=subprocess.PIPE) as server:
        expect_whole(server, ASKED, SCHEMAS)
        expect_whole(server, ASKED, SCHEMAS)
        server.expect_ended()
    # (without the option nothing is read there)
    with serving(stdin=subprocess.PIPE) as server:
        server.process.stdin.close()
        server.process.stdin = None
        time.sleep(0.2)
        expect_whole(server, ASKED, SCHEMAS)


def test_a_signal_ends_it():
    """At once, whatever is under way."""
    with serving() as server, Client(server, room=4096) as client, Client(server) as half:
        client.ask(as_post(create("ann", "m")), DONE)
        client.ask(as_post(put("ann", "ann", "m", file_of("#1=P(1.,'" + "x" * (6 * MIB) + "');"))), ok(instances(1)))
        client.send(get("/v1/models/ann/m/file"))
        half.send(ASKED[:20])
        time.sleep(0.1)
        server.process.send_signal(signal.SIGTERM)
        server.expect_ended(-signal.SIGTERM, seconds=1)


def test_a_port_is_free_again():
    """After a server is killed under load, another listens on its port at once."""
    for _ in range(3):
        with serving() as server:
            stop = threading.Event()

            def load():
                while not stop.is_set():
                    try:
                        with Client(server, seconds=2) as client:
                            while not stop.is_set():
                                client.ask(ASKED * 50, SCHEMAS * 50)
                    except (Wrong, OSError):
                        continue

            threads = [threading.Thread(target=load) for _ in range(4)]
            for it in threads:
                it.start()
            time.sleep(0.3)
            server.kill()
            try:
                with Server(config=ONE_SCHEMA, listen="%s:%d" % server.address) as again:
                    expect_whole_once(again)
                    stop.set()
                    for it in threads:
                        it.join()
            finally:
                stop.set()


# ---- clients of others

HTTP_CLIENT = """
import http.client, json, sys
it = http.client.HTTPConnection("127.0.0.1", int(sys.argv[1]), timeout=20)
ann = {"Authorization": "Bearer ta"}
def ask(method, path, body=None, headers=ann):
    it.request(method, path, body, headers)
    reply = it.getresponse()
    print(method, path, reply.status, reply.reason, reply.getheader("Content-Type"), reply.read().decode())
ask("GET", "/v1/schemas")
ask("POST", "/v1/requests", json.dumps({"do": "create_model", "name": "m", "schema": "T"}))
ask("GET", "/v1/items")
ask("GET", "/v1/models/ann/m")
ask("GET", "/v1/models/ann/z")
ask("GET", "/v1/schemas", headers={})
ask("HEAD", "/v1/schemas")
ask("GET", "/v1/items", headers={**ann, "Connection": "close"})
it.close()
ask("POST", "/v1/requests", b"{")
"""
HTTP_CLIENT_SEES = """GET /v1/schemas 200 OK application/json {"ok":{"schemas":["T"]}}
POST /v1/requests 200 OK application/json {"ok":{}}
GET /v1/items 200 OK application/json {"ok":{"groups":[],"models":[{"level":"owner","name":"m","owner":"ann","schema":"T"}]}}
GET /v1/models/ann/m 200 OK application/json {"ok":{"names":[]}}
GET /v1/models/ann/z 404 Not Found application/json {"refused":{"code":7,"name":"NoSuchItem"}}
GET /v1/schemas 401 Unauthorized None{0}
HEAD /v1/schemas 405 Method Not Allowed None{0}
GET /v1/items 200 OK application/json {"ok":{"groups":[],"models":[{"level":"owner","name":"m","owner":"ann","schema":"T"}]}}
POST /v1/requests 400 Bad Request application/json {"refused":{"code":1,"name":"BadRequest"}}
""".replace("{0}", " ")  # (no line ends with a blank here)


def test_pythons_own_client():
    """http.client asks on one connection, and on another where it asked to close the first: the reply doesn't tell it so."""
    with serving() as server:
        done = subprocess.run([sys.executable, "-I", "-c", HTTP_CLIENT, str(server.address[1])], capture_output=True, text=True, timeout=60,
                              check=False)
    if (done.returncode, done.stdout, done.stderr) != (0, HTTP_CLIENT_SEES, ""):
        raise Wrong(f"status {done.returncode}, {done.stdout}, {done.stderr}")


def test_curl():
    """curl asks as docs/HTTP.md says, a body of 8 MiB without Expect too."""
    if not shutil.which("curl"):
        raise Wrong("curl isn't there")
    with serving() as server:
        address = "http://127.0.0.1:%d" % server.address[1]
        server.folder.write("put.json", post_body(file_of("#1=P(1.,'" + "x" * (7 * MIB) + "');")))
        ann = ["-H", "Authorization: Bearer ta"]
        status = ["-o", "/dev/null", "-w", "%{http_code}"]
        rows = [
            ([*ann, f"{address}/v1/schemas"], loaded("T")),
            ([*ann, "-d", '{"do":"create_model","name":"m","schema":"T"}', f"{address}/v1/requests"], OK),
            ([*ann, "-H", "Expect:", "--data-binary", "@put.json", f"{address}/v1/requests"], instances(1)),
            ([*ann, f"{address}/v1/models/ann/m"], named((1, "P"))),
            ([*ann, *[f"{address}/v1/models/ann/m"] * 2, f"{address}/v1/schemas"], named((1, "P")) * 2 + loaded("T")),
            ([*status, f"{address}/v1/schemas"], b"401"), ([*ann, *status, f"{address}/v1/models/ann/z"], b"404"),
            ([*ann, "--http1.0", f"{address}/v1/schemas"], loaded("T")), ([*ann, *status, "-T", "put.json", f"{address}/v1/items"], b"405"),
            ([*ann, *status, "-I", f"{address}/v1/items"], b"405"),
            ([*ann, *status, "-H", "Expect: 100-continue", "-d", "{", f"{address}/v1/requests"], b"400"),
        ]
        for words, wanted in rows:
            done = subprocess.run(["curl", "-q", "-s", "--noproxy", "*", "--max-time", "30", *words], cwd=server.folder.folder.name,
                                  capture_output=True, timeout=60, check=False)
            if (done.returncode, done.stdout) != (0, wanted):
                raise Wrong(f"{words}: status {done.returncode}, {shortened(done.stdout)!r}, {done.stderr!r}")


if __name__ == "__main__":
    run_tests("http", globals(), sys.argv[1:])
