"""The plain reading of HTTP in Python: how an input is cut into requests, and what is written to it, byte for byte.

It is written from docs/HTTP.md, and never from the program. An input is all that a connection brings, however it comes. What a
request of the repository is answered isn't found out here: `answers` asks for it.
"""
import json
import re
from typing import NamedTuple

MIB = 1024 * 1024
HEAD_LIMIT = 16_384
BODY_LIMIT = 16 * MIB

PHRASES = {
    200: b"OK", 400: b"Bad Request", 401: b"Unauthorized", 403: b"Forbidden", 404: b"Not Found", 405: b"Method Not Allowed", 409: b"Conflict",
    413: b"Payload Too Large", 431: b"Request Header Fields Too Large", 501: b"Not Implemented", 503: b"Service Unavailable",
}
# by the code of a refusal; each other one is 409
STATUSES = {1: 400, 2: 413, 3: 400, 4: 400, 5: 400, 7: 404, 8: 403, 14: 404, 18: 503}


# ---- replies

def bare(status):
    """The reply without a body."""
    return b"HTTP/1.1 %d %s\r\nContent-Length: 0\r\n\r\n" % (status, PHRASES[status])


def answer(text):
    """The reply with this JSON, which is what `batch` answers without its line feed."""
    refusal = json.loads(text).get("refused")
    status = STATUSES.get(refusal["code"], 409) if refusal else 200
    return b"HTTP/1.1 %d %s\r\nContent-Type: application/json\r\nContent-Length: %d\r\n\r\n%s" % (status, PHRASES[status], len(text), text)


# ---- heads

LETTERS = frozenset(b"ABCDEFGHIJKLMNOPQRSTUVWXYZabcdefghijklmnopqrstuvwxyz0123456789!#$%&'*+-.^_`|~")
OTHERS = frozenset(range(0x80, 0x100))
TARGET = frozenset(range(0x21, 0x7F)) | OTHERS
VALUE = frozenset([9]) | frozenset(range(0x20, 0x7F)) | OTHERS


def next_places(*ways):
    """The place that each byte leads to."""
    return {byte: place for letters, place in ways for byte in letters}


# Where one may be in a head, and where the next byte leads. A byte that leads nowhere is wrong there.
PLACES = {
    "start": next_places((b"\r", "empty"), (b"\n", "start"), (LETTERS, "method")),
    "empty": next_places((b"\n", "start")),
    "method": next_places((LETTERS, "method"), (b" ", "blank")),
    "blank": next_places((TARGET, "target")),
    "target": next_places((TARGET, "target"), (b" ", "version 0")),
    **{f"version {at}": next_places(([byte], f"version {at + 1}")) for at, byte in enumerate(b"HTTP/1.")},
    "version 7": next_places((b"01", "version 8")),
    "version 8": next_places((b"\r", "feed"), (b"\n", "line")),
    "feed": next_places((b"\n", "line")),
    "line": next_places((LETTERS, "name"), (b"\r", "last"), (b"\n", "end")),
    "name": next_places((LETTERS, "name"), (b":", "value")),
    "value": next_places((VALUE, "value"), (b"\r", "feed"), (b"\n", "line")),
    "last": next_places((b"\n", "end")),
}


def place_behind(front):
    """The place behind a front of a head, None where no continuation completes it."""
    place = "start"
    for byte in front:
        place = PLACES[place].get(byte)
        if place is None:
            return None
    return place


def head_length(data):
    """How many bytes the head has; None where it may become one, and the status where it may not."""
    place = "start"
    for at, byte in enumerate(data[:HEAD_LIMIT]):
        place = PLACES[place].get(byte)
        if place is None:
            return None, 400
        if place == "end":
            return at + 1, None
    return None, 431 if len(data) >= HEAD_LIMIT else None


# ---- requests

class Message(NamedTuple):
    """A request with its body."""

    method: bytes
    target: bytes
    token: bytes
    stays: bool
    body: bytes


def first_of(fields, name):
    """The value of the first line of this name, if there is one."""
    return next((value for other, value in fields if other == name), None)


def body_length(fields):
    """The length of the body, or the status of its fault."""
    if first_of(fields, b"transfer-encoding") is not None:
        return None, 501
    lengths = [value for name, value in fields if name == b"content-length"]
    if not all(re.fullmatch(rb"[0-9]{1,18}", it) for it in lengths) or len({int(it) for it in lengths}) > 1:
        return None, 400
    length = int(lengths[0]) if lengths else 0
    return (None, 413) if length > BODY_LIMIT else (length, None)


def next_message(data):
    """The first request of an input and its length; or nothing, and the status of the fault, if there is one."""
    end, fault = head_length(data)
    if end is None:
        return None, fault
    first, *lines = re.sub(rb"^(?:\r?\n)+", b"", data[:end]).replace(b"\r\n", b"\n").split(b"\n")[:-2]
    method, target, version = first.split(b" ")
    fields = [(name.lower(), value.strip(b" \t")) for name, _, value in (it.partition(b":") for it in lines)]
    length, fault = body_length(fields)
    if fault or len(data) < end + length:
        return None, fault
    given = first_of(fields, b"authorization") or b""
    token = given[7:] if given.startswith(b"Bearer ") else None
    stays = version == b"HTTP/1.1" and (first_of(fields, b"connection") or b"").lower() != b"close"
    return (Message(method, target, token, stays, data[end:end + length]), end + length), None


def asked(target):
    """The method of a path and what it asks for, but for a body; None where it is no path."""
    try:
        words = target.decode().split("/")
    except UnicodeDecodeError:
        return None
    fixed = {"/v1/requests": ("POST", None), "/v1/schemas": ("GET", {"do": "schemas"}), "/v1/items": ("GET", {"do": "list"})}
    if target.decode() in fixed:
        return fixed[target.decode()]
    if words[:2] != ["", "v1"] or len(words) < 5 or not words[3] or not words[4]:
        return None
    kind, owner, name, rest = words[2], words[3], words[4], words[5:]
    if kind == "models" and rest in ([], ["file"]):
        return "GET", {"do": "export", "links": True, "owner": owner, "model": name} if rest else {"do": "names", "owner": owner, "model": name}
    if kind == "groups" and rest == []:
        return "GET", {"do": "members", "owner": owner, "group": name}
    return None


def answered(message, tokens, ask):
    """What is written to a request. `ask` gives the JSON to a partner's request, which is told without `as`."""
    if message.token not in tokens:
        return bare(401)
    found = asked(message.target)
    if found is None:
        return bare(404)
    method, request = found
    if message.method != method.encode():
        return bare(405)
    return answer(ask(tokens[message.token], message.body if request is None else json.dumps(request).encode()))


def answers(data, tokens, ask):
    """All that is written to an input, and whether the connection is closed then, though more may come."""
    written = []
    while True:
        found, fault = next_message(data)
        if fault:
            return b"".join([*written, bare(fault)]), True
        if found is None:
            return b"".join(written), False
        message, length = found
        written.append(answered(message, tokens, ask))
        if not message.stays:
            return b"".join(written), True
        data = data[length:]
