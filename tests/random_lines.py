#!/usr/bin/env python3
"""Gives random lines of three partners to one process of the built program, and compares each reply, byte for byte, with
that of the plain repository in plain_model.py.

    tests/random_lines.py [PROGRAM] [--lines N] [--runs R] [--seed S]

The lines, 20,000 where nothing is said, come from the seed alone. They are requests of each sort and with each refusal
but NoMemory, lines of no partner, and lines that are no request. There are few names, so that rights, grants, links and models
that are deleted and created anew meet; now and then there is a model of many instances, which change what they use. With
--runs the lines are given to so many processes one after the other, each of which loads what the one before has saved; what
each saves is compared with the snapshot of the plain repository. The first difference is told, with the seed and the line. From
3,000 lines on it is a failure too where some sort of reply was never due. The last line is 'random lines: N passed, M failed',
and the status is 0 only if none failed.

A request is a function in MAKERS, by its `do`: it gives the keys. What the request means stands in plain_model.py.
"""
import argparse
import collections
import itertools
import json
import random
import sys

from lib.harness import end, shortened, take_program
from lib.messages import file_of
from lib.plain_binding import DEFAULT_HEADER, UNSET, Entity, Instance, InstanceFault, Item, Real, Reference, Schema, Typed, bound, express, references_of
from lib.plain_model import (
    CODES, GROUPING, LINE_LIMIT, LINKS_OF_ONE_MODEL, READING, REQUESTS, TEXT_LIMIT, WRITING, File, FileFault, Link, Mapping, Repository, request_of,
    targets,
)
from lib.plain_snapshots import snapshot_of
from lib.random_files import POOL, UNDEFINED, T, exchange_file, instance_text, long_file, schema_text
from lib.saving import Saving, difference

LABEL = "random lines"
PARTNERS = ["ann", "bob", "cyd"]
NO_PARTNERS = ["carl", "ANN", "annn", "_"]
SCHEMAS = [T, Schema("l", {}, {"e": Entity()}), Schema("s", {}, {})]
CONFIG = {"partners": [{"name": name, "token": name} for name in PARTNERS], "schemas": ["t.exp", "l.exp", "s.exp"]}

NAMES = ["m"] * 16 + ["n"] * 5 + ["k", "M", "A-z.0_9", "x" * 64]
NO_NAMES = ["", "a b", "y" * 65, "é", "a/b", "m\n", "\0", " m"]
# more models than one owner may have
CROWD = [f"c{place}" for place in range(103)]

# names of links that few instances have; names of instances, whole numbers that are too great, and numbers that aren't whole
LINKED = [*range(20, 32), 102, 103, 999_999_999_999_999_997]
NUMBERS = POOL + [12, 20, 102, 10**18, 2**63, 2**64 - 1, 2**64, 10**308, -1, -2**63, -2**64, 1.0, -0.0, 0.5, 1e300]

# entities of T, words that are none, and roles through them
ENTITIES = ["P", "p", "Q", "q", "R", "Point", "UNIT", "METRE", "SI_UNIT", "B2", "V", "W", "A_1", "E"]
NO_ENTITIES = ["", "T", "T.P", "LEN", "p ", "ſ", "X"]
ROLES = ["", "", "T.Q.A", "T.Q.A", "T.R.MANY", "T.POINT.TOWARD", "T.UNIT.SAID", "T.METRE.SAID", "T.SI_UNIT.SAID", "T.V.B", "T.B2.B", "T.W.X"]
NO_ROLES = ["t.q.a", "T.Q.a", "T.Q", "T.Q.A.", "T..A", ".", "Q.A", "T.P.A", "L.Q.A", "T.T.T", "T.Q.A ", "é"]

NAMED_SCHEMAS = ["T"] * 30 + ["t", "T {1 0 10303}", "t{", "T\r\n", "\nT\t", "L", "l x", "S", "ſ", "", " T", "TT"]

# from how many lines on each sort of reply has to be due
ENOUGH = 3000
DUE = {
    *REQUESTS, *(name for name in CODES if name != "NoMemory"),
    *(f"FileFault {kind}" for kind in ("Token", "Open", "Number", "Syntax", "Sections", "Deep")),
    *(f"InstanceFault {kind}" for kind in ("Twice", "UnknownEntity", "IllegalCombination", "WrongCount", "NotDerived", "WrongKind",
                                           "Undefined")),
    *(f"LinkFault {kind}" for kind in ("Defined", "Own", "NotSeen", "OtherSchema", "NoInstance")), "put with links", "export with links",
    "grant model", "grant group", "revoke model", "revoke group", *(f"{do} with rows" for do in ("members", "extent", "users")),
    "users by links", "users by links to a model created anew", "users by links to an instance made again", "drop of what is linked",
}


class Maker:
    """Random choices, and what the texts say that were made by them. It looks at the plain repository, so that many requests
    name what is there."""

    def __init__(self, seed):
        self.random = random.Random(seed)
        self.repository = Repository(PARTNERS, SCHEMAS, self.file_said, self.mapping_said, self.text_said)
        # a word may come in place of any value
        self.files = {"m": FileFault("Syntax", 0)}
        self.mappings = {"m": FileFault("Syntax", 1)}
        self.texts = {"m": {"fault": {"at": 0, "kind": "Syntax"}}}

    def happens(self, probability):
        return self.random.random() < probability

    def choice(self, *lists):
        return self.random.choice([it for items in lists for it in items])

    def name(self):
        return self.choice(NO_NAMES) if self.happens(0.03) else self.choice(NAMES, CROWD[::60])

    def partner(self):
        return self.choice(NO_PARTNERS, NO_NAMES) if self.happens(0.04) else self.choice(PARTNERS)

    def owner(self, who):
        return who if self.happens(0.6) else self.partner()

    def text_of(self, text, said):
        self.texts[text] = said
        return text

    def mapping_of(self, text, said):
        self.mappings[text] = said
        return text

    def file_of(self, text, said):
        self.files[text] = said
        return text

    def file_said(self, text):
        return self.files[text]

    def mapping_said(self, text):
        return self.mappings[text]

    def text_said(self, text):
        return self.texts[text]

    def models(self, who, *levels):
        """The models on which a partner has one of these levels."""
        return [it for it in self.repository.models if self.repository.level(who, it) in levels]

    def group(self, who):
        """The owner and the name of a group, mostly of one that the partner sees, and its population."""
        seen = [it for it in self.repository.groups if self.repository.level(who, it)]
        if seen and self.happens(0.85):
            found = self.choice([it for it in seen if self.repository.population(it)] or seen)
            return found.owner, found.name, self.repository.population(found)
        return self.owner(who), self.name(), []

    def own_group(self, who):
        """The name of a group, mostly of one of the partner's, and its members."""
        own = [it for it in self.repository.groups if it.owner == who]
        if own and self.happens(0.9):
            found = self.choice(own)
            return found.name, found.members
        return self.name(), []

    def model(self, who):
        """The owner and the name of a model, mostly of one that the partner may write, and the names of its instances and links."""
        may_write = self.models(who, *WRITING)
        if may_write and self.happens(0.8):
            found = self.choice([it for it in may_write if it.names()] or may_write)
            return found.owner, found.name, found.names()
        return self.owner(who), self.name(), []

    def target(self, who, owner, name):
        """An instance that a link of the model of this name may lead to, or at times of the model itself, of any or of one of
        another schema, or one that isn't there."""
        holder = self.repository.visible(who, owner, name)
        others = [it for it in self.models(who, *READING) if it is not holder]
        fitting = [it for it in others if it.instances and (not holder or it.schema == holder.schema)]
        kind = self.random.random()
        if kind < 0.04:
            return owner, name, self.choice(POOL)
        if kind < 0.15:
            fitting = [it for it in others if holder and it.schema != holder.schema]
        if kind > 0.95 or not fitting:
            return self.partner(), self.name(), self.choice(POOL)
        found = self.choice(fitting)
        is_there = found.instances and self.happens(0.95)
        return found.owner, found.name, self.choice([it.name for it in found.instances] if is_there else POOL)

    def links(self, who, owner, name):
        """Links of a model of this name, mostly such as it may have."""
        names = self.random.sample(LINKED, self.choice([1, 1, 2, 3, 4]))
        if self.happens(0.15):
            names.append(self.choice(names if self.happens(0.5) else POOL))
        targets = [(it, *self.target(who, owner, name)) for it in names]
        return [{"name": it, "owner": of, "model": model, "instance": instance} for it, of, model, instance in targets]


def is_taken(said, linked):
    """Whether a file has no fault, nor an instance of it by the schema T, where these names are linked."""
    try:
        return isinstance(said, File) and bool(bound(T, said.instances, linked))
    except InstanceFault:
        return False


def whole_file(it, linked=frozenset()):
    """A file that a model of the schema T takes, where these names are linked."""
    while True:
        text, said = exchange_file(it.random, "T", None, sorted(linked))
        if is_taken(said, linked):
            return text, said


# ---- requests

def create_model(it, _):
    return {"name": it.name(), "schema": it.choice("T" * 18, "tLLlls", ["U", "", "ſ", "TL", " T"])}


def delete_model(it, _):
    return {"name": it.name()}


def put(it, who):
    owner, name = it.model(who)[:2] if it.happens(0.5) else (it.owner(who), it.name())
    links = it.links(who, owner, name) if it.happens(0.4) else []
    if links and it.happens(0.6):
        made = whole_file(it, {link["name"] for link in links})
    else:
        section = it.choice(NAMED_SCHEMAS) if it.happens(0.25) else None
        made = exchange_file(it.random, it.choice(NAMED_SCHEMAS), section, [link["name"] for link in links])
    return {"owner": owner, "model": name, "file": it.file_of(*made), **({"links": links} if links or it.happens(0.1) else {})}


def export(it, who):
    owner, name = it.model(who)[:2] if it.happens(0.3) else (it.owner(who), it.name())
    return {"owner": owner, "model": name, **it.choice([{}, {}, {"links": True}, {"links": True}, {"links": False}])}


def names(it, who):
    return {"owner": it.owner(who), "model": it.name()}


def get(it, who):
    owner, name, there = it.model(who)
    instance = it.choice(NUMBERS) if it.happens(0.2) else it.choice(there or POOL)
    return {"owner": owner, "model": name, "instance": instance}


def add(it, who):
    owner, name, there = it.model(who)
    return {"owner": owner, "model": name, "text": it.mapping_of(*instance_text(it.random, there + [UNDEFINED] * it.happens(0.1)))}


def set_instance(it, who):
    owner, name, there = it.model(who)
    instance = it.choice(NUMBERS) if it.happens(0.2) else it.choice(there or POOL)
    return {"owner": owner, "model": name, "instance": instance, "text": it.mapping_of(*instance_text(it.random, there))}


def list_models(_it, _who):
    return {}


def grant(it, _):
    kind = it.choice(["model", "model", "group"])
    return {"kind": kind, "name": it.name(), "to": it.partner(), "level": "read" if kind == "group" else it.choice(["read", "group", "group", "write"])}


def revoke(it, _):
    return {"kind": it.choice(["model", "model", "group"]), "name": it.name(), "to": it.partner()}


def include(it, who):
    """Mostly of a model that the partner may put into a group."""
    may_group = it.models(who, *GROUPING)
    if may_group and it.happens(0.8):
        found = it.choice(may_group)
        return {"group": it.own_group(who)[0], "owner": found.owner, "model": found.name}
    return {"group": it.own_group(who)[0], "owner": it.owner(who), "model": it.name()}


def exclude(it, who):
    """Mostly of a member."""
    group, there = it.own_group(who)
    owner, name = it.choice(there) if there and it.happens(0.7) else (it.owner(who), it.name())
    return {"group": group, "owner": owner, "model": name}


def members(it, who):
    owner, name, _ = it.group(who)
    return {"owner": owner, "group": name}


def extent(it, who):
    """Mostly of an entity that is there."""
    owner, name, population = it.group(who)
    if population and it.happens(0.5):
        _, _, instance = it.choice(population)
        return {"owner": owner, "group": name, "type": it.choice(sorted(instance.types))}
    return {"owner": owner, "group": name, "type": it.choice(NO_ENTITIES if it.happens(0.1) else ENTITIES)}


def users(it, who):
    """Mostly of an instance that is there, and that others use."""
    owner, name, population = it.group(who)
    places = [place for place, _, _ in population]
    used = [place for _, model, instance in population for to in references_of(instance) for place in targets(model, to.name)]
    here = [place for place in used if place in places]
    of = it.choice(here if here and it.happens(0.8) else places) if places and it.happens(0.9) else (it.partner(), it.name(), it.choice(POOL, LINKED))
    return {"owner": owner, "group": name, "of": list(of), "role": it.choice(NO_ROLES if it.happens(0.15) else ROLES)}


def schemas(_it, _who):
    return {}


def check_schema(it, _):
    return {"text": it.text_of(*schema_text(it.random))}


# what makes the keys of each request of a partner's, and how often it is made
MAKERS = {
    "create_model": (create_model, 12), "delete_model": (delete_model, 2), "put": (put, 65), "export": (export, 18), "names": (names, 12),
    "get": (get, 12), "add": (add, 20), "set": (set_instance, 15), "drop": (get, 15),
    "list": (list_models, 8), "grant": (grant, 14), "revoke": (revoke, 4), "schemas": (schemas, 2),
    "check_schema": (check_schema, 5),
    "create_group": (create_model, 6), "delete_group": (delete_model, 1), "include": (include, 14), "exclude": (exclude, 4),
    "members": (members, 6), "extent": (extent, 10), "users": (users, 28), "validate": (members, 10),
}


def request(it, *sorts):
    """A request of one of these sorts, or of any: its keys in some order, `as` and `do` among them."""
    do = it.choice(sorts) if sorts else it.random.choices(list(MAKERS), [weight for _, weight in MAKERS.values()])[0]
    who = it.choice(NO_PARTNERS, [""]) if it.happens(0.02) else it.choice(PARTNERS)
    pairs = [("as", who), ("do", do), *MAKERS[do][0](it, who).items()]
    it.random.shuffle(pairs)
    return pairs


# ---- lines

# what may stand in place of a value that a later equal key replaces, and what is no JSON there
REPLACED = ["5", "-0", "-0.0", "1e0", "1e308", "null", "true", '"m"', "{}", '{"as":[{"as":1}]}', "[" * 126 + "]" * 126, "1" * 309]
NO_JSON = ["1e999", "01", "1.", "-", "NaN", "-Infinity", "1" * 310, '"\\ud800"', '["\\udc00x"]', '{"\\ud800":1}', '"\\x"', '"\t"', "'m'",
           "[1,]", "[" * 127 + "]" * 127, "tru", "", '"', "\x7f"]

# words that a request doesn't have, also such as may come
NO_WORDS = {
    "do": ["Names", "names ", "name", "", "groups", "Get", "Add", "drop_instance", "Validate", "Include"],
    "kind": ["Group", "groups", "Model", ""],
    "level": ["group", "write", "Group", "owner", "Read", ""],
}


def string(it, text):
    """A JSON string of a text, in one of the ways to write it."""
    if len(text) < 100 and it.happens(0.1):
        units = text.encode("utf-16-be").hex()
        return '"' + "".join("\\u" + units[at:at + 4] for at in range(0, len(units), 4)) + '"'
    return json.dumps(text, ensure_ascii=it.happens(0.5))


def blank(it):
    return it.choice(" \t\r") if it.happens(0.05) else ""


def written_object(it, members):
    """A JSON object of keys with what is written of their values."""
    written = ",".join(f"{blank(it)}{string(it, key)}{blank(it)}:{blank(it)}{value}{blank(it)}" for key, value in members)
    return f"{blank(it)}{{{written}}}{blank(it)}"


def written_links(it, links):
    """A JSON list of objects, with their keys in some order, and at times, where they aren't too many, one of them twice."""
    objects = []
    for link in links:
        members = members_of(it, it.random.sample([*link.items()], len(link)))
        is_odd = len(links) < 100 and it.happens(0.02)
        objects.append(written_object(it, twice(it, members, it.choice(REPLACED)) if is_odd else members))
    return f"[{blank(it)}{','.join(objects)}]"


def written_place(it, place):
    return f"[{','.join(blank(it) + written(it, item) + blank(it) for item in place)}]"


def written(it, value):
    if isinstance(value, str):
        return string(it, value)
    if isinstance(value, list):
        return (written_place if value and not isinstance(value[0], dict) else written_links)(it, value)
    return json.dumps(value)


def members_of(it, pairs):
    return [(key, written(it, value)) for key, value in pairs]


def object_of(it, members):
    return written_object(it, members).encode()


def twice(it, members, value):
    """Some key stands twice, first with this."""
    place = it.random.randrange(len(members))
    members.insert(it.random.randrange(place + 1), (members[place][0], value))
    return members


def line_of(it, pairs):
    """The line of a request."""
    members = members_of(it, pairs)
    return object_of(it, twice(it, members, it.choice(REPLACED)) if it.happens(0.1) else members)


def replaced_no_json(it):
    return twice(it, members_of(it, request(it)), it.choice(NO_JSON))


def one_key_less(it):
    members = members_of(it, request(it))
    del members[it.random.randrange(len(members))]
    return members


def one_key_more(it):
    members = members_of(it, request(it))
    key = it.choice(["x", "links", "owner", "name", "As", "kind", "group", "of", "schema", ""])
    value = '"m"' if it.happens(0.5) else it.choice(REPLACED, NO_JSON)
    members.insert(it.random.randrange(len(members) + 1), (key, value))
    return members


def another_value(it):
    members = members_of(it, request(it))
    place = it.random.randrange(len(members))
    members[place] = (members[place][0], it.choice(REPLACED, NO_JSON))
    return members


def another_word(it):
    pairs = request(it, "grant", "revoke") if it.happens(0.7) else request(it)
    changed = it.choice([key for key, _ in pairs if key in NO_WORDS])
    return members_of(it, [(key, it.choice(NO_WORDS[key]) if key == changed else value) for key, value in pairs])


def another_link(it):
    """A put whose links are mostly none: one has a key less or more, or another value, or they are no list of objects."""
    pairs = dict(request(it, "put"))
    links = it.links(pairs["as"], pairs["owner"], pairs["model"])
    objects = [members_of(it, link.items()) for link in links]
    changed = it.choice(objects)
    place = it.random.randrange(len(changed))
    key, value = changed[place]
    way = it.choice(["less", "more", "number", "value", "list"])
    if way == "less":
        del changed[place]
    elif way == "more":
        changed.insert(place, (it.choice(["x", "Name", "", "links", "owners"]), value))
    elif way == "number":
        changed[place] = (key, json.dumps(it.choice(NUMBERS)))
    elif way == "value":
        changed[place] = (key, it.choice(REPLACED, NO_JSON))
    text = f"[{','.join(written_object(it, members) for members in objects)}]"
    if way == "list":
        text = it.choice(REPLACED, NO_JSON, [text[1:-1], f"[{text}]", f"[{it.choice(REPLACED, NO_JSON)}]", text.replace("}", "},", 1)])
    pairs.pop("links", None)
    return members_of(it, pairs.items()) + [("links", text)]


def another_place(it):
    """Users of what is mostly no place: it has an item less or more, or another one, or is no list."""
    pairs = dict(request(it, "users"))
    items = [written(it, item) for item in pairs.pop("of")]
    place = it.random.randrange(len(items))
    way = it.choice(["less", "more", "number", "value", "list"])
    if way == "less":
        del items[place]
    elif way == "more":
        items.insert(place, it.choice(REPLACED, NO_JSON))
    elif way == "number":
        items[2] = json.dumps(it.choice(NUMBERS))
    elif way == "value":
        items[place] = it.choice(REPLACED, NO_JSON)
    text = f"[{','.join(items)}]"
    if way == "list":
        text = it.choice(REPLACED, NO_JSON, [text[1:-1], f"[{text}]", text.replace(",", ",,", 1)])
    return members_of(it, pairs.items()) + [("of", text)]


def near(it, line):
    """Bytes that are like a line."""
    cut = it.random.randrange(len(line) + 1)
    return it.random.choice([
        b"", b" ", b"{", b"{}", b"[]", b"null", b'"list"', line[:cut], line + b",", line + b"{}", line + b"\0", b"\xef\xbb\xbf" + line,
        b"[" + line + b"]", line.replace(b'"', b"'"), line[:cut] + b"\xff" + line[cut:], line[:cut] + b"\x01" + line[cut:],
        line.replace(b":", b"=", 1), line.replace(b"{", b"{,", 1), line.replace(b"a", b"\xc3", 1), line.replace(b"m", b"\\u00", 1),
    ])


NO_REQUESTS = [replaced_no_json, one_key_less, one_key_more, another_value, another_word, another_link, another_place]


def no_request(it):
    """A line that is mostly no request. What it comes to is for the model to say, as of any line."""
    if it.happens(0.2):
        return near(it, line_of(it, request(it)))
    return object_of(it, it.choice(NO_REQUESTS)(it))


def padded(text, size):
    """A text with blanks behind it, so that it has so many bytes."""
    return text + " " * (size - len(text.encode()))


def crowd(it, kind):
    """The lines of a partner who makes more models, or groups, than he may have, and then those that delete them. Of his models he
    puts more into one group than it may list."""
    who = it.choice(PARTNERS)
    for name in CROWD:
        yield line_of(it, [("as", who), ("do", f"create_{kind}"), ("name", name), ("schema", "T")])
    if kind == "model":
        yield line_of(it, [("as", who), ("do", "create_group"), ("name", "crowd"), ("schema", "T")])
        for name in CROWD[:55]:
            yield line_of(it, [("as", who), ("do", "include"), ("group", "crowd"), ("owner", who), ("model", name)])
        yield line_of(it, [("as", who), ("do", "members"), ("group", "crowd"), ("owner", who)])
        yield line_of(it, [("as", who), ("do", "delete_group"), ("name", "crowd")])
    for name in CROWD:
        yield line_of(it, [("as", who), ("do", f"delete_{kind}"), ("name", name)])


def greatly_linked(it, who):
    """Puts of a partner's model `great` with as many links as a model may have, with more, and with one more that is faulty."""
    put_of = [("as", who), ("do", "put"), ("owner", who), ("file", it.file_of(*long_file("T", 1)))]
    yield line_of(it, [("as", who), ("do", "create_model"), ("name", "target"), ("schema", "T")])
    yield line_of(it, [*put_of, ("model", "target")])
    links = [Link(1, "target", name, who)._asdict() for name in range(2, LINKS_OF_ONE_MODEL + 3)]
    it.random.shuffle(links)
    for given in (links[1:], links, [*links[1:], Link(2, "target", LINKS_OF_ONE_MODEL + 3, who)._asdict()]):
        yield line_of(it, [*put_of, ("model", "great"), ("links", given)])
    yield line_of(it, [("as", who), ("do", "export"), ("owner", who), ("model", "great"), ("links", True)])
    yield line_of(it, [("as", who), ("do", "delete_model"), ("name", "target")])


# how many instances a busy model has that use nothing, and as many others
MANY = 100


def user_of(it, names):
    """A text of an instance that mostly uses some of these, and its parts."""
    kind, one, other = it.random.random(), it.choice(names), it.choice(names)
    if kind < 0.5:
        return f"Q(#{one})", [("Q", [Reference(one)])]
    if kind < 0.8:
        values = [Reference(one), Typed("label", "x"), Reference(other), Reference(one)]
        return f"R((#{one},LABEL('x'),#{other},#{one}),$,.U.)", [("R", [values, UNSET, Item("U")])]
    return "P(1.,$)", [("P", [Real(1, 0), UNSET])]


def file_of_users(it, names, users, linked=()):
    """A file of instances of these names that use nothing, and of others that use them, or what is linked."""
    texts = [(name, "P(1.,$)", [("P", [Real(1, 0), UNSET])]) for name in names] + [(name, *user_of(it, [*names, *linked])) for name in users]
    it.random.shuffle(texts)
    said = File(["T"], DEFAULT_HEADER, [Instance(name, parts) for name, _, parts in texts])
    return it.file_of(file_of("".join(f"#{name}={text};" for name, text, _ in texts)), said)


class Busy:
    """A partner's model of many instances in a group of his, beside one of another partner that links to many of them. Instances are set,
    added and dropped, and he asks for users and extents. Now and then one of the two is put again, or deleted and created anew, and the
    other's is out of the population for a while."""

    def __init__(self, it):
        self.it = it
        self.who, self.other = it.random.sample(PARTNERS, 2)
        self.names = it.random.sample(range(1, 10 * MANY), 2 * MANY)

    def line(self, do, who=None, **keys):
        return line_of(self.it, [("as", who or self.who), ("do", do), *keys.items()])

    def create(self, who, name, to, level, schema="T"):
        yield self.line("create_model", who, name=name, schema=schema)
        yield self.line("grant", who, kind="model", name=name, to=to, level=level)

    def put(self):
        self.it.random.shuffle(self.names)
        yield self.line("put", owner=self.who, model="busy", file=file_of_users(self.it, self.names[:MANY], self.names[MANY:]))

    def put_beside(self):
        linked = range(9000, 9000 + MANY // 2)
        links = [Link(self.it.choice(self.names), "busy", name, self.who)._asdict() for name in linked]
        file = file_of_users(self.it, [1, 2], range(3, 3 + MANY // 2), linked)
        yield self.line("put", self.other, owner=self.other, model="beside", file=file, links=links)

    def anew(self):
        """At times it is of another schema first."""
        for schema in ["L", "T"] if self.it.happens(0.3) else ["T"]:
            yield self.line("delete_model", name="busy")
            yield from self.create(self.who, "busy", self.other, "write", schema)
            yield from self.put()
            yield from self.ask()

    def anew_beside(self):
        yield self.line("delete_model", self.other, name="beside")
        yield from self.create(self.other, "beside", self.who, "group")
        yield from self.put_beside()

    def names_of(self, owner, model):
        """The names of the model's instances, and the instances that it links to."""
        found = self.it.repository.visible(owner, owner, model)
        return ([it.name for it in found.instances], [it.instance for it in found.links]) if found else ([], [])

    def some(self):
        """An instance of the busy model, mostly one that is linked."""
        linked, there = self.names_of(self.other, "beside")[1], self.names_of(self.who, "busy")[0]
        return self.it.choice(linked if linked and self.it.happens(0.6) else there or self.names)

    def change(self):
        """A line on one instance, by either partner."""
        it, who, model = self.it, self.it.choice([self.who, self.other]), {"owner": self.who, "model": "busy"}
        do = it.choice(["add", "set", "set", "drop", "drop", "drop"])
        if do == "drop":
            yield self.line(do, who, **model, instance=self.some())
            return
        text, parts = user_of(it, self.names_of(self.who, "busy")[0] or [1])
        of = {"instance": self.some()} if do == "set" else {}
        yield self.line(do, who, **model, **of, text=it.mapping_of(text, Mapping(parts, True)))

    def out(self):
        """The other's model is out of the population, since it is excluded or may not be grouped, while users and extents are asked for."""
        of = {"group": "busy", "owner": self.other, "model": "beside"}
        if self.it.happens(0.5):
            goes, comes = self.line("exclude", **of), self.line("include", **of)
        else:
            goes, comes = (self.line("grant", self.other, kind="model", name="beside", to=self.who, level=it) for it in ("read", "group"))
        yield goes
        for _ in range(3):
            yield from self.ask()
        yield comes

    def ask(self):
        group = {"owner": self.who, "group": "busy"}
        names = [*range(3, 3 + MANY // 2), *range(9000, 9000 + MANY // 2)]
        of = [self.who, "busy", self.some()] if self.it.happens(0.9) else [self.other, "beside", self.it.choice(names)]
        yield self.line("users", **group, of=of, role=self.it.choice(["", "T.Q.A", "T.R.MANY"]))
        yield self.line("extent", **group, type=self.it.choice(["P", "Q", "R", "E"]))

    def make_again(self):
        """An instance that is linked is dropped, once its model doesn't use it, and made again by a put of the same names."""
        it, model = self.it, {"owner": self.who, "model": "busy"}
        linked = self.names_of(self.other, "beside")[1]
        of = it.choice(linked) if linked else self.some()
        found = it.repository.visible(self.who, self.who, "busy")
        nothing = it.mapping_of("P(1.,$)", Mapping([("P", [Real(1, 0), UNSET])], True))
        for user in [one.name for one in found.instances if Reference(of) in references_of(one)]:
            yield self.line("set", **model, instance=user, text=nothing)
        yield self.line("drop", **model, instance=of)
        yield from self.put()
        yield self.line("users", owner=self.who, group="busy", of=[self.who, "busy", of], role="")

    def lines(self):
        yield from self.create(self.who, "busy", self.other, "write")
        yield from self.put()
        yield from self.create(self.other, "beside", self.who, "group")
        yield from self.put_beside()
        yield self.line("create_group", name="busy", schema="T")
        yield self.line("include", group="busy", owner=self.who, model="busy")
        yield self.line("include", group="busy", owner=self.other, model="beside")
        for _ in range(MANY):
            ways = [self.change, self.ask, self.make_again, self.out, self.put, self.put_beside, self.anew, self.anew_beside]
            yield from self.it.random.choices(ways, [50, 34, 4, 3, 2, 2, 2, 2])[0]()
        yield self.line("delete_model", name="busy")
        yield self.line("delete_model", self.other, name="beside")
        yield self.line("delete_group", name="busy")


def great(it):
    """Lines with as much as there may be in a file, a text, a model and a line, and with more."""
    who = it.choice(PARTNERS)
    put_of = [("as", who), ("do", "put"), ("owner", who), ("model", "great")]
    yield line_of(it, [("as", who), ("do", "create_model"), ("name", "great"), ("schema", "T")])
    text, said = whole_file(it)
    for size in (TEXT_LIMIT, TEXT_LIMIT + 1):
        yield line_of(it, [*put_of, ("file", it.file_of(padded(text, size), said))])
    yield line_of(it, [*put_of, ("file", it.file_of(*long_file("T", 200_001)))])
    yield from greatly_linked(it, who)
    yield line_of(it, [("as", who), ("do", "check_schema"), ("text", "x" * (TEXT_LIMIT + 1))])
    yield line_of(it, [("as", who), ("do", "add"), ("owner", who), ("model", "great"), ("text", "x" * (TEXT_LIMIT + 1))])
    for size in (LINE_LIMIT, LINE_LIMIT + 1):
        yield padded(line_of(it, request(it)).decode(), size).encode()
    yield line_of(it, [("as", who), ("do", "delete_model"), ("name", "great")])


def lines_of(it, count):
    """So many lines, with the great ones once, and a crowd of models or groups and a busy model now and then among them."""
    among = iter(())
    for place in range(count):
        if place == 100:
            among = great(it)
        if place % 2000 in (300, 1200):
            among = itertools.chain(among, crowd(it, "model" if place % 2000 == 300 else "group"))
        if place % 2000 in (700, 1600):
            among = itertools.chain(among, Busy(it).lines())
        line = next(among, None) if it.happens(0.5) else None
        if line is None:
            line = no_request(it) if it.happens(0.12) else line_of(it, request(it))
        yield line


# ---- the run

def sort_of(line, reply):
    """The sorts of a reply: the request that is done, or the refusal and, where it has one, its kind."""
    told = json.loads(reply)
    if "ok" in told:
        _, do, keys = request_of(line)
        rows = told["ok"].get(do)
        return [do, *([f"{do} with links"] if keys.get("links") else []), *([f"{do} {keys['kind']}"] if "kind" in keys else []),
                *([f"{do} with rows"] if rows else [])]
    name, kind = told["refused"]["name"], told["refused"].get("kind")
    return [name, f"{name} {kind}"] if kind else [name]


def of_model(places, model):
    return {it for it in places if it[:2] == model}


class Uses:
    """What replies don't tell of uses by links: when a model was created and put, and which instances a put made again."""

    def __init__(self):
        self.created, self.put, self.dropped, self.again = {}, {}, set(), set()

    def sorts(self, repository, turn, line, reply):
        """The sorts of a reply, before its change is made."""
        told = json.loads(reply).get("ok")
        if told is None:
            return []
        who, do, keys = request_of(line)
        if do == "create_model":
            model = who, keys["name"]
            self.created[model] = turn
            self.dropped -= of_model(self.dropped, model)
            self.again -= of_model(self.again, model)
        elif do == "put":
            model = keys["owner"], keys["model"]
            self.put[model] = turn
            self.again |= of_model(self.dropped, model)
            self.dropped -= of_model(self.dropped, model)
        elif do == "drop":
            return self.drop_sorts((keys["owner"], keys["model"], keys["instance"]), repository)
        return self.users_sorts(tuple(keys["of"]), told["users"]) if do == "users" else []

    def drop_sorts(self, place, repository):
        self.dropped.add(place)
        self.again.discard(place)
        is_linked = any((to.owner, to.model, to.instance) == place for it in repository.models for to in it.links)
        return ["drop of what is linked"] if is_linked else []

    def users_sorts(self, of, found):
        models = [tuple(it[:2]) for it in found if tuple(it[:2]) != of[:2]]
        is_anew = any(self.put[it] < self.created[of[:2]] for it in models)
        return (["users by links"] * bool(models) + ["users by links to a model created anew"] * is_anew
                + ["users by links to an instance made again"] * (bool(models) and of in self.again))


def turns_of(seed, count, runs=1):
    """The lines of a seed in so many parts, each line with its reply, and behind each part the plain repository's snapshot; and how
    often each sort of reply is due."""
    it, uses = Maker(seed), Uses()
    repository = it.repository
    ends = [count * run // runs for run in range(1, runs + 1)]
    parts, turns, due = [], [], collections.Counter()
    for turn, line in enumerate(lines_of(it, count), 1):
        reply, change = repository.step(line)
        due.update(sort_of(line, reply) + uses.sorts(repository, turn, line, reply))
        if change:
            change()
        turns.append((line, reply))
        if turn in ends:
            parts.append((turns, snapshot_of(repository) if runs > 1 else None))
            turns = []
    if not all(it.is_valid() for it in repository.models + repository.groups):
        raise AssertionError(f"seed {seed}: plain_model.py has come to a model or a group that isn't valid")
    return parts, due


def short_line(line):
    return line if len(line) < 10_000 else shortened(line)


def first_difference(seed, part, turns, output):
    """Tells of the first difference of the replies of a run, and answers how many are right before it."""
    replies = output.split(b"\n")
    left = replies.pop()
    right = sum(1 for _ in itertools.takewhile(lambda it: it[0] == it[1][1], zip(replies, turns)))
    if right < len(turns):
        line, due = turns[right]
        got = shortened(replies[right]) if right < len(replies) else b"nothing"
        print(f"seed {seed}, run {part}, line {right + 1} of {len(turns)}: {short_line(line)!r}\n  due: {shortened(due)!r}\n  got: {got!r}")
    elif left or len(replies) > len(turns):
        print(f"seed {seed}, run {part}: {len(replies)} replies to {len(turns)} lines, then {left!r}")
    return right


def differences(seed, parts):
    """Gives the lines to the program, and tells of the first difference. Answers how many replies are right before it, and whether there is
    one."""
    passed, load = 0, None
    with Saving(CONFIG, **{it.name.lower(): express(it) for it in SCHEMAS}) as folder:
        for number, (turns, saved) in enumerate(parts, 1):
            seen = folder.ask([line for line, _ in turns], load=load, save=saved is not None)
            passed += first_difference(seed, number, turns, seen.output)
            if seen.output != b"".join(reply + b"\n" for _, reply in turns):
                return passed, True
            if (seen.status, seen.errors) != (0, b""):
                print(f"seed {seed}, run {number}: status {seen.status}, standard error {seen.errors!r}")
                return passed, True
            if saved is not None and seen.files["kept"] != saved:
                print(f"seed {seed}, run {number}: {difference(seen.files['kept'], saved)} is saved")
                return passed, True
            load = saved
    return passed, False


def main(words):
    parser = argparse.ArgumentParser(prog="tests/random_lines.py", allow_abbrev=False)
    parser.add_argument("program", nargs="?")
    parser.add_argument("--lines", type=int, default=20_000)
    parser.add_argument("--runs", type=int, default=1)
    parser.add_argument("--seed", type=int, default=1)
    given = parser.parse_args(words)
    take_program(LABEL, [given.program] if given.program else [])
    parts, due = turns_of(given.seed, given.lines, given.runs)
    print(f"seed {given.seed}: " + ", ".join(f"{count} {name}" for name, count in sorted(due.items())))
    passed, differs = differences(given.seed, parts)
    missing = sorted(DUE - set(due)) if given.lines >= ENOUGH else []
    if missing:
        print(f"seed {given.seed}: never due: {', '.join(missing)}")
    end(LABEL, passed, differs + bool(missing))


if __name__ == "__main__":
    main(sys.argv[1:])
