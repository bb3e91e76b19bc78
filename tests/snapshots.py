#!/usr/bin/env python3
"""Runs the built program with `--load` and `--save`: what it saves, byte for byte, what it loads, and what it refuses to load.

    tests/snapshots.py [PROGRAM]

Snapshots are written by hand, or by lib/plain_snapshots.py, which tells too which bytes are one. What is loaded has to be saved again as
the same bytes. What is refused ends the program with status 2 and one line, and leaves what was saved before. The last line is
'snapshots: N passed, M failed', and the status is 0 only if none failed.
"""
import itertools
import json
import os
import random
import re
import sys
import tempfile
import time

import random_lines
from lib.harness import TOP, Wrong, run_tests, shortened, unmarked
from lib.messages import (
    ATTRIBUTES_HOLD, CONFIG, EXISTS, FIRST, FIRST_EXPORT, HAS_LINKS, MIB, NO_RIGHT, NO_SUCH_INSTANCE, NO_SUCH_ITEM, OK, TOO_MANY, E, L, T, add, added,
    canonical, check_is, create, create_group, delete, drop, exclude, export, exported, extent, extent_is, file_of, get, got, grant, grant_group,
    include, instances, link, link_fault, linked, list_of, listed, members, members_are, named, names, put, report_is, revoke, users, users_are,
    validate,
)
from lib.plain_binding import Entity, Schema, Select, express
from lib.plain_snapshots import FIRST_LINE, compact, group, is_snapshot, model, row_at, saved_again, snapshot, snapshot_of
from lib.saving import (
    OLD, THREE, Saving, difference, each, expect_saved, expect_untouched, files_in, in_runs, replies_of, shown, until,
)

sys.path.insert(0, os.path.join(TOP, "tools"))

from each_refusal import shim_in  # noqa: E402

PARTNERS = ["ann", "bob", "cyd"]
# the schemas of the configuration, and another one, as they are read in Python
PLAIN = [
    Schema("T", {}, {"p": Entity({"x": "REAL", "n": "STRING"}, optional=["n"]), "q": Entity({"a": "p"})}),
    Schema("L", {}, {"e": Entity()}),
    Schema("E", {}, {"e": Entity(is_abstract=True, expression=("ANDOR", ("ONEOF", "a", "b"), "c")),
                     **{it: Entity(supertypes=["e"]) for it in "abc"}}),
    Schema("B", {"len": "REAL", "any": Select(["len"])}, {"r": Entity({"b": "BINARY"}), "s": Entity({"a": "any"})}),
]
EMPTY = b'STEPREPO 1\n{"groups":[],"models":[]}'
GREATEST = 999_999_999_999_999_999


def expect_kept(folder, data, turns=(), **given):
    """What is loaded is answered so by turns that change nothing, and is saved as the same bytes."""
    if len(data) < MIB and not is_snapshot(data, PARTNERS, PLAIN):
        raise AssertionError(f"{data!r} is no snapshot")
    lines, replies = [it for it, _ in turns], [it for _, it in turns]
    expect_saved(folder.ask(lines, load=data, **given), data, replies)


# ---- what is saved, by hand

def test_an_empty_repository():
    """What is saved of it, and that it is loaded. No bytes are no snapshot."""
    with Saving(e=E) as folder:
        expect_saved(folder.ask(), EMPTY)
        expect_kept(folder, EMPTY, [(list_of("ann"), b'{"ok":{"groups":[],"models":[]}}')])
        expect_untouched(folder.ask(load=b""), NO_FIRST_LINE)


# a model that bob reads, in ann's group, and a model of his that has a link to it
GROUPED = [*FIRST, (create_group("ann", "g"), OK), (include("ann", "g", "ann", "m"), OK)]
ANSWERS = [
    (validate("ann", "ann", "g"), report_is(7, *ATTRIBUTES_HOLD, check_is("where", "P", "W1"), check_is("inverse", "P", "U"))),
    (users("ann", "ann", "g", ["ann", "m", 1], "T.Q.A"), users_are(("ann", "m", 2))),
]
LINKED = [*GROUPED, *ANSWERS, (grant("ann", "m", "bob", "read"), OK), (create("bob", "b"), OK),
          (put("bob", "bob", "b", file_of("#1=Q(#9);"), link(9, "ann", "m", 1)), instances(1)), *ANSWERS]
SAVED = (
    b'STEPREPO 1\n{"groups":[{"grants":[],"members":[["ann","m"]],"name":"g","owner":"ann","schema":"T"}],"models":['
    b'{"file":"ISO-10303-21;\\nHEADER;\\nFILE_DESCRIPTION((\'\'),\'2;1\');\\nFILE_NAME(\'\',\'\',(\'\'),(\'\'),\'\',\'\',\'\');\\n'
    b'FILE_SCHEMA((\'T\'));\\nENDSEC;\\nDATA;\\n#1=P(1.E-1,\'a\');\\n#2=Q(#1);\\nENDSEC;\\nEND-ISO-10303-21;\\n",'
    b'"grants":[["bob","read"]],"greatest":2,"links":[],"name":"m","owner":"ann","schema":"T"},'
    b'{"file":"ISO-10303-21;\\nHEADER;\\nFILE_DESCRIPTION((\'\'),\'2;1\');\\nFILE_NAME(\'\',\'\',(\'\'),(\'\'),\'\',\'\',\'\');\\n'
    b'FILE_SCHEMA((\'T\'));\\nENDSEC;\\nDATA;\\n#1=Q(#9);\\nENDSEC;\\nEND-ISO-10303-21;\\n",'
    b'"grants":[],"greatest":9,"links":[{"instance":1,"model":"m","name":9,"owner":"ann"}],"name":"b","owner":"bob","schema":"T"}]}'
)
# what is asked of it: everything that is told of what is there
AFTER = [
    *ANSWERS, (FIRST[0][0], EXISTS), (export("ann", "ann", "m"), FIRST_EXPORT), (names("ann", "ann", "m"), named((1, "P"), (2, "Q"))),
    (get("bob", "ann", "m", 1), got("#1=P(1.E-1,'a');")), (export("bob", "bob", "b"), HAS_LINKS),
    (export("bob", "bob", "b", links=True), linked(canonical("#1=Q(#9);"), link(9, "ann", "m", 1))),
    (members("ann", "ann", "g"), members_are(("ann", "m", True))), (extent("ann", "ann", "g", "P"), extent_is(("ann", "m", 1))),
    (names("ann", "bob", "b"), NO_SUCH_ITEM), (add("bob", "ann", "m", "P(1.,$)"), NO_RIGHT),
    (list_of("ann"), listed((b"owner", b"m", b"ann"), groups=[(b"owner", b"g", b"ann")])),
    (list_of("bob"), listed((b"read", b"m", b"ann"), (b"owner", b"b", b"bob"))),
]


def test_what_requests_made():
    """What they made is saved, and after a restart the same requests get the same replies; what is added is named as before."""
    with Saving(e=E) as folder:
        lines, replies = zip(*LINKED)
        expect_saved(folder.ask(lines), SAVED, replies)
        expect_kept(folder, SAVED, AFTER)
        seen = folder.ask([add("ann", "ann", "m", "P(2.,$)"), add("bob", "bob", "b", "Q(#9)")], load=SAVED)
        then = SAVED.replace(b"#2=Q(#1);\\n", b"#2=Q(#1);\\n#3=P(2.,$);\\n").replace(b'"greatest":2', b'"greatest":3')
        then = then.replace(b"#1=Q(#9);\\n", b"#1=Q(#9);\\n#10=Q(#9);\\n").replace(b'"greatest":9', b'"greatest":10')
        expect_saved(seen, then, [added(3), added(10)])


# ann's model comes and goes in bob's group
COUNTED = (members("bob", "bob", "g"), extent("bob", "bob", "g", "P"))
HERE = [*zip(COUNTED, (members_are(("ann", "m", True)), extent_is(("ann", "m", 1))))]
GONE = [*zip(COUNTED, (members_are(("ann", "m", False)), extent_is()))]
COMES_AND_GOES = [
    *FIRST, (grant("ann", "m", "bob", "group"), OK), (create_group("bob", "g"), OK), (include("bob", "g", "ann", "m"), OK), *HERE,
    (revoke("ann", "m", "bob"), OK), *GONE, (grant("ann", "m", "bob", "group"), OK), *HERE,
    (delete("ann", "m"), OK), *GONE, *FIRST, *GONE,
]


def test_a_restart_at_each_place():
    """Requests on a model that comes and goes in another's group get the same replies wherever the program is ended between them, and
    what is saved in the end is the same."""
    lines, replies = zip(*COMES_AND_GOES)
    last = snapshot([group("bob", "g", members=[["ann", "m"]])], [model("ann", "m", "#1=P(1.E-1,'a');", "#2=Q(#1);")])
    once = [(cut,) for cut in range(len(lines) + 1)]
    twice = random.Random(4).sample([*itertools.combinations(range(1, len(lines)), 2)], 40)

    def look(cuts):
        places = [0, *cuts, len(lines)]
        output, data = in_runs(folder, [lines[begin:end] for begin, end in zip(places, places[1:])])
        if output != replies_of(replies) or data != last:
            raise Wrong(f"{shortened(output)!r} is answered, and {difference(data, last)} is saved")

    with Saving(e=E) as folder:
        each(look, once + twice)


# An instance whose string has signs that JSON escapes, or Part 21, or both; and how its line is saved.
SAID = r"""#1=P(0.,'a"b\\c''d/\X2\00E900E90041\X0\e');"""
ESCAPED = r"""#1=P(0.,'a\"b\\\\c''d/\\X2\\00E900E9\\X0\\Ae');\n"""
LONG = "x" * 64
# what is said of numbers, and how it is saved
NUMBERS = "#2=P(2.0,$);#3=P(-0.10,'');#4=P(12.5,$);#5=P(1000,$);#6=P(12345678901234567,$);#999999999999999998=Q(#1);"
WRITTEN = (r"#2=P(2.,$);\n#3=P(-1.E-1,'');\n#4=P(125.E-1,$);\n#5=P(1.E3,$);\n#6=P(12345678901234567.,$);\n"
           r"#999999999999999998=Q(#1);\n")
# how a model's file begins and ends
HEAD_OF = (r"""ISO-10303-21;\nHEADER;\nFILE_DESCRIPTION((''),'2;1');\nFILE_NAME('','',(''),(''),'','','');\n"""
           r"""FILE_SCHEMA(('T'));\nENDSEC;\nDATA;\n""")
HEAD_OF_L = HEAD_OF.replace("'T'", "'L'")
FOOT_OF = r"ENDSEC;\nEND-ISO-10303-21;\n"
NAMED = HEAD_OF.replace("FILE_NAME('',''", r"""FILE_NAME('\"x\"\\\\','\\X2\\00E9\\X0\\'""")
GROUP_ROWS = [
    f'{{"grants":["bob","cyd"],"members":[["ann","M"],["ann","m"],["bob","{LONG}"]],"name":"G","owner":"ann","schema":"T"}}',
    '{"grants":[],"members":[],"name":"h","owner":"ann","schema":"L"}',
    '{"grants":[],"members":[],"name":"g","owner":"bob","schema":"T"}',
]
MODEL_ROWS = [
    f'{{"file":"{HEAD_OF}{FOOT_OF}","grants":[],"greatest":0,"links":[],"name":"-","owner":"ann","schema":"T"}}',
    f'{{"file":"{HEAD_OF}{FOOT_OF}","grants":[],"greatest":0,"links":[],"name":"1.0","owner":"ann","schema":"T"}}',
    f'{{"file":"{HEAD_OF}#1=Q(#20);\\n{FOOT_OF}","grants":[["bob","read"],["cyd","group"]],"greatest":20,"links":[{{"instance":1,"model":"m",'
    f'"name":3,"owner":"ann"}},{{"instance":1,"model":"{LONG}","name":20,"owner":"bob"}}],"name":"M","owner":"ann","schema":"T"}}',
    f'{{"file":"{HEAD_OF}{FOOT_OF}","grants":[],"greatest":0,"links":[],"name":"_","owner":"ann","schema":"T"}}',
    f'{{"file":"{NAMED}{ESCAPED}{WRITTEN}{FOOT_OF}","grants":[["bob","write"],["cyd","read"]],"greatest":999999999999999999,"links":[],'
    '"name":"m","owner":"ann","schema":"T"}',
    f'{{"file":"{HEAD_OF}{FOOT_OF}","grants":[],"greatest":7,"links":[],"name":"old","owner":"ann","schema":"T"}}',
    f'{{"file":"{HEAD_OF}#1=P(1.,$);\\n{FOOT_OF}","grants":[["ann","group"]],"greatest":1,"links":[],"name":"{LONG}","owner":"bob","schema":"T"}}',
    f'{{"file":"{HEAD_OF_L}{FOOT_OF}","grants":[],"greatest":0,"links":[],"name":"m","owner":"cyd","schema":"L"}}',
]
MADE = [
    (create("cyd", "m", "L"), OK), *((create("ann", name), OK) for name in ("m", "-", "_", "old", "M", "1.0")), (create("bob", LONG), OK),
    (put("ann", "ann", "m", file_of(SAID + NUMBERS).replace("FILE_NAME('',''", r"""FILE_NAME('"x"\\','é'""")), instances(7)),
    (add("ann", "ann", "m", "P(1.,$)"), added(GREATEST)), (drop("ann", "ann", "m", GREATEST), OK),
    (grant("ann", "m", "cyd", "read"), OK), (grant("ann", "m", "bob", "write"), OK), (grant("ann", "M", "cyd", "group"), OK),
    (grant("ann", "M", "bob", "read"), OK), (grant("bob", LONG, "ann", "group"), OK),
    (put("bob", "bob", LONG, file_of("#1=P(1.,$);")), instances(1)),
    (put("ann", "ann", "M", file_of("#1=Q(#20);"), link(20, "bob", LONG, 1), link(3, "ann", "m", 1)), instances(1)),
    (create_group("bob", "g"), OK), (create_group("ann", "h", "l"), OK), (create_group("ann", "G"), OK),
    *((grant_group("ann", "G", it), OK) for it in ("cyd", "bob", "ann")),
    *((include("ann", "G", *it), OK) for it in (("bob", LONG), ("ann", "m"), ("ann", "M"))),
    (put("ann", "ann", "old", file_of("#7=P(1.,$);")), instances(1)), (put("ann", "ann", "old", file_of("")), instances(0)),
]


def test_how_rows_are_written():
    """Grants of each level, links and members in their order, signs that are escaped, numbers, the longest name, and a greatest name that
    no instance has any more: the whole text by hand."""
    data = f'STEPREPO 1\n{{"groups":[{",".join(GROUP_ROWS)}],"models":[{",".join(MODEL_ROWS)}]}}'.encode()
    lines, replies = zip(*MADE)
    with Saving(e=E) as folder:
        expect_saved(folder.ask(lines), data, replies)
        expect_kept(folder, data, [(add("ann", "ann", "m", "P(1.,$)"), TOO_MANY),
                                   (get("bob", "ann", "m", 1), got(SAID.replace(r"0041\X0\e", r"\X0\Ae")))])


# ---- what is refused

# a group of ann's that bob reads, with a model of hers and one of bob's; and these two models
G = group("ann", "g", grants=["bob"], members=[["ann", "m"], ["bob", "b"]])
M = model("ann", "m", "#1=P(1.E-1,'a');", "#2=Q(#1);", grants=[["bob", "group"], ["cyd", "read"]], greatest=9)
TO_M, TO_GONE = link(9, "ann", "m", 1), link(10, "cyd", "gone", 7)
B = model("bob", "b", "#1=Q(#9);", "#3=Q(#10);", greatest=10, links=[TO_M, TO_GONE])
BASE = snapshot([G], [M, B])

# what is told of the first line, of a text that isn't what is saved of its rows, and of what doesn't stand where it has to
NO_FIRST_LINE = ": it doesn't begin with the line STEPREPO 1"
DIFFERS = "it isn't as it would be saved: another order, spelling, blank or byte behind the end"
FORM = re.compile(rb": (?:at byte \d+, (?:group|model): )?before byte \d+: (?:a brace, a bracket, the next key, a text or a whole number|a level "
                  rb"\(read, group or write\)) is wanted")


def expect_places(data, line):
    """The places that are told of what doesn't stand where it has to: where the row begins, and a byte near what differs from BASE."""
    begin, *within = [int(it) for it in re.findall(rb"(?:at|before) byte (\d+)", line)]
    front = len(os.path.commonprefix([data, BASE]))
    back = len(os.path.commonprefix([data[front:][::-1], BASE[front:][::-1]]))
    kind = b"model" if begin > data.find(b'"models":[') > 0 else b"group"
    if within and (b", %s: before" % kind not in line or data[begin - 1:begin] not in (b"[", b",", b"}")):
        raise Wrong(f"no {kind.decode()} begins at byte {begin}: {data[begin - 20:begin]!r}")
    if not front - 20 <= [begin, *within][-1] <= len(data) - back + 20:
        raise Wrong(f"{line!r} is told, and bytes {front} to {len(data) - back} are others: {data[front - 20:front]!r}, {data[front:][:60]!r}")


def edited(old, new, data=BASE):
    """A text with something in place of what stands there once."""
    if data.count(old) != 1:
        raise AssertionError(f"{old!r} stands {data.count(old)} times in {data!r}")
    return data.replace(old, new)


def told(data, row, words):
    """What is told of a row: the byte where it begins, its kind, its owner and its name."""
    kind = "model" if "file" in row else "group"
    return f": at byte {row_at(data, row)}, {kind} {shown(row['owner'])}/{shown(row['name'])}: {words}"


def lacks(what, row, words, others=()):
    """A row that is refused, with others that are none behind it."""
    groups, models = [[it for it in (row, *others) if ("file" in it) == is_model] for is_model in (False, True)]
    data = snapshot(groups, models)
    return what, data, told(data, row, words)


def differs(what, data, saved=None):
    """A text that isn't what is saved of its rows: the first byte is told that is another one."""
    saved = saved_again(data, PLAIN) if saved is None else saved
    if not is_snapshot(saved, PARTNERS, PLAIN):
        raise AssertionError(f"{saved!r} isn't what is saved of {data!r}")
    return what, data, f": at byte {len(os.path.commonprefix([data, saved]))}: {DIFFERS}"


def refuse(rows, config=None, **files):
    """Each text is refused with its words."""
    with Saving(config, e=E, **files) as folder:
        def look(row):
            _, data, words = row
            if len(data) < MIB and is_snapshot(data, PARTNERS, PLAIN):
                raise AssertionError(f"{row[0]} is a snapshot")
            seen = folder.ask([list_of("ann")], load=data)
            expect_untouched(seen, words)
            if words is FORM:
                expect_places(data, seen.errors)

        each(look, rows)


def test_first_lines():
    """The first line is that of the first version, to the byte."""
    rest = EMPTY.partition(b"\n")[2]
    refuse([(f"{it!r}", it, NO_FIRST_LINE) for it in (
        b"", b"STEPREPO 1", b"STEPREPO 1\r\n" + rest, b"STEPREPO 2\n" + rest, b"STEPREPO 10\n" + rest, b"STEPREPO 1 \n" + rest, b"STEPREPO 1" + rest,
        b"steprepo 1\n" + rest, b"STEPREPO  1\n" + rest, b"\nSTEPREPO 1\n" + rest, b" STEPREPO 1\n" + rest, b"\xef\xbb\xbf" + EMPTY, rest,
        b"STEPREPO\n1\n" + rest, b"STEPREPO 01\n" + rest, b"S", b"\0" + EMPTY, EMPTY.decode().encode("utf-16"), EMPTY[1:])])


def test_what_is_no_json():
    """What stands behind the first line has to be JSON, and that alone, to its last byte."""
    within = [(b'"name":"g"', b'"name":g'), (b'"name":"g"', b"'name':'g'"), (b'"greatest":9,', b'"greatest":9,,'), (b'["bob","group"]', b'["bob","group",]'),
              (b'"links":[],', b'"links":[,],'), *((b'"greatest":9,', b'"greatest":%s,' % it) for it in (b"NaN", b"Infinity", b"0x9", b"")),
              (b'"name":"g"', b'"name":"\\ud800"'), (b'"name":"g"', b'"name":"\\g"'), (b'"name":"g"', b'"name":"g\n"'), (b'"name":"g",', b'"name":"g,'),
              (b'"links":[],', b'"links":' + b"[" * 200 + b"]" * 200 + b","), (b'"links":[],', b'"links":' + b"[" * 100_000)]
    refuse([*((f"{it!r}", FIRST_LINE + it, FORM) for it in (b"", b"\n", b"x", b"[]", b"null", b"{}", b"{", b'"x"', b"1", b"{}{}")),
            *((f"{old!r} as {new[:40]!r}", edited(old, new), FORM) for old, new in within),
            *((f"without its last {count}", BASE[:-count], FORM) for count in (2, 3, 10, 100)), differs("without its last", BASE[:-1], BASE),
            *(differs(f"{it!r} behind it", BASE + it, BASE) for it in (b"\n", b" ", b"\r\n", b"\0", b"x", b"}", b"]", b",", b"{}", b"//", b"\xef\xbb\xbf"))])


def test_what_is_no_utf8():
    """The first byte is told that is none."""
    rows = [(b'"name":"m"', b'"name":"\xff"', 8), (b'"name":"m"', b'"name":"\xc3"', 8), (b"#2=Q(#1)", b"#2=Q(#1\xed\xa0\x80)", 7),
            (b'"name":"g"', b'"name":"\xc0\xaf"', 8)]
    rows = [(f"{old!r} as {new!r}", edited(old, new), BASE.index(old) + at) for old, new, at in rows]
    refuse([(what, data, f": at byte {at}: it isn't UTF-8") for what, data, at in [*rows, ("behind it", BASE + b"\xff", len(BASE))]])


# a value of each kind, in place of another one
KINDS = [None, True, 0, "", [], {}, [None], [[]], [{}], [0], ["bob"], [["bob"]], "read", 1.5]
# lists whose items aren't what any row has, but for those of partners
NO_ITEMS = [[None], [[]], [{}], [0], [["bob"]]]


def others_than(row, name, *more):
    """Values that a key of a row can't have."""
    return [it for it in KINDS if type(it) is not type(row[name]) or it in [*NO_ITEMS, *more]]


def without(row, name):
    return {key: it for key, it in row.items() if key != name}


def of_top():
    """Texts whose object isn't one of groups and models."""
    value = json.loads(BASE[len(FIRST_LINE):])
    found = [(f"no {key}", without(value, key)) for key in value]
    found += [(f"{key} as {it}", {**value, key: it}) for key in value for it in KINDS if it != []]
    found += [(f"{key} have {it}", {**value, key: [it]}) for key in value for it in KINDS]
    found += [(f"the key {it}", {**value, it: []}) for it in ("a", "h")]
    return [(what, FIRST_LINE + compact(it)) for what, it in found] + [
        ("models in front", FIRST_LINE + b'{"models":%s,"groups":%s}' % (compact(value["models"]), compact(value["groups"]))),
        ("groups twice", FIRST_LINE + b'{"groups":[],' + BASE[len(FIRST_LINE) + 1:])]


def of_rows(row, *more):
    """Rows that lack a key, have one more, or another value. Lists of these values are such as this row may have."""
    found = [(f"without {name}", without(row, name)) for name in row]
    found += [(f"with {name} as {it}", {**row, name: it}) for name in row for it in others_than(row, name, *more)]
    return found + [(f"with the key {it!r}", {**row, it: []}) for it in ("a", "fil", "kind", "File", "", "é")]


def test_keys_and_kinds():
    """A row has its keys, no other, each once and in their order, and each value is of its kind."""
    rows = of_top()
    rows += [(f"a group {what}", snapshot([it], [M, B])) for what, it in of_rows(G)]
    rows += [(f"a model {what}", snapshot([], [it, B])) for what, it in of_rows(M, ["bob"])]
    rows += [(f"a link {what}", snapshot([], [{**B, "links": [it, TO_GONE]}])) for what, it in of_rows(TO_M)]
    rows += [(f"a model's grant {it}", snapshot([], [{**M, "grants": [it]}, B]))
             for it in (["bob"], ["bob", "read", "x"], ["bob", None], [None, "read"], ["bob", ["read"]], {"bob": "read"}, "bob", [], ["bob", 1])]
    rows += [(f"a group's grant {it}", snapshot([{**G, "grants": [it]}], [M, B])) for it in (["bob"], ["bob", "read"], {"bob": "read"}, [], 1)]
    rows += [(f"a member {it}", snapshot([{**G, "members": [it]}], [M, B]))
             for it in (["ann"], ["ann", "m", "x"], ["ann", 1], [1, "m"], {"ann": "m"}, "m", {"model": "m", "owner": "ann"}, [])]
    rows += [(f"{old} as {new}", BASE.replace(old.encode(), new.encode(), 1)) for old, new in (
        ('"name":"m","owner":"ann"', '"owner":"ann","name":"m"'), ('"greatest":9,', '"greatest":9,"greatest":9,'), ('"links":[],', '"links":[],"links":[],'),
        ('{"instance":7,"model":"gone"', '{"model":"gone","instance":7'), ('"name":10,', '"name":10,"name":10,'))]
    refuse([(what, data, FORM) for what, data in rows])


def test_keys_at_the_end():
    """What stands behind all that is read isn't what is saved."""
    value = json.loads(BASE[len(FIRST_LINE):])
    refuse([differs("one key more", FIRST_LINE + compact({**value, "version": 1})), differs("models twice", BASE[:-1] + b',"models":[]}'),
            differs("a comma", BASE[:-1] + b",}", BASE), differs("another bracket", BASE[:-1] + b"]", BASE)])


def test_how_it_is_spelled():
    """Blanks, escapes by code or that aren't due, and numbers that are spelled otherwise, aren't what is saved."""
    blanks = [(b'"greatest":9', b'"greatest": 9'), (b'"greatest":9', b'"greatest" :9'), (b'},{"file"', b'}, {"file"'), (b'{"groups":', b'{\n"groups":'),
              (b'"links":[]', b'"links":[\t]'), (b'{"groups":', b' {"groups":'), (b'],"models":', b'],\r"models":')]
    escapes = [(b'"name":"g"', b'"name":"\\u0067"'), (b'{"groups":', b'{"\\u0067roups":'), (b"#1=P(1.E-1,'a');\\n", b"#1=P(1.E-1,'a');\\u000a"),
               *((b"(1.E-1,'a')", b"(1.E-1,'%s')" % it)
                 for it in (b"\\u0022", b"\\u005c\\u005c", b"\\ud83d\\ude00", b"\\/", "é".encode(), b"\x7f", b"\\t"))]
    refuse([differs(f"{old!r} as {new!r}", edited(old, new)) for old, new in blanks + escapes])
    numbers = [(b'"greatest":9,', b'"greatest":%s,', (b"9.0", b"9e0", b"90e-1", b"09", b"+9", b"-0", b"-9", b'"9"', b"9.", b"9E0", b"9.5",
                                                      b"18446744073709551616", b"1e400", b"9" * 400)),
               (b'"name":10,', b'"name":%s,', (b"10.0", b"1e1", b"010", b"-10", b'"10"')),
               (b'"instance":7,', b'"instance":%s,', (b"7.0", b"07", b"-0", b"7e0", b"-7"))]
    refuse([(f"{new % it!r}", edited(old, new % it), FORM) for old, new, given in numbers for it in given])


# names that are none; of what a name may be more is told by the rows of requests
NO_NAMES = ["", "a b", "y" * 65, "é", "a/b", "m\n", "\0", " m", "x" * 100_000, "a\"b", "\u202e", "a\\"]
NO_NAME = "isn't 1 to 64 of A-Z a-z 0-9 _ . -"


def test_owners_names_and_schemas():
    """An owner is a partner, a name is one, and a schema is loaded, by its name in upper case."""
    rows = []
    for row, others in ((G, ()), (M, (B,))):
        for key, given, words in (("owner", ("dan", "ANN", "", "ann ", "x\ny", "z" * 1000, "é" * 200), "its owner is no partner"),
                                  ("name", NO_NAMES, f"its name {NO_NAME}"), ("schema", ("Z", "t", "", "T ", "TT", "\n"), "its schema isn't loaded")):
            rows += [lacks(f"the {key} {it[:70]!r}", {**row, key: it}, words, others) for it in given]
    refuse(rows)


def test_grants():
    """To partners, in their order, each once, none to the owner, and at a level that there is."""
    order = "its grants aren't in the order of partners, each once"
    given = [*((it, "it is granted to no partner") for it in (["dan"], [""], ["bob", "dan"], ["BOB"], ["ann", "dan"])),
             *((it, "it is granted to its owner") for it in (["ann"], ["ann", "bob"])),
             *((it, order) for it in (["bob", "bob"], ["cyd", "bob"], ["bob", "cyd", "bob"], ["cyd", "ann"]))]
    rows = [lacks(f"a group's {to}", {**G, "grants": to}, words) for to, words in given]
    rows += [lacks(f"a model's {to}", {**M, "grants": [[it, "read"] for it in to]}, words, (B,)) for to, words in given]
    rows.append(lacks("two levels of one", {**M, "grants": [["bob", "group"], ["bob", "read"]]}, order, (B,)))
    levels = [(it, snapshot([G], [{**M, "grants": [["bob", it]]}, B])) for it in ("owner", "Read", "", "none", "write ", "x" * 1000, "r\nd")]
    refuse([*rows, *((f"a level {it!r}", data, FORM) for it, data in levels)])


def test_members():
    """Of partners, with names, in their order, each once, and at most 50."""
    given = [*((it, "a member's owner is no partner") for it in ([["dan", "m"]], [["ann", "m"], ["dan", "m"]])),
             *((it, f"a member's name {NO_NAME}") for it in ([["ann", ""]], [["ann", "a b"]], [["bob", "y" * 65]], [["ann", "m"], ["bob", "\n"]])),
             *((it, "its members aren't in the order of owner and name, each once")
               for it in ([["ann", "m"], ["ann", "m"]], [["bob", "a"], ["ann", "b"]], [["ann", "b"], ["ann", "a"]], [["ann", "a"], ["ann", "M"]])),
             ([["ann", f"m{k}"] for k in range(10, 61)], "it has over 50 members")]
    refuse([lacks(f"members {it}", {**G, "members": it}, words) for it, words in given])


def test_order_of_rows():
    """Groups and models stand in the order of their owners and names, each once."""
    again, other = {**M, "grants": []}, {**G, "name": "h"}
    refuse([differs(what, snapshot(*given)) for what, *given in (
        ("models of one owner", [], [{**M, "name": "n"}, M]), ("models by case", [], [M, {**M, "name": "M"}]), ("owners of models", [], [B, M]),
        ("models with bob's first", [], [B, M, {**B, "name": "c"}]), ("groups of one owner", [other, G]),
        ("owners of groups", [{**G, "owner": "bob", "grants": []}, G]), ("three models", [], [M, {**M, "name": "o"}, {**M, "name": "n"}]))])
    twice = [("a model twice", snapshot([G], [M, again]), again), ("a model twice, apart", snapshot([], [M, {**M, "name": "n"}, again]), again),
             ("a group twice", snapshot([{**G, "members": []}, G], [M]), G)]
    refuse([(what, data, told(data, row, "its owner has another one of this name")) for what, data, row in twice])


def test_counts():
    """At most 100 models and 100 groups of an owner, 200,000 instances and 10,000 links of a model."""
    models = [model("ann", f"m{k}") for k in range(100, 201)]
    groups = [group("ann", f"g{k}") for k in range(100, 201)]
    file = canonical(schema="L").replace("DATA;\n", "DATA;\n" + "".join(f"#{k}=E();\n" for k in range(1, 200_002)))
    links = [link(k, "cyd", "x", 1) for k in range(1, 10_002)]
    rows = [("101 models", snapshot([G], [*models, B]), models[-1], "its owner has over 100 models"),
            ("101 groups", snapshot(groups, [M]), groups[-1], "its owner has over 100 groups")]
    refuse([*((what, data, told(data, row, words)) for what, data, row, words in rows),
            lacks("200,001 instances", model("ann", "m", schema="L", file=file, greatest=200_001), "it has over 200,000 instances"),
            lacks("10,001 links", model("ann", "m", links=links, greatest=10_001), "it has over 10,000 links")])


TOO_LONG = "its greatest name has over 18 digits"


def test_greatest_names():
    """It is at least each name of an instance and of a link, and has at most 18 digits."""
    instance, of_link = "an instance's name is above the greatest name", "a link's name is above the greatest name"
    of_m = {0: instance, 1: instance, 10**18: TOO_LONG, 2**63: TOO_LONG, 2**64 - 1: TOO_LONG}
    of_b = {0: of_link, 2: of_link, 9: of_link, 10**18: TOO_LONG, 10**19 - 1: TOO_LONG}
    refuse([*(lacks(f"ann's greatest name {it}", {**M, "greatest": it}, words, (B,)) for it, words in of_m.items()),
            *(lacks(f"bob's greatest name {it}", {**B, "greatest": it}, words) for it, words in of_b.items()),
            lacks("an instance above it", model("ann", "m", f"#{GREATEST}=P(1.,$);", greatest=GREATEST - 1), instance),
            *((f"the greatest name {it}", snapshot([G], [{**M, "greatest": it}, B]), FORM) for it in (2**64, 10**30, -1))])


def linking(words, what, *links, row=B, greatest=None):
    """A model with these links."""
    return lacks(what, {**row, "links": [*links], "greatest": row["greatest"] if greatest is None else greatest}, words)


def test_links():
    """A link's name is free, its links stand in order, each once, and none is above the greatest. It leads to another model of a partner,
    whether it is there or not. What refers to a name that is no link's has none."""
    defined, itself, nobody = "a link has the name of an instance", "a link leads to the model itself", "a link leads to the model of no partner"
    no_name, long = f"a link leads to a model whose name {NO_NAME}", "a link leads to an instance whose name has over 18 digits"
    order, above = "its links aren't in the order of their names, each once", "a link's name is above the greatest name"
    refuse([
        linking(defined, "the name of an instance", link(1, "ann", "m", 1), TO_M, TO_GONE),
        linking(defined, "an instance's name, behind", link(2, "bob", "b", 1), row=M),
        linking(itself, "to its own model", link(9, "bob", "b", 1), TO_GONE), linking(itself, "to what its own hasn't", TO_M, link(10, "bob", "b", 99)),
        linking(nobody, "to no partner", link(9, "dan", "m", 1), TO_GONE), linking(nobody, "to no partner, unused", link(5, "", "m", 1), TO_M, TO_GONE),
        *(linking(no_name, f"to {it[:70]!r}", link(9, "ann", it, 1), TO_GONE) for it in ("", "a b", "y" * 65, "é", "m\n")),
        *(linking(long, f"to the instance {it}", link(9, "ann", "m", it), TO_GONE) for it in (10**18, 2**63, 2**64 - 1)),
        linking(order, "not in order", TO_GONE, TO_M), linking(order, "one name twice", TO_M, TO_M, TO_GONE),
        linking(order, "one name twice, to others", TO_M, link(9, "ann", "n", 1), TO_GONE),
        linking(above, "above the greatest", TO_M, TO_GONE, greatest=9), linking(above, "above it, unused", TO_M, TO_GONE, link(11, "ann", "m", 1)),
        linking(TOO_LONG, "of 19 digits", TO_M, TO_GONE, link(10**18, "ann", "m", 1), greatest=10**18),
        linking("its file: Undefined at instance 3", "one that isn't there", TO_M), linking("its file: Undefined at instance 1", "none"),
    ])


# ---- files

WHOLE = canonical("#1=P(1.E-1,'a');", "#2=Q(#1);")


def filed(what, marked):
    """A model whose file has a marked fault of its spelling."""
    text, ((kind, at),) = unmarked(marked)
    return lacks(what, model("ann", "m", file=text.decode(), greatest=99), f"its file: {kind} at byte {at} of it")


def test_faults_of_files():
    """The first fault of a file's tokens, strings and grammar."""
    rows = [("#1=P(1.E-1,'a');", it) for it in (
        "#1=P(⟦Token⟧.5,$);", "⟦Token⟧é", "⟦Token⟧!P(1.);", "#1=P(1.,⟦Open⟧'ab);", "#1=P(1.,$);⟦Open⟧/* x",
        r"#1=P(1.,⟦Escape⟧'\X2\0E9\X0\');",
        r"#1=P(1.,⟦Page⟧'\PB\a');", r"#1=P(1.,⟦Code⟧'\X2\D800\X0\');", "#1=P(⟦Number⟧1.E1001,$);", "⟦Number⟧#1000000000000000000=P(1.,$);",
        "#1=P(1.,$⟦Syntax⟧;", "#1⟦Syntax⟧P(1.,$);", "⟦Syntax⟧ENTITY;", "#1=(⟦Syntax⟧);", "#1=P(1.,$);ENDSEC;\n⟦Sections⟧DATA;",
        "#1=P(" + "(" * 16 + "⟦Deep⟧(1.")]
    rows += [("ISO-10303-21;", "⟦Syntax⟧HEADER;"), ("ISO-10303-21;\nHEADER", "⟦Token⟧ISO-10303-2"), ("'2;1'", "'2;1'⟦Syntax⟧,$"),
             ("(''),'2;1')", "('')⟦Syntax⟧)"), ("('T')", "('T'⟦Syntax⟧,'L')"), ("END-ISO-10303-21;\n", "⟦Syntax⟧"),
             ("END-ISO-10303-21;\n", "END-ISO-10303-21;\n⟦Syntax⟧#1"), ("FILE_NAME", "⟦Syntax⟧FILE_DESCRIPTION"), (WHOLE, "⟦Syntax⟧"),
             (WHOLE, "\n ⟦Syntax⟧"), ("ISO-10303-21;", "\ufeff⟦Token⟧\ufeffISO-10303-21;")]
    refuse([filed(new, WHOLE.replace(old, new, 1)) for old, new in rows])


def bound(kind, name, *lines, schema="T", links=()):
    """A model with a faulty instance."""
    row = model("ann", "m", *lines, schema=schema, greatest=99, links=links)
    return lacks(f"{kind} {lines}", row, f"its file: {kind} at instance {name}")


def test_faults_of_instances():
    """The first instance that the schema doesn't take, and its first fault."""
    one = "#1=P(1.E-1,'a');"
    refuse([
        bound("Twice", 1, one, "#1=P(2.,$);"), bound("Twice", 2, one, "#2=(P(2.,$)P(2.,$));"), bound("UnknownEntity", 5, one, "#5=R(#1);"),
        bound("UnknownEntity", 5, "#5=E();"), bound("WrongCount", 2, one, "#2=P(1.);"), bound("WrongCount", 2, one, "#2=Q(#1,$);"),
        bound("NotDerived", 1, "#1=P(*,$);"), bound("WrongKind", 3, one, "#3=P('x',$);"), bound("WrongKind", 3, one, "#3=Q(1);"),
        bound("Undefined", 2, one, "#2=Q(#3);"), bound("Undefined", 1, "#1=Q(#9);", links=[link(8, "bob", "b", 1)]),
        bound("IllegalCombination", 1, "#1=E();", schema="E"), bound("IllegalCombination", 4, "#4=(A()B()E());", schema="E"),
        bound("IllegalCombination", 1, "#1=(P(1.,$)Q(#1));"), bound("UnknownEntity", 2, "#2=R();", "#1=P(*,$);"),
        lacks("the file of another schema", {**M, "schema": "L"}, "its file: UnknownEntity at instance 1", (B,)),
    ])


# in place of the first instance of a file, what spells the same model, or one that isn't written so
SPELLED_OTHERWISE = [
    "#1=P(1.E-1, 'a');\n", " #1=P(1.E-1,'a');\n", "#1 =P(1.E-1,'a');\n", "#1=P(1.E-1,'a') ;\n", "#1=P(1.E-1,'a');\r\n", "#1=P(1.E-1,'a');",
    "\n#1=P(1.E-1,'a');\n", "#1=p(1.E-1,'a');\n", "#01=P(1.E-1,'a');\n", "#1=P(0.1,'a');\n", "#1=P(10.E-2,'a');\n", "#1=P(1.e-1,'a');\n",
    "#1=P(1.E-01,'a');\n", "#1=P(+1.E-1,'a');\n", "#1=P(1.0,'a');\n", "#1=P(1,'a');\n", "#1=P(-0.,'a');\n", "#1=P(0.E5,'a');\n",
    "#1=(P(1.E-1,'a'));\n", "/* x */#1=P(1.E-1,'a');\n", "#1=P(1.E-1,/**/'a');\n", "\\N\\#1=P(1.E-1,'a');\n", "#1=P(1.E-1,'\\X2\\0061\\X0\\');\n",
    "#1=P(1.E-1,'\\X\\61');\n", "#1=P(1.E-1,'\\X2\\00e9\\X0\\');\n", "#1=P(1.E-1,'\\X\\E9');\n", "#1=P(1.E-1,'\\S\\i');\n",
    "#1=P(1.E-1,'\\X4\\000000E9\\X0\\');\n", "#1=P(1.E-1,'\\X2\\00E9\\X0\\\\X2\\00E9\\X0\\');\n", "#1=P(1.E-1,'\\X2\\D83DDE00\\X0\\');\n",
    "#1=P(1.E-1,'\\PA\\a');\n", "#1=P(1.E-1,'é');\n", "#1=P(1.E-1,'\t');\n", "#1=P(1.E-1,'a\nb');\n", "#1=P(1.E-1,'\\N\\a');\n",
]
# the same of what stands around the instances
AROUND = [
    *(("ISO-10303-21;\nHEADER", it) for it in ("\ufeffISO-10303-21;\nHEADER", " ISO-10303-21;\nHEADER", "iso-10303-21;\nheader", "ISO-10303-21;HEADER")),
    ("END-ISO-10303-21;\n", "END-ISO-10303-21;"), ("END-ISO-10303-21;\n", "END-ISO-10303-21;\n\n"),
    ("END-ISO-10303-21;\n", "END-ISO-10303-21;\r\n"), ("END-ISO-10303-21;\n", "END-ISO-10303-21;\n/* x */"), ("('T')", "('t')"), ("('T')", "('L')"),
    ("('T')", "('T {1 0 10303}')"), ("('T')", "('')"), ("DATA;", "data;"), ("DATA;", "DATA('',('T'));"), ("DATA;", "DATA('s',('T'));"),
    ("'2;1'", "'2;1' "), ("(('')", "( ('')"), ("(('T'));\n", "(('T'));\nFILE_POPULATION();\n"), ("(('T'));\n", "(('T'));\nSECTION_LANGUAGE('en',$);\n"),
    ("'2;1'", "'\\X2\\0032\\X0\\;1'"), ("#1=P(1.E-1,'a');\n#2=Q(#1);\n", "#2=Q(#1);\n#1=P(1.E-1,'a');\n"),
]
# and lines of other schemas
OTHERS = [("B", it) for it in ('#1=R("0a");', '#1=R("1F");', '#1=R("23b");', '#1=R("3F");', "#1=S(1.5);", "#1=S(LEN(1.5));", "#1=S(len(15.E-1));")]
OTHERS += [("E", it) for it in ("#1=(A()E());", "#1=(E()A());", "#1=a();")]


def test_files_that_are_not_canonical():
    """What spells the same model otherwise isn't what is saved."""
    def having(file, schema="T"):
        return snapshot([], [model("ann", "m", file=file, schema=schema, greatest=9)])

    rows = [differs(it, having(WHOLE.replace("#1=P(1.E-1,'a');\n", it))) for it in SPELLED_OTHERWISE]
    rows += [differs(f"{old!r} as {new!r}", having(edited(old, new, WHOLE)), having(WHOLE)) for old, new in AROUND]
    rows += [differs(it, having(canonical(it, schema=schema), schema)) for schema, it in OTHERS]
    refuse(rows, {**THREE, "schemas": [*THREE["schemas"], "b.exp"]}, b=express(PLAIN[3]))


# ---- what no request's work loads

def test_what_no_requests_make():
    """Links to what never was, to another schema's model and to what their owner doesn't see; members of these kinds; a greatest name above
    all; a model's grants to all others, and a group's. What is asked of them is answered."""
    hidden, other = model("ann", "hidden", "#1=P(1.,$);"), model("ann", "other", "#1=E();", schema="L")
    far = [link(5, "ann", "hidden", 1), link(6, "ann", "other", 1), link(7, "cyd", "never", GREATEST), link(8, "bob", "c", 0)]
    near = model("bob", "b", "#1=Q(#5);", "#2=Q(#6);", "#3=Q(#7);", greatest=GREATEST, links=far)
    everyone = model("cyd", "z", grants=[["ann", "write"], ["bob", "read"]], greatest=17)
    given = [("ann", "hidden"), ("ann", "other"), ("bob", "b"), ("cyd", "never"), ("cyd", "z")]
    of_b, empty = group("bob", "g", members=given), group("cyd", "empty", "L", grants=["ann", "bob"], members=[["ann", "other"], ["bob", "b"]])
    data = snapshot([of_b, empty], [hidden, other, near, everyone])
    turns = [
        (export("bob", "bob", "b", links=True), linked(canonical("#1=Q(#5);", "#2=Q(#6);", "#3=Q(#7);"), *far)),
        (members("bob", "bob", "g"), members_are(*((*it, it == ("bob", "b")) for it in given))),
        (extent("bob", "bob", "g", "Q"), extent_is(*(("bob", "b", k) for k in (1, 2, 3)))), (users("bob", "bob", "g", ["bob", "b", 1], ""), users_are()),
        (extent("bob", "bob", "g", "P"), extent_is()), (add("bob", "bob", "b", "Q(#8)"), TOO_MANY), (names("bob", "ann", "hidden"), NO_SUCH_ITEM),
        (put("bob", "bob", "b", file_of("#1=Q(#5);"), far[0]), link_fault("NotSeen", 5)),
        (members("ann", "cyd", "empty"), members_are(("ann", "other", False), ("bob", "b", False))),
        (list_of("ann"), listed((b"owner", b"hidden", b"ann"), (b"owner", b"other", b"ann", b"L"), (b"write", b"z", b"cyd"),
                                groups=[(b"read", b"empty", b"cyd", b"L")])),
    ]
    changing = [
        (add("ann", "cyd", "z", "P(1.,$)"), added(18)), (grant("ann", "hidden", "bob", "group"), OK),
        (extent("bob", "bob", "g", "P"), extent_is(("ann", "hidden", 1))),
        (users("bob", "bob", "g", ["ann", "hidden", 1], "T.Q.A"), users_are(("bob", "b", 1))), (create("bob", "c"), OK),
        (add("bob", "bob", "c", "P(1.,$)"), added(1)), (create("cyd", "never"), OK),
        (put("cyd", "cyd", "never", file_of(f"#{GREATEST}=P(1.,$);")), instances(1)), (grant("cyd", "never", "bob", "group"), OK),
        (users("bob", "bob", "g", ["cyd", "never", GREATEST], "T.Q.A"), users_are(("bob", "b", 3))), (exclude("bob", "g", "cyd", "z"), OK),
    ]
    models = [{**hidden, "grants": [["bob", "group"]]}, other, near, model("bob", "c", "#1=P(1.,$);"),
              model("cyd", "never", f"#{GREATEST}=P(1.,$);", greatest=GREATEST, grants=[["bob", "group"]]),
              {**everyone, "file": canonical("#18=P(1.,$);"), "greatest": 18}]
    then = snapshot([{**of_b, "members": given[:4]}, empty], models)
    with Saving(e=E) as folder:
        expect_kept(folder, data, turns)
        lines, replies = zip(*changing)
        expect_saved(folder.ask(lines, load=data), then, replies)


def test_other_headers():
    """The header of a file that was put stays."""
    rows = [r"FILE_DESCRIPTION($,$);\nFILE_NAME($,$,$,$,$,$,$);",
            r"FILE_DESCRIPTION(('a','b'),'1');\nFILE_NAME('x','2026-11-30T00:00:00',('A','B'),(),'p','s','');",
            "FILE_DESCRIPTION(()," + "(" * 16 + "''" + ")" * 16 + r");\nFILE_NAME('\X2\00E9\X0\','it''s',$,($,'\\'),'',('',()),'\X4\0001F600\X0\');"]
    head = r"FILE_DESCRIPTION((''),'2;1');\nFILE_NAME('','',(''),(''),'','','');".replace("\\n", "\n")

    def look(row):
        expect_kept(folder, snapshot([], [model("ann", "m", file=WHOLE.replace(head, row[0].replace("\\n", "\n")), greatest=2)]))

    with Saving(e=E) as folder:
        each(look, [(it,) for it in rows])


def test_as_much_as_there_may_be():
    """100 models and groups of each owner, 50 members, 10,000 links, 200,000 instances, two texts of over 8 MiB, and all grants of 1,000
    partners."""
    partners = sorted(f"p{k:03}" for k in range(1000))
    config = {**CONFIG, "partners": [{"name": name, "token": name} for name in partners]}
    many = canonical(schema="L").replace("DATA;\n", "DATA;\n" + "".join(f"#{k}=E();\n" for k in range(1, 200_001)))
    long = canonical("#1=P(1.,'" + ("x" * 1000 + "\\\\") * (9 * MIB // 1002) + "');")
    others = [[it, ("read", "group", "write")[k % 3]] for k, it in enumerate(partners[1:])]
    links = [link(k, "p001", f"m{k % 7}", GREATEST - k) for k in range(1, 10_001)]
    rows = {
        "models": snapshot([], [model(owner, f"m{k}") for owner in partners[:3] for k in range(100, 200)]),
        "groups": snapshot([group(owner, f"g{k}") for owner in partners[:3] for k in range(100, 200)]),
        "members": snapshot([group("p000", "g", members=[["p007", f"m{k}"] for k in range(10, 60)])]),
        "links": snapshot([], [model("p000", "m", links=links, greatest=10_000)]),
        "instances": snapshot([], [model("p000", "m", schema="L", file=many, greatest=200_000)]),
        "long texts": snapshot([], [model("p000", name, file=long, greatest=1) for name in "mn"]),
        "grants": snapshot([group("p000", "g", grants=partners[1:])], [model("p000", "m", "#1=P(1.,$);", grants=others)]),
    }
    with Saving(config) as folder:
        each(lambda row: expect_saved(folder.ask(load=row[1]), row[1]), rows.items())
        seen = folder.ask([names("p000", "p000", "m"), export("p000", "p000", "m"), get("p000", "p000", "m", 2)], load=rows["long texts"])
        expect_saved(seen, rows["long texts"], [named((1, "P")), exported(long), NO_SUCH_INSTANCE])
        seen = folder.ask([create("p001", "more"), create("p003", "more"), create("p001", "m100")], load=rows["models"], save=False)
        if seen[:3] != (0, replies_of([TOO_MANY, OK, EXISTS]), b""):
            raise Wrong(f"{seen[:3]} where an owner has 100 models")


# ---- random requests, in runs

def parts_of(seed, sizes):
    """Random lines and the replies to them in parts of these sizes, each with the snapshot of the plain repository behind it."""
    it = random_lines.Maker(seed)
    parts = []
    for size in sizes:
        turns = []
        for _ in range(size):
            made = random_lines.no_request(it) if it.happens(0.05) else random_lines.line_of(it, random_lines.request(it))
            reply, change = it.repository.step(made)
            if change:
                change()
            turns.append((made, reply))
        parts.append((turns, snapshot_of(it.repository)))
    return parts


def test_random_requests_in_three_runs():
    """Each of three runs loads what the one before has saved: the replies are those of one run, and what each saves is the snapshot of the
    plain repository."""
    def look(row):
        _, parts = row
        load = None
        for turns, data in parts:
            expect_saved(folder.ask([line for line, _ in turns], load=load), data, [reply for _, reply in turns])
            load = data
        turns = [turn for its, _ in parts for turn in its]
        expect_saved(folder.ask([line for line, _ in turns]), load, [reply for _, reply in turns])
        if not is_snapshot(load, random_lines.PARTNERS, random_lines.SCHEMAS):
            raise AssertionError(f"{load!r} is no snapshot")

    with Saving(random_lines.CONFIG, **{it.name.lower(): express(it) for it in random_lines.SCHEMAS}) as folder:
        chance = random.Random(7)
        rows = []
        for seed in range(1, 13):
            begin, end = sorted(chance.sample(range(1, 300), 2))
            rows.append((f"seed {seed}", parts_of(seed, (begin, end - begin, 300 - end))))
        each(look, rows)


# ---- cuts and changes

SIGNS = b"0123456789\"[]{},:abcdefghijklmnopqrstuvwxyzPQTE#()=;.$*\\' \n\t\0\xc3\xff-+_/"
WORDS = [it.encode() for it in (
    "ann bob cyd m b g read group write T L P Q #1 #2 #3 #9 #10 1 2 3 9 10 17 1. 0. 2.5 25.E-1 $ 'a' 'b' '' [] null true {} \"\" , \" \\n "
    "999999999999999999 1000000000000000000").split()]


def changed(chance, data):
    """A text with a random change of its bytes."""
    at = chance.randrange(len(data))
    end = min(len(data), at + chance.choice([1, 1, 2, 3, 5, 10, 30, 100, 300]))
    piece = data[at:end]
    way = chance.choice(["cut", "drop", "twice", "sign", "sign", "in", "word", "word", "word", "move"])
    if way == "cut":
        return data[:at]
    if way == "drop":
        return data[:at] + data[end:]
    if way == "twice":
        return data[:end] + piece + data[end:]
    if way == "sign":
        return data[:at] + bytes([chance.choice(SIGNS)]) + data[at + 1:]
    if way == "in":
        return data[:at] + bytes([chance.choice(SIGNS)]) + data[at:]
    if way == "word":
        found = chance.choice([it for it in re.finditer(rb"[A-Za-z]+|[0-9]+|[^A-Za-z0-9]", data)])
        return data[:found.start()] + chance.choice(WORDS) + data[found.end():]
    to = chance.randrange(len(data) + 1)
    rest = data[:at] + data[end:]
    return rest[:to] + piece + rest[to:]


def changed_rows(chance, groups, models):
    """The snapshot of rows of which some have another value, are gone, stand twice or elsewhere."""
    groups, models = [json.loads(json.dumps(it)) for it in (groups, models)]
    for _ in range(chance.choice([1, 2, 2, 3])):
        rows = chance.choice([groups, models, models]) or models
        row = chance.choice(rows)
        way = chance.choice(["value"] * 16 + ["gone", "moved", "twice"])
        if way == "gone" and len(rows) > 1:
            rows.remove(row)
        elif way == "moved":
            chance.shuffle(rows)
        elif way == "twice":
            rows.append(row)
        else:
            key = chance.choice(["links", "greatest", "greatest", "grants", "file", *row] if "file" in row else ["members", "members", "grants", *row])
            row[key] = VALUES[key](chance, row)
            if chance.random() < 0.9:
                rows.sort(key=lambda it: (it["owner"], it["name"]))
    return snapshot(groups, models)


def some_name(chance, _row=None):
    return chance.choice(["m", "b", "c", "n", "g", "x" * 64] * 3 + ["y" * 65, ""])


def some_partner(chance, _row=None):
    return chance.choice(PARTNERS * 5 + ["dan"])


def some_grants(chance, row):
    """Mostly to others, in their order."""
    others = [it for it in PARTNERS if it != row["owner"] or chance.random() < 0.1]
    to = sorted(chance.sample(others, chance.choice([0, 1, len(others)])))
    return [[it, chance.choice(["read", "group", "write"] * 8 + ["owner"])] for it in to] if "file" in row else to


def some_links(chance, row):
    """The links that there are, and one more in their order, mostly of a new name."""
    more = link(chance.choice([5, 7, 9, 11, 1]), some_partner(chance), some_name(chance), chance.choice([0, 1, GREATEST]))
    return sorted([*row["links"], more], key=lambda it: it["name"])


def some_file(chance, _row):
    """Mostly a canonical one."""
    number = chance.choice([*range(1, 10), 1.5, 2.5])
    lines = chance.choice([["#1=P(%s.,$);"], ["#2=Q(#%s);"], ["#1=P(25.E-1,'x');", "#2=Q(#1);", "#%s=Q(#1);"], ["#%s=P(1.,$);"], ["#1=P(2.5%s,$);"],
                           ["#2=P(%s.,$);", "#1=P(1.,$);"], ["#1=P(1.E-1,'%s');", "#2=Q(#1);", "#3=P(1.,$);"], ["#1=P(1.,$);", "#3=P(-%s.E5,$);"]])
    return canonical(*lines).replace("%s", str(number))


# what may stand at a key of a row
VALUES = {
    "grants": some_grants, "links": some_links, "file": some_file, "name": some_name, "owner": some_partner,
    "members": lambda chance, _: sorted([some_partner(chance), some_name(chance)] for _ in range(chance.choice([0, 1, 2, 3]))),
    "greatest": lambda chance, _: chance.choice([0, 2, 9, *(10 ** chance.randrange(1, 18) + chance.randrange(50) for _ in range(8)), GREATEST, GREATEST + 1]),
    "schema": lambda chance, row: chance.choice(["T", "L", "E", "t", "Z"]),
}


def test_cuts_and_changes():
    """A snapshot with groups and links is cut at each third byte, and 1,100 times changed: what is a snapshot is loaded and saved as the same
    bytes, and what is none is refused with status 2 and one line."""
    def look(row):
        _, data, is_one = row
        seen = folder.ask(load=data)
        if is_one:
            expect_saved(seen, data)
        else:
            expect_untouched(seen, re.compile(rb": .+"))

    with Saving(e=E) as folder:
        chance = random.Random(11)
        groups, models = [G, group("bob", "e", grants=["ann", "cyd"])], [M, B, model("bob", "c", "#1=P(25.E-1,$);", grants=[["ann", "write"]])]
        whole = snapshot(groups, models)
        texts = [whole[:at] for at in range(0, len(whole), 3)]
        texts += [changed(chance, whole) for _ in range(500)] + [changed_rows(chance, groups, models) for _ in range(600)]
        rows = [(repr(it), it, is_snapshot(it, PARTNERS, PLAIN)) for it in dict.fromkeys(texts)]
        count = sum(is_one for _, _, is_one in rows)
        if not 150 < count < len(rows) - 150:
            raise AssertionError(f"{count} of {len(rows)} texts are snapshots")
        each(look, rows)


# ---- the configuration

def test_other_configurations():
    """More partners and schemas, in another order, with other tokens, and schemas with other rules and more entities: what is loaded is saved
    as it was. With a partner or a schema less that it names, or an entity with another attribute, it is refused."""
    config = {"partners": [{"name": name, "token": name * 2} for name in ("zoe", "cyd", "a", "bob", "ann", "carl")],
              "schemas": ["more.exp", "e.exp", "b.exp", "l.exp"]}
    more = T.replace("END_SCHEMA", "ENTITY aa SUBTYPE OF (q); END_ENTITY; ENTITY z; END_ENTITY; END_SCHEMA").replace("<= 2", "< 1")
    with Saving(config, e=E, more=more, b=express(PLAIN[3])) as folder:
        expect_kept(folder, BASE, [(names("bob", "ann", "m"), named((1, "P"), (2, "Q")))])
        for old, new in (("x : REAL;", "x : REAL; y : REAL;"), ("x : REAL;", "x : STRING;"), (r"\bq\b", "r"), ("ENTITY p;", "ENTITY p ABSTRACT SUPERTYPE;")):
            folder.write("more.exp", re.sub(old, new, T))
            expect_untouched(folder.ask(load=BASE), re.compile(rb": .+"))
        folder.write("more.exp", more)
        for kind in ("partners", "schemas"):
            for gone in config[kind]:
                folder.write("less.json", json.dumps({**config, kind: [it for it in config[kind] if it is not gone]}))
                seen = folder.ask(load=BASE, config="less.json")
                if gone in ("more.exp",) or isinstance(gone, dict) and gone["name"] in PARTNERS:
                    expect_untouched(seen, re.compile(rb": .+"))
                else:
                    expect_saved(seen, BASE)
    rows = [("a grantee", snapshot([], [model("ann", "m", grants=[["dan", "read"]])])), ("a group's grantee", snapshot([group("ann", "g", grants=["dan"])])),
            ("an owner", snapshot([], [model("dan", "m")])), ("a group's owner", snapshot([group("dan", "g")])),
            ("a member's owner", snapshot([group("ann", "g", members=[["dan", "m"]])])),
            ("a link's owner", snapshot([], [model("ann", "m", links=[link(1, "dan", "m", 1)], greatest=1)]))]
    with Saving({**THREE, "partners": [{"name": it, "token": it} for it in ("ann", "dan")]}, e=E) as folder:
        folder.write("less.json", json.dumps({**THREE, "partners": [{"name": "ann", "token": "ta"}]}))

        def look(row):
            expect_saved(folder.ask(load=row[1]), row[1])
            expect_untouched(folder.ask(load=row[1], config="less.json"), re.compile(rb": .+"))

        each(look, rows)


# ---- the program

def expect_wrong_words(folder, name, *words):
    seen = folder.ended(name, *words)
    if (seen.status, seen.output, seen.errors.count(b"\n")) != (2, b"", 1):
        raise Wrong(f"{words}: {seen[:3]}")


def test_command_line():
    """Each of the options may stand once, with a value, in any order, and in either form. What is loaded may be what is saved."""
    with Saving(e=E) as folder:
        name = folder.place(snap=SAVED)
        snap, kept, given = f"{name}/snap", f"{name}/kept", ["batch", "--config", "config.json"]
        for words in ([*given, "--load", snap, "--save", kept], [*given, "--save", kept, "--load", snap], [*given, f"--load={snap}", f"--save={kept}"],
                      ["batch", "--load", snap, *given[1:], "--save", kept], [*given, "--load", f"{name}/../{snap}", "--save", folder.path(kept)]):
            expect_saved(folder.ended(name, *words), SAVED)
            os.remove(folder.path(kept))
        seen = folder.ended(name, *given, "--load", snap, "--save", snap, text=create("ann", "z") + b"\n")
        then = SAVED.replace(b'"schema":"T"},{"file"', b'"schema":"T"},%s,{"file"' % compact(model("ann", "z")))
        if seen[:3] != (0, OK + b"\n", b"") or seen.files != {"snap": then}:
            raise Wrong(f"it is loaded from where it is saved: {seen[:3]}, {difference(seen.files['snap'], then)}")
        for it in ("--load", "--save"):
            for words in ([it], [it, it], [it, "-x"], [it, snap, it, snap], [it[:-1], snap], [f"{it}x={snap}"], [it, snap, "x"]):
                expect_wrong_words(folder, name, *given, *words)
            expect_wrong_words(folder, name, "check", it, snap, "t.exp")
            expect_wrong_words(folder, name, "validate", it, snap, "--schema", "t.exp", "x.step")
        expect_wrong_words(folder, name, *given, "--save", "config.json")
        expect_wrong_words(folder, name, "serve", *given[1:], "--listen", "127.0.0.1:0", "--save=config.json")
        if files_in(folder.path(name)) != {"snap": then} or files_in(folder.path("."))["config.json"] != folder.files["config.json"]:
            raise Wrong(f"{sorted(files_in(folder.path(name)))} are left, or the configuration is another one")


# What may be wrong, in the order in which it is told: how it is made, and a pattern of the line.
FAULTS = {
    "command line": "[^\n]+",
    "configuration": '"config.json" is no configuration: [^\n]+',
    "schema": '"l.exp" is no schema: Syntax line 1 column 7',
    "next schema": '"e.exp" is no schema: Syntax line 1 column 1',
    "new": 'two partners have one name: "ann"',
    "no snapshot": """"none" can't be read: there is no such file""",
    "a folder": """"folder" can't be read: it is a folder""",
    "bad snapshot": '"bad": before byte 1[123]: a brace, a bracket, the next key, a text or a whole number is wanted',
    "tokens": "two partners have one token[^\n]*",
    "listen": "192.0.2.1:9 can't be listened on: it is none of this machine's",
    "saved in a folder": """"folder" can't be saved: it is no regular file""",
    "saved in a link": """"link" can't be saved: it is no regular file""",
    "no part": """"taken" can't be saved: [^\n]+""",
    "nowhere": """"absent/x" can't be saved: there is no such folder""",
}
LOADS = {"no snapshot": "none", "a folder": "folder", "bad snapshot": "bad"}
SAVES = {"saved in a folder": "folder", "saved in a link": "link", "no part": "taken", "nowhere": "absent/x"}


def with_faults(command, faults):
    """How a run with these faults ended, and what it left."""
    partners = [{"name": "ann", "token": "ta"}, {"name": "ann" if "new" in faults else "bob", "token": "ta" if "tokens" in faults else "tb"}]
    config = {"partners": partners, "schemas": ["t.exp", "l.exp", "e.exp"], **({"x": 1} if "configuration" in faults else {})}
    with Saving(config, l="SCHEMA" if "schema" in faults else L, e="" if "next schema" in faults else E) as folder:
        for name in ("folder", "taken.part/x"):
            os.makedirs(folder.path(name))
        folder.write("bad", "STEPREPO 1\n{}")
        folder.write("target", OLD)
        folder.write("taken", OLD)
        folder.write("good", EMPTY)
        os.symlink("target", folder.path("link"))
        load = [word for it in faults if it in LOADS for word in ("--load", LOADS[it])] or ["--load", "good"]
        save = [word for it in faults if it in SAVES for word in ("--save", SAVES[it])] or ["--save", "kept"]
        listen = ["--listen", "192.0.2.1:9" if "listen" in faults else "127.0.0.1:0", "--connections", "1"] if command == "serve" else []
        more = ["more"] if "command line" in faults else []
        seen = folder.ended(".", command, "--config", "config.json", *load, *save, *listen, *more, seconds=20, text=list_of("ann"))
        left = {name for name in seen.files if name not in folder.files}
        if left - {"folder", "taken.part", "link", "taken", "target", "good", "bad"} or seen.files["target"] + seen.files["taken"] != OLD * 2:
            raise Wrong(f"{left} are left")
        if os.listdir(folder.path("folder")) or os.listdir(folder.path("taken.part")) != ["x"] or os.readlink(folder.path("link")) != "target":
            raise Wrong("something is left of what is no file")
        return seen


def test_faults_in_their_order():
    """Of two faults the earlier is told: the command line, the configuration, its schemas in their order, what they make together, the
    snapshot, the tokens, the address, and where it is to be saved. Nothing is answered, and nothing left."""
    def look(row):
        pair, command = row
        seen = with_faults(command, pair)
        if (seen.status, seen.output) != (2, b"") or not re.fullmatch(f"rp_server: {FAULTS[pair[0]]}\n".encode(), seen.errors):
            raise Wrong(f"{command}: {seen[:3]}")

    pairs = [pair for pair in itertools.combinations(FAULTS, 2) if not set(pair) <= set(LOADS) and not set(pair) <= set(SAVES)]
    rows = [(pair, "batch") for pair in [*pairs, *((it,) for it in FAULTS)] if "listen" not in pair]
    rows += [(pair, "serve") for pair in [*pairs, *((it,) for it in FAULTS)] if "listen" in pair or set(pair) & {*LOADS, *SAVES}]
    each(look, rows)


# ---- reads and writes that fail

LINES = [create("ann", "m"), list_of("ann"), create("bob", "m")]
REPLIES = replies_of([OK, listed((b"owner", b"m", b"ann")), OK])
UNREAD = b"rp_server: standard input can't be read\n"
UNWRITTEN = b"rp_server: standard output can't be written\n"


def expect_unsaved(seen, wanted):
    """The run ended so, and what was saved before is there alone."""
    if seen[:3] != wanted or seen.files != {"kept": OLD}:
        raise Wrong(f"{seen[:3]} in place of {wanted}, and {seen.files} is left")


def test_what_a_fault_of_a_device_leaves():
    """Where standard input or output fails nothing is saved, though all lines before were answered."""
    lines = [it + b"\n" for it in LINES]
    with Saving(e=E) as folder, tempfile.TemporaryDirectory() as place, open("/dev/full", "wb") as full:
        expect_unsaved(folder.ask(LINES, stdout=full), (2, b"", UNWRITTEN))
        begin, end = os.pipe()
        os.close(begin)
        expect_unsaved(folder.ask(LINES, stdout=end), (2, b"", UNWRITTEN))
        os.close(end)
        directory = os.open(place, os.O_RDONLY)
        expect_unsaved(folder.ask(stdin=directory), (2, b"", UNREAD))
        os.close(directory)
        shim = {"LD_PRELOAD": shim_in(place, "fail"), "FAIL_SHORT": "1"}
        text = b"".join(lines)
        reads = [*range(1, len(text), 7), len(text), len(text) + 1]
        rows = [(f"read {n}", "FAIL_READ", n, (2, b"".join(it + b"\n" for it in REPLIES.split(b"\n")[:text[:n - 1].count(b"\n")]), UNREAD)) for n in reads]
        rows += [(f"write {n}", "FAIL_WRITE", n, (2, REPLIES[:n - 1], UNWRITTEN)) for n in [*range(1, len(REPLIES), 7), len(REPLIES)]]

        def look(row):
            _, name, n, wanted = row
            expect_unsaved(folder.ask(LINES, env={**shim, name: str(n)}), wanted)

        each(look, rows)
        seen = folder.ask(LINES, env={**shim, "FAIL_READ": str(len(text) + 2), "FAIL_WRITE": str(len(REPLIES) + 1)})
        expect_saved(seen, snapshot([], [model("ann", "m"), model("bob", "m")]), REPLIES.split(b"\n")[:-1])


def test_what_is_saved_when():
    """What is saved is begun before the first line is read, and takes its place behind the last reply. What only its owner may read is
    made, and taken away where the run is given up."""
    with Saving(e=E) as folder:
        name = folder.place(kept=OLD)
        part = folder.path(f"{name}/kept.part")
        with folder.start("batch", "--config", "config.json", "--save", f"{name}/kept") as process:
            if not until(lambda: os.path.exists(part)):
                raise Wrong("nothing is begun before the first line")
            if os.stat(part).st_mode & 0o7777 != 0o600 or os.stat(part).st_size:
                raise Wrong(f"what is begun has the mode {os.stat(part).st_mode:o} and {os.stat(part).st_size} bytes")
            # replies that nobody reads yet: nothing is saved before they are written
            text = create("ann", "m") + b"\n" + put("ann", "ann", "m", file_of("#1=P(1.,'" + "x" * 300_000 + "');")) + b"\n" + export("ann", "ann", "m") + b"\n"
            process.stdin.write(text)
            process.stdin.close()
            time.sleep(0.5)
            if files_in(folder.path(name)) != {"kept": OLD, "kept.part": b""} or process.poll() is not None:
                raise Wrong("it is saved before the last reply is written")
            output, errors = process.stdout.read(), process.stderr.read()
            status = process.wait()
        if (status, errors, output.count(b"\n")) != (0, b"", 3):
            raise Wrong(f"status {status}, {errors!r}, {shortened(output)!r}")
        data = snapshot([], [model("ann", "m", "#1=P(1.,'" + "x" * 300_000 + "');")])
        if files_in(folder.path(name)) != {"kept": data} or os.stat(folder.path(f"{name}/kept")).st_mode & 0o7777 != 0o600:
            raise Wrong(f"{difference(files_in(folder.path(name))['kept'], data)} is saved, with the mode {os.stat(folder.path(f'{name}/kept')).st_mode:o}")


if __name__ == "__main__":
    run_tests("snapshots", globals(), sys.argv[1:])
