#!/usr/bin/env python3
"""Runs the built program on the requests of partners who grant each other rights, and compares all that
it writes, byte for byte.

    tests/grants.py [PROGRAM]

Each function `test_*` is one test; its document string says what has to hold. The last line is
'grants: N passed, M failed', and the status is 0 only if none failed.
"""
import sys

from lib.harness import Wrong, run_tests
from lib.messages import (
    BAD_NAME, BAD_REQUEST, EXISTS, FIRST, FIRST_EXPORT, FIRST_LINES, FIRST_NAMES, HAS_LINKS, IN_USE, NO_RIGHT, NO_SUCH_INSTANCE, NO_SUCH_ITEM,
    OK, TOO_MANY, UNKNOWN_PARTNER, WRONG_SCHEMA, add, added, canonical, create, delete, drop, expect, export, exported, file_fault, file_of, get,
    got, grant, instance_fault, instances, line, link, link_fault, linked, list_of, listed, named, names, put, replies_to, revoke, set_instance,
)


def test_a_model_that_is_granted_to_read():
    """It is listed, its names are read, it is exported, and a put into it is refused."""
    expect([*FIRST,
            (list_of("bob"), listed()),
            (export("bob", "ann", "m"), NO_SUCH_ITEM),
            (grant("ann", "m", "bob", "read"), OK),
            (export("bob", "ann", "m"), FIRST_EXPORT),
            (list_of("bob"), listed((b"read", b"m", b"ann"))),
            (list_of("ann"), listed((b"owner", b"m", b"ann"))),
            (names("bob", "ann", "m"), FIRST_NAMES),
            (put("bob", "ann", "m", file_of("")), NO_RIGHT),
            (names("ann", "ann", "m"), FIRST_NAMES)])


def test_single_instances_of_a_model_that_is_granted():
    """They are got from Read on, until the grant is revoked."""
    expect([*FIRST,
            (get("bob", "ann", "m", 1), NO_SUCH_ITEM),
            (grant("ann", "m", "bob", "read"), OK),
            (get("bob", "ann", "m", 1), got("#1=P(1.E-1,'a');")),
            (get("bob", "ann", "m", 3), NO_SUCH_INSTANCE),
            (grant("ann", "m", "bob", "write"), OK),
            (put("bob", "ann", "m", file_of("#3=P(2.,$);")), instances(1)),
            (get("ann", "ann", "m", 3), got("#3=P(2.,$);")),
            (get("bob", "ann", "m", 1), NO_SUCH_INSTANCE),
            (revoke("ann", "m", "bob"), OK),
            (get("bob", "ann", "m", 3), NO_SUCH_ITEM)])


def test_a_model_that_is_granted_to_write():
    """A grant replaces the former level, and the owner reads what the other wrote."""
    expect([*FIRST,
            (grant("ann", "m", "bob", "read"), OK),
            (grant("ann", "m", "bob", "write"), OK),
            (export("bob", "ann", "m"), FIRST_EXPORT),
            (put("bob", "ann", "m", file_of("")), instances(0)),
            (names("ann", "ann", "m"), named()),
            (export("ann", "ann", "m"), exported(canonical())),
            (list_of("bob"), listed((b"write", b"m", b"ann"))),
            (grant("ann", "m", "bob", "read"), OK),
            (put("bob", "ann", "m", file_of("")), NO_RIGHT)])


def test_links_of_a_model_that_is_granted():
    """Who reads it reads its links, and who writes it replaces them. He may lead them only to what he sees himself."""
    to_x, to_y = link(9, "ann", "x", 1), link(9, "bob", "y", 1)
    one = file_of("#1=P(1.,$);")
    expect([*FIRST, (create("ann", "x"), OK), (put("ann", "ann", "x", one), instances(1)), (create("bob", "y"), OK), (put("bob", "bob", "y", one), instances(1)),
            (put("ann", "ann", "m", file_of("#1=Q(#9);"), to_x), instances(1)),
            (export("bob", "ann", "m"), NO_SUCH_ITEM), (export("bob", "ann", "m", links=True), NO_SUCH_ITEM),
            (grant("ann", "m", "bob", "read"), OK),
            (export("bob", "ann", "m"), HAS_LINKS), (export("bob", "ann", "m", links=True), linked(canonical("#1=Q(#9);"), to_x)),
            (names("bob", "ann", "x"), NO_SUCH_ITEM), (put("bob", "ann", "m", file_of("#1=Q(#9);"), to_y), NO_RIGHT),
            (grant("ann", "m", "bob", "write"), OK),
            (put("bob", "ann", "m", file_of("#1=Q(#9);"), to_x), link_fault("NotSeen", 9)),
            (put("bob", "ann", "m", file_of("#1=Q(#9);"), to_y), instances(1)),
            (add("bob", "ann", "m", "Q(#9)"), added(10)), (set_instance("bob", "ann", "m", 1, "Q(#9)"), OK),
            (put("ann", "ann", "m", file_of("#1=Q(#9);"), to_y), link_fault("NotSeen", 9)),
            (export("ann", "ann", "m", links=True), linked(canonical("#1=Q(#9);", "#10=Q(#9);"), to_y)),
            (grant("ann", "x", "bob", "read"), OK), (put("bob", "ann", "m", file_of("#1=Q(#9);"), to_x), instances(1)),
            (put("bob", "ann", "m", file_of("")), instances(0)), (export("ann", "ann", "m"), exported(canonical()))])


def test_a_model_that_is_created_anew():
    """Its grants are gone, and another's name names no model of one's own."""
    expect([*FIRST,
            (grant("ann", "m", "bob", "read"), OK),
            (delete("bob", "m"), NO_SUCH_ITEM),
            (delete("ann", "m"), OK),
            (names("bob", "ann", "m"), NO_SUCH_ITEM),
            (export("bob", "ann", "m"), NO_SUCH_ITEM),
            (create("ann", "m"), OK),
            (names("bob", "ann", "m"), NO_SUCH_ITEM),
            (export("bob", "ann", "m"), NO_SUCH_ITEM),
            (names("ann", "ann", "m"), named()),
            (export("ann", "ann", "m"), exported(canonical()))])


def test_a_grant_that_is_revoked():
    """The model is unseen again; a revoke of nothing and a grant to the owner are done without change."""
    expect([*FIRST,
            (grant("ann", "m", "bob", "write"), OK),
            (revoke("ann", "m", "bob"), OK),
            (names("bob", "ann", "m"), NO_SUCH_ITEM),
            (put("bob", "ann", "m", file_of("")), NO_SUCH_ITEM),
            (export("bob", "ann", "m"), NO_SUCH_ITEM),
            (revoke("ann", "m", "bob"), OK),
            (grant("ann", "m", "ann", "read"), OK),
            (put("ann", "ann", "m", file_of("")), instances(0)),
            (list_of("ann"), listed((b"owner", b"m", b"ann")))])


def test_only_the_owner_grants():
    """A partner with a grant names models of his own in grant, revoke and delete_model."""
    expect([*FIRST,
            (grant("ann", "m", "bob", "write"), OK),
            (grant("bob", "m", "bob", "write"), NO_SUCH_ITEM),
            (revoke("bob", "m", "ann"), NO_SUCH_ITEM),
            (create("bob", "m"), OK),
            (create("bob", "m"), EXISTS),
            (list_of("bob"), listed((b"write", b"m", b"ann"), (b"owner", b"m", b"bob"))),
            (delete("bob", "m"), OK),
            (list_of("bob"), listed((b"write", b"m", b"ann")))])


def test_refusals_in_their_order():
    """The first that holds is told, whatever later one also holds."""
    expect([*FIRST,
            (grant("ann", "a b", "carl", "read"), BAD_NAME),
            (grant("ann", "m", "c d", "read"), BAD_NAME),
            (grant("ann", "z", "carl", "read"), UNKNOWN_PARTNER),
            (grant("ann", "z", "bob", "read"), NO_SUCH_ITEM),
            (revoke("ann", "a b", "carl"), BAD_NAME),
            (revoke("ann", "z", "carl"), UNKNOWN_PARTNER),
            (revoke("ann", "z", "bob"), NO_SUCH_ITEM),
            (delete("ann", "a b"), BAD_NAME),
            (delete("ann", "z"), NO_SUCH_ITEM),
            (grant("ann", "m", "bob", "read"), OK),
            (put("bob", "ann", "m", file_of("", schema="L")), NO_RIGHT),
            (put("bob", "ann", "m", "ISO-10303-2"), NO_RIGHT),
            (put("bob", "ann", "m", file_of("#1=R();")), NO_RIGHT),
            (export("bob", "ann", "a b"), BAD_NAME),
            (export("bob", "carl", "m"), UNKNOWN_PARTNER),
            (export("bob", "ann", "z"), NO_SUCH_ITEM),
            (grant("ann", "m", "bob", "write"), OK),
            (put("bob", "ann", "m", file_of("", schema="L")), WRONG_SCHEMA),
            (put("bob", "ann", "m", file_of("#1=R();", schema="L")), WRONG_SCHEMA),
            (put("bob", "ann", "m", "ISO-10303-2"), file_fault("Token", 0)),
            (put("bob", "ann", "m", file_of("#1=R();")), instance_fault("UnknownEntity", 1)),
            (export("ann", "ann", "m"), FIRST_EXPORT)])


def test_what_is_no_request():
    """A level or a kind that isn't there, a key too many or too few, and a word in another case."""
    given = {"kind": "model", "name": "m", "to": "bob"}
    lines = [
        line("ann", "grant", **given, level="Group"), line("ann", "grant", **given, level="owner"),
        line("ann", "grant", **given, level="Read"), line("ann", "grant", **given, level=None),
        line("ann", "grant", **given), line("ann", "grant", **given, level="read", owner="ann"),
        line("ann", "grant", **{**given, "kind": "group"}, level="write"),
        line("ann", "grant", **{**given, "kind": "Model"}, level="read"),
        line("ann", "revoke", **given, level="read"), line("ann", "revoke", kind="model", name="m"),
        line("ann", "delete_model", name="m", owner="ann"), line("ann", "delete_model"),
        line("ann", "list", owner="ann"), line("carl", "list"),
    ]
    expect([*FIRST, *[(it, BAD_REQUEST) for it in lines], (list_of("bob"), listed())])


def test_models_of_others_do_not_count():
    """The limit of models counts the caller's alone, granted ones not."""
    turns = []
    for place in range(100):
        turns += [(create("ann", f"m{place}"), OK), (grant("ann", f"m{place}", "bob", "write"), OK)]
    expect([*turns, (create("ann", "one"), TOO_MANY), (create("bob", "one"), OK)])


# ---- two inputs

def test_two_inputs_that_look_the_same_to_bob():
    """What ann does with a model that bob doesn't see, and what she is refused, changes none of his replies."""
    his = [list_of("bob"), names("bob", "ann", "m"), export("bob", "ann", "m"), put("bob", "ann", "m", file_of("")),
           create("bob", "x"), names("bob", "ann", "x"), export("bob", "ann", "x"), put("bob", "bob", "x", file_of("#7=P(1.,$);")),
           list_of("bob"), export("bob", "bob", "x"), delete("bob", "x"), names("bob", "bob", "x")]
    first = [*FIRST_LINES, grant("ann", "m", "bob", "read"), *his]
    hers = [create("ann", "x"), put("ann", "ann", "x", file_of("#1=P(2.,$);")), names("ann", "ann", "x"),
            export("ann", "ann", "x"), put("ann", "ann", "x", file_of("#1=P();")), delete("ann", "x"), b"{", create("ann", "m"),
            put("ann", "bob", "x", file_of("")), names("ann", "bob", "x"), export("ann", "bob", "x"), list_of("ann"),
            create("ann", "a b")]
    second = [*FIRST_LINES, grant("ann", "m", "bob", "read")]
    for place, it in enumerate(his):
        second += [hers[place % len(hers)], it]
    second += hers
    alone = replies_to("bob", first)
    beside = replies_to("bob", second)
    if alone != beside or len(alone) != len(his):
        raise Wrong(f"{alone!r} and {beside!r}")
    wanted = [listed((b"read", b"m", b"ann")), FIRST_NAMES, FIRST_EXPORT, NO_RIGHT, OK, NO_SUCH_ITEM, NO_SUCH_ITEM, instances(1),
              listed((b"read", b"m", b"ann"), (b"owner", b"x", b"bob")), exported(canonical("#7=P(1.,$);")), OK, NO_SUCH_ITEM]
    if alone != wanted:
        raise Wrong(f"{alone!r} in place of {wanted!r}")


# ann's file with a link to each of bob's first two instances
TO_BOB = [link(8, "bob", "b", 1), link(9, "bob", "b", 2)]
TWO_USERS = file_of("#1=Q(#8);#2=Q(#9);")

# What bob does with a model of his own, and between it what ann does with hers, which he doesn't see, once he lets her read his.
BESIDE = [
    (create("ann", "x"), OK),
    (create("bob", "b"), OK),
    (put("ann", "ann", "x", TWO_USERS, *TO_BOB), link_fault("NotSeen", 8)),
    (put("bob", "bob", "b", file_of("#1=P(1.,$);#2=Q(#1);")), instances(2)),
    (put("ann", "ann", "x", TWO_USERS, *TO_BOB), link_fault("NotSeen", 8)),
    (grant("bob", "b", "ann", "read"), OK),
    (put("ann", "ann", "x", TWO_USERS, *TO_BOB), instances(2)),
    (list_of("bob"), listed((b"read", b"m", b"ann"), (b"owner", b"b", b"bob"))),
    (names("bob", "bob", "b"), named((1, "P"), (2, "Q"))),
    (put("ann", "ann", "x", TWO_USERS), instance_fault("Undefined", 1)),
    (export("bob", "bob", "b"), exported(canonical("#1=P(1.,$);", "#2=Q(#1);"))),
    (export("ann", "ann", "x", links=True), linked(canonical("#1=Q(#8);", "#2=Q(#9);"), *TO_BOB)),
    (export("bob", "bob", "b", links=True), linked(canonical("#1=P(1.,$);", "#2=Q(#1);"))),
    (put("ann", "bob", "b", file_of("#1=Q(#9);"), link(9, "ann", "x", 1)), NO_RIGHT),
    (drop("bob", "bob", "b", 1), IN_USE),
    (drop("bob", "bob", "b", 2), OK),
    (put("ann", "ann", "x", TWO_USERS, *TO_BOB), link_fault("NoInstance", 9)),
    (put("ann", "ann", "x", file_of("#1=Q(#8);"), TO_BOB[0]), instances(1)),
    (drop("bob", "bob", "b", 1), OK),
    (put("ann", "ann", "x", file_of("#1=Q(#8);"), TO_BOB[0]), link_fault("NoInstance", 8)),
    (names("bob", "bob", "b"), named()),
    (delete("ann", "x"), OK),
    (add("bob", "bob", "b", "P(2.,$)"), added(3)),
    (create("ann", "x"), OK),
    (get("bob", "bob", "b", 3), got("#3=P(2.,$);")),
    (put("ann", "ann", "x", file_of(""), link(1, "bob", "b", 3)), instances(0)),
    (put("bob", "bob", "b", file_of("#1=Q(#9);"), link(9, "ann", "x", 1)), link_fault("NotSeen", 9)),
    (put("bob", "bob", "b", file_of("#1=Q(#9);"), link(9, "ann", "m", 1)), instances(1)),
    (put("ann", "ann", "x", file_of("#1=Q(#8);"), TO_BOB[0]), instances(1)),
    (export("bob", "bob", "b"), HAS_LINKS),
    (export("bob", "bob", "b", links=True), linked(canonical("#1=Q(#9);"), link(9, "ann", "m", 1))),
    (drop("ann", "ann", "x", 1), OK),
    (set_instance("bob", "bob", "b", 1, "P(5.,$)"), OK),
    (names("bob", "ann", "x"), NO_SUCH_ITEM),
    (revoke("bob", "b", "ann"), OK),
    (export("ann", "ann", "x", links=True), linked(canonical(), TO_BOB[0])),
    (export("bob", "ann", "m", links=True), linked(canonical("#1=P(1.E-1,'a');", "#2=Q(#1);"))),
    (delete("bob", "b"), OK),
    (export("ann", "ann", "x", links=True), linked(canonical(), TO_BOB[0])),
    (create("bob", "b"), OK),
    (add("bob", "bob", "b", "P(1.,$)"), added(1)),
    (drop("bob", "bob", "b", 1), OK),
]


def test_links_to_what_bob_has():
    """Models that he doesn't see, with links to his instances, change none of his replies: not while they are put, refused, replaced
    and deleted, nor while they stay."""
    start = [*FIRST, (grant("ann", "m", "bob", "read"), OK)]
    his = [turn for turn in BESIDE if turn[0].startswith(b'{"as":"bob"')]
    expect([*start, *his])
    expect([*start, *BESIDE])
    granted = his.index((grant("bob", "b", "ann", "read"), OK)) + 1
    hers = [(create("ann", "x"), OK), (create("ann", "y"), OK), (put("ann", "ann", "y", file_of("#1=P(1.,$);")), instances(1)),
            (put("ann", "ann", "x", TWO_USERS, link(7, "ann", "y", 1), *TO_BOB), instances(2)),
            (put("ann", "ann", "y", file_of("#1=Q(#9);"), TO_BOB[1]), instances(1))]
    told = [(export("ann", "ann", "x", links=True), linked(canonical("#1=Q(#8);", "#2=Q(#9);"), link(7, "ann", "y", 1), *TO_BOB)),
            (export("ann", "ann", "y", links=True), linked(canonical("#1=Q(#9);"), TO_BOB[1]))]
    expect([*start, *his[:granted], *hers, *his[granted:], *told])


if __name__ == "__main__":
    run_tests("grants", globals(), sys.argv[1:])
