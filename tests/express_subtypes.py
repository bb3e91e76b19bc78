#!/usr/bin/env python3
"""Runs the built program on schemas whose supertype expressions can't be read, by `check` and by the request
`check_schema`, and compares all that is told of them, byte for byte.

    tests/express_subtypes.py [PROGRAM]

A mark as ⟦NamedTwice⟧ stands right before the first byte of a fault; of several faults the first is told. What has
no mark is accepted. The last line is 'express subtypes: N passed, M failed', and the status is 0 only if none failed.
"""
import sys

from lib.harness import run_parts, unmarked
from lib.messages import check, fault, good, replies_to

# a's direct subtypes are b, c and d, and e stands below d
BELOW = ("ENTITY b SUBTYPE OF (a); END_ENTITY; ENTITY c SUBTYPE OF (a); END_ENTITY; ENTITY d SUBTYPE OF (a); END_ENTITY; "
         "ENTITY e SUBTYPE OF (d); END_ENTITY; ENTITY f; END_ENTITY;")
A = "ENTITY a SUPERTYPE OF ({}); END_ENTITY; " + BELOW

# an expression of a
EXPRESSIONS = [
    ("one name", "b"),
    ("one of some", "ONEOF (b, c, d)"),
    ("all forms in one another", "ONEOF (b ANDOR c, d)"),
    ("parentheses", "((b) ANDOR ((c AND (d))))"),
    # named twice: at the second mention
    ("twice in ANDOR", "b ANDOR ⟦NamedTwice⟧b"),
    ("twice in AND", "b AND c AND ⟦NamedTwice⟧b"),
    ("twice in ONEOF", "ONEOF (b, c, ⟦NamedTwice⟧b)"),
    ("three times", "ONEOF (b, ⟦NamedTwice⟧b, ⟦NamedTwice⟧b)"),
    ("twice in two parts", "ONEOF (b, c) ANDOR ONEOF (d, ⟦NamedTwice⟧c)"),
    ("twice, in and behind parentheses", "(b ANDOR c) AND ⟦NamedTwice⟧c"),
    ("twice in two cases", "b ANDOR ⟦NamedTwice⟧B"),
    ("two that stand twice", "b ANDOR c ANDOR ⟦NamedTwice⟧c ANDOR ⟦NamedTwice⟧b"),
    # no direct subtype: at the name
    ("an entity of its own", "⟦NotDirectSubtype⟧f"),
    ("the entity itself", "⟦NotDirectSubtype⟧a"),
    ("a subtype's subtype", "b ANDOR ⟦NotDirectSubtype⟧e"),
    ("the second of ONEOF", "ONEOF (b, ⟦NotDirectSubtype⟧f, d)"),
    ("two that are none", "b AND ⟦NotDirectSubtype⟧f AND ⟦NotDirectSubtype⟧e"),
    # both
    ("one that is none, twice", "⟦NotDirectSubtype⟧f ANDOR ⟦NamedTwice⟧f"),
    ("twice before one that is none", "b ANDOR ⟦NamedTwice⟧b ANDOR ⟦NotDirectSubtype⟧f"),
    ("one that is none before twice", "b ANDOR ⟦NotDirectSubtype⟧f ANDOR ⟦NamedTwice⟧b"),
]

DECLARATIONS = [
    ("abstract alone", "ENTITY a ABSTRACT SUPERTYPE; END_ENTITY;"),
    ("abstract, with an expression", "ENTITY a ABSTRACT SUPERTYPE OF (b ANDOR ⟦NamedTwice⟧b); END_ENTITY; " + BELOW),
    ("a supertype", "ENTITY g SUPERTYPE OF (⟦NotDirectSubtype⟧a) SUBTYPE OF (a); END_ENTITY; ENTITY a; END_ENTITY;"),
    ("a subtype of two", "ENTITY a SUPERTYPE OF (g); END_ENTITY; ENTITY b SUPERTYPE OF (g); END_ENTITY; "
     "ENTITY g SUBTYPE OF (a, b); END_ENTITY;"),
    ("one name in two entities' expressions", "ENTITY a SUPERTYPE OF (g); END_ENTITY; "
     "ENTITY b SUPERTYPE OF (g ANDOR ⟦NamedTwice⟧g); END_ENTITY; ENTITY g SUBTYPE OF (a, b); END_ENTITY;"),
    ("a subtype of another alone", "ENTITY a SUPERTYPE OF (g); END_ENTITY; ENTITY b SUPERTYPE OF (⟦NotDirectSubtype⟧g); END_ENTITY; "
     "ENTITY g SUBTYPE OF (a); END_ENTITY;"),
    ("faults of two entities", "ENTITY a SUPERTYPE OF (⟦NotDirectSubtype⟧b); END_ENTITY; "
     "ENTITY b SUPERTYPE OF (g ANDOR ⟦NamedTwice⟧g); END_ENTITY; ENTITY g SUBTYPE OF (b); END_ENTITY;"),
    # all other phases come before
    ("behind a fault of a token", "ENTITY a SUPERTYPE OF (a); END_ENTITY; ⟦Token⟧!"),
    ("behind a fault of syntax", "ENTITY a SUPERTYPE OF (a); END_ENTITY; ⟦Syntax⟧x"),
    ("behind a fault of a name", "ENTITY a SUPERTYPE OF (a); END_ENTITY; ENTITY b; x : ⟦Undeclared⟧t; END_ENTITY;"),
    ("behind a fault of a type", "ENTITY a SUPERTYPE OF (a); END_ENTITY; ENTITY b; WHERE ⟦Operand⟧NOT 5; END_ENTITY;"),
]

CASES = [(name, "A", f"SCHEMA A; {declarations} END_SCHEMA;")
         for name, declarations in [*((name, A.format(it)) for name, it in EXPRESSIONS), *DECLARATIONS]]


def by_check(it):
    it.looks(CASES)


def reply_of(text):
    """The reply to a request that has a marked text checked."""
    marks = unmarked(text)[1]
    return fault(*marks[0]) if marks else good("A")


def by_request(it):
    lines = [check("ann", unmarked(text)[0].decode()) for _, _, text in CASES]
    for (name, _, text), seen in zip(CASES, replies_to("ann", lines)):
        it.expect(f"{name}, by check_schema", seen, reply_of(text))


def many(it):
    """Expressions as large as fit, with a fault at their ends."""
    names = [f"e_{k}" for k in range(5000)]
    below = " ".join(f"ENTITY {name} SUBTYPE OF (a); END_ENTITY;" for name in names)
    for name, way, around in (("ONEOF", ", ", "ONEOF ({})"), ("AND", " AND ", "{}"), ("ANDOR", " ANDOR ", "{}")):
        entity = "SCHEMA A; ENTITY a SUPERTYPE OF ({}); END_ENTITY; " + below + " END_SCHEMA;"
        it.looks([(f"{name} of 5,000", "A", entity.format(around.format(way.join(names)))),
                  (f"{name} of 5,000 and the first again", "A", entity.format(around.format(way.join([*names, "⟦NamedTwice⟧e_0"])))),
                  (f"{name} of 5,000 and itself", "A", entity.format(around.format(way.join([*names, "⟦NotDirectSubtype⟧a"]))))])
    deep = "ONEOF (e_{}, (" * 30 + "e_30 ANDOR ⟦NamedTwice⟧e_0" + "))" * 30
    it.looks([("a name at level 60", "A", f"SCHEMA A; ENTITY a SUPERTYPE OF ({deep.format(*range(30))}); END_ENTITY; {below} END_SCHEMA;")])


if __name__ == "__main__":
    run_parts("express subtypes", [by_check, by_request, many], sys.argv[1:])
