#!/usr/bin/env python3
"""Runs the built program on whole inputs and compares all that it writes, byte for byte.

    tests/end_to_end.py [PROGRAM]

Each function `test_*` is one test; its document string says what has to hold. The last line is
'end to end: N passed, M failed', and the status is 0 only if none failed.
"""
import itertools
import json
import os
import re
import select
import shutil
import socket
import subprocess
import sys
import time

from lib.harness import TOP, Folder, LeftOut, Wrong, run_tests, shortened
from lib.messages import (
    BAD_NAME, BAD_REQUEST, CONFIG, E, EXISTS, FILE_LIMIT, FIRST, FIRST_EXPORT, FIRST_LINES, FIRST_NAMES, FIRST_REPLIES, HAS_LINKS, HEAD,
    IN_USE, LINE_LIMIT, NO_RIGHT, NO_SUCH_INSTANCE, NO_SUCH_ITEM, OK, T, TOO_LARGE, TOO_MANY, UNKNOWN_PARTNER, UNKNOWN_SCHEMA, WRONG_SCHEMA,
    Repository, add, added, canonical, check, create, create_group, delete, drop, expect, expect_config_fault, expect_fault, expect_replies, export,
    exported, fault, file_fault, file_of, get, got, grant, include, instance_fault, instances, line, link, link_fault, linked, list_of, listed, loaded,
    named, names, put, refused, revoke, schemas, set_instance, users_are,
)

sys.path.insert(0, os.path.join(TOP, "bench"))

from make_part21 import part21  # noqa: E402

# ---- requests

def test_four_lines_in_four_lines_out():
    """A model is created, a file is put into it, its names are listed, and it is exported."""
    expect([*FIRST, (names("ann", "ann", "m"), FIRST_NAMES), (export("ann", "ann", "m"), FIRST_EXPORT)])


def test_empty_file():
    """A file without instances leaves a model without names."""
    expect([(create("ann", "m"), OK), (put("ann", "ann", "m", file_of("")), instances(0)),
            (names("ann", "ann", "m"), named()), (export("ann", "ann", "m"), exported(canonical()))])


def test_export_of_a_model_without_a_file():
    """It has a header from its creation on, with the schema's name in upper case."""
    text = ("ISO-10303-21;\nHEADER;\nFILE_DESCRIPTION((''),'2;1');\nFILE_NAME('','',(''),(''),'','','');\nFILE_SCHEMA(('T'));\n"
            "ENDSEC;\nDATA;\nENDSEC;\nEND-ISO-10303-21;\n")
    expect([(create("ann", "m", "t"), OK), (export("ann", "ann", "m"), exported(text)),
            (put("ann", "ann", "m", "ISO"), file_fault("Syntax", 0)), (export("ann", "ann", "m"), exported(text)),
            (put("ann", "ann", "m", text), instances(0)), (export("ann", "ann", "m"), exported(text))])


def test_an_unseen_model_is_answered_as_an_absent_one():
    """bob learns nothing of ann's model, and may have one of the same name."""
    expect([*FIRST,
            (names("bob", "ann", "m"), NO_SUCH_ITEM),
            (names("bob", "ann", "z"), NO_SUCH_ITEM),
            (export("bob", "ann", "m"), NO_SUCH_ITEM),
            (export("bob", "ann", "z"), NO_SUCH_ITEM),
            (put("bob", "ann", "m", file_of("")), NO_SUCH_ITEM),
            (create("bob", "m"), OK),
            (names("bob", "bob", "m"), named()),
            (names("ann", "ann", "m"), FIRST_NAMES),
            (names("bob", "carl", "m"), UNKNOWN_PARTNER),
            (names("bob", "ann", "a b"), BAD_NAME),
            (names("bob", "carl", "a b"), BAD_NAME),
            (export("bob", "carl", "m"), UNKNOWN_PARTNER),
            (export("bob", "carl", "a b"), BAD_NAME),
            (put("bob", "carl", "a b", "ISO"), BAD_NAME)])


def test_single_instances():
    """Each instance is got by its name as its line of the export, and by no other name."""
    lines = ["#0=P($,$);", "#3=P(2.,$);", "#7=(A(1)P_2('a')Q(#3));", "#999999999999999999=Q(#0);"]
    x = "SCHEMA X; ENTITY p; x : OPTIONAL REAL; n : OPTIONAL STRING; END_ENTITY; ENTITY q; a : p; END_ENTITY; " \
        "ENTITY a SUBTYPE OF (q); i : INTEGER; END_ENTITY; ENTITY p_2 SUBTYPE OF (q); s : STRING; END_ENTITY; END_SCHEMA;"
    turns = [(create("ann", "m", "X"), OK), (get("ann", "ann", "m", 3), NO_SUCH_INSTANCE),
             (put("ann", "ann", "m", file_of("".join(reversed(lines)), "X")), instances(4)),
             (export("ann", "ann", "m"), exported(canonical(*lines, schema="X")))]
    turns += [(get("ann", "ann", "m", int(it[1:].partition("=")[0])), got(it)) for it in lines]
    turns += [(get("ann", "ann", "m", it), NO_SUCH_INSTANCE) for it in (1, 2, 4, 6, 8, 999_999_999_999_999_998)]
    turns += [(put("ann", "ann", "m", file_of("#3=P(5.,$);", "X")), instances(1)),
              (get("ann", "ann", "m", 3), got("#3=P(5.,$);")), (get("ann", "ann", "m", 7), NO_SUCH_INSTANCE)]
    expect(turns, {**CONFIG, "schemas": ["x.exp"]}, x=x)


def test_single_instances_of_many():
    """Among 1,000 instances each that is there is got, and none that isn't."""
    names_of = range(5, 3005, 3)
    turns = [(create("ann", "m"), OK), (put("ann", "ann", "m", file_of("".join(f"#{k}=P({k}.,$);" for k in names_of))), instances(1000))]
    expect(turns + [(get("ann", "ann", "m", k), got(f"#{k}=P({k}.,$);") if k in names_of else NO_SUCH_INSTANCE)
                    for k in range(3010) if k % 10])


def test_names_that_are_no_instances():
    """The name of an instance is a whole number of at most 18 digits, written without point and exponent."""
    asked = b'{"as":"ann","do":"get","owner":"ann","model":"m","instance":%s}'
    good = [(b"1", got("#1=P(1.E-1,'a');")), (b"2", got("#2=Q(#1);")), (b" 2\t", got("#2=Q(#1);")), (b'7,"instance":1', got("#1=P(1.E-1,'a');")),
            (b"0", NO_SUCH_INSTANCE), (b"999999999999999999", NO_SUCH_INSTANCE)]
    bad = [b"1000000000000000000", b"18446744073709551615", b"18446744073709551616", b"-1", b"-0", b"1.0", b"1e0", b"10E-1", b"01", b"+1", b'"1"',
           b"null", b"true", b"[1]", b"{}", b"", b"#1", b"1" * 40, b"1e999", b'1,"links":1', b'1,"instance":null']
    expect([*FIRST, *[(asked % it, reply) for it, reply in good], *[(asked % it, BAD_REQUEST) for it in bad],
            (line("ann", "get", owner="ann", model="m"), BAD_REQUEST), (line("ann", "get", instance=1, model="m"), BAD_REQUEST)])


def test_refusals_of_single_instances():
    """Names come before partners, these before what isn't seen, and this before an instance that isn't there."""
    expect([*FIRST,
            (get("ann", "carl", "a b", 3), BAD_NAME), (get("ann", "c d", "m", 3), BAD_NAME), (get("ann", "carl", "m", 3), UNKNOWN_PARTNER),
            (get("ann", "ann", "z", 3), NO_SUCH_ITEM), (get("bob", "ann", "m", 1), NO_SUCH_ITEM), (get("bob", "ann", "m", 3), NO_SUCH_ITEM),
            (get("ann", "ann", "m", 3), NO_SUCH_INSTANCE)])


def test_single_changes():
    """An instance is added under the greatest name and one, replaced whole, and dropped where no other one refers to it. What
    comes of it is exported as any content, and put again."""
    text = canonical("#4=P(1.E1,'b');", "#5=Q(#4);")
    expect([*FIRST,
            (drop("ann", "ann", "m", 1), IN_USE), (drop("ann", "ann", "m", 2), OK), (add("ann", "ann", "m", "Q(#1)"), added(3)),
            (drop("ann", "ann", "m", 2), NO_SUCH_INSTANCE), (names("ann", "ann", "m"), named((1, "P"), (3, "Q"))),
            (drop("ann", "ann", "m", 3), OK), (drop("ann", "ann", "m", 1), OK), (names("ann", "ann", "m"), named()),
            (export("ann", "ann", "m"), exported(canonical())), (drop("ann", "ann", "m", 1), NO_SUCH_INSTANCE),
            (add("ann", "ann", "m", " p ( 10 , 'b' ) /**/ "), added(4)), (get("ann", "ann", "m", 4), got("#4=P(1.E1,'b');")),
            (add("ann", "ann", "m", "(Q(#4))"), added(5)), (export("ann", "ann", "m"), exported(text)),
            (put("ann", "ann", "m", text), instances(2)), (export("ann", "ann", "m"), exported(text))])


def test_changes_by_another():
    """Who may write a model may change its instances, and who may read it sees what they are."""
    expect([*FIRST, (add("bob", "ann", "m", "P(2.,$)"), NO_SUCH_ITEM), (grant("ann", "m", "bob", "write"), OK),
            (add("bob", "ann", "m", "P(2.,$)"), added(3)), (get("ann", "ann", "m", 3), got("#3=P(2.,$);")),
            (set_instance("bob", "ann", "m", 3, "P(5.,$)"), OK), (get("ann", "ann", "m", 3), got("#3=P(5.,$);")),
            (grant("ann", "m", "bob", "read"), OK), (add("bob", "ann", "m", "P(2.,$)"), NO_RIGHT),
            (set_instance("bob", "ann", "m", 3, "P(2.,$)"), NO_RIGHT), (drop("bob", "ann", "m", 3), NO_RIGHT),
            (get("bob", "ann", "m", 3), got("#3=P(5.,$);"))])


def test_names_that_are_given():
    """A name isn't given twice while its model exists: not after a drop, nor after another file."""
    expect([*FIRST, (put("ann", "ann", "m", file_of("#9=P(1.,$);")), instances(1)), (put("ann", "ann", "m", file_of("")), instances(0)),
            (add("ann", "ann", "m", "P(1.,$)"), added(10)), (drop("ann", "ann", "m", 10), OK), (add("ann", "ann", "m", "P(1.,$)"), added(11)),
            (put("ann", "ann", "m", file_of("#3=P(1.,$);")), instances(1)), (add("ann", "ann", "m", "P(1.,$)"), added(12)),
            (delete("ann", "m"), OK), (create("ann", "m"), OK), (add("ann", "ann", "m", "P(1.,$)"), added(1)),
            (put("ann", "ann", "m", file_of("#999999999999999998=P(1.,$);")), instances(1)),
            (add("ann", "ann", "m", "P(2.,$)"), added(999_999_999_999_999_999)), (add("ann", "ann", "m", "P(3.,$)"), TOO_MANY),
            (add("ann", "ann", "m", "P($)"), instance_fault("WrongCount", 10**18)), (add("ann", "ann", "m", "P($,"), file_fault("Syntax", 4)),
            (set_instance("ann", "ann", "m", 999_999_999_999_999_999, "P(3.,$)"), OK),
            (drop("ann", "ann", "m", 999_999_999_999_999_999), OK), (add("ann", "ann", "m", "P(2.,$)"), TOO_MANY),
            (names("ann", "ann", "m"), named((999_999_999_999_999_998, "P")))])


def test_what_one_instance_refers_to():
    """It may name what the model has before the request: itself where it is set, and not where it is added."""
    schema = "SCHEMA T; ENTITY p; x : OPTIONAL p; END_ENTITY; END_SCHEMA;"
    expect([(create("ann", "m"), OK), (add("ann", "ann", "m", "P(#1)"), instance_fault("Undefined", 1)), (add("ann", "ann", "m", "P($)"), added(1)),
            (set_instance("ann", "ann", "m", 1, "P(#2)"), instance_fault("Undefined", 1)), (set_instance("ann", "ann", "m", 1, "P(#1)"), OK),
            (add("ann", "ann", "m", "P(#1)"), added(2)), (set_instance("ann", "ann", "m", 1, "P(#2)"), OK),
            (drop("ann", "ann", "m", 1), IN_USE), (drop("ann", "ann", "m", 2), IN_USE), (set_instance("ann", "ann", "m", 1, "P(#1)"), OK),
            (drop("ann", "ann", "m", 2), OK), (drop("ann", "ann", "m", 1), OK), (names("ann", "ann", "m"), named())], t=schema)


def test_texts_of_one_instance():
    """Faults lie at bytes of the text, which has neither a name, a semicolon nor a byte order mark."""
    deep = "(" * 16 + "1" + ")" * 16
    faults = [
        ("P(1.,'ab", "Open", 5), ("P(1. /* x", "Open", 5), ("P(1.,'a'", "Syntax", 8), ("", "Syntax", 0), ("P(1.,$);", "Syntax", 7),
        ("#3=P(1.,$)", "Syntax", 0), ("\ufeffP(1.,$)", "Token", 0), ("P(1.,$) P(1.,$)", "Syntax", 8), ("()", "Syntax", 1),
        (f"P(({deep}),$)", "Deep", 18), ("P(9223372036854775808,$)", "Number", 2), ("P(1.,'\\X2\\D800\\X0\\')", "Code", 5),
    ]
    bad = [("P(x,$)".replace("x", deep), "WrongKind"), ("X()", "UnknownEntity"), ("(P(1.,$)P(1.,$))", "Twice"), ("(P(1.,$)Q(#1))", "IllegalCombination"),
           ("P(1.)", "WrongCount"), ("P(*,$)", "NotDerived"), ("Q(#3)", "Undefined"), ("Q('a')", "WrongKind")]
    turns = [*FIRST]
    for text, kind, at in faults:
        turns += [(add("ann", "ann", "m", text), file_fault(kind, at)), (set_instance("ann", "ann", "m", 7, text), file_fault(kind, at))]
    for text, kind in bad:
        turns += [(add("ann", "ann", "m", text), instance_fault(kind, 3)), (set_instance("ann", "ann", "m", 7, text), instance_fault(kind, 7))]
    expect(turns + [(names("ann", "ann", "m"), FIRST_NAMES), (export("ann", "ann", "m"), FIRST_EXPORT)])


def test_refusals_of_single_changes():
    """They are tested in the order of their codes."""
    expect([*FIRST,
            (add("ann", "carl", "a b", "P("), BAD_NAME), (add("ann", "carl", "m", "P("), UNKNOWN_PARTNER), (add("bob", "ann", "m", "P("), NO_SUCH_ITEM),
            (add("ann", "ann", "m", "x" * (FILE_LIMIT + 1)), TOO_LARGE), (set_instance("ann", "carl", "a b", 1, "x" * (FILE_LIMIT + 1)), TOO_LARGE),
            (set_instance("ann", "c d", "m", 3, "P("), BAD_NAME), (set_instance("ann", "carl", "m", 3, "P("), UNKNOWN_PARTNER),
            (set_instance("ann", "ann", "z", 3, "P("), NO_SUCH_ITEM), (set_instance("ann", "ann", "m", 3, "P("), file_fault("Syntax", 2)),
            (set_instance("ann", "ann", "m", 3, "P($)"), instance_fault("WrongCount", 3)), (set_instance("ann", "ann", "m", 3, "P($,$)"), NO_SUCH_INSTANCE),
            (drop("ann", "carl", "a b", 3), BAD_NAME), (drop("ann", "carl", "m", 3), UNKNOWN_PARTNER), (drop("bob", "ann", "m", 1), NO_SUCH_ITEM),
            (drop("ann", "ann", "z", 1), NO_SUCH_ITEM), (drop("ann", "ann", "m", 3), NO_SUCH_INSTANCE),
            (line("ann", "add", owner="ann", model="m"), BAD_REQUEST), (line("ann", "add", owner="ann", model="m", text="Q(#1)", instance=3), BAD_REQUEST),
            (line("ann", "set", owner="ann", model="m", text="Q(#1)"), BAD_REQUEST), (line("ann", "drop", owner="ann", model="m"), BAD_REQUEST),
            (line("ann", "drop", owner="ann", model="m", instance=1, text=""), BAD_REQUEST),
            (line("ann", "set", owner="ann", model="m", instance=10**18, text="Q(#1)"), BAD_REQUEST)])


def test_a_full_model():
    """A model has at most 200,000 instances: one can be replaced, and one more is added once another is dropped."""
    many = "".join(f"#{k}=P($,$);" for k in range(1, 200_001))
    expect([(create("ann", "m"), OK), (put("ann", "ann", "m", file_of(many)), instances(200_000)), (add("ann", "ann", "m", "P($,$)"), TOO_MANY),
            (add("ann", "ann", "m", "P($)"), instance_fault("WrongCount", 200_001)), (set_instance("ann", "ann", "m", 7, "P(1.,$)"), OK),
            (drop("ann", "ann", "m", 9), OK), (add("ann", "ann", "m", "P(2.,$)"), added(200_001)), (add("ann", "ann", "m", "P($,$)"), TOO_MANY),
            (get("ann", "ann", "m", 7), got("#7=P(1.,$);")), (get("ann", "ann", "m", 9), NO_SUCH_INSTANCE),
            (get("ann", "ann", "m", 200_001), got("#200001=P(2.,$);")), (get("ann", "ann", "m", 200_000), got("#200000=P($,$);"))])


def test_files_that_are_cut_off():
    """The fault lies where the file is cut, and the model is as before."""
    expect([*FIRST,
            (put("ann", "ann", "m", "ISO-10303-2"), file_fault("Token", 0)),
            (put("ann", "ann", "m", "ISO-10303-21;HEADER;FILE_DESC"), file_fault("Syntax", 20)),
            (put("ann", "ann", "m", "ISO-10303-21;HEADER;FILE_DESCRIPTION"), file_fault("Syntax", 36)),
            (put("ann", "ann", "m", ""), file_fault("Syntax", 0)),
            (names("ann", "ann", "m"), FIRST_NAMES),
            (export("ann", "ann", "m"), FIRST_EXPORT)])


def test_models_of_one_owner():
    """An owner has at most 100 models; another's don't count."""
    turns = [(create("ann", f"m{k}"), OK) for k in range(100)]
    expect([(b"{", BAD_REQUEST), (create("bob", "m0"), OK), *turns, (create("ann", "m100"), TOO_MANY),
            (create("ann", "m99"), EXISTS), (create("bob", "m100"), OK)])


def test_refusals_in_their_order():
    """Where several refusals hold, the first in the order of their codes is given."""
    large = file_of("") + " " * (FILE_LIMIT + 1)
    undefined, twice = "#2=Q(#9);", "#3=P(1.,$);#3=P(1.,$);"
    many = "".join(f"#{k}=P($,$);" for k in range(1, 200_001))
    before = [(create("ann", f"m{k}"), OK) for k in range(100)]
    at = len(HEAD.format("L") + "DATA;")
    expect(before + [
        (put("carl", "carl", "a b", large), BAD_REQUEST),
        (line("ann", "put", owner="carl", model="a b", file=large, x=1), BAD_REQUEST),
        (put("ann", "carl", "a b", large), TOO_LARGE),
        (put("ann", "carl", "a b", "ISO"), BAD_NAME),
        (put("ann", "a b", "m0", "ISO"), BAD_NAME),
        (create("ann", "a b", "Z"), BAD_NAME),
        (put("ann", "carl", "z", "ISO"), UNKNOWN_PARTNER),
        (create("ann", "m0", "Z"), UNKNOWN_SCHEMA),
        (create("ann", "m0"), EXISTS),
        (put("ann", "ann", "z", "ISO"), NO_SUCH_ITEM),
        (put("ann", "ann", "z", file_of(undefined, "L")), NO_SUCH_ITEM),
        (put("ann", "ann", "m0", file_of(undefined, "L")), WRONG_SCHEMA),
        (put("ann", "ann", "m0", file_of(many + "#200001=P($,$);", "L")), WRONG_SCHEMA),
        (put("ann", "ann", "m0", file_of("#1=P(=);", "L")), file_fault("Syntax", at + 5)),
        (put("ann", "ann", "m0", file_of(undefined + "#3=P(=);")), file_fault("Syntax", at + 14)),
        (put("ann", "ann", "m0", file_of(many + twice)), instance_fault("Twice", 3)),
        (put("ann", "ann", "m0", file_of(many + "#200001=Q(#200002);")), instance_fault("Undefined", 200_001)),
        (put("ann", "ann", "m0", file_of(many + "#200001=P($);")), instance_fault("WrongCount", 200_001)),
        (put("ann", "ann", "m0", file_of(many + "#200001=P($,$);")), TOO_MANY),
        (create("ann", "m100"), TOO_MANY),
        (names("ann", "ann", "m0"), named()),
        (put("ann", "ann", "m0", file_of(many)), instances(200_000)),
    ])


def test_instance_faults():
    """The first faulty instance in the order of the file is told, with its first fault."""
    expect([*FIRST,
            (put("ann", "ann", "m", file_of("#2=Q(#9);#2=P(1.,$);")), instance_fault("Undefined", 2)),
            (put("ann", "ann", "m", file_of("#2=P(1.,$);#2=Q(#9);")), instance_fault("Twice", 2)),
            (put("ann", "ann", "m", file_of("#5=(P(1.)Q(#9)P(2.));")), instance_fault("Twice", 5)),
            (put("ann", "ann", "m", file_of("#5=Q(#6);")), instance_fault("Undefined", 5)),
            (put("ann", "ann", "m", file_of("#5=Q(((#5,#6)));")), instance_fault("WrongKind", 5)),
            (put("ann", "ann", "m", file_of("#5=P(1.,$);#4=P(1.,'a',$);#3=Q(#6);")), instance_fault("WrongCount", 4)),
            (put("ann", "ann", "m", file_of("#007=Q(#7);")), instances(1)),
            (names("ann", "ann", "m"), named((7, "Q")))])


def test_both_mappings_and_any_case():
    """An instance of several leaves is listed by all of its types in byte order, in upper case; one of one leaf by that alone,
    whichever way it is written."""
    schema = """SCHEMA t;
ENTITY p; x : REAL; n : STRING; END_ENTITY;
ENTITY a; l : BOOLEAN; END_ENTITY;
ENTITY p_2 SUBTYPE OF (a); x : REAL; END_ENTITY;
ENTITY q SUBTYPE OF (a); of_p : p; END_ENTITY;
END_SCHEMA;
"""
    text = "#2=(q(#1) P_2(1.)\nA(.t.));#1=p(0.10,'a''b');#4=(Q(#1)a(.F.));#3=(P(1,$));"
    expect([(create("ann", "m", "t"), OK),
            (put("ann", "ann", "m", file_of(text, "t { 1 0 10303 }")), instances(4)),
            (names("ann", "ann", "m"), named((1, "P"), (2, "A+P_2+Q"), (3, "P"), (4, "Q"))),
            (export("ann", "ann", "m"), exported(canonical("#1=P(1.E-1,'a''b');", "#2=(A(.T.)P_2(1.)Q(#1));", "#3=P(1.,$);", "#4=Q(.F.,#1);")))],
           t=schema)


def test_schemas_of_a_file():
    """A file is of the schema that its header names, and its section names the same one."""
    expect([(create("ann", "m"), OK),
            (put("ann", "ann", "m", file_of("", section="DATA('s',('T'));")), instances(0)),
            (put("ann", "ann", "m", file_of("", section="DATA('s',('L'));")), WRONG_SCHEMA),
            (put("ann", "ann", "m", file_of("", "L")), WRONG_SCHEMA),
            (put("ann", "ann", "m", file_of("", "UNHEARD_OF")), WRONG_SCHEMA),
            (create("ann", "k", "L"), OK),
            (put("ann", "ann", "k", file_of("#1=E();", "L")), instances(1))])


def test_names_of_items():
    """Names have 1 to 64 characters of A-Z a-z 0-9 _ . -, and case matters."""
    expect([(create("ann", "M"), OK), (create("ann", "m"), OK), (create("ann", "A-z.0_9"), OK),
            (create("ann", "n" * 64), OK), (create("ann", "n" * 65), BAD_NAME), (create("ann", ""), BAD_NAME),
            (create("ann", "ä"), BAD_NAME), (create("ann", "a/b"), BAD_NAME), (create("ann", "a\u0000"), BAD_NAME),
            (names("ann", "ANN", "m"), UNKNOWN_PARTNER)])


def test_lines_that_are_no_request():
    """A request has exactly its keys, each of its kind, and its caller is a partner."""
    lines = [
        b"", b" ", b"null", b"[]", b'"names"', b"{}", b"{} {}", b"\xef\xbb\xbf{}",
        names("carl", "ann", "m"), names("ANN", "ann", "m"), names("", "ann", "m"),
        b'{"do":"names","model":"m","owner":"ann"}',
        b'{"as":"ann","model":"m","owner":"ann"}',
        b'{"as":1,"do":"names","model":"m","owner":"ann"}',
        line("ann", "Names", owner="ann", model="m"),
        line("ann", "names", owner="ann"),
        line("ann", "names", owner="ann", model="m", schema="T"),
        line("ann", "names", owner=None, model="m"),
        line("ann", "names", owner=["ann"], model="m"),
        line("ann", "create_model", name=7, schema="T"),
        line("ann", "create_model", name="m"),
        line("ann", "create_model", name="m", schema="T", owner="ann"),
        line("ann", "put", owner="ann", model="m"),
        line("ann", "put", owner="ann", model="m", file=1),
        names("ann", "ann", "m") + b",",
        names("ann", "ann", "m")[:-1],
        names("ann", "ann", "m").replace(b'"m"', b'"\\ud800"'),
        b"\xff", names("ann", "ann", "m").replace(b'"m"', b'"\xff"'), names("ann", "ann", "m") + b"\xc3",
    ]
    expect([(it, BAD_REQUEST) for it in lines])


def test_requests_that_come_later():
    """What a later version of the program brings is no request yet."""
    lines = [
        line("ann", "put_sections", file=file_of(""), models=[{"model": "m", "owner": "ann", "section": ""}]),
    ]
    expect([*FIRST, *[(it, BAD_REQUEST) for it in lines]])


def test_json_as_it_may_be_written():
    """Blanks, escapes and the order of the keys don't matter; of equal keys the last one stands."""
    expect([(create("ann", "m"), OK),
            (b' \t{ "schema" : "T" , "name":"k",\r"do":"create_model","as":"ann" } \r', OK),
            (b'{"as":"ann","do":"create_model","name":"\\u006B","schema":"T"}', EXISTS),
            (b'{"as":"carl","do":"names","as":"ann","owner":"bob","owner":"ann","model":"k"}', named()),
            (b'{"as":"ann","do":"names","as":"carl","owner":"ann","model":"k"}', BAD_REQUEST)])


def test_what_a_line_asks():
    """Each request is told by what it does, in whatever order, case of escapes and repetition its keys are written."""
    file = '"ISO-10303-21/*\\u00e9*/\\n="'
    expect([
        (b'{"as":"ann","do":"create_model","name":"m","schema":"T"}', OK),
        (b'{"as":"bob","do":"list"}', listed()),
        (b'{"as":"ann","do":"list"}', listed((b"owner", b"m", b"ann"))),
        (b'{"as":"ann","do":"names","owner":"ann","model":"m"}', named()),
        (b'{"as":"bob","do":"schemas"}', loaded("L", "T")),
        (b'{"as":"bob","do":"check_schema","text":"SCHEMA"}', fault("Syntax", 6)),
        (b'{"as":"ann","do":"grant","kind":"model","name":"m","to":"bob","level":"read"}', OK),
        (b'{"as":"bob","do":"list"}', listed((b"read", b"m", b"ann"))),
        (b'{"as":"ann","do":"grant","kind":"model","name":"m","to":"bob","level":"write"}', OK),
        (b'{"as":"bob","do":"list"}', listed((b"write", b"m", b"ann"))),
        (b'{"as":"ann","do":"export","owner":"ann","model":"m","links":false}', exported(canonical())),
        (b'{"links":true,"model":"m","owner":"ann","do":"export","as":"bob"}', linked(canonical())),
        (b'{"links":[],"model":"m","owner":"ann","do":"put","as":"bob","file":""}', file_fault("Syntax", 0)),
        (f'{{"file":{file},"model":"m","owner":"ann","do":"put","as":"bob"}}'.encode(), file_fault("Syntax", 19)),
        (b'{"file":"#1=P(0.10,\'\\u00e9\');\\n","model":"m","owner":"ann","do":"put","as":"bob"}', file_fault("Syntax", 0)),
        (b'{"as":"ann","do":"revoke","kind":"model","name":"m","to":"bob"}', OK),
        (b'{"as":"bob","do":"list"}', listed()),
        (b'{"as":"bob","do":"names","owner":"carl","model":"a b"}', BAD_NAME),
        (b'{"as":"bob","do":"names","owner":"carl","model":"m"}', UNKNOWN_PARTNER),
        (b'{"as":1,"do":"put","model":{},"as":"ann","do":"names","owner":"ann","model":"m"}', named()),
        (b' {"as" : "ann",\t"do":"names","owner":"","model":""}\r', BAD_NAME),
        (b' {"as" : "",\t"do":"names","owner":"","model":""}\r', BAD_REQUEST),
        (b'{"\\u0061s":"ann","do":"n\\u0061mes","owner":"ann","model":"m"}', named()),
        (b'{"as":"ann","do":"create_model","name":"names","schema":"\\ud83d\\ude00"}', UNKNOWN_SCHEMA),
        (b'{"as":"ann","do":"create_model","name":"names","schema":"T"}', OK),
        (b'{"as":"ann","do":"delete_model","name":"m"}', OK),
        (b'{"as":"ann","do":"list"}', listed((b"owner", b"names", b"ann"))),
    ])


def test_lines_of_bytes_that_are_no_request():
    """A key that is missing, one too many or of another kind, a word that isn't there, and what is no JSON."""
    lines = [
        b'{"as":"ann","do":"schemas","text":""}',
        b'{"as":"ann","do":"check_schema"}',
        b'{"as":"ann","do":"check_schema","text":"","name":""}',
        b'{"as":"ann","do":"grant","kind":"model","name":"m","to":"bob","level":"Group"}',
        b'{"as":"ann","do":"grant","kind":"group","name":"m","to":"bob","level":"group"}',
        b'{"as":"ann","do":"list","owner":"ann"}',
        b"{",
        b"",
        b'["as","ann"]',
        b'{"do":"names","owner":"ann","model":"m"}',
        b'{"as":null,"do":"names","owner":"ann","model":"m"}',
        b'{"as":"ann","owner":"ann","model":"m"}',
        b'{"as":"ann","do":["names"],"owner":"ann","model":"m"}',
        b'{"as":"ann","do":"Names","owner":"ann","model":"m"}',
        b'{"as":"ann","do":"export"}',
        b'{"as":"ann","do":"names","owner":"ann"}',
        b'{"as":"ann","do":"names","owner":"ann","model":1}',
        b'{"as":"ann","do":"names","owner":"ann","model":"m","x":""}',
        b'{"as":"ann","do":"create_model","name":1.0,"schema":"T"}',
        b'{"as":"ann","do":"names","owner":"ann","model":"\xff"}',
        b'{"as":"ann","do":"names","owner":"ann","model":"\\ud800"}',
        b'{"as":"ann","do":"names","owner":"ann","model":"\x01"}',
        b'\xef\xbb\xbf{"as":"ann","do":"names","owner":"ann","model":"m"}',
    ]
    expect([*FIRST, *[(it, BAD_REQUEST) for it in lines], (names("ann", "ann", "m"), FIRST_NAMES)])


def test_each_refusal():
    """Each refusal but the one for memory, with its code and its name, and nothing is changed."""
    models = [(create("ann", f"m{k}"), OK) for k in range(99)]
    expect([
        *FIRST, (grant("ann", "m", "bob", "read"), OK),
        (b"{", refused(1, "BadRequest")),
        (check("ann", " " * (FILE_LIMIT + 1)), refused(2, "TooLarge")),
        (create("ann", "a b"), refused(3, "BadName")),
        (names("ann", "carl", "m"), refused(4, "UnknownPartner")),
        (create("ann", "k", "U"), refused(5, "UnknownSchema")),
        (create("ann", "m"), refused(6, "Exists")),
        (names("ann", "ann", "k"), refused(7, "NoSuchItem")),
        (put("bob", "ann", "m", ""), refused(8, "NoRight")),
        (put("ann", "ann", "m", file_of("", "L")), refused(9, "WrongSchema")),
        (put("ann", "ann", "m", "     'x"), b'{"refused":{"at":5,"code":11,"kind":"Open","name":"FileFault"}}'),
        (put("ann", "ann", "m", file_of("#1=P($,$);#1=P($,$);")),
         b'{"refused":{"code":12,"instance":1,"kind":"Twice","name":"InstanceFault"}}'),
        (put("ann", "ann", "m", file_of("#1=P($,$);"), link(2, "ann", "m", 1)),
         b'{"refused":{"code":13,"kind":"Own","link":2,"name":"LinkFault"}}'),
        (get("ann", "ann", "m", 3), refused(14, "NoSuchInstance")),
        (drop("ann", "ann", "m", 1), refused(15, "InUse")),
        (names("ann", "ann", "m"), FIRST_NAMES),
        *models, (create("ann", "m99"), refused(16, "TooMany")),
        (put("ann", "ann", "m0", file_of(""), link(2, "ann", "m", 1)), instances(0)),
        (export("ann", "ann", "m0"), refused(17, "HasLinks")),
    ])


# ---- links

# ann's first model, which bob may read, and his model with a link to its first instance
TO_ANN = link(9, "ann", "m", 1)
BOBS_FILE = file_of("#1=Q(#9);")
BOBS_EXPORT = linked(canonical("#1=Q(#9);"), TO_ANN)
SEEN = [*FIRST, (grant("ann", "m", "bob", "read"), OK), (create("bob", "b"), OK)]
LINKED = [*SEEN, (put("bob", "bob", "b", BOBS_FILE, TO_ANN), instances(1))]


def test_a_model_with_a_link():
    """A put brings it, an export tells it where that is asked for, and is refused else. The model that it leads to is as before."""
    hers = [(names("ann", "ann", "m"), FIRST_NAMES), (export("ann", "ann", "m"), FIRST_EXPORT), (get("ann", "ann", "m", 1), got("#1=P(1.E-1,'a');")),
            (list_of("ann"), listed((b"owner", b"m", b"ann"))), (export("ann", "ann", "m", links=True), linked(canonical("#1=P(1.E-1,'a');", "#2=Q(#1);")))]
    text = b'{"ok":{"file":%s,"links":[{"instance":1,"model":"m","name":9,"owner":"ann"}]}}' % json.dumps(canonical("#1=Q(#9);")).encode()
    absent = b'{"refused":{"code":13,"kind":"NotSeen","link":9,"name":"LinkFault"}}'
    to_z = link(9, "ann", "z", 1)
    expect([*SEEN, *hers, (put("bob", "bob", "b", BOBS_FILE, TO_ANN), instances(1)), *hers,
            (export("bob", "bob", "b"), b'{"refused":{"code":17,"name":"HasLinks"}}'),
            (export("bob", "bob", "b", links=False), HAS_LINKS), (export("bob", "bob", "b", links=True), text),
            (names("bob", "bob", "b"), named((1, "Q"))), (get("bob", "bob", "b", 1), got("#1=Q(#9);")),
            (put("bob", "bob", "b", BOBS_FILE, to_z), absent), (create("ann", "z"), OK), (put("bob", "bob", "b", BOBS_FILE, to_z), absent),
            (put("ann", "ann", "z", file_of("#1=P(1.,$);")), instances(1)), (put("bob", "bob", "b", BOBS_FILE, to_z), absent),
            (export("bob", "ann", "z"), NO_SUCH_ITEM), (export("bob", "bob", "b", links=True), text),
            (put("bob", "bob", "b", canonical("#1=Q(#9);"), TO_ANN), instances(1)), (export("bob", "bob", "b", links=True), text)])


def test_a_model_without_links():
    """Its list of links is empty, whether a put had one or not, and also before the first put."""
    empty, whole = linked(canonical()), linked(canonical("#1=P(1.E-1,'a');", "#2=Q(#1);"))
    expect([(create("ann", "n"), OK), (export("ann", "ann", "n", links=True), empty), *FIRST, (export("ann", "ann", "m", links=True), whole),
            (line("ann", "put", owner="ann", model="n", file=file_of(""), links=[]), instances(0)),
            (export("ann", "ann", "n", links=True), empty), (export("ann", "ann", "n", links=False), exported(canonical())),
            (export("ann", "ann", "n"), exported(canonical()))])


def test_links_that_may_not_be():
    """Into the model itself, into one of another schema, to an instance that isn't there, to no partner's model; one whose name the
    file has."""
    def fault_of(kind, name):
        return b'{"refused":{"code":13,"kind":"%s","link":%d,"name":"LinkFault"}}' % (kind, name)
    expect([*FIRST, (create("ann", "k", "E"), OK), (create("ann", "n"), OK),
            (put("ann", "ann", "n", file_of("#1=Q(#9);"), link(9, "ann", "n", 1)), fault_of(b"Own", 9)),
            (put("ann", "ann", "n", file_of("#1=Q(#9);"), link(9, "ann", "k", 1)), fault_of(b"OtherSchema", 9)),
            (put("ann", "ann", "n", file_of("#1=Q(#9);"), link(9, "ann", "m", 7)), fault_of(b"NoInstance", 9)),
            (put("ann", "ann", "n", file_of("#1=Q(#9);"), link(9, "carl", "m", 1)), fault_of(b"NotSeen", 9)),
            (put("ann", "ann", "n", file_of("#1=Q(#9);"), link(9, "ann", "m", 1), link(1, "ann", "m", 1)), fault_of(b"Defined", 1)),
            (names("ann", "ann", "n"), named()), (export("ann", "ann", "n"), exported(canonical())),
            (put("ann", "ann", "n", file_of("#1=Q(#9);"), link(9, "ann", "m", 1)), instances(1)),
            (put("ann", "ann", "n", file_of("#999999999999999999=P(1.,$);")), instances(1)),
            (add("ann", "ann", "n", "P(2.,$)"), b'{"refused":{"code":16,"name":"TooMany"}}')],
           {**CONFIG, "schemas": ["t.exp", "e.exp"]}, e=E)


def test_faults_of_links_in_their_order():
    """The link of the least name that has one is told with the first that holds, wherever it stands in the list."""
    rows = [
        ([link(5, "ann", "n", 1)], "Defined", 5), ([link(1, "carl", "a b", 9)], "Defined", 1), ([link(5, "bob", "y", 3)], "Defined", 5),
        ([TO_ANN, TO_ANN], "Defined", 9), ([TO_ANN, link(9, "ann", "m", 2)], "Defined", 9), ([link(9, "carl", "m", 1), link(9, "ann", "n", 1)], "Defined", 9),
        ([link(9, "ann", "n", 1)], "Own", 9), ([link(9, "ann", "n", 77)], "Own", 9),
        *(([link(9, *target)], "NotSeen", 9) for target in (
            ("bob", "x", 1), ("bob", "x", 2), ("bob", "y", 1), ("bob", "y", 2), ("bob", "n", 1), ("ann", "z", 1), ("carl", "m", 1), ("", "", 0),
            ("a b", "m", 1), ("ann", "a b", 1), ("ANN", "m", 1), ("ann", "M", 1), ("ann", "é", 1), ("ann", "m" * 65, 1))),
        ([link(9, "ann", "k", 1)], "OtherSchema", 9), ([link(9, "ann", "k", 2)], "OtherSchema", 9),
        ([link(9, "ann", "m", 0)], "NoInstance", 9), ([link(9, "ann", "m", 999_999_999_999_999_999)], "NoInstance", 9),
        ([link(30, "ann", "n", 1), link(20, "ann", "k", 1), link(10, "ann", "m", 1), link(25, "ann", "m", 7)], "OtherSchema", 20),
        ([link(10, "ann", "m", 9), link(9, "ann", "n", 1)], "Own", 9), ([link(999_999_999_999_999_999, "ann", "n", 1), link(0, "carl", "m", 1)], "NotSeen", 0),
        ([link(30, "ann", "m", 1), link(30, "ann", "m", 1), link(20, "ann", "m", 1), link(25, "ann", "m", 7)], "NoInstance", 25),
        ([link(999_999_999_999_999_999, "ann", "m", 3)], "NoInstance", 999_999_999_999_999_999),
    ]
    good = [link(0, "ann", "m", 1), link(7, "ann", "m", 1), link(999_999_999_999_999_999, "ann", "m", 2)]
    text, file = canonical("#1=P(1.,$);", "#5=Q(#7);"), file_of("#5=Q(#7);#1=P(1.,$);")
    expect([*FIRST, (create("ann", "k", "L"), OK), (put("ann", "ann", "k", file_of("#1=E();", "L")), instances(1)), (create("ann", "n"), OK),
            (create("bob", "x"), OK), (put("bob", "bob", "x", file_of("#1=P(1.,$);")), instances(1)),
            (create("bob", "y", "L"), OK), (put("bob", "bob", "y", file_of("#1=E();", "L")), instances(1)),
            *[(put("ann", "ann", "n", file_of("#1=P(1.,$);#5=P(2.,$);"), *links), link_fault(kind, name)) for links, kind, name in rows],
            (names("ann", "ann", "n"), named()), (export("ann", "ann", "n", links=True), linked(canonical())),
            (put("ann", "ann", "n", file, good[2], good[0], good[1]), instances(2)), (export("ann", "ann", "n", links=True), linked(text, *good)),
            (put("ann", "ann", "n", file, *reversed(good)), instances(2)), (export("ann", "ann", "n", links=True), linked(text, *good)),
            *[(put("ann", "ann", "n", file_of("#1=P(1.,$);#5=P(2.,$);"), *links), link_fault(kind, name)) for links, kind, name in rows],
            (export("ann", "ann", "n", links=True), linked(text, *good))])


def test_refusals_of_puts_with_links():
    """A link's fault comes behind all that may be wrong with the file, and before too many. What is linked counts as defined there."""
    bad = link(9, "a b", "c d", 1)
    large = "x" * (FILE_LIMIT + 1)
    expect([*SEEN,
            (line("ann", "put", owner="carl", model="a b", file=large, links=[{}]), BAD_REQUEST),
            (put("carl", "ann", "m", "", bad), BAD_REQUEST), (put("ann", "carl", "a b", large, bad), TOO_LARGE),
            (put("ann", "carl", "a b", "ISO", bad), BAD_NAME), (put("ann", "carl", "z", "ISO", bad), UNKNOWN_PARTNER),
            (put("ann", "ann", "z", "ISO", bad), NO_SUCH_ITEM), (put("ann", "bob", "b", "ISO", bad), NO_SUCH_ITEM),
            (put("bob", "ann", "m", "ISO", bad), NO_RIGHT), (put("ann", "ann", "m", file_of("#1=Q(#8);", "L"), bad), WRONG_SCHEMA),
            (put("ann", "ann", "m", "ISO-10303-2", bad), file_fault("Token", 0)),
            (put("ann", "ann", "m", file_of("#1=Q(#8);"), bad), instance_fault("Undefined", 1)),
            (put("ann", "ann", "m", file_of("#9=P($);"), bad), instance_fault("WrongCount", 9)),
            (put("ann", "ann", "m", file_of("#9=Q(#9);#9=Q(#9);"), bad), instance_fault("Twice", 9)),
            (put("ann", "ann", "m", file_of("#1=Q(#9);#2=Q('a');"), bad), instance_fault("WrongKind", 2)),
            (put("ann", "ann", "m", file_of("#1=Q(#9);#2=Q(#1);"), bad), link_fault("NotSeen", 9)),
            (put("ann", "ann", "m", file_of("#9=Q(#9);"), bad), link_fault("Defined", 9)),
            (names("ann", "ann", "m"), FIRST_NAMES), (export("ann", "ann", "m"), FIRST_EXPORT)])


# the keys of a link with what is written of their values
GOOD = {"instance": b"1", "model": b'"m"', "name": b"9", "owner": b'"ann"'}


def link_text(*members):
    """A link with these keys and what is written of their values."""
    return b"{%s}" % b",".join(b'"%s":%s' % (key.encode(), value) for key, value in members)


GOOD_LINK = link_text(*GOOD.items())


def bad_links():
    """Links that are none, each otherwise."""
    numbers = [b'"9"', b"9.0", b"9e0", b"0.5", b"-9", b"-0", b"1000000000000000000", b"18446744073709551616", b"1e18", b"09", b"1e999", b"1" * 400]
    strings = [b"1", b"ann", b'"\\ud800"', b'"\x01"', b'"\xff"', b'["ann"]']
    for key, good in GOOD.items():
        others = [it for it in GOOD.items() if it[0] != key]
        yield link_text(*others)
        for name in ("", "x", key.title(), key + " ", "do"):
            yield link_text(*others, (name, good))
        for value in (numbers if good.isdigit() else strings) + [b"null", b"true", b"[]", b"{}", b""]:
            yield link_text(*others, (key, value))
            yield link_text((key, good), *others, (key, value))
    for name in ("x", "", "Name", "links", "as"):
        yield link_text(*GOOD.items(), (name, b"1"))
    yield link_text(("name", b"[" * 125 + b"]" * 125), *GOOD.items())


def test_links_that_are_no_links():
    """`links` of a put is a list of objects, each with exactly its keys: two whole numbers of at most 18 digits, and two strings.
    That of an export is a truth value."""
    bad = [
        b"null", b"true", b"false", b"0", b"9", b'""', b'"x"', b"{}", GOOD_LINK, b"[null]", b"[9]", b'["x"]', b"[[]]", b"[{}]", b"[[%s]]" % GOOD_LINK,
        b"[%s,{}]" % GOOD_LINK, b"[%s,null]" % GOOD_LINK, b"[{},%s]" % GOOD_LINK, b"[%s,]" % GOOD_LINK, b"[,%s]" % GOOD_LINK, b"[%s" % GOOD_LINK, b"%s]" % GOOD_LINK,
        b"[%s %s]" % (GOOD_LINK, GOOD_LINK), b'[],"links":null', b'[],"x":[]', *(b"[%s]" % it for it in bad_links()),
    ]
    put_of = b'{"as":"ann","do":"put","owner":"ann","model":"n","file":%s,"links":%%s}' % json.dumps(file_of("#1=Q(#9);")).encode()
    export_of = b'{"as":"ann","do":"export","owner":"ann","model":"m","links":%s}'
    model = {"owner": "ann", "model": "n"}
    expect([*FIRST, (create("ann", "n"), OK), *[(put_of % it, BAD_REQUEST) for it in bad],
            *[(export_of % it, BAD_REQUEST) for it in (b"null", b"0", b"1", b'"true"', b'""', b"[]", b"{}", b"[true]", b"True", b"")],
            (line("ann", "names", **model, links=[]), BAD_REQUEST), (line("ann", "names", **model, links=True), BAD_REQUEST),
            (line("ann", "put", **model, links=[]), BAD_REQUEST), (line("ann", "put", **model, file=file_of(""), links=True), BAD_REQUEST),
            (line("ann", "add", **model, text="P(1.,$)", links=[]), BAD_REQUEST),
            (names("ann", "ann", "n"), named()), (put_of % (b"[%s]" % GOOD_LINK), instances(1))])


def test_links_as_they_may_be_written():
    """Blanks, escapes and the order of keys don't matter. Of equal keys the last stands, in a link too."""
    good = [
        b" [ %s\t]\r" % GOOD_LINK, b"[%s]" % link_text(*reversed(GOOD.items())), b'[{ "owner" : "ann" , "name" : 9 , "model" : "m" , "instance" : 1 } ]',
        b'[{"\\u006fwner":"\\u0061nn","n\\u0061me":9,"model":"\\u006D","instance":1}]', b"[%s]" % link_text(("name", b'"9"'), *GOOD.items()),
        b"[%s]" % link_text(("name", b"1000000000000000000"), ("owner", b'[{"owner":"bob"}]'), *GOOD.items()),
        b"[%s]" % link_text(*((key, b"7" if it.isdigit() else b'"z"') for key, it in GOOD.items()), *GOOD.items()),
        b"[%s]" % link_text(("name", b"[" * 124 + b"]" * 124), *GOOD.items()),
        b'null,"links":[%s]' % GOOD_LINK, b'[{"x":1}],"links":[%s]' % GOOD_LINK, b'[%s,%s],"links":[%s]' % (GOOD_LINK, GOOD_LINK, GOOD_LINK),
    ]
    put_of = b'{"links":%%s,"as":"ann","do":"put","owner":"ann","model":"n","file":%s}' % json.dumps(file_of("#1=Q(#9);")).encode()
    turns = [*FIRST, (create("ann", "n"), OK)]
    for it in good:
        turns += [(put("ann", "ann", "n", file_of("")), instances(0)), (export("ann", "ann", "n"), exported(canonical())), (put_of % it, instances(1)),
                  (export("ann", "ann", "n", links=True), linked(canonical("#1=Q(#9);"), TO_ANN))]
    asked = b'"as":"ann","do":"export","owner":"ann","model":"m"}'
    expect([*turns, (b'{"links":[],"links":true,' + asked, linked(canonical("#1=P(1.E-1,'a');", "#2=Q(#1);"))),
            (b'{"links":true,"links":false,' + asked, FIRST_EXPORT)])


def test_names_that_are_linked():
    """An instance that is added or set may refer to them. They are no instances, and the next name comes behind them."""
    one = canonical("#1=Q(#9);")
    expect([*LINKED, (get("bob", "bob", "b", 9), NO_SUCH_INSTANCE), (drop("bob", "bob", "b", 9), NO_SUCH_INSTANCE),
            (set_instance("bob", "bob", "b", 9, "P(1.,$)"), NO_SUCH_INSTANCE), (set_instance("bob", "bob", "b", 9, "P("), file_fault("Syntax", 2)),
            (set_instance("bob", "bob", "b", 9, "P($)"), instance_fault("WrongCount", 9)), (add("bob", "bob", "b", "Q(#8)"), instance_fault("Undefined", 10)),
            (add("bob", "bob", "b", "Q(#9)"), added(10)), (get("bob", "bob", "b", 10), got("#10=Q(#9);")),
            (set_instance("bob", "bob", "b", 1, "Q(#10)"), OK), (drop("bob", "bob", "b", 10), IN_USE), (set_instance("bob", "bob", "b", 1, "Q(#9)"), OK),
            (export("bob", "bob", "b", links=True), linked(canonical("#1=Q(#9);", "#10=Q(#9);"), TO_ANN)),
            (drop("bob", "bob", "b", 10), OK), (export("bob", "bob", "b", links=True), linked(one, TO_ANN)), (drop("bob", "bob", "b", 1), OK),
            (names("bob", "bob", "b"), named()), (export("bob", "bob", "b"), HAS_LINKS), (export("bob", "bob", "b", links=True), linked(canonical(), TO_ANN)),
            (add("bob", "bob", "b", "Q(#9)"), added(11))])


def test_names_that_are_given_to_links():
    """The greatest name that a model ever had may be that of a link. It stays when another put replaces the links."""
    last = 999_999_999_999_999_999
    expect([*LINKED, (put("bob", "bob", "b", file_of("#3=Q(#50);"), link(50, "ann", "m", 2), link(4, "ann", "m", 1)), instances(1)),
            (export("bob", "bob", "b", links=True), linked(canonical("#3=Q(#50);"), link(4, "ann", "m", 1), link(50, "ann", "m", 2))),
            (add("bob", "bob", "b", "Q(#50)"), added(51)), (put("bob", "bob", "b", file_of("#3=Q(#50);")), instance_fault("Undefined", 3)),
            (put("bob", "bob", "b", file_of("#3=P(1.,$);")), instances(1)), (export("bob", "bob", "b"), exported(canonical("#3=P(1.,$);"))),
            (add("bob", "bob", "b", "Q(#50)"), instance_fault("Undefined", 52)), (add("bob", "bob", "b", "Q(#3)"), added(52)),
            (put("bob", "bob", "b", file_of("#50=Q(#3);"), link(3, "ann", "m", 1)), instances(1)), (add("bob", "bob", "b", "Q(#3)"), added(53)),
            (put("bob", "bob", "b", file_of(""), link(last, "ann", "m", 1)), instances(0)), (add("bob", "bob", "b", f"Q(#{last})"), TOO_MANY),
            (add("bob", "bob", "b", "P($)"), instance_fault("WrongCount", last + 1)), (put("bob", "bob", "b", file_of("")), instances(0)),
            (add("bob", "bob", "b", "P(1.,$)"), TOO_MANY), (delete("bob", "b"), OK), (create("bob", "b"), OK), (add("bob", "bob", "b", "P(1.,$)"), added(1))])


def test_an_instance_that_others_link_to():
    """It is dropped as any other, also where their models are seen: what its own model refers to is asked alone."""
    to_3 = link(9, "ann", "m", 3)
    expect([*FIRST, (drop("ann", "ann", "m", 1), IN_USE), (drop("ann", "ann", "m", 2), OK), (add("ann", "ann", "m", "Q(#1)"), added(3)),
            (drop("ann", "ann", "m", 2), NO_SUCH_INSTANCE), (grant("ann", "m", "bob", "read"), OK), (create("bob", "b"), OK),
            (put("bob", "bob", "b", BOBS_FILE, to_3), instances(1)), (grant("bob", "b", "ann", "write"), OK), (create("ann", "n"), OK),
            (put("ann", "ann", "n", BOBS_FILE, to_3), instances(1)), (drop("ann", "ann", "m", 1), IN_USE), (drop("ann", "ann", "m", 3), OK),
            (names("ann", "ann", "m"), named((1, "P"))), (export("bob", "bob", "b", links=True), linked(canonical("#1=Q(#9);"), to_3)),
            (get("bob", "bob", "b", 1), got("#1=Q(#9);")), (put("bob", "bob", "b", BOBS_FILE, to_3), link_fault("NoInstance", 9)),
            (put("bob", "bob", "b", BOBS_FILE, TO_ANN), instances(1)), (drop("ann", "ann", "m", 1), OK), (names("ann", "ann", "m"), named())])


def test_links_that_lead_nowhere():
    """A link stays as it is, whatever becomes of its model and of the right to see it. Another put of it is tested anew."""
    def turn(reply):
        told = (export("bob", "bob", "b", links=True), BOBS_EXPORT)
        return [told, (put("bob", "bob", "b", BOBS_FILE, TO_ANN), reply), told]
    read = (grant("ann", "m", "bob", "read"), OK)
    expect([*LINKED, *turn(instances(1)), (revoke("ann", "m", "bob"), OK), *turn(link_fault("NotSeen", 9)), read, *turn(instances(1)),
            (put("ann", "ann", "m", file_of("#2=P(1.,$);")), instances(1)), *turn(link_fault("NoInstance", 9)),
            (delete("ann", "m"), OK), *turn(link_fault("NotSeen", 9)), (create("ann", "m"), OK), *turn(link_fault("NotSeen", 9)),
            read, *turn(link_fault("NoInstance", 9)), (add("ann", "ann", "m", "P(1.,$)"), added(1)), *turn(instances(1)),
            (delete("ann", "m"), OK), (create("ann", "m", "L"), OK), read, *turn(link_fault("OtherSchema", 9)),
            (add("bob", "bob", "b", "Q(#9)"), added(10)), (drop("bob", "bob", "b", 1), OK)])


def test_which_model_is_its_own():
    """The one that is put into, whoever puts, and not another owner's of the same name. What is itself linked is no instance."""
    of_one_name = link(9, "bob", "m", 1)
    expect([*FIRST, (grant("ann", "m", "bob", "write"), OK), (create("bob", "b"), OK), (put("bob", "bob", "b", BOBS_FILE, TO_ANN), instances(1)),
            (put("bob", "ann", "m", BOBS_FILE, TO_ANN), link_fault("Own", 9)), (put("bob", "ann", "m", BOBS_FILE, link(9, "bob", "b", 9)), link_fault("NoInstance", 9)),
            (put("bob", "ann", "m", BOBS_FILE, of_one_name), link_fault("NotSeen", 9)), (create("bob", "m"), OK),
            (put("bob", "bob", "m", file_of("#1=P(1.,$);")), instances(1)), (put("bob", "ann", "m", BOBS_FILE, of_one_name), instances(1)),
            (export("ann", "ann", "m", links=True), linked(canonical("#1=Q(#9);"), of_one_name)),
            (put("bob", "ann", "m", BOBS_FILE, link(9, "bob", "b", 1)), instances(1)),
            (export("ann", "ann", "m", links=True), linked(canonical("#1=Q(#9);"), link(9, "bob", "b", 1))), (export("bob", "bob", "b", links=True), BOBS_EXPORT)])


def test_many_links():
    """A model has at most 10,000. Whether there are too many, of links or of instances, is asked behind the links' faults."""
    links = [link(k, "ann", "m", 1 + k % 2) for k in range(2, 10_003)]
    many = "".join(f"#{k}=P($,$);" for k in range(1, 200_002))
    file, text = file_of("#1=Q(#10001);"), canonical("#1=Q(#10001);")
    expect([*FIRST, (create("ann", "n"), OK), (put("ann", "ann", "n", file, *links), TOO_MANY),
            (put("ann", "ann", "n", file, *links[:-1], link(10_002, "ann", "m", 3)), link_fault("NoInstance", 10_002)),
            (put("ann", "ann", "n", file, link(10_002, "ann", "m", 1), *links), link_fault("Defined", 10_002)),
            (put("ann", "ann", "n", file, *links, *links), link_fault("Defined", 2)),
            (put("ann", "ann", "n", file_of(many), link(0, "ann", "n", 1)), link_fault("Own", 0)),
            (put("ann", "ann", "n", file_of(many), link(0, "ann", "m", 1)), TOO_MANY),
            (names("ann", "ann", "n"), named()), (export("ann", "ann", "n"), exported(canonical())),
            (put("ann", "ann", "n", file, *reversed(links[:-1])), instances(1)), (export("ann", "ann", "n"), HAS_LINKS),
            (export("ann", "ann", "n", links=True), linked(text, *links[:-1])), (add("ann", "ann", "n", "Q(#5000)"), added(10_002)),
            (drop("ann", "ann", "n", 10_002), OK), (export("ann", "ann", "n", links=True), linked(text, *links[:-1]))])


# ---- lines

def test_last_line_without_its_feed():
    """A last line counts without its line feed; an empty input has no line."""
    text = b"\n".join([*FIRST_LINES, names("ann", "ann", "m")])
    expect_replies(text, [*FIRST_REPLIES, FIRST_NAMES])
    expect_replies(text + b"\n", [*FIRST_REPLIES, FIRST_NAMES])
    expect_replies(text + b"\n\n", [*FIRST_REPLIES, FIRST_NAMES, BAD_REQUEST])
    expect_replies(b"", [])
    expect_replies(b"\n", [BAD_REQUEST])


def expect_written(process, wanted, seconds=60):
    """The process writes these bytes on standard output, and no others yet, before so many seconds are over."""
    found, end = b"", time.monotonic() + seconds
    while len(found) < len(wanted):
        ready = select.select([process.stdout], [], [], max(0, end - time.monotonic()))[0]
        piece = os.read(process.stdout.fileno(), 65536) if ready else b""
        if not piece:
            break
        found += piece
    if found != wanted:
        raise Wrong(f"{shortened(found)!r} in place of {shortened(wanted)!r}")


def test_lines_in_pieces():
    """Several lines in one read and one line in many reads give the same replies, and a reply comes
    before the next line is sent."""
    lines = [create("ann", "m"), names("ann", "ann", "m"), b"{"]
    replies = [OK, named(), BAD_REQUEST]
    expect_replies(b"\n".join(lines) + b"\n", replies)
    with Repository() as folder:
        with folder.start("batch", "--config", "config.json") as process:
            for it, reply in zip(lines, replies):
                for byte in it + b"\n":
                    process.stdin.write(bytes([byte]))
                expect_written(process, reply + b"\n")
            process.stdin.close()
        if process.returncode != 0:
            raise Wrong(f"status {process.returncode}")


def test_each_reply_before_the_next_line():
    """Whoever waits for a reply gets it before he sends the next line: also where a line ends with what one read takes."""
    turns = [*FIRST, (names("ann", "ann", "m"), FIRST_NAMES), (b"{", BAD_REQUEST), (b"", BAD_REQUEST),
             (padded(create("ann", "k"), 4095), OK), (padded(create("ann", "k"), 8191), EXISTS),
             (padded(names("ann", "ann", "k"), 4096), named()), (padded(names("ann", "ann", "k"), 12_000), named()),
             (list_of("ann"), listed((b"owner", b"k", b"ann"), (b"owner", b"m", b"ann")))]
    with Repository() as folder:
        with folder.start("batch", "--config", "config.json") as process:
            for it, reply in turns:
                process.stdin.write(it + b"\n")
                expect_written(process, reply + b"\n")
            process.stdin.write(names("bob", "ann", "m") + b"\n" + list_of("bob") + b"\n" + names("ann", "ann", "m")[:9])
            expect_written(process, NO_SUCH_ITEM + b"\n" + listed() + b"\n")
            process.stdin.write(names("ann", "ann", "m")[9:] + b"\n")
            expect_written(process, FIRST_NAMES + b"\n")
            process.stdin.close()
            output, errors = process.stdout.read(), process.stderr.read()
        if (process.returncode, output, errors) != (0, b"", b""):
            raise Wrong(f"status {process.returncode}, {output!r}, {errors!r}")


def test_any_pieces_give_the_same_bytes():
    """Four lines, of which the third is empty and the last has no line feed, sent in pieces of each of these sizes."""
    text = b"\n".join([*FIRST_LINES, b"", names("ann", "ann", "m")])
    wanted = b"\n".join([*FIRST_REPLIES, BAD_REQUEST, FIRST_NAMES, b""])
    for size in (1, 7, 100, 5000):
        with Repository() as folder:
            with folder.start("batch", "--config", "config.json") as process:
                for at in range(0, len(text), size):
                    process.stdin.write(text[at:at + size])
                    time.sleep(0.0002)
                output, errors = process.communicate(timeout=60)
        if (process.returncode, output, errors) != (0, wanted, b""):
            raise Wrong(f"in pieces of {size}: status {process.returncode}, {output!r}, {errors!r}")


def test_a_read_takes_all_that_it_has_room_for():
    """Of a socket that keeps messages apart a read takes one message, and what it doesn't ask for is lost: of 64 KiB it asks for all."""
    text = b"\n".join([*FIRST_LINES, b""])
    text += padded(names("ann", "ann", "m"), 65_535 - len(text)) + b"\n"
    wanted = b"\n".join([*FIRST_REPLIES, FIRST_NAMES, b""])
    with Repository() as folder:
        ours, theirs = socket.socketpair(socket.AF_UNIX, socket.SOCK_SEQPACKET)
        with ours, theirs:
            ours.send(text)
            ours.shutdown(socket.SHUT_WR)
            seen = folder.run("batch", "--config", "config.json", stdin=theirs)
    if seen != (0, wanted, b""):
        raise Wrong(f"{seen!r}")


def padded(text, size):
    """The line with blanks behind it, of so many bytes."""
    return text + b" " * (size - len(text))


def test_long_lines():
    """A line may have 16 MiB, its line feed not counted. The rest of a longer one is skipped."""
    first = create("ann", "m")
    expect([(padded(first, LINE_LIMIT + 1), TOO_LARGE), (b"x" * (LINE_LIMIT + 1), TOO_LARGE),
            (b"\xff" * (2 * LINE_LIMIT + 5), TOO_LARGE), (padded(first, LINE_LIMIT), OK),
            (b"x" * LINE_LIMIT, BAD_REQUEST), (first, EXISTS)])
    expect_replies(padded(first, LINE_LIMIT + 1), [TOO_LARGE])
    expect_replies(padded(first, LINE_LIMIT), [OK])


def test_large_files():
    """A file may have 8 MiB, counted in bytes of its text."""
    file = file_of("#1=P(1.,$);")
    def filled(size):
        return file + " " * (size - len(file))
    def remarked(size):
        return file + "/*" + "é" * ((size - len(file) - 4) // 2) + " " * ((size - len(file)) % 2) + "*/"
    expect([(create("ann", "m"), OK),
            (put("ann", "ann", "m", filled(FILE_LIMIT + 1)), TOO_LARGE),
            (put("ann", "ann", "m", remarked(FILE_LIMIT + 1)), TOO_LARGE),
            (put("ann", "ann", "m", "x" * (FILE_LIMIT + 1)), TOO_LARGE),
            (names("ann", "ann", "m"), named()),
            (put("ann", "ann", "m", filled(FILE_LIMIT)), instances(1)),
            (put("ann", "ann", "m", remarked(FILE_LIMIT)), instances(1)),
            (put("ann", "ann", "m", "x" * FILE_LIMIT), file_fault("Syntax", 0))])


def of_data(name):
    """The text of a file in tests/data."""
    with open(os.path.join(TOP, "tests/data", name), encoding="utf-8") as it:
        return it.read()


def test_files_as_exporters_write_them():
    """Blanks, lines broken inside strings and several types of one instance are read."""
    config = {**CONFIG, "schemas": ["ap214.exp"]}
    with Repository(config, ap214=of_data("automotive_design.exp")) as folder:
        create_line, put_line = create("ann", "m", "AUTOMOTIVE_DESIGN"), put("ann", "ann", "m", part21(3000))
        seen = folder.batch(create_line + b"\n" + put_line + b"\n")
        if seen != (0, OK + b"\n" + instances(3000) + b"\n", b""):
            raise Wrong(f"status {seen[0]}, {shortened(seen[1])!r}, {seen[2]!r}")


# of the instances of the assembly that are written by several types those with one leaf, by which they are told
ONE_LEAF = {"MEASURE_REPRESENTATION_ITEM+MEASURE_WITH_UNIT+REPRESENTATION_ITEM": "MEASURE_REPRESENTATION_ITEM"}


def types_of(text):
    """The names and types of a file in which each instance begins a line, and so does each type of one that has several."""
    types = {}
    for name, one, several in re.findall(r"^#(\d+)=(?:(\w+)|\((\n[^;]*)\);)", text, re.MULTILINE):
        types[int(name)] = one or "+".join(sorted(re.findall(r"^(\w+)\(", several, re.MULTILINE)))
    return sorted((name, ONE_LEAF.get(told, told)) for name, told in types.items())


def test_an_assembly_as_a_modeller_exports_it():
    """Names from the last to the first, remarks in the header, escapes in strings: each instance is named with its types."""
    text = of_data("frame.step")
    types = types_of(text)
    if (len(types), sum("+" in it for _, it in types)) != (1560, 15):
        raise Wrong(f"{len(types)} instances in tests/data/frame.step, {sum('+' in it for _, it in types)} of several types")
    cut = text.index("#5000=")
    expect([(create("ann", "m", "AUTOMOTIVE_DESIGN"), OK),
            (put("ann", "ann", "m", text), instances(1560)),
            (names("ann", "ann", "m"), named(*types)),
            (put("ann", "ann", "m", text[:cut] + "5" + text[cut + 1:]), file_fault("Syntax", cut)),
            (put("ann", "ann", "m", text.replace("#5000=", "#5001=")), instance_fault("Undefined", first_that_names(text, 5000))),
            (names("ann", "ann", "m"), named(*types))],
           {**CONFIG, "schemas": ["ap214.exp"]}, ap214=of_data("automotive_design.exp"))


def first_that_names(text, name):
    """The first instance of a file that refers to this name."""
    return int(re.search(rf"#(\d+)=[^;=]*#{name}\b", text)[1])


# ---- the program

def test_command_line_faults():
    """A wrong command line ends the program with status 2 and one line."""
    given = ["batch", "--config", "config.json"]
    wrong = [
        [], [""], ["batch"], ["--config", "config.json"], ["config.json"], ["Batch", *given[1:]],
        ["batch", "config.json"], ["batch", "--config"], ["batch", "--config", "--config"], ["batch", "--config", "-x"],
        [*given, "--config", "config.json"], [*given, "more"], [*given, "--load"], [*given, "--save"], [*given, "--load", "-x"], [*given, "--save", "-x"],
        [*given, "--listen", "127.0.0.1:0"], ["check"], ["check", "t.exp", "t.exp"], ["serve", *given[1:]],
        ["batch", "-c", "config.json"], ["batch", "--conf", "config.json"], ["batch", "--config", "config.json", "--", "x"],
        ["two", "batch", "--config", "config.json"], [b"b\xff"], [b"\xc3", *given], ["batch", "--config", b"config.json\xff"], ["check", b"\xa0.exp"],
    ]
    with Repository() as folder:
        for words in wrong:
            try:
                expect_fault(folder.run(*words, text=names("ann", "ann", "m")))
            except Wrong as fault:
                raise Wrong(f"{words}: {fault}") from fault
        seen = folder.run("batch", "--config=config.json", text=names("ann", "ann", "m"))
        if seen != (0, NO_SUCH_ITEM + b"\n", b""):
            raise Wrong(f"--config=FILE: {seen!r}")


def test_help():
    """The help is printed on standard output with status 0, and names what there is to type."""
    with Repository() as folder:
        for words, mentioned in ([["--help"], ["batch", "--help"]], [["batch", "--help"], ["--config", "FILE", "--load", "--save"]],
                                 [["serve", "--help"], ["--config", "--listen", "--load", "--save"]], [["help"], ["batch"]],
                                 [["help", "batch"], ["--config"]], [["-h"], ["batch"]]):
            status, output, errors = folder.run(*words)
            if status != 0 or errors or any(it.encode() not in output for it in mentioned):
                raise Wrong(f"{words}: status {status}, {output!r}, {errors!r}")


# Each request with its keys beside `as` and `do`, as the help shows it.
SHOWN_REQUESTS = """
  create_model   name, schema
  delete_model   name
  schemas
  check_schema   text
  put            owner, model, file, and links if there are any
  export         owner, model, and links (true or false) if wanted
  names          owner, model
  get            owner, model, instance
  add            owner, model, text
  set            owner, model, instance, text
  drop           owner, model, instance
  list
  grant          kind (model or group), name, to, level (read, group or write; of a group read)
  revoke         kind (model or group), name, to
  create_group   name, schema
  delete_group   name
  include        group, owner, model
  exclude        group, owner, model
  members        owner, group
  extent         owner, group, type
  users          owner, group, of, role
  validate       owner, group

"""


def test_the_requests_that_help_shows():
    """All of them stand there with their keys. The objects shown below are requests, and the list is one of links."""
    with Repository() as folder:
        status, output, errors = folder.run("batch", "--help")
        if (status, errors) != (0, b"") or SHOWN_REQUESTS.encode() not in output:
            raise Wrong(f"status {status}, {output!r}, {errors!r}")
        shown = [json.loads(it) for it in re.findall(r"^  (\{.*\})$", output.decode(), re.MULTILINE)]
        if len(shown) != 6 or shown[0] != {"partners": [{"name": "ann", "token": "ta"}], "schemas": ["t.exp"]}:
            raise Wrong(f"{shown!r} are shown")
        (links,) = re.findall(r"links are (\[.*\])\.$", output.decode(), re.MULTILINE)
        asked = [create("ann", "m"), create("bob", "n"), create_group("ann", "g"), include("ann", "g", "ann", "m"),
                 put("bob", "bob", "n", file_of("#1=P(1.,$);")), put("ann", "ann", "m", file_of("#1=P(1.,$);#2=Q(#1);")),
                 grant("bob", "n", "ann", "read"), put("ann", "ann", "m", file_of("#1=P(1.,$);#2=Q(#9);#3=Q(#1);"), *json.loads(links)),
                 *(json.dumps(it).encode() for it in shown[1:])]
        wanted = [OK, OK, OK, OK, instances(1), instances(2), OK, instances(3), EXISTS, file_fault("Token", 14), OK, OK,
                  users_are(("ann", "m", 3))]
        seen = folder.batch(b"".join(it + b"\n" for it in asked))
        if seen != (0, b"".join(it + b"\n" for it in wanted), b""):
            raise Wrong(f"{seen!r}")


def test_wrong_configurations():
    """A configuration has exactly its keys, each of its kind."""
    ann = {"name": "ann", "token": "ta"}
    wrong = [
        [], "x", 1, {}, {"partners": []}, {"schemas": []}, {"partners": [], "schemas": [], "x": 1},
        {"partners": {}, "schemas": []}, {"partners": [], "schemas": {}}, {"partners": None, "schemas": []},
        {"partners": ["ann"], "schemas": []}, {"partners": [{}], "schemas": []},
        {"partners": [{"name": "ann"}], "schemas": []}, {"partners": [{"token": "ta"}], "schemas": []},
        {"partners": [{**ann, "x": 1}], "schemas": []}, {"partners": [{"name": 1, "token": "ta"}], "schemas": []},
        {"partners": [{"name": "ann", "token": None}], "schemas": []}, {"partners": [ann], "schemas": [1]},
        {"partners": [ann], "schemas": "t.exp"}, {"Partners": [ann], "schemas": []},
    ]
    for config in wrong:
        try:
            expect_config_fault(config, "config.json")
        except Wrong as fault:
            raise Wrong(f"{config}: {fault}") from fault
    good = json.dumps({"partners": [ann], "schemas": ["t.exp"]})
    with Repository() as folder:
        for text in ("", good[:-1], good + "x", b"\xff" + good.encode(), good.replace("ann", "\\ud800"),
                     good + " " * (FILE_LIMIT + 1 - len(good))):
            folder.write("config.json", text)
            expect_fault(folder.batch(b""), "config.json")
        for text in (good, "\n" + good + "\n", good + " " * (FILE_LIMIT - len(good))):
            folder.write("config.json", text)
            if folder.batch(names("ann", "ann", "m")) != (0, NO_SUCH_ITEM + b"\n", b""):
                raise Wrong(f"the configuration {text[:200]!r} isn't taken")
        expect_fault(folder.run("batch", "--config", "absent.json"), "absent.json")
        expect_fault(folder.run("batch", "--config", "."))
        expect_fault(folder.run("batch", "--config", ""))


def test_what_is_told_of_a_configuration():
    """The line, the column and the key of what is wrong first in it."""
    rows = [
        ("", 'line 1 column 1: no JSON'),
        ("[]", 'line 1 column 1: the configuration has to be an object'),
        ('\n {"partners":[],"schema":[]}', 'line 2 column 17: "schema" is no key here'),
        ('{"partners":[]}', 'line 1 column 15: the key "schemas" is missing before'),
        ('{"schemas":[]\n}', 'line 2 column 1: the key "partners" is missing before'),
        ('{"partners": {},"schemas":[]}', 'line 1 column 14: "partners" has to be a list'),
        ('{"partners":[],\n"schemas":\t"t.exp"}', 'line 2 column 12: "schemas" has to be a list'),
        ('{"partners":[],"schemas":["t.exp", 1]}', 'line 1 column 36: a text is wanted for "schemas"'),
        ('{"partners":["ann"],"schemas":[]}', 'line 1 column 14: a partner has to be an object'),
        ('{"partners":[{"name":"ann","tokn":"ta"}],"schemas":[]}', 'line 1 column 28: "tokn" is no key here'),
        ('{"partners":[{"name":"ann"}],"schemas":[]}', 'line 1 column 27: the key "token" is missing before'),
        ('{"partners":[{"token":"ta"\n, "name": null}],"schemas":[]}', 'line 2 column 11: a text is wanted for "name"'),
        ('{"partners":[{"name":"ann","token":"ta"},{"token":"tb"}],"schemas":[]}', 'line 1 column 55: the key "name" is missing before'),
        ('{"partners":[],"schemas":["t.exp"]', 'line 1 column 35: no JSON'),
        ('{"partners":[],"schemas":["t.exp",]}', 'line 1 column 35: no JSON'),
        ('{"partners":[],"schemas":["t.exp"]} x', 'line 1 column 37: no JSON'),
        (b'{"partners":[],"schemas":["\xff.exp"]}', 'line 1 column 28: no UTF-8'),
        ("{'partners':[]}", 'line 1 column 2: no JSON'),
        ('\ufeff{"partners":[],"schemas":[]}', 'line 1 column 1: a byte order mark'),
        ('{"partners":[],"schemas":[]}'.encode("utf-16"), 'line 1 column 1: a byte order mark'),
        ('\ufeff', 'line 1 column 1: a byte order mark'),
        ('{"partners":[],"%s":[]}' % ("k" * 301), f'line 1 column 16: "{"k" * 200}".."{"k" * 60}" is no key here'),
    ]
    with Repository() as folder:
        for text, words in rows:
            folder.write("config.json", text)
            try:
                expect_told(folder.batch(b""), f'"config.json" is no configuration: {words} (rp_server batch --help shows one)')
            except Wrong as fault:
                raise Wrong(f"{text!r}: {fault}") from fault


def test_the_version():
    """One line on standard output, and CHANGES.md has it."""
    with Repository() as folder:
        for words in (["--version"], ["-V"]):
            status, output, errors = folder.run(*words)
            if (status, errors) != (0, b"") or not re.fullmatch(rb"rp_server \d+\.\d+\n", output):
                raise Wrong(f"{words}: status {status}, {output!r}, {errors!r}")
    with open(os.path.join(TOP, "CHANGES.md"), encoding="utf-8") as it:
        if f"\n## {output.decode().split()[1]}" not in it.read():
            raise Wrong(f"CHANGES.md doesn't have {output!r}")


def test_files_of_schemas():
    """A schema's file has to be one whole schema."""
    end = " END_SCHEMA;"
    wrong = [
        "", "SCHEMA", "SCHEMA T", "SCHEMA T;", "SCHEMA ;" + end, "SCHEMA T" + end, "SCHEMA T.;" + end, "SCHEMA 1T;" + end,
        "SCHEMA _T;" + end, "SCHEMAT;" + end, "SCHEMA T_é;" + end, "SCHEMA 'T';" + end, "ENTITY T;" + end,
        "SCHEMA T U;" + end, "\ufeffSCHEMA T;" + end, b"SCHEMA\xa0T; END_SCHEMA;", "SCHEMA T,;" + end, "x SCHEMA T;" + end,
        "SCHEMA T; ENTITY e; a : b; END_ENTITY;" + end, "SCHEMA T;;" + end, "SCHEMA T;" + end + end,
    ]
    for text in wrong:
        try:
            expect_config_fault({**CONFIG, "schemas": ["other.exp"]}, "other.exp", other=text)
        except Wrong as fault:
            raise Wrong(f"{text!r}: {fault}") from fault
    right = ["SCHEMA T;" + end, "\0\t\r\n schema\n\tt \x01; end_schema ;", b"SchemA t; (* \xff *) END_SCHEMA; -- \xff",
             "(* T *) SCHEMA T;" + end, "SCHEMA (* T *) T;" + end, "SCHEMA T -- T\n;" + end, "-- T\nSCHEMA T;" + end]
    for text in right:
        with Repository({**CONFIG, "schemas": ["other.exp"]}, other=text) as folder:
            if folder.batch(create("ann", "m")) != (0, OK + b"\n", b""):
                raise Wrong(f"the schema {text!r} isn't taken")
    for name, text in (("a_1b", "SCHEMA A_1b;" + end), ("a" * 300, "SCHEMA " + "A" * 300 + ";" + end)):
        with Repository({**CONFIG, "schemas": ["other.exp"]}, other=text) as folder:
            if folder.batch(create("ann", "m", name)) != (0, OK + b"\n", b""):
                raise Wrong(f"the schema of {text!r} has another name")


def expect_told(seen, words):
    """The program ended with status 2 and this line on standard error, and wrote nothing else."""
    if seen != (2, b"", b"rp_server: %s\n" % words.encode()):
        raise Wrong(f"{seen!r} in place of {words!r}")


def test_files_at_their_limit():
    """A configuration and a schema's file may have 8 MiB each. With a byte more the first such file is told."""
    good = (0, OK + b"\n", b"")
    with Repository({**CONFIG, "schemas": ["l.exp", "other.exp"]}) as folder:
        with open(folder.path("config.json"), "rb") as it:
            config = it.read()
        for config_size, schema_size, words in (
            (FILE_LIMIT, FILE_LIMIT, None),
            (FILE_LIMIT - 1, FILE_LIMIT - 1, None),
            (FILE_LIMIT, FILE_LIMIT + 1, '"other.exp" is over 8 MiB'),
            (FILE_LIMIT + 1, FILE_LIMIT, '"config.json" is over 8 MiB'),
            (FILE_LIMIT + 1, FILE_LIMIT + 1, '"config.json" is over 8 MiB'),
            (len(config), 2 * FILE_LIMIT, '"other.exp" is over 8 MiB'),
        ):
            folder.write("config.json", padded(config, config_size))
            folder.write("other.exp", padded(T.encode(), schema_size))
            seen = folder.batch(create("ann", "m"))
            if words is None and seen != good:
                raise Wrong(f"{config_size} and {schema_size} bytes: {seen!r}")
            if words is not None:
                expect_told(seen, words)
            seen = folder.run("check", "other.exp")
            if schema_size > FILE_LIMIT:
                expect_told(seen, '"other.exp" is over 8 MiB')
            elif seen != (0, b"T: ok\n", b""):
                raise Wrong(f"check of {schema_size} bytes: {seen!r}")


def test_files_that_cant_be_read():
    """It is told why: there is none, it is a folder, a part of its path is none, its path is too long, its links lead in a circle."""
    rows = [("absent", "there is no such file"), ("", "there is no such file"), ("sub/absent", "there is no such file"), (".", "it is a folder"),
            ("sub", "it is a folder"), ("t.exp/", "a part of its path is no folder"), ("t.exp/x", "a part of its path is no folder"),
            ("x" * 256, "its path is too long"), ("x/" * 149 + "xx", "there is no such file"), ("circle", "its links lead in a circle")]
    with Repository() as folder:
        folder.write("sub/t.exp", T)
        os.symlink("circle", folder.path("circle"))
        for path, why in rows:
            line = f'"{path}" can\'t be read: {why}'
            folder.write("other.json", json.dumps({"partners": [], "schemas": [path]}))
            for words in (["batch", "--config", "other.json"], ["batch", "--config", path], ["check", path], ["check", "--explain", path]):
                expect_told(folder.run(*words), line)


def test_a_file_that_may_not_be_read():
    """Permission is denied: it may be written alone. Who may read all files has another run the program."""
    if Folder.stand_in:
        raise LeftOut
    other = {"user": 65_534, "group": 65_534, "extra_groups": []} if os.geteuid() == 0 else {}
    with Repository() as folder:
        program = shutil.copy(Folder.program, folder.path("program"))
        for name, mode in ((".", 0o755), ("program", 0o755), ("config.json", 0o644), ("t.exp", 0o644), ("l.exp", 0o200)):
            os.chmod(folder.path(name), mode)
        for words in (["batch", "--config", "config.json"], ["check", "l.exp"]):
            done = subprocess.run([program, *words], cwd=folder.folder.name, stdin=subprocess.DEVNULL, capture_output=True, check=False, **other)
            expect_told((done.returncode, done.stdout, done.stderr), '"l.exp" can\'t be read: permission is denied')


def test_long_paths():
    """Of a text of over 300 bytes the two ends are shown, each up to a whole character."""
    rows = [("x" * 300, "x" * 300), ("x" * 301, "x" * 200 + '".."' + "x" * 60), ("a" * 200 + "é" * 51, "a" * 200 + '".."' + "é" * 30),
            ("é" * 151, "é" * 100 + '".."' + "é" * 30), ("a" + "é" * 150, "a" + "é" * 99 + '".."' + "é" * 30),
            ("f" + "o" * 8_388_000, "f" + "o" * 199 + '".."' + "o" * 60), ("/" * 8_388_000 + "end", "/" * 200 + '".."' + "/" * 57 + "end")]
    for path, shown in rows:
        with Repository({"partners": [], "schemas": [path]}) as folder:
            expect_told(folder.batch(b""), f'"{shown}" can\'t be read: its path is too long')


def test_texts_that_are_no_schemas():
    """Beside the first fault of a text it is told whether it is an exchange file, or begins with a byte order mark."""
    file, mark = "it is an exchange file (ISO 10303-21)", "it begins with a byte order mark"
    rows = [
        (file_of(""), "Syntax line 1 column 1", file), ("\n \t" + file_of("").lower(), "Syntax line 2 column 3", file),
        ("\ufeff" + file_of(""), "Token line 1 column 1", file), ("ISO-10303-21", "Syntax line 1 column 1", file),
        ("\ufeff" + T, "Token line 1 column 1", mark), (T.encode("utf-16"), "Token line 1 column 1", mark), ("\ufeff", "Token line 1 column 1", mark),
        ("ISO-10303-2", "Syntax line 1 column 1", None), ("ISO-10303-28;", "Syntax line 1 column 1", None), (b"\xef\xbb" + T.encode(), "Token line 1 column 1", None),
        ("", "Syntax line 1 column 1", None), ("--\ufeff\n" + file_of(""), "Syntax line 2 column 1", None),
    ]
    with Repository({**CONFIG, "schemas": ["t.exp", "other.exp"]}) as folder:
        for text, fault_of_text, what in rows:
            folder.write("other.exp", text)
            beside = "" if what is None else f'rp_server: "other.exp" is no schema: {what}\n'
            seen = folder.run("check", "other.exp")
            if seen != (1, fault_of_text.encode() + b"\n", beside.encode()):
                raise Wrong(f"{text[:60]!r}: {seen!r}")
            status, output, errors = folder.run("check", "--explain", "other.exp")
            if (status, output.split(b"\n")[0], errors) != (1, fault_of_text.encode(), beside.encode()):
                raise Wrong(f"{text[:60]!r} explained: {status}, {output!r}, {errors!r}")
            expect_told(folder.batch(b""), f'"other.exp" is no schema: {fault_of_text}' + ("" if what is None else f": {what}"))


def test_what_is_read_once():
    """Of a pipe the fault alone is told: its bytes are gone, and no other writer is waited for."""
    twice = json.dumps({"partners": partners("ann", "ann"), "schemas": []})
    with Repository() as folder:
        for text, line in (('{"partners":[]}', '"/dev/stdin" is no configuration (rp_server batch --help shows one)'), (twice, "two partners have one name")):
            expect_told(folder.run("batch", "--config", "/dev/stdin", text=text.encode()), line)
        for text in (file_of("").encode(), b"\xef\xbb\xbf" + T.encode()):
            fault_of_text = b"Syntax line 1 column 1\n" if text.startswith(b"ISO") else b"Token line 1 column 1\n"
            seen = folder.run("check", "/dev/stdin", text=text)
            if seen != (1, fault_of_text, b""):
                raise Wrong(f"{seen!r}")
            os.mkfifo(folder.path("pipe"))
            with subprocess.Popen(["sh", "-c", "cat >pipe"], cwd=folder.folder.name, stdin=subprocess.PIPE) as writer:
                writer.stdin.write(text)
                writer.stdin.close()
                seen = folder.run("check", "pipe", seconds=20)
            os.remove(folder.path("pipe"))
            if seen != (1, fault_of_text, b""):
                raise Wrong(f"{seen!r}")


def test_as_many_schemas_as_there_may_be():
    """Each of 100 configured schemas is loaded. A configuration of 101 is none, and so is one of 1,001 partners: no schema is read."""
    files = {f"s{k}": f"SCHEMA s{k}; END_SCHEMA;" for k in range(101)}
    turns = [(schemas("ann"), loaded(*sorted(f"S{k}" for k in range(100)))),
             *((create("ann", f"m{k}", f"S{k}"), OK) for k in range(100)), (create("bob", "m", "S100"), UNKNOWN_SCHEMA)]
    expect(turns, {**CONFIG, "schemas": [f"s{k}.exp" for k in reversed(range(100))]}, **files)
    with Repository({**CONFIG, "schemas": [f"s{k}.exp" for k in range(101)]}, **files) as folder:
        with open(folder.path("config.json"), encoding="ascii") as it:
            column = it.read().index('"s100.exp"') + 1
        none = '"config.json" is no configuration: line 1 column %d: more than %s (rp_server batch --help shows one)'
        expect_told(folder.batch(schemas("ann")), none % (column, "100 schemas"))
        folder.write("s0.exp", "SCHEMA")
        expect_told(folder.batch(schemas("ann")), none % (column, "100 schemas"))
        text = json.dumps({"schemas": ["s0.exp"], "partners": partners(*(f"p{k}" for k in range(1001)))})
        folder.write("config.json", text)
        expect_told(folder.batch(schemas("ann")), none % (text.index('{"name": "p1000"') + 1, "1000 partners"))
        folder.write("config.json", '{"schemas":[%s],"partners":[],"schemas":["s1.exp"]}' % ",".join(['"s0.exp"'] * 101))
        if folder.batch(b"") != (0, b"", b""):
            raise Wrong("of equal keys the last doesn't stand")


def partners(*given):
    return [{"name": name, "token": f"t{place}"} for place, name in enumerate(given)]


def test_what_no_repository_can_have():
    """Two schemas or partners of one name, a partner's name that is none, and too many of either."""
    long = "n" * 301
    for given, twice in ((["ann", "ann"], '"ann"'), (["ann", "bob", "bob", "ann"], '"bob"'), (["ann", "bob", "cyd", "ann", "bob"], '"ann"'),
                         (["a b", "", ""], '""'), ([long, long], f'"{"n" * 200}".."{"n" * 60}"')):
        with Repository({**CONFIG, "partners": partners(*given)}) as folder:
            expect_told(folder.batch(b""), f"two partners have one name: {twice}")
    expect_config_fault({**CONFIG, "partners": partners("a b")}, "a partner's name isn't")
    expect_config_fault({**CONFIG, "partners": partners("")}, "a partner's name isn't")
    expect_config_fault({**CONFIG, "partners": partners("n" * 65)}, "a partner's name isn't")
    for given, both in ((["t.exp", "t.exp"], '"t.exp" and "t.exp"'), (["l.exp", "t.exp", "other.exp"], '"t.exp" and "other.exp"'),
                        (["l.exp", "other.exp", "t.exp", "l.exp"], '"other.exp" and "t.exp"')):
        with Repository({"partners": partners("ann", "ann"), "schemas": given}, other="SCHEMA t; END_SCHEMA;") as folder:
            expect_told(folder.batch(b""), f'two schemas have one name: "T", of {both}')
    expect([(names("p999", "p0", "m"), NO_SUCH_ITEM), (names("p1000", "p0", "m"), BAD_REQUEST)],
           {**CONFIG, "partners": partners(*(f"p{k}" for k in range(1000)))})
    expect([(names("ann", "ann", "m"), BAD_REQUEST)], {"partners": [], "schemas": []})


def test_faults_in_their_order():
    """The configuration comes first, then the schemas in their order, then what they make together."""
    twice = partners("ann", "ann")
    expect_config_fault({"partners": twice, "schemas": ["other.exp"], "x": 1}, "config.json", other="")
    expect_config_fault({"partners": twice, "schemas": ["t.exp", "t.exp", "other.exp"]}, "other.exp", other="")
    expect_config_fault({"partners": [], "schemas": ["other.exp", "absent.exp"]}, "other.exp", other="")
    expect_config_fault({"partners": [], "schemas": ["absent.exp", "other.exp"]}, "absent.exp", other="")
    expect_config_fault({"partners": [], "schemas": ["."]})
    with Repository({"partners": twice, "schemas": ["t.exp"]}, big=padded(T.encode(), FILE_LIMIT + 1), bad="x") as folder:
        lines = {"absent": '"absent.exp" can\'t be read: there is no such file', "big": '"big.exp" is over 8 MiB',
                 "bad": '"bad.exp" is no schema: Syntax line 1 column 1'}
        for order in itertools.permutations(lines):
            paths = ["t.exp", "t.exp", *(f"{name}.exp" for name in order)]
            folder.write("config.json", json.dumps({"partners": twice, "schemas": paths}))
            expect_told(folder.batch(b""), lines[order[0]])


def test_paths_start_at_the_working_directory():
    """A schema's path doesn't start where the configuration lies."""
    with Repository() as folder:
        folder.write("sub/config.json", json.dumps({**CONFIG, "schemas": ["other.exp"]}))
        folder.write("sub/other.exp", T)
        expect_fault(folder.run("batch", "--config", "sub/config.json"), "other.exp")
        folder.write("other.exp", T)
        seen = folder.run("batch", "--config", "sub/config.json", text=create("ann", "m"))
        if seen != (0, OK + b"\n", b""):
            raise Wrong(f"{seen!r}")


def test_devices_that_fail():
    """An input or output that fails ends the program with status 2 and one line."""
    given = ("batch", "--config", "config.json")
    with Repository() as folder:
        for words in (given, ["check", "t.exp"], ["check", "l.exp"], ["check", "--explain", "t.exp"], ["--help"], ["batch", "--help"], ["--version"]):
            with open("/dev/full", "wb") as full:
                status, _, errors = folder.run(*words, text=names("ann", "ann", "m"), stdout=full)
            try:
                expect_fault((status, b"", errors), "standard output")
            except Wrong as fault:
                raise Wrong(f"{words}: {fault}") from fault
        directory = os.open(folder.folder.name, os.O_RDONLY)
        try:
            expect_fault(folder.run(*given, stdin=directory), "standard input")
        finally:
            os.close(directory)
        begin, end = os.pipe()
        os.close(begin)
        try:
            status, _, errors = folder.run(*given, text=names("ann", "ann", "m"), stdout=end)
        finally:
            os.close(end)
        expect_fault((status, b"", errors), "standard output")


if __name__ == "__main__":
    run_tests("end to end", globals(), sys.argv[1:])
