#!/usr/bin/env python3
"""Runs the built program on the requests `schemas` and `check_schema`, and on configured schemas with a fault, and
compares all that it writes, byte for byte.

    tests/check_schema.py [PROGRAM]

Each function `test_*` is one test; its document string says what has to hold. The last line is
'check_schema: N passed, M failed', and the status is 0 only if none failed.
"""
import sys

from lib.harness import Wrong, run_tests
from lib.messages import (
    BAD_REQUEST, CONFIG, FILE_LIMIT, FIRST, FIRST_NAMES, L, NO_SUCH_ITEM, OK, T, TOO_LARGE, UNKNOWN_SCHEMA,
    Repository, check, create, expect, expect_fault, fault, file_of, good, instances, line, list_of, listed, loaded,
    names, put, replies_to, schemas,
)

SCHEMA_C = "SCHEMA C; ENTITY e; x : REAL; WHERE -1.5 < x; END_ENTITY; END_SCHEMA;"


# A text, and the reply to it.
ROWS = [
    # tokens
    ("SCHEMA A; 'open", fault("OpenString", 10)),
    ("SCHEMA A; (* open", fault("OpenRemark", 10)),
    ("SCHEMA A; \"0000\" END_SCHEMA;", fault("BadEncoded", 10)),
    ("SCHEMA A; 9223372036854775808", fault("TooBig", 10)),
    ("SCHEMA é; END_SCHEMA;", fault("Token", 7)),
    # syntax
    ("", fault("Syntax", 0)),
    ("SCHEMA A;", fault("Syntax", 9)),
    ("SCHEMA A; ENTITY e; a : ; END_ENTITY; END_SCHEMA;", fault("Syntax", 24)),
    ("SCHEMA A; END_SCHEMA; x", fault("Syntax", 22)),
    ("SCHEMA A; ENTITY e; a : REAL; END_ENTITY; PROCEDURE p; END_PROCEDURE; END_SCHEMA;", fault("OutOfProfile", 42)),
    ("SCHEMA A; CONSTANT c : INTEGER := " + "(" * 65, fault("TooDeep", 98)),
    # names
    ("SCHEMA A; ENTITY e; a : b; END_ENTITY; END_SCHEMA;", fault("Undeclared", 24)),
    ("SCHEMA A; ENTITY e; END_ENTITY; ENTITY e; END_ENTITY; END_SCHEMA;", fault("DeclaredTwice", 39)),
    ("SCHEMA A; ENTITY e SUBTYPE OF (e); END_ENTITY; END_SCHEMA;", fault("CyclicSubtype", 17)),
    ("SCHEMA Y; TYPE a = b; END_TYPE; TYPE b = a; END_TYPE; END_SCHEMA;", fault("CyclicType", 15)),
    ("SCHEMA A; ENTITY e; END_ENTITY; ENTITY f; INVERSE i : e FOR x; END_ENTITY; END_SCHEMA;",
     fault("NotAnAttribute", 60)),
    # kinds
    ("SCHEMA A; ENTITY e; a : REAL; WHERE a / 2.0 > 1.0; END_ENTITY; END_SCHEMA;", fault("RealArithmetic", 38)),
    ("SCHEMA B; ENTITY e; x : e; y : e; WHERE x = y; END_ENTITY; END_SCHEMA;", fault("EntityComparison", 42)),
    ("SCHEMA A; ENTITY e; WHERE NOT 5; END_ENTITY; END_SCHEMA;", fault("Operand", 26)),
    ("SCHEMA A; ENTITY e; WHERE ODD('a'); END_ENTITY; END_SCHEMA;", fault("Arguments", 26)),
    ("SCHEMA A; CONSTANT c : INTEGER := TRUE; END_CONSTANT; END_SCHEMA;", fault("Assign", 19)),
    ("SCHEMA A; ENTITY e; WHERE SELF.a; END_ENTITY; END_SCHEMA;", fault("Qualifier", 30)),
    ("SCHEMA A; TYPE t = ENUMERATION OF (x); END_TYPE; TYPE u = ENUMERATION OF (x); END_TYPE; "
     "ENTITY e; WHERE x = x; END_ENTITY; END_SCHEMA;", fault("Ambiguous", 104)),
    # supertype expressions
    ("SCHEMA A; ENTITY a SUPERTYPE OF (b ANDOR b); END_ENTITY; ENTITY b SUBTYPE OF (a); END_ENTITY; END_SCHEMA;", fault("NamedTwice", 41)),
    ("SCHEMA A; ENTITY a SUPERTYPE OF (a); END_ENTITY; END_SCHEMA;", fault("NotDirectSubtype", 33)),
    # warnings, in the order of the text
    ("SCHEMA W; TYPE s = SELECT (e); END_TYPE; ENTITY e; WHERE 'W.S' IN TYPEOF(SELF); END_ENTITY; END_SCHEMA;",
     good("W", 57)),
    ("SCHEMA W; ENTITY e; WHERE 'W.S' IN TYPEOF(SELF); END_ENTITY; TYPE s = SELECT (e); WHERE 'W.S' = 'w.s'; "
     "END_TYPE; END_SCHEMA;", good("W", 26, 88)),
    # the first phase with a fault tells it, wherever the others' lie
    ("SCHEMA A; ENTITY e; WHERE NOT 5; a; END_ENTITY; END_SCHEMA;", fault("Undeclared", 33)),
    ("SCHEMA A; ENTITY e; a : b; END_ENTITY; END_SCHEMA", fault("Syntax", 49)),
    ("SCHEMA A; ENTITY e; a : b; END_ENTITY; ; 'open", fault("OpenString", 41)),
    # schemas
    (SCHEMA_C, good("C")),
    (T, good("T")),
    (L, good("L")),
    ("schema lower_case; end_schema;", good("LOWER_CASE")),
    ("(* before *) SCHEMA A; END_SCHEMA; -- behind", good("A")),
    ("\0\t\r\nSCHEMA A;\nEND_SCHEMA;\n", good("A")),
]


def test_schemas_in_byte_order():
    """The names of the loaded schemas are told in byte order, to each partner, whatever the order of the files."""
    expect([(schemas("ann"), loaded("L", "T")), (schemas("bob"), loaded("L", "T"))])
    files = {"b": "SCHEMA b; END_SCHEMA;", "ab": "SCHEMA a_b; END_SCHEMA;", "a1": "SCHEMA A1; END_SCHEMA;",
             "a": "SCHEMA a; END_SCHEMA;"}
    with Repository({**CONFIG, "schemas": ["t.exp", "b.exp", "ab.exp", "a1.exp", "a.exp", "l.exp"]}, **files) as folder:
        seen = folder.batch(schemas("bob"))
    if seen != (0, loaded("A", "A1", "A_B", "B", "L", "T") + b"\n", b""):
        raise Wrong(f"{seen!r}")


def test_one_schema_and_none():
    """With one schema there is one name, and with none an empty list."""
    expect([(schemas("ann"), loaded("T"))], {**CONFIG, "schemas": ["t.exp"]})
    expect([(schemas("ann"), loaded()), (check("ann", T), good("T"))], {**CONFIG, "schemas": []})


def test_what_is_told_of_texts():
    """A fault with its byte and kind, of the first phase that has one; or the schema's name and warnings."""
    expect([(check("ann", text), reply) for text, reply in ROWS])


def test_places_count_bytes():
    """A fault lies at a byte of the text, however many characters stand before it."""
    expect([(check("ann", "(* é *) SCHEMA A; x"), fault("Syntax", 19)),
            (check("ann", "(* \U0001f600 *)\n\nSCHEMA A; x"), fault("Syntax", 22))])


def test_a_check_changes_nothing():
    """The loaded schemas are as before, and a schema that was checked isn't loaded."""
    expect([(check("ann", "SCHEMA X; END_SCHEMA;"), good("X")),
            (create("ann", "m", "X"), UNKNOWN_SCHEMA),
            (schemas("ann"), loaded("L", "T")),
            *FIRST,
            (check("ann", "SCHEMA T; END_SCHEMA;"), good("T")),
            (check("bob", "no schema"), fault("Syntax", 0)),
            (names("ann", "ann", "m"), FIRST_NAMES)])


def filled(size, text=SCHEMA_C):
    """The text with blanks behind it, of so many bytes."""
    return text + " " * (size - len(text))


def test_large_texts():
    """A text may have 8 MiB, counted in bytes."""
    remark = "(*" + "é" * ((FILE_LIMIT - len(SCHEMA_C) - 4) // 2) + "*)"
    exact = SCHEMA_C + remark + " " * (FILE_LIMIT - len((SCHEMA_C + remark).encode()))
    expect([(check("ann", filled(FILE_LIMIT)), good("C")),
            (check("ann", filled(FILE_LIMIT + 1)), TOO_LARGE),
            (check("ann", exact), good("C")),
            (check("ann", exact + " "), TOO_LARGE),
            (check("ann", " " * FILE_LIMIT), fault("Syntax", FILE_LIMIT)),
            (check("ann", " " * (FILE_LIMIT + 1)), TOO_LARGE),
            (check("ann", "x" * (FILE_LIMIT + 1)), TOO_LARGE)])


def test_what_is_no_request():
    """A key that is missing, one too many, one of another kind, another word, and a caller who is no partner."""
    lines = [
        line("ann", "schemas", text=""), line("ann", "schemas", name="T"), line("ann", "schemas", schemas=[]),
        line("carl", "schemas"), b'{"do":"schemas"}', line("ann", "Schemas"), line("ann", "schema"),
        line("ann", "check_schema"), line("ann", "check_schema", name="T"), line("ann", "check_schema", schema=T),
        line("ann", "check_schema", text=T, name="T"), line("ann", "check_schema", text=None),
        line("ann", "check_schema", text=[T]), line("ann", "check_schema", text=1), line("carl", "check_schema", text=T),
        line("ann", "check_schema", file=T), line("ann", "check", text=T), line("ann", "Check_schema", text=T),
    ]
    expect([(it, BAD_REQUEST) for it in lines])


def test_two_inputs_that_look_the_same_to_bob():
    """What ann checks, creates and puts changes none of bob's replies."""
    his = [schemas("bob"), check("bob", SCHEMA_C), check("bob", "SCHEMA A;"), schemas("bob"),
           check("bob", "SCHEMA T; END_SCHEMA;"), names("bob", "ann", "m")]
    hers = [check("ann", "SCHEMA X; END_SCHEMA;"), create("ann", "m"), schemas("ann"), check("ann", "'"),
            put("ann", "ann", "m", file_of("#1=P(1.,$);")), line("ann", "delete_model", name="m"), b"{"]
    between = []
    for place, it in enumerate(his):
        between += [hers[place % len(hers)], it]
    alone, beside = replies_to("bob", his), replies_to("bob", between + hers)
    wanted = [loaded("L", "T"), good("C"), fault("Syntax", 9), loaded("L", "T"), good("T"), NO_SUCH_ITEM]
    if not alone == beside == wanted:
        raise Wrong(f"{alone!r} and {beside!r} in place of {wanted!r}")


# ---- configured schemas

FAULTS = [
    ("SCHEMA A;\nENTITY e; a : b; END_ENTITY; END_SCHEMA;", "Undeclared line 2 column 15"),
    ("SCHEMA A;\n\nx", "Syntax line 3 column 1"),
    ("SCHEMA A; 'é\n'", "OpenString line 1 column 11"),
    ("", "Syntax line 1 column 1"),
    ("SCHEMA A;\n", "Syntax line 2 column 1"),
    ("SCHEMA Y; TYPE a = b; END_TYPE; TYPE b = a; END_TYPE; END_SCHEMA;", "CyclicType line 1 column 16"),
]


def test_a_configured_schema_with_a_fault():
    """The program ends with status 2 and one line with the file's path and the words that `check` prints."""
    for text, words in FAULTS:
        with Repository({**CONFIG, "schemas": ["t.exp", "other.exp"]}, other=text) as folder:
            status, output, errors = folder.batch(schemas("ann"))
            wanted = f'rp_server: "other.exp" is no schema: {words}\n'.encode()
            if (status, output, errors) != (2, b"", wanted):
                raise Wrong(f"{text!r}: status {status}, {output!r}, {errors!r} in place of {wanted!r}")
            seen = folder.run("check", "other.exp")
            if seen != (1, words.encode() + b"\n", b""):
                raise Wrong(f"check of {text!r}: {seen!r}")


def test_the_first_schema_with_a_fault():
    """Of several files the first in the order of the configuration is told, before what they make together."""
    bad = {"one": "SCHEMA A;", "two": "SCHEMA B; 'x"}
    twice = [{"name": "ann", "token": "a"}, {"name": "ann", "token": "b"}]
    for order, words in ((["one.exp", "two.exp"], '"one.exp" is no schema: Syntax line 1 column 10'),
                         (["two.exp", "one.exp"], '"two.exp" is no schema: OpenString line 1 column 11'),
                         (["t.exp", "t.exp", "absent.exp", "one.exp"], '"absent.exp"'),
                         (["t.exp", "t.exp", "one.exp", "absent.exp"], '"one.exp" is no schema')):
        with Repository({"partners": twice, "schemas": order}, **bad) as folder:
            expect_fault(folder.batch(b""), words)


def test_a_large_file_of_a_schema():
    """A file of 8 MiB is read; one of a byte more is told by its path."""
    with Repository({**CONFIG, "schemas": ["other.exp"]}, other=filled(FILE_LIMIT)) as folder:
        if folder.batch(schemas("ann")) != (0, loaded("C") + b"\n", b""):
            raise Wrong("a schema of 8 MiB isn't taken")
        folder.write("other.exp", filled(FILE_LIMIT + 1))
        expect_fault(folder.batch(schemas("ann")), '"other.exp"')


def test_schemas_that_share_a_name():
    """Names are compared without regard to case."""
    with Repository({**CONFIG, "schemas": ["t.exp", "other.exp"]}, other="schema t; end_schema;") as folder:
        expect_fault(folder.batch(schemas("ann")), "two schemas have one name")


def test_models_of_a_loaded_schema():
    """A schema's name is given in either case, and told in upper case."""
    with Repository({**CONFIG, "schemas": ["other.exp"]}, other="schema Mixed_Case; end_schema;") as folder:
        lines = [create("ann", "m", "mixed_CASE"), list_of("ann"), put("ann", "ann", "m", file_of("", "mixed_case"))]
        shown = listed((b"owner", b"m", b"ann", b"MIXED_CASE"))
        seen = folder.batch(b"\n".join(lines))
    if seen != (0, b"\n".join([OK, shown, instances(0), b""]), b""):
        raise Wrong(f"{seen!r}")


if __name__ == "__main__":
    run_tests("check_schema", globals(), sys.argv[1:])
