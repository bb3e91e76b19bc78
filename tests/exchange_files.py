#!/usr/bin/env python3
"""Puts exchange files (ISO 10303-21) into a model of the built program and compares all that it answers, byte for byte:
the names and types of their instances, or the first fault with its byte. What is said of values by their schema stands in
bound_files.py.

    tests/exchange_files.py [PROGRAM]

A mark as ⟦Token⟧ stands right before the first byte of a fault, and a put that is refused changes nothing. Beside a file
without a mark stand its instances, in order of name, or else what is refused of it. The last line is
'exchange files: N passed, M failed', and the status is 0 only if none failed.
"""
import sys

from lib.harness import run_parts, unmarked
from lib.messages import CONFIG, OK, WRONG_SCHEMA, Repository, create, file_fault, file_of, instance_fault, instances, named, names, put

# entities for values of each sort, and for instances that refer to others
T = """SCHEMA t;
TYPE number_value = NUMBER; END_TYPE;
TYPE text = STRING; END_TYPE;
TYPE bits = BINARY; END_TYPE;
TYPE truth = LOGICAL; END_TYPE;
TYPE word = ENUMERATION OF (iso, end_iso); END_TYPE;
TYPE any = SELECT (number_value, text, bits, truth, word); END_TYPE;
TYPE i = INTEGER; END_TYPE;
TYPE w = ENUMERATION OF (b, c); END_TYPE;
TYPE typed = SELECT (i, w); END_TYPE;
TYPE m = INTEGER; END_TYPE;
TYPE l = m; END_TYPE;
TYPE truths = LIST [0:?] OF truth; END_TYPE;
TYPE number_or_truths = SELECT (number_value, truths); END_TYPE;
TYPE s = LIST [0:?] OF z; END_TYPE;
TYPE n = s; END_TYPE;
TYPE some = SELECT (s, z); END_TYPE;
ENTITY p; END_ENTITY;
ENTITY iso; END_ENTITY;
ENTITY end_iso_10303_21; END_ENTITY;
ENTITY q; a : p; END_ENTITY;
ENTITY o; x : REAL; t : STRING; END_ENTITY;
ENTITY r; x : REAL; t : STRING; f : BOOLEAN; b : BINARY; END_ENTITY;
ENTITY v; all_of : LIST [0:?] OF any; END_ENTITY;
ENTITY d; deep : DEEP typed; END_ENTITY;
ENTITY j; x : REAL; END_ENTITY;
ENTITY k SUBTYPE OF (j); u : OPTIONAL REAL; w : INTEGER; f : LOGICAL; b : BINARY; all_of : LIST [0:?] OF number_or_truths; t : l; e : s;
DERIVE SELF\\j.x : REAL := 1.0; END_ENTITY;
ENTITY z; of_z : LIST [0:?] OF some; END_ENTITY;
ENTITY y; of_n : n; END_ENTITY;
ENTITY a; END_ENTITY;
ENTITY b SUBTYPE OF (a); END_ENTITY;
ENTITY c SUBTYPE OF (a); END_ENTITY;
END_SCHEMA;
""".replace("DEEP ", "LIST [0:?] OF " * 16)

START = "ISO-10303-21;HEADER;FILE_DESCRIPTION((''),'2;1');FILE_NAME('','',(''),(''),'','','');"
SCHEMA = "FILE_SCHEMA(('T'));"


def whole(lines, header=SCHEMA):
    """A file, of what follows FILE_NAME up to `DATA`, and what follows that up to the last `ENDSEC`."""
    return f"{START}{header}ENDSEC;DATA{lines}ENDSEC;END-ISO-10303-21;\n\\F\\"


def looks(it, rows, schema="T", **files):
    """Puts each file of the rows in turn, and reads the names after it."""
    lines, wanted, content = [create("ann", "m", schema)], [OK], ()
    for _, marked, told in rows:
        plain, marks = unmarked(marked)
        reply = file_fault(*marks[0]) if marks else told if isinstance(told, bytes) else instances(len(told))
        content = content if marks or isinstance(told, bytes) else told
        lines += [put("ann", "ann", "m", plain.decode()), names("ann", "ann", "m")]
        wanted += [reply, named(*content)]
    with Repository({**CONFIG, "schemas": ["t.exp", *(name + ".exp" for name in files)]}, t=T, **files) as folder:
        status, output, errors = folder.batch(b"\n".join(lines))
    replies = output.split(b"\n")
    it.expect(f"{rows[0][0]} and {len(rows) - 1} more", (status, replies.pop(), errors, len(replies)), (0, b"", b"", len(wanted)))
    for place, (name, _, _) in enumerate(rows):
        its = slice(2 * place + 1, 2 * place + 3)
        it.expect(name, replies[its], wanted[its])


# ---- tokens

# an instance, as each token with what stands before it
INSTANCE = [("", "#10"), (" ", "="), (" ", "R"), ("", "("), ("", "-1.E-1"), ("", ","), ("/* x */", "'a''b'"), ("", ","), ("", ".T."),
            ("", ","), ("", '"23B"'), ("", ")"), ("\\N\\", ";")]

P = ((1, "P"),)
V = ((1, "V"),)

# what stands in the data section
LINES = [
    ("a keyword behind control characters", "#1=\x00p\x1f();", P),
    ("a keyword that no entity has", "#1=_a();", instance_fault("UnknownEntity", 1)),
    ("zeros in front of a name", "#0000000000000000000007=P();", ((7, "P"),)),
    ("comments and directives between tokens", "/**//***/\\F\\#1/*/*/=\\N\\P();", P),
    ("a keyword that begins as the file's mark", "#1=ISO();#2=end_iso_10303_21();", ((1, "ISO"), (2, "END_ISO_10303_21"))),
    ("the file's mark as a keyword", "#1=⟦Syntax⟧ISO-10303-21(1.);", None),
    ("its mark at the end as a keyword, in lower case", "#1=⟦Syntax⟧end-iso-10303-21(1.);", None),
    ("its mark as a part", "#1=(⟦Syntax⟧ISO-10303-21(1.));", None),
    ("its mark at the end as a part", "#1=(⟦Syntax⟧END-ISO-10303-21(1.));", None),
    ("its mark behind a part", "#1=(A(1.)⟦Syntax⟧iso-10303-21(1.));", None),
    ("a letter behind the file's mark", "#1=⟦Token⟧ISO-10303-21A(1.);", None),
    ("the greatest name", "#999999999999999999=P();", ((999999999999999999, "P"),)),
    ("a name over the greatest", "⟦Number⟧#1000000000000000000=P();", None),
    ("a name without digits", "⟦Token⟧#=P();", None),
    ("a hyphen in another word", "#1=⟦Token⟧A-B();", None),
    ("a page of characters outside of a string", "⟦Token⟧\\S\\#1=P();", None),
    ("a byte order mark behind the front", "⟦Token⟧\ufeff#1=P();", None),
]

# what stands among the values of an instance
VALUES = [
    ("an integer, and a word", "1⟦Syntax⟧A"),
    ("a real with an exponent in lower case", "1.e3"),
    ("an E without digits is no exponent", "1.⟦Syntax⟧E "),
    ("an item in lower case", ".t."),
    ("two binaries", '"0"⟦Syntax⟧"3ab"'),
    ("binaries", '"0","3ab","1f","23B"'),
    ("a string that isn't closed", "1.,⟦Open⟧'ab"),
    ("a comment that isn't closed", "1. ⟦Open⟧/* x"),
    ("a word, and a point without one", "a ⟦Token⟧.5"),
    ("four unused bits", '⟦Token⟧"4F"'),
    ("an unused bit of none", '⟦Token⟧"1"'),
    ("a binary that isn't closed", '⟦Open⟧"0'),
    ("a blank in a binary", '⟦Token⟧"0 "'),
    ("the greatest integer", "9223372036854775807,+9223372036854775807"),
    ("an integer over the greatest", "⟦Number⟧9223372036854775808"),
    ("an integer over the greatest, with its sign", "⟦Number⟧+9223372036854775808"),
    ("the least integer", "-9223372036854775808"),
    ("an integer below the least", "⟦Number⟧-9223372036854775809"),
    ("reals over the greatest integer", "9223372036854775808.,-9223372036854775809.E+100"),
    ("reals of 36 digits", "-123456789012345678901234567890.123456,+0.123456789012345678901234567890123456"),
    ("a real of 37 digits", "⟦Number⟧1234567890123456789012345678901.123456"),
    ("a real of 37 digits, with its sign", "⟦Number⟧-1234567890123456789012345678901.123456"),
    ("zeros at both ends of 36 digits", "00123456789012345678901234567890.1234560000"),
    ("a digit behind 41 zeros", "0." + 40 * "0" + "1"),
    ("the greatest and the least exponent", "1.E1000,10.E999,1.e-1000,100.E-1002"),
    ("an exponent over the greatest", "⟦Number⟧1.E1001"),
    ("an exponent over the greatest by a zero", "⟦Number⟧10.E1000"),
    ("an exponent below the least", "⟦Number⟧1.E-1001"),
    ("an exponent below the least by a digit", "⟦Number⟧0.1E-1000"),
    ("zeros of any exponent", "0.E99999,-0.00E-99999"),
    ("a real past its limits that can't stand there", "1 ⟦Number⟧1.E1001"),
    ("an item that isn't closed", " ⟦Token⟧.T"),
    ("an item of digits", "⟦Token⟧.5."),
    ("an item of the file's mark", "⟦Token⟧.ISO-10303-21."),
    ("an item that begins as the file's mark", ".ISO.,.END_ISO."),
    ("a delete", "⟦Token⟧\x7f"),
    ("a sign without digits", "⟦Token⟧-"),
    ("a letter above 7F outside of a string", "⟦Token⟧é"),
    ("a reference over the greatest name", "⟦Number⟧#1000000000000000000"),
    ("an escape in a string that can't stand there", "1⟦Escape⟧'\\Q'"),
    ("an escape in a string that isn't closed", "⟦Open⟧'\\Q"),
]

# what stands between apostrophes, and before them the kind of its fault
STRINGS = [
    ("apostrophes and backslashes", "''''\\\\''"),
    ("letters of two digits", "\\X\\E9\\X\\e9\\X\\27"),
    ("groups of four digits", "\\X2\\00E900e903C0\\X0\\"),
    ("two groups that are one character", "\\X2\\D83DDE00\\X0\\"),
    ("groups of eight digits", "\\X4\\0001F600000000e9\\X0\\"),
    ("the upper half of a page", "\\S\\i\\S\\ \\S\\~"),
    ("an apostrophe and a backslash in the upper half", "\\S\\''\\S\\\\"),
    ("the first page", "\\PA\\\\S\\i"),
    ("directives", "\\N\\\\F\\"),
    ("letters above 7F", "é\U0001f600"),
    ("line ends within escapes", "\\X\n2\\00\rE\r\n9\\X0\n\\\\\n\\"),
    ("three digits in a group", "⟦Escape⟧\\X2\\0E9\\X0\\"),
    ("three digits in a group behind one of four", "⟦Escape⟧\\X2\\00E90E9\\X0\\"),
    ("no group of four", "⟦Escape⟧\\X2\\\\X0\\"),
    ("no group of eight", "⟦Escape⟧\\X4\\\\X0\\"),
    ("four digits in place of eight", "⟦Escape⟧\\X4\\00E9\\X0\\"),
    ("a group without an end", "⟦Escape⟧\\X2\\00E9"),
    ("a letter as a digit", "⟦Escape⟧\\X2\\00G9\\X0\\"),
    ("one digit", "⟦Escape⟧\\X\\E"),
    ("an escape in lower case", "⟦Escape⟧\\x2\\00E9\\X0\\"),
    ("a directive within groups", "⟦Escape⟧\\X2\\00E9\\N\\\\X0\\"),
    ("an escape of another letter", "⟦Escape⟧a\\Q\\"),
    ("a backslash at the end", "⟦Escape⟧a\\"),
    ("a letter above 7F in the upper half", "⟦Escape⟧\\S\\é"),
    ("nothing in the upper half", "⟦Escape⟧\\S\\"),
    ("a page that there isn't", "⟦Escape⟧\\PJ\\"),
    ("the second page", "⟦Page⟧\\PB\\a"),
    ("the last page", "⟦Page⟧\\PI\\"),
    ("a high surrogate alone", "⟦Code⟧\\X2\\D800\\X0\\"),
    ("a low surrogate alone", "⟦Code⟧\\X2\\DC00\\X0\\"),
    ("two high surrogates", "⟦Code⟧\\X2\\D800D800DC00\\X0\\"),
    ("surrogates in groups of eight", "⟦Code⟧\\X4\\0000D83D0000DE00\\X0\\"),
    ("a code past the last", "⟦Code⟧\\X4\\00110000\\X0\\"),
    ("an escape's form before its codes", "⟦Escape⟧\\X2\\D8000\\X0\\"),
    ("a code in front of an escape", "⟦Code⟧\\X2\\D800\\X0\\\\Q"),
    ("an escape in front of a page", "⟦Escape⟧\\Q\\PB\\"),
]


def quoted(content):
    """A string. Its fault lies at its first apostrophe."""
    kind, mark, plain = content.rpartition("⟧")
    return f"{kind}{mark}'{plain}'"


# whole texts
FRONTS = [
    ("a byte order mark in front", "\ufeff " + whole(";#1=P();"), P),
    ("a word behind a byte order mark", "\ufeff ⟦Syntax⟧a", None),
    ("an end behind a byte order mark", "\ufeff iso-10303-21⟦Syntax⟧", None),
    ("two byte order marks", "\ufeff⟦Token⟧\ufeff", None),
    ("two byte order marks before a file", "\ufeff⟦Token⟧\ufeffISO-10303-21", None),
    ("an empty text", "⟦Syntax⟧", None),
    ("the mark at the end in front", "⟦Syntax⟧END-ISO-10303-21;", None),
    ("the mark in place of the header", "ISO-10303-21;⟦Syntax⟧ISO-10303-21;", None),
    ("the mark at the end in place of the header", "ISO-10303-21;⟦Syntax⟧END-ISO-10303-21;", None),
    ("the mark in place of an entity of the header", "ISO-10303-21;HEADER;⟦Syntax⟧iso-10303-21(('')", None),
    ("the mark among the values of the header", "ISO-10303-21;HEADER;FILE_DESCRIPTION((⟦Syntax⟧ISO-10303-21", None),
    ("the mark in place of the data", START + SCHEMA + "ENDSEC;⟦Syntax⟧END-ISO-10303-21;", None),
    ("half of the mark", "⟦Token⟧ISO-10303-2", None),
    ("half of the mark behind a byte order mark", "\ufeff⟦Token⟧ISO-10303-2", None),
    ("half of a word", "ISO-10303-21;HEADER;⟦Syntax⟧FILE_DESC", None),
    ("the mark in lower case", "iso-10303-21;⟦Token⟧ï", None),
    ("a header's entity without values", "ISO-10303-21;HEADER;FILE_DESCRIPTION⟦Syntax⟧", None),
    ("one value too few", "ISO-10303-21;HEADER;FILE_DESCRIPTION(''⟦Syntax⟧)", None),
    ("one value too many", "ISO-10303-21;HEADER;FILE_DESCRIPTION($,()⟦Syntax⟧,$", None),
    ("an escape in the header", "ISO-10303-21;HEADER;FILE_DESCRIPTION((⟦Escape⟧'\\Q'", None),
    ("an integer in the header", "ISO-10303-21;HEADER;FILE_DESCRIPTION((⟦Syntax⟧1))", None),
    ("16 levels in the header", "ISO-10303-21;HEADER;FILE_DESCRIPTION(" + "(" * 16 + "⟦Syntax⟧", None),
    ("17 levels in the header", "ISO-10303-21;HEADER;FILE_DESCRIPTION(" + "(" * 16 + "⟦Deep⟧(1", None),
    ("a file's name with one value too few", START.replace(",'')", "⟦Syntax⟧)"), None),
]


def tokens(it):
    rows = [("an instance of tokens of each sort", "".join(blank + token for blank, token in INSTANCE), ((10, "R"),))]
    for place, (blank, token) in enumerate(INSTANCE):
        before = "".join(blank + token for blank, token in INSTANCE[:place])
        other = ";" if token == "=" else "="
        rows.append((f"{other} in place of {token}", f"{before}{blank}⟦Syntax⟧{other}", None))
    rows += LINES + [(name, f"#1=V(({value}));", V) for name, value in VALUES + [(name, quoted(content)) for name, content in STRINGS]]
    looks(it, [(name, file_of(text), told) for name, text, told in rows])
    looks(it, FRONTS)


# ---- the grammar

TWO = ((1, "O"), (2, "Q"))

# what follows DATA
SECTIONS = [
    ("an internal mapping", ";#2=/* ; */Q(#1);#1=O(0.10,'a');", TWO),
    ("an external mapping of one type, in a named section", "('n',('t'));#02=(q(#01));\\N\\#1=(O(0.10,'a'));", TWO),
    ("values of each kind", ";#1=K(*,$,-07,.t.,\"23B\",(1,(.T.)),L(M(2)),());", ((1, "K"),)),
    ("no instances", ";", ()),
    ("lists and keywords 16 levels deep", ";#0=D(" + "(" * 16 + " I(1),W(.B.) " + ")" * 16 + ");", ((0, "D"),)),
    ("a value that is no token", ";#1=P(⟦Token⟧.5);", None),
    ("a string that isn't closed, at the end", ";#1=P(1.,⟦Open⟧'ab", None),
    ("a comment that isn't closed, at the end", ";#1=P(1. ⟦Open⟧/* x", None),
    ("a comma too many, before a string that isn't closed", ";#1=P(1.,⟦Syntax⟧,'ab", None),
    ("an external mapping of no type", ";#1=(⟦Syntax⟧);", None),
    ("a list 17 levels deep", ";#1=P(" + "(" * 16 + "⟦Deep⟧(1", None),
    ("a list within a keyword at the last level", ";#1=P(" + "(" * 16 + "A(⟦Deep⟧(", None),
    ("a keyword within a keyword at the last level", ";#1=P(" + "(" * 16 + "A(⟦Deep⟧B(", None),
    ("a keyword that isn't closed", ";#1=P(" + "(" * 16 + "A(1⟦Syntax⟧;", None),
    ("a word in place of an instance", ";⟦Syntax⟧x", None),
    ("the mark at the end in place of an instance", ";⟦Syntax⟧END-ISO-10303-21;", None),
    ("the file's mark as a typed value", ";#1=A(⟦Syntax⟧ISO-10303-21(1.));", None),
    ("its mark at the end as a typed value, behind another", ";#1=A(B(1.),⟦Syntax⟧end-iso-10303-21(1.));", None),
    ("its mark as a value", ";#1=A(1.,⟦Syntax⟧ISO-10303-21);", None),
    ("its mark within a list", ";#1=A((⟦Syntax⟧ISO-10303-21(1.)));", None),
    ("its mark within a keyword", ";#1=A(B(⟦Syntax⟧ISO-10303-21(1.)));", None),
    ("its mark within a keyword at the last level", ";#1=A(" + "(" * 16 + "B(⟦Syntax⟧ISO-10303-21(1.", None),
    ("a section of two schemas", "('n',('T'⟦Syntax⟧,'U'));", None),
    ("a section of a schema that isn't said", "('n',(⟦Syntax⟧$));", None),
    ("a section without a name", "(⟦Syntax⟧);", None),
    ("a second data section", ";ENDSEC;⟦Sections⟧DATA x", None),
    ("a semicolon behind the end", ";ENDSEC;END-ISO-10303-21;⟦Syntax⟧;", None),
    ("the mark in front at the end", ";ENDSEC;⟦Syntax⟧ISO-10303-21;", None),
    ("a word at the end", ";ENDSEC;⟦Syntax⟧END;", None),
    ("two marks at the end", ";ENDSEC;END-ISO-10303-21;⟦Syntax⟧END-ISO-10303-21;", None),
    ("the mark at the end in lower case", ";ENDSEC;end-iso-10303-21;⟦Syntax⟧;", None),
    ("an entity of the user's own", ";#1=⟦Token⟧!MINE(1.);", None),
    ("one among the types of an external mapping", ";#1=(P()⟦Token⟧!MINE(1.));", None),
    ("a typed value of the user's own", ";#1=A(⟦Token⟧!MINE(1.));", None),
    ("a scope", ";#1=⟦Token⟧&SCOPE #2=P();ENDSCOPE/#2/ Q(#2);", None),
    ("the name of a constant", ";#1=A(⟦Token⟧@1);", None),
    ("a reference to a resource", ";#1=A(⟦Token⟧<part.step#1>);", None),
    ("anchors behind the data", ";ENDSEC;⟦Syntax⟧ANCHOR;", None),
    ("a signature behind the data", ";ENDSEC;⟦Syntax⟧SIGNATURE abcd", None),
    ("a signature behind the file", ";ENDSEC;END-ISO-10303-21;⟦Syntax⟧SIGNATURE;abcd", None),
]

# what stands between the header's ENDSEC and DATA
BETWEEN = [
    ("anchors", "⟦Syntax⟧ANCHOR;<part>=#1;ENDSEC;", None),
    ("no anchors", "⟦Syntax⟧ANCHOR;ENDSEC;", None),
    ("references", "⟦Syntax⟧REFERENCE;#9=<part.step#1>;ENDSEC;", None),
    ("a signature", "⟦Syntax⟧SIGNATURE;abcd;ENDSEC;", None),
]

# what stands between FILE_NAME and ENDSEC
HEADERS = [
    ("a schema that isn't said", "FILE_SCHEMA((⟦Syntax⟧$));", None),
    ("no schema", "FILE_SCHEMA((⟦Syntax⟧));", None),
    ("two schemas", "FILE_SCHEMA(('T'⟦Syntax⟧,'U'));", None),
    ("another entity of the header", SCHEMA + "⟦Syntax⟧FILE_OTHER();", None),
    ("the file's mark as a value of an entity that says nothing", SCHEMA + "FILE_POPULATION(⟦Syntax⟧ISO-10303-21(1.));", None),
    ("its mark behind a value of one", SCHEMA + "FILE_POPULATION(A(1.),⟦Syntax⟧end-iso-10303-21(1.));", None),
    ("its mark in place of one", SCHEMA + "⟦Syntax⟧ISO-10303-21(1.);", None),
    ("17 levels in an entity that says nothing", SCHEMA + "FILE_POPULATION(" + "(" * 16 + "⟦Deep⟧(1", None),
    ("entities that say nothing here",
     "file_schema(('T'));SECTION_CONTEXT($);file_population();SECTION_LANGUAGE('a',(1.,#2),A(*));SECTION_CONTEXT(1);", ()),
]


def grammar(it):
    looks(it, [(name, whole(text), told) for name, text, told in SECTIONS])
    looks(it, [(name, whole(";", header), told) for name, header, told in HEADERS])
    looks(it, [(name, whole(";", SCHEMA).replace("ENDSEC;DATA", f"ENDSEC;{section}DATA", 1), told) for name, section, told in BETWEEN])


# ---- schemas

# the schema's name in the header, the section, the model's schema, and whether the file is of it
SCHEMAS = [
    ("T", ";", "t", True),
    ("t {1 0 10303}", ";", "T", True),
    ("T\r\nU{}", ";", "TU", True),
    (" T", ";", "T", False),
    ("\\X\\54", ";", "T", True),
    ("T\\X\\20U", "('',('\\X2\\0054007B\\X0\\'));", "T", True),
    ("T\\X\\55", ";", "T", False),
    ("T", ";", "TU", False),
    ("TU", ";", "T", False),
    ("T", "('',('t '));", "T", True),
    ("T", "('',('U'));", "T", False),
    ("U", "('',('T'));", "T", False),
]


def schemas(it):
    others = {name: f"SCHEMA {name}; ENTITY p; END_ENTITY; END_SCHEMA;" for name in ("tu", "u")}
    for schema, section, model, is_of_it in SCHEMAS:
        file = whole(section + "#1=P();", f"FILE_SCHEMA(('{schema}'));")
        looks(it, [(f"{schema!r} and {section} for {model}", file, P if is_of_it else WRONG_SCHEMA)], model, **others)


# ---- instances

INSTANCES = [
    ("a name that is defined later", "#2=Z((S((#1))));#1=Z($);", ((1, "Z"), (2, "Z"))),
    ("a name that isn't defined, within a keyword", "#1=Z((S((#3))));", instance_fault("Undefined", 1)),
    ("a name that isn't defined, within keywords", "#2=P();#1=Y(N(S((#3))));", instance_fault("Undefined", 1)),
    ("the first of two instances of one name", "#1=Z((S((#3))));#1=Z((S((#3))));", instance_fault("Undefined", 1)),
    ("the second of two instances of one name", "#1=Z((S((#3))));#1=Z((S((#3))));#3=(a()b());", instance_fault("Twice", 1)),
    ("types in byte order", "#1=(c()b()A());", ((1, "A+B+C"),)),
    ("one leaf of several types", "#1=(b()A());", ((1, "B"),)),
    ("one type twice", "#5=(a()A());", instance_fault("Twice", 5)),
    ("one type twice, in an instance behind others", "#1=P();#7=(a()b()A());#1=P();", instance_fault("Twice", 7)),
    ("names in the order of numbers", "#10=P();#9=Q($);#100=A();", ((9, "Q"), (10, "P"), (100, "A"))),
]


def instances_of_files(it):
    looks(it, [(name, file_of(text), told) for name, text, told in INSTANCES])


if __name__ == "__main__":
    run_parts("exchange files", (tokens, grammar, schemas, instances_of_files), sys.argv[1:])
