#!/usr/bin/env python3
"""Puts exchange files into models of the built program, and compares what they say by their schema, byte for byte: the
canonical text that is exported, the types that are told, or the first fault of an instance.

    tests/bound_files.py [PROGRAM]

What is exported is put again, and has to be exported as the same bytes. The last line is
'bound files: N passed, M failed', and the status is 0 only if none failed.
"""
import os
import sys

from lib.harness import TOP, run_parts, unmarked
from lib.messages import (
    CONFIG, E, OK, T, Repository, canonical, create, export, exported, file_fault, file_of, instance_fault, instances, named, names, put,
)
from lib.plain_binding import spelled_list
from lib.plain_files import read

sys.path.insert(0, os.path.join(TOP, "bench"))

from make_part21 import part21  # noqa: E402


def replies_in(it, name, text, lines):
    """The replies to these lines where the text is the one schema."""
    with Repository({**CONFIG, "schemas": ["bound.exp"]}, bound=text) as folder:
        status, output, errors = folder.batch(b"\n".join(lines))
    replies = output.split(b"\n")
    it.expect(name, (status, replies.pop(), errors, len(replies)), (0, b"", b"", len(lines)))
    return replies


def looks(it, schema, text, rows):
    """Puts the instances of each row into a model of the schema. A row has a name, the instances, and the lines that are then
    exported, or what is refused. What is exported is put once more."""
    lines, wanted, held = [create("ann", "m", schema)], [OK], canonical(schema=schema)
    for _, marked, told in rows:
        plain, marks = unmarked(file_of(marked, schema))
        reply = file_fault(*marks[0]) if marks else told if isinstance(told, bytes) else instances(len(told))
        held = held if marks or isinstance(told, bytes) else canonical(*told, schema=schema)
        lines += [put("ann", "ann", "m", plain.decode()), export("ann", "ann", "m"), put("ann", "ann", "m", held), export("ann", "ann", "m")]
        wanted += [reply, exported(held), instances(held.count("\n#")), exported(held)]
    replies = replies_in(it, f"{rows[0][0]} and {len(rows) - 1} more", text, lines)
    for place, (name, _, _) in enumerate(rows):
        its = slice(4 * place + 1, 4 * place + 5)
        it.expect(name, replies[its], wanted[its])


# ---- values

# an entity for each type, with one attribute
VALUES = """SCHEMA v;
TYPE len = REAL; END_TYPE;
TYPE short = len; END_TYPE;
TYPE count = INTEGER; END_TYPE;
TYPE label = STRING; END_TYPE;
TYPE flag = BOOLEAN; END_TYPE;
TYPE colour = ENUMERATION OF (red, green); END_TYPE;
TYPE shade = ENUMERATION OF (red, grey); END_TYPE;
TYPE lengths = LIST [0:?] OF len; END_TYPE;
TYPE measure = SELECT (len, count); END_TYPE;
TYPE any = SELECT (measure, label, colour, shade, lengths, e, flag, measure); END_TYPE;
TYPE other = any; END_TYPE;
TYPE some_e = SELECT (e); END_TYPE;
ENTITY e; END_ENTITY;
ENTITY r; v : REAL; END_ENTITY;
ENTITY i; v : INTEGER; END_ENTITY;
ENTITY n; v : NUMBER; END_ENTITY;
ENTITY s; v : STRING; END_ENTITY;
ENTITY b; v : BINARY (1); END_ENTITY;
ENTITY o; v : BOOLEAN; END_ENTITY;
ENTITY l; v : LOGICAL; END_ENTITY;
ENTITY c; v : colour; END_ENTITY;
ENTITY m; v : measure; END_ENTITY;
ENTITY a; v : any; END_ENTITY;
ENTITY t; v : other; END_ENTITY;
ENTITY h; v : short; END_ENTITY;
ENTITY g; v : LIST [2:2] OF UNIQUE STRING (2) FIXED; END_ENTITY;
ENTITY y; v : ARRAY [1:2] OF OPTIONAL SET [1:?] OF e; END_ENTITY;
ENTITY x; v : some_e; END_ENTITY;
ENTITY f; v : e; END_ENTITY;
END_SCHEMA;
"""

# of an entity each value that it takes, and how that is exported, where it isn't the same
TAKEN = {
    "R": {
        "0.10": "1.E-1", "1.E-1": None, "0.": None, "2.": None, "12.5": "125.E-1", "1000.": "1.E3", "1.e3": "1.E3", "-0.": "0.",
        "0.E9999": "0.", "-0.00E-9": "0.", "+7.50": "75.E-1", "-1.5E+1": "-15.", "9" * 36 + ".": None, "1.E1000": None, "1.E-1000": None,
        "100.E-1002": "1.E-1000", "-12345678901234567.89": "-1234567890123456789.E-2", "5": "5.", "10": "1.E1", "0": "0.", "$": None,
        "-9223372036854775808": "-9223372036854775808.", "-1.E-1000": None, "0.0000000001": "1.E-10",
    },
    "I": {"5": None, "+5": "5", "-0": "0", "007": "7", "-9223372036854775808": None, "9223372036854775807": None, "$": None},
    "N": {"5": None, "5.": None, "10": None, "10.": "1.E1", "0.0": "0."},
    "S": {
        "'\\X2\\00E9\\X0\\ \\S\\i \\\\ '''": "'\\X2\\00E9\\X0\\ \\X2\\00E9\\X0\\ \\\\ '''", "''": None, "'a~ !'": None, "'a\nb\r'": "'ab'",
        "'é\U0001f600'": "'\\X4\\000000E90001F600\\X0\\'", "'\\X2\\D83DDE00\\X0\\'": "'\\X4\\0001F600\\X0\\'", "'\\X\\0A'": "'\\X2\\000A\\X0\\'",
        "'\t\x7f~'": "'\\X2\\0009007F\\X0\\~'", "'\\X2\\0041\\X0\\'": "'A'", "'\\S\\\\'": "'\\X2\\00DC\\X0\\'", "'\\S\\'''": "'\\X2\\00A7\\X0\\'",
        "'\\PA\\\\N\\\\F\\'": "''", "'\\X\\27\\X\\5c'": "'''\\\\'", "'\\X4\\0000FFFF\\X0\\'": "'\\X2\\FFFF\\X0\\'", "'\"'": None,
    },
    "B": {'"23B"': None, '"0"': None, '"0fF"': '"0FF"', '"3F1"': '"311"', '"1F"': '"17"', '"000"': None, '"3F"': '"31"'},
    "O": {".T.": None, ".f.": ".F."},
    "L": {".T.": None, ".F.": None, ".u.": ".U."},
    "C": {".RED.": None, ".green.": ".GREEN.", "colour(.Red.)": ".RED."},
    "M": {"1.": "LEN(1.)", "LEN(5)": "LEN(5.)", "COUNT(5)": None, "measure(count(5))": "COUNT(5)", "MEASURE(1.)": "LEN(1.)", "$": None},
    "A": {
        "'x'": "LABEL('x')", "LABEL('x')": None, ".GREEN.": "COLOUR(.GREEN.)", "SHADE(.RED.)": None, ".T.": "FLAG(.T.)", "LEN(1.)": None,
        "(1,2.5)": "LENGTHS((1.,25.E-1))", "()": "LENGTHS(())", "(LEN(1),$)": "LENGTHS((1.,$))", "#1": None, "ANY(#1)": "#1",
        "ANY(COUNT(1))": "COUNT(1)", "any('x')": "LABEL('x')", "COLOUR(.GREEN.)": None, "$": None, "ANY((1))": "LENGTHS((1.))",
    },
    "T": {"OTHER(LEN(1.))": "LEN(1.)", "LEN(1.)": None, "other(#1)": "#1", "1.": "LEN(1.)"},
    "H": {"1.": None, "SHORT(1.)": "1.", "SHORT(LEN(1))": "1.", "$": None},
    "G": {"('a','abc',$)": None, "()": None, "('a','a')": None, "$": None},
    "Y": {"((#1,$),())": None, "($)": None, "()": None, "((#1),(#1),(#1))": None},
    "X": {"#1": None, "SOME_E(#1)": "#1", "#2": None},
    "F": {"#1": None, "#2": None, "$": None},
}

# values that an entity's attribute doesn't take
NOT_TAKEN = {
    "R": ["'a'", ".T.", "#2", "(1.)", "()", "LEN(1.)", "REAL(1.)", '"0"'],
    "I": ["1.", "'1'", ".T.", "INTEGER(1)"],
    "N": ["'1'", '"0"', "(1)"],
    "S": ["1", ".T.", '"0"', "LABEL('a')", "('a')"],
    "B": ["1", "'0'", ".T."],
    "O": [".U.", ".X.", "1", "FLAG(.T.)"],
    "L": [".X.", "'T'"],
    "C": [".GREY.", "COLOUR(.GREY.)", "SHADE(.RED.)", "COLOUR(COLOUR(.RED.))", "COLOUR($)", "'RED'", ".T."],
    "M": ["5", ".T.", "MEASURE(5)", "MEASURE(MEASURE(LEN(1.)))", "LEN($)", "MEASURE($)", "LEN('a')", "COUNT(1.)", "SHORT(1.)", "LEN(LEN(1.))",
          "#2", "ANY(LEN(1.))"],
    "A": ["MEASURE(LEN(1.))", "5", ".RED.", "OTHER(LEN(1.))", "E(#2)", "((1.))", "R(1.)", "ANY(ANY(LEN(1.)))", "LEN(#2)", "(#2)", "LABEL(1)",
          "LENGTHS(1.)", "SHORT(1.)"],
    "T": ["ANY(LEN(1.))", "OTHER(OTHER(LEN(1.)))", "OTHER(ANY(LEN(1.)))"],
    "H": ["LEN(1.)", "LEN(SHORT(1.))", "SHORT(SHORT(1.))", "SHORT(LEN(LEN(1.)))", "SHORT($)", "SHORT(#2)"],
    "G": ["'a'", "(1)", "(('a'))", "#2", "(LABEL('a'))"],
    "Y": ["(#2)", "((#2),1)", "(((#2)))", "((1))"],
    "X": ["'a'", "()", "E(#2)", "SOME_E(SOME_E(#2))", "SOME_E($)"],
    "F": ["1", "(#2)", "E(#2)"],
}


def values(it):
    rows = []
    for keyword, taken in TAKEN.items():
        spelled = [f"#{place}={keyword}({value});" for place, value in enumerate(taken, 2)]
        told = [f"#{place}={keyword}({told or value});" for place, (value, told) in enumerate(taken.items(), 2)]
        rows.append((f"values of {keyword}", "".join([*spelled[::-1], "#1=E();"]), ["#1=E();", *told]))
    rows += [(f"{value} in {keyword}", f"#2=E();#1={keyword}({value});", instance_fault("WrongKind", 1))
             for keyword, wrong in NOT_TAKEN.items() for value in wrong]
    looks(it, "V", VALUES, rows)
    looks(it, "V", VALUES, [
        (f"{value} in a file", f"#1=B({value});", None) for value in ('⟦Token⟧"4F"', '⟦Token⟧"1"')
    ] + [
        ("no digit before a point", "#1=R(⟦Token⟧.5);", None),
        ("37 digits", f"#1=R(⟦Number⟧{'9' * 37}.);", None),
        ("an exponent out of range", "#1=R(⟦Number⟧10.E1000);", None),
        ("an escape that isn't whole", "#1=S(⟦Escape⟧'\\X2\\0E9\\X0\\');", None),
        ("a half of a pair", "#1=S(⟦Code⟧'\\X2\\D800\\X0\\');", None),
        ("another page", "#1=S(⟦Page⟧'\\PB\\a');", None),
    ])


# ---- faults of instances

FAULTS = """SCHEMA f;
ENTITY e ABSTRACT SUPERTYPE OF (ONEOF (a, b) ANDOR c); k : INTEGER; END_ENTITY;
ENTITY a SUBTYPE OF (e); END_ENTITY;
ENTITY b SUBTYPE OF (e); x : REAL; END_ENTITY;
ENTITY c SUBTYPE OF (e); r : OPTIONAL e; l : LIST [0:?] OF e;
DERIVE SELF\\e.k : INTEGER := 1; END_ENTITY;
ENTITY p; s : STRING; x : REAL; END_ENTITY;
END_SCHEMA;
"""

# of each kind the faults of #1, in one keyword and in several
FAULTY = {
    "Twice": ["#1=P('',1.);#1=P('',1.);", "#1=(A()E(1)A());", "#1=(a()A());", "#1=P('',1.);#1=Q();", "#1=(Q()Q());"],
    "UnknownEntity": ["#1=Q();", "#1=(A()E(1)Q());", "#1=F(1);", "#1=(Q()A(1));"],
    "IllegalCombination": ["#1=E(1);", "#1=(A()B(1.)E(1));", "#1=(E(1));", "#1=(A());", "#1=(A()E(1)P('',1.));", "#1=(C()A());", "#1=E();"],
    "WrongCount": ["#1=A();", "#1=A(1,2);", "#1=P('');", "#1=(A(1)E(1));", "#1=(E()A());", "#1=P(1);", "#1=(E('a')A(1));"],
    "NotDerived": ["#1=P(*,1.);", "#1=P('',*);", "#1=A(*);", "#1=(A()E(*));", "#1=C(*,*,());", "#1=C(*,$,(*));", "#1=C(*,$,((1,(*))));",
                   "#1=C((*),$,());", "#1=(C($,())E((*)));", "#1=C(*,$,(1,#9,*));", "#1=P(*,'a');", "#1=A(P(*));"],
    "WrongKind": ["#1=P(1,1.);", "#1=P('','');", "#1=A('x');", "#1=(A()E(1.));", "#1=C(1,$,());", "#1=(C($,())E(1));", "#1=C(#9,$,());",
                  "#1=C(*,$,(1,#9));", "#1=C(*,'a',(*));", "#1=(E('x')C(#9,()));", "#1=P(1,*);", "#1=P('',#9);", "#1=C(*,E(#1),());"],
    "Undefined": ["#1=C(*,#9,());", "#1=C($,$,(#9));", "#1=(C(#9,())E(*));", "#1=(C(#9,())E('x'));", "#1=C(*,#9,(*));", "#1=C(*,#9,1);",
                  "#1=C(*,#1,(#1,$,#9));"],
}

BOUND = [
    ("a derived attribute, in one keyword", "#1=C(*,#1,(#1,$));", ["#1=C(*,#1,(#1,$));"]),
    ("a derived attribute without a value", "#1=C($,$,());", ["#1=C(*,$,());"]),
    ("a derived attribute, in several keywords", "#1=(E(*)C($,()));", ["#1=C(*,$,());"]),
    ("several leaves", "#1=(C($,(#1))E($)B(2));", ["#1=(B(2.)C($,(#1))E(*));"]),
    ("one leaf in several keywords", "#1=(B(1.)E(5));", ["#1=B(5,1.);"]),
    ("one keyword in parentheses", "#1=(P('',1));", ["#1=P('',1.);"]),
    ("a reference to what has another type", "#2=C(*,#1,(#1));#1=P('',1.);", ["#1=P('',1.);", "#2=C(*,#1,(#1));"]),
    ("names in the order of numbers", "#10=A(1);#9=A(2);#100=A(3);#0=A(4);", ["#0=A(4);", "#9=A(2);", "#10=A(1);", "#100=A(3);"]),
    ("the first faulty instance", "#2=P('',1.);#1=P(1,1.);#3=Q();", instance_fault("WrongKind", 1)),
    ("a faulty instance defines its name", "#2=C(*,#3,());#3=Q();", instance_fault("UnknownEntity", 3)),
    ("the first fault of a file that has each", "#7=C(*,#9,());#7=Q();#1=Q();", instance_fault("Undefined", 7)),
]


def faults(it):
    rows = [(f"{kind}: {text}", text, instance_fault(kind, 1)) for kind, texts in FAULTY.items() for text in texts]
    looks(it, "F", FAULTS, BOUND + rows)
    text = file_of("#1=(C($,(#1))E($)B(2.));#2=(B(1.)E(5));#3=P('',1);", "F")
    replies = replies_in(it, "types", FAULTS, [create("ann", "m", "F"), put("ann", "ann", "m", text), names("ann", "ann", "m")])
    it.expect("types of several leaves and of one", replies[2], named((1, "B+C+E"), (2, "B"), (3, "P")))


# ---- schemas

DIAMOND = """SCHEMA D; ENTITY r; a : INTEGER; END_ENTITY;
ENTITY s SUBTYPE OF (r); b : INTEGER; END_ENTITY;
ENTITY t SUBTYPE OF (r); c : INTEGER; END_ENTITY;
ENTITY v SUBTYPE OF (s, t); d : INTEGER; END_ENTITY; END_SCHEMA;
"""
# an own attribute with the name of an inherited one, a redeclared one, and some that subtypes derive
NAMESAKES = """SCHEMA N; ENTITY e; a : INTEGER; b : NUMBER; END_ENTITY;
ENTITY f SUBTYPE OF (e); a : STRING; SELF\\e.b : REAL; END_ENTITY;
ENTITY g SUBTYPE OF (e); DERIVE SELF\\e.a : INTEGER := 1; END_ENTITY;
ENTITY h SUBTYPE OF (f); DERIVE SELF\\e.a : INTEGER := 2; SELF\\e.b : REAL := 1.0; END_ENTITY;
END_SCHEMA;
"""


def schemas(it):
    illegal = instance_fault("IllegalCombination", 1)
    looks(it, "T", T, [
        ("no instances", "", []),
        ("two instances", "#2=Q(#1);#1=P(0.10,'a');", ["#1=P(1.E-1,'a');", "#2=Q(#1);"]),
        ("unset attributes", "#1=P($,$);", ["#1=P($,$);"]),
        ("a star where nothing is derived", "#1=P(*,$);", instance_fault("NotDerived", 1)),
    ])
    looks(it, "D", DIAMOND, [
        ("supertypes by two ways", "#1=(V(4)R(1)T(3)S(2));#2=(T(3)S(2)R(1));", ["#1=V(1,2,3,4);", "#2=(R(1)S(2)T(3));"]),
        ("supertypes by two ways, in one keyword", "#1=V(1,2,3,4);", ["#1=V(1,2,3,4);"]),
        ("a value too few", "#1=V(1,2,3);", instance_fault("WrongCount", 1)),
        ("a value too many", "#1=V(1,2,3,4,5);", instance_fault("WrongCount", 1)),
        ("a supertype too few", "#1=(S(2)V(4));", illegal),
    ])
    looks(it, "E", E, [
        ("one of the choice", "#1=A();#2=(E()B());", ["#1=A();", "#2=B();"]),
        ("one of the choice, and what may be beside", "#1=(C()A()E());", ["#1=(A()C()E());"]),
        ("what may be beside alone", "#1=C();", ["#1=C();"]),
        ("two of the choice", "#1=(A()B()E());", illegal),
        ("an abstract type alone", "#1=E();", illegal),
        ("a subtype alone", "#1=(A());", illegal),
    ])
    looks(it, "N", NAMESAKES, [
        ("two attributes of one name", "#1=F(1,2,'a');", ["#1=F(1,2,'a');"]),
        ("two attributes of one name, in several keywords", "#1=(F('a')G()E(*,2.));", ["#1=(E(*,2.)F('a')G());"]),
        ("the first declaration of one that is redeclared", "#1=F(1,2.,'a');#2=F(1,'b','a');", instance_fault("WrongKind", 2)),
        ("attributes that are derived further down", "#1=H(*,*,'a');#2=(H()E(*,$)F($));", ["#1=H(*,*,'a');", "#2=H(*,*,$);"]),
        ("derived by one subtype alone", "#1=F(*,2,'a');", instance_fault("NotDerived", 1)),
    ])


# ---- attributes of several supertypes

# w lists the later of two supertypes first, redeclares an attribute, and has several of its own
REDECLARED = """SCHEMA D; ENTITY r; a : INTEGER; END_ENTITY;
ENTITY s SUBTYPE OF (r); b : INTEGER; END_ENTITY;
ENTITY t SUBTYPE OF (r); c : INTEGER; END_ENTITY;
ENTITY w SUBTYPE OF (t, s); d : REAL; SELF\\r.a : INTEGER; e, f : REAL; DERIVE g : REAL := d; END_ENTITY; END_SCHEMA;
"""
# d redeclares one attribute in DERIVE, and one among its explicit ones
DERIVED = """SCHEMA D; ENTITY r; a : INTEGER; END_ENTITY;
ENTITY s SUBTYPE OF (r); b : OPTIONAL INTEGER; END_ENTITY;
ENTITY t SUBTYPE OF (r); c : INTEGER; END_ENTITY;
ENTITY d SUBTYPE OF (s, t); SELF\\s.b : INTEGER; e : REAL; DERIVE SELF\\r.a : INTEGER := 1; END_ENTITY; END_SCHEMA;
"""


def attributes(it):
    looks(it, "D", REDECLARED, [
        ("supertypes in the order in which they are listed", "#1=W(1,2,3,4.,5.,6.);", ["#1=W(1,2,3,4.,5.,6.);"]),
        ("the same in several keywords", "#1=(S(3)W(4.,5.,6.)R(1)T(2));", ["#1=W(1,2,3,4.,5.,6.);"]),
        ("no value for what is redeclared or derived", "#1=W(1,2,3,4.,5.,6.,7);", instance_fault("WrongCount", 1)),
    ])
    looks(it, "D", DERIVED, [
        ("a star where a subtype derives", "#1=D(*,2,3,4.);", ["#1=D(*,2,3,4.);"]),
        ("the same in several keywords", "#1=(D(4.)T(3)S($)R(*));", ["#1=D(*,$,3,4.);"]),
        ("a value where a subtype derives", "#1=D(1,2,3,4.);", instance_fault("WrongKind", 1)),
        ("a star for what is redeclared otherwise", "#1=D(*,*,3,4.);", instance_fault("NotDerived", 1)),
    ])


# ---- sets of entities

def entities(declaration, *subtypes):
    """A schema of an entity and its subtypes, by their names."""
    below = " ".join(f"ENTITY {name} SUBTYPE OF (e); END_ENTITY;" for name in subtypes)
    return f"SCHEMA s; ENTITY e {declaration}; END_ENTITY; {below} END_SCHEMA;"


# a schema, sets that an instance may have, with the line that is told, and sets that none may
SETS = [
    (entities("ABSTRACT SUPERTYPE OF (ONEOF(a, b) ANDOR c)", "a", "b", "c"),
     {"E A": "A()", "E A C": "(A()C()E())", "E C": "C()"}, ["E A B", "B C A E", "E", "A", "A C"]),
    # what the expression doesn't name combines freely
    (entities("SUPERTYPE OF (a AND b)", "a", "b", "c"),
     {"E": "E()", "E A B": "(A()B()E())", "E C": "C()", "E A B C": "(A()B()C()E())"}, ["E A", "E B C"]),
    (entities("SUPERTYPE OF (ONEOF(a AND b, c))", "a", "b", "c"),
     {"E A B": "(A()B()E())", "E C": "C()"}, ["E A", "E A C", "E A B C"]),
    (entities("SUPERTYPE OF (ONEOF(a, b) AND ONEOF(c, d))", "a", "b", "c", "d"),
     {"E": "E()", "E A C": "(A()C()E())", "E B D": "(B()D()E())"}, ["E A", "E A B C", "E A C D"]),
    # AND binds more than ANDOR
    (entities("SUPERTYPE OF (a AND b ANDOR c)", "a", "b", "c"),
     {"E C": "C()", "E A B": "(A()B()E())", "E A B C": "(A()B()C()E())"}, ["E A", "E A C"]),
    (entities("SUPERTYPE OF ((a ANDOR b) AND c)", "a", "b", "c"),
     {"E A C": "(A()C()E())", "E B C": "(B()C()E())", "E A B C": "(A()B()C()E())"}, ["E C", "E A B"]),
    (entities("SUPERTYPE OF (ONEOF(a ANDOR b, c))", "a", "b", "c"),
     {"E A": "A()", "E A B": "(A()B()E())", "E C": "C()"}, ["E A C", "E A B C"]),
    # an instance has all supertypes of each of its entities, and falls into no two parts
    ("SCHEMA s; ENTITY r; END_ENTITY; ENTITY t; END_ENTITY; ENTITY v SUBTYPE OF (r, t); END_ENTITY; ENTITY w SUBTYPE OF (r); END_ENTITY; END_SCHEMA;",
     {"R": "R()", "R T V": "V()", "R T V W": "(R()T()V()W())"}, ["R T", "R T W", "R V", "T V"]),
    ("SCHEMA s; ENTITY z SUPERTYPE OF (ONEOF(b, a)); END_ENTITY; ENTITY b ABSTRACT SUPERTYPE SUBTYPE OF (z); END_ENTITY; "
     "ENTITY a SUPERTYPE OF (c AND d) SUBTYPE OF (z); END_ENTITY; ENTITY c SUBTYPE OF (a); END_ENTITY; ENTITY d SUBTYPE OF (a); END_ENTITY; END_SCHEMA;",
     {"Z A C D": "(A()C()D()Z())"}, ["Z B", "Z A C", "Z B A", "Z B A C"]),
]


def sets(it):
    illegal = instance_fault("IllegalCombination", 1)
    for text, legal, none in SETS:
        rows = [(names, told) for names, told in [*((key, [f"#1={line};"]) for key, line in legal.items()), *((key, illegal) for key in none)]]
        looks(it, "S", text, [(names, "#1=({});".format("".join(f"{name}()" for name in names.split())), told) for names, told in rows])


# ---- headers

HEADERS = [
    ("('a'),'2;1'", "'n','t',('x','y'),(),'','',''", None, None),
    ("$,$", "$,$,$,$,$,$,$", None, None),
    ("( ( ( 'it''s' ) , () ) ),\n'\\X\\E9'", "'é',(($)),'a\nb','',('',$),$,'\\\\'", "((('it''s'),())),'\\X2\\00E9\\X0\\'",
     "'\\X2\\00E9\\X0\\',(($)),'ab','',('',$),$,'\\\\'"),
]


def headers(it):
    lines, wanted = [create("ann", "m", "T")], [OK]
    for description, name, description_told, name_told in HEADERS:
        file = (f"ISO-10303-21;HEADER;FILE_DESCRIPTION({description});FILE_NAME({name});FILE_SCHEMA(('t {{1 0 10303}}'));"
                "FILE_POPULATION('x',$);ENDSEC;DATA('s',('T'));#1=P(1.,$);ENDSEC;END-ISO-10303-21;")
        told = (f"ISO-10303-21;\nHEADER;\nFILE_DESCRIPTION({description_told or description});\nFILE_NAME({name_told or name});\n"
                "FILE_SCHEMA(('T'));\nENDSEC;\nDATA;\n#1=P(1.,$);\nENDSEC;\nEND-ISO-10303-21;\n")
        lines += [put("ann", "ann", "m", file), export("ann", "ann", "m"), put("ann", "ann", "m", told), export("ann", "ann", "m")]
        wanted += [instances(1), exported(told)] * 2
    it.expect("headers", replies_in(it, "files with headers", T, lines), wanted)


# ---- files as modellers export them

# of the instances in several keywords those with one leaf, and its types in the order of its attributes
ONE_LEAF = {"MEASURE_REPRESENTATION_ITEM": ["REPRESENTATION_ITEM", "MEASURE_WITH_UNIT", "MEASURE_REPRESENTATION_ITEM"]}


def respelled(instance):
    """The line of an instance whose values are written as what they are: no schema has to be asked."""
    parts = {keyword.upper(): its for keyword, its in instance.parts}
    for leaf in ONE_LEAF.keys() & parts.keys():
        return f"#{instance.name}={leaf}{spelled_list([value for it in ONE_LEAF[leaf] for value in parts[it]])};"
    text = "".join(keyword + spelled_list(its) for keyword, its in sorted(parts.items()))
    return f"#{instance.name}={text if instance.is_whole else f'({text})'};"


def canonical_of(text):
    _, header, found = read(text)
    lines = [respelled(it) for it in sorted(found, key=lambda it: it.name)]
    return (f"ISO-10303-21;\nHEADER;\nFILE_DESCRIPTION{spelled_list(header.description)};\nFILE_NAME{spelled_list(header.name)};\n"
            "FILE_SCHEMA(('AUTOMOTIVE_DESIGN'));\nENDSEC;\nDATA;\n" + "".join(it + "\n" for it in lines) + "ENDSEC;\nEND-ISO-10303-21;\n")


def of_data(name):
    with open(os.path.join(TOP, "tests/data", name), encoding="utf-8") as it:
        return it.read()


def exports(it):
    lines, wanted = [create("ann", "m", "automotive_design")], [OK]
    for text in (of_data("frame.step"), part21(3000)):
        told = canonical_of(text)
        lines += [put("ann", "ann", "m", text), export("ann", "ann", "m"), put("ann", "ann", "m", told), export("ann", "ann", "m")]
        wanted += [instances(told.count("\n#")), exported(told)] * 2
    replies = replies_in(it, "files of modellers", of_data("automotive_design.exp"), lines)
    for place, (seen, told) in enumerate(zip(replies, wanted)):
        it.expect(f"reply {place} to files of modellers", seen, told)


if __name__ == "__main__":
    run_parts("bound files", (values, faults, schemas, attributes, sets, headers, exports), sys.argv[1:])
