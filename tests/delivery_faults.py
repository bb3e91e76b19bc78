#!/usr/bin/env python3
"""Has the program validate files that are refused, and compares what it tells of the fault, byte for byte: where it lies, the line
of the text with a caret below the value, and what stands there in place of what.

    tests/delivery_faults.py [PROGRAM]

Each function `test_*` is one test; its document string says what has to hold. The last line is
'delivery_faults: N passed, M failed', and the status is 0 only if none failed.
"""
import sys

from lib.harness import Folder, Wrong, run_tests
from lib.messages import file_of

PARTS = """SCHEMA parts;
TYPE distance = REAL; END_TYPE;
TYPE width = distance; END_TYPE;
TYPE mass = REAL; END_TYPE;
TYPE measure = SELECT (width, mass, part); END_TYPE;
TYPE colour = ENUMERATION OF (red, green, blue); END_TYPE;
ENTITY part; id : STRING (8) FIXED; size : width; paint : OPTIONAL colour; END_ENTITY;
ENTITY bolt SUBTYPE OF (part); DERIVE SELF\\part.size : width := 2.0; END_ENTITY;
ENTITY kit; parts : SET [1:?] OF part; grid : LIST [1:2] OF UNIQUE LIST [2:2] OF INTEGER; END_ENTITY;
ENTITY note; what : measure; row : OPTIONAL ARRAY [0:2] OF OPTIONAL LOGICAL; END_ENTITY;
ENTITY empty; END_ENTITY;
ENTITY shape ABSTRACT SUPERTYPE OF (ONEOF (box, ball AND round) ANDOR marked); k : INTEGER; END_ENTITY;
ENTITY box SUBTYPE OF (shape); END_ENTITY;
ENTITY ball SUBTYPE OF (shape); END_ENTITY;
ENTITY round SUBTYPE OF (shape); END_ENTITY;
ENTITY marked SUBTYPE OF (shape); END_ENTITY;
END_SCHEMA;
"""
INSTANCE = "code 12 InstanceFault, kind {kind}, instance #{name}, line {line} column {column}"
FILE = "code 11 FileFault, kind {kind}, line {line} column {column}"


def told(file, words, lines, schema=PARTS):
    """What is written of a refused file: these words, and below them these lines, of which none is wider than 80 columns."""
    with Folder() as folder:
        folder.write("s.exp", schema)
        folder.write("m.step", file)
        seen = folder.run("validate", "--schema", "s.exp", "m.step")
    out = f"m.step: {words}\n{lines}\nNot taken: m.step is refused, so nothing is validated.\n"
    wanted = (2, out.encode(), f'rp_server: "m.step" is refused: {words}\n'.encode())
    if seen != wanted:
        raise Wrong(f"{seen[0]}\n{seen[1].decode(errors='replace')}{seen[2].decode(errors='replace')}in place of\n{out}{wanted[2].decode()}")
    if any(len(it) > 80 for it in lines.split("\n")):
        raise Wrong("a line is too wide")


def of_instance(kind, name, line, column, lines, *instances):
    """The instances stand in a line each, of which the first is line 2 of the file."""
    file = file_of("\n" + "\n".join(instances) + "\n", "PARTS")
    told(file, INSTANCE.format(kind=kind, name=name, line=line, column=column), lines)


def of_file(kind, line, column, lines, data):
    """The fault of a file whose data section has this text from line 2 on."""
    told(file_of("\n" + data, "PARTS"), FILE.format(kind=kind, line=line, column=column), lines)


# ---- a value that the attribute doesn't take

def test_wrong_kind():
    """The caret stands below the value; the attribute is told with its type, and what the type is behind its name."""
    of_instance("WrongKind", 2, 3, 15, """\
  #2=PART('A-2','wide',.RED.);
                ^
  attribute 2, size: WIDTH
  WIDTH is DISTANCE
  DISTANCE is REAL
""", "#1=PART('A-1',1.,$);", "#2=PART('A-2','wide',.RED.);")
    of_instance("WrongKind", 1, 2, 9, """\
  #1=PART(7,1.,$);
          ^
  attribute 1, id: STRING
""", "#1=PART(7,1.,$);")


def test_wrong_kind_optional():
    """What is OPTIONAL takes a $ too."""
    of_instance("WrongKind", 1, 2, 18, """\
  #1=PART('A-1',1.,.PINK.);
                   ^
  attribute 3, paint: COLOUR or $
  COLOUR is ENUMERATION OF (RED, GREEN, BLUE)
""", "#1=PART('A-1',1.,.PINK.);")


def test_wrong_kind_of_an_element():
    """The caret stands below the first element that its type doesn't take, however deep it lies."""
    of_instance("WrongKind", 1, 2, 21, """\
  #1=KIT((),((1,2),(3,4.)));
                      ^
  attribute 2, grid[2][2]: INTEGER
""", "#1=KIT((),((1,2),(3,4.)));")
    of_instance("WrongKind", 1, 2, 12, """\
  #1=KIT((),(1,2));
             ^
  attribute 2, grid[1]: LIST OF INTEGER
""", "#1=KIT((),(1,2));")
    of_instance("WrongKind", 1, 2, 8, """\
  #1=KIT(#1,());
         ^
  attribute 1, parts: SET OF PART
""", "#1=KIT(#1,());")
    of_instance("WrongKind", 1, 2, 27, """\
  #1=NOTE($,($,.F., /* ( */ 0));
                            ^
  attribute 2, row[2]: LOGICAL
""", "#1=NOTE($,($,.F., /* ( */ 0));")


def test_wrong_kind_of_a_select():
    """Its types are told, and that a keyword may be wanted."""
    of_instance("WrongKind", 1, 2, 9, """\
  #1=NOTE(5.,$);
          ^
  attribute 1, what: MEASURE
  MEASURE is SELECT (WIDTH, MASS, PART)
  what several of these take stands under the keyword of one
""", "#1=NOTE(5.,$);")
    of_instance("WrongKind", 1, 2, 9, """\
  #1=NOTE(DISTANCE(5.),$);
          ^
  attribute 1, what: MEASURE
  MEASURE is SELECT (WIDTH, MASS, PART)
  what several of these take stands under the keyword of one
""", "#1=NOTE(DISTANCE(5.),$);")


def test_wrong_kind_derived():
    """What an entity of the instance derives is a * in the file."""
    of_instance("WrongKind", 1, 2, 15, """\
  #1=BOLT('A-1',2.,$);
                ^
  attribute 2, size: * (it is derived)
""", "#1=BOLT('A-1',2.,$);")


def test_wrong_kind_external():
    """The attribute is one of the part's own."""
    of_instance("WrongKind", 1, 2, 16, """\
  #1=(BOX()SHAPE('one'));
                 ^
  attribute 1, k: INTEGER
""", "#1=(BOX()SHAPE('one'));")


def test_not_derived():
    """The caret stands below the *, however deep."""
    of_instance("NotDerived", 1, 2, 9, """\
  #1=PART(*,2.,$);
          ^
  attribute 1, id: STRING
  * stands for what is derived, and this isn't
""", "#1=PART(*,2.,$);")
    of_instance("NotDerived", 2, 3, 16, """\
  #2=BOLT('A-1',(*),$);
                 ^
  attribute 2, size: * (it is derived)
  * stands for what is derived, and by itself
""", "#1=BOLT('A-1',*,$);", "#2=BOLT('A-1',(*),$);")


# ---- a reference to nothing

def test_undefined():
    """The caret stands below the first reference to a name that the file doesn't define, and the name is told."""
    of_instance("Undefined", 2, 3, 12, """\
  #2=KIT((#1,#009,#8),());
             ^
  attribute 1, parts: SET OF PART
  #9 is no instance of this file
""", "#1=PART('A-1',1.,$);", "#2=KIT((#1,#009,#8),());")
    of_instance("Undefined", 2, 3, 9, """\
  #2=NOTE(#3,$);
          ^
  attribute 1, what: MEASURE
  #3 is no instance of this file
""", "/* #3=PART('A-1',1.,$); */ #1=PART('#3=PART(',1.,$);", "#2=NOTE(#3,$);")


# ---- counts

def test_wrong_count():
    """The caret stands below the first value too many, or where the next one is missing."""
    of_instance("WrongCount", 1, 2, 21, """\
  #1=PART('A-1',2.,$, 'x',7);
                      ^
  5 values for the 3 attributes of PART: id, size, paint
""", "#1=PART('A-1',2.,$, 'x',7);")
    of_instance("WrongCount", 1, 2, 14, """\
  #1=PART('A-1');
               ^
  1 value for the 3 attributes of PART: id, size, paint
""", "#1=PART('A-1');")
    of_instance("WrongCount", 1, 2, 10, """\
  #1=EMPTY($);
           ^
  1 value for the 0 attributes of EMPTY
""", "#1=EMPTY($);")
    of_instance("WrongCount", 1, 2, 16, """\
  #1=(BOX()SHAPE());
                 ^
  0 values for the 1 attribute of SHAPE: k
""", "#1=(BOX()SHAPE());")


# ---- entities

def test_unknown_entity():
    """The keyword is told that is none of the schema's."""
    of_instance("UnknownEntity", 7, 2, 4, """\
  #7=Prat('A-1');
     ^
  PRAT is no entity of PARTS
""", "#7=Prat('A-1');")
    of_instance("UnknownEntity", 7, 2, 10, """\
  #7=(BOX()SHAPES(1)SHAPE(1));
           ^
  SHAPES is no entity of PARTS
""", "#7=(BOX()SHAPES(1)SHAPE(1));")


def test_abstract():
    of_instance("IllegalCombination", 1, 2, 4, """\
  #1=SHAPE(1);
     ^
  SHAPE is ABSTRACT, so that one of these is wanted: BOX, BALL, ROUND, MARKED
""", "#1=SHAPE(1);")


def test_violated_expression():
    """The supertype expression is told that forbids the instance, and which of its entities are there."""
    of_instance("IllegalCombination", 1, 2, 16, """\
  #1=(BALL()BOX()SHAPE(1));
                 ^
  SHAPE is SUPERTYPE OF (ONEOF (BOX, BALL AND ROUND) ANDOR MARKED)
  of its subtypes these are here: BOX, BALL
""", "#1=(BALL()BOX()SHAPE(1));")
    of_instance("IllegalCombination", 1, 2, 4, """\
  #1=BALL(1);
     ^
  SHAPE is SUPERTYPE OF (ONEOF (BOX, BALL AND ROUND) ANDOR MARKED)
  of its subtypes these are here: BALL
""", "#1=BALL(1);")


def test_missing_supertype():
    of_instance("IllegalCombination", 1, 2, 5, """\
  #1=(BOX());
      ^
  BOX is SUBTYPE OF SHAPE, which isn't here
""", "#1=(BOX());")


def test_apart():
    of_instance("IllegalCombination", 1, 2, 5, """\
  #1=(PART('A-1',1.,$)NOTE($,$));
      ^
  no SUBTYPE OF joins these: PART, NOTE
""", "#1=(PART('A-1',1.,$)NOTE($,$));")


# ---- twice

def test_twice():
    """The caret stands below the second name, or below the second keyword."""
    of_instance("Twice", 1, 4, 1, """\
  #01=PART('A-2',1.,$);
  ^
  #1 is in line 2 already
""", "#1=PART('A-1',1.,$);", "#2=PART('#1=',1.,$);", "#01=PART('A-2',1.,$);", "#1=EMPTY();")
    of_instance("Twice", 1, 2, 18, """\
  #1=(SHAPE(1)BOX()shape(2));
                   ^
  SHAPE is in this instance already
""", "#1=(SHAPE(1)BOX()shape(2));", "#1=EMPTY();")


# ---- lines

def test_long_lines():
    """Of a line of over 78 columns these are shown around the caret, and two points where it goes on."""
    of_instance("WrongKind", 1, 2, 129, """\
  ..,#1,#1,#1,#1,#1,#1,#1,#1,#1,#1,#1,#1,'this one',#1,#1,#1,#1,#1,#1,#1,#1,#1..
                                         ^
  attribute 1, parts[41]: PART
""", "#1=KIT((" + "#1," * 40 + "'this one'" + ",#1" * 40 + "),());")
    of_instance("WrongKind", 1, 2, 9, """\
  #1=NOTE('one of a line that goes on and on, and is wider than a terminal is,..
          ^
  attribute 1, what: MEASURE
  MEASURE is SELECT (WIDTH, MASS, PART)
  what several of these take stands under the keyword of one
""", "#1=NOTE('one of a line that goes on and on, and is wider than a terminal is, by far',$);")
    of_instance("WrongCount", 1, 2, 90, """\
  ..of a line that goes on and on, and is wider than a terminal is, by far',1.);
                                                                              ^
  2 values for the 3 attributes of PART: id, size, paint
""", "#1=PART('an id of a line that goes on and on, and is wider than a terminal is, by far',1.);")


def test_signs():
    """A character is one column, whatever its bytes; a tab is a blank, and what moves a terminal is a question mark."""
    of_instance("WrongKind", 1, 2, 21, """\
   #1=PART('é\U0001f600??','wide',$);
                  ^
  attribute 2, size: WIDTH
  WIDTH is DISTANCE
  DISTANCE is REAL
""", "\t#1=PART('é\U0001f600\x1b\x7f','wide',$);\r")


def test_lines_of_an_instance():
    """Of an instance of several lines the one is shown that has the caret."""
    of_instance("WrongKind", 1, 4, 3, """\
    'wide', /* 'wide' */
    ^
  attribute 2, size: WIDTH
  WIDTH is DISTANCE
  DISTANCE is REAL
""", "#1 /* a", "remark */ = PART('A-1 (1,2)',", "  'wide', /* 'wide' */", "$);")


def test_long_words():
    """A sentence is wrapped at 80 columns, and of a long one what comes first is told."""
    items = [f"ITEM_{k:03}" for k in range(200)]
    schema = f"SCHEMA parts; TYPE t = ENUMERATION OF ({', '.join(items)}); END_TYPE; ENTITY e; a : t; END_ENTITY; END_SCHEMA;"
    rows = ["T is ENUMERATION OF (" + ", ".join(items[:5]) + ","] + ["  " + ", ".join(items[k:k + 7]) + "," for k in range(5, 89, 7)]
    words = ["attribute 1, a: T", *rows, "  " + ", ".join(items[89:92]) + ",", "  .."]
    told(file_of("\n#1=E(7);\n", "PARTS"), INSTANCE.format(kind="WrongKind", name=1, line=2, column=6),
         "  #1=E(7);\n       ^\n" + "".join(f"  {it}\n" for it in words), schema)


# ---- a file that isn't read

def test_faults_of_a_file():
    """The caret stands below the byte of the refusal, and a sentence says what is wrong there."""
    for kind, column, lines, data in (
            ("Token", 6, """\
  #1=P(.5);
       ^
  no token begins here
""", "#1=P(.5);"),
            ("Open", 6, """\
  #1=P('ab);ENDSEC;END-ISO-10303-21;
       ^
  this string, binary or comment has no end
""", "#1=P('ab);"),
            ("Escape", 6, r"""  #1=P('C:\parts');
       ^
  in this string a \ begins no escape: one that means itself is doubled
""", r"#1=P('C:\parts');"),
            ("Page", 6, r"""  #1=P('\PB\a');
       ^
  this string selects another page of ISO 8859 than the first
""", r"#1=P('\PB\a');"),
            ("Code", 6, r"""  #1=P('\X2\D800\X0\');
       ^
  in this string an escape's number is no character
""", r"#1=P('\X2\D800\X0\');"),
            ("Number", 6, """\
  #1=P(1.E1001);
       ^
  this number is out of its range
""", "#1=P(1.E1001);"),
            ("Syntax", 8, """\
  #1=P(1.;
         ^
  this can't stand here
""", "#1=P(1.;"),
            ("Sections", 17, """\
  #1=P(1.);ENDSEC;DATA;
                  ^
  a second data section begins here
""", "#1=P(1.);ENDSEC;DATA;"),
            ("Deep", 22, """\
  #1=P((((((((((((((((((1.);
                       ^
  this is nested deeper than 16 lists
""", "#1=P((((((((((((((((((1.);")):
        of_file(kind, 2, column, lines, data + ("" if kind == "Open" else "\n"))


def test_the_end_of_a_file():
    """A file that ends too early has its caret behind the last byte."""
    told("ISO-10303-21;\nHEADER;", FILE.format(kind="Syntax", line=2, column=8), """\
  HEADER;
         ^
  the file ends here
""")
    told("", FILE.format(kind="Syntax", line=1, column=1), """\

  ^
  the file ends here
""")


if __name__ == "__main__":
    run_tests("delivery_faults", globals(), sys.argv[1:])
