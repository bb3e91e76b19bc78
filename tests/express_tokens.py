#!/usr/bin/env python3
"""Runs `rp_server check` of the built program on EXPRESS texts and compares, byte for byte, what it tells of their tokens
and numbers, and of the places of what a schema declares.

    tests/express_tokens.py [PROGRAM]

A mark as ⟦Syntax⟧ stands right before the first byte of a fault; what has no mark is accepted. The grammar has rows of its
own in tests/express_grammar.py, names in tests/express_names.py, kinds in tests/express_kinds.py. The last line is
'express tokens: N passed, M failed', and the status is 0 only if none failed.
"""
import os
import sys

from lib.harness import TOP, run_parts
from lib.messages import T

# ---- tokens alone: a fault of a token is told before any of syntax

FAULTS = [
    (b"a _b", "Token", 2),
    (b"\x7f", "Token", 0),
    (b" %2", "Token", 1),
    (b"'\xff'", "Token", 0),
    (b"a'b\n'", "OpenString", 1),
    (b"'''", "OpenString", 0),
    (b'"0000', "OpenString", 0),
    (b'"00000041\n"', "OpenString", 0),
    (b"(* (* *)", "OpenRemark", 0),
    (b" (*)", "OpenRemark", 1),
    (b'""', "BadEncoded", 0),
    (b'"0000004"', "BadEncoded", 0),
    (b'"0000004g"', "BadEncoded", 0),
    (b'"0000D800"', "BadEncoded", 0),
    (b'"0000DFFF"', "BadEncoded", 0),
    (b'"00110000"', "BadEncoded", 0),
    (b'"000000E"', "BadEncoded", 0),
    (b'"000000410000000"', "BadEncoded", 0),
    (b"+9223372036854775808", "TooBig", 1),
    (b"1.E1001", "TooBig", 0),
    (b"-- \r _\n _", "Token", 8),
    # no fault of a token: the first that is there can't begin a schema
    (b"0009223372036854775807", "Syntax", 0),
    (b'"000000E9"', "Syntax", 0),
    (b'"0010ffff"', "Syntax", 0),
    # nothing but blanks and remarks: the end comes where a schema is due
    (b"", "Syntax", 0),
    (b"\0\n ", "Syntax", 3),
    (b"-- tail", "Syntax", 7),
    (b"(* a (* nested *) remark *)", "Syntax", 27),
]


def faults_of_tokens(it):
    for text, kind, at in FAULTS:
        it.refuses(f"{text!r}", text, kind, at)


# ---- tokens where they are due

WHOLE = "SCHEMA A;{} END_SCHEMA;"
# an expression over i : INTEGER, r : REAL, s : STRING, l : LIST OF REAL, x : GENERIC
EXPRESSION = ("SCHEMA A; FUNCTION f (i : INTEGER; r : REAL; s : STRING; l : LIST OF REAL; x : GENERIC) : GENERIC; "
              "RETURN ({}); END_FUNCTION; END_SCHEMA;")
RULE = "SCHEMA A; ENTITY e; x : INTEGER; WHERE {} END_ENTITY; END_SCHEMA;"

TOKENS = [
    ("the longest symbol first", EXPRESSION, "l⟦Syntax⟧<*1.E2--x\n"),
    ("a real behind a symbol", EXPRESSION, "SIZEOF(QUERY(v<*l|v<1.E2--x\n))"),
    ("a real, and a word in place of an operator", EXPRESSION, "1.E2--x\n⟦Syntax⟧x"),
    ("a text that ends with a remark", "SCHEMA A;--x{}", "⟦Syntax⟧"),
    ("apostrophes, a carriage return and a symbol in strings", EXPRESSION, "[':=''', '\r', '''']"),
    ("E without digits is a word", EXPRESSION, "r < 1.⟦Syntax⟧E+ 007"),
    ("zeros in front of an integer", EXPRESSION, "i + 007"),
    ("a point before digits begins no real", EXPRESSION, "r < ⟦Syntax⟧.5"),
    ("a point and an integer", EXPRESSION, "x.⟦Syntax⟧5"),
    ("bits", EXPRESSION, "BLENGTH(%01)"),
    ("bits end before another digit", EXPRESSION, "%01⟦Syntax⟧2"),
    ("an encoded string in both cases of letters", EXPRESSION, 's = "0000004100010FFf"'),
    ("an encoded string of any characters", EXPRESSION, 's = "000000E90010ffff"'),
    ("a colon, and a symbol of two signs", RULE, "w:⟦Syntax⟧<>x;"),
    ("a colon, and a word", RULE, "w:x<>2;"),
    ("other instances", EXPRESSION, "x:<>:x"),
    ("the same instances", EXPRESSION, "x:=:x"),
    ("two symbols of three signs", EXPRESSION, "x:<>:⟦Syntax⟧:=:=x"),
    ("a symbol of three signs, and one of one", EXPRESSION, "x:=:⟦Syntax⟧=x"),
    ("two signs with a blank between", EXPRESSION, "i - - 1"),
    ("two signs without one begin a remark", EXPRESSION, "i -- - 1\n"),
    ("a star and a parenthesis close no remark", EXPRESSION, "(i *⟦Syntax⟧)(*(*-- '*)*)"),
    ("remarks within each other hold signs and apostrophes", EXPRESSION, "i(*(*-- '*)*)- 1"),
    ("the sign of a remark that is within one is of no other", EXPRESSION, "i(*(*)*)*)- 1"),
    ("control characters are blanks", WHOLE, "\0\x1f\x01\t\r"),
]

# words of the grammar and functions of the language
RESERVED = """abstract and andor array bag begin binary boolean by case constant derive div else end end_case end_constant
end_entity end_function end_if end_local end_repeat end_rule end_schema end_type entity enumeration escape false fixed for
function if in integer inverse list local logical mod not number of oneof optional or otherwise query real repeat return
rule schema select self set skip string subtype supertype then to true type unique unknown until where while xor
abs blength exists hiindex length loindex nvl odd sizeof typeof usedin value_in""".split()
# words that stand in no name's place, and that are told as left out there
LEFT_OUT = """aggregate generic acos alias asin atan const_e cos exp format hibound insert like lobound log log10 log2 pi
procedure reference remove rolesof sin sqrt tan use value value_unique""".split()
NO_WORDS = "as from var context model end_alias subtype_constraint total_over END_ selfs e".split()


def tokens_in_place(it):
    it.looks([(name, "A", context.replace("{}", piece)) for name, context, piece in TOKENS])
    words = [(word, mark) for mark, words in (("Syntax", RESERVED), ("OutOfProfile", LEFT_OUT)) for word in words]
    it.expect("reserved words", len(words), 110)
    for word, mark in words:
        it.looks([(f"no name: {it_is}", "A", f"SCHEMA A; ENTITY ⟦{mark}⟧{it_is}; END_ENTITY; END_SCHEMA;")
                  for it_is in (word, word.upper(), word.capitalize())])
    name = "SCHEMA A; ENTITY {0}; {0} : INTEGER; END_ENTITY; END_SCHEMA;"
    it.looks([(f"a name: {word}", "A", name.format(word)) for word in NO_WORDS])
    it.accepts("names", f"SCHEMA A; ENTITY it; {', '.join(NO_WORDS)} : INTEGER; END_ENTITY; END_SCHEMA;")


def words_in_lower_case(it):
    """Each word of the profile where it is due: a schema has them all, and its literals name no SELECT in lower case."""
    with open(os.path.join(TOP, "tests/data/long.exp"), encoding="utf-8") as file:
        it.accepts("long.exp in lower case", file.read().lower(), b"PLANT_MODEL")


# ---- numbers

NINES = "9" * 36

REALS = [
    "0.10", "1.E-1", "10.", "+00120.300e+0007", "-12.5", "0.E9999", "-0.E99999999999999999999", "0.001E1001", "1000.E-1003",
    "1.E1000", "1.E-1000", NINES + ".", "-" + NINES + ".", "000" + NINES + "000.000", "5. ", "5.E1", "0." + "0" * 35 + "1",
    # a real ends where no more of it can come
    "5.⟦Syntax⟧E", "5.⟦Syntax⟧E+", "5.5⟦Syntax⟧.", "5.E1⟦Syntax⟧x", "5.⟦Syntax⟧F1", "⟦Syntax⟧.5", "+⟦Syntax⟧.5",
    "-⟦Syntax⟧,5.", "1.⟦Token⟧_",
    # digits are counted before the exponent is looked at
    "⟦TooBig⟧" + "9" * 37 + ".", "⟦TooBig⟧9." + NINES + "E9999", "-⟦TooBig⟧" + "9" * 37 + ".",
    "⟦TooBig⟧10.E1000", "⟦TooBig⟧0.1E-1000", "⟦TooBig⟧1.E99999999999999999999", "⟦TooBig⟧1.E-99999999999999999999",
]
INTEGERS = ["0", "5", "000000000000000000000000000000012", "9223372036854775807", "⟦TooBig⟧9223372036854775808",
            "⟦TooBig⟧" + "9" * 40, "1⟦Syntax⟧a"]
WIDTHS = ["0", "000000000000000000000000000000012", "9223372036854775807", "⟦TooBig⟧9223372036854775808", "⟦Syntax⟧-1", "⟦Syntax⟧1.",
          "⟦Syntax⟧", "⟦Syntax⟧a"]


def numbers(it):
    it.looks([(f"a real: {real}", "A", EXPRESSION.format(f"r < {real}")) for real in REALS])
    it.looks([(f"an integer: {integer}", "A", EXPRESSION.format(f"i + {integer}")) for integer in INTEGERS])
    width = "SCHEMA A; TYPE t = STRING ({}); END_TYPE; END_SCHEMA;"
    it.looks([(f"a width: {integer}", "A", width.format(integer)) for integer in WIDTHS])


# ---- trees

# a piece of the schema, and what stands in its place
CHANGED = [
    ("SCHEMA T", "SCHEMA ⟦Syntax⟧;"),
    ("n : OPTIONAL", "⟦DeclaredTwice⟧x : OPTIONAL"),
    ("w1 :", "⟦DeclaredTwice⟧n :"),
    ("u :", "⟦DeclaredTwice⟧X :"),
    ("OF q", "OF ⟦Undeclared⟧x"),
    ("a : p", "a : ⟦Undeclared⟧x"),
    ("FOR a", "FOR ⟦NotAnAttribute⟧x"),
    ("SIZEOF(u) <=", "LENGTH(n) <="),
    ("SIZEOF(u) <=", "⟦Arguments⟧SIZEOF(n) <="),
    ("SIZEOF(u) <=", "⟦Arguments⟧SIZEOF(x) <="),
    ("SIZEOF(u) <= 2", "x < 1.5"),
    ("SIZEOF(u) <= 2", "x ⟦Operand⟧< n"),
    ("SIZEOF(u) <= 2", "u[1].a :=: SELF"),
    ("SIZEOF(u) <= 2", "u[1]⟦Qualifier⟧.x = 1"),
    ("END_ENTITY;\nENTITY", "⟦Syntax⟧ENTITY"),
    ("END_SCHEMA;\n", "⟦Syntax⟧"),
]


def trees(it):
    """What the schema holds, in its order, with the places of its names."""
    it.looks([("a schema", "T", T)])
    for piece, other in CHANGED:
        it.expect(f"places of {piece}", T.count(piece), 1)
        it.looks([(f"{other} in place of {piece}", "T", T.replace(piece, other))])


if __name__ == "__main__":
    run_parts("express tokens", (faults_of_tokens, tokens_in_place, words_in_lower_case, numbers, trees), sys.argv[1:])
