#!/usr/bin/env python3
"""Runs `trials rules` over each operator and each function of the language with operands of each kind, and compares values and steps.

    tests/evaluation_kinds.py [PROGRAM]

PROGRAM is as for evaluation.py. The operands are attributes whose type is a SELECT of all kinds, so that each pair is taken by a
schema and meets at run time. The tables were written from what is said of each operator, and none of their values is the program's.
The last line is 'evaluation_kinds: N passed, M failed', and the status is 0 only if none failed.
"""
import sys
from typing import NamedTuple

from evaluation import evaluated, program_of
from expression_rows import HEAD, MOST_STEPS, TAIL
from lib.harness import run_parts

TYPES = {"num": "INTEGER", "dec": "REAL", "txt": "STRING", "bit": "BINARY", "truth": "LOGICAL", "colour": "ENUMERATION OF (red, green)",
         "shade": "ENUMERATION OF (dark, light)", "ints": "LIST OF INTEGER", "bags": "BAG OF INTEGER", "sets": "SET OF INTEGER",
         "arrays": "ARRAY [0:1] OF INTEGER"}


class Operand(NamedTuple):
    """An attribute: its member of the SELECT, as the file writes it, as a value is told that stands there, and what TYPEOF names of it."""

    member: str
    written: str
    told: str
    types: str


# N is no value. The aggregates are L, M, U and A; I is an initialiser, which stands in the expression itself.
OPERANDS = {
    "n": Operand("", "$", "?", ""),
    "i": Operand("num", "NUM(2)", "NUM(2)", "'K.NUM', 'INTEGER'"),
    "r": Operand("dec", "DEC(2.)", "DEC(2.)", "'K.DEC', 'REAL'"),
    "s": Operand("txt", "TXT('a')", "TXT('a')", "'K.TXT', 'STRING'"),
    "b": Operand("bit", 'BIT("31")', "BIT(%1)", "'K.BIT', 'BINARY'"),
    "t": Operand("truth", "TRUTH(.T.)", "TRUTH(TRUE)", "'K.TRUTH', 'BOOLEAN', 'LOGICAL'"),
    "c": Operand("colour", "COLOUR(.RED.)", "COLOUR(COLOUR.RED)", "'K.COLOUR'"),
    "h": Operand("shade", "SHADE(.DARK.)", "SHADE(SHADE.DARK)", "'K.SHADE'"),
    "o": Operand("thing", "#2", "#2", "'K.THING'"),
    "l": Operand("ints", "INTS((1,2))", "INTS(LIST[1: 1, 2])", "'K.INTS', 'LIST'"),
    "m": Operand("bags", "BAGS((2,1))", "BAGS(BAG[1: 2, 1])", "'K.BAGS', 'BAG'"),
    "u": Operand("sets", "SETS((1,2))", "SETS(SET[1: 1, 2])", "'K.SETS', 'SET'"),
    "a": Operand("arrays", "ARRAYS((1,2))", "ARRAYS(ARRAY[0: 1, 2])", "'K.ARRAYS', 'ARRAY'"),
    "I": Operand("", "", "[1: 1, 2]", "'LIST'"),
}
ALL = "nirsbtcholmua"
WITHOUT_REAL = ALL.replace("r", "")
WITHOUT_ENTITIES = ALL.replace("o", "")
AGGREGATES = "lmuaI"
COUNT = 2
FORMS = {"l": "LIST[1: {}]", "m": "BAG[1: {}]", "u": "SET[1: {}]", "a": "ARRAY[0: {}]", "I": "[1: {}]"}
ELEMENTS = {"l": "1, 2", "m": "2, 1", "u": "1, 2", "a": "1, 2", "I": "1, 2"}


def text_of(letter):
    return "[1, 2]" if letter == "I" else letter


def steps_of(letter):
    """A name is one step; an initialiser 1, its two literals, and the size of its result."""
    return 1 + 2 + 3 if letter == "I" else 1


# ---- operators

# Of each operator the operands that it is asked for, and its results: of the first line that has both operands. Else it gives `?`.
NONE_IS_UNKNOWN = [("n", ALL + "I", "UNKNOWN"), (ALL + "I", "n", "UNKNOWN")]


def of_one_kind(value):
    return [("ir", "ir", value), *((one, one, value) for one in "sbtch")]


def each(value):
    return [(ALL + "I", ALL + "I", value)]


RELATIONS = {
    "=": (WITHOUT_ENTITIES + "I", [*NONE_IS_UNKNOWN, *of_one_kind("TRUE"), (AGGREGATES, AGGREGATES, "TRUE")]),
    "<>": (WITHOUT_ENTITIES + "I", [*NONE_IS_UNKNOWN, *of_one_kind("FALSE"), (AGGREGATES, AGGREGATES, "FALSE")]),
    ":=:": (ALL + "I", [*NONE_IS_UNKNOWN, *of_one_kind("TRUE"), ("o", "o", "TRUE"), (AGGREGATES, AGGREGATES, "TRUE"), *each("FALSE")]),
    ":<>:": (ALL + "I", [*NONE_IS_UNKNOWN, *of_one_kind("FALSE"), ("o", "o", "FALSE"), (AGGREGATES, AGGREGATES, "FALSE"), *each("TRUE")]),
    "<": (ALL, [*NONE_IS_UNKNOWN, *of_one_kind("FALSE")]),
    ">": (ALL, [*NONE_IS_UNKNOWN, *of_one_kind("FALSE")]),
    "<=": (ALL + "I", [*NONE_IS_UNKNOWN, *of_one_kind("TRUE"), ("muI", "muI", "TRUE")]),
    ">=": (ALL + "I", [*NONE_IS_UNKNOWN, *of_one_kind("TRUE"), ("muI", "muI", "TRUE")]),
    # (the elements are INTEGER, so nothing but a number is one; a list is none of them either)
    "IN": (ALL + "I", [(ALL + "I", "n", "UNKNOWN"), ("n", AGGREGATES, "UNKNOWN"), ("ir", AGGREGATES, "TRUE"), (ALL + "I", AGGREGATES, "FALSE")]),
    "AND": (ALL, [("t", "t", "TRUE"), ("nt", "nt", "UNKNOWN")]),
    "OR": (ALL, [("t", "nt", "TRUE"), ("n", "t", "TRUE"), ("n", "n", "UNKNOWN")]),
    "XOR": (ALL, [("t", "t", "FALSE"), ("nt", "nt", "UNKNOWN")]),
    "**": (WITHOUT_REAL, [("i", "i", "4")]),
    "DIV": (WITHOUT_REAL, [("i", "i", "1")]),
    "MOD": (WITHOUT_REAL, [("i", "i", "0")]),
}
SCALARS = "isbtcho"


def sums():
    """+ joins texts, bits and aggregates, and puts an element behind or before an aggregate; a SET on the left takes nothing twice."""
    found = [("i", "i", "4"), ("s", "s", "'aa'"), ("b", "b", "%11")]
    for left in AGGREGATES:
        for right in AGGREGATES:
            elements = ELEMENTS[left] if left == "u" else f"{ELEMENTS[left]}, {ELEMENTS[right]}"
            found.append((left, right, FORMS[right if left == "I" else left].format(elements)))
        for other in SCALARS:
            told = OPERANDS[other].told
            found.append((left, other, FORMS[left].format(ELEMENTS[left] if (left, other) == ("u", "i") else f"{ELEMENTS[left]}, {told}")))
            found.append((other, left, FORMS[left].format(f"{told}, {ELEMENTS[left]}")))
    return found


def products():
    """* of two aggregates has all elements of the left one, since the right one has them too."""
    return [("i", "i", "4")] + [(left, right, FORMS["u" if "u" in (left, right) else "m"].format(ELEMENTS[left]))
                                for left in AGGREGATES for right in AGGREGATES]


def differences():
    """- of two aggregates leaves nothing, and that of an element 1, or all."""
    found = [("i", "i", "0")]
    for left in AGGREGATES:
        found += [(left, right, FORMS[right if left == "I" else left].format("")) for right in AGGREGATES]
        found += [(left, other, FORMS[left].format("1" if other == "i" else ELEMENTS[left])) for other in SCALARS]
    return found


OPERATORS = {**RELATIONS, "+": (WITHOUT_REAL + "I", sums()), "*": (WITHOUT_REAL + "I", products()), "-": (WITHOUT_REAL + "I", differences())}


def result(table, left, right):
    return next((value for lefts, rights, value in table if left in lefts and right in rights), "?")


def extra(operator, left, right):
    """What an operator takes beside its node and its operands."""
    if operator == "IN":
        return COUNT if right in AGGREGATES else 0
    if operator in ("AND", "OR", "XOR"):
        return 0
    if left in AGGREGATES and right in AGGREGATES:
        return COUNT * COUNT + COUNT + COUNT
    return 2 if operator == "+" and (left, right) in (("s", "s"), ("b", "b")) else 0


def operations(operator):
    """Each pair of operands: the expression, its value and its steps."""
    operands, table = OPERATORS[operator]
    for left in operands:
        for right in operands:
            steps = 1 + steps_of(left) + steps_of(right) + extra(operator, left, right)
            yield f"{text_of(left)} {operator} {text_of(right)}", result(table, left, right), steps


# ---- functions, signs and qualifiers

def by_letter(**values):
    """The values of operands; of one that isn't named it is `?`."""
    return lambda letter: next((value for letters, value in values.items() if letter in letters), "?")


# Of each form of one operand the operands that it is asked for, its values, and its steps beside the operand.
FORMS_OF_ONE = {
    "NOT ({})": (ALL, by_letter(t="FALSE", n="UNKNOWN"), 1), "-({})": (WITHOUT_REAL, by_letter(i="-2"), 1), "+({})": (WITHOUT_REAL, by_letter(i="2"), 1),
    "SIZEOF({})": (ALL + "I", by_letter(lmuaI="2"), 1), "LOINDEX({})": (ALL + "I", by_letter(lmuI="1", a="0"), 1),
    "HIINDEX({})": (ALL + "I", by_letter(lmuI="2", a="1"), 1), "EXISTS({})": (ALL + "I", by_letter(n="FALSE", irsbtcholmuaI="TRUE"), 1),
    "LENGTH({})": (ALL, by_letter(s="1"), 1), "BLENGTH({})": (ALL, by_letter(b="1"), 1), "ODD({})": (ALL, by_letter(i="FALSE"), 1),
    "ABS({})": (ALL, by_letter(i="2"), 1), "{}[1]": (ALL, by_letter(s="'a'", b="%1", lu="1", ma="2"), 2), "l[{}]": (ALL, by_letter(i="2"), 2),
    "{}[1:1]": (ALL, by_letter(s="'a'", b="%1"), 3), "s[{}:2]": (ALL, by_letter(), 3), "s[1:{}]": (ALL, by_letter(), 3),
    "{}\\thing": (ALL, by_letter(o="#2"), 1), "{}.p": (ALL, by_letter(o="7"), 1), "{}\\thing.p": (ALL, by_letter(o="7"), 2),
    # (S is 'a', which is no role)
    "USEDIN(o, {})": (ALL, by_letter(s="BAG[1: ]"), 2),
}


def of_one(text):
    operands, values, steps = FORMS_OF_ONE[text]
    return ((text.format(text_of(letter)), values(letter), steps + steps_of(letter)) for letter in operands)


def types_named():
    for letter in ALL + "I":
        names = OPERANDS[letter].types
        yield f"TYPEOF({text_of(letter)})", f"SET[1: {names}]", 1 + steps_of(letter) + (names.count("', '") + 1 if names else 0)


def users():
    """O is used by #1 as its O alone."""
    for letter in ALL:
        used = letter == "o"
        yield f"USEDIN({letter}, '')", "BAG[1: #1]" if used else "?", 1 + 1 + 1 + (1 if used else 0)


def queries():
    for letter in ALL + "I":
        value = FORMS[letter].format(ELEMENTS[letter]) if letter in AGGREGATES else "?"
        turns = COUNT * (1 + 1) if letter in AGGREGATES else 0
        yield f"QUERY(z <* {text_of(letter)} | TRUE)", value, 1 + steps_of(letter) + turns


def first_or_second():
    for left in ALL + "I":
        for right in ALL + "I":
            yield f"NVL({text_of(left)}, {text_of(right)})", OPERANDS[right if left == "n" else left].told, 1 + steps_of(left) + steps_of(right)


def values_in():
    """VALUE_IN is IN by `=`, and a value of another kind isn't equal to an element."""
    for left in WITHOUT_ENTITIES + "I":
        for right in WITHOUT_ENTITIES + "I":
            found = {"n": "UNKNOWN", "i": "TRUE", "r": "TRUE"}.get(right, "FALSE") if left in AGGREGATES else "UNKNOWN" if left == "n" else "?"
            yield (f"VALUE_IN({text_of(left)}, {text_of(right)})", found,
                   1 + steps_of(left) + steps_of(right) + (COUNT if left in AGGREGATES else 0))


# ---- the script

def schema_of(letters, expressions):
    """A schema whose SELECT has the members of these operands."""
    members = ", ".join(OPERANDS[letter].member for letter in letters if OPERANDS[letter].member)
    types = " ".join(f"TYPE {name} = {underlying}; END_TYPE;" for name, underlying in TYPES.items())
    clauses = " ".join(f"w{number} : {text};" for number, text in enumerate(expressions))
    return (f"SCHEMA k; {types} TYPE any = SELECT ({members}); END_TYPE; ENTITY thing; p : INTEGER; END_ENTITY;"
            f"ENTITY e; {', '.join(letters)} : OPTIONAL any; WHERE {clauses} END_ENTITY; END_SCHEMA;")


def looks(it, name, letters, rows):
    """Compares each of these expressions, its value and its steps."""
    rows = list(rows)
    data = f"#1=E({','.join(OPERANDS[letter].written for letter in letters)});#2=THING(7);"
    found = evaluated(it.folder, schema_of(letters, [text for text, _, _ in rows]), HEAD.format("K") + data + TAIL, [MOST_STEPS])
    for number, (text, value, steps) in enumerate(rows):
        seen = found if isinstance(found, str) else found.get((MOST_STEPS, "E", f"W{number}", "#1"))
        it.expect(f"{name}: {text}", seen, f"{value} {steps}")
        if isinstance(found, str):
            break


def all_operators(it):
    for operator, (operands, _) in OPERATORS.items():
        looks(it, operator, operands.replace("I", ""), operations(operator))


def all_functions(it):
    for text, (operands, _, _) in FORMS_OF_ONE.items():
        looks(it, text, operands.replace("I", ""), of_one(text))
    for rows in (types_named, users, queries, first_or_second):
        looks(it, rows.__name__, ALL, rows())
    looks(it, "VALUE_IN", WITHOUT_ENTITIES, values_in())


if __name__ == "__main__":
    run_parts("evaluation_kinds", (all_operators, all_functions), program_of(sys.argv[1:]))
