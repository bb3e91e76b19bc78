#!/usr/bin/env python3
"""Runs `trials rules` over the rows of tests/data/operations: how two values compare, and what operators give of them.

    tests/operations.py [PROGRAM]

PROGRAM is as for evaluation.py. Each row's values are made by functions that take them as what they are, and handed in a list to
a function that applies the operator to its elements: a schema takes each pair so, and only the evaluation looks at what they are.
What is wanted was worked out from the standard before any program evaluated it; the steps are counted as docs/RULES.md says. The
last line is 'operations: N passed, M failed', and the status is 0 only if none failed.
"""
import os
import re
import sys

from evaluation import evaluated, program_of
from expression_rows import HEAD, MOST_STEPS, TAIL, Fault, Value, value_of, written
from lib.harness import TOP, run_parts

FOLDER = os.path.join(TOP, "tests/data/operations")
LITERAL = "LITERAL"


# ---- values

# The types under whose names values stand, and the others.
NAMED = {"seven": "INTEGER", "eight": "NUMBER", "sevens": "LIST OF INTEGER", "eights": "LIST OF INTEGER", "seven_set": "SET OF INTEGER",
         "eight_set": "SET OF INTEGER", "shade": "colour"}
OTHERS = {"colour": "ENUMERATION OF (red, green)", "extent": "ENUMERATION OF (small)", "some": "SELECT (seven, sevens)"}

# What no literal and no initialiser makes is an attribute of SELF: by the value its name, its type, and how a file has it.
ATTRIBUTES = {"#1": ("one", "thing", "#1"), "#2": ("two", "thing", "#2"), "#3": ("three", "thing", "#3"), "%": ("no_bits", "BINARY", '"0"'),
              "-9223372036854775808": ("least", "INTEGER", "-9223372036854775808"),
              "SET[1: 1, 1]": ("ones", "SET OF INTEGER", "(1,1)"), "SET[1: 2, 2]": ("twos", "SET OF INTEGER", "(2,2)")}

# What makes an aggregate of an initialiser, by its kind and its first index: a parameter of this type.
AGGREGATES = {("LIST", 1): "LIST", ("ARRAY", 1): "ARRAY [1:1]", ("ARRAY", 0): "ARRAY [0:1]", ("BAG", 1): "BAG", ("SET", 1): "SET"}


def value_in(text):
    """The value of a column: as in tests/data/expressions, or else of a literal as it is spelled."""
    try:
        return value_of(text)
    except Fault:
        return Value(LITERAL, (text,))


def elements_of(value):
    """Those of an aggregate, also under a type's name. None of any other value."""
    sort, parts = value
    if sort == "CARRIED":
        return elements_of(parts[1])
    return parts[2] if sort == "AGGREGATE" else None


def size(value):
    """As many as an initialiser counts of it."""
    return 1 + sum(map(size, elements_of(value) or ()))


def initialiser(values):
    """The text of an initialiser of these, and its steps: 1, those of its parts, and its size."""
    texts, steps = zip(*map(made, values)) if values else ((), ())
    return f"[{', '.join(texts)}]", 1 + sum(steps) + 1 + sum(map(size, values))


def handed_on(function, argument):
    """The same of what a function gives that returns its argument."""
    text, steps = argument
    return f"{function}({text})", 1 + steps + 1 + 1


def made(value):
    """An expression that makes the value, and its steps."""
    sort, parts = value
    if sort == LITERAL:
        return parts[0], 1
    if written(value) in ATTRIBUTES:
        return ATTRIBUTES[written(value)][0], 1
    if sort == "CARRIED":
        return handed_on(f"make_{parts[0]}", made(parts[1]))
    if sort == "AGGREGATE":
        kind, low, elements = parts
        return handed_on(f"make_{kind}_{low}", initialiser(elements)) if kind else initialiser(elements)
    # (a negative INTEGER is a sign and a literal)
    return written(value), 2 if sort == "INTEGER" and parts[0] < 0 else 1


# ---- operators

# What applies an operator to the elements of its parameter, by the operator.
FORMS = {"=": "x[1] = x[2]", "<": "x[1] < x[2]", ">": "x[1] > x[2]", "<=": "x[1] <= x[2]", ":=:": "x[1] :=: x[2]", "IN": "x[1] IN x[2]",
         "VALUE_IN": "VALUE_IN(x[2], x[1])", "+": "x[1] + x[2]", "*": "x[1] * x[2]", "-": "x[1] - x[2]"}
NAMES = {operator: f"apply_{number}" for number, operator in enumerate(FORMS)}


def extra(operator, left, right):
    """What an operator takes beside its node and its operands."""
    if operator in ("IN", "VALUE_IN"):
        return len(elements_of(right) or ())
    if elements_of(left) is None or elements_of(right) is None:
        return 0
    m, n = len(elements_of(left)), len(elements_of(right))
    return m * n + m + n


def applied(operator, left, right):
    """The expression that applies it, and its steps: the call, its argument, RETURN, the operator, and two operands with an index each."""
    text, steps = initialiser([left, right])
    return f"{NAMES[operator]}({text})", 1 + steps + 1 + 1 + 2 * (1 + 1 + 1) + extra(operator, left, right)


# ---- rows

def rows_of(name):
    """The rows of a file: four columns each."""
    with open(os.path.join(FOLDER, f"{name}.txt"), encoding="utf-8") as it:
        lines = [line.rstrip("\n") for line in it]
    return [re.split(r" {2,}", line) for line in lines if line and not line.startswith("--")]


EXCHANGED = {"<": ">", ">": "<"}
EQUAL = {"<": "FALSE", ">": "FALSE", "<>": "FALSE", "=": "TRUE"}


def comparisons(left, stands, same, right):
    """What is to come of a row of comparisons: the value on the left, the operator, that on the right, and the result."""
    for x, y, so in ((left, right, stands), (right, left, EXCHANGED.get(stands, stands))):
        are_aggregates = None not in (elements_of(value_in(x)), elements_of(value_in(y)))
        yield x, "=", y, EQUAL.get(so, so)
        for sign in "<>":
            yield x, sign, y, "?" if are_aggregates else so if so in ("UNKNOWN", "?") else "TRUE" if so == sign else "FALSE"
        yield x, ":=:", y, same


# ---- the script

def function_of(name, takes, gives):
    return f"FUNCTION {name} (x : {takes}) : GENERIC; RETURN ({gives}); END_FUNCTION;"


def schema_of(expressions):
    """A schema in which each is a condition of E."""
    types = [f"TYPE {name} = {underlying}; END_TYPE;" for name, underlying in {**NAMED, **OTHERS}.items()]
    makers = [function_of(f"make_{kind}_{low}", f"{form} OF GENERIC", "x") for (kind, low), form in AGGREGATES.items()]
    makers += [function_of(f"make_{name}", name, "x") for name in NAMED]
    operators = [function_of(NAMES[operator], "LIST OF some", form) for operator, form in FORMS.items()]
    attributes = [f"{name} : {of};" for name, of, _ in ATTRIBUTES.values()]
    conditions = [f"w{number} : {text};" for number, text in enumerate(expressions)]
    entity = ["ENTITY thing; END_ENTITY; ENTITY e;", *attributes, "WHERE", *conditions, "END_ENTITY;"]
    return "\n".join(["SCHEMA k;", *types, *entity, *makers, *operators, "END_SCHEMA;"])


FILE = HEAD.format("K") + f"#1=THING();#2=THING();#3=THING();#4=E({','.join(text for _, _, text in ATTRIBUTES.values())});" + TAIL


def looks(it, name, conditions):
    """Compares the result and the steps of each: of a value on the left, an operator, and a value on the right."""
    conditions = list(conditions)
    expressions = [applied(operator, value_in(left), value_in(right)) for left, operator, right, _ in conditions]
    found = evaluated(it.folder, schema_of(text for text, _ in expressions), FILE, [MOST_STEPS])
    if isinstance(found, str):
        it.expect(name, found, "")
        return
    it.expect(f"conditions of {name}", len(found), len(conditions))
    for number, ((left, operator, right, value), (_, steps)) in enumerate(zip(conditions, expressions)):
        it.expect(f"{name}: {left} {operator} {right}", found.get((MOST_STEPS, "E", f"W{number}", "#4")), f"{value} {steps}")


def comparisons_of_values(it):
    looks(it, "compared", (one for row in rows_of("compared") for one in comparisons(*row)))


def results_of_operators(it):
    for name in ("given", "by_kinds"):
        looks(it, name, rows_of(name))


if __name__ == "__main__":
    run_parts("operations", (comparisons_of_values, results_of_operators), program_of(sys.argv[1:]))
