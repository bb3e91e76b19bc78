#!/usr/bin/env python3
"""Runs `trials rules` on a stack of 8 MiB over expressions and statements that are nested as deep as a schema may nest them.

    tests/evaluation_stack.py [PROGRAM]

PROGRAM is as for evaluation.py. Each form of expression and of statement is nested 64 levels deep in each of 200 bodies, of functions,
of derived attributes and of constants, and ends with its value and its steps; so does what is asked of a value that is nested 600
deep, in the 200th body. What is expected are sums of what each form takes. The last line is 'evaluation_stack: N passed, M failed', and
the status is 0 only if none failed.
"""
import re
import resource
import sys
from typing import Callable, NamedTuple

from evaluation import program_of
from evaluation_limits import MOST_LIMIT, file, schema
from expression_rows import MOST_BODIES, MOST_STEPS
from lib.harness import run_parts

# How deep a schema may be nested.
MOST_LEVELS = 64
STACK = 8 * 1024 * 1024


# ---- forms that nest

class Form(NamedTuple):
    """A form around a part: its text, where {} is the part and @ a number that no other level has; how many levels it nests, how many
    steps it takes beside the part, and what it gives of the part's value (None is `?`). Beside is how many levels open next to the part."""

    kind: str
    text: str
    levels: int
    steps: int
    gives: Callable
    beside: int = 0


def power(exponent):
    """1 ** exponent"""
    return None if exponent is None or exponent < 0 else 1


def same(value):
    return value


FORMS = {
    "a sum": Form("INTEGER", "0 + ({})", 1, 2, same),
    "a sum, on the left": Form("INTEGER", "({}) + 0", 1, 2, same),
    "a sign": Form("INTEGER", "-({})", 1, 1, lambda x: -x),
    "four levels of operators": Form("INTEGER", "0 + 1 * 1 ** -({})", 1, 7, lambda x: None if x is None else power(-x)),
    "four levels with a value": Form("INTEGER", "0 + 1 * 1 ** +({})", 1, 7, power),
    "four levels, on the left": Form("INTEGER", "-({}) ** 1 * 1 + 0", 1, 7, lambda x: -x),
    "DIV and MOD": Form("INTEGER", "({}) DIV 1 MOD 2", 1, 4, same),
    "NOT": Form("BOOLEAN", "NOT ({})", 1, 1, lambda x: not x),
    "AND": Form("BOOLEAN", "TRUE AND NOT ({})", 1, 3, lambda x: not x),
    "OR": Form("BOOLEAN", "({}) OR FALSE XOR FALSE", 1, 4, same),
    "a relation": Form("BOOLEAN", "TRUE = ({})", 1, 2, same),
    "a relation, on the left": Form("BOOLEAN", "({}) :<>: FALSE", 1, 2, same),
    "all levels of operators": Form("BOOLEAN", "TRUE = (FALSE OR TRUE AND NOT ({}))", 2, 7, lambda x: not x),
    "all levels, on the left": Form("BOOLEAN", "(NOT ({}) AND TRUE OR FALSE) = TRUE", 2, 7, lambda x: not x),
    "all levels, in parentheses of their own": Form("BOOLEAN", "TRUE = (FALSE OR (TRUE AND (NOT ({}))))", 4, 7, lambda x: not x),
    "IN": Form("BOOLEAN", "({}) IN [TRUE]", 1, 1 + (1 + 1 + 2) + 1, same),
    "IN, on the right": Form("BOOLEAN", "TRUE IN [{}]", 1, 1 + 1 + (1 + 2) + 1, same),
    "an interval": Form("BOOLEAN", "{{FALSE <= {} <= TRUE}}", 1, 3, lambda _: True),
    "an interval, on the left": Form("BOOLEAN", "{{{} <= TRUE <= TRUE}}", 1, 3, lambda _: True),
    "an interval, on the right": Form("BOOLEAN", "{{FALSE <= FALSE <= {}}}", 1, 3, lambda _: True),
    "an interval of operators": Form("BOOLEAN", "{{FALSE <= FALSE OR TRUE AND NOT ({}) <= TRUE}}", 2, 8, lambda _: True),
    "a join": Form("STRING", "'' + ({})", 1, 2 + 1, same),
    "a slice": Form("STRING", "t[LENGTH({}):1]", 2, 1 + 1 + 1 + 1, same),
    "an initialiser": Form("INTEGER", "SIZEOF([{}])", 2, 1 + 1 + 2, lambda _: 1),
    "initialisers": Form("INTEGER", "SIZEOF([[[[{}]]]])", 5, 1 + (1 + 2) + (1 + 3) + (1 + 4) + (1 + 5), lambda _: 1),
    "an index": Form("INTEGER", "l[{}]", 1, 2, same),
    "NVL": Form("INTEGER", "NVL({}, 2)", 1, 2, same),
    "NVL of no value": Form("INTEGER", "NVL(?, {})", 1, 2, same),
    "ABS": Form("INTEGER", "ABS({})", 1, 1, same),
    "TYPEOF": Form("INTEGER", "SIZEOF(TYPEOF({}))", 2, 1 + 1 + 1, lambda _: 1),
    "VALUE_IN": Form("BOOLEAN", "VALUE_IN([TRUE], {})", 1, 1 + (1 + 1 + 2) + 1, same, 1),
    "the source of a QUERY": Form("INTEGER", "SIZEOF(QUERY(z@ <* [{}] | TRUE))", 3, 1 + 1 + (1 + 2) + (1 + 1), lambda _: 1),
    "the condition of a QUERY": Form("INTEGER", "SIZEOF(QUERY(z@ <* [1] | z@ = {}))", 2, 1 + 1 + (1 + 1 + 2) + (1 + 1 + 1), same, 1),
    "a call": Form("INTEGER", "h({})", 1, 1 + (1 + 1), same),
}
# (statements return what is within them; each ends at the RETURN)
STATEMENTS = {
    "IF": Form("statement", "IF TRUE THEN {} END_IF;", 1, 2, same),
    "ELSE": Form("statement", "IF FALSE THEN ; ELSE {} END_IF;", 1, 2, same),
    "CASE": Form("statement", "CASE n OF -1 : ; n : {} END_CASE;", 1, 1 + 1 + 2 + 1, same),
    "OTHERWISE": Form("statement", "CASE n OF -1, -2 : ; OTHERWISE : {} END_CASE;", 1, 1 + 1 + 2 + 2, same),
    "BEGIN": Form("statement", "BEGIN {} END;", 1, 1, same),
    "REPEAT": Form("statement", "REPEAT r@ := 1 TO 2; {} END_REPEAT;", 1, 1 + 2, same),
    "REPEAT with all": Form("statement", "REPEAT r@ := 1 TO 4 BY 2 WHILE TRUE UNTIL FALSE; {} END_REPEAT;", 1, 1 + 3 + 1, same),
    "all in turn": Form("statement", "IF TRUE THEN BEGIN CASE n OF n : REPEAT r@ := 1 TO 2; {} END_REPEAT; END_CASE; END; END_IF;", 4,
                        2 + 1 + (1 + 1 + 1) + (1 + 2), same),
}
LEAVES = {"INTEGER": 1, "BOOLEAN": True, "STRING": "a", "statement": 1}
# what the forms name
LOCALS = "l : LIST OF INTEGER; t : STRING"
H = "FUNCTION h (n : INTEGER) : INTEGER; RETURN (n); END_FUNCTION;"


def told(value):
    """The text of a number, a truth, a string, or no value."""
    return "?" if value is None else str(value).upper() if isinstance(value, bool) else f"'{value}'" if isinstance(value, str) else str(value)


def nested(form, part, room):
    """A part within as many of a form as nest in so many levels, and how many these are."""
    count = (room - form.beside) // form.levels
    for number in range(count):
        part = form.text.replace("@", str(number)).format(part)
    return part, count


def by_function(form, bodies):
    """A schema whose W calls a function that nests so many bodies, the form around each call. Its steps, and the forms around it."""
    kind = "INTEGER" if form.kind == "statement" else form.kind
    names = f"n : INTEGER; {LOCALS}"
    # (RETURN and the call have a level each)
    if form.kind == "statement":
        text, count = nested(form, "RETURN (f(n - 1, l, t));", MOST_LEVELS - 2)
    else:
        text, count = nested(form, "f(n - 1, l, t)", MOST_LEVELS - 2)
        text = f"RETURN ({text});"
    function = f"FUNCTION f ({names}) : {kind}; IF n <= 0 THEN RETURN ({told(LEAVES[form.kind])}); END_IF; {text} END_FUNCTION;"
    # (W is a call with an initialiser of one element; a body an IF of 4 and RETURN; around it a call with n - 1, l and t)
    around = 4 + 1 + count * form.steps + 1 + 3 + 2
    steps = 1 + 1 + (1 + 1 + 2) + 1 + (bodies - 1) * around + 4 + 1 + 1
    return schema(H + function, w=f"f({bodies - 1}, [1], 'a')"), steps, count * (bodies - 1)


def by_names(form, bodies, declared, heading, where):
    """The same of constants or derived attributes, each of which names the one before."""
    texts, counts = [told(LEAVES[form.kind])], 0
    for k in range(1, bodies):
        text, count = nested(form, f"{declared}{k}", MOST_LEVELS)
        texts.append(text)
        counts += count
    text = heading.format(" ".join(f"{declared}{k} : {form.kind} := {text};" for k, text in enumerate(texts, 1)))
    given = {"parts": text} if where else {}
    return schema(("" if where else text) + H, w=f"{declared}{bodies}", **given), 1 + 1 + (bodies - 1) + counts * form.steps, counts


def deep_cases(name, form):
    """The schemas that nest a form in 200 bodies."""
    yield f"{name}, functions", *by_function(form, MOST_BODIES)
    if form.kind != "statement" and not re.search(r"\b[lt]\[", form.text):
        yield f"{name}, derived attributes", *by_names(form, MOST_BODIES, "d", "DERIVE {}", True)
        yield f"{name}, constants", *by_names(form, MOST_BODIES, "c", "CONSTANT {} END_CONSTANT;", False)


def small_stack():
    """Before the program begins: it has a stack of 8 MiB."""
    resource.setrlimit(resource.RLIMIT_STACK, (STACK, resource.getrlimit(resource.RLIMIT_STACK)[1]))


def found_on_small_stack(folder, number, text, limits):
    """What the program tells of W of #1, by limits, on a stack of 8 MiB."""
    folder.write(f"deep{number}.exp", text)
    status, out, err = folder.run("rules", f"deep{number}.exp", "deep.step", *map(str, limits), preexec_fn=small_stack)
    if status or err:
        return f"status {status}, {err.decode()}"
    return [line.partition(" #1 ")[2] for line in out.decode().splitlines()]


def deeply_nested(it):
    """Each form as deep as a schema may nest it, in each of 200 bodies, has its value and its steps on a stack of 8 MiB."""
    it.folder.write("deep.step", file("#1=E();"))
    cases = [(form, *case) for name, form in {**FORMS, **STATEMENTS}.items() for case in deep_cases(name, form)]

    def one(numbered):
        number, (form, name, text, steps, count) = numbered
        value = LEAVES[form.kind]
        for _ in range(count):
            value = form.gives(value)
        limits = [MOST_LIMIT, steps, steps - 1]
        return name, found_on_small_stack(it.folder, number, text, limits), [f"{told(value)} {steps}"] * 2 + ["LIMIT"]
    for name, found, wanted in it.pool.map(one, enumerate(cases)):
        it.expect(f"nested as deep as may be: {name}", found, wanted)


# ---- values that are nested deep

DEEP_VALUES = (
    "FUNCTION nest (x : GENERIC; n : INTEGER) : GENERIC; REPEAT k := 1 TO n; x := [x]; END_REPEAT; RETURN (x); END_FUNCTION;"
    "FUNCTION at_depth (n : INTEGER; x : AGGREGATE OF GENERIC) : GENERIC; IF n <= 0 THEN RETURN ({}); END_IF; RETURN (at_depth(n - 1, x)); END_FUNCTION;")
DEPTH = 600
# what is asked of X, its value, and its steps beside those of X
ASKED = {
    "itself": ("x", "[1: " * DEPTH + "1" + "]" * DEPTH, 1), "identity": ("x :=: x", "TRUE", 3 + 3), "no identity": ("x :<>: [x]", "TRUE", 1 + 1 + (1 + 1 + DEPTH + 2) + 3),
    "IN": ("x IN [x]", "TRUE", 1 + 1 + (1 + 1 + DEPTH + 2) + 1), "SIZEOF": ("SIZEOF(x)", "1", 2),
    "an operator": ("SIZEOF(x + x)", "2", 1 + 3 + 3), "QUERY": ("SIZEOF(QUERY(z <* x | z :=: x[1]))", "1", 1 + 1 + 1 + 1 + (1 + 1 + 3 + 3)),
    "TYPEOF": ("SIZEOF(TYPEOF(x))", "1", 1 + 1 + 1 + 1),
}


def deep_values(it):
    """A value that is nested 600 deep, in the 200th body, on a stack of 8 MiB."""
    it.folder.write("deep.step", file("#1=E();"))
    # (a call with two literals, REPEAT with its bounds; each turn an assignment, x, an initialiser and its size; RETURN x)
    nest = 1 + 2 + (1 + 2) + sum(3 + k + 1 for k in range(1, DEPTH + 1)) + 2
    down = MOST_BODIES - 1
    for number, (name, (text, value, steps)) in enumerate(ASKED.items()):
        whole = 1 + 1 + nest + down * (4 + 1 + 1 + 3 + 1) + 4 + 1 + steps
        schema_text = schema(DEEP_VALUES.format(text), w=f"at_depth({down}, nest(1, {DEPTH}))")
        found = found_on_small_stack(it.folder, f"_value{number}", schema_text, [MOST_STEPS, whole, whole - 1])
        it.expect(f"a value nested {DEPTH} deep: {name}", found, [f"{value} {whole}"] * 2 + ["LIMIT"])


if __name__ == "__main__":
    run_parts("evaluation_stack", (deeply_nested, deep_values), program_of(sys.argv[1:]))
