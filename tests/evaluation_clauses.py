#!/usr/bin/env python3
"""Runs `trials rules` over global rules of several clauses: the rule's locals and statements run anew before each of them.

    tests/evaluation_clauses.py [PROGRAM]

PROGRAM is as for evaluation.py. Each clause is an evaluation of its own, with steps of its own, and is LIMIT with fewer. Values and
steps were worked out from the tables of statements and steps, before any program told them. The last line is
'evaluation_clauses: N passed, M failed', and the status is 0 only if none failed.
"""
import sys
from typing import NamedTuple

from evaluation import evaluated, program_of
from expression_rows import HEAD, MOST_STEPS, TAIL
from lib.harness import run_parts

DECLARATIONS = """FUNCTION next_of (n : INTEGER) : INTEGER; LOCAL r : INTEGER := n; END_LOCAL; r := r + 1; RETURN (r); END_FUNCTION;
ENTITY e; i : OPTIONAL INTEGER; END_ENTITY; ENTITY d SUBTYPE OF (e); END_ENTITY; ENTITY absent; END_ENTITY;
"""
DATA = "#1=E(1);#2=D(2);#3=E($);"
# up to which number of steps each limit is tried
TRIED = 130


class Clause(NamedTuple):
    """A clause, its label or what it is told by without one, its value and its steps, those of the statements among them."""

    text: str
    name: str
    value: str
    steps: int


def labelled(name, text, value, steps):
    return Clause(f"{name} : {text};", name.upper(), value, steps)


def unlabelled(place, text, value, steps):
    return Clause(f"{text};", f"#{place}", value, steps)


# Rules by their names: the entities, the locals and the statements; and the clauses.
RULES = {
    # an assignment of 4 steps behind a local of 1: N is 1 before each clause
    "counted": ("(e); LOCAL n : INTEGER := 0; END_LOCAL; n := n + 1;", [
        labelled("a", "n = 1", "TRUE", 5 + 3), labelled("b", "n = 1", "TRUE", 5 + 3), unlabelled(3, "n", "1", 5 + 1),
        labelled("c", "n <> 1", "FALSE", 5 + 3), unlabelled(5, "n = n", "TRUE", 5 + 3)]),
    # a local of the name of an entity, which costs its 3 instances
    "held": ("(e); LOCAL s : SET OF e := e; END_LOCAL;", [
        labelled("a", "SIZEOF(s) = 3", "TRUE", 4 + 4), labelled("b", "QUERY(x <* s | EXISTS(x.i))", "SET[1: #1, #2]", 4 + 2 + 3 * (1 + 3)),
        labelled("c", "e", "SET[1: #1, #2, #3]", 4 + 4), labelled("f", "s :=: e", "TRUE", 4 + 1 + 1 + 4 + (3 * 3 + 3 + 3))]),
    # a hundred turns of an empty statement
    "long": ("(e); REPEAT k := 1 TO 100; ; END_REPEAT;", [
        unlabelled(1, "TRUE", "TRUE", 103 + 1), unlabelled(2, "NOT FALSE", "TRUE", 103 + 2), unlabelled(3, "1 = 1", "TRUE", 103 + 3),
        unlabelled(4, "UNKNOWN", "UNKNOWN", 103 + 1)]),
    "bare": ("(e);", [
        unlabelled(1, "TRUE", "TRUE", 1), unlabelled(2, "FALSE", "FALSE", 1), unlabelled(3, "UNKNOWN", "UNKNOWN", 1), unlabelled(4, "?", "?", 1),
        labelled("last", "7", "7", 1)]),
    "empty": ("(e); ; ;", [unlabelled(1, "TRUE", "TRUE", 2 + 1), unlabelled(2, "NOT TRUE", "FALSE", 2 + 2)]),
    # locals of the names that another rule has, of other types
    "others": ("(d, e); LOCAL n : LOGICAL; s : INTEGER := SIZEOF(d); END_LOCAL; n := s = 1;", [
        labelled("a", "n", "TRUE", 3 + (1 + 3) + 1), labelled("b", "s", "1", 3 + (1 + 3) + 1),
        labelled("c", "SIZEOF(e) - s", "2", 3 + (1 + 3) + (1 + 5 + 1))]),
    # a call of 1, n, a local of 1, an assignment of 4 and a RETURN of 2
    "called": ("(e); LOCAL n : INTEGER := 4; END_LOCAL; n := next_of(n);", [
        labelled("a", "n", "5", 1 + (1 + (1 + 1 + 7)) + 1), labelled("b", "next_of(n)", "6", 1 + (1 + (1 + 1 + 7)) + (1 + 1 + 7)),
        labelled("c", "n", "5", 1 + (1 + (1 + 1 + 7)) + 1)]),
    # a set that grows by each instance of D, once
    "grown": ("(e, d); LOCAL s : SET OF e := []; END_LOCAL; REPEAT k := 1 TO SIZEOF(d); s := s + d[k]; s := s + d[k]; END_REPEAT;", [
        labelled("a", "s", "SET[1: #2]", 2 + (1 + 1 + 3) + 2 * (1 + 1 + 1 + (1 + 2 + 1)) + 1),
        labelled("b", "SIZEOF(s) = SIZEOF(d)", "TRUE", 2 + (1 + 1 + 3) + 2 * (1 + 1 + 1 + (1 + 2 + 1)) + (1 + 2 + 3))]),
    "left": ("(absent); LOCAL n : INTEGER := 0; END_LOCAL; REPEAT; n := n + 1; IF n = 2 THEN ESCAPE; END_IF; END_REPEAT;", [
        labelled("a", "n", "2", 1 + 1 + 2 * (4 + 4) + 1 + 1), labelled("b", "absent", "SET[1: ]", 1 + 1 + 2 * (4 + 4) + 1 + 1),
        labelled("c", "n + SIZEOF(absent)", "2", 1 + 1 + 2 * (4 + 4) + 1 + (1 + 1 + 2))]),
    "unset": ("(e); LOCAL a : INTEGER := NVL(b, 3); b : INTEGER := 5; c : LOGICAL; END_LOCAL; IF c THEN a := 0; ELSE b := b - a; END_IF;", [
        labelled("p", "a", "3", 3 + 1 + (1 + 1 + 4) + 1), labelled("q", "b", "2", 3 + 1 + (1 + 1 + 4) + 1),
        labelled("r", "c", "?", 3 + 1 + (1 + 1 + 4) + 1)]),
}


def text_of(rules):
    """A schema of these rules."""
    declared = (f"RULE {name} FOR {head}\nWHERE {' '.join(clause.text for clause in clauses)} END_RULE;\n" for name, (head, clauses) in rules.items())
    return f"SCHEMA s; {DECLARATIONS}{''.join(declared)}END_SCHEMA;"


def outcomes_of(rules, limits):
    """What each clause comes to, by limit, rule and name; no clause of a rule has a SELF."""
    return {(limit, name.upper(), clause.name, "?"): f"{clause.value} {clause.steps}" if clause.steps <= limit else "LIMIT"
            for limit in limits for name, (_, clauses) in rules.items() for clause in clauses}


def expect(it, name, rules, limits):
    """Compares what the program tells of these rules, and tells of what differs alone."""
    found, wanted = evaluated(it.folder, text_of(rules), HEAD.format("S") + DATA + TAIL, limits), outcomes_of(rules, limits)
    if isinstance(found, str):
        it.expect(name, found, "")
        return
    differ = [key for key in {**wanted, **found} if found.get(key) != wanted.get(key)]
    it.expect(name, {key: found.get(key) for key in differ[:5]}, {key: wanted.get(key) for key in differ[:5]})


def each_rule(it):
    """Each rule alone, at each limit up to the most steps that any clause takes."""
    for name, rule in RULES.items():
        expect(it, name, {name: rule}, [*range(TRIED), MOST_STEPS])


def all_rules(it):
    """All rules in one schema, in either order of their declaration: none is seen by another."""
    expect(it, "all rules", RULES, [*range(TRIED), MOST_STEPS])
    expect(it, "all rules, turned round", dict(reversed(RULES.items())), [*range(TRIED), MOST_STEPS])


def endless_statements(it):
    """Each clause behind statements without end is LIMIT, and the clauses of other rules aren't."""
    endless = "(e); LOCAL n : INTEGER := 1; END_LOCAL; REPEAT WHILE n > 0; n := next_of(n); END_REPEAT;"
    wanted = {(MOST_STEPS, "ENDLESS", name, "?"): "LIMIT" for name in ("A", "#2")}
    rules = {"endless": (endless, [labelled("a", "TRUE", "", MOST_STEPS + 1), unlabelled(2, "FALSE", "", MOST_STEPS + 1)])}
    it.expect("without end", outcomes_of(rules, [MOST_STEPS]), wanted)
    expect(it, "without end, alone", rules, [MOST_STEPS])
    expect(it, "without end, beside others", {**rules, **RULES}, [MOST_STEPS])


if __name__ == "__main__":
    run_parts("evaluation_clauses", (each_rule, all_rules, endless_statements), program_of(sys.argv[1:]))
