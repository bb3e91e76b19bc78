#!/usr/bin/env python3
"""Runs `trials rules` where an evaluation comes to its limits, of steps and of nested bodies, and beside instances that an expression
doesn't see.

    tests/evaluation_limits.py [PROGRAM]

PROGRAM is as for evaluation.py. The steps are sums of what each expression and each statement takes, and no value or number is
the program's. An evaluation without end is LIMIT whatever it may take; 200 bodies end with their value, and the 201st is LIMIT.
The rows of tests/data/expressions have the same values and steps beside other instances. The last line is
'evaluation_limits: N passed, M failed', and the status is 0 only if none failed.
"""
import re
import sys
from typing import Callable, NamedTuple

from evaluation import evaluated, program_of
from expression_rows import HEAD, MOST_BODIES, MOST_STEPS, TAIL, Setting, read_rows, schema_of, written
from lib.harness import run_parts

# The greatest limit that the program takes.
MOST_LIMIT = 2**64 - 1


def schema(declarations, **clauses):
    """A schema of these declarations with an entity E that has these WHERE clauses, its other parts before them."""
    parts = clauses.pop("parts", "")
    rules = " ".join(f"{label} : {text};" for label, text in clauses.items())
    return f"SCHEMA s; {declarations} ENTITY e; {parts} WHERE {rules} END_ENTITY; END_SCHEMA;"


def file(instances):
    return HEAD.format("S") + instances + TAIL


def outcomes(label, limits, value, steps, itself="#1"):
    """The outcomes of a clause of E by limit, where it has a value in so many steps."""
    return {(limit, "E", label, itself): f"{value} {steps}" if steps <= limit else "LIMIT" for limit in limits}


def limited(label, limits, itself="#1"):
    return {(limit, "E", label, itself): "LIMIT" for limit in limits}


def expect(it, name, found, wanted):
    """Compares outcomes, and tells of those that differ alone."""
    if isinstance(found, str):
        it.expect(name, found, "")
        return
    differ = [key for key in {**wanted, **found} if found.get(key) != wanted.get(key)]
    it.expect(name, {key: found.get(key) for key in differ[:5]}, {key: wanted.get(key) for key in differ[:5]})


# ---- bodies without end

# What is without end, and the declarations of it: W asks for it.
ENDLESS = {
    "a derived attribute": ("", "DERIVE a : INTEGER := a;", "a = 1"),
    "two derived attributes": ("", "DERIVE a : INTEGER := b; b : INTEGER := a;", "a = 1"),
    "derived attributes, each twice": ("", "DERIVE a : INTEGER := b + b; b : INTEGER := a + a;", "b - 1"),
    "a constant": ("CONSTANT a : INTEGER := a; END_CONSTANT;", "", "a = 1"),
    "two constants": ("CONSTANT a : INTEGER := 1 + b; b : INTEGER := NVL(a, 2); END_CONSTANT;", "", "NVL(b, 1) = 1"),
    "a function": ("FUNCTION f (n : INTEGER) : INTEGER; RETURN (f(n + 1)); END_FUNCTION;", "", "f(1)"),
    "a function without parameters": ("FUNCTION f : INTEGER; RETURN (f); END_FUNCTION;", "", "f"),
    "two functions": ("FUNCTION f (n : INTEGER) : INTEGER; RETURN (g(n, n)); END_FUNCTION; FUNCTION g (n, m : INTEGER) : INTEGER;"
                      " LOCAL k : INTEGER := f(n); END_LOCAL; RETURN (k); END_FUNCTION;", "", "f(1) > 0"),
    "a constant and a function": ("CONSTANT c : INTEGER := f(1); END_CONSTANT; FUNCTION f (n : INTEGER) : INTEGER;"
                                  " IF c > n THEN RETURN (n); END_IF; END_FUNCTION;", "", "c > 0"),
    "a derived attribute and a function": ("FUNCTION f (x : e) : INTEGER; RETURN (x.a); END_FUNCTION;", "DERIVE a : INTEGER := f(SELF);", "a = 1"),
    "the condition of a QUERY": ("", "DERIVE a : INTEGER := SIZEOF(QUERY(x <* [1, 2] | a = x));", "a = 0"),
    "an argument": ("FUNCTION f (n : INTEGER) : INTEGER; RETURN (f(f(n))); END_FUNCTION;", "", "f(1)"),
}
TURNS = "FUNCTION f (n : INTEGER) : INTEGER; {} RETURN (n); END_FUNCTION;"
ENDLESS_TURNS = {
    "WHILE": "REPEAT WHILE TRUE; n := n; END_REPEAT;", "UNTIL": "REPEAT UNTIL FALSE; SKIP; END_REPEAT;",
    "WHILE within an increment": "REPEAT k := 1 TO 3; REPEAT WHILE k > 0; ; END_REPEAT; END_REPEAT;",
}


def endless(it):
    """LIMIT whatever may be taken: where the steps don't end it, the 201st body does."""
    limits = [*range(1001), MOST_STEPS, MOST_LIMIT]
    for name, (declarations, parts, text) in ENDLESS.items():
        found = evaluated(it.folder, schema(declarations, parts=parts, w=text), file("#1=E();"), limits)
        expect(it, f"without end: {name}", found, limited("W", limits))
    for name, text in ENDLESS_TURNS.items():
        found = evaluated(it.folder, schema(TURNS.format(text), w="f(1) = 1"), file("#1=E();"), limits[:-1])
        expect(it, f"without end: {name}", found, limited("W", limits[:-1]))
    other = "FUNCTION f (n : INTEGER) : INTEGER; RETURN (f(n)); END_FUNCTION; RULE r FOR (e); WHERE q : f(1) = 1; END_RULE;"
    found = evaluated(it.folder, schema(other, w="TRUE"), file("#1=E();"), limits)
    expect(it, "without end: a rule", found, {**outcomes("W", limits, "TRUE", 1), **{(limit, "R", "Q", "?"): "LIMIT" for limit in limits}})


# ---- 200 bodies, and one more

class Chain(NamedTuple):
    """Bodies that nest: what declares them, a clause that nests so many, its value, and its steps."""

    declarations: str
    parts: str
    clause: Callable
    value: Callable
    steps: Callable


def constants(count, first, next_one):
    """Constants C1, C2 and so on, each of the one before."""
    texts = [first, *(next_one.format(k) for k in range(1, count))]
    return "CONSTANT " + " ".join(f"c{k} : INTEGER := {text};" for k, text in enumerate(texts, 1)) + " END_CONSTANT;"


def derived(count, first, next_one):
    texts = [first, *(next_one.format(k) for k in range(1, count))]
    return "DERIVE " + " ".join(f"d{k} : INTEGER := {text};" for k, text in enumerate(texts, 1))


def d_and_f(count):
    """Attributes D1, D2 and so on, each of a function F1, F2 and so on, which asks for the attribute before; the first asks C2."""
    attributes = ["c2", *(f"f{k}(SELF)" for k in range(1, count))]
    functions = " ".join(f"FUNCTION f{k} (x : e) : INTEGER; RETURN (x.d{k}); END_FUNCTION;" for k in range(1, count))
    return functions, "DERIVE " + " ".join(f"d{k} : INTEGER := {text};" for k, text in enumerate(attributes, 1))


def chains():
    """Chains by their names. A link of constants or of attributes is `1 + before`: 3 steps, and the first is a literal of 1."""
    most = MOST_BODIES + 1
    down = "FUNCTION f (n : INTEGER) : INTEGER; IF n <= 0 THEN RETURN (0); END_IF; RETURN (f(n - 1)); END_FUNCTION;"
    turn = ("FUNCTION f (n : INTEGER) : INTEGER; IF n <= 0 THEN RETURN (0); ELSE RETURN (1 + g(n - 1)); END_IF; END_FUNCTION;"
            "FUNCTION g (n : INTEGER) : INTEGER; LOCAL m : INTEGER := n; END_LOCAL; CASE m OF 0 : RETURN (0); OTHERWISE : m := 1 + f(m - 1);"
            " END_CASE; RETURN (m); END_FUNCTION;")
    functions, attributes = d_and_f(most)
    # (F: an IF of 4, a RETURN with a sum of 3, a call of 1 and n - 1. G: a LOCAL of 1, a CASE of 3, an assignment with a sum of 3, a call
    # of 1 and m - 1, and RETURN m. The last one, whichever it is, takes 6)
    turns = lambda k: 11 * ((k + 1) // 2) + 13 * (k // 2) + 6
    return {
        "constants": Chain(constants(most, "1", "1 + c{}"), "", "c{}".format, lambda k: k, lambda k: 1 + 1 + 3 * (k - 1)),
        "derived attributes": Chain("", derived(most, "1", "1 + d{}"), "d{}".format, lambda k: k, lambda k: 1 + 1 + 3 * (k - 1)),
        "derived attributes of SELF": Chain("", derived(most, "1", "1 + SELF.d{}"), "SELF.d{}".format, lambda k: k,
                                            lambda k: 2 + 1 + 4 * (k - 1)),
        "a function": Chain(down, "", lambda k: f"f({k - 1}) = 0", lambda k: "TRUE", lambda k: 10 + 9 * (k - 1)),
        "two functions": Chain(turn, "", lambda k: f"f({k - 1})", lambda k: k - 1, lambda k: 2 + turns(k - 1)),
        # (the literal of C1, the name of it in C2, the name of that in D1; each attribute more is a call with SELF, and RETURN x.d)
        "attributes, functions and constants": Chain(
            constants(2, "7", "c{}") + functions, attributes, lambda k: f"d{(k - 1) // 2}" if k % 2 else f"f{(k - 2) // 2}(SELF)",
            lambda k: 7, lambda k: (1 if k % 2 else 2 + 3) + 3 + 5 * ((k - 3) // 2)),
    }


def chains_of_bodies(it):
    """Each number of bodies up to 200 ends with its value, and 201 are LIMIT whatever may be taken."""
    for name, chain in chains().items():
        counts = [4, 5, 20, 101, MOST_BODIES - 1, MOST_BODIES]
        clauses = {f"w{k}": chain.clause(k) for k in [*counts, MOST_BODIES + 1]}
        steps = {k: chain.steps(k) for k in counts}
        limits = sorted({0, 1, MOST_STEPS, MOST_LIMIT, *(near for most in steps.values() for near in (most - 1, most, most + 1))})
        found = evaluated(it.folder, schema(chain.declarations, parts=chain.parts, **clauses), file("#1=E();"), limits)
        wanted = limited(f"W{MOST_BODIES + 1}", limits)
        for k in counts:
            wanted |= outcomes(f"W{k}", limits, chain.value(k), steps[k])
        expect(it, f"bodies: {name}", found, wanted)


NEXT = "nx : OPTIONAL e; DERIVE d : INTEGER := NVL(nx.d, 0);"
DOUBLED = 20


def nested_attributes(it):
    """A derived attribute takes what its body takes, each time that it is asked for, also along instances."""
    instances = "".join(f"#{k}=E({f'#{k - 1}' if k > 1 else '$'});" for k in range(1, MOST_BODIES + 2))
    limits = [0, 100, 803, MOST_STEPS, MOST_LIMIT]
    found = evaluated(it.folder, schema("", parts=NEXT, w="d = 0"), file(instances), limits)
    wanted = limited("W", limits, f"#{MOST_BODIES + 1}")
    for k in range(1, MOST_BODIES + 1):
        wanted |= outcomes("W", limits, "TRUE", 3 + 4 * k, f"#{k}")
    expect(it, "attributes along instances", found, wanted)
    # (d1 is a literal of 1, and each after it a sum of the one before, twice: 1, 5, 13, .. steps)
    clauses = {f"w{k}": f"d{k} > 0" for k in range(1, DOUBLED + 1)}
    limits = [0, 1, 100, 2**16, MOST_STEPS, 2**(DOUBLED + 1) - 1, 2**(DOUBLED + 1)]
    found = evaluated(it.folder, schema("", parts=derived(DOUBLED, "1", "d{0} + d{0}"), **clauses), file("#1=E();"), limits)
    wanted = {}
    for k in range(1, DOUBLED + 1):
        wanted |= outcomes(f"W{k}", limits, "TRUE", 3 + 2**(k + 1) - 3)
    expect(it, "attributes asked for twice", found, wanted)


# ---- small schemas whose values and steps are told

OPTIONAL = """SCHEMA s; ENTITY e; i : OPTIONAL INTEGER;
WHERE a : i < 3; b : (i < 3) AND FALSE; c : (i < 3) OR TRUE; d : NVL(i, 7) = 7; f : SIZEOF(QUERY(z <* [1, 2] | z < i)) = 0;
END_ENTITY; END_SCHEMA;"""
USERS = """SCHEMA s; ENTITY p; x : REAL; n : OPTIONAL STRING; INVERSE u : SET [0:?] OF q FOR a; WHERE w1 : SIZEOF(u) <= 2; END_ENTITY;
ENTITY q; a : p; END_ENTITY; END_SCHEMA;"""
EXTENTS = """SCHEMA s; ENTITY e; END_ENTITY;
RULE r1 FOR (e); WHERE q : SIZEOF(QUERY(p <* e | TRUE)) >= 0; END_RULE;
RULE r2 FOR (e); WHERE q : NOT (SIZEOF(QUERY(p <* e | TRUE)) < 0); END_RULE; END_SCHEMA;"""
MANY = 66_665
CALLS = """SCHEMA s; FUNCTION f (n : INTEGER) : INTEGER; IF n <= 0 THEN RETURN (0); END_IF; RETURN (f(n - 1)); END_FUNCTION;
ENTITY e; k : INTEGER; WHERE w : f(k) = 0; END_ENTITY; END_SCHEMA;"""
BAGS = """SCHEMA s; ENTITY e; a, b : BAG OF INTEGER; WHERE both : a * b; less : a - 2; joined : [1, 2] + 3; same : (a + b) - b :=: a;
END_ENTITY; END_SCHEMA;"""


def told_schemas(it):
    """What these come to at limits around their steps."""
    wanted = {}
    for label, value, steps in (("A", "UNKNOWN", 3), ("B", "FALSE", 5), ("C", "TRUE", 5), ("D", "TRUE", 5), ("F", "TRUE", 18)):
        wanted |= outcomes(label, [2, 3, 4, 5, 17, 18, MOST_STEPS], value, steps)
    expect(it, "an OPTIONAL attribute", evaluated(it.folder, OPTIONAL, file("#1=E($);"), [2, 3, 4, 5, 17, 18, MOST_STEPS]), wanted)
    for users, value in ((0, "TRUE"), (1, "TRUE"), (2, "TRUE"), (3, "FALSE")):
        wanted = {(limit, "P", "W1", "#1"): f"{value} {4 + users}" if limit >= 4 + users else "LIMIT" for limit in (3 + users, 4 + users, MOST_STEPS)}
        data = "#1=P(1.,$);" + "".join(f"#{k + 2}=Q(#1);" for k in range(users))
        expect(it, f"{users} users", evaluated(it.folder, USERS, file(data), [3 + users, 4 + users, MOST_STEPS]), wanted)
    # (5 and 3 for each instance, and in R2 one more)
    for more in (-1, 0, 1):
        count = MANY + more
        limits = [MOST_STEPS, 5 + 3 * count - 1, 5 + 3 * count, 6 + 3 * count]
        wanted = {(limit, rule, "Q", "?"): f"TRUE {steps}" if steps <= limit else "LIMIT"
                  for limit in limits for rule, steps in (("R1", 5 + 3 * count), ("R2", 6 + 3 * count))}
        data = "".join(f"#{k}=E();" for k in range(1, count + 1))
        expect(it, f"{count} instances", evaluated(it.folder, EXTENTS, file(data), limits), wanted)
    wanted = limited("W", [MOST_STEPS, MOST_LIMIT], "#201") | limited("W", [MOST_STEPS, MOST_LIMIT], "#202")
    for k in range(MOST_BODIES):
        wanted |= outcomes("W", [MOST_STEPS, MOST_LIMIT], "TRUE", 10 + 9 * k, f"#{k + 1}")
    data = "".join(f"#{k + 1}=E({k});" for k in range(MOST_BODIES + 2))
    expect(it, "calls of itself", evaluated(it.folder, CALLS, file(data), [MOST_STEPS, MOST_LIMIT]), wanted)
    wanted = outcomes("BOTH", [MOST_STEPS], "BAG[1: 2, 2]", 3 + (3 * 3 + 3 + 3)) | outcomes("LESS", [MOST_STEPS], "BAG[1: 1, 2]", 3)
    wanted |= outcomes("JOINED", [MOST_STEPS], "[1: 1, 2, 3]", 1 + (1 + 2 + 3) + 1)
    wanted |= outcomes("SAME", [MOST_STEPS], "TRUE", 1 + (1 + (3 + (3 * 3 + 3 + 3)) + 1 + (6 * 3 + 6 + 3)) + 1 + (3 * 3 + 3 + 3))
    expect(it, "bags", evaluated(it.folder, BAGS, file("#1=E((1,2,2),(2,2,3));"), [MOST_STEPS]), wanted)


# ---- beside other instances

UNSEEN = "ENTITY unseen_by_all; unseen_next : OPTIONAL unseen_by_all; END_ENTITY;"
UNSEEN_FORM = "#{}=UNSEEN_BY_ALL({});"
NAME = re.compile(r"'(?:[^']|'')*'|#(\d+)")
FAR = 1_000_000


def renamed(text, name_of):
    """A data section, or a value, whose instances have other names."""
    return NAME.sub(lambda found: f"#{name_of(int(found[1]))}" if found[1] else found[0], text)


def unseen(*names):
    """Instances that nothing refers to, in order of these names, each of which refers to the next one."""
    return "".join(UNSEEN_FORM.format(name, f"#{other}" if other else "$") for name, other in zip(names, [*names[1:], None]))


def beside_others(it):
    """The rows' values and steps where other instances stand before, between and behind theirs in the population, before and behind
    them in the file; and where a second one of all instances stands there, which has them too."""
    settings, rows = read_rows([])
    for setting in settings:
        mine = [row for row in rows if row.setting == setting]
        names = sorted({int(name) for name in re.findall(r"#(\d+)=", setting.data)})
        between = [0, 5, *(10 * name + 5 for name in names), FAR, FAR + 1]
        text = unseen(*between[::2]) + renamed(setting.data, lambda name: 10 * name) + unseen(*reversed(between[1::2]))
        expect_rows(it, f"{setting.name} between others", setting, mine, UNSEEN, text, [lambda name: 10 * name])
        twice = renamed(setting.data, lambda name: FAR + name) + setting.data
        clauses = [row for row in mine if not row.rule]
        expect_rows(it, f"{setting.name} twice", setting, clauses, "", twice, [lambda name: name, lambda name: FAR + name])


def expect_rows(it, name, setting, rows, more, data, namings):
    """The outcomes of rows over this data, in which their instances stand by these namings."""
    if not rows:
        return
    text = schema_of(setting, rows).removesuffix("END_SCHEMA;\n") + f"{more}\nEND_SCHEMA;\n"
    found = evaluated(it.folder, text, Setting(setting.name, "", "", data).file(), [MOST_STEPS])
    if isinstance(found, str):
        it.expect(name, found, "")
        return
    by_row = {(label, itself): outcome for (_, _, label, itself), outcome in found.items()}
    seen, wanted = {}, {}
    for row in rows:
        value = "LIMIT" if row.value is None else f"{written(row.value)} {row.steps}"
        for naming in namings[:1] if row.rule else namings:
            itself = "?" if row.rule else f"#{naming(row.self_name)}"
            seen[row.name, itself] = by_row.get((row.name.upper(), itself))
            wanted[row.name, itself] = renamed(value, naming)
    differ = [key for key in wanted if seen[key] != wanted[key]]
    it.expect(name, {key: seen[key] for key in differ[:5]}, {key: wanted[key] for key in differ[:5]})


if __name__ == "__main__":
    run_parts("evaluation_limits", (endless, chains_of_bodies, nested_attributes, told_schemas, beside_others),
              program_of(sys.argv[1:]))
