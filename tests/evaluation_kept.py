#!/usr/bin/env python3
"""Runs `trials kept`, where all evaluations remember derived values for those after them: its lines, and how many values are kept.

    tests/evaluation_kept.py [PROGRAM]

PROGRAM is as for evaluation.py. The lines are those of `trials rules`, whatever the order of the limits, and after them is a line
`KEPT n`. Of derived attributes the ones whose bodies finished are kept, each of an instance once; also where the rule that asked then
comes to its limit. Values, steps and numbers were worked out by hand from the tables of steps, before any program gave them. The last
line is 'evaluation_kept: N passed, M failed', and the status is 0 only if none failed.
"""
import os
import random
import re
import sys

from evaluation import ASSEMBLY, FILE, SCHEMA, USAGE, program_of
from evaluation_limits import file, schema
from expression_rows import HEAD, MOST_BODIES, MOST_STEPS, TAIL, read_rows, schema_of
from lib.harness import run_parts

LAST = re.compile(rb"KEPT \d+\n")
# around the steps of many rows
FEW = (0, 1, 2, 3, 4, 5, 7, 10, 20, 50, 803)


def run(it, word, text, data, limits):
    """What the program writes of a schema and a file, and its status."""
    it.folder.write("schema.exp", text)
    it.folder.write("file.step", data)
    return it.folder.run(word, "schema.exp", "file.step", *map(str, limits))


def lines(limits, clauses):
    """The lines of these clauses: each has for each SELF its value and its steps, or neither where nothing decides it."""
    return "".join(f"{limit} {clause} {itself} {'LIMIT' if steps is None or steps > limit else f'{value} {steps}'}\n"
                   for limit in limits for clause, outcomes in clauses.items() for itself, value, steps in outcomes).encode()


def expect(it, name, given, limits, clauses, count):
    """Compares all that is written of a schema and a file, and tells of the first line that differs."""
    status, out, err = run(it, "kept", *given, limits)
    wanted = lines(limits, clauses) + b"KEPT %d\n" % count
    it.expect(f"{name}: status", (status, err), (0, b""))
    pairs = zip(out.splitlines() + [None], wanted.splitlines() + [None])
    seen, told = next(((one, other) for one, other in pairs if one != other), (None, None))
    it.expect(f"{name}, limits {limits[:4]}", (seen, out == wanted), (told, True))


# ---- the lines of rules

def orders(limits):
    """The limits in orders in which few steps come before many, after them, and between."""
    return limits, limits[::-1], [MOST_STEPS, *limits, MOST_STEPS]


def expect_same(it, name, text, data, limits):
    for given in orders(limits):
        status, out, err = run(it, "rules", text, data, given)
        it.expect(f"{name}: status of rules", (status, err), (0, b""))
        status, kept, err = run(it, "kept", text, data, given)
        it.expect(f"{name}: status of kept", (status, err), (0, b""))
        it.expect(f"{name}, limits {given[:4]}: the lines of rules", kept[:len(out)] == out, True)
        it.expect(f"{name}, limits {given[:4]}: the last line", LAST.fullmatch(kept[len(out):]) is not None, True)


def lines_of_rules(it):
    """The rows of tests/data/expressions, and the files of example/assembly."""
    settings, rows = read_rows([])
    for setting in settings:
        mine = [row for row in rows if row.setting == setting]
        expect_same(it, f"setting {setting.name}", schema_of(setting, mine), setting.file(), [*FEW, MOST_STEPS])
    with open(os.path.join(ASSEMBLY, "assembly.exp"), encoding="utf-8") as text:
        assembly = text.read()
    for name in sorted(os.listdir(os.path.join(ASSEMBLY, "broken"))):
        with open(os.path.join(ASSEMBLY, "broken", name), encoding="utf-8") as text:
            expect_same(it, name, assembly, text.read(), [*FEW, MOST_STEPS])


# ---- 201 instances, each of which asks the one before it

H = "SCHEMA H; ENTITY e; nx : OPTIONAL e; DERIVE d : INTEGER := NVL(nx.d, 0); WHERE w : d = 0; END_ENTITY; END_SCHEMA;"
COUNT = MOST_BODIES + 1


def held(*leads):
    """The file of instances of H, from 1, by the name that each leads to, if any."""
    return HEAD.format("H") + "".join(f"#{k}=E({f'#{to}' if to else '$'});" for k, to in enumerate(leads, 1)) + TAIL


def chain_steps(bodies):
    """`=`, D and 0, and for each body NVL, an access, NX and 0; the one that leads nowhere has its access too."""
    return 3 + 4 * bodies if bodies <= MOST_BODIES else None


def chains(it):
    """200 bodies nest, and 201 don't, whichever are kept when they are asked."""
    forward = [(f"#{k}", "TRUE", chain_steps(k)) for k in range(1, COUNT + 1)]
    # (the whole of a validation: at the limit 200,000 are charged)
    it.expect("steps of all", sum(MOST_STEPS if steps is None else steps for _, _, steps in forward), 281_000)
    given = H, held(None, *range(1, COUNT))
    for limits in ([MOST_STEPS], [MOST_STEPS, MOST_STEPS], [803, MOST_STEPS], [MOST_STEPS, 802, 7, 6, 0]):
        expect(it, "each leads to the one before", given, limits, {"E.W": forward}, MOST_BODIES)
    # (#1 nests 201 bodies, none of which finishes; then #2 has 200 that do)
    backward = [(f"#{k}", "TRUE", chain_steps(COUNT + 1 - k)) for k in range(1, COUNT + 1)]
    for limits in ([MOST_STEPS], [MOST_STEPS, 803, 100]):
        expect(it, "each leads to the one after", (H, held(*range(2, COUNT + 1), None)), limits, {"E.W": backward}, MOST_BODIES)
    for count in (1, 2, 199, 200):
        expect(it, f"{count} instances", (H, held(None, *range(1, count))), [MOST_STEPS], {"E.W": forward[:count]}, count)
    for seed in range(5):
        names = random.Random(seed).sample(range(1, COUNT + 1), COUNT)
        leads = dict(zip(names, [None, *names]))
        bodies = {name: k for k, name in enumerate(names, 1)}
        shuffled = [(f"#{k}", "TRUE", chain_steps(bodies[k])) for k in range(1, COUNT + 1)]
        given = H, held(*(leads[k] for k in range(1, COUNT + 1)))
        for limits in ([MOST_STEPS], [MOST_STEPS, 803, 100]):
            expect(it, f"each leads to another one, shuffled by {seed}", given, limits, {"E.W": shuffled}, MOST_BODIES)


def by_functions(it):
    """Bodies of a function that nest: beneath a clause, and beneath a derived attribute, which is one body more."""
    down = "FUNCTION f (n : INTEGER) : INTEGER; IF n <= 0 THEN RETURN (0); END_IF; RETURN (f(n - 1)); END_FUNCTION;"
    # (`=`, a call with K, and 0; or `=`, D and 0, and in its body a call with K)
    for clause, steps, most, kept in (("f(k) = 0", 10, MOST_BODIES - 1, 0), ("d = 0", 11, MOST_BODIES - 2, 1)):
        given = schema(down, parts="k : INTEGER; DERIVE d : INTEGER := f(k);", w=clause), file(f"#1=E({most});#2=E({most + 1});")
        outcomes = [("#1", "TRUE", steps + 9 * most), ("#2", "", None)]
        expect(it, f"a function beneath {clause}", given, [MOST_STEPS, MOST_STEPS], {"E.W": outcomes}, kept)


# ---- the steps that are left

# E leads on as in H, C may be in its body, and A asks an E.
ASKING = ("SCHEMA H; {declarations} ENTITY e; nx : OPTIONAL e; DERIVE d : INTEGER := {first}NVL(nx.d, 0); END_ENTITY; "
          "ENTITY a; x : e; n : INTEGER; WHERE w : {clause}; END_ENTITY; END_SCHEMA;")
ASKER = 301


def asking(clause, bodies, asks, declarations="", first=""):
    """The schema and the file of a chain of so many bodies, and of instances of A that ask: each of them an E, with an N."""
    askers = "".join(f"#{k}=A(#{x},{n});" for k, (x, n) in enumerate(asks, ASKER))
    return ASKING.format(declarations=declarations, first=first, clause=clause), held(None, *range(1, bodies)).replace(TAIL, askers + TAIL)


def expect_each(it, name, given, limits, clauses, counts):
    """As `expect`, of each limit in a process of its own. Counts are the least and the most values that a limit may leave."""
    it.folder.write("schema.exp", given[0])
    it.folder.write("file.step", given[1])
    ran = it.pool.map(lambda limit: it.folder.run("kept", "schema.exp", "file.step", str(limit)), limits)
    differ, before = [], 0
    for limit, (status, out, err) in zip(limits, ran):
        text, _, count = out.rpartition(b"KEPT ")
        kept = int(count or -1)
        least, most = counts(limit)
        if (status, text, err) != (0, lines([limit], clauses), b"") or not max(least, before) <= kept <= most:
            differ.append((limit, status, out, err))
        before = kept
    it.expect(f"{name}, each of {len(limits)} limits by itself", differ[:3], [])


def steps_left(it):
    """Each number of steps that a rule may take: of values that were kept before, that aren't, and that are kept within the same rule."""
    for bodies in (1, 2, MOST_BODIES - 1, MOST_BODIES):
        # (an access and X, and each body as in H)
        use = 2 + 4 * bodies
        for name, clause, steps in (("once", "x.d = 0", 1 + use + 1), ("twice", "x.d = x.d", 1 + use + use)):
            given = asking(clause, bodies, [(bodies, 0)])
            clauses = {"A.W": [(f"#{ASKER}", "TRUE", steps)]}
            limits = range(steps + 2)
            expect(it, f"{bodies} bodies {name}, kept before", given, [MOST_STEPS, *limits], clauses, bodies)
            # (a body takes four steps; all have finished once the first use has)
            counts = lambda limit, use=use, bodies=bodies: (bodies if limit >= 1 + use else 0, min(bodies, limit // 4))  # noqa: E731
            expect_each(it, f"{bodies} bodies {name}", given, limits, clauses, counts)


# ---- the places where a value is asked

def inner_ones_kept(it):
    """Chains of which the innermost bodies are kept: 200 bodies nest, and 201 don't."""
    for bodies in (MOST_BODIES - 1, MOST_BODIES, COUNT):
        for kept in (1, 100, MOST_BODIES - 2, MOST_BODIES - 1, MOST_BODIES):
            asks = [(kept, 0), (bodies, 0), (kept, 0)]
            outcomes = [(f"#{k}", "TRUE", chain_steps(x) and chain_steps(x) + 1) for k, (x, _) in enumerate(asks, ASKER)]
            count = max(kept, bodies) if bodies <= MOST_BODIES else kept
            expect(it, f"the innermost {kept} of {bodies}", asking("x.d = 0", COUNT, asks), [MOST_STEPS, 2, MOST_STEPS], {"A.W": outcomes}, count)


# What a function does in its innermost body, and its steps beside those of D, and how often it asks D.
LEAVES = {
    "at once": ("RETURN (x.d);", 1 + 2, 1),
    # (two elements and one more for their size; each turn itself, `=`, the access, and Q)
    "in QUERY": ("RETURN (SIZEOF(QUERY(q <* [1, 1] | x.d = q)));", 1 + 1 + 1 + (1 + 2 + 3) + 2 * (1 + 1 + 2 + 1), 2),
    "in REPEAT": ("REPEAT k := 1 TO 2; n := x.d; END_REPEAT; RETURN (n);", 3 + 2 * (1 + 2) + 2, 2),
}
DOWN = "FUNCTION f (x : e; n : INTEGER) : INTEGER; IF n <= 0 THEN {} END_IF; RETURN (f(x, n - 1)); END_FUNCTION; "
CONSTANTS = 10


def constants_of(count):
    """Constants C1, C2 and so on, of 0, each of which asks the one before, and what the last takes with its name."""
    texts = ["0", *(f"0 + c{k}" for k in range(1, count))]
    return "CONSTANT " + " ".join(f"c{k} : INTEGER := {text};" for k, text in enumerate(texts, 1)) + " END_CONSTANT; ", 1 + 1 + 3 * (count - 1)


def places(it):
    """A value that is asked deeper than where it was found, and less deep, whichever is first: within functions, QUERY and REPEAT, and
    where constants nest beneath it."""
    constants, takes = constants_of(CONSTANTS)
    for leaf, (text, steps, uses) in LEAVES.items():
        for bodies in (1, 2, 100, MOST_BODIES - 1 - CONSTANTS, MOST_BODIES - 1):
            for first in ("", f"c{CONSTANTS} + "):
                # (the constants are asked by the innermost body too; a sum is one step more)
                nested, body = (bodies + CONSTANTS, 4 + 1 + takes) if first else (bodies, 4)
                deepest = MOST_BODIES - 1 - nested
                if deepest < 0:
                    continue
                ns = sorted({0, deepest // 2, deepest, deepest + 1})
                for order in (ns, ns[::-1], [ns[-1], *ns]):
                    asks = [(bodies, n) for n in order]
                    # (`=`, a call with X and N, and 0; each body an IF of 4, RETURN, a call with X and N - 1, and the last one an IF alone)
                    outcomes = [(f"#{k}", "TRUE", 5 + 10 * n + 4 + steps + uses * body * bodies if n <= deepest else None)
                                for k, (_, n) in enumerate(asks, ASKER)]
                    given = asking("f(x, n) = 0", bodies, asks, constants + DOWN.format(text), first)
                    expect(it, f"asked {leaf} in order {order}, {bodies} bodies, {first}", given, [MOST_STEPS, MOST_STEPS], {"A.W": outcomes}, bodies)


# ---- cycles

# The DERIVE clause of E, and how many of its attributes finish when A is asked: operands are evaluated from left to right.
CYCLES = {
    "one": ("a : INTEGER := a;", 0),
    "one, G before it": ("a : INTEGER := g + a; g : INTEGER := 5;", 1),
    "one, G after it": ("a : INTEGER := a + g; g : INTEGER := 5;", 0),
    "one, G asks H": ("a : INTEGER := g + a; g : INTEGER := h + 1; h : INTEGER := 5;", 2),
    "one through a function": ("a : INTEGER := g + f(SELF); g : INTEGER := 5;", 1),
    "two": ("a : INTEGER := b; b : INTEGER := a;", 0),
    "two, G and H before them": ("a : INTEGER := g + b; b : INTEGER := h + a; g : INTEGER := 1; h : INTEGER := 2;", 2),
    "two, H after the second": ("a : INTEGER := g + b; b : INTEGER := a + h; g : INTEGER := 1; h : INTEGER := 2;", 1),
    "two, asked from outside": ("a : INTEGER := g + b; b : INTEGER := c; c : INTEGER := b; g : INTEGER := 1;", 1),
    "three": ("a : INTEGER := b; b : INTEGER := c; c : INTEGER := a;", 0),
    "three, one before each": ("a : INTEGER := g + b; b : INTEGER := h + c; c : INTEGER := i + a; g : INTEGER := 1; h : INTEGER := 2;"
                               " i : INTEGER := 3;", 3),
    "three, H after the second": ("a : INTEGER := g + b; b : INTEGER := c + h; c : INTEGER := i + a; g : INTEGER := 1; h : INTEGER := 2;"
                                  " i : INTEGER := 3;", 2),
}
ASKS = "FUNCTION f (x : e) : INTEGER; RETURN (x.a); END_FUNCTION;"


def cycles(it):
    """Of attributes that ask one another round, and of what asks them, nothing is kept; what they ask beside is."""
    for name, (parts, count) in CYCLES.items():
        declarations = ASKS if "f(SELF)" in parts else ""
        text = schema(declarations, parts=f"DERIVE {parts}", w="a = 1")
        for limits in ([MOST_STEPS], [MOST_STEPS, 2**64 - 1, 0, MOST_STEPS]):
            expect(it, f"cycle of {name}", (text, file("#1=E();")), limits, {"E.W": [("#1", "", None)]}, count)
        outcomes = [(f"#{k}", "", None) for k in (1, 2, 3)]
        expect(it, f"cycle of {name}, thrice", (text, file("#1=E();#2=E();#3=E();")), [MOST_STEPS], {"E.W": outcomes}, 3 * count)
    # instances that lead to one another, one that leads to them, and two that don't
    for count in (1, 2, 3):
        leads = [*range(2, count + 1), 1]
        outcomes = [(f"#{k}", "", None) for k in range(1, count + 2)]
        expect(it, f"{count} instances in a cycle", (H, held(*leads)), [MOST_STEPS], {"E.W": outcomes[:-1]}, 0)
        ends = [(f"#{count + 2}", "TRUE", chain_steps(1)), (f"#{count + 3}", "TRUE", chain_steps(2))]
        expect(it, f"{count} instances in a cycle, and others", (H, held(*leads, 1, None, count + 2)), [MOST_STEPS, 7],
               {"E.W": [*outcomes, *ends]}, 2)


# ---- limits behind what finished

# (a call with its argument, REPEAT with its bounds, 100 turns, and RETURN N)
LONG = "FUNCTION f (n : INTEGER) : INTEGER; REPEAT k := 1 TO n; ; END_REPEAT; RETURN (n); END_FUNCTION;"
CALL = 2 + 3 + 100 + 2


def behind(it):
    """What finished is kept where its rule comes to the limit, and what didn't isn't."""
    # (each row has the numbers by limits. These are the same whether a node's own step is charged before those of its parts or after them:
    # that shows in no line, and isn't said)
    rows = {
        # D is a name and a literal
        "before a call": ("d : INTEGER := 1;", "d + f(100) = 101", 1 + 1 + 2 + CALL + 1, {0: 0, 4: 1, 50: 1, 111: 1, 112: 1}),
        "after a call": ("d : INTEGER := 1;", "f(100) + d = 101", 1 + 1 + CALL + 2 + 1, {0: 0, 50: 0, 107: 0, 111: 1, 112: 1}),
        # C is a sum of B, which is a sum of A, and the call
        "in an attribute": ("a : INTEGER := 1; b : INTEGER := a + 1; c : INTEGER := b + f(100);", "c = 102",
                            1 + (1 + 1 + (1 + 1 + (1 + 1) + 1) + CALL) + 1, {0: 0, 50: 2, 112: 2, 115: 3, 116: 3}),
    }
    for name, (parts, clause, steps, counts) in rows.items():
        given = schema(LONG, parts=f"DERIVE {parts}", w=clause), file("#1=E();#2=E();#3=E();")
        clauses = {"E.W": [(f"#{k}", "TRUE", steps) for k in (1, 2, 3)]}
        it.expect(f"{name}: the last limit is the steps of the rule", max(counts), steps)
        for limit, count in counts.items():
            expect(it, f"a limit of {limit} {name}", given, [limit], clauses, 3 * count)
        # what one limit left is there for the next one, and none is kept twice
        expect(it, f"rising limits {name}", given, [*counts], clauses, 3 * max(counts.values()))
        expect(it, f"falling limits {name}", given, [*counts][::-1], clauses, 3 * max(counts.values()))
    # H at few steps: D of the first takes 4 and its name 1. With 6 it finishes and 0 is missing, and D of the second takes 8
    outcomes = {"E.W": [(f"#{k}", "TRUE", chain_steps(k)) for k in range(1, COUNT + 1)]}
    for limit, count in ((0, 0), (3, 0), (6, 1), (7, 1), (10, 2), (802, MOST_BODIES), (803, MOST_BODIES)):
        expect(it, "a chain at few steps", (H, held(None, *range(1, COUNT))), [limit], outcomes, count)


# ---- the command line

def command_line(it):
    """As for `rules`: one line, and status 2. Without derived attributes, and without a limit, nothing is kept."""
    no_limit = b"a limit is no number up to 18446744073709551615"
    good = FILE.format("S", "#7=E(1);")
    words = ["kept", "schema.exp", "file.step"]
    for name, text, data, given, told in (
            ("no words", SCHEMA, good, words[:1], USAGE), ("a schema alone", SCHEMA, good, words[:2], USAGE),
            ("no number", SCHEMA, good, [*words, "1", "-1"], no_limit), ("an empty word", SCHEMA, good, [*words, ""], no_limit),
            ("a limit of 65 bits", SCHEMA, good, [*words, str(2**64)], no_limit),
            ("no file", SCHEMA, good, ["kept", "schema.exp", "none.step", "1"], b"a file can't be read or is over 8 MiB"),
            ("no schema", "SCHEMA", good, [*words, "1"], b"Syntax line 1 column 7"),
            ("no exchange file", SCHEMA, "ISO", [*words, "1"], b"no exchange file: byte 0"),
            ("another schema", SCHEMA, FILE.format("T", ""), [*words, "1"], b"a file of another schema"),
            ("a faulty instance", SCHEMA, FILE.format("S", "#7=F();"), [*words, "1"], b"a faulty instance: #7")):
        it.folder.write("schema.exp", text)
        it.folder.write("file.step", data)
        it.expect(name, it.folder.run(*given), (2, b"", b"trials: %s\n" % told))
    clauses = {"E.W": [("#7", "1", 1)], "E.#2": [("#7", "7", 1)], "R.#1": [("?", "TRUE", 1)]}
    expect(it, "no derived attribute", (SCHEMA, good), [1, 0, MOST_STEPS], clauses, 0)
    expect(it, "no limit", (H, held(None)), [], {}, 0)


if __name__ == "__main__":
    run_parts("evaluation_kept", (lines_of_rules, chains, by_functions, steps_left, inner_ones_kept, places, cycles, behind, command_line),
              program_of(sys.argv[1:]))
