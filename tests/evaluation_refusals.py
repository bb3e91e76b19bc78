#!/usr/bin/env python3
"""Refuses each allocation of a run of `trials rules` and of `trials kept` in turn, and compares all that it writes.

    tests/evaluation_refusals.py [PROGRAM]

PROGRAM is as for evaluation.py. The run compiles a small schema that has each sort of declaration and of expression, makes the
domain of a small file, and evaluates each clause at two limits. It is run once for each of its allocations with that one refused
by tools/refuse.c, and once with that one and all later ones refused. Then it writes the exact lines, or none, and says that it is
out of memory with status 2; where the words of its command line find no room, that these can't be read. Where derived values are
remembered, no refusal makes these more. The last line is 'evaluation_refusals: N passed, M failed', and the status is 0 only if
none failed.
"""
import collections
import os
import sys

from evaluation import program_of
from expression_rows import HEAD, TAIL
from lib.harness import TOP, Folder, Wrong, run_parts

sys.path.insert(0, os.path.join(TOP, "tools"))

from each_refusal import run, shim_in  # noqa: E402

SCHEMA = """SCHEMA r;
CONSTANT most : INTEGER := 2; names : LIST OF label := ['a', 'b']; END_CONSTANT;
TYPE label = STRING; END_TYPE;
TYPE shade = ENUMERATION OF (dark, light); END_TYPE;
TYPE any = SELECT (label, p); END_TYPE;
ENTITY p; n : label; s : OPTIONAL shade;
DERIVE d : STRING := n + 'x'; e : SET OF INTEGER := [1, 2, 1];
INVERSE u : SET OF q FOR a; b : BAG OF q FOR many;
WHERE
  texts : names[most] + d;
  users : u;
  joined : b + u;
  types : TYPEOF(SELF);
  uses : USEDIN(SELF, '');
  found : QUERY(z <* e | z > 1);
  called : f(3, SELF);
  item : NVL(s, light);
END_ENTITY;
ENTITY t SUBTYPE OF (p); r : LIST OF REAL; DERIVE SELF\\p.d : STRING := 'z'; END_ENTITY;
ENTITY q; a : p; many : LIST OF any;
WHERE
  listed : many;
  within : SELF.a.n IN many;
  bits : %101 + %1;
  derived : a.d;
  indexed : a\\t.r[1];
END_ENTITY;
FUNCTION f (k : INTEGER; x : p) : LIST OF label;
  LOCAL c : LIST OF label := []; END_LOCAL;
  REPEAT i := 1 TO k; IF i <> 2 THEN c := c + x.n; END_IF; END_REPEAT;
  RETURN (c);
END_FUNCTION;
RULE g FOR (p, q);
  LOCAL c : BAG OF p := []; END_LOCAL;
  c := QUERY(x <* p | SIZEOF(x.b) > 0);
WHERE
  used : c;
  product : SIZEOF(p) * SIZEOF(q);
END_RULE;
END_SCHEMA;
"""
DATA = "#1=P('a',.DARK.);#2=T('b',$,(1.5,2.));#3=Q(#1,(LABEL('a'),#2,#2));#4=Q(#2,());"

# Each clause with its values and steps of the instances of its entity, in their order.
WANTED = {
    # (a sum of 1; an access of 1, the constant's name and its body of 1 + 2 + 3, and that of the other with 1; D with its body; the length)
    "P.TEXTS": [("#1", "'bax'", 1 + (1 + (1 + 1 + 2 + 3) + (1 + 1)) + (1 + (1 + 1 + 1 + 2)) + 3),
                ("#2", "'bz'", 1 + (1 + (1 + 1 + 2 + 3) + (1 + 1)) + (1 + 1) + 2)],
    "P.USERS": [("#1", "SET[1: #3]", 1 + 1), ("#2", "SET[1: #4]", 1 + 1)],
    "P.JOINED": [("#1", "BAG[1: #3]", 1 + 1 + (1 + 1) + (0 * 1 + 0 + 1)), ("#2", "BAG[1: #3, #3, #4]", 1 + (1 + 2) + (1 + 1) + (2 * 1 + 2 + 1))],
    "P.TYPES": [("#1", "SET[1: 'R.P']", 1 + 1 + 1), ("#2", "SET[1: 'R.P', 'R.T']", 1 + 1 + 2)],
    "P.USES": [("#1", "BAG[1: #3]", 1 + 1 + 1 + 1), ("#2", "BAG[1: #3, #3, #4]", 1 + 1 + 1 + 3)],
    # (E is a body of 1 + 3 + 4, and has two elements)
    "P.FOUND": [(itself, "SET[1: 2]", 1 + (1 + 1 + 3 + 4) + 2 * (1 + 1 + 1 + 1)) for itself in ("#1", "#2")],
    # (a call with two arguments, LOCAL, REPEAT with its bounds, three IFs, two assignments, RETURN)
    "P.CALLED": [(itself, f"LIST[1: LABEL('{text}'), LABEL('{text}')]", (1 + 1 + 1) + (1 + 1) + (1 + 1 + 1) + 3 * (1 + 1 + 1 + 1)
                  + 2 * (1 + 1 + 1 + (1 + 1)) + (1 + 1)) for itself, text in (("#1", "a"), ("#2", "b"))],
    "P.ITEM": [("#1", "SHADE.DARK", 1 + 1 + 1), ("#2", "SHADE.LIGHT", 1 + 1 + 1)],
    "Q.LISTED": [("#3", "LIST[1: LABEL('a'), #2, #2]", 1), ("#4", "LIST[1: ]", 1)],
    "Q.WITHIN": [("#3", "TRUE", 1 + (1 + 1 + 1) + 1 + 3), ("#4", "FALSE", 1 + (1 + 1 + 1) + 1)],
    "Q.BITS": [(itself, "%1011", 1 + 1 + 1 + 4) for itself in ("#3", "#4")],
    "Q.DERIVED": [("#3", "'ax'", 1 + 1 + (1 + 1 + 1 + 2)), ("#4", "'z'", 1 + 1 + 1)],
    "Q.INDEXED": [("#3", "?", 1 + (1 + (1 + 1)) + 1), ("#4", "15.E-1", 1 + (1 + (1 + 1)) + 1)],
    # (LOCAL and an assignment with a QUERY stand before each clause of the rule)
    "G.USED": [("?", "SET[1: #2]", (1 + 1) + (1 + 1 + (1 + 2) + 2 * (1 + 1 + 1 + (1 + 1) + 1) + 2) + 1)],
    "G.PRODUCT": [("?", "4", (1 + 1) + (1 + 1 + (1 + 2) + 2 * (1 + 1 + 1 + (1 + 1) + 1) + 2) + 1 + (1 + 1 + 2) + (1 + 1 + 2))],
}
LIMITS = (200_000, 9)
WORDS = ("schema.exp", "file.step", *map(str, LIMITS))
# (D and E of #1 and #2: D of #2 is that of T)
KEPT = 4
OUT_OF_MEMORY = (2, b"", b"trials: out of memory\n")
# (what the system gives of words tells want of memory by no name of its own)
NO_WORDS = (2, b"", b"trials: the command line isn't UTF-8\n")


def lines():
    """What the run writes."""
    return "".join(f"{limit} {clause} {itself} {f'{value} {steps}' if steps <= limit else 'LIMIT'}\n"
                   for limit in LIMITS for clause, outcomes in WANTED.items() for itself, value, steps in outcomes).encode()


def rules(it):
    """Each allocation in turn, alone and with all later ones."""
    each_refusal(it, ("rules", *WORDS), [lines()])


def kept(it):
    """The same where derived values are remembered."""
    each_refusal(it, ("kept", *WORDS), [lines() + b"KEPT %d\n" % count for count in range(KEPT, -1, -1)])


def each_refusal(it, command, texts):
    """Runs of a command, which may write the first of some texts, and any of them where an allocation is refused."""
    folder = it.folder.folder.name
    it.folder.write("schema.exp", SCHEMA)
    it.folder.write("file.step", HEAD.format("R") + DATA + TAIL)
    shim_in(folder)
    whole = run(Folder.program, folder, [], command)
    exact, *fewer = [(0, text, b"") for text in texts]
    it.expect("with no refusal", (whole.status, whole.output, whole.errors, whole.refusals), (*exact, 0))

    # (a run that reads no file takes only what comes before that, and the words of its fault)
    words = run(Folder.program, folder, [], (command[0], "nothing.ex", *command[2:])).allocations

    def one(turn):
        key, place = turn
        try:
            result = run(Folder.program, folder, [], command, **{key: str(place)})
        except Wrong as fault:
            return key, place, str(fault), -1
        return key, place, (result.status, result.output, result.errors), result.refusals

    # (behind the last one there is one that isn't refused)
    turns = [(key, place) for key in ("REFUSE_NTH", "REFUSE_FROM") for place in range(1, whole.allocations + 2)]
    counts = collections.Counter()
    for key, place, told, refusals in it.pool.map(one, turns):
        is_last = place > whole.allocations
        may_be = [exact] if is_last else [OUT_OF_MEMORY, exact, *fewer, *([NO_WORDS] if place < words else [])]
        it.expect(f"{key}={place} of {whole.allocations}", told if told not in may_be else None, None)
        it.expect(f"{key}={place}: whether anything was refused", refusals > 0, not is_last)
        outcomes = {OUT_OF_MEMORY: "out of memory", NO_WORDS: "no words"} | dict.fromkeys(fewer, "the exact lines, and fewer values")
        counts[key, outcomes.get(told, "the exact lines")] += 1
    for (key, outcome), count in sorted(counts.items()):
        print(f"    {key}: {outcome}: {count} runs")
    it.expect("a refusal that led to want of memory", all(counts[key, "out of memory"] > 0 for key in ("REFUSE_NTH", "REFUSE_FROM")), True)


if __name__ == "__main__":
    run_parts("evaluation_refusals", (rules, kept), program_of(sys.argv[1:]))
