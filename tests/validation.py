#!/usr/bin/env python3
"""Runs the built program on the request that validates a group's population, and compares all that it writes, byte for byte.

    tests/validation.py [PROGRAM]

Each function `test_*` is one test; its document string says what has to hold. The last line is
'validation: N passed, M failed', and the status is 0 only if none failed.
"""
import sys

from lib.harness import run_tests
from lib.messages import (
    ATTRIBUTES_HOLD, BAD_NAME, BAD_REQUEST, CONFIG, FIRST, NO_SUCH_ITEM, OK, UNKNOWN_PARTNER, check_is, create, create_group, delete, exclude, expect,
    file_of, grant, grant_group, include, instance_fault, instances, line, link, named, names, put, report_is, revoke, revoke_group, users,
    users_are, validate,
)

O = """SCHEMA O; ENTITY e; i : OPTIONAL INTEGER;
WHERE a : i < 3; b : (i < 3) AND FALSE; c : (i < 3) OR TRUE;
d : NVL(i, 7) = 7; f : SIZEOF(QUERY(z <* [1, 2] | z < i)) = 0;
END_ENTITY; END_SCHEMA;
"""
U = "SCHEMA U; ENTITY e; k : OPTIONAL INTEGER; UNIQUE u1 : k; END_ENTITY; END_SCHEMA;"
G = """SCHEMA G; FUNCTION f(n : INTEGER) : INTEGER; IF n <= 0 THEN RETURN (0); END_IF; RETURN (f(n - 1)); END_FUNCTION;
ENTITY e; k : INTEGER; WHERE w : f(k) = 0; END_ENTITY; END_SCHEMA;
"""
N = """SCHEMA N; ENTITY e; DERIVE a : INTEGER := b; b : INTEGER := a; WHERE w : a = 1; END_ENTITY; END_SCHEMA;
"""
# derived attributes that take few steps and many, and that nest, asked by their own rule and by others
D = """SCHEMA D; FUNCTION f(n : INTEGER) : INTEGER; LOCAL k : INTEGER := 0; END_LOCAL; REPEAT i := 1 TO n; k := k + 1; END_REPEAT; RETURN (k);
END_FUNCTION; ENTITY e; n : INTEGER; DERIVE d : INTEGER := f(n); WHERE w : d = n; END_ENTITY;
ENTITY p; asked : e; WHERE v : asked.d + asked.d = 2 * asked.n; END_ENTITY; END_SCHEMA;
"""
K = """SCHEMA K; FUNCTION f(n : INTEGER) : INTEGER; IF n <= 0 THEN RETURN (0); END_IF; RETURN (f(n - 1)); END_FUNCTION;
FUNCTION g(x : e) : INTEGER; RETURN (x.d); END_FUNCTION;
ENTITY e; k : INTEGER; DERIVE d : INTEGER := f(k); WHERE w : d = 0; END_ENTITY; ENTITY p; asked : e; WHERE v : g(asked) = 0; END_ENTITY; END_SCHEMA;
"""
# a derived attribute that asks the one of another instance, and one that a rule of each instance asks
H = "SCHEMA H; ENTITY e; nx : OPTIONAL e; DERIVE d : INTEGER := NVL(nx.d, 0); WHERE w : d = 0; END_ENTITY; END_SCHEMA;"
X = "SCHEMA X; ENTITY e; a : INTEGER; DERIVE d : INTEGER := a + 1; WHERE w : d = a + 1; END_ENTITY; END_SCHEMA;"
B = "SCHEMA B; ENTITY p; INVERSE us : BAG [0:2] OF u FOR l; END_ENTITY; ENTITY u; l : BAG OF p; END_ENTITY; END_SCHEMA;"
# rules without labels, of a type and of each clause of an entity, names in another order than they are declared, and a supertype's attribute
R = """SCHEMA R;
TYPE size = INTEGER; WHERE SELF > 0; small : SELF < 10; END_TYPE;
ENTITY z SUBTYPE OF (b); c : size; UNIQUE a, c; one : c; WHERE a <> c; END_ENTITY;
ENTITY b; a : size; d : LIST [1:2] OF size; INVERSE user : k FOR r; END_ENTITY;
ENTITY k; r : OPTIONAL b; END_ENTITY;
RULE last FOR (k); WHERE SIZEOF(k) > 9; w : SIZEOF(k) < 9; END_RULE;
END_SCHEMA;
"""
T_HOLDS = [*ATTRIBUTES_HOLD, check_is("where", "P", "W1"), check_is("inverse", "P", "U")]


def filled(schema, *instances_of, who="ann"):
    """Turns that make a group g of a partner with models m, or m0, m1, .., that hold these instances."""
    models = ["m"] if len(instances_of) == 1 else [f"m{place}" for place in range(len(instances_of))]
    return [(create_group(who, "g", schema), OK), *((it, reply) for model, held in zip(models, instances_of) for it, reply in [
        (create(who, model, schema), OK), (include(who, "g", who, model), OK),
        (put(who, who, model, file_of(held, schema)), instances(held.count("=")))])]


def expect_report(text, turns, report):
    """What is told of ann's group g behind these turns, by the schema of a text."""
    expect([*turns, (validate("ann", "ann", "g"), report)], {**CONFIG, "schemas": ["it.exp"]}, it=text)


# ---- what is told

def test_a_population_of_nothing():
    """Each rule of the schema has its entry, and nothing takes a step."""
    told = (b'{"ok":{"checks":[{"check":"unset","verdict":"TRUE"},{"check":"bounds","verdict":"TRUE"},{"check":"reference","verdict":"TRUE"},'
            b'{"check":"where","of":"P","rule":"W1","verdict":"TRUE"},{"check":"inverse","of":"P","rule":"U","verdict":"TRUE"}],"steps":0}}')
    expect([*filled("T", ""), (names("ann", "ann", "m"), named()), (validate("ann", "ann", "g"), told),
            (exclude("ann", "g", "ann", "m"), OK), (validate("ann", "ann", "g"), told)])


def test_rules_that_are_unknown_and_violated():
    """A rule is violated by FALSE alone; what is UNKNOWN is told as such."""
    expect_report(O, filled("O", "#1=E($);"), (
        b'{"ok":{"checks":[{"check":"unset","verdict":"TRUE"},{"check":"bounds","verdict":"TRUE"},{"check":"reference","verdict":"TRUE"},'
        b'{"check":"where","of":"E","rule":"A","unknown":[["ann","m",1]],"verdict":"UNKNOWN"},'
        b'{"check":"where","false":[["ann","m",1]],"of":"E","rule":"B","verdict":"FALSE"},'
        b'{"check":"where","of":"E","rule":"C","verdict":"TRUE"},{"check":"where","of":"E","rule":"D","verdict":"TRUE"},'
        b'{"check":"where","of":"E","rule":"F","verdict":"TRUE"}],"steps":36}}'))


def test_a_value_that_is_not_set():
    """A put takes it, and a validation tells the attribute by the entity that declares it; `*` is taken at derived places alone."""
    expect([*filled("T", "#1=P($,$);"), (validate("ann", "ann", "g"), (
        b'{"ok":{"checks":[{"check":"unset","false":[["ann","m",1,"P.X"]],"verdict":"FALSE"},{"check":"bounds","verdict":"TRUE"},'
        b'{"check":"reference","verdict":"TRUE"},{"check":"where","of":"P","rule":"W1","verdict":"TRUE"},'
        b'{"check":"inverse","of":"P","rule":"U","verdict":"TRUE"}],"steps":5}}')),
            (put("ann", "ann", "m", file_of("#1=P(*,$);")), instance_fault("NotDerived", 1))])


def test_links_of_others():
    """What others link to a population changes no reply about it."""
    asked = [(validate("ann", "ann", "g"), report_is(7, *T_HOLDS)),
             (users("ann", "ann", "g", ["ann", "m", 1], "T.Q.A"), users_are(("ann", "m", 2)))]
    expect([*FIRST, (create_group("ann", "g"), OK), (include("ann", "g", "ann", "m"), OK), *asked, (grant("ann", "m", "bob", "read"), OK),
            (create("bob", "b"), OK), (put("bob", "bob", "b", file_of("#1=Q(#9);"), link(9, "ann", "m", 1)), instances(1)), *asked])


def test_as_many_steps_as_there_may_be():
    """An evaluation of 200,000 steps is one, and one of a step more isn't, whatever others have: a thousand instances in a hundred models."""
    many = lambda count: "".join(f"#{name}=E();" for name in range(1, count + 1))
    told = (b'{"ok":{"checks":[{"check":"unset","verdict":"TRUE"},{"check":"bounds","verdict":"TRUE"},{"check":"reference","verdict":"TRUE"},'
            b'{"check":"rule","of":"R1","rule":"#1","verdict":"TRUE"},{"check":"rule","of":"R2","rule":"#1","verdict":"LIMIT"}],"steps":400000}}')
    others = [turn for k in range(100) for turn in ((create("bob", f"m{k}", "L"), OK), (put("bob", "bob", f"m{k}", file_of(many(10), "L")), instances(10)))]
    expect([*filled("L", many(66_665)), (validate("ann", "ann", "g"), told), *others, (validate("ann", "ann", "g"), told)])


def test_instances_that_agree():
    """UNIQUE lists each that agrees with another, and one without a value agrees with none."""
    expect_report(U, filled("U", "#1=E(1);#2=E(1);#3=E($);#4=E(2);"), (
        b'{"ok":{"checks":[{"check":"unset","verdict":"TRUE"},{"check":"bounds","verdict":"TRUE"},{"check":"reference","verdict":"TRUE"},'
        b'{"check":"unique","false":[["ann","m",1],["ann","m",2]],"of":"E","rule":"U1","verdict":"FALSE"}],"steps":4}}'))


def test_bodies_that_nest():
    """200 bodies may nest, and one that nests more counts as many steps as an evaluation may take."""
    expect_report(G, filled("G", "#1=E(199);#2=E(200);"), report_is(
        201_801, *ATTRIBUTES_HOLD, check_is("where", "E", "W", limit=[["ann", "m", 2]])))


def test_evaluations_that_are_not_begun():
    """An evaluation is begun while at most 19,800,000 steps are used."""
    expect_report(N, filled("N", "".join(f"#{name}=E();" for name in range(1, 103))), report_is(
        20_000_000, *ATTRIBUTES_HOLD, check_is("where", "E", "W", limit=[["ann", "m", it] for it in range(1, 101)],
                                               not_run=[["ann", "m", 101], ["ann", "m", 102]])))


def chain(count, backwards=False):
    """Instances of H, each of which leads to the one before it, or to the one after it."""
    if backwards:
        return "".join(f"#{k}=E({'$' if k == count else f'#{k + 1}'});" for k in range(1, count + 1))
    return "".join(f"#{k}=E({'$' if k == 1 else f'#{k - 1}'});" for k in range(1, count + 1))


def steps_of_chain(count):
    """W of an instance takes 3 steps and its D, which takes 4 more than that of the next one."""
    return sum(3 + 4 * k for k in range(1, count + 1))


def test_derived_attributes_that_ask_one_another():
    """At each use all bodies beneath count: 200 nest, and 201 don't, in whatever order the values are found."""
    for backwards, last in ((False, 201), (True, 1)):
        expect_report(H, filled("H", chain(200, backwards)), report_is(steps_of_chain(200), *ATTRIBUTES_HOLD, check_is("where", "E", "W")))
        expect_report(H, filled("H", chain(201, backwards)), report_is(
            281_000, *ATTRIBUTES_HOLD, check_is("where", "E", "W", limit=[["ann", "m", last]])))


def test_validations_by_turns():
    """What one validation found has no part in another, of another group or schema, or of the same group after a put."""
    def group(name, schema, held):
        return [(create_group("ann", name, schema), OK), (create("ann", f"m{name}", schema), OK), (include("ann", name, "ann", f"m{name}"), OK),
                (put("ann", "ann", f"m{name}", file_of(held, schema)), instances(held.count("=")))]

    def is_told(name, steps):
        return validate("ann", "ann", name), report_is(steps, *ATTRIBUTES_HOLD, check_is("where", "E", "W"))

    # (W of X: D with its body of three, and four more)
    turns = [*group("g", "H", chain(3)), *group("h", "H", chain(5, True)), *group("k", "X", "#1=E(4);#2=E(7);")]
    for turn in range(10):
        count = 3 + turn
        turns += [is_told("g", steps_of_chain(count)), is_told("h", steps_of_chain(5)), is_told("k", 2 * 8), is_told("g", steps_of_chain(count)),
                  (put("ann", "ann", "mg", file_of(chain(count + 1, turn % 2 == 0), "H")), instances(count + 1))]
    expect(turns, {**CONFIG, "schemas": ["h.exp", "x.exp"]}, h=H, x=X)


def test_derived_attributes_of_few_and_of_many():
    """What a derived attribute gives costs its steps wherever it is asked, be there few instances of its entity or many."""
    for others in (0, 252, 253, 300):
        counts = (0, 400, 600, 49_995, 49_998)
        held = "".join(f"#{name}=E({count});" for name, count in enumerate(counts, 1)) + "".join(f"#{name}=E(1);" for name in range(6, 6 + others))
        # f(n) takes 4 steps for each turn, 2 with its argument and 6 more
        steps = sum(min(4 * count + 11, 200_000) for count in counts) + others * (4 + 11) + 2 * (4 * 400 + 10) + 6
        expect_report(D, filled("D", held + "#1000=P(#2);"), report_is(
            steps, *ATTRIBUTES_HOLD, check_is("where", "E", "W", limit=[["ann", "m", 5]]), check_is("where", "P", "V")))


def test_derived_attributes_that_nest():
    """They nest as deep as they do wherever they are asked."""
    for others in (0, 300):
        held = "#1=E(197);#2=E(198);#3=E(199);#4=P(#1);#5=P(#2);" + "".join(f"#{name}=E(0);" for name in range(6, 6 + others))
        # f(n) takes 9 steps for each that nests and 8 more
        steps = (9 * 197 + 11) + (9 * 198 + 11) + 200_000 + others * 11 + (9 * 197 + 15) + 200_000
        expect_report(K, filled("K", held), report_is(
            steps, *ATTRIBUTES_HOLD, check_is("where", "E", "W", limit=[["ann", "m", 3]]), check_is("where", "P", "V", limit=[["ann", "m", 5]])))


def test_rules_by_their_names_and_places():
    """Checks stand in the order of the names of what declares their rules, a rule without a label is told by its place, and an inherited
    attribute by the entity that declares it."""
    expect_report(R, filled("R", "#1=Z(0,(5,20,3),0);#2=Z(0,(),0);#3=K(#1);"), report_is(
        # a type's rules take 3 steps for each value: on A and C of both, and on the three elements of D
        2 * 7 * 3
        # Z's own rule takes 3 for each, its first rule of UNIQUE two attributes for each, and its second one
        + 2 * 3 + 2 * 2 + 2 * 1
        # USER takes one step for each of the two and one for the one user that there is, and each rule 4 and one for the instance that it counts
        + 2 * 1 + 1 + 2 * (4 + 1),
        check_is("unset"), check_is("bounds", false=[["ann", "m", 1, "B.D"], ["ann", "m", 2, "B.D"]]), check_is("reference"),
        check_is("type", "SIZE", "#1", false=[["ann", "m", 1, "B.A"], ["ann", "m", 1, "Z.C"], ["ann", "m", 2, "B.A"], ["ann", "m", 2, "Z.C"]]),
        check_is("type", "SIZE", "SMALL", false=[["ann", "m", 1, "B.D"]]),
        check_is("where", "Z", "#1", false=[["ann", "m", 1], ["ann", "m", 2]]),
        check_is("unique", "Z", "#1", false=[["ann", "m", 1], ["ann", "m", 2]]),
        check_is("unique", "Z", "ONE", false=[["ann", "m", 1], ["ann", "m", 2]]),
        check_is("inverse", "B", "USER", false=[["ann", "m", 2]]),
        b'{"check":"rule","of":"LAST","rule":"#1","verdict":"FALSE"}', check_is("rule", "LAST", "W")))


# kinds of values, and two ways to spell one of a number
MANY = {
    "INTEGER": ("{}", "+{}"), "REAL": ("{}.5", "{}5.E-1"), "NUMBER": ("{}", "{}."), "STRING": ("'t{}'", r"'\X\74{}'"), "BINARY": ('"0{:04}"', '"0{:04}"'),
    "item": (".I{}.", ".I{}."), "either": ("A({})", "B({}.)"), "e": ("#{}", "#{}"), "LIST OF INTEGER": ("({},7)", "(+{},7)"),
    "BAG OF INTEGER": ("({},1000)", "(1000,{})"), "BAG OF LIST OF INTEGER": ("(({}),(7))", "((7),({}))"), "LIST OF LIST OF INTEGER": ("(({}),(7))", "((+{}),(7))"),
}
M = """SCHEMA M; TYPE a = INTEGER; END_TYPE; TYPE b = REAL; END_TYPE; TYPE either = SELECT (a, b); END_TYPE;
TYPE item = ENUMERATION OF (%s); END_TYPE; ENTITY e; END_ENTITY; %s END_SCHEMA;"""


def of_many(clause):
    """A schema with an entity k0, k1, .. for each kind of values."""
    items = ", ".join(f"i{number}" for number in range(10, 100))
    return M % (items, " ".join(f"ENTITY k{place}; {clause.format(kind)} END_ENTITY;" for place, kind in enumerate(MANY)))


def test_what_stands_twice_among_many():
    """In a SET of many no value stands twice, wherever the two stand and however they are spelled."""
    entities = "".join(f"#{name}=E();" for name in range(10, 100))
    lines, culprits = [], []
    for place, (one, other) in enumerate(MANY.values()):
        values = [one.format(number) for number in range(10, 10 + 40)]
        twice = [values[:at] + [other.format(number)] + values[at + 1:] for at, number in ((39, 10), (0, 49), (20, 29), (20, 11))]
        for held in (values, values[:9], *twice, values[:8] + [other.format(10)], values[:7] + [other.format(10)]):
            name = 1000 + len(lines)
            lines.append(f"#{name}=K{place}(({','.join(held)}));")
            if held[:9] != values[:9] or len(held) == 40 and held != values:
                culprits.append(["ann", "m", name, f"K{place}.V"])
    expect_report(of_many("v : SET OF {};"), filled("M", entities + "".join(lines)), report_is(
        0, check_is("unset"), check_is("bounds", false=culprits), check_is("reference")))


def test_rows_that_agree_among_many():
    """UNIQUE lists those that agree among many, wherever they stand and however their values are spelled."""
    entities = "".join(f"#{name}=E();" for name in range(10, 100))
    lines, checks = [], []
    for place, (one, other) in enumerate(MANY.values()):
        first = 1000 + 100 * place
        values = [one.format(number) for number in range(10, 10 + 40)]
        values[30], values[39] = other.format(20), other.format(10)
        lines += [f"#{first + at}=K{place}({value});" for at, value in enumerate(values)]
        checks.append(check_is("unique", f"K{place}", "U", false=[["ann", "m", first + at] for at in (0, 10, 30, 39)]))
    # a step for the attribute of each row
    expect_report(of_many("v : {}; UNIQUE u : v;"), filled("M", entities + "".join(lines)), report_is(
        40 * len(MANY), *ATTRIBUTES_HOLD, *[checks[place] for place in sorted(range(len(MANY)), key=lambda it: f"K{it}")]))


def test_more_uses_than_steps():
    """An inverse attribute takes a step for each use, and where these are more than an evaluation may take, it isn't known whether it holds."""
    for count in (199_999, 200_000, 200_001, 250_000):
        verdict = {"false": [["ann", "m", 1]]} if count < 200_000 else {"limit": [["ann", "m", 1]]}
        expect_report(B, filled("B", f"#1=P();#2=U(({','.join(['#1'] * count)}));"), report_is(
            200_000, *ATTRIBUTES_HOLD, check_is("inverse", "P", "US", **verdict)))


# ---- populations of several models

def test_culprits_in_their_order():
    """They stand by owner, model and name, whenever the models were made."""
    unset = [["ann", "M", 3, "P.X"], ["ann", "m", 1, "P.X"], ["ann", "m", 20, "P.X"], ["bob", "a", 1, "P.X"]]
    turns = [(create("bob", "a"), OK), (grant("bob", "a", "ann", "group"), OK), (create("ann", "m"), OK), (create("ann", "M"), OK), (create_group("ann", "g"), OK),
             *((include("ann", "g", *it), OK) for it in [("bob", "a"), ("ann", "m"), ("ann", "M")]),
             (put("ann", "ann", "m", file_of("#20=P($,$);#1=P($,$);#3=P(1.,$);")), instances(3)), (put("ann", "ann", "M", file_of("#3=P($,$);")), instances(1)),
             (put("bob", "bob", "a", file_of("#1=P($,$);")), instances(1))]
    expect([*turns, (validate("ann", "ann", "g"), report_is(5 * 5, check_is("unset", false=unset), *T_HOLDS[1:]))])


def test_links_within_a_population():
    """A link denotes its instance while the population has it; then it is a use, and else a reference that leads nowhere."""
    asked = validate("ann", "ann", "g")
    astray = report_is(0, *ATTRIBUTES_HOLD[:2], check_is("reference", false=[["bob", "b", 1, "Q.A"]]), *T_HOLDS[3:])
    expect([*FIRST, (create_group("ann", "g"), OK), (include("ann", "g", "ann", "m"), OK), (grant("ann", "m", "bob", "read"), OK), (create("bob", "b"), OK),
            (put("bob", "bob", "b", file_of("#1=Q(#9);"), link(9, "ann", "m", 1)), instances(1)), (asked, report_is(7, *T_HOLDS)),
            (grant("bob", "b", "ann", "group"), OK), (asked, report_is(7, *T_HOLDS)), (include("ann", "g", "bob", "b"), OK), (asked, report_is(9, *T_HOLDS)),
            (exclude("ann", "g", "ann", "m"), OK), (asked, astray), (include("ann", "g", "ann", "m"), OK), (asked, report_is(9, *T_HOLDS)),
            (delete("ann", "m"), OK), (asked, astray), (revoke("bob", "b", "ann"), OK), (asked, report_is(0, *T_HOLDS))])


# ---- who is told

def test_a_group_that_is_granted():
    """Who may read a group is told the same as its owner, also of models that he sees by it alone."""
    told = report_is(7, *T_HOLDS)
    expect([*FIRST, (create_group("ann", "g"), OK), (include("ann", "g", "ann", "m"), OK), (validate("ann", "ann", "g"), told),
            (validate("bob", "ann", "g"), NO_SUCH_ITEM), (grant_group("ann", "g", "bob"), OK), (validate("bob", "ann", "g"), told),
            (revoke_group("ann", "g", "bob"), OK), (validate("bob", "ann", "g"), NO_SUCH_ITEM), (validate("ann", "ann", "g"), told)])


def test_refusals_in_their_order():
    """The first that holds is told, and an unseen group is answered as an absent one."""
    expect([*FIRST, (create_group("ann", "g"), OK), (validate("ann", "carl", "a b"), BAD_NAME), (validate("ann", "", "g"), BAD_NAME),
            (validate("ann", "ann", ""), BAD_NAME), (validate("ann", "carl", "g"), UNKNOWN_PARTNER), (validate("ann", "carl", "z"), UNKNOWN_PARTNER),
            (validate("ann", "ann", "z"), NO_SUCH_ITEM), (validate("ann", "bob", "g"), NO_SUCH_ITEM), (validate("bob", "ann", "g"), NO_SUCH_ITEM),
            (validate("bob", "ann", "z"), NO_SUCH_ITEM), (validate("ann", "ann", "m"), NO_SUCH_ITEM), (validate("carl", "ann", "g"), BAD_REQUEST),
            (line("ann", "validate", owner="ann", group="g", steps=1), BAD_REQUEST)])


if __name__ == "__main__":
    run_tests("validation", globals(), sys.argv[1:])
