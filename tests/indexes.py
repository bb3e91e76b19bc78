#!/usr/bin/env python3
"""Looks at what is told of uses and extents, and whether what is dropped is in use, behind all that changes it: links and models that come
and go, instances that are set, dropped and made again, members that no longer count.

    tests/indexes.py [PROGRAM]
    tests/indexes.py --self-test

The replies of a row are worked out by hand. They have to be those of the plain repository too, and those of the program: in one run, and
in several, of which each goes on from what the one before has saved. So a row has two readings, and meets indexes that were kept, and such
as were made anew.

`--self-test` runs no program. The plain repository stands in for it, with each of FAULTS, which are those that an index may have: some
row has to find each, each row has to find one, and none is found where there is none.

Each function `test_*` is one test; its document string says what has to hold. The last line is 'indexes: N passed, M failed', and the
status is 0 only if none failed.
"""
import itertools
import sys

from lib import messages, plain_binding, plain_files
from lib.harness import Folder, Wrong, end, run_tests, shortened
from lib.messages import (
    ATTRIBUTES_HOLD, CONFIG, FIRST, FIRST_NAMES, IN_USE, NO_RIGHT, NO_SUCH_INSTANCE, NO_SUCH_ITEM, OK, TOO_MANY, WRONG_SCHEMA, L, T, add, added, check_is,
    create, create_group, delete, delete_group, drop, exclude, extent, extent_is, file_of, grant, grant_group, include, instance_fault, instances,
    link, link_fault, members, members_are, named, names, put, report_is, revoke, set_instance, users, users_are, validate,
)
from lib.plain_model import Place, Refused, Repository, named_entity, references_in, request_of, targets, upper
from lib.rule_texts import binding_schema, tree_of
from lib.saving import Saving, in_runs

LABEL = "indexes"
PARTNERS = [it["name"] for it in CONFIG["partners"]]
# others, who may have 100 models each
OTHERS = [f"p{k}" for k in range(10)]

# an instance used many times by one attribute, in aggregates, and in SELECTs under defined types
U = """SCHEMA U;
TYPE pair = LIST OF e; END_TYPE;
TYPE pairs = LIST OF pair; END_TYPE;
TYPE size = REAL; END_TYPE;
TYPE some = SELECT (e, size, pair); END_TYPE;
TYPE wide = LIST OF some; END_TYPE;
TYPE any = SELECT (e, pair, pairs, size, wide); END_TYPE;
ENTITY e; END_ENTITY;
ENTITY u; one : e; two : OPTIONAL e; row : LIST OF e; sel : any; sels : ARRAY [1:2] OF any; END_ENTITY;
END_SCHEMA;
"""
# roles of supertypes, an attribute by two declarations, and instances of several leaves
R = """SCHEMA R;
ENTITY e; END_ENTITY;
ENTITY r; a : e; END_ENTITY;
ENTITY s SUBTYPE OF (r); b : e; END_ENTITY;
ENTITY t SUBTYPE OF (r); a : e; END_ENTITY;
ENTITY v SUBTYPE OF (s, t); c : e; END_ENTITY;
END_SCHEMA;
"""


# ---- the readings of a row

class Standing:
    """The form of the plain repository that stands in for the program, if one does."""

    form = None


def many(count):
    """So many, or, of what stands in, a tenth: that is slow."""
    return count // 10 if Standing.form else count


def plain_replies(form, lines, texts, partners):
    """What a form of the plain repository replies to lines, by schemas of these texts."""
    trees = [tree_of(it) for it in texts]
    repository = form(partners, [binding_schema(it) for it in trees], plain_files.read, plain_files.read_mapping, None,
                      {it.name: text for it, text in zip(trees, texts)})
    replies = []
    for it in lines:
        reply, change = repository.step(it)
        if change:
            change()
        replies.append(reply)
    return replies


def compare(who, turns, replies):
    for place, ((line, wanted), reply) in enumerate(zip(turns, replies, strict=True), 1):
        if reply != wanted:
            raise Wrong(f"{who} answers {shortened(reply)!r} in place of {shortened(wanted)!r} to line {place}, {shortened(line)!r}")


def expect(turns, *texts, partners=PARTNERS, restarts=2):
    """The replies are those of the plain repository, and of the program in one run and in several."""
    texts = texts or (T, L)
    lines = [line for line, _ in turns]
    compare("the plain repository", turns, plain_replies(Standing.form or Repository, lines, texts, partners))
    if Standing.form:
        return
    schemas = {tree_of(it).name.lower(): it for it in texts}
    config = {"partners": [*CONFIG["partners"], *({"name": it, "token": it} for it in partners[2:])], "schemas": [f"{it}.exp" for it in schemas]}
    messages.expect(turns, config, **schemas)
    if not Folder.stand_in:
        ends = [len(lines) * run // (restarts + 1) for run in range(restarts + 2)]
        with Saving(config, **schemas) as folder:
            output, _ = in_runs(folder, [lines[begin:end] for begin, end in itertools.pairwise(ends)])
        compare(f"the program with {restarts} restarts", turns, output.splitlines())


# ---- what rows are made of

def at(*found):
    """Places of ann's m, by their names, and others as they are."""
    return [("ann", "m", it) if isinstance(it, int) else it for it in found]


def uses(of, rows, group="g"):
    """Turns that ask ann's group for the users of an instance, by their roles."""
    (place,) = at(of)
    return [(users("ann", "ann", group, list(place), role), users_are(*at(*found))) for role, found in rows.items()]


def extents(rows, group="g"):
    """Turns that ask ann's group for extents, by their entities."""
    return [(extent("ann", "ann", group, entity), extent_is(*at(*found))) for entity, found in rows.items()]


def grouped(schema, text):
    """Turns that make ann's m with these instances, in her group g."""
    return [(create("ann", "m", schema), OK), (put("ann", "ann", "m", file_of(text, schema)), instances(text.count(";"))),
            (create_group("ann", "g", schema), OK), (include("ann", "g", "ann", "m"), OK)]


def of_m(text):
    return put("ann", "ann", "m", file_of(text)), instances(text.count("="))


def of_b(text, *links):
    return put("bob", "bob", "b", file_of(text), *links), instances(text.count("="))


def changes(which, text):
    """A turn that sets an instance of ann's m."""
    return set_instance("ann", "ann", "m", which, text), OK


def adds(name, text):
    return add("ann", "ann", "m", text), added(name)


def dropped(which, reply=OK):
    return drop("ann", "ann", "m", which), reply


# bob's model b, which ann may put into groups
NEW_B = [(create("bob", "b"), OK), (grant("bob", "b", "ann", "group"), OK)]


# ann's m with two instances, in her group g, and bob, who reads it and has a model b, which counts in it
START = [*FIRST, (create_group("ann", "g"), OK), (include("ann", "g", "ann", "m"), OK), (grant("ann", "m", "bob", "read"), OK), *NEW_B,
         (include("ann", "g", "bob", "b"), OK)]
AGAIN = FIRST[1]
B = ("bob", "b", 1)
BOBS = of_b("#1=Q(#9);", link(9, "ann", "m", 1))
ROLE = "T.Q.A"
# who uses ann's first instance
ASKED = users("ann", "ann", "g", ["ann", "m", 1], ROLE)
ANNS, BOTH, NONE = users_are(*at(2)), users_are(*at(2, B)), users_are()
GONE = (ASKED, NO_SUCH_INSTANCE)
HOLDS = [*ATTRIBUTES_HOLD, check_is("where", "P", "W1"), check_is("inverse", "P", "U")]


# ---- orders

def test_whoever_came_first():
    """Bob's model was created before ann's: users are told in the order of bytes, and are the same once ann's model was deleted, created
    and put anew."""
    both = b'{"ok":{"users":[["ann","m",2],["bob","b",1]]}}'
    expect([(create("bob", "b"), OK), *FIRST, (grant("ann", "m", "bob", "read"), OK), BOBS, (create_group("ann", "g"), OK),
            (include("ann", "g", "ann", "m"), OK), (ASKED, ANNS), (include("ann", "g", "bob", "b"), NO_SUCH_ITEM),
            (grant("bob", "b", "ann", "group"), OK), (ASKED, ANNS), (include("ann", "g", "bob", "b"), OK), (ASKED, both),
            (delete("ann", "m"), OK), (create("ann", "m"), OK), AGAIN, (ASKED, both)])


def test_names_in_any_order_of_first_sight():
    """However owners and models came, places stand in the order of owner, model and number."""
    models = [("ann", "m"), ("ann", "M"), ("ann", "m-"), ("bob", "a"), ("bob", "B"), ("bob", "m")]
    found = [*at(2), *((*it, k) for it in [("ann", "m-"), ("bob", "B"), ("bob", "a"), ("bob", "m")] for k in (1, 20))]
    found = [("ann", "M", 1), ("ann", "M", 20), *found]
    file, to_m = file_of("#20=Q(#9);#1=Q(#9);"), link(9, "ann", "m", 1)
    for order in [models[::-1], *(models[k:] + models[:k] for k in range(6))]:
        expect([*((create(*it), OK) for it in order), (grant("ann", "m", "bob", "read"), OK), AGAIN,
                *((grant("bob", name, "ann", "group"), OK) for _, name in models[3:]),
                *((put(who, who, name, file, to_m), instances(2)) for who, name in order if (who, name) != ("ann", "m")),
                (create_group("ann", "g"), OK), *((include("ann", "g", *it), OK) for it in order),
                *uses(1, {ROLE: found, "": found}), *extents({"Q": found, "P": [1]})])


def test_rules_that_ask_for_users():
    """Who uses an instance counts in rules as it does in `users`. Of an instance with k users the rule and the inverse attribute take 5
    steps and 2 for each of them."""
    asked = validate("ann", "ann", "g")
    violated = [*ATTRIBUTES_HOLD, check_is("where", "P", "W1", false=[["ann", "m", 1]]), check_is("inverse", "P", "U")]
    expect([(create("bob", "b"), OK), (grant("bob", "b", "ann", "write"), OK), *FIRST, (grant("ann", "m", "bob", "read"), OK),
            (create_group("ann", "g"), OK), (include("ann", "g", "bob", "b"), OK), (include("ann", "g", "ann", "m"), OK), (asked, report_is(5 + 2, *HOLDS)),
            of_b("#1=Q(#9);#2=Q(#9);#3=P(1.,$);", link(9, "ann", "m", 1)), (asked, report_is(5 + 2 * 3 + 5, *violated)),
            (set_instance("ann", "bob", "b", 2, "Q(#3)"), OK), (asked, report_is(5 + 2 * 2 + 5 + 2, *HOLDS)),
            (set_instance("bob", "bob", "b", 2, "Q(#9)"), OK), (asked, report_is(5 + 2 * 3 + 5, *violated)),
            dropped(2), (asked, report_is(5 + 2 * 2 + 5, *HOLDS)), (exclude("ann", "g", "bob", "b"), OK), (asked, report_is(5, *HOLDS)),
            (include("ann", "g", "bob", "b"), OK), adds(3, "Q(#1)"), (asked, report_is(5 + 2 * 3 + 5, *violated))])


# ---- others

def test_a_thousand_models_of_others():
    """Each links to both of ann's instances. None is in the population, so nothing that is told of it changes, nor what may be dropped."""
    asked = [*uses(1, {ROLE: [2], "": [2]}), *uses(2, {"": []}), *extents({"P": [1], "Q": [2]}), (validate("ann", "ann", "g"), report_is(7, *HOLDS)),
             (names("ann", "ann", "m"), FIRST_NAMES), dropped(1, IN_USE)]
    made = []
    for place in range(many(1000)):
        who, name = OTHERS[place % 10], f"m{place // 10:02}"
        file = file_of("#1=Q(#9);#2=Q(#7);#3=P(1.,$);#4=Q(#3);")
        made += [(create(who, name), OK), (put(who, who, name, file, link(7, "ann", "m", 2), link(9, "ann", "m", 1)), instances(4))]
    expect([*FIRST, (create_group("ann", "g"), OK), (include("ann", "g", "ann", "m"), OK), *asked, *((grant("ann", "m", it, "read"), OK) for it in OTHERS),
            *made[:len(made) // 2], *asked, *made[len(made) // 2:], *asked, dropped(2), *extents({"P": [1], "Q": []}), *uses(1, {"": []}), dropped(1),
            *extents({"P": [], "Q": []})], partners=[*PARTNERS, *OTHERS])


def test_a_thousand_instances_of_others():
    """In a hundred models of the group's schema that aren't in it: rules take the steps of the population alone."""
    def es(count):
        return "".join(f"#{name}=E();" for name in range(1, count + 1))

    asked = [(validate("ann", "ann", "g"), report_is(5 + 3 * 20 + 6 + 3 * 20, *ATTRIBUTES_HOLD, check_is("rule", "R1", "#1"), check_is("rule", "R2", "#1"))),
             *extents({"e": range(1, 21)})]
    made = [turn for k in range(many(100)) for turn in ((create("bob", f"b{k}", "L"), OK), (put("bob", "bob", f"b{k}", file_of(es(10), "L")), instances(10)))]
    expect([*grouped("L", es(20)), *asked, *made, *asked])


def test_members_out_of_the_population():
    """A group lists models that don't count: one that is gone, one of another schema, one that its owner may no longer group. Its population
    has no users and no extent there, and has them again once the model counts."""
    def counts(m, b):
        return members("ann", "ann", "g"), members_are(("ann", "m", m), ("bob", "b", b))

    both = [counts(True, True), (ASKED, BOTH), *extents({"Q": [2, B]})]
    hers = [counts(True, False), (ASKED, ANNS), *extents({"Q": [2]}), (users("ann", "ann", "g", list(B), ""), NO_SUCH_INSTANCE)]
    his = [counts(False, True), GONE, *extents({"Q": [B], "P": []}), *uses(B, {"": []})]
    expect([*START, BOBS, *both, (revoke("bob", "b", "ann"), OK), *hers, (grant("bob", "b", "ann", "read"), OK), *hers, (grant("bob", "b", "ann", "write"), OK),
            *both, (delete("ann", "m"), OK), *his, (create("ann", "m", "L"), OK), *his, (put("ann", "ann", "m", file_of("#1=E();", "L")), instances(1)), *his,
            (delete("ann", "m"), OK), (create("ann", "m"), OK), counts(True, True), GONE, *extents({"Q": [B], "P": []}), AGAIN, *both,
            (exclude("ann", "g", "ann", "m"), OK), GONE, *extents({"Q": [B]}), (include("ann", "g", "ann", "m"), OK), *both, (delete("bob", "b"), OK), *hers])


def test_groups_of_the_same_models():
    """An instance has the users of the population that is asked, and no others."""
    c = [("bob", "c", 1), ("bob", "c", 2)]
    asked = [*uses(1, {ROLE: [2]}, "h"), *uses(1, {"": [2, c[0]]}, "i"), (users("ann", "ann", "i", list(B), ""), NO_SUCH_INSTANCE)]
    expect([*START, BOBS, (create("bob", "c"), OK), (grant("bob", "c", "ann", "group"), OK),
            (put("bob", "bob", "c", file_of("#1=Q(#9);#2=Q(#8);"), link(9, "ann", "m", 1), link(8, "bob", "b", 1)), instances(2)),
            (create_group("ann", "h"), OK), (include("ann", "h", "ann", "m"), OK), (create_group("ann", "i"), OK), (include("ann", "i", "bob", "c"), OK),
            (include("ann", "i", "ann", "m"), OK), (ASKED, BOTH), *uses(B, {"": []}), *asked,
            (include("ann", "g", "bob", "c"), OK), *uses(B, {"": [c[1]]}), *uses(1, {"": [2, B, c[0]]}), *extents({"Q": [2, B, *c]}), *asked,
            (grant_group("ann", "h", "bob"), OK), (users("bob", "ann", "h", ["ann", "m", 1], ROLE), ANNS),
            (users("bob", "ann", "g", ["ann", "m", 1], ROLE), NO_SUCH_ITEM), (delete_group("ann", "g"), OK), (ASKED, NO_SUCH_ITEM), *asked])


# ---- links that come and go

def test_links_that_come_and_go():
    """A put takes a model's links with its instances, and brings others: to another instance, of another name, of two names."""
    def asked(of_one, of_two=()):
        return [*uses(1, {"": [2, *of_one]}), *uses(2, {"": of_two})]

    to_one, to_two, b2, b10 = link(9, "ann", "m", 1), link(9, "ann", "m", 2), ("bob", "b", 2), ("bob", "b", 10)
    expect([*START, *asked([]), BOBS, *asked([B]), of_b("#1=Q(#9);", to_two), *asked([], [B]), of_b("#1=Q(#7);", link(7, "ann", "m", 1), to_two), *asked([B]),
            of_b("#1=P(1.,$);"), *asked([]), of_b("#1=P(1.,$);", to_one), *asked([]), (add("bob", "bob", "b", "Q(#9)"), added(10)), *asked([b10]),
            of_b("#1=Q(#9);#2=Q(#8);", to_one, link(8, "ann", "m", 1)), *asked([B, b2]), (drop("bob", "bob", "b", 1), OK), *asked([b2]),
            (set_instance("bob", "bob", "b", 2, "P(1.,$)"), OK), *asked([]),
            (put("bob", "bob", "b", file_of("#1=Q(#9);"), link(9, "ann", "m", 7)), link_fault("NoInstance", 9)), *asked([]),
            (set_instance("bob", "bob", "b", 2, "Q(#8)"), OK), *asked([b2]), of_b(""), *asked([])], restarts=20)


def test_a_refused_request_leaves_the_uses():
    """Whatever it is refused for, and however far it came."""
    asked = [(ASKED, BOTH), *uses(2, {"": []}), *extents({"P": [1], "Q": [2, B]}), dropped(1, IN_USE)]
    file = "#1=Q(#2);#3=Q(#1);#2=Q("
    refusals = [
        (put("ann", "ann", "m", file_of(file + "#4);")), instance_fault("Undefined", 2)),
        (put("ann", "ann", "m", file_of(file + "#9);"), link(9, "bob", "b", 2)), link_fault("NoInstance", 9)),
        (put("ann", "ann", "m", file_of(file + "#9);"), link(9, "ann", "m", 1)), link_fault("Own", 9)),
        (put("ann", "ann", "m", file_of("#1=E();", "L")), WRONG_SCHEMA), (put("bob", "ann", "m", file_of("#1=P(1.,$);")), NO_RIGHT),
        (set_instance("ann", "ann", "m", 2, "Q(#3)"), instance_fault("Undefined", 2)), (set_instance("ann", "ann", "m", 3, "Q(#2)"), NO_SUCH_INSTANCE),
        (add("ann", "ann", "m", "Q(#2,#1)"), instance_fault("WrongCount", 3)), (drop("bob", "ann", "m", 2), NO_RIGHT), dropped(3, NO_SUCH_INSTANCE),
    ]
    expect([*START, BOBS, *asked, *(turn for it in refusals for turn in [it, *asked])])


def test_a_model_created_anew_under_a_linked_name():
    """It is what the links lead to that led to the one before: users come back with the instance, by whatever request it comes, and
    whatever it is now. In a model of another schema they don't."""
    gone = [GONE, *uses(B, {"": []})]
    expect([*START, BOBS, (ASKED, BOTH), (delete("ann", "m"), OK), *gone, (create("ann", "m"), OK), *gone,
            adds(1, "P(1.,$)"), *uses(1, {ROLE: [B]}), adds(2, "Q(#1)"), (ASKED, BOTH),
            (delete("ann", "m"), OK), *gone, (create("ann", "m", "L"), OK), (put("ann", "ann", "m", file_of("#1=E();", "L")), instances(1)), *gone,
            (delete("ann", "m"), OK), (create("ann", "m"), OK), *gone, AGAIN, (ASKED, BOTH), of_m("#2=Q(#2);"), *gone,
            of_m("#1=Q(#1);"), *uses(1, {ROLE: [1, B]}), dropped(1), *gone, (names("ann", "ann", "m"), named())], restarts=20)


def test_a_user_created_anew():
    """Links and uses go with the model that has them: the next one of its name has none, until they are put."""
    expect([*START, BOBS, (ASKED, BOTH), (delete("bob", "b"), OK), (ASKED, ANNS), *NEW_B,
            (ASKED, ANNS), of_b("#1=P(1.,$);"), (ASKED, ANNS), (add("bob", "bob", "b", "Q(#1)"), added(2)), (ASKED, ANNS), *uses(B, {"": [("bob", "b", 2)]}),
            BOBS, (ASKED, BOTH), *uses(B, {"": []})])


def test_models_that_link_to_one_another():
    """Two that do, and one that is linked under the name of its user's instance; each is deleted and comes back by itself."""
    to_ann, to_bob = link(9, "ann", "m", 1), link(9, "bob", "b", 1)
    his, hers = of_b("#1=Q(#9);#2=Q(#1);", to_ann), (put("ann", "ann", "m", file_of("#1=Q(#9);#2=Q(#1);"), to_bob), instances(2))
    b2 = ("bob", "b", 2)
    asked = [*uses(1, {"": [2, B]}), *uses(B, {"": [1, b2]}), *uses(2, {"": []}), *extents({"Q": [1, 2, B, b2]})]
    expect([*START, his, hers, *asked, dropped(1, IN_USE), (delete("bob", "b"), OK), *uses(1, {"": [2]}), *NEW_B,
            *uses(1, {"": [2]}), his, *asked, (delete("ann", "m"), OK), *uses(B, {"": [b2]}), (create("ann", "m"), OK), (grant("ann", "m", "bob", "read"), OK),
            *uses(B, {"": [b2]}), AGAIN, *uses(1, {"": [2, B]}), *uses(B, {"": [b2]}), hers, *asked])


def test_a_link_to_the_name_of_a_link():
    """Where the name that a link leads to has become a link's in its model, nothing is used: a use goes one step."""
    c = ("bob", "c", 1)
    linked = put("ann", "ann", "m", file_of("#2=Q(#1);"), link(1, "bob", "c", 1)), instances(1)
    expect([*START, BOBS, (create("bob", "c"), OK), (grant("bob", "c", "ann", "group"), OK), (include("ann", "g", "bob", "c"), OK),
            (put("bob", "bob", "c", file_of("#1=P(1.,$);")), instances(1)), (ASKED, BOTH), *uses(c, {"": []}), linked, GONE, *uses(c, {"": [2]}),
            *extents({"P": [c], "Q": [2, B]}), AGAIN, (ASKED, BOTH), *uses(c, {"": []}), linked, GONE, *uses(c, {"": [2]}), (delete("bob", "c"), OK),
            (users("ann", "ann", "g", list(c), ""), NO_SUCH_INSTANCE), GONE, *extents({"P": [], "Q": [2, B]})])


def test_the_least_and_the_greatest_names():
    """Of instances, of links and of their targets."""
    greatest = 999_999_999_999_999_999
    b = [("bob", "b", 0), ("bob", "b", greatest - 1)]
    expect([*START, of_m(f"#{greatest}=P(1.,$);#0=P(1.,$);#5=Q(#{greatest});#{greatest - 1}=Q(#0);"),
            of_b(f"#0=Q(#1);#{greatest - 1}=Q(#{greatest});", link(1, "ann", "m", greatest), link(greatest, "ann", "m", 0)),
            *uses(0, {ROLE: [greatest - 1, b[1]]}), *uses(greatest, {ROLE: [5, b[0]]}), *uses(b[0], {"": []}),
            *extents({"P": [0, greatest], "Q": [5, greatest - 1, *b]}), dropped(0, IN_USE), dropped(greatest, IN_USE), changes(5, "Q(#0)"), dropped(greatest),
            dropped(greatest - 1), dropped(0, IN_USE),
            *uses(0, {ROLE: [5, b[1]]}), (add("ann", "ann", "m", "P(1.,$)"), TOO_MANY), dropped(5), dropped(0), *extents({"P": [], "Q": b})])


def test_one_name_in_two_schemas():
    """Entities and attributes of one name in two schemas are others, also where a model of the one comes in place of one of the other."""
    two = U.replace("SCHEMA U", "SCHEMA W").replace("sel : any", "a : any")
    of_u, of_w = "#1=E();#2=U(#1,$,(),SIZE(1.),($,$));", "#1=U(#2,$,(),SIZE(1.),($,$));#2=E();"

    def asked(group, schema, e, u):
        return [*extents({"E": e, "U": u, "R": []}, group), *uses(e[0], {f"{schema}.U.ONE": u, "": u, "U.U.SEL": [], "W.U.A": []}, group)]

    n1, n2 = ("ann", "n", 1), ("ann", "n", 2)
    expect([*grouped("U", of_u), (create("ann", "n", "W"), OK), (put("ann", "ann", "n", file_of(of_w, "W")), instances(2)), (create_group("ann", "h", "W"), OK),
            (include("ann", "h", "ann", "n"), OK), (include("ann", "h", "ann", "m"), WRONG_SCHEMA), *asked("g", "U", [1], [2]), *asked("h", "W", [n2], [n1]),
            (delete("ann", "m"), OK), *extents({"E": [], "U": []}), (create("ann", "m", "W"), OK), (put("ann", "ann", "m", file_of(of_w, "W")), instances(2)),
            *extents({"E": [], "U": []}), (include("ann", "h", "ann", "m"), OK), *extents({"E": [2, n2], "U": [1, n1]}, "h"),
            *uses(2, {"W.U.ONE": [1], "U.U.ONE": []}, "h"), *uses(n2, {"": [n1]}, "h"),
            (delete("ann", "n"), OK), (create("ann", "n", "U"), OK), (put("ann", "ann", "n", file_of(of_u, "U")), instances(2)),
            *extents({"E": [2], "U": [1]}, "h"), (include("ann", "g", "ann", "n"), OK), *asked("g", "U", [n1], [n2])], U, two)


# ---- instances that change

def test_an_instance_that_is_dropped_and_made_again():
    """Another model's links stay while it is dropped, and lead to what a put makes under its name, of whatever entity."""
    expect([*START, BOBS, (ASKED, BOTH), dropped(2), *uses(1, {ROLE: [B]}), dropped(1), GONE, *extents({"P": [], "Q": [B]}),
            adds(3, "P(1.,$)"), GONE, *uses(3, {"": []}), AGAIN, (ASKED, BOTH), *extents({"P": [1], "Q": [2, B]}),
            of_m("#1=Q(#2);#2=P(1.,$);"), *uses(1, {ROLE: [B]}), *uses(2, {ROLE: [1]}), *extents({"P": [2], "Q": [1, B]}), of_m("#3=P(1.,$);"), GONE,
            of_m("#3=P(1.,$);#1=P(1.,$);#2=Q(#3);"), *uses(1, {ROLE: [B]}), *uses(3, {ROLE: [2]})])


def test_uses_that_a_set_changes():
    """It takes the uses that an instance had, and brings those that it has now, to itself and to a link too, whoever sets it."""
    expect([*START, BOBS, (grant("ann", "m", "bob", "write"), OK), adds(3, "P(2.,$)"), adds(4, "Q(#1)"),
            *uses(1, {ROLE: [2, 4, B]}), *uses(3, {ROLE: []}), changes(2, "Q(#3)"), *uses(1, {ROLE: [4, B]}), *uses(3, {ROLE: [2]}),
            changes(2, "Q(#2)"), *uses(2, {ROLE: [2]}), *uses(3, {ROLE: []}), (set_instance("bob", "ann", "m", 4, "Q(#3)"), OK),
            *uses(1, {ROLE: [B]}), *uses(3, {ROLE: [4]}),
            changes(1, "Q(#2)"), *uses(1, {ROLE: [B]}), *uses(2, {ROLE: [1, 2]}), changes(4, "P(1.,$)"), changes(2, "Q(#1)"), changes(1, "P(1.,$)"),
            *uses(1, {ROLE: [2, B]}), *uses(2, {ROLE: []}), *uses(3, {ROLE: []}), *extents({"P": [1, 3, 4], "Q": [2, B]}),
            (set_instance("bob", "bob", "b", 1, "Q(#1)"), OK), *uses(1, {ROLE: [2]}), *uses(B, {ROLE: [B]}), (set_instance("bob", "bob", "b", 1, "Q(#9)"), OK),
            *uses(1, {ROLE: [2, B]}), *uses(B, {ROLE: []})])


def test_a_drop_of_what_is_in_use():
    """It is refused while another instance of the model uses it, and taken once the last of these is set, dropped or put otherwise. Use by
    itself, or by another model, doesn't count."""
    expect([*START, of_m("#1=P(1.,$);#2=Q(#1);#3=Q(#1);#4=P(1.,$);"), BOBS, dropped(1, IN_USE), changes(2, "Q(#2)"), dropped(1, IN_USE), changes(3, "Q(#4)"),
            changes(2, "Q(#1)"), dropped(1, IN_USE), dropped(4, IN_USE), changes(2, "P(1.,$)"), dropped(1), GONE, dropped(1, NO_SUCH_INSTANCE),
            dropped(4, IN_USE), dropped(3), dropped(4), adds(5, "Q(#2)"), adds(6, "Q(#5)"), dropped(2, IN_USE), dropped(5, IN_USE),
            changes(6, "Q(#6)"), dropped(5), dropped(2), dropped(6), *extents({"P": [], "Q": [B]}), of_m("#1=P(1.,$);#2=Q(#1);#3=Q(#2);"), dropped(1, IN_USE),
            dropped(2, IN_USE), of_m("#3=P(1.,$);#1=P(1.,$);#2=Q(#3);"), dropped(3, IN_USE), dropped(1), dropped(2), dropped(3)])


def test_a_drop_by_who_writes():
    """The same is told to a partner who may write the model, and one's own use of another's instance keeps nothing from being dropped."""
    drops = [(drop("bob", "ann", "m", it), reply) for it, reply in ((1, IN_USE), (2, OK), (1, OK))]
    expect([*START, BOBS, (drop("bob", "ann", "m", 2), NO_RIGHT), (grant("ann", "m", "bob", "write"), OK), *drops, GONE,
            (drop("ann", "bob", "b", 1), NO_RIGHT), (drop("bob", "bob", "b", 1), OK), *extents({"P": [], "Q": []})])


def test_each_use_of_an_attribute():
    """An instance is told as often as it uses another: in aggregates, in SELECTs under the types that stand there, and by several
    attributes; after each set as often as it does then."""
    roles = ["U.U.ONE", "U.U.TWO", "U.U.ROW", "U.U.SEL", "U.U.SELS"]

    def asked(of, *counts, who=2):
        return uses(of, {**{role: [who] * count for role, count in zip(roles, counts)}, "": [who] * sum(counts)})

    whole, none = "U(#1,#1,(#1,#3,#1),PAIR((#1,#1)),(#1,WIDE((#3,SIZE(1.),PAIR((#1,#3,#1))))))", "U($,$,(),SIZE(1.),($,$))"
    file = file_of("#1=U(#9,$,(#8,#9),PAIRS(((#9),(#9,#8))),(#9,PAIR(())));", "U")
    b = [(create("bob", "b", "U"), OK), (grant("ann", "m", "bob", "read"), OK), (grant("bob", "b", "ann", "group"), OK), (include("ann", "g", "bob", "b"), OK),
         (put("bob", "bob", "b", file, link(9, "ann", "m", 1), link(8, "ann", "m", 1)), instances(1))]
    expect([*grouped("U", f"#1=E();#2={whole};#3=E();"), *asked(1, 1, 1, 2, 2, 3), *asked(3, 0, 0, 1, 0, 2), dropped(1, IN_USE), dropped(3, IN_USE),
            changes(2, "U(#3,$,(),SIZE(2.),(#3,PAIRS(((#1),(#3,#1)))))"), *asked(1, 0, 0, 0, 0, 2), *asked(3, 1, 0, 0, 0, 2), dropped(1, IN_USE),
            changes(2, "U(#2,$,(#2),#2,(WIDE((#2)),$))"), *asked(2, 1, 0, 1, 1, 1), *asked(1, 0, 0, 0, 0, 0), changes(2, none), *asked(1, 0, 0, 0, 0, 0),
            *asked(2, 0, 0, 0, 0, 0), changes(2, whole), *asked(1, 1, 1, 2, 2, 3), *b, changes(2, none), *asked(1, 1, 0, 2, 3, 1, who=B),
            dropped(3), dropped(1), (users("ann", "ann", "g", ["ann", "m", 1], ""), NO_SUCH_INSTANCE)], U)


def test_roles_and_extents_of_entities():
    """An instance stands in the extent of each of its entities, also where it has several leaves, and its values in the roles of each: of
    an attribute by two declarations in both. What is set stands in those that it has then."""
    asked = [*extents({"E": [1], "r": [2, 3, 4, 5, 6], "S": [3, 5, 6], "T": [4, 5, 6], "V": [5], "U": []}),
             *uses(1, {"R.R.A": [2, 3, 4, 5, 6], "R.S.A": [3, 5, 6], "R.S.B": [3, 5, 6], "R.T.A": [4, 4, 5, 5, 6, 6], "R.V.A": [5, 5], "R.V.B": [5],
                       "R.V.C": [5], "R.T.B": [], "R.R.B": [], "R.E.A": [], "": [2, 3, 3, 4, 4, 5, 5, 5, 5, 6, 6, 6]})]
    text = "#1=E();#2=R(#1);#3=S(#1,#1);#4=T(#1,#1);#5=V(#1,#1,#1,#1);#6=(T(#1)R(#1)S(#1));"
    expect([*grouped("R", text), *asked, changes(6, "(S($)R(#1))"), changes(4, "V(#4,#4,#1,$)"),
            *extents({"R": [2, 3, 4, 5, 6], "S": [3, 4, 5, 6], "T": [4, 5], "V": [4, 5]}),
            *uses(1, {"R.R.A": [2, 3, 5, 6], "R.S.B": [3, 5], "R.T.A": [4, 5, 5], "R.V.A": [4, 5, 5], "R.V.C": [5], "": [2, 3, 3, 4, 5, 5, 5, 5, 6]}),
            *uses(4, {"R.R.A": [4], "R.S.A": [4], "R.S.B": [4], "R.T.A": [4], "R.V.B": [4], "R.V.C": [], "": [4, 4]}),
            changes(5, "E()"), *extents({"E": [1, 5], "R": [2, 3, 4, 6], "S": [3, 4, 6], "T": [4], "V": [4]}), *uses(1, {"": [2, 3, 3, 4, 6], "R.V.A": [4]}),
            dropped(4), dropped(6), *extents({"E": [1, 5], "R": [2, 3], "S": [3], "T": [], "V": []}), *uses(1, {"": [2, 3, 3], "R.T.A": []}),
            adds(7, "(R(#5)T(#5)V(#1)S(#5))"), *extents({"V": [7], "R": [2, 3, 7]}), *uses(5, {"": [7, 7, 7], "R.R.A": [7], "R.T.A": [7, 7]}),
            (put("ann", "ann", "m", file_of(text, "R")), instances(6)), *asked], R)


def test_many_instances_that_change_their_uses():
    """Three hundred that use two hundred: set in turn, dropped and added, each is found by what it uses last. The names are far apart."""
    count, others = many(300), many(200)
    used = [10 * k for k in range(1, others + 1)]
    now = {2000 + k: used[k % others] for k in range(1, count + 1)}
    text = "".join(f"#{it}=P(1.,$);" for it in used) + "".join(f"#{user}=Q(#{of});" for user, of in now.items())

    def asked(of):
        found = [it for it in sorted(now) if now[it] == of]
        return [*uses(of, {ROLE: found}), *([dropped(of, IN_USE)] if found else [])]

    turns = []
    for k in range(1, count + 1):
        user, after = 2001 + k * 7 % count, used[k * 11 % others]
        before, now[user] = now[user], after
        turns += [changes(user, f"Q(#{after})"), *asked(before), *asked(after)]
    for k in range(1, count // 3 + 1):
        user, name = 2001 + k * 13 % count, 2000 + count + k
        turns += [dropped(user), adds(name, f"Q(#{now[user]})")]
        now[name] = now.pop(user)
        turns += asked(now[name])
    free = [it for it in used if it not in now.values()]
    turns += [turn for it in free for turn in (dropped(it), (users("ann", "ann", "g", ["ann", "m", it], ""), NO_SUCH_INSTANCE))]
    left = [it for it in used if it not in free]
    expect([*grouped("T", text), *turns, *extents({"P": left, "Q": sorted(now)}), *(turn for it in left for turn in asked(it))])


# ---- nothing

def test_what_nothing_is_found_for():
    """Empty populations, an entity that no instance has, one that the schema lacks, an instance that nobody uses, a role that is none: an
    empty list; and what isn't in the population, a link's name too, is refused."""
    refused = [(users("ann", "ann", "g", it, ""), NO_SUCH_INSTANCE) for it in (
        ["ann", "m", 1], ["bob", "b", 9], ["bob", "m", 1], ["ann", "b", 1], ["ann", "m", 0], ["", "", 0], ["carl", "a b", 999_999_999_999_999_999])]
    roles = {it: [] for it in ("", ROLE, "T.P.X", "T.P.U", "T.Q", "L.Q.A", "t.q.a", "T.E.A")}
    expect([(create_group("ann", "g"), OK), *extents({"P": [], "E": []}), *refused, (create("ann", "m"), OK), (include("ann", "g", "ann", "m"), OK),
            *extents({"P": [], "Q": []}), *refused, of_m("#1=P(1.,$);#3=P(1.,$);"), *uses(1, roles),
            *extents({"Q": [], "E": [], "": [], "P": [1, 3]}), *refused[1:],
            (grant("ann", "m", "bob", "read"), OK), *NEW_B, of_b("#1=P(1.,$);", link(9, "ann", "m", 1)),
            (include("ann", "g", "bob", "b"), OK), *uses(1, roles), *uses(B, roles), *refused[1:], dropped(3), dropped(1), *refused, *extents({"P": [B]})])


# ---- faults

class Faulty(Repository):
    """The plain repository, each of whose parts may be faulty. An instance is known by the owner and the name of its model and its own."""

    def __init__(self, *given):
        super().__init__(*given)
        # what instances were before, the names of models that were set, and those that were dropped
        self.former, self.were_set, self.were_dropped, self.forgotten = {}, set(), [], set()

    def answered(self, line):
        who, do, keys = request_of(line)
        self.test_keys(keys)
        return getattr(self, do)(who, **keys)

    def uses(self, role, model, instance):
        """The places that an instance is told to use in a role, each as often as it does."""
        return [it for name in references_in(self.schemas_by_name[model.schema], role, instance) for it in targets(model, name)]

    def users(self, who, owner, group, of, role):
        found = self.seen_group(who, owner, group)
        if not self.is_there(found, Place(*of)):
            raise Refused("NoSuchInstance")
        return {"users": [place for place, model, it in self.candidates(found) for to in self.uses(role, model, it) if to == Place(*of)]}, None

    def is_there(self, group, place):
        return any(it == place for it, _, _ in self.population(group))

    def candidates(self, group):
        return self.population(group)

    def entities(self, model, instance):
        """The entities in whose extents an instance is told."""
        return instance.types

    def extent(self, who, owner, group, type):
        found = self.seen_group(who, owner, group)
        entity = named_entity(self.schemas_by_name[found.schema], upper(type))
        return {"extent": [place for place, model, it in self.population(found) if entity in self.entities(model, it)]}, None

    def is_used(self, model, dropped):
        return any(Place(model.owner, model.name, dropped.name) in self.uses("", model, it) for it in model.instances if it is not dropped)

    def drop(self, who, owner, model, instance):
        target = self.seen(who, owner, model, ["owner", "write"])
        dropped = target.instance(instance)
        if self.is_used(target, dropped):
            raise Refused("InUse")

        def change():
            self.were_dropped.append((Place(owner, model, instance), dropped))
            target.instances.remove(dropped)
        return {}, change

    def set(self, who, owner, model, instance, text):
        content, change = super().set(who, owner, model, instance, text)
        place, before = (owner, model, instance), self.visible(who, owner, model).instance(instance)

        def changed():
            self.former.setdefault(place, []).append(before)
            self.were_set.add(place)
            change()
        return content, changed


class StaleEntryTold(Faulty):
    """Tells of an instance that was set what it used before, too."""

    def uses(self, role, model, instance):
        now = super().uses(role, model, instance)
        former = [to for it in self.former.get((model.owner, model.name, instance.name), []) for to in super(StaleEntryTold, self).uses(role, model, it)]
        return now + [it for it in former if it not in now]


class CandidateLostBySet(Faulty):
    """Doesn't find what uses an instance since it was set."""

    def uses(self, role, model, instance):
        return [] if (model.owner, model.name, instance.name) in self.were_set else super().uses(role, model, instance)


class UnderItsOwnModel(Faulty):
    """Has a link's use under the model that has the link."""

    def uses(self, role, model, instance):
        return [Place(model.owner, model.name, to.instance) for to in super().uses(role, model, instance)]


class Unfiltered(Faulty):
    """Tells users of all models."""

    def candidates(self, group):
        return [(Place(it.owner, it.name, instance.name), it, instance) for it in sorted(self.models, key=lambda it: (it.owner, it.name))
                if it.schema == group.schema for instance in it.instances]


class InOrderOfCreation(Faulty):
    """Has the models of a population in the order in which they were created."""

    def counted(self, group):
        return [it for it in self.models if self.counts(it, group)]


class InOrderOfDigits(Faulty):
    """Has the instances of a model in the order of the digits of their names."""

    def population(self, group):
        return sorted(super().population(group), key=lambda it: (it[0].owner, it[0].model, str(it[0].instance)))


class MembersAlone(Faulty):
    """Has all that a group lists in its population, whether it counts or not."""

    def counted(self, group):
        return sorted((it for it in self.models if (it.owner, it.name) in group.members), key=lambda it: (it.owner, it.name))


class ForgottenWithTheModel(Faulty):
    """Takes the uses by links out with the model that they lead to."""

    def uses(self, role, model, instance):
        return [it for it in super().uses(role, model, instance) if (model.owner, model.name, it) not in self.forgotten]

    def delete_model(self, who, name):
        content, change = super().delete_model(who, name)
        return content, lambda: (change(), self.forget(who, name, lambda _: True))

    def forget(self, owner, name, which):
        self.forgotten |= {(it.owner, it.name, Place(to.owner, to.model, to.instance)) for it in self.models for to in it.links
                           if (to.owner, to.model) == (owner, name) and which(to.instance)}

    def put(self, who, owner, model, file, links=()):
        content, change = super().put(who, owner, model, file, links)
        return content, lambda: (change(), setattr(self, "forgotten", {it for it in self.forgotten if it[:2] != (owner, model)}))


class ForgottenWithTheInstance(ForgottenWithTheModel):
    """Takes the uses by links out with the instance that they lead to."""

    def delete_model(self, who, name):
        return Repository.delete_model(self, who, name)

    def drop(self, who, owner, model, instance):
        content, change = super().drop(who, owner, model, instance)
        return content, lambda: (change(), self.forget(owner, model, lambda it: it == instance))


class KeptBehindAPut(Faulty):
    """Has the former uses of an instance of the same name behind a put, and behind the model's deletion."""

    def uses(self, role, model, instance):
        now = super().uses(role, model, instance)
        return now + [it for it in self.former.get((model.owner, model.name, instance.name), []) if it not in now]

    def set(self, who, owner, model, instance, text):
        return Repository.set(self, who, owner, model, instance, text)

    def keep(self, model):
        for it in model.instances:
            self.former.setdefault((model.owner, model.name, it.name), []).extend(Faulty.uses(self, "", model, it))

    def delete_model(self, who, name):
        content, change = super().delete_model(who, name)
        model = self.visible(who, who, name)
        return content, lambda: (self.keep(model), change())

    def put(self, who, owner, model, file, links=()):
        content, change = super().put(who, owner, model, file, links)
        target = self.visible(who, owner, model)
        return content, lambda: (self.keep(target), change())


class PartOfARefusedPut(Faulty):
    """Has the uses of a file whose put is refused."""

    def uses(self, role, model, instance):
        return super().uses(role, model, instance) + self.former.get((model.owner, model.name, instance.name), [])

    def set(self, who, owner, model, instance, text):
        return Repository.set(self, who, owner, model, instance, text)

    def put(self, who, owner, model, file, links=()):
        try:
            return super().put(who, owner, model, file, links)
        except Refused:
            for it in self.file_of(file).instances:
                found = [to for _, values in it.parts for value in values for to in plain_binding.within(value) if isinstance(to, plain_binding.Reference)]
                self.former.setdefault((owner, model, it.name), []).extend(Place(owner, model, to.name) for to in found)
            raise


class DropAsksFormerUses(Faulty):
    """Refuses the drop of what an instance used before it was set."""

    def is_used(self, model, dropped):
        place = Place(model.owner, model.name, dropped.name)
        former = (it for name in [it.name for it in model.instances if it is not dropped] for it in self.former.get((model.owner, model.name, name), []))
        return super().is_used(model, dropped) or any(place in self.uses("", model, it) for it in former)


class DropAsksAllModels(Faulty):
    """Refuses the drop of what another model uses."""

    def is_used(self, model, dropped):
        place = Place(model.owner, model.name, dropped.name)
        return super().is_used(model, dropped) or any(place in self.uses("", it, user) for it in self.models if it is not model for user in it.instances)


class DropAsksItself(Faulty):
    """Refuses the drop of what uses itself."""

    def is_used(self, model, dropped):
        return super().is_used(model, dropped) or Place(model.owner, model.name, dropped.name) in self.uses("", model, dropped)


class DropAsksTheFirst(Faulty):
    """Asks one user alone whether it is another instance that still uses what is dropped: the first that there was."""

    def is_used(self, model, dropped):
        place = Place(model.owner, model.name, dropped.name)
        known = [it for it in model.instances if any(place in self.uses("", model, one)
                                                     for one in [it, *self.former.get((model.owner, model.name, it.name), [])])]
        return any(it is not dropped and place in self.uses("", model, it) for it in known[:1])


class ExtentOfLeaves(Faulty):
    """Has an instance in the extents of its leaves alone."""

    def entities(self, model, instance):
        return plain_binding.leaves(self.schemas_by_name[model.schema], instance.types)


class ExtentAsItWas(Faulty):
    """Has an instance that was set in the extents where it was before."""

    def entities(self, model, instance):
        return self.former.get((model.owner, model.name, instance.name), [instance])[0].types


class ExtentOfWhatIsGone(Faulty):
    """Has an instance that was dropped in the extents where it was."""

    def extent(self, who, owner, group, type):
        content, _ = super().extent(who, owner, group, type)
        found = self.seen_group(who, owner, group)
        entity = named_entity(self.schemas_by_name[found.schema], upper(type))
        gone = [place for place, it in self.were_dropped if place[:2] in found.members and entity in it.types]
        return {"extent": sorted({*content["extent"], *gone})}, None


class EachUserOnce(Faulty):
    """Tells a user once, however often it uses an instance."""

    def uses(self, role, model, instance):
        return list(dict.fromkeys(super().uses(role, model, instance)))


class WithoutTypedValues(Faulty):
    """Doesn't look into values under a defined type."""

    def uses(self, role, model, instance):
        bare = {place: [it for it in value if not isinstance(it, plain_binding.Typed)] if isinstance(value, list) else value
                for place, value in instance.values.items() if not isinstance(value, plain_binding.Typed)}
        return super().uses(role, model, instance._replace(values=bare))


class FirstDeclarationAlone(Faulty):
    """Of an attribute by two declarations has the first alone."""

    def uses(self, role, model, instance):
        first = {attribute: (entity, attribute) for entity, attribute in reversed(instance.values)}
        values = {place: it for place, it in instance.values.items() if not role or first[place[1]] == place}
        return super().uses(role, model, instance._replace(values=values))


class RolesOfLeaves(Faulty):
    """Has the values of an instance in the roles of its leaves alone."""

    def uses(self, role, model, instance):
        leaves = [it.upper() for it in plain_binding.leaves(self.schemas_by_name[model.schema], instance.types)]
        return super().uses(role, model, instance) if not role or role.split(".")[1] in leaves else []


class StepsOfOthers(Faulty):
    """Charges a rule for the models, too, that aren't in the population."""

    def validate(self, who, owner, group):
        content, _ = super().validate(who, owner, group)
        found = self.seen_group(who, owner, group)
        others = sum(len(it.instances) for it in self.models if it.schema == found.schema and not self.counts(it, found))
        return {**content, "steps": content["steps"] + others}, None


class FollowedLinks(Faulty):
    """Takes a use of a link's name for a use of what that leads to."""

    def uses(self, role, model, instance):
        found = super().uses(role, model, instance)
        beyond = [Place(link.owner, link.model, link.instance) for it in found for other in self.models if (other.owner, other.name) == it[:2]
                  for link in other.links if other is not model and link.name == it.instance]
        return found + beyond


class EntitiesByName(Faulty):
    """Has all models that a group lists in its population, of whatever schema."""

    def counts(self, model, group):
        return (model.owner, model.name) in group.members and self.granted(group.owner, model) in ["owner", "write", "group"]


class SmallNames(Faulty):
    """Has no more of an instance's name than 59 bits."""

    def uses(self, role, model, instance):
        return [Place(it.owner, it.model, it.instance % 2**59) for it in super().uses(role, model, instance)]


class NameOfALink(Faulty):
    """Takes a link's name for an instance that nobody uses."""

    def is_there(self, group, place):
        return super().is_there(group, place) or any(place == Place(it.owner, it.name, to.name) for it in self.counted(group) for to in it.links)


FAULTS = [it for it in globals().values() if isinstance(it, type) and issubclass(it, Faulty) and it is not Faulty]


def found_by(test, form):
    """Whether a test finds a fault of what stands in for the program."""
    Standing.form = form
    try:
        test()
    except Wrong:
        return True
    finally:
        Standing.form = None
    return False


def self_test():
    """Plants each fault, and none. Answers how many tests and faults are as they have to be, and how many aren't."""
    tests = {name: it for name, it in globals().items() if name.startswith("test_")}
    found = {form.__name__: [name for name, test in tests.items() if found_by(test, form)] for form in [Faulty, *FAULTS]}
    planted_none = found.pop("Faulty")
    for name, by in found.items():
        print(f"{name}: " + (f"found by {', '.join(by)}" if by else "not found"))
    for name in tests:
        if not any(name in by for by in found.values()):
            print(f"{name} finds nothing")
    for name in planted_none:
        print(f"{name} finds a fault where none is planted")
    right = sum(map(bool, found.values())) + sum(name not in planted_none and any(name in by for by in found.values()) for name in tests)
    return right, len(found) + len(tests) - right


def main(words):
    if words[:1] == ["--self-test"]:
        end(LABEL, *self_test())
    run_tests(LABEL, globals(), words)


if __name__ == "__main__":
    main(sys.argv[1:])
