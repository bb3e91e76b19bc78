#!/usr/bin/env python3
"""Runs the built program on the requests on groups of models, and compares all that it writes, byte for byte.

    tests/groups.py [PROGRAM]

Each function `test_*` is one test; its document string says what has to hold. The last line is
'groups: N passed, M failed', and the status is 0 only if none failed.
"""
import sys

from lib.harness import Wrong, run_tests
from lib.messages import (
    BAD_NAME, BAD_REQUEST, CONFIG, E, EXISTS, FIRST, FIRST_EXPORT, FIRST_LINES, FIRST_NAMES, HAS_LINKS, MEMBERSHIP, NO_RIGHT, NO_SUCH_INSTANCE,
    NO_SUCH_ITEM, OK, TOO_MANY, UNKNOWN_PARTNER, UNKNOWN_SCHEMA, WRONG_SCHEMA, add, added, create, create_group, delete, delete_group, drop,
    exclude, expect, export, extent, extent_is, file_of, get, got, grant, grant_group, include, instances, line, link, link_fault, linked,
    canonical, list_of, listed, members, members_are, named, names, put, replies_to, revoke, revoke_group, set_instance, users, users_are,
)

THREE = {**CONFIG, "partners": [*CONFIG["partners"], {"name": "cyd", "token": "tc"}]}
FILE = file_of("#2=Q(#1);#1=P(0.10,'a');")
ROLE = "T.Q.A"

# ann's model m with two instances, in her group g
GROUPED = [*FIRST, (create_group("ann", "g"), OK), (include("ann", "g", "ann", "m"), OK)]
# and bob's model b, with a link to the first of them
LINKED = [*GROUPED, (grant("ann", "m", "bob", "read"), OK), (create("bob", "b"), OK),
          (put("bob", "bob", "b", file_of("#1=Q(#9);"), link(9, "ann", "m", 1)), instances(1))]


# ---- what a group is

def test_groups_of_their_own_names():
    """A group is created and deleted, has a name of its own beside models and other owners' groups, and is listed."""
    expect([*FIRST,
            (create_group("ann", "m", "t"), OK), (create_group("ann", "m"), EXISTS), (create_group("bob", "m", "L"), OK), (create_group("ann", "M"), OK),
            (list_of("ann"), listed((b"owner", b"m", b"ann"), groups=[(b"owner", b"M", b"ann"), (b"owner", b"m", b"ann")])),
            (list_of("bob"), listed(groups=[(b"owner", b"m", b"bob", b"L")])),
            (delete_group("ann", "m"), OK), (delete_group("ann", "m"), NO_SUCH_ITEM), (delete("ann", "m"), OK),
            (list_of("ann"), listed(groups=[(b"owner", b"M", b"ann")])), (members("bob", "bob", "m"), members_are())])


def test_members_in_their_order():
    """They are listed by owner and name in byte order, each once, and a member that is excluded may be included again."""
    expect([*FIRST, (create("ann", "M"), OK), (create("bob", "z"), OK), (create("bob", "a"), OK), (grant("bob", "z", "ann", "group"), OK),
            (grant("bob", "a", "ann", "write"), OK), (create_group("ann", "g"), OK), (members("ann", "ann", "g"), members_are()),
            *[(include("ann", "g", *it), OK) for it in [("bob", "z"), ("ann", "m"), ("bob", "a"), ("ann", "M")]],
            (members("ann", "ann", "g"), members_are(("ann", "M", True), ("ann", "m", True), ("bob", "a", True), ("bob", "z", True))),
            (include("ann", "g", "bob", "a"), MEMBERSHIP), (exclude("ann", "g", "bob", "a"), OK), (exclude("ann", "g", "bob", "a"), MEMBERSHIP),
            (members("ann", "ann", "g"), members_are(("ann", "M", True), ("ann", "m", True), ("bob", "z", True))),
            (include("ann", "g", "bob", "a"), OK), (exclude("ann", "g", "ann", "m"), OK), (exclude("ann", "g", "ann", "z"), MEMBERSHIP),
            (members("ann", "ann", "g"), members_are(("ann", "M", True), ("bob", "a", True), ("bob", "z", True)))])


def test_what_may_be_included():
    """The level Group is due on the model, the schema has to be the group's, and exclude looks at the list alone."""
    expect([*FIRST, (create_group("bob", "g"), OK), (include("bob", "g", "ann", "m"), NO_SUCH_ITEM),
            (grant("ann", "m", "bob", "read"), OK), (include("bob", "g", "ann", "m"), NO_RIGHT),
            (grant("ann", "m", "bob", "group"), OK), (include("bob", "g", "ann", "m"), OK), (include("bob", "g", "ann", "m"), MEMBERSHIP),
            (create("ann", "k", "E"), OK), (create_group("ann", "g"), OK), (include("ann", "g", "ann", "k"), WRONG_SCHEMA),
            (revoke("ann", "m", "bob"), OK), (exclude("bob", "g", "ann", "m"), OK), (exclude("bob", "g", "ann", "m"), MEMBERSHIP),
            (exclude("bob", "g", "ann", "nowhere"), MEMBERSHIP), (exclude("bob", "g", "bob", "m"), MEMBERSHIP)],
           {**CONFIG, "schemas": ["t.exp", "e.exp"]}, e=E)


def test_members_that_do_not_count():
    """A member counts while its model exists, is of the group's schema, and the group's owner may group it."""
    start = [*FIRST, (create_group("bob", "g"), OK), (grant("ann", "m", "bob", "group"), OK), (include("bob", "g", "ann", "m"), OK)]
    counts, counts_not = members_are(("ann", "m", True)), members_are(("ann", "m", False))
    one, none = extent_is(("ann", "m", 1)), extent_is()
    asked = [members("bob", "bob", "g"), extent("bob", "bob", "g", "P")]
    expect([*start, *zip(asked, (counts, one)),
            (revoke("ann", "m", "bob"), OK), *zip(asked, (counts_not, none)),
            (grant("ann", "m", "bob", "read"), OK), *zip(asked, (counts_not, none)),
            (grant("ann", "m", "bob", "write"), OK), *zip(asked, (counts, one)),
            (delete("ann", "m"), OK), *zip(asked, (counts_not, none)),
            (create("ann", "m"), OK), (put("ann", "ann", "m", FILE), instances(2)), *zip(asked, (counts_not, none)),
            (grant("ann", "m", "bob", "group"), OK), *zip(asked, (counts, one)),
            (delete("ann", "m"), OK), (create("ann", "m", "L"), OK), (grant("ann", "m", "bob", "group"), OK), *zip(asked, (counts_not, none)),
            (include("bob", "g", "ann", "m"), WRONG_SCHEMA), (exclude("bob", "g", "ann", "m"), OK), (asked[0], members_are())])


def test_an_extent_that_comes_and_goes():
    """With the grant, with the model, and never of itself: a model that is created anew isn't granted."""
    p, none = extent_is(("ann", "m", 1)), extent_is()
    of_p = extent("bob", "bob", "g", "P")
    expect([*FIRST, (grant("ann", "m", "bob", "group"), OK), (create_group("bob", "g"), OK), (include("bob", "g", "ann", "m"), OK), (of_p, p),
            (revoke("ann", "m", "bob"), OK), (of_p, none), (grant("ann", "m", "bob", "group"), OK), (of_p, p),
            (delete("ann", "m"), OK), (create("ann", "m"), OK), (put("ann", "ann", "m", FILE), instances(2)), (of_p, none),
            (members("bob", "bob", "g"), b'{"ok":{"members":[{"counts":false,"model":"m","owner":"ann"}]}}')])


# ---- what is seen

def test_a_group_that_is_granted():
    """Who reads it sees it and, at Read, each model that counts in it; he includes nothing and deletes nothing."""
    seen = (b"read", b"g", b"bob")
    expect([(create("bob", "n"), OK), (create_group("bob", "g"), OK), (include("bob", "g", "bob", "n"), OK), (members("ann", "bob", "g"), NO_SUCH_ITEM),
            (grant_group("bob", "g", "ann"), OK), (list_of("ann"), listed((b"read", b"n", b"bob"), groups=[seen])),
            (names("ann", "bob", "n"), named()), (put("ann", "bob", "n", file_of("")), NO_RIGHT), (members("ann", "bob", "g"), members_are(("bob", "n", True))),
            (delete_group("ann", "g"), NO_SUCH_ITEM), (include("ann", "g", "bob", "n"), NO_SUCH_ITEM), (exclude("ann", "g", "bob", "n"), NO_SUCH_ITEM),
            (grant_group("ann", "g", "ann"), NO_SUCH_ITEM), (revoke_group("ann", "g", "ann"), NO_SUCH_ITEM),
            (exclude("bob", "g", "bob", "n"), OK), (list_of("ann"), listed(groups=[seen])), (names("ann", "bob", "n"), NO_SUCH_ITEM),
            (delete_group("bob", "g"), OK), (create_group("bob", "g"), OK), (list_of("ann"), listed()), (members("ann", "bob", "g"), NO_SUCH_ITEM)])


def test_grants_on_groups():
    """They are the owner's; a grant to himself and a revoke of nothing change nothing, and a grant on a model of that name is another."""
    expect([*GROUPED, (create_group("ann", "m"), OK), (grant_group("ann", "g", "ann"), OK), (revoke_group("ann", "g", "bob"), OK),
            (grant_group("ann", "m", "bob"), OK), (list_of("bob"), listed(groups=[(b"read", b"m", b"ann")])), (names("bob", "ann", "m"), NO_SUCH_ITEM),
            (grant("ann", "g", "bob", "read"), NO_SUCH_ITEM), (revoke("ann", "m", "bob"), OK), (revoke("ann", "g", "bob"), NO_SUCH_ITEM),
            (list_of("bob"), listed(groups=[(b"read", b"m", b"ann")])), (grant("ann", "m", "bob", "group"), OK), (revoke_group("ann", "m", "bob"), OK),
            (list_of("bob"), listed((b"group", b"m", b"ann"))), (list_of("ann"), listed((b"owner", b"m", b"ann"), groups=[(b"owner", b"g", b"ann"), (b"owner", b"m", b"ann")]))])


def test_the_level_group_on_a_model():
    """It reads, and doesn't write."""
    expect([*FIRST, (grant("ann", "m", "bob", "group"), OK), (list_of("bob"), listed((b"group", b"m", b"ann"))), (names("bob", "ann", "m"), FIRST_NAMES),
            (export("bob", "ann", "m"), FIRST_EXPORT), (get("bob", "ann", "m", 2), got("#2=Q(#1);")), (put("bob", "ann", "m", file_of("")), NO_RIGHT),
            (add("bob", "ann", "m", "P(1.,$)"), NO_RIGHT), (set_instance("bob", "ann", "m", 1, "P(1.,$)"), NO_RIGHT), (drop("bob", "ann", "m", 2), NO_RIGHT),
            (grant("ann", "m", "bob", "read"), OK), (list_of("bob"), listed((b"read", b"m", b"ann")))])


def test_a_model_that_is_seen_through_a_group():
    """By a third partner, at Read: he gets its instances and links to them. More that is granted to him goes before."""
    expect([*FIRST, (grant("ann", "m", "bob", "group"), OK), (create_group("bob", "g"), OK), (include("bob", "g", "ann", "m"), OK),
            (names("cyd", "ann", "m"), NO_SUCH_ITEM), (grant_group("bob", "g", "cyd"), OK), (names("cyd", "ann", "m"), FIRST_NAMES),
            (list_of("cyd"), listed((b"read", b"m", b"ann"), groups=[(b"read", b"g", b"bob")])), (get("cyd", "ann", "m", 2), got("#2=Q(#1);")),
            (drop("cyd", "ann", "m", 2), NO_RIGHT), (create_group("cyd", "g"), OK), (include("cyd", "g", "ann", "m"), NO_RIGHT), (create("cyd", "c"), OK),
            (put("cyd", "cyd", "c", file_of("#1=Q(#9);"), link(9, "ann", "m", 1)), instances(1)),
            (grant("ann", "m", "cyd", "write"), OK), (add("cyd", "ann", "m", "P(2.,$)"), added(3)), (revoke("ann", "m", "cyd"), OK),
            (names("cyd", "ann", "m"), named((1, "P"), (2, "Q"), (3, "P"))), (add("cyd", "ann", "m", "P(2.,$)"), NO_RIGHT),
            (revoke("ann", "m", "bob"), OK), (names("cyd", "ann", "m"), NO_SUCH_ITEM), (members("cyd", "bob", "g"), members_are(("ann", "m", False))),
            (put("cyd", "cyd", "c", file_of("#1=Q(#9);"), link(9, "ann", "m", 1)), link_fault("NotSeen", 9)),
            (export("cyd", "cyd", "c"), HAS_LINKS), (export("cyd", "cyd", "c", links=True), linked(canonical("#1=Q(#9);"), link(9, "ann", "m", 1))),
            (grant("ann", "m", "bob", "write"), OK), (names("cyd", "ann", "m"), named((1, "P"), (2, "Q"), (3, "P"))),
            (revoke_group("bob", "g", "cyd"), OK), (list_of("cyd"), listed((b"owner", b"c", b"cyd"), groups=[(b"owner", b"g", b"cyd")]))], THREE)


# ---- populations

def test_the_extent_of_an_entity():
    """The instances of an entity and of what is below it, in either case of its name; of none where the schema has no such entity."""
    d = ("SCHEMA D; ENTITY r; a : INTEGER; END_ENTITY; ENTITY s SUBTYPE OF (r); b : INTEGER; END_ENTITY; "
         "ENTITY t SUBTYPE OF (r); c : INTEGER; END_ENTITY; ENTITY v SUBTYPE OF (s, t); d : INTEGER; END_ENTITY; END_SCHEMA;")
    at = {name: ("ann", "m", name) for name in (1, 2, 3, 4)}
    config = {**CONFIG, "schemas": ["t.exp", "d.exp"]}
    expect([(create("ann", "m", "D"), OK), (create_group("ann", "g", "D"), OK), (include("ann", "g", "ann", "m"), OK),
            (put("ann", "ann", "m", file_of("#4=S(1,2);#1=(V(4)R(1)T(3)S(2));#2=(T(3)S(2)R(1));#3=R(7);", "D")), instances(4)),
            *[(extent("ann", "ann", "g", word), extent_is(*[at[it] for it in of])) for word, of in [
                ("R", [1, 2, 3, 4]), ("r", [1, 2, 3, 4]), ("S", [1, 2, 4]), ("t", [1, 2]), ("V", [1]), ("D", []), ("", []), ("D.R", []), ("r ", []), ("é", [])]]],
           config, d=d)


def test_users_in_their_roles():
    """The users of an instance, in a role or in all, in the order of the population."""
    first = ["ann", "m", 1]
    user = users_are(("ann", "m", 2))
    expect([*GROUPED, (users("ann", "ann", "g", first, ROLE), b'{"ok":{"users":[["ann","m",2]]}}'), (users("ann", "ann", "g", first, ""), user),
            (users("ann", "ann", "g", ["ann", "m", 2], ROLE), users_are()), (users("ann", "ann", "g", ["ann", "m", 7], ROLE), NO_SUCH_INSTANCE),
            *[(users("ann", "ann", "g", first, role), users_are()) for role in (
                "t.q.a", "T.q.A", "T.Q.a", "T.P.A", "T.P.X", "T.Q.X", "L.Q.A", "T.Q", "T.Q.A.", ".T.Q.A", "T..A", "Q.A", "A", ".", "..", " T.Q.A", "T.Q.A ",
                "T.R.A", "T.Q.U")]])


def test_users_of_another():
    """A link of a model that isn't in the group uses nothing there; once it is, its instance is a user."""
    asked = users("ann", "ann", "g", ["ann", "m", 1], ROLE)
    before, after = users_are(("ann", "m", 2)), b'{"ok":{"users":[["ann","m",2],["bob","b",1]]}}'
    expect([*LINKED, (asked, before), (grant("bob", "b", "ann", "group"), OK), (asked, before), (include("ann", "g", "bob", "b"), OK), (asked, after),
            (users("ann", "ann", "g", ["ann", "m", 1], ""), after), (users("ann", "ann", "g", ["bob", "b", 9], ""), NO_SUCH_INSTANCE),
            (delete("ann", "m"), OK), (asked, NO_SUCH_INSTANCE), (create("ann", "m"), OK), (asked, NO_SUCH_INSTANCE), (put("ann", "ann", "m", FILE), instances(2)),
            (asked, after), (revoke("bob", "b", "ann"), OK), (asked, before), (extent("ann", "ann", "g", "Q"), extent_is(("ann", "m", 2)))])


def test_replies_of_bob_s_models_made_first():
    """The order of places is that of bytes and of numbers, whoever came first."""
    expect([(create("bob", "b"), OK), (create("ann", "m"), OK), (put("ann", "ann", "m", file_of("#10=Q(#9);#9=P(1.,$);#2=Q(#9);")), instances(3)),
            (grant("ann", "m", "bob", "read"), OK), (put("bob", "bob", "b", file_of("#1=Q(#3);#2=Q(#3);"), link(3, "ann", "m", 9)), instances(2)),
            (grant("bob", "b", "ann", "group"), OK), (create_group("ann", "g"), OK), (include("ann", "g", "bob", "b"), OK), (include("ann", "g", "ann", "m"), OK),
            (users("ann", "ann", "g", ["ann", "m", 9], ROLE), users_are(("ann", "m", 2), ("ann", "m", 10), ("bob", "b", 1), ("bob", "b", 2))),
            (extent("ann", "ann", "g", "q"), extent_is(("ann", "m", 2), ("ann", "m", 10), ("bob", "b", 1), ("bob", "b", 2)))])


def test_each_use_is_listed():
    """A user stands as often as it uses the instance in the role, at any depth of its values, and in the roles of attributes that it inherits."""
    n = ("SCHEMA N; ENTITY e; END_ENTITY; ENTITY f SUBTYPE OF (e); x : LIST OF s; y : OPTIONAL e; END_ENTITY; "
         "TYPE s = SELECT (e, w); END_TYPE; TYPE w = LIST OF e; END_TYPE; "
         "ENTITY h SUBTYPE OF (f); DERIVE SELF\\f.y : e := ?; END_ENTITY; END_SCHEMA;")
    one = ["ann", "m", 1]
    place = {name: ("ann", "m", name) for name in (2, 3, 4)}
    turns = [(users("ann", "ann", "g", one, role), users_are(*[place[it] for it in found])) for role, found in [
        ("N.F.X", [2, 2, 2, 3, 4]), ("N.F.Y", [2]), ("N.H.X", [3, 4]), ("N.H.Y", []), ("N.E.X", []), ("", [2, 2, 2, 2, 3, 4])]]
    expect([(create("ann", "m", "N"), OK), (create_group("ann", "g", "N"), OK), (include("ann", "g", "ann", "m"), OK),
            (put("ann", "ann", "m", file_of("#1=E();#2=F((#1,W((#1,#2,#1)),#3),#1);#3=H((#1),*);#4=(E()F((#4,#1),$)H());", "N")), instances(4)),
            *turns, (users("ann", "ann", "g", ["ann", "m", 4], "N.F.X"), users_are(place[4]))],
           {**CONFIG, "schemas": ["n.exp"]}, n=n)


# ---- refusals

def test_an_unseen_group_is_answered_as_an_absent_one():
    """Whoever asks, whatever he asks; and a group of that name may be his own."""
    asked = [members, lambda who, owner, group: extent(who, owner, group, "P"), lambda who, owner, group: users(who, owner, group, ["ann", "m", 1], ROLE)]
    expect([*GROUPED, *[(it("bob", "ann", group), NO_SUCH_ITEM) for it in asked for group in ("g", "z")],
            *[(it("bob", "carl", "g"), UNKNOWN_PARTNER) for it in asked], *[(it("bob", "carl", "a b"), BAD_NAME) for it in asked],
            *[(it("bob", "c d", "g"), BAD_NAME) for it in asked], (create_group("bob", "g"), OK), (members("bob", "bob", "g"), members_are())])


def test_refusals_in_their_order():
    """The first that holds is told, whatever later one also holds."""
    full = [(create("ann", f"m{place}"), OK) for place in range(50)] + [(include("ann", "f", "ann", f"m{place}"), OK) for place in range(50)]
    expect([*FIRST, (create("ann", "k", "L"), OK), (create("bob", "b"), OK), (grant("bob", "b", "ann", "read"), OK),
            (create_group("ann", "a b", "Z"), BAD_NAME), (create_group("ann", "g", "Z"), UNKNOWN_SCHEMA), (create_group("ann", "g"), OK),
            (create_group("ann", "g", "Z"), UNKNOWN_SCHEMA), (create_group("ann", "g"), EXISTS), (create_group("ann", "f"), OK),
            (delete_group("ann", "a b"), BAD_NAME), (delete_group("ann", "z"), NO_SUCH_ITEM),
            (include("ann", "a b", "carl", "m"), BAD_NAME), (include("ann", "g", "carl", "c d"), BAD_NAME), (include("ann", "g", "", "m"), BAD_NAME),
            (include("ann", "z", "carl", "m"), UNKNOWN_PARTNER), (include("ann", "z", "bob", "b"), NO_SUCH_ITEM), (include("ann", "g", "bob", "z"), NO_SUCH_ITEM),
            (include("ann", "g", "ann", "z"), NO_SUCH_ITEM), (include("ann", "z", "ann", "z"), NO_SUCH_ITEM), (include("ann", "g", "bob", "b"), NO_RIGHT),
            (include("ann", "g", "ann", "k"), WRONG_SCHEMA), (include("ann", "g", "ann", "m"), OK), (include("ann", "g", "ann", "m"), MEMBERSHIP),
            *full, (include("ann", "f", "ann", "m0"), MEMBERSHIP), (include("ann", "f", "ann", "m"), TOO_MANY), (include("ann", "f", "ann", "k"), WRONG_SCHEMA),
            (include("ann", "f", "bob", "b"), NO_RIGHT),
            (exclude("ann", "a b", "carl", "m"), BAD_NAME), (exclude("ann", "g", "carl", "c d"), BAD_NAME), (exclude("ann", "z", "carl", "m"), UNKNOWN_PARTNER),
            (exclude("ann", "z", "ann", "m"), NO_SUCH_ITEM), (exclude("ann", "g", "bob", "b"), MEMBERSHIP), (exclude("ann", "g", "ann", "k"), MEMBERSHIP),
            (users("ann", "ann", "g", ["no name", "", 1], ROLE), NO_SUCH_INSTANCE), (users("ann", "ann", "g", ["carl", "m", 0], ""), NO_SUCH_INSTANCE),
            (users("ann", "ann", "z", ["carl", "m", 1], ROLE), NO_SUCH_ITEM), (users("ann", "carl", "z", ["a b", "m", 1], ROLE), UNKNOWN_PARTNER),
            (grant_group("ann", "a b", "carl"), BAD_NAME), (grant_group("ann", "g", "c d"), BAD_NAME), (grant_group("ann", "z", "carl"), UNKNOWN_PARTNER),
            (grant_group("ann", "z", "bob"), NO_SUCH_ITEM), (revoke_group("ann", "a b", "carl"), BAD_NAME), (revoke_group("ann", "z", "carl"), UNKNOWN_PARTNER),
            (revoke_group("ann", "z", "bob"), NO_SUCH_ITEM), (members("ann", "ann", "g"), members_are(("ann", "m", True)))])


def test_groups_of_one_owner():
    """An owner has at most 100, beside his models and others' groups; one that is deleted leaves room."""
    turns = [(create_group("ann", f"g{place}"), OK) for place in range(100)]
    expect([*FIRST, *turns, (create_group("ann", "one"), TOO_MANY), (create_group("ann", "g7"), EXISTS), (create("ann", "one"), OK), (create_group("bob", "one"), OK),
            (delete_group("ann", "g7"), OK), (create_group("ann", "one"), OK), (create_group("ann", "g7"), TOO_MANY)])


def test_members_of_one_group():
    """A group lists at most 50, whether they count or not; one that is excluded leaves room."""
    models = [f"m{place}" for place in range(51)]
    turns = [(create("ann", name), OK) for name in models] + [(create_group("ann", "g"), OK)] + [(include("ann", "g", "ann", name), OK) for name in models[:50]]
    expect([*turns, (include("ann", "g", "ann", "m50"), TOO_MANY), (delete("ann", "m3"), OK), (include("ann", "g", "ann", "m50"), TOO_MANY),
            (exclude("ann", "g", "ann", "m3"), OK), (include("ann", "g", "ann", "m50"), OK),
            (members("ann", "ann", "g"), members_are(*[("ann", name, True) for name in sorted(models) if name != "m3"]))])


def test_lines_that_are_no_request():
    """A request has exactly its keys, each of its kind; a group is granted to be read alone, and `of` is a list of two strings and a number."""
    group, model, of = {"owner": "ann", "group": "g"}, {"group": "g", "owner": "ann", "model": "m"}, ["ann", "m", 1]
    given = {"name": "g", "to": "bob"}
    lines = [
        line("ann", "create_group", name="g"), line("ann", "create_group", name="g", schema="T", owner="ann"), line("ann", "create_group", name="g", schema=1),
        line("ann", "delete_group"), line("ann", "delete_group", name="g", owner="ann"), line("ann", "delete_group", group="g"),
        line("ann", "include", group="g", model="m"), line("ann", "include", **model, schema="T"), line("ann", "include", **{**model, "group": None}),
        line("ann", "exclude", owner="ann", model="m"), line("ann", "exclude", **model, name="g"), line("ann", "exclude", **{**model, "owner": ["ann"]}),
        line("ann", "members", owner="ann"), line("ann", "members", group="g"), line("ann", "members", **group, model="m"), line("ann", "Members", **group),
        line("ann", "extent", **group), line("ann", "extent", **group, type=1), line("ann", "extent", **group, type="P", role=""), line("ann", "extent", **group, entity="P"),
        line("ann", "users", **group, of=of), line("ann", "users", **group, role=ROLE), line("ann", "users", **group, of=of, role=ROLE, type="P"),
        line("ann", "users", **group, of=of, role=None), line("ann", "members", **group, of=of), line("ann", "names", owner="ann", model="m", of=of),
        *[line("ann", "users", **group, of=it, role=ROLE) for it in (
            None, "", 1, True, {}, {"owner": "ann", "model": "m", "instance": 1}, [], ["ann"], ["ann", "m"], ["ann", 1], [*of, 1], [*of, None], [*of, [], {}],
            [of], [*of[:2], "1"], [*of[:2], 1.0], [*of[:2], -1], [*of[:2], 10**18], [*of[:2], 2**64], [*of[:2], None], [*of[:2], [1]], ["ann", None, 1],
            ["ann", ["m"], 1], [None, "m", 1], [1, "m", "ann"], [{}, "m", 1])],
        *[line("ann", "users", **group, of=of, role=ROLE).replace(b"1]", it) for it in (b"-0]", b"1e0]", b"1,]", b"01]", b"1", b"1}", b"1 1]", b"1]]")],
        line("ann", "grant", kind="group", level="group", **given), line("ann", "grant", kind="group", level="write", **given),
        line("ann", "grant", kind="group", level="owner", **given), line("ann", "grant", kind="group", level="Read", **given), line("ann", "grant", kind="group", **given),
        line("ann", "grant", kind="Group", level="read", **given), line("ann", "grant", kind="model", level="Group", name="m", to="bob"),
        line("ann", "grant", kind="groups", level="read", **given), line("ann", "revoke", kind="group", level="read", **given),
        line("ann", "revoke", kind="Group", **given), line("ann", "revoke", **given),
        line("ann", "validate", group="g"), line("ann", "validate", owner="ann"), line("ann", "validate", **group, model="m"), line("ann", "Validate", **group),
        line("ann", "validate", **{**group, "owner": None}), line("ann", "validate", **{**group, "group": 1}), line("ann", "validate", **group, type="P"),
    ]
    expect([*GROUPED, *[(it, BAD_REQUEST) for it in lines], (members("ann", "ann", "g"), members_are(("ann", "m", True))), (list_of("bob"), listed())])


def test_lines_as_they_may_be_written():
    """Blanks, escapes and the order of the keys don't matter; of equal keys the last one stands, of `of` too."""
    user = users_are(("ann", "m", 2))
    none = b'{"as":"ann","do":"users","owner":"ann","group":"g","role":"T.Q.A"'
    expect([*FIRST, (b'{"schema":"t","do":"create_group","name":"\\u0067","as":"ann"}', OK),
            (b' {"model":"m","group":"g" , "as":"ann","owner":"ann", "do" : "include"}', OK),
            (b'{"owner":"ann","as":"ann","group":"g","do":"members"}', members_are(("ann", "m", True))),
            (b'{"type":"p","owner":"ann","as":"ann","group":"g","do":"extent"}', extent_is(("ann", "m", 1))),
            (b'{"role":"","of":[ "\\u0061nn" ,\t"m",1 ],"owner":"ann","as":"ann","group":"g","do":"users"}', user),
            (b'{"of":["ann","m",1],"as":"ann","owner":"ann","do":"users","group":"g","role":"T.Q.A"}', user),
            (none + b',"of":["ann","m",7],"of":["ann","m",1]}', user), (none + b',"of":7,"of":["ann","m",1]}', user),
            (none + b',"of":["ann","m",1],"of":["ann","m",7]}', NO_SUCH_INSTANCE), (none + b',"of":["ann","m",1],"of":7}', BAD_REQUEST),
            (none + b',"of":["ann","m",1],"of":[["ann","m",1]]}', BAD_REQUEST), (none + b',"of":[' + b"[" * 125 + b"]" * 125 + b'],"of":["ann","m",1]}', user),
            (none + b',"of":[' + b"[" * 126 + b"]" * 126 + b'],"of":["ann","m",1]}', BAD_REQUEST), (none + b',"of":[1e999],"of":["ann","m",1]}', BAD_REQUEST),
            (none + b',"of":["ann","m",1,' + b"[" * 126 + b"]" * 126 + b'],"of":["ann","m",1]}', BAD_REQUEST),
            (none + b',"of":["ann","m",1,2,"\\ud800"],"of":["ann","m",1]}', BAD_REQUEST), (none + b',"of":["ann","m",1,2,{"a":[]}],"of":["ann","m",1]}', user),
            (b'{"as":"ann","do":"grant","kind":"group","kind":"model","level":"read","level":"group","name":"m","to":"bob"}', OK),
            (list_of("bob"), listed((b"group", b"m", b"ann"))),
            (b'{"to":"bob","name":"g","level":"read","kind":"group","do":"grant","as":"ann"}', OK),
            (list_of("bob"), listed((b"group", b"m", b"ann"), groups=[(b"read", b"g", b"ann")])),
            (b'{"to":"bob","name":"g","kind":"group","do":"revoke","as":"ann"}', OK), (list_of("bob"), listed((b"group", b"m", b"ann"))),
            (b'{"owner":"ann","model":"m","do":"exclude","group":"g","as":"ann"}', OK), (b'{"name":"g","do":"delete_group","as":"ann"}', OK),
            (members("ann", "ann", "g"), NO_SUCH_ITEM)])


# ---- two inputs

def test_two_inputs_that_look_the_same_to_bob():
    """What ann does with models and groups that bob doesn't see changes none of his replies, also where they hold what is his."""
    his = [list_of("bob"), members("bob", "ann", "g"), create_group("bob", "g"), include("bob", "g", "bob", "b"), members("bob", "bob", "g"),
           extent("bob", "bob", "g", "Q"), users("bob", "bob", "g", ["bob", "b", 1], ""), put("bob", "bob", "b", file_of("#1=P(1.,$);#2=Q(#1);")),
           users("bob", "bob", "g", ["bob", "b", 1], ""), extent("bob", "bob", "g", "P"), names("bob", "ann", "x"), include("bob", "g", "ann", "x"),
           exclude("bob", "g", "ann", "x"), list_of("bob"), exclude("bob", "g", "bob", "b"), members("bob", "bob", "g"), delete_group("bob", "g")]
    first = [*FIRST_LINES, create("bob", "b"), put("bob", "bob", "b", file_of("#1=P(1.,$);")), grant("bob", "b", "ann", "group")]
    hers = [create("ann", "x"), create_group("ann", "g"), include("ann", "g", "bob", "b"), include("ann", "g", "ann", "x"), members("ann", "ann", "g"),
            put("ann", "ann", "x", file_of("#1=Q(#9);"), link(9, "bob", "b", 1)), users("ann", "ann", "g", ["bob", "b", 1], ROLE), extent("ann", "ann", "g", "P"),
            exclude("ann", "g", "bob", "b"), include("ann", "g", "ann", "m"), include("ann", "g", "bob", "b"), delete_group("ann", "g"), create_group("ann", "g"),
            delete("ann", "x"), include("ann", "g", "bob", "b"), list_of("ann"), create_group("ann", "a b")]
    second = [*first]
    for one, other in zip(hers, his):
        second += [one, other]
    alone, beside = replies_to("bob", [*first, *his]), replies_to("bob", second)
    if alone != beside or len(alone) != len(his) + 3:
        raise Wrong(f"{alone!r} and {beside!r}")
    b = ("bob", "b", 1)
    wanted = [listed((b"owner", b"b", b"bob")), NO_SUCH_ITEM, OK, OK, members_are(("bob", "b", True)), extent_is(), users_are(), instances(2),
              users_are(("bob", "b", 2)), extent_is(b), NO_SUCH_ITEM, NO_SUCH_ITEM, MEMBERSHIP,
              listed((b"owner", b"b", b"bob"), groups=[(b"owner", b"g", b"bob")]), OK, members_are(), OK]
    if alone[3:] != wanted:
        raise Wrong(f"{alone!r} in place of {wanted!r}")


if __name__ == "__main__":
    run_tests("groups", globals(), sys.argv[1:])
