#!/usr/bin/env python3
"""Compares what bob's requests take of memory where ann has models and groups that he doesn't see with what they take where
she has none: a growth that is refused tells nothing of them.

    tests/unseen_memory.py [PROGRAM]

Each request stands behind two inputs of one length. Its reply, the number of its allocations and the bytes that they ask for
have to be the same behind both; tools/refuse.c counts them. What is left out are requests that change something, since a table
of all rows is made larger for the row of one partner. The last line is 'unseen memory: N passed, M failed', and the status is
0 only if none failed.
"""
import os
import sys

from lib.harness import TOP, Folder, end, take_program
from lib.messages import (
    ATTRIBUTES_HOLD, CONFIG, HAS_LINKS, IN_USE, MEMBERSHIP, NO_SUCH_INSTANCE, NO_SUCH_ITEM, Repository, add, canonical, check, check_is, create, create_group, delete,
    delete_group, drop, exclude, export, exported, extent, extent_is, file_fault, file_of, get, good, got, grant, grant_group, include,
    instance_fault, link, link_fault, list_of, listed, loaded, members, members_are, named, names, put, revoke, revoke_group, schemas,
    report_is, set_instance, users, users_are, validate,
)

sys.path.insert(0, os.path.join(TOP, "tools"))

from each_refusal import run, shim_in  # noqa: E402

LABEL = "unseen memory"
ROLE = "T.Q.A"
MANY = "".join(f"#{k}=P({k}.,'{'a' * 50}');" for k in range(1, 500))

# What bob has: a model, a group that lists it, one with a link to it, and a group without members. And what he sees of cyd's: a group
# with a model that counts, which he reads by it, and another that he reads himself.
HIS = [create("bob", "b"), put("bob", "bob", "b", file_of("#2=Q(#1);#1=P(1.,$);")), create_group("bob", "g"), include("bob", "g", "bob", "b"),
       create("bob", "c"), put("bob", "bob", "c", file_of("#1=Q(#9);"), link(9, "bob", "b", 1)), create_group("bob", "e"),
       create("cyd", "v"), put("cyd", "cyd", "v", file_of("#1=P(1.,$);")), create_group("cyd", "w"), include("cyd", "w", "cyd", "v"),
       grant_group("cyd", "w", "bob"), create("cyd", "x"), grant("cyd", "x", "bob", "read")]
# What ann has: models with many instances, of names that bob has too, groups that list hers, and grants to herself.
HERS = [*[line for name in ("m", "n", "o", "b", "g") for line in (create("ann", name), put("ann", "ann", name, file_of(MANY)))],
        *[line for name in ("m", "g", "h")
          for line in (create_group("ann", name), include("ann", name, "ann", "m"), include("ann", name, "ann", "n"))],
        put("ann", "ann", "o", file_of("#1=Q(#9);"), link(9, "ann", "m", 1)), grant("ann", "m", "ann", "read"), create("ann", "k", "L")]

LISTED = listed((b"owner", b"b", b"bob"), (b"owner", b"c", b"bob"), (b"read", b"v", b"cyd"), (b"read", b"x", b"cyd"),
                groups=[(b"owner", b"e", b"bob"), (b"owner", b"g", b"bob"), (b"read", b"w", b"cyd")])
TO_M = link(9, "ann", "m", 1)
HOLDS = [*ATTRIBUTES_HOLD, check_is("where", "P", "W1"), check_is("inverse", "P", "U")]

# A request of bob's, and the reply to it.
ROWS = [
    *((line, NO_SUCH_ITEM) for line in (
        names("bob", "ann", "m"), export("bob", "ann", "m"), export("bob", "ann", "o", links=True), get("bob", "ann", "m", 1),
        put("bob", "ann", "m", file_of("#1=P(1.,$);")), put("bob", "ann", "m", file_of("#1=Q(#9);"), TO_M), put("bob", "ann", "m", "ISO-10303-2"),
        add("bob", "ann", "m", "P(1.,$)"), set_instance("bob", "ann", "m", 1, "P(1.,$)"), drop("bob", "ann", "m", 1),
        delete("bob", "m"), grant("bob", "m", "ann", "read"), revoke("bob", "m", "ann"),
        members("bob", "ann", "g"), extent("bob", "ann", "g", "P"), users("bob", "ann", "g", ["ann", "m", 1], ROLE), validate("bob", "ann", "g"),
        include("bob", "g", "ann", "m"), include("bob", "h", "ann", "m"), include("bob", "h", "bob", "b"), exclude("bob", "h", "bob", "b"),
        delete_group("bob", "h"), grant_group("bob", "h", "ann"), revoke_group("bob", "h", "ann"))),
    (exclude("bob", "g", "ann", "m"), MEMBERSHIP), (include("bob", "g", "bob", "b"), MEMBERSHIP),
    (put("bob", "bob", "b", file_of("#1=Q(#9);"), TO_M), link_fault("NotSeen", 9)),
    (put("bob", "bob", "b", file_of("#1=Q(#8);"), TO_M), instance_fault("Undefined", 1)),
    (put("bob", "bob", "b", "ISO-10303-2"), file_fault("Token", 0)), (users("bob", "bob", "g", ["ann", "m", 1], ROLE), NO_SUCH_INSTANCE),
    (get("bob", "bob", "b", 3), NO_SUCH_INSTANCE), (drop("bob", "bob", "b", 1), IN_USE), (export("bob", "bob", "c"), HAS_LINKS),
    (list_of("bob"), LISTED), (names("bob", "bob", "b"), named((1, "P"), (2, "Q"))), (names("bob", "cyd", "v"), named((1, "P"))),
    (export("bob", "bob", "b"), exported(canonical("#1=P(1.,$);", "#2=Q(#1);"))), (export("bob", "cyd", "x"), exported(canonical())),
    (get("bob", "bob", "b", 2), got("#2=Q(#1);")), (members("bob", "bob", "g"), members_are(("bob", "b", True))),
    (members("bob", "bob", "e"), members_are()), (members("bob", "cyd", "w"), members_are(("cyd", "v", True))),
    (extent("bob", "cyd", "w", "P"), extent_is(("cyd", "v", 1))), (extent("bob", "bob", "g", "P"), extent_is(("bob", "b", 1))),
    (users("bob", "bob", "g", ["bob", "b", 1], ROLE), users_are(("bob", "b", 2))), (validate("bob", "bob", "g"), report_is(7, *HOLDS)),
    (schemas("bob"), loaded("L", "T")), (check("bob", "SCHEMA C; END_SCHEMA;"), good("C")),
]


def taken(folder, before, line):
    """The reply to a line behind others, its allocations and the bytes that they ask for."""
    alone, beside = (run(Folder.program, folder.folder.name, lines) for lines in (before, [*before, line]))
    replies = beside.output.split(b"\n")[:-1]
    if (alone.status, beside.status, len(replies)) != (0, 0, len(before) + 1):
        return f"status {beside.status}, {len(replies)} replies to {len(before) + 1} lines"
    return replies[-1], beside.allocations - alone.allocations, beside.asked - alone.asked


def main(words):
    take_program(LABEL, words)
    # (a line ends with blanks in place of what ann asks: so reads cut what follows at the same bytes)
    there = [*HERS, *HIS]
    absent = [*HIS[:-1], HIS[-1] + b" " * sum(len(it) + 1 for it in HERS)]
    passed = failed = 0
    with Repository({**CONFIG, "partners": [*CONFIG["partners"], {"name": "cyd", "token": "tc"}]}) as folder:
        shim_in(folder.folder.name)
        for line, reply in ROWS:
            one, other = taken(folder, absent, line), taken(folder, there, line)
            if one == other and one[0] == reply:
                passed += 1
            else:
                failed += 1
                print(f"{line.decode()}: FAILED: where ann has nothing: {one!r}, else {other!r}; the reply has to be {reply!r}")
    end(LABEL, passed, failed)


if __name__ == "__main__":
    main(sys.argv[1:])
