#!/usr/bin/env python3
"""Runs the built program under a limit of its address space, as `ulimit -v 114688` or systemd's LimitAS= sets one, and compares
all that it writes.

    tests/memory_limit.py [PROGRAM]

What each test asks for has no room in 112 MiB. It is answered NoMemory; what was held before is held as before, and the next
requests are answered. The last line is 'memory limit: N passed, M failed', and the status is 0 only if none failed.
"""
import resource
import sys

from lib.harness import Wrong, run_tests, shortened
from lib.messages import (
    FILE_LIMIT, MIB, OK, Repository, add, added, canonical, create, create_group, export, exported, extent, extent_is, file_of, get, got, include,
    instances, members, members_are, named, names, put, refused, users, users_are,
)

LIMIT = 112 * MIB
NO_MEMORY = refused(18, "NoMemory")
SCHEMA = """SCHEMA T; ENTITY p; END_ENTITY; ENTITY q; a : LIST [0:?] OF p; END_ENTITY;
ENTITY s; t : STRING; END_ENTITY; END_SCHEMA;
"""
# Names as long as they may be, so that replies with many of them are long.
FIRST, SECOND, THIRD = (letter * 64 for letter in "abc")


def limited():
    resource.setrlimit(resource.RLIMIT_AS, (LIMIT, LIMIT))


def expect_limited(turns):
    """Each line is answered by the reply beside it, and the program ends with status 0."""
    with Repository(t=SCHEMA) as folder:
        status, output, errors = folder.run("batch", "--config", "config.json", text=b"".join(it + b"\n" for it, _ in turns), preexec_fn=limited)
    if (status, errors) != (0, b""):
        raise Wrong(f"status {status}, standard error {errors!r}")
    replies = output.split(b"\n")
    if len(replies) != len(turns) + 1 or replies[-1]:
        raise Wrong(f"{len(replies) - 1} replies in place of {len(turns)}")
    for place, (reply, (_, wanted)) in enumerate(zip(replies, turns), 1):
        if reply != wanted:
            raise Wrong(f"reply {place} is {shortened(reply)!r} in place of {shortened(wanted)!r}")


def model(name, file, count):
    """The turns that make a model which holds a file of so many instances."""
    return [(create("ann", name), OK), (put("ann", "ann", name, file), instances(count))]


def group(*listed):
    """The turns that make a group of these models."""
    return [(create_group("ann", "g"), OK), *((include("ann", "g", "ann", it), OK) for it in listed)]


def references(count):
    """A file whose instance 2 refers to its instance 1 so many times."""
    return file_of("#1=P();#2=Q((" + ",".join(["#1"] * count) + "));")


def test_users():
    """800,000 references to one instance are 62 MB of reply, and as much again while it is made."""
    asked = users("ann", "ann", "g", ["ann", FIRST, 1], "T.Q.A")
    small = [(names("ann", "ann", FIRST), named((1, "P"), (2, "Q"))), (members("ann", "ann", "g"), members_are(("ann", FIRST, True), ("ann", "n", True))),
             (users("ann", "ann", "g", ["ann", "n", 1], "T.Q.A"), users_are(("ann", "n", 2), ("ann", "n", 2)))]
    expect_limited([*model(FIRST, references(800_000), 2), *model("n", references(2), 2), *group(FIRST, "n"),
                    *small, (asked, NO_MEMORY), *small, (asked, NO_MEMORY), (add("ann", "ann", FIRST, "Q((#1))"), added(3)), (asked, NO_MEMORY),
                    (get("ann", "ann", FIRST, 3), got("#3=Q((#1));"))])


def test_extent():
    """600,000 instances of an entity are 49 MB of reply."""
    many = file_of("".join(f"#{name}=P();" for name in range(1, 200_001)))
    asked = extent("ann", "ann", "g", "P")
    small = [(extent("ann", "ann", "g", "Q"), extent_is(("ann", "n", 2))), (get("ann", "ann", THIRD, 200_000), got("#200000=P();"))]
    expect_limited([*(turn for name in (FIRST, SECOND, THIRD) for turn in model(name, many, 200_000)), *model("n", references(1), 2),
                    *group(FIRST, SECOND, THIRD, "n"), *small, (asked, NO_MEMORY), *small, (asked, NO_MEMORY), *small])


def test_export():
    """Each of the other letters takes 16 bytes of the reply, and two of a file of 8 MiB."""
    head = len(file_of("#1=S('');"))
    file = file_of("#1=S('" + "aé" * ((FILE_LIMIT - head) // 3) + "');")
    asked = export("ann", "ann", "m")
    small = [(names("ann", "ann", "m"), named((1, "S"))), (export("ann", "ann", "n"), exported(canonical("#1=P();", "#2=Q((#1,#1));")))]
    expect_limited([*model("m", file, 1), *model("n", references(2), 2), *small, (asked, NO_MEMORY), *small, (asked, NO_MEMORY), *small])


def test_put():
    """The model holds what it held, and its greatest name is as before; a smaller file is taken."""
    large = references((FILE_LIMIT - 400) // 3)
    content = (export("ann", "ann", "m"), exported(canonical("#1=P();", "#2=Q((#1,#1,#1));")))
    expect_limited([*model("m", references(3), 2), content, (put("ann", "ann", "m", large), NO_MEMORY), content,
                    (put("ann", "ann", "m", large.replace("#2=Q", "#9=Q")), NO_MEMORY), content, (add("ann", "ann", "m", "P()"), added(3)),
                    (put("ann", "ann", "m", references(1)), instances(2)), (get("ann", "ann", "m", 2), got("#2=Q((#1));"))])


if __name__ == "__main__":
    run_tests("memory limit", globals(), sys.argv[1:])
