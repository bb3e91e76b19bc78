#!/usr/bin/env python3
"""Calls `Repository::run`, `handle` and `snapshot`, which `batch` and `serve` do not call, by the program of the trials, and compares all that is
printed.

    tests/library_calls.py [PROGRAM]

PROGRAM is as for evaluation.py. It answers requests by one `run`, and then each once more by `handle`; after either it prints the snapshot.
The replies of the run are written down here. Those to requests that are repeated, and snapshots, come from the plain repository. Then
tools/refuse.c refuses each allocation in turn. A reply is the exact one, or NoMemory with nothing changed; a run or a snapshot may be missing
as a whole; and what follows is answered accordingly. The last line is 'library_calls: N passed, M failed', and the status is 0 only if none
failed.
"""
import collections
import os
import sys

from evaluation import program_of
from lib import plain_files
from lib.harness import TOP, Folder, run_parts, shortened
from lib.messages import (
    ATTRIBUTES_HOLD, E, EXISTS, FIRST_EXPORT, FIRST_LINES, FIRST_NAMES, FIRST_REPLIES, HAS_LINKS, IN_USE, MEMBERSHIP, NO_RIGHT, NO_SUCH_INSTANCE,
    NO_SUCH_ITEM, OK, WRONG_SCHEMA, T, add, added, canonical, check, check_is, create, create_group, delete, delete_group, drop, exclude, export,
    exported, extent, extent_is, fault, file_of, get, got, grant, grant_group, include, instance_fault, instances, link, link_fault, linked,
    list_of, listed, loaded, members, members_are, named, names, put, refused, report_is, revoke, revoke_group, schemas, set_instance, users, users_are,
    validate,
)
from lib.plain_binding import Entity, Schema
from lib.plain_model import Repository
from lib.plain_snapshots import model, snapshot, snapshot_of
from lib.shims import shim_in

sys.path.insert(0, os.path.join(TOP, "tools"))

from each_refusal import run  # noqa: E402

D = """SCHEMA D; ENTITY r; a : INTEGER; END_ENTITY;
ENTITY s SUBTYPE OF (r); b : INTEGER; END_ENTITY;
ENTITY t SUBTYPE OF (r); c : INTEGER; END_ENTITY;
ENTITY v SUBTYPE OF (s, t); d : INTEGER; END_ENTITY; END_SCHEMA;
"""
N = "SCHEMA N; ENTITY e; DERIVE a : INTEGER := b; b : INTEGER := a; WHERE w : a = 1; END_ENTITY; END_SCHEMA;\n"
QUOTIENT = "SCHEMA A; ENTITY e; a : REAL; WHERE a / 2.0 > 1.0; END_ENTITY; END_SCHEMA;"

# each schema's text, and the same as it is read in Python
SCHEMAS = {
    "t.exp": (T, Schema("T", {}, {"p": Entity({"x": "REAL", "n": "STRING"}, optional=["n"]), "q": Entity({"a": "p"})})),
    "e.exp": (E, Schema("E", {}, {"e": Entity(is_abstract=True, expression=("ANDOR", ("ONEOF", "a", "b"), "c")),
                                  **{it: Entity(supertypes=["e"]) for it in "abc"}})),
    "d.exp": (D, Schema("D", {}, {"r": Entity({"a": "INTEGER"}), "s": Entity({"b": "INTEGER"}, ["r"]), "t": Entity({"c": "INTEGER"}, ["r"]),
                                  "v": Entity({"d": "INTEGER"}, ["s", "t"])})),
    "n.exp": (N, Schema("N", {}, {"e": Entity()})),
}
TEXTS = {QUOTIENT: {"fault": {"at": 38, "kind": "RealArithmetic"}}}

EMPTY = b'STEPREPO 1\n{"groups":[],"models":[]}'
FIRST_SNAPSHOT = (
    b"STEPREPO 1\n{\"groups\":[],\"models\":[{\"file\":\"ISO-10303-21;\\nHEADER;\\nFILE_DESCRIPTION((''),'2;1');\\nFILE_NAME('','',(''),(''),'','','');\\n"
    b"FILE_SCHEMA(('T'));\\nENDSEC;\\nDATA;\\n#1=P(1.E-1,'a');\\n#2=Q(#1);\\nENDSEC;\\nEND-ISO-10303-21;\\n\",\"grants\":[],\"greatest\":2,\"links\":[],"
    b"\"name\":\"m\",\"owner\":\"ann\",\"schema\":\"T\"}]}")

# The rule of T costs 4 and a step for each user, and its inverse attribute 1 and as much.
TWO_HOLD = report_is(4 + 1 + 1 + 1, *ATTRIBUTES_HOLD, check_is("where", "P", "W1"), check_is("inverse", "P", "U"))
THREE_HOLD = report_is(4 + 1 + 1 + 1 + 4 + 1, *ATTRIBUTES_HOLD, check_is("where", "P", "W1"), check_is("inverse", "P", "U"))
NINTH = link(9, "ann", "m", 1)

# Requests with their replies, by the schemas that they are asked with: of each kind, and refusals of each sort.
TURNS = {
    ("t.exp", "e.exp"): [
        *zip(FIRST_LINES, FIRST_REPLIES), (names("ann", "ann", "m"), FIRST_NAMES), (export("ann", "ann", "m"), FIRST_EXPORT),
        (create_group("ann", "g"), OK), (include("ann", "g", "ann", "m"), OK), (validate("ann", "ann", "g"), TWO_HOLD),
        (users("ann", "ann", "g", ["ann", "m", 1], "T.Q.A"), users_are(("ann", "m", 2))), (drop("ann", "ann", "m", 1), IN_USE),
        (create("ann", "m"), EXISTS), (names("bob", "ann", "m"), NO_SUCH_ITEM), (get("ann", "ann", "m", 7), NO_SUCH_INSTANCE),
        (grant("ann", "m", "bob", "write"), OK), (add("bob", "ann", "m", "P(2.,$)"), added(3)), (get("ann", "ann", "m", 3), got("#3=P(2.,$);")),
        (set_instance("bob", "ann", "m", 3, "P(5.,$)"), OK), (get("ann", "ann", "m", 3), got("#3=P(5.,$);")),
        (grant("ann", "m", "bob", "group"), OK), (add("bob", "ann", "m", "P(2.,$)"), NO_RIGHT), (create("bob", "b"), OK),
        (put("bob", "bob", "b", file_of("#1=Q(#9);"), NINTH), instances(1)), (export("bob", "bob", "b"), HAS_LINKS),
        (export("bob", "bob", "b", links=True), linked(canonical("#1=Q(#9);"), NINTH)),
        (put("bob", "bob", "b", file_of("#1=Q(#9);"), link(9, "ann", "z", 1)), link_fault("NotSeen", 9)),
        (put("bob", "bob", "b", file_of("#1=P(*,$);")), instance_fault("NotDerived", 1)), (validate("ann", "ann", "g"), THREE_HOLD),
        (create_group("bob", "h"), OK), (include("bob", "h", "ann", "m"), OK),
        (extent("bob", "bob", "h", "P"), extent_is(("ann", "m", 1), ("ann", "m", 3))), (drop("ann", "ann", "m", 3), OK),
        (revoke("ann", "m", "bob"), OK), (extent("bob", "bob", "h", "P"), extent_is()), (members("bob", "bob", "h"), members_are(("ann", "m", False))),
        (exclude("bob", "h", "ann", "m"), OK), (exclude("bob", "h", "ann", "m"), MEMBERSHIP), (create("ann", "k", "E"), OK),
        (include("ann", "g", "ann", "k"), WRONG_SCHEMA), (grant_group("ann", "g", "bob"), OK),
        (list_of("bob"), listed((b"read", b"m", b"ann"), (b"owner", b"b", b"bob"), groups=[(b"read", b"g", b"ann"), (b"owner", b"h", b"bob")])),
        (revoke_group("ann", "g", "bob"), OK), (delete_group("bob", "h"), OK), (delete("ann", "k"), OK), (schemas("ann"), loaded("E", "T")),
        (check("ann", QUOTIENT), fault("RealArithmetic", 38)),
    ],
    # supertypes of one entity in two ways, and a rule that reaches its limit
    ("d.exp", "n.exp"): [
        (create("ann", "d", "D"), OK), (put("ann", "ann", "d", file_of("#1=(V(4)R(1)T(3)S(2));#2=(T(3)S(2)R(1));", "D")), instances(2)),
        (names("ann", "ann", "d"), named((1, "V"), (2, "R+S+T"))),
        (export("ann", "ann", "d"), exported(canonical("#1=V(1,2,3,4);", "#2=(R(1)S(2)T(3));", schema="D"))),
        (put("ann", "ann", "d", file_of("#1=V(1,2,3);", "D")), instance_fault("WrongCount", 1)),
        (put("ann", "ann", "d", file_of("#1=(S(2)V(4));", "D")), instance_fault("IllegalCombination", 1)),
        (create("bob", "n", "N"), OK), (put("bob", "bob", "n", file_of("#1=E();", "N")), instances(1)), (create_group("bob", "g", "N"), OK),
        (include("bob", "g", "bob", "n"), OK),
        (validate("bob", "bob", "g"), report_is(200_000, *ATTRIBUTES_HOLD, check_is("where", "E", "W", limit=[["bob", "n", 1]]))),
    ],
}

# how requests are answered, one way after the other
WAYS = ("run", "handle")
# What memory is missing for: a reply by its number, or one of these.
ALL, SNAPSHOT = "all", "snapshot"

NO_MEMORY = refused(18, "NoMemory")
# what is printed in place of the replies of a run, or of a snapshot
MISSING = b"out of memory"
OUT_OF_MEMORY = (2, b"trials: out of memory\n")
EXACT, ENDED = "the exact lines", "status 2"


def opened(paths):
    """The plain repository of these schemas."""
    both = [SCHEMAS[it] for it in paths]
    return Repository(["ann", "bob"], [it for _, it in both], plain_files.read, plain_files.read_mapping, TEXTS.__getitem__,
                      {it.name: text for text, it in both})


def answered(repository, way, lines, refused_at):
    """The replies to requests, and the snapshot after them. Memory is missing for the reply of this number, for ALL of them, or for the SNAPSHOT."""
    if refused_at == ALL:
        return [MISSING, snapshot_of(repository)]
    replies = []
    for number, line in enumerate(lines):
        if number == refused_at:
            replies.append(NO_MEMORY)
            continue
        reply, change = repository.step(line)
        if change:
            change()
        replies.append(reply)
    return [*replies, MISSING if refused_at == SNAPSHOT else snapshot_of(repository)]


def printed(paths, lines, refused_way=None, refused_at=None):
    """All that is printed, if memory is missing for nothing but this."""
    repository = opened(paths)
    return b"".join(it + b"\n" for way in WAYS for it in answered(repository, way, lines, refused_at if way == refused_way else None))


def words_of(paths, lines):
    return ("requests", *paths, *(it.decode() for it in lines))


def write_schemas(it):
    for name, (text, _) in SCHEMAS.items():
        it.folder.write(name, text)


def with_memory(it):
    """The exact bytes."""
    write_schemas(it)
    paths = ("t.exp", "e.exp")
    it.expect("no requests", it.folder.run(*words_of(paths, [])), (0, EMPTY + b"\n" + EMPTY + b"\n", b""))
    lines = [*FIRST_LINES, names("ann", "ann", "m"), export("ann", "ann", "m")]
    replies = [*FIRST_REPLIES, FIRST_NAMES, FIRST_EXPORT]
    wanted = b"".join(it + b"\n" for it in [*replies, FIRST_SNAPSHOT, EXISTS, *replies[1:], FIRST_SNAPSHOT])
    it.expect("the first requests", it.folder.run(*words_of(paths, lines)), (0, wanted, b""))
    for paths, turns in TURNS.items():
        lines = [line for line, _ in turns]
        wanted = printed(paths, lines)
        replies = b"".join(reply + b"\n" for _, reply in turns)
        it.expect(f"{paths}: the replies in Python", wanted[:len(replies)], replies)
        it.expect(f"{paths}: replies and snapshots", it.folder.run(*words_of(paths, lines)), (0, wanted, b""))


def outcomes_of(paths, lines):
    """What may be printed if one allocation is refused, and what that says."""
    found = {printed(paths, lines): EXACT, printed(paths, lines, "run", ALL): "NoMemory for the run"}
    for way in WAYS:
        found[printed(paths, lines, way, SNAPSHOT)] = f"NoMemory for the snapshot after {way}"
        found.update((printed(paths, lines, way, number), f"NoMemory for a reply of {way}") for number in range(len(lines)))
    return found


def refusals(it, paths, lines):
    """Refuses each allocation in turn, from where the last request is read. Counts the outcomes."""
    folder, words = it.folder.folder.name, words_of(paths, lines)
    exact, outcomes = printed(paths, lines), outcomes_of(paths, lines)

    def outcome(place):
        result = run(Folder.program, folder, [], words, REFUSE_NTH=str(place))
        ended = result.status, result.errors
        if result.refusals == 1 and ended == (0, b"") and result.output in outcomes:
            return outcomes[result.output]
        # (memory may be missing for the trial itself, as for the bytes of a reply)
        is_front = exact.startswith(result.output) and result.output[-1:] in (b"", b"\n")
        return ENDED if result.refusals == 1 and ended == OUT_OF_MEMORY and is_front else f"{ended} after {shortened(result.output)!r}"

    # (if the last line is no request, the program ends there, with as many allocations as come before that line)
    first = run(Folder.program, folder, [], words_of(paths, [*lines[:-1], b"{"])).allocations
    last = run(Folder.program, folder, [], words).allocations
    return collections.Counter(it.pool.map(outcome, range(first, last + 1)))


def each_refusal(it):
    """Each outcome is one that may be, and memory is missing for each of these at least once."""
    write_schemas(it)
    shim_in(it.folder.folder.name)
    for paths, turns in TURNS.items():
        lines = [line for line, _ in turns]
        counts = refusals(it, paths, lines)
        for outcome, count in sorted(counts.items()):
            print(f"    {', '.join(paths)}: {outcome}: {count} refusals")
        may_be = set(outcomes_of(paths, lines).values())
        it.expect(f"{paths}: wrong outcomes", sorted(set(counts) - may_be - {ENDED}), [])
        it.expect(f"{paths}: outcomes that are not seen", sorted(may_be - set(counts) - {EXACT}), [])


if __name__ == "__main__":
    run_parts("library_calls", (with_memory, each_refusal), program_of(sys.argv[1:]))
