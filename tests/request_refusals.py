#!/usr/bin/env python3
"""Refuses each allocation of each request in turn, and of each load and save, and compares all output of the built program.

    tests/request_refusals.py [PROGRAM]

The requests are sessions with their replies, and those that ask for the small reports of data/reports/. Before each line of a session the
run is forked for each allocation that the line makes (lib/refusing.py): a fork refuses that allocation, or for each third that and all
later ones. The reply must be NoMemory or the exact one, the content must be unchanged or as after the request, and the next requests, the
same one among them, must be answered accordingly. The plain repository gives these replies. The last line is
'request refusals: N passed, M failed', and the status is 0 only if none failed.
"""
import collections
import copy
import os
import re
import sys

from cut_texts import D, O
from lib.harness import Wrong, run_tests, shortened
from lib.messages import (
    ATTRIBUTES_HOLD, CONFIG, FIRST, FIRST_EXPORT, FIRST_NAMES, IN_USE, MEMBERSHIP, NO_RIGHT, NO_SUCH_INSTANCE, OK, WRONG_SCHEMA, E, T,
    add, added, canonical, check, check_is, create, create_group, delete, delete_group, drop, exclude, export, exported, extent, extent_is, fault,
    file_of, get, good, got, grant, grant_group, include, instance_fault, instances, link, linked, list_of, listed, loaded, members, members_are, named,
    names, put, refused, report_is, revoke, revoke_group, schemas, set_instance, users, users_are, validate,
)
from lib.plain_files import read, read_mapping
from lib.plain_grammars import FILES, INSTANCES
from lib.plain_model import REQUESTS, FileFault, Repository, request_of
from lib.plain_snapshots import snapshot_of
from lib.refusing import START, Run, refusing
from lib.report_rows import read_reports
from lib.rule_texts import binding_schema, tree_of
from lib.saving import OLD, Saving, each, files_in, replies_of

PARTNERS = [it["name"] for it in CONFIG["partners"]]
NO_MEMORY = refused(18, "NoMemory")

# ---- sessions

HOLDS = [*ATTRIBUTES_HOLD, check_is("where", "P", "W1"), check_is("inverse", "P", "U")]
GROUPED = [(create_group("ann", "g"), OK), (include("ann", "g", "ann", "m"), OK)]
TO_ANN = link(9, "ann", "m", 1)
LINKED = [(create("bob", "b"), OK), (put("bob", "bob", "b", file_of("#1=Q(#9);"), TO_ANN), instances(1))]
REPORT = (validate("ann", "ann", "g"), report_is(7, *HOLDS))
EXTENT, USERS = extent("bob", "bob", "g", "P"), users("ann", "ann", "g", ["ann", "m", 1], "T.Q.A")


def filled(schema, lines, count):
    """ann's model m of these instances, in her group g."""
    return [(create("ann", "m", schema), OK), (put("ann", "ann", "m", file_of(lines, schema)), instances(count)), (create_group("ann", "g", schema), OK),
            (include("ann", "g", "ann", "m"), OK)]


# texts to check, and the replies
CHECKED = {
    "SCHEMA A; ENTITY e; a : REAL; WHERE a / 2.0 > 1.0; END_ENTITY; END_SCHEMA;": fault("RealArithmetic", 38),
    "SCHEMA B; ENTITY e; x : e; y : e; WHERE x = y; END_ENTITY; END_SCHEMA;": fault("EntityComparison", 42),
    "SCHEMA C; ENTITY e; x : REAL; WHERE -1.5 < x; END_ENTITY; END_SCHEMA;": good("C"),
}

# by name: the schemas, and the lines with their replies
SESSIONS = {
    "a model, its file, its names, its text": ([T], [*FIRST, (names("ann", "ann", "m"), FIRST_NAMES), (export("ann", "ann", "m"), FIRST_EXPORT)]),
    "a file without instances": ([T], [*filled("T", "", 0), (names("ann", "ann", "m"), named()), (validate("ann", "ann", "g"), report_is(0, *HOLDS))]),
    "both mappings": ([D], [
        (create("ann", "m", "D"), OK), (put("ann", "ann", "m", file_of("#1=(V(4)R(1)T(3)S(2));#2=(T(3)S(2)R(1));", "D")), instances(2)),
        (export("ann", "ann", "m"), exported(canonical("#1=V(1,2,3,4);", "#2=(R(1)S(2)T(3));", schema="D"))),
        *((put("ann", "ann", "m", file_of(it, "D")), instance_fault(kind, 1)) for it, kind in (
            ("#1=V(1,2,3);", "WrongCount"), ("#1=V(1,2,3,4,5);", "WrongCount"), ("#1=(S(2)V(4));", "IllegalCombination")))]),
    "single instances": ([T], [
        *FIRST, (drop("ann", "ann", "m", 1), IN_USE), (drop("ann", "ann", "m", 2), OK), (add("ann", "ann", "m", "Q(#1)"), added(3)),
        (drop("ann", "ann", "m", 2), NO_SUCH_INSTANCE), (grant("ann", "m", "bob", "read"), OK), (create("bob", "b"), OK),
        (put("bob", "bob", "b", file_of("#1=Q(#9);"), link(9, "ann", "m", 3)), instances(1)), (drop("ann", "ann", "m", 3), OK)]),
    "another's changes": ([T], [
        *FIRST, (grant("ann", "m", "bob", "write"), OK), (add("bob", "ann", "m", "P(2.,$)"), added(3)), (get("ann", "ann", "m", 3), got("#3=P(2.,$);")),
        (set_instance("bob", "ann", "m", 3, "P(5.,$)"), OK), (get("ann", "ann", "m", 3), got("#3=P(5.,$);")), (grant("ann", "m", "bob", "read"), OK),
        (add("bob", "ann", "m", "P(2.,$)"), NO_RIGHT)]),
    "a report beside another's link": ([T], [
        *FIRST, *GROUPED, REPORT, (USERS, users_are(("ann", "m", 2))), (grant("ann", "m", "bob", "read"), OK), *LINKED, REPORT,
        (USERS, users_are(("ann", "m", 2))), (export("bob", "bob", "b", links=True), linked(canonical("#1=Q(#9);"), TO_ANN))]),
    "a model that comes and goes in another's group": ([T], [
        *FIRST, (grant("ann", "m", "bob", "group"), OK), (create_group("bob", "g"), OK), (include("bob", "g", "ann", "m"), OK),
        (EXTENT, extent_is(("ann", "m", 1))), (revoke("ann", "m", "bob"), OK), (EXTENT, extent_is()), (grant("ann", "m", "bob", "group"), OK),
        (EXTENT, extent_is(("ann", "m", 1))), (delete("ann", "m"), OK), *FIRST, (EXTENT, extent_is()),
        (members("bob", "bob", "g"), members_are(("ann", "m", False)))]),
    "schemas that are checked": ([T], [(schemas("bob"), loaded("T")), *((check("ann", it), reply) for it, reply in CHECKED.items())]),
    "members": ([T, E], [
        *FIRST, (create_group("bob", "g"), OK), (grant("ann", "m", "bob", "read"), OK), (include("bob", "g", "ann", "m"), NO_RIGHT),
        (grant("ann", "m", "bob", "group"), OK), (include("bob", "g", "ann", "m"), OK), (include("bob", "g", "ann", "m"), MEMBERSHIP),
        (create("ann", "k", "E"), OK), (create_group("ann", "h"), OK), (include("ann", "h", "ann", "k"), WRONG_SCHEMA), (revoke("ann", "m", "bob"), OK),
        (exclude("bob", "g", "ann", "m"), OK), (exclude("bob", "g", "ann", "m"), MEMBERSHIP)]),
    "a group that another reads": ([T], [
        (create("bob", "n"), OK), (create_group("bob", "g"), OK), (include("bob", "g", "bob", "n"), OK), (grant_group("bob", "g", "ann"), OK),
        (list_of("ann"), listed((b"read", b"n", b"bob"), groups=[(b"read", b"g", b"bob")])), (exclude("bob", "g", "bob", "n"), OK),
        (list_of("ann"), listed(groups=[(b"read", b"g", b"bob")])), (revoke_group("bob", "g", "ann"), OK), (grant_group("bob", "g", "ann"), OK),
        (delete_group("bob", "g"), OK), (create_group("bob", "g"), OK), (list_of("ann"), listed())]),
    "users in several models": ([T], [
        *FIRST, *GROUPED, (grant("ann", "m", "bob", "read"), OK), *LINKED, (grant("bob", "b", "ann", "group"), OK), (include("ann", "g", "bob", "b"), OK),
        (USERS, users_are(("ann", "m", 2), ("bob", "b", 1))), (delete("ann", "m"), OK), *FIRST, (USERS, users_are(("ann", "m", 2), ("bob", "b", 1)))]),
    "rules of each verdict": ([O], [
        *filled("O", "#1=E($);", 1),
        (validate("ann", "ann", "g"), report_is(36, *ATTRIBUTES_HOLD, check_is("where", "E", "A", unknown=[["ann", "m", 1]]),
                                                check_is("where", "E", "B", false=[["ann", "m", 1]]), *(check_is("where", "E", it) for it in "CDF")))]),
    "a value that is not set": ([T], [
        *filled("T", "#1=P($,$);", 1),
        (validate("ann", "ann", "g"), report_is(5, check_is("unset", false=[["ann", "m", 1, "P.X"]]), *HOLDS[1:])),
        (put("ann", "ann", "m", file_of("#1=P(*,$);")), instance_fault("NotDerived", 1))]),
}


# ---- the plain repository

def reader(texts, read_text):
    """A function that returns the content of a text, or its fault."""
    def of_text(text):
        found = texts.fault(text)
        return FileFault(found.kind, found.at) if found else read_text(text)
    return of_text


def plain_repository(texts, partners=PARTNERS):
    """The empty plain repository of these schemas and partners."""
    trees = [tree_of(it) for it in texts]
    return Repository(partners, [binding_schema(it) for it in trees], reader(FILES, read), reader(INSTANCES, read_mapping), None,
                      {it.name.upper(): text for it, text in zip(trees, texts)})


def replies_to(repository, lines):
    """The replies to these lines, which change the repository."""
    replies = []
    for line in lines:
        asked = request_of(line)
        if asked and asked[1] == "check_schema":
            replies.append(CHECKED[asked[2]["text"]])
            continue
        reply, change = repository.step(line)
        if change:
            change()
        replies.append(reply)
    return replies


def questions(*repositories):
    """Lines that ask for the whole content of any of these."""
    asked = [list_of(it) for it in repositories[0].partners]
    models = {(it.owner, it.name) for repository in repositories for it in repository.models}
    groups = {(it.owner, it.name) for repository in repositories for it in repository.groups}
    asked += [export(owner, owner, name, links=True) for owner, name in sorted(models)]
    return asked + [members(owner, owner, name) for owner, name in sorted(groups)]


# by schema: an instance that can be added
INSTANCES_OF = {"T": "P(1.,$)", "D": "R(1)", "O": "E($)"}


def additions(repository):
    """Lines that add an instance to each model, whose name then shows the greatest name that the model had."""
    return [add(it.owner, it.owner, it.name, INSTANCES_OF[it.schema]) for it in repository.models if it.schema in INSTANCES_OF]


# ---- each line

def look_at_line(run, before, after, line, reply):
    """Refuses each allocation of a line. Returns how many of these refusals led to NoMemory, and how many didn't."""
    asked = questions(before, after)
    lines = [line, *asked, *additions(after), line, *asked]
    done = replies_of([reply, *replies_to(copy.deepcopy(after), lines[1:])])
    undone = replies_of([NO_MEMORY, *replies_to(copy.deepcopy(before), lines[1:])])
    seen = collections.Counter()
    for words, ended in run.each(lines):
        is_undone = ended.output == undone and ended.refusals > 0
        if (ended.status, ended.errors) != (0, b"") or not is_undone and ended.output != done:
            raise Wrong(f"{shortened(line)!r}, {words}: {ended[:3]} in place of {shortened(done)!r} or {shortened(undone)!r}")
        if ended.refusals:
            seen[is_undone] += 1
    if not seen[True]:
        raise Wrong(f"{shortened(line)!r}: none of {seen.total()} refusals led to NoMemory")
    return seen


# the lines whose allocations were refused, each with the schemas and the content
LOOKED_AT = set()


def look_at_session(texts, turns, partners=PARTNERS, first=0):
    """Runs a session, and refuses the allocations of its lines from number `first` on, once for each line from one content."""
    seen = collections.Counter()
    with configured(texts, partners) as folder, Run(refusing(folder)) as run:
        run.go()
        before = plain_repository(texts, partners)
        for place, (line, reply) in enumerate(turns):
            after = copy.deepcopy(before)
            if replies_to(after, [line]) != [reply]:
                raise AssertionError(f"the plain repository doesn't answer {line!r} by {reply!r}")
            mark = (*texts, snapshot_of(before), line)
            if place >= first and mark not in LOOKED_AT:
                LOOKED_AT.add(mark)
                seen += look_at_line(run, before, after, line, reply)
            if run.go([line]) != reply + b"\n":
                raise Wrong(f"{shortened(line)!r} isn't answered by {shortened(reply)!r}")
            before = after
    return seen


def configured(texts, partners=PARTNERS):
    """A folder with a configuration of these schemas and partners."""
    files = {f"s{at}": text for at, text in enumerate(texts)}
    return Saving({"partners": [{"name": it, "token": it} for it in partners], "schemas": [f"{it}.exp" for it in files]}, **files)


def counted(looks, rows):
    """Looks at each row, and prints how many refusals led to NoMemory."""
    seen = []
    each(lambda row: seen.append(looks(*row)), rows)
    count = sum(seen, collections.Counter())
    print(f"request refusals: {count[True]} of {count.total()} refusals led to NoMemory")


def test_each_line():
    """Each kind of request, which succeeds in some line."""
    kinds = {request_of(line)[1] for _, turns in SESSIONS.values() for line, reply in turns if reply.startswith(b'{"ok":')}
    if kinds != set(REQUESTS):
        raise AssertionError(f"no line succeeds that asks for {set(REQUESTS) - kinds}")
    counted(lambda _, session: look_at_session(*session), SESSIONS.items())


# reports of more steps take long, and longer files have many instances
FEW_STEPS, SHORT = 1000, 400


def small_reports():
    """Each small report: its name, schemas, turns and partners, and the number of the turn that asks for it."""
    for one in read_reports():
        lines = one.requests()
        if int(one.steps.partition("=")[0]) <= FEW_STEPS and sum(len(it.file) for it in one.models) <= SHORT:
            repository = plain_repository([one.schema], one.partners())
            turns = [*zip(lines[:-1], replies_to(repository, lines[:-1])), (lines[-1], one.answer())]
            yield one.name, [one.schema], turns, one.partners(), len(lines) - 1


def test_each_report():
    """Reports over each sort of rule and of value."""
    rows = [*small_reports()]
    if "each_sort_of_rule" not in [name for name, *_ in rows]:
        raise AssertionError("the report of each sort of rule isn't small")
    counted(lambda _, *session: look_at_session(*session), rows)


# ---- loads and saves

LINE = re.compile(rb"rp_server: [^\n]+\n")


def look_at_load(folder, held):
    """Refuses each allocation of a load: either the whole content is loaded, or the program exits before the first line."""
    with open(folder.path("snap"), "wb") as it:
        it.write(snapshot_of(held))
    asked = questions(held)
    done = replies_of(replies_to(copy.deepcopy(held), asked))
    # (a run without a snapshot makes the allocations that come before the snapshot is opened)
    with Run(folder.folder.name) as run:
        before = run.case([], START).allocations
    seen = collections.Counter()
    with Run(folder.folder.name, ("batch", "--config", "config.json", "--load", "snap")) as run:
        for words, ended in run.each(asked, START, max(1, before - 20)):
            is_done = ended[:3] == (0, done, b"")
            may_end = ended.refusals > 0 and ended[:2] == (2, b"") and LINE.fullmatch(ended.errors)
            if not is_done and not may_end:
                raise Wrong(f"{words}: {ended[:3]} in place of {shortened(done)!r}")
            seen[is_done] += 1
    return seen


def look_at_save(folder, texts, lines, held):
    """Refuses each allocation of a save: all lines are answered, and the saved file is the new snapshot or the unchanged old file."""
    os.mkdir(folder.path("place"))
    done, kept = replies_of(replies_to(plain_repository(texts), lines)), snapshot_of(held)
    seen = collections.Counter()

    def prepare():
        with open(folder.path("place/kept"), "wb") as it:
            it.write(OLD)

    with Run(folder.folder.name, ("batch", "--config", "config.json", "--save", "place/kept")) as run:
        for words, ended in run.each(lines, len(lines) + 1, prepare=prepare):
            files = files_in(folder.path("place"))
            is_done = ended[:3] == (0, done, b"") and files == {"kept": kept}
            may_end = ended.refusals > 0 and ended[:2] == (2, done) and LINE.fullmatch(ended.errors) and files == {"kept": OLD}
            if not is_done and not may_end:
                raise Wrong(f"{words}: {ended[:3]}, and the files are {files}")
            seen[is_done] += 1
    return seen


def test_loads_and_saves():
    """The content that each session leaves."""
    seen = {"loaded": [], "saved": []}

    def look(row):
        _, (texts, turns) = row
        lines = [line for line, _ in turns]
        held = plain_repository(texts)
        replies_to(held, lines)
        with configured(texts) as folder:
            refusing(folder)
            seen["loaded"].append(look_at_load(folder, held))
            seen["saved"].append(look_at_save(folder, texts, lines, held))

    each(look, SESSIONS.items())
    for what, counts in seen.items():
        count = sum(counts, collections.Counter())
        print(f"request refusals: in {count[False]} of {count.total()} cases nothing was {what}")
        if not count[False]:
            raise Wrong(f"the refusals of {count.total()} cases had no effect")


if __name__ == "__main__":
    run_tests("request refusals", globals(), sys.argv[1:])
