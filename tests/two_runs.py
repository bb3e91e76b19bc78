#!/usr/bin/env python3
"""Gives pairs of random inputs to the built program that have to look the same to one partner, and compares the reply lines
to his lines, byte for byte.

    tests/two_runs.py [PROGRAM] [--pairs N] [--seed S] [--only P]
    tests/two_runs.py --self-test

The pairs, 2,000 where nothing is said, come from the seed alone; `--only` runs one of them and prints its inputs. Four
partners have models with links, and groups that they share. The two inputs of a pair begin with one list of requests of
all partners. Then others ask in each what they like, as long as the partner's part of the repository stays what it was: so
two runs begin that are equal for him. From there on he asks the same in both, and between his requests the others ask in
each of them what is outside for him at its moment. His replies from there on have to be equal.

What is outside is said here by the words of the definitions (`Definitions`), of the plain repository in plain_model.py. All
other replies are compared with that repository's, since only where they are its own is it known what is outside.

It is a failure too where fewer than 100 turns of a kind that changes something were outside, in all or while one of the
states in STATES stood for the partner. The last line is 'two runs: N passed, M failed', and the status is 0 only if none
failed.

`--self-test` runs no program. The plain repository stands in for it, with a leak of LEAKS, or with what is outside said by
words of WEAKER that leave a case out; each has to be found, and nothing where neither is.
"""
import argparse
import collections
import functools
import itertools
import os
import random
import subprocess
import sys
from concurrent.futures import ProcessPoolExecutor
from typing import NamedTuple

from lib.harness import Wrong, end, shortened, take_program
from lib.messages import Repository as RepositoryFolder
from lib.messages import (
    create, create_group, exclude, exported, extent, file_of, get, grant, grant_group, include, line, link, list_of, members, put, revoke, users, validate,
)
from lib.plain_binding import Entity, Schema, express
from lib.plain_files import read, read_mapping
from lib.plain_model import GROUPING, READING, WRITING, Group, Refused, Repository, compact, request_of

LABEL = "two runs"
PARTNERS = ["ann", "bob", "cyd", "dan"]
SCHEMAS = [Schema("t", {}, {"p": Entity({"x": "REAL", "n": "STRING"}, optional=["n"]), "q": Entity({"a": "p"})}), Schema("l", {}, {"e": Entity()})]
CONFIG = {"partners": [{"name": it, "token": it} for it in PARTNERS], "schemas": ["t.exp", "l.exp"]}
MODELS = ["m", "n", "k", "x", "A"]
GROUPS = ["g", "h", "f", "B"]

# how many turns of each kind have to be outside, in all and in each state, and from how many pairs on
ENOUGH = 100
ENOUGH_PAIRS = 2000


# ---- turns and runs

class Name(NamedTuple):
    """What a change is named by: the kind of the item, its owner and its name."""

    kind: str
    owner: str
    name: str


CHANGED = {
    "create_model": lambda who, its: Name("model", who, its["name"]), "delete_model": lambda who, its: Name("model", who, its["name"]),
    **dict.fromkeys(["put", "add", "set", "drop"], lambda who, its: Name("model", its["owner"], its["model"])),
    **dict.fromkeys(["grant", "revoke"], lambda who, its: Name(its["kind"], who, its["name"])),
    "create_group": lambda who, its: Name("group", who, its["name"]), "delete_group": lambda who, its: Name("group", who, its["name"]),
    **dict.fromkeys(["include", "exclude"], lambda who, its: Name("group", who, its["group"])),
}


class Turn:
    """A line, who asks, and for what. The name that it may change is that of its item; include and exclude may change the group's
    name alone, and what only reads none."""

    def __init__(self, text):
        self.line = text
        self.who, self.do, self.keys = request_of(text)
        self.name = CHANGED[self.do](self.who, self.keys) if self.do in CHANGED else None
        self.kind = f"{self.do} {self.keys['kind']}" if self.do in ("grant", "revoke") else self.do

    def is_grant_to(self, partner):
        return self.do == "grant" and self.keys["to"] == partner


@functools.lru_cache(maxsize=None)
def file_said(text):
    return read(text)


@functools.lru_cache(maxsize=None)
def mapping_said(text):
    return read_mapping(text)


def repository_of(form=Repository):
    return form(PARTNERS, SCHEMAS, file_said, mapping_said, None)


def held(item):
    """All that an item holds, or None where there is none. Lists of instances and of links are never changed in their place."""
    if item is None:
        return None
    return {**vars(item), "grants": dict(item.grants), **({"members": list(item.members)} if isinstance(item, Group) else {})}


class Run:
    """A plain repository, and the turns that led to it, each with its reply. `included` has the model that stood under the name of
    a member when it was included, by the group's owner and name and the member."""

    def __init__(self):
        self.repository = repository_of()
        self.turns = []
        self.included = {}

    def items(self, kind):
        return self.repository.models if kind == "model" else self.repository.groups

    def item(self, kind, owner, name):
        return next((it for it in self.items(kind) if (it.owner, it.name) == (owner, name)), None)

    def make(self, turn):
        reply, change = self.repository.step(turn.line)
        if change:
            change()
        if change and turn.do == "include":
            member = turn.keys["owner"], turn.keys["model"]
            self.included[turn.who, turn.keys["group"], member] = self.item("model", *member)
        self.turns.append((turn, reply))

    def make_if(self, turn, may_stay):
        """Makes a turn, and unmakes it where it may not stay, which is told whether it changes anything. Answers whether the turn has
        changed something, or None where it hasn't stayed."""
        if not turn.name:
            self.make(turn)
            return False
        items, item = self.items(turn.name.kind), self.item(*turn.name)
        rows, before = list(items), held(item)
        self.make(turn)
        changes = held(self.item(*turn.name)) != before
        if may_stay(changes):
            return changes
        self.turns.pop()
        items[:] = rows
        if item:
            vars(item).update(before)
        return None

    def seen_groups(self, partner):
        return [it for it in self.repository.groups if self.repository.granted(partner, it)]


def key_of(item):
    return item.owner, item.name


# ---- what a partner sees and reaches

class Definitions:
    """What a partner sees of a repository, what he reaches, and which turns are outside for him."""

    def shares(self, run, partner, model, other):
        """Whether another partner owns a group that lists the model, and that this one sees."""
        return other != partner and any(it.owner == other and key_of(model) in it.members for it in run.seen_groups(partner))

    def shown_grants(self, run, partner, item):
        """Of what is his own all grants. Of another's his own level, and at the level group each other partner who shares the model
        with him and has at least that level on it."""
        if item.owner == partner:
            return dict(item.grants)
        his = {to: level for to, level in item.grants.items() if to == partner}
        others = [] if isinstance(item, Group) else [
            to for to, level in item.grants.items() if level in GROUPING and self.shares(run, partner, item, to)]
        return {**dict.fromkeys(others, "group"), **his}

    def sees(self, run, partner, item):
        return bool(run.repository.level(partner, item))

    def part(self, run, partner):
        """The repository with the items that he sees, and no others."""
        return [[{**held(it), "grants": self.shown_grants(run, partner, it)} for it in sorted(items, key=key_of) if self.sees(run, partner, it)]
                for items in (run.repository.models, run.repository.groups)]

    def lists(self, run, partner, group, member):
        return member in group.members

    def reaches(self, run, partner, name):
        """He reaches each name that he owns or sees, and each model that a group lists which he sees, whether it counts or not."""
        item = run.item(*name)
        return (name.owner == partner or (item is not None and self.sees(run, partner, item))
                or (name.kind == "model" and any(self.lists(run, partner, it, name[1:]) for it in run.seen_groups(partner))))

    def may_change(self, run, partner, turn):
        """Whether another's turn may change something: the partner doesn't reach the name that it changes, and it is no grant to him."""
        return turn.name is None or not (self.reaches(run, partner, turn.name) or turn.is_grant_to(partner))

    def make_if_outside(self, run, partner, turn):
        """Makes a turn of another if it is outside: it leaves the repository as it is, or may change something."""
        may_change = self.may_change(run, partner, turn)
        return run.make_if(turn, lambda changes: not changes or may_change)


# ---- the states that are watched

def counting(run, partner, model):
    """The groups of others that the partner sees, and in which the model counts."""
    return [it for it in run.seen_groups(partner) if it.owner != partner and run.repository.counts(model, it)]


def is_seen_by_groups_alone(run, partner, model):
    return not run.repository.granted(partner, model) and bool(counting(run, partner, model))


def is_no_longer_grouped(run, group, member):
    """A model is there under a name that the group lists, and the group's owner may no longer group it."""
    model = run.item("model", *member)
    return model is not None and run.repository.granted(group.owner, model) not in GROUPING


def is_created_anew(run, group, member):
    """Another model stands there under a name that the group lists than the one that was included."""
    model = run.item("model", *member)
    return model is not None and model is not run.included[group.owner, group.name, member]


def listed(run, partner):
    """What groups of others list that the partner sees: each group with each member that isn't his."""
    return [(it, member) for it in run.seen_groups(partner) if it.owner != partner for member in it.members if member[0] != partner]


def hides(run, partner, group):
    """Whether the group's owner hides from this third partner a model of another by an exclude."""
    models = [it for it in run.repository.models if key_of(it) in group.members and it.owner not in (partner, group.owner)]
    return any(is_seen_by_groups_alone(run, partner, it) and counting(run, partner, it) == [group] for it in models)


STATES = {
    "a group lists a model that its owner may no longer group": lambda run, partner: any(
        is_no_longer_grouped(run, *it) for it in listed(run, partner)),
    "a model is created anew under a name that a group lists": lambda run, partner: any(
        is_created_anew(run, *it) for it in listed(run, partner)),
    "a model is seen through a group alone": lambda run, partner: any(
        is_seen_by_groups_alone(run, partner, it) for it in run.repository.models if it.owner != partner),
    "an exclude would hide a model from a third partner": lambda run, partner: any(
        hides(run, partner, it) for it in run.seen_groups(partner) if it.owner != partner),
}


# ---- requests

FILES = ["", "#1=P(1.,$);", "#1=P(2.,'a');#2=Q(#1);", "#3=Q(#7);#7=P(0.,'b');#9=Q(#7);"]


class Maker:
    """Random requests, most of which can be done by who asks in the repository of a run."""

    def __init__(self, seed):
        self.random = random.Random(seed)

    def happens(self, probability):
        return self.random.random() < probability

    def choice(self, *lists):
        return self.random.choice([it for items in lists for it in items])

    def key(self, items, names):
        """The owner and the name of one of these items, if there are any, and at times of what may be none."""
        if items and self.happens(0.93):
            return key_of(self.choice(items))
        return self.choice(PARTNERS), self.choice(names)

    def models(self, run, who, levels):
        return [it for it in run.repository.models if run.repository.level(who, it) in levels]

    def own(self, run, who, kind, is_due=lambda it: True):
        """The name of an item of his own, mostly of one that is there."""
        return self.key([it for it in run.items(kind) if it.owner == who and is_due(it)], MODELS if kind == "model" else GROUPS)[1]

    def text(self, model):
        """The text of an instance that a model may mostly have."""
        if model and model.schema == "L":
            return "E()"
        names = [it.name for it in model.instances if "p" in it.types] + [it.name for it in model.links] if model else []
        return f"Q(#{self.choice(names)})" if names and self.happens(0.5) else self.choice(["P(1.,$)", "P(2.5,'b')"])


def create_model(it, run, who):
    return create(who, it.choice(MODELS), it.choice("TTTTTTTL"))


def delete_model(it, run, who):
    return line(who, "delete_model", name=it.own(run, who, "model"))


def put_file(it, run, who):
    """At times with a link, mostly to an instance of another model that is seen."""
    owner, name = it.key(it.models(run, who, WRITING), MODELS)
    model = run.item("model", owner, name)
    if model and model.schema == "L":
        return put(who, owner, name, file_of(it.choice(["", "#1=E();"]), "L"))
    others = [it for it in run.repository.models if run.repository.level(who, it) and it.instances and it is not model and it.schema == "T"]
    if it.happens(0.4):
        target = it.choice(others) if others and it.happens(0.8) else None
        place = (*key_of(target), it.choice(target.instances).name) if target else (it.choice(PARTNERS), it.choice(MODELS), it.choice([1, 2, 3]))
        return put(who, owner, name, file_of("#1=Q(#9);#2=P(1.,$);"), link(9, *place))
    return put(who, owner, name, file_of(it.choice(FILES)))


def written(it, run, who):
    """A model that is mostly there with instances, and may be written: its owner, its name, the model, the name of an instance."""
    owner, name = it.key([model for model in it.models(run, who, WRITING) if model.instances], MODELS)
    model = run.item("model", owner, name)
    names = [instance.name for instance in model.instances] if model else []
    return owner, name, model, it.choice(names) if names and it.happens(0.95) else it.choice(range(1, 10))


def add(it, run, who):
    owner, name = it.key(it.models(run, who, WRITING), MODELS)
    return line(who, "add", owner=owner, model=name, text=it.text(run.item("model", owner, name)))


def set_instance(it, run, who):
    owner, name, model, instance = written(it, run, who)
    return line(who, "set", owner=owner, model=name, instance=instance, text=it.text(model))


def drop(it, run, who):
    owner, name, _, instance = written(it, run, who)
    return line(who, "drop", owner=owner, model=name, instance=instance)


def grant_model(it, run, who):
    return grant(who, it.own(run, who, "model"), it.choice(PARTNERS), it.choice(["read", "group", "group", "write"]))


def revoked(it, run, who, kind):
    """The name of an item of his own, and a partner who mostly has a grant on it."""
    name = it.own(run, who, kind, lambda item: item.grants)
    item = run.item(kind, who, name)
    return name, it.choice(item.grants if item and item.grants and it.happens(0.9) else PARTNERS)


def revoke_model(it, run, who):
    return revoke(who, *revoked(it, run, who, "model"))


def create_a_group(it, run, who):
    return create_group(who, it.choice(GROUPS), it.choice("TTTTTTTL"))


def delete_group(it, run, who):
    return line(who, "delete_group", name=it.own(run, who, "group"))


def grant_a_group(it, run, who):
    return grant_group(who, it.own(run, who, "group"), it.choice(PARTNERS))


def revoke_group(it, run, who):
    name, to = revoked(it, run, who, "group")
    return line(who, "revoke", kind="group", name=name, to=to)


def include_model(it, run, who):
    return include(who, it.own(run, who, "group"), *it.key(it.models(run, who, GROUPING), MODELS))


def exclude_model(it, run, who):
    name = it.own(run, who, "group", lambda group: group.members)
    group = run.item("group", who, name)
    there = group.members if group else []
    return exclude(who, name, *(it.choice(there) if there and it.happens(0.9) else (it.choice(PARTNERS), it.choice(MODELS))))


def list_items(it, run, who):
    return list_of(who)


def read_names(it, run, who):
    return line(who, "names", **dict(zip(("owner", "model"), it.key(it.models(run, who, READING), MODELS))))


def export(it, run, who):
    owner, name = it.key(it.models(run, who, READING), MODELS)
    return line(who, "export", owner=owner, model=name, links=it.happens(0.8))


def get_instance(it, run, who):
    model = it.choice(it.models(run, who, READING) or [None])
    owner, name = it.key([model] if model else [], MODELS)
    return get(who, owner, name, it.choice([instance.name for instance in model.instances] if model else [], [1, 2]))


def seen_group(it, run, who):
    return it.key(run.seen_groups(who), GROUPS)


def list_members(it, run, who):
    return members(who, *seen_group(it, run, who))


def read_extent(it, run, who):
    return extent(who, *seen_group(it, run, who), it.choice("PPQqE"))


def read_users(it, run, who):
    owner, name = seen_group(it, run, who)
    group = run.item("group", owner, name)
    places = [place for place, _, _ in run.repository.population(group)] if group else []
    of = it.choice(places) if places else (it.choice(PARTNERS), it.choice(MODELS), 1)
    return users(who, owner, name, list(of), it.choice(["", "T.Q.A"]))


def read_report(it, run, who):
    return validate(who, *seen_group(it, run, who))


CHANGES = {
    "create_model": (create_model, 2), "delete_model": (delete_model, 2), "put": (put_file, 4), "add": (add, 4), "set": (set_instance, 3),
    "drop": (drop, 3), "grant model": (grant_model, 4), "revoke model": (revoke_model, 4), "create_group": (create_a_group, 3),
    "delete_group": (delete_group, 1), "grant group": (grant_a_group, 5), "revoke group": (revoke_group, 4), "include": (include_model, 4),
    "exclude": (exclude_model, 5),
}
READS = {
    "list": (list_items, 8), "names": (read_names, 4), "export": (export, 8), "get": (get_instance, 2), "members": (list_members, 7),
    "extent": (read_extent, 5), "users": (read_users, 6), "validate": (read_report, 6),
}


def random_turn(it, run, who, makers):
    """A turn that is mostly done, and at times refused."""
    while True:
        (maker,) = it.random.choices([maker for maker, _ in makers.values()], [weight for _, weight in makers.values()])
        turn = Turn(maker(it, run, who))
        if it.happens(0.3) or run.repository.step(turn.line)[0].startswith(b'{"ok"'):
            return turn


# ---- beginnings

def shared(it, partner, grouping, owner):
    """The first lines of a beginning: one partner's model is in another's group, which a third one sees. Answers the names too."""
    model, group = it.choice(MODELS), it.choice(GROUPS)
    lines = [create(owner, model), put(owner, owner, model, file_of(it.choice(FILES)))]
    if owner != grouping:
        lines.append(grant(owner, model, grouping, it.choice(["group", "write"])))
    lines += [create_group(grouping, group), include(grouping, group, owner, model), grant_group(grouping, group, partner)]
    return lines, model, group


def no_longer_grouped(it, partner, grouping, owner):
    lines, model, _ = shared(it, partner, grouping, owner)
    return [*lines, revoke(owner, model, grouping) if it.happens(0.7) else grant(owner, model, grouping, "read")]


def created_anew(it, partner, grouping, owner):
    """By the group's owner or by another; at times it is only gone."""
    by = it.choice([grouping, owner])
    lines, model, _ = shared(it, partner, grouping, by)
    lines.append(line(by, "delete_model", name=model))
    return lines + ([create(by, model), put(by, by, model, file_of(it.choice(FILES)))] if it.happens(0.8) else [])


def seen_through_a_group(it, partner, grouping, owner):
    return shared(it, partner, grouping, it.choice([grouping, owner, owner]))[0]


def seen_twice(it, partner, grouping, owner):
    lines, model, _ = shared(it, partner, grouping, owner)
    return [*lines, grant(owner, model, partner, it.choice(["read", "group", "write"]))]


def lent(it, partner, grouping, owner):
    """The partner has a model and a group of his own, and lends both."""
    lines, model, group = shared(it, owner, partner, partner)
    return [*lines, grant(partner, model, grouping, it.choice(["read", "group", "write"])), grant_group(partner, group, grouping)]


BEGINNINGS = [(lent, 0.6), (no_longer_grouped, 0.6), (created_anew, 0.6), (seen_through_a_group, 0.8), (seen_twice, 0.25)]


def beginning(it, run, partner):
    """What both runs begin with: requests of all, with some of the beginnings among them."""
    for _ in range(it.choice([2, 6])):
        run.make(random_turn(it, run, it.choice(PARTNERS), CHANGES))
    for lines_of, probability in it.random.sample(BEGINNINGS, len(BEGINNINGS)):
        grouping, owner = it.random.sample([who for who in PARTNERS if who != partner], 2)
        for text in lines_of(it, partner, grouping, owner) if it.happens(probability) else []:
            run.make(Turn(text))
    for _ in range(it.choice([2, 8])):
        run.make(random_turn(it, run, it.choice(PARTNERS), CHANGES))


# ---- pairs

class Pair(NamedTuple):
    """Whom it has to look the same to, two runs, and from which turn of each on."""

    partner: str
    runs: list
    begins: list


class PairMaker:
    """Makes one pair, and counts the turns that are outside and change something."""

    def __init__(self, seed, number, definitions):
        self.it = Maker(f"{seed} {number}")
        self.definitions = definitions
        self.partner = self.it.choice(PARTNERS)
        self.counts = collections.Counter()

    def another_turn(self, run):
        who = self.it.choice([it for it in PARTNERS if it != self.partner])
        return random_turn(self.it, run, who, CHANGES if self.it.happens(0.93) else READS)

    def begin(self, first):
        """A run that begins as the first one does, and then changes nothing that the partner sees."""
        run = Run()
        for turn, _ in first.turns:
            run.make(turn)
        part = self.definitions.part(run, self.partner)
        for _ in range(self.it.choice([0, 4, 10])):
            run.make_if(self.another_turn(run), lambda changes: not changes or self.definitions.part(run, self.partner) == part)
        return run

    def others(self, run):
        """Some turns of others, as far as they are outside."""
        for _ in range(self.it.choice([0, 1, 2, 3, 5])):
            turn = self.another_turn(run)
            if self.definitions.make_if_outside(run, self.partner, turn):
                # such a turn leaves each state as it is
                states = [name for name, stands in STATES.items() if stands(run, self.partner)]
                self.counts.update((state, turn.kind) for state in ["in all", *states])

    def last(self, run):
        """What the partner asks at the end: for all that he sees, and for what he may not."""
        its = self.partner
        yield list_of(its)
        for group in run.seen_groups(its):
            yield members(its, *key_of(group))
            yield extent(its, *key_of(group), "P")
            yield validate(its, *key_of(group))
        for model in self.it.models(run, its, READING):
            yield line(its, "export", owner=model.owner, model=model.name, links=True)
        yield line(its, "names", owner=self.it.choice(PARTNERS), model=self.it.choice(MODELS))

    def asked(self, run):
        """His requests, which look at the first run."""
        for _ in range(self.it.choice(range(6, 12))):
            yield random_turn(self.it, run, self.partner, READS if self.it.happens(0.6) else CHANGES)
        yield from map(Turn, self.last(run))

    def pair(self):
        start = Run()
        beginning(self.it, start, self.partner)
        one, two = runs = [self.begin(start), self.begin(start)]
        begins = [len(run.turns) for run in runs]
        is_beside_none = self.it.happens(0.05)
        for turn in self.asked(one):
            self.others(one)
            if not is_beside_none:
                self.others(two)
            for run in runs:
                run.make(turn)
        return Pair(self.partner, runs, begins)


def difference(pair, replies):
    """The first reply line to the partner that differs in the two runs: the turn, and both lines. None where there is none."""
    his = [[(turn, reply) for (turn, _), reply in zip(run.turns[begins:], its[begins:]) if turn.who == pair.partner]
           for run, begins, its in zip(pair.runs, pair.begins, replies)]
    return next(((turn, one, two) for (turn, one), (_, two) in zip(*his) if one != two), None)


# ---- the program

def replies_of(folder, run):
    status, output, errors = folder.batch(b"".join(turn.line + b"\n" for turn, _ in run.turns))
    replies = output.split(b"\n")[:-1]
    if (status, errors, len(replies)) != (0, b"", len(run.turns)):
        raise Wrong(f"status {status}, {len(replies)} replies to {len(run.turns)} lines, standard error {errors!r}")
    return replies


def expect_equal(pair, replies):
    found = difference(pair, replies)
    if found:
        turn, one, two = found
        raise Wrong(f"{pair.partner} asks {turn.line!r}\n  in the first run: {shortened(one)!r}\n  in the second:    {shortened(two)!r}")
    for run, its in zip(pair.runs, replies):
        for (turn, due), reply in zip(run.turns, its):
            if reply != due:
                raise Wrong(f"{turn.line!r}\n  due: {shortened(due)!r}\n  got: {shortened(reply)!r}")


def run_pairs(seed, numbers):
    """The counts of these pairs, and what is wrong with some."""
    counts, wrong = collections.Counter(), []
    with RepositoryFolder(CONFIG, **{it.name: express(it) for it in SCHEMAS}) as folder:
        for number in numbers:
            maker = PairMaker(seed, number, Definitions())
            pair = maker.pair()
            counts += maker.counts
            try:
                expect_equal(pair, [replies_of(folder, run) for run in pair.runs])
            except (Wrong, subprocess.TimeoutExpired) as fault:
                wrong.append(f"seed {seed}, pair {number}: {fault}")
    return counts, wrong


def run_all(program, seed, numbers):
    """Runs the pairs in as many processes as there are processors. Answers how many passed and failed, and the counts."""
    parts = [numbers[at:at + 50] for at in range(0, len(numbers), 50)]
    with ProcessPoolExecutor(os.cpu_count(), initializer=take_program, initargs=(LABEL, program)) as pool:
        found = list(pool.map(run_pairs, itertools.repeat(seed), parts))
    wrong = [it for _, its in found for it in its]
    for fault in wrong[:5]:
        print(fault)
    return len(numbers) - len(wrong), len(wrong), sum((counts for counts, _ in found), collections.Counter())


def lacking(counts):
    """Prints the counts. Answers how many of them are too few."""
    few = 0
    for state in ["in all", *STATES]:
        its = {kind: counts[state, kind] for kind in CHANGES}
        print(f"{state}: " + ", ".join(f"{count} {kind}" for kind, count in its.items()))
        few += sum(1 for count in its.values() if count < ENOUGH)
    return few


# ---- leaks, and definitions that leave a case out

class AnothersGroupListed(Repository):
    """Lists all groups."""

    def rows(self, who, items):
        unseen = [it for it in items if isinstance(it, Group) and not self.level(who, it)]
        others = [{"level": "read", "name": it.name, "owner": it.owner, "schema": it.schema} for it in unseen]
        return sorted([*super().rows(who, items), *others], key=lambda row: (row["owner"], row["name"]))


class LevelTold(Repository):
    """Lists of a model that a partner reads the greatest level that anyone has been granted."""

    def rows(self, who, items):
        greatest = {key_of(it): next((level for level in GROUPING if level in it.grants.values()), "read") for it in items}
        return [{**row, "level": greatest[row["owner"], row["name"]]} if row["level"] == "read" else row for row in super().rows(who, items)]


class CountChanged(Repository):
    """Counts the names of instances in all models together."""

    def said(self, model, name, text):
        return super().said(model, max(it.greatest for it in self.models) + 1 if name == model.greatest + 1 else name, text)


class OrderChanged(Repository):
    """Lists models and groups of one owner in the order in which their names came first, whoever's they were."""

    def rows(self, who, items):
        came = [it.name for it in self.models + self.groups]
        return sorted(super().rows(who, items), key=lambda row: (row["owner"], came.index(row["name"])))


class UnseenTold(Repository):
    """Refuses what isn't seen as what is seen with too low a level."""

    def seen(self, who, owner, name, levels, items=None):
        if any(key_of(it) == (owner, name) and not self.level(who, it) for it in (self.models if items is None else items)):
            raise Refused("NoRight")
        return super().seen(who, owner, name, levels, items)


LEAKS = [AnothersGroupListed, LevelTold, CountChanged, OrderChanged, UnseenTold]


class WithoutWhatIsNoLongerGrouped(Definitions):
    """Of what a group lists, not what its owner may no longer group."""

    def lists(self, run, partner, group, member):
        return member in group.members and not is_no_longer_grouped(run, group, member)


class WithoutWhatIsCreatedAnew(Definitions):
    """Of what a group lists, only names under which the model stands that was included."""

    def lists(self, run, partner, group, member):
        return member in group.members and run.item("model", *member) is run.included[group.owner, group.name, member]


class WithoutWhatIsSeenByGroups(Definitions):
    """Not the models that are seen by groups alone."""

    def reaches(self, run, partner, name):
        item = run.item(*name)
        is_left_out = name.kind == "model" and item is not None and is_seen_by_groups_alone(run, partner, item)
        return super().reaches(run, partner, name) and not is_left_out


class WithoutWhatHides(Definitions):
    """Not the groups by which their owner may hide a model from a third partner."""

    def reaches(self, run, partner, name):
        item = run.item(*name)
        is_left_out = name.kind == "group" and item is not None and name.owner != partner and hides(run, partner, item)
        return super().reaches(run, partner, name) and not is_left_out


class WithoutExcludes(Definitions):
    """The names of such groups are reached, but an exclude may change them."""

    def may_change(self, run, partner, turn):
        group = run.item(*turn.name) if turn.do == "exclude" else None
        is_left_out = group is not None and turn.who != partner and hides(run, partner, group)
        return is_left_out or super().may_change(run, partner, turn)


class PartWithoutWhatIsSeenByGroups(Definitions):
    """A part without the models that are seen by groups alone."""

    def part(self, run, partner):
        models, groups = super().part(run, partner)
        return [[it for it in models if it["owner"] == partner or partner in it["grants"]], groups]


class PartWithoutSharedLevels(Definitions):
    """A part without the levels of those who share a model."""

    def shares(self, run, partner, model, other):
        return False


WEAKER = [WithoutWhatIsNoLongerGrouped, WithoutWhatIsCreatedAnew, WithoutWhatIsSeenByGroups, WithoutWhatHides, WithoutExcludes,
          PartWithoutWhatIsSeenByGroups, PartWithoutSharedLevels]

# so many pairs show nothing where there is nothing, and in so many the rest has to be found
QUIET_PAIRS = 100
FINDING_PAIRS = 1000


def stand_in(form, run):
    """What a form of the plain repository replies to the lines of a run."""
    repository, replies = repository_of(form), []
    for turn, _ in run.turns:
        reply, change = repository.step(turn.line)
        if change:
            change()
        replies.append(reply)
    return replies


def pairs_that_differ(seed, count, definitions=Definitions, form=Repository):
    """The numbers of the pairs whose replies differ, with the turn where they do."""
    for number in range(count):
        pair = PairMaker(seed, number, definitions()).pair()
        found = difference(pair, [stand_in(form, run) for run in pair.runs])
        if found:
            yield number, found[0]


def self_test(seed):
    """Plants each leak and each definition that leaves a case out. Answers how many tests passed and failed."""
    passed = failed = 0
    tests = [(Definitions, Repository), *((Definitions, it) for it in LEAKS), *((it, Repository) for it in WEAKER)]
    for definitions, form in tests:
        is_planted = (definitions, form) != (Definitions, Repository)
        name = (form if definitions is Definitions else definitions).__name__ if is_planted else "nothing planted"
        found = next(pairs_that_differ(seed, FINDING_PAIRS if is_planted else QUIET_PAIRS, definitions, form), None)
        print(f"{name}: " + (f"found in pair {found[0]} by {found[1].line.decode()}" if found else "nothing found"))
        passed, failed = (passed + 1, failed) if bool(found) == is_planted else (passed, failed + 1)
    return passed, failed


def show(seed, number):
    """Prints the inputs of a pair."""
    pair = PairMaker(seed, number, Definitions()).pair()
    for run, begins in zip(pair.runs, pair.begins):
        print(f"a run for {pair.partner}, which begins after {begins} lines")
        for turn, reply in run.turns:
            print(f"  {turn.line.decode()}\n    {shortened(reply).decode()}")


def main(words):
    parser = argparse.ArgumentParser(prog="tests/two_runs.py", allow_abbrev=False)
    parser.add_argument("program", nargs="?")
    parser.add_argument("--pairs", type=int, default=2000)
    parser.add_argument("--seed", type=int, default=1)
    parser.add_argument("--only", type=int)
    parser.add_argument("--self-test", action="store_true")
    given = parser.parse_args(words)
    if given.self_test:
        end(LABEL, *self_test(given.seed))
    program = [given.program] if given.program else []
    take_program(LABEL, program)
    if given.only is not None:
        show(given.seed, given.only)
    numbers = list(range(given.pairs)) if given.only is None else [given.only]
    passed, failed, counts = run_all(program, given.seed, numbers)
    few = lacking(counts)
    end(LABEL, passed, failed + (few if len(numbers) >= ENOUGH_PAIRS else 0))


if __name__ == "__main__":
    main(sys.argv[1:])
