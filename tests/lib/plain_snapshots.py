"""Snapshots in Python: how they are written, of rows made by hand and of the plain repository, and which bytes are one.

It is written from the rules of snapshots, and never from the program. A row is a dict with the keys that a snapshot has; nothing is
asked of it when it is written, so that what is no snapshot can be written too.
"""
import json
import re

from lib import plain_binding, plain_files
from lib.messages import canonical
from lib.plain_binding import UNSET, InstanceFault, Real, Reference, Typed, within
from lib.plain_model import (
    GREATEST_NUMBER, GROUPS_OF_ONE_OWNER, INSTANCES_OF_ONE_MODEL, LINKS_OF_ONE_MODEL, MEMBERS_OF_ONE_GROUP, MODELS_OF_ONE_OWNER,
)

FIRST_LINE = b"STEPREPO 1\n"


# ---- writing

def compact(value):
    """JSON without blanks, its keys in byte order."""
    return json.dumps(value, sort_keys=True, separators=(",", ":"), ensure_ascii=False).encode()


def snapshot(groups=(), models=()):
    """The snapshot of these rows, in the order in which they are given."""
    return FIRST_LINE + compact({"groups": list(groups), "models": list(models)})


def row_at(data, row):
    """The byte where a row begins."""
    return data.index(compact(row))


def model(owner, name, *lines, schema="T", **given):
    """The row of a model with these lines of instances. What is said of a key stands in place of what it would have."""
    row = {"file": canonical(*lines, schema=schema), "grants": [], "greatest": len(lines), "links": [], "name": name, "owner": owner, "schema": schema}
    return {**row, **given}


def group(owner, name, schema="T", **given):
    """The row of a group."""
    return {"grants": [], "members": [], "name": name, "owner": owner, "schema": schema, **given}


def key(item):
    return item.owner, item.name


def snapshot_of(repository):
    """The snapshot of a plain repository."""
    groups = [{"grants": sorted(it.grants), "members": sorted(map(list, it.members)), "name": it.name, "owner": it.owner, "schema": it.schema}
              for it in sorted(repository.groups, key=key)]
    models = [{"file": plain_binding.canonical_text(repository.schemas_by_name[it.schema], it.header, it.instances),
               "grants": sorted(map(list, it.grants.items())), "greatest": it.greatest, "links": [link._asdict() for link in it.links],
               "name": it.name, "owner": it.owner, "schema": it.schema} for it in sorted(repository.models, key=key)]
    return snapshot(groups, models)


# ---- reading

class NoSnapshot(Exception):
    """The bytes are no snapshot."""


def need(*holds):
    if not all(holds):
        raise NoSnapshot


def values_of(value, *names):
    """The values of an object that has exactly these keys."""
    need(isinstance(value, dict) and set(value) == set(names))
    return [value[it] for it in names]


def lists(*values):
    need(*(isinstance(it, list) for it in values))


def is_ascending(values):
    return all(one < other for one, other in zip(values, values[1:]))


def is_name(value):
    return isinstance(value, str) and re.fullmatch("[A-Za-z0-9_.-]{1,64}", value) is not None


def is_number(value):
    return type(value) is int and 0 <= value <= GREATEST_NUMBER


class Reader:
    """Reads the rows of a snapshot for these partners and these schemas, which are plain_binding.Schema."""

    def __init__(self, partners, schemas):
        self.partners = partners
        self.schemas = {it.name.upper(): it for it in schemas}

    def is_partner(self, value):
        return isinstance(value, str) and value in self.partners

    def place(self, owner, name):
        """Whether a model may be, or may have been, in this place."""
        return self.is_partner(owner) and is_name(name)

    def head(self, owner, name, schema, granted):
        """What models and groups have in common. `granted` are those to whom something is granted."""
        need(self.place(owner, name), isinstance(schema, str) and schema in self.schemas)
        need(*map(self.is_partner, granted))
        need(is_ascending(granted), owner not in granted)

    def group(self, row):
        grants, members, name, owner, schema = values_of(row, "grants", "members", "name", "owner", "schema")
        lists(grants, members)
        lists(*members)
        self.head(owner, name, schema, grants)
        need(*(len(it) == 2 and self.place(*it) for it in members))
        need(is_ascending(members), len(members) <= MEMBERS_OF_ONE_GROUP)
        return owner, name

    def links(self, row, owner, name, greatest):
        """The names of a model's links."""
        for it in row:
            instance, to, link, of = values_of(it, "instance", "model", "name", "owner")
            need(is_number(instance), is_number(link), self.place(of, to), (of, to) != (owner, name))
        found = [it["name"] for it in row]
        need(is_ascending(found), len(found) <= LINKS_OF_ONE_MODEL, max(found, default=0) <= greatest)
        return found

    def model(self, row):
        file, grants, greatest, links, name, owner, schema = values_of(row, "file", "grants", "greatest", "links", "name", "owner", "schema")
        lists(grants, links)
        lists(*grants)
        need(isinstance(file, str), is_number(greatest), *(len(it) == 2 for it in grants))
        self.head(owner, name, schema, [it for it, _ in grants])
        need(*(level in ("read", "group", "write") for _, level in grants))
        names = self.links(links, owner, name, greatest)
        defined = self.instances(self.schemas[schema], file, set(names))
        need(max(defined, default=0) <= greatest, not set(names) & set(defined), len(defined) <= INSTANCES_OF_ONE_MODEL)
        return owner, name

    def instances(self, schema, text, linked):
        """The names of the instances of a model's file."""
        try:
            found = plain_files.read(text)
            need(*(it.parts for it in found.instances))
            bound = plain_binding.bound(schema, found.instances, linked)
        except (ValueError, LookupError, RecursionError, InstanceFault):
            raise NoSnapshot from None
        need(len(found.header.description) == 2, len(found.header.name) == 7, *map(is_header_value, [*found.header.description, *found.header.name]))
        need(*(is_value(value) for it in found.instances for _, values in it.parts for value in values))
        need(*(it.name <= GREATEST_NUMBER for it in found.instances))
        need(text == plain_binding.canonical_text(schema, found.header, bound))
        return [it.name for it in bound]

    def rows(self, rows, read, most):
        """Reads rows of one kind: in order, and not too many of one owner."""
        lists(rows)
        keys = [read(it) for it in rows]
        owners = [owner for owner, _ in keys]
        need(is_ascending(keys), *(owners.count(it) <= most for it in set(owners)))


def levels(value):
    """How deep lists nest in a value. A keyword is a level where it stands directly in another."""
    if isinstance(value, list):
        return 1 + max(map(levels, value), default=0)
    return levels(value.value) + isinstance(value.value, Typed) if isinstance(value, Typed) else 0


def is_in_range(value):
    if isinstance(value, Reference):
        return value.name <= GREATEST_NUMBER
    if isinstance(value, Real):
        return abs(value.digits) < 10**36 and abs(value.exponent) <= 1000
    return not isinstance(value, int) or -2**63 <= value < 2**63


def is_value(value):
    return levels(value) <= 16 and all(map(is_in_range, within(value)))


def is_header_value(value):
    return levels(value) <= 16 and all(isinstance(it, (str, list)) or it is UNSET for it in within(value))


def is_snapshot(data, partners, schemas):
    """Whether the bytes are a snapshot of a repository of these partners and schemas."""
    reader = Reader(partners, schemas)
    try:
        need(data.startswith(FIRST_LINE))
        value = json.loads(data[len(FIRST_LINE):].decode())
        need(data == FIRST_LINE + compact(value))
        groups, models = values_of(value, "groups", "models")
        reader.rows(groups, reader.group, GROUPS_OF_ONE_OWNER)
        reader.rows(models, reader.model, MODELS_OF_ONE_OWNER)
    except (ValueError, RecursionError, NoSnapshot):
        return False
    return True


# ---- what is saved of a text that is spelled otherwise

def first_of_each(pairs):
    """An object. Of equal keys the first stands."""
    return dict(reversed(pairs))


def canonical_file(row, schemas):
    """The canonical text of what a row's file spells."""
    schema = next(it for it in schemas if it.name.upper() == row["schema"])
    found = plain_files.read(row["file"])
    return plain_binding.canonical_text(schema, found.header, plain_binding.bound(schema, found.instances, {it["name"] for it in row["links"]}))


def saved_again(data, schemas):
    """What is saved of the rows that a text has, in whatever order, with whatever blanks and escapes, and however their files are spelled.
    What stands behind the rows isn't read."""
    value, _ = json.JSONDecoder(object_pairs_hook=first_of_each).raw_decode(data[len(FIRST_LINE):].decode().lstrip())
    models = [{**row, "file": canonical_file(row, schemas)} for row in value["models"]]
    return snapshot(*(sorted(rows, key=lambda it: (it["owner"], it["name"])) for rows in (value["groups"], models)))
