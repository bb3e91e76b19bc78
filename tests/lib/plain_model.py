"""The plain repository in Python: what each line is answered, byte for byte, and what it changes.

It is written from docs/REQUESTS.md, docs/REFUSALS.md and docs/DECISIONS.md, and never from the program. Models and groups are
rows of two lists, and every question is asked of all rows. What an exchange file and a schema's text spell isn't found out here: who makes the texts
knows it. What a file says by its schema is found in plain_binding.py, and the report of a group's population in plain_reports.py.

A request is a method of Repository that is marked by `request`. Its name is the request's `do`, and its parameters behind
the partner who asks are the request's keys, in any order; one with a default may be left out, and its annotation says what
it may be. It answers the content of the reply and the change, which is made when it is called, or None.
"""
import collections
import inspect
import json
import math
import re
from dataclasses import dataclass, field
from typing import NamedTuple

from lib import plain_binding, plain_express, plain_reports
from lib.plain_binding import DEFAULT_HEADER, Header, InstanceFault, Reference

MIB = 1024 * 1024
TEXT_LIMIT = 8 * MIB
LINE_LIMIT = 16 * MIB
MODELS_OF_ONE_OWNER = 100
GROUPS_OF_ONE_OWNER = 100
MEMBERS_OF_ONE_GROUP = 50
INSTANCES_OF_ONE_MODEL = 200_000
LINKS_OF_ONE_MODEL = 10_000
NESTING = 127

CODES = {
    "BadRequest": 1, "TooLarge": 2, "BadName": 3, "UnknownPartner": 4, "UnknownSchema": 5, "Exists": 6, "NoSuchItem": 7,
    "NoRight": 8, "WrongSchema": 9, "Membership": 10, "FileFault": 11, "InstanceFault": 12, "LinkFault": 13, "NoSuchInstance": 14,
    "InUse": 15, "TooMany": 16, "HasLinks": 17, "NoMemory": 18,
}

# keys whose values are words; those of the others are any strings, but for what is annotated
WORDS = {"kind": ["model", "group"], "level": ["read", "group", "write"]}
GREATEST_NUMBER = 999_999_999_999_999_999


# ---- what texts say

class File(NamedTuple):
    """A file that reads: what FILE_SCHEMA and then, where it says so, the data section name, the header's values, and the
    instances as plain_binding.Instance."""

    schemas: list
    header: Header
    instances: list


class Mapping(NamedTuple):
    """A text of one instance that reads: its parts, as those of plain_binding.Instance."""

    parts: list
    is_whole: bool


class FileFault(NamedTuple):
    """The first fault of a file, or of a text of one instance, that doesn't read."""

    kind: str
    at: int


class Link(NamedTuple):
    """A name of a model that stands for an instance of another model. Its fields are its keys in a request."""

    instance: int
    model: str
    name: int
    owner: str


Links = list[Link]


class Place(NamedTuple):
    """An instance of a model. Its fields are the items of its list in a request and in a reply."""

    owner: str
    model: str
    instance: int


def upper(text):
    """ASCII letters in upper case, and all others as they are."""
    return text.encode().upper().decode()


def schema_named(text):
    """What is compared of a schema's name in a file: up to the first blank or brace, without the ends of lines."""
    return upper(re.match(r"[^\0- {]*", re.sub("[\n\r]", "", text))[0])


# ---- requests

class Refused(Exception):
    """Why a request is refused: the name of the refusal, and what else is told."""

    def __init__(self, name, **more):
        super().__init__(name)
        self.told = {"code": CODES[name], "name": name, **more}


def compact(reply):
    return json.dumps(reply, sort_keys=True, separators=(",", ":"), ensure_ascii=False).encode()


def nesting(text):
    """How deep the arrays and objects of a JSON text nest."""
    depth = deepest = 0
    if text.count("[") + text.count("{") <= NESTING:
        return 0
    for mark in re.findall(r"[][{}]", re.sub(r'"[^"\\]*(?:\\.[^"\\]*)*"', "", text)):
        depth += 1 if mark in "[{" else -1
        deepest = max(deepest, depth)
    return deepest


def number(text):
    """A JSON number. One that isn't a finite float is refused."""
    value = float(text)
    if not math.isfinite(value):
        raise ValueError(f"{text} is no number")
    return value


def integer(text):
    """A JSON number without point and exponent: a whole one up to 64 bits, else a float, as minus zero is one."""
    value = number(text)
    return int(text) if text != "-0" and -2**63 <= int(text) < 2**64 else value


def expect_characters(value):
    """Half of a surrogate pair is no character. Objects have been looked at before what holds them."""
    if isinstance(value, str):
        value.encode()
    elif isinstance(value, list):
        for it in value:
            expect_characters(it)


def members(pairs):
    """An object. Of equal keys the last stands."""
    for key, value in pairs:
        expect_characters(key)
        expect_characters(value)
    return dict(pairs)


def json_of(line):
    """The value of a line. ValueError where it is no JSON."""
    text = line.decode()
    if nesting(text) > NESTING:
        raise ValueError("it nests too deep")
    return json.loads(text, object_pairs_hook=members, parse_int=integer, parse_float=number, parse_constant=number)


def is_number(value):
    """Whether a value is a whole number of at most 18 digits."""
    return type(value) is int and 0 <= value <= GREATEST_NUMBER


def is_links(value):
    """Whether a value is a list of links: objects with exactly the keys of one."""
    return isinstance(value, list) and all(
        isinstance(it, dict) and set(it) == set(Link._fields) and is_number(it["name"]) and is_number(it["instance"])
        and isinstance(it["owner"], str) and isinstance(it["model"], str) for it in value)


def is_place(value):
    """Whether a value is a list of an owner, the name of a model, and that of an instance."""
    return (isinstance(value, list) and len(value) == 3 and isinstance(value[0], str) and isinstance(value[1], str)
            and is_number(value[2]))


# what a value may be, by the annotation of its key
FITS = {int: is_number, bool: lambda it: isinstance(it, bool), Links: is_links, Place: is_place,
        inspect.Parameter.empty: lambda it: isinstance(it, str)}


def fits(key, value):
    """Whether a key may have a value."""
    return value in WORDS[key.name] if key.name in WORDS else FITS[key.annotation](value)


# the method of each request, and its keys
REQUESTS = {}


def request(meaning):
    """Enters a request by the method that says what it means."""
    _, _, *keys = inspect.signature(meaning).parameters.values()
    REQUESTS[meaning.__name__] = (meaning, {it.name: it for it in keys})
    return meaning


def are_keys_of(do, given):
    """Whether these are the keys of a request, each with a value that it may have."""
    keys = REQUESTS[do][1]
    due = {name for name, it in keys.items() if it.default is it.empty}
    # a group is granted to be read alone
    is_level = do != "grant" or given.get("kind") != "group" or given.get("level") == "read"
    return is_level and due <= set(given) <= set(keys) and all(fits(keys[name], value) for name, value in given.items())


def request_of(line):
    """Who asks, for what, and with which keys; None where the line is no request."""
    try:
        value = json_of(line)
    except ValueError:
        return None
    if not isinstance(value, dict):
        return None
    who, do = value.pop("as", None), value.pop("do", None)
    if not isinstance(who, str) or not isinstance(do, str) or do not in REQUESTS:
        return None
    return (who, do, value) if are_keys_of(do, value) else None


# ---- populations

def named_entity(schema, name):
    """The entity of this name in upper case, or None."""
    return next((it for it in schema.entities if upper(it) == name), None)


def references_in(schema, role, instance):
    """The names that an instance refers to in a role, each as often as it stands in the values of the role's attributes."""
    if not role:
        return [it.name for it in plain_binding.references_of(instance)]
    parts = role.split(".")
    if len(parts) != 3 or parts[0] != upper(schema.name):
        return []
    entity = named_entity(schema, parts[1])
    if entity not in instance.types:
        return []
    line = plain_binding.line_of(schema, entity)
    values = [value for (declaring, attribute), value in instance.values.items() if declaring in line and upper(attribute) == parts[2]]
    return [it.name for value in values for it in plain_binding.within(value) if isinstance(it, Reference)]


def targets(model, name):
    """The places that a name of a model stands for."""
    return [Place(model.owner, model.name, name), *(Place(it.owner, it.model, it.instance) for it in model.links if it.name == name)]


# ---- the repository

@dataclass
class Model:
    """A model. Its grants are levels by partner, its instances are those of plain_binding.bound, and its links are as they
    are told; both are in order of name. The greatest name is that of all instances and links that it ever had."""

    owner: str
    name: str
    schema: str
    grants: dict = field(default_factory=dict)
    header: Header = DEFAULT_HEADER
    instances: list = field(default_factory=list)
    links: list = field(default_factory=list)
    greatest: int = 0

    def names(self):
        """What a reference may name."""
        return [it.name for it in self.instances + self.links]

    def fill(self, header, instances, links):
        self.header, self.instances, self.links = header, instances, links
        self.greatest = max([self.greatest, *self.names()])

    def place(self, instance):
        """The instance stands under its name."""
        others = [it for it in self.instances if it.name != instance.name]
        self.instances = sorted([*others, instance], key=lambda it: it.name)
        self.greatest = max(self.greatest, instance.name)

    def instance(self, name):
        """The instance of this name, which there has to be."""
        for it in self.instances:
            if it.name == name:
                return it
        raise Refused("NoSuchInstance")

    def is_valid(self):
        """What holds of each model: a name stands once, a reference names something, and no link leads into the model itself."""
        names = self.names()
        references = {it.name for instance in self.instances for it in plain_binding.references_of(instance)}
        return (names == sorted({it.name for it in self.instances}) + sorted({it.name for it in self.links})
                and len(set(names)) == len(names) and references <= set(names) and max([0, *names]) <= self.greatest <= GREATEST_NUMBER
                and len(self.instances) <= INSTANCES_OF_ONE_MODEL and len(self.links) <= LINKS_OF_ONE_MODEL
                and all((it.owner, it.model) != (self.owner, self.name) for it in self.links))


@dataclass
class Group:
    """A group. Its grants are levels by partner, and its members are owners and names of models, in their order."""

    owner: str
    name: str
    schema: str
    grants: dict = field(default_factory=dict)
    members: list = field(default_factory=list)

    def is_valid(self):
        """What holds of each group: a member stands once, there aren't too many, and it is granted to be read alone."""
        return (self.members == sorted(set(self.members)) and len(self.members) <= MEMBERS_OF_ONE_GROUP
                and set(self.grants.values()) <= {"read"})


# who may read a model, put it into a group of his, and write it
READING, GROUPING, WRITING = ["owner", "write", "group", "read"], ["owner", "write", "group"], ["owner", "write"]


class Repository:
    """Partners, schemas as plain_binding.Schema, models and groups. `file_of` tells the File or the FileFault of a text that is
    put, `mapping_of` the Mapping or the FileFault of a text of one instance, and `told_of` the content of the reply to
    `check_schema`. `texts` are those of schemas that have rules, by their names in upper case."""

    def __init__(self, partners, schemas, file_of, mapping_of, told_of, texts=None):
        self.partners = list(partners)
        self.schemas_by_name = {upper(it.name): it for it in schemas}
        self.texts = {**{name: plain_binding.express(it) for name, it in self.schemas_by_name.items()}, **(texts or {})}
        self.trees = {}
        self.models = []
        self.groups = []
        self.file_of = file_of
        self.mapping_of = mapping_of
        self.told_of = told_of

    def step(self, line):
        """The reply to a line, and the change that is to be made, or None. Want of memory is left out."""
        try:
            content, change = self.answered(line)
        except Refused as refusal:
            return compact({"refused": refusal.told}), None
        return compact({"ok": content}), change

    def answered(self, line):
        if len(line) > LINE_LIMIT:
            raise Refused("TooLarge")
        asked = request_of(line)
        if not asked or asked[0] not in self.partners:
            raise Refused("BadRequest")
        who, do, keys = asked
        self.test_keys(keys)
        return REQUESTS[do][0](self, who, **keys)

    def test_keys(self, keys):
        """What is tested first, of each request that has these keys."""
        if any(len(keys[it].encode()) > TEXT_LIMIT for it in ("file", "text") if it in keys):
            raise Refused("TooLarge")
        if not all(re.fullmatch("[A-Za-z0-9_.-]{1,64}", keys[it]) for it in ("name", "owner", "model", "group", "to") if it in keys):
            raise Refused("BadName")
        if not all(keys[it] in self.partners for it in ("owner", "to") if it in keys):
            raise Refused("UnknownPartner")

    def granted(self, who, item):
        """What a partner may do with a model or a group as its owner, or by its grants, or None."""
        return "owner" if item.owner == who else item.grants.get(who)

    def counts(self, model, group):
        """Whether a model counts in a group."""
        return ((model.owner, model.name) in group.members and model.schema == group.schema
                and self.granted(group.owner, model) in GROUPING)

    def counted(self, group):
        """The models that count in a group, in their order."""
        return sorted((it for it in self.models if self.counts(it, group)), key=lambda it: (it.owner, it.name))

    def level(self, who, item):
        """A partner's level on a model or a group, or None where he doesn't see it. He reads what counts in a group that he sees."""
        level = self.granted(who, item)
        if level or isinstance(item, Group):
            return level
        return "read" if any(self.counts(item, it) for it in self.groups if self.granted(who, it)) else None

    def visible(self, who, owner, name, items=None):
        """The model, or the one of these items, of this name, or None where the partner doesn't see one."""
        for item in self.models if items is None else items:
            if (item.owner, item.name) == (owner, name) and self.level(who, item):
                return item
        return None

    def seen(self, who, owner, name, levels, items=None):
        """The model, or the one of these items, of this name: the partner has to see it, and to have one of the levels on it."""
        item = self.visible(who, owner, name, items)
        if not item:
            raise Refused("NoSuchItem")
        if self.level(who, item) not in levels:
            raise Refused("NoRight")
        return item

    def seen_group(self, who, owner, name):
        return self.seen(who, owner, name, READING, self.groups)

    def link_fault(self, who, holder, link):
        """What is wrong with a link of a model whose name stands nowhere else, or None."""
        target = self.visible(who, link.owner, link.model)
        if (link.owner, link.model) == (holder.owner, holder.name):
            return "Own"
        if not target:
            return "NotSeen"
        if target.schema != holder.schema:
            return "OtherSchema"
        return None if any(it.name == link.instance for it in target.instances) else "NoInstance"

    def test_links(self, who, holder, instances, links):
        """The links, in order of name, of a model that is to have these instances. The first with a fault is told."""
        count = collections.Counter(it.name for it in instances + links)
        for link in links:
            kind = "Defined" if count[link.name] > 1 else self.link_fault(who, holder, link)
            if kind:
                raise Refused("LinkFault", link=link.name, kind=kind)

    @request
    def create_model(self, who, name, schema):
        own = [model for model in self.models if model.owner == who]
        if upper(schema) not in self.schemas_by_name:
            raise Refused("UnknownSchema")
        if any(model.name == name for model in own):
            raise Refused("Exists")
        if len(own) >= MODELS_OF_ONE_OWNER:
            raise Refused("TooMany")
        return {}, lambda: self.models.append(Model(who, name, upper(schema)))

    @request
    def delete_model(self, who, name):
        model = self.seen(who, who, name, ["owner"])
        return {}, lambda: self.models.remove(model)

    @request
    def put(self, who, owner, model, file, links: Links = ()):
        target = self.seen(who, owner, model, WRITING)
        linked = sorted((Link(**it) for it in links), key=lambda it: it.name)
        found = self.file_of(file)
        if isinstance(found, FileFault):
            raise Refused("FileFault", at=found.at, kind=found.kind)
        if any(schema_named(it) != target.schema for it in found.schemas):
            raise Refused("WrongSchema")
        try:
            instances = plain_binding.bound(self.schemas_by_name[target.schema], found.instances, {it.name for it in linked})
        except InstanceFault as fault:
            raise Refused("InstanceFault", instance=fault.name, kind=fault.kind) from None
        self.test_links(who, target, instances, linked)
        if len(instances) > INSTANCES_OF_ONE_MODEL or len(linked) > LINKS_OF_ONE_MODEL:
            raise Refused("TooMany")

        return {"instances": len(instances)}, lambda: target.fill(found.header, instances, linked)

    @request
    def export(self, who, owner, model, links: bool = False):
        found = self.seen(who, owner, model, READING)
        if found.links and not links:
            raise Refused("HasLinks")
        file = plain_binding.canonical_text(self.schemas_by_name[found.schema], found.header, found.instances)
        return {"file": file, **({"links": [it._asdict() for it in found.links]} if links else {})}, None

    @request
    def names(self, who, owner, model):
        found = self.seen(who, owner, model, READING)
        schema = self.schemas_by_name[found.schema]
        return {"names": [{"name": it.name, "type": plain_binding.type_text(schema, it.types)} for it in found.instances]}, None

    @request
    def get(self, who, owner, model, instance: int):
        found = self.seen(who, owner, model, READING)
        return {"text": plain_binding.instance_text(self.schemas_by_name[found.schema], found.instance(instance))}, None

    def said(self, model, name, text):
        """The instance of this name that a text says."""
        found = self.mapping_of(text)
        if isinstance(found, FileFault):
            raise Refused("FileFault", at=found.at, kind=found.kind)
        spelled = plain_binding.Instance(name, *found)
        try:
            return plain_binding.bound_instance(self.schemas_by_name[model.schema], spelled, set(model.names()), {})
        except InstanceFault as fault:
            raise Refused("InstanceFault", instance=fault.name, kind=fault.kind) from None

    @request
    def add(self, who, owner, model, text):
        target = self.seen(who, owner, model, WRITING)
        new = self.said(target, target.greatest + 1, text)
        if target.greatest >= GREATEST_NUMBER or len(target.instances) >= INSTANCES_OF_ONE_MODEL:
            raise Refused("TooMany")
        return {"name": new.name}, lambda: target.place(new)

    @request
    def set(self, who, owner, model, instance: int, text):
        target = self.seen(who, owner, model, WRITING)
        new = self.said(target, instance, text)
        target.instance(instance)
        return {}, lambda: target.place(new)

    @request
    def drop(self, who, owner, model, instance: int):
        target = self.seen(who, owner, model, WRITING)
        dropped = target.instance(instance)
        others = [it for it in target.instances if it is not dropped]
        if any(Reference(instance) in plain_binding.references_of(it) for it in others):
            raise Refused("InUse")
        return {}, lambda: setattr(target, "instances", others)

    def rows(self, who, items):
        return [{"level": self.level(who, it), "name": it.name, "owner": it.owner, "schema": it.schema}
                for it in sorted(items, key=lambda it: (it.owner, it.name)) if self.level(who, it)]

    @request
    def list(self, who):
        return {"groups": self.rows(who, self.groups), "models": self.rows(who, self.models)}, None

    def own(self, who, kind, name):
        """A partner's own model or group of this name."""
        return self.seen(who, who, name, ["owner"], {"model": self.models, "group": self.groups}[kind])

    @request
    def grant(self, who, kind, name, to, level):
        item = self.own(who, kind, name)
        return {}, (lambda: item.grants.update({to: level})) if to != who else None

    @request
    def revoke(self, who, kind, name, to):
        item = self.own(who, kind, name)
        return {}, lambda: item.grants.pop(to, None)

    @request
    def create_group(self, who, name, schema):
        own = [group for group in self.groups if group.owner == who]
        if upper(schema) not in self.schemas_by_name:
            raise Refused("UnknownSchema")
        if any(group.name == name for group in own):
            raise Refused("Exists")
        if len(own) >= GROUPS_OF_ONE_OWNER:
            raise Refused("TooMany")
        return {}, lambda: self.groups.append(Group(who, name, upper(schema)))

    @request
    def delete_group(self, who, name):
        group = self.own(who, "group", name)
        return {}, lambda: self.groups.remove(group)

    @request
    def include(self, who, group, owner, model):
        target = self.visible(who, who, group, self.groups)
        if not target:
            raise Refused("NoSuchItem")
        found = self.seen(who, owner, model, GROUPING)
        if found.schema != target.schema:
            raise Refused("WrongSchema")
        if (owner, model) in target.members:
            raise Refused("Membership")
        if len(target.members) >= MEMBERS_OF_ONE_GROUP:
            raise Refused("TooMany")
        return {}, lambda: setattr(target, "members", sorted([*target.members, (owner, model)]))

    @request
    def exclude(self, who, group, owner, model):
        target = self.own(who, "group", group)
        if (owner, model) not in target.members:
            raise Refused("Membership")
        return {}, lambda: target.members.remove((owner, model))

    @request
    def members(self, who, owner, group):
        found = self.seen_group(who, owner, group)
        counted = {(it.owner, it.name) for it in self.counted(found)}
        return {"members": [{"counts": it in counted, "model": it[1], "owner": it[0]} for it in found.members]}, None

    def population(self, group):
        """The instances of a group's population, each with its place and its model, in the order of places."""
        return [(Place(model.owner, model.name, it.name), model, it) for model in self.counted(group) for it in model.instances]

    @request
    def extent(self, who, owner, group, type):
        found = self.seen_group(who, owner, group)
        entity = named_entity(self.schemas_by_name[found.schema], upper(type))
        return {"extent": [place for place, _, it in self.population(found) if entity in it.types]}, None

    @request
    def users(self, who, owner, group, of: Place, role):
        found = self.seen_group(who, owner, group)
        population = self.population(found)
        if not any(place == Place(*of) for place, _, _ in population):
            raise Refused("NoSuchInstance")
        schema = self.schemas_by_name[found.schema]
        return {"users": [place for place, model, it in population for name in references_in(schema, role, it)
                          if Place(*of) in targets(model, name)]}, None

    @request
    def validate(self, who, owner, group):
        found = self.seen_group(who, owner, group)
        if found.schema not in self.trees:
            self.trees[found.schema] = plain_express.read(self.texts[found.schema])
        return plain_reports.report_of(self.trees[found.schema], self.counted(found)), None

    @request
    def schemas(self, who):
        return {"schemas": sorted(self.schemas_by_name)}, None

    @request
    def check_schema(self, who, text):
        return self.told_of(text), None
