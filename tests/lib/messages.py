"""Requests and replies for the test scripts, the repository that most of them open, and turns that are compared."""
import json

from lib.harness import Folder, Wrong, shortened

MIB = 1024 * 1024
FILE_LIMIT = 8 * MIB
LINE_LIMIT = 16 * MIB

T = """SCHEMA T;
ENTITY p; x : REAL; n : OPTIONAL STRING;
INVERSE u : SET [0:?] OF q FOR a;
WHERE w1 : SIZEOF(u) <= 2; END_ENTITY;
ENTITY q; a : p; END_ENTITY;
END_SCHEMA;
"""
L = """SCHEMA L; ENTITY e; END_ENTITY;
RULE r1 FOR (e); WHERE SIZEOF(QUERY(p <* e | TRUE)) >= 0; END_RULE;
RULE r2 FOR (e); WHERE NOT (SIZEOF(QUERY(p <* e | TRUE)) < 0); END_RULE;
END_SCHEMA;
"""
E = """SCHEMA E; ENTITY e ABSTRACT SUPERTYPE OF (ONEOF(a, b) ANDOR c); END_ENTITY;
ENTITY a SUBTYPE OF (e); END_ENTITY; ENTITY b SUBTYPE OF (e); END_ENTITY;
ENTITY c SUBTYPE OF (e); END_ENTITY; END_SCHEMA;
"""
CONFIG = {"partners": [{"name": "ann", "token": "ta"}, {"name": "bob", "token": "tb"}],
          "schemas": ["t.exp", "l.exp"]}

# ---- files

HEAD_LINES = ["ISO-10303-21;", "HEADER;", "FILE_DESCRIPTION((''),'2;1');", "FILE_NAME('','',(''),(''),'','','');",
              "FILE_SCHEMA(('{}'));", "ENDSEC;"]
FOOT_LINES = ["ENDSEC;", "END-ISO-10303-21;"]
HEAD, FOOT = "".join(HEAD_LINES), "".join(FOOT_LINES)


def file_of(instances, schema="T", section="DATA;"):
    """A Part 21 file without a line feed."""
    return HEAD.format(schema) + section + instances + FOOT


def canonical(*lines, schema="T"):
    """The canonical text of a model with these lines and the header of `file_of`, which is that of a model without a file too."""
    return "".join(it + "\n" for it in [*HEAD_LINES, "DATA;", *lines, *FOOT_LINES]).replace("'{}'", f"'{schema}'")


# ---- requests

def line(who, do, **keys):
    """A request as one line, without its line feed."""
    return json.dumps({"as": who, "do": do, **keys}, separators=(",", ":"), ensure_ascii=False).encode()


def create(who, name, schema="T"):
    return line(who, "create_model", name=name, schema=schema)


def delete(who, name):
    return line(who, "delete_model", name=name)


def link(name, owner, model, instance):
    """A name that stands for an instance of another model: a member of `links`."""
    return {"instance": instance, "model": model, "name": name, "owner": owner}


def put(who, owner, model, file, *links):
    """Without `links` where there are none."""
    return line(who, "put", owner=owner, model=model, file=file, **({"links": links} if links else {}))


def export(who, owner, model, **links):
    return line(who, "export", owner=owner, model=model, **links)


def names(who, owner, model):
    return line(who, "names", owner=owner, model=model)


def get(who, owner, model, instance):
    return line(who, "get", owner=owner, model=model, instance=instance)


def add(who, owner, model, text):
    return line(who, "add", owner=owner, model=model, text=text)


def set_instance(who, owner, model, instance, text):
    return line(who, "set", owner=owner, model=model, instance=instance, text=text)


def drop(who, owner, model, instance):
    return line(who, "drop", owner=owner, model=model, instance=instance)


def list_of(who):
    return line(who, "list")


def grant(who, name, to, level):
    return line(who, "grant", kind="model", name=name, to=to, level=level)


def revoke(who, name, to):
    return line(who, "revoke", kind="model", name=name, to=to)


def grant_group(who, name, to, level="read"):
    return line(who, "grant", kind="group", name=name, to=to, level=level)


def revoke_group(who, name, to):
    return line(who, "revoke", kind="group", name=name, to=to)


def create_group(who, name, schema="T"):
    return line(who, "create_group", name=name, schema=schema)


def delete_group(who, name):
    return line(who, "delete_group", name=name)


def include(who, group, owner, model):
    return line(who, "include", group=group, owner=owner, model=model)


def exclude(who, group, owner, model):
    return line(who, "exclude", group=group, owner=owner, model=model)


def members(who, owner, group):
    return line(who, "members", owner=owner, group=group)


def extent(who, owner, group, entity):
    return line(who, "extent", owner=owner, group=group, type=entity)


def users(who, owner, group, of, role):
    return line(who, "users", owner=owner, group=group, of=of, role=role)


def validate(who, owner, group):
    return line(who, "validate", owner=owner, group=group)


def schemas(who):
    return line(who, "schemas")


def check(who, text):
    return line(who, "check_schema", text=text)


# ---- replies

OK = b'{"ok":{}}'


def instances(count):
    return b'{"ok":{"instances":%d}}' % count


def added(name):
    """The reply to `add` of an instance that has this name from now on."""
    return b'{"ok":{"name":%d}}' % name


def exported(text):
    """The reply to `export` of a model with this canonical text."""
    return b'{"ok":{"file":%s}}' % json.dumps(text, ensure_ascii=False).encode()


def linked(text, *links):
    """The reply to `export` with links of a model with this canonical text and these links."""
    shown = ",".join('{"instance":%(instance)d,"model":"%(model)s","name":%(name)d,"owner":"%(owner)s"}' % it for it in links)
    return b'{"ok":{"file":%s,"links":[%s]}}' % (json.dumps(text, ensure_ascii=False).encode(), shown.encode())


def named(*rows):
    """The reply to `names` for instances of these names and types."""
    shown = ",".join('{"name":%d,"type":"%s"}' % row for row in rows)
    return ('{"ok":{"names":[' + shown + "]}}").encode()


def got(text):
    """The reply to `get` of an instance with this line."""
    return b'{"ok":{"text":%s}}' % json.dumps(text, ensure_ascii=False).encode()


def items_listed(rows):
    return b",".join(b'{"level":"%s","name":"%s","owner":"%s","schema":"%s"}' % (*row[:3], *(row[3:] or [b"T"])) for row in rows)


def listed(*rows, groups=()):
    """The models that a partner sees, and the groups: level, name and owner, and the schema where it isn't T."""
    return b'{"ok":{"groups":[%s],"models":[%s]}}' % (items_listed(groups), items_listed(rows))


def members_are(*rows):
    """The reply to `members` of a group that lists these models: owner and name, and whether it counts."""
    shown = ",".join('{"counts":%s,"model":"%s","owner":"%s"}' % ("true" if counts else "false", model, owner) for owner, model, counts in rows)
    return b'{"ok":{"members":[%s]}}' % shown.encode()


def places_at(key, places):
    shown = ",".join('["%s","%s",%d]' % tuple(it) for it in places)
    return b'{"ok":{"%s":[%s]}}' % (key, shown.encode())


def extent_is(*places):
    """The reply to `extent` of an entity with the instances at these places."""
    return places_at(b"extent", places)


def users_are(*places):
    """The reply to `users` of what the instances at these places use."""
    return places_at(b"users", places)


def check_is(check, of="", rule="", **culprits):
    """An entry of a report: what is checked, of which rule, if it is one, and the culprits of each verdict but TRUE, by its name. The
    entry's verdict is the first of these that stands here."""
    verdict = next((it for it in ("false", "limit", "not_run", "unknown") if it in culprits), "true").upper()
    names = {"of": of, "rule": rule} if of else {}
    return json.dumps({"check": check, **names, "verdict": verdict, **culprits}, sort_keys=True, separators=(",", ":")).encode()


# what is told where all attributes are as they have to be
ATTRIBUTES_HOLD = [check_is("unset"), check_is("bounds"), check_is("reference")]


def report_is(steps, *checks):
    """The reply to `validate` with these entries."""
    return b'{"ok":{"checks":[%s],"steps":%d}}' % (b",".join(checks), steps)


def loaded(*names_of_schemas):
    """The reply to `schemas`."""
    return b'{"ok":{"schemas":[%s]}}' % b",".join(b'"%s"' % it.encode() for it in names_of_schemas)


def good(name, *warnings):
    """The reply to a text that is a schema, with warnings at these bytes."""
    shown = b",".join(b'{"at":%d,"kind":"SelectInTypeof"}' % it for it in warnings)
    return b'{"ok":{"schema":"%s","warnings":[%s]}}' % (name.encode(), shown)


def fault(kind, at):
    """The reply to a text that is no schema."""
    return b'{"ok":{"fault":{"at":%d,"kind":"%s"}}}' % (at, kind.encode())


def refused(code, name):
    return b'{"refused":{"code":%d,"name":"%s"}}' % (code, name.encode())


def file_fault(kind, at):
    return b'{"refused":{"at":%d,"code":11,"kind":"%s","name":"FileFault"}}' % (at, kind.encode())


def instance_fault(kind, instance):
    return b'{"refused":{"code":12,"instance":%d,"kind":"%s","name":"InstanceFault"}}' % (instance, kind.encode())


def link_fault(kind, name):
    return b'{"refused":{"code":13,"kind":"%s","link":%d,"name":"LinkFault"}}' % (kind.encode(), name)


BAD_REQUEST = refused(1, "BadRequest")
TOO_LARGE = refused(2, "TooLarge")
BAD_NAME = refused(3, "BadName")
UNKNOWN_PARTNER = refused(4, "UnknownPartner")
UNKNOWN_SCHEMA = refused(5, "UnknownSchema")
EXISTS = refused(6, "Exists")
NO_SUCH_ITEM = refused(7, "NoSuchItem")
NO_RIGHT = refused(8, "NoRight")
WRONG_SCHEMA = refused(9, "WrongSchema")
MEMBERSHIP = refused(10, "Membership")
NO_SUCH_INSTANCE = refused(14, "NoSuchInstance")
IN_USE = refused(15, "InUse")
TOO_MANY = refused(16, "TooMany")
HAS_LINKS = refused(17, "HasLinks")

# ---- turns

FIRST_LINES = [create("ann", "m"), put("ann", "ann", "m", file_of("#2=Q(#1);#1=P(0.10,'a');"))]
FIRST_REPLIES = [OK, instances(2)]
FIRST = [*zip(FIRST_LINES, FIRST_REPLIES)]
FIRST_NAMES = named((1, "P"), (2, "Q"))
FIRST_EXPORT = exported(canonical("#1=P(1.E-1,'a');", "#2=Q(#1);"))


class Repository(Folder):
    """A folder with a configuration and schemas, in which requests are answered."""

    def __init__(self, config=None, **files):
        schemas_of_files = {name + ".exp": text for name, text in {"t": T, "l": L, **files}.items()}
        super().__init__(**{"config.json": json.dumps(CONFIG if config is None else config), **schemas_of_files})

    def batch(self, text):
        return self.run("batch", "--config", "config.json", text=text)


def expect_replies(text, replies, config=None, **files):
    """The program answers the bytes of an input by these lines, and ends with status 0."""
    with Repository(config, **files) as folder:
        seen = folder.batch(text)
    if seen is None:
        return  # (the run is made later, and then looked at)
    status, output, errors = seen
    if (status, errors) != (0, b""):
        raise Wrong(f"status {status}, standard error {errors!r}")
    written = output.split(b"\n")
    for place, (reply, wanted) in enumerate(zip(written, replies), 1):
        if reply != wanted:
            raise Wrong(f"reply {place} is {shortened(reply)!r} in place of {shortened(wanted)!r}")
    if output != b"".join(reply + b"\n" for reply in replies):
        raise Wrong(f"{len(written) - 1} replies in place of {len(replies)}")


def expect(turns, config=None, **files):
    """The program answers each line by the reply beside it."""
    expect_replies(b"".join(it + b"\n" for it, _ in turns), [reply for _, reply in turns], config, **files)


def expect_fault(seen, *mentioned):
    """The program ended with status 2, one line on standard error and nothing on standard output."""
    status, output, errors = seen
    if status != 2 or output or errors.count(b"\n") != 1 or not errors.endswith(b"\n") or len(errors) < 2:
        raise Wrong(f"status {status}, standard output {output!r}, standard error {errors!r}")
    for word in mentioned:
        if word.encode() not in errors:
            raise Wrong(f"standard error {errors!r} doesn't speak of {word!r}")


def expect_config_fault(config, *mentioned, **files):
    with Repository(config, **files) as folder:
        expect_fault(folder.batch(names("ann", "ann", "m")), *mentioned)


def replies_to(who, lines):
    """The reply lines to a partner's lines; none where the run is made later."""
    with Repository() as folder:
        seen = folder.batch(b"".join(it + b"\n" for it in lines))
    if seen is None:
        return []
    status, output, errors = seen
    replies = output.split(b"\n")[:-1]
    if (status, errors, len(replies)) != (0, b"", len(lines)):
        raise Wrong(f"status {status}, {len(replies)} replies to {len(lines)} lines, {errors!r}")
    mark = b'{"as":"%s"' % who.encode()
    return [reply for it, reply in zip(lines, replies) if it.startswith(mark)]
