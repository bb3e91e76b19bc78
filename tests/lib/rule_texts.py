"""Reports and values from texts, by plain_reports and plain_rules: for scripts that compare them with what the program tells.

    report(schema_text, models)                             the content of the reply to `validate`
    evaluate(schema_text, expression, instances, self_name) a value and its steps, or LIMIT
    told(value)                                             a value as a text

A model is (owner, name, file) or (owner, name, file, links): the file is an exchange file, or the instances alone that one has; links
are objects as those of `put`, or (name, owner, model, instance).
"""
import functools
import re
from types import SimpleNamespace

from lib import plain_binding, plain_express, plain_files, plain_reports, plain_rules
from lib.plain_express import INDETERMINATE
from lib.plain_model import Link
from lib.plain_rules import LIMIT, deep

# ---- the schema that files are read by


def binding_type(declared):
    """A type as plain_binding has it."""
    if isinstance(declared, plain_express.Simple):
        return declared.word
    if isinstance(declared, plain_express.Aggregate):
        high = "?" if declared.high is None else declared.high
        return plain_binding.Aggregate(f"{declared.kind} [{declared.low}:{high}]", binding_type(declared.element))
    if isinstance(declared, (plain_binding.Enumeration, plain_binding.Select)):
        return type(declared)([it.lower() for it in declared[0]])
    return declared.lower()


def binding_entity(entity):
    """An entity as plain_binding has it, but for what supertype expressions allow: it is for files that are taken."""
    explicit = {name.lower(): binding_type(it.type) for name, it in entity.explicit.items()}
    redeclared, derived = ({(above.lower(), name.lower()): binding_type(it.type) for (above, name), it in its.items()}
                           for its in (entity.redeclared, entity.derived_again))
    return plain_binding.Entity(explicit, [it.lower() for it in entity.supertypes], redeclared, derived)


@functools.lru_cache(maxsize=20)
def binding_schema(schema):
    """The schema as plain_binding has it, whose names are in lower case."""
    return plain_binding.Schema(
        schema.name.lower(), {name.lower(): binding_type(it.underlying) for name, it in schema.types.items()},
        {name.lower(): binding_entity(it) for name, it in schema.entities.items()})


# ---- models


@functools.lru_cache(maxsize=20)
def tree_of(text):
    """What plain_express reads of a schema, or of declarations alone, which then are those of a schema S."""
    is_whole = re.match(r"([\0- ]|--[^\n]*\n|\(\*.*?\*\))*SCHEMA\b", text, re.DOTALL | re.IGNORECASE)
    return plain_express.read(text if is_whole else f"SCHEMA S; {text} END_SCHEMA;")

FILE = ("ISO-10303-21;HEADER;FILE_DESCRIPTION((''),'2;1');FILE_NAME('','',(''),(''),'','','');FILE_SCHEMA(('{}'));ENDSEC;"
        "DATA;{}ENDSEC;END-ISO-10303-21;")


def model_of(schema, owner, name, file, links=()):
    """A model as plain_model has it, of an exchange file or of instances alone."""
    whole = file if "ISO-10303-21" in file[:1000].upper() else FILE.format(schema.name, file)
    linked = [Link(**it) if isinstance(it, dict) else Link(it[3], it[2], it[0], it[1]) for it in links]
    instances = plain_binding.bound(binding_schema(schema), plain_files.read(whole).instances, {it.name for it in linked})
    return SimpleNamespace(owner=owner, name=name, instances=instances, links=linked)


def report(schema_text, models):
    """The content of the reply to `validate` of a group in which these models count."""
    schema = tree_of(schema_text)
    return plain_reports.report_of(schema, [model_of(schema, *it) for it in models])


# ---- expressions


def evaluate(schema_text, expression, instances="", self_name=None, entity=None, limit=plain_rules.STEPS_OF_AN_EVALUATION):
    """A value and its steps, or LIMIT. The expression is one of WHERE of an entity, by default that of the only leaf of the instance
    which is SELF; without SELF it is one of a rule for all entities. The instances are a text of them or models."""
    schema = tree_of(schema_text)
    models = [("me", "m", instances)] if isinstance(instances, str) else instances
    population = plain_reports.population_of(schema, [model_of(schema, *it) for it in models])
    me = INDETERMINATE
    if self_name is not None:
        me = next(it for it in population if it.place[2] == self_name)
        leaves = [it for it in me.types if not any(it in schema.entities[other].supertypes for other in me.types)]
        entity = (entity or min(leaves)).upper()
    tree = plain_express.read_expression(schema, expression, entity, tuple(schema.entities))
    evaluation = plain_rules.Evaluation(schema, plain_reports.extents_of(schema, population), limit)
    try:
        value = deep(evaluation.value, tree, plain_rules.Environment(me, {}))
    except plain_rules.PastLimit:
        return LIMIT
    return value, evaluation.steps


def told(value):
    """A value as a text: `?`, `5`, `1.E-1`, `'a'`, `%01`, `TRUE`, `COLOUR.RED`, `#1`, `SET[1,2]`, and `LABEL('a')` with the type that it
    carries. An initialiser is `[1,2]`, and an array tells its low index, as `ARRAY2[1]`."""
    if isinstance(value, plain_binding.Typed):
        return f"{value.keyword}({told(value.value)})"
    if isinstance(value, plain_rules.Many):
        name = {"ARRAY": f"ARRAY{value.low}", plain_rules.INITIALISER: ""}.get(value.kind, value.kind)
        return f"{name}[{','.join(map(told, value.elements))}]"
    if isinstance(value, plain_rules.Instance):
        return f"#{value.place[2]}"
    if isinstance(value, plain_express.Item):
        return f"{value.type}.{value.word}"
    if isinstance(value, plain_express.Logical):
        return value.name
    if isinstance(value, plain_binding.Bits):
        return f"%{value.text}"
    return "?" if value is INDETERMINATE else plain_binding.spelled(value)
