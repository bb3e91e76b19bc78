"""How an exchange file is bound to its schema, and the canonical text of what it says, in Python.

It is written from the rules of docs/EXCHANGE-FILES.md and docs/DECISIONS.md, and never from the program. A schema is data,
and `express` writes its text, so that no EXPRESS is read here. Names of types, entities and attributes are in lower case
in it, the simple types in upper case.

A value of a file is a Python value: int, Real, str, Bits, Item, Reference, a list, Typed, and `$` and `*` as UNSET and
DERIVED. What a SELECT takes is Typed once it is bound, unless it is a reference.
"""
import re
from enum import Enum
from typing import NamedTuple


# ---- values

class Real(NamedTuple):
    """digits * 10 ** exponent, without zeros at the end of the digits. Zero is (0, 0)."""

    digits: int
    exponent: int


class Bits(NamedTuple):
    """Zeros and ones."""

    text: str


class Item(NamedTuple):
    """The word between two points, in upper case."""

    word: str


class Reference(NamedTuple):
    name: int


class Typed(NamedTuple):
    """A value behind a keyword, which is in lower case."""

    keyword: str
    value: object


class Mark(Enum):
    """What stands in place of a value."""

    UNSET = "$"
    DERIVED = "*"


UNSET, DERIVED = Mark.UNSET, Mark.DERIVED


def real(digits, exponent=0):
    """The number, whatever zeros its digits end with."""
    if digits == 0:
        return Real(0, 0)
    while digits % 10 == 0:
        digits, exponent = digits // 10, exponent + 1
    return Real(digits, exponent)


def real_of(text):
    """The number that a real's spelling says."""
    sign, whole, part, exponent = re.fullmatch(r"([+-]?)(\d+)\.(\d*)(?:[Ee]([+-]?\d+))?", text).groups()
    return real(int(sign + whole + part), int(exponent or 0) - len(part))


def inner(value):
    """The values directly within a value."""
    return value if isinstance(value, list) else [value.value] if isinstance(value, Typed) else []


def within(value):
    """A value and all that it holds."""
    yield value
    for it in inner(value):
        yield from within(it)


# ---- schemas

SIMPLE = ["INTEGER", "REAL", "NUMBER", "STRING", "BINARY", "BOOLEAN", "LOGICAL"]


class Aggregate(NamedTuple):
    """As `LIST [0:?]`, and the type of its elements."""

    kind: str
    element: object


class Enumeration(NamedTuple):
    items: list


class Select(NamedTuple):
    members: list


class Entity(NamedTuple):
    """Attributes are types by name, those that are redeclared are types or expressions by (entity, name). A supertype
    expression is an entity, or one of the words ONEOF, AND and ANDOR with expressions."""

    attributes: dict = {}
    supertypes: list = []
    redeclared: dict = {}
    derived: dict = {}
    optional: list = []
    expression: object = None
    is_abstract: bool = False


class Schema(NamedTuple):
    name: str
    types: dict
    entities: dict


def express_type(declared):
    if isinstance(declared, Aggregate):
        return f"{declared.kind} OF {express_type(declared.element)}"
    if isinstance(declared, Enumeration):
        return f"ENUMERATION OF ({', '.join(declared.items)})"
    return f"SELECT ({', '.join(declared.members)})" if isinstance(declared, Select) else declared


def express_expression(expression):
    if isinstance(expression, str):
        return expression
    word, *parts = expression
    written = [express_expression(it) for it in parts]
    return f"ONEOF ({', '.join(written)})" if word == "ONEOF" else f"({f' {word} '.join(written)})"


def express_entity(schema, name, entity):
    lines = [f"ENTITY {name}"]
    if entity.expression or entity.is_abstract:
        of = f" OF ({express_expression(entity.expression)})" if entity.expression else ""
        lines.append(("ABSTRACT " if entity.is_abstract else "") + "SUPERTYPE" + of)
    if entity.supertypes:
        lines.append(f"SUBTYPE OF ({', '.join(entity.supertypes)})")
    lines = [" ".join(lines) + ";"]
    for attribute, declared in entity.attributes.items():
        lines.append(f"{attribute} : {'OPTIONAL ' if attribute in entity.optional else ''}{express_type(declared)};")
    lines += [f"SELF\\{above}.{attribute} : {express_type(it)};" for (above, attribute), it in entity.redeclared.items()]
    if entity.derived:
        lines.append("DERIVE")
    for (above, attribute), expression in entity.derived.items():
        lines.append(f"SELF\\{above}.{attribute} : {express_type(schema.entities[above].attributes[attribute])} := {expression};")
    return "\n  ".join(lines) + "\nEND_ENTITY;\n"


def express(schema):
    """The text of a schema."""
    types = [f"TYPE {name} = {express_type(it)}; END_TYPE;\n" for name, it in schema.types.items()]
    entities = [express_entity(schema, *it) for it in schema.entities.items()]
    return f"SCHEMA {schema.name};\n{''.join(types + entities)}END_SCHEMA;\n"


# ---- what a schema says of types

def line_of(schema, entity):
    """An entity behind its supertypes, in the order in which their attributes are written: each once, at its first place."""
    found = []
    for above in schema.entities[entity].supertypes:
        found += [it for it in line_of(schema, above) if it not in found]
    return found + [entity]


def subtypes_in(schema, entity, types):
    return {it for it in types if entity in schema.entities[it].supertypes}


def named_in(expression):
    """The entities that a supertype expression names."""
    return {expression} if isinstance(expression, str) else set().union(*map(named_in, expression[1:]))


def combinations(expression):
    """The sets of entities that a supertype expression allows."""
    if isinstance(expression, str):
        return [{expression}]
    word, *parts = expression
    found = combinations(parts[0])
    for part in map(combinations, parts[1:]):
        both = [left | right for left in found for right in part]
        found = {"ONEOF": found + part, "AND": both, "ANDOR": found + part + both}[word]
    return found


def is_connected(schema, types):
    reached, left = set(), [next(iter(types))]
    while left:
        entity = left.pop()
        if entity not in reached:
            reached.add(entity)
            left += subtypes_in(schema, entity, types) | (types & set(schema.entities[entity].supertypes))
    return reached == types


def agrees(schema, entity, types):
    """Whether the subtypes of an entity that are among the types are such as it may have at once."""
    above = schema.entities[entity]
    below = subtypes_in(schema, entity, types)
    named = below & named_in(above.expression) if above.expression else set()
    return bool(below or not above.is_abstract) and (not named or named in combinations(above.expression))


def is_legal(schema, types):
    """Whether an instance may have exactly these types."""
    is_closed = all(set(schema.entities[it].supertypes) <= types for it in types)
    return is_closed and is_connected(schema, types) and all(agrees(schema, it, types) for it in types)


def leaves(schema, types):
    return sorted(it for it in types if not subtypes_in(schema, it, types))


def type_text(schema, types):
    """How the types of an instance are told."""
    found = leaves(schema, types)
    return found[0].upper() if len(found) == 1 else "+".join(sorted(it.upper() for it in types))


def target(schema, declared):
    """The names that a keyword may have for a type, from the declared one down, and what they mean in the end. What names a
    SELECT has its own name alone."""
    names = []
    while isinstance(declared, str) and declared in schema.types:
        names.append(declared)
        declared = schema.types[declared]
    return (names[:1] if isinstance(declared, Select) else names), declared


def members(schema, select):
    """The members of a SELECT with those of the SELECTs among them in their place, each once."""
    found = []
    for member in select.members:
        _, end = target(schema, member)
        new = members(schema, end) if isinstance(end, Select) else [member]
        found += [it for it in new if it not in found]
    return found


# ---- what a type takes of a value

class Wrong(Exception):
    """A type doesn't take a value."""


def takes_reference(schema, base):
    among = members(schema, base) if isinstance(base, Select) else [base]
    return any(isinstance(it, str) and it in schema.entities for it in among)


def taken_by(schema, declared, value):
    return taken(schema, *target(schema, declared), value)


def only_member(schema, select, value):
    """A value without a keyword in a SELECT: one member alone may take it."""
    found = []
    for member in members(schema, select):
        if member in schema.types:
            try:
                found.append(Typed(member, taken_by(schema, member, value)))
            except Wrong:
                pass
    if len(found) != 1:
        raise Wrong
    return found[0]


def taken_typed(schema, names, base, value):
    if names and value.keyword == names[0]:
        return taken(schema, names[1:], base, value.value)
    if isinstance(base, Select) and value.keyword in members(schema, base) and value.keyword in schema.types:
        own, end = target(schema, value.keyword)
        return Typed(value.keyword, taken(schema, own[1:], end, value.value))
    raise Wrong


def taken_simple(base, value):
    is_number = isinstance(value, (int, Real))
    fits = {
        "INTEGER": isinstance(value, int), "REAL": is_number, "NUMBER": is_number, "STRING": isinstance(value, str),
        "BINARY": isinstance(value, Bits), "BOOLEAN": value in (Item("T"), Item("F")),
        "LOGICAL": value in (Item("T"), Item("F"), Item("U")),
    }
    if not fits[base]:
        raise Wrong
    return real(value) if base == "REAL" and isinstance(value, int) else value


def taken(schema, names, base, value):
    """What a type takes of a value; an integer for a real becomes one, and a SELECT's value its keyword."""
    if isinstance(value, Mark):
        raise Wrong
    if isinstance(value, Typed):
        return taken_typed(schema, names, base, value)
    if isinstance(value, Reference):
        if not takes_reference(schema, base):
            raise Wrong
        return value
    if isinstance(base, Select):
        return only_member(schema, base, value)
    if isinstance(base, Aggregate):
        if not isinstance(value, list):
            raise Wrong
        return [it if it is UNSET else taken_by(schema, base.element, it) for it in value]
    if isinstance(base, Enumeration):
        if not isinstance(value, Item) or value.word.lower() not in base.items:
            raise Wrong
        return value
    if base in schema.entities:
        raise Wrong
    return taken_simple(base, value)


# ---- what a file says

class Instance(NamedTuple):
    """An instance of a file: its name, and its keywords as they are spelled, each with its values. `is_whole` where one
    keyword has the values of its supertypes too."""

    name: int
    parts: list
    is_whole: bool = True


class Bound(NamedTuple):
    """An instance by its schema: its name, its types, and its values by the entity and the name of their attribute."""

    name: int
    types: set
    values: dict


class InstanceFault(Exception):
    """The first faulty instance of a file, and its first fault."""

    def __init__(self, name, kind):
        super().__init__(name, kind)
        self.name, self.kind = name, kind


def derived_in(schema, types):
    """The attributes that a type of an instance redeclares in DERIVE."""
    found = set()
    for entity in types:
        for above, attribute in schema.entities[entity].derived:
            found |= {(it, attribute) for it in line_of(schema, above) if attribute in schema.entities[it].attributes}
    return found


def places_of(schema, entities):
    return [(entity, attribute) for entity in entities for attribute in schema.entities[entity].attributes]


def value_at(schema, place, is_derived, value, names):
    """What a place takes of a value. Wrong with the kind of the first fault."""
    if is_derived and isinstance(value, Mark):
        return DERIVED
    if DERIVED in within(value):
        raise Wrong("NotDerived")
    if is_derived:
        raise Wrong("WrongKind")
    entity, attribute = place
    try:
        found = value if value is UNSET else taken_by(schema, schema.entities[entity].attributes[attribute], value)
    except Wrong:
        raise Wrong("WrongKind") from None
    if any(isinstance(it, Reference) and it.name not in names for it in within(value)):
        raise Wrong("Undefined")
    return found


def bound_instance(schema, instance, names, before):
    name, parts, is_whole = instance
    keywords = [keyword.lower() for keyword, _ in parts]
    if name in before or len(set(keywords)) < len(keywords):
        raise InstanceFault(name, "Twice")
    if not set(keywords) <= set(schema.entities):
        raise InstanceFault(name, "UnknownEntity")
    written = [line_of(schema, keywords[0])] if is_whole else [[it] for it in keywords]
    types = set().union(*written)
    if not is_legal(schema, types):
        raise InstanceFault(name, "IllegalCombination")
    places = [places_of(schema, it) for it in written]
    if any(len(its) != len(values) for its, (_, values) in zip(places, parts)):
        raise InstanceFault(name, "WrongCount")
    derived, found = derived_in(schema, types), {}
    for its, (_, values) in zip(places, parts):
        for place, value in zip(its, values):
            try:
                found[place] = value_at(schema, place, place in derived, value, names)
            except Wrong as fault:
                raise InstanceFault(name, str(fault)) from None
    return Bound(name, types, found)


def references_of(instance):
    """The references of a bound instance, at any depth."""
    return [it for value in instance.values.values() for it in within(value) if isinstance(it, Reference)]


def bound(schema, instances, linked=frozenset()):
    """The instances of a file by a schema, in order of name, where these names are linked. InstanceFault where one is faulty."""
    names, before, found = {it.name for it in instances} | linked, set(), []
    for instance in instances:
        found.append(bound_instance(schema, instance, names, before))
        before.add(instance.name)
    return sorted(found, key=lambda it: it.name)


# ---- canonical text

def spelled_run(run):
    """Characters that don't stand as they are."""
    width = 8 if any(ord(it) > 0xFFFF for it in run) else 4
    return f"\\X{width // 2}\\" + "".join(f"{ord(it):0{width}X}" for it in run) + "\\X0\\"


def spelled_string(text):
    plain = re.sub(r"([^ -~]+)|(['\\])", lambda it: spelled_run(it[1]) if it[1] else it[2] * 2, text)
    return f"'{plain}'"


def spelled_bits(bits):
    unused = -len(bits) % 4
    whole = "0" * unused + bits
    return f'"{unused}{"".join(f"{int(whole[at:at + 4], 2):X}" for at in range(0, len(whole), 4))}"'


def spelled_real(number):
    return f"{number.digits}." + (f"E{number.exponent}" if number.exponent else "")


def spelled_typed(typed):
    return f"{typed.keyword.upper()}({spelled(typed.value)})"


SPELLED = {
    Mark: lambda it: it.value, int: str, Real: spelled_real, str: spelled_string, Bits: lambda it: spelled_bits(it.text),
    Item: lambda it: f".{it.word}.", Reference: lambda it: f"#{it.name}", Typed: spelled_typed,
    list: lambda it: spelled_list(it),
}


def spelled_list(values):
    return f"({','.join(map(spelled, values))})"


def spelled(value):
    return SPELLED[type(value)](value)


def instance_text(schema, instance):
    """An instance in the one way: by its leaf, where it has one alone, else with each of its types."""
    def part(keyword, entities):
        return keyword.upper() + spelled_list([instance.values[it] for it in places_of(schema, entities)])

    ends = leaves(schema, instance.types)
    if len(ends) == 1:
        return f"#{instance.name}={part(ends[0], line_of(schema, ends[0]))};"
    return f"#{instance.name}=({''.join(part(it, [it]) for it in sorted(instance.types, key=str.upper))});"


class Header(NamedTuple):
    """The values of FILE_DESCRIPTION and of FILE_NAME."""

    description: list
    name: list


DEFAULT_HEADER = Header([[""], "2;1"], ["", "", [""], [""], "", "", ""])


def canonical_text(schema, header, instances):
    """The exchange file of a model."""
    lines = [
        "ISO-10303-21;", "HEADER;", f"FILE_DESCRIPTION{spelled_list(header.description)};", f"FILE_NAME{spelled_list(header.name)};",
        f"FILE_SCHEMA(({spelled_string(schema.name.upper())}));", "ENDSEC;", "DATA;",
        *(instance_text(schema, it) for it in instances), "ENDSEC;", "END-ISO-10303-21;",
    ]
    return "".join(it + "\n" for it in lines)
