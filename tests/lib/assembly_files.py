"""The two models of example/assembly as one population: their files, by tables of the schema's entities that were written by hand.

It reads what these files use and no more, and raises where they come to use more. It shares nothing with the program, nor with
plain_model.py, plain_files.py and plain_binding.py, since what is counted over it has to stand by itself.
"""
import json
import os
import re
import shlex
from decimal import Decimal
from typing import NamedTuple

# the value UNKNOWN of a LOGICAL; None is an unset value
UNKNOWN = "the logical value UNKNOWN"
# what a reference denotes that leaves the population
OUTSIDE = "outside of the population"


class Item(str):
    """An item of an enumeration."""


class Bits(str):
    """A binary, as its digits 0 and 1."""


class Reference(int):
    """A name of an instance, as a file writes it."""


class Written(NamedTuple):
    """A value in a SELECT, with the defined type that it is written under."""

    type: str
    value: object


# ---- shapes of values: what the first three checks ask of them

class Plain(NamedTuple):
    """A number, a truth value or an item, of which these checks ask nothing but that it is set."""


class Width(NamedTuple):
    """A string or a binary of at most so many characters or bits, or of exactly so many."""

    most: int
    fixed: bool = False


class To(NamedTuple):
    """A reference to an instance of one of these entities."""

    entities: tuple


class Many(NamedTuple):
    """An aggregate: how many elements it has, of what shape, whether they may be left out, and whether each stands once."""

    least: int
    most: object
    element: object
    optional: bool = False
    once: bool = False


class Choice(NamedTuple):
    """A value of a SELECT: an instance of one of the entities, or what is written under one of the types."""

    entities: tuple = ()
    types: dict = {}


class Maybe(NamedTuple):
    """An OPTIONAL attribute."""

    shape: object


PLAIN, WIDE, IDENTIFIER = Plain(), Width(10 ** 9), Width(40)
DIMENSIONS = Many(2, 2, PLAIN)
MEASURE = Choice((), {it: PLAIN for it in ["LENGTH_MEASURE", "POSITIVE_LENGTH_MEASURE", "PLANE_ANGLE_MEASURE", "MASS_MEASURE", "VOLUME_MEASURE",
                                           "RATIO_MEASURE", "COUNT_MEASURE", "DESCRIPTIVE_MEASURE"]})
UNIT = Choice(("NAMED_UNIT", "DERIVED_UNIT"))
CHARACTERIZED_PRODUCT = Choice(("PRODUCT_DEFINITION", "PRODUCT_DEFINITION_RELATIONSHIP"))
SHAPE_DEFINITION = Choice(("PRODUCT_DEFINITION", "PRODUCT_DEFINITION_RELATIONSHIP", "SHAPE_ASPECT"))
CHARACTERIZED_DEFINITION = Choice(("PRODUCT_DEFINITION", "PRODUCT_DEFINITION_RELATIONSHIP", "SHAPE_ASPECT", "DOCUMENT"))
MANAGED = Choice(("PRODUCT", "PRODUCT_VERSION", "PRODUCT_DEFINITION"))
APPROVED = Choice(("PRODUCT", "PRODUCT_VERSION", "PRODUCT_DEFINITION", "DOCUMENT"))
PROPERTY = Choice(("MEASURE_WITH_UNIT", "MATERIAL"), {"TEXT": PLAIN, "FLAG": PLAIN, "SURFACE_STATE": PLAIN})


def to(*entities):
    return To(entities)


def bag(least, element, most=None):
    """A LIST or BAG, of which elements may be equal."""
    return Many(least, most, element)


def each_once(least, element, most=None):
    """A SET, or a LIST OF UNIQUE."""
    return Many(least, most, element, once=True)


# ---- the entities

# Each line has the types of an instance of its last one, in the order in which a file writes their attributes: those of the
# supertypes first, depth first, each once.
TYPES = {line.split()[-1]: line.split() for line in """
APPLICATION_CONTEXT
APPLICATION_PROTOCOL
APPLICATION_CONTEXT_ELEMENT
APPLICATION_CONTEXT_ELEMENT PRODUCT_CONTEXT
APPLICATION_CONTEXT_ELEMENT PRODUCT_DEFINITION_CONTEXT
PRODUCT_CATEGORY
PRODUCT_CATEGORY PRODUCT_RELATED_CATEGORY
PRODUCT
PRODUCT_VERSION
PRODUCT_VERSION PRODUCT_VERSION_WITH_SOURCE
PRODUCT_DEFINITION
PRODUCT_DEFINITION KIT
PRODUCT_DEFINITION KIT SPARE_KIT
PRODUCT_DEFINITION_RELATIONSHIP
PRODUCT_DEFINITION_RELATIONSHIP ASSEMBLY_USAGE
PRODUCT_DEFINITION_RELATIONSHIP ASSEMBLY_USAGE NEXT_ASSEMBLY_USAGE
PRODUCT_DEFINITION_RELATIONSHIP ASSEMBLY_USAGE PROMISSORY_USAGE
PRODUCT_DEFINITION_RELATIONSHIP ASSEMBLY_USAGE QUANTIFIED_USAGE
PERSON
ORGANIZATION
ADDRESS
ADDRESS ORGANIZATIONAL_ADDRESS
PERSON_AND_ORGANIZATION
PERSON_AND_ORGANIZATION_ASSIGNMENT
CALENDAR_DATE
TIME_OFFSET
DATE_AND_TIME
APPROVAL
APPROVAL_SIGNATURE
APPROVAL_ASSIGNMENT
DOCUMENT
DOCUMENT DOCUMENT_FILE
DOCUMENT_ASSIGNMENT
NAMED_UNIT
NAMED_UNIT SI_UNIT
NAMED_UNIT CONVERSION_BASED_UNIT
NAMED_UNIT CONTEXT_DEPENDENT_UNIT
NAMED_UNIT LENGTH_UNIT
NAMED_UNIT MASS_UNIT
NAMED_UNIT PLANE_ANGLE_UNIT
NAMED_UNIT RATIO_UNIT
DERIVED_UNIT
DERIVED_UNIT_ELEMENT
MEASURE_WITH_UNIT
MEASURE_WITH_UNIT UNCERTAINTY_MEASURE
REPRESENTATION_CONTEXT
REPRESENTATION_CONTEXT GEOMETRIC_CONTEXT
REPRESENTATION_CONTEXT UNIT_CONTEXT
REPRESENTATION_CONTEXT UNCERTAINTY_CONTEXT
REPRESENTATION
REPRESENTATION SHAPE_REPRESENTATION
REPRESENTATION SHAPE_REPRESENTATION BREP_REPRESENTATION
REPRESENTATION MEASURE_REPRESENTATION
REPRESENTATION_RELATIONSHIP
REPRESENTATION_RELATIONSHIP SHAPE_REPRESENTATION_RELATIONSHIP
REPRESENTATION_RELATIONSHIP TRANSFORMED_RELATIONSHIP
ITEM_DEFINED_TRANSFORMATION
PROPERTY_DEFINITION
PROPERTY_DEFINITION PRODUCT_DEFINITION_SHAPE
PROPERTY_DEFINITION_REPRESENTATION
PROPERTY_DEFINITION_REPRESENTATION SHAPE_DEFINITION_REPRESENTATION
PLACED_COMPONENT
SIMPLE_PROPERTY
MATERIAL
SHAPE_ASPECT
SHAPE_ASPECT HOLE
SHAPE_ASPECT HOLE_PATTERN
REPRESENTATION_ITEM
REPRESENTATION_ITEM MEASURE_WITH_UNIT MEASURE_ITEM
REPRESENTATION_ITEM GEOMETRIC_ITEM
REPRESENTATION_ITEM TOPOLOGICAL_ITEM
REPRESENTATION_ITEM GEOMETRIC_ITEM CARTESIAN_POINT
REPRESENTATION_ITEM GEOMETRIC_ITEM DIRECTION
REPRESENTATION_ITEM GEOMETRIC_ITEM VECTOR
REPRESENTATION_ITEM GEOMETRIC_ITEM PLACEMENT
REPRESENTATION_ITEM GEOMETRIC_ITEM CURVE
REPRESENTATION_ITEM GEOMETRIC_ITEM CURVE LINE
REPRESENTATION_ITEM GEOMETRIC_ITEM CURVE CIRCLE
REPRESENTATION_ITEM GEOMETRIC_ITEM SURFACE
REPRESENTATION_ITEM GEOMETRIC_ITEM SURFACE PLANE
REPRESENTATION_ITEM GEOMETRIC_ITEM SURFACE CYLINDRICAL_SURFACE
REPRESENTATION_ITEM GEOMETRIC_ITEM SOLID_BREP
REPRESENTATION_ITEM TOPOLOGICAL_ITEM VERTEX
REPRESENTATION_ITEM TOPOLOGICAL_ITEM VERTEX GEOMETRIC_ITEM VERTEX_POINT
REPRESENTATION_ITEM TOPOLOGICAL_ITEM EDGE
REPRESENTATION_ITEM TOPOLOGICAL_ITEM EDGE GEOMETRIC_ITEM EDGE_CURVE
REPRESENTATION_ITEM TOPOLOGICAL_ITEM EDGE ORIENTED_EDGE
REPRESENTATION_ITEM TOPOLOGICAL_ITEM EDGE_LOOP
REPRESENTATION_ITEM TOPOLOGICAL_ITEM FACE_BOUND
REPRESENTATION_ITEM TOPOLOGICAL_ITEM FACE_BOUND FACE_OUTER_BOUND
REPRESENTATION_ITEM TOPOLOGICAL_ITEM FACE
REPRESENTATION_ITEM TOPOLOGICAL_ITEM FACE GEOMETRIC_ITEM FACE_SURFACE
REPRESENTATION_ITEM TOPOLOGICAL_ITEM CONNECTED_FACE_SET
REPRESENTATION_ITEM TOPOLOGICAL_ITEM CONNECTED_FACE_SET OPEN_SHELL
REPRESENTATION_ITEM TOPOLOGICAL_ITEM CONNECTED_FACE_SET CLOSED_SHELL
""".split("\n") if line}

# The explicit attributes that each entity declares itself; one that isn't here declares none.
ATTRIBUTES = {
    "APPLICATION_CONTEXT": {"APPLICATION": WIDE},
    "APPLICATION_PROTOCOL": {"STATUS": WIDE, "SCHEMA_NAME": WIDE, "YEAR": PLAIN, "APPLICATION": to("APPLICATION_CONTEXT")},
    "APPLICATION_CONTEXT_ELEMENT": {"NAME": WIDE, "FRAME_OF_REFERENCE": to("APPLICATION_CONTEXT")},
    "PRODUCT_CONTEXT": {"DISCIPLINE": WIDE},
    "PRODUCT_DEFINITION_CONTEXT": {"LIFE_CYCLE_STAGE": WIDE},
    "PRODUCT_CATEGORY": {"NAME": WIDE, "DESCRIPTION": Maybe(WIDE), "PARENT": Maybe(to("PRODUCT_CATEGORY"))},
    "PRODUCT_RELATED_CATEGORY": {"PRODUCTS": each_once(1, to("PRODUCT"))},
    "PRODUCT": {"ID": IDENTIFIER, "NAME": WIDE, "DESCRIPTION": Maybe(WIDE), "FRAME_OF_REFERENCE": each_once(1, to("PRODUCT_CONTEXT"))},
    "PRODUCT_VERSION": {"ID": IDENTIFIER, "DESCRIPTION": Maybe(WIDE), "OF_PRODUCT": to("PRODUCT"), "PREDECESSOR": Maybe(to("PRODUCT_VERSION"))},
    "PRODUCT_VERSION_WITH_SOURCE": {"MAKE_OR_BUY": PLAIN, "SUPPLIER": Maybe(to("ORGANIZATION"))},
    "PRODUCT_DEFINITION": {"ID": IDENTIFIER, "DESCRIPTION": Maybe(WIDE), "VERSION": to("PRODUCT_VERSION"),
                           "FRAME_OF_REFERENCE": to("PRODUCT_DEFINITION_CONTEXT")},
    "KIT": {"CONTENTS": bag(1, to("PRODUCT_DEFINITION"))},
    "SPARE_KIT": {"SPARES_OF": to("KIT")},
    "PRODUCT_DEFINITION_RELATIONSHIP": {"ID": IDENTIFIER, "NAME": WIDE, "DESCRIPTION": Maybe(WIDE),
                                        "RELATING_DEFINITION": to("PRODUCT_DEFINITION"), "RELATED_DEFINITION": to("PRODUCT_DEFINITION")},
    "ASSEMBLY_USAGE": {"DESIGNATOR": Maybe(IDENTIFIER)},
    "QUANTIFIED_USAGE": {"QUANTITY": to("MEASURE_WITH_UNIT")},
    "PERSON": {"ID": IDENTIFIER, "LAST_NAME": Maybe(WIDE), "FIRST_NAME": Maybe(WIDE)},
    "ORGANIZATION": {"ID": IDENTIFIER, "NAME": WIDE, "DESCRIPTION": Maybe(WIDE)},
    "ADDRESS": {"LINES": Many(4, 4, WIDE, optional=True), "COUNTRY": Maybe(Width(2, True)), "MAIL": Maybe(WIDE)},
    "ORGANIZATIONAL_ADDRESS": {"ORGANIZATIONS": each_once(1, to("ORGANIZATION"))},
    "PERSON_AND_ORGANIZATION": {"THE_PERSON": to("PERSON"), "THE_ORGANIZATION": to("ORGANIZATION")},
    "PERSON_AND_ORGANIZATION_ASSIGNMENT": {"ASSIGNED": to("PERSON_AND_ORGANIZATION"), "ROLE": WIDE, "ITEMS": each_once(1, MANAGED)},
    "CALENDAR_DATE": {"YEAR_COMPONENT": PLAIN, "MONTH_COMPONENT": PLAIN, "DAY_COMPONENT": PLAIN},
    "TIME_OFFSET": {"HOUR_OFFSET": PLAIN, "MINUTE_OFFSET": Maybe(PLAIN), "SENSE": PLAIN},
    "DATE_AND_TIME": {"DATE_COMPONENT": to("CALENDAR_DATE"), "HOUR": PLAIN, "MINUTE": Maybe(PLAIN), "SECOND": Maybe(PLAIN),
                      "ZONE": to("TIME_OFFSET")},
    "APPROVAL": {"STATE": PLAIN, "LEVEL": WIDE, "REQUIRED_ROLES": each_once(1, WIDE), "FURTHER_ROLES": each_once(0, WIDE)},
    "APPROVAL_SIGNATURE": {"SIGNER": to("PERSON_AND_ORGANIZATION"), "ROLE": WIDE, "SIGNED": to("APPROVAL"), "SIGNED_ON": Maybe(to("DATE_AND_TIME"))},
    "APPROVAL_ASSIGNMENT": {"ASSIGNED": to("APPROVAL"), "ITEMS": each_once(1, APPROVED)},
    "DOCUMENT": {"ID": IDENTIFIER, "NAME": WIDE, "KIND": PLAIN},
    "DOCUMENT_FILE": {"FILE_NAME": WIDE, "SUM": Width(32, True), "PREVIEW": Maybe(Width(8000))},
    "DOCUMENT_ASSIGNMENT": {"ASSIGNED": to("DOCUMENT"), "ITEMS": each_once(1, MANAGED)},
    "NAMED_UNIT": {"DIMENSIONS": DIMENSIONS},
    "SI_UNIT": {"PREFIX": Maybe(PLAIN), "NAME": PLAIN},
    "CONVERSION_BASED_UNIT": {"NAME": WIDE, "FACTOR": to("MEASURE_WITH_UNIT")},
    "CONTEXT_DEPENDENT_UNIT": {"NAME": WIDE},
    "DERIVED_UNIT": {"ELEMENTS": each_once(1, to("DERIVED_UNIT_ELEMENT"))},
    "DERIVED_UNIT_ELEMENT": {"BASE": to("NAMED_UNIT"), "EXPONENT": PLAIN},
    "MEASURE_WITH_UNIT": {"VALUE_COMPONENT": MEASURE, "UNIT_COMPONENT": UNIT},
    "UNCERTAINTY_MEASURE": {"NAME": WIDE},
    "REPRESENTATION_CONTEXT": {"CONTEXT_IDENTIFIER": WIDE, "CONTEXT_TYPE": WIDE},
    "GEOMETRIC_CONTEXT": {"DIMENSION": PLAIN},
    "UNIT_CONTEXT": {"UNITS": each_once(1, UNIT)},
    "UNCERTAINTY_CONTEXT": {"UNCERTAINTY": each_once(1, to("UNCERTAINTY_MEASURE"))},
    "REPRESENTATION": {"NAME": WIDE, "ITEMS": each_once(1, to("REPRESENTATION_ITEM")), "CONTEXT_OF_ITEMS": to("REPRESENTATION_CONTEXT")},
    "REPRESENTATION_RELATIONSHIP": {"NAME": WIDE, "REP_1": to("REPRESENTATION"), "REP_2": to("REPRESENTATION")},
    "TRANSFORMED_RELATIONSHIP": {"TRANSFORMATION": to("ITEM_DEFINED_TRANSFORMATION")},
    "ITEM_DEFINED_TRANSFORMATION": {"NAME": WIDE, "TRANSFORM_ITEM_1": to("REPRESENTATION_ITEM"), "TRANSFORM_ITEM_2": to("REPRESENTATION_ITEM")},
    "PROPERTY_DEFINITION": {"NAME": WIDE, "DESCRIPTION": Maybe(WIDE), "DEFINITION": CHARACTERIZED_DEFINITION},
    "PROPERTY_DEFINITION_REPRESENTATION": {"DEFINITION": to("PROPERTY_DEFINITION"), "USED_REPRESENTATION": to("REPRESENTATION")},
    "PLACED_COMPONENT": {"RELATION": to("SHAPE_REPRESENTATION_RELATIONSHIP"), "PLACED": to("PRODUCT_DEFINITION_SHAPE")},
    "SIMPLE_PROPERTY": {"NAME": WIDE, "CONTENT": PROPERTY, "HOLDER": CHARACTERIZED_PRODUCT},
    "MATERIAL": {"ID": IDENTIFIER, "NAME": WIDE, "DENSITY": Maybe(PLAIN)},
    "SHAPE_ASPECT": {"NAME": WIDE, "OF_SHAPE": to("PRODUCT_DEFINITION_SHAPE"), "ON_BOUNDARY": PLAIN},
    "HOLE": {"DIAMETER": PLAIN, "CALLOUT": Maybe(WIDE)},
    "HOLE_PATTERN": {"HOLES": each_once(2, to("HOLE")), "MIRRORED": PLAIN},
    "REPRESENTATION_ITEM": {"NAME": WIDE},
    "CARTESIAN_POINT": {"COORDINATES": bag(2, PLAIN, 3)},
    "DIRECTION": {"RATIOS": bag(2, PLAIN, 3)},
    "VECTOR": {"ORIENTATION": to("DIRECTION"), "MAGNITUDE": PLAIN},
    "PLACEMENT": {"LOCATION": to("CARTESIAN_POINT"), "AXIS": Maybe(to("DIRECTION")), "REF_DIRECTION": Maybe(to("DIRECTION"))},
    "LINE": {"THROUGH": to("CARTESIAN_POINT"), "ALONG": to("VECTOR")},
    "CIRCLE": {"POSITION": to("PLACEMENT"), "RADIUS": PLAIN},
    "SURFACE": {"POSITION": to("PLACEMENT")},
    "CYLINDRICAL_SURFACE": {"RADIUS": PLAIN},
    "SOLID_BREP": {"OUTER": to("CLOSED_SHELL")},
    "VERTEX_POINT": {"GEOMETRY": to("CARTESIAN_POINT")},
    "EDGE": {"EDGE_START": to("VERTEX"), "EDGE_END": to("VERTEX")},
    "EDGE_CURVE": {"GEOMETRY": to("CURVE"), "SAME_SENSE": PLAIN},
    "ORIENTED_EDGE": {"ELEMENT": to("EDGE"), "ORIENTATION": PLAIN},
    "EDGE_LOOP": {"EDGES": each_once(1, to("ORIENTED_EDGE"))},
    "FACE_BOUND": {"BOUND": to("EDGE_LOOP"), "ORIENTATION": PLAIN},
    "FACE": {"BOUNDS": each_once(1, to("FACE_BOUND"))},
    "FACE_SURFACE": {"GEOMETRY": to("SURFACE"), "SAME_SENSE": PLAIN},
    "CONNECTED_FACE_SET": {"FACES": each_once(1, to("FACE"))},
}

# Attributes that a subtype redeclares: in DERIVE, where a file has `*`, or with a narrower type.
DERIVED = {"NAMED_UNIT.DIMENSIONS": "SI_UNIT", "EDGE.EDGE_START": "ORIENTED_EDGE", "EDGE.EDGE_END": "ORIENTED_EDGE"}
NARROWER = {
    "REPRESENTATION_RELATIONSHIP.REP_1": ("SHAPE_REPRESENTATION_RELATIONSHIP", to("SHAPE_REPRESENTATION")),
    "REPRESENTATION_RELATIONSHIP.REP_2": ("SHAPE_REPRESENTATION_RELATIONSHIP", to("SHAPE_REPRESENTATION")),
    "PROPERTY_DEFINITION.DEFINITION": ("PRODUCT_DEFINITION_SHAPE", SHAPE_DEFINITION),
    "PROPERTY_DEFINITION_REPRESENTATION.DEFINITION": ("SHAPE_DEFINITION_REPRESENTATION", to("PRODUCT_DEFINITION_SHAPE")),
    "PROPERTY_DEFINITION_REPRESENTATION.USED_REPRESENTATION": ("SHAPE_DEFINITION_REPRESENTATION", to("SHAPE_REPRESENTATION")),
}


# ---- reading a file

TOKEN = re.compile(r"""\s+|(?P<comment>/\*.*?\*/)|(?P<string>'(?:[^']|'')*')|"(?P<binary>0[0-9A-F]*)"|\#(?P<name>\d+)
    |(?P<real>[+-]?\d+\.\d*(?:E[+-]?\d+)?)|(?P<integer>[+-]?\d+)|\.(?P<item>[A-Z_]+)\.|(?P<word>[A-Z][A-Z0-9_-]*)
    |(?P<sign>[(),=;$*])""", re.S | re.X)
LOGICAL = {"T": True, "F": False, "U": UNKNOWN}


def text_of(string):
    r"""The characters of a string: line ends fall away, and `\X\` and `\X2\` are the escapes that these files have."""
    plain = re.sub(r"[\r\n]", "", string[1:-1]).replace("''", "'")
    plain = re.sub(r"\\X2\\((?:[0-9A-F]{4})+)\\X0\\", lambda it: bytes.fromhex(it[1]).decode("utf-16-be"), plain)
    plain = re.sub(r"\\X\\([0-9A-F]{2})", lambda it: chr(int(it[1], 16)), plain)
    if "\\" in plain:
        raise ValueError(f"an escape that isn't read here: {string}")
    return plain


def tokens_of(text):
    """The tokens of a file: a word or a sign as itself with its kind, and each value as what it is."""
    at = 0
    while at < len(text):
        found = TOKEN.match(text, at)
        if not found:
            raise ValueError(f"no token that is read here: {text[at:at + 20]!r}")
        at, kind = found.end(), found.lastgroup
        if kind not in (None, "comment"):
            yield kind, found[kind]


def one_value(kind, token):
    """The value that a token is by itself."""
    makers = {"string": text_of, "name": Reference, "real": Decimal, "integer": int, "item": lambda it: LOGICAL.get(it, Item(it)),
              "binary": lambda it: Bits("".join(f"{int(digit, 16):04b}" for digit in it[1:]))}
    return makers[kind](token)


class File:
    """The instances of a file's data section: for each name a list of keywords with their values."""

    def __init__(self, path):
        with open(path, encoding="utf-8") as it:
            self.tokens = list(tokens_of(it.read()))
        self.at = self.tokens.index(("word", "DATA")) + 1
        self.take(";")
        self.instances = {}
        while self.tokens[self.at] != ("word", "ENDSEC"):
            name = int(self.tokens[self.at][1])
            self.at += 1
            self.take("=")
            if name in self.instances:
                raise ValueError(f"#{name} stands twice in {path}")
            self.instances[name] = self.mapping()
            self.take(";")

    def take(self, sign):
        if self.tokens[self.at] != ("sign", sign):
            raise ValueError(f"{sign} is due, and not {self.tokens[self.at]}")
        self.at += 1

    def stands(self, sign):
        return self.tokens[self.at] == ("sign", sign)

    def mapping(self):
        """`KEYWORD(..)`, or `(A(..)B(..))`."""
        if not self.stands("("):
            return [self.part()]
        self.take("(")
        parts = [self.part()]
        while not self.stands(")"):
            parts.append(self.part())
        self.take(")")
        return parts

    def part(self):
        kind, keyword = self.tokens[self.at]
        if kind != "word":
            raise ValueError(f"a keyword is due, and not {keyword}")
        self.at += 1
        return keyword, self.values()

    def values(self):
        """A list of values in parentheses."""
        self.take("(")
        values = []
        while not self.stands(")"):
            if values:
                self.take(",")
            values.append(self.value())
        self.take(")")
        return values

    def value(self):
        if self.stands("("):
            return self.values()
        kind, token = self.tokens[self.at]
        if kind == "word":
            keyword, values = self.part()
            return Written(keyword, *values)
        self.at += 1
        if kind == "sign":
            return {"$": None, "*": "*"}[token]
        return one_value(kind, token)


# ---- the population

class Instance:
    """An instance with its place (owner, model, name), its types, its explicit values by `ENTITY.ATTRIBUTE`, and who uses it."""

    def __init__(self, place, parts):
        self.place = place
        if len(parts) == 1:
            self.types = TYPES[parts[0][0]]
            values = parts[0][1]
        else:
            self.types = [keyword for keyword, _ in sorted(parts)]
            values = [it for _, own in sorted(parts) for it in own]
        names = [f"{entity}.{it}" for entity in self.types for it in ATTRIBUTES.get(entity, ())]
        if len(values) != len(names) or not all(set(TYPES[it]) <= set(self.types) for it in self.types):
            raise ValueError(f"{place} isn't as its entities want it")
        self.written = dict(zip(names, values))
        for name, value in self.written.items():
            if (value == "*") != (DERIVED.get(name) in self.types):
                raise ValueError(f"`*` stands where {name} is redeclared in DERIVE, and there alone: {place}")
        self.values = {}
        self.used = []

    def __getitem__(self, name):
        value = self.values[name]
        if value is OUTSIDE or isinstance(value, list) and OUTSIDE in value:
            raise ValueError(f"no rule here says what comes of {name} of {self.place}, which leaves the population")
        return value

    def bind(self, denotes):
        """Puts instances in place of names, and tells each of them who uses it, once for each time."""
        def bound(value, name):
            if isinstance(value, list):
                return [bound(it, name) for it in value]
            if not isinstance(value, Reference):
                return value
            target = denotes(value)
            if target is not OUTSIDE:
                target.used.append((self, name))
            return target
        self.values = {name: bound(value, name) for name, value in self.written.items() if value != "*"}

    def users(self, role=None, entity=None):
        """Who uses it in an attribute, or in any, once for each time, in the order of the population."""
        return [user for user, name in self.used if role in (None, name) and (entity is None or entity in user.types)]


def requests(folder):
    """The requests of requests.txt, each as what is done and a map of its keys. Lines that begin with a blank go on the one before."""
    with open(os.path.join(folder, "requests.txt"), encoding="utf-8") as it:
        lines = re.sub(r"\n[ \t]+", " ", it.read()).split("\n")
    for line in lines:
        if line and not line.startswith("#"):
            who, do, *words = shlex.split(line)
            keys = {"as": who, "do": do}
            for word in words:
                key, value = word.split("=", 1)
                keys[key.rstrip(":")] = json.loads(value) if key.endswith(":") else value
            yield keys


def population(folder):
    """The instances of the group's models, sorted by owner, model and name. A name of the table of links denotes what it says."""
    files, links, members = {}, {}, []
    for keys in requests(folder):
        if keys["do"] == "put":
            model = keys["owner"], keys["model"]
            files[model] = File(os.path.join(folder, keys["file"].removeprefix("@"))).instances
            links[model] = {it["name"]: (it["owner"], it["model"], it["instance"]) for it in keys.get("links", [])}
        elif keys["do"] == "include":
            members.append((keys["owner"], keys["model"]))
    places = sorted((*model, name) for model in members for name in files[model])
    found = {place: Instance(place, files[place[:2]][place[2]]) for place in places}
    for place, it in found.items():
        def denotes(name, model=place[:2]):
            target = links[model].get(name, (*model, int(name)))
            if target[2] not in files[target[:2]]:
                raise ValueError(f"nothing has the name {target}")
            return found.get(target, OUTSIDE)
        it.bind(denotes)
    return list(found.values())


# ---- the checks without steps

def faults_of(value, shape):
    """What the first three checks find in a value: a list of their names. A bare instance in a SELECT is one of its entities."""
    if isinstance(shape, Maybe):
        return [] if value is None else faults_of(value, shape.shape)
    if value is None:
        return ["unset"]
    if value is OUTSIDE or isinstance(value, Instance):
        return [] if value is not OUTSIDE and set(shape.entities) & set(value.types) else ["reference"]
    if isinstance(shape, Choice):
        return faults_of(value.value, shape.types[value.type])
    if isinstance(shape, Width):
        return ["bounds"] if len(value) > shape.most or shape.fixed and len(value) != shape.most else []
    if isinstance(shape, Many):
        set_ones = [it for it in value if it is not None]
        twice = shape.once and any(one is other or one == other for at, one in enumerate(set_ones) for other in set_ones[:at])
        faults = ["bounds"] if twice or len(value) < shape.least or shape.most is not None and len(value) > shape.most else []
        element = Maybe(shape.element) if shape.optional else shape.element
        return faults + [fault for it in value for fault in faults_of(it, element)]
    return []


def shape_faults(instance):
    """For each explicit value of an instance, in their order: the attribute, and what is found in it by its declarations."""
    for name, value in instance.values.items():
        entity, attribute = name.split(".")
        found = faults_of(value, ATTRIBUTES[entity][attribute])
        narrower = NARROWER.get(name)
        if narrower and narrower[0] in instance.types:
            found += faults_of(value, narrower[1])
        yield name, found
