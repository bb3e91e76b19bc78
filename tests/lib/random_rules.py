#!/usr/bin/env python3
"""Random schemas with rules, made as trees and written as text, and random populations of them, for what is compared with the plain
reading of rules.

    tests/lib/random_rules.py [--schemas N] [--populations N] [--entities N] [--instances N] [--seed S] [--show]

evaluates N populations of each schema, and tells how often each check had each verdict, and how long the longest took. What is told
by the seed alone is a schema (`random_schema`) and a population of it (`random_population`).
"""
import argparse
import collections
import os
import random
import sys
import time

sys.path.insert(0, os.path.dirname(os.path.dirname(os.path.abspath(__file__))))

from lib import plain_binding  # noqa: E402
from lib.plain_binding import DERIVED, UNSET, Bits, Enumeration, Real, Reference, Select, Typed  # noqa: E402
from lib.plain_express import (  # noqa: E402
    INDETERMINATE, Aggregate, Algorithm, Assignment, Binary, BuiltIn, Call, Case, Compound, Constant, Defined, Entity, Escape, Explicit, Extent,
    Given, If, Initialiser, Interval, Inverse, Item, Literal, Logical, Null, OfAttribute, OfGroup, OfIndex, OfRange, OwnAttribute, Query, Repeat,
    Return, Rule, Schema, Self, Simple, Skip, Unary, Variable, read,
)
from lib.rule_texts import binding_schema, report  # noqa: E402
from lib.schema_text import schema_text  # noqa: E402

# ---- what a name's first letter says: attributes of one name have one sort of values, so that any `x.a` has it

SORTS = {"Y": "mixed", "N": "INTEGER", "S": "STRING", "Q": "LOGICAL", "R": "REAL", "B": "BINARY", "E": "entity", "L": "integers", "M": "entities",
         "C": "item", "X": "select"}
ELEMENTS = {"integers": "INTEGER", "entities": "entity"}
# functions of SHOWING that give back what is of a sort, as what they declare
DECLARED = {"INTEGER": ["AS_COUNT", "AS_SMALL"], "STRING": ["AS_LABEL"], "REAL": ["AS_REAL"], "select": ["AS_SELECT"],
            "integers": ["AS_SET", "AS_BAG", "AS_ARRAY", "AS_COUNTS"], "entities": ["AS_PARTS"]}
ACCESSES = (OfAttribute, OfGroup, OfIndex, OfRange)
Scope = collections.namedtuple("Scope", "variables entity extents", defaults=(None, ()))

# Functions that give aggregates their kinds, and one whose steps tell a value apart from most others, so that what an expression gives is
# seen in the steps of a report.
SHOWING = """SCHEMA R; TYPE colour = ENUMERATION OF (red, green, blue); END_TYPE; ENTITY entity_1; END_ENTITY;
TYPE counts = LIST OF INTEGER; END_TYPE; TYPE parts = SET OF entity_1; END_TYPE; TYPE any_one = SELECT (count); END_TYPE;
TYPE count = INTEGER; END_TYPE; TYPE small_count = count; END_TYPE; TYPE label = STRING; END_TYPE;
FUNCTION fall (n : INTEGER) : INTEGER; RETURN (n); END_FUNCTION;
FUNCTION as_set (x : SET OF INTEGER) : SET OF INTEGER; RETURN (x); END_FUNCTION;
FUNCTION as_bag (x : BAG OF INTEGER) : BAG OF INTEGER; RETURN (x); END_FUNCTION;
FUNCTION as_array (x : ARRAY [2:4] OF INTEGER) : ARRAY [2:4] OF INTEGER; RETURN (x); END_FUNCTION;
FUNCTION as_counts (x : counts) : counts; RETURN (x); END_FUNCTION;
FUNCTION as_parts (x : parts) : parts; RETURN (x); END_FUNCTION;
FUNCTION as_count (x : count) : count; RETURN (x); END_FUNCTION;
FUNCTION as_small (x : small_count) : small_count; RETURN (x); END_FUNCTION;
FUNCTION as_label (x : label) : label; RETURN (x); END_FUNCTION;
FUNCTION as_real (x : REAL) : REAL; RETURN (x); END_FUNCTION;
FUNCTION as_select (x : any_one) : any_one; RETURN (x); END_FUNCTION;
FUNCTION show (x : GENERIC) : LOGICAL;
LOCAL n : INTEGER := SIZEOF(TYPEOF(x)); END_LOCAL;
  IF NOT EXISTS(x) THEN RETURN (FALSE); END_IF;
  IF 'INTEGER' IN TYPEOF(x) THEN n := fall(ABS(x) MOD 7); END_IF;
  IF 'REAL' IN TYPEOF(x) THEN IF x < 1.0 THEN ; END_IF; END_IF;
  IF 'STRING' IN TYPEOF(x) THEN REPEAT i := 1 TO LENGTH(x); IF x[i] :=: 'a' THEN ; END_IF; END_REPEAT; END_IF;
  IF 'BINARY' IN TYPEOF(x) THEN REPEAT i := 1 TO BLENGTH(x); IF x[i] :=: %1 THEN ; END_IF; END_REPEAT; END_IF;
  IF 'LOGICAL' IN TYPEOF(x) THEN IF x THEN ; END_IF; IF NOT x THEN ; ; END_IF; END_IF;
  CASE TRUE OF x :=: colour.red : ; x :=: colour.green : BEGIN ; ; END; OTHERWISE : ; END_CASE;
  IF 'SET' IN TYPEOF(x) THEN ; END_IF; IF 'BAG' IN TYPEOF(x) THEN ; ; END_IF; IF 'ARRAY' IN TYPEOF(x) THEN ; ; ; END_IF;
  IF SIZEOF(TYPEOF(x) * ['ARRAY', 'BAG', 'LIST', 'SET']) > 0 THEN n := fall(HIINDEX(x)) + SIZEOF(QUERY(v <* x | show(v))); END_IF;
  n := SIZEOF(USEDIN(x, ''));
  RETURN (TRUE);
END_FUNCTION; END_SCHEMA;"""


def whole(number):
    return Literal(number, None)


def chain(left, operator, right):
    return Binary(left, operator, right, None)


def built_in(name, *arguments):
    return BuiltIn(name, list(arguments), None)


def attribute_of(first, name):
    return OfAttribute(first, name, None, None)


class Maker:
    """Random choices, and the schema that is made by them. A node's kinds are left out: they come when its text is read."""

    def __init__(self, seed, entities=60):
        self.random = random.Random(seed)
        self.schema = Schema("R")
        self.entities = [f"ENTITY_{place}" for place in range(1, entities + 1)]
        self.variables = 0
        # functions that may be called so far, so that none calls itself unless it is made to
        self.callable = {}

    def happens(self, probability):
        return self.random.random() < probability

    def choice(self, items):
        return self.random.choice(list(items))

    def variable(self):
        self.variables += 1
        return f"V{self.variables}"

    # -- expressions by their sorts

    def named(self, sort, scope):
        """A variable or an attribute of SELF that has this sort, or None."""
        found = [Variable(name, None) for name, of in scope.variables.items() if of == sort]
        if scope.entity:
            line = self.schema.line_of(scope.entity)
            names = {name for it in line for of in self.attributes(it) for name in of if SORTS[name[0]] == sort}
            found += [OwnAttribute(name, None, None) for name in sorted(names)]
            found += [attribute_of(OfGroup(Self(None), it, None), name) for it in line[:1]
                      for of in self.attributes(it) for name in of if SORTS[name[0]] == sort][:1]
        return self.choice(found) if found else None

    def attributes(self, entity):
        """Names of explicit, inverse and derived attributes. Those of BAGs and SETs of users are entities, too."""
        it = self.schema.entities[entity]
        return it.explicit, it.inverse, it.derived

    def of_entity(self, sort, scope, depth):
        """An attribute of this sort of another instance, or None."""
        first = self.entity(scope, depth - 1)
        near = self.likely(first, scope) if self.happens(0.8) else self.schema.entities
        names = sorted({name for it in near for of in self.attributes(it) for name in of if SORTS[name[0]] == sort})
        if not names or not isinstance(first, (Variable, Self, OwnAttribute, Call, BuiltIn, *ACCESSES)):
            return None
        name = self.choice(names)
        if self.happens(0.3):
            return attribute_of(Call("ANYTHING", [first], None), name)
        owners = [it for it in near if self.schema.declares(it, name)]
        return attribute_of(OfGroup(first, self.choice(owners), None), name)

    def likely(self, node, scope):
        """Entities that an instance likely is of: those of SELF, or of what an attribute is declared to hold, with those below."""
        if isinstance(node, Self):
            return self.schema.line_of(scope.entity)
        for it in self.schema.line_of(scope.entity) if isinstance(node, OwnAttribute) else []:
            entity = self.schema.entities[it]
            held = entity.explicit[node.name].type if node.name in entity.explicit else getattr(entity.inverse.get(node.name), "entity", None)
            if held in self.schema.entities:
                return self.schema.line_of(held) if self.happens(0.5) else self.schema.line_of(self.choice(self.below(held)))
        return self.schema.entities

    def expression(self, sort, scope, depth):
        """An expression that may be of a sort."""
        make = {"INTEGER": self.integer, "STRING": self.string, "LOGICAL": self.condition, "REAL": self.real, "BINARY": self.binary,
                "entity": self.entity, "item": self.item, "select": self.select, "mixed": self.mixed}.get(sort)
        if self.happens(0.01):
            return Literal(INDETERMINATE, None)
        found = None
        if depth > 0 and self.happens(0.2):
            found = self.of_entity(sort, scope, depth)
        elif self.happens(0.3 if depth > 0 else 0.7):
            found = self.named(sort, scope)
        functions = [name for name, (_, result) in self.callable.items() if result == sort]
        if not found and depth > 0 and functions and self.happens(0.2):
            found = self.call(self.choice(functions), scope, depth)
        if not found and depth > 0 and sort in DECLARED and self.happens(0.2):
            inner = self.choice(["INTEGER", sort]) if sort == "REAL" else sort
            found = Call(self.choice(DECLARED[sort]), [self.expression(inner, scope, depth - 1)], None)
        return found or (make(scope, depth) if make else self.aggregate(ELEMENTS[sort], scope, depth))

    def call(self, name, scope, depth):
        sorts, _ = self.callable[name]
        return Call(name, [self.expression(it, scope, depth - 1) for it in sorts], None)

    def integer(self, scope, depth):
        if depth <= 0:
            return whole(self.choice([0, 1, 1, 2, 2, 3, 5, 7]) if self.happens(0.95) else self.choice([100, 2**63 - 1]))
        part = lambda: self.expression("INTEGER", scope, depth - 1)
        return self.choice([
            lambda: chain(part(), self.choice(["+", "+", "-", "*", "DIV", "MOD", "**"]), part()), lambda: built_in("NVL", part(), part()),
            lambda: built_in("SIZEOF", self.aggregate(self.choice(["INTEGER", "entity", "STRING"]), scope, depth - 1)),
            lambda: built_in("SIZEOF", built_in("TYPEOF", self.any_value(scope, depth - 1))), lambda: Unary(self.choice("+-"), part(), None),
            lambda: built_in("LENGTH", self.expression("STRING", scope, depth - 1)), lambda: built_in("ABS", part()),
            lambda: built_in("BLENGTH", self.expression("BINARY", scope, depth - 1)),
            lambda: built_in(self.choice(["LOINDEX", "HIINDEX"]), self.aggregate("INTEGER", scope, depth - 1)),
            lambda: built_in("ABS", self.named("select", scope) or part()), lambda: self.element("INTEGER", scope, depth),
        ])()

    def element(self, sort, scope, depth):
        """An element of an aggregate that has a name, or else another value."""
        name = self.named({"INTEGER": "integers", "entity": "entities"}[sort], scope)
        if not name:
            return self.expression(sort, scope, 0)
        return OfIndex(name, self.integer(scope, 0) if self.happens(0.8) else self.integer(scope, 1), None)

    def string(self, scope, depth):
        if depth <= 0:
            return Literal(self.choice(["", "a", "A", "ab", "it's", "é"]), None)
        part = lambda: self.expression("STRING", scope, depth - 1)
        name = self.named("STRING", scope)
        if isinstance(name, (Variable, OwnAttribute)) and self.happens(0.5):
            low, high = whole(self.choice([0, 1, 2])), whole(self.choice([1, 2, 3]))
            return self.choice([OfIndex(name, low, None), OfRange(name, low, high, None)])
        return self.choice([lambda: chain(part(), "+", part()), lambda: built_in("NVL", part(), part())])()

    def binary(self, scope, depth):
        if depth <= 0:
            return Literal(Bits(self.choice(["0", "1", "01", "110"])), None)
        return chain(self.expression("BINARY", scope, depth - 1), "+", self.expression("BINARY", scope, depth - 1))

    def real(self, scope, depth):
        return self.expression("INTEGER", scope, depth - 1) if depth > 0 and self.happens(0.2) else Literal(
            self.choice([Real(0, 0), Real(1, 0), Real(-15, -1), Real(25, -2), Real(1, 300)]), None)

    def item(self, *_):
        words = self.schema.types["COLOUR"].underlying.items
        place = self.random.randrange(len(words))
        return Literal(Item("COLOUR", place, words[place]), None)

    def select(self, scope, depth):
        return self.named("select", scope) or self.expression(self.choice(["INTEGER", "STRING", "entity"]), scope, min(depth - 1, 0))

    def mixed(self, scope, depth):
        return self.named("mixed", scope) or self.expression(self.choice(["INTEGER", "STRING", "LOGICAL"]), scope, min(depth - 1, 0))

    def entity(self, scope, depth):
        found = [Self(None)] if scope.entity else []
        if scope.extents:
            found.append(OfIndex(Extent(self.choice(scope.extents), None), whole(self.choice([1, 1, 2])), None))
        found += [it for it in [self.named("entity", scope)] if it]
        if depth > 0 and self.happens(0.3):
            found.append(built_in("NVL", self.expression("entity", scope, depth - 1), self.expression("entity", scope, depth - 1)))
            found.append(self.element("entity", scope, depth))
        return self.choice(found) if found else Literal(INDETERMINATE, None)

    def any_value(self, scope, depth):
        sorts = {"INTEGER": 3, "STRING": 2, "LOGICAL": 3, "REAL": 1, "BINARY": 1, "entity": 2, "item": 1, "select": 2, "integers": 4, "entities": 4}
        return self.expression(self.random.choices(list(sorts), list(sorts.values()))[0], scope, depth)

    def aggregate(self, element, scope, depth):
        """An aggregate whose elements may be of a sort."""
        sort = {"INTEGER": "integers", "entity": "entities"}.get(element)
        name = self.named(sort, scope) if sort and self.happens(0.6) else None
        if name:
            return name
        if element == "entity" and scope.extents and self.happens(0.6):
            return Extent(self.choice(scope.extents), None)
        if depth <= 0:
            return Initialiser([self.expression(element, scope, 0) for _ in range(self.random.randrange(4))], None)
        part = lambda: self.aggregate(element, scope, depth - 1)
        if sort in DECLARED and self.happens(0.3):
            return Call(self.choice(DECLARED[sort]), [part()], None)
        ways = [lambda: chain(part(), self.choice("+-*"), part()), lambda: self.query(element, scope, depth), part,
                lambda: chain(part(), self.choice("+-"), self.expression(element, scope, depth - 1))]
        if element == "entity":
            ways.append(lambda: self.used_in(scope, depth))
        return self.choice(ways)()

    def used_in(self, scope, depth):
        holders = [(entity, name) for entity, it in self.schema.entities.items() for name in it.explicit if name[0] in "EMX"]
        entity, name = self.choice(holders)
        place = self.choice(self.below(entity)), name
        role = self.choice(["", ".".join(("R", *place)), ".".join(("R", *place)), "R.ENTITY_1.NEXT", "r.entity_1.next", "R.NOTHING"])
        return built_in("USEDIN", self.entity(scope, depth - 1), Literal(role, None))

    def below(self, entity):
        """An entity and those below it."""
        return [it for it in self.schema.entities if entity in self.schema.line_of(it)]

    def query(self, element, scope, depth):
        variable = self.variable()
        inside = scope._replace(variables={**scope.variables, variable: element})
        return Query(variable, self.aggregate(element, scope, depth - 1), self.expression("LOGICAL", inside, depth - 1), None)

    def condition(self, scope, depth):
        if depth <= 0:
            return Literal(self.choice(Logical), None) if self.happens(0.3) else built_in("EXISTS", self.any_value(scope, 0))
        if scope.extents and self.happens(0.5):
            count = built_in("SIZEOF", self.query("entity", scope, depth))
            return chain(count, self.choice(["=", "<", ">="]), whole(self.choice([0, 1, 2])))
        part = lambda: self.expression("LOGICAL", scope, depth - 1)
        return self.choice([
            lambda: chain(part(), self.choice(["AND", "OR", "XOR"]), part()), lambda: Unary("NOT", part(), None),
            lambda: self.comparison(scope, depth), lambda: self.comparison(scope, depth), lambda: self.comparison(scope, depth),
            lambda: self.inclusion(scope, depth), lambda: self.inclusion(scope, depth), lambda: self.shown(scope, depth),
            lambda: built_in("EXISTS", self.any_value(scope, depth - 1)), lambda: built_in("ODD", self.expression("INTEGER", scope, depth - 1)),
            lambda: Interval(*(self.choice(["<", "<="]) if place % 2 else self.expression("INTEGER", scope, depth - 1) for place in range(5)), None),
        ])()

    def shown(self, scope, depth):
        return Call("SHOW", [self.any_value(scope, depth - 1)], None)

    def comparison(self, scope, depth):
        sort = self.choice(["INTEGER"] * 4 + ["STRING", "REAL", "BINARY", "item", "LOGICAL", "any", "integers", "sets", "mixed"])
        part = lambda of: self.expression(of, scope, depth - 1)
        if sort == "mixed" and self.named("mixed", scope):
            other = self.expression(self.choice(["INTEGER", "STRING"]), scope, depth - 1)
            return chain(self.named("mixed", scope), self.choice(["=", "<>", "<", ">="]), other)
        if sort in ("any", "mixed"):
            return chain(self.any_value(scope, depth - 1), self.choice([":=:", ":<>:"]), self.any_value(scope, depth - 1))
        if sort == "integers":
            several = lambda: self.aggregate("INTEGER", scope, depth - 1)
            return chain(several(), self.choice(["=", "<>", "<=", ">="]), several())
        if sort == "sets":
            several = lambda: self.aggregate("entity", scope, depth - 1)
            return chain(several(), self.choice([":=:", "<=", ">="]), several())
        return chain(part(sort), self.choice(["=", "<>", "<", ">", "<=", ">=", ":=:"]), part(sort))

    def inclusion(self, scope, depth):
        kind = self.random.random()
        if kind < 0.4:
            name = self.choice([*self.entities, "COUNT", "LABEL", "COLOUR"])
            return chain(Literal(f"R.{name}", None), "IN", built_in("TYPEOF", self.any_value(scope, depth - 1)))
        if kind < 0.6:
            return built_in("VALUE_IN", self.aggregate("INTEGER", scope, depth - 1), self.expression("INTEGER", scope, depth - 1))
        element = self.choice(["INTEGER", "entity"])
        return chain(self.expression(element, scope, depth - 1), "IN", self.aggregate(element, scope, depth - 1))

    # -- types

    def types(self):
        """Defined types, those that hold others, and SELECTs in a SELECT."""
        simple = lambda word, *more: Simple(word, *more)
        of = lambda kind, low, high, element, *more: Aggregate(kind, low, high, element, *(more or (False, False)))
        underlying = {
            "COUNT": simple("INTEGER"), "SMALL_COUNT": "COUNT", "RATIO": simple("REAL"), "LABEL": simple("STRING", 4),
            "CODE": simple("STRING", 2, True), "BITS": simple("BINARY", 3), "FLAG": simple("BOOLEAN"),
            "COLOUR": Enumeration(("RED", "GREEN", "BLUE")), "PAINT": "COLOUR",
            "COUNTS": of("LIST", 1, 3, "COUNT"), "COUNT_SET": of("SET", 0, 3, "COUNT"), "ROW": of("ARRAY", 2, 4, simple("INTEGER"), True, True),
            "PARTS": of("SET", 0, None, "ENTITY_1"), "MIXED": Select(("COUNT", "LABEL", "FLAG")), "INNER": Select(("LABEL", "COUNT_SET", "ENTITY_2")),
            "ANY_ONE": Select(("SMALL_COUNT", "INNER", "ENTITY_1", "COLOUR", "PARTS")), "RENAMED": "ANY_ONE",
        }
        self.schema.types = {name: Defined(it) for name, it in underlying.items()}

    def declared(self, letter, place):
        """A type of a name's sort."""
        simple = lambda word: Simple(word)
        entity = self.choice(self.entities[:place + 8]) if self.happens(0.6) else "ENTITY_1"
        entities = lambda: Aggregate(self.choice(["SET", "LIST", "BAG"]), self.choice([0, 1]), self.choice([None, 2]), entity, False, False)
        return self.choice({
            "N": [simple("INTEGER"), "COUNT", "SMALL_COUNT"], "S": [simple("STRING"), "LABEL", "CODE", Simple("STRING", 3)],
            "Q": [simple("BOOLEAN"), simple("LOGICAL"), "FLAG"], "R": [simple("REAL"), "RATIO", simple("NUMBER")],
            "B": ["BITS", simple("BINARY")], "E": [entity], "C": ["COLOUR", "PAINT"], "X": ["ANY_ONE", "RENAMED"],
            "L": ["COUNTS", "COUNT_SET", "ROW", Aggregate("LIST", 0, 4, simple("INTEGER"), False, True),
                  Aggregate("BAG", 0, None, "COUNT", False, False)],
            "M": [entities(), "PARTS"], "Y": ["MIXED"],
        }[letter])

    # -- entities

    def supertypes(self, place):
        """Those above an entity, whose attributes of one name come from one declaration. Many stand below the first."""
        if self.happens(0.3):
            return ["ENTITY_1"] if self.happens(0.7) else []
        above = self.random.sample(self.entities[:place], min(place, self.choice([1, 1, 1, 2])))
        lines = list(dict.fromkeys(it for one in above for it in self.schema.line_of(one)))
        names = [name for it in lines for of in self.attributes(it) for name in of]
        is_chained = any(one in self.schema.line_of(other) for one in above for other in above if one != other)
        return above if len(names) == len(set(names)) and not is_chained else above[:1]

    def new_name(self, taken, letters="NNNSSQRBEEELMMCXY"):
        while True:
            name = f"{self.choice(letters)}{self.random.randrange(12)}"
            if name not in taken:
                return name

    def entity_declaration(self, name, place):
        entity = self.schema.entities[name] = Entity()
        if place == 0:
            # what goes round where instances do, and not else
            entity.explicit["E_NEXT"] = Explicit("ENTITY_1", True)
            return
        entity.supertypes = self.supertypes(place)
        line = self.schema.line_of(name)
        taken = {it for above in line for of in self.attributes(above) for it in of}
        for _ in range(self.choice([0, 1, 1, 2, 2, 3])):
            attribute = self.new_name(taken)
            taken.add(attribute)
            entity.explicit[attribute] = Explicit(self.declared(attribute[0], place), self.happens(0.3))

    def later_parts(self, name):
        """What looks at attributes of all entities: redeclarations, derived and inverse attributes."""
        entity, scope = self.schema.entities[name], Scope({}, name)
        above = [(it, attribute) for it in self.schema.line_of(name)[:-1] for attribute in self.schema.entities[it].explicit]
        for it, attribute in self.random.sample(above, min(len(above), self.choice([0, 0, 1, 2]))):
            declared = self.schema.entities[it].explicit[attribute].type
            if attribute != "E_NEXT" and self.happens(0.6) and SORTS[attribute[0]] in ("INTEGER", "STRING", "LOGICAL"):
                expression = self.expression(SORTS[attribute[0]], scope, 2)
                entity.derived_again[it, attribute] = Given(declared, expression)
            else:
                type_again = self.declared(attribute[0], 60) if attribute[0] in "NSLEX" else "ANY_ONE" if attribute[0] == "M" else declared
                entity.redeclared[it, attribute] = Explicit(type_again, self.happens(0.5))

    def inverse_parts(self, name, taken):
        """Inverse attributes for attributes that may hold the entity."""
        entity = self.schema.entities[name]
        users = [(user, attribute) for user, it in self.schema.entities.items() for attribute in it.explicit if attribute[0] in "EM"]
        for user, attribute in self.random.sample(users, min(len(users), self.choice([0, 0, 0, 1, 1, 2]))):
            kind = self.choice(["SET", "BAG", None])
            inverse = self.new_name(taken, "M" if kind else "E")
            taken.add(inverse)
            low, high = (self.choice([0, 0, 1]), self.choice([None, 1, 3])) if kind else (1, 1)
            entity.inverse[inverse] = Inverse(kind, low, high, self.choice(self.below(user)), attribute)

    def names_beside(self, name):
        """Names of attributes that an entity's line, its subtypes' lines have."""
        found = set()
        for it in self.schema.entities:
            if name in self.schema.line_of(it):
                found |= {attribute for above in self.schema.line_of(it) for of in self.attributes(above) for attribute in of}
        return found

    def all_entities(self):
        for place, name in enumerate(self.entities):
            self.entity_declaration(name, place)
        for name in self.entities[1:]:
            self.inverse_parts(name, self.names_beside(name))
        depth = attribute_of(OwnAttribute("E_NEXT", None, None), "N_DEPTH")
        depth_of = chain(built_in("NVL", depth, whole(0)), "+", whole(1))
        first = self.schema.entities["ENTITY_1"]
        derived = {}
        for name in self.entities[1:]:
            self.later_parts(name)
        for name in self.entities[1:]:
            taken = self.names_beside(name) | set(derived)
            for _ in range(self.choice([0, 0, 1])):
                attribute = self.new_name(taken | {it for of in derived.values() for it, _ in of}, "NSQM")
                expression = self.expression(SORTS[attribute[0]], Scope({}, name), 3)
                declared = self.declared(attribute[0], 60) if attribute[0] != "M" else Aggregate("SET", 0, None, "ENTITY_1", False, False)
                derived.setdefault(name, []).append((attribute, Given(declared, expression)))
        for name, its in derived.items():
            self.schema.entities[name].derived.update(its)
        first.derived["N_DEPTH"] = Given("COUNT", depth_of)

    def rules_of(self, count, scope, make):
        """Rules, some with labels."""
        found = []
        for place in range(count):
            found.append(Rule(f"W{place + 1}" if self.happens(0.7) else f"#{place + 1}", make(scope)))
        return found

    def all_rules(self):
        condition = lambda scope: self.shown(scope, 4) if self.happens(0.5) else self.expression("LOGICAL", scope, 3)
        for name in self.entities:
            entity = self.schema.entities[name]
            entity.rules = self.rules_of(self.choice([0, 1, 1, 2, 2]), Scope({}, name), condition)
            names = sorted({it for above in self.schema.line_of(name) for of in self.attributes(above) for it in of})
            if names and self.happens(0.3):
                listed = self.random.sample(names, min(len(names), self.choice([1, 1, 2])))
                entity.unique = [Rule("U1", [OwnAttribute(it, None, None) for it in listed])]
        depth = OwnAttribute("N_DEPTH", None, None)
        first = self.schema.entities["ENTITY_1"]
        first.rules = [Rule("ROUND", chain(depth, "<", whole(5))), Rule("AGAIN", chain(depth, ">=", whole(1))), *first.rules]
        first.unique = [Rule("U0", [depth, OwnAttribute("E_NEXT", None, None)])]
        self.rules_of_types()
        for place in range(8):
            entities = tuple(self.random.sample(self.entities, self.choice([1, 1, 2])))
            if place == 0:
                entities = ("ENTITY_1",)
            rule = self.schema.rules[f"RULE_{place + 1}"] = Algorithm(entities=entities)
            scope = Scope({}, None, entities)
            rule.locals, rule.statements, scope = self.body(scope, self.choice([0, 1, 2]), False)
            rule.rules = self.rules_of(self.choice([1, 2]), scope, condition)
        depth = attribute_of(Variable("X", None), "N_DEPTH")
        rounds = Query("X", Extent("ENTITY_1", None), chain(depth, ">", whole(3)), None)
        self.schema.rules["RULE_1"].rules.append(Rule("ROUND", chain(built_in("SIZEOF", rounds), "=", whole(0))))
        # with one instance of this entity 200,000 steps, or one more
        last = self.entities[-1]
        turns = chain(chain(built_in("SIZEOF", Extent(last, None)), "*", whole(28_569)), "+", whole(0))
        spin = self.schema.rules["RULE_SPIN"] = Algorithm(entities=(last,))
        said = chain(Call("SPIN", [turns], None), "=", whole(0))
        spin.rules = [Rule("#1", said if self.happens(0.5) else Unary("NOT", said, None))]

    def rules_of_types(self):
        me = Self(None)
        fall = chain(Call("FALL", [me], None), "=", whole(0))
        typed = lambda name: chain(Literal(f"R.{name}", None), "IN", built_in("TYPEOF", me))
        rules = {
            "COUNT": [chain(me, "<", whole(100)), fall], "SMALL_COUNT": [Interval(whole(0), "<=", me, "<", whole(10), None)],
            "RATIO": [chain(me, ">", Literal(Real(0, 0), None))], "FLAG": [me],
            "LABEL": [chain(built_in("LENGTH", me), ">", whole(0)), chain(me, "<>", Literal("a", None))],
            "COLOUR": [chain(me, "<", Literal(Item("COLOUR", 2, "BLUE"), None))],
            "PAINT": [chain(me, ":<>:", Literal(Item("COLOUR", 0, "RED"), None))],
            "COUNTS": [chain(OfIndex(me, whole(1), None), "=", whole(1))], "COUNT_SET": [chain(whole(3), "IN", me)],
            "ROW": [built_in("EXISTS", OfIndex(me, whole(2), None)), chain(built_in("LOINDEX", me), "=", whole(2))],
            "INNER": [typed("LABEL")], "ANY_ONE": [chain(typed("SMALL_COUNT"), "OR", built_in("EXISTS", me)), chain(me, ":<>:", whole(7))],
            "RENAMED": [Unary("NOT", typed("COLOUR"), None)], "PARTS": [chain(built_in("SIZEOF", me), "<", whole(3))],
        }
        for name, its in rules.items():
            self.schema.types[name].rules = [Rule(f"T{place + 1}" if place else "#1", it) for place, it in enumerate(its)]

    # -- functions

    def functions(self):
        """One that calls itself, one that goes round as often as it is told to, and others."""
        n = Variable("N", None)
        less = Call("FALL", [chain(n, "-", whole(1))], None)
        fall = self.schema.functions["FALL"] = Algorithm([("N", Simple("INTEGER"))], Simple("INTEGER"))
        fall.statements = [If(chain(n, "<=", whole(0)), [Return(whole(0))], []), Return(less)]
        spin = self.schema.functions["SPIN"] = Algorithm([("N", "COUNT")], Simple("INTEGER"))
        spin.locals = [(["I"], Given(Simple("INTEGER"), whole(0)))]
        spin.statements = [Repeat(None, None, None, None, chain(Variable("I", None), "<>", n), None,
                                  [Assignment("I", None, chain(Variable("I", None), "+", whole(1)))]), Return(Variable("I", None))]
        self.schema.functions.update({name: it for name, it in read(SHOWING).functions.items() if name != "FALL"})
        anything = self.schema.functions["ANYTHING"] = Algorithm([("X", Simple("GENERIC"))], Simple("GENERIC"))
        anything.statements = [Return(Variable("X", None))]
        self.callable = {"FALL": (["INTEGER"], "INTEGER")}
        sorts = {"INTEGER": "COUNT", "STRING": "LABEL", "LOGICAL": Simple("LOGICAL"), "entity": "ENTITY_1", "select": "ANY_ONE",
                 "integers": Aggregate("SET", 0, None, "COUNT", False, False), "entities": Aggregate("LIST", 0, None, "ENTITY_1", False, False)}
        for place in range(12):
            own = [self.choice(sorts) for _ in range(self.choice([0, 1, 2]))]
            result = self.choice(["INTEGER", "STRING", "LOGICAL", "entity", "integers", "entities"])
            parameters = [(f"P{at}", sorts[it] if self.happens(0.8) else Simple("GENERIC")) for at, it in enumerate(own)]
            variables = {name: sort for (name, declared), sort in zip(parameters, own) if declared != Simple("GENERIC")}
            function = Algorithm(parameters, sorts[result])
            function.locals, function.statements, scope = self.body(Scope(variables), 3, True)
            function.statements.append(Return(self.expression(result, scope, 2)))
            self.schema.functions[f"FUNCTION_{place + 1}"] = function
            self.callable[f"FUNCTION_{place + 1}"] = (own, result)

    def body(self, scope, count, is_function):
        """Locals, statements, and the scope in which they are known."""
        sorts = {"INTEGER": Simple("INTEGER"), "STRING": "LABEL", "integers": Aggregate("SET", 0, None, Simple("INTEGER"), False, False)}
        named = {self.variable(): self.choice(list(sorts)) for _ in range(count)}
        inside = scope._replace(variables={**scope.variables, **named})
        found = [([name], Given(sorts[sort], self.expression(sort, inside, 2) if self.happens(0.8) else None)) for name, sort in named.items()]
        statements = [self.statement(inside, named, 2, is_function) for _ in range(count)]
        return found, statements, inside

    def assignment(self, scope, named):
        if not named:
            return Null()
        name = self.choice(named)
        value = self.expression(named[name], scope, 2)
        if named[name] == "integers" and self.happens(0.6):
            value = chain(Variable(name, None), "+", self.expression("INTEGER", scope, 1))
        return Assignment(name, None, value)

    def statement(self, scope, named, depth, is_function, in_repeat=False):
        part = lambda: self.statement(scope, named, depth - 1, is_function, in_repeat)
        if depth <= 0 or self.happens(0.3):
            if in_repeat and self.happens(0.2):
                return If(self.condition(scope, 1), [self.choice([Skip(), Escape()])], [])
            return self.assignment(scope, named)
        way = self.choice(["if", "case", "repeat", "compound", "while"])
        if way == "if":
            return If(self.condition(scope, 2), [part()], [part()] if self.happens(0.5) else [])
        if way == "case":
            labels = [[whole(0), whole(1)], [self.expression("INTEGER", scope, 1)]]
            return Case(self.expression("INTEGER", scope, 1), [(it, part()) for it in labels], part() if self.happens(0.5) else None)
        if way == "compound":
            return Compound([part(), part()])
        variable = self.variable()
        inside = scope._replace(variables={**scope.variables, variable: "INTEGER"})
        last = built_in("SIZEOF", self.aggregate("INTEGER", scope, 1)) if way == "repeat" else whole(6)
        return Repeat(variable, whole(self.choice([0, 1])), last, self.choice([None, None, whole(2), whole(0), Unary("-", whole(1), None)]),
                      self.condition(inside, 1) if way == "while" else None, self.condition(inside, 1) if self.happens(0.3) else None,
                      [self.statement(inside, named, depth - 1, is_function, True)])

    def make(self):
        self.types()
        self.all_entities()
        self.functions()
        self.all_rules()
        ten = Given("COUNT", chain(Call("FALL", [whole(4)], None), "+", whole(10)))
        self.schema.constants = {"TEN": ten}
        users = built_in("SIZEOF", built_in("USEDIN", Self(None), Literal("", None)))
        self.schema.entities["ENTITY_2"].rules.append(Rule("WITH_TEN", chain(users, "<", Constant("TEN", None))))
        return schema_text(self.schema)


def random_schema(seed, entities=60):
    """The text of a schema."""
    return Maker(seed, entities).make()


# ---- populations

# the models of the group, and one outside of it, to whose one instance references lead that leave the population. Before a program is
# given the files, it needs instances of their names in each model, since links go both ways
MODELS = [("ann", "m"), ("bob", "k")]
OUTSIDE, ALONE = ("cyd", "none"), 1000
INSTANCE_OUTSIDE = f"#{ALONE}=ENTITY_1($);"


class Population:
    """Random instances of a schema, in two models. Most values are as they are declared; how often they aren't is chosen anew for
    each population, and so is how many of the instances that may go round do."""

    def __init__(self, seed, schema, most):
        self.random = random.Random(seed)
        self.schema, self.binding = schema, binding_schema(schema)
        self.faults, self.rounds = self.random.choice([0, 0.02, 0.1, 0.3]), self.random.choice([0, 0, 0.2, 1])
        # numbers that a function of a type's rule goes down too deep for
        self.numbers = [500] if self.random.random() < 0.1 else [0, 1, 1, 2, 3, 5, 7, 9, 50, -1]
        first = self.random.choice([0.2, 0.2, 0.8, 1])
        below = [it for it in schema.entities if "ENTITY_1" in schema.line_of(it)]
        self.few = self.random.random() < 0.3 and self.random.sample(list(schema.entities), 3)
        self.types, self.models = {}, {}
        for name in range(1, self.random.choice([0, 1, 5, 20, most, most]) + 1):
            leaf = self.random.choice(self.few or (below if self.random.random() < first else list(schema.entities)))
            self.types[name] = set(schema.line_of(leaf)) | self.second(leaf)
            self.models[name] = MODELS[self.random.random() < 0.3]

    def happens(self, probability):
        return self.random.random() < probability

    def second(self, leaf):
        """At times the types of another entity that has a supertype in common."""
        others = [it for it in self.schema.entities if set(self.schema.line_of(it)) & set(self.schema.line_of(leaf))]
        return set(self.schema.line_of(self.random.choice(others))) if self.happens(0.15) else set()

    def reference(self, entities):
        """A reference to an instance of one of these, or to any, or to one that isn't in the population."""
        fitting = [name for name, types in self.types.items() if types & set(entities)]
        if self.happens(self.faults) or not fitting:
            return Reference(ALONE) if self.happens(0.3) else Reference(self.random.choice([*self.types, ALONE]))
        return Reference(self.random.choice(fitting))

    def value(self, declared, is_optional=False):
        if self.happens(0.2 if is_optional else self.faults / 2):
            return UNSET
        end = self.schema.end(declared)
        if isinstance(end, Select):
            return self.selected(declared)
        if isinstance(end, Aggregate):
            return self.elements(end)
        if isinstance(end, Enumeration):
            return plain_binding.Item(self.random.choice(end.items))
        return self.simple(end) if isinstance(end, Simple) else self.reference([end])

    def simple(self, end):
        number = self.random.choice(self.numbers + [99, 198, 199, 200, 2**62] * self.happens(self.faults))
        if end.word in ("BOOLEAN", "LOGICAL"):
            return plain_binding.Item(self.random.choice("TF" if end.word == "BOOLEAN" else "TFU"))
        if end.word in ("STRING", "BINARY"):
            most = (end.width or 3) + (self.happens(self.faults) and 1)
            length = most if end.is_fixed else self.random.randrange(most + 1)
            text = "".join(self.random.choice("ab" if end.word == "STRING" else "01") for _ in range(length))
            return text if end.word == "STRING" else Bits(text)
        return number if end.word == "INTEGER" or end.word == "NUMBER" and self.happens(0.5) else plain_binding.real(number, -1)

    def elements(self, end):
        high = 4 if end.high is None else end.high
        count = high - end.low + 1 if end.kind == "ARRAY" else self.random.randint(end.low, max(end.low, high))
        count += self.happens(self.faults)
        found = []
        for _ in range(count):
            value = self.value(end.element, end.is_optional)
            if self.happens(0.9) and (end.kind == "SET" or end.is_unique) and value in found and value is not UNSET:
                value = self.value(end.element, end.is_optional)
            found.append(value)
        return found

    def selected(self, name):
        member = self.random.choice(self.schema.select_members(name))
        if self.schema.is_select(member):
            return self.selected(member)
        if member in self.schema.entities:
            return self.reference([member])
        value = self.value(member)
        return value if value is UNSET else Typed(member.lower(), value)

    def instance(self, name, types):
        """An instance of a file."""
        derived = {place for it in types for place in self.schema.entities[it].derived_again}
        values = {}
        for entity in sorted(types):
            for attribute, it in self.schema.entities[entity].explicit.items():
                goes_round = attribute == "E_NEXT" and self.happens(self.rounds)
                found = self.reference(["ENTITY_1"]) if goes_round else self.value(it.type, it.is_optional)
                found = DERIVED if (entity, attribute) in derived else found
                if attribute == "E_NEXT" and not goes_round and found not in (UNSET, DERIVED) and found.name <= name:
                    found = UNSET
                values[entity.lower(), attribute.lower()] = found
        return plain_binding.Bound(name, {it.lower() for it in types}, values)

    def make(self):
        """The models: owner, name, instances as a file has them, and links."""
        lines, links = {it: "" for it in MODELS}, {it: {} for it in MODELS}
        for name, types in self.types.items():
            owner, model = self.models[name]
            bound = self.instance(name, types)
            for used in sorted({it.name for it in plain_binding.references_of(bound)}):
                target = self.models.get(used, OUTSIDE)
                if target != (owner, model):
                    links[owner, model][used] = (used, *target, used)
            lines[owner, model] += plain_binding.instance_text(self.binding, bound) + "\n"
        return [(*it, lines[it], list(links[it].values())) for it in MODELS]


def random_population(seed, schema, most=60):
    """Models of a schema that plain_express read, as rule_texts takes them; some links lead to the model OUTSIDE."""
    return Population(seed, schema, most).make()


# ---- counting


def main(words):
    parser = argparse.ArgumentParser(prog="tests/lib/random_rules.py", allow_abbrev=False)
    for name, number in (("schemas", 20), ("populations", 100), ("entities", 60), ("instances", 60), ("seed", 1)):
        parser.add_argument(f"--{name}", type=int, default=number)
    parser.add_argument("--show", action="store_true", help="prints the first schema and the first population of it, and nothing else")
    given = parser.parse_args(words)
    counts, longest, steps, begin = collections.Counter(), 0, 0, time.process_time()
    for number in range(given.schemas):
        text = random_schema(f"{given.seed} {number}", given.entities)
        schema = read(text)
        if schema_text(schema) != text:
            sys.exit(f"schema {number} of the seed {given.seed} isn't read as it was made")
        for place in range(given.populations):
            models = random_population(f"{given.seed} {number} {place}", schema, given.instances)
            if given.show:
                print(text, *models, sep="\n")
                return
            before = time.process_time()
            found = report(text, models)
            longest = max(longest, time.process_time() - before)
            steps += found["steps"]
            counts.update((it["check"], it["verdict"]) for it in found["checks"])
    for (check, verdict), count in sorted(counts.items()):
        print(f"{check:10} {verdict:8} {count:8}")
    print(f"{given.schemas * given.populations} populations, {steps} steps, {time.process_time() - begin:.1f} s, at most {longest:.2f} s for one")


if __name__ == "__main__":
    main(sys.argv[1:])
