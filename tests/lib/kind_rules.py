"""The rules of kinds, for the tables of tests/express_kinds.py: which kinds a value may have, and what operators, functions and
places make of them. They are written out here once more, from their description alone.

A value's kinds are simple ones (with each enumeration and each entity one of its own), and an aggregate with the kinds
of its elements. `?` has none, and fits everywhere.
"""

NUMBERS = {"INTEGER", "REAL"}
REAL_OPERATORS = ("+", "-", "*", "DIV", "MOD", "**")
LOGICAL_OPERATORS = ("AND", "OR", "XOR")
ORDERS = ("<", ">", "<=", ">=")
OPERATORS = (*REAL_OPERATORS, "/", *LOGICAL_OPERATORS, "=", "<>", *ORDERS, ":=:", ":<>:", "IN")


class Kinds:
    """The simple kinds by name (`enumeration colour`, `entity d`), and the kinds of the elements of an aggregate."""

    def __init__(self, simple, elements=None):
        self.simple = frozenset(simple)
        self.elements = elements

    def none(self):
        return not self.simple and self.elements is None

    def entities(self):
        return {it for it in self.simple if it.startswith("entity ")}

    def enumerations(self):
        return {it for it in self.simple if it.startswith("enumeration ")}


def of(*simple):
    return Kinds(simple)


def many(elements):
    return Kinds((), elements)


NOTHING = of()


def everything(enumerations, entities):
    """The kinds of GENERIC."""
    simple = NUMBERS | {"STRING", "BINARY", "LOGICAL"}
    named = {f"enumeration {it}" for it in enumerations} | {f"entity {it}" for it in entities}
    kinds = Kinds(simple | named)
    kinds.elements = kinds
    return kinds


def union(one, other):
    if one is other or other.none():
        return one
    if one.none():
        return other
    if one.elements is one or other.elements is other:
        return one if one.elements is one else other
    elements = one.elements or other.elements
    if one.elements is not None and other.elements is not None:
        elements = union(one.elements, other.elements)
    return Kinds(one.simple | other.simple, elements)


def holds_entity(kinds):
    """Whether a value of these kinds may hold an entity at any depth."""
    if kinds.entities():
        return True
    return kinds.elements is not None and holds_entity(kinds.elements)


def may_be(kinds, *simple):
    return kinds.none() or bool(kinds.simple & set(simple))


def may_be_aggregate(kinds):
    return kinds.none() or kinds.elements is not None


def fits(place, value):
    """Whether a value of the second kinds fits a place of the first."""
    if place.none() or value.none():
        return True
    if place.elements is not None and value.elements is not None:
        return True
    if place.entities() and value.entities():
        return True
    return bool(place.simple & value.simple) or ("REAL" in place.simple and "INTEGER" in value.simple)


def comparable(one, other):
    """Whether `=` has kinds that fit, where neither side may hold an entity."""
    return fits(one, other) or fits(other, one)


def ordered(operator, one, other):
    """Whether `<` and the like have kinds that fit."""
    orderable = [kinds.none() or kinds.simple - kinds.entities() for kinds in (one, other)]
    aggregates = operator in ("<=", ">=") and may_be_aggregate(one) and may_be_aggregate(other)
    if not all(orderable) or one.none() or other.none():
        return all(orderable) or aggregates
    both = (one.simple & other.simple) - one.entities()
    return bool(both) or (bool(one.simple & NUMBERS) and bool(other.simple & NUMBERS)) or aggregates


def arithmetic_fits(operator, one, other):
    aggregates = may_be_aggregate(one), may_be_aggregate(other)
    if operator in ("+", "-", "*") and all(aggregates):
        return True
    if (operator == "+" and any(aggregates)) or (operator == "-" and aggregates[0]):
        return True
    simple = ("INTEGER", "STRING", "BINARY") if operator == "+" else ("INTEGER",)
    return any(may_be(one, it) and may_be(other, it) for it in simple)


def fault_of(operator, one, other):
    """The fault of an operator between values of these kinds, if any."""
    if operator == "/" or (operator in REAL_OPERATORS and "REAL" in one.simple | other.simple):
        return "RealArithmetic"
    if operator in REAL_OPERATORS:
        good = arithmetic_fits(operator, one, other)
    elif operator in LOGICAL_OPERATORS:
        good = may_be(one, "LOGICAL") and may_be(other, "LOGICAL")
    elif operator in ("=", "<>"):
        if holds_entity(one) or holds_entity(other):
            return "EntityComparison"
        good = comparable(one, other)
    elif operator in ORDERS:
        good = ordered(operator, one, other)
    else:
        good = operator != "IN" or may_be_aggregate(other)
    return None if good else "Operand"


def sum_of(one, other):
    """The kinds of a `+` between values that fit."""
    simple = one.simple & other.simple & {"INTEGER", "STRING", "BINARY"}
    elements = None
    for left, right in ((one, other), (other, one)):
        if left.elements is not None:
            held = union(left.elements, Kinds(right.simple))
            held = union(held, right.elements) if right.elements is not None else held
            elements = held if elements is None else union(elements, held)
    return Kinds(simple, elements)


def given_by(operator, one, other):
    """The kinds of what an operator gives between values that fit."""
    if operator not in REAL_OPERATORS:
        return of("LOGICAL")
    if one.none() or other.none():
        return NOTHING
    if operator == "+":
        return sum_of(one, other)
    simple = one.simple & other.simple & {"INTEGER"}
    if operator in ("-", "*"):
        taken = operator == "-" or other.elements is not None
        return Kinds(simple, one.elements if taken else None)
    return Kinds(simple)


def fault_of_sign(sign, kinds):
    if sign == "NOT":
        return None if may_be(kinds, "LOGICAL") else "Operand"
    if "REAL" in kinds.simple:
        return "RealArithmetic"
    return None if may_be(kinds, "INTEGER") else "Operand"


def fault_of_case(selector, labels):
    if any(holds_entity(it) for it in (selector, *labels)):
        return "EntityComparison"
    return None if all(comparable(selector, it) for it in labels) else "Operand"


# what each function of the language takes
BUILT_IN = {
    "ABS": ["INTEGER"], "BLENGTH": ["BINARY"], "EXISTS": ["any"], "HIINDEX": ["aggregate"], "LENGTH": ["STRING"],
    "LOINDEX": ["aggregate"], "NVL": ["any", "any"], "ODD": ["INTEGER"], "SIZEOF": ["aggregate"], "TYPEOF": ["any"],
    "USEDIN": ["entity", "STRING"], "VALUE_IN": ["aggregate", "any"],
}


def taken(what, kinds):
    if what == "any":
        return True
    if what == "aggregate":
        return may_be_aggregate(kinds)
    if what == "entity":
        return kinds.none() or bool(kinds.entities())
    return may_be(kinds, what)


def fault_of_built_in(function, arguments):
    """The fault of a call of a function of the language, if any."""
    wanted = BUILT_IN[function]
    if len(wanted) == len(arguments) and function == "VALUE_IN":
        elements = arguments[0].elements
        if elements is not None and holds_entity(elements):
            return "EntityComparison"
    good = len(wanted) == len(arguments) and all(map(taken, wanted, arguments))
    return None if good else "Arguments"
