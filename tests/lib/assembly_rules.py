"""The rules of example/assembly/assembly.exp, each written out anew: a function gives what the rule is over an instance or a value,
and how many steps it takes, by a formula that was reckoned by hand.

What the formulas go by: each evaluated node of an expression takes a step, and so does each executed statement. Nodes are literals
(a sign before an integer is a node of its own), names, SELF, each `.`, `\\` and `[..]`, operators, intervals, calls, QUERY and
initialisers; parentheses are none. To these come

- of a QUERY one step for each element of its source, beside its condition's each time
- of USEDIN, of an inverse attribute, and of an entity's name in a rule, one for each result; of TYPEOF one for each name
- of IN and VALUE_IN one for each element of the aggregate; of any other operator on aggregates of a and b elements a * b + a + b
- of `+` on strings or binaries the length of the result; of an initialiser its size, which is 1 and its elements
- of a derived attribute, a constant and a function its body, every time

Both operands and all arguments are evaluated, whatever they give. A CASE takes a step, its selector once and its labels up to the
first equal one; a REPEAT a step and its bounds once, and WHILE and UNTIL at each turn, in which the bound is tested first; the
expressions of a LOCAL are no statements. None is a value that isn't there, and a truth value that isn't known.
"""
from lib.assembly_files import UNKNOWN

# What a constant's body takes: `[a, b]` is a node with two literals, of size 3. A name of it is one node more.
DIMENSIONLESS, OF_LENGTH, OF_MASS, OF_VOLUME = [0, 0], [1, 0], [0, 1], [3, 0]
EXPONENTS = 1 + 2 + 3


# ---- the tables of truth values, and comparisons

def negation(one):
    return None if one is None else not one


def both(one, other):
    if one is False or other is False:
        return False
    return None if one is None or other is None else True


def either(one, other):
    return negation(both(negation(one), negation(other)))


def one_of_two(one, other):
    return None if one is None or other is None else one is not other


def less(one, other):
    return None if one is None or other is None else one < other


def equal(one, other):
    return None if one is None or other is None else one == other


def same(one, other):
    """Whether two are one instance."""
    return None if one is None or other is None else one is other


def together(one, other):
    """What an operator on two aggregates takes beside its node: nothing where one of them isn't there."""
    return 0 if one is None or other is None else len(one) * len(other) + len(one) + len(other)


# ---- rules of types, on one value

def country_code_wr1(value):
    # AND; twice: the interval, 'A', SELF[1] (`[]`, SELF, 1), 'Z': 1 + 2 * 6
    capital = [None if it == "" else "A" <= it <= "Z" for it in (value[:1], value[1:2])]
    return both(*capital), 13


def count_measure_wr1(value):
    # IN, the literal, TYPEOF, SELF; TYPEOF gives n names, and IN goes through n: 4 + 2 n
    names = typeof_measure(value)
    return "INTEGER" in names, 4 + 2 * len(names)


def day_number_wr1(value):
    # the interval, 1, SELF, 31
    return 1 <= value <= 31, 4


def dimension_count_wr1(value):
    # IN, SELF; the initialiser, 2, 3, its size 3; IN goes through 2
    return value in (2, 3), 2 + (1 + 2 + 3) + 2


def hour_number_wr1(value):
    # the interval, 0, SELF, 24
    return 0 <= value < 24, 4


def identifier_wr1(value):
    # >, LENGTH, SELF, 0
    return len(value) > 0, 4


def mass_measure_wr1(value):
    # >=, SELF, 0.0
    return value.value >= 0, 3


def measure_value_wr1(value):
    # NVL, <, SELF, 1.0E12, TRUE; a string isn't compared with a number, so there NVL gives TRUE
    return value.type == "DESCRIPTIVE_MEASURE" or value.value < 10 ** 12, 5


def month_number_wr1(value):
    # the interval, 1, SELF, 12
    return 1 <= value <= 12, 4


def picture_wr1(value):
    # =, MOD, BLENGTH, SELF, 8, 0
    return len(value) % 8 == 0, 6


def picture_wr2(value):
    # =, `[:]`, SELF, 1, 16; the name of the constant, and its body: +, two literals, and 16 bits of the result
    return equal(value[:16] if len(value) >= 16 else None, "1000100101010000"), 5 + 1 + (1 + 2 + 16)


def positive_length_measure_wr1(value):
    # >, SELF, 0.0
    return getattr(value, "value", value) > 0, 3


# ---- what TYPEOF gives

BENEATH = {"LENGTH_MEASURE": ["REAL"], "POSITIVE_LENGTH_MEASURE": ["LENGTH_MEASURE", "REAL"], "PLANE_ANGLE_MEASURE": ["REAL"],
           "MASS_MEASURE": ["REAL"], "VOLUME_MEASURE": ["REAL"], "RATIO_MEASURE": ["REAL"], "DESCRIPTIVE_MEASURE": ["STRING"]}


def typeof_measure(value):
    """The type that a measure is written under, the types beneath, and the simple type. A count keeps what it is written as."""
    if value.type == "COUNT_MEASURE":
        return [value.type, "INTEGER" if isinstance(value.value, int) else "REAL"]
    return [value.type, *BENEATH[value.type]]


def is_a(instance, entity):
    return entity in instance.types


# ---- inverse attributes

INVERSES = [
    # of, its name, whose attribute, which, each user once, at least, at most
    ("APPLICATION_CONTEXT", "ELEMENTS", "APPLICATION_CONTEXT_ELEMENT", "APPLICATION_CONTEXT_ELEMENT.FRAME_OF_REFERENCE", True, 1, None),
    ("PRODUCT", "VERSIONS", "PRODUCT_VERSION", "PRODUCT_VERSION.OF_PRODUCT", True, 1, None),
    ("PRODUCT_DEFINITION", "COMPONENTS", "ASSEMBLY_USAGE", "PRODUCT_DEFINITION_RELATIONSHIP.RELATING_DEFINITION", True, 0, None),
    ("PRODUCT_DEFINITION", "IN_KITS", "KIT", "KIT.CONTENTS", False, 0, 100),
    ("NEXT_ASSEMBLY_USAGE", "SHAPES", "PRODUCT_DEFINITION_SHAPE", "PROPERTY_DEFINITION.DEFINITION", True, 0, 1),
    ("APPROVAL", "SIGNATURES", "APPROVAL_SIGNATURE", "APPROVAL_SIGNATURE.SIGNED", True, 0, None),
    ("APPROVAL", "ASSIGNMENTS", "APPROVAL_ASSIGNMENT", "APPROVAL_ASSIGNMENT.ASSIGNED", True, 1, None),
    ("DOCUMENT", "USES", "DOCUMENT_ASSIGNMENT", "DOCUMENT_ASSIGNMENT.ASSIGNED", False, 1, None),
    # a plain one has exactly one
    ("DERIVED_UNIT_ELEMENT", "OF_UNIT", "DERIVED_UNIT", "DERIVED_UNIT.ELEMENTS", True, 1, 1),
    ("REPRESENTATION_CONTEXT", "REPRESENTATIONS", "REPRESENTATION", "REPRESENTATION.CONTEXT_OF_ITEMS", True, 1, None),
    ("EDGE_CURVE", "USES", "ORIENTED_EDGE", "ORIENTED_EDGE.ELEMENT", True, 1, 2),
    ("ORIENTED_EDGE", "PATH", "EDGE_LOOP", "EDGE_LOOP.EDGES", True, 1, 1),
    ("FACE_BOUND", "OF_FACE", "FACE", "FACE.BOUNDS", True, 1, 1),
]
OF_NAME = {row[:2]: row[2:5] for row in INVERSES}


def inverse(instance, of, name):
    """The instances of an inverse attribute. Its name takes 1 and one for each of them."""
    entity, role, once = OF_NAME[of, name]
    found = instance.users(role, entity)
    return list(dict.fromkeys(found)) if once else found


# ---- derived attributes: a value, and the steps of the body

def depth(category):
    # NVL, +, `.`, parent, 1, 0; and the parent's body, if there is one
    parent = category["PRODUCT_CATEGORY.PARENT"]
    above, steps = depth(parent) if parent else (-1, 0)
    return above + 1, 6 + steps


def designation(definition):
    # +, +, version.of_product.id (`.`, `.`, version), '/', version.id (`.`, version): 8; the inner result of p + 1 characters, and the whole
    version = definition["PRODUCT_DEFINITION.VERSION"]
    inner = version["PRODUCT_VERSION.OF_PRODUCT"]["PRODUCT.ID"] + "/"
    whole = inner + version["PRODUCT_VERSION.ID"]
    return whole, 8 + len(inner) + len(whole)


def full_name(person):
    # +; NVL, +, first_name, ' ', ''; NVL, last_name, '': 9; the inner result if there is a first name, and the whole
    first, last = person["PERSON.FIRST_NAME"], person["PERSON.LAST_NAME"]
    inner = None if first is None else first + " "
    whole = (inner or "") + (last or "")
    return whole, 9 + len(inner or "") + len(whole)


def minutes_ahead(offset):
    # the call, hour_offset, NVL, minute_offset, 0, sense: 6; and the function
    minutes = offset["TIME_OFFSET.MINUTE_OFFSET"]
    value, steps = offset_in_minutes(offset["TIME_OFFSET.HOUR_OFFSET"], 0 if minutes is None else minutes, offset["TIME_OFFSET.SENSE"])
    return value, 6 + steps


def given_roles(approval):
    # the call, the name signatures and its k results; and the function
    signatures = inverse(approval, "APPROVAL", "SIGNATURES")
    value, steps = roles_of(signatures)
    return value, 2 + len(signatures) + steps


def dimensions(unit):
    """What `dimensions` is of a unit, and the steps of its body: none where a file gives it."""
    if is_a(unit, "SI_UNIT"):
        # the call, name; and the function
        value, steps = dimensions_of_si_unit(unit["SI_UNIT.NAME"])
        return value, 2 + steps
    if is_a(unit, "DERIVED_UNIT"):
        # the initialiser, of size 3; twice a call, elements, a literal; and the function twice
        elements = unit["DERIVED_UNIT.ELEMENTS"]
        parts = [exponent_in(elements, place) for place in (1, 2)]
        return [value for value, _ in parts], 4 + 2 * 3 + sum(steps for _, steps in parts)
    return unit["NAMED_UNIT.DIMENSIONS"], 0


def lengths(context):
    # QUERY, units; for each element 1, and IN, the literal, TYPEOF, u, its n types twice: 2 + sum of 5 + 2 n
    units = context["UNIT_CONTEXT.UNITS"]
    return [it for it in units if is_a(it, "LENGTH_UNIT")], 2 + sum(5 + 2 * len(it.types) for it in units)


def edge_end_or_start(edge, end):
    """The vertex at an end of an oriented edge: the body of one of its two derived attributes."""
    # the call, orientation, `.`, element, `.`, element: 6; and the function: IF, choice, RETURN, first or second: 4
    element = edge["ORIENTED_EDGE.ELEMENT"]
    if is_a(element, "ORIENTED_EDGE"):
        raise ValueError("an edge that is turned twice has bodies within, which aren't reckoned here")
    return element["EDGE.EDGE_END" if end is edge["ORIENTED_EDGE.ORIENTATION"] else "EDGE.EDGE_START"], 10


# ---- functions: a value, and the steps of the body

def is_acyclic(definition, below):
    # LOCAL: USEDIN, definition, the literal, its k results; [] of size 1, and its node: 5 + k
    # IF, IN, definition, below, and below's b elements: 4 + b
    usages = definition.users("PRODUCT_DEFINITION_RELATIONSHIP.RELATED_DEFINITION", "ASSEMBLY_USAGE")
    steps = 5 + len(usages) + 4 + len(below)
    if definition in below:
        # RETURN, FALSE
        return False, steps + 2
    # REPEAT, 1, SIZEOF, usages: 4; each turn the assignment, +, above, `.`, `[]`, usages, i: 7 (an element is no aggregate)
    above = list(dict.fromkeys(it["PRODUCT_DEFINITION_RELATIONSHIP.RELATING_DEFINITION"] for it in usages))
    steps += 4 + 7 * len(usages)
    # REPEAT, 1, SIZEOF, above: 4
    steps += 4
    for it in above:
        # each turn IF, NOT, the call, above[i] (`[]`, above, i), +, below, definition: 9; and the function
        value, inner = is_acyclic(it, [*below, definition])
        steps += 9 + inner
        if not value:
            # RETURN, FALSE
            return False, steps + 2
    # RETURN, TRUE
    return True, steps + 2


def dimension_of_space(item):
    # LOCAL: the name item. REPEAT, which has no bounds. In each turn and after the last: EXISTS, at
    at, steps = item, 1 + 1
    while at:
        # the assignment, USEDIN, at, the literal, its results; IF, >, SIZEOF, found, 0
        found = at.users("REPRESENTATION.ITEMS")
        steps += 2 + (4 + len(found)) + 5
        if found:
            # RETURN, `.`, `\`, `.`, `[]`, found, 1
            context = found[0]["REPRESENTATION.CONTEXT_OF_ITEMS"]
            return context["GEOMETRIC_CONTEXT.DIMENSION"] if is_a(context, "GEOMETRIC_CONTEXT") else None, steps + 7
        # the assignment, QUERY, USEDIN, at, the literal, its results; for each of them 1, and IN, the literal, TYPEOF, u, its n types twice;
        # the assignment, `[]`, above, 1
        users = at.users()
        steps += 5 + len(users) + sum(5 + 2 * len(it.types) for it in users) + 4
        at = next((it for it in users if is_a(it, "REPRESENTATION_ITEM")), None)
    # EXISTS, at; RETURN, ?
    return None, steps + 2 + 2


def all_are(items, entity):
    # RETURN, =, SIZEOF, QUERY, items, 0: 6; for each element 1, and NOT, IN, name, TYPEOF, it, its n types twice: 6 + 2 n
    return all(is_a(it, entity) for it in items), 6 + sum(6 + 2 * len(it.types) for it in items)


def dimensions_of_si_unit(name):
    # CASE, name; the labels up to the equal one, or both; RETURN, the constant's name and body
    labels = {"METRE": 1, "GRAM": 2}.get(name, 2)
    return {"METRE": OF_LENGTH, "GRAM": OF_MASS}.get(name, DIMENSIONLESS), 2 + labels + 2 + EXPONENTS


def power_of_prefix(prefix):
    # CASE, prefix; the labels up to the equal one, or all five; RETURN and a literal, with a sign of its own below 0
    names = ["MEGA", "KILO", "CENTI", "MILLI", "MICRO"]
    power = dict(zip(names, [6, 3, -2, -3, -6])).get(prefix, 0)
    labels = names.index(prefix) + 1 if prefix in names else 5
    return power, 2 + labels + (3 if power < 0 else 2)


def exponent_in(elements, place):
    # LOCAL: 0. REPEAT, 1, SIZEOF, elements. RETURN, total: 7
    total, steps = 0, 7
    for it in elements:
        # each turn the assignment, +, total, *; `.`, `[]`, elements, i; `[]`, `.`, `.`, `[]`, elements, i, place: 15; and the body of dimensions
        value, body = dimensions(it["DERIVED_UNIT_ELEMENT.BASE"])
        total += it["DERIVED_UNIT_ELEMENT.EXPONENT"] * value[place - 1]
        steps += 15 + body
    return total, steps


def fits_unit(amount, given):
    # CASE, TRUE; each label IN, the literal, TYPEOF, amount, its n names twice: 4 + 2 n
    # RETURN, =, `.`, given, the body of dimensions, the constant's name and body, and what two aggregates take
    names = typeof_measure(amount)
    ways = [("LENGTH_MEASURE", OF_LENGTH), ("MASS_MEASURE", OF_MASS), ("VOLUME_MEASURE", OF_VOLUME)]
    labels, wanted = next(((at, it) for at, (name, it) in enumerate(ways, 1) if name in names), (3, DIMENSIONLESS))
    value, body = dimensions(given)
    return value == wanted, 2 + labels * (4 + 2 * len(names)) + 4 + body + 1 + EXPONENTS + together(value, wanted)


def leap_year(year):
    # RETURN, OR, AND; three times a comparison, MOD, year and two literals: 3 + 3 * 5
    return year % 4 == 0 and year % 100 != 0 or year % 400 == 0, 18


def days_in_month(month, year):
    # CASE, month; the labels 4, 6, 9, 11, 2 up to the equal one, or all five
    labels = [4, 6, 9, 11, 2]
    steps = 2 + (labels.index(month) + 1 if month in labels else 5)
    if month == 2:
        # IF, the call, year, and the function; RETURN and a literal
        leap, body = leap_year(year)
        return 29 if leap else 28, steps + 3 + body + 2
    # RETURN and a literal
    return 30 if month in labels else 31, steps + 2


def offset_in_minutes(hours, minutes, sense):
    # LOCAL: +, *, hours, 60, minutes: 5. CASE, sense: 2; one label or two
    total = hours * 60 + minutes
    if sense == "AHEAD":
        # RETURN, the sign, total
        return total, 5 + 2 + 1 + 3
    if sense == "BEHIND":
        # BEGIN, the assignment, the sign, total, RETURN, total
        return -total, 5 + 2 + 2 + 6
    # the empty statement; IF, =, total, 0; RETURN, total if it is so
    return total if total == 0 else None, 5 + 2 + 2 + 1 + 4 + (2 if total == 0 else 0)


def roles_of(signatures):
    # LOCAL: [] of size 1, and its node. REPEAT, 1, SIZEOF, signatures. RETURN, roles: 8
    # each turn the assignment, +, roles, `.`, `[]`, signatures, i: 7
    return list(dict.fromkeys(it["APPROVAL_SIGNATURE.ROLE"] for it in signatures)), 8 + 7 * len(signatures)


def first_line(lines):
    # REPEAT, LOINDEX, lines, HIINDEX, lines: 5. RETURN, line: 2
    # each turn IF, NOT, EXISTS, `[]`, lines, i: 6; SKIP if the line isn't there, else the assignment, `[]`, lines, i, and ESCAPE
    left_out = next((at for at, it in enumerate(lines) if it is not None), len(lines))
    found = left_out < len(lines)
    return lines[left_out] if found else None, 7 + 7 * left_out + (6 + 5 if found else 0)


def place_of(mark, line):
    # LOCAL: 0. REPEAT, 1, LENGTH, line. RETURN, place: 7
    # each turn the assignment, i: 2; UNTIL: =, `[]`, line, i, mark: 5; up to the mark, or to the end. Without a line there is no turn
    place = 0 if line is None else line.index(mark) + 1 if mark in line else len(line)
    return place, 7 + 7 * place


def extension_of(name):
    # REPEAT, -, LENGTH, name, 1; 1; the sign, 1: 8; each turn IF, =, `[]`, name, i, '.': 6
    point = name.rfind(".", 0, len(name) - 1) + 1
    if point:
        # RETURN, `[:]`, name, +, i, 1, LENGTH, name; the turns went from the last place but one down to the point
        return name[point:], 8 + 6 * (len(name) - point) + 8
    # RETURN, ''; the turns went from the last place but one down to 1
    return "", 8 + 6 * max(len(name) - 1, 0) + 2


def is_closed(edges):
    # LOCAL: :=:; `.`, `[]`, edges, SIZEOF, edges, and a body; `.`, `[]`, edges, 1, and a body
    end, body = edge_end_or_start(edges[-1], True)
    start, other = edge_end_or_start(edges[0], False)
    closed, steps = end is start, 1 + 5 + body + 4 + other
    # REPEAT, 2, SIZEOF, edges; RETURN, closed
    steps += 4 + 2
    for before, after in zip(edges, edges[1:]):
        # each turn WHILE: closed; and if so the assignment, :=:; `.`, `[]`, edges, -, i, 1, and a body; `.`, `[]`, edges, i, and a body
        steps += 1
        if not closed:
            break
        (end, body), (start, other) = edge_end_or_start(before, True), edge_end_or_start(after, False)
        closed = end is start
        steps += 2 + 6 + body + 4 + other
    return closed, steps


# ---- rules of entities, on one instance

def address_wr1(it):
    # OR, EXISTS, the call, lines, and the function; EXISTS, mail: 6
    line, body = first_line(it["ADDRESS.LINES"])
    return line is not None or it["ADDRESS.MAIL"] is not None, 6 + body


def address_wr2(it):
    # OR, NOT, EXISTS, mail; =, `[]`, mail, the call, '@', mail, and the function, '@': 11
    mail = it["ADDRESS.MAIL"]
    place, body = place_of("@", mail)
    return mail is None or equal(mail[place - 1] if 1 <= place <= len(mail) else None, "@"), 11 + body


def approval_wr1(it):
    # OR; <, state, released; =, SIZEOF, -, required_roles, given_roles and its body, what two aggregates take, 0: 10
    required = it["APPROVAL.REQUIRED_ROLES"]
    given, body = given_roles(it)
    before = it["APPROVAL.STATE"] in ("DRAFT", "SUBMITTED")
    return before or all(role in given for role in required), 10 + body + together(required, given)


def approval_wr2(it):
    # >=, +, required_roles, further_roles, given_roles and its body: 5; what two aggregates take, twice
    required, further = it["APPROVAL.REQUIRED_ROLES"], it["APPROVAL.FURTHER_ROLES"]
    given, body = given_roles(it)
    asked = list(dict.fromkeys([*required, *further]))
    return all(role in asked for role in given), 5 + body + together(required, further) + together(asked, given)


def brep_representation_wr1(it):
    # =, SIZEOF, QUERY, items, 0: 5
    # for each element 1, and <>, SIZEOF, *, the initialiser with two literals, of size 3, TYPEOF, it, its n names, 1: 13 + n;
    # and what aggregates of 2 and n elements take
    items = it["REPRESENTATION.ITEMS"]
    steps = 5 + sum(13 + len(one.types) + together("ab", one.types) for one in items)
    return all(is_a(one, "SOLID_BREP") + is_a(one, "PLACEMENT") == 1 for one in items), steps


def calendar_date_wr1(it):
    # <=, day_component, the call, month_component, year_component: 5; and the function
    days, body = days_in_month(it["CALENDAR_DATE.MONTH_COMPONENT"], it["CALENDAR_DATE.YEAR_COMPONENT"])
    return it["CALENDAR_DATE.DAY_COMPONENT"] <= days, 5 + body


def conversion_based_unit_wr1(it):
    # =, `.`, `.`, factor, dimensions: 5; the body of the other unit's dimensions, and what two aggregates take
    value, body = dimensions(it["CONVERSION_BASED_UNIT.FACTOR"]["MEASURE_WITH_UNIT.UNIT_COMPONENT"])
    own, _ = dimensions(it)
    return value == own, 5 + body + together(value, own)


def date_and_time_wr1(it):
    # OR, EXISTS, minute, NOT, EXISTS, second
    return it["DATE_AND_TIME.MINUTE"] is not None or it["DATE_AND_TIME.SECOND"] is None, 6


def direction_wr1(it):
    # >, SIZEOF, QUERY, ratios, 0: 5; for each element 1, and <>, r, 0.0: 4
    ratios = it["DIRECTION.RATIOS"]
    return any(one != 0 for one in ratios), 5 + 4 * len(ratios)


def document_file_wr1(it):
    # OR, <>, kind, image; VALUE_IN, the initialiser with two literals, of size 3, the call, file_name, and the function; 2 elements: 15
    extension, body = extension_of(it["DOCUMENT_FILE.FILE_NAME"])
    return it["DOCUMENT.KIND"] != "IMAGE" or extension in ("png", "jpg"), 15 + body


def document_file_wr2(it):
    # <>, sum, the literal
    return it["DOCUMENT_FILE.SUM"] != "0" * 32, 3


def edge_curve_wr1(it):
    # OR; =, SIZEOF, uses, 1; XOR; twice `.`, `[]`, uses, a literal: 14; and uses has k results each of the three times
    uses = inverse(it, "EDGE_CURVE", "USES")
    senses = [*(one["ORIENTED_EDGE.ORIENTATION"] for one in uses), None, None]
    return either(len(uses) == 1, one_of_two(senses[0], senses[1])), 14 + 3 * len(uses)


def edge_loop_wr1(it):
    # the call, edges, and the function
    value, body = is_closed(it["EDGE_LOOP.EDGES"])
    return value, 2 + body


def face_wr1(it):
    # <=, SIZEOF, QUERY, bounds, 1: 5; for each element 1, and IN, the literal, TYPEOF, b, its n types twice: 5 + 2 n
    bounds = it["FACE.BOUNDS"]
    return sum(is_a(one, "FACE_OUTER_BOUND") for one in bounds) <= 1, 5 + sum(5 + 2 * len(one.types) for one in bounds)


def face_surface_wr1(it):
    # =, SIZEOF, QUERY, bounds, 0: 5; for each bound 1, and >, SIZEOF, QUERY, `.`, `.`, b, 0: 8
    # and for each of its edges 1, and NOT, IN, the literal, TYPEOF, `.`, e, the n types of its element twice: 7 + 2 n
    bounds = [[edge["ORIENTED_EDGE.ELEMENT"] for edge in one["FACE_BOUND.BOUND"]["EDGE_LOOP.EDGES"]] for one in it["FACE.BOUNDS"]]
    steps = 5 + sum(8 + sum(7 + 2 * len(element.types) for element in one) for one in bounds)
    return all(is_a(element, "EDGE_CURVE") for one in bounds for element in one), steps


def hole_wr1(it):
    # OR, NOT, EXISTS, callout; =, `[]`, callout, 1; the name of the constant, and its body, a literal: 10
    callout = it["HOLE.CALLOUT"]
    return callout is None or equal(callout[:1] or None, "\u2300"), 10


def hole_wr2(it):
    # <>, on_boundary, UNKNOWN
    return negation(equal(it["SHAPE_ASPECT.ON_BOUNDARY"], UNKNOWN)), 3


def hole_pattern_wr1(it):
    # NOT, AND, mirrored, ODD, SIZEOF, holes
    return not (it["HOLE_PATTERN.MIRRORED"] and len(it["HOLE_PATTERN.HOLES"]) % 2 == 1), 6


def hole_pattern_wr2(it):
    # =, SIZEOF, QUERY, holes, 0: 5; for each element 1, and <>, `.`, h, `.`, `[]`, holes, 1: 8
    diameters = [one["HOLE.DIAMETER"] for one in it["HOLE_PATTERN.HOLES"]]
    return all(one == diameters[0] for one in diameters), 5 + 8 * len(diameters)


def kit_wr1(it):
    # NOT, IN, SELF, contents, and its elements
    contents = it["KIT.CONTENTS"]
    return it not in contents, 4 + len(contents)


def unit_of(wanted):
    """The rule that a unit's dimensions are these."""
    def rule(it):
        # =, `.`, `\`, SELF, the body of dimensions, the constant's name and body, and what two aggregates take
        value, body = dimensions(it)
        return value == wanted, 4 + body + 1 + EXPONENTS + together(value, wanted)
    return rule


def material_wr1(it):
    # the interval, 0.0, density, 23.0
    density = it["MATERIAL.DENSITY"]
    return both(less(0, density), less(density, 23)), 4


def measure_representation_wr1(it):
    # the call, items, the literal; and the function
    value, body = all_are(it["REPRESENTATION.ITEMS"], "MEASURE_ITEM")
    return value, 3 + body


def measure_with_unit_wr1(it):
    # the call, value_component, unit_component; and the function
    value, body = fits_unit(it["MEASURE_WITH_UNIT.VALUE_COMPONENT"], it["MEASURE_WITH_UNIT.UNIT_COMPONENT"])
    return value, 3 + body


def oriented_edge_wr1(it):
    # NOT, IN, the literal, TYPEOF, element, its n types twice
    element = it["ORIENTED_EDGE.ELEMENT"]
    return not is_a(element, "ORIENTED_EDGE"), 5 + 2 * len(element.types)


def person_wr1(it):
    # OR, EXISTS, last_name, EXISTS, first_name
    return it["PERSON.LAST_NAME"] is not None or it["PERSON.FIRST_NAME"] is not None, 5


def person_wr2(it):
    # <=, LENGTH, full_name and its body, 60
    name, body = full_name(it)
    return len(name) <= 60, 4 + body


def person_and_organization_assignment_1(it):
    # VALUE_IN, the initialiser with three literals, of size 4, role; 3 elements
    return it["PERSON_AND_ORGANIZATION_ASSIGNMENT.ROLE"] in ("creator", "owner", "supplier"), 1 + (1 + 3 + 4) + 1 + 3


def placed_component_wr1(it):
    # IN, the literal, TYPEOF, `.`, placed, the n types of the definition twice
    definition = it["PLACED_COMPONENT.PLACED"]["PROPERTY_DEFINITION.DEFINITION"]
    return is_a(definition, "NEXT_ASSEMBLY_USAGE"), 5 + 2 * len(definition.types)


def placement_wr1(it):
    # OR, OR, NOT, EXISTS, axis, NOT, EXISTS, ref_direction; <>, `.`, axis, `.`, ref_direction: 13; what two aggregates take, if both are there
    axes = it["PLACEMENT.AXIS"], it["PLACEMENT.REF_DIRECTION"]
    ratios = [one and one["DIRECTION.RATIOS"] for one in axes]
    return None in axes or ratios[0] != ratios[1], 13 + together(*ratios)


def placement_wr2(it):
    # =, the call, SELF, and the function, SIZEOF, `.`, location: 6
    value, body = dimension_of_space(it)
    return equal(value, len(it["PLACEMENT.LOCATION"]["CARTESIAN_POINT.COORDINATES"])), 6 + body


def product_category_wr1(it):
    # <=, depth and its body; the constant's name, and its body, a literal: 4
    value, body = depth(it)
    return value <= 6, 4 + body


def product_definition_wr1(it):
    # the call, SELF, [] of size 1, and its node: 4; and the function
    value, body = is_acyclic(it, [])
    return value, 4 + body


def product_definition_wr2(it):
    # <=, LENGTH, designation and its body, 64
    value, body = designation(it)
    return len(value) <= 64, 4 + body


def product_definition_relationship_wr1(it):
    # :<>:, and two names
    name = "PRODUCT_DEFINITION_RELATIONSHIP."
    return negation(same(it[name + "RELATING_DEFINITION"], it[name + "RELATED_DEFINITION"])), 3


def product_version_wr1(it):
    # OR, NOT, EXISTS, predecessor; AND; :=:, `.`, predecessor, of_product; <, `.`, predecessor, id
    before = it["PRODUCT_VERSION.PREDECESSOR"]
    later = before and both(same(before["PRODUCT_VERSION.OF_PRODUCT"], it["PRODUCT_VERSION.OF_PRODUCT"]),
                            less(before["PRODUCT_VERSION.ID"], it["PRODUCT_VERSION.ID"]))
    return either(before is None, later), 13


def product_version_with_source_wr1(it):
    # OR; =, make_or_buy, source.not_known; XOR; EXISTS, supplier; =, make_or_buy, made
    way, supplied = it["PRODUCT_VERSION_WITH_SOURCE.MAKE_OR_BUY"], it["PRODUCT_VERSION_WITH_SOURCE.SUPPLIER"] is not None
    return way == "NOT_KNOWN" or supplied is not (way == "MADE"), 10


def quantified_usage_wr1(it):
    # >, `.`, quantity, 0
    amount = it["QUANTIFIED_USAGE.QUANTITY"]["MEASURE_WITH_UNIT.VALUE_COMPONENT"]
    return None if amount.type == "DESCRIPTIVE_MEASURE" else amount.value > 0, 4


def representation_relationship_wr1(it):
    # :<>:, and two names
    return negation(same(it["REPRESENTATION_RELATIONSHIP.REP_1"], it["REPRESENTATION_RELATIONSHIP.REP_2"])), 3


def shape_representation_wr1(it):
    # IN, the literal, TYPEOF, context_of_items, its n types twice
    context = it["REPRESENTATION.CONTEXT_OF_ITEMS"]
    return is_a(context, "GEOMETRIC_CONTEXT"), 4 + 2 * len(context.types)


def si_unit_wr1(it):
    # <, **, 10, ABS, the call, prefix, and the function, 1000000: 7
    power, body = power_of_prefix(it["SI_UNIT.PREFIX"])
    return 10 ** abs(power) < 1000000, 7 + body


def spare_kit_wr1(it):
    # <=, contents, `.`, spares_of; and what two aggregates take
    contents, whole = it["KIT.CONTENTS"], it["SPARE_KIT.SPARES_OF"]["KIT.CONTENTS"]
    return all(contents.count(one) <= whole.count(one) for one in contents), 4 + together(contents, whole)


def time_offset_wr1(it):
    # the interval, the sign, 720, minutes_ahead and its body, 840
    value, body = minutes_ahead(it)
    return None if value is None else -720 <= value <= 840, 5 + body


def time_offset_wr2(it):
    # =, MOD, ABS, minutes_ahead and its body, 15, 0
    value, body = minutes_ahead(it)
    return None if value is None else abs(value) % 15 == 0, 6 + body


def time_offset_wr3(it):
    # =, DIV, ABS, minutes_ahead and its body, 60, hour_offset
    value, body = minutes_ahead(it)
    return None if value is None else abs(value) // 60 == it["TIME_OFFSET.HOUR_OFFSET"], 6 + body


def transformed_relationship_wr1(it):
    # IN, `.`, transformation, `.`, rep_1; and its items
    items = it["REPRESENTATION_RELATIONSHIP.REP_1"]["REPRESENTATION.ITEMS"]
    moved = it["TRANSFORMED_RELATIONSHIP.TRANSFORMATION"]["ITEM_DEFINED_TRANSFORMATION.TRANSFORM_ITEM_1"]
    return moved in items, 5 + len(items)


def unit_context_wr1(it):
    # =, SIZEOF, lengths and its body, 1
    value, body = lengths(it)
    return len(value) == 1, 4 + body


def vector_wr1(it):
    # >=, magnitude, 0.0
    return it["VECTOR.MAGNITUDE"] >= 0, 3


# ---- rules over all instances

def extent(instances, entity):
    """The instances of an entity. Its name takes 1 and one for each of them."""
    return [it for it in instances if is_a(it, entity)]


def one_assembly_wr1(instances):
    # <=, SIZEOF, QUERY, the entity's name and its results, 1: 5 + n
    # for each 1, AND; >, SIZEOF, `.`, d, the k components, 0; =, SIZEOF, USEDIN, d, the literal, the u results, 0: 13 + k + u
    definitions = extent(instances, "PRODUCT_DEFINITION")
    steps, above = 5 + len(definitions), 0
    for it in definitions:
        components = inverse(it, "PRODUCT_DEFINITION", "COMPONENTS")
        users = it.users("PRODUCT_DEFINITION_RELATIONSHIP.RELATED_DEFINITION", "ASSEMBLY_USAGE")
        steps += 13 + len(components) + len(users)
        above += len(components) > 0 and len(users) == 0
    return above <= 1, steps


def one_protocol_wr1(instances):
    # =, SIZEOF, QUERY, the entity's name and its results, 0: 5 + n; for each 1, and <>, `.`, p, the literal: 5
    protocols = extent(instances, "APPLICATION_PROTOCOL")
    return all(it["APPLICATION_PROTOCOL.SCHEMA_NAME"] == "mechanical_assembly" for it in protocols), 5 + 6 * len(protocols)


def one_unit_of_length_wr1(instances):
    # LOCAL: the entity's name and its results; TRUE. REPEAT, 2, SIZEOF, contexts. WHERE: alike: 7 + n
    # the assignment, `.`, `\`, `[]`, `.`, `[]`, contexts, 1, 1, and the body of lengths: 9
    contexts = extent(instances, "UNIT_CONTEXT")
    prefixes, bodies = [], []
    for it in contexts:
        units, body = lengths(it)
        prefixes.append(units[0]["SI_UNIT.PREFIX"] if units and is_a(units[0], "SI_UNIT") else None)
        bodies.append(body)
    alike, steps = True, 7 + len(contexts) + 9 + sum(bodies[:1])
    for prefix, body in zip(prefixes[1:], bodies[1:]):
        # each turn WHILE: alike; and if that is TRUE the assignment, =, `.`, `\`, `[]`, `.`, `[]`, contexts, i, 1, and the body of lengths,
        # prefix: 11
        steps += 1
        if alike is not True:
            break
        steps += 11 + body
        alike = equal(prefix, prefixes[0])
    return alike, steps
