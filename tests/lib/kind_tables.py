"""Generated tables for tests/express_kinds.py: each operator, function and place with a value of each kind, and what each gives.

A value of each kind is the result of a function without arguments, which can stand everywhere. A piece is put into its
context at `¤`; `@` in it is a name of its own, so that many pieces that are accepted can be looked at in one schema.
"""
from lib.kind_rules import (BUILT_IN, NOTHING, OPERATORS, Kinds, everything, fault_of, fault_of_built_in, fault_of_case, fault_of_sign,
                        fits, given_by, holds_entity, many, may_be, may_be_aggregate, of, union)

COLOUR, SIZE, D, E = of("enumeration colour"), of("enumeration size"), of("entity d"), of("entity e")
EVERYTHING = everything(("colour", "size"), ("d", "e"))
ENTITIES = of("entity d", "entity e")

# a function, what it is declared as, and its kinds
SAMPLES = [
    ("an_integer", "INTEGER", of("INTEGER")),
    ("a_real", "REAL", of("REAL")),
    ("a_number", "NUMBER", of("INTEGER", "REAL")),
    ("a_string", "STRING (5)", of("STRING")),
    ("a_binary", "BINARY (8) FIXED", of("BINARY")),
    ("a_boolean", "BOOLEAN", of("LOGICAL")),
    ("a_logical", "LOGICAL", of("LOGICAL")),
    ("a_tint", "tint", COLOUR),
    ("a_size", "size", SIZE),
    ("a_d", "d", D),
    ("an_e", "e", E),
    ("integers", "LIST OF INTEGER", many(of("INTEGER"))),
    ("reals", "SET OF measure", many(of("REAL"))),
    ("es", "BAG [1:?] OF e", many(E)),
    ("lists", "ARRAY [1:2] OF OPTIONAL LIST OF STRING", many(many(of("STRING")))),
    ("a_plain", "plain", of("INTEGER", "STRING")),
    ("an_amount", "amount", of("INTEGER", "REAL")),
    ("a_named", "named", of("STRING", "entity d")),
    ("a_choice", "choice", of("INTEGER", "STRING", "LOGICAL", "enumeration colour")),
    ("a_bunch", "bunch", many(of("INTEGER", "entity d"))),
    ("a_rest", "rest", Kinds({"INTEGER"}, of("INTEGER"))),
]
GENERALS = [
    ("a_generic", "GENERIC", EVERYTHING),
    ("generics", "AGGREGATE OF GENERIC", many(EVERYTHING)),
]
DECLARED = [(declared, kinds) for _, declared, kinds in SAMPLES]
PARAMETERS = [*DECLARED, *((declared, kinds) for _, declared, kinds in GENERALS)]
VALUES = [*((name, kinds) for name, _, kinds in (*SAMPLES, *GENERALS)), ("?", NOTHING)]
OF = dict(VALUES)

# what is asked of a result: a function that takes this kind alone
ASKED = [("INTEGER", of("INTEGER")), ("REAL", of("REAL")), ("STRING", of("STRING")), ("BINARY", of("BINARY")),
         ("LOGICAL", of("LOGICAL")), ("colour", COLOUR), ("size", SIZE), ("d", D), ("ints", many(of("INTEGER")))]

TYPES = ("TYPE colour = ENUMERATION OF (red, green); END_TYPE; TYPE tint = colour; END_TYPE; "
         "TYPE size = ENUMERATION OF (small, large); END_TYPE; TYPE label = STRING; END_TYPE; TYPE whole = INTEGER; END_TYPE; "
         "TYPE measure = REAL; END_TYPE; TYPE flag = BOOLEAN; END_TYPE; TYPE ints = LIST OF whole; END_TYPE; "
         "TYPE ds = SET [1:?] OF d; END_TYPE; TYPE plain = SELECT (whole, label); END_TYPE; "
         "TYPE amount = SELECT (whole, measure); END_TYPE; TYPE named = SELECT (label, d); END_TYPE; "
         "TYPE choice = SELECT (plain, tint, flag); END_TYPE; TYPE bunch = SELECT (ints, ds); END_TYPE; "
         "TYPE rest = SELECT (ints, whole); END_TYPE; ENTITY d; m : INTEGER; END_ENTITY; ENTITY e; n : LIST OF STRING; END_ENTITY; ")
WORLD = TYPES + "".join([
    *(f"FUNCTION {name} : {declared}; ; END_FUNCTION; " for name, declared, _ in (*SAMPLES, *GENERALS)),
    *(f"FUNCTION takes_{name} (p : {name}) : LOGICAL; ; END_FUNCTION; " for name, _ in ASKED),
])

WHERE = f"SCHEMA A; {WORLD} ENTITY q; WHERE ¤ END_ENTITY; END_SCHEMA;"
STATEMENTS = f"SCHEMA A; {WORLD} FUNCTION q : GENERIC; ¤ END_FUNCTION; END_SCHEMA;"
FUNCTION = f"SCHEMA A; {WORLD} ¤ END_SCHEMA;"
LOCALS = f"SCHEMA A; {WORLD} FUNCTION q : GENERIC; LOCAL ¤ END_LOCAL; ; END_FUNCTION; END_SCHEMA;"
RULE_LOCALS = f"SCHEMA A; {WORLD} RULE q FOR (e); LOCAL ¤ END_LOCAL; WHERE TRUE; END_RULE; END_SCHEMA;"
CONSTANTS = f"SCHEMA A; CONSTANT ¤ END_CONSTANT; {WORLD} END_SCHEMA;"
DERIVED = f"SCHEMA A; {WORLD} ENTITY q; DERIVE ¤ END_ENTITY; END_SCHEMA;"


def mark(fault):
    return f"⟦{fault}⟧" if fault else ""


def operators():
    """Each operator between each two kinds."""
    for operator in OPERATORS:
        for left, one in VALUES:
            for right, other in VALUES:
                yield WHERE, f"{left} {mark(fault_of(operator, one, other))}{operator} {right};"
    for sign in ("+", "-", "NOT"):
        for value, kinds in VALUES:
            yield WHERE, f"{mark(fault_of_sign(sign, kinds))}{sign} {value};"


def intervals():
    """The two comparisons of an interval, each at its own operator."""
    values = [(name, OF[name]) for name in ("an_integer", "a_real", "a_string", "a_logical", "a_size", "a_d", "integers", "a_plain", "?")]
    for first, second in (("<", "<"), ("<", "<="), ("<=", "<"), ("<=", "<=")):
        for low, one in values:
            for item, other in values:
                for high, third in (values if first == "<=" else values[:1]):
                    faults = mark(fault_of(first, one, other)), mark(fault_of(second, other, third))
                    yield WHERE, f"{{{low} {faults[0]}{first} {item} {faults[1]}{second} {high}}};"


def built_ins():
    """Each function of the language with no argument to three, of each kind."""
    for function, wanted in BUILT_IN.items():
        yield WHERE, f"⟦Arguments⟧{function};"
        for value, kinds in VALUES:
            yield WHERE, f"{mark(fault_of_built_in(function, [kinds]))}{function}({value});"
            if len(wanted) == 2:
                for second, more in VALUES:
                    yield WHERE, f"{mark(fault_of_built_in(function, [kinds, more]))}{function}({value}, {second});"
        good = {"aggregate": "integers", "any": "1", "entity": "a_d", "STRING": "''", "BINARY": "%1", "INTEGER": "1"}
        arguments = [good[it] for it in wanted]
        for count in range(1, 5):
            if count != len(wanted):
                given = (arguments + ["integers"] * 4)[:count]
                yield WHERE, f"⟦Arguments⟧{function}({', '.join(given)});"


def calls():
    """Functions of the schema: each parameter with each argument, and too few and too many arguments."""
    for declared, place in PARAMETERS:
        for more, before in (("", ""), ("o : INTEGER; ", "1, ")):
            context = FUNCTION.replace("¤", f"FUNCTION q ({more}p : {declared}) : GENERIC; ¤ END_FUNCTION;")
            for value, kinds in VALUES:
                yield context, f"RETURN ({mark(None if fits(place, kinds) else 'Arguments')}q({before}{value}));"
    functions = [("", 0), ("(a : INTEGER)", 1), ("(a, b : INTEGER)", 2), ("(a : INTEGER; b, c : INTEGER)", 3)]
    for parameters, wanted in functions:
        context = FUNCTION.replace("¤", f"FUNCTION q {parameters} : INTEGER; ¤ END_FUNCTION;")
        for count in range(5):
            given = f"({', '.join(['1'] * count)})" if count else ""
            yield context, f"RETURN ({mark(None if count == wanted else 'Arguments')}q{given});"


def assigned():
    """Each place that takes a value, declared as each kind, with a value of each kind."""
    for declared, place in DECLARED:
        for value, kinds in VALUES:
            name = mark(None if fits(place, kinds) else "Assign") + "@"
            for context in (LOCALS, RULE_LOCALS, CONSTANTS, DERIVED):
                yield context, f"{name} : {declared} := {value};"
            local = f"FUNCTION q : GENERIC; LOCAL p : {declared}; END_LOCAL; ¤ END_FUNCTION;"
            yield FUNCTION.replace("¤", local), f"{name.replace('@', 'p')} := {value};"
            rule = f"RULE q FOR (e); LOCAL p : {declared}; END_LOCAL; ¤ WHERE TRUE; END_RULE;"
            yield FUNCTION.replace("¤", rule), f"{name.replace('@', 'p')} := {value};"
    for declared, place in PARAMETERS:
        function = f"FUNCTION q (p : {declared}) : {declared}; ¤ END_FUNCTION;"
        for value, kinds in VALUES:
            fault = mark(None if fits(place, kinds) else "Assign")
            yield FUNCTION.replace("¤", function), f"{fault}RETURN ({value});"
            yield FUNCTION.replace("¤", function), f"{fault}p := {value};"


def repeats():
    """Bounds and steps of each kind."""
    for value, kinds in VALUES:
        fault = mark(None if may_be(kinds, "INTEGER") else "Assign")
        for control in (f"@ := {value} TO 2", f"@ := 1 TO {value}", f"@ := 1 TO 2 BY {value}", f"@ := {value} TO {value} BY {value}"):
            yield STATEMENTS, f"REPEAT {fault}{control}; ; END_REPEAT;"
        for control in (f"WHILE {value}", f"UNTIL {value}", f"@ := 1 TO 2 WHILE {value} UNTIL {value}"):
            yield STATEMENTS, f"REPEAT {control}; ; END_REPEAT;"
        yield STATEMENTS, f"IF {value} THEN ; ELSE ; END_IF;"
        yield WHERE, f"{value};"
        yield WHERE, f"QUERY(v <* integers | {value});"


def cases():
    """Selectors and labels of each two kinds."""
    for selector, one in VALUES:
        fault = mark(fault_of_case(one, []))
        yield STATEMENTS, f"{fault}CASE {selector} OF END_CASE;"
        yield STATEMENTS, f"{fault}CASE {selector} OF OTHERWISE : ; END_CASE;"
        for label, other in VALUES:
            fault = mark(fault_of_case(one, [other]))
            yield STATEMENTS, f"{fault}CASE {selector} OF {label} : ; END_CASE;"
            fault = mark(fault_of_case(one, [NOTHING, NOTHING, other]))
            yield STATEMENTS, f"{fault}CASE {selector} OF ?, ? : ; {label} : ; OTHERWISE : ; END_CASE;"


def qualifiers():
    """Indexes, slices, groups and attributes of each kind."""
    for value, kinds in VALUES:
        indexed = may_be_aggregate(kinds) or may_be(kinds, "STRING", "BINARY")
        yield WHERE, f"{value}{mark(None if indexed else 'Qualifier')}[1];"
        sliced = may_be(kinds, "STRING", "BINARY")
        yield WHERE, f"{value}{mark(None if sliced else 'Qualifier')}[1:2];"
        grouped = kinds.none() or kinds.entities()
        yield WHERE, f"{value}{mark(None if grouped else 'Qualifier')}\\d;"
        for attribute, entity in (("m", "d"), ("n", "e")):
            has = f"entity {entity}" in kinds.simple
            yield WHERE, f"{value}{mark(None if has else 'Qualifier')}.{attribute};"
        yield WHERE, f"{value}⟦Qualifier⟧.zz;"
        index = mark(None if may_be(kinds, "INTEGER") else "Qualifier")
        for piece in (f"integers{index}[{value}];", f"a_string{index}[{value}];", f"a_string{index}[{value}:2];",
                      f"a_binary{index}[1:{value}];", f"a_string{index}[{value}:{value}];"):
            yield WHERE, piece


def queries():
    """Sources of each kind."""
    for value, kinds in VALUES:
        fault = mark(None if may_be_aggregate(kinds) else "Operand")
        yield WHERE, f"{fault}QUERY(v <* {value} | TRUE);"
        yield WHERE, f"SIZEOF({fault}QUERY(v <* {value} | EXISTS(v))) = 0;"


def gives():
    """What expressions give: the expression, and its kinds."""
    yield from VALUES
    yield from [("1", of("INTEGER")), ("1.5", of("REAL")), ("-1.5", of("REAL")), ("'a'", of("STRING")), ('"00000041"', of("STRING")),
                ("%01", of("BINARY")), ("TRUE", of("LOGICAL")), ("UNKNOWN", of("LOGICAL")), ("red", COLOUR), ("colour.green", COLOUR),
                ("small", SIZE), ("[]", many(NOTHING)), ("[?]", many(NOTHING)), ("[1]", many(of("INTEGER"))),
                ("[1, 'a', red]", many(of("INTEGER", "STRING", "enumeration colour"))), ("[[an_e], [1.5]]", many(many(of("REAL", "entity e")))),
                ("{1 < 2 < 3}", of("LOGICAL")), ("SELF", of("entity q"))]
    for value, kinds in VALUES:
        for sign in ("+", "-", "NOT"):
            if not fault_of_sign(sign, kinds):
                yield f"{sign} {value}", of("LOGICAL") if sign == "NOT" else NOTHING if kinds.none() else of("INTEGER")
        if may_be_aggregate(kinds):
            yield f"QUERY(v <* {value} | TRUE)", NOTHING if kinds.none() else many(kinds.elements)
        strings = Kinds(kinds.simple & {"STRING", "BINARY"})
        if may_be_aggregate(kinds) or not strings.none():
            yield f"{value}[1]", strings if kinds.elements is None else union(strings, kinds.elements)
        if kinds.none() or not strings.none():
            yield f"{value}[1:2]", strings
        if kinds.none() or kinds.entities():
            yield f"{value}\\d", D
            yield f"{value}\\e", E
        if "entity d" in kinds.simple:
            yield f"{value}.m", of("INTEGER")
        if "entity e" in kinds.simple:
            yield f"{value}.n", many(of("STRING"))
        yield f"NVL({value}, 1)", union(kinds, of("INTEGER"))
        yield f"NVL({value}, ?)", kinds
        yield f"[{value}]", many(kinds)
    yield from [("ABS(1)", of("INTEGER")), ("BLENGTH(%1)", of("INTEGER")), ("EXISTS(1)", of("LOGICAL")), ("HIINDEX([])", of("INTEGER")),
                ("LENGTH('a')", of("INTEGER")), ("LOINDEX([])", of("INTEGER")), ("ODD(1)", of("LOGICAL")), ("SIZEOF([])", of("INTEGER")),
                ("TYPEOF(1)", many(of("STRING"))), ("USEDIN(a_d, '')", many(ENTITIES)), ("VALUE_IN([1], 1)", of("LOGICAL"))]


def sums():
    """What operators give between a few kinds."""
    values = [(name, OF[name]) for name in ("an_integer", "a_string", "integers", "lists", "a_plain", "a_rest", "a_bunch", "?")]
    for operator in OPERATORS:
        for left, one in values:
            for right, other in values:
                if not fault_of(operator, one, other):
                    yield f"{left} {operator} {right}", given_by(operator, one, other)


def asked(expression, kinds, places):
    """Whether the expression is taken where one kind alone is, and whether it may hold an entity."""
    for name, place in places:
        yield WHERE, f"{mark(None if fits(place, kinds) else 'Arguments')}takes_{name}({expression});"
    yield WHERE, f"({expression}) {mark('EntityComparison' if holds_entity(kinds) else None)}= ?;"
    if kinds.elements is not None:
        for name, place in places:
            fault = mark(None if fits(place, kinds.elements) else "Arguments")
            yield WHERE, f"QUERY(v <* ({expression}) | {fault}takes_{name}(v));"


def results():
    for expression, kinds in gives():
        yield from asked(expression, kinds, ASKED)
    few = [it for it in ASKED if it[0] in ("INTEGER", "STRING", "LOGICAL", "d", "ints")]
    for expression, kinds in sums():
        yield from asked(expression, kinds, few)


TABLES = (operators, intervals, built_ins, calls, assigned, repeats, cases, qualifiers, queries, results)
