"""Families of schemas and files that are made so that rules take long, for hostile.py.

A family writes a schema and the instances of a file for a number of something, with the word for what is counted. It answers them with
the verdicts that the report then has, by rule; the checks of attributes are TRUE where they aren't named. Who can bring it about is a
partner, by a file alone under a schema as real ones are, or the operator, by a schema.
"""
from itertools import islice, permutations
from typing import NamedTuple

# of each family its word for what is counted, the most of these, who can bring it about, and its function
RULES = {}

INSTANCES = 200_000
FILE = ("ISO-10303-21;HEADER;FILE_DESCRIPTION((''),'2;1');FILE_NAME('','',(''),(''),'','','');FILE_SCHEMA(('MEASURED'));ENDSEC;DATA;\n"
        "{}ENDSEC;END-ISO-10303-21;\n")
# the prime by which `rp_faults` puts values in buckets: its multiples share one
COLLIDING = 4_294_967_291
PARTNER, OPERATOR = "a partner", "the operator"
TRUE, LIMIT = "TRUE", "LIMIT"


class Made(NamedTuple):
    """A schema, the instances of a file, and the verdicts of its rules by their names."""

    schema: str
    instances: str
    verdicts: dict


def family(counted, who=PARTNER, most=None):
    """Takes a function over as a family, under its own name."""
    def take(made_of_count):
        RULES[made_of_count.__name__] = (counted, most, who, made_of_count)
        return made_of_count
    return take


def schema(text):
    return f"SCHEMA measured; {text} END_SCHEMA;\n"


def entity(text):
    return schema(f"ENTITY e; {text} END_ENTITY;")


def lines(count, line):
    """So many instances of E by their names."""
    return "".join(f"#{k}=E({line(k)});\n" for k in range(1, count + 1))


def listed(items):
    return f"({','.join(map(str, items))})"


def orders(count, width=10):
    """So many lists of one count, each with the same whole numbers in another order."""
    return islice(permutations(range(width)), count)


def unique(kind, rows):
    """Rows of one attribute that has to be unique, and is."""
    return Made(entity(f"k : {kind}; UNIQUE u : k;"), lines(len(rows), lambda k: rows[k - 1]), {"U": TRUE})


def asked(clause, attributes, rows, declarations="", verdict=TRUE):
    """A WHERE clause that rows of these attributes are asked."""
    text = f"{declarations} ENTITY e; {attributes} WHERE w : {clause}; END_ENTITY;"
    return Made(schema(text), lines(len(rows), lambda k: rows[k - 1]), {"W": verdict})


# ---- comparisons that no step counts

@family("rows", most=INSTANCES)
def unique_integers_that_collide(count):
    return unique("INTEGER", [k * COLLIDING for k in range(count)])


@family("elements")
def set_of_integers_that_collide(count):
    return Made(entity("k : SET OF INTEGER;"), lines(1, lambda _: listed(k * COLLIDING for k in range(count))), {})


@family("rows", most=INSTANCES)
def unique_lists_in_other_orders(count):
    return unique("LIST OF INTEGER", [listed(it) for it in orders(count)])


@family("elements")
def set_of_lists_in_other_orders(count):
    return Made(entity("k : SET OF LIST OF INTEGER;"), lines(1, lambda _: listed(listed(it) for it in orders(count))), {})


@family("rows", most=2**17)
def unique_lists_that_differ_in_signs(count):
    return unique("LIST OF INTEGER", [listed(k + 1 if row >> k & 1 else -k - 1 for k in range(17)) for row in range(count)])


@family("rows", most=INSTANCES)
def unique_lists_in_lists(count):
    return unique("LIST OF LIST OF INTEGER", [f"(({k},1),({k + 1},2))" for k in range(count)])


def nested(depth, first):
    """Sets of two, one in another, so deep; the leaves are whole numbers from the first on."""
    return str(first) if depth == 0 else f"({nested(depth - 1, first)},{nested(depth - 1, first + 2 ** (depth - 1))})"


def sets_in_sets(depth):
    def made(count):
        kind = "SET OF " * depth + "INTEGER"
        return Made(entity(f"k : {kind};"), lines(count, lambda k: nested(depth, k)), {})
    made.__name__ = f"sets_{depth}_deep"
    family("instances", most=1)(made)


for levels in (5, 7, 10, 15):
    sets_in_sets(levels)


@family("bags", most=2_000)
def in_a_list_of_bags(count):
    bags = listed(listed(range(k, k + 1000)) for k in range(count))
    other = listed(range(count + 999, count - 1, -1))
    return asked("x IN a", "x : BAG OF INTEGER; a : LIST OF BAG OF INTEGER;", [f"{other},{bags}"], verdict="FALSE")


@family("lists", most=2_000)
def in_a_list_of_lists(count):
    members = listed(listed(range(k, k + 1000)) for k in range(count))
    other = listed(range(count, count + 1000))
    return asked("x IN a", "x : LIST OF INTEGER; a : LIST OF LIST OF INTEGER;", [f"{other},{members}"], verdict="FALSE")


def long_texts(name, last):
    """Two texts of two million characters, which are alike but for their last one, compared for each of many instances."""
    def made(count):
        text = "x" * 2_000_000
        instances = f"#1=B('{text}y','{text}{last}');\n" + "".join(f"#{k}=E(#1);\n" for k in range(2, count + 2))
        verdict = TRUE if last == "y" else "FALSE"
        return Made(schema("ENTITY b; s, t : STRING; END_ENTITY; ENTITY e; x : b; WHERE w : x.s = x.t; END_ENTITY;"), instances, {"W": verdict})
    made.__name__ = name
    family("instances", most=INSTANCES - 1)(made)


long_texts("two_long_texts_that_are_equal", "y")
long_texts("two_long_texts_unlike_at_the_end", "z")


@family("instances", most=INSTANCES)
def list_beside_bag(count):
    text = ("TYPE l = LIST OF INTEGER; END_TYPE; TYPE b = BAG OF INTEGER; END_TYPE; TYPE s = SELECT (l, b); END_TYPE; "
            "ENTITY e; k : s; UNIQUE u : k; END_ENTITY;")
    rows = [f"{'B' if k == 0 else 'L'}({listed([*it, 0])})" for k, it in enumerate(orders(count))]
    rows[0] = f"B({listed(range(20, 31))})"
    return Made(schema(text), lines(count, lambda k: rows[k - 1]), {"U": TRUE})


# ---- work in one step

GROWS = ("FUNCTION as_set (b : BAG OF {0}) : SET OF {0}; LOCAL s : SET OF {0} := []; END_LOCAL; "
         "REPEAT i := 1 TO SIZEOF(b); s := s + b[i]; END_REPEAT; RETURN (s); END_FUNCTION;")


def set_that_grows(name, kind, element, rows):
    """`bag_to_set` of a BAG, in so many evaluations."""
    def made(count):
        elements = listed(element(k) for k in range(count))
        return asked("SIZEOF(as_set(k)) >= 0", f"k : BAG OF {kind};", [elements] * rows, GROWS.format(kind), verdict=TRUE)
    made.__name__ = name
    family("elements", most=28_000)(made)


set_that_grows("set_of_integers_that_grows", "INTEGER", str, 1)
set_that_grows("set_of_texts_that_grows", "STRING", lambda k: f"'text {k}'", 1)
set_that_grows("set_that_grows_in_20_evaluations", "INTEGER", str, 20)


@family("elements", OPERATOR, most=66_000)
def set_made_of_an_initialiser(count):
    elements = ",".join(map(str, range(count)))
    text = f"FUNCTION f : INTEGER; LOCAL s : SET OF INTEGER := [{elements}]; END_LOCAL; RETURN (SIZEOF(s)); END_FUNCTION;"
    return asked(f"f = {count}", "k : INTEGER;", ["1"], text)


@family("elements", most=INSTANCES)
def list_that_is_handed_on(count):
    text = ("TYPE n = INTEGER; END_TYPE; FUNCTION f (x : LIST OF n) : INTEGER; RETURN (1); END_FUNCTION; FUNCTION g (x : LIST OF n) : INTEGER; "
            "LOCAL s : INTEGER := 0; END_LOCAL; REPEAT i := 1 TO 1000; s := s + f(x); END_REPEAT; RETURN (s); END_FUNCTION;")
    return asked("g(k) = 1000", "k : LIST OF n;", [listed(range(count))], text)


@family("elements", OPERATOR)
def list_less_an_element(count):
    text = ("FUNCTION f (x : LIST OF INTEGER) : INTEGER; LOCAL s : INTEGER := 0; END_LOCAL; REPEAT i := 1 TO 1000; s := s + SIZEOF(x - i); END_REPEAT; "
            "RETURN (s); END_FUNCTION;")
    return asked("f(k) >= 0", "k : LIST OF INTEGER;", [listed(range(count))], text)


@family("characters", OPERATOR, most=4_000_000)
def slices(count):
    text = ("FUNCTION f (x : STRING) : INTEGER; LOCAL l : LIST OF STRING := []; END_LOCAL; "
            f"REPEAT i := 1 TO 300; l := l + x[2:{count}]; END_REPEAT; RETURN (SIZEOF(l)); END_FUNCTION;")
    return asked("f(k) = 300", "k : STRING;", ["'" + "x" * count + "'"], text)


@family("elements", OPERATOR, most=10_000)
def list_that_grows_down_a_recursion(count):
    text = ("FUNCTION f (x : LIST OF INTEGER; n : INTEGER) : INTEGER; IF n <= 0 THEN RETURN (SIZEOF(x)); END_IF; "
            "RETURN (f(x + n, n - 1)); END_FUNCTION;")
    return asked("f(k, 15) >= 0", "k : LIST OF INTEGER;", [listed(range(count))], text)


@family("entities", OPERATOR, most=2_000)
def attributes_of_one_name(count):
    entities = " ".join(f"ENTITY e{k}; a : INTEGER; END_ENTITY;" for k in range(count))
    text = f"{entities} TYPE s = SELECT ({','.join(f'e{k}' for k in range(count))}); END_TYPE; ENTITY e; x : s; WHERE w : x.a = 1; END_ENTITY;"
    instances = f"#1=E{count - 1}(1);\n" + "".join(f"#{k}=E(#1);\n" for k in range(2, 100_002))
    return Made(schema(text), instances, {"W": TRUE})


@family("locals", OPERATOR, most=2_000)
def locals_without_values(count):
    text = f"FUNCTION f : BOOLEAN; LOCAL {','.join(f'l{k}' for k in range(count))} : INTEGER; END_LOCAL; RETURN (TRUE); END_FUNCTION;"
    return asked("f", "k : INTEGER;", ["1"] * 100_000, text)


# ---- much of it

@family("levels", OPERATOR, most=10_000)
def chain_of_entities(count):
    text = "ENTITY e0; END_ENTITY; " + " ".join(f"ENTITY e{k} SUBTYPE OF (e{k - 1}); END_ENTITY;" for k in range(1, count))
    return Made(schema(text), "#1=E0();\n", {})


@family("levels", OPERATOR, most=8_000)
def rules_of_selects_in_one_another(count):
    types = "TYPE t0 = SELECT (e); WHERE w : EXISTS(SELF); END_TYPE; "
    types += " ".join(f"TYPE t{k} = SELECT (t{k - 1}); WHERE w : EXISTS(SELF); END_TYPE;" for k in range(1, count))
    text = f"{types} ENTITY e; END_ENTITY; ENTITY u; x : t{count - 1}; END_ENTITY;"
    return Made(schema(text), "#1=E();\n#2=U(#1);\n", {"W": TRUE})


@family("users", most=INSTANCES - 1)
def users_of_one_instance(count):
    text = ("ENTITY p; INVERSE s : SET OF e FOR x; WHERE w : SIZEOF(s) > 0; END_ENTITY; ENTITY e; x : p; END_ENTITY;")
    instances = "#1=P();\n" + "".join(f"#{k}=E(#1);\n" for k in range(2, count + 2))
    return Made(schema(text), instances, {"W": TRUE if count < 199_990 else LIMIT, "S": TRUE})


@family("instances", OPERATOR, most=20_000)
def entities_in_a_line(count):
    levels = 250
    text = "ENTITY e0; END_ENTITY; " + " ".join(f"ENTITY e{k} SUBTYPE OF (e{k - 1}); END_ENTITY;" for k in range(1, levels))
    return Made(schema(text), "".join(f"#{k}=E{levels - 1}();\n" for k in range(1, count + 1)), {})


@family("instances", OPERATOR, most=INSTANCES)
def rules_that_were_not_run(count):
    rules = " ".join(f"w{k} : f > 0;" for k in range(110))
    text = ("FUNCTION f : INTEGER; REPEAT i := 1 TO 150000; ; END_REPEAT; RETURN (1); END_FUNCTION; "
            f"ENTITY e; k : INTEGER; WHERE {rules} END_ENTITY;")
    ran = 132
    whole = ran // count
    verdicts = {f"W{k}": TRUE if k < whole else "NOT_RUN" for k in range(110)}
    return Made(schema(text), lines(count, str), verdicts)
