"""Families of exchange files that a stranger may put to keep the program busy.

A family writes a file for a number of something, with the word for what is counted; it answers the file, what its put is
answered, and the text of its schema where that isn't the common one.
"""
from itertools import combinations, islice
from random import Random
from string import ascii_uppercase

from hostile_lines import answer, each

# of each family its word for what is counted, the most of these, and its function
FILES = {}

# the most instances of a model
INSTANCES = 200_000

DEPTH = 16

# an entity for each sort of value
SCHEMA = f"""SCHEMA measured;
TYPE t = INTEGER; END_TYPE;
{"".join(f"TYPE t{k} = {f't{k - 1}' if k else 'INTEGER'}; END_TYPE;" for k in range(15))}
TYPE kind = ENUMERATION OF (a, b); END_TYPE;
ENTITY a; END_ENTITY;
ENTITY i; v : INTEGER; END_ENTITY;
ENTITY r; v : REAL; END_ENTITY;
ENTITY s; v : STRING; END_ENTITY;
ENTITY b; v : BINARY; END_ENTITY;
ENTITY l; v : a; w : STRING; END_ENTITY;
ENTITY li; v : LIST OF INTEGER; END_ENTITY;
ENTITY lr; v : LIST OF REAL; END_ENTITY;
ENTITY ls; v : LIST OF STRING; END_ENTITY;
ENTITY lb; v : LIST OF BINARY; END_ENTITY;
ENTITY lk; v : LIST OF kind; END_ENTITY;
ENTITY la; v : LIST OF a; END_ENTITY;
ENTITY lt; v : LIST OF t; END_ENTITY;
ENTITY ltt; v : LIST OF t14; END_ENTITY;
ENTITY ll; v : LIST OF LIST OF INTEGER; END_ENTITY;
ENTITY deep; v : {"LIST OF " * DEPTH}INTEGER; END_ENTITY;
END_SCHEMA;
"""


def family(counted, most=None):
    """Takes a function over as a family, under its own name."""
    def take(file_of_count):
        FILES[file_of_count.__name__] = (counted, most, file_of_count)
        return file_of_count
    return take


def put(instances):
    """What a put of so many instances is answered."""
    return answer({"ok": {"instances": instances}})


def instance_fault(kind, instance):
    return answer({"refused": {"code": 12, "instance": instance, "kind": kind, "name": "InstanceFault"}})


def twice(instance):
    return instance_fault("Twice", instance)


TOO_MANY = answer({"refused": {"code": 16, "name": "TooMany"}})


def file_fault(kind, at):
    return answer({"refused": {"at": at, "code": 11, "kind": kind, "name": "FileFault"}})


def file_of(data, description="(('a'),'2;1')", more=""):
    return ("ISO-10303-21;HEADER;FILE_DESCRIPTION" + description + ";FILE_NAME('','',(''),(''),'','','');"
            "FILE_SCHEMA(('MEASURED'));" + more + "ENDSEC;DATA;" + data + "ENDSEC;END-ISO-10303-21;\n")


# ---- entities

# As many entities as a schema of 8 MiB may have, in whose names each letter counts.
PARTS = 200_000


def schema_of_parts(name, count):
    """An entity, and all others as its subtypes."""
    subtypes = each(count - 1, lambda k: f"ENTITY {name(k + 1)} SUBTYPE OF({name(0)});END_ENTITY;")
    return f"SCHEMA measured;ENTITY {name(0)};END_ENTITY;{subtypes}END_SCHEMA;"


def plainly(k):
    return f"A{k}"


@family("parts", PARTS)
def parts_of_one(count):
    return file_of(f"#1=({each(count, lambda k: f'A{k}()')});"), put(1), schema_of_parts(plainly, count)


@family("parts", PARTS)
def parts_falling(count):
    parts = each(count, lambda k: f"A{count - 1 - k}()")
    return file_of(f"#1=({parts});"), put(1), schema_of_parts(plainly, count)


@family("parts", 60_000)
def parts_alike(count):
    """Keywords that differ in their last letters alone."""
    def name(k):
        return "A" * 30 + f"{k:06}"
    return file_of(f"#1=({each(count, lambda k: f'{name(k)}()')});"), put(1), schema_of_parts(name, count)


@family("parts", PARTS)
def parts_twice(count):
    parts = each(count, lambda k: f"A{k}()")
    return file_of(f"#1=({parts}A0());"), twice(1), schema_of_parts(plainly, count)


@family("parts", PARTS)
def parts_without_the_first(count):
    """The one above all others is wanting."""
    parts = each(count - 1, lambda k: f"A{k + 1}()")
    return file_of(f"#1=({parts});"), instance_fault("IllegalCombination", 1), schema_of_parts(plainly, count)


@family("parts", PARTS)
def parts_with_a_wrong_one(count):
    """Only the last has a value too many."""
    parts = each(count - 1, lambda k: f"A{k}()")
    return file_of(f"#1=({parts}A{count - 1}(1));"), instance_fault("WrongCount", 1), schema_of_parts(plainly, count)


@family("parts")
def parts_of_one_name(count):
    return file_of(f"#1=({'A()' * count});"), twice(1)


@family("parts")
def parts_of_many(count):
    """Instances of two hundred parts each."""
    one = each(200, lambda k: f"A{k}()")
    return file_of(each(count // 200, lambda k: f"#{k + 1}=({one});")), put(count // 200), schema_of_parts(plainly, 200)


@family("parts", 100_000)
def parts_in_a_chain(count):
    """Each entity is a subtype of the one before it, so that the last is the leaf; it stands first."""
    parts = each(count, lambda k: f"A{count - 1 - k}()")
    return file_of(f"#1=({parts});"), put(1), f"SCHEMA measured;{chain(count)}END_SCHEMA;"


@family("sets", INSTANCES)
def sets_of_types(count):
    """Each instance has another set of entities: six of 26, and the one above them."""
    sets = islice(combinations(ascii_uppercase, 6), count)
    data = "".join(f"#{k + 1}=(ROOT(){'()'.join(one)}());" for k, one in enumerate(sets))
    subtypes = "".join(f"ENTITY {letter} SUBTYPE OF(root);END_ENTITY;" for letter in ascii_uppercase)
    return file_of(data), put(count), f"SCHEMA measured;ENTITY root;END_ENTITY;{subtypes}END_SCHEMA;"


@family("leaves", 150_000)
def leaves(count):
    """Each instance is of another entity."""
    return file_of(each(count, lambda k: f"#{k + 1}=A{k}();")), put(count), schema_of_parts(plainly, count)


def chain(count):
    return "ENTITY A0;END_ENTITY;" + each(count - 1, lambda k: f"ENTITY A{k + 1} SUBTYPE OF(A{k});END_ENTITY;")


@family("leaves", 10_000)
def leaves_of_a_chain(count):
    """An instance of each entity of one chain of subtypes."""
    return file_of(each(count, lambda k: f"#{k + 1}=A{k}();")), put(count), f"SCHEMA measured;{chain(count)}END_SCHEMA;"


@family("leaves", 60_000)
def leaves_below_a_chain(count):
    """An instance of each entity that is below the last of a chain of 2,000."""
    below = each(count, lambda k: f"ENTITY B{k} SUBTYPE OF(A1999);END_ENTITY;")
    return file_of(each(count, lambda k: f"#{k + 1}=B{k}();")), put(count), f"SCHEMA measured;{chain(2000)}{below}END_SCHEMA;"


@family("leaves", 40_000)
def leaves_of_diamonds(count):
    """An instance on each level of diamonds, one upon the other."""
    level = each(count - 1, lambda k: f"ENTITY L{k} SUBTYPE OF(A{k});END_ENTITY;ENTITY R{k} SUBTYPE OF(A{k});END_ENTITY;"
                                      f"ENTITY A{k + 1} SUBTYPE OF(L{k},R{k});END_ENTITY;")
    return file_of(each(count, lambda k: f"#{k + 1}=A{k}();")), put(count), f"SCHEMA measured;ENTITY A0;END_ENTITY;{level}END_SCHEMA;"


# ---- supertype expressions

# Sets are drawn anew for each file, and are the same each time.
SEED = 1994


def schema_of_expression(name, count, expression):
    """An entity whose supertype expression names all others, its subtypes."""
    subtypes = each(count, lambda k: f"ENTITY {name(k)} SUBTYPE OF(R);END_ENTITY;")
    return f"SCHEMA measured;ENTITY R SUPERTYPE OF({expression});END_ENTITY;{subtypes}END_SCHEMA;"


def sets_below(name, sets):
    """Instances of the entity above all and of those of each set."""
    return "".join(f"#{k + 1}=(R(){''.join(f'{name(one)}()' for one in drawn)});" for k, drawn in enumerate(sets))


@family("sets", INSTANCES)
def pairs_of_a_long_andor(count):
    """Two of the 100,000 entities of one ANDOR."""
    draw = Random(SEED)
    sets = (draw.sample(range(100_000), 2) for _ in range(count))
    expression = each(100_000, plainly, " ANDOR ")
    return file_of(sets_below(plainly, sets)), put(count), schema_of_expression(plainly, 100_000, expression)


@family("leaves", INSTANCES)
def leaves_of_a_long_oneof(count):
    """One of the 100,000 entities of one ONEOF."""
    draw = Random(SEED)
    data = each(count, lambda k: f"#{k + 1}={plainly(draw.randrange(100_000))}();")
    expression = f"ONEOF({each(100_000, plainly, ',')})"
    return file_of(data), put(count), schema_of_expression(plainly, 100_000, expression)


@family("sets", INSTANCES)
def triples_of_many_oneofs(count):
    """One of each of three ONEOFs of two, of the 2,000 of an ANDOR."""
    draw = Random(SEED)
    sets = ([2 * one + draw.randrange(2) for one in draw.sample(range(2000), 3)] for _ in range(count))
    expression = each(2000, lambda k: f"ONEOF({plainly(2 * k)},{plainly(2 * k + 1)})", " ANDOR ")
    return file_of(sets_below(plainly, sets)), put(count), schema_of_expression(plainly, 4000, expression)


@family("sets", 35_000)
def many_of_a_long_andor(count):
    """Thirty of the 20,000 entities of one ANDOR."""
    def name(k):
        return f"{ascii_uppercase[k // 1000]}{k % 1000:03}"
    draw = Random(SEED)
    sets = (draw.sample(range(20_000), 30) for _ in range(count))
    expression = each(20_000, name, " ANDOR ")
    return file_of(sets_below(name, sets)), put(count), schema_of_expression(name, 20_000, expression)


# ---- SELECTs

def schema_of_select(types, last, more=""):
    return f"SCHEMA measured;{types}ENTITY a; v : {last}; END_ENTITY;{more}END_SCHEMA;"


@family("values")
def bare_lists_at_selects(count):
    """Lists as deep as they may be, each at a SELECT of two aggregates of SELECTs, and none takes what lies in them."""
    types = each(DEPTH, lambda k: f"TYPE s{k} = SELECT (l{k}, m{k}); END_TYPE;"
                                  f"TYPE l{k} = LIST OF {f's{k - 1}' if k else 'INTEGER'}; END_TYPE;"
                                  f"TYPE m{k} = SET OF {f's{k - 1}' if k else 'REAL'}; END_TYPE;")
    deep = "(" * (DEPTH - 1) + "'a'" + ")" * (DEPTH - 1)
    data = each(count, lambda k: f"#{k + 1}=A({deep});")
    return file_of(data), instance_fault("WrongKind", 1), schema_of_select(types, f"s{DEPTH - 2}")


@family("values")
def bare_lists_taken_at_selects(count):
    """The same, where just one of the two takes each."""
    types = each(DEPTH, lambda k: f"TYPE s{k} = SELECT (l{k}, m{k}); END_TYPE;"
                                  f"TYPE l{k} = LIST OF {f's{k - 1}' if k else 'STRING'}; END_TYPE;"
                                  f"TYPE m{k} = SET OF {f'n{k - 1}' if k else 'REAL'}; END_TYPE;"
                                  f"TYPE n{k} = SELECT (o{k}, p{k}); END_TYPE;"
                                  f"TYPE o{k} = LIST OF {f'n{k - 1}' if k else 'REAL'}; END_TYPE;"
                                  f"TYPE p{k} = BAG OF {f'n{k - 1}' if k else 'INTEGER'}; END_TYPE;")
    deep = "(" * (DEPTH - 1) + "'a'" + ")" * (DEPTH - 1)
    least = min(count, INSTANCES)
    return file_of(each(least, lambda k: f"#{k + 1}=A({deep});")), put(least), schema_of_select(types, f"s{DEPTH - 2}")


@family("values")
def bare_lists_at_many_selects(count):
    """Lists in lists at a SELECT of a hundred aggregates of other SELECTs, of which one takes what lies in them."""
    types = each(100, lambda k: f"TYPE a{k} = LIST OF t{k}; END_TYPE;TYPE t{k} = SELECT (b{k}); END_TYPE;"
                                f"TYPE b{k} = LIST OF {'REAL' if k else 'STRING'}; END_TYPE;")
    types += f"TYPE s = SELECT ({each(100, lambda k: f'a{k}', ',')}); END_TYPE;"
    value = "(('a'))"
    return file_of(f"#1=A(({value}{(',' + value) * count}));"), put(1), schema_of_select(types, "LIST OF s")


SELECTS = 10_000
RENAMINGS = 100_000


@family("values")
def selects_in_a_chain(count):
    """Values under the name of the innermost type of a chain of SELECTs."""
    chain = each(SELECTS, lambda k: f"TYPE s{k + 1} = SELECT (s{k}, t{k + 1}); END_TYPE;TYPE t{k + 1} = STRING; END_TYPE;")
    types = "TYPE t0 = INTEGER; END_TYPE;TYPE s0 = SELECT (t0); END_TYPE;" + chain
    data = f"#1=A((T0(1){',T0(1)' * count}));"
    return file_of(data), put(1), schema_of_select(types, f"LIST OF s{SELECTS}")


@family("values")
def selects_in_diamonds(count):
    """SELECTs that are reached by two ways each, over and over."""
    diamonds = each(SELECTS, lambda k: f"TYPE s{k + 1} = SELECT (u{k}, v{k}); END_TYPE;"
                                       f"TYPE u{k} = SELECT (s{k}); END_TYPE;TYPE v{k} = SELECT (s{k}); END_TYPE;")
    types = "TYPE t0 = INTEGER; END_TYPE;TYPE s0 = SELECT (t0); END_TYPE;" + diamonds
    data = f"#1=A((1{',1' * count}));"
    return file_of(data), put(1), schema_of_select(types, f"LIST OF s{SELECTS}")


@family("items")
def items_of_a_long_enumeration(count):
    """Each is the last of many."""
    items = each(SELECTS, lambda k: f"i{k}", ",")
    item = f".I{SELECTS - 1}."
    schema = schema_of_select(f"TYPE k = ENUMERATION OF ({items}); END_TYPE;", "LIST OF k")
    return file_of(f"#1=A(({item}{(',' + item) * count}));"), put(1), schema


@family("values")
def bare_values_at_a_wide_select(count):
    """Strings at a SELECT of many types, of which one takes them."""
    types = each(1000, lambda k: f"TYPE t{k} = {'STRING' if k == 0 else 'INTEGER'}; END_TYPE;")
    types += f"TYPE s = SELECT ({each(1000, lambda k: f't{k}', ',')}); END_TYPE;"
    data = "#1=A(('a'" + ",'a'" * count + "));"
    return file_of(data), put(1), schema_of_select(types, "LIST OF s")


@family("instances", INSTANCES)
def renamings_in_a_chain(count):
    """Values of a type that is reached by many renamings, and a SELECT that is renamed as often."""
    types = "TYPE t0 = INTEGER; END_TYPE;TYPE s0 = SELECT (t0); END_TYPE;"
    types += each(RENAMINGS, lambda k: f"TYPE t{k + 1} = t{k}; END_TYPE;TYPE s{k + 1} = s{k}; END_TYPE;")
    data = each(count, lambda k: f"#{k + 1}=A(1,1);")
    return file_of(data), put(count), schema_of_select(types, f"s{RENAMINGS}; w : t{RENAMINGS}")


@family("values")
def bare_values_beside_many_aggregates(count):
    """Strings at a SELECT of many aggregates and enumerations, and of one type that takes strings."""
    types = each(999, lambda k: f"TYPE t{k} = {f'ENUMERATION OF (i{k})' if k % 2 else 'LIST OF INTEGER'}; END_TYPE;")
    types += "TYPE t999 = STRING; END_TYPE;"
    types += f"TYPE s = SELECT ({each(1000, lambda k: f't{k}', ',')}); END_TYPE;"
    data = "#1=A(('a'" + ",'a'" * count + "));"
    return file_of(data), put(1), schema_of_select(types, "LIST OF s")


@family("values")
def references_at_selects_in_a_chain(count):
    """References at a SELECT whose innermost one lists an entity."""
    types = "TYPE s0 = SELECT (a); END_TYPE;"
    types += each(SELECTS, lambda k: f"TYPE s{k + 1} = SELECT (s{k}, t{k + 1}); END_TYPE;TYPE t{k + 1} = STRING; END_TYPE;")
    return file_of(f"#1=A((#1{',#1' * count}));"), put(1), schema_of_select(types, f"LIST OF s{SELECTS}")


@family("values")
def bare_lists_at_a_wide_select(count):
    """Lists at a SELECT of many types, of which one is an aggregate."""
    types = each(1000, lambda k: f"TYPE t{k} = {'LIST OF INTEGER' if k == 999 else 'INTEGER'}; END_TYPE;")
    types += f"TYPE s = SELECT ({each(1000, lambda k: f't{k}', ',')}); END_TYPE;"
    return file_of(f"#1=A(((1){',(1)' * count}));"), put(1), schema_of_select(types, "LIST OF s")


@family("items")
def items_at_a_wide_select(count):
    """Items without keywords at a SELECT of many enumerations, of which one has them."""
    types = each(1000, lambda k: f"TYPE k{k} = ENUMERATION OF (i{k}); END_TYPE;")
    types += f"TYPE s = SELECT ({each(1000, lambda k: f'k{k}', ',')}); END_TYPE;"
    return file_of(f"#1=A((.I999.{',.I999.' * count}));"), put(1), schema_of_select(types, "LIST OF s")


WIDE = 50_000


@family("values")
def renamings_of_a_wide_select(count):
    """Strings at a SELECT of many types, of which one takes them, that many types rename one after the other or at once."""
    types = each(WIDE, lambda k: f"TYPE t{k} = {'INTEGER' if k else 'STRING'}; END_TYPE;")
    types += f"TYPE s = SELECT ({each(WIDE, lambda k: f't{k}', ',')}); END_TYPE;TYPE r0 = s; END_TYPE;"
    types += each(RENAMINGS, lambda k: f"TYPE r{k + 1} = {f'r{k}' if k % 2 else 's'}; END_TYPE;")
    data = "#1=A(('a'" + ",'a'" * count + "));"
    return file_of(data), put(1), schema_of_select(types, f"LIST OF r{RENAMINGS}")


# Each with a string, so long that less than the most of a model fit into a file.

@family("instances")
def names_falling(count):
    return file_of(each(count, lambda k: f"#{10 ** 17 - k}=S('{'a' * 20}');")), put(count)


@family("instances")
def names_rising(count):
    return file_of(each(count, lambda k: f"#{10 ** 17 + k}=S('{'a' * 20}');")), put(count)


@family("instances")
def names_turned(count):
    """The names' digits run backwards, so that neighbours are far from each other."""
    return file_of(each(count, lambda k: f"#9{f'{k:06}'[::-1]}=S('{'a' * 30}');")), put(count)


@family("instances")
def names_from_both_ends(count):
    return file_of(each(count, lambda k: f"#{10 ** 15 + (k if k % 2 else -k)}=S('{'a' * 22}');")), put(count)


@family("instances")
def names_twice(count):
    """Only the last stands twice."""
    return file_of(each(count - 1, lambda k: f"#{k + 1}=S('{'a' * 32}');") + f"#{count - 1}=A();"), twice(count - 1)


@family("instances")
def names_the_same(count):
    """A name that stands twice is told before there are too many."""
    return file_of("#1=A();" * count), twice(1)


@family("instances")
def too_many(count):
    return file_of(each(count, lambda k: f"#{k + 1}=A();")), put(count) if count <= INSTANCES else TOO_MANY


# ---- values

def value_of(value, entity):
    return file_of(f"#1={entity}({value});"), put(1)


def faulty_value(value, kind):
    """A file of one instance with a value whose fault lies at its first byte."""
    text, _ = value_of("@", "A")
    return text.replace("@", value), file_fault(kind, text.index("@"))


@family("values")
def values_of_one(count):
    return file_of(f"#1=A(1{',1' * count});"), instance_fault("WrongCount", 1)


@family("elements")
def list_of_integers(count):
    return value_of(f"(1{',1' * count})", "LI")


@family("elements")
def list_of_references(count):
    return value_of(f"(#1{',#1' * count})", "LA")


@family("references")
def references_to_others(count):
    """Each instance refers to one that stands far from it."""
    return file_of(each(count, lambda k: f"#{k + 1}=L(#{k * 7919 % count + 1},'{'a' * 24}');")), put(count)


@family("references")
def references_undefined(count):
    """Only the last refers to nothing."""
    return file_of(f"#1=LA((#1{',#1' * count},#2));"), instance_fault("Undefined", 1)


@family("elements")
def list_of_omitted(count):
    return value_of(f"($,${',$' * count})", "LI")


@family("elements")
def list_with_a_star(count):
    """Only the last is a fault."""
    file, _ = value_of(f"(1{',1' * count},*)", "LI")
    return file, instance_fault("NotDerived", 1)


@family("elements")
def list_of_items(count):
    return value_of(f"(.A.{',.A.' * count})", "LK")


@family("elements")
def list_of_reals(count):
    return value_of(f"(1.{',1.E1' * count})", "LR")


@family("elements")
def list_of_binaries(count):
    return value_of('("0"' + ',"0"' * count + ")", "LB")


@family("lists")
def deep_lists(count):
    return value_of("(" + "(" * 15 + ")" * 15 + ("," + "(" * 15 + ")" * 15) * count + ")", "DEEP")


@family("lists")
def empty_lists(count):
    return value_of("(()" + ",()" * count + ")", "LL")


@family("typed values")
def typed_values(count):
    return value_of("(T(1)" + ",T(1)" * count + ")", "LT")


@family("typed values")
def deep_typed_values(count):
    one = each(15, lambda k: f"T{14 - k}(") + "1" + ")" * 15
    return value_of("(" + one + ("," + one) * count + ")", "LTT")


@family("bytes")
def lists_open(count):
    front = "ISO-10303-21;HEADER;FILE_DESCRIPTION"
    return front + "(" * count, file_fault("Deep", len(front) + 1 + 16)


# ---- strings and numbers

@family("bytes")
def string_long(count):
    return value_of("'" + "a" * count + "'", "S")


@family("bytes")
def string_open(count):
    text, _ = value_of("@", "A")
    at = text.index("@")
    return text[:at] + "'" + "a" * count, file_fault("Open", at)


@family("escapes")
def string_of_apostrophes(count):
    return value_of("'" + "''" * count + "'", "S")


@family("escapes")
def string_of_solidi(count):
    return value_of("'" + "\\\\" * count + "'", "S")


@family("escapes")
def string_of_pages(count):
    return value_of("'" + "\\S\\a" * count + "'", "S")


@family("escapes")
def string_of_codes(count):
    return value_of("'" + "\\X2\\00E9\\X0\\" * count + "'", "S")


@family("escapes")
def string_of_long_codes(count):
    return value_of("'\\X4\\" + "0001F600" * count + "\\X0\\'", "S")


@family("lines")
def string_of_lines(count):
    return value_of("'" + "\n" * count + "'", "S")


@family("lines")
def lines_in_an_escape(count):
    return value_of("'\\X2" + "\n" * count + "\\00E9\\X0\\'", "S")


@family("groups")
def groups_of_lines(count):
    return value_of("'\\X2\\" + "0\n0\nE\n9\n" * count + "\\X0\\'", "S")


@family("groups")
def groups_without_end(count):
    return faulty_value("'\\X2\\" + "00E9" * count + "'", "Escape")


@family("strings")
def strings(count):
    return value_of("('a'" + ",'a'" * count + ")", "LS")


@family("strings")
def strings_with_escapes(count):
    return value_of("('a'" + ",'\\X\\E9\\S\\a'" * count + ")", "LS")


@family("escapes")
def skipped_between(count):
    return value_of("1" + "\\N\\" * count, "I")


@family("digits")
def integer_long(count):
    return value_of("0" * count + "1", "I")


@family("digits")
def integer_too_long(count):
    return faulty_value("9" * count, "Number")


@family("digits")
def real_long(count):
    return value_of("0" * (count // 2) + "1." + "0" * (count // 2), "R")


@family("digits")
def real_too_long(count):
    return faulty_value("9" * count + ".", "Number")


@family("reals")
def reals_of_many_digits(count):
    return value_of("(1." + ",-123456789012345678901234567890.123456E-900" * count + ")", "LR")


@family("digits")
def name_long(count):
    return file_of("#" + "0" * count + "1=A();"), put(1)


@family("digits")
def binary_long(count):
    return value_of('"0' + "F" * count + '"', "B")


@family("letters")
def keyword_long(count):
    return file_of(f"#1={'A' * count}();"), instance_fault("UnknownEntity", 1)


@family("remarks")
def remarks(count):
    return value_of("1" + "/**/" * count, "I")


@family("bytes")
def remark_open(count):
    text, _ = value_of("@", "A")
    at = text.index("@")
    return text[:at] + "/*" + " *" * (count // 2), file_fault("Open", at)


@family("bytes")
def blanks(count):
    return value_of("1" + " " * count, "I")


# ---- the header

@family("strings")
def header_list(count):
    return file_of("#1=A();", f"(('a'{',$' * count}),'2;1')"), put(1)


@family("strings")
def header_strings(count):
    strings_of = ",'a'" * count
    return file_of("#1=A();", f"(('a'{strings_of}),'2;1')"), put(1)


@family("lists")
def header_deep_lists(count):
    deep = "(" * 14 + ")" * 14
    return file_of("#1=A();", f"(({deep}{(',' + deep) * count}),'2;1')"), put(1)


@family("entities")
def header_dropped(count):
    return file_of("#1=A();", more="FILE_POPULATION(1);" * count), put(1)


@family("values")
def header_dropped_long(count):
    return file_of("#1=A();", more=f"FILE_POPULATION((1{',#1' * count}));"), put(1)
