#!/usr/bin/env python3
"""Runs `rp_server check` of the built program on EXPRESS schemas and compares, byte for byte, what it prints of
their names: which are declared, where each may stand, and which fault is told.

    tests/express_names.py [PROGRAM]

A mark as ⟦Undeclared⟧ stands right before the first byte of a fault; of several faults the first is told. What has
no mark is accepted. First each sort of name stands at each place that a name can have; then come rows by hand. The
last line is 'express names: N passed, M failed', and the status is 0 only if none failed.
"""
import sys

from lib.harness import run_parts

# What stands around a piece: something of each sort.
WORLD = ("TYPE t = INTEGER; END_TYPE; TYPE l = ENUMERATION OF (i, j); END_TYPE; "
         "ENTITY d; m : INTEGER; END_ENTITY; ENTITY e; n : INTEGER; END_ENTITY; "
         "FUNCTION f : INTEGER; RETURN (1); END_FUNCTION; FUNCTION g (p, q : INTEGER) : INTEGER; RETURN (p); END_FUNCTION; "
         "RULE r FOR (d); WHERE w : TRUE; END_RULE;")
CONSTANT = "CONSTANT c : INTEGER := 1; {} END_CONSTANT; " + WORLD
DECLARATION = "CONSTANT c : INTEGER := 1; END_CONSTANT; {} " + WORLD
ALGORITHM = DECLARATION.format("FUNCTION x (p : LIST OF INTEGER; s : STRING; u : e) : LOGICAL; LOCAL k : INTEGER; END_LOCAL; {} END_FUNCTION;")
EXPRESSION = ALGORITHM.format("RETURN ({});")
RULE = DECLARATION.format("RULE x FOR (d); LOCAL k : INTEGER; END_LOCAL; {} END_RULE;")
ATTRIBUTES = DECLARATION.format("ENTITY x SUBTYPE OF (e); k : INTEGER; {} END_ENTITY;")

# Names that are nothing of a place's sort, wherever it is.
UNDECLARED = [("nothing", "zz"), ("a rule", "r"), ("the schema", "a"), ("a label", "w"), ("another's attribute", "m"),
              ("another's parameter", "q")]

# where a type's name stands: at @
TYPE_PLACES = [
    ("a constant", CONSTANT, "k : @ := ?;"),
    ("an attribute", ATTRIBUTES, "y : @;"),
    ("an optional attribute", ATTRIBUTES, "y : OPTIONAL @;"),
    ("the second of two attributes", ATTRIBUTES, "y : INTEGER; z : @;"),
    ("a derived attribute", ATTRIBUTES, "DERIVE y : @ := ?;"),
    ("a redeclared attribute", ATTRIBUTES, "SELF\\e.n : @;"),
    ("a redeclared attribute in DERIVE", ATTRIBUTES, "DERIVE SELF\\e.n : @ := ?;"),
    ("a parameter", DECLARATION, "FUNCTION x (y : @) : INTEGER; ; END_FUNCTION;"),
    ("the second of two parameters", DECLARATION, "FUNCTION x (y : INTEGER; z : @) : INTEGER; ; END_FUNCTION;"),
    ("a result", DECLARATION, "FUNCTION x (y : INTEGER) : @; ; END_FUNCTION;"),
    ("a local of a function", DECLARATION, "FUNCTION x : INTEGER; LOCAL y : @; END_LOCAL; ; END_FUNCTION;"),
    ("a local of a rule", DECLARATION, "RULE x FOR (e); LOCAL y : @; END_LOCAL; WHERE TRUE; END_RULE;"),
    ("elements of an ARRAY", DECLARATION, "TYPE x = ARRAY [1:2] OF OPTIONAL UNIQUE @; END_TYPE;"),
    ("elements of a BAG", DECLARATION, "TYPE x = BAG [1:2] OF @; END_TYPE;"),
    ("elements of a LIST", DECLARATION, "TYPE x = LIST OF UNIQUE @; END_TYPE;"),
    ("elements of a SET", DECLARATION, "TYPE x = SET OF @; END_TYPE;"),
    ("elements of elements", ATTRIBUTES, "y : SET OF ARRAY [0:3] OF LIST OF @;"),
    ("elements of an AGGREGATE", DECLARATION, "FUNCTION x (y : AGGREGATE : z OF @) : INTEGER; ; END_FUNCTION;"),
    ("elements of a parameter", DECLARATION, "FUNCTION x (y : LIST OF BAG OF @) : INTEGER; ; END_FUNCTION;"),
    ("elements of a result", DECLARATION, "FUNCTION x : SET OF @; ; END_FUNCTION;"),
    ("a SELECT of one", DECLARATION, "TYPE x = SELECT (@); END_TYPE;"),
    ("the last of a SELECT", DECLARATION, "TYPE x = SELECT (e, l, @); END_TYPE;"),
]
TYPES = [("a type", "t"), ("an enumeration", "l"), ("an entity", "d")]
NO_TYPES = [*UNDECLARED, ("a constant", "c"), ("a function", "f"), ("an item", "i")]

# where an entity's name stands, and one that can stand there
ENTITY_PLACES = [
    ("SUBTYPE OF", DECLARATION, "ENTITY x SUBTYPE OF (@); END_ENTITY;", "e"),
    ("the second of SUBTYPE OF", DECLARATION, "ENTITY x SUBTYPE OF (d, @); END_ENTITY;", "e"),
    ("SUPERTYPE OF", DECLARATION, "ENTITY x SUPERTYPE OF (@); END_ENTITY; ENTITY y SUBTYPE OF (x); END_ENTITY;", "y"),
    ("ABSTRACT SUPERTYPE OF", DECLARATION, "ENTITY x ABSTRACT SUPERTYPE OF (@); END_ENTITY; ENTITY y SUBTYPE OF (x); END_ENTITY;", "y"),
    *[(f"the second of {word}", DECLARATION,
       f"ENTITY x SUPERTYPE OF ({parts}); END_ENTITY; ENTITY y SUBTYPE OF (x); END_ENTITY; ENTITY z SUBTYPE OF (x); END_ENTITY;", "z")
      for word, parts in (("ONEOF", "ONEOF (y, @)"), ("AND", "y AND @"), ("ANDOR", "y ANDOR @"), ("parentheses", "y ANDOR ((@))"))],
    ("INVERSE", ATTRIBUTES, "INVERSE y : @ FOR n;", "e"),
    ("INVERSE of a SET", ATTRIBUTES, "INVERSE y : SET [0:?] OF @ FOR n;", "e"),
    ("INVERSE of a BAG", ATTRIBUTES, "INVERSE y : BAG OF @ FOR n;", "e"),
    ("a redeclared attribute's entity", ATTRIBUTES, "SELF\\@.n : INTEGER;", "e"),
    ("the entity of one that is redeclared in DERIVE", ATTRIBUTES, "DERIVE SELF\\@.n : INTEGER := 1;", "e"),
    ("the entity of an attribute in UNIQUE", ATTRIBUTES, "UNIQUE k, SELF\\@.n;", "e"),
    ("FOR of a rule", DECLARATION, "RULE x FOR (@); WHERE TRUE; END_RULE;", "e"),
    ("the second of FOR", DECLARATION, "RULE x FOR (d, @); WHERE TRUE; END_RULE;", "e"),
    ("a group of a variable", EXPRESSION, "EXISTS(u\\@)", "e"),
    ("a group of SELF", ATTRIBUTES, "WHERE SELF\\@.n = 1;", "e"),
    ("a group behind other qualifiers", EXPRESSION, "EXISTS(u\\e\\@.n)", "e"),
    ("a group in a rule", RULE, "WHERE SIZEOF(QUERY(v <* d | EXISTS(v\\@))) = 0;", "e"),
]
NO_ENTITIES = [*NO_TYPES, ("a type", "t"), ("an enumeration", "l")]

# where a value's name stands
VALUE_PLACES = [
    ("a constant's value", CONSTANT, "k : INTEGER := @;"),
    ("a derived attribute's value", ATTRIBUTES, "DERIVE y : INTEGER := @;"),
    ("the value of one that is redeclared in DERIVE", ATTRIBUTES, "DERIVE SELF\\e.n : INTEGER := @;"),
    ("WHERE of an entity", ATTRIBUTES, "WHERE @ = 1;"),
    ("the second of WHERE", ATTRIBUTES, "WHERE y : TRUE; z : @ = 1;"),
    ("WHERE of a type", DECLARATION, "TYPE x = INTEGER; WHERE SELF = @; END_TYPE;"),
    ("WHERE of a rule", RULE, "WHERE @ = 1;"),
    ("a statement of a rule", RULE, "k := @; WHERE TRUE;"),
    ("a local's value in a rule", DECLARATION, "RULE x FOR (d); LOCAL y : INTEGER := @; END_LOCAL; WHERE TRUE; END_RULE;"),
    ("a local's value in a function", DECLARATION, "FUNCTION x : INTEGER; LOCAL y : INTEGER := @; END_LOCAL; ; END_FUNCTION;"),
    ("the left of an operator", EXPRESSION, "@ = 1"),
    ("the right of an operator", EXPRESSION, "1 = @"),
    ("the last of several operands", EXPRESSION, "1 + 2 - @ = 1"),
    ("a factor", EXPRESSION, "1 + 2 * 3 DIV @ = 1"),
    ("an exponent", EXPRESSION, "2 ** @ = 1"),
    ("behind a sign", EXPRESSION, "1 = -@"),
    ("behind NOT", EXPRESSION, "NOT (@ = 1)"),
    ("within parentheses", EXPRESSION, "((((@)))) = 1"),
    ("behind IN", EXPRESSION, "1 IN [2, [@]]"),
    ("the low end of an interval", EXPRESSION, "{@ < 1 < 2}"),
    ("what an interval holds", EXPRESSION, "{0 < @ <= 2}"),
    ("the high end of an interval", EXPRESSION, "{0 <= 1 < @}"),
    ("an index", EXPRESSION, "p[@] = 1"),
    ("an index of an index", EXPRESSION, "p[p[@]] = 1"),
    ("the first end of a range", EXPRESSION, "s[@:2] = 'b'"),
    ("the second end of a range", EXPRESSION, "s[2:@] = 'b'"),
    ("an argument", EXPRESSION, "g(@, 1) = 1"),
    ("the second argument", EXPRESSION, "g(1, @) = 1"),
    ("an argument of an argument", EXPRESSION, "g(1, g(2, @)) = 1"),
    ("an argument of a function of the language", EXPRESSION, "ABS(@) = 1"),
    ("the second argument of a function of the language", EXPRESSION, "NVL(?, @) = 1"),
    ("an element", EXPRESSION, "SIZEOF([1, @]) = 2"),
    ("the source of a QUERY", EXPRESSION, "SIZEOF(QUERY(v <* [@] | TRUE)) = 1"),
    ("the condition of a QUERY", EXPRESSION, "SIZEOF(QUERY(v <* p | v = @)) = 1"),
    ("the condition of a QUERY within one", EXPRESSION, "SIZEOF(QUERY(v <* p | SIZEOF(QUERY(v <* p | @ = v)) = 1)) = 1"),
    ("an assignment", ALGORITHM, "k := @;"),
    ("RETURN", ALGORITHM, "; RETURN (@ = 1);"),
    ("a compound statement", ALGORITHM, "BEGIN ; BEGIN k := @; END; END;"),
    ("the condition of an IF", ALGORITHM, "IF @ = 1 THEN ; END_IF;"),
    ("THEN", ALGORITHM, "IF TRUE THEN ; k := @; END_IF;"),
    ("ELSE", ALGORITHM, "IF TRUE THEN ; ELSE ; k := @; END_IF;"),
    ("the selector of a CASE", ALGORITHM, "CASE @ OF 1 : ; END_CASE;"),
    ("a label of a CASE", ALGORITHM, "CASE 1 OF @ : ; END_CASE;"),
    ("a later label of a CASE", ALGORITHM, "CASE 1 OF 1 : ; 2, @ : ; END_CASE;"),
    ("an action of a CASE", ALGORITHM, "CASE 1 OF 1 : ; 2 : k := @; END_CASE;"),
    ("OTHERWISE", ALGORITHM, "CASE 1 OF 1 : ; OTHERWISE : k := @; END_CASE;"),
    ("the first bound of a REPEAT", ALGORITHM, "REPEAT v := @ TO 2; ; END_REPEAT;"),
    ("the last bound of a REPEAT", ALGORITHM, "REPEAT v := 1 TO @; ; END_REPEAT;"),
    ("the step of a REPEAT", ALGORITHM, "REPEAT v := 1 TO 9 BY @; ; END_REPEAT;"),
    ("WHILE", ALGORITHM, "REPEAT v := 1 TO 9 WHILE @ = v; ; END_REPEAT;"),
    ("WHILE alone", ALGORITHM, "REPEAT WHILE @ = 1; ; END_REPEAT;"),
    ("UNTIL", ALGORITHM, "REPEAT v := 1 TO 9 WHILE TRUE UNTIL @ = v; ; END_REPEAT;"),
    ("a statement of a REPEAT", ALGORITHM, "REPEAT; ; k := @; END_REPEAT;"),
]
VALUES = [("a constant", "c"), ("a function without arguments", "f")]
NO_VALUES = [*UNDECLARED, ("a type", "t"), ("an enumeration", "l"), ("an entity", "e")]

# where the name of a function that is called stands
CALL_PLACES = [
    ("a call in a function", EXPRESSION, "@(1, 2) = 1"),
    ("a call within a call", EXPRESSION, "g(@(1, 2), 3) = 1"),
    ("a call in an entity", ATTRIBUTES, "WHERE @(1, 2) = 1;"),
    ("a call in a type", DECLARATION, "TYPE x = INTEGER; WHERE SELF = @(1, 2); END_TYPE;"),
    ("a call in a rule", RULE, "k := @(1, 2); WHERE TRUE;"),
    ("a call in a constant", CONSTANT, "k : INTEGER := @(1, 2);"),
]
NO_FUNCTIONS = [*UNDECLARED, ("a constant", "c"), ("a type", "t"), ("an entity", "d"), ("an item", "i"), ("what is declared here", "k")]

# where what is assigned stands
ASSIGNED_PLACES = [
    ("an assignment in a function", ALGORITHM, "@ := ?;"),
    ("an assignment in a REPEAT", ALGORITHM, "REPEAT v := 1 TO 2; @ := ?; END_REPEAT;"),
    ("an assignment in a CASE", ALGORITHM, "CASE 1 OF 1 : @ := ?; END_CASE;"),
    ("an assignment in a rule", RULE, "@ := ?; WHERE y : TRUE;"),
]
NO_VARIABLES = [*UNDECLARED, ("a constant", "c"), ("a type", "t"), ("an entity", "d"), ("a function", "f"), ("an item", "i"),
                ("what it stands in", "x"), ("a variable that is closed or fixed", "v"), ("a label below", "y")]


def at_places(it, places, sorts, mark):
    """Each of these names at each of the places, behind the mark."""
    for place, context, piece, *_ in places:
        for sort, name in sorts:
            look(it, f"{place}: {sort}", context.format(piece.replace("@", mark + name)))


def places(it):
    undeclared = "⟦Undeclared⟧"
    at_places(it, TYPE_PLACES, TYPES, "")
    at_places(it, TYPE_PLACES, NO_TYPES, undeclared)
    for place in ENTITY_PLACES:
        at_places(it, [place], [("an entity", place[3])], "")
    at_places(it, ENTITY_PLACES, NO_ENTITIES, undeclared)
    at_places(it, VALUE_PLACES, VALUES, "")
    at_places(it, VALUE_PLACES, NO_VALUES, undeclared)
    at_places(it, CALL_PLACES, [("a function", "g")], "")
    at_places(it, CALL_PLACES, NO_FUNCTIONS, undeclared)
    at_places(it, ASSIGNED_PLACES, [("a local", "k")], "")
    at_places(it, ASSIGNED_PLACES, NO_VARIABLES, undeclared)


# ---- names that one scope declares

# something of each sort that a schema declares, with the name at @
DECLARED = [
    ("a type", "TYPE @ = INTEGER; END_TYPE;"),
    ("an entity", "ENTITY @; END_ENTITY;"),
    ("a function", "FUNCTION @ : INTEGER; ; END_FUNCTION;"),
    ("a rule", "RULE @ FOR (e); WHERE TRUE; END_RULE;"),
]
# what an entity's own scope declares, in its order: the clause, and what stands in it
OWN = [
    ("an attribute", "", "@ : INTEGER;"),
    ("a derived attribute", "DERIVE", "@ : INTEGER := 1;"),
    ("an inverse attribute", "INVERSE", "@ : e FOR n;"),
    ("a label of UNIQUE", "UNIQUE", "@ : z;"),
    ("a label of WHERE", "WHERE", "@ : TRUE;"),
]


def twice_in_a_schema(it):
    """Each sort after each; constants stand first."""
    again = "⟦DeclaredTwice⟧x"
    look(it, "a constant twice", f"CONSTANT x : INTEGER := 1; {again} : INTEGER := 2; END_CONSTANT;")
    entity = "ENTITY e; END_ENTITY; "
    for second, text in DECLARED:
        look(it, f"{second} after a constant", "CONSTANT x : INTEGER := 1; END_CONSTANT; " + entity + text.replace("@", again))
        for first, before in DECLARED:
            look(it, f"{second} after {first}", entity + before.replace("@", "x") + " " + text.replace("@", again))


def twice_in_an_entity(it):
    """Each sort after each that can stand before it."""
    around = "ENTITY e; n : INTEGER; END_ENTITY; ENTITY y; z : INTEGER; {} END_ENTITY;"
    for at, (first, clause, before) in enumerate(OWN):
        for second, other, text in OWN[at:]:
            pieces = [clause, before.replace("@", "x"), "" if other == clause else other, text.replace("@", "⟦DeclaredTwice⟧x")]
            look(it, f"{second} after {first}", around.format(" ".join(pieces)))


TWICE = [
    ("a name twice in other letters", "ENTITY long_name; END_ENTITY; TYPE ⟦DeclaredTwice⟧Long_NAME = INTEGER; END_TYPE;"),
    ("a name three times", "ENTITY x; END_ENTITY; ENTITY ⟦DeclaredTwice⟧x; END_ENTITY; ENTITY ⟦DeclaredTwice⟧x; END_ENTITY;"),
    ("two attributes of one line", "ENTITY e; x, y, ⟦DeclaredTwice⟧x : INTEGER; END_ENTITY;"),
    ("two labels of UNIQUE", "ENTITY e; a, b : INTEGER; UNIQUE x : a; ⟦DeclaredTwice⟧x : b; END_ENTITY;"),
    ("labels of a type", "TYPE t = INTEGER; WHERE x : SELF > 0; SELF > 1; ⟦DeclaredTwice⟧X : SELF > 2; END_TYPE;"),
    ("two parameters of one line", "FUNCTION f (x, ⟦DeclaredTwice⟧x : INTEGER) : INTEGER; ; END_FUNCTION;"),
    ("two parameters of two lines", "FUNCTION f (x : INTEGER; y, ⟦DeclaredTwice⟧x : STRING) : INTEGER; ; END_FUNCTION;"),
    ("a parameter and a local",
     "FUNCTION f (x : INTEGER) : INTEGER; LOCAL y, ⟦DeclaredTwice⟧x : INTEGER; END_LOCAL; ; END_FUNCTION;"),
    ("two locals of one line", "FUNCTION f : INTEGER; LOCAL x, ⟦DeclaredTwice⟧x : INTEGER := 1; END_LOCAL; ; END_FUNCTION;"),
    ("two locals of two lines",
     "FUNCTION f : INTEGER; LOCAL x : INTEGER; ⟦DeclaredTwice⟧x : STRING; END_LOCAL; ; END_FUNCTION;"),
    ("two locals of a rule",
     "ENTITY e; END_ENTITY; RULE r FOR (e); LOCAL x : INTEGER; ⟦DeclaredTwice⟧x : INTEGER; END_LOCAL; "
     "WHERE TRUE; END_RULE;"),
    ("a local and a label of a rule",
     "ENTITY e; END_ENTITY; RULE r FOR (e); LOCAL x : INTEGER; END_LOCAL; WHERE ⟦DeclaredTwice⟧x : TRUE; END_RULE;"),
    ("two labels of a rule", "ENTITY e; END_ENTITY; RULE r FOR (e); WHERE x : TRUE; ⟦DeclaredTwice⟧x : TRUE; END_RULE;"),
    ("items of one enumeration", "TYPE t = ENUMERATION OF (x, y, ⟦DeclaredTwice⟧x); END_TYPE;"),
    ("items of one enumeration in other letters", "TYPE t = ENUMERATION OF (x, ⟦DeclaredTwice⟧X); END_TYPE;"),
    ("items of two enumerations", "TYPE t = ENUMERATION OF (x, y); END_TYPE; TYPE u = ENUMERATION OF (y, x); END_TYPE;"),
    ("items with the names of declarations",
     "TYPE t = ENUMERATION OF (t, e, f, r, c); END_TYPE; ENTITY e; END_ENTITY; FUNCTION f : INTEGER; ; END_FUNCTION; "
     "RULE r FOR (e); WHERE TRUE; END_RULE; TYPE c = INTEGER; END_TYPE;"),
    ("the schema's name", "ENTITY a; END_ENTITY;"),
    ("attributes and labels with the names of declarations",
     "TYPE t = INTEGER; END_TYPE; ENTITY e; e, t : INTEGER; UNIQUE f : e; WHERE g : TRUE; END_ENTITY; "
     "FUNCTION f : INTEGER; ; END_FUNCTION; FUNCTION g : INTEGER; ; END_FUNCTION;"),
    ("parameters and locals with the names of declarations",
     "ENTITY e; END_ENTITY; FUNCTION f (f, e : INTEGER) : INTEGER; LOCAL g : INTEGER; END_LOCAL; ; END_FUNCTION; "
     "FUNCTION g : INTEGER; ; END_FUNCTION;"),
    ("one name in two scopes",
     "ENTITY e; x : INTEGER; WHERE y : TRUE; END_ENTITY; ENTITY f; x : INTEGER; WHERE y : TRUE; END_ENTITY; "
     "FUNCTION g (x : INTEGER) : INTEGER; ; END_FUNCTION; FUNCTION h (x : INTEGER) : INTEGER; ; END_FUNCTION;"),
    ("a label of a rule with the name of what the rule is for, and of the rule",
     "ENTITY e; END_ENTITY; RULE r FOR (e); WHERE e : TRUE; r : TRUE; END_RULE;"),
    ("an attribute with the name of an inherited one",
     "ENTITY e; x : INTEGER; END_ENTITY; ENTITY f SUBTYPE OF (e); x : INTEGER; END_ENTITY;"),
    ("a label with the name of an inherited attribute",
     "ENTITY e; x : INTEGER; END_ENTITY; ENTITY f SUBTYPE OF (e); WHERE x : TRUE; END_ENTITY;"),
    ("a label with the name of an inherited label",
     "ENTITY e; WHERE x : TRUE; END_ENTITY; ENTITY f SUBTYPE OF (e); WHERE x : TRUE; END_ENTITY;"),
    ("two variables of QUERY and REPEAT of one name",
     "FUNCTION f (p : LIST OF INTEGER) : INTEGER; REPEAT x := 1 TO 2; REPEAT x := 1 TO 2; ; END_REPEAT; END_REPEAT; "
     "RETURN (SIZEOF(QUERY(x <* p | SIZEOF(QUERY(x <* p | x = 1)) = 0))); END_FUNCTION;"),
    ("an attribute that two entities redeclare, and a third names",
     "ENTITY r; a : INTEGER; END_ENTITY; ENTITY s SUBTYPE OF (r); SELF\\r.a : INTEGER; END_ENTITY; "
     "ENTITY e SUBTYPE OF (s); SELF\\s.a : INTEGER; UNIQUE SELF\\s.a; WHERE a = 1; END_ENTITY; "
     "ENTITY f; INVERSE i : e FOR a; END_ENTITY;"),
    ("labels hide nothing",
     "ENTITY e; n : INTEGER; UNIQUE f : n; WHERE c : c = f; END_ENTITY; FUNCTION f : INTEGER; RETURN (c); END_FUNCTION; "
     "FUNCTION c : INTEGER; RETURN (1); END_FUNCTION;"),
    ("a label of a rule hides no entity", "ENTITY e; END_ENTITY; RULE r FOR (e); WHERE e : SIZEOF(e) = 0; END_RULE;"),
    ("the first of two declarations is meant",
     "TYPE x = INTEGER; END_TYPE; ENTITY e; a : x; END_ENTITY; FUNCTION ⟦DeclaredTwice⟧x : INTEGER; ; END_FUNCTION;"),
    ("the first of two declarations is meant, of another sort than its place takes",
     "ENTITY e; a : ⟦Undeclared⟧x; END_ENTITY; FUNCTION x : INTEGER; ; END_FUNCTION; "
     "TYPE ⟦DeclaredTwice⟧x = INTEGER; END_TYPE;"),
    ("the first of two enumerations is meant",
     "TYPE x = ENUMERATION OF (y); END_TYPE; TYPE ⟦DeclaredTwice⟧x = ENUMERATION OF (z); END_TYPE; "
     "FUNCTION f (p : x) : LOGICAL; RETURN ([p = x.y, p = x.⟦Undeclared⟧z] = []); END_FUNCTION;"),
    ("the first of two functions is called",
     "FUNCTION f (p : INTEGER) : INTEGER; RETURN (f(p)); END_FUNCTION; ENTITY ⟦DeclaredTwice⟧f; END_ENTITY;"),
]

# Names enough that they are compared by their hashes, and two more that differ and have one hash.
MANY = " ".join(f"ENTITY m{number}; END_ENTITY;" for number in range(12))
ALIKE, ITS_LIKE = "LLLLLLLLLLLLLLLL", "QLJTILEEJNTPQMFJ"

OF_ONE_HASH = [
    ("many names", MANY + " ENTITY x; END_ENTITY;"),
    ("one of many names twice", MANY + " ENTITY x; END_ENTITY; ENTITY ⟦DeclaredTwice⟧x; END_ENTITY;"),
    ("two of many names twice", MANY + " ENTITY x; END_ENTITY; TYPE ⟦DeclaredTwice⟧M7 = INTEGER; END_TYPE; ENTITY ⟦DeclaredTwice⟧x; END_ENTITY;"),
    ("two names of one hash",
     f"{MANY} ENTITY {ALIKE}; END_ENTITY; TYPE {ITS_LIKE} = INTEGER; END_TYPE; ENTITY e SUBTYPE OF ({ALIKE}); a : {ITS_LIKE}; END_ENTITY;"),
    ("two names of one hash, the other way round",
     f"{MANY} TYPE {ITS_LIKE} = INTEGER; END_TYPE; ENTITY {ALIKE}; END_ENTITY; ENTITY e SUBTYPE OF ({ALIKE}); a : {ITS_LIKE}; END_ENTITY;"),
    ("the second of two names of one hash twice",
     f"{MANY} ENTITY {ALIKE}; END_ENTITY; ENTITY {ITS_LIKE}; END_ENTITY; ENTITY ⟦DeclaredTwice⟧{ITS_LIKE}; END_ENTITY;"),
    ("a name that has the hash of another, and isn't declared", f"{MANY} TYPE {ALIKE} = INTEGER; END_TYPE; ENTITY e; a : ⟦Undeclared⟧{ITS_LIKE}; END_ENTITY;"),
]

# ---- attributes

# e is below s, r and t, and u below e; a stands in both r and t, b, d and i in r alone
FAMILY = ("ENTITY n; k : INTEGER; END_ENTITY; "
          "ENTITY r; a, b : INTEGER; DERIVE d : INTEGER := 1; INVERSE i : n FOR k; END_ENTITY; "
          "ENTITY s SUBTYPE OF (r); c : INTEGER; END_ENTITY; ENTITY t; a : INTEGER; END_ENTITY; "
          "ENTITY e SUBTYPE OF (s, t); o : INTEGER; {} END_ENTITY; ENTITY u SUBTYPE OF (e); z : INTEGER; END_ENTITY;")

# what stands in e
ATTRIBUTE_ROWS = [
    # declared again
    ("redeclared: an attribute of a supertype", "SELF\\s.c : INTEGER;"),
    ("redeclared: one of a supertype's supertype", "SELF\\r.b : INTEGER;"),
    ("redeclared: one that the supertype inherits", "SELF\\s.b : INTEGER;"),
    ("redeclared: one of the second supertype", "SELF\\t.a : INTEGER;"),
    ("redeclared: one that is derived, in DERIVE", "DERIVE SELF\\r.d : INTEGER := 1;"),
    ("redeclared: one that is explicit, in DERIVE", "DERIVE SELF\\s.b : INTEGER := o;"),
    ("redeclared: one that is derived, but not in DERIVE", "SELF\\r.⟦NotAnAttribute⟧d : INTEGER;"),
    ("redeclared: one that is inverse", "SELF\\r.⟦NotAnAttribute⟧i : n;"),
    ("redeclared: one that is inverse, in DERIVE", "DERIVE SELF\\r.⟦NotAnAttribute⟧i : n := ?;"),
    ("redeclared: one that isn't there", "SELF\\r.⟦NotAnAttribute⟧zz : INTEGER;"),
    ("redeclared: one that isn't there, in DERIVE", "DERIVE SELF\\t.⟦NotAnAttribute⟧zz : INTEGER := 1;"),
    ("redeclared: one of another supertype", "SELF\\t.⟦NotAnAttribute⟧b : INTEGER;"),
    ("redeclared: one of a subtype of that supertype", "SELF\\r.⟦NotAnAttribute⟧c : INTEGER;"),
    ("redeclared: one of the entity itself", "SELF\\e.⟦NotAnAttribute⟧o : INTEGER;"),
    ("redeclared: one that the entity itself inherits", "DERIVE SELF\\e.⟦NotAnAttribute⟧b : INTEGER := 1;"),
    ("redeclared: one of a subtype", "SELF\\u.⟦NotAnAttribute⟧z : INTEGER;"),
    ("redeclared: one of an entity beside", "SELF\\n.⟦NotAnAttribute⟧k : INTEGER;"),
    ("redeclared: one twice", "SELF\\r.b : INTEGER; SELF\\r.⟦DeclaredTwice⟧b : INTEGER;"),
    ("redeclared: twice in one line", "SELF\\r.b, SELF\\s.c, SELF\\R.⟦DeclaredTwice⟧B : INTEGER;"),
    ("redeclared: twice through two supertypes", "SELF\\s.b : INTEGER; SELF\\r.⟦DeclaredTwice⟧b : INTEGER;"),
    ("redeclared: twice, the second time in DERIVE", "SELF\\r.b : INTEGER; DERIVE SELF\\s.⟦DeclaredTwice⟧b : INTEGER := 1;"),
    ("redeclared: twice in DERIVE",
     "DERIVE SELF\\r.d : INTEGER := 1; o2 : INTEGER := 2; SELF\\r.⟦DeclaredTwice⟧d : INTEGER := 1;"),
    ("redeclared: three times", "SELF\\r.b, SELF\\r.⟦DeclaredTwice⟧b, SELF\\r.⟦DeclaredTwice⟧b : INTEGER;"),
    ("redeclared: two attributes of one name", "SELF\\r.a : INTEGER; SELF\\t.a : INTEGER;"),
    ("redeclared: two of one name, and one of them again",
     "SELF\\r.a : INTEGER; SELF\\t.a : INTEGER; DERIVE SELF\\s.⟦DeclaredTwice⟧a : INTEGER := 1;"),
    ("redeclared: twice what isn't there", "SELF\\r.⟦NotAnAttribute⟧zz : INTEGER; SELF\\r.⟦NotAnAttribute⟧zz : INTEGER;"),
    ("redeclared: once where it can't be, and once where it can",
     "SELF\\r.⟦NotAnAttribute⟧d : INTEGER; DERIVE SELF\\r.d : INTEGER := 1;"),
    ("redeclared: an own attribute beside of the same name", "b : INTEGER; SELF\\r.b : INTEGER;"),
    ("redeclared: an own one, which isn't what is redeclared", "b : INTEGER; SELF\\e.⟦NotAnAttribute⟧b : INTEGER;"),
    ("redeclared: a label of the same name", "SELF\\r.b : INTEGER; UNIQUE b : o; WHERE c : b = 1;"),
    ("redeclared: an attribute, which stays in scope", "SELF\\s.b : INTEGER; DERIVE SELF\\r.d : INTEGER := b; WHERE b = d;"),
    ("redeclared: the type of a redeclared attribute behind its name", "SELF\\r.⟦NotAnAttribute⟧zz : ⟦Undeclared⟧zz;"),
    ("redeclared: the entity in front of an attribute that can't be looked up", "SELF\\⟦Undeclared⟧zz.zz : INTEGER;"),
    # UNIQUE
    ("own and inherited attributes in UNIQUE", "UNIQUE o; y : b, c; d;"),
    ("an inherited inverse attribute in UNIQUE", "UNIQUE i;"),
    ("own derived and inverse attributes in UNIQUE", "DERIVE v : INTEGER := 1; INVERSE w : n FOR k; UNIQUE v, w;"),
    ("attributes in UNIQUE with their entity",
     "UNIQUE SELF\\e.o, SELF\\e.b, SELF\\s.b, SELF\\r.b, SELF\\r.d, SELF\\r.i, SELF\\t.a;"),
    ("one attribute twice in UNIQUE", "UNIQUE o, o, SELF\\r.b, SELF\\r.b;"),
    ("no attribute in UNIQUE", "UNIQUE o, ⟦NotAnAttribute⟧zz;"),
    ("an attribute of a subtype in UNIQUE", "UNIQUE ⟦NotAnAttribute⟧z;"),
    ("an attribute of another entity in UNIQUE", "UNIQUE ⟦NotAnAttribute⟧k;"),
    ("an entity in UNIQUE", "UNIQUE ⟦NotAnAttribute⟧r;"),
    ("the own label in UNIQUE", "UNIQUE y : ⟦NotAnAttribute⟧y;"),
    ("a label in UNIQUE", "UNIQUE y : o; x : ⟦NotAnAttribute⟧y;"),
    ("a subtype's attribute in UNIQUE with its entity", "UNIQUE SELF\\u.⟦NotAnAttribute⟧z;"),
    ("an inherited attribute in UNIQUE with a subtype", "UNIQUE SELF\\u.⟦NotAnAttribute⟧b;"),
    ("another's attribute in UNIQUE with its entity", "UNIQUE SELF\\n.⟦NotAnAttribute⟧k;"),
    ("an own attribute in UNIQUE with a supertype", "UNIQUE SELF\\r.⟦NotAnAttribute⟧o;"),
    ("an attribute in UNIQUE with the entity beside its own", "UNIQUE SELF\\t.⟦NotAnAttribute⟧b;"),
    # INVERSE
    ("an attribute behind FOR", "INVERSE y : n FOR k;"),
    ("an inherited attribute behind FOR", "INVERSE y : s FOR b; x : SET OF u FOR o;"),
    ("an attribute of the entity itself behind FOR", "INVERSE y : e FOR o;"),
    ("a derived attribute behind FOR", "INVERSE y : r FOR ⟦NotAnAttribute⟧d;"),
    ("an inverse attribute behind FOR", "INVERSE y : s FOR ⟦NotAnAttribute⟧i;"),
    ("the inverse attribute itself behind FOR", "INVERSE y : e FOR ⟦NotAnAttribute⟧y;"),
    ("no attribute behind FOR", "INVERSE y : BAG [0:1] OF n FOR ⟦NotAnAttribute⟧zz;"),
    ("an attribute of a subtype behind FOR", "INVERSE y : r FOR ⟦NotAnAttribute⟧c;"),
    ("an own attribute behind FOR, of another entity", "INVERSE y : n FOR ⟦NotAnAttribute⟧o;"),
    ("an inherited attribute behind FOR, of another entity", "INVERSE y : n FOR ⟦NotAnAttribute⟧b;"),
    # names of attributes in expressions
    ("own and inherited attributes in WHERE", "WHERE o + b * c - d = 1; EXISTS(i);"),
    ("own and inherited attributes in DERIVE", "DERIVE v : INTEGER := o + b + c + d; w : n := i;"),
    ("attributes that are derived below, and by themselves", "DERIVE v : INTEGER := w; w : INTEGER := w;"),
    ("an own inverse attribute in DERIVE", "DERIVE v : INTEGER := w.k; INVERSE w : n FOR k;"),
    ("an attribute of a subtype in WHERE", "WHERE ⟦Undeclared⟧z = 1;"),
    ("an attribute of another entity in DERIVE", "DERIVE v : INTEGER := ⟦Undeclared⟧k;"),
    ("an attribute of another entity behind a point", "DERIVE v : INTEGER := i.k;"),
    ("an attribute of a subtype behind its group", "WHERE SELF\\u.z = 1;"),
    ("an attribute of another entity behind its group", "WHERE SELF\\n.k = 1;"),
    ("a label in WHERE", "WHERE y : o = 1; ⟦Undeclared⟧y;"),
    ("a label of UNIQUE in WHERE", "UNIQUE y : o; WHERE ⟦Undeclared⟧y;"),
]


def attributes(it):
    for name, piece in ATTRIBUTE_ROWS:
        look(it, name, FAMILY.format(piece))


# ---- scopes

SCOPES = [
    # what names of types and entities look at
    ("names of types look past variables",
     "ENTITY e; e : e; END_ENTITY; FUNCTION f (e : e) : e; LOCAL t : LIST OF e; END_LOCAL; RETURN (e\\e); END_FUNCTION;"),
    ("names of types look past attributes", "TYPE t = INTEGER; END_TYPE; ENTITY e; t : t; x : LIST OF t; END_ENTITY;"),
    ("groups look past attributes", "ENTITY e; e : e; WHERE EXISTS(e\\e.e\\e); END_ENTITY;"),
    ("a variable is no type", "FUNCTION f (t : INTEGER; p : ⟦Undeclared⟧t) : INTEGER; ; END_FUNCTION;"),
    ("a variable is no entity", "ENTITY e; END_ENTITY; FUNCTION f (p : e) : e; RETURN (p\\⟦Undeclared⟧p); END_FUNCTION;"),
    ("an attribute is no type", "ENTITY e; t : INTEGER; x : ⟦Undeclared⟧t; END_ENTITY;"),
    ("a type that renames an entity", "ENTITY e; END_ENTITY; TYPE t = ⟦Undeclared⟧e; END_TYPE;"),
    ("a type that renames an entity below", "TYPE t = ⟦Undeclared⟧e; END_TYPE; ENTITY e; END_ENTITY;"),
    ("a type that renames nothing", "TYPE t = ⟦Undeclared⟧u; END_TYPE;"),
    ("a type that renames a function", "FUNCTION f : INTEGER; ; END_FUNCTION; TYPE t = ⟦Undeclared⟧f; END_TYPE;"),
    ("a type that renames a type below", "TYPE t = u; END_TYPE; TYPE u = SELECT (e); END_TYPE; ENTITY e; END_ENTITY;"),
    ("a type of aggregates of an entity", "TYPE t = LIST OF e; END_TYPE; ENTITY e; END_ENTITY;"),
    ("labels of GENERIC and AGGREGATE are no types",
     "FUNCTION f (p : GENERIC : x; q : AGGREGATE : y OF GENERIC : x) : GENERIC : x; RETURN (p); END_FUNCTION;"),
    # what stands twice in a list
    ("twice in SUBTYPE OF", "ENTITY r; END_ENTITY; ENTITY e SUBTYPE OF (r, r); END_ENTITY;"),
    ("twice in a SELECT", "TYPE t = SELECT (e, e, e); END_TYPE; ENTITY e; END_ENTITY;"),
    ("twice in FOR of a rule", "ENTITY e; END_ENTITY; RULE r FOR (e, e); WHERE SIZEOF(e) = 0; END_RULE;"),
    # constants
    ("constants use each other in any order",
     "CONSTANT a : INTEGER := b + c; b : INTEGER := 1; c : INTEGER := c; END_CONSTANT;"),
    ("a constant uses functions, items and types",
     "CONSTANT a : t := x; b : t := t.x; c : INTEGER := f; END_CONSTANT; TYPE t = ENUMERATION OF (x); END_TYPE; "
     "FUNCTION f : INTEGER; RETURN (c); END_FUNCTION;"),
    ("a constant uses no entity", "CONSTANT a : INTEGER := SIZEOF(⟦Undeclared⟧e); END_CONSTANT; ENTITY e; END_ENTITY;"),
    # SELF
    ("SELF in an entity and a type",
     "TYPE t = INTEGER; WHERE SELF > 0; END_TYPE; "
     "ENTITY e; n : INTEGER; DERIVE d : INTEGER := SELF.n; WHERE SIZEOF(QUERY(v <* [1] | v = SELF.n)) = 0; self\\e.n = d; "
     "END_ENTITY;"),
    ("SELF in a constant", "CONSTANT a : INTEGER := ⟦Undeclared⟧SELF; END_CONSTANT;"),
    ("SELF in a function", "FUNCTION f : GENERIC; RETURN (⟦Undeclared⟧SELF); END_FUNCTION;"),
    ("SELF in a local's value", "FUNCTION f : INTEGER; LOCAL a : INTEGER := ⟦Undeclared⟧self; END_LOCAL; ; END_FUNCTION;"),
    ("SELF in a function, behind a group",
     "ENTITY e; n : INTEGER; END_ENTITY; FUNCTION f : INTEGER; RETURN (⟦Undeclared⟧SELF\\e.n); END_FUNCTION;"),
    ("SELF in a rule's statements",
     "ENTITY e; END_ENTITY; RULE r FOR (e); LOCAL a : LOGICAL; END_LOCAL; "
     "a := EXISTS(⟦Undeclared⟧SELF); WHERE a; END_RULE;"),
    ("SELF in a rule's WHERE",
     "ENTITY e; END_ENTITY; RULE r FOR (e); WHERE SIZEOF(QUERY(v <* e | v :=: ⟦Undeclared⟧SELF)) = 0; END_RULE;"),
    # the instances of an entity
    ("an entity in the rule that is for it",
     "ENTITY e; END_ENTITY; RULE r FOR (e); LOCAL k : INTEGER := SIZEOF(e); END_LOCAL; "
     "k := SIZEOF(e); WHERE SIZEOF(e) = k; END_RULE;"),
    ("an entity in a rule that isn't for it",
     "ENTITY e; END_ENTITY; ENTITY x; END_ENTITY; RULE r FOR (e); WHERE SIZEOF(⟦Undeclared⟧x) = 0; END_RULE;"),
    ("an entity in a rule beside the one that is for it",
     "ENTITY e; END_ENTITY; ENTITY x; END_ENTITY; RULE r FOR (e); WHERE SIZEOF(e) = 0; END_RULE; "
     "RULE s FOR (x); WHERE SIZEOF(⟦Undeclared⟧e) = 0; END_RULE;"),
    ("a subtype of what a rule is for",
     "ENTITY e; END_ENTITY; ENTITY x SUBTYPE OF (e); END_ENTITY; "
     "RULE r FOR (e); WHERE SIZEOF(⟦Undeclared⟧x) = 0; END_RULE;"),
    ("a supertype of what a rule is for",
     "ENTITY e; END_ENTITY; ENTITY x SUBTYPE OF (e); END_ENTITY; "
     "RULE r FOR (x); WHERE SIZEOF(⟦Undeclared⟧e) = 0; END_RULE;"),
    ("an entity in its own WHERE", "ENTITY e; WHERE SIZEOF(⟦Undeclared⟧e) = 0; END_ENTITY;"),
    ("an entity in a function that the rule calls",
     "ENTITY e; END_ENTITY; FUNCTION f : INTEGER; RETURN (SIZEOF(⟦Undeclared⟧e)); END_FUNCTION; "
     "RULE r FOR (e); WHERE f = 0; END_RULE;"),
    ("attributes aren't in scope in the rule that is for their entity",
     "ENTITY e; n : INTEGER; END_ENTITY; RULE r FOR (e); WHERE ⟦Undeclared⟧n = 1; END_RULE;"),
    ("what a rule is for isn't assigned", "ENTITY e; END_ENTITY; RULE r FOR (e); ⟦Undeclared⟧e := ?; WHERE TRUE; END_RULE;"),
    ("what a rule is for isn't called", "ENTITY e; END_ENTITY; RULE r FOR (e); WHERE ⟦Undeclared⟧e(1) = 1; END_RULE;"),
    ("a rule's local with the name of what it is for",
     "ENTITY e; END_ENTITY; RULE r FOR (e); LOCAL e : INTEGER := 1; END_LOCAL; e := e + 1; WHERE e = 2; END_RULE;"),
    # variables hide what is outside
    ("a parameter hides a constant",
     "CONSTANT c : INTEGER := 1; END_CONSTANT; "
     "FUNCTION f (c : LIST OF INTEGER) : INTEGER; c := [1]; RETURN (c[1]); END_FUNCTION;"),
    ("a call finds the local of that name",
     "FUNCTION f (p : INTEGER) : INTEGER; RETURN (f(p)); END_FUNCTION; "
     "FUNCTION g : INTEGER; LOCAL f : INTEGER := 1; END_LOCAL; RETURN (⟦Undeclared⟧f(f)); END_FUNCTION;"),
    ("a call finds the parameter with the function's own name",
     "FUNCTION f (f : INTEGER) : INTEGER; RETURN (⟦Undeclared⟧f(1)); END_FUNCTION;"),
    ("a call finds an own attribute",
     "FUNCTION f (p : INTEGER) : INTEGER; RETURN (p); END_FUNCTION; "
     "ENTITY e; f : INTEGER; WHERE ⟦Undeclared⟧f(1) = f; END_ENTITY;"),
    ("a call finds an inherited attribute",
     "FUNCTION f (p : INTEGER) : INTEGER; RETURN (p); END_FUNCTION; ENTITY r; DERIVE f : INTEGER := 1; END_ENTITY; "
     "ENTITY e SUBTYPE OF (r); WHERE ⟦Undeclared⟧f(1) = 1; END_ENTITY;"),
    ("a call finds an own inverse attribute",
     "FUNCTION f (p : INTEGER) : INTEGER; RETURN (p); END_FUNCTION; "
     "ENTITY e; n : INTEGER; INVERSE f : e FOR n; WHERE ⟦Undeclared⟧f(1) = 1; END_ENTITY;"),
    ("a call looks past a subtype's attribute",
     "FUNCTION f (p : INTEGER) : INTEGER; RETURN (p); END_FUNCTION; ENTITY r; WHERE f(1) = 1; END_ENTITY; "
     "ENTITY e SUBTYPE OF (r); f : INTEGER; END_ENTITY;"),
    ("a call looks past a label and an item",
     "FUNCTION f (p : INTEGER) : INTEGER; RETURN (p); END_FUNCTION; TYPE t = ENUMERATION OF (f); END_TYPE; "
     "ENTITY e; WHERE f : f(1) = 1; END_ENTITY;"),
    ("a call finds the variable of a QUERY",
     "FUNCTION f (p : INTEGER) : INTEGER; RETURN (SIZEOF(QUERY(f <* [f(1)] | ⟦Undeclared⟧f(1) = f))); END_FUNCTION;"),
    ("a call finds the variable of a REPEAT",
     "FUNCTION f (p : INTEGER) : INTEGER; REPEAT f := f(1) TO f(2); p := ⟦Undeclared⟧f(3); END_REPEAT; RETURN (f(4)); "
     "END_FUNCTION;"),
    ("a function isn't assigned in itself", "FUNCTION f : INTEGER; ⟦Undeclared⟧f := 1; END_FUNCTION;"),
    ("a local with the function's own name is assigned",
     "FUNCTION f : INTEGER; LOCAL f : INTEGER; END_LOCAL; f := 1; RETURN (f); END_FUNCTION;"),
    ("locals use each other in any order",
     "FUNCTION f (p : INTEGER) : INTEGER; LOCAL a : INTEGER := b + p; b : INTEGER := b; END_LOCAL; "
     "RETURN (a); END_FUNCTION;"),
    ("locals of one line use themselves",
     "FUNCTION f : INTEGER; LOCAL a, b : INTEGER := a + b; END_LOCAL; RETURN (a); END_FUNCTION;"),
    ("locals of a rule use each other",
     "ENTITY e; END_ENTITY; RULE r FOR (e); LOCAL a : INTEGER := b; b : INTEGER := SIZEOF(e); END_LOCAL; "
     "WHERE a = b; END_RULE;"),
    ("locals end with their function",
     "FUNCTION f : INTEGER; LOCAL a : INTEGER; END_LOCAL; RETURN (a); END_FUNCTION; "
     "FUNCTION g : INTEGER; RETURN (⟦Undeclared⟧a); END_FUNCTION;"),
    ("functions use each other in any order",
     "FUNCTION f (p : INTEGER) : INTEGER; RETURN (g(p)); END_FUNCTION; "
     "FUNCTION g (p : INTEGER) : INTEGER; RETURN (f(p)); END_FUNCTION;"),
    ("an attribute hides a constant",
     "CONSTANT c : INTEGER := 1; END_CONSTANT; ENTITY e; c : LIST OF INTEGER; WHERE c[1] = 1; END_ENTITY;"),
    ("the rule of a type sees no attribute",
     "ENTITY e; a : t; END_ENTITY; TYPE t = INTEGER; WHERE SELF = ⟦Undeclared⟧a; END_TYPE;"),
]

TURNS = [
    ("the variable of a REPEAT",
     "FUNCTION f (p : INTEGER) : INTEGER; REPEAT v := 1 TO p BY p WHILE v < p UNTIL v = p; p := v; END_REPEAT; "
     "RETURN (p); END_FUNCTION;"),
    ("the variable of a REPEAT in its first bound",
     "FUNCTION f : INTEGER; REPEAT v := ⟦Undeclared⟧v TO 2; ; END_REPEAT; END_FUNCTION;"),
    ("the variable of a REPEAT in its last bound",
     "FUNCTION f : INTEGER; REPEAT v := 1 TO ⟦Undeclared⟧v; ; END_REPEAT; END_FUNCTION;"),
    ("the variable of a REPEAT in its step",
     "FUNCTION f : INTEGER; REPEAT v := 1 TO 2 BY ⟦Undeclared⟧v; ; END_REPEAT; END_FUNCTION;"),
    ("the variable of a REPEAT behind it",
     "FUNCTION f : INTEGER; REPEAT v := 1 TO 2; ; END_REPEAT; RETURN (⟦Undeclared⟧v); END_FUNCTION;"),
    ("a local of that name in the bounds",
     "FUNCTION f : INTEGER; LOCAL v : INTEGER := 1; END_LOCAL; "
     "REPEAT v := v TO v BY v; ; END_REPEAT; RETURN (v); END_FUNCTION;"),
    ("an outer variable of that name in the bounds",
     "FUNCTION f : INTEGER; REPEAT v := 1 TO 2; REPEAT v := v TO 3; ; END_REPEAT; END_REPEAT; END_FUNCTION;"),
    ("a variable of a REPEAT isn't assigned",
     "FUNCTION f : INTEGER; REPEAT v := 1 TO 2; ⟦Undeclared⟧v := 1; END_REPEAT; END_FUNCTION;"),
    ("a variable of a REPEAT with the name of a local isn't assigned",
     "FUNCTION f : INTEGER; LOCAL v : INTEGER; END_LOCAL; "
     "v := 1; REPEAT v := 1 TO 2; ⟦Undeclared⟧v := 1; END_REPEAT; v := 2; END_FUNCTION;"),
    ("the variable of an outer REPEAT isn't assigned",
     "FUNCTION f (v : INTEGER) : INTEGER; REPEAT v := 1 TO 2; REPEAT w := 1 TO 2; ⟦Undeclared⟧v := 1; END_REPEAT; "
     "END_REPEAT; END_FUNCTION;"),
    ("a REPEAT without a variable hides nothing",
     "FUNCTION f (v : INTEGER) : INTEGER; REPEAT WHILE v > 0; v := v - 1; END_REPEAT; RETURN (v); END_FUNCTION;"),
    ("a REPEAT in an IF and in a CASE",
     "FUNCTION f (p : INTEGER) : INTEGER; REPEAT v := 1 TO 2; IF v = 1 THEN CASE v OF v : p := v; OTHERWISE : p := v; "
     "END_CASE; ELSE BEGIN p := v; END; END_IF; END_REPEAT; RETURN (p); END_FUNCTION;"),
    ("a REPEAT in a rule",
     "ENTITY e; END_ENTITY; RULE r FOR (e); LOCAL k : INTEGER; END_LOCAL; "
     "REPEAT v := 1 TO SIZEOF(e); k := v; END_REPEAT; WHERE k = ⟦Undeclared⟧v; END_RULE;"),
    ("the variable of a QUERY",
     "ENTITY e; p : LIST OF INTEGER; WHERE SIZEOF(QUERY(v <* p | v > SIZEOF(p))) = 0; END_ENTITY;"),
    ("the variable of a QUERY in its source", "ENTITY e; WHERE SIZEOF(QUERY(v <* ⟦Undeclared⟧v | v > 0)) = 0; END_ENTITY;"),
    ("the variable of a QUERY behind it",
     "ENTITY e; p : LIST OF INTEGER; WHERE SIZEOF(QUERY(v <* p | v > 0)) = ⟦Undeclared⟧v; END_ENTITY;"),
    ("the variable of a QUERY hides the attribute that is its source",
     "ENTITY e; p : LIST OF LIST OF INTEGER; WHERE SIZEOF(QUERY(p <* p | p[1] = 1)) = 0; END_ENTITY;"),
    ("the variable of a QUERY hides what the rule is for",
     "ENTITY e; n : INTEGER; END_ENTITY; RULE r FOR (e); WHERE SIZEOF(QUERY(e <* e | e.n = 1)) = 0; END_RULE;"),
    ("QUERYs within each other",
     "ENTITY e; p : LIST OF LIST OF INTEGER; WHERE SIZEOF(QUERY(v <* p | SIZEOF(QUERY(w <* v | w > v[1])) > 0)) = 0; "
     "END_ENTITY;"),
    ("QUERYs of one variable within each other",
     "ENTITY e; p : LIST OF LIST OF INTEGER; WHERE SIZEOF(QUERY(v <* p | SIZEOF(QUERY(v <* v | v > 1)) > 0)) = 0; "
     "END_ENTITY;"),
    ("the variable of a QUERY that is closed",
     "ENTITY e; p : LIST OF LIST OF INTEGER; WHERE SIZEOF(QUERY(v <* p | (SIZEOF(QUERY(w <* v | w > 1)) > 0) AND "
     "(⟦Undeclared⟧w = 1))) = 0; END_ENTITY;"),
    ("a QUERY in the source of another",
     "ENTITY e; p : LIST OF INTEGER; WHERE SIZEOF(QUERY(v <* QUERY(w <* p | w > 0) | v > ⟦Undeclared⟧w)) = 0; END_ENTITY;"),
    ("a QUERY in a REPEAT",
     "FUNCTION f (p : LIST OF INTEGER) : INTEGER; REPEAT v := 1 TO SIZEOF(QUERY(v <* p | v = 1)); "
     "p := QUERY(w <* p | w = v); p := QUERY(v <* p | v = 1); END_REPEAT; RETURN (p[1]); END_FUNCTION;"),
    ("the variable of a QUERY in a constant and a type",
     "CONSTANT c : LIST OF INTEGER := QUERY(v <* [1] | v = 1); END_CONSTANT; "
     "TYPE t = LIST OF INTEGER; WHERE SIZEOF(QUERY(v <* SELF | v = ⟦Undeclared⟧w)) = 0; END_TYPE;"),
]

# ---- items of enumerations

COLOURS = ("TYPE colour = ENUMERATION OF (red, green); END_TYPE; TYPE light = ENUMERATION OF (red, amber); END_TYPE; "
           "TYPE paint = colour; END_TYPE; TYPE size = INTEGER; END_TYPE; TYPE any = SELECT (colour, light); END_TYPE; "
           "ENTITY e; n : colour; END_ENTITY; FUNCTION h (o : colour) : INTEGER; ; END_FUNCTION; RULE w FOR (e); WHERE v : TRUE; END_RULE; ")
# what a function returns
ITEMS = [
    ("an item alone", "p = green"),
    ("an item of a type", "p = colour.green"),
    ("an item of two types", "p = colour.red"),
    ("an item of the second type", "q = light.red"),
    ("an item in other letters", "p = Colour.GREEN"),
    ("an item within calls", "EXISTS(NVL(colour.red, green))"),
    ("an item that isn't there", "p = ⟦Undeclared⟧blue"),
    ("an item that the type hasn't", "p = colour.⟦Undeclared⟧amber"),
    ("an item that no type has", "p = light.⟦Undeclared⟧blue"),
    ("a type that renames an enumeration", "p = ⟦Undeclared⟧paint.red"),
    ("a type of another kind", "p = ⟦Undeclared⟧size.red"),
    ("a SELECT of enumerations", "p = ⟦Undeclared⟧any.red"),
    ("an item of what isn't declared", "p = ⟦Undeclared⟧shade.red"),
    ("an item of an entity", "p = ⟦Undeclared⟧e.red"),
    ("an item of an item", "p = ⟦Undeclared⟧green.red"),
    ("an item of a rule", "p = ⟦Undeclared⟧w.red"),
    ("an item of a label", "p = ⟦Undeclared⟧v.red"),
    ("an item of the schema", "p = ⟦Undeclared⟧a.red"),
    ("an item of another function's parameter", "p = ⟦Undeclared⟧o.red"),
    ("an item of a type, neither of which is declared", "p = ⟦Undeclared⟧shade.tint"),
    ("an enumeration alone", "EXISTS(⟦Undeclared⟧colour)"),
    ("an enumeration with an index", "EXISTS(⟦Undeclared⟧colour[1])"),
    ("an enumeration with a group", "EXISTS(⟦Undeclared⟧colour\\e)"),
    ("an enumeration with a group before the item", "EXISTS(⟦Undeclared⟧colour\\e.red)"),
    ("a variable with the name of an enumeration", "SIZEOF(QUERY(colour <* r | colour.n = green)) = 0"),
    ("an item of the enumeration in the source of such a QUERY",
     "SIZEOF(QUERY(colour <* [colour.red] | colour = green)) = 0"),
    ("a variable with the name of an item", "SIZEOF(QUERY(green <* r | green.n = colour.red)) = 0"),
    ("an item that isn't there, where a variable has the type's name",
     "SIZEOF(QUERY(light <* r | light.n = colour.⟦Undeclared⟧n)) = 0"),
]
MORE_ITEMS = [
    ("an attribute with the name of an enumeration",
     "TYPE x = ENUMERATION OF (a, b); END_TYPE; ENTITY e; x : y; WHERE x.c = b; END_ENTITY; ENTITY y; c : x; END_ENTITY;"),
    ("an inherited attribute with the name of an enumeration",
     "TYPE x = ENUMERATION OF (a, b); END_TYPE; ENTITY y; x : y; c : x; END_ENTITY; "
     "ENTITY e SUBTYPE OF (y); WHERE x.c = b; END_ENTITY;"),
    ("a parameter with the name of an enumeration",
     "TYPE x = ENUMERATION OF (a); END_TYPE; ENTITY y; c : x; END_ENTITY; "
     "FUNCTION f (x : y) : LOGICAL; RETURN (x.c = a); END_FUNCTION;"),
    ("an item with the name of its type",
     "TYPE x = ENUMERATION OF (x, y); END_TYPE; "
     "FUNCTION f (p : x) : LOGICAL; RETURN ((p = x) OR (p = x.x) OR (p = x.y)); END_FUNCTION;"),
    ("an item with the name of an entity",
     "TYPE x = ENUMERATION OF (e); END_TYPE; ENTITY e; a : x; WHERE a = e; a = x.e; END_ENTITY;"),
    ("an item with the name of a type and of a rule",
     "TYPE x = ENUMERATION OF (y, r); END_TYPE; TYPE y = INTEGER; END_TYPE; "
     "ENTITY e; a : x; WHERE a = y; a = r; END_ENTITY; RULE r FOR (e); WHERE TRUE; END_RULE;"),
    ("an item with the name of a type that is no enumeration, as a type",
     "TYPE x = ENUMERATION OF (y); END_TYPE; TYPE y = INTEGER; END_TYPE; "
     "ENTITY e; a : x; b : y; WHERE a = x.y; END_ENTITY;"),
    ("an item with the name of an entity in a rule that isn't for it",
     "TYPE x = ENUMERATION OF (e, d); END_TYPE; ENTITY e; END_ENTITY; ENTITY d; a : x; END_ENTITY; "
     "RULE r FOR (d); WHERE SIZEOF(QUERY(v <* d | v.a = e)) = 0; END_RULE;"),
    ("items in the rule of their type", "TYPE x = ENUMERATION OF (a, b); WHERE SELF <> a; SELF <> x.b; END_TYPE;"),
    ("items aren't assigned", "TYPE x = ENUMERATION OF (a); END_TYPE; FUNCTION f : x; ⟦Undeclared⟧a := x.a; END_FUNCTION;"),
    ("items aren't called",
     "TYPE x = ENUMERATION OF (a); END_TYPE; FUNCTION f : x; RETURN (⟦Undeclared⟧a(1)); END_FUNCTION;"),
    ("items are no types", "TYPE x = ENUMERATION OF (a); END_TYPE; TYPE y = ⟦Undeclared⟧a; END_TYPE;"),
]


def items(it):
    for name, expression in ITEMS:
        function = f"FUNCTION f (p : colour; q : light; r : LIST OF e) : LOGICAL; RETURN ({expression}); END_FUNCTION;"
        look(it, name, COLOURS + function)


# ---- cycles

CYCLES = [
    ("a type that renames itself", "TYPE ⟦CyclicType⟧a = a; END_TYPE;"),
    ("a type that renames itself in other letters", "TYPE ⟦CyclicType⟧ab = Ab; END_TYPE;"),
    ("a type of its own elements", "TYPE ⟦CyclicType⟧a = LIST OF a; END_TYPE;"),
    ("a type of its own elements' elements", "TYPE ⟦CyclicType⟧a = ARRAY [1:2] OF BAG OF SET OF a; END_TYPE;"),
    ("a SELECT of itself", "TYPE ⟦CyclicType⟧a = SELECT (a); END_TYPE;"),
    ("a SELECT of itself behind others",
     "ENTITY e; END_ENTITY; TYPE ⟦CyclicType⟧a = SELECT (e, b, a); END_TYPE; TYPE b = INTEGER; END_TYPE;"),
    ("two types, the lesser one first", "TYPE ⟦CyclicType⟧b = a; END_TYPE; TYPE ⟦CyclicType⟧a = b; END_TYPE;"),
    ("two types through elements and a SELECT",
     "TYPE ⟦CyclicType⟧a = LIST OF b; END_TYPE; TYPE ⟦CyclicType⟧b = SELECT (a); END_TYPE;"),
    ("three types",
     "TYPE ⟦CyclicType⟧a = b; END_TYPE; TYPE ⟦CyclicType⟧b = LIST OF c; END_TYPE; "
     "TYPE ⟦CyclicType⟧c = SELECT (a); END_TYPE;"),
    ("a type that names a cycle",
     "TYPE x = a; END_TYPE; TYPE ⟦CyclicType⟧a = b; END_TYPE; TYPE ⟦CyclicType⟧b = a; END_TYPE;"),
    ("a type that a cycle names",
     "TYPE x = INTEGER; END_TYPE; TYPE ⟦CyclicType⟧a = SELECT (x, b); END_TYPE; TYPE ⟦CyclicType⟧b = a; END_TYPE;"),
    ("two cycles of types",
     "TYPE x = SELECT (c, a); END_TYPE; TYPE ⟦CyclicType⟧c = c; END_TYPE; TYPE ⟦CyclicType⟧a = b; END_TYPE; "
     "TYPE ⟦CyclicType⟧b = a; END_TYPE;"),
    ("two cycles with one type in both",
     "TYPE ⟦CyclicType⟧a = SELECT (b); END_TYPE; TYPE ⟦CyclicType⟧b = SELECT (a, c); END_TYPE; "
     "TYPE ⟦CyclicType⟧c = LIST OF b; END_TYPE;"),
    ("an entity breaks a cycle of a SELECT", "TYPE a = SELECT (e); END_TYPE; ENTITY e; x : a; END_ENTITY;"),
    ("an entity breaks a cycle of elements",
     "TYPE a = SET OF e; END_TYPE; ENTITY e; x : LIST OF b; END_ENTITY; TYPE b = SELECT (a, e); END_TYPE;"),
    ("an entity that holds itself", "ENTITY e; x : e; y : LIST OF e; DERIVE z : e := SELF; INVERSE i : e FOR x; END_ENTITY;"),
    ("a type that its own rule uses",
     "TYPE a = INTEGER; WHERE f(SELF); END_TYPE; FUNCTION f (p : a) : LOGICAL; LOCAL q : a; END_LOCAL; "
     "RETURN (p = q); END_FUNCTION;"),
    ("a type that is held in two ways",
     "TYPE a = SELECT (b, c); END_TYPE; TYPE b = LIST OF d; END_TYPE; TYPE c = SET OF d; END_TYPE; "
     "TYPE d = INTEGER; END_TYPE;"),
    ("an enumeration with an item of its name", "TYPE a = ENUMERATION OF (a); END_TYPE;"),
    ("a type that is declared again of itself", "TYPE a = INTEGER; END_TYPE; TYPE ⟦DeclaredTwice⟧a = LIST OF a; END_TYPE;"),
    ("a cycle that is declared again", "TYPE ⟦CyclicType⟧a = a; END_TYPE; TYPE ⟦DeclaredTwice⟧a = a; END_TYPE;"),
    ("a cycle through the second declaration is none",
     "TYPE a = INTEGER; END_TYPE; TYPE b = a; END_TYPE; TYPE ⟦DeclaredTwice⟧a = b; END_TYPE;"),
    ("a subtype of itself", "ENTITY ⟦CyclicSubtype⟧e SUBTYPE OF (e); END_ENTITY;"),
    ("a subtype of itself in other letters", "ENTITY ⟦CyclicSubtype⟧Ee SUBTYPE OF (eE); END_ENTITY;"),
    ("a subtype of itself behind another", "ENTITY r; END_ENTITY; ENTITY ⟦CyclicSubtype⟧e SUBTYPE OF (r, e); END_ENTITY;"),
    ("two subtypes of each other",
     "ENTITY ⟦CyclicSubtype⟧b SUBTYPE OF (a); END_ENTITY; ENTITY ⟦CyclicSubtype⟧a SUBTYPE OF (b); END_ENTITY;"),
    ("three subtypes in a ring",
     "ENTITY ⟦CyclicSubtype⟧a SUBTYPE OF (c); END_ENTITY; ENTITY ⟦CyclicSubtype⟧b SUBTYPE OF (a); END_ENTITY; "
     "ENTITY ⟦CyclicSubtype⟧c SUBTYPE OF (b); END_ENTITY;"),
    ("an entity below a cycle",
     "ENTITY x SUBTYPE OF (a); END_ENTITY; ENTITY ⟦CyclicSubtype⟧a SUBTYPE OF (b); END_ENTITY; "
     "ENTITY ⟦CyclicSubtype⟧b SUBTYPE OF (a); END_ENTITY;"),
    ("an entity above a cycle",
     "ENTITY x; END_ENTITY; ENTITY ⟦CyclicSubtype⟧a SUBTYPE OF (x, b); END_ENTITY; "
     "ENTITY ⟦CyclicSubtype⟧b SUBTYPE OF (a, x); END_ENTITY;"),
    ("attributes of a cycle below it",
     "ENTITY x SUBTYPE OF (a); DERIVE SELF\\b.m : INTEGER := n; WHERE m = n; END_ENTITY; "
     "ENTITY ⟦CyclicSubtype⟧a SUBTYPE OF (b); n : INTEGER; WHERE m = n; END_ENTITY; "
     "ENTITY ⟦CyclicSubtype⟧b SUBTYPE OF (a); m : INTEGER; WHERE m = n; END_ENTITY;"),
    ("two cycles of subtypes",
     "ENTITY ⟦CyclicSubtype⟧c SUBTYPE OF (d); END_ENTITY; ENTITY ⟦CyclicSubtype⟧a SUBTYPE OF (a); END_ENTITY; "
     "ENTITY ⟦CyclicSubtype⟧d SUBTYPE OF (c); END_ENTITY;"),
    ("two cycles with one entity in both",
     "ENTITY ⟦CyclicSubtype⟧a SUBTYPE OF (b); END_ENTITY; ENTITY ⟦CyclicSubtype⟧b SUBTYPE OF (a, c); END_ENTITY; "
     "ENTITY ⟦CyclicSubtype⟧c SUBTYPE OF (b); END_ENTITY;"),
    ("a subtype that a supertype names", "ENTITY a SUPERTYPE OF (b); END_ENTITY; ENTITY b SUBTYPE OF (a); END_ENTITY;"),
    ("a supertype through two supertypes",
     "ENTITY a SUBTYPE OF (b, c); END_ENTITY; ENTITY b SUBTYPE OF (d); END_ENTITY; ENTITY c SUBTYPE OF (d); END_ENTITY; "
     "ENTITY d; END_ENTITY;"),
    ("an entity that is declared again below itself",
     "ENTITY e; END_ENTITY; ENTITY ⟦DeclaredTwice⟧e SUBTYPE OF (e); END_ENTITY;"),
    ("an entity of a cycle that is declared again",
     "ENTITY ⟦CyclicSubtype⟧e SUBTYPE OF (e); END_ENTITY; ENTITY ⟦DeclaredTwice⟧e SUBTYPE OF (e); END_ENTITY;"),
    ("a cycle of subtypes before one of types",
     "ENTITY ⟦CyclicSubtype⟧e SUBTYPE OF (e); END_ENTITY; TYPE ⟦CyclicType⟧t = t; END_TYPE;"),
    ("a cycle of types before one of subtypes",
     "TYPE ⟦CyclicType⟧t = t; END_TYPE; ENTITY ⟦CyclicSubtype⟧e SUBTYPE OF (e); END_ENTITY;"),
]

# ---- several faults

SEVERAL = [
    ("a declaration twice, behind another fault",
     "ENTITY e; a : ⟦Undeclared⟧t; END_ENTITY; ENTITY ⟦DeclaredTwice⟧e; END_ENTITY;"),
    ("a declaration twice, before another fault",
     "ENTITY e; END_ENTITY; ENTITY ⟦DeclaredTwice⟧e; a : ⟦Undeclared⟧t; END_ENTITY;"),
    ("a constant before all",
     "CONSTANT c : ⟦Undeclared⟧t := ⟦Undeclared⟧b; c2 : ⟦Undeclared⟧t := 1; END_CONSTANT; "
     "TYPE x = ⟦Undeclared⟧y; END_TYPE;"),
    ("an entity before a type", "ENTITY e; a : ⟦Undeclared⟧t; END_ENTITY; TYPE x = ⟦Undeclared⟧t; END_TYPE;"),
    ("a function before an entity", "FUNCTION f : ⟦Undeclared⟧t; ; END_FUNCTION; ENTITY e; a : ⟦Undeclared⟧t; END_ENTITY;"),
    ("a function before a type", "FUNCTION f : ⟦Undeclared⟧t; ; END_FUNCTION; TYPE ⟦CyclicType⟧x = x; END_TYPE;"),
    ("a rule before a function",
     "RULE r FOR (⟦Undeclared⟧e); WHERE TRUE; END_RULE; FUNCTION f : ⟦Undeclared⟧t; ; END_FUNCTION;"),
    ("a rule before a type, an entity and a function",
     "RULE r FOR (⟦Undeclared⟧a); WHERE TRUE; END_RULE; FUNCTION f : ⟦Undeclared⟧t; ; END_FUNCTION; "
     "ENTITY e; x : ⟦Undeclared⟧t; END_ENTITY; TYPE x = ⟦Undeclared⟧t; END_TYPE;"),
    ("the last of several types",
     "TYPE a = INTEGER; END_TYPE; TYPE b = a; WHERE SELF = ⟦Undeclared⟧c; END_TYPE; TYPE x = ⟦Undeclared⟧t; END_TYPE;"),
    ("a cycle behind another fault", "TYPE x = ⟦Undeclared⟧y; END_TYPE; TYPE ⟦CyclicType⟧t = t; END_TYPE;"),
    ("a cycle before another fault",
     "TYPE ⟦CyclicType⟧t = t; WHERE SELF = ⟦Undeclared⟧y; END_TYPE; TYPE x = ⟦Undeclared⟧y; END_TYPE;"),
    ("labels of a type behind what it names",
     "TYPE t = ⟦Undeclared⟧u; WHERE a : ⟦Undeclared⟧x; ⟦DeclaredTwice⟧a : TRUE; END_TYPE;"),
    ("labels of a type before what a rule names",
     "TYPE t = INTEGER; WHERE a : TRUE; ⟦DeclaredTwice⟧a : ⟦Undeclared⟧x; END_TYPE;"),
    ("members of a SELECT", "TYPE t = SELECT (⟦Undeclared⟧u, ⟦Undeclared⟧v); WHERE ⟦Undeclared⟧x; END_TYPE;"),
    ("items twice, twice", "TYPE t = ENUMERATION OF (a, b, ⟦DeclaredTwice⟧b, ⟦DeclaredTwice⟧a); END_TYPE;"),
    ("an entity's supertypes before its attributes' names",
     "ENTITY e SUBTYPE OF (⟦Undeclared⟧r); a, ⟦DeclaredTwice⟧a : INTEGER; END_ENTITY;"),
    ("an entity's subtypes before its supertypes",
     "ENTITY e SUPERTYPE OF (ONEOF (⟦Undeclared⟧a, ⟦Undeclared⟧b) ANDOR ⟦Undeclared⟧c) SUBTYPE OF (⟦Undeclared⟧r, "
     "⟦Undeclared⟧s); END_ENTITY;"),
    ("an entity of a cycle before its subtypes",
     "ENTITY ⟦CyclicSubtype⟧e SUPERTYPE OF (⟦Undeclared⟧a) SUBTYPE OF (e); END_ENTITY;"),
    ("an attribute's type before a name that is declared twice",
     "ENTITY e; a : ⟦Undeclared⟧t; ⟦DeclaredTwice⟧a : ⟦Undeclared⟧u; END_ENTITY;"),
    ("a name that is declared twice before an attribute's type",
     "ENTITY e; a, ⟦DeclaredTwice⟧a : ⟦Undeclared⟧t; END_ENTITY;"),
    ("an attribute that is redeclared before its type", "ENTITY e; SELF\\⟦Undeclared⟧r.a : ⟦Undeclared⟧t; END_ENTITY;"),
    ("a derived attribute's parts",
     "ENTITY e; DERIVE SELF\\e.⟦NotAnAttribute⟧a : ⟦Undeclared⟧t := ⟦Undeclared⟧x + ⟦Undeclared⟧y; END_ENTITY;"),
    ("a derived attribute's value before the next one's type",
     "ENTITY e; DERIVE a : INTEGER := ⟦Undeclared⟧x; b : ⟦Undeclared⟧t := ⟦Undeclared⟧y; END_ENTITY;"),
    ("an inverse attribute's entity before what stands behind FOR",
     "ENTITY e; INVERSE a : ⟦Undeclared⟧x FOR y; b : e FOR ⟦NotAnAttribute⟧z; END_ENTITY;"),
    ("the clauses of an entity",
     "ENTITY e; n : ⟦Undeclared⟧t; DERIVE d : ⟦Undeclared⟧t := ⟦Undeclared⟧x; INVERSE i : e FOR ⟦NotAnAttribute⟧x; "
     "UNIQUE ⟦NotAnAttribute⟧x; WHERE ⟦Undeclared⟧x; END_ENTITY;"),
    ("a label in UNIQUE before one in WHERE",
     "ENTITY e; n : INTEGER; UNIQUE ⟦DeclaredTwice⟧n : n, ⟦NotAnAttribute⟧x; WHERE ⟦DeclaredTwice⟧n : ⟦Undeclared⟧x; "
     "END_ENTITY;"),
    ("an attribute in UNIQUE before a label",
     "ENTITY e; n : INTEGER; UNIQUE a : ⟦NotAnAttribute⟧x; ⟦DeclaredTwice⟧a : n; END_ENTITY;"),
    ("a rule's condition before a label", "ENTITY e; WHERE a : ⟦Undeclared⟧x; ⟦DeclaredTwice⟧a : ⟦Undeclared⟧y; END_ENTITY;"),
    ("one that is redeclared twice behind its type",
     "ENTITY r; a : INTEGER; END_ENTITY; ENTITY e SUBTYPE OF (r); SELF\\r.a : ⟦Undeclared⟧t; "
     "SELF\\r.⟦DeclaredTwice⟧a : ⟦Undeclared⟧t; END_ENTITY;"),
    ("a parameter's type before a name that is declared twice",
     "FUNCTION f (a : ⟦Undeclared⟧t; ⟦DeclaredTwice⟧a : INTEGER) : INTEGER; ; END_FUNCTION;"),
    ("the parts of a function",
     "FUNCTION f (a : ⟦Undeclared⟧t; b : SET OF ⟦Undeclared⟧t) : ⟦Undeclared⟧t; "
     "LOCAL ⟦DeclaredTwice⟧b : ⟦Undeclared⟧t := ⟦Undeclared⟧x; END_LOCAL; ⟦Undeclared⟧y := ⟦Undeclared⟧z; END_FUNCTION;"),
    ("a result before a local",
     "FUNCTION f : ⟦Undeclared⟧t; LOCAL a, ⟦DeclaredTwice⟧a : INTEGER; END_LOCAL; ; END_FUNCTION;"),
    ("a local's value before the next local",
     "FUNCTION f : INTEGER; LOCAL a : INTEGER := ⟦Undeclared⟧x; ⟦DeclaredTwice⟧a : INTEGER; END_LOCAL; ; END_FUNCTION;"),
    ("the parts of a rule",
     "RULE r FOR (⟦Undeclared⟧d, ⟦Undeclared⟧e); LOCAL a : ⟦Undeclared⟧t := ⟦Undeclared⟧x; END_LOCAL; "
     "⟦Undeclared⟧y := ⟦Undeclared⟧SELF; WHERE ⟦DeclaredTwice⟧a : ⟦Undeclared⟧x; END_RULE;"),
    ("a rule's statements before its labels",
     "ENTITY e; END_ENTITY; RULE r FOR (e); ⟦Undeclared⟧a := 1; WHERE a : TRUE; ⟦DeclaredTwice⟧a : TRUE; END_RULE;"),
]

# what a function returns: a, b, c, d are declared nowhere, p, q and s are its parameters
SEVERAL_IN_EXPRESSIONS = [
    ("the operands of a chain", "⟦Undeclared⟧a + ⟦Undeclared⟧b - ⟦Undeclared⟧c"),
    ("a chain whose first operands are good", "p + 1 + ⟦Undeclared⟧b + p + ⟦Undeclared⟧c"),
    ("chains of several levels", "1 + ⟦Undeclared⟧a * ⟦Undeclared⟧b ** ⟦Undeclared⟧c < ⟦Undeclared⟧d"),
    ("the right of a relation alone", "(1 + p * p < p) AND (p > ⟦Undeclared⟧d)"),
    ("parentheses that turn operators around", "p * (⟦Undeclared⟧a + ⟦Undeclared⟧b) = ⟦Undeclared⟧c"),
    ("a QUERY's source and condition", "SIZEOF(QUERY(v <* ⟦Undeclared⟧a | v = ⟦Undeclared⟧b)) = ⟦Undeclared⟧c"),
    ("a QUERY's condition alone", "SIZEOF(QUERY(v <* q | v = ⟦Undeclared⟧b)) = ⟦Undeclared⟧c"),
    ("a QUERY within the source of another", "QUERY(v <* QUERY(w <* q | ⟦Undeclared⟧v) | ⟦Undeclared⟧w)"),
    ("a QUERY within the condition of another",
     "QUERY(v <* q | SIZEOF(QUERY(w <* ⟦Undeclared⟧w | w = ⟦Undeclared⟧a)) = ⟦Undeclared⟧w)"),
    ("a call and its arguments", "⟦Undeclared⟧a(⟦Undeclared⟧b, ⟦Undeclared⟧c)"),
    ("a call's arguments alone", "f(p, ⟦Undeclared⟧b, ⟦Undeclared⟧c)"),
    ("calls within calls", "⟦Undeclared⟧a(f(p, q, ⟦Undeclared⟧b(⟦Undeclared⟧c)), ⟦Undeclared⟧d)"),
    ("a call within the arguments of a good one", "f(p, f(p, q, s), ⟦Undeclared⟧p(⟦Undeclared⟧c))"),
    ("the arguments of a function of the language", "NVL(⟦Undeclared⟧a, ⟦Undeclared⟧b)"),
    ("elements", "[p, [⟦Undeclared⟧a], ⟦Undeclared⟧b]"),
    ("an interval's parts", "{⟦Undeclared⟧a < ⟦Undeclared⟧b < ⟦Undeclared⟧c}"),
    ("an interval's last parts", "{p < ⟦Undeclared⟧b < ⟦Undeclared⟧c}"),
    ("an interval's end", "{p < p < ⟦Undeclared⟧c}"),
    ("a value and its qualifiers", "⟦Undeclared⟧a[⟦Undeclared⟧b]\\⟦Undeclared⟧c.x[⟦Undeclared⟧d:⟦Undeclared⟧a]"),
    ("qualifiers alone", "q[p][⟦Undeclared⟧b]\\⟦Undeclared⟧c"),
    ("a range's ends", "s[⟦Undeclared⟧a:⟦Undeclared⟧b]"),
    ("SELF and its group", "⟦Undeclared⟧SELF\\⟦Undeclared⟧a.x"),
    ("an item that isn't there, and a group", "t.⟦Undeclared⟧a\\⟦Undeclared⟧b[⟦Undeclared⟧c]"),
    ("a type without items, and a group", "⟦Undeclared⟧u.a\\⟦Undeclared⟧b"),
    ("an item, and a group", "EXISTS(t.x\\⟦Undeclared⟧b)"),
    ("an item's type, and an operand", "[p = ⟦Undeclared⟧a, t.⟦Undeclared⟧b]"),
    ("a sign and an operator", "-⟦Undeclared⟧a ** -⟦Undeclared⟧b"),
]

# statements of the same function
SEVERAL_IN_STATEMENTS = [
    ("an assignment's sides", "⟦Undeclared⟧a := ⟦Undeclared⟧b;"),
    ("statements one behind the other", "p := 1; ; p := ⟦Undeclared⟧a; ⟦Undeclared⟧b := 1; RETURN (⟦Undeclared⟧c);"),
    ("a compound statement", "BEGIN p := 1; BEGIN p := ⟦Undeclared⟧a; END; p := ⟦Undeclared⟧b; END; p := ⟦Undeclared⟧c;"),
    ("an IF's condition and statements", "IF ⟦Undeclared⟧a THEN ⟦Undeclared⟧b := 1; ELSE ⟦Undeclared⟧c := 1; END_IF;"),
    ("an IF's statements", "IF p = 1 THEN p := 1; p := ⟦Undeclared⟧b; ELSE ⟦Undeclared⟧c := 1; END_IF;"),
    ("an ELSE, and what stands behind it", "IF p = 1 THEN ; ELSE p := ⟦Undeclared⟧c; END_IF; p := ⟦Undeclared⟧d;"),
    ("a CASE's parts",
     "CASE ⟦Undeclared⟧a OF ⟦Undeclared⟧b, ⟦Undeclared⟧c : p := ⟦Undeclared⟧d; ⟦Undeclared⟧a : ; "
     "OTHERWISE : ⟦Undeclared⟧b := 1; END_CASE;"),
    ("a CASE's labels and actions", "CASE p OF 1, ⟦Undeclared⟧b : p := ⟦Undeclared⟧c; ⟦Undeclared⟧d : ; END_CASE;"),
    ("a CASE's action before the next one's label", "CASE p OF 1 : p := ⟦Undeclared⟧c; ⟦Undeclared⟧d : ; END_CASE;"),
    ("a CASE's last label before OTHERWISE",
     "CASE p OF 1 : ; 2, 3, ⟦Undeclared⟧d : p := ⟦Undeclared⟧a; OTHERWISE : p := ⟦Undeclared⟧b; END_CASE;"),
    ("OTHERWISE, and what stands behind it", "CASE p OF 1 : ; OTHERWISE : p := ⟦Undeclared⟧a; END_CASE; p := ⟦Undeclared⟧b;"),
    ("a REPEAT's parts",
     "REPEAT v := ⟦Undeclared⟧a TO ⟦Undeclared⟧b BY ⟦Undeclared⟧c WHILE ⟦Undeclared⟧d UNTIL ⟦Undeclared⟧a; "
     "⟦Undeclared⟧v := ⟦Undeclared⟧b; END_REPEAT;"),
    ("a REPEAT's last bound and step", "REPEAT v := p TO ⟦Undeclared⟧v BY ⟦Undeclared⟧v; ; END_REPEAT;"),
    ("a REPEAT's step and conditions", "REPEAT v := p TO p BY ⟦Undeclared⟧v WHILE v = ⟦Undeclared⟧a; ; END_REPEAT;"),
    ("a REPEAT's conditions", "REPEAT v := p TO p WHILE v = p UNTIL ⟦Undeclared⟧a; p := ⟦Undeclared⟧b; END_REPEAT;"),
    ("a REPEAT's statements, and what stands behind it",
     "REPEAT v := p TO p; p := v; p := ⟦Undeclared⟧b; END_REPEAT; p := ⟦Undeclared⟧v;"),
    ("REPEATs within each other",
     "REPEAT v := p TO p; REPEAT w := v TO ⟦Undeclared⟧w; p := w; END_REPEAT; p := ⟦Undeclared⟧w; END_REPEAT;"),
]


def several(it):
    around = ("TYPE t = ENUMERATION OF (x); END_TYPE; TYPE u = INTEGER; END_TYPE; "
              "FUNCTION f (p : INTEGER; q : LIST OF LIST OF INTEGER; s : STRING) : GENERIC; {} END_FUNCTION;")
    for name, expression in SEVERAL_IN_EXPRESSIONS:
        look(it, name, around.format(f"RETURN ({expression});"))
    for name, statements in SEVERAL_IN_STATEMENTS:
        look(it, name, around.format(statements))


# ---- letters

LETTERS = [
    ("letters: a type", "TYPE My_Type = INTEGER; END_TYPE; ENTITY e; a : MY_TYPE; b : my_type; END_ENTITY;"),
    ("letters: an entity",
     "ENTITY Aa SUBTYPE OF (bB); END_ENTITY; ENTITY Bb SUPERTYPE OF (aA); END_ENTITY; "
     "RULE r FOR (AA, BB); WHERE SIZEOF(aa) = SIZEOF(bb); END_RULE;"),
    ("letters: an attribute",
     "ENTITY e; Ab : INTEGER; UNIQUE aB; SELF\\E.AB; WHERE ab = self\\E.ab; END_ENTITY; "
     "ENTITY f SUBTYPE OF (E); SELF\\E.AB : INTEGER; INVERSE i : E FOR AB; END_ENTITY;"),
    ("letters: a function and its variables",
     "FUNCTION Ff (Pp : INTEGER) : INTEGER; LOCAL Ll : INTEGER := pP; END_LOCAL; "
     "REPEAT Vv := 1 TO PP; LL := FF(vV); END_REPEAT; RETURN (ll); END_FUNCTION;"),
    ("letters: a constant and an item",
     "CONSTANT Cc : INTEGER := cC; END_CONSTANT; TYPE Tt = ENUMERATION OF (Xx); END_TYPE; "
     "FUNCTION f (p : tT) : LOGICAL; RETURN ((p = tt.xX) OR (p = XX) OR (CC = 1)); END_FUNCTION;"),
    ("letters: a variable of a REPEAT, which isn't assigned",
     "FUNCTION f : INTEGER; REPEAT Vv := 1 TO 2; ⟦Undeclared⟧vV := 1; END_REPEAT; END_FUNCTION;"),
    ("letters: digits and underscores count",
     "ENTITY e_1; END_ENTITY; ENTITY e1; x : e_1; y : ⟦Undeclared⟧e_11; END_ENTITY;"),
    ("letters: names that begin other names",
     "TYPE q = INTEGER; END_TYPE; TYPE Part = INTEGER; END_TYPE; TYPE p = INTEGER; END_TYPE; "
     "ENTITY e; a : Q; b : part; c : P; d : PART; f : ⟦Undeclared⟧pa; g : ⟦Undeclared⟧parts; END_ENTITY;"),
    ("letters: a name that begins with others", "TYPE part = INTEGER; END_TYPE; TYPE p = INTEGER; END_TYPE; ENTITY e; a : ⟦Undeclared⟧parts; END_ENTITY;"),
    ("letters: a longer and a shorter name", "ENTITY abc; END_ENTITY; ENTITY ab; x : abc; y : ⟦Undeclared⟧abcd; END_ENTITY;"),
]

# ---- ancestors

# what each of e_0 to e_4 is a subtype of, and the rule of one that names what it has or hasn't
LINEAGES = [
    ("a diamond", ["", "e_0", "e_0", "e_1, e_2", ""], 3, "[n_0, n_1, n_2, n_3, n_3]"),
    ("one side of a diamond", ["", "e_0", "e_0", "e_1, e_2", ""], 1, "[n_0, n_1, ⟦Undeclared⟧n_2]"),
    ("what is below in a diamond", ["", "e_0", "e_0", "e_1, e_2", ""], 2, "[n_0, n_2, ⟦Undeclared⟧n_3]"),
    ("the top of a diamond", ["", "e_0", "e_0", "e_1, e_2", ""], 0, "[n_0, ⟦Undeclared⟧n_1]"),
    ("a later supertype first, and one twice", ["e_2, e_1, e_2", "e_3", "", "", ""], 0, "[n_0, n_1, n_2, n_3, ⟦Undeclared⟧n_4]"),
    ("a supertype's supertype", ["e_2, e_1, e_2", "e_3", "", "", ""], 1, "[n_1, n_3, ⟦Undeclared⟧n_2]"),
]
# e_0 and e_1 are below each other, e_1 also below e_4, e_2 below e_1, and e_3 below itself
RING = ["e_1", "e_0, e_4", "e_1", "e_3", ""]
# orders of these, and the first that is below itself
RINGS = [((2, 4, 0, 1, 3), 0), ((4, 2, 1, 0, 3), 1), ((2, 4, 3, 0, 1), 3)]


def entity(k, supertypes, mark="", rule=""):
    """An entity with an attribute of its number."""
    above = f"SUBTYPE OF ({supertypes[k]})" if supertypes[k] else ""
    return f"ENTITY {mark}e_{k} {above}; n_{k} : INTEGER; {rule} END_ENTITY; "


def lineages(it):
    for name, supertypes, which, values in LINEAGES:
        rules = {which: f"WHERE SIZEOF({values}) > 0;"}
        look(it, name, "".join(entity(k, supertypes, rule=rules.get(k, "")) for k in range(5)))
    for order, first in RINGS:
        marks = {first: "⟦CyclicSubtype⟧"}
        look(it, f"below itself first: e_{first}", "".join(entity(k, RING, marks.get(k, "")) for k in order))
    look(it, "a chain of 3,000 subtypes", chain(3000))
    look(it, "a chain of 3,000 subtypes, without a name", chain(3000, "n_2999 + ⟦Undeclared⟧n_3000"))


# ---- whole texts, and the schema's name

WHOLE = [
    ("users", "T", """SCHEMA T;
ENTITY p; x : REAL; n : OPTIONAL STRING;
INVERSE u : SET [0:?] OF q FOR a;
WHERE w1 : SIZEOF(u) <= 2; END_ENTITY;
ENTITY q; a : p; END_ENTITY;
END_SCHEMA;
"""),
    ("rules", "L", """SCHEMA L; ENTITY e; END_ENTITY;
RULE r1 FOR (e); WHERE SIZEOF(QUERY(p <* e | TRUE)) >= 0; END_RULE;
RULE r2 FOR (e); WHERE NOT (SIZEOF(QUERY(p <* e | TRUE)) < 0); END_RULE;
END_SCHEMA;
"""),
    ("a diamond", "D", """SCHEMA D; ENTITY r; a : INTEGER; END_ENTITY;
ENTITY s SUBTYPE OF (r); b : INTEGER; END_ENTITY;
ENTITY t SUBTYPE OF (r); c : INTEGER; END_ENTITY;
ENTITY v SUBTYPE OF (s, t); d : INTEGER; END_ENTITY; END_SCHEMA;
"""),
    ("a supertype", "E", """SCHEMA E; ENTITY e ABSTRACT SUPERTYPE OF (ONEOF(a, b) ANDOR c); END_ENTITY;
ENTITY a SUBTYPE OF (e); END_ENTITY; ENTITY b SUBTYPE OF (e); END_ENTITY;
ENTITY c SUBTYPE OF (e); END_ENTITY; END_SCHEMA;
"""),
    ("rules of an entity", "O", """SCHEMA O; ENTITY e; i : OPTIONAL INTEGER;
WHERE a : i < 3; b : (i < 3) AND FALSE; c : (i < 3) OR TRUE;
d : NVL(i, 7) = 7; f : SIZEOF(QUERY(z <* [1, 2] | z < i)) = 0;
END_ENTITY; END_SCHEMA;
"""),
    ("a real", "C", "SCHEMA C; ENTITY e; x : REAL; WHERE -1.5 < x; END_ENTITY; END_SCHEMA;"),
    ("two types of each other", "Y",
     "SCHEMA Y; TYPE ⟦CyclicType⟧a = b; END_TYPE; TYPE ⟦CyclicType⟧b = a; END_TYPE; END_SCHEMA;"),
    ("derived attributes of each other", "N",
     "SCHEMA N; ENTITY e; DERIVE a : INTEGER := b; b : INTEGER := a; WHERE w : a = 1; END_ENTITY; END_SCHEMA;"),
    ("a key", "U", "SCHEMA U; ENTITY e; k : OPTIONAL INTEGER; UNIQUE u1 : k; END_ENTITY; END_SCHEMA;"),
    ("a function that calls itself", "G",
     "SCHEMA G; FUNCTION f(n : INTEGER) : INTEGER; IF n <= 0 THEN RETURN (0); END_IF; RETURN (f(n - 1)); END_FUNCTION; "
     "ENTITY e; k : INTEGER; WHERE w : f(k) = 0; END_ENTITY; END_SCHEMA;"),
    ("a chain of instances", "H",
     "SCHEMA H; ENTITY e; nx : OPTIONAL e; DERIVE d : INTEGER := NVL(nx.d, 0); WHERE w : d = 0; END_ENTITY; END_SCHEMA;"),
    ("an entity with the schema's name", "E", "SCHEMA e; ENTITY e; x : e; END_ENTITY; END_SCHEMA;"),
    ("a later line", "A", "SCHEMA A;\nENTITY e;\n  a : INTEGER;\n  b : ⟦Undeclared⟧t;\nEND_ENTITY;\nEND_SCHEMA;\n"),
    ("carriage returns and tabs", "A", "SCHEMA A;\r\n\tENTITY e;\r\n\t\ta : ⟦Undeclared⟧t;\r\nEND_ENTITY;\r\nEND_SCHEMA;"),
    ("columns of bytes", "A",
     "SCHEMA A; -- ünder\nCONSTANT c : STRING := 'äöü'; d : STRING := 'é' (* ß *) + ⟦Undeclared⟧x; END_CONSTANT; "
     "END_SCHEMA;"),
    ("an empty schema", "A", "SCHEMA A; END_SCHEMA;"),
    # a name that isn't declared comes after all faults of tokens and of syntax
    ("a fault of a token behind a name", "A",
     "SCHEMA A; ENTITY e; a : t; END_ENTITY; ENTITY f; ⟦Token⟧! END_ENTITY; END_SCHEMA;"),
    ("a string without its end behind a name", "A",
     "SCHEMA A; ENTITY e; a : t; WHERE a = ⟦OpenString⟧'a; END_ENTITY; END_SCHEMA;"),
    ("a fault of syntax behind a name", "A", "SCHEMA A; ENTITY e; a : t; END_ENTITY; ⟦Syntax⟧x END_SCHEMA;"),
    ("the text's end behind a name", "A", "SCHEMA A; ENTITY e; a : t; END_ENTITY;⟦Syntax⟧"),
    ("what is left out behind a name", "A",
     "SCHEMA A; ENTITY e; a : t; END_ENTITY; ⟦OutOfProfile⟧PROCEDURE p; END_PROCEDURE; END_SCHEMA;"),
    ("what is too deep behind a name", "A", "SCHEMA A; ENTITY e; a : t; WHERE " + "(" * 64 + "⟦TooDeep⟧(1" + ")" * 65 + "; END_ENTITY; END_SCHEMA;"),
]


# ---- many names

def chain(count, last="n_0"):
    """Entities, each a subtype of the one before; the last uses an attribute."""
    entities = ["ENTITY e_0; n_0 : INTEGER; END_ENTITY;"]
    entities += [f"ENTITY e_{k} SUBTYPE OF (e_{k - 1}); n_{k} : INTEGER; END_ENTITY;" for k in range(1, count)]
    return "\n".join([*entities, f"ENTITY e SUBTYPE OF (e_{count - 1}); WHERE {last} = 1; END_ENTITY;"])


def ring(count, declaration):
    """Declarations, each of which names the next, and the last one the first."""
    return "\n".join(declaration.format(k, (k + 1) % count) for k in range(count))


def many(it):
    count = 2000
    look(it, "a long chain of subtypes", chain(count))
    look(it, "the end of a long chain of subtypes", chain(count, f"n_{count - 1} + ⟦Undeclared⟧n_{count}"))
    subtype = "ENTITY ⟦CyclicSubtype⟧e_{} SUBTYPE OF (e_{}); END_ENTITY;"
    look(it, "a long ring of subtypes", ring(count, subtype))
    look(it, "an entity below a long ring", "ENTITY e SUBTYPE OF (e_7); END_ENTITY; " + ring(count, subtype))
    look(it, "a long ring of types", ring(count, "TYPE ⟦CyclicType⟧t_{} = LIST OF t_{}; END_TYPE;"))
    look(it, "a long chain of types", "TYPE t_0 = INTEGER; END_TYPE; " + "\n".join(f"TYPE t_{k} = SELECT (t_{k - 1}); END_TYPE;" for k in range(1, count)))
    names = [f"v_{k}" for k in range(count)]
    function = "FUNCTION f ({} : INTEGER) : INTEGER; RETURN ({}); END_FUNCTION;"
    look(it, "many parameters", function.format(", ".join(names), " + ".join(names)))
    look(it, "many parameters, one of them twice", function.format(", ".join([*names, "⟦DeclaredTwice⟧v_1000"]), "1"))
    look(it, "the last of many terms", f"FUNCTION f (p : INTEGER) : INTEGER; RETURN ({'p + ' * 50000}⟦Undeclared⟧q); END_FUNCTION;")
    look(it, "many attributes behind each other", f"ENTITY e; a : e; WHERE EXISTS(a{'.a' * 10000}\\⟦Undeclared⟧f); END_ENTITY;")
    look(it, "an entity at the bottom of 64 aggregates", f"TYPE t = {'SET OF ' * 64}e; END_TYPE; ENTITY e; END_ENTITY;")
    look(it, "a type at the bottom of 64 aggregates", f"TYPE t = {'SET OF ' * 64}⟦Undeclared⟧u; END_TYPE;")
    look(it, "itself at the bottom of 64 aggregates", f"TYPE ⟦CyclicType⟧t = {'LIST OF ' * 64}t; END_TYPE;")
    statements = "FUNCTION f (p : INTEGER) : INTEGER; {}{} := {}p{};{} END_FUNCTION;"
    look(it, "an assignment within 63 statements", statements.format("IF TRUE THEN " * 63, "p", "(", ")", " END_IF;" * 63))
    look(it, "what is assigned within 64 statements", statements.format("REPEAT; " * 64, "⟦Undeclared⟧q", "", "", " END_REPEAT;" * 64))
    look(it, "a value within 64 parentheses", statements.format("", "p", "(" * 64 + "⟦Undeclared⟧q - ", ")" * 64, ""))
    queries = "".join(f"SIZEOF(QUERY(v_{k} <* [v_{k - 1}] | " for k in range(1, 21))
    around = "FUNCTION f (v_0 : INTEGER) : INTEGER; RETURN ({}{}{}); END_FUNCTION;"
    every = " + ".join(f"v_{k}" for k in range(21))
    look(it, "QUERYs many times within each other", around.format(queries, every, ")) " * 20))
    look(it, "the innermost of many QUERYs", around.format(queries, every + " = ⟦Undeclared⟧v_21", ")) " * 20))


# ---- running them

def look(it, name, declarations):
    """Compares what is told of a schema of these declarations."""
    it.looks([(name, "A", f"SCHEMA A; {declarations} END_SCHEMA;")])


def rows(it):
    for name, declarations in (*TWICE, *OF_ONE_HASH, *SCOPES, *TURNS, *MORE_ITEMS, *CYCLES, *SEVERAL, *LETTERS):
        look(it, name, declarations)
    it.looks(WHOLE)


PARTS = (places, twice_in_a_schema, twice_in_an_entity, attributes, items, several, lineages, rows, many)

if __name__ == "__main__":
    run_parts("express names", PARTS, sys.argv[1:])
