#!/usr/bin/env python3
"""Runs `rp_server check` of the built program on EXPRESS schemas and compares, byte for byte, what it tells of their
types: which kinds fit where, which fault is told, and which warnings.

    tests/express_kinds.py [PROGRAM]

A mark as ⟦Operand⟧ stands right before the first byte of a fault; of several faults the first is told, and no warning
with it. ⟦SelectInTypeof⟧ stands before each literal that is warned of. What has no mark is accepted. First come the
tables of tests/lib/kind_tables.py, then rows by hand, then the long schema of tests/data/long.exp. The last line is
'express kinds: N passed, M failed', and the status is 0 only if none failed.
"""
import os
import re
import sys

from lib.harness import MARK, TOP, WARNING, run_parts
from lib.kind_tables import TABLES

FAULTS = {"Operand", "Arguments", "Assign", "Qualifier", "Ambiguous", "RealArithmetic", "EntityComparison"}

SECONDS = 60

# ---- whole schemas, and to the letter what is told of them

EXACT = [
    ("to the letter: a quotient", "SCHEMA A; ENTITY e; a : REAL; WHERE a / 2.0 > 1.0; END_ENTITY; END_SCHEMA;", b"RealArithmetic line 1 column 39\n", 1),
    ("to the letter: two entities", "SCHEMA B; ENTITY e; x : e; y : e; WHERE x = y; END_ENTITY; END_SCHEMA;", b"EntityComparison line 1 column 43\n", 1),
    ("to the letter: a signed real", "SCHEMA C; ENTITY e; x : REAL; WHERE -1.5 < x; END_ENTITY; END_SCHEMA;", b"C: ok\n", 0),
    ("to the letter: a SELECT in TYPEOF",
     "SCHEMA W; TYPE s = SELECT (e); END_TYPE; ENTITY e; WHERE 'W.S' IN TYPEOF(SELF); END_ENTITY; END_SCHEMA;",
     b"W: ok\nwarning SelectInTypeof line 1 column 58\n", 0),
    ("to the letter: two types of each other", "SCHEMA Y; TYPE a = b; END_TYPE; TYPE b = a; END_TYPE; END_SCHEMA;", b"CyclicType line 1 column 16\n", 1),
    ("to the letter: two warnings",
     "SCHEMA w;\nTYPE s = SELECT (e); END_TYPE;\nRULE r FOR (e); WHERE 'W.S' IN TYPEOF(e); END_RULE;\nENTITY e;\nWHERE 'W.S' IN\n TYPEOF(SELF); END_ENTITY;\nEND_SCHEMA;\n",
     b"W: ok\nwarning SelectInTypeof line 3 column 23\nwarning SelectInTypeof line 5 column 7\n", 0),
]

WHOLE = [
    ("a quotient", "A", "SCHEMA A; ENTITY e; a : REAL; WHERE a ⟦RealArithmetic⟧/ 2.0 > 1.0; END_ENTITY; END_SCHEMA;"),
    ("two entities", "B", "SCHEMA B; ENTITY e; x : e; y : e; WHERE x ⟦EntityComparison⟧= y; END_ENTITY; END_SCHEMA;"),
    ("a signed real", "C", "SCHEMA C; ENTITY e; x : REAL; WHERE -1.5 < x; END_ENTITY; END_SCHEMA;"),
    ("a SELECT in TYPEOF", "W",
     "SCHEMA W; TYPE s = SELECT (e); END_TYPE; ENTITY e; WHERE ⟦SelectInTypeof⟧'W.S' IN TYPEOF(SELF); END_ENTITY; END_SCHEMA;"),
    ("users", "T", """SCHEMA T;
ENTITY p; x : REAL; n : OPTIONAL STRING;
INVERSE u : SET [0:?] OF q FOR a;
WHERE w1 : SIZEOF(u) <= 2; END_ENTITY;
ENTITY q; a : p; END_ENTITY;
END_SCHEMA;
"""),
    ("rules", "L", """SCHEMA L; ENTITY e; END_ENTITY;
RULE r1 FOR (e); WHERE SIZEOF(QUERY(p <* e | TRUE)) >= 0; END_RULE;
RULE r2 FOR (e); WHERE NOT (SIZEOF(QUERY(p <* e | TRUE)) < 0); END_RULE;
END_SCHEMA;
"""),
    ("rules of an entity", "O", """SCHEMA O; ENTITY e; i : OPTIONAL INTEGER;
WHERE a : i < 3; b : (i < 3) AND FALSE; c : (i < 3) OR TRUE;
d : NVL(i, 7) = 7; f : SIZEOF(QUERY(z <* [1, 2] | z < i)) = 0;
END_ENTITY; END_SCHEMA;
"""),
    ("a later line", "A", "SCHEMA A;\n-- ä\nENTITY e;\r\n  a : STRING;\nWHERE\n\tw : (a = 'ä') ⟦Operand⟧+ 1;\nEND_ENTITY;\nEND_SCHEMA;\n"),
    ("a fault of names comes before all of types", "A",
     "SCHEMA A; ENTITY e; WHERE 1 = 'a'; ⟦Undeclared⟧zz; END_ENTITY; END_SCHEMA;"),
    ("a fault of syntax comes before all of types", "A", "SCHEMA A; ENTITY e; WHERE 1 = 'a'; END_ENTITY; ⟦Syntax⟧x END_SCHEMA;"),
    ("a fault of tokens comes before all of types", "A", "SCHEMA A; ENTITY e; WHERE 1 = 'a'; END_ENTITY; END_SCHEMA; ⟦Token⟧!"),
]

# ---- reals

# what stands in WHERE of an entity with a : REAL, i : INTEGER, n : NUMBER, l : LIST OF REAL
REALS = [
    ("a signed literal", "-1.5 < a; + 1.5 > a; a = - (* *) 1.5;"),
    ("a sign before a signed literal", "⟦RealArithmetic⟧- -1.5 < a;"),
    ("a sign before a literal within parentheses", "⟦RealArithmetic⟧-(1.5) < a;"),
    ("a sign before a signed literal within parentheses", "a = ⟦RealArithmetic⟧-(-1.5);"),
    ("a sign before a real", "⟦RealArithmetic⟧-a < 1.5;"),
    ("a sign before a number", "⟦RealArithmetic⟧+n < 1.5;"),
    ("NOT before a signed literal", "⟦Operand⟧NOT -1.5;"),
    ("a literal that is taken off", "i ⟦RealArithmetic⟧-1.5 < a;"),
    ("a signed literal that is taken off", "i ⟦RealArithmetic⟧- -1.5 < a;"),
    ("a signed exponent", "2 ⟦RealArithmetic⟧** -1.5 = 1;"),
    ("a power of a signed literal", "-1.5 ⟦RealArithmetic⟧** 2 = 1;"),
    ("a quotient of integers", "i ⟦RealArithmetic⟧/ i = 1;"),
    ("a quotient of strings", "'a' ⟦RealArithmetic⟧/ 'b' = 1;"),
    ("a quotient of nothing", "? ⟦RealArithmetic⟧/ ? = 1;"),
    ("a real and a string", "a ⟦RealArithmetic⟧+ 'a' = 1;"),
    ("a string and a real", "'a' ⟦RealArithmetic⟧DIV 1.0 = 1;"),
    ("a list of reals and a real", "SIZEOF(l ⟦RealArithmetic⟧+ 1.5) = 1;"),
    ("a list of reals less a real", "SIZEOF(l ⟦RealArithmetic⟧- a) = 1;"),
    ("lists of reals", "SIZEOF((l + l) * l - l) = 1;"),
    ("a list of reals and an integer", "SIZEOF(l + 1) = 1;"),
    ("an initialiser of a real", "SIZEOF(l + [a, 1.5]) = 1;"),
    ("reals are compared", "a < i; a = n; {1 < a <= 1.5}; n <> a; a :=: i;"),
    ("ABS and ODD of a number", "ABS(n) = 1; ODD(n);"),
    ("ABS of a real", "⟦Arguments⟧ABS(a) = 1;"),
    ("ODD of a real", "⟦Arguments⟧ODD(1.5);"),
    ("an index that is a number", "l[n] = a;"),
    ("an index that is a real", "l⟦Qualifier⟧[a] = a;"),
    ("the first of two signs", "⟦RealArithmetic⟧-a ⟦RealArithmetic⟧+ ⟦RealArithmetic⟧-a = 1;"),
]

# ---- nothing, and faults inside

# what a function returns: i : INTEGER, s : STRING, x : e with an attribute a : INTEGER, l : LIST OF INTEGER
NOTHINGS = [
    ("nothing between operators", "[? + ?, ? - ?, ? * ?, ? DIV ?, ? MOD ?, ? ** ?, -?, +?, NOT ?, ? AND ?, ? OR ?, ? XOR ?]"),
    ("nothing that is compared", "[? = ?, ? <> 1, 'a' < ?, ? >= TRUE, ? <= l, ? :=: x, ? IN ?, i IN ?, ? IN l]"),
    ("nothing and a truth value", "? + TRUE"),
    ("a truth value and nothing", "TRUE + ?"),
    ("a truth value less nothing", "TRUE ⟦Operand⟧- ?"),
    ("nothing less a truth value", "? - TRUE"),
    ("nothing times a truth value", "? ⟦Operand⟧* TRUE"),
    ("nothing and an entity", "? ⟦EntityComparison⟧= x"),
    ("nothing before an entity", "? ⟦Operand⟧< x"),
    ("an attribute of nothing", "?⟦Qualifier⟧.a"),
    ("an index and a group of nothing", "[?[1], ?[1:2], ?\\e, ?\\e.a, ?[1][2]]"),
    ("an attribute of an element of nothing", "?[1]⟦Qualifier⟧.a"),
    ("an index that is nothing", "[l[?], s[?], s[?:2], s[1:?], s[?:?]]"),
    ("an element of an empty initialiser", "QUERY(v <* [] | v + 1 = NOT v)"),
    ("an attribute of an element of an empty initialiser", "QUERY(v <* [] | v⟦Qualifier⟧.a = 1)"),
    ("an attribute of an element of nothing in a QUERY", "QUERY(v <* ? | v⟦Qualifier⟧.a = 1)"),
    ("an element of nothing in a QUERY", "QUERY(v <* ? | (v AND TRUE) OR (v + 1 = 2))"),
    ("nothing as arguments", "[ABS(?), BLENGTH(?), EXISTS(?), HIINDEX(?), LENGTH(?), LOINDEX(?), NVL(?, ?), ODD(?), SIZEOF(?), TYPEOF(?), "
     "USEDIN(?, ?), VALUE_IN(?, ?)]"),
    ("an attribute of what may be nothing", "NVL(?, ?)⟦Qualifier⟧.a"),
    ("an attribute of what stands for nothing", "NVL(?, x).a"),
    ("what stands for nothing", "1 + ⟦Arguments⟧ABS(NVL(?, s))"),
    ("sums with nothing fit everywhere", "[NOT (1 + ?), ABS(? + 'a'), LENGTH(? * l)]"),
    ("a comparison with nothing is a truth value", "1 ⟦Operand⟧+ (? = ?)"),
    ("NOT of nothing is a truth value", "1 ⟦Operand⟧+ NOT ?"),
    ("SIZEOF of nothing is an integer", "'a' ⟦Operand⟧+ SIZEOF(?)"),
    # a fault inside causes none outside
    ("a fault within NOT", "NOT (1 ⟦Operand⟧+ 'a')"),
    ("a fault within a sign", "-(1 ⟦Operand⟧+ 'a')"),
    ("a fault at a sign within NOT", "NOT (⟦Operand⟧-'a')"),
    ("a fault on the right", "TRUE AND (1 ⟦Operand⟧- 'a')"),
    ("a fault on the right of a comparison", "TRUE = (l ⟦Operand⟧DIV 1)"),
    ("a fault on the right of IN", "1 IN (1 ⟦Operand⟧* l)"),
    ("a fault in an argument", "ABS(TRUE ⟦Operand⟧+ 'a')"),
    ("a fault in an argument of a function", "g(TRUE ⟦Operand⟧+ 'a', 1)"),
    ("a fault in the second argument of a function", "g(1, i ⟦RealArithmetic⟧/ i)"),
    ("a fault in the source of a QUERY", "QUERY(v <* 1 ⟦Operand⟧+ 'a' | v)"),
    ("a fault in a QUERY's source, and its variable", "QUERY(v <* 1 ⟦Operand⟧+ 'a' | v + TRUE = NOT v)"),
    ("a fault in the condition of a QUERY", "QUERY(v <* l | v ⟦Operand⟧= 'a')"),
    ("a fault in an element", "l + [1 ⟦Operand⟧+ 'a']"),
    ("a fault in an index", "l[1 ⟦Operand⟧+ 'a']"),
    ("a fault in a slice", "s[1:2 ⟦Operand⟧+ 'a']"),
    ("a fault in an interval", "{1 < 1 ⟦Operand⟧+ TRUE < 2}"),
    ("an attribute that isn't there, within others", "NOT x⟦Qualifier⟧.zz"),
    ("an attribute that isn't there, and what it would have", "1 + x⟦Qualifier⟧.zz⟦Qualifier⟧.a"),
    ("an index of what has none, within others", "NOT i⟦Qualifier⟧[1]"),
    ("an index of what has none, in a sum", "'a' + i⟦Qualifier⟧[1]"),
    # a fault outside, before the refused part, shows which kinds the part gives
    ("a refused comparison is a truth value", "1 ⟦Operand⟧+ (1 = 'a')"),
    ("a refused comparison, where a truth value fits", "NOT (1 ⟦Operand⟧= 'a')"),
    ("a refused comparison of entities is a truth value", "1 ⟦Operand⟧+ (x = x)"),
    ("a refused comparison of entities, where a truth value fits", "NOT (x ⟦EntityComparison⟧= x)"),
    ("a refused order is a truth value", "1 ⟦Operand⟧+ (l < l)"),
    ("a refused interval is a truth value", "1 ⟦Operand⟧+ {1 < TRUE < 2}"),
    ("a refused interval, where a truth value fits", "NOT ({1 ⟦Operand⟧< TRUE < 2})"),
    ("a refused real arithmetic has no kinds", "NOT (1.5 ⟦RealArithmetic⟧+ 1)"),
    ("a refused division has no kinds", "NOT (1 ⟦RealArithmetic⟧/ 1)"),
    ("a refused sign of a real has no kinds", "NOT (⟦RealArithmetic⟧-NVL(1.5, ?))"),
    ("a refused range has no kinds", "NOT i⟦Qualifier⟧[1:2]"),
    ("a range with a refused end has no kinds", "NOT s⟦Qualifier⟧['a':2]"),
    ("an index with a refused place has no kinds", "NOT l⟦Qualifier⟧['a']"),
    ("a refused attribute has no kinds", "ABS(s⟦Qualifier⟧.a)"),
    ("a refused call gives what its function gives", "⟦Operand⟧NOT ABS('a')"),
    ("a refused call, where its function's result fits", "-⟦Arguments⟧ABS('a')"),
    ("a refused call of a function of the schema gives its result", "⟦Operand⟧NOT g('a', 1)"),
    ("a refused call of a function of the schema, where its result fits", "-⟦Arguments⟧g('a', 1)"),
    ("a call with too few arguments gives what its function gives", "⟦Operand⟧NOT g(1)"),
    ("a call with too few arguments, where its function's result fits", "-⟦Arguments⟧g(1)"),
    ("a call with too many arguments gives what its function gives", "⟦Operand⟧NOT ABS(1, 2)"),
    ("a call with too many arguments, where its function's result fits", "-⟦Arguments⟧ABS(1, 2)"),
    ("a function of the language without arguments gives its result", "⟦Operand⟧NOT SIZEOF"),
    ("a refused TYPEOF gives strings", "⟦Arguments⟧ABS(TYPEOF(1, 2))"),
    ("a refused TYPEOF, where strings fit", "SIZEOF(⟦Arguments⟧TYPEOF(1, 2))"),
    ("a refused USEDIN gives entities", "l ⟦EntityComparison⟧= USEDIN(1, '')"),
    ("a refused USEDIN, where an aggregate fits", "SIZEOF(⟦Arguments⟧USEDIN(1, ''))"),
    ("NVL with too few arguments has no kinds", "NOT ⟦Arguments⟧NVL(1)"),
    ("NVL with too many arguments has no kinds", "NOT ⟦Arguments⟧NVL(1, 2, 3)"),
    ("NVL without arguments has no kinds", "NOT ⟦Arguments⟧NVL"),
    ("VALUE_IN with too few arguments is a truth value", "1 ⟦Operand⟧+ VALUE_IN(l)"),
    ("VALUE_IN with too few arguments, where a truth value fits", "NOT ⟦Arguments⟧VALUE_IN(l)"),
    ("VALUE_IN of entities with too few arguments", "⟦Arguments⟧VALUE_IN([x])"),
    ("VALUE_IN of entities with too many arguments", "⟦Arguments⟧VALUE_IN([x], 1, 2)"),
    ("VALUE_IN of no aggregate is a truth value", "1 ⟦Operand⟧+ VALUE_IN(1, 1)"),
    ("VALUE_IN of entities is a truth value", "1 ⟦Operand⟧+ VALUE_IN([x], 1)"),
    ("a refused group is an entity", "⟦Operand⟧NOT i\\e"),
    ("a refused group, where an entity fits", "USEDIN(i⟦Qualifier⟧\\e, '')"),
    ("an attribute of a refused group", "⟦Operand⟧NOT i\\e.a"),
    ("an attribute of a refused group, where it fits", "-i⟦Qualifier⟧\\e.a"),
    # in a union a part without kinds adds none
    ("a fault in NVL, beside what doesn't fit", "⟦Operand⟧NOT NVL(1 + 'a', 1)"),
    ("a fault in NVL, beside what fits", "NOT NVL(1 ⟦Operand⟧+ 'a', TRUE)"),
    ("a fault in NVL, beside nothing", "NOT NVL(1 ⟦Operand⟧+ 'a', ?)"),
    ("a fault in NVL, behind what doesn't fit", "⟦Operand⟧NOT NVL(1, 1 + 'a')"),
    ("a fault in an initialiser, beside an entity", "l ⟦EntityComparison⟧= [1 + 'a', x]"),
    ("a fault in an initialiser, beside an integer", "l = [1 ⟦Operand⟧+ 'a', 1]"),
    ("a fault in a sum of aggregates, beside an entity", "l ⟦EntityComparison⟧= ([1 + 'a'] + [x])"),
    ("a fault in a sum of aggregates, beside an integer", "l = ([1 ⟦Operand⟧+ 'a'] + [1])"),
    ("a fault among elements that may hold an entity", "⟦EntityComparison⟧VALUE_IN([1 + 'a', x], 1)"),
    ("a fault among elements that hold none", "VALUE_IN([1 ⟦Operand⟧+ 'a'], 1)"),
    # comparisons with nothing
    ("a list before nothing", "l ⟦Operand⟧< ?"),
    ("nothing before a list", "? ⟦Operand⟧> l"),
    ("a list within nothing", "[l <= ?, ? <= l, l >= ?, ? >= l]"),
    ("an entity within nothing", "x ⟦Operand⟧<= ?"),
    ("nothing within an entity", "? ⟦Operand⟧>= x"),
    ("an interval of nothing", "[{? < ? <= ?}, {? < 1 < ?}, {1 <= ? < 's'}]"),
    ("an interval from a list to nothing", "{l ⟦Operand⟧< ? < ?}"),
    ("an interval from nothing to an entity", "{? < ? ⟦Operand⟧<= x}"),
    ("a list that is or isn't nothing", "[l = ?, l <> ?, ? = s, ? <> TRUE]"),
]

# what a function returns in a schema without entities
WITHOUT_ENTITIES = [
    ("users in a schema without entities", "USEDIN(?, '') = []"),
    ("a sum with users in a schema without entities", "(USEDIN(?, '') + 1) = [1]"),
    ("an element of users in a schema without entities", "[NOT USEDIN(?, '')[1], ABS(USEDIN(?, '')[1])]"),
    ("a QUERY over users in a schema without entities", "QUERY(v <* USEDIN(?, '') | NOT v)"),
    ("an attribute of users in a schema without entities", "USEDIN(?, '')[1]⟦Qualifier⟧.a"),
    ("users in a schema without entities are no number", "⟦Arguments⟧ABS(USEDIN(?, ''))"),
    ("users in a schema without entities are no truth value", "⟦Operand⟧NOT USEDIN(?, '')"),
    ("VALUE_IN of users in a schema without entities", "VALUE_IN(USEDIN(?, ''), 1)"),
]

# ---- order: the least offset is told

SEVERAL = [
    ("a type behind a function", "FUNCTION f : LOGICAL; RETURN (1 ⟦Operand⟧= 'a'); END_FUNCTION; "
     "TYPE t = INTEGER; WHERE SELF ⟦Operand⟧= 'a'; END_TYPE;"),
    ("a function behind a type", "TYPE t = INTEGER; WHERE SELF ⟦Operand⟧= 'a'; END_TYPE; "
     "FUNCTION f : LOGICAL; RETURN (1 ⟦Operand⟧= 'a'); END_FUNCTION;"),
    ("an entity behind a rule", "RULE r FOR (e); WHERE e ⟦EntityComparison⟧= e; END_RULE; ENTITY e; WHERE SELF ⟦EntityComparison⟧= SELF; END_ENTITY;"),
    ("a rule behind an entity", "ENTITY e; WHERE SELF ⟦EntityComparison⟧= SELF; END_ENTITY; RULE r FOR (e); WHERE e ⟦EntityComparison⟧= e; END_RULE;"),
    ("a rule behind a function behind an entity behind a type",
     "RULE r FOR (e); WHERE 1 ⟦Operand⟧= 'a'; END_RULE; FUNCTION f : INTEGER; ⟦Assign⟧RETURN ('a'); END_FUNCTION; "
     "ENTITY e; WHERE ⟦Operand⟧NOT 1; END_ENTITY; TYPE t = STRING; WHERE ⟦Arguments⟧SIZEOF(SELF) = 1; END_TYPE;"),
    ("a constant before all", "CONSTANT c : INTEGER := 1; ⟦Assign⟧d : INTEGER := 'a'; END_CONSTANT; TYPE t = INTEGER; WHERE 1 ⟦Operand⟧= 'a'; END_TYPE;"),
    ("a constant's name before its value", "CONSTANT ⟦Assign⟧c : STRING := 1 + 1; END_CONSTANT;"),
    ("a constant's value", "CONSTANT c : STRING := 1 ⟦Operand⟧+ 'a'; END_CONSTANT;"),
    ("an entity's clauses", "ENTITY r; a : INTEGER; END_ENTITY; ENTITY s; a : INTEGER; END_ENTITY; "
     "ENTITY e SUBTYPE OF (r, s); DERIVE ⟦Assign⟧d : INTEGER := 'a'; INVERSE i : e FOR ⟦Ambiguous⟧a; UNIQUE ⟦Ambiguous⟧a; WHERE ⟦Ambiguous⟧a = 1; END_ENTITY;"),
    ("INVERSE before UNIQUE", "ENTITY r; a : INTEGER; END_ENTITY; ENTITY s; a : INTEGER; END_ENTITY; "
     "ENTITY e SUBTYPE OF (r, s); INVERSE i : e FOR ⟦Ambiguous⟧a; UNIQUE ⟦Ambiguous⟧a; WHERE 1 ⟦Operand⟧= 'a'; END_ENTITY;"),
    ("UNIQUE before WHERE", "ENTITY r; a : INTEGER; END_ENTITY; ENTITY s; a : INTEGER; END_ENTITY; "
     "ENTITY e SUBTYPE OF (r, s); b : INTEGER; UNIQUE b, ⟦Ambiguous⟧a; WHERE 1 ⟦Operand⟧= 'a'; END_ENTITY;"),
    ("the second rule", "ENTITY e; WHERE 1 = 1; w : 1 ⟦Operand⟧= 'a'; 'a' ⟦Operand⟧= 1; END_ENTITY;"),
    ("a local before the statements", "FUNCTION f : INTEGER; LOCAL a : STRING := 'a'; ⟦Assign⟧b : STRING := 1; END_LOCAL; ⟦Assign⟧a := 1; END_FUNCTION;"),
    ("locals of one line", "FUNCTION f : INTEGER; LOCAL ⟦Assign⟧a, ⟦Assign⟧b : STRING := 1; END_LOCAL; ; END_FUNCTION;"),
    ("a local's value before the next local", "FUNCTION f : INTEGER; LOCAL a : STRING := 1 ⟦Operand⟧+ 'a'; ⟦Assign⟧b : STRING := 1; END_LOCAL; ; END_FUNCTION;"),
    ("a local that is assigned before its value", "FUNCTION f (p : STRING) : INTEGER; ⟦Assign⟧p := 1 * SIZEOF([1 ⟦Operand⟧= 'a']); END_FUNCTION;"),
    ("RETURN before its value", "FUNCTION f : STRING; ⟦Assign⟧RETURN (ABS(1 ⟦Operand⟧- 'a')); END_FUNCTION;"),
    ("RETURN's value", "FUNCTION f : INTEGER; RETURN (1 ⟦Operand⟧+ 'a'); END_FUNCTION;"),
    ("a rule's local, statement and WHERE", "ENTITY e; END_ENTITY; RULE r FOR (e); LOCAL ⟦Assign⟧a : INTEGER := 'a'; END_LOCAL; "
     "⟦Assign⟧a := 'b'; WHERE a ⟦Operand⟧= 'c'; END_RULE;"),
    ("a rule's statement and WHERE", "ENTITY e; END_ENTITY; RULE r FOR (e); LOCAL a : INTEGER; END_LOCAL; IF a ⟦Operand⟧= 'a' THEN ; END_IF; "
     "WHERE a ⟦Operand⟧= 'c'; END_RULE;"),
    ("a rule's second WHERE", "ENTITY e; END_ENTITY; RULE r FOR (e); WHERE w : TRUE; x : 1 ⟦Operand⟧= 'c'; END_RULE;"),
    ("a CASE before its parts", "FUNCTION f (p : INTEGER) : INTEGER; ⟦Operand⟧CASE p OF 1 : ⟦Assign⟧p := 'a'; 'a' : ; END_CASE; END_FUNCTION;"),
    ("a CASE's selector", "FUNCTION f (p : INTEGER) : INTEGER; CASE p ⟦Operand⟧+ 'a' OF 'a' : ; 1 : ⟦Assign⟧p := 'a'; END_CASE; END_FUNCTION;"),
    ("a CASE's label", "FUNCTION f (p : INTEGER) : INTEGER; CASE p OF 1 : ; 2, 3 ⟦Operand⟧+ 'a' : ⟦Assign⟧p := 'a'; END_CASE; END_FUNCTION;"),
    ("a CASE's action before the next label", "FUNCTION f (p : INTEGER) : INTEGER; CASE p OF 1 : ⟦Assign⟧p := 'a'; 3 ⟦Operand⟧+ 'a' : ; END_CASE; END_FUNCTION;"),
    ("a CASE's OTHERWISE", "FUNCTION f (p : INTEGER) : INTEGER; CASE p OF 1 : ; OTHERWISE : ⟦Assign⟧p := 'a'; END_CASE; ⟦Assign⟧p := 'b'; END_FUNCTION;"),
    ("a REPEAT's variable before its bounds", "FUNCTION f (p : INTEGER) : INTEGER; REPEAT ⟦Assign⟧v := 'a' TO 1 ⟦Operand⟧+ 'a'; ; END_REPEAT; END_FUNCTION;"),
    ("a REPEAT's bounds", "FUNCTION f (p : INTEGER) : INTEGER; REPEAT v := 1 TO 1 ⟦Operand⟧+ 'a' BY p ⟦Operand⟧- 'a'; ⟦Assign⟧p := 'a'; END_REPEAT; END_FUNCTION;"),
    ("a REPEAT's step", "FUNCTION f (p : INTEGER) : INTEGER; REPEAT v := 1 TO 2 BY p ⟦Operand⟧- 'a' WHILE v ⟦Operand⟧= 'a'; ⟦Assign⟧p := 'a'; END_REPEAT; END_FUNCTION;"),
    ("a REPEAT's WHILE", "FUNCTION f (p : INTEGER) : INTEGER; REPEAT v := 1 TO 2 WHILE v ⟦Operand⟧= 'a' UNTIL v ⟦Operand⟧= 'a'; ⟦Assign⟧p := 'a'; END_REPEAT; END_FUNCTION;"),
    ("a REPEAT's UNTIL", "FUNCTION f (p : INTEGER) : INTEGER; REPEAT WHILE p UNTIL p ⟦Operand⟧= 'a'; ⟦Assign⟧p := 'a'; END_REPEAT; END_FUNCTION;"),
    ("a REPEAT's statements", "FUNCTION f (p : INTEGER) : INTEGER; REPEAT v := 1 TO 2; p := v; ⟦Assign⟧p := 'a'; END_REPEAT; ⟦Assign⟧p := 'b'; END_FUNCTION;"),
    ("an IF's parts", "FUNCTION f (p : INTEGER) : INTEGER; IF p ⟦Operand⟧= 'a' THEN ⟦Assign⟧p := 'a'; ELSE ⟦Assign⟧p := 'b'; END_IF; END_FUNCTION;"),
    ("an IF's THEN", "FUNCTION f (p : INTEGER) : INTEGER; IF p = 1 THEN ; ⟦Assign⟧p := 'a'; ELSE ⟦Assign⟧p := 'b'; END_IF; END_FUNCTION;"),
    ("an IF's ELSE", "FUNCTION f (p : INTEGER) : INTEGER; IF p = 1 THEN ; ELSE p := 1; BEGIN ; ⟦Assign⟧p := 'b'; END; END_IF; END_FUNCTION;"),
    ("the first of two operators", "ENTITY e; WHERE 1 ⟦Operand⟧- 'a' ⟦RealArithmetic⟧+ 1.5; END_ENTITY;"),
    ("an operator that binds more, behind another", "ENTITY e; WHERE 1 + 'a' ⟦RealArithmetic⟧/ 1; END_ENTITY;"),
    ("an operator that stands inside, but later", "ENTITY e; WHERE (1 = 1) ⟦Operand⟧+ ABS(1 ⟦Operand⟧- 'a'); END_ENTITY;"),
    ("a refused comparison gives a truth value still", "ENTITY e; WHERE 1 ⟦Operand⟧+ (1 ⟦Operand⟧= 'a'); END_ENTITY;"),
    ("a function before its arguments", "ENTITY e; WHERE ⟦Arguments⟧ABS('a' = 1 ⟦RealArithmetic⟧/ 2); END_ENTITY;"),
    ("an argument before the next one", "FUNCTION f (a, b : INTEGER) : INTEGER; RETURN (f(1 ⟦Operand⟧+ 'a', f(2, 1 ⟦Operand⟧+ 'b'))); END_FUNCTION;"),
    ("a call within a call", "FUNCTION f (a, b : INTEGER) : INTEGER; RETURN (f(1, ⟦Arguments⟧f('a', 1))); END_FUNCTION;"),
    ("a call around a call", "FUNCTION f (a, b : INTEGER) : INTEGER; RETURN (⟦Arguments⟧f('a', ⟦Arguments⟧f('a', 1))); END_FUNCTION;"),
    ("a QUERY before its source and condition", "ENTITY e; WHERE ⟦Operand⟧QUERY(v <* 1 | 1 ⟦Operand⟧= 'a'); END_ENTITY;"),
    ("an interval's comparisons", "ENTITY e; WHERE {1 ⟦Operand⟧< 'a' ⟦Operand⟧< 2}; END_ENTITY;"),
    ("an interval's last operand", "ENTITY e; WHERE {1 < 2 < 3 ⟦Operand⟧+ 'a'}; END_ENTITY;"),
    ("an interval's comparison before its last operand", "ENTITY e; WHERE {1 < 2 ⟦Operand⟧< 'a' + 'b'}; END_ENTITY;"),
    ("an access before its index", "ENTITY e; i : INTEGER; WHERE i⟦Qualifier⟧[1 ⟦Operand⟧+ 'a'] = 1; END_ENTITY;"),
    ("the first of several accesses", "ENTITY e; x : e; WHERE x.x⟦Qualifier⟧[1]⟦Qualifier⟧.y⟦Qualifier⟧.z; END_ENTITY;"),
    # at one byte
    ("a quotient of what doesn't fit", "ENTITY e; WHERE 'a' ⟦RealArithmetic⟧/ SELF; END_ENTITY;"),
    ("a sum of a real and what doesn't fit", "ENTITY e; WHERE 1.5 ⟦RealArithmetic⟧+ TRUE; END_ENTITY;"),
    ("a sign of what may be a real or a string", "TYPE t = SELECT (u, v); END_TYPE; TYPE u = REAL; END_TYPE; TYPE v = STRING; WHERE TRUE; END_TYPE; "
     "ENTITY e; a : t; WHERE ⟦RealArithmetic⟧-a; END_ENTITY;"),
    ("an entity and what doesn't fit", "ENTITY e; WHERE SELF ⟦EntityComparison⟧= 1; 'a' ⟦EntityComparison⟧<> [[SELF]]; END_ENTITY;"),
    ("a CASE of an entity and what doesn't fit", "FUNCTION f (p : e) : INTEGER; ⟦EntityComparison⟧CASE p OF 1 : ; END_CASE; END_FUNCTION; ENTITY e; END_ENTITY;"),
    ("a CASE with an entity among labels that don't fit",
     "FUNCTION f (p : e) : INTEGER; ⟦EntityComparison⟧CASE 1 OF 'a' : ; p : ; END_CASE; END_FUNCTION; ENTITY e; END_ENTITY;"),
    ("a wrong value of an attribute that is redeclared ambiguously",
     "ENTITY r; a : INTEGER; END_ENTITY; ENTITY s; a : INTEGER; END_ENTITY; ENTITY e SUBTYPE OF (r, s); END_ENTITY; "
     "ENTITY f SUBTYPE OF (e); DERIVE SELF\\e.⟦Assign⟧a : INTEGER := 'a'; END_ENTITY;"),
]

# ---- entities that are compared

COMPARED = [
    ("SELF", "ENTITY e; WHERE SELF ⟦EntityComparison⟧= SELF; END_ENTITY;"),
    ("SELF by identity", "ENTITY e; WHERE SELF :=: SELF; SELF :<>: 1; SELF IN [SELF]; END_ENTITY;"),
    ("an entity and nothing", "ENTITY e; WHERE ? ⟦EntityComparison⟧<> SELF; END_ENTITY;"),
    ("entities in aggregates", "ENTITY e; a : LIST OF SET OF e; WHERE a ⟦EntityComparison⟧= a; END_ENTITY;"),
    ("an aggregate of what may hold none", "ENTITY e; a : LIST OF SET OF e; WHERE [] ⟦EntityComparison⟧= a; END_ENTITY;"),
    ("entities in an initialiser", "ENTITY e; WHERE [1, [SELF]] ⟦EntityComparison⟧= []; END_ENTITY;"),
    ("a SELECT with an entity", "TYPE t = SELECT (u, e); END_TYPE; TYPE u = INTEGER; END_TYPE; ENTITY e; a : t; WHERE a ⟦EntityComparison⟧= 1; END_ENTITY;"),
    ("a SELECT of lists, one of entities", "TYPE t = SELECT (u, v); END_TYPE; TYPE u = LIST OF INTEGER; END_TYPE; TYPE v = SET OF e; END_TYPE; "
     "ENTITY e; a : t; WHERE a ⟦EntityComparison⟧= [1]; END_ENTITY;"),
    ("a SELECT without an entity", "TYPE t = SELECT (u, v); END_TYPE; TYPE u = LIST OF INTEGER; END_TYPE; TYPE v = STRING; END_TYPE; "
     "ENTITY e; a : t; WHERE a = [1]; a = 'a'; a ⟦Operand⟧= TRUE; END_ENTITY;"),
    ("an order of entities", "ENTITY e; WHERE SELF ⟦Operand⟧< SELF; END_ENTITY;"),
    ("an inclusion of aggregates of entities", "ENTITY e; a : SET OF e; WHERE a <= a; a >= [SELF]; END_ENTITY;"),
    ("VALUE_IN of entities", "ENTITY e; a : SET OF e; WHERE ⟦EntityComparison⟧VALUE_IN(a, 1); END_ENTITY;"),
    ("VALUE_IN of lists of entities", "ENTITY e; a : SET OF LIST OF e; WHERE ⟦EntityComparison⟧VALUE_IN(a, ?); END_ENTITY;"),
    ("VALUE_IN of integers and an entity", "ENTITY e; a : SET OF INTEGER; WHERE VALUE_IN(a, SELF); END_ENTITY;"),
    ("VALUE_IN of an empty initialiser", "ENTITY e; WHERE VALUE_IN([], SELF); VALUE_IN(?, SELF); END_ENTITY;"),
    ("VALUE_IN of no aggregate", "ENTITY e; WHERE ⟦Arguments⟧VALUE_IN(SELF, 1); END_ENTITY;"),
    ("IN of entities", "ENTITY e; a : SET OF e; WHERE SELF IN a; 1 IN a; SELF ⟦Operand⟧IN SELF; END_ENTITY;"),
    ("a CASE of an entity without labels", "ENTITY e; END_ENTITY; FUNCTION f (p : e) : INTEGER; ⟦EntityComparison⟧CASE p OF END_CASE; END_FUNCTION;"),
    ("a CASE with OTHERWISE alone", "ENTITY e; END_ENTITY; FUNCTION f (p : LIST OF e) : INTEGER; ⟦EntityComparison⟧CASE p OF OTHERWISE : ; END_CASE; END_FUNCTION;"),
    ("a CASE of nothing", "FUNCTION f : INTEGER; CASE ? OF 1 : ; 'a' : ; [1] : ; END_CASE; END_FUNCTION;"),
    ("a CASE's label of an entity", "ENTITY e; END_ENTITY; FUNCTION f (p : e) : INTEGER; ⟦EntityComparison⟧CASE 1 OF 1 : ; 2, p : ; END_CASE; END_FUNCTION;"),
    ("a CASE of aggregates", "FUNCTION f (p : LIST OF INTEGER) : INTEGER; CASE p OF [] : ; ['a'] : ; p : ; END_CASE; ⟦Operand⟧CASE p OF 1 : ; END_CASE; END_FUNCTION;"),
    ("GENERIC in a schema without entities", "FUNCTION f (p : GENERIC) : LOGICAL; RETURN (p ⟦EntityComparison⟧= 1); END_FUNCTION;"),
    ("AGGREGATE OF GENERIC in a schema without entities", "FUNCTION f (p : AGGREGATE OF GENERIC) : LOGICAL; RETURN (p ⟦EntityComparison⟧= []); END_FUNCTION;"),
    ("VALUE_IN of GENERIC in a schema without entities", "FUNCTION f (p : GENERIC) : LOGICAL; RETURN (⟦EntityComparison⟧VALUE_IN(p, 1)); END_FUNCTION;"),
    ("a CASE of GENERIC in a schema without entities", "FUNCTION f (p : GENERIC) : LOGICAL; ⟦EntityComparison⟧CASE p OF END_CASE; END_FUNCTION;"),
    ("what comes from GENERIC", "FUNCTION f (p : GENERIC) : GENERIC; RETURN (f(1) ⟦EntityComparison⟧= 1); END_FUNCTION;"),
    ("elements of GENERIC", "FUNCTION f (p : GENERIC) : LOGICAL; RETURN (p[1] ⟦EntityComparison⟧= 1); END_FUNCTION;"),
    ("elements of AGGREGATE OF INTEGER", "FUNCTION f (p : AGGREGATE : x OF INTEGER) : LOGICAL; RETURN (p = [p[1]]); END_FUNCTION;"),
    ("what TYPEOF gives", "ENTITY e; WHERE TYPEOF(SELF) = ['A.E']; TYPEOF(SELF)[1] = 'A.E'; 'A.E' IN TYPEOF(SELF); END_ENTITY;"),
    ("what USEDIN gives", "ENTITY e; WHERE USEDIN(SELF, '') ⟦EntityComparison⟧= []; END_ENTITY;"),
    ("a join of an aggregate and an entity", "ENTITY e; a : LIST OF INTEGER; WHERE (a + SELF) ⟦EntityComparison⟧= a; END_ENTITY;"),
    ("an aggregate less an entity", "ENTITY e; a : LIST OF INTEGER; WHERE (a - SELF) = a; (a * [SELF]) = a; END_ENTITY;"),
    ("the instances in a rule", "ENTITY e; END_ENTITY; RULE r FOR (e); WHERE e :=: e; e ⟦EntityComparison⟧= []; END_RULE;"),
]

# ---- attributes

ATTRIBUTES = [
    ("a supertype's attribute", "ENTITY r; a : INTEGER; END_ENTITY; ENTITY e SUBTYPE OF (r); x : e; WHERE x.a + a + SELF.a + SELF\\r.a + SELF\\e.a = 1; END_ENTITY;"),
    ("a supertype's supertype's attribute", "ENTITY q; a : STRING; END_ENTITY; ENTITY r SUBTYPE OF (q); END_ENTITY; ENTITY e SUBTYPE OF (r); WHERE SELF.a ⟦Operand⟧= 1; END_ENTITY;"),
    ("a subtype's attribute", "ENTITY r; x : r; WHERE x⟦Qualifier⟧.a = 1; END_ENTITY; ENTITY e SUBTYPE OF (r); a : INTEGER; END_ENTITY;"),
    ("a subtype's attribute behind its group", "ENTITY r; x : r; WHERE x\\e.a = 1; END_ENTITY; ENTITY e SUBTYPE OF (r); a : INTEGER; END_ENTITY;"),
    ("a group of an entity beside", "ENTITY r; x : r; WHERE x\\e.a = 1; x\\e.a ⟦Operand⟧= 'a'; END_ENTITY; ENTITY e; a : INTEGER; END_ENTITY;"),
    ("an attribute that a group hasn't", "ENTITY r; a : INTEGER; WHERE SELF\\e⟦Qualifier⟧.a = 1; END_ENTITY; ENTITY e; END_ENTITY;"),
    ("an attribute that no entity has", "ENTITY e; WHERE SELF⟦Qualifier⟧.a = 1; END_ENTITY;"),
    ("an attribute of a list of entities", "ENTITY e; a : INTEGER; x : LIST OF e; WHERE x⟦Qualifier⟧.a = 1; END_ENTITY;"),
    ("an attribute of an element", "ENTITY e; a : INTEGER; x : LIST OF LIST OF e; WHERE x[1][2].a = 1; x[1]⟦Qualifier⟧.a = 1; END_ENTITY;"),
    ("an attribute of a string", "ENTITY e; s : STRING; WHERE s⟦Qualifier⟧.s = 1; END_ENTITY;"),
    ("a group of a string", "ENTITY e; s : STRING; WHERE EXISTS(s⟦Qualifier⟧\\e); END_ENTITY;"),
    ("a group of what may be an entity", "TYPE t = SELECT (s, e); END_TYPE; TYPE s = STRING; END_TYPE; ENTITY e; a : t; b : INTEGER; WHERE a\\e.b = 1; a.b = 1; END_ENTITY;"),
    ("an attribute of one of several entities", "TYPE t = SELECT (d, e); END_TYPE; ENTITY d; a : INTEGER; END_ENTITY; ENTITY e; b : STRING; x : t; "
     "WHERE x.a = 1; x.b = 'a'; x.a ⟦Operand⟧= 'a'; END_ENTITY;"),
    ("an attribute of both of two entities", "TYPE t = SELECT (d, e); END_TYPE; ENTITY d; a : INTEGER; END_ENTITY; ENTITY e; a : STRING; x : t; "
     "WHERE x.a = 1; x.a = 'a'; x.a ⟦Operand⟧= TRUE; END_ENTITY;"),
    ("an attribute of none of two entities", "TYPE t = SELECT (d, e); END_TYPE; ENTITY d; a : INTEGER; END_ENTITY; ENTITY e; x : t; WHERE EXISTS(x⟦Qualifier⟧.b); END_ENTITY;"),
    ("attributes of nested and renamed SELECTs", "TYPE t = u; END_TYPE; TYPE u = SELECT (v, n); END_TYPE; TYPE v = SELECT (d); END_TYPE; TYPE n = INTEGER; END_TYPE; "
     "ENTITY d; a : t; WHERE a.a.a + 1 = 2; a.a ⟦EntityComparison⟧= 1; END_ENTITY;"),
    ("attributes of GENERIC", "ENTITY d; a : INTEGER; END_ENTITY; ENTITY e; a : STRING; END_ENTITY; "
     "FUNCTION f (p : GENERIC) : LOGICAL; RETURN ([p.a = 1, p.a = 'a', p.a ⟦Operand⟧= TRUE] = []); END_FUNCTION;"),
    ("an attribute of GENERIC that no entity has", "ENTITY d; a : INTEGER; END_ENTITY; FUNCTION f (p : GENERIC) : GENERIC; RETURN (p⟦Qualifier⟧.b); END_FUNCTION;"),
    ("attributes of elements of AGGREGATE", "ENTITY d; a : INTEGER; END_ENTITY; FUNCTION f (p : AGGREGATE OF d) : INTEGER; RETURN (p[1].a); END_FUNCTION;"),
    ("an inverse attribute", "ENTITY d; x : e; n : INTEGER; END_ENTITY; ENTITY e; INVERSE i : d FOR x; j : SET OF d FOR x; k : BAG [1:?] OF d FOR x; "
     "WHERE i.n = j[1].n + k[1].n; SIZEOF(j) = SIZEOF(k); i ⟦EntityComparison⟧= ?; END_ENTITY;"),
    ("an attribute of a set of users", "ENTITY d; x : e; n : INTEGER; END_ENTITY; ENTITY e; INVERSE j : SET OF d FOR x; WHERE j⟦Qualifier⟧.n = 1; END_ENTITY;"),
    ("a plain inverse attribute is no aggregate", "ENTITY d; x : e; END_ENTITY; ENTITY e; INVERSE i : d FOR x; WHERE ⟦Arguments⟧SIZEOF(i) = 1; END_ENTITY;"),
    ("a derived attribute", "ENTITY e; DERIVE a : STRING := 'a'; WHERE a + SELF.a = 'aa'; a ⟦Operand⟧+ 1 = 1; END_ENTITY;"),
    ("derived attributes of each other", "ENTITY e; DERIVE a : INTEGER := b; b : INTEGER := a; ⟦Assign⟧c : STRING := a; END_ENTITY;"),
    ("users of a role", "ENTITY d; m : INTEGER; END_ENTITY; ENTITY e; WHERE USEDIN(SELF, 'A.D.X')[1].m = 1; USEDIN(SELF, '')[1]⟦Qualifier⟧.zz = 1; END_ENTITY;"),
    ("an attribute of an instance in a rule", "ENTITY e; m : INTEGER; END_ENTITY; RULE r FOR (e); WHERE e[1].m = 1; SIZEOF(QUERY(v <* e | v.m = 1)) = 0; "
     "SIZEOF(QUERY(v <* e | v.m ⟦Operand⟧= 'a')) = 0; END_RULE;"),
    ("an attribute of the instances", "ENTITY e; m : INTEGER; END_ENTITY; RULE r FOR (e); WHERE e⟦Qualifier⟧.m = 1; END_RULE;"),
    ("long chains of accesses", "ENTITY e; x : LIST OF e; n : STRING; WHERE SELF.x[1].x[2]\\e.x[3]\\e\\e.n[1:2][1] = 'a'; SELF.x[1].x⟦Qualifier⟧.x = []; END_ENTITY;"),
    ("an attribute of what a function gives", "ENTITY e; n : STRING; END_ENTITY; FUNCTION f : e; ; END_FUNCTION; FUNCTION g (p : e) : e; ⟦Assign⟧RETURN (f.n = g(f).n); END_FUNCTION;"),
    ("an attribute of what is local", "ENTITY e; n : STRING; END_ENTITY; FUNCTION f (p : e) : STRING; LOCAL q : LIST OF e := [p, f(p)]; END_LOCAL; RETURN (q[1].n + p.n); END_FUNCTION;"),
    ("an attribute of a constant", "CONSTANT c : e := ?; END_CONSTANT; ENTITY e; n : STRING; WHERE c.n = 'a'; c⟦Qualifier⟧.m = 1; END_ENTITY;"),
    ("an attribute with the name of an enumeration", "TYPE x = ENUMERATION OF (a, b); END_TYPE; ENTITY y; c : x; END_ENTITY; ENTITY e; x : y; WHERE x.c = b; x⟦Qualifier⟧.a = b; END_ENTITY;"),
]

# ---- attributes that are redeclared

# r has a : SELECT of INTEGER, STRING, LOGICAL; s and t are below it, and u below both
DIAMOND = ("TYPE k = SELECT (k1, k2, k3); END_TYPE; TYPE k1 = INTEGER; END_TYPE; TYPE k2 = STRING; END_TYPE; TYPE k3 = LOGICAL; END_TYPE; "
           "ENTITY r; a : k; END_ENTITY; ENTITY s SUBTYPE OF (r); {} END_ENTITY; ENTITY t SUBTYPE OF (r); {} END_ENTITY; "
           "ENTITY u SUBTYPE OF (s, t); {} END_ENTITY; ")
AS_INTEGER, AS_STRING, DERIVED = "SELF\\r.a : INTEGER;", "SELF\\r.a : STRING;", "DERIVE SELF\\r.a : STRING := 'a';"
# what s, t and u redeclare; and the kinds of a for r, s, t and u, as letters: I, S, L
REDECLARED = [
    ("not redeclared", "", "", "", ("ISL", "ISL", "ISL", "ISL")),
    ("redeclared on one way", AS_INTEGER, "", "", ("ISL", "I", "ISL", "I")),
    ("redeclared on the other way", "", AS_STRING, "", ("ISL", "ISL", "S", "S")),
    ("redeclared on both ways", AS_INTEGER, AS_STRING, "", ("ISL", "I", "S", "IS")),
    ("redeclared on both ways alike", AS_INTEGER, AS_INTEGER, "", ("ISL", "I", "I", "I")),
    ("redeclared below", "", "", AS_STRING, ("ISL", "ISL", "ISL", "S")),
    ("redeclared on both ways and below", AS_INTEGER, AS_INTEGER, AS_STRING, ("ISL", "I", "I", "S")),
    ("redeclared on one way and below", AS_INTEGER, "", "SELF\\s.a : LOGICAL;", ("ISL", "I", "ISL", "L")),
    ("redeclared in DERIVE on one way", AS_INTEGER, DERIVED, "", ("ISL", "I", "S", "IS")),
    ("redeclared in DERIVE below", AS_INTEGER, "", DERIVED, ("ISL", "I", "ISL", "S")),
    ("redeclared in DERIVE, and below explicitly", DERIVED, "", "SELF\\t.a : INTEGER;", ("ISL", "S", "ISL", "I")),
]
ASKED = {"I": "1", "S": "'a'", "L": "TRUE"}

NAMESAKES = [
    # an own attribute with an inherited one's name
    ("an own attribute beside an inherited one", "⟦Ambiguous⟧a = 1;"),
    ("an own attribute beside an inherited one, of SELF", "SELF.⟦Ambiguous⟧a = 1;"),
    ("an own attribute beside an inherited one, behind the own group", "SELF\\e.⟦Ambiguous⟧a = 1;"),
    ("an own attribute beside an inherited one, behind the other group", "SELF\\r.a = 1;"),
    ("an own attribute beside an inherited one, of a variable", "x.⟦Ambiguous⟧a = 1;"),
    ("an own attribute beside an inherited one, of a subtype", "z.⟦Ambiguous⟧a = 1;"),
    ("an own attribute beside an inherited one, of a supertype", "y.a = 1;"),
    ("an own attribute beside an inherited one, of an element", "QUERY(v <* [x] | v.⟦Ambiguous⟧a = 1);"),
    ("an own attribute beside an inherited one, of several entities", "w.⟦Ambiguous⟧a = 1;"),
    ("an own attribute beside an inherited one, of others", "o.a = 1;"),
    ("an attribute beside an ambiguous one", "b = 1; x.b = 1; SELF\\e.b = 1;"),
    ("an ambiguous name inside causes no fault outside", "NOT x.⟦Ambiguous⟧a;"),
    ("an ambiguous name has no kinds", "-x.⟦Ambiguous⟧a; ABS(x.⟦Ambiguous⟧a);"),
    ("a fault before an ambiguous name", "1 ⟦Operand⟧+ 'a' = ⟦Ambiguous⟧a;"),
    ("an ambiguous name before a fault", "⟦Ambiguous⟧a = 1 ⟦Operand⟧+ 'a';"),
]
NAMESAKE = ("TYPE any = SELECT (r, e); END_TYPE; TYPE others = SELECT (r, n); END_TYPE; ENTITY n; c : INTEGER; END_ENTITY; ENTITY r; a : INTEGER; END_ENTITY; "
            "ENTITY e SUBTYPE OF (r); a : INTEGER; b : INTEGER; END_ENTITY; ENTITY f SUBTYPE OF (e); END_ENTITY; "
            "ENTITY g SUBTYPE OF (e); x : e; y : r; z : f; w : any; o : others; WHERE {} END_ENTITY;")

# a is explicit in r, derived in s and inverse in t; e, g and h have it from two of these, and k from r and itself
TWO_SORTS = ("ENTITY n; x : t; END_ENTITY; ENTITY r; a : n; END_ENTITY; ENTITY s; DERIVE a : n := ?; END_ENTITY; "
             "ENTITY t; INVERSE a : n FOR x; END_ENTITY; ENTITY e SUBTYPE OF (r, s); END_ENTITY; "
             "ENTITY g SUBTYPE OF (r, t); END_ENTITY; ENTITY h SUBTYPE OF (s, t); END_ENTITY; "
             "ENTITY k SUBTYPE OF (r); DERIVE a : n := ?; END_ENTITY;")

AMBIGUOUS = [
    ("an attribute that two supertypes have", "ENTITY r; a : INTEGER; END_ENTITY; ENTITY s; a : STRING; END_ENTITY; "
     "ENTITY e SUBTYPE OF (r, s); WHERE SELF\\r.a = 1; SELF\\s.a = 'a'; ⟦Ambiguous⟧a = 1; END_ENTITY;"),
    ("an attribute of a diamond", "ENTITY r; a : INTEGER; END_ENTITY; ENTITY s SUBTYPE OF (r); END_ENTITY; ENTITY t SUBTYPE OF (r); END_ENTITY; "
     "ENTITY e SUBTYPE OF (s, t); UNIQUE a; WHERE a = 1; SELF.a = 1; SELF\\s.a = 1; END_ENTITY;"),
    ("explicit, derived and inverse attributes of one name", "ENTITY n; x : s; END_ENTITY; ENTITY r; a : INTEGER; END_ENTITY; ENTITY s; INVERSE a : n FOR x; END_ENTITY; "
     "ENTITY e SUBTYPE OF (r, s); WHERE ⟦Ambiguous⟧a = 1; END_ENTITY;"),
    ("an own derived attribute with an inherited one's name", "ENTITY r; a : INTEGER; END_ENTITY; ENTITY e SUBTYPE OF (r); DERIVE a : INTEGER := SELF\\r.a; b : INTEGER := ⟦Ambiguous⟧a; END_ENTITY;"),
    ("a redeclared attribute isn't ambiguous", "ENTITY r; a : INTEGER; END_ENTITY; ENTITY e SUBTYPE OF (r); SELF\\r.a : INTEGER; UNIQUE a; WHERE a = SELF.a; SELF\\e.a = SELF\\r.a; END_ENTITY;"),
    ("UNIQUE of two", "ENTITY r; a : INTEGER; END_ENTITY; ENTITY s; a : INTEGER; END_ENTITY; ENTITY e SUBTYPE OF (r, s); UNIQUE SELF\\r.a, SELF\\s.a; u : ⟦Ambiguous⟧a; END_ENTITY;"),
    ("UNIQUE of an own and an inherited one", "ENTITY r; a : INTEGER; END_ENTITY; ENTITY e SUBTYPE OF (r); a : INTEGER; UNIQUE SELF\\r.a; ⟦Ambiguous⟧a; END_ENTITY;"),
    ("UNIQUE of two behind the own group", "ENTITY r; a : INTEGER; END_ENTITY; ENTITY e SUBTYPE OF (r); a : INTEGER; UNIQUE SELF\\r.a, SELF\\e.⟦Ambiguous⟧a; END_ENTITY;"),
    ("UNIQUE of two behind a supertype's group", "ENTITY r; a : INTEGER; END_ENTITY; ENTITY e SUBTYPE OF (r); a : INTEGER; END_ENTITY; "
     "ENTITY f SUBTYPE OF (e); b : INTEGER; UNIQUE b, SELF\\r.a; SELF\\e.⟦Ambiguous⟧a; END_ENTITY;"),
    ("INVERSE of two", "ENTITY r; a : n; END_ENTITY; ENTITY s; a : n; END_ENTITY; ENTITY e SUBTYPE OF (r, s); END_ENTITY; "
     "ENTITY n; INVERSE i : SET OF r FOR a; j : SET OF e FOR ⟦Ambiguous⟧a; END_ENTITY;"),
    ("INVERSE of an own and an inherited one", "ENTITY r; a : n; END_ENTITY; ENTITY e SUBTYPE OF (r); a : n; END_ENTITY; ENTITY n; INVERSE j : e FOR ⟦Ambiguous⟧a; END_ENTITY;"),
    ("INVERSE of an explicit and a derived one", "ENTITY r; a : n; END_ENTITY; ENTITY s; DERIVE a : n := ?; END_ENTITY; ENTITY e SUBTYPE OF (r, s); END_ENTITY; "
     "ENTITY n; INVERSE j : e FOR ⟦Ambiguous⟧a; END_ENTITY;"),
    ("redeclared: one of two", "ENTITY r; a : INTEGER; END_ENTITY; ENTITY s; a : INTEGER; END_ENTITY; ENTITY e SUBTYPE OF (r, s); END_ENTITY; "
     "ENTITY f SUBTYPE OF (e); SELF\\e.⟦Ambiguous⟧a : INTEGER; END_ENTITY; ENTITY g SUBTYPE OF (e); SELF\\r.a, SELF\\s.a : INTEGER; END_ENTITY;"),
    ("redeclared: one of two, in DERIVE", "ENTITY r; a : INTEGER; END_ENTITY; ENTITY s; a : INTEGER; END_ENTITY; ENTITY e SUBTYPE OF (r, s); END_ENTITY; "
     "ENTITY f SUBTYPE OF (e); DERIVE SELF\\e.⟦Ambiguous⟧a : INTEGER := 1; END_ENTITY; ENTITY g SUBTYPE OF (e); DERIVE SELF\\s.a : INTEGER := 1; END_ENTITY;"),
    ("redeclared: beside an own one", "ENTITY r; a : INTEGER; END_ENTITY; ENTITY e SUBTYPE OF (r); a : INTEGER; SELF\\r.a : INTEGER; END_ENTITY; "
     "ENTITY f SUBTYPE OF (e); SELF\\e.⟦Ambiguous⟧a : INTEGER; END_ENTITY;"),
    ("one entity of a SELECT has two", "TYPE t = SELECT (d, e); END_TYPE; ENTITY d; a : INTEGER; x : t; WHERE x.⟦Ambiguous⟧a = 1; END_ENTITY; ENTITY r; a : INTEGER; END_ENTITY; "
     "ENTITY s; a : INTEGER; END_ENTITY; ENTITY e SUBTYPE OF (r, s); END_ENTITY;"),
    ("one entity of the schema has two, behind GENERIC", "FUNCTION f (p : GENERIC) : GENERIC; RETURN (p.⟦Ambiguous⟧a); END_FUNCTION; ENTITY r; a : INTEGER; END_ENTITY; "
     "ENTITY s; a : INTEGER; END_ENTITY; ENTITY e SUBTYPE OF (r, s); END_ENTITY;"),
    ("one entity of the schema has two, behind a group", "FUNCTION f (p : GENERIC) : GENERIC; RETURN (p\\r.a); END_FUNCTION; ENTITY r; a : INTEGER; END_ENTITY; "
     "ENTITY s; a : INTEGER; END_ENTITY; ENTITY e SUBTYPE OF (r, s); END_ENTITY;"),
    ("redeclared: an explicit and a derived one", f"{TWO_SORTS} ENTITY f SUBTYPE OF (e); SELF\\e.⟦Ambiguous⟧a : n; END_ENTITY;"),
    ("redeclared: an explicit and a derived one, in DERIVE", f"{TWO_SORTS} ENTITY f SUBTYPE OF (e); DERIVE SELF\\e.⟦Ambiguous⟧a : n := ?; END_ENTITY;"),
    ("redeclared: an explicit and an inverse one", f"{TWO_SORTS} ENTITY f SUBTYPE OF (g); SELF\\g.⟦Ambiguous⟧a : n; END_ENTITY;"),
    ("redeclared: an explicit and an inverse one, in DERIVE", f"{TWO_SORTS} ENTITY f SUBTYPE OF (g); DERIVE SELF\\g.⟦Ambiguous⟧a : n := ?; END_ENTITY;"),
    ("redeclared: a derived and an inverse one, in DERIVE", f"{TWO_SORTS} ENTITY f SUBTYPE OF (h); DERIVE SELF\\h.⟦Ambiguous⟧a : n := ?; END_ENTITY;"),
    ("redeclared: a derived and an inverse one, where neither can be", f"{TWO_SORTS} ENTITY f SUBTYPE OF (h); SELF\\h.⟦Ambiguous⟧a : n; END_ENTITY;"),
    ("redeclared: an inherited and an own derived one", f"{TWO_SORTS} ENTITY f SUBTYPE OF (k); SELF\\k.⟦Ambiguous⟧a : n; END_ENTITY;"),
    ("redeclared: each of two sorts behind its own entity",
     f"{TWO_SORTS} ENTITY f SUBTYPE OF (e); SELF\\r.a : n; DERIVE SELF\\s.a : n := ?; END_ENTITY;"),
    ("redeclared: the sort that can't be, behind its own entity", f"{TWO_SORTS} ENTITY f SUBTYPE OF (e); SELF\\s.⟦NotAnAttribute⟧a : n; END_ENTITY;"),
    ("INVERSE of an explicit and an inverse one", f"{TWO_SORTS} ENTITY f; INVERSE i : g FOR ⟦Ambiguous⟧a; END_ENTITY;"),
    ("INVERSE of a derived and an inverse one", f"{TWO_SORTS} ENTITY f; INVERSE i : h FOR ⟦Ambiguous⟧a; END_ENTITY;"),
    ("INVERSE of an inherited and an own derived one", f"{TWO_SORTS} ENTITY f; INVERSE i : SET OF k FOR ⟦Ambiguous⟧a; END_ENTITY;"),
    ("INVERSE of one of two sorts, behind its own entity", f"{TWO_SORTS} ENTITY f; INVERSE i : r FOR a; END_ENTITY;"),
    # items of enumerations
    ("an item of two enumerations", "TYPE t = ENUMERATION OF (x, y); END_TYPE; TYPE u = ENUMERATION OF (y, x); END_TYPE; "
     "FUNCTION f (p : t) : LOGICAL; RETURN ([p = t.x, p = ⟦Ambiguous⟧x] = []); END_FUNCTION;"),
    ("an item of two enumerations has no kinds", "TYPE t = ENUMERATION OF (x); END_TYPE; TYPE u = ENUMERATION OF (x); END_TYPE; "
     "FUNCTION f : LOGICAL; RETURN (NOT ⟦Ambiguous⟧x); END_FUNCTION;"),
    ("an item of one of two enumerations", "TYPE t = ENUMERATION OF (x, y); END_TYPE; TYPE u = ENUMERATION OF (x, z); END_TYPE; FUNCTION f (p : t; q : u) : LOGICAL; RETURN ((p = y) AND (q = z)); END_FUNCTION;"),
    ("an item of two enumerations as a label", "TYPE t = ENUMERATION OF (x); END_TYPE; TYPE u = ENUMERATION OF (x); END_TYPE; "
     "FUNCTION f (p : t) : t; CASE p OF t.x : ; ⟦Ambiguous⟧x : ; END_CASE; END_FUNCTION;"),
    ("an item of two enumerations as a value", "TYPE t = ENUMERATION OF (x); END_TYPE; TYPE u = ENUMERATION OF (x); END_TYPE; "
     "FUNCTION f : t; LOCAL a : t := t.x; b : t := ⟦Ambiguous⟧x; END_LOCAL; ; END_FUNCTION;"),
    ("an item of two enumerations where a constant has its name", "CONSTANT x : INTEGER := 1; END_CONSTANT; TYPE t = ENUMERATION OF (x); END_TYPE; TYPE u = ENUMERATION OF (x); END_TYPE; "
     "ENTITY e; WHERE x = 1; END_ENTITY;"),
    ("an item of three enumerations in the WHERE of one", "TYPE t = ENUMERATION OF (x); WHERE SELF = t.x; SELF = ⟦Ambiguous⟧x; END_TYPE; TYPE u = ENUMERATION OF (x); END_TYPE; TYPE v = ENUMERATION OF (x); END_TYPE;"),
]

# ---- the rest

MORE = [
    # SELF in types
    ("SELF in a type", "TYPE t = INTEGER; WHERE SELF > 0; SELF ⟦Operand⟧= 'a'; END_TYPE;"),
    ("SELF in a type of a type", "TYPE t = u; WHERE SELF + 'a' = 'b'; ⟦Arguments⟧ABS(SELF) = 1; END_TYPE; TYPE u = STRING (3) FIXED; END_TYPE;"),
    ("SELF in a SELECT", "TYPE t = SELECT (u, e); WHERE EXISTS(SELF); SELF.n = 1; SELF + 1 = 2; SELF\\e.n = 1; SELF ⟦EntityComparison⟧= 1; END_TYPE; TYPE u = INTEGER; END_TYPE; ENTITY e; n : INTEGER; END_ENTITY;"),
    ("SELF in an enumeration", "TYPE t = ENUMERATION OF (x, y); WHERE SELF <> x; SELF < t.y; SELF ⟦Operand⟧= 1; END_TYPE;"),
    ("SELF in a list", "TYPE t = LIST OF INTEGER; WHERE SIZEOF(SELF) = SELF[1]; SIZEOF(QUERY(v <* SELF | v > 1)) = 0; SELF ⟦Operand⟧< [1]; END_TYPE;"),
    ("SELF in a real", "TYPE t = REAL; WHERE {0.0 <= SELF < 1.0}; SELF ⟦RealArithmetic⟧* 2 = 1; END_TYPE;"),
    ("SELF in an entity", "ENTITY e; n : INTEGER; WHERE SELF.n = 1; SELF IN USEDIN(SELF, ''); ⟦Operand⟧NOT SELF; END_ENTITY;"),
    ("SELF in DERIVE", "ENTITY e; DERIVE a : e := SELF; ⟦Assign⟧b : INTEGER := SELF; END_ENTITY;"),
    # types
    ("a type's elements", "TYPE t = ARRAY [1:2] OF OPTIONAL UNIQUE u; END_TYPE; TYPE u = BAG OF STRING; END_TYPE; ENTITY e; a : t; WHERE a[1][1][1:2] + 'a' = 'b'; a[1] ⟦Operand⟧= 'a'; END_ENTITY;"),
    ("a type that is declared below", "FUNCTION f (p : t) : LOGICAL; RETURN ([p = 1, p ⟦Operand⟧= 'a'] = []); END_FUNCTION; TYPE t = u; END_TYPE; TYPE u = INTEGER; END_TYPE;"),
    ("a function that is declared below", "ENTITY e; WHERE f(1) = 'a'; f(1) ⟦Operand⟧= 1; END_ENTITY; FUNCTION f (p : INTEGER) : STRING; RETURN ('a'); END_FUNCTION;"),
    ("an entity that is declared below", "TYPE t = SET OF e; WHERE SELF[1].n = 1; SELF[1].n ⟦Operand⟧= 'a'; END_TYPE; ENTITY e; n : INTEGER; END_ENTITY;"),
    ("widths are no kinds", "FUNCTION f (p : STRING (3)) : STRING (5) FIXED; RETURN (f(p + 'a' + f(p))); END_FUNCTION;"),
    ("bounds are no kinds", "FUNCTION f (p : LIST [0:3] OF INTEGER) : ARRAY [1:2] OF INTEGER; RETURN (f(p)); END_FUNCTION;"),
    ("aggregates fit aggregates", "FUNCTION f (p : LIST OF INTEGER) : SET OF STRING; RETURN (f([['a']])); END_FUNCTION;"),
    ("entities fit entities", "ENTITY d; END_ENTITY; ENTITY e; END_ENTITY; FUNCTION f (p : d) : e; RETURN (f(f(p))); END_FUNCTION;"),
    ("one enumeration doesn't fit another", "TYPE t = ENUMERATION OF (x); END_TYPE; TYPE u = ENUMERATION OF (y); END_TYPE; FUNCTION f (p : t) : LOGICAL; RETURN ([f(x), ⟦Arguments⟧f(y)] = []); END_FUNCTION;"),
    ("an enumeration that is renamed", "TYPE t = ENUMERATION OF (x); END_TYPE; TYPE u = t; END_TYPE; FUNCTION f (p : u) : t; RETURN (f(x)); END_FUNCTION;"),
    ("an enumeration isn't compared with its type's name", "TYPE t = ENUMERATION OF (x, y); END_TYPE; ENTITY e; a : t; WHERE a <= y; {x < a < y}; a ⟦Operand⟧< 'y'; END_ENTITY;"),
    ("BOOLEAN and LOGICAL are one kind", "FUNCTION f (p : BOOLEAN) : BOOLEAN; RETURN (f(UNKNOWN) AND (p < UNKNOWN)); END_FUNCTION;"),
    ("INTEGER fits REAL", "FUNCTION f (p : REAL) : NUMBER; RETURN (f(1)); END_FUNCTION;"),
    ("REAL doesn't fit INTEGER", "FUNCTION f (p : INTEGER) : INTEGER; RETURN (⟦Arguments⟧f(1.5)); END_FUNCTION;"),
    ("NUMBER may fit INTEGER", "FUNCTION f (p : NUMBER) : INTEGER; RETURN (p); END_FUNCTION;"),
    # GENERIC
    ("GENERIC fits everywhere but in arithmetic", "FUNCTION f (p : GENERIC : x) : GENERIC : x; RETURN ([NOT p, p AND p, p ⟦RealArithmetic⟧DIV 1]); END_FUNCTION;"),
    ("GENERIC as arguments", "FUNCTION f (p : GENERIC; q : INTEGER) : INTEGER; RETURN (f(p, p) + f(q, p[1]) + SIZEOF(p) + LENGTH(p) + ABS(p)); END_FUNCTION;"),
    ("GENERIC in orders", "FUNCTION f (p : GENERIC) : LOGICAL; RETURN ((p < 1) AND (p <= [1]) AND (p > 'a') AND {p < p < p} AND (1 IN p)); END_FUNCTION;"),
    ("GENERIC before an aggregate", "FUNCTION f (p : GENERIC) : LOGICAL; RETURN (p ⟦Operand⟧< [1]); END_FUNCTION;"),
    ("GENERIC and an aggregate", "FUNCTION f (p : GENERIC) : GENERIC; RETURN ([1] ⟦RealArithmetic⟧+ p); END_FUNCTION;"),
    ("AGGREGATE takes no INTEGER", "FUNCTION f (p : AGGREGATE OF GENERIC) : INTEGER; RETURN (f([1]) + f(p + [1]) + ⟦Arguments⟧f(1)); END_FUNCTION;"),
    ("AGGREGATE as a result", "FUNCTION f (p : AGGREGATE : x OF INTEGER) : AGGREGATE : x OF STRING; RETURN (f(p)); END_FUNCTION; FUNCTION g : AGGREGATE OF INTEGER; ⟦Assign⟧RETURN (1); END_FUNCTION;"),
    ("elements of elements of GENERIC", "FUNCTION f (p : GENERIC) : LOGICAL; RETURN (NOT p[1][2][3]); END_FUNCTION;"),
    ("LIST OF GENERIC", "FUNCTION f (p : LIST OF GENERIC) : LOGICAL; RETURN (NOT p[1]); END_FUNCTION; FUNCTION g (p : LIST OF GENERIC) : LOGICAL; RETURN (⟦Operand⟧NOT p); END_FUNCTION;"),
    ("a variable of a QUERY over GENERIC", "FUNCTION f (p : GENERIC) : INTEGER; RETURN (SIZEOF(QUERY(v <* p | v AND v[1]))); END_FUNCTION;"),
    # calls by the bare name
    ("a function without parameters", "FUNCTION f : INTEGER; RETURN (f + f); END_FUNCTION;"),
    ("a function with parameters, alone", "FUNCTION f (p : INTEGER) : INTEGER; RETURN (⟦Arguments⟧f); END_FUNCTION;"),
    ("a function without parameters, called", "FUNCTION f : INTEGER; RETURN (⟦Arguments⟧f(1)); END_FUNCTION;"),
    ("a function with parameters, alone before a point", "ENTITY e; n : INTEGER; END_ENTITY; FUNCTION f (p : INTEGER) : e; p := ⟦Arguments⟧f.n; END_FUNCTION;"),
    ("qualifiers of a call", "FUNCTION f (p : INTEGER) : LIST OF STRING; RETURN ([f(1)[2][1:2], f(2)⟦Qualifier⟧[1:2]]); END_FUNCTION;"),
    ("qualifiers of a function of the language", "ENTITY e; n : INTEGER; WHERE TYPEOF(SELF)[1][1:2] = 'A.'; NVL(SELF, SELF).n = 1; SIZEOF(USEDIN(SELF, '')) = 1; SIZEOF([])⟦Qualifier⟧[1] = 1; END_ENTITY;"),
    # conditions have no kind
    ("conditions of any kind", "ENTITY e; WHERE 1; 'a'; w : SELF; [1]; 1.5; END_ENTITY; RULE r FOR (e); IF 1 THEN ; END_IF; REPEAT WHILE 'a' UNTIL e; ; END_REPEAT; WHERE e; 1; END_RULE; TYPE t = INTEGER; WHERE SELF; 'a'; END_TYPE;"),
    ("the condition of a QUERY", "ENTITY e; WHERE EXISTS(QUERY(v <* [1] | v)); EXISTS(QUERY(v <* [1] | 'a')); EXISTS(QUERY(v <* [1] | SELF)); END_ENTITY;"),
    # variables
    ("the variable of a REPEAT", "FUNCTION f (p : INTEGER) : INTEGER; REPEAT v := 1 TO 2; p := v; p := ⟦Arguments⟧LENGTH(v); END_REPEAT; END_FUNCTION;"),
    ("the variable of a REPEAT in WHILE and UNTIL", "FUNCTION f : INTEGER; REPEAT v := 1 TO 2 WHILE v < 2 UNTIL v ⟦Operand⟧= 'a'; ; END_REPEAT; END_FUNCTION;"),
    ("a REPEAT's variable that hides a local", "FUNCTION f : INTEGER; LOCAL v : STRING; END_LOCAL; REPEAT v := 1 TO LENGTH(v); IF v ⟦Operand⟧= 'a' THEN ; END_IF; END_REPEAT; v := 'a'; END_FUNCTION;"),
    ("a REPEAT of numbers", "FUNCTION f (n : NUMBER) : INTEGER; REPEAT v := n TO n BY n; ; END_REPEAT; REPEAT ⟦Assign⟧v := 1 TO 2 BY 1.5; ; END_REPEAT; END_FUNCTION;"),
    ("the variable of a QUERY", "ENTITY e; a : LIST OF STRING; WHERE SIZEOF(QUERY(v <* a | v = 'a')) = 0; SIZEOF(QUERY(v <* a | v ⟦Operand⟧= 1)) = 0; END_ENTITY;"),
    ("the variable of a QUERY within another", "ENTITY e; a : LIST OF LIST OF STRING; WHERE SIZEOF(QUERY(v <* a | SIZEOF(QUERY(w <* v | w = 'a')) = SIZEOF(v))) = 0; "
     "SIZEOF(QUERY(v <* a | SIZEOF(QUERY(v <* v | v = 'a')) = SIZEOF(v))) = 0; SIZEOF(QUERY(v <* a | EXISTS(QUERY(w <* v | w ⟦Operand⟧= v)))) = 0; END_ENTITY;"),
    ("a QUERY over a QUERY", "ENTITY e; a : LIST OF INTEGER; WHERE SIZEOF(QUERY(v <* QUERY(w <* a | w > 1) | v > 2)) = 0; SIZEOF(QUERY(v <* QUERY(w <* a | w > 1) | v ⟦Operand⟧> 'a')) = 0; END_ENTITY;"),
    ("what a QUERY gives", "FUNCTION f (p : LIST OF INTEGER) : LIST OF INTEGER; RETURN (QUERY(v <* p | v > 1) + 1); END_FUNCTION; FUNCTION g (p : LIST OF INTEGER) : INTEGER; ⟦Assign⟧RETURN (QUERY(v <* p | v > 1)); END_FUNCTION;"),
    ("a QUERY over a SELECT with an aggregate", "TYPE t = SELECT (u, v); END_TYPE; TYPE u = INTEGER; END_TYPE; TYPE v = SET OF STRING; END_TYPE; ENTITY e; a : t; WHERE SIZEOF(QUERY(x <* a | x = 'a')) = 0; SIZEOF(QUERY(x <* a | x ⟦Operand⟧= 1)) = 0; END_ENTITY;"),
    ("a QUERY over an initialiser", "ENTITY e; n : INTEGER; WHERE EXISTS(QUERY(v <* [1, 'a', SELF] | (v + 1 = 2) AND (v + 'b' = 'ab') AND (v.n = 1))); EXISTS(QUERY(v <* [1, 'a'] | ⟦Operand⟧NOT v)); END_ENTITY;"),
    # aggregates
    ("sums of aggregates and elements", "ENTITY e; a : SET OF INTEGER; b : LIST OF STRING; WHERE SIZEOF(a + b + 1 + 'a' + TRUE + SELF - 1 - b - 'a') = 0; SIZEOF(1 + a) = 1; SIZEOF(a * b) = 0; SIZEOF(a ⟦Operand⟧* 1) = 0; END_ENTITY;"),
    ("an element less an aggregate", "ENTITY e; a : SET OF INTEGER; WHERE SIZEOF(1 ⟦Operand⟧- a) = 0; END_ENTITY;"),
    ("inclusion of lists", "ENTITY e; a : LIST OF INTEGER; b : SET OF STRING; WHERE a <= b; b >= a; [1] <= a; {a <= b <= a}; a ⟦Operand⟧<= 1; END_ENTITY;"),
    ("an element as a set's subset", "ENTITY e; a : SET OF INTEGER; WHERE 1 IN a; 'a' IN a; a IN [a]; 1 ⟦Operand⟧IN 1; END_ENTITY;"),
    ("an element of a sum", "ENTITY e; a : LIST OF INTEGER; b : LIST OF STRING; WHERE ABS(NVL(?, a[1])) = 1; EXISTS(QUERY(v <* a + b | (v < 1) AND (v < 'a'))); EXISTS(QUERY(v <* a + b | ⟦Operand⟧NOT v)); END_ENTITY;"),
    ("an element of what is common", "ENTITY e; a : LIST OF INTEGER; b : LIST OF STRING; WHERE EXISTS(QUERY(v <* a * b | v < 1)); EXISTS(QUERY(v <* a - b | v < 1)); EXISTS(QUERY(v <* a * b | v ⟦Operand⟧< 'a')); END_ENTITY;"),
    # RETURN and assignments
    ("RETURN of several kinds", "FUNCTION f (p : INTEGER) : STRING; IF p = 1 THEN RETURN ('a'); ELSE RETURN (?); END_IF; REPEAT; ⟦Assign⟧RETURN (p); END_REPEAT; END_FUNCTION;"),
    ("RETURN in a CASE", "FUNCTION f (p : INTEGER) : STRING; CASE p OF 1 : RETURN ('a'); OTHERWISE : BEGIN ⟦Assign⟧RETURN (TRUE); END; END_CASE; END_FUNCTION;"),
    ("a parameter that is assigned", "FUNCTION f (p : INTEGER; q : GENERIC; r : AGGREGATE OF STRING) : INTEGER; q := 'a'; r := [1]; p := q; ⟦Assign⟧r := 1; END_FUNCTION;"),
    ("a local of a rule", "ENTITY e; n : INTEGER; END_ENTITY; RULE q FOR (e); LOCAL a : SET OF e := e; b : e := e[1]; END_LOCAL; a := a + b; b := a[1]; ⟦Assign⟧b := e; WHERE TRUE; END_RULE;"),
    ("a derived attribute that is redeclared", "ENTITY r; a : INTEGER; END_ENTITY; ENTITY e SUBTYPE OF (r); DERIVE SELF\\r.a : INTEGER := 1; END_ENTITY; ENTITY f SUBTYPE OF (r); DERIVE SELF\\r.⟦Assign⟧a : INTEGER := 'a'; END_ENTITY;"),
    ("a redeclared attribute's kind isn't tested", "ENTITY r; a : INTEGER; END_ENTITY; ENTITY e SUBTYPE OF (r); SELF\\r.a : STRING; WHERE a = 'a'; END_ENTITY;"),
    ("constants of each other", "CONSTANT a : INTEGER := b + 1; b : INTEGER := a; ⟦Assign⟧c : STRING := a; END_CONSTANT;"),
    ("a constant of items and functions", "CONSTANT a : t := x; b : t := t.y; c : LIST OF t := [x, y]; ⟦Assign⟧d : INTEGER := x; END_CONSTANT; TYPE t = ENUMERATION OF (x, y); END_TYPE;"),
    # functions of the language
    ("functions of the language without arguments", "ENTITY e; WHERE ⟦Arguments⟧TYPEOF = []; END_ENTITY;"),
    ("a function of the language behind AND", "ENTITY e; WHERE TRUE AND ⟦Arguments⟧VALUE_IN; END_ENTITY;"),
    ("EXISTS and TYPEOF of everything", "ENTITY e; WHERE EXISTS(SELF); EXISTS(?); EXISTS([]); TYPEOF(1.5) = []; TYPEOF(SELF) = TYPEOF(TYPEOF(?)); ⟦Arguments⟧EXISTS(1, 2); END_ENTITY;"),
    ("NVL of two kinds", "ENTITY e; WHERE LENGTH(NVL(1, 'a')) = 1; ABS(NVL(1, 'a')) = 1; ⟦Arguments⟧SIZEOF(NVL(1, 'a')) = 1; END_ENTITY;"),
    ("USEDIN of a role that is no string", "ENTITY e; WHERE SIZEOF(⟦Arguments⟧USEDIN(SELF, 1)) = 1; END_ENTITY;"),
    ("USEDIN of no entity", "ENTITY e; WHERE SIZEOF(⟦Arguments⟧USEDIN('a', 'a')) = 1; END_ENTITY;"),
    ("a role that is malformed", "ENTITY e; WHERE SIZEOF(USEDIN(SELF, 'a.b' + '')) = 1; END_ENTITY;"),
    ("HIINDEX of a string", "ENTITY e; WHERE ⟦Arguments⟧HIINDEX('a') = 1; END_ENTITY;"),
    ("LENGTH of a list", "ENTITY e; WHERE ⟦Arguments⟧LENGTH([1]) = 1; END_ENTITY;"),
    ("BLENGTH of a string", "ENTITY e; WHERE BLENGTH(%1) = 1; ⟦Arguments⟧BLENGTH('a') = 1; END_ENTITY;"),
    # operators
    ("strings and binaries", "ENTITY e; s : STRING; b : BINARY; WHERE s + 'a' < \"00000041\"; b + %01 = %1; b[1] = %1; b[1:2] ⟦Operand⟧+ s[1] = s; END_ENTITY;"),
    ("truth values in order", "ENTITY e; l : LOGICAL; WHERE l < TRUE; {FALSE <= l < TRUE}; l XOR UNKNOWN; l ⟦Operand⟧+ l; END_ENTITY;"),
    ("kinds of several levels", "ENTITY e; i : INTEGER; WHERE 1 + 2 * i DIV 3 MOD 2 ** i - i = 0; 1 + 2 ⟦Operand⟧* 'a' = 0; END_ENTITY;"),
    ("a power", "ENTITY e; i : INTEGER; WHERE i ** 2 = 1; i ⟦Operand⟧** 'a' = 1; END_ENTITY;"),
    ("NOT of a comparison", "ENTITY e; i : INTEGER; WHERE NOT (i = 1) AND (i > 2) OR TRUE XOR FALSE; ⟦Operand⟧NOT i; END_ENTITY;"),
    ("AND of integers", "ENTITY e; i : INTEGER; WHERE (i = 1) AND TRUE; (i = 1) ⟦Operand⟧AND i; END_ENTITY;"),
]

# ---- warnings

SELECTS = ("TYPE s = SELECT (e, i); END_TYPE; TYPE rs = s; END_TYPE; TYPE rrs = RS; END_TYPE; TYPE i = INTEGER; END_TYPE; TYPE ri = i; END_TYPE; "
           "TYPE en = ENUMERATION OF (x); END_TYPE; TYPE l = LIST OF s; END_TYPE; ENTITY e; END_ENTITY; FUNCTION fu : INTEGER; ; END_FUNCTION; ")
SELECT_S = "⟦SelectInTypeof⟧'A.S'"
WARNED = [
    ("the name of a SELECT", f"ENTITY q; WHERE {SELECT_S} IN TYPEOF(SELF); END_ENTITY;"),
    ("the name of a SELECT outside of TYPEOF", f"ENTITY q; WHERE {SELECT_S} = 'a'; LENGTH({SELECT_S}) = 1; EXISTS([[{SELECT_S}]]); END_ENTITY;"),
    ("the names of SELECTs that rename others", "ENTITY q; WHERE ⟦SelectInTypeof⟧'A.RS' = ⟦SelectInTypeof⟧'A.RRS'; END_ENTITY;"),
    ("names of other types", "ENTITY q; WHERE 'A.I' = 'A.RI'; 'A.EN' = 'A.L'; 'A.E' = 'A.FU'; 'A.A' = 'A.X'; 'A.ZZ' = 'A.'; END_ENTITY;"),
    ("names in lower case", "ENTITY q; WHERE 'a.s' = 'A.s'; 'a.S' = 'A.rs'; 'A.Rs' = 'a.rrs'; END_ENTITY;"),
    ("more and less than a name", "ENTITY q; WHERE 'A.S ' = ' A.S'; 'A.SS' = 'A.'; 'S' = 'A'; 'B.S' = 'A .S'; 'A.S.S' = 'A..S'; 'AA.S' = 'A''S'; END_ENTITY;"),
    ("encoded literals", "ENTITY q; WHERE ⟦SelectInTypeof⟧\"000000410000002E00000053\" = ⟦SelectInTypeof⟧\"000000410000002e00000053\"; \"000000610000002E00000073\" = 'a'; \"000000410000002E0000005300000020\" = ''; END_ENTITY;"),
    ("a name in two literals", "ENTITY q; WHERE 'A.' + 'S' = ''; END_ENTITY;"),
    ("a name in a remark", f"ENTITY q; WHERE (* 'A.S' *) {SELECT_S} = ''; -- 'A.S'\n END_ENTITY;"),
    ("the name of a type's own", f"TYPE q = SELECT (e); WHERE NOT (⟦SelectInTypeof⟧'A.Q' IN TYPEOF(SELF)); END_TYPE;"),
    ("a SELECT that is declared below", "ENTITY q; WHERE ⟦SelectInTypeof⟧'A.BELOW' = ''; END_ENTITY; TYPE below = SELECT (e); END_TYPE;"),
    ("each place of an entity", f"ENTITY q; DERIVE a : STRING := {SELECT_S}; WHERE w : {SELECT_S} = ''; a = {SELECT_S}; END_ENTITY;"),
    ("WHERE of a type", f"TYPE q = STRING; WHERE SELF = {SELECT_S}; NOT ({SELECT_S} = SELF); END_TYPE;"),
    ("each place of a function", f"FUNCTION q (p : STRING; l : LIST OF STRING) : GENERIC; LOCAL a : STRING := {SELECT_S}; b, c : STRING := {SELECT_S} + 'a'; END_LOCAL; "
     f"p := {SELECT_S}; IF p = {SELECT_S} THEN p := {SELECT_S}; ELSE BEGIN p := {SELECT_S}; END; END_IF; "
     f"CASE {SELECT_S} OF {SELECT_S}, 'a', {SELECT_S} : p := {SELECT_S}; OTHERWISE : p := {SELECT_S}; END_CASE; "
     f"REPEAT v := LENGTH({SELECT_S}) TO LENGTH({SELECT_S}) BY LENGTH({SELECT_S}) WHILE {SELECT_S} = p UNTIL {SELECT_S} = p; p := {SELECT_S}; END_REPEAT; "
     f"RETURN (q({SELECT_S}, [{SELECT_S}])); END_FUNCTION;"),
    ("each place of an expression", f"ENTITY q; l : LIST OF STRING; WHERE EXISTS(QUERY(v <* l + {SELECT_S} | v = {SELECT_S})); {{{SELECT_S} < {SELECT_S} <= {SELECT_S}}}; "
     f"NOT (({SELECT_S} + {SELECT_S}) = {SELECT_S}); l[LENGTH({SELECT_S})] = l[1][LENGTH({SELECT_S}):LENGTH({SELECT_S})]; NVL(?, {SELECT_S}) IN [{SELECT_S}, {SELECT_S}]; "
     f"EXISTS(USEDIN(SELF, {SELECT_S})); -LENGTH({SELECT_S}) = 1; END_ENTITY;"),
    ("each place of a rule", f"RULE q FOR (e); LOCAL a : STRING := {SELECT_S}; END_LOCAL; a := {SELECT_S}; WHERE {SELECT_S} = a; w : SIZEOF(QUERY(v <* e | {SELECT_S} IN TYPEOF(v))) = 0; END_RULE;"),
    ("declarations in another order than their sorts", f"RULE q1 FOR (e); WHERE {SELECT_S} = ''; END_RULE; FUNCTION q2 : STRING; RETURN ({SELECT_S}); END_FUNCTION; "
     f"ENTITY q3; WHERE {SELECT_S} = ''; END_ENTITY; TYPE q4 = STRING; WHERE SELF = {SELECT_S}; END_TYPE; ENTITY q5; WHERE {SELECT_S} = ''; END_ENTITY; "
     f"TYPE q6 = STRING; WHERE SELF = {SELECT_S}; END_TYPE; FUNCTION q7 : STRING; RETURN ({SELECT_S}); END_FUNCTION; RULE q8 FOR (e); WHERE {SELECT_S} = ''; END_RULE;"),
    ("several lines", f"ENTITY q; WHERE\n  {SELECT_S} = 'ä';\n\n  'ü' = {SELECT_S}; 'é' = {SELECT_S};\r\n{SELECT_S} = ''; END_ENTITY;\n"),
    ("with a fault behind", "ENTITY q; WHERE 'A.S' = ''; 1 ⟦Operand⟧= 'a'; END_ENTITY;"),
    ("with a fault before", "ENTITY q; WHERE 1 ⟦Operand⟧= 'a'; 'A.S' = ''; END_ENTITY;"),
    ("with a fault at the operator beside", "ENTITY q; WHERE 'A.S' ⟦Operand⟧= 1; END_ENTITY;"),
    ("with a fault of names", "ENTITY q; WHERE 'A.S' = ⟦Undeclared⟧zz; END_ENTITY;"),
]
CONSTANT_WARNED = f"CONSTANT c : STRING := {SELECT_S}; d : LIST OF STRING := [{SELECT_S}]; END_CONSTANT; {SELECTS}ENTITY q; WHERE c = {SELECT_S}; END_ENTITY;"

# ---- many of them

def many_of_them():
    count = 3000
    chain = "".join(f"TYPE t_{k} = SELECT (t_{k - 1}, u_{k}); END_TYPE; TYPE u_{k} = LIST OF u_0; END_TYPE; " for k in range(1, count))
    around = "TYPE t_0 = STRING; END_TYPE; TYPE u_0 = INTEGER; END_TYPE; " + chain
    yield "SELECTs many times within each other", f"{around} ENTITY e; a : t_{count - 1}; WHERE a = 'a'; a[1] = 1; a ⟦Operand⟧= TRUE; END_ENTITY;"
    renamed = "TYPE t_0 = SELECT (e); END_TYPE; " + "".join(f"TYPE t_{k} = t_{k - 1}; END_TYPE; " for k in range(1, count))
    yield ("a SELECT that is renamed many times",
           f"{renamed} ENTITY e; n : INTEGER; a : t_{count - 1}; WHERE a.n = 1; ⟦SelectInTypeof⟧'A.T_{count - 1}' = 'A.T_{count}'; END_ENTITY;")
    yield ("a fault behind a SELECT that is renamed many times",
           f"{renamed} ENTITY e; n : INTEGER; a : t_{count - 1}; WHERE a.n = 1; a ⟦EntityComparison⟧= 1; END_ENTITY;")
    supertypes = 500
    entities = "".join(f"ENTITY e_{k} SUBTYPE OF (e_{k - 1}); a_{k} : INTEGER; END_ENTITY; " for k in range(1, supertypes))
    yield ("attributes through a long chain of supertypes", f"ENTITY e_0; a_0 : STRING; END_ENTITY; {entities} ENTITY e; x : e_{supertypes - 1}; "
           f"WHERE x.a_0 = 'a'; x.a_{supertypes - 1} + x.a_1 = 1; x.a_0 ⟦Operand⟧= 1; END_ENTITY;")
    function = "FUNCTION f (p : INTEGER; s : STRING; x : e) : INTEGER; {} END_FUNCTION; ENTITY e; x : e; n : INTEGER; END_ENTITY;"
    yield "the last of many terms", function.format(f"RETURN ({'p + ' * 50000}p ⟦Operand⟧+ s);")
    yield "the last of many accesses", function.format(f"p := x{'.x' * 20000}.n; p := x{'.x' * 20000}⟦Qualifier⟧.m;")
    yield "a fault within 64 parentheses", function.format(f"RETURN ({'(' * 63}p ⟦Operand⟧+ s{')' * 63});")
    yield "elements of 64 aggregates", f"TYPE t = {'SET OF ' * 64}INTEGER; WHERE SELF{'[1]' * 64} = 1; SELF{'[1]' * 64} ⟦Operand⟧= []; END_TYPE;"
    yield "an entity at the bottom of 64 aggregates", f"TYPE t = {'SET OF ' * 64}e; WHERE SELF ⟦EntityComparison⟧= []; END_TYPE; ENTITY e; END_ENTITY;"
    calls = "f(" * 60 + "p" + ", s, x)" * 60
    yield "calls many times within each other", function.format(f"RETURN ({calls});")
    yield "the innermost of many calls", function.format(f"RETURN ({calls.replace('f(p', '⟦Arguments⟧f(s')});")
    twice = "".join(f"TYPE t_{k} = SELECT (t_{k - 1}, s_{k - 1}); END_TYPE; TYPE s_{k} = SELECT (s_{k - 1}, t_{k - 1}); END_TYPE; " for k in range(1, 100))
    yield ("SELECTs with two ways to each", f"TYPE t_0 = STRING; END_TYPE; TYPE s_0 = INTEGER; END_TYPE; {twice} ENTITY e; a : t_99; b : LIST OF s_99; "
           "WHERE a + 'a' = 'a'; a + 1 = 1; b[1] = a; a ⟦Operand⟧= TRUE; END_ENTITY;")
    twice = "".join(f"TYPE t_{k} = SELECT (u_{k}, v_{k}); END_TYPE; TYPE u_{k} = LIST OF t_{k - 1}; END_TYPE; TYPE v_{k} = SET OF t_{k - 1}; END_TYPE; "
                    for k in range(1, 100))
    yield ("aggregates with two ways to their elements", f"TYPE t_0 = SELECT (e); END_TYPE; {twice} ENTITY e; n : INTEGER; a : t_99; "
           f"WHERE a{'[1]' * 99}.n = 1; a <= a; (a + a) ⟦EntityComparison⟧= a; END_ENTITY;")
    twice = "".join(f"ENTITY e_{k} SUBTYPE OF (e_{k - 1}, f_{k - 1}); END_ENTITY; ENTITY f_{k} SUBTYPE OF (e_{k - 1}, f_{k - 1}); END_ENTITY; " for k in range(1, 100))
    yield ("attributes with two ways to them", f"ENTITY e_0; a, b : INTEGER; END_ENTITY; ENTITY f_0; b : STRING; END_ENTITY; {twice} "
           "ENTITY e; x : e_99; WHERE x.a = 1; x\\e_0.b = 1; x\\f_0.b = 'a'; x.⟦Ambiguous⟧b = 1; END_ENTITY;")
    # so often asked that what is found is kept: of a SELECT, of what its members' attributes are, and of what theirs are
    names, often = range(300), 600
    around = f"TYPE t = SELECT ({', '.join(f'd_{k}' for k in names)}); END_TYPE; " + "".join(
        f"ENTITY d_{k}; x : r_{k}; n : INTEGER; END_ENTITY; ENTITY r_{k}; x : d_{k}; n : STRING; END_ENTITY; " for k in names)
    asked = "v.n = 1; v.x.n = 'a'; v.x.x.n = 1; v.x.x.x.n = 'a'; " * often
    for fault in ("v.x.n ⟦Operand⟧= 1", "v.x.x.n ⟦Operand⟧= 'a'", "v.x.x.x.n ⟦Operand⟧= 1", "EXISTS(v.x⟦Qualifier⟧.m)", "EXISTS(v.x.x⟦Qualifier⟧.m)"):
        yield f"{fault}, behind many attributes of attributes of many entities", f"{around} ENTITY q; v : t; WHERE {asked}{fault}; END_ENTITY;"
    around += "ENTITY g; b : INTEGER; END_ENTITY; ENTITY h; b : INTEGER; END_ENTITY; ENTITY i SUBTYPE OF (g, h); END_ENTITY; "
    around = around.replace("ENTITY r_7; x : d_7;", "ENTITY r_7 SUBTYPE OF (i); x : d_7;")
    yield ("one of many entities' attributes has two of a name", f"{around} ENTITY q; v : t; WHERE {asked}EXISTS(v.x.⟦Ambiguous⟧b); END_ENTITY;")
    literals = " ".join(f"w{k} : ⟦SelectInTypeof⟧'A.S' = '{k}';" for k in range(count))
    yield "many warnings", f"{SELECTS} ENTITY q; WHERE {literals} END_ENTITY;"


# ---- the long schema

LONG = os.path.join(TOP, "tests/data/long.exp")
# the words and signs of the profile; those of one letter or two are looked for among the tokens as well
WORDS = """ABS ABSTRACT AGGREGATE AND ANDOR ARRAY BAG BEGIN BINARY BLENGTH BOOLEAN BY CASE CONSTANT DERIVE DIV ELSE END END_CASE
END_CONSTANT END_ENTITY END_FUNCTION END_IF END_LOCAL END_REPEAT END_RULE END_SCHEMA END_TYPE ENTITY ENUMERATION ESCAPE EXISTS FALSE
FIXED FOR FUNCTION GENERIC HIINDEX IF IN INTEGER INVERSE LENGTH LIST LOCAL LOGICAL LOINDEX MOD NOT NUMBER NVL ODD OF ONEOF OPTIONAL
OR OTHERWISE QUERY REAL REPEAT RETURN RULE SCHEMA SELECT SELF SET SIZEOF SKIP STRING SUBTYPE SUPERTYPE THEN TO TRUE TYPE TYPEOF
UNIQUE UNKNOWN UNTIL USEDIN VALUE_IN WHERE WHILE XOR""".split()
SIGNS = ":<>: :=: := <= <> <* >= ** . , ; : * + - = \\ < > [ ] { } | ( ) ?".split()
TOKEN = re.compile(r"--[^\n]*|\(\*.*?\*\)|(?P<word>[A-Za-z]\w*)|(?P<number>\d+(?:\.\d*(?:[eE][+-]?\d+)?)?)|(?P<string>'(?:[^'\n]|'')*')"
                   r"|(?P<encoded>\"[0-9A-Fa-f]+\")|(?P<binary>%[01]+)"
                   r"|(?P<sign>:<>:|:=:|:=|<=|<>|<\*|>=|\*\*|[.,;:*+=\\/<>\[\]{}|()?-])|\s+", re.DOTALL)


def missing_of(text):
    """Which words, signs and sorts of literals of the profile don't occur in the text."""
    found = list(TOKEN.finditer(text))
    if "".join(it[0] for it in found) != text:
        return ["a text of these tokens"]
    words = {it["word"].upper() for it in found if it["word"]}
    signs = {it["sign"] for it in found if it["sign"]}
    sorts = {it.lastgroup for it in found}
    missing = [it for it in WORDS if it not in words] + [it for it in SIGNS if it not in signs]
    missing += [it for it in ("number", "string", "encoded", "binary") if it not in sorts]
    missing += [] if any(it["number"] and "." in it["number"] for it in found) else ["a real"]
    return missing + ([] if "--" in text and "(*" in text else ["a remark of each sort"])


# ---- running them

def named_rows():
    """Each row by hand: its name, the schema's, and the text."""
    yield from WHOLE
    for name, rules in REALS:
        yield name, "A", f"SCHEMA A; ENTITY e; a : REAL; i : INTEGER; n : NUMBER; l : LIST OF REAL; WHERE {rules} END_ENTITY; END_SCHEMA;"
    for name, expression in NOTHINGS:
        yield name, "A", ("SCHEMA A; ENTITY e; a : INTEGER; END_ENTITY; FUNCTION g (p, q : INTEGER) : INTEGER; ; END_FUNCTION; "
                          f"FUNCTION f (i : INTEGER; s : STRING; x : e; l : LIST OF INTEGER) : GENERIC; RETURN ({expression}); END_FUNCTION; END_SCHEMA;")
    for name, expression in WITHOUT_ENTITIES:
        yield name, "A", f"SCHEMA A; FUNCTION f : GENERIC; RETURN ({expression}); END_FUNCTION; END_SCHEMA;"
    for name, rules in NAMESAKES:
        yield name, "A", f"SCHEMA A; {NAMESAKE.format(rules)} END_SCHEMA;"
    for name, declarations in (*SEVERAL, *COMPARED, *ATTRIBUTES, *AMBIGUOUS, *MORE, *many_of_them()):
        yield name, "A", f"SCHEMA A; {declarations} END_SCHEMA;"
    for name, below, beside, last, kinds in REDECLARED:
        for entity, letters in zip("rstu", kinds):
            for letter, value in ASKED.items():
                fault = "" if letter in letters else "⟦Operand⟧"
                rows = (f"WHERE EXISTS(QUERY(v <* [x] | v.a {fault}= {value})); x.a = ?;", f"WHERE SELF\\{entity}.a {fault}= {value};")
                for rule in rows:
                    yield (f"{name}: {letter} of {entity}", "A",
                           f"SCHEMA A; {DIAMOND.format(below, beside, last)} ENTITY q SUBTYPE OF (u); x : {entity}; {rule} END_ENTITY; END_SCHEMA;")
    for name, declarations in WARNED:
        yield name, "A", f"SCHEMA A; {SELECTS}{declarations} END_SCHEMA;"
    yield "constants that are warned of", "A", f"SCHEMA A; {CONSTANT_WARNED} END_SCHEMA;"


def look_together(it, cases):
    """Pieces that are accepted, many in one schema. Where that isn't accepted, each is looked at alone."""
    groups = {}
    for context, piece in cases:
        groups.setdefault(context, []).append(piece)
    chunks = [(context, pieces[at:at + 200]) for context, pieces in groups.items() for at in range(0, len(pieces), 200)]
    together = [("together", "A", put(context, pieces)) for context, pieces in chunks]
    for (context, pieces), (seen, wanted) in zip(chunks, it.run(together, SECONDS)):
        it.expect(f"{len(pieces)} pieces together, {pieces[0]} the first", seen, wanted)
        if seen != wanted:
            it.looks([(piece, "A", put(context, [piece])) for piece in pieces], SECONDS)


def put(context, pieces):
    return context.replace("¤", " ".join(piece.replace("@", f"k{number}") for number, piece in enumerate(pieces)))


def tables(it):
    for table in TABLES:
        rows = list(table())
        good = [row for row in rows if not MARK.search(row[1])]
        bad = [row for row in rows if MARK.search(row[1])]
        it.expect(f"{table.__name__} has what is accepted and what is refused", (bool(good), bool(bad)), (True, True))
        look_together(it, good)
        it.looks([(f"{table.__name__}: {piece}", "A", put(context, [piece])) for context, piece in bad], SECONDS)


def rows_by_hand(it):
    rows = list(named_rows())
    marks = {kind for _, _, text in rows for kind in MARK.findall(text)[:1]}
    it.expect("no row begins with", (FAULTS | {WARNING}) - marks, set())
    it.looks(rows, SECONDS)
    for name, text, wanted, status in EXACT:
        it.expect(name, it.check(text, SECONDS), (status, wanted, b""))


def long_schema(it):
    """Its name, and a warning at the last string of the text."""
    with open(LONG, encoding="utf-8") as file:
        text = file.read()
    it.expect("long.exp has no", missing_of(text), [])
    at = text.rindex("'PLANT_MODEL.")
    it.looks([("long.exp", "PLANT_MODEL", f"{text[:at]}⟦{WARNING}⟧{text[at:]}")], SECONDS)


if __name__ == "__main__":
    run_parts("express kinds", (tables, rows_by_hand, long_schema), sys.argv[1:])
