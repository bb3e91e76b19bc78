#!/usr/bin/env python3
"""Compares what the plain reading of rules in tests/lib gives with values, steps and reports that are known from the description
of rules itself. It runs no program.

    tests/plain_rules_rows.py [PROGRAM]

The last line is 'plain rules rows: N passed, M failed', and the status is 0 only if none failed.
"""
import json

from lib import plain_files
from lib.harness import end, shortened
from lib.messages import L, T, file_of, line
from lib.plain_model import Repository, compact
from lib.rule_texts import LIMIT, binding_schema, evaluate, plain_express, report, told

LABEL = "plain rules rows"

O = """SCHEMA O; ENTITY e; i : OPTIONAL INTEGER;
WHERE a : i < 3; b : (i < 3) AND FALSE; c : (i < 3) OR TRUE;
d : NVL(i, 7) = 7; f : SIZEOF(QUERY(z <* [1, 2] | z < i)) = 0;
END_ENTITY; END_SCHEMA;
"""
U = "SCHEMA U; ENTITY e; k : OPTIONAL INTEGER; UNIQUE u1 : k; END_ENTITY; END_SCHEMA;"
G = """SCHEMA G; FUNCTION f(n : INTEGER) : INTEGER; IF n <= 0 THEN RETURN (0); END_IF; RETURN (f(n - 1)); END_FUNCTION;
ENTITY e; k : INTEGER; WHERE w : f(k) = 0; END_ENTITY; END_SCHEMA;"""
N = "SCHEMA N; ENTITY e; DERIVE a : INTEGER := b; b : INTEGER := a; WHERE w : a = 1; END_ENTITY; END_SCHEMA;"
H = """SCHEMA H; ENTITY e; nx : OPTIONAL e; DERIVE d : INTEGER := NVL(nx.d, 0); WHERE w : d = 0; END_ENTITY; END_SCHEMA;"""

# values of each kind, made by functions: aggregates of a declared kind, and what carries a type
V = """SCHEMA V;
TYPE label = STRING; END_TYPE;
TYPE title = label; END_TYPE;
TYPE labels = LIST OF label; END_TYPE;
TYPE colour = ENUMERATION OF (red, green, blue); END_TYPE;
TYPE paint = colour; END_TYPE;
TYPE magnitude = ENUMERATION OF (small, large, blue); END_TYPE;
TYPE number_of = INTEGER; END_TYPE;
TYPE flag = BOOLEAN; END_TYPE;
TYPE any_one = SELECT (number_of, flag, label, labels, e); END_TYPE;
ENTITY e; i : OPTIONAL INTEGER; l : OPTIONAL LIST OF label; r : OPTIONAL e; UNIQUE SELF\\e.i; END_ENTITY;
FUNCTION a_list (x : LIST OF GENERIC) : GENERIC; RETURN (x); END_FUNCTION;
FUNCTION a_bag (x : BAG OF GENERIC) : GENERIC; RETURN (x); END_FUNCTION;
FUNCTION a_set (x : SET OF GENERIC) : GENERIC; RETURN (x); END_FUNCTION;
FUNCTION a_set_of_sets (x : SET OF SET OF INTEGER) : GENERIC; RETURN (x); END_FUNCTION;
FUNCTION an_array (x : ARRAY [2:4] OF GENERIC) : GENERIC; RETURN (x); END_FUNCTION;
FUNCTION as_it_is (x : GENERIC) : GENERIC; RETURN (x); END_FUNCTION;
FUNCTION as_aggregate (x : AGGREGATE OF GENERIC) : AGGREGATE OF GENERIC; RETURN (x); END_FUNCTION;
FUNCTION as_any (x : any_one) : any_one; RETURN (x); END_FUNCTION;
FUNCTION as_real (x : REAL) : REAL; RETURN (x); END_FUNCTION;
FUNCTION as_string (x : STRING) : STRING; RETURN (x); END_FUNCTION;
FUNCTION as_boolean (x : BOOLEAN) : BOOLEAN; RETURN (x); END_FUNCTION;
FUNCTION as_label (x : label) : label; RETURN (x); END_FUNCTION;
FUNCTION as_title (x : title) : title; RETURN (x); END_FUNCTION;
FUNCTION as_labels (x : labels) : labels; RETURN (x); END_FUNCTION;
FUNCTION as_colour (x : colour) : colour; RETURN (x); END_FUNCTION;
FUNCTION as_paint (x : paint) : paint; RETURN (x); END_FUNCTION;
FUNCTION twice_one : SET OF INTEGER; LOCAL r : SET OF INTEGER := []; END_LOCAL; r := r + 1; r := r + 1; RETURN (r); END_FUNCTION;
FUNCTION no_return : INTEGER; ; END_FUNCTION;
FUNCTION unset_local : INTEGER; LOCAL a : INTEGER; END_LOCAL; RETURN (a); END_FUNCTION;
FUNCTION later_local : LIST OF INTEGER; LOCAL a : INTEGER := NVL(b, 5); b, c : INTEGER := 7; END_LOCAL; RETURN ([a, b, c]); END_FUNCTION;
FUNCTION five : INTEGER; RETURN (5); END_FUNCTION;
FUNCTION turns (low : INTEGER; high : INTEGER; step : INTEGER) : LIST OF INTEGER; LOCAL r : LIST OF INTEGER := []; END_LOCAL;
  REPEAT v := low TO high BY step; r := r + v; END_REPEAT; RETURN (r); END_FUNCTION;
FUNCTION odd_turns : LIST OF INTEGER; LOCAL r : LIST OF INTEGER := []; END_LOCAL;
  REPEAT v := 1 TO 9 UNTIL v >= 7; IF NOT ODD(v) THEN SKIP; END_IF; r := r + v; END_REPEAT; RETURN (r); END_FUNCTION;
FUNCTION escaped : INTEGER; LOCAL n : INTEGER := 0; END_LOCAL; REPEAT; n := n + 1; IF n = 3 THEN ESCAPE; END_IF; END_REPEAT; RETURN (n);
END_FUNCTION;
FUNCTION case_of (x : INTEGER) : STRING; CASE x OF 1, 2 : RETURN ('few'); ? : RETURN ('none'); 3 : RETURN ('three');
  OTHERWISE : RETURN ('many'); END_CASE; END_FUNCTION;
FUNCTION case_null (x : INTEGER) : INTEGER; CASE x OF 1 : RETURN (1); OTHERWISE : ; END_CASE; RETURN (2); END_FUNCTION;
FUNCTION case_no_action : INTEGER; CASE 1 + 1 OF END_CASE; RETURN (2); END_FUNCTION;
FUNCTION case_escape : INTEGER; LOCAL n : INTEGER := 0; END_LOCAL; REPEAT; n := n + 1;
  CASE n OF 1 : ; 2 : SKIP; OTHERWISE : ESCAPE; END_CASE; n := n + 10; END_REPEAT; RETURN (n); END_FUNCTION;
FUNCTION hides : LIST OF INTEGER; LOCAL v : INTEGER := 5; r : LIST OF INTEGER := []; END_LOCAL;
  REPEAT v := 1 TO 2; r := r + v; r := r + SIZEOF(QUERY(v <* [1, 2, 3] | v > 1)); END_REPEAT; r := r + v; RETURN (r); END_FUNCTION;
FUNCTION later (x : INTEGER) : INTEGER; x := x + 1; IF x > 5 THEN x := as_it_is('a'); END_IF; RETURN (x); END_FUNCTION;
END_SCHEMA;
"""

# attributes of one name in several types of an instance, redeclared ones, and users
A = """SCHEMA A;
TYPE label = STRING; END_TYPE;
TYPE title = label; END_TYPE;
ENTITY e; r : OPTIONAL e; m : OPTIONAL LIST OF e; s : OPTIONAL label;
INVERSE users : BAG OF e FOR m; once : SET OF e FOR m; one : e FOR r; of_f : SET OF f FOR r; END_ENTITY;
ENTITY f SUBTYPE OF (e); n : OPTIONAL INTEGER; SELF\\e.s : title; DERIVE d : INTEGER := 1; END_ENTITY;
ENTITY g SUBTYPE OF (e); n : OPTIONAL INTEGER; DERIVE SELF\\e.s : title := 'g'; END_ENTITY;
ENTITY h SUBTYPE OF (f); DERIVE SELF\\f.d : INTEGER := 2; SELF\\e.s : label := 'h'; END_ENTITY;
ENTITY i SUBTYPE OF (f); DERIVE SELF\\f.d : INTEGER := 3; END_ENTITY;
FUNCTION any (x : GENERIC) : GENERIC; RETURN (x); END_FUNCTION;
FUNCTION many (x : AGGREGATE OF GENERIC) : AGGREGATE OF GENERIC; RETURN (x); END_FUNCTION;
END_SCHEMA;
"""
INSTANCES = """#1=E(#2,(#2,#2,#3),'e');#2=E(#1,(#2),$);#3=F(#2,$,'f',5);#4=(E($,$,$)F(6)G(7));#5=G($,$,*,8);
#6=(E($,$,*)F(9)G(10)H());#7=(E($,$,$)F(1)H()I());"""
# SELF, and as in VALUES
ATTRIBUTES = [
    # of types that declare an attribute those that the expression may be of come first, and then those that come first by name
    (4, "SELF\\f.n", "6", 3), (4, "SELF\\g.n", "7", 3), (4, "any(SELF).n", "6", None), (4, "any(SELF)\\g.n", "7", None),
    (1, "any(SELF).n", "?", None), (1, "SELF\\f.n", "?", 3), (1, "SELF\\f", "?", 2), (3, "SELF\\f", "#3", 2), (1, "any(5).n", "?", None),
    (1, "any(?).n", "?", None),
    # derived ones: the last of the types that redeclare it, and of two with as many ancestors the first by its name
    (3, "SELF\\f.d", "1", 4), (7, "SELF\\f.d", "2", 4), (5, "s", "TITLE('g')", 2), (6, "SELF\\e.s", "LABEL('h')", 4),
    (6, "any(SELF).s", "LABEL('h')", None), (3, "s", "LABEL('f')", 1), (1, "s", "LABEL('e')", 1), (2, "s", "?", 1),
    # users, in the order of the population
    (2, "users", "BAG[#1,#1,#2]", 4), (2, "once", "SET[#1,#2]", 3), (2, "one", "?", 3), (1, "one", "#2", 2), (3, "one", "?", 1),
    (2, "of_f", "SET[#3]", 2), (2, "USEDIN(SELF, '')", "BAG[#1,#1,#1,#2,#3]", 3 + 5), (2, "USEDIN(SELF, 'A.E.M')", "BAG[#1,#1,#2]", 3 + 3),
    (2, "USEDIN(SELF, 'A.F.R')", "BAG[#3]", 4), (2, "USEDIN(SELF, 'a.e.m')", "BAG[]", 3), (2, "USEDIN(SELF, 'A.E.USERS')", "BAG[]", 3),
    (2, "USEDIN(SELF, 'A.E')", "BAG[]", 3), (2, "USEDIN(SELF, 'B.E.M')", "BAG[]", 3), (2, "USEDIN(SELF, 5)", "?", 3),
    (2, "USEDIN(5, '')", "?", 3), (2, "m", "LIST[#2]", 1), (1, "m[3]", "#3", 3), (1, "m[4]", "?", 3), (1, "r.r", "#1", 2),
    (1, "r.r.r.s", "?", 4), (1, "SELF IN m", "FALSE", 1 + 1 + 1 + 3), (1, "r IN m", "TRUE", 6),
    (1, "m * [r]", "BAG[#2]", 1 + 1 + (1 + 1 + 2) + 3 * 1 + 3 + 1), (1, "m - r", "LIST[#2,#3]", 3), (1, "m + r", "LIST[#2,#2,#3,#2]", 3),
    (1, "TYPEOF(SELF)", "SET['A.E']", 3), (6, "TYPEOF(SELF)", "SET['A.E','A.F','A.G','A.H']", 6), (1, "TYPEOF(m)", "SET['LIST']", 3),
    (1, "TYPEOF(once)", "SET['SET']", 3), (2, "TYPEOF(users)", "SET['BAG']", 1 + 4 + 1), (1, "[r, SELF] :=: [m[1], SELF]", "TRUE", None),
    (1, "many([SELF])[1].r", "#2", None),
]

TRUTHS = ["FALSE", "UNKNOWN", "TRUE"]

# an expression, its value, and its steps where they are known
VALUES = [
    # integers
    ("0 ** 0", "1", 3), ("2 ** (-1)", "?", 4), ("2 ** 62", "4611686018427387904", 3), ("2 ** 63", "?", 3),
    ("(-2) ** 63", "-9223372036854775808", 4), ("(-1) ** 9223372036854775807", "-1", 4), ("1 ** 9223372036854775806", "1", None),
    ("0 ** 5", "0", None), ("3 ** 100000000", "?", None), ("9223372036854775807 + 1", "?", 3),
    ("-9223372036854775807 - 1", "-9223372036854775808", 4), ("-(-9223372036854775807 - 1)", "?", 5),
    ("ABS(-9223372036854775807 - 1)", "?", None), ("7 DIV 2", "3", None), ("7 MOD 2", "1", None), ("(-7) DIV 2", "?", None),
    ("7 DIV (-2)", "?", None), ("7 DIV 0", "?", None), ("0 MOD 5", "0", None), ("0 DIV 0", "?", None), ("(-7) MOD 2", "?", None),
    ("1 + ?", "?", 3), ("-?", "?", 2), ("+5", "5", 2), ("2 + 3 * 4 ** 2", "50", 7), ("10 - 3 - 2", "5", 5), ("-1.5", "-15.E-1", 1),
    ("+ 1.5", "15.E-1", 1), ("ODD(-3)", "TRUE", None), ("ODD(4)", "FALSE", None), ("ABS(-5)", "5", None), ("ABS(?)", "?", 2),
    ("ODD(?)", "?", 2),
    # strings and binaries
    ("'ab' + 'c'", "'abc'", 6), ("%10 + %1", "%101", 6), ("as_string('abc')[2]", "'b'", None), ("'' + ''", "''", 3),
    ("as_string('abc')[1:2]", "'ab'", None), ("as_string('abc')[0]", "?", None), ("as_string('abc')[4]", "?", None),
    ("as_string('abc')[2:1]", "?", None), ("as_string('abc')[2:4]", "?", None), ("as_it_is(%011)[2:3]", "%11", None),
    ("as_it_is(%01)[1]", "%0", None), ("LENGTH('abc')", "3", 2), ("BLENGTH(%0110)", "4", 2), ("LENGTH(?)", "?", None),
    ("BLENGTH(?)", "?", None), ("'a' < 'ab'", "TRUE", None), ("'b' < 'ab'", "FALSE", None), ("%0 < %01", "TRUE", None),
    ("%1 < %01", "FALSE", None), ('"00000041" = \'A\'', "TRUE", 3),
    # comparisons
    ("1 = 1.0", "TRUE", 3), ("1 < 1.5", "TRUE", None), ("1.10 = 1.1", "TRUE", None), ("0.E99 = 0", "TRUE", None),
    ("1.E30 > 9223372036854775807", "TRUE", None), ("FALSE < UNKNOWN", "TRUE", None), ("UNKNOWN < TRUE", "TRUE", None),
    ("red < green", "TRUE", 3), ("colour.blue > green", "TRUE", 3), ("? = 1", "UNKNOWN", 3), ("? < 1", "UNKNOWN", None),
    ("? :=: 1", "UNKNOWN", 3), ("SELF :=: ?", "UNKNOWN", None), ("SELF :=: SELF", "TRUE", 3), ("SELF :<>: SELF", "FALSE", None),
    ("1 :=: 'a'", "FALSE", None), ("1 :<>: 'a'", "TRUE", None), ("SELF :=: 1", "FALSE", None), ("1 :=: 1.0", "TRUE", None),
    ("red :=: small", "FALSE", None), ("1 = as_it_is('a')", "?", None), ("as_it_is(red) = small", "?", None),
    ("EXISTS(1 = as_it_is('a'))", "FALSE", None), ("1 = as_it_is(SELF)", "?", None), ("[SELF] = [SELF, SELF]", "UNKNOWN", None),
    ("[1] = ['a']", "UNKNOWN", None), ("[1] :=: ['a']", "FALSE", None), ("[1, 2] = [1]", "FALSE", None),
    ("[1, ?] = [1, 2]", "UNKNOWN", None), ("[1, ?] = [2, 2]", "FALSE", None), ("[1, 2] = [2, 1]", "FALSE", None),
    ("a_bag([1, 2]) = [2, 1]", "TRUE", None), ("a_bag([1, 1, 2]) = [1, 2, 2]", "FALSE", None), ("a_bag([1, ?]) = [2, 3]", "UNKNOWN", None),
    ("[] = []", "TRUE", None), ("a_set([]) :=: a_list([])", "TRUE", None),
    # `?` in BAGs within: for each element of either side the numbers of equal ones have to be the same
    ("a_bag([[1, ?]]) = a_bag([[1, ?]])", "TRUE", None), ("a_bag([[?]]) = a_bag([[2]])", "FALSE", None),
    ("a_bag([[1]]) = a_bag([[2]])", "FALSE", None),
    # IN
    ("1 IN [1, 2]", "TRUE", 10), ("3 IN [1, ?]", "UNKNOWN", None), ("1 IN [1, ?]", "TRUE", None), ("? IN [1]", "UNKNOWN", None),
    ("1 IN ?", "UNKNOWN", 3), ("3 IN [1, 2]", "FALSE", None), ("[1, ?] IN [[1, ?]]", "FALSE", None), ("1 IN as_it_is(5)", "?", None),
    ("SELF IN [SELF]", "TRUE", None), ("VALUE_IN([1, 2], 2)", "TRUE", 10), ("VALUE_IN([1, ?], 2)", "UNKNOWN", None),
    ("VALUE_IN([1], 'a')", "FALSE", None), ("VALUE_IN(as_it_is(5), 5)", "?", None), ("1.0 IN [1]", "TRUE", None),
    ("[1] IN [[1]]", "TRUE", None), ("VALUE_IN(?, 1)", "UNKNOWN", None),
    # aggregates
    ("a_bag([1, 2, 2]) * a_bag([2, 2, 3])", "BAG[2,2]", None), ("a_bag([1, 2, 2]) - 2", "BAG[1,2]", None),
    ("a_bag([1, 2]) + 3", "BAG[1,2,3]", None), ("a_set([1, 2]) + [2, 3, 3]", "SET[1,2,3]", None),
    ("[3, 3] + a_set([3])", "SET[3,3,3]", None), ("3 + a_set([3])", "SET[3,3]", None), ("a_set([1]) + 1", "SET[1]", None),
    ("a_set([1]) + ?", "?", None), ("a_set([?]) + [?]", "SET[?,?]", None), ("a_list([1]) + a_set([1])", "LIST[1,1]", None),
    ("[1] + [2]", "[1,2]", None), ("[1] + 2", "[1,2]", None), ("1 + [2]", "[1,2]", None), ("[1] + a_list([2])", "LIST[1,2]", None),
    ("an_array([1, 2, 3]) + 4", "ARRAY2[1,2,3,4]", None), ("4 + an_array([1, 2, 3])", "ARRAY2[4,1,2,3]", None),
    ("[[1]] + [[2]]", "[[1],[2]]", None), ("a_list([1, 2, 1]) - [1, 1]", "LIST[2]", None), ("a_list([1, 2, 1]) - 1", "LIST[2,1]", None),
    ("[1, 2] - a_set([2])", "SET[1]", None), ("[1] - ?", "?", None), ("a_list([1, 1]) * a_list([1])", "BAG[1]", None),
    ("a_list([1]) * a_set([1])", "SET[1]", None), ("[1, 2] * [2]", "BAG[2]", None), ("1 - [1]", "?", None),
    ("a_set([1]) <= a_set([1, 2])", "TRUE", None), ("a_set([1, 3]) <= a_set([1, 2])", "FALSE", None),
    ("a_bag([1, 1]) <= a_bag([1, 2])", "FALSE", None), ("a_bag([1, 2]) >= [2]", "TRUE", None), ("[1] <= [1, 1]", "TRUE", None),
    ("a_list([1]) <= [1]", "?", None), ("a_set([1]) < a_set([1])", "?", None), ("[?] <= [?]", "FALSE", None),
    ("as_aggregate([1, 2])[2]", "2", None), ("as_aggregate([1, 2])[0]", "?", None), ("an_array([5, 6, 7])[2]", "5", None),
    ("an_array([5, 6, 7])[1]", "?", None), ("as_aggregate([1])[?]", "?", None), ("LOINDEX(an_array([5, 6, 7]))", "2", None),
    ("HIINDEX(an_array([5, 6, 7]))", "4", None), ("LOINDEX([5])", "1", None), ("HIINDEX([5, 5])", "2", None), ("SIZEOF([])", "0", 3),
    ("SIZEOF(?)", "?", 2), ("LOINDEX(?)", "?", None), ("HIINDEX(?)", "?", None), ("USEDIN(?, '')", "?", 3), ("USEDIN(SELF, ?)", "?", 3),
    ("QUERY(v <* ? | TRUE)", "?", 2), ("QUERY(v <* [1, 2, 3] | v > 1)", "[2,3]", 9 + 3 * 4),
    ("QUERY(v <* a_set([1, ?]) | v = 1)", "SET[1]", None), ("QUERY(v <* an_array([1, 2, 3]) | v > 1)", "ARRAY2[2,3]", None),
    ("QUERY(v <* [1, 2] | UNKNOWN)", "[]", None), ("QUERY(v <* [1, 2] | 5)", "[]", None),
    # functions
    ("EXISTS(?)", "FALSE", 2), ("EXISTS(UNKNOWN)", "TRUE", 2), ("NVL(?, 7)", "7", 3), ("NVL(5, 7)", "5", 3), ("i", "?", 1),
    ("SELF.i", "?", 2), ("SELF\\e.i", "?", 3),
    # what an initialiser becomes
    ("twice_one", "SET[1]", None), ("TYPEOF(twice_one)", "SET['SET']", None), ("a_set_of_sets([[1, 2], [2, 1]])", "SET[SET[1,2]]", None),
    ("a_set([1, 1, ?, ?])", "SET[1,?,?]", None), ("TYPEOF([1])", "SET['LIST']", None), ("TYPEOF(as_it_is([1]))", "SET['LIST']", None),
    ("TYPEOF(as_aggregate([1]))", "SET['LIST']", None), ("as_any([1])", "[1]", None), ("a_set(a_list([1, 1]))", "LIST[1,1]", None),
    ("TYPEOF(as_real(1))", "SET['INTEGER']", None), ("TYPEOF(as_real(1.0))", "SET['REAL']", None),
    # what carries a type
    ("TYPEOF(?)", "SET[]", 2), ("TYPEOF(SELF)", "SET['V.E']", 3), ("TYPEOF(TRUE)", "SET['BOOLEAN','LOGICAL']", 4),
    ("TYPEOF(UNKNOWN)", "SET['LOGICAL']", 3), ("TYPEOF('a')", "SET['STRING']", 3),
    ("TYPEOF(as_label('a'))", "SET['V.LABEL','STRING']", None), ("TYPEOF(as_title('a'))", "SET['V.TITLE','V.LABEL','STRING']", None),
    ("TYPEOF(as_title(as_label('a')))", "SET['V.TITLE','V.LABEL','STRING']", None),
    ("TYPEOF(as_label(as_title('a')))", "SET['V.LABEL','STRING']", None),
    ("TYPEOF(as_string(as_label('a')))", "SET['V.LABEL','STRING']", None),
    ("TYPEOF(as_any(as_title('a')))", "SET['V.TITLE','V.LABEL','STRING']", None), ("TYPEOF(red)", "SET['V.COLOUR']", None),
    ("TYPEOF(as_paint(red))", "SET['V.PAINT','V.COLOUR']", None), ("TYPEOF(as_colour(as_paint(red)))", "SET['V.COLOUR']", None),
    ("as_labels(['a'])", "LABELS(LIST[LABEL('a')])", None), ("TYPEOF(as_labels(['a']))", "SET['V.LABELS','LIST']", None),
    ("TYPEOF(as_labels(['a'])[1])", "SET['V.LABEL','STRING']", None), ("as_labels(['a']) + 'b'", "LIST[LABEL('a'),'b']", None),
    ("as_label('a') + 'b'", "'ab'", None), ("NVL(as_label('a'), 1)", "LABEL('a')", None), ("[as_label('a')]", "[LABEL('a')]", None),
    ("as_labels([1])", "LABELS(LIST[1])", None), ("TYPEOF(%1)", "SET['BINARY']", None),
    # kinds that don't fit
    ("as_boolean(UNKNOWN)", "UNKNOWN", None), ("as_string(as_it_is(1))", "?", None), ("as_real(as_it_is('a'))", "?", None),
    ("? AND as_it_is(5)", "?", None), ("EXISTS(? AND as_it_is(5))", "FALSE", None), ("EXISTS(? AND TRUE)", "TRUE", None),
    ("NOT ?", "UNKNOWN", 2), ("as_it_is(1) + 'a'", "?", None), ("LENGTH(as_it_is(5))", "?", None),
    # statements
    ("no_return", "?", 2), ("unset_local", "?", 3), ("later_local", "LIST[5,7,7]", 1 + 3 + 1 + 1 + 8), ("five", "5", 3),
    ("turns(1, 3, 1)", "LIST[1,2,3]", None), ("turns(3, 1, -1)", "LIST[3,2,1]", None), ("turns(1, 3, 0)", "LIST[]", None),
    ("turns(1, ?, 1)", "LIST[]", None), ("turns(?, 3, 1)", "LIST[]", None), ("turns(1, 3, ?)", "LIST[]", None),
    ("turns(3, 1, 1)", "LIST[]", None),
    ("turns(9223372036854775806, 9223372036854775807, 1)", "LIST[9223372036854775806,9223372036854775807]", None),
    ("odd_turns", "LIST[1,3,5,7]", None), ("escaped", "3", None), ("case_of(2)", "'few'", 2 + 1 + 1 + 2 + 2),
    ("case_of(3)", "'three'", 2 + 1 + 1 + 4 + 2), ("case_of(?)", "'many'", 2 + 1 + 1 + 4 + 2), ("case_of(9)", "'many'", None),
    ("case_null(5)", "2", 2 + (1 + 1 + 1 + 1) + 2), ("case_no_action", "2", 1 + (1 + 3) + 2), ("case_escape", "12", None),
    ("hides", "LIST[1,2,2,2,5]", None), ("later(1)", "2", None), ("later(5)", "?", None), ("EXISTS(later(?))", "FALSE", None),
    # intervals
    ("{1 < 2 < 3}", "TRUE", 4), ("{1 <= 1 < 1}", "FALSE", 4), ("{1 < ? < 3}", "UNKNOWN", 4), ("{3 < 2 < ?}", "FALSE", 4),
    ("{[1] <= [1, 2] <= [1, 2, 3]}", "TRUE", 1 + 4 + 6 + 8 + 5 + 11),
    # steps
    ("[1, 2]", "[1,2]", 6), ("[[1, 2], 3]", "[[1,2],3]", 1 + (6 + 1) + 5), ("[1, 2] = [3]", "FALSE", 1 + 6 + 4 + 2 * 1 + 2 + 1),
    ("[1] DIV [2, 3]", "?", 1 + 4 + 6 + 1 * 2 + 1 + 2), ("[1] IN [[1], [2]]", "TRUE", 1 + 4 + 14 + 2), ("[1] AND [2]", "?", 9),
    ("('a')", "'a'", 1), ("USEDIN(SELF, '')", "BAG[]", 3), ("a_list([1])", "LIST[1]", 1 + 4 + 2),
]


class Rows:
    """Counts what is as it has to be."""

    def __init__(self):
        self.passed = self.failed = 0

    def expect(self, name, seen, wanted):
        if seen == wanted:
            self.passed += 1
        else:
            self.failed += 1
            print(f"{name}: {shortened(repr(seen).encode()).decode()} in place of {shortened(repr(wanted).encode()).decode()}")

    def value(self, expression, value, steps, schema=V, instances="#1=E($,('a',$),$);", name=1):
        """An expression of the entity E, by default of that of V, over one instance of it."""
        found, taken = evaluate(schema, expression, instances, name, "E")
        self.expect(f"{expression} of #{name}", (told(found), taken), (value, taken if steps is None else steps))


def values(it):
    for expression, value, steps in VALUES:
        it.value(expression, value, steps)


def attributes(it):
    for name, expression, value, steps in ATTRIBUTES:
        it.value(expression, value, steps, A, INSTANCES, name)


def truths(it):
    """The tables of truth values. No value counts as unknown."""
    named = [*((word, place) for place, word in enumerate(TRUTHS)), ("?", 1)]
    for left, one in named:
        it.value(f"NOT {left}", TRUTHS[2 - one], 2)
        for right, other in named:
            it.value(f"{left} AND {right}", TRUTHS[min(one, other)], 3)
            it.value(f"{left} OR {right}", TRUTHS[max(one, other)], 3)
            it.value(f"{left} XOR {right}", "UNKNOWN" if 1 in (one, other) else TRUTHS[2 if one != other else 0], 3)


def limits(it):
    """Steps and nested bodies of one evaluation."""
    one_user = "#1=P(1.,$);#2=Q(#1);"
    it.expect("five steps", seen(evaluate(T, "SIZEOF(u) <= 2", one_user, 1, limit=5)), ("TRUE", 5))
    it.expect("a limit of four", seen(evaluate(T, "SIZEOF(u) <= 2", one_user, 1, limit=4)), LIMIT)
    for users in range(3):
        text = "#1=P(1.,$);" + "".join(f"#{2 + place}=Q(#1);" for place in range(users))
        it.expect(f"{users} users", seen(evaluate(T, "SIZEOF(u) <= 2", text, 1)), ("TRUE", 4 + users))
    it.expect("what goes round", seen(evaluate(N, "a = 1", "#1=E();", 1)), LIMIT)
    it.expect("200 bodies", seen(evaluate(G, "f(k) = 0", "#1=E(199);", 1)), ("TRUE", 10 + 9 * 199))
    it.expect("201 bodies", seen(evaluate(G, "f(k) = 0", "#1=E(200);", 1)), LIMIT)
    deep = "(" * 64 + "1" + ")" * 64
    it.expect("64 levels", seen(evaluate(T, f"{deep} = 1", one_user, 1)), ("TRUE", 3))
    it.expect("a long sum", seen(evaluate(T, "+".join(["1"] * 100_000), one_user, 1)), ("100000", 199_999))


def seen(outcome):
    return outcome if outcome is LIMIT else (told(outcome[0]), outcome[1])


# ---- reports

TRUE_CHECKS = [{"check": check, "verdict": "TRUE"} for check in ("unset", "bounds", "reference")]


def ok_of(checks, steps):
    return {"checks": checks, "steps": steps}


def reports(it):
    it.expect("rows that agree", report(U, [("ann", "m", "#1=E(1);#2=E(1);#3=E($);#4=E(2);")]), ok_of([
        *TRUE_CHECKS, {"check": "unique", "false": [["ann", "m", 1], ["ann", "m", 2]], "of": "E", "rule": "U1", "verdict": "FALSE"}], 4))
    it.expect("a function that calls itself", report(G, [("ann", "m", "#1=E(199);#2=E(200);")]), ok_of([
        *TRUE_CHECKS, {"check": "where", "limit": [["ann", "m", 2]], "of": "E", "rule": "W", "verdict": "LIMIT"}], 201_801))
    chain = "#1=E($);" + "".join(f"#{name}=E(#{name - 1});" for name in range(2, 202))
    it.expect("a chain of derived values", report(H, [("ann", "m", chain)]), ok_of([
        *TRUE_CHECKS, {"check": "where", "limit": [["ann", "m", 201]], "of": "E", "rule": "W", "verdict": "LIMIT"}], 281_000))
    many = "".join(f"#{name}=E();" for name in range(1, 102))
    it.expect("101 that go round", report(N, [("ann", "m", many)]), ok_of([
        *TRUE_CHECKS, {"check": "where", "limit": [["ann", "m", name] for name in range(1, 101)], "not_run": [["ann", "m", 101]], "of": "E",
                       "rule": "W", "verdict": "LIMIT"}], 20_000_000))
    array = "SCHEMA B; ENTITY e; a : OPTIONAL ARRAY [3:1] OF INTEGER; END_ENTITY; END_SCHEMA;"
    it.expect("an array of no right value", report(array, [("ann", "m", "#1=E(());#2=E((1));#3=E($);")]), ok_of([
        TRUE_CHECKS[0], {"check": "bounds", "false": [["ann", "m", 1, "E.A"], ["ann", "m", 2, "E.A"]], "verdict": "FALSE"}, TRUE_CHECKS[2]], 0))


# types with rules, SELECTs in one another, and attributes that are redeclared
K = """SCHEMA K;
TYPE len = REAL; WHERE pos : SELF > 0; END_TYPE;
TYPE short = len; WHERE SELF < 5; END_TYPE;
TYPE lens = LIST [1:2] OF len; WHERE SIZEOF(SELF) < 2; END_TYPE;
TYPE inner = SELECT (short, e); WHERE inn : FALSE; END_TYPE;
TYPE outer = SELECT (inner, lens); WHERE out : FALSE; END_TYPE;
TYPE again = outer; WHERE ag : FALSE; END_TYPE;
ENTITY e; a : OPTIONAL outer; END_ENTITY;
ENTITY f SUBTYPE OF (e); SELF\\e.a : inner; END_ENTITY;
ENTITY g SUBTYPE OF (e); SELF\\e.a : OPTIONAL again; b : LIST OF UNIQUE STRING(2); END_ENTITY;
ENTITY h; c : lens; END_ENTITY;
ENTITY i SUBTYPE OF (h); SELF\\h.c : SET [0:1] OF short; END_ENTITY;
ENTITY j; d : e; END_ENTITY;
ENTITY k SUBTYPE OF (j); SELF\\j.d : STRING(0); END_ENTITY;
ENTITY l SUBTYPE OF (j); SELF\\j.d : inner; END_ENTITY;
ENTITY m; v : BINARY(2) FIXED; w : ARRAY [1:2] OF OPTIONAL UNIQUE INTEGER; END_ENTITY;
ENTITY n SUBTYPE OF (m); SELF\\m.v : STRING(0); SELF\\m.w : ARRAY [1:2] OF INTEGER; END_ENTITY;
END_SCHEMA;
"""
# instances, the checks that are FALSE (with the rule and the culprits), and the steps
FALSE_CHECKS = [
    # a value in a SELECT, under the type that it is written as, the types beneath, and each SELECT on the way
    ("#1=E(SHORT(1.));", ["INNER.INN 1.E.A", "OUTER.OUT 1.E.A"], 1 + 3 + 1 + 3),
    ("#1=E(SHORT(-1.));", ["INNER.INN 1.E.A", "LEN.POS 1.E.A", "OUTER.OUT 1.E.A"], 8),
    ("#1=E(LENS((1.,-1.,$)));", ["unset 1.E.A", "bounds 1.E.A", "LEN.POS 1.E.A", "LENS.#1 1.E.A", "OUTER.OUT 1.E.A"], 3 + 3 + 4 + 1),
    ("#1=E(#2);#2=F(#1);", ["INNER.INN 1.E.A 2.E.A", "OUTER.OUT 1.E.A 2.E.A"], 4),
    # a value that isn't of the SELECT of a redeclaration: that one's own rules alone
    ("#1=F(LENS((1.,$,1.)));", ["unset 1.E.A", "bounds 1.E.A", "INNER.INN 1.E.A", "LENS.#1 1.E.A", "OUTER.OUT 1.E.A"], 1 + 6 + 4 + 1),
    ("#1=F($);#2=E($);", ["unset 1.E.A"], 0),
    ("#1=G(LENS((7.,8.)),('a','a','abc'));", ["bounds 1.G.B", "AGAIN.AG 1.E.A", "LENS.#1 1.E.A", "OUTER.OUT 1.E.A"], 1 + 6 + 4 + 1),
    # a redeclaration as a SET, and of elements
    ("#1=H((1.,1.));#2=I((1.,1.));#3=I((9.));", ["bounds 2.H.C", "LENS.#1 1.H.C 2.H.C", "SHORT.#1 3.H.C"], 15 + 12 + 9),
    # references to what isn't of the type, where a redeclaration has no place for one, and in a SELECT
    ("#1=J(#1);#2=K(#3);#3=E($);#4=L(#3);", ["reference 1.J.D 2.J.D", "INNER.INN 4.J.D"], 1),
    # widths, an array's count, and what isn't set in one that may leave it out and in one that may not
    ('#1=M("23",($,$));#2=M("08",(1,1));#3=M("33",(1,2,3));#4=N("1A",(5,$));',
     ["unset 4.M.W", "bounds 2.M.V 2.M.W 3.M.V 3.M.W 4.M.V"], 0),
]


def types_and_redeclarations(it):
    for instances, wanted, steps in FALSE_CHECKS:
        found = report(K, [("ann", "m", instances)])
        false = [entry for entry in found["checks"] if entry["verdict"] == "FALSE"]
        names = [f"{entry['of']}.{entry['rule']}" if "of" in entry else entry["check"] for entry in false]
        seen_here = [" ".join([name, *(f"{one[2]}.{one[3]}" for one in entry["false"])]) for name, entry in zip(names, false)]
        it.expect(instances, (seen_here, found["steps"]), (wanted, steps))


# constants, a rule with locals and statements, values of a file that are words, and a reference that leaves the population
Q = """SCHEMA Q; (* a remark (* in a remark *) -- *)
CONSTANT five : INTEGER := 2 + 3; ten : count := five * 2; END_CONSTANT;
TYPE count = INTEGER; END_TYPE;
TYPE colour = ENUMERATION OF (red, green); END_TYPE;
ENTITY e; c : colour; b : BOOLEAN; l : LOGICAL; r : OPTIONAL e; WHERE one : c = green; two : b; l; END_ENTITY; -- a tail
FUNCTION first (x : GENERIC : it; y : AGGREGATE : them OF GENERIC) : GENERIC; BEGIN RETURN (y[1]); END; END_FUNCTION;
RULE u FOR (e); LOCAL n : INTEGER := 0; END_LOCAL;
  REPEAT i := 1 TO five WHILE i < 3; n := n + SIZEOF(e); END_REPEAT;
WHERE w : n = 4; ten = 10; END_RULE;
END_SCHEMA;
"""


def constants_and_rules(it):
    links = [{"name": 9, "owner": "bob", "model": "k", "instance": 1}]
    found = report(Q, [("ann", "m", "#1=E(.GREEN.,.T.,.U.,#9);#2=E(.RED.,.F.,.F.,#1);", links)])
    entry = lambda check, verdict, **more: {"check": check, "verdict": verdict, **more}
    one, two = ["ann", "m", 1], ["ann", "m", 2]
    # the rule's statements: a local, REPEAT with its bounds, two turns, and a third one's condition
    before = 1 + (1 + 1 + 4) + 2 * (3 + 7) + 3
    it.expect("constants and rules", found, ok_of([
        *TRUE_CHECKS[:2], entry("reference", "FALSE", false=[[*one, "E.R"]]), entry("where", "FALSE", false=[two], of="E", rule="ONE"),
        entry("where", "FALSE", false=[two], of="E", rule="TWO"), entry("where", "FALSE", false=[two], unknown=[one], of="E", rule="#3"),
        entry("rule", "TRUE", of="U", rule="W"), entry("rule", "TRUE", of="U", rule="#2")], 2 * (3 + 1 + 1) + before + 3 + before + 9))
    for expression, value, steps in (("ten", "COUNT(10)", 7), ("TYPEOF(ten)", "SET['Q.COUNT','INTEGER']", 1 + 7 + 2), ("first(?, [7])", "7", None),
                                     ("e", "SET[#1,#2]", 3), ("SIZEOF(QUERY(x <* e | x.b))", "1", 2 + 3 + 2 * 3), ("e[2].c", "COLOUR.RED", 3 + 2 + 1),
                                     ("TYPEOF(e[1].l)", "SET['LOGICAL']", 1 + 6 + 1), ("e[1].r", "?", 6)):
        found, taken = evaluate(Q, expression, [("ann", "m", "#1=E(.GREEN.,.T.,.U.,#9);#2=E(.RED.,.F.,.F.,#1);", links)])
        it.expect(expression, (told(found), taken), (value, taken if steps is None else steps))


class Opened:
    """A plain repository of ann and bob with these schemas."""

    def __init__(self, *texts):
        trees = [plain_express.read(it) for it in texts]
        self.repository = Repository(["ann", "bob"], [binding_schema(it) for it in trees], plain_files.read, plain_files.read_mapping, None,
                                     {tree.name: text for tree, text in zip(trees, texts)})

    def reply(self, who, do, **keys):
        """The reply to a request, whose change is made."""
        found, change = self.repository.step(line(who, do, **keys))
        if change:
            change()
        return found

    def fill(self, who, schema, instances, **keys):
        """A model m in the group g of a partner."""
        self.reply(who, "create_model", name="m", schema=schema)
        self.reply(who, "create_group", name="g", schema=schema)
        self.reply(who, "include", group="g", owner=who, model="m")
        return self.reply(who, "put", owner=who, model="m", file=file_of(instances, schema), **keys)

    def validate(self, who="ann", **keys):
        return self.reply(who, "validate", **{"owner": "ann", "group": "g", **keys})


def rows_of_replies(it):
    """Replies byte for byte."""
    opened = Opened(T)
    opened.fill("ann", "T", "")
    it.expect("names of nothing", opened.reply("ann", "names", owner="ann", model="m"), b'{"ok":{"names":[]}}')
    it.expect("no instances", opened.validate(), (
        b'{"ok":{"checks":[{"check":"unset","verdict":"TRUE"},{"check":"bounds","verdict":"TRUE"},{"check":"reference","verdict":"TRUE"},'
        b'{"check":"where","of":"P","rule":"W1","verdict":"TRUE"},{"check":"inverse","of":"P","rule":"U","verdict":"TRUE"}],"steps":0}}'))
    opened = Opened(O)
    opened.fill("ann", "O", "#1=E($);")
    found = json.loads(opened.validate())["ok"]
    it.expect("five rules", [(entry["rule"], entry["verdict"]) for entry in found["checks"][3:]],
              [("A", "UNKNOWN"), ("B", "FALSE"), ("C", "TRUE"), ("D", "TRUE"), ("F", "TRUE")])
    it.expect("their steps", found["steps"], 36)
    it.expect("the second", compact(found["checks"][4]), b'{"check":"where","false":[["ann","m",1]],"of":"E","rule":"B","verdict":"FALSE"}')
    for rule, steps in (("i < 3", 3), ("(i < 3) AND FALSE", 5), ("(i < 3) OR TRUE", 5), ("NVL(i, 7) = 7", 5),
                        ("SIZEOF(QUERY(z <* [1, 2] | z < i)) = 0", 18)):
        it.expect(rule, evaluate(O, rule, "#1=E($);", 1)[1], steps)
    opened = Opened(T)
    it.expect("values that aren't set", opened.fill("ann", "T", "#1=P($,$);"), b'{"ok":{"instances":1}}')
    found = json.loads(opened.validate())["ok"]
    it.expect("one that has to be", compact(found["checks"][0]), b'{"check":"unset","false":[["ann","m",1,"P.X"]],"verdict":"FALSE"}')
    it.expect("its steps", found["steps"], 5)
    it.expect("one that isn't derived", opened.reply("ann", "put", owner="ann", model="m", file=file_of("#1=P(*,$);")),
              b'{"refused":{"code":12,"instance":1,"kind":"NotDerived","name":"InstanceFault"}}')


REFUSED = [
    ("a bad name", {"group": "a b", "owner": "carl"}, b'"code":3,"name":"BadName"'),
    ("no partner", {"owner": "carl"}, b'"code":4,"name":"UnknownPartner"'), ("no group", {"group": "z"}, b'"code":7,"name":"NoSuchItem"'),
    ("an unseen group", {"who": "bob"}, b'"code":7,"name":"NoSuchItem"'), ("a key more", {"model": "m"}, b'"code":1,"name":"BadRequest"'),
]


def rows_of_others(it):
    """What others link to a population changes nothing in it."""
    opened = Opened(T)
    opened.fill("ann", "T", "#2=Q(#1);#1=P(0.10,'a');")
    asked = lambda: (opened.validate(), opened.reply("ann", "users", owner="ann", group="g", of=["ann", "m", 1], role="T.Q.A"))
    before = asked()
    found = json.loads(before[0])["ok"]
    it.expect("all true", ({entry["verdict"] for entry in found["checks"]}, found["steps"]), ({"TRUE"}, 7))
    it.expect("one user", before[1], b'{"ok":{"users":[["ann","m",2]]}}')
    opened.reply("ann", "grant", kind="model", name="m", to="bob", level="read")
    opened.reply("bob", "create_model", name="b", schema="T")
    links = [{"name": 9, "owner": "ann", "model": "m", "instance": 1}]
    it.expect("another's put", opened.reply("bob", "put", owner="bob", model="b", file=file_of("#1=Q(#9);"), links=links), b'{"ok":{"instances":1}}')
    it.expect("both replies", asked(), before)
    for name, keys, refused in REFUSED:
        it.expect(name, opened.validate(**keys), b'{"refused":{%s}}' % refused)
    opened.reply("ann", "grant", kind="group", name="g", to="bob", level="read")
    it.expect("a group that is granted", opened.validate("bob"), before[0])


def rows_of_many(it):
    """As many instances as one evaluation may go through, with and without those of others."""
    opened = Opened(L)
    opened.fill("ann", "L", "".join(f"#{name}=E();" for name in range(1, 66_666)))
    wanted = compact({"ok": ok_of([*TRUE_CHECKS, {"check": "rule", "of": "R1", "rule": "#1", "verdict": "TRUE"},
                                   {"check": "rule", "of": "R2", "rule": "#1", "verdict": "LIMIT"}], 400_000)})
    opened.reply("bob", "create_model", name="m", schema="L")
    opened.reply("bob", "put", owner="bob", model="m", file=file_of("".join(f"#{name}=E();" for name in range(1, 1001)), "L"))
    it.expect("66,665 instances", opened.validate(), wanted)


def main():
    it = Rows()
    for part in (values, attributes, truths, limits, reports, types_and_redeclarations, constants_and_rules, rows_of_replies, rows_of_others,
                 rows_of_many):
        part(it)
    end(LABEL, it.passed, it.failed)


if __name__ == "__main__":
    main()
