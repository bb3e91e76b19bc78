#!/usr/bin/env python3
"""Runs `rp_server check` of the built program on EXPRESS schemas and compares what it prints, byte for byte.

    tests/express_grammar.py [PROGRAM]

Each production of the grammar (ISO 10303-11:1994, Annex A, as far as the profile takes it) has a line in
PRODUCTIONS: a text that is spelled, and one that is refused at the token behind the mark. What surrounds a
piece declares the names that it uses, so that a text that is spelled is a schema; one whose names can't be
declared has a mark too, before the name at which it is refused. Then come the faults of tokens, the bounds of
nesting and of size, and the command line. What names mean is looked at by tests/express_names.py. The last line is
'express grammar: N passed, M failed', and the status is 0 only if none failed.
"""
import sys
import time

from lib.harness import run_parts

# Where a piece of a schema stands, and the names that it uses there.
SCHEMA = "SCHEMA A; {} END_SCHEMA;"
CONSTANTS = "SCHEMA A; CONSTANT {} END_CONSTANT; END_SCHEMA;"
HEAD = ("SCHEMA A; ENTITY a; END_ENTITY; ENTITY b; END_ENTITY; ENTITY c; END_ENTITY; ENTITY d; END_ENTITY; "
        "ENTITY e {}; END_ENTITY; END_SCHEMA;")
ABOVE = ("SCHEMA A; ENTITY a SUBTYPE OF (e); END_ENTITY; ENTITY b SUBTYPE OF (e); END_ENTITY; ENTITY c SUBTYPE OF (e); END_ENTITY; "
         "ENTITY d SUBTYPE OF (e); END_ENTITY; ENTITY f; END_ENTITY; ENTITY e {}; END_ENTITY; END_SCHEMA;")
BODY = ("SCHEMA A; ENTITY b; a, b, c : LOGICAL; END_ENTITY; ENTITY d; g : INTEGER; END_ENTITY; "
        "ENTITY e SUBTYPE OF (b); {} END_ENTITY; END_SCHEMA;")
TYPE = "SCHEMA A; ENTITY a; END_ENTITY; TYPE b = INTEGER; END_TYPE; TYPE t = {}; END_TYPE; END_SCHEMA;"
PARAMETER = "SCHEMA A; FUNCTION f (a : {}) : INTEGER; ; END_FUNCTION; END_SCHEMA;"
RULE = "SCHEMA A; ENTITY e; END_ENTITY; RULE r FOR (e); {} END_RULE; END_SCHEMA;"
RULES = "SCHEMA A; ENTITY a; END_ENTITY; ENTITY b; END_ENTITY; {} END_SCHEMA;"
LOCALS = "SCHEMA A; FUNCTION f : INTEGER; {} END_FUNCTION; END_SCHEMA;"
STATEMENTS = "SCHEMA A; FUNCTION f (a, b : GENERIC) : GENERIC; {} END_FUNCTION; END_SCHEMA;"
EXPRESSION = ("SCHEMA A; TYPE t = ENUMERATION OF (a, k); END_TYPE; FUNCTION f (x, y : GENERIC) : GENERIC; ; END_FUNCTION; "
              "ENTITY b; c : INTEGER; END_ENTITY; ENTITY c; b, d : b; END_ENTITY; "
              "ENTITY e SUBTYPE OF (b); a, b, d, g, h, i, s : LIST OF c; WHERE {}; END_ENTITY; END_SCHEMA;")
WHOLE = "{}"

# The mark before the token of the fault: Syntax, OutOfProfile, TooDeep; or before a name that isn't declared.
MARKS = {"¿": "Syntax", "¡": "OutOfProfile", "¶": "TooDeep", "¬": "Undeclared"}

# The faults of kinds, which tests/express_kinds.py looks at: what has one of them is spelled, and its names are bound.
KINDS = ("RealArithmetic", "EntityComparison", "Operand", "Arguments", "Assign", "Qualifier", "Ambiguous")

# production, where the piece stands, a piece that is spelled, a piece that is not; `¬` in the first is a fault of names
PRODUCTIONS = [
    ("abstract_supertype_declaration", HEAD, "ABSTRACT SUPERTYPE", "ABSTRACT ¿SUBTYPE OF (b)"),
    ("abstract_supertype_declaration with OF", ABOVE, "ABSTRACT SUPERTYPE OF (b)", "ABSTRACT SUPERTYPE ¿(b)"),
    ("actual_parameter_list", EXPRESSION, "f(1, 2)", "f(¿)"),
    ("add_like_op", EXPRESSION, "a + b - c OR d XOR g", "a + b ¡|| c"),
    ("aggregate_initializer", EXPRESSION, "[] = [1, 2 + 3]", "[1,¿]"),
    ("aggregate_source", EXPRESSION, "QUERY(x <* a + b | TRUE)", "QUERY(x <* a ¿= b | TRUE)"),
    ("aggregate_type", PARAMETER, "AGGREGATE : x OF GENERIC : y", "AGGREGATE ¿[1:2] OF GENERIC"),
    ("aggregate_type in a defined type", TYPE, "LIST OF b", "LIST OF ¡AGGREGATE OF b"),
    ("aggregation_types", TYPE, "ARRAY [1:2] OF BAG OF LIST OF SET OF INTEGER", "SET ¿INTEGER"),
    ("algorithm_head", LOCALS, "LOCAL a : INTEGER; END_LOCAL; ;", "¿CONSTANT a : INTEGER := 1; END_CONSTANT; ;"),
    ("array_type", TYPE, "ARRAY [1:2] OF OPTIONAL UNIQUE INTEGER", "ARRAY [1:2] OF UNIQUE ¿OPTIONAL INTEGER"),
    ("array_bound_spec", TYPE, "ARRAY [0:7] OF INTEGER", "ARRAY [0:¿?] OF INTEGER"),
    ("array_bound_spec is due", TYPE, "ARRAY [0:7] OF INTEGER", "ARRAY ¿OF INTEGER"),
    ("array_bound_spec without a sign", TYPE, "ARRAY [1:3] OF INTEGER", "ARRAY [¿-1:3] OF INTEGER"),
    ("assignment_stmt", STATEMENTS, "a := 1;", "a¿.b := 1;"),
    ("assignment_stmt without qualifiers", STATEMENTS, "a := b[1];", "a¿[1] := 1;"),
    ("attribute_decl", BODY, "a : INTEGER; SELF\\b.c : REAL;", "SELF¿.c : REAL;"),
    ("attribute_id", BODY, "a, b : INTEGER;", "a, ¿IN : INTEGER;"),
    ("attribute_qualifier", EXPRESSION, "a.b", "a.¿1"),
    ("bag_type", TYPE, "BAG [1:?] OF STRING", "BAG [1:?] ¿STRING"),
    ("base_type", BODY, "a : LIST OF b; c : STRING; d : b;", "a : ¿SELECT (b);"),
    ("binary_type", TYPE, "BINARY (8) FIXED", "BINARY ¿FIXED"),
    ("boolean_type", TYPE, "BOOLEAN", "BOOLEAN ¿(1)"),
    ("bound_spec", TYPE, "LIST [0:5] OF INTEGER", "LIST [¿?:5] OF INTEGER"),
    ("built_in_constant", EXPRESSION, "SELF = ?", "SELF = ¡PI"),
    ("built_in_function", EXPRESSION,
     "ABS(1) + BLENGTH(b) + HIINDEX(a) + LENGTH(s) + LOINDEX(a) + SIZEOF(a) + NVL(a, 1) = 0", "¡COS(1) = 0"),
    ("built_in_function with logical results", EXPRESSION, "EXISTS(a) AND ODD(1) AND (1 IN VALUE_IN) AND (TYPEOF(a) = USEDIN(a, ''))",
     "¡VALUE(a) = 1"),
    ("case_action", STATEMENTS, "CASE a OF 1, 2 : ; 3 : a := 1; END_CASE;", "CASE a OF 1, 2 ¿; END_CASE;"),
    ("case_label", STATEMENTS, "CASE a OF 1 + 2 : ; END_CASE;", "CASE a OF 1,¿: ; END_CASE;"),
    ("case_stmt", STATEMENTS, "CASE a OF END_CASE;", "CASE a ¿: END_CASE;"),
    ("case_stmt with OTHERWISE", STATEMENTS, "CASE a OF 1 : ; OTHERWISE : ; END_CASE;", "CASE a OF OTHERWISE : ; ¿1 : ; END_CASE;"),
    ("compound_stmt", STATEMENTS, "BEGIN ; ; END;", "BEGIN ¿END;"),
    ("constant_body", CONSTANTS, "a : INTEGER := 1;", "a : INTEGER ¿= 1;"),
    ("constant_decl", CONSTANTS, "a : INTEGER := 1; b : INTEGER := 2;", "¿"),
    ("constant_decl stands first", SCHEMA, "CONSTANT a : INTEGER := 1; END_CONSTANT; ENTITY e; END_ENTITY;",
     "ENTITY e; END_ENTITY; ¿CONSTANT a : INTEGER := 1; END_CONSTANT;"),
    ("constant_id", CONSTANTS, "a_1 : INTEGER := 1;", "a : INTEGER := 1; ¿TO : INTEGER := 2;"),
    ("constructed_types", TYPE, "SELECT (a, b)", "LIST OF ¿SELECT (a, b)"),
    ("declaration", SCHEMA, "TYPE t = INTEGER; END_TYPE; ENTITY e; END_ENTITY; FUNCTION f : INTEGER; ; END_FUNCTION;",
     "¡PROCEDURE p; END_PROCEDURE;"),
    ("declaration of the second edition", SCHEMA, "ENTITY subtype_constraint; END_ENTITY;", "¡SUBTYPE_CONSTRAINT c FOR e; END_SUBTYPE_CONSTRAINT;"),
    ("derived_attr", BODY, "DERIVE a : INTEGER := 1; SELF\\b.c : REAL := ?;", "DERIVE a : INTEGER¿; "),
    ("derive_clause", BODY, "DERIVE a : INTEGER := 1; b : INTEGER := 2;", "DERIVE ¿WHERE TRUE;"),
    ("domain_rule", BODY, "WHERE w : a :=: b; c;", "WHERE w ¿:= b;"),
    ("element", EXPRESSION, "[a = b]", "[a ¿: 2]"),
    ("entity_body", BODY, "a : INTEGER; DERIVE b : INTEGER := 1; INVERSE c : d FOR g; UNIQUE a; WHERE TRUE;",
     "WHERE TRUE; ¿UNIQUE a;"),
    ("entity_constructor", EXPRESSION, "¬e(1)", "e(¿)"),
    ("entity_decl", SCHEMA, "ENTITY e; END_ENTITY;", "ENTITY e; END_ENTITY ¿ENTITY f; END_ENTITY;"),
    ("entity_head", ABOVE, "SUPERTYPE OF (b) SUBTYPE OF (f)", "SUBTYPE OF (f) ¿SUPERTYPE OF (b)"),
    ("entity_id", SCHEMA, "ENTITY entity_1; END_ENTITY;", "ENTITY ¿ENTITY; END_ENTITY;"),
    ("enumeration_id", TYPE, "ENUMERATION OF (a, b)", "ENUMERATION OF (a, ¿'b')"),
    ("enumeration_reference", EXPRESSION, "-t.a = b", "t.¿.a"),
    ("enumeration_type", TYPE, "ENUMERATION OF (a)", "ENUMERATION ¿(a)"),
    ("escape_stmt", STATEMENTS, "REPEAT; IF a THEN ESCAPE; END_IF; END_REPEAT;", "¿ESCAPE;"),
    ("explicit_attr", BODY, "a, SELF\\b.c : OPTIONAL INTEGER;", "a : ¿UNIQUE INTEGER;"),
    ("expression", EXPRESSION, "a + 1 < b", "a < b ¿< c"),
    ("factor", EXPRESSION, "a ** b * c ** d = 1", "a ** b ¿** c = 1"),
    ("formal_parameter", SCHEMA, "FUNCTION f (a, b : INTEGER; c : REAL) : INTEGER; ; END_FUNCTION;",
     "FUNCTION f (a, b : INTEGER¿, c : REAL) : INTEGER; ; END_FUNCTION;"),
    ("function_call", EXPRESSION, "f(f(1), SIZEOF) = h", "f(1)¿(2)"),
    ("function_decl", SCHEMA, "FUNCTION f : INTEGER; ; RETURN (1); END_FUNCTION;", "FUNCTION f : INTEGER; ¿END_FUNCTION;"),
    ("function_head", SCHEMA, "FUNCTION f (a : INTEGER) : INTEGER; ; END_FUNCTION;", "FUNCTION f (¿) : INTEGER; ; END_FUNCTION;"),
    ("function_id", SCHEMA, "FUNCTION g : INTEGER; ; END_FUNCTION;", "FUNCTION ¿SIZEOF : INTEGER; ; END_FUNCTION;"),
    ("generalized_types", PARAMETER, "LIST OF AGGREGATE OF GENERIC", "LIST OF ¿ENUMERATION OF (a)"),
    ("general_aggregation_types", PARAMETER, "ARRAY [1:2] OF BAG OF LIST OF SET OF GENERIC", "BAG ¿UNIQUE OF GENERIC"),
    ("general_array_type", PARAMETER, "ARRAY [1:2] OF OPTIONAL UNIQUE GENERIC", "ARRAY ¿OF GENERIC"),
    ("general_bag_type", PARAMETER, "BAG [0:?] OF GENERIC", "BAG OF ¿UNIQUE GENERIC"),
    ("general_list_type", PARAMETER, "LIST [0:2] OF UNIQUE GENERIC", "LIST OF UNIQUE ¿UNIQUE GENERIC"),
    ("general_ref", STATEMENTS, "a := 1;", "¿SELF := 1;"),
    ("general_set_type", PARAMETER, "SET OF GENERIC", "SET [1:2¿:3] OF GENERIC"),
    ("generic_type", PARAMETER, "GENERIC : x", "GENERIC : ¿SET"),
    ("generic_type in an attribute", BODY, "a : b;", "a : ¡GENERIC;"),
    ("group_qualifier", EXPRESSION, "SELF\\b.c", "SELF\\¿.c"),
    ("if_stmt", STATEMENTS, "IF a THEN ; ELSE ; ; END_IF;", "IF a THEN ¿ELSE ; END_IF;"),
    ("if_stmt with ELSE", STATEMENTS, "IF a THEN ; END_IF;", "IF a THEN ; ELSE ¿END_IF;"),
    ("increment", STATEMENTS, "REPEAT i := 1 TO 9 BY 2; ; END_REPEAT;", "REPEAT i := 1 TO 9 BY ¿; ; END_REPEAT;"),
    ("increment_control", STATEMENTS, "REPEAT i := 1 TO 9; ; END_REPEAT;", "REPEAT i := 1 ¿; ; END_REPEAT;"),
    ("bound_1 and bound_2", STATEMENTS, "REPEAT i := a + 1 TO b * 2; ; END_REPEAT;", "REPEAT i := a ¿< b TO 2; ; END_REPEAT;"),
    ("index", EXPRESSION, "a[i + 1]", "a[i ¿= 1]"),
    ("index_qualifier", EXPRESSION, "a[1][2:3]", "a[1:2¿:3]"),
    ("integer_type", TYPE, "INTEGER", "¿1"),
    ("interface_specification", SCHEMA, "", "¡USE FROM b;"),
    ("interface_specification of references", SCHEMA, "", "¡REFERENCE FROM b;"),
    ("interval", EXPRESSION, "{1 <= a < 3}", "{1 <= a ¿}"),
    ("interval_high", EXPRESSION, "{1 < a < 3 + b}", "{1 < a < ¿}"),
    ("interval_item", EXPRESSION, "{1 < -a < 3}", "{1 < ¿< 3}"),
    ("interval_low", EXPRESSION, "{a.b < c < d}", "{¿< c < d}"),
    ("interval_op", EXPRESSION, "{1 < a <= 3}", "{1 ¿> a <= 3}"),
    ("inverse_attr", BODY, "INVERSE a : SET [0:?] OF b FOR c; d : BAG OF b FOR c; g : b FOR c;", "INVERSE a : ¿LIST OF b FOR c;"),
    ("inverse_attr is not redeclared", BODY, "INVERSE a : b FOR c;", "INVERSE ¿SELF\\b.a : b FOR c;"),
    ("inverse_clause", BODY, "INVERSE a : b FOR c; d : b FOR c;", "INVERSE ¿UNIQUE a;"),
    ("label", BODY, "WHERE w1 : TRUE;", "WHERE ¿FOR : TRUE;"),
    ("list_type", TYPE, "LIST OF UNIQUE INTEGER", "LIST OF ¿OPTIONAL INTEGER"),
    ("literal", EXPRESSION, "[%101, 12, TRUE, 1.5, 'a']", "'a'¿[1]"),
    ("local_decl", LOCALS, "LOCAL a : INTEGER; b : REAL; END_LOCAL; ;", "LOCAL ¿END_LOCAL; ;"),
    ("local_variable", LOCALS, "LOCAL a, b : INTEGER := 1; END_LOCAL; ;", "LOCAL a : ¡GENERIC; END_LOCAL; ;"),
    ("logical_expression", BODY, "WHERE a AND b;", "WHERE ¿;"),
    ("logical_literal", EXPRESSION, "[FALSE, TRUE, UNKNOWN]", "TRUE ¿FALSE"),
    ("logical_type", TYPE, "LOGICAL", "LOGICAL ¿LOGICAL"),
    ("multiplication_like_op", EXPRESSION, "a * b / c DIV d MOD g AND h", "a * ¿/ b"),
    ("named_types", TYPE, "SELECT (a, b)", "SELECT (a, ¿INTEGER)"),
    ("null_stmt", STATEMENTS, ";", "; ¿)"),
    ("number_type", TYPE, "NUMBER", "NUMBER ¿(3)"),
    ("numeric_expression", EXPRESSION, "a[-1]", "a[¿]"),
    ("one_of", ABOVE, "SUPERTYPE OF (ONEOF (a, b AND c))", "SUPERTYPE OF (ONEOF (a ¿b))"),
    ("parameter", EXPRESSION, "f(a = b)", "f(a,¿)"),
    ("parameter_id", PARAMETER, "INTEGER; b, c : REAL", "INTEGER; ¿NOT : REAL"),
    ("parameter_type", PARAMETER, "GENERIC", "¿OPTIONAL INTEGER"),
    ("population", RULE, "WHERE SIZEOF(e) = 0;", "WHERE SIZEOF(¿ENTITY) = 0;"),
    ("precision_spec", TYPE, "REAL", "REAL ¿(3)"),
    ("primary", EXPRESSION, "a.b\\c[1].d", "'1'¿.b"),
    ("procedure_call_stmt", STATEMENTS, "a := f(b);", "f¿(b);"),
    ("procedure_call_stmt of the language", STATEMENTS, ";", "¡INSERT (a, b, 1);"),
    ("qualifiable_factor", EXPRESSION, "a = SELF", "¿\\a"),
    ("qualified_attribute", BODY, "SELF\\b.c : INTEGER;", "SELF\\b¿: INTEGER;"),
    ("qualifier", EXPRESSION, "a.b[1]\\c", "a.b.¿.c"),
    ("query_expression", EXPRESSION, "QUERY(x <* a | x = 1)", "QUERY(x ¿< a | x = 1)"),
    ("query_expression takes no qualifier", EXPRESSION, "QUERY(x <* a | TRUE)", "QUERY(x <* a | TRUE)¿[1]"),
    ("real_type", TYPE, "REAL", "REAL ¿REAL"),
    ("referenced_attribute", BODY, "UNIQUE a, SELF\\b.c;", "UNIQUE a, ¿1;"),
    ("rel_op", EXPRESSION, "[a < b, a > b, a <= b, a >= b, a <> b, a = b, a :<>: b, a :=: b]", "a ¿:= b"),
    ("rel_op_extended", EXPRESSION, "a IN b", "a ¡LIKE b"),
    ("repeat_control", STATEMENTS, "REPEAT i := 1 TO 2 WHILE a UNTIL b; ; END_REPEAT;", "REPEAT UNTIL b ¿WHILE a; ; END_REPEAT;"),
    ("repeat_stmt", STATEMENTS, "REPEAT; ; END_REPEAT;", "REPEAT; ¿END_REPEAT;"),
    ("repetition", EXPRESSION, "[1]", "[1 ¿: 2]"),
    ("return_stmt", STATEMENTS, "RETURN (1);", "RETURN¿;"),
    ("return_stmt in a rule", RULE, "; WHERE TRUE;", "¿RETURN (1); WHERE TRUE;"),
    ("rule_decl", RULE, "LOCAL a : INTEGER; END_LOCAL; a := 1; WHERE TRUE;", "a := 1; ¿"),
    ("rule_head", RULES, "RULE r FOR (a, b); WHERE TRUE; END_RULE;", "RULE r ¿(a); WHERE TRUE; END_RULE;"),
    ("rule_id", RULES, "RULE r1 FOR (a); WHERE TRUE; END_RULE;", "RULE ¿FOR (a); WHERE TRUE; END_RULE;"),
    ("schema_body", SCHEMA, "CONSTANT a : INTEGER := 1; END_CONSTANT; ENTITY e; END_ENTITY; RULE r FOR (e); WHERE TRUE; END_RULE;",
     "¿a"),
    ("schema_decl", WHOLE, "SCHEMA a; END_SCHEMA;", "SCHEMA a; END_SCHEMA¿"),
    ("schema_id", WHOLE, "SCHEMA a; END_SCHEMA;", "SCHEMA ¿SCHEMA; END_SCHEMA;"),
    ("selector", STATEMENTS, "CASE a + b OF END_CASE;", "CASE ¿OF END_CASE;"),
    ("select_type", TYPE, "SELECT (a)", "SELECT (¿)"),
    ("set_type", TYPE, "SET [2:3] OF a", "SET [2¿] OF a"),
    ("sign", EXPRESSION, "-1.5 = + 2.", "- - ¿1"),
    ("simple_expression", EXPRESSION, "a + b - c", "a + ¿)"),
    ("simple_factor", EXPRESSION, "[(a), {1 < 2 < 3}, [1], NOT a, - -1.5, NOT -1.5, a - -1.5]", "NOT ¿{1 < 2 < 3}"),
    ("simple_factor with a parenthesis", EXPRESSION, "-(-1)", "(a)¿.b"),
    ("simple_types", BODY, "a : BINARY; b : BOOLEAN; c : INTEGER; d : LOGICAL; g : NUMBER; h : REAL; i : STRING;", "a : ¿?;"),
    ("skip_stmt", STATEMENTS, "REPEAT; BEGIN SKIP; END; END_REPEAT;", "REPEAT; ; END_REPEAT; ¿SKIP;"),
    ("stmt", STATEMENTS, "a := 1; CASE a OF END_CASE; BEGIN ; END; IF a THEN ; END_IF; ; REPEAT; ; END_REPEAT; RETURN (1);", "; ¿THEN"),
    ("string_literal", EXPRESSION, "'it''s' = \"0000004100000042\"", "'a' ¿'b'"),
    ("string_type", TYPE, "STRING (5)", "STRING (5) ¿(6)"),
    ("subtype_constraint", ABOVE, "SUPERTYPE OF (a)", "SUPERTYPE OF ¿a"),
    ("subtype_declaration", HEAD, "SUBTYPE OF (a, b)", "SUBTYPE OF (a, b¿"),
    ("supertype_constraint", ABOVE, "SUPERTYPE OF (a)", "SUPERTYPE¿"),
    ("supertype_expression", ABOVE, "SUPERTYPE OF (a ANDOR b ANDOR c)", "SUPERTYPE OF (a ¿OR b)"),
    ("supertype_factor", ABOVE, "SUPERTYPE OF (a AND b AND c)", "SUPERTYPE OF (a AND ¿)"),
    ("supertype_rule", ABOVE, "SUPERTYPE OF (a)", "SUPERTYPE ¿FOR (a)"),
    ("supertype_term", ABOVE, "SUPERTYPE OF ((a ANDOR b) AND ONEOF (c, d))", "SUPERTYPE OF (¿NOT a)"),
    ("syntax", WHOLE, "SCHEMA a; END_SCHEMA;", "SCHEMA a; END_SCHEMA; ¿SCHEMA b; END_SCHEMA;"),
    ("term", EXPRESSION, "a * b * c", "a * +¿"),
    ("type_decl", SCHEMA, "TYPE t = INTEGER; WHERE SELF > 0; END_TYPE;", "TYPE t ¿: INTEGER; END_TYPE;"),
    ("type_id", SCHEMA, "TYPE t = INTEGER; END_TYPE;", "TYPE ¿TYPE = INTEGER; END_TYPE;"),
    ("type_label", PARAMETER, "GENERIC : a", "GENERIC : ¿1"),
    ("unary_op", EXPRESSION, "[+a, -a, NOT a]", "NOT ¿NOT a"),
    ("underlying_type", TYPE, "b", "¿OPTIONAL b"),
    ("unique_clause", BODY, "UNIQUE a; b;", "UNIQUE ¿"),
    ("unique_rule", BODY, "UNIQUE u : a, b;", "UNIQUE u : ¿;"),
    ("until_control", STATEMENTS, "REPEAT UNTIL a = b; ; END_REPEAT;", "REPEAT UNTIL ¿; ; END_REPEAT;"),
    ("variable_id", STATEMENTS, "REPEAT i := 1 TO 2; ; END_REPEAT;", "REPEAT ¿1 := 1 TO 2; ; END_REPEAT;"),
    ("where_clause", BODY, "WHERE a; b;", "WHERE a ¿b;"),
    ("while_control", STATEMENTS, "REPEAT WHILE a = b; ; END_REPEAT;", "REPEAT WHILE ¿; ; END_REPEAT;"),
    ("width", TYPE, "STRING (10)", "STRING (¿?)"),
    ("width_spec", TYPE, "STRING (10) FIXED", "STRING (10 ¿FIXED"),
]

# a text, what is told, and the byte at which it is told
TOKENS = [
    ("a byte that begins no token", "SCHEMA A; ENTITY e; ", "_a : b; END_ENTITY; END_SCHEMA;", "Token"),
    ("a byte above 7F", "SCHEMA A; ", "é", "Token"),
    ("a percent sign without a bit", "SCHEMA A; ENTITY e; WHERE ", "%2; END_ENTITY; END_SCHEMA;", "Token"),
    ("a string that goes over its line", "SCHEMA A; ENTITY e; WHERE\n", "'a\n'; END_ENTITY; END_SCHEMA;", "OpenString"),
    ("an encoded string without its end", "SCHEMA A; ENTITY e; WHERE ", '"00000041; END_ENTITY; END_SCHEMA;', "OpenString"),
    ("an encoded string of seven digits", "SCHEMA A; ENTITY e; WHERE ", '"0000004"; END_ENTITY; END_SCHEMA;', "BadEncoded"),
    ("an empty encoded string", "SCHEMA A; ENTITY e; WHERE ", '""; END_ENTITY; END_SCHEMA;', "BadEncoded"),
    ("a surrogate", "SCHEMA A; ENTITY e; WHERE ", '"0000D800"; END_ENTITY; END_SCHEMA;', "BadEncoded"),
    ("a code above 10FFFF", "SCHEMA A; ENTITY e; WHERE ", '"00110000"; END_ENTITY; END_SCHEMA;', "BadEncoded"),
    ("an integer of 64 bits without a sign", "SCHEMA A; ENTITY e; WHERE ", "9223372036854775808; END_ENTITY; END_SCHEMA;", "TooBig"),
    ("a real of 37 digits", "SCHEMA A; ENTITY e; WHERE ", "9" * 37 + ".; END_ENTITY; END_SCHEMA;", "TooBig"),
    ("a real of an exponent over 1000", "SCHEMA A; ENTITY e; WHERE ", "10.E1000; END_ENTITY; END_SCHEMA;", "TooBig"),
    ("a remark without its end", "SCHEMA A; ", "(* (* *) END_SCHEMA;", "OpenRemark"),
    ("a fault of a token after one of syntax", "SCHEMA SCHEMA; ", "!", "Token"),
]


def marked(text):
    """The text without its mark, what the mark says, and the byte where it stood."""
    for mark, kind in MARKS.items():
        if mark in text:
            before, after = text.split(mark)
            return (before + after).encode(), kind, len(before.encode())
    raise ValueError(f"no mark in {text}")


def spells(it, name, text):
    """The text is a schema, whatever is told of its kinds."""
    status, out, err = it.check(text)
    kind = out.split(b" ")[0].decode()
    it.expect(name, (kind in KINDS if status else out == b"A: ok\n", err), (True, b""))


def nested(count):
    return ("(" * count + "1" + ")" * count).encode()


def productions(it):
    for name, context, good, bad in PRODUCTIONS:
        if "¬" in good:
            it.refuses(name, *marked(context.format(good)))
        else:
            spells(it, name, context.format(good).encode())
        text, kind, at = marked(context.format(bad))
        # where the mark stands before blanks, the token is the next one; at the end it is the end
        while at < len(text) and text[at] <= 32:
            at += 1
        it.refuses(name, text, kind, at)


def tokens(it):
    for name, before, after, kind in TOKENS:
        it.refuses(name, (before + after).encode(), kind, len(before.encode()))
    it.refuses("a string that isn't UTF-8", b"SCHEMA A; ENTITY e; WHERE '\xff'; END_ENTITY; END_SCHEMA;", "Token", 26)
    it.refuses("an empty text", b"", "Syntax", 0)
    it.refuses("blanks and remarks alone", b" -- a\n(* b *)", "Syntax", 13)
    it.accepts("remarks hold any bytes", b"(* \xff (* ' *) *) SCHEMA A; -- \xff \"\nEND_SCHEMA;")
    it.accepts("a tail remark at the end", b"SCHEMA a; END_SCHEMA; -- x")
    it.accepts("words in lower case", b"schema a; entity e; where not true; end_entity; end_schema;")
    it.accepts("a name with digits and underscores", b"SCHEMA a_1b; END_SCHEMA;", b"A_1B")
    it.accepts("words that are not reserved", b"SCHEMA A; ENTITY e; as, from, var, context, model, end_alias : STRING; END_ENTITY; END_SCHEMA;")
    it.accepts("a sign before a real with a remark between", b"SCHEMA A; ENTITY e; a : REAL; WHERE a = - (* x *) 1.5; END_ENTITY; END_SCHEMA;")
    it.accepts("36 nines and a real without digits behind the point", b"SCHEMA A; ENTITY e; WHERE " + b"9" * 36 + b".; END_ENTITY; END_SCHEMA;")


def nesting(it):
    def where(expression):
        return front + expression + b"; END_ENTITY; END_SCHEMA;"

    front = b"SCHEMA A; ENTITY e; a : e; b : INTEGER; WHERE "
    begin = len(front)
    it.accepts("64 parentheses", where(nested(64) + b" = 1"))
    it.refuses("65 parentheses", where(nested(65) + b" = 1"), "TooDeep", begin + 64)
    it.accepts("64 brackets", where(b"[" * 64 + b"]" * 64))
    it.refuses("65 brackets", where(b"[" * 65 + b"]" * 65), "TooDeep", begin + 64)
    aggregates = b"SCHEMA A; TYPE t = " + b"SET OF " * 64 + b"INTEGER; END_TYPE; END_SCHEMA;"
    it.accepts("64 aggregates", aggregates)
    it.refuses("bounds within 64 aggregates", b"SCHEMA A; TYPE t = " + b"SET OF " * 63 + b"SET [0:1] OF INTEGER; END_TYPE; END_SCHEMA;",
               "TooDeep", len(b"SCHEMA A; TYPE t = ") + 63 * 7 + 4)
    it.refuses("65 aggregates", b"SCHEMA A; TYPE t = " + b"SET OF " * 65 + b"INTEGER; END_TYPE; END_SCHEMA;",
               "TooDeep", len(b"SCHEMA A; TYPE t = ") + 64 * 7)
    head = b"SCHEMA A; FUNCTION f (a : LOGICAL) : INTEGER; "
    tail = b" END_FUNCTION; END_SCHEMA;"
    it.accepts("64 blocks", head + b"BEGIN " * 64 + b";" + b" END;" * 64 + tail)
    it.refuses("65 blocks", head + b"BEGIN " * 65 + b";" + b" END;" * 65 + tail, "TooDeep", len(head) + 64 * 6)
    mixed = b"IF (a) THEN " * 63 + b"a := (TRUE);" + b" END_IF;" * 63
    it.accepts("statements and parentheses", head + mixed + tail)
    deep = b"IF (a) THEN " * 64
    it.refuses("a parenthesis within 64 statements", head + deep + b"a := 1;" + b" END_IF;" * 64 + tail,
               "TooDeep", len(head) + 63 * 12 + 3)
    it.refuses("a token that can't be taken opens nothing", where(b"(" * 64 + b"1 ("), "Syntax", begin + 64 + 2)
    it.accepts("a sum of 100,000 terms", where(b" + ".join([b"1"] * 100000) + b" = b"))
    spells(it, "operators and qualifiers of one level", where(b"a" + b".b" * 10000 + b" + 1" * 100000))


def sizes(it):
    limit = 8 * 1024 * 1024
    begin = time.monotonic()
    it.refuses("8 MiB of a remark that never closes", b"(*" + b"x" * (limit - 2), "OpenRemark", 0)
    it.expect("in under a second", time.monotonic() - begin < 1, True)
    it.accepts("8 MiB", b"SCHEMA A; END_SCHEMA;" + b" " * (limit - 21))
    status, out, err = it.check(b"SCHEMA A; END_SCHEMA;" + b" " * (limit - 20))
    it.expect("8 MiB and one byte", (status, out, err.count(b"\n")), (2, b"", 1))


def commands(it):
    it.folder.write("it.exp", "SCHEMA A; END_SCHEMA;")
    for name, words in (("no file", ["check"]), ("a file that isn't there", ["check", "none.exp"]),
                        ("a folder", ["check", "."]), ("two files", ["check", "it.exp", "it.exp"])):
        status, out, err = it.folder.run(*words)
        it.expect(name, (status, out, err.count(b"\n")), (2, b"", 1))
    status, out, err = it.folder.run("check", "--help")
    it.expect("help", (status, err, b"FILE" in out), (0, b"", True))


ROWS = [
    ("a procedure", "SCHEMA A; ENTITY e; a : REAL; END_ENTITY; PROCEDURE p; END_PROCEDURE; END_SCHEMA;",
     1, b"OutOfProfile line 1 column 43\n"),
    ("the example of docs/REQUESTS.md", """SCHEMA T;
ENTITY p; x : REAL; n : OPTIONAL STRING;
INVERSE u : SET [0:?] OF q FOR a;
WHERE w1 : SIZEOF(u) <= 2; END_ENTITY;
ENTITY q; a : p; END_ENTITY;
END_SCHEMA;
""", 0, b"T: ok\n"),
    ("rules", """SCHEMA L; ENTITY e; END_ENTITY;
RULE r1 FOR (e); WHERE SIZEOF(QUERY(p <* e | TRUE)) >= 0; END_RULE;
RULE r2 FOR (e); WHERE NOT (SIZEOF(QUERY(p <* e | TRUE)) < 0); END_RULE;
END_SCHEMA;
""", 0, b"L: ok\n"),
    ("the second line", "SCHEMA A;\nENTITY e; a : ;\nEND_ENTITY; END_SCHEMA;", 1, b"Syntax line 2 column 15\n"),
]


def rows(it):
    for name, text, status, out in ROWS:
        it.expect(name, it.check(text.encode()), (status, out, b""))


# What `check --explain` writes of a text: the caret stands behind as many characters as stand before the byte, tabs kept.
EXPLAINED = [
    ("no fault and no warning", b"SCHEMA A; END_SCHEMA;", 0, b"A: ok\n"),
    ("the first byte", b"ENTITY e;", 1, b"Syntax line 1 column 1\nENTITY e;\n^\n"),
    ("a line among others", b"SCHEMA A;\nENTITY e; a : ;\nEND_ENTITY; END_SCHEMA;\n", 1,
     b"Syntax line 2 column 15\nENTITY e; a : ;\n              ^\n"),
    ("tabs", b"SCHEMA A;\n\tENTITY e;\ta : ;\nEND_ENTITY; END_SCHEMA;", 1,
     b"Syntax line 2 column 16\n\tENTITY e;\ta : ;\n\t         \t    ^\n"),
    ("characters of two, three and four bytes", "SCHEMA A; (* é€😀 *) é END_SCHEMA;".encode(), 1,
     "Token line 1 column 27\nSCHEMA A; (* é€😀 *) é END_SCHEMA;\n                    ^\n".encode()),
    ("the end of a text with a line feed", b"SCHEMA A;\n", 1, b"Syntax line 2 column 1\n\n^\n"),
    ("the end of a text without one", b"SCHEMA A;", 1, b"Syntax line 1 column 10\nSCHEMA A;\n         ^\n"),
    ("no text", b"", 1, b"Syntax line 1 column 1\n\n^\n"),
    ("a carriage return", b"SCHEMA A;\r\n\rEND;\r\nEND_SCHEMA;", 1, b"Syntax line 2 column 2\n\rEND;\r\n ^\n"),
    ("bytes that are no UTF-8", b"SCHEMA A; -- \xff\xc3\n (* \xe9\x80 *) END;", 1, b"Syntax line 2 column 11\n (* \xe9\x80 *) END;\n         ^\n"),
    ("a name", b"SCHEMA A; ENTITY e; x : y; END_ENTITY;\nEND_SCHEMA;", 1,
     b"Undeclared line 1 column 25\nSCHEMA A; ENTITY e; x : y; END_ENTITY;\n                        ^\n"),
    ("two warnings in one line and one in the next",
     b"SCHEMA A; ENTITY e; END_ENTITY; TYPE s = SELECT (e); END_TYPE;\nCONSTANT_".replace(b"CONSTANT_", b"")
     + b"RULE r FOR (e); WHERE 'A.S' = 'A.S';\n\tx : 'A.S' = ''; END_RULE; END_SCHEMA;", 0,
     b"A: ok\nwarning SelectInTypeof line 2 column 23\nRULE r FOR (e); WHERE 'A.S' = 'A.S';\n                      ^\n"
     b"warning SelectInTypeof line 2 column 31\nRULE r FOR (e); WHERE 'A.S' = 'A.S';\n                              ^\n"
     b"warning SelectInTypeof line 3 column 6\n\tx : 'A.S' = ''; END_RULE; END_SCHEMA;\n\t    ^\n"),
]


def explained(it):
    for name, text, status, out in EXPLAINED:
        it.folder.write("it.exp", text)
        it.expect(f"{name}, explained", it.folder.run("check", "--explain", "it.exp"), (status, out, b""))
        it.expect(f"{name}, behind the file", it.folder.run("check", "it.exp", "--explain"), (status, out, b""))
        plain = b"".join(line + b"\n" for line in out.split(b"\n") if b" line " in line and b" column " in line or line == b"A: ok")
        it.expect(f"{name}, without", it.folder.run("check", "it.exp"), (status, plain, b""))
    for name, words in (("twice", ["check", "--explain", "--explain", "it.exp"]), ("alone", ["check", "--explain"]),
                        ("of a batch", ["batch", "--explain", "--config", "it.exp"]), ("with a value", ["check", "--explain=1", "it.exp"])):
        status, out, err = it.folder.run(*words)
        it.expect(f"--explain {name}", (status, out, err.count(b"\n")), (2, b"", 1))


if __name__ == "__main__":
    run_parts("express grammar", (productions, tokens, nesting, sizes, rows, commands, explained), sys.argv[1:])
