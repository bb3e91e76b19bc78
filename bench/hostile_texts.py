"""Families of EXPRESS texts that a stranger may send to keep the program busy.

A family is a function that writes a text of a number of parts, with the word for what is counted. A text is a schema
but where a mark as ⟦Undeclared⟧ stands before the first byte of its fault; a mark SelectInTypeof stands before a
literal that is warned of.
"""

# of each family its word for what is counted, and its function
TEXTS = {}


def family(counted):
    """Takes a function over as a family, under its own name."""
    def take(text_of):
        TEXTS[text_of.__name__] = (counted, text_of)
        return text_of
    return take


# ---- what texts are made of

def each(count, piece, joint="", first=0):
    """The pieces of the numbers from the first one on, below the count."""
    return joint.join(piece(k) for k in range(first, count))


def schema(*parts):
    return "SCHEMA measured;\n" + "\n".join(parts) + "\nEND_SCHEMA;\n"


def entity(name, body="", above=""):
    below = f" SUBTYPE OF ({above})" if above else ""
    return f"ENTITY {name}{below}; {body} END_ENTITY;\n"


def defined(name, underlying):
    return f"TYPE {name} = {underlying}; END_TYPE;\n"


def returns(expression, parameters="a : INTEGER", name="f"):
    """A function that takes the parameters and returns what the expression gives."""
    return f"FUNCTION {name} ({parameters}) : GENERIC;\nRETURN ({expression});\nEND_FUNCTION;\n"


def holds(count, condition, first=0):
    """So many rules of a WHERE clause."""
    return "WHERE " + each(count, lambda k: condition(k) + ";\n", first=first)


def nested(depth, opened, inner, closed):
    return opened * depth + inner + closed * depth


def names(count, letter, joint=", "):
    return each(count, lambda k: f"{letter}{k}", joint)


# ---- subtypes

def chain_of(count, body, first="a : INTEGER;"):
    """A chain of subtypes, each below the one before; what stands in each but the first is told by its number."""
    return schema(entity("e0", first), each(count, lambda k: entity(f"e{k}", body(k), f"e{k - 1}"), first=1))


def diamonds_of(count, body):
    """Of each three behind the first the first two are below the one before them, and the last is below both."""
    def above(k):
        return f"e{k - 1}" if k % 3 == 1 else f"e{k - 2}" if k % 3 == 2 else f"e{k - 2}, e{k - 1}"
    return schema(entity("e0", "a : INTEGER;"), each(count, lambda k: entity(f"e{k}", body(k), above(k)), first=1))


def layers_of(count, width, body):
    """Layers of so many entities, each below all of the layer before; the first layer is below one entity."""
    def above(k):
        begin = k - (k - 1) % width - width
        return ", ".join(f"e{j}" for j in range(begin, begin + width)) if begin > 0 else "e0"
    return schema(entity("e0", "a : INTEGER;"), each(count, lambda k: entity(f"e{k}", body(k), above(k)), first=1))


def nothing(_):
    return ""


def bare(_):
    return "WHERE a > 0;"


@family("entities")
def chain(count):
    return chain_of(count, nothing)


@family("entities")
def chain_backwards(count):
    return schema(each(count - 1, lambda k: entity(f"e{k}", "", f"e{k + 1}")), entity(f"e{count - 1}"))


@family("entities")
def ring(count):
    return schema(entity("⟦CyclicSubtype⟧e0", "", f"e{count - 1}"),
                  each(count, lambda k: entity(f"e{k}", "", f"e{k - 1}"), first=1))


@family("entities")
def chain_into_ring(count):
    """One half stands in a chain below the other half, a ring."""
    half = count // 2
    return schema(each(half, lambda k: entity(f"e{k}", "", f"e{k + 1}")),
                  entity(f"⟦CyclicSubtype⟧e{half}", "", f"e{count - 1}"),
                  each(count, lambda k: entity(f"e{k}", "", f"e{k - 1}"), first=half + 1))


@family("entities")
def diamonds(count):
    return diamonds_of(count, nothing)


@family("entities")
def layers_of_three(count):
    return layers_of(count, 3, nothing)


@family("entities")
def layers_of_twenty(count):
    return layers_of(count, 20, nothing)


@family("entities")
def all_below_one(count):
    return schema(entity("e0"), each(count, lambda k: entity(f"e{k}", "", "e0"), first=1))


@family("entities")
def one_below_all(count):
    return schema(each(count, lambda k: entity(f"e{k}")), entity("below", "", names(count, "e")))


# ---- supertype expressions

def supertype(name, expression):
    return f"ENTITY {name} SUPERTYPE OF ({expression}); END_ENTITY;\n"


@family("supertypes")
def named_by_all(count):
    return schema(each(count, lambda k: supertype(f"e{k}", "below")), entity("below", "", names(count, "e")))


def below_one(count, expression):
    return schema(supertype("above", expression), each(count, lambda k: entity(f"e{k}", "", "above")))


@family("subtypes")
def one_of_all(count):
    return below_one(count, f"ONEOF ({names(count, 'e')})")


@family("subtypes")
def one_of_all_and_the_first(count):
    return below_one(count, f"ONEOF ({names(count, 'e')}, ⟦NamedTwice⟧e0)")


@family("subtypes")
def all_in_a_row(count):
    return below_one(count, each(count, lambda k: f"e{k}", " ANDOR "))


@family("supertypes")
def brackets_in_each(count):
    return schema(each(count, lambda k: supertype(f"a{k}", "(" * 60 + f"b{k}" + ")" * 60) + entity(f"b{k}", "", f"a{k}")))


# ---- subtypes that use the first one's attribute

@family("entities")
def chain_bare(count):
    return chain_of(count, bare)


@family("entities")
def chain_self(count):
    return chain_of(count, lambda k: "WHERE SELF.a > 0;")


@family("entities")
def chain_group(count):
    return chain_of(count, lambda k: "WHERE SELF\\e0.a > 0;")


@family("entities")
def chain_group_of_half(count):
    return chain_of(count, lambda k: f"WHERE SELF\\e{k // 2}.a > 0;")


@family("entities")
def chain_unique(count):
    return chain_of(count, lambda k: "UNIQUE a;")


@family("entities")
def chain_unique_group(count):
    return chain_of(count, lambda k: f"UNIQUE SELF\\e{k // 2}.a;")


@family("entities")
def chain_inverse(count):
    return chain_of(count, lambda k: f"INVERSE i{k} : SET OF e{k} FOR a;", "a : e0;")


@family("entities")
def chain_redeclared(count):
    return chain_of(count, lambda k: "SELF\\e0.a : INTEGER;")


@family("entities")
def chain_redeclared_before(count):
    return chain_of(count, lambda k: f"SELF\\e{k - 1}.a : INTEGER;")


@family("entities")
def chain_redeclared_asked(count):
    return chain_of(count, lambda k: "SELF\\e0.a : INTEGER; WHERE a > 0;")


@family("entities")
def chain_derived(count):
    return chain_of(count, lambda k: "DERIVE SELF\\e0.a : INTEGER := 1;")


@family("entities")
def chain_derived_asked(count):
    return chain_of(count, lambda k: "DERIVE SELF\\e0.a : INTEGER := 1; WHERE SELF.a > 0;")


@family("entities")
def chain_of_own(count):
    return chain_of(count, lambda k: f"a{k} : INTEGER; WHERE a{k // 2 or 1} > 0;")


@family("entities")
def chain_of_namesakes(count):
    return chain_of(count, lambda k: "a : INTEGER;")


@family("entities")
def chain_behind_parameters(count):
    return schema(entity("e0", "a : INTEGER;"), each(count, lambda k: entity(f"e{k}", "", f"e{k - 1}"), first=1),
                  each(count, lambda k: returns("x.a", f"x : e{k}", f"f{k}")))


@family("entities")
def chain_last_asked(count):
    return schema(entity("e0", "a : INTEGER;"), each(count, lambda k: entity(f"e{k}", "", f"e{k - 1}"), first=1),
                  returns(each(count, lambda k: "x.a", "+\n"), f"x : e{count - 1}"))


@family("entities")
def diamonds_bare(count):
    return diamonds_of(count, bare)


@family("entities")
def diamonds_group(count):
    return diamonds_of(count, lambda k: f"WHERE SELF\\e{k // 6 * 3}.a > 0;")


@family("entities")
def diamonds_redeclared_asked(count):
    return diamonds_of(count, lambda k: "SELF\\e0.a : INTEGER; WHERE a > 0;")


@family("entities")
def layers_bare(count):
    return layers_of(count, 3, bare)


@family("entities")
def layers_group(count):
    return layers_of(count, 3, lambda k: f"WHERE SELF\\e{k // 6 * 3 + k % 3}.a > 0;" if k > 6 else "")


@family("entities")
def one_name_in_many(count):
    """Half of the entities declare one name, each below the first; the others, below one of these, use it."""
    half = count // 2
    return schema(entity("e0"), each(half, lambda k: entity(f"e{k}", "a : INTEGER;", "e0"), first=1),
                  each(half, lambda k: entity(f"u{k}", "WHERE a > 0;", f"e{k}"), first=1))


# ---- attributes of one entity

def attributes_of(count, below, declared="INTEGER"):
    return schema(entity("e", each(count, lambda k: f"a{k} : {declared};\n")), below)


@family("attributes")
def attributes_bare(count):
    return schema(entity("e", each(count, lambda k: f"a{k} : INTEGER;\n") + holds(count, lambda k: f"a{k} > 0")))


@family("attributes")
def attributes_self(count):
    return schema(entity("e", each(count, lambda k: f"a{k} : INTEGER;\n") + holds(count, lambda k: f"SELF.a{k} > 0")))


@family("attributes")
def attributes_inherited(count):
    return attributes_of(count, entity("f", holds(count, lambda k: f"a{k} > 0"), "e"))


@family("attributes")
def attributes_redeclared(count):
    return attributes_of(count, entity("f", each(count, lambda k: f"SELF\\e.a{k} : INTEGER;\n"), "e"))


@family("attributes")
def attributes_redeclared_asked(count):
    own = each(count, lambda k: f"SELF\\e.a{k} : INTEGER;\n") + holds(count, lambda k: f"a{k} > 0")
    return attributes_of(count, entity("f", own, "e"))


@family("attributes")
def attributes_redeclared_each(count):
    return attributes_of(count, each(count, lambda k: entity(f"f{k}", f"SELF\\e.a{k} : INTEGER;", "e")))


@family("attributes")
def attributes_derived(count):
    own = "DERIVE " + each(count, lambda k: f"SELF\\e.a{k} : INTEGER := 1;\n")
    return attributes_of(count, entity("f", own, "e"))


@family("attributes")
def attributes_unique(count):
    return attributes_of(count, entity("f", "UNIQUE " + names(count, "a") + ";", "e"))


@family("attributes")
def attributes_unique_each(count):
    return attributes_of(count, entity("f", "UNIQUE " + each(count, lambda k: f"u{k} : SELF\\e.a{k};\n"), "e"))


@family("attributes")
def attributes_inverse(count):
    return attributes_of(count, entity("f", "INVERSE " + each(count, lambda k: f"i{k} : SET OF e FOR a{k};\n")), "f")


@family("attributes")
def attributes_behind(count):
    return attributes_of(count, returns(each(count, lambda k: f"x.a{k}", "+\n"), "x : e"))


@family("attributes")
def inverse_for_one(count):
    return schema(entity("e", "a : f;"), entity("f", "INVERSE " + each(count, lambda k: f"i{k} : SET OF e FOR a;\n")))


@family("attributes")
def derived_by_the_one_before(count):
    return schema(entity("e", "DERIVE d0 : INTEGER := 1;\n" + each(count, lambda k: f"d{k} : INTEGER := d{k - 1} + 1;\n", first=1)))


# ---- SELECTs

def choice_of(count, parameters, asked, joint="AND\n", every=6):
    """A SELECT of so many entities, each with an attribute a, and one question for each `every` of them."""
    return schema(each(count, lambda k: entity(f"e{k}", "a : INTEGER;")), defined("s", f"SELECT ({names(count, 'e')})"),
                  returns(each(max(1, count // every), asked, joint), parameters))


@family("entities")
def select_attribute(count):
    return choice_of(count, "x : s", lambda k: "(x.a > 0)")


def attributes_of_attributes(count, declared, path="x.x"):
    """A question for an attribute of an attribute of a SELECT of 60,000 entities, where an attribute x is of what is declared."""
    return schema(defined("s", f"SELECT ({names(60_000, 'e')})"), each(60_000, lambda k: entity(f"e{k}", f"x : {declared(k)};")),
                  returns(each(count, lambda k: f"EXISTS(v.{path})", " AND\n"), "v : s"))


@family("uses")
def select_attribute_of_attribute(count):
    return attributes_of_attributes(count, lambda k: "s")


@family("uses, at most 10,000")
def select_attribute_of_own_attribute(count):
    return attributes_of_attributes(min(count, 10_000), lambda k: f"e{k}")


@family("uses, at most 10,000")
def select_attribute_of_next_attribute(count):
    return attributes_of_attributes(min(count, 10_000), lambda k: f"e{(k + 1) % 60_000}", "x.x.x")


@family("entities")
def select_element(count):
    return choice_of(count, "x : LIST OF s", lambda k: "(x[1].a > 0)")


@family("entities")
def select_identity(count):
    return choice_of(count, "x : s", lambda k: "(x :=: 1)")


@family("entities")
def select_in(count):
    return choice_of(count, "x : s; y : LIST OF s", lambda k: "(x IN y)")


@family("entities")
def select_argument(count):
    return choice_of(count, "x : s", lambda k: "EXISTS(f(x))")


@family("entities")
def select_group(count):
    return choice_of(count, "x : s", lambda k: f"EXISTS(x\\e{k})")


@family("entities")
def select_sum(count):
    return choice_of(count, "x : s; y : LIST OF s", lambda k: "(y + x)", "+\n")


@family("types")
def select_of_types_compared(count):
    return schema(each(count, lambda k: defined(f"t{k}", "INTEGER")), defined("s", f"SELECT ({names(count, 't')})"),
                  returns(each(count // 6 + 1, lambda k: "(x = 1)", "AND\n"), "x : s"))


@family("types")
def select_of_enumerations(count):
    return schema(each(count, lambda k: defined(f"t{k}", f"ENUMERATION OF (i{k})")), defined("s", f"SELECT ({names(count, 't')})"),
                  returns(each(count // 6 + 1, lambda k: f"(x = i{k})", "AND\n"), "x : s"))


@family("types")
def select_of_enumerations_joined(count):
    return schema(each(count, lambda k: defined(f"t{k}", f"ENUMERATION OF (i{k})")), defined("s", f"SELECT ({names(count, 't')})"),
                  returns(each(count // 6 + 1, lambda k: "x", "+\n"), "x : LIST OF s"))


@family("SELECTs")
def selects_chain(count):
    return schema(defined("s0", "SELECT (e0)"), each(count, lambda k: defined(f"s{k}", f"SELECT (s{k - 1}, e{k})"), first=1),
                  each(count, lambda k: entity(f"e{k}", f"a : INTEGER; x{k} : s{k}; WHERE x{k}.a > 0;")))


@family("SELECTs")
def selects_chain_of_one(count):
    return schema(entity("e0", "a : INTEGER;"), defined("s0", "SELECT (e0)"),
                  each(count, lambda k: defined(f"s{k}", f"SELECT (s{k - 1})"), first=1),
                  each(count, lambda k: returns("x.a", f"x : s{k}", f"f{k}")))


@family("SELECTs")
def selects_diamonds(count):
    """Each selects two of the layer below."""
    return schema(entity("e0", "a : INTEGER;"), defined("s0", "SELECT (e0)"), defined("s1", "SELECT (e0)"),
                  each(count, lambda k: defined(f"s{k}", f"SELECT (s{k - k % 2 - 2}, s{k - k % 2 - 1})"), first=2),
                  each(count, lambda k: returns("x.a", f"x : s{k}", f"f{k}")))


@family("SELECTs")
def selects_diamonds_of_types(count):
    """Each selects two of the layer below and a type of its own."""
    return schema(each(count, lambda k: defined(f"t{k}", "INTEGER")), defined("s0", "SELECT (t0)"), defined("s1", "SELECT (t1)"),
                  each(count, lambda k: defined(f"s{k}", f"SELECT (s{k - k % 2 - 2}, s{k - k % 2 - 1}, t{k})"), first=2),
                  each(count, lambda k: returns("x = 1", f"x : s{k}", f"f{k}")))


@family("SELECTs")
def selects_ring(count):
    return schema(defined("⟦CyclicType⟧s0", f"SELECT (s{count - 1})"),
                  each(count, lambda k: defined(f"s{k}", f"SELECT (s{k - 1})"), first=1))


@family("SELECTs")
def selects_through_lists(count):
    """Each selects a list of the one before and an entity."""
    return schema(entity("e0", "a : INTEGER;"), defined("s0", "SELECT (e0)"),
                  each(count, lambda k: defined(f"l{k}", f"LIST OF s{k - 1}") + defined(f"s{k}", f"SELECT (l{k}, e0)"), first=1),
                  each(count, lambda k: returns("x[1].a", f"x : s{k}", f"f{k}"), first=2))


@family("SELECTs")
def selects_of_lists(count):
    """Lists of SELECTs, each of one entity, and one SELECT of all lists that is asked."""
    return schema(each(count, lambda k: entity(f"e{k}", "a : INTEGER;") + defined(f"s{k}", f"SELECT (e{k})") + defined(f"l{k}", f"LIST OF s{k}")),
                  defined("s", f"SELECT ({names(count, 'l')})"),
                  returns(each(count // 6 + 1, lambda k: "x[1].a", "+\n"), "x : s"))


# ---- types

@family("types")
def types_chain(count):
    return schema(defined("t0", "INTEGER"), each(count, lambda k: defined(f"t{k}", f"t{k - 1}"), first=1),
                  each(count, lambda k: returns("x > 0", f"x : t{k}", f"f{k}")))


@family("types")
def types_chain_last_asked(count):
    return schema(defined("t0", "INTEGER"), each(count, lambda k: defined(f"t{k}", f"t{k - 1}"), first=1),
                  returns(each(count, lambda k: "(x > 0)", "AND\n"), f"x : t{count - 1}"))


@family("types")
def types_chain_to_select(count):
    """Types that rename a SELECT of as many entities, each asked."""
    return schema(each(count, lambda k: entity(f"e{k}", "a : INTEGER;")), defined("t0", f"SELECT ({names(count, 'e')})"),
                  each(count, lambda k: defined(f"t{k}", f"t{k - 1}"), first=1),
                  each(count, lambda k: returns("x.a", f"x : t{k}", f"f{k}")))


@family("types")
def types_rules(count):
    return schema("TYPE t0 = INTEGER; END_TYPE;\n",
                  each(count, lambda k: f"TYPE t{k} = t{k - 1}; WHERE SELF > 0; END_TYPE;\n", first=1))


@family("types")
def types_ring(count):
    return schema(defined("⟦CyclicType⟧t0", f"t{count - 1}"), each(count, lambda k: defined(f"t{k}", f"t{k - 1}"), first=1))


@family("types")
def types_ring_of_lists(count):
    return schema(defined("⟦CyclicType⟧t0", f"LIST OF t{count - 1}"),
                  each(count, lambda k: defined(f"t{k}", f"LIST OF t{k - 1}"), first=1))


@family("types")
def types_of_lists(count):
    return schema(defined("t0", "INTEGER"), each(count, lambda k: defined(f"t{k}", f"LIST OF t{k - 1}"), first=1),
                  each(count, lambda k: returns("x[1]", f"x : t{k}", f"f{k}"), first=1))


@family("types")
def types_of_lists_to_the_ground(count):
    return schema(defined("t0", "INTEGER"), each(count, lambda k: defined(f"t{k}", f"LIST OF t{k - 1}"), first=1),
                  returns("x" + "[1]" * (count - 1) + " > 0", f"x : t{count - 1}"))


@family("aggregates")
def deep_aggregates(count):
    return schema(entity("e", each(count, lambda k: f"a{k} : " + "LIST OF " * 60 + "INTEGER;\n")))


@family("aggregates")
def deep_aggregates_asked(count):
    return schema(entity("e", "a : " + "LIST OF " * 60 + "INTEGER; " + holds(count, lambda k: "a" + "[1]" * 60 + " > 0")))


@family("items")
def items_of_one(count):
    return schema(defined("t", f"ENUMERATION OF ({names(count, 'i')})"),
                  returns(each(count, lambda k: f"(x = i{k})", "AND\n"), "x : t"))


@family("items")
def items_of_named_types(count):
    return schema(each(count, lambda k: defined(f"t{k}", "ENUMERATION OF (i)")),
                  returns(each(count, lambda k: f"(t{k}.i = t{k}.i)", "AND\n")))


@family("items")
def items_ambiguous(count):
    return schema(each(count, lambda k: defined(f"t{k}", "ENUMERATION OF (i)")), returns("⟦Ambiguous⟧i = i"))


@family("items")
def items_joined(count):
    """A sum of initialisers, each with an item of another enumeration."""
    return schema(each(count, lambda k: defined(f"t{k}", f"ENUMERATION OF (i{k})")), returns(each(count, lambda k: f"[i{k}]", "+\n")))


@family("items")
def items_in_one_initialiser(count):
    return schema(each(count, lambda k: defined(f"t{k}", f"ENUMERATION OF (i{k})")), returns(f"[{names(count, 'i')}]"))


# ---- one name for all

@family("entities")
def namesake_attributes(count):
    return schema(each(count, lambda k: entity(f"e{k}", "a : INTEGER; WHERE a > 0;")))


@family("entities")
def namesake_labels(count):
    return schema(each(count, lambda k: entity(f"e{k}", "WHERE wr1 : TRUE;")))


@family("entities")
def namesake_entities(count):
    return schema(entity("e"), entity("⟦DeclaredTwice⟧e"), each(count, lambda k: entity("e")))


@family("attributes")
def namesakes_of_one(count):
    return schema(entity("e", "a : INTEGER; ⟦DeclaredTwice⟧a : INTEGER;\n" + "a : INTEGER;\n" * count))


@family("items")
def namesake_items_of_one(count):
    return schema(defined("t", f"ENUMERATION OF (i, ⟦DeclaredTwice⟧i{', i' * count})"))


@family("functions")
def namesake_parameters(count):
    return schema(each(count, lambda k: returns("a", name=f"f{k}")))


@family("functions")
def namesake_locals(count):
    return schema(each(count, lambda k: f"FUNCTION f{k} : INTEGER; LOCAL a : INTEGER := 1; END_LOCAL; a := a + 1; RETURN (a); END_FUNCTION;\n"))


@family("names")
def names_alike(count):
    """Long names that differ in their last letters alone."""
    front = "n" + "_" * 400
    return schema(each(count, lambda k: defined(f"{front}{k:06}", "INTEGER")), entity("e", each(count, lambda k: f"a{k} : {front}{k:06};\n")))


@family("bytes")
def name_long(count):
    return schema(entity("e" * (count // 2), f"a : {'e' * (count // 2)};"))


# ---- expressions

@family("operands")
def sum_of_parameters(count):
    return schema(returns("a" + " + a" * count))


@family("operands")
def sum_of_literals(count):
    return schema(returns("1" + "+1" * count))


@family("operands")
def product(count):
    return schema(returns("a" + "*a" * count))


@family("operands")
def conjunction(count):
    return schema(returns("TRUE" + "\nAND (a > 0)" * count))


@family("operands")
def disjunction_of_intervals(count):
    return schema(returns("TRUE" + "\nOR {1 < a <= 9}" * count))


@family("operands")
def concatenation(count):
    return schema(returns("''" + "+'a'" * count))


@family("operands")
def sum_of_initialisers(count):
    return schema(returns("[a]" + "+[a]" * count))


@family("operands")
def sum_refused_at_its_end(count):
    return schema(returns("a" + "+a" * count + "⟦Operand⟧+ TRUE"))


@family("operands")
def names_undeclared(count):
    return schema(returns("⟦Undeclared⟧b" + "+b" * count))


@family("elements")
def initialiser(count):
    return schema(returns("[a" + ",a" * count + "]"))


@family("elements")
def initialiser_of_initialisers(count):
    return schema(returns("[[]" + ",[[1]]" * count + "]"))


@family("accesses")
def path_of_attributes(count):
    return schema(entity("e", "a : e;"), returns("x" + ".a" * count, "x : e"))


@family("accesses")
def path_of_groups(count):
    return schema(entity("e", "a : e;"), returns("x" + "\\e" * count, "x : e"))


@family("accesses")
def path_of_indices(count):
    return schema(returns("x" + "[1]" * count, "x : GENERIC"))


@family("accesses")
def path_of_ranges(count):
    return schema(returns("x" + "[1:2]" * count, "x : STRING"))


@family("accesses")
def generic_attribute(count):
    """One question to a value of any kind for each entity."""
    return schema(each(count, lambda k: entity(f"e{k}", "a : INTEGER;")), returns(each(count, lambda k: "x.a", "+\n"), "x : GENERIC"))


@family("accesses")
def generic_attributes(count):
    """Each entity's own attribute, asked of a value of any kind."""
    return schema(each(count, lambda k: entity(f"e{k}", f"a{k} : INTEGER;")), returns(each(count, lambda k: f"x.a{k}", "+\n"), "x : GENERIC"))


@family("accesses")
def usedin_attribute(count):
    return schema(each(count, lambda k: entity(f"e{k}", "a : INTEGER;")),
                  returns(each(count // 4, lambda k: "USEDIN(x,'')[1].a", "+\n"), "x : e0"))


@family("calls")
def usedin(count):
    return schema(entity("e", "a : e;"), returns(each(count, lambda k: "EXISTS(USEDIN(x,'MEASURED.E.A'))", "AND\n"), "x : e"))


@family("warnings")
def typeof_select(count):
    return schema(entity("e"), defined("s", "SELECT (e)"),
                  returns(each(count, lambda k: "(⟦SelectInTypeof⟧'MEASURED.S' IN TYPEOF(x))", "OR\n"), "x : e"))


@family("warnings")
def typeof_selects(count):
    return schema(entity("e"), each(count, lambda k: defined(f"s{k}", "SELECT (e)")),
                  returns("[" + each(count, lambda k: f"⟦SelectInTypeof⟧'MEASURED.S{k}'", ",\n") + "]"))


# ---- deep nesting, again and again

DEEP = 60


@family("expressions")
def deep_parentheses(count):
    return schema(returns("1\n" + ("+" + nested(DEEP, "(", "a", ")") + "\n") * count))


@family("expressions")
def deep_signs(count):
    return schema(returns("1\n" + ("+" + nested(DEEP, "(-", "(a)", ")") + "\n") * count))


@family("expressions")
def deep_initialisers(count):
    return schema(returns("[1,\n" + each(count, lambda k: nested(DEEP, "[", "", "]"), ",\n") + "]"))


@family("expressions")
def deep_calls(count):
    return schema(returns("1\n" + ("+" + nested(DEEP, "NVL(a,", "a", ")") + "\n") * count))


@family("expressions")
def deep_indices(count):
    return schema(returns("1\n" + ("+" + nested(DEEP, "x[", "1", "]") + "\n") * count, "x : LIST OF INTEGER"))


@family("expressions")
def deep_queries(count):
    deep = "v0 > 0"
    for k in reversed(range(DEEP // 2 - 1)):
        deep = f"SIZEOF(QUERY(v{k} <* x | {deep})) = 0"
    return schema(returns("TRUE\n" + f"AND ({deep})\n" * count, "x : LIST OF INTEGER"))


@family("statements")
def statements(count):
    return schema(f"FUNCTION f (a : INTEGER) : INTEGER;\n{'a := a;' * count}\nEND_FUNCTION;\n")


@family("statements")
def deep_if(count):
    return schema(f"FUNCTION f (a : INTEGER) : INTEGER;\n{(nested(DEEP, 'IF a > 0 THEN ', ';', ' END_IF;') + chr(10)) * count}END_FUNCTION;\n")


@family("statements")
def deep_else(count):
    return schema(f"FUNCTION f (a : INTEGER) : INTEGER;\n{(nested(DEEP, 'IF a > 0 THEN ; ELSE ', ';', ' END_IF;') + chr(10)) * count}END_FUNCTION;\n")


@family("statements")
def deep_begin(count):
    return schema(f"FUNCTION f (a : INTEGER) : INTEGER;\n{(nested(DEEP, 'BEGIN ', ';', ' END;') + chr(10)) * count}END_FUNCTION;\n")


@family("statements")
def deep_case(count):
    return schema(f"FUNCTION f (a : INTEGER) : INTEGER;\n{(nested(DEEP, 'CASE a OF 1 : ', ';', ' END_CASE;') + chr(10)) * count}END_FUNCTION;\n")


@family("statements")
def deep_repeat(count):
    deep = each(DEEP, lambda k: f"REPEAT v{k} := 1 TO 2; ") + "a := v0;" + " END_REPEAT;" * DEEP + "\n"
    return schema(f"FUNCTION f (a : INTEGER) : INTEGER;\n{deep * count}END_FUNCTION;\n")


@family("labels")
def case_labels(count):
    return schema(f"FUNCTION f (a : INTEGER) : INTEGER;\nCASE a OF {names(count, '', ',')} : ; END_CASE;\nEND_FUNCTION;\n")


@family("actions")
def case_actions(count):
    return schema("FUNCTION f (a : INTEGER) : INTEGER;\nCASE a OF " + each(count, lambda k: f"{k} : a := {k};\n") + "END_CASE;\nEND_FUNCTION;\n")


@family("labels")
def case_labels_of_select(count):
    return schema(each(count, lambda k: defined(f"t{k}", f"ENUMERATION OF (i{k})")), defined("s", f"SELECT ({names(count, 't')})"),
                  f"FUNCTION f (a : s) : INTEGER;\nCASE a OF {names(count, 'i')} : ; END_CASE;\nEND_FUNCTION;\n")


# ---- functions, constants, rules

@family("parameters")
def parameters(count):
    return schema(returns(names(count, "p", "+\n"), each(count, lambda k: f"p{k} : INTEGER", ";\n")))


@family("parameters")
def parameters_of_many(count):
    """Functions of forty parameters each."""
    return schema(each(count // 40 + 1, lambda k: returns("p0 + p39", names(40, "p") + " : INTEGER", f"f{k}")))


@family("arguments")
def arguments(count):
    return schema(returns("1", names(count, "p") + " : INTEGER"), returns(f"f(1{',1' * (count - 1)})", name="g"))


@family("arguments")
def arguments_too_many(count):
    return schema(returns("1"), returns(f"⟦Arguments⟧f(1{',1' * count})", name="g"))


@family("functions")
def functions_of_each_other(count):
    return schema(returns("a", name="f0"), each(count, lambda k: returns(f"f{k - 1}(a)", name=f"f{k}"), first=1))


@family("locals")
def locals_of_one(count):
    return schema("FUNCTION f : INTEGER;\nLOCAL v0 : INTEGER := 1;\n" + each(count, lambda k: f"v{k} : INTEGER := v{k - 1};\n", first=1)
                  + "END_LOCAL;\n" + each(count, lambda k: f"v{k} := 1;\n") + "END_FUNCTION;\n")


@family("locals")
def locals_in_one_list(count):
    return schema(f"FUNCTION f : INTEGER;\nLOCAL {names(count, 'v')} : INTEGER := 1 + 1; END_LOCAL;\n;\nEND_FUNCTION;\n")


@family("constants")
def constants(count):
    return schema("CONSTANT c0 : INTEGER := 1;\n" + each(count, lambda k: f"c{k} : INTEGER := c{k - 1} + 1;\n", first=1) + "END_CONSTANT;")


@family("constants")
def constants_backwards(count):
    return schema("CONSTANT " + each(count - 1, lambda k: f"c{k} : INTEGER := c{k + 1} + 1;\n") + f"c{count - 1} : INTEGER := 1;\nEND_CONSTANT;")


@family("rules")
def rules_for_one(count):
    return schema(entity("e"), each(count, lambda k: f"RULE r{k} FOR (e); WHERE SIZEOF(e) > 0; END_RULE;\n"))


@family("entities")
def rule_for_all(count):
    return schema(each(count, lambda k: entity(f"e{k}")), f"RULE r FOR ({names(count, 'e')});\n" + holds(count, lambda k: f"SIZEOF(e{k}) > 0") + "END_RULE;")


@family("entities")
def rules_for_many(count):
    """Rules for a thousand entities each, of so many entities in all."""
    return schema(each(1000, lambda k: entity(f"e{k}")),
                  each(count // 1000 + 1, lambda k: f"RULE r{k} FOR ({names(1000, 'e')}); WHERE SIZEOF(e{k % 1000}) > 0; END_RULE;\n"))


@family("labels")
def labels_of_one(count):
    return schema(entity("e", holds(count, lambda k: f"w{k} : TRUE")))


@family("entities")
def oneof(count):
    return schema(f"ENTITY s SUPERTYPE OF (ONEOF ({names(count, 'e')})); END_ENTITY;\n", each(count, lambda k: entity(f"e{k}", "", "s")))


@family("entities")
def andor(count):
    return schema(f"ENTITY s SUPERTYPE OF ({names(count, 'e', ' ANDOR ')}); END_ENTITY;\n", each(count, lambda k: entity(f"e{k}", "", "s")))


def deep_supertypes(count, opened):
    """An entity whose direct subtypes stand so deep within one another, each once."""
    def deep(k):
        first = k * (DEEP + 1)
        return each(first + DEEP, lambda n: opened.format(f"e{n}"), first=first) + f"e{first + DEEP}" + ")" * DEEP
    return schema(f"ENTITY s SUPERTYPE OF ({each(count, deep, ' AND' + chr(10))}); END_ENTITY;\n",
                  each(count * (DEEP + 1), lambda n: entity(f"e{n}", "", "s")))


@family("expressions")
def deep_andor(count):
    return deep_supertypes(count, "({} ANDOR ")


@family("expressions")
def deep_oneof(count):
    return deep_supertypes(count, "ONEOF ({}, ")


# ---- remarks and literals

@family("remarks")
def remarks_within_remarks(count):
    return schema(nested(count, "(*", "", "*)"))


@family("remarks")
def remarks(count):
    return schema("(**)" * count)


@family("remarks")
def tail_remarks(count):
    return schema("--\n" * count)


@family("bytes")
def remark_long(count):
    return schema("(*" + "*" * count + "*)")


@family("bytes")
def remark_open(count):
    return "SCHEMA measured;\n⟦OpenRemark⟧" + "(*" * (count // 2)


@family("bytes")
def blanks(count):
    return schema(" " * count)


@family("bytes")
def string_long(count):
    return schema(returns("'" + "a" * count + "'"))


@family("bytes")
def string_of_apostrophes(count):
    return schema(returns("'" + "'" * (count // 2 * 2) + "'"))


@family("strings")
def strings(count):
    return schema(returns("[''" + ",'a'" * count + "]"))


@family("bytes")
def string_open(count):
    return "SCHEMA measured;\nCONSTANT c : STRING := ⟦OpenString⟧'" + "a" * count


@family("bytes")
def string_encoded_long(count):
    return schema(returns('"' + "00000041" * (count // 8) + '"'))


@family("strings")
def strings_encoded(count):
    return schema(returns('["00000041"' + ',"00000041"' * count + "]"))


@family("digits")
def integer_long(count):
    return schema(returns("0" * count + "1"))


@family("digits")
def integer_too_big(count):
    return schema(returns("⟦TooBig⟧" + "9" * count))


@family("numbers")
def integers(count):
    return schema(returns("[0" + ",1" * count + "]"))


@family("numbers")
def reals(count):
    return schema(returns("[0." + ",1.5E-3" * count + "]"))


@family("digits")
def real_long(count):
    return schema(returns("0" * (count // 3) + "1.5" + "0" * (count // 3) + "E" + "0" * (count // 3) + "1"))


@family("bits")
def binary_long(count):
    return schema(returns("%" + "10" * (count // 2)))


# ---- refused at the end

@family("entities")
def end_missing(count):
    return "SCHEMA measured;\n" + each(count, lambda k: entity(f"e{k}", "a : INTEGER;")) + "⟦Syntax⟧"


@family("entities")
def token_at_the_end(count):
    return schema(each(count, lambda k: entity(f"e{k}", "a : INTEGER;")), "⟦Token⟧!")


@family("entities")
def undeclared_at_the_end(count):
    return schema(each(count, lambda k: entity(f"e{k}", "a : INTEGER;")), entity("last", "a : ⟦Undeclared⟧z;"))


@family("parentheses")
def parentheses_open(count):
    return schema(returns("(" * 63 + "⟦TooDeep⟧" + "(" * count))
