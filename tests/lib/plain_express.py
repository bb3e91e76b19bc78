"""Reads the text of a schema that `check` accepts into trees, in Python, and tells no faults; and what follows from declarations alone.

It is written from the description of the language alone, and never from the program. As a name may be used before it is declared,
expressions and statements are read once all declarations are. In a tree each name is bound and in upper case, and each expression
has its kinds, since what `x.a` means goes by the entities that x may be of.
"""
import re
from collections import namedtuple
from enum import Enum
from types import SimpleNamespace

from lib.plain_binding import SIMPLE, Bits, Enumeration, Real, Select, real_of

# ---- values that literals have; numbers, strings, Real and Bits are the others

Logical = Enum("Logical", "FALSE UNKNOWN TRUE", start=0)
# what stands in place of a value: none, or a reference that leaves the population
Absent = Enum("Absent", "INDETERMINATE OUTSIDE")
INDETERMINATE, OUTSIDE = Absent
# an item of an enumeration: its type, its place in the declaration, and its word
Item = namedtuple("Item", "type place word")

# ---- types; a name is that of a defined type or of an entity

# a simple type by its word, or GENERIC; a string's or a binary's width is the most that it may have, or all
Simple = namedtuple("Simple", "word width is_fixed", defaults=(None, False))
# ARRAY, LIST, BAG, SET or AGGREGATE; a high bound that is None is none
Aggregate = namedtuple("Aggregate", "kind low high element is_optional is_unique", defaults=(False, False))

# ---- expressions, whose names are bound. `kinds` are the entities that the value may be of and the types of the aggregates that it
# may be; `near` are the entities that the owner of an attribute may be of, with their ancestors

Literal = namedtuple("Literal", "value kinds")
# a parameter, a local, or the variable of a QUERY or a REPEAT
Variable = namedtuple("Variable", "name kinds")
Self = namedtuple("Self", "kinds")
# an attribute of SELF that is named alone
OwnAttribute = namedtuple("OwnAttribute", "name near kinds")
Constant = namedtuple("Constant", "name kinds")
# the name of an entity in a rule
Extent = namedtuple("Extent", "entity kinds")
# a call of a function of the schema, and one of a function of the language
Call = namedtuple("Call", "function arguments kinds")
BuiltIn = namedtuple("BuiltIn", "function arguments kinds")
# `x.a`, `x\e`, `x[i]` and `x[i:j]`
OfAttribute = namedtuple("OfAttribute", "first name near kinds")
OfGroup = namedtuple("OfGroup", "first entity kinds")
OfIndex = namedtuple("OfIndex", "first index kinds")
OfRange = namedtuple("OfRange", "first low high kinds")
Unary = namedtuple("Unary", "operator operand kinds")
Binary = namedtuple("Binary", "left operator right kinds")
Interval = namedtuple("Interval", "low low_operator item high_operator high kinds")
Query = namedtuple("Query", "variable source condition kinds")
Initialiser = namedtuple("Initialiser", "elements kinds")

# ---- statements

Assignment = namedtuple("Assignment", "name type value")
If = namedtuple("If", "condition statements otherwise")
# actions are labels with a statement, and `otherwise` is a statement or None
Case = namedtuple("Case", "selector actions otherwise")
# what isn't written is None
Repeat = namedtuple("Repeat", "variable first last step condition until statements")
Compound = namedtuple("Compound", "statements")
Null, Skip, Escape = (namedtuple(name, "") for name in ("Null", "Skip", "Escape"))
Return = namedtuple("Return", "value")

# ---- declarations

# its label, or its place as `#k`, and its expression, or the attributes that one of UNIQUE lists
Rule = namedtuple("Rule", "label told")
Explicit = namedtuple("Explicit", "type is_optional")
# BAG or SET with its bounds, or None for one user; the entity of the users, and their attribute
Inverse = namedtuple("Inverse", "kind low high entity attribute")

# ---- declarations that are filled while they are read

# a constant, a derived attribute, or a local, whose expression may be None; and a defined type
Given = lambda declared, expression=None: SimpleNamespace(type=declared, expression=expression)
Defined = lambda underlying: SimpleNamespace(underlying=underlying, rules=[])
# attributes stand by their names; redeclared ones by the entity that declares them, or while the text is read by one that has them,
# and by their names
Entity = lambda: SimpleNamespace(
    explicit={}, redeclared={}, derived={}, derived_again={}, inverse={}, supertypes=[], unique=[], rules=[])
# a function with parameters and a result, or a rule with the entities that it is for and the rules of its WHERE; locals stand by the
# names that are declared together
Algorithm = lambda parameters=(), result=None, entities=(): SimpleNamespace(
    parameters=parameters, result=result, entities=entities, locals=[], statements=[], rules=[])


def union(sets):
    return frozenset().union(*sets)


def aggregate_of(kinds):
    """The kinds of an aggregate whose elements are of these."""
    return frozenset([Aggregate("AGGREGATE", 0, None, Select(frozenset(kinds)))])


class Schema:
    """The declarations of a schema by their names, and what follows from them alone."""

    def __init__(self, name):
        self.name, self.lines = name, {}
        self.constants, self.types, self.entities, self.functions, self.rules = {}, {}, {}, {}, {}

    # -- entities

    def line_of(self, name):
        """An entity behind its supertypes, depth first, each at its first place."""
        if name not in self.lines:
            above = [it for one in self.entities[name].supertypes for it in self.line_of(one)]
            self.lines[name] = [*dict.fromkeys(above), name]
        return self.lines[name]

    def declares(self, name, attribute):
        entity = self.entities[name]
        return attribute in entity.explicit or attribute in entity.derived or attribute in entity.inverse

    def declaring(self, name, attribute):
        """The entities that declare an attribute of this name among an entity and its ancestors."""
        return [it for it in self.line_of(name) if self.declares(it, attribute)]

    def attribute_kinds(self, name, attribute):
        """The kinds of an attribute that an entity has: of its redeclarations, but for those that a later one overrides, or else of
        its declaration."""
        declaring = self.declaring(name, attribute)[0]
        entity = self.entities[declaring]
        if attribute in entity.inverse:
            inverse = entity.inverse[attribute]
            return aggregate_of([inverse.entity]) if inverse.kind else frozenset([inverse.entity])
        types = {declaring: (entity.explicit.get(attribute) or entity.derived[attribute]).type}
        for above in self.line_of(name):
            entity = self.entities[above]
            again = entity.redeclared.get((declaring, attribute)) or entity.derived_again.get((declaring, attribute))
            if again:
                types[above] = again.type
        last = [it for it in types if not any(it in self.line_of(other) for other in types if other != it)]
        return union(self.kinds_of(types[it]) for it in last)

    # -- types

    def end(self, declared):
        """What a type means once it is no defined type's name: a type that is written out, or an entity's name."""
        while declared in self.types:
            declared = self.types[declared].underlying
        return declared

    def names_beneath(self, declared):
        """A defined type's name and those of the types beneath it."""
        return [declared, *self.names_beneath(self.types[declared].underlying)] if declared in self.types else []

    def is_select(self, declared):
        return isinstance(self.end(declared), Select)

    def select_members(self, name):
        """The members of a SELECT. One that renames another has it as its one member."""
        underlying = self.types[name].underlying
        return underlying.members if isinstance(underlying, Select) else [underlying]

    # -- kinds

    def kinds_of(self, declared):
        end = self.end(declared)
        if isinstance(end, Select):
            return union(map(self.kinds_of, end.members))
        if end == Simple("GENERIC"):
            return aggregate_of([end]).union(self.entities)
        return frozenset() if isinstance(end, (Simple, Enumeration)) else frozenset([end])

    def kinds_of_elements(self, kinds):
        return union(self.kinds_of(it.element) for it in kinds if isinstance(it, Aggregate))

    def kinds_of_access(self, kinds, attribute):
        return union(self.attribute_kinds(it, attribute) for it in kinds if it in self.entities and self.declaring(it, attribute))

    def near(self, kinds):
        """The entities among some kinds, and their ancestors."""
        return union(self.line_of(it) for it in kinds if it in self.entities)


# ---- tokens

TOKEN = re.compile(r"""
    (?P<blank> [\0- ]+ | --[^\n]* ) | (?P<remark> \(\* ) | (?P<real> \d+\.\d*(?:[Ee][+-]?\d+)? ) | (?P<integer> \d+ )
  | (?P<string> '(?:[^'\n]|'')*' ) | (?P<encoded> "[0-9A-Fa-f]*" ) | (?P<binary> %[01]+ )
  | (?P<text> [A-Za-z]\w* | :<>: | :=: | := | <= | <> | <\* | >= | \*\* | [-.,;:*+=\\/<>[\]{}|()?] )
""", re.VERBOSE | re.ASCII)

NONE = frozenset()
LITERALS = {
    "real": real_of, "integer": int, "string": lambda it: it[1:-1].replace("''", "'"), "binary": lambda it: Bits(it[1:]),
    "encoded": lambda it: "".join(chr(int(it[at:at + 8], 16)) for at in range(1, len(it) - 1, 8)),
}


def remark_end(text, at):
    """The place behind a remark, which may hold others."""
    depth = 0
    for sign in re.compile(r"\(\*|\*\)").finditer(text, at):
        depth += 1 if sign[0] == "(*" else -1
        if depth == 0:
            return sign.end()


def tokens_of(text):
    """Literals, words in upper case, and marks."""
    found, at = [], 0
    while at < len(text):
        match = TOKEN.match(text, at)
        sort = match.lastgroup
        at = remark_end(text, at) if sort == "remark" else match.end()
        if sort in LITERALS:
            found.append(Literal(LITERALS[sort](match[0]), NONE))
        elif sort == "text":
            found.append(match[0].upper())
    return found


# ---- the reader

# the operators of a level, the weakest first; below these come the signs and NOT, and then accesses
LEVELS = [
    ("=", "<>", "<", ">", "<=", ">=", ":=:", ":<>:", "IN"),
    ("+", "-", "OR", "XOR"),
    ("*", "/", "DIV", "MOD", "AND"),
    ("**",),
]
AGGREGATES = ("ARRAY", "LIST", "BAG", "SET", "AGGREGATE")
CLAUSES = ("DERIVE", "INVERSE", "UNIQUE", "WHERE", "END_ENTITY", "END_TYPE", "END_RULE")
FUNCTIONS = ("ABS", "BLENGTH", "EXISTS", "HIINDEX", "LENGTH", "LOINDEX", "NVL", "ODD", "SIZEOF", "TYPEOF", "USEDIN", "VALUE_IN")


def kinds_of_operation(operator, left, right):
    """The aggregates that an operator of two operands gives. Beside an aggregate stands an element of its result."""
    if operator in LEVELS[0] or operator in ("AND", "OR", "XOR"):
        return NONE
    found, others = ({it for it in kinds if isinstance(it, Aggregate)} for kinds in (left, right))
    if operator != "+":
        return frozenset(found)
    beside = (right - others if found else NONE) | (left - found if others else NONE)
    return aggregate_of(beside) | found | others if found or others else NONE


# what names mean beside those of the schema: variables by their types, the type of SELF, and the entities that a rule is for
Scope = namedtuple("Scope", "variables me extents", defaults=(None, ()))


class Reader:
    """The tokens of a schema, the place of the next one, and what is put off: its place, its scope, and how it is read."""

    def __init__(self, text, schema=None, scope=None):
        self.tokens, self.at, self.put_off, self.schema, self.scope = tokens_of(text), 0, [], schema, scope

    def sees(self, *texts):
        return self.tokens[self.at] in texts

    def take(self):
        """The next token."""
        self.at += 1
        return self.tokens[self.at - 1]

    def takes(self, text):
        """Whether the next token is this, which then is taken."""
        found = self.sees(text)
        self.at += found
        return found

    def skip(self, *texts):
        for text in texts:
            if not self.takes(text):
                raise ValueError(f"{self.tokens[self.at]} in place of {text}")

    def listed(self, read):
        """One or more with commas between."""
        found = [read()]
        while self.takes(","):
            found.append(read())
        return found

    def up_to(self, end, read=None):
        """What is read, or the next token, up to this one, which is taken."""
        found = (read or self.take)()
        self.skip(end)
        return found

    def in_parentheses(self, read):
        self.skip("(")
        return self.up_to(")", lambda: self.listed(read))

    def later(self, end, scope, read):
        """Puts off what stands up to this end."""
        self.put_off.append((self.at, scope, read))
        while not self.sees(end):
            self.at += 1

    # -- declarations

    def read(self):
        self.skip("SCHEMA")
        self.schema = Schema(self.up_to(";"))
        declarations = {"CONSTANT": self.constants, "TYPE": self.type_declaration, "ENTITY": self.entity_declaration,
                        "FUNCTION": self.function_declaration, "RULE": self.rule_declaration}
        while not self.takes("END_SCHEMA"):
            word = self.take()
            declarations[word]()
            self.skip(f"END_{word}", ";")
        for entity in self.schema.entities.values():
            entity.redeclared, entity.derived_again = map(self.by_declaring, (entity.redeclared, entity.derived_again))
        for self.at, self.scope, read in self.put_off:
            read()
        return self.schema

    def by_declaring(self, redeclared):
        """Redeclared attributes by the entities that declare them."""
        return {(self.schema.declaring(above, name)[0], name): it for (above, name), it in redeclared.items()}

    def given(self, scope):
        """What stands behind the name of a constant, a derived attribute or a local."""
        self.skip(":")
        found = Given(self.type())
        if self.takes(":="):
            self.later(";", scope, lambda: setattr(found, "expression", self.expression()))
        self.skip(";")
        return found

    def constants(self):
        while not self.sees("END_CONSTANT"):
            name = self.take()
            self.schema.constants[name] = self.given(Scope({}))

    def type_declaration(self):
        name = self.up_to("=")
        found = self.schema.types[name] = Defined(self.up_to(";", self.type))
        self.later("END_TYPE", Scope({}, name), lambda: self.rules(found))

    def width(self):
        if not self.takes("("):
            return None, False
        return self.up_to(")").value, self.takes("FIXED")

    def bounds(self):
        if not self.takes("["):
            return 0, None
        low, high = self.up_to(":"), self.up_to("]")
        return low.value, None if high == "?" else high.value

    def type(self):
        word = self.take()
        if word == "ENUMERATION":
            self.skip("OF")
            return Enumeration(tuple(self.in_parentheses(self.take)))
        if word == "SELECT":
            return Select(tuple(self.in_parentheses(self.take)))
        if word in ("GENERIC", "AGGREGATE") and self.takes(":"):
            self.take()
        if word in (*SIMPLE, "GENERIC"):
            return Simple(word, *self.width())
        if word not in AGGREGATES:
            return word
        low, high = self.bounds()
        self.skip("OF")
        is_optional, is_unique = self.takes("OPTIONAL"), self.takes("UNIQUE")
        return Aggregate(word, low, high, self.type(), is_optional, is_unique)

    def attribute_name(self):
        """A name, or the entity and the name of a redeclared attribute."""
        if not self.takes("SELF"):
            return self.take()
        self.skip("\\")
        return self.up_to("."), self.take()

    def entity_declaration(self):
        name = self.take()
        entity, scope = Entity(), Scope({}, name)
        self.schema.entities[name] = entity
        while not self.sees("SUBTYPE", ";"):
            self.take()
        if self.takes("SUBTYPE"):
            self.skip("OF")
            entity.supertypes = self.in_parentheses(self.take)
        self.skip(";")
        while not self.sees(*CLAUSES):
            names = self.up_to(":", lambda: self.listed(self.attribute_name))
            found = Explicit(is_optional=self.takes("OPTIONAL"), type=self.type())
            self.skip(";")
            for it in names:
                (entity.explicit if isinstance(it, str) else entity.redeclared)[it] = found
        if self.takes("DERIVE"):
            while not self.sees(*CLAUSES):
                name = self.attribute_name()
                (entity.derived if isinstance(name, str) else entity.derived_again)[name] = self.given(scope)
        if self.takes("INVERSE"):
            while not self.sees(*CLAUSES):
                name, users = self.up_to(":"), self.up_to("FOR", self.type)
                kind, low, high, user = users[:4] if isinstance(users, Aggregate) else (None, 1, 1, users)
                entity.inverse[name] = Inverse(kind, low, high, user, self.up_to(";"))
        self.later("END_ENTITY", scope, lambda: self.rules(entity))

    def function_declaration(self):
        name, parameters = self.take(), []
        if self.takes("("):
            while not self.takes(")"):
                names, declared = self.up_to(":", lambda: self.listed(self.take)), self.type()
                parameters += [(it, declared) for it in names]
                self.takes(";")
        self.skip(":")
        function = self.schema.functions[name] = Algorithm(parameters, self.up_to(";", self.type))
        self.algorithm(function, Scope(dict(parameters)), "END_FUNCTION")

    def rule_declaration(self):
        name = self.up_to("FOR")
        rule = self.schema.rules[name] = Algorithm(entities=self.in_parentheses(self.take))
        self.skip(";")
        self.algorithm(rule, Scope({}, None, rule.entities), "END_RULE")

    def algorithm(self, it, scope, end):
        """All locals are known in the first values of each."""
        if self.takes("LOCAL"):
            while not self.takes("END_LOCAL"):
                names = self.listed(self.take)
                local = self.given(scope)
                it.locals.append((names, local))
                scope.variables.update(dict.fromkeys(names, local.type))
            self.skip(";")
        self.later(end, scope, lambda: self.body(it))

    # -- what is put off

    def body(self, algorithm):
        algorithm.statements = self.statements()
        self.rules(algorithm)

    def rules(self, it):
        if self.takes("UNIQUE"):
            it.unique = self.labelled(lambda: self.listed(self.unique_attribute))
        if self.takes("WHERE"):
            it.rules = self.labelled(self.expression)

    def labelled(self, read):
        found = []
        while not self.sees(*CLAUSES):
            label = self.up_to(":") if self.tokens[self.at + 1] == ":" else f"#{len(found) + 1}"
            found.append(Rule(label, self.up_to(";", read)))
        return found

    def unique_attribute(self):
        """An attribute of the entity, as one that is named alone."""
        name = self.attribute_name()
        return self.own_attribute(self.scope.me, name) if isinstance(name, str) else self.own_attribute(*name)

    # -- statements

    def statements(self):
        """Statements up to what can't begin one."""
        found = []
        while not self.sees("END", "ELSE", "END_IF", "END_REPEAT", "END_FUNCTION", "END_RULE", "WHERE"):
            found.append(self.statement())
        return found

    def statement(self):
        statements = {
            "IF": self.if_statement, "CASE": self.case_statement, "REPEAT": self.repeat_statement,
            "BEGIN": lambda: Compound(self.up_to("END", self.statements)),
            "SKIP": Skip, "ESCAPE": Escape, "RETURN": lambda: Return(self.expression()),
        }
        word = self.take()
        if word == ";":
            return Null()
        return self.up_to(";", statements[word] if word in statements else lambda: self.assignment(word))

    def assignment(self, name):
        self.skip(":=")
        return Assignment(name, self.scope.variables[name], self.expression())

    def if_statement(self):
        condition, statements = self.up_to("THEN", self.expression), self.statements()
        otherwise = self.statements() if self.takes("ELSE") else []
        self.skip("END_IF")
        return If(condition, statements, otherwise)

    def case_statement(self):
        selector, actions = self.up_to("OF", self.expression), []
        while not self.sees("OTHERWISE", "END_CASE"):
            labels = self.up_to(":", lambda: self.listed(self.expression))
            actions.append((labels, self.statement()))
        has_otherwise = self.takes("OTHERWISE") and self.takes(":")
        otherwise = self.statement() if has_otherwise else None
        self.skip("END_CASE")
        return Case(selector, actions, otherwise)

    def knows(self, variable, declared):
        """From here on the scope has one variable more."""
        self.scope = self.scope._replace(variables={**self.scope.variables, variable: declared})

    def repeat_statement(self):
        """The variable is known in the conditions and in the statements."""
        variable = first = last = step = None
        before = self.scope
        if not self.sees("WHILE", "UNTIL", ";"):
            variable, first, last = self.up_to(":="), self.up_to("TO", self.simple_expression), self.simple_expression()
            step = self.simple_expression() if self.takes("BY") else None
            self.knows(variable, Simple("INTEGER"))
        condition = self.expression() if self.takes("WHILE") else None
        until = self.expression() if self.takes("UNTIL") else None
        self.skip(";")
        statements = self.up_to("END_REPEAT", self.statements)
        self.scope = before
        return Repeat(variable, first, last, step, condition, until, statements)

    # -- expressions

    def expression(self, level=0):
        """Operators of one level go from left to right."""
        if level == len(LEVELS):
            return self.factor()
        found = self.expression(level + 1)
        while self.sees(*LEVELS[level]):
            operator, right = self.take(), self.expression(level + 1)
            found = Binary(found, operator, right, kinds_of_operation(operator, found.kinds, right.kinds))
        return found

    def simple_expression(self):
        return self.expression(1)

    def factor(self):
        """A sign before a real belongs to it."""
        if not self.sees("+", "-", "NOT"):
            return self.primary()
        operator, operand = self.take(), self.factor()
        if not (isinstance(operand, Literal) and isinstance(operand.value, Real)):
            return Unary(operator, operand, NONE)
        digits, exponent = operand.value
        return Literal(Real(-digits if operator == "-" else digits, exponent), NONE)

    def primary(self):
        if self.sees("("):
            return self.in_parentheses(self.expression)[0]
        others = {"[": self.initialiser, "{": self.interval, "QUERY": self.query}
        token = self.take()
        if isinstance(token, Literal):
            return token
        if token in Logical.__members__:
            return Literal(Logical[token], NONE)
        found = others[token]() if token in others else self.named(token)
        while self.sees(".", "\\", "["):
            found = self.access(found)
        return found

    def initialiser(self):
        elements = self.up_to("]", lambda: [] if self.sees("]") else self.listed(self.expression))
        return Initialiser(elements, aggregate_of(union(it.kinds for it in elements)))

    def interval(self):
        low, first, item, second, high = (self.simple_expression() if place % 2 == 0 else self.take() for place in range(5))
        self.skip("}")
        return Interval(low, first, item, second, high, NONE)

    def query(self):
        self.skip("(")
        variable, source, before = self.up_to("<*"), self.up_to("|", self.simple_expression), self.scope
        self.knows(variable, Select(self.schema.kinds_of_elements(source.kinds)))
        condition = self.up_to(")", self.expression)
        self.scope = before
        return Query(variable, source, condition, frozenset(it for it in source.kinds if isinstance(it, Aggregate)))

    def named(self, name):
        """What a name, a call, SELF or `?` stands for: the innermost variable of a name, else an attribute of the entity at hand, else
        a declaration of the schema, and last an item."""
        schema, scope = self.schema, self.scope
        if name == "?":
            return Literal(INDETERMINATE, NONE)
        if name == "SELF":
            return Self(schema.kinds_of(scope.me))
        if name in FUNCTIONS:
            return self.built_in(name)
        if name in scope.variables:
            return Variable(name, schema.kinds_of(scope.variables[name]))
        if scope.me in schema.entities and schema.declaring(scope.me, name):
            return self.own_attribute(scope.me, name)
        if name in schema.constants:
            return Constant(name, schema.kinds_of(schema.constants[name].type))
        if name in schema.functions:
            arguments = self.in_parentheses(self.expression) if self.sees("(") else []
            return Call(name, arguments, schema.kinds_of(schema.functions[name].result))
        return Extent(name, aggregate_of([name])) if name in scope.extents else self.item(name)

    def item(self, word):
        """An item, alone or behind its type."""
        types = self.schema.types
        among, word = ([word], self.take()) if self.takes(".") else (types, word)
        has_word = lambda it: isinstance(it, Enumeration) and word in it.items
        name = next(it for it in among if has_word(types[it].underlying))
        return Literal(Item(name, types[name].underlying.items.index(word), word), NONE)

    def own_attribute(self, entity, name):
        return OwnAttribute(name, self.schema.near([entity]), self.schema.attribute_kinds(entity, name))

    def built_in(self, name):
        arguments = self.in_parentheses(self.expression)
        kinds = {"NVL": union(it.kinds for it in arguments), "TYPEOF": aggregate_of([]), "USEDIN": aggregate_of(self.schema.entities)}
        return BuiltIn(name, arguments, kinds.get(name, NONE))

    def access(self, first):
        """What stands behind a mark: the name of an attribute or of an entity, or an index or two."""
        mark, schema = self.take(), self.schema
        behind = self.simple_expression() if mark == "[" else self.take()
        if mark == ".":
            return OfAttribute(first, behind, schema.near(first.kinds), schema.kinds_of_access(first.kinds, behind))
        if mark == "\\":
            return OfGroup(first, behind, frozenset([behind]))
        last = self.simple_expression() if self.takes(":") else None
        self.skip("]")
        return OfRange(first, behind, last, NONE) if last else OfIndex(first, behind, schema.kinds_of_elements(first.kinds))


def read(text):
    """The schema that a text says."""
    return Reader(text).read()


def read_expression(schema, text, entity=None, extents=()):
    """An expression of an entity's WHERE, or, without one, of that of a rule for these entities."""
    return Reader(f"{text};", schema, Scope({}, entity, () if entity else extents)).expression()
