"""What the trees of plain_express mean over a population, with steps and nesting, in Python.

It is written from the description alone, and never from the program: each operator, function and statement is a function
here. Nothing is compiled, and nothing is remembered from one evaluation to another.

A value is a Python value: int, Real, str, Bits, Logical, Item, an Instance, a Many, INDETERMINATE, or Typed, which is one
of these with the name of the defined type that it carries.
"""
import itertools
import operator
import sys
import threading
from collections import namedtuple
from concurrent.futures import ThreadPoolExecutor
from enum import Enum
from fractions import Fraction

from lib import plain_express as trees
from lib.plain_binding import Bits, Enumeration, Real, Select, Typed
from lib.plain_express import INDETERMINATE, Absent, Aggregate, Item, Logical, Simple

FALSE, UNKNOWN, TRUE = Logical
STEPS_OF_AN_EVALUATION = 200_000
NESTED_BODIES = 200
SMALLEST, GREATEST = -2**63, 2**63 - 1
FRAMES, STACK = 1_000_000, 512 * 1024 * 1024


def deep(meaning, *given):
    """What a function gives that goes down deep: 200 bodies, each of 64 levels."""
    sys.setrecursionlimit(FRAMES)
    threading.stack_size(STACK)
    with ThreadPoolExecutor(1) as pool:
        found = pool.submit(meaning, *given)
        threading.stack_size(0)
        return found.result()


# ---- values

# an aggregate: ARRAY, LIST, BAG, SET or INITIALISER, its low index, and its elements
Many = namedtuple("Many", "kind low elements")
INITIALISER = "INITIALISER"


class Instance:
    """An instance of a population: its place, its types, its values as they are written, in their order, and as they are read, and
    its users: each with the attribute that uses it, once for each occurrence. What is redeclared in DERIVE isn't among its values."""

    def __init__(self, place, types):
        self.place, self.types = place, types
        self.written, self.read, self.users = {}, {}, []


# what an evaluation comes to that has no value
LIMIT, NOT_RUN = Enum("Outcome", "LIMIT NOT_RUN")
KINDS = {int: "INTEGER", Real: "REAL", str: "STRING", Bits: "BINARY", Logical: "LOGICAL", Instance: "entity", Many: "aggregate"}
# the values that a simple type may have
SIMPLE = {"INTEGER": int, "REAL": (int, Real), "NUMBER": (int, Real), "STRING": str, "BINARY": Bits, "BOOLEAN": Logical, "LOGICAL": Logical,
          "GENERIC": object}


def bare(value):
    """A value without the type that it carries."""
    return value.value if isinstance(value, Typed) else value


def kind(value):
    """The kind of a bare value that isn't none. Each enumeration is one."""
    return value.type if isinstance(value, Item) else KINDS[type(value)]


def are_of_one_kind(left, right):
    """Whether two bare values are, where INTEGER and REAL are one kind, and so are all aggregates."""
    kinds = {kind(left), kind(right)}
    return len(kinds) == 1 or kinds == {"INTEGER", "REAL"}


def logical(is_so):
    return TRUE if is_so else FALSE


def truth(value):
    """What a condition says: a value that is no truth value counts as none, and none as unknown."""
    return bare(value) if isinstance(bare(value), Logical) else UNKNOWN


def parts(value):
    """A bare value, or those that an aggregate holds at any depth."""
    value = bare(value)
    return [it for element in value.elements for it in parts(element)] if isinstance(value, Many) else [value]


# ---- equality and order


def rank(value):
    """What the order of bare values of one kind goes by: numbers by value, strings by characters, binaries by bits, truth values and
    items in their order."""
    if isinstance(value, Real):
        return value.digits * Fraction(10) ** value.exponent
    if isinstance(value, Logical):
        return value.value
    return value.place if isinstance(value, Item) else value


def same(left, right):
    """`:=:`: identity of instances, else equality, where values of two kinds are unequal."""
    left, right = bare(left), bare(right)
    if INDETERMINATE in (left, right):
        return UNKNOWN
    if not are_of_one_kind(left, right):
        return FALSE
    return agree(left, right, same) if isinstance(left, Many) else logical(rank(left) == rank(right))


def equal(left, right):
    """Equality by value within aggregates: unknown with no value, with an instance at any depth, and of two kinds."""
    left, right = bare(left), bare(right)
    every = parts(left) + parts(right)
    if INDETERMINATE in (left, right) or any(isinstance(it, Instance) for it in every) or not are_of_one_kind(left, right):
        return UNKNOWN
    return agree(left, right, equal) if isinstance(left, Many) else same(left, right)


def agree(left, right, equality):
    """Equality of aggregates by that of their elements: by place, or by how often each occurs, where a BAG or a SET is among them."""
    every = left.elements + right.elements
    if len(left.elements) != len(right.elements):
        return FALSE
    if not {"BAG", "SET"} & {left.kind, right.kind}:
        return least(*map(equality, left.elements, right.elements))
    if INDETERMINATE in every:
        return UNKNOWN
    occurrences = lambda value, aggregate: sum(equality(value, it) is TRUE for it in aggregate.elements)
    return logical(all(occurrences(it, left) == occurrences(it, right) for it in every))


def holds(elements, value, equality=same):
    """Whether an element equals a value. No value equals nothing."""
    return any(equality(value, it) is TRUE for it in elements)


def taken_from(elements, value):
    """Whether an element is the same as a value: the first such is taken out."""
    for place, it in enumerate(elements):
        if same(it, value) is TRUE:
            del elements[place]
            return True
    return False


def rough(value):
    """Something that values which are the same have in common."""
    value = bare(value)
    return len(value.elements) if isinstance(value, Many) else rank(value)


def once_each(elements):
    found, alike = [], {}
    for it in elements:
        others = alike.setdefault(rough(it), [])
        if not holds(others, it):
            others.append(it)
            found.append(it)
    return found


# ---- operators on truth values and on integers


def of_kind(kinds, meaning):
    """An operator or a function of values of these kinds: a value of another kind gives none."""
    def checked(*values):
        values = [bare(it) for it in values]
        return meaning(*values) if all(isinstance(it, kinds) for it in values) else INDETERMINATE
    return checked


def of_truth_values(meaning):
    """No value counts as unknown."""
    return of_kind((Logical, Absent), lambda *its: meaning(*map(truth, its)))


def of_integers(meaning):
    """A result that is None or out of 64 bits is none."""
    def checked(*values):
        found = meaning(*values)
        return found if found is not None and SMALLEST <= found <= GREATEST else INDETERMINATE
    return of_kind(int, checked)


def least(*values):
    return min(values, key=rank, default=TRUE)


def power(base, exponent):
    """What is past 64 bits with the exponent 64 is so with each greater one, and the others repeat themselves."""
    return None if exponent < 0 else base ** (exponent if exponent <= 64 else 64 + exponent % 2)


def of_natural(meaning):
    return of_integers(lambda dividend, divisor: meaning(dividend, divisor) if dividend >= 0 and divisor > 0 else None)


conjunction, negation = of_truth_values(least), of_truth_values(lambda it: Logical(2 - it.value))
summed = of_integers(lambda *its: sum(its))

# ---- `+`, `*` and `-` with aggregates


def plus(left, right):
    one, other = bare(left), bare(right)
    if INDETERMINATE in (one, other):
        return INDETERMINATE
    if isinstance(one, Many) or isinstance(other, Many):
        return joined(one if isinstance(one, Many) else left, other if isinstance(other, Many) else right)
    if isinstance(one, Bits) and isinstance(other, Bits):
        return Bits(one.text + other.text)
    return one + other if isinstance(one, str) and isinstance(other, str) else summed(one, other)


def joined(left, right):
    """`+` with an aggregate. To a SET on the left comes what isn't yet in it."""
    is_set = isinstance(left, Many) and left.kind == "SET"
    elements = list(elements_of(left))
    for it in elements_of(right):
        if not (is_set and holds(elements, it)):
            elements.append(it)
    return giving_kind(left, right)._replace(elements=elements)


def elements_of(value):
    return value.elements if isinstance(value, Many) else [value]


def giving_kind(left, right):
    """The operand whose kind of aggregate the result has: the left, unless it is an element, or an initialiser beside an aggregate."""
    is_left = isinstance(left, Many) and not (left.kind == INITIALISER and isinstance(right, Many))
    return left if is_left else right


def times(left, right):
    """Of two aggregates the left's elements that find an equal one left on the right."""
    left, right = bare(left), bare(right)
    if not (isinstance(left, Many) and isinstance(right, Many)):
        return of_integers(operator.mul)(left, right)
    free = list(right.elements)
    return Many("SET" if "SET" in (left.kind, right.kind) else "BAG", 1, [it for it in left.elements if taken_from(free, it)])


def minus(left, right):
    """From an aggregate the first equal one left is taken for each element on the right."""
    one, other = bare(left), bare(right)
    if other is INDETERMINATE or not isinstance(one, Many):
        return of_integers(operator.sub)(one, other)
    elements = list(one.elements)
    for it in elements_of(other):
        taken_from(elements, it)
    return giving_kind(one, other)._replace(elements=elements)


# ---- relations


def compared(left, right, meaning=equal):
    """A comparison by value: unknown with no value; none with an instance on a side, or of two kinds."""
    left, right = bare(left), bare(right)
    if INDETERMINATE in (left, right):
        return UNKNOWN
    if isinstance(left, Instance) or not are_of_one_kind(left, right):
        return INDETERMINATE
    return meaning(left, right)


def ordered(is_so, within=lambda left, right: INDETERMINATE):
    """One of `<`, `>`, `<=` and `>=`. Of two aggregates `within` decides."""
    def meaning(left, right):
        return within(left, right) if isinstance(left, Many) else logical(is_so(rank(left), rank(right)))
    return lambda left, right: compared(left, right, meaning)


def is_within(lesser, greater):
    """Whether each element of the lesser aggregate has an own equal one in the greater. LIST and ARRAY have no such order."""
    if {"LIST", "ARRAY"} & {lesser.kind, greater.kind}:
        return INDETERMINATE
    free = list(greater.elements)
    return logical(all(taken_from(free, it) for it in lesser.elements))


def has(aggregate, value, is_equal):
    """IN and VALUE_IN."""
    aggregate = bare(aggregate)
    if aggregate is INDETERMINATE:
        return UNKNOWN
    if not isinstance(aggregate, Many):
        return INDETERMINATE
    if holds(aggregate.elements, value, is_equal):
        return TRUE
    return UNKNOWN if INDETERMINATE in (value, *aggregate.elements) else FALSE


UNARY = {"NOT": negation, "+": summed, "-": of_integers(lambda it: -it)}
OPERATORS = {
    "AND": conjunction, "OR": of_truth_values(lambda *its: max(its, key=rank)),
    "XOR": of_truth_values(lambda left, right: UNKNOWN if UNKNOWN in (left, right) else logical(left is not right)),
    "+": plus, "-": minus, "*": times, "**": of_integers(power), "DIV": of_natural(operator.floordiv), "MOD": of_natural(operator.mod),
    "=": compared, "<>": lambda left, right: compared(left, right, lambda *its: negation(equal(*its))),
    ":=:": same, ":<>:": lambda left, right: negation(same(left, right)),
    "<": ordered(operator.lt), ">": ordered(operator.gt), "<=": ordered(operator.le, is_within),
    ">=": ordered(operator.ge, lambda left, right: is_within(right, left)), "IN": lambda value, many: has(many, value, same),
}


# ---- sizes, and the functions of the language but for TYPEOF and USEDIN


def size(value):
    """The size of an initialiser's result: 1, and 1 for each element that is no aggregate, and the size of each that is."""
    elements = map(bare, value.elements)
    return 1 + sum(size(it) if isinstance(it, Many) else 1 for it in elements)


def length(value):
    return len(value.text if isinstance(value, Bits) else value)


def count_of(value):
    return len(bare(value).elements) if isinstance(bare(value), Many) else 0


def high_index(aggregate):
    return aggregate.low + len(aggregate.elements) - 1


FUNCTIONS = {
    "ABS": of_integers(abs), "ODD": of_kind(int, lambda it: logical(it % 2 == 1)),
    "LENGTH": of_kind(str, length), "BLENGTH": of_kind(Bits, length), "SIZEOF": of_kind(Many, count_of),
    "LOINDEX": of_kind(Many, lambda it: it.low), "HIINDEX": of_kind(Many, high_index),
    "EXISTS": lambda it: logical(it is not INDETERMINATE), "NVL": lambda value, other: other if value is INDETERMINATE else value,
    "VALUE_IN": lambda aggregate, value: has(aggregate, value, compared),
}


def at_index(value, index):
    """`a[i]`: an element as it is, or a character or a bit."""
    value, index = bare(value), bare(index)
    if not (isinstance(value, Many) and isinstance(index, int)):
        return part_of(value, index, index)
    return value.elements[index - value.low] if value.low <= index <= high_index(value) else INDETERMINATE


def part_of(value, low, high):
    """`s[i:j]`: the characters or bits from a place to a place, counted from 1."""
    value, low, high = bare(value), bare(low), bare(high)
    if not (isinstance(value, (str, Bits)) and isinstance(low, int) and isinstance(high, int) and 1 <= low <= high <= length(value)):
        return INDETERMINATE
    return Bits(value.text[low - 1:high]) if isinstance(value, Bits) else value[low - 1:high]


def in_group(value, entity):
    return value if isinstance(value, Instance) and entity in value.types else INDETERMINATE


# ---- what is declared


def fits(schema, declared, value):
    """Whether a value, which isn't none, is of a kind that a type has. An integer fits a real."""
    end, value = schema.end(declared), bare(value)
    if isinstance(end, Select):
        return any(fits(schema, it, value) for it in end.members)
    if isinstance(end, Simple):
        return isinstance(value, SIMPLE[end.word])
    if isinstance(end, Enumeration):
        return isinstance(value, Item) and value.type in schema.names_beneath(declared)
    return isinstance(value, Many if isinstance(end, Aggregate) else Instance)


def as_declared(schema, declared, value):
    """What a value is once it is that of an attribute, a local, a parameter, a result or a constant of this type."""
    return carrying(schema, declared, value) if value is not INDETERMINATE and fits(schema, declared, value) else INDETERMINATE


def carrying(schema, declared, value):
    """A value that fits a type, with the defined type that it carries behind it: in a SELECT and in a type that is written out its own,
    and in an enumeration's own type none."""
    is_select, name = schema.is_select(declared), declared
    if is_select or declared not in schema.types:
        name = value.keyword if isinstance(value, Typed) else None
    elif isinstance(schema.types[declared].underlying, Enumeration):
        name = None
    inner = with_elements(schema, schema.end(name if is_select else declared), bare(value))
    return Typed(name, inner) if name else inner


def with_elements(schema, end, value):
    """A bare value whose elements carry what a type declares. An initialiser takes the kind of a declared aggregate."""
    if not (isinstance(end, Aggregate) and isinstance(value, Many)):
        return value
    elements = [carrying(schema, end.element, it) if it is not INDETERMINATE and fits(schema, end.element, it) else it for it in value.elements]
    if value.kind != INITIALISER or end.kind == "AGGREGATE":
        return value._replace(elements=elements)
    return Many(end.kind, end.low if end.kind == "ARRAY" else 1, once_each(elements) if end.kind == "SET" else elements)


def types_told(schema, value):
    """TYPEOF: the names of a value's types."""
    it = bare(value)
    if it is INDETERMINATE:
        return []
    names = schema.names_beneath(value.keyword) if isinstance(value, Typed) else sorted(it.types) if isinstance(it, Instance) else []
    if isinstance(it, Item) and it.type not in names:
        names.append(it.type)
    simple = [] if isinstance(it, (Instance, Item)) else [kind(it)]
    if isinstance(it, Logical):
        simple = ["LOGICAL"] if it is UNKNOWN else ["BOOLEAN", "LOGICAL"]
    elif isinstance(it, Many):
        simple = ["LIST" if it.kind == INITIALISER else it.kind]
    return [f"{schema.name}.{name}" for name in names] + simple


# ---- evaluation


class PastLimit(Exception):
    """An evaluation takes more steps or nests more bodies than it may."""


# what SELF is, and the variables by their names
Environment = namedtuple("Environment", "self_value variables")
# how a list of statements ends early
Returned = namedtuple("Returned", "value")
SKIPPED, ESCAPED = "SKIP", "ESCAPE"


class Evaluation:
    """One evaluation: its steps, and the bodies that are open. `extents` are the instances of each entity."""

    def __init__(self, schema, extents, limit=STEPS_OF_AN_EVALUATION):
        self.schema, self.extents, self.limit = schema, extents, limit
        self.steps = self.bodies = 0

    def charge(self, steps):
        self.steps += steps
        if self.steps > self.limit:
            raise PastLimit

    def charged(self, kind_of_many, elements):
        """An aggregate that costs a step for each element."""
        self.charge(len(elements))
        return Many(kind_of_many, 1, elements)

    def body(self, run, *given):
        """What a derived attribute, a constant or a function gives."""
        self.bodies += 1
        if self.bodies > NESTED_BODIES:
            raise PastLimit
        value = run(*given)
        self.bodies -= 1
        return value

    def value(self, node, environment):
        """Each node costs one step beside its parts."""
        self.charge(1)
        return EVALUATED[type(node)](self, node, environment)

    def values(self, nodes, environment):
        return [self.value(it, environment) for it in nodes]

    def is_so(self, node, environment):
        return truth(self.value(node, environment)) is TRUE

    # -- attributes

    def derived(self, derived, self_value):
        """The value of a derived attribute or a constant."""
        value = self.body(self.value, derived.expression, Environment(self_value, {}))
        return as_declared(self.schema, derived.type, value)

    def attribute(self, instance, name, near):
        """`x.a`: of the types that declare it those that are near come first, and then those that come first by their names. Of the types
        that redeclare it in DERIVE the one with most ancestors decides, and then the one that comes first by its name."""
        entities = self.schema.entities
        declaring = [it for it in instance.types if self.schema.declares(it, name)] if isinstance(instance, Instance) else []
        if not declaring:
            return INDETERMINATE
        place = (min(declaring, key=lambda it: (it not in near, it)), name)
        first = entities[place[0]]
        again = [it for it in instance.types if place in entities[it].derived_again]
        if again:
            last = min(again, key=lambda it: (-len(self.schema.line_of(it)), it))
            return self.derived(entities[last].derived_again[place], instance)
        if name in first.derived:
            return self.derived(first.derived[name], instance)
        return self.inverse(instance, first.inverse[name]) if name in first.inverse else instance.read[place]

    def users(self, instance, inverse):
        """The results of an inverse attribute: for a BAG one for each occurrence, else each user once."""
        place = (self.schema.declaring(inverse.entity, inverse.attribute)[0], inverse.attribute)
        found = [user for user, used in instance.users if used == place and inverse.entity in user.types]
        return self.charged(inverse.kind, found if inverse.kind == "BAG" else list(dict.fromkeys(found)))

    def inverse(self, instance, inverse):
        found = self.users(instance, inverse)
        if inverse.kind:
            return found
        return found.elements[0] if len(found.elements) == 1 else INDETERMINATE

    # -- operators

    def operation(self, operator, left, right):
        """Both operands are evaluated, whatever they are."""
        if operator == "IN":
            self.charge(count_of(right))
        elif operator not in ("AND", "OR", "XOR") and isinstance(bare(left), Many) and isinstance(bare(right), Many):
            self.charge(count_of(left) * count_of(right) + count_of(left) + count_of(right))
        value = OPERATORS[operator](left, right)
        if operator == "+" and isinstance(value, (str, Bits)):
            self.charge(length(value))
        return value

    def interval(self, node, environment):
        low, item, high = self.values((node.low, node.item, node.high), environment)
        return conjunction(self.operation(node.low_operator, low, item), self.operation(node.high_operator, item, high))

    def query(self, node, environment):
        source = bare(self.value(node.source, environment))
        if not isinstance(source, Many):
            return INDETERMINATE
        self.charge(len(source.elements))
        inside = lambda it: Environment(environment.self_value, {**environment.variables, node.variable: it})
        return source._replace(elements=[it for it in source.elements if self.is_so(node.condition, inside(it))])

    def initialiser(self, node, environment):
        value = Many(INITIALISER, 1, self.values(node.elements, environment))
        self.charge(size(value))
        return value

    # -- calls

    def built_in(self, node, environment):
        arguments = self.values(node.arguments, environment)
        if node.function == "TYPEOF":
            return self.charged("SET", types_told(self.schema, *arguments))
        if node.function == "USEDIN":
            return self.used_in(*arguments)
        if node.function == "VALUE_IN":
            self.charge(count_of(arguments[0]))
        return FUNCTIONS[node.function](*arguments)

    def used_in(self, instance, role):
        """The uses in a role, `SCHEMA.ENTITY.ATTRIBUTE`, or all."""
        name, role = self.schema.name, bare(role)
        if not (isinstance(instance, Instance) and isinstance(role, str)):
            return INDETERMINATE
        roles = lambda user, used: [f"{name}.{it}.{used[1]}" for it in user.types if used[0] in self.schema.line_of(it)]
        return self.charged("BAG", [user for user, used in instance.users if not role or role in roles(user, used)])

    def call(self, node, environment):
        function, arguments = self.schema.functions[node.function], self.values(node.arguments, environment)
        variables = {name: as_declared(self.schema, declared, it) for (name, declared), it in zip(function.parameters, arguments)}
        ended = self.body(self.algorithm, function, Environment(INDETERMINATE, variables))
        return as_declared(self.schema, function.result, ended.value) if isinstance(ended, Returned) else INDETERMINATE

    def algorithm(self, algorithm, environment):
        """The locals of a function or of a rule, and then its statements."""
        for names, _ in algorithm.locals:
            environment.variables.update(dict.fromkeys(names, INDETERMINATE))
        for names, local in algorithm.locals:
            if local.expression:
                value = as_declared(self.schema, local.type, self.value(local.expression, environment))
                environment.variables.update(dict.fromkeys(names, value))
        return self.run(algorithm.statements, environment)

    # -- statements: each costs one step beside its parts, and answers how it ends, if early

    def run(self, statements, environment):
        for statement in statements:
            ended = self.execute(statement, environment)
            if ended:
                return ended
        return None

    def execute(self, statement, environment):
        self.charge(1)
        return EXECUTED[type(statement)](self, statement, environment)

    def assignment(self, statement, environment):
        value = self.value(statement.value, environment)
        environment.variables[statement.name] = as_declared(self.schema, statement.type, value)

    def case_statement(self, statement, environment):
        """The first label that equals the selector decides. The comparisons cost nothing."""
        selector = self.value(statement.selector, environment)
        for labels, action in statement.actions:
            if any(compared(selector, self.value(it, environment)) is TRUE for it in labels):
                return self.execute(action, environment)
        return None if statement.otherwise is None else self.execute(statement.otherwise, environment)

    def repeat(self, statement, environment):
        """By increment the variable is known in the turns alone, where it may hide another."""
        if not statement.variable:
            return self.turns(statement, environment, itertools.repeat(None))
        first, last = (bare(it) for it in self.values((statement.first, statement.last), environment))
        step = bare(self.value(statement.step, environment)) if statement.step else 1
        if not all(isinstance(it, int) for it in (first, last, step)) or step == 0:
            return None
        hidden = {name: it for name, it in environment.variables.items() if name == statement.variable}
        ended = self.turns(statement, environment, range(first, last + (1 if step > 0 else -1), step))
        environment.variables.update(hidden)
        return ended

    def turns(self, statement, environment, values):
        """A turn tests WHILE, runs the statements, and tests UNTIL."""
        for value in values:
            if statement.variable:
                environment.variables[statement.variable] = value
            if statement.condition and not self.is_so(statement.condition, environment):
                return None
            ended = self.run(statement.statements, environment)
            if ended and ended is not SKIPPED:
                return None if ended is ESCAPED else ended
            if statement.until and self.is_so(statement.until, environment):
                return None
        return None


EVALUATED = {
    trees.Literal: lambda it, node, at: node.value,
    trees.Variable: lambda it, node, at: at.variables[node.name],
    trees.Self: lambda it, node, at: at.self_value,
    trees.Constant: lambda it, node, at: it.derived(it.schema.constants[node.name], INDETERMINATE),
    trees.Extent: lambda it, node, at: it.charged("SET", it.extents[node.entity]),
    trees.OwnAttribute: lambda it, node, at: it.attribute(at.self_value, node.name, node.near),
    trees.OfAttribute: lambda it, node, at: it.attribute(it.value(node.first, at), node.name, node.near),
    trees.OfGroup: lambda it, node, at: in_group(it.value(node.first, at), node.entity),
    trees.OfIndex: lambda it, node, at: at_index(it.value(node.first, at), it.value(node.index, at)),
    trees.OfRange: lambda it, node, at: part_of(*it.values((node.first, node.low, node.high), at)),
    trees.Unary: lambda it, node, at: UNARY[node.operator](it.value(node.operand, at)),
    trees.Binary: lambda it, node, at: it.operation(node.operator, *it.values((node.left, node.right), at)),
    trees.Interval: Evaluation.interval, trees.Query: Evaluation.query,
    trees.Initialiser: Evaluation.initialiser, trees.BuiltIn: Evaluation.built_in, trees.Call: Evaluation.call,
}
EXECUTED = {
    trees.Assignment: Evaluation.assignment, trees.Case: Evaluation.case_statement, trees.Repeat: Evaluation.repeat,
    trees.If: lambda it, statement, at: it.run(statement.statements if it.is_so(statement.condition, at) else statement.otherwise, at),
    trees.Compound: lambda it, statement, at: it.run(statement.statements, at),
    trees.Null: lambda *_: None, trees.Skip: lambda *_: SKIPPED, trees.Escape: lambda *_: ESCAPED,
    trees.Return: lambda it, statement, at: Returned(it.value(statement.value, at)),
}
