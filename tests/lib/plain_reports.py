"""The report of a population by the rules of its schema, in Python: each check of each rule, its verdict and its culprits, and the
steps. It is written from the description alone, and never from the program.

A population is made of models as plain_model has them. Each check is a filter of its instances or of their values, in the order
of the population; what is evaluated is told by plain_rules.
"""
from lib.plain_binding import DERIVED, UNSET, Enumeration, Reference, Typed
from lib.plain_binding import Item as Word
from lib.plain_express import INDETERMINATE, OUTSIDE, Aggregate, Item, Logical, Simple
from lib.plain_rules import (
    LIMIT, NOT_RUN, SIMPLE, STEPS_OF_AN_EVALUATION, TRUE, Environment, Evaluation, Instance, Many, PastLimit, as_declared, bare, deep,
    fits, length, logical, once_each, parts, rough, same, truth,
)

STEPS_BEFORE_THE_LAST = 19_800_000
LOGICAL_WORDS = {"T": Logical.TRUE, "F": Logical.FALSE, "U": Logical.UNKNOWN}

# ---- populations


def attributes_of(schema, types):
    """The explicit attributes of an instance that aren't derived, in the order in which they are written: by its leaf, where it has
    one alone, else type by type in the order of their names."""
    leaves = [it for it in types if not any(it in schema.entities[other].supertypes for other in types)]
    line = schema.line_of(leaves[0]) if len(leaves) == 1 else sorted(types)
    derived = {place for it in types for place in schema.entities[it].derived_again}
    return [(entity, name) for entity in line for name in schema.entities[entity].explicit if (entity, name) not in derived]


def written(schema, declared, value, target):
    """A value of a file by its type; `target` gives what a reference is."""
    if value in (UNSET, DERIVED):
        return INDETERMINATE
    if isinstance(value, Reference):
        return target(value.name)
    if isinstance(value, Typed):
        keyword = value.keyword.upper()
        return Typed(keyword, written(schema, keyword, value.value, target))
    end = schema.end(declared)
    if isinstance(value, list):
        low = end.low if end.kind == "ARRAY" else 1
        return Many(end.kind, low, [written(schema, end.element, it, target) for it in value])
    if not isinstance(value, Word):
        return value
    if isinstance(end, Enumeration):
        return Item(schema.names_beneath(declared)[-1], end.items.index(value.word), value.word)
    return LOGICAL_WORDS[value.word]


def read(value):
    """A written value as it is read: a reference that leaves the population is none."""
    if isinstance(value, Typed):
        return Typed(value.keyword, read(value.value))
    if isinstance(value, Many):
        return value._replace(elements=[read(it) for it in value.elements])
    return INDETERMINATE if value is OUTSIDE else value


def population_of(schema, models):
    """The instances of some models of a schema, in order of their owners, names and numbers."""
    models = sorted(models, key=lambda it: (it.owner, it.name))
    bound = {(it.owner, it.name, one.name): one for it in models for one in sorted(it.instances, key=lambda one: one.name)}
    found = {place: Instance(place, frozenset(it.upper() for it in one.types)) for place, one in bound.items()}
    links = {(it.owner, it.name, link.name): (link.owner, link.model, link.instance) for it in models for link in it.links}
    for place, instance in found.items():
        target = lambda name: found.get(links.get((*place[:2], name), (*place[:2], name)), OUTSIDE)
        for entity, name in attributes_of(schema, instance.types):
            declared = schema.entities[entity].explicit[name].type
            value = written(schema, declared, bound[place].values[entity.lower(), name.lower()], target)
            instance.written[entity, name] = value
            instance.read[entity, name] = as_declared(schema, declared, read(value))
    for user in found.values():
        for attribute, value in user.written.items():
            for used in parts(value):
                if isinstance(used, Instance):
                    used.users.append((user, attribute))
    return list(found.values())


def extents_of(schema, population):
    """The instances of each entity."""
    return {name: [it for it in population if name in it.types] for name in schema.entities}


# ---- SELECTs


def members_at_any_depth(schema, name):
    """The members of a SELECT that are none themselves, with those of the SELECTs among its members."""
    members = schema.select_members(name)
    return set().union(*(members_at_any_depth(schema, it) if schema.is_select(it) else {it} for it in members))


def selects_to(schema, name, wanted):
    """The SELECTs on any way from a SELECT to one of the wanted members, that itself included; none where no way leads."""
    members = schema.select_members(name)
    further = set().union(*(selects_to(schema, it, wanted) for it in members if schema.is_select(it)))
    return further | {name} if further or wanted.intersection(members) else set()


# ---- what a declaration asks of a value; a redeclaration may ask one of another shape


def asked(schema, declared, value):
    """The type by which a value is asked, and the bare value: in a SELECT the one that it is written under, or none."""
    if not schema.is_select(declared):
        return schema.end(declared), bare(value)
    is_member = isinstance(value, Typed) and value.keyword in members_at_any_depth(schema, declared)
    return (schema.end(value.keyword), value.value) if is_member else (None, value)


def is_within(schema, declared, value, is_fault):
    """Whether a fault is found in a value, or in one that it holds, by the type by which each is asked."""
    end, value = asked(schema, declared, value)
    if isinstance(end, Aggregate) and isinstance(value, Many):
        return is_fault(end, value) or any(is_within(schema, end.element, it, is_fault) for it in value.elements)
    return isinstance(end, Simple) and is_fault(end, value)


def is_unset(end, value):
    """Whether an element isn't set that has to be."""
    return isinstance(end, Aggregate) and not end.is_optional and any(it is INDETERMINATE for it in value.elements)


def is_out_of_bounds(end, value):
    """Whether a width or a bound doesn't hold, or something stands twice where it may not: in a SET, or in what is UNIQUE."""
    if isinstance(end, Aggregate):
        elements = read(value).elements
        return breaks_count(end, len(elements)) or (end.kind == "SET" or end.is_unique) and len(once_each(elements)) < len(elements)
    if end.width is None or not isinstance(value, SIMPLE[end.word]):
        return False
    return length(value) > end.width or end.is_fixed and length(value) < end.width


def breaks_count(bounds, count):
    """Of BAG, LIST and SET, and of an inverse attribute, the bounds are those of the count; an ARRAY asks for all its indexes."""
    if bounds.kind == "ARRAY":
        return count != bounds.high - bounds.low + 1
    return count < bounds.low or bounds.high is not None and count > bounds.high


def is_astray(schema, declared, value):
    """Whether a reference leaves the population, or has no place in a type."""
    if value is OUTSIDE:
        return True
    if isinstance(value, Instance):
        end = schema.end(declared)
        allowed = members_at_any_depth(schema, declared) if schema.is_select(declared) else {end}
        return not allowed & value.types
    end, inner = asked(schema, declared, value)
    if isinstance(end, Aggregate) and isinstance(inner, Many):
        return any(is_astray(schema, end.element, it) for it in inner.elements)
    return any(it is OUTSIDE or isinstance(it, Instance) for it in parts(inner))


def rules_at(schema, declared, written_value, read_value):
    """The defined types by which a declaration has a value's rules tried, and the type that its elements are declared by, or None."""
    between, underlying = set(), declared
    if schema.is_select(declared):
        is_instance, keyword = isinstance(written_value, Instance), written_value.keyword if isinstance(written_value, Typed) else None
        between, underlying = selects_to(schema, declared, written_value.types if is_instance else {keyword}), keyword
        if is_instance or not between:
            return {declared, *between}, None
    elif not fits(schema, declared, read_value):
        return between, None
    end = schema.end(underlying)
    return between.union(schema.names_beneath(underlying)), end.element if isinstance(end, Aggregate) else None


def values_tried(schema, declared_types, written_value, read_value):
    """A value and those in it, from the left, each behind the one that holds it and with the types whose rules are tried on it."""
    if read_value is INDETERMINATE:
        return
    asked_by = [rules_at(schema, it, written_value, read_value) for it in declared_types]
    yield read_value, set().union(*(names for names, _ in asked_by))
    elements = [it for _, it in asked_by if it]
    if isinstance(bare(read_value), Many) and elements:
        for pair in zip(bare(written_value).elements, bare(read_value).elements):
            yield from values_tried(schema, elements, *pair)


# ---- the report

VERDICTS = ("FALSE", "LIMIT", "NOT_RUN", "UNKNOWN")
FAULTS = {
    "unset": lambda schema, it, value: value is INDETERMINATE and not it.is_optional or is_within(schema, it.type, value, is_unset),
    "bounds": lambda schema, it, value: is_within(schema, it.type, value, is_out_of_bounds),
    "reference": lambda schema, it, value: is_astray(schema, it.type, value),
}


class Report:
    """The checks of a population, and the steps that they took so far."""

    def __init__(self, schema, population):
        self.schema, self.population, self.extents = schema, population, extents_of(schema, population)
        self.steps, self.checks = 0, []

    def make(self):
        types, entities = self.schema.types, self.schema.entities
        owners = {name: [(it, [*it.place]) for it in its] for name, its in self.extents.items()}
        self.faults_of_attributes()
        self.each_rule("type", types, lambda it: it.rules, self.verdicts(value_of, self.tried()))
        self.each_rule("where", entities, lambda it: it.rules, self.verdicts(value_of, owners))
        self.each_rule("unique", entities, lambda it: it.unique, self.unique)
        self.each_rule("inverse", entities, lambda it: it.inverse.items(), self.verdicts(users_hold, owners))
        self.global_rules()
        return {"checks": self.checks, "steps": self.steps}

    def evaluated(self, run, *given):
        """What an evaluation comes to: a value, or LIMIT, or NOT_RUN where those before it took too many steps."""
        if self.steps > STEPS_BEFORE_THE_LAST:
            return NOT_RUN
        evaluation = Evaluation(self.schema, self.extents)
        try:
            value = run(evaluation, *given)
        except PastLimit:
            self.steps += STEPS_OF_AN_EVALUATION
            return LIMIT
        self.steps += evaluation.steps
        return value

    def verdict(self, run, *given):
        """What the evaluation of a condition says."""
        value = self.evaluated(run, *given)
        return value.name if value in (LIMIT, NOT_RUN) else truth(value).name

    def enter(self, check, culprits, **named):
        """An entry with culprits, each behind its verdict. Of equal ones in a list the first alone is told."""
        lists = {}
        for verdict, culprit in culprits:
            if verdict != "TRUE":
                lists.setdefault(verdict, {})[tuple(culprit)] = culprit
        first = next((it for it in VERDICTS if it in lists), "TRUE")
        self.checks.append({"check": check, **named, "verdict": first, **{it.lower(): list(lists[it].values()) for it in lists}})

    # -- the checks without steps

    def attributes(self):
        """The attributes of all instances that aren't derived: how each is declared, and redeclared by types of the instance, its value as
        it is written and as it is read, and what is told of it as a culprit."""
        entities = self.schema.entities
        for instance in self.population:
            for place, value in instance.written.items():
                again = [entities[it].redeclared.get(place) for it in sorted(instance.types)]
                declarations = [entities[place[0]].explicit[place[1]], *(it for it in again if it)]
                yield declarations, value, instance.read[place], [*instance.place, ".".join(place)]

    def faults_of_attributes(self):
        for check, is_fault in FAULTS.items():
            culprits = []
            for declarations, value, _, culprit in self.attributes():
                if any(is_fault(self.schema, it, value) for it in declarations):
                    culprits.append(("FALSE", culprit))
            self.enter(check, culprits)

    # -- the checks by evaluations

    def each_rule(self, check, declared, rules, culprits):
        """The entries of the rules, or what else is checked, of what is declared, by its names."""
        for name, it in sorted(declared.items()):
            for label, rule in rules(it):
                self.enter(check, culprits(name, rule), of=name, rule=label)

    def verdicts(self, run, tried):
        """What gives the verdicts of a rule on all that it is tried on, which stands by the name of the rule's owner."""
        return lambda name, rule: [(self.verdict(run, rule, it), culprit) for it, culprit in tried.get(name, [])]

    def tried(self):
        """The values on which the rules of each defined type are tried: those of attributes that are declared, or written, by it."""
        tried = {}
        for declarations, *values, culprit in self.attributes():
            for value, names in values_tried(self.schema, [it.type for it in declarations], *values):
                for name in names:
                    tried.setdefault(name, []).append((value, culprit))
        return tried

    def unique(self, name, attributes):
        """Rows of values that are the same. One with no value isn't compared, nor one that isn't whole, which is told as such. Each
        attribute costs a step beside its body or its results."""
        rows = [(it, [self.evaluated(value_of, one, it) for one in attributes]) for it in self.extents[name]]
        alike, culprits = {}, []
        for it, row in rows:
            culprits += [(outcome.name, [*it.place]) for outcome in (LIMIT, NOT_RUN) if outcome in row]
            if not {INDETERMINATE, LIMIT, NOT_RUN}.intersection(map(rough, row)):
                alike.setdefault((*map(rough, row),), []).append((it, row))
        are_same = lambda row, others: all(same(*its) is TRUE for its in zip(row, others))
        agree = {it for its in alike.values() for it, row in its if any(it is not other and are_same(row, others) for other, others in its)}
        return culprits + [("FALSE", [*it.place]) for it, _ in rows if it in agree]

    def global_rules(self):
        """A rule's locals and statements are run before each of its conditions."""
        for name, rule in sorted(self.schema.rules.items()):
            for label, expression in rule.rules:
                verdict = self.verdict(outcome_of_rule, rule, expression)
                self.checks.append({"check": "rule", "of": name, "rule": label, "verdict": verdict})


def value_of(evaluation, expression, self_value):
    return evaluation.value(expression, Environment(self_value, {}))


def users_hold(evaluation, inverse, instance):
    """Whether the count of users is what it has to be: one, where the attribute is no aggregate."""
    evaluation.charge(1)
    return logical(not breaks_count(inverse, len(evaluation.users(instance, inverse).elements)))


def outcome_of_rule(evaluation, rule, expression):
    environment = Environment(INDETERMINATE, {})
    evaluation.algorithm(rule, environment)
    return evaluation.value(expression, environment)


def report_of(schema, models):
    """The report of the population of some models, by what plain_express reads of their schema."""
    return deep(Report(schema, population_of(schema, models)).make)
