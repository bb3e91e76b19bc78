#!/usr/bin/env python3
"""Random populations of example/assembly/assembly.exp, for what is compared with the plain reading of rules.

    tests/lib/random_assembly.py [--populations N] [--instances N] [--seed S] [--entries]

evaluates N populations, and tells how often each check had each verdict, how many steps were taken, how long the longest one took,
and which entries of reports were never FALSE; with --entries also how often each entry had each verdict. What is told by the seed
alone is a population (`random_population`).

Instances are copied from the example's files, with what they refer to and some of their users, or made by the schema's declarations.
What is copied or made is at times changed for a fault. A seventh of the populations has a scene, in which evaluations come to a
limit: references go round, or a value is very long. A third of these are crowds, of which some have a hundred evaluations that come to
a limit cheaply, so that others aren't evaluated any more: NOT_RUN. No inverse attribute of [0:?] can be FALSE.
"""
import argparse
import collections
import functools
import itertools
import math
import os
import pathlib
import random
import re
import sys
import time

sys.path.insert(0, os.path.dirname(os.path.dirname(os.path.abspath(__file__))))

from lib import plain_binding, plain_files  # noqa: E402
from lib.harness import TOP  # noqa: E402
from lib.plain_binding import DERIVED, UNSET, Bits, Enumeration, Item, Reference, Select, Typed, within  # noqa: E402
from lib.plain_express import Aggregate, Simple  # noqa: E402
from lib.random_rules import ALONE, MODELS, OUTSIDE  # noqa: E402
from lib.rule_texts import binding_schema, report, tree_of  # noqa: E402

FOLDER = pathlib.Path(TOP, "example/assembly")
SCHEMA_TEXT = (FOLDER / "assembly.exp").read_text("utf-8")
SCHEMA = tree_of(SCHEMA_TEXT)
# the instance of the model OUTSIDE, and what may stand for any other one while models are filled
INSTANCE_OUTSIDE = f"#{ALONE}=APPLICATION_CONTEXT('');"


@functools.lru_cache
def example():
    """The instances of the example's files by names that no two of them share, where links lead to the instances that they name, and
    the users of each."""
    links = dict(re.findall(r'"name":(\d+),[^}]*"instance":(\d+)', (FOLDER / "requests.txt").read_text("utf-8")))
    found, users = [], collections.defaultdict(list)
    for place, name in enumerate(["part.step", "assembly.step", *sorted(FOLDER.glob("broken/*.step"))]):
        new_name = lambda it, place=place: f"#{links.get(it[1]) or int(it[1]) + 10_000 * place}"
        found += plain_files.read(re.sub(r"#(\d+)", new_name, (FOLDER / name).read_text("utf-8"))).instances
    instances = {it.name: it for it in plain_binding.bound(binding_schema(SCHEMA), found)}
    for name, it in instances.items():
        for used in plain_binding.references_of(it):
            users[used.name].append(name)
    return instances, users


# ---- which entities an instance may have

# those that are abstract, and units, which are of a sort and of a quantity
NEVER_ALONE = set("""APPLICATION_CONTEXT_ELEMENT ADDRESS ASSEMBLY_USAGE NAMED_UNIT SI_UNIT CONVERSION_BASED_UNIT CONTEXT_DEPENDENT_UNIT
    LENGTH_UNIT MASS_UNIT PLANE_ANGLE_UNIT RATIO_UNIT REPRESENTATION_ITEM GEOMETRIC_ITEM TOPOLOGICAL_ITEM CURVE SURFACE""".split())
CONTEXTS = ("GEOMETRIC_CONTEXT", "UNIT_CONTEXT", "UNCERTAINTY_CONTEXT")
TOGETHER = [
    *itertools.product(("SI_UNIT", "CONVERSION_BASED_UNIT", "CONTEXT_DEPENDENT_UNIT"),
                       ("LENGTH_UNIT", "MASS_UNIT", "PLANE_ANGLE_UNIT", "RATIO_UNIT")),
    *itertools.combinations(CONTEXTS, 2), CONTEXTS, ("NEXT_ASSEMBLY_USAGE", "QUANTIFIED_USAGE"), ("PROMISSORY_USAGE", "QUANTIFIED_USAGE"),
    ("SHAPE_REPRESENTATION_RELATIONSHIP", "TRANSFORMED_RELATIONSHIP"), ("HOLE", "HOLE_PATTERN"), ("MEASURE_ITEM", "UNCERTAINTY_MEASURE"),
    ("BREP_REPRESENTATION", "MEASURE_REPRESENTATION"), ("CARTESIAN_POINT", "VERTEX"), ("DIRECTION", "EDGE_LOOP"), ("LINE", "ORIENTED_EDGE"),
]


@functools.lru_cache
def combinations_with(entity=None):
    """The sets of entities that instances have here, or those of them with this one."""
    leaves = [*((it,) for it in SCHEMA.entities if it not in NEVER_ALONE), *TOGETHER]
    found = [frozenset().union(*map(SCHEMA.line_of, its)) for its in leaves]
    return [it for it in found if entity is None or entity in it]


# to what is mostly referred where one of these may be
USUAL = {"EDGE": ["EDGE_CURVE"], "REPRESENTATION_CONTEXT": ["GEOMETRIC_CONTEXT", "UNIT_CONTEXT"],
         "REPRESENTATION_ITEM": ["PLACEMENT", "MEASURE_ITEM"], "NAMED_UNIT": ["NAMED_UNIT", "LENGTH_UNIT", "LENGTH_UNIT"]}

# about which the rules over all instances are
RULED = ("APPLICATION_PROTOCOL", "UNIT_CONTEXT", "UNIT_CONTEXT", "NEXT_ASSEMBLY_USAGE")

# ---- values, by the name of an attribute or of a type: those that rules want, and then others

MARK = "1000100101010000"


def reals(*numbers):
    return [plain_binding.real_of(f"{it:.3f}") for it in numbers]


POOLS = {
    "COUNTRY_CODE": (["CH", "DE"], ["ch", "C", "", "C1", "CHE"]),
    "CHECKSUM": ([Bits("10" * 16)], [Bits("0" * 32), Bits("1"), Bits("1" * 33)]),
    "PICTURE": ([Bits(MARK), Bits(MARK + "0" * 8), Bits(MARK + "1")], [Bits(MARK[:8]), Bits("01" * 8), Bits("")]),
    "MONTH_NUMBER": ([1, 2, 2, 4, 12], [0, 13, -1]), "DAY_NUMBER": ([1, 28, 29, 30, 31], [0, 32]),
    "HOUR_NUMBER": ([0, 12, 23], [-1, 24]), "DIMENSION_COUNT": ([2, 3, 3], [0, 4]),
    "POSITIVE_LENGTH_MEASURE": (reals(6.6, 4), reals(0, -1)), "MASS_MEASURE": (reals(0, 1.5), reals(-0.1, 1e12)),
    "COUNT_MEASURE": ([1, 4], [0, -1, 10**12, *reals(4, 0.5)]), "LENGTH_MEASURE": (reals(0, 1, -1, 12.5), reals(1e12, 1e15)),
    "YEAR_COMPONENT": ([2024, 2023, 2000, 1900], [0, -4, 2**63 - 1]), "HOUR_OFFSET": ([0, 0, 1, 3, 12], [-1, 15, 2**62]),
    "MINUTE_OFFSET": ([0, 30, 45], [7, 60, -15]), "EXPONENT": ([1, 1, 3, -1], [0, 2**62]),
    "DIMENSIONS": ([[0, 0], [0, 0], [1, 0], [0, 1]], [[3, 0], [1], [0, 0, 1], [UNSET, 0]]),
    "SCHEMA_NAME": (["mechanical_assembly", "automotive_design"], [""]), "MAIL": (["a@b.example"], ["a", "", "@"]),
    "ROLE": (["creator", "owner", "design", "check"], ["", "anyone"]), "FILE_NAME": (["a.png", "b.x.jpg"], ["c.pdf", "d", "e."]),
    "REQUIRED_ROLES": ([["design"], ["design", "check"]], [[], ["check", "check"], ["owner", UNSET]]),
    "FURTHER_ROLES": ([["creator", "owner"], ["creator", "owner", "design", "check"]], [[], ["anyone", "anyone"]]),
    "RATIOS": ([reals(0, 0, 1), reals(1, 0, 0), reals(0, 1)], [reals(0, 0, 0), reals(1), [], [UNSET, *reals(1)]]),
    "MAGNITUDE": (reals(0, 50), reals(-1)), "DENSITY": (reals(7.81, 2.7), reals(0, 23)),
    "LINES": ([[UNSET] * 4, [UNSET, "N1", UNSET, UNSET], ["N1", "N2", "", UNSET]], [[UNSET], ["N1"] * 5]),
    "CALLOUT": (["\u23006.6 H13"], ["6.6", "", "\u2205"]),
    "INTEGER": ([0, 1, 2], [2**63 - 1, -2**63]), "REAL": (reals(0, 1, -1, 12.5), reals(1e12, 1e15)),
    "BOOLEAN": ([Item("T"), Item("F")], [Item("F")]), "LOGICAL": ([Item("T"), Item("F")], [Item("U")]),
}

# ---- scenes

# an entity of which there are many, or few where their evaluations take their time; entities to which some attributes refer so that
# they go round; and a place where values are so long: in each instance where that isn't much, else in one alone
Scene = collections.namedtuple("Scene", "crowd ways long length are_few", defaults=({}, None, 0, False))
UNITS = {"BASE": "DERIVED_UNIT", "UNIT_COMPONENT": "DERIVED_UNIT"}
# each product definition is a component of all before it, so that there are very many ways up
LADDER = Scene("PRODUCT_DEFINITION")
# each product definition has two evaluations that come to a limit
NUMBERS = Scene("PRODUCT_DEFINITION", {}, "PRODUCT.ID", 100_000)
SCENES = [
    LADDER, NUMBERS, Scene("PRODUCT_CATEGORY", {"PARENT": "PRODUCT_CATEGORY"}), Scene("EDGE_LOOP", {"ELEMENT": "ORIENTED_EDGE"}),
    Scene("CONVERSION_BASED_UNIT", UNITS), Scene("MEASURE_WITH_UNIT", UNITS), Scene("PLACEMENT", {"AXIS": "PLACEMENT"}, are_few=True),
    Scene("APPROVAL", {}, "ROLES", 450), Scene("SPARE_KIT", {}, "CONTENTS", 450), Scene("PLACEMENT", {}, "RATIOS", 450),
    Scene("PERSON", {}, "FIRST_NAME", 100_000),
]
LONG_SCENES = [Scene(entity, {}, place, length, True) for entity, place, length in (
    ("ORGANIZATIONAL_ADDRESS", "MAIL", 30_000), ("ORGANIZATIONAL_ADDRESS", "LINES", 30_000), ("DOCUMENT_FILE", "FILE_NAME", 30_000),
    ("DIRECTION", "RATIOS", 51_000), ("HOLE_PATTERN", "HOLES", 26_000), ("UNIT_CONTEXT", "UNITS", 20_000),
    ("BREP_REPRESENTATION", "REPRESENTATION.ITEMS", 10_000), ("MEASURE_REPRESENTATION", "REPRESENTATION.ITEMS", 20_000),
    ("EDGE_LOOP", "EDGES", 10_000), ("FACE_SURFACE", "BOUNDS", 20_000), ("MEASURE_WITH_UNIT", "DERIVED_UNIT.ELEMENTS", 10_000))]
LONGEST_SCENES = [Scene("SPARE_KIT", {}, "CONTENTS", 201_000, True), Scene("TRANSFORMED_RELATIONSHIP", {}, "REPRESENTATION.ITEMS", 201_000, True)]

# ---- populations


def renamed(value, names):
    """A value whose references are by other names."""
    if isinstance(value, list):
        return [renamed(it, names) for it in value]
    return Reference(names[value.name]) if isinstance(value, Reference) else value


class Population:
    """Random instances in two models. How often values have faults is chosen anew for each population, and so is how often something
    new is referred to where there already is something."""

    def __init__(self, seed, most):
        self.random = random.Random(seed)
        self.faults, self.fresh = self.random.choice([0, 0, 0.02, 0.1, 0.3]), self.random.choice([0.1, 0.5])
        words = self.random.choice([4, 1000])
        self.pools = {**POOLS, "STRING": ([*(f"N{it}" for it in range(words)), "it's", "\u00d6l"], ["", "n" * 61]),
                      "IDENTIFIER": ([*(f"P{it}" for it in range(words)), "x" * 40], ["", "x" * 41])}
        self.scene, self.most, self.longs = Scene(None), most, 0
        self.few = self.random.sample(combinations_with(), 4) if self.happens(0.4) else combinations_with()
        self.has_chains = self.happens(0.5)
        self.usual = {it: self.random.choice(its) for it, its in USUAL.items()}
        # the types of each instance, its values by their places, what is used at which, and those that have no values yet, with those
        # that are given
        self.types, self.values, self.used, self.waiting = {}, {}, set(), []
        if self.happens(1 / 7):
            self.set_scene(self.random.choice(3 * SCENES + 2 * LONG_SCENES + LONGEST_SCENES))
        else:
            self.copy(self.random.choice([0, 0, most // 2, most - len(RULED)]))
            for entity in RULED if self.happens(0.2) else ():
                self.add(self.random.choice(combinations_with(entity)))
        # room is left for what others need
        self.fill_up(self.random.choice([0, 5, most // 3, 2 * most // 3, 2 * most // 3]))

    def happens(self, probability):
        return self.random.random() < probability

    def set_scene(self, scene):
        """A crowd with what it refers to, and some others."""
        most, self.scene, self.longs = self.most, scene, 0 if not scene.long else 1 if scene.length > 500 else 1000
        is_great = scene in (LADDER, NUMBERS) or not scene.are_few and self.happens(0.35)
        if is_great:
            self.fresh, self.faults = 0.02, min(self.faults, 0.02)
        if scene is LADDER:
            names = [self.add({"PRODUCT_DEFINITION"}) for _ in range(min(14, math.isqrt(2 * most) - 1))]
            for above, below in itertools.combinations(map(Reference, names), 2):
                places = [("PRODUCT_DEFINITION_RELATIONSHIP", it) for it in ("RELATING_DEFINITION", "RELATED_DEFINITION")]
                self.add(SCHEMA.line_of("NEXT_ASSEMBLY_USAGE"), dict(zip(places, (above, below))))
        else:
            for _ in range(8 if scene.are_few else 7 * most // 8 if is_great else most // 2):
                self.add(self.random.choice(combinations_with(scene.crowd)))
        self.fill_up(0)
        self.fill_up(most if is_great else 2 * most // 3)

    def copy(self, count):
        """Instances of the example, with what they refer to and some of their users."""
        instances, users = example()
        waiting, found = [self.random.choice([*instances])], []
        while waiting and len(found) < count:
            it = waiting.pop(0)
            if it not in found:
                found.append(it)
                waiting += [used.name for used in plain_binding.references_of(instances[it])]
                waiting += [user for user in users[it] if self.happens(0.3)]
        names = {it: place for place, it in enumerate(found, 1)}
        for it in map(instances.get, found):
            given = {(entity.upper(), attribute.upper()): renamed(value, names) for (entity, attribute), value in it.values.items()
                     if all(used.name in names for used in within(value) if isinstance(used, Reference))}
            self.add({it.upper() for it in it.types}, given)

    def add(self, types, given=None):
        """A new instance: its values come later."""
        name = len(self.types) + 1
        self.types[name] = frozenset(types)
        self.waiting.append((name, given or {}))
        return name

    def fill_up(self, count):
        """Instances, until there are as many, and the values of all."""
        while self.waiting or len(self.types) < count:
            if not self.waiting and self.values and self.happens(0.1):
                twin = self.random.choice([*self.values])
                self.add(self.types[twin], self.values[twin])
            elif not self.waiting:
                self.add(self.random.choice(self.few))
            self.fill(*self.waiting.pop())

    def fill(self, name, given):
        """The values of an instance, and mostly a user where an inverse attribute asks for one."""
        types = self.types[name]
        self.values[name] = values = {}
        derived = {place for it in types for place in SCHEMA.entities[it].derived_again}
        for entity in sorted(types):
            for attribute, declared in SCHEMA.entities[entity].explicit.items():
                place = (entity, attribute)
                is_given = place in given and not self.happens(self.faults / 2)
                values[place] = DERIVED if place in derived else given[place] if is_given else self.value_at(name, place, declared)
                self.used.update((it.name, place) for it in within(values[place]) if isinstance(it, Reference))
        for inverse in (it for entity in sorted(types) for it in SCHEMA.entities[entity].inverse.values()):
            place = (SCHEMA.declaring(inverse.entity, inverse.attribute)[0], inverse.attribute)
            if inverse.low != 0 and (name, place) not in self.used and len(self.types) < self.most and self.happens(0.8 - self.faults):
                is_many = isinstance(SCHEMA.end(SCHEMA.entities[place[0]].explicit[inverse.attribute].type), Aggregate)
                used = [Reference(name)] if is_many else Reference(name)
                self.add(self.random.choice(combinations_with(inverse.entity)), {place: used})

    # -- values

    def value_at(self, name, place, declared):
        """A value of an attribute, by the type that a subtype redeclares it by, if one does. Categories stand in chains, or anyhow."""
        again = [SCHEMA.entities[it].redeclared[place] for it in sorted(self.types[name]) if place in SCHEMA.entities[it].redeclared]
        entity, attribute = place
        if attribute == "PARENT" and self.has_chains:
            return Reference(name - 1) if entity in self.types.get(name - 1, ()) else UNSET
        if attribute in self.scene.ways:
            return self.reference(self.scene.ways[attribute])
        if self.happens(0.3 if declared.is_optional else self.faults / 2):
            return UNSET
        value = self.pooled(attribute) if attribute in self.pools else self.value((again or [declared])[0].type)
        if not (value and self.longs and f"{entity}.{attribute}".endswith(self.scene.long)):
            return value
        self.longs -= 1
        if isinstance(value, list) and attribute != "LINES":
            # many elements of no value would take the plain reading too long, but for an ARRAY's
            value = [it for it in value if it not in (UNSET, Reference(ALONE))]
        return value[:1] * self.scene.length

    def pooled(self, name):
        good, bad = self.pools[name]
        return self.random.choice(bad if self.happens(self.faults) else good)

    def value(self, declared):
        name = next((it for it in SCHEMA.names_beneath(declared) if it in self.pools), None)
        end = SCHEMA.end(declared)
        if name:
            return self.pooled(name)
        if isinstance(end, Select):
            member = self.random.choice(SCHEMA.select_members(declared))
            value = self.value(member)
            return value if member in SCHEMA.entities or SCHEMA.is_select(member) else Typed(member.lower(), value)
        if isinstance(end, Aggregate):
            return self.elements(end)
        if isinstance(end, Enumeration):
            return Item(self.random.choice(end.items))
        if isinstance(end, Simple):
            return self.pooled(end.word)
        return self.reference(self.usual[end] if end in USUAL and self.happens(0.8) else end)

    def elements(self, end):
        high = end.low + 2 if end.high is None else end.high
        count = high if end.kind == "ARRAY" else self.random.randint(end.low, high)
        if self.happens(self.faults / 2):
            count = self.random.choice([0, high + 1])
        found = []
        for _ in range(count):
            value = UNSET if self.happens(0.3 if end.is_optional else self.faults / 4) else self.value(end.element)
            if value not in found or end.kind in ("ARRAY", "BAG") or self.happens(0.1):
                found.append(value)
        return found

    def reference(self, entity):
        """A reference to an instance of an entity, which may be new, or to any, or to one that isn't in the population."""
        fitting, is_full = [name for name, types in self.types.items() if entity in types], len(self.types) >= self.most
        if self.happens(self.faults / 3) or not fitting and is_full:
            return Reference(self.random.choice([*self.types, ALONE]))
        if fitting and (is_full or not self.happens(self.fresh)):
            return Reference(self.random.choice(fitting))
        return Reference(self.add(self.random.choice(combinations_with(entity))))


def random_population(seed, most=60):
    """Models as rule_texts takes them: owner, name, instances as a file has them, and links, of which some lead to the model OUTSIDE."""
    made = Population(seed, most)
    lines, links = {it: "" for it in MODELS}, {it: {} for it in MODELS}
    share = made.random.choice([0, 0.3])
    places = {name: MODELS[made.happens(share)] for name in made.types}
    for name, types in made.types.items():
        values = {(entity.lower(), attribute.lower()): it for (entity, attribute), it in made.values[name].items()}
        bound = plain_binding.Bound(name, {it.lower() for it in types}, values)
        for used in sorted({it.name for it in plain_binding.references_of(bound)}):
            target = places.get(used, OUTSIDE)
            if target != places[name]:
                links[places[name]][used] = (used, *target, used)
        lines[places[name]] += plain_binding.instance_text(binding_schema(SCHEMA), bound) + "\n"
    return [(*it, lines[it], list(links[it].values())) for it in MODELS]


# ---- counting


def main(words):
    parser = argparse.ArgumentParser(prog="tests/lib/random_assembly.py", allow_abbrev=False)
    for name, number in (("populations", 100), ("instances", 60), ("seed", 1)):
        parser.add_argument(f"--{name}", type=int, default=number)
    parser.add_argument("--entries", action="store_true", help="tells how often each entry had each verdict, too")
    given = parser.parse_args(words)
    checks, entries, longest, steps, begin = collections.Counter(), collections.Counter(), (0, None), 0, time.process_time()
    for number in range(given.populations):
        seed = f"{given.seed} {number}"
        models = random_population(seed, given.instances)
        before = time.process_time()
        found = report(SCHEMA_TEXT, models)
        longest = max(longest, (time.process_time() - before, seed))
        steps += found["steps"]
        for it in found["checks"]:
            checks[it["check"], it["verdict"]] += 1
            entries[" ".join(it[key] for key in ("check", "of", "rule") if key in it), it["verdict"]] += 1
    for (name, verdict), count in sorted(checks.items()) + sorted(entries.items()) * given.entries:
        print(f"{name:40} {verdict:8} {count:8}")
    print("never FALSE:", *(f"{name};" for name in sorted({it for it, _ in entries}) if not entries[name, "FALSE"]))
    print(f"{given.populations} populations, {steps} steps, {time.process_time() - begin:.1f} s, at most {longest[0]:.2f} s for {longest[1]!r}")


if __name__ == "__main__":
    main(sys.argv[1:])
