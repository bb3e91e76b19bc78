#!/usr/bin/env python3
"""Reckons the report of example/assembly's group of models, and compares it with the committed one, byte for byte.

    tests/assembly_count.py [PROGRAM]

The program isn't run: this says whether the file is right that its answer to `validate` is compared with. Each rule of the schema is
written out in lib/assembly_rules.py, with the steps that it takes, and reports/GREAT.md tells of each why it holds of these models, or not.
The last line is 'assembly count: N passed, M failed', which counts entries of the report, and the status is 0 only if none failed.
"""
import collections
import itertools
import json
import os
import re
import sys

from lib import assembly_rules as rules
from lib.assembly_files import Written, population, shape_faults

FOLDER = os.path.join(os.path.dirname(os.path.dirname(os.path.abspath(__file__))), "example/assembly")
REPORTS = os.path.join(FOLDER, "reports")

# how many steps an evaluation and a request may take, and how many the rules of this schema may take for an instance
LIMIT, ALL, EACH = 200_000, 19_800_000, 80

VALUE = "MEASURE_WITH_UNIT.VALUE_COMPONENT"
# The rules of types, by name, and the attributes whose values they are about. A value in a SELECT is of the type that it is written
# under, and of the SELECT itself.
OF_TYPES = [
    ("COUNTRY_CODE", "WR1", rules.country_code_wr1, ["ADDRESS.COUNTRY"]),
    ("COUNT_MEASURE", "WR1", rules.count_measure_wr1, [VALUE]),
    ("DAY_NUMBER", "WR1", rules.day_number_wr1, ["CALENDAR_DATE.DAY_COMPONENT"]),
    ("DIMENSION_COUNT", "WR1", rules.dimension_count_wr1, ["GEOMETRIC_CONTEXT.DIMENSION"]),
    ("HOUR_NUMBER", "WR1", rules.hour_number_wr1, ["DATE_AND_TIME.HOUR"]),
    ("IDENTIFIER", "WR1", rules.identifier_wr1, [
        "PRODUCT.ID", "PRODUCT_VERSION.ID", "PRODUCT_DEFINITION.ID", "PRODUCT_DEFINITION_RELATIONSHIP.ID", "ASSEMBLY_USAGE.DESIGNATOR", "PERSON.ID",
        "ORGANIZATION.ID", "DOCUMENT.ID", "MATERIAL.ID"]),
    ("MASS_MEASURE", "WR1", rules.mass_measure_wr1, [VALUE]),
    ("MEASURE_VALUE", "WR1", rules.measure_value_wr1, [VALUE]),
    ("MONTH_NUMBER", "WR1", rules.month_number_wr1, ["CALENDAR_DATE.MONTH_COMPONENT"]),
    ("PICTURE", "WR1", rules.picture_wr1, ["DOCUMENT_FILE.PREVIEW"]),
    ("PICTURE", "WR2", rules.picture_wr2, ["DOCUMENT_FILE.PREVIEW"]),
    ("POSITIVE_LENGTH_MEASURE", "WR1", rules.positive_length_measure_wr1, ["CIRCLE.RADIUS", "CYLINDRICAL_SURFACE.RADIUS", "HOLE.DIAMETER", VALUE]),
]

OF_ENTITIES = [
    ("ADDRESS", "WR1", rules.address_wr1),
    ("ADDRESS", "WR2", rules.address_wr2),
    ("APPROVAL", "WR1", rules.approval_wr1),
    ("APPROVAL", "WR2", rules.approval_wr2),
    ("BREP_REPRESENTATION", "WR1", rules.brep_representation_wr1),
    ("CALENDAR_DATE", "WR1", rules.calendar_date_wr1),
    ("CONVERSION_BASED_UNIT", "WR1", rules.conversion_based_unit_wr1),
    ("DATE_AND_TIME", "WR1", rules.date_and_time_wr1),
    ("DIRECTION", "WR1", rules.direction_wr1),
    ("DOCUMENT_FILE", "WR1", rules.document_file_wr1),
    ("DOCUMENT_FILE", "WR2", rules.document_file_wr2),
    ("EDGE_CURVE", "WR1", rules.edge_curve_wr1),
    ("EDGE_LOOP", "WR1", rules.edge_loop_wr1),
    ("FACE", "WR1", rules.face_wr1),
    ("FACE_SURFACE", "WR1", rules.face_surface_wr1),
    ("HOLE", "WR1", rules.hole_wr1),
    ("HOLE", "WR2", rules.hole_wr2),
    ("HOLE_PATTERN", "WR1", rules.hole_pattern_wr1),
    ("HOLE_PATTERN", "WR2", rules.hole_pattern_wr2),
    ("KIT", "WR1", rules.kit_wr1),
    ("LENGTH_UNIT", "WR1", rules.unit_of(rules.OF_LENGTH)),
    ("MASS_UNIT", "WR1", rules.unit_of(rules.OF_MASS)),
    ("MATERIAL", "WR1", rules.material_wr1),
    ("MEASURE_REPRESENTATION", "WR1", rules.measure_representation_wr1),
    ("MEASURE_WITH_UNIT", "WR1", rules.measure_with_unit_wr1),
    ("ORIENTED_EDGE", "WR1", rules.oriented_edge_wr1),
    ("PERSON", "WR1", rules.person_wr1),
    ("PERSON", "WR2", rules.person_wr2),
    ("PERSON_AND_ORGANIZATION_ASSIGNMENT", "#1", rules.person_and_organization_assignment_1),
    ("PLACED_COMPONENT", "WR1", rules.placed_component_wr1),
    ("PLACEMENT", "WR1", rules.placement_wr1),
    ("PLACEMENT", "WR2", rules.placement_wr2),
    ("PLANE_ANGLE_UNIT", "WR1", rules.unit_of(rules.DIMENSIONLESS)),
    ("PRODUCT_CATEGORY", "WR1", rules.product_category_wr1),
    ("PRODUCT_DEFINITION", "WR1", rules.product_definition_wr1),
    ("PRODUCT_DEFINITION", "WR2", rules.product_definition_wr2),
    ("PRODUCT_DEFINITION_RELATIONSHIP", "WR1", rules.product_definition_relationship_wr1),
    ("PRODUCT_VERSION", "WR1", rules.product_version_wr1),
    ("PRODUCT_VERSION_WITH_SOURCE", "WR1", rules.product_version_with_source_wr1),
    ("QUANTIFIED_USAGE", "WR1", rules.quantified_usage_wr1),
    ("RATIO_UNIT", "WR1", rules.unit_of(rules.DIMENSIONLESS)),
    ("REPRESENTATION_RELATIONSHIP", "WR1", rules.representation_relationship_wr1),
    ("SHAPE_REPRESENTATION", "WR1", rules.shape_representation_wr1),
    ("SI_UNIT", "WR1", rules.si_unit_wr1),
    ("SPARE_KIT", "WR1", rules.spare_kit_wr1),
    ("TIME_OFFSET", "WR1", rules.time_offset_wr1),
    ("TIME_OFFSET", "WR2", rules.time_offset_wr2),
    ("TIME_OFFSET", "WR3", rules.time_offset_wr3),
    ("TRANSFORMED_RELATIONSHIP", "WR1", rules.transformed_relationship_wr1),
    ("UNIT_CONTEXT", "WR1", rules.unit_context_wr1),
    ("VECTOR", "WR1", rules.vector_wr1),
]

# The attributes that are unique together. A derived one is a function: its name takes a step, and its body.
UNIQUE = [
    ("APPROVAL_SIGNATURE", "UR1", ["APPROVAL_SIGNATURE.SIGNER", "APPROVAL_SIGNATURE.ROLE", "APPROVAL_SIGNATURE.SIGNED"]),
    ("ASSEMBLY_USAGE", "UR1", ["ASSEMBLY_USAGE.DESIGNATOR", "PRODUCT_DEFINITION_RELATIONSHIP.RELATING_DEFINITION"]),
    ("DOCUMENT", "UR1", ["DOCUMENT.ID", "DOCUMENT.KIND"]),
    ("MATERIAL", "UR1", ["MATERIAL.ID"]),
    ("ORGANIZATION", "#1", ["ORGANIZATION.ID"]),
    ("PERSON", "UR1", ["PERSON.ID"]),
    ("PERSON_AND_ORGANIZATION", "UR1", ["PERSON_AND_ORGANIZATION.THE_PERSON", "PERSON_AND_ORGANIZATION.THE_ORGANIZATION"]),
    ("PLACED_COMPONENT", "UR1", ["PLACED_COMPONENT.PLACED"]),
    ("PRODUCT", "UR1", ["PRODUCT.ID"]),
    ("PRODUCT_CATEGORY", "UR1", ["PRODUCT_CATEGORY.NAME", "PRODUCT_CATEGORY.PARENT"]),
    ("PRODUCT_DEFINITION", "UR1", [rules.designation, "PRODUCT_DEFINITION.ID"]),
    ("PRODUCT_DEFINITION_SHAPE", "UR1", ["PROPERTY_DEFINITION.DEFINITION"]),
    ("PRODUCT_VERSION", "UR1", ["PRODUCT_VERSION.ID", "PRODUCT_VERSION.OF_PRODUCT"]),
]

GLOBAL = [
    ("ONE_ASSEMBLY", "WR1", rules.one_assembly_wr1),
    ("ONE_PROTOCOL", "WR1", rules.one_protocol_wr1),
    ("ONE_UNIT_OF_LENGTH", "WR1", rules.one_unit_of_length_wr1),
]


WORDS = {True: "true", False: "false", None: "unknown"}


class Report:
    """The entries in their order, and what the evaluations of each rule took."""

    def __init__(self, instances):
        self.instances = instances
        self.checks, self.evaluations, self.steps = [], collections.Counter(), collections.Counter()
        self.greatest = 0
        for part in (self.shapes, self.types, self.entities, self.unique, self.inverses, self.rules):
            part()

    def entry(self, check, of, rule, culprits, verdict=None):
        """Adds an entry, whose verdict is what its culprits say."""
        named = {} if of is None else {"of": of, "rule": rule}
        lists = {word: found for word, found in culprits.items() if found}
        verdict = verdict or next((word.upper() for word in ("false", "unknown") if word in lists), "TRUE")
        self.checks.append({"check": check, **named, **lists, "verdict": verdict})

    def evaluate(self, rule, over, key):
        """What a rule gives. Its steps are counted, and none may come to a limit here."""
        value, steps = rule(over)
        if steps > LIMIT or self.total() > ALL:
            raise ValueError(f"{key} comes to a limit")
        self.evaluations[key] += 1
        self.steps[key] += steps
        self.greatest = max(self.greatest, steps)
        return value

    def total(self):
        return sum(self.steps.values())

    def shapes(self):
        for check in ("unset", "bounds", "reference"):
            places = [[*it.place, name] for it in self.instances for name, found in shape_faults(it) if check in found]
            self.entry(check, None, None, {"false": places})

    def types(self):
        for of, label, rule, attributes in sorted(OF_TYPES, key=lambda row: row[0]):
            culprits = {"false": [], "unknown": [], "true": []}
            for it in self.instances:
                for name, value in it.values.items():
                    foreign = isinstance(value, Written) and of not in (value.type, "MEASURE_VALUE")
                    if name in attributes and value is not None and not foreign:
                        culprits[WORDS[self.evaluate(rule, value, (of, label))]].append([*it.place, name])
            del culprits["true"]
            self.entry("type", of, label, culprits)

    def entities(self):
        for of, label, rule in sorted(OF_ENTITIES, key=lambda row: row[0]):
            culprits = {"false": [], "unknown": [], "true": []}
            for it in rules.extent(self.instances, of):
                culprits[WORDS[self.evaluate(rule, it, (of, label))]].append([*it.place])
            del culprits["true"]
            self.entry("where", of, label, culprits)

    def unique(self):
        """An attribute takes a step, and a derived one its body. A row with a value that isn't there is compared with none."""
        def rule_of(attribute):
            def rule(it):
                value, body = attribute(it) if callable(attribute) else (it[attribute], 0)
                return value, 1 + body
            return rule
        for of, label, attributes in sorted(UNIQUE, key=lambda row: row[0]):
            found = rules.extent(self.instances, of)
            rows = [tuple(self.evaluate(rule_of(name), it, (of, label)) for name in attributes) for it in found]
            alike = [[*it.place] for it, row in zip(found, rows) if None not in row and rows.count(row) > 1]
            self.entry("unique", of, label, {"false": alike})

    def inverses(self):
        """An inverse attribute takes a step, and one for each of its results."""
        for of, label, *_, least, most in sorted(rules.INVERSES, key=lambda row: row[0]):
            def rule(it, of=of, label=label):
                found = len(rules.inverse(it, of, label))
                return found, 1 + found
            counts = [(it, self.evaluate(rule, it, (of, label))) for it in rules.extent(self.instances, of)]
            outside = [[*it.place] for it, found in counts if found < least or most is not None and found > most]
            self.entry("inverse", of, label, {"false": outside})

    def rules(self):
        for of, label, rule in sorted(GLOBAL, key=lambda row: row[0]):
            self.entry("rule", of, label, {}, WORDS[self.evaluate(rule, self.instances, (of, label))].upper())

    def line(self):
        reply = {"ok": {"checks": self.checks, "steps": self.total()}}
        return json.dumps(reply, ensure_ascii=False, separators=(",", ":"), sort_keys=True) + "\n"


# ---- comparing

def faults_of_report(report):
    """Where the committed reply has other bytes: its entries one by one, its steps, or its writing."""
    with open(os.path.join(REPORTS, "assembly.json"), encoding="utf-8", newline="") as it:
        committed = it.read()
    if committed == report.line():
        return []
    try:
        given = json.loads(committed)["ok"]
    except ValueError:
        return ["assembly.json is no reply"]
    pairs = itertools.zip_longest(given["checks"], report.checks)
    faults = [f"assembly.json has {json.dumps(one)}, and not {json.dumps(other)}" for one, other in pairs if one != other]
    if given["steps"] != report.total():
        faults.append(f"assembly.json has {given['steps']} steps, and not {report.total()}")
    return faults or ["assembly.json has the same entries in other bytes"]


def faults_of_reading(report):
    """Where GREAT.md, which tells of each rule why it holds, has another verdict or another count."""
    with open(os.path.join(REPORTS, "GREAT.md"), encoding="utf-8") as it:
        rows = re.findall(r"^\| ([A-Z_]+) (#?\w+) \| ([\d,]+) \| ([\d,]+) \| (\w+) \|", it.read(), re.MULTILINE)
    told = {(of, rule): (int(evaluations.replace(",", "")), int(steps.replace(",", "")), verdict) for of, rule, evaluations, steps, verdict in rows}
    for it in report.checks:
        if "of" in it:
            key = it["of"], it["rule"]
            wanted = report.evaluations[key], report.steps[key], it["verdict"]
            if told.get(key) != wanted:
                yield f"GREAT.md has {told.get(key)} of {' '.join(key)}, and not {wanted}"


def main():
    report = Report(population(FOLDER))
    count = len(report.instances)
    print(f"{count} instances, {report.evaluations.total()} evaluations of at most {report.greatest} steps, {report.total()} steps in all, "
          f"{report.total() / count:.1f} for an instance")
    faults = [*faults_of_report(report), *faults_of_reading(report)]
    if report.total() > EACH * count:
        faults.append(f"more than {EACH} steps for an instance, the most of them in {report.steps.most_common(8)}")
    for it in faults:
        print(it)
    print(f"assembly count: {max(len(report.checks) - len(faults), 0)} passed, {len(faults)} failed")
    return 1 if faults else 0


if __name__ == "__main__":
    sys.exit(main())
