#!/usr/bin/env python3
"""Measures the request that validates a group, each population in a process of its own.

    bench/validate.py [--quick] [PROGRAM]

The first table has a group of 200,000 instances as a modeller exports them, by the schema of example/assembly: what a processor takes
from the request to its reply with all rules, and with the schema's declarations alone, that is for the population and for what is not
set, out of bounds or astray; millions of steps for each second of what the rules take; one instance under that schema; and the most
memory against what was held before the request. The second has rules of one sort over 200,000 instances. The third has files of
8 MiB, or as many instances as a model may have, that are made so that rules of one sort have as much to compare as can be: ten such
rules each. Where that grows with the square, it has two small ones, the second of twice as much. With --quick all numbers are a
hundredth.

All replies are compared with what they must be. Those of the first table are reckoned from what the plain reading of rules in
tests/lib tells of one part and of two: each part more adds as many steps.
"""
import itertools
import json
import os
import re
import sys

from harness import FILE_LIMIT, MIB, OK, TOP, Session, Table, compare, request, run_bench

sys.path.insert(0, os.path.join(TOP, "tests"))

from lib.rule_texts import report  # noqa: E402

ASSEMBLY = os.path.join(TOP, "example/assembly")
INSTANCES = 200_000
VALIDATE = request("validate", owner="ann", group="g")
RUNS = 3


def file_of(schema, instances):
    return ("ISO-10303-21;HEADER;FILE_DESCRIPTION((''),'2;1');FILE_NAME('','',(''),(''),'','','');"
            f"FILE_SCHEMA(('{schema}'));ENDSEC;DATA;\n{instances}ENDSEC;END-ISO-10303-21;\n")


def compact(value):
    return json.dumps(value, sort_keys=True, separators=(",", ":")).encode()


class Taken:
    """What validations of one group took: the least seconds of a processor, the reply, and the memory before and at most."""

    def __init__(self, folder, schema, text, files, runs=RUNS):
        folder.configure(measured=text)
        with Session(folder) as session:
            compare(session.ask(request("create_group", name="g", schema=schema))[0], OK)
            for place, file in enumerate(files):
                compare(session.ask(request("create_model", name=f"m{place}", schema=schema))[0], OK)
                compare(session.ask(request("include", group="g", owner="ann", model=f"m{place}"))[0], OK)
                reply = session.ask(request("put", owner="ann", model=f"m{place}", file=file))[0]
                if not reply.startswith(b'{"ok"'):
                    sys.exit(f"bench: {reply[:300]!r}")
            self.before = session.memory()
            asked = [session.ask(VALIDATE) for _ in range(runs)]
            self.memory = session.memory()
        self.reply = asked[0][0]
        self.clock = min(seconds for _, seconds, _ in asked)
        self.busy = min(busy for _, _, busy in asked)

    def steps(self):
        return json.loads(self.reply)["ok"]["steps"]


# ---- a group as it is exported

def exported_lines():
    """The instances of the example's part by their names, each in one line."""
    with open(os.path.join(ASSEMBLY, "part.step"), encoding="utf-8") as it:
        data = re.sub(r"/\*.*?\*/|\n", "", it.read(), flags=re.DOTALL)
    return {int(name): text for name, text in re.findall(r"#(\d+)=(.*?);(?=#|ENDSEC)", data.partition("DATA;")[2])}


LINES = exported_lines()
# what all parts of a model have in common, and each part's own: its product and its shape
COMMON = [*range(1, 5), *range(9, 11), *range(31, 41), 194]
OWN = [5, 7, 8, *range(41, 44), *range(44, 186), 191, 192, 193, 195, 197, 198]
MEASURES = 130
NAMES_OF_A_PART = 400


def part(number, label):
    """The instances of one part, whose own names begin at a number, with so many measures of its volume."""
    def renamed(found):
        name = int(found[1])
        return f"#{name}" if name in COMMON else f"#{number * NAMES_OF_A_PART + name}"

    texts = {name: LINES[name] for name in OWN}
    texts[5] = re.sub(r"'PL-1042'", f"'{label}'", texts[5])
    texts[7] = "PRODUCT_VERSION_WITH_SOURCE('B',$,#5,$,.MADE.,$)"
    measures = range(204, 204 + MEASURES)
    texts.update((name, f"MEASURE_ITEM('V{name}',VOLUME_MEASURE({name - 203}.),#38)") for name in measures)
    texts[197] = f"MEASURE_REPRESENTATION('validation properties',(#192,#193,#195,{','.join(f'#{it}' for it in measures)}),#40)"
    return "".join(re.sub(r"#(\d+)", renamed, f"#{name}={texts[name]};") + "\n" for name in sorted(texts))


def model_of_parts(first, count):
    """A model of so many parts, the first of which has this number."""
    common = "".join(f"#{name}={LINES[name]};\n" for name in COMMON)
    return common + "".join(part(number - first + 1, f"P{number:05}") for number in range(first, first + count))


SIZE_OF_A_PART = len(OWN) + MEASURES


def assembly_text():
    with open(os.path.join(ASSEMBLY, "assembly.exp"), encoding="utf-8") as it:
        return it.read()


def without_rules(text):
    """The schema's declarations, without anything that is evaluated over a population."""
    text = re.sub(r"--[^\n]*|\(\*.*?\*\)", "", text, flags=re.DOTALL)
    text = re.sub(r"\bRULE\b.*?\bEND_RULE\s*;", "", text, flags=re.DOTALL)
    text = re.sub(r"(?<!OF )\b(?:WHERE|UNIQUE)\b.*?(?=\bEND_(?:ENTITY|TYPE)\b)", "", text, flags=re.DOTALL)
    return re.sub(r"\bBAG \[0:100\] OF kit FOR", "BAG [0:?] OF kit FOR", text)


def reckoned(text, counts):
    """The reply for models of so many parts each: what the plain reading tells of small ones, whose steps grow by as many for each
    part and for each model."""
    def told(*sizes):
        models, first = [], 1
        for place, count in enumerate(sizes):
            models.append(("ann", f"m{place}", file_of("MECHANICAL_ASSEMBLY", model_of_parts(first, count)), []))
            first += count
        return report(text, models)

    one, two, both = told(1), told(2), told(1, 1)
    if told(1, 2)["steps"] != both["steps"] + two["steps"] - one["steps"]:
        sys.exit("bench: a part more doesn't add as many steps")
    if not one["checks"] == two["checks"] == both["checks"]:
        sys.exit("bench: a part more is told otherwise")
    steps = one["steps"] + (len(counts) - 1) * (both["steps"] - two["steps"]) + (sum(counts) - 1) * (two["steps"] - one["steps"])
    return compact({"ok": {"checks": one["checks"], "steps": steps}}) + b"\n"


def measure_group(folder, share):
    parts = INSTANCES // share // SIZE_OF_A_PART
    counts = [parts - parts // 2, parts // 2]
    files = [file_of("MECHANICAL_ASSEMBLY", model_of_parts(1, counts[0])), file_of("MECHANICAL_ASSEMBLY", model_of_parts(1 + counts[0], counts[1]))]
    if max(map(len, files)) > FILE_LIMIT:
        sys.exit("bench: a model of so many parts is no file of 8 MiB")
    text = assembly_text()
    table = Table({"of a group": "34", "instances": "9,", "steps": "12,", "seconds": "8.3f", "by the clock": "12.3f", "M steps/s": "9.1f",
                   "memory/before": "13.2f"})
    bare = Taken(folder, "MECHANICAL_ASSEMBLY", without_rules(text), files)
    whole = Taken(folder, "MECHANICAL_ASSEMBLY", text, files)
    compare(whole.reply, reckoned(text, counts))
    size = sum(file.count("=") for file in files)
    table.row("declarations alone", size, bare.steps(), bare.busy, bare.clock, 0.0, bare.memory / bare.before)
    table.row("all rules", size, whole.steps(), whole.busy, whole.clock, whole.steps() / 1e6 / max(whole.busy - bare.busy, 1e-6),
              whole.memory / whole.before)
    single = Taken(folder, "MECHANICAL_ASSEMBLY", text, [file_of("MECHANICAL_ASSEMBLY", "#1=CARTESIAN_POINT('',(0.,0.,0.));\n")])
    table.row("one instance", 1, single.steps(), single.busy, single.clock, 0.0, single.memory / single.before)


# ---- rules of one sort

ATTRIBUTES_HOLD = [{"check": it, "verdict": "TRUE"} for it in ("unset", "bounds", "reference")]


def all_true(checks, steps):
    return compact({"ok": {"checks": [*ATTRIBUTES_HOLD, *checks], "steps": steps}}) + b"\n"


def lines(count, line):
    return "".join(f"#{k}={line(k)};\n" for k in range(1, count + 1))


def measure_rules(folder, share):
    count = INSTANCES // share
    table = Table({"of rules": "34", "rows": "9,", "steps": "12,", "seconds": "8.3f", "less a rule's steps": "19.3f", "memory": "13,", "reply": "12,"})
    for name, kind, line in (("UNIQUE, texts", "STRING", lambda k: f"E('text number {k}')"), ("UNIQUE, whole numbers", "INTEGER", lambda k: f"E({k})"),
                             ("UNIQUE, decimals", "REAL", lambda k: f"E({k}.25)")):
        file = file_of("S", lines(count, line))
        rule = Taken(folder, "S", f"SCHEMA s; ENTITY e; k : {kind}; UNIQUE u : k; END_ENTITY; END_SCHEMA;", [file])
        compare(rule.reply, all_true([{"check": "unique", "of": "E", "rule": "U", "verdict": "TRUE"}], count))
        other = Taken(folder, "S", f"SCHEMA s; ENTITY e; k : {kind}; WHERE w : EXISTS(k); END_ENTITY; END_SCHEMA;", [file])
        table.row(name, count, rule.steps(), rule.busy, rule.busy - other.busy, rule.memory, len(rule.reply))
    culprits = 10 * count
    rules = " ".join(f"w{k} : FALSE;" for k in range(10))
    file = file_of("S", lines(count, lambda k: "E()"))
    false = Taken(folder, "S", f"SCHEMA s; ENTITY e; WHERE {rules} END_ENTITY; END_SCHEMA;", [file])
    told = [["ann", "m0", k] for k in range(1, count + 1)]
    compare(false.reply, all_true([{"check": "where", "false": told, "of": "E", "rule": f"W{k}", "verdict": "FALSE"} for k in range(10)], culprits))
    table.row("WHERE, FALSE for each by ten rules", culprits, false.steps(), false.busy, 0.0, false.memory, len(false.reply))
    joined = Taken(folder, "S", JOINED.format(INSTANCES // 10 // share), [file_of("S", "#1=E();\n")])
    turns = INSTANCES // 10 // share
    compare(joined.reply, all_true([{"check": "rule", "of": "R", "rule": "W", "verdict": "TRUE"}], joined.steps()))
    table.row("REPEAT that joins elements by +", turns, joined.steps(), joined.busy, 0.0, joined.memory, len(joined.reply))


JOINED = """SCHEMA s; ENTITY e; END_ENTITY;
RULE r FOR (e); LOCAL l : LIST OF INTEGER := []; END_LOCAL;
REPEAT i := 1 TO {0}; l := l + i; END_REPEAT;
WHERE w : SIZEOF(l) = {0}; END_RULE; END_SCHEMA;"""


# ---- files that are made against rules

def ten(rule):
    return " ".join(f"r{k} : {rule};" for k in range(10))


def entity(text):
    """A schema of one entity."""
    return f"SCHEMA s; ENTITY e; {text} END_ENTITY; END_SCHEMA;"


def of_elements(width, element):
    """Lines of an entity with so many elements each."""
    return lambda k: f"E(({','.join(element(k * width + i) for i in range(width))}))"


def hostile(share):
    """Of each sort the schema, and its files: the line of an instance by its number, and how many there are. Where what is compared
    grows with the square, the files are a hundredth and a fiftieth of what a put takes, so that their growth is seen."""
    most = INSTANCES // share
    wide = FILE_LIMIT // share // 8
    small = FILE_LIMIT // max(share, 100) // 24
    thousands = max(wide // 1000, 1)
    listed = of_elements(1000, str)
    rows = lambda k: f"E(({k},{k + 1},{k + 2}))"
    yield "UNIQUE, lists of one count", entity("l : LIST OF INTEGER; UNIQUE " + ten("l")), [(rows, most)]
    yield ("UNIQUE, texts alike but at their end", entity("t : STRING; UNIQUE " + ten("t")), [(lambda k: f"E('{'a' * 20}{k:06}')", most)])
    # (elements of so many bytes each)
    for name, kind, size, element in (("a SET's bounds, whole numbers", "INTEGER", 8, lambda i: f"{i:07}"),
                                      ("a SET's bounds, texts", "STRING", 11, lambda i: f"'t{i:07}'"),
                                      ("a SET's bounds, lists", "LIST OF INTEGER", 12, lambda i: f"({i:07},1)")):
        yield name, entity(f"l : SET OF {kind};"), [(of_elements((FILE_LIMIT - 1000) // share // size, element), 1)]
    orders = list(itertools.islice(itertools.permutations(range(10)), small))
    for count in (small // 2, small):
        elements = ",".join(f"({','.join(map(str, orders[k]))})" for k in range(count))
        yield "a SET's bounds, orders of one list", entity("l : SET OF LIST OF INTEGER;"), [(lambda k, elements=elements: f"E(({elements}))", 1)]
    yield "IN, lists of 1,000", entity("l : LIST OF INTEGER; WHERE " + ten("NOT (0 IN l)")), [(listed, thousands)]
    yield "= of lists of 1,000", entity("l : LIST OF INTEGER; WHERE " + ten("l = l")), [(listed, thousands)]
    yield "= of bags of 1,000", entity("l : BAG OF INTEGER; WHERE " + ten("l = l")), [(listed, thousands)]
    yield ("USEDIN of one that all use", entity("p : OPTIONAL e; WHERE " + ten("(SIZEOF(USEDIN(SELF, 'S.E.P')) >= 0)")), [(lambda k: "E(#1)", most)])
    yield "+ of lists of 1,000", entity("l : LIST OF INTEGER; WHERE " + ten("SIZEOF(l + l) > 0")), [(listed, thousands)]
    yield "+ of sets of 300", entity("l : SET OF INTEGER; WHERE " + ten("SIZEOF(l + l) > 0")), [(of_elements(300, str), max(wide // 300, 1))]
    yield ("arguments of defined types", "SCHEMA s; TYPE a = LIST OF INTEGER; END_TYPE; TYPE b = a; END_TYPE; "
           "FUNCTION f (x : b) : INTEGER; RETURN (SIZEOF(x)); END_FUNCTION; "
           f"ENTITY e; l : LIST OF INTEGER; WHERE {ten('f(l) > 0')} END_ENTITY; END_SCHEMA;", [(listed, thousands)])
    yield "lists in lists", entity("l : LIST OF LIST OF INTEGER; WHERE " + ten("l = l")), [(of_elements(500, lambda i: f"({i},1)"), thousands)]


def measure_hostile(folder, share):
    table = Table({"made against": "38", "bytes": "10,", "steps": "12,", "seconds": "8.3f", "MiB": "7.1f", "verdicts": "40"})
    for name, schema, files in hostile(share):
        for line, count in files:
            file = file_of("S", lines(count, line))
            if len(file) > FILE_LIMIT:
                sys.exit(f"bench: {name}: {len(file)} bytes")
            taken = Taken(folder, "S", schema, [file], 1)
            verdicts = [it["verdict"] for it in json.loads(taken.reply)["ok"]["checks"]]
            told = " ".join(f"{verdicts.count(it)} {it}" for it in sorted(set(verdicts)))
            table.row(name, len(file), taken.steps(), taken.busy, taken.memory / MIB, told)


def measure(folder, share):
    for part_of in (measure_group, measure_rules, measure_hostile):
        part_of(folder, share)


if __name__ == "__main__":
    is_quick = "--quick" in sys.argv
    run_bench(lambda folder: measure(folder, 100 if is_quick else 1), [it for it in sys.argv[1:] if it != "--quick"])
