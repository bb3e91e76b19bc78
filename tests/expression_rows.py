#!/usr/bin/env python3
"""Reads the rows of tests/data/expressions/, which say what EXPRESS expressions and statements evaluate to, and tests them.

    tests/expression_rows.py [PROGRAM]

No row is evaluated here. Each is refused that has no value or no steps, a value that can't be read, steps that aren't the
sum beside them, another row's name, or a line of the tables that there isn't. Each line of the tables is shown by some row,
`check` accepts the schema of each row, and the data of each setting can be put. What a file may hold is said in the README
beside them. The last line is 'expression_rows: N passed, M failed', and the status is 0 only if none failed.
"""
import json
import os
import re
import sys
from collections import Counter
from typing import NamedTuple

from lib.harness import TOP, run_parts

FOLDER = os.path.join(TOP, "tests/data/expressions")
LINES = "lines.txt"
FEWEST = 300
MOST_STEPS, MOST_BODIES = 200_000, 200

SETTING_KEYS = {"setting", "schema", "data"}
ROW_KEYS = {"row", "shows", "self", "function", "rule", "expression", "value", "steps", "bodies"}
NEEDED = ("shows", "expression", "value", "steps")

HEAD = "ISO-10303-21;HEADER;FILE_DESCRIPTION((''),'2;1');FILE_NAME('','',(''),(''),'','','');FILE_SCHEMA(('{}'));ENDSEC;DATA;"
TAIL = "ENDSEC;END-ISO-10303-21;"


class Fault(Exception):
    """A row or a setting that isn't one."""


# ---- values

class Value(NamedTuple):
    """What a row evaluates to. The sort is one of the words of SORTS, or AGGREGATE, CARRIED or NONE.

    INTEGER has a number; REAL its digits and exponent; STRING and BINARY a text; LOGICAL its word; ITEM the type and the item;
    INSTANCE its name; AGGREGATE the kind (empty for an initialiser), the first index and the elements; CARRIED the type and
    the value that carries it."""

    sort: str
    parts: tuple = ()


NONE = Value("NONE")
WORD = r"[A-Z][A-Z0-9_]*"
SORTS = (
    ("REAL", r"(0|-?\d*[1-9])\.(?:E(-?\d+))?", lambda digits, exponent: (int(digits), int(exponent or 0))),
    ("INTEGER", r"(-?\d+)", lambda number: (int(number),)),
    ("STRING", r"'((?:[^']|'')*)'", lambda text: (text.replace("''", "'"),)),
    ("BINARY", r"%([01]*)", lambda bits: (bits,)),
    ("LOGICAL", r"(TRUE|FALSE|UNKNOWN)\b", lambda word: (word,)),
    ("ITEM", rf"({WORD})\.({WORD})", lambda *names: names),
    ("INSTANCE", r"#(\d+)", lambda name: (int(name),)),
)


def value_at(text, at):
    """The value that begins there, and where it ends."""
    if text.startswith("?", at):
        return NONE, at + 1
    for sort, form, parts in SORTS:
        found = re.compile(form).match(text, at)
        if found:
            return Value(sort, parts(*found.groups())), found.end()
    found = re.compile(rf"({WORD})\(").match(text, at)
    if found:
        value, end = value_at(text, found.end())
        if text[end:end + 1] == ")":
            return Value("CARRIED", (found[1], value)), end + 1
    found = re.compile(r"(SET|BAG|LIST|ARRAY|)\[(\d+): ?").match(text, at)
    if not found:
        raise Fault(f"no value at {text[at:]!r}")
    elements, end = [], found.end()
    while text[end:end + 1] != "]":
        if elements and not text.startswith(", ", end):
            raise Fault(f"no element at {text[end:]!r}")
        value, end = value_at(text, end + 2 if elements else end)
        elements.append(value)
    return Value("AGGREGATE", (found[1], int(found[2]), tuple(elements))), end + 1


def written(value):
    """The one text of a value, as value_of reads it."""
    sort, parts = value
    if sort == "AGGREGATE":
        kind, low, elements = parts
        return f"{kind}[{low}: {', '.join(map(written, elements))}]"
    if sort == "CARRIED":
        return f"{parts[0]}({written(parts[1])})"
    if sort == "REAL":
        digits, exponent = parts
        return f"{digits}.E{exponent}" if exponent else f"{digits}."
    forms = {"NONE": "?", "INTEGER": "{}", "STRING": "'{}'", "BINARY": "%{}", "LOGICAL": "{}", "ITEM": "{}.{}", "INSTANCE": "#{}"}
    return forms[sort].format(*(it.replace("'", "''") if sort == "STRING" else it for it in parts))


def value_of(text):
    value, end = value_at(text, 0)
    if end != len(text) or written(value) != text:
        raise Fault(f"{text!r} isn't the text of a value")
    return value


# ---- settings and rows

class Setting(NamedTuple):
    name: str
    topic: str
    declarations: str
    data: str

    def file(self):
        """The exchange file of its instances."""
        return HEAD.format(self.name.upper()) + self.data + TAIL


class Row(NamedTuple):
    """What a row says. The value is None where it is LIMIT, and the steps are where they are endless."""

    name: str
    setting: Setting
    shows: list
    self_name: int
    function: str
    rule: str
    expression: str
    value: Value
    steps: int
    bodies: int

    def schema(self):
        """The text of a schema in which the row stands alone."""
        return schema_of(self.setting, [self])


def schema_of(setting, rows):
    """The text of a schema with these rows of the setting. Their clauses and global rules are labelled by their names."""
    clauses = "".join(f"\n  {row.name} : {row.expression};" for row in rows if not row.rule)
    functions = "".join(f"{row.function}\n" for row in rows)
    rules = "".join(f"RULE {row.name} FOR {row.rule}\nWHERE {row.name} : {row.expression}; END_RULE;\n" for row in rows if row.rule)
    declarations = setting.declarations.replace("@", f"WHERE{clauses}" if clauses else "")
    return f"SCHEMA {setting.name};\n{declarations}\n{functions}{rules}END_SCHEMA;\n"


def blocks_of(text):
    """The blocks of a file, each a map from its keys to their texts."""
    blocks, key = [], None
    for line in text.splitlines():
        if not line.strip() or line.startswith("--"):
            continue
        if line.startswith("  ") and key:
            blocks[-1][key] = f"{blocks[-1][key]}\n{line.strip()}".strip()
            continue
        key, colon, rest = line.partition(":")
        if key in ("setting", "row"):
            blocks.append({})
        if not colon or not blocks or key not in SETTING_KEYS | ROW_KEYS or key in blocks[-1]:
            raise Fault(f"{line!r}")
        blocks[-1][key] = rest.strip()
    return blocks


def counted(text):
    """A number that is written with the sum that it comes of."""
    number, _, working = text.partition("=")
    if not re.fullmatch(r"\d+ ?", number) or not re.fullmatch(r"[\d+*() \n]+", working):
        raise Fault(f"{text!r} is no number with its sum")
    try:
        # only digits, signs and parentheses stand there
        total = eval(working.replace("\n", " "))  # pylint: disable=eval-used
    except SyntaxError:
        total = None
    if total != int(number):
        raise Fault(f"{working.strip()!r} isn't {number}")
    return total


def row_of(setting, keys):
    missing = [it for it in NEEDED if not keys.get(it)]
    if missing or not keys.keys() <= ROW_KEYS:
        raise Fault(f"no {', '.join(missing)}" if missing else "a key of settings")
    self_name = keys.get("self", "#1")
    if f"{self_name}=" not in setting.data:
        raise Fault(f"no instance {self_name}")
    is_limit = keys["value"] == "LIMIT"
    steps = None if keys["steps"] == "endless" else counted(keys["steps"])
    bodies = counted(keys["bodies"]) if "bodies" in keys else None
    if is_limit != (steps is None or steps > MOST_STEPS or (bodies or 0) > MOST_BODIES):
        raise Fault("LIMIT and the steps don't agree")
    shows = [it.strip() for it in keys["shows"].split(";")]
    return Row(keys["row"], setting, shows, int(self_name[1:]), keys.get("function", ""), keys.get("rule", ""),
               keys["expression"], None if is_limit else value_of(keys["value"]), steps, bodies)


def setting_of(topic, keys):
    if keys.keys() != SETTING_KEYS or keys["schema"].count("@") != 1:
        raise Fault("a setting without its keys or its @")
    return Setting(keys["setting"], topic, keys["schema"], keys["data"])


def read_topic(topic, text, faults):
    """The settings and rows of a file; what is no row is told to the faults."""
    settings, rows = [], []
    try:
        blocks = blocks_of(text)
    except Fault as fault:
        faults.append(f"{topic}: {fault}")
        return settings, rows
    for keys in blocks:
        try:
            if "setting" in keys:
                settings.append(setting_of(topic, keys))
            elif settings:
                rows.append(row_of(settings[-1], keys))
            else:
                raise Fault("a row without a setting")
        except Fault as fault:
            faults.append(f"{topic}, {keys.get('row', keys.get('setting'))}: {fault}")
    return settings, rows


def read_rows(faults):
    """All settings and rows, in order of the files' names."""
    settings, rows = [], []
    for name in sorted(os.listdir(FOLDER)):
        if name.endswith(".txt") and name != LINES:
            with open(os.path.join(FOLDER, name), encoding="utf-8") as it:
                more, others = read_topic(name[:-4], it.read(), faults)
            settings += more
            rows += others
    return settings, rows


def read_lines():
    """The names of the tables' lines."""
    with open(os.path.join(FOLDER, LINES), encoding="utf-8") as it:
        return [line.partition(":")[0] for line in it if line.strip() and not line.startswith("--")]


# ---- the script

GOOD = {"row": "a", "shows": "IN", "expression": "1", "value": "1", "steps": "3 = 1 + (2 * 1)"}

# What a row may not be: keys that differ from those of the one above, and the beginning of what is told of it.
BAD = (
    ({"value": ""}, "no value"), ({"steps": ""}, "no steps"), ({"shows": ""}, "no shows"), ({"data": "#1=E();"}, "a key of settings"),
    ({"value": "one"}, "no value at"), ({"value": "1 2"}, "'1 2' isn't"), ({"value": "01"}, "'01' isn't"), ({"value": "1.0"}, "'1.0' isn't"),
    ({"value": "10.E1"}, "'10.E1' isn't"), ({"value": "SET[1: 1,2]"}, "no element"), ({"value": "SET[1: 1"}, "no element"),
    ({"value": "LABEL('a"}, "no value at"), ({"value": "LABEL(1"}, "no value at"), ({"value": "'it's'"}, "\"'it's'\" isn't"),
    ({"value": "true"}, "no value at"), ({"value": "LIMIT"}, "LIMIT and the steps"), ({"steps": "3"}, "'3' is no number"),
    ({"steps": "4 = 1 + 2"}, "'1 + 2' isn't 4"), ({"steps": "4 = (1 + 3"}, "'(1 + 3' isn't 4"), ({"steps": "3 = x + 2"}, "'3 = x + 2' is no number"), ({"steps": "3 = 4 - 1"}, "'3 = 4 - 1' is no"),
    ({"steps": "endless"}, "LIMIT and the steps"), ({"steps": "200001 = 200000 + 1"}, "LIMIT and the steps"),
    ({"self": "#2"}, "no instance #2"), ({"bodies": "201 = 200 + 1"}, "LIMIT and the steps"), ({"bodies": "2 = 1"}, "'1' isn't 2"),
)


def the_reader(it):
    """It refuses what is no row, and takes values of each sort."""
    setting = Setting("s", "t", "@", "#1=E();")
    it.expect("a good row", row_of(setting, GOOD).steps, 3)
    for keys, wanted in BAD:
        try:
            told = str(row_of(setting, {**GOOD, **keys}))
        except Fault as fault:
            told = str(fault)
        it.expect(f"a row with {keys}", told[:len(wanted)], wanted)
    for text in ("?", "-7", "15.E-1", "0.", "'it''s'", "''", "%01", "%", "UNKNOWN", "COLOUR.RED", "#12", "SET[1: ]", "[1: [1: ], ?]",
                 "ARRAY[0: LABEL('a'), ?]", "LABELS(LIST[1: LABEL('x'), SHADE(COLOUR.RED)])", "BAG[1: #1, #1]"):
        it.expect(text, written(value_of(text)), text)


def the_rows(it):
    """Each row is one, no two have a name, and each line of the tables is shown."""
    faults = []
    settings, rows = read_rows(faults)
    it.expect("rows that are none", faults, [])
    for what, names in (("settings", [one.name for one in settings]), ("rows", [one.name for one in rows])):
        it.expect(f"names of two {what}", [name for name, count in Counter(names).items() if count > 1], [])
        it.expect(f"names of {what} that are none", [name for name in names if not re.fullmatch(r"[a-z][a-z0-9_]*", name)], [])
    it.expect(f"{FEWEST} rows", len(rows) >= FEWEST, True)
    lines = read_lines()
    shown = {line for row in rows for line in row.shows}
    it.expect("lines that aren't shown", [line for line in lines if line not in shown], [])
    it.expect("lines that there aren't", sorted(shown - set(lines)), [])
    for topic, count in Counter(row.setting.topic for row in rows).items():
        print(f"{count:4} rows of {topic}")


def asked(settings, rows):
    """Requests for the schema of each row, and for a model of each setting with its data; and what is to be answered."""
    turns = [({"do": "check_schema", "text": row.schema()}, {"schema": row.setting.name.upper(), "warnings": []}, row.name) for row in rows]
    for one in settings:
        turns.append(({"do": "create_model", "name": one.name, "schema": one.name}, {}, one.name))
        put = {"do": "put", "file": one.file(), "model": one.name, "owner": "ann"}
        turns.append((put, {"instances": len(re.findall(r"#\d+=", one.data))}, one.name))
    return turns


def fault_told(name, text, answer):
    """Where a schema is refused, the text from there on stands beside the answer."""
    at = answer.get("ok", {}).get("fault", {}).get("at")
    return f"{name}, {answer}" if at is None else f"{name}, {answer['ok']['fault']['kind']} before {text.encode()[at:at + 60]!r}"


def the_schemas(it):
    """The program accepts the schema of each row, one with all rows of each setting, and the data of each setting."""
    settings, rows = read_rows([])
    turns = asked(settings, rows)
    for one in settings:
        it.folder.write(f"{one.name}.exp", schema_of(one, [row for row in rows if row.setting == one]))
    config = {"partners": [{"name": "ann", "token": "ta"}], "schemas": [f"{one.name}.exp" for one in settings]}
    it.folder.write("config.json", json.dumps(config))
    lines = "".join(json.dumps({"as": "ann", **request}) + "\n" for request, _, _ in turns)
    status, out, err = it.folder.run("batch", "--config", "config.json", text=lines.encode())
    it.expect("a run of the program", (status, err), (0, b""))
    for (request, wanted, name), line in zip(turns, out.decode().splitlines()):
        answer = json.loads(line)
        it.expect(fault_told(name, request.get("text", ""), answer), answer, {"ok": wanted})
    it.expect("answers", out.count(b"\n"), len(turns))


if __name__ == "__main__":
    run_parts("expression_rows", (the_reader, the_rows, the_schemas), sys.argv[1:])
