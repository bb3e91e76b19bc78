#!/usr/bin/env python3
"""Runs `trials rules` over the rows of tests/data/expressions, and compares value and steps of each; over example/assembly too.

    tests/evaluation.py [PROGRAM]

PROGRAM is the program of the trials, crates/trials/out/trials where it is left out; of a path that ends in rp_server it
is the one beside that. All rows of a setting stand in one schema. With a limit of 200,000 steps a row has its value or is LIMIT,
with a limit of its own steps it has its value, and with one step less it is LIMIT. Of the files in example/assembly/broken each
WHERE clause and rule has the verdict and the culprits of its report. The last line is 'evaluation: N passed, M failed', and the
status is 0 only if none failed.
"""
import json
import os
import re
import sys
from collections import defaultdict

from expression_rows import MOST_STEPS, read_rows, schema_of, written
from lib.harness import TOP, run_parts

PROGRAM = os.path.join(TOP, "crates/trials/out/trials")
ASSEMBLY = os.path.join(TOP, "example/assembly")
USAGE = (b"trials rules SCHEMA FILE LIMIT.., trials kept SCHEMA FILE LIMIT.., "
         b"trials connection SCHEMA INPUT FAULT NUMBER SIZE ROOM, or trials requests SCHEMA OTHER LINE..")
LINE = re.compile(r"(\d+) (\S+)\.(\S+) (\?|#\d+) (.*)")
KEPT = re.compile(rb"KEPT \d+\n")


def evaluated(folder, schema, file, limits):
    """What the program tells: by limit, owner, label and SELF the outcome. Errors are told as they are, and so is a line that is
    another one where derived values are remembered."""
    folder.write("schema.exp", schema)
    folder.write("file.step", file)
    status, out, err = folder.run("rules", "schema.exp", "file.step", *map(str, limits))
    if status or err:
        return f"status {status}, {err.decode()}"
    status, kept, err = folder.run("kept", "schema.exp", "file.step", *map(str, limits))
    if status or err or not kept.startswith(out) or not KEPT.fullmatch(kept[len(out):]):
        return f"with derived values remembered: status {status}, {err.decode()}{kept.decode()}"
    lines = [LINE.fullmatch(line).groups() for line in out.decode().split("\n")[:-1]]
    return {(int(limit), owner, label, itself): outcome for limit, owner, label, itself, outcome in lines}


def wanted_of(row):
    """The outcomes of a row by limits."""
    if row.value is None:
        return {MOST_STEPS: "LIMIT"}
    outcome = f"{written(row.value)} {row.steps}"
    return {MOST_STEPS: outcome, row.steps: outcome, row.steps - 1: "LIMIT"}


def rows_of_settings(it):
    """Each row by the program."""
    settings, rows = read_rows([])
    for setting in settings:
        mine = [row for row in rows if row.setting == setting]
        limits = sorted({limit for row in mine for limit in wanted_of(row)})
        found = evaluated(it.folder, schema_of(setting, mine), setting.file(), limits)
        if isinstance(found, str):
            it.expect(f"setting {setting.name}", found, "")
            continue
        by_row = defaultdict(dict)
        for (limit, _, label, of), outcome in found.items():
            by_row[label, of, limit][outcome] = None
        for row in mine:
            itself = "?" if row.rule else f"#{row.self_name}"
            seen = {limit: " or ".join(by_row[row.name.upper(), itself, limit]) for limit in wanted_of(row)}
            it.expect(f"{setting.name}, {row.name}: {row.expression}", seen, wanted_of(row))


# ---- example/assembly

LISTS = ("false", "limit", "not_run", "unknown")


def list_of(outcome):
    """The list in which an outcome has its instance, if any: what is neither TRUE nor FALSE, whatever type it carries, can't be told."""
    truth = re.fullmatch(r"(?:\w+\()*(TRUE|FALSE)\)* \d+", outcome)
    return {None: "limit" if outcome == "LIMIT" else "unknown", "TRUE": None, "FALSE": "false"}[truth and truth[1]]


def reported(name):
    """The WHERE clauses and rules of a report: by owner and label the verdict and the culprits in each list."""
    with open(os.path.join(ASSEMBLY, "reports", f"{name}.json"), encoding="utf-8") as it:
        checks = json.load(it)["ok"]["checks"]
    return {(check["of"], check["rule"]): (check["verdict"], {key: [f"#{one[2]}" for one in check[key]] for key in LISTS if key in check})
            for check in checks if check["check"] in ("where", "rule")}


def report_of(found, conditions):
    """The same by the program, of these conditions: one that no instance has to do with is TRUE."""
    lists = {condition: defaultdict(list) for condition in conditions}
    for (_, owner, label, itself), outcome in found.items():
        if list_of(outcome):
            lists.setdefault((owner, label), defaultdict(list))[list_of(outcome)].append(itself)
    verdicts = {condition: next((key.upper() for key in LISTS if key in of), "TRUE") for condition, of in lists.items()}
    return {condition: (verdicts[condition], {key: some for key, some in of.items() if some != ["?"]}) for condition, of in lists.items()}


def files_of_assembly(it):
    """Each broken file by its report."""
    with open(os.path.join(ASSEMBLY, "assembly.exp"), encoding="utf-8") as text:
        schema = text.read()
    for name in sorted(os.listdir(os.path.join(ASSEMBLY, "broken"))):
        with open(os.path.join(ASSEMBLY, "broken", name), encoding="utf-8") as text:
            file = text.read()
        wanted = reported(name.removesuffix(".step"))
        found = evaluated(it.folder, schema, file, [MOST_STEPS])
        seen = found if isinstance(found, str) else report_of(found, wanted)
        differs = [one for one in {**wanted, **seen} if wanted.get(one) != seen.get(one)] if isinstance(seen, dict) else [seen]
        it.expect(f"{name}: {[(one, seen.get(one) if isinstance(seen, dict) else '') for one in differs]}", differs, [])


# ---- input that is faulty

SCHEMA = "SCHEMA s; ENTITY e; i : OPTIONAL INTEGER; WHERE w : i; 7; END_ENTITY; RULE r FOR (e); WHERE TRUE; END_RULE; END_SCHEMA;"
FILE = ("ISO-10303-21;HEADER;FILE_DESCRIPTION((''),'2;1');FILE_NAME('','',(''),(''),'','','');FILE_SCHEMA(('{}'));ENDSEC;DATA;{}"
        "ENDSEC;END-ISO-10303-21;")


def faulty_input(it):
    """One line, and status 2."""
    good = FILE.format("S", "#1=E(1);")
    words = ["rules", "schema.exp", "file.step", "1"]
    no_limit = b"a limit is no number up to 18446744073709551615"
    for name, schema, file, given, told in (
            ("no words", SCHEMA, good, [], USAGE), ("a schema alone", SCHEMA, good, words[:2], USAGE),
            ("no number", SCHEMA, good, [*words, "-1"], no_limit),
            ("a number with a blank", SCHEMA, good, [*words, "1 "], no_limit), ("an empty word", SCHEMA, good, [*words, ""], no_limit),
            ("a limit of 65 bits", SCHEMA, good, [*words, str(2**64)], no_limit),
            ("no file", SCHEMA, good, ["rules", "schema.exp", "none.step", "1"], b"a file can't be read or is over 8 MiB"),
            ("no schema", "SCHEMA", good, words, b"Syntax line 1 column 7"), ("no exchange file", SCHEMA, "ISO", words, b"no exchange file: byte 0"),
            ("another schema", SCHEMA, FILE.format("T", ""), words, b"a file of another schema"),
            ("a faulty instance", SCHEMA, FILE.format("S", "#7=F();"), words, b"a faulty instance: #7")):
        it.folder.write("schema.exp", schema)
        it.folder.write("file.step", file)
        it.expect(name, it.folder.run(*given), (2, b"", b"trials: %s\n" % told))
    it.folder.write("schema.exp", SCHEMA)
    it.folder.write("file.step", FILE.format("S", "#9=E($);#1=E(1);"))
    lines = b"1 E.W #1 1 1\n1 E.W #9 ? 1\n1 E.#2 #1 7 1\n1 E.#2 #9 7 1\n1 R.#1 ? TRUE 1\n"
    limited = b"0 E.W #1 LIMIT\n0 E.W #9 LIMIT\n0 E.#2 #1 LIMIT\n0 E.#2 #9 LIMIT\n0 R.#1 ? LIMIT\n"
    it.expect("two limits", it.folder.run("rules", "schema.exp", "file.step", "1", "0"), (0, lines + limited, b""))
    most = str(2**64 - 1).encode()
    greatest = b"".join(most + line[1:] for line in lines.splitlines(True))
    it.expect("the greatest limit", it.folder.run("rules", "schema.exp", "file.step", most.decode()), (0, greatest, b""))
    it.expect("no limit", it.folder.run("rules", "schema.exp", "file.step"), (0, b"", b""))


def program_of(words):
    """The program that is meant where another script's one is named."""
    if words and os.path.basename(words[0]) == "rp_server":
        return [os.path.join(os.path.dirname(words[0]), "../../trials/out/trials"), *words[1:]]
    return words or [PROGRAM]


if __name__ == "__main__":
    run_parts("evaluation", (rows_of_settings, files_of_assembly, faulty_input), program_of(sys.argv[1:]))
