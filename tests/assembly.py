#!/usr/bin/env python3
"""Looks at example/assembly: the program takes its schema and all its files, exports are read again as the same models, and its
page names what stands where.

    tests/assembly.py [PROGRAM]

Each function `test_*` is one test; its document string says what has to hold. The last line is
'assembly: N passed, M failed', and the status is 0 only if none failed.
"""
import json
import os
import re
import sys
from collections import Counter

from lib.harness import TOP, Folder, Wrong, run_tests, shortened
from lib.messages import OK, create, export, extent_is, instances, put, users_are

sys.path.insert(0, os.path.join(TOP, "tools"))

from ask import requests_in  # noqa: E402

HERE = os.path.join(TOP, "example/assembly")
NAME = "MECHANICAL_ASSEMBLY"
CONFIG = {"partners": [{"name": "ann", "token": "ta"}], "schemas": ["assembly.exp"]}

# What the page has a row for: each sort of type, operator, literal, function of the language and statement of the profile.
WRITTEN = """
    INTEGER REAL NUMBER STRING BINARY FIXED BOOLEAN LOGICAL ENUMERATION SELECT ARRAY LIST BAG SET OPTIONAL UNIQUE GENERIC AGGREGATE
    ABSTRACT SUPERTYPE SUBTYPE ONEOF ANDOR DERIVE FOR RULE WHERE LOCAL
    + - * ** DIV MOD NOT AND OR XOR = <> < > <= >= :=: :<>: IN { } [ ] . \\ QUERY <* SELF TRUE FALSE UNKNOWN ? % := ;
    ABS BLENGTH EXISTS HIINDEX LENGTH LOINDEX NVL ODD SIZEOF TYPEOF USEDIN VALUE_IN
    IF THEN ELSE CASE OTHERWISE REPEAT TO BY WHILE UNTIL BEGIN END SKIP ESCAPE RETURN
""".split()

TOKEN = re.compile(r"'(?:[^'\n]|'')*'|\"[0-9A-Fa-f]+\"|(%)[01]+|\d+(?:\.\d*(?:[eE][+-]?\d+)?)?|[A-Za-z]\w*"
                   r"|:<>:|:=:|:=|<=|<>|<\*|>=|\*\*|%|[^\s\w]")


def of_file(*path):
    with open(os.path.join(HERE, *path), encoding="utf-8") as it:
        return it.read()


def steps_of(folder):
    return sorted(it for it in os.listdir(os.path.join(HERE, folder)) if it.endswith(".step"))


def count_of(text):
    """How many instances a file has that begins each on a line of its own."""
    return len(re.findall(r"^#\d+=", text, re.MULTILINE))


# ---- the program

def models():
    """Each file by the name of its model, with its links, and those first that others lead to."""
    asked = {it.keys["model"]: it.keys for it in requests_in(HERE) if it.keys["do"] == "put"}
    great = {name: (keys["file"], keys.get("links", [])) for name, keys in asked.items()}
    return {**great, **{it.removesuffix(".step"): (of_file("broken", it), []) for it in steps_of("broken")}}


def replies_to(lines):
    """What the program answers to lines by this schema, a reply each."""
    with Folder(**{"config.json": json.dumps(CONFIG), "assembly.exp": of_file("assembly.exp")}) as folder:
        status, output, errors = folder.run("batch", "--config", "config.json", text=b"".join(it + b"\n" for it in lines))
    replies = output.splitlines()
    if (status, errors, len(replies)) != (0, b"", len(lines)):
        raise Wrong(f"status {status}, {len(replies)} replies to {len(lines)} lines, standard error {errors!r}")
    return replies


def expect_each(replies, wanted):
    for (what, reply), it in zip(replies, wanted, strict=True):
        if reply != it:
            raise Wrong(f"{what}: {shortened(reply)!r} in place of {shortened(it)!r}")


def exported(files):
    """The replies to exports of models with these files and links; each put has to be taken."""
    lines = [it for name, (file, links) in files.items()
             for it in (create("ann", name, NAME), put("ann", "ann", name, file, *links), export("ann", "ann", name, links=True))]
    replies = replies_to(lines)
    whole = [(name, [OK, instances(count_of(file))]) for name, (file, _) in files.items()]
    expect_each([(name, reply) for place, (name, _) in enumerate(whole) for reply in replies[3 * place:3 * place + 2]],
                [it for _, wanted in whole for it in wanted])
    return dict(zip(files, replies[2::3]))


def test_check_takes_the_schema():
    """It is a schema of the profile, and nothing is warned of."""
    with Folder(**{"assembly.exp": of_file("assembly.exp")}) as folder:
        seen = folder.run("check", "assembly.exp")
    if seen != (0, f"{NAME}: ok\n".encode(), b""):
        raise Wrong(f"{seen!r}")


def test_requests():
    """What the page asks is answered: the group has the instances of both models, and the report that was worked out by hand."""
    asked = requests_in(HERE)
    part, assembly = (count_of(of_file(it)) for it in ("part.step", "assembly.step"))
    definitions = [("ann", "plate", 8), *(("ann", "support", it) for it in (80, 110, 140, 170, 200))]
    wanted = [OK, instances(part), OK, instances(assembly), OK, OK, OK, extent_is(*definitions), users_are(("ann", "support", 290)),
              of_file("reports", "assembly.json").rstrip("\n").encode()]
    replies = replies_to([json.dumps(it.keys).encode() for it in asked])
    expect_each(zip((it.words for it in asked), replies, strict=True), wanted)


def test_round_trips():
    """Each file is taken, and what is exported of it is taken again and exported as the same bytes."""
    files = models()
    first = exported(files)
    told = {name: json.loads(it)["ok"] for name, it in first.items()}
    for name, it in told.items():
        if it["links"] != sorted(files[name][1], key=lambda link: link["name"]):
            raise Wrong(f"{name} has the links {it['links']}")
    again = exported({name: (it["file"], it["links"]) for name, it in told.items()})
    expect_each(again.items(), first.values())
    print(f"assembly: {len(files)} files were put, exported, put and exported")


# ---- the page

def tokens_of(text):
    return [it[1] or it[0].upper() for it in TOKEN.finditer(text)]


def declarations():
    """The text of each declaration of the schema by its name in lower case, remarks aside."""
    text = re.sub(r"--[^\n]*", "", of_file("assembly.exp"))
    text = re.sub(r"\(\*.*?\*\)", "", text, flags=re.DOTALL)
    constants = re.search(r"\bCONSTANT\b(.*?)\bEND_CONSTANT;", text, re.DOTALL)[1]
    found = {it[1]: it[0] for it in re.finditer(r"^ *(\w+) *: .*?;", constants, re.MULTILINE | re.DOTALL)}
    found.update((it[2], it[0]) for it in re.finditer(r"^(TYPE|ENTITY|FUNCTION|RULE) (\w+).*?\bEND_\1;", text, re.MULTILINE | re.DOTALL))
    return found


def text_at(declared, place):
    """The text of a declaration, or behind a point of one attribute or rule of it."""
    name, _, label = place.partition(".")
    text = declared.get(name, "")
    if not label:
        return text
    found = re.search(rf"\b{re.escape(label)} *:(?!=).*?;", text, re.DOTALL)
    return found[0] if found else ""


def tables(head):
    """The rows of the tables of the page whose head begins so, each a list of its cells."""
    found = re.findall(rf"^\| {head} \|.*\n\|[-|]+\n((?:\|.*\n)+)", of_file("README.md"), re.MULTILINE)
    return [[it.strip() for it in row.strip("|").split("|")] for table in found for row in table.splitlines()]


def in_backticks(cell):
    return re.findall(r"`([^`]+)`", cell)


def test_page_names_what_stands_where():
    """In each row of its tables what is written stands in each place, as often; and each form of the profile has a row."""
    declared = declarations()
    rows = tables("what")
    for what, written, where in rows:
        words = [word for it in in_backticks(written) for word in tokens_of(it)]
        if not words or not in_backticks(where):
            raise Wrong(f"{what}: nothing is named")
        for place in in_backticks(where):
            missing = Counter(words) - Counter(tokens_of(text_at(declared, place)))
            if missing:
                raise Wrong(f"{what}: {place} has not {' '.join(missing.elements())}")
    named = {word for _, written, _ in rows for it in in_backticks(written) for word in tokens_of(it)}
    missing = [it for it in WRITTEN if it not in named]
    if missing:
        raise Wrong(f"no row has {' '.join(missing)}")
    print(f"assembly: {len(rows)} rows of what stands where")


def test_page_names_the_files():
    """It has a row for each broken file, and for each culprit that a greater file speaks of; their rules are in the schema."""
    declared = declarations()
    rows = tables("file")
    named = [re.search(r"\(broken/([\w.]+)\)", it[0])[1] for it in rows]
    if sorted(named) != steps_of("broken"):
        raise Wrong(f"{sorted(named)} in place of {steps_of('broken')}")
    culprits = tables("instance")
    for place in [it for row in [*(it[2] for it in rows), *(it[1] for it in culprits)] for it in in_backticks(row)]:
        if not text_at(declared, place):
            raise Wrong(f"the schema has no {place}")
    said = {"plate": of_file("part.step"), "support": of_file("assembly.step")}
    for instance, *_ in culprits:
        name, model = re.fullmatch(r"(\d+) of the (\w+)", instance).groups()
        comment = re.search(r"^DATA;\n/\*(.*?)\*/", said[model], re.MULTILINE | re.DOTALL)[1]
        if f"#{name} " not in comment or f"\n#{name}=" not in said[model]:
            raise Wrong(f"{model} doesn't speak of #{name}")


def test_page_counts():
    """It tells how many entities the schema has, and how many instances the greater files have."""
    page = of_file("README.md")
    entities = len(re.findall(r"^ENTITY ", of_file("assembly.exp"), re.MULTILINE))
    told = [f"{entities} entities", *(f"{count_of(of_file(it))} instances" for it in ("part.step", "assembly.step"))]
    missing = [it for it in told if it not in page]
    if missing:
        raise Wrong(f"it doesn't tell of {', '.join(missing)}")


def test_broken_files_are_small():
    """Each says in one line of comment what is broken, and has at most 15 instances."""
    for name in steps_of("broken"):
        text = of_file("broken", name)
        if not re.search(r"^DATA;\n/\* [^\n]+ \*/\n#", text, re.MULTILINE) or not 1 <= count_of(text) <= 15:
            raise Wrong(name)


if __name__ == "__main__":
    run_tests("assembly", globals(), sys.argv[1:])
