"""Reads the reports of tests/data/reports/, which were worked out by hand: their schemas, models and entries, and the requests that a
report is asked by. The README beside them says what a file may hold.
"""
import os
import re
from typing import NamedTuple

from lib.harness import TOP
from lib.messages import file_of, line

FOLDER = os.path.join(TOP, "tests/data/reports")
KEYS = ("report", "schema", "models", "checks", "steps")
MODEL = re.compile(r"(aside )?(\w+) (\w+)((?: #\d+=\w+\.\w+\.\d+)*): ?(.*)")
LINK = re.compile(r"#(\d+)=(\w+)\.(\w+)\.(\d+)")
GROUP = "g"


class Fault(Exception):
    """A report that isn't one."""


class Model(NamedTuple):
    """A model, whose links are (name, owner, model, instance). The file is one, or the instances alone that one has."""

    owner: str
    name: str
    file: str
    links: list
    counts: bool

    def whole_file(self, schema):
        return self.file if "ISO-10303-21" in self.file else file_of(self.file, schema)


class Report(NamedTuple):
    """A report by its name, with its entries to the byte, and the text behind `steps`."""

    name: str
    topic: str
    schema: str
    models: list
    entries: list
    steps: str

    def schema_name(self):
        return re.search(r"\bSCHEMA\s+(\w+)", self.schema)[1].upper()

    def population(self):
        """The models that count, as plain readings take them."""
        return [(it.owner, it.name, it.file, it.links) for it in self.models if it.counts]

    def answer(self):
        """The reply's bytes."""
        return b'{"ok":{"checks":[%s],"steps":%d}}' % (",".join(self.entries).encode(), int(self.steps.partition("=")[0]))

    def partners(self):
        return sorted({it.owner for it in self.models})

    def requests(self):
        """The lines that make the models and the group, which the owner of the last model has, and at last ask for the report."""
        schema, asker = self.schema_name(), self.models[-1].owner
        lines = []
        for it in self.models:
            links = [{"name": name, "owner": owner, "model": model, "instance": instance} for name, owner, model, instance in it.links]
            lines.append(line(it.owner, "create_model", name=it.name, schema=schema))
            lines.append(line(it.owner, "put", owner=it.owner, model=it.name, file=it.whole_file(schema), links=links))
            if it.owner != asker:
                lines.append(line(it.owner, "grant", kind="model", name=it.name, to=asker, level="group" if it.counts else "read"))
        lines.append(line(asker, "create_group", name=GROUP, schema=schema))
        lines += [line(asker, "include", group=GROUP, owner=it.owner, model=it.name) for it in self.models if it.counts]
        return [*lines, line(asker, "validate", owner=asker, group=GROUP)]


def blocks_of(text):
    """The blocks of a file, each a map from its keys to their lines."""
    blocks, key = [], None
    for text_line in text.splitlines():
        if not text_line.strip() or text_line.startswith("--"):
            continue
        if text_line.startswith("  ") and key:
            blocks[-1][key].append(text_line.strip())
            continue
        key, colon, rest = text_line.partition(":")
        if key == "report":
            blocks.append({})
        if not colon or not blocks or key not in KEYS or key in blocks[-1]:
            raise Fault(f"{text_line!r}")
        blocks[-1][key] = [rest.strip()] if rest.strip() else []
    return blocks


def text_of(text):
    """A text, or that of the file that it names."""
    if not text.startswith("@"):
        return text
    with open(os.path.join(TOP, text[1:]), encoding="utf-8") as it:
        return it.read()


def model_of(text):
    found = MODEL.fullmatch(text)
    if not found:
        raise Fault(f"no model: {text!r}")
    aside, owner, name, links, instances = found.groups()
    linked = [(int(it), whose, model, int(instance)) for it, whose, model, instance in LINK.findall(links)]
    return Model(owner, name, text_of(instances), linked, not aside)


def report_of(topic, keys):
    missing = [it for it in KEYS if not keys.get(it)]
    if missing:
        raise Fault(f"{keys.get('report')}: no {', '.join(missing)}")
    models = [model_of(it) for it in keys["models"]]
    return Report(keys["report"][0], topic, text_of("\n".join(keys["schema"])), models, keys["checks"], " ".join(keys["steps"]))


def read_reports():
    """All reports, in order of the files' names."""
    found = []
    for name in sorted(os.listdir(FOLDER)):
        if name.endswith(".txt"):
            with open(os.path.join(FOLDER, name), encoding="utf-8") as it:
                found += [report_of(name[:-4], keys) for keys in blocks_of(it.read())]
    return found
