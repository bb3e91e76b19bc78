#!/usr/bin/env python3
"""Asks the program for reports that were worked out by hand, each over a group that is made of its models: those of tests/data/reports/
and those of example/assembly. Each reply is its report, byte for byte.

    tests/validated_reports.py [PROGRAM]

The last line is 'validated reports: N passed, M failed', and the status is 0 only if none failed.
"""
import json
import os
import sys

from lib.harness import TOP, run_parts
from lib.report_rows import Model, Report, read_reports

sys.path.insert(0, os.path.join(TOP, "tools"))

from ask import requests_in  # noqa: E402

ASSEMBLY = os.path.join(TOP, "example/assembly")


def replies_to(it, one):
    """The replies to the requests of a report, or how the program ended otherwise."""
    it.folder.write("schema.exp", one.schema)
    partners = [{"name": name, "token": f"token-of-{name}"} for name in one.partners()]
    it.folder.write("config.json", json.dumps({"partners": partners, "schemas": ["schema.exp"]}))
    status, out, err = it.folder.run("batch", "--config", "config.json", text=b"".join(line + b"\n" for line in one.requests()))
    return out.split(b"\n")[:-1] if (status, err) == (0, b"") else [b"status %d, %s" % (status, err)]


def expect_report(it, one, answer):
    *before, reply = replies_to(it, one)
    it.expect(f"{one.topic}, {one.name}: replies", len(before), len(one.requests()) - 1)
    it.expect(f"{one.topic}, {one.name}: refused requests", [it for it in before if not it.startswith(b'{"ok"')], [])
    it.expect(f"{one.topic}, {one.name}", reply, answer)


def small_reports(it):
    for one in read_reports():
        expect_report(it, one, one.answer())


def text_of(*path):
    with open(os.path.join(ASSEMBLY, *path), encoding="utf-8") as it:
        return it.read()


def report_of_assembly(it, name, models):
    """A report of models of the schema of the assembly."""
    one = Report(name, "assembly", text_of("assembly.exp"), models, [], "")
    expect_report(it, one, text_of("reports", f"{name}.json").rstrip("\n").encode())


def reports_of_assembly(it):
    """Of each broken file alone, and of the two models that the example puts together."""
    for file in sorted(os.listdir(os.path.join(ASSEMBLY, "broken"))):
        name = os.path.splitext(file)[0]
        report_of_assembly(it, name, [Model("ann", name, text_of("broken", file), [], True)])
    puts = [request.keys for request in requests_in(ASSEMBLY) if request.keys["do"] == "put"]
    links = lambda keys: [(one["name"], one["owner"], one["model"], one["instance"]) for one in keys.get("links", [])]
    report_of_assembly(it, "assembly", [Model(keys["owner"], keys["model"], keys["file"], links(keys), True) for keys in puts])


if __name__ == "__main__":
    run_parts("validated reports", (small_reports, reports_of_assembly), sys.argv[1:])
