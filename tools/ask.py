#!/usr/bin/env python3
"""Asks the program what a file of requests in plain words says, and shows what each partner is told.

    tools/ask.py FOLDER                       FOLDER/requests.txt, by the configuration FOLDER/config.json
    tools/ask.py SCHEMA.exp FILE.step         a schema and a file of your own: it is put, validated and exported; where
                                              it is refused, its fault is shown with its place
    tools/ask.py --trial ..                   by a trial run of the program's code, which isn't proved: one build serves all requests
    tools/ask.py --program PROGRAM ..         by this program, where it isn't the one that was built here
    tools/ask.py --columns ..                 a column for each partner, and a row for each request
    tools/ask.py --lines ..                   asks nothing, and prints the lines of the requests alone

A line of requests.txt is a request: who asks, what to do, and the keys with their values.

    ann put owner=ann model=plate file=@plate.step
    ann get owner=ann model=plate instance:=10

`key=text` is a text, `key=@FILE` the text of a file beside requests.txt, and `key:=JSON` any other value. Words with
blanks stand in quotes, as a shell has them. A line that begins with a blank goes on the one before it, and one that begins
with `#` is a remark. Paths of the configuration start at FOLDER.
"""
import argparse
import hashlib
import json
import os
import re
import shlex
import signal
import subprocess
import sys
import tempfile
import textwrap
from typing import NamedTuple

from try_cases import Case, Fault, Seen, try_cases

TOP = os.path.dirname(os.path.dirname(os.path.abspath(__file__)))
PROGRAM = os.path.join(TOP, "crates/rp_server/out/rp_server")
# the longest run of a trial; the checks make it slower than the built program
SECONDS = 600
ANN = {"name": "ann", "token": "ta"}
COLUMN = 46


class Request(NamedTuple):
    """A request: its words, and the object that it is."""

    words: str
    keys: dict

    @property
    def who(self):
        return self.keys["as"]

    @property
    def asked(self):
        """The words without who asks."""
        return self.words.split(None, 1)[1]


class Run(NamedTuple):
    """A run of the program: the words of its command line and its standard input. Where it reads a file that isn't in the folder,
    `name` is the word for this file and `text` has its bytes."""

    words: tuple
    given: bytes = b""
    name: str = ""
    text: bytes = b""


# ---- requests

def of_bytes(path):
    with open(path, "rb") as it:
        return it.read()


def of_file(path):
    with open(path, encoding="utf-8") as it:
        return it.read()


def value_of(folder, word):
    """The key and the value that a word spells."""
    found = re.fullmatch(r"(\w+)(:?=)(.*)", word, re.DOTALL)
    if not found:
        sys.exit(f"ask: {word!r} is no key=text and no key:=JSON")
    key, sign, text = found.groups()
    if sign == ":=":
        return key, json.loads(text)
    return key, of_file(os.path.join(folder, text[1:])) if text.startswith("@") else text


def request_of(folder, words):
    who, do, *keys = shlex.split(words)
    return Request(words, {"as": who, "do": do, **dict(value_of(folder, it) for it in keys)})


def requests_in(folder):
    """The requests of requests.txt."""
    lines = []
    for line in of_file(os.path.join(folder, "requests.txt")).splitlines():
        if line.startswith("#") or not line.strip():
            continue
        if line[0].isspace() and lines:
            lines[-1] += " " + line.strip()
        else:
            lines.append(line.strip())
    return [request_of(folder, it) for it in lines]


def schema_name(text):
    """The name of a schema's text: the word behind SCHEMA, remarks aside."""
    found = re.search(r"\bSCHEMA\s+([A-Za-z]\w*)", re.sub(r"\(\*.*?\*\)|--[^\n]*", " ", text, flags=re.DOTALL), re.IGNORECASE)
    if not found:
        sys.exit("ask: the schema's file has no SCHEMA with a name")
    return found[1]


def fill(folder, schema, file):
    """Writes a configuration and requests that put a file by a schema, validate a group of it alone, and export it."""
    for name, path in (("schema.exp", schema), ("file.step", file)):
        with open(os.path.join(folder, name), "wb") as copy:
            copy.write(of_bytes(path))
    try:
        name = schema_name(of_file(os.path.join(folder, "schema.exp")))
        of_file(os.path.join(folder, "file.step"))
    except UnicodeDecodeError:
        sys.exit("ask: a request is UTF-8, and one of these files isn't: iconv -f ISO-8859-1 -t UTF-8 may make it so")
    with open(os.path.join(folder, "config.json"), "w", encoding="utf-8") as it:
        json.dump({"partners": [ANN], "schemas": ["schema.exp"]}, it)
    with open(os.path.join(folder, "requests.txt"), "w", encoding="utf-8") as it:
        it.write(f"ann create_model name=m schema={name}\nann put owner=ann model=m file=@file.step\n"
                 f"ann create_group name=g schema={name}\nann include group=g owner=ann model=m\nann validate owner=ann group=g\n"
                 "ann export owner=ann model=m\n")


# ---- replies

def config_of(folder):
    return json.loads(of_file(os.path.join(folder, "config.json")))


def schemas_of(folder):
    """The names of the configuration's schemas. The program reports what is wrong with a configuration."""
    config = config_of(folder)
    names = config.get("schemas") if isinstance(config, dict) else None
    return [it for it in names if isinstance(it, str)] if isinstance(names, list) else []


def batch_of(requests):
    """The run that answers these requests."""
    return Run(("batch", "--config", "config.json"), "".join(json.dumps(it.keys, ensure_ascii=False) + "\n" for it in requests).encode())


def validation_of(folder, request):
    """The run in which `validate` reads the file of a put, with the schemas of the configuration; None for another request."""
    text = request.keys.get("file")
    if request.keys["do"] != "put" or not isinstance(text, str):
        return None
    name = f"{hashlib.sha256(text.encode()).hexdigest()[:16]}.step"
    words = [word for it in schemas_of(folder) for word in ("--schema", it)]
    return Run(("validate", *words, name), name=name, text=text.encode())


class Built:
    """A program that is built. Each run is made when its result is needed."""

    def __init__(self, folder, path):
        self.folder, self.path = folder, os.path.abspath(path)
        if not os.access(self.path, os.X_OK):
            sys.exit(f"ask: there is no program {self.path}: build it, or take --trial")

    def seen(self, run):
        with tempfile.TemporaryDirectory() as place:
            words = list(run.words)
            if run.name:
                words[words.index(run.name)] = path = os.path.join(place, run.name)
                with open(path, "wb") as it:
                    it.write(run.text)
            done = subprocess.run([self.path, *words], cwd=self.folder, input=run.given, capture_output=True, check=False)
        return Seen(done.returncode, done.stdout, done.stderr)


class Trial:
    """The program before its proof. One build serves all runs, so all that may be needed are made at once: the replies to the
    requests, and a validation for each put, since it isn't known yet which one is refused."""

    def __init__(self, folder, runs):
        files = {it: of_bytes(os.path.join(folder, it)) for it in ["config.json", *schemas_of(folder)]}
        files.update((it.name, it.text) for it in runs if it.name)
        self.runs = dict(zip(runs, try_cases([Case(it.words, it.given) for it in runs], files, "ask", SECONDS)))

    def seen(self, run):
        return self.runs[run]


def program_of(folder, requests, asked):
    """What gives the results of runs."""
    if not asked.trial:
        return Built(folder, asked.program or PROGRAM)
    # (columns show no place of a fault)
    validations = [] if asked.columns else [validation_of(folder, it) for it in requests]
    return Trial(folder, list(dict.fromkeys([batch_of(requests), *filter(None, validations)])))


def replies_to(requests, program):
    """A reply for each request."""
    seen = program.seen(batch_of(requests))
    replies = seen.output.decode().splitlines()
    if seen.is_cut:
        sys.exit("ask: the answer is longer than 1 MiB, the limit of a trial: build the program, and ask without --trial")
    if seen.status != 0 or len(replies) != len(requests):
        sys.exit(f"ask: status {seen.status}, {len(replies)} replies to {len(requests)} requests\n{seen.errors.decode(errors='replace').rstrip()}")
    return replies


def compact(value):
    return json.dumps(value, separators=(",", ":"), ensure_ascii=False)


def is_text(reply):
    return "file" in json.loads(reply).get("ok", {})


def told_of_file(folder, request, reply, program):
    """The lines in which `validate` tells of a file whose put is refused, where it finds the same fault: the model's links, which it
    doesn't know, and its schema may make another."""
    refused = json.loads(reply).get("refused", {})
    run = validation_of(folder, request)
    if not run or refused.get("code") not in (11, 12):
        return []
    output = program.seen(run).output.decode(errors="replace")
    first, *others = output.partition("\n\nNot taken: ")[0].split("\n")
    found = re.fullmatch(rf".*{re.escape(run.name)}: code (\d+) \w+, kind (\w+)(?:, instance #(\d+))?(, line \d+ column \d+)", first)
    same = found and (int(found[1]), found[2], found[3]) == (
        refused["code"], refused["kind"], str(refused["instance"]) if "instance" in refused else None)
    return [found[4].removeprefix(", "), *others] if same else []


def show_place(request, reply):
    """The line of the text in which the byte of a refusal lies, with a caret below it."""
    refused = json.loads(reply).get("refused", {})
    text = request.keys.get("file", request.keys.get("text"))
    if "at" in refused and isinstance(text, str):
        before, behind = text.encode()[:refused["at"]].decode(errors="ignore"), text.encode()[refused["at"]:].decode(errors="ignore")
        line = before.rpartition("\n")[2]
        print(f"    line {before.count(chr(10)) + 1} of it:\n    | {line}{behind.partition(chr(10))[0]}\n    | {' ' * len(line)}^")


def show_refusal(folder, request, reply, program):
    """A reply that is neither a text nor a report; below a refusal the place of the fault."""
    print("    " + reply)
    lines = told_of_file(folder, request, reply, program)
    for it in lines:
        print(f"    | {it}".rstrip())
    if not lines:
        show_place(request, reply)


def show_report(report):
    """How many checks are TRUE, and each other entry in a line."""
    checks = report.pop("checks")
    others = [it for it in checks if it["verdict"] != "TRUE"]
    print(f"    {compact({'ok': {'checks': '..', **report}})}, and {len(checks) - len(others)} of {len(checks)} checks are TRUE{':' * bool(others)}")
    for it in others:
        print(f"    | {compact(it)}")


def show(folder, requests, replies, program):
    """Each request with its reply below it. The file of an export is shown as its lines, and of a report what isn't TRUE."""
    for request, reply in zip(requests, replies):
        print(request.words)
        if is_text(reply):
            told = json.loads(reply)["ok"]
            text = told.pop("file")
            print(f"    {compact({'ok': {'file': '..', **told}})}, and the file is")
            print(textwrap.indent(text, "    | "), end="")
        elif "checks" in json.loads(reply).get("ok", {}):
            show_report(json.loads(reply)["ok"])
        else:
            show_refusal(folder, request, reply, program)


# ---- columns

def in_rows(requests, replies):
    """The rows: what is asked, and the replies by who asks. What several ask one after the other is one row."""
    rows = []
    for request, reply in zip(requests, replies):
        if not rows or rows[-1][0] != request.asked or request.who in rows[-1][1]:
            rows.append((request.asked, {}))
        rows[-1][1][request.who] = reply
    return rows


def cell(reply):
    """The lines of a reply in its column: together they are the reply."""
    lines = [""]
    for piece in re.findall(r'.+?(?:\\n|,(?=["{])|\Z)', reply or "."):
        if len(lines[-1]) + len(piece) > COLUMN or lines[-1].endswith("\\n"):
            lines.append("")
        while len(piece) > COLUMN:
            lines[-1:] = [piece[:COLUMN], ""]
            piece = piece[COLUMN:]
        lines[-1] += piece
    return [it for it in lines if it]


def show_columns(partners, requests, replies):
    """A row for each request, with what each partner is told by it. A point stands for nothing."""
    def line(cells):
        return "  ".join(f"{it:{COLUMN}}" for it in cells).rstrip()

    print(line(partners))
    for asked, told in in_rows(requests, replies):
        print("\n> " + "\n  ".join(textwrap.wrap(", ".join(told) + ": " + asked, 3 * COLUMN, break_on_hyphens=False)))
        cells = [cell(told.get(it)) for it in partners]
        for place in range(max(map(len, cells))):
            print(line(it[place] if place < len(it) else "" for it in cells))


def up_to_refusal(requests, replies):
    """These, and none behind a put that is refused: there is nothing to validate or to export then."""
    for place, (request, reply) in enumerate(zip(requests, replies), 1):
        if request.keys["do"] == "put" and "refused" in json.loads(reply):
            return requests[:place], replies[:place]
    return requests, replies


def run(folder, asked):
    requests = requests_in(folder)
    if asked.lines:
        for it in requests:
            print(json.dumps(it.keys, ensure_ascii=False))
        return
    program = program_of(folder, requests, asked)
    replies = replies_to(requests, program)
    if len(asked.paths) == 2:
        requests, replies = up_to_refusal(requests, replies)
    if asked.columns:
        show_columns([it["name"] for it in config_of(folder)["partners"]], requests, replies)
    else:
        show(folder, requests, replies, program)


def main():
    parser = argparse.ArgumentParser(description=__doc__, formatter_class=argparse.RawDescriptionHelpFormatter)
    parser.add_argument("--trial", action="store_true", help="a trial run of the code, which isn't proved")
    parser.add_argument("--program", help="the program, where it isn't the one that was built here")
    parser.add_argument("--columns", action="store_true", help="a column for each partner")
    parser.add_argument("--lines", action="store_true", help="asks nothing, and prints the requests alone")
    parser.add_argument("paths", nargs="+", metavar="PATH", help="a folder, or a schema and a file")
    asked = parser.parse_args()
    if len(asked.paths) > 2:
        parser.error("a folder, or a schema and a file")
    if len(asked.paths) == 1 and not os.path.isdir(asked.paths[0]):
        parser.error(f"{asked.paths[0]} isn't a folder: name one with requests.txt and config.json, or a schema and a file")
    try:
        if len(asked.paths) == 1:
            run(asked.paths[0], asked)
        else:
            with tempfile.TemporaryDirectory() as folder:
                fill(folder, *asked.paths)
                run(folder, asked)
    except OSError as fault:
        sys.exit(f"ask: {fault.filename}: {fault.strerror}" if fault.filename else f"ask: {fault}")
    except (Fault, ValueError) as fault:
        sys.exit(f"ask: {fault}")
    except KeyboardInterrupt:
        sys.exit(128 + signal.SIGINT)


if __name__ == "__main__":
    main()
