#!/usr/bin/env python3
"""Runs the examples of README.md and of the documents, and compares what they print byte for byte.

    .ci/check_readme.py [PROGRAM]

Fenced blocks of a page whose first line has one of these forms make up its examples:

    ```json file=config.json     the block is the file config.json of the folder that examples run in
    ```sh example                the block is a command, run there by bash; rp_server is in its PATH
    ```sh server                 the block starts `rp_server serve`, which goes on while the examples of the page run. The port 8080
                                 stands for one that is free, here and in the commands
    ```text output               the block is exactly what the command before it prints
    ```json request              each line is a request; all those of a page are asked in one run, by its config.json
    ```json reply                the replies to the requests of the block before it, a line each

`crates/rp_server/out/rp_server` is the program in that folder too, and `example/` and the scripts of `tools/` are those of the
repository. The examples of a page that lies in `example/` run in a copy of its folder. A command prints nothing on
standard error and ends with status 0. There has to be at least one example.

Each document that names the toolchain by its sum, as `logic 0123456789abcdef`, names the one that `rt version` prints.
"""
import contextlib
import os
import re
import shutil
import subprocess
import sys
import tempfile
import threading
from typing import NamedTuple

TOP = os.path.dirname(os.path.dirname(os.path.abspath(__file__)))
PROGRAM = os.path.join(TOP, "crates/rp_server/out/rp_server")
PAGES = ("README.md", "docs/DELIVERIES.md", "docs/HTTP.md", "docs/REQUESTS.md", "docs/SNAPSHOTS.md", "docs/REFUSALS.md", "docs/REPORTS.md", "docs/EXCHANGE-FILES.md", "docs/EXPRESS-PROFILE.md",
         "example/session/README.md", "example/assembly/README.md")
BATCH = "rp_server batch --config config.json"
PORT = "127.0.0.1:8080"
SUM = re.compile(r"`(logic [0-9a-f]{16})`")


class Example(NamedTuple):
    """A command, what stands on its standard input, and what it has to print."""

    command: str
    given: str
    output: str


def of_page(page):
    try:
        with open(os.path.join(TOP, page), encoding="utf-8") as it:
            return it.read()
    except OSError as fault:
        sys.exit(f"check_readme: {fault}")


def blocks_of(text):
    """The fenced blocks: what stands after the first fence, and the text."""
    return re.findall(r"^```([^\n`]*)\n(.*?)^```[ ]*$", text, re.MULTILINE | re.DOTALL)


def pairs_of(blocks, first, second):
    """Each block of the first word with the block of the second that has to come next of the two."""
    pairs = []
    for words, body in blocks:
        if words[1:] == [first]:
            pairs.append([body, None])
        elif words[1:] == [second]:
            if not pairs or pairs[-1][1] is not None:
                sys.exit(f"check_readme: '{second}' with no '{first}' before it")
            pairs[-1][1] = body
    missing = [asked for asked, told in pairs if told is None]
    if missing:
        sys.exit(f"check_readme: no '{second}' stands after {missing[0]!r}")
    return pairs


def files_of(blocks):
    """The files of a page, by their names."""
    files = {}
    for words, body in blocks:
        if len(words) == 2 and words[1].startswith("file="):
            name = words[1].removeprefix("file=")
            if not re.fullmatch(r"[\w-][\w.-]*", name) or name in files:
                sys.exit(f"check_readme: {name!r} can't be the name of an example's file, or stands twice")
            files[name] = body
    return files


def examples_of(blocks):
    """The commands of a page, and the requests and replies of all its blocks as one command more."""
    examples = [Example(command, "", output) for command, output in pairs_of(blocks, "example", "output")]
    asked = pairs_of(blocks, "request", "reply")
    for lines, replies in asked:
        if lines.count("\n") != replies.count("\n"):
            sys.exit(f"check_readme: not as many replies as requests: {lines!r}")
    if asked:
        examples.append(Example(BATCH, "".join(it for it, _ in asked), "".join(it for _, it in asked)))
    return examples


def fill(folder, program, page, files):
    """Makes the folder that a page's examples run in, and gives it with the program's folder."""
    bin_folder = os.path.join(folder, "crates/rp_server/out")
    os.makedirs(bin_folder)
    os.symlink(program, os.path.join(bin_folder, "rp_server"))
    shutil.copytree(os.path.join(TOP, "example"), os.path.join(folder, "example"))
    shutil.copytree(os.path.join(TOP, "tools"), os.path.join(folder, "tools"), ignore=lambda _, names: [it for it in names if not it.endswith(".py")])
    where = os.path.join(folder, os.path.dirname(page) if page.startswith("example/") else "")
    for name, body in files.items():
        with open(os.path.join(where, name), "w", encoding="utf-8") as it:
            it.write(body)
    return where, bin_folder


@contextlib.contextmanager
def served(command, where, env):
    """Runs the server of a page, if it has one, and gives its address. It has to be there still at the end, and to have written one line."""
    if command is None:
        yield PORT
        return
    process = subprocess.Popen(["bash", "-c", f"exec {command.replace(PORT, '127.0.0.1:0')}"], cwd=where, env=env, stdin=subprocess.DEVNULL,
                               stdout=subprocess.PIPE, stderr=subprocess.PIPE, text=True)
    # (one that says nothing is ended, and so is the wait for its line)
    timer = threading.Timer(60, process.kill)
    timer.start()
    try:
        line = process.stderr.readline()
        timer.cancel()
        found = re.fullmatch(r"rp_server: listening on (127\.0\.0\.1:\d+)\n", line)
        if not found:
            sys.exit(f"check_readme: {command!r} wrote {line!r} on standard error")
        yield found[1]
        status = process.poll()
    finally:
        process.kill()
        seen = process.communicate()
    if status is not None or seen != ("", ""):
        sys.exit(f"check_readme: {command!r} ended with status {status} and wrote {seen}")


def first_difference(seen, wanted):
    """The first line of an output that is another one than wanted."""
    pairs = zip([*seen.splitlines(), "(the end)"], [*wanted.splitlines(), "(the end)"])
    return next((f"{it!r}\nin place of\n{other!r}" for it, other in pairs if it != other), "other line ends")


def run_example(example, page, where, env, address):
    done = subprocess.run(["bash", "-euo", "pipefail", "-c", example.command.replace(PORT, address)], cwd=where, env=env,
                          input=example.given.encode(), capture_output=True, timeout=120, check=False)
    seen, errors = done.stdout.decode(errors="replace"), done.stderr.decode(errors="replace")
    if done.returncode != 0 or errors or seen != example.output:
        sys.exit(f"check_readme: {page}: {example.command!r} gave status {done.returncode} and\n{errors}"
                 f"{first_difference(seen, example.output)}")


def run_examples(program, page):
    """Runs the examples of a page in a folder of their own, and gives their number."""
    blocks = [(head.split(), body) for head, body in blocks_of(of_page(page))]
    examples = examples_of(blocks)
    if not examples:
        sys.exit(f"check_readme: {page} has no example")
    with tempfile.TemporaryDirectory() as folder:
        where, bin_folder = fill(folder, program, page, files_of(blocks))
        env = {**os.environ, "PATH": f"{bin_folder}:{os.environ['PATH']}", "no_proxy": "127.0.0.1"}
        server = next((body for words, body in blocks if words[1:] == ["server"]), None)
        with served(server, where, env) as address:
            for example in examples:
                run_example(example, page, where, env, address)
    return len(examples)


def sums_named():
    """How often documents name the toolchain, each time by the sum that it has."""
    try:
        printed = subprocess.run(["rt", "version"], capture_output=True, text=True, check=True).stdout
    except (OSError, subprocess.CalledProcessError) as fault:
        sys.exit(f"check_readme: rt version: {fault}")
    listed = subprocess.run(["git", "ls-files", "*.md"], cwd=TOP, capture_output=True, text=True, check=True).stdout.split()
    named = [(page, it) for page in listed for it in SUM.findall(of_page(page))]
    for page, name in named:
        if name not in printed:
            sys.exit(f"check_readme: {page} names {name}, and rt version prints {printed.strip()}")
    return len(named)


def main(words):
    program = os.path.abspath(words[0] if words else PROGRAM)
    if not os.access(program, os.X_OK):
        sys.exit(f"check_readme: there is no program {program}: run rt ci first, or name it")
    named = sums_named()
    print(f"check_readme: {sum(run_examples(program, page) for page in PAGES)} examples in {len(PAGES)} pages, {named} sums of the toolchain")


if __name__ == "__main__":
    main(sys.argv[1:])
