#!/usr/bin/env python3
"""Fails where a document names what isn't there: a file, a heading, a command, a key, a code, a kind or a limit.

    .ci/check_documents.py

It reads all .md files of the repository, and compares them with its files and with the program's sources:

    links           each link that is no URL leads to a file, and behind a # to a heading of it
    paths           each path in backticks, or in a command of a block, is a file or a folder; one with a word in upper case,
                    as NAME, stands for others
    commands        each `rp_server ..` has a command and options of the program, and each script an option that its text has
    requests        docs/REQUESTS.md has each request once in its table and once as a section, with the keys that the program takes, and
                    so has the help of `rp_server batch` in its table
    codes           docs/REFUSALS.md has each code with its name, and wherever a document shows one, they belong together
    kinds           docs/EXCHANGE-FILES.md, EXPRESS-PROFILE.md and REQUESTS.md have the kinds of faults that the program tells
    limits          each limit that a document gives in one of the forms below is that of the sources
    crates          docs/ARCHITECTURE.md has a row for each crate
    README.md       has at most 100 lines of at most 160 characters
"""
import os
import re
import subprocess
import sys

TOP = os.path.dirname(os.path.dirname(os.path.abspath(__file__)))
FOLDERS = (".ci", "bench", "crates", "docs", "example", "tests", "tools")
MIB = 1024 * 1024

# What may follow a number in a document, the constant that it has to be, by its source, and what it counts in.
LIMITS = (
    (r"line over ([\d,]+) MiB", "rp_io/src/limits.rt", "LINE_LIMIT", MIB),
    (r"(?:a file or a text|is|of at most|At most|file is at most) (?:over )?([\d,]+) MiB", "rp_io/src/limits.rt", "FILE_LIMIT", MIB),
    (r"over ([\d,]+) instances", "rp_rows/src/limits.rt", "MAX_INSTANCES", 1),
    (r"instances or ([\d,]+) links", "rp_rows/src/limits.rt", "MAX_LINKS", 1),
    (r"(?:over|has) ([\d,]+) models", "rp_rows/src/limits.rt", "MAX_MODELS", 1),
    (r"more than ([\d,]+) schemas", "rp_core/src/opening.rt", "MAX_SCHEMAS", 1),
    (r"more than ([\d,]+) partners", "rp_core/src/opening.rt", "MAX_PARTNERS", 1),
    (r"greatest name is ([\d,]+)", "p21_tree/src/instance.rt", "MAX_NAME", 1),
    (r"nested ([\d,]+) lists deep", "p21_grammar/src/grammar.rt", "MAX_NESTING", 1),
    (r"open at once \| ([\d,]+)", "ex_declaration_syntax/src/declarations.rt", "MAX_LEVELS", 1),
)


def read(path):
    with open(os.path.join(TOP, path), encoding="utf-8") as it:
        return it.read()


def documents():
    """The .md files that belong to the repository, by their paths."""
    listed = subprocess.run(["git", "ls-files", "--cached", "--others", "--exclude-standard", "*.md"], cwd=TOP, capture_output=True,
                            text=True, check=True).stdout.split()
    return {path: read(path) for path in listed if os.path.isfile(os.path.join(TOP, path))}


def without_blocks(text):
    return re.sub(r"^```.*?^```[ ]*$", "", text, flags=re.MULTILINE | re.DOTALL)


def blocks(text):
    return "\n".join(re.findall(r"^```(?:sh example)?\n(.*?)^```[ ]*$", text, re.MULTILINE | re.DOTALL))


# ---- links and paths

def anchors(text):
    """The anchors of a page's headings."""
    titles = re.findall(r"^#+ (.*)$", without_blocks(text), re.MULTILINE)
    return {re.sub(r"[^\w\- ]", "", it.lower()).replace(" ", "-") for it in titles}


def link_faults(path, text, pages):
    for target in re.findall(r"\]\(([^)\s]+)\)", without_blocks(text)):
        if "://" in target:
            continue
        file, _, anchor = target.partition("#")
        found = os.path.normpath(os.path.join(os.path.dirname(path), file)) if file else path
        if not os.path.exists(os.path.join(TOP, found)):
            yield f"a link to {target}, which isn't there"
        elif anchor and anchor not in anchors(pages.get(found, "")):
            yield f"a link to {target}: no such heading"


def paths_in(text):
    """Each path of the repository that a text names in backticks or in a command."""
    quoted = re.findall(r"`([^`\n]+)`", without_blocks(text))
    for words in [*quoted, *blocks(text).splitlines()]:
        for word in re.split(r"[\s()|,;]+", words):
            word = word.strip("'\"").removeprefix("./").removeprefix("../../").removeprefix("../")
            if word.split("/")[0] in FOLDERS and "/" in word and re.fullmatch(r"[\w./-]+", word):
                yield word


def path_faults(path, text):
    for it in paths_in(text):
        if re.search(r"\b[A-Z]{2,}\b(?!\.md)", it) or "out/" in it or it.endswith("/out"):
            continue
        if not os.path.exists(os.path.join(TOP, it)):
            yield f"`{it}` isn't there"


# ---- commands

def command_faults(text):
    source = read("crates/rp_command/src/command.rt")
    commands = {*re.findall(r'Command::new\(alloc, "(\w+)"\)', source), "help"} - {"rp_server"}
    options = {*re.findall(r'\.long\("([\w-]+)"\)', source), "help", *(["version"] if ".version(" in source else [])}
    for words in re.findall(r"(?:`|^|\| )rp_server ([^`\n|<]+)", text, re.MULTILINE):
        words = words.split()
        first = words[0]
        if not first.startswith("-") and re.fullmatch(r"[a-z_]+", first) and first not in commands:
            yield f"`rp_server {first}` is no command"
        for option in words:
            if option.startswith("--") and option[2:].split("=")[0] not in options:
                yield f"`rp_server .. {option}` is no option"
    for script, rest in re.findall(r"((?:\.ci|tools|bench|tests)/\w+\.py)((?: --?[\w-]+)+)", text):
        if os.path.isfile(os.path.join(TOP, script)):
            yield from (f"{script} has no option {it}" for it in rest.split() if it not in read(script))


# ---- requests, codes and kinds

def requests_of_program():
    """The keys of each request, by what the program reads."""
    source = "".join(read(f"crates/rp_requests/src/{it}.rt") for it in ("asks", "grants", "groups"))
    functions = dict(re.findall(r'"(\w+)" => (\w+)\((?:[\w.]+(?:\(\))?, )?members\)', source))
    found = {}
    for do, function in functions.items():
        body = source[re.search(rf"^(?:pub\(crate\) )?fn {function}\(", source, re.MULTILINE).start():].split("\n}\n")[0]
        keys = re.search(r"has_only_keys\(\s*&members,\s*&\[(.*?)\]", body, re.DOTALL)
        found[do] = set(re.findall(r'"(\w+)"', keys[1])) if keys else set()
    return found


def keys_in(text):
    """The keys that a cell or a line names: words in backticks that stand in no parentheses and are no values."""
    plain = re.sub(r"\([^()]*\)", "", text.replace("](", "] ("))
    return {it for it in re.findall(r"`(\w+)`", re.sub(r"`true` or `false`|`model` or `group`;|`read`, `group` or `write`, and for a group `read`|as of `\w+`", "", plain))}


def request_faults(text):
    program = requests_of_program()
    rows = re.findall(r"^\| `(?!do`)(\w+)` \| (.*?) ?\|", text, re.MULTILINE)
    sections = dict(re.findall(r"^## (\w+)\n.*?^- Keys: ([^\n]*)$", text, re.MULTILINE | re.DOTALL))
    for do in sorted(program.keys() - {it for it, _ in rows}):
        yield f"the table has no row for `{do}`"
    for do in sorted(program.keys() - sections.keys()):
        yield f"no section has the keys of `{do}`"
    for do, keys in [*rows, *sections.items()]:
        if do not in program:
            yield f"`{do}` is no request of the program"
        elif keys_in(keys) != program[do]:
            yield f"`{do}` has the keys {', '.join(sorted(program[do])) or 'none'}, and not {', '.join(sorted(keys_in(keys))) or 'none'}"
    names = set(codes_of_program().values())
    for line in re.findall(r"^- Refused: (.*)$", text, re.MULTILINE):
        for word in re.split(r",\s*", re.sub(r"\([^()]*\)", "", line)):
            if word.strip() not in names | {"never"}:
                yield f"{word.strip()!r} is no refusal"


def help_faults():
    """Where the help shows other requests or keys than the program takes."""
    table = re.search(r"exactly these keys:\n\n(.*?)\n\n", read("crates/rp_command/src/texts.rt"), re.DOTALL)
    shown = {}
    for do, keys in re.findall(r"^ {2}(\w+) *(.*)$", table[1] if table else "", re.MULTILINE):
        shown[do] = set(re.findall(r"\w+", re.sub(r"\([^()]*\)| if .*|\band\b", "", keys)))
    program = requests_of_program()
    for do in sorted(shown.keys() | program.keys()):
        if shown.get(do) != program.get(do):
            yield f"`{do}` has the keys {program.get(do)} in the program, and {shown.get(do)} in the help"


def codes_of_program():
    source = read("crates/rp_replies/src/refusals.rt")
    codes = {int(code): name for code, name in re.findall(r'write_coded\(out, (\d+), "(\w+)"\)', source)}
    codes.update((int(code), name) for code, name in
                 re.findall(r'number_at\(out, "code", (\d+)\)\?;.*?string_at\(out, "name", "(\w+)"\)', source, re.DOTALL))
    return codes


def code_faults(path, text):
    codes = codes_of_program()
    for code, name in re.findall(r'"code":(\d+)[^{}]*?"name":"(\w+)"', text):
        if codes.get(int(code)) != name:
            yield f"code {code} isn't {name}"
    if path == "docs/REFUSALS.md":
        rows = {int(code): name for code, name in re.findall(r"^\| (\d+) \| (\w+) \|", text, re.MULTILINE)}
        if rows != codes:
            yield f"its table differs from the program's codes in {sorted(rows.items() ^ codes.items())}"


def kinds_in(path, functions=""):
    """The words that the functions of a source answer whose names begin so."""
    source = read(path)
    bodies = [it for it in re.split(r"^}\n", source, flags=re.MULTILINE) if re.search(rf"fn {functions}", it)]
    return {word for body in bodies for word in re.findall(r'=> "(\w+)"', body)}


def kind_faults(path, text):
    wanted = {
        "docs/EXCHANGE-FILES.md": kinds_in("crates/rp_replies/src/refusals.rt", "word_of_(?:file|instance)"),
        "docs/EXPRESS-PROFILE.md": kinds_in("crates/ex_check/src/fault.rt"),
        "docs/REQUESTS.md": kinds_in("crates/rp_replies/src/refusals.rt", "word_of_link"),
    }.get(path)
    if wanted is None:
        return
    tables = re.findall(r"^\| kind \|.*\n\|[-|]+\n((?:\|.*\n)+)", text, re.MULTILINE)
    cells = [row.split("|")[1] for table in tables for row in table.splitlines()]
    named = {word.strip() for cell in cells for word in cell.split(",")}
    if not wanted or named != wanted:
        yield f"its kinds differ from the program's in {', '.join(sorted(named ^ wanted)) or 'none, which is none'}"


# ---- limits

def limit_faults(pages):
    for pattern, source, name, unit in LIMITS:
        found = re.search(rf"\b{name}: \w+ = ([\d_]+)", read(f"crates/{source}"))
        if not found:
            yield f"crates/{source}: no constant {name}"
            continue
        value = int(found[1].replace("_", ""))
        seen = [(path, int(it.replace(",", ""))) for path, text in pages.items() for it in re.findall(pattern, text)]
        if not seen:
            yield f"no document gives {name} in the form {pattern!r}"
        yield from (f"{path}: {number} where {name} is {value // unit}" for path, number in seen if number * unit != value)


# ---- all

def page_faults(path, text, pages):
    yield from link_faults(path, text, pages)
    yield from path_faults(path, text)
    yield from command_faults(text)
    yield from code_faults(path, text)
    yield from kind_faults(path, text)
    if path == "docs/REQUESTS.md":
        yield from request_faults(text)
    if path == "docs/ARCHITECTURE.md":
        crates = re.findall(r"^(\w+)[\w ]*:", read("crates.txt"), re.MULTILINE)
        yield from (f"no row for `{it}`" for it in crates if not re.search(rf"^\| `{it}` \|", text, re.MULTILINE))
    if path == "README.md":
        lines = text.splitlines()
        if len(lines) > 100:
            yield f"{len(lines)} lines, over 100"
        yield from (f"line {number} has {len(line)} characters, over 160" for number, line in enumerate(lines, 1) if len(line) > 160)


def main():
    pages = documents()
    faults = [f"{path}: {fault}" for path, text in sorted(pages.items()) for fault in page_faults(path, text, pages)]
    faults += limit_faults(pages)
    faults += [f"crates/rp_command/src/texts.rt: {it}" for it in help_faults()]
    for fault in faults:
        print(fault)
    print(f"check_documents: {len(pages)} documents, {len(faults)} faults")
    sys.exit(1 if faults else 0)


if __name__ == "__main__":
    main()
