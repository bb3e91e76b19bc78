#!/usr/bin/env python3
"""Fails where an edit can't be applied or doesn't compile, so that no prover has to run to say so.

    .ci/check_edits.py [--text] [--self-test] [CRATE ..]

Reads the edits of all crates, or of these: those that each gate tries, crates/CRATE/must-fail/NAME.edit, and those that
are tried in turns, tools/edits/CRATE/NAME.edit. An edit has lines 'file: src/FILE.rt' and, after each, pairs of lines
'old: TEXT' and 'new: TEXT'. Each old TEXT has to stand exactly once in the file as the pairs before it left it. An edit
is of the code alone, since the code is what a contract has to refuse, and no name stands in both folders of a crate.

Then each has to compile: one that doesn't would be refused whatever the contract says. The compiler's front end runs once
over the sources of all crates and over copies of them, each of one crate with as many of its edits as don't disturb one
another: no two of one function. Where something is wrong with a copy, the edits that it may come of are looked at once
more, each in a copy of its own. --text leaves all of this out.

With --self-test some edits are spoiled, and have to be refused, and no others.
"""
import bisect
import collections
import os
import re
import resource
import sys

import front_end
from front_end import TOP

sys.dont_write_bytecode = True
sys.path.insert(0, os.path.join(TOP, "tools"))
import edit_files  # noqa: E402

NAME = re.compile(r"[A-Za-z0-9_-][A-Za-z0-9_.-]*\.edit")
FUNCTION = re.compile(r"\s*(?:pub(?:\([^)]*\))?\s+)?(?:(?:const|unsafe|ghost)\s+)*fn\s+\w")
CALL = re.compile(r"(?<![\w:.!])(?<!\bfn )(?P<name>[a-z_]{3,})\(")
# Of how many crates the self-test spoils an edit: the lowest, whose runs are short.
SPOILED = 3


class Fault(Exception):
    """What is wrong with an edit."""


class Edit(collections.namedtuple("Edit", "crate told changes")):
    """An edit that can be applied: its crate, how it is called, and by file the lines that it changes, by number from 0."""

    def lines(self):
        """Each line that it changes: the file, and the line's number."""
        return [(path, at) for path, lines in self.changes.items() for at in lines]


class Sources:
    """The files of a crate, as an edit's pairs change them one after the other."""

    def __init__(self, folder):
        self.folder = folder
        self.were, self.texts = {}, {}

    def text(self, path):
        if path not in self.texts:
            if os.path.normpath(path) != path or not path.startswith("src/"):
                raise Fault(f"'{path}' is no file of src/")
            try:
                with open(os.path.join(self.folder, path), encoding="utf-8") as it:
                    self.were[path] = self.texts[path] = it.read()
            except (OSError, UnicodeDecodeError):
                raise Fault(f"there is no file {path}") from None
        return self.texts[path]

    def replace(self, path, old, new):
        count = self.text(path).count(old)
        if count != 1:
            raise Fault(f"the text stands in {path} {count} times and not once: {old.strip()}")
        if old == new:
            raise Fault(f"nothing is changed: {old.strip()}")
        self.texts[path] = self.texts[path].replace(old, new)

    def changes(self):
        """By file the lines that were changed, by their numbers. An edit's texts are one line each, so none is added or lost."""
        pairs = {path: zip(self.were[path].split("\n"), text.split("\n")) for path, text in self.texts.items()}
        found = {path: {at: new for at, (old, new) in enumerate(lines) if old != new} for path, lines in pairs.items()}
        if not any(found.values()):
            raise Fault("nothing is changed once all its pairs are applied")
        return found


# ---- what an edit says

def apply(text, sources):
    """Makes an edit's changes in the sources."""
    path, old, pairs = None, None, 0
    for line in text.split("\n"):
        if line.startswith("file: "):
            path = line.removeprefix("file: ").strip()
        elif line.startswith("old: "):
            old = line.removeprefix("old: ")
        elif line.startswith("new:"):
            if not path or not old:
                raise Fault("a 'new:' line without a 'file:' or an 'old:' line before it")
            sources.replace(path, old, line.removeprefix("new:").removeprefix(" "))
            old, pairs = None, pairs + 1
        elif line.strip():
            raise Fault(f"a line that is no 'file:', 'old:' or 'new:' line: {line.strip()}")
    if old is not None:
        raise Fault("an 'old:' line without a 'new:' line after it")
    if not pairs:
        raise Fault("it has no pair of 'old:' and 'new:'")


def read_edit(crate, folder, name):
    """The edit of this name. Fault, where it can't be read or applied."""
    if not NAME.fullmatch(name):
        raise Fault("its name isn't one of letters, digits, '_', '-' and '.' that ends in '.edit'")
    sources = Sources(os.path.join(TOP, "crates", crate))
    try:
        with open(os.path.join(folder, name), encoding="utf-8") as it:
            apply(it.read(), sources)
    except (OSError, UnicodeDecodeError) as fault:
        raise Fault(f"it can't be read: {fault}") from None
    return Edit(crate, os.path.relpath(os.path.join(folder, name), TOP), sources.changes())


def names_in(folder):
    """All names in a folder, sorted; none where it isn't there."""
    return sorted(os.listdir(folder)) if os.path.isdir(folder) else []


def read_crate(crate):
    """The edits of a crate, and what is wrong with those that are none."""
    folders = [edit_files.must_fail_folder(crate), os.path.join(edit_files.EDITS, crate)]
    edits, faults = [], []
    if not os.path.isdir(os.path.join(TOP, "crates", crate)):
        return [], [f"tools/edits/{crate}: there is no crate of this name"]
    if os.path.exists(os.path.join(TOP, "crates", crate, "src/main.rt")) and any(map(names_in, folders)):
        faults.append(f"{crate} is a program: what a contract has to refuse belongs to a library")
    for folder in folders:
        for name in names_in(folder):
            try:
                edits.append(read_edit(crate, folder, name))
            except Fault as fault:
                faults.append(f"{os.path.relpath(os.path.join(folder, name), TOP)}: {fault}")
    both = set(names_in(folders[0])) & set(names_in(folders[1]))
    return edits, faults + [f"tools/edits/{crate}/{name}: its name stands in must-fail/ too" for name in sorted(both)]


# ---- whether they compile

class Functions:
    """The functions of the sources, by the lines at which they begin."""

    def __init__(self):
        self.starts = {}

    def at(self, crate, path, line):
        """The function in which a line stands, as the number of those that began by then in its file."""
        if (crate, path) not in self.starts:
            lines = enumerate(front_end.source(crate, path).split("\n"))
            self.starts[crate, path] = [number for number, text in lines if FUNCTION.match(text)]
        return crate, path, bisect.bisect(self.starts[crate, path], line)

    def of(self, edit):
        """Those that an edit changes."""
        return {self.at(edit.crate, path, line) for path, line in edit.lines()}

    def groups(self, edits):
        """The edits in groups that go into one copy: of one crate, and no two of one function."""
        groups, taken = [], []
        for edit in edits:
            own = self.of(edit)
            number = next((at for at, it in enumerate(groups) if it[0].crate == edit.crate and not taken[at] & own), len(groups))
            if number == len(groups):
                groups.append([])
                taken.append(set())
            groups[number].append(edit)
            taken[number] |= own
        return groups

    def suspects(self, group, errors):
        """Of the edits of a copy those in whose functions something is wrong; all of them, if something is wrong elsewhere."""
        places = {self.at(group[0].crate, it.path, it.line) for it in errors}
        own = [it for it in group if places & self.of(it)]
        return own if places <= set().union(*map(self.of, own)) else group


def texts_with(group):
    """The files that these edits of a crate change, as they are then."""
    found = {}
    for edit in group:
        for path, lines in edit.changes.items():
            text = found.setdefault(path, front_end.source(edit.crate, path).split("\n"))
            for at, line in lines.items():
                text[at] = line
    return {path: "\n".join(lines) for path, lines in found.items()}


def errors_of(compiler, groups):
    """What is wrong with the copies that have these edits, by the number of the copy, and whether all of it was told."""
    errors, is_all = compiler.run([(group[0].crate, texts_with(group)) for group in groups])
    elsewhere = [it.text for it in errors if it.copy is None]
    if elsewhere:
        raise front_end.Broken(f"the crates don't compile as they stand: {elsewhere[0]}")
    found = {}
    for it in errors:
        found.setdefault(it.copy, []).append(it)
    return found, is_all


def uncompiled(edits):
    """The edits that don't compile, each with what is wrong; and how often the front end ran."""
    compiler, functions, found, runs, left = front_end.Compiler(), Functions(), [], 0, edits
    while left:
        groups = functions.groups(left)
        errors, _ = errors_of(compiler, groups)
        alone = [[it] for at, group in enumerate(groups) if at in errors for it in functions.suspects(group, errors[at])]
        runs += 2 if alone else 1
        if not alone:
            break
        wrong, is_all = errors_of(compiler, alone)
        for at, those in sorted(wrong.items()):
            edit = alone[at][0]
            found.append((edit, those[0].text.replace(f"{at}/src/", f"crates/{edit.crate}/src/")))
        # (one that is fine here may still have a fault that is told later)
        done = {group[0].told for at, group in enumerate(alone) if is_all or at in wrong}
        left = [it for it in left if it.told not in done]
    return found, runs


# ---- self-test

def spoiled(edit):
    """The edit with a call of nothing in its place, or None where it makes no call."""
    for path, lines in edit.changes.items():
        for at, line in lines.items():
            calls = list(CALL.finditer(line))
            if calls:
                start, end = calls[-1].span("name")
                return edit._replace(changes={path: {at: line[:start] + "no_such_name" + line[end:]}})
    return None


def self_test(edits):
    """What isn't found, or found wrongly, of edits that are spoiled among others."""
    crates = [crate for crate in front_end.listed() if any(it.crate == crate and spoiled(it) for it in edits)][:SPOILED]
    some = [it for it in edits if it.crate in crates]
    wrong = [next(filter(None, (spoiled(it) for it in some if it.crate == crate))) for crate in crates]
    others = [it for it in some if it.told not in {it.told for it in wrong}]
    found = {it.told for it, _ in uncompiled([*wrong, *others])[0]}
    yield from (f"self-test: {it.told} isn't refused though it is spoiled" for it in wrong if it.told not in found)
    yield from (f"self-test: {it} is refused though it isn't spoiled" for it in found - {it.told for it in wrong})
    if not wrong:
        yield "self-test: no edit that could be spoiled"


# ---- all

def main(words):
    options, words = {it for it in words if it.startswith("--")}, [it for it in words if not it.startswith("--")]
    crates = sorted({*names_in(os.path.join(TOP, "crates")), *edit_files.crates_with_edits_apart()})
    unknown = [it for it in words if it not in crates] + sorted(options - {"--text", "--self-test"})
    if unknown:
        sys.exit(f"check_edits: no such crate or option: {', '.join(unknown)}")
    edits, faults, told = [], [], ""
    for crate in words or crates:
        found, wrong = read_crate(crate)
        edits, faults = edits + found, faults + wrong
    if "--text" not in options:
        try:
            wrong, runs = uncompiled(edits)
            faults += [f"{it.told}: it doesn't compile: {error}" for it, error in wrong]
            faults += self_test(edits) if "--self-test" in options else []
        except front_end.Broken as why:
            sys.exit(f"check_edits: {why}")
        used = resource.getrusage(resource.RUSAGE_CHILDREN)
        told = f"; compiled in {runs} run{'s' if runs > 1 else ''} of the front end, {used.ru_utime + used.ru_stime:.0f} processor seconds"
    for fault in faults:
        print(fault)
    always = sum(it.told.startswith("crates/") for it in edits)
    print(f"check_edits: {always} edits in must-fail/, {len(edits) - always} in tools/edits/, {len(faults)} faults{told}")
    sys.exit(1 if faults else 0)


if __name__ == "__main__":
    main(sys.argv[1:])
