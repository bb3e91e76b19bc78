#!/usr/bin/env python3
"""Fails where docs/CLAIMS.md and its pages on rules, schemas, HTTP and snapshots name what isn't there, or leave out a public call, a must-fail edit or
a public function without `ensures`. Prints these functions.

    .ci/check_claims.py [FILE ..]

The form of these pages, which are read as one. No line has more than 200 characters. A paragraph that begins 'Public crates:' names
those crates in backticks; all others are inner ones. A promise is a block:

    ### The promise in short
    What holds, in free text.
    - calls: `crate::function`, `crate::Type::method`
    - edits: `crate/must-fail/name.edit`, `tools/edits/crate/name.edit`
    - tests: `tests/script.py`, `crate test_name`

Its three lists are `none`, or items in backticks with commas between, and may go on over further lines that begin
with two spaces; a block names at least one call. Other text is free.

A public function is a `pub fn` that other crates can name, a method of a public trait, or a method of an impl for a public type. Its
contract is its own `ensures`, or that of its trait. The traits of the kit leave to a ghost member of the impl what a method returns, so a
method of an impl without one has no contract. `drop`, and `clone` of a Copy type, aren't counted. The public functions without `ensures`,
of all crates, are named below the heading '## Only tested', in blocks of the same form that promise nothing. The heading of such a block is
one of 'Words for people', 'Speed', 'Memory alone', 'A device', 'The command line' and 'The trial programs'; it names tests and no edits.

Refused are:

    a call that is no `pub fn` which other crates can name, nor a method of one of a crate's traits
    an edit or a test that isn't there; a test is a function with #[test], or a script that can be run
    a public call of a public crate that no block names
    an edit in a must-fail/ that no block names, and any edit that is named twice
    an inner crate whose calls stand in more than one promise
    a public function without `ensures` that no block below '## Only tested' names, or that two name, or that a promise names
    a function with an `ensures` that a block below '## Only tested' names
"""
import collections
import os
import re
import sys

TOP = os.path.dirname(os.path.dirname(os.path.abspath(__file__)))
FILES = ("docs/CLAIMS.md", "docs/CLAIMS-OF-RULES.md", "docs/CLAIMS-OF-SCHEMAS.md", "docs/CLAIMS-OF-HTTP.md",
         "docs/CLAIMS-OF-SNAPSHOTS.md", "docs/CLAIMS-OF-THE-STORE.md")
LISTS = ("calls", "edits", "tests")
# The heading below which blocks name the public functions without `ensures`, and the kinds of these.
ONLY_TESTED = "## Only tested"
KINDS = ("Words for people", "Speed", "Memory alone", "A device", "The command line", "The trial programs")
WIDEST = 200

COMMENT_OR_TEXT = re.compile(
    r"//[^\n]*|/\*.*?\*/|b?r(?P<h>#*)\".*?\"(?P=h)|b?\"(?:\\.|[^\"\\])*\"|b?'(?:\\.[^']*|[^'\\])'", re.DOTALL
)
WORDS = re.compile(r"[{}]|[^{};]+|;")
FUNCTION = re.compile(r"(?P<public>\bpub\s+)?(?:const\s+|unsafe\s+)*\bfn\s+(?P<name>\w+)")
IMPL = re.compile(r"\bimpl\b(?P<head>.*)\Z", re.DOTALL)
TRAIT = re.compile(r"\btrait\s+(?P<name>\w+)")
ENSURES = re.compile(r"\bensures\b")
GHOST_MEMBER = re.compile(r"\A\s*ghost\s+(?!use\b)\w+")
PUBLIC_MODULE = re.compile(r"^pub mod (\w+);", re.MULTILINE)
PUBLIC_USE = re.compile(r"^pub use ([^;]+);", re.MULTILINE)

# A function of a source: its block, its name, whether it says `pub`, whether it is a test, and whether it has an `ensures`.
Function = collections.namedtuple("Function", "block name is_pub is_test has_ensures")


def without_angles(text):
    """The text without what stands between `<` and `>`, to any depth."""
    kept, depth, last = [], 0, ""
    for c in text:
        if c == "<":
            depth += 1
        elif c == ">" and last != "-" and depth:
            depth -= 1
        elif depth == 0:
            kept.append(c)
        last = c
    return "".join(kept)


class Scope:
    """A block of a source: the type or trait that it belongs to, 'body' for that of a function, or None; the trait that it declares or
    that its impl is of; and whether it has a ghost member."""

    def __init__(self, owner=None, trait=None, declares=False):
        self.owner, self.trait, self.declares = owner, trait, declares
        self.has_ghost = False


def scope_of(head):
    """The block that begins after this text."""
    if FUNCTION.search(head):
        return Scope("body")
    found = TRAIT.search(head)
    if found:
        return Scope(found["name"], found["name"], True)
    found = IMPL.search(head)
    if found:
        trait, _, subject = re.split(r"\bwhere\b", without_angles(found["head"]))[0].rpartition(" for ")
        name = re.search(r"(\w+)\s*\Z", subject.strip().lstrip("&"))
        of = re.search(r"(\w+)\s*\Z", trait)
        return Scope(name[1], of and of[1]) if name else Scope()
    return Scope()


class Functions:
    """The functions of a source, as they are found."""

    def __init__(self, text):
        self.blocks, self.found, self.depth, self.copied = [], [], None, set()
        head = ""
        for piece in WORDS.findall(text):
            if piece in "{};":
                self.take(head, piece)
                head = ""
            else:
                head += piece

    def take(self, head, mark):
        """Takes the text up to a mark."""
        if mark == "{":
            self.open(head)
        elif mark == "}":
            del self.blocks[-1:]
        elif self.blocks and self.blocks[-1].declares:
            # (a method of a trait that has no contract)
            self.note(head)

    def open(self, head):
        """Takes the text before a block. A clause of a contract is one too, so a function is noted at its first one."""
        if self.blocks and GHOST_MEMBER.search(head):
            self.blocks[-1].has_ghost = True
        elif len(self.blocks) == self.depth and head.split()[:1] == ["ensures"]:
            self.found[-1] = self.found[-1]._replace(has_ensures=True)
        elif not any(it.owner == "body" for it in self.blocks):
            self.note(head)
        is_body = len(self.blocks) == self.depth and not head.strip()
        self.blocks.append(Scope("body") if is_body else scope_of(head))
        if self.blocks[-1].trait == "Copy":
            self.copied.add(self.blocks[-1].owner)

    def note(self, head):
        for it in FUNCTION.finditer(head):
            block = next((block for block in reversed(self.blocks) if block.owner), Scope())
            self.found.append(Function(block, it["name"], bool(it["public"]), "#[test]" in head, bool(ENSURES.search(head))))
            self.depth = len(self.blocks)


def exports_of(root):
    """What a crate's root file hands out: the names of its `pub use`, and of its `pub mod`."""
    used = set()
    for path in PUBLIC_USE.findall(root):
        inner = re.search(r"\{(.*)\}", path, re.DOTALL)
        used |= {it.strip().split("::")[-1] for it in (inner[1] if inner else path).split(",") if it.strip()}
    return used, set(PUBLIC_MODULE.findall(root))


class Crate:
    """What a crate's sources have: its public calls, the methods of its traits, its tests, the traits that it declares, and its public
    functions without an `ensures` of their own, each with the trait of its impl, or None."""

    def __init__(self, folder):
        self.calls, self.trait_methods, self.tests, self.traits, self.silent = set(), set(), set(), set(), set()
        texts = {os.path.relpath(path, folder)[: -len(".rt")]: self.plain(path) for path in self.files(folder)}
        root = "lib" if "lib" in texts else "main"
        used, modules = exports_of(texts[root])
        for module, text in texts.items():
            functions = Functions(text)
            for it in functions.found:
                is_seen = module == root or module in modules or (it.block.owner or it.name) in used
                if it.is_test:
                    self.tests.add(it.name)
                else:
                    self.take(it, is_seen, functions.copied)

    def take(self, function, is_seen, copied):
        """Takes a function that isn't a test. Other crates can name it, or its type, where `is_seen`. The types of `copied` are Copy."""
        block, call = function.block, (function.block.owner, function.name)
        if block.declares:
            self.traits.add(block.trait)
        if block.trait:
            self.trait_methods.add(call)
        elif function.is_pub and is_seen:
            self.calls.add(call)
        given_by = None if block.declares else block.trait
        is_said = function.has_ensures or given_by and block.has_ghost
        gives = given_by != "Drop" and not (given_by == "Clone" and block.owner in copied)
        if is_seen and (function.is_pub or block.trait) and gives and not is_said:
            self.silent.add((*call, given_by))

    @staticmethod
    def files(folder):
        """The sources below a folder."""
        return [os.path.join(at, name) for at, _, names in os.walk(folder) for name in sorted(names) if name.endswith(".rt")]

    @staticmethod
    def plain(path):
        """A source without its comments, and with blanks for its strings."""
        with open(path, encoding="utf-8") as it:
            return COMMENT_OR_TEXT.sub(lambda found: " " * len(found[0]), it.read())


class Repository:
    """The crates that crates.txt lists, and their edits."""

    def __init__(self):
        self.crates = {}
        with open(os.path.join(TOP, "crates.txt"), encoding="utf-8") as it:
            names = [line.split(":")[0].split()[0] for line in it if ":" in line and not line.startswith("#")]
        for name in names:
            folder = os.path.join(TOP, "crates", name, "src")
            if os.path.isdir(folder):
                self.crates[name] = Crate(folder)
        traits = set().union(*(it.traits for it in self.crates.values()))
        # (a method of an impl has the contract of its trait, and where that has none, the trait's method is listed)
        self.silent = {"::".join(filter(None, (name, owner, function)))
                       for name, crate in self.crates.items() for owner, function, trait in crate.silent if trait not in traits}

    def edits(self):
        """The edits that each gate tries."""
        crates = os.path.join(TOP, "crates")
        folders = [it for it in sorted(os.listdir(crates)) if os.path.isdir(os.path.join(crates, it, "must-fail"))]
        return [f"{it}/must-fail/{name}" for it in folders for name in sorted(os.listdir(os.path.join(crates, it, "must-fail")))]

    def call_fault(self, item):
        found = re.fullmatch(r"(\w+)::(?:([A-Z]\w*)::)?([a-z_]\w*)", item)
        if not found:
            return "is no `crate::function` or `crate::Type::method`"
        crate = self.crates.get(found[1])
        if not crate:
            return "names no crate of this repository"
        call = (found[2], found[3])
        return None if call in crate.calls or call in crate.trait_methods else "names no public call of its crate"

    def edit_fault(self, item):
        if re.fullmatch(r"\w+/must-fail/[\w.-]+\.edit", item):
            path = os.path.join(TOP, "crates", item)
        elif re.fullmatch(r"tools/edits/\w+/[\w.-]+\.edit", item):
            path = os.path.join(TOP, item)
        else:
            return "is no `crate/must-fail/name.edit` and no `tools/edits/crate/name.edit`"
        return None if os.path.isfile(path) else "names no edit that is there"

    def test_fault(self, item):
        found = re.fullmatch(r"(\w+) (\w+)", item)
        if found:
            crate = self.crates.get(found[1])
            if not crate:
                return "names no crate of this repository"
            return None if found[2] in crate.tests else "names no test of its crate"
        if not re.fullmatch(r"[\w.-]+(/[\w.-]+)+", item) or ".." in item:
            return "is no `crate test_name` and no path of a script"
        path = os.path.join(TOP, item)
        return None if os.path.isfile(path) and os.access(path, os.X_OK) else "names no script that can be run"


class Block:
    """A promise, or a kind of functions that are only tested: its place, its heading, which of both it is, whether it has text, and
    its lists as they are written."""

    def __init__(self, place, heading, is_promise):
        self.place, self.heading, self.is_promise = place, heading, is_promise
        self.has_text = False
        self.lists = {}

    def items(self, word):
        return re.findall(r"`([^`]*)`", self.lists.get(word, ""))

    def faults(self):
        """What is wrong with the block's form."""
        if not self.has_text:
            yield f"{self.place}: it doesn't say what holds"
        if tuple(self.lists) != LISTS:
            yield f"{self.place}: it has no lists of {', '.join(LISTS)}, once each and in this order"
        for word, text in self.lists.items():
            if text != "none" and (not self.items(word) or ", ".join(f"`{it}`" for it in self.items(word)) != text):
                yield f"{self.place}: {word}: neither 'none' nor items in backticks with commas between: {text}"
        if not self.items("calls"):
            yield f"{self.place}: it names no call"
        if not self.is_promise and self.heading not in KINDS:
            yield f"{self.place}: the kinds below '{ONLY_TESTED}' are {', '.join(KINDS)}"
        if not self.is_promise and (self.items("edits") or not self.items("tests")):
            yield f"{self.place}: a block below '{ONLY_TESTED}' names tests and no edits"


class Claims:
    """The blocks and the public crates of files of claims, by their names, and what is wrong with their lines."""

    def __init__(self, texts):
        self.blocks, self.public, self.faults = [], [], []
        for name, text in texts.items():
            self.block, self.word, self.is_promise = None, None, True
            for number, line in enumerate(text.split("\n"), 1):
                if len(line) > WIDEST:
                    self.faults.append(f"{name}:{number}: {len(line)} characters, over {WIDEST}")
                self.read(f"{name}:{number}", line)
            for paragraph in re.findall(r"^Public crates:(.*?)(?:\n\n|\Z)", text, re.MULTILINE | re.DOTALL):
                self.public += re.findall(r"`([^`]*)`", paragraph)
        self.faults += [it for block in self.blocks for it in block.faults()]
        if not self.blocks or not self.public:
            self.faults.append(f"{', '.join(texts)}: no block, or no 'Public crates:'")

    def read(self, place, line):
        """Takes a line into the block that is open, or opens or closes one."""
        if line.startswith("#"):
            if not line.startswith("### "):
                self.is_promise = line != ONLY_TESTED
            self.block, self.word = (Block(place, line[4:], self.is_promise) if line.startswith("### ") else None), None
            self.blocks += [self.block] if self.block else []
        elif self.block and line.startswith("- "):
            self.word, _, text = line.removeprefix("- ").partition(": ")
            if self.word in self.block.lists or self.word not in LISTS:
                self.faults.append(f"{place}: '{self.word}' is no list of a block, or its second one")
            self.block.lists[self.word] = text.strip()
        elif self.block and line.startswith("  ") and self.word:
            self.block.lists[self.word] += " " + line.strip()
        elif self.block and line.strip() and not self.block.lists:
            self.block.has_text = True
        elif not line.strip() and self.word:
            self.block, self.word = None, None
        elif self.word:
            self.faults.append(f"{place}: a list goes on with two spaces, and a block ends with an empty line")


def named_faults(blocks, repository):
    """What the blocks name and isn't there."""
    tests = {"calls": repository.call_fault, "edits": repository.edit_fault, "tests": repository.test_fault}
    for block in blocks:
        for word, test in tests.items():
            for item in block.items(word):
                fault = test(item)
                if fault:
                    yield f"{block.place}: {word}: `{item}` {fault}"


def silent_faults(claims, repository):
    """Public functions without `ensures` that aren't named as such, and others that are."""
    tested = collections.Counter(it for block in claims.blocks if not block.is_promise for it in block.items("calls"))
    yield from (f"{it}: a public function without `ensures`, and no block below '{ONLY_TESTED}' names it" for it in sorted(repository.silent - set(tested)))
    yield from (f"{it}: {count} times named below '{ONLY_TESTED}'" for it, count in tested.items() if count > 1)
    for block in claims.blocks:
        for item in block.items("calls"):
            if block.is_promise and item in repository.silent:
                yield f"{block.place}: `{item}` has no `ensures`, so it carries no promise"
            elif not block.is_promise and item not in repository.silent and not repository.call_fault(item):
                yield f"{block.place}: `{item}` has an `ensures`, so a promise names it"


def missing_faults(claims, repository):
    """What the blocks leave out, and what they name too often."""
    named = {it for block in claims.blocks for it in block.items("calls")}
    for crate in claims.public:
        if crate not in repository.crates:
            yield f"Public crates: `{crate}` is no crate of this repository"
            continue
        for owner, name in sorted(repository.crates[crate].calls, key=str):
            call = "::".join([crate, owner, name] if owner else [crate, name])
            if call not in named:
                yield f"{call}: a public call of a public crate, and no block names it"
    edits = collections.Counter(it for block in claims.blocks for it in block.items("edits"))
    yield from (f"crates/{it}: no block names it" for it in repository.edits() if it not in edits)
    yield from (f"{it}: {count} times named" for it, count in edits.items() if count > 1)
    inner = collections.Counter()
    for block in filter(lambda it: it.is_promise, claims.blocks):
        inner.update({it.split("::")[0] for it in block.items("calls")} - set(claims.public))
    for crate, count in sorted(inner.items()):
        if count > 1:
            yield f"{crate}: an inner crate, and {count} blocks name calls of it"


def main(words):
    texts = {}
    try:
        for file in words or FILES:
            with open(file if words else os.path.join(TOP, file), encoding="utf-8") as it:
                texts[file] = it.read()
        repository = Repository()
    except OSError as fault:
        sys.exit(f"check_claims: {fault}")
    claims = Claims(texts)
    faults = [*claims.faults, *named_faults(claims.blocks, repository), *missing_faults(claims, repository), *silent_faults(claims, repository)]
    print(f"{len(repository.silent)} public functions have no `ensures`:")
    for name in sorted(repository.silent):
        print(f"    {name}")
    for fault in faults:
        print(fault)
    print(f"check_claims: {sum(it.is_promise for it in claims.blocks)} promises, {len(faults)} faults")
    sys.exit(1 if faults else 0)


if __name__ == "__main__":
    main(sys.argv[1:])
