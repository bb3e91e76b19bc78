"""What checks read of the crates' sources: their code as tokens, its functions, and places that are listed with a reason.

Remarks are no code, and contracts and ghost items are none.
"""
import functools
import os
import re
from typing import NamedTuple

TOP = os.path.dirname(os.path.dirname(os.path.abspath(__file__)))

TOKEN = re.compile(
    r"""(?P<comment>//[^\n]*|/\*.*?\*/)
      | b?r(?P<h>\#*)".*?"(?P=h) | b?"(?:\\.|[^"\\])*" | b?'(?:\\.[^']*|[^'\\])' | '\w+
      | \w+
      | :: | => | -> | == | != | <= | >= | && | \|\| | \.\.=? | \S""",
    re.DOTALL | re.VERBOSE,
)
CLOSED_BY = {"(": ")", "[": "]", "{": "}"}


class Token(NamedTuple):
    """A token, its line, and its place among those of its file, by which it is told from its like. A pair of brackets is one
    token, with what opens it as its text and what it has inside."""

    text: str
    line: int = 0
    place: int = -1
    inside: list = None


class Unreadable(Exception):
    """Why a source can't be read here."""


# ---- tokens

def plain_tokens(text):
    """The tokens of a text but its remarks."""
    line, at = 1, 0
    for place, found in enumerate(TOKEN.finditer(text)):
        line += text.count("\n", at, found.start())
        at = found.start()
        if not found["comment"]:
            yield Token(found[0], line, place)


def grouped(tokens, opening=None):
    """The tokens up to what closes the opening one, or all, with each pair of brackets as one."""
    found = []
    for token in tokens:
        if token.text in CLOSED_BY:
            found.append(token._replace(inside=grouped(tokens, token)))
        elif token.text in CLOSED_BY.values():
            if not opening or CLOSED_BY[opening.text] != token.text:
                raise Unreadable(f"line {token.line}: '{token.text}' closes nothing")
            return found
        else:
            found.append(token)
    if opening:
        raise Unreadable(f"line {opening.line}: '{opening.text}' isn't closed")
    return found


def code_among(tokens):
    """The tokens without contracts and ghost items."""
    found, left = [], iter(tokens)
    for token in left:
        if token.text == "ghost":
            next((it for it in left if it.text == ";"), None)
        elif token.text in ("ensures", "requires"):
            next((it for it in left if it.text == "{"), None)
        else:
            found.append(token if token.inside is None else token._replace(inside=code_among(token.inside)))
    return found


def code_of(text):
    return code_among(grouped(plain_tokens(text)))


def flat(tokens):
    """All tokens one by one, the brackets too. A comma before what closes a pair is left out."""
    for place, token in enumerate(tokens):
        if token.text != "," or place + 1 < len(tokens):
            yield token
        if token.inside is not None:
            yield from flat(token.inside)
            yield Token(CLOSED_BY[token.text], token.line)


def spelled(tokens):
    return " ".join(it.text for it in flat(tokens))


def parted(tokens, mark):
    """What stands between the marks."""
    parts = [[]]
    for token in tokens:
        if token.text == mark:
            parts.append([])
        else:
            parts[-1].append(token)
    return [part for part in parts if part]


def place_of(tokens, start, *wanted):
    """The place of the first of these tokens from a place on, or the end."""
    return next((at for at in range(start, len(tokens)) if tokens[at].text in wanted), len(tokens))


# ---- functions

class Function(NamedTuple):
    """A function with a body, as tokens with their brackets, and the body's tokens one by one."""

    name: str
    head: list
    body: list
    tokens: list


def functions_in(tokens):
    """Each function with a body, those in blocks and within others too."""
    for at, token in enumerate(tokens):
        if token.text == "fn" and at + 1 < len(tokens) and re.fullmatch(r"\w+", tokens[at + 1].text):
            end = place_of(tokens, at, "{", ";")
            if end < len(tokens) and tokens[end].inside is not None:
                yield Function(tokens[at + 1].text, tokens[at:end], tokens[end].inside, list(flat(tokens[end].inside)))
        if token.inside is not None:
            yield from functions_in(token.inside)


@functools.lru_cache(maxsize=None)
def functions_of(text):
    """The functions of a source, none where it can't be read."""
    try:
        return tuple(functions_in(code_of(text)))
    except Unreadable:
        return ()


@functools.lru_cache(maxsize=None)
def tokens_of(text):
    """The tokens of a source one by one, none where it can't be read."""
    try:
        return tuple(flat(code_of(text)))
    except Unreadable:
        return ()


# ---- faults, and places that are listed

class Fault(NamedTuple):
    """Where something is wrong, and why."""

    file: str
    token: Token
    why: str

    def __str__(self):
        return f"{self.file}:{self.token.line}: {self.why}"


class Listed(NamedTuple):
    """A place that may stand though a check refuses it: its file, its function, the code that stands there once, and the
    reason."""

    file: str
    function: str
    code: str
    reason: str


def places_listed(text, entry):
    """The tokens of a listed place in its file, by their places, or None where it doesn't stand there once."""
    wanted = [it.text for it in flat(code_of(entry.code))]
    found = []
    for function in functions_of(text):
        if function.name == entry.function:
            there = [it.text for it in function.tokens]
            found += [function.tokens[at:at + len(wanted)] for at in range(len(there)) if there[at:at + len(wanted)] == wanted]
    return {it.place for it in found[0] if it.place >= 0} if len(found) == 1 else None


def without_listed(faults, texts, listed):
    """The faults that no listed place has, and what is wrong with the list."""
    for entry in listed:
        places = places_listed(texts.get(entry.file, ""), entry)
        taken = [it for it in faults if places and it.file == entry.file and it.token.place in places]
        if places is None:
            faults = [*faults, Fault(entry.file, Token(""), f"listed, and not there once, in {entry.function}: {entry.code}")]
        elif not taken:
            faults = [*faults, Fault(entry.file, Token(""), f"listed, and needs no reason, in {entry.function}: {entry.code}")]
        faults = [it for it in faults if it not in taken]
    return faults


def sources():
    """The files of code, with their texts."""
    found = {}
    for at, _, names in os.walk(os.path.join(TOP, "crates")):
        folders = os.path.relpath(at, TOP).split(os.sep)
        for name in names if folders[2:3] == ["src"] else []:
            if name.endswith(".rt"):
                with open(os.path.join(at, name), encoding="utf-8") as it:
                    found["/".join([*folders, name])] = it.read()
    return dict(sorted(found.items()))


# ---- plants of self-tests

# What is to be found, once for each time that it ends a line.
FOUND = "// found"


def planted(text, function, statements):
    """The text with statements at the beginning of a function's body that stands below a contract, or below its head."""
    found = re.search(rf"\bfn {function}\b.*?(^ *\{{$| \{{$)\n", text, re.MULTILINE | re.DOTALL)
    if not found:
        raise Unreadable(f"there is no function {function} to plant into")
    return text[:found.end()] + statements.strip("\n") + "\n" + text[found.end():]


def missed(name, faults, before, text):
    """What is wrong with the faults that are found in a planted text, beside those that were there before."""
    wanted = [at for at, line in enumerate(text.split("\n"), 1) for _ in range(line.count(FOUND))]
    seen = sorted(it.token.line for it in faults)
    if len(seen) != before + len(wanted) or any(seen.count(line) < wanted.count(line) for line in wanted):
        yield f"self-test: {name}: lines {seen} are found in place of {wanted}"
