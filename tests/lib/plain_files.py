"""Reads exchange files that are well formed into the values of plain_binding, in Python. What isn't well formed is a
ValueError, whatever its fault is. It is written from docs/EXCHANGE-FILES.md, and never from the program."""
import re
from typing import NamedTuple

from lib.plain_binding import DERIVED, UNSET, Bits, Header, Instance, Item, Reference, Typed, real_of
from lib.plain_model import File, Mapping

TOKEN = re.compile(r"""
    (?P<blank> [\0- ]+ | /\*.*?\*/ | \\[NF]\\ ) | (?P<string> '(?:[^']|'')*' ) | (?P<binary> "[0-3][0-9A-Fa-f]*" )
  | (?P<real> [+-]?\d+\.\d*(?:[Ee][+-]?\d+)? ) | (?P<integer> [+-]?\d+ ) | (?P<name> \#\d+ ) | (?P<item> \.\w+\. )
  | (?P<word> [A-Za-z_][\w-]* ) | (?P<mark> [(),=;$*] )
""", re.VERBOSE | re.DOTALL | re.ASCII)

ESCAPE = re.compile(r"''|\\\\|\\X\\(..)|\\X2\\(.*?)\\X0\\|\\X4\\(.*?)\\X0\\|\\S\\(''|.)|\\(?:PA|N|F)\\", re.DOTALL)


class Token(NamedTuple):
    sort: str
    text: str


def tokens_of(text):
    """The tokens from the last to the first, so that the next is the last one."""
    found, at = [], 0
    while at < len(text):
        match = TOKEN.match(text, at)
        if not match:
            raise ValueError(f"no token begins with {text[at:at + 20]!r}")
        at = match.end()
        if match.lastgroup != "blank":
            found.append(Token(match.lastgroup, match[0]))
    return found[::-1]


def characters(match):
    """What an escape stands for."""
    two, four, eight, shifted = match.groups()
    if two or four:
        return bytes.fromhex(two.zfill(4) if two else four).decode("utf-16-be")
    if eight:
        return bytes.fromhex(eight).decode("utf-32-be")
    if shifted:
        return chr(ord(shifted[0]) + 128)
    return {"''": "'", "\\\\": "\\"}.get(match[0], "")


def bits(text):
    digits = "".join(f"{int(it, 16):04b}" for it in text[1:])
    return Bits(digits[int(text[0]):])


SCALARS = {
    "string": lambda it: ESCAPE.sub(characters, re.sub("[\n\r]", "", it[1:-1])), "binary": lambda it: bits(it[1:-1]), "real": real_of,
    "integer": int, "name": lambda it: Reference(int(it[1:])), "item": lambda it: Item(it[1:-1].upper()),
    "mark": {"$": UNSET, "*": DERIVED}.__getitem__,
}


class Reader:
    """What is left of a file's tokens."""

    def __init__(self, text):
        self.tokens = tokens_of(text)

    def is_next(self, text):
        return self.tokens[-1].text == text

    def take(self, *texts):
        for text in texts:
            token = self.tokens.pop()
            if token.text.upper() != text:
                raise ValueError(f"{token.text!r} in place of {text!r}")

    def values(self):
        self.take("(")
        found = []
        while not self.is_next(")"):
            if found:
                self.take(",")
            found.append(self.value())
        self.take(")")
        return found

    def value(self):
        if self.is_next("("):
            return self.values()
        token = self.tokens.pop()
        if token.sort != "word":
            return SCALARS[token.sort](token.text)
        inside = self.values()
        if len(inside) != 1:
            raise ValueError(f"{len(inside)} values in {token.text}")
        return Typed(token.text.lower(), inside[0])

    def entity(self, word):
        self.take(word)
        found = self.values()
        self.take(";")
        return found

    def mapping(self):
        is_whole = not self.is_next("(")
        parts = []
        if is_whole:
            parts.append((self.tokens.pop().text, self.values()))
        else:
            self.take("(")
            while not self.is_next(")"):
                parts.append((self.tokens.pop().text, self.values()))
            self.take(")")
        return Mapping(parts, is_whole)

    def instance(self):
        name = int(self.tokens.pop().text[1:])
        self.take("=")
        mapping = self.mapping()
        self.take(";")
        return Instance(name, *mapping)

    def file(self):
        self.take("ISO-10303-21", ";", "HEADER", ";")
        header = Header(self.entity("FILE_DESCRIPTION"), self.entity("FILE_NAME"))
        (schemas,) = self.entity("FILE_SCHEMA")
        self.take("ENDSEC", ";", "DATA", ";")
        instances = []
        while self.tokens[-1].sort == "name":
            instances.append(self.instance())
        self.take("ENDSEC", ";", "END-ISO-10303-21", ";")
        return File(schemas, header, instances)


def read(text):
    """What a file says, which has one data section without a name and no further entities in its header."""
    return Reader(text.removeprefix("\ufeff")).file()


def read_mapping(text):
    """What a text of one instance says."""
    reader = Reader(text)
    found = reader.mapping()
    if reader.tokens:
        raise ValueError(f"{reader.tokens[-1].text!r} stands behind the instance")
    return found
