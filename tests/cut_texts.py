#!/usr/bin/env python3
"""Cuts exchange files, texts of one instance, schemas and a snapshot at every byte, changes tokens of files and schemas, and compares
the replies of the built program, byte for byte.

    tests/cut_texts.py [PROGRAM]

The tables of lib/plain_grammars.py give the fault of each text: it lies at the first token with which the tokens so far begin no text of
the grammar, or at the end of the text. A refused put leaves the model unchanged, and no cut snapshot loads. The last line is
'cut texts: N passed, M failed', and the status is 0 only if none failed.
"""
import os
import random
import re
import sys

from lib.harness import TOP, Wrong, run_tests, shortened, told
from lib.messages import (
    CONFIG, OK, E, L, T, Repository, add, canonical, check, create, export, exported, fault, file_fault, file_of, good, instances, put,
)
from lib.plain_grammars import FILES, INSTANCES, SCHEMAS
from lib.saving import Saving, each, expect_saved, expect_untouched
from snapshots import SAVED

sys.path.insert(0, os.path.join(TOP, "tools"))

from each_refusal import SCHEMA as FORMS  # noqa: E402

D = """SCHEMA D; ENTITY r; a : INTEGER; END_ENTITY;
ENTITY s SUBTYPE OF (r); b : INTEGER; END_ENTITY;
ENTITY t SUBTYPE OF (r); c : INTEGER; END_ENTITY;
ENTITY v SUBTYPE OF (s, t); d : INTEGER; END_ENTITY; END_SCHEMA;
"""
O = """SCHEMA O; ENTITY e; i : OPTIONAL INTEGER;
WHERE a : i < 3; b : (i < 3) AND FALSE; c : (i < 3) OR TRUE;
d : NVL(i, 7) = 7; f : SIZEOF(QUERY(z <* [1, 2] | z < i)) = 0;
END_ENTITY; END_SCHEMA;
"""
X = """SCHEMA X; TYPE i = INTEGER; END_TYPE; TYPE w = ENUMERATION OF (a, bc); END_TYPE; TYPE any = SELECT (i, w, e); END_TYPE;
ENTITY e; r : REAL; b : BINARY; l : LIST OF any; f : LOGICAL; s : STRING; END_ENTITY;
ENTITY d SUBTYPE OF (e); DERIVE SELF\\e.r : REAL := 1.5; END_ENTITY; END_SCHEMA;
"""
CONFIGURED = {**CONFIG, "schemas": ["t.exp", "d.exp", "x.exp"]}
OTHERS = {"d": D, "x": X}


def is_as(reply, wanted):
    return wanted.fullmatch(reply) is not None if isinstance(wanted, re.Pattern) else reply == wanted


def expect_turns(turns):
    """Each line gets its reply. A turn is a description, a line, and its reply or a pattern of the reply."""
    with Repository(CONFIGURED, **OTHERS) as folder:
        seen = folder.batch(b"".join(line + b"\n" for _, line, _ in turns))
    if seen is None:
        return  # (the program runs later, and the replies are compared then)
    status, output, errors = seen
    replies = output.split(b"\n")
    if (status, errors, replies.pop(), len(replies)) != (0, b"", b"", len(turns)):
        raise Wrong(f"status {status}, {len(replies)} replies in place of {len(turns)}, {errors!r}")
    faults = [f"{asked}: {shortened(reply)!r} in place of {wanted!r}" for (asked, _, wanted), reply in zip(turns, replies) if not is_as(reply, wanted)]
    if faults:
        raise Wrong("\n  ".join([f"{len(faults)} of {len(turns)} replies:", *faults[:5]]))


def cuts(text):
    """The text cut at every byte, and the whole text."""
    if not text.isascii():
        raise AssertionError(f"a cut of {text!r} can split a character")
    return [text[:at] for at in range(len(text) + 1)]


def cut_at(text):
    return f"cut after {text[-20:]!r}"


# ---- files

ESCAPED, ESCAPED_AGAIN = r"'\X2\00E9\X0\ \S\i \\ '''", r"'\X2\00E9\X0\ \X2\00E9\X0\ \\ '''"
OF_EACH_SORT = file_of("#1 = E(-12.50E+1, \"23B\", (I(-7), .Bc., #02, W(.A.)), .U., 'it''s')\\N\\;/* ; * ' */#02=(d()e(*,\"0\",(),.t.,''));",
                       "X", "DATA('s',('X'));").replace("ENDSEC;", "FILE_POPULATION(#1,(),A(*),$);ENDSEC;", 1)
# by name: the schema, the file, and the canonical lines of its instances
FILE_ROWS = {
    "two instances": ("T", file_of("#2=Q(#1);#1=P(0.10,'a');"), ["#1=P(1.E-1,'a');", "#2=Q(#1);"]),
    "escapes": ("T", file_of(f"#1=P(1.,{ESCAPED});"), [f"#1=P(1.,{ESCAPED_AGAIN});"]),
    "both mappings": ("D", file_of("#1=(V(4)R(1)T(3)S(2));#2=(T(3)S(2)R(1));", "D"), ["#1=V(1,2,3,4);", "#2=(R(1)S(2)T(3));"]),
    "a token of each sort": ("X", OF_EACH_SORT, ["#1=E(-125.,\"23B\",(I(-7),W(.BC.),#2,W(.A.)),.U.,'it''s');", "#2=D(*,\"0\",(),.T.,'');"]),
}
# by name: the schema, and the text of one instance
INSTANCE_ROWS = {
    "a keyword": ("T", "P(1.E-1,'it''s')"), "types": ("D", "(V(4)R(1)/* ) */T(3)S(2))"),
    "a value of each sort": ("X", "E(-12.50E+1,\"23B\",(I(-7),.Bc.,W(.A.)),.U.,'\\X\\E9')"),
}


def reply_to(texts, text, whole):
    """The reply to a text: its fault, which lies within it or at its end, or the reply to the whole text."""
    found = texts.fault(text)
    if found and not 0 <= found.at <= len(text):
        raise AssertionError(f"{found} of {text!r}")
    return file_fault(found.kind, found.at) if found else whole


def test_files():
    """A cut file is refused, and the model keeps its content. The canonical text of the model is cut too."""
    for name, (schema, file, lines) in FILE_ROWS.items():
        written = canonical(*lines, schema=schema)
        for text in (file, written):
            whole = instances(len(lines))
            content = (f"{name}: the content", export("ann", "ann", "m"), exported(written))
            turns = [("a model", create("ann", "m", schema), OK), (name, put("ann", "ann", "m", text), whole)]
            for piece in cuts(text):
                turns += [(f"{name}, {cut_at(piece)}", put("ann", "ann", "m", piece), reply_to(FILES, piece, whole)), content]
            expect_turns(turns)


def test_texts_of_one_instance():
    """`add` takes the whole text alone."""
    for name, (schema, text) in INSTANCE_ROWS.items():
        turns = [("a model", create("ann", "m", schema), OK)]
        turns += [(f"{name}, {cut_at(piece)}", add("ann", "ann", "m", piece), reply_to(INSTANCES, piece, b'{"ok":{"name":1}}')) for piece in cuts(text)]
        expect_turns(turns)


# ---- schemas

SCHEMA_ROWS = {"T": T, "L": L, "D": D, "E": E, "O": O}
# a schema of most forms, with remarks
REMARKED = "(* it's (* a *) remark *)" + FORMS.replace(";\n", "; -- it's (* one\n", 1) + "END_SCHEMA;\n"


def expect_faults(faults, whole):
    """`check_schema` reports these faults of texts, and the whole text has this reply."""
    expect_turns([(cut_at(piece), check("ann", piece), fault(found.kind, found.at) if found else whole) for piece, found in faults.items()])


def faults_of(text):
    """By each cut of a schema its fault, or None."""
    return {piece: SCHEMAS.fault(piece) for piece in cuts(text)}


def test_schemas():
    """A cut schema has the fault Syntax, at its last token or at its end."""
    for name, text in SCHEMA_ROWS.items():
        faults = faults_of(text)
        for piece, found in faults.items():
            if found and (found.kind != "Syntax" or found.at not in (len(piece), *[it.begin for it in SCHEMAS.tokens(piece)[0][-1:]])):
                raise AssertionError(f"{found} of {piece!r}")
        expect_faults(faults, good(name))


def test_schemas_by_the_command():
    """`check` reports the same fault by its line and column: at each third cut."""
    def look(row):
        name, piece = row
        path = f"{name}-{len(piece)}.exp"
        with open(folder.path(path), "w", encoding="ascii") as it:
            it.write(piece)
        found = SCHEMAS.fault(piece)
        wanted = (1, told(found.kind, piece.encode(), found.at), b"") if found else (0, f"{name}: ok\n".encode(), b"")
        seen = folder.run("check", path)
        if seen != wanted:
            raise Wrong(f"{cut_at(piece)}: {seen!r} in place of {wanted!r}")

    with Saving() as folder:
        each(look, [(name, piece) for name, text in SCHEMA_ROWS.items() for piece in cuts(text)[::3]])


def test_a_schema_of_most_forms():
    """A cut remark, string or binary literal is a fault of its token; any other cut is a Syntax fault."""
    faults = faults_of(REMARKED)
    if {it.kind for it in faults.values() if it} != {"Syntax", "OpenRemark", "OpenString", "Token"}:
        raise AssertionError("a kind of fault doesn't occur")
    expect_faults(faults, good("C", REMARKED.index("'C.S'")))


# ---- other tokens

# the tokens that replace a token or precede it, and how many texts are made of each text
INSTEAD = ["", "x", ";", ":", "(", ")", "1", "1.5", "'a'", "<", "-", "OF", "END_ENTITY", "WHERE", "SELF", "LIKE", "SET"]
INSTEAD_OF_FILES = ["", "X", ";", "(", ")", "1", "#1", "'a'", "$", "=", ",", "ENDSEC", "iso-10303-21"]
SO_MANY = 400
# the reply to a text of the grammar speaks of names, kinds or values
AFTER_THE_GRAMMAR = re.compile(rb'\{"ok":\{("fault":\{"at":\d+,"kind":"(?!Syntax|OutOfProfile|Token|Open)\w+"\}|"schema":"\w+","warnings":\[.*\])\}\}')
AFTER_THE_FILE = re.compile(rb'\{"ok":\{"instances":\d+\}\}|\{"refused":\{"code":(9|12),.*\}\}')


def with_others(texts, text, others):
    """SO_MANY texts, each with one token replaced or preceded by another."""
    found = [f"{text[:token.begin]} {other} {text[end:]}" for token in texts.tokens(text)[0] for other in others
             for end in ({token.begin, token.end} if other else {token.end})]
    # (in this order each begins like the previous one)
    return sorted(random.Random(len(text)).sample(found, SO_MANY))


def turns_of_others(texts, changed, asked, refusal, pattern):
    """Each changed text with its fault, or with the pattern of the replies to texts of the grammar."""
    turns = []
    for piece in changed:
        found = texts.fault(piece)
        turns.append((repr(piece), asked(piece), refusal(found.kind, found.at) if found else pattern))
    count = sum(it is pattern for _, _, it in turns)
    if not 0.005 < count / len(turns) < 0.5:
        raise AssertionError(f"{count} of {len(turns)} texts belong to the grammar")
    return turns


def test_schemas_with_other_tokens():
    """The fault lies at the first token with which the tokens so far begin no schema: the changed token or one after it."""
    for text in SCHEMA_ROWS.values():
        expect_turns(turns_of_others(SCHEMAS, with_others(SCHEMAS, text, INSTEAD), lambda it: check("ann", it), fault, AFTER_THE_GRAMMAR))


def test_files_with_other_tokens():
    """The same holds of files."""
    for schema, text, _ in FILE_ROWS.values():
        expect_turns([("a model", create("ann", "m", schema), OK), *turns_of_others(
            FILES, with_others(FILES, text, INSTEAD_OF_FILES), lambda it: put("ann", "ann", "m", it), file_fault, AFTER_THE_FILE)])


# ---- a snapshot

def test_a_snapshot():
    """A snapshot cut at any byte doesn't load: the program exits with status 2 and one line, and the previously saved file is unchanged."""
    def look(row):
        at, _ = row
        expect_untouched(folder.ask(load=SAVED[:at]), re.compile(rb": .+"))

    with Saving({**CONFIG, "schemas": ["t.exp"]}) as folder:
        each(look, [(at, f"cut at byte {at}") for at in range(len(SAVED))])
        expect_saved(folder.ask(load=SAVED), SAVED)


if __name__ == "__main__":
    run_tests("cut texts", globals(), sys.argv[1:])
