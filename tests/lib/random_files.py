"""Exchange files of a schema and EXPRESS texts from random numbers, each with what a reader has to find in it.

A text is a list of tokens that are written one behind the other, with blanks, comments and nothing between them. A mark
as ⟦Token⟧ in front of a token says that the text's fault lies there, and of what kind it is.
"""
from lib.harness import unmarked
from lib.plain_binding import (
    DERIVED, UNSET, Aggregate, Bits, Entity, Enumeration, Header, Instance, Item, Reference, Schema, Select, Typed, line_of, members,
    places_of, real_of, target,
)
from lib.plain_model import File, FileFault, Mapping

NOTHING = [""] * 12
BLANKS = [" ", "  ", "\n", "\r\n", "\t", "\x01", "\x00", "/**/", "/***/", "/* é */", "/* it's #1=P(; */", "\\N\\", "\\F\\"]

# The schema that the files are mostly of: each sort of type, redeclared and derived attributes, an attribute that an entity has
# from two declarations, and supertypes that leave some sets out.
T = Schema("T", {
    "len": "REAL", "short": "len", "label": "STRING", "count": "INTEGER", "flag": "BOOLEAN",
    "colour": Enumeration(["red", "green", "milli"]), "shade": Enumeration(["red", "grey"]),
    "lengths": Aggregate("LIST [0:?]", "len"), "pairs": Aggregate("LIST [0:?]", Aggregate("SET [0:?]", "measure")),
    "measure": Select(["len", "count"]), "other": "any",
    "any": Select(["measure", "label", "colour", "shade", "lengths", "p", "flag"]), "some_p": Select(["p", "q"]),
}, {
    "e": Entity(),
    "p": Entity({"x": "REAL", "n": "STRING"}, optional=["n"]),
    "q": Entity({"a": "p"}),
    "r": Entity({"many": Aggregate("LIST [0:?]", "any"), "b": "BINARY", "l": "LOGICAL"}, optional=["b"]),
    "point": Entity({"places": Aggregate("ARRAY [1:3]", "short"), "c": "colour", "toward": "some_p"}),
    "unit": Entity({"factor": "REAL", "said": "other"}, is_abstract=True, expression=("ANDOR", ("ONEOF", "metre", "degree"), "si_unit")),
    "metre": Entity(supertypes=["unit"]),
    "degree": Entity({"turn": "NUMBER", "all_of": "pairs"}, ["unit"]),
    "si_unit": Entity({"prefix": "colour"}, ["unit"], derived={("unit", "factor"): "1.0"}, optional=["prefix"]),
    "a_1": Entity({"a": "INTEGER"}),
    "b2": Entity({"b": "label"}, ["a_1"]),
    "s": Entity({}, ["a_1"], redeclared={("a_1", "a"): "count"}),
    "v": Entity({"b": "other"}, ["b2", "s"]),
    "w": Entity({"y": "flag"}, ["p", "a_1"], derived={("p", "x"): "2.5"}),
})
ENTITIES = ["p", "p", "p", "q", "q", *T.entities]
# words that a keyword may be: entities, types, and what is neither
KEYWORDS = [*T.entities, *T.types, "_a", "Product"]
POOL = [0, 1, 2, 3, 4, 5, 6, 7, 8, 9, 10, 11, 99, 100, 101, 1000, 999_999_999_999_999_998, 999_999_999_999_999_999]
UNDEFINED = 12345

INTEGERS = ["0", "-7", "+5", "-0", "0012", "10", "9223372036854775807", "-9223372036854775808"]
REALS = ["0.10", "1.", "-1.E-1", "+2.5E+3", "1.e3", "0.E+000", "-0.", "1.E1000", "-12345678901234567.89", "10.", "120.E-1"]
STRINGS = {
    "'\\X2\\00E9D83DDE00\\X0\\'": "é\U0001f600", "'\\X\\e9\\S\\i\\\\'": "éé\\", "'\\PA\\\\S\\'''": "§", "''": "", "'a'": "a",
    "'it''s'": "it's", "'/* x'": "/* x", "'#9=Q(#8);'": "#9=Q(#8);", "'é \U0001f600'": "é \U0001f600", "'a\nb'": "ab",
    "''''": "'", "'\t\x7f'": "\t\x7f", "'\\X4\\000000E9\\X0\\ \\X2\\00E9\\X0\\'": "é é",
}
ITEMS = {".T.": "T", ".f.": "F", ".U.": "U", ".MILLI.": "MILLI", ".red.": "RED", ".Grey.": "GREY", "._a1.": "_A1"}
BINARIES = {'"0"': "", '"23B"': "111011", '"1f"': "111", '"0A5"': "10100101"}

# each with what it says
SCALARS = {
    "$": UNSET, "*": DERIVED, **{it: int(it) for it in INTEGERS}, **{it: real_of(it) for it in REALS}, **STRINGS,
    **{text: Item(word) for text, word in ITEMS.items()}, **{text: Bits(bits) for text, bits in BINARIES.items()},
}
# the scalars of a simple type
OF_TYPE = {
    "INTEGER": INTEGERS, "REAL": INTEGERS[:4] + REALS, "NUMBER": INTEGERS + REALS, "STRING": list(STRINGS), "BINARY": list(BINARIES),
    "BOOLEAN": [".T.", ".f."], "LOGICAL": [".T.", ".f.", ".U."],
}

HEADER_VALUES = {"''": "", "'2;1'": "2;1", "$": UNSET, "'it''s'": "it's", "'DATA;'": "DATA;", "'\\X\\e9'": "é"}
OTHER_ENTITIES = ["FILE_POPULATION", "SECTION_LANGUAGE", "SECTION_CONTEXT"]

# What is no token, by the kind of the fault. It can stand before each token of a file, with blanks on both sides.
NO_TOKENS = {
    "Token": ["?", ".5", "é", "\x7f", "A-B", "ISO-10303-2", '"4F"', '"1"', '"0 "', "-", "+", ".T", ".5.", "#", "\\S\\", "\ufeff", "!",
              "/", "&"],
    "Number": ["9223372036854775808", "-9223372036854775809", "+9223372036854775808", "#1000000000000000000", "1.E1001", "-0.1E-1000",
               "1234567890123456789012345678901234567."],
    "Escape": ["'\\X2\\0E9\\X0\\'", "'\\'", "'a\\n\\'", "'\\S\\'", "'\\X4\\00E9\\X0\\'"],
    "Page": ["'\\PB\\a'"],
    "Code": ["'\\X2\\D800\\X0\\'", "'\\X4\\00110000\\X0\\\\Q'"],
}
# What is begun and doesn't end, where nothing stands behind it.
OPEN = ["'ab", "'", "'it''s", "/* x", "/*", "/*/", '"0', '"']


def cased(random, word):
    """A word in some case, since none matters."""
    return random.choice([word, word, word, word.lower(), word.title(), word.swapcase()])


def between(lists):
    """The tokens of some values, with commas between."""
    return [token for place, tokens in enumerate(lists) for token in ([","] if place else []) + tokens]


def listed(lists):
    return ["(", *between(lists), ")"]


# ---- values: the tokens of each, and what they say

def deep_value(random):
    """A value at the deepest level that there is, or, at times, one level below."""
    said = []
    for _ in range(15):
        said = [said]
    if random.random() < 0.5:
        return ["("] * 16 + [")"] * 16, said
    below = random.choice([["⟦Deep⟧(", "1", ")"], ["A", "(", "⟦Deep⟧(", ")", ")"], ["A", "(", "⟦Deep⟧B", "(", "1", ")", ")"]])
    return ["("] * 16 + below + [")"] * 16, said


def scalar(random, texts):
    text = random.choice(list(texts))
    return [text], SCALARS[text]


def reference(random, names):
    name = random.choice(names)
    return [f"#{'0' * random.choice([0, 0, 0, 2])}{name}"], Reference(name)


def list_of(made):
    return listed([tokens for tokens, _ in made]), [said for _, said in made]


def typed(random, keyword, made):
    tokens, said = made
    return [cased(random, keyword.upper()), "(", *tokens, ")"], Typed(keyword.lower(), said)


def any_value(random, names, depth=0):
    kind = random.random()
    if names and kind < 0.25:
        return reference(random, names)
    if kind < 0.40 and depth < 4:
        return list_of([any_value(random, names, depth + 1) for _ in range(random.choice([0, 1, 1, 2, 3]))])
    if kind < 0.50 and depth < 4:
        return typed(random, random.choice(KEYWORDS), any_value(random, names, depth + 1))
    if kind < 0.6 and depth == 0:
        return deep_value(random)
    return scalar(random, SCALARS)


def value_in_select(random, select, names, depth):
    """Mostly a member with its keyword, at times without it."""
    member = random.choice(members(T, select))
    if member in T.entities:
        return value(random, member, names, depth)
    _, end = target(T, member)
    made = value_in(random, end, names, depth)
    return made if random.random() < 0.15 else typed(random, member, made)


def value_in(random, base, names, depth):
    """A value of what a type means in the end."""
    if isinstance(base, Select):
        return value_in_select(random, base, names, depth)
    if isinstance(base, Aggregate):
        return list_of([value(random, base.element, names, depth + 1) for _ in range(random.choice([0, 1, 2, 3]))])
    if isinstance(base, Enumeration):
        word = random.choice(base.items)
        return [f".{random.choice([word, word.upper()])}."], Item(word.upper())
    if base in T.entities:
        return reference(random, names) if names else (["$"], UNSET)
    return scalar(random, OF_TYPE[base])


def value(random, declared, names, depth=0):
    """Mostly a value that a type takes."""
    kind = random.random()
    if kind < 0.01:
        return any_value(random, names, depth)
    if kind < 0.015:
        return ["*"], DERIVED
    if kind < 0.06:
        return ["$"], UNSET
    own, base = target(T, declared)
    made = value_in(random, base, names, depth)
    if own and random.random() < 0.2 and made[1] is not UNSET:
        return typed(random, random.choice(own), made)
    return made


def header_value(random, depth=0):
    if random.random() < 0.4 and depth < 4:
        return list_of([header_value(random, depth + 1) for _ in range(random.choice([0, 1, 2]))])
    text = random.choice(list(HEADER_VALUES))
    return [text], HEADER_VALUES[text]


# ---- parts of a file

def entity(word, lists):
    return [word, *listed(lists), ";"]


def header_entity(random, word, count):
    """An entity of the header with so many values, or, at times, with one too few or too many; and the values."""
    made = [header_value(random) for _ in range(count)]
    values, said = [tokens for tokens, _ in made], [it for _, it in made]
    kind = random.random()
    if kind < 0.01:
        return [cased(random, word), "(", *between(values[:-1]), "⟦Syntax⟧)", ";"], said
    if kind < 0.02:
        return [cased(random, word), "(", *between(values), "⟦Syntax⟧,", "$", ")", ";"], said
    return entity(cased(random, word), values), said


def header(random, schema):
    """The tokens of a header, and what is kept of it."""
    description, description_said = header_entity(random, "FILE_DESCRIPTION", 2)
    name, name_said = header_entity(random, "FILE_NAME", 7)
    tokens = [cased(random, "HEADER"), ";", *description, *name, *entity(cased(random, "FILE_SCHEMA"), [listed([[f"'{schema}'"]])])]
    while random.random() < 0.15:
        values = [any_value(random, POOL)[0] for _ in range(random.choice([0, 1, 3]))]
        tokens += entity(cased(random, random.choice(OTHER_ENTITIES)), values)
    return tokens + [cased(random, "ENDSEC"), ";"], Header(description_said, name_said)


def value_at(random, place, types, names):
    """A value of an attribute of an instance of these types."""
    if any(place in T.entities[it].derived for it in types) and random.random() < 0.95:
        return (["$"], UNSET) if random.random() < 0.2 else (["*"], DERIVED)
    return value(random, T.entities[place[0]].attributes[place[1]], names)


def record(random, keyword, written, types, names):
    """The tokens of a keyword and of the values of these entities, mostly all of them, and what they say."""
    made = [value_at(random, it, types, names) for it in places_of(T, written)]
    kind = random.random()
    if made and kind < 0.01:
        made.pop()
    elif kind < 0.02:
        made.append(any_value(random, names))
    tokens, said = list_of(made)
    return [cased(random, keyword.upper()), *tokens], (keyword, said)


def types_of_parts(random):
    """The types of an instance that are written one by one, in any order: mostly such as may come together."""
    types = set(line_of(T, random.choice(ENTITIES)))
    while random.random() < 0.5:
        beside = [it for it in T.entities if types & set(T.entities[it].supertypes)]
        types |= set(line_of(T, random.choice(beside or ENTITIES)))
    types = sorted(types)
    random.shuffle(types)
    kind = random.random()
    if kind < 0.05:
        types.pop()
    elif kind < 0.08:
        types.append(random.choice(KEYWORDS))
    return types or ["p"]


def instance(random, name, names):
    """The tokens of an instance, and what they say."""
    tokens = [f"#{'0' * random.choice([0, 0, 0, 0, 1, 20])}{name}", "="]
    if random.random() < 0.7:
        keyword = random.choice(KEYWORDS) if random.random() < 0.02 else random.choice(ENTITIES)
        types = line_of(T, keyword) if keyword in T.entities else []
        spelled, said = record(random, keyword, types, types, names)
        return [*tokens, *spelled, ";"], Instance(name, [said])
    types = types_of_parts(random)
    written = [it for it in types if it in T.entities]
    parts = [record(random, it, [it] if it in T.entities else [], written, names) for it in types]
    spelled = [token for tokens_of_part, _ in parts for token in tokens_of_part] + [")"]
    if random.random() < 0.03:
        spelled = ["⟦Syntax⟧)"]
    return [*tokens, "(", *spelled, ";"], Instance(name, [said for _, said in parts], False)


def data(random, schema, linked):
    """The tokens of a data section whose instances may refer to the names that are linked, and these instances."""
    tokens = [cased(random, "DATA")]
    if schema is not None:
        tokens += listed([["'s'"], listed([[f"'{schema}'"]])])
    tokens.append(";")
    names = random.sample(POOL, random.choice([0, 1, 2, 2, 3, 5, 9]))
    # names that stand twice and names that nothing has are mostly of the same files, so that one instance may have both
    is_odd = random.random() < 0.3
    if names and is_odd and random.random() < 0.4:
        names.append(random.choice(names))
    may_refer = names + linked * 2 + [UNDEFINED] * 2 * is_odd
    instances = []
    for name in names:
        spelled, said = instance(random, name, may_refer)
        tokens += spelled
        instances.append(said)
    return tokens + [cased(random, "ENDSEC"), ";"], instances


# ---- files

def joined(random, tokens):
    """The text of some tokens."""
    if random.random() < 0.4:
        return "".join(tokens)
    return "".join(random.choice(NOTHING + BLANKS) + it for it in tokens) + random.choice(NOTHING + BLANKS)


def faulty(random, tokens):
    """The marked text of a file's tokens with a fault before one of them, or behind all."""
    place = random.randrange(len(tokens) + 1)
    at = tokens[place] if place < len(tokens) else ""
    front = joined(random, tokens[:place])
    back = joined(random, tokens[place:]) if random.random() < 0.5 else ""
    kind = random.choice(["Cut", "Other", "Token", "Number", "Open", "Sections"])
    if kind == "Cut" and at:
        return front + "⟦Syntax⟧"
    if kind in NO_TOKENS:
        return f"{front} ⟦{kind}⟧{random.choice(NO_TOKENS[kind])} {back}"
    if kind == "Open":
        return f"{front} ⟦Open⟧{random.choice(OPEN)}"
    if kind == "Sections":
        # behind the data section, before the two tokens that end the file
        behind = random.choice(["(", ";", " x", "", "/*", " é"])
        return joined(random, tokens[:-2]) + f"⟦Sections⟧{cased(random, 'DATA')}{behind}"
    return front + ("⟦Syntax⟧;" if at == "=" else "⟦Syntax⟧=") + back


def exchange_file(random, schema, section, linked=()):
    """A file whose header and data section name these schemas, the latter none where it is None; and what there is to find. It
    may refer to the names that are linked."""
    spelled, instances = data(random, section, list(linked))
    head, said = header(random, schema)
    tokens = [cased(random, "ISO-10303-21"), ";", *head, *spelled, cased(random, "END-ISO-10303-21"), ";"]
    is_whole = not any("⟦" in it for it in tokens)
    marked = faulty(random, tokens) if is_whole and random.random() < 0.35 else joined(random, tokens)
    text, marks = unmarked(random.choice(["", "", "", "", "\ufeff"]) + marked)
    if marks:
        return text.decode(), FileFault(*marks[0])
    return text.decode(), File([schema] if section is None else [schema, section], said, instances)


def faulty_mapping(random, tokens):
    """The marked text of the tokens of one instance with a fault before one of them, or behind all."""
    place = random.randrange(len(tokens) + 1)
    front = joined(random, tokens[:place])
    back = joined(random, tokens[place:]) if random.random() < 0.5 else ""
    kind = random.choice(["Cut", "Other", "Token", "Number", "Open", "Mark"])
    if kind == "Cut" and place < len(tokens):
        return front + "⟦Syntax⟧"
    if kind in NO_TOKENS:
        return f"{front} ⟦{kind}⟧{random.choice(NO_TOKENS[kind])} {back}"
    if kind == "Open":
        return f"{front} ⟦Open⟧{random.choice(OPEN)}"
    if kind == "Mark":
        return "⟦Token⟧\ufeff" + joined(random, tokens)
    return front + random.choice(["⟦Syntax⟧=", "⟦Syntax⟧;"]) + back


def instance_text(random, names):
    """A text of one instance that may refer to these names, and what there is to find."""
    spelled, said = instance(random, 0, names)
    tokens = spelled[2:-1]
    is_whole = not any("⟦" in it for it in tokens)
    marked = faulty_mapping(random, tokens) if is_whole and random.random() < 0.2 else joined(random, tokens)
    text, marks = unmarked(marked)
    return text.decode(), FileFault(*marks[0]) if marks else Mapping(said.parts, said.is_whole)


def long_file(schema, count):
    """A file of so many instances."""
    text = "".join(f"#{name}=E();" for name in range(1, count + 1))
    head = f"ISO-10303-21;HEADER;FILE_DESCRIPTION($,$);FILE_NAME($,$,$,$,$,$,$);FILE_SCHEMA(('{schema}'));ENDSEC;DATA;"
    said = File([schema], Header([UNSET] * 2, [UNSET] * 7), [Instance(name, [("E", [])]) for name in range(1, count + 1)])
    return head + text + "ENDSEC;END-ISO-10303-21;", said


# ---- EXPRESS texts

REMARKS = ["", "", "", " ", "\n", "\t\r\n", "(* é *)", "(* (* SCHEMA *) *)", "-- x\n", "-- 'é\n"]

# A schema's name, and a text whose mark is a warning or the fault.
SCHEMA_TEXTS = [
    ("A", "SCHEMA A; END_SCHEMA;"),
    ("LOWER_CASE", "schema lower_case; end_schema;"),
    ("T", "SCHEMA t; ENTITY p; x : REAL; END_ENTITY; ENTITY q; a : p; END_ENTITY; END_SCHEMA;"),
    ("C", "SCHEMA C; ENTITY e; x : REAL; WHERE -1.5 < x; END_ENTITY; END_SCHEMA;"),
    ("W", "SCHEMA W; TYPE s = SELECT (e); END_TYPE; ENTITY e; WHERE ⟦SelectInTypeof⟧'W.S' IN TYPEOF(SELF); END_ENTITY; END_SCHEMA;"),
    ("", "⟦Syntax⟧"),
    ("", "SCHEMA A;⟦Syntax⟧"),
    ("", "SCHEMA A; END_SCHEMA; ⟦Syntax⟧x"),
    ("", "SCHEMA A; ENTITY e; a : ⟦Syntax⟧; END_ENTITY; END_SCHEMA;"),
    ("", "SCHEMA A; ⟦OutOfProfile⟧PROCEDURE p; END_PROCEDURE; END_SCHEMA;"),
    ("", "SCHEMA A; CONSTANT c : INTEGER := " + "(" * 64 + "⟦TooDeep⟧("),
    ("", "SCHEMA A; ⟦OpenString⟧'open"),
    ("", "SCHEMA A; ⟦OpenRemark⟧(* open"),
    ("", 'SCHEMA A; ⟦BadEncoded⟧"0000" END_SCHEMA;'),
    ("", "SCHEMA A; ⟦TooBig⟧9223372036854775808"),
    ("", "SCHEMA ⟦Token⟧é; END_SCHEMA;"),
    ("", "SCHEMA A; ENTITY e; a : ⟦Undeclared⟧b; END_ENTITY; END_SCHEMA;"),
    ("", "SCHEMA A; ENTITY e; END_ENTITY; ENTITY ⟦DeclaredTwice⟧e; END_ENTITY; END_SCHEMA;"),
    ("", "SCHEMA A; ENTITY ⟦CyclicSubtype⟧e SUBTYPE OF (e); END_ENTITY; END_SCHEMA;"),
    ("", "SCHEMA A; ENTITY e; a : REAL; WHERE a ⟦RealArithmetic⟧/ 2.0 > 1.0; END_ENTITY; END_SCHEMA;"),
    ("", "SCHEMA A; ENTITY e; WHERE ⟦Operand⟧NOT 5; END_ENTITY; END_SCHEMA;"),
]


def schema_text(random):
    """A text, and the content of the reply to its check."""
    name, marked = random.choice(SCHEMA_TEXTS)
    text, marks = unmarked("".join(random.choice(REMARKS) for _ in range(random.choice([0, 1, 2]))) + marked)
    places = [{"at": at, "kind": kind} for kind, at in marks]
    return text.decode(), {"schema": name, "warnings": places} if name else {"fault": places[0]}
