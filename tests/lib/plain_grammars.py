"""The grammars of schemas, of exchange files and of single instances as tables of productions, and the first fault of a text.

    SCHEMAS.fault(text), FILES.fault(text), INSTANCES.fault(text)      the byte and the kind of the first fault, or None

The tables follow the grammars that the standards print (ISO 10303-11:1994, Annex A, and ISO 10303-21) in the subset of the profile. They
owe nothing to the program. An Earley parser follows all derivations of a text at once, so the fault lies at the first token with which
the tokens so far begin no text of the grammar, or at the end of the text. Limits (of nesting, of numbers, of characters), names and values
are not checked.
"""
import collections
import re
from typing import NamedTuple


class Rule(NamedTuple):
    """A production, or one of its alternatives."""

    name: str
    symbols: tuple


class Item(NamedTuple):
    """A rule of which the first `read` symbols are read, from the token number `begin` on."""

    rule: Rule
    read: int
    begin: int


class Token(NamedTuple):
    """A token: the bytes where it begins and ends, and the terminals of the grammar that it matches."""

    begin: int
    end: int
    matches: frozenset


class Fault(NamedTuple):
    """The first fault of a text, with the keys of a reply."""

    at: int
    kind: str


# ---- productions

SYMBOL = re.compile(r"'([^']+)'|(\w+)|([][{}()|=.])")


class Productions:
    """Reads productions such as `name = a { b } [ c ] ( d | e ) 'x' .` into rules by name. A name without a production is a terminal."""

    def __init__(self, text):
        self.rules = collections.defaultdict(list)
        self.words = [found[0] for found in SYMBOL.finditer(text)][::-1]
        while self.words:
            name = self.words.pop()
            self.skip("=")
            self.rules[name] = self.choice(name, ".")

    def skip(self, word):
        if self.words.pop() != word:
            raise ValueError(f"no {word} before {self.words[-5:][::-1]}")

    def choice(self, name, end):
        """The rules of a name, up to the mark that ends its production."""
        found, symbols = [], []
        while (word := self.words.pop()) != end:
            if word == "|":
                found.append(Rule(name, tuple(symbols)))
                symbols = []
            else:
                symbols.append(self.part(word))
        return [*found, Rule(name, tuple(symbols))]

    def part(self, word):
        """A symbol. A part in brackets or braces gets a name of its own."""
        if word not in "[{(":
            return word.strip("'")
        name = f"part {len(self.words)}"
        self.rules[name] = self.choice(name, {"[": "]", "{": "}", "(": ")"}[word])
        if word == "{":
            self.rules[name] = [Rule(name, (*it.symbols, name)) for it in self.rules[name]]
        if word != "(":
            self.rules[name].append(Rule(name, ()))
        return name


# ---- all derivations at once

class State:
    """The items of all derivations after a number of tokens, and the items that wait for a name."""

    def __init__(self):
        self.items = set()
        self.waiting = collections.defaultdict(list)


class Grammar:
    """A grammar and its Earley parser. The parse of a text is a list of states, one for each number of tokens."""

    def __init__(self, start, text):
        self.start = start
        self.rules = Productions(text).rules
        self.terminals = {it for rules in self.rules.values() for rule in rules for it in rule.symbols} - set(self.rules)
        self.empty = self.names_of_nothing()

    def names_of_nothing(self):
        """The names that also produce the empty text."""
        found, before = set(), None
        while before != found:
            before = set(found)
            found |= {name for name, rules in self.rules.items() if any(found.issuperset(it.symbols) for it in rules)}
        return found

    def after(self, states, items):
        """The states and one more: these items, with all that they predict and complete."""
        here, state, work = len(states), State(), list(items)
        states = [*states, state]
        while work:
            item = work.pop()
            if item in state.items:
                continue
            state.items.add(item)
            symbol = item.rule.symbols[item.read] if item.read < len(item.rule.symbols) else None
            if symbol is None:
                work += [it._replace(read=it.read + 1) for it in states[item.begin].waiting[item.rule.name]]
            elif symbol in self.rules:
                state.waiting[symbol].append(item)
                work += [Item(it, 0, here) for it in self.rules[symbol]]
                work += [item._replace(read=item.read + 1)] if symbol in self.empty else []
        return states

    def begun(self):
        return self.after([], [Item(it, 0, 0) for it in self.rules[self.start]])

    def taken(self, states, token):
        """The states and one more, after a token that matches these terminals, or None where no text begins so."""
        items = [it._replace(read=it.read + 1) for it in states[-1].items
                 if it.read < len(it.rule.symbols) and it.rule.symbols[it.read] in token]
        return self.after(states, items) if items else None

    def is_whole(self, states):
        return any(it.rule.name == self.start and it.read == len(it.rule.symbols) for it in states[-1].items)


# ---- texts

class Parsed(NamedTuple):
    """Tokens, by the terminals that they match, and the states after each number of them."""

    tokens: list
    states: list


class Texts:
    """The texts of a grammar. `tokens` returns the tokens of a text up to the first that is faulty, and its fault or None."""

    def __init__(self, grammar, tokens, is_token_first, out_of_profile=frozenset()):
        self.grammar, self.tokens, self.is_token_first, self.out_of_profile = grammar, tokens, is_token_first, out_of_profile
        # (most texts begin like the previous one)
        self.previous = Parsed([], [grammar.begun()])

    def fault(self, text):
        """The first fault of a text: that of its tokens if tokens are read first, else the one of least offset."""
        tokens, fault = self.tokens(text)
        if fault and self.is_token_first:
            return fault
        parsed = self.parsed([it.matches for it in tokens])
        at = len(parsed.tokens)
        if at < len(tokens):
            return Fault(tokens[at].begin, "OutOfProfile" if tokens[at].matches & self.out_of_profile else "Syntax")
        return fault or (None if self.grammar.is_whole(parsed.states[-1]) else Fault(len(text), "Syntax"))

    def parsed(self, tokens):
        """The longest front of these tokens that begins a text."""
        previous = self.previous
        same = 0
        while same < min(len(tokens), len(previous.tokens)) and tokens[same] == previous.tokens[same]:
            same += 1
        found = Parsed(previous.tokens[:same], previous.states[:same + 1])
        for token in tokens[same:]:
            states = self.grammar.taken(found.states[-1], token)
            if states is None:
                break
            found.tokens.append(token)
            found.states.append(states)
        self.previous = found
        return found


# ---- schemas

# RETURN is a statement in functions alone, SKIP and ESCAPE in REPEAT alone
STATEMENT = """
{0} = ID ':=' expression ';' | ';' | BEGIN {0} {{ {0} }} END ';' | IF expression THEN {0} {{ {0} }} [ ELSE {0} {{ {0} }} ] END_IF ';'
    | CASE expression OF {{ expression {{ ',' expression }} ':' {0} }} [ OTHERWISE ':' {0} ] END_CASE ';'
    | REPEAT [ ID ':=' simple_expression TO simple_expression [ BY simple_expression ] ] [ WHILE expression ] [ UNTIL expression ] ';'
      {1} {{ {1} }} END_REPEAT ';' {2} .
"""
RETURN, LEAVE = "| RETURN '(' expression ')' ';'", "| SKIP ';' | ESCAPE ';'"
STATEMENTS = "".join(STATEMENT.format(*it) for it in (
    ("function_statement", "function_turn", RETURN), ("function_turn", "function_turn", RETURN + LEAVE),
    ("rule_statement", "rule_turn", ""), ("rule_turn", "rule_turn", LEAVE)))

SCHEMA = """
schema = SCHEMA ID ';' [ CONSTANT constant { constant } END_CONSTANT ';' ] { type | entity | function | rule } END_SCHEMA ';' .
constant = ID ':' base_type ':=' expression ';' .

type = TYPE ID '=' underlying_type ';' [ where ] END_TYPE ';' .
underlying_type = ENUMERATION OF '(' ID { ',' ID } ')' | SELECT '(' ID { ',' ID } ')' | base_type .
base_type = simple_type | ID | ARRAY bounds OF [ OPTIONAL ] [ UNIQUE ] base_type | LIST [ bound_spec ] OF [ UNIQUE ] base_type
          | ( BAG | SET ) [ bound_spec ] OF base_type .
simple_type = INTEGER | REAL | NUMBER | BOOLEAN | LOGICAL | ( STRING | BINARY ) [ '(' INTEGER_LITERAL ')' [ FIXED ] ] .
bounds = '[' INTEGER_LITERAL ':' INTEGER_LITERAL ']' .
bound_spec = '[' INTEGER_LITERAL ':' ( INTEGER_LITERAL | '?' ) ']' .
parameter_type = simple_type | ID | GENERIC [ ':' ID ] | AGGREGATE [ ':' ID ] OF parameter_type
               | ARRAY bounds OF [ OPTIONAL ] [ UNIQUE ] parameter_type | LIST [ bound_spec ] OF [ UNIQUE ] parameter_type
               | ( BAG | SET ) [ bound_spec ] OF parameter_type .

entity = ENTITY ID [ ABSTRACT SUPERTYPE [ supertypes_of ] | SUPERTYPE supertypes_of ] [ SUBTYPE OF '(' ID { ',' ID } ')' ] ';'
         { attribute { ',' attribute } ':' [ OPTIONAL ] base_type ';' } [ DERIVE derived { derived } ] [ INVERSE inverse { inverse } ]
         [ UNIQUE unique { unique } ] [ where ] END_ENTITY ';' .
supertypes_of = OF '(' supertype_expression ')' .
supertype_expression = supertype_factor { ANDOR supertype_factor } .
supertype_factor = supertype_term { AND supertype_term } .
supertype_term = ID | ONEOF '(' supertype_expression { ',' supertype_expression } ')' | '(' supertype_expression ')' .
attribute = ID | SELF '\\' ID '.' ID .
derived = attribute ':' base_type ':=' expression ';' .
inverse = ID ':' [ ( SET | BAG ) [ bound_spec ] OF ] ID FOR ID ';' .
unique = [ ID ':' ] attribute { ',' attribute } ';' .
where = WHERE condition { condition } .
condition = [ ID ':' ] expression ';' .

function = FUNCTION ID [ '(' parameter { ';' parameter } ')' ] ':' parameter_type ';' [ locals ]
           function_statement { function_statement } END_FUNCTION ';' .
parameter = ID { ',' ID } ':' parameter_type .
rule = RULE ID FOR '(' ID { ',' ID } ')' ';' [ locals ] { rule_statement } where END_RULE ';' .
locals = LOCAL local { local } END_LOCAL ';' .
local = ID { ',' ID } ':' base_type [ ':=' expression ] ';' .

expression = simple_expression [ ( '<' | '>' | '<=' | '>=' | '<>' | '=' | ':<>:' | ':=:' | IN ) simple_expression ] .
simple_expression = term { ( '+' | '-' | OR | XOR ) term } .
term = factor { ( '*' | '/' | DIV | MOD | AND ) factor } .
factor = simple_factor [ '**' simple_factor ] .
simple_factor = [ unary ] ( '(' expression ')' | primary ) | [ unary ] ( '+' | '-' ) REAL_LITERAL
              | '[' [ expression { ',' expression } ] ']'
              | '{' simple_expression ( '<' | '<=' ) simple_expression ( '<' | '<=' ) simple_expression '}'
              | QUERY '(' ID '<*' simple_expression '|' expression ')' .
unary = '+' | '-' | NOT .
primary = INTEGER_LITERAL | REAL_LITERAL | STRING_LITERAL | BINARY_LITERAL | TRUE | FALSE | UNKNOWN | named { qualifier } .
named = SELF | '?' | ID [ arguments ] | built_in [ arguments ] .
built_in = ABS | BLENGTH | EXISTS | HIINDEX | LENGTH | LOINDEX | NVL | ODD | SIZEOF | TYPEOF | USEDIN | VALUE_IN .
arguments = '(' expression { ',' expression } ')' .
qualifier = '.' ID | '\\' ID | '[' simple_expression [ ':' simple_expression ] ']' .
""" + STATEMENTS

# words that the profile leaves out: each is reported as such where another token is due
LEFT_OUT = frozenset("""ACOS AGGREGATE ALIAS ASIN ATAN CONST_E COS EXP FORMAT GENERIC HIBOUND INSERT LIKE LOBOUND LOG LOG10 LOG2 PI PROCEDURE
REFERENCE REMOVE ROLESOF SIN SQRT SUBTYPE_CONSTRAINT TAN USE VALUE VALUE_UNIQUE ||""".split())
# (this one is a name where a name is due)
NAMES_TOO = {"SUBTYPE_CONSTRAINT"}
LITERALS = {"integer": "INTEGER_LITERAL", "real": "REAL_LITERAL", "string": "STRING_LITERAL", "bits": "BINARY_LITERAL"}

OF_SCHEMA = re.compile(r"""
    (?P<blank> [\0- ]+ | --[^\n]* ) | (?P<word> [A-Za-z][A-Za-z0-9_]* ) | (?P<real> \d+\.\d*(?:[Ee][+-]?\d+)? ) | (?P<integer> \d+ )
  | (?P<string> '(?:[^'\n]|'')*'(?!') | "(?:[0-9A-Fa-f]{8})+" ) | (?P<bits> %[01]+ )
  | (?P<symbol> :<>: | :=: | := | <= | <> | <\* | >= | \*\* | \|\| | [][.,;:*+=\\/<>{}|()?-] )
""", re.VERBOSE | re.ASCII)
OF_REMARK = re.compile(r"\(\*|\*\)")


def end_of_remark(text, begin):
    """The end of the remark that begins here, or None. Remarks nest."""
    depth = 0
    for mark in OF_REMARK.finditer(text, begin):
        depth += 1 if mark[0] == "(*" else -1
        if not depth:
            return mark.end()
    return None


def fault_of_schema_token(text, at):
    """Why no token begins here."""
    line = text[at + 1:].partition("\n")[0]
    if text[at] == "'" or text[at] == '"' and '"' not in line:
        return Fault(at, "OpenString")
    return Fault(at, "BadEncoded" if text[at] == '"' else "Token")


def schema_tokens(text):
    """The tokens of an ASCII schema."""
    found, at = [], 0
    while at < len(text):
        if text.startswith("(*", at):
            end = end_of_remark(text, at)
            if end is None:
                return found, Fault(at, "OpenRemark")
            at = end
            continue
        match = OF_SCHEMA.match(text, at)
        if not match:
            return found, fault_of_schema_token(text, at)
        at = match.end()
        if match.lastgroup != "blank":
            word = match[0].upper()
            is_name = match.lastgroup == "word" and (word not in RESERVED or word in NAMES_TOO)
            found.append(Token(match.start(), at, frozenset([LITERALS.get(match.lastgroup, word), *(["ID"] if is_name else [])])))
    return found, None


OF_SCHEMAS = Grammar("schema", SCHEMA)
RESERVED = {it for it in OF_SCHEMAS.terminals | LEFT_OUT if it.replace("_", "").isalnum()} - {"ID", *LITERALS.values()}
SCHEMAS = Texts(OF_SCHEMAS, schema_tokens, True, LEFT_OUT)

# ---- files

FILE = """
file = 'ISO-10303-21' ';' HEADER ';' FILE_DESCRIPTION '(' header_value ',' header_value ')' ';'
       FILE_NAME '(' header_value ',' header_value ',' header_value ',' header_value ',' header_value ',' header_value ',' header_value ')' ';' FILE_SCHEMA '(' '(' STRING ')' ')' ';' { other }
       ENDSEC ';' DATA [ '(' STRING ',' '(' STRING ')' ')' ] ';' { instance } ENDSEC ';' 'END-ISO-10303-21' ';' .
header_value = STRING | '$' | '(' [ header_value { ',' header_value } ] ')' .
other = ( FILE_POPULATION | SECTION_LANGUAGE | SECTION_CONTEXT ) values ';' .
instance = NAME '=' mapping ';' .
mapping = WORD values | '(' WORD values { WORD values } ')' .
values = '(' [ value { ',' value } ] ')' .
value = INTEGER | REAL | STRING | BINARY | ITEM | NAME | '$' | '*' | values | WORD '(' value ')' .
"""
MARKS = {"ISO-10303-21", "END-ISO-10303-21"}

OF_FILE = re.compile(r"""
    (?P<blank> [\0- ]+ | /\*.*?\*/ | \\[NF]\\ ) | (?P<string> '(?:[^']|'')*'(?!') ) | (?P<binary> "(?:0|[0-3][0-9A-Fa-f]+)" )
  | (?P<real> [+-]?\d+\.\d*(?:[Ee][+-]?\d+)? ) | (?P<integer> [+-]?\d+ ) | (?P<name> \#\d+ ) | (?P<item> \.[A-Za-z_]\w*\. )
  | (?P<word> [A-Za-z_][\w-]* ) | (?P<mark> [(),=;$*] )
""", re.VERBOSE | re.DOTALL | re.ASCII)
# the content of a string whose escapes have the right form
ESCAPED = re.compile(r"""(?: [^\\'] | '' | \\\\ | \\X\\[0-9A-Fa-f]{2} | \\X2\\(?:[0-9A-Fa-f]{4})+\\X0\\ | \\X4\\(?:[0-9A-Fa-f]{8})+\\X0\\
  | \\S\\(?:''|[ -&(-~]) | \\P[A-I]\\ | \\[NF]\\ )*""", re.VERBOSE | re.DOTALL)


def fault_of_file_token(text, at):
    """Why no token begins here."""
    is_open = text[at] == "'" or text.startswith("/*", at) or text[at] == '"' and '"' not in text[at + 1:]
    return Fault(at, "Open" if is_open else "Token")


def file_tokens(text):
    """The tokens of an ASCII file. A word with a hyphen is one of the two marks or a fault."""
    found, at = [], 0
    while at < len(text):
        match = OF_FILE.match(text, at)
        word = match[0].upper() if match else ""
        if not match or match.lastgroup == "word" and "-" in word and word not in MARKS:
            return found, fault_of_file_token(text, at)
        if match.lastgroup == "string" and not ESCAPED.fullmatch(match[0][1:-1]):
            return found, Fault(at, "Escape")
        at = match.end()
        if match.lastgroup in ("word", "mark"):
            found.append(Token(match.start(), at, frozenset([word, *(["WORD"] if word[0] not in "(),=;$*" and word not in MARKS else [])])))
        elif match.lastgroup != "blank":
            found.append(Token(match.start(), at, frozenset([match.lastgroup.upper()])))
    return found, None


FILES = Texts(Grammar("file", FILE), file_tokens, False)
# texts of one instance, as `add` and `set` take them
INSTANCES = Texts(Grammar("mapping", FILE), file_tokens, False)
