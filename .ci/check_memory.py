#!/usr/bin/env python3
"""Fails where the code may say that memory is wanting though no growth was refused, or where a growth that is refused may tell
of what its caller doesn't see.

    .ci/check_memory.py                reads crates/*/src
    .ci/check_memory.py --self-test    and then plants such places into copies of sources, each of which has to be found

What is read of growth stands in growth.py. Want of memory has the words NoMemory, NoRoom, AllocError, AllocFailed and
OutOfMemory, `no_memory_line`, `no_memory_answer`, and strings that say 'NoMemory' or 'out of memory', their escapes read, also where they stand in
pieces side by side. Such a word may stand

    in a type       AllocError and AllocFailed: in the head of a function; and as an argument, as in Result<T, AllocError>, in
                    the type of a variable, a constant, a field and an `impl`, and behind `->`
    in a `type`     the same behind Result, Option, Vec or a mark
    in a `use`      without another name for it
    in an enum      as the plain name of a variant
    in an `impl From<AllocError>` or `impl From<AllocFailed<T>>`, whose body has to have one
    in a pattern    of a `match` or an `if let`, with a path before it, or AllocError and AllocFailed brought in by a `use`
    behind such a pattern, where each of its alternatives has a word: Err(Failure::NoMemory) => Err(AllocError). There has
                    to be a word then, so that want of memory gets no other name
    behind `if error.is_memory()` and `if error.kind() == ErrorKind::OutOfMemory`, also as guards, with nothing else in
                    the condition
    in a place of LISTED, which has its reason

and nowhere else: not behind another condition, nor in `ok_or` or `map_err`, a constant, a field or a function of its own, nor
among the type arguments of an expression or a pattern. So want of memory is always handed on from a call below, and the last
calls below are the toolchain's. What would give an error without its name is refused too: a `type` that is a bare parameter or
Self, what is made by `default` or by the number of an error, and fmt::Error, which `format!` hands on as want of memory.
`is_memory` is not to be defined here. Contracts and ghost items are no code.

This is read and not proved. A growth that is asked for without need isn't seen, nor one of a size that nothing has, nor
what becomes of an error that is handed on under its own name, nor a text that is put together of numbers or by several calls,
nor what `unsafe` makes.
"""
import re
import sys

import growth
from sources import Fault, Listed, Token, Unreadable, code_of, flat, missed, parted, place_of, planted, sources, spelled, without_listed

ERRORS = {"AllocError", "AllocFailed"}
WORDS = {"NoMemory", "NoRoom", "OutOfMemory", "no_memory_line", "no_memory_answer", *ERRORS}
SAYS_MEMORY = re.compile(r"NoMemory|out of memory", re.IGNORECASE)

LISTED = [
    Listed("crates/ex_kinds/src/data_type.rt", "deeper", "None => Err(AllocError)",
           "a type that nests deeper than a number counts has no room in memory"),
    Listed("crates/rp_io/src/chunk.rt", "keep",
           "if line.extend_from_slice(piece).is_err() { release(line); return Room::NoRoom; }",
           "AllocError is the one error of Vec::extend_from_slice"),
    Listed("crates/rp_snapshot_texts/src/gathering.rt", "gathered", "Err(_) => Err(AllocError)",
           "a write into a Vec fails for want of memory alone"),
    Listed("crates/rp_command/src/command.rt", "fault_of", "Err(_) => CommandLineFault::NoMemory",
           "AllocError is the one error of line_of"),
    Listed("crates/rp_replies/src/replies.rt", "no_memory_line", r'b"{\"refused\":{\"code\":18,\"name\":\"NoMemory\"}}\n"',
           "the reply's bytes, which are had by a word"),
    Listed("crates/http_routes/src/answers.rt", "no_memory_answer",
           r'b"HTTP/1.1 503 Service Unavailable\r\nContent-Type: application/json\r\nContent-Length: 41\r\n\r\n{\"refused\":{\"code\":18,\"name\":\"NoMemory\"}}"',
           "the answer's bytes, which are had by a word"),
    Listed("crates/rp_http/src/answers.rt", "refusal_status", "Refusal::NoMemory => StatusCode::SERVICE_UNAVAILABLE",
           "the status of a refusal that is told"),
    Listed("crates/rp_http/src/inbox.rt", "receive", "self.drop_body(left, stays, Dropped::NoMemory);",
           "behind the one error of Vec::extend_from_slice, which is AllocError"),
    Listed("crates/rp_http/src/serve.rt", "serve_connection",
           "let Ok(mut workspace) = Workspace::new(alloc) else { return Err(ServeFault::NoMemory); };",
           "AllocError is the one error of Workspace::new"),
    Listed("crates/rp_http/src/serve.rt", "serve_connection",
           "let Ok(mut connection) = Connection::new(alloc) else { return Err(ServeFault::NoMemory); };",
           "AllocError is the one error of Connection::new"),
    Listed("crates/rp_server/src/fault.rt", "drop", "Fault::Words | Fault::NoMemory => {}",
           "a fault that is let go of, of which nobody is told"),
]


# ---- the forms

CONDITION_OF_MEMORY = re.compile(r"\w+ \. is_memory \( \)|\w+ \. kind \( \) == ErrorKind :: OutOfMemory")
FROM_A_REFUSED_GROWTH = re.compile(r"impl (< .* > )?From < (AllocError|AllocFailed < \w+ >) > for \w+.*")
BLOCK_WORDS = ("if", "match", "loop", "while", "for", "unsafe")

# What a `type` that has an error among its arguments may begin with.
OUTER = ("Result", "Option", "Vec", "(", "[", "&")

LITERAL = re.compile(r"""b?(?P<raw>r?)\#*["'](?P<said>.*)["']\#*""", re.DOTALL)
ESCAPE = re.compile(r"\\(?:x(?P<byte>[0-9A-Fa-f]{2})|u\{(?P<code>[0-9A-Fa-f_]+)\}|(?P<line>\n\s*)|(?P<plain>.))", re.DOTALL)
BLANKS = {"n": "\n", "r": "\r", "t": "\t", "0": "\0"}


def unescaped(found):
    if found["line"]:
        return ""
    number = found["byte"] or (found["code"] or "").replace("_", "")
    return chr(int(number, 16) % 0x110000) if number else BLANKS.get(found["plain"], found["plain"])


def said_by(text):
    """What a literal of a string, of bytes or of a character says, its escapes read; nothing of any other token."""
    found = LITERAL.fullmatch(text)
    if not found:
        return ""
    return found["said"] if found["raw"] else ESCAPE.sub(unescaped, found["said"])


def is_word(token):
    return token.text in WORDS or bool(SAYS_MEMORY.search(said_by(token.text)))


def has_word(tokens):
    return any(is_word(it) for it in flat(tokens))


def is_said_in_pieces(tokens):
    """Whether literals that stand side by side say it together, and none alone."""
    pieces = [said_by(it.text) for it in tokens]
    return bool(SAYS_MEMORY.search("".join(pieces))) and not any(SAYS_MEMORY.search(it) for it in pieces)


def is_argument(tokens, at):
    """Whether an error stands as an argument of a type."""
    behind = tokens[at + 1].text if at + 1 < len(tokens) else ""
    before = tokens[at - 1].text if at else ""
    return tokens[at].text in ERRORS and (behind == ">" or behind == "<" and before in ("<", ","))


def gives_no_name(tokens, at):
    """Why what stands here may be an error, though it has no name of one."""
    text, before = tokens[at].text, [it.text for it in tokens[max(at - 2, 0):at]]
    if (text == "default" or text.endswith("_default")) and before[-1:] in (["::"], ["."]):
        return "what is made by default may be want of memory"
    if text == "Error" and before == ["fmt", "::"]:
        return "`format!` hands fmt::Error on as want of memory"
    return "the number of an error may be that of want of memory" if text == "from_raw_os_error" else None


def is_condition_of_memory(tokens):
    return bool(CONDITION_OF_MEMORY.fullmatch(spelled(tokens)))


def parameters_at(tokens, at):
    """The names of the parameters in angle brackets that begin at a place, and the place behind them."""
    found, depth = set(), 0
    while at < len(tokens):
        depth += {"<": 1, ">": -1}.get(tokens[at].text, 0)
        if depth == 0:
            break
        if depth == 1 and tokens[at].text in ("<", ",") and at + 1 < len(tokens):
            found.add(tokens[at + 1].text)
        at += 1
    return found, at


def end_of_body(arms, start):
    """Where an arm's body ends that begins at a place: at its comma, or behind a block that has none."""
    comma = place_of(arms, start, ",")
    if start == len(arms) or arms[start].text not in ("{", *BLOCK_WORDS) and place_of(arms, start, ":") != start + 1:
        return comma
    end = place_of(arms, start, "{") + 1
    while end < len(arms) and arms[end].text == "else":
        end = place_of(arms, end, "{") + 1
    return comma if end < len(arms) and arms[end].text in (".", "?") else end


class Source:
    """A file of code, with what is wrong in it."""

    def __init__(self, file, text):
        self.file = file
        self.faults = []
        self.parameters = set()
        self.imports = set()
        self.forms = {"use": self.read_use, "enum": self.read_enum, "struct": self.read_struct, "impl": self.read_impl,
                      "type": self.read_alias, "const": self.read_constant, "static": self.read_constant, "fn": self.read_function,
                      "let": self.read_variable, "->": self.read_result, "match": self.read_match, "if": self.read_if}
        try:
            code = code_of(text)
        except Unreadable as why:
            self.fault(Token(""), str(why))
            return
        self.imports = {word.text for at, it in enumerate(code) if it.text == "use" for word in flat(code[at:place_of(code, at, ";")])}
        self.read(code, False)

    def fault(self, token, why):
        self.faults.append(Fault(self.file, token, why))

    # What is read is read as allowed or not, which says whether it stands where want of memory is handed on.

    def read(self, tokens, allowed):
        """Looks at the tokens of a level, and at all that they have inside."""
        at = 0
        while at < len(tokens):
            at = self.forms.get(tokens[at].text, self.read_token)(tokens, at, allowed)

    def read_token(self, tokens, at, allowed):
        token = tokens[at]
        if token.inside is not None:
            if not allowed and is_said_in_pieces(token.inside):
                self.fault(token, "want of memory is said here in pieces, and isn't handed on")
            self.read(token.inside, allowed)
        elif not allowed and (is_word(token) or gives_no_name(tokens, at)):
            self.fault(token, gives_no_name(tokens, at) or f"{token.text[:60]} is said here, and isn't handed on")
        return at + 1

    def read_types(self, tokens):
        """Looks at types: an error may be an argument there."""
        for at, token in enumerate(tokens):
            if token.inside is not None:
                self.read_types(token.inside)
            elif is_word(token) and not is_argument(tokens, at):
                self.fault(token, f"{token.text} is no argument of a type here")

    # ---- items

    def read_use(self, tokens, at, _allowed):
        end = place_of(tokens, at, ";")
        words = list(flat(tokens[at:end]))
        for token, behind in zip(words, words[1:]):
            if token.text in WORDS and behind.text == "as":
                self.fault(token, f"{token.text} gets another name")
            if token.text == "Error" and any(it.text == "fmt" for it in words):
                self.fault(token, "`format!` hands fmt::Error on as want of memory")
        return end

    def read_enum(self, tokens, at, _allowed):
        end = place_of(tokens, at, "{", ";")
        for variant in parted(tokens[end].inside, ",") if end < len(tokens) else []:
            if not (len(variant) == 1 and variant[0].text in WORDS):
                self.read_types(variant)
        return end + 1

    def read_struct(self, tokens, at, _allowed):
        end = place_of(tokens, at, "{", ";")
        self.read_types(tokens[at:end + 1])
        return end + 1

    def read_impl(self, tokens, at, _allowed):
        end = place_of(tokens, at, "{")
        converts = bool(FROM_A_REFUSED_GROWTH.fullmatch(spelled(tokens[at:end])))
        self.read_types(tokens[at + 1:end])
        body = tokens[end].inside if end < len(tokens) else []
        if converts and not any(has_word(it.inside) for it in body if it.text == "{"):
            self.fault(tokens[at], "want of memory gets a name that is none of the words")
        outer, (self.parameters, _) = self.parameters, parameters_at(tokens, at + 1)
        self.read(body, converts)
        self.parameters = outer
        return end + 1

    def read_alias(self, tokens, at, _allowed):
        """A `type`. What it is must have a type of its own around its arguments."""
        end = place_of(tokens, at, ";")
        own, behind = parameters_at(tokens, at + 2)
        sign = place_of(tokens, behind, "=", ";")
        means = tokens[sign + 1:end]
        self.read_types([*tokens[at + 1:sign], *means])
        if len(means) == 1 and means[0].text in {"Self", *self.parameters, *own}:
            self.fault(means[0], f"{means[0].text} gets another name, whatever it is")
        if means and means[0].text not in OUTER and any(it.text in ERRORS for it in flat(means)) and len(means) > 1:
            self.fault(means[0], "an error may get another name")
        return end

    def read_constant(self, tokens, at, allowed):
        if at + 1 < len(tokens) and tokens[at + 1].text == "fn":
            return at + 1
        return self.read_variable(tokens, at, allowed)

    def read_variable(self, tokens, at, allowed):
        """A variable or a constant up to its value. Its name or pattern isn't allowed, but where it stands."""
        end = place_of(tokens, at, "=", ";", "{")
        colon = min(place_of(tokens, at, ":"), end)
        self.read(tokens[at + 1:colon], allowed)
        self.read_types(tokens[colon + 1:end])
        return end

    def read_result(self, tokens, at, _allowed):
        end = place_of(tokens, at, "{", ";")
        self.read_types(tokens[at + 1:end])
        return end

    def read_function(self, tokens, at, allowed):
        end = place_of(tokens, at, "{", ";")
        if at + 1 == len(tokens) or not re.fullmatch(r"\w+", tokens[at + 1].text):
            return at + 1
        if tokens[at + 1].text == "is_memory":
            self.fault(tokens[at], "is_memory is defined here")
        for token in flat(tokens[at + 2:end]):
            if token.text in WORDS - ERRORS:
                self.fault(token, f"{token.text} in the head of a function")
        if end < len(tokens) and tokens[end].text == "{":
            self.read(tokens[end].inside, allowed)
        return end + 1

    # ---- expressions

    def read_match(self, tokens, at, allowed):
        end = place_of(tokens, at, "{")
        self.read(tokens[at + 1:end], allowed)
        arms, start = tokens[end].inside if end < len(tokens) else [], 0
        while start < len(arms):
            arrow = place_of(arms, start, "=>")
            guard = min(arrow, place_of(arms, start, "if"))
            behind = end_of_body(arms, arrow + 1)
            self.read_arm(arms[start:guard], arms[guard + 1:arrow], arms[arrow + 1:behind], allowed)
            start = behind + 1 if behind < len(arms) and arms[behind].text == "," else behind
        return end + 1

    def read_arm(self, pattern, guard, body, allowed):
        if guard and is_condition_of_memory(guard):
            self.read(pattern, allowed)
            self.read(body, True)
        elif guard:
            self.read(pattern, allowed)
            self.read(guard, allowed)
            self.read(body, allowed)
        else:
            self.read_behind(pattern, body, allowed)

    def read_if(self, tokens, at, allowed):
        end = place_of(tokens, at, "{")
        if end == len(tokens):
            return at + 1
        condition, body = tokens[at + 1:end], tokens[end].inside
        if condition and condition[0].text == "let":
            value = place_of(condition, 0, "=")
            self.read(condition[value:], allowed)
            self.read_behind(condition[1:value], body, allowed)
        elif is_condition_of_memory(condition):
            self.read(body, True)
        else:
            self.read(condition, allowed)
            self.read(body, allowed)
        return end + 1

    def read_behind(self, pattern, body, allowed):
        """Looks at a pattern and at what is done where it fits."""
        asks = self.asks_for_memory(pattern)
        if asks and not has_word(body):
            self.fault(pattern[0], "want of memory is answered by none of its words")
        if not asks:
            self.read(pattern, allowed)
        self.read(body, allowed or asks)

    def asks_for_memory(self, pattern):
        """Whether each alternative of a pattern asks for want of memory."""
        alternatives = parted(pattern, "|")
        return bool(alternatives) and all(self.has_asking_part(it) for it in alternatives)

    def has_asking_part(self, alternative):
        if any(it.text in ("<", ">") for it in alternative):
            return False
        for at, token in enumerate(alternative):
            if token.text in WORDS and at and alternative[at - 1].text == "::" or token.text in ERRORS & self.imports:
                return True
            if token.inside is not None and any(self.asks_for_memory(it) for it in parted(token.inside, ",")):
                return True
        return False


def faults_in(texts):
    """What is wrong with want of memory in some files; what is listed left out."""
    faults = [it for file, text in texts.items() for it in Source(file, text).faults]
    return without_listed(faults, texts, [it for it in LISTED if it.file in texts])


# ---- the self-test

# Statements that are planted into the first function of a file that has a contract.
STATEMENTS = {
    "by a count": """
    if models.len() == 4096 {
        return Err(Refusal::NoMemory); // found
    }""",
    "by a length": """
    if text.as_bytes().len() > LIMIT && !seen { return Err(AllocError); } // found""",
    "by sight": """
    if !seen {
        return Err(NoMemory); // found
    }""",
    "by ok_or": """
    let model = models.first().ok_or(AllocError)?; // found
    let model = models.first().ok_or(Refusal::NoMemory)?; // found
    let model = models.first().ok_or_else(|| Refusal::NoMemory)?; // found""",
    "by map_err": """
    let number = whole(text).map_err(|_| AllocError)?; // found""",
    "by From": """
    return Err(Refusal::from(AllocError)); // found""",
    "by into": """
    return Err(AllocError.into()); // found""",
    "by a value that couldn't be pushed": """
    return Err(AllocFailed { value: 1 }.into()); // found
    return Err(AllocFailed::<u8> { value: 1 }.into()); // found""",
    "by a local name": """
    let full = Refusal::NoMemory; // found
    let full: AllocError = AllocError {}; // found // found""",
    "by a field": """
    return Pending { reply: Reply::Refused(Refusal::NoMemory), error: AllocError }; // found // found""",
    "by a match of a made error": """
    match Err::<(), AllocError>(AllocError) { // found // found
        Err(std::alloc::AllocError) => return Err(Failure::NoMemory),
    }""",
    "behind any error": """
    match call() {
        Ok(found) => found,
        Err(_) => return Err(Failure::NoMemory), // found
    }""",
    "behind an alternative": """
    match call() {
        Err(Failure::NoMemory) | Ok(0) => return Err(Failure::NoMemory), // found // found
        Err(Failure::NoMemory | Failure::Fault(_)) => return Err(Failure::NoMemory), // found // found
        (Ok(_), Err(Failure::NoMemory)) | (_, Ok(_)) => return Err(Failure::NoMemory), // found // found
        found => found,
    }""",
    "behind a name that takes any value": """
    match models.len() {
        NoMemory => Err(Refusal::Wanting), // found
        NoRoom => Err(Refusal::NoMemory), // found // found
    }""",
    "behind a guard": """
    match call() {
        Err(error) if error.is_memory() || models.is_empty() => Err(Failure::NoMemory), // found
        Err(_) if models.is_empty() => Err(Failure::NoMemory), // found
        Err(Failure::NoMemory) if models.is_empty() => Err(Failure::NoMemory), // found // found
    }""",
    "in the other branch": """
    if error.is_memory() { return Err(Unread::NoMemory); } else { return Err(Unread::NoMemory); } // found""",
    "behind a condition with more": """
    if error.is_memory() && models.is_empty() { return Err(Unread::NoMemory); } // found
    if error.kind() == ErrorKind::OutOfMemory || !seen { return Err(Unread::NoMemory); } // found // found""",
    "behind the arm of want of memory": """
    match call() {
        Err(Failure::NoMemory) => match other() { _ => Err(AllocError) }
        Ok(_) => Err(AllocError), // found
        Err(Failure::NoMemory) => { Err(AllocError) }
        Ok(1) => if seen { Err(AllocError) } else { Ok(()) } // found
        Err(Failure::NoMemory) => 'all: loop { return Err(AllocError) }
        _ => Err(AllocError), // found
    }""",
    "by an error of a device": """
    return Err(io::Error::from(ErrorKind::OutOfMemory)); // found""",
    "by the bytes of the reply": r"""
    return write_all(writer, b"{\"refused\":{\"code\":18,\"name\":\"NoMemory\"}}\n"); // found
    return write_all(writer, no_memory_line()); // found""",
    "by a closure": """
    let full = || AllocError; // found""",
    "by let else": """
    let Some(model) = models.first() else { return Err(AllocError) }; // found""",
    "by while": """
    while models.len() < 5 { return Err(AllocError); } // found""",
    "under another name": """
    match call() {
        Err(Failure::NoMemory) => return Err(Failure::Wanting), // found
        Err(Failure::Wanting) => return Err(Failure::Wanting),
    }""",
    "by a use within": """
    use crate::Refusal::NoMemory as Full; // found
    return Err(Full);""",
    "by an error that isn't brought in": """
    match models.len() {
        AllocFailed => Err(Refusal::NoMemory), // found // found
    }""",
    "by an alias with type arguments": """
    type Same<T> = T; // found
    return Err(Same::<AllocError> {}); // found""",
    "by what a type has": """
    return Err(<Vec<AllocError> as Unwrap>::It {}); // found
    return Err(Unwrap::<Result<u8, AllocError>>::It); // found""",
    "by type arguments": """
    return Err::<u8, AllocError>(AllocError {}); // found // found
    return full::<AllocError>(); // found""",
    "behind a pattern with type arguments": """
    match call() {
        Ok::<u8, AllocError>(_) => return Err(AllocError), // found // found
        (_, Some::<AllocError>(_)) => return Err(AllocError), // found // found
        found => found,
    }""",
    "by a filter": """
    let bytes = reply_line(alloc, &reply).ok().filter(|bytes| bytes.len() < 4096);
    match bytes {
        Some(bytes) => return Ok(bytes),
        None => return Err(AllocError), // found
    }
    return reply_line(alloc, &reply).ok().filter(|bytes| bytes.len() < 4096).ok_or(AllocError); // found""",
    "by a size, before a call": """
    let bytes = if kept.len() > 4096 { None } else { answer(alloc, repository, room, kept).ok() };
    match bytes {
        Some(bytes) => write_all(writer, &bytes),
        None => write_all(writer, no_memory_line()), // found
    }""",
    "by escapes": r'''
    return write_all(writer, b"{\"refused\":{\"code\":18,\"name\":\"No\x4demory\"}}\n"); // found
    let told = "No\u{4d}emory"; // found
    let told = "No\u{00_004D}emory"; // found
    let told = b"\x4eo\x4Demory"; // found
    let told = r"NoMemory"; // found
    let told = br#"{"name":"NoMemory"}"#; // found
    let told = b"out\x20of memory"; // found
    let told = "// found: No\
        Memory";''',
    "in pieces": r'''
    let told = concat!("No", "Memory"); // found
    let told = [b'N', b'o', b'M', b'e', b'm', b'\x6f', b'r', b'y']; // found
    let told = ["out ", "of mem", "ory"]; // found''',
    "by default": """
    return Err(Default::default()); // found
    return Err(T::default()); // found
    return Err(models.first().copied().unwrap_or_default()); // found
    return models.first().ok_or_else(Refusal::default); // found""",
    "by an error of formatting": """
    return Err(fmt::Error); // found""",
    "by the number of an error": """
    return Err(io::Error::from_raw_os_error(12)); // found""",
}

# Items that are planted behind all others.
ITEMS = {
    "another name": "use rp_plain::messages::Refusal::{NoMemory as Full, NoRight}; // found",
    "another name that is handed out": "pub use std::alloc::AllocError as Full; // found",
    "a constant": "const FULL: Refusal = Refusal::NoMemory; // found",
    "a static": "static FULL: Refusal = Refusal::NoMemory; // found",
    "a helper": "fn full() -> Refusal { Refusal::NoMemory } // found",
    "a helper that gives the error": "fn full() -> AllocError { AllocError } // found",
    "a helper of a type": "impl Refusal { fn full() -> Self { Self::NoMemory } } // found",
    "a name of the type": "type Full = AllocError; // found",
    "a field": "struct Kept { error: Option<AllocError>, kind: AllocError } // found",
    "a default": "enum Why { #[default] NoMemory, Other } // found",
    "a value of a variant": "enum Why { NoMemory = 1, Kept(AllocError) } // found // found",
    "a conversion from something else": "impl From<Absent> for Refusal { fn from(_: Absent) -> Refusal { Refusal::NoMemory } } // found",
    "a conversion to the error": "impl From<Absent> for AllocError { fn from(_: Absent) -> Self { AllocError } } // found // found",
    "a conversion to another name": "impl From<AllocError> for Why { fn from(_: AllocError) -> Why { Why::Wanting } } // found",
    "an error that says so of itself": "impl Absent { fn is_memory(&self) -> bool { true } } // found",
    "an error of its own": "struct AllocError; // found",
    "a constant in a type": "impl Why { const NoMemory: usize = 4096; } // found",
    "an alias of its parameter": "type Same<T> = T; // found",
    "an alias of a parameter with a default": "pub type Same<T = AllocError> = T; // found",
    "an associated type that is a parameter": "impl<T> Unwrap for Vec<T> { type It = T; } // found",
    "an associated type that is Self": "impl<T> Unwrap for T { type It = Self; } // found",
    "an alias by another": "type Full = Same<AllocError>; // found",
    "an alias by an associated type": "type Full = <Vec<AllocError> as Unwrap>::It; // found",
    "an implementation for the error": "impl Made for AllocError { const IT: Self = Self {}; } // found",
    "an error of formatting": "use std::fmt::{self, Error}; // found",
}

# Statements and items that are fine.
FINE_STATEMENTS = """
    match call() {
        Ok(found) => found,
        Err(Failure::NoMemory) => return Err(AllocError),
        (Err(Failure::NoMemory), _) | (_, Err(Failure::NoMemory)) => Err(Failure::NoMemory),
        Err(AllocFailed { value }) => Err(AllocError),
        Err(error) if error.is_memory() => Err(Unread::NoMemory),
        Err(error) if error.kind() == ErrorKind::OutOfMemory => { return Err(AllocError) }
        Err(error) => Pending::refused(error.into()),
        Fault::NoMemory => f.write_str("out of memory"),
        _ => Err(Failure::Fault(1)),
    }
    if let Err(std::alloc::AllocError) = list.reserve(1) {
        return Pending::refused(Refusal::NoMemory);
    }
    let list: Result<Vec<u8>, AllocError> = Vec::with_capacity(alloc, 1);
    let list = list.map_err(Failure::from)?;
    let grown: Result<_, AllocError> = list.push(1);
    let call = |n: u8| -> Result<u8, AllocError> { grow(n) };
    let told = "no memory is free \\\\x4e, and out \\u{6f}f it";
    let told = ["No", "thing in memory"];
"""
FINE_ITEMS = """
use std::alloc::{AllocError, AllocFailed};
pub enum Why { NoMemory, Other(u8), NoRoom }
impl<T: Drop> From<AllocFailed<T>> for Why {
    ghost from_gives = { λ _ e. e ≡ NoMemory };
    fn from(_: AllocFailed<T>) -> Why { Why::NoMemory }
}
impl From<AllocError> for Why { fn from(_error: AllocError) -> Why { Why::NoMemory } }
fn call(error: AllocError) -> Result<Option<u8>, AllocError> ensures { IsErrOf result NoMemory } { Err(error) }
type Told = Result<u8, AllocError>;
pub type Grown<T> = Result<Option<T>, AllocError>;
struct Kept { grown: Result<u8, AllocError>, last: Option<AllocFailed<u8>> }
struct Pair(Result<u8, AllocError>, u8);
static GROWN: Result<u8, AllocError> = Ok(1);
impl Iterator for Kept { type Item = Result<u8, AllocError>; }
impl Default for Kept { fn default() -> Self { Kept::new() } }
"""

# Files into which is planted, since they are of the kinds that there are.
PLANTED = ["crates/ex_check/src/schema.rt", "crates/ex_named/src/binding.rt", "crates/ex_kinds/src/data_type.rt"]

# Faults beside a listed place, on its line: the file, the place's code, and what stands there then.
BESIDE = [
    ("crates/ex_kinds/src/data_type.rt", "None => Err(AllocError),", "None => Err(AllocError), Some(0) => Err(AllocError), // found"),
    ("crates/rp_command/src/command.rt", "Err(_) => CommandLineFault::NoMemory,", "Err(_) => CommandLineFault::NoMemory, Ok(_) if full => CommandLineFault::NoMemory, // found"),
]


def with_statements(text, statements):
    front, body, rest = text.partition("\n{\n")
    return front + body + statements.lstrip("\n") + "\n" + rest


def plants(texts):
    """The plants: what each is, its file, and the file's text."""
    for file in PLANTED:
        text = texts[file]
        yield from ((name, file, with_statements(text, it)) for name, it in STATEMENTS.items())
        yield from ((name, file, f"{text}\n{it}\n") for name, it in ITEMS.items())
        yield "what is fine", file, with_statements(text, FINE_STATEMENTS) + FINE_ITEMS
    for file, code, other in BESIDE:
        yield f"beside {code}", file, texts[file].replace(code, other)


def self_test(texts):
    """Plants each, and answers how many there were and what wasn't found, or was found and is fine."""
    faults, count = [], 0
    for name, file, text in plants(texts):
        count += 1
        faults += missed(f"{file}, {name}", faults_in({file: text}), len(faults_in({file: texts[file]})), text)
    return count, faults


def main(words):
    if words not in ([], ["--self-test"]):
        sys.exit("check_memory: --self-test is the one option")
    texts = sources()
    faults = [*faults_in(texts), *growth.faults_in(texts)]
    faults += [f"listed: there is no file {it.file}" for it in [*LISTED, *growth.LISTED] if it.file not in texts]
    told = f"{len(texts)} files, {len(LISTED)} and {len(growth.LISTED)} places listed"
    if words:
        for count, faulty in (self_test(texts), growth.self_test(texts)):
            faults += faulty
            told += f", {count} plants"
    for fault in sorted(map(str, faults)):
        print(fault)
    print(f"check_memory: {told}, {len(faults)} faults")
    sys.exit(1 if faults else 0)


if __name__ == "__main__":
    main(sys.argv[1:])
