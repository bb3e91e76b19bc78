"""Families of request lines that a stranger may send to keep the program busy.

A family writes a whole line, which is no request, or one that is refused or answered at once, for a number of something,
with the word for what is counted; it answers the line and its reply.
"""
import json

# of each family its word for what is counted, and its function
LINES = {}


def family(families, counted):
    """Takes a function over as a family, under its own name."""
    def take(text_of):
        families[text_of.__name__] = (counted, text_of)
        return text_of
    return take


def answer(reply):
    return json.dumps(reply, sort_keys=True, separators=(",", ":")).encode()


BAD_REQUEST = answer({"refused": {"code": 1, "name": "BadRequest"}})
TOO_LARGE = answer({"refused": {"code": 2, "name": "TooLarge"}})


def each(count, piece, joint=""):
    return joint.join(piece(k) for k in range(count))


# ---- lines

def requested(pieces):
    """A request of ann's, but for further keys."""
    return '{"as":"ann","do":"schemas"' + pieces + "}", BAD_REQUEST


@family(LINES, "keys")
def keys_distinct(count):
    return requested(each(count, lambda k: f',"{k}":1'))


@family(LINES, "keys")
def keys_falling(count):
    return requested(each(count, lambda k: f',"{9_999_999 - k}":1'))


@family(LINES, "keys")
def keys_alike(count):
    """Keys that differ in their last letters alone."""
    front = "k" * 100
    return requested(each(count, lambda k: f',"{front}{k:07}":1'))


@family(LINES, "keys")
def keys_the_same(count):
    return '{"as":"ann"' + ',"do":"schemas"' * count + "}", answer({"ok": {"schemas": ["MEASURED"]}})


@family(LINES, "keys")
def keys_of_links(count):
    return requested(',"links":[{' + each(count, lambda k: f'"{k}":1', ",") + "}]")


@family(LINES, "elements")
def elements(count):
    return requested(',"links":[1' + ",1" * count + "]")


@family(LINES, "objects")
def objects(count):
    return requested(',"links":[{}' + ",{}" * count + "]")


@family(LINES, "objects")
def objects_of_one_key(count):
    return requested(',"links":[{}' + ',{"a":1}' * count + "]")


@family(LINES, "lists")
def deep_lists_within(count):
    """Lists as deep as they may be, again and again."""
    deep = "[" * 120 + "]" * 120
    return requested(f',"links":[{deep}{("," + deep) * count}]')


@family(LINES, "lists")
def too_deep(count):
    return "[" * count, BAD_REQUEST


@family(LINES, "objects")
def too_deep_objects(count):
    return '{"a":' * count, BAD_REQUEST


@family(LINES, "escapes")
def escapes(count):
    return requested(',"links":"' + "\\u0041" * count + '"')


@family(LINES, "escapes")
def escaped_text(count):
    """A text of blanks alone."""
    reply = answer({"ok": {"fault": {"at": count, "kind": "Syntax"}}})
    return '{"as":"ann","do":"check_schema","text":"' + "\\u0000" * count + '"}', reply


@family(LINES, "escapes")
def escaped_quotes(count):
    return requested(',"links":"' + '\\"' * count + '"')


@family(LINES, "escapes")
def escaped_pairs(count):
    return requested(',"links":"' + "\\uD83D\\uDE00" * count + '"')


@family(LINES, "strings")
def short_strings(count):
    return requested(',"links":[""' + ',"a"' * count + "]")


@family(LINES, "bytes")
def long_string(count):
    return requested(',"links":"' + "a" * count + '"')


@family(LINES, "bytes")
def long_name(count):
    refused = answer({"refused": {"code": 3, "name": "BadName"}})
    return '{"as":"ann","do":"delete_model","name":"' + "a" * count + '"}', refused


@family(LINES, "digits")
def long_integer(count):
    return requested(',"links":' + "1" * count)


@family(LINES, "digits")
def long_fraction(count):
    return requested(',"links":0.' + "1" * count)


@family(LINES, "digits")
def long_exponent(count):
    return requested(',"links":1E-' + "1" * count)


@family(LINES, "bytes")
def blank_line(count):
    return " " * count, BAD_REQUEST


@family(LINES, "bytes")
def string_without_end(count):
    return '{"as":"' + "a" * count, BAD_REQUEST


@family(LINES, "bytes")
def not_utf8(count):
    return b'{"as":"' + b"\xff" * count + b'"}', BAD_REQUEST


@family(LINES, "bytes")
def line_too_long(count):
    return " " * (16 * 1024 * 1024 + count), TOO_LARGE
