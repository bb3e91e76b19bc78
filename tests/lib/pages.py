"""Pages that `validate --html` writes: `read` gives what one tells, by html.parser, and `wanted` what it has to tell, by the reply as
JSON, the texts of the files and that of their schema. A page that has anything that no page may have is Wrong: a script, a comment,
an address, a tag that isn't closed where it was opened.
"""
import itertools
import re
from html.parser import HTMLParser
from typing import NamedTuple

from lib.harness import Wrong

# what a page may be made of
VOID = {"meta"}
TAGS = VOID | {"html", "head", "title", "style", "body", "h1", "h2", "h3", "table", "tbody", "tr", "td", "section", "span", "a", "p", "pre",
               "code", "details", "summary", "ul", "li"}
ATTRIBUTES = {("html", "lang"), ("meta", "charset"), ("meta", "http-equiv"), ("meta", "name"), ("meta", "content"), ("a", "href"),
              ("section", "id"), *((it, "class") for it in ("h1", "span", "td", "table", "ul", "p"))}
POLICY = "default-src 'none'; style-src 'unsafe-inline'"

# how many culprits of a verdict are shown, and how many bytes of an instance
SHOWN = 50
BYTES = 400
COLUMNS = 80

# the verdicts in the order in which checks and culprits are told
HEADINGS = {"FALSE": "violated", "LIMIT": "not decided within the limit of steps", "NOT_RUN": "not begun for want of steps",
            "UNKNOWN": "can't be told"}
TOGETHER = {**HEADINGS, "FALSE": "violated by all files together", "UNKNOWN": "can't be told of all files together"}


class Culprit(NamedTuple):
    """A row of a page: the file, `line N`, the instance as its file has it, and the attribute, if one is told."""

    path: str
    line: str
    text: str
    attribute: str = ""


class Culprits(NamedTuple):
    """Those of one verdict, under a heading with their count; and of those that are folded what stands in their place."""

    heading: str
    shown: list
    folded: list
    summary: str


class Section(NamedTuple):
    """A check that isn't TRUE."""

    anchor: str
    verdict: str
    check: str
    rule: str
    together: str
    lists: list


class Told(NamedTuple):
    """What a page tells of files that were validated."""

    line: str
    verdict: str
    entries: list
    schema: str
    files: list
    sections: list
    kept: list
    count: int


# ---- elements

class Element:
    def __init__(self, tag, attributes):
        self.tag = tag
        self.attributes = dict(attributes)
        self.children = []

    def elements(self):
        """It and all that stand in it, in their order."""
        yield self
        for it in self.children:
            if isinstance(it, Element):
                yield from it.elements()

    def all(self, tag, name=None):
        """Those of this tag in it, and of this class, if one is given."""
        return [it for it in self.elements() if it.tag == tag and name in (None, it.attributes.get("class"))]

    def inner(self):
        """The elements that stand in it and in no other one of it."""
        return [it for it in self.children if isinstance(it, Element)]

    def one(self, tag, name=None):
        found = self.all(tag, name)
        if len(found) != 1:
            raise Wrong(f"{len(found)} of {tag} {name or ''} in {self.tag}")
        return found[0]

    @property
    def text(self):
        """Its text; a browser drops a line feed that begins a `pre`."""
        text = "".join(it if isinstance(it, str) else it.text for it in self.children)
        return text.removeprefix("\n") if self.tag == "pre" else text


class Reader(HTMLParser):
    """Reads a page into its elements."""

    def __init__(self):
        super().__init__(convert_charrefs=True)
        self.declarations = []
        self.root = Element("", [])
        self.open = [self.root]

    def handle_decl(self, decl):
        self.declarations.append(decl)

    def handle_starttag(self, tag, attrs):
        strange = [name for name, _ in attrs if (tag, name) not in ATTRIBUTES] if tag in TAGS else [tag]
        if strange or len(dict(attrs)) != len(attrs):
            raise Wrong(f"a page has no <{tag}> with {attrs}")
        element = Element(tag, attrs)
        self.open[-1].children.append(element)
        if tag not in VOID:
            self.open.append(element)

    def handle_startendtag(self, tag, attrs):
        raise Wrong(f"<{tag} .. /> closes nothing")

    def handle_endtag(self, tag):
        if tag != self.open[-1].tag:
            raise Wrong(f"</{tag}> in place of </{self.open[-1].tag}>")
        self.open.pop()

    def handle_data(self, data):
        self.open[-1].children.append(data)

    def refused(self, data):
        raise Wrong(f"{data!r} is neither a tag nor text")

    handle_comment = handle_pi = unknown_decl = refused


def tree_of(page):
    """The element `html` of a page, by html.parser."""
    reader = Reader()
    reader.feed(page)
    reader.close()
    if len(reader.open) > 1:
        raise Wrong(f"<{reader.open[-1].tag}> isn't closed")
    if [it.lower() for it in reader.declarations] != ["doctype html"]:
        raise Wrong(f"it begins by {reader.declarations}")
    outside = [it for it in reader.root.children if isinstance(it, str) and it.strip()]
    if outside or len(reader.root.inner()) != 1:
        raise Wrong(f"{outside} stands outside of <html>")
    return reader.root.one("html")


def tags_of(page):
    """The tags of a page in their order, with their attributes."""
    return [(it.tag, it.attributes) for it in tree_of(page).elements()]


def expect_sound(html):
    """A page fetches nothing, and each of its links leads to a section that is there once."""
    first, second, _ = html.one("head").all("meta")
    if (first.attributes, second.attributes) != ({"charset": "utf-8"}, {"http-equiv": "Content-Security-Policy", "content": POLICY}):
        raise Wrong(f"the head begins by {first.attributes}, {second.attributes}")
    if re.search(r"url|@(?!media )|\\|<", html.one("style").text):
        raise Wrong("its styles fetch something")
    anchors = [it.attributes["id"] for it in html.all("section")]
    links = [it.attributes["href"] for it in html.all("a")]
    if len({*anchors}) != len(anchors) or not all(re.fullmatch(r"check-\d+", it) for it in anchors):
        raise Wrong(f"sections {anchors}")
    if sorted(links) != sorted(f"#{it}" for it in anchors):
        raise Wrong(f"links {links} to {anchors}")


def expect_escaped(page):
    """Between tags each `&` begins one of five entities, and there is no sign that is shown nowhere."""
    text = re.sub(r"<style>.*?</style>|<[^<>]*>", "", page, flags=re.DOTALL)
    for strange in (r"&(?!(?:amp|lt|gt|quot|#39);)", r"[<>]", r"[\x00-\x08\x0b-\x1f\x7f-\x9f\u202a-\u202e\u2066-\u2069]"):
        found = re.search(strange, text)
        if found:
            raise Wrong(f"{text[max(0, found.start() - 30):found.end() + 30]!r} has {found[0]!r}")


# ---- what a page tells

def cells_of(table):
    """The texts of a table's rows."""
    return [[it.text for it in row.all("td")] for row in table.all("tr")]


def culprits_in(heading, behind):
    """Those of one verdict: the heading, and what stands behind it up to the next one."""
    shown, *more = behind
    if not more:
        return Culprits(heading, [Culprit(*it) for it in cells_of(shown)], [], "")
    details, = more
    if "open" in details.attributes:
        raise Wrong(f"{heading} is unfolded")
    return Culprits(heading, *([Culprit(*it) for it in cells_of(table)] for table in (shown, details.one("table"))), details.one("summary").text)


def section_in(section):
    head, *rest = section.inner()
    rule = rest.pop(0).text if rest[0].tag == "pre" else ""
    verdict = head.one("span").text
    if head.one("span").attributes["class"] != verdict or not head.text.startswith(f"{verdict} "):
        raise Wrong(f"{head.text!r} under {verdict}")
    places = [place for place, it in enumerate(rest) if it.tag == "h3"]
    lists = [(rest[place].text, rest[place + 1:end]) for place, end in zip(places, [*places[1:], len(rest)])]
    together = lists[0][0] if len(lists) == 1 and not lists[0][1] else ""
    return Section(section.attributes["id"], verdict, head.text.removeprefix(f"{verdict} "), rule, together,
                   [] if together else [culprits_in(*it) for it in lists])


def heading_in(html):
    """The line at the top, which is the title too, and the verdict that it is coloured by."""
    heading = html.one("h1")
    if html.one("body").inner()[0] is not heading or html.one("title").text != heading.text:
        raise Wrong(f"the title is {html.one('title').text!r}, the heading {heading.text!r}")
    return heading.text, heading.attributes["class"]


def files_in(html):
    """The files, with their counts of instances."""
    return [tuple(it) for it in cells_of(html.one("table", "files"))]


def named_in(html, front):
    """What stands behind the front of a heading."""
    found = [it.text.removeprefix(front) for it in html.all("h2") if it.text.startswith(front)]
    if len(found) != 1:
        raise Wrong(f"{len(found)} headings {front!r}")
    return found[0]


def entries_in(html):
    """Which checks aren't TRUE: verdict, anchor, check and counts."""
    rows = [it for table in html.all("table", "checks") for it in table.all("tr")]
    wrong = [row.text for row in rows if row.all("td")[0].attributes["class"] != row.all("td")[0].text]
    if wrong:
        raise Wrong(f"{wrong} has the colour of another verdict")
    return [(row.all("td")[0].text, row.one("a").attributes["href"].removeprefix("#"), row.all("td")[1].text, row.all("td")[2].text) for row in rows]


def read(page):
    """What a page tells of files that were validated, once it is looked at whether it is sound."""
    html = tree_of(page)
    expect_sound(html)
    kept = html.all("ul")
    return Told(*heading_in(html), entries_in(html), named_in(html, "Files, by the schema "), files_in(html),
                [section_in(it) for it in html.all("section")], [it.text for one in kept for it in one.all("li")],
                int(named_in(html, "Checks that are TRUE: ")))


# ---- what a page has to tell

def shown(text):
    """A text as a page shows it: without carriage returns, and with a sign of replacement for each sign that nobody sees or that turns
    others round."""
    return re.sub(r"[\x00-\x08\x0b-\x1f\x7f-\x9f\u202a-\u202e\u2066-\u2069]", "\ufffd", text.replace("\r", ""))


TOKEN = re.compile(r"'(?:[^']|'')*'|/\*.*?\*/|#(\d+)(?:\s|/\*.*?\*/)*=|;", re.DOTALL)


def definitions(file):
    """The line of each instance's name in a file, and the text behind its `=`: no more than so many bytes of it."""
    found, name, begin = {}, None, 0
    for token in TOKEN.finditer(file):
        if token[1]:
            name, begin, line = int(token[1]), token.end(), file.count("\n", 0, token.start()) + 1
        elif token[0] == ";" and name is not None:
            text = file[begin:token.end()].encode()
            front = text[:BYTES].decode(errors="ignore")
            found[name] = line, front if len(text) <= BYTES else f"{front} .."
            name = None
    return found


STRING = re.compile(r"'(?:[^'\n]|'')*'")
REMARK = re.compile(rf"{STRING.pattern}|--[^\n]*|\(\*.*?\*\)", re.DOTALL)


def statements(schema, kind, of):
    """The rules of a clause of a schema, by their order."""
    head, word = {"type": ("TYPE", "WHERE"), "where": ("ENTITY", "WHERE"), "rule": ("RULE", "WHERE"), "unique": ("ENTITY", "UNIQUE"),
                  "inverse": ("ENTITY", "INVERSE")}[kind]
    blank = lambda it: " " * len(it[0])
    plain = REMARK.sub(lambda it: it[0] if it[0][0] == "'" else blank(it), schema)
    bare = STRING.sub(blank, plain).upper()
    whole = re.search(rf"\b{head}\s+{of}\b.*?\bEND_{head}\b", bare, re.DOTALL)
    clause = re.search(rf";\s*{word}\b", whole[0])
    at, found = whole.start() + clause.end(), []
    while not re.match(r"\s*(UNIQUE|WHERE|END_\w+)\b", bare[at:]):
        end = bare.index(";", at)
        found.append(plain[at:end].strip())
        at = end + 1
    return found


def rule_of(schema, kind, of, rule):
    """The text of a rule with one blank where the schema has blanks or remarks, in lines of at most so many columns."""
    its = statements(schema, kind, of)
    text = its[int(rule[1:]) - 1] if rule[0] == "#" else next(it for it in its if re.match(rf"{rule}\s*:", it, re.IGNORECASE))
    lines = []
    for word in re.findall(r"(?:'(?:[^']|'')*'|\S)+", text):
        if lines and len(lines[-1]) + 1 + len(word) <= COLUMNS:
            lines[-1] += f" {word}"
        else:
            lines.append(word)
    return "\n".join(lines)


def line_of(checks):
    """The verdict in a line, and the one that all come to."""
    counts = {verdict: sum(it["verdict"] == verdict for it in checks) for verdict in (*HEADINGS, "TRUE")}
    worst = next(verdict for verdict in counts if counts[verdict] or verdict == "TRUE")
    if worst == "TRUE":
        return f"Kept: all {len(checks)} checks are TRUE.", worst
    front = {"FALSE": "Violated", "UNKNOWN": "Not violated, as far as can be told"}.get(worst, "Not decided")
    some = "".join(f"{counts[it]} {it}, " for it in HEADINGS if counts[it])
    return f"{front}: {some}{counts['TRUE']} TRUE of {len(checks)} checks.", worst


class Wanted:
    """What the page has to tell of a report, of these files in their order, by a schema."""

    def __init__(self, checks, schema, files):
        self.checks = checks
        self.schema = schema
        self.files = list(files.items())
        self.definitions = [definitions(text) for text in files.values()]

    def culprit(self, place):
        _, model, name, *attribute = place
        path = self.files[int(model) - 1][0]
        line, text = self.definitions[int(model) - 1][name]
        return Culprit(shown(path), f"line {line}", f"#{name}={shown(text)}", *attribute)

    def lists(self, check):
        for verdict, heading in HEADINGS.items():
            its = [self.culprit(it) for it in check.get(verdict.lower(), [])]
            if its:
                more = f"and {len(its) - SHOWN} more" if len(its) > SHOWN else ""
                yield Culprits(f"{heading}: {len(its)}", its[:SHOWN], its[SHOWN:], more)

    def section(self, number, check):
        kind, verdict = check["check"], check["verdict"]
        rule = shown(rule_of(self.schema, kind, check["of"], check["rule"])) if "rule" in check else ""
        return Section(f"check-{number}", verdict, self.name(check), rule, TOGETHER[verdict] if kind == "rule" else "", list(self.lists(check)))

    @staticmethod
    def name(check):
        return " ".join(check[it] for it in ("check", "of", "rule") if it in check)

    def told(self, name, counts):
        """`counts` are those of the files' instances."""
        sections = [self.section(number, it) for verdict in HEADINGS for number, it in enumerate(self.checks) if it["verdict"] == verdict]
        entries = [(it.verdict, it.anchor, it.check, it.together or ", ".join(one.heading for one in it.lists)) for it in sections]
        files = [(shown(path), f"{count} instance{'' if count == 1 else 's'}") for (path, _), count in zip(self.files, counts)]
        kept = [self.name(it) for it in self.checks if it["verdict"] == "TRUE"]
        return Told(*line_of(self.checks), entries, name, files, sections, kept, len(kept))


def wanted(checks, schema, name, files):
    """What the page has to tell of these checks, of files that are texts by their paths, by the schema of this text and name."""
    it = Wanted(checks, schema, files)
    return it.told(name, [len(its) for its in it.definitions])


def difference(one, other, where=""):
    """The first place at which two tellings part, and what stands there."""
    if isinstance(one, (list, tuple)) and isinstance(other, (list, tuple)):
        names = getattr(one, "_fields", range(max(len(one), len(other))))
        for name, pair in zip(names, itertools.zip_longest(one, other)):
            found = difference(*pair, f"{where} {name}") if pair[0] != pair[1] else ""
            if found:
                return found
    return f"{where[1:]}: {str(one)[-300:]!r} in place of {str(other)[-300:]!r}" if one != other else ""


def expect_told(seen, needed):
    """The two say the same; else where they part first is told."""
    found = difference(seen, needed)
    if found:
        raise Wrong(found)
