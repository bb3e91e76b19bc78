#!/usr/bin/env python3
"""Has the program validate files and write a page of it, `validate --html FILE`. One page is compared byte for byte; of others the
culprits are read back by html.parser, and are those of `--json` of the same files.

    tests/delivery_page.py [PROGRAM]

Beside each page that is wanted stands a run without it: what is written on standard output and standard error, and the status, are
the same. Each function `test_*` is one test; its document string says what has to hold. The last line is
'delivery_page: N passed, M failed', and the status is 0 only if none failed.
"""
import json
import os
import re
import sys

from delivery import ASSEMBLY, FORMS, PINS, STEPS, WORKSHOP, expect, lines_of, run, text_of
from lib.harness import Folder, Wrong, run_tests
from lib.messages import FILE_LIMIT, T, file_of
from lib.pages import BYTES, SHOWN, expect_escaped, expect_sound, expect_told, read, shown, tags_of, tree_of, wanted

PAGE = "page.html"
USAGE = " (rp_server --help tells what to type)\n"


def page_of(files, *words, page=PAGE):
    """The status, the page, and what is written on standard output. All but the page is as without it."""
    with Folder() as folder:
        for name, text in files.items():
            folder.write(name, text)
        before = folder.run("validate", *words)
        expect(folder.run("validate", "--html", page, *words), before)
        with open(folder.path(page), "rb") as it:
            return before[0], it.read().decode(), before[1]


def expect_report(schema, name, files, *words):
    """The page of files that are texts by their paths, by this schema, tells what `--json` does. Answers it."""
    status, page, out = page_of({"s.exp": schema, **files}, "--schema", "s.exp", "--json", *words, *files)
    checks = json.loads(out)["ok"]["checks"]
    expect_escaped(page)
    told = read(page)
    expect_told(told, wanted(checks, schema, name, files))
    if (status == 0) == (told.verdict in ("FALSE", "LIMIT", "NOT_RUN")):
        raise Wrong(f"{told.verdict} with status {status}")
    return page


# ---- a page

PEGS = """SCHEMA pegs;
ENTITY peg; size : INTEGER; metal : OPTIONAL STRING;
UNIQUE one : size;
WHERE big : size > 3; soft : metal <> 'lead'; END_ENTITY;
END_SCHEMA;
"""
WHOLE = """<!DOCTYPE html>
<html lang="en">
<head>
<meta charset="utf-8">
<meta http-equiv="Content-Security-Policy" content="default-src 'none'; style-src 'unsafe-inline'">
<meta name="viewport" content="width=device-width, initial-scale=1">
<title>Violated: 2 FALSE, 1 UNKNOWN, 3 TRUE of 6 checks.</title>
<style>
:root { color-scheme: light dark; }
body { font: 1rem/1.5 system-ui, sans-serif; max-width: 75rem; margin: 2rem auto; padding: 0 1rem; overflow-wrap: anywhere; }
h1 { font-size: 1.5rem; border-left: 0.5rem solid; padding-left: 0.75rem; }
h2 { font-size: 1.2rem; margin-top: 2rem; }
h3 { font-size: 1rem; font-weight: normal; margin: 0.5rem 0; }
table { border-collapse: collapse; }
td { border-top: 1px solid #8884; padding: 0.2rem 1.5rem 0.2rem 0; vertical-align: top; white-space: pre-wrap; }
td:last-child { overflow-wrap: break-word; }
td.line, .checks td:first-child { white-space: nowrap; }
pre, code { font: 0.9rem/1.4 ui-monospace, monospace; white-space: pre-wrap; overflow-wrap: anywhere; unicode-bidi: isolate; }
pre { border-left: 0.2rem solid #8884; padding-left: 0.75rem; }
summary { cursor: pointer; }
.TRUE { color: light-dark(#17692d, #7ed491); }
.FALSE { color: light-dark(#b3131c, #ff8f8a); }
.UNKNOWN, .LIMIT, .NOT_RUN { color: light-dark(#8a5200, #f0b64a); }
@media (max-width: 45rem) {
  table, tbody, tr, .culprits td:nth-child(n+3) { display: block; }
  tr { border-top: 1px solid #8884; padding: 0.3rem 0; }
  td { display: inline; border: 0; padding: 0 0.5rem 0 0; }
}
</style>
</head>
<body>
<h1 class="FALSE">Violated: 2 FALSE, 1 UNKNOWN, 3 TRUE of 6 checks.</h1>
<h2>Checks that aren't TRUE</h2>
<table class="checks">
<tr><td class="FALSE">FALSE</td><td><a href="#check-3">where PEG BIG</a></td><td>violated: 1</td></tr>
<tr><td class="FALSE">FALSE</td><td><a href="#check-5">unique PEG ONE</a></td><td>violated: 2</td></tr>
<tr><td class="UNKNOWN">UNKNOWN</td><td><a href="#check-4">where PEG SOFT</a></td><td>can&#39;t be told: 1</td></tr>
</table>
<h2>Files, by the schema PEGS</h2>
<table class="files">
<tr><td>a.step</td><td>3 instances</td></tr>
</table>
<section id="check-3">
<h2><span class="FALSE">FALSE</span> where PEG BIG</h2>
<pre>big : size &gt; 3</pre>
<h3>violated: 1</h3>
<table class="culprits">
<tr><td>a.step</td><td class="line">line 2</td><td><code>#2=PEG(2,$);</code></td></tr>
</table>
</section>
<section id="check-5">
<h2><span class="FALSE">FALSE</span> unique PEG ONE</h2>
<pre>one : size</pre>
<h3>violated: 2</h3>
<table class="culprits">
<tr><td>a.step</td><td class="line">line 1</td><td><code>#1=PEG(5,&#39;steel&#39;);</code></td></tr>
<tr><td>a.step</td><td class="line">line 3</td><td><code>#3=PEG(5,
  &#39;tin&#39;);</code></td></tr>
</table>
</section>
<section id="check-4">
<h2><span class="UNKNOWN">UNKNOWN</span> where PEG SOFT</h2>
<pre>soft : metal &lt;&gt; &#39;lead&#39;</pre>
<h3>can&#39;t be told: 1</h3>
<table class="culprits">
<tr><td>a.step</td><td class="line">line 2</td><td><code>#2=PEG(2,$);</code></td></tr>
</table>
</section>
<h2>Checks that are TRUE: 3</h2>
<details><summary>show</summary>
<ul class="TRUE">
<li>unset</li>
<li>bounds</li>
<li>reference</li>
</ul>
</details>
</body>
</html>
"""


def test_a_page():
    """What came of it, which checks aren't TRUE, the files, each of these checks with its rule and its culprits, and those that are."""
    files = {"p.exp": PEGS, "a.step": lines_of("pegs", "#1=PEG(5,'steel');", "#2=PEG(2,$);", "#3=PEG(5,", "  'tin');")}
    status, page, _ = page_of(files, "--schema", "p.exp", "a.step")
    expect((status,), (1,))
    for number, (seen, needed) in enumerate(zip(page.splitlines(), WHOLE.splitlines()), 1):
        if seen != needed:
            raise Wrong(f"line {number} is {seen!r} in place of {needed!r}")
    expect((page,), (WHOLE,))


# ---- what is told

def test_each_broken_file():
    """The culprits of each are those of `--json`, and all ten files together tell theirs."""
    schema = text_of("example/assembly/assembly.exp")
    files = {it: text_of("example/assembly/broken", it) for it in sorted(os.listdir(os.path.join(ASSEMBLY, "broken")))}
    for path, text in files.items():
        expect_report(schema, "MECHANICAL_ASSEMBLY", {path: text})
    page = expect_report(schema, "MECHANICAL_ASSEMBLY", files)
    if len(read(page).sections) < len(files) - 1:
        raise Wrong("a file isn't broken")


def test_two_files():
    """A culprit is told in its file, and the rule over all instances by itself."""
    expect_report(WORKSHOP, "WORKSHOP", {
        "m.step": lines_of("workshop", *PINS, "#7=PIN('7',1.,$);", "#8=PIN('8',1.,$);", "#9=PIN('9',1.,$);"),
        "n.step": lines_of("workshop", "", "#1=PIN('A-1',1.,'steel');", "#9=JOINT((#1));")})


def test_many_files():
    """The files of ten and more places have two digits too."""
    expect_report(FORMS, "FORMS", {f"{k}.step": lines_of("forms", *[""] * k, f"#1=S({k},1);") for k in range(1, 51)})


def test_instances_as_they_are_written():
    """Behind blanks and comments, over several lines, in an external mapping, beside strings and comments that look like one."""
    file = lines_of("forms", "/* #1=S(1,2) */ #2=T(9,(1,1));#1/* a\n */=\n(r(7) /* x; */ S(2));", "#3=T(9,\n\t());#04 = /*c; ' */s (8,1);")
    page = expect_report(FORMS, "FORMS", {"a.step": file})
    found = [it.text for it in tree_of(page).all("code")]
    for text in ("#2=T(9,(1,1));", "#1=\n(r(7) /* x; */ S(2));", "#3=T(9,\n\t());", "#4= /*c; ' */s (8,1);"):
        if text not in found:
            raise Wrong(f"{text!r} isn't among {found}")


def test_rules_as_they_are_written():
    """Without labels, and over several lines of a page."""
    schema = FORMS.replace("= 2", "= 3").replace("UNIQUE c;", "UNIQUE b : c; c, a;").replace("again : a, SELF\\r.a;", "")
    expect_report(schema, "FORMS", {"a.step": lines_of("forms", "#1=T(1,(1));", "#2=T(1,(1));")})
    long = " OR ".join(f"(a = {k}{k}{k}{k}{k}{k}{k}{k})" for k in range(1, 9))
    expect_report(FORMS.replace("a < 3", f"{long} OR\n  (a IN\n  [1])"), "FORMS", {"a.step": lines_of("forms", "#1=S(0,1);")})


def test_four_verdicts_of_one_rule():
    """Those that violate it stand first."""
    schema = STEPS.replace("n : INTEGER; WHERE", "n : OPTIONAL INTEGER; WHERE")
    names = ["$", "-1", "60000", *["49000"] * 104, "-1"]
    page = expect_report(schema, "STEPS", {"a.step": lines_of("steps", *(f"#{k}=E({n});" for k, n in enumerate(names, 1)))})
    section, = read(page).sections
    expect(([it.heading.split(":")[0] for it in section.lists],),
           (["violated", "not decided within the limit of steps", "not begun for want of steps", "can't be told"],))


def test_verdicts_alone():
    """UNKNOWN, LIMIT, NOT_RUN and TRUE each without another one."""
    expect_report(WORKSHOP, "WORKSHOP", {"a.step": lines_of("workshop", "#1=PIN('1',1.,$);", "#2=JOINT((#1));")})
    expect_report(STEPS, "STEPS", {"a.step": lines_of("steps", "#1=E(60000);")})
    expect_report(STEPS, "STEPS", {"a.step": lines_of("steps", *(f"#{k}=E(49000);" for k in range(1, 106)))})
    expect_report(T, "T", {"a.step": file_of("#1=P(1.,$);#2=Q(#1);"), "b.step": file_of("")})


def test_nothing_is_true():
    """Then no list of such checks is there to be unfolded."""
    schema = "SCHEMA s; ENTITY a; x : INTEGER; y : SET [1:?] OF a; z : b; END_ENTITY; ENTITY b; END_ENTITY; END_SCHEMA;"
    page = expect_report(schema, "S", {"a.step": lines_of("s", "#1=A($,(),#1);")})
    if tree_of(page).all("details"):
        raise Wrong("something is folded")


def test_folded_culprits():
    """50 of a verdict are shown, and others are folded behind their count."""
    for count in (SHOWN, SHOWN + 1, 1000):
        lists = [it.lists[0] for it in read(expect_report(FORMS, "FORMS", {
            "a.step": lines_of("forms", *(f"#{k}=S(9,{k});" for k in range(1, count + 1)))})).sections]
        more = count - SHOWN
        expect(([(len(it.shown), len(it.folded), it.summary) for it in lists],), ([(SHOWN, more, f"and {more} more" if more else "")],))


def test_folded_culprits_of_two_verdicts():
    """Of each verdict 50 are shown, and with or without `--all` the page is the same."""
    pins = [f"#{k}=PIN('{k}',1.,'lead');" for k in range(1, 60)] + [f"#{k}=PIN('{k}',1.,$);" for k in range(60, 131)]
    files = {"a.step": lines_of("workshop", *pins)}
    page = expect_report(WORKSHOP, "WORKSHOP", files)
    expect(([(len(it.shown), len(it.folded)) for it in read(page).sections[0].lists],), ([(50, 9), (50, 21)],))
    for words in ([], ["--all"], ["--quiet"]):
        expect(page_of({"s.exp": WORKSHOP, **files}, "--schema", "s.exp", *words, "a.step")[1:2], (page,))


def test_long_instances():
    """They are cut behind at most 400 bytes, between two characters, and two points say so. A `;` in a string ends none."""
    head = len("S(9,1,'');")
    schema = "SCHEMA names; ENTITY s; a : INTEGER; b : INTEGER; c : STRING; WHERE less : a < 3; END_ENTITY; END_SCHEMA;"
    texts = ["x" * (BYTES - head), "x" * (BYTES - head + 1), "é" * BYTES, "x" + "é" * BYTES, "€" * BYTES, "😀" * BYTES, "x;" * BYTES, ";x" * BYTES,
             "'';" * BYTES, "x" * 100_000]
    page = expect_report(schema, "NAMES", {"a.step": lines_of("names", *(f"#{k}=S(9,1,'{it}');" for k, it in enumerate(texts, 1)))})
    found = [it.text for it in tree_of(page).all("code")]
    if [it.endswith("');") for it in found] != [True] + [False] * (len(texts) - 1) or not all(it.endswith(" ..") for it in found[1:]):
        raise Wrong(f"{[(it[:12], it[-12:]) for it in found]}")
    expect((found[0], found[2]), (f"#1=S(9,1,'{'x' * (BYTES - head)}');", f"#3=S(9,1,'{'é' * ((BYTES - 7) // 2)} .."))


# ---- what stands in files, schemas and paths

BAD = ["<script>alert(1)</script>", "<img src=x onerror=alert(1)>", "&amp;", "&lt;b&gt;", "&#60;i&#62;", "&notin", "&", "<", ">", "<!--", "-->",
       "]]>", "<![CDATA[", "<?php", "</code></td></tr></table>", "</pre>", "</title>", "</style>", "</body></html>", '" onclick="alert(1)',
       "'' onclick=''alert(1)", "`", "<details open>", "<a href=javascript:alert(1)>", "{{7*7}}", "#9=S(1);", "/*", "*/", "--", "(*", "%3Cb%3E"]
NAMES = "SCHEMA names; ENTITY s; a : INTEGER; c : STRING; WHERE w1 : (a < 3) AND (c <> 'WORD'); END_ENTITY; END_SCHEMA;"


def lettered(text):
    """A text without any sign that could mean anything."""
    return re.sub(r"[^\w\n]", "x", text)


def test_what_stands_in_strings():
    """Nothing of a file makes a tag, an attribute or an entity, and all of it is told."""
    for bad in (BAD, ["".join(BAD)]):
        file, plain = (lines_of("names", *(f"#{k}=S({k + 8},'{of(it)}');" for k, it in enumerate(bad, 1))) for of in (str, lettered))
        page = expect_report(NAMES, "NAMES", {"a.step": file})
        expect((tags_of(page),), (tags_of(expect_report(NAMES, "NAMES", {"a.step": plain})),))


def test_what_stands_in_comments():
    """The same of comments within an instance."""
    for of in (str, lettered):
        file = lines_of("names", *(f"#{k}=/*{of(it)}*/S({k + 8}/*{of(it)}*/,'');" for k, it in enumerate(BAD, 1) if "*/" not in it))
        page = expect_report(NAMES, "NAMES", {"a.step": file})
        expect((tags_of(page),), (tags_of(expect_report(NAMES, "NAMES", {"a.step": re.sub(r"/\*.*?\*/", "", file)})),))


def test_what_stands_in_rules():
    """The same of a schema's strings and signs."""
    file = lines_of("names", "#1=S(9,'');")
    for bad in BAD:
        page = expect_report(NAMES.replace("WORD", bad), "NAMES", {"a.step": file})
        expect((tags_of(page),), (tags_of(expect_report(NAMES.replace("WORD", lettered(bad)), "NAMES", {"a.step": file})),))


def test_what_stands_in_paths():
    """The same of paths, of files that are taken and of one that is refused."""
    good, bad = lines_of("names", "#1=S(9,'');"), lines_of("names", "#1=S(9,$,7);")
    for front in ("<script>alert(1)<", "a&amp;b&lt;", "<img src=x onerror=alert(1)>", "\" onclick=\"", "' onclick='", "</title><b>", "é😀", "a  b", " "):
        paths = [f"{front}{it}.step" for it in "12"]
        page = expect_report(NAMES, "NAMES", {it: good for it in paths})
        expect((tags_of(page),), (tags_of(expect_report(NAMES, "NAMES", {"1.step": good, "2.step": good})),))
        pages = [page_of({"s.exp": NAMES, one: good, other: bad}, "--schema", "s.exp", one, other)[1] for one, other in (paths, ("1.step", "2.step"))]
        expect_escaped(pages[0])
        expect((tags_of(pages[0]),), (tags_of(pages[1]),))
        for path in paths:
            if path not in tree_of(pages[0]).text:
                raise Wrong(f"{path!r} isn't told")


def test_signs_that_nobody_sees():
    """Control signs, and those that turn others round, have a sign of replacement; line feeds and tabs stay, carriage returns go."""
    signs = [*map(chr, (*range(1, 32), 127, 128, 133, 159, 0x202a, 0x202e, 0x2066, 0x2069))]
    file = lines_of("names", *(f"#{k}=S({k + 8},'a{it}b');" for k, it in enumerate(signs, 1)))
    page = expect_report(NAMES, "NAMES", {"a.step": file})
    found = [it.text for it in tree_of(page).all("code")]
    expect((found,), ([f"#{k}=S({k + 8},'a{shown(it)}b');" for k, it in enumerate(signs, 1)],))
    expect((shown("a\0\t\r\n\x7f\x85\u202eé\u2028😀"),), ("a\ufffd\t\n\ufffd\ufffd\ufffdé\u2028😀",))
    path = "a\u202epets.\x07\x1b[31m.step"
    expect_report(NAMES, "NAMES", {path: file})
    expect_report(NAMES.replace("WORD", "a\u202eb\u2069"), "NAMES", {"a.step": file})


def test_lines_that_end_otherwise():
    """An instance over lines that end by carriage return and line feed is told over the same lines; so is one behind a mark of the
    byte order."""
    file = lines_of("names", "#1=S(9,\r\n'a\r\nb'\r\n);\r\n", "#2=S(10,'');")
    page = expect_report(NAMES, "NAMES", {"a.step": "\ufeff" + file})
    expect(([it.text for it in tree_of(page).all("code")],), (["#1=S(9,\n'a\nb'\n);", "#2=S(10,'');"],))
    expect(([it.text for it in tree_of(page).all("td", "line")],), (["line 1", "line 6"],))


def test_signs_of_all_alphabets():
    """They stand as they are, in UTF-8."""
    page = expect_report(NAMES, "NAMES", {"Größe Ω 尺寸.step": lines_of("names", "#1=S(9,'é Ω 尺 😀 שלום \\X2\\00E9\\X0\\');")})
    if "é Ω 尺 😀 שלום \\X2\\00E9\\X0\\" not in page or "Größe Ω 尺寸.step" not in page:
        raise Wrong("they are told otherwise")


# ---- files that are refused

def test_a_refused_file():
    """What is wrong stands on top, with the lines of the file and a caret; then the files before it. Status and lines are as ever."""
    files = {"t.exp": T, "a.step": file_of(""), "b.step": file_of("#1=P(1.,$);\n#2=Q(#9);\n"), "c.step": file_of("")}
    status, page, out = page_of(files, "--schema", "t.exp", "a.step", "b.step", "c.step")
    expect((status, tail_of(page)), (2, """<h1 class="FALSE">Not taken: b.step is refused, so nothing is validated.</h1>
<p class="fault">b.step: code 12 InstanceFault, kind Undefined, instance #2, line 2 column 6</p>
<pre>
  #2=Q(#9);
       ^
  attribute 1, a: P
  #9 is no instance of this file
</pre>
<h2>Files, by the schema T</h2>
<table class="files">
<tr><td>a.step</td><td>0 instances</td></tr>
</table>
</body>
</html>
"""))
    html = tree_of(page)
    expect_sound(html)
    expect((html.one("title").text, html.one("pre").text.encode() in out), ("Not taken: b.step is refused, so nothing is validated.", True))


def tail_of(page):
    """What stands behind the styles."""
    return page[page.index("<body>\n") + len("<body>\n"):]


def test_a_refused_file_alone():
    """Without files before it none are told, and without lines none of these."""
    for file, words, lines in (
            (file_of("", "X"), "code 9 WrongSchema", ""),
            (b" " * (FILE_LIMIT + 1), "code 2 TooLarge, it is over 8 MiB", ""),
            (file_of("").encode() + b"/*\xff*/", "code 1 BadRequest, it isn&#39;t UTF-8", ""),
            ("", "code 11 FileFault, kind Syntax, line 1 column 1", "<pre>\n\n  ^\n  the file ends here\n</pre>\n"),
            (file_of("#1=P(<b>);"), "code 11 FileFault, kind Token, line 1 column 122", None)):
        status, page, _ = page_of({"t.exp": T, "b.step": file}, "--schema", "t.exp", "b.step")
        expect_escaped(page)
        front = f'<h1 class="FALSE">Not taken: b.step is refused, so nothing is validated.</h1>\n<p class="fault">b.step: {words}</p>\n'
        if lines is None:
            lines = tail_of(page).removeprefix(front).removesuffix("</body>\n</html>\n")
            if "P(&lt;b&gt;);" not in lines:
                raise Wrong(f"{lines} has no line of the file")
        expect((status, tail_of(page)), (2, f"{front}{lines}</body>\n</html>\n"))


def test_lines_of_a_refused_file():
    """Nothing in them makes a tag."""
    for bad in BAD:
        pages = [page_of({"s.exp": NAMES, "a.step": lines_of("names", f"#1=S(9,'{of(bad)}',$);")}, "--schema", "s.exp", "a.step")[1] for of in (str, lettered)]
        expect_escaped(pages[0])
        expect_sound(tree_of(pages[0]))
        expect((tags_of(pages[0]),), (tags_of(pages[1]),))


# ---- beside a page

def test_what_is_written_beside_a_page():
    """The same as without it, for people, as JSON, all culprits and the verdict alone; and the page is the same."""
    for files, paths in (({"s.exp": WORKSHOP, "a.step": lines_of("workshop", *PINS)}, ["a.step"]),
                         ({"s.exp": WORKSHOP, "a.step": lines_of("workshop"), "b.step": lines_of("workshop", "#1=PIN();")}, ["a.step", "b.step"])):
        pages = {page_of(files, "--schema", "s.exp", *words, *paths)[1] for words in ([], ["--json"], ["--all"], ["--quiet"])}
        if len(pages) != 1:
            raise Wrong(f"{len(pages)} pages")


def test_a_page_over_another():
    """Nothing of what stood there is left."""
    with Folder() as folder:
        folder.write("s.exp", FORMS)
        folder.write("short.step", lines_of("forms"))
        folder.write("long.step", lines_of("forms", *(f"#{k}=S(9,{k});" for k in range(1, 200))))
        texts = []
        for path in ("short.step", "long.step", "short.step"):
            folder.run("validate", "--schema", "s.exp", "--html", PAGE, path)
            with open(folder.path(PAGE), "rb") as it:
                texts.append(it.read())
        expect((texts[2], texts[1] != texts[0]), (texts[0], True))


# ---- a page that can't be written

def unwritten(files, page, words, paths=("a.step",), **devices):
    """Status 2 and one line, and standard output as without a page; nothing else is made or changed."""
    with Folder() as folder:
        for name, text in files.items():
            folder.write(name, text)
        before = tree(folder)
        status, out, error = folder.run("validate", "--schema", "t.exp", *paths, **devices)
        if status == 2:
            raise Wrong(f"it ends with 2 anyway: {error}")
        seen = folder.run("validate", "--schema", "t.exp", "--html", page, *paths, **devices)
        expect(seen, (2, out, f"rp_server: {words}\n".encode()))
        expect((tree(folder),), (before,))


def tree(folder):
    """The files of a folder with their bytes, and its folders."""
    found = {}
    for place, _, names in os.walk(folder.folder.name):
        found[place] = None
        for name in names:
            with open(os.path.join(place, name), "rb") as it:
                found[os.path.join(place, name)] = it.read()
    return found


GOOD = {"t.exp": T, "a.step": file_of("#1=P(1.,$);#2=Q(#1);"), "sub/b.step": ""}


def test_a_page_that_cannot_be_written():
    """A folder that isn't there, one in place of a file, a file in place of a folder, no room, a name that is too long."""
    long = "p" * 252 + ".html"
    for page, why in (("no/page.html", "there is no such folder"), ("sub", "it is a folder"), ("sub/", "it is a folder"),
                      ("a.step/page.html", "a part of its path is no folder"), ("/dev/full", "there is no room"), (long, "its path is too long")):
        unwritten(GOOD, page, f"{json.dumps(page)} can't be written: {why}")


def test_a_page_in_place_of_something_else():
    """A file that has something else than a page stays, by whichever path it is named; an empty one and a page are written over."""
    files = {**GOOD, "b.step": file_of("#1=P(1.,$);"), "empty": "", "page.html": "<!DOCTYPE html>\n<p>an older one", "front": "<!DOC", "text": "<!DOCTYPE htm>"}
    words = "it has something else than a page"
    unwritten(files, "./a.step", f"\"./a.step\" can't be written: {words}")
    unwritten(files, "a.step", f"\"a.step\" can't be written: {words}", ["b.step"])
    unwritten(files, "sub/../t.exp", f"\"sub/../t.exp\" can't be written: {words}")
    unwritten(files, "text", f"\"text\" can't be written: {words}")
    pages = {page_of(files, "--schema", "t.exp", "a.step", page=it)[1] for it in ("empty", "page.html", "front", "new.html")}
    expect((len(pages),), (1,))


def test_a_page_without_permission():
    """Whoever may do all is refused nothing."""
    if os.geteuid() == 0:
        return
    with Folder() as folder:
        for name, text in GOOD.items():
            folder.write(name, text)
        os.chmod(folder.path("sub"), 0o555)
        seen = folder.run("validate", "--schema", "t.exp", "--quiet", "--html", "sub/page.html", "a.step")
        os.chmod(folder.path("sub"), 0o755)
    expect(seen, (2, b"Kept: all 5 checks are TRUE.\n", b"rp_server: \"sub/page.html\" can't be written: permission is denied\n"))


def test_what_is_told_beside_a_page_that_cannot_be_written():
    """The status is 2 whatever the verdict, in each form."""
    files = {**GOOD, "a.step": file_of("#1=P($,$);")}
    for words in ([], ["--quiet"], ["--json"], ["--all"]):
        status, out, _ = run(files, "--schema", "t.exp", *words, "a.step")
        expect((status,), (1,))
        expect(run(files, "--schema", "t.exp", "--html", "/dev/full", *words, "a.step"), (2, out, b"rp_server: \"/dev/full\" can't be written: there is no room\n"))


def test_a_refused_file_beside_a_page_that_cannot_be_written():
    """What is wrong with the file is told, and not what is wrong with the page."""
    files = {**GOOD, "a.step": file_of("#1=P(.5);")}
    for words in ([], ["--quiet"], ["--json"]):
        seen = run(files, "--schema", "t.exp", *words, "a.step")
        expect(run(files, "--schema", "t.exp", "--html", "no/page.html", *words, "a.step"), seen)


def test_output_that_cannot_be_written_beside_a_page():
    """That is told."""
    with Folder() as folder, open("/dev/full", "wb") as full:
        for name, text in GOOD.items():
            folder.write(name, text)
        for page in (PAGE, "/dev/full", "no/page.html"):
            status, _, error = folder.run("validate", "--schema", "t.exp", "--html", page, "a.step", stdout=full)
            expect((status, error), (2, b"rp_server: standard output can't be written\n"))


# ---- no page

OLDER = "what stood there"


def no_page(files, words, error, page=PAGE):
    """Status 2 with this line alone, and what stood at the page's path stays there."""
    with Folder() as folder:
        for name, text in {PAGE: OLDER, **files}.items():
            folder.write(name, text)
        before = tree(folder)
        expect(folder.run("validate", "--html", page, *words), (2, b"", f"rp_server: {error}\n".encode()))
        expect((tree(folder),), (before,))


def test_no_page_where_nothing_is_read():
    """A file that can't be read, behind one that is taken, and a schema that is none: an older page stays."""
    no_page(GOOD, ["--schema", "t.exp", "a.step", "z.step"], '"z.step" can\'t be read: there is no such file')
    no_page(GOOD, ["--schema", "t.exp", "sub"], '"sub" can\'t be read: it is a folder')
    no_page({**GOOD, "n.exp": "SCHEMA n; x"}, ["--schema", "n.exp", "a.step"], '"n.exp" is no schema: Syntax line 1 column 11')
    no_page(GOOD, ["--schema", "z.exp", "a.step"], '"z.exp" can\'t be read: there is no such file')


def test_two_schemas_of_one_name():
    """The line says which name and which two files have it, the first that have; there is no page."""
    files = {**GOOD, "u.exp": "schema u; END_SCHEMA;", "v.exp": "SCHEMA U; END_SCHEMA;", "w.exp": "schema t; END_SCHEMA;"}
    for schemas, words in ((("t.exp", "w.exp"), '"T", of "t.exp" and "w.exp"'), (("w.exp", "t.exp"), '"T", of "w.exp" and "t.exp"'),
                           (("t.exp", "u.exp", "v.exp", "w.exp"), '"U", of "u.exp" and "v.exp"'),
                           (("t.exp", "./t.exp"), '"T", of "t.exp" and "./t.exp"')):
        given = [word for it in schemas for word in ("--schema", it)]
        no_page(files, [*given, "a.step"], f"two schemas have one name: {words}")
        expect(run(files, *given, "a.step"), (2, b"", f"rp_server: two schemas have one name: {words}\n".encode()))


def test_a_page_in_place_of_what_is_read():
    """It is refused, and the file stays."""
    files = {**GOOD, "u.exp": "schema u; END_SCHEMA;", "b.step": file_of("")}
    for page in ("t.exp", "u.exp", "a.step", "b.step"):
        no_page(files, ["--schema", "t.exp", "--schema", "u.exp", "a.step", "b.step"], f"--html names a file that is to be read{USAGE}".rstrip("\n"), page)


def test_command_lines():
    """Two pages, one without a path, and one with another command."""
    with Folder() as folder:
        for name, text in GOOD.items():
            folder.write(name, text)
        before = tree(folder)
        for words in (["--html", "p.html", "--html", "q.html", "a.step"], ["--html", "p.html", "--html", "p.html", "a.step"], ["a.step", "--html"],
                      ["--html", "a.step"], ["--html", "p.html"]):
            status, out, error = folder.run("validate", "--schema", "t.exp", *words)
            if (status, out, error.count(b"\n")) != (2, b"", 1) or not error.endswith(USAGE.encode()):
                raise Wrong(f"{words}: {status}, {out}, {error}")
        expect((tree(folder),), (before,))


if __name__ == "__main__":
    run_tests("delivery_page", globals(), sys.argv[1:])
