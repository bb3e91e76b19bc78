#!/usr/bin/env python3
"""Has the program validate files from the command line, as one delivers them, and compares all that it writes, byte for byte. What
the worked-out reports of example/assembly list is read back from the text for people.

    tests/delivery.py [PROGRAM]

Each function `test_*` is one test; its document string says what has to hold. The last line is
'delivery: N passed, M failed', and the status is 0 only if none failed.
"""
import json
import os
import pty
import re
import sys
import threading
import time

from lib.harness import TOP, Folder, Wrong, run_tests, shortened
from lib.messages import ATTRIBUTES_HOLD, FILE_LIMIT, L, T, check_is, file_of, line, report_is

ASSEMBLY = os.path.join(TOP, "example/assembly")
WORKSHOP = """SCHEMA workshop;
TYPE diameter = REAL; WHERE wr1 : SELF > 0.0; END_TYPE;
ENTITY pin; id : STRING (4); size : diameter; metal : OPTIONAL STRING;
INVERSE uses : SET [1:?] OF joint FOR pins;
UNIQUE ur1 : id;
WHERE wr1 : metal <> 'lead'; END_ENTITY;
ENTITY joint; pins : SET [1:2] OF pin; END_ENTITY;
RULE enough FOR (pin, joint); WHERE SIZEOF(pin) <= 2 * SIZEOF(joint); END_RULE;
END_SCHEMA;
"""
PINS = ["#1=PIN('A-1',2.5,'steel');", "#2=PIN('A-1',0.,$);", "#3=PIN('spare-1',$,'lead');", "#4=JOINT((#1,#2));", "#5=JOINT((#1,#2,#4));"]
FORMS = """SCHEMA forms;
ENTITY r; a : INTEGER; WHERE
  less : a < 3; -- a remark
  (* another *) SIZEOF ( [ 'a;b' , 'c' ] ) = 2
    ;
END_ENTITY;
ENTITY s SUBTYPE OF (r); b : INTEGER; END_ENTITY;
ENTITY t SUBTYPE OF (r); c : LIST [0:?] OF UNIQUE INTEGER; UNIQUE c; again : a, SELF\\r.a; END_ENTITY;
END_SCHEMA;
"""
LONG = """SCHEMA long;
ENTITY measured; mass : INTEGER;
WHERE is_within_the_range : ((mass >= 1000000) AND (mass <= 2000000)) OR ((mass >= 3000000)
  AND (mass <= 4000000)) OR (mass = 5000000) OR (SIZEOF(['aaaaaaaaaaaaaaaaaaaaaaaaaaaaaaaaaaaaaaaaaaaaaaaaaaaaaaaaaaaaaaaaaaaaaaaaaaaaaaaaaaaa']) = 2);
END_ENTITY;
END_SCHEMA;
"""
STEPS = """SCHEMA steps;
FUNCTION f (n : INTEGER) : LOGICAL;
LOCAL k : INTEGER := 0; END_LOCAL;
REPEAT i := 1 TO n; k := k + 1; END_REPEAT;
RETURN (k = n);
END_FUNCTION;
ENTITY e; n : INTEGER; WHERE w : f(n); END_ENTITY;
END_SCHEMA;
"""
ENDLESS = """SCHEMA n; ENTITY e; DERIVE a : INTEGER := b; b : INTEGER := a; WHERE w : a = 1; END_ENTITY; END_SCHEMA;
"""


def lines_of(schema, *instances):
    """A file with an instance a line, of which the first stands in the first line."""
    return file_of("\n".join(instances), schema.upper())


def text_of(*path):
    with open(os.path.join(TOP, *path), encoding="utf-8") as it:
        return it.read()


def run(files, *words, **devices):
    with Folder() as folder:
        for name, text in files.items():
            folder.write(name, text)
        return folder.run("validate", *words, **devices)


def expect(seen, wanted):
    if seen != wanted:
        raise Wrong(f"{tuple(shortened(it) if isinstance(it, bytes) else it for it in seen)} in place of {wanted}")


def told(files, *words, status=0, out=None, error=b""):
    """What is written for people, and the status."""
    expect(run(files, *words), (status, out.encode(), error))


def refuses(files, *words, out="", error):
    """Status 2, and one line on standard error."""
    told(files, *words, status=2, out=out, error=f"rp_server: {error}\n".encode())


def batch_line(schemas, name, files):
    """The reply line of `batch` to a validation of these files, or to the put that is refused, by the partner and the names that a
    delivery has."""
    with Folder() as folder:
        for schema, text in schemas.items():
            folder.write(schema, text)
        folder.write("config.json", json.dumps({"partners": [{"name": "me", "token": "t"}], "schemas": list(schemas)}))
        lines = []
        for number, file in enumerate(files, 1):
            lines += [line("me", "create_model", name=f"{number:02}", schema=name),
                      line("me", "put", owner="me", model=f"{number:02}", file=file)]
        lines.append(line("me", "create_group", name="all", schema=name))
        lines += [line("me", "include", group="all", owner="me", model=f"{number:02}") for number in range(1, len(files) + 1)]
        lines.append(line("me", "validate", owner="me", group="all"))
        status, out, error = folder.run("batch", "--config", "config.json", text=b"".join(it + b"\n" for it in lines))
    if (status, error) != (0, b""):
        raise Wrong(f"batch ended with {status}, {error}")
    replies = out.split(b"\n")[:-1]
    refused = [it for it in replies if it.startswith(b'{"refused"')]
    return (refused or replies[-1:])[0] + b"\n"


# ---- for people

def test_a_report():
    """Each check with its verdict; of those that aren't TRUE the rule's text, and each culprit with its place."""
    files = {"w.exp": WORKSHOP, "m.step": lines_of("workshop", *PINS)}
    told(files, "--schema", "w.exp", "m.step", status=1, out="""m.step: 5 instances of WORKSHOP

FALSE    unset
         violated: 1
           m.step line 3: #3=PIN, PIN.SIZE
FALSE    bounds
         violated: 2
           m.step line 3: #3=PIN, PIN.ID
           m.step line 5: #5=JOINT, JOINT.PINS
FALSE    reference
         violated: 1
           m.step line 5: #5=JOINT, JOINT.PINS
FALSE    type DIAMETER WR1
         wr1 : SELF > 0.0
         violated: 1
           m.step line 2: #2=PIN, PIN.SIZE
FALSE    where PIN WR1
         wr1 : metal <> 'lead'
         violated: 1
           m.step line 3: #3=PIN
         can't be told: 1
           m.step line 2: #2=PIN
FALSE    unique PIN UR1
         ur1 : id
         violated: 2
           m.step line 1: #1=PIN
           m.step line 2: #2=PIN
FALSE    inverse PIN USES
         uses : SET [1:?] OF joint FOR pins
         violated: 1
           m.step line 3: #3=PIN
TRUE     rule ENOUGH #1

Violated: 7 FALSE, 1 TRUE of 8 checks.
""")


def test_two_files():
    """They are one population: what one has is seen from the other, and each culprit is told in its file."""
    more = lines_of("workshop", "#1=PIN('A-2',1.,'steel');", "#9=JOINT((#1));")
    files = {"w.exp": WORKSHOP, "m.step": lines_of("workshop", "", "#1=PIN('A-2',1.,'steel');"), "n.step": more}
    told(files, "--schema", "w.exp", "m.step", "n.step", status=1, out="""m.step: 1 instance of WORKSHOP
n.step: 2 instances of WORKSHOP

TRUE     unset
TRUE     bounds
TRUE     reference
TRUE     type DIAMETER WR1
TRUE     where PIN WR1
FALSE    unique PIN UR1
         ur1 : id
         violated: 2
           m.step line 2: #1=PIN
           n.step line 1: #1=PIN
FALSE    inverse PIN USES
         uses : SET [1:?] OF joint FOR pins
         violated: 1
           m.step line 2: #1=PIN
TRUE     rule ENOUGH #1

Violated: 2 FALSE, 6 TRUE of 8 checks.
""")


def test_a_rule_of_all_files():
    """A rule over all instances has no culprits."""
    files = {"w.exp": WORKSHOP, "m.step": lines_of("workshop", *(f"#{k}=PIN('{k}',1.,'steel');" for k in (1, 2, 3)), "#9=JOINT((#1,#2));"),
             "n.step": lines_of("workshop")}
    status, out, error = run(files, "--schema", "w.exp", "m.step", "n.step")
    expect((status, error), (1, b""))
    expect((out[out.index(b"FALSE    rule"):],), (b"""FALSE    rule ENOUGH #1
         SIZEOF(pin) <= 2 * SIZEOF(joint)
         violated by all files together

Violated: 2 FALSE, 6 TRUE of 8 checks.
""",))


def test_places_and_texts():
    """An instance is told as its file spells it: behind blanks and comments, in an external mapping, beside strings and comments that
    look like one. A rule's text has one blank where the schema has blanks or remarks."""
    file = lines_of("forms", "/* #1=S(1,2) */ #2=T(9,(1,1));#1/* a\n */=\n(r(7) /* x */ S(2));", "#3=\\N\\t\\F\\(9,());#04 = /*c*/s (8,1);")
    told({"f.exp": FORMS, "a.step": file}, "--schema", "f.exp", "a.step", status=1, out="""a.step: 4 instances of FORMS

TRUE     unset
FALSE    bounds
         violated: 1
           a.step line 1: #2=T, T.C
TRUE     reference
FALSE    where R LESS
         less : a < 3
         violated: 4
           a.step line 1: #1=R+S
           a.step line 1: #2=T
           a.step line 4: #3=T
           a.step line 4: #4=S
TRUE     where R #2
TRUE     unique T #1
FALSE    unique T AGAIN
         again : a, SELF\\r.a
         violated: 2
           a.step line 1: #2=T
           a.step line 4: #3=T

Violated: 3 FALSE, 4 TRUE of 7 checks.
""")


def test_rules_without_a_label():
    """They are told by their number, and their text is that of this number."""
    schema = FORMS.replace("= 2", "= 3").replace("UNIQUE c;", "UNIQUE b : c; c, a;").replace("again : a, SELF\\r.a;", "")
    file = lines_of("forms", "#1=T(1,(1));", "#2=T(1,(1));")
    status, out, error = run({"f.exp": schema, "a.step": file}, "--schema", "f.exp", "a.step")
    expect((status, error), (1, b""))
    expect((out[out.index(b"TRUE     where"):],), (b"""TRUE     where R LESS
FALSE    where R #2
         SIZEOF ( [ 'a;b' , 'c' ] ) = 3
         violated: 2
           a.step line 1: #1=T
           a.step line 2: #2=T
FALSE    unique T B
         b : c
         violated: 2
           a.step line 1: #1=T
           a.step line 2: #2=T
FALSE    unique T #2
         c, a
         violated: 2
           a.step line 1: #1=T
           a.step line 2: #2=T

Violated: 3 FALSE, 4 TRUE of 7 checks.
""",))


def test_long_texts():
    """A rule's text stands in lines of at most 80 columns, where it can be cut at blanks."""
    files = {"l.exp": LONG, "a.step": lines_of("long", "#1=MEASURED(0);")}
    status, out, error = run(files, "--schema", "l.exp", "a.step")
    expect((status, error), (1, b""))
    expect((out[out.index(b"FALSE"):],), (b"""FALSE    where MEASURED IS_WITHIN_THE_RANGE
         is_within_the_range : ((mass >= 1000000) AND (mass <= 2000000)) OR
         ((mass >= 3000000) AND (mass <= 4000000)) OR (mass = 5000000) OR
         (SIZEOF(['aaaaaaaaaaaaaaaaaaaaaaaaaaaaaaaaaaaaaaaaaaaaaaaaaaaaaaaaaaaaaaaaaaaaaaaaaaaaaaaaaaaa'])
         = 2)
         violated: 1
           a.step line 1: #1=MEASURED

Violated: 1 FALSE, 3 TRUE of 4 checks.
""",))


def test_many_culprits():
    """Of a rule 50 culprits are told and how many there are, and all with --all."""
    files = {"f.exp": FORMS, "a.step": lines_of("forms", *(f"#{k}=S({k},1);" for k in range(1, 103)))}
    head = "a.step: 102 instances of FORMS\n\nTRUE     unset\nTRUE     bounds\nTRUE     reference\nFALSE    where R LESS\n         less : a < 3\n"
    tail = ("TRUE     where R #2\nTRUE     unique T #1\nTRUE     unique T AGAIN\n\n"
            "Violated: 1 FALSE, 6 TRUE of 7 checks.\n")
    culprits = [f"           a.step line {k}: #{k}=S\n" for k in range(3, 103)]
    told(files, "--schema", "f.exp", "a.step", status=1,
         out=head + "         violated: 100\n" + "".join(culprits[:50]) + "           and 50 more (--all shows them)\n" + tail)
    told(files, "--schema", "f.exp", "--all", "a.step", status=1, out=head + "         violated: 100\n" + "".join(culprits) + tail)


def test_many_culprits_of_two_verdicts():
    """The 50 are those of all verdicts of a rule, those that violate it first."""
    pins = [f"#{k}=PIN('{k}',1.,'lead');" for k in range(1, 50)] + [f"#{k}=PIN('{k}',1.,$);" for k in range(50, 53)]
    status, out, error = run({"w.exp": WORKSHOP, "a.step": lines_of("workshop", *pins)}, "--schema", "w.exp", "a.step")
    expect((status, error), (1, b""))
    culprits = "".join(f"           a.step line {k}: #{k}=PIN\n" for k in range(1, 50))
    expect((out[out.index(b"FALSE    where"):out.index(b"TRUE     unique")],), (f"""FALSE    where PIN WR1
         wr1 : metal <> 'lead'
         violated: 49
{culprits}         can't be told: 3
           a.step line 50: #50=PIN
           and 2 more (--all shows them)
""".encode(),))


def test_paths():
    """A path is told as it was given, and one with signs that no line has in quotes."""
    files = {"t.exp": T, "sub/a b.step": file_of("")}
    told(files, "--schema", "t.exp", "./sub/a b.step", out=TRUE_OF_T.format(it="./sub/a b.step: 0 instances of T"))
    told({"t.exp": T, "a\nb.step": file_of("")}, "--schema", "t.exp", "a\nb.step", out=TRUE_OF_T.format(it='"a\\nb.step": 0 instances of T'))


TRUE_OF_T = """{it}

TRUE     unset
TRUE     bounds
TRUE     reference
TRUE     where P W1
TRUE     inverse P U

Kept: all 5 checks are TRUE.
"""


# ---- verdicts, each with its status

def test_all_true():
    files = {"t.exp": T, "a.step": file_of("#1=P(1.,$);#2=Q(#1);")}
    told(files, "--schema", "t.exp", "a.step", out=TRUE_OF_T.format(it="a.step: 2 instances of T"))
    told(files, "--schema", "t.exp", "--quiet", "a.step", out="Kept: all 5 checks are TRUE.\n")


def test_unknown_alone():
    files = {"a.exp": text_of("example/assembly/assembly.exp"), "u.step": text_of("example/assembly/broken/unknown.step")}
    told(files, "--schema", "a.exp", "--quiet", "u.step", out="Not violated, as far as can be told: 1 UNKNOWN, 94 TRUE of 95 checks.\n")
    status, out, error = run(files, "--schema", "a.exp", "u.step")
    expect((status, error), (0, b""))
    expect((out[out.index(b"UNKNOWN"):out.index(b"TRUE     where MEASURE_REPRESENTATION")],), (b"""UNKNOWN  where MATERIAL WR1
         wr1 : {0.0 < density < 23.0}
         can't be told: 1
           u.step line 9: #10=MATERIAL
""",))


def test_false():
    files = {"a.exp": text_of("example/assembly/assembly.exp"), "u.step": text_of("example/assembly/broken/unset.step")}
    told(files, "--schema", "a.exp", "--quiet", "u.step", status=1, out="Violated: 1 FALSE, 94 TRUE of 95 checks.\n")


def test_limit_alone():
    files = {"a.exp": text_of("example/assembly/assembly.exp"), "l.step": text_of("example/assembly/broken/limit.step")}
    told(files, "--schema", "a.exp", "--quiet", "l.step", status=1, out="Not decided: 1 LIMIT, 94 TRUE of 95 checks.\n")
    status, out, error = run(files, "--schema", "a.exp", "l.step")
    expect((status, error), (1, b""))
    expect((out[out.index(b"LIMIT"):out.index(b"TRUE     where PRODUCT_DEFINITION ")],), (b"""LIMIT    where PRODUCT_CATEGORY WR1
         wr1 : depth <= deepest_category
         not decided within the limit of steps: 2
           l.step line 9: #10=PRODUCT_CATEGORY
           l.step line 10: #20=PRODUCT_CATEGORY
""",))


def test_not_run_alone():
    """Each evaluation takes 4 * 49000 + 10 steps, so that the 103rd isn't begun."""
    files = {"s.exp": STEPS, "a.step": lines_of("steps", *(f"#{k}=E(49000);" for k in range(1, 106)))}
    told(files, "--schema", "s.exp", "a.step", status=1, out="""a.step: 105 instances of STEPS

TRUE     unset
TRUE     bounds
TRUE     reference
NOT_RUN  where E W
         w : f(n)
         not begun for want of steps: 3
           a.step line 103: #103=E
           a.step line 104: #104=E
           a.step line 105: #105=E

Not decided: 1 NOT_RUN, 3 TRUE of 4 checks.
""")


def test_limits():
    """Derived attributes that ask for each other come to the limit, and so does a rule that takes a step more than there may be."""
    files = {"n.exp": ENDLESS, "n.step": file_of("#1=E();", "N")}
    report = report_is(200_000, *ATTRIBUTES_HOLD, check_is("where", "E", "W", limit=[["me", "01", 1]]))
    told(files, "--schema", "n.exp", "--json", "n.step", status=1, out=report.decode() + "\n")
    told(files, "--schema", "n.exp", "--quiet", "n.step", status=1, out="Not decided: 1 LIMIT, 3 TRUE of 4 checks.\n")
    # (R1 takes 5 steps and 3 for each instance, and R2 one more)
    for count, steps, limited, words in ((66_665, 400_000, True, "Not decided: 1 LIMIT, 4 TRUE of 5 checks.\n"),
                                         (66_664, 2 * (5 + 3 * 66_664) + 1, False, "Kept: all 5 checks are TRUE.\n")):
        files = {"l.exp": L, "l.step": file_of("".join(f"#{k}=E();" for k in range(1, count + 1)), "L")}
        rules = [check_is("rule", "R1", "#1"), check_is("rule", "R2", "#1")]
        if limited:
            rules[1] = rules[1].replace(b'"verdict":"TRUE"', b'"verdict":"LIMIT"')
        told(files, "--schema", "l.exp", "--json", "l.step", status=int(limited), out=report_is(steps, *ATTRIBUTES_HOLD, *rules).decode() + "\n")
        told(files, "--schema", "l.exp", "--quiet", "l.step", status=int(limited), out=words)


# ---- the line of JSON

def test_json_of_each_broken_file():
    """It is the report that was worked out by hand, but for the names of owner and model, and the line that `batch` answers; and the
    text for people tells the same culprits."""
    schema = text_of("example/assembly/assembly.exp")
    for file in sorted(os.listdir(os.path.join(ASSEMBLY, "broken"))):
        name = os.path.splitext(file)[0]
        text = text_of("example/assembly/broken", file)
        report = text_of("example/assembly/reports", f"{name}.json").replace(f'["ann","{name}",', '["me","01",')
        status = 0 if name == "unknown" else 1
        files = {"a.exp": schema, file: text}
        told(files, "--schema", "a.exp", "--json", file, status=status, out=report)
        expect((batch_line({"a.exp": schema}, "MECHANICAL_ASSEMBLY", [text]),), (report.encode(),))
        read_back(files, file, status, json.loads(report)["ok"]["checks"])


HEADINGS = {"violated": "false", "can't be told": "unknown", "not decided within the limit of steps": "limit",
            "not begun for want of steps": "not_run"}


def read_back(files, file, status, checks):
    """The text for people tells these checks."""
    seen_status, out, error = run(files, "--schema", "a.exp", file)
    expect((seen_status, error), (status, b""))
    rows = {int(found[1]): number for number, text in enumerate(files[file].split("\n"), 1) for found in re.finditer(r"^#(\d+)=", text)}
    seen, key = [], None
    for text in out.decode().splitlines()[2:-2]:
        head = re.fullmatch(r"(TRUE|FALSE|UNKNOWN|LIMIT|NOT_RUN) +(\w+)(?: (\w+) ([#\w]+))?", text)
        culprit = re.fullmatch(r" {11}(\S+) line (\d+): #(\d+)=\w+(?:, (\w+\.\w+))?", text)
        heading = re.fullmatch(r" {9}([^:]+): \d+", text)
        if head:
            names = {"of": head[3], "rule": head[4]} if head[3] else {}
            seen.append({"check": head[2], "verdict": head[1], **names})
        elif culprit:
            if culprit[1] != file or rows[int(culprit[3])] != int(culprit[2]):
                raise Wrong(f"{text!r} isn't where the instance is")
            seen[-1].setdefault(key, []).append(["me", "01", int(culprit[3]), *filter(None, [culprit[4]])])
        elif heading and heading[1] in HEADINGS:
            key = HEADINGS[heading[1]]
    if seen != checks:
        raise Wrong(f"{[it for it in seen if it not in checks]} in place of {[it for it in checks if it not in seen]}")


def test_json_of_several_files():
    """The models are named by the files' places, of which ten and more have two digits too."""
    files = {f"{k}.step": lines_of("forms", f"#1=S({k},1);") for k in range(1, 13)}
    wanted = batch_line({"f.exp": FORMS}, "FORMS", list(files.values()))
    if b'["me","12",1]' not in wanted:
        raise Wrong(f"{wanted} has no model 12")
    told({"f.exp": FORMS, **files}, "--schema", "f.exp", "--json", *files, status=1, out=wanted.decode())


def test_json_of_refused_files():
    """It is the reply to the put that was refused, and one line on standard error tells the file."""
    good, bad = file_of("#1=P(1.,$);"), file_of("#1=P(.5);")
    told({"t.exp": T, "a.step": good, "b.step": bad}, "--schema", "t.exp", "--json", "a.step", "b.step", status=2,
         out=batch_line({"t.exp": T}, "T", [good, bad]).decode(),
         error=b'rp_server: "b.step" is refused: code 11 FileFault, kind Token, line 1 column 122\n')


# ---- the schema that is taken

def test_which_schema():
    """It is that of the first file, in either case, and the first one where the file names none of them; all files are of it."""
    empty = file_of("", "empty {1 0}")
    files = {"t.exp": T, "e.exp": "SCHEMA empty; END_SCHEMA;", "t.step": file_of(""), "e.step": empty, "x.step": file_of("", "X")}
    words = ["--schema", "t.exp", "--schema", "e.exp"]
    told(files, *words, "e.step", out="""e.step: 0 instances of EMPTY

TRUE     unset
TRUE     bounds
TRUE     reference

Kept: all 3 checks are TRUE.
""")
    told(files, *words, "--quiet", "t.step", out="Kept: all 5 checks are TRUE.\n")
    refuses(files, *words, "x.step", error='"x.step" is refused: code 9 WrongSchema',
            out="x.step: code 9 WrongSchema\n\nNot taken: x.step is refused, so nothing is validated.\n")
    refuses(files, *words, "e.step", "t.step", error='"t.step" is refused: code 9 WrongSchema',
            out="e.step: 0 instances of EMPTY\nt.step: code 9 WrongSchema\n\nNot taken: t.step is refused, so nothing is validated.\n")


def test_a_byte_order_mark():
    """It is skipped in front of a file, also where the schema is looked for."""
    told({"t.exp": "SCHEMA other; END_SCHEMA;", "u.exp": T, "a.step": b"\xef\xbb\xbf" + file_of("").encode()},
         "--schema", "t.exp", "--schema", "u.exp", "--quiet", "a.step", out="Kept: all 5 checks are TRUE.\n")


# ---- what isn't taken

def test_refused_files():
    """The fault is told as the reply has it, a byte by its line and column; what comes behind isn't read."""
    for file, words, lines in (
            (file_of("#1=P(1.,$);\n#2=Q(#9);\n"), "code 12 InstanceFault, kind Undefined, instance #2, line 2 column 6",
             "  #2=Q(#9);\n       ^\n  attribute 1, a: P\n  #9 is no instance of this file\n"),
            (file_of("#1=P(1.,$);\n  #2=Q(.5);\n"), "code 11 FileFault, kind Token, line 2 column 8",
             "    #2=Q(.5);\n         ^\n  no token begins here\n"),
            ("", "code 11 FileFault, kind Syntax, line 1 column 1", "\n  ^\n  the file ends here\n"),
            (file_of("", "X"), "code 9 WrongSchema", ""),
            (b" " * (FILE_LIMIT + 1), "code 2 TooLarge, it is over 8 MiB", ""),
            (file_of("").encode() + b"/*\xff*/", "code 1 BadRequest, it isn't UTF-8", "")):
        refuses({"t.exp": T, "a.step": file_of(""), "b.step": file}, "--schema", "t.exp", "a.step", "b.step", "z.step",
                out=f"a.step: 0 instances of T\nb.step: {words}\n{lines}\nNot taken: b.step is refused, so nothing is validated.\n",
                error=f'"b.step" is refused: {words}')
        refuses({"t.exp": T, "b.step": file}, "--schema", "t.exp", "--quiet", "b.step",
                out="Not taken: b.step is refused, so nothing is validated.\n", error=f'"b.step" is refused: {words}')


def test_files_that_are_none():
    """One that is absent, and a folder."""
    files = {"t.exp": T, "a.step": file_of(""), "sub/b.step": ""}
    refuses(files, "--schema", "t.exp", "a.step", "b.step", error='"b.step" can\'t be read: there is no such file')
    refuses(files, "--schema", "t.exp", "sub", error='"sub" can\'t be read: it is a folder')
    refuses(files, "--schema", "t.exp", "--json", "a.step", "sub", error='"sub" can\'t be read: it is a folder')


def test_schemas_that_are_none():
    """They are looked at in their order, and before any file."""
    files = {"t.exp": T, "n.exp": "SCHEMA n; x", "u.exp": "schema t; END_SCHEMA;"}
    refuses(files, "--schema", "t.exp", "--schema", "n.exp", "--schema", "z.exp", "z.step", error='"n.exp" is no schema: Syntax line 1 column 11')
    refuses(files, "--schema", "z.exp", "--schema", "n.exp", "z.step", error='"z.exp" can\'t be read: there is no such file')
    refuses(files, "--schema", "t.exp", "--schema", "u.exp", "z.step", error='two schemas have one name: "T", of "t.exp" and "u.exp"')


def test_command_lines():
    """No file, over 50, no schema, and options that go without each other."""
    usage = " (rp_server --help tells what to type)\n"
    files = {"t.exp": T, "a.step": file_of("")}
    for words in (["--schema", "t.exp"], ["a.step"], [], ["--schema", "t.exp", *["a.step"] * 51], ["--schema", "a.step"],
                  ["--schema", "t.exp", "--json", "--quiet", "a.step"], ["--schema", "t.exp", "--json", "--all", "a.step"],
                  ["--schema", "t.exp", "--quiet", "--all", "a.step"], ["--schema", "t.exp", "--nothing", "a.step"]):
        status, out, error = run(files, *words)
        if (status, out) != (2, b"") or error.count(b"\n") != 1 or not error.endswith(usage.encode()):
            raise Wrong(f"{words}: {status}, {out}, {error}")
    told(files, "--schema", "t.exp", "--quiet", *["a.step"] * 50, out="Kept: all 5 checks are TRUE.\n")


def test_output_that_cannot_be_written():
    """Status 2 and one line."""
    with Folder() as folder, open("/dev/full", "wb") as full:
        folder.write("t.exp", T)
        folder.write("a.step", file_of(""))
        for words in ([], ["--json"], ["--quiet"]):
            status, _, error = folder.run("validate", "--schema", "t.exp", *words, "a.step", stdout=full)
            expect((status, error), (2, b"rp_server: standard output can't be written\n"))


# ---- a terminal

def on_terminal(folder, *words):
    """The status, what stands on standard output, and what a terminal as standard error was sent."""
    near, far = pty.openpty()
    try:
        status, out, _ = folder.run("validate", *words, stderr=far)
        os.close(far)
        sent = b""
        while True:
            try:
                piece = os.read(near, 65536)
            except OSError:
                piece = b""
            if not piece:
                return status, out, sent
            sent += piece
    finally:
        os.close(near)


def told_at_once(folder, *words):
    """The same of a run that took less than a second. (On a busy machine a run may stand still for longer.)"""
    for _ in range(60):
        begin = time.monotonic()
        seen = on_terminal(folder, *words)
        if time.monotonic() - begin < 1:
            return seen
    raise Wrong("each run takes a second")


def write_late(path, text):
    """Gives a pipe its bytes after a second and a half."""
    time.sleep(1.5)
    with open(path, "wb") as it:
        it.write(text.encode())


def test_progress():
    """Within a second a terminal is sent nothing; later one line, which is taken away at the end."""
    with Folder() as folder:
        folder.write("t.exp", T)
        folder.write("b.step", file_of(""))
        words = ("--schema", "t.exp", "--quiet")
        expect(told_at_once(folder, *words, "b.step"), (0, b"Kept: all 5 checks are TRUE.\n", b""))
        os.mkfifo(folder.path("a.step"))
        late = threading.Thread(target=write_late, args=(folder.path("a.step"), file_of("")), daemon=True)
        late.start()
        told_late = on_terminal(folder, *words, "a.step", "b.step", "b.step")
        late.join(10)
        expect(told_late, (0, b"Kept: all 5 checks are TRUE.\n", b"\rfile 2 of 3\rfile 3 of 3\rthe rules are tried\r" + b" " * 22 + b"\r"))


if __name__ == "__main__":
    run_tests("delivery", globals(), sys.argv[1:])
