#!/usr/bin/env python3
"""Refuses each allocation of a run in turn, and compares what the program writes with what it must be.

    tools/each_refusal.py [PROGRAM [LINES ..]]

For each file of request lines (else those of tools/lines) the program runs once for each of its
allocations with that one refused, and once with that one and all later ones refused, by refuse.c: these runs
are forks of runs that wait at their start. A reply
has to be NoMemory or the exact one for the content so far, which tests/lib/plain_model.py gives. A request that
was answered NoMemory has changed nothing, so what follows is answered accordingly. The program may end with
status 2 and no output only where the allocation was one of those that it makes before it first reads its
input. It is a failure too if a run that refuses nothing has a NoMemory, if a run has more of them than
refusals, or if nothing was refused.

Of a check of a schema's file, and of files that are validated, the program writes what it writes with ample memory, or ends with
status 2, one line on standard error and no output; or it writes with `--json` that memory is wanting. Where a page is wanted too,
memory may be wanting for this alone: then the output is there.
"""
import collections
import concurrent.futures
import json
import os
import subprocess
import sys
import tempfile

TOOLS = os.path.dirname(os.path.abspath(__file__))
TOP = os.path.dirname(TOOLS)
sys.dont_write_bytecode = True
sys.path.insert(0, os.path.join(TOP, "tests"))
from lib.harness import Folder, Wrong  # noqa: E402
from lib.plain_binding import Aggregate, Entity, Enumeration, Schema, Select, express  # noqa: E402
from lib.plain_files import read, read_mapping  # noqa: E402
from lib.plain_model import FileFault, Repository  # noqa: E402
from lib.refusing import ALONE, ONWARDS, WHOLE  # noqa: E402
from lib.refusing import Run as Forked  # noqa: E402
from lib.rule_texts import binding_schema, tree_of  # noqa: E402
from lib.shims import shim_in  # noqa: E402

PROGRAM = os.path.join(TOP, "crates/rp_server/out/rp_server")
LINES = os.path.join(TOOLS, "lines")

PARTNERS = ["ann", "bob"]
SCHEMAS = {
    "t.exp": Schema("T", {"len": "REAL", "colour": Enumeration(["red"]), "any": Select(["len", "p"])}, {
        "p": Entity({"x": "REAL", "n": "STRING"}, optional=["n"]),
        "q": Entity({"a": "p"}),
        "r": Entity({"many": Aggregate("LIST [0:?]", "any"), "b": "BINARY", "c": "colour"}),
        "u": Entity({"f": "REAL"}),
        "v": Entity(supertypes=["u"]),
        "w": Entity(supertypes=["u"], derived={("u", "f"): "1.0"}),
    }),
    "l.exp": Schema("L", {}, {}),
}
# A schema whose rules ask derived attributes, which a validation remembers.
DERIVED = """SCHEMA v; ENTITY e; nx : OPTIONAL e; DERIVE d : INTEGER := NVL(nx.d, 0) + 1; t : STRING := 'x' + 'y'; l : LIST OF INTEGER := [d, d];
WHERE low : d < 3; same : t = 'xy'; twice : SIZEOF(l) = 2; END_ENTITY; END_SCHEMA;
"""
# The schemas of a file of lines, where they are others, and their texts by name.
OTHER_SCHEMAS = {"derived.jsonl": ({"v.exp": binding_schema(tree_of(DERIVED))}, {"V": DERIVED})}
NO_MEMORY = b'{"refused":{"code":18,"name":"NoMemory"}}'

# A schema's text, and the status and the line of a check of it.
SCHEMA = """SCHEMA c;
CONSTANT k : INTEGER := -1; END_CONSTANT;
TYPE s = SELECT (e, f); END_TYPE;
ENTITY e SUPERTYPE OF (ONEOF (f, g) ANDOR h); a, b : LIST [0:?] OF UNIQUE STRING (5) FIXED;
DERIVE d : REAL := -1.5; INVERSE i : SET OF f FOR x; UNIQUE u : a, b;
WHERE w : SIZEOF(QUERY(q <* a | {'1' < q[1] <= "00000041"})) = NVL(k, ?); v : 'C.S' IN TYPEOF(SELF); END_ENTITY;
FUNCTION n (p : INTEGER; q : GENERIC) : INTEGER; LOCAL l : INTEGER := 1; m : BINARY := %01; o : LIST OF INTEGER := [1, 2] + 3; END_LOCAL;
REPEAT i := 1 TO 2 BY 3 WHILE TRUE UNTIL FALSE; CASE p OF 1, 2 : SKIP; OTHERWISE : BEGIN ; END; END_CASE; END_REPEAT;
IF NOT ODD(p) THEN l := n(p, q); ELSE RETURN (l + o[1]); END_IF; END_FUNCTION;
RULE r FOR (e); WHERE SIZEOF(e) = n(k, t.y); END_RULE; TYPE t = ENUMERATION OF (y, z); WHERE SELF <> z; END_TYPE;
ENTITY f SUBTYPE OF (e); x : s; SELF\\e.a : LIST OF STRING; WHERE x\\f.x :=: x; SIZEOF(x.a) > 0; END_ENTITY; ENTITY h SUBTYPE OF (e); END_ENTITY;
ENTITY g SUBTYPE OF (e); UNIQUE SELF\\e.b; WHERE EXISTS(SELF\\e.a); END_ENTITY;
"""
WARNING = SCHEMA.index("'C.S'")
QUOTIENT = "RULE z FOR (e); WHERE 1 / 2 = 1; END_RULE; END_SCHEMA;\n"
CHECKS = {
    "schema.exp": (SCHEMA + "END_SCHEMA;\n", 0, b"C: ok\nwarning SelectInTypeof line 6 column 79\n"),
    "quotient.exp": (SCHEMA + QUOTIENT, 1, b"RealArithmetic line 13 column 25\n"),
    "twice.exp": (SCHEMA + "TYPE e = undeclared; END_TYPE; END_SCHEMA;\n", 1, b"DeclaredTwice line 13 column 6\n"),
    "broken.exp": (SCHEMA + "END;\n", 1, b"Syntax line 13 column 1\n"),
    "token.exp": (SCHEMA + "!\n", 1, b"Token line 13 column 1\n"),
}

# A file of the schema T with these instances.
DELIVERED = "ISO-10303-21;HEADER;FILE_DESCRIPTION((''),'2;1');FILE_NAME('','',(''),(''),'','','');FILE_SCHEMA(('T'));ENDSEC;DATA;%sENDSEC;END-ISO-10303-21;"

# Other runs over a file that is written: the words, which end with its name, its text, and the status, the output and the errors.
ENTITY = "SCHEMA c; ENTITY e; END_ENTITY; TYPE s = SELECT (e); END_TYPE;\n"
RUNS = [
    *((("check", name), text, status, line, b"") for name, (text, status, line) in CHECKS.items()),
    (("check", "--explain", "explained.exp"), ENTITY + "RULE r FOR (e); WHERE 'C.S' = ''; END_RULE; END_SCHEMA;\n", 0,
     b"C: ok\nwarning SelectInTypeof line 2 column 23\nRULE r FOR (e); WHERE 'C.S' = ''; END_RULE; END_SCHEMA;\n" + b" " * 22 + b"^\n", b""),
    (("check", "--explain", "unexplained.exp"), ENTITY + "END;\n", 1, b"Syntax line 2 column 1\nEND;\n^\n", b""),
    (("batch", "--config", "wrong.json"), '{"partners":[],"schema":[]}', 2, b"",
     b'rp_server: "wrong.json" is no configuration: line 1 column 16: "schema" is no key here (rp_server batch --help shows one)\n'),
    (("batch", "--config", "absent.json"), '{"partners":[],"schemas":["l.exp","absent.exp"]}', 2, b"",
     b'rp_server: "absent.exp" can\'t be read: there is no such file\n'),
    (("batch", "--config", "partners.json"), '{"partners":[{"name":"ann","token":"a"},{"name":"ann","token":"b"}],"schemas":[]}', 2, b"",
     b'rp_server: two partners have one name: "ann"\n'),
    (("batch", "--config", "schemas.json"), '{"partners":[],"schemas":["l.exp","l.exp"]}', 2, b"",
     b'rp_server: two schemas have one name: "L", of "l.exp" and "l.exp"\n'),
    (("check", "part.step"), "ISO-10303-21;\n", 1, b"Syntax line 1 column 1\n", b'rp_server: "part.step" is no schema: it is an exchange file (ISO 10303-21)\n'),
    (("validate", "--schema", "t.exp", "unset.step"), DELIVERED % "#1=P($,'a');#2=Q(#1);", 1, b"""unset.step: 2 instances of T

FALSE    unset
         violated: 1
           unset.step line 1: #1=P, P.X
TRUE     bounds
TRUE     reference

Violated: 1 FALSE, 2 TRUE of 3 checks.
""", b""),
    (("validate", "--schema", "t.exp", "--html", "/dev/null", "--quiet", "page.step"), DELIVERED % "#1=P($,'<a>');#2=Q(#1);#3=P($,'b');", 1,
     b"Violated: 1 FALSE, 2 TRUE of 3 checks.\n", b""),
    (("validate", "--schema", "t.exp", "--html", "/dev/null", "page_of_torn.step"), DELIVERED % "\n#2=Q(#1);\n", 2,
     b"""page_of_torn.step: code 12 InstanceFault, kind Undefined, instance #2, line 2 column 6
  #2=Q(#1);
       ^
  attribute 1, a: P
  #1 is no instance of this file

Not taken: page_of_torn.step is refused, so nothing is validated.
""", b'rp_server: "page_of_torn.step" is refused: code 12 InstanceFault, kind Undefined, instance #2, line 2 column 6\n'),
    (("validate", "--schema", "t.exp", "--json", "torn.step"), DELIVERED % "#2=Q(#1);", 2,
     b'{"refused":{"code":12,"instance":2,"kind":"Undefined","name":"InstanceFault"}}\n',
     b'rp_server: "torn.step" is refused: code 12 InstanceFault, kind Undefined, instance #2, line 1 column 122\n'),
]

# Texts that the lines ask to check, with what is told of them.
TEXTS = {
    SCHEMA + "END_SCHEMA;\n": {"schema": "C", "warnings": [{"at": WARNING, "kind": "SelectInTypeof"}]},
    SCHEMA + QUOTIENT: {"fault": {"at": len(SCHEMA) + 24, "kind": "RealArithmetic"}},
    SCHEMA + "TYPE e = undeclared; END_TYPE; END_SCHEMA;\n": {"fault": {"at": len(SCHEMA) + 5, "kind": "DeclaredTwice"}},
    "SCHEMA A; ENTITY e; a : ; END_ENTITY; END_SCHEMA;": {"fault": {"at": 24, "kind": "Syntax"}},
    "SCHEMA A; 'open": {"fault": {"at": 10, "kind": "OpenString"}},
}


# ---- what the lines' files say

# Files that aren't Part 21, with the kind and the place of their fault.
FILE_FAULTS = {
    "ISO-10303-2": FileFault("Token", 0),
    "ISO-10303-21;HEADER;FILE_DESC": FileFault("Syntax", 20),
    "ISO-10303-21;HEADER;FILE_DESCRIPTION": FileFault("Syntax", 36),
}

# The same of texts of one instance.
MAPPING_FAULTS = {"P(1.,'a'": FileFault("Syntax", 8)}


def file_of(text):
    """What a file of the lines says."""
    return FILE_FAULTS.get(text) or read(text)


def mapping_of(text):
    """What a text of one instance says."""
    return MAPPING_FAULTS.get(text) or read_mapping(text)


def schemas_of(name):
    """The schemas of a file of lines, by the names of their files, and the texts of those that have rules."""
    return OTHER_SCHEMAS.get(name, (SCHEMAS, {}))


def check_replies(name, lines, replies):
    """Each reply to the lines of the file of this name is NoMemory or the exact one. Answers how many are NoMemory."""
    if len(replies) != len(lines):
        raise Wrong(f"{len(lines)} lines got {len(replies)} replies")
    schemas, texts = schemas_of(name)
    repository = Repository(PARTNERS, schemas.values(), file_of, mapping_of, TEXTS.__getitem__, texts)
    count = 0
    for place, (line, reply) in enumerate(zip(lines, replies), 1):
        if reply == NO_MEMORY:
            count += 1
            continue
        wanted, change = repository.step(line)
        if reply != wanted:
            raise Wrong(f"line {place} got {reply!r} in place of {wanted!r} or NoMemory")
        if change:
            change()
    return count


# ---- the runs

Run = collections.namedtuple("Run", "status output errors allocations before_input refusals asked")


BATCH = ("batch", "--config", "config.json")


def run(program, folder, lines, command=BATCH, **refusal):
    """One run of the program, in which these allocations are refused. Its input is a file, so that reads cut it at the same bytes
    each time."""
    begin, end = os.pipe()
    words = {"LD_PRELOAD": os.path.join(folder, "refuse.so"), "REFUSE_REPORT": str(end), **refusal}
    try:
        with tempfile.TemporaryFile() as given:
            given.write(b"\n".join(lines) + b"\n")
            given.seek(0)
            done = subprocess.run([program, *command], stdin=given, capture_output=True, cwd=folder, env=words, pass_fds=[end],
                                  timeout=120, check=False)
    finally:
        os.close(end)
    with os.fdopen(begin, "rb") as it:
        report = it.read().split()
    if len(report) != 4:
        raise Wrong(f"status {done.returncode}: the program did not end by itself, or refuse.c was not loaded")
    return Run(done.returncode, done.stdout, done.stderr, *map(int, report))


def forks(folder, lines, command, count):
    """The results of all runs with a refusal: each of so many allocations is refused, alone and with all later ones. Yields each with the
    name of the refusal and the number of the allocation."""
    turns = [(key, refusal, place) for key, refusal in (("REFUSE_NTH", ALONE), ("REFUSE_FROM", ONWARDS)) for place in range(1, count + 1)]
    workers = min(os.cpu_count() or 1, len(turns))

    def some(first):
        with Forked(folder, command) as waiting:
            return [(key, place, waiting.case(lines, WHOLE, refusal, place)) for key, refusal, place in turns[first::workers]]

    with concurrent.futures.ThreadPoolExecutor(workers) as pool:
        for found in pool.map(some, range(workers)):
            yield from found


def outcome_of(result, name, lines, is_early):
    """What a run with a refusal came to, in words. Wrong if it is nothing that may be."""
    if result.refusals == 0:
        raise Wrong("nothing was refused")
    if result.status == 2 and not result.output and is_early:
        if result.errors.count(b"\n") != 1:
            raise Wrong(f"status 2 with {result.errors!r} on standard error, which isn't one line")
        return "status 2 before the first line"
    if result.status != 0 or result.errors:
        raise Wrong(f"status {result.status}, {result.errors!r} on standard error")
    count = check_replies(name, lines, result.output.split(b"\n")[:-1])
    if count > result.refusals:
        raise Wrong(f"{count} NoMemory replies and {result.refusals} refusals")
    return f"{count} of {len(lines)} replies NoMemory"


def refuse_each(program, folder, name, lines):
    """Refuses each allocation of a run over the lines of the file of this name in turn. Answers how often each outcome was seen."""
    whole = run(program, folder, lines)
    if whole.status != 0 or whole.errors:
        raise Wrong(f"with no refusal: status {whole.status}, {whole.errors!r} on standard error")
    if check_replies(name, lines, whole.output.split(b"\n")[:-1]) != 0:
        raise Wrong("a NoMemory where nothing was refused")
    if whole.before_input < 0 or whole.allocations <= whole.before_input:
        raise Wrong("no allocation was seen after the input was first read")
    seen, known = collections.Counter(), {}
    for key, place, result in forks(folder, lines, BATCH, whole.allocations):
        # (most runs end as another one)
        mark = (*result[:3], result.refusals, place <= whole.before_input)
        try:
            known[mark] = known.get(mark) or outcome_of(result, name, lines, mark[-1])
        except Wrong as fault:
            raise Wrong(f"{key}={place} of {whole.allocations}: {fault}") from fault
        seen[key, known[mark]] += 1
    if not any(not outcome.startswith(("0 ", "status")) for _, outcome in seen):
        raise Wrong("no refusal led to a NoMemory")
    return whole, seen


def refuse_check(program, folder, command, *wanted):
    """Refuses each allocation of a run that reads no line in turn. Answers how often each outcome was seen."""
    whole = run(program, folder, [], command)
    if (whole.status, whole.output, whole.errors) != wanted:
        raise Wrong(f"with no refusal: status {whole.status}, {whole.output!r} and {whole.errors!r}")
    told = [b"", *([NO_MEMORY + b"\n"] if "--json" in command else []), *([whole.output] if "--html" in command else [])]

    seen = collections.Counter()
    for key, place, result in forks(folder, [], command, whole.allocations):
        if result.refusals == 0:
            raise Wrong(f"{key}={place} of {whole.allocations}: nothing was refused")
        is_same = result[:3] == wanted
        if not is_same and (result.status != 2 or result.output not in told or result.errors.count(b"\n") != 1):
            raise Wrong(f"{key}={place} of {whole.allocations}: status {result.status}, {result.output!r}, {result.errors!r}")
        seen[key, "the same line" if is_same else "status 2"] += 1
    if not any(outcome == "status 2" for _, outcome in seen):
        raise Wrong("no refusal had an effect")
    return whole, seen


def tell(name, whole, seen):
    early = f", {whole.before_input} of them before the input is read" if whole.before_input >= 0 else ""
    print(f"each_refusal: {name}: {whole.allocations} allocations{early}")
    for (key, outcome), count in sorted(seen.items()):
        print(f"    {key}: {outcome}: {count} runs")


def write_schemas(folder, name):
    """Writes the schemas of a file of lines, and a configuration that has them."""
    schemas, texts = schemas_of(name)
    for file, schema in schemas.items():
        with open(os.path.join(folder, file), "w", encoding="ascii") as it:
            it.write(texts.get(schema.name.upper()) or express(schema))
    with open(os.path.join(folder, "config.json"), "w", encoding="ascii") as it:
        json.dump({"partners": [{"name": name, "token": name} for name in PARTNERS], "schemas": list(schemas)}, it)


def main(words):
    program = os.path.abspath(words[0] if words else PROGRAM)
    files = words[1:] or [os.path.join(LINES, name) for name in sorted(os.listdir(LINES))]
    if not os.access(program, os.X_OK):
        sys.exit(f"each_refusal: there is no program {program}: run rt ci first, or name it")
    if not files:
        sys.exit("each_refusal: there are no lines to run")
    failed = 0
    Folder.program = program
    with tempfile.TemporaryDirectory() as folder:
        shim_in(folder)
        for file in files:
            name = os.path.basename(file)
            write_schemas(folder, name)
            with open(file, "rb") as it:
                lines = it.read().splitlines()
            try:
                whole, seen = refuse_each(program, folder, name, lines)
            except Wrong as fault:
                print(f"each_refusal: {name}: FAILED: {fault}")
                failed += 1
                continue
            tell(name, whole, seen)
        write_schemas(folder, None)
        for command, text, *wanted in RUNS:
            name = command[-1]
            with open(os.path.join(folder, name), "w", encoding="ascii") as it:
                it.write(text)
            try:
                tell(name, *refuse_check(program, folder, command, *wanted))
            except Wrong as fault:
                print(f"each_refusal: {name}: FAILED: {fault}")
                failed += 1
    sys.exit(1 if failed else 0)


if __name__ == "__main__":
    main(sys.argv[1:])
