#!/usr/bin/env python3
"""Measures validations whose rules ask derived attributes, each population in a process of its own.

    bench/derived.py [--quick] [PROGRAM [BEFORE]]

A row has what a processor takes from the request to its reply, and the most memory beside what was held before the request. With a
second program, as one of a commit before, each row has the same of that, and the parts that the first takes of it. With --quick all
numbers are a tenth. All replies are compared: with what is counted here, and of two programs with each other.
"""
import itertools
import os
import sys
import tempfile

from harness import MIB, PROGRAM, Folder, Table
from validate import Taken, file_of

MOST_BEGUN = 19_800_000
CHAINS = "SCHEMA H; ENTITY e; nx : OPTIONAL e; DERIVE d : INTEGER := NVL(nx.d, 0); WHERE w : d = 0; END_ENTITY; END_SCHEMA;"
CURVES = ("SCHEMA C; ENTITY p; x : REAL; END_ENTITY; ENTITY c; pts : LIST [2:?] OF p; DERIVE arr : LIST [0:?] OF p := copied(pts); "
          "WHERE " + " ".join(f"w{k} : SIZEOF(QUERY(q <* arr | q.x > {k}.)) >= 0;" for k in range(5))
          + " END_ENTITY; FUNCTION copied(l : LIST [0:?] OF p) : LIST [0:?] OF p; LOCAL r : LIST [0:?] OF p := []; END_LOCAL; "
          "REPEAT i := 1 TO SIZEOF(l); r := r + l[i]; END_REPEAT; RETURN (r); END_FUNCTION; END_SCHEMA;")
UNITS = ("SCHEMA U; ENTITY u; e : LIST [0:?] OF INTEGER; DERIVE d : LIST [0:?] OF INTEGER := [1, 2, 3, 4, 5, 6, 7]; END_ENTITY; ENTITY m; of_unit : u; "
         "v : REAL; WHERE w : SIZEOF(of_unit.d) = 7; END_ENTITY; END_SCHEMA;")
SIX = ("SCHEMA X; ENTITY e; a : INTEGER; DERIVE " + " ".join(f"d{k} : INTEGER := a + {k};" for k in range(6))
       + " WHERE " + " ".join(f"w{k} : d{k} = a + {k};" for k in range(6)) + " END_ENTITY; END_SCHEMA;")
SLICES = "SCHEMA S; ENTITY t; s : STRING; DERIVE d : STRING := s[2:4000000]; WHERE w : LENGTH(d) >= 0; END_ENTITY; ENTITY r; of_text : t; WHERE v : LENGTH(of_text.d) >= 0; END_ENTITY; END_SCHEMA;"


def chain(first, length, backwards):
    """The instances of a chain, each of which leads to the one before it, or after it."""
    names = range(first, first + length)
    if backwards:
        return "".join(f"#{k}=E({'$' if k == names[-1] else f'#{k + 1}'});\n" for k in names)
    return "".join(f"#{k}=E({'$' if k == first else f'#{k - 1}'});\n" for k in names)


def chains(count, length, backwards=False):
    return file_of("H", "".join(chain(1 + place * length, length, backwards) for place in range(count)))


def curves(count, points):
    lines, name = [], 1
    for _ in range(count):
        lines += [f"#{name + k}=P({k}.);\n" for k in range(points)]
        lines.append(f"#{name + points}=C(({','.join(f'#{name + k}' for k in range(points))}));\n")
        name += points + 1
    return file_of("C", "".join(lines))


def units(count, measures):
    lines = [f"#{k}=U(({k}));\n" for k in range(1, count + 1)]
    lines += [f"#{count + k}=M(#{k % count + 1},{k}.);\n" for k in range(1, measures + 1)]
    return file_of("U", "".join(lines))


def six(count):
    return file_of("X", "".join(f"#{k}=E({k % 1000});\n" for k in range(1, count + 1)))


def slices(count, length):
    return file_of("S", f"#1=T('{'x' * length}');\n" + "".join(f"#{k}=R(#1);\n" for k in range(2, count + 2)))


def rows(share):
    """Each row's name, schema and file, and its steps where they are counted here."""
    def of_chains(count, length, backwards=False):
        # (no evaluation is begun once 19,800,000 steps are used)
        used = 0
        for _, place in itertools.product(range(count), range(length)):
            used += (3 + 4 * (length - place if backwards else place + 1)) * (used <= MOST_BEGUN)
        return used

    yield "245 chains of 200", CHAINS, chains(245 // share, 200), of_chains(245 // share, 200)
    yield "245 chains of 200, backwards", CHAINS, chains(245 // share, 200, True), of_chains(245 // share, 200, True)
    yield "490 chains of 100", CHAINS, chains(490 // share, 100), of_chains(490 // share, 100)
    yield "490 chains of 100, backwards", CHAINS, chains(490 // share, 100, True), of_chains(490 // share, 100, True)
    yield "1,000 curves of 50 points", CURVES, curves(1000 // share, 50), None
    yield "200 units under 190,000 measures", UNITS, units(200 // share, 190_000 // share), None
    yield "2,000 units under 190,000 measures", UNITS, units(2000 // share, 190_000 // share), None
    yield "six attributes of 190,000 instances", SIX, six(190_000 // share), None
    yield "500 slices of 4 MB", SLICES, slices(500 // share, 4_000_000 // share), None


def measure(programs, share):
    two = len(programs) == 2
    columns = {"derived attributes": "36", "steps": "12,", "seconds": "8.3f", "MiB": "7.1f"}
    if two:
        columns |= {"before, s": "10.3f", "before, MiB": "12.1f", "part": "6.2f"}
    table = Table(columns)
    for name, schema, text, steps in rows(share):
        taken = []
        for program in programs:
            with tempfile.TemporaryDirectory() as path:
                taken.append(Taken(Folder(os.path.abspath(program), path), schema.split()[1].rstrip(";"), schema, [text]))
        now = taken[0]
        if steps is not None and now.steps() != steps:
            sys.exit(f"bench: {name}: {now.steps()} steps in place of {steps}")
        if two and now.reply != taken[1].reply:
            sys.exit(f"bench: {name}: the programs tell different reports")
        row = [name, now.steps(), now.busy, (now.memory - now.before) / MIB]
        if two:
            then = taken[1]
            row += [then.busy, (then.memory - then.before) / MIB, now.busy / max(then.busy, 1e-6)]
        table.row(*row)


if __name__ == "__main__":
    words = sys.argv[1:]
    share = 10 if "--quick" in words else 1
    measure([it for it in words if it != "--quick"] or [PROGRAM], share)
