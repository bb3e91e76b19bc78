#!/usr/bin/env python3
"""Measures how the time of `rp_server check` grows with a schema's length where its types are the work.

    bench/kinds.py [PROGRAM]

The schemas have 1, 2, 4 and 8 MiB, of several families: entities whose rules use their own attributes; one function
with one very long expression; functions with statements; SELECTs within each other and attributes through them; and
strings that name SELECTs, each of which is warned of. Each run is a process of its own, and its time is from the
program's start to its end (the best of three), of `check` and of `batch` with the request check_schema. For each it
prints the megabytes a second and the nanoseconds for a byte, and for each family whether the latter stay within a factor
2 of each other. Status 1 means that a family does not stay within it.
"""
import json
import sys

from harness import MIB, Table, request, run_bench

SIZES = (1, 2, 4, 8)
FACTOR = 2

ENTITY = """ENTITY item_{n};
  name_{n}   : STRING;
  count_{n}  : INTEGER;
  length_{n} : OPTIONAL REAL;
  parts_{n}  : LIST OF item_{n};
WHERE
  wr1 : (count_{n} > 0) AND (LENGTH(name_{n}) <= 2 * count_{n} + 1);
  wr2 : SIZEOF(QUERY(it <* parts_{n} | it.count_{n} >= count_{n})) = 0;
  wr3 : NOT EXISTS(length_{n}) OR {{0.0 < length_{n} <= 1.5E3}};
  wr4 : SELF.parts_{n}[1].name_{n} + 'a' <> name_{n};
END_ENTITY;

"""

FUNCTION = """FUNCTION sum_{n} (several : LIST OF INTEGER; name : STRING; most : INTEGER) : INTEGER;
  LOCAL
    found, last : INTEGER := 0;
    text        : STRING := name + '_{n}';
  END_LOCAL;
  REPEAT i := 1 TO SIZEOF(several) WHILE found < most;
    last := several[i];
    IF (last > 0) AND (LENGTH(text) <= 20) THEN
      found := found + last * 2 - i DIV 3;
    ELSE
      text := text + name[1] + text[1:2];
    END_IF;
  END_REPEAT;
  CASE found MOD 4 OF
    0         : RETURN (sum_{n}(several - last, text, most - 1));
    1, 2      : found := NVL(several[found], 0);
    OTHERWISE : ;
  END_CASE;
  RETURN (found);
END_FUNCTION;

"""

SELECTED = """TYPE width_{n} = REAL;
END_TYPE;

TYPE choice_{n} = SELECT (width_{n}, point_{n}, curve_{n});
END_TYPE;

TYPE outer_{n} = SELECT (choice_{n}, flat_{n});
END_TYPE;

TYPE again_{n} = outer_{n};
END_TYPE;

ENTITY point_{n};
  next_{n} : again_{n};
  size_{n} : INTEGER;
END_ENTITY;

ENTITY curve_{n};
  next_{n} : outer_{n};
  size_{n} : INTEGER;
END_ENTITY;

ENTITY flat_{n};
  any_{n} : LIST OF again_{n};
WHERE
  wr1 : any_{n}[1].next_{n}.next_{n}.size_{n} > 0;
  wr2 : SIZEOF(QUERY(it <* any_{n} | it.size_{n} = it\\curve_{n}.next_{n}.size_{n} + 1)) = 0;
END_ENTITY;

"""

WARNED = """TYPE choice_{n} = SELECT (item_{n});
END_TYPE;

TYPE again_{n} = choice_{n};
END_TYPE;

ENTITY item_{n};
WHERE
  wr1 : NOT ('MEASURED.CHOICE_{n}' IN TYPEOF(SELF));
  wr2 : 'MEASURED.AGAIN_{n}' IN ['MEASURED.ITEM_{n}', 'MEASURED.CHOICE_{n}', 'measured.choice_{n}'];
END_ENTITY;

"""


def pieces(piece):
    """A family that repeats a piece with a number of its own; it answers how many there are."""
    def text(size):
        room = size - len("SCHEMA measured;\n\nEND_SCHEMA;\n")
        written, length, number = [], 0, 0
        while True:
            one = piece.format(n=number)
            if length + len(one) > room:
                return f"SCHEMA measured;\n\n{''.join(written)}END_SCHEMA;\n"
            written.append(one)
            length += len(one)
            number += 1
    return text


def expression(size):
    """One function that returns a sum of very many terms."""
    front = ("SCHEMA measured;\nFUNCTION total (a, b : INTEGER; few : LIST OF INTEGER; s : STRING) : INTEGER;\n  RETURN (a")
    term = "\n    + few[a] * b - LENGTH(s) DIV (b + 3) + NVL(a, 1)"
    back = ");\nEND_FUNCTION;\nEND_SCHEMA;\n"
    return front + term * ((size - len(front) - len(back)) // len(term)) + back


FAMILIES = {
    "entities": pieces(ENTITY),
    "expression": expression,
    "statements": pieces(FUNCTION),
    "selects": pieces(SELECTED),
    "warnings": pieces(WARNED),
}


def warnings_of(text):
    """The bytes at which a literal is warned of: one of a SELECT, which has no other way to be told here."""
    found = []
    for name in ("'MEASURED.CHOICE_", "'MEASURED.AGAIN_"):
        at = text.find(name)
        while at >= 0:
            found.append(at)
            at = text.find(name, at + 1)
    return sorted(found)


def told_of(text, places):
    """What `check` prints: the schema's name and its warnings."""
    lines, line, begin, at = ["MEASURED: ok"], 1, 0, 0
    for place in places:
        while (following := text.find("\n", at, place)) >= 0:
            line, begin, at = line + 1, following + 1, following + 1
        lines.append(f"warning SelectInTypeof line {line} column {place - begin + 1}")
    return ("\n".join(lines) + "\n").encode()


def through_check(folder, text, places):
    return folder.check_seconds(text, told_of(text, places), 3)


def through_batch(folder, text, places):
    warnings = [{"at": place, "kind": "SelectInTypeof"} for place in places]
    wanted = json.dumps({"ok": {"schema": "MEASURED", "warnings": warnings}}, separators=(",", ":")).encode() + b"\n"
    return folder.batch_seconds(request("check_schema", text=text), wanted, 3)


# what answers, and the least seconds of its runs
WAYS = {"check": through_check, "batch": through_batch}


def is_within(folder, table, family, way):
    """Measures a family at each size, and answers whether the time for a byte stays within the factor."""
    each = []
    for size in SIZES:
        text = FAMILIES[family](size * MIB)
        seconds = WAYS[way](folder, text, warnings_of(text))
        each.append(seconds / len(text) * 1e9)
        table.row(family, way, len(text), seconds, len(text) / 1e6 / seconds, each[-1])
    within = max(each) <= FACTOR * min(each)
    print(f"{family:>12} {way:>6} time for a byte: {'within' if within else 'NOT within'} a factor {FACTOR} "
          f"({max(each) / min(each):.2f})", flush=True)
    return within


def measure(folder):
    table = Table({"family": "12", "way": "6", "bytes": "10,", "seconds": "8.3f", "MB/s": "7.2f", "ns/byte": "9.1f"})
    folder.configure()
    within = [is_within(folder, table, family, way) for family in FAMILIES for way in WAYS]
    return 0 if all(within) else 1


if __name__ == "__main__":
    run_bench(measure, sys.argv[1:])
