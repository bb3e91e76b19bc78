#!/usr/bin/env python3
"""Writes a Part 21 file of so many instances, as an exporter of CAD models writes them.

    make_part21.py COUNT > FILE        COUNT instances
    make_part21.py --bytes SIZE > FILE as many instances as fit into SIZE bytes

The same COUNT gives the same bytes always. The instances are those of a boundary representation
(points, directions, edges and faces), after a context with its units, which have several types each.
Lines are broken as exporters break them, also inside strings, and reals look like `0.E+000`.
"""
import sys

WIDTH = 72

HEADER = """ISO-10303-21;
HEADER;
FILE_DESCRIPTION(('Plate with bores'),'2;1');
FILE_NAME(
'C:/Users/workshop/models/fixtures/plates and brackets/\\\\
plate_with_bores.step','2026-03-02T09:41:07',(
    'Workshop'),(''),'Exchange processor 3.4',
  'Modeller','Unknown');
FILE_SCHEMA(('AUTOMOTIVE_DESIGN { 1 0 10303 214 1 1 1 1 }'));
ENDSEC;
DATA;
"""

FOOTER = "ENDSEC;\nEND-ISO-10303-21;\n"

# The instances that stand once, in front; they are numbered from 1.
CONTEXT = [
    "APPLICATION_PROTOCOL_DEFINITION('international standard',"
    "'automotive_design',2000,#2)",
    "APPLICATION_CONTEXT('core data for automotive mechanical design processes')",
    "SHAPE_DEFINITION_REPRESENTATION(#4,#10)",
    "PRODUCT_DEFINITION_SHAPE('','',#5)",
    "PRODUCT_DEFINITION('design','',#6,#9)",
    "PRODUCT_DEFINITION_FORMATION('','',#7)",
    "PRODUCT('Plate with bores','Plate with bores, and the customer''s mark "
    "on both of its faces','',(#8))",
    "PRODUCT_CONTEXT('',#2,'mechanical')",
    "PRODUCT_DEFINITION_CONTEXT('part definition',#2,'design')",
    "SHAPE_REPRESENTATION('',(),#11)",
    "( GEOMETRIC_REPRESENTATION_CONTEXT(3) GLOBAL_UNCERTAINTY_ASSIGNED_CONTEXT((#15)) "
    "GLOBAL_UNIT_ASSIGNED_CONTEXT((#12,#13,#14)) REPRESENTATION_CONTEXT("
    "'Context #1','3D Context with UNIT and UNCERTAINTY') )",
    "( LENGTH_UNIT() NAMED_UNIT(*) SI_UNIT(.MILLI.,.METRE.) )",
    "( NAMED_UNIT(*) PLANE_ANGLE_UNIT() SI_UNIT($,.RADIAN.) )",
    "( NAMED_UNIT(*) SI_UNIT($,.STERADIAN.) SOLID_ANGLE_UNIT() )",
    "UNCERTAINTY_MEASURE_WITH_UNIT(LENGTH_MEASURE(1.E-07),#12,"
    "'distance_accuracy_value','confusion accuracy')",
]


def real(thousandths):
    """A multiple of 1/1000 as exporters write it."""
    if thousandths == 0:
        return "0.E+000"
    sign = "-" if thousandths < 0 else ""
    whole, part = divmod(abs(thousandths), 1000)
    if whole == 0:
        return f"{sign}{part}.E-003"
    return f"{sign}{whole}." + f"{part:03}".rstrip("0")


def face(first, turn):
    """The twelve instances of a face with a bore, numbered from `first`."""
    x, y, radius = 7 * turn % 90000 - 45000, 13 * turn % 60001, 250 + turn % 4000
    return [
        f"ADVANCED_FACE('',(#{first + 1}),#{first + 8},.{'TF'[turn % 2]}.)",
        f"FACE_BOUND('',#{first + 2},.T.)",
        f"EDGE_LOOP('',(#{first + 3}))",
        f"ORIENTED_EDGE('',*,*,#{first + 4},.F.)",
        f"EDGE_CURVE('',#{first + 5},#{first + 5},#{first + 7},.T.)",
        f"VERTEX_POINT('',#{first + 6})",
        f"CARTESIAN_POINT('',({real(x + radius)},{real(y)},0.E+000))",
        f"CIRCLE('',#{first + 9},{real(radius)})",
        f"PLANE('',#{first + 9})",
        f"AXIS2_PLACEMENT_3D('',#{first + 10},#{first + 11},$)",
        f"CARTESIAN_POINT('',({real(x)},{real(y)},{turn % 9 + 1}.084202172485E-016))",
        "DIRECTION('',(0.E+000,-0.E+000,1.))",
    ]


FACE = 12


def point(k):
    """An instance that refers to nothing."""
    return f"CARTESIAN_POINT('',({real(1000 * k)},0.E+000,0.E+000))"


def texts(count):
    """The texts of so many instances: the context, whole faces, and points for what is left."""
    if count < len(CONTEXT):
        yield from (point(k) for k in range(count))
        return
    yield from CONTEXT
    faces, points = divmod(count - len(CONTEXT), FACE)
    for turn in range(faces):
        yield from face(len(CONTEXT) + 1 + turn * FACE, turn)
    yield from (point(k) for k in range(points))


def broken_at(text, room):
    """Where a line of at most `room` bytes ends: after a comma or a parenthesis that opens, else
    after a blank, else anywhere. A string goes on in the next line, and its reader joins the two."""
    for marks in (",(", " "):
        at = max(text.rfind(mark, 20, room) for mark in marks) + 1
        if at > 0:
            return at
    return room


def lines_of(name, text):
    """An instance over as many lines as it takes."""
    rest = f"#{name} = {text};"
    lines = []
    indent = ""
    while len(indent + rest) > WIDTH:
        at = broken_at(rest, WIDTH - len(indent))
        lines.append(indent + rest[:at])
        # Blanks within a string would belong to it.
        is_in_string = "".join(lines).count("'") % 2 == 1
        indent = "" if is_in_string else "  "
        rest = rest[at:]
    lines.append(indent + rest)
    return "\n".join(lines) + "\n"


def part21(count):
    """A file of so many instances."""
    lines = [lines_of(name, text) for name, text in enumerate(texts(count), 1)]
    return HEADER + "".join(lines) + FOOTER


def count_within(size):
    """How many instances, from the context on, a file of at most so many bytes has."""
    left = size - len(part21(len(CONTEXT)))
    count = len(CONTEXT)
    turn = 0
    while True:
        names = range(count + 1, count + 1 + FACE)
        taken = sum(len(lines_of(*it)) for it in zip(names, face(count + 1, turn)))
        if taken > left:
            break
        left, count, turn = left - taken, count + FACE, turn + 1
    for k in range(FACE - 1):
        left -= len(lines_of(count + 1, point(k)))
        if left < 0:
            break
        count += 1
    return count


def main(words):
    if len(words) == 1 and words[0].isdecimal():
        count = int(words[0])
    elif len(words) == 2 and words[0] == "--bytes" and words[1].isdecimal():
        count = count_within(int(words[1]))
    else:
        sys.exit("usage: make_part21.py COUNT | make_part21.py --bytes SIZE")
    sys.stdout.write(part21(count))


if __name__ == "__main__":
    main(sys.argv[1:])
