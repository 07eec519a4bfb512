"""What the tests of bin/oc share: plans, calls of bin/oc, and the reading of its drawings."""

import csv
import io
import xml.etree.ElementTree as xml
from contextlib import redirect_stderr, redirect_stdout
from fractions import Fraction

import oc
from common import WORK, run

SINGLE = "40 7 8 2 3".split()
DOUBLE = "80 5 9 1 4 80 12 13 4 5".split()

# What a stage has as a1 and a2 where acceptance is not permitted (02, change 1).
MARK = 2**32 - 1

# The multiple plan of the standard tables beside the single plan 125, 3, 4: acceptance is not
# permitted at the first of seven samples of 32 units. Both rows are alike.
A = [MARK, 0, 1, 2, 3, 4, 6]
R = [3, 3, 4, 5, 6, 6, 7]
MULTIPLE = [str(number) for a, r in zip(A, R) for number in (32, a, r, a, r)]

SVG = "{http://www.w3.org/2000/svg}"


def called(*arguments):
    """Exit status, output and errors of bin/oc, in this process, which is faster."""
    out, errors = io.StringIO(), io.StringIO()
    with redirect_stdout(out), redirect_stderr(errors):
        try:
            status = oc.main(arguments)
        except SystemExit as end:
            status = end.code
    return status, out.getvalue(), errors.getvalue()


def printed(*arguments):
    """What bin/oc prints; it has nothing to say beside."""
    status, out, errors = called(*arguments)
    if status or errors:
        raise AssertionError(errors)
    return out


def csv_table(columns, *arguments):
    """The rows of the CSV, whose columns are called so."""
    head, *rows = csv.reader(io.StringIO(printed("--csv", *arguments)))
    assert head == columns
    return [list(map(Fraction, row)) for row in rows]


def expect_failures(test, wrong):
    """Pairs of arguments and a part of the sentence; the last ones as a process too."""
    for arguments, sentence in wrong:
        status, out, errors = called(*arguments.split())
        test.assertEqual((status, out), (2, ""), arguments)
        test.assertIn(sentence, errors)
    done = run("bin/oc", *arguments.split())
    test.assertEqual((done.returncode, done.stdout, done.stderr), (status, out, errors))


def drawn(*arguments):
    """The root of the drawing."""
    path = WORK / "oc.svg"
    printed("--svg", str(path), *arguments)
    return xml.parse(path).getroot()


def scale(root, axis):
    """From a coordinate to what its axis shows, by the first and the last tick."""
    ticks = [text for text in root.iter(f"{SVG}text") if text.get("class") == axis]
    places = [float(tick.get(axis)) for tick in (ticks[0], ticks[-1])]
    values = [float(tick.text) for tick in (ticks[0], ticks[-1])]
    slope = (values[1] - values[0]) / (places[1] - places[0])
    # The number of a tick of the y axis stands five lower than its line.
    shift = 5 if axis == "y" else 0
    return lambda place: values[0] + (place + shift - places[0]) * slope


def curves(root):
    """The points of the curves, as the axes show them, by what the curves are called."""
    across, down = scale(root, "x"), scale(root, "y")
    found = {}
    for curve in root.findall(f"{SVG}polyline"):
        places = [map(float, point.split(",")) for point in curve.get("points").split()]
        found[curve.find(f"{SVG}title").text] = [(across(x), down(y)) for x, y in places]
    return found
