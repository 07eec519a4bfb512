"""bin/oc --lot: known and exact chances, CSV, default numbers, drawings and wrong arguments."""

import unittest
from collections import Counter
from fractions import Fraction
from functools import partial
from itertools import product
from math import comb

import haqothwe
from common import run
from oc_common import (DOUBLE, MARK, MULTIPLE, SINGLE, SVG, csv_table, curves, drawn,
                       expect_failures, printed)

# Chances by the distribution functions of R, to eight decimals: N, D, n, c and P(X <= c) for a
# sample of n from N units of which D are bad.
ONE_STAGE = """\
50 5 10 1 0.74189998
100 10 20 2 0.68122006
200 20 50 5 0.61999640
500 25 80 3 0.41169946
300 30 60 8 0.88316710
1000 50 125 5 0.38875267"""

# N, D, n1, c1, n2, c2 and formula (1) of document 001, by the same functions.
TWO_STAGES = """\
200 10 20 0 20 2 0.70826799
500 25 50 1 50 4 0.47870644
300 15 36 1 36 4 0.76022794
1000 40 60 2 120 6 0.64801096"""

HALF_A_DIGIT = Fraction("5e-9")

CSV_COLUMNS = ["marginal_units", "bad_units", "lot_low", "lot_high", "low", "high"]
csv_rows = partial(csv_table, CSV_COLUMNS)


def known_rows(text):
    """The numbers of each line, and the chance."""
    for line in text.splitlines():
        *numbers, chance = line.split()
        yield *map(int, numbers), Fraction(chance)


def lot_bounds(plan, lot):
    return [Fraction(bound, 2**40) for bound in haqothwe.lot_chance(list(map(int, plan)), lot)]


def large_lot_bounds(plan, weights):
    return [Fraction(bound, 2**40) for bound in haqothwe.chance(list(map(int, plan)), weights)]


def sets(size, left):
    """How many sets of so many units are in what is left of a lot, by their classes."""
    good, marginal, bad = left
    every = product(range(min(size, marginal) + 1), range(min(size, bad) + 1))
    return {(marginals, bads): comb(good, size - marginals - bads) * comb(marginal, marginals)
            * comb(bad, bads) for marginals, bads in every if marginals + bads <= size}


def after_stage(going_on, size, lot):
    """Sets by marginal and bad units, each stage's drawn from what the stages before left."""
    counted = Counter()
    for (units, marginal, bad), before in going_on.items():
        good = units - marginal - bad
        left = [units_of - gone for units_of, gone in zip(lot, (good, marginal, bad))]
        for (marginals, bads), more in sets(size, left).items():
            counted[units + size, marginal + marginals, bad + bads] += before * more
    return counted


def exact_chance(plan, lot):
    """The chance of acceptance of a lot, uncurtailed, by its units at the ends of the stages."""
    going_on, accepted, all_sets, left = {(0, 0, 0): 1}, Fraction(0), 1, sum(lot)
    for size, a1, r1, a2, r2 in (plan[i:i + 5] for i in range(0, len(plan), 5)):
        all_sets *= comb(left, size)
        left -= size
        counted, going_on = after_stage(going_on, size, lot), {}
        for place, number in counted.items():
            _, marginal, bad = place
            if number == 0 or bad >= r2 or marginal + bad >= r1:
                continue
            if a1 != MARK and marginal + bad <= a1 and bad <= a2:
                accepted += Fraction(number, all_sets)
            else:
                going_on[place] = number
    assert not going_on
    return accepted


class Numbers(unittest.TestCase):
    def enclosed(self, plan, lot, bad, chance):
        """The chance, right to half a digit, lies between what is printed."""
        arguments = ["--lot", str(lot), "--marginal", "0", "--bad", str(bad), "--digits", "12"]
        (*units, low, high, _, _), = csv_rows(*arguments, *map(str, plan))
        self.assertEqual(units, [0, bad])
        self.assertTrue(low <= chance + HALF_A_DIGIT and chance - HALF_A_DIGIT <= high, plan)
        self.assertLessEqual(high - low, Fraction("1e-9"))
        self.assertTrue(low <= exact_chance(plan, [lot - bad, 0, bad]) <= high)

    def test_known_one_stage(self):
        for lot, bad, n, c, chance in known_rows(ONE_STAGE):
            self.enclosed([n, c, c + 1, c, c + 1], lot, bad, chance)

    def test_known_two_stages(self):
        for lot, bad, n1, c1, n2, c2, chance in known_rows(TWO_STAGES):
            r = c2 + 1
            self.enclosed([n1, c1, r, c1, r, n2, c2, r, c2, r], lot, bad, chance)

    def test_exact(self):
        """Lots as large as the sample, a little larger and much larger, by the library and as
        printed, with the chance of a large lot beside."""
        plans = SINGLE, DOUBLE, MULTIPLE, "10 1 5 0 3 10 3 6 1 4 10 6 7 4 5".split()
        for plan in plans:
            words = list(map(int, plan))
            sample = sum(words[::5])
            for size in (sample, sample + 7, 3 * sample):
                units = ["--marginal", "0,2,7", "--bad", "0,1,3,6,10", "--digits", "12"]
                rows = csv_rows("--lot", str(size), *units, *plan)
                self.assertEqual(len(rows), 15)
                for marginal, bad, *rounded in rows:
                    lot = [int(it) for it in (size - marginal - bad, marginal, bad)]
                    low, high = lot_bounds(plan, lot)
                    exact = exact_chance(words, lot)
                    self.assertTrue(rounded[0] <= low <= exact <= high <= rounded[1], (plan, lot))
                    self.assertLessEqual(high - low, Fraction(2 * sample, 2**40))
                    low, high = large_lot_bounds(plan, lot)
                    self.assertTrue(rounded[2] <= low <= high <= rounded[3])

    def test_rounded_outward(self):
        for digits in (1, 6, 12):
            unit = Fraction(1, 10**digits)
            units = ["--lot", "300", "--marginal", "0,20", "--bad", "0,4,9"]
            for marginal, bad, *rounded in csv_rows("--digits", str(digits), *units, *DOUBLE):
                lot = [int(it) for it in (300 - marginal - bad, marginal, bad)]
                bounds = lot_bounds(DOUBLE, lot) + large_lot_bounds(DOUBLE, lot)
                for low, rounded_low in zip(bounds[::2], rounded[::2]):
                    self.assertTrue(rounded_low <= low < rounded_low + unit)
                for high, rounded_high in zip(bounds[1::2], rounded[1::2]):
                    self.assertTrue(rounded_high - unit < high <= rounded_high)

    def test_table_is_csv(self):
        """The same numbers, "-" in the table where the units would be more than the lot's."""
        for size, plan in (("300", SINGLE), ("160", DOUBLE), ("3", "1 0 1 0 1".split())):
            title, _, labels, heads, *lines = printed("--lot", size, *plan).splitlines()
            self.assertIn(f"lot of {size} units", title)
            self.assertEqual(heads.replace("lot ", "lot_").split(),
                             ["bad", *CSV_COLUMNS[2:] * labels.count("marginal")])
            self.assertEqual(len({len(line) for line in (labels, heads, *lines)}), 1)
            cells = [cell for line in lines for cell in line.split()[1:] if cell != "-"]
            rows = sorted(csv_rows("--lot", size, *plan), key=lambda row: (row[1], row[0]))
            self.assertEqual([Fraction(cell) for cell in cells],
                             [bound for row in rows for bound in row[2:]])

    def test_default_numbers(self):
        """Bad units from 0 to where the chance of the lot is below 1 %, in round steps of whole
        units and not beyond the lot, and three numbers of marginal units."""
        plans = "5 2 3 1 2", "1 0 1 0 1", "40 7 8 2 3", "200 9 10 9 10", "60 59 60 59 60"
        for text, more in product(plans, (0, 1, 19, 700, 50_000)):
            plan = text.split()
            size = int(plan[0]) + more
            every = csv_rows("--lot", str(size), *plan)
            rows = [row for row in every if row[0] == 0]
            bads = [row[1] for row in rows]
            step = bads[1] - bads[0]
            self.assertIn(f"{float(step):e}"[0], "125")
            self.assertEqual(bads, [min(step * i, size) for i in range(len(bads))])
            self.assertLessEqual(len(bads), 21)
            self.assertEqual(rows[0][2:], [1] * 4)
            self.assertLess(rows[-1][3], Fraction("0.01"))
            if size > 1:
                self.assertEqual(len({row[0] for row in every}), 3, (text, size))
            self.assertLessEqual(max(sum(row[:2]) for row in every), size)

    def test_defaults_fit_what_is_given(self):
        rows = csv_rows("--lot", "50", "--bad", "45", *SINGLE)
        self.assertEqual([row[:2] for row in rows], [[0, 45], [5, 45]])
        rows = csv_rows("--lot", "50", "--marginal", "48", *SINGLE)
        self.assertEqual([row[:2] for row in rows], [[48, 0], [48, 1], [48, 2]])


class Drawing(unittest.TestCase):
    def near(self, chance, bounds):
        """To a twentieth of a unit of the drawing."""
        self.assertAlmostEqual(chance, float(sum(bounds)) / 2, delta=0.05 / 340)

    def test_points(self):
        """The lot's at whole numbers of bad units, all of them where they are few."""
        for size, most, parts in ((200, 20, 6), (1_000, 150, 1), (300_000, 30, 3)):
            arguments = "--lot", str(size), "--marginal", "0,5,12", "--bad", f"0,{most}"
            found = curves(drawn(*arguments, *DOUBLE))
            self.assertEqual(len(found), 6)
            for marginal in (0, 5, 12):
                points = found[f"marginal {marginal}"]
                bads = [round(bad) for bad, _ in points]
                if most <= 120:
                    self.assertEqual(bads, list(range(most + 1)))
                for bad, (place, chance) in zip(bads, points):
                    self.assertAlmostEqual(place, bad, delta=most / 10_000)
                    self.near(chance, lot_bounds(DOUBLE, [size - marginal - bad, marginal, bad]))
                points = found[f"marginal {marginal}, a large lot"]
                self.assertEqual(len(points), parts * (len(bads) - 1) + 1)
                for place, chance in points:
                    part = round(place * parts)
                    self.assertAlmostEqual(place, part / parts, delta=most / 10_000)
                    good = parts * (size - marginal) - part
                    self.near(chance, large_lot_bounds(DOUBLE, [good, parts * marginal, part]))

    def test_markers(self):
        """One at each point of the lot where they are few."""
        for most, markers in ((20, 42), (39, 80), (40, 0)):
            root = drawn("--lot", "200", "--marginal", "0,5", "--bad", f"0,{most}", *DOUBLE)
            circles = root.findall(f"{SVG}circle")
            self.assertEqual(len(circles), markers)
            marked = {(it.get("cx"), it.get("cy")) for it in circles}
            thick = [it for it in root.findall(f"{SVG}polyline")
                     if it.get("stroke-width") == "2.5"]
            points = {tuple(point.split(",")) for it in thick for point in it.get("points").split()}
            self.assertEqual(marked, points if markers else set())

    def test_parts(self):
        eight = ",".join(map(str, range(8)))
        root = drawn("--lot", "1000000", "--bad", "0,5,20", "--marginal", eight, *MULTIPLE)
        texts = [text.text for text in root.iter(f"{SVG}text")]
        for text in ("Operating characteristic, lot of 1000000 units", "Marginal units", "this lot",
                     "a large lot", "7", "Bad units in the lot", "Chance of acceptance"):
            self.assertIn(text, texts)
        ticks = [text.text for text in root.iter(f"{SVG}text") if text.get("class") == "x"]
        self.assertEqual(ticks, [str(number) for number in range(0, 21, 2)])
        widths = Counter(it.get("stroke-width") for it in root.findall(f"{SVG}polyline"))
        self.assertEqual(widths, {"2.5": 8, "1": 8})
        _, _, width, height = map(float, root.get("viewBox").split())
        for text in root.iter(f"{SVG}text"):
            self.assertTrue(0 <= float(text.get("x")) <= width)
            self.assertTrue(0 <= float(text.get("y")) <= height)


class Arguments(unittest.TestCase):
    WRONG = [
        ("--lot 39 40 7 8 2 3", "the lot has 39 units, fewer than the sample, which has 40"),
        ("--lot 159 80 5 9 1 4 80 12 13 4 5", "fewer than the sample, which has 160"),
        ("--lot 0 5 2 3 1 2", "'0' is not a whole number from 1 to 1000000"),
        ("--lot 1000001 5 2 3 1 2", "'1000001' is not a whole number"),
        ("--lot 2.5 5 2 3 1 2", "'2.5' is not a whole number"),
        ("--lot=-5 5 2 3 1 2", "'-5' is not a whole number"),
        ("--lot 5 2 3 1 2", "length 4 is not a multiple of 5"),
        ("--lot 50", "no plan is given"),
        ("--lot 50 5 2 3 1 3", "the plan is not admitted:"),
        ("--lot 50 --bad 2.5 5 2 3 1 2", "'2.5' is not a whole number of units"),
        ("--bad 1,,2 --lot 50 5 2 3 1 2", "'' is not a whole number of units"),
        ("--lot=50 --marginal -1 5 2 3 1 2", "'-1' is not a whole number of units"),
        ("--lot 50 --marginal 1000001 5 2 3 1 2", "'1000001' is not a whole number of units"),
        ("--lot 50 --bad 51 5 2 3 1 2", "0 marginal and 51 bad units add to over 50"),
        ("--lot 50 --marginal 0,51 5 2 3 1 2", "51 marginal and 0 bad units add to over 50"),
        ("--lot 50 --marginal 0,20 --bad 2,31 5 2 3 1 2",
         "20 marginal and 31 bad units add to over 50"),
        ("--lot 50 --bad 5 --svg x.svg 5 2 3 1 2", "a drawing needs two numbers of bad units"),
        ("--lot 50 --marginal 0,1,2,3,4,5,6,7,8 --svg x.svg 5 2 3 1 2", "has at most 8 curves"),
    ]

    def test_wrong(self):
        expect_failures(self, self.WRONG)

    def test_right(self):
        """The least lot is the sample; the numbers may be all of the lot."""
        for arguments in ("--lot 5 5 2 3 1 2", "--lot 1000000 5 2 3 1 2", "--lot 1 1 0 1 0 1",
                          "--lot 50 --marginal 20 --bad 30 5 2 3 1 2"):
            self.assertTrue(csv_rows(*arguments.split()), arguments)

    def test_example_of_the_help(self):
        done = run("bin/oc", "--help")
        command, = (line for line in done.stdout.splitlines() if line.startswith("  bin/oc --lot"))
        done = run(*command.split())
        self.assertEqual((done.returncode, done.stderr), (0, ""))
        self.assertIn("lot of 300 units", done.stdout)


if __name__ == "__main__":
    unittest.main()
