"""bin/oc: published chances, rounding, default shares, CSV, drawings and wrong arguments."""

import os
import pty
import shlex
import shutil
import unittest
import xml.etree.ElementTree as xml
from collections import Counter
from fractions import Fraction
from functools import partial
from itertools import product
from math import comb

import haqothwe
from common import ROOT, WORK, run
from oc_common import (DOUBLE, MARK, MULTIPLE, SINGLE, SVG, csv_table, drawn, expect_failures,
                       printed, scale)

# Table 5.1 of document 003 for the plan SINGLE: per cent bad, then Pa for 5, 10, 15 and 20 per
# cent marginal. Its last digit is taken as right to one unit.
PUBLISHED = """\
2 0.951052 0.871304 0.618814 0.315923
4 0.780695 0.688429 0.449754 0.207331
6 0.561672 0.480158 0.293239 0.124068
8 0.365494 0.304034 0.175054 0.068581"""

csv_rows = partial(csv_table, ["marginal_percent", "bad_percent", "low", "high"])


def bounds(plan, marginal, bad):
    """Low and high for percentages, as fractions."""
    weights = [int(share * 10_000) for share in (100 - marginal - bad, marginal, bad)]
    return [Fraction(bound, 2**40) for bound in haqothwe.chance(list(map(int, plan)), weights)]


def samples(size, r1, r2, weights):
    """Sums of weights of the samples of one stage, by nongood and bad units, each below its r."""
    good, marginal, bad = weights
    return {(nongood, bads): comb(size, nongood) * comb(nongood, bads)
            * good**(size - nongood) * marginal**(nongood - bads) * bad**bads
            for nongood in range(min(size + 1, r1)) for bads in range(min(nongood + 1, r2))}


def after_stage(going_on, stage, weights):
    """The same for all units up to the end of a stage, without those that it rejects."""
    size, _, r1, _, r2 = stage
    sums = Counter()
    stage_sums = samples(size, r1, r2, weights)
    for (before, weight), (more, more_weight) in product(going_on.items(), stage_sums.items()):
        nongood, bads = map(sum, zip(before, more))
        if nongood < r1 and bads < r2:
            sums[nongood, bads] += weight * more_weight
    return sums


def exact_chance(plan, weights):
    """The chance of acceptance as 01 and 02 have it: uncurtailed, by the counts at stage ends."""
    going_on, accepted, units = {(0, 0): 1}, Fraction(0), 0
    for stage in (plan[i:i + 5] for i in range(0, len(plan), 5)):
        size, a1, _, a2, _ = stage
        units += size
        sums = after_stage(going_on, stage, weights)
        low = {place for place in sums if place[0] <= a1 and place[1] <= a2}
        accepting = set() if a1 == a2 == MARK else low
        accepted += Fraction(sum(sums[place] for place in accepting), sum(weights)**units)
        going_on = {place: sums[place] for place in sums.keys() - accepting}
    assert not going_on
    return accepted


class Numbers(unittest.TestCase):
    def test_published(self):
        text = printed("--marginal", "5,10,15,20", "--bad", "2,4,6,8", *SINGLE)
        rows = [line.split() for line in text.splitlines()[4:]]
        published = [line.split() for line in PUBLISHED.splitlines()]
        self.assertEqual(len(rows), len(published))
        for row, (bad, *chances) in zip(rows, published):
            self.assertEqual((row[0], len(row)), (bad, 1 + 2 * len(chances)))
            for i, chance in enumerate(chances):
                for bound in row[1 + 2 * i:3 + 2 * i]:
                    self.assertLessEqual(abs(Fraction(bound) - Fraction(chance)), Fraction("1e-6"))

    def test_rounded_outward(self):
        """To the next decimal, and to the same one where the bound is that decimal."""
        shares = ["--marginal", "0,12.5", "--bad", "0,2.5,3.0001"]
        for digits in (1, 6, 12):
            unit = Fraction(1, 10**digits)
            for marginal, bad, *rounded in csv_rows("--digits", str(digits), *shares, *DOUBLE):
                low, high = bounds(DOUBLE, marginal, bad)
                self.assertTrue(rounded[0] <= low < rounded[0] + unit)
                self.assertTrue(rounded[1] - unit < high <= rounded[1])

    def test_stage_that_cannot_accept(self):
        """The exact chance lies between low and high, in the library and as printed."""
        plan = list(map(int, MULTIPLE))
        units = sum(plan[::5])
        shares = ["--marginal", "0,1.5", "--bad", "0,1,2,3,5,8,10", "--digits", "12"]
        rows = csv_rows(*shares, *MULTIPLE)
        self.assertEqual(len(rows), 14)
        for marginal, bad, *rounded in rows:
            weights = [int(share * 10) for share in (100 - marginal - bad, marginal, bad)]
            exact = exact_chance(plan, weights)
            low, high = bounds(MULTIPLE, marginal, bad)
            self.assertTrue(rounded[0] <= low <= exact <= high <= rounded[1], (marginal, bad))
            self.assertLessEqual(high - low, Fraction(2 * units, 2**40))

    def test_table_of_the_readme(self):
        """The lows of that plan and of the single plan beside it."""
        text = (ROOT / "README.md").read_text(encoding="utf-8")
        for name, plan in ("in seven stages", MULTIPLE), ("125 3 4 3 4", "125 3 4 3 4".split()):
            rows = csv_rows("--digits", "3", "--marginal", "0", "--bad", "1,2,3,5,8", *plan)
            lows = " | ".join(f"{float(low):.3f}" for _, _, low, _ in rows)
            self.assertIn(f"| {name} | {lows} |", text)

    def test_table_is_csv(self):
        """The same numbers, "-" in the table where the shares would add to over 100 %."""
        for plan in (SINGLE, DOUBLE, "1 0 1 0 1".split()):
            lines = printed(*plan).splitlines()[4:]
            cells = [cell for line in lines for cell in line.split()[1:] if cell != "-"]
            rows = sorted(csv_rows(*plan), key=lambda row: (row[1], row[0]))
            bounds_in_rows = [bound for row in rows for bound in row[2:]]
            self.assertEqual([Fraction(cell) for cell in cells], bounds_in_rows)

    def test_default_shares(self):
        """The curve without marginal units is shown from 1 down to below 1 %, in round steps."""
        plans = "5 2 3 1 2", "1 0 1 0 1", "1000 39 40 39 40", "1000 0 1 0 1", "60 59 60 59 60"
        for text in plans:
            every = csv_rows(*text.split())
            rows = [row for row in every if row[0] == 0]
            bads = [row[1] for row in rows]
            step = bads[1] - bads[0]
            self.assertIn(f"{float(step):e}"[0], "125")
            self.assertEqual(bads, [step * i for i in range(len(bads))])
            self.assertTrue(8 <= len(bads) <= 21, text)
            self.assertEqual(rows[0][2], 1)
            self.assertLess(rows[-1][3], Fraction("0.01"))
            self.assertEqual(len({row[0] for row in every}), 3)


class Drawing(unittest.TestCase):
    def test_points(self):
        """Each point is where its share and its chance are, to a twentieth of a unit."""
        root = drawn("--marginal", "0,5,10", *DOUBLE)
        across, down = scale(root, "x"), scale(root, "y")
        curves = root.findall(f"{SVG}polyline")
        self.assertEqual(len(curves), 3)
        for curve, marginal in zip(curves, (0, 5, 10)):
            self.assertEqual(curve.find(f"{SVG}title").text, f"marginal {marginal} %")
            points = [point.split(",") for point in curve.get("points").split()]
            self.assertGreater(len(points), 100)
            for x, y in points:
                bad = Fraction(round(across(float(x)) * 10_000), 10_000)
                low, high = bounds(DOUBLE, marginal, bad)
                self.assertAlmostEqual(down(float(y)), float(low + high) / 2, delta=0.05 / 340)

    def test_parts(self):
        root = drawn("--bad", "0,5,20", "--marginal", "2.5,33.3333", *SINGLE)
        texts = [text.text for text in root.iter(f"{SVG}text")]
        for text in ("Plan (n a1 r1 a2 r2): 40 7 8 2 3", "2.5 %", "33.3333 %", "Marginal units",
                     "Share of bad units (%)", "Chance of acceptance"):
            self.assertIn(text, texts)
        self.assertEqual(root.find(f"{SVG}rect").get("fill"), "#ffffff")
        _, _, width, height = map(float, root.get("viewBox").split())
        for text in root.iter(f"{SVG}text"):
            self.assertTrue(0 <= float(text.get("x")) <= width)
            self.assertTrue(0 <= float(text.get("y")) <= height)

    def test_pictures_of_the_documents(self):
        """Each is what the command that it names draws."""
        for name in "docs/oc.svg", "docs/oc-lot.svg", "docs/oc-units.svg":
            page = (ROOT / name).read_text(encoding="utf-8")
            made_by = xml.fromstring(page).find(f"{SVG}desc").text
            command, *arguments = shlex.split(made_by.removeprefix("Made by: "))
            place = arguments.index(name)
            arguments[place] = str(WORK / "again.svg")
            self.assertEqual(run(command, *arguments).returncode, 0)
            again = (WORK / "again.svg").read_text(encoding="utf-8")
            self.assertEqual(again.replace(arguments[place], name), page)


class Arguments(unittest.TestCase):
    WRONG = [
        ("", "no plan is given"),
        ("five", "'five' is not a number"),
        ("5 2 3 1 4294967296", "'4294967296' is not a number"),
        ("5 2 3 1 -2", "'-2' is not a number"),
        ("5 2 3 1", "length 4 is not a multiple of 5"),
        ("5 2 3 1 3", "the plan is not admitted:\n  stage 1, the last: a2 + 1 = 2 is not r2 = 3"),
        ("--bad x 5 2 3 1 2", "'x' is not a percentage"),
        ("--bad 101 5 2 3 1 2", "'101' is not a percentage"),
        ("--bad 1,,2 5 2 3 1 2", "'' is not a percentage"),
        ("--bad 0.00001 5 2 3 1 2", "'0.00001' is not a percentage"),
        ("--marginal -1 5 2 3 1 2", "'-1' is not a percentage"),
        ("--marginal 0,50 --bad 2,50.0001 5 2 3 1 2",
         "50 % marginal and 50.0001 % bad units add to over 100 %"),
        ("--digits 13 5 2 3 1 2", "'13' is not a number from 1 to 12"),
        ("--colour 5 2 3 1 2", "unrecognized arguments: --colour"),
        ("--bad 5 --svg x.svg 5 2 3 1 2", "a drawing needs two shares"),
        ("--marginal 0,1,2,3,4,5,6,7,8 --svg x.svg 5 2 3 1 2", "has at most 8 curves"),
        ("--svg /no/such/place.svg 5 2 3 1 2", "/no/such/place.svg cannot be written"),
    ]

    def test_wrong(self):
        expect_failures(self, self.WRONG)

    def test_help_needs_no_library(self):
        nowhere = {**os.environ, "HAQOTHWE_LIBRARY": "/no/such/library.so"}
        done = run("bin/oc", "--help", env=nowhere)
        self.assertEqual((done.returncode, done.stderr), (0, ""))
        self.assertIn("usage: bin/oc", done.stdout)
        done = run("bin/oc", *SINGLE, env=nowhere)
        self.assertEqual((done.returncode, done.stdout), (1, ""))
        self.assertIn("bin/oc: the library cannot be loaded: /no/such/library.so", done.stderr)

    def test_progress(self):
        """On a terminal alone."""
        terminal, standard_error = pty.openpty()
        done = run("bin/oc", *SINGLE, stderr=standard_error)
        os.close(standard_error)
        shown = os.read(terminal, 10_000).decode()
        os.close(terminal)
        self.assertEqual(done.stdout, printed(*SINGLE))
        self.assertIn("\r62 of 63 chances ", shown)

    def test_shared_object(self):
        """In a repository without one, bin/shared-object is called, and only then."""
        root = WORK / "root"
        shutil.copytree(ROOT / "bindings" / "python", root / "bindings" / "python")
        (root / "bin").mkdir()
        (root / "target").mkdir()
        shutil.copy(ROOT / "bin" / "oc", root / "bin" / "oc")
        maker = root / "bin" / "shared-object"
        maker.write_text(f"#!/bin/sh\necho made >&2\n"
                         f"cp '{os.environ['HAQOTHWE_LIBRARY']}' '{root}/target/libhaqothwe.so'\n")
        maker.chmod(0o755)
        bare = {key: value for key, value in os.environ.items() if key != "HAQOTHWE_LIBRARY"}
        for said in ("made\n", ""):
            done = run(root / "bin" / "oc", *SINGLE, env=bare)
            self.assertEqual((done.stdout, done.stderr), (printed(*SINGLE), said))


if __name__ == "__main__":
    unittest.main()
