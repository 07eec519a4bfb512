"""bin/oc --units: known and exact expected units, CSV, default shares, drawings and wrong
arguments."""

import re
import unittest
from collections import Counter, defaultdict
from fractions import Fraction
from functools import cache, partial
from itertools import product
from math import ceil, prod

import haqothwe
from common import ROOT, run
from oc_common import (DOUBLE, MARK, MULTIPLE, SINGLE, SVG, csv_table, curves, drawn,
                       expect_failures, printed, scale)
from test_oc import csv_rows as chance_rows

# Units by a closed form and the distribution functions of R, to eight decimals: n, c, per cent bad
# and the units of one stage, both rows c, c + 1, without marginal units.
KNOWN = """\
10 1 5 9.11777892
10 1 20 7.44986317
20 2 10 17.52713581
50 3 5 45.90952814
100 5 2 96.65642657
100 5 10 59.04822331
200 10 8 135.71297264"""

HALF_A_DIGIT = Fraction("5e-9")

# Plans of few units, so that all samples can be written out: one stage, two, three, the first
# marked as one that cannot accept, the first two marked.
SMALL = [
    "5 2 3 1 2",
    "3 0 3 0 2 3 2 3 1 2",
    "2 0 3 0 2 2 1 3 0 2 2 2 3 1 2",
    f"2 {MARK} 2 {MARK} 2 1 2 3 2 3",
    f"2 {MARK} 2 {MARK} 1 3 1 3 0 2 2 2 3 1 2",
    f"1 {MARK} 2 {MARK} 2 2 {MARK} 3 {MARK} 2 3 3 4 2 3",
]

THREE_STAGES = "10 1 5 0 3 10 3 6 1 4 10 6 7 4 5".split()

CSV_COLUMNS = ["marginal_percent", "bad_percent", "units_low", "units_high"]

csv_rows = partial(csv_table, CSV_COLUMNS, "--units")


def sample_size(plan):
    return sum(map(int, plan[::5]))


def weights_of(marginal, bad):
    """Weights of percentages."""
    return [int(share * 10_000) for share in (100 - marginal - bad, marginal, bad)]


def bounds(plan, marginal, bad):
    """Low and high for percentages, as fractions."""
    found = haqothwe.units(list(map(int, plan)), weights_of(marginal, bad))
    return [Fraction(bound, 2**30) for bound in found]


def word_ends(line):
    return tuple(word.end() for word in re.finditer("[^ ]+", line))


def stage_ends(plan):
    """The numbers of a stage, by the units up to its end."""
    ends, units = {}, 0
    for stage in (plan[i:i + 5] for i in range(0, len(plan), 5)):
        units += stage[0]
        ends[units] = stage[1:]
    return ends


def stage_verdict(stage, nongood, bad):
    """Of the uncurtailed plan at the end of a stage; none where it goes on."""
    a1, r1, a2, r2 = stage
    if nongood >= r1 or bad >= r2:
        return "rejected"
    return "accepted" if a1 != MARK and nongood <= a1 and bad <= a2 else None


def uncurtailed(plan, classes):
    """The verdict on a sample."""
    for units, stage in stage_ends(plan).items():
        read = classes[:units]
        verdict = stage_verdict(stage, len(read) - read.count(0), read.count(2))
        if verdict:
            return verdict


def written_out(plan, weights):
    """As 02, change 6: the sum over all samples of stop times product of weights, over W^S. The
    stop is the first point of which all completions have one verdict."""
    size = sample_size(plan)
    samples = list(product(range(3), repeat=size))
    verdicts = defaultdict(set)
    for classes in samples:
        verdict = uncurtailed(plan, classes)
        for units in range(size + 1):
            verdicts[classes[:units]].add(verdict)
    total = 0
    for classes in samples:
        stop = next(units for units in range(size + 1) if len(verdicts[classes[:units]]) == 1)
        total += stop * prod(weights[class_] for class_ in classes)
    return Fraction(total, sum(weights)**size)


def undecided(plan):
    """Whether completions of so many units, nongood and bad ones among them, have both verdicts."""
    ends = stage_ends(plan)

    @cache
    def verdicts(units, nongood, bad):
        verdict = stage_verdict(ends[units], nongood, bad) if units in ends else None
        if verdict:
            return {verdict}
        return (verdicts(units + 1, nongood, bad) | verdicts(units + 1, nongood + 1, bad)
                | verdicts(units + 1, nongood + 1, bad + 1))

    return lambda *point: len(verdicts(*point)) == 2


def exact_units(plan, weights, is_undecided):
    """The sum, over numbers of units, of the chance that the verdict is open after so many."""
    going_on, expected = {(0, 0): 1}, Fraction(0)
    for units in range(sample_size(plan)):
        open_after = {it: sums for it, sums in going_on.items() if is_undecided(units, *it)}
        expected += Fraction(sum(open_after.values()), sum(weights)**units)
        going_on = Counter()
        for (nongood, bad), sums in open_after.items():
            for class_, weight in enumerate(weights):
                going_on[nongood + (class_ > 0), bad + (class_ == 2)] += sums * weight
    return expected


class Numbers(unittest.TestCase):
    def test_known(self):
        """The units, right to half a digit, lie between what is printed."""
        for line in KNOWN.splitlines():
            *numbers, bad, units = map(Fraction, line.split())
            n, c = map(int, numbers)
            plan = [str(it) for it in (n, c, c + 1, c, c + 1)]
            shares = ["--marginal", "0", "--bad", str(bad), "--digits", "12"]
            (*given, low, high), = csv_rows(*shares, *plan)
            self.assertEqual(given, [0, bad])
            self.assertTrue(low <= units + HALF_A_DIGIT and units - HALF_A_DIGIT <= high, line)
            self.assertLessEqual(high - low, Fraction("1e-6"))

    def test_written_out(self):
        """Plans of few units, of one stage and of several, marked ones among them."""
        for plan in map(str.split, SMALL):
            words = list(map(int, plan))
            is_undecided = undecided(words)
            rows = csv_rows("--marginal", "0,12.5,40", "--bad", "0,3,60", "--digits", "12", *plan)
            self.assertEqual(len(rows), 9)
            for marginal, bad, low, high in rows:
                weights = weights_of(marginal, bad)
                exact = written_out(words, weights)
                self.assertTrue(low <= exact <= high, (plan, marginal, bad))
                self.assertEqual(exact_units(words, weights, is_undecided), exact)

    def test_exact(self):
        """Larger plans, by the library and as printed."""
        for plan in (SINGLE, DOUBLE, MULTIPLE, THREE_STAGES):
            words = list(map(int, plan))
            is_undecided = undecided(words)
            shares = ["--marginal", "0,6.5", "--bad", "0,1,2.5,8,30", "--digits", "12"]
            rows = csv_rows(*shares, *plan)
            self.assertEqual(len(rows), 10)
            for marginal, bad, *rounded in rows:
                exact = exact_units(words, weights_of(marginal, bad), is_undecided)
                low, high = bounds(plan, marginal, bad)
                self.assertTrue(rounded[0] <= low <= exact <= high <= rounded[1], (plan, bad))
                self.assertLessEqual(high - low, Fraction(sample_size(plan), 2**30))

    def test_one_class_alone(self):
        """Lots all good, all marginal and all bad stop at a unit known beforehand."""
        stops = [(SINGLE, 38, 8, 3), (DOUBLE, 79, 9, 4), (MULTIPLE, 64, 3, 3),
                 ("5 2 3 1 2".split(), 4, 3, 2), ("1 0 1 0 1".split(), 1, 1, 1)]
        for plan, *expected in stops:
            shares = [("0", "0"), ("100", "0"), ("0", "100")]
            for (marginal, bad), units in zip(shares, expected):
                rows = csv_rows("--marginal", marginal, "--bad", bad, "--digits", "12", *plan)
                self.assertEqual(rows, [[int(marginal), int(bad), units, units]], plan)

    def test_rounded_outward(self):
        """To the next decimal, and to the same one where the bound is that decimal."""
        shares = ["--marginal", "0,12.5", "--bad", "0,2.5,3.0001"]
        for digits in (1, 6, 12):
            unit = Fraction(1, 10**digits)
            rows = csv_rows("--digits", str(digits), *shares, *DOUBLE)
            self.assertEqual(len(rows), 6)
            for marginal, bad, *rounded in rows:
                low, high = bounds(DOUBLE, marginal, bad)
                self.assertTrue(rounded[0] <= low < rounded[0] + unit)
                self.assertTrue(rounded[1] - unit < high <= rounded[1])

    def test_table_is_csv(self):
        """The same numbers, "-" in the table where the shares would add to over 100 %; the columns
        keep their places, whatever the digits and the size of the sample."""
        for digits, plan in product("16", (DOUBLE, "1000 0 1 0 1".split(), "1 0 1 0 1".split())):
            arguments = "--digits", digits, *plan
            title, subtitle, labels, heads, *lines = printed("--units", *arguments).splitlines()
            self.assertEqual(title, f"Expected units, plan {' '.join(plan)}")
            self.assertIn(f"whole sample: {sample_size(plan)} units", subtitle)
            self.assertEqual(heads.split(), ["bad", "%", *["low", "high"] * 3])
            self.assertEqual(len(labels), len(heads))
            self.assertEqual({word_ends(line) for line in lines}, {word_ends(heads)[1:]})
            cells = [cell for line in lines for cell in line.split()[1:] if cell != "-"]
            self.assertEqual({len(cell.split(".")[1]) for cell in cells}, {int(digits)})
            rows = sorted(csv_rows(*arguments), key=lambda row: (row[1], row[0]))
            self.assertEqual([Fraction(cell) for cell in cells],
                             [bound for row in rows for bound in row[2:]])

    def test_default_shares(self):
        """Those of the chance of acceptance, so that the two can be laid side by side."""
        for text in ("5 2 3 1 2", "1 0 1 0 1", "1000 39 40 39 40", "60 59 60 59 60"):
            every = [row[:2] for row in csv_rows(*text.split())]
            self.assertEqual(every, [row[:2] for row in chance_rows(*text.split())])

    def test_readme(self):
        """The units of its sentences."""
        text = " ".join((ROOT / "README.md").read_text(encoding="utf-8").split())
        rows = csv_rows("--marginal", "0", "--bad", "0,2.5,8.5", *DOUBLE)
        clean, middle, coarse = (round((low + high) / 2) for _, _, low, high in rows)
        self.assertIn(f"{clean} units of a lot without bad ones, {middle} where 2.5 % are bad and "
                      f"{coarse} where 8.5 % are", text)
        most = max(row[3] for row in csv_rows("--marginal", "0,4,6,8", *DOUBLE))
        self.assertIn(f"on these curves up to {ceil(most)} of the 160 units of the whole", text)


class Drawing(unittest.TestCase):
    def test_points(self):
        """Each point is where its share and its units are, to a twentieth of a unit of the
        drawing."""
        for plan in (DOUBLE, "125 3 4 3 4".split()):
            found = curves(drawn("--units", "--marginal", "0,5,10", *plan))
            self.assertEqual(list(found), [f"marginal {marginal} %" for marginal in (0, 5, 10)])
            for marginal, points in zip((0, 5, 10), found.values()):
                self.assertGreater(len(points), 100)
                for place, units in points:
                    bad = Fraction(round(place * 10_000), 10_000)
                    mean = float(sum(bounds(plan, marginal, bad))) / 2
                    self.assertAlmostEqual(units, mean, delta=0.05 / 340 * sample_size(plan))

    def test_whole_sample(self):
        """A line at the units of the whole sample, over all of the plot, with its label above."""
        plans = DOUBLE, MULTIPLE, "125 3 4 3 4".split(), "1000 0 1 0 1".split(), "1 0 1 0 1".split()
        for plan in plans:
            root = drawn("--units", *plan)
            size = sample_size(plan)
            line, = (it for it in root.iter(f"{SVG}path") if it.get("class") == "most")
            _, left, y, _, right = line.get("d").split()
            self.assertAlmostEqual(scale(root, "y")(float(y)), size, delta=0.05 / 340 * size)
            ticks = [it for it in root.iter(f"{SVG}text") if it.get("class") == "x"]
            self.assertEqual([left, right], [ticks[0].get("x"), ticks[-1].get("x")])
            label, = (it for it in root.iter(f"{SVG}text")
                      if it.text == f"whole sample: {size} units")
            self.assertTrue(0 < float(y) - float(label.get("y")) < 10)

    def test_numbers_of_the_axis(self):
        """Round, from 0, at most eleven, and up to the whole sample."""
        for text, last in (("80 5 9 1 4 80 12 13 4 5", 160), ("125 3 4 3 4", 120),
                           ("1000 0 1 0 1", 1000), ("5 2 3 1 2", 5), ("1 0 1 0 1", 1)):
            root = drawn("--units", *text.split())
            ticks = [int(it.text) for it in root.iter(f"{SVG}text") if it.get("class") == "y"]
            self.assertEqual(ticks, list(range(0, last + 1, ticks[1])))
            self.assertIn(str(ticks[1]).rstrip("0"), list("125"))
            self.assertLessEqual(len(ticks), 11)

    def test_parts(self):
        arguments = "--units --bad 0,5,20 --marginal 2.5,33.3333".split()
        root = drawn(*arguments, *SINGLE)
        self.assertEqual(root.find(f"{SVG}title").text, "Expected units, plan 40 7 8 2 3")
        self.assertIn(" --units --bad 0,5,20 ", root.find(f"{SVG}desc").text)
        texts = [text.text for text in root.iter(f"{SVG}text")]
        for text in ("Plan (n a1 r1 a2 r2): 40 7 8 2 3", "2.5 %", "33.3333 %", "Marginal units",
                     "Share of bad units (%)", "Expected units",
                     "Expected units at the earliest stop (average sample number)",
                     "Each line is the proved low and high: they are at most 40 / 2^30 apart."):
            self.assertIn(text, texts)
        self.assertEqual(len(root.findall(f"{SVG}polyline")), 2)
        _, _, width, height = map(float, root.get("viewBox").split())
        for text in root.iter(f"{SVG}text"):
            self.assertTrue(0 <= float(text.get("x")) <= width)
            self.assertTrue(0 <= float(text.get("y")) <= height)

    def test_chance_has_no_such_line(self):
        for arguments in ([], ["--lot", "300"]):
            root = drawn(*arguments, *SINGLE)
            self.assertFalse([it for it in root.iter(f"{SVG}path") if it.get("class") == "most"])


class Arguments(unittest.TestCase):
    WRONG = [
        ("--units", "no plan is given"),
        ("--units 5 2 3 1", "length 4 is not a multiple of 5"),
        ("--units 5 2 3 1 3", "the plan is not admitted:"),
        ("--units --bad 101 5 2 3 1 2", "'101' is not a percentage"),
        ("--units --marginal 0,50 --bad 2,50.0001 5 2 3 1 2",
         "50 % marginal and 50.0001 % bad units add to over 100 %"),
        ("--units --bad 5 --svg x.svg 5 2 3 1 2", "a drawing needs two shares of bad units"),
        ("--units=5 2 3 1 2", "--units: ignored explicit argument '5'"),
        ("--lot=300 40 7 8 2 3 --units", "--units does not go with --lot"),
        ("--units --lot 300 40 7 8 2 3", "--units does not go with --lot: expected units are "
         "known for shares only, not for lots of a given size\n"),
    ]

    def test_wrong(self):
        expect_failures(self, self.WRONG)

    def test_help(self):
        """It has the option, and an example that runs."""
        text = run("bin/oc", "--help").stdout
        self.assertIn("\n  --units ", text)
        command, = (line for line in text.splitlines() if line.startswith("  bin/oc --units"))
        done = run(*command.split())
        self.assertEqual((done.returncode, done.stderr), (0, ""))
        self.assertIn("Expected units, plan ", done.stdout)


if __name__ == "__main__":
    unittest.main()
