"""The refusals in C, C++, Rust, Python and README.md against docs/SPECIFICATION.md."""

import pickle
import re
import unittest

import haqothwe
from common import ROOT, built, built_rust, camel, refusals, run

TABLE = refusals()

# Numbers of no refusal: the first after the table's, and the last.
BEYOND = [len(TABLE) + 1, 2**32 - 1]

ONE_STAGE = [5, 2, 3, 1, 2]
TWO_STAGES = [10, 0, 3, 0, 3, 1, 5, 6, 5, 6]

# Old sheets, of 48 and of 52 words.
OLD_EMPTY = [11, 0, 0, 1, *ONE_STAGE, *[0] * 39]
OLD_WITH_LOT_7 = [13, 11, 0, 1, *ONE_STAGE, *[0] * 35, 7, 0, 12, 0, 0, 0, 11, 1]

STRICT = ["-Wall", "-Wextra", "-Wpedantic", "-Werror", "-Iinclude"]


def asked(program, numbers):
    """The lines that a program prints for numbers on its standard input."""
    done = run(program, input="".join(f"{number}\n" for number in numbers))
    if done.returncode:
        raise AssertionError(done.stderr)
    return done.stdout.splitlines()


class Words(unittest.TestCase):
    def test_table(self):
        """Each number once, in ascending order but for 18 and 20, which follow 3, 19, which follows
        11, and 17, which follows 13."""
        numbers = [row.number for row in TABLE]
        self.assertEqual(numbers, [1, 2, 3, 18, 20, *range(4, 12), 19, 12, 13, 17, 14, 15, 16])

    def test_readme(self):
        self.assertEqual(refusals("README.md", "Refusals"), TABLE)

    def c_texts(self, *compiler):
        program = built(*compiler, *STRICT, "tests/interface/texts.c")
        texts = asked(program, [0, *(row.number for row in TABLE), *BEYOND])
        self.assertEqual(texts[0], "granted")
        self.assertEqual(texts[1:-2], [row.text for row in TABLE])
        self.assertEqual(texts[-2:], ["unknown refusal"] * 2)

    def test_c(self):
        self.c_texts("gcc", "-std=c11")

    def test_cpp(self):
        self.c_texts("g++", "-std=c++17", "-x", "c++")

    def test_header(self):
        """Names, numbers and comments in order; a comment may say more than the sentence."""
        header = (ROOT / "include" / "haqothwe.h").read_text(encoding="utf-8")
        enum = header.split("enum haq_refusal {", 1)[1].split("};", 1)[0]
        found = re.findall(r"HAQ_(\w+) = (\d+),? */\* (.*?) \*/", " ".join(enum.split()))
        self.assertEqual(len(found), len(TABLE))
        for row, (name, number, comment) in zip(TABLE, found):
            self.assertEqual(name, row.name.upper().replace(" ", "_"))
            self.assertEqual(int(number), row.number)
            self.assertRegex(comment, f"^{re.escape(row.text)}(;| \\(\"|$)")

    def test_rust(self):
        program = built_rust("tests/interface/texts.rs")
        lines = asked(program, [*(row.number for row in TABLE), *BEYOND])
        expected = [f"{camel(name)} {number} refused {number}: {text}"
                    for number, name, text in TABLE]
        expected += [f"Other({number}) {number} refused {number}: unknown refusal"
                     for number in BEYOND]
        self.assertEqual(lines, expected + ["refused 8: the lot is decided"])

    def test_rust_order(self):
        source = (ROOT / "bindings" / "rust" / "haqothwe.rs").read_text(encoding="utf-8")
        table = source.split("\nrefusals! {\n", 1)[1].split("\n}\n", 1)[0]
        found = re.findall(r'^ +(\d+) (\w+) "(.*)"$', table, re.MULTILINE)
        expected = [(str(number), camel(name), text) for number, name, text in TABLE]
        self.assertEqual(found, expected)

    def test_python(self):
        self.assertEqual(list(haqothwe.REFUSALS), [row.number for row in TABLE])
        for number, name, text in TABLE:
            kind = getattr(haqothwe, camel(name))
            self.assertIs(kind, haqothwe.REFUSALS[number])
            self.assertTrue(issubclass(kind, haqothwe.Refused))
            self.assertEqual((kind.number, kind.text), (number, text))
            self.assertEqual(str(kind(number)), f"refused {number}: {text}")
            copy = pickle.loads(pickle.dumps(kind(number)))
            self.assertEqual((type(copy), copy.number), (kind, number))
        for number in BEYOND:
            self.assertEqual(str(haqothwe.Refused(number)), f"refused {number}: unknown refusal")


def shares_with(*shares):
    """Shares for offices 0, 1, .., and 0 for the others."""
    return [*shares, *[0] * (haqothwe.OFFICES - len(shares))]


def sheet_with(lot, *classes, plan=ONE_STAGE, words=80):
    sheet = haqothwe.Sheet(words)
    sheet.fresh(plan)
    sheet.open(lot)
    for class_ in classes:
        sheet.inspect(lot, class_)
    return sheet


class Raised(unittest.TestCase):
    """Each refusal that a call of the library can give comes as its own exception."""

    def refused(self, kind, function, *rest):
        with self.assertRaises(kind) as caught:
            function(*rest)
        self.assertIs(type(caught.exception), kind)
        self.assertEqual(caught.exception.number, kind.number)

    def test_sheet(self):
        sheet = sheet_with(7)
        self.refused(haqothwe.SheetSize, haqothwe.Sheet(63).fresh, ONE_STAGE)
        self.refused(haqothwe.Plan, sheet.fresh, [])
        self.refused(haqothwe.Corrupt, haqothwe.Sheet(64).open, 7)
        self.refused(haqothwe.LotZero, sheet.open, 0)
        self.refused(haqothwe.OpenAlready, sheet.open, 7)
        self.refused(haqothwe.NotOpen, sheet.look, 8)
        self.refused(haqothwe.NoneToStrike, sheet.strike, 7)
        self.refused(haqothwe.Undecided, sheet.close, 7)
        self.refused(haqothwe.Full, sheet_with(7, words=64).open, 8)

    def test_shares(self):
        """Each row before those that follow it: 1, 2, 18. The sum does not wrap."""
        sheet = haqothwe.Sheet(80)
        most = 2**32 - 1
        for shares in (shares_with(6), shares_with(1, 5), shares_with(2**31, 2**31), [most] * 16):
            self.refused(haqothwe.SheetSize, haqothwe.Sheet(63).fresh, [], shares)
            self.refused(haqothwe.Plan, sheet.fresh, [], shares)
            self.refused(haqothwe.Shares, sheet.fresh, ONE_STAGE, shares)
        sheet.fresh(ONE_STAGE, shares_with(1, 4))
        self.assertEqual(sheet.words[44:60], shares_with(1, 4))
        sheet.words[59] = 1
        self.refused(haqothwe.Corrupt, sheet.open, 1)

    def test_number_of_shares(self):
        """Sixteen, else no call is made; without them they are 0."""
        for call, given in (("fresh", ONE_STAGE), ("carry", OLD_EMPTY)):
            for length in (0, 15, 17):
                sheet = haqothwe.Sheet(80)
                with self.assertRaises(ValueError):
                    getattr(sheet, call)(given, [0] * length)
                self.assertFalse(any(sheet.words))
            sheet.words[44:60] = [1] * 16
            getattr(sheet, call)(given)
            self.assertEqual(sheet.words[44:60], [0] * 16)

    def test_carry(self):
        """Each row before those that follow it: 1 of either sheet, 3 of the old one, 18, 20."""
        call, too_many = haqothwe.Sheet.carry, shares_with(1, 1)
        zeros = [0] * 65_537
        for old, words in (([], 64), (zeros[:47], 64), (zeros, 64), (zeros[:48], 63),
                           (zeros[:48], 65_537)):
            self.refused(haqothwe.SheetSize, call, haqothwe.Sheet(words), old, too_many)
        self.refused(haqothwe.Corrupt, call, haqothwe.Sheet(67), zeros[:48], too_many)
        for shares in (too_many, [2**32 - 1] * 16):
            self.refused(haqothwe.Shares, call, haqothwe.Sheet(67), OLD_WITH_LOT_7, shares)
        self.refused(haqothwe.NoFit, call, haqothwe.Sheet(67), OLD_WITH_LOT_7, shares_with(1))
        sheet = haqothwe.Sheet(68)
        sheet.carry(OLD_WITH_LOT_7, shares_with(1))
        self.assertEqual(sheet.look(7), (haqothwe.UNDECIDED, 1, 1, 0, 0, 0))

    def test_carried_shares(self):
        """The shares given hold on the sheet that an old one is carried into."""
        sheet = haqothwe.Sheet(64)
        sheet.carry(OLD_EMPTY, shares_with(0, 1))
        self.assertEqual(sheet.words[44:60], shares_with(0, 1))
        self.refused(haqothwe.HeldBack, sheet.open, 16)
        sheet.open(17)
        self.refused(haqothwe.Full, sheet.open, 16)

    def test_held_back(self):
        """An office at its share gets 19 while others lack all that is left, and then 11."""
        sheet = haqothwe.Sheet(80)
        sheet.fresh(ONE_STAGE, shares_with(2, 2))
        sheet.open(16)
        sheet.inspect(16, 0)
        sheet.inspect(16, 0)
        for lot in (17, 33):
            self.refused(haqothwe.HeldBack, sheet.open, 32)
            self.refused(haqothwe.HeldBack, sheet.inspect, 16, 0)
            sheet.open(lot)
        self.refused(haqothwe.Full, sheet.open, 32)
        self.refused(haqothwe.Full, sheet.inspect, 16, 0)

    def test_class(self):
        """The greatest class is 3, and the whole list is asked, past every stop too."""
        sheet = sheet_with(7, 3)
        for class_ in (4, 2**32 - 1):
            self.refused(haqothwe.Class, sheet.inspect, 7, class_)
        self.assertEqual(sheet.look(7), (haqothwe.UNDECIDED, 1, 0, 1, 0, 1))
        self.assertEqual(haqothwe.judge(ONE_STAGE, [3] * 9), haqothwe.judge(ONE_STAGE, [1] * 9))
        self.refused(haqothwe.Class, haqothwe.judge, ONE_STAGE, [3] * 9 + [4])

    def test_decided_lot(self):
        sheet = sheet_with(7, 2, 2)
        self.refused(haqothwe.Decided, sheet.inspect, 7, 0)
        sheet.words[39] = 4_000_000
        self.refused(haqothwe.TallyFull, sheet.close, 7)
        staged = sheet_with(7, 2, 2, 2, plan=TWO_STAGES)
        self.refused(haqothwe.SeveralStages, staged.estimate, 7)

    def test_chance(self):
        self.refused(haqothwe.Weights, haqothwe.chance, ONE_STAGE, (0, 0, 0))
        self.refused(haqothwe.ScratchShort, haqothwe.chance, ONE_STAGE, (1, 1, 1), 11)

    def test_lot_chance(self):
        """Each row before those that follow it: 2, 17, 14."""
        call = haqothwe.lot_chance
        for lot in ((0, 0, 0), (0, 3, 1), (1_000_000, 0, 1), (2**32 - 1, 1, 5)):
            self.refused(haqothwe.Plan, call, [5, 2, 3, 1, 3], lot, 0)
            self.refused(haqothwe.LotSize, call, ONE_STAGE, lot, 0)
        for lot in ((5, 0, 0), (0, 0, 5), (999_990, 5, 5)):
            self.refused(haqothwe.ScratchShort, call, ONE_STAGE, lot, 11)
            self.assertEqual(len(call(ONE_STAGE, lot, 12)), 2)


if __name__ == "__main__":
    unittest.main()
