"""The broken rules of a plan in words, in Python and Rust, on the stored cases' plans."""

import re
import unittest

import haqothwe
from common import ROOT, built_rust, run

# As both a1 and a2: acceptance is not permitted.
MOST = 2**32 - 1

# Plans with all sentences that they get, one for each rule at least.
EXAMPLES = [
    ([5, 2, 3, 1, 2], []),
    ([], ["k = 0 is below 1"]),
    ([5, 2, 3, 1], ["length 4 is not a multiple of 5"]),
    ([1000, 1, 3, 1, 3, 0, 2, 3, 2, 3], ["stage 2: n = 0 is below 1"]),
    ([1001, 2, 3, 1, 2], ["S = 1001 is above 1000"]),
    ([100, 60, 61, 1, 2], ["stage 1, the last: r1 = 61 is above 60"]),
    ([10, 2, 6, 1, 3, 10, 1, 6, 1, 5, 10, 6, 7, 5, 6],
     ["stage 2: a1 = 1 is below a1 = 2 of stage 1"]),
    ([10, 2, 6, 5, 7, 10, 6, 8, 5, 6],
     ["stage 2, the last: a1 + 1 = 7 is not r1 = 8",
      "stage 2, the last: a2 = 5 is not above a2 = 5 of stage 1",
      "stage 2: r2 = 6 is below r2 = 7 of stage 1",
      "stage 1: a2 = 5 is above a1 = 2",
      "stage 1: r2 = 7 is above r1 = 6"]),
    ([10, 2, 3, 1, 3, 10, 6, 7, 5, 6], ["stage 1: a1 + 1 = 3 is not below r1 = 3"]),
    ([3, 3, 6, 1, 5, 10, 6, 7, 5, 6], ["stage 1: a1 = 3 is not below S1 = 3"]),
    ([5, 5, 6, 1, 2],
     ["stage 1: a1 = 5 is not below S1 = 5", "stage 1, the last: r1 = 6 is above S = 5"]),
    ([5, MOST, 0, 0, 1],
     ["stage 1, the last: a1 + 1 = 4294967296 is not r1 = 0",
      "stage 1: a1 = 4294967295 is not below S1 = 5",
      "stage 1: r2 = 1 is above r1 = 0"]),

    # Early stages where acceptance is not permitted; their units count in S2, as in 9 < S2 = 10.
    ([10, MOST, 3, MOST, 2, 10, 6, 7, 4, 5], []),
    ([10, MOST, 1, MOST, 1] * 6 + [10, 6, 7, 4, 5], []),
    ([5, MOST, 11, MOST, 3, 5, 9, 11, 0, 3, 5, 10, 11, 2, 3], []),
    ([32, MOST, 3, MOST, 3, 32, 0, 3, 0, 3, 32, 1, 4, 1, 4, 32, 2, 5, 2, 5,
      32, 3, 6, 3, 6, 32, 4, 6, 4, 6, 32, 6, 7, 6, 7], []),
    ([10, MOST, 1, MOST, 0, 10, 6, 7, 4, 5],
     ["stage 1, where acceptance is not permitted: r2 = 0 is below 1"]),
    ([10, MOST, 1, MOST, 1, 10, MOST, 0, MOST, 1, 10, 6, 7, 4, 5],
     ["stage 2: r1 = 0 is below r1 = 1 of stage 1",
      "stage 2, where acceptance is not permitted: r1 = 0 is below 1",
      "stage 2: r2 = 1 is above r1 = 0"]),
    ([10, MOST, 3, MOST, 3, 10, MOST, 3, MOST, 2, 10, 6, 7, 4, 5],
     ["stage 2: r2 = 2 is below r2 = 3 of stage 1"]),
    ([10, MOST, 8, MOST, 2, 10, 6, 7, 4, 5], ["stage 2: r1 = 7 is below r1 = 8 of stage 1"]),
    ([5, MOST, 3, MOST, 2], ["stage 1, the last: acceptance is not permitted"]),
    ([10, MOST, 3, MOST, 2, 10, MOST, 7, MOST, 5],
     ["stage 2, the last: acceptance is not permitted"]),
    ([5, MOST, 8, MOST, 3, 5, 6, 8, 0, 3, 5, 5, 8, 2, 3],
     ["stage 3: a1 = 5 is below a1 = 6 of stage 2",
      "stage 3, the last: a1 = 5 is not above a1 = 6 of stage 2",
      "stage 3, the last: a1 + 1 = 6 is not r1 = 8"]),

    # Acceptance numbers that are ordinary: in one row alone, after a stage with numbers, one less.
    ([10, MOST, 7, 1, 5, 10, 6, 7, 4, 5],
     ["stage 2: a1 = 6 is below a1 = 4294967295 of stage 1",
      "stage 2, the last: a1 = 6 is not above a1 = 4294967295 of stage 1",
      "stage 1: a1 + 1 = 4294967296 is not below r1 = 7",
      "stage 1: a1 = 4294967295 is not below S1 = 10"]),
    ([10, 1, 7, MOST, 5, 10, 6, 7, 4, 5],
     ["stage 2: a2 = 4 is below a2 = 4294967295 of stage 1",
      "stage 2, the last: a2 = 4 is not above a2 = 4294967295 of stage 1",
      "stage 1: a2 + 1 = 4294967296 is not below r2 = 5",
      "stage 1: a2 = 4294967295 is not below S1 = 10",
      "stage 1: a2 = 4294967295 is above a1 = 1"]),
    ([10, 1, 7, 1, 5, 10, MOST, 7, MOST, 5],
     ["stage 2, the last: a1 + 1 = 4294967296 is not r1 = 7",
      "stage 2: a1 = 4294967295 is not below S2 = 20",
      "stage 2, the last: a2 + 1 = 4294967296 is not r2 = 5",
      "stage 2: a2 = 4294967295 is not below S2 = 20"]),
    ([10, 1, 7, 1, 5, 10, MOST, 7, MOST, 5, 10, 6, 7, 4, 5],
     ["stage 3: a1 = 6 is below a1 = 4294967295 of stage 2",
      "stage 3, the last: a1 = 6 is not above a1 = 4294967295 of stage 2",
      "stage 2: a1 + 1 = 4294967296 is not below r1 = 7",
      "stage 2: a1 = 4294967295 is not below S2 = 20",
      "stage 3: a2 = 4 is below a2 = 4294967295 of stage 2",
      "stage 3, the last: a2 = 4 is not above a2 = 4294967295 of stage 2",
      "stage 2: a2 + 1 = 4294967296 is not below r2 = 5",
      "stage 2: a2 = 4294967295 is not below S2 = 20"]),
    ([10, MOST - 1, 7, MOST - 1, 5, 10, 6, 7, 4, 5],
     ["stage 2: a1 = 6 is below a1 = 4294967294 of stage 1",
      "stage 2, the last: a1 = 6 is not above a1 = 4294967294 of stage 1",
      "stage 1: a1 + 1 = 4294967295 is not below r1 = 7",
      "stage 1: a1 = 4294967294 is not below S1 = 10",
      "stage 2: a2 = 4 is below a2 = 4294967294 of stage 1",
      "stage 2, the last: a2 = 4 is not above a2 = 4294967294 of stage 1",
      "stage 1: a2 + 1 = 4294967295 is not below r2 = 5",
      "stage 1: a2 = 4294967294 is not below S1 = 10"]),
]

# Fields before the plan in a line of the stored cases (tests/reference/lines/plan_lines.rs).
FIELDS_BEFORE = {"a": 1, "j": 2, "c": 5, "f": 5, "l": 5, "u": 5, "v": 5}


def stored_plans():
    """The plans of the stored cases, each once."""
    lines = (ROOT / "crates" / "vectors" / "stdin").read_text(encoding="ascii").splitlines()
    fields = [line.split(" ") for line in lines]
    plans = dict.fromkeys(tuple(map(int, line[FIELDS_BEFORE[line[0]]:])) for line in fields)
    return [list(plan) for plan in plans]


def admitted(plan):
    try:
        haqothwe.judge(plan, [])
    except haqothwe.Plan:
        return False
    return True


class Rules(unittest.TestCase):
    def test_examples(self):
        for plan, sentences in EXAMPLES:
            self.assertEqual(haqothwe.broken_rules(plan), sentences, plan)

    def test_mark(self):
        """The number in Python and in C; that of Rust is the one that its rules use."""
        header = (ROOT / "include" / "haqothwe.h").read_text(encoding="ascii")
        self.assertEqual(haqothwe.NOT_PERMITTED, MOST)
        self.assertIn(f"#define HAQ_NOT_PERMITTED {MOST}u\n", header)

    def test_words(self):
        for number in (-1, 2**32):
            with self.assertRaises(OverflowError):
                haqothwe.broken_rules([5, 2, 3, 1, number])

    def test_stored_plans(self):
        plans = stored_plans() + [plan for plan, _ in EXAMPLES]
        self.assertGreater(len(plans), 1000)
        kinds = set()
        lines = []
        for plan in plans:
            broken = haqothwe.broken_rules(plan)
            self.assertEqual(not broken, admitted(plan), plan)
            kinds.update(re.sub(r"(?<![ar])\d+", "0", sentence) for sentence in broken)
            lines.append(f"{str(not broken).lower()}: {'; '.join(broken)}")
        # Each rule is broken by a plan: seven on the whole, eight in each row, two between rows.
        self.assertEqual(len(kinds), 7 + 2 * 8 + 2, kinds)
        given = "".join(" ".join(map(str, plan)) + "\n" for plan in plans)
        done = run(built_rust("tests/interface/rules.rs"), input=given)
        self.assertEqual(done.stdout.splitlines(), lines, done.stderr)


if __name__ == "__main__":
    unittest.main()
