"""A lot of known size, by whole numbers of its units; beside it a large lot with the same shares,
which drawing does not change."""

import re
from fractions import Fraction

from oc_scale import Scale
from oc_shares import WHOLE

# The most units of a lot.
MOST = 1_000_000


def lot_size(text):
    size = _number(text)
    if size is None or not 1 <= size <= MOST:
        raise ValueError(f"'{text}' is not a whole number from 1 to {MOST}")
    return size


def units(text):
    """Whole numbers with commas between them, in ascending order and each once."""
    return sorted(set(map(_units, text.split(","))))


def _units(text):
    number = _number(text)
    if number is None or number > MOST:
        raise ValueError(f"'{text}' is not a whole number of units from 0 to {MOST}")
    return number


def _number(text):
    return int(text) if re.fullmatch("[0-9]{1,7}", text) else None


class Lot(Scale):
    """What bin/oc shows for a lot, as oc_shares.Shares for shares."""

    kind = "numbers"
    columns = ["lot low", "lot high", "low", "high"]
    least_width = max(map(len, columns))
    csv_columns = ["marginal_units", "bad_units", "lot_low", "lot_high", "low", "high"]
    bad_column = "bad"
    axis = "Bad units in the lot"
    subtitle = "lot low, lot high: this lot; low, high: a very large lot with the same shares"

    def __init__(self, plan, library, size):
        super().__init__(plan, library)
        self.whole = size
        self.heading = f"Operating characteristic, lot of {size} units"
        self.title = f"{self.measure}, lot of {size} units, plan {' '.join(map(str, plan))}"
        self.note += " A large lot has the same shares."

    def text(self, number):
        return str(number)

    amount = text

    def chance(self, marginal, bad):
        lot = self.whole - marginal - bad, marginal, bad
        return self.library.lot_chance(self.plan, lot)

    def bounds(self, marginal, bad):
        """Low and high of the lot, then of a large lot."""
        return [self.chance(marginal, bad), self.large_lot(marginal, bad)]

    def large_lot(self, marginal, bad):
        """Low and high; the bad units may be a fraction."""
        numbers = self.whole - marginal - bad, marginal, bad
        parts = Fraction(bad).denominator
        return self.library.chance(self.plan, [int(number * parts) for number in numbers])

    def beside(self, marginal, bads):
        """Bad units, with parts of one where they are few so that the curve looks smooth, each
        with low and high of a large lot."""
        steps = bads[-1] - bads[0]
        parts = min(-(-120 // steps), WHOLE // self.whole)
        if parts > 1:
            first, last = parts * bads[0], parts * bads[-1]
            bads = [Fraction(part, parts) for part in range(first, last + 1)]
        fitting = [bad for bad in bads if marginal + bad <= self.whole]
        return [(float(bad), self.large_lot(marginal, bad)) for bad in fitting]
