"""Shares of a lot, as whole numbers of millionths, so that they are weights without rounding."""

import re
from itertools import count

from oc_scale import Scale

# All units of a lot; the most that weights may add to.
WHOLE = 1_000_000


def shares(text):
    """Percentages with commas between them, in ascending order and each once."""
    return sorted(set(map(_share, text.split(","))))


def _share(text):
    match = re.fullmatch(r"([0-9]{1,3})(?:\.([0-9]{1,4}))?", text)
    share = match and int(match[1]) * 10_000 + int((match[2] or "").ljust(4, "0"))
    if share is None or share > WHOLE:
        raise ValueError(f"'{text}' is not a percentage from 0 to 100 with at most four decimals")
    return share


def percent(share):
    return f"{share / 10_000:g}"


class Shares(Scale):
    """What bin/oc shows for a lot so large that drawing does not change its shares."""

    whole = WHOLE
    kind = "shares"
    columns = ["low", "high"]
    least_width = 0
    csv_columns = ["marginal_percent", "bad_percent", "low", "high"]
    bad_column = "bad %"
    heading = "Operating characteristic"
    axis = "Share of bad units (%)"

    def __init__(self, plan, library):
        super().__init__(plan, library)
        self.title = f"{self.measure}, plan {' '.join(map(str, plan))}"
        self.subtitle = ""

    def text(self, share):
        return percent(share)

    def amount(self, share):
        return f"{percent(share)} %"

    def weights(self, marginal, bad):
        return WHOLE - marginal - bad, marginal, bad

    def chance(self, marginal, bad):
        return self.library.chance(self.plan, self.weights(marginal, bad))

    def bounds(self, marginal, bad):
        """Pairs of low and high."""
        return [self.chance(marginal, bad)]

    def beside(self, marginal, bads):
        """No curve is drawn beside this one."""
        return []


def round_step(span, most):
    """The least of 1, 2, 5, 10, 20, 50, .. that covers a span in at most so many steps."""
    steps = (digit * 10**zeros for zeros in count() for digit in (1, 2, 5))
    return next(step for step in steps if step * most >= span)


def rounds(last, most):
    """Round shares from 0 to the first that is not below the last, at most so many steps."""
    step = round_step(last, most)
    return list(range(0, last + step, step))
