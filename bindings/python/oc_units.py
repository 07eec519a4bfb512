"""The expected units of a plan: how many are inspected up to the earliest stop, on average. The
field's term is average sample number."""

from oc_shares import Shares, round_step


class ExpectedUnits(Shares):
    """What bin/oc shows with --units, for the same shares as the chance of acceptance."""

    bits = 30
    measure = "Expected units"
    plural = "values"
    least_width = max(map(len, Shares.columns))
    csv_columns = ["marginal_percent", "bad_percent", "units_low", "units_high"]
    heading = "Expected units at the earliest stop (average sample number)"

    def __init__(self, plan, library):
        super().__init__(plan, library)
        self.most = self.sample
        self.most_label = f"whole sample: {self.sample} units"
        self.subtitle = f"up to the earliest stop; {self.most_label}"
        step = round_step(self.sample, 10)
        self.ticks = [(units, str(units)) for units in range(0, self.sample + 1, step)]

    def bounds(self, marginal, bad):
        """One pair of low and high."""
        return [self.library.units(self.plan, self.weights(marginal, bad))]
