"""What the scales of bin/oc have in common. A scale says which number is shown, against what, and
in which words."""


class Scale:
    """The number shown is the chance of acceptance, unless a subclass shows another one.

    A subclass has also: whole, kind, columns, least_width, csv_columns, bad_column, title,
    subtitle, heading, axis, text, amount, chance, bounds and beside.
    """

    # A bound is a whole number of 2^-bits.
    bits = 40
    measure = "Chance of acceptance"
    plural = "chances"

    # Where the y axis ends: no value is larger. Where this has a label, a line is drawn at it.
    most = 1
    most_label = None

    # The numbers of the y axis, as values and as texts.
    ticks = [(tenths / 10, f"{tenths / 10:.1f}") for tenths in range(0, 11, 2)]

    def __init__(self, plan, library):
        self.plan = plan
        self.library = library
        self.sample = sum(plan[::5])
        self.note = (f"Each line is the proved low and high: they are at most {self.sample} / "
                     f"2^{self.bits} apart.")

    def unlikely(self, bad):
        """Whether the chance of acceptance without marginal units is below 1 %."""
        return 100 * self.chance(0, bad)[1] < 2**Scale.bits
