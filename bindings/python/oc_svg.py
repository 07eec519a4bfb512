"""The curves of bin/oc as an SVG drawing, with a white ground, so that it can be read on any
page."""

from collections import namedtuple
from xml.sax.saxutils import escape

from oc_shares import rounds

WIDTH, HEIGHT = 800, 510

# The edges of the plot.
LEFT, RIGHT, TOP, BOTTOM = 80, 640, 92, 432

# Colour and dashes of each curve: they differ without colour too.
STROKES = [
    ("#0072b2", "none"),
    ("#d55e00", "10 4"),
    ("#007a5a", "3 3"),
    ("#a8488b", "12 3 3 3"),
    ("#000000", "1 3"),
    ("#b07800", "20 5"),
    ("#2f8fc4", "6 2 2 2 2 2"),
    ("#777777", "16 3 6 3"),
]

INK, GRID = "#222222", "#dddddd"

# A point is marked on a curve that has at most so many, beside which there is another.
FEW_POINTS = 40

# The marginal units as text, pairs of the bad units and a value, and such pairs of the thin curve
# beside, if there is one.
Curve = namedtuple("Curve", "marginal points beside")


def drawing(scale, curves, command):
    """scale: an oc_scale.Scale."""
    ticks = rounds(max(bad for curve in curves for bad, _ in curve.points), 10)
    plot = _Plot(ticks[-1], scale.most)
    parts = [*_titles(scale), *_axes(scale, plot, ticks), *_most(scale, plot),
             *_curves(curves, plot), *_legend(curves),
             _text(20, HEIGHT - 8, scale.note, 'font-size="12"')]
    return f"""\
<svg xmlns="http://www.w3.org/2000/svg" viewBox="0 0 {WIDTH} {HEIGHT}" width="{WIDTH}" \
height="{HEIGHT}" role="img" font-family="Helvetica, Arial, sans-serif" font-size="14" fill="{INK}">
<title>{scale.title}</title>
<desc>Made by: {escape(command)}</desc>
<rect width="{WIDTH}" height="{HEIGHT}" fill="#ffffff"/>
{chr(10).join(parts)}
</svg>
"""


class _Plot(namedtuple("_Plot", "last most")):
    """From bad units and a value to their place, by the ends of the axes."""

    def across(self, bad):
        return LEFT + (RIGHT - LEFT) * bad / self.last

    def down(self, value):
        return BOTTOM - (BOTTOM - TOP) * value / self.most


def _text(x, y, content, more=""):
    return f'<text x="{x:g}" y="{y:g}" {more}>{escape(content)}</text>'


def _line(x1, y1, x2, y2, stroke):
    return f'<line x1="{x1:g}" y1="{y1:g}" x2="{x2:g}" y2="{y2:g}" stroke="{stroke}"/>'


def _titles(scale):
    """Seven stages take two lines."""
    plan = scale.plan
    stages = [" ".join(map(str, plan[i:i + 5])) for i in range(0, len(plan), 5)]
    yield _text(20, 28, scale.heading, 'font-size="18" font-weight="bold"')
    yield _text(20, 50, f"Plan (n a1 r1 a2 r2): {' / '.join(stages[:4])}")
    if stages[4:]:
        yield _text(20, 68, f"/ {' / '.join(stages[4:])}")


def _axes(scale, plot, ticks):
    """Grid, ticks with their numbers, and what the axes are."""
    for bad in ticks:
        x = plot.across(bad)
        yield _line(x, TOP, x, BOTTOM, GRID)
        yield _text(x, BOTTOM + 20, scale.text(bad), 'class="x" text-anchor="middle"')
    for value, text in scale.ticks:
        y = plot.down(value)
        yield _line(LEFT, y, RIGHT, y, GRID)
        yield _text(LEFT - 10, y + 5, text, 'class="y" text-anchor="end"')
    yield _line(LEFT, TOP, LEFT, BOTTOM, INK)
    yield _line(LEFT, BOTTOM, RIGHT, BOTTOM, INK)
    x, y = (LEFT + RIGHT) / 2, (TOP + BOTTOM) / 2
    yield _text(x, BOTTOM + 44, scale.axis, 'text-anchor="middle"')
    yield _text(28, y, scale.measure,
                f'text-anchor="middle" transform="rotate(-90 28 {y:g})"')


def _most(scale, plot):
    """The line at the largest value, to compare the curves with, and its label above the plot."""
    if scale.most_label:
        y = plot.down(scale.most)
        yield f'<path class="most" d="M {LEFT} {y:g} H {RIGHT}" stroke="{INK}" stroke-width="2"/>'
        yield _text(RIGHT, y - 6, scale.most_label, 'text-anchor="end"')


def _stroke(index, width=2.5):
    colour, dashes = STROKES[index]
    return f'fill="none" stroke="{colour}" stroke-width="{width}" stroke-dasharray="{dashes}"'


def _curves(curves, plot):
    for index, curve in enumerate(curves):
        label = f"marginal {curve.marginal}"
        if curve.beside:
            yield _curve(_stroke(index, 1), curve.beside, plot, f"{label}, a large lot")
        yield _curve(_stroke(index), curve.points, plot, label)
        if curve.beside and len(curve.points) <= FEW_POINTS:
            yield from _markers(STROKES[index][0], curve.points, plot)


def _curve(stroke, points, plot, label):
    places = " ".join(f"{plot.across(bad):.2f},{plot.down(value):.2f}" for bad, value in points)
    return f'<polyline {stroke} points="{places}"><title>{label}</title></polyline>'


def _markers(colour, points, plot):
    for bad, value in points:
        yield (f'<circle cx="{plot.across(bad):.2f}" cy="{plot.down(value):.2f}" r="3" '
               f'fill="{colour}"/>')


def _legend(curves):
    x, y = RIGHT + 24, TOP + 12
    yield _text(x, y, "Marginal units")
    for index, curve in enumerate(curves):
        y += 24
        yield f'<path d="M {x} {y - 5} h 44" {_stroke(index)}/>'
        yield _text(x + 52, y, curve.marginal)
    if any(curve.beside for curve in curves):
        for width, which in ((2.5, "this lot"), (1, "a large lot")):
            y += 24
            yield f'<path d="M {x} {y + 7} h 44" stroke="{INK}" stroke-width="{width}"/>'
            yield _text(x + 52, y + 12, which)
