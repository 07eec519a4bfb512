"""bin/oc: the operating characteristic of a plan, which is its chance of acceptance against the
share of bad units, or the bad units of a lot, as a table, as CSV and as a drawing; and so its
expected units."""

import argparse
import csv
import os
import shlex
import subprocess
import sys
from itertools import pairwise
from pathlib import Path

import oc_svg
from oc_lot import Lot, lot_size, units
from oc_shares import Shares, round_step, rounds, shares
from oc_units import ExpectedUnits
from plan_rules import broken_rules

ROOT = Path(__file__).resolve().parents[2]

DESCRIPTION = """\
Prints the chance that a plan accepts a lot, for shares of bad and of marginal units: the proved
low and high, low rounded down and high rounded up. A plan has five numbers a stage:
n a1 r1 a2 r2. With --lot also the chance for a lot of so many units, from which the sample is
drawn without replacement; bad and marginal units are then whole numbers of the lot's units. With
--units the expected number of units inspected up to the earliest stop (average sample number), in
place of the chance."""

EXAMPLES = """\
examples:
  bin/oc 40 7 8 2 3
  bin/oc --marginal 5,10,15,20 --bad 2,4,6,8 40 7 8 2 3
  bin/oc --csv 80 5 9 1 4 80 12 13 4 5
  bin/oc --svg target/oc.svg 80 5 9 1 4 80 12 13 4 5
  bin/oc --lot 300 --marginal 0,15 --bad 0,3,6,9,12 40 7 8 2 3
  bin/oc --units --digits 2 --marginal 0,4,6,8 80 5 9 1 4 80 12 13 4 5"""


class Failure(Exception):
    """What is wrong, as a sentence, and the exit status."""

    def __init__(self, sentence, status=2):
        super().__init__(sentence)
        self.status = status


def option_type(read):
    """For argparse, which prints the sentence of this error only."""
    def typed(text):
        try:
            return read(text)
        except ValueError as error:
            raise argparse.ArgumentTypeError(error) from None
    return typed


def word(text):
    if not (text.isascii() and text.isdigit() and int(text) < 2**32):
        raise ValueError(f"'{text}' is not a number from 0 to 4294967295")
    return int(text)


def digits(text):
    if text not in map(str, range(1, 13)):
        raise ValueError(f"'{text}' is not a number from 1 to 12")
    return int(text)


def parsed(arguments):
    of_lot = any(it.split("=")[0] == "--lot" for it in arguments)
    amounts = option_type(units if of_lot else shares)
    parser = argparse.ArgumentParser(
        prog="bin/oc", description=DESCRIPTION, epilog=EXAMPLES, allow_abbrev=False,
        formatter_class=argparse.RawDescriptionHelpFormatter)
    add = parser.add_argument
    add("plan", nargs="*", type=option_type(word), metavar="NUMBER", help="the plan")
    add("--lot", type=option_type(lot_size), metavar="N",
        help="size of the lot, 1 to 1000000; --marginal and --bad are then numbers of units")
    add("--units", action="store_true",
        help="show the expected units; for shares only, not with --lot")
    add("--marginal", type=amounts, metavar="PERCENT,..",
        help="shares of marginal units; else three that suit the plan")
    add("--bad", type=amounts, metavar="PERCENT,..",
        help="shares of bad units; else from 0 to where the chance of acceptance is below 1 %%")
    add("--digits", type=option_type(digits), default=6, metavar="N",
        help="digits after the point; else 6")
    add("--csv", action="store_true", help="print CSV")
    add("--svg", metavar="FILE", help="draw the curves into a file too")
    return parser.parse_intermixed_args(arguments)


def library():
    """The wrapper. Its shared object is made first where it is missing and no other is named.

    It is not imported above, so that help and wrong arguments need no library.
    """
    missing = not (ROOT / "target" / "libhaqothwe.so").exists()
    try:
        if missing and "HAQOTHWE_LIBRARY" not in os.environ:
            subprocess.run([ROOT / "bin" / "shared-object"], check=True)
        import haqothwe
    except (OSError, subprocess.CalledProcessError) as error:
        raise Failure(f"the library cannot be loaded: {error}", 1) from None
    return haqothwe


def default_marginals(plan, whole):
    """0 and two more, near the share of nongood units at which the last stage turns."""
    sample, a1 = sum(plan[::5]), plan[-4]
    step = min(round_step((2 * a1 + 1) * whole // (6 * sample), 1), whole // 5)
    return [0, max(step, 1), 2 * max(step, 1)]


def default_bads(scale):
    """From 0 to where the chance without marginal units, which never rises, is below 1 %."""
    low, high = 0, scale.whole
    while high - low > high // 50 + 1:
        middle = (low + high) // 2
        if scale.unlikely(middle):
            high = middle
        else:
            low = middle
    return sorted({min(bad, scale.whole) for bad in rounds(high, 20)})


def chosen(options, scale):
    """The marginal and the bad units. A default has none that fits no other number."""
    given = [amounts[-1] if amounts else 0 for amounts in (options.marginal, options.bad)]
    if sum(given) > scale.whole:
        marginal, bad, whole = map(scale.amount, (*given, scale.whole))
        raise Failure(f"{marginal} marginal and {bad} bad units add to over {whole}")
    marginals = options.marginal or default_marginals(options.plan, scale.whole)
    bads = options.bad or default_bads(scale)
    if not options.marginal:
        marginals = [marginal for marginal in marginals if marginal + bads[0] <= scale.whole]
    if not options.bad:
        bads = [bad for bad in bads if bad + marginals[0] <= scale.whole]
    if options.svg and (len(bads) < 2 or len(marginals) > len(oc_svg.STROKES)):
        raise Failure(f"a drawing needs two {scale.kind} of bad units at least, and has at most "
                      f"{len(oc_svg.STROKES)} curves")
    return marginals, bads


def finer(bads):
    """The shares with others between them, 120 steps or more, so that a curve looks smooth."""
    parts = -(-120 // (len(bads) - 1))
    steps = ((one, other - one) for one, other in pairwise(bads))
    between = {one + size * part // parts for one, size in steps for part in range(parts)}
    return sorted(between | {bads[-1]})


def asked(scale, pairs):
    """Bounds of pairs of units. A terminal is told of them, as large plans take seconds."""
    found = {}
    for pair in pairs:
        if sys.stderr.isatty():
            print(f"\r{len(found)} of {len(pairs)} {scale.plural} ", end="", file=sys.stderr,
                  flush=True)
        found[pair] = scale.bounds(*pair)
    if sys.stderr.isatty():
        print("\r" + " " * 30, end="\r", file=sys.stderr, flush=True)
    return found


def outward(bounds, bits, digits):
    """Low rounded down and high rounded up, as decimals."""
    low, high = (bound * 10**digits for bound in bounds)
    rounded = low >> bits, -(-high >> bits)
    return [f"{it // 10**digits}.{it % 10**digits:0{digits}}" for it in rounded]


def decimals(options, scale, bounds):
    return [it for pair in bounds for it in outward(pair, scale.bits, options.digits)]


def table(options, scale, marginals, bads, found):
    """A row for each number of bad units; "-" where the units would add to more than all."""
    size = max(len(str(scale.most)) + 1 + options.digits, scale.least_width)
    labels = [f"marginal {scale.amount(marginal)}" for marginal in marginals]

    def line(cells):
        return "  ".join(f"{it:>{size}}" for it in cells)

    columns = line(scale.columns)
    width = max(len(scale.columns) * (size + 2) - 2, *map(len, labels))

    def row(first, groups):
        cells = "".join(f"  {group:>{width}}" for group in groups)
        return f"{first:>7}{cells}"

    def cell(marginal, bad):
        if (marginal, bad) in found:
            return line(decimals(options, scale, found[marginal, bad]))
        return line("-" * len(scale.columns))

    yield scale.title
    yield scale.subtitle
    yield row("", labels)
    yield row(scale.bad_column, [columns] * len(labels))
    for bad in bads:
        yield row(scale.text(bad), [cell(marginal, bad) for marginal in marginals])


def write_csv(options, scale, marginals, bads, found):
    writer = csv.writer(sys.stdout, lineterminator="\n")
    writer.writerow(scale.csv_columns)
    for pair in ((marginal, bad) for marginal in marginals for bad in bads):
        if pair in found:
            writer.writerow([*map(scale.text, pair), *decimals(options, scale, found[pair])])


def write_svg(options, arguments, scale, marginals, drawn, found):
    """Low and high are at most 1,000 / 2^30 apart, which no drawing shows: their mean is drawn."""
    def points(bounds):
        return [(bad, sum(pair) / 2**(scale.bits + 1)) for bad, pair in bounds]

    curves = [oc_svg.Curve(
        scale.amount(marginal),
        points((bad, found[marginal, bad][0]) for bad in drawn if (marginal, bad) in found),
        points(scale.beside(marginal, drawn))) for marginal in marginals]
    command = shlex.join(["bin/oc", *arguments])
    try:
        Path(options.svg).write_text(oc_svg.drawing(scale, curves, command), "utf-8")
    except OSError as error:
        raise Failure(f"{options.svg} cannot be written: {error.strerror}") from None


def checked(options):
    """Raises what is wrong with the plan and the lot."""
    if options.units and options.lot:
        raise Failure("--units does not go with --lot: expected units are known for shares only, "
                      "not for lots of a given size")
    if not options.plan:
        raise Failure("no plan is given; bin/oc --help says how")
    broken = broken_rules(options.plan)
    if broken:
        raise Failure("\n  ".join(["the plan is not admitted:", *broken]))
    sample = sum(options.plan[::5])
    if options.lot and options.lot < sample:
        raise Failure(f"the lot has {options.lot} units, fewer than the sample, which has {sample}")


def chosen_scale(options):
    about = options.plan, library()
    if options.lot:
        return Lot(*about, options.lot)
    return ExpectedUnits(*about) if options.units else Shares(*about)


def run(arguments):
    options = parsed(arguments)
    checked(options)
    scale = chosen_scale(options)
    marginals, bads = chosen(options, scale)
    drawn = finer(bads) if options.svg else bads
    every = ((marginal, bad) for marginal in marginals for bad in drawn)
    found = asked(scale, [pair for pair in every if sum(pair) <= scale.whole])
    if options.svg:
        write_svg(options, arguments, scale, marginals, drawn, found)
    if options.csv:
        write_csv(options, scale, marginals, bads, found)
    else:
        print("\n".join(table(options, scale, marginals, bads, found)))


def main(arguments):
    try:
        run(arguments)
        sys.stdout.flush()
    except Failure as failure:
        print(f"bin/oc: {failure}", file=sys.stderr)
        return failure.status
    except BrokenPipeError:
        # The reader has gone; Python would complain when it flushes at its end.
        os.dup2(os.open(os.devnull, os.O_WRONLY), sys.stdout.fileno())
        return 1
    except KeyboardInterrupt:
        return 130
    return 0


if __name__ == "__main__":
    sys.exit(main(sys.argv[1:]))
