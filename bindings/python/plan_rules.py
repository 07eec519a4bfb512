"""The rules of admission of a plan (docs/SPECIFICATION.md, "Plan"), in words.

It needs no library. bindings/rust/plan_rules.rs gives the same sentences.
"""

from collections import namedtuple
from itertools import accumulate, count, pairwise, takewhile

# Both a1 and a2 of a stage where acceptance is not permitted.
NOT_PERMITTED = 2**32 - 1

# What one row has at a stage: the stage's number, the units up to its end, and a and r.
Numbers = namedtuple("Numbers", "stage end a r")


def broken_rules(plan):
    """A sentence for each rule that a plan breaks, in the specification's order."""
    if len(plan) % 5:
        return [f"length {len(plan)} is not a multiple of 5"]
    if not plan:
        return ["k = 0 is below 1"]
    early = _early(plan)
    one, two = _row(plan, 1), _row(plan, 2)
    return [
        *_of_plan(plan, early, one[-1]),
        *_of_row(one, early, 1),
        *_of_row(two, early, 2),
        *_between_rows(one, two),
    ]


def _early(plan):
    """How many stages, from the first on, are early: acceptance is not permitted there."""
    marked = (a1 == a2 == NOT_PERMITTED for a1, a2 in zip(plan[1::5], plan[3::5]))
    return sum(takewhile(bool, marked))


def _row(plan, i):
    """Row 1 is of nongood units, row 2 of bad ones. A stage is n, a1, r1, a2, r2."""
    columns = accumulate(plan[::5]), plan[2 * i - 1::5], plan[2 * i::5]
    return [Numbers(*numbers) for numbers in zip(count(1), *columns)]


def _of_plan(plan, early, last):
    if last.stage > 7:
        yield f"k = {last.stage} is above 7"
    for stage, n in enumerate(plan[::5], 1):
        if n < 1:
            yield f"stage {stage}: n = {n} is below 1"
    if last.end > 1000:
        yield f"S = {last.end} is above 1000"
    if last.r > 60:
        yield f"stage {last.stage}, the last: r1 = {last.r} is above 60"
    if last.stage == early:
        yield f"stage {last.stage}, the last: acceptance is not permitted"


def _of_row(row, early, i):
    """The rules on r are of all stages, those on a of the stages after the early ones."""
    later = row[early:]
    yield from _of_steps(row, later, i)
    yield from _of_early(row[:early], i)
    yield from _of_gaps(later, len(row), i)
    yield from _of_units(row, later, i)


def _of_steps(row, later, i):
    a = [(it.stage, it.a) for it in later]
    r = [(it.stage, it.r) for it in row]
    yield from _falls(f"a{i}", a)
    for (before, old), (last, new) in pairwise(a[-2:]):
        if new <= old:
            yield (f"stage {last}, the last: a{i} = {new} is not above "
                   f"a{i} = {old} of stage {before}")
    yield from _falls(f"r{i}", r)


def _falls(name, numbers):
    """Where the numbers, each with its stage, fall."""
    for (before, old), (stage, new) in pairwise(numbers):
        if new < old:
            yield f"stage {stage}: {name} = {new} is below {name} = {old} of stage {before}"


def _of_early(row, i):
    for stage, _, _, r in row:
        if r < 1:
            yield f"stage {stage}, where acceptance is not permitted: r{i} = {r} is below 1"


def _of_gaps(later, k, i):
    """How far r is above a."""
    for stage, _, a, r in later:
        if stage < k and a + 1 >= r:
            yield f"stage {stage}: a{i} + 1 = {a + 1} is not below r{i} = {r}"
        if stage == k and a + 1 != r:
            yield f"stage {k}, the last: a{i} + 1 = {a + 1} is not r{i} = {r}"


def _of_units(row, later, i):
    for stage, end, a, _ in later:
        if a >= end:
            yield f"stage {stage}: a{i} = {a} is not below S{stage} = {end}"
    last = row[-1]
    if last.r > last.end:
        yield f"stage {last.stage}, the last: r{i} = {last.r} is above S = {last.end}"


def _between_rows(one, two):
    """In an early stage a2 is a1, which the rule on a allows."""
    for it, other in zip(one, two):
        for name, first, second in (("a", it.a, other.a), ("r", it.r, other.r)):
            if second > first:
                yield f"stage {it.stage}: {name}2 = {second} is above {name}1 = {first}"
