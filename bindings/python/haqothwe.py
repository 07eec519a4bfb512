"""Calls of the library (include/haqothwe.h) by ctypes.

bin/shared-object makes the shared object. HAQOTHWE_LIBRARY may name another.
"""

import ctypes
import os
from collections import namedtuple
from pathlib import Path

import plan_rules
from plan_rules import NOT_PERMITTED

UNDECIDED, ACCEPTED, REJECTED = 0, 1, 2

# Words of scratch that are enough for every admitted plan.
SCRATCH_MOST = 7200

# Offices that share a sheet; that of a lot is its number % 16.
OFFICES = 16

_DEFAULT = Path(__file__).resolve().parents[2] / "target" / "libhaqothwe.so"
_library = ctypes.CDLL(os.environ.get("HAQOTHWE_LIBRARY", str(_DEFAULT)))

_u8, _u32, _u64 = ctypes.c_uint8, ctypes.c_uint32, ctypes.c_uint64
_f64, _size = ctypes.c_double, ctypes.c_size_t


class Refused(Exception):
    """A refused call. Each refusal has its own subclass, as Decided, with number and text."""

    text = "unknown refusal"

    def __init__(self, number):
        super().__init__(number)
        self.number = number

    def __str__(self):
        return f"refused {self.number}: {self.text}"


# Number, subclass and sentence of each refusal (docs/SPECIFICATION.md, "Refused").
_TABLE = [
    (1, "SheetSize", "the sheet has fewer than 64 words (an old one 48) or more than 65,536"),
    (2, "Plan", "the plan is not admitted"),
    (3, "Corrupt", "the sheet is corrupt"),
    (18, "Shares", "the shares add to more than the records after the header"),
    (20, "NoFit", "the second sheet has too few records for those of the old one"),
    (4, "LotZero", "0 is not a lot number"),
    (5, "OpenAlready", "the lot is open already"),
    (6, "NotOpen", "the lot is not open"),
    (7, "Class", "a class is above 3"),
    (8, "Decided", "the lot is decided"),
    (9, "NoneToStrike", "the lot has no inspection to strike"),
    (10, "Undecided", "the lot is undecided"),
    (11, "Full", "no record is free or unused"),
    (19, "HeldBack", "the records left are held back for other offices"),
    (12, "TallyFull", "4,000,000 lots are closed and the totals have no room for more"),
    (13, "Weights", "the weights add to 0 or to more than 1,000,000"),
    (17, "LotSize", "the lot has fewer units than the sample or more than 1,000,000"),
    (14, "ScratchShort", "the scratch is too short for the plan"),
    (15, "SeveralStages", "the plan has several stages"),
    (16, "Line", "the line is not a command"),
]

# The subclasses by number; each is an attribute of the module too.
REFUSALS = {
    number: type(name, (Refused,), {"__doc__": text, "number": number, "text": text})
    for number, name, text in _TABLE
}
globals().update((kind.__name__, kind) for kind in REFUSALS.values())


# The blanks, units of class 3, are among the marginal too.
Look = namedtuple("Look", "state units good marginal bad blanks")
Tally = namedtuple("Tally", "accepted rejected good marginal bad")
# The units counted, by class: a lot's only unit, or all but its last. They add to the denominator,
# which is at least 1.
Estimate = namedtuple("Estimate", "good marginal bad denominator")
Judgement = namedtuple("Judgement", "uncurtailed semi full earliest event")

# Where a way stops on a list; 0 units where it does not.
Stop = namedtuple("Stop", "units state")


def _function(name, *types):
    function = getattr(_library, name)
    function.argtypes = types
    function.restype = _u32
    return function


_sheet = (ctypes.POINTER(_u32), _size)
_list = (ctypes.POINTER(_u8), _size)
_bounds = _sheet + (_u32, _u32, _u32, ctypes.POINTER(_u64), _size)
_fresh = _function("haq_fresh", *_sheet, *_sheet, ctypes.POINTER(_u32))
_carry = _function("haq_carry", *_sheet, *_sheet, ctypes.POINTER(_u32))
_open = _function("haq_open", *_sheet, _u32)
_inspect = _function("haq_inspect", *_sheet, _u32, _u32)
_strike = _function("haq_strike", *_sheet, _u32)
_close = _function("haq_close", *_sheet, _u32)
_look = _function("haq_look", *_sheet, _u32, ctypes.POINTER(_u32))
_tally = _function("haq_tally", *_sheet, ctypes.POINTER(_u32))
_estimate = _function("haq_estimate", *_sheet, _u32, ctypes.POINTER(_u64))
_judge = _function("haq_judge", *_sheet, *_list, ctypes.POINTER(_u32))
_chance = _function("haq_chance", *_bounds, ctypes.POINTER(_u64))
_chart = _function("haq_chart", *_bounds, ctypes.POINTER(_f64))
_lot_chance = _function("haq_lot_chance", *_bounds, ctypes.POINTER(_u64))
_units = _function("haq_units", *_bounds, ctypes.POINTER(_u64))
_units_chart = _function("haq_units_chart", *_bounds, ctypes.POINTER(_f64))


def _word(number):
    """The number itself; ctypes would take a larger one modulo 2^32 and raise nothing."""
    if not 0 <= number < 2**32:
        raise OverflowError(f"not a 32-bit word: {number}")
    return number


def _words(numbers):
    return (_u32 * len(numbers))(*map(_word, numbers))


def _shares(numbers):
    if len(numbers) != OFFICES:
        raise ValueError(f"not {OFFICES} shares: {len(numbers)}")
    return _words(numbers)


def _granted(number):
    if number:
        raise REFUSALS.get(number, Refused)(number)


class Sheet:
    """A sheet of so many words, all 0. The words may be read and written by index."""

    def __init__(self, length):
        self.words = (_u32 * length)()

    def _call(self, function, *rest):
        _granted(function(self.words, len(self.words), *rest))

    def fresh(self, plan, shares=(0,) * OFFICES):
        """shares: records for each office, 0 where it has no share."""
        self._call(_fresh, _words(plan), len(plan), _shares(shares))

    def carry(self, old, shares=(0,) * OFFICES):
        """Carries an old sheet, whose header has no shares, into this one. old: its words."""
        old = _words(old)
        _granted(_carry(old, len(old), self.words, len(self.words), _shares(shares)))

    def open(self, lot):
        self._call(_open, _word(lot))

    def inspect(self, lot, class_):
        """class_: 0 good, 1 marginal, 2 bad or 3 blank."""
        self._call(_inspect, _word(lot), _word(class_))

    def strike(self, lot):
        self._call(_strike, _word(lot))

    def close(self, lot):
        self._call(_close, _word(lot))

    def look(self, lot):
        out = (_u32 * 6)()
        self._call(_look, _word(lot), out)
        return Look(*out)

    def tally(self):
        out = (_u32 * 5)()
        self._call(_tally, out)
        return Tally(*out)

    def estimate(self, lot):
        out = (_u64 * 4)()
        self._call(_estimate, _word(lot), out)
        return Estimate(*out)


def broken_rules(plan):
    """The rules of admission that a plan breaks, in words; none exactly where it is admitted."""
    return plan_rules.broken_rules(list(_words(plan)))


def judge(plan, classes):
    """classes: bytes, or a sequence of numbers up to 255."""
    classes = bytes(classes)
    out = (_u32 * 9)()
    listed = (_u8 * len(classes)).from_buffer_copy(classes)
    _granted(_judge(_words(plan), len(plan), listed, len(classes), out))
    stops = [Stop(*out[i:i + 2]) for i in (0, 2, 4, 6)]
    return Judgement(*stops, out[8])


def _pair(function, kind, plan, classes, scratch):
    """classes: a number for each class, weights or units."""
    out = (kind * 2)()
    words = (_u64 * scratch)()
    good, marginal, bad = map(_word, classes)
    _granted(function(_words(plan), len(plan), good, marginal, bad, words, scratch, out))
    return tuple(out)


def chance(plan, weights, scratch=SCRATCH_MOST):
    """Low and high in units of 2^-40. Blanks belong to the marginal weight."""
    return _pair(_chance, _u64, plan, weights, scratch)


def chart(plan, weights, scratch=SCRATCH_MOST):
    """Low and high as floats."""
    return _pair(_chart, _f64, plan, weights, scratch)


def lot_chance(plan, lot, scratch=SCRATCH_MOST):
    """Low and high in units of 2^-40 for a lot, given its good, marginal and bad units, blanks
    among the marginal."""
    return _pair(_lot_chance, _u64, plan, lot, scratch)


def units(plan, weights, scratch=SCRATCH_MOST):
    """Low and high of the expected number of units at the earliest stop, in units of 2^-30."""
    return _pair(_units, _u64, plan, weights, scratch)


def units_chart(plan, weights, scratch=SCRATCH_MOST):
    """The same as floats."""
    return _pair(_units_chart, _f64, plan, weights, scratch)
