"""One lot from opening to closing, offices with shares, an old sheet carried, then a list and
chances. Its output is bindings/expected."""

from haqothwe import (OFFICES, Refused, Sheet, chance, chart, judge, lot_chance, units,
                      units_chart)

PLAN = [5, 2, 3, 1, 2]
STATES = ["undecided", "accepted", "rejected"]

# 60 words: one lot accepted and closed, lot 7 half inspected, and one free record.
OLD_SHEET = [
    15, 11, 14, 1,  # next unused record, first lot, first free record, stages
    *PLAN,
    *[0] * 30,  # six stages that are not used
    1, 0, 4, 0, 0,  # totals
    7, 0, 13, 0,  # record 11: lot 7, the last, with its newest inspection
    3, 0, 11, 1,  # record 12: a blank, the oldest
    2, 12, 11, 2,  # record 13: a bad unit, the newest
    1, 0, 0, 2**32 - 1,  # record 14: free, the last
]


def done(call, function, *rest):
    try:
        function(*rest)
        print(f"{call}: ok")
    except Refused as refusal:
        print(f"{call}: {refusal}")


def show_lot(sheet):
    it = sheet.look(7)
    print(f"look 7: {STATES[it.state]} after {it.units} units, "
          f"{it.good} good, {it.marginal} marginal ({it.blanks} blank), {it.bad} bad")


def show_totals(sheet):
    it = sheet.tally()
    print(f"tally: {it.accepted} accepted, {it.rejected} rejected; "
          f"{it.good} good, {it.marginal} marginal, {it.bad} bad")


def keep_sheet(sheet):
    done("fresh without a plan", sheet.fresh, [])
    done("fresh", sheet.fresh, PLAN)
    done("open 7", sheet.open, 7)
    done("inspect 7 3", sheet.inspect, 7, 3)
    done("inspect 7 0", sheet.inspect, 7, 0)
    done("strike 7", sheet.strike, 7)
    done("inspect 7 2", sheet.inspect, 7, 2)
    done("inspect 7 2", sheet.inspect, 7, 2)
    show_lot(sheet)
    done("inspect 7 0", sheet.inspect, 7, 0)
    it = sheet.estimate(7)
    print(f"estimate 7: {it.good}, {it.marginal}, {it.bad} over {it.denominator}")
    done("close 7", sheet.close, 7)
    show_totals(sheet)


def share_sheet(sheet):
    """Five records, for lots 7 and 23 of office 7 and lot 8 of office 8."""
    shares = [0] * OFFICES
    shares[7] = shares[8] = 3
    done("fresh, shares 3 and 3", sheet.fresh, PLAN, shares)
    shares[7] = shares[8] = 2
    done("fresh, shares 2 and 2", sheet.fresh, PLAN, shares)
    done("open 7", sheet.open, 7)
    done("inspect 7 0", sheet.inspect, 7, 0)
    done("inspect 7 0", sheet.inspect, 7, 0)
    done("open 23", sheet.open, 23)
    done("open 8", sheet.open, 8)
    done("inspect 8 0", sheet.inspect, 8, 0)


def carry_sheet():
    """The shares are one record for office 8."""
    shares = [0] * OFFICES
    shares[8] = 1
    done("carry into 72 words", Sheet(72).carry, OLD_SHEET, shares)
    sheet = Sheet(80)
    done("carry into 80 words", sheet.carry, OLD_SHEET, shares)
    show_lot(sheet)
    done("inspect 7 2", sheet.inspect, 7, 2)
    show_lot(sheet)
    done("close 7", sheet.close, 7)
    show_totals(sheet)


def judged(classes):
    try:
        it = judge(PLAN, classes)
    except Refused as refusal:
        print(f"judge: {refusal}")
        return
    ways = zip(["uncurtailed", "semi", "full", "earliest"], it)
    stops = "".join(f" {way} {stop.units} {STATES[stop.state]}," for way, stop in ways)
    print(f"judge {len(classes)} classes:{stops} event {it.event}")


def main():
    sheet = Sheet(80)
    keep_sheet(sheet)
    share_sheet(sheet)
    carry_sheet()
    judged([0, 0, 0, 1, 2])
    judged([])
    judged([0, 0, 0, 1, 2, 4])
    low, high = chance(PLAN, [90, 7, 3])
    print(f"chance 90 7 3: {low} to {high}")
    low, high = chart(PLAN, [90, 7, 3])
    print(f"chart 90 7 3: {low:.15f} to {high:.15f}")
    done("chance 0 0 0", chance, PLAN, [0, 0, 0])
    low, high = lot_chance(PLAN, [16, 2, 2])
    print(f"lot chance 16 2 2: {low} to {high}")
    done("lot chance 4 0 0", lot_chance, PLAN, [4, 0, 0])
    low, high = units(PLAN, [90, 7, 3])
    print(f"units 90 7 3: {low} to {high}")
    low, high = units_chart(PLAN, [90, 7, 3])
    print(f"units chart 90 7 3: {low:.12f} to {high:.12f}")


main()
