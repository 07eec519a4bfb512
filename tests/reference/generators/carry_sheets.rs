//! Old sheets of many kinds carried into second ones (02, change 8), and calls after that.

use super::carry_damage::{ALL_RECORDS, ALL_RECORDS_IN_STAGES, ALL_RECORDS_MARKED};
use super::hand_written::{A, B, LARGEST, ONE, SEVEN, THREE, TWO, UNIT};
use super::marked_plans::{classes_of, EITHER_UNIT, FIRST_UNIT, INSIDE, PUBLISHED, SEVEN_SIX};
use super::office_draws::shares_of;
use super::old_sheets::{old_sheet, units};
use super::sheet_script::Script;
use crate::model::layout::*;
use crate::model::offices::NO_SHARES;
use crate::model::plan::MOST_UNITS;

/// Plan, records after the head, words after the last one, and calls.
type Kind = (&'static [u32], usize, usize, &'static str);

/// Lots that are called after the carry have numbers 1 to 9.
const KINDS: &[Kind] = &[
    // Nothing but a plan.
    (A, 1, 0, ""),
    (SEVEN, 2, 3, ""),
    (PUBLISHED, 5, 1, ""),
    // Half inspected.
    (A, 9, 2, "o 7, i 7 1, i 7 2, o 3, i 3 0, o 9, i 3 1"),
    (B, 6, 0, "o 2, o 1, i 2 0, i 1 2, i 2 0, i 2 0"),
    (THREE, 8, 1, "o 5, i 5 2, i 5 0, i 5 1, o 4"),
    // Decided, and standing.
    (UNIT, 6, 0, "o 3, o 2, i 2 0, i 3 2"),
    (
        A,
        8,
        0,
        "o 6, i 6 2, i 6 2, o 8, i 8 0, i 8 0, i 8 0, i 8 1",
    ),
    // Full of lots, and of lots and inspections; full with free records.
    (UNIT, 3, 0, "o 1, o 3, o 2"),
    (UNIT, 4, 3, "o 1, i 1 0, o 2, i 2 1"),
    (A, 6, 0, "o 4, i 4 2, i 4 2, o 5, i 5 0, i 5 0, c 4"),
    // A long free chain: with a lot, without one, and none unused.
    (
        A,
        14,
        0,
        "o 4, i 4 2, i 4 2, o 5, i 5 1, i 5 1, i 5 1, o 6, i 6 2, i 6 2, c 5, c 4, s 6",
    ),
    (
        A,
        9,
        0,
        "o 1, o 2, i 1 2, i 2 2, i 1 2, i 2 2, c 1, c 2, o 8, i 8 3, s 8",
    ),
    (UNIT, 2, 2, "o 5, i 5 2, c 5"),
    (
        ONE,
        7,
        0,
        "o 1, i 1 0, i 1 1, i 1 2, i 1 3, s 1, s 1, s 1, s 1",
    ),
    // A freed record of a lot used again for an inspection.
    (UNIT, 5, 0, "o 1, o 2, i 1 0, c 1, i 2 1"),
    // Closed lots of both verdicts.
    (
        UNIT,
        7,
        1,
        "o 1, i 1 0, c 1, o 2, i 2 1, c 2, o 3, i 3 2, c 3, o 4, i 4 0, c 4, o 5, i 5 3",
    ),
    // Marked stages: undecided, accepted before a stage's end, and rejected in a marked one.
    (INSIDE, 6, 0, "o 5, i 5 2, o 6, i 6 0"),
    (INSIDE, 6, 0, "o 5, i 5 2, i 5 1, o 2, i 2 0, c 2"),
    (FIRST_UNIT, 5, 1, "o 5, i 5 1, o 6"),
    (EITHER_UNIT, 5, 0, "o 5, i 5 1, o 6, i 6 3, i 6 3"),
    (
        PUBLISHED,
        8,
        0,
        "o 5, i 5 2, i 5 3, i 5 1, o 7, i 7 0, i 7 2",
    ),
    (SEVEN_SIX, 4, 0, "o 7, i 7 0, i 7 2"),
    // Blanks: alone, last and deciding, among others, closed and struck.
    (A, 9, 0, "o 6, i 6 3, i 6 3, i 6 3, o 1, i 1 3, i 1 1"),
    (UNIT, 4, 0, "o 1, i 1 3, o 2, i 2 3, c 2"),
    (
        A,
        11,
        0,
        "o 6, i 6 3, i 6 0, i 6 0, i 6 0, o 7, i 7 0, i 7 0, i 7 0, i 7 3",
    ),
    (A, 9, 1, "o 6, i 6 3, i 6 0, i 6 3, s 6, i 6 2, i 6 3"),
    // Each kind of record.
    (A, 17, 2, ALL_RECORDS),
    (TWO, 19, 0, ALL_RECORDS_IN_STAGES),
    (INSIDE, 11, 3, ALL_RECORDS_MARKED),
];

/// Each lot, and one that is not there.
const READS: &str = "t, l 1, l 2, l 3, l 4, l 5, l 6, l 7, l 8, l 9, l 10";

impl Script {
    /// The cases with carries of this file and of the others.
    pub fn carries(&mut self) {
        self.carry_sheets();
        self.carry_refusals();
        self.carry_damage();
        self.carry_offices();
        self.carry_large();
        self.carry_plays();
    }

    fn carry_sheets(&mut self) {
        for (turn, kind) in (0..).zip(KINDS) {
            self.kind(turn, kind);
        }
        self.past_the_first_stage_carried();
        self.between_layouts();
        self.totals_carried();
        self.longest_lot_carried();
    }

    /// Into the smallest second sheet, one a record smaller, one with more records than the
    /// old sheet, and one with records for two more. The old sheet is as before.
    fn kind(&mut self, turn: u32, &(plan, records, beyond, calls): &Kind) {
        let seed = [0, 2_654_435_761][turn as usize % 2];
        let old = old_sheet(OLD.room(records) + beyond, seed, plan, calls);
        self.put_aside(seed, &old);
        let least = self.fitting();
        if least > LEAST_WORDS {
            self.carry_into(least - 1, turn, &NO_SHARES);
            self.show_aside();
        }
        self.carry_into(least.max(LEAST_WORDS), 77 + turn, &NO_SHARES);
        self.lines(READS);
        self.each_lot_on(2);
        self.carry_into(room(records + 3) + beyond, 9, &shares_of(&[(1, 1)]));
        self.lines(READS);
        self.each_lot_on(0);
        self.carry_into(
            least + 2 * RECORD_WORDS + 3,
            turn << 20,
            &shares_of(&[(turn as usize % 16, 2)]),
        );
        self.close_all();
        self.show_aside();
    }

    /// Estimates, units, closings and strikes of all lots, and others opened.
    fn each_lot_on(&mut self, class: u32) {
        for lot in 1..=9 {
            if self.line(&format!("e {lot}")).starts_with("no 6 ") {
                continue;
            }
            self.lines(&format!(
                "i {lot} {class}, l {lot}, s {lot}, i {lot} 3, l {lot}, c {lot}"
            ));
        }
        self.lines("o 16, o 5, i 16 0, o 10, i 5 1, o 0, i 10 4, l 5, t");
    }

    /// Each lot given good units until it is decided or the sheet is full, and closed; then
    /// the free records used again.
    fn close_all(&mut self) {
        for lot in 1..=9 {
            while self.line(&format!("i {lot} 0")).starts_with("ok") {}
            self.line(&format!("c {lot}"));
        }
        self.lines("t, o 3, i 3 2, o 20, i 20 2, i 3 2, l 3, c 3, t");
    }

    /// Lots in their second stage, in their fourth, and at the last unit but one of the stage
    /// after a marked one.
    fn past_the_first_stage_carried(&mut self) {
        let list = [0, 0, 0, 0, 0, 0, 0, 1, 1, 1, 0, 3];
        let first = [(3, 5), (0, 5), (3, 1), (0, 9)];
        let later = classes_of(&[&first[..], &[(1, 1), (0, 9), (2, 1), (0, 2)]].concat());
        let marked = classes_of(&[(0, 30), (1, 2), (0, 30)]);
        for (plan, list) in [(TWO, &list[..]), (SEVEN, &later), (PUBLISHED, &marked)] {
            let calls = format!("o 3, o 8, {}, i 8 0", units(3, list));
            let old = old_sheet(OLD.room(list.len() + 4), 0, plan, &calls);
            self.put_aside(0, &old);
            self.carry_into(room(list.len() + 6), 5, &shares_of(&[(3, 9)]));
            self.lines(
                "t, l 3, e 3, l 8, c 3, i 3 0, i 3 2, l 3, s 3, s 3, s 3, l 3, i 3 3, i 3 1",
            );
            self.lines("i 3 2, l 3, i 8 2, o 19, l 3, s 3, l 8");
        }
    }

    /// A sheet of the new layout is corrupt under the old one, an old one under the new one,
    /// and what a carry made can't be carried again.
    fn between_layouts(&mut self) {
        let old = old_sheet(OLD.room(8), 0, A, "o 6, i 6 1, o 7");
        self.put_aside(0, &old);
        self.carry_into(room(8), 3, &NO_SHARES);
        self.lines("x, t, l 6, o 8, x, l 6");
        self.line("x");
        self.carry(&NO_SHARES);
        self.lines("t, x, l 6");
        self.fresh(room(4), 0, A);
        self.line("x");
        self.carry_into(room(8), 3, &NO_SHARES);
        self.lines("t, x, t");
    }

    /// Closed lots and units near the most and at it: closings after the carry.
    fn totals_carried(&mut self) {
        let (most, each) = (MOST_CLOSED, MOST_UNITS as u32);
        for totals in [
            [0, 0, 0, 0, 0],
            [most - 1, 0, 0, 0, 0],
            [0, most - 1, 0, (most - 1) * each, 0],
            [1, most - 1, 0, 0, 0],
            [most, 0, each * most, 0, 0],
            [most / 2, most / 2, 1, 2, each * most - 3],
        ] {
            let mut old = old_sheet(OLD.room(5), 0, UNIT, "o 1, o 2, i 1 3, i 2 0");
            old[CLOSED_LOTS..TOTALS_END].copy_from_slice(&totals);
            self.put_aside(0, &old);
            self.carry_into(room(4), 0, &shares_of(&[(0, 4)]));
            self.lines("t, c 1, t, c 2, t, l 2, e 2");
        }
    }

    /// A lot of 999 inspections: on an old sheet by so many words, since so many calls would
    /// take too long.
    fn longest_lot_carried(&mut self) {
        let lot = u32::MAX;
        let old = old_sheet(OLD.room(1_001), 0, LARGEST[0], &format!("o {lot}"));
        self.put_aside(0, &old);
        self.line("x");
        self.lines("p next-unused ^1000, p ^0.2 ^999");
        self.lines("a ^1.0 record 999 0 0, a ^2.1 record 998 ^1 1");
        self.lines("a ^1.2 record 999 ^0 0, a ^1.3 record 999 1 1, a ^5.0 record 59 3 0");
        self.line("x");
        for length in [room(999) + 3, room(1_000), room(1_001)] {
            self.carry_into(length, 1, &shares_of(&[(15, 1_000)]));
            self.lines(&format!("l {lot}, i {lot} 0, l {lot}, e {lot}, c {lot}, t"));
        }
    }
}
