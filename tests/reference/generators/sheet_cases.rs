//! The seeded lists of commands on sheets: hand-written ones, then random ones.
//! sheet_damage.rs has those that damage a sheet between two calls, marked_sheets.rs
//! those with marked stages, blank_sheets.rs and blank_refusals.rs those with blanks,
//! only_units.rs those with estimates of lots that have one unit, office_*.rs those with
//! shares of offices, and carry_*.rs those that carry an old sheet.

use super::draw;
use super::hand_written::{runs, A, B, LARGEST, ONE, SEVEN, THREE, TWO, UNIT, WRAPS};
use super::known_lots::{KNOWN, NEAR_A, NEAR_B};
use super::plan_edges::edges;
use super::sheet_script::Script;
use crate::lines::fields;
use crate::lines::plan_lines::classes;
use crate::lines::sheet_lines::call_line;
use crate::model::layout::*;
use crate::model::plan::MOST_UNITS;

const SEED: u64 = 65_536_048;

/// Records of a sheet of the greatest size, and how many come after the head.
const RECORDS: usize = records(MOST_WORDS);
const ROOM: usize = records_after_head(MOST_WORDS);

/// Lengths of small sheets, some with words after the last whole record.
const LENGTHS: [usize; 8] = [
    room(2),
    room(4),
    room(7) + 3,
    room(11),
    room(14) + 1,
    room(21) + 2,
    room(33) + 2,
    room(49),
];

/// The most closed lots, the most units of one lot and of all, and the greatest word.
const FULL: u32 = MOST_CLOSED;
const EACH: u32 = MOST_UNITS as u32;
const UNITS: u32 = FULL * EACH;
const MOST: u32 = u32::MAX;

/// Totals: accepted lots, rejected lots, good, marginal, bad.
const TOTALS: &[[u32; 5]] = &[
    [FULL, 1, 0, 0, 0],
    [1, FULL, 0, 0, 0],
    [MOST, 1, 0, 0, 0],
    [1, MOST, 0, 0, 0],
    [MOST, MOST, 0, 0, 0],
    [1 << 31, 1 << 31, 0, 0, 0],
    [FULL, 0, UNITS, 0, 0],
    [FULL, 0, 0, 0, UNITS + 1],
    [FULL / 2, FULL / 2, UNITS, UNITS.wrapping_neg(), 0],
    [FULL / 2, FULL / 2, UNITS / 2, UNITS / 4, UNITS / 4],
    [FULL / 2, FULL / 2, UNITS / 2, UNITS / 4, UNITS / 4 + 1],
    [FULL / 2, FULL / 2, MOST, MOST, 2],
    [0, 0, 0, 0, 1],
    [0, 0, MOST, 1, 0],
    [1, 0, EACH, 0, 0],
    [1, 0, 0, EACH + 1, 0],
    [1, 2, EACH, EACH, EACH],
    [2, 1, EACH, EACH + 1, EACH],
    [MOST / EACH, 0, MOST / EACH * EACH, 0, 0],
];

/// All lines, in order.
pub fn all() -> Vec<String> {
    let mut script = Script::new(SEED);
    script.sizes();
    script.known_lots();
    script.plans_given();
    script.refusals_in_order();
    script.tally_full();
    script.totals_at_limits();
    script.damage();
    script.random_plays();
    script.full_of_lots();
    script.full_of_free_records();
    script.longest_lots();
    script.older_before_the_first_record();
    script.next_before_the_first_record();
    script.decided_at_a_stage_end();
    script.past_the_first_stage();
    script.not_by_a_count();
    script.marked_plans();
    script.blank_sheets();
    script.blank_refusals();
    script.only_units();
    script.offices();
    script.carries();
    script.finish()
}

/// The lines with blanks alone.
pub fn blanks() -> Vec<String> {
    let mut script = Script::new(SEED);
    script.blank_sheets();
    script.blank_refusals();
    script.finish()
}

/// The lines of only_units.rs alone.
pub fn only_units() -> Vec<String> {
    let mut script = Script::new(SEED);
    script.only_units();
    script.finish()
}

/// The lines of office_*.rs alone.
pub fn offices() -> Vec<String> {
    let mut script = Script::new(SEED);
    script.offices();
    script.finish()
}

/// The lines of carry_*.rs alone. They start with a new sheet.
pub fn carries() -> Vec<String> {
    let mut script = Script::new(SEED);
    script.carries();
    script.finish()
}

impl Script {
    /// Sizes at both limits and at the ends of records, on words of any value.
    fn sizes(&mut self) {
        let small = [0, 1, 2, 3, 4, 5, 7, 8, 12, 15, 16].map(|more| LEAST_WORDS + more);
        let below = [0, 1, 3, HEAD - 1, HEAD, LEAST_WORDS - 1];
        for length in below.into_iter().chain(small) {
            for seed in [0_u32, 2_654_435_761] {
                self.line(&format!("n {length} {seed}"));
                self.each_call(1);
                self.line(&format!("f{}", fields(A)));
                self.each_call(1);
                self.line("f 5 2 3 1 3");
                self.lines("o 2, i 1 0, i 1 0, i 1 0, i 1 2, i 2 2, l 1, s 1, i 1 1, c 1, t");
                self.lines("o 3, i 3 1, l 3");
            }
        }
        for beyond in [-4, -1, 0, 1, 4] {
            let length = MOST_WORDS.wrapping_add_signed(beyond);
            self.fresh(length, 77_777, B);
            self.lines("t, o 9, i 9 2, l 9, s 9, s 9, c 9, o 9");
        }
    }

    fn known_lots(&mut self) {
        self.fresh(PROGRAM_WORDS, 0, A);
        self.lines("o 7, i 7 1, i 7 2, i 7 2, l 7, i 7 0, c 7, t");
        for &(plan, list, ..) in KNOWN {
            let list = classes(list).expect("a list is a dot and classes");
            self.fresh(room(19), 3, plan);
            self.lot(5, &list);
            self.lines("l 5, e 5, c 5, t");
        }
        for (plan, lists) in [(A, NEAR_A), (B, NEAR_B)] {
            self.fresh(room(17) + 1, 9, plan);
            for list in lists.split(' ') {
                let list = classes(list).expect("a list is a dot and classes");
                self.lot(5, &list);
                self.lines("l 5, e 5, c 5, s 5, c 5, i 5 2, i 5 2, i 5 2, i 5 2, i 5 2, c 5");
                self.line("c 5");
            }
            self.line("t");
        }
    }

    /// Fresh over a sheet with lots, with plans admitted and not.
    fn plans_given(&mut self) {
        self.fresh(room(7), 5, A);
        self.lines("o 3, i 3 1, o 2, i 2 2, i 2 2, c 2");
        let kept = edges().into_iter().map(|edge| edge.kept());
        let broken = edges().into_iter().map(|edge| edge.broken());
        let wraps = WRAPS.iter().map(|words| words.to_vec());
        let all: Vec<Vec<u32>> = broken.chain(kept).chain(runs()).chain(wraps).collect();
        for (round, plan) in all.iter().enumerate() {
            self.line(&format!("f{}", fields(plan)));
            if round % 3 == 0 {
                self.lines("t, o 4, i 4 2, l 4, o 4");
            }
        }
        for length in [LEAST_WORDS - 1, MOST_WORDS + 1] {
            self.line(&format!("n {length} 1"));
            self.lines("f, f 5 2 3 1 3, f 5 2 3 1 2");
        }
    }

    /// Each refusal, and each two that one call can meet, on full sheets, empty
    /// ones, corrupt ones and ones of a wrong size.
    fn refusals_in_order(&mut self) {
        let full = format!("p closed-lots {MOST_CLOSED}");
        let above = format!("p closed-lots {}", MOST_CLOSED + 1);
        for length in [LEAST_WORDS - 1, LEAST_WORDS, room(3), room(5), room(39)] {
            for damage in ["", "p next-unused @-1", "p k 8", &full, &above] {
                for plan in [A, B, UNIT] {
                    self.fresh(length, 1, plan);
                    self.lines("o 2, o 6, i 2 2, i 2 2, i 2 2, i 6 0");
                    if !damage.is_empty() && length >= HEAD {
                        self.line(damage);
                    }
                    self.calls_on_lots();
                    self.lines("t, f 5 2 3 1 3, f 5 2 3 1 2, t");
                }
            }
        }
    }

    fn calls_on_lots(&mut self) {
        for lot in [0, 2, 6, 4] {
            self.line(&format!("i {lot} 4"));
            self.line(&format!("i {lot} 1"));
            for call in ["e", "l", "s", "c", "o"] {
                self.line(&format!("{call} {lot}"));
            }
        }
    }

    /// Closed lots near the most.
    fn tally_full(&mut self) {
        for [accepted, rejected] in [
            [FULL - 2, 0],
            [0, FULL - 2],
            [FULL / 4 * 3, FULL / 4 - 1],
            [FULL, 0],
            [0, FULL],
        ] {
            self.fresh(room(9), 0, UNIT);
            self.put(CLOSED_LOTS, accepted);
            self.put(CLOSED_LOTS + 1, rejected);
            self.lines("t, o 1, o 2, o 3, i 1 0, i 2 1, i 3 2, c 1, t, c 3, t, c 2, l 2, e 2");
            self.lines("c 4, s 2, c 2, t, o 7, l 7");
        }
    }

    /// Closed lots near the most, and closed units near the most for each.
    fn totals_at_limits(&mut self) {
        for five in TOTALS {
            self.fresh(room(4), 0, UNIT);
            self.lines("o 1, i 1 1");
            for (index, &word) in five.iter().enumerate() {
                self.put(CLOSED_LOTS + index, word);
            }
            self.lines("t, l 1, e 1, o 2, c 1, t");
        }
    }

    fn random_plays(&mut self) {
        for round in 0..56 {
            let units = self.random.between(1, 12);
            let plan = match round % 8 {
                0 => A.to_vec(),
                1 => [ONE, TWO, THREE, SEVEN, UNIT, B][round / 8 % 6].to_vec(),
                _ => draw::plan(&mut self.random, 1 + round % 7, units),
            };
            let length = self.random.pick(&LENGTHS);
            let seed = self.random.between(0, u32::MAX);
            self.fresh(length, seed, &plan);
            let mix = self
                .random
                .pick(&[[1, 1, 1], [8, 1, 1], [2, 1, 0], [1, 0, 3], [1, 3, 1]]);
            for _ in 0..70 {
                let call = draw::sheet_call(&mut self.random, mix);
                self.line(&call_line(&call));
            }
            self.line("t");
        }
    }

    /// A sheet of the greatest size full of lots, its chain written in few lines.
    fn full_of_lots(&mut self) {
        let (last, more) = (ROOM - 1, ROOM + 1);
        self.fresh(MOST_WORDS, 0, UNIT);
        self.lines(&format!("p next-unused {RECORDS}, p first-lot @0"));
        self.line(&format!("a @0.0 record {ROOM} 1 1"));
        self.line(&format!("a @0.1 record {last} @1 1"));
        self.lines(&format!("t, o {more}, i 9 0, s 9, l {ROOM}, c {ROOM}"));
        self.lines(&format!("l 0, o 1, p @{last}.1 @0, t, p @{last}.1 0"));
        self.lines(&format!("p next-unused @{last}, t"));
    }

    /// Alike, full of free records.
    fn full_of_free_records(&mut self) {
        let last = ROOM - 1;
        self.fresh(MOST_WORDS, 7, UNIT);
        self.lines(&format!("p next-unused {RECORDS}, p first-free @{last}"));
        self.line(&format!("a @0.0 record {ROOM} 1 1"));
        self.lines(&format!("p @0.1 0, a @1.1 record {last} @0 1"));
        self.line(&format!("a @0.2 record {ROOM} 0 0"));
        self.line(&format!("a @0.3 record {ROOM} free-tag 0"));
        self.lines("t, o 8, o 5, i 8 1, i 5 2, c 8, l 5, p @0.0 2, t, p @0.0 1, p @0.2 1, t");
        self.lines(&format!("p @0.2 0, p @0.1 @0, t, p @0.1 @{last}, o 6"));
    }

    /// A lot of 999 inspections, on a sheet of the greatest size and on a small one.
    fn longest_lots(&mut self) {
        let lot = u32::MAX;
        for length in [MOST_WORDS, room(1003)] {
            self.fresh(length, 0, LARGEST[0]);
            self.long_lot(lot);
            self.lines(&format!("l {lot}, t, a @1.0 record 59 2 0"));
            self.lines(&format!("l {lot}, c {lot}, e {lot}, i {lot} 1, i {lot} 0"));
            self.lines(&format!("l {lot}, e {lot}, c {lot}, t, l {lot}"));
            self.lines(&format!("o {lot}, i {lot} 2, l {lot}"));
        }
    }
}
