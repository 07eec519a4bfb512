//! Damaged old sheets (02, change 8): each word changed alone, and damage that needs several
//! words. The second sheet keeps all its words, or shows that the sheet was not corrupt.

use super::hand_written::{A, B, TWO, UNIT};
use super::marked_plans::{INSIDE, PUBLISHED};
use super::old_sheets::{old_sheet, units};
use super::sheet_script::Script;
use crate::model::class::HIGHEST;
use crate::model::layout::*;
use crate::model::offices::NO_SHARES;
use crate::model::plan::{MARK, STAGE_WORDS};

/// Lots 3, 4, 5 and 9, decided and not, a closed one, and free records, under plans A,
/// TWO and INSIDE. The first records are those of the old layout alone.
pub const ALL_RECORDS: &str = "o 3, i 3 0, o 5, i 5 1, o 9, i 9 2, i 3 3, i 5 2, i 9 2, i 3 0, \
    o 4, i 4 1, i 4 1, o 6, i 6 2, i 6 2, c 6, s 4, s 3";
pub const ALL_RECORDS_IN_STAGES: &str = "o 3, i 3 0, o 5, i 5 1, o 9, i 9 2, i 3 3, i 5 2, i 9 2, \
    i 9 2, i 9 2, i 9 2, o 6, i 6 2, i 6 2, i 6 2, i 6 2, i 6 2, c 6, i 3 0, s 3, i 5 0, i 3 1";
pub const ALL_RECORDS_MARKED: &str = "o 5, i 5 0, o 3, i 3 1, o 9, i 9 2, o 6, i 6 2, i 6 3, c 6, \
    i 9 0, s 9";

/// Several words of the sheet of ALL_RECORDS. Its lots are records 0, 10, 2 and 4, its free
/// ones 9, 12, 13, 14 and 15; 16 is unused.
const SEVERAL: &[&str] = &[
    // An inspection's chain into a lot, into another lot's, into a free record, to itself
    // and to a newer one; a lot's into another lot, to itself and into a free record.
    "p ^6.1 ^0",
    "p ^6.1 ^3",
    "p ^6.1 ^15",
    "p ^6.1 ^6",
    "p ^1.1 ^6",
    "p ^1.1 ^1",
    "p ^0.2 ^10",
    "p ^0.2 ^0",
    "p ^0.2 ^9",
    // Lots with each other's inspections or with the same, with and without their record.
    "p ^0.2 ^7, p ^2.2 ^6",
    "p ^2.2 ^6",
    "p ^2.2 ^6, p ^6.2 ^2, p ^1.2 ^2",
    "p ^7.1 ^1, p ^7.3 1",
    // The chain of lots to its start, to itself, past a lot, through an inspection, through
    // a free record, and ended early.
    "p ^4.1 ^0",
    "p ^4.1 ^4",
    "p ^0.1 ^0",
    "p ^0.1 ^2",
    "p ^10.1 ^3",
    "p ^10.1 ^9",
    "p ^10.1 0",
    "p first-lot 0",
    "p first-lot ^10",
    // The free chain to its start, to itself, past a record, through a lot, and none; one
    // record fewer or more, with the depths that fit.
    "p ^15.1 ^9",
    "p ^15.1 ^15",
    "p ^9.1 ^9",
    "p ^9.1 ^13",
    "p ^9.1 ^13, p ^9.0 4",
    "p ^9.1 ^10",
    "p first-free 0",
    "p first-free ^12",
    "p ^15.1 ^16, p ^16.0 1, p ^16.3 free-tag, p ^15.0 2, p ^14.0 3, p ^13.0 4, p ^12.0 5, \
     p ^9.0 6",
    // Numbers 0, equal and falling; all of them in other offices; the greatest.
    "p ^0.0 0",
    "p ^10.0 3",
    "p ^2.0 3",
    "p ^0.0 5, p ^2.0 3",
    "p ^0.0 1, p ^10.0 2, p ^2.0 3, p ^4.0 4",
    "p ^4.0 4294967295",
    // Word 0 above and below the records on chains; a record past it on the free chain.
    "p next-unused ^17",
    "p next-unused ^15",
    "p next-unused ^16, p ^15.1 ^16",
    "p next-unused ^17, p ^16.0 1, p ^16.3 free-tag, p ^15.1 ^16",
    // Classes out of range in two lots, all classes blank, and others in two lots; a free
    // chain ended early with its depth, and serials from 2 on.
    "p ^1.0 4, p ^3.0 4",
    "p ^1.0 3, p ^3.0 3, p ^5.0 3, p ^8.0 3, p ^11.0 3, p ^7.0 3",
    "p ^1.0 2, p ^5.0 0",
    "p ^9.1 0, p ^9.0 1",
    "p ^1.3 2, p ^6.3 3",
];

/// Chains in order but for an index outside the records in use, or inside: as a lot, as an
/// older inspection, as a newest one and as a free record.
const INDICES: &[&str] = &[
    "p first-lot ^R, p ^R.0 5, p next-unused ^1",
    "p first-lot ^0, p ^0.0 5, p ^0.1 ^R, p ^R.0 6, p next-unused ^2",
    "p first-lot ^0, p ^0.0 5, p ^0.2 ^R, p ^R.2 ^0, p ^R.3 1, p next-unused ^2",
    "p first-lot ^0, p ^0.0 5, p ^0.2 ^1, p ^1.1 ^R, p ^1.2 ^0, p ^1.3 2, p ^R.2 ^0, p ^R.3 1, \
     p next-unused ^3",
    "p first-free ^R, p ^R.0 1, p ^R.3 free-tag, p next-unused ^1",
    "p first-free ^0, p ^0.0 2, p ^0.1 ^R, p ^0.3 free-tag, p ^R.0 1, p ^R.3 free-tag, \
     p next-unused ^2",
];

/// Accepted lots, rejected lots, good, marginal, bad: at the most, and above it.
const TOTALS: &[[u32; 5]] = &[
    [MOST_CLOSED, 0, 4_000_000_000, 0, 0],
    [MOST_CLOSED, 1, 0, 0, 0],
    [0, MOST_CLOSED + 1, 0, 0, 0],
    [u32::MAX, 1, 0, 0, 0],
    [1 << 31, 1 << 31, 0, 0, 0],
    [1, 0, 0, 1_000, 0],
    [1, 0, 1, 999, 1],
    [0, 1, 0, 0, 1_001],
    [0, 0, 1, 0, 0],
    [2, 1, 1_000, 1_000, 1_000],
    [2, 1, 1_000, 1_000, 1_001],
    [MOST_CLOSED, 0, u32::MAX, 1, 0],
    [MOST_CLOSED, 0, 1, 0, 4_000_000_000],
];

impl Script {
    pub fn carry_damage(&mut self) {
        for (plan, records, calls) in [
            (A, 17, ALL_RECORDS),
            (TWO, 24, ALL_RECORDS_IN_STAGES),
            (INSIDE, 11, ALL_RECORDS_MARKED),
        ] {
            let old = old_sheet(OLD.room(records) + 2, 0, plan, calls);
            self.put_aside(0, &old);
            self.carry_into(room(records), 5, &NO_SHARES);
            self.each_word_aside(plan == A);
        }
        let old = old_sheet(OLD.room(17), 0, A, ALL_RECORDS);
        self.put_aside(0, &old);
        self.carry_into(room(20), 5, &NO_SHARES);
        SEVERAL.iter().for_each(|lines| self.damaged_aside(lines));
        self.old_heads();
        self.old_next_unused();
        self.old_indices();
        self.old_totals();
        self.past_a_stop_aside();
    }

    /// Lines on the old sheet, a carry, calls that show what was carried, and the old words
    /// again.
    fn damaged_aside(&mut self, lines: &str) {
        let before = self.aside().to_vec();
        self.lines_aside(lines);
        if self.carry(&NO_SHARES).starts_with("ok") {
            self.lines("t, l 3, l 5, i 5 1");
        }
        self.line("x");
        self.restore(&before);
        self.line("x");
    }

    /// Each word with values next to its own and with ones out of all limits; each index
    /// of a record with those up to the first records of both layouts, and with the last ones.
    fn each_word_aside(&mut self, all: bool) {
        let before = self.aside().to_vec();
        let used = before[NEXT_UNUSED];
        for index in 0..before.len() {
            let word = before[index];
            let near = [word.wrapping_add(1), word.wrapping_sub(1), word ^ 1];
            let far = [0, 3, OLD.first_record - 1, OLD.first_record, used - 1, used];
            let mut values = match is_index(&before, index) {
                true if all => (0..=16).chain([used - 1, used, u32::MAX]).collect(),
                true => vec![0, far[2 + index % 4], word + RAISE],
                false if all => [&near[..], &[u32::MAX, far[index % 6]]].concat(),
                false => vec![near[index % 3], u32::MAX],
            };
            values.retain(|&value| value != word);
            values.sort_unstable();
            values.dedup();
            if index % RECORD_WORDS == CLASS && word <= u32::from(HIGHEST) {
                values.push(u32::from(HIGHEST) + 1);
            }
            for value in values {
                self.line("x");
                self.restore(&before);
                self.put(index, value);
                self.line("x");
                if self.carry(&NO_SHARES).starts_with("ok") {
                    self.line("l 5");
                }
            }
        }
        self.line("x");
        self.restore(&before);
        self.line("x");
        self.carry(&NO_SHARES);
    }

    /// Any k, unused stages that are not 0, and marks on stages that may have none.
    fn old_heads(&mut self) {
        for plan in [A, B, INSIDE, PUBLISHED] {
            let stages = (plan.len() / STAGE_WORDS) as u32;
            let old = old_sheet(OLD.room(3), 0, plan, "o 5, o 3");
            self.put_aside(0, &old);
            self.carry_into(room(3), 5, &NO_SHARES);
            for k in [0, 1, 2, 3, 6, 7, 8, 9, 858_993_460, 1 << 31, u32::MAX] {
                if k != stages {
                    self.damaged_aside(&format!("p k {k}"));
                }
            }
            for index in STAGES + plan.len()..CLOSED_LOTS {
                self.damaged_aside(&format!("p {index} {}", 1 + index % 2 * 4));
            }
            for stage in 0..stages as usize {
                let [a1, a2] = [1, 3].map(|word| STAGES + stage * STAGE_WORDS + word);
                self.damaged_aside(&format!("p {a1} {MARK}, p {a2} {MARK}"));
                self.damaged_aside(&format!("p {a1} {MARK}"));
                self.damaged_aside(&format!("p {a2} {}", MARK - 1));
            }
        }
    }

    /// Word 0 around the first record of either layout and around the record count; no
    /// record is on a chain, or three are.
    fn old_next_unused(&mut self) {
        for calls in ["", "o 5, i 5 1, o 6"] {
            let old = old_sheet(OLD.room(5) + 3, 0, UNIT, calls);
            self.put_aside(0, &old);
            self.carry_into(room(9), 5, &NO_SHARES);
            for next in (0..=20).chain([1 << 30, u32::MAX]) {
                self.damaged_aside(&format!("p next-unused {next}"));
            }
        }
        let full = old_sheet(OLD.room(5) + 3, 0, UNIT, "o 5, i 5 1, o 6, o 3, o 4");
        self.put_aside(0, &full);
        for more in [-5, -1, 0, 1] {
            self.damaged_aside(&format!("p next-unused ^{}", 5 + more));
        }
        self.damaged_aside("p ^3.1 ^5, p ^5.0 9, p next-unused ^6");
    }

    fn old_indices(&mut self) {
        let old = old_sheet(OLD.room(6), 0, A, "");
        self.put_aside(0, &old);
        self.carry_into(room(6), 5, &NO_SHARES);
        for lines in INDICES {
            for record in -1..=5 {
                self.damaged_aside(&lines.replace("^R", &format!("^{record}")));
            }
        }
        for index in ["^6", "^7", "1073741824", "4294967295"] {
            for first in ["first-lot", "first-free"] {
                self.damaged_aside(&format!("p {first} {index}, p next-unused ^6"));
            }
        }
    }

    fn old_totals(&mut self) {
        let old = old_sheet(OLD.room(5), 0, UNIT, "o 3, o 5, i 5 1");
        self.put_aside(0, &old);
        self.carry_into(room(5), 5, &NO_SHARES);
        for totals in TOTALS {
            let words = totals.map(|total| total.to_string()).join(" ");
            self.damaged_aside(&format!("w closed-lots {words}"));
        }
    }

    /// A plan in the head, or classes, that stop a lot before its last inspection; in one
    /// stage, at the end of a first one, and in a marked one.
    fn past_a_stop_aside(&mut self) {
        let two = units(5, &[0, 0, 0, 0, 0, 0, 0, 1, 1, 1, 0, 0]);
        for (plan, calls, damage) in [
            (
                A,
                "o 5, i 5 0, i 5 0, i 5 0, i 5 1",
                &[
                    "p 4 6",
                    "p 5 1",
                    "p 8 1",
                    "p 5 3, p 6 4",
                    "p ^1.0 2, p ^2.0 2",
                    "p ^2.0 3",
                ][..],
            ),
            (
                TWO,
                &format!("o 5, {two}"),
                &[
                    "p ^8.0 0",
                    "p ^4.0 2, p ^5.0 2, p ^6.0 2, p ^7.0 2, p ^8.0 2, p ^9.0 0, p ^10.0 0",
                    "p 5 3",
                    "p 5 4294967295, p 7 4294967295",
                ],
            ),
            (
                INSIDE,
                "o 5, i 5 2, i 5 0",
                &["p ^1.0 0", "p 8 1", "p ^1.0 1, p ^2.0 3", "p 4 1"],
            ),
        ] {
            let old = old_sheet(OLD.room(14), 0, plan, calls);
            self.put_aside(0, &old);
            self.carry_into(room(14), 5, &NO_SHARES);
            damage.iter().for_each(|lines| self.damaged_aside(lines));
        }
    }
}

/// Whether the word is an index of a record in use, or an end of a chain.
fn is_index(words: &[u32], index: usize) -> bool {
    let of_record = (OLD.head()..place(words[NEXT_UNUSED], 0)).contains(&index);
    let last = index - index % RECORD_WORDS + TAG;
    match index % RECORD_WORDS {
        _ if !of_record => [FIRST_LOT, FIRST_FREE].contains(&index),
        NEXT => true,
        NEWEST => words[last] != FREE,
        _ => false,
    }
}
