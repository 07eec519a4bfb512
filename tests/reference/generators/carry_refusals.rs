//! Carries that are refused (02, change 8): sizes of both sheets, shares, a second sheet that
//! is too small, and each two refusals that apply at once.

use super::hand_written::{A, UNIT};
use super::office_draws::shares_of;
use super::office_shares::past_32_bits;
use super::old_sheets::old_sheet;
use super::sheet_script::Script;
use crate::model::layout::*;
use crate::model::offices::{Shares, NO_SHARES};

/// Two lots, one decided, one closed; free and unused records; 0 at word 3 of the last.
const CALLS: &str = "o 2, i 2 2, i 2 2, o 5, i 5 0, i 5 1, s 5, o 1, i 1 2, i 1 2, c 1";

impl Script {
    pub fn carry_refusals(&mut self) {
        self.old_sizes();
        self.second_sizes();
        self.refusals_of_carry();
        self.shares_carried();
        self.fits_by_whole_records();
    }

    /// A fresh sheet whose words are then cut off, or which has more of them. What is left
    /// of the head is corrupt too, or not.
    fn old_sizes(&mut self) {
        let small = [0, 1, 3, 4, 43, 44, 45, 47, 48, 49, 51, 52, 60, 63, 64];
        let large = [-4, -1, 0, 1, 4].map(|more| MOST_WORDS.wrapping_add_signed(more));
        for length in [&small[..], &large].concat() {
            for k in [1, 8] {
                self.line(&format!("n {length} 0"));
                if length >= OLD.head() {
                    self.line(&format!("w 0 {} 0 0 {k} 5 2 3 1 2", OLD.first_record));
                } else if length > 0 {
                    self.line(&format!("w 0 {}", OLD.first_record));
                }
                self.line("x");
                self.carry_into(room(1), 6, &NO_SHARES);
                self.lines("t, o 7, o 8, l 7");
                if length < LEAST_WORDS {
                    self.show_aside();
                }
            }
        }
    }

    /// Of words of any value. The old sheet is sound or corrupt.
    fn second_sizes(&mut self) {
        let small = [0, 1, 48, 59, 60, 61, 63, 64, 65, 67, 68, 69];
        let large = [-5, -4, -1, 0, 1, 4].map(|more| MOST_WORDS.wrapping_add_signed(more));
        for calls in ["", "o 3"] {
            let old = old_sheet(OLD.room(2), 0, UNIT, calls);
            self.put_aside(0, &old);
            for length in [&small[..], &large].concat() {
                self.carry_into(length, 2_654_435_761, &NO_SHARES);
                self.lines("t, l 3, o 4");
            }
            self.show_aside();
        }
    }

    /// 1 of either sheet, 3, 18 and 20, alone and with each other.
    fn refusals_of_carry(&mut self) {
        let old = old_sheet(OLD.room(14), 0, A, CALLS);
        let least = place(old[NEXT_UNUSED] + RAISE, 0);
        let many = [shares_of(&[(4, 30)]), shares_of(&[(0, u32::MAX), (9, 1)])];
        for length in [OLD.least_words - 1, OLD.room(14), MOST_WORDS + 1] {
            for k in [1, 8] {
                let mut old = old.clone();
                old.resize(length, 0);
                old[K] = k;
                self.put_aside(0, &old);
                for second in [
                    LEAST_WORDS - 1,
                    LEAST_WORDS,
                    least - 1,
                    least,
                    MOST_WORDS + 1,
                ] {
                    self.carry_into(second, 5, &NO_SHARES);
                    self.carry(&many[second % 2]);
                    // The shares that fit on one sheet more than needed.
                    self.carry(&shares_of(&[(4, 2), (9, 1)]));
                }
            }
        }
    }

    /// Sums that are the records of the second sheet after its head, and one more; sums that
    /// pass 32 bits. What the old sheet has room for has no say.
    fn shares_carried(&mut self) {
        let old = old_sheet(OLD.room(30), 0, A, CALLS);
        self.put_aside(0, &old);
        let least = self.fitting();
        for length in [least, least + 3, least + 4, room(30), room(45)] {
            let most = records_after_head(length) as u32;
            self.line(&format!("n {length} 8"));
            for shares in at_most(most) {
                self.carry(&shares);
                self.lines("t, l 2, o 4, o 21, s 5");
                for office in [0, 2, 15] {
                    let mut more = shares;
                    more[office] += 1;
                    self.carry(&more);
                }
            }
        }
        for shares in past_32_bits() {
            self.carry(&shares);
            self.carry_into(least - 1, 8, &shares);
            self.line("t");
        }
        self.show_aside();
    }

    /// Words after the last whole record don't count, on either sheet.
    fn fits_by_whole_records(&mut self) {
        for (records, beyond) in [(1, 3), (2, 0), (4, 1), (5, 2)] {
            let full: Vec<String> = (1..=records).map(|lot| format!("o {lot}")).collect();
            let old = old_sheet(OLD.room(records) + beyond, 0, UNIT, &full.join(", "));
            self.put_aside(0, &old);
            let least = self.fitting();
            for length in least - 5..=least + 5 {
                self.carry_into(length, 3, &NO_SHARES);
                self.lines("t, l 1, o 9");
                self.carry(&shares_of(&[(9, 99)]));
            }
        }
    }
}

/// Shares that add to so many records: of one office, and of all.
fn at_most(records: u32) -> Vec<Shares> {
    let (last, all) = (OFFICES - 1, OFFICES as u32);
    let mut alike = [records / all; OFFICES];
    alike[11] += records % all;
    vec![
        shares_of(&[(0, records)]),
        shares_of(&[(last, records)]),
        shares_of(&[(5, records - 3), (2, 1), (1, 2)]),
        alike,
    ]
}
