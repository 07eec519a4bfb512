//! Old sheets of the greatest size carried (02, change 8), their chains written in few lines.

use super::hand_written::UNIT;
use super::office_draws::shares_of;
use super::old_sheets::old_sheet;
use super::sheet_script::Script;
use crate::model::layout::*;
use crate::model::offices::NO_SHARES;

/// The records of an old sheet of the greatest size after its head, and the most of them
/// that another sheet of that size has room for.
const OLD_ROOM: usize = OLD.records_after_head(MOST_WORDS);
const ROOM: usize = records_after_head(MOST_WORDS);

impl Script {
    pub fn carry_large(&mut self) {
        self.large_of_lots();
        self.large_of_free_records();
    }

    fn large(&mut self) {
        let old = old_sheet(MOST_WORDS, 0, UNIT, "");
        self.put_aside(0, &old);
    }

    /// Full, which fits nowhere; with one lot more than fits, with as many as fit, and with
    /// one fewer.
    fn large_of_lots(&mut self) {
        self.large();
        self.line(&format!("n {MOST_WORDS} 7"));
        for (lots, seed) in [(OLD_ROOM, 1), (ROOM + 1, 1), (ROOM, 2), (ROOM - 1, 3)] {
            let last = lots - 1;
            self.line("x");
            self.lines(&format!("p next-unused ^{lots}, p first-lot ^0"));
            self.line(&format!("a ^0.0 record {lots} {seed} {seed}"));
            self.lines(&format!("a ^0.1 record {last} ^1 1, p ^{last}.1 0"));
            self.line("x");
            self.carry(&shares_of(&[(4, ROOM as u32)]));
            self.lines(&format!("t, l {seed}, o {}, s 4", lots as u32 * seed + 1));
        }
        self.carry(&shares_of(&[(4, ROOM as u32), (5, 1)]));
        self.carry_into(MOST_WORDS - 1, 7, &NO_SHARES);
        self.lines("t, o 1, o 2");
        self.carry_into(MOST_WORDS - 5, 7, &NO_SHARES);
        self.carry_into(MOST_WORDS + 1, 7, &NO_SHARES);
        self.show_aside();
    }

    /// Alike, full of free records.
    fn large_of_free_records(&mut self) {
        self.large();
        for records in [OLD_ROOM, ROOM + 1, ROOM] {
            let last = records - 1;
            self.line("x");
            self.lines(&format!("p next-unused ^{records}, p first-free ^{last}"));
            self.line(&format!("a ^0.0 record {records} 1 1"));
            self.line(&format!("a ^1.1 record {last} ^0 1"));
            self.line(&format!("a ^0.3 record {records} free-tag 0"));
            self.line("x");
            self.carry_into(MOST_WORDS, 7, &shares_of(&[(0, ROOM as u32)]));
            self.lines("t, o 8, o 16, i 16 0, c 16");
        }
        self.lines("x, p ^0.0 2, x");
        self.carry(&NO_SHARES);
    }
}
