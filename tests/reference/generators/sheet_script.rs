//! Command lines on a sheet (lines/sheet_lines.rs), written one by one.
//!
//! A field may be a number of model/layout.rs by name: the place of a word of the
//! head, as `first-lot`; `@0`, the index of the first record after the head;
//! `@0.1`, the place of word 1 of it; `record`, the words of a record. `^0` and `^0.1` are
//! alike on an old sheet (02, change 8).

use super::random::Random;
use crate::lines::sheet_lines::{self, Sheets};
use crate::model::layout::*;
use crate::model::offices::{Shares, NO_SHARES};
use crate::model::sheet_call::SheetCall;

/// The lines so far, and the sheets as they leave them.
pub struct Script {
    lines: Vec<String>,
    sheets: Sheets,
    pub random: Random,
}

impl Script {
    pub fn new(seed: u64) -> Script {
        Script {
            lines: Vec::new(),
            sheets: Sheets::default(),
            random: Random::new(seed),
        }
    }

    /// Adds a line, and gives its answer.
    pub fn line(&mut self, line: &str) -> String {
        let fields: Vec<String> = line.split(' ').map(numbered).collect();
        let line = fields.join(" ");
        let answer = sheet_lines::answer(&mut self.sheets, &line);
        self.lines.push(line);
        answer.expect("the lines are commands")
    }

    /// Several lines, parted by commas.
    pub fn lines(&mut self, lines: &str) {
        for line in lines.split(", ") {
            self.line(line);
        }
    }

    pub fn fresh(&mut self, length: usize, seed: u32, plan: &[u32]) {
        self.fresh_with(length, seed, plan, &NO_SHARES);
    }

    /// Alike, with these shares of the offices.
    pub fn fresh_with(&mut self, length: usize, seed: u32, plan: &[u32], shares: &Shares) {
        self.line(&format!("n {length} {seed}"));
        self.give(plan, shares);
    }

    /// Fresh on the sheet that is there.
    pub fn give(&mut self, plan: &[u32], shares: &Shares) {
        let call = SheetCall::Fresh(plan.to_vec(), *shares);
        self.line(&sheet_lines::call_line(&call));
    }

    pub fn put(&mut self, index: usize, word: u32) {
        self.line(&format!("p {index} {word}"));
    }

    /// Opens a lot and inspects a list of classes.
    pub fn lot(&mut self, lot: u32, list: &[u8]) {
        self.line(&format!("o {lot}"));
        for class in list {
            self.line(&format!("i {lot} {class}"));
        }
    }

    /// Alike, with these calls after each unit.
    pub fn unit_by_unit(&mut self, lot: u32, list: &[u8], calls: &[&str]) {
        self.line(&format!("o {lot}"));
        for class in list {
            self.line(&format!("i {lot} {class}"));
            for call in calls {
                self.line(&format!("{call} {lot}"));
            }
        }
    }

    /// Opens a lot on a sheet of zeros and writes 999 good units of it: so many calls
    /// would take too long.
    pub fn long_lot(&mut self, lot: u32) {
        self.lines(&format!("o {lot}, p next-unused @1000, p @0.2 @999"));
        self.lines("a @1.0 record 999 0 0, a @2.1 record 998 @1 1");
        self.lines("a @1.2 record 999 @0 0, a @1.3 record 999 1 1");
    }

    /// Each call, with numbers that break rules of 01 "Refused" too.
    pub fn each_call(&mut self, lot: u32) {
        self.lines("t, o 0, i 0 4");
        for call in ["l", "s", "e", "c", "o", "l"] {
            self.line(&format!("{call} {lot}"));
        }
        self.line(&format!("i {lot} 4"));
        self.line(&format!("i {lot} 0"));
    }

    pub fn words(&self) -> &[u32] {
        &self.sheets.sheet.words
    }

    /// The words of the sheet put aside.
    pub fn aside(&self) -> &[u32] {
        &self.sheets.aside
    }

    /// Writes each word back that is not as it was.
    pub fn restore(&mut self, before: &[u32]) {
        for (index, &old) in before.iter().enumerate() {
            if self.words()[index] != old {
                self.put(index, old);
            }
        }
    }

    pub fn finish(self) -> Vec<String> {
        self.lines
    }
}

/// A field with a name as its number.
pub fn numbered(field: &str) -> String {
    let number = match field {
        "next-unused" => NEXT_UNUSED,
        "first-lot" => FIRST_LOT,
        "first-free" => FIRST_FREE,
        "k" => K,
        "closed-lots" => CLOSED_LOTS,
        "record" => RECORD_WORDS,
        "free-tag" => FREE as usize,
        _ => match (field.strip_prefix('@'), field.strip_prefix('^')) {
            (Some(record), _) => record_or_word(record, NEW),
            (_, Some(record)) => record_or_word(record, OLD),
            _ => return field.to_string(),
        },
    };
    number.to_string()
}

/// A record counted from the first after the head, or the place of its word.
fn record_or_word(text: &str, layout: Layout) -> usize {
    let (record, word) = match text.split_once('.') {
        Some((record, word)) => (record, Some(word)),
        None => (text, None),
    };
    let offset: i32 = record.parse().expect("a record is a number");
    let record = layout.first_record.wrapping_add_signed(offset);
    match word {
        Some(word) => place(record, word.parse().expect("a word is a number")),
        None => record as usize,
    }
}
