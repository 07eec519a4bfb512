//! Old sheets (02, change 8): made by calls under the old layout, written in few lines and
//! put aside, and carried into a second sheet.

use super::office_draws::Offices;
use super::random::Random;
use super::sheet_script::{numbered, Script};
use crate::lines::sheet_lines::{carry_line, Command, Write};
use crate::model::layout::{place, NEXT_UNUSED, RAISE};
use crate::model::offices::{Shares, NO_SHARES};
use crate::model::sheet::Sheet;

/// The words of an old sheet of this length after fresh and then these lines, parted by
/// commas. No call is refused.
pub fn old_sheet(length: usize, seed: u32, plan: &[u32], lines: &str) -> Vec<u32> {
    let mut words = vec![];
    let length = length as u32;
    Write::New { length, seed }.make(&mut words);
    let mut sheet = Sheet::old(words);
    let fresh = sheet.fresh(plan, &NO_SHARES);
    fresh.expect("the plan is admitted, and the size is right");
    for line in lines.split(", ").filter(|line| !line.is_empty()) {
        old_line(&mut sheet, line);
    }
    sheet.words
}

fn old_line(sheet: &mut Sheet, line: &str) {
    let fields: Vec<String> = line.split(' ').map(numbered).collect();
    match Command::parse(&fields.join(" ")).expect("the lines are commands") {
        Command::Write(write) => write.make(&mut sheet.words),
        Command::Call(call) => {
            if let Err(number) = call.make(sheet) {
                panic!(
                    "{line} is refused {number} on an old sheet of {} words",
                    sheet.words.len()
                );
            }
        }
        _ => panic!("{line} is not on one sheet"),
    }
}

/// The words of an old sheet of this length after so many random calls on these lots.
pub fn played(
    random: &mut Random,
    length: usize,
    seed: u32,
    plan: &[u32],
    offices: &Offices,
    calls: usize,
) -> Vec<u32> {
    let mut sheet = Sheet::old(old_sheet(length, seed, plan, ""));
    let mix = random.pick(&[[1, 1, 1], [6, 1, 1], [1, 0, 3], [1, 3, 1]]);
    for _ in 0..calls {
        // Refused ones too.
        let _ = offices.call(random, mix).make(&mut sheet);
    }
    sheet.words
}

/// Inspections of a lot as lines.
pub fn units(lot: u32, classes: &[u8]) -> String {
    let lines: Vec<String> = classes
        .iter()
        .map(|class| format!("i {lot} {class}"))
        .collect();
    lines.join(", ")
}

/// The most bytes of the words on a line.
const LINE_BYTES: usize = 180;

impl Script {
    /// Writes an old sheet and puts it aside. Words of this seed need no line.
    pub fn put_aside(&mut self, seed: u32, old: &[u32]) {
        self.line(&format!("n {} {seed}", old.len()));
        self.write_words(old);
        self.line("x");
    }

    /// Writes the words that are not as they are.
    fn write_words(&mut self, words: &[u32]) {
        let mut from = 0;
        while let Some(index) = (from..words.len()).find(|&at| self.words()[at] != words[at]) {
            from = self.write_run(index, words);
        }
    }

    /// Writes words from this one on, up to three that are right already; gives where it
    /// ends.
    fn write_run(&mut self, index: usize, words: &[u32]) -> usize {
        let right = |at: usize| at < words.len() && self.words()[at] == words[at];
        let mut run = String::new();
        let mut at = index;
        while at < words.len() && run.len() < LINE_BYTES && !(at..at + 3).all(right) {
            run += &format!(" {}", words[at]);
            at += 1;
        }
        self.line(&format!("w {index}{run}"));
        at
    }

    /// Carries the sheet put aside into the sheet; gives the answer.
    pub fn carry(&mut self, shares: &Shares) -> String {
        self.line(&carry_line(shares))
    }

    /// Alike, into a new sheet of so many words.
    pub fn carry_into(&mut self, length: usize, seed: u32, shares: &Shares) -> String {
        self.line(&format!("n {length} {seed}"));
        self.carry(shares)
    }

    /// Lines on the sheet put aside.
    pub fn lines_aside(&mut self, lines: &str) {
        self.lines(&format!("x, {lines}, x"));
    }

    /// The digest of the sheet put aside, by a call that writes nothing.
    pub fn show_aside(&mut self) {
        self.lines_aside("t");
    }

    /// The words of the smallest second sheet for the one put aside.
    pub fn fitting(&self) -> usize {
        place(self.aside()[NEXT_UNUSED] + RAISE, 0)
    }
}
