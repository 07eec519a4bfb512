//! Classes above the highest in inspections, with every other refusal that can apply at
//! once; and class words made blank, which doesn't make a sheet corrupt by itself, or made higher,
//! which does (02, change 4).

use super::hand_written::{A, TWO};
use super::marked_plans::INSIDE;
use super::sheet_damage::is_class;
use super::sheet_script::Script;
use crate::model::class::{BLANK, HIGHEST};
use crate::model::layout::*;

/// The next class, and words whose low byte or low bits are a class that may be.
const TOO_HIGH: [u32; 4] = [HIGHEST as u32 + 1, 255, 256, u32::MAX];

impl Script {
    pub fn blank_refusals(&mut self) {
        self.refused_classes();
        for plan in [A, TWO] {
            self.with_all_records(plan);
            self.each_class_made_another();
        }
        self.history_made_blank();
        self.stages_made_blank();
        self.blanks_made_another();
    }

    /// A blank and each class above the highest.
    fn blank_and_higher(&mut self, lot: u32) {
        for class in [&[u32::from(BLANK)], &TOO_HIGH[..]].concat() {
            self.line(&format!("i {lot} {class}"));
        }
    }

    /// With 1, with 3, with 6, alone, with 8, with 11, and with 8 on a full sheet. Lot 2 is
    /// decided, lot 6 isn't. A granted blank is struck again.
    fn refused_classes(&mut self) {
        for length in [LEAST_WORDS - 1, MOST_WORDS + 1] {
            self.fresh(length, 1, A);
            self.blank_and_higher(2);
        }
        for (length, damage) in [(room(9), "p k 8"), (room(9), ""), (room(6), "")] {
            self.fresh(length, 1, A);
            self.lines("o 2, o 6, i 2 3, i 2 3, i 2 3, i 6 3");
            if !damage.is_empty() {
                self.line(damage);
            }
            for lot in [0, 4, 2, 6] {
                self.blank_and_higher(lot);
            }
            self.lines("l 2, l 6, s 6, l 6, t");
        }
    }

    /// A blank shows in a look, unless the lot then was decided before. A higher class corrupts
    /// the sheet for every call.
    fn each_class_made_another(&mut self) {
        let before = self.words().to_vec();
        let calls = ["l 5", "e 5", "o 6", "i 9 3", "s 5", "c 3"];
        let end = place(before[NEXT_UNUSED], 0);
        let classes = (HEAD..end).filter(|&index| is_class(&before, index));
        for (turn, index) in classes.enumerate() {
            self.put(index, u32::from(BLANK));
            self.lines("t, l 3, l 5, l 9, e 3, e 5");
            for (class, more) in TOO_HIGH.into_iter().zip(turn..) {
                self.put(index, class);
                self.line("t");
                self.line(calls[more % calls.len()]);
            }
            self.restore(&before);
        }
        self.lines("t, l 3, l 5, l 9");
    }

    /// Each unit of an undecided lot made blank in turn, and all of them: the third nongood
    /// unit is then the fourth unit, or the third, which makes the sheet corrupt.
    fn history_made_blank(&mut self) {
        self.fresh(room(10), 0, A);
        self.lines("o 8, i 8 1, i 8 0, i 8 1, i 8 0, l 8");
        let before = self.words().to_vec();
        for record in 1..=4 {
            self.put(place(FIRST_RECORD + record, CLASS), u32::from(BLANK));
            self.lines("t, l 8, e 8, i 8 4, i 8 3");
            self.restore(&before);
        }
        self.lines("p @1.0 3, p @3.0 3, t, l 8, i 8 3, l 8, s 8, p @2.0 3, t, l 8, s 8");
        self.restore(&before);
        self.lines("p @4.0 3, l 8, e 8, c 8, t");
    }

    /// In a second stage, and in a marked one: marginal units of the first stage made blank,
    /// and good ones, so that it would have rejected.
    fn stages_made_blank(&mut self) {
        self.fresh(room(14), 0, TWO);
        self.lot(3, &[0, 0, 0, 0, 0, 0, 0, 1, 1, 1, 0, 0]);
        self.lines("l 3, p @8.0 3, l 3, p @9.0 3, p @10.0 3, t, l 3, p @1.0 3, p @2.0 3, t, l 3");
        self.lines("p @3.0 3, t, l 3, i 3 0, p @3.0 0, l 3, i 3 3, l 3, i 3 3, l 3, e 3, c 3, t");
        self.fresh(room(9), 0, INSIDE);
        self.lot(8, &[2, 0]);
        self.lines("l 8, p @1.0 3, l 8, p @2.0 3, l 8, p @1.0 0, t, l 8, p @1.0 4, t, l 8");
    }

    /// Blanks made good, marginal, bad and too high.
    fn blanks_made_another(&mut self) {
        self.fresh(room(10), 0, A);
        self.lines("o 8, i 8 3, i 8 0, i 8 3, i 8 0, l 8");
        for class in [&[0, 1, 2], &TOO_HIGH[..]].concat() {
            for record in [1, 3] {
                let index = place(FIRST_RECORD + record, CLASS);
                self.put(index, class);
                self.lines("l 8, e 8");
                self.put(index, u32::from(BLANK));
            }
        }
        self.lines("p @1.0 4, p @3.0 4, t, p @1.0 3, t, p @3.0 3, t, l 8");
    }
}
