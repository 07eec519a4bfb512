//! Estimates of lots that their only unit decides (02, change 5), beside those of two and
//! three units under the same plans; and the refusals of an estimate with such a lot.

use super::blank_sheets::lists;
use super::hand_written::{MARKED, UNIT};
use super::marked_plans::{FIRST_UNIT, INSIDE};
use super::sheet_script::Script;
use crate::model::class::HIGHEST;
use crate::model::layout::*;

/// Plans of two and three units that one unit can decide: a nongood one rejects, a bad one
/// rejects, a good one accepts.
const NONGOOD_REJECTS: [&[u32]; 2] = [&[2, 0, 1, 0, 1], &[3, 0, 1, 0, 1]];
const BAD_REJECTS: [&[u32]; 2] = [&[2, 1, 2, 0, 1], &[3, 1, 2, 0, 1]];
const GOOD_ACCEPTS: [&[u32]; 2] = [&[2, 1, 2, 1, 2], &[3, 2, 3, 2, 3]];

/// Lots of one unit under them, and the shortest others, with blanks first and last.
const DECIDED_BY_ONE: [(&[u32], &str); 6] = [
    (NONGOOD_REJECTS[0], ".1 .2 .3 .00 .03"),
    (NONGOOD_REJECTS[1], ".1 .000 .003"),
    (BAD_REJECTS[0], ".2 .32 .03 .30 .13"),
    (BAD_REJECTS[1], ".2 .003 .302"),
    (GOOD_ACCEPTS[0], ".0 .10 .20 .30 .23"),
    (GOOD_ACCEPTS[1], ".0 .320 .323"),
];

/// Alike with the greatest size and the greatest r1, and the class that decides.
const LARGEST_BY_ONE: [(&[u32], u8); 2] = [(&[1000, 59, 60, 0, 1], 2), (&[60, 59, 60, 59, 60], 0)];

/// Two stages without a mark: a good unit accepts at the end of the first.
const TWO_UNITS: &[u32] = &[1, 0, 2, 0, 2, 1, 1, 2, 1, 2];

/// Plans of two stages and classes of only units.
const STAGED: [(&[u32], &[u8]); 4] = [
    (TWO_UNITS, &[0, 1, 2, 3]),
    (FIRST_UNIT, &[0, 1, 2, 3]),
    (INSIDE, &[0, 3]),
    (MARKED, &[0, 2]),
];

/// Damage of a sheet whose one lot has one unit: to the head, the unit and the lot.
const DAMAGE: [&str; 4] = ["p next-unused @1", "p @1.0 4", "p @1.3 2", "p @0.2 @0"];

impl Script {
    pub fn only_units(&mut self) {
        self.each_class_alone();
        self.only_units_side_by_side();
        self.one_of_more_decides();
        self.only_units_struck();
        self.back_to_one_unit();
        self.records_in_turn();
        self.only_units_in_stages();
        self.only_units_corrupt();
        self.only_units_made_another();
        self.only_unit_on_too_many_words();
        self.full_by_only_units();
        self.full_of_each_class();
        self.largest_by_one();
    }

    /// On the smallest sheet that a unit fits on, so in the same two records.
    fn each_class_alone(&mut self) {
        self.fresh(room(2), 5, UNIT);
        for class in 0..=HIGHEST {
            self.lines(&format!("o 7, e 7, i 7 {class}, e 7, l 7, c 7, t"));
        }
    }

    /// Beside a lot without a unit. Then two are closed, and opened again with units of
    /// other classes.
    fn only_units_side_by_side(&mut self) {
        let last = u32::MAX;
        self.fresh(room(10), 4, UNIT);
        for (lot, class) in [(last, 3), (1, 0), (9, 2), (4, 1)] {
            self.lot(lot, &[class]);
        }
        self.lines(&format!("o 6, e 1, e 4, e 6, e 9, e {last}, e 5"));
        self.lines(&format!("c 4, e 1, e 4, e 9, e {last}, o 4, i 4 0, e 4"));
        self.lines(&format!(
            "c {last}, o {last}, i {last} 2, e {last}, c 1, e 4, t"
        ));
    }

    fn one_of_more_decides(&mut self) {
        for (plan, text) in DECIDED_BY_ONE {
            self.fresh(room(16), 3, plan);
            for (list, lot) in lists(text).zip(1..) {
                self.unit_by_unit(lot, &list, &["e"]);
            }
        }
    }

    /// Each class in the place of another.
    fn only_units_struck(&mut self) {
        self.fresh(room(3), 2, UNIT);
        self.lines("o 5, i 5 0");
        for class in (0..=HIGHEST).rev() {
            self.lines(&format!("s 5, e 5, i 5 {class}, e 5"));
        }
        self.lines("c 5, t");
    }

    /// From two units to one and to none, and from there to an only unit that decides.
    fn back_to_one_unit(&mut self) {
        self.fresh(room(4), 2, NONGOOD_REJECTS[1]);
        self.lines("o 5, i 5 0, e 5, i 5 2, e 5, s 5, e 5, s 5, e 5, s 5, i 5 3, e 5");
        self.lines("s 5, i 5 0, i 5 0, i 5 1, e 5, s 5, s 5, s 5, i 5 2, e 5, c 5, t");
        self.fresh(room(4), 2, GOOD_ACCEPTS[0]);
        self.lines("o 5, i 5 3, i 5 0, e 5, s 5, e 5, s 5, i 5 0, e 5, s 5, i 5 1, i 5 3, e 5");
    }

    /// Records that are a lot and then a unit, and the other way round.
    fn records_in_turn(&mut self) {
        self.fresh(room(4), 8, UNIT);
        self.lines("o 1, i 1 2, s 1, o 2, i 1 0, i 2 3, e 1, e 2, c 1, c 2");
        self.lines("o 2, o 1, i 2 1, i 1 2, e 1, e 2, c 2, e 1, o 2, i 2 0, e 2");
    }

    fn only_units_in_stages(&mut self) {
        for (plan, classes) in STAGED {
            self.fresh(room(8), 6, plan);
            for (&class, lot) in classes.iter().zip(1..) {
                self.unit_by_unit(lot, &[class], &["e"]);
            }
        }
        self.fresh(room(4), 6, TWO_UNITS);
        self.lines("o 5, e 5, i 5 3, i 5 0, e 5, s 5, s 5, i 5 0, e 5, s 5, e 5, e 6");
    }

    /// The lot and an absent one, with one stage and with two.
    fn only_units_corrupt(&mut self) {
        for (plan, damages) in [(UNIT, &DAMAGE[..]), (FIRST_UNIT, &DAMAGE[..1])] {
            self.fresh(room(4), 0, plan);
            self.lot(5, &[2]);
            let before = self.words().to_vec();
            for damage in damages {
                self.lines(&format!("{damage}, e 5"));
                self.restore(&before);
            }
            self.lines("p k 8, e 6");
            self.restore(&before);
            self.line("e 5");
        }
    }

    /// The class of the unit and the size of the plan written: decided or not by what is
    /// then on the sheet.
    fn only_units_made_another(&mut self) {
        for (plan, classes) in [(UNIT, &[3, 1, 2, 0][..]), (GOOD_ACCEPTS[0], &[3, 0])] {
            self.fresh(room(4), 0, plan);
            self.lot(5, &[0]);
            for class in classes {
                self.lines(&format!("p @1.0 {class}, e 5"));
            }
        }
        self.fresh(room(4), 0, UNIT);
        self.lines("o 5, i 5 0, o 6, i 6 3");
        for size in [2, 1] {
            self.put(STAGES, size);
            self.lines("e 5, e 6");
        }
    }

    /// A sheet that would be in order but for a word more than the most.
    fn only_unit_on_too_many_words(&mut self) {
        self.line(&format!("n {} 0", MOST_WORDS + 1));
        self.put(K, 1);
        self.put_stages(UNIT);
        self.lines("p next-unused @2, p first-lot @0, p @0.0 5, p @0.2 @1");
        self.lines("p @1.0 1, p @1.2 @0, p @1.3 1, e 5, e 6");
    }

    /// No record is left for a fifth lot. It gets one that a strike gives up, and the struck
    /// lot waits for another to be closed.
    fn full_by_only_units(&mut self) {
        self.fresh(room(8) + 3, 1, NONGOOD_REJECTS[0]);
        for (lot, class) in [(1, 3), (2, 1), (3, 2), (u32::MAX, 1)] {
            self.lot(lot, &[class]);
        }
        self.lines(&format!("o 9, e 1, e 3, e {}", u32::MAX));
        self.lines("s 2, e 2, o 9, i 2 3, e 2, c 3, i 2 3, e 2, i 9 2, e 9, e 1");
    }

    /// A sheet of the greatest size full of lots of one unit, written in few lines. They
    /// take two records each, and one is left. Gives the number of lots.
    pub fn full_of_only_units(&mut self, class: u8) -> usize {
        let lots = records_after_head(MOST_WORDS) / 2;
        let (less, two) = (lots - 1, 2 * RECORD_WORDS);
        self.fresh(MOST_WORDS, 0, UNIT);
        self.lines(&format!("p next-unused @{}, p first-lot @0", 2 * lots));
        self.line(&format!("a @0.0 {two} {lots} 1 1"));
        self.line(&format!("a @0.1 {two} {less} @2 2"));
        self.line(&format!("a @0.2 {two} {lots} @1 2"));
        self.line(&format!("a @1.0 {two} {lots} {class} 0"));
        self.line(&format!("a @1.2 {two} {lots} @0 2"));
        self.line(&format!("a @1.3 {two} {lots} 1 0"));
        lots
    }

    /// The first four lots and the last four have a unit of each class, the others a good
    /// one. Then the last record is used too.
    fn full_of_each_class(&mut self) {
        let lots = self.full_of_only_units(0);
        let more = lots + 1;
        for first in [1, lots - 3] {
            let unit = 2 * first - 1;
            self.line(&format!("a @{unit}.0 {} 4 0 1", 2 * RECORD_WORDS));
            for lot in first..first + 4 {
                self.line(&format!("e {lot}"));
            }
        }
        self.lines(&format!(
            "e {more}, o {more}, e {more}, e 9, e {lots}, s 9, e 9"
        ));
        self.lines(&format!("i {more} 2, e {more}, i 9 2, e 1"));
    }

    /// The lot with the greatest number. Then one of 1,000 units that any nongood unit would
    /// have ended before, and one in the records of that.
    fn largest_by_one(&mut self) {
        let lot = u32::MAX;
        for (plan, class) in LARGEST_BY_ONE {
            self.fresh(room(3), 9, plan);
            self.unit_by_unit(lot, &[class], &["e"]);
        }
        self.fresh(room(1003), 0, &[1000, 0, 1, 0, 1]);
        self.long_lot(lot);
        self.lines(&format!("e {lot}, i {lot} 3, e {lot}, s {lot}, i {lot} 0"));
        self.lines(&format!("e {lot}, c {lot}, o {lot}, i {lot} 1, e {lot}"));
    }
}
