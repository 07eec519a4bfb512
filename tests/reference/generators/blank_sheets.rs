//! Commands on sheets with blanks (02, change 4): lots looked at after each unit, struck,
//! closed, on full sheets and at limits, and random ones. blank_refusals.rs has the classes
//! that are refused and the damage of classes.

use super::blanks;
use super::hand_written::*;
use super::known_lots::NEAR_B;
use super::marked_plans::*;
use super::random::Random;
use super::sheet_script::Script;
use crate::lines::plan_lines::classes;
use crate::lines::sheet_lines::call_line;
use crate::model::class::BLANK;
use crate::model::layout::*;
use crate::model::plan::MOST_UNITS;

const SEED: u64 = 65_536_003;

/// Blanks at the first, a middle and the last place of decided lots and undecided ones,
/// beside each other class.
const LISTS_OF_A: &str = ".3 .33 .333 .0003 .3000 .0300 .0030 .33000 .30300 .00033 .03003 .332 \
    .323 .322 .232 .133 .113 .311 .13000 .31000";

/// Lists of plans of two units, and of three.
const OF_TWO: &str = ".3 .33 .30 .03 .32 .23";
const OF_THREE: &str = ".303 .033 .330 .203 .302 .313";

/// Lists parted by a space.
pub fn lists(text: &str) -> impl Iterator<Item = Vec<u8>> + '_ {
    let list = |list| classes(list).expect("a list is a dot and classes");
    text.split(' ').map(list)
}

impl Script {
    pub fn blank_sheets(&mut self) {
        self.random = Random::new(SEED);
        self.lots_of_one_stage();
        self.lots_of_stages();
        self.published_plan_with_blanks();
        self.blanks_alone();
        self.blanks_struck();
        self.lots_side_by_side();
        self.full_by_blanks();
        self.full_of_blank_lots();
        self.totals_with_blanks();
        self.longest_lots_with_blanks();
        self.plays_with_blanks();
    }

    /// These calls after each unit, then close and tally.
    fn watched(&mut self, lot: u32, list: &[u8], calls: &[&str]) {
        self.unit_by_unit(lot, list, calls);
        self.lines(&format!("c {lot}, t"));
    }

    /// All on one sheet, so that the totals add up.
    fn lots_of_one_stage(&mut self) {
        self.fresh(PROGRAM_WORDS, 0, A);
        self.lines("o 7, i 7 3, i 7 2, i 7 2, l 7, e 7, i 7 3, c 7, t");
        self.fresh(room(60), 5, A);
        for (list, lot) in lists(LISTS_OF_A).zip(1..) {
            self.watched(lot, &list, &["l", "e"]);
        }
        self.fresh(room(2), 5, UNIT);
        self.watched(9, &[3], &["l", "e"]);
    }

    fn lots_of_stages(&mut self) {
        for plan in [FIRST_UNIT, EITHER_UNIT, INSIDE] {
            self.fresh(room(30), 6, plan);
            for (list, lot) in lists(OF_TWO).zip(1..) {
                self.watched(lot, &list, &["l"]);
            }
        }
        for (list, lot) in lists(OF_THREE).zip(11..) {
            self.watched(lot, &list, &["l"]);
        }
        self.fresh(room(40), 9, B);
        for list in lists(NEAR_B).filter(|list| list.contains(&1)).step_by(2) {
            self.lot(5, &blanks::every_other(&list));
            self.lines("l 5, c 5, s 5, l 5, i 5 3, l 5, i 5 3, i 5 3, i 5 3, i 5 3, l 5, c 5");
        }
        self.line("t");
    }

    /// Accepted with one blank after 96 units, and rejected by three in the marked stage.
    fn published_plan_with_blanks(&mut self) {
        self.fresh(room(110), 7, PUBLISHED);
        let mut list = [0; 96];
        list[31] = 3;
        self.lot(1, &list[..95]);
        self.lines("l 1, c 1, i 1 0, l 1, c 1, t");
        self.watched(2, &[3, 2, 3], &["l"]);
        self.watched(2, &[3, 3, 3], &["l", "e"]);
    }

    /// Until they decide the lot, and one more.
    fn blanks_alone(&mut self) {
        for plan in [
            UNIT, A, B, ONE, TWO, THREE, SEVEN, INSIDE, TWO_ONE, SEVEN_SIX, PUBLISHED,
        ] {
            self.fresh(room(20), 8, plan);
            self.lines("o 6, l 6");
            while self.line("i 6 3").starts_with("ok") {
                self.line("l 6");
            }
            self.lines("l 6, e 6, c 6, t");
        }
    }

    /// Counted back one by one; a struck blank that had decided the lot, and other classes
    /// in the place of struck blanks.
    fn blanks_struck(&mut self) {
        for plan in [A, TWO_ONE] {
            self.fresh(room(9), 2, plan);
            self.lines("o 5, i 5 3, i 5 3, l 5, s 5, l 5, s 5, l 5, s 5, l 5");
            self.lines("i 5 3, i 5 1, i 5 3, l 5, e 5, s 5, l 5, e 5, i 5 0, l 5, s 5, i 5 2, l 5");
            self.lines("s 5, s 5, l 5, i 5 3, i 5 3, l 5, s 5, s 5, s 5, l 5, s 5");
            self.lines(
                "i 5 0, i 5 0, i 5 0, i 5 3, l 5, e 5, s 5, l 5, i 5 3, l 5, c 5, t, o 5, l 5",
            );
        }
    }

    /// Units of three lots in turn, with all three looked at.
    fn lots_side_by_side(&mut self) {
        for plan in [A, INSIDE] {
            self.fresh(room(16), 4, plan);
            self.lines("o 8, o 2, o 5");
            for classes in [[3, 0, 3], [0, 3, 1], [3, 3, 3], [0, 0, 2], [3, 2, 0]] {
                for (lot, class) in [8, 2, 5].into_iter().zip(classes) {
                    self.line(&format!("i {lot} {class}"));
                }
                self.lines("l 2, l 5, l 8");
            }
            self.lines("c 5, l 2, l 8, t, c 8, l 2, t, c 2, t, o 2, i 2 3, l 2");
        }
    }

    /// A blank is refused where no record is left, and takes one that another lot gave up.
    fn full_by_blanks(&mut self) {
        self.fresh(room(5) + 1, 3, A);
        self.lines("o 1, i 1 3, o 2, i 2 0, i 1 3, i 1 3, i 2 3, l 1, l 2, s 2, i 1 3, l 1");
        self.lines(
            "i 2 3, i 1 3, c 1, l 2, i 2 3, i 2 3, i 2 3, l 2, e 2, c 2, t, o 3, i 3 3, l 3",
        );
    }

    fn full_of_blank_lots(&mut self) {
        let lots = self.full_of_only_units(BLANK);
        let more = lots + 1;
        self.lines(&format!(
            "t, l 1, l {lots}, e 9, i 9 3, o {more}, i {more} 3"
        ));
        self.lines(&format!(
            "s {lots}, i {more} 3, i {lots} 3, c 7, i {lots} 3"
        ));
        self.lines(&format!("l {more}, l {lots}, c {lots}, t"));
    }

    /// Blanks added to marginal units near the most, and to lots near the most.
    fn totals_with_blanks(&mut self) {
        let each = MOST_UNITS as u32;
        for [accepted, marginal] in [
            [1, each],
            [MOST_CLOSED - 1, 0],
            [MOST_CLOSED - 1, (MOST_CLOSED - 1) * each],
            [MOST_CLOSED, MOST_CLOSED * each],
        ] {
            self.fresh(room(6), 0, UNIT);
            self.put(CLOSED_LOTS, accepted);
            self.put(CLOSED_UNITS + 1, marginal);
            self.lines("t, o 1, o 2, i 1 3, i 2 3, c 1, t, c 2, t, l 2, e 2");
        }
    }

    /// The greatest counts that a look may have: of 999 units, and of 1,000. The last unit
    /// decides, whatever its class.
    fn longest_lots_with_blanks(&mut self) {
        let lot = u32::MAX;
        for (marginal, bad) in [(49, 10), (59, 0)] {
            self.fresh(room(1003), 0, LARGEST[0]);
            self.long_lot(lot);
            self.line(&format!("a @1.0 record {marginal} 3 0"));
            self.line(&format!("a @100.0 record {bad} 2 0"));
            self.lines(&format!("l {lot}, e {lot}, c {lot}"));
            for class in [0, 1, 2, 3] {
                self.lines(&format!("i {lot} {class}, l {lot}, e {lot}, s {lot}"));
            }
            self.lines(&format!(
                "i {lot} 3, c {lot}, t, o {lot}, i {lot} 3, l {lot}"
            ));
        }
    }

    fn plays_with_blanks(&mut self) {
        let plans: [&[u32]; 12] = [
            A,
            B,
            ONE,
            TWO,
            THREE,
            UNIT,
            A,
            INSIDE,
            TWO_ONE,
            SEVEN_SIX,
            EITHER_UNIT,
            PUBLISHED,
        ];
        for plan in plans {
            let length = self
                .random
                .pick(&[room(5), room(11) + 3, room(21), room(40)]);
            let seed = self.random.between(0, u32::MAX);
            self.fresh(length, seed, plan);
            let mix = self.random.pick(&[[1, 3, 1], [3, 3, 1], [6, 3, 0]]);
            self.lines("o 1, o 2, o 3");
            for _ in 0..36 {
                let call = blanks::sheet_call(&mut self.random, mix);
                self.line(&call_line(&call));
            }
            self.lines("l 1, l 2, l 3, t");
        }
    }
}
