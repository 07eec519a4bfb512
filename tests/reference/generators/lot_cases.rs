//! The seeded cases on lots of known size (02, change 2).

use super::draw;
use super::hand_written::*;
use super::marked_edges::marked_edges;
use super::marked_plans::*;
use super::plan_cases::{scratch, Cases, MOST_SCRATCH};
use super::random::Random;
use super::sized_lots::{rows, wrapping, BY_HAND, NO_PLAN, REFUSED};
use crate::model::lot_chance::{Lot, MOST_UNITS_OF_LOT};
use crate::model::plan::{Plan, STAGE_WORDS};

const SEED: u64 = 1_000_017;

/// The most units of a lot.
const MOST: u32 = MOST_UNITS_OF_LOT as u32;

impl Cases {
    pub fn sized_lots(&mut self) {
        self.random = Random::new(SEED);
        self.known_sized_lots();
        for words in OF_ALL_KINDS {
            self.sizes_at_limits(words);
            self.lots_of_one_class(words);
            self.classes_used_up(words);
        }
        self.lengths_of_scratch();
        self.wrapping_lots();
        self.refused_lots();
        self.largest_plans_with_lots();
        self.random_lots();
        self.random_lots_of_marked_plans();
    }

    fn known_sized_lots(&mut self) {
        for &(words, lot, scratch, _) in BY_HAND.iter().chain(REFUSED) {
            self.lot_chance(lot, scratch, words);
        }
        for row in rows() {
            self.lot_chance(row.lot, scratch(&row.words), &row.words);
        }
    }

    /// S units, one less, some more, the most and one more.
    fn sizes_at_limits(&mut self, words: &[u32]) {
        let units = units(words);
        for size in [units - 1, units, units + 1, 2 * units + 3, MOST, MOST + 1] {
            self.lot_chance(near_the_last(size, words), scratch(words), words);
        }
    }

    fn lots_of_one_class(&mut self, words: &[u32]) {
        for size in [units(words), units(words) + 5] {
            for lot in [[size, 0, 0], [0, size, 0], [0, 0, size]] {
                self.lot_chance(lot, scratch(words), words);
            }
        }
    }

    /// One or two units of a class, so that a draw may take the last of them early.
    fn classes_used_up(&mut self, words: &[u32]) {
        for class in 0..3 {
            for few in [1, 2] {
                let mut mix = near_the_last_mix(words);
                mix[class] = 0;
                let mut lot = draw::shares(units(words) + 1, mix);
                lot[class] += few;
                self.lot_chance(lot, scratch(words), words);
            }
        }
    }

    /// Too short, exact and longer, also with a lot that is refused.
    fn lengths_of_scratch(&mut self) {
        for words in [UNIT, A, B, ONE, SEVEN, INSIDE, PUBLISHED] {
            let (units, exact) = (units(words), scratch(words));
            let lot = near_the_last(units + 10, words);
            for length in [0, exact - 1, exact, exact + 1, MOST_SCRATCH] {
                self.lot_chance(lot, length, words);
            }
            for lot in [[0, 0, 0], [units - 1, 0, 0], [MOST - 4, 3, 2]] {
                self.lot_chance(lot, exact - 1, words);
            }
        }
    }

    fn wrapping_lots(&mut self) {
        for words in [UNIT, A, SEVEN, PUBLISHED] {
            for lot in wrapping(units(words) + 9) {
                self.lot_chance(lot, scratch(words), words);
            }
            self.lot_chance([u32::MAX; 3], scratch(words), words);
        }
    }

    /// With no plan, alone and with a lot and a scratch that are refused too.
    fn refused_lots(&mut self) {
        let marked = marked_edges()[0].broken();
        for words in [&[], &A[..4], NO_PLAN, WRAPS[0], &marked[..]] {
            for lot in [[40, 3, 4], [0, 0, 0], [MOST, 1, 0], [u32::MAX, 1, 47]] {
                self.lot_chance(lot, 0, words);
                self.lot_chance(lot, MOST_SCRATCH, words);
            }
        }
    }

    /// Lots of just S units and of more, with bad units below, at and far above the
    /// numbers.
    fn largest_plans_with_lots(&mut self) {
        for words in LARGEST {
            for lot in LARGE_LOTS {
                self.lot_chance(lot, MOST_SCRATCH, words);
            }
            self.lot_chance([960, 0, 40], MOST_SCRATCH - 1, words);
            self.lot_chance([960, 0, 39], MOST_SCRATCH, words);
        }
        for words in LARGEST_MARKED {
            for lot in [[960, 0, 40], [1_050, 10, 60]] {
                self.lot_chance(lot, MOST_SCRATCH, words);
            }
        }
    }

    fn random_lots(&mut self) {
        for (plans, least, most) in [(63, 1, 10), (49, 11, 70), (3, 800, 1000)] {
            for round in 0..plans {
                let units = self.random.between(least, most);
                let words = draw::plan(&mut self.random, 1 + round % 7, units);
                self.random_lot(&words);
            }
        }
    }

    fn random_lots_of_marked_plans(&mut self) {
        for (plans, least, most) in [(36, 2, 14), (24, 15, 90)] {
            for round in 0..plans {
                let words = self.marked_plan(round, least, most);
                self.random_lot(&words);
            }
        }
    }

    fn random_lot(&mut self, words: &[u32]) {
        let plan = Plan::admitted(words).expect("the plan is drawn as an admitted one");
        let most = self.random.pick(&[0, 200, 200, 600, 5_000]);
        let lot = draw::lot(&mut self.random, &plan, units(words) + most);
        let more = self.random.pick(&[0, 0, 1, 5]);
        let length = MOST_SCRATCH.min(scratch(words) + more);
        self.lot_chance(lot, length, words);
    }
}

const LARGE_LOTS: [Lot; 8] = [
    [960, 0, 40],
    [941, 0, 59],
    [940, 0, 60],
    [920, 30, 50],
    [500, 0, 500],
    [1_880, 20, 110],
    [4_700, 0, 300],
    [942_000, 3_000, 55_000],
];

/// S.
fn units(words: &[u32]) -> u32 {
    words.iter().step_by(STAGE_WORDS).sum()
}

/// A lot of this size from which S units are near the last rejection numbers.
fn near_the_last(size: u32, words: &[u32]) -> Lot {
    draw::shares(size, near_the_last_mix(words))
}

/// Some units of each class.
fn near_the_last_mix(words: &[u32]) -> [u32; 3] {
    let plan = Plan::admitted(words).expect("the plan is admitted");
    let [r1, r2] = plan.last().r.map(|r| r as u32);
    [units(words) - r1 + 1, (r1 - r2).max(1), r2]
}
