//! The seeded cases on expected units at the earliest stop (02, change 6).

use super::draw;
use super::hand_written::*;
use super::known_units::{rows, BY_HAND, CHARTS_BY_HAND, REFUSED};
use super::marked_edges::marked_edges;
use super::marked_plans::*;
use super::plan_cases::{scratch, Cases, MOST_SCRATCH};
use super::random::Random;
use super::sized_lots::NO_PLAN;
use crate::model::chance::{Weights, MOST_WEIGHT};
use crate::model::plan::Plan;

const SEED: u64 = 1_000_030;

/// The greatest sum of weights.
const MOST: u32 = MOST_WEIGHT as u32;

/// One class alone.
const ONE_CLASS: [Weights; 3] = [[1, 0, 0], [0, 1, 0], [0, 0, 1]];

impl Cases {
    pub fn expected_units(&mut self) {
        self.random = Random::new(SEED);
        self.known_units();
        for words in OF_ALL_KINDS {
            self.mixes_of_units(words);
        }
        self.sums_of_weights();
        self.lengths_of_bench();
        self.refused_units();
        self.units_of_largest_plans();
        self.units_of_limits();
        self.random_units();
        self.random_units_of_marked_plans();
    }

    fn units(&mut self, weights: Weights, scratch: u32, words: &[u32]) {
        self.with_scratch("u", weights, scratch, words);
    }

    fn units_and_chart(&mut self, weights: Weights, scratch: u32, words: &[u32]) {
        self.units(weights, scratch, words);
        self.with_scratch("v", weights, scratch, words);
    }

    fn known_units(&mut self) {
        for &(words, weights, scratch, _) in BY_HAND.iter().chain(REFUSED) {
            self.units_and_chart(weights, scratch, words);
        }
        for &(words, weights, scratch, _) in CHARTS_BY_HAND {
            self.units_and_chart(weights, scratch, words);
        }
        for row in rows() {
            let words = row.words();
            self.units_and_chart(row.weights, scratch(&words), &words);
        }
    }

    /// One class alone, two of them, and weights near the last rejection numbers.
    fn mixes_of_units(&mut self, words: &[u32]) {
        let plan = Plan::admitted(words).expect("the plan is admitted");
        let exact = scratch(words);
        for weights in ONE_CLASS {
            self.units(weights, exact, words);
        }
        for weights in [[0, 2, 1], [7, 0, 2], [5, 3, 0]] {
            self.units(weights, exact, words);
        }
        let [r1, r2] = plan.last().r.map(|r| r as u32);
        let good = plan.units() as u32 - r1 + 1;
        self.units_and_chart([good, (r1 - r2).max(1), r2], exact, words);
    }

    /// Sums at their limits, and sums past 2^32.
    fn sums_of_weights(&mut self) {
        for words in [A, SEVEN, INSIDE] {
            for &weights in WEIGHTS {
                self.units_and_chart(weights, scratch(words), words);
            }
        }
    }

    /// Too short, exact and longer, also with weights that are refused.
    fn lengths_of_bench(&mut self) {
        for words in [UNIT, A, B, ONE, SEVEN, INSIDE, PUBLISHED] {
            let exact = scratch(words);
            for length in [0, exact - 1, exact, exact + 1, MOST_SCRATCH] {
                self.units_and_chart([80, 13, 7], length, words);
            }
            for weights in [[0, 0, 0], [MOST - 4, 3, 2], [u32::MAX, 1, 5]] {
                self.units(weights, exact - 1, words);
            }
        }
    }

    /// With no plan, alone and with weights and a scratch that are refused too.
    fn refused_units(&mut self) {
        let marked = marked_edges()[0].broken();
        for words in [&[], &A[..4], NO_PLAN, WRAPS[0], &marked[..]] {
            for weights in [[80, 13, 7], [0, 0, 0], [MOST, 1, 0], [u32::MAX, 1, 5]] {
                self.units(weights, 0, words);
                self.units_and_chart(weights, MOST_SCRATCH, words);
            }
        }
    }

    /// Plans of 1,000 units with r1 = r2 = 60.
    fn units_of_largest_plans(&mut self) {
        let near_the_numbers = [942_000, 3_000, 55_000];
        for words in LARGEST.into_iter().chain(LARGEST_MARKED) {
            for length in [MOST_SCRATCH, MOST_SCRATCH - 1] {
                self.units_and_chart(near_the_numbers, length, words);
            }
            for weights in [[19, 0, 1], [960, 25, 15]] {
                self.units(weights, MOST_SCRATCH, words);
            }
        }
        for words in [LARGEST[1], LARGEST_MARKED[0]] {
            for weights in ONE_CLASS {
                self.units_and_chart(weights, MOST_SCRATCH, words);
            }
        }
    }

    /// Plans with the most units, or the greatest r1, or the least of them.
    fn units_of_limits(&mut self) {
        for words in AT_LIMITS {
            for weights in [[1, 0, 0], [MOST, 0, 0], [MOST - 9, 4, 5], [1, 1, 1]] {
                self.units_and_chart(weights, scratch(words), words);
            }
        }
    }

    fn random_units(&mut self) {
        for (plans, least, most) in [(63, 1, 10), (42, 11, 70), (3, 800, 1000)] {
            for round in 0..plans {
                let units = self.random.between(least, most);
                let words = draw::plan(&mut self.random, 1 + round % 7, units);
                self.random_weights(round, &words);
            }
        }
    }

    fn random_units_of_marked_plans(&mut self) {
        for (plans, least, most) in [(36, 2, 14), (24, 15, 90)] {
            for round in 0..plans {
                let words = self.marked_plan(round, least, most);
                self.random_weights(round, &words);
            }
        }
    }

    /// A chart in one of four rounds.
    fn random_weights(&mut self, round: usize, words: &[u32]) {
        let plan = Plan::admitted(words).expect("the plan is drawn as an admitted one");
        let weights = draw::weights(&mut self.random, &plan);
        let more = self.random.pick(&[0, 0, 1, 5]);
        let length = MOST_SCRATCH.min(scratch(words) + more);
        match round % 4 {
            0 => self.units_and_chart(weights, length, words),
            _ => self.units(weights, length, words),
        }
    }
}

const AT_LIMITS: [&[u32]; 5] = [
    &[1000, 59, 60, 0, 1],
    &[1000, 0, 1, 0, 1],
    &[60, 59, 60, 59, 60],
    &[999, 0, 2, 0, 2, 1, 1, 2, 1, 2],
    &[1, 0, 2, 0, 2, 999, 1, 2, 1, 2],
];
