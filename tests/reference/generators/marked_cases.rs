//! The seeded cases on plans with marked stages (02, change 1).

use super::draw;
use super::marked_edges::marked_edges;
use super::marked_plans::*;
use super::plan_cases::{scratch, Cases, MOST_SCRATCH};
use super::random::Random;
use crate::model::plan::Plan;

const SEED: u64 = 4_294_967_295;

/// Good, marginal and bad units in a hundred.
const QUALITIES: [[u32; 3]; 4] = [[99, 0, 1], [97, 1, 2], [95, 0, 5], [90, 2, 8]];

impl Cases {
    pub fn marked_plans(&mut self) {
        self.random = Random::new(SEED);
        self.marked_by_hand();
        self.marked_admission();
        self.marked_lists();
        self.largest_marked();
        self.random_marked_plans(12, 2, 10);
        self.random_marked_plans(3, 11, 70);
        self.marked_chances();
        self.published_chances();
        self.random_marked_chances();
        self.refused_marked_chances();
    }

    /// Every list of the smallest plans, and the lists of the published one.
    fn marked_by_hand(&mut self) {
        for words in [INSIDE, FIRST_UNIT, EITHER_UNIT] {
            self.every_list(&mut vec![], words, 2);
        }
        for (list, _) in published_judged() {
            self.judged(&list, PUBLISHED);
        }
    }

    /// The lists that begin with this one, up to S units, of classes up to the highest.
    pub fn every_list(&mut self, list: &mut Vec<u8>, words: &[u32], highest: u8) {
        self.judged(list, words);
        let units: u32 = words.iter().step_by(5).sum();
        if list.len() < units as usize {
            for class in 0..=highest {
                list.push(class);
                self.every_list(list, words, highest);
                list.pop();
            }
        }
    }

    /// Plans on both sides of each rule. Those that break one are refused by every
    /// call.
    fn marked_admission(&mut self) {
        for (round, edge) in marked_edges().into_iter().enumerate() {
            let (kept, broken) = (edge.kept(), edge.broken());
            self.admission(&kept);
            self.admission(&broken);
            self.judged(&[2, 0, 1], &broken);
            self.chance_and_chart([80, 13, 7], scratch(&kept), &broken);
            if round % 3 == 0 {
                let plan = Plan::admitted(&kept).expect("the plan keeps the rule");
                let list = draw::near_the_numbers(&mut self.random, &plan);
                self.judged(&list, &kept);
            }
        }
        self.judged(&[0, 4], &marked_edges()[0].broken());
        self.judged(&[0, 4], INSIDE);
        self.judged(&[0, 0, 0, 4], INSIDE);
    }

    fn marked_lists(&mut self) {
        for words in [TWO_ONE, THREE_ONE, SEVEN_THREE, SEVEN_SIX, PUBLISHED] {
            self.admission(words);
            self.plain_lists(words);
            self.lists(words);
        }
    }

    fn largest_marked(&mut self) {
        for words in LARGEST_MARKED {
            self.admission(words);
            self.plain_lists(words);
        }
    }

    fn random_marked_plans(&mut self, plans: usize, least: u32, most: u32) {
        for round in 0..plans {
            let words = self.marked_plan(round, least, most);
            self.admission(&words);
            let perturbed = self.perturbed(&words);
            self.admission(&perturbed);
            self.lists(&words);
        }
    }

    /// A random plan of 2 to 7 stages, one of them marked at least.
    pub fn marked_plan(&mut self, round: usize, least: u32, most: u32) -> Vec<u32> {
        let k = 2 + round % 6;
        let marked = 1 + self.random.index(k - 1);
        let units = self.random.between(least.max(k as u32), most);
        draw::marked_plan(&mut self.random, marked, k, units)
    }

    /// Those found by hand.
    fn marked_chances(&mut self) {
        for &(words, weights, _) in MARKED_CHANCES {
            self.chance_and_chart(weights, scratch(words), words);
        }
    }

    /// Those of the published plan and of the largest.
    fn published_chances(&mut self) {
        for weights in QUALITIES {
            self.chance_and_chart(weights, scratch(PUBLISHED), PUBLISHED);
        }
        let [three, six] = LARGEST_MARKED;
        self.chance([942_000, 3_000, 55_000], MOST_SCRATCH, three);
        self.chance([942_000, 3_000, 55_000], MOST_SCRATCH, six);
    }

    fn random_marked_chances(&mut self) {
        for round in 0..12 {
            let words = self.marked_plan(round, 2, 14);
            let plan = Plan::admitted(&words).expect("the plan is drawn as an admitted one");
            let weights = draw::weights(&mut self.random, &plan);
            self.chance(weights, scratch(&words), &words);
        }
    }

    /// Weights and a length of the scratch that are refused, and several refusals at
    /// once.
    fn refused_marked_chances(&mut self) {
        let exact = scratch(PUBLISHED);
        self.chance_and_chart([99, 0, 1], exact - 1, PUBLISHED);
        self.chance([0, 0, 0], exact, PUBLISHED);
        self.chance([0, 0, 0], 0, PUBLISHED);
        let broken = marked_edges()[0].broken();
        self.chance_and_chart([0, 0, 0], 0, &broken);
    }
}
