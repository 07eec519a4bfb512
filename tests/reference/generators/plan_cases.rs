//! The seeded cases on plans: hand-written edges, then random plans with their lists and
//! chances. marked_cases.rs has those with marked stages, lot_cases.rs those on lots of
//! known size, stop_places.rs those with stops at given places, blank_lists.rs those with
//! blanks, units_cases.rs those on expected units.

use super::hand_written::{runs, A, B, LARGEST, ONE, SEVEN, THREE, TWO, UNIT, WEIGHTS, WRAPS};
use super::known_lots::{CHANCES, KNOWN, NEAR_A, NEAR_B};
use super::plan_edges::edges;
use super::random::Random;
use super::{draw, published};
use crate::lines::fields;
use crate::model::chance::{self, needed, Weights};
use crate::model::earliest::{by_table, Table};
use crate::model::lot_chance::Lot;
use crate::model::plan::Plan;
use std::collections::HashSet;

const SEED: u64 = 1_000_060;

/// All case lines, each once.
pub fn all() -> Vec<String> {
    let mut cases = Cases::none();
    cases.known_lots();
    cases.admission_edges();
    cases.lists_at_limits();
    cases.refused_classes();
    cases.random_plans();
    cases.random_words();
    cases.known_chances();
    cases.chances_at_limits();
    cases.refused_chances();
    cases.random_chances();
    cases.long_lists();
    cases.marked_plans();
    cases.sized_lots();
    cases.stop_places();
    cases.blank_lists();
    cases.blank_stops();
    cases.expected_units();
    let mut seen = HashSet::new();
    cases.lines.retain(|line| seen.insert(line.clone()));
    cases.lines
}

/// The lines with stops at given places alone.
pub fn stop_places() -> Vec<String> {
    let mut cases = Cases::none();
    cases.stop_places();
    cases.lines
}

/// The lines with blanks alone.
pub fn blanks() -> Vec<String> {
    let mut cases = Cases::none();
    cases.blank_lists();
    cases.blank_stops();
    cases.lines
}

pub struct Cases {
    lines: Vec<String>,
    pub random: Random,
}

impl Cases {
    fn none() -> Cases {
        Cases {
            lines: Vec::new(),
            random: Random::new(SEED),
        }
    }

    pub fn admission(&mut self, words: &[u32]) {
        self.lines.push(format!("a{}", fields(words)));
    }

    pub fn judged(&mut self, list: &[u8], words: &[u32]) {
        let classes: String = list.iter().map(u8::to_string).collect();
        self.listed(&format!(".{classes}"), words);
    }

    /// A list written as in a case line.
    fn listed(&mut self, list: &str, words: &[u32]) {
        self.lines.push(format!("j {list}{}", fields(words)));
    }

    /// Lists of one class that are longer than a byte can count.
    fn long_lists(&mut self) {
        for words in LARGEST {
            for class in ["0", "1", "2"] {
                for length in [254, 255, 256, 257, 511, 512, 513] {
                    self.listed(&format!(".{}", class.repeat(length)), words);
                }
            }
        }
    }

    /// A line of this kind with a number for each class.
    pub fn with_scratch(&mut self, kind: &str, numbers: [u32; 3], scratch: u32, words: &[u32]) {
        let taken = [&numbers[..], &[scratch], words].concat();
        self.lines.push(format!("{kind}{}", fields(&taken)));
    }

    pub fn chance(&mut self, weights: Weights, scratch: u32, words: &[u32]) {
        self.with_scratch("c", weights, scratch, words);
    }

    fn chart(&mut self, weights: Weights, scratch: u32, words: &[u32]) {
        self.with_scratch("f", weights, scratch, words);
    }

    pub fn chance_and_chart(&mut self, weights: Weights, scratch: u32, words: &[u32]) {
        self.chance(weights, scratch, words);
        self.chart(weights, scratch, words);
    }

    pub fn lot_chance(&mut self, lot: Lot, scratch: u32, words: &[u32]) {
        self.with_scratch("l", lot, scratch, words);
    }

    fn known_lots(&mut self) {
        for &(words, list, ..) in KNOWN {
            self.listed(list, words);
        }
        for (words, lists) in [(A, NEAR_A), (B, NEAR_B)] {
            lists.split(' ').for_each(|list| self.listed(list, words));
        }
    }

    fn admission_edges(&mut self) {
        for edge in edges() {
            self.admission(&edge.kept());
            self.admission(&edge.broken());
        }
        for words in runs() {
            self.admission(&words);
        }
        for words in WRAPS {
            self.admission(words);
            self.judged(&[0, 1, 2, 0, 0], words);
        }
        self.judged(&[], &[]);
        self.judged(&[0, 1, 2], &TWO[..7]);
        for words in [A, B, ONE, TWO, THREE, SEVEN] {
            self.borders(words);
        }
    }

    /// Changes one word at a time and keeps the values on both sides of each
    /// change between admitted and not admitted.
    fn borders(&mut self, base: &[u32]) {
        for index in 0..base.len() {
            let with = |value: u32| {
                let mut words = base.to_vec();
                words[index] = value;
                words
            };
            for value in 0..1100 {
                let sides = [with(value), with(value + 1)];
                let [here, next] = sides.each_ref().map(|side| Plan::admitted(side).is_some());
                if here != next {
                    sides.iter().for_each(|side| self.admission(side));
                }
            }
        }
    }

    /// Lists for the hand-written plans, with S up to 1,000 and last r1 to 60.
    fn lists_at_limits(&mut self) {
        for words in [A, B, ONE, TWO, THREE, SEVEN] {
            self.plain_lists(words);
            (0..5).for_each(|_| self.lists(words));
        }
        for edge in edges() {
            self.lists(&edge.kept());
            self.judged(&[2, 0, 1], &edge.broken());
        }
    }

    fn random_plans(&mut self) {
        for (plans, least, most) in [(140, 1, 10), (98, 11, 70), (24, 800, 1000)] {
            for round in 0..plans {
                let units = self.random.between(least, most);
                let words = draw::plan(&mut self.random, 1 + round % 7, units);
                self.admission(&words);
                let perturbed = self.perturbed(&words);
                self.admission(&perturbed);
                if round % 5 == 0 {
                    self.plain_lists(&words);
                }
                self.lists(&words);
            }
        }
    }

    /// One word off by 1, or two words swapped.
    pub fn perturbed(&mut self, words: &[u32]) -> Vec<u32> {
        let mut words = words.to_vec();
        let index = self.random.index(words.len());
        let other = self.random.index(words.len());
        match self.random.index(5) {
            0 => words.swap(index, other),
            1 | 2 => words[index] = words[index].wrapping_add(1),
            _ => words[index] = words[index].abs_diff(1),
        }
        words
    }

    /// One class throughout, and the empty list.
    pub fn plain_lists(&mut self, words: &[u32]) {
        let Some(plan) = Plan::admitted(words) else {
            return;
        };
        for class in 0..3 {
            self.judged(&vec![class; plan.units()], words);
        }
        self.judged(&[], words);
    }

    /// A list of each random kind for an admitted plan.
    pub fn lists(&mut self, words: &[u32]) {
        let plan = Plan::admitted(words).expect("the plan is drawn as an admitted one");
        let table = Table::new(&plan);
        let random = &mut self.random;
        let units = plan.units();
        let length = random.index(units + 4);
        let mixed = draw::mixed(random, &plan, length);
        let near = draw::near_the_numbers(random, &plan);
        let stage = &plan.stages[random.index(plan.stages.len())];
        let end = stage.end as usize;
        let held = draw::held(random, &plan, &table, end, units.min(end + 3));
        let long = units + random.index(4);
        let undecided = draw::held(random, &plan, &table, units + 1, long);
        for list in [mixed, near, held, undecided] {
            self.judged(&list, words);
            self.cut(&plan, &table, &list, words);
        }
    }

    /// One in four times the list broken off at its stop or just before it.
    fn cut(&mut self, plan: &Plan, table: &Table, list: &[u8], words: &[u32]) {
        let Some((stop, _)) = by_table(plan, table, list) else {
            return;
        };
        match self.random.index(8) {
            0 => self.judged(&list[..stop], words),
            1 => self.judged(&list[..stop - 1], words),
            _ => {}
        }
    }

    /// Classes above 3 at the first place, at and past the stops, and past S.
    fn refused_classes(&mut self) {
        for words in [A, B, ONE, SEVEN] {
            let plan = Plan::admitted(words).expect("the hand-written plans are admitted");
            let units = plan.units();
            for place in [0, 1, units - 1, units, units + 2] {
                for class in [4, 9] {
                    let mut list = vec![0; units + 3];
                    list[place] = class;
                    self.judged(&list, words);
                    self.judged(&list[..=place], words);
                }
            }
        }
        self.judged(&[4], &A[..4]);
        self.judged(&[0, 4], &[5, 2, 3, 1, 3]);
    }

    /// Any words, mostly whole stages.
    fn random_words(&mut self) {
        for _ in 0..120 {
            let odd_words = self.random.pick(&[0, 0, 0, 0, 0, 0, 1, 4]);
            let length = 5 * (1 + self.random.index(7)) + odd_words;
            let most = self.random.pick(&[2, 6, 60, 1001, u32::MAX]);
            let word = |_| self.random.between(0, most);
            let words: Vec<u32> = (0..length).map(word).collect();
            self.admission(&words);
        }
    }

    /// Those of 01 and of the published tables.
    fn known_chances(&mut self) {
        for &(words, weights, _) in CHANCES {
            self.chance_and_chart(weights, scratch(words), words);
        }
        for row in published::rows() {
            self.chance(row.weights, scratch(&row.words), &row.words);
        }
    }

    /// Sums of weights and lengths of the scratch at their limits, and the
    /// largest plans.
    fn chances_at_limits(&mut self) {
        for words in [UNIT, A, B, ONE, SEVEN] {
            let exact = scratch(words);
            for &weights in WEIGHTS {
                self.chance_and_chart(weights, exact, words);
            }
            for length in [0, exact - 1, exact, exact + 1, MOST_SCRATCH] {
                self.chance_and_chart([80, 13, 7], length, words);
            }
        }
        for words in LARGEST {
            let near_the_numbers = [942_000, 3_000, 55_000];
            self.chance_and_chart(near_the_numbers, MOST_SCRATCH, words);
            self.chance_and_chart(near_the_numbers, MOST_SCRATCH - 1, words);
        }
    }

    /// Several refusals at once, of which the lowest is given.
    fn refused_chances(&mut self) {
        for words in [&[], &A[..4], &[5, 2, 3, 1, 3], &WRAPS[0][..]] {
            for weights in [[1, 1, 1], [0, 0, 0], [u32::MAX, 1, 5]] {
                self.chance_and_chart(weights, 0, words);
                self.chance_and_chart(weights, MOST_SCRATCH, words);
            }
        }
        for weights in [[0, 0, 0], [1_000_000, 0, 1], [u32::MAX, 1, 5]] {
            self.chance_and_chart(weights, 0, A);
            self.chance_and_chart(weights, scratch(B) - 1, B);
        }
    }

    fn random_chances(&mut self) {
        for (plans, least, most) in [(105, 1, 10), (70, 11, 70), (7, 800, 1000)] {
            for round in 0..plans {
                let units = self.random.between(least, most);
                let words = draw::plan(&mut self.random, 1 + round % 7, units);
                let plan = Plan::admitted(&words).expect("the plan is drawn as an admitted one");
                let weights = draw::weights(&mut self.random, &plan);
                let more = self.random.pick(&[0, 0, 1, 5]);
                let length = MOST_SCRATCH.min(scratch(&words) + more);
                self.chance(weights, length, &words);
                if round % 3 == 0 {
                    self.chart(weights, length, &words);
                }
            }
        }
    }
}

/// The longest scratch of a case, which the largest plans need.
pub const MOST_SCRATCH: u32 = chance::MOST_SCRATCH as u32;

/// The words of scratch that an admitted plan needs.
pub fn scratch(words: &[u32]) -> u32 {
    let plan = Plan::admitted(words).expect("the plan is admitted");
    needed(&plan) as u32
}
