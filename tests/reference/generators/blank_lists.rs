//! Lists with blanks (02, change 4): lists with their marginal units made blank, lists of
//! blanks alone, and classes above the highest beside blanks. blank_stops.rs has those that
//! a blank decides at given places.

use super::hand_written::*;
use super::known_lots::{KNOWN, NEAR_A, NEAR_B};
use super::marked_plans::*;
use super::plan_cases::Cases;
use super::random::Random;
use super::{blanks, draw, published};
use crate::lines::plan_lines::classes;
use crate::model::class::{BLANK, HIGHEST, MARGINAL};
use crate::model::plan::{Plan, MARK as M};

const SEED: u64 = 1_000_003;

/// Of three units two nongood ones or one bad one are rejected.
const THREE_UNITS: &[u32] = &[3, 1, 2, 0, 1];

/// Earliest accepts a good unit and a blank, in either order, inside of the marked stage:
/// one unit more can't bring two bad ones or three nongood ones. Full accepts at unit 3.
const INSIDE_BY_NONBAD: &[u32] = &[2, M, 3, M, 2, 1, 2, 3, 1, 2];

/// Lists with stop and state of the four ways and the event: rows of 01 "Known lots" with
/// blanks for marginal units, and others found by hand.
pub const BLANK_JUDGED: &[(&[u32], &str, &str)] = &[
    (A, ".0003", "0 0 0 0 4 1 4 1 3"),
    (A, ".33000", "5 1 5 1 5 1 5 1 2"),
    (A, ".3300", "0 0 0 0 0 0 0 0 0"),
    (A, ".332", "0 0 3 2 3 2 3 2 5"),
    (A, ".322", "0 0 3 2 3 2 3 2 6"),
    (A, ".333", "0 0 3 2 3 2 3 2 5"),
    (A, ".34", "no 7"),
    (ONE, ".000000000000000003", "0 0 0 0 18 1 18 1 1"),
    (ONE, ".300000000000000000", "0 0 0 0 18 1 18 1 1"),
    (ONE, ".3222", "0 0 4 2 4 2 4 2 4"),
    (FIRST_UNIT, ".3", "1 2 1 2 1 2 1 2 0"),
    (EITHER_UNIT, ".03", "2 1 2 1 2 1 1 1 0"),
    (EITHER_UNIT, ".23", "2 2 2 2 2 2 2 2 0"),
    (INSIDE, ".30", "0 0 0 0 0 0 2 1 0"),
    (INSIDE_BY_NONBAD, ".03", "0 0 0 0 0 0 2 1 0"),
    (INSIDE_BY_NONBAD, ".033", "3 1 3 1 3 1 2 1 0"),
    (INSIDE_BY_NONBAD, ".333", "3 2 3 2 3 2 3 2 0"),
];

fn admitted(words: &[u32]) -> Plan {
    Plan::admitted(words).expect("the plan is admitted")
}

/// A list near the plan's numbers with a marginal unit, as most of them have.
fn near_the_numbers(random: &mut Random, plan: &Plan) -> Vec<u8> {
    loop {
        let list = draw::near_the_numbers(random, plan);
        if list.contains(&MARGINAL) {
            return list;
        }
    }
}

impl Cases {
    pub fn blank_lists(&mut self) {
        self.random = Random::new(SEED);
        self.known_lists_with_blanks();
        for words in [UNIT, FIRST_UNIT, EITHER_UNIT, INSIDE, INSIDE_BY_NONBAD] {
            self.every_list(&mut vec![], words, HIGHEST);
        }
        self.every_list(&mut vec![], THREE_UNITS, HIGHEST);
        self.known_plans_with_blanks();
        self.drawn_plans_with_blanks();
        self.lists_of_blanks();
        self.refused_beside_blanks();
        self.refused_behind_blanks();
    }

    /// A list, and the same with all marginal units made blank and with every other one.
    fn and_blanks(&mut self, list: &[u8], words: &[u32]) {
        self.judged(list, words);
        self.judged(&blanks::all(list), words);
        self.judged(&blanks::every_other(list), words);
    }

    fn known_lists_with_blanks(&mut self) {
        for &(words, list, _) in BLANK_JUDGED {
            let list = classes(list).expect("a list is a dot and classes");
            self.judged(&list, words);
        }
        let known = KNOWN.iter().map(|&(words, list, ..)| (words, list));
        let marked = MARKED_JUDGED.iter().map(|&(words, list, _)| (words, list));
        let near_a = NEAR_A.split(' ').map(|list| (A, list));
        let near_b = NEAR_B.split(' ').map(|list| (B, list));
        for (words, list) in known.chain(marked).chain(near_a).chain(near_b) {
            let list = classes(list).expect("a list is a dot and classes");
            self.and_blanks(&list, words);
        }
        for (list, _) in published_judged() {
            self.and_blanks(&list, PUBLISHED);
        }
    }

    /// Plans by hand and those of published tables, which have rows of one plan.
    fn known_plans_with_blanks(&mut self) {
        let by_hand = OF_ALL_KINDS
            .into_iter()
            .chain(LARGEST)
            .chain(LARGEST_MARKED);
        let mut plans: Vec<Vec<u32>> = by_hand.map(Vec::from).collect();
        let mut published: Vec<Vec<u32>> = published::rows()
            .iter()
            .map(|row| row.words.to_vec())
            .collect();
        published.sort_unstable();
        published.dedup();
        plans.extend(published);
        for words in plans {
            let list = near_the_numbers(&mut self.random, &admitted(&words));
            self.and_blanks(&list, &words);
        }
    }

    /// As many plans with marked stages as without.
    fn drawn_plans_with_blanks(&mut self) {
        for (plans, least, most) in [(12, 3, 10), (10, 11, 70)] {
            for round in 0..plans {
                let k = 2 + round % 6;
                let units = self.random.between(least.max(k as u32), most);
                let words = draw::plan(&mut self.random, k, units);
                self.drawn_lists_with_blanks(&words);
                let words = self.marked_plan(round, least, most);
                self.drawn_lists_with_blanks(&words);
            }
        }
    }

    fn drawn_lists_with_blanks(&mut self, words: &[u32]) {
        let plan = admitted(words);
        let near = near_the_numbers(&mut self.random, &plan);
        self.and_blanks(&near, words);
        let mixed = draw::mixed(&mut self.random, &plan, plan.units());
        let mixed = blanks::some(&mut self.random, &mixed);
        self.judged(&mixed, words);
    }

    /// Blanks alone: so many that they decide, one less, and S. Long lists of them have the
    /// greatest sums of classes that a run can have.
    fn lists_of_blanks(&mut self) {
        for words in OF_ALL_KINDS {
            let plan = admitted(words);
            let stop = plan.stages[0].r[0] as usize;
            for length in [stop - 1, stop, plan.units()] {
                self.judged(&vec![BLANK; length], words);
            }
        }
        for length in [59, 60, 223, 224, 225, 448, 449, 1000, 2000] {
            self.judged(&vec![BLANK; length], LARGEST[0]);
        }
        self.judged(&vec![BLANK; 1000], LARGEST[1]);
        self.judged(&vec![BLANK; 4000], &[1000, 59, 60, 0, 1]);
    }

    /// At the first place, among blanks, at and past the stops, and past S.
    fn refused_beside_blanks(&mut self) {
        for words in [A, B, SEVEN, PUBLISHED] {
            let units = admitted(words).units();
            for (turn, place) in [0, 1, units - 1, units, units + 2].into_iter().enumerate() {
                let mut list = vec![[BLANK, 0][turn % 2]; units + 3];
                list[units / 2] = BLANK;
                for class in [HIGHEST + 1, 9] {
                    list[place] = class;
                    self.judged(&list, words);
                    self.judged(&list[..=place], words);
                }
            }
        }
        for class in HIGHEST + 1..=9 {
            self.judged(&[BLANK, class], A);
            self.judged(&[class, BLANK, BLANK, BLANK], A);
        }
        for list in [&[BLANK][..], &[BLANK, HIGHEST + 1], &[HIGHEST + 1, BLANK]] {
            self.judged(list, &A[..4]);
            self.judged(list, &[5, 2, 3, 1, 3]);
        }
    }

    /// At ends of runs of 224 blanks, and last behind as many as a line may have.
    fn refused_behind_blanks(&mut self) {
        for (turn, unit) in [223, 224, 225, 448, 449].into_iter().enumerate() {
            let mut list = vec![BLANK; 500];
            list[unit - 1] = HIGHEST + 1 + (turn % 2) as u8;
            self.judged(&list, &[449, 59, 60, 0, 1]);
            self.judged(&list[..unit], &[449, 59, 60, 0, 1]);
        }
        for (length, class) in [(1001, HIGHEST + 1), (2000, 9)] {
            let mut list = vec![BLANK; length];
            list[length - 1] = class;
            self.judged(&list, LARGEST[0]);
        }
    }
}
