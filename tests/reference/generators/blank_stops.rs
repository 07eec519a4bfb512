//! As stop_places.rs, stop_stages.rs and sooner_stops.rs, with few of their places: lists
//! that a blank decides (02, change 4).

use super::blanks;
use super::hand_written::LARGEST;
use super::plan_cases::Cases;
use super::stop_places::{accepting, list_with, rejecting, FEW_PLACES, RUN_ENDS};
use super::stop_stages::marginal_cases;
use crate::model::class::{BAD, BLANK, MARGINAL};
use crate::model::plan::MARK;

/// One nongood unit rejects.
const NONE_NONGOOD: [u32; 5] = [40, 0, 1, 0, 1];

impl Cases {
    pub fn blank_stops(&mut self) {
        self.rejected_by_a_blank();
        self.accepted_by_a_blank();
        self.decided_by_a_last_blank();
        self.blanks_at_run_ends();
        self.blanks_in_stages();
        self.sooner_by_a_blank();
        self.many_blanks();
    }

    /// The third nongood unit is a blank, after blanks or after marginal units; and a blank
    /// that is rejected by itself, at each place of few neighbours.
    fn rejected_by_a_blank(&mut self) {
        let places = FEW_PLACES.into_iter().filter(|&y| y > 2);
        for (turn, y) in places.enumerate() {
            let length = [y, 1000][turn % 2];
            let mut list = list_with(length, BLANK, &[1, 2, y]);
            if turn % 3 > 0 {
                list[turn % 2] = MARGINAL;
            }
            self.judged(&list, &rejecting(1000));
        }
        for y in 1..=17 {
            self.judged(&list_with(18, BLANK, &[y]), &NONE_NONGOOD);
        }
    }

    /// By full, three units before the end: the blank makes the nonbad units enough. The
    /// lists end one before it, at it, at the end, and past it.
    fn accepted_by_a_blank(&mut self) {
        let places = FEW_PLACES.into_iter().filter(|&y| (4..998).contains(&y));
        for (turn, y) in places.enumerate() {
            let n = y + 3;
            let length = [n, y, n + 1, y - 1][turn % 4];
            self.judged(&list_with(length, BLANK, &[y]), &accepting(n));
        }
    }

    /// A stage whose last unit is a blank: accepted there by all ways if it is the only
    /// nongood unit, rejected if there is another one.
    fn decided_by_a_last_blank(&mut self) {
        for n in [2, 3, 64, 65, 224, 225, 448, 1000] {
            let words = [n as u32, 1, 2, 0, 1];
            self.judged(&list_with(n, BLANK, &[n]), &words);
            self.judged(&list_with(n, BLANK, &[1, n]), &words);
        }
    }

    /// Two nongood units reject, each of them a run's first or last: blanks, and a blank
    /// before or after a unit of another class.
    fn blanks_at_run_ends(&mut self) {
        let words = [1000, 1, 2, 1, 2];
        for (turn, pair) in RUN_ENDS.windows(2).enumerate() {
            let (first, second) = (pair[0], pair[1]);
            self.judged(&list_with(second, BLANK, pair), &words);
            let mut list = list_with(second, BLANK, pair);
            let other = [MARGINAL, BAD][turn / 2 % 2];
            list[[first, second][turn % 2] - 1] = other;
            self.judged(&list, &words);
        }
    }

    /// Some lists of stop_stages.rs that marginal units decide.
    fn blanks_in_stages(&mut self) {
        for (turn, (words, list)) in marginal_cases().into_iter().step_by(4).enumerate() {
            match turn % 3 {
                0 => self.judged(&blanks::every_other(&list), &words),
                _ => self.judged(&blanks::all(&list), &words),
            }
        }
    }

    /// Earliest accepts at the blank, in a marked stage: the units left of it and the one of
    /// the last stage are too few to bring a bad unit more than is accepted. Full accepts at
    /// the last unit, which every other list lacks.
    fn sooner_by_a_blank(&mut self) {
        for (turn, y) in [2, 3, 32, 64, 65, 224, 225, 449, 940]
            .into_iter()
            .enumerate()
        {
            let left = [1, 10, 57][turn % 3];
            let [n, r] = [y + left, left + 1].map(|number| number as u32);
            let words = [n, MARK, r + 1, MARK, r, 1, r + 1, r + 2, r, r + 1];
            let length = y + left + 1 - turn % 2;
            self.judged(&list_with(length, BLANK, &[y]), &words);
        }
    }

    /// So many as are accepted, and one more, over several runs; every other one marginal.
    fn many_blanks(&mut self) {
        let units: Vec<usize> = (1..=60).map(|unit| unit * 16).collect();
        for few in [59, 60] {
            let list = list_with(1000, MARGINAL, &units[..few]);
            self.judged(&blanks::all(&list), LARGEST[0]);
            self.judged(&blanks::every_other(&list), LARGEST[0]);
        }
    }
}
