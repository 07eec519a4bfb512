//! Lists whose stops, ends and nongood units fall at every place of the parts in which a
//! list may be counted: its stages, runs of 224 classes from a stage's first unit on, and
//! halves of a stage at multiples of 64. This file has plans of one stage, stop_stages.rs
//! and sooner_stops.rs have those of several.

use super::hand_written::{A, LARGEST};
use super::plan_cases::Cases;

/// The length of the runs.
pub const PART: usize = 224;

/// Sizes of a stage: around one half, one run and two, the least and the greatest.
pub const SIZES: [usize; 11] = [1, 2, 63, 64, 65, 223, 224, 225, 448, 449, 1000];

/// The first and the last unit of a run, and of the greatest stage.
pub const RUN_ENDS: [usize; 10] = [1, 224, 225, 448, 449, 672, 673, 896, 897, 1000];

pub const FEW_PLACES: [usize; 26] = [
    1, 2, 3, 31, 32, 33, 63, 64, 65, 127, 128, 129, 223, 224, 225, 447, 448, 449, 671, 672, 673,
    895, 896, 897, 999, 1000,
];

/// Units, counted from 1: the first and last ones, those around 32, and those around the
/// multiples of 64 and of a run's length.
pub fn places() -> Vec<usize> {
    let mut places = FEW_PLACES.to_vec();
    for step in [64, PART] {
        let middles = (step..1000).step_by(step);
        places.extend(middles.flat_map(|middle| middle - 1..=middle + 1));
    }
    places.sort_unstable();
    places.dedup();
    places
}

/// A list of good units but for these, as far as it has them, which are of the class.
pub fn list_with(length: usize, class: u8, units: &[usize]) -> Vec<u8> {
    let of = |unit: usize| if units.contains(&unit) { class } else { 0 };
    (1..=length).map(of).collect()
}

/// One bad unit rejects, three nongood ones do, as far as there are so many.
pub fn rejecting(n: usize) -> Vec<u32> {
    let r1 = n.min(3) as u32;
    vec![n as u32, r1 - 1, r1, 0, 1]
}

/// At most three bad and five nongood units are accepted; none where n is too small.
pub fn accepting(n: usize) -> Vec<u32> {
    match n {
        0..=5 => vec![n as u32, 0, 1, 0, 1],
        _ => vec![n as u32, 5, 6, 3, 4],
    }
}

/// A list that `rejecting` rejects at unit y, for its row of bad units or of nongood
/// ones. The latter needs as many units before it.
fn rejected_at(y: usize, n: usize, length: usize, by_bad: bool) -> Vec<u8> {
    let before = n.min(3);
    if by_bad || y < before {
        return list_with(length, 2, &[y]);
    }
    let units: Vec<usize> = (1..before).chain([y]).collect();
    list_with(length, 1, &units)
}

impl Cases {
    pub fn stop_places(&mut self) {
        self.rejected_in_one_stage();
        self.decided_by_the_last_unit();
        self.accepted_before_the_end();
        self.ends_of_lists();
        self.classes_at_run_ends();
        self.lists_of_one_class();
        self.refused_behind_stops();
        self.stops_in_stages();
        self.earliest_sooner();
    }

    /// At each place, in lists that end there and in lists that go on to the stage's end.
    fn rejected_in_one_stage(&mut self) {
        for n in SIZES {
            let words = rejecting(n);
            let places = FEW_PLACES.into_iter().filter(|&y| y <= n);
            for (turn, y) in places.enumerate() {
                self.judged(&rejected_at(y, n, n, turn % 2 == 0), &words);
            }
        }
        for (turn, y) in places().into_iter().enumerate() {
            let list = rejected_at(y, 1000, y, turn % 2 == 1);
            self.judged(&list, &rejecting(1000));
        }
    }

    /// Stages that end at each place. As many units are nongood before the last one as
    /// are accepted: a good one is accepted there, another one rejected, in all ways.
    fn decided_by_the_last_unit(&mut self) {
        for (turn, n) in places().into_iter().enumerate() {
            let words = accepting(n);
            let (class, a) = match turn % 2 {
                0 => (1, words[1]),
                _ => (2, words[3]),
            };
            let mut units: Vec<usize> = (1..=a as usize).collect();
            self.judged(&list_with(n, class, &units), &words);
            units.push(n);
            self.judged(&list_with(n, class, &units), &words);
        }
    }

    /// At each place by full, with up to three units left in the stage. The lists end one
    /// before the stop, at it, at the stage's end, and past it.
    fn accepted_before_the_end(&mut self) {
        let places = FEW_PLACES.into_iter().filter(|&y| (3..998).contains(&y));
        for (turn, y) in places.enumerate() {
            let bad = turn % 3;
            let n = y + 3 - bad;
            let units: Vec<usize> = (1..=bad).collect();
            let length = [n, y, n + 1, y - 1, y + 1][turn % 5];
            self.judged(&list_with(length, 2, &units), &accepting(n));
        }
        let most = LARGEST[0];
        for length in [940, 941, 942] {
            self.judged(&vec![0; length], most);
        }
        self.judged(&[0], &[60, 59, 60, 59, 60]);
        self.judged(&[0, 0], &[60, 58, 59, 58, 59]);
    }

    /// Lists that end around a stop, a run's end and a stage's end, and long ones.
    fn ends_of_lists(&mut self) {
        for length in [
            0, 1, 223, 224, 225, 226, 447, 448, 449, 999, 1000, 1001, 2000,
        ] {
            let list = rejected_at(225, 1000, length, true);
            self.judged(&list, &rejecting(1000));
        }
        for length in [0, 1, 223, 224, 225, 445, 446, 447, 448, 449, 450, 673] {
            self.judged(&vec![0; length], &accepting(449));
        }
        for length in [447, 448, 449, 671, 672, 673, 895, 896, 897] {
            self.judged(&vec![0; length], LARGEST[0]);
        }
        let two = [224, 0, 3, 0, 3, 225, 5, 6, 5, 6];
        for length in [223, 224, 225, 226, 443, 444, 445, 447, 448, 449, 450, 672] {
            self.judged(&list_with(length, 2, &[224]), &two);
        }
        self.judged(&vec![0; 2000], A);
        self.judged(&rejected_at(1000, 1000, 2000, true), &rejecting(1000));
        self.judged(&vec![0; 2000], &rejecting(1000));
        // The longest that a line of a case may hold, to the nearest thousand.
        self.judged(&vec![0; 4000], &rejecting(1000));
    }

    /// Two units reject, each of them a run's first or last.
    fn classes_at_run_ends(&mut self) {
        let rows = [(1, [1000, 1, 2, 1, 2]), (2, [1000, 3, 4, 1, 2])];
        for (class, words) in rows {
            for pair in RUN_ENDS.windows(2) {
                self.judged(&list_with(pair[1], class, pair), &words);
            }
        }
        for (turn, unit) in RUN_ENDS[1..9].iter().enumerate() {
            let (class, words) = rows[turn % 2];
            self.judged(&list_with(1000, class, &[*unit, 1000]), &words);
            self.judged(&list_with(1000, class, &[*unit]), &words);
        }
    }

    /// All marginal and all bad. Their counts are the greatest that a run can have.
    fn lists_of_one_class(&mut self) {
        for length in [223, 224, 225, 447, 448, 449, 672, 896, 1000, 2000] {
            self.judged(&vec![1; length], LARGEST[0]);
            self.judged(&vec![2; length], LARGEST[0]);
        }
        self.judged(&vec![1; 1000], &[1000, 59, 60, 0, 1]);
        self.judged(&vec![1; 1000], LARGEST[1]);
        self.judged(&vec![2; 1000], LARGEST[1]);
    }

    /// Classes above 3 at ends of runs, just after S units, and last, behind every stop.
    fn refused_behind_stops(&mut self) {
        let words = rejecting(449);
        for (turn, unit) in [2, 224, 225, 448, 449, 450, 672, 673]
            .into_iter()
            .enumerate()
        {
            let mut list = rejected_at(1, 449, 673, true);
            list[unit - 1] = [4, 9][turn % 2];
            self.judged(&list, &words);
            self.judged(&list[..unit], &words);
        }
        for (length, class) in [(1001, 4), (1001, 9), (2000, 4), (2000, 9), (4000, 4)] {
            self.judged(&list_with(length, class, &[length]), LARGEST[0]);
        }
    }
}
