//! As stop_places.rs, with plans of several stages: stops at the first and the last units
//! of a stage.

use super::plan_cases::Cases;
use super::stop_places::list_with;
use crate::model::plan::{MARK, STAGE_WORDS};

/// Sizes of the stage in which a list stops: the least ones, and those around a run.
pub const STAGE_SIZES: [usize; 5] = [1, 2, 223, 224, 225];

/// Sizes of the stages around it, so many as k, and its places among them, from 0.
const AROUND: [(&[usize], &[usize]); 3] = [
    (&[224, 224], &[0, 1]),
    (&[30, 65, 30], &[0, 1, 2]),
    (&[20; 7], &[0, 3, 6]),
];

/// Units around the middles at which a later stage is halved, and around its second run.
pub const LATER_UNITS: [usize; 9] = [63, 64, 65, 127, 128, 129, 447, 448, 449];

/// The most units that may be left in a stage at an acceptance: they might all be bad,
/// and no acceptance number is above 59.
pub const MOST_LEFT: usize = 59;

/// The first two units of a stage and the last two.
pub fn end_units(size: usize) -> Vec<usize> {
    let mut units = vec![1, 2, size.max(2) - 1, size];
    units.retain(|&unit| unit <= size);
    units.sort_unstable();
    units.dedup();
    units
}

/// Stages whose a rises by 2, with one r, which is the least for the last a. Row 1 is
/// higher by `more`, so that bad units decide, where it isn't 0.
struct Staged {
    sizes: Vec<usize>,
    first_a: usize,
    more: usize,
}

impl Staged {
    fn new(around: &[usize], place: usize, size: usize, more: usize) -> Staged {
        let mut sizes = around.to_vec();
        sizes[place] = size;
        // a < S1.
        Staged {
            first_a: usize::from(sizes[0] > 1),
            more: if sizes[0] > 2 { more } else { 0 },
            sizes,
        }
    }

    fn a(&self, stage: usize) -> usize {
        self.first_a + 2 * stage
    }

    fn r(&self) -> usize {
        self.a(self.sizes.len() - 1) + 1
    }

    fn words(&self) -> Vec<u32> {
        let stage = |i: usize| {
            let (a, r) = (self.a(i), self.r());
            [self.sizes[i], a + self.more, r + self.more, a, r]
        };
        let words = (0..self.sizes.len()).flat_map(stage);
        words.map(|word| word as u32).collect()
    }

    /// The class of which so many as a or r decide.
    fn class(&self) -> u8 {
        if self.more == 0 {
            1
        } else {
            2
        }
    }

    /// The units before a stage, each stage among them going on. So many are nongood in
    /// all, at the first units of their stages or at the last ones.
    fn going_on(&self, stage: usize, nongood: usize, last: bool) -> Vec<u8> {
        let mut list = Vec::new();
        let mut counted = 0;
        for i in 0..stage {
            let aim = if i + 1 == stage {
                nongood
            } else {
                self.a(i) + 1
            };
            let mut units = vec![0; self.sizes[i]];
            units[..aim - counted].fill(self.class());
            if last {
                units.reverse();
            }
            list.extend(units);
            counted = aim;
        }
        list
    }

    /// Full and earliest accept at this unit of the stage, which has at most one more.
    fn accepted(&self, stage: usize, unit: usize, last: bool) -> StopCase {
        let size = self.sizes[stage];
        let nongood = self.a(stage) - (size - unit);
        let mut list = self.going_on(stage, nongood, last);
        let begin = list.len();
        list.resize(begin + size, 0);
        if stage == 0 {
            list[..nongood].fill(self.class());
        }
        StopCase {
            words: self.words(),
            list,
            stop: begin + unit,
        }
    }

    /// All ways but uncurtailed reject at this unit of the stage. The first stage of
    /// several has r = 1, as its first unit needs, only if it is marked; else r is 2.
    fn rejected(&self, stage: usize, unit: usize, last: bool) -> StopCase {
        let mut words = self.words();
        let size = self.sizes[stage];
        if stage == 0 {
            let marked = unit == 1 || last;
            let (a, r) = if marked { (MARK, 1) } else { (0, 2) };
            words[1..STAGE_WORDS].copy_from_slice(&[a, r, a, r]);
            let units = if marked { vec![unit] } else { vec![1, unit] };
            let list = list_with(size, self.class(), &units);
            return StopCase {
                words,
                list,
                stop: unit,
            };
        }
        let mut list = self.going_on(stage, self.r() - 1, last);
        let stop = list.len() + unit;
        list.extend(list_with(size, self.class(), &[unit]));
        StopCase { words, list, stop }
    }
}

/// A plan, a list that ends with the stage in which it stops, and full's stop.
struct StopCase {
    words: Vec<u32>,
    list: Vec<u8>,
    stop: usize,
}

fn cases_in_stages() -> Vec<StopCase> {
    let mut cases = Vec::new();
    for (around, stages) in AROUND {
        for &stage in stages {
            for size in STAGE_SIZES {
                for unit in end_units(size) {
                    let last = cases.len() % 3 == 0;
                    let staged = Staged::new(around, stage, size, cases.len() % 2 * 3);
                    cases.push(staged.rejected(stage, unit, last));
                    if size - unit <= 1 {
                        cases.push(staged.accepted(stage, unit, last));
                    }
                }
            }
        }
    }
    cases
}

/// In the second of two stages: accepted at its last unit, rejected before it.
fn cases_in_second_stage() -> Vec<StopCase> {
    let mut cases = Vec::new();
    for unit in LATER_UNITS {
        let more = cases.len() % 4;
        let staged = |size: usize| Staged::new(&[30, size], 1, size, more);
        cases.push(staged(unit).accepted(1, unit, true));
        cases.push(staged(unit + 50).rejected(1, unit, true));
    }
    cases
}

/// Those that marginal units decide: plan and list.
pub fn marginal_cases() -> Vec<(Vec<u32>, Vec<u8>)> {
    let mut cases = cases_in_stages();
    cases.extend(cases_in_second_stage());
    let marginal = cases.into_iter().filter(|case| case.list.contains(&1));
    marginal.map(|case| (case.words, case.list)).collect()
}

impl Cases {
    /// Each list to the end of its stage or past it; every fifth one also cut around its
    /// stop, or one before the stage's end.
    pub fn stops_in_stages(&mut self) {
        let mut cases = cases_in_stages();
        cases.extend(cases_in_second_stage());
        for (turn, case) in cases.into_iter().enumerate() {
            let (mut list, stop) = (case.list, case.stop);
            let end = list.len();
            if turn % 5 == 0 {
                // A stage of cases_in_stages has 24 of them, which have one kind of cut.
                let length = [stop - 1, stop, end.min(stop + 1), end - 1][turn / 24 % 4];
                self.judged(&list[..length], &case.words);
            }
            list.resize(end + turn % 3, 0);
            self.judged(&list, &case.words);
        }
    }
}
