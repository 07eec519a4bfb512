//! As stop_places.rs: lists at which earliest accepts sooner than full. It never rejects
//! sooner: a list that is rejected with all units to come good has reached an r already,
//! since r never falls. Nor does it accept sooner in the last stage, where nothing follows.

use super::plan_cases::Cases;
use super::stop_places::{list_with, places};
use super::stop_stages::{end_units, MOST_LEFT};
use crate::model::plan::{MARK, MOST_STAGES};

/// Sizes, and the stages in which earliest is to stop, from 0.
const SMALL: [(&[usize], &[usize]); 5] = [
    (&[4, 4], &[0]),
    (&[4, 4, 4], &[0, 1]),
    (&[62, 4, 4], &[1]),
    (&[222, 4, 4], &[1]),
    (&[4; MOST_STAGES], &[0, 3, 5]),
];

/// The stages of a list at which earliest accepts at one unit, full at a later one.
#[derive(Clone, Copy)]
struct Sooner<'a> {
    sizes: &'a [usize],
    /// Stages from 0 and units from 1.
    earliest: (usize, usize),
    full: (usize, usize),
    /// Whether the stages before full's are marked. If not, one unit is nongood and their
    /// a is 0, so that they go on.
    marked: bool,
}

impl Sooner<'_> {
    /// Si for a stage from 0.
    fn end(&self, stage: usize) -> usize {
        self.sizes[..=stage].iter().sum()
    }

    fn at(&self, (stage, unit): (usize, usize)) -> usize {
        self.end(stage) - self.sizes[stage] + unit
    }

    fn nongood(&self) -> usize {
        usize::from(!self.marked)
    }

    /// The counts after all units up to an end from earliest's stop on, if all are bad.
    fn most(&self, stage: usize) -> usize {
        self.nongood() + self.end(stage) - self.at(self.earliest)
    }

    /// Each r from earliest's stage on is one more than the most that its count can be.
    fn words(&self) -> Vec<u32> {
        let last = self.sizes.len() - 1;
        let (full, unit) = self.full;
        let stage = |i: usize| {
            let r = self.most(i.max(self.earliest.0)) as u32 + 1;
            let a = match i {
                _ if i == last => r - 1,
                _ if i >= full => (self.nongood() + self.sizes[full] - unit) as u32,
                _ if self.marked => MARK,
                _ => 0,
            };
            [self.sizes[i] as u32, a, r, a, r]
        };
        (0..=last).flat_map(stage).collect()
    }

    /// Whether a list can be so: its nongood unit comes first, and all the units after
    /// earliest's stop might be bad.
    fn possible(&self) -> bool {
        self.at(self.earliest) > self.nongood() && self.most(self.sizes.len() - 1) <= MOST_LEFT
    }
}

/// Full in the same stage, at the next unit and at the last; in the next stage and in the
/// last one. In the last stage full accepts at once.
fn full_stops(sizes: &[usize], earliest: (usize, usize)) -> Vec<(usize, usize)> {
    let (stage, unit) = earliest;
    let last = sizes.len() - 1;
    let mut stops = vec![(last, 1)];
    if unit < sizes[stage] {
        stops.extend([(stage, unit + 1), (stage, sizes[stage])]);
    }
    if stage + 1 < last {
        stops.extend([(stage + 1, 1), (stage + 1, sizes[stage + 1])]);
    }
    stops.sort_unstable();
    stops.dedup();
    stops
}

impl Cases {
    pub fn earliest_sooner(&mut self) {
        self.sooner_at_places();
        for (sizes, stages) in SMALL {
            for &stage in stages {
                let mut units = end_units(sizes[stage]);
                if sizes.len() == MOST_STAGES {
                    units = vec![1, sizes[stage]];
                }
                for unit in units {
                    self.sooner_than(sizes, (stage, unit));
                }
            }
        }
        // As far apart as they can be, and as late as earliest can be.
        for (first, unit) in [(70, 12), (999, 999)] {
            let sooner = Sooner {
                sizes: &[first, 1],
                earliest: (0, unit),
                full: (1, 1),
                marked: true,
            };
            self.judged(&vec![0; first + 1], &sooner.words());
        }
    }

    /// Earliest at each place of the first of two stages, full by up to 58 units later.
    fn sooner_at_places(&mut self) {
        let places = places().into_iter().filter(|&y| y <= 998);
        for (turn, y) in places.enumerate() {
            let by = [1, 2, 10, 58][turn % 4].min(999 - y);
            let sooner = Sooner {
                sizes: &[y + by, 1],
                earliest: (0, y),
                full: (0, y + by),
                marked: true,
            };
            let words = sooner.words();
            self.judged(&vec![0; y + by], &words);
            if turn % 5 == 0 {
                let length = [y - 1, y, y + 1, y + by - 1][turn % 4];
                self.judged(&vec![0; length], &words);
            }
        }
    }

    fn sooner_than(&mut self, sizes: &[usize], earliest: (usize, usize)) {
        for full in full_stops(sizes, earliest) {
            for marked in [true, false] {
                let sooner = Sooner {
                    sizes,
                    earliest,
                    full,
                    marked,
                };
                if sooner.possible() {
                    let units: Vec<usize> = (1..=sooner.nongood()).collect();
                    let list = list_with(sooner.at(full), 2, &units);
                    self.judged(&list, &sooner.words());
                }
            }
        }
    }
}
