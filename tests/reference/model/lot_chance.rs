//! 02, change 2: low and high for a lot of known size, of which S units are drawn
//! without replacement.

use super::chance::{bounds_by, Bounds, Weights, CHANCE};
use super::earliest::Table;
use super::plan::{Counts, Plan, ACCEPTED};

/// Good, marginal and bad units of a lot.
pub type Lot = [u32; 3];

/// The greatest number of units of a lot.
pub const MOST_UNITS_OF_LOT: u64 = 1_000_000;

/// The units of a lot.
pub fn units(lot: Lot) -> u64 {
    lot.into_iter().map(u64::from).sum()
}

/// The pair before any unit, for a lot of at least S units.
pub fn bounds(plan: &Plan, table: &Table, lot: Lot) -> Bounds {
    bounds_by(plan, table, CHANCE, |y, counts| left(lot, y, counts))
}

/// What is left of each class, which is what it weighs.
fn left(lot: Lot, y: usize, counts: Counts) -> Weights {
    let Counts { nongood, bad } = counts;
    let drawn = [y as u64 - nongood, nongood - bad, bad];
    [0, 1, 2].map(|class| {
        let left = lot[class].checked_sub(drawn[class] as u32);
        left.expect("no unit is drawn of a class that is used up")
    })
}

/// Ordered draws of S units.
#[derive(Debug, PartialEq)]
pub struct Draws {
    pub accepted: u128,
    pub all: u128,
}

/// The draws written out: the units of a lot are distinct, and each step takes one
/// that is not taken yet.
pub fn written_out(plan: &Plan, lot: Lot) -> Draws {
    let of_class = |class: u8| vec![class; lot[usize::from(class)] as usize];
    let units = [of_class(0), of_class(1), of_class(2)].concat();
    let mut drawing = Drawing {
        plan,
        taken: vec![false; units.len()],
        units,
        sample: vec![],
        draws: Draws {
            accepted: 0,
            all: 0,
        },
    };
    drawing.go_on();
    drawing.draws
}

struct Drawing<'a> {
    plan: &'a Plan,
    /// The class of each unit of the lot, and whether it is in the sample.
    units: Vec<u8>,
    taken: Vec<bool>,
    sample: Vec<u8>,
    draws: Draws,
}

impl Drawing<'_> {
    /// All draws that begin with the units taken.
    fn go_on(&mut self) {
        if self.sample.len() == self.plan.units() {
            let accepted = self.plan.uncurtailed(&self.sample) == ACCEPTED;
            self.draws.accepted += u128::from(accepted);
            self.draws.all += 1;
            return;
        }
        for unit in 0..self.units.len() {
            if !self.taken[unit] {
                self.taken[unit] = true;
                self.sample.push(self.units[unit]);
                self.go_on();
                self.sample.pop();
                self.taken[unit] = false;
            }
        }
    }
}

/// The draws by their classes: a step of a class stands for as many draws as units
/// of it are left. For lots whose draws are too many to be written out.
pub fn by_classes(plan: &Plan, lot: Lot) -> Draws {
    Draws {
        accepted: accepted_by_classes(plan, lot, &mut vec![]),
        all: all_draws(plan, lot),
    }
}

/// Accepted draws that begin with these classes, after which this is left.
fn accepted_by_classes(plan: &Plan, left: Lot, sample: &mut Vec<u8>) -> u128 {
    if sample.len() == plan.units() {
        return u128::from(plan.uncurtailed(sample) == ACCEPTED);
    }
    let mut of_class = |class: u8| {
        let mut after = left;
        let units = &mut after[usize::from(class)];
        *units = match *units {
            0 => return 0,
            more => more - 1,
        };
        sample.push(class);
        let rest = accepted_by_classes(plan, after, sample);
        sample.pop();
        u128::from(left[usize::from(class)]) * rest
    };
    of_class(0) + of_class(1) + of_class(2)
}

/// T(T - 1) .. (T - S + 1) for a lot of T units.
pub fn all_draws(plan: &Plan, lot: Lot) -> u128 {
    let first = u128::from(units(lot));
    (0..plan.units() as u128).map(|y| first - y).product()
}
