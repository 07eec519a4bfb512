//! 01 "Chance of acceptance": low and high in units of 2^-40, and the chart.

use super::earliest::Table;
use super::plan::{Counts, Plan, ACCEPTED, BAD, MOST_R1, NONGOOD, REJECTED};

/// The chance 1 in units of 2^-40.
pub const UNITS: u64 = 1 << 40;

/// The greatest sum of weights.
pub const MOST_WEIGHT: u64 = 1_000_000;

/// w0, w1 and w2 of 01.
pub type Weights = [u32; 3];

/// Low and high.
pub type Bounds = [u64; 2];

/// What the recursion gives: the values of decided points, and what an undecided one
/// adds to the weighted mean of its successors.
pub struct Values {
    pub accepted: u64,
    pub rejected: u64,
    pub step: u64,
}

/// 2^40 once the earliest stop accepts, 0 once it rejects, else the mean alone.
pub const CHANCE: Values = Values {
    accepted: UNITS,
    rejected: 0,
    step: 0,
};

#[derive(Clone, Copy)]
enum Rounding {
    Down,
    Up,
}

/// W of 01.
pub fn sum(weights: Weights) -> u64 {
    weights.into_iter().map(u64::from).sum()
}

/// The words of scratch that are enough for every plan.
pub const MOST_SCRATCH: u64 = 2 * MOST_R1 * MOST_R1;

/// The words of scratch that a call needs: 2 × last r1 × last r2.
pub fn needed(plan: &Plan) -> u64 {
    let [r1, r2] = plan.last().r;
    2 * r1 * r2
}

/// The pair before any unit, for weights that don't add to 0.
pub fn bounds(plan: &Plan, table: &Table, weights: Weights) -> Bounds {
    bounds_by(plan, table, CHANCE, |_, _| weights)
}

/// Alike with other values, and with the weights of each step, by y and counts; they
/// don't add to 0 before S units.
pub fn bounds_by(
    plan: &Plan,
    table: &Table,
    values: Values,
    weights: impl Fn(usize, Counts) -> Weights,
) -> Bounds {
    [Rounding::Down, Rounding::Up].map(|rounding| {
        let cells = (plan.units() as u64 + 1) * needed(plan) / 2;
        let mut recursion = Recursion {
            plan,
            table,
            values: &values,
            weights: &weights,
            rounding,
            found: vec![None; cells as usize],
        };
        recursion.value(0, Counts::default())
    })
}

/// N of 01 by writing out the sequences: those that begin with the sample. They have
/// classes 0, 1 and 2 alone, as weights do (02, change 4).
pub fn accepted_sum(plan: &Plan, weights: Weights, sample: &mut Vec<u8>) -> u128 {
    if sample.len() == plan.units() {
        return u128::from(plan.uncurtailed(sample) == ACCEPTED);
    }
    let mut product = |class: u8| {
        sample.push(class);
        let rest = accepted_sum(plan, weights, sample);
        sample.pop();
        u128::from(weights[usize::from(class)]) * rest
    };
    product(0) + product(1) + product(2)
}

/// Whole numbers of 2^-40 as floats, by their bit patterns.
pub fn chart(bounds: Bounds) -> [u64; 2] {
    bounds.map(|bound| (bound as f64 / UNITS as f64).to_bits())
}

/// 01's recursion, top down, with the values found so far by y and counts.
struct Recursion<'a, W> {
    plan: &'a Plan,
    table: &'a Table,
    values: &'a Values,
    weights: &'a W,
    rounding: Rounding,
    found: Vec<Option<u64>>,
}

impl<W: Fn(usize, Counts) -> Weights> Recursion<'_, W> {
    fn value(&mut self, y: usize, counts: Counts) -> u64 {
        match self.table.at(y, counts) {
            ACCEPTED => self.values.accepted,
            REJECTED => self.values.rejected,
            _ => self.undecided(y, counts),
        }
    }

    fn undecided(&mut self, y: usize, counts: Counts) -> u64 {
        let cell = self.cell(y, counts);
        if let Some(value) = self.found[cell] {
            return value;
        }
        let weights = (self.weights)(y, counts);
        // A class that weighs 0 isn't followed: there may be no such unit.
        let mut product = |class: u8| match weights[usize::from(class)] {
            0 => 0,
            weight => {
                let after = self.value(y + 1, counts.after(class));
                u128::from(weight) * u128::from(after)
            }
        };
        let products = product(0) + product(1) + product(2);
        let whole = u128::from(sum(weights));
        let mean = match self.rounding {
            Rounding::Down => products / whole,
            Rounding::Up => products.div_ceil(whole),
        };
        // A mean of values is at most the largest of them.
        let value = self.values.step + mean as u64;
        self.found[cell] = Some(value);
        value
    }

    /// A count that reaches a last r is rejected, so undecided ones are below.
    fn cell(&self, y: usize, counts: Counts) -> usize {
        let r = self.plan.last().r;
        let row = y as u64 * r[NONGOOD] + counts.nongood;
        (row * r[BAD] + counts.bad) as usize
    }
}
