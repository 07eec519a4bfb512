//! 02, change 6: low and high of the expected number of units at the earliest stop, in
//! units of 2^-30, and the chart.

use super::chance::{bounds_by, Bounds, Values, Weights};
use super::earliest::{verdicts_of_completions, Table};
use super::plan::{Plan, BOTH};

/// One unit of a lot in units of 2^-30.
pub const ONE_UNIT: u64 = 1 << 30;

/// A decided point is 0; any other is 2^30 plus the weighted mean of its successors. 2^30
/// is whole, so rounding the mean rounds the sum.
const EXPECTED_UNITS: Values = Values {
    accepted: 0,
    rejected: 0,
    step: ONE_UNIT,
};

/// The pair before any unit, for weights that don't add to 0.
pub fn bounds(plan: &Plan, table: &Table, weights: Weights) -> Bounds {
    bounds_by(plan, table, EXPECTED_UNITS, |_, _| weights)
}

/// Whole numbers of 2^-30 as floats, by their bit patterns.
pub fn chart(bounds: Bounds) -> [u64; 2] {
    bounds.map(|bound| (bound as f64 / ONE_UNIT as f64).to_bits())
}

/// The sum of stop times product of weights over all sequences of S classes, each 0, 1 or
/// 2, which are written out. It is the exact value times W^S.
pub fn stops_sum(plan: &Plan, weights: Weights) -> u128 {
    let mut sequences = Sequences {
        plan,
        weights,
        sample: vec![],
    };
    sequences.sum(None)
}

struct Sequences<'a> {
    plan: &'a Plan,
    weights: Weights,
    sample: Vec<u8>,
}

impl Sequences<'_> {
    /// Over those that begin with the sample, without the weights of its units. Its stop
    /// is given if it was reached before its last unit.
    fn sum(&mut self, stop: Option<usize>) -> u128 {
        let y = self.sample.len();
        let stop = stop.or_else(|| self.all_alike().then_some(y));
        if y == self.plan.units() {
            return stop.expect("a complete sample is its only completion") as u128;
        }
        let mut product = |class: u8| {
            self.sample.push(class);
            let rest = self.sum(stop);
            self.sample.pop();
            u128::from(self.weights[usize::from(class)]) * rest
        };
        product(0) + product(1) + product(2)
    }

    /// Whether all completions have one uncurtailed verdict.
    fn all_alike(&self) -> bool {
        verdicts_of_completions(self.plan, &self.sample) != BOTH
    }
}
