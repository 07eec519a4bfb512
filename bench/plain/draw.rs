//! The value of a state as the weighted mean of those after one unit more, by the way
//! that units are drawn: with fixed weights, or from a lot and without replacement. Where
//! units are counted, each adds one to that mean.

use std::iter::repeat;
use std::ops::Range;

/// Low and high of a state.
pub type Pair = [u64; 2];

/// The chance 1.
const CERTAIN: Pair = [1 << 40; 2];

pub const REJECTED: Pair = [0; 2];

/// One unit, where units are counted.
const ONE_UNIT: u64 = 1 << 30;

/// The most columns of a row: the last r2 is at most 60.
const MOST_COLUMNS: usize = 60;

pub trait Draw {
    /// The value of an accepted state.
    const ACCEPTED: Pair;

    /// The rows that follow are of states at y units.
    fn after(&mut self, y: u32);

    /// The values of states in a row, that of g nongood units, from those of the same row
    /// and of the next. Never inlined: in a function of its own the loop is compiled better.
    fn row(&self, g: u32, states: Range<usize>, row: &mut [Pair], next: &[Pair]);
}

/// Weighted means without a division. The weights are scaled by a power of two, so that
/// their sum has 20 bits. The reciprocal is 2^80 / sum, rounded up: reciprocal × sum is
/// 2^80 + e with e < sum. A dividend is less than sum × (2^40 + 1), so that dividend × e
/// is less than 2^80, and the product with the reciprocal has the exact quotient.
#[derive(Default)]
struct Mean {
    shift: u32,
    sum: u64,
    reciprocal: u64,
}

impl Mean {
    fn new(sum: u64) -> Mean {
        let shift = sum.leading_zeros() - 44;
        let sum = sum << shift;
        // In two steps of 64 bits, since a lot has a mean a unit.
        let (whole, rest) = ((1 << 60) / sum, (1 << 60) % sum);
        let reciprocal = (whole << 20) + (rest << 20).div_ceil(sum);
        Mean {
            shift,
            sum,
            reciprocal,
        }
    }

    fn scaled(&self, weight: u32) -> u64 {
        u64::from(weight) << self.shift
    }

    fn quotient(&self, dividend: u64) -> u64 {
        debug_assert!(dividend < self.sum * ((1 << 40) + 1));
        ((u128::from(dividend) * u128::from(self.reciprocal)) >> 80) as u64
    }

    /// The mean of the values after a good, a marginal and a bad unit, given the weights of
    /// a nongood and of a bad unit. A worse unit has no higher value, so what is taken off
    /// the first is not negative; where a class has no weight, its value has no effect.
    fn of(&self, nongood: u64, bad: u64, [v0, v1, v2]: [Pair; 3]) -> Pair {
        let less = |i: usize| {
            let marginal = nongood.wrapping_mul(v0[i].wrapping_sub(v1[i]));
            marginal.wrapping_add(bad.wrapping_mul(v1[i].wrapping_sub(v2[i])))
        };
        [
            v0[0] - self.quotient(less(0) + self.sum - 1),
            v0[1] - self.quotient(less(1)),
        ]
    }
}

/// The states of a row from those of the same row and of the next, by what is given for
/// each state.
#[inline(always)]
fn each<T>(
    mut given: impl Iterator<Item = T>,
    row: &mut [Pair],
    next: &[Pair],
    value: impl Fn(T, [Pair; 3]) -> Pair,
) {
    let pairs = next.windows(2);
    for ((state, pair), it) in row.iter_mut().zip(pairs).zip(&mut given) {
        *state = value(it, [*state, pair[0], pair[1]]);
    }
    // Past the last column a bad unit more is rejected.
    if row.len() == next.len() {
        if let (Some(state), Some(&marginal), Some(it)) =
            (row.last_mut(), next.last(), given.next())
        {
            *state = value(it, [*state, marginal, REJECTED]);
        }
    }
}

/// Fixed weights.
pub struct Weights {
    nongood: u64,
    bad: u64,
    mean: Mean,
}

impl Weights {
    pub fn new([_, marginal, bad]: [u32; 3], sum: u64) -> Weights {
        let mean = Mean::new(sum);
        Weights {
            nongood: mean.scaled(marginal + bad),
            bad: mean.scaled(bad),
            mean,
        }
    }
}

impl Draw for Weights {
    const ACCEPTED: Pair = CERTAIN;

    fn after(&mut self, _: u32) {}

    #[inline(never)]
    fn row(&self, _: u32, states: Range<usize>, row: &mut [Pair], next: &[Pair]) {
        let (row, next) = (&mut row[states.clone()], &next[states.start..]);
        each(repeat(self.bad), row, next, |bad, values| {
            self.mean.of(self.nongood, bad, values)
        });
    }
}

/// Fixed weights, where units are counted. A worse unit may leave more units to inspect, so
/// that all three values are weighted.
pub struct Counted {
    weights: [u64; 3],
    mean: Mean,
}

impl Counted {
    pub fn new(weights: [u32; 3], sum: u64) -> Counted {
        let mean = Mean::new(sum);
        Counted {
            weights: weights.map(|weight| mean.scaled(weight)),
            mean,
        }
    }
}

impl Draw for Counted {
    const ACCEPTED: Pair = [0; 2];

    fn after(&mut self, _: u32) {}

    #[inline(never)]
    fn row(&self, _: u32, states: Range<usize>, row: &mut [Pair], next: &[Pair]) {
        let [w0, w1, w2] = self.weights;
        let (row, next) = (&mut row[states.clone()], &next[states.start..]);
        each(repeat(()), row, next, |(), [v0, v1, v2]| {
            let sum = |i: usize| w0 * v0[i] + w1 * v1[i] + w2 * v2[i];
            [
                ONE_UNIT + self.mean.quotient(sum(0)),
                ONE_UNIT + self.mean.quotient(sum(1) + self.mean.sum - 1),
            ]
        });
    }
}

/// A lot, from which y units are drawn. A class weighs what is left of it.
///
/// A state that no draw reaches keeps what its place holds, since it has no weight where
/// one does reach. There, as with fixed weights, a worse unit has no higher value: the units
/// that are left after it are the same but for one, which is the better.
pub struct Lot {
    good: u32,
    marginal: u32,
    bad: u32,
    y: u32,
    mean: Mean,
    /// The weight of a bad unit by the number drawn, which is faster than to reckon it.
    bads: [u64; MOST_COLUMNS],
}

impl Lot {
    pub fn new([good, marginal, bad]: [u32; 3]) -> Lot {
        Lot {
            good,
            marginal,
            bad,
            y: 0,
            mean: Mean::default(),
            bads: [0; MOST_COLUMNS],
        }
    }
}

impl Draw for Lot {
    const ACCEPTED: Pair = CERTAIN;

    fn after(&mut self, y: u32) {
        self.y = y;
        self.mean = Mean::new(u64::from(self.good + self.marginal + self.bad - y));
        for (b, bad) in (0..=self.bad).zip(&mut self.bads) {
            *bad = self.mean.scaled(self.bad - b);
        }
    }

    #[inline(never)]
    fn row(&self, g: u32, states: Range<usize>, row: &mut [Pair], next: &[Pair]) {
        let start = states.start.max(g.saturating_sub(self.marginal) as usize);
        let end = states.end.min(self.bad as usize + 1);
        if self.good + g < self.y || start >= end {
            return;
        }
        let (row, next) = (&mut row[start..end], &next[start..]);
        if self.good + g == self.y {
            // No good unit is left; what is taken off the value of one may be taken off any
            // that is as high.
            row.fill(CERTAIN);
        }
        let nongood = self.mean.scaled(self.marginal + self.bad - g);
        let bads = self.bads[start..end].iter().copied();
        each(bads, row, next, |bad, values| {
            self.mean.of(nongood, bad, values)
        });
    }
}
