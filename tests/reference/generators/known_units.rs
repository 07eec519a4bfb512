//! Expected units at the earliest stop (02, change 6): those found by hand, those worked
//! out with R, and calls that are refused.

use super::hand_written::{A, B, UNIT};
use super::marked_plans::{EITHER_UNIT, FIRST_UNIT, INSIDE};
use super::sized_lots::NO_PLAN;
use crate::model::chance::Weights;

/// Plan words, weights, words of scratch and the answer.
type Answered = (&'static [u32], Weights, u32, &'static str);

/// Accepted with two good units, rejected with two others.
const TWO_OF_THREE: &[u32] = &[3, 1, 2, 1, 2];

/// Found by hand.
pub const BY_HAND: &[Answered] = &[
    (UNIT, [1, 1, 1], 2, "1073741824 1073741824"),
    (UNIT, [0, 999_999, 1], 2, "1073741824 1073741824"),
    (FIRST_UNIT, [1, 1, 1], 8, "1073741824 1073741824"),
    // A second unit is needed after one that isn't good: 1 1/2 and 1 2/3.
    (EITHER_UNIT, [1, 0, 1], 8, "1610612736 1610612736"),
    (EITHER_UNIT, [1, 1, 1], 8, "1789569706 1789569707"),
    (INSIDE, [1, 1, 0], 18, "1610612736 1610612736"),
    (INSIDE, [1, 1, 1], 18, "1789569706 1789569707"),
    // 2 4/9. After a good unit the low is 1789569706, after another one 1431655765.
    (TWO_OF_THREE, [1, 1, 1], 8, "2624702236 2624702237"),
    // A quarter each of 2, 3, 4 and 5 units.
    (A, [1, 0, 1], 12, "3758096384 3758096384"),
    // An eighth of 3 units, four of 4 and three of 5.
    (A, [1, 1, 0], 12, "4563402752 4563402752"),
    (A, [1, 0, 0], 12, "4294967296 4294967296"),
    (A, [0, 1, 0], 12, "3221225472 3221225472"),
    (A, [0, 0, 1], 12, "2147483648 2147483648"),
    (B, [1, 0, 0], 72, "8589934592 8589934592"),
    (B, [0, 0, 1], 72, "3221225472 3221225472"),
];

/// Plan words, weights, words of scratch and the two floats, which are equal.
pub const CHARTS_BY_HAND: &[(&[u32], Weights, u32, f64)] = &[
    (UNIT, [1, 1, 1], 2, 1.0),
    (EITHER_UNIT, [1, 0, 1], 8, 1.5),
    (A, [1, 0, 1], 12, 3.5),
    (A, [1, 1, 0], 12, 4.25),
    (B, [1, 0, 0], 72, 8.0),
];

/// What is given where one refusal applies, and where several do.
pub const REFUSED: &[Answered] = &[
    (A, [0, 0, 0], 12, "no 13"),
    (A, [1_000_000, 0, 1], 12, "no 13"),
    (A, [4_294_967_295, 1, 5], 12, "no 13"),
    (A, [3, 1, 1], 11, "no 14"),
    (A, [0, 0, 0], 11, "no 13"),
    (A, [1_000_000, 0, 1], 0, "no 13"),
    (NO_PLAN, [3, 1, 1], 18, "no 2"),
    (NO_PLAN, [3, 1, 1], 17, "no 2"),
    (NO_PLAN, [0, 0, 0], 18, "no 2"),
    (NO_PLAN, [1_000_000, 0, 1], 18, "no 2"),
    (NO_PLAN, [0, 0, 0], 17, "no 2"),
];

/// Expected units worked out with R for one stage without marginal units.
pub struct Row {
    pub n: u32,
    pub c: u32,
    /// Good, marginal and bad units in a hundred.
    pub weights: Weights,
    /// In units of 10^-8.
    pub printed: u64,
}

impl Row {
    pub fn words(&self) -> [u32; 5] {
        let Row { n, c, .. } = *self;
        [n, c, c + 1, c, c + 1]
    }
}

pub fn rows() -> impl Iterator<Item = Row> {
    ROWS.iter().map(|&(n, c, bad, printed)| Row {
        n,
        c,
        weights: [100 - bad, 0, bad],
        printed,
    })
}

/// n, c, p in per cent, and the units in units of 10^-8.
const ROWS: [(u32, u32, u32, u64); 7] = [
    (10, 1, 5, 911_777_892),
    (10, 1, 20, 744_986_317),
    (20, 2, 10, 1_752_713_581),
    (50, 3, 5, 4_590_952_814),
    (100, 5, 2, 9_665_642_657),
    (100, 5, 10, 5_904_822_331),
    (200, 10, 8, 13_571_297_264),
];
