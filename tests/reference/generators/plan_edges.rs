//! Each rule of 01 "Plan" with plans on both sides of its edge.

use super::hand_written::{ONE, SEVEN, THREE, TWO, UNIT};
use crate::model::plan::STAGE_WORDS;

/// Words of a stage.
pub const N: usize = 0;
pub const A1: usize = 1;
pub const R1: usize = 2;
pub const A2: usize = 3;
pub const R2: usize = 4;

/// A stage from 1, a word of it, and the word's new value.
pub type Change = (usize, usize, u32);

/// A rule of 01 "Plan" and two plans around its edge, as changes of a base.
pub struct Edge {
    pub rule: &'static str,
    base: &'static [u32],
    kept: &'static [Change],
    broken: &'static [Change],
}

impl Edge {
    pub fn kept(&self) -> Vec<u32> {
        changed(self.base, self.kept)
    }

    pub fn broken(&self) -> Vec<u32> {
        changed(self.base, self.broken)
    }
}

fn changed(base: &[u32], changes: &[Change]) -> Vec<u32> {
    let mut words = base.to_vec();
    for &(stage, word, value) in changes {
        words[(stage - 1) * STAGE_WORDS + word] = value;
    }
    words
}

pub const fn edge(
    rule: &'static str,
    base: &'static [u32],
    kept: &'static [Change],
    broken: &'static [Change],
) -> Edge {
    Edge {
        rule,
        base,
        kept,
        broken,
    }
}

pub fn edges() -> Vec<&'static Edge> {
    [A_STEPS, R_STEPS, A_TO_R, A_TO_SIZE, ROWS, SIZES, LAST_R1]
        .into_iter()
        .flatten()
        .collect()
}

pub const A_FALLS: &str = "a never falls";
pub const A_RISES: &str = "last step of a is a rise";
pub const R_FALLS: &str = "r never falls";
pub const BEFORE: &str = "a + 1 < r before the last";
pub const LAST: &str = "a + 1 = r at the last";
pub const A_BELOW: &str = "a < Si";
pub const R_WITHIN: &str = "last r <= S";
pub const A_ROWS: &str = "a2 <= a1";
pub const R_ROWS: &str = "r2 <= r1";
pub const SIZE: &str = "each ni >= 1";
pub const SUM: &str = "S <= 1000";
pub const R1_MOST: &str = "last r1 <= 60";

/// The last step of a can't fail to rise alone: the rules on r before and at
/// the last stage imply the rise.
const A_STEPS: &[Edge] = &[
    edge(A_FALLS, THREE, &[(1, A1, 5)], &[(1, A1, 6)]),
    edge(A_FALLS, THREE, &[(1, A2, 3)], &[(1, A2, 4)]),
    edge(A_FALLS, SEVEN, &[(3, A1, 7)], &[(3, A1, 8)]),
    edge(A_FALLS, SEVEN, &[(5, A2, 7)], &[(5, A2, 8)]),
    edge(A_FALLS, SEVEN, &[(6, A1, 8)], &[(6, A1, 7)]),
    edge(A_FALLS, TWO, &[(1, A1, 4)], &[(1, A1, 7), (1, R1, 9)]),
    edge(
        A_RISES,
        TWO,
        &[(1, A1, 5), (1, R1, 7)],
        &[(1, A1, 6), (1, R1, 7)],
    ),
    edge(
        A_RISES,
        TWO,
        &[(1, A1, 5), (1, R1, 7)],
        &[(1, A1, 6), (1, R1, 8)],
    ),
    edge(A_RISES, TWO, &[(2, A1, 5), (2, R1, 6)], &[(2, A1, 2)]),
    edge(
        A_RISES,
        TWO,
        &[(1, A1, 5), (1, R1, 7), (1, A2, 4), (1, R2, 6)],
        &[(1, A1, 5), (1, R1, 7), (1, A2, 5), (1, R2, 6)],
    ),
    edge(
        A_RISES,
        THREE,
        &[(2, A1, 10), (2, R1, 12)],
        &[(2, A1, 11), (2, R1, 12)],
    ),
    edge(
        A_RISES,
        SEVEN,
        &[(6, A1, 14), (6, R1, 16)],
        &[(6, A1, 15), (6, R1, 17)],
    ),
];

const R_STEPS: &[Edge] = &[
    edge(R_FALLS, TWO, &[(1, R1, 7)], &[(1, R1, 8)]),
    edge(R_FALLS, TWO, &[(1, R2, 6)], &[(1, R1, 7), (1, R2, 7)]),
    edge(R_FALLS, THREE, &[(1, R1, 9)], &[(1, R1, 10)]),
    edge(R_FALLS, THREE, &[(2, R1, 12)], &[(2, R1, 13)]),
    edge(R_FALLS, THREE, &[(1, R2, 7)], &[(1, R2, 8)]),
    edge(
        R_FALLS,
        THREE,
        &[(2, R1, 11), (2, R2, 10)],
        &[(2, R1, 11), (2, R2, 11)],
    ),
    edge(R_FALLS, SEVEN, &[(4, R1, 12)], &[(4, R1, 13)]),
    edge(R_FALLS, SEVEN, &[(4, R2, 10)], &[(4, R2, 11)]),
    edge(R_FALLS, SEVEN, &[(6, R1, 16)], &[(6, R1, 17)]),
    edge(R_FALLS, SEVEN, &[(6, R2, 12)], &[(6, R2, 13)]),
];

const A_TO_R: &[Edge] = &[
    edge(BEFORE, TWO, &[(1, A1, 4)], &[(1, A1, 5)]),
    edge(
        BEFORE,
        TWO,
        &[(1, A1, 3), (1, A2, 3)],
        &[(1, A1, 4), (1, A2, 4)],
    ),
    edge(
        BEFORE,
        TWO,
        &[(1, A1, 3), (1, R1, 5)],
        &[(1, A1, 5), (1, R1, 5)],
    ),
    edge(BEFORE, THREE, &[(2, A1, 7)], &[(2, A1, 8)]),
    edge(BEFORE, THREE, &[(2, A2, 5)], &[(2, A1, 6), (2, A2, 6)]),
    edge(BEFORE, THREE, &[(1, R2, 4)], &[(1, R2, 3)]),
    edge(BEFORE, THREE, &[(1, R2, 4)], &[(1, R2, 2)]),
    edge(BEFORE, THREE, &[(1, R1, 6)], &[(1, R1, 5), (1, R2, 5)]),
    edge(BEFORE, SEVEN, &[(6, A1, 11)], &[(6, A1, 12)]),
    edge(BEFORE, SEVEN, &[(6, A1, 11)], &[(6, A1, 13)]),
    edge(BEFORE, SEVEN, &[(6, A2, 9)], &[(6, A1, 11), (6, A2, 10)]),
    edge(LAST, ONE, &[], &[(1, A1, 3)]),
    edge(LAST, ONE, &[], &[(1, R1, 6)]),
    edge(LAST, ONE, &[], &[(1, A1, 5)]),
    edge(LAST, ONE, &[], &[(1, R1, 4)]),
    edge(LAST, ONE, &[], &[(1, A2, 1)]),
    edge(LAST, ONE, &[], &[(1, R2, 4)]),
    edge(LAST, ONE, &[], &[(1, A2, 3)]),
    edge(LAST, ONE, &[], &[(1, R2, 2)]),
    edge(LAST, TWO, &[], &[(2, A1, 5)]),
    edge(LAST, TWO, &[], &[(2, R1, 8)]),
    edge(LAST, TWO, &[], &[(2, A1, 7)]),
    edge(LAST, TWO, &[], &[(2, R1, 6)]),
    edge(LAST, TWO, &[], &[(2, A2, 4)]),
    edge(LAST, TWO, &[], &[(2, R2, 7)]),
    edge(LAST, TWO, &[], &[(2, A2, 6)]),
    edge(LAST, TWO, &[], &[(2, R2, 5)]),
    edge(LAST, THREE, &[], &[(3, A1, 10)]),
    edge(LAST, THREE, &[], &[(3, R2, 11)]),
    edge(LAST, SEVEN, &[], &[(7, R1, 15)]),
    edge(LAST, SEVEN, &[], &[(7, A2, 12)]),
];

/// At the last stage a = S breaks another rule too, as does last r > S; in the
/// row of bad units a = Si always does, since a2 ≤ a1.
const A_TO_SIZE: &[Edge] = &[
    edge(A_BELOW, ONE, &[(1, N, 5)], &[(1, N, 4)]),
    edge(A_BELOW, ONE, &[(1, N, 5)], &[(1, N, 5), (1, A1, 5)]),
    edge(A_BELOW, TWO, &[(1, N, 3)], &[(1, N, 2)]),
    edge(
        A_BELOW,
        TWO,
        &[(1, N, 3), (1, A2, 2)],
        &[(1, N, 2), (1, A2, 2)],
    ),
    edge(A_BELOW, THREE, &[(1, N, 5)], &[(1, N, 4)]),
    edge(
        A_BELOW,
        THREE,
        &[(1, N, 5), (2, N, 1)],
        &[(1, N, 5), (2, N, 1), (2, A1, 6)],
    ),
    edge(A_BELOW, SEVEN, &[(1, N, 5)], &[(1, N, 4)]),
    edge(
        A_BELOW,
        SEVEN,
        &[(1, N, 5), (2, N, 1), (3, N, 1), (4, N, 1)],
        &[(1, N, 5), (2, N, 1), (3, N, 1), (4, N, 1), (4, A1, 8)],
    ),
    edge(
        R_WITHIN,
        ONE,
        &[(1, N, 5)],
        &[(1, N, 5), (1, A1, 5), (1, R1, 6)],
    ),
    edge(R_WITHIN, ONE, &[(1, N, 5)], &[(1, N, 5), (1, R1, 6)]),
    edge(
        R_WITHIN,
        ONE,
        &[(1, N, 5), (1, A2, 4), (1, R2, 5)],
        &[(1, N, 5), (1, A2, 5), (1, R2, 6)],
    ),
    edge(
        R_WITHIN,
        TWO,
        &[(1, N, 6), (2, N, 1)],
        &[(1, N, 5), (2, N, 1)],
    ),
    edge(
        R_WITHIN,
        THREE,
        &[(2, N, 1), (3, N, 1)],
        &[(1, N, 9), (2, N, 1), (3, N, 1)],
    ),
];

const ROWS: &[Edge] = &[
    edge(
        A_ROWS,
        ONE,
        &[(1, A2, 4), (1, R2, 5)],
        &[(1, A2, 5), (1, R2, 6)],
    ),
    edge(A_ROWS, TWO, &[(1, A2, 2)], &[(1, A2, 3)]),
    edge(
        A_ROWS,
        TWO,
        &[(2, A2, 6), (2, R2, 7)],
        &[(2, A2, 7), (2, R2, 8)],
    ),
    edge(
        A_ROWS,
        THREE,
        &[(2, A1, 4), (2, A2, 4)],
        &[(2, A1, 4), (2, A2, 5)],
    ),
    edge(
        A_ROWS,
        SEVEN,
        &[(2, A1, 4), (3, A1, 4)],
        &[(2, A1, 4), (3, A1, 4), (3, A2, 5)],
    ),
    edge(
        R_ROWS,
        ONE,
        &[(1, A2, 4), (1, R2, 5)],
        &[(1, A2, 4), (1, R2, 6)],
    ),
    edge(R_ROWS, TWO, &[(1, R2, 6)], &[(1, R1, 5), (1, R2, 6)]),
    edge(R_ROWS, THREE, &[(2, R2, 9)], &[(2, R2, 10)]),
    edge(
        R_ROWS,
        SEVEN,
        &[(5, R1, 11), (5, R2, 11)],
        &[(5, R1, 11), (5, R2, 12), (6, R2, 12)],
    ),
];

const SIZES: &[Edge] = &[
    edge(SIZE, ONE, &[(1, N, 5)], &[(1, N, 0)]),
    edge(SIZE, UNIT, &[], &[(1, N, 0)]),
    edge(SIZE, TWO, &[(1, N, 3)], &[(1, N, 0)]),
    edge(SIZE, TWO, &[(2, N, 1)], &[(2, N, 0)]),
    edge(SIZE, THREE, &[(2, N, 1)], &[(2, N, 0)]),
    edge(SIZE, THREE, &[(3, N, 1)], &[(3, N, 0)]),
    edge(SIZE, SEVEN, &[(4, N, 1)], &[(4, N, 0)]),
    edge(SIZE, SEVEN, &[(7, N, 1)], &[(7, N, 0)]),
    edge(SUM, ONE, &[(1, N, 1000)], &[(1, N, 1001)]),
    edge(SUM, TWO, &[(1, N, 990)], &[(1, N, 991)]),
    edge(SUM, TWO, &[(2, N, 990)], &[(2, N, 991)]),
    edge(
        SUM,
        TWO,
        &[(1, N, 500), (2, N, 500)],
        &[(1, N, 500), (2, N, 501)],
    ),
    edge(
        SUM,
        TWO,
        &[(1, N, 999), (2, N, 1)],
        &[(1, N, 1000), (2, N, 1)],
    ),
    edge(SUM, THREE, &[(2, N, 980)], &[(2, N, 981)]),
    edge(SUM, THREE, &[(3, N, 980)], &[(3, N, 981)]),
    edge(SUM, SEVEN, &[(1, N, 940)], &[(1, N, 941)]),
    edge(SUM, SEVEN, &[(4, N, 940)], &[(4, N, 941)]),
    edge(SUM, SEVEN, &[(7, N, 940)], &[(7, N, 941)]),
];

/// Only the last r1 has the bound of its own; r2 has it through r2 ≤ r1.
const LAST_R1: &[Edge] = &[
    edge(
        R1_MOST,
        ONE,
        &[(1, N, 61), (1, A1, 59), (1, R1, 60)],
        &[(1, N, 61), (1, A1, 60), (1, R1, 61)],
    ),
    edge(
        R1_MOST,
        ONE,
        &[
            (1, N, 1000),
            (1, A1, 59),
            (1, R1, 60),
            (1, A2, 59),
            (1, R2, 60),
        ],
        &[
            (1, N, 1000),
            (1, A1, 60),
            (1, R1, 61),
            (1, A2, 60),
            (1, R2, 61),
        ],
    ),
    edge(
        R1_MOST,
        TWO,
        &[(2, N, 90), (1, R1, 60), (2, A1, 59), (2, R1, 60)],
        &[(2, N, 90), (1, R1, 61), (2, A1, 60), (2, R1, 61)],
    ),
    edge(
        R1_MOST,
        THREE,
        &[(3, N, 40), (3, A1, 59), (3, R1, 60)],
        &[(3, N, 41), (3, A1, 60), (3, R1, 61)],
    ),
    edge(
        R1_MOST,
        SEVEN,
        &[(7, A1, 59), (7, R1, 60)],
        &[(7, A1, 60), (7, R1, 61)],
    ),
];
