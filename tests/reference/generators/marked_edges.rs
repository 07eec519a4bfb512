//! Each rule of 02, change 1, and the rules of 01 "Plan" around marked stages, with
//! plans on both sides of their edges.

use super::hand_written::{ONE, SEVEN, THREE, TWO, UNIT};
use super::marked_plans::{SEVEN_SIX, SEVEN_THREE, THREE_ONE, TWO_ONE};
use super::plan_edges::*;
use crate::model::plan::MARK as M;

pub fn marked_edges() -> Vec<&'static Edge> {
    [
        MARKS,
        ONE_MARK,
        R_AT_MARKS,
        R_OVER_MARKS,
        UNITS,
        A_AFTER_MARKS,
    ]
    .into_iter()
    .flatten()
    .collect()
}

const LAST_PERMITS: &str = "the last stage permits acceptance";
const FIRST: &str = "stages without acceptance stand first";
const R_LEAST: &str = "r >= 1 where acceptance is not permitted";

/// Where marked stages may stand.
const MARKS: &[Edge] = &[
    edge(LAST_PERMITS, ONE, &[], &[(1, A1, M), (1, A2, M)]),
    edge(LAST_PERMITS, UNIT, &[], &[(1, A1, M), (1, A2, M)]),
    edge(LAST_PERMITS, TWO, &[], &[(2, A1, M), (2, A2, M)]),
    edge(LAST_PERMITS, TWO_ONE, &[], &[(2, A1, M), (2, A2, M)]),
    edge(LAST_PERMITS, SEVEN_SIX, &[], &[(7, A1, M), (7, A2, M)]),
    edge(
        FIRST,
        THREE,
        &[(1, A1, M), (1, A2, M)],
        &[(2, A1, M), (2, A2, M)],
    ),
    edge(
        FIRST,
        SEVEN,
        &[(1, A1, M), (1, A2, M), (2, A1, M), (2, A2, M)],
        &[(1, A1, M), (1, A2, M), (3, A1, M), (3, A2, M)],
    ),
    edge(
        FIRST,
        SEVEN_THREE,
        &[(4, A1, M), (4, A2, M)],
        &[(6, A1, M), (6, A2, M)],
    ),
    edge(
        FIRST,
        SEVEN_SIX,
        &[(6, A1, 9), (6, A2, 7)],
        &[(1, A1, 0), (1, A2, 0)],
    ),
];

/// One of two words marked, or both with the number below: these are ordinary
/// numbers, and too large.
const ONE_MARK: &[Edge] = &[
    edge(A_BELOW, TWO_ONE, &[], &[(1, A1, 2)]),
    edge(A_BELOW, TWO_ONE, &[], &[(1, A2, 1)]),
    edge(A_BELOW, TWO_ONE, &[], &[(1, A1, M - 1), (1, A2, M - 1)]),
    edge(A_BELOW, TWO_ONE, &[], &[(1, A2, M - 1)]),
    edge(A_BELOW, TWO_ONE, &[], &[(1, A1, M - 1)]),
    edge(A_BELOW, TWO_ONE, &[], &[(2, A1, M)]),
    edge(A_BELOW, TWO_ONE, &[], &[(2, A2, M)]),
    edge(A_BELOW, SEVEN_THREE, &[], &[(2, A1, 5)]),
    edge(A_BELOW, SEVEN_THREE, &[], &[(3, A2, 4)]),
];

/// Rejection numbers of marked stages: 1 at least, and r2 at most r1.
const R_AT_MARKS: &[Edge] = &[
    edge(
        R_LEAST,
        TWO_ONE,
        &[(1, R1, 1), (1, R2, 1)],
        &[(1, R1, 0), (1, R2, 0)],
    ),
    edge(R_LEAST, TWO_ONE, &[(1, R2, 1)], &[(1, R2, 0)]),
    edge(R_LEAST, TWO_ONE, &[(1, R1, 5)], &[(1, R1, 0)]),
    edge(R_LEAST, SEVEN_THREE, &[(1, R2, 1)], &[(1, R2, 0)]),
    edge(
        R_LEAST,
        SEVEN_SIX,
        &[(1, R1, 1), (1, R2, 1), (2, R1, 1), (2, R2, 1)],
        &[(1, R1, 0), (1, R2, 0), (2, R1, 0), (2, R2, 0)],
    ),
    edge(R_ROWS, TWO_ONE, &[(1, R2, 6)], &[(1, R1, 5), (1, R2, 6)]),
    edge(R_ROWS, SEVEN_SIX, &[(1, R1, 6)], &[(1, R1, 5)]),
];

/// r from marked stage to marked stage and to one with numbers, above the units of
/// the stage too; the bounds of the last r.
const R_OVER_MARKS: &[Edge] = &[
    edge(R_FALLS, TWO_ONE, &[(1, R1, 7)], &[(1, R1, 8)]),
    edge(R_FALLS, TWO_ONE, &[(1, R2, 6)], &[(1, R1, 7), (1, R2, 7)]),
    edge(
        R_FALLS,
        TWO_ONE,
        &[(1, N, 1), (1, R1, 7)],
        &[(1, N, 1), (1, R1, 8)],
    ),
    edge(R_FALLS, SEVEN_THREE, &[(1, R1, 9)], &[(1, R1, 10)]),
    edge(R_FALLS, SEVEN_THREE, &[(2, R2, 8)], &[(2, R2, 9)]),
    edge(R_FALLS, SEVEN_THREE, &[(3, R1, 11)], &[(3, R1, 12)]),
    edge(R_FALLS, SEVEN_THREE, &[(3, R2, 9)], &[(3, R2, 10)]),
    edge(R_FALLS, SEVEN_SIX, &[(6, R1, 16)], &[(6, R1, 17)]),
    edge(R_FALLS, SEVEN_SIX, &[(6, R2, 12)], &[(6, R2, 13)]),
    edge(
        R1_MOST,
        TWO_ONE,
        &[(2, N, 90), (1, R1, 60), (2, A1, 59), (2, R1, 60)],
        &[(2, N, 90), (1, R1, 61), (2, A1, 60), (2, R1, 61)],
    ),
    edge(
        R_WITHIN,
        TWO_ONE,
        &[(1, N, 6), (2, N, 1)],
        &[(1, N, 5), (2, N, 1)],
    ),
];

/// Units of marked stages.
const UNITS: &[Edge] = &[
    edge(SIZE, TWO_ONE, &[(1, N, 1)], &[(1, N, 0)]),
    edge(SIZE, SEVEN_SIX, &[(3, N, 1)], &[(3, N, 0)]),
    edge(SUM, TWO_ONE, &[(1, N, 990)], &[(1, N, 991)]),
    edge(SUM, SEVEN_SIX, &[(6, N, 940)], &[(6, N, 941)]),
    // Past 1,000 before the last stage, and sums that would wrap in 32 bits.
    edge(SUM, TWO_ONE, &[(1, N, 990)], &[(1, N, 1_001)]),
    edge(SUM, TWO_ONE, &[(1, N, 990)], &[(1, N, M)]),
    edge(SUM, SEVEN_SIX, &[(2, N, 940)], &[(2, N, M - 8)]),
];

/// The rules on a over the stages that are left; Si counts marked stages too. With
/// one stage left there is no step, so its a may be 0.
const A_AFTER_MARKS: &[Edge] = &[
    edge(
        A_RISES,
        TWO_ONE,
        &[
            (1, R1, 1),
            (1, R2, 1),
            (2, A1, 0),
            (2, R1, 1),
            (2, A2, 0),
            (2, R2, 1),
        ],
        &[
            (1, A1, 0),
            (1, A2, 0),
            (2, A1, 0),
            (2, R1, 1),
            (2, A2, 0),
            (2, R2, 1),
        ],
    ),
    edge(
        A_RISES,
        THREE_ONE,
        &[(2, A1, 10), (2, R1, 12)],
        &[(2, A1, 11), (2, R1, 12)],
    ),
    edge(A_FALLS, SEVEN_THREE, &[(4, A1, 8)], &[(4, A1, 9)]),
    edge(A_FALLS, SEVEN_THREE, &[(4, A2, 6)], &[(4, A2, 7)]),
    edge(BEFORE, THREE_ONE, &[(2, A1, 7)], &[(2, A1, 8)]),
    edge(BEFORE, THREE_ONE, &[(2, R2, 6)], &[(1, R2, 4), (2, R2, 4)]),
    edge(LAST, TWO_ONE, &[], &[(2, A1, 5)]),
    edge(LAST, SEVEN_SIX, &[], &[(7, R2, 13)]),
    edge(
        A_BELOW,
        THREE_ONE,
        &[(1, N, 5), (2, N, 1)],
        &[(1, N, 4), (2, N, 1)],
    ),
    edge(
        A_ROWS,
        THREE_ONE,
        &[(2, A1, 4), (2, A2, 4)],
        &[(2, A1, 4), (2, A2, 5)],
    ),
];
