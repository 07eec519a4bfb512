//! Hand-written plans, runs of words that are none, and weights.

use crate::model::chance::Weights;

/// Plans A and B of 01 "Known lots".
pub const A: &[u32] = &[5, 2, 3, 1, 2];
pub const B: &[u32] = &[10, 0, 3, 0, 3, 1, 5, 6, 5, 6];

/// Size 1, both rows 0, 1: one unit decides.
pub const UNIT: &[u32] = &[1, 0, 1, 0, 1];

/// Admitted plans of 1, 2, 3 and 7 stages with room around each number, so that
/// one rule after the other can be broken alone.
pub const ONE: &[u32] = &[20, 4, 5, 2, 3];
pub const TWO: &[u32] = &[10, 2, 6, 1, 5, 10, 6, 7, 5, 6];
pub const THREE: &[u32] = &[10, 4, 8, 2, 6, 10, 5, 9, 3, 7, 10, 11, 12, 9, 10];
pub const SEVEN: &[u32] = &[
    10, 4, 8, 2, 6, 10, 5, 9, 3, 7, 10, 6, 10, 4, 8, 10, 7, 11, 5, 9, 10, 8, 12, 6, 10, 10, 9, 13,
    7, 11, 10, 15, 16, 11, 12,
];

/// Plans with S = 1,000 and last r1 = r2 = 60, of one stage and of seven.
pub const LARGEST: [&[u32]; 2] = [
    &[1000, 59, 60, 59, 60],
    &[
        140, 3, 30, 2, 28, 140, 8, 36, 6, 33, 140, 14, 42, 11, 40, 140, 20, 48, 17, 46, 140, 27,
        53, 24, 52, 140, 35, 57, 33, 57, 160, 59, 60, 59, 60,
    ],
];

/// Runs of words that aren't 1 to 7 whole stages, and some of 5 or 35 words.
/// A stage twice in a row breaks no rule, so eight stages are one too many.
pub fn runs() -> Vec<Vec<u32>> {
    let eight = |stage: usize| [&SEVEN[..5 * stage], &SEVEN[5 * stage - 5..]].concat();
    let mut runs: Vec<Vec<u32>> = (1..=6).map(eight).collect();
    runs.extend((0..=10).map(|length| TWO[..length].to_vec()));
    runs.extend((30..=39).map(|length| eight(1)[40 - length..].to_vec()));
    runs.extend((30..=35).map(|length| SEVEN[..length].to_vec()));
    runs.push(eight(1).repeat(2));
    runs.push([A, &[0; 5]].concat());
    runs.push([A, &[0; 30]].concat());
    runs.push([&[0; 5], A].concat());
    runs.push(vec![0; 5]);
    runs.push(vec![0; 35]);
    runs
}

const MOST: u32 = u32::MAX;
const HALF: u32 = 1 << 31;

/// The first stage has the words that mark it (02, change 1), so this is a plan.
pub const MARKED: &[u32] = &[10, MOST, 1, MOST, 1, 1, 5, 6, 5, 6];

/// Words whose sums would wrap in 32 bits. 01 "Plan" is about whole numbers, so
/// none of these but MARKED is admitted.
pub const WRAPS: &[&[u32]] = &[
    &[MOST, 2, 3, 1, 2],
    &[MOST, MOST, MOST, MOST, MOST],
    &[MOST, MOST - 1, MOST, 1, 2],
    &[5, MOST, 0, MOST, 0],
    &[5, MOST, 0, 1, 2],
    &[5, 2, 3, MOST, 0],
    &[5, 2, MOST, 1, 2],
    &[5, 2, 3, 1, MOST],
    &[5, MOST - 1, MOST, 1, 2],
    &[5, MOST - 1, MOST, MOST - 1, MOST],
    &[5, 2, 3, MOST - 1, MOST],
    &[MOST, 0, 3, 0, 3, 1, 5, 6, 5, 6],
    &[MOST, 0, 3, 0, 3, 12, 5, 6, 5, 6],
    &[12, 0, 3, 0, 3, MOST, 5, 6, 5, 6],
    &[HALF, 0, 3, 0, 3, HALF + 11, 5, 6, 5, 6],
    &[MOST, 0, 3, 0, 3, MOST, 5, 6, 5, 6],
    &[MOST - 999, 0, 3, 0, 3, 1999, 5, 6, 5, 6],
    &[HALF, 0, 3, 0, 3, HALF, 1, 4, 1, 4, 11, 5, 6, 5, 6],
    &[10, 0, 3, 0, 3, HALF, 1, 4, 1, 4, HALF, 5, 6, 5, 6],
    &[10, 0, 3, 0, 3, MOST, 1, 4, 1, 4, 2, 5, 6, 5, 6],
    &[10, MOST, 3, 0, 3, 1, 5, 6, 5, 6],
    MARKED,
    &[10, 0, 3, MOST, 3, 1, 5, 6, 5, 6],
    &[10, 0, MOST, 0, 3, 1, 5, 6, 5, 6],
    &[10, 0, 3, 0, MOST, 1, 5, 6, 5, 6],
    &[10, 0, 3, 0, 3, 1, MOST, 0, MOST, 0],
    &[10, 0, 3, 0, 3, 1, 5, 6, MOST, 0],
    &[10, 0, 0, 0, 0, 1, MOST, 0, MOST, 0],
    &[10, MOST - 1, MOST, MOST - 1, MOST, 1, MOST, 0, MOST, 0],
];

/// Weights that add to 0, 1, 1,000,000 and 1,000,001, weights whose sum would
/// wrap in 32 bits, and weights without a class.
pub const WEIGHTS: &[Weights] = &[
    [0, 0, 0],
    [1, 0, 0],
    [0, 1, 0],
    [0, 0, 1],
    [999_998, 1, 1],
    [900_000, 70_000, 30_000],
    [1_000_000, 0, 0],
    [0, 1_000_000, 0],
    [0, 0, 1_000_000],
    [999_999, 1, 1],
    [333_333, 333_334, 333_334],
    [1_000_001, 0, 0],
    [0, 0, 1_000_001],
    [MOST, 1, 5],
    [MOST, 1, 0],
    [MOST, MOST, 3],
    [2_147_483_648, 2_147_483_647, 2],
    [2_147_483_648, 0, 2_147_483_658],
    [MOST, MOST, MOST],
    [3, 0, 1],
    [3, 1, 0],
    [0, 3, 1],
    [97, 2, 1],
];
