//! Plans with marked stages (02, change 1), and what is known of them by hand.

use super::hand_written::{A, B, MARKED, ONE, SEVEN, THREE, TWO, UNIT};
use crate::model::chance::Weights;
use crate::model::plan::MARK as M;

/// The first of two units decides: with a good one the other may be of any
/// class, with any other one stage 1 rejects. No plan of two stages is smaller.
pub const FIRST_UNIT: &[u32] = &[1, M, 1, M, 1, 1, 1, 2, 1, 2];

/// Rejected only if both units are nongood.
pub const EITHER_UNIT: &[u32] = &[1, M, 2, M, 2, 1, 1, 2, 1, 2];

/// Earliest accepts after one good unit, inside of the marked stage: then at most
/// one of its two units is nongood, which is below r, and at most two of all
/// three, which is a at the last stage. So every completion is accepted, each at
/// the end of stage 2. The other ways accept there at best. No plan with such a
/// stop is smaller: the marked stage needs two units and the last stage one.
pub const INSIDE: &[u32] = &[2, M, 2, M, 2, 1, 2, 3, 2, 3];

/// The multiple plan of the standard tables beside the single plan of 125 units
/// with acceptance number 3.
pub const PUBLISHED: &[u32] = &[
    32, M, 3, M, 3, 32, 0, 3, 0, 3, 32, 1, 4, 1, 4, 32, 2, 5, 2, 5, 32, 3, 6, 3, 6, 32, 4, 6, 4, 6,
    32, 6, 7, 6, 7,
];

/// TWO, THREE and SEVEN of hand_written.rs with marked stages: one, one, three
/// and six.
pub const TWO_ONE: &[u32] = &[10, M, 6, M, 5, 10, 6, 7, 5, 6];
pub const THREE_ONE: &[u32] = &[10, M, 8, M, 6, 10, 5, 9, 3, 7, 10, 11, 12, 9, 10];
pub const SEVEN_THREE: &[u32] = &[
    10, M, 8, M, 6, 10, M, 9, M, 7, 10, M, 10, M, 8, 10, 7, 11, 5, 9, 10, 8, 12, 6, 10, 10, 9, 13,
    7, 11, 10, 15, 16, 11, 12,
];
pub const SEVEN_SIX: &[u32] = &[
    10, M, 8, M, 6, 10, M, 9, M, 7, 10, M, 10, M, 8, 10, M, 11, M, 9, 10, M, 12, M, 10, 10, M, 13,
    M, 11, 10, 15, 16, 11, 12,
];

/// Plans of 1 to 7 stages, without and with marked ones.
pub const OF_ALL_KINDS: [&[u32]; 16] = [
    UNIT,
    A,
    B,
    ONE,
    TWO,
    THREE,
    SEVEN,
    FIRST_UNIT,
    EITHER_UNIT,
    INSIDE,
    MARKED,
    TWO_ONE,
    THREE_ONE,
    SEVEN_THREE,
    SEVEN_SIX,
    PUBLISHED,
];

/// Plans with S = 1,000 and last r1 = r2 = 60, three and six of seven stages marked.
pub const LARGEST_MARKED: [&[u32]; 2] = [
    &[
        140, M, 30, M, 28, 140, M, 36, M, 33, 140, M, 42, M, 40, 140, 20, 48, 17, 46, 140, 27, 53,
        24, 52, 140, 35, 57, 33, 57, 160, 59, 60, 59, 60,
    ],
    &[
        140, M, 60, M, 1, 140, M, 60, M, 33, 140, M, 60, M, 60, 140, M, 60, M, 60, 140, M, 60, M,
        60, 140, M, 60, M, 60, 160, 59, 60, 59, 60,
    ],
];

/// Lists with stop and state of the four ways and the event, found by hand.
pub const MARKED_JUDGED: &[(&[u32], &str, &str)] = &[
    (INSIDE, ".", "0 0 0 0 0 0 0 0 0"),
    (INSIDE, ".0", "0 0 0 0 0 0 1 1 0"),
    (INSIDE, ".00", "0 0 0 0 0 0 1 1 0"),
    (INSIDE, ".000", "3 1 3 1 3 1 1 1 0"),
    (INSIDE, ".022", "3 1 3 1 3 1 1 1 0"),
    (INSIDE, ".2", "0 0 0 0 0 0 0 0 0"),
    (INSIDE, ".20", "0 0 0 0 0 0 2 1 0"),
    (INSIDE, ".202", "3 1 3 1 3 1 2 1 0"),
    (INSIDE, ".12", "2 2 2 2 2 2 2 2 0"),
    (FIRST_UNIT, ".0", "0 0 0 0 0 0 1 1 0"),
    (FIRST_UNIT, ".02", "2 1 2 1 2 1 1 1 0"),
    (FIRST_UNIT, ".1", "1 2 1 2 1 2 1 2 0"),
    (EITHER_UNIT, ".2", "0 0 0 0 0 0 0 0 0"),
    (EITHER_UNIT, ".20", "2 1 2 1 2 1 2 1 0"),
    (EITHER_UNIT, ".21", "2 2 2 2 2 2 2 2 0"),
];

/// Runs of one class, each with its length.
type Runs = &'static [(u8, usize)];

/// Two nongood units at the end of stage 3, three at that of 4, four at that of 5,
/// five at that of 6: each goes on.
pub const TO_STAGE_7: Runs = &[
    (2, 2),
    (0, 94),
    (2, 1),
    (0, 31),
    (1, 1),
    (0, 31),
    (1, 1),
    (0, 31),
];

/// The same for PUBLISHED. In the last stage 218 good units are enough, which is a
/// unit before its end if five are nongood.
pub const PUBLISHED_JUDGED: &[(Runs, Runs, &str)] = &[
    (&[], &[(0, 32)], "0 0 0 0 0 0 0 0 0"),
    (&[], &[(0, 64)], "64 1 64 1 64 1 64 1 0"),
    (&[], &[(2, 1), (0, 95)], "96 1 96 1 96 1 96 1 0"),
    (&[], &[(1, 2), (0, 126)], "128 1 128 1 128 1 128 1 0"),
    (&[], &[(2, 3)], "0 0 3 2 3 2 3 2 0"),
    (&[], &[(1, 3), (0, 29)], "32 2 3 2 3 2 3 2 0"),
    (TO_STAGE_7, &[], "0 0 0 0 0 0 0 0 0"),
    (TO_STAGE_7, &[(0, 32)], "224 1 224 1 223 1 223 1 0"),
    (TO_STAGE_7, &[(1, 1), (0, 31)], "224 1 224 1 224 1 224 1 0"),
    (TO_STAGE_7, &[(1, 2)], "0 0 194 2 194 2 194 2 0"),
];

pub fn classes_of(runs: &[(u8, usize)]) -> Vec<u8> {
    let run = |&(class, length): &(u8, usize)| vec![class; length];
    runs.iter().flat_map(run).collect()
}

/// Lists of PUBLISHED_JUDGED with what they get.
pub fn published_judged() -> Vec<(Vec<u8>, &'static str)> {
    let row = |&(before, after, expected): &(Runs, Runs, _)| {
        (classes_of(&[before, after].concat()), expected)
    };
    PUBLISHED_JUDGED.iter().map(row).collect()
}

/// Plan words, weights, low and high, found by hand: the chances are 1/3, 5/9,
/// and 3/4 twice.
pub const MARKED_CHANCES: &[(&[u32], Weights, &str)] = &[
    (FIRST_UNIT, [1, 1, 1], "366503875925 366503875926"),
    (EITHER_UNIT, [1, 1, 1], "610839793208 610839793210"),
    (EITHER_UNIT, [1, 0, 1], "824633720832 824633720832"),
    (INSIDE, [1, 0, 1], "824633720832 824633720832"),
];
