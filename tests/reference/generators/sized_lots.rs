//! Lots of known size (02, change 2): chances found by hand, chances worked out with
//! R, and lots that are refused.

use super::hand_written::{A, UNIT};
use super::marked_plans::{EITHER_UNIT, FIRST_UNIT, INSIDE};
use super::published::agree;
use crate::model::chance::Bounds;
use crate::model::lot_chance::Lot;

/// Plan words, units of the lot, words of scratch and the answer.
type Answered = (&'static [u32], Lot, u32, &'static str);

/// Found by hand.
pub const BY_HAND: &[Answered] = &[
    (UNIT, [1, 1, 1], 2, "366503875925 366503875926"),
    (UNIT, [1, 0, 1], 2, "549755813888 549755813888"),
    (FIRST_UNIT, [1, 1, 1], 8, "366503875925 366503875926"),
    // One of the two units is good.
    (EITHER_UNIT, [1, 0, 1], 8, "1099511627776 1099511627776"),
    // Of the six draws the two without the good unit are rejected.
    (EITHER_UNIT, [1, 1, 1], 8, "733007751850 733007751851"),
    (INSIDE, [2, 0, 1], 18, "1099511627776 1099511627776"),
    (INSIDE, [0, 0, 3], 18, "0 0"),
    // Of the 24 draws the four that begin with both nongood units are rejected.
    (INSIDE, [2, 1, 1], 18, "916259689813 916259689814"),
    // All five units are drawn.
    (A, [3, 2, 0], 12, "1099511627776 1099511627776"),
    (A, [3, 1, 1], 12, "1099511627776 1099511627776"),
    (A, [3, 0, 2], 12, "0 0"),
    (A, [2, 3, 0], 12, "0 0"),
];

/// A plan that is not admitted, since a2 + 1 isn't r2. It would need 18 words.
pub const NO_PLAN: &[u32] = &[5, 2, 3, 1, 3];

/// Lots, and what is given where several refusals apply: 17 precedes 14.
pub const REFUSED: &[Answered] = &[
    (A, [2, 1, 1], 12, "no 17"),
    (A, [0, 0, 0], 12, "no 17"),
    (A, [1_000_000, 0, 1], 12, "no 17"),
    (A, [4_294_967_295, 1, 5], 12, "no 17"),
    (A, [3, 1, 1], 11, "no 14"),
    (A, [2, 1, 1], 11, "no 17"),
    (A, [1_000_000, 0, 1], 0, "no 17"),
    (NO_PLAN, [3, 1, 1], 18, "no 2"),
    (NO_PLAN, [3, 1, 1], 17, "no 2"),
    (NO_PLAN, [2, 1, 1], 18, "no 2"),
    (NO_PLAN, [2, 1, 1], 17, "no 2"),
];

/// Lots of more units than 32 bits count, each with a sum that would wrap to this
/// number of units.
pub fn wrapping(units: u32) -> [Lot; 8] {
    const MOST: u32 = u32::MAX;
    const HALF: u32 = 1 << 31;
    [
        [MOST, 1, units],
        [units, MOST, 1],
        [1, units, MOST],
        [units + 1, MOST, 0],
        [HALF, HALF, units],
        [HALF, units, HALF],
        [MOST, units + 2, MOST],
        [MOST - units, 2 * units, 1],
    ]
}

/// A chance worked out with R for a lot without marginal units.
pub struct Row {
    pub words: Vec<u32>,
    pub lot: Lot,
    /// The digits after the point, as a whole number.
    digits: u32,
}

impl Row {
    /// Whether low and high both round to the digits.
    pub fn agrees(&self, bounds: Bounds) -> bool {
        agree(bounds, self.digits, 100_000_000, 1)
    }
}

pub fn rows() -> Vec<Row> {
    let single = SINGLE.iter().map(|&(units, bad, [n, c], digits)| Row {
        words: vec![n, c, c + 1, c, c + 1],
        lot: [units - bad, 0, bad],
        digits,
    });
    let double = DOUBLE
        .iter()
        .map(|&(units, bad, [n1, c1, n2, c2], digits)| {
            let r = c2 + 1;
            Row {
                words: vec![n1, c1, r, c1, r, n2, c2, r, c2, r],
                lot: [units - bad, 0, bad],
                digits,
            }
        });
    single.chain(double).collect()
}

/// Units of the lot, bad ones, n and c, and the digits: the hypergeometric
/// distribution.
const SINGLE: &[(u32, u32, [u32; 2], u32)] = &[
    (50, 5, [10, 1], 74_189_998),
    (100, 10, [20, 2], 68_122_006),
    (200, 20, [50, 5], 61_999_640),
    (500, 25, [80, 3], 41_169_946),
    (300, 30, [60, 8], 88_316_710),
    (1000, 50, [125, 5], 38_875_267),
];

/// Units of the lot, bad ones, n1, c1, n2 and c2, and the digits: formula (1) of
/// document 001.
const DOUBLE: &[(u32, u32, [u32; 4], u32)] = &[
    (200, 10, [20, 0, 20, 2], 70_826_799),
    (500, 25, [50, 1, 50, 4], 47_870_644),
    (300, 15, [36, 1, 36, 4], 76_022_794),
    (1000, 40, [60, 2, 120, 6], 64_801_096),
];
