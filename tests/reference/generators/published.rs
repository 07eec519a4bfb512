//! Published chances of acceptance: table 5.1 of document 003 and the binomial
//! table. Their weights are percentages.

use crate::model::chance::{Bounds, Weights, UNITS};

pub struct Row {
    pub words: [u32; 5],
    pub weights: Weights,
    /// The printed digits as a whole number of 1 / `scale`.
    printed: u32,
    scale: u32,
    /// How far the chance may be from what is printed, in halves of 1 / `scale`.
    halves: u32,
}

impl Row {
    /// Whether low and high are both near enough to what is printed.
    pub fn agrees(&self, bounds: Bounds) -> bool {
        agree(bounds, self.printed, self.scale, self.halves)
    }
}

/// Whether low and high are both within so many halves of 1 / `scale` of what is
/// printed as a whole number of 1 / `scale`.
pub fn agree(bounds: Bounds, printed: u32, scale: u32, halves: u32) -> bool {
    let printed = 2 * i128::from(printed) * i128::from(UNITS);
    let most = i128::from(halves) * i128::from(UNITS);
    bounds.iter().all(|&bound| {
        let found = 2 * i128::from(bound) * i128::from(scale);
        (found - printed).abs() <= most
    })
}

pub fn rows() -> Vec<Row> {
    let three_class = TABLE_5_1.iter().flat_map(|&(bad, chances)| {
        let marginals = [5, 10, 15, 20].into_iter();
        marginals
            .zip(chances)
            .map(move |(marginal, printed)| three_class(marginal, bad, printed))
    });
    let binomial = BINOMIAL.iter().flat_map(|&(n, bad, chances)| {
        let numbers = (0..).zip(chances);
        numbers.map(move |(c, printed)| binomial(n, bad, c, printed))
    });
    three_class.chain(binomial).collect()
}

/// Its last digit is taken as right to one unit.
fn three_class(marginal: u32, bad: u32, printed: u32) -> Row {
    Row {
        words: [40, 7, 8, 2, 3],
        weights: [100 - marginal - bad, marginal, bad],
        printed,
        scale: 1_000_000,
        halves: 2,
    }
}

/// Its digits are rounded, so they are right to half a unit.
fn binomial(n: u32, bad: u32, c: u32, printed: u32) -> Row {
    Row {
        words: [n, c, c + 1, c, c + 1],
        weights: [100 - bad, 0, bad],
        printed,
        scale: 10_000,
        halves: 1,
    }
}

/// p2 in per cent and the millionths of Pa for p1 = 0.05, 0.10, 0.15, 0.20.
const TABLE_5_1: &[(u32, [u32; 4])] = &[
    (2, [951_052, 871_304, 618_814, 315_923]),
    (4, [780_695, 688_429, 449_754, 207_331]),
    (6, [561_672, 480_158, 293_239, 124_068]),
    (8, [365_494, 304_034, 175_054, 68_581]),
];

/// n, p in per cent and the ten-thousandths for c = 0 to 4.
const BINOMIAL: &[(u32, u32, [u32; 5])] = &[
    (5, 10, [5905, 9185, 9914, 9995, 10_000]),
    (5, 20, [3277, 7373, 9421, 9933, 9997]),
    (5, 30, [1681, 5282, 8369, 9692, 9976]),
    (10, 5, [5987, 9139, 9885, 9990, 9999]),
    (10, 10, [3487, 7361, 9298, 9872, 9984]),
    (10, 20, [1074, 3758, 6778, 8791, 9672]),
    (15, 5, [4633, 8290, 9638, 9945, 9994]),
    (15, 10, [2059, 5490, 8159, 9444, 9873]),
    (15, 20, [352, 1671, 3980, 6482, 8358]),
    (20, 5, [3585, 7358, 9245, 9841, 9974]),
    (20, 10, [1216, 3917, 6769, 8670, 9568]),
    (20, 20, [115, 692, 2061, 4114, 6296]),
    (25, 5, [2774, 6424, 8729, 9659, 9928]),
    (25, 10, [718, 2712, 5371, 7636, 9020]),
];
