//! Shares of offices (02, change 7), given by hand and drawn; lots of few offices and of
//! many, and calls on them.

use super::random::Random;
use crate::model::class::HIGHEST;
use crate::model::layout::OFFICES;
use crate::model::offices::{office, Shares, NO_SHARES};
use crate::model::sheet_call::SheetCall;

/// The shares of some offices; the others have none.
pub fn shares_of(offices: &[(usize, u32)]) -> Shares {
    let mut shares = NO_SHARES;
    for &(office, share) in offices {
        shares[office] = share;
    }
    shares
}

/// Lots to call, and shares for their sheet.
pub struct Offices {
    pub lots: Vec<u32>,
    pub shares: Shares,
}

impl Offices {
    /// With shares that fit so many records.
    pub fn draw(random: &mut Random, records: u32) -> Offices {
        let lots = lots(random);
        let shares = shares(random, records, &lots);
        Offices { lots, shares }
    }

    /// A call on one of the lots; classes mostly by these weights.
    pub fn call(&self, random: &mut Random, mix: [u32; 3]) -> SheetCall {
        let lot = random.pick(&self.lots);
        let lot = if random.one_in(50) { 0 } else { lot };
        let class = u32::from(random.class(mix));
        let highest = u32::from(HIGHEST);
        let class = if random.one_in(20) {
            random.pick(&[highest, highest, highest + 1])
        } else {
            class
        };
        match random.index(20) {
            0..=5 => SheetCall::Open(lot),
            6..=12 => SheetCall::Inspect(lot, class),
            13 | 14 => SheetCall::Strike(lot),
            15..=17 => SheetCall::Close(lot),
            18 => SheetCall::Look(lot),
            _ if random.one_in(2) => SheetCall::Tally,
            _ => SheetCall::Estimate(lot),
        }
    }
}

/// Several lots of two offices or of four, one or two of each office, or numbers of all
/// sizes.
fn lots(random: &mut Random) -> Vec<u32> {
    let (first, step) = (random.between(1, 16), random.between(1, 3));
    match random.index(4) {
        0 => several(2, 3, first, step),
        1 => several(4, 2, first, step),
        2 => (1..=20).collect(),
        _ => vec![1, 15, 16, 17, 1_000, 1 << 31, u32::MAX - 16, u32::MAX],
    }
}

/// So many lots of each of so many offices.
fn several(offices: u32, each: u32, first: u32, step: u32) -> Vec<u32> {
    let lots = |turn: u32| (0..offices).map(move |of| first + of * step + turn * 16);
    (0..each).flat_map(lots).collect()
}

/// None, all for one office, the same for each, and any that add to all records or to
/// fewer, for the offices of the lots or for all sixteen.
pub fn shares(random: &mut Random, records: u32, lots: &[u32]) -> Shares {
    let called: Vec<usize> = lots.iter().map(|&lot| office(lot)).collect();
    let all: Vec<usize> = (0..OFFICES).collect();
    let fewer = random.between(0, records);
    match random.index(8) {
        0 => NO_SHARES,
        1 => shares_of(&[(random.pick(&called), records)]),
        2 => [records / OFFICES as u32; OFFICES],
        3 | 4 => dealt(random, records, &called),
        5 => dealt(random, records, &all),
        6 => dealt(random, fewer, &called),
        _ => dealt(random, fewer, &all),
    }
}

/// So many records, each for one of these offices.
pub fn dealt(random: &mut Random, records: u32, offices: &[usize]) -> Shares {
    let mut shares = NO_SHARES;
    for _ in 0..records {
        shares[random.pick(offices)] += 1;
    }
    shares
}

/// Shares that don't fit so many records: by one, by far, or by a sum that is lower in
/// 32 bits.
pub fn too_many(random: &mut Random, records: u32) -> Shares {
    let all: Vec<usize> = (0..OFFICES).collect();
    let mut shares = dealt(random, records, &all);
    let (one, other) = (random.index(OFFICES), random.index(OFFICES - 1));
    let other = (one + 1 + other) % OFFICES;
    match random.index(4) {
        0 | 1 => shares[one] += 1,
        2 => shares[one] = u32::MAX - random.between(0, records),
        _ => [shares[one], shares[other]] = [1 << 31; 2],
    }
    shares
}
