//! Offices that share a sheet (02, change 7): what each holds, and whether it is granted
//! a record. Sums are whole numbers of any size.

use super::chains::Lot;
use super::layout::{Layout, HEAD, OFFICES, SHARES};

/// Each office's share of records.
pub type Shares = [u32; OFFICES];

/// No office is sure of a record, and none is held back.
pub const NO_SHARES: Shares = [0; OFFICES];

/// The office of a lot: its number's remainder by 16.
pub fn office(lot: u32) -> usize {
    lot as usize % OFFICES
}

/// The shares in a sheet's head, none if it has no words for them.
pub fn shares_of(words: &[u32], layout: Layout) -> Shares {
    let mut shares = NO_SHARES;
    if layout.shares {
        shares.copy_from_slice(&words[SHARES..HEAD]);
    }
    shares
}

/// Whether so many records after the head are enough for all shares at once.
pub fn fit(shares: &Shares, records: usize) -> bool {
    let sum: u64 = shares.iter().map(|&share| u64::from(share)).sum();
    sum <= records as u64
}

/// The records that each office holds: those of its lots and of their inspections.
pub fn held(lots: &[Lot]) -> [u64; OFFICES] {
    let mut held = [0; OFFICES];
    for lot in lots {
        held[office(lot.number)] += 1 + lot.inspections.len() as u64;
    }
    held
}

/// Whether an office is granted one of the spare records, free and unused: it holds fewer
/// than its share, or they exceed what the other offices lack to reach theirs, added up.
pub fn grants(shares: &Shares, held: &[u64; OFFICES], office: usize, spare: u64) -> bool {
    let share = |of: usize| u64::from(shares[of]);
    let others = (0..OFFICES).filter(|&other| other != office);
    let lacking: u64 = others
        .map(|other| share(other).saturating_sub(held[other]))
        .sum();
    held[office] < share(office) || spare > lacking
}
