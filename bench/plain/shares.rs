//! The offices' shares of the records of a sheet.

/// A lot's office is its number modulo this.
pub const OFFICES: usize = 16;

/// Records of each office.
pub type ByOffice = [u32; OFFICES];

pub fn office(lot: u32) -> usize {
    lot as usize % OFFICES
}

/// Whether shares add to no more than the records that are there for them.
pub fn fit(shares: &[u32], records: u32) -> bool {
    let sum: u64 = shares.iter().map(|&share| u64::from(share)).sum();
    sum <= u64::from(records)
}

/// Whether a lot gets one of the records left, by shares that fit and what the offices hold.
/// If its own office lacks none, the others lack what all lack.
pub fn granted(lot: u32, left: u32, shares: &ByOffice, held: &ByOffice) -> bool {
    let lacks = |office: usize| shares[office].saturating_sub(held[office]);
    lacks(office(lot)) > 0 || left > (0..OFFICES).map(lacks).sum()
}
