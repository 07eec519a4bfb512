//! An old sheet, whose head has no shares, carried into a second one: after one walk of the
//! old records, one pass that copies them.

use super::shares::ByOffice;
use super::sheet::{records, shares_fit, size, walk};
use super::sheet::{FIRST_FREE, FIRST_LOT, HEAD, LEAST_WORDS, SHARES};
use std::hint::black_box;

const OLD_LEAST_WORDS: usize = 48;
const OLD_FIRST_RECORD: u32 = 11;

/// How much later a record stands in the second sheet.
const RISE: u32 = 4;

/// By how much the words of a record rise where they are not 0. Words 1 and 2 are indexes;
/// word 2 of a free record is 0.
const RISES: [u32; 4] = [0, RISE, RISE, 0];

pub fn carry(old: &[u32], words: &mut [u32], shares: &ByOffice) -> Result<(), u32> {
    size(old, OLD_LEAST_WORDS)?;
    size(words, LEAST_WORDS)?;
    walk::<OLD_FIRST_RECORD>(old, 0)?;
    if !shares_fit(words, shares) {
        return Err(18);
    }
    if records(words) < old[0] + RISE {
        return Err(20);
    }
    let (head, rest) = words.split_at_mut(HEAD);
    head[..SHARES].copy_from_slice(&old[..SHARES]);
    head[0] += RISE;
    head[FIRST_LOT] = raised(head[FIRST_LOT], RISE);
    head[FIRST_FREE] = raised(head[FIRST_FREE], RISE);
    head[SHARES..].copy_from_slice(shares);
    copy(&old[SHARES..4 * old[0] as usize], rest);
    Ok(())
}

fn raised(word: u32, rise: u32) -> u32 {
    if word == 0 {
        0
    } else {
        word + rise
    }
}

/// The records of the old sheet, which begin where its head ends.
///
/// The rises are hidden from the compiler, which would copy words 0 and 3 apart if it knew
/// that they do not rise: so a record is one vector. The last record goes first: a read
/// waits for a write just before it that stands alike in its page of 4,096 bytes, and the
/// other way round, where both sheets begin pages, the record read would stand as the one
/// written four turns ago. Both together take half of the time.
fn copy(old: &[u32], rest: &mut [u32]) {
    let rises = black_box(RISES);
    let (from, _) = old.as_chunks::<4>();
    let (to, _) = rest[..old.len()].as_chunks_mut::<4>();
    for (to, from) in to.iter_mut().zip(from).rev() {
        *to = std::array::from_fn(|i| raised(from[i], rises[i]));
    }
}
