//! An old sheet carried into a second one (02, change 8): the second is written lot by
//! lot and along the free chain, as the old one's chains have them.

use super::chains::{intact, Chains};
use super::layout::*;
use super::offices::Shares;
use super::sheet::Sheet;
use super::Reply;

/// An index of a record as the second sheet has it.
fn raised(index: u32) -> u32 {
    match index {
        0 => 0,
        _ => index + RAISE,
    }
}

impl Sheet {
    /// These words are the old sheet, which is only read. What this sheet was before is not
    /// asked for.
    pub fn carry(&mut self, old: &[u32], shares: &Shares) -> Reply<()> {
        if !OLD.admits(old.len()) {
            return Err(1);
        }
        self.size()?;
        let chains = intact(old, OLD, &mut self.plans).ok_or(3_u32)?;
        self.shares_fit(shares)?;
        let next_unused = old[NEXT_UNUSED] + RAISE;
        if records(self.words.len()) < next_unused as usize {
            return Err(20);
        }
        self.words[..TOTALS_END].copy_from_slice(&old[..TOTALS_END]);
        self.words[NEXT_UNUSED] = next_unused;
        self.words[SHARES..HEAD].copy_from_slice(shares);
        self.carry_lots(&chains, old);
        self.carry_free(&chains);
        Ok(())
    }

    fn carry_lots(&mut self, chains: &Chains, old: &[u32]) {
        let first = |records: &[u32]| records.first().copied().unwrap_or(0);
        self.words[FIRST_LOT] = raised(old[FIRST_LOT]);
        for lot in &chains.lots {
            let next = raised(old[place(lot.record, NEXT)]);
            let newest = raised(first(&lot.inspections));
            let record = raised(lot.record);
            self.put(record, [lot.number, next, newest, 0]);
            let oldest_first = lot.inspections.iter().rev();
            let mut older = 0;
            for ((&at, &class), serial) in oldest_first.zip(&lot.classes).zip(1..) {
                self.put(raised(at), [u32::from(class), older, record, serial]);
                older = raised(at);
            }
        }
    }

    fn carry_free(&mut self, chains: &Chains) {
        let mut next = 0;
        for (&at, depth) in chains.free.iter().rev().zip(1..) {
            self.put(raised(at), [depth, next, 0, FREE]);
            next = raised(at);
        }
        self.words[FIRST_FREE] = next;
    }
}
