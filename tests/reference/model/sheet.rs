//! The calls on a sheet (01 "Sheet"): fresh, open, inspect, strike, close, look,
//! tally, and the estimate of 01 "Lists, events, estimates".

use super::chains::{intact, word, Chains, Plans};
use super::class::{blanks, counts, HIGHEST};
use super::layout::*;
use super::offices::{self, Shares};
use super::plan::STAGE_WORDS;
use super::Reply;

/// The words of a sheet, and the calls on them under its layout.
#[derive(Default)]
pub struct Sheet {
    pub words: Vec<u32>,
    layout: Layout,
    pub(super) plans: Plans,
}

impl Sheet {
    pub fn new(words: Vec<u32>) -> Sheet {
        Sheet {
            words,
            ..Sheet::default()
        }
    }

    /// A sheet under the old layout. It has no shares.
    pub fn old(words: Vec<u32>) -> Sheet {
        Sheet {
            words,
            layout: OLD,
            ..Sheet::default()
        }
    }

    pub(super) fn size(&self) -> Reply<()> {
        if self.layout.admits(self.words.len()) {
            Ok(())
        } else {
            Err(1)
        }
    }

    fn chains(&mut self) -> Reply<Chains> {
        self.size()?;
        intact(&self.words, self.layout, &mut self.plans).ok_or(3)
    }

    /// A record for a call that needs one for this lot: the first free, else the next
    /// never used. Nothing is written yet.
    fn spare(&self, chains: &Chains, lot: u32) -> Reply<u32> {
        let unused = self.words[NEXT_UNUSED];
        let never_used = records(self.words.len()) - unused as usize;
        let spare = chains.free.len() + never_used;
        if spare == 0 {
            return Err(11);
        }
        let shares = offices::shares_of(&self.words, self.layout);
        let held = offices::held(&chains.lots);
        if !offices::grants(&shares, &held, offices::office(lot), spare as u64) {
            return Err(19);
        }
        Ok(chains.free.first().copied().unwrap_or(unused))
    }

    fn take(&mut self, chains: &Chains, record: u32, words: [u32; RECORD_WORDS]) {
        if chains.free.is_empty() {
            self.words[NEXT_UNUSED] += 1;
        } else {
            self.words[FIRST_FREE] = word(&self.words, record, NEXT);
        }
        self.put(record, words);
    }

    pub(super) fn put(&mut self, record: u32, words: [u32; RECORD_WORDS]) {
        let at = place(record, 0);
        self.words[at..at + RECORD_WORDS].copy_from_slice(&words);
    }

    /// To the front of the free chain.
    fn release(&mut self, record: u32) {
        let first = self.words[FIRST_FREE];
        let depth = if first == 0 {
            0
        } else {
            word(&self.words, first, DEPTH)
        };
        self.put(record, [depth + 1, first, 0, FREE]);
        self.words[FIRST_FREE] = record;
    }

    /// The word that holds the index of the first lot from this number on.
    fn link_to(&self, chains: &Chains, number: u32) -> usize {
        let before = chains.lots.iter().rfind(|lot| lot.number < number);
        before.map_or(FIRST_LOT, |lot| place(lot.record, NEXT))
    }

    pub fn fresh(&mut self, plan: &[u32], shares: &Shares) -> Reply<()> {
        self.size()?;
        self.plans.admitted(plan).ok_or(2_u32)?;
        self.shares_fit(shares)?;
        self.words[..TOTALS_END].fill(0);
        self.words[NEXT_UNUSED] = self.layout.first_record;
        self.words[K] = (plan.len() / STAGE_WORDS) as u32;
        self.words[STAGES..STAGES + plan.len()].copy_from_slice(plan);
        if self.layout.shares {
            self.words[SHARES..HEAD].copy_from_slice(shares);
        }
        Ok(())
    }

    pub(super) fn shares_fit(&self, shares: &Shares) -> Reply<()> {
        let records = self.layout.records_after_head(self.words.len());
        offices::fit(shares, records).then_some(()).ok_or(18)
    }

    pub fn open(&mut self, number: u32) -> Reply<()> {
        let chains = self.chains()?;
        if number == 0 {
            return Err(4);
        }
        if chains.lot(number).is_some() {
            return Err(5);
        }
        let record = self.spare(&chains, number)?;
        let link = self.link_to(&chains, number);
        let next = self.words[link];
        self.take(&chains, record, [number, next, 0, 0]);
        self.words[link] = record;
        Ok(())
    }

    pub fn inspect(&mut self, number: u32, class: u32) -> Reply<()> {
        let chains = self.chains()?;
        let lot = chains.lot(number).ok_or(6_u32)?;
        if class > u32::from(HIGHEST) {
            return Err(7);
        }
        if lot.stop.is_some() {
            return Err(8);
        }
        let record = self.spare(&chains, number)?;
        let serial = lot.inspections.len() as u32 + 1;
        let newest = place(lot.record, NEWEST);
        let older = self.words[newest];
        self.take(&chains, record, [class, older, lot.record, serial]);
        self.words[newest] = record;
        Ok(())
    }

    pub fn strike(&mut self, number: u32) -> Reply<()> {
        let chains = self.chains()?;
        let lot = chains.lot(number).ok_or(6_u32)?;
        let &newest = lot.inspections.first().ok_or(9_u32)?;
        self.words[place(lot.record, NEWEST)] = word(&self.words, newest, NEXT);
        self.release(newest);
        Ok(())
    }

    pub fn close(&mut self, number: u32) -> Reply<()> {
        let chains = self.chains()?;
        let lot = chains.lot(number).ok_or(6_u32)?;
        let state = usize::from(lot.stop.ok_or(10_u32)?.1);
        let closed = &self.words[CLOSED_LOTS..CLOSED_UNITS];
        if closed.iter().sum::<u32>() == MOST_CLOSED {
            return Err(12);
        }
        self.words[CLOSED_LOTS + state - 1] += 1;
        let closed = &mut self.words[CLOSED_UNITS..TOTALS_END];
        for (total, units) in closed.iter_mut().zip(counts(&lot.classes)) {
            *total += units;
        }
        let link = self.link_to(&chains, number);
        self.words[link] = word(&self.words, lot.record, NEXT);
        lot.inspections.iter().for_each(|&at| self.release(at));
        self.release(lot.record);
        Ok(())
    }

    /// State, units, good, marginal, bad, and the blanks within marginal.
    pub fn look(&mut self, number: u32) -> Reply<Vec<u32>> {
        let chains = self.chains()?;
        let lot = chains.lot(number).ok_or(6_u32)?;
        let units = lot.classes.len() as u32;
        let [good, marginal, bad] = counts(&lot.classes);
        let blanks = blanks(&lot.classes);
        let state = u32::from(lot.state());
        Ok(vec![state, units, good, marginal, bad, blanks])
    }

    /// Accepted lots, rejected lots, good, marginal, bad.
    pub fn tally(&mut self) -> Reply<Vec<u32>> {
        self.chains()?;
        Ok(self.words[CLOSED_LOTS..TOTALS_END].to_vec())
    }

    /// Good, marginal, bad among the units that are counted, and their number.
    pub fn estimate(&mut self, number: u32) -> Reply<Vec<u32>> {
        let chains = self.chains()?;
        let lot = chains.lot(number).ok_or(6_u32)?;
        if lot.stop.is_none() {
            return Err(10);
        }
        if chains.judging.plan.stages.len() > 1 {
            return Err(15);
        }
        let counted = counted(&lot.classes);
        let [good, marginal, bad] = counts(counted);
        Ok(vec![good, marginal, bad, counted.len() as u32])
    }
}

/// The units of a decided lot that its estimate counts: those before the last, or the
/// only one (02, change 5). No lot is decided without a unit.
fn counted(classes: &[u8]) -> &[u8] {
    let before_last = classes.len() - 1;
    &classes[..before_last.max(1)]
}
