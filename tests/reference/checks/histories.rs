//! Calls on a sheet answered from the lots' histories alone, without any words (01
//! "Sheet"). The stops are found by writing out all completions.

use crate::model::class::HIGHEST;
use crate::model::earliest::by_completions;
use crate::model::layout::OFFICES;
use crate::model::offices::Shares;
use crate::model::plan::Plan;
use crate::model::sheet_call::SheetCall;
use crate::model::Reply;
use std::collections::BTreeMap;

/// Accepted lots, rejected lots, good, marginal, bad.
pub type Totals = [u64; 5];

pub struct Histories {
    pub plan: Plan,
    pub shares: Shares,
    pub lots: BTreeMap<u32, Vec<u8>>,
    pub totals: Totals,
    /// Records that lots and inspections may use.
    pub room: usize,
}

impl Histories {
    /// No lot was ever opened.
    pub fn new(plan: Plan, shares: Shares, room: usize) -> Histories {
        Histories {
            plan,
            shares,
            lots: BTreeMap::new(),
            totals: Totals::default(),
            room,
        }
    }

    pub fn make(&mut self, call: &SheetCall) -> Reply<Vec<u64>> {
        let done = match *call {
            SheetCall::Fresh(ref words, shares) => self.fresh(words, shares),
            SheetCall::Open(lot) => self.open(lot),
            SheetCall::Inspect(lot, class) => self.inspect(lot, class),
            SheetCall::Strike(lot) => self.strike(lot),
            SheetCall::Close(lot) => self.close(lot),
            SheetCall::Look(lot) => return self.look(lot),
            SheetCall::Tally => return Ok(self.totals.to_vec()),
            SheetCall::Estimate(lot) => return self.estimate(lot),
        };
        done.map(|()| vec![])
    }

    fn history(&self, lot: u32) -> Reply<&Vec<u8>> {
        self.lots.get(&lot).ok_or(6)
    }

    fn state(&self, history: &[u8]) -> u8 {
        by_completions(&self.plan, history).map_or(0, |(_, state)| state)
    }

    /// The records that each office holds.
    pub fn held(&self) -> [usize; OFFICES] {
        let mut held = [0; OFFICES];
        for (lot, history) in &self.lots {
            held[*lot as usize % 16] += 1 + history.len();
        }
        held
    }

    /// What all offices lack to reach their shares, by what each holds.
    pub fn lacking(&self, held: &[usize; OFFICES]) -> usize {
        let lacks = |(&share, &held)| (share as usize).saturating_sub(held);
        self.shares.iter().zip(held).map(lacks).sum()
    }

    /// A record is granted if all offices lack less with it, or if what is left without it is
    /// as many as they lack, or more (02, change 7).
    fn needs_a_record(&self, lot: u32) -> Reply<()> {
        let mut held = self.held();
        let left = self.room - held.iter().sum::<usize>();
        let before = self.lacking(&held);
        held[lot as usize % 16] += 1;
        let lacking = self.lacking(&held);
        match left {
            0 => Err(11),
            _ if lacking < before || left > lacking => Ok(()),
            _ => Err(19),
        }
    }

    fn fresh(&mut self, words: &[u32], shares: Shares) -> Reply<()> {
        let plan = Plan::admitted(words).ok_or(2_u32)?;
        if shares.iter().map(|&share| u128::from(share)).sum::<u128>() > self.room as u128 {
            return Err(18);
        }
        (self.plan, self.shares) = (plan, shares);
        self.lots.clear();
        self.totals = Totals::default();
        Ok(())
    }

    fn open(&mut self, lot: u32) -> Reply<()> {
        if lot == 0 {
            return Err(4);
        }
        if self.lots.contains_key(&lot) {
            return Err(5);
        }
        self.needs_a_record(lot)?;
        self.lots.insert(lot, vec![]);
        Ok(())
    }

    fn inspect(&mut self, lot: u32, class: u32) -> Reply<()> {
        let history = self.history(lot)?;
        if class > u32::from(HIGHEST) {
            return Err(7);
        }
        if self.state(history) != 0 {
            return Err(8);
        }
        self.needs_a_record(lot)?;
        self.lots.entry(lot).or_default().push(class as u8);
        Ok(())
    }

    fn strike(&mut self, lot: u32) -> Reply<()> {
        self.history(lot)?;
        let newest = self.lots.entry(lot).or_default().pop();
        newest.map(|_| ()).ok_or(9)
    }

    fn close(&mut self, lot: u32) -> Reply<()> {
        let history = self.history(lot)?;
        let state = usize::from(self.state(history));
        if state == 0 {
            return Err(10);
        }
        let units = counts(history);
        self.totals[state - 1] += 1;
        let totals = self.totals[2..].iter_mut();
        totals.zip(units).for_each(|(total, more)| *total += more);
        self.lots.remove(&lot);
        Ok(())
    }

    fn look(&self, lot: u32) -> Reply<Vec<u64>> {
        let history = self.history(lot)?;
        let state = u64::from(self.state(history));
        let units = history.len() as u64;
        let blanks = of_class(history, 3);
        Ok([&[state, units], &counts(history)[..], &[blanks]].concat())
    }

    fn estimate(&self, lot: u32) -> Reply<Vec<u64>> {
        let history = self.history(lot)?;
        if self.state(history) == 0 {
            return Err(10);
        }
        if self.plan.stages.len() > 1 {
            return Err(15);
        }
        // Those before the last; with none before it, the only unit (02, change 5).
        let counted = match &history[..] {
            [before @ .., _] if !before.is_empty() => before,
            only => only,
        };
        Ok([&counts(counted)[..], &[counted.len() as u64]].concat())
    }
}

fn of_class(history: &[u8], class: u8) -> u64 {
    history.iter().filter(|&&it| it == class).count() as u64
}

/// Good, marginal and bad; a blank is within marginal (02, change 4).
fn counts(history: &[u8]) -> [u64; 3] {
    let [good, marginal, bad, blanks] = [0, 1, 2, 3].map(|class| of_class(history, class));
    [good, marginal + blanks, bad]
}
