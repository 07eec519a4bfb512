//! A sheet as its chains have it, under a layout; corrupt ones have none (01 "Sheet"; 02,
//! changes 7 and 8).

use super::class::HIGHEST;
use super::earliest::{Stop, Table};
use super::layout::*;
use super::offices;
use super::plan::{Counts, Plan, BOTH, MOST_STAGES, MOST_UNITS, STAGE_WORDS};
use std::collections::HashMap;
use std::rc::Rc;

/// An admitted plan and the verdicts that can be reached under it.
pub struct Judging {
    pub plan: Plan,
    table: Table,
}

impl Judging {
    /// The earliest stop on a list. Every list is decided by S units, so the
    /// table is never asked for more.
    fn stop(&self, classes: &[u8]) -> Stop {
        let mut counts = Counts::default();
        let mut y = 0;
        loop {
            let verdicts = self.table.at(y, counts);
            if verdicts != BOTH {
                return Some((y, verdicts));
            }
            counts = counts.after(*classes.get(y)?);
            y += 1;
        }
    }
}

/// The plans asked for so far, kept because a table takes most of a call's time.
#[derive(Default)]
pub struct Plans {
    kept: HashMap<Vec<u32>, Option<Rc<Judging>>>,
}

impl Plans {
    pub fn admitted(&mut self, words: &[u32]) -> Option<Rc<Judging>> {
        if let Some(kept) = self.kept.get(words) {
            return kept.clone();
        }
        let judging = Plan::admitted(words).map(|plan| {
            let table = Table::new(&plan);
            Rc::new(Judging { plan, table })
        });
        self.kept.insert(words.to_vec(), judging.clone());
        judging
    }
}

pub struct Lot {
    pub number: u32,
    pub record: u32,
    /// Newest first.
    pub inspections: Vec<u32>,
    /// Oldest first.
    pub classes: Vec<u8>,
    pub stop: Stop,
}

impl Lot {
    pub fn state(&self) -> u8 {
        self.stop.map_or(0, |(_, state)| state)
    }
}

/// A sheet that is not corrupt, as its chains have it.
pub struct Chains {
    pub judging: Rc<Judging>,
    pub lots: Vec<Lot>,
    pub free: Vec<u32>,
}

impl Chains {
    pub fn lot(&self, number: u32) -> Option<&Lot> {
        self.lots.iter().find(|lot| lot.number == number)
    }
}

pub fn word(words: &[u32], record: u32, field: usize) -> u32 {
    words[place(record, field)]
}

/// The plan in the head, if it is admitted and the unused stages are zero.
fn plan_of(words: &[u32], plans: &mut Plans) -> Option<Rc<Judging>> {
    let k = words[K] as usize;
    if !(1..=MOST_STAGES).contains(&k) {
        return None;
    }
    let (used, unused) = words[STAGES..CLOSED_LOTS].split_at(k * STAGE_WORDS);
    let zero = unused.iter().all(|&word| word == 0);
    plans.admitted(used).filter(|_| zero)
}

fn totals_hold(words: &[u32]) -> bool {
    let sum = |words: &[u32]| words.iter().map(|&word| u64::from(word)).sum::<u64>();
    let lots = sum(&words[CLOSED_LOTS..CLOSED_UNITS]);
    let units = sum(&words[CLOSED_UNITS..TOTALS_END]);
    lots <= u64::from(MOST_CLOSED) && units <= MOST_UNITS * lots
}

/// The records of a chain from its first index; None if an index is outside the first
/// record to word 0 less 1, or if the chain is longer than the records in use.
fn chain(words: &[u32], layout: Layout, first: u32) -> Option<Vec<u32>> {
    let mut found = Vec::new();
    let mut at = first;
    while at != 0 {
        let used = words[NEXT_UNUSED];
        if at < layout.first_record || at >= used || found.len() as u64 >= u64::from(used) {
            return None;
        }
        found.push(at);
        at = word(words, at, NEXT);
    }
    Some(found)
}

/// Whether a word falls by one along a chain and is 1 in its last record.
fn falls_to_one(words: &[u32], chain: &[u32], field: usize) -> bool {
    let numbers = (1..=chain.len() as u32).rev();
    chain
        .iter()
        .zip(numbers)
        .all(|(&at, number)| word(words, at, field) == number)
}

fn free_chain(words: &[u32], layout: Layout) -> Option<Vec<u32>> {
    let free = chain(words, layout, words[FIRST_FREE])?;
    let tags = |&at: &u32| word(words, at, ZERO_OF_FREE) == 0 && word(words, at, TAG) == FREE;
    (falls_to_one(words, &free, DEPTH) && free.iter().all(tags)).then_some(free)
}

fn read_lot(words: &[u32], layout: Layout, judging: &Judging, record: u32) -> Option<Lot> {
    let inspections = chain(words, layout, word(words, record, NEWEST))?;
    let of_lot =
        |&at: &u32| word(words, at, CLASS) <= u32::from(HIGHEST) && word(words, at, LOT) == record;
    let number = word(words, record, NUMBER);
    let rules = number != 0 && word(words, record, ZERO_OF_LOT) == 0;
    if !rules || !inspections.iter().all(of_lot) || !falls_to_one(words, &inspections, SERIAL) {
        return None;
    }
    let oldest_first = inspections.iter().rev();
    let classes: Vec<u8> = oldest_first
        .map(|&at| word(words, at, CLASS) as u8)
        .collect();
    let stop = judging.stop(&classes);
    let none_after = stop.is_none_or(|(y, _)| y == classes.len());
    none_after.then_some(Lot {
        number,
        record,
        inspections,
        classes,
        stop,
    })
}

/// None is corrupt.
pub fn intact(words: &[u32], layout: Layout, plans: &mut Plans) -> Option<Chains> {
    let judging = plan_of(words, plans)?;
    let next_unused = words[NEXT_UNUSED] as usize;
    let first = layout.first_record as usize;
    if !(first..=records(words.len())).contains(&next_unused) || !totals_hold(words) {
        return None;
    }
    let shares = offices::shares_of(words, layout);
    if !offices::fit(&shares, layout.records_after_head(words.len())) {
        return None;
    }
    let lots = chain(words, layout, words[FIRST_LOT])?;
    let ascend = |pair: &[u32]| word(words, pair[0], NUMBER) < word(words, pair[1], NUMBER);
    if !lots.windows(2).all(ascend) {
        return None;
    }
    let lots: Option<Vec<Lot>> = lots
        .iter()
        .map(|&at| read_lot(words, layout, &judging, at))
        .collect();
    let (lots, free) = (lots?, free_chain(words, layout)?);
    let in_lots: usize = lots.iter().map(|lot| 1 + lot.inspections.len()).sum();
    let on_chains = in_lots + free.len();
    (on_chains == next_unused - first).then_some(Chains {
        judging,
        lots,
        free,
    })
}
