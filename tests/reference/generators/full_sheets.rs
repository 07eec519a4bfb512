//! Sheets that are nearly full, written record by record: by calls they would
//! take too long.

use super::draw;
use super::random::Random;
use crate::model::earliest::{by_table, Table};
use crate::model::layout::*;
use crate::model::plan::{Plan, STAGE_WORDS};

/// How a sheet is filled.
pub struct Fill {
    pub free: usize,
    pub unused: usize,
    /// Records in any order, else in the order of their chains.
    pub shuffled: bool,
}

/// The words of a sheet, and its lots in ascending order.
pub struct Built {
    pub words: Vec<u32>,
    pub lots: Vec<u32>,
}

/// A sheet of this many words, all records but the free and unused ones in lots.
pub fn sheet(random: &mut Random, length: usize, plan: &[u32], fill: &Fill) -> Built {
    under(random, NEW, length, plan, fill)
}

/// Alike under a layout, without shares.
pub fn under(
    random: &mut Random,
    layout: Layout,
    length: usize,
    plan: &[u32],
    fill: &Fill,
) -> Built {
    let used = (records(length) - fill.unused) as u32;
    let in_lots = (used - layout.first_record) as usize - fill.free;
    let histories = histories(random, plan, in_lots);
    let mut order: Vec<u32> = (layout.first_record..used).rev().collect();
    if fill.shuffled {
        random.shuffle(&mut order);
    }
    let mut words = vec![0; length];
    words[NEXT_UNUSED] = used;
    words[K] = (plan.len() / STAGE_WORDS) as u32;
    words[STAGES..STAGES + plan.len()].copy_from_slice(plan);
    let mut writer = Writer { words, order };
    let lots = writer.lots(random, &histories);
    writer.free_chain(fill.free);
    let words = writer.words;
    Built { words, lots }
}

/// Histories that fill so many records, decided and not. None goes on after its
/// earliest stop.
fn histories(random: &mut Random, words: &[u32], mut records: usize) -> Vec<Vec<u8>> {
    let plan = Plan::admitted(words).expect("the plan is admitted");
    let table = Table::new(&plan);
    let mut found = Vec::new();
    while records > 0 {
        let until = random.index(plan.units() + 2);
        let length = random.index(plan.units() + 1);
        let mut history = draw::held(random, &plan, &table, until, length);
        let stop = by_table(&plan, &table, &history);
        history.truncate(stop.map_or(history.len(), |(y, _)| y));
        history.truncate(records - 1);
        records -= 1 + history.len();
        found.push(history);
    }
    found
}

struct Writer {
    words: Vec<u32>,
    /// The records not yet written, the next one last.
    order: Vec<u32>,
}

impl Writer {
    fn record(&mut self, words: [u32; RECORD_WORDS]) -> u32 {
        let record = self.order.pop().expect("the records are counted");
        let at = place(record, 0);
        self.words[at..at + RECORD_WORDS].copy_from_slice(&words);
        record
    }

    fn lots(&mut self, random: &mut Random, histories: &[Vec<u8>]) -> Vec<u32> {
        let mut numbers = Vec::new();
        let (mut number, mut link) = (0, FIRST_LOT);
        for history in histories {
            number += random.between(1, 9);
            let lot = self.record([number, 0, 0, 0]);
            self.words[link] = lot;
            link = place(lot, NEXT);
            let mut newest = 0;
            for (&class, serial) in history.iter().zip(1..) {
                newest = self.record([u32::from(class), newest, lot, serial]);
            }
            self.words[place(lot, NEWEST)] = newest;
            numbers.push(number);
        }
        numbers
    }

    fn free_chain(&mut self, records: usize) {
        for depth in 1..=records as u32 {
            let next = self.words[FIRST_FREE];
            self.words[FIRST_FREE] = self.record([depth, next, 0, FREE]);
        }
    }
}
