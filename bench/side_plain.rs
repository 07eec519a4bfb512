//! Plain Rust written to be fast: plain/.

use crate::side::{answer, Answer, Memory, Side, Work};
use plain::{carry, chance, judge, sheet};
use reference::model::sheet_call::SheetCall;

#[derive(Default)]
pub struct Plain(Memory);

impl Side for Plain {
    fn prepare(&mut self, work: &Work) {
        self.0.prepare(work);
    }

    fn run(&mut self, work: &Work) -> Answer {
        match work {
            Work::Judge { plan, list } => answer(judge::judge(plan, list)),
            Work::Chance {
                plan,
                weights,
                scratch,
            } => {
                let scratch = &mut self.0.scratch[..*scratch];
                answer(chance::chance(plan, *weights, scratch))
            }
            Work::Units {
                plan,
                weights,
                scratch,
            } => {
                let scratch = &mut self.0.scratch[..*scratch];
                answer(chance::units(plan, *weights, scratch))
            }
            Work::LotChance { plan, lot, scratch } => {
                let scratch = &mut self.0.scratch[..*scratch];
                answer(chance::lot_chance(plan, *lot, scratch))
            }
            Work::Sheet { call, .. } => on_sheet(&mut self.0.words, call),
            Work::Carry { old, shares, .. } => {
                let done = carry::carry(old, &mut self.0.words, shares);
                answer(done.map(|()| [0_u32; 0]))
            }
        }
    }

    fn words(&self) -> &[u32] {
        &self.0.words
    }
}

fn on_sheet(words: &mut [u32], call: &SheetCall) -> Answer {
    let none = |()| [0_u32; 0];
    match *call {
        SheetCall::Fresh(ref plan, ref shares) => {
            answer(sheet::fresh(words, plan, shares).map(none))
        }
        SheetCall::Open(lot) => answer(sheet::open(words, lot).map(none)),
        SheetCall::Inspect(lot, class) => answer(sheet::inspect(words, lot, class).map(none)),
        SheetCall::Strike(lot) => answer(sheet::strike(words, lot).map(none)),
        SheetCall::Close(lot) => answer(sheet::close(words, lot).map(none)),
        SheetCall::Look(lot) => answer(sheet::look(words, lot)),
        SheetCall::Tally => answer(sheet::tally(words)),
        SheetCall::Estimate(lot) => answer(sheet::estimate(words, lot)),
    }
}
