//! The library, by its binding.

use crate::side::{answer, Answer, Memory, Side, Work};
use haqothwe::{Judgement, Reply, Sheet};
use reference::model::sheet_call::SheetCall;

#[derive(Default)]
pub struct Ours(Memory);

impl Side for Ours {
    fn prepare(&mut self, work: &Work) {
        self.0.prepare(work);
    }

    fn run(&mut self, work: &Work) -> Answer {
        match work {
            Work::Judge { plan, list } => returned(haqothwe::judge(plan, list).map(numbers)),
            Work::Chance {
                plan,
                weights,
                scratch,
            } => {
                let scratch = &mut self.0.scratch[..*scratch];
                returned(haqothwe::chance(plan, *weights, scratch))
            }
            Work::Units {
                plan,
                weights,
                scratch,
            } => {
                let scratch = &mut self.0.scratch[..*scratch];
                returned(haqothwe::units(plan, *weights, scratch))
            }
            Work::LotChance { plan, lot, scratch } => {
                let scratch = &mut self.0.scratch[..*scratch];
                returned(haqothwe::lot_chance(plan, *lot, scratch))
            }
            Work::Sheet { call, .. } => on_sheet(&mut Sheet(&mut self.0.words), call),
            Work::Carry { old, shares, .. } => {
                let done = Sheet(&mut self.0.words).carry(old, shares);
                returned(done.map(|()| [0_u32; 0]))
            }
        }
    }

    fn words(&self) -> &[u32] {
        &self.0.words
    }
}

fn returned<const N: usize, T: Into<u64>>(reply: Reply<[T; N]>) -> Answer {
    answer(reply.map_err(|refusal| refusal.number()))
}

fn numbers(it: Judgement) -> [u32; 9] {
    let stops = [it.uncurtailed, it.semi, it.full, it.earliest];
    let [u, s, f, e] = stops.map(|stop| [stop.units, stop.state]);
    [u[0], u[1], s[0], s[1], f[0], f[1], e[0], e[1], it.event]
}

fn on_sheet(sheet: &mut Sheet, call: &SheetCall) -> Answer {
    let none = |()| [0_u32; 0];
    match *call {
        SheetCall::Fresh(ref plan, ref shares) => returned(sheet.fresh(plan, shares).map(none)),
        SheetCall::Open(lot) => returned(sheet.open(lot).map(none)),
        SheetCall::Inspect(lot, class) => returned(sheet.inspect(lot, class).map(none)),
        SheetCall::Strike(lot) => returned(sheet.strike(lot).map(none)),
        SheetCall::Close(lot) => returned(sheet.close(lot).map(none)),
        SheetCall::Look(lot) => returned(
            sheet
                .look(lot)
                .map(|it| [it.state, it.units, it.good, it.marginal, it.bad, it.blanks]),
        ),
        SheetCall::Tally => returned(
            sheet
                .tally()
                .map(|it| [it.accepted, it.rejected, it.good, it.marginal, it.bad]),
        ),
        SheetCall::Estimate(lot) => returned(
            sheet
                .estimate(lot)
                .map(|it| [it.good, it.marginal, it.bad, it.denominator]),
        ),
    }
}
