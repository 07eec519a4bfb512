//! The reference. It keeps the table of the verdicts of a plan between calls, which
//! the other sides do not.

use crate::side::{answer, load, Answer, Side, Work};
use reference::model::plan_calls::{ChanceCall, LotChanceCall, PlanCalls};
use reference::model::sheet::Sheet;

#[derive(Default)]
pub struct Reference {
    sheet: Sheet,
    calls: PlanCalls,
}

impl Side for Reference {
    fn prepare(&mut self, work: &Work) {
        load(&mut self.sheet.words, work);
    }

    fn run(&mut self, work: &Work) -> Answer {
        match work {
            Work::Judge { plan, list } => {
                let reply = self.calls.judge(list, plan);
                answer(reply.map(|judgement| judgement.numbers()))
            }
            Work::Chance {
                plan,
                weights,
                scratch,
            } => answer(self.calls.chance(&ChanceCall {
                weights: *weights,
                scratch: *scratch as u32,
                words: plan.clone(),
            })),
            Work::Units {
                plan,
                weights,
                scratch,
            } => answer(self.calls.expected_units(&ChanceCall {
                weights: *weights,
                scratch: *scratch as u32,
                words: plan.clone(),
            })),
            Work::LotChance { plan, lot, scratch } => {
                answer(self.calls.lot_chance(&LotChanceCall {
                    lot: *lot,
                    scratch: *scratch as u32,
                    words: plan.clone(),
                }))
            }
            Work::Sheet { call, .. } => match call.make(&mut self.sheet) {
                Err(number) => (number, [0; 9]),
                Ok(found) => {
                    let mut values = [0; 9];
                    values[..found.len()].copy_from_slice(&found);
                    (0, values)
                }
            },
            Work::Carry { old, shares, .. } => {
                let done = self.sheet.carry(old, shares);
                answer(done.map(|()| [0_u32; 0]))
            }
        }
    }

    fn words(&self) -> &[u32] {
        &self.sheet.words
    }
}
