//! Judge, the chances and the expected units as calls on the words of a plan, with their
//! refusals. Where several apply the lowest is given (01 "Refused"), except that 17
//! follows 13 and precedes 14 (02, change 2).

use super::chance::{self, Bounds, Weights, MOST_WEIGHT};
use super::class::HIGHEST;
use super::earliest::Table;
use super::expected_units;
use super::judge::{judge, Judgement};
use super::lot_chance::{self, Lot, MOST_UNITS_OF_LOT};
use super::plan::Plan;
use super::Reply;

/// What the chance, the expected units and their charts take.
pub struct ChanceCall {
    pub weights: Weights,
    pub scratch: u32,
    pub words: Vec<u32>,
}

/// What the chance of a lot of known size takes.
pub struct LotChanceCall {
    pub lot: Lot,
    pub scratch: u32,
    pub words: Vec<u32>,
}

/// Keeps the plan last asked for, since its calls mostly follow each other and
/// its table is the costly part.
#[derive(Default)]
pub struct PlanCalls {
    kept: Option<(Vec<u32>, Plan, Table)>,
}

impl PlanCalls {
    pub fn judge(&mut self, list: &[u8], words: &[u32]) -> Reply<Judgement> {
        let (plan, table) = self.plan(words).ok_or(2_u32)?;
        if list.iter().any(|&class| class > HIGHEST) {
            return Err(7);
        }
        Ok(judge(plan, table, list))
    }

    pub fn chance(&mut self, call: &ChanceCall) -> Reply<Bounds> {
        let (plan, table) = self.weighed(call)?;
        Ok(chance::bounds(plan, table, call.weights))
    }

    /// Refused as the chance is (02, change 6).
    pub fn expected_units(&mut self, call: &ChanceCall) -> Reply<Bounds> {
        let (plan, table) = self.weighed(call)?;
        Ok(expected_units::bounds(plan, table, call.weights))
    }

    pub fn lot_chance(&mut self, call: &LotChanceCall) -> Reply<Bounds> {
        let (plan, table) = self.plan(&call.words).ok_or(2_u32)?;
        let least = plan.units() as u64;
        if !(least..=MOST_UNITS_OF_LOT).contains(&lot_chance::units(call.lot)) {
            return Err(17);
        }
        if u64::from(call.scratch) < chance::needed(plan) {
            return Err(14);
        }
        Ok(lot_chance::bounds(plan, table, call.lot))
    }

    /// The plan of a call with weights, or its refusal.
    fn weighed(&mut self, call: &ChanceCall) -> Reply<(&Plan, &Table)> {
        let (plan, table) = self.plan(&call.words).ok_or(2_u32)?;
        if !(1..=MOST_WEIGHT).contains(&chance::sum(call.weights)) {
            return Err(13);
        }
        if u64::from(call.scratch) < chance::needed(plan) {
            return Err(14);
        }
        Ok((plan, table))
    }

    fn plan(&mut self, words: &[u32]) -> Option<(&Plan, &Table)> {
        if self.kept.as_ref().is_none_or(|(kept, ..)| kept != words) {
            let plan = Plan::admitted(words)?;
            let table = Table::new(&plan);
            self.kept = Some((words.to_vec(), plan, table));
        }
        self.kept.as_ref().map(|(_, plan, table)| (plan, table))
    }
}
