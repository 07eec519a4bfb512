//! Bounds on the chance of acceptance, and on the expected number of units, by a backward
//! induction in place: the values at y units from those at y + 1. A row has the states of one number of nongood
//! units, by their bad units. A stage's limits say which states of a row are decided,
//! so that only those between are reckoned, and of these only the ones that can be
//! drawn.

use super::draw::{Counted, Draw, Lot, Pair, Weights, REJECTED};
use super::plan::{Limits, Plan};

/// The greatest sum of weights, and of the units of a lot.
const MOST: u64 = 1_000_000;

/// A row past the last one: its states are rejected.
const BEYOND: [Pair; 61] = [REJECTED; 61];

/// Low and high. The scratch words that the plan needs are written to.
pub fn chance(words: &[u32], weights: [u32; 3], scratch: &mut [u64]) -> Result<Pair, u32> {
    let (plan, sum) = weighed(words, weights)?;
    bounds(&plan, Weights::new(weights, sum), scratch)
}

/// Low and high of the expected number of units.
pub fn units(words: &[u32], weights: [u32; 3], scratch: &mut [u64]) -> Result<Pair, u32> {
    let (plan, sum) = weighed(words, weights)?;
    bounds(&plan, Counted::new(weights, sum), scratch)
}

/// The plan, and the sum of the weights.
fn weighed(words: &[u32], weights: [u32; 3]) -> Result<(Plan, u64), u32> {
    let plan = Plan::admitted(words).ok_or(2_u32)?;
    let sum = weights.into_iter().map(u64::from).sum();
    match sum {
        1..=MOST => Ok((plan, sum)),
        _ => Err(13),
    }
}

/// Alike, for a lot of so many good, marginal and bad units.
pub fn lot_chance(words: &[u32], lot: [u32; 3], scratch: &mut [u64]) -> Result<Pair, u32> {
    let plan = Plan::admitted(words).ok_or(2_u32)?;
    let units = lot.into_iter().map(u64::from).sum();
    if !(u64::from(plan.last().end)..=MOST).contains(&units) {
        return Err(17);
    }
    bounds(&plan, Lot::new(lot), scratch)
}

fn bounds<D: Draw>(plan: &Plan, draw: D, scratch: &mut [u64]) -> Result<Pair, u32> {
    let (r1, r2) = (plan.last().r1 as usize, plan.last().r2 as usize);
    let scratch = scratch.get_mut(..2 * r1 * r2).ok_or(14_u32)?;
    let mut layers = Layers {
        values: scratch.as_chunks_mut().0,
        r1,
        r2,
        draw,
    };
    // With all units read, a state below the last numbers is accepted.
    layers.values.fill(D::ACCEPTED);
    for i in (0..plan.stages().len()).rev() {
        layers.stage(plan, i);
    }
    Ok(layers.values[0])
}

/// The rows of a layer, one after the other: g + 1 states, at most r2.
struct Layers<'a, D> {
    values: &'a mut [Pair],
    r1: usize,
    r2: usize,
    draw: D,
}

impl<D: Draw> Layers<'_, D> {
    /// The layers in which a stage is the current one. What is decided at its end is
    /// decided in all of them, so that it is written there alone.
    fn stage(&mut self, plan: &Plan, i: usize) {
        let limits = plan.limits(i);
        let end = plan.stages()[i].end;
        let start = match i {
            0 => 0,
            _ => plan.stages()[i - 1].end + 1,
        };
        if end < plan.last().end {
            self.layer(&limits, end, true);
        }
        for y in (start..end).rev() {
            self.layer(&limits, y, false);
        }
    }

    /// The values at y units. Only at the end of a stage are decided states written.
    fn layer(&mut self, limits: &Limits, y: u32, at_end: bool) {
        self.draw.after(y);
        let rows = if at_end { self.r1 } else { limits.r1 as usize };
        let mut rest = &mut *self.values;
        for g in 0..rows.min(y as usize + 1) {
            let (row, tail) = rest.split_at_mut(self.r2.min(g + 1));
            let next = if g + 1 < self.r1 { &*tail } else { &BEYOND };
            let next = &next[..self.r2.min(g + 2)];
            let going_on = limits.going_on(y, g as u32, row.len());
            if at_end {
                row[..going_on.start].fill(D::ACCEPTED);
                row[going_on.end..].fill(REJECTED);
            }
            self.draw.row(g as u32, going_on, row, next);
            rest = tail;
        }
    }
}
