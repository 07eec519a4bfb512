//! 01 "Four ways to stop" and "Lists, events, estimates": a list judged four
//! ways, and the event.

use super::class;
use super::earliest::{by_both, Stop, Table};
use super::plan::{Counts, Plan, Stage, ACCEPTED, BAD, NONGOOD, REJECTED};

/// Stop and state of uncurtailed, semi, full and earliest, and the event.
pub struct Judgement {
    pub stops: [Stop; 4],
    pub event: u8,
}

impl Judgement {
    /// Stop and state of each way, 0 if not reached, and the event.
    pub fn numbers(&self) -> [u64; 9] {
        let stops = self.stops.map(|stop| stop.unwrap_or((0, 0)));
        let mut numbers = [0; 9];
        for (pair, (units, state)) in numbers.chunks_exact_mut(2).zip(stops) {
            pair.copy_from_slice(&[units as u64, u64::from(state)]);
        }
        numbers[8] = u64::from(self.event);
        numbers
    }
}

/// What a way says after y units with these counts; None is to go on.
type Way = fn(&Stage, u64, Counts) -> Option<u8>;

pub fn judge(plan: &Plan, table: &Table, list: &[u8]) -> Judgement {
    let stop = |way: Way| first_stop(plan, list, way);
    let full_stop = stop(full);
    Judgement {
        stops: [
            stop(uncurtailed),
            stop(semi),
            full_stop,
            by_both(plan, table, list),
        ],
        event: event(plan, list, full_stop),
    }
}

/// The least y, from 1 to S, at which the way doesn't go on.
fn first_stop(plan: &Plan, list: &[u8], way: Way) -> Stop {
    (1..=plan.units().min(list.len())).find_map(|y| {
        let stage = current(plan, y as u64);
        let verdict = way(stage, y as u64, Counts::of(&list[..y]))?;
        Some((y, verdict))
    })
}

/// The current stage has S(i-1) < y <= Si.
fn current(plan: &Plan, y: u64) -> &Stage {
    let mut stages = plan.stages.iter();
    stages.find(|stage| y <= stage.end).expect("y is at most S")
}

fn uncurtailed(stage: &Stage, y: u64, counts: Counts) -> Option<u8> {
    (y == stage.end).then(|| stage.verdict(counts)).flatten()
}

fn rejects(stage: &Stage, counts: Counts) -> bool {
    counts.bad >= stage.r[BAD] || counts.nongood >= stage.r[NONGOOD]
}

fn semi(stage: &Stage, y: u64, counts: Counts) -> Option<u8> {
    if rejects(stage, counts) {
        return Some(REJECTED);
    }
    uncurtailed(stage, y, counts).filter(|&verdict| verdict == ACCEPTED)
}

/// Should both tests hold, rejection goes first. A marked stage has no test of
/// acceptance (02, change 1).
fn full(stage: &Stage, y: u64, counts: Counts) -> Option<u8> {
    if rejects(stage, counts) {
        return Some(REJECTED);
    }
    let a = stage.a?;
    let nonbad = y - counts.bad;
    let good = y - counts.nongood;
    let accepts = nonbad >= stage.end - a[BAD] && good >= stage.end - a[NONGOOD];
    accepts.then_some(ACCEPTED)
}

/// For one stage, the event at full's stop, else 0. Panics unless exactly one
/// of the six cases holds there: then this program is wrong.
fn event(plan: &Plan, list: &[u8], full: Stop) -> u8 {
    let ([stage], Some((y, _))) = (&plan.stages[..], full) else {
        return 0;
    };
    let held: Vec<u8> = cases(stage, &list[..y])
        .into_iter()
        .zip(1..)
        .filter_map(|(holds, number)| holds.then_some(number))
        .collect();
    assert_eq!(held.len(), 1, "events {held:?} of {stage:?} after {y}");
    held[0]
}

/// The six cases in 01's order, with G1 = n - r1 + 1 and G2 = n - r2 + 1.
fn cases(stage: &Stage, units: &[u8]) -> [bool; 6] {
    let [good, marginal, bad] = class::counts(units).map(i64::from);
    let [n, r1, r2] = [stage.size, stage.r[NONGOOD], stage.r[BAD]].map(|word| word as i64);
    let (g1, g2) = (n - r1 + 1, n - r2 + 1);
    let (nonbad, nongood) = (good + marginal, marginal + bad);
    [
        nonbad == g2 && good > g1,
        good == g1 && marginal > r1 - r2,
        nonbad == g2 && good == g1,
        bad == r2 && marginal < r1 - r2,
        nongood == r1 && bad < r2,
        bad == r2 && marginal == r1 - r2,
    ]
}
