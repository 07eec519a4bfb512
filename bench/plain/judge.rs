//! A list judged four ways. The classes of a stage are counted at once, and where
//! a way has stopped by the end of them, its stop is found by halving: within a
//! stage a way that has stopped stays stopped.

use super::plan::{Counts, Plan, Stage, ACCEPTED, REJECTED, UNDECIDED};

/// Stop and state of uncurtailed, semi, full and earliest, and the event.
pub fn judge(words: &[u32], list: &[u8]) -> Result<[u32; 9], u32> {
    let plan = Plan::admitted(words).ok_or(2_u32)?;
    // The greatest class, because a loop without an early return is vector code.
    if list.iter().fold(0, |most, &class| most.max(class)) > 3 {
        return Err(7);
    }
    Ok(stops(&plan, list).numbers(&plan))
}

fn stops(plan: &Plan, list: &[u8]) -> Stops {
    let mut stops = Stops::default();
    let mut before = Counts::default();
    for (i, stage) in plan.stages().iter().enumerate() {
        let (start, end) = (before.units as usize, list.len().min(stage.end as usize));
        if start == end {
            break;
        }
        let after = before.plus(count(&list[start..end]));
        if may_stop(&plan.stages()[i..], after) {
            let run = Run {
                list,
                before,
                after,
            };
            stops.in_stage(plan, i, &run);
            if stops.uncurtailed.state != UNDECIDED {
                break;
            }
        }
        before = after;
    }
    stops
}

/// Whether a way may have stopped by these counts in the first of these stages: earliest
/// accepts only if the numbers of some stage are met. Asked first, since the limits take
/// longer to find.
fn may_stop(stages: &[Stage], counts: Counts) -> bool {
    let met = |stage: &Stage| stage.accepting().met_by(counts);
    full(&stages[0], counts) != UNDECIDED || stages[1..].iter().any(met)
}

/// The classes that vector code takes at a time; what is left over it takes one by one.
const TURN: u32 = 32;

/// Bytes count up to 255, so that one instruction counts many classes.
fn count(classes: &[u8]) -> Counts {
    let mut counts = Counts::default();
    for part in classes.chunks(7 * TURN as usize) {
        let (mut nongood, mut bad) = (0_u8, 0_u8);
        for &class in part {
            nongood += u8::from(class != 0);
            bad += u8::from(class == 2);
        }
        counts = counts.plus(Counts {
            units: part.len() as u32,
            nongood: u32::from(nongood),
            bad: u32::from(bad),
        });
    }
    counts
}

/// Where a way stops; undecided if it does not.
#[derive(Clone, Copy, Default)]
struct Stop {
    counts: Counts,
    state: u32,
}

/// The classes of one stage, as far as the list goes.
struct Run<'a> {
    list: &'a [u8],
    before: Counts,
    after: Counts,
}

impl Run<'_> {
    /// The first stop of a way after `low`, where it has not stopped yet.
    fn after(&self, mut low: Counts, way: impl Fn(Counts) -> u32) -> Stop {
        let mut high = self.after;
        if way(high) == UNDECIDED {
            return Stop::default();
        }
        while high.units - low.units > 1 {
            let half = (high.units - low.units) / 2;
            let left_over = if half > TURN { half % TURN } else { 0 };
            let middle = low.units + half - left_over;
            let part = &self.list[low.units as usize..middle as usize];
            let counts = low.plus(count(part));
            if way(counts) == UNDECIDED {
                low = counts;
            } else {
                high = counts;
            }
        }
        let state = way(high);
        Stop {
            counts: high,
            state,
        }
    }

    /// The first stop of a way at these counts or after them.
    fn from(&self, counts: Counts, way: impl Fn(Counts) -> u32) -> Stop {
        match way(counts) {
            UNDECIDED => self.after(counts, way),
            state => Stop { counts, state },
        }
    }
}

#[derive(Default)]
struct Stops {
    uncurtailed: Stop,
    semi: Stop,
    full: Stop,
    earliest: Stop,
}

impl Stops {
    /// Goes through a stage before which at most earliest has stopped. Full stops at
    /// earliest's stop or after it. Semi rejects with full, and accepts with
    /// uncurtailed.
    fn in_stage(&mut self, plan: &Plan, i: usize, run: &Run) {
        let stage = &plan.stages()[i];
        let full = |counts| full(stage, counts);
        if self.earliest.state == UNDECIDED {
            let limits = plan.limits(i);
            self.earliest = run.after(run.before, |counts| limits.state(counts));
            self.full = run.from(self.earliest.counts, full);
        } else {
            self.full = run.after(run.before, full);
        }
        if self.full.state == REJECTED {
            self.semi = self.full;
        }
        let (counts, state) = (run.after, full(run.after));
        if counts.units == stage.end && state != UNDECIDED {
            self.uncurtailed = Stop { counts, state };
            if state == ACCEPTED {
                self.semi = self.uncurtailed;
            }
        }
    }

    fn numbers(&self, plan: &Plan) -> [u32; 9] {
        let ways = [self.uncurtailed, self.semi, self.full, self.earliest];
        let [u, s, f, e] = ways.map(|stop| [stop.counts.units, stop.state]);
        let event = match plan.stages() {
            [stage] if self.full.state != UNDECIDED => event(stage, self.full.counts),
            _ => 0,
        };
        [u[0], u[1], s[0], s[1], f[0], f[1], e[0], e[1], event]
    }
}

/// What full says within a stage, and at its end uncurtailed too.
fn full(stage: &Stage, counts: Counts) -> u32 {
    if counts.bad >= stage.r2 || counts.nongood >= stage.r1 {
        REJECTED
    } else if stage.accepting().met_by(counts) {
        ACCEPTED
    } else {
        UNDECIDED
    }
}

/// 01 "Lists, events, estimates", in its order.
fn event(stage: &Stage, counts: Counts) -> u32 {
    let (g1, g2) = (stage.end - stage.r1 + 1, stage.end - stage.r2 + 1);
    let [good, marginal, bad] = counts.classes();
    let apart = stage.r1 - stage.r2;
    match (good + marginal == g2, good == g1, bad == stage.r2) {
        (true, _, _) if good > g1 => 1,
        (_, true, _) if marginal > apart => 2,
        (true, true, _) => 3,
        (_, _, true) if marginal < apart => 4,
        (_, _, true) if marginal == apart => 6,
        _ => 5,
    }
}
