//! A plan's rules, and the numbers by which the earliest stop comes in a stage.

use std::ops::Range;

pub const UNDECIDED: u32 = 0;
pub const ACCEPTED: u32 = 1;
pub const REJECTED: u32 = 2;

/// Words of a stage, and the most stages.
pub const STAGE_WORDS: usize = 5;
pub const MOST_STAGES: usize = 7;

/// Both a1 and a2 of a stage where acceptance is not permitted: 4,294,967,295 as a signed
/// word. With it the rules on a ask of such a stage what they should: a + 1 < r is r >= 1,
/// as a never falls such stages come first, and as it rises to the last stage that is none.
/// Such a stage does not accept, because end - a is more than its units.
const NOT_PERMITTED: i32 = -1;

#[derive(Clone, Copy, Default)]
pub struct Stage {
    pub end: u32,
    pub a1: i32,
    pub r1: u32,
    pub a2: i32,
    pub r2: u32,
}

impl Stage {
    /// What the first stage follows: no unit, and as yet no acceptance.
    const NONE: Stage = Stage {
        end: 0,
        a1: NOT_PERMITTED,
        r1: 0,
        a2: NOT_PERMITTED,
        r2: 0,
    };

    /// The good and nonbad units from which on it accepts.
    pub fn accepting(&self) -> Pair {
        let end = self.end as i32;
        Pair {
            good: (end - self.a1) as u32,
            nonbad: (end - self.a2) as u32,
        }
    }
}

#[derive(Clone, Copy, Default)]
pub struct Counts {
    pub units: u32,
    pub nongood: u32,
    pub bad: u32,
}

impl Counts {
    pub fn plus(self, other: Counts) -> Counts {
        Counts {
            units: self.units + other.units,
            nongood: self.nongood + other.nongood,
            bad: self.bad + other.bad,
        }
    }

    pub fn good(self) -> u32 {
        self.units - self.nongood
    }

    pub fn nonbad(self) -> u32 {
        self.units - self.bad
    }

    /// Good, marginal with the blank ones, and bad.
    pub fn classes(self) -> [u32; 3] {
        [self.good(), self.nongood - self.bad, self.bad]
    }
}

/// An admitted plan.
pub struct Plan {
    stages: [Stage; MOST_STAGES],
    k: usize,
}

impl Plan {
    /// Inlined, so that fresh, which asks no more than this, builds no plan.
    #[inline(always)]
    pub fn admitted(words: &[u32]) -> Option<Plan> {
        let (chunks, rest) = words.as_chunks::<STAGE_WORDS>();
        let k = chunks.len();
        if !rest.is_empty() || !(1..=MOST_STAGES).contains(&k) {
            return None;
        }
        let mut stages = [Stage::default(); MOST_STAGES];
        let mut before = Stage::NONE;
        for (i, &[n, a1, r1, a2, r2]) in chunks.iter().enumerate() {
            if n == 0 || n > 1000 - before.end {
                return None;
            }
            let end = before.end + n;
            let stage = Stage {
                end,
                a1: a1 as i32,
                r1,
                a2: a2 as i32,
                r2,
            };
            if !follows(&before, &stage, i + 1 == k) {
                return None;
            }
            stages[i] = stage;
            before = stage;
        }
        (before.r1 <= 60 && before.r1 <= before.end).then_some(Plan { stages, k })
    }

    pub fn stages(&self) -> &[Stage] {
        &self.stages[..self.k]
    }

    pub fn last(&self) -> &Stage {
        &self.stages[self.k - 1]
    }

    /// The numbers that decide while a stage is the current one.
    pub fn limits(&self, stage: usize) -> Limits {
        let rest = &self.stages()[stage..];
        let mut limits = Limits {
            r1: rest[0].r1,
            r2: rest[0].r2,
            ..Limits::default()
        };
        let mut passing = Pair::default();
        for stage in rest {
            limits.add(passing.and(stage.accepting()));
            let more = stage.end + 1;
            passing = passing.and(Pair {
                good: more.saturating_sub(stage.r1),
                nonbad: more.saturating_sub(stage.r2),
            });
        }
        limits
    }
}

/// The rules on one stage after another; the row of r2 follows that of r1.
fn follows(before: &Stage, stage: &Stage, last: bool) -> bool {
    let rise = i32::from(last);
    stage.a1 >= before.a1 + rise
        && stage.a2 >= before.a2 + rise
        && stage.r1 >= before.r1
        && stage.r2 >= before.r2
        && apart(stage.a1, stage.r1, last)
        && apart(stage.a2, stage.r2, last)
        && stage.a2 <= stage.a1
        && stage.r2 <= stage.r1
        && stage.a1 < stage.end as i32
        && (stage.a1 == NOT_PERMITTED || stage.a2 != NOT_PERMITTED)
}

fn apart(a: i32, r: u32, last: bool) -> bool {
    let next = i64::from(a) + 1;
    let r = i64::from(r);
    if last {
        next == r
    } else {
        next < r
    }
}

/// Good and nonbad units.
#[derive(Clone, Copy, Default)]
pub struct Pair {
    good: u32,
    nonbad: u32,
}

impl Pair {
    /// At least these numbers too.
    fn and(self, other: Pair) -> Pair {
        Pair {
            good: self.good.max(other.good),
            nonbad: self.nonbad.max(other.nonbad),
        }
    }

    pub fn met_by(self, counts: Counts) -> bool {
        counts.good() >= self.good && counts.nonbad() >= self.nonbad
    }
}

/// When all completions have one verdict, one stage being the current one.
///
/// If all further units are good the counts stay, and r never falls: the plan
/// rejects at the end of this stage or never. If all are bad, it accepts at some
/// stage exactly if the good and nonbad units so far reach that stage's numbers,
/// and those by which no stage before it rejects.
#[derive(Clone, Copy, Default)]
pub struct Limits {
    pub r1: u32,
    pub r2: u32,
    pairs: [Pair; MOST_STAGES],
    length: usize,
}

impl Limits {
    /// Adds a pair, unless one that is met with it is there.
    fn add(&mut self, pair: Pair) {
        let known = |it: &Pair| it.good <= pair.good && it.nonbad <= pair.nonbad;
        if !self.pairs().iter().any(known) {
            self.pairs[self.length] = pair;
            self.length += 1;
        }
    }

    fn pairs(&self) -> &[Pair] {
        &self.pairs[..self.length]
    }

    pub fn state(&self, counts: Counts) -> u32 {
        if counts.bad >= self.r2 || counts.nongood >= self.r1 {
            return REJECTED;
        }
        let accepts = self.pairs().iter().any(|pair| pair.met_by(counts));
        u32::from(accepts) * ACCEPTED
    }

    /// The numbers of bad units, up to a limit, with which y units with so many nongood
    /// ones go on. With fewer they are accepted, with more rejected.
    pub fn going_on(&self, units: u32, nongood: u32, limit: usize) -> Range<usize> {
        if nongood >= self.r1 {
            return 0..0;
        }
        let end = limit.min(self.r2 as usize);
        let good = units - nongood;
        let met = self.pairs().iter().filter(|pair| good >= pair.good);
        let accepted = met.map(|pair| (units + 1).saturating_sub(pair.nonbad));
        end.min(accepted.max().unwrap_or(0) as usize)..end
    }
}
