//! 01 "Plan": which plans are admitted. 01 "Four ways to stop": uncurtailed.
//! 02, change 1: stages at which acceptance is not permitted, called marked.

use super::class::{self, is_nongood};

/// The two rows of a plan, as indices of `Stage::a` and `Stage::r`.
pub const NONGOOD: usize = 0;
pub const BAD: usize = 1;

/// Words of a stage, in the order n a1 r1 a2 r2 (01 "Sheet").
pub const STAGE_WORDS: usize = 5;

/// The greatest k, S and last r1 (01 "Plan").
pub const MOST_STAGES: usize = 7;
pub const MOST_UNITS: u64 = 1_000;
pub const MOST_R1: u64 = 60;

/// What a marked stage has as a1 and as a2 (02, change 1).
pub const MARK: u32 = 4_294_967_295;

/// Verdicts are look's states (01 "Sheet"). Each is one bit as well, so a set
/// of verdicts is the sum of its members.
pub const ACCEPTED: u8 = 1;
pub const REJECTED: u8 = 2;
pub const BOTH: u8 = ACCEPTED | REJECTED;

#[derive(Debug)]
pub struct Stage {
    pub size: u64,
    /// Si of 01, the sum of the sizes up to this stage.
    pub end: u64,
    /// None at a marked stage.
    pub a: Option<[u64; 2]>,
    pub r: [u64; 2],
}

/// An admitted plan.
#[derive(Debug)]
pub struct Plan {
    pub stages: Vec<Stage>,
}

#[derive(Clone, Copy, Default)]
pub struct Counts {
    pub nongood: u64,
    pub bad: u64,
}

impl Counts {
    pub fn of(classes: &[u8]) -> Counts {
        let none = Counts::default();
        classes
            .iter()
            .fold(none, |counts, &class| counts.after(class))
    }

    pub fn after(self, class: u8) -> Counts {
        Counts {
            nongood: self.nongood + u64::from(is_nongood(class)),
            bad: self.bad + u64::from(class == class::BAD),
        }
    }
}

impl Stage {
    /// Uncurtailed at y = Si; None is to go on (01 "Four ways to stop").
    pub fn verdict(&self, counts: Counts) -> Option<u8> {
        if counts.bad >= self.r[BAD] || counts.nongood >= self.r[NONGOOD] {
            return Some(REJECTED);
        }
        let a = self.a?;
        (counts.bad <= a[BAD] && counts.nongood <= a[NONGOOD]).then_some(ACCEPTED)
    }
}

impl Plan {
    pub fn admitted(words: &[u32]) -> Option<Plan> {
        let stages = stages(words)?;
        broken(words).is_empty().then_some(Plan { stages })
    }

    pub fn last(&self) -> &Stage {
        self.stages.last().expect("k is at least 1")
    }

    /// S of 01. It is at most 1,000, so it serves as an index.
    pub fn units(&self) -> usize {
        self.last().end as usize
    }

    /// The uncurtailed verdict of a complete sample: that of the first stage
    /// at whose end uncurtailed doesn't go on (01 "Sheet").
    pub fn uncurtailed(&self, sample: &[u8]) -> u8 {
        let mut verdicts = self.stages.iter().map(|stage| {
            let so_far = &sample[..stage.end as usize];
            stage.verdict(Counts::of(so_far))
        });
        // The last stage is not marked and has a + 1 = r in both rows, so it never
        // goes on.
        verdicts
            .find_map(|verdict| verdict)
            .expect("the last stage decides")
    }
}

/// Whether a run of so many words is 1 to 7 whole stages.
pub fn whole_stages(words: usize) -> bool {
    words % STAGE_WORDS == 0 && (1..=MOST_STAGES).contains(&(words / STAGE_WORDS))
}

/// The stages of a run of words; None if it isn't 1 to 7 whole stages. The
/// words are widened so that no sum of them wraps.
fn stages(words: &[u32]) -> Option<Vec<Stage>> {
    if !whole_stages(words.len()) {
        return None;
    }
    let mut end = 0;
    let read = words.chunks(STAGE_WORDS).map(|stage| {
        let word = |index: usize| u64::from(stage[index]);
        end += word(0);
        let marked = stage[1] == MARK && stage[3] == MARK;
        Stage {
            size: word(0),
            end,
            a: (!marked).then(|| [word(1), word(3)]),
            r: [word(2), word(4)],
        }
    });
    Some(read.collect())
}

/// The rules of 01 "Plan" and 02, change 1, that a run of words breaks; it is
/// admitted if there are none. A rule is named so that tests can say which one
/// they break.
pub fn broken(words: &[u32]) -> Vec<&'static str> {
    let Some(stages) = stages(words) else {
        return vec!["k from 1 to 7"];
    };
    let mut rules = rules_of_stages(&stages);
    rules.extend(rules_of_marks(&stages));
    for row in [NONGOOD, BAD] {
        rules.extend(rules_of_a(&stages, row));
        rules.extend(rules_of_r(&stages, row));
    }
    rules.retain(|&(_, holds)| !holds);
    rules.into_iter().map(|(rule, _)| rule).collect()
}

/// Rules as named, with whether they hold.
type Rules = Vec<(&'static str, bool)>;

fn rules_of_stages(stages: &[Stage]) -> Rules {
    let last = stages.last().expect("k is at least 1");
    let each = |holds: fn(&Stage) -> bool| stages.iter().all(holds);
    let a_in_order = |stage: &Stage| stage.a.is_none_or(|a| a[BAD] <= a[NONGOOD]);
    vec![
        ("each ni >= 1", each(|stage| stage.size >= 1)),
        ("S <= 1000", last.end <= MOST_UNITS),
        ("last r1 <= 60", last.r[NONGOOD] <= MOST_R1),
        ("a2 <= a1", each(a_in_order)),
        ("r2 <= r1", each(|stage| stage.r[BAD] <= stage.r[NONGOOD])),
    ]
}

/// The rules of 02, change 1.
fn rules_of_marks(stages: &[Stage]) -> Rules {
    let last = stages.last().expect("k is at least 1");
    let mut steps = stages.windows(2);
    let first = steps.all(|step| step[0].a.is_none() || step[1].a.is_some());
    let r_least = |stage: &Stage| stage.a.is_some() || stage.r.iter().all(|&r| r >= 1);
    vec![
        ("the last stage permits acceptance", last.a.is_some()),
        ("stages without acceptance stand first", first),
        (
            "r >= 1 where acceptance is not permitted",
            stages.iter().all(r_least),
        ),
    ]
}

/// The rules on a that 01 "Plan" sets "in each row". They skip marked stages,
/// though Si counts the units of those too. Unless another rule is broken the
/// last stage is not marked, so it is the last one left.
fn rules_of_a(stages: &[Stage], row: usize) -> Rules {
    let left: Vec<(u64, &Stage)> = stages
        .iter()
        .filter_map(|stage| stage.a.map(|a| (a[row], stage)))
        .collect();
    let Some((&(last_a, last), before)) = left.split_last() else {
        return vec![];
    };
    let never_falls = left.windows(2).all(|step| step[0].0 <= step[1].0);
    let rises_last = before.last().is_none_or(|&(a, _)| a < last_a);
    let apart_before_last = before.iter().all(|(a, stage)| a + 1 < stage.r[row]);
    vec![
        ("a never falls", never_falls),
        ("last step of a is a rise", rises_last),
        ("a + 1 < r before the last", apart_before_last),
        ("a + 1 = r at the last", last_a + 1 == last.r[row]),
        ("a < Si", left.iter().all(|&(a, stage)| a < stage.end)),
    ]
}

/// The rules on r that 01 "Plan" sets "in each row", marked stages included.
fn rules_of_r(stages: &[Stage], row: usize) -> Rules {
    let last = stages.last().expect("k is at least 1");
    let mut steps = stages.windows(2);
    let never_falls = steps.all(|step| step[0].r[row] <= step[1].r[row]);
    vec![
        ("r never falls", never_falls),
        ("last r <= S", last.r[row] <= last.end),
    ]
}
