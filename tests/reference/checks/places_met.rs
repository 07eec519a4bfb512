//! The places that lists meet, as texts: where the ways stop and where the lists end. For
//! stop_coverage.rs.

use crate::generators::stop_places::PART;
use crate::lines::plan_lines::Case;
use crate::model::class::HIGHEST;
use crate::model::earliest::Stop;
use crate::model::plan::{Counts, Plan, Stage, BAD, NONGOOD, REJECTED};
use crate::model::plan_calls::PlanCalls;
use std::collections::{BTreeSet, HashSet};

pub type Places = BTreeSet<String>;

pub const WAYS: [&str; 4] = ["uncurtailed", "semi", "full", "earliest"];

/// What a way does, by its state.
pub const DOES: [&str; 3] = ["goes on", "accepts", "rejects"];

/// Places of a class above the highest.
pub const REFUSED_AT: [&str; 4] = [
    "last in the list",
    "after S units",
    "first of a run",
    "last of a run",
];

/// Lists under plans, and the places of those judged so far.
struct Met {
    lists: HashSet<(Vec<u8>, Vec<u32>)>,
    places: Places,
}

/// The places of case lines that judge a list.
pub fn met(lines: &[String]) -> Result<Places, String> {
    let mut cases = Vec::new();
    for line in lines {
        match Case::parse(line)? {
            Case::Judged(list, words) => cases.push((list, words)),
            _ => return Err(format!("not a list: {line}")),
        }
    }
    let mut calls = PlanCalls::default();
    let mut met = Met {
        lists: cases.iter().cloned().collect(),
        places: Places::new(),
    };
    for (list, words) in cases {
        let plan = Plan::admitted(&words).ok_or(format!("{words:?} should be admitted"))?;
        // A refused list is read up to the class that is too high, which is to be behind
        // full's stop.
        let read = list.iter().position(|&class| class > HIGHEST);
        let read = read.unwrap_or(list.len());
        let stops = match calls.judge(&list[..read], &words) {
            Ok(judgement) => judgement.stops,
            Err(number) => return Err(format!("{list:?} is refused by {number}")),
        };
        if read < list.len() {
            if stops[2].is_some() {
                met.refusal(&list, &plan, read);
            }
            continue;
        }
        met.stops(&list, &words, &plan, stops);
        met.end(&list, &plan, stops);
        met.sooner(&list, &plan, stops);
        met.rejection(&list, &plan, stops[2]);
    }
    Ok(met.places)
}

/// The stage of a unit: its number from 0, and its first unit's number less 1.
pub fn stage_of(plan: &Plan, unit: usize) -> (usize, usize) {
    let ends = plan.stages.iter().map(|stage| stage.end as usize);
    let i = ends.filter(|&end| end < unit).count();
    let Stage { end, size, .. } = plan.stages[i];
    (i, (end - size) as usize)
}

/// Which of k stages this one is, from 0.
pub fn order(stage: usize, k: usize) -> &'static str {
    match stage {
        0 => "first",
        _ if stage + 1 == k => "last",
        _ => "middle",
    }
}

/// Which unit of its stage this one is.
fn order_of_unit(unit: usize, size: usize) -> &'static str {
    match unit {
        1 => "first",
        2 => "second",
        _ if unit == size => "last",
        _ if unit + 1 == size => "last but one",
        _ => "other",
    }
}

impl Met {
    fn add(&mut self, place: String) {
        self.places.insert(place);
    }

    /// Where each way stops, and how many classes follow. A list that ends one class
    /// before the stop is met if it is among the lists.
    fn stops(&mut self, list: &[u8], words: &[u32], plan: &Plan, stops: [Stop; 4]) {
        let k = plan.stages.len();
        for (way, stop) in WAYS.into_iter().zip(stops) {
            let Some((y, state)) = stop else { continue };
            let does = format!("{way} {}", DOES[usize::from(state)]);
            let (i, begin) = stage_of(plan, y);
            let (unit, size) = (y - begin, plan.stages[i].size);
            let stage = order(i, k);
            let of = if k == 1 { "one stage" } else { "a later stage" };
            if k == 1 || i > 0 {
                self.add(format!("{does} at unit {unit} of {of}"));
            }
            self.add(format!("{does} at unit {unit} of {size}, {stage} of {k}"));
            let after = match list.len() - y {
                after @ (0 | 1) => after.to_string(),
                1000.. => "1000 or more".to_string(),
                _ => "some".to_string(),
            };
            self.add(format!("{does}, {after} classes after"));
            let one_less = (list[..y - 1].to_vec(), words.to_vec());
            if self.lists.contains(&one_less) {
                self.add(format!("{does}, and a list ends before"));
            }
        }
    }

    /// Where the list ends, by stages and by runs, and whether full and uncurtailed have
    /// stopped.
    fn end(&mut self, list: &[u8], plan: &Plan, stops: [Stop; 4]) {
        let [uncurtailed, _, full, _] = stops;
        let length = list.len();
        let state = full.map_or(0, |(_, state)| state);
        let does = format!("full {}", DOES[usize::from(state)]);
        if length < 2 {
            self.add(format!("a list of {length}"));
        }
        if uncurtailed.is_none() {
            self.add(format!("{does}, uncurtailed goes on"));
        }
        for end in plan.stages.iter().map(|stage| stage.end as usize) {
            if (end - 1..=end + 1).contains(&length) {
                let after = length as i64 - end as i64;
                let last = end == plan.units();
                self.add(format!("{does}, {after} from a stage's end, last {last}"));
            }
        }
        if (1..=plan.units()).contains(&length) {
            let (_, begin) = stage_of(plan, length);
            self.add(format!("{does}, the list ends at unit {}", length - begin));
        }
    }

    /// Where earliest stops before full.
    fn sooner(&mut self, list: &[u8], plan: &Plan, [.., full, earliest]: [Stop; 4]) {
        let Some((y, _)) = earliest else { return };
        let Some((full, _)) = full else {
            let after = (list.len() - y).min(2);
            return self.add(format!("earliest stops alone, {after} classes after"));
        };
        if full == y {
            return;
        }
        let (i, begin) = stage_of(plan, y);
        let Stage { size, a, .. } = &plan.stages[i];
        let unit = order_of_unit(y - begin, *size as usize);
        let apart = (stage_of(plan, full).0 - i).min(2);
        let marked = a.is_none();
        self.add(format!("sooner at {y}"));
        self.add(format!("sooner by {}", full - y));
        self.add(format!(
            "sooner by {apart} stages, {unit} unit, marked {marked}"
        ));
    }

    /// The nongood units without which full would not reject where it does.
    fn rejection(&mut self, list: &[u8], plan: &Plan, full: Stop) {
        let Some((y, REJECTED)) = full else { return };
        let (i, begin) = stage_of(plan, y);
        let r = plan.stages[i].r;
        let counts = Counts::of(&list[..y]);
        let by_bad = counts.bad == r[BAD] && counts.nongood < r[NONGOOD];
        let by_nongood = counts.nongood == r[NONGOOD] && counts.bad < r[BAD];
        for (at, &class) in list[begin..y].iter().enumerate() {
            if by_bad && class == 2 || by_nongood && class == 1 {
                self.add(format!("class {class} at unit {} rejects", at + 1));
            }
        }
    }

    /// Where the class above the highest stands that has the list refused.
    fn refusal(&mut self, list: &[u8], plan: &Plan, at: usize) {
        let class = list[at];
        let holds = [
            at + 1 == list.len(),
            at == plan.units(),
            at % PART == 0,
            at % PART == PART - 1,
        ];
        for (place, holds) in REFUSED_AT.into_iter().zip(holds) {
            if holds {
                self.add(format!("class {class} refused, {place}"));
            }
        }
    }
}
