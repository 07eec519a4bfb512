//! Whether the cases on expected units (02, change 6) meet the places that they are for:
//! which plans, weights and lengths of the scratch they have, what refuses them, and where
//! lots stop. One that is wanted and that no line meets is an error.

use super::places_met::{order, stage_of, Places, DOES};
use crate::generators::hand_written::{A, B, LARGEST, UNIT};
use crate::generators::known_units::rows;
use crate::generators::marked_plans::{INSIDE, LARGEST_MARKED, PUBLISHED};
use crate::generators::plan_cases;
use crate::lines::plan_lines::Case;
use crate::model::chance::{needed, sum, MOST_WEIGHT};
use crate::model::earliest::Table;
use crate::model::expected_units::bounds;
use crate::model::plan::{Counts, Plan, BOTH, MARK, NONGOOD, STAGE_WORDS};
use crate::model::plan_calls::ChanceCall;
use std::collections::HashSet;

/// The kinds of lines, and how many there are at least.
const KINDS: [(&str, usize); 2] = [("u", 480), ("v", 240)];

/// Gives the number of lines and of places that are wanted of them.
pub fn run() -> Result<[usize; 2], String> {
    let (mut met, mut counted) = ([Places::new(), Places::new()], [0, 0]);
    for line in plan_cases::all() {
        let (kind, call) = match Case::parse(&line)? {
            Case::ExpectedUnits(call) => (0, call),
            Case::ExpectedUnitsChart(call) => (1, call),
            _ => continue,
        };
        counted[kind] += 1;
        met[kind].extend(places_of(&call));
    }
    let wanted = wanted();
    for (((kind, least), met), count) in KINDS.into_iter().zip(met).zip(counted) {
        let missing: Vec<&String> = wanted.difference(&met).collect();
        if !missing.is_empty() || count < least {
            return Err(format!(
                "{count} lines of kind {kind} of at least {least}, none has {missing:#?}"
            ));
        }
    }
    Ok([counted.iter().sum(), KINDS.len() * wanted.len()])
}

const CLASSES: [&str; 3] = ["good", "marginal", "bad"];

/// The refusals that apply together.
const REFUSALS: [&[u32]; 7] = [
    &[2],
    &[13],
    &[14],
    &[2, 13],
    &[2, 14],
    &[13, 14],
    &[2, 13, 14],
];

/// Lengths of the scratch, with the refusals of a call that has nothing else against it.
const SCRATCHES: [(&str, &[u32]); 4] = [
    ("none", &[14]),
    ("one word too few", &[14]),
    ("exactly enough", &[]),
    ("more", &[]),
];

/// Alike sums of weights.
const SUMS: [(u64, &[u32]); 4] = [
    (0, &[13]),
    (1, &[]),
    (MOST_WEIGHT, &[]),
    (MOST_WEIGHT + 1, &[13]),
];

fn wanted() -> Places {
    let mut wanted = Places::new();
    wanted.extend(REFUSALS.map(|numbers| format!("refused by {numbers:?}")));
    wanted.extend(SCRATCHES.map(|(is, numbers)| format!("scratch: {is}, refused by {numbers:?}")));
    wanted.extend(SUMS.map(|(whole, numbers)| format!("W = {whole}, refused by {numbers:?}")));
    wanted.insert("W past 2^32".to_string());
    wanted.insert("W past 2^32, wrapped within limits".to_string());
    for class in CLASSES {
        wanted.extend(["alone", "missing"].map(|is| format!("{class} {is}")));
    }
    wanted.insert("all classes".to_string());
    wanted.extend([1, 1000].map(|units| format!("S = {units}")));
    wanted.insert("r1 = 60".to_string());
    wanted.extend((1..=7).map(|k| format!("k = {k}")));
    wanted.extend((0..=6).map(|marked| format!("{marked} marked")));
    wanted.extend(known_plans().map(|words| format!("plan {words:?}")));
    wanted.extend(rows().map(|row| format!("plan {:?} with {:?}", row.words(), row.weights)));
    wanted.extend([true, false].map(|equal| format!("low = high: {equal}")));
    wanted.extend(wanted_stops());
    wanted
}

fn known_plans() -> impl Iterator<Item = &'static [u32]> {
    let plans = [UNIT, A, B, INSIDE, PUBLISHED];
    plans.into_iter().chain(LARGEST).chain(LARGEST_MARKED)
}

/// Both verdicts inside of each stage and at its end. A marked stage is never the last.
fn wanted_stops() -> Places {
    let mut wanted = Places::new();
    for does in &DOES[1..] {
        for place in ["inside", "at the end"] {
            let stages = ["first", "middle", "last"].map(|stage| format!("the {stage} stage"));
            wanted.extend(stages.map(|stage| format!("{does} {place} of {stage}")));
            wanted.insert(format!("{does} {place} of a marked stage"));
            wanted.insert(format!("{does} {place} of one stage"));
        }
    }
    wanted
}

fn places_of(call: &ChanceCall) -> Places {
    let mut places = Places::new();
    let numbers = refusals(call);
    places.insert(format!("refused by {numbers:?}"));
    let whole = sum(call.weights);
    places.insert(format!("W = {whole}, refused by {numbers:?}"));
    if whole > u64::from(u32::MAX) {
        places.insert("W past 2^32".to_string());
        if (1..=MOST_WEIGHT).contains(&(whole % (1 << 32))) {
            places.insert("W past 2^32, wrapped within limits".to_string());
        }
    }
    let Some(plan) = Plan::admitted(&call.words) else {
        return places;
    };
    places.extend(scratch(call, &plan).map(|is| format!("scratch: {is}, refused by {numbers:?}")));
    if numbers.is_empty() {
        places.insert(classes(call));
        places.extend(places_of_plan(call, &plan));
        if plan.units() <= MOST_FOLLOWED {
            places.extend(stops(call, &plan));
        }
    }
    places
}

/// All that apply. The scratch of words that are no plan is short if it is empty or less
/// than a plan with these last numbers needs.
fn refusals(call: &ChanceCall) -> Vec<u32> {
    let plan = Plan::admitted(&call.words);
    let last = call.words.rchunks(STAGE_WORDS).next().unwrap_or(&[]);
    let needed = match (&plan, last) {
        (Some(plan), _) => needed(plan),
        (None, &[_, _, r1, _, r2]) => 2 * u64::from(r1) * u64::from(r2),
        _ => 1,
    };
    let applies = [
        (2, plan.is_none()),
        (13, !(1..=MOST_WEIGHT).contains(&sum(call.weights))),
        (14, u64::from(call.scratch) < needed),
    ];
    let applying = applies.into_iter().filter(|&(_, applies)| applies);
    applying.map(|(number, _)| number).collect()
}

fn scratch(call: &ChanceCall, plan: &Plan) -> Option<&'static str> {
    let (length, exact) = (u64::from(call.scratch), needed(plan));
    let holds = [
        length == 0,
        length + 1 == exact,
        length == exact,
        length > exact,
    ];
    let mut those = SCRATCHES.into_iter().zip(holds);
    those.find(|&(_, holds)| holds).map(|((is, _), _)| is)
}

/// Which classes weigh 0.
fn classes(call: &ChanceCall) -> String {
    match call.weights {
        [_, 0, 0] => "good alone".to_string(),
        [0, _, 0] => "marginal alone".to_string(),
        [0, 0, _] => "bad alone".to_string(),
        weights => match weights.iter().position(|&weight| weight == 0) {
            Some(class) => format!("{} missing", CLASSES[class]),
            None => "all classes".to_string(),
        },
    }
}

fn places_of_plan(call: &ChanceCall, plan: &Plan) -> [String; 6] {
    let (words, weights) = (&call.words, call.weights);
    let stages = words.chunks(STAGE_WORDS);
    let marked = stages.filter(|stage| stage[1] == MARK).count();
    [
        format!("S = {}", plan.units()),
        format!("r1 = {}", plan.last().r[NONGOOD]),
        format!("k = {}", plan.stages.len()),
        format!("{marked} marked"),
        format!("plan {words:?}"),
        format!("plan {words:?} with {weights:?}"),
    ]
}

/// The most units of a plan whose stops are followed here.
const MOST_FOLLOWED: usize = 100;

/// Where lots of the classes that have a weight stop, and whether low is high.
fn stops(call: &ChanceCall, plan: &Plan) -> Places {
    let table = Table::new(plan);
    let [low, high] = bounds(plan, &table, call.weights);
    let mut places = Places::from([format!("low = high: {}", low == high)]);
    let weighed = (0..3).filter(|&class| call.weights[usize::from(class)] > 0);
    let weighed: Vec<u8> = weighed.collect();
    let mut undecided = HashSet::from([(0, 0)]);
    for y in 1..=plan.units() {
        for (nongood, bad) in std::mem::take(&mut undecided) {
            for &class in &weighed {
                let after = Counts { nongood, bad }.after(class);
                match table.at(y, after) {
                    BOTH => {
                        undecided.insert((after.nongood, after.bad));
                    }
                    verdict => places.extend(places_of_stop(plan, y, verdict)),
                }
            }
        }
    }
    places
}

fn places_of_stop(plan: &Plan, y: usize, verdict: u8) -> Vec<String> {
    let does = DOES[usize::from(verdict)];
    let (stage, begin) = stage_of(plan, y);
    let at_end = begin as u64 + plan.stages[stage].size == y as u64;
    let place = if at_end { "at the end" } else { "inside" };
    let k = plan.stages.len();
    let of = match k {
        1 => "one".to_string(),
        _ => format!("the {}", order(stage, k)),
    };
    let mut places = vec![format!("{does} {place} of {of} stage")];
    if plan.stages[stage].a.is_none() {
        places.push(format!("{does} {place} of a marked stage"));
    }
    places
}
