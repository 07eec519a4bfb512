//! What the seeded cases cover, so that one can see that they are telling.

use crate::generators::{plan_cases, sheet_cases};
use crate::lines::plan_lines::Case;
use crate::lines::sheet_lines::{Command, Sheets};
use crate::model::chance::{Bounds, Weights, UNITS};
use crate::model::class::BLANK;
use crate::model::earliest::{few_completions, Stop, Table};
use crate::model::judge::Judgement;
use crate::model::lot_chance::{self, Lot};
use crate::model::plan::{broken, Counts, Plan, BOTH, STAGE_WORDS};
use crate::model::plan_calls::PlanCalls;
use crate::model::Reply;
use std::collections::{BTreeMap, HashSet};

/// Counts by a text that says what is counted.
type Tally = BTreeMap<String, usize>;

pub fn write() -> Result<(), String> {
    let lines = plan_cases::all();
    let mut calls = PlanCalls::default();
    let mut tally = Tally::new();
    for line in &lines {
        case(&mut tally, &mut calls, Case::parse(line)?);
    }
    print(&lines, tally);
    sheets()
}

fn print(lines: &[String], tally: Tally) {
    let bytes: usize = lines.iter().map(|line| line.len() + 1).sum();
    eprintln!("{} lines, {bytes} bytes", lines.len());
    for (what, count) in tally {
        eprintln!("{count:6}  {what}");
    }
}

/// The calls on sheets by their replies.
fn sheets() -> Result<(), String> {
    let lines = sheet_cases::all();
    let mut sheets = Sheets::default();
    let mut tally = Tally::new();
    for line in &lines {
        let sheet = &mut sheets.sheet;
        let (name, refusal) = match Command::parse(line)? {
            Command::Write(write) => {
                write.make(&mut sheet.words);
                continue;
            }
            Command::Exchange => {
                sheets.exchange();
                continue;
            }
            Command::Call(call) => (call.name(), call.make(sheet).err()),
            Command::Carry(shares) => ("carry", sheet.carry(&sheets.aside, &shares).err()),
        };
        match refusal {
            None => count(&mut tally, format!("{name}: granted")),
            Some(number) => refused(&mut tally, name, number),
        }
    }
    print(&lines, tally);
    Ok(())
}

fn case(tally: &mut Tally, calls: &mut PlanCalls, case: Case) {
    match case {
        Case::Admission(words) => admission(tally, &words),
        Case::Judged(list, words) => match calls.judge(&list, &words) {
            Ok(judgement) => judged(tally, &list, &words, &judgement),
            Err(number) => refused(tally, "j", number),
        },
        Case::Chance(call) => match calls.chance(&call) {
            Ok(bounds) => {
                weights(tally, "c", call.weights);
                chance(tally, "c", &call.words, bounds)
            }
            Err(number) => refused(tally, "c", number),
        },
        Case::Chart(call) => chart(tally, "f", calls.chance(&call)),
        Case::LotChance(call) => match calls.lot_chance(&call) {
            Ok(bounds) => {
                lot(tally, call.lot, &call.words);
                chance(tally, "l", &call.words, bounds)
            }
            Err(number) => refused(tally, "l", number),
        },
        Case::ExpectedUnits(call) => match calls.expected_units(&call) {
            Ok(bounds) => {
                weights(tally, "u", call.weights);
                width(tally, "u", &call.words, bounds)
            }
            Err(number) => refused(tally, "u", number),
        },
        Case::ExpectedUnitsChart(call) => chart(tally, "v", calls.expected_units(&call)),
    }
}

fn count(tally: &mut Tally, what: String) {
    *tally.entry(what).or_default() += 1;
}

fn refused(tally: &mut Tally, kind: &str, number: u32) {
    count(tally, format!("{kind}: refused {number}"));
}

fn chart(tally: &mut Tally, kind: &str, reply: Reply<Bounds>) {
    match reply {
        Ok(_) => count(tally, format!("{kind}: floats")),
        Err(number) => refused(tally, kind, number),
    }
}

fn admission(tally: &mut Tally, words: &[u32]) {
    let mut rules = broken(words);
    rules.dedup();
    match Plan::admitted(words) {
        Some(plan) => admitted(tally, &plan),
        None => count(tally, "a: not admitted".to_string()),
    }
    for rule in &rules {
        let others = if rules.len() == 1 {
            "alone"
        } else {
            "with others"
        };
        count(tally, format!("a: breaks {others}: {rule}"));
    }
}

fn admitted(tally: &mut Tally, plan: &Plan) {
    let k = plan.stages.len();
    count(tally, format!("a: admitted, k = {k}"));
    let marked = plan.stages.iter().filter(|stage| stage.a.is_none()).count();
    if marked > 0 {
        count(tally, format!("a: admitted, {marked} of {k} stages marked"));
    }
}

fn judged(tally: &mut Tally, list: &[u8], words: &[u32], judgement: &Judgement) {
    let [_, semi, full, earliest] = judgement.stops;
    count(tally, format!("j: event {}", judgement.event));
    if full != earliest {
        count(tally, "j: full and earliest differ".to_string());
    }
    if semi != full {
        count(tally, "j: semi and full differ".to_string());
    }
    if list.contains(&BLANK) {
        count(tally, "j: list with blanks".to_string());
    }
    let plan = Plan::admitted(words).expect("a plan that is not admitted is refused");
    stop(tally, list, &plan, earliest);
}

fn stop(tally: &mut Tally, list: &[u8], plan: &Plan, stop: Stop) {
    let units = plan.units();
    let size = match units {
        0..=10 => "S to 10",
        11..=99 => "S 11 to 99",
        _ => "S from 100",
    };
    count(tally, format!("j: {size}"));
    if list.len() > units {
        count(tally, "j: list longer than S".to_string());
    }
    let Some((y, state)) = stop else {
        return count(tally, format!("j: undecided, {size}"));
    };
    let verdict = ["undecided", "accepted", "rejected"][usize::from(state)];
    let ends: Vec<usize> = plan.stages.iter().map(|stage| stage.end as usize).collect();
    let stage = 1 + ends.iter().filter(|&&end| end < y).count();
    count(tally, format!("j: {verdict}, {size}"));
    count(
        tally,
        format!("j: {verdict} in stage {stage} of {}", ends.len()),
    );
    if list[y - 1] == BLANK {
        count(tally, format!("j: {verdict} on a blank"));
    }
    if plan.stages[stage - 1].a.is_none() {
        count(tally, format!("j: {verdict} in a marked stage"));
    }
    if ends.contains(&y) {
        count(tally, format!("j: {verdict} at a stage end, {size}"));
    }
    if few_completions(units, y) {
        count(tally, format!("j: stop also by completions, {size}"));
    }
}

/// Low and high of a chance.
fn chance(tally: &mut Tally, kind: &str, words: &[u32], bounds: Bounds) {
    width(tally, kind, words, bounds);
    let [low, high] = bounds;
    if low > UNITS / 100 && high < UNITS / 100 * 99 {
        count(tally, format!("{kind}: chance from 0.01 to 0.99"));
    }
}

/// Low and high of a line of this kind.
fn width(tally: &mut Tally, kind: &str, words: &[u32], [low, high]: Bounds) {
    count(tally, format!("{kind}: k = {}", words.len() / STAGE_WORDS));
    let size = match high - low {
        0 => "low = high",
        1..=9 => "high - low to 9",
        _ => "high - low from 10",
    };
    count(tally, format!("{kind}: {size}"));
}

fn weights(tally: &mut Tally, kind: &str, weights: Weights) {
    let zeros = zeros(weights);
    count(tally, format!("{kind}: {zeros} weights of 0"));
}

fn zeros(numbers: [u32; 3]) -> usize {
    numbers.iter().filter(|&&number| number == 0).count()
}

fn lot(tally: &mut Tally, lot: Lot, words: &[u32]) {
    count(tally, format!("l: {} classes without a unit", zeros(lot)));
    let plan = Plan::admitted(words).expect("a plan that is not admitted is refused");
    let size = match lot_chance::units(lot) - plan.units() as u64 {
        0 => "a lot of S units",
        1..=9 => "a lot of up to S + 9 units",
        10..=999 => "a lot of up to S + 999 units",
        _ => "a lot of S + 1000 units or more",
    };
    count(tally, format!("l: {size}"));
    for class in used_up(&plan, lot) {
        count(tally, format!("l: class {class} used up while undecided"));
    }
}

/// The classes of which a draw may take the last unit and be undecided then.
fn used_up(plan: &Plan, lot: Lot) -> Vec<usize> {
    let table = Table::new(plan);
    let mut used_up = [false; 3];
    let mut reached = HashSet::from([[0; 3]]);
    for y in 0..plan.units() {
        let undecided = |&[_, marginal, bad]: &Lot| {
            let [nongood, bad] = [marginal + bad, bad].map(u64::from);
            table.at(y, Counts { nongood, bad }) == BOTH
        };
        reached.retain(undecided);
        for drawn in std::mem::take(&mut reached) {
            for class in 0..3 {
                let mut after = drawn;
                after[class] += 1;
                if drawn[class] < lot[class] {
                    reached.insert(after);
                } else {
                    used_up[class] |= lot[class] > 0;
                }
            }
        }
    }
    (0..3).filter(|&class| used_up[class]).collect()
}
