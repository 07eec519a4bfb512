//! Whether the cases with blanks meet the places that they are for: where a blank decides
//! a list or a lot, and what becomes of it on a sheet. One that is wanted and that no line
//! meets is an error.

use super::places_met::{Places, DOES, WAYS};
use crate::generators::sheet_damage::is_class;
use crate::generators::stop_places::RUN_ENDS;
use crate::generators::{plan_cases, sheet_cases};
use crate::lines::plan_lines::Case;
use crate::lines::sheet_lines::{Command, Write};
use crate::model::chains::{intact, Lot, Plans};
use crate::model::class::{blanks, counts, BLANK, HIGHEST};
use crate::model::judge::Judgement;
use crate::model::layout::NEW;
use crate::model::plan::{Plan, REJECTED};
use crate::model::plan_calls::PlanCalls;
use crate::model::sheet::Sheet;
use crate::model::sheet_call::SheetCall;

/// Gives the number of lines and of places that are wanted of them.
pub fn run() -> Result<[usize; 2], String> {
    let (lists, calls) = (plan_cases::blanks(), sheet_cases::blanks());
    let mut met = places_of_lists(&lists)?;
    met.extend(places_of_calls(&calls)?);
    let mut wanted = wanted_of_lists();
    wanted.extend(wanted_of_calls());
    let missing: Vec<&String> = wanted.difference(&met).collect();
    if missing.is_empty() {
        Ok([lists.len() + calls.len(), wanted.len()])
    } else {
        Err(format!("no line with blanks has {missing:#?}"))
    }
}

/// Which stages a plan has that a blank decides in.
const STAGES: [&str; 3] = ["one stage", "several stages", "a marked stage"];

/// In a marked stage earliest alone may accept. The last units of events 2, 4 and 6 are
/// good or bad.
fn wanted_of_lists() -> Places {
    let mut wanted = Places::new();
    for way in WAYS {
        for does in &DOES[1..] {
            for stages in STAGES {
                if stages != STAGES[2] || *does == "rejects" || way == "earliest" {
                    wanted.insert(format!("{way} {does} on a blank in {stages}"));
                }
            }
        }
    }
    wanted.insert("earliest stops on a blank, full later".to_string());
    wanted.extend((1..=6).map(|event| format!("event {event} after a blank")));
    wanted.extend([1, 3, 5].map(|event| format!("event {event} on a blank")));
    wanted.extend(RUN_ENDS.map(|unit| format!("a blank at unit {unit} rejects")));
    for class in [HIGHEST + 1, 9] {
        wanted.extend(["", " and a stop"].map(|more| format!("{class} after a blank{more}")));
    }
    wanted
}

fn places_of_lists(lines: &[String]) -> Result<Places, String> {
    let mut places = Places::new();
    let mut calls = PlanCalls::default();
    for line in lines {
        let Case::Judged(list, words) = Case::parse(line)? else {
            return Err(format!("not a list: {line}"));
        };
        let read = list.iter().position(|&class| class > HIGHEST);
        let (read, refused) = list.split_at(read.unwrap_or(list.len()));
        let Ok(judgement) = calls.judge(read, &words) else {
            continue;
        };
        let plan = Plan::admitted(&words).ok_or(format!("{words:?} should be admitted"))?;
        match refused.first() {
            Some(class) if read.contains(&BLANK) => {
                let stop = judgement.stops[2].map_or("", |_| " and a stop");
                places.insert(format!("{class} after a blank{stop}"));
                places.insert(format!("{class} after a blank"));
            }
            Some(_) => {}
            None => places.extend(places_of_list(&list, &plan, &judgement)),
        }
    }
    Ok(places)
}

fn places_of_list(list: &[u8], plan: &Plan, judgement: &Judgement) -> Places {
    let mut places = Places::new();
    let [.., full, earliest] = judgement.stops;
    for (way, stop) in WAYS.into_iter().zip(judgement.stops) {
        let Some((y, state)) = stop.filter(|&(y, _)| list[y - 1] == BLANK) else {
            continue;
        };
        let ends = plan.stages.iter().map(|stage| stage.end as usize);
        let stage = ends.filter(|&end| end < y).count();
        let marked = plan.stages[stage].a.is_none();
        let stages = [plan.stages.len() == 1, plan.stages.len() > 1, marked];
        let does = DOES[usize::from(state)];
        for (stages, _) in STAGES.into_iter().zip(stages).filter(|&(_, holds)| holds) {
            places.insert(format!("{way} {does} on a blank in {stages}"));
        }
        if stage == 0 && state == REJECTED {
            places.insert(format!("a blank at unit {y} rejects"));
        }
        if way == "earliest" && full != earliest {
            places.insert("earliest stops on a blank, full later".to_string());
        }
    }
    if let Some((y, _)) = full {
        let event = judgement.event;
        if list[..y - 1].contains(&BLANK) {
            places.insert(format!("event {event} after a blank"));
        }
        if list[y - 1] == BLANK {
            places.insert(format!("event {event} on a blank"));
        }
    }
    places
}

/// Classes to refuse, as words.
const TOO_HIGH: [u32; 4] = [HIGHEST as u32 + 1, 255, 256, u32::MAX];

fn wanted_of_calls() -> Places {
    let mut wanted = Places::new();
    for state in ["undecided", "accepted", "rejected"] {
        wanted.insert(format!("inspect: a blank, then {state}"));
        wanted.insert(format!("strike: a blank of a lot {state}"));
        wanted.insert(format!("look: {state}, blanks alone are marginal"));
        wanted.insert(format!("look: {state}, blanks and others are marginal"));
    }
    for state in ["accepted", "rejected"] {
        wanted.insert(format!("close: {state} with blanks"));
        wanted.insert(format!("estimate: {state}, a blank before the last"));
        wanted.insert(format!("estimate: {state}, a blank last"));
    }
    wanted.extend([1, 3, 6, 8, 11].map(|number| format!("inspect: 3 refused {number}")));
    for class in TOO_HIGH {
        wanted.extend([1, 3, 6, 7].map(|number| format!("inspect: {class} refused {number}")));
        wanted.insert(format!("a class made {class}: corrupt"));
    }
    wanted.extend(["corrupt", "not corrupt"].map(|is| format!("a class made {BLANK}: {is}")));
    wanted
}

/// The lot of a number, if the sheet is not corrupt.
fn lot_of(sheet: &Sheet, plans: &mut Plans, number: u32) -> Option<Lot> {
    let chains = NEW
        .admits(sheet.words.len())
        .then(|| intact(&sheet.words, NEW, plans));
    let mut lots = chains.flatten()?.lots.into_iter();
    lots.find(|lot| lot.number == number)
}

fn places_of_calls(lines: &[String]) -> Result<Places, String> {
    let (mut sheet, mut plans) = (Sheet::default(), Plans::default());
    let (mut places, mut damage) = (Places::new(), None);
    for line in lines {
        match Command::parse(line)? {
            Command::Write(write) => {
                damage = class_made(&write, &sheet.words);
                write.make(&mut sheet.words);
            }
            Command::Call(call) => {
                let before = lot_called(&call).and_then(|lot| lot_of(&sheet, &mut plans, lot));
                let reply = call.make(&mut sheet);
                if let Some(class) = damage.take() {
                    let is = if reply == Err(3) {
                        "corrupt"
                    } else {
                        "not corrupt"
                    };
                    places.insert(format!("a class made {class}: {is}"));
                }
                let number = reply.err();
                let after = lot_called(&call).and_then(|lot| lot_of(&sheet, &mut plans, lot));
                places.extend(place_of_call(&call, number, before, after));
            }
            _ => return Err(format!("not on one sheet: {line}")),
        }
    }
    Ok(places)
}

/// The class that an inspection is given by a write.
fn class_made(write: &Write, words: &[u32]) -> Option<u32> {
    match *write {
        Write::Word { index, word } => is_class(words, index as usize).then_some(word),
        _ => None,
    }
}

fn lot_called(call: &SheetCall) -> Option<u32> {
    match *call {
        SheetCall::Inspect(lot, _) | SheetCall::Strike(lot) | SheetCall::Close(lot) => Some(lot),
        SheetCall::Look(lot) | SheetCall::Estimate(lot) => Some(lot),
        _ => None,
    }
}

/// What a call does with blanks: refused or not, and the lot before and after it.
fn place_of_call(
    call: &SheetCall,
    refused: Option<u32>,
    before: Option<Lot>,
    after: Option<Lot>,
) -> Option<String> {
    let state = |lot: &Lot| ["undecided", "accepted", "rejected"][usize::from(lot.state())];
    if let (SheetCall::Inspect(_, class), Some(number)) = (call, refused) {
        return Some(format!("inspect: {class} refused {number}"));
    }
    let before = before.filter(|_| refused.is_none())?;
    let (is, classes) = (state(&before), &before.classes);
    let others = counts(classes)[1] - blanks(classes);
    let last = classes.last() == Some(&BLANK);
    match *call {
        SheetCall::Inspect(_, 3) => Some(format!("inspect: a blank, then {}", state(&after?))),
        SheetCall::Strike(_) if last => Some(format!("strike: a blank of a lot {is}")),
        _ if blanks(classes) == 0 => None,
        SheetCall::Close(_) => Some(format!("close: {is} with blanks")),
        SheetCall::Look(_) if others == 0 => Some(format!("look: {is}, blanks alone are marginal")),
        SheetCall::Look(_) => Some(format!("look: {is}, blanks and others are marginal")),
        SheetCall::Estimate(_) if last => Some(format!("estimate: {is}, a blank last")),
        SheetCall::Estimate(_) => Some(format!("estimate: {is}, a blank before the last")),
        _ => None,
    }
}
