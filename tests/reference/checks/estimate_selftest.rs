//! Estimates of one-stage plans as 002 (8.3.1) has them: of the paths that end where a lot
//! does, how many begin with each class. Ends are told apart by the class of the last unit
//! too (8.3.5). The paths are written out, and their stops are found by writing out all
//! completions.

use crate::generators::hand_written::{A, UNIT};
use crate::lines::plan_lines::classes;
use crate::model::class::{BAD, BLANK, MARGINAL};
use crate::model::earliest::by_completions;
use crate::model::layout::room;
use crate::model::offices::NO_SHARES;
use crate::model::plan::Plan;
use crate::model::sheet::Sheet;
use std::collections::BTreeMap;

/// Gives the number of plans of up to so many units, and of lots under them.
pub fn run(most_units: u32) -> Result<[usize; 2], String> {
    for &(words, list, expected) in KNOWN {
        let lot = classes(list).ok_or("a list is a dot and classes")?;
        let found = Estimates::new(words).of(&lot)?;
        if found != expected {
            return Err(format!("{list} under {words:?} is estimated {found:?}"));
        }
    }
    let plans = plans_of_one_stage(most_units);
    let lots: Result<Vec<usize>, String> = plans.iter().map(|words| lots_of(words)).collect();
    Ok([plans.len(), lots?.iter().sum()])
}

/// Estimates found by hand: good, marginal, bad and what they are over. 122 is a row of 01.
const KNOWN: &[(&[u32], &str, [u32; 4])] = &[
    (UNIT, ".0", [1, 0, 0, 1]),
    (UNIT, ".1", [0, 1, 0, 1]),
    (UNIT, ".2", [0, 0, 1, 1]),
    (UNIT, ".3", [0, 1, 0, 1]),
    (&[3, 1, 2, 0, 1], ".2", [0, 0, 1, 1]),
    (&[3, 1, 2, 0, 1], ".32", [0, 1, 0, 1]),
    (&[2, 1, 2, 1, 2], ".0", [1, 0, 0, 1]),
    (&[2, 1, 2, 1, 2], ".20", [0, 0, 1, 1]),
    (A, ".122", [0, 1, 1, 2]),
];

/// All of 1 to so many units: n, a1, r1, a2 and r2.
fn plans_of_one_stage(most_units: u32) -> Vec<[u32; 5]> {
    let of_row = |n, r1: u32| (1..=r1).map(move |r2| [n, r1 - 1, r1, r2 - 1, r2]);
    let of_size = |n| (1..=n).flat_map(move |r1| of_row(n, r1));
    (1..=most_units).flat_map(of_size).collect()
}

/// A sheet on which one lot after the other is estimated.
struct Estimates<'a> {
    words: &'a [u32],
    sheet: Sheet,
}

impl Estimates<'_> {
    fn new(words: &[u32]) -> Estimates<'_> {
        let sheet = Sheet::new(vec![0; room(1 + words[0] as usize)]);
        Estimates { words, sheet }
    }

    /// That of a decided lot, by calls. It changes no word.
    fn of(&mut self, lot: &[u8]) -> Result<[u32; 4], String> {
        let sheet = &mut self.sheet;
        let mut calls = vec![sheet.fresh(self.words, &NO_SHARES), sheet.open(1)];
        calls.extend(lot.iter().map(|&class| sheet.inspect(1, class.into())));
        let before = sheet.words.clone();
        let estimate = sheet.estimate(1).ok().and_then(|four| four.try_into().ok());
        match estimate {
            Some(four) if calls.iter().all(Result::is_ok) && sheet.words == before => Ok(four),
            _ => Err(format!("{lot:?} under {:?} has no estimate", self.words)),
        }
    }
}

/// Where a lot ends: its good, marginal and bad units, and the class of its last. Blanks
/// are marginal (02, change 4).
type End = ([usize; 3], u8);

fn end(lot: &[u8]) -> End {
    let tested = |&class: &u8| if class == BLANK { MARGINAL } else { class };
    let count = |class: u8| lot.iter().map(tested).filter(|&it| it == class).count();
    let last = lot.last().map_or(0, tested);
    ([0, 1, 2].map(count), last)
}

/// The lists of classes up to the highest that stop at their last unit and no sooner.
fn stopped(plan: &Plan, highest: u8) -> Vec<Vec<u8>> {
    let mut stopped = vec![];
    let mut undecided: Vec<Vec<u8>> = vec![vec![]];
    while let Some(list) = undecided.pop() {
        for class in 0..=highest {
            let longer = [&list[..], &[class]].concat();
            match by_completions(plan, &longer) {
                Some(_) => stopped.push(longer),
                None => undecided.push(longer),
            }
        }
    }
    stopped
}

/// The numbers of paths to each end by the class that they begin with: K0, K1 and K2 of
/// 002 (8.3.1).
fn paths(plan: &Plan) -> BTreeMap<End, [u32; 3]> {
    let mut paths = BTreeMap::new();
    for path in stopped(plan, BAD) {
        let by_first: &mut [u32; 3] = paths.entry(end(&path)).or_default();
        by_first[usize::from(path[0])] += 1;
    }
    paths
}

/// Every lot, with blanks too, against the paths to its end. Gives the number of lots.
fn lots_of(words: &[u32]) -> Result<usize, String> {
    let plan = Plan::admitted(words).ok_or(format!("{words:?} should be admitted"))?;
    let (paths, lots) = (paths(&plan), stopped(&plan, BLANK));
    let mut estimates = Estimates::new(words);
    for lot in &lots {
        let by_first = paths.get(&end(lot)).ok_or(format!("no path to {lot:?}"))?;
        let estimate = estimates.of(lot)?;
        if !is_ratio(estimate, *by_first, lot.len() as u32) {
            return Err(format!(
                "{lot:?} under {words:?}: {estimate:?}, paths {by_first:?}"
            ));
        }
    }
    Ok(lots.len())
}

/// Whether the estimate of a lot of y units is Kj over K for each class. Its denominator
/// is y - 1 (01); for y = 1 it is 1, and so is K (02, change 5).
fn is_ratio([numerators @ .., over]: [u32; 4], by_first: [u32; 3], y: u32) -> bool {
    let k: u32 = by_first.iter().sum();
    let mut pairs = numerators.iter().zip(by_first);
    let equal = pairs.all(|(numerator, kj)| numerator * k == kj * over);
    let one_path = y > 1 || k == 1;
    equal && one_path && numerators.iter().sum::<u32>() == over && over == 1.max(y - 1)
}
