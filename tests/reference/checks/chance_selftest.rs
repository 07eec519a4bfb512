//! Chances: those of 01 and of published tables, and random ones around N of 01,
//! which is written out.

use super::expect_answer;
use crate::generators::known_lots::CHANCES;
use crate::generators::random::Random;
use crate::generators::{draw, published};
use crate::lines::fields;
use crate::model::chance::{accepted_sum, bounds, sum, Bounds, Weights, UNITS};
use crate::model::earliest::Table;
use crate::model::plan::Plan;

/// Those of so many random plans, after the known ones.
pub fn run(plans: usize) -> Result<(), String> {
    known_chances()?;
    published_chances()?;
    random_chances(plans)
}

/// The rows of 01 "Known lots" with a chance.
fn known_chances() -> Result<(), String> {
    for &(words, weights, expected) in CHANCES {
        let line = format!("c{} 2{}", fields(&weights), fields(words));
        expect_answer(&line, expected)?;
    }
    Ok(())
}

fn published_chances() -> Result<(), String> {
    for row in published::rows() {
        let plan = Plan::admitted(&row.words).ok_or("published plans are admitted")?;
        let found = bounds(&plan, &Table::new(&plan), row.weights);
        if !row.agrees(found) {
            let (words, weights) = (row.words, row.weights);
            return Err(format!("{words:?} with {weights:?} gives {found:?}"));
        }
    }
    Ok(())
}

/// Low and high of random plans: close together, and for few units around N.
fn random_chances(plans: usize) -> Result<(), String> {
    let random = &mut Random::new(40);
    for round in 0..plans {
        let most = if round % 10 == 0 { 120 } else { 6 };
        let units = random.between(1, most);
        let words = draw::plan(random, 1 + round % 7, units);
        let plan = Plan::admitted(&words).ok_or(format!("{words:?} should be admitted"))?;
        let weights = [(); 3].map(|()| random.at_ends_or_between(0, 1000));
        if sum(weights) == 0 {
            continue;
        }
        let found = bounds(&plan, &Table::new(&plan), weights);
        if !close(&plan, found) || units <= 6 && !enclosed(&plan, weights, found) {
            return Err(format!("{words:?} with {weights:?} gives {found:?}"));
        }
    }
    Ok(())
}

/// Low and high of a plan of few units: close together and around N.
pub fn around_the_sum(words: &[u32], weights: Weights) -> Result<(), String> {
    let plan = Plan::admitted(words).ok_or(format!("{words:?} should be admitted"))?;
    let found = bounds(&plan, &Table::new(&plan), weights);
    if close(&plan, found) && enclosed(&plan, weights, found) {
        Ok(())
    } else {
        Err(format!("{words:?} with {weights:?} gives {found:?}"))
    }
}

/// low <= high <= 2^40 and high - low <= 2 * S.
pub fn close(plan: &Plan, [low, high]: Bounds) -> bool {
    low <= high && high <= UNITS && high - low <= 2 * plan.units() as u64
}

/// low * W^S <= N * 2^40 <= high * W^S. With weights up to 1,000 and 6 units no
/// product exceeds u128.
fn enclosed(plan: &Plan, weights: Weights, found: Bounds) -> bool {
    let [low, high] = found.map(u128::from);
    let exact = accepted_sum(plan, weights, &mut Vec::new()) * u128::from(UNITS);
    let power = u128::from(sum(weights)).pow(plan.units() as u32);
    low * power <= exact && exact <= high * power
}
