//! Expected units at the earliest stop (02, change 6): those found by hand, and low and
//! high around the sum of 02, which is written out.

use super::expect_answer;
use crate::generators::draw;
use crate::generators::known_units::{BY_HAND, CHARTS_BY_HAND, REFUSED};
use crate::generators::random::Random;
use crate::lines::fields;
use crate::model::chance::{sum, Bounds, Weights, MOST_WEIGHT};
use crate::model::class::{BAD, GOOD, MARGINAL};
use crate::model::earliest::{by_both, Table};
use crate::model::expected_units::{bounds, chart, stops_sum, ONE_UNIT};
use crate::model::plan::{Plan, ACCEPTED, REJECTED};

/// Gives the number of random plans whose sequences were written out, and of those with
/// weights of one class alone.
pub fn run(plans: usize) -> Result<[usize; 2], String> {
    known_answers()?;
    let random = &mut Random::new(30);
    let written_out = around_the_sum(random, plans, 6)? + around_the_sum(random, plans / 10, 7)?;
    let with_one_class = one_class(random, plans)?;
    any_plans(random, plans / 4)?;
    Ok([written_out, with_one_class])
}

fn known_answers() -> Result<(), String> {
    for &(words, weights, scratch, expected) in BY_HAND {
        expect_answer(&line("u", weights, scratch, words), expected)?;
    }
    for &(words, weights, scratch, expected) in REFUSED {
        expect_answer(&line("u", weights, scratch, words), expected)?;
        expect_answer(&line("v", weights, scratch, words), expected)?;
    }
    for &(words, weights, scratch, float) in CHARTS_BY_HAND {
        let bits = float.to_bits();
        let expected = format!("{bits} {bits}");
        expect_answer(&line("v", weights, scratch, words), &expected)?;
    }
    Ok(())
}

fn line(kind: &str, weights: Weights, scratch: u32, words: &[u32]) -> String {
    format!("{kind}{} {scratch}{}", fields(&weights), fields(words))
}

pub struct Admitted {
    pub plan: Plan,
    table: Table,
}

impl Admitted {
    pub fn new(words: &[u32]) -> Result<Admitted, String> {
        let plan = Plan::admitted(words).ok_or(format!("{words:?} should be admitted"))?;
        let table = Table::new(&plan);
        Ok(Admitted { plan, table })
    }

    /// The units at the earliest stop of a sample of this class: it is accepted if it is
    /// good and rejected if it is bad.
    fn stop(&self, class: u8) -> Result<u64, String> {
        let sample = vec![class; self.plan.units()];
        match (class, by_both(&self.plan, &self.table, &sample)) {
            (GOOD | MARGINAL, Some((y, ACCEPTED))) => Ok(y as u64),
            (BAD | MARGINAL, Some((y, REJECTED))) => Ok(y as u64),
            (_, stop) => Err(format!("{:?}, class {class} alone: {stop:?}", self.plan)),
        }
    }

    /// Low and high are within their limits, the chart is theirs, and this holds of them.
    pub fn expect(&self, weights: Weights, holds: impl Fn(Bounds) -> bool) -> Result<(), String> {
        let found = bounds(&self.plan, &self.table, weights);
        if limited(&self.plan, found) && charted(found) && holds(found) {
            Ok(())
        } else {
            let plan = &self.plan;
            Err(format!("{plan:?} with {weights:?} gives {found:?}"))
        }
    }
}

/// A random plan of 1 to 7 stages, some of them marked in about half of the rounds.
fn drawn(random: &mut Random, round: usize, units: u32) -> Result<Admitted, String> {
    let k = 1 + round % 7;
    let marked = match random.index(2) {
        0 => 0,
        _ => random.index(k),
    };
    Admitted::new(&draw::marked_plan(random, marked, k, units))
}

/// A lot needs one unit at least and S at most. The width of a point is at most one more
/// than the greatest of its successors: low and high round the mean, each by less than
/// 1, and all of these are whole numbers. So it is at most S, and within 2 * S of 02.
fn limited(plan: &Plan, [low, high]: Bounds) -> bool {
    let units = plan.units() as u64;
    let within = ONE_UNIT <= low && low <= high && high <= units * ONE_UNIT;
    within && high - low <= units
}

/// The floats times 2^30 are low and high.
fn charted(found: Bounds) -> bool {
    let whole = |bits: u64| f64::from_bits(bits) * ONE_UNIT as f64;
    chart(found).map(whole) == found.map(|bound| bound as f64)
}

/// Low and high of so many random plans with up to so many units. Gives their number.
fn around_the_sum(random: &mut Random, plans: usize, most: u32) -> Result<usize, String> {
    for round in 0..plans {
        let units = random.between(1, most);
        let admitted = drawn(random, round, units)?;
        let mut weights = [(); 3].map(|()| random.at_ends_or_between(0, 1000));
        if sum(weights) == 0 {
            weights[round % 3] = 1;
        }
        let exact = stops_sum(&admitted.plan, weights) * u128::from(ONE_UNIT);
        let power = u128::from(sum(weights)).pow(units);
        admitted.expect(weights, |found| enclosed(exact, power, found))?;
    }
    Ok(plans)
}

/// low * W^S <= sum * 2^30 <= high * W^S. With weights up to 1,000 and 7 units no product
/// exceeds u128.
pub fn enclosed(exact: u128, power: u128, found: Bounds) -> bool {
    let [low, high] = found.map(u128::from);
    low * power <= exact && exact <= high * power
}

/// With one class alone low and high are the units at the earliest stop of a sample of
/// that class. Gives the number of plans.
fn one_class(random: &mut Random, plans: usize) -> Result<usize, String> {
    for round in 0..plans {
        let units = random.between(1, 90);
        let admitted = drawn(random, round, units)?;
        for class in [GOOD, MARGINAL, BAD] {
            let expected = [admitted.stop(class)? * ONE_UNIT; 2];
            for weight in [1, random.between(2, 999_999), MOST_WEIGHT as u32] {
                let mut weights = [0; 3];
                weights[usize::from(class)] = weight;
                admitted.expect(weights, |found| found == expected)?;
            }
        }
    }
    Ok(plans)
}

/// The limits, with any weights. A common factor of the weights changes no mean.
fn any_plans(random: &mut Random, plans: usize) -> Result<(), String> {
    for round in 0..plans {
        let units = random.between(1, 200);
        let admitted = drawn(random, round, units)?;
        let weights = [(); 3].map(|()| random.at_ends_or_between(1, 1000));
        let found = bounds(&admitted.plan, &admitted.table, weights);
        let factor = random.between(1, MOST_WEIGHT as u32 / 3000);
        let scaled = weights.map(|weight| weight * factor);
        admitted.expect(weights, |_| true)?;
        admitted.expect(scaled, |alike| alike == found)?;
    }
    Ok(())
}
