//! Lots of known size (02, change 2): chances found by hand and with R, and low and
//! high around the draws of small lots, which are written out.

use super::chance_selftest::close;
use super::expect_answer;
use crate::generators::draw;
use crate::generators::random::Random;
use crate::generators::sized_lots::{rows, BY_HAND, REFUSED};
use crate::lines::fields;
use crate::model::chance::{Bounds, UNITS};
use crate::model::earliest::Table;
use crate::model::lot_chance::{all_draws, bounds, by_classes, written_out, Draws, Lot};
use crate::model::plan::Plan;

/// Gives the number of lots of random plans whose draws were written out, and of
/// these draws.
pub fn run(plans: usize) -> Result<[u128; 2], String> {
    known_answers()?;
    chances_by_r()?;
    let random = &mut Random::new(17);
    lots_of_one_class(random, plans)?;
    large_lots(random, plans)?;
    plans_of_one_stage(random, plans)?;
    let [lots, draws] = small_lots(random, plans, 5)?;
    let [more_lots, more_draws] = small_lots(random, plans / 20, 6)?;
    Ok([lots + more_lots, draws + more_draws])
}

fn known_answers() -> Result<(), String> {
    for &(words, lot, scratch, expected) in BY_HAND.iter().chain(REFUSED) {
        let line = format!("l{} {scratch}{}", fields(&lot), fields(words));
        expect_answer(&line, expected)?;
    }
    Ok(())
}

fn chances_by_r() -> Result<(), String> {
    for row in rows() {
        let admitted = Admitted::new(&row.words)?;
        admitted.expect(row.lot, |found| row.agrees(found))?;
    }
    Ok(())
}

struct Admitted {
    plan: Plan,
    table: Table,
}

impl Admitted {
    fn new(words: &[u32]) -> Result<Admitted, String> {
        let plan = Plan::admitted(words).ok_or(format!("{words:?} should be admitted"))?;
        let table = Table::new(&plan);
        Ok(Admitted { plan, table })
    }

    /// S.
    fn units(&self) -> u32 {
        self.plan.units() as u32
    }

    /// Low and high are close together, and this holds of them.
    fn expect(&self, lot: Lot, holds: impl Fn(Bounds) -> bool) -> Result<(), String> {
        let found = bounds(&self.plan, &self.table, lot);
        if close(&self.plan, found) && holds(found) {
            Ok(())
        } else {
            let plan = &self.plan;
            Err(format!("{plan:?} with a lot of {lot:?} gives {found:?}"))
        }
    }
}

/// A random plan of 1 to 3 stages, marked ones among them in every other round.
fn drawn(random: &mut Random, round: usize, units: u32) -> Result<Admitted, String> {
    let k = 1 + round % 3;
    let marked = match round % 2 {
        0 => 0,
        _ => random.index(k),
    };
    Admitted::new(&draw::marked_plan(random, marked, k, units))
}

/// Without a nongood unit both are 2^40, with bad units alone both are 0.
fn lots_of_one_class(random: &mut Random, plans: usize) -> Result<(), String> {
    for round in 0..plans {
        let units = random.between(1, 90);
        let admitted = drawn(random, round, units)?;
        for size in [units, units + random.between(1, 400), 1_000_000] {
            admitted.expect([size, 0, 0], |found| found == [UNITS; 2])?;
            admitted.expect([0, 0, size], |found| found == [0; 2])?;
        }
    }
    Ok(())
}

/// Low and high around the draws, which are counted by their classes. No product
/// exceeds u128.
fn large_lots(random: &mut Random, plans: usize) -> Result<(), String> {
    for round in 0..plans {
        let (most_units, most_size) = random.pick(&[(4, 1_000_000), (6, 600), (6, 10_000)]);
        let units = random.between(1, most_units);
        let admitted = drawn(random, round, units)?;
        let lot = draw::lot(random, &admitted.plan, most_size);
        let draws = by_classes(&admitted.plan, lot);
        admitted.expect(lot, |found| enclosed(&draws, found))?;
    }
    Ok(())
}

/// Low and high around the chance by sets of units, with many units drawn.
fn plans_of_one_stage(random: &mut Random, plans: usize) -> Result<(), String> {
    for _ in 0..plans {
        let units = random.between(7, 60);
        let admitted = Admitted::new(&draw::plan(random, 1, units))?;
        let size = random.at_ends_or_between(units, MOST_SETS_OF);
        let lot = draw::lot_of(random, &admitted.plan, size);
        let sets = by_sets(&admitted.plan, lot);
        admitted.expect(lot, |found| enclosed(&sets, found))?;
    }
    Ok(())
}

/// With one stage the order of a draw doesn't matter: each set of S units is in S!
/// draws, so that sets may be counted, those with the same classes at once.
fn by_sets(plan: &Plan, lot: Lot) -> Draws {
    let units = plan.units() as u32;
    let [of_good, of_marginal, of_bad] = lot;
    let mut accepted = 0;
    for nongood in 0..=units {
        for bad in 0..=nongood {
            let [r1, r2] = plan.last().r;
            if u64::from(nongood) < r1 && u64::from(bad) < r2 {
                accepted += binomial(of_good, units - nongood)
                    * binomial(of_marginal, nongood - bad)
                    * binomial(of_bad, bad);
            }
        }
    }
    let all = binomial(of_good + of_marginal + of_bad, units);
    Draws { accepted, all }
}

/// The most units of a lot for which no product with sets exceeds u128: these are
/// below 2^81.
const MOST_SETS_OF: u32 = 84;

/// Sets of so many of n units. Each quotient is such a number too.
pub fn binomial(n: u32, taken: u32) -> u128 {
    let factors = (0..taken).map(|i| (n.saturating_sub(i), i + 1));
    factors.fold(1, |sets, (more, less)| {
        sets * u128::from(more) / u128::from(less)
    })
}

/// Low and high around the draws of every lot of S to S + 3 units, written out.
fn small_lots(random: &mut Random, plans: usize, most: u32) -> Result<[u128; 2], String> {
    let (mut lots, mut all) = (0, 0);
    for round in 0..plans {
        let units = random.between(1, most);
        let admitted = drawn(random, round, units)?;
        for lot in (0..=3).flat_map(|more| lots_of(admitted.units() + more)) {
            let draws = written_out(&admitted.plan, lot);
            let alike = by_classes(&admitted.plan, lot) == draws;
            let number = all_draws(&admitted.plan, lot);
            admitted.expect(lot, |found| {
                alike && number == draws.all && enclosed(&draws, found)
            })?;
            lots += 1;
            all += draws.all;
        }
    }
    Ok([lots, all])
}

/// Every lot of this size.
fn lots_of(size: u32) -> impl Iterator<Item = Lot> {
    (0..=size).flat_map(move |good| {
        let marginals = 0..=size - good;
        marginals.map(move |marginal| [good, marginal, size - good - marginal])
    })
}

/// low <= accepted / all * 2^40 <= high, without a division.
fn enclosed(draws: &Draws, found: Bounds) -> bool {
    let [low, high] = found.map(u128::from);
    let exact = draws.accepted * u128::from(UNITS);
    low * draws.all <= exact && exact <= high * draws.all
}
