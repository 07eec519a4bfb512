//! Expected units of one-stage plans by the closed form
//! (n - c)/q * P(X <= c) + (c + 1)/p * P(X > c + 1), X being binomial with n + 1 units and
//! p the chance of a unit that counts towards c + 1: against the rows worked out with R,
//! and against low and high.

use super::lot_chance_selftest::binomial;
use super::units_selftest::{enclosed, Admitted};
use crate::generators::known_units::rows;
use crate::generators::random::Random;
use crate::model::chance::{sum, Bounds, Weights, MOST_WEIGHT};
use crate::model::expected_units::ONE_UNIT;
use crate::model::plan::MOST_R1;

/// Gives the number of plans and weights whose units were found by the closed form, with
/// whole numbers and with floats.
pub fn run(plans: usize) -> Result<[usize; 2], String> {
    known_rows()?;
    let random = &mut Random::new(31);
    Ok([
        by_whole_numbers(random, plans)?,
        by_floats(random, plans / 10, 250)? + by_floats(random, 3, 1000)?,
    ])
}

/// One stage of n units, accepted with up to c that count, and the weights of those that
/// don't and of those that do.
struct OneStage {
    n: u32,
    c: u32,
    weights: [u32; 2],
}

/// The closed form agrees with the printed digits, and low and high are around them. They
/// can't agree with all of the digits: they may be as far apart as n units of 2^-30.
fn known_rows() -> Result<(), String> {
    for row in rows() {
        let [good, _, bad] = row.weights;
        let stage = OneStage {
            n: row.n,
            c: row.c,
            weights: [good, bad],
        };
        let printed = row.printed as f64 / 1e8;
        let found = stage.float();
        if (found - printed).abs() > HALF_A_DIGIT {
            return Err(format!("the closed form gives {found}, not {printed}"));
        }
        let admitted = Admitted::new(&row.words())?;
        admitted.expect(row.weights, |found| around(printed, HALF_A_DIGIT, found))?;
    }
    Ok(())
}

/// Half of the last printed digit, and the error of a float.
const HALF_A_DIGIT: f64 = 5.001e-9;

/// Whether low and high are around a number that may be off by so much.
fn around(number: f64, off: f64, found: Bounds) -> bool {
    let [low, high] = found.map(|bound| bound as f64 / ONE_UNIT as f64);
    low <= number + off && number - off <= high
}

/// The most n by the sum of weights, for which no product exceeds u128.
const MOST_N: [(u32, u32); 4] = [(2, 90), (3, 56), (10, 27), (1_000, 9)];

fn by_whole_numbers(random: &mut Random, plans: usize) -> Result<usize, String> {
    for _ in 0..plans {
        let (whole, most) = random.pick(&MOST_N);
        let n = random.between(1, most);
        let counting = random.between(1, whole - 1);
        let case = Case::new(random, n, [whole - counting, counting]);
        let exact = case.stage.whole() * u128::from(ONE_UNIT);
        let power = u128::from(whole).pow(n);
        let admitted = Admitted::new(&case.words)?;
        admitted.expect(case.weights, |found| enclosed(exact, power, found))?;
    }
    Ok(plans)
}

fn by_floats(random: &mut Random, plans: usize, most: u32) -> Result<usize, String> {
    for _ in 0..plans {
        let n = random.between(most / 5 * 4, most);
        let whole = random.at_ends_or_between(1_000, MOST_WEIGHT as u32);
        let counting = whole / random.pick(&[3, 10, 20, 50, 1_000]);
        let case = Case::new(random, n, [whole - counting, counting]);
        let number = case.stage.float();
        let admitted = Admitted::new(&case.words)?;
        admitted.expect(case.weights, |found| around(number, 1e-8, found))?;
    }
    Ok(plans)
}

/// A stage with the words of a plan for it and the weights of the three classes.
struct Case {
    stage: OneStage,
    words: [u32; 5],
    weights: Weights,
}

impl Case {
    /// Without marginal units the bad ones count and c is a2. With equal rows all nongood
    /// ones count and c is both a.
    fn new(random: &mut Random, n: u32, weights: [u32; 2]) -> Case {
        let most_r = n.min(MOST_R1 as u32);
        let r2 = random.at_ends_or_between(1, most_r);
        let [others, counting] = weights;
        let (r1, marginal) = match random.one_in(2) {
            true => (random.between(r2, most_r), 0),
            false => (r2, random.between(0, counting)),
        };
        Case {
            stage: OneStage {
                n,
                c: r2 - 1,
                weights,
            },
            words: [n, r1 - 1, r1, r2 - 1, r2],
            weights: [others, marginal, counting - marginal],
        }
    }
}

impl OneStage {
    /// The closed form times W^n. With p and q as weights over W, one factor of each
    /// product is cancelled: in P(X <= c) a unit at least doesn't count, in P(X > c + 1)
    /// one does.
    fn whole(&self) -> u128 {
        let OneStage { n, c, weights } = *self;
        let [others, counting] = weights.map(u128::from);
        let accepted = (0..=c).map(|x| {
            let products = counting.pow(x) * others.pow(n - x);
            u128::from(n - c) * binomial(n + 1, x) * products
        });
        let rejected = (c + 2..=n + 1).map(|x| {
            let products = counting.pow(x - 1) * others.pow(n + 1 - x);
            u128::from(c + 1) * binomial(n + 1, x) * products
        });
        accepted.chain(rejected).sum()
    }

    /// The closed form. All terms are positive, so that no digits are lost.
    fn float(&self) -> f64 {
        let OneStage { n, c, weights } = *self;
        let whole = sum([weights[0], 0, weights[1]]) as f64;
        let [q, p] = weights.map(|weight| f64::from(weight) / whole);
        let (mut accepted, mut rejected) = (0.0, 0.0);
        let mut chance = q.powi(n as i32 + 1);
        for x in 0..=n + 1 {
            if x <= c {
                accepted += chance;
            } else if x > c + 1 {
                rejected += chance;
            }
            chance *= f64::from(n + 1 - x) / f64::from(x + 1) * p / q;
        }
        f64::from(n - c) / q * accepted + f64::from(c + 1) / p * rejected
    }
}
