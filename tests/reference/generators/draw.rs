//! Random admitted plans, random lists, weights and lots for them, random calls on a
//! sheet.

use super::random::Random;
use crate::model::chance::{Weights, MOST_WEIGHT};
use crate::model::earliest::Table;
use crate::model::lot_chance::Lot;
use crate::model::plan::{Counts, Plan, Stage, BAD, BOTH, MARK, MOST_R1, NONGOOD};
use crate::model::sheet_call::SheetCall;

/// The words of an admitted plan of S units and k stages, fewer where S is less
/// than k. For a large S the last r1 is near 60, its greatest value.
pub fn plan(random: &mut Random, k: usize, units: u32) -> Vec<u32> {
    marked_plan(random, 0, k, units)
}

/// Alike, with so many marked stages, fewer where no stage would be left after
/// them.
pub fn marked_plan(random: &mut Random, marked: usize, k: usize, units: u32) -> Vec<u32> {
    let k = k.min(units as usize);
    let marked = marked.min(k - 1);
    let sizes = sizes(random, k, units);
    // a + 1 < r before the last of several stages with acceptance numbers, so
    // none of their r is below 2.
    let least_r = if k - marked > 1 { 2 } else { 1 };
    let last_r1 = match units {
        0..=99 => random.at_ends_or_between(least_r, units.min(MOST_R1 as u32)),
        _ => random.between(52, MOST_R1 as u32),
    };
    let last_r2 = random.at_ends_or_between(least_r, last_r1);
    let (a1, r1) = row(random, marked, &vec![last_r1; k], &below_ends(&sizes));
    let r_most = [&r1[..k - 1], &[last_r2]].concat();
    let (a2, r2) = row(random, marked, &r_most, &a1);
    let stage = |i: usize| [sizes[i], a1[i], r1[i], a2[i], r2[i]];
    (0..k).flat_map(stage).collect()
}

/// Si - 1 for each stage.
fn below_ends(sizes: &[u32]) -> Vec<u32> {
    let end = |i: usize| sizes[..=i].iter().sum::<u32>();
    (0..sizes.len()).map(|i| end(i) - 1).collect()
}

/// k sizes of at least 1 with this sum.
fn sizes(random: &mut Random, k: usize, units: u32) -> Vec<u32> {
    let mut rest = units;
    let mut sizes = Vec::new();
    for left in (1..k as u32).rev() {
        let even = (rest / (left + 1)).max(1);
        let high = (2 * even).min(rest - left);
        let size = random.between(1, high);
        rest -= size;
        sizes.push(size);
    }
    sizes.push(rest);
    sizes
}

/// The acceptance and rejection numbers of one row, at most `a_most`, `r_most`;
/// the last r is its most. r is drawn backward from the last so that it never
/// falls, then a forward and below r - 1, after the marked stages. Neither r nor
/// the given bounds fall before the last, so there is always room.
fn row(random: &mut Random, marked: usize, r_most: &[u32], a_most: &[u32]) -> (Vec<u32>, Vec<u32>) {
    let k = r_most.len();
    let mut r = r_most.to_vec();
    let least_r = random.at_ends_or_between(2, r[k - 1].max(2));
    for i in (0..k - 1).rev() {
        let least = if i < marked {
            random.pick(&[1, least_r])
        } else {
            least_r
        };
        let most = r[i + 1].min(r_most[i]);
        r[i] = random.at_ends_or_between(least.min(most), most);
    }
    (acceptance_numbers(random, marked, &r, a_most), r)
}

fn acceptance_numbers(random: &mut Random, marked: usize, r: &[u32], a_most: &[u32]) -> Vec<u32> {
    let last = r.len() - 1;
    let mut a = vec![MARK; marked];
    let mut low = 0;
    for i in marked..last {
        low = random.at_ends_or_between(low, a_most[i].min(r[i] - 2));
        a.push(low);
    }
    a.push(r[last] - 1);
    a
}

/// Weights of the classes: good, bad or marginal prevailing, mixed, and without
/// marginal or without bad units.
const MIXES: [[u32; 3]; 8] = [
    [90, 5, 5],
    [60, 20, 20],
    [1, 1, 1],
    [10, 10, 80],
    [10, 80, 10],
    [3, 0, 1],
    [3, 1, 0],
    [1, 1, 0],
];

/// A list with a fixed mix, or with one that brings S units near the last
/// rejection numbers.
pub fn mixed(random: &mut Random, plan: &Plan, length: usize) -> Vec<u8> {
    let mix = if random.one_in(2) {
        random.pick(&MIXES)
    } else {
        fitting_mix(plan)
    };
    (0..length).map(|_| random.class(mix)).collect()
}

fn fitting_mix(plan: &Plan) -> [u32; 3] {
    let Stage { end, r, .. } = plan.last();
    let good = end - r[NONGOOD];
    [good as u32, (r[NONGOOD] - r[BAD]) as u32, r[BAD] as u32]
}

/// Weights for a chance: a fixed mix, one near the plan's numbers, small ones,
/// and ones that add to the greatest sum or to less; some without a class.
pub fn weights(random: &mut Random, plan: &Plan) -> Weights {
    let mut large = |most: u32| random.at_ends_or_between(0, most);
    let [good, marginal, bad] = [large(400_000), large(400_000), large(200_000)];
    match random.index(5) {
        0 => random.pick(&MIXES),
        1 => fitting_mix(plan),
        2 => [(); 3].map(|()| random.between(0, 9)),
        3 => [MOST_WEIGHT as u32 - marginal - bad, marginal, bad],
        _ => [good, marginal, bad],
    }
}

/// A lot of S units, of few more, or of any number up to the most.
pub fn lot(random: &mut Random, plan: &Plan, most: u32) -> Lot {
    let units = plan.units() as u32;
    let size = match random.index(4) {
        0 => units,
        1 => units + random.between(1, 4),
        2 => units + random.between(0, 2 * units),
        _ => random.at_ends_or_between(units, most),
    };
    lot_of(random, plan, size)
}

/// A lot of this size: a fixed mix, one near the plan's numbers, nongood units up to
/// about these, or any.
pub fn lot_of(random: &mut Random, plan: &Plan, size: u32) -> Lot {
    match random.index(4) {
        0 => shares(size, random.pick(&MIXES)),
        1 => shares(size, fitting_mix(plan)),
        2 => {
            let [r1, r2] = plan.last().r.map(|r| r as u32);
            split(random, size, [r1, r2])
        }
        _ => split(random, size, [size, size]),
    }
}

/// A lot of this size with up to so many marginal and bad units.
fn split(random: &mut Random, size: u32, [marginal, bad]: [u32; 2]) -> Lot {
    let marginal = random.at_ends_or_between(0, marginal.min(size));
    let bad = random.at_ends_or_between(0, bad.min(size - marginal));
    [size - marginal - bad, marginal, bad]
}

/// A lot of this size with the classes of a mix; what is lost by rounding is good.
pub fn shares(size: u32, mix: [u32; 3]) -> Lot {
    let whole: u64 = mix.iter().map(|&part| u64::from(part)).sum();
    let share = |part: u32| (u64::from(size) * u64::from(part) / whole) as u32;
    let [marginal, bad] = [share(mix[1]), share(mix[2])];
    [size - marginal - bad, marginal, bad]
}

/// A complete sample whose counts at each stage end are at or next to the
/// stage's numbers, as far as the stage's size lets them. Before one stage,
/// drawn at random, they are such that the plan mostly goes on.
pub fn near_the_numbers(random: &mut Random, plan: &Plan) -> Vec<u8> {
    let aimed = random.index(plan.stages.len());
    let mut sample = Vec::new();
    for (i, stage) in plan.stages.iter().enumerate() {
        let [r1, r2] = stage.r;
        let [nongood, bad] = match stage.a {
            Some([a1, a2]) if i < aimed => {
                [[a1 + 1, a1 + 1, a1 + 1, r1 - 1], [0, a2, a2 + 1, r2 - 1]]
            }
            Some([a1, a2]) => [[a1, a1 + 1, r1 - 1, r1], [a2, a2 + 1, r2 - 1, r2]],
            None if i < aimed => [[0, 0, r1 / 2, r1 - 1], [0, 0, r2 / 2, r2 - 1]],
            None => [[0, r1 - 1, r1 - 1, r1], [0, r2 - 1, r2 - 1, r2]],
        };
        let aim = [random.pick(&nongood), random.pick(&bad)];
        let mut units = units_up_to(aim, Counts::of(&sample), stage.size);
        random.shuffle(&mut units);
        sample.extend(units);
    }
    sample
}

/// Units of one stage that bring the counts before it to the aim.
fn units_up_to(aim: [u64; 2], before: Counts, size: u64) -> Vec<u8> {
    let nongood = aim[NONGOOD].saturating_sub(before.nongood).min(size);
    let bad = aim[BAD].saturating_sub(before.bad).min(nongood);
    let mut units = vec![0; size as usize];
    units[..nongood as usize].fill(1);
    units[..bad as usize].fill(2);
    units
}

/// A list of this length that stays undecided up to the unit before `until`
/// where it can. From there on a unit decides where it can.
pub fn held(
    random: &mut Random,
    plan: &Plan,
    table: &Table,
    until: usize,
    length: usize,
) -> Vec<u8> {
    let mix = random.pick(&[
        fitting_mix(plan),
        [1, 1, 1],
        [20, 1, 1],
        [1, 0, 0],
        [0, 1, 3],
    ]);
    let mut list = Vec::new();
    let mut counts = Counts::default();
    for y in 1..=length {
        let suits = |class: &u8| {
            let undecided = y < plan.units() && table.at(y, counts.after(*class)) == BOTH;
            undecided == (y < until)
        };
        let suiting: Vec<u8> = (0..3).filter(suits).collect();
        let drawn = random.class(mix);
        let class = if suiting.is_empty() || suiting.contains(&drawn) {
            drawn
        } else {
            random.pick(&suiting)
        };
        counts = counts.after(class);
        list.push(class);
    }
    list
}

/// A call on one of few lots; classes mostly by these weights.
pub fn sheet_call(random: &mut Random, mix: [u32; 3]) -> SheetCall {
    let lot = random.pick(&[1, 2, 3, 1_000, u32::MAX]);
    let lot = if random.one_in(40) { 0 } else { lot };
    let class = u32::from(random.class(mix));
    let class = if random.one_in(40) {
        random.pick(&[4, 256, u32::MAX])
    } else {
        class
    };
    match random.index(20) {
        0..=2 => SheetCall::Open(lot),
        3..=11 => SheetCall::Inspect(lot, class),
        12 => SheetCall::Strike(lot),
        13..=15 => SheetCall::Close(lot),
        16 | 17 => SheetCall::Look(lot),
        18 => SheetCall::Estimate(lot),
        _ => SheetCall::Tally,
    }
}
