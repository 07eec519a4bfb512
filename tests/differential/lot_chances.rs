//! Lots of known size, at and around all limits of their units and of the scratch,
//! under random plans. plans.rs has the stored cases and words that are no plan.

use crate::compare::{needed, Compared, Comparer};
use crate::plans::marked_plan;
use reference::generators::hand_written::LARGEST;
use reference::generators::marked_plans::LARGEST_MARKED;
use reference::generators::random::Random;
use reference::generators::{draw, sized_lots};
use reference::model::lot_chance::MOST_UNITS_OF_LOT;
use reference::model::plan::Plan;

const SEED: u64 = 40_100_017;

/// The most units of a lot.
const MOST: u32 = MOST_UNITS_OF_LOT as u32;

pub fn all(comparer: &mut Comparer) -> Compared {
    let random = &mut Random::new(SEED);
    drawn_plans(comparer, random, 420, [1, 12], at_limits)?;
    drawn_plans(comparer, random, 140, [13, 60], at_limits)?;
    drawn_plans(comparer, random, 70, [61, 150], any_lot)?;
    drawn_plans(comparer, random, 7, [151, 1_000], any_lot)?;
    for words in LARGEST.into_iter().chain(LARGEST_MARKED) {
        any_lot(comparer, random, words)?;
    }
    Ok(())
}

/// Compares lots of a plan.
type Lots = fn(&mut Comparer, &mut Random, &[u32]) -> Compared;

/// So many plans without marked stages, and as many with.
fn drawn_plans(
    comparer: &mut Comparer,
    random: &mut Random,
    plans: usize,
    [least, most]: [u32; 2],
    lots: Lots,
) -> Compared {
    for round in 0..plans {
        let units = random.between(least, most);
        let words = draw::plan(random, 1 + round % 7, units);
        lots(comparer, random, &words)?;
        let words = marked_plan(random, round, [least, most]);
        comparer.marked += 1;
        lots(comparer, random, &words)?;
    }
    Ok(())
}

fn at_limits(comparer: &mut Comparer, random: &mut Random, words: &[u32]) -> Compared {
    sizes(comparer, random, words)?;
    lots_of_one_class(comparer, random, words)?;
    lengths_of_scratch(comparer, random, words)?;
    let units = admitted(words).units() as u32;
    for lot in sized_lots::wrapping(units + random.between(0, 3)) {
        comparer.lot_chance(words, lot, needed(words))?;
    }
    Ok(())
}

fn sizes(comparer: &mut Comparer, random: &mut Random, words: &[u32]) -> Compared {
    let plan = admitted(words);
    let units = plan.units() as u32;
    let around = [units - 1, units, units, units + 1, units + 2, 2 * units];
    for size in [&[0, 1], &around[..], &[MOST - 1, MOST, MOST + 1, 2 * MOST]].concat() {
        let lot = draw::lot_of(random, &plan, size);
        comparer.lot_chance(words, lot, needed(words))?;
    }
    Ok(())
}

fn lots_of_one_class(comparer: &mut Comparer, random: &mut Random, words: &[u32]) -> Compared {
    let units = admitted(words).units() as u32;
    for class in 0..3 {
        let mut lot = [0; 3];
        lot[class] = random.pick(&[units - 1, units, units + 1, MOST, MOST + 1, u32::MAX]);
        comparer.lot_chance(words, lot, needed(words))?;
    }
    Ok(())
}

/// A scratch too short, exact and longer, with a lot that is granted then and with one
/// that is refused.
fn lengths_of_scratch(comparer: &mut Comparer, random: &mut Random, words: &[u32]) -> Compared {
    let plan = admitted(words);
    let (units, exact) = (plan.units() as u32, needed(words));
    for scratch in [0, exact / 2, exact - 1, exact, exact + 1, exact + 50] {
        let granted = draw::lot(random, &plan, units + 600);
        comparer.lot_chance(words, granted, scratch)?;
        let size = random.pick(&[0, units - 1, MOST + 1]);
        let refused = draw::lot_of(random, &plan, size);
        comparer.lot_chance(words, refused, scratch)?;
    }
    Ok(())
}

fn any_lot(comparer: &mut Comparer, random: &mut Random, words: &[u32]) -> Compared {
    let plan = admitted(words);
    let most = random.pick(&[plan.units() as u32 + 600, MOST]);
    let lot = draw::lot(random, &plan, most);
    let scratch = needed(words) + random.index(2);
    comparer.lot_chance(words, lot, scratch)
}

fn admitted(words: &[u32]) -> Plan {
    Plan::admitted(words).expect("the plan is drawn as an admitted one")
}
