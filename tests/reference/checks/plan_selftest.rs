//! Which plans are admitted, and the stops of lists: those of 01, and random ones
//! found in two ways.

use super::expect_answer;
use crate::generators::draw;
use crate::generators::hand_written::{runs, A, B, MARKED, ONE, SEVEN, THREE, TWO, WRAPS};
use crate::generators::known_lots::{JUDGED, KNOWN};
use crate::generators::plan_edges::edges;
use crate::generators::random::Random;
use crate::lines::fields;
use crate::lines::plan_lines::classes;
use crate::model::earliest::{by_completions, by_table, Stop, Table};
use crate::model::plan::{broken, whole_stages, Plan};

/// Gives the number of stops reached on the lists of so many random plans.
pub fn run(plans: usize) -> Result<usize, String> {
    known_lots()?;
    known_judgements()?;
    admission_edges()?;
    random_lists(plans)
}

/// The rows of 01 "Known lots" that say or imply an earliest stop.
fn known_lots() -> Result<(), String> {
    for &(words, list, units, state) in KNOWN {
        let plan = Plan::admitted(words).ok_or("plans A and B are admitted")?;
        let list = classes(list).ok_or("a list is a dot and classes")?;
        let stop = two_ways(&plan, &Table::new(&plan), &list)?;
        if stop.unwrap_or((0, 0)) != (units, state) {
            return Err(format!("known lot {list:?} of {words:?} stops at {stop:?}"));
        }
    }
    Ok(())
}

/// The rows of 01 "Known lots" with full's stop and an event, or with B.
fn known_judgements() -> Result<(), String> {
    for &(words, list, expected) in JUDGED {
        expect_answer(&format!("j {list}{}", fields(words)), expected)?;
    }
    Ok(())
}

/// The stop of a list, the same by completions and by the table.
pub fn two_ways(plan: &Plan, table: &Table, list: &[u8]) -> Result<Stop, String> {
    let stop = by_completions(plan, list);
    if stop == by_table(plan, table, list) {
        Ok(stop)
    } else {
        Err(format!("the two ways differ on {list:?} of {plan:?}"))
    }
}

fn admission_edges() -> Result<(), String> {
    for words in [A, B, ONE, TWO, THREE, SEVEN] {
        expect(words, None)?;
    }
    for edge in edges() {
        expect(&edge.kept(), None)?;
        expect(&edge.broken(), Some(edge.rule))?;
    }
    for words in runs() {
        if !whole_stages(words.len()) {
            expect(&words, Some("k from 1 to 7"))?;
        }
    }
    expect(MARKED, None)?;
    let mut others = WRAPS.iter().filter(|&&words| words != MARKED);
    match others.find(|words| broken(words).is_empty()) {
        Some(words) => Err(format!("{words:?} is admitted")),
        None => Ok(()),
    }
}

/// Whether a plan breaks no rule, or this rule among others.
pub fn expect(words: &[u32], rule: Option<&str>) -> Result<(), String> {
    let rules = broken(words);
    let met = match rule {
        None => rules.is_empty(),
        Some(rule) => rules.contains(&rule),
    };
    if met {
        Ok(())
    } else {
        Err(format!("{words:?} breaks {rules:?} and should {rule:?}"))
    }
}

/// Random small plans, three lists each. Gives the number of stops reached.
fn random_lists(plans: usize) -> Result<usize, String> {
    let random = &mut Random::new(7);
    let mut stops = 0;
    for round in 0..plans {
        let units = random.between(1, 9);
        let words = draw::plan(random, 1 + round % 7, units);
        let plan = Plan::admitted(&words).ok_or(format!("{words:?} should be admitted"))?;
        let table = Table::new(&plan);
        let length = random.index(plan.units() + 2);
        let lists = [
            draw::mixed(random, &plan, length),
            draw::near_the_numbers(random, &plan),
            draw::held(random, &plan, &table, plan.units(), length),
        ];
        for list in lists {
            stops += usize::from(two_ways(&plan, &table, &list)?.is_some());
        }
    }
    Ok(stops)
}
