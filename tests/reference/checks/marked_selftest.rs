//! Plans with marked stages (02, change 1): which are admitted, and stops and
//! chances, those found by hand and random ones found in two ways.

use super::chance_selftest::around_the_sum;
use super::plan_selftest::{expect, two_ways};
use super::{expect_answer, sheet_histories};
use crate::generators::draw;
use crate::generators::marked_edges::marked_edges;
use crate::generators::marked_plans::*;
use crate::generators::random::Random;
use crate::lines::fields;
use crate::model::chance::{needed, sum};
use crate::model::earliest::{Stop, Table};
use crate::model::judge::judge;
use crate::model::plan::{Plan, ACCEPTED, REJECTED, STAGE_WORDS};

/// Gives the number of stops reached on the lists of so many random plans, and of
/// those at which earliest accepts in a marked stage.
pub fn run(plans: usize, plays: usize) -> Result<[usize; 2], String> {
    admission_edges()?;
    known_plans()?;
    known_judgements()?;
    published_judgements()?;
    known_chances()?;
    let random = &mut Random::new(21);
    let mut stops = [0, 0];
    for round in 0..plans {
        let words = drawn(random, round, 9);
        let found = lists(random, &words)?;
        stops = [stops[0] + found[0], stops[1] + found[1]];
        chances(random, round)?;
    }
    sheet_histories::run_marked(plays)?;
    Ok(stops)
}

fn admission_edges() -> Result<(), String> {
    for edge in marked_edges() {
        expect(&edge.kept(), None)?;
        expect(&edge.broken(), Some(edge.rule))?;
    }
    Ok(())
}

fn known_plans() -> Result<(), String> {
    let [three, six] = LARGEST_MARKED;
    for words in [FIRST_UNIT, EITHER_UNIT, INSIDE, PUBLISHED, three, six] {
        expect(words, None)?;
    }
    Ok(())
}

fn known_judgements() -> Result<(), String> {
    for &(words, list, expected) in MARKED_JUDGED {
        expect_answer(&format!("j {list}{}", fields(words)), expected)?;
    }
    Ok(())
}

fn published_judgements() -> Result<(), String> {
    for (list, expected) in published_judged() {
        let list: String = list.iter().map(u8::to_string).collect();
        expect_answer(&format!("j .{list}{}", fields(PUBLISHED)), expected)?;
    }
    Ok(())
}

fn known_chances() -> Result<(), String> {
    for &(words, weights, expected) in MARKED_CHANCES {
        let plan = Plan::admitted(words).ok_or("the plan is admitted")?;
        let scratch = needed(&plan);
        let line = format!("c{} {scratch}{}", fields(&weights), fields(words));
        expect_answer(&line, expected)?;
    }
    Ok(())
}

/// A random plan of 2 to 7 stages, one of them marked at least, and few units.
fn drawn(random: &mut Random, round: usize, most: u32) -> Vec<u32> {
    let k = 2 + round % 6;
    let marked = 1 + random.index(k - 1);
    let units = random.between(2, most);
    draw::marked_plan(random, marked, k, units)
}

/// Three lists. Earliest by the table and by all completions, the other ways by
/// the model and by signed numbers.
fn lists(random: &mut Random, words: &[u32]) -> Result<[usize; 2], String> {
    let plan = Plan::admitted(words).ok_or(format!("{words:?} should be admitted"))?;
    let table = Table::new(&plan);
    let length = random.index(plan.units() + 2);
    let marked = plan.stages.iter().filter(|stage| stage.a.is_none());
    let marks_end = marked.map(|stage| stage.end as usize).max();
    let marks_end = marks_end.ok_or(format!("{words:?} should have a marked stage"))?;
    let mut stops = [0, 0];
    for list in [
        draw::mixed(random, &plan, length),
        draw::near_the_numbers(random, &plan),
        draw::held(random, &plan, &table, plan.units(), length),
    ] {
        let stop = two_ways(&plan, &table, &list)?;
        let [others @ .., earliest] = judge(&plan, &table, &list).stops;
        if others != by_signed_numbers(words, &list) || earliest != stop {
            return Err(format!("{list:?} under {words:?}: {others:?}"));
        }
        let at_a_mark = |stop: Stop| stop.is_some_and(|(y, it)| y <= marks_end && it == ACCEPTED);
        if others.into_iter().any(at_a_mark) {
            return Err(format!("{list:?} is accepted at a mark of {words:?}"));
        }
        stops[0] += usize::from(stop.is_some());
        stops[1] += usize::from(at_a_mark(stop));
    }
    Ok(stops)
}

/// Low and high around N of 01, which is written out.
fn chances(random: &mut Random, round: usize) -> Result<(), String> {
    let words = drawn(random, round, 6);
    let weights = [(); 3].map(|()| random.at_ends_or_between(0, 1000));
    match sum(weights) {
        0 => Ok(()),
        _ => around_the_sum(&words, weights),
    }
}

/// The words of a stage, with Si in the place of its size.
type Signed = [i64; STAGE_WORDS];

/// Stages with -1 for the acceptance numbers of marked ones: no count is as low.
fn signed(words: &[u32]) -> Vec<Signed> {
    let mut end = 0;
    let stages = words.chunks(STAGE_WORDS).map(|stage| {
        let numbers = [0, 1, 2, 3, 4].map(|index| i64::from(stage[index] as i32));
        let [size, rest @ ..] = numbers;
        end += size;
        [end, rest[0], rest[1], rest[2], rest[3]]
    });
    stages.collect()
}

/// Uncurtailed, semi and full as 01 states them, by signed numbers.
fn by_signed_numbers(words: &[u32], list: &[u8]) -> [Stop; 3] {
    let stages = signed(words);
    [0, 1, 2].map(|way| {
        (1..=list.len()).find_map(|y| {
            let stage = stages.iter().find(|stage| y as i64 <= stage[0])?;
            let verdict = ways(stage, &list[..y])[way]?;
            Some((y, verdict))
        })
    })
}

/// What uncurtailed, semi and full say after these units.
fn ways(&[end, a1, r1, a2, r2]: &Signed, units: &[u8]) -> [Option<u8>; 3] {
    let y = units.len() as i64;
    let count = |class: u8| units.iter().filter(|&&unit| unit == class).count() as i64;
    let (good, bad) = (count(0), count(2));
    let (nongood, nonbad) = (y - good, y - bad);
    let at_end = y == end;
    let rejects = (bad >= r2 || nongood >= r1).then_some(REJECTED);
    let accepts = (at_end && bad <= a2 && nongood <= a1).then_some(ACCEPTED);
    let accepts_early = (nonbad >= end - a2 && good >= end - a1).then_some(ACCEPTED);
    [
        rejects.filter(|_| at_end).or(accepts),
        rejects.or(accepts),
        rejects.or(accepts_early),
    ]
}
