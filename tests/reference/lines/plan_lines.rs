//! Case lines on plans and their answers. Fields are parted by one space:
//!
//! - `a` and plan words: `admitted` or `no 2` (01 "Plan", "Refused").
//! - `j`, a dot with the classes of a list as digits, and plan words: stop and
//!   state of uncurtailed, semi, full and earliest and the event, or `no 2`, or
//!   `no 7` for a class above 3 anywhere (01 "Lists, events, estimates"; 02, change 4).
//! - `c`, three weights, the words of scratch and plan words: low and high in
//!   units of 2^-40, or `no 2`, `no 13`, `no 14` (01 "Chance of acceptance").
//! - `f` and the same fields: the bit patterns of the chart's two floats, or the
//!   same refusals.
//! - `l`, the good, marginal and bad units of a lot, the words of scratch and plan
//!   words: low and high, or `no 2`, `no 17`, `no 14` (02, change 2).
//! - `u` and the fields of `c`: low and high of the expected units in units of 2^-30, or
//!   `no 2`, `no 13`, `no 14` (02, change 6).
//! - `v` and the same fields: the bit patterns of their chart's two floats, or the same
//!   refusals.

use super::reply_text;
use crate::model::plan::Plan;
use crate::model::plan_calls::{ChanceCall, LotChanceCall, PlanCalls};
use crate::model::{chance, expected_units};

pub enum Case {
    Admission(Vec<u32>),
    Judged(Vec<u8>, Vec<u32>),
    Chance(ChanceCall),
    Chart(ChanceCall),
    LotChance(LotChanceCall),
    ExpectedUnits(ChanceCall),
    ExpectedUnitsChart(ChanceCall),
}

impl Case {
    pub fn parse(line: &str) -> Result<Case, String> {
        let fields: Vec<&str> = line.split(' ').collect();
        let case = match fields[..] {
            ["a", ref words @ ..] => numbers(words).map(Case::Admission),
            ["j", list, ref words @ ..] => classes(list)
                .zip(numbers(words))
                .map(|(list, words)| Case::Judged(list, words)),
            ["c", ref call @ ..] => chance_call(call).map(Case::Chance),
            ["f", ref call @ ..] => chance_call(call).map(Case::Chart),
            ["l", ref call @ ..] => lot_chance_call(call).map(Case::LotChance),
            ["u", ref call @ ..] => chance_call(call).map(Case::ExpectedUnits),
            ["v", ref call @ ..] => chance_call(call).map(Case::ExpectedUnitsChart),
            _ => None,
        };
        case.ok_or_else(|| format!("not a case: {line}"))
    }
}

fn numbers(fields: &[&str]) -> Option<Vec<u32>> {
    fields.iter().map(|field| number(field)).collect()
}

fn number(field: &str) -> Option<u32> {
    let digits = field.bytes().all(|byte| byte.is_ascii_digit());
    field.parse().ok().filter(|_| digits)
}

fn chance_call(fields: &[&str]) -> Option<ChanceCall> {
    let (weights, scratch, words) = taken(fields)?;
    Some(ChanceCall {
        weights,
        scratch,
        words,
    })
}

fn lot_chance_call(fields: &[&str]) -> Option<LotChanceCall> {
    let (lot, scratch, words) = taken(fields)?;
    Some(LotChanceCall {
        lot,
        scratch,
        words,
    })
}

/// A number for each class, the words of scratch, and plan words.
fn taken(fields: &[&str]) -> Option<([u32; 3], u32, Vec<u32>)> {
    let [good, marginal, bad, scratch, ref words @ ..] = numbers(fields)?[..] else {
        return None;
    };
    Some(([good, marginal, bad], scratch, words.to_vec()))
}

/// The classes after the dot.
pub fn classes(field: &str) -> Option<Vec<u8>> {
    let class = |byte: u8| byte.is_ascii_digit().then(|| byte - b'0');
    field.strip_prefix('.')?.bytes().map(class).collect()
}

/// The answer to a line.
pub fn answer(calls: &mut PlanCalls, line: &str) -> Result<String, String> {
    let reply = match Case::parse(line)? {
        Case::Admission(words) => match Plan::admitted(&words) {
            Some(_) => return Ok("admitted".to_string()),
            None => Err(2),
        },
        Case::Judged(list, words) => {
            let reply = calls.judge(&list, &words);
            reply.map(|judgement| judgement.numbers().to_vec())
        }
        Case::Chance(call) => calls.chance(&call).map(Vec::from),
        Case::Chart(call) => calls.chance(&call).map(chance::chart).map(Vec::from),
        Case::LotChance(call) => calls.lot_chance(&call).map(Vec::from),
        Case::ExpectedUnits(call) => calls.expected_units(&call).map(Vec::from),
        Case::ExpectedUnitsChart(call) => {
            let bounds = calls.expected_units(&call);
            bounds.map(expected_units::chart).map(Vec::from)
        }
    };
    Ok(reply_text(reply))
}
