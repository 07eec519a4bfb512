//! A check of model/sheet.rs: 01 "Sheet" says what calls reply by the lots'
//! histories alone. Here lists of calls are answered by words and by histories.

use super::histories::Histories;
use crate::generators::office_draws::{self, Offices};
use crate::generators::random::Random;
use crate::generators::{blanks, draw};
use crate::lines::sheet_lines::Write;
use crate::model::layout::{records_after_head, room, RECORD_WORDS};
use crate::model::offices::{Shares, NO_SHARES};
use crate::model::plan::Plan;
use crate::model::sheet::Sheet;
use crate::model::sheet_call::SheetCall;

const LENGTHS: [usize; 6] = [room(1), room(3), room(5) + 3, room(9), room(14), room(24)];

/// So many lists of calls by words and by histories.
pub fn run(plays: usize) -> Result<(), String> {
    let random = &mut Random::new(11);
    for round in 0..plays {
        let units = random.between(1, 6);
        let words = draw::plan(random, 1 + round % 3, units);
        let length = random.pick(&LENGTHS);
        play(random, &words, length, draw::sheet_call)?;
    }
    Ok(())
}

/// Alike with marked stages.
pub fn run_marked(plays: usize) -> Result<(), String> {
    let random = &mut Random::new(22);
    for round in 0..plays {
        let k = 2 + round % 5;
        let marked = 1 + random.index(k - 1);
        let units = random.between(2, 6);
        let words = draw::marked_plan(random, marked, k, units);
        let length = random.pick(&LENGTHS);
        play(random, &words, length, draw::sheet_call)?;
    }
    Ok(())
}

/// Alike with blanks, under plans without and with marked stages.
pub fn run_with_blanks(plays: usize) -> Result<(), String> {
    let random = &mut Random::new(33);
    for round in 0..plays {
        let k = 1 + round % 4;
        let marked = random.index(k);
        let units = random.between(1, 6);
        let words = draw::marked_plan(random, marked, k, units);
        let length = random.pick(&LENGTHS);
        play(random, &words, length, blanks::sheet_call)?;
    }
    Ok(())
}

/// With shares of offices, and with fresh among the calls, its shares fitting or not.
pub fn run_with_shares(plays: usize) -> Result<(), String> {
    let random = &mut Random::new(77);
    for round in 0..plays {
        let k = 1 + round % 3;
        let marked = random.index(k);
        let units = random.between(1, 4);
        let words = draw::marked_plan(random, marked, k, units);
        let records = random.at_ends_or_between(1, 24);
        let length = room(records as usize) + random.index(RECORD_WORDS);
        let offices = Offices::draw(random, records);
        calls(random, &words, &offices.shares, length, |random| {
            let shares = match random.index(80) {
                0 => office_draws::too_many(random, records),
                1 => office_draws::shares(random, records, &offices.lots),
                _ => return offices.call(random, MIX),
            };
            SheetCall::Fresh(words.clone(), shares)
        })?;
    }
    Ok(())
}

/// Draws a call by a mix of classes.
type Draw = fn(&mut Random, [u32; 3]) -> SheetCall;

const MIX: [u32; 3] = [2, 1, 1];

fn play(random: &mut Random, words: &[u32], length: usize, draw: Draw) -> Result<(), String> {
    calls(random, words, &NO_SHARES, length, |random| {
        draw(random, MIX)
    })
}

fn calls(
    random: &mut Random,
    words: &[u32],
    shares: &Shares,
    length: usize,
    draw: impl Fn(&mut Random) -> SheetCall,
) -> Result<(), String> {
    let mut sheet = Sheet::default();
    let (length, seed) = (length as u32, random.between(0, u32::MAX));
    Write::New { length, seed }.make(&mut sheet.words);
    let fresh = sheet.fresh(words, shares);
    fresh.map_err(|number| format!("fresh with {words:?} is refused {number}"))?;
    let plan = Plan::admitted(words).ok_or("the plan is drawn as an admitted one")?;
    let room = records_after_head(sheet.words.len());
    let mut histories = Histories::new(plan, *shares, room);
    for _ in 0..120 {
        let call = draw(random);
        let (reply, expected) = (call.make(&mut sheet), histories.make(&call));
        if reply != expected {
            return Err(format!(
                "{call:?} under {words:?} with shares {:?}: {reply:?}, not {expected:?}",
                histories.shares
            ));
        }
    }
    Ok(())
}
