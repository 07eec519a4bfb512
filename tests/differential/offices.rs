//! Calls on sheets with shares of offices (02, change 7): any words as shares, random
//! calls, each share damaged, and large sheets.

use crate::compare::{Compared, Comparer};
use crate::sheets::{any_words, damaged, each_call, each_call_apart};
use reference::generators::draw;
use reference::generators::full_sheets::{self, Fill};
use reference::generators::hand_written::{A, SEVEN, UNIT};
use reference::generators::office_draws::{dealt, shares_of, too_many, Offices};
use reference::generators::random::Random;
use reference::model::chains::{intact, Plans};
use reference::model::layout::*;
use reference::model::offices::{self, Shares};
use reference::model::sheet_call::SheetCall;

const SEED: u64 = 65_537_016;

pub fn all(comparer: &mut Comparer) -> Compared {
    let random = &mut Random::new(SEED);
    any_shares(comparer, random)?;
    plays(comparer, random)?;
    nearly_full(comparer, random)
}

/// Given to fresh on sheets of all sizes, with plans that are admitted and not.
fn any_shares(comparer: &mut Comparer, random: &mut Random) -> Compared {
    let small = [0, 1, HEAD, LEAST_WORDS - 1, LEAST_WORDS, LEAST_WORDS + 3];
    let more = [LEAST_WORDS + 4, room(16), room(33) + 2];
    let most = [MOST_WORDS - 1, MOST_WORDS, MOST_WORDS + 1];
    for length in [&small[..], &more, &most].concat() {
        comparer.new_sheet(any_words(random, length, u32::MAX));
        for round in 0..60 {
            let plan = random.pick(&[A, A, UNIT, SEVEN, &[5, 2, 3, 1, 3], &[]]);
            let shares = shares_given(random, length, round);
            comparer.on_sheet(&SheetCall::Fresh(plan.to_vec(), shares))?;
            let lot = random.between(1, 32);
            comparer.on_sheet(&SheetCall::Open(lot))?;
            comparer.on_sheet(&SheetCall::Inspect(lot, 0))?;
        }
    }
    Ok(())
}

/// Any words, few records for each office, all records, and too many.
pub fn shares_given(random: &mut Random, length: usize, round: usize) -> Shares {
    let records = records(length).saturating_sub(FIRST_RECORD as usize) as u32;
    let offices: Vec<usize> = (0..OFFICES).collect();
    let few = random.between(1, 3);
    match round % 6 {
        0 => [(); OFFICES].map(|()| random.between(0, u32::MAX)),
        1 => [(); OFFICES].map(|()| random.between(0, few)),
        2 => shares_of(&[(random.index(OFFICES), records)]),
        3 => shares_of(&[(random.index(OFFICES), random.between(0, u32::MAX))]),
        4 => dealt(random, records, &offices),
        _ => too_many(random, records),
    }
}

/// Random calls on small sheets, with any word and with shares damaged now and then.
fn plays(comparer: &mut Comparer, random: &mut Random) -> Compared {
    for round in 0..120 {
        let units = random.between(1, 6);
        let plan = match round % 4 {
            0 => UNIT.to_vec(),
            1 => A.to_vec(),
            2 => draw::plan(random, 1 + round % 3, units),
            _ => draw::marked_plan(random, 1, 2 + round % 3, units + 1),
        };
        let records = random.at_ends_or_between(1, 40);
        play(comparer, random, plan, records)?;
    }
    Ok(())
}

fn play(comparer: &mut Comparer, random: &mut Random, plan: Vec<u32>, records: u32) -> Compared {
    let length = room(records as usize) + random.index(RECORD_WORDS);
    comparer.new_sheet(any_words(random, length, u32::MAX));
    let offices = Offices::draw(random, records);
    comparer.on_sheet(&SheetCall::Fresh(plan, offices.shares))?;
    let mix = random.pick(&[[1, 1, 1], [6, 1, 1], [1, 0, 3], [1, 3, 1]]);
    for turn in 0..100 {
        comparer.on_sheet(&offices.call(random, mix))?;
        if turn % 20 == 10 {
            damaged(comparer, random)?;
        }
    }
    for office in 0..OFFICES {
        share_damaged(comparer, random, office, &offices.lots)?;
    }
    Ok(())
}

/// Each call on the sheet with one share damaged, which is then undone: so that the sum is
/// the most, one more, or 0 in 32 bits; by little, and by far.
fn share_damaged(
    comparer: &mut Comparer,
    random: &mut Random,
    office: usize,
    lots: &[u32],
) -> Compared {
    let words = &comparer.sheet.words;
    let own = words[SHARES + office];
    let sum: u32 = words[SHARES..HEAD].iter().sum();
    let (most, others) = (records_after_head(words.len()) as u32, sum - own);
    let near = [own.wrapping_sub(1), own + 1, most - others];
    let far = [0, others.wrapping_neg(), 1 << 31, u32::MAX];
    for share in [random.pick(&near), most - others + 1, random.pick(&far)] {
        comparer.sheet.words[SHARES + office] = share;
        let lot = random.pick(lots);
        each_call_apart(comparer, lot, random.between(0, 3))?;
    }
    comparer.sheet.words[SHARES + office] = own;
    Ok(())
}

/// Large sheets with many lots, on which each office holds its share and all that is spare
/// is lacking in one of them.
fn nearly_full(comparer: &mut Comparer, random: &mut Random) -> Compared {
    for (length, plan, free, unused) in [(PROGRAM_WORDS, SEVEN, 30, 4), (MOST_WORDS, A, 1, 1)] {
        let fill = Fill {
            free,
            unused,
            shuffled: true,
        };
        let built = full_sheets::sheet(random, length, plan, &fill);
        let chains = intact(&built.words, NEW, &mut Plans::default());
        let lots = chains.ok_or("the sheet is built in order")?.lots;
        let mut shares = offices::held(&lots).map(|held| held as u32);
        shares[random.index(OFFICES)] += (free + unused) as u32;
        comparer.new_sheet(built.words);
        comparer.sheet.words[SHARES..HEAD].copy_from_slice(&shares);
        for _ in 0..8 {
            let lot = random.pick(&built.lots);
            each_call(comparer, lot, 0)?;
            each_call(comparer, lot + 1, 2)?;
            share_damaged(comparer, random, offices::office(lot), &built.lots)?;
        }
    }
    Ok(())
}
