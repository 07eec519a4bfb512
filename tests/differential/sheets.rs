//! Calls on sheets of all sizes: valid ones, damaged ones and any words. offices.rs has
//! those with shares.

use crate::compare::{Compared, Comparer};
use reference::generators::full_sheets::{self, Fill};
use reference::generators::hand_written::{A, B, ONE, SEVEN, TWO, UNIT};
use reference::generators::marked_plans::{PUBLISHED, SEVEN_THREE};
use reference::generators::random::Random;
use reference::generators::sheet_damage::is_class;
use reference::generators::{blanks, draw, sheet_cases};
use reference::lines::sheet_lines::Command;
use reference::model::class::{BLANK, MARGINAL};
use reference::model::layout::*;
use reference::model::offices::NO_SHARES;
use reference::model::sheet_call::SheetCall;

const SEED: u64 = 65_537_047;
const MARKED_SEED: u64 = 65_537_048;

pub fn all(comparer: &mut Comparer) -> Compared {
    let random = &mut Random::new(SEED);
    stored_cases(comparer)?;
    sizes(comparer, random)?;
    any_records(comparer, random)?;
    plays(comparer, random)?;
    nearly_full(comparer, random)?;
    marked_sheets(comparer, &mut Random::new(MARKED_SEED))
}

/// The command lines that crates/sheetvectors answers.
fn stored_cases(comparer: &mut Comparer) -> Compared {
    for line in sheet_cases::all() {
        match Command::parse(&line)? {
            Command::Call(call) => comparer.on_sheet(&call)?,
            Command::Write(write) => write.make(&mut comparer.sheet.words),
            Command::Exchange => comparer.exchange(),
            Command::Carry(shares) => comparer.carry(&shares).map(|_| ())?,
        }
    }
    Ok(())
}

/// Each call on a lot, the reading ones first.
fn calls(lot: u32, class: u32) -> [SheetCall; 7] {
    [
        SheetCall::Tally,
        SheetCall::Look(lot),
        SheetCall::Estimate(lot),
        SheetCall::Inspect(lot, class),
        SheetCall::Strike(lot),
        SheetCall::Open(lot),
        SheetCall::Close(lot),
    ]
}

pub fn each_call(comparer: &mut Comparer, lot: u32, class: u32) -> Compared {
    let calls = calls(lot, class);
    calls.iter().try_for_each(|call| comparer.on_sheet(call))
}

/// Each call on these very words: those that write are undone.
pub fn each_call_apart(comparer: &mut Comparer, lot: u32, class: u32) -> Compared {
    let before = comparer.sheet.words.clone();
    for call in calls(lot, class) {
        comparer.on_sheet(&call)?;
        comparer.sheet.words.copy_from_slice(&before);
    }
    Ok(())
}

/// Any words up to a greatest.
pub fn any_words(random: &mut Random, length: usize, most: u32) -> Vec<u32> {
    (0..length).map(|_| random.between(0, most)).collect()
}

fn sizes(comparer: &mut Comparer, random: &mut Random) -> Compared {
    let head = [HEAD - 1, HEAD, LEAST_WORDS - 1];
    let least = [0, 1, 2, 3, 4, 15, 16].map(|more| LEAST_WORDS + more);
    let most = [-4, -1, 0, 1, 4].map(|more| MOST_WORDS.wrapping_add_signed(more));
    for length in [&[0, 1, 2, 4], &head[..], &least, &most, &[2 * MOST_WORDS]].concat() {
        for most in [0, 3, 20, u32::MAX] {
            comparer.new_sheet(any_words(random, length, most));
            each_call(comparer, 1, 0)?;
            each_call(comparer, 0, 4)?;
            for plan in [&[], &A[..4], &[5, 2, 3, 1, 3], A, SEVEN] {
                comparer.on_sheet(&SheetCall::Fresh(plan.to_vec(), NO_SHARES))?;
                each_call(comparer, 1, 0)?;
                each_call(comparer, u32::MAX, 2)?;
            }
        }
    }
    Ok(())
}

/// A sound head over few records of small words, which form chains now and then.
fn any_records(comparer: &mut Comparer, random: &mut Random) -> Compared {
    for round in 0..6_000 {
        let length = random.pick(&[room(1), room(2), room(2) + 3, room(3), room(5)]);
        comparer.new_sheet(any_words(random, length, 2));
        comparer.on_sheet(&SheetCall::Fresh(UNIT.to_vec(), NO_SHARES))?;
        let words = &mut comparer.sheet.words;
        let indices = [0, 0, FIRST_RECORD, FIRST_RECORD + 1];
        words[NEXT_UNUSED] = random.between(FIRST_RECORD, FIRST_RECORD + 2);
        words[FIRST_LOT] = random.pick(&indices);
        words[FIRST_FREE] = random.pick(&indices);
        for at in HEAD..length {
            let next = random.pick(&indices);
            let tag = random.pick(&[0, 0, 1, FREE]);
            words[at] = [random.between(0, 4), next, next, tag][at % RECORD_WORDS];
        }
        each_call_apart(comparer, 1 + round % 3, round % 5)?;
    }
    Ok(())
}

/// Lengths of small sheets, some with words after the last whole record.
const LENGTHS: [usize; 10] = [
    room(1),
    room(2),
    room(4),
    room(5) + 3,
    room(11),
    room(14) + 1,
    room(21) + 2,
    room(33) + 2,
    room(49),
    room(88) + 3,
];

/// Random calls on small sheets, with a word damaged now and then.
fn plays(comparer: &mut Comparer, random: &mut Random) -> Compared {
    for round in 0..220 {
        let units = random.between(1, 14);
        let plan = match round % 8 {
            0 => [A, B, ONE, TWO, UNIT][round / 8 % 5].to_vec(),
            _ => draw::plan(random, 1 + round % 7, units),
        };
        play(comparer, random, plan, round)?;
    }
    Ok(())
}

/// Alike under plans with marked stages.
fn marked_plays(comparer: &mut Comparer, random: &mut Random) -> Compared {
    for round in 0..190 {
        let k = 2 + round % 6;
        let marked = 1 + random.index(k - 1);
        let units = random.between(k as u32, 14);
        let plan = draw::marked_plan(random, marked, k, units);
        comparer.marked += 1;
        play(comparer, random, plan, round)?;
    }
    Ok(())
}

/// Draws a call by a mix of classes.
type Draw = fn(&mut Random, [u32; 3]) -> SheetCall;

fn play(comparer: &mut Comparer, random: &mut Random, plan: Vec<u32>, round: usize) -> Compared {
    let length = random.pick(&LENGTHS);
    comparer.new_sheet(any_words(random, length, u32::MAX));
    comparer.on_sheet(&SheetCall::Fresh(plan, NO_SHARES))?;
    if round % 10 == 9 {
        // Accepted lots, so that few may be closed: 12.
        comparer.sheet.words[CLOSED_LOTS] = random.between(MOST_CLOSED - 4, MOST_CLOSED);
    }
    let mix = random.pick(&[[1, 1, 1], [8, 1, 1], [2, 1, 0], [1, 0, 3], [1, 3, 1]]);
    let call = random.pick::<Draw>(&[draw::sheet_call, blanks::sheet_call]);
    for turn in 0..120 {
        comparer.on_sheet(&call(random, mix))?;
        if turn % 5 == 0 {
            damaged(comparer, random)?;
        }
    }
    Ok(())
}

/// Classes, and words that are refused as a class.
const CLASSES: [u32; 8] = [0, 1, 2, 3, 4, 255, 256, u32::MAX];

/// Each call on the sheet with one word damaged, which is then undone.
pub fn damaged(comparer: &mut Comparer, random: &mut Random) -> Compared {
    let words = &mut comparer.sheet.words;
    let in_use = words.len().min(place(words[NEXT_UNUSED], 0));
    let index = match random.index(4) {
        0 => random.index(STAGES),
        1 => random.index(words.len()),
        _ => random.index(in_use),
    };
    let (own, used) = (words[index], words[NEXT_UNUSED]);
    let other = words[random.index(in_use)];
    let near = [own.wrapping_add(1), own.wrapping_sub(1), own ^ 2];
    let first = FIRST_RECORD;
    let far = [0, first - 1, first, used, used - 1, 1 << 30, u32::MAX];
    words[index] = match random.index(4) {
        0 => random.pick(&near),
        1 => other,
        2 => random.pick(&CLASSES),
        _ => random.pick(&far),
    };
    let lot = random.pick(&[1, 2, 3, 1_000, u32::MAX]);
    let class = random.pick(&CLASSES);
    each_call_apart(comparer, lot, class)?;
    comparer.sheet.words[index] = own;
    Ok(())
}

/// Large sheets with many lots, some without a free or unused record.
fn nearly_full(comparer: &mut Comparer, random: &mut Random) -> Compared {
    for (length, free, unused) in [
        (PROGRAM_WORDS, 300, 40),
        (MOST_WORDS, 1_000, 100),
        (MOST_WORDS, 1, 0),
        (MOST_WORDS - 1, 0, 1),
        (MOST_WORDS, 0, 0),
        (room(1013) + 3, 0, 0),
    ] {
        for (plan, shuffled) in [(A, false), (SEVEN, true)] {
            let fill = Fill {
                free,
                unused,
                shuffled,
            };
            calls_on_many_lots(comparer, random, length, plan, &fill)?;
        }
    }
    Ok(())
}

/// Small and large sheets under plans with marked stages.
fn marked_sheets(comparer: &mut Comparer, random: &mut Random) -> Compared {
    marked_plays(comparer, random)?;
    for (length, plan, free, unused) in [
        (PROGRAM_WORDS, PUBLISHED, 300, 40),
        (MOST_WORDS - 1, PUBLISHED, 0, 1),
        (room(1013) + 3, SEVEN_THREE, 0, 0),
    ] {
        let fill = Fill {
            free,
            unused,
            shuffled: true,
        };
        calls_on_many_lots(comparer, random, length, plan, &fill)?;
    }
    Ok(())
}

/// About half of the marginal units on a sheet.
fn make_blank(random: &mut Random, words: &mut [u32]) {
    for index in HEAD..words.len() {
        let marginal = is_class(words, index) && words[index] == u32::from(MARGINAL);
        if marginal && random.one_in(2) {
            words[index] = u32::from(BLANK);
        }
    }
}

fn calls_on_many_lots(
    comparer: &mut Comparer,
    random: &mut Random,
    length: usize,
    plan: &[u32],
    fill: &Fill,
) -> Compared {
    let mut built = full_sheets::sheet(random, length, plan, fill);
    if random.one_in(2) {
        make_blank(random, &mut built.words);
    }
    comparer.new_sheet(built.words);
    for _ in 0..12 {
        let lot = random.pick(&built.lots);
        let class = random.between(0, 3);
        each_call_apart(comparer, lot, class)?;
        each_call(comparer, lot, class)?;
        each_call(comparer, lot + 1, class)?;
        damaged(comparer, random)?;
    }
    Ok(())
}
