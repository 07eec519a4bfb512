//! Carries of old sheets (02, change 8): any words, sheets of all sizes in order and
//! damaged, and calls after a carry.

use crate::compare::{Compared, Comparer};
use crate::offices::shares_given;
use crate::sheets::{any_words, damaged, each_call, each_call_apart};
use reference::generators::draw;
use reference::generators::full_sheets::{self, Fill};
use reference::generators::hand_written::{A, SEVEN, UNIT};
use reference::generators::marked_plans::PUBLISHED;
use reference::generators::office_draws::{shares, Offices};
use reference::generators::old_sheets::{old_sheet, played};
use reference::generators::random::Random;
use reference::model::layout::*;
use reference::model::offices::{Shares, NO_SHARES};

const SEED: u64 = 65_537_020;

pub fn all(comparer: &mut Comparer) -> Compared {
    let random = &mut Random::new(SEED);
    sizes(comparer, random)?;
    any_records(comparer, random)?;
    plays(comparer, random)?;
    large(comparer, random)
}

/// Any words of all sizes, with the head of a fresh old sheet or without it.
fn sizes(comparer: &mut Comparer, random: &mut Random) -> Compared {
    let small = [
        0, 1, 2, 4, 43, 44, 45, 47, 48, 49, 51, 52, 59, 60, 63, 64, 65, 67, 68,
    ];
    let large = [-4, -1, 0, 1, 4].map(|more| MOST_WORDS.wrapping_add_signed(more));
    let sizes = [&small[..], &[201], &large, &[2 * MOST_WORDS]].concat();
    for &old in &sizes {
        for &second in &sizes {
            let most = random.pick(&[0, 3, 20, u32::MAX]);
            comparer.aside = any_words(random, old, most);
            if old >= OLD.head() && !random.one_in(4) {
                let head = old_sheet(OLD.room(1), 0, random.pick(&[A, SEVEN]), "");
                comparer.aside[..OLD.head()].copy_from_slice(&head[..OLD.head()]);
            }
            let most = random.pick(&[0, u32::MAX]);
            comparer.new_sheet(any_words(random, second, most));
            let shares = shares_given(random, second, old + second);
            comparer.carry(&shares)?;
            if comparer.carry(&NO_SHARES)? == 0 {
                each_call(comparer, random.between(1, 32), 1)?;
            }
        }
    }
    Ok(())
}

/// The head of an old sheet in order over few records of small words, which form chains
/// now and then.
fn any_records(comparer: &mut Comparer, random: &mut Random) -> Compared {
    for round in 0..8_000 {
        let length = random.pick(&[1, 2, 3, 5].map(|records| OLD.room(records)));
        let first = OLD.first_record;
        let mut old = old_sheet(length, 0, UNIT, "");
        let indices = [0, 0, first, first + 1];
        old[NEXT_UNUSED] = random.between(first, first + 2);
        old[FIRST_LOT] = random.pick(&indices);
        old[FIRST_FREE] = random.pick(&indices);
        for at in OLD.head()..length {
            let next = random.pick(&indices);
            let tag = random.pick(&[0, 0, 1, FREE]);
            old[at] = [random.between(0, 4), next, next, tag][at % RECORD_WORDS];
        }
        comparer.aside = old;
        let second = LEAST_WORDS + random.index(3 * RECORD_WORDS);
        comparer.new_sheet(any_words(random, second, u32::MAX));
        if comparer.carry(&shares_given(random, second, round))? == 0 {
            each_call_apart(comparer, 1 + round as u32 % 3, round as u32 % 5)?;
        }
    }
    Ok(())
}

/// Random calls on old sheets, carries into several second sheets, damaged old words, and
/// random calls after a carry.
fn plays(comparer: &mut Comparer, random: &mut Random) -> Compared {
    for round in 0..240 {
        let units = random.between(1, 8);
        let plan = match round % 5 {
            0 => UNIT.to_vec(),
            1 => A.to_vec(),
            2 | 3 => draw::plan(random, 1 + round % 7, units),
            _ => draw::marked_plan(random, 1, 2 + round % 3, units + 1),
        };
        let records = random.at_ends_or_between(1, 40);
        let offices = Offices::draw(random, records);
        let length = OLD.room(records as usize) + random.index(RECORD_WORDS);
        let calls = random.pick(&[0, 10, 60, 200]);
        let seed = random.between(0, u32::MAX);
        comparer.aside = played(random, length, seed, &plan, &offices, calls);
        play(comparer, random, &offices)?;
    }
    Ok(())
}

/// A second sheet around the smallest that fits, of any words or of those of the last carry.
fn play(comparer: &mut Comparer, random: &mut Random, offices: &Offices) -> Compared {
    let least = place(comparer.aside[NEXT_UNUSED] + RAISE, 0);
    for more in [-5, -4, -1, 0, 1, 4, 41] {
        let second = least.wrapping_add_signed(more).max(LEAST_WORDS);
        comparer.new_sheet(any_words(random, second, u32::MAX));
        let kind = random.index(6);
        let given = shares_given(random, second, kind);
        comparer.carry(&given)?;
        let fitting = shares(random, records_after_head(second) as u32, &offices.lots);
        comparer.carry(&fitting)?;
        for _ in 0..12 {
            damaged_old(comparer, random, &fitting)?;
        }
    }
    let mix = random.pick(&[[1, 1, 1], [6, 1, 1], [1, 0, 3], [1, 3, 1]]);
    for turn in 0..60 {
        comparer.on_sheet(&offices.call(random, mix))?;
        if turn % 20 == 10 {
            damaged(comparer, random)?;
        }
    }
    // What a carry and calls left is carried as an old sheet, and old words over it.
    let new = comparer.sheet.words.clone();
    let old = std::mem::replace(&mut comparer.aside, new);
    comparer.carry(&NO_SHARES)?;
    comparer.aside = old;
    comparer.carry(&NO_SHARES)?;
    each_call(comparer, random.pick(&offices.lots), 0)
}

/// A carry of the old sheet with one word damaged, which is then undone.
fn damaged_old(comparer: &mut Comparer, random: &mut Random, shares: &Shares) -> Compared {
    let words = &mut comparer.aside;
    let used = words[NEXT_UNUSED];
    let in_use = words.len().min(place(used, 0));
    let index = match random.index(4) {
        0 => random.index(STAGES),
        1 => random.index(words.len()),
        _ => random.index(in_use),
    };
    let own = words[index];
    let near = [own.wrapping_add(1), own.wrapping_sub(1), own ^ 2];
    let first = OLD.first_record;
    let far = [
        0,
        4,
        first - 1,
        first,
        first + 3,
        FIRST_RECORD,
        used,
        used.wrapping_sub(1),
        u32::MAX,
    ];
    words[index] = match random.index(3) {
        0 => random.pick(&near),
        1 => words[random.index(in_use)],
        _ => random.pick(&far),
    };
    let number = comparer.carry(shares)?;
    if number == 0 {
        each_call_apart(comparer, random.between(1, 20), 0)?;
    }
    comparer.aside[index] = own;
    Ok(())
}

/// Large old sheets with many lots, around the most that a second sheet has records for.
fn large(comparer: &mut Comparer, random: &mut Random) -> Compared {
    let rise = RAISE as usize;
    for (length, plan, free, unused) in [
        (PROGRAM_WORDS, SEVEN, 300, 40),
        (MOST_WORDS, A, 1_000, rise + 1),
        (MOST_WORDS, PUBLISHED, 3, rise),
        (MOST_WORDS - 1, A, 0, rise - 1),
        (MOST_WORDS, UNIT, 0, rise - 1),
        (MOST_WORDS, A, 0, 0),
    ] {
        let fill = Fill {
            free,
            unused,
            shuffled: true,
        };
        let built = full_sheets::under(random, OLD, length, plan, &fill);
        comparer.aside = built.words;
        let least = place(comparer.aside[NEXT_UNUSED] + RAISE, 0);
        for second in [least - 1, least, MOST_WORDS] {
            comparer.new_sheet(any_words(random, second, u32::MAX));
            for round in 0..6 {
                comparer.carry(&shares_given(random, second, round))?;
            }
            (0..6).try_for_each(|_| damaged_old(comparer, random, &NO_SHARES))?;
            if comparer.carry(&NO_SHARES)? == 0 {
                let lot = random.pick(&built.lots);
                each_call(comparer, lot, 0)?;
                each_call(comparer, lot + 1, 3)?;
            }
        }
    }
    Ok(())
}
