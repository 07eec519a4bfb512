//! Blanks (02, change 4): what is known of them by hand, and random lists and calls with
//! them.

use super::plan_selftest::two_ways;
use super::{expect_answer, sheet_histories};
use crate::generators::blank_lists::BLANK_JUDGED;
use crate::generators::lots_script::LISTING;
use crate::generators::random::Random;
use crate::generators::{blanks, draw};
use crate::lines::fields;
use crate::lines::sheet_lines::{self, Sheets};
use crate::model::earliest::Table;
use crate::model::judge::judge;
use crate::model::layout::{place, room, CLASS, FIRST_RECORD};
use crate::model::lots;
use crate::model::plan::Plan;

/// Gives the number of stops reached on the lists of so many random plans.
pub fn run(plans: usize, plays: usize) -> Result<usize, String> {
    for &(words, list, expected) in BLANK_JUDGED {
        expect_answer(&format!("j {list}{}", fields(words)), expected)?;
    }
    known_replies()?;
    listing()?;
    sheet_histories::run_with_blanks(plays)?;
    let random = &mut Random::new(43);
    (0..plans).try_fold(0, |stops, round| Ok(stops + lists(random, round)?))
}

/// Calls on a sheet under plan A and their replies, found by hand: 01's lot 122 with a
/// blank for its marginal unit, and an undecided lot with both.
const REPLIES: &[(&str, &str)] = &[
    ("o 7", "ok"),
    ("i 7 3", "ok"),
    ("i 7 2", "ok"),
    ("i 7 4", "no 7"),
    ("l 7", "0 2 0 1 1 1"),
    ("i 7 2", "ok"),
    ("l 7", "2 3 0 1 2 1"),
    ("e 7", "0 1 1 2"),
    ("c 7", "ok"),
    ("t", "0 1 0 1 2"),
    ("o 8", "ok"),
    ("i 8 3", "ok"),
    ("i 8 1", "ok"),
    ("i 8 0", "ok"),
    ("l 8", "0 3 1 2 0 1"),
    ("s 8", "ok"),
    ("s 8", "ok"),
    ("l 8", "0 1 0 1 0 1"),
    ("p BLANK 4", "ok"),
    ("l 8", "no 3"),
    ("p BLANK 3", "ok"),
    ("s 8", "ok"),
    ("l 8", "0 0 0 0 0 0"),
];

/// The word of the blank, in the record after the lot's.
const AT_BLANK: usize = place(FIRST_RECORD + 1, CLASS);

fn known_replies() -> Result<(), String> {
    let mut sheets = Sheets::new(vec![5; room(10)]);
    sheet_lines::answer(&mut sheets, "f 5 2 3 1 2")?;
    for &(line, expected) in REPLIES {
        let line = line.replace("BLANK", &AT_BLANK.to_string());
        let answer = sheet_lines::answer(&mut sheets, &line)?;
        let (reply, _digest) = answer.rsplit_once(' ').unwrap_or((&answer, ""));
        if reply != expected {
            return Err(format!("{line} gives {reply}, not {expected}"));
        }
    }
    Ok(())
}

/// The output that 01 has, with the blanks of its look.
const LISTED: &str = "ok\nok\nok\nok\nok\nrejected 3 0 1 2 0\nno 8\nok\ntally 0 1 0 1 2\n";

fn listing() -> Result<(), String> {
    let replies = lots::replies(LISTING.as_bytes());
    if replies == LISTED.as_bytes() {
        Ok(())
    } else {
        let replies = String::from_utf8_lossy(&replies);
        Err(format!("the listing of 01 gets {replies}"))
    }
}

/// Lists of a random plan with all, every other and some marginal units made blank: judged
/// as they were, earliest by all completions too.
fn lists(random: &mut Random, round: usize) -> Result<usize, String> {
    let k = 1 + round % 7;
    let (marked, units) = (random.index(k), random.between(1, 8));
    let words = draw::marked_plan(random, marked, k, units);
    let plan = Plan::admitted(&words).ok_or(format!("{words:?} should be admitted"))?;
    let table = Table::new(&plan);
    let list = match round % 2 {
        0 => {
            let length = random.index(plan.units() + 2);
            draw::mixed(random, &plan, length)
        }
        _ => draw::near_the_numbers(random, &plan),
    };
    let judged = judge(&plan, &table, &list).numbers();
    let some = blanks::some(random, &list);
    for with_blanks in [blanks::all(&list), blanks::every_other(&list), some] {
        let stop = two_ways(&plan, &table, &with_blanks)?;
        let found = judge(&plan, &table, &with_blanks);
        if found.numbers() != judged || found.stops[3] != stop {
            return Err(format!(
                "{with_blanks:?} under {words:?} is not as {list:?}"
            ));
        }
    }
    Ok(usize::from(judged[6] != 0))
}
