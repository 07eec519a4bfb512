//! Whether the cases of office_*.rs meet the places that they are for. One that is wanted
//! and that no line meets is an error.

use super::office_places::{all_met, Met};
use crate::generators::sheet_cases;
use crate::lines::sheet_lines::{self, Sheets};
use crate::model::layout::{LEAST_WORDS, MOST_WORDS, OFFICES};

/// Gives the number of lines, of places that are wanted of them, and of refusals 18 and 19.
pub fn run() -> Result<[usize; 4], String> {
    let lines = sheet_cases::offices();
    others_have_no_shares(lines.len() + sheet_cases::carries().len())?;
    let mut met = Met::default();
    lines.iter().try_for_each(|line| met.line(line))?;
    let (counts, wanted) = (met.counts, wanted());
    all_met(&counts, &wanted, "office_*.rs")?;
    let shares = counts[FRESH_REFUSED];
    let held_back = HELD_BACK.iter().map(|&place| counts[place]).sum();
    Ok([lines.len(), wanted.len(), shares, held_back])
}

const FRESH_REFUSED: &str = "fresh: refused 18";
const HELD_BACK: [&str; 2] = ["open: refused 19", "inspect: refused 19"];

/// The lines before so many last ones: with no shares 18 and 19 never come.
fn others_have_no_shares(last: usize) -> Result<(), String> {
    let mut lines = sheet_cases::all();
    lines.truncate(lines.len() - last);
    let mut sheets = Sheets::default();
    for line in &lines {
        let answer = sheet_lines::answer(&mut sheets, line)?;
        if ["no 18 ", "no 19 "].iter().any(|no| answer.starts_with(no)) {
            return Err(format!("{line} without shares gets {answer}"));
        }
    }
    Ok(())
}

fn wanted() -> Vec<String> {
    let mut wanted = wanted_of_fresh();
    wanted.push(FRESH_REFUSED.to_string());
    wanted.extend(HELD_BACK.map(str::to_string));
    for name in ["open", "inspect"] {
        wanted.extend(wanted_of_offices(name));
        wanted.extend(wanted_of_the_rule(name));
        wanted.extend(wanted_of_returns(name));
    }
    wanted.extend(wanted_of_refusals());
    wanted.extend(wanted_of_damage());
    wanted
}

/// By what the shares add to beside the records after the head.
fn wanted_of_fresh() -> Vec<String> {
    let granted = ["no shares", "fewer", "the most"];
    let refused = ["one more", "more", "past 32 bits"];
    let mut wanted = granted.map(|fit| format!("fresh: {fit}, granted")).to_vec();
    for number in [1, 2, 18] {
        wanted.extend(refused.map(|fit| format!("fresh: {fit}, refused {number}")));
    }
    wanted.push("fresh: in 32 bits few, refused 18".to_string());
    for more in 0..=4 {
        let length = LEAST_WORDS + more;
        wanted.push(format!("fresh: the most of {length} words, granted"));
        wanted.push(format!("fresh: one more of {length} words, refused 18"));
    }
    for length in [LEAST_WORDS - 1, MOST_WORDS + 1] {
        wanted.push(format!("fresh: one more of {length} words, refused 1"));
    }
    for length in [MOST_WORDS - 4, MOST_WORDS - 1, MOST_WORDS] {
        wanted.push(format!("fresh: the most of {length} words, granted"));
        wanted.push(format!("fresh: one more of {length} words, refused 18"));
    }
    wanted.extend((0..OFFICES).map(|of| format!("fresh: all for office {of}, granted")));
    wanted.push("fresh: all alike, the most, granted".to_string());
    wanted.push("fresh: all alike, fewer, granted".to_string());
    wanted.extend(["no shares", "the most"].map(|fit| format!("fresh over lots: {fit}, granted")));
    wanted.extend([2, 18].map(|number| format!("fresh over lots: one more, refused {number}")));
    wanted
}

/// Each office, and each number up to 16 and the greatest.
fn wanted_of_offices(name: &str) -> Vec<String> {
    let replies = ["granted", "refused 11", "refused 19"];
    let mut wanted = vec![];
    for reply in replies {
        wanted.extend((0..OFFICES).map(|of| format!("{name}: office {of}, {reply}")));
    }
    for lot in (1..=16).chain([u32::MAX]) {
        wanted.push(format!("{name}: lot {lot}, granted"));
        wanted.push(format!("{name}: lot {lot}, refused 19"));
    }
    for others in [1, 2, 3, OFFICES - 1] {
        wanted.push(format!("{name}: {others} others lack, refused 19"));
        wanted.push(format!("{name}: {others} others lack, granted"));
    }
    wanted
}

/// An office below its share is granted a record, another one if more are spare than the
/// others lack. Fewer are spare only if shares were written.
fn wanted_of_the_rule(name: &str) -> Vec<String> {
    let below = ["one below its share", "below its share"];
    let not_below = ["at its share", "above its share", "no share"];
    let spare = [
        ("fewer spare than others lack", "refused 19"),
        ("as many spare as others lack", "refused 19"),
        ("one more spare than others lack", "granted"),
        ("more spare than others lack", "granted"),
        ("others lack none", "granted"),
        ("none spare", "refused 11"),
    ];
    let mut wanted = vec![];
    for (spare, reply) in spare {
        wanted.extend(not_below.map(|office| format!("{name}: {office}, {spare}, {reply}")));
        let reply = reply.replace("refused 19", "granted");
        wanted.extend(below.map(|office| format!("{name}: {office}, {spare}, {reply}")));
    }
    for kinds in ["free", "unused", "free and unused"] {
        for reply in ["granted", "refused 19"] {
            wanted.push(format!("{name}: spare are {kinds}, {reply}"));
        }
    }
    wanted
}

/// An office that was held back gets a record once another one gives back what it doesn't
/// lack then, and none where all that is given back is lacking.
fn wanted_of_returns(name: &str) -> Vec<String> {
    let mut wanted = vec![];
    for gave in ["strike", "close"] {
        let after = format!("{name}: granted after 19 and a {gave}");
        wanted.push(format!("{after} of another office, nothing lacking"));
        wanted.push(format!("{after} of its office, nothing lacking"));
        let still = format!("{name}: refused 19 after 19 and a {gave}");
        wanted.push(format!("{still} of another office, as much lacking"));
    }
    wanted.push(format!(
        "{name}: granted after 19 and a close of another office, less lacking"
    ));
    wanted
}

/// 4, 5, 6, 7 and 8 before 11 and 19; and what strike and close give back.
fn wanted_of_refusals() -> Vec<String> {
    let mut wanted = vec![];
    for rule in ["full too", "held back too"] {
        wanted.extend([4, 5].map(|number| format!("open: refused {number}, {rule}")));
        wanted.extend([6, 7, 8].map(|number| format!("inspect: refused {number}, {rule}")));
    }
    for name in ["strike", "close"] {
        wanted.push(format!("{name}: nothing lacking"));
        wanted.push(format!("{name}: as much lacking"));
    }
    wanted.push("close: less lacking".to_string());
    wanted
}

/// Each share written, and each call then.
fn wanted_of_damage() -> Vec<String> {
    let calls = [
        "open", "inspect", "strike", "close", "look", "tally", "estimate",
    ];
    let mut wanted = vec![];
    for of in 0..OFFICES {
        for how in ["raised to one more", "made 2^32 - 1"] {
            wanted.extend(calls.map(|call| format!("share {of} {how}, corrupt: {call}")));
        }
        for how in ["lowered", "raised to the most"] {
            wanted.extend(calls.map(|call| format!("share {of} {how}, not corrupt: {call}")));
        }
        wanted.push(format!("share {of} made 0 in 32 bits, corrupt: tally"));
    }
    wanted
}
