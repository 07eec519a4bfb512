//! Whether the cases of carry_*.rs meet the places that they are for. One that is wanted
//! and that no line meets is an error.

use super::carry_places::Met;
use super::office_places::all_met;
use crate::generators::sheet_cases;
use crate::model::layout::{CLOSED_LOTS, K, MOST_WORDS, NEXT_UNUSED, OFFICES, STAGES, TOTALS_END};
use crate::model::plan::STAGE_WORDS;

/// Gives the number of lines, of places that are wanted of them, and of carries granted.
pub fn run() -> Result<[usize; 3], String> {
    let lines = sheet_cases::carries();
    let mut met = Met::default();
    lines.iter().try_for_each(|line| met.line(line))?;
    let (counts, wanted) = (met.counts, wanted());
    all_met(&counts, &wanted, "carry_*.rs")?;
    let never = never();
    if let Some(place) = never.iter().find(|place| counts.contains_key(*place)) {
        return Err(format!("a line of carry_*.rs has {place}"));
    }
    let granted = counts.get("carry: granted").copied();
    Ok([lines.len(), wanted.len(), granted.unwrap_or(0)])
}

fn wanted() -> Vec<String> {
    let mut wanted = wanted_of_sizes();
    wanted.extend(wanted_of_refusals());
    wanted.extend(wanted_of_fits());
    wanted.extend(wanted_of_kinds());
    wanted.extend(wanted_of_head());
    wanted.extend(wanted_of_records());
    wanted.extend(wanted_of_offices());
    wanted.extend(wanted_of_points());
    wanted.extend(wanted_of_calls());
    wanted
}

fn wanted_of_sizes() -> Vec<String> {
    let mut wanted = vec![];
    for length in [0, 1, 43, 44, 45, 47, MOST_WORDS + 1, MOST_WORDS + 4] {
        wanted.push(format!("old of {length} words: refused 1"));
    }
    for length in [
        48,
        49,
        51,
        52,
        60,
        63,
        64,
        MOST_WORDS - 4,
        MOST_WORDS - 1,
        MOST_WORDS,
    ] {
        wanted.push(format!("old of {length} words: granted"));
        wanted.push(format!("old of {length} words: refused 3"));
    }
    for length in [0, 1, 48, 59, 60, 61, 63, MOST_WORDS + 1, MOST_WORDS + 4] {
        wanted.push(format!("second of {length} words: refused 1"));
    }
    for length in [
        64,
        65,
        67,
        68,
        69,
        MOST_WORDS - 4,
        MOST_WORDS - 1,
        MOST_WORDS,
    ] {
        wanted.push(format!("second of {length} words: granted"));
    }
    wanted
}

/// Each refusal with each that comes after it.
fn wanted_of_refusals() -> Vec<String> {
    let all = [
        (1, "old"),
        (1, "second"),
        (3, "corrupt"),
        (18, "shares"),
        (20, "no fit"),
    ];
    let mut wanted = vec![];
    for (turn, (reply, why)) in all.iter().enumerate() {
        wanted.push(format!("{why} {reply} alone"));
        for (number, why) in &all[turn..] {
            wanted.push(format!("refused {reply}, {why} {number} applies"));
        }
    }
    wanted
}

fn wanted_of_fits() -> Vec<String> {
    let mut wanted = vec![];
    for beyond in 0..4 {
        for (fit, reply) in [
            ("just fits", "granted"),
            ("larger than needed", "granted"),
            ("one record too small", "refused 20"),
            ("one record too small", "refused 18"),
        ] {
            wanted.push(format!(
                "second sheet {fit}, {beyond} words beyond: {reply}"
            ));
        }
    }
    for than in ["smaller", "as large", "larger"] {
        wanted.push(format!("second sheet {than}: granted"));
        wanted.push(format!("second sheet {than}: refused 20"));
    }
    wanted.extend(["granted", "refused 20"].map(|is| format!("all of the old sheet used: {is}")));
    for (more, reply) in [
        (-1, "granted"),
        (0, "granted"),
        (1, "refused 20"),
        (4, "refused 20"),
    ] {
        wanted.push(format!(
            "old of {MOST_WORDS} words, {more} too many: {reply}"
        ));
    }
    for fit in ["no shares", "the most", "fewer"] {
        wanted.push(format!("shares, {fit}: granted"));
        wanted.push(format!("shares, {fit}: refused 20"));
    }
    for fit in ["one more", "more", "in 32 bits few", "past 32 bits"] {
        wanted.push(format!("shares, {fit}: refused 18"));
    }
    wanted
}

fn wanted_of_kinds() -> Vec<String> {
    let mut wanted: Vec<String> = [0, 1, 2].map(|lots| format!("carried: {lots} lots")).into();
    wanted.extend((0..=5).map(|free| format!("carried: {free} free")));
    wanted.extend((0..=1).map(|unused| format!("carried: {unused} unused")));
    wanted.extend((1..=7).map(|stages| format!("carried: {stages} stages")));
    wanted.push("carried: marked stages".to_string());
    for closed in ["[0, 0]", "[0, 1]", "[1, 0]", "[1, 1]"] {
        wanted.push(format!("carried: closed lots {closed}"));
    }
    for units in 0..=2 {
        wanted.push(format!("carried: a lot undecided, {units} units or more"));
    }
    for state in ["accepted", "rejected"] {
        wanted.extend([1, 2].map(|units| format!("carried: a lot {state}, {units} units or more")));
    }
    for state in ["undecided", "accepted", "rejected"] {
        wanted.extend(["last", "before"].map(|at| format!("carried: a lot {state}, a blank {at}")));
    }
    wanted.extend(
        (0..=2).map(|stage| format!("carried: a lot undecided, past {stage} stages or more")),
    );
    for record in 11..=14 {
        let kinds = ["of a lot", "of an inspection", "free"];
        wanted.extend(kinds.map(|kind| format!("carried: record {record} {kind}")));
    }
    wanted
}

/// Those before the first record, the first one and the last of the four that only the old
/// layout has, and those past the records in use.
fn indices() -> Vec<String> {
    let small = (0..=11).chain([14]).map(|index: u32| index.to_string());
    let large = ["word 0", "2^32 - 1"].map(str::to_string);
    small.chain(large).collect()
}

/// Each word of an old head is damaged, the first lot and the first free by these indices.
fn wanted_of_head() -> Vec<String> {
    let mut wanted = vec![];
    let of_one_stage = STAGES + STAGE_WORDS;
    let stages = STAGES..of_one_stage + STAGE_WORDS;
    let plan = [NEXT_UNUSED, K].into_iter().chain(stages);
    let corrupt = plan.chain(CLOSED_LOTS..TOTALS_END);
    wanted.extend(corrupt.map(|at| format!("word {at} changed: corrupt")));
    wanted
        .extend((of_one_stage..CLOSED_LOTS).map(|at| format!("unused word {at} changed: corrupt")));
    wanted.extend((CLOSED_LOTS..TOTALS_END).map(|at| format!("word {at} changed: not corrupt")));
    for at in [1, 2] {
        for index in indices() {
            wanted.push(format!("index in word {at} made {index}: corrupt"));
        }
    }
    wanted
}

/// Each word of each kind of record, and the indices among them.
fn wanted_of_records() -> Vec<String> {
    let (lot, inspection, free) = ("of a lot", "of an inspection", "free");
    let mut wanted = vec![
        "word never used changed: not corrupt".to_string(),
        "word beyond changed: not corrupt".to_string(),
        format!("word 0 {lot} changed: not corrupt"),
        format!("word 0 {inspection} changed: not corrupt"),
    ];
    for (kind, words) in [
        (lot, &[0, 3][..]),
        (inspection, &[0, 3]),
        (free, &[0, 2, 3]),
    ] {
        for word in words {
            wanted.push(format!("word {word} {kind} changed: corrupt"));
        }
    }
    for (kind, words) in [(lot, &[1, 2][..]), (inspection, &[1, 2]), (free, &[1])] {
        for word in words {
            for index in indices() {
                wanted.push(format!("index in word {word} {kind} made {index}: corrupt"));
            }
        }
    }
    wanted
}

/// Each office beside its share at the carry, and what is spare then.
fn wanted_of_offices() -> Vec<String> {
    let mut wanted = vec![];
    for of in 0..OFFICES {
        let standings = [
            "above its share",
            "at its share",
            "below its share",
            "no share",
        ];
        wanted.extend(standings.map(|standing| format!("arrives: office {of} {standing}")));
    }
    for spare in [
        "none lack",
        "fewer spare than all lack",
        "one fewer spare than all lack",
        "as many spare as all lack",
        "one more spare than all lack",
        "more spare than all lack",
    ] {
        wanted.push(format!("arrives: {spare}"));
    }
    wanted
}

const NOT_BELOW: [&str; 3] = ["at its share", "above its share", "no share"];

/// What an office gets while fewer are spare than all lack, and from the point on.
fn wanted_of_points() -> Vec<String> {
    let mut wanted = vec![];
    for name in ["open", "inspect"] {
        let fewer = format!("{name} after a carry, fewer spare");
        let enough = format!("{name} after a carry, enough spare");
        wanted.push(format!("{fewer}, below its share: granted"));
        wanted.push(format!("{fewer}, below its share: refused 11"));
        wanted.push(format!("{enough}, below its share: granted"));
        for standing in NOT_BELOW {
            wanted.push(format!("{fewer}, {standing}: refused 11"));
            wanted.push(format!("{fewer}, {standing}: refused 19"));
            wanted.push(format!("{enough}, {standing}: refused 11"));
            wanted.push(format!("{enough}, {standing}: refused 19"));
            wanted.push(format!("{enough}, {standing}: granted"));
        }
    }
    wanted.extend(["strike", "close"].map(|name| format!("enough spare after a {name}")));
    wanted
}

/// An office below its share is never held back, nor without a record from the point on.
fn never() -> Vec<String> {
    let mut never = vec![];
    for name in ["open", "inspect"] {
        for (point, number) in [("fewer", 19), ("enough", 19), ("enough", 11)] {
            let after = format!("{name} after a carry, {point} spare");
            never.push(format!("{after}, below its share: refused {number}"));
        }
        for standing in NOT_BELOW {
            let after = format!("{name} after a carry, fewer spare");
            never.push(format!("{after}, {standing}: granted"));
        }
    }
    never
}

/// Each reply to each call after a granted carry, and the old sheet after any.
fn wanted_of_calls() -> Vec<String> {
    let mut wanted = vec![];
    for (name, refusals) in [
        ("open", &[4, 5, 11, 19][..]),
        ("inspect", &[6, 7, 8, 11, 19]),
        ("strike", &[6, 9]),
        ("close", &[6, 10, 12]),
        ("look", &[6]),
        ("tally", &[]),
        ("estimate", &[6, 10, 15]),
    ] {
        wanted.push(format!("{name} after a carry: granted"));
        let refused = refusals.iter();
        wanted.extend(refused.map(|number| format!("{name} after a carry: refused {number}")));
    }
    wanted.push("close after a carry: the last lot".to_string());
    wanted.extend([0, 1, 3, 18, 20].map(|number| match number {
        0 => "the old sheet after a carry granted".to_string(),
        _ => format!("the old sheet after a carry refused {number}"),
    }));
    wanted
}
