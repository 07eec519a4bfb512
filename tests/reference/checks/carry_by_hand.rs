//! Carries found by hand (02, change 8): command lines and replies, the words of an old
//! sheet and of what it becomes, and words that make it corrupt.

use crate::generators::hand_written::A;
use crate::generators::office_draws::shares_of;
use crate::lines::sheet_lines::{self, carry_line, Command, Sheets};
use crate::model::layout::*;
use crate::model::offices::{Shares, NO_SHARES};
use crate::model::sheet::Sheet;

pub fn run() -> Result<(), String> {
    known_lines()?;
    known_replies()?;
    known_words()?;
    known_damage()
}

/// Lines that are commands, and some with too few or too many fields that are none.
fn known_lines() -> Result<(), String> {
    let shares = shares_of(&[(0, 3), (15, 4_294_967_295)]);
    let carry = carry_line(&shares);
    let most = format!("w 5{}", " 1".repeat(127));
    for line in [&carry, "x", "w 5 1", &most] {
        Command::parse(line)?;
    }
    let (less, more) = (carry.trim_end_matches(" 4294967295"), format!("{carry} 0"));
    let above = format!("{most} 1");
    for line in [less, &more, "y", "x 1", "w 5", "w", &above] {
        if Command::parse(line).is_ok() {
            return Err(format!("{line} is a command"));
        }
    }
    match Command::parse(&carry)? {
        Command::Carry(read) if read == shares => Ok(()),
        _ => Err(format!("{carry} is read as something else")),
    }
}

/// Twelve records are used, one of them after the head; one unit decides.
const REPLIES: &[(&str, &str)] = &[
    ("y", "no 1"),
    ("n 48 0", "ok"),
    ("w 0 12 11 0 1 1 0 1 0 1", "ok"),
    ("w 44 5 0 0 0 9 9 9 9", "ok"),
    ("x", "ok"),
    ("n 63 7", "ok"),
    ("y", "no 1"),
    ("n 64 7", "ok"),
    ("y", "ok"),
    ("l 5", "0 0 0 0 0 0"),
    ("i 5 2", "no 11"),
    ("s 5", "no 9"),
    ("x", "ok"),
    // Words past the end are left out.
    ("w 47 0 1 1 1", "ok"),
    ("w 48 1 1 1 1", "ok"),
    ("p 3 8", "ok"),
    ("x", "ok"),
    ("y", "no 3"),
    ("l 5", "0 0 0 0 0 0"),
    ("n 68 7", "ok"),
    ("y", "no 3"),
    ("x", "ok"),
    ("p 3 1", "ok"),
    ("x", "ok"),
    ("y", "ok"),
    ("i 5 2", "ok"),
    ("l 5", "2 1 0 0 1 0"),
    ("c 5", "ok"),
    ("t", "0 1 0 0 1"),
];

fn known_replies() -> Result<(), String> {
    let mut sheets = Sheets::default();
    for &(line, expected) in REPLIES {
        let line = match line {
            "y" => carry_line(&NO_SHARES),
            _ => line.to_string(),
        };
        let answer = sheet_lines::answer(&mut sheets, &line)?;
        let (reply, _digest) = answer.rsplit_once(' ').unwrap_or((&answer, ""));
        if reply != expected {
            return Err(format!("{line} gives {reply}, not {expected}"));
        }
    }
    Ok(())
}

/// Lot 7 with a blank and a good unit, lot 2, three free records, two that were never used
/// and a word after them; four closed lots.
fn old_by_hand() -> Vec<u32> {
    let head = [&[18, 13, 16, 1][..], A, &[0; 30], &[3, 1, 9, 4, 5]].concat();
    let lots = [7, 0, 14, 0, 3, 0, 11, 1, 2, 11, 0, 0, 0, 12, 11, 2];
    let free = [1, 0, 0, FREE, 3, 17, 0, FREE, 2, 15, 0, FREE];
    [&head[..], &lots, &free, &[8; 9]].concat()
}

/// The same carried into as many records as it needs and three words.
fn carried_by_hand(shares: &Shares) -> Vec<u32> {
    let head = [&[22, 17, 20, 1][..], A, &[0; 30], &[3, 1, 9, 4, 5]].concat();
    let lots = [7, 0, 18, 0, 3, 0, 15, 1, 2, 15, 0, 0, 0, 16, 15, 2];
    let free = [1, 0, 0, FREE, 3, 21, 0, FREE, 2, 19, 0, FREE];
    [&head[..], shares, &lots, &free, &[6; 3]].concat()
}

fn known_words() -> Result<(), String> {
    let old = old_by_hand();
    let most = shares_of(&[(2, 1), (7, 2), (15, 4)]);
    let more = shares_of(&[(2, 2), (7, 2), (15, 4)]);
    let words = 22 * RECORD_WORDS + 3;
    let mut corrupt = old.clone();
    corrupt[44] = 0;
    for (old, words, shares, number) in [
        (&old, words, &most, 0),
        (&old, words, &NO_SHARES, 0),
        (&old, words, &more, 18),
        (&old, words - 4, &most, 18),
        (&old, words - 4, &NO_SHARES, 20),
        (&corrupt, words - 4, &more, 3),
    ] {
        let mut sheet = Sheet::new(vec![6; words]);
        let reply = sheet.carry(old, shares).err().unwrap_or(0);
        let expected = match number {
            0 => carried_by_hand(shares),
            _ => vec![6; words],
        };
        if reply != number || sheet.words != expected {
            return Err(format!(
                "a carry gets {reply}, not {number}: {:?}",
                sheet.words
            ));
        }
    }
    Ok(())
}

/// Words of `old_by_hand` that make it corrupt, alone, by their places.
const CORRUPTING: &[(usize, &[u32])] = &[
    (0, &[0, 10, 11, 17, 19, 21, u32::MAX]),
    (1, &[0, 10, 11, 14, 18, u32::MAX]),
    (2, &[0, 10, 13, 15, 18]),
    (3, &[0, 2, 8]),
    (4, &[0, 1_001]),
    (9, &[1]),
    (38, &[1]),
    (39, &[4_000_000, u32::MAX]),
    (41, &[3_992, u32::MAX]),
    // Lot 7.
    (44, &[0, 1, 2]),
    (45, &[10, 11, 12, 13, 18]),
    (46, &[0, 10, 12, 13, 15, 18]),
    (47, &[1, FREE]),
    // Its first inspection.
    (48, &[4, u32::MAX]),
    (49, &[10, 11, 12, 14]),
    (50, &[0, 12, 13, 15]),
    (51, &[0, 2, 5]),
    // The last record of the free chain.
    (60, &[0, 2, 5]),
    (61, &[10, 15, 16, 18]),
    (62, &[4, 15]),
    (63, &[0, FREE - 1]),
];

/// Words that don't, by their places.
const HARMLESS: &[(usize, &[u32])] = &[
    (4, &[6, 1_000]),
    (39, &[0, 3_999_999]),
    (41, &[0, 3_991]),
    (44, &[3, 18, u32::MAX]),
    (48, &[0, 1, 2]),
    (56, &[1, 2, 3]),
    (72, &[0, 5]),
];

fn known_damage() -> Result<(), String> {
    for (words, number) in [(CORRUPTING, 3), (HARMLESS, 0)] {
        for &(at, values) in words {
            for &word in values {
                let mut old = old_by_hand();
                old[at] = word;
                let what = || format!("word {at} made {word}");
                reply(&old, number).map_err(|reply| format!("{} gets {reply}", what()))?;
            }
        }
    }
    // A lot before the first record, in order but for that, and one at it.
    for (record, number) in [(10, 3), (11, 0)] {
        let mut old = [&[12, record, 0, 1][..], A, &[0; 43]].concat();
        old[place(record, NUMBER)] = 5;
        reply(&old, number).map_err(|reply| format!("a lot at {record} gets {reply}"))?;
    }
    Ok(())
}

/// An error is the reply to a carry that doesn't get this one.
fn reply(old: &[u32], number: u32) -> Result<(), u32> {
    let mut sheet = Sheet::new(vec![6; room(10)]);
    let reply = sheet.carry(old, &NO_SHARES).err().unwrap_or(0);
    (reply == number).then_some(()).ok_or(reply)
}
