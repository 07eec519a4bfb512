//! Shares of offices (02, change 7): replies found by hand, and what is promised of lists
//! of calls on a fresh sheet. Here the records of an office are counted by looks at all
//! lots.

use super::sheet_histories;
use crate::generators::draw;
use crate::generators::hand_written::UNIT;
use crate::generators::office_draws::{self, shares_of, Offices};
use crate::generators::random::Random;
use crate::lines::sheet_lines::{self, Command, Sheets};
use crate::model::layout::{room, HEAD, OFFICES, RECORD_WORDS, SHARES};
use crate::model::offices::{Shares, NO_SHARES};
use crate::model::sheet::Sheet;
use crate::model::sheet_call::SheetCall;
use crate::model::Reply;

/// Gives the number of records that offices below their shares were granted, and of
/// those that others were not.
pub fn run(plays: usize) -> Result<[usize; 2], String> {
    known_lines()?;
    known_replies()?;
    known_sums()?;
    sheet_histories::run_with_shares(plays)?;
    let random = &mut Random::new(71);
    let mut counts = [0; 2];
    for _ in 0..plays {
        let found = fair(random)?;
        counts = [counts[0] + found[0], counts[1] + found[1]];
        without_shares(random)?;
    }
    match counts {
        [0, _] | [_, 0] => Err("no office is below its share, or none is held back".to_string()),
        _ => Ok(counts),
    }
}

/// Fresh as a line without shares and with them; with fewer than 16 it is none.
fn known_lines() -> Result<(), String> {
    let fifteen = "1 2 3 4 5 6 7 8 9 10 11 12 13 14 15";
    let no_shares = " 0".repeat(16);
    for (line, written) in [
        ("f 5 2 3".to_string(), "f 5 2 3".to_string()),
        (format!("g{no_shares} 5 2"), "f 5 2".to_string()),
        (format!("g {fifteen} 16"), format!("g {fifteen} 16")),
        (format!("g {fifteen} 0 5"), format!("g {fifteen} 0 5")),
    ] {
        match Command::parse(&line)? {
            Command::Call(call) if sheet_lines::call_line(&call) == written => {}
            _ => return Err(format!("{line} is not the line {written}")),
        }
    }
    match Command::parse(&format!("g {fifteen}")) {
        Ok(_) => Err("15 shares are a command".to_string()),
        Err(_) => Ok(()),
    }
}

/// Six records, of which offices 1 and 2 have two each as shares; one unit decides.
const REPLIES: &[(&str, &str)] = &[
    ("o 3", "ok"),
    ("i 3 0", "ok"),
    // Four are spare, and four are lacking.
    ("o 19", "no 19"),
    ("o 1", "ok"),
    ("i 1 0", "ok"),
    ("o 17", "no 19"),
    ("o 0", "no 4"),
    ("o 1", "no 5"),
    ("i 17 0", "no 6"),
    ("i 3 4", "no 7"),
    ("i 3 0", "no 8"),
    // Office 3 lacks nothing of what it gives back.
    ("c 3", "ok"),
    ("o 17", "ok"),
    ("i 17 2", "ok"),
    ("o 33", "no 19"),
    ("o 2", "ok"),
    ("o 33", "no 19"),
    ("i 2 0", "ok"),
    ("o 33", "no 11"),
    ("o 18", "no 11"),
    // Office 2 lacks what it gives back, office 1 doesn't.
    ("s 2", "ok"),
    ("o 33", "no 19"),
    ("s 17", "ok"),
    ("i 17 2", "ok"),
    ("o 33", "no 19"),
    ("o 18", "ok"),
    ("i 2 0", "no 11"),
    ("c 17", "ok"),
    ("o 4294967295", "ok"),
    ("o 16", "ok"),
    ("o 15", "no 11"),
    ("c 1", "ok"),
    ("o 32", "no 19"),
    ("i 16 0", "no 19"),
    ("o 17", "ok"),
    ("i 17 0", "ok"),
    ("t", "2 1 2 0 1"),
];

fn known_replies() -> Result<(), String> {
    let mut sheets = Sheets::new(vec![7; room(6)]);
    let fresh = sheets.sheet.fresh(UNIT, &shares_of(&[(1, 2), (2, 2)]));
    fresh.map_err(|number| format!("the shares are refused {number}"))?;
    for &(line, expected) in REPLIES {
        let answer = sheet_lines::answer(&mut sheets, line)?;
        let (reply, _digest) = answer.rsplit_once(' ').unwrap_or((&answer, ""));
        if reply != expected {
            return Err(format!("{line} gives {reply}, not {expected}"));
        }
    }
    Ok(())
}

/// Shares given for six records, and the reply.
const SUMS: &[(&[(usize, u32)], Reply<()>)] = &[
    (&[], Ok(())),
    (&[(0, 6)], Ok(())),
    (&[(15, 7)], Err(18)),
    (&[(0, 3), (15, 3)], Ok(())),
    (&[(0, 3), (8, 1), (15, 3)], Err(18)),
    (&[(4, 1 << 31), (5, 1 << 31)], Err(18)),
    (&[(4, u32::MAX), (5, 1)], Err(18)),
    (&[(4, u32::MAX)], Err(18)),
];

/// By fresh, and by the same words written to the head.
fn known_sums() -> Result<(), String> {
    for &(offices, expected) in SUMS {
        let shares = shares_of(offices);
        let mut sheet = Sheet::new(vec![7; room(6) + 3]);
        let refused = sheet.fresh(&UNIT[1..], &shares);
        let given = sheet.fresh(UNIT, &shares);
        let none = sheet.fresh(UNIT, &NO_SHARES);
        sheet.words[SHARES..HEAD].copy_from_slice(&shares);
        let corrupt = sheet.tally().map(|_| ());
        let found = [refused, given, none, corrupt];
        if found != [Err(2), expected, Ok(()), expected.map_err(|_| 3)] {
            return Err(format!("shares {offices:?} get {found:?}"));
        }
    }
    Ok(())
}

/// The records of each office, by a look at each lot.
pub fn held(sheet: &mut Sheet, lots: &[u32]) -> [u32; OFFICES] {
    let mut held = [0; OFFICES];
    for &lot in lots {
        let shown = sheet.look(lot);
        held[lot as usize % 16] += shown.map_or(0, |shown| 1 + shown[1]);
    }
    held
}

/// What all offices lack to reach their shares.
pub fn lacking(shares: &Shares, held: &[u32; OFFICES]) -> u32 {
    let pairs = shares.iter().zip(held).filter(|(share, held)| share > held);
    pairs.map(|(share, held)| share - held).sum()
}

/// A sheet of few records, and their number.
fn drawn(random: &mut Random) -> (Sheet, u32) {
    let records = random.at_ends_or_between(1, 40);
    let beyond = random.index(RECORD_WORDS);
    let seed = random.between(0, u32::MAX);
    (
        Sheet::new(vec![seed; room(records as usize) + beyond]),
        records,
    )
}

fn drawn_plan(random: &mut Random) -> Vec<u32> {
    let (k, units) = (random.between(1, 3), random.between(1, 5));
    draw::plan(random, k as usize, units)
}

/// A call, its reply as a number, and what each office held before it and holds after it.
struct Called<'a> {
    shares: &'a Shares,
    records: u32,
    call: &'a SheetCall,
    reply: u32,
    before: [u32; OFFICES],
    after: [u32; OFFICES],
}

impl Called<'_> {
    fn spare(&self, held: &[u32; OFFICES]) -> u32 {
        self.records - held.iter().sum::<u32>()
    }

    /// Whether a record is needed for a lot whose office is below its share.
    fn below_its_share(&self) -> bool {
        match *self.call {
            SheetCall::Open(lot) | SheetCall::Inspect(lot, _) => {
                let of = lot as usize % 16;
                self.before[of] < self.shares[of]
            }
            _ => false,
        }
    }

    /// An office below its share gets neither 11 nor 19, since as many records are spare as
    /// all offices lack. 11 is for a full sheet, 19 for another one.
    fn fair(&self) -> bool {
        let spare = self.spare(&self.before);
        let reply = match self.reply {
            11 => spare == 0 && !self.below_its_share(),
            19 => spare > 0 && !self.below_its_share(),
            18 => self.before == self.after,
            _ => !matches!(self.call, SheetCall::Fresh(..)),
        };
        reply && self.spare(&self.after) >= lacking(self.shares, &self.after)
    }
}

/// A list of calls, among them fresh with shares that don't fit.
fn fair(random: &mut Random) -> Result<[usize; 2], String> {
    let (mut sheet, records) = drawn(random);
    let (offices, plan) = (Offices::draw(random, records), drawn_plan(random));
    let shares = &offices.shares;
    let granted = sheet.fresh(&plan, shares);
    granted.map_err(|number| format!("shares that fit are refused {number}"))?;
    let (mut before, mut counts) = ([0; OFFICES], [0; 2]);
    for _ in 0..80 {
        let call = &match random.one_in(40) {
            true => SheetCall::Fresh(plan.clone(), office_draws::too_many(random, records)),
            false => offices.call(random, [2, 1, 1]),
        };
        let reply = call.make(&mut sheet).err().unwrap_or(0);
        let after = held(&mut sheet, &offices.lots);
        let called = Called {
            shares,
            records,
            call,
            reply,
            before,
            after,
        };
        if !called.fair() {
            return Err(format!(
                "{call:?} gets {reply}: {shares:?}, {before:?}, {after:?}"
            ));
        }
        counts[0] += usize::from(called.below_its_share() && reply == 0);
        counts[1] += usize::from(reply == 19);
        before = after;
    }
    Ok(counts)
}

/// With no shares a record is granted while one is spare, to any office: 11 comes where
/// none is, and 19 never. Only the number of spare records is kept here.
fn without_shares(random: &mut Random) -> Result<(), String> {
    let (mut sheet, records) = drawn(random);
    let (offices, plan) = (Offices::draw(random, records), drawn_plan(random));
    let fresh = sheet.fresh(&plan, &NO_SHARES);
    fresh.map_err(|number| format!("fresh without shares is refused {number}"))?;
    let mut spare = records;
    for _ in 0..80 {
        let call = offices.call(random, [2, 1, 1]);
        let closed = match call {
            SheetCall::Close(lot) => sheet.look(lot).map_or(0, |shown| 1 + shown[1]),
            _ => 0,
        };
        let reply = call.make(&mut sheet);
        let number = reply.err().unwrap_or(0);
        let needs = matches!(call, SheetCall::Open(_) | SheetCall::Inspect(..));
        let right = match (needs, number) {
            (true, 0) => spare > 0,
            (true, 11) => spare == 0,
            (_, number) => ![11, 18, 19].contains(&number),
        };
        if !right {
            return Err(format!("{call:?} gets {number} with {spare} spare records"));
        }
        match call {
            _ if number != 0 => {}
            SheetCall::Strike(_) => spare += 1,
            _ => spare = spare + closed - u32::from(needs),
        }
    }
    Ok(())
}
