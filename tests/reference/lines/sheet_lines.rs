//! Command lines on a sheet, with one put aside, and their answers. Fields are parted by
//! one space:
//!
//! - `n LEN SEED`: a new sheet of LEN words, word i being SEED × (i + 1).
//! - `p INDEX WORD`: writes a word.
//! - `a INDEX STRIDE COUNT START STEP`: writes START, START + STEP, .. to COUNT
//!   words, the first at INDEX, each STRIDE after the one before.
//! - `w INDEX WORD ..`: writes 1 to 127 words one after the other, the first at INDEX, up
//!   to the end of the sheet.
//! - `x`: exchanges the sheet with the one put aside, which has no words at first.
//! - `f` and plan words: fresh, every office's share 0. `g`, 16 shares and plan words:
//!   fresh with these shares, that of office 0 first (02, change 7).
//! - `o LOT`: open. `i LOT CLASS`: inspect. `s LOT`: strike. `c LOT`: close.
//!   `l LOT`: look. `t`: tally. `e LOT`: estimate.
//! - `y` and 16 shares: carries the sheet put aside, an old one, into the sheet under these
//!   shares (02, change 8).
//!
//! Words that are written are taken modulo 2^32. `n`, `p`, `a`, `w` and `x` get `ok`. A
//! call gets `ok`, its values, or `no` and a number, then the digest of all words of the
//! sheet.

use super::{fields, reply_text};
use crate::model::offices::{Shares, NO_SHARES};
use crate::model::sheet::Sheet;
use crate::model::sheet_call::SheetCall;

/// The sheet of the commands, and the words of the one put aside.
#[derive(Default)]
pub struct Sheets {
    pub sheet: Sheet,
    pub aside: Vec<u32>,
}

impl Sheets {
    /// A sheet of these words, and one without words put aside.
    pub fn new(words: Vec<u32>) -> Sheets {
        Sheets {
            sheet: Sheet::new(words),
            aside: vec![],
        }
    }

    pub fn exchange(&mut self) {
        std::mem::swap(&mut self.sheet.words, &mut self.aside);
    }
}

pub enum Command {
    Write(Write),
    Call(SheetCall),
    Exchange,
    Carry(Shares),
}

/// A command that writes words.
pub enum Write {
    New { length: u32, seed: u32 },
    Word { index: u32, word: u32 },
    Words([u32; 5]),
    Run { index: u32, words: Vec<u32> },
}

/// The most words of `w`.
pub const MOST_OF_A_RUN: usize = 127;

impl Write {
    pub fn make(&self, words: &mut Vec<u32>) {
        match *self {
            Write::New { length, seed } => {
                *words = (1..=length).map(|i| seed.wrapping_mul(i)).collect();
            }
            Write::Word { index, word } => words[index as usize] = word,
            Write::Words([index, stride, count, start, step]) => {
                for i in 0..count {
                    words[(index + i * stride) as usize] = start.wrapping_add(i.wrapping_mul(step));
                }
            }
            Write::Run {
                index,
                words: ref run,
            } => {
                let places = words.iter_mut().skip(index as usize);
                places.zip(run).for_each(|(place, word)| *place = *word);
            }
        }
    }
}

impl Command {
    pub fn parse(line: &str) -> Result<Command, String> {
        let mut fields = line.split(' ');
        let kind = fields.next().unwrap_or("");
        let numbers: Result<Vec<u32>, _> = fields.map(str::parse).collect();
        let command = numbers.ok().and_then(|numbers| {
            let write = write(kind, &numbers).map(Command::Write);
            let call = || call(kind, &numbers).map(Command::Call);
            write
                .or_else(call)
                .or_else(|| between_sheets(kind, &numbers))
        });
        command.ok_or_else(|| format!("not a command: {line}"))
    }
}

fn write(kind: &str, numbers: &[u32]) -> Option<Write> {
    match (kind, numbers) {
        ("n", &[length, seed]) => Some(Write::New { length, seed }),
        ("p", &[index, word]) => Some(Write::Word { index, word }),
        ("a", five) => five.try_into().ok().map(Write::Words),
        ("w", &[index, ref run @ ..]) if (1..=MOST_OF_A_RUN).contains(&run.len()) => {
            let words = run.to_vec();
            Some(Write::Run { index, words })
        }
        _ => None,
    }
}

fn between_sheets(kind: &str, numbers: &[u32]) -> Option<Command> {
    match (kind, numbers) {
        ("x", []) => Some(Command::Exchange),
        ("y", shares) => shares.try_into().ok().map(Command::Carry),
        _ => None,
    }
}

fn call(kind: &str, numbers: &[u32]) -> Option<SheetCall> {
    match (kind, numbers) {
        ("f", plan) => Some(SheetCall::Fresh(plan.to_vec(), NO_SHARES)),
        ("g", numbers) => {
            let (shares, plan) = numbers.split_first_chunk()?;
            Some(SheetCall::Fresh(plan.to_vec(), *shares))
        }
        ("o", &[lot]) => Some(SheetCall::Open(lot)),
        ("i", &[lot, class]) => Some(SheetCall::Inspect(lot, class)),
        ("s", &[lot]) => Some(SheetCall::Strike(lot)),
        ("c", &[lot]) => Some(SheetCall::Close(lot)),
        ("l", &[lot]) => Some(SheetCall::Look(lot)),
        ("t", []) => Some(SheetCall::Tally),
        ("e", &[lot]) => Some(SheetCall::Estimate(lot)),
        _ => None,
    }
}

/// The line of a call.
pub fn call_line(call: &SheetCall) -> String {
    match *call {
        SheetCall::Fresh(ref plan, NO_SHARES) => format!("f{}", fields(plan)),
        SheetCall::Fresh(ref plan, ref shares) => {
            format!("g{}{}", fields(shares), fields(plan))
        }
        SheetCall::Open(lot) => format!("o {lot}"),
        SheetCall::Inspect(lot, class) => format!("i {lot} {class}"),
        SheetCall::Strike(lot) => format!("s {lot}"),
        SheetCall::Close(lot) => format!("c {lot}"),
        SheetCall::Look(lot) => format!("l {lot}"),
        SheetCall::Tally => "t".to_string(),
        SheetCall::Estimate(lot) => format!("e {lot}"),
    }
}

/// h becomes h × 31 + word modulo this, from 0, over all words.
const MODULUS: u64 = 4_294_967_291;

fn digest(words: &[u32]) -> u64 {
    words
        .iter()
        .fold(0, |h, &word| (h * 31 + u64::from(word)) % MODULUS)
}

/// The line that carries the sheet put aside.
pub fn carry_line(shares: &Shares) -> String {
    format!("y{}", fields(shares))
}

/// The answer to a line.
pub fn answer(sheets: &mut Sheets, line: &str) -> Result<String, String> {
    let Sheets { sheet, aside } = sheets;
    let reply = match Command::parse(line)? {
        Command::Write(write) => {
            write.make(&mut sheet.words);
            return Ok("ok".to_string());
        }
        Command::Exchange => {
            sheets.exchange();
            return Ok("ok".to_string());
        }
        Command::Call(call) => call.make(sheet),
        Command::Carry(shares) => sheet.carry(aside, &shares).map(|()| vec![]),
    };
    let digest = digest(&sheets.sheet.words);
    Ok(format!("{} {digest}", reply_text(reply)))
}
