//! The program lots: 01 "Program lots", by blocks of input as they come.

use super::plan::{MOST_STAGES, STAGE_WORDS};
use super::shares::OFFICES;
use super::sheet;
use std::io::{self, Read, Write};

const SHEET_WORDS: usize = 16_384;

/// Bytes of a line that are kept: one more than a command may have.
const KEPT: usize = 256;

/// The most numbers of a command.
const MOST_NUMBERS: usize = MOST_STAGES * STAGE_WORDS;

/// Replies to standard input, those of a block in one write.
pub fn run() -> io::Result<()> {
    let mut session = Session::new();
    let mut block = [0; 4096];
    loop {
        let length = io::stdin().read(&mut block)?;
        if length == 0 {
            session.end();
            return io::stdout().write_all(&session.replies);
        }
        session.take(&block[..length]);
        io::stdout().write_all(&session.replies)?;
        session.replies.clear();
    }
}

/// The sheet, the line that is read, and the replies that are not written yet.
pub struct Session {
    words: Vec<u32>,
    line: Vec<u8>,
    pub replies: Vec<u8>,
}

impl Session {
    pub fn new() -> Session {
        Session {
            words: vec![0; SHEET_WORDS],
            line: Vec::with_capacity(KEPT),
            replies: Vec::new(),
        }
    }

    pub fn take(&mut self, block: &[u8]) {
        for &byte in block {
            if byte == 10 {
                self.answer();
            } else if self.line.len() < KEPT {
                self.line.push(byte);
            }
        }
    }

    /// Answers a last line that no byte 10 ends.
    pub fn end(&mut self) {
        if !self.line.is_empty() {
            self.answer();
        }
    }

    fn answer(&mut self) {
        let mut numbers = [0; MOST_NUMBERS];
        let done = match fields(&self.line, &mut numbers) {
            Some((letter, numbers)) => call(&mut self.words, letter, numbers, &mut self.replies),
            None => Err(16),
        };
        if let Err(number) = done {
            print("no", &[number], &mut self.replies);
        }
        self.line.clear();
    }
}

/// Makes the call of a command, and prints the reply if it is granted.
fn call(words: &mut [u32], letter: u8, numbers: &[u32], replies: &mut Vec<u8>) -> Result<(), u32> {
    match (letter, numbers) {
        (b'l', &[lot]) => {
            let [state, counts @ ..] = sheet::look(words, lot)?;
            let state = ["undecided", "accepted", "rejected"][state as usize];
            print(state, &counts, replies);
            return Ok(());
        }
        (b't', &[]) => {
            print("tally", &sheet::tally(words)?, replies);
            return Ok(());
        }
        (b'p', plan) if !plan.is_empty() && plan.len() % STAGE_WORDS == 0 => {
            sheet::fresh(words, plan, &[0; OFFICES])?;
        }
        (b'o', &[lot]) => sheet::open(words, lot)?,
        (b'i', &[lot, class]) => sheet::inspect(words, lot, class)?,
        (b's', &[lot]) => sheet::strike(words, lot)?,
        (b'c', &[lot]) => sheet::close(words, lot)?,
        _ => return Err(16),
    }
    print("ok", &[], replies);
    Ok(())
}

/// The letter and the numbers of a line.
fn fields<'a>(line: &[u8], numbers: &'a mut [u32; MOST_NUMBERS]) -> Option<(u8, &'a [u32])> {
    if line.len() >= KEPT {
        return None;
    }
    let mut fields = line.split(|&byte| byte == b' ');
    let &[letter] = fields.next()? else {
        return None;
    };
    let mut length = 0;
    for field in fields {
        *numbers.get_mut(length)? = number(field)?;
        length += 1;
    }
    Some((letter, &numbers[..length]))
}

fn number(field: &[u8]) -> Option<u32> {
    if !(1..=10).contains(&field.len()) {
        return None;
    }
    let mut value = 0;
    for &byte in field {
        if !byte.is_ascii_digit() {
            return None;
        }
        value = value * 10 + u64::from(byte - b'0');
    }
    value.try_into().ok()
}

fn print(word: &str, numbers: &[u32], replies: &mut Vec<u8>) {
    replies.extend_from_slice(word.as_bytes());
    for &number in numbers {
        replies.push(b' ');
        print_digits(number, replies);
    }
    replies.push(10);
}

fn print_digits(number: u32, replies: &mut Vec<u8>) {
    let mut digits = [0; 10];
    let (mut first, mut rest) = (digits.len(), number);
    loop {
        first -= 1;
        digits[first] = b'0' + (rest % 10) as u8;
        rest /= 10;
        if rest == 0 {
            break;
        }
    }
    replies.extend_from_slice(&digits[first..]);
}
