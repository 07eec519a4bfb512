//! 01 "Program lots": the replies to standard input, on one sheet. No office has a share
//! of it (02, change 7).

use super::layout::PROGRAM_WORDS;
use super::offices::NO_SHARES;
use super::plan::whole_stages;
use super::sheet::Sheet;
use super::Reply;

/// The most bytes of a command.
pub const LINE_BYTES: usize = 255;

/// The replies to the whole input.
pub fn replies(input: &[u8]) -> Vec<u8> {
    let mut sheet = Sheet::new(vec![0; PROGRAM_WORDS]);
    let mut out = String::new();
    for line in lines(input) {
        let text = match answer(&mut sheet, line) {
            Ok(text) => text,
            Err(number) => format!("no {number}"),
        };
        out.push_str(&text);
        out.push('\n');
    }
    out.into_bytes()
}

/// What stands before each byte 10, and the bytes after the last one, if any.
fn lines(input: &[u8]) -> Vec<&[u8]> {
    let mut lines: Vec<&[u8]> = input.split(|&byte| byte == 10).collect();
    if lines.last().is_some_and(|last| last.is_empty()) {
        lines.pop();
    }
    lines
}

/// 1 to 10 digits, up to 4,294,967,295.
fn number(field: &[u8]) -> Option<u32> {
    if field.is_empty() || field.len() > 10 || !field.iter().all(u8::is_ascii_digit) {
        return None;
    }
    let text = std::str::from_utf8(field).ok()?;
    text.parse::<u64>().ok()?.try_into().ok()
}

/// The letter and the numbers of a line.
fn fields(line: &[u8]) -> Option<(u8, Vec<u32>)> {
    if line.len() > LINE_BYTES {
        return None;
    }
    let mut fields = line.split(|&byte| byte == b' ');
    let &[letter] = fields.next()? else {
        return None;
    };
    let numbers: Option<Vec<u32>> = fields.map(number).collect();
    Some((letter, numbers?))
}

fn answer(sheet: &mut Sheet, line: &[u8]) -> Reply<String> {
    let (letter, numbers) = fields(line).ok_or(16_u32)?;
    let done = match (letter, numbers.as_slice()) {
        (b'p', plan) if whole_stages(plan.len()) => sheet.fresh(plan, &NO_SHARES),
        (b'o', &[lot]) => sheet.open(lot),
        (b'i', &[lot, class]) => sheet.inspect(lot, class),
        (b's', &[lot]) => sheet.strike(lot),
        (b'c', &[lot]) => sheet.close(lot),
        (b'l', &[lot]) => return sheet.look(lot).map(|shown| look(&shown)),
        (b't', &[]) => {
            return sheet
                .tally()
                .map(|totals| format!("tally {}", spaced(&totals)))
        }
        _ => Err(16),
    };
    done.map(|()| "ok".to_string())
}

fn look(shown: &[u32]) -> String {
    let state = ["undecided", "accepted", "rejected"][shown[0] as usize];
    format!("{state} {}", spaced(&shown[1..]))
}

fn spaced(numbers: &[u32]) -> String {
    let texts: Vec<String> = numbers.iter().map(u32::to_string).collect();
    texts.join(" ")
}
