//! The reference as a program. tests/reference/build builds it.
//!
//! - `reference cases` writes the seeded cases on stdout, the same at each run.
//! - `reference answers` reads case lines on stdin and writes one answer line each.
//! - `reference sheet-cases` and `reference sheet-answers`: alike, for calls on sheets.
//! - `reference lots-script` writes a script for the program `lots`, and
//!   `reference lots` answers a script on stdin.
//! - `reference stats` says on stderr what the seeded cases cover.
//! - `reference selftest` checks the reference itself.

use reference::checks::{selftest, stats};
use reference::generators::{lots_script, plan_cases, sheet_cases};
use reference::lines::sheet_lines::Sheets;
use reference::lines::{plan_lines, sheet_lines};
use reference::model::lots;
use reference::model::plan_calls::PlanCalls;
use std::io::{self, BufRead, BufWriter, Read, Write};
use std::process::ExitCode;

const USAGE: &str =
    "usage: reference [sheet-]cases | [sheet-]answers | lots-script | lots | stats | selftest";

fn main() -> ExitCode {
    let done = match std::env::args().nth(1).as_deref() {
        Some("cases") => write_lines(plan_cases::all().into_iter().map(Ok)),
        Some("answers") => write_answers(PlanCalls::default(), plan_lines::answer),
        Some("sheet-cases") => write_lines(sheet_cases::all().into_iter().map(Ok)),
        Some("sheet-answers") => write_answers(Sheets::default(), sheet_lines::answer),
        Some("lots-script") => write_bytes(&lots_script::all()),
        Some("lots") => write_lots(),
        Some("stats") => stats::write(),
        Some("selftest") => selftest(),
        _ => Err(USAGE.to_string()),
    };
    match done {
        Ok(()) => ExitCode::SUCCESS,
        Err(message) => {
            eprintln!("reference: {message}");
            ExitCode::FAILURE
        }
    }
}

type Text = Result<String, String>;

/// The answers to the lines of stdin. What is kept between lines starts as given.
fn write_answers<T>(mut kept: T, answer: fn(&mut T, &str) -> Text) -> Result<(), String> {
    write_lines(io::stdin().lock().lines().map(|line| {
        let line = line.map_err(|error| error.to_string())?;
        answer(&mut kept, &line)
    }))
}

fn write_lots() -> Result<(), String> {
    let mut input = Vec::new();
    let read = io::stdin().lock().read_to_end(&mut input);
    read.map_err(|error| error.to_string())?;
    write_bytes(&lots::replies(&input))
}

fn write_bytes(bytes: &[u8]) -> Result<(), String> {
    let written = io::stdout().write_all(bytes);
    written.map_err(|error| error.to_string())
}

/// Writes lines up to the first error, so that what was answered is on stdout.
fn write_lines(lines: impl Iterator<Item = Text>) -> Result<(), String> {
    let mut out = BufWriter::new(io::stdout().lock());
    for line in lines {
        writeln!(out, "{}", line?).map_err(|error| error.to_string())?;
    }
    out.flush().map_err(|error| error.to_string())
}
