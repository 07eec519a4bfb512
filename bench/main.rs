//! Times the library's calls beside two other implementations: plain Rust
//! written to be fast (plain/), and the reference, written for clarity. bench/run
//! builds and runs it.
//!
//! - `bench LOTS REFERENCE` times all, with the programs at these paths.
//! - `bench profile SUBJECT SIDE TIMES` makes one call again and again, for a
//!   profiler; SUBJECT is a beginning of a line of the table.
//! - `bench plain-lots` is the program lots by plain/.

mod programs;
mod side;
mod side_ours;
mod side_plain;
mod side_reference;
mod subjects;
mod table;
mod timing;

use side::Side;
use std::process::ExitCode;

const USAGE: &str = "usage: bench LOTS REFERENCE | profile SUBJECT SIDE TIMES | plain-lots";

fn main() -> ExitCode {
    let words: Vec<String> = std::env::args().skip(1).collect();
    let words: Vec<&str> = words.iter().map(String::as_str).collect();
    let done = match words[..] {
        ["plain-lots"] => plain::lots::run().map_err(|error| error.to_string()),
        ["profile", subject, side, times] => profile(subject, side, times),
        [lots, reference] => all(lots, reference),
        _ => Err(USAGE.to_string()),
    };
    match done {
        Ok(()) => ExitCode::SUCCESS,
        Err(message) => {
            eprintln!("bench: {message}");
            ExitCode::FAILURE
        }
    }
}

fn all(lots: &str, reference: &str) -> Result<(), String> {
    table::head();
    let mut sides = all_sides();
    for subject in subjects::all() {
        let times = timing::of_subject(&subject, &mut sides)?;
        table::line(&subject.name, times);
    }
    let times = programs::times(lots, reference)?;
    table::line("program lots, 20,000 commands", times);
    Ok(())
}

fn all_sides() -> [Box<dyn Side>; 3] {
    [
        Box::new(side_ours::Ours::default()),
        Box::new(side_plain::Plain::default()),
        Box::new(side_reference::Reference::default()),
    ]
}

fn profile(subject: &str, side: &str, times: &str) -> Result<(), String> {
    let times: usize = times.parse().map_err(|_| "TIMES is a number")?;
    let mut subjects = subjects::all().into_iter();
    let subject = subjects.find(|it| it.name.starts_with(subject));
    let subject = subject.ok_or("no such subject")?;
    let names = ["ours", "plain", "reference"];
    let side = names.iter().position(|&name| name == side);
    let side = side.ok_or("SIDE is ours, plain or reference")?;
    let side = &mut all_sides()[side];
    for _ in 0..times {
        side.prepare(&subject.work);
        std::hint::black_box(side.run(&subject.work));
    }
    Ok(())
}
