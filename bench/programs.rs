//! The program lots and its two counterparts on one script, timed as processes.

use crate::timing::Times;
use reference::generators::hand_written::ONE;
use reference::generators::random::Random;
use std::fmt::Write as _;
use std::io::{self, Write};
use std::process::{Command, Stdio};
use std::thread;
use std::time::Instant;

const COMMANDS: usize = 20_000;
const TURNS: usize = 11;

/// The shortest times, after a check that all print the same.
pub fn times(lots: &str, reference: &str) -> Result<Times, String> {
    let text = |error: io::Error| error.to_string();
    let own = std::env::current_exe().map_err(text)?;
    let own = own.to_string_lossy();
    let programs = [(lots, ""), (&*own, "plain-lots"), (reference, "lots")];
    let script = script();
    let mut least = [f64::INFINITY; 3];
    for _ in 0..TURNS {
        let mut printed = Vec::new();
        for (i, (program, word)) in programs.into_iter().enumerate() {
            let start = Instant::now();
            printed.push(output(program, word, &script).map_err(text)?);
            least[i] = least[i].min(start.elapsed().as_nanos() as f64);
        }
        if printed[0] != printed[1] || printed[0] != printed[2] {
            return Err("the programs print different replies".to_string());
        }
    }
    Ok(least)
}

/// The script is written while the output is read, so that no pipe fills up.
fn output(program: &str, word: &str, script: &str) -> io::Result<Vec<u8>> {
    let mut command = Command::new(program);
    if !word.is_empty() {
        command.arg(word);
    }
    let mut child = command
        .stdin(Stdio::piped())
        .stdout(Stdio::piped())
        .spawn()?;
    let mut input = child.stdin.take().expect("stdin is piped");
    thread::scope(|scope| {
        let written = scope.spawn(move || input.write_all(script.as_bytes()));
        let output = child.wait_with_output()?;
        written.join().expect("the writer does not panic")?;
        Ok(output.stdout)
    })
}

/// Commands on up to 500 lots, which fill most of the sheet's 4,081 records.
fn script() -> String {
    let random = &mut Random::new(20_000);
    let words: Vec<String> = ONE.iter().map(u32::to_string).collect();
    let mut script = format!("p {}\n", words.join(" "));
    for _ in 1..COMMANDS {
        let lot = random.between(1, 500);
        let class = random.class([8, 1, 1]);
        // A write to a String has no error.
        let _ = match random.index(20) {
            0..=2 => writeln!(script, "o {lot}"),
            3..=13 => writeln!(script, "i {lot} {class}"),
            14 => writeln!(script, "s {lot}"),
            15 => writeln!(script, "c {lot}"),
            16..=18 => writeln!(script, "l {lot}"),
            _ => writeln!(script, "t"),
        };
    }
    script
}
