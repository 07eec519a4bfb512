//! Judging a list takes time that grows no faster than the list (02, change 3): times
//! 1,000 good classes and the first 100 of them, and compares the two.
//! tests/growth/run builds and runs it.

#[path = "../../bindings/rust/haqothwe.rs"]
mod haqothwe;

use haqothwe::{judge, Judgement, Stop, ACCEPTED};
use std::hint::black_box;
use std::process::ExitCode;
use std::time::{Duration, Instant};

const PLAN: &[u32] = &[1_000, 59, 60, 59, 60];
const LIST: &[u8] = &[0; 1_000];
const FIRST: usize = 100;

const RUNS: u32 = 10_000;
/// The lists take turns, so that what else the machine does falls on both.
const RUNS_A_TURN: u32 = 100;

const MOST: f64 = 20.0;
/// A busy machine may spoil a few.
const TRIES: u32 = 5;

fn main() -> ExitCode {
    match right_replies().and_then(|()| slow_growth()) {
        Ok(()) => ExitCode::SUCCESS,
        Err(message) => {
            eprintln!("tests/growth: {message}");
            ExitCode::FAILURE
        }
    }
}

/// A judge that refuses, or that does not read the list, would be fast.
fn right_replies() -> Result<(), String> {
    let accepted = |units: u32| Stop {
        units,
        state: ACCEPTED,
    };
    // After 941 good units the 59 that are left may all be bad. G1 and G2 are 941 too.
    let whole = Judgement {
        uncurtailed: accepted(1_000),
        semi: accepted(1_000),
        full: accepted(941),
        earliest: accepted(941),
        event: 3,
    };
    for (list, right) in [(LIST, whole), (&LIST[..FIRST], Judgement::default())] {
        let reply = judge(PLAN, list);
        if reply != Ok(right) {
            let n = list.len();
            return Err(format!("{n} good classes: {reply:?}, not {right:?}"));
        }
    }
    Ok(())
}

fn slow_growth() -> Result<(), String> {
    for _ in 0..TRIES {
        let ratio = ratio();
        println!(
            "judge: 1,000 good classes take {ratio:.1} times as long as the first 100 of them \
             (at most {MOST})"
        );
        if ratio <= MOST {
            return Ok(());
        }
    }
    Err(format!("judge's time grows too fast, in {TRIES} tries"))
}

/// The time of the list over that of its beginning, each over all runs.
fn ratio() -> f64 {
    let [mut whole, mut first] = [Duration::ZERO; 2];
    for _ in 0..RUNS / RUNS_A_TURN {
        whole += turn(LIST);
        first += turn(&LIST[..FIRST]);
    }
    whole.as_secs_f64() / first.as_secs_f64()
}

fn turn(list: &[u8]) -> Duration {
    let start = Instant::now();
    for _ in 0..RUNS_A_TURN {
        let _ = black_box(judge(black_box(PLAN), black_box(list)));
    }
    start.elapsed()
}
