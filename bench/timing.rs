//! Times of a call by all sides, taken in turns so that what else the machine
//! does falls on all of them.

use crate::side::{Side, Work};
use crate::subjects::Subject;
use reference::model::sheet_call::SheetCall;
use std::hint::black_box;
use std::time::{Duration, Instant};

/// Nanoseconds a call: ours, plain Rust, and the reference.
pub type Times = [f64; 3];

/// A side is timed as long as it has taken less than this, or few turns. Each has
/// its own budget, so that a slow one leaves turns to the others.
const BUDGET: Duration = Duration::from_millis(700);
const LEAST_TURNS: usize = 5;

/// A timed run lasts at least this long, so that reading the clock says little.
const LEAST_RUN: Duration = Duration::from_micros(20);

/// The shortest times, after a check that all sides give the same answer and
/// leave the same words.
pub fn of_subject(subject: &Subject, sides: &mut [Box<dyn Side>; 3]) -> Result<Times, String> {
    let work = &subject.work;
    let found = sides.each_mut().map(|side| {
        side.prepare(work);
        (side.run(work), side.words().to_vec())
    });
    if found[0] != found[1] || found[0] != found[2] {
        return Err(format!("{}: the sides differ", subject.name));
    }
    let calls = sides
        .each_mut()
        .map(|side| calls_a_run(side.as_mut(), work));
    let mut least = [f64::INFINITY; 3];
    let mut spent = [Duration::ZERO; 3];
    for turn in 0.. {
        let mut timed = false;
        for i in 0..3 {
            if turn < LEAST_TURNS || spent[i] < BUDGET {
                let start = Instant::now();
                least[i] = least[i].min(run(sides[i].as_mut(), work, calls[i]));
                spent[i] += start.elapsed();
                timed = true;
            }
        }
        if !timed {
            break;
        }
    }
    Ok(least)
}

/// How many calls are timed together. A call that changes the sheet is timed
/// alone, because the sheet is copied back before it; fresh gives the same sheet
/// again.
fn calls_a_run(side: &mut dyn Side, work: &Work) -> u32 {
    if let Work::Sheet { call, .. } = work {
        use SheetCall::{Close, Inspect, Open, Strike};
        if matches!(call, Open(_) | Inspect(..) | Strike(_) | Close(_)) {
            return 1;
        }
    }
    let one = (0..3)
        .map(|_| run(side, work, 1))
        .fold(f64::INFINITY, f64::min);
    (LEAST_RUN.as_nanos() as f64 / one).ceil() as u32
}

/// Nanoseconds a call.
fn run(side: &mut dyn Side, work: &Work, calls: u32) -> f64 {
    side.prepare(work);
    let start = Instant::now();
    for _ in 0..calls {
        black_box(side.run(black_box(work)));
    }
    start.elapsed().as_nanos() as f64 / f64::from(calls)
}
