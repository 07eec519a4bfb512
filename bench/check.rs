//! Compares plain/ with the reference on the cases that crates/vectors and
//! crates/sheetvectors answer, and on the script of the program lots: its
//! times count only if its answers are right. bench/check builds and runs it.

mod side;
mod side_plain;
mod side_reference;

use plain::lots::Session;
use reference::generators::{lots_script, plan_cases, sheet_cases};
use reference::lines::plan_lines::Case;
use reference::lines::sheet_lines::Command;
use reference::model::lots;
use side::{Side, Work};
use side_plain::Plain;
use side_reference::Reference;
use std::process::ExitCode;
use std::rc::Rc;

/// An error is a difference.
type Compared = Result<(), String>;

fn main() -> ExitCode {
    let mut sides = Sides::default();
    let done = sides
        .stored_plans()
        .and_then(|()| sides.stored_sheets())
        .and_then(|()| lots_script());
    match done {
        Ok(()) => {
            let calls = sides.calls;
            println!("bench/check: {calls} calls and a script by plain as by the reference");
            ExitCode::SUCCESS
        }
        Err(difference) => {
            eprintln!("bench/check: {difference}");
            ExitCode::FAILURE
        }
    }
}

#[derive(Default)]
struct Sides {
    plain: Plain,
    reference: Reference,
    calls: usize,
}

impl Sides {
    fn compare(&mut self, work: &Work, what: &str) -> Compared {
        let sides: [&mut dyn Side; 2] = [&mut self.plain, &mut self.reference];
        let answers = sides.map(|side| {
            side.prepare(work);
            side.run(work)
        });
        self.calls += 1;
        if answers[0] != answers[1] || self.plain.words() != self.reference.words() {
            let [plain, reference] = answers;
            return Err(format!(
                "{what}: {plain:?} by plain, {reference:?} by the reference"
            ));
        }
        Ok(())
    }

    fn stored_plans(&mut self) -> Compared {
        for line in plan_cases::all() {
            let work = match Case::parse(&line)? {
                Case::Admission(plan) => Work::Judge { plan, list: vec![] },
                Case::Judged(list, plan) => Work::Judge { plan, list },
                Case::Chance(call) | Case::Chart(call) => Work::Chance {
                    plan: call.words,
                    weights: call.weights,
                    scratch: call.scratch as usize,
                },
                Case::ExpectedUnits(call) | Case::ExpectedUnitsChart(call) => Work::Units {
                    plan: call.words,
                    weights: call.weights,
                    scratch: call.scratch as usize,
                },
                Case::LotChance(call) => Work::LotChance {
                    plan: call.words,
                    lot: call.lot,
                    scratch: call.scratch as usize,
                },
            };
            self.compare(&work, &line)?;
        }
        Ok(())
    }

    fn stored_sheets(&mut self) -> Compared {
        let (mut words, mut aside) = (vec![], vec![]);
        for line in sheet_cases::all() {
            match Command::parse(&line)? {
                Command::Write(write) => write.make(&mut words),
                Command::Exchange => std::mem::swap(&mut words, &mut aside),
                Command::Call(call) => {
                    let before = Rc::new(words);
                    self.compare(&Work::Sheet { before, call }, &line)?;
                    words = self.reference.words().to_vec();
                }
                Command::Carry(shares) => {
                    let (old, before) = (aside.clone(), Rc::new(words));
                    let carry = Work::Carry {
                        old,
                        before,
                        shares,
                    };
                    self.compare(&carry, &line)?;
                    words = self.reference.words().to_vec();
                }
            }
        }
        Ok(())
    }
}

fn lots_script() -> Compared {
    let script = lots_script::all();
    let mut session = Session::new();
    script.chunks(4096).for_each(|block| session.take(block));
    session.end();
    if session.replies == lots::replies(&script) {
        Ok(())
    } else {
        Err("the script of lots has other replies".to_string())
    }
}
