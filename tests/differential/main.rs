//! Compares each function of libexport.a with the reference on seeded inputs,
//! valid and damaged: the number that it returns, the words of out, and every
//! word that it was lent, those beside them too. It ends at the first difference.
//! tests/differential/run builds and runs it.

mod carries;
mod compare;
mod library;
mod lot_chances;
mod offices;
mod plans;
mod sheets;

use std::process::ExitCode;
use std::time::Instant;

fn main() -> ExitCode {
    let start = Instant::now();
    let mut comparer = compare::Comparer::default();
    let parts = [
        plans::all,
        lot_chances::all,
        sheets::all,
        offices::all,
        carries::all,
    ];
    let done = parts.into_iter().try_for_each(|part| part(&mut comparer));
    comparer.print();
    println!("{:.1} seconds", start.elapsed().as_secs_f64());
    match done {
        Ok(()) => ExitCode::SUCCESS,
        Err(difference) => {
            eprintln!("differential: {difference}");
            ExitCode::FAILURE
        }
    }
}
