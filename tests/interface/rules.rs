//! Prints for each plan on standard input, a line of numbers, whether the library
//! admits it and the rules that it breaks, as tests/interface/test_rules.py does.

#[path = "../../bindings/rust/haqothwe.rs"]
mod haqothwe;

use haqothwe::{broken_rules, judge, Refusal};
use std::error::Error;
use std::io::stdin;

fn main() -> Result<(), Box<dyn Error>> {
    for line in stdin().lines() {
        let line = line?;
        let words: Result<Vec<u32>, _> = line.split_whitespace().map(str::parse).collect();
        let plan = words?;
        let admitted = judge(&plan, &[]) != Err(Refusal::Plan);
        println!("{admitted}: {}", broken_rules(&plan).join("; "));
    }
    Ok(())
}
