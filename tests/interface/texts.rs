//! Prints name, number and words of the refusal of each number on standard input.

#[path = "../../bindings/rust/haqothwe.rs"]
mod haqothwe;

use haqothwe::Refusal;
use std::error::Error;
use std::io::stdin;

fn main() -> Result<(), Box<dyn Error>> {
    for line in stdin().lines() {
        let refusal = Refusal::from(line?.parse::<u32>()?);
        println!("{refusal:?} {} {refusal}", refusal.number());
    }
    // It serves as any error does.
    let error: Box<dyn Error> = Refusal::Decided.into();
    println!("{error}");
    Ok(())
}
