//! One lot from opening to closing, offices with shares, an old sheet carried, then a
//! list and chances. Its output is bindings/expected.

mod haqothwe;

use haqothwe::{chance, chart, judge, lot_chance, units, units_chart};
use haqothwe::{Reply, Sheet, Stop, ACCEPTED, OFFICES, REJECTED, SCRATCH_MOST, UNDECIDED};

const PLAN: &[u32] = &[5, 2, 3, 1, 2];
const NO_SHARES: &[u32; OFFICES] = &[0; OFFICES];

/// 60 words: one lot accepted and closed, lot 7 half inspected, and one free record.
#[rustfmt::skip]
const OLD_SHEET: &[u32] = &[
    15, 11, 14, 1, // next unused record, first lot, first free record, stages
    5, 2, 3, 1, 2, // the plan, and six stages that are not used
    0, 0, 0, 0, 0, 0, 0, 0, 0, 0, 0, 0, 0, 0, 0, 0, 0, 0, 0, 0, 0, 0, 0, 0, 0, 0, 0, 0, 0, 0,
    1, 0, 4, 0, 0, // totals
    7, 0, 13, 0, // record 11: lot 7, the last, with its newest inspection
    3, 0, 11, 1, // record 12: a blank, the oldest
    2, 12, 11, 2, // record 13: a bad unit, the newest
    1, 0, 0, u32::MAX, // record 14: free, the last
];

fn word(state: u32) -> &'static str {
    match state {
        UNDECIDED => "undecided",
        ACCEPTED => "accepted",
        REJECTED => "rejected",
        _ => "no state",
    }
}

fn done<T>(call: &str, reply: Reply<T>) {
    match reply {
        Ok(_) => println!("{call}: ok"),
        Err(refusal) => println!("{call}: {refusal}"),
    }
}

fn show_lot(sheet: &Sheet) -> Reply<()> {
    let it = sheet.look(7)?;
    print!("look 7: {} after {} units, ", word(it.state), it.units);
    print!("{} good, {} marginal ", it.good, it.marginal);
    println!("({} blank), {} bad", it.blanks, it.bad);
    Ok(())
}

fn show_totals(sheet: &Sheet) -> Reply<()> {
    let it = sheet.tally()?;
    print!(
        "tally: {} accepted, {} rejected; ",
        it.accepted, it.rejected
    );
    println!("{} good, {} marginal, {} bad", it.good, it.marginal, it.bad);
    Ok(())
}

fn keep_sheet(sheet: &mut Sheet) -> Reply<()> {
    done("fresh without a plan", sheet.fresh(&[], NO_SHARES));
    done("fresh", sheet.fresh(PLAN, NO_SHARES));
    done("open 7", sheet.open(7));
    done("inspect 7 3", sheet.inspect(7, 3));
    done("inspect 7 0", sheet.inspect(7, 0));
    done("strike 7", sheet.strike(7));
    done("inspect 7 2", sheet.inspect(7, 2));
    done("inspect 7 2", sheet.inspect(7, 2));
    show_lot(sheet)?;
    done("inspect 7 0", sheet.inspect(7, 0));
    let it = sheet.estimate(7)?;
    print!("estimate 7: {}, {}, {} ", it.good, it.marginal, it.bad);
    println!("over {}", it.denominator);
    done("close 7", sheet.close(7));
    show_totals(sheet)
}

/// Five records, for lots 7 and 23 of office 7 and lot 8 of office 8.
fn share_sheet(sheet: &mut Sheet) {
    let mut shares = [0; OFFICES];
    shares[7..9].fill(3);
    done("fresh, shares 3 and 3", sheet.fresh(PLAN, &shares));
    shares[7..9].fill(2);
    done("fresh, shares 2 and 2", sheet.fresh(PLAN, &shares));
    done("open 7", sheet.open(7));
    done("inspect 7 0", sheet.inspect(7, 0));
    done("inspect 7 0", sheet.inspect(7, 0));
    done("open 23", sheet.open(23));
    done("open 8", sheet.open(8));
    done("inspect 8 0", sheet.inspect(8, 0));
}

/// The shares are one record for office 8.
fn carry_sheet(words: &mut [u32]) -> Reply<()> {
    let mut shares = [0; OFFICES];
    shares[8] = 1;
    let short = &mut Sheet(&mut words[..72]);
    done("carry into 72 words", short.carry(OLD_SHEET, &shares));
    let sheet = &mut Sheet(words);
    done("carry into 80 words", sheet.carry(OLD_SHEET, &shares));
    show_lot(sheet)?;
    done("inspect 7 2", sheet.inspect(7, 2));
    show_lot(sheet)?;
    done("close 7", sheet.close(7));
    show_totals(sheet)
}

fn judged(list: &[u8]) {
    let it = match judge(PLAN, list) {
        Ok(it) => it,
        refused => return done("judge", refused),
    };
    let text = |stop: Stop| format!("{} {}", stop.units, word(stop.state));
    print!("judge {} classes: ", list.len());
    print!("uncurtailed {}, ", text(it.uncurtailed));
    print!("semi {}, full {}, ", text(it.semi), text(it.full));
    println!("earliest {}, event {}", text(it.earliest), it.event);
}

fn chances() -> Reply<()> {
    let scratch = &mut [0; SCRATCH_MOST];
    let [low, high] = chance(PLAN, [90, 7, 3], scratch)?;
    println!("chance 90 7 3: {low} to {high}");
    let [low, high] = chart(PLAN, [90, 7, 3], scratch)?;
    println!("chart 90 7 3: {low:.15} to {high:.15}");
    done("chance 0 0 0", chance(PLAN, [0, 0, 0], scratch));
    let [low, high] = lot_chance(PLAN, [16, 2, 2], scratch)?;
    println!("lot chance 16 2 2: {low} to {high}");
    done("lot chance 4 0 0", lot_chance(PLAN, [4, 0, 0], scratch));
    let [low, high] = units(PLAN, [90, 7, 3], scratch)?;
    println!("units 90 7 3: {low} to {high}");
    let [low, high] = units_chart(PLAN, [90, 7, 3], scratch)?;
    println!("units chart 90 7 3: {low:.12} to {high:.12}");
    Ok(())
}

fn main() {
    let words = &mut [0; 80];
    keep_sheet(&mut Sheet(words)).expect("the calls are granted");
    share_sheet(&mut Sheet(words));
    carry_sheet(words).expect("the calls are granted");
    let list = [0, 0, 0, 1, 2, 4];
    judged(&list[..5]);
    judged(&[]);
    judged(&list);
    chances().expect("the calls are granted");
}
