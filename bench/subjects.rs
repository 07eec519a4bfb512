//! What is timed.

use crate::side::Work;
use reference::generators::draw;
use reference::generators::full_sheets::{self, Built, Fill};
use reference::generators::hand_written::{LARGEST, ONE, SEVEN};
use reference::generators::random::Random;
use reference::model::chance::{Weights, MOST_SCRATCH};
use reference::model::earliest::Table;
use reference::model::layout::{HEAD, LEAST_WORDS, MOST_WORDS, OLD, TOTALS_END};
use reference::model::offices::NO_SHARES;
use reference::model::plan::Plan;
use reference::model::sheet::Sheet;
use reference::model::sheet_call::SheetCall;
use std::rc::Rc;

pub struct Subject {
    pub name: String,
    pub work: Work,
}

pub fn all() -> Vec<Subject> {
    let mut all = lists(&mut Random::new(1_000));
    all.extend(plans().map(|plan| chance(&plan)));
    all.extend(plans().map(|plan| units(&plan)));
    all.extend(plans().map(|plan| lot_chance(&plan)));
    // Random numbers of their own, so that the sheets do not change with the lists.
    let random = &mut Random::new(1_000);
    all.extend(short_lots(random));
    all.extend(other_sheets(random));
    all.extend(carries(random));
    all
}

/// The name and the words of a plan.
type Named = (&'static str, Vec<u32>);

/// Plans of 1,000 units with last numbers of 60. The equal stages accept at 0 and
/// reject at 60, so that nearly every state is undecided.
fn plans() -> [Named; 3] {
    let mut equal = [140, 0, 60, 0, 60].repeat(6);
    equal.extend([160, 59, 60, 59, 60]);
    [
        ("1 stage", LARGEST[0].to_vec()),
        ("7 equal stages", equal),
        ("7 stages that differ", LARGEST[1].to_vec()),
    ]
}

/// Beginnings of a list of good classes, and of a mixed one that stays undecided up to
/// the plan's last unit.
fn lists(random: &mut Random) -> Vec<Subject> {
    let lengths = [("100", 100), ("1,000", 1_000), ("100,000", 100_000)];
    let mut all = vec![];
    for named in plans() {
        let plan = Plan::admitted(&named.1).expect("the plan is admitted");
        let mixed = draw::held(random, &plan, &Table::new(&plan), plan.units(), 100_000);
        for (kind, list) in [("good", vec![0; 100_000]), ("mixed", mixed)] {
            for (digits, length) in lengths {
                let classes = format!("{digits} {kind} classes");
                all.push(judge(&named, &classes, list[..length].to_vec()));
            }
        }
    }
    all
}

fn judge((name, plan): &Named, classes: &str, list: Vec<u8>) -> Subject {
    Subject {
        name: format!("judge, {classes}, {name}"),
        work: Work::Judge {
            plan: plan.clone(),
            list,
        },
    }
}

/// Weights with which either verdict is likely.
const NEAR_THE_NUMBERS: Weights = [942_000, 3_000, 55_000];

fn chance((name, plan): &Named) -> Subject {
    Subject {
        name: format!("chance, S 1,000, {name}"),
        work: Work::Chance {
            plan: plan.clone(),
            weights: NEAR_THE_NUMBERS,
            scratch: MOST_SCRATCH as usize,
        },
    }
}

fn units((name, plan): &Named) -> Subject {
    Subject {
        name: format!("expected units, S 1,000, {name}"),
        work: Work::Units {
            plan: plan.clone(),
            weights: NEAR_THE_NUMBERS,
            scratch: MOST_SCRATCH as usize,
        },
    }
}

/// A lot with the shares of the weights above.
fn lot_chance((name, plan): &Named) -> Subject {
    Subject {
        name: format!("lot chance, S 1,000, {name}"),
        work: Work::LotChance {
            plan: plan.clone(),
            lot: [9_420, 30, 550],
            scratch: MOST_SCRATCH as usize,
        },
    }
}

/// Of a sheet of the greatest size 5 records in 100 free and 1 in 100 unused.
fn fill(shuffled: bool) -> Fill {
    Fill {
        free: 800,
        unused: 160,
        shuffled,
    }
}

/// A sheet of the greatest size.
fn sheet(random: &mut Random, plan: &[u32], shuffled: bool) -> Built {
    full_sheets::sheet(random, MOST_WORDS, plan, &fill(shuffled))
}

/// A call on a sheet with lots of some kind.
fn call(before: &Rc<Vec<u32>>, lots: &str, call: SheetCall) -> Subject {
    Subject {
        name: format!("{}, 65,536 words, {lots}", call.name()),
        work: Work::Sheet {
            before: before.clone(),
            call,
        },
    }
}

/// Calls on many lots of up to 20 inspections. The lot is in the middle.
fn short_lots(random: &mut Random) -> Vec<Subject> {
    let built = sheet(random, ONE, false);
    let (decided, undecided) = two_lots(&built.words, &built.lots);
    let absent = (undecided..).find(|lot| !built.lots.contains(lot));
    let absent = absent.expect("numbers have gaps");
    let shared = Rc::new(with_shares(&built.words));
    let before = Rc::new(built.words);
    let lots = (&before, "short lots");
    let lots_and_shares = (&shared, "short lots, equal shares");
    let calls = [
        (lots, SheetCall::Open(absent)),
        (lots_and_shares, SheetCall::Open(absent)),
        (lots, SheetCall::Inspect(undecided, 1)),
        (lots_and_shares, SheetCall::Inspect(undecided, 1)),
        (lots, SheetCall::Close(decided)),
        (lots, SheetCall::Look(decided)),
        (lots, SheetCall::Fresh(ONE.to_vec(), [0; 16])),
    ];
    let subject = |((before, lots), it)| call(before, lots, it);
    calls.map(subject).into()
}

/// The sheet under one share for all sixteen offices, which stand at the end of the head.
/// Their sum is more than the records left, so that a call has to know what each office
/// holds. Some offices lack records; all that they lack is less than what is left.
fn with_shares(words: &[u32]) -> Vec<u32> {
    let mut words = words.to_vec();
    words[TOTALS_END..HEAD].fill(900);
    words
}

/// A decided lot and an undecided one, from the middle on.
fn two_lots(words: &[u32], lots: &[u32]) -> (u32, u32) {
    let middle = &lots[lots.len() / 2..];
    let state = |lot: &u32| plain::sheet::look(words, *lot).map(|shown| shown[0]);
    let find = |decided: bool| {
        let mut lots = middle.iter();
        let found = lots.find(|&lot| state(lot).is_ok_and(|state| (state != 0) == decided));
        *found.expect("lots of both kinds are many")
    };
    (find(true), find(false))
}

fn other_sheets(random: &mut Random) -> Vec<Subject> {
    let sheets = [
        ("short lots, records in any order", ONE, true),
        ("lots of 7 stages", SEVEN, false),
        ("lots of up to 1,000 inspections", LARGEST[0], false),
    ];
    let subject = |(lots, plan, shuffled)| {
        let built = sheet(random, plan, shuffled);
        let lot = built.lots[built.lots.len() / 2];
        call(&Rc::new(built.words), lots, SheetCall::Look(lot))
    };
    sheets.map(subject).into()
}

/// Words of an old sheet whose records fit a sheet of the greatest size.
const OLD_WORDS: usize = 65_000;

/// Old sheets carried into zeros: a full one, and the least one, with no lot.
fn carries(random: &mut Random) -> Vec<Subject> {
    let full = full_sheets::under(random, OLD, OLD_WORDS, ONE, &fill(false));
    let mut empty = Sheet::old(vec![0; OLD.least_words]);
    let made = empty.fresh(ONE, &NO_SHARES);
    made.expect("the plan is admitted");
    let subject = |old, name: &str, length| Subject {
        name: format!("carry, {name}"),
        work: Work::Carry {
            old,
            before: Rc::new(vec![0; length]),
            shares: NO_SHARES,
        },
    };
    vec![
        subject(full.words, "65,000 words, short lots", MOST_WORDS),
        subject(empty.words, "48 words, no lot", LEAST_WORDS),
    ]
}
