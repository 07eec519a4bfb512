//! Whether the cases of only_units.rs meet the places that they are for: which units an
//! estimate finds under which plan, and what the lot and its records have been before. One
//! that is wanted and that no line meets is an error.

use super::places_met::Places;
use crate::generators::sheet_cases;
use crate::lines::sheet_lines::{Command, Write};
use crate::model::chains::{intact, Chains, Lot, Plans};
use crate::model::class::{BLANK, GOOD, HIGHEST};
use crate::model::layout::{
    place, records, room, CLASS, HEAD, MOST_WORDS, NEW, NEXT_UNUSED, RECORD_WORDS,
};
use crate::model::plan::{Plan, Stage, BAD, MOST_UNITS, NONGOOD};
use crate::model::sheet::Sheet;
use crate::model::sheet_call::SheetCall;
use std::collections::HashSet;

/// Gives the number of lines and of places that are wanted of them.
pub fn run() -> Result<[usize; 2], String> {
    let lines = sheet_cases::only_units();
    let mut met = Met::default();
    for line in &lines {
        met.command(&Command::parse(line)?)?;
    }
    let wanted = wanted();
    let missing: Vec<&String> = wanted.difference(&met.places).collect();
    if missing.is_empty() {
        Ok([lines.len(), wanted.len()])
    } else {
        Err(format!("no line of only_units.rs has {missing:#?}"))
    }
}

// Plans by what one unit decides.
const SIZE_1: &str = "size 1";
const NONGOOD_REJECTS: &str = "a nongood unit rejects";
const BAD_REJECTS: &str = "a bad unit rejects";
const GOOD_ACCEPTS: &str = "a good unit accepts";
const STAGES: &str = "stages";
const MARKED_STAGES: &str = "marked stages";

fn kind(plan: &Plan) -> &'static str {
    let marked = plan.stages.iter().any(|stage| stage.a.is_none());
    let [Stage { size, r, .. }] = plan.stages[..] else {
        return if marked { MARKED_STAGES } else { STAGES };
    };
    match size {
        1 => SIZE_1,
        _ if r[NONGOOD] == 1 => NONGOOD_REJECTS,
        _ if r[BAD] == 1 => BAD_REJECTS,
        _ if r[BAD] == size => GOOD_ACCEPTS,
        _ => "one stage",
    }
}

/// The classes of only units that decide a lot: a good one never rejects it, and another
/// never accepts it. In stages without a mark every r is above 1.
const DECIDING: [(&str, &[u8]); 6] = [
    (SIZE_1, &[0, 1, 2, 3]),
    (NONGOOD_REJECTS, &[1, 2, 3]),
    (BAD_REJECTS, &[2]),
    (GOOD_ACCEPTS, &[0]),
    (STAGES, &[0]),
    (MARKED_STAGES, &[0, 1, 2, 3]),
];

/// Of those that leave it undecided. With marks that depends on the plan.
const NOT_DECIDING: [(&str, &[u8]); 5] = [
    (NONGOOD_REJECTS, &[0]),
    (BAD_REJECTS, &[0, 1, 3]),
    (GOOD_ACCEPTS, &[1, 2, 3]),
    (STAGES, &[1, 2, 3]),
    (MARKED_STAGES, &[0, 3]),
];

/// What may be true of a lot whose only unit is counted, and the sizes for which that is
/// wanted.
const OF_LOTS: [(&str, &[&str]); 15] = [
    ("another unit struck before", BOTH),
    ("two units before", &[LARGER]),
    ("its class written", BOTH),
    ("its number closed before", BOTH),
    ("in records that were free", BOTH),
    ("its record that of a unit before", &[SIZE_1]),
    ("its unit's record that of a lot before", &[SIZE_1]),
    ("lot 1", BOTH),
    ("lot 4294967295", BOTH),
    ("beside others", BOTH),
    ("on a full sheet", BOTH),
    ("on the smallest sheet", &[SIZE_1]),
    ("on the largest sheet", &[SIZE_1]),
    ("words after the last record", &[LARGER]),
    ("S is 1000", &[LARGER]),
];
const LARGER: &str = "a larger size";
const BOTH: &[&str] = &[SIZE_1, LARGER];

fn wanted() -> Places {
    let mut wanted = wanted_of_only_units();
    wanted.extend(wanted_of_more_units());
    for (what, sizes) in OF_LOTS {
        wanted.extend(sizes.iter().map(|size| format!("{size}, {what}")));
    }
    wanted.extend((0..=HIGHEST).map(|class| format!("{SIZE_1}, {class} after a strike")));
    wanted.insert(format!("{SIZE_1}: an only 1, rejected, refused 1"));
    for plan in [SIZE_1, MARKED_STAGES] {
        wanted.insert(format!("{plan}: an only 2, rejected, refused 3"));
        wanted.insert(format!("{plan}: absent, refused 3"));
    }
    for plan in [SIZE_1, STAGES] {
        wanted.insert(format!("{plan}: no unit, undecided, refused 10"));
        wanted.insert(format!("{plan}: absent, refused 6"));
    }
    wanted
}

fn wanted_of_only_units() -> Places {
    let mut wanted = Places::new();
    for (plan, classes) in DECIDING {
        let several = [STAGES, MARKED_STAGES].contains(&plan);
        let refused = if several { ", refused 15" } else { "" };
        wanted.extend(classes.iter().map(|&class| {
            let state = if class == GOOD {
                "accepted"
            } else {
                "rejected"
            };
            format!("{plan}: an only {class}, {state}{refused}")
        }));
    }
    for (plan, classes) in NOT_DECIDING {
        let place = |class| format!("{plan}: an only {class}, undecided, refused 10");
        wanted.extend(classes.iter().map(place));
    }
    wanted
}

fn wanted_of_more_units() -> Places {
    let mut wanted = Places::new();
    for state in ["accepted", "rejected"] {
        for units in [2, 3] {
            let plans = [NONGOOD_REJECTS, BAD_REJECTS, GOOD_ACCEPTS];
            wanted.extend(plans.map(|plan| format!("{plan}: {units} units, {state}")));
            wanted.extend(["first", "last"].map(|at| format!("{units}, {state}, blank {at}")));
        }
        wanted.insert(format!("{NONGOOD_REJECTS}: 1000 units, {state}"));
    }
    wanted.insert(format!("{STAGES}: 2 units, accepted, refused 15"));
    wanted
}

/// What a sheet has been since it was new.
#[derive(Default)]
struct Past {
    /// The words when they were last not corrupt, whatever their number.
    in_order: Vec<u32>,
    /// Places of words written one by one.
    written: HashSet<usize>,
    /// Lots with a strike since they were opened, and those that have had two units.
    struck: HashSet<u32>,
    two_units: HashSet<u32>,
    /// Numbers of closed lots.
    closed: HashSet<u32>,
    /// Records that were free, a lot's and a unit's.
    freed: HashSet<u32>,
    lots: HashSet<u32>,
    units: HashSet<u32>,
}

/// The sheet as the lines leave it, and the places of their estimates.
#[derive(Default)]
struct Met {
    sheet: Sheet,
    plans: Plans,
    past: Past,
    places: Places,
}

impl Met {
    fn command(&mut self, command: &Command) -> Result<(), String> {
        match command {
            Command::Write(write) => {
                self.past.write(write);
                write.make(&mut self.sheet.words);
            }
            Command::Call(SheetCall::Estimate(lot)) => self.estimate(*lot),
            Command::Call(call) => {
                if call.make(&mut self.sheet).is_ok() {
                    self.past.granted(call);
                }
            }
            _ => return Err("a line is not on one sheet".to_string()),
        }
        if let Some(chains) = chains(&self.sheet.words, &mut self.plans) {
            self.past.in_order.clone_from(&self.sheet.words);
            self.past.records(&chains);
        }
        Ok(())
    }

    /// A corrupt sheet is taken as it was before.
    fn estimate(&mut self, number: u32) {
        let reply = self.sheet.estimate(number);
        let Some(chains) = chains(&self.past.in_order, &mut self.plans) else {
            return;
        };
        let plan = kind(&chains.judging.plan);
        let lot = chains.lot(number);
        let units = lot.map_or("absent".to_string(), units_and_state);
        let refused = reply.err().map(|number| format!(", refused {number}"));
        if let (Some(lot), None) = (lot, &refused) {
            self.places.extend(self.past.places(&chains, lot));
            self.places.extend(blanks(lot));
        }
        let refused = refused.unwrap_or_default();
        self.places.insert(format!("{plan}: {units}{refused}"));
    }
}

/// The chains of a sheet that is not corrupt, whatever its size.
fn chains(words: &[u32], plans: &mut Plans) -> Option<Chains> {
    let head = words.len() >= HEAD;
    head.then(|| intact(words, NEW, plans)).flatten()
}

fn state(lot: &Lot) -> &'static str {
    ["undecided", "accepted", "rejected"][usize::from(lot.state())]
}

fn units_and_state(lot: &Lot) -> String {
    let state = state(lot);
    match lot.classes[..] {
        [] => format!("no unit, {state}"),
        [class] => format!("an only {class}, {state}"),
        _ => format!("{} units, {state}", lot.classes.len()),
    }
}

/// Of a lot of several units.
fn blanks(lot: &Lot) -> Vec<String> {
    let [first, .., last] = lot.classes[..] else {
        return vec![];
    };
    let (units, state) = (lot.classes.len(), state(lot));
    let mut ends = vec![("first", first), ("last", last)];
    ends.retain(|&(_, class)| class == BLANK);
    let place = |(at, _)| format!("{units}, {state}, blank {at}");
    ends.into_iter().map(place).collect()
}

impl Past {
    fn write(&mut self, write: &Write) {
        match *write {
            Write::New { .. } => *self = Past::default(),
            Write::Word { index, .. } => {
                self.written.insert(index as usize);
            }
            Write::Words(_) | Write::Run { .. } => {}
        }
    }

    fn granted(&mut self, call: &SheetCall) {
        match *call {
            SheetCall::Open(lot) => {
                self.struck.remove(&lot);
                self.two_units.remove(&lot);
            }
            SheetCall::Strike(lot) => {
                self.struck.insert(lot);
            }
            SheetCall::Close(lot) => {
                self.closed.insert(lot);
            }
            _ => {}
        }
    }

    fn records(&mut self, chains: &Chains) {
        self.freed.extend(&chains.free);
        for lot in &chains.lots {
            self.lots.insert(lot.record);
            self.units.extend(&lot.inspections);
            if lot.classes.len() > 1 {
                self.two_units.insert(lot.number);
            }
        }
    }

    /// Of a lot whose only unit is counted.
    fn places(&self, chains: &Chains, lot: &Lot) -> Vec<String> {
        let ([class], [unit]) = (&lot.classes[..], &lot.inspections[..]) else {
            return vec![];
        };
        let struck = self.struck.contains(&lot.number);
        let on_sheet = self.in_order.len();
        let used = self.in_order[NEXT_UNUSED] as usize;
        let s = chains.judging.plan.units() as u64;
        let holds = [
            struck,
            self.two_units.contains(&lot.number),
            self.written.contains(&place(*unit, CLASS)),
            self.closed.contains(&lot.number),
            self.freed.contains(&lot.record) && self.freed.contains(unit),
            self.units.contains(&lot.record),
            self.lots.contains(unit),
            lot.number == 1,
            lot.number == u32::MAX,
            chains.lots.len() > 1,
            chains.free.is_empty() && used == records(on_sheet),
            on_sheet == room(2),
            on_sheet == MOST_WORDS,
            on_sheet % RECORD_WORDS != 0,
            s == MOST_UNITS,
        ];
        let size = if s == 1 { SIZE_1 } else { LARGER };
        let held = OF_LOTS.into_iter().zip(holds).filter(|&(_, holds)| holds);
        let after_a_strike = struck.then(|| format!("{size}, {class} after a strike"));
        held.map(|((what, _), _)| format!("{size}, {what}"))
            .chain(after_a_strike)
            .collect()
    }
}
