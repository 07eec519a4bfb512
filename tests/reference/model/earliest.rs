//! 01 "Four ways to stop", earliest: the least y at which all completions to S
//! units have one uncurtailed verdict. It is found in two ways: by writing out
//! all completions, and by a table of the verdicts that can still be reached.

use super::class::HIGHEST;
use super::plan::{Counts, Plan, ACCEPTED, BAD, BOTH, NONGOOD, REJECTED};

/// Units and state at a stop; None if no stop is reached on the list.
pub type Stop = Option<(usize, u8)>;

/// The least y, none included, at which the verdicts are one. A list longer
/// than S is read up to S units: a complete sample has no more.
fn least(plan: &Plan, list: &[u8], verdicts: impl Fn(&[u8]) -> u8) -> Stop {
    (0..=plan.units().min(list.len())).find_map(|y| match verdicts(&list[..y]) {
        one @ (ACCEPTED | REJECTED) => Some((y, one)),
        _ => None,
    })
}

pub fn by_completions(plan: &Plan, list: &[u8]) -> Stop {
    least(plan, list, |prefix| verdicts_of_completions(plan, prefix))
}

pub fn by_table(plan: &Plan, table: &Table, list: &[u8]) -> Stop {
    least(plan, list, |prefix| table.verdicts(prefix))
}

/// By the table, and by completions too at each y where those are few. Panics
/// if the two ways differ: then this program is wrong.
pub fn by_both(plan: &Plan, table: &Table, list: &[u8]) -> Stop {
    least(plan, list, |prefix| {
        let verdicts = table.verdicts(prefix);
        if few_completions(plan.units(), prefix.len()) {
            let written_out = verdicts_of_completions(plan, prefix);
            assert_eq!(
                verdicts, written_out,
                "two ways differ: {plan:?} after {prefix:?}"
            );
        }
        verdicts
    })
}

/// The number of classes.
const CLASSES: usize = HIGHEST as usize + 1;

/// Whether `CLASSES`^(S - y) samples of S units are few enough to be written out:
/// all y for S up to 8, only the last ones for a larger S.
pub fn few_completions(units: usize, y: usize) -> bool {
    let rest = units - y;
    rest <= 10 && CLASSES.pow(rest as u32) * units <= 600_000
}

/// The set of uncurtailed verdicts of all completions of a prefix, those with blanks
/// too (02, change 4). Once both verdicts are found no further completion can add to it.
pub fn verdicts_of_completions(plan: &Plan, prefix: &[u8]) -> u8 {
    let mut sample = prefix.to_vec();
    sample.resize(plan.units(), 0);
    let mut verdicts = plan.uncurtailed(&sample);
    while verdicts != BOTH && next_completion(&mut sample[prefix.len()..]) {
        verdicts |= plan.uncurtailed(&sample);
    }
    verdicts
}

/// Counts up in base `CLASSES`; false after the last completion.
fn next_completion(rest: &mut [u8]) -> bool {
    for class in rest.iter_mut().rev() {
        if *class < HIGHEST {
            *class += 1;
            return true;
        }
        *class = 0;
    }
    false
}

/// For each y and counts, the set of uncurtailed verdicts over all ways to go
/// on from there, filled unit by unit from S units down to none.
///
/// Counts are saturated at the last r of their row. That loses nothing: r and
/// a never fall and a + 1 = r at the last stage, so each r is at most the last
/// r, and each a is below it. So a count and its saturated value stand alike to
/// all of the plan's numbers, and they still do after each further unit. A
/// marked stage has no a to stand to.
pub struct Table {
    last_r: [u64; 2],
    verdicts: Vec<u8>,
}

impl Table {
    pub fn new(plan: &Plan) -> Table {
        let last_r = plan.last().r;
        let cells = (plan.units() + 1) * (last_r[NONGOOD] + 1) as usize;
        let mut table = Table {
            last_r,
            verdicts: vec![0; cells * (last_r[BAD] + 1) as usize],
        };
        for y in (0..=plan.units()).rev() {
            table.fill(plan, y);
        }
        table
    }

    /// Fills the cells of y units from those of y + 1. Bad units are nongood,
    /// so cells with more bad than nongood are never asked for.
    fn fill(&mut self, plan: &Plan, y: usize) {
        let stage = plan.stages.iter().find(|stage| stage.end == y as u64);
        for nongood in 0..=self.last_r[NONGOOD] {
            for bad in 0..=self.last_r[BAD].min(nongood) {
                let counts = Counts { nongood, bad };
                let decided = stage.and_then(|stage| stage.verdict(counts));
                let verdicts = decided.unwrap_or_else(|| self.after_one_more(y, counts));
                let cell = self.cell(y, counts);
                self.verdicts[cell] = verdicts;
            }
        }
    }

    fn after_one_more(&self, y: usize, counts: Counts) -> u8 {
        let each = (0..=HIGHEST).map(|class| self.at(y + 1, counts.after(class)));
        each.fold(0, |verdicts, more| verdicts | more)
    }

    fn cell(&self, y: usize, counts: Counts) -> usize {
        let nongood = counts.nongood.min(self.last_r[NONGOOD]) as usize;
        let bad = counts.bad.min(self.last_r[BAD]) as usize;
        let row = y * (self.last_r[NONGOOD] + 1) as usize + nongood;
        row * (self.last_r[BAD] + 1) as usize + bad
    }

    pub fn at(&self, y: usize, counts: Counts) -> u8 {
        self.verdicts[self.cell(y, counts)]
    }

    /// The verdicts of all completions of a prefix with no earlier stop. The
    /// table looks only ahead, yet no stage end behind has a say: had one
    /// decided, all completions would have had its verdict there and then.
    fn verdicts(&self, prefix: &[u8]) -> u8 {
        self.at(prefix.len(), Counts::of(prefix))
    }
}
