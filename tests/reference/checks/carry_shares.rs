//! What is promised of shares after a carry (02, change 8): from the first point at which
//! the records free and unused are at least what all offices lack, an office below its
//! share gets neither 11 nor 19. Here the records of an office are counted by looks at all
//! lots.

use super::office_selftest::{held, lacking};
use crate::generators::draw;
use crate::generators::office_draws::{self, Offices};
use crate::generators::old_sheets::played;
use crate::generators::random::Random;
use crate::model::layout::*;
use crate::model::offices::Shares;
use crate::model::sheet::Sheet;
use crate::model::sheet_call::SheetCall;

/// What was met, as the numbers that `run` gives.
#[derive(Default)]
struct Counts {
    /// Carries after which fewer records were spare than all lacked, and those of them
    /// after which the point came.
    fewer: usize,
    reached: usize,
    /// Records that an office below its share asked for before the point and did not get.
    full: usize,
    /// Records that such an office got from the point on, and those that others did not get.
    granted: usize,
    held_back: usize,
}

/// Gives these numbers.
pub fn run(plays: usize) -> Result<[usize; 5], String> {
    let random = &mut Random::new(89);
    let mut counts = Counts::default();
    for _ in 0..plays {
        play(random, &mut counts)?;
    }
    let Counts {
        fewer,
        reached,
        full,
        granted,
        held_back,
    } = counts;
    let all = [fewer, reached, full, granted, held_back];
    match all.contains(&0) || fewer == reached {
        true => Err(format!("a carry with shares is not met: {all:?}")),
        false => Ok(all),
    }
}

/// A sheet with lots that is carried, and the number of its records after the head.
fn carried(random: &mut Random, offices: &Offices, shares: &mut Shares) -> Result<Sheet, String> {
    let (k, units) = (random.between(1, 3), random.between(1, 4));
    let plan = draw::plan(random, k as usize, units);
    let records = random.between(2, 24) as usize;
    let calls = random.pick(&[40, 150]);
    let old = played(random, OLD.room(records), 5, &plan, offices, calls);
    let needed = place(old[NEXT_UNUSED] + RAISE, 0).max(LEAST_WORDS);
    let length = needed + random.at_ends_or_between(0, 20) as usize;
    let records = records_after_head(length) as u32;
    *shares = office_draws::shares(random, records, &offices.lots);
    let mut sheet = Sheet::new(vec![3; length]);
    let reply = sheet.carry(&old, shares);
    reply.map_err(|number| format!("a carry is refused {number}: {old:?}"))?;
    Ok(sheet)
}

/// What was seen of a sheet after a carry.
struct Seen<'a> {
    shares: &'a Shares,
    records: u32,
    /// Whether the point came.
    reached: bool,
    /// What each office holds.
    held: [u32; OFFICES],
}

impl Seen<'_> {
    fn spare(&self, held: &[u32; OFFICES]) -> u32 {
        self.records - held.iter().sum::<u32>()
    }

    fn enough(&self, held: &[u32; OFFICES]) -> bool {
        self.spare(held) >= lacking(self.shares, held)
    }

    /// Whether a record is needed for a lot whose office is below its share.
    fn below(&self, call: &SheetCall) -> bool {
        match *call {
            SheetCall::Open(lot) | SheetCall::Inspect(lot, _) => {
                let of = lot as usize % 16;
                self.held[of] < self.shares[of]
            }
            _ => false,
        }
    }

    /// Whether the promise allows this reply. From the point on, as many are spare as all
    /// lack after each call.
    fn fair(&self, below: bool, reply: u32, after: &[u32; OFFICES]) -> bool {
        let spare = self.spare(&self.held);
        let allowed = match reply {
            3 | 18 | 20 => false,
            11 => spare == 0 && !(below && self.reached),
            19 => spare > 0 && !below,
            _ => true,
        };
        allowed && (!self.reached || self.enough(after))
    }
}

fn play(random: &mut Random, counts: &mut Counts) -> Result<(), String> {
    let mut shares = [0; OFFICES];
    let offices = Offices::draw(random, 24);
    let mut sheet = carried(random, &offices, &mut shares)?;
    let mut seen = Seen {
        shares: &shares,
        records: records_after_head(sheet.words.len()) as u32,
        reached: false,
        held: held(&mut sheet, &offices.lots),
    };
    let at_once = seen.enough(&seen.held);
    seen.reached = at_once;
    for _ in 0..100 {
        let call = offices.call(random, [2, 1, 1]);
        let reply = call.make(&mut sheet).err().unwrap_or(0);
        let after = held(&mut sheet, &offices.lots);
        let below = seen.below(&call);
        if !seen.fair(below, reply, &after) {
            let (held, words) = (seen.held, &sheet.words);
            return Err(format!(
                "{call:?} gets {reply}: {shares:?}, {held:?}: {words:?}"
            ));
        }
        counts.full += usize::from(below && reply == 11);
        counts.granted += usize::from(below && reply == 0 && seen.reached);
        counts.held_back += usize::from(reply == 19 && seen.reached);
        seen.reached |= seen.enough(&after);
        seen.held = after;
    }
    counts.fewer += usize::from(!at_once);
    counts.reached += usize::from(!at_once && seen.reached);
    Ok(())
}
