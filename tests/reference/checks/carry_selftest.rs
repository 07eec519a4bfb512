//! Old sheets carried (02, change 8): lists of calls before and after a carry, by words and
//! by histories.

use super::carry_by_hand;
use super::histories::Histories;
use crate::generators::draw;
use crate::generators::office_draws::{self, Offices};
use crate::generators::old_sheets::old_sheet;
use crate::generators::random::Random;
use crate::model::chains::{intact, Chains, Plans};
use crate::model::layout::*;
use crate::model::offices::NO_SHARES;
use crate::model::plan::Plan;
use crate::model::sheet::Sheet;
use crate::model::sheet_call::SheetCall;

/// Gives the number of lots and of free records that were carried.
pub fn run(plays: usize) -> Result<[usize; 2], String> {
    carry_by_hand::run()?;
    let random = &mut Random::new(88);
    let mut counts = [0; 2];
    for round in 0..plays {
        let [lots, free] = play(random, round)?;
        counts = [counts[0] + lots, counts[1] + free];
    }
    match counts {
        [0, _] | [_, 0] => Err("no lot or no free record was carried".to_string()),
        _ => Ok(counts),
    }
}

/// A sheet, its lots and totals by histories, and lots to call.
struct Played {
    sheet: Sheet,
    histories: Histories,
    offices: Offices,
}

/// Random calls on an old sheet, a carry into a second one that fits exactly or has more
/// records, and calls on that. Gives the lots and the free records that were carried.
fn play(random: &mut Random, round: usize) -> Result<[usize; 2], String> {
    let mut played = old_played(random, round)?;
    let counts = carried(random, &mut played)?;
    played.calls(random, 120)?;
    Ok(counts)
}

fn old_played(random: &mut Random, round: usize) -> Result<Played, String> {
    let k = 1 + round % 7;
    let (marked, units) = (random.index(k), random.between(1, 5));
    let words = draw::marked_plan(random, marked, k, units.max(k as u32));
    let plan = Plan::admitted(&words).ok_or("the plan is drawn as an admitted one")?;
    let records = random.at_ends_or_between(1, 24);
    let length = OLD.room(records as usize) + random.index(RECORD_WORDS);
    let seed = random.between(0, u32::MAX);
    let mut played = Played {
        sheet: Sheet::old(old_sheet(length, seed, &words, "")),
        histories: Histories::new(plan, NO_SHARES, records as usize),
        offices: Offices::draw(random, records),
    };
    let calls = random.pick(&[0, 10, 40, 120]);
    played.calls(random, calls)?;
    for _ in 0..random.pick(&[0, 5, 20]) {
        let lot = random.pick(&played.offices.lots);
        let call = match random.one_in(2) {
            true => SheetCall::Strike(lot),
            false => SheetCall::Close(lot),
        };
        played.call(&call)?;
    }
    Ok(played)
}

/// The sheet becomes the second one. Gives the lots and the free records.
fn carried(random: &mut Random, played: &mut Played) -> Result<[usize; 2], String> {
    let needed = place(played.sheet.words[NEXT_UNUSED] + RAISE, 0).max(LEAST_WORDS);
    let length = needed + random.at_ends_or_between(0, 40) as usize;
    let before = vec![random.between(0, u32::MAX); length];
    let records = records_after_head(length);
    let shares = office_draws::shares(random, records as u32, &played.offices.lots);
    let second = Sheet::new(before.clone());
    let old = std::mem::replace(&mut played.sheet, second).words;
    let reply = played.sheet.carry(&old, &shares);
    reply.map_err(|number| format!("a carry is refused {number}: {old:?}"))?;
    let words = &played.sheet.words;
    let counts = same_contents(&old, words, &played.histories);
    let end = place(words[NEXT_UNUSED], 0);
    let rest = words[SHARES..HEAD] == shares && words[end..] == before[end..];
    (played.histories.shares, played.histories.room) = (shares, records);
    counts
        .filter(|_| rest)
        .ok_or_else(|| format!("{old:?} is carried as {words:?} with {shares:?}"))
}

impl Played {
    fn calls(&mut self, random: &mut Random, calls: usize) -> Result<(), String> {
        (0..calls).try_for_each(|_| {
            let call = self.offices.call(random, [3, 1, 1]);
            self.call(&call)
        })
    }

    /// A call by words and by histories.
    fn call(&mut self, call: &SheetCall) -> Result<(), String> {
        let reply = call.make(&mut self.sheet);
        let expected = self.histories.make(call);
        if reply == expected {
            return Ok(());
        }
        let words = &self.sheet.words;
        Err(format!("{call:?}: {reply:?}, not {expected:?}: {words:?}"))
    }
}

/// The numbers of lots and of free records, if both sheets have the histories' lots and
/// totals, and the same records in the same places of all chains, four records further in
/// the second.
fn same_contents(old: &[u32], new: &[u32], histories: &Histories) -> Option<[usize; 2]> {
    let plans = &mut Plans::default();
    let (first, second) = (intact(old, OLD, plans)?, intact(new, NEW, plans)?);
    let by_histories = [&first, &second].iter().all(|chains| {
        let lots = chains.lots.iter();
        lots.map(|lot| (&lot.number, &lot.classes))
            .eq(&histories.lots)
    });
    let totals = old[CLOSED_LOTS..TOTALS_END]
        .iter()
        .map(|&total| u64::from(total));
    let raised = records_of(&first).into_iter().map(|index| index + 4);
    let same = by_histories
        && totals.eq(histories.totals)
        && raised.eq(records_of(&second))
        && new[NEXT_UNUSED] == old[NEXT_UNUSED] + 4
        && new[K..TOTALS_END] == old[K..TOTALS_END];
    same.then_some([first.lots.len(), first.free.len()])
}

/// The records of all chains, in their order.
fn records_of(chains: &Chains) -> Vec<u32> {
    let lots = chains.lots.iter();
    let of_lots = lots.flat_map(|lot| [&[lot.record], &lot.inspections[..]].concat());
    of_lots.chain(chains.free.iter().copied()).collect()
}
