//! One call by the library and by the reference, compared; and how many of them.

use crate::library::{self, Answer, Lent, PATTERN, PATTERN_64};
use reference::model::chance::{self, Bounds, Weights};
use reference::model::class::BLANK;
use reference::model::expected_units;
use reference::model::lot_chance::Lot;
use reference::model::offices::Shares;
use reference::model::plan::Plan;
use reference::model::plan_calls::{ChanceCall, LotChanceCall, PlanCalls};
use reference::model::sheet::Sheet;
use reference::model::sheet_call::SheetCall;
use reference::model::Reply;
use std::collections::BTreeMap;

/// An error is a difference.
pub type Compared = Result<(), String>;

/// A call of the library on a plan, with a number for each class and a scratch.
type Call = fn(&[u32], [u32; 3], &mut Lent<u64>) -> Answer;

#[derive(Default)]
pub struct Comparer {
    /// The reference's sheet, and the words of the one put aside. The library gets a copy
    /// for each call.
    pub sheet: Sheet,
    pub aside: Vec<u32>,
    /// Random plans with marked stages, and such plans changed so that they are not
    /// admitted.
    pub marked: u64,
    pub marked_refused: u64,
    /// Lists with a blank that were judged, and looks that showed one.
    blank_lists: u64,
    blank_looks: u64,
    calls: PlanCalls,
    counts: BTreeMap<(&'static str, u32), u64>,
}

impl Comparer {
    /// Another sheet. The tables kept for earlier plans go, since they are large.
    pub fn new_sheet(&mut self, words: Vec<u32>) {
        self.sheet = Sheet::new(words);
    }

    pub fn exchange(&mut self) {
        std::mem::swap(&mut self.sheet.words, &mut self.aside);
    }

    pub fn on_sheet(&mut self, call: &SheetCall) -> Compared {
        let before = self.sheet.words.clone();
        let mut lent = Lent::new(&before, PATTERN);
        let answer = library::on_sheet(call, &mut lent);
        let reply = call.make(&mut self.sheet);
        if let (SheetCall::Look(_), Ok(shown)) = (call, &reply) {
            self.blank_looks += u64::from(shown[5] > 0);
        }
        let what = || format!("{call:?} on {}", text(&before));
        self.same(call.name(), &answer, reply, what)?;
        self.same_words(&lent, what)
    }

    /// Carries the sheet put aside into the sheet; gives the number of the reply.
    pub fn carry(&mut self, shares: &Shares) -> Result<u32, String> {
        let (before, old) = (self.sheet.words.clone(), self.aside.clone());
        let mut lent = Lent::new(&before, PATTERN);
        let answer = library::carry(&old, &mut lent, shares);
        let reply = self.sheet.carry(&old, shares);
        let what = || {
            let (old, second) = (text(&old), text(&before));
            format!("carry with {shares:?} of {old} into {second}")
        };
        self.same("carry", &answer, reply.map(|()| vec![]), what)?;
        self.same_words(&lent, what)?;
        Ok(reply.err().unwrap_or(0))
    }

    fn same_words(&self, lent: &Lent<u32>, what: impl Fn() -> String) -> Compared {
        let run = lent.run();
        if run != self.sheet.words || !lent.kept_beyond(run.len()) {
            return Err(format!("{}: the words differ afterwards", what()));
        }
        Ok(())
    }

    pub fn judge(&mut self, plan: &[u32], list: &[u8]) -> Compared {
        let reply = self.calls.judge(list, plan);
        let reply = reply.map(|judgement| judgement.numbers().to_vec());
        self.blank_lists += u64::from(reply.is_ok() && list.contains(&BLANK));
        let answer = library::judge(plan, list);
        let what = || format!("judge {plan:?} {}", text(list));
        self.same("judge", &answer, reply, what)
    }

    /// Chance, expected units and their charts, with a scratch of so many words.
    pub fn with_weights(&mut self, plan: &[u32], weights: Weights, scratch: usize) -> Compared {
        let call = ChanceCall {
            weights,
            scratch: scratch as u32,
            words: plan.to_vec(),
        };
        let chance = self.calls.chance(&call);
        let units = self.calls.expected_units(&call);
        let calls: [(_, Call, Reply<Bounds>); 4] = [
            ("chance", library::chance, chance),
            ("chart", library::chart, chance.map(chance::chart)),
            ("units", library::units, units),
            (
                "units_chart",
                library::units_chart,
                units.map(expected_units::chart),
            ),
        ];
        for (function, call, reply) in calls {
            self.with_scratch(function, call, plan, weights, scratch, reply)?;
        }
        Ok(())
    }

    /// The chance of a lot, with a scratch of so many words.
    pub fn lot_chance(&mut self, plan: &[u32], lot: Lot, scratch: usize) -> Compared {
        let bounds = self.calls.lot_chance(&LotChanceCall {
            lot,
            scratch: scratch as u32,
            words: plan.to_vec(),
        });
        let call = library::lot_chance;
        self.with_scratch("lot_chance", call, plan, lot, scratch, bounds)
    }

    /// Only a granted call may write to the scratch, and only the words that it needs.
    fn with_scratch(
        &mut self,
        function: &'static str,
        call: Call,
        plan: &[u32],
        numbers: [u32; 3],
        scratch: usize,
        reply: Reply<Bounds>,
    ) -> Compared {
        let words: Vec<u64> = (0..scratch as u64).map(|i| PATTERN_64 ^ i).collect();
        let mut lent = Lent::new(&words, PATTERN_64);
        let answer = call(plan, numbers, &mut lent);
        let what = || format!("{function} {plan:?} {numbers:?}, scratch {scratch}");
        self.same(function, &answer, reply.map(Vec::from), what)?;
        let free = reply.map_or(0, |_| needed(plan));
        if lent.kept_beyond(free) {
            return Ok(());
        }
        let what = what();
        Err(format!("{what}: scratch words beyond {free} were written"))
    }

    fn same(
        &mut self,
        function: &'static str,
        answer: &Answer,
        reply: Reply<Vec<u64>>,
        what: impl Fn() -> String,
    ) -> Compared {
        let (number, out) = match reply {
            Ok(values) => (0, values),
            Err(number) => (number, vec![]),
        };
        *self.counts.entry((function, number)).or_default() += 1;
        if answer.number == number && answer.out == out {
            return Ok(());
        }
        let (ours, written) = (answer.number, &answer.out);
        Err(format!(
            "{}: {ours} {written:?} by the library, {number} {out:?} by the reference",
            what()
        ))
    }

    /// How many comparisons of each function and number were made.
    pub fn print(&self) {
        let mut by_function: BTreeMap<&str, (u64, String)> = BTreeMap::new();
        for (&(function, number), count) in &self.counts {
            let (all, line) = by_function.entry(function).or_default();
            *all += count;
            line.push_str(&match number {
                0 => format!(", {count} granted"),
                _ => format!(", {count} refused {number}"),
            });
        }
        for (function, (all, line)) in by_function {
            println!("{function}: {all} compared{line}");
        }
        let [drawn, refused] = [self.marked, self.marked_refused];
        println!("marked stages: {drawn} random plans, {refused} changed ones not admitted");
        let [lists, looks] = [self.blank_lists, self.blank_looks];
        println!("blanks: {lists} lists judged, {looks} looks");
    }
}

/// Words of scratch that an admitted plan needs.
pub fn needed(plan: &[u32]) -> usize {
    Plan::admitted(plan).map_or(0, |plan| chance::needed(&plan) as usize)
}

/// The elements of a short run, the length of a long one.
fn text<T: std::fmt::Debug>(run: &[T]) -> String {
    if run.len() <= 400 {
        format!("{run:?}")
    } else {
        format!("{} elements", run.len())
    }
}
