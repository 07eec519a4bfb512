//! The functions of libexport.a, called on lent runs that show each write. They
//! are declared here with plain pointers, since `out` has margins too; the
//! declarations of bindings/rust are run by its example.

use reference::model::chance::Weights;
use reference::model::lot_chance::Lot;
use reference::model::offices::Shares;
use reference::model::sheet_call::SheetCall;

extern "C" {
    fn haq_fresh(
        sheet: *mut u32,
        n: usize,
        plan: *const u32,
        plan_n: usize,
        shares: *const u32,
    ) -> u32;
    fn haq_open(sheet: *mut u32, n: usize, lot: u32) -> u32;
    fn haq_inspect(sheet: *mut u32, n: usize, lot: u32, class: u32) -> u32;
    fn haq_strike(sheet: *mut u32, n: usize, lot: u32) -> u32;
    fn haq_close(sheet: *mut u32, n: usize, lot: u32) -> u32;
    fn haq_look(sheet: *const u32, n: usize, lot: u32, out: *mut u32) -> u32;
    fn haq_tally(sheet: *const u32, n: usize, out: *mut u32) -> u32;
    fn haq_estimate(sheet: *const u32, n: usize, lot: u32, out: *mut u64) -> u32;
    fn haq_carry(
        old: *const u32,
        old_n: usize,
        sheet: *mut u32,
        n: usize,
        shares: *const u32,
    ) -> u32;
    fn haq_judge(plan: *const u32, plan_n: usize, list: *const u8, n: usize, out: *mut u32) -> u32;
    fn haq_chance(
        plan: *const u32,
        plan_n: usize,
        w0: u32,
        w1: u32,
        w2: u32,
        scratch: *mut u64,
        n: usize,
        out: *mut u64,
    ) -> u32;
    fn haq_chart(
        plan: *const u32,
        plan_n: usize,
        w0: u32,
        w1: u32,
        w2: u32,
        scratch: *mut u64,
        n: usize,
        out: *mut f64,
    ) -> u32;
    fn haq_lot_chance(
        plan: *const u32,
        plan_n: usize,
        good: u32,
        marginal: u32,
        bad: u32,
        scratch: *mut u64,
        n: usize,
        out: *mut u64,
    ) -> u32;
    fn haq_units(
        plan: *const u32,
        plan_n: usize,
        w0: u32,
        w1: u32,
        w2: u32,
        scratch: *mut u64,
        n: usize,
        out: *mut u64,
    ) -> u32;
    fn haq_units_chart(
        plan: *const u32,
        plan_n: usize,
        w0: u32,
        w1: u32,
        w2: u32,
        scratch: *mut u64,
        n: usize,
        out: *mut f64,
    ) -> u32;
}

/// Elements before and after a run.
const MARGIN: usize = 16;

/// A run that is lent to a call, a margin on each side, and what all of it was.
pub struct Lent<T> {
    all: Vec<T>,
    before: Vec<T>,
}

impl<T: Copy + PartialEq> Lent<T> {
    pub fn new(run: &[T], margin: T) -> Lent<T> {
        let margin = [margin; MARGIN];
        let all = [&margin, run, &margin].concat();
        let before = all.clone();
        Lent { all, before }
    }

    /// Not null, for a run of length 0 too.
    fn pointer(&mut self) -> *mut T {
        self.all[MARGIN..].as_mut_ptr()
    }

    pub fn run(&self) -> &[T] {
        &self.all[MARGIN..self.all.len() - MARGIN]
    }

    fn len(&self) -> usize {
        self.run().len()
    }

    /// Whether nothing outside of the first elements of the run was written.
    pub fn kept_beyond(&self, first: usize) -> bool {
        let rest = MARGIN + first;
        self.all[..MARGIN] == self.before[..MARGIN] && self.all[rest..] == self.before[rest..]
    }

    pub fn kept(&self) -> bool {
        self.kept_beyond(0)
    }
}

pub const PATTERN: u32 = 0xA5A5_5A5A;
pub const PATTERN_64: u64 = 0xA5A5_5A5A_C3C3_3C3C;

/// What a call returned and wrote to out: no values where it wrote nothing.
pub struct Answer {
    pub number: u32,
    pub out: Vec<u64>,
}

fn with_words(length: usize, call: impl FnOnce(*mut u32) -> u32) -> Answer {
    let mut out = Lent::new(&vec![PATTERN; length], PATTERN);
    let number = call(out.pointer());
    assert!(out.kept_beyond(length), "a write beside out");
    let values = out.run().iter().map(|&word| u64::from(word)).collect();
    let out = if out.kept() { vec![] } else { values };
    Answer { number, out }
}

fn with_long_words(length: usize, call: impl FnOnce(*mut u64) -> u32) -> Answer {
    let mut out = Lent::new(&vec![PATTERN_64; length], PATTERN_64);
    let number = call(out.pointer());
    assert!(out.kept_beyond(length), "a write beside out");
    let values = out.run().to_vec();
    let out = if out.kept() { vec![] } else { values };
    Answer { number, out }
}

pub fn on_sheet(call: &SheetCall, sheet: &mut Lent<u32>) -> Answer {
    let (words, n) = (sheet.pointer(), sheet.len());
    match *call {
        SheetCall::Fresh(ref plan, ref shares) => fresh(words, n, plan, shares),
        SheetCall::Open(lot) => with_words(0, |_| unsafe { haq_open(words, n, lot) }),
        SheetCall::Inspect(lot, class) => {
            with_words(0, |_| unsafe { haq_inspect(words, n, lot, class) })
        }
        SheetCall::Strike(lot) => with_words(0, |_| unsafe { haq_strike(words, n, lot) }),
        SheetCall::Close(lot) => with_words(0, |_| unsafe { haq_close(words, n, lot) }),
        SheetCall::Look(lot) => with_words(6, |out| unsafe { haq_look(words, n, lot, out) }),
        SheetCall::Tally => with_words(5, |out| unsafe { haq_tally(words, n, out) }),
        SheetCall::Estimate(lot) => {
            with_long_words(4, |out| unsafe { haq_estimate(words, n, lot, out) })
        }
    }
}

fn fresh(words: *mut u32, n: usize, plan: &[u32], shares: &Shares) -> Answer {
    let mut plan = Lent::new(plan, PATTERN);
    let mut shares = Lent::new(shares, PATTERN);
    let (stages, k, lent) = (plan.pointer(), plan.len(), shares.pointer());
    let answer = with_words(0, |_| unsafe { haq_fresh(words, n, stages, k, lent) });
    assert!(
        plan.kept() && shares.kept(),
        "fresh wrote to its plan or shares"
    );
    answer
}

pub fn carry(old: &[u32], sheet: &mut Lent<u32>, shares: &Shares) -> Answer {
    let mut old = Lent::new(old, PATTERN);
    let mut shares = Lent::new(shares, PATTERN);
    let (words, n) = (sheet.pointer(), sheet.len());
    let (from, old_n, lent) = (old.pointer(), old.len(), shares.pointer());
    let answer = with_words(0, |_| unsafe { haq_carry(from, old_n, words, n, lent) });
    assert!(
        old.kept() && shares.kept(),
        "carry wrote to its old sheet or shares"
    );
    answer
}

pub fn judge(plan: &[u32], list: &[u8]) -> Answer {
    let mut plan = Lent::new(plan, PATTERN);
    // A class in the margin, so that a read past the list may change the answer.
    let mut list = Lent::new(list, 2);
    let (words, k) = (plan.pointer(), plan.len());
    let (classes, n) = (list.pointer(), list.len());
    let answer = with_words(9, |out| unsafe { haq_judge(words, k, classes, n, out) });
    assert!(
        plan.kept() && list.kept(),
        "judge wrote to its plan or list"
    );
    answer
}

/// A call on a plan, with a scratch, that writes two long words or floats to out.
fn with_scratch(
    name: &str,
    plan: &[u32],
    scratch: &mut Lent<u64>,
    call: impl FnOnce(*const u32, usize, *mut u64, usize, *mut u64) -> u32,
) -> Answer {
    let mut plan = Lent::new(plan, PATTERN);
    let (words, k, n) = (plan.pointer(), plan.len(), scratch.len());
    let lent = scratch.pointer();
    let answer = with_long_words(2, |out| call(words, k, lent, n, out));
    assert!(plan.kept(), "{name} wrote to its plan");
    answer
}

pub fn chance(plan: &[u32], [w0, w1, w2]: Weights, scratch: &mut Lent<u64>) -> Answer {
    with_scratch("chance", plan, scratch, |plan, k, lent, n, out| unsafe {
        haq_chance(plan, k, w0, w1, w2, lent, n, out)
    })
}

/// The floats' bit patterns.
pub fn chart(plan: &[u32], [w0, w1, w2]: Weights, scratch: &mut Lent<u64>) -> Answer {
    with_scratch("chart", plan, scratch, |plan, k, lent, n, out| unsafe {
        haq_chart(plan, k, w0, w1, w2, lent, n, out.cast())
    })
}

pub fn lot_chance(plan: &[u32], [good, marginal, bad]: Lot, scratch: &mut Lent<u64>) -> Answer {
    with_scratch(
        "lot_chance",
        plan,
        scratch,
        |plan, k, lent, n, out| unsafe {
            haq_lot_chance(plan, k, good, marginal, bad, lent, n, out)
        },
    )
}

pub fn units(plan: &[u32], [w0, w1, w2]: Weights, scratch: &mut Lent<u64>) -> Answer {
    with_scratch("units", plan, scratch, |plan, k, lent, n, out| unsafe {
        haq_units(plan, k, w0, w1, w2, lent, n, out)
    })
}

/// The floats' bit patterns.
pub fn units_chart(plan: &[u32], [w0, w1, w2]: Weights, scratch: &mut Lent<u64>) -> Answer {
    with_scratch(
        "units_chart",
        plan,
        scratch,
        |plan, k, lent, n, out| unsafe {
            haq_units_chart(plan, k, w0, w1, w2, lent, n, out.cast())
        },
    )
}
