//! Safe calls of the library; include/haqothwe.h says what each does. Link with
//! `-l static=export`.

// A program that takes this file as a module may use a part of it.
#![allow(dead_code, unused_imports)]

#[path = "plan_rules.rs"]
mod plan_rules;

pub use plan_rules::{broken_rules, NOT_PERMITTED};
use std::error::Error;
use std::fmt;

/// The refusals from their table: number, name and sentence of each.
macro_rules! refusals {
    ($($number:literal $name:ident $text:literal)*) => {
        /// Why a call is refused.
        #[derive(Clone, Copy, Debug, PartialEq, Eq, Hash)]
        pub enum Refusal {
            $(#[doc = $text] $name,)*
            /// A number that is not in the table; the library returns none.
            Other(u32),
        }

        impl Refusal {
            pub fn number(self) -> u32 {
                match self {
                    $(Refusal::$name => $number,)*
                    Refusal::Other(number) => number,
                }
            }

            pub fn text(self) -> &'static str {
                match self {
                    $(Refusal::$name => $text,)*
                    Refusal::Other(_) => "unknown refusal",
                }
            }
        }

        impl From<u32> for Refusal {
            fn from(number: u32) -> Refusal {
                match number {
                    $($number => Refusal::$name,)*
                    _ => Refusal::Other(number),
                }
            }
        }
    };
}

// docs/SPECIFICATION.md, "Refused".
refusals! {
    1 SheetSize "the sheet has fewer than 64 words (an old one 48) or more than 65,536"
    2 Plan "the plan is not admitted"
    3 Corrupt "the sheet is corrupt"
    18 Shares "the shares add to more than the records after the header"
    20 NoFit "the second sheet has too few records for those of the old one"
    4 LotZero "0 is not a lot number"
    5 OpenAlready "the lot is open already"
    6 NotOpen "the lot is not open"
    7 Class "a class is above 3"
    8 Decided "the lot is decided"
    9 NoneToStrike "the lot has no inspection to strike"
    10 Undecided "the lot is undecided"
    11 Full "no record is free or unused"
    19 HeldBack "the records left are held back for other offices"
    12 TallyFull "4,000,000 lots are closed and the totals have no room for more"
    13 Weights "the weights add to 0 or to more than 1,000,000"
    17 LotSize "the lot has fewer units than the sample or more than 1,000,000"
    14 ScratchShort "the scratch is too short for the plan"
    15 SeveralStages "the plan has several stages"
    16 Line "the line is not a command"
}

impl fmt::Display for Refusal {
    fn fmt(&self, out: &mut fmt::Formatter) -> fmt::Result {
        write!(out, "refused {}: {}", self.number(), self.text())
    }
}

impl Error for Refusal {}

pub type Reply<T> = Result<T, Refusal>;

/// Words of scratch that are enough for every admitted plan.
pub const SCRATCH_MOST: usize = 7_200;

/// Offices that share a sheet; that of a lot is its number % 16.
pub const OFFICES: usize = 16;

pub const UNDECIDED: u32 = 0;
pub const ACCEPTED: u32 = 1;
pub const REJECTED: u32 = 2;

// The results have the layout of the words that the library writes.

#[repr(C)]
#[derive(Clone, Copy, Debug, Default, PartialEq, Eq)]
pub struct Look {
    pub state: u32,
    pub units: u32,
    pub good: u32,
    pub marginal: u32,
    pub bad: u32,
    /// Units of class 3, which are among the marginal too.
    pub blanks: u32,
}

#[repr(C)]
#[derive(Clone, Copy, Debug, Default, PartialEq, Eq)]
pub struct Tally {
    pub accepted: u32,
    pub rejected: u32,
    pub good: u32,
    pub marginal: u32,
    pub bad: u32,
}

/// The units counted, by class: a lot's only unit, or all but its last. They add to the
/// denominator, which is at least 1.
#[repr(C)]
#[derive(Clone, Copy, Debug, Default, PartialEq, Eq)]
pub struct Estimate {
    pub good: u64,
    pub marginal: u64,
    pub bad: u64,
    pub denominator: u64,
}

/// Where a way stops on a list; 0 units where it does not.
#[repr(C)]
#[derive(Clone, Copy, Debug, Default, PartialEq, Eq)]
pub struct Stop {
    pub units: u32,
    pub state: u32,
}

#[repr(C)]
#[derive(Clone, Copy, Debug, Default, PartialEq, Eq)]
pub struct Judgement {
    pub uncurtailed: Stop,
    pub semi: Stop,
    pub full: Stop,
    pub earliest: Stop,
    pub event: u32,
}

#[rustfmt::skip]
extern "C" {
    fn haq_fresh(
        sheet: *mut u32, n: usize, plan: *const u32, plan_n: usize, shares: &[u32; OFFICES],
    ) -> u32;
    fn haq_carry(
        old: *const u32, old_n: usize, sheet: *mut u32, n: usize, shares: &[u32; OFFICES],
    ) -> u32;
    fn haq_open(sheet: *mut u32, n: usize, lot: u32) -> u32;
    fn haq_inspect(sheet: *mut u32, n: usize, lot: u32, class: u32) -> u32;
    fn haq_strike(sheet: *mut u32, n: usize, lot: u32) -> u32;
    fn haq_close(sheet: *mut u32, n: usize, lot: u32) -> u32;
    fn haq_look(sheet: *const u32, n: usize, lot: u32, out: &mut Look) -> u32;
    fn haq_tally(sheet: *const u32, n: usize, out: &mut Tally) -> u32;
    fn haq_estimate(sheet: *const u32, n: usize, lot: u32, out: &mut Estimate) -> u32;
    fn haq_judge(
        plan: *const u32, plan_n: usize, list: *const u8, n: usize, out: &mut Judgement,
    ) -> u32;
    fn haq_chance(
        plan: *const u32, plan_n: usize, w0: u32, w1: u32, w2: u32,
        scratch: *mut u64, n: usize, out: &mut [u64; 2],
    ) -> u32;
    fn haq_chart(
        plan: *const u32, plan_n: usize, w0: u32, w1: u32, w2: u32,
        scratch: *mut u64, n: usize, out: &mut [f64; 2],
    ) -> u32;
    fn haq_lot_chance(
        plan: *const u32, plan_n: usize, good: u32, marginal: u32, bad: u32,
        scratch: *mut u64, n: usize, out: &mut [u64; 2],
    ) -> u32;
    fn haq_units(
        plan: *const u32, plan_n: usize, w0: u32, w1: u32, w2: u32,
        scratch: *mut u64, n: usize, out: &mut [u64; 2],
    ) -> u32;
    fn haq_units_chart(
        plan: *const u32, plan_n: usize, w0: u32, w1: u32, w2: u32,
        scratch: *mut u64, n: usize, out: &mut [f64; 2],
    ) -> u32;
}

fn reply<T: Default>(call: impl FnOnce(&mut T) -> u32) -> Reply<T> {
    let mut out = T::default();
    match call(&mut out) {
        0 => Ok(out),
        number => Err(Refusal::from(number)),
    }
}

/// A sheet on borrowed words. The calls require valid memory of the given length
/// and a pointer that is not null, which every slice is, one of length 0 too.
pub struct Sheet<'a>(pub &'a mut [u32]);

impl Sheet<'_> {
    /// The shares are records for each office, 0 where it has no share.
    pub fn fresh(&mut self, plan: &[u32], shares: &[u32; OFFICES]) -> Reply<()> {
        let (words, n) = (self.0.as_mut_ptr(), self.0.len());
        reply(|_| unsafe { haq_fresh(words, n, plan.as_ptr(), plan.len(), shares) })
    }

    /// Carries an old sheet, whose header has no shares, into this one.
    pub fn carry(&mut self, old: &[u32], shares: &[u32; OFFICES]) -> Reply<()> {
        let (words, n) = (self.0.as_mut_ptr(), self.0.len());
        reply(|_| unsafe { haq_carry(old.as_ptr(), old.len(), words, n, shares) })
    }

    pub fn open(&mut self, lot: u32) -> Reply<()> {
        reply(|_| unsafe { haq_open(self.0.as_mut_ptr(), self.0.len(), lot) })
    }

    /// A class is 0 good, 1 marginal, 2 bad or 3 blank.
    pub fn inspect(&mut self, lot: u32, class: u32) -> Reply<()> {
        reply(|_| unsafe { haq_inspect(self.0.as_mut_ptr(), self.0.len(), lot, class) })
    }

    pub fn strike(&mut self, lot: u32) -> Reply<()> {
        reply(|_| unsafe { haq_strike(self.0.as_mut_ptr(), self.0.len(), lot) })
    }

    pub fn close(&mut self, lot: u32) -> Reply<()> {
        reply(|_| unsafe { haq_close(self.0.as_mut_ptr(), self.0.len(), lot) })
    }

    pub fn look(&self, lot: u32) -> Reply<Look> {
        reply(|out| unsafe { haq_look(self.0.as_ptr(), self.0.len(), lot, out) })
    }

    pub fn tally(&self) -> Reply<Tally> {
        reply(|out| unsafe { haq_tally(self.0.as_ptr(), self.0.len(), out) })
    }

    pub fn estimate(&self, lot: u32) -> Reply<Estimate> {
        reply(|out| unsafe { haq_estimate(self.0.as_ptr(), self.0.len(), lot, out) })
    }
}

pub fn judge(plan: &[u32], list: &[u8]) -> Reply<Judgement> {
    let (words, k) = (plan.as_ptr(), plan.len());
    reply(|out| unsafe { haq_judge(words, k, list.as_ptr(), list.len(), out) })
}

/// Low and high in units of 2^-40. Blanks belong to w1.
pub fn chance(plan: &[u32], [w0, w1, w2]: [u32; 3], scratch: &mut [u64]) -> Reply<[u64; 2]> {
    let (words, k, n) = (plan.as_ptr(), plan.len(), scratch.len());
    reply(|out| unsafe { haq_chance(words, k, w0, w1, w2, scratch.as_mut_ptr(), n, out) })
}

/// Low and high as floats.
pub fn chart(plan: &[u32], [w0, w1, w2]: [u32; 3], scratch: &mut [u64]) -> Reply<[f64; 2]> {
    let (words, k, n) = (plan.as_ptr(), plan.len(), scratch.len());
    reply(|out| unsafe { haq_chart(words, k, w0, w1, w2, scratch.as_mut_ptr(), n, out) })
}

/// Low and high in units of 2^-40 for a lot, given its good, marginal and bad units, blanks
/// among the marginal.
pub fn lot_chance(plan: &[u32], lot: [u32; 3], scratch: &mut [u64]) -> Reply<[u64; 2]> {
    let (words, k, n) = (plan.as_ptr(), plan.len(), scratch.len());
    let [good, marginal, bad] = lot;
    let scratch = scratch.as_mut_ptr();
    reply(|out| unsafe { haq_lot_chance(words, k, good, marginal, bad, scratch, n, out) })
}

/// Low and high of the expected number of units at the earliest stop, in units of 2^-30.
pub fn units(plan: &[u32], [w0, w1, w2]: [u32; 3], scratch: &mut [u64]) -> Reply<[u64; 2]> {
    let (words, k, n) = (plan.as_ptr(), plan.len(), scratch.len());
    reply(|out| unsafe { haq_units(words, k, w0, w1, w2, scratch.as_mut_ptr(), n, out) })
}

/// The same as floats.
pub fn units_chart(plan: &[u32], [w0, w1, w2]: [u32; 3], scratch: &mut [u64]) -> Reply<[f64; 2]> {
    let (words, k, n) = (plan.as_ptr(), plan.len(), scratch.len());
    reply(|out| unsafe { haq_units_chart(words, k, w0, w1, w2, scratch.as_mut_ptr(), n, out) })
}
