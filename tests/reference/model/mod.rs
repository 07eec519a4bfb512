//! What 01 says, and changes 1, 2, 4, 5, 6, 7 and 8 of 02. Change 3 is about time alone.
//!
//! - "Plan", "Four ways to stop": class, plan, earliest, judge.
//! - "Lists, events, estimates", "Chance of acceptance": judge, chance,
//!   lot_chance (02, change 2), expected_units (02, change 6), and plan_calls, which
//!   has their refusals.
//! - "Sheet": layout, chains, offices (02, change 7), sheet, carry (02, change 8), and
//!   sheet_call, a call as a value.
//! - "Program lots": lots.

pub mod carry;
pub mod chains;
pub mod chance;
pub mod class;
pub mod earliest;
pub mod expected_units;
pub mod judge;
pub mod layout;
pub mod lot_chance;
pub mod lots;
pub mod offices;
pub mod plan;
pub mod plan_calls;
pub mod sheet;
pub mod sheet_call;

/// A refusal is its number (01 "Refused").
pub type Reply<T> = Result<T, u32>;
