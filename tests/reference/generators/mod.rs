//! Inputs for the calls, the same at each run.
//!
//! - Hand-written: hand_written, plan_edges, known_lots, published; with marked
//!   stages marked_plans, marked_edges; for lots of known size sized_lots; for expected
//!   units known_units.
//! - Random: random, draw.
//! - Made of these: plan_cases, marked_cases, lot_cases and units_cases; sheet_cases,
//!   sheet_damage and marked_sheets, by sheet_script; full_sheets; lots_script.
//! - Listed place by place: stop_places, stop_stages, sooner_stops.
//! - With blanks: blanks, which makes them; blank_lists, blank_stops; blank_sheets,
//!   blank_refusals; blank_script.
//! - Estimates of lots that have one unit: only_units.
//! - With shares of offices: office_draws, which has them; office_shares, office_grants,
//!   office_returns, office_damage, office_plays.
//! - With carries of old sheets: old_sheets, which makes them; carry_sheets,
//!   carry_refusals, carry_damage, carry_offices, carry_large, carry_plays.

pub mod blank_lists;
pub mod blank_refusals;
pub mod blank_script;
pub mod blank_sheets;
pub mod blank_stops;
pub mod blanks;
pub mod carry_damage;
pub mod carry_large;
pub mod carry_offices;
pub mod carry_plays;
pub mod carry_refusals;
pub mod carry_sheets;
pub mod draw;
pub mod full_sheets;
pub mod hand_written;
pub mod known_lots;
pub mod known_units;
pub mod lot_cases;
pub mod lots_script;
pub mod marked_cases;
pub mod marked_edges;
pub mod marked_plans;
pub mod marked_sheets;
pub mod office_damage;
pub mod office_draws;
pub mod office_grants;
pub mod office_plays;
pub mod office_returns;
pub mod office_shares;
pub mod old_sheets;
pub mod only_units;
pub mod plan_cases;
pub mod plan_edges;
pub mod published;
pub mod random;
pub mod sheet_cases;
pub mod sheet_damage;
pub mod sheet_script;
pub mod sized_lots;
pub mod sooner_stops;
pub mod stop_places;
pub mod stop_stages;
pub mod units_cases;
