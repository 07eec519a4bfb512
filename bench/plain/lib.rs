//! The calls in plain Rust, written to be fast, with the same checks and replies
//! as the library: what its times are compared with. tests/reference is written
//! for clarity, so that a ratio to its times would say little.

pub mod carry;
pub mod chance;
mod draw;
pub mod judge;
pub mod lots;
mod packed;
mod plan;
mod shares;
pub mod sheet;
