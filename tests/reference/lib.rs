//! A second implementation of 01, the scope document, with changes 1, 2, 4, 5, 6, 7 and
//! 8 of 02, that shares no code with the library under crates/: the test oracle. Each part
//! uses those before it.
//!
//! - `model`: what these documents say.
//! - `lines`: calls as lines of text, and their answers by the model.
//! - `generators`: inputs, hand-written and seeded.
//! - `checks`: of the model itself, and of what the inputs cover.
//!
//! main.rs is the program over it; tests/differential and bench/ use it too.
//! A new kind of case needs a variant in lines/ and its lines in generators/.

pub mod checks;
pub mod generators;
pub mod lines;
pub mod model;
