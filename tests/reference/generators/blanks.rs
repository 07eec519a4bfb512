//! Marginal units made blank (02, change 4), in lists and in calls on a sheet.

use super::draw;
use super::random::Random;
use crate::model::class::{BLANK, MARGINAL};
use crate::model::sheet_call::SheetCall;

/// All of them.
pub fn all(list: &[u8]) -> Vec<u8> {
    chosen(list, || true)
}

/// The first, the third and so on.
pub fn every_other(list: &[u8]) -> Vec<u8> {
    let mut turn = false;
    chosen(list, || {
        turn = !turn;
        turn
    })
}

/// Each by chance.
pub fn some(random: &mut Random, list: &[u8]) -> Vec<u8> {
    chosen(list, || random.one_in(2))
}

fn chosen(list: &[u8], mut blank: impl FnMut() -> bool) -> Vec<u8> {
    let made = |&class: &u8| {
        if class == MARGINAL && blank() {
            BLANK
        } else {
            class
        }
    };
    list.iter().map(made).collect()
}

/// As `draw::sheet_call`, with more classes that are refused.
pub fn sheet_call(random: &mut Random, mix: [u32; 3]) -> SheetCall {
    let call = draw::sheet_call(random, mix);
    let SheetCall::Inspect(lot, class) = call else {
        return call;
    };
    let class = match class {
        1 => random.pick(&[1, u32::from(BLANK)]),
        256 => random.pick(&[255, 256]),
        _ => class,
    };
    SheetCall::Inspect(lot, class)
}
