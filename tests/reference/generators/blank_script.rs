//! Lines with blanks for the program `lots` (02, change 4): the listing of 01, classes as
//! they may be written, lots looked at after each unit, the longest replies to a look, and
//! random lines.

use super::hand_written::{A, B, LARGEST};
use super::lots_script::{left_of_block, line, lines, lot, plan_line, BLOCK, LISTING};
use super::marked_plans::INSIDE;
use super::random::Random;
use crate::lines::plan_lines::classes;

/// A look at the lot with the longest replies.
const LOOK: &str = "l 1";

/// A blank as a class, classes above it, and what is no number.
const CLASSES: &[&str] = &[
    "3",
    "03",
    "0000000003",
    "00000000003",
    "4",
    "04",
    "0000000004",
    "255",
    "256",
    "259",
    "4294967295",
    "4294967296",
    "4294967299",
    "9999999999",
    "-3",
    "+3",
    "3a",
    "a3",
    "a",
    "blank",
    "",
    "3 ",
    " 3",
    "3 3",
    "3.",
    "0x3",
    "3\r",
    "3\0",
];

/// Lists under a plan, blanks first, in the middle and last.
const LISTS: [(&[u32], &str); 3] = [
    (
        A,
        ".3 .33 .333 .0003 .3000 .0300 .33000 .03003 .332 .323 .322 .133 .113 .31000",
    ),
    (
        B,
        ".333 .30000000000 .00000003000 .00000000003 .03000000033 .1300000000",
    ),
    (INSIDE, ".3 .33 .30 .03 .303 .330 .23 .32"),
];

pub fn blanks(script: &mut Vec<u8>) {
    script.extend(LISTING.bytes());
    script.extend(LISTING.replace("i 7 1", "i 7 3").bytes());
    written_classes(script);
    for (plan, lists) in LISTS {
        looked_at(script, plan, lists);
    }
    struck(script);
    longest_looks(script);
    for seed in 31..=34 {
        random(script, seed);
    }
}

/// For an open lot, an absent one and a decided one.
fn written_classes(script: &mut Vec<u8>) {
    line(script, &plan_line(A));
    lines(script, &["o 1", "o 2", "i 2 3", "i 2 3", "i 2 3"]);
    for class in CLASSES {
        line(script, &format!("i 1 {class}"));
        line(script, "l 1");
        line(script, "s 1");
    }
    for class in ["3", "4", "255", "256", "4294967295", "4294967296"] {
        for lot in [0, 2, 9] {
            line(script, &format!("i {lot} {class}"));
        }
    }
    lines(script, &["l 1", "l 2", "t"]);
}

/// After each unit; then closed, and the totals.
fn looked_at(script: &mut Vec<u8>, plan: &[u32], lists: &str) {
    line(script, &plan_line(plan));
    for (list, lot) in lists.split(' ').zip(1..) {
        line(script, &format!("o {lot}"));
        for class in classes(list).expect("a list is a dot and classes") {
            line(script, &format!("i {lot} {class}"));
            line(script, &format!("l {lot}"));
        }
        line(script, &format!("c {lot}"));
        line(script, "t");
    }
}

/// Blanks counted back, and other units in their place.
fn struck(script: &mut Vec<u8>) {
    line(script, &plan_line(A));
    lot(script, 4, &[3, 0, 3]);
    lines(script, &["s 4", "l 4", "s 4", "l 4", "s 4", "l 4", "s 4"]);
    lines(script, &["i 4 3", "i 4 1", "i 4 3", "l 4", "s 4", "l 4"]);
    lines(
        script,
        &["i 4 0", "i 4 0", "l 4", "i 4 0", "l 4", "c 4", "t"],
    );
}

/// Undecided with 999 units, accepted and rejected with 1,000: the greatest counts, since
/// no more than 60 units are nongood. Then a block of such looks alone.
fn longest_looks(script: &mut Vec<u8>) {
    line(script, &plan_line(LARGEST[0]));
    let list = [vec![3; 48], vec![2; 10], vec![1], vec![0; 940]].concat();
    lot(script, 1, &list);
    for class in [0, 1, 2, 3] {
        line(script, &format!("i 1 {class}"));
        lines(script, &[LOOK, "s 1"]);
    }
    line(script, "i 1 3");
    left_of_block(script, BLOCK);
    for _ in 0..BLOCK / (LOOK.len() + 1) {
        line(script, LOOK);
    }
    lines(script, &["c 1", "t", "o 1", LOOK]);
}

fn random(script: &mut Vec<u8>, seed: u64) {
    let random = &mut Random::new(seed);
    line(script, &plan_line(random.pick(&[A, B, INSIDE])));
    for _ in 0..100 {
        let lot = random.between(1, 5);
        let text = match random.index(12) {
            0 => format!("o {lot}"),
            1 => format!("s {lot}"),
            2 => format!("c {lot}"),
            3..=5 => format!("l {lot}"),
            6 => "t".to_string(),
            _ => format!("i {lot} {}", random.pick(&[0, 0, 0, 1, 2, 3, 3, 3, 4])),
        };
        line(script, &text);
    }
}
