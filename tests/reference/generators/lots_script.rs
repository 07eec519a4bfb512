//! A script for the program `lots`: the listing of 01, each bad form of a line,
//! each refusal that the program can give, a sheet filled and emptied, random lines,
//! many short lines with longer replies, lines over the end of a block, plans with marked
//! stages, and blanks (blank_script.rs). The last line lacks its byte 10.

use super::blank_script;
use super::draw;
use super::marked_edges::marked_edges;
use super::marked_plans::{classes_of, EITHER_UNIT, INSIDE, PUBLISHED, TO_STAGE_7};
use super::random::Random;
use crate::lines::fields;
use crate::model::layout::{records_after_head, PROGRAM_WORDS};
use crate::model::lots::LINE_BYTES;

pub const LISTING: &str = "p 5 2 3 1 2\no 7\ni 7 1\ni 7 2\ni 7 2\nl 7\ni 7 0\nc 7\nt\n";

const PLAN_A: &str = "p 5 2 3 1 2";
const PLAN_B: &str = "p 10 0 3 0 3 1 5 6 5 6";

pub fn all() -> Vec<u8> {
    let mut script = Vec::new();
    script.extend(b"t\no 1\ni 1 0\ns 1\nl 1\nc 1\np 0 0 0 0 0\nt\n");
    script.extend(LISTING.bytes());
    forms(&mut script);
    refusals(&mut script);
    filled(&mut script);
    for seed in 1..=12 {
        random(&mut script, seed);
    }
    crowded(&mut script);
    other_letters(&mut script);
    over_block_ends(&mut script);
    last_line(&mut script);
    script.push(10);
    marked_plans(&mut script);
    last_line(&mut script);
    script.push(10);
    blank_script::blanks(&mut script);
    last_line(&mut script);
    script
}

pub fn line(script: &mut Vec<u8>, text: &str) {
    script.extend(text.bytes());
    script.push(10);
}

/// Lines of another form.
const FORMS: &[&str] = &[
    "",
    " ",
    "o",
    "o ",
    "o 1 ",
    " o 1",
    "o  1",
    "o 1 2",
    "o +1",
    "o -1",
    "o 1a",
    "o a",
    "oo 1",
    "O 1",
    "x 1",
    "o\t1",
    "o 1\r",
    "o 1\0",
    "\0",
    "o 12345678901",
    "o 4294967296",
    "o 9999999999",
    "o 00000000001",
    "i",
    "i 1",
    "i 1 ",
    "i 1 2 3",
    "i 1  2",
    "s",
    "s 1 1",
    "l",
    "l 1 1",
    "c",
    "c 1 1",
    "t 1",
    "t ",
    " t",
    "tt",
    "p",
    "p ",
    "p 5 2 3 1",
    "p 5 2 3 1 2 5",
    "p 5 2 3 1 2 ",
    "p  5 2 3 1 2",
];

/// Lines of another form, among them lines at and past the length that a line may have.
fn forms(script: &mut Vec<u8>) {
    line(script, PLAN_A);
    FORMS.iter().for_each(|text| line(script, text));
    line(script, &format!("p{}", " 1".repeat(36)));
    line(script, &format!("p{}", " 1".repeat(40)));
    for text in [
        "o 0000000001",
        "o 4294967295",
        "l 1",
        "l 4294967295",
        "i 1 256",
        "i 1 4294967295",
        "i 9 256",
    ] {
        line(script, text);
    }
    wide_plans(script);
    let edges = [LINE_BYTES - 1, LINE_BYTES, LINE_BYTES + 1, LINE_BYTES + 2];
    for length in [&edges[..], &[300, 4095, 4096, 4097, 70_000]].concat() {
        line(script, &"t".repeat(length));
        line(script, &" ".repeat(length));
    }
}

/// A plan of seven stages on a line of the most bytes, which is a command, and on a
/// line of one more, which is not.
fn wide_plans(script: &mut Vec<u8>) {
    for length in [LINE_BYTES, LINE_BYTES + 1] {
        line(script, &wide_plan(length));
        line(script, "o 5");
        line(script, "l 5");
    }
}

fn wide_plan(length: usize) -> String {
    let plan = (0..7).flat_map(|i| {
        if i < 6 {
            [9, i, 9 + i, i, 9 + i]
        } else {
            [9, 15, 16, 15, 16]
        }
    });
    let mut spare = length - 1 - 35 * 7;
    let mut text = "p".to_string();
    for number in plan {
        let more = spare.min(4);
        spare -= more;
        text.push_str(&format!(" {number:0width$}", width = 6 + more));
    }
    assert_eq!(text.len(), length);
    text
}

/// Each refusal in turn, and what is granted around it; two plans.
fn refusals(script: &mut Vec<u8>) {
    for plan in [PLAN_A, PLAN_B] {
        line(script, plan);
        for text in [
            "o 0", "o 3", "o 3", "o 2", "i 4 0", "i 4 4", "i 3 4", "s 3", "s 4", "l 4", "c 4",
            "c 3", "i 0 0", "l 0",
        ] {
            line(script, text);
        }
        for _ in 0..12 {
            line(script, "i 3 0");
            line(script, "l 3");
        }
        for text in [
            "i 3 4", "s 3", "l 3", "c 3", "i 3 0", "c 3", "t", "i 2 2", "i 2 2", "i 2 2", "l 2",
            "c 2", "t",
        ] {
            line(script, text);
        }
        line(script, "p 5 2 3 1 3");
        line(script, "t");
    }
}

/// Lots with a unit each and one lot more fill the sheet: its records are odd in
/// number.
fn filled(script: &mut Vec<u8>) {
    let lots = records_after_head(PROGRAM_WORDS) as u32 / 2;
    let more = lots + 1;
    line(script, "p 1 0 1 0 1");
    for lot in 1..=lots {
        line(script, &format!("o {lot}"));
        line(script, &format!("i {lot} {}", lot % 3));
    }
    for lot in [more, more + 1] {
        line(script, &format!("o {lot}"));
    }
    line(script, &format!("i {more} 0"));
    line(script, "i 1 0");
    line(script, "o 5");
    line(script, &format!("l {lots}"));
    line(script, &format!("c {more}"));
    for lot in (1..=lots).rev() {
        line(script, &format!("c {lot}"));
    }
    line(script, "t");
    line(script, &format!("i {more} 0"));
    line(script, &format!("c {more}"));
    for text in ["t", "o 1", "t"] {
        line(script, text);
    }
}

fn random(script: &mut Vec<u8>, seed: u64) {
    let random = &mut Random::new(seed);
    line(
        script,
        random.pick(&[PLAN_A, PLAN_B, "p 3 0 2 0 2 4 2 3 1 2"]),
    );
    random_lines(script, random, 150);
}

fn random_lines(script: &mut Vec<u8>, random: &mut Random, lines: usize) {
    for _ in 0..lines {
        let lot = random.between(0, 6);
        let text = match random.index(12) {
            0 | 1 => format!("o {lot}"),
            2 => format!("s {lot}"),
            3 => format!("c {lot}"),
            4 | 5 => format!("l {lot}"),
            6 => "t".to_string(),
            _ => format!("i {lot} {}", random.pick(&[0, 1, 2, 4])),
        };
        line(script, &text);
    }
}

/// The replies to 4,096 bytes of such lines take more than 16,384 bytes.
fn crowded(script: &mut Vec<u8>) {
    for _ in 0..5_000 {
        line(script, "");
    }
    for _ in 0..2_500 {
        line(script, "t");
    }
}

/// Each byte that is no command's letter, before so many numbers as a command takes,
/// with a decided lot; and the bytes beside the digits.
fn other_letters(script: &mut Vec<u8>) {
    for text in [PLAN_A, "o 1", "i 1 2", "i 1 2", "l 1"] {
        line(script, text);
    }
    for byte in (b'!'..=b'~').filter(|byte| !b"poislct".contains(byte)) {
        let letter = char::from(byte);
        for numbers in ["", " 1", " 1 0", " 5 2 3 1 2"] {
            line(script, &format!("{letter}{numbers}"));
        }
    }
    for text in ["o 2/", "o 2:", "l 2", "l 1", "t"] {
        line(script, text);
    }
}

/// The program reads blocks of so many bytes.
pub const BLOCK: usize = 4096;

/// One line more, so that so many bytes are left of the block.
pub fn left_of_block(script: &mut Vec<u8>, bytes: usize) {
    let spare = 2 * BLOCK - bytes - 1 - script.len() % BLOCK;
    line(script, &"x".repeat(spare % BLOCK));
    assert_eq!(script.len() % BLOCK, (BLOCK - bytes) % BLOCK);
}

/// Lines that a block ends in: too long by one byte, and by many that are read before
/// it ends.
fn over_block_ends(script: &mut Vec<u8>) {
    left_of_block(script, 100);
    line(script, &(wide_plan(LINE_BYTES) + "0"));
    line(script, "l 1");
    left_of_block(script, 300);
    script.extend([b'x'; 300]);
    line(script, "t");
}

/// A line that a block ends in, without its byte 10.
fn last_line(script: &mut Vec<u8>) {
    left_of_block(script, 6);
    script.extend(b"l 4294967295");
}

/// Plans with marked stages (02, change 1): lots decided in a marked stage, plans on
/// both sides of each rule, the published plan, and random ones.
fn marked_plans(script: &mut Vec<u8>) {
    decided_in_a_marked_stage(script, EITHER_UNIT);
    decided_in_a_marked_stage(script, INSIDE);
    marks_refused(script);
    marks_given(script);
    published_plan(script);
    let random = &mut Random::new(4_294_967_297);
    for k in [2, 3, 5, 7] {
        let marked = 1 + random.index(k - 1);
        line(script, &plan_line(&draw::marked_plan(random, marked, k, 8)));
        lines(script, &["o 1", "o 2", "o 3", "o 4", "o 5", "o 6"]);
        random_lines(script, random, 30);
    }
}

pub fn plan_line(words: &[u32]) -> String {
    format!("p{}", fields(words))
}

pub fn lines(script: &mut Vec<u8>, texts: &[&str]) {
    texts.iter().for_each(|text| line(script, text));
}

/// Opens a lot, inspects its units and looks at it.
pub fn lot(script: &mut Vec<u8>, number: u32, classes: &[u8]) {
    line(script, &format!("o {number}"));
    for class in classes {
        line(script, &format!("i {number} {class}"));
    }
    line(script, &format!("l {number}"));
}

fn decided_in_a_marked_stage(script: &mut Vec<u8>, plan: &[u32]) {
    line(script, &plan_line(plan));
    lot(script, 3, &[2, 0]);
    lot(script, 2, &[1, 2, 0]);
    lot(script, 1, &[0]);
    lines(script, &["i 1 0", "s 1", "l 1", "i 1 2", "i 1 0", "l 1"]);
    lines(script, &["c 3", "c 2", "t"]);
}

/// They leave the sheet as it is.
fn marks_refused(script: &mut Vec<u8>) {
    for edge in marked_edges() {
        line(script, &plan_line(&edge.broken()));
    }
    line(script, "l 1");
}

fn marks_given(script: &mut Vec<u8>) {
    for edge in marked_edges().into_iter().step_by(5) {
        line(script, &plan_line(&edge.kept()));
        line(script, &plan_line(&edge.broken()));
        line(script, "o 1");
    }
}

/// Stage 1 never accepts, stage 2 does with good units alone.
fn published_plan(script: &mut Vec<u8>) {
    line(script, &plan_line(PUBLISHED));
    lot(script, 9, &[0; 32]);
    line(script, "c 9");
    lot(script, 4, &[2, 2, 1]);
    lot(script, 6, &classes_of(&TO_STAGE_7[..4]));
    lines(script, &["i 9 0"; 32]);
    lines(script, &["l 9", "i 9 0", "c 9", "c 4", "c 6", "l 6", "t"]);
}
