//! Shares after a carry (02, changes 7 and 8): offices that arrive above theirs, spare records
//! that are fewer than what all lack, and the point from which an office below its share
//! is sure of a record.

use super::hand_written::{A, ONE, UNIT};
use super::office_draws::shares_of;
use super::old_sheets::old_sheet;
use super::sheet_script::Script;
use crate::model::layout::*;
use crate::model::offices::Shares;

/// Lots of offices 3 and 2, decided ones too; under plan UNIT.
const DECIDED: &str = "o 3, i 3 0, o 19, i 19 1, o 35, i 35 2, o 2, i 2 0";

impl Script {
    pub fn carry_offices(&mut self) {
        for office in 0..OFFICES {
            self.office_arrives_above(office);
        }
        self.enough_after_closings();
        self.enough_after_strikes();
        self.enough_by_what_others_take();
        self.never_enough();
        self.enough_at_once();
        self.shares_at_arrival();
    }

    fn carried(&mut self, plan: &[u32], calls: &str, records: usize, shares: &Shares) {
        let old = old_sheet(OLD.room(16), 0, plan, calls);
        self.put_aside(0, &old);
        self.carry_into(room(records) + records % RECORD_WORDS, 6, shares);
    }

    /// It holds all four records, and the next one has two as its share: it gets 11 until
    /// records are given back, and the first office 19 then.
    fn office_arrives_above(&mut self, office: usize) {
        let [own, second, third] = [16, 32, 48].map(|more| more + office);
        let [next, other] = [16, 32].map(|more| more + (office + 1) % OFFICES);
        let calls = format!("o {own}, i {own} 0, o {second}, i {second} 1");
        let shares = shares_of(&[((office + 1) % OFFICES, 2), (office, 1)]);
        self.carried(UNIT, &calls, 4, &shares);
        self.lines(&format!(
            "o {next}, o {third}, i {own} 0, s {own}, i {own} 0, o {next}, i {own} 0"
        ));
        self.lines(&format!(
            "i {next} 2, s {second}, o {third}, o {other}, c {next}, o {third}, i {second} 0"
        ));
        self.lines(&format!(
            "s {second}, o {next}, o {third}, c {own}, i {next} 1, o {third}, o {own}, c {third}"
        ));
        self.lines(&format!("i {own} 0, o {other}, c {second}, l {own}, t"));
    }

    /// Nothing is spare, and three offices lack seven records. Closings give back two each;
    /// offices below their shares get 11, then records, and at last all they lack.
    fn enough_after_closings(&mut self) {
        let shares = shares_of(&[(1, 3), (2, 4), (4, 2)]);
        self.carried(UNIT, DECIDED, 8, &shares);
        self.lines("o 1, o 18, o 4, o 51, i 2 0, t, c 3, o 51, o 1, o 17, o 4, o 18, c 19");
        self.lines("o 51, o 4, o 51, o 18, i 18 0, i 1 0, c 35, o 51, i 1 0, o 17, o 34, i 4 0");
        self.lines(
            "o 51, c 18, o 51, o 66, i 66 1, c 2, o 51, o 82, o 98, o 51, c 4, o 51, o 20, o 36",
        );
    }

    /// Strikes give back one each, of an office above its share, at it and below it.
    fn enough_after_strikes(&mut self) {
        let calls = "o 3, i 3 0, i 3 0, i 3 1, i 3 0, o 1, i 1 1, i 1 0";
        self.carried(ONE, calls, 8, &shares_of(&[(1, 3), (3, 2), (7, 2), (8, 1)]));
        self.lines("o 7, o 8, i 1 0, i 3 0, s 3, i 3 0, i 1 0, o 17, o 7, o 8, s 3, i 3 1, i 1 0");
        self.lines("o 8, o 23, s 1, i 3 0, i 7 0, i 1 0, s 3, i 3 0, i 7 0, o 9, i 1 1, s 1, s 7");
        self.lines("i 3 0, o 9, i 7 2, i 1 2, s 3, s 3, o 9, o 25, i 3 0, i 7 0, i 3 3, l 1, l 3");
    }

    /// Fewer are spare than all lack, and each record of an office below its share leaves
    /// that as it is; none is left for the last one.
    fn enough_by_what_others_take(&mut self) {
        let calls = "o 3, i 3 0, i 3 0, i 3 1, o 5, i 5 2";
        self.carried(A, calls, 9, &shares_of(&[(1, 2), (2, 2), (3, 1)]));
        self.lines("o 5, o 6, i 3 2, i 5 2, o 1, i 5 2, o 2, i 1 0, i 2 0, o 18, i 3 2, o 17");
        self.lines("s 5, i 5 0, i 2 0, i 5 0, s 3, i 3 2, s 3, i 3 2, i 5 2, o 4, c 5, o 4, i 3 2");
    }

    /// The sheet stays full: an office that has a share of all records gets 11 each time.
    fn never_enough(&mut self) {
        self.carried(UNIT, "o 3, o 19, o 35", 3, &shares_of(&[(8, 3)]));
        self.lines("o 8, i 3 0, o 8, s 3, o 24, c 3, l 3, o 8, t");
        self.carried(UNIT, "o 3, o 19, i 3 0", 3, &shares_of(&[(8, 3)]));
        self.lines(
            "o 8, o 51, c 3, o 51, o 8, i 19 1, i 8 1, o 24, i 19 1, c 8, i 19 1, o 24, o 40",
        );
        self.lines("i 19 1, t");
    }

    /// As many are spare at the carry as all lack, one fewer, and one more.
    fn enough_at_once(&mut self) {
        for records in [7, 8, 9] {
            self.carried(
                A,
                "o 2, i 2 0, o 18, i 18 0",
                records,
                &shares_of(&[(1, 2), (9, 2)]),
            );
            self.lines("o 3, i 2 0, o 1, i 18 0, o 9, o 3, i 1 0, i 9 0, i 2 1, i 9 0, i 1 0");
            self.lines("s 18, i 2 0, i 9 2, i 1 2, s 2, i 1 2, i 18 0");
        }
    }

    /// The same old sheet under shares that are what each office holds, fewer for one of
    /// them, more, and none.
    fn shares_at_arrival(&mut self) {
        let old = old_sheet(
            OLD.room(9),
            0,
            A,
            "o 1, i 1 0, i 1 1, o 16, o 15, i 15 0, i 15 2",
        );
        self.put_aside(0, &old);
        for shares in [
            shares_of(&[(1, 3), (0, 1), (15, 3)]),
            shares_of(&[(1, 2), (0, 1), (15, 3)]),
            shares_of(&[(1, 4), (0, 2), (15, 3)]),
            shares_of(&[(0, 2), (14, 1)]),
            [0; OFFICES],
        ] {
            self.carry_into(room(9), 2, &shares);
            self.lines("i 1 0, i 15 0, o 32, i 16 0, o 14, o 17, i 16 1, s 1, o 30, i 1 0");
        }
    }
}
