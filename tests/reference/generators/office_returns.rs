//! Records that offices give back by a strike or a closing (02, change 7), refusals beside
//! 19 in their order, and shares written to the head of a sheet in use.

use super::hand_written::{A, B, UNIT};
use super::office_draws::shares_of;
use super::sheet_script::Script;
use crate::model::layout::*;
use crate::model::offices::NO_SHARES;
use crate::model::plan::STAGE_WORDS;

/// Two nongood units reject, and one leaves a lot undecided.
const BOTH_NONGOOD: &[u32] = &[2, 1, 2, 1, 2];

impl Script {
    pub fn office_returns(&mut self) {
        self.after_a_closing();
        self.two_after_a_closing();
        self.after_a_strike();
        self.returns_below_a_share();
        self.returns_above_a_share();
        self.returns_of_the_same_office();
        self.each_office_returns();
        self.beside_held_back();
        self.full_before_held_back();
        self.tally_full_and_held_back();
        self.shares_written();
    }

    /// Office 3, which has no share, closes a lot. Then offices above their shares and at
    /// them are granted records, up to what office 2 lacks.
    fn after_a_closing(&mut self) {
        self.fresh_with(room(6), 2, UNIT, &shares_of(&[(1, 2), (2, 2)]));
        self.lines("o 3, i 3 0, o 19, o 1, i 1 0, o 17, o 4, c 3, o 17, i 17 0, o 33");
        self.lines("o 4, o 2, o 33, i 2 0, o 33, o 4, c 17, o 4, i 4 0, o 20, t");
        self.lines("c 2, o 20, c 4, o 20, o 36, o 2, i 2 1, o 18");
    }

    /// Office 1 has no share, and then one record of the two that it gives back: one call of
    /// two that were held back is granted.
    fn two_after_a_closing(&mut self) {
        self.fresh_with(room(6), 2, UNIT, &shares_of(&[(8, 2)]));
        self.lines("o 1, i 1 0, o 3, o 4, i 3 0, o 5, c 1, i 3 0, o 5, i 4 0");
        for calls in ["i 3 0, o 4", "o 4, i 3 0"] {
            self.fresh_with(room(6), 2, UNIT, &shares_of(&[(1, 1), (8, 3)]));
            self.lines(&format!("o 1, i 1 0, o 3, {calls}, c 1, {calls}, o 1"));
        }
    }

    fn after_a_strike(&mut self) {
        self.fresh_with(room(7), 2, A, &shares_of(&[(1, 2), (2, 2)]));
        self.lines("o 3, i 3 0, i 3 1, i 3 0, o 4, o 1, i 1 0, i 1 0, o 17");
        self.lines("s 3, i 1 0, i 1 0, o 4, s 3, o 4, i 4 0, i 3 0, s 1, i 3 1, i 1 1");
        self.lines("o 2, i 2 0, i 2 0, s 3, i 2 0, i 2 0, l 3");
    }

    /// An office at its share or below it lacks what it gives back, so that others are held
    /// back as before.
    fn returns_below_a_share(&mut self) {
        for plan in [UNIT, BOTH_NONGOOD] {
            self.fresh_with(room(5), 7, plan, &shares_of(&[(1, 3), (8, 1)]));
            self.lines("o 1, o 8, i 1 2, i 1 2, o 2, o 3, o 24, s 1, o 3, i 8 2, s 1, i 8 2");
            self.lines("i 1 1, i 1 1, i 8 2, c 1, o 3, i 8 2, s 8, o 3, o 17, o 33, o 49");
            self.lines("o 65, o 3, s 17, c 33, o 3, i 2 2, i 2 2, c 2, o 3, o 19");
        }
    }

    /// An office above its share gives back what it has more first. A closing gives back
    /// all at once, of which only a part is lacking.
    fn returns_above_a_share(&mut self) {
        self.fresh_with(room(8), 7, A, &shares_of(&[(1, 2), (8, 3)]));
        self.lines("o 1, i 1 2, i 1 0, i 1 0, i 1 0, i 1 2, o 17, o 3");
        self.lines("s 1, o 3, o 4, s 1, i 3 0, o 4, s 1, o 4, i 3 0, s 1, o 4");
        self.lines("i 1 2, i 1 2, c 1, o 4, i 4 0, o 20, i 3 0, o 5, o 17, o 33, o 49, o 5");
        self.fresh_with(room(7), 7, UNIT, &shares_of(&[(1, 1), (8, 3)]));
        self.lines("o 1, i 1 2, o 17, o 33, c 1, o 33, o 3, o 4, o 5, o 8, o 4, c 17");
        self.lines("i 17 0, c 17, o 4, o 5, o 6, t");
    }

    /// An office above its share that is held back strikes a unit and closes lots of its
    /// own. Last no other lacks a record.
    fn returns_of_the_same_office(&mut self) {
        self.fresh_with(room(6), 4, A, &shares_of(&[(1, 1), (8, 2)]));
        self.lines("o 1, i 1 0, i 1 1, i 1 0, o 17, i 1 0, s 1, o 17, i 17 2, s 1, i 17 2");
        self.fresh_with(room(6), 4, UNIT, &shares_of(&[(8, 2)]));
        self.lines("o 1, i 1 2, o 17, o 33, i 17 0, c 1, i 17 0, i 33 0, o 49, c 17, o 49");
        self.fresh_with(room(4), 4, UNIT, &shares_of(&[(1, 1)]));
        self.lines("o 1, i 1 0, o 17, i 17 0, o 33, c 1, o 33");
    }

    /// Office 3 holds all that is not lacking. One office after the other takes its record
    /// and returns it, and office 3 gets none of them.
    fn each_office_returns(&mut self) {
        self.fresh_with(room(32), 9, UNIT, &[2; OFFICES]);
        self.lines("o 3, o 19, o 35");
        for office in (0..16).filter(|&office| office != 3) {
            let lot = 16 + office;
            self.lines(&format!("o {lot}, i {lot} 0, i 3 0, s {lot}, i 3 0"));
            match office % 2 {
                0 => self.lines(&format!("i {lot} 1, c {lot}, o 35")),
                _ => self.lines(&format!("o {}, o 35, i {lot} 0", lot + 16)),
            }
        }
        self.line("t");
    }

    /// All offices but 7 are held back, from opening and from inspecting: 4, 5, 6, 7 and 8
    /// come first, and the calls that need no record aren't concerned. A corrupt sheet is 3.
    fn beside_held_back(&mut self) {
        for (plan, units) in [
            (UNIT, "i 2 0, o 18"),
            (A, "i 2 1, i 2 2"),
            (B, "o 18, i 2 1"),
        ] {
            self.fresh_with(room(5), 1, plan, &shares_of(&[(7, 2)]));
            self.lines(&format!("o 2, {units}, o 4, i 2 0, i 18 0"));
            self.lines("o 0, o 2, i 0 0, i 4 0, i 4 4, i 2 4, i 18 4, i 7 0, s 4, s 0");
            self.lines("l 2, e 2, l 4, e 4, c 4, c 18, t, i 2 3, o 16");
            self.lines("p k 8, o 0, o 2, o 4, i 4 4, i 2 4, i 2 0");
            self.line(&format!("p k {}", plan.len() / STAGE_WORDS));
            self.lines("o 7, o 4, i 7 0, o 4, i 2 0, i 18 0, o 0, o 2, i 4 0, i 2 4");
            self.lines("s 7, o 4, s 18, s 2, o 4, i 18 1, c 2, o 34, l 2, t");
        }
    }

    /// No record is left: 11 for offices at their share, above it, and below it, which
    /// shares written to the head allow.
    fn full_before_held_back(&mut self) {
        self.fresh_with(room(4), 1, A, &shares_of(&[(1, 1), (2, 2)]));
        self.lines("o 1, o 2, i 2 0, o 3, i 1 0, i 2 0, i 3 0, o 17, o 18, o 4, o 0, i 1 4");
        for shares in [
            shares_of(&[(1, 2), (2, 2)]),
            shares_of(&[(9, 4)]),
            NO_SHARES,
        ] {
            self.put_shares(&shares);
            self.lines("i 1 0, i 2 0, i 3 0, o 17, o 9, o 4, o 2, t");
        }
    }

    /// A decided lot can't be closed, and its records stay with its office.
    fn tally_full_and_held_back(&mut self) {
        self.fresh_with(room(4), 1, UNIT, &shares_of(&[(7, 2)]));
        self.line(&format!("p closed-lots {MOST_CLOSED}"));
        self.lines("o 2, i 2 0, o 3, c 2, o 3, s 2, o 3, o 4, t");
    }

    /// Two records are spare, and offices lack more, or as much: one below its share is
    /// granted a record while there is one, and the others none.
    fn shares_written(&mut self) {
        self.fresh(room(6), 8, A);
        self.lines("o 1, i 1 0, i 1 0, o 2");
        let before = self.words().to_vec();
        let below = "i 2 0, s 2, o 18";
        for (shares, calls) in [
            (
                shares_of(&[(1, 3), (2, 1), (3, 2)]),
                "i 1 0, i 2 0, o 4, o 17",
            ),
            (shares_of(&[(2, 1), (3, 3)]), "o 18, i 2 0, o 17, o 4, o 3"),
            (shares_of(&[(2, 2), (3, 2)]), below),
            (shares_of(&[(2, 3), (3, 1)]), below),
            (shares_of(&[(2, 3), (3, 3)]), below),
        ] {
            self.put_shares(&shares);
            self.lines(calls);
            self.restore(&before);
        }
        self.put_shares(&shares_of(&[(2, 3), (3, 3)]));
        self.lines("i 1 0, o 4, o 3, o 4, i 1 0, i 2 0, i 2 0, i 3 0, s 1, o 4, i 2 0, i 3 0");
        self.put_shares(&shares_of(&[(1, 6)]));
        self.lines("t, s 2, i 2 0, i 1 0, s 2, o 19, o 17");
        self.put_shares(&NO_SHARES);
        self.lines("s 1, o 17, s 1, o 4, i 1 0");
    }
}
