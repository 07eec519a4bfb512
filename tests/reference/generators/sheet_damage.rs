//! Commands on damaged sheets: each word changed alone, and named kinds of
//! damage that need several words. office_damage.rs has the damage of shares.

use super::hand_written::{A, B, TWO, UNIT};
use super::sheet_script::Script;
use crate::model::class::HIGHEST;
use crate::model::layout::*;
use crate::model::plan::STAGE_WORDS;

/// Kinds of damage to the sheet of `with_all_records`, as commands.
const SEVERAL: &[&str] = &[
    // A chain into a lot, a loop of lots, a wrong serial; a word after the last record.
    "p @3.1 @0",
    "p @4.1 @0",
    "p @5.1 @2, p @5.3 1",
    "p @13.1 @11",
    // Lots with each other's inspections, or with the same.
    "p @0.2 @6, p @2.2 @3",
    "p @2.2 @3",
    "p @2.2 @3, p @3.2 @3, p @5.2 @1, p @4.2 @1",
    // A chain of lots through an inspection, and an inspection that follows itself.
    "p @2.1 @3",
    "p @1.1 @1",
    // Lot numbers equal, falling, or 0.
    "p @0.0 0",
    "p @2.0 3, p @0.0 3",
    "p @2.0 2, p @0.0 3",
];

/// Numbers of stages that a head does not have, and 7; some wrap when multiplied by 5.
const KS: &[u32] = &[
    0,
    2,
    7,
    8,
    9,
    12,
    13,
    255,
    858_993_459,
    858_993_460,
    1 << 30,
    1 << 31,
    u32::MAX,
];

/// Whether this is the class of an inspection: word 3 of a lot is 0, that of a free
/// record is the tag, and that of an unused one is 0 on these sheets.
pub fn is_class(words: &[u32], index: usize) -> bool {
    let serial = index - index % RECORD_WORDS + SERIAL;
    let of_record = (HEAD..place(words[NEXT_UNUSED], 0)).contains(&index);
    of_record && index % RECORD_WORDS == CLASS && ![0, FREE].contains(&words[serial])
}

impl Script {
    pub fn damage(&mut self) {
        for plan in [A, TWO] {
            self.with_all_records(plan);
            self.each_word();
            self.several_words();
        }
        self.heads();
        self.indices_at_limits();
        self.after_a_stop();
        self.other_classes();
    }

    /// Lots 3, 5 and 9, decided and not, two to four free records, unused ones
    /// and two words after the last whole record.
    pub fn with_all_records(&mut self, plan: &[u32]) {
        self.fresh(room(13) + 2, 0, plan);
        self.lines("o 3, i 3 0, o 5, i 5 1, o 9, i 3 1, i 5 2, i 3 2, i 5 0, o 4, i 9 2, s 9, s 3");
        self.lines("o 7, i 7 2, i 7 2, s 7, i 4 0, s 4, s 7");
    }

    /// Each word but the shares with values next to its own, and with ones out of all
    /// limits. Those of a class are to make the sheet corrupt, so the highest class becomes the one
    /// above it.
    fn each_word(&mut self) {
        let before = self.words().to_vec();
        let indices = (0..SHARES).chain(HEAD..before.len());
        for (turn, index) in indices.enumerate() {
            let word = before[index];
            let near = [word ^ 1, word.wrapping_add(1), word.wrapping_sub(1)];
            let first = FIRST_RECORD;
            let far = [0, 3, first - 1, first, first + 3, before[NEXT_UNUSED]][turn % 6];
            let mut values = [&near[..], &[u32::MAX, far]].concat();
            values.retain(|&value| value != word);
            values.dedup();
            if is_class(&before, index) {
                let highest = u32::from(HIGHEST);
                let found = values.iter_mut().filter(|value| **value == highest);
                found.for_each(|value| *value = highest + 1);
            }
            for value in values {
                self.put(index, value);
                self.damaged(turn, before.len() - index < 3);
                self.restore(&before);
            }
        }
    }

    /// Tally, and now and then a call that would write: on a corrupt sheet, and where the
    /// word is after the last record.
    fn damaged(&mut self, turn: usize, after_records: bool) {
        let corrupt = self.line("t").starts_with("no 3");
        let call = ["o 6", "i 9 0", "s 5", "c 3", "l 5", "i 3 4", "s 9"][turn % 7];
        if corrupt || after_records {
            self.line(call);
        } else {
            self.line("l 5");
        }
    }

    fn several_words(&mut self) {
        let before = self.words().to_vec();
        for lines in SEVERAL {
            self.lines(lines);
            self.lines("t, l 3, o 6, i 9 0, c 5, s 3");
            self.restore(&before);
        }
    }

    /// Heads with any k, with stages past the k of the sheet, and with any word 0.
    fn heads(&mut self) {
        for plan in [A, B] {
            self.fresh(room(5), 0, plan);
            self.line("o 1");
            for &k in KS {
                self.put(K, k);
                self.lines("t, o 2, i 1 0");
                self.put(K, (plan.len() / STAGE_WORDS) as u32);
            }
            for index in (STAGES + plan.len()..CLOSED_LOTS).chain([TOTALS_END - 1]) {
                self.put(index, 1);
                self.line("t");
                self.put(index, 0);
            }
            self.line("t");
        }
        let near = [-1, 0, 1, 2, 4, 5, 6, 7].map(|more| FIRST_RECORD.wrapping_add_signed(more));
        for next in [&[0], &near[..], &[1 << 30, u32::MAX]].concat() {
            self.fresh(room(5) + 3, 0, UNIT);
            self.put(NEXT_UNUSED, next);
            self.lines("t, o 1, o 2, i 1 0");
        }
    }

    /// Chains in order but for an index before the first record, or of word 0: as a
    /// lot, as an inspection and as a free record. Then with the index inside.
    fn indices_at_limits(&mut self) {
        let chains = [
            "p @-1.0 5, p first-lot @-1, p next-unused @1",
            "p @-1.0 2, p @-1.2 @0, p @-1.3 1, p first-lot @0, p @0.0 5, p @0.2 @-1, \
             p next-unused @2",
            "p first-lot @1, p @1.0 5, p next-unused @1",
            "p first-lot @0, p @0.0 5, p @0.2 @2, p @2.2 @0, p @2.3 1, p next-unused @2",
            "p first-lot @0, p @0.0 5, p @0.2 @1, p @1.2 @0, p @1.3 1, p next-unused @2",
            "p first-free @1, p @1.0 1, p @1.3 free-tag, p next-unused @1",
            "p first-free @0, p @0.0 1, p @0.3 free-tag, p next-unused @1",
            "p first-lot @5, p next-unused @5",
            "p first-lot @4, p @4.0 5, p next-unused @5",
            "p first-lot @0, p @0.0 5, p next-unused @1",
        ];
        for lines in chains {
            self.fresh(room(5), 0, A);
            self.lines(lines);
            self.lines("t, l 5, e 5, s 5, o 6, i 5 0, c 5");
        }
    }

    /// A plan in the head that stops a lot before its last inspection, or not.
    fn after_a_stop(&mut self) {
        self.fresh(room(10), 0, A);
        self.lines("o 8, i 8 0, i 8 0, i 8 0, i 8 1, l 8, e 8");
        for stage in [
            [4, 2, 3, 1, 2],
            [6, 2, 3, 1, 2],
            [5, 1, 2, 1, 2],
            [5, 3, 4, 1, 2],
            [5, 2, 3, 0, 1],
        ] {
            for (index, word) in stage.into_iter().enumerate() {
                self.put(STAGES + index, word);
            }
            self.lines("t, l 8, e 8, s 8, l 8, e 8, i 8 1, c 9");
        }
    }

    /// Inspections of another class, the older ones too.
    fn other_classes(&mut self) {
        self.fresh(room(10), 0, A);
        self.lines("o 8, i 8 1, i 8 0, i 8 1, i 8 0, l 8");
        for class in [0, 1, 2, 4, u32::MAX] {
            for record in 1..=4 {
                let index = place(FIRST_RECORD + record, CLASS);
                let old = self.words()[index];
                self.put(index, class);
                self.lines("l 8, e 8");
                self.put(index, old);
            }
        }
        self.lines("p @1.0 2, p @2.0 2, p @3.0 2, l 8, c 8, s 8, p @4.0 2, l 8, t");
    }

    /// A lot whose older inspection is in the head, then among the records.
    pub fn older_before_the_first_record(&mut self) {
        for record in [-1, 2] {
            self.fresh(room(5), 0, A);
            self.lines("p next-unused @3, p first-lot @0, p @0.0 5, p @0.2 @1");
            self.lines(&format!("p @1.1 @{record}, p @1.2 @0, p @1.3 2"));
            self.lines(&format!(
                "p @{record}.0 1, p @{record}.2 @0, p @{record}.3 1"
            ));
            self.lines("t, l 5, e 5, c 5, i 5 0, s 5, o 6");
        }
    }

    /// A second lot in the head, then among the records.
    pub fn next_before_the_first_record(&mut self) {
        for record in [-1, 1] {
            self.fresh(room(5), 0, A);
            self.lines("p next-unused @2, p first-lot @0, p @0.0 1");
            self.lines(&format!("p @0.1 @{record}, p @{record}.0 2"));
            self.lines("t, l 1, l 2, o 3, i 2 0");
        }
    }

    /// A lot in its second stage that the first one has left undecided; then its older
    /// classes changed so that the first stage accepts it, and so that it rejects it.
    pub fn decided_at_a_stage_end(&mut self) {
        self.fresh(room(14), 0, TWO);
        self.lot(3, &[0, 0, 0, 0, 0, 0, 0, 1, 1, 1, 0, 0]);
        self.lines("t, l 3");
        let before = self.words().to_vec();
        let bad = "p @4.0 2, p @5.0 2, p @6.0 2, p @7.0 2, p @8.0 2, p @9.0 0, p @10.0 0";
        for lines in ["p @8.0 0", bad] {
            self.lines(lines);
            self.lines("t, l 3, c 3, i 3 0, s 3, o 4");
            self.restore(&before);
        }
        self.lines("t, l 3, i 3 0");
    }

    /// Damage of lots past their first stage: decided at its end, decided in the second
    /// stage, and a chain that goes on; last decided at the first end of three alone.
    pub fn past_the_first_stage(&mut self) {
        self.fresh(room(10), 0, &[3, 0, 2, 0, 2, 4, 2, 3, 1, 2]);
        self.lot(8, &[1, 0, 0, 0, 0]);
        self.lines("p @1.0 0, t, p @1.0 1, p @1.1 @0, t, p @1.1 0, t");
        self.lines("p @1.0 2, p @4.0 2, t, l 8");
        self.fresh(room(10), 0, &[2, 0, 2, 0, 2, 2, 0, 3, 0, 2, 4, 2, 3, 1, 2]);
        self.lot(8, &[1, 0, 0, 0, 0, 0, 0]);
        self.lines("t, p @1.0 0, p @3.0 1, t, l 8");
    }

    /// Damage in two places, of which neither shows by a number of records: two classes
    /// above the highest, a lot's record as its inspection, a unit after the first one
    /// stopped, and a chain through the last record, which is not whole.
    pub fn not_by_a_count(&mut self) {
        self.fresh(room(5), 0, A);
        self.lines("o 3, i 3 0, o 5, i 5 0, p @1.0 4, p @3.0 4, t, l 3, l 5");
        self.fresh(room(5), 0, A);
        self.lines("o 5, p @0.2 @0, t, l 5, i 5 0");
        self.fresh(room(5), 0, &[2, 0, 1, 0, 1]);
        self.lines("o 5, i 5 0, i 5 0, t, p @1.0 1, t, l 5");
        self.line(&format!("n {} 0", room(6)));
        self.fresh(room(6) - 1, 0, UNIT);
        self.lines("o 1, o 2, o 3, o 4, o 5, t");
        self.lines("p @4.1 @5, p @5.0 9, p @5.1 0, p @5.2 0, p next-unused @6, t, l 5");
    }
}
