//! Commands on sheets with plans that have marked stages (02, change 1).

use super::draw;
use super::hand_written::TWO;
use super::marked_edges::marked_edges;
use super::marked_plans::*;
use super::random::Random;
use super::sheet_script::Script;
use crate::lines::fields;
use crate::lines::plan_lines::classes;
use crate::lines::sheet_lines::call_line;
use crate::model::layout::*;
use crate::model::plan::MARK;

const SEED: u64 = 4_294_967_296;

impl Script {
    pub fn marked_plans(&mut self) {
        self.random = Random::new(SEED);
        self.marked_known_lots();
        self.published_plan();
        self.marked_plans_given();
        self.marks_written();
        self.decided_in_a_marked_stage();
        self.marked_plays();
    }

    fn marked_known_lots(&mut self) {
        for &(plan, list, _) in MARKED_JUDGED {
            let list = classes(list).expect("a list is a dot and classes");
            self.fresh(room(6), 3, plan);
            self.lot(5, &list);
            self.lines("l 5, e 5, c 5, t");
        }
    }

    /// A lot accepted after 64 units, one rejected in the marked stage, and one that
    /// each stage but the last leaves undecided.
    fn published_plan(&mut self) {
        self.fresh(room(240), 7, PUBLISHED);
        self.line("o 1");
        for units in [31, 1, 1, 30, 1, 1] {
            self.good_units(1, units);
            self.lines("l 1, e 1");
        }
        self.lines("s 1, l 1, i 1 1, l 1, c 1, s 1, i 1 0, c 1, t");
        self.lot(2, &[2, 1, 2]);
        self.lines("l 2, e 2, i 2 0, s 2, l 2, c 2, i 2 1, c 2, t");
        self.lot(3, &classes_of(TO_STAGE_7));
        self.lines("l 3, i 3 1, l 3, i 3 1, l 3, s 3, l 3");
        self.good_units(3, 31);
        self.lines("l 3, e 3, c 3, t");
    }

    fn good_units(&mut self, lot: u32, units: usize) {
        for _ in 0..units {
            self.line(&format!("i {lot} 0"));
        }
    }

    /// Fresh with the plans around each rule, then the words of the plan that breaks
    /// it written to the head: every call on that sheet is refused.
    fn marked_plans_given(&mut self) {
        self.line(&format!("n {} 5", room(3)));
        for edge in marked_edges() {
            self.line(&format!("f{}", fields(&edge.kept())));
            self.line("o 3");
            let broken = edge.broken();
            self.line(&format!("f{}", fields(&broken)));
            self.put_stages(&broken);
            self.lines("t, l 3, e 3, i 3 0, s 3, o 4, c 3");
        }
    }

    /// Writes the words of a plan with as many stages as the one in the head.
    pub fn put_stages(&mut self, plan: &[u32]) {
        for (index, &word) in (STAGES..).zip(plan) {
            if self.words()[index] != word {
                self.put(index, word);
            }
        }
    }

    /// Both words of a mark written one after the other: the lot that stage 1 has
    /// accepted is undecided then. Without the mark its later inspections are too many.
    fn marks_written(&mut self) {
        let [a1, a2] = [STAGES + 1, STAGES + 3];
        self.fresh(room(24), 0, TWO);
        self.lot(8, &[0; 9]);
        self.lines("l 8, e 8");
        self.put(a1, MARK);
        self.lines("t, l 8");
        self.put(a2, MARK);
        self.lines("t, l 8, e 8, c 8, i 8 0, i 8 0, i 8 0, i 8 0, l 8");
        self.put(a1, TWO[1]);
        self.lines("t, l 8");
        self.put(a2, TWO[3]);
        self.lines("t, l 8, s 8");
        self.put(a1, MARK);
        self.put(a2, MARK - 1);
        self.lines("t, l 8");
        self.put(a2, MARK);
        self.lines("t, l 8, i 8 0, i 8 0, l 8, c 8, t");
    }

    /// Lots that earliest accepts before the end of the marked stage, and older classes
    /// and rejection numbers with which a lot was decided a unit before.
    fn decided_in_a_marked_stage(&mut self) {
        self.fresh(room(9), 0, INSIDE);
        self.lot(8, &[2, 0]);
        self.lines("l 8, i 8 0, p @1.0 0, t, l 8, i 8 0, s 8, c 8, p @1.0 1, t, l 8");
        self.put(STAGES + 4, 1);
        self.lines("t, l 8, p @1.0 2, t, l 8, s 8");
        self.put(STAGES + 4, 2);
        self.lines("t, l 8, s 8, l 8, i 8 2, l 8, i 8 2, l 8, c 8, t");
        self.lot(9, &[0]);
        self.lines("l 9, i 9 0, s 9, l 9, c 9, i 9 1, i 9 0, c 9, t");
    }

    fn marked_plays(&mut self) {
        for round in 0..12 {
            let k = 2 + round % 6;
            let marked = 1 + self.random.index(k - 1);
            let units = self.random.between(k as u32, 9);
            let plan = draw::marked_plan(&mut self.random, marked, k, units);
            self.marked_play(&plan);
        }
    }

    fn marked_play(&mut self, plan: &[u32]) {
        let length = self.random.pick(&[room(4), room(11) + 3, room(21)]);
        let seed = self.random.between(0, u32::MAX);
        self.fresh(length, seed, plan);
        let mixes = [[1, 1, 1], [8, 1, 1], [2, 1, 0], [1, 0, 3]];
        let mix = self.random.pick(&mixes);
        self.lines("o 1, o 2");
        for _ in 0..24 {
            let call = draw::sheet_call(&mut self.random, mix);
            self.line(&call_line(&call));
        }
        self.lines("l 1, l 2, t");
    }
}
