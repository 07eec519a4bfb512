//! Random calls on small sheets with shares (02, change 7), on lots of few offices and of
//! many.

use super::draw;
use super::hand_written::{A, UNIT};
use super::office_draws::{shares, too_many, Offices};
use super::random::Random;
use super::sheet_script::Script;
use crate::lines::sheet_lines::call_line;
use crate::model::layout::*;

const SEED: u64 = 65_536_016;

/// Most of the sheets are small, so that they are full soon.
const MOST_RECORDS: [u32; 4] = [6, 12, 24, 40];

impl Script {
    pub fn office_plays(&mut self) {
        self.random = Random::new(SEED);
        for round in 0..88 {
            let units = self.random.between(1, 5);
            let plan = match round % 4 {
                0 => UNIT.to_vec(),
                1 => A.to_vec(),
                2 => draw::plan(&mut self.random, 1 + round % 3, units),
                _ => draw::marked_plan(&mut self.random, 1, 2 + round % 3, units + 1),
            };
            let most = MOST_RECORDS[round % MOST_RECORDS.len()];
            let records = self.random.at_ends_or_between(1, most);
            self.office_play(&plan, records);
        }
    }

    fn office_play(&mut self, plan: &[u32], records: u32) {
        let beyond = self.random.index(RECORD_WORDS);
        let seed = self.random.between(0, u32::MAX);
        let offices = Offices::draw(&mut self.random, records);
        let length = room(records as usize) + beyond;
        self.fresh_with(length, seed, plan, &offices.shares);
        let mixes = [[1, 1, 1], [6, 1, 1], [1, 0, 3], [1, 3, 1]];
        let mix = self.random.pick(&mixes);
        if self.random.one_in(2) {
            for lot in &offices.lots {
                self.line(&format!("o {lot}"));
            }
        }
        for turn in 1..=60 {
            let call = offices.call(&mut self.random, mix);
            self.line(&call_line(&call));
            if turn % 40 == 0 {
                self.shares_now_and_then(plan, records, &offices.lots);
            }
        }
        self.line("t");
    }

    /// Others written to the head of the sheet in use, or given to fresh, or too many.
    fn shares_now_and_then(&mut self, plan: &[u32], records: u32, lots: &[u32]) {
        let other = shares(&mut self.random, records, lots);
        match self.random.index(6) {
            0 | 1 => self.put_shares(&other),
            2 => self.give(plan, &other),
            3 => {
                let shares = too_many(&mut self.random, records);
                self.give(plan, &shares);
            }
            _ => {}
        }
    }
}
