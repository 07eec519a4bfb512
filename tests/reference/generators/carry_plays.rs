//! Random calls on old sheets, random carries of them, and random calls after that (02,
//! change 8).

use super::draw;
use super::hand_written::{A, UNIT};
use super::office_draws::{shares, too_many, Offices};
use super::old_sheets::played;
use super::random::Random;
use super::sheet_script::Script;
use crate::lines::sheet_lines::call_line;
use crate::model::layout::*;

const SEED: u64 = 65_536_020;

/// Most of the old sheets are small, so that they are full soon.
const MOST_RECORDS: [u32; 3] = [6, 12, 24];

impl Script {
    pub fn carry_plays(&mut self) {
        self.random = Random::new(SEED);
        for round in 0..72 {
            let units = self.random.between(1, 6);
            let plan = match round % 5 {
                0 => UNIT.to_vec(),
                1 => A.to_vec(),
                2 | 3 => draw::plan(&mut self.random, 1 + round % 7, units),
                _ => draw::marked_plan(&mut self.random, 1, 2 + round % 3, units + 1),
            };
            let most = MOST_RECORDS[round % MOST_RECORDS.len()];
            let records = self.random.at_ends_or_between(1, most);
            self.carry_play(&plan, records);
        }
    }

    fn carry_play(&mut self, plan: &[u32], records: u32) {
        let random = &mut self.random;
        let seed = random.pick(&[0, 1, 1 << 31, 2_654_435_761]);
        let length = OLD.room(records as usize) + random.index(RECORD_WORDS);
        let offices = Offices::draw(random, records);
        let calls = random.pick(&[6, 30, 90]);
        let old = played(random, length, seed, plan, &offices, calls);
        self.put_aside(seed, &old);
        for more in [-1, 0, 3] {
            let length = self.fitting() as i64 + more + self.random.index(3) as i64;
            let second = (length as usize).max(LEAST_WORDS);
            self.carry_play_into(second, &offices.lots);
        }
        let second = room(records as usize) + self.random.index(RECORD_WORDS);
        self.carry_play_into(second, &offices.lots);
        for turn in 1..=36 {
            let call = offices.call(&mut self.random, [2, 1, 1]);
            self.line(&call_line(&call));
            if turn % 30 == 0 {
                self.show_aside();
            }
        }
        self.line("t");
    }

    /// Under shares that fit the second sheet, and now and then such that don't.
    fn carry_play_into(&mut self, length: usize, lots: &[u32]) {
        let random = &mut self.random;
        let records = records_after_head(length) as u32;
        let shares = match random.one_in(6) {
            true => too_many(random, records),
            false => shares(random, records, lots),
        };
        let seed = random.between(0, 99);
        self.carry_into(length, seed, &shares);
    }
}
