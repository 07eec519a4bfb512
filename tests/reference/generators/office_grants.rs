//! Records granted to offices and held back from them (02, change 7): which office a lot
//! has, sheets filled to the last record, and spare records around what others lack.

use super::hand_written::{A, ONE, UNIT};
use super::office_draws::shares_of;
use super::sheet_script::Script;
use crate::model::layout::*;
use crate::model::offices::NO_SHARES;

/// Lots of all offices, from the least number on, and the greatest one.
fn lots(least: u32) -> impl Iterator<Item = u32> {
    (least..=16).chain([u32::MAX])
}

impl Script {
    pub fn office_grants(&mut self) {
        for office in 0..OFFICES {
            self.opened_by_one_office(office);
        }
        self.inspected_by_one_office();
        for office in [0, 7, 15] {
            self.all_for_one_office(office);
        }
        for (each, more) in [(1, 0), (1, 1), (2, 0), (2, 1), (3, 2)] {
            self.equal_shares(each, more);
        }
        for records in 1..=5 {
            for share in 0..=records {
                self.spare_and_lacking(records, share);
            }
        }
        self.lacking_in_several_offices();
        self.around_a_share();
        self.free_and_unused();
        self.shares_on_the_largest_sheet();
    }

    /// Its share is the whole sheet of two records.
    fn opened_by_one_office(&mut self, office: usize) {
        self.fresh_with(room(2), 4, A, &shares_of(&[(office, 2)]));
        for lot in lots(0) {
            self.line(&format!("o {lot}"));
        }
    }

    /// One record is spare, and one office after the other lacks one. A granted unit is
    /// struck again.
    fn inspected_by_one_office(&mut self) {
        self.fresh(room(18), 4, A);
        for lot in lots(1) {
            self.line(&format!("o {lot}"));
        }
        for office in 0..OFFICES {
            let held = if office == 15 { 2 } else { 1 };
            self.put_shares(&shares_of(&[(office, held + 1)]));
            for lot in lots(1) {
                if self.line(&format!("i {lot} 0")).starts_with("ok") {
                    self.line(&format!("s {lot}"));
                }
            }
        }
    }

    /// Five records: the others get none while some are left, nor when they are full.
    fn all_for_one_office(&mut self, office: usize) {
        let own = [16, 32, 48].map(|more| more + office as u32);
        let other = [20, 36].map(|more| more + office as u32);
        self.fresh_with(room(5) + 1, 6, UNIT, &shares_of(&[(office, 5)]));
        for line in [
            format!("o {}, o {}, o {}", other[0], own[0], other[0]),
            format!("i {} 0, o {}, o {}", own[0], own[1], other[1]),
            format!("i {} 2, o {}, o {}", own[1], other[0], own[2]),
            format!("o {}, i {} 0, c {}", other[0], own[2], own[0]),
            format!("o {}, i {} 0, o {}, o 64", other[0], own[2], own[0]),
            format!("c {}, o {}, o {}, t", own[1], other[0], own[1]),
        ] {
            self.lines(&line);
        }
    }

    /// Each office takes its share and asks for one record more; so many are left over.
    /// Then the sheet is full for all.
    fn equal_shares(&mut self, each: u32, more: usize) {
        let records = OFFICES * each as usize + more;
        self.fresh_with(room(records), 8, A, &[each; OFFICES]);
        for turn in 0..OFFICES as u32 {
            let lot = 16 + turn * 5 % 16;
            self.line(&format!("o {lot}"));
            for _ in 1..each {
                self.line(&format!("i {lot} 0"));
            }
            let next = lot + 16;
            self.line(&match turn % 2 {
                0 => format!("o {next}"),
                _ => format!("i {lot} 1"),
            });
        }
        for lot in 16..32 {
            self.lines(&format!("o {}, i {lot} 0", lot + 32));
        }
    }

    /// Office 2 takes what it gets: all records but the share of office 1, which then takes
    /// that.
    fn spare_and_lacking(&mut self, records: usize, share: usize) {
        let shares = shares_of(&[(1, share as u32)]);
        self.fresh_with(room(records), 2, ONE, &shares);
        let mut call = "o 2";
        while self.line(call).starts_with("ok") {
            call = "i 2 0";
        }
        self.lines("o 18, o 16");
        let mut call = "o 1";
        while self.line(call).starts_with("ok") {
            call = "i 1 0";
        }
        self.lines("i 2 0, o 18");
    }

    /// What three offices lack is added up, and falls as they take it. An office above its
    /// share lacks nothing, and what it has more is not set against what others lack.
    fn lacking_in_several_offices(&mut self) {
        let shares = shares_of(&[(0, 2), (5, 1), (15, 2), (9, 1)]);
        self.fresh_with(room(10), 1, ONE, &shares);
        self.lines("o 9, i 9 0, i 9 0, i 9 0, i 9 0, i 9 0, o 25");
        self.lines("o 5, i 9 0, o 21, i 5 0, o 16, i 9 0, o 15, i 9 0, o 25");
        self.lines("i 16 0, i 9 0, i 16 0, i 15 0, i 9 0, i 15 0, i 5 0");
        self.fresh_with(room(12), 1, ONE, &shares_of(&[(3, 4), (4, 4)]));
        self.lines("o 3, i 3 0, i 3 0, i 3 0, i 3 0, i 3 0, i 3 0, i 3 0, i 3 0, o 19");
        self.lines("o 1, o 4, o 1, i 3 0, i 4 0, i 4 0, o 1, i 4 0, o 1, i 4 0");
    }

    /// From below its share to above it and back, another office having its own or not.
    fn around_a_share(&mut self) {
        self.fresh_with(room(8), 3, ONE, &shares_of(&[(1, 3), (2, 3)]));
        self.lines("o 1, i 1 0, i 1 0, i 1 0, i 1 0, i 1 0, o 17, s 1, i 1 0, i 1 0");
        self.lines("o 2, i 1 0, i 2 0, i 2 0, i 1 0, i 2 0, s 2, i 1 0, i 2 0, i 2 0");
        self.lines("s 1, i 2 0, i 1 0, s 1, s 2, i 1 0, i 1 0, i 1 0, s 1, s 1, s 1");
        self.lines("i 2 0, i 2 0, i 2 0, i 1 0, i 1 0, i 1 0, o 3, l 1, l 2");
    }

    /// Two records are lacking. Spare are unused ones, unused and free ones, and free ones
    /// alone.
    fn free_and_unused(&mut self) {
        self.fresh_with(room(6) + 3, 5, A, &shares_of(&[(12, 2)]));
        self.lines("o 2, i 2 1, i 2 0, i 2 0, s 2, i 2 0, o 3, s 2, o 3, i 3 0, s 2, i 3 0");
        self.lines("i 2 0, o 12, i 12 0, i 12 0, i 2 0, s 12, i 2 0, s 3, i 2 0, s 2, s 2");
        self.lines("i 12 0, s 12, o 12, o 19, i 12 2, i 2 0, o 28, l 2, l 12");
    }

    /// Full of lots of one record but for two. The shares are what the offices hold, then
    /// two more for office 5, then one too many.
    fn shares_on_the_largest_sheet(&mut self) {
        let lots = records_after_head(MOST_WORDS) as u32 - 2;
        let (less, next) = (lots - 1, lots + 1);
        self.fresh(MOST_WORDS, 0, UNIT);
        self.lines(&format!("p next-unused @{lots}, p first-lot @0"));
        self.line(&format!("a @0.0 record {lots} 1 1"));
        self.line(&format!("a @0.1 record {less} @1 1"));
        let mut shares = NO_SHARES;
        (1..=lots).for_each(|lot| shares[lot as usize % OFFICES] += 1);
        self.put_shares(&shares);
        self.lines(&format!("o {next}, i 4 0, s 4, c 4, l 4, i 20 0"));
        shares[5] += 2;
        self.put_shares(&shares);
        self.lines(&format!("i {lots} 0, i 21 0, c 4, i 20 0, i 37 0, i 36 1"));
        shares[6] += 1;
        self.put_shares(&shares);
        self.lines("t, i 5 0, o 5");
    }
}
