//! Damage of the shares in a sheet's head (02, change 7): each alone, and several at once.

use super::hand_written::A;
use super::office_draws::shares_of;
use super::sheet_script::Script;
use crate::model::layout::*;
use crate::model::offices::Shares;

/// The shares of a sheet of 20 records; any of them may be four more.
const RECORDS: u32 = 20;
const SHARE: u32 = 1;
const ALL: Shares = [SHARE; OFFICES];
const MORE: u32 = RECORDS - OFFICES as u32;

/// Each kind of call, those that only read first.
const CALLS: &str = "t, l 5, e 5, i 3 0, o 6, s 9, i 9 2, c 5, o 19";

impl Script {
    pub fn office_damage(&mut self) {
        self.with_lots_of_offices();
        for office in 0..OFFICES {
            self.share_changed(office);
            self.share_far_off(office);
        }
        self.shares_changed();
        self.beside_the_shares();
    }

    /// Lots of offices 3, 5, 9 and 4, undecided and decided, with free and unused records.
    /// As many are spare as the other twelve offices lack.
    fn with_lots_of_offices(&mut self) {
        self.fresh_with(room(RECORDS as usize) + 1, 0, A, &ALL);
        self.lines("o 3, i 3 0, o 5, i 5 2, i 5 2, o 9, i 9 1, o 20, i 3 0, s 3, t, i 3 0, o 19");
    }

    /// Not corrupt: with none, and with so many that the sum is the most. Others are granted
    /// more records, or fewer. Corrupt: with one above that.
    fn share_changed(&mut self, office: usize) {
        let before = self.words().to_vec();
        for share in [0, SHARE + MORE, SHARE + MORE + 1] {
            self.put(SHARES + office, share);
            self.line(&format!("o {}", 4 * OFFICES + office));
            self.lines(CALLS);
            self.restore(&before);
        }
    }

    /// The greatest word, one that makes the sum 0 in 32 bits, and 2^31.
    fn share_far_off(&mut self, office: usize) {
        let rest = OFFICES as u32 - SHARE;
        for share in [u32::MAX, rest.wrapping_neg(), 1 << 31] {
            self.put(SHARES + office, share);
            if share == u32::MAX {
                self.lines(CALLS);
            } else {
                self.lines("t, o 6, i 3 0");
            }
            self.put(SHARES + office, SHARE);
        }
    }

    /// Sums that are the most, one more, and 0 in 32 bits.
    fn shares_changed(&mut self) {
        let before = self.words().to_vec();
        let mut one_more = ALL;
        one_more[7] += MORE + 1;
        let mut moved = one_more;
        moved[8] -= 1;
        for shares in [
            moved,
            one_more,
            shares_of(&[(3, RECORDS)]),
            shares_of(&[(12, RECORDS)]),
            shares_of(&[(12, RECORDS), (13, 1)]),
            shares_of(&[(0, 1 << 31), (15, 1 << 31)]),
            [1 << 28; OFFICES],
            [u32::MAX; OFFICES],
            [0; OFFICES],
        ] {
            self.put_shares(&shares);
            self.lines("o 28");
            self.lines(CALLS);
            self.restore(&before);
        }
        // Fresh doesn't ask for the shares that were there.
        self.put_shares(&[u32::MAX; OFFICES]);
        self.give(A, &one_more);
        self.line("t");
        self.give(A, &moved);
        self.lines("t, o 23, o 8, l 3");
    }

    /// The words before the shares and after them are no shares: the last total, and the
    /// first word of a record that isn't used.
    fn beside_the_shares(&mut self) {
        self.fresh_with(room(2), 0, A, &shares_of(&[(0, 1), (15, 1)]));
        self.line("t");
        for index in [SHARES - 1, HEAD] {
            self.put(index, 1);
            self.lines("t, o 1");
            self.put(index, 0);
        }
        self.lines("o 1, o 16, o 31, o 32, t");
    }
}
