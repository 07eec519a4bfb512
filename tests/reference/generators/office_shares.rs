//! Shares given to fresh (02, change 7): sums at the most and above it, sums that pass 32
//! bits, sheets at the limits of their size, and fresh over a sheet in use.

use super::hand_written::{A, B, SEVEN, UNIT};
use super::office_draws::shares_of;
use super::sheet_script::Script;
use crate::model::layout::*;
use crate::model::offices::{Shares, NO_SHARES};

const HALF: u32 = 1 << 31;
const MOST: u32 = u32::MAX;

/// Shares that add to far more than any sheet has, in 32 bits mostly to 0 or 1.
pub fn past_32_bits() -> Vec<Shares> {
    vec![
        shares_of(&[(0, HALF), (15, HALF)]),
        shares_of(&[(2, HALF), (9, HALF), (11, 1)]),
        shares_of(&[(3, MOST), (4, 2)]),
        shares_of(&[(14, 1), (15, MOST)]),
        [1 << 28; OFFICES],
        [MOST; OFFICES],
        [HALF; OFFICES],
        shares_of(&[(6, MOST)]),
    ]
}

/// So many records dealt to the offices in turn, from one on.
fn in_turn(records: u32, first: usize) -> Shares {
    let mut shares = NO_SHARES;
    for turn in 0..records as usize {
        shares[(first + turn) % OFFICES] += 1;
    }
    shares
}

impl Script {
    /// The cases with shares of this file and of the others.
    pub fn offices(&mut self) {
        self.office_shares();
        self.office_grants();
        self.office_returns();
        self.office_damage();
        self.office_plays();
    }

    fn office_shares(&mut self) {
        self.shares_at_the_most();
        self.shares_past_32_bits();
        self.least_sizes_with_shares();
        self.greatest_sizes_with_shares();
        self.refusals_of_fresh();
        self.fresh_over_a_sheet_in_use();
    }

    /// They add to the records after the head, and to one more.
    fn shares_at_the_most(&mut self) {
        for (records, beyond) in [(1, 0), (2, 3), (15, 1), (16, 0), (17, 2), (40, 0)] {
            self.line(&format!("n {} 3", room(records) + beyond));
            let most = records as u32;
            let last = OFFICES - 1;
            for (turn, mut shares) in [
                shares_of(&[(0, most)]),
                shares_of(&[(last, most)]),
                in_turn(most, 0),
                in_turn(most, 11),
            ]
            .into_iter()
            .enumerate()
            {
                self.give(A, &shares);
                self.lines("o 16, o 31, o 3, i 3 0, t");
                shares[[last, last, 0, 6][turn]] += 1;
                self.give(A, &shares);
                self.line("t");
            }
        }
    }

    /// Given to fresh, then written to the head of a sheet with a lot.
    fn shares_past_32_bits(&mut self) {
        for shares in past_32_bits() {
            self.line(&format!("n {} 7", room(4)));
            self.give(UNIT, &shares);
            self.line("t");
            self.give(UNIT, &NO_SHARES);
            self.line("o 2");
            self.put_shares(&shares);
            self.lines("t, l 2, e 2, i 2 0, s 2, c 2, o 3, o 2");
        }
    }

    /// Writes the shares that aren't as they are in the head.
    pub fn put_shares(&mut self, shares: &Shares) {
        for (index, &share) in (SHARES..).zip(shares) {
            if self.words()[index] != share {
                self.put(index, share);
            }
        }
    }

    /// From one word too few to two records, with a share of none to three records.
    fn least_sizes_with_shares(&mut self) {
        for length in LEAST_WORDS - 1..=LEAST_WORDS + 4 {
            for share in 0..=3 {
                self.fresh_with(length, 9, UNIT, &shares_of(&[(1, share)]));
                self.lines("t, o 2, o 1, o 17, i 1 0, o 33, c 1, o 2, t");
            }
        }
    }

    fn greatest_sizes_with_shares(&mut self) {
        for length in [MOST_WORDS - 4, MOST_WORDS - 1, MOST_WORDS, MOST_WORDS + 1] {
            let most = records_after_head(length) as u32;
            self.line(&format!("n {length} 0"));
            for shares in [
                in_turn(most, 5),
                in_turn(most + 1, 5),
                shares_of(&[(7, most)]),
                shares_of(&[(7, 1), (8, most)]),
            ] {
                self.give(B, &shares);
                self.lines("t, o 23, o 8");
            }
        }
    }

    /// 1, 2 and 18 alone and with each other, on words of any value and on a sheet in use.
    fn refusals_of_fresh(&mut self) {
        let not_plans: [&[u32]; 3] = [&[5, 2, 3, 1, 3], &A[..4], &[]];
        for length in [LEAST_WORDS - 1, LEAST_WORDS, room(3), MOST_WORDS + 1] {
            self.line(&format!("n {length} 11"));
            for shares in [shares_of(&[(4, 3)]), [1; OFFICES], [MOST; OFFICES]] {
                for plan in not_plans {
                    self.give(plan, &shares);
                }
                self.give(A, &shares);
                self.line("t");
            }
        }
        self.fresh_with(room(3), 0, A, &shares_of(&[(4, 1)]));
        self.lines("o 4, i 4 0");
        for plan in [not_plans[0], A] {
            self.give(plan, &shares_of(&[(4, 3), (5, 1)]));
            self.lines("l 4, t");
        }
    }

    /// Other shares, shares that don't fit, and none: the last granted ones hold.
    fn fresh_over_a_sheet_in_use(&mut self) {
        self.fresh_with(room(4), 5, UNIT, &shares_of(&[(1, 2), (2, 2)]));
        self.lines("o 3, o 1, i 1 0, o 2, o 17, o 18, l 1, l 2");
        self.give(UNIT, &shares_of(&[(1, 2), (2, 3)]));
        self.lines("l 1, l 2, o 3, i 2 0, o 3, c 1, o 3");
        self.give(UNIT, &shares_of(&[(3, 4)]));
        self.lines("o 1, o 3, l 1, l 2, i 3 0, o 2, o 19, o 35, o 51");
        self.give(UNIT, &NO_SHARES);
        self.lines("o 1, o 2, o 3, o 4, o 5, i 1 0");
        self.give(UNIT, &shares_of(&[(5, 1)]));
        self.lines("o 1, o 2, o 3, o 4, o 5, o 6");
        // A plan with words for all stages, one with too many, and a short one again.
        let eight = [&SEVEN[..5], SEVEN].concat();
        for plan in [SEVEN, &eight, A] {
            self.give(plan, &in_turn(4, 13));
            self.lines("t, o 16, o 14, i 14 0, l 14, o 15, o 2, o 29");
        }
    }
}
