//! What a call is, and what an implementation of the calls has to offer.

use reference::model::chance::{Weights, MOST_SCRATCH};
use reference::model::offices::Shares;
use reference::model::sheet_call::SheetCall;
use std::rc::Rc;

pub enum Work {
    Judge {
        plan: Vec<u32>,
        list: Vec<u8>,
    },
    Chance {
        plan: Vec<u32>,
        weights: Weights,
        scratch: usize,
    },
    Units {
        plan: Vec<u32>,
        weights: Weights,
        scratch: usize,
    },
    LotChance {
        plan: Vec<u32>,
        /// Good, marginal and bad units.
        lot: [u32; 3],
        scratch: usize,
    },
    Sheet {
        before: Rc<Vec<u32>>,
        call: SheetCall,
    },
    /// An old sheet, carried into one with the words that it has before.
    Carry {
        old: Vec<u32>,
        before: Rc<Vec<u32>>,
        shares: Shares,
    },
}

pub trait Side {
    /// What is done before a call and not timed: the sheet as it was.
    fn prepare(&mut self, work: &Work);
    fn run(&mut self, work: &Work) -> Answer;
    /// The sheet after a call.
    fn words(&self) -> &[u32];
}

/// The number and the values of a call. A fixed array, so that a timed call
/// allocates nothing for it.
pub type Answer = (u32, [u64; 9]);

pub fn answer<const N: usize, T: Into<u64>>(reply: Result<[T; N], u32>) -> Answer {
    let mut values = [0; 9];
    match reply {
        Err(number) => (number, values),
        Ok(found) => {
            for (value, word) in values.iter_mut().zip(found) {
                *value = word.into();
            }
            (0, values)
        }
    }
}

/// The sheet and the scratch of a side. The scratch is not cleared between calls.
pub struct Memory {
    pub words: Vec<u32>,
    pub scratch: Vec<u64>,
}

impl Default for Memory {
    fn default() -> Memory {
        Memory {
            words: vec![],
            scratch: vec![0; MOST_SCRATCH as usize],
        }
    }
}

impl Memory {
    pub fn prepare(&mut self, work: &Work) {
        load(&mut self.words, work);
    }
}

pub fn load(words: &mut Vec<u32>, work: &Work) {
    if let Work::Sheet { before, .. } | Work::Carry { before, .. } = work {
        words.resize(before.len(), 0);
        words.copy_from_slice(before);
    }
}
