//! The counts of a lot's inspections in one word, so that an inspection is counted by one
//! addition.

use super::plan::Counts;

/// Units, nongood, bad and blank ones, 16 bits each: a lot has at most 1,000 units.
#[derive(Clone, Copy, Default)]
pub struct Packed(u64);

const NONGOOD: u64 = 1 << 16;
const BAD: u64 = 1 << 32;
const BLANK: u64 = 1 << 48;

/// What a unit counts as, by its class. A table is faster here than comparisons.
const KINDS: [u64; 4] = [0, NONGOOD, NONGOOD | BAD, NONGOOD | BLANK];

impl Packed {
    /// So many units, their classes to be counted.
    pub fn units(units: u32) -> Packed {
        Packed(u64::from(units))
    }

    /// One unit.
    pub fn of(class: u32) -> Packed {
        Packed::units(1).with(class)
    }

    /// Counts the class of one of the units. Classes above 3 are for the caller to find.
    pub fn with(self, class: u32) -> Packed {
        Packed(self.0 + KINDS[(class & 3) as usize])
    }

    pub fn plus(self, other: Packed) -> Packed {
        Packed(self.0 + other.0)
    }

    pub fn minus(self, other: Packed) -> Packed {
        Packed(self.0 - other.0)
    }

    pub fn counts(self) -> Counts {
        let [units, nongood, bad] = [0, 16, 32].map(|shift| u32::from((self.0 >> shift) as u16));
        Counts {
            units,
            nongood,
            bad,
        }
    }

    pub fn blanks(self) -> u32 {
        (self.0 >> 48) as u32
    }
}
