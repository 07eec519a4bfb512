//! Seeded random numbers (splitmix64), the same at each run and on each machine.

pub struct Random {
    state: u64,
}

impl Random {
    pub fn new(seed: u64) -> Random {
        Random { state: seed }
    }

    fn next(&mut self) -> u64 {
        self.state = self.state.wrapping_add(0x9E37_79B9_7F4A_7C15);
        let mut word = self.state;
        word = (word ^ (word >> 30)).wrapping_mul(0xBF58_476D_1CE4_E5B9);
        word = (word ^ (word >> 27)).wrapping_mul(0x94D0_49BB_1331_11EB);
        word ^ (word >> 31)
    }

    /// A number from low to high, both included.
    pub fn between(&mut self, low: u32, high: u32) -> u32 {
        let values = u64::from(high - low) + 1;
        low + (self.next() % values) as u32
    }

    pub fn index(&mut self, length: usize) -> usize {
        (self.next() % length as u64) as usize
    }

    pub fn one_in(&mut self, times: usize) -> bool {
        self.index(times) == 0
    }

    /// As `between`, but half of the time at one of the ends: that is where
    /// the plan's rules and the stops have their edges.
    pub fn at_ends_or_between(&mut self, low: u32, high: u32) -> u32 {
        match self.index(4) {
            0 => low,
            1 => high,
            _ => self.between(low, high),
        }
    }

    pub fn pick<T: Copy>(&mut self, items: &[T]) -> T {
        items[self.index(items.len())]
    }

    /// A class by the weights of classes 0, 1, 2.
    pub fn class(&mut self, weights: [u32; 3]) -> u8 {
        let drawn = self.between(1, weights.iter().sum());
        if drawn <= weights[0] {
            0
        } else if drawn <= weights[0] + weights[1] {
            1
        } else {
            2
        }
    }

    pub fn shuffle<T>(&mut self, items: &mut [T]) {
        for last in (1..items.len()).rev() {
            items.swap(last, self.index(last + 1));
        }
    }
}
