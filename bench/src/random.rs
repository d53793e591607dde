//! Numbers drawn from a seed.

/// SplitMix64.
pub struct Random(u64);

impl Random {
    pub fn new(seed: u64) -> Random {
        Random(seed)
    }

    pub fn draw(&mut self) -> u64 {
        self.0 = self.0.wrapping_add(0x9e37_79b9_7f4a_7c15);
        let mixed = (self.0 ^ self.0 >> 30).wrapping_mul(0xbf58_476d_1ce4_e5b9);
        let mixed = (mixed ^ mixed >> 27).wrapping_mul(0x94d0_49bb_1331_11eb);
        mixed ^ mixed >> 31
    }

    /// A number from `least` to `most`.
    pub fn within(&mut self, least: u64, most: u64) -> u64 {
        least + self.draw() % (most - least + 1)
    }

    /// A number from `least` to `most`, each power of two about as often.
    pub fn spread(&mut self, least: u64, most: u64) -> u64 {
        let bits = 64 - most.leading_zeros() as u64;
        let low = 64 - least.leading_zeros() as u64;
        let width = self.within(low, bits);
        let number = if width == 0 { 0 } else { self.draw() >> (64 - width) | 1 << (width - 1) };
        number.clamp(least, most)
    }

    /// Whether an event of `odds` in a hundred happens.
    pub fn chance(&mut self, odds: u64) -> bool {
        self.draw() % 100 < odds
    }

    pub fn pick<T: Copy>(&mut self, of: &[T]) -> T {
        of[self.draw() as usize % of.len()]
    }

    /// A number at most one away.
    pub fn near(&mut self, number: u64) -> u64 {
        (number + self.within(0, 2)).saturating_sub(1)
    }
}
