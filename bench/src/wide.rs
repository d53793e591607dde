//! Numbers of 576 bits, enough for the powers that decide a superelevation.

use std::cmp::Ordering;

const WORDS: usize = 9;

/// A number in words of 64 bits, the low word first.
#[derive(Clone, Copy, PartialEq, Eq, Debug)]
pub struct Wide([u64; WORDS]);

impl Wide {
    pub fn new(value: u64) -> Wide {
        let mut words = [0; WORDS];
        words[0] = value;
        Wide(words)
    }

    /// The number times `factor`.
    pub fn times(mut self, factor: u64) -> Wide {
        let mut carry = 0;
        for word in &mut self.0 {
            let product = u128::from(*word) * u128::from(factor) + carry;
            *word = product as u64;
            carry = product >> 64;
        }
        assert_eq!(carry, 0, "a number is beyond 576 bits");
        self
    }

    /// The number times `base` to the power `exponent`.
    pub fn times_power(self, base: u64, exponent: u32) -> Wide {
        (0..exponent).fold(self, |product, _| product.times(base))
    }
}

impl Ord for Wide {
    fn cmp(&self, other: &Wide) -> Ordering {
        self.0.iter().rev().cmp(other.0.iter().rev())
    }
}

impl PartialOrd for Wide {
    fn partial_cmp(&self, other: &Wide) -> Option<Ordering> {
        Some(self.cmp(other))
    }
}

#[cfg(test)]
mod tests {
    use super::*;

    #[test]
    fn powers_and_order() {
        let power = Wide::new(1).times_power(2, 575);
        assert_eq!(power.0, [0, 0, 0, 0, 0, 0, 0, 0, 1 << 63]);
        assert!(Wide::new(u64::MAX) < Wide::new(1).times_power(2, 64));
        assert!(Wide::new(1).times_power(3, 100) < Wide::new(2).times_power(3, 100));
        assert_eq!(Wide::new(10).times_power(10, 17), Wide::new(1_000_000_000_000_000_000));
    }
}
