//! Random numbers that are the same in every run.

use std::ops::RangeInclusive;

/// SplitMix64.
pub struct Random {
    state: u64,
}

impl Random {
    /// A sequence that is fixed by its seed.
    pub fn new(seed: u64) -> Self {
        Self { state: seed }
    }

    /// The next 64 bits.
    pub fn bits(&mut self) -> u64 {
        self.state = self.state.wrapping_add(0x9E37_79B9_7F4A_7C15);
        let mut z = self.state;
        z = (z ^ (z >> 30)).wrapping_mul(0xBF58_476D_1CE4_E5B9);
        z = (z ^ (z >> 27)).wrapping_mul(0x94D0_49BB_1331_11EB);
        z ^ (z >> 31)
    }

    /// A number of the range. The slight bias of the remainder does no harm here.
    pub fn number(&mut self, range: RangeInclusive<u32>) -> u32 {
        let (low, high) = range.into_inner();
        let count = u64::from(high - low) + 1;
        low + (self.bits() % count) as u32
    }

    /// True once in `times`.
    pub fn once_in(&mut self, times: u32) -> bool {
        self.number(1..=times) == 1
    }

    /// One of these.
    pub fn pick<T: Copy>(&mut self, these: &[T]) -> T {
        these[self.below(these.len())]
    }

    /// So many different numbers below a bound, in any order.
    ///
    /// # Panics
    ///
    /// If there are not so many.
    pub fn distinct(&mut self, count: u32, bound: u32) -> Vec<u32> {
        assert!(count <= bound, "{count} numbers below {bound}");
        let mut numbers: Vec<u32> = (0..bound).collect();
        for place in 0..count as usize {
            let other = place + self.below(numbers.len() - place);
            numbers.swap(place, other);
        }
        numbers.truncate(count as usize);
        numbers
    }

    /// A place below a length that is not zero.
    pub fn below(&mut self, length: usize) -> usize {
        (self.bits() % length as u64) as usize
    }
}
