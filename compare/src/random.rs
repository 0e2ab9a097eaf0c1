//! Random numbers, derived from a seed, the name of a part and the number of a case, so that each case can be made alone.

use std::ops::RangeInclusive;

/// SplitMix64: one word of state, any state is a good one.
pub struct Random(u64);

impl Random {
    pub fn of(seed: u64, part: &str, number: usize) -> Self {
        let mut random = Random(seed);
        for byte in part.bytes() {
            random.0 = random.bits() ^ u64::from(byte);
        }
        random.0 = random.bits() ^ number as u64;
        random
    }

    pub fn bits(&mut self) -> u64 {
        self.0 = self.0.wrapping_add(0x9e37_79b9_7f4a_7c15);
        let mut z = self.0;
        z = (z ^ (z >> 30)).wrapping_mul(0xbf58_476d_1ce4_e5b9);
        z = (z ^ (z >> 27)).wrapping_mul(0x94d0_49bb_1331_11eb);
        z ^ (z >> 31)
    }

    pub fn below(&mut self, bound: usize) -> usize {
        (self.bits() % bound as u64) as usize
    }

    pub fn within(&mut self, range: RangeInclusive<usize>) -> usize {
        range.start() + self.below(range.end() - range.start() + 1)
    }

    /// True once in so many times.
    pub fn once_in(&mut self, times: usize) -> bool {
        self.below(times) == 0
    }

    pub fn pick<T: Clone>(&mut self, choices: &[T]) -> T {
        choices[self.below(choices.len())].clone()
    }

    pub fn shuffle<T>(&mut self, list: &mut [T]) {
        for i in (1..list.len()).rev() {
            list.swap(i, self.below(i + 1));
        }
    }

    /// A size up to a bound, small ones more often: the bound is halved some times first.
    pub fn size(&mut self, bound: usize) -> usize {
        let halvings = self.below(usize::BITS as usize - bound.leading_zeros() as usize + 1);
        self.within(0..=bound >> halvings)
    }
}
