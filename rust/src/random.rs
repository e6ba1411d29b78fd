//! Random numbers by xorshift64*: a fixed seed gives a fixed run.

use crate::time::Time;
use std::env;
use std::ops::RangeInclusive;

pub struct Random(u64);

impl Random {
    pub fn new(seed: u64) -> Random {
        Random(seed.wrapping_mul(0x9e37_79b9_7f4a_7c15) | 1)
    }

    pub fn bits(&mut self) -> u64 {
        self.0 ^= self.0 >> 12;
        self.0 ^= self.0 << 25;
        self.0 ^= self.0 >> 27;
        self.0.wrapping_mul(0x2545_f491_4f6c_dd1d)
    }

    pub fn word(&mut self) -> u32 {
        (self.bits() >> 32) as u32
    }

    /// A number below `n`, which is above 0 and at most 2^32.
    pub fn below(&mut self, n: usize) -> usize {
        (((self.bits() >> 32) * n as u64) >> 32) as usize
    }

    /// A time of a range, which has at most 2^32.
    pub fn within(&mut self, range: RangeInclusive<Time>) -> Time {
        range.start() + self.below((range.end() - range.start()) as usize + 1) as Time
    }

    /// True `percent` times in a hundred.
    pub fn chance(&mut self, percent: u32) -> bool {
        self.below(100) < percent as usize
    }

    pub fn pick<T: Copy>(&mut self, from: &[T]) -> T {
        from[self.below(from.len())]
    }

    pub fn shuffle<T>(&mut self, row: &mut [T]) {
        for i in (1..row.len()).rev() {
            row.swap(i, self.below(i + 1));
        }
    }
}

/// A number that the environment may give in place of the fixed one: a seed, or the length of a run.
pub fn setting(name: &str, fixed: usize) -> usize {
    env::var(name).map_or(fixed, |value| value.parse().expect("a number"))
}
