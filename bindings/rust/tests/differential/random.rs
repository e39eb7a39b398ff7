//! A fixed sequence of numbers (xorshift64*), so that every run tries the same inputs.

use std::cell::Cell;

pub struct Random(Cell<u64>);

impl Random {
    /// The sequence of a seed that is not 0.
    pub fn new(seed: u64) -> Random {
        Random(Cell::new(seed))
    }

    pub fn next(&self) -> u64 {
        let mut x = self.0.get();
        x ^= x >> 12;
        x ^= x << 25;
        x ^= x >> 27;
        self.0.set(x);
        x.wrapping_mul(0x2545_F491_4F6C_DD1D)
    }

    /// A number below n.
    pub fn below(&self, n: usize) -> usize {
        (((self.next() >> 32) * n as u64) >> 32) as usize
    }

    /// A number from a to b, both included.
    pub fn between(&self, a: usize, b: usize) -> usize {
        a + self.below(b - a + 1)
    }

    /// True once in n times.
    pub fn once_in(&self, n: usize) -> bool {
        self.below(n) == 0
    }

    pub fn choice<T: Copy>(&self, items: &[T]) -> T {
        items[self.below(items.len())]
    }

    pub fn shuffle<T>(&self, items: &mut [T]) {
        for k in (1..items.len()).rev() {
            items.swap(k, self.below(k + 1));
        }
    }

    /// n different numbers below `limit`.
    pub fn distinct(&self, n: usize, limit: usize) -> Vec<usize> {
        let mut all: Vec<usize> = (0..limit).collect();
        for k in 0..n {
            all.swap(k, k + self.below(limit - k));
        }
        all.truncate(n);
        all
    }
}
