//! Random orders for the tests.

use dso_ref::link::{Code, Kind};
use dso_ref::Order;

/// Marsaglia's xorshift, 64 bits: the same orders in every run.
pub struct Random(pub u64);

impl Random {
    pub fn next(&mut self) -> u64 {
        self.0 ^= self.0 << 13;
        self.0 ^= self.0 >> 7;
        self.0 ^= self.0 << 17;
        self.0
    }

    /// A number from `low` to `high`.
    pub fn from(&mut self, low: usize, high: usize) -> usize {
        low + (self.next() % (high - low + 1) as u64) as usize
    }

    /// An order of either kind that passes questions 3 to 9 and 16, within the
    /// greatest v, N, m, d.
    pub fn order(&mut self, v: usize, length: usize, m: usize, d: usize) -> Order {
        loop {
            let v = self.from(1, v);
            let length = self.from(v, length);
            let m = self.from(1, m);
            let d = self.from(1, d);
            let n = self.from(2, 4);
            let generators: Vec<u64> = (0..n).map(|_| self.next() % (2 << v)).collect();
            let kind = Kind::ALL[self.from(0, 1)];
            let code = Code::of(kind, v, length, &generators);
            if let Ok(order) = Order::new(code, m, d) {
                return order;
            }
        }
    }
}
