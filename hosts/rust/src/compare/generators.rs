//! Generators that questions 8 and 9 pass: without a common divisor, and with
//! one.

use crate::random::Random;
use crate::size;
use dso_ref::questions;

/// So many that question 16 passes.
pub fn right(random: &mut Random, v: u64, n: usize) -> Vec<u64> {
    loop {
        let generators = any(random, v, n);
        if questions::common_divisor(size(v), &generators).is_ok() {
            return generators;
        }
    }
}

/// So many that it refuses: products with one polynomial of degree 1 to v, every
/// other time x+1.
pub fn shared(random: &mut Random, v: u64, n: usize) -> Vec<u64> {
    let degree = match random.coin() {
        true => 1,
        false => random.within(1, v),
    };
    let factor = 1 << degree | random.next() & ((1 << degree) - 1) | 1;
    let others = any(random, v - degree, n);
    others.iter().map(|&other| product(other, factor)).collect()
}

fn any(random: &mut Random, v: u64, n: usize) -> Vec<u64> {
    let mut generators: Vec<u64> = (0..n).map(|_| random.within(1, (2 << v) - 1)).collect();
    generators[random.index(n)] |= 1 << v;
    generators[random.index(n)] |= 1;
    generators
}

fn product(one: u64, other: u64) -> u64 {
    let powers = (0..64).filter(|j| one >> j & 1 == 1);
    powers.fold(0, |sum, j| sum ^ other << j)
}
