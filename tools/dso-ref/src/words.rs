//! Counting by taking all words one by one, straight from the definition.

use crate::link::{self, Code};
use crate::order::Order;
use crate::poly;
use crate::search::Counter;
use crate::weights;

/// The greatest length at which all words are taken.
pub const LONGEST: usize = 20;

/// The nonzero words of a code below the threshold, by weight from 1.
pub struct Words {
    by_weight: Vec<Vec<u128>>,
}

impl Words {
    /// Weighs the words 1 to 2^N - 1; nothing where N is above `LONGEST`.
    pub fn new(order: &Order) -> Option<Words> {
        Words::of(order.code(), order.threshold())
    }

    /// The same of a right code and a threshold.
    pub fn of(code: Code, threshold: usize) -> Option<Words> {
        if code.length > LONGEST {
            return None;
        }
        let mut by_weight = vec![Vec::new(); threshold - 1];
        for u in 1..1 << code.length {
            let weight = link::ones(code, u) as usize;
            if let Some(part) = by_weight.get_mut(weights::entry(weight)) {
                part.push(u);
            }
        }
        Some(Words { by_weight })
    }

    /// The words of a list of paths, weight and number each, all of them below
    /// the threshold.
    pub fn listed(threshold: usize, paths: &[(u32, u128)]) -> Words {
        let mut by_weight = vec![Vec::new(); threshold - 1];
        for &(weight, word) in paths {
            by_weight[weights::entry(weight as usize)].push(word);
        }
        Words { by_weight }
    }

    /// The paths: weight and number, ordered by weight, then number.
    pub fn paths(&self) -> Vec<(u32, u128)> {
        let parts = (1..).zip(&self.by_weight);
        parts
            .flat_map(|(w, part)| part.iter().map(move |&u| (w, u)))
            .collect()
    }
}

/// How many of the words p divides.
fn divided(p: u64, words: &[u128]) -> u128 {
    words.iter().filter(|&&u| poly::divides(p, u)).count() as u128
}

impl Counter for Words {
    fn plain(&mut self, heaviest: usize) -> Vec<u128> {
        self.by_weight[..heaviest]
            .iter()
            .map(|part| part.len() as u128)
            .collect()
    }

    fn undetected(&mut self, p: u64, heaviest: usize) -> Vec<u128> {
        self.by_weight[..heaviest]
            .iter()
            .map(|part| divided(p, part))
            .collect()
    }

    fn undetected_up_to(&mut self, most: u128, p: u64, w: usize) -> Option<u128> {
        Some(divided(p, &self.by_weight[weights::entry(w)])).filter(|&count| count <= most)
    }
}
