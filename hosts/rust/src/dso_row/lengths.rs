//! What each length of a set left. It is found anew from the paths that are listed
//! for each length, by plain means and not by the library.

use crate::checklist::{Paths, Remainders};
use dohvrin::{LengthSet, Order, Tables};

/// The polynomials that a length left.
pub struct Left {
    /// The length.
    pub bits: u64,
    /// Their first undetected weight there; d where they leave nothing undetected.
    pub first: u64,
    /// They, in increasing order.
    pub who: Vec<u64>,
}

impl Left {
    /// Of each length in turn, the longest first. The tables are those in which the
    /// set's row was made, and have the paths of the longest again at the end.
    pub fn of(set: &LengthSet, tables: &mut Tables) -> Vec<Left> {
        let mut who = all_of_degree(set.longest());
        let mut list = |order: &Order, any: u64| {
            let listed = tables.count(order, any);
            listed.expect("room for the paths of every length");
            Paths::of(order, tables)
        };
        let any = who[0];
        let narrowed = |order: &Order| {
            let paths = list(order, any);
            let first = |p: &u64| first_weight(*p, order, &paths);
            let firsts: Vec<u64> = who.iter().map(first).collect();
            let largest = *firsts.iter().max().expect("one at the least is left");
            let both = who.iter().zip(&firsts);
            let kept = both.filter(|(_, &own)| own == largest);
            who = kept.map(|(&p, _)| p).collect();
            Left {
                bits: order.bits(),
                first: largest,
                who: who.clone(),
            }
        };
        let left = set.orders().iter().map(narrowed).collect();
        list(set.longest(), any);
        left
    }
}

/// All polynomials of degree m with constant term 1.
pub fn all_of_degree(order: &Order) -> Vec<u64> {
    let top = 1 << order.m();
    (top | 1..2 * top).step_by(2).collect()
}

/// The lowest weight of which it divides a path, or d.
fn first_weight(polynomial: u64, order: &Order, paths: &Paths) -> u64 {
    let remainders = Remainders::new(polynomial, order.m(), order.bits());
    let mut divided = paths
        .weights()
        .filter(|(_, part)| remainders.divided(part, 0) > 0);
    divided
        .next()
        .map_or(order.d(), |(weight, _)| weight as u64)
}
