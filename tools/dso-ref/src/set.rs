//! One polynomial for a set of lengths. Each length in turn, the longest first,
//! keeps those of the candidates still left whose first undetected weight is
//! largest, by counts of its own words. The row is that of the longest length,
//! made as any other, among those that the last one left.

use crate::events;
use crate::link::Code;
use crate::order::Order;
use crate::questions::{self, Refusal};
use crate::row::{self, Failure, Lent, Method, Row};
use crate::search::Counter;
use crate::table::Table;
use crate::weights;

/// The orders of all lengths: they differ in nothing else.
#[derive(Clone, Debug, PartialEq, Eq)]
pub struct Set {
    /// The longest first.
    orders: Vec<Order>,
}

impl Set {
    /// Asks questions 2 to 9, 16 and 17 about a code, m, d and a list of lengths:
    /// 5 is about each of them, 6 about the last. The code's own is not looked at.
    pub fn new(
        code: Code,
        degree: usize,
        threshold: usize,
        lengths: &[usize],
    ) -> Result<Set, Refusal> {
        questions::kind(code.version)?;
        questions::generator_count(code.generators.len())?;
        questions::memory(code.memory)?;
        questions::length_list(lengths)?;
        for &length in lengths {
            questions::length(code.memory, length)?;
        }
        let of = |&length| Order::new(Code { length, ..code }, degree, threshold);
        // The shortest first: what is below it is below all.
        let mut orders = lengths
            .iter()
            .rev()
            .map(of)
            .collect::<Result<Vec<_>, _>>()?;
        orders.reverse();
        Ok(Set { orders })
    }

    /// The order of each length, the longest first.
    pub fn orders(&self) -> &[Order] {
        &self.orders
    }

    /// The order that the row is for.
    pub fn longest(&self) -> &Order {
        &self.orders[0]
    }
}

/// What a length left.
#[derive(Clone, Copy, Debug, PartialEq, Eq)]
pub struct Left {
    /// The length.
    pub length: usize,
    /// The first undetected weight there, the same of all that it left; d where
    /// they leave no word undetected.
    pub first: usize,
    /// How many it left.
    pub many: usize,
}

/// The row of a set, and what each length left.
pub fn row(set: &Set, lent: Lent, method: Method) -> Result<(Row, Vec<Left>), Failure> {
    let order = set.longest();
    events::count(order, lent.events)?;
    let mut who = order.candidates();
    let mut left = Vec::new();
    for order in set.orders() {
        let firsts = row::by(
            method,
            order,
            |words| first_weights(words, order, lent.paths, &who),
            || first_weights(&mut Table::new(order), order, lent.paths, &who),
        )??;
        left.push(narrow(&mut who, order.length(), &firsts));
    }
    Ok((row::among(order, lent, &who, method)?, left))
}

/// The first undetected weight of each candidate, or refusal 14 where the words of
/// this length do not fit.
fn first_weights(
    counter: &mut impl Counter,
    order: &Order,
    capacity: usize,
    who: &[u64],
) -> Result<Vec<usize>, Refusal> {
    let plain = row::plain_within(counter, order.threshold(), capacity)?;
    Ok(who
        .iter()
        .map(|&p| first_weight(counter, p, &plain))
        .collect())
}

/// The lowest weight of which p leaves a word undetected, or d where there is
/// none. `plain` has the counts of the weights from 1 below d.
pub fn first_weight(counter: &mut impl Counter, p: u64, plain: &[u128]) -> usize {
    let d = plain.len() + 1;
    let leaves_some = |&w: &usize| {
        // Where there is no word, none is left.
        plain[weights::entry(w)] > 0 && counter.undetected_up_to(0, p, w).is_none()
    };
    (1..d).find(leaves_some).unwrap_or(d)
}

/// Keeps the candidates whose first weight is largest.
pub fn narrow(who: &mut Vec<u64>, length: usize, firsts: &[usize]) -> Left {
    let first = *firsts.iter().max().expect("one at the least is left");
    let both = who.iter().zip(firsts);
    *who = both
        .filter(|(_, &own)| own == first)
        .map(|(&p, _)| p)
        .collect();
    Left {
        length,
        first,
        many: who.len(),
    }
}

#[cfg(test)]
mod tests {
    use super::*;
    use crate::link::Kind;

    const S: Code = Code::of(Kind::TailBiting, 1, 4, &[1, 3]);

    fn no(code: Code, degree: usize, threshold: usize, lengths: &[usize]) -> u8 {
        match Set::new(code, degree, threshold, lengths) {
            Ok(_) => 0,
            Err(Refusal(number)) => number,
        }
    }

    #[test]
    fn questions_in_order() {
        assert_eq!(no(S, 2, 6, &[4, 3]), 0);
        assert_eq!(no(S, 1, 6, &[9, 8, 7, 6, 5, 4, 3, 2]), 0);
        assert_eq!(no(Code { version: 2, ..S }, 2, 6, &[4, 3]), 0);
        assert_eq!(no(Code { version: 3, ..S }, 0, 0, &[]), 2);
        let bare = Code {
            generators: &[1],
            memory: 0,
            ..S
        };
        assert_eq!(no(bare, 0, 0, &[]), 3);
        assert_eq!(no(Code { memory: 9, ..S }, 0, 0, &[]), 4);
        let nine = [10, 9, 8, 7, 6, 5, 4, 3, 2];
        for list in [&[][..], &nine, &[4, 4], &[3, 4], &[0, 300], &[5, 3, 4]] {
            assert_eq!(no(S, 0, 0, list), 17, "{list:?}");
        }
        // Each of them, not the first and the last alone.
        for list in [&[129, 4][..], &[4, 0], &[usize::MAX, 129, 3], &[0]] {
            assert_eq!(no(S, 0, 0, list), 5, "{list:?}");
        }
        // m below the longest alone, and below neither.
        assert_eq!(no(S, 3, 0, &[4, 3]), 6);
        assert_eq!(no(S, 4, 0, &[4, 3]), 6);
        assert_eq!(no(S, 0, 0, &[4, 3]), 6);
        assert_eq!(no(S, 13, 0, &[40, 30]), 6);
        assert_eq!(no(S, 2, 65, &[4, 3]), 7);
        let generators = |generators| Code { generators, ..S };
        assert_eq!(no(generators(&[0, 3]), 2, 6, &[4, 3]), 8);
        assert_eq!(no(generators(&[1, 1]), 2, 6, &[4, 3]), 9);
        assert_eq!(no(generators(&[3, 3]), 2, 6, &[4, 3]), 16);
    }

    #[test]
    fn the_codes_own_length_is_not_looked_at() {
        let set = Set::new(S, 2, 6, &[4, 3]);
        for length in [0, 3, 129, usize::MAX] {
            assert_eq!(Set::new(Code { length, ..S }, 2, 6, &[4, 3]), set);
        }
    }

    /// Polynomial and how many share its counts, these, and what each length left.
    type Found = (u64, usize, Vec<u128>, Vec<(usize, usize)>);

    fn found(
        kind: Kind,
        v: usize,
        generators: &[u64],
        m: usize,
        d: usize,
        list: &[usize],
    ) -> Found {
        let set = Set::new(Code::of(kind, v, 0, generators), m, d, list).unwrap();
        let (row, left) = row(&set, Lent::default(), Method::Both).unwrap();
        let lengths: Vec<usize> = left.iter().map(|left| left.length).collect();
        assert_eq!((&row.order, &lengths[..]), (set.longest(), list));
        let left = left.iter().map(|left| (left.first, left.many)).collect();
        (row.polynomial, row.shared, row.undetected, left)
    }

    #[test]
    fn small_sets() {
        let s = |d, list: &[usize]| found(Kind::TailBiting, 1, &[1, 3], 2, d, list);
        let (counts, left) = (vec![0, 0, 0, 1, 0], vec![(4, 2), (4, 1)]);
        assert_eq!(s(6, &[4, 3]), (0x5, 1, counts, left));
        // 4 leaves both, which share their counts there, and 3 tells them apart.
        assert_eq!(s(5, &[4, 3]).1, 1);
        assert_eq!(s(5, &[4]).1, 2);
        // The shortest first would leave 0x5.
        assert_eq!(s(5, &[5, 3]), (0x7, 1, vec![0; 4], vec![(5, 1), (3, 1)]));
        let left = vec![(4, 2), (4, 1), (3, 1)];
        let of_three = found(Kind::TailBiting, 2, &[1, 5], 2, 4, &[5, 4, 3]);
        assert_eq!(of_three, (0x7, 1, vec![0; 3], left));
        let (counts, left) = (vec![0, 0, 0, 0, 0, 2], vec![(6, 2), (6, 2)]);
        let terminated = found(Kind::Terminated, 1, &[1, 2], 3, 7, &[5, 4]);
        assert_eq!(terminated, (0xB, 2, counts, left));
    }

    #[test]
    fn tables_that_are_too_small() {
        let with = |m, d, list: &[usize], events, paths| {
            let set = Set::new(S, m, d, list).unwrap();
            row(&set, Lent { events, paths }, Method::Both).map(|(row, _)| row.polynomial)
        };
        assert_eq!(with(2, 6, &[4, 3], 5, 13), Ok(0x5));
        assert_eq!(with(2, 6, &[4, 3], 4, 12), Err(Refusal(13).into()));
        assert_eq!(with(2, 6, &[4, 3], 5, 12), Err(Refusal(14).into()));
        // No path of 3 bits, and one of 2.
        assert_eq!(with(1, 3, &[3, 2], 2, 1), Ok(0x3));
        assert_eq!(with(1, 3, &[3, 2], 2, 0), Err(Refusal(14).into()));
        assert_eq!(with(1, 3, &[3], 2, 0), Ok(0x3));
    }
}
