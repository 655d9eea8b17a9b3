//! The answers of a search and of a set of lengths against their definitions on
//! every small order: all words are sent through the encoder as it is drawn, and
//! the words that a candidate divides are its multiples. No method of the tool is
//! used.

use dso_ref::link::{Code, Kind};
use dso_ref::row::row;
use dso_ref::set::{self, Set};
use dso_ref::{Lent, Method, Order, Row};

/// The memories whose pairs of generators are all taken, and the greatest length
/// of their words.
const MEMORIES: [usize; 2] = [1, 2];
const LONGEST: usize = 7;
const HEAVIEST: usize = 12;

/// The ones that a shift register puts out.
fn weight(order: &Order, word: usize) -> usize {
    let (v, length) = (order.memory(), order.length());
    // What it holds at first, and the inputs: the word's own end before it, or
    // zeros before and after.
    let (first, steps) = match order.kind() {
        Kind::TailBiting => (length - v, length),
        Kind::Terminated => (length, length + v),
    };
    let input = |at: usize| word >> at & usize::from(at < length);
    let mut window = (first..first + v).fold(0, |held, at| held << 1 | input(at));
    let mut ones = 0;
    for t in 0..steps {
        window = (window << 1 | input(t)) & ((2 << v) - 1);
        let taps = |g: &u64| (g & window as u64).count_ones() % 2;
        ones += order.generators().iter().map(taps).sum::<u32>();
    }
    ones as usize
}

/// The multiples of p, of degree m, below 2^N, but 0.
fn multiples(p: u64, m: usize, length: usize) -> Vec<usize> {
    let times = |q: usize| (0..length).fold(0, |sum, j| sum ^ ((q >> j & 1) * p as usize) << j);
    (1..1 << (length - m)).map(times).collect()
}

/// How many of the words have each weight from 1 below d.
fn counted(weights: &[usize], words: &[usize], d: usize) -> Vec<u128> {
    let with = |w| words.iter().filter(|&&word| weights[word] == w).count() as u128;
    (1..d).map(with).collect()
}

/// Every order of two generators of these memories.
fn small_orders(kind: Kind) -> Vec<Order> {
    let mut orders = Vec::new();
    for v in MEMORIES {
        let pairs = (1..2 << v).flat_map(|g1| (1..2 << v).map(move |g2| [g1, g2]));
        for (pair, length) in pairs.flat_map(|pair| (2..=LONGEST).map(move |n| (pair, n))) {
            let of = |m, d| Order::new(Code::of(kind, v, length, &pair), m, d).ok();
            let all = (1..length).flat_map(|m| (1..=HEAVIEST).filter_map(move |d| of(m, d)));
            orders.extend(all);
        }
    }
    orders
}

/// Every candidate with its undetected counts.
fn candidates(order: &Order) -> Vec<(u64, Vec<u128>)> {
    let (length, m, d) = (order.length(), order.degree(), order.threshold());
    let weights: Vec<usize> = (0..1 << length).map(|word| weight(order, word)).collect();
    let degree_m = (1 << m..2 << m).filter(|p| p % 2 == 1);
    let of = |p| (p, counted(&weights, &multiples(p, m, length), d));
    degree_m.map(of).collect()
}

/// Nobody is better, nobody as good has a smaller number, and so many are as good.
fn check(order: &Order, row: &Row, candidates: &[(u64, Vec<u128>)]) {
    let own = candidates.iter().find(|(p, _)| *p == row.polynomial);
    let (_, own) = own.expect("a candidate");
    assert_eq!(*own, row.undetected, "{order}: its counts");
    assert!(
        candidates.iter().all(|(_, counts)| counts >= own),
        "{order}: a better one"
    );
    let as_good = || candidates.iter().filter(|(_, counts)| counts == own);
    assert!(
        as_good().all(|&(p, _)| p >= row.polynomial),
        "{order}: a smaller one"
    );
    assert_eq!(as_good().count(), row.shared, "{order}: so many");
}

#[test]
fn every_small_search() {
    for kind in Kind::ALL {
        let (mut alone, mut among_some, mut among_all) = (0, 0, 0);
        for order in small_orders(kind) {
            let candidates = candidates(&order);
            let row = row(&order, Lent::default(), None, Method::Both).unwrap();
            check(&order, &row, &candidates);
            match row.shared {
                1 => alone += 1,
                all if all == candidates.len() => among_all += 1,
                _ => among_some += 1,
            }
        }
        let seen = [alone, among_some, among_all];
        assert!(
            seen.iter().all(|&orders| orders > 100),
            "{kind:?}: {seen:?}"
        );
    }
}

/// The place of the first count above 0, or past the last, of this candidate.
fn first_above_0(p: u64, all: &[(u64, Vec<u128>)]) -> usize {
    let (_, counts) = all.iter().find(|(q, _)| *q == p).expect("a candidate");
    let first = counts.iter().position(|&count| count > 0);
    first.unwrap_or(counts.len())
}

#[test]
fn every_small_set_of_two_lengths() {
    for kind in Kind::ALL {
        let (mut kept_all, mut narrowed_later) = (0, 0);
        for order in small_orders(kind) {
            let (length, m, d) = (order.length(), order.degree(), order.threshold());
            let long = candidates(&order);
            for shorter in order.memory().max(m + 1)..length {
                let set = Set::new(order.code(), m, d, &[length, shorter]).unwrap();
                let (row, left) = set::row(&set, Lent::default(), Method::Both).unwrap();
                let mut alive = long.clone();
                for (order, left) in set.orders().iter().zip(&left) {
                    let all = candidates(order);
                    let firsts = alive.iter().map(|(p, _)| first_above_0(*p, &all));
                    let largest = firsts.max().unwrap();
                    alive.retain(|(p, _)| first_above_0(*p, &all) == largest);
                    assert_eq!((left.first, left.many), (largest + 1, alive.len()));
                }
                check(&order, &row, &alive);
                kept_all += usize::from(left[0].many == long.len());
                narrowed_later += usize::from(left[1].many < left[0].many);
            }
        }
        assert!(
            kept_all > 100 && narrowed_later > 100,
            "{kind:?}: {kept_all} {narrowed_later}"
        );
    }
}
