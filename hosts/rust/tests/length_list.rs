//! Question 17 of a set of lengths: after 4 and before 5, and with nothing changed
//! that was lent. The order's own length is not looked at.

mod lent;

use dohvrin::{search_set, AnyOrder, Event, Lent, Link, Refusal, WORK};
use lent::lent;

/// None, nine, equal ones, rising ones, and some that are no lengths either.
const WRONG: [&[u64]; 9] = [
    &[],
    &[10, 9, 8, 7, 6, 5, 4, 3, 2],
    &[4, 4],
    &[3, 4],
    &[5, 3, 4],
    &[8, 7, 6, 5, 4, 3, 2, 2],
    &[0, 0],
    &[129, 1 << 32 | 129],
    &[u64::MAX; 9],
];

fn orders(bits: u64, m: u64, d: u64) -> [AnyOrder; 2] {
    Link::ALL.map(|link| AnyOrder::new(&[1, 3], 1, bits, m, d).with_link(link))
}

#[test]
fn nothing_is_changed() {
    // A right order, and one that all later questions refuse.
    let all = [orders(4, 2, 6), orders(0, 0, 0)].concat();
    for (order, lengths) in all
        .into_iter()
        .flat_map(|order| WRONG.map(|lengths| (order, lengths)))
    {
        for (entries, work) in [(0, 0), (100, WORK)] {
            let searched = |l: Lent| search_set(order, lengths, l);
            let no = Err(Refusal::LengthList);
            assert_eq!(lent(entries, work, searched), no, "{lengths:?}");
            let memory = |l: Lent| search_set(AnyOrder { v: 9, ..order }, lengths, l);
            assert_eq!(lent(entries, work, memory), Err(Refusal::Memory));
        }
    }
}

#[test]
fn lists_that_are_right_and_lengths_that_are_not() {
    for order in orders(4, 0, 0) {
        for lengths in [&[129][..], &[0], &[u64::MAX, 4], &[5, 4, 3, 2, 1, 0]] {
            let searched = |l: Lent| search_set(order, lengths, l);
            let no = Err(Refusal::WordLength);
            assert_eq!(lent(100, WORK, searched), no, "{lengths:?}");
        }
    }
}

#[test]
fn any_length_of_the_order() {
    for bits in [0, 1, 4, 129, u64::MAX] {
        for order in orders(bits, 2, 6) {
            let (mut events, mut paths) = ([Event::default(); 6], [9; 28]);
            let (mut plain, mut undetected) = ([9; 6], [9; 6]);
            let mut work = [9; WORK];
            let lent = Lent {
                events: &mut events,
                paths: &mut paths,
                plain: &mut plain,
                undetected: &mut undetected,
                work: &mut work,
            };
            let row = search_set(order, &[4, 3], lent).unwrap();
            assert_eq!((row.polynomial, row.shared), (0x5, 1));
            let right = match order.version {
                1 => (5, 13, [0, 0, 4, 5, 4, 0], [0, 0, 0, 1, 0, 0]),
                _ => (4, 9, [0, 0, 4, 3, 2, 0], [0; 6]),
            };
            assert_eq!(
                (row.events, row.paths, plain, undetected),
                right,
                "{order:?}"
            );
            assert_eq!(work, [0; WORK]);
        }
    }
}
