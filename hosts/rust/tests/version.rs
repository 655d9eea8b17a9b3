//! Question 2 of every call that takes an order: before 3, and with nothing
//! changed that was lent. Version 1 is a tail-biting link, 2 a terminated one.

mod lent;

use dohvrin::{collect, count, encode, list, quote, row_text, search, search_set, weigh};
use dohvrin::{AnyOrder, Lent, Link, Refusal, RowAnswer, TEXT, WORK};
use lent::lent;

const NO: Refusal = Refusal::Version;

/// Versions of no kind: beside the right ones, and with one in the low bits.
const WRONG: [u64; 7] = [0, 3, 255, 256 | 1, 1 << 32 | 2, 1 << 63 | 1, u64::MAX];

/// A right order but for the version, and one that all questions refuse.
fn orders(version: u64) -> [AnyOrder; 2] {
    let right = AnyOrder::new(&[1, 3], 1, 3, 2, 6);
    let wrong = AnyOrder::new(&[], 0, 0, 0, 0);
    [right, wrong].map(|order| AnyOrder { version, ..order })
}

#[test]
fn before_all_other_questions() {
    for order in WRONG.into_iter().flat_map(orders) {
        assert_eq!(weigh(order, 1 << 4), Err(NO));
        for room in [0, 8] {
            let mut output = vec![9; room];
            assert_eq!(encode(order, 0, &mut output), Err(NO));
            assert_eq!(output, vec![9; room]);
        }
        for (entries, work) in [(0, 0), (100, WORK)] {
            let collected = |l: Lent| collect(order, l.events, l.work);
            assert_eq!(lent(entries, work, collected), Err(NO));
            let listed = |l: Lent| list(order, l.events, l.paths, l.plain, l.work);
            assert_eq!(lent(entries, work, listed), Err(NO));
            assert_eq!(lent(entries, work, |l| search(order, l)), Err(NO));
            assert_eq!(lent(entries, work, |l| count(order, 0x4, l)), Err(NO));
            assert_eq!(lent(entries, work, |l| quote(order, 3, l)), Err(NO));
            for lengths in [&[][..], &[4, 3]] {
                let searched = |l: Lent| search_set(order, lengths, l);
                assert_eq!(lent(entries, work, searched), Err(NO));
            }
        }
    }
}

#[test]
fn a_terminated_link_has_no_quotes() {
    for order in orders(Link::Terminated.version()) {
        for bits in [0, 2, 3, 4, u64::MAX] {
            for (entries, work) in [(0, 0), (100, WORK)] {
                let quoted = |l: Lent| quote(order, bits, l);
                assert_eq!(lent(entries, work, quoted), Err(NO));
            }
        }
    }
}

#[test]
fn before_a_text() {
    let row = RowAnswer {
        refusal: 0,
        events: 4,
        paths: 6,
        polynomial: 0x5,
        shared: 1,
    };
    for order in WRONG.into_iter().flat_map(orders) {
        for room in [0, TEXT] {
            let mut text = vec![9; room];
            assert_eq!(row_text(order, row, &[0; 5], &[0; 5], &mut text), Err(NO));
            assert_eq!(text, vec![9; room]);
        }
    }
    // The text does not say the kind.
    let texts = Link::ALL.map(|link| {
        let [order, _] = orders(link.version());
        let mut text = vec![9; TEXT];
        let size = row_text(order, row, &[0; 5], &[0; 5], &mut text).unwrap();
        text.truncate(size);
        text
    });
    assert_eq!(texts[0], texts[1]);
}

#[test]
fn the_codeword_of_a_terminated_link_has_v_steps_more() {
    let [order, _] = orders(Link::Terminated.version());
    let mut output = [9; 10];
    for room in [0, 6, 7] {
        assert_eq!(encode(order, 7, &mut output[..room]), Err(Refusal::Room));
        assert_eq!(output, [9; 10]);
    }
    assert_eq!(encode(order, 8, &mut output[..8]), Err(Refusal::Word));
    assert_eq!(encode(order, 7, &mut output[..8]), Ok(()));
    assert_eq!(output, [1, 1, 1, 0, 1, 0, 0, 1, 9, 9]);
    assert_eq!(encode(order, 7, &mut output), Ok(()));
    assert_eq!(output, [1, 1, 1, 0, 1, 0, 0, 1, 0, 0]);
    assert_eq!(weigh(order, 7), Ok(5));
    let [tail_biting, _] = orders(Link::TailBiting.version());
    assert_eq!(weigh(tail_biting, 7), Ok(3));
}
