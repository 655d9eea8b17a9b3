//! Question 16 of every call that takes a code: after 9, before 10 to 14, and
//! with nothing changed that was lent.

mod lent;

use dohvrin::{collect, count, encode, list, quote, search, search_set, weigh};
use dohvrin::{AnyOrder, Lent, Order, Refusal, WORK};
use lent::lent;

/// Both have the factor x+1.
fn order() -> AnyOrder {
    AnyOrder::new(&[5, 3], 2, 4, 2, 6)
}

const NO: Refusal = Refusal::SharedFactor;

#[test]
fn before_the_output_and_the_word() {
    let too_wide = 1 << 4;
    assert_eq!(weigh(order(), too_wide), Err(NO));
    for room in [7, 8] {
        let mut output = vec![9; room];
        assert_eq!(encode(order(), too_wide, &mut output), Err(NO));
        assert_eq!(output, vec![9; room]);
    }
}

#[test]
fn before_the_tables_and_the_polynomial() {
    // Nothing lent, a work area one short, tables that are too small, enough.
    for (entries, work) in [(0, 0), (100, WORK - 1), (6, WORK), (100, WORK)] {
        let collected = |l: Lent| collect(order(), l.events, l.work);
        assert_eq!(lent(entries, work, collected), Err(NO));
        let listed = |l: Lent| list(order(), l.events, l.paths, l.plain, l.work);
        assert_eq!(lent(entries, work, listed), Err(NO));
        assert_eq!(lent(entries, work, |l| search(order(), l)), Err(NO));
        assert_eq!(lent(entries, work, |l| quote(order(), 3, l)), Err(NO));
        let of_set = |l: Lent| search_set(order(), &[4, 3], l);
        assert_eq!(lent(entries, work, of_set), Err(NO));
        for polynomial in [0x5, 0x4] {
            let counted = |l: Lent| count(order(), polynomial, l);
            assert_eq!(lent(entries, work, counted), Err(NO));
        }
    }
}

#[test]
fn after_questions_8_and_9() {
    let weighed = |generators: &[u64], v| weigh(AnyOrder::new(generators, v, 4, 2, 6), 0);
    assert_eq!(weighed(&[5, 3, 0], 2), Err(Refusal::Generator));
    assert_eq!(weighed(&[6, 6], 1), Err(Refusal::Generator));
    assert_eq!(weighed(&[6, 2], 2), Err(Refusal::GeneratorEnds));
    assert_eq!(weighed(&[5, 3], 3), Err(Refusal::GeneratorEnds));
    assert_eq!(weighed(&[5, 3], 2), Err(NO));
}

#[test]
fn only_the_first_n_generators_count() {
    let behind = |g| AnyOrder {
        generators: [5, 3, g, g],
        ..order()
    };
    assert_eq!(weigh(behind(1), 0), Err(NO));
    assert_eq!(weigh(AnyOrder { n: 3, ..behind(1) }, 0), Ok(0));
    assert_eq!(weigh(AnyOrder { n: 3, ..behind(5) }, 0), Err(NO));
}

#[test]
fn in_a_record() {
    let bytes = [0, 10, 1, 2, 2, 4, 2, 6, 0, 5, 0, 3];
    assert_eq!(Order::from_record(&bytes), Err(NO));
    let coprime = [0, 10, 1, 2, 2, 4, 2, 6, 0, 5, 0, 7];
    assert!(Order::from_record(&coprime).is_ok());
}
