//! The lists of counts: d - 1 entries, of the weights from 1, and none for d = 1.

mod lent;

use dohvrin::{collect, count, list, part, quote, row_text, search, search_set};
use dohvrin::{AnyOrder, Event, Lent, Link, Refusal, RowAnswer, TEXT, WORK};
use lent::lent;

/// Code S with this threshold; m is 1, so that there is one polynomial.
fn order(link: Link, d: u64) -> AnyOrder {
    AnyOrder::new(&[1, 3], 1, 4, 1, d).with_link(link)
}

/// What a call answers with so many entries of either list, and room for all
/// else; then both lists.
fn with_counts<T>(plain: usize, undetected: usize, call: impl Fn(Lent) -> T) -> (T, [Vec<u64>; 2]) {
    let (mut events, mut paths) = (vec![Event::default(); 10], vec![0; 40]);
    let (mut plain, mut undetected) = (vec![9; plain], vec![9; undetected]);
    let answer = call(Lent {
        events: &mut events,
        paths: &mut paths,
        plain: &mut plain,
        undetected: &mut undetected,
        work: &mut [0; WORK],
    });
    (answer, [plain, undetected])
}

/// Whether a call is accepted with so many entries of either list; a list that it
/// refuses is as it was.
fn accepts<T>(plain: usize, undetected: usize, call: impl Fn(Lent) -> Result<T, Refusal>) -> bool {
    let (answer, left) = with_counts(plain, undetected, call);
    match answer {
        Ok(_) => true,
        Err(refusal) => {
            assert_eq!(refusal, Refusal::Room);
            assert_eq!(left, [vec![9; plain], vec![9; undetected]]);
            false
        }
    }
}

#[test]
fn one_entry_for_each_weight_from_1() {
    for (link, d) in Link::ALL
        .into_iter()
        .flat_map(|link| (1..=8).map(move |d| (link, d)))
    {
        let (order, enough) = (order(link, d), d as usize - 1);
        for entries in 0..=enough + 2 {
            let fit = entries >= enough;
            let listed = |l: Lent| list(order, l.events, l.paths, l.plain, l.work);
            assert_eq!(accepts(entries, 0, listed), fit, "{d} {entries}");
            for (plain, undetected) in [(entries, enough), (enough, entries)] {
                assert_eq!(accepts(plain, undetected, |l| search(order, l)), fit);
                assert_eq!(accepts(plain, undetected, |l| count(order, 0x3, l)), fit);
                let of_set = |l: Lent| search_set(order, &[4, 3], l);
                assert_eq!(accepts(plain, undetected, of_set), fit);
                if link == Link::TailBiting {
                    assert_eq!(accepts(plain, undetected, |l| quote(order, 3, l)), fit);
                }
            }
        }
    }
}

#[test]
fn a_text_takes_as_many() {
    let row = RowAnswer {
        refusal: 0,
        events: 5,
        paths: 13,
        polynomial: 0x3,
        shared: u64::MAX,
    };
    let (order, mut text) = (order(Link::TailBiting, 6), [9; TEXT]);
    for (plain, undetected) in [(4, 5), (5, 4), (0, 5), (5, 0)] {
        let (plain, undetected) = (vec![1; plain], vec![1; undetected]);
        let answer = row_text(order, row, &plain, &undetected, &mut text);
        assert_eq!(answer, Err(Refusal::Room));
        assert_eq!(text, [9; TEXT]);
    }
    let size = row_text(order, row, &[1, 2, 3, 4, 5], &[5, 4, 3, 2, 1, 0], &mut text).unwrap();
    let expected = "A 1 1 5\nA 2 2 4\nA 3 3 3\nA 4 4 2\nA 5 5 1\nCRC 0x3 18446744073709551615\n";
    assert!(text[..size].ends_with(expected.as_bytes()));
    let one = AnyOrder { d: 1, ..order };
    let given = RowAnswer { shared: 0, ..row };
    let size = row_text(one, given, &[], &[], &mut text).unwrap();
    assert_eq!(
        &text[..size],
        b"ORDER 2 1 4 1 1 1 3\nEVENTS 5\nPATHS 13\nCRC 0x3 0\n"
    );
}

#[test]
fn a_refusal_asks_for_the_buffer_alone() {
    let row = RowAnswer {
        refusal: 13,
        ..RowAnswer::default()
    };
    // No counts, and an order of which nothing is right.
    let (order, mut text) = (AnyOrder::default(), [9; TEXT]);
    let answer = row_text(order, row, &[], &[], &mut text[1..]);
    assert_eq!((answer, text), (Err(Refusal::Room), [9; TEXT]));
    let size = row_text(order, row, &[], &[], &mut text).unwrap();
    assert_eq!(&text[..size], b"NO 13\n");
    assert_eq!(text[size..], [0; TEXT][size..]);
}

#[test]
fn what_a_call_does_not_tell_is_0() {
    let order = order(Link::TailBiting, 6);
    let (collected, _) = with_counts(5, 5, |l| collect(order, l.events, l.work));
    let row = RowAnswer {
        events: 5,
        ..RowAnswer::default()
    };
    assert_eq!(collected, Ok(row));
    let listed = |l: Lent| list(order, l.events, l.paths, l.plain, l.work);
    let (listed, _) = with_counts(5, 5, listed);
    let row = RowAnswer { paths: 13, ..row };
    assert_eq!(listed, Ok(row));
    let (counted, _) = with_counts(5, 5, |l| count(order, 0x3, l));
    let row = RowAnswer {
        polynomial: 0x3,
        ..row
    };
    assert_eq!(counted, Ok(row));
    let (searched, _) = with_counts(5, 5, |l| search(order, l));
    assert_eq!(searched, Ok(RowAnswer { shared: 1, ..row }));
}

#[test]
fn empty_lists_for_d_1() {
    for order in Link::ALL.map(|link| order(link, 1)) {
        let found = RowAnswer {
            refusal: 0,
            events: 1,
            paths: 0,
            polynomial: 0x3,
            shared: 1,
        };
        let (searched, left) = with_counts(0, 0, |l| search(order, l));
        assert_eq!((searched, left), (Ok(found), [vec![], vec![]]));
        // What is past the last weight is 0.
        let (_, left) = with_counts(2, 1, |l| search(order, l));
        assert_eq!(left, [vec![0, 0], vec![0]]);
        let (counted, _) = with_counts(0, 0, |l| count(order, 0x3, l));
        // Given, and compared with nobody.
        let given = RowAnswer { shared: 0, ..found };
        assert_eq!(counted, Ok(given));
        // All share them, where m is not 1.
        let (searched, _) = with_counts(0, 0, |l| search(AnyOrder { m: 3, ..order }, l));
        let all = RowAnswer {
            polynomial: 0x9,
            shared: 4,
            ..found
        };
        assert_eq!(searched, Ok(all));
        // The work area is still asked for.
        assert_eq!(lent(0, WORK - 1, |l| search(order, l)), Err(Refusal::Room));
    }
}

#[test]
fn entry_w_minus_1_is_weight_w() {
    let (_, [plain, undetected]) = with_counts(6, 6, |l| search(order(Link::TailBiting, 7), l));
    assert_eq!(plain, [0, 0, 4, 5, 4, 2]);
    assert_eq!(undetected, [0, 0, 0, 5, 0, 2]);
}

#[test]
fn parts_begin_at_weight_1() {
    let (paths, counts) = ((0..30).collect::<Vec<u64>>(), [0, 0, 4, 5, 4, 2]);
    let part = |entries: usize, weight| part(&paths, &counts[..entries], weight);
    assert_eq!(part(6, 1), Ok(&paths[..0]));
    assert_eq!(part(6, 3), Ok(&paths[..8]));
    assert_eq!(part(6, 6), Ok(&paths[26..]));
    for (entries, weight) in [
        (6, 0),
        (6, 7),
        (6, 1 << 32 | 3),
        (6, u64::MAX),
        (0, 0),
        (0, 1),
    ] {
        assert_eq!(
            part(entries, weight),
            Err(Refusal::Room),
            "{entries} {weight}"
        );
    }
}
