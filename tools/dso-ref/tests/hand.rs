//! The rows of document 01 to check by hand, and what it says of each answer.

use dso_ref::events;
use dso_ref::link::{Code, Kind};
use dso_ref::row::{self, count, row};
use dso_ref::search::Best;
use dso_ref::table::Table;
use dso_ref::words::Words;
use dso_ref::{Failure, Lent, Method, Order, Refusal, Row};

fn order(length: usize, m: usize, d: usize, generators: &[u64]) -> Order {
    Order::new(Code::of(Kind::TailBiting, 1, length, generators), m, d).unwrap()
}

fn terminated(v: usize, length: usize, m: usize, d: usize, generators: &[u64]) -> Order {
    Order::new(Code::of(Kind::Terminated, v, length, generators), m, d).unwrap()
}

fn run(order: &Order, lent: Lent) -> Result<Row, Failure> {
    row(order, lent, None, Method::Both)
}

/// Events, paths, undetected counts and polynomial of an accepted row.
fn short(order: &Order) -> (usize, u128, Vec<u128>, u64) {
    let row = run(order, Lent::default()).unwrap();
    (row.events, row.paths, row.undetected, row.polynomial)
}

/// The polynomial of an accepted row, and how many share its counts.
fn chosen(order: &Order) -> (u64, usize) {
    let row = run(order, Lent::default()).unwrap();
    (row.polynomial, row.shared)
}

fn no(number: u8) -> Result<Row, Failure> {
    Err(Failure::Refused(Refusal(number)))
}

#[test]
fn code_s_of_length_3() {
    let s = order(3, 2, 5, &[1, 3]);
    assert_eq!(short(&s), (4, 7, vec![0, 0, 0, 1], 0x5));
    let listed: Vec<String> = events::list(&s, 4)
        .unwrap()
        .iter()
        .map(|e| e.to_string())
        .collect();
    assert_eq!(listed, ["0 1 0 0", "0 2 3 1", "0 3 4 3", "1 1 1 1"]);
    assert_eq!(short(&order(3, 2, 4, &[1, 3])).2, [0; 3]);
    assert_eq!(chosen(&order(3, 2, 4, &[1, 3])), (0x5, 1));
    // No path weighs 1 or 2, so nothing tells 0x5 from 0x7.
    let two = order(3, 2, 3, &[1, 3]);
    assert_eq!(short(&two), (2, 0, vec![0, 0], 0x5));
    assert_eq!(chosen(&two), (0x5, 2));
}

#[test]
fn the_collection_takes_no_check_degree_and_asks_in_order() {
    let code = |memory, length, generators| Code::of(Kind::TailBiting, memory, length, generators);
    let no = |number| Err(Refusal(number));
    let loops = |code| events::collect(code, 2, 2, 8192).map(|listed| listed.len());
    // One step from each state back to it: 0 of weight 0, 1 of weight 1.
    assert_eq!(loops(code(1, 1, &[1, 3])), Ok(2));
    let wrong = Code {
        version: 3,
        ..code(0, 0, &[0])
    };
    assert_eq!(events::collect(wrong, 0, 0, 0), no(2));
    assert_eq!(events::collect(code(0, 0, &[0]), 0, 0, 0), no(3));
    assert_eq!(events::collect(code(0, 0, &[0, 0]), 0, 0, 0), no(4));
    assert_eq!(events::collect(code(2, 1, &[0, 0]), 0, 0, 0), no(5));
    assert_eq!(events::collect(code(1, 1, &[0, 0]), 0, 0, 0), no(7));
    assert_eq!(events::collect(code(1, 1, &[0, 0]), 65, 0, 0), no(7));
    assert_eq!(events::collect(code(1, 1, &[0, 3]), 2, 0, 0), no(8));
    assert_eq!(events::collect(code(1, 1, &[1, 1]), 2, 0, 0), no(9));
    assert_eq!(events::collect(code(1, 1, &[3, 3]), 2, 0, 0), no(16));
    assert_eq!(events::collect(code(1, 1, &[1, 3]), 2, 0, 8191), no(10));
    assert_eq!(events::collect(code(1, 1, &[1, 3]), 2, 1, 8192), no(13));
}

#[test]
fn code_s_of_length_4() {
    let two = order(4, 2, 5, &[1, 3]);
    let row = run(&two, Lent::default()).unwrap();
    let lines = [
        "ORDER 2 1 4 2 5 1 3",
        "EVENTS 4",
        "PATHS 9",
        "A 1 0 0",
        "A 2 0 0",
        "A 3 4 0",
        "A 4 5 1",
        "CRC 0x5 2",
    ];
    assert_eq!(row.to_string(), lines.join("\n"));
    let best = Best {
        counts: vec![0, 0, 0, 1],
        who: vec![0x5, 0x7],
    };
    let by_table = count(&mut Table::new(&two), &two, 2048, &two.candidates()).unwrap();
    let by_words = count(
        &mut Words::new(&two).unwrap(),
        &two,
        2048,
        &two.candidates(),
    )
    .unwrap();
    assert_eq!([&by_table.best, &by_words.best], [&best; 2]);
    assert_eq!(chosen(&order(4, 2, 6, &[1, 3])), (0x5, 1));
}

#[test]
fn the_smallest_is_chosen_in_any_order() {
    let best = |who: &[u64]| Best {
        counts: vec![],
        who: who.to_vec(),
    };
    assert_eq!(best(&[0x7, 0x5]).smallest(), 0x5);
    assert_eq!(best(&[0x1001, 0x1FFF]).smallest(), 0x1001);
}

#[test]
fn words_5_and_10_stand_once_each() {
    let paths = row::paths(&order(4, 2, 7, &[1, 3]), Lent::default(), Method::Both).unwrap();
    assert_eq!(paths.len(), 15);
    assert_eq!(paths[13..], [(6, 5), (6, 10)]);
}

#[test]
fn the_shortest_rows() {
    assert_eq!(short(&order(2, 1, 3, &[1, 3])), (2, 1, vec![0, 1], 0x3));
}

#[test]
fn no_weight_is_below_1() {
    for s in [order(2, 1, 1, &[1, 3]), terminated(1, 2, 1, 1, &[1, 3])] {
        // The zero loop is an event.
        assert_eq!(short(&s), (1, 0, vec![], 0x3));
        let row = run(&s, Lent::default()).unwrap();
        let lines = ["ORDER 2 1 2 1 1 1 3", "EVENTS 1", "PATHS 0", "CRC 0x3 1"];
        assert_eq!(row.to_string(), lines.join("\n"));
        // Given, it was compared with nobody.
        let of_one = row::row(&s, Lent::default(), Some(0x3), Method::Both);
        assert_eq!(of_one, Ok(Row { shared: 0, ..row }));
    }
}

#[test]
fn generators_that_share_a_factor() {
    let refused = |v, length, generators: &[u64]| {
        Order::new(Code::of(Kind::TailBiting, v, length, generators), 1, 1).err()
    };
    assert_eq!(refused(1, 2, &[3, 3]), Some(Refusal(16)));
    assert_eq!(refused(2, 2, &[5, 3]), Some(Refusal(16)));
    assert_eq!(refused(3, 70, &[0o13, 0o17]), None);
}

#[test]
fn tables_exactly_full_and_one_short() {
    let s = order(4, 2, 6, &[1, 3]);
    let with = |events, paths| run(&s, Lent { events, paths });
    assert!(with(5, 13).is_ok());
    assert_eq!(with(5, 12), no(14));
    assert_eq!(with(4, 13), no(13));
    assert_eq!(with(4, 12), no(13));
}

#[test]
fn the_longest_and_heaviest_orders_are_answered_at_once() {
    let few_events = order(128, 12, 64, &[1, 3]);
    assert_eq!(run(&few_events, Lent::default()), no(14));
    let code = Code::of(Kind::TailBiting, 8, 128, &[0o561, 0o753]);
    let many_events = Order::new(code, 12, 64).unwrap();
    assert_eq!(run(&many_events, Lent::default()), no(13));
    assert_eq!(chosen(&order(128, 12, 1, &[1, 3])), (0x1001, 2048));
}

#[test]
fn a_polynomial_given_is_asked_about_before_the_tables() {
    let s = order(4, 2, 6, &[1, 3]);
    let none = Lent {
        events: 0,
        paths: 0,
    };
    assert_eq!(row(&s, none, Some(0x4), Method::Both), no(11));
    assert_eq!(row(&s, none, Some(0x9), Method::Both), no(11));
    assert_eq!(row(&s, none, Some(0x7), Method::Both), no(13));
    let seven = row(&s, Lent::default(), Some(0x7), Method::Both).unwrap();
    assert!(seven.to_string().ends_with("\nCRC 0x7 0"));
    assert_eq!(seven.undetected, [0, 0, 0, 1, 2]);
}

#[test]
fn the_words_alone_end_at_length_20() {
    let long = order(21, 2, 6, &[1, 3]);
    assert_eq!(
        row(&long, Lent::default(), None, Method::Words),
        Err(Failure::TooLong)
    );
}

#[test]
fn code_s_terminated() {
    let s = terminated(1, 3, 2, 6, &[1, 3]);
    let listed: Vec<String> = events::list(&s, 4)
        .unwrap()
        .iter()
        .map(|e| e.to_string())
        .collect();
    // The longest has N+v steps.
    assert_eq!(listed, ["0 1 0 0", "0 2 3 1", "0 3 4 3", "0 4 5 7"]);
    assert_eq!(events::list(&s, 3), Err(Refusal(13)));
    let row = run(&s, Lent::default()).unwrap();
    assert_eq!((row.events, row.paths), (4, 6));
    assert_eq!((row.polynomial, row.shared), (0x5, 1));
    assert_eq!(row.plain, [0, 0, 3, 2, 1]);
    assert_eq!(row.undetected, [0; 5]);
    let with = |events, paths| run(&s, Lent { events, paths });
    assert!(with(4, 6).is_ok());
    assert_eq!(with(4, 5), no(14));
    assert_eq!(with(3, 5), no(13));
}

#[test]
fn the_longest_terminated_orders() {
    // One bit has weight 2, and takes 9 steps: 128 words end at step 136 at last.
    let long = terminated(8, 128, 7, 5, &[1, 0o400]);
    let all = Lent {
        events: 100,
        paths: 8256,
    };
    let row = row(&long, all, Some(0x83), Method::Table).unwrap();
    // Two bits up to 8 places apart are one event, else two.
    assert_eq!((row.events, row.paths), (10, 8256));
    assert_eq!(row.plain, [0, 128, 0, 8128]);
    // x^7+x+1 divides x^127+1.
    assert_eq!(row.undetected, [0, 0, 0, 1]);
    let many = terminated(8, 128, 12, 64, &[0o561, 0o753]);
    assert_eq!(run(&many, Lent::default()), no(13));
    let none = terminated(1, 128, 12, 1, &[1, 3]);
    assert_eq!(chosen(&none), (0x1001, 2048));
}
