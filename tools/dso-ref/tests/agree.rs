//! The methods against each other and against the definitions written out.

mod common;

use common::Random;
use dso_ref::events::{self, Event};
use dso_ref::link::{self, Code, Kind};
use dso_ref::poly;
use dso_ref::row::{self, count};
use dso_ref::search::{Best, Counter};
use dso_ref::table::Table;
use dso_ref::weights;
use dso_ref::words::Words;
use dso_ref::{paths, Failure, Lent, Method, Order, Refusal};

const ALL: usize = usize::MAX;

/// A polynomial of degree m with constant term 1.
fn candidate(random: &mut Random, m: usize) -> u64 {
    let power = 1 << m;
    power | (random.next() % power) | 1
}

/// The best counts as the definition has them: of all candidates' counts, those
/// that none betters.
fn best_by_definition(words: &mut Words, order: &Order) -> Best {
    let all: Vec<(Vec<u128>, u64)> = poly::candidates(order.degree())
        .map(|p| (words.undetected(p, order.threshold() - 1), p))
        .collect();
    // Of two lists the lesser is the one with fewer at the first difference.
    let counts = all.iter().map(|(counts, _)| counts).min().unwrap().clone();
    let who = all
        .iter()
        .filter(|(have, _)| *have == counts)
        .map(|&(_, p)| p)
        .collect();
    Best { counts, who }
}

#[test]
fn words_and_table_agree_on_small_orders() {
    let mut random = Random(1);
    for _ in 0..4000 {
        let order = random.order(5, 11, 6, 40);
        let mut words = Words::new(&order).unwrap();
        let mut table = Table::new(&order);
        let by_words = count(&mut words, &order, ALL, &order.candidates()).unwrap();
        let by_table = count(&mut table, &order, ALL, &order.candidates()).unwrap();
        assert_eq!(by_words, by_table, "{order}");
        assert_eq!(
            by_words.best,
            best_by_definition(&mut words, &order),
            "{order}"
        );
        let p = candidate(&mut random, order.degree());
        let heaviest = order.threshold() - 1;
        let of_words = words.undetected(p, heaviest);
        assert_eq!(of_words, table.undetected(p, heaviest), "{order} {p:X}");
        let listed = paths::list(&table, order.threshold());
        assert_eq!(words.paths(), listed, "{order}");
    }
}

#[test]
fn words_and_table_agree_where_the_memory_is_great() {
    let mut random = Random(2);
    for _ in 0..150 {
        let order = random.order(8, 14, 8, 64);
        let by_words = count(
            &mut Words::new(&order).unwrap(),
            &order,
            ALL,
            &order.candidates(),
        )
        .unwrap();
        let by_table = count(&mut Table::new(&order), &order, ALL, &order.candidates()).unwrap();
        assert_eq!(by_words, by_table, "{order}");
    }
}

#[test]
fn the_path_table_is_exactly_full_or_one_short() {
    let mut random = Random(3);
    for _ in 0..500 {
        let order = random.order(4, 9, 5, 30);
        let paths = row::paths(
            &order,
            Lent {
                events: ALL,
                paths: ALL,
            },
            Method::Both,
        )
        .unwrap()
        .len();
        let with = |paths| row::paths(&order, Lent { events: ALL, paths }, Method::Both);
        assert_eq!(with(paths).unwrap().len(), paths);
        if let Some(short) = paths.checked_sub(1) {
            assert_eq!(with(short), Err(Failure::Refused(Refusal(14))), "{order}");
        }
    }
}

/// The events as the definition has them: every walk of every length.
fn events_by_definition(order: &Order) -> Vec<Event> {
    let states = 1usize << order.memory();
    let (of_states, longest) = match order.kind() {
        Kind::TailBiting => (states, order.length()),
        Kind::Terminated => (1, order.length() + order.memory()),
    };
    let mut events = Vec::new();
    for state in 0..of_states {
        for length in 1..=longest {
            for input in 0..1u128 << length {
                let (mut at, mut weight, mut between) = (state, 0, true);
                for t in 0..length {
                    between &= t == 0 || at > state;
                    let window = 2 * at + (input >> t & 1) as usize;
                    let ones = |g: &u64| (g & window as u64).count_ones() % 2;
                    weight += order.generators().iter().map(ones).sum::<u32>();
                    at = window % states;
                }
                if at == state && between && (weight as usize) < order.threshold() {
                    events.push(Event {
                        state,
                        length,
                        input,
                        weight,
                    });
                }
            }
        }
    }
    events
}

#[test]
fn events_agree_with_their_definition() {
    let mut random = Random(4);
    for _ in 0..1000 {
        let order = random.order(4, 8, 4, 40);
        let expected = events_by_definition(&order);
        assert_eq!(
            events::list(&order, expected.len()),
            Ok(expected.clone()),
            "{order}"
        );
        assert_eq!(
            events::count(&order, expected.len()),
            Ok(expected.len()),
            "{order}"
        );
        if let Some(short) = expected.len().checked_sub(1) {
            assert_eq!(events::count(&order, short), Err(Refusal(13)), "{order}");
            assert_eq!(events::list(&order, short), Err(Refusal(13)), "{order}");
        }
    }
}

#[test]
fn events_for_a_shorter_length_are_the_shorter_ones() {
    let mut random = Random(8);
    for _ in 0..1000 {
        let order = random.order(4, 14, 4, 14);
        let all = events::list(&order, ALL).unwrap();
        for length in order.memory().max(order.degree() + 1)..=order.length() {
            let code = Code {
                length,
                ..order.code()
            };
            let short = Order::new(code, order.degree(), order.threshold()).unwrap();
            let fitting = all.iter().filter(|event| event.length <= code.steps());
            let expected: Vec<Event> = fitting.copied().collect();
            assert_eq!(events::list(&short, ALL), Ok(expected), "{order}, {length}");
        }
    }
}

/// Walks that are followed in one order, at most.
const STEPS: usize = 1 << 18;

#[test]
fn events_with_and_without_a_cut_agree() {
    let mut random = Random(6);
    let mut checked = 0;
    while checked < 1000 {
        let order = random.order(8, 24, 8, 40);
        if let Some(walked) = events::walked(order.code(), order.threshold(), STEPS) {
            assert_eq!(events::list(&order, walked.len()), Ok(walked), "{order}");
            checked += 1;
        }
    }
}

#[test]
fn one_changed_record_is_no_list_of_events() {
    let mut random = Random(7);
    for _ in 0..1000 {
        let order = random.order(4, 12, 4, 12);
        let right =
            |records: &[Event]| events::are_listed(order.code(), order.threshold(), records);
        let mut records = events::list(&order, ALL).unwrap();
        assert!(right(&records), "{order}");
        // The zero loop at state 0 is always there.
        let at = random.from(0, records.len() - 1);
        let event = records[at];
        records[at].weight ^= 1;
        assert!(!right(&records), "{order}");
        records[at] = event;
        records[at].input ^= 1 << event.length;
        assert!(!right(&records), "{order}");
        records[at] = event;
        records.insert(at, event);
        assert!(!right(&records), "{order}");
    }
}

#[test]
fn the_table_agrees_with_the_listed_paths_of_long_orders() {
    let mut random = Random(5);
    let mut checked = 0;
    while checked < 400 {
        let order = random.order(6, 128, 12, 24);
        let p = candidate(&mut random, order.degree());
        let mut table = Table::new(&order);
        if let Ok(counted) = count(&mut table, &order, 20_000, &[p]) {
            let listed = paths::list(&table, order.threshold());
            let expected = weighed_and_divided(&order, &listed, p);
            assert_eq!(
                (counted.plain, counted.best.counts),
                expected,
                "{order} {p:X}"
            );
            checked += 1;
        }
    }
}

/// Plain and undetected counts of listed paths, each weighed anew and divided.
fn weighed_and_divided(order: &Order, listed: &[(u32, u128)], p: u64) -> (Vec<u128>, Vec<u128>) {
    let mut plain = vec![0; order.threshold() - 1];
    let mut undetected = plain.clone();
    for &(weight, word) in listed {
        assert_eq!(
            link::weight(order.code(), word),
            Ok(weight),
            "{order} {word}"
        );
        let entry = weights::entry(weight as usize);
        plain[entry] += 1;
        undetected[entry] += u128::from(poly::divides(p, word));
    }
    (plain, undetected)
}
