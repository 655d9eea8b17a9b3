//! Rows of shorter lengths from the events of an order. What is to be answered and
//! left is the second tool's: the events for N, and a row that it makes for N'
//! alone. Where 13 passes, a search of the library for N' must give the same.

use crate::codes::{self, Input};
use crate::guards::entry_of;
use crate::listed::{draw_small, small_events, Tables};
use crate::random::Random;
use crate::search::any;
use crate::searched::{compare, draw_sizes, full, within, Asked, Call, Sizes};
use crate::size;
use crate::tally::Tally;
use dohvrin::{Event, Link, WORK};
use dso_ref::search::Best;
use dso_ref::words::Words;
use dso_ref::{events, listing};

/// Events and paths of an order of longer words, at most.
const LONG_TABLES: usize = 1 << 14;

/// The kind of quotes whose event table holds more than they tell.
const LONGER: &str = "with longer events in the table";

/// Any orders and lengths, right and damaged.
pub fn quote(inputs: u64) -> Tally {
    let asked = &[2, 3, 4, 5, 6, 7, 8, 9, 16, 10, 13, 14];
    let tally = Tally::new("quote", asked).with_shared();
    any(inputs, tally, 0x9807E, |random, call| {
        // Most of the right ones are for the kind of link that has quotes.
        if Link::of(call.input.version).is_some() && random.within(0, 7) > 0 {
            call.input.version = Link::TailBiting.version();
        }
        call.asked = Asked::Quote(draw_length(random, call));
    })
}

/// A length up to N, at one of its limits, beside them, or far too large. That N
/// is wrong itself does not always make it wrong, too.
fn draw_length(random: &mut Random, call: &Call) -> u64 {
    let Input { v, bits, .. } = call.input;
    let (least, most) = (v.min(128), bits.min(128));
    match random.within(0, 15) {
        0 => random.pick(&[0, 128, 129, u64::MAX]),
        1 => random.huge(bits),
        2 => random.pick(&[least.saturating_sub(1), least, least + 1]),
        3 | 4 => random.pick(&[bits.wrapping_sub(1), bits, bits.wrapping_add(1)]),
        // About m, which may be below N and not below it.
        5 => random.pick(&[call.m, call.m.wrapping_add(1)]),
        6 => random.within(least.min(call.m), call.m.min(128).max(least)),
        _ => random.within(least.min(most), most),
    }
}

/// Small orders with every length from v to N, and some that are no length of a
/// quote: the second tool takes all words of each one by one.
pub fn small_tables(orders: u64) -> Tally {
    let mut random = Random::new(0x5A11D);
    let mut tally = Tally::new("small quotes", &[2, 5, 6, 10, 13, 14])
        .with_kind(LONGER)
        .with_shared()
        .with_lists();
    let mut done = 0;
    while done < orders {
        // Of the longest words there are a great many.
        let most = if done % 50 == 49 { 14 } else { 10 };
        let (mut input, d) = draw_small(&mut random, most);
        // Most have shorter lengths.
        if input.bits < 2 || input.bits == input.v && random.within(0, 7) > 0 {
            continue;
        }
        input.version = Link::TailBiting.version();
        let few = random.pick(&[1, 2, 5, 12]);
        let m = random.within(1, few.min(input.bits - 1));
        let events = small_events(input, d);
        let Input { v, bits, .. } = input;
        let outside = [0, v - 1, bits + 1, 128, 129, u64::MAX];
        for length in (v..=bits).chain(outside) {
            every_size(&mut random, &mut tally, (input, m, d), length, &events);
        }
        // Of no other kind of link, whatever the length.
        let length = random.within(v - 1, bits + 1);
        for version in [0, 2, 3, random.wrong_version()] {
            let input = Input { version, ..input };
            every_size(&mut random, &mut tally, (input, m, d), length, &events);
        }
        done += 1;
    }
    tally
}

/// One length, with tables exactly full, larger, and each too small.
fn every_size(
    random: &mut Random,
    tally: &mut Tally,
    (input, m, d): (Input, u64, u64),
    length: u64,
    events: &[Event],
) {
    let longer = Tables::new(input, d, events.to_vec(), Vec::new());
    let mut call = Call {
        input,
        m,
        d,
        asked: Asked::Quote(length),
        lent: full(&longer),
    };
    // Lent to a quote that is refused before 13.
    call.lent.listing.paths = random.index(40);
    let order = match call.order() {
        Ok(order) => order,
        Err(refusal) => return compare(tally, &call, Err(refusal)),
    };
    let own = Tables::small(call.input_of_row(), d);
    let best = call.best(&mut Words::new(&order).expect("a short order"));
    let tables = Tables {
        events: events.to_vec(),
        ..own
    };
    for lent in sizes(random, &tables, full(&tables)) {
        compare_quote(tally, &Call { lent, ..call }, &tables, &best);
    }
}

fn compare_quote(tally: &mut Tally, call: &Call, tables: &Tables, best: &Best) {
    let expected = within(call, tables, best);
    if expected.is_ok() && tables.told < tables.events.len() {
        tally.count_kind(LONGER);
    }
    compare(tally, call, expected);
}

/// Exactly full; events or paths one short, and both; events enough for the
/// shorter length alone; and any two of the others.
fn sizes(random: &mut Random, tables: &Tables, full: Sizes) -> Vec<Sizes> {
    let with = |events: usize, paths: usize| {
        let mut lent = full;
        (lent.listing.events, lent.listing.paths) = (events, paths);
        lent
    };
    let (events, paths) = (full.listing.events, full.listing.paths);
    let short = paths.saturating_sub(1 + random.index(2));
    let mut all = vec![
        full,
        with(events - 1, paths),
        with(events, short),
        with(events - 1, short),
    ];
    if tables.told < events {
        all.push(with(tables.told, paths));
    }
    let others = draw_sizes(random, tables, full);
    all.extend((0..2).map(|_| others[random.index(others.len())]));
    all
}

/// Longer words, up to 128 bits, at some of their shorter lengths.
pub fn long_tables(orders: u64) -> Tally {
    let mut random = Random::new(0x107613);
    let mut tally = Tally::new("long quotes", &[13, 14])
        .with_kind(LONGER)
        .with_shared();
    let mut done = 0;
    while done < orders {
        let mut input = codes::right(&mut random);
        input.version = Link::TailBiting.version();
        input.bits = match done % 4 {
            0 => 128,
            _ => random.within(19, 128),
        };
        let (m, d) = (random.within(1, 6), random.within(6, 18));
        let collected = events::collect(input.code(), size(d), LONG_TABLES, WORK);
        let events: Vec<Event> = collected.unwrap_or_default().iter().map(entry_of).collect();
        let least = input.v.max(m + 1);
        let lengths = [input.bits, random.within(least, input.bits), least];
        let listed = |bits| listed(Input { bits, ..input }, d);
        let Some(paths) = lengths.into_iter().map(listed).collect::<Option<Vec<_>>>() else {
            continue;
        };
        if events.is_empty() {
            continue;
        }
        for (length, paths) in lengths.into_iter().zip(paths) {
            long_quote(&mut tally, (input, m, d), length, &events, paths);
        }
        done += 1;
    }
    tally
}

/// The paths of an order, where they are not too many.
fn listed(input: Input, d: u64) -> Option<Vec<(u32, u128)>> {
    listing::list(input.code(), size(d), LONG_TABLES).ok()
}

/// One length with tables exactly full, and one event or one path short.
fn long_quote(
    tally: &mut Tally,
    (input, m, d): (Input, u64, u64),
    length: u64,
    events: &[Event],
    paths: Vec<(u32, u128)>,
) {
    let row = Input {
        bits: length,
        ..input
    };
    let mut words = Words::listed(size(d), &paths);
    let tables = Tables::new(row, d, events.to_vec(), paths);
    let call = Call {
        input,
        m,
        d,
        asked: Asked::Quote(length),
        lent: full(&tables),
    };
    let told = call.told(events.len());
    let tables = Tables { told, ..tables };
    let best = call.best(&mut words);
    let mut lent = vec![call.lent; 2];
    lent[1].listing.events -= 1;
    if !tables.words.is_empty() {
        lent.push(call.lent);
        lent[2].listing.paths -= 1;
    }
    for lent in lent {
        compare_quote(tally, &Call { lent, ..call }, &tables, &best);
    }
}

/// The events that are collected for N, without those that have more steps than a
/// word of N' bits, must be those that are collected for N', in the same order.
pub fn shorter_events(orders: u64) -> Tally {
    let mut random = Random::new(0x5C0E7);
    let mut tally =
        Tally::of_links("events for shorter lengths", &[]).with_kind("without longer ones");
    let mut done = 0;
    while done < orders {
        let (mut input, d) = draw_small(&mut random, 20);
        if done % 8 == 0 {
            input.bits = random.length(input.v);
        }
        let Some(all) = collected(input, d) else {
            continue;
        };
        for bits in input.v..=input.bits {
            let short = Input { bits, ..input };
            let link = Link::of(input.version).expect("a right order");
            let most = link.steps(input.v, bits);
            let fitting = all.iter().filter(|event| event.length <= most);
            let expected: Vec<Event> = fitting.copied().collect();
            let own = collected(short, d);
            if expected.len() < all.len() {
                tally.count_kind("without longer ones");
            }
            let same = own.as_ref() == Some(&expected);
            tally.count_of(input.version, 0, same, || {
                format!("{input:?} d {d}, {bits} bits: {expected:?}, library {own:?}")
            });
        }
        done += 1;
    }
    tally
}

/// The events that the library collects, where they are not too many.
fn collected(input: Input, d: u64) -> Option<Vec<Event>> {
    let mut table = vec![Event::default(); 4096];
    let row = dohvrin::collect(input.below(d), &mut table, &mut [0; WORK]).ok()?;
    table.truncate(size(row.events));
    Some(table)
}
