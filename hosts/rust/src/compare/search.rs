//! The search for the best polynomial and the counts of one. The second tool
//! divides every word that is a path by every candidate that is left, or counts
//! without words, by its table.

use crate::codes::{self, Input};
use crate::guards::entry_of;
use crate::listed::{any_tables, draw_size, draw_small, Tables, EVENTS, PATHS};
use crate::paths::{TABLE_1, TABLE_2};
use crate::random::Random;
use crate::searched::{compare, draw, draw_polynomial, draw_sizes, full, within, Asked, Call};
use crate::searched::{right_polynomial, wrong_polynomial};
use crate::tally::Tally;
use crate::{number, size};
use dohvrin::{Event, Link, WORK};
use dso_ref::search::{Best, Counter};
use dso_ref::table::Table;
use dso_ref::words::Words;
use dso_ref::{events, listing, poly};

/// The greatest degree whose candidates the second tool counts by its table too,
/// of small orders.
const TABLED: u64 = 4;
/// Events and paths of an order of longer words, at most.
const LONG_TABLES: usize = 1 << 15;

/// Any orders, right and damaged, of any length.
pub fn search(inputs: u64) -> Tally {
    let asked = &[2, 3, 4, 5, 6, 7, 8, 9, 16, 10, 13, 14];
    let tally = Tally::of_links("search", asked).with_shared();
    any(inputs, tally, 0x5EA8C4, |_, _| {})
}

/// The same for the counts of any polynomial, right or damaged.
pub fn count(inputs: u64) -> Tally {
    let tally = Tally::of_links("count", &[2, 3, 4, 5, 6, 7, 8, 9, 16, 10, 11, 13, 14]);
    any(inputs, tally, 0xC0147, |random, call| {
        call.asked = Asked::Of(draw_polynomial(random, call.m));
    })
}

/// Any calls, in each of which `ask` says what is asked for.
pub fn any(inputs: u64, tally: Tally, seed: u64, ask: impl Fn(&mut Random, &mut Call)) -> Tally {
    let (mut random, mut tally) = (Random::new(seed), tally.with_lists());
    for _ in 0..inputs {
        let mut call = draw(&mut random);
        ask(&mut random, &mut call);
        if let Err(refusal) = call.order() {
            any_tables(&mut random, &mut call.lent.listing);
            compare(&mut tally, &call, Err(refusal));
            continue;
        }
        let listing = &mut call.lent.listing;
        listing.events = EVENTS - random.index(2);
        listing.paths = random.index(2 * PATHS);
        let (input, d) = (call.input, size(call.d));
        let events = match events::collect(input.code(), d, EVENTS, WORK) {
            Ok(events) => events.iter().map(entry_of).collect::<Vec<_>>(),
            Err(no) => {
                compare(&mut tally, &call, Err(number(no)));
                continue;
            }
        };
        let row = call.input_of_row();
        let many = listing::list(row.code(), d, PATHS);
        let paths = many.as_ref().map_or(PATHS, Vec::len);
        let listing = &mut call.lent.listing;
        listing.events = draw_size(&mut random, events.len(), true);
        listing.paths = 2 * draw_size(&mut random, paths, many.is_ok()) + random.index(2);
        match many {
            Err(_) if call.lent.listing.events < events.len() => {
                compare(&mut tally, &call, Err(13));
            }
            Err(no) => compare(&mut tally, &call, Err(number(no))),
            Ok(paths) => {
                let best = call.best(&mut Words::listed(d, &paths));
                let told = call.told(events.len());
                let tables = Tables::new(row, call.d, events, paths);
                let tables = Tables { told, ..tables };
                compare(&mut tally, &call, within(&call, &tables, &best));
            }
        }
    }
    tally
}

/// Small orders, of which the second tool takes all words one by one; its table
/// counts those of low degree once more. Each goes into tables exactly full,
/// one short, empty, odd, larger, far larger.
pub fn small_tables(orders: u64) -> Tally {
    let mut random = Random::new(0x5A11C);
    let mut tally = Tally::of_links("small searches and counts", &[10, 11, 13, 14])
        .with_kind("orders of N = v")
        .with_shared()
        .with_lists();
    let mut done = 0;
    while done < orders {
        // Of the longest words there are a great many.
        let most = if done % 50 == 49 { 18 } else { 12 };
        let (input, d) = draw_small(&mut random, most);
        if input.bits < 2 {
            continue;
        }
        let m = random.within(1, 12.min(input.bits - 1));
        let tables = Tables::small(input, d);
        if input.bits == input.v {
            tally.count_kind("orders of N = v");
        }
        for asked in [Asked::Best, Asked::Of(right_polynomial(&mut random, m))] {
            let full = full(&tables);
            let call = Call {
                input,
                m,
                d,
                asked,
                lent: full,
            };
            let order = call.order().expect("a right order");
            let best = call.best(&mut Words::new(&order).expect("a short order"));
            let of_one = matches!(asked, Asked::Of(_));
            if m <= TABLED || of_one {
                assert_eq!(best, call.best(&mut Table::new(&order)), "{call:?}");
            }
            for lent in draw_sizes(&mut random, &tables, full) {
                let call = Call { lent, ..call };
                compare(&mut tally, &call, within(&call, &tables, &best));
            }
            if of_one {
                let wrong = Call {
                    asked: Asked::Of(wrong_polynomial(&mut random, m)),
                    ..call
                };
                compare(&mut tally, &wrong, Err(11));
            }
        }
        done += 1;
    }
    tally
}

/// Longer words, which the second tool counts by its table for every candidate.
pub fn long_tables(orders: u64) -> Tally {
    let mut random = Random::new(11);
    let mut tally = Tally::of_links("long searches and counts", &[13, 14]).with_shared();
    let mut done = 0;
    while done < orders {
        let mut input = codes::right(&mut random);
        input.version = Link::ALL[done as usize % 2].version();
        input.bits = random.within(19, 128);
        let d = random.within(4, 20);
        // Each state is a table of its own for each candidate.
        let m = random.within(1, 10 - input.v.min(7));
        let events = events::collect(input.code(), size(d), LONG_TABLES, WORK).unwrap_or_default();
        let paths = listing::list(input.code(), size(d), LONG_TABLES).unwrap_or_default();
        if events.is_empty() || paths.is_empty() {
            continue;
        }
        let tables = Tables::new(input, d, events.iter().map(entry_of).collect(), paths);
        for asked in [Asked::Best, Asked::Of(right_polynomial(&mut random, m))] {
            let full = full(&tables);
            let call = Call {
                input,
                m,
                d,
                asked,
                lent: full,
            };
            let order = call.order().expect("a right order");
            let best = call.best(&mut Table::new(&order));
            let mut lent = [full; 3];
            lent[1].listing.paths -= 1;
            lent[2].listing.events -= 1;
            for lent in lent {
                let call = Call { lent, ..call };
                compare(&mut tally, &call, within(&call, &tables, &best));
            }
        }
        done += 1;
    }
    tally
}

/// The published rows: the polynomials are stored here, as tests/rows has them
/// of the second tool's search; its table counts for each of them. The tables
/// are those that `list` leaves, which are compared where it is.
pub fn large_tables(_: u64) -> Tally {
    let mut tally = Tally::of_links("large searches", &[]);
    for ((link, events, paths), polynomial) in TABLE_1.into_iter().zip([0x63, 0x43]) {
        let input = Input::of(link, &[0o13, 0o17], 3, 70);
        let tables = listed(input, 18, events, paths);
        large(&mut tally, &tables, 6, polynomial);
    }
    let table_2 = |(link, events, paths)| {
        let input = Input::of(link, &[0o561, 0o753], 8, 76);
        listed(input, 21, events, paths)
    };
    let [tail_biting, terminated] = TABLE_2;
    large(&mut tally, &table_2(tail_biting), 12, 0x1565);
    large_shared(&mut tally, &table_2(terminated), 12, 89);
    tally
}

/// A call for the best polynomial in tables that are exactly full.
fn search_in(tables: &Tables, m: u64) -> Call {
    Call {
        input: tables.input,
        m,
        d: tables.d,
        asked: Asked::Best,
        lent: full(tables),
    }
}

/// So many detect all, and nobody betters that: the second tool's division says
/// who they are.
fn large_shared(tally: &mut Tally, tables: &Tables, m: u64, shared: usize) {
    let call = search_in(tables, m);
    let detects_all = |&p: &u64| !tables.words.iter().any(|&word| poly::divides(p, word));
    let best = Best {
        counts: vec![0; tables.counts.len()],
        who: poly::candidates(size(m)).filter(detects_all).collect(),
    };
    assert_eq!(best.who.len(), shared, "{call:?}");
    compare(tally, &call, Ok((tables, &best)));
}

/// One is best.
fn large(tally: &mut Tally, tables: &Tables, m: u64, polynomial: u64) {
    let mut call = Call {
        asked: Asked::Of(polynomial),
        ..search_in(tables, m)
    };
    let mut table = Table::new(&call.order().expect("a right order"));
    let counts = tables.counts.iter().map(|&count| u128::from(count));
    assert!(
        counts.eq(table.plain(tables.counts.len())),
        "{call:?}: plain counts"
    );
    let best = call.best(&mut table);
    call.asked = Asked::Best;
    compare(tally, &call, Ok((tables, &best)));
}

/// What `list` leaves.
fn listed(input: Input, d: u64, events: usize, paths: usize) -> Tables {
    let mut table = vec![Event::default(); events];
    let (mut numbers, mut counts) = (vec![0; 2 * paths], vec![0; size(d) - 1]);
    let work = &mut [0; WORK];
    let answer = dohvrin::list(input.below(d), &mut table, &mut numbers, &mut counts, work);
    let listed = answer.map(|row| (size(row.events), size(row.paths)));
    assert_eq!(listed, Ok((events, paths)), "{input:?}");
    Tables {
        input,
        d,
        told: events,
        events: table,
        words: dohvrin::words(&numbers).collect(),
        counts,
    }
}
