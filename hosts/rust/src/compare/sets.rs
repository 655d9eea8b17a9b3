//! One polynomial for a set of lengths. The second tool lists the paths of every
//! length for itself, and narrows the candidates by these lists as the definition
//! says. A set of one length must be answered and left as the search is.

use crate::codes::{self, Input};
use crate::guards::entry_of;
use crate::listed::{any_tables, draw_size, draw_small, small_events, Tables, EVENTS, PATHS};
use crate::random::Random;
use crate::searched::{self, compare, draw, draw_sizes, full, Asked, Call, Expected, List, Sizes};
use crate::tally::Tally;
use crate::{number, size};
use dohvrin::{Event, Link, LENGTHS, WORK};
use dso_ref::search::{best, Best, Counter};
use dso_ref::set::{self, first_weight, narrow, Set};
use dso_ref::words::Words;
use dso_ref::{events, listing, Lent, Method};

/// Events and paths of an order of longer words, at most.
const LONG_TABLES: usize = 1 << 14;

/// Kinds of sets, and of refusals by 14, that must be there.
const OF_ONE: &str = "of one length";
const OF_EIGHT: &str = "of eight";
const LATER: &str = "narrowed by a later length";
const OTHER: &str = "with another polynomial than the longest alone";
const SHORTER: &str = "for the paths of a shorter length alone";

/// Paths of one length, as the second tool lists them.
type Paths = Vec<(u32, u128)>;

/// What the second tool finds of a set.
struct Known {
    /// Those of the longest length.
    tables: Tables,
    best: Best,
    /// The paths of the length that has most.
    most: usize,
    /// How many candidates the first and the last length left.
    left: (usize, usize),
    /// The best at the longest length alone.
    alone: u64,
}

impl Known {
    /// By the events of the longest length and the paths of each.
    fn of(call: &Call, set: &Set, events: Vec<Event>, paths: Vec<Paths>) -> Known {
        let d = size(call.d);
        let mut who = set.longest().candidates();
        let mut left = Vec::new();
        for (order, paths) in set.orders().iter().zip(&paths) {
            let mut words = Words::listed(d, paths);
            let plain = words.plain(d - 1);
            let first = |&p: &u64| first_weight(&mut words, p, &plain);
            let firsts: Vec<usize> = who.iter().map(first).collect();
            left.push(narrow(&mut who, order.length(), &firsts).many);
        }
        let most = paths.iter().map(Vec::len).max().expect("one at the least");
        let longest = paths.into_iter().next().expect("one at the least");
        let mut words = Words::listed(d, &longest);
        let plain = words.plain(d - 1);
        let alone = best(&mut words, set.longest().candidates(), &plain);
        Known {
            best: best(&mut words, who, &plain),
            tables: Tables::new(call.input_of_row(), call.d, events, longest),
            most,
            left: (left[0], left[left.len() - 1]),
            alone: alone.smallest(),
        }
    }

    /// What is left in the call's tables: question 10, then 13, then 14 of the
    /// longest length, then of the others.
    fn within(&self, call: &Call) -> Expected<'_> {
        let expected = searched::within(call, &self.tables, &self.best)?;
        match call.lent.listing.paths / 2 < self.most {
            true => Err(14),
            false => Ok(expected),
        }
    }

    fn compare(&self, tally: &mut Tally, call: &Call, list: List) {
        let expected = self.within(call);
        if expected.is_ok() {
            for (name, is_so) in [
                (OF_ONE, list.all().len() == 1),
                (OF_EIGHT, list.all().len() == LENGTHS),
                (LATER, self.left.1 < self.left.0),
                (OTHER, self.alone != self.best.smallest()),
            ] {
                if is_so {
                    tally.count_kind(name);
                }
            }
        }
        let longest = self.tables.words.len();
        if expected.err() == Some(14) && longest <= call.lent.listing.paths / 2 {
            tally.count_kind(SHORTER);
        }
        compare(tally, call, expected);
    }
}

/// Any orders and lists, right and damaged. The order's own length is often wrong.
pub fn sets(inputs: u64) -> Tally {
    let asked = &[2, 3, 4, 17, 5, 6, 7, 8, 9, 16, 10, 13, 14];
    let mut random = Random::new(0x5E75);
    let mut tally = Tally::of_links("sets", asked)
        .with_kind(OF_ONE)
        .with_shared()
        .with_lists();
    for _ in 0..inputs {
        let mut call = draw(&mut random);
        let list = draw_list(&mut random, &call);
        call.asked = Asked::Set(list);
        if random.within(0, 3) == 0 {
            call.input.bits = random.pick(&[0, 1, 128, 129, u64::MAX]);
        }
        if let Err(refusal) = call.order() {
            any_tables(&mut random, &mut call.lent.listing);
            compare(&mut tally, &call, Err(refusal));
            continue;
        }
        let set = call.set(list).expect("a right set");
        let found = listed(&set, call.d, EVENTS, PATHS);
        let listing = &mut call.lent.listing;
        let (events, paths) = match found {
            Ok(found) => found,
            Err(refusal) => {
                // Not more than there are too many for.
                (listing.events, listing.paths) = (EVENTS, 2 * PATHS);
                compare(&mut tally, &call, Err(refusal));
                continue;
            }
        };
        let of_one = paths[random.index(paths.len())].len();
        listing.events = draw_size(&mut random, events.len(), true);
        listing.paths = 2 * draw_size(&mut random, of_one, true) + random.index(2);
        let known = Known::of(&call, &set, events, paths);
        known.compare(&mut tally, &call, list);
    }
    tally
}

/// The events of the longest length and the paths of each, or the refusal of
/// tables that take so many.
fn listed(set: &Set, d: u64, many: usize, paths: usize) -> Result<(Vec<Event>, Vec<Paths>), u64> {
    let d = size(d);
    let events = events::collect(set.longest().code(), d, many, WORK).map_err(number)?;
    let orders = set.orders().iter();
    let paths = orders.map(|order| listing::list(order.code(), d, paths).map_err(number));
    let paths = paths.collect::<Result<Vec<_>, _>>()?;
    Ok((events.iter().map(entry_of).collect(), paths))
}

/// A list for a call, right most often: none, up to nine, equal, rising, or with
/// lengths about their limits, about m, or far too large.
fn draw_list(random: &mut Random, call: &Call) -> List {
    let Input { v, bits, .. } = call.input;
    let least = v.max(call.m.saturating_add(1)).min(128);
    let most = bits.clamp(least, 128);
    let mut list = falling(random, least, most);
    match random.within(0, 23) {
        0 => list.clear(),
        1 => list = falling(random, 1, 128),
        2 => {
            list = (0..9)
                .map(|at| 128 - random.within(0, 5) - 6 * at)
                .collect()
        }
        3 => list.insert(0, list[0]),
        4 => list.push(list[0] + random.within(0, 1)),
        5 => list.reverse(),
        6 => list.push(random.pick(&[0, v.wrapping_sub(1), call.m])),
        7 => list.insert(0, random.pick(&[128, 129, 130, u64::MAX])),
        8 => list[0] = random.huge(most),
        9 => list = vec![random.pick(&[0, 129, u64::MAX]); size(random.within(1, 9))],
        _ => {}
    }
    list.truncate(LENGTHS + 1);
    List::of(&list)
}

/// One to eight lengths within these, each below the one before.
fn falling(random: &mut Random, least: u64, most: u64) -> Vec<u64> {
    let many = random.pick(&[1, 2, 2, 3, 3, 5, 8]);
    let mut list: Vec<u64> = (0..many).map(|_| random.within(least, most)).collect();
    list.sort_unstable_by(|one, other| other.cmp(one));
    list.dedup();
    list
}

/// Small orders, all words of which the second tool takes one by one, with two
/// sets each and with lists that are none.
pub fn small_tables(orders: u64) -> Tally {
    let mut random = Random::new(0x5A115E7);
    let mut tally = Tally::of_links("small sets", &[17, 5, 6, 10, 13, 14])
        .with_kind(OF_ONE)
        .with_kind(OF_EIGHT)
        .with_kind(LATER)
        .with_kind(OTHER)
        .with_kind_of(14, SHORTER)
        .with_shared()
        .with_lists();
    let mut done = 0;
    while done < orders {
        // Of the longest words there are a great many.
        let most = if done % 50 == 49 { 14 } else { 11 };
        let (input, d) = draw_small(&mut random, most);
        let few = random.pick(&[1, 2, 3, 5]);
        let m = random.within(1, few);
        let least = input.v.max(m + 1);
        if least > most {
            continue;
        }
        for list in [
            falling(&mut random, least, most),
            (least..=most).rev().take(LENGTHS).collect(),
        ] {
            every_size(&mut random, &mut tally, (input, m, d), List::of(&list));
        }
        let nine: Vec<u64> = (2..=10).rev().collect();
        for wrong in [
            &[][..],
            &nine,
            &[most, most],
            &[least, most],
            &[u64::MAX, 129, least],
            &[most, input.v - 1],
            &[m + 1, m],
            &[u64::MAX; 2],
        ] {
            every_size(&mut random, &mut tally, (input, m, d), List::of(wrong));
        }
        done += 1;
    }
    tally
}

/// One list, with tables exactly full, larger, and each too small: for one of the
/// lengths alone, too.
fn every_size(
    random: &mut Random,
    tally: &mut Tally,
    (input, m, d): (Input, u64, u64),
    list: List,
) {
    let lent = full(&Tables::new(input, d, Vec::new(), Vec::new()));
    let mut call = Call {
        input,
        m,
        d,
        asked: Asked::Set(list),
        lent,
    };
    let set = match call.order() {
        Ok(_) => call.set(list).expect("a right set"),
        Err(refusal) => {
            any_tables(random, &mut call.lent.listing);
            return compare(tally, &call, Err(refusal));
        }
    };
    let orders = set.orders().iter();
    let paths = orders.map(|order| listing::list(order.code(), size(d), usize::MAX));
    let paths: Vec<Paths> = paths.map(|paths| paths.expect("a right code")).collect();
    let counts: Vec<usize> = paths.iter().map(Vec::len).collect();
    let events = small_events(call.input_of_row(), d);
    let known = Known::of(&call, &set, events, paths);
    check_row(&set, &known);
    let mut full = full(&known.tables);
    full.listing.paths = 2 * known.most;
    for lent in sizes(random, &known, &counts, full) {
        known.compare(tally, &Call { lent, ..call }, list);
    }
}

/// What the second tool says of the set as a whole, by its words and its table.
fn check_row(set: &Set, known: &Known) {
    let lent = Lent {
        events: known.tables.events.len(),
        paths: known.most,
    };
    let (row, left) = set::row(set, lent, Method::Both).expect("room for all");
    let found = (row.polynomial, row.shared, row.undetected);
    let best = &known.best;
    let same = (best.smallest(), best.who.len(), best.counts.clone());
    assert_eq!(found, same, "{set:?}");
    let many = |at: usize| left[at].many;
    assert_eq!((many(0), many(left.len() - 1)), known.left, "{set:?}");
}

/// Exactly full; an event short; a path short of what each length has; and any two
/// of the others.
fn sizes(random: &mut Random, known: &Known, counts: &[usize], full: Sizes) -> Vec<Sizes> {
    let with = |events: usize, paths: usize| {
        let mut lent = full;
        (lent.listing.events, lent.listing.paths) = (events, paths);
        lent
    };
    let events = full.listing.events;
    let mut all = vec![
        full,
        with(events - 1, full.listing.paths),
        with(events - 1, 0),
    ];
    let short = counts.iter().filter(|&&count| count > 0);
    all.extend(short.map(|count| with(events, 2 * count - 1 - random.index(2))));
    let others = draw_sizes(random, &known.tables, full);
    all.extend((0..2).map(|_| others[random.index(others.len())]));
    all
}

/// Longer words, up to 128 bits, in sets of up to eight lengths.
pub fn long_tables(orders: u64) -> Tally {
    let mut random = Random::new(0x1075E7);
    let mut tally = Tally::of_links("long sets", &[13, 14]);
    let mut done = 0;
    while done < orders {
        let mut input = codes::right(&mut random);
        input.version = Link::ALL[size(done) % 2].version();
        let (m, d) = (random.within(1, 6), random.within(6, 16));
        let mut lengths = falling(&mut random, input.v.max(m + 1), 128);
        if done % 4 == 0 {
            lengths[0] = 128;
        }
        let list = List::of(&lengths);
        let lent = full(&Tables::new(input, d, Vec::new(), Vec::new()));
        let mut call = Call {
            input,
            m,
            d,
            asked: Asked::Set(list),
            lent,
        };
        let set = call.set(list).expect("a right set");
        let Ok((events, paths)) = listed(&set, d, LONG_TABLES, LONG_TABLES) else {
            continue;
        };
        if events.is_empty() || paths.iter().all(Vec::is_empty) {
            continue;
        }
        let known = Known::of(&call, &set, events, paths);
        call.lent = full(&known.tables);
        call.lent.listing.paths = 2 * known.most;
        let mut lent = [call.lent; 3];
        lent[1].listing.events -= 1;
        lent[2].listing.paths -= 1;
        for lent in lent {
            known.compare(&mut tally, &Call { lent, ..call }, list);
        }
        done += 1;
    }
    tally
}
