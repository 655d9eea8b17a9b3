//! The listing of paths, with its four lent tables. Whole tables are compared,
//! and what stands around them.

use crate::codes::{self, Input};
use crate::guards::{entry_of, Guarded};
use crate::listed::{any_tables, draw, draw_size, draw_sizes, draw_small, Sizes, Tables};
use crate::listed::{EVENTS, PATHS};
use crate::random::Random;
use crate::tally::Tally;
use crate::{number, row_answer, size};
use dohvrin::{calls, Event, Link, RowAnswer, WORK};
use dso_ref::{events, link, listing};

/// Events and paths of an order of any length whose whole tables are compared.
const MANY: usize = 1 << 17;

/// Events and paths of 13, 17, N = 70, d = 18 on either kind of link.
pub const TABLE_1: [(Link, usize, usize); 2] = [
    (Link::TailBiting, 15_852, 1_940_785),
    (Link::Terminated, 11_561, 1_627_283),
];
/// Those of 561, 753, N = 76, d = 21.
pub const TABLE_2: [(Link, usize, usize); 2] = [
    (Link::TailBiting, 5_079_947, 882_816),
    (Link::Terminated, 11_617, 673_899),
];

/// One call: the code, the threshold, and the sizes of what is lent.
#[derive(Clone, Copy, Debug)]
struct Call {
    input: Input,
    d: u64,
    lent: Sizes,
}

/// The tables to be left, or a refusal.
type Expected<'a> = Result<&'a Tables, u64>;

/// Any inputs, right and damaged, of any length.
pub fn list(inputs: u64) -> Tally {
    let mut random = Random::new(0x115794);
    let mut tally = Tally::of_links("list", &[2, 3, 4, 5, 7, 8, 9, 16, 10, 13, 14])
        .with_kind("with m wrong")
        .with_lists();
    for _ in 0..inputs {
        let (input, d, lent) = draw(&mut random);
        let mut call = Call { input, d, lent };
        if let Err(no) = listing::ask(input.code(), size(d), lent.counts, lent.work) {
            any_tables(&mut random, &mut call.lent);
            compare(&mut tally, &call, Err(number(no)));
            continue;
        }
        call.lent.events = EVENTS - random.index(2);
        call.lent.paths = random.index(2 * PATHS);
        let events = match events::collect(input.code(), size(d), EVENTS, WORK) {
            Ok(events) => events.iter().map(entry_of).collect::<Vec<_>>(),
            Err(no) => {
                compare(&mut tally, &call, Err(number(no)));
                continue;
            }
        };
        let many = listing::list(input.code(), size(d), PATHS);
        let paths = many.as_ref().map_or(PATHS, Vec::len);
        call.lent.events = draw_size(&mut random, events.len(), true);
        call.lent.paths = 2 * draw_size(&mut random, paths, many.is_ok()) + random.index(2);
        match many {
            Err(_) if call.lent.events < events.len() => compare(&mut tally, &call, Err(13)),
            Err(no) => compare(&mut tally, &call, Err(number(no))),
            Ok(paths) => {
                let tables = Tables::new(input, d, events, paths);
                if tables.within(call.lent).is_ok() && input.wrong_degree() {
                    tally.count_kind("with m wrong");
                }
                compare_listed(&mut tally, &tables, call.lent);
            }
        }
    }
    tally
}

/// Small orders, whose paths the second tool finds among all words one by one,
/// each with tables exactly full, one short, empty, odd, larger, far larger.
pub fn small_tables(orders: u64) -> Tally {
    let mut random = Random::new(0x5A11A);
    let mut tally = Tally::of_links("small path tables", &[10, 13, 14])
        .with_kind("orders of N = v")
        .with_lists();
    for order in 0..orders {
        // Of the longest words there are a great many.
        let most = if order % 100 == 99 {
            listing::LONGEST
        } else {
            12
        };
        let (input, d) = draw_small(&mut random, most as u64);
        let tables = Tables::small(input, d);
        if input.bits == input.v {
            tally.count_kind("orders of N = v");
        }
        for lent in draw_sizes(&mut random, &tables) {
            compare_listed(&mut tally, &tables, lent);
        }
    }
    tally
}

/// Longer words, whose paths the second tool finds by walks, after a table has
/// counted them, where they are few enough for that.
pub fn long_tables(orders: u64) -> Tally {
    let mut random = Random::new(0x107611);
    let mut tally = Tally::of_links("long path tables", &[14]);
    let mut done = 0;
    while done < orders {
        let mut input = codes::right(&mut random);
        input.version = Link::ALL[done as usize % 2].version();
        input.bits = match random.within(0, 3) {
            // The longest walks: words past 128 steps.
            0 => 128,
            _ => random.within(listing::LONGEST as u64 + 1, 128),
        };
        let d = random.within(4, 24);
        let code = input.code();
        let events = events::collect(code, size(d), MANY, WORK).unwrap_or_default();
        let paths = listing::list(code, size(d), MANY).unwrap_or_default();
        if events.is_empty() || paths.is_empty() {
            continue;
        }
        let tables = Tables::new(input, d, events.iter().map(entry_of).collect(), paths);
        tables.count_again();
        compare_listed(&mut tally, &tables, tables.sizes());
        let full = tables.sizes();
        compare_listed(&mut tally, &tables, full.with_paths(full.paths - 1));
        done += 1;
    }
    tally
}

/// The large orders, whose numbers of paths are stored here, with tables
/// exactly full, and in turn one path and one event short.
pub fn large_tables(_: u64) -> Tally {
    let mut tally = Tally::of_links("large path tables", &[13, 14]);
    for (link, events, paths) in TABLE_1 {
        let input = Input::of(link, &[0o13, 0o17], 3, 70);
        let tables = large(&mut tally, input, 18, events, paths);
        let full = tables.sizes();
        compare_listed(&mut tally, &tables, full.with_paths(full.paths - 2));
    }
    for (link, events, paths) in TABLE_2 {
        let input = Input::of(link, &[0o561, 0o753], 8, 76);
        let tables = large(&mut tally, input, 21, events, paths);
        let full = tables.sizes();
        compare_listed(&mut tally, &tables, full.with_events(full.events - 1));
    }
    // Walks of 136 steps.
    let longest = Input::of(Link::Terminated, &[0o561, 0o753], 8, 128);
    large(&mut tally, longest, 19, 1_978, 224_239);
    tally
}

/// The second tool's list must have the stored number of paths, each of them
/// weighed by products, once and in order, and its table's counts. The
/// events are those that `collect` leaves, which are compared where it is.
fn large(tally: &mut Tally, input: Input, d: u64, events: usize, paths: usize) -> Tables {
    let code = input.code();
    let listed = listing::list(code, size(d), paths).unwrap_or_default();
    let weighed = |&(weight, word): &(u32, u128)| link::weight(code, word) == Ok(weight);
    let right = listed.len() == paths
        && listed.iter().all(weighed)
        && listed.windows(2).all(|two| two[0] < two[1]);
    assert!(right, "{input:?}: not the {paths} paths of the order");
    let mut table = vec![Event::default(); events];
    let collected = dohvrin::collect(input.below(d), &mut table, &mut [0; WORK]);
    let collected = collected.map(|row| row.events);
    assert_eq!(collected, Ok(events as u64), "{input:?}");
    let tables = Tables::new(input, d, table, listed);
    tables.count_again();
    compare_listed(tally, &tables, tables.sizes());
    tables
}

/// One call with tables of these sizes.
fn compare_listed(tally: &mut Tally, tables: &Tables, lent: Sizes) {
    let Tables { input, d, .. } = *tables;
    compare(tally, &Call { input, d, lent }, tables.within(lent));
}

/// The call as C sees it, then the safe function.
fn compare(tally: &mut Tally, call: &Call, expected: Expected) {
    let told = expected.map(|tables| RowAnswer {
        events: tables.events.len() as u64,
        paths: tables.words.len() as u64,
        ..RowAnswer::default()
    });
    let answer = row_answer(told);
    let (raw, raw_left) = Lent::new(call.lent).raw(call, expected);
    let (safe, safe_left) = Lent::new(call.lent).safe(call, expected);
    let same = raw == answer && safe == told && raw_left && safe_left;
    tally.count_lists(answer.refusal, call.d, &[call.lent.counts]);
    tally.count_of(call.input.version, answer.refusal, same, || {
        format!(
            "{call:?}: library {raw:?} {safe:?}, second tool {answer:?}, \
             memory as it should be: {raw_left} {safe_left}"
        )
    });
}

/// The four tables among guards.
pub struct Lent {
    pub events: Guarded<Event>,
    pub paths: Guarded<u64>,
    pub counts: Guarded<u64>,
    pub work: Guarded<u64>,
}

impl Lent {
    pub fn new(lent: Sizes) -> Lent {
        Lent {
            events: Guarded::new(lent.events),
            paths: Guarded::new(lent.paths),
            counts: Guarded::new(lent.counts),
            work: Guarded::new(lent.work),
        }
    }

    fn raw(mut self, call: &Call, expected: Expected) -> (RowAnswer, bool) {
        let (events, paths) = (self.events.lent(), self.paths.lent());
        let (counts, work) = (self.counts.lent(), self.work.lent());
        let answer = calls::list(call.input.below(call.d), events, paths, counts, work);
        (answer, self.is_left(expected))
    }

    fn safe(mut self, call: &Call, expected: Expected) -> (Result<RowAnswer, u64>, bool) {
        let (events, paths) = (self.events.lent(), self.paths.lent());
        let (counts, work) = (self.counts.lent(), self.work.lent());
        let answer = dohvrin::list(call.input.below(call.d), events, paths, counts, work);
        (answer.map_err(|no| no.number()), self.is_left(expected))
    }

    /// Whether the call left what it should: the lists and zeros, zeros, or
    /// nothing changed; and in any case the guards.
    pub fn is_left(&self, expected: Expected) -> bool {
        let changed = matches!(expected, Ok(_) | Err(13 | 14));
        let listed = expected.ok();
        let event = |k: usize| listed.and_then(|t| t.events.get(k)).copied();
        let path = |k: usize| {
            let word = listed.and_then(|t| t.words.get(k / 2));
            word.map(|word| (word >> (64 * (k % 2))) as u64)
        };
        let count = |k: usize| listed.and_then(|t| t.counts.get(k)).copied();
        self.events.is_left(changed, event)
            && self.paths.is_left(changed, path)
            && self.counts.is_left(changed, count)
            && self.work.is_left(changed, |_| None)
    }
}
