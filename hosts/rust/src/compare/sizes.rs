//! How many events and paths the host counts for an order, before any is listed,
//! against how many the library lists.

use crate::codes::{self, Input};
use crate::listed::draw_small;
use crate::random::Random;
use crate::size;
use crate::tally::Tally;
use dohvrin::{AnyOrder, Entries, Event, Order, Refusal, WORK};

/// The bytes of both tables of an order of longer words, at most.
const LONG_TABLES: usize = 1 << 20;

/// Each order with tables that the count says are exactly full, one event short
/// and one path short.
pub fn counted(orders: u64) -> Tally {
    let mut random = Random::new(0xC0947ED);
    let mut tally =
        Tally::of_links("sizes counted before", &[13, 14]).with_kind("of orders of N = v");
    let mut done = 0;
    while done < orders {
        let (input, d) = match done % 16 {
            0 => draw_long(&mut random),
            _ => draw_small(&mut random, 12),
        };
        let Some(needed) = needed(&input, d).filter(|needed| fits(*needed, &input)) else {
            continue;
        };
        compare(&mut tally, &input, d, needed);
        done += 1;
    }
    tally
}

/// A right code of any length, and a threshold.
fn draw_long(random: &mut Random) -> (Input, u64) {
    let input = codes::right(random);
    let most = random.pick(&[8, 16, 24]);
    (input, random.within(1, most))
}

/// The count, where the code has an order: words of one bit have no check.
fn needed(input: &Input, d: u64) -> Option<Entries> {
    let order = Order::of(AnyOrder {
        m: 1,
        ..input.below(d)
    })
    .ok()?;
    Some(Entries::needed(&order))
}

/// Of short words all tables are compared.
fn fits(needed: Entries, input: &Input) -> bool {
    input.bits <= 12 || needed.within(LONG_TABLES).is_ok()
}

fn compare(tally: &mut Tally, input: &Input, d: u64, needed: Entries) {
    let Entries { events, paths } = needed;
    let listed = list(input, d, events, paths);
    if input.bits == input.v {
        tally.count_kind("of orders of N = v");
    }
    let all = Ok(needed);
    let version = input.version;
    tally.count_of(version, 0, listed == all, || told(input, d, needed, listed));
    let short = list(input, d, events.saturating_sub(1), paths);
    let no = Err(Refusal::Events);
    tally.count_of(version, 13, short == no, || told(input, d, needed, short));
    if paths > 0 {
        let short = list(input, d, events, paths - 1);
        let no = Err(Refusal::Paths);
        tally.count_of(version, 14, short == no, || told(input, d, needed, short));
    }
}

fn told(input: &Input, d: u64, needed: Entries, listed: Result<Entries, Refusal>) -> String {
    format!("{input:?} d {d}: counted {needed}, library {listed:?}")
}

/// How many the library lists into tables of so many entries.
fn list(input: &Input, d: u64, events: usize, paths: usize) -> Result<Entries, Refusal> {
    let mut table = vec![Event::default(); events];
    let (mut numbers, mut counts) = (vec![0; 2 * paths], vec![0; size(d) - 1]);
    let work = &mut [0; WORK];
    let row = dohvrin::list(input.below(d), &mut table, &mut numbers, &mut counts, work)?;
    Ok(Entries {
        events: size(row.events),
        paths: size(row.paths),
    })
}
