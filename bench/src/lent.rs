//! The tables of an order, exactly full, and each call that fills them: the
//! library's, and plain Rust's.

use crate::orders::Order;
use crate::plain::{self, search::Best};
use dohvrin::{Event, Refusal, RowAnswer, WORK};

pub struct Lent {
    order: Order,
    events: Vec<Event>,
    /// The library's paths, two numbers a word, and plain Rust's.
    numbers: Vec<u64>,
    words: Vec<u128>,
    plain: Vec<u64>,
    undetected: Vec<u64>,
    work: Vec<u64>,
}

impl Lent {
    pub fn new(order: Order) -> Lent {
        let weights = order.d as usize - 1;
        // Not zeros: those are no memory until the first call has touched it.
        let full = Event {
            state: u64::MAX,
            ..Event::default()
        };
        Lent {
            order,
            events: vec![full; order.events],
            numbers: vec![u64::MAX; 2 * order.paths],
            words: vec![u128::MAX; order.paths],
            plain: vec![0; weights],
            undetected: vec![0; weights],
            work: vec![0; WORK],
        }
    }

    fn all(&mut self) -> dohvrin::Lent<'_> {
        dohvrin::Lent {
            events: &mut self.events,
            paths: &mut self.numbers,
            plain: &mut self.plain,
            undetected: &mut self.undetected,
            work: &mut self.work,
        }
    }

    /// What the call before left; the paths are for `same_paths`.
    pub fn left(&self) -> (Vec<Event>, Vec<u64>, Vec<u64>) {
        let Lent { events, plain, .. } = self;
        (events.clone(), plain.clone(), self.undetected.clone())
    }

    /// Whether the library's calls left the same paths and counts in both.
    pub fn same_row(&self, other: &Lent) -> bool {
        let counts = self.plain == other.plain && self.undetected == other.undetected;
        counts && self.numbers == other.numbers
    }

    /// Whether the library's call and plain Rust's left the same paths.
    pub fn same_paths(&self) -> bool {
        dohvrin::words(&self.numbers).eq(self.words.iter().copied())
    }
}

pub fn library_collect(lent: &mut Lent) -> Option<usize> {
    let (o, events) = (&lent.order, &mut lent.events);
    let row = dohvrin::collect(o.given(), events, &mut lent.work);
    row.ok().map(|row| row.events as usize)
}

pub fn plain_collect(lent: &mut Lent) -> Option<usize> {
    let o = &lent.order;
    plain::events::collect(o.code(), o.d, &mut lent.events)
}

pub fn library_list(lent: &mut Lent) -> Option<usize> {
    let o = &lent.order;
    let (events, paths) = (&mut lent.events, &mut lent.numbers);
    let (plain, work) = (&mut lent.plain, &mut lent.work);
    let row = dohvrin::list(o.given(), events, paths, plain, work);
    row.ok().map(|row| row.paths as usize)
}

pub fn plain_list(lent: &mut Lent) -> Option<usize> {
    let o = &lent.order;
    plain::paths::list(
        o.code(),
        o.d,
        &mut lent.events,
        &mut lent.words,
        &mut lent.plain,
    )
}

/// The best polynomial: none where a table is too small.
pub fn library_search(lent: &mut Lent) -> Option<Best> {
    let order = lent.order.given();
    best(dohvrin::search(order, lent.all()))
}

/// The same for a shorter length.
pub fn library_quote(lent: &mut Lent, bits: u64) -> Option<Best> {
    let order = lent.order.given();
    best(dohvrin::quote(order, bits, lent.all()))
}

fn best(row: Result<RowAnswer, Refusal>) -> Option<Best> {
    let row = row.ok()?;
    Some(Best {
        polynomial: row.polynomial,
        shared: row.shared,
    })
}

pub fn plain_search(lent: &mut Lent) -> Option<Best> {
    let o = &lent.order;
    plain::search::search(
        o.code(),
        o.m,
        o.d,
        &mut lent.events,
        &mut lent.words,
        &mut lent.plain,
        &mut lent.undetected,
    )
}
