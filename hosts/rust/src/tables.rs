//! The tables that a search needs, owned.

use crate::{count, part, quote, search, search_set, words};
use crate::{Entries, Event, LengthSet, Lent, NoRoom, Order, Quote, Refusal, Row, RowAnswer};
use crate::{COUNTS, WORK};

/// The numbers of a path.
const PATH: usize = 2;

/// Tables for events, paths, counts and work. What was listed can be read after
/// an accepted call; after a refusal there is nothing.
///
/// ```
/// use dohvrin::{Order, Tables};
///
/// let order = Order::new(&[1, 3], 1, 4, 2, 6).unwrap();
/// let mut tables = Tables::for_order(&order, 1 << 20).unwrap();
/// let row = tables.search(&order).unwrap();
/// assert_eq!((row.events(), row.paths()), (5, 13));
/// assert_eq!((row.polynomial(), row.shared()), (0x5, 1));
/// assert_eq!(tables.paths_of(4).collect::<Vec<_>>(), [3, 6, 9, 12, 15]);
/// ```
pub struct Tables {
    events: Vec<Event>,
    paths: Vec<u64>,
    plain: [u64; COUNTS],
    undetected: [u64; COUNTS],
    work: Vec<u64>,
    /// So many weights, from 1, are listed.
    listed: usize,
}

impl Tables {
    /// Tables of so many entries.
    pub fn with_entries(events: usize, paths: usize) -> Tables {
        Tables::of(Entries { events, paths }).expect("memory for the tables")
    }

    /// Tables of these sizes, or none where there is no memory for them.
    pub fn of(entries: Entries) -> Option<Tables> {
        Some(Tables {
            events: zeros(entries.events)?,
            paths: zeros(entries.paths.checked_mul(PATH)?)?,
            plain: [0; COUNTS],
            undetected: [0; COUNTS],
            work: zeros(WORK)?,
            listed: 0,
        })
    }

    /// Tables of the sizes that an order needs, by a count, where events and
    /// paths have no more bytes than the limit and there is memory for them.
    pub fn for_order(order: &Order, limit: usize) -> Result<Tables, NoRoom> {
        Tables::within(Entries::needed(order), limit)
    }

    /// The same for a quote.
    pub fn for_quote(quote: &Quote, limit: usize) -> Result<Tables, NoRoom> {
        Tables::within(Entries::needed_to(quote), limit)
    }

    /// The same for a set of lengths.
    pub fn for_set(set: &LengthSet, limit: usize) -> Result<Tables, NoRoom> {
        Tables::within(Entries::needed_by(set), limit)
    }

    fn within(needed: Entries, limit: usize) -> Result<Tables, NoRoom> {
        Tables::of(needed.within(limit)?).ok_or(NoRoom { needed, limit })
    }

    /// The entries of event and path table.
    pub fn entries(&self) -> Entries {
        Entries {
            events: self.events.len(),
            paths: self.paths.len() / PATH,
        }
    }

    /// The row of the best polynomial of an order: the smallest number of those
    /// with the best counts, and how many these are.
    pub fn search(&mut self, order: &Order) -> Result<Row, Refusal> {
        let answer = search(order.any(), self.lent());
        self.row(order, answer)
    }

    /// The row of the best polynomial for the shorter length of a quote. The event
    /// table keeps the events for the order's own length.
    pub fn quote(&mut self, quoted: &Quote) -> Result<Row, Refusal> {
        let (long, short) = (quoted.long(), quoted.short());
        let answer = quote(long.any(), short.bits(), self.lent());
        self.row(short, answer)
    }

    /// The row for the longest length of a set, of the polynomial for all lengths:
    /// `shared` is of those that every length left.
    pub fn search_set(&mut self, set: &LengthSet) -> Result<Row, Refusal> {
        let longest = set.longest();
        let answer = search_set(longest.any(), &set.lengths(), self.lent());
        self.row(longest, answer)
    }

    /// The row of a polynomial, without a search: `shared` is 0, as it was given
    /// and nobody was compared with it.
    pub fn count(&mut self, order: &Order, polynomial: u64) -> Result<Row, Refusal> {
        let answer = count(order.any(), polynomial, self.lent());
        self.row(order, answer)
    }

    fn lent(&mut self) -> Lent<'_> {
        Lent {
            events: &mut self.events,
            paths: &mut self.paths,
            plain: &mut self.plain,
            undetected: &mut self.undetected,
            work: &mut self.work,
        }
    }

    /// The row for this order of what was answered.
    fn row(&mut self, order: &Order, answer: Result<RowAnswer, Refusal>) -> Result<Row, Refusal> {
        self.listed = answer.map_or(0, |_| weights(order));
        Ok(Row {
            order: order.clone(),
            answer: answer?,
            plain: self.plain().to_vec(),
            undetected: self.undetected().to_vec(),
        })
    }

    /// How many paths were listed of each weight from 1 to d - 1: entry w - 1 is
    /// weight w.
    pub fn plain(&self) -> &[u64] {
        &self.plain[..self.listed]
    }

    /// How many of them are undetected: entry w - 1 is weight w.
    pub fn undetected(&self) -> &[u64] {
        &self.undetected[..self.listed]
    }

    /// The paths of one weight that were listed, in increasing order.
    pub fn paths_of(&self, weight: u64) -> impl Iterator<Item = u128> + '_ {
        words(part(&self.paths, self.plain(), weight).unwrap_or(&[]))
    }

    /// Doubles the table that a refusal found too small, as far as events and
    /// paths have no more bytes than the limit: whether it is larger now. What
    /// was listed is gone.
    pub fn grow(&mut self, refusal: Refusal, limit: usize) -> bool {
        let before = self.entries();
        let Some(larger) = before.doubled(refusal, limit) else {
            return false;
        };
        // Freed before the larger ones are made: the limit holds in between, too.
        *self = Tables::with_entries(0, 0);
        let grown = Tables::of(larger);
        let there = grown.is_some();
        *self = grown.unwrap_or_else(|| Tables::with_entries(before.events, before.paths));
        there
    }
}

/// How many weights a path of the order may have: those from 1 to d - 1.
fn weights(order: &Order) -> usize {
    order.d() as usize - 1
}

/// So many zeros, where there is memory for them.
fn zeros<T: Clone + Default>(entries: usize) -> Option<Vec<T>> {
    let mut table = Vec::new();
    table.try_reserve_exact(entries).ok()?;
    table.resize(entries, T::default());
    Some(table)
}

#[cfg(test)]
mod tests {
    use super::Tables;
    use crate::{AnyOrder, Entries, LengthSet, NoRoom, Order, Quote, Refusal, Row};

    fn code_s(bits: u64, d: u64) -> Order {
        Order::new(&[1, 3], 1, bits, 2, d).unwrap()
    }

    #[test]
    fn just_enough_entries() {
        let order = code_s(4, 6);
        let search = |events, paths| Tables::with_entries(events, paths).search(&order).err();
        assert_eq!(search(5, 13), None);
        assert_eq!(search(5, 12), Some(Refusal::Paths));
        assert_eq!(search(4, 13), Some(Refusal::Events));
        assert_eq!(search(4, 12), Some(Refusal::Events));
        assert_eq!(search(0, 0), Some(Refusal::Events));
    }

    #[test]
    fn tables_for_an_order() {
        let order = code_s(4, 6);
        let limit = 5 * 40 + 13 * 16;
        let mut tables = Tables::for_order(&order, limit).unwrap();
        let needed = Entries {
            events: 5,
            paths: 13,
        };
        assert_eq!(tables.entries(), needed);
        assert_eq!(tables.search(&order).unwrap().polynomial(), 0x5);
        let limit = limit - 1;
        let no_room = Tables::for_order(&order, limit).err();
        assert_eq!(no_room, Some(NoRoom { needed, limit }));
    }

    /// The polynomial of a row, and how many share its counts.
    fn chosen(row: &Row) -> (u64, u64) {
        (row.polynomial(), row.shared())
    }

    #[test]
    fn the_smallest_of_those_that_share_the_best_counts() {
        let mut tables = Tables::with_entries(5, 13);
        let row = tables.search(&code_s(4, 5)).unwrap();
        assert_eq!(chosen(&row), (0x5, 2));
        assert_eq!(row.text().lines().last(), Some("CRC 0x5 2"));
        assert_eq!(tables.undetected(), [0, 0, 0, 1]);
        assert_eq!(tables.plain(), [0, 0, 4, 5]);
        let counts = [0, 1, 2, 3, 4, 5, 64].map(|weight| tables.paths_of(weight).count());
        assert_eq!(counts, [0, 0, 0, 4, 5, 0, 0]);
    }

    fn quoted(bits: u64, d: u64, short: u64) -> Quote {
        Quote::of(code_s(bits, d).any(), short).unwrap()
    }

    #[test]
    fn a_quote_is_the_row_of_the_shorter_order() {
        for short in 3..=8 {
            let quote = quoted(8, 7, short);
            let mut tables = Tables::for_quote(&quote, 1 << 20).unwrap();
            let order = code_s(short, 7);
            let fresh = Tables::with_entries(100, 300).search(&order);
            assert_eq!(tables.quote(&quote), fresh, "{short}");
            assert_eq!(tables.events, {
                let mut long = Tables::with_entries(tables.events.len(), 300);
                long.search(&code_s(8, 7)).unwrap();
                long.events
            });
        }
    }

    #[test]
    fn a_quote_needs_the_events_of_the_order_and_the_paths_of_its_length() {
        let quote = quoted(4, 6, 3);
        let refused = |events, paths| Tables::with_entries(events, paths).quote(&quote).err();
        assert_eq!(refused(5, 7), None);
        assert_eq!(refused(5, 6), Some(Refusal::Paths));
        assert_eq!(refused(4, 7), Some(Refusal::Events));
        assert_eq!(refused(0, 0), Some(Refusal::Events));
        let limit = 5 * 40 + 7 * 16;
        assert!(Tables::for_quote(&quote, limit).is_ok());
        let no_room = Tables::for_quote(&quote, limit - 1).err().unwrap();
        assert_eq!(no_room.refusal(), Refusal::Paths);
    }

    #[test]
    fn the_smallest_of_those_that_share_the_best_counts_for_the_shorter_length() {
        let mut tables = Tables::with_entries(5, 13);
        let row = tables.quote(&quoted(4, 3, 3)).unwrap();
        assert_eq!(chosen(&row), (0x5, 2));
        assert_eq!(
            (tables.plain(), tables.undetected()),
            (&[0; 2][..], &[0; 2][..])
        );
        let row = tables.quote(&quoted(5, 5, 4)).unwrap();
        assert_eq!(chosen(&row), (0x5, 2));
        assert_eq!(tables.undetected(), [0, 0, 0, 1]);
        assert_eq!(tables.paths_of(4).count(), 5);
    }

    fn set(d: u64, lengths: &[u64]) -> LengthSet {
        LengthSet::of(code_s(4, d).any(), lengths).unwrap()
    }

    #[test]
    fn a_set_of_one_length_is_its_order() {
        for bits in 3..=8 {
            let set = set(7, &[bits]);
            let mut tables = Tables::for_set(&set, 1 << 20).unwrap();
            let mut fresh = Tables::for_order(set.longest(), 1 << 20).unwrap();
            let row = fresh.search(set.longest());
            assert_eq!(tables.search_set(&set), row, "{bits}");
            assert_eq!((tables.events, tables.paths), (fresh.events, fresh.paths));
        }
    }

    #[test]
    fn later_lengths_tell_apart_what_the_longest_does_not() {
        let mut tables = Tables::with_entries(5, 13);
        let row = tables.search_set(&set(5, &[4, 3])).unwrap();
        assert_eq!((chosen(&row), row.order().bits()), ((0x5, 1), 4));
        assert_eq!(tables.undetected(), [0, 0, 0, 1]);
        // The shortest first would leave 0x5.
        let row = tables.search_set(&set(5, &[5, 3])).unwrap();
        assert_eq!((chosen(&row), row.order().bits()), ((0x7, 1), 5));
        assert_eq!(tables.paths_of(4).count(), 5);
    }

    #[test]
    fn a_set_needs_the_events_of_the_longest_and_the_paths_of_every_length() {
        let refused = |set: &LengthSet, events, paths| {
            let mut tables = Tables::with_entries(events, paths);
            tables.search_set(set).err()
        };
        let four = set(6, &[4, 3]);
        assert_eq!(refused(&four, 5, 13), None);
        assert_eq!(refused(&four, 5, 12), Some(Refusal::Paths));
        assert_eq!(refused(&four, 4, 12), Some(Refusal::Events));
        // No path of 3 bits, and one of 2.
        let any = AnyOrder::new(&[1, 3], 1, 0, 1, 3);
        let three = LengthSet::of(any, &[3, 2]).unwrap();
        assert_eq!(refused(&three, 2, 1), None);
        assert_eq!(refused(&three, 2, 0), Some(Refusal::Paths));
        let limit = 2 * 40 + 16;
        assert!(Tables::for_set(&three, limit).is_ok());
        let no_room = Tables::for_set(&three, limit - 1).err().unwrap();
        assert_eq!(no_room.refusal(), Refusal::Paths);
    }

    #[test]
    fn nothing_is_left_of_an_earlier_call() {
        let mut tables = Tables::with_entries(5, 13);
        tables.search(&code_s(4, 6)).unwrap();
        assert_eq!(tables.count(&code_s(4, 6), 0x4), Err(Refusal::Polynomial));
        assert!(tables.plain().is_empty() && tables.undetected().is_empty());
        assert_eq!(tables.paths_of(3).count(), 0);
    }

    #[test]
    fn counts_of_one_polynomial() {
        let row = Tables::with_entries(5, 13)
            .count(&code_s(4, 6), 0x7)
            .unwrap();
        assert_eq!(row.undetected(), [0, 0, 0, 1, 2]);
        // Given, and compared with none.
        assert_eq!(chosen(&row), (0x7, 0));
        assert_eq!(row.text().lines().last(), Some("CRC 0x7 0"));
    }

    #[test]
    fn tables_grow_until_they_hold_all() {
        let (order, limit) = (code_s(4, 6), 8 * 40 + 13 * 16);
        let mut tables = Tables::with_entries(1, 1);
        let mut grown = Vec::new();
        let row = loop {
            match tables.search(&order) {
                Err(refusal) if tables.grow(refusal, limit) => {
                    let Entries { events, paths } = tables.entries();
                    grown.push((refusal.number(), events, paths));
                }
                answer => break answer.unwrap(),
            }
        };
        assert_eq!(row.paths(), 13);
        assert_eq!(grown[..3], [(13, 2, 1), (13, 4, 1), (13, 8, 1)]);
        let paths = [(14, 8, 2), (14, 8, 4), (14, 8, 8), (14, 8, 13)];
        assert_eq!(grown[3..], paths);
    }

    #[test]
    fn a_table_at_its_limit_stays() {
        let mut tables = Tables::with_entries(4, 13);
        assert!(!tables.grow(Refusal::Events, 4 * 40 + 13 * 16));
        assert!(!tables.grow(Refusal::Polynomial, 1 << 20));
        let kept = tables.entries();
        assert_eq!((kept.events, kept.paths), (4, 13));
    }

    #[test]
    fn no_memory_for_it() {
        let entries = Entries {
            events: usize::MAX / 64,
            paths: 0,
        };
        assert!(Tables::of(entries).is_none());
        let entries = Entries {
            events: 0,
            paths: usize::MAX,
        };
        assert!(Tables::of(entries).is_none());
    }
}
