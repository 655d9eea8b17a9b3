//! The sizes of event and path table.

use crate::{counting, Event, LengthSet, Order, Quote, Refusal};
use std::error::Error;
use std::fmt;
use std::mem::size_of;

/// The bytes of an event, and those of a path: two numbers.
const EVENT: u128 = size_of::<Event>() as u128;
const PATH: u128 = 2 * size_of::<u64>() as u128;

/// How many entries event and path table have.
#[derive(Clone, Copy, Debug, PartialEq, Eq)]
pub struct Entries {
    pub events: usize,
    pub paths: usize,
}

impl Entries {
    /// How many events and paths an order has, by a count that needs no list of
    /// them; `usize::MAX` where there are as many or more. The count is tested
    /// and not proved: where it were wrong, a call would say so by refusal 13 or
    /// 14, and the tables could grow.
    ///
    /// ```
    /// use dohvrin::{Entries, Order};
    ///
    /// let order = Order::new(&[0o13, 0o17], 3, 70, 6, 18).unwrap();
    /// let needed = Entries::needed(&order);
    /// assert_eq!(needed.to_string(), "15852 events and 1940785 paths, 31 MiB");
    /// ```
    pub fn needed(order: &Order) -> Entries {
        counting::count(order)
    }

    /// How many a quote needs: the events of the order, and the paths of the
    /// shorter length.
    pub fn needed_to(quote: &Quote) -> Entries {
        Entries {
            events: counting::events(quote.long()),
            paths: counting::count(quote.short()).paths,
        }
    }

    /// How many a set needs: the events of the longest length, and the paths of
    /// the length that has most.
    pub fn needed_by(set: &LengthSet) -> Entries {
        let paths = |order: &Order| counting::count(order).paths;
        Entries {
            events: counting::events(set.longest()),
            paths: set
                .orders()
                .iter()
                .map(paths)
                .max()
                .expect("one at the least"),
        }
    }

    /// The bytes of both tables.
    pub fn bytes(self) -> u128 {
        self.event_bytes() + PATH * self.paths as u128
    }

    fn event_bytes(self) -> u128 {
        EVENT * self.events as u128
    }

    /// These, where both tables have no more bytes than the limit.
    pub fn within(self, limit: usize) -> Result<Entries, NoRoom> {
        if self.bytes() <= limit as u128 {
            Ok(self)
        } else {
            Err(NoRoom {
                needed: self,
                limit,
            })
        }
    }

    /// Twice the entries of the table that a refusal found too small, or as many
    /// as the limit allows: none where it allows no more.
    pub fn doubled(self, refusal: Refusal, limit: usize) -> Option<Entries> {
        let most = |others: u128, each| (limit as u128).saturating_sub(others) / each;
        // One at least, so that an empty table grows too.
        let twice = |before: usize, most: u128| {
            let after = before.saturating_mul(2).max(1);
            usize::try_from(most).map_or(after, |most| after.min(most))
        };
        let paths = self.bytes() - self.event_bytes();
        let larger = match refusal {
            Refusal::Events => Entries {
                events: twice(self.events, most(paths, EVENT)),
                ..self
            },
            Refusal::Paths => Entries {
                paths: twice(self.paths, most(self.event_bytes(), PATH)),
                ..self
            },
            _ => return None,
        };
        (larger.bytes() > self.bytes()).then_some(larger)
    }
}

impl fmt::Display for Entries {
    fn fmt(&self, f: &mut fmt::Formatter) -> fmt::Result {
        let [events, paths] = [self.events, self.paths].map(|entries| match entries {
            usize::MAX => format!("{entries} or more"),
            _ => entries.to_string(),
        });
        let mebibytes = (self.bytes() + 0xF_FFFF) >> 20;
        write!(f, "{events} events and {paths} paths, {mebibytes} MiB")
    }
}

/// Tables of these sizes have more bytes than they may.
#[derive(Clone, Copy, Debug, PartialEq, Eq)]
pub struct NoRoom {
    pub needed: Entries,
    /// The bytes that both tables may have.
    pub limit: usize,
}

impl NoRoom {
    /// What the library says to tables within the limit: 13 where the events
    /// alone pass it, else 14.
    pub fn refusal(self) -> Refusal {
        match self.needed.event_bytes() > self.limit as u128 {
            true => Refusal::Events,
            false => Refusal::Paths,
        }
    }
}

impl fmt::Display for NoRoom {
    fn fmt(&self, f: &mut fmt::Formatter) -> fmt::Result {
        write!(f, "{} needed, not within {} bytes", self.needed, self.limit)
    }
}

impl Error for NoRoom {}

#[cfg(test)]
mod tests {
    use super::{Entries, NoRoom};
    use crate::{AnyOrder, LengthSet, Link, Order, Quote, Refusal};

    fn entries(events: usize, paths: usize) -> Entries {
        Entries { events, paths }
    }

    fn needed(generators: &[u64], v: u64, bits: u64, d: u64) -> Entries {
        Entries::needed(&Order::new(generators, v, bits, 1, d).unwrap())
    }

    #[test]
    fn rows_of_document_01() {
        assert_eq!(needed(&[1, 3], 1, 3, 5), entries(4, 7));
        assert_eq!(needed(&[1, 3], 1, 4, 6), entries(5, 13));
        assert_eq!(needed(&[1, 3], 1, 4, 7), entries(5, 15));
        assert_eq!(needed(&[1, 3], 1, 2, 3), entries(2, 1));
    }

    #[test]
    fn terminated_orders() {
        let needed = |generators: &[u64], v, bits, d| {
            let any = AnyOrder::new(generators, v, bits, 1, d);
            Entries::needed(&Order::of(any.with_link(Link::Terminated)).unwrap())
        };
        assert_eq!(needed(&[1, 3], 1, 3, 6), entries(4, 6));
        assert_eq!(needed(&[1, 3], 1, 3, 1), entries(1, 0));
        assert_eq!(needed(&[0o13, 0o17], 3, 70, 14), entries(489, 43_512));
        // One bit takes 9 steps and weighs 2, from the first place to the last.
        assert_eq!(needed(&[1, 0o400], 8, 128, 5), entries(10, 8256));
        let all = needed(&[0o561, 0o753], 8, 128, 64);
        assert_eq!(all, entries(usize::MAX, usize::MAX));
    }

    #[test]
    fn a_quote_needs_the_events_of_the_order() {
        let needed = |generators: &[u64], v, bits, d, short| {
            let any = AnyOrder::new(generators, v, bits, 1, d);
            Entries::needed_to(&Quote::of(any, short).unwrap())
        };
        assert_eq!(needed(&[1, 3], 1, 4, 6, 3), entries(5, 7));
        assert_eq!(needed(&[1, 3], 1, 4, 6, 4), entries(5, 13));
        // None of 13, 17 below 14 has more than 40 steps.
        let quoted = needed(&[0o13, 0o17], 3, 128, 14, 70);
        assert_eq!(quoted, entries(1_134, 48_965));
        let all = needed(&[0o561, 0o753], 8, 128, 64, 8);
        assert_eq!(all, entries(usize::MAX, 255));
    }

    #[test]
    fn a_set_needs_the_events_of_the_longest_and_the_most_paths() {
        let needed = |generators: &[u64], v, d, lengths: &[u64]| {
            let any = AnyOrder::new(generators, v, 0, 1, d);
            Entries::needed_by(&LengthSet::of(any, lengths).unwrap())
        };
        assert_eq!(needed(&[1, 3], 1, 6, &[4, 3]), entries(5, 13));
        // No path of 3 bits, and one of 2.
        assert_eq!(needed(&[1, 3], 1, 3, &[3, 2]), entries(2, 1));
        let lengths = [128, 70];
        assert_eq!(
            needed(&[0o13, 0o17], 3, 14, &lengths),
            entries(1_134, 115_520)
        );
    }

    #[test]
    fn large_orders() {
        let table_1 = needed(&[0o13, 0o17], 3, 70, 18);
        assert_eq!(table_1, entries(15_852, 1_940_785));
        let table_2 = needed(&[0o561, 0o753], 8, 76, 21);
        assert_eq!(table_2, entries(5_079_947, 882_816));
    }

    #[test]
    fn more_than_64_bits() {
        let all = needed(&[0o561, 0o753], 8, 128, 64);
        assert_eq!(all, entries(usize::MAX, usize::MAX));
        assert!(all.to_string().contains(" or more events and "));
        assert_eq!(all.bytes(), 56 * u128::from(u64::MAX));
    }

    #[test]
    fn within_a_limit() {
        let both = entries(512, 2048);
        assert_eq!(both.bytes(), 512 * 40 + 2048 * 16);
        assert_eq!(both.within(53_248), Ok(both));
        let no_room = |limit| both.within(limit).unwrap_err();
        let (needed, limit) = (both, 53_247);
        assert_eq!(no_room(limit), NoRoom { needed, limit });
        assert_eq!(no_room(20_480).refusal(), Refusal::Paths);
        assert_eq!(no_room(20_479).refusal(), Refusal::Events);
        assert_eq!(
            no_room(9).to_string(),
            "512 events and 2048 paths, 1 MiB needed, not within 9 bytes"
        );
    }

    #[test]
    fn doubled_as_far_as_the_limit_allows() {
        let limit = 8 * 40 + 13 * 16;
        let doubled = |events, paths, refusal| entries(events, paths).doubled(refusal, limit);
        assert_eq!(doubled(0, 0, Refusal::Events), Some(entries(1, 0)));
        assert_eq!(doubled(4, 1, Refusal::Events), Some(entries(8, 1)));
        assert_eq!(doubled(8, 1, Refusal::Events), Some(entries(12, 1)));
        assert_eq!(doubled(12, 1, Refusal::Events), None);
        assert_eq!(doubled(8, 0, Refusal::Paths), Some(entries(8, 1)));
        assert_eq!(doubled(8, 8, Refusal::Paths), Some(entries(8, 13)));
        assert_eq!(doubled(8, 13, Refusal::Paths), None);
        assert_eq!(doubled(9, 20, Refusal::Paths), None);
        assert_eq!(doubled(1, 1, Refusal::Polynomial), None);
    }
}
