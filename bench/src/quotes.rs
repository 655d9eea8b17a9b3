//! A shorter length quoted from the events of an order, beside a search for it.

use crate::lent::{self, Lent};
use crate::orders::{Order, Quote};
use crate::turns::{time, Turns};

/// The times of a quote and of a search, and of what lists the paths in either.
pub struct Times {
    pub whole: Turns,
    pub listing: Turns,
}

/// A quote and a search for the same length, turn by turn. Each has its events
/// collected, for N or for N', and its polynomial chosen: without both, the
/// listing is left. The choice is that of the search in either, since both choose
/// by the same paths.
pub fn beside_a_search(turns: usize, quote: Quote) -> Times {
    let Quote { long, short } = quote;
    let mut quoted = Lent::new(Order {
        paths: short.paths,
        ..long
    });
    let mut fresh = Lent::new(short);
    let (mut whole, mut listing) = (Turns::default(), Turns::default());
    for _ in 0..turns {
        let (ours, found) = time(|| lent::library_quote(&mut quoted, short.bits));
        let (theirs, expected) = time(|| lent::library_search(&mut fresh));
        assert_eq!(found, expected, "the rows differ");
        assert!(quoted.same_row(&fresh), "the tables differ");
        let (collected_long, _) = time(|| lent::library_collect(&mut quoted));
        let (listed, _) = time(|| lent::library_list(&mut fresh));
        let (collected_short, _) = time(|| lent::library_collect(&mut fresh));
        let choice = theirs - listed;
        whole.push(ours, theirs);
        listing.push(ours - collected_long - choice, listed - collected_short);
    }
    Times { whole, listing }
}
