//! One polynomial for a set of lengths, beside a search for each of them.

use crate::orders::Order;
use crate::turns::{time, Turns};
use dohvrin::{LengthSet, Row, Tables};

/// An order, and its lengths, of which the order's own is the longest.
#[derive(Clone, Copy)]
pub struct Set {
    pub order: Order,
    pub lengths: &'static [u64],
}

/// A set and the searches for all of its lengths, in the same tables, turn by turn;
/// and the paths of the longest.
pub fn beside_the_searches(turns: usize, set: Set) -> (usize, Turns) {
    let set = LengthSet::of(set.order.given(), set.lengths).expect("a right set");
    let mut tables = Tables::for_set(&set, usize::MAX).expect("memory for the tables");
    // Tables are no memory until the first call has touched them.
    let paths = tables.search_set(&set).expect("room for all").paths();
    let mut times = Turns::default();
    for _ in 0..turns {
        let (ours, row) = time(|| tables.search_set(&set));
        let (theirs, rows) = time(|| all(&set, &mut tables));
        let row = row.expect("room for all");
        assert_eq!(row.plain(), rows[0].plain(), "the longest differs");
        assert!(rows.len() > 1 || row == rows[0], "the rows differ");
        times.push(ours, theirs);
    }
    (paths, times)
}

fn all(set: &LengthSet, tables: &mut Tables) -> Vec<Row> {
    let search = |order| tables.search(order).expect("room for all");
    set.orders().iter().map(search).collect()
}
