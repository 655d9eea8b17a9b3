//! What the person who signs a row looks at. All of it is found anew from the
//! order and the listed paths, by plain means and not by the library.

mod left;
mod polynomials;
mod remainders;
mod rivals;
mod rotations;
mod tail;
mod trellis;
mod zero;

use crate::lengths::{all_of_degree, Left};
use dohvrin::{Link, Order, Row, Tables};
pub use remainders::Remainders;
use rivals::Choice;
use std::io::{self, Write};

/// The listed paths: those of each weight from 1 to d - 1, in increasing order.
pub struct Paths {
    link: Link,
    /// N, the bits of a word.
    bits: u32,
    /// From weight 1 on.
    by_weight: Vec<Vec<u128>>,
}

impl Paths {
    pub fn of(order: &Order, tables: &Tables) -> Paths {
        Paths {
            link: order.link(),
            bits: order.bits() as u32,
            by_weight: (1..order.d())
                .map(|w| tables.paths_of(w).collect())
                .collect(),
        }
    }

    /// The weights that have paths, and these.
    pub fn weights(&self) -> impl Iterator<Item = (usize, &[u128])> {
        let all = (1..).zip(self.by_weight.iter().map(Vec::as_slice));
        all.filter(|(_, paths)| !paths.is_empty())
    }

    /// A word turned by one place: its last bit becomes its first.
    fn turned(&self, word: u128) -> u128 {
        (word << 1 | word >> (self.bits - 1)) & (u128::MAX >> (128 - self.bits))
    }
}

/// Writes the points of the list after a row: that of a set has one more, what each
/// length left. Whether all of them are as they should be.
pub fn write(out: &mut impl Write, row: &Row, left: &[Left], tables: &Tables) -> io::Result<bool> {
    let order = row.order();
    let paths = Paths::of(order, tables);
    let all = all_of_degree(order);
    let who = left.last().map_or(&all, |last| &last.who);
    let coprime = polynomials::write(out, order.generators(), row.polynomial())?;
    let moved = rotations::write(out, &paths)?;
    let walked = match order.link() {
        Link::TailBiting => zero::write(out, order, &paths)?,
        Link::Terminated => tail::write(out, order, &paths)?,
    };
    let best = rivals::write(out, order, who, &Choice::of(row), &paths)?;
    left::write(out, order, left)?;
    out.flush()?;
    Ok(coprime && moved && walked && best)
}

#[cfg(test)]
mod tests {
    use super::write;
    use dohvrin::{Order, Row, Tables};

    #[test]
    fn a_row_whose_choice_is_wrong_fails() {
        let order = Order::new(&[1, 3], 1, 4, 2, 6).unwrap();
        let mut tables = Tables::with_entries(5, 13);
        let right = |row: &Row, tables: &Tables| write(&mut Vec::new(), row, &[], tables).unwrap();
        let best = tables.search(&order).unwrap();
        assert!(right(&best, &tables));
        // Another polynomial, and the best without the number.
        for polynomial in [0x7, 0x5] {
            let given = tables.count(&order, polynomial).unwrap();
            assert!(!right(&given, &tables), "{polynomial:X}");
        }
    }
}
