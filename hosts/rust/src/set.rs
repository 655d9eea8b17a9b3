//! A set of lengths that share one check polynomial.

use crate::{search_set, AnyOrder, Lent, Order, Refusal};

/// The most lengths of a set.
pub const LENGTHS: usize = 8;

/// An order for each of several lengths, the longest first. There is none that
/// questions 2 to 9, 16 or 17 of `search_set` would refuse.
///
/// ```
/// use dohvrin::{AnyOrder, LengthSet, Refusal, Tables};
///
/// // The order's own length may be any.
/// let order = AnyOrder::new(&[1, 3], 1, 0, 2, 6);
/// let set = LengthSet::of(order, &[4, 3]).unwrap();
/// let row = Tables::for_set(&set, 1 << 20).unwrap().search_set(&set).unwrap();
/// assert_eq!((row.order().bits(), row.polynomial()), (4, 0x5));
/// assert_eq!(LengthSet::of(order, &[3, 4]), Err(Refusal::LengthList));
/// ```
#[derive(Clone, Debug, PartialEq, Eq)]
pub struct LengthSet {
    orders: Vec<Order>,
}

impl LengthSet {
    /// The order at these lengths, or the first question of `search_set` from 2 on
    /// that says no. The library is asked, as for a quote.
    pub fn of(order: AnyOrder, lengths: &[u64]) -> Result<LengthSet, Refusal> {
        match search_set(order, lengths, Lent::nothing()) {
            Err(refusal) if refusal != Refusal::Room => Err(refusal),
            // What is asked of a set is what is asked of an order of each length.
            _ => {
                let of = |&bits| Order::of(AnyOrder { bits, ..order });
                let orders = lengths.iter().map(of).collect::<Result<_, _>>()?;
                Ok(LengthSet { orders })
            }
        }
    }

    /// The order of each length, the longest first.
    pub fn orders(&self) -> &[Order] {
        &self.orders
    }

    /// The order that the row is for.
    pub fn longest(&self) -> &Order {
        &self.orders[0]
    }

    /// The lengths, the longest first.
    pub fn lengths(&self) -> Vec<u64> {
        self.orders.iter().map(Order::bits).collect()
    }
}

#[cfg(test)]
mod tests {
    use super::{LengthSet, LENGTHS};
    use crate::{AnyOrder, Link, Order, Refusal};

    const NINE: [u64; 9] = [128, 100, 70, 64, 52, 40, 30, 20, 10];

    fn refused(order: AnyOrder, lengths: &[u64]) -> Option<u64> {
        LengthSet::of(order, lengths).err().map(Refusal::number)
    }

    #[test]
    fn orders_that_differ_in_their_length_alone() {
        let order = |bits| AnyOrder::new(&[0o13, 0o17], 3, bits, 6, 14);
        // Whatever the order's own is.
        for bits in [0, 3, 70, 129, u64::MAX] {
            let any = order(bits).with_link(Link::Terminated);
            let set = LengthSet::of(any, &NINE[..LENGTHS]).unwrap();
            assert_eq!(set.lengths(), NINE[..LENGTHS]);
            let of = |&bits| Order::of(AnyOrder { bits, ..any }).unwrap();
            let orders: Vec<Order> = NINE[..LENGTHS].iter().map(of).collect();
            assert_eq!((set.orders(), set.longest()), (&orders[..], &orders[0]));
        }
        assert_eq!(refused(order(0), &[7]), None);
        assert_eq!(refused(order(0), &[128, 7]), None);
    }

    #[test]
    fn the_first_question_that_says_no() {
        let order = |v, m, d| AnyOrder::new(&[1, 3], v, 4, m, d);
        let version = AnyOrder {
            version: 3,
            n: 5,
            ..order(9, 0, 0)
        };
        assert_eq!(refused(version, &[]), Some(2));
        let five = AnyOrder {
            n: 5,
            ..order(9, 0, 0)
        };
        assert_eq!(refused(five, &[]), Some(3));
        assert_eq!(refused(order(9, 0, 0), &[]), Some(4));
        for list in [&[][..], &NINE, &[4, 4], &[3, 4], &[200, 300], &[5, 3, 4]] {
            // Before the lengths themselves, and m, which is wrong, too.
            assert_eq!(refused(order(1, 0, 0), list), Some(17), "{list:?}");
        }
        for list in [&[129][..], &[129, 4], &[4, 0], &[u64::MAX, 130, 3]] {
            assert_eq!(refused(order(1, 0, 0), list), Some(5), "{list:?}");
        }
        for m in [0, 3, 4, 13] {
            assert_eq!(refused(order(1, m, 0), &[4, 3]), Some(6), "{m}");
        }
        assert_eq!(refused(order(1, 2, 0), &[4, 3]), Some(7));
        let shared = AnyOrder::new(&[3, 3], 1, 4, 2, 6);
        assert_eq!(refused(shared, &[4, 3]), Some(16));
        assert_eq!(refused(order(1, 2, 6), &[4, 3]), None);
    }
}
