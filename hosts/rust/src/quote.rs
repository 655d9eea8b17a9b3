//! A shorter length that is quoted from the events of an order.

use crate::{quote, AnyOrder, Lent, Order, Refusal};

/// A tail-biting order and a length that is not above its own. There is none
/// that questions 2 to 9, or 16, of `quote` would refuse.
///
/// ```
/// use dohvrin::{AnyOrder, Order, Quote, Refusal, Tables};
///
/// let order = AnyOrder::new(&[1, 3], 1, 4, 2, 6);
/// let quote = Quote::of(order, 3).unwrap();
/// let row = Tables::for_quote(&quote, 1 << 20).unwrap().quote(&quote).unwrap();
/// let fresh = Order::new(&[1, 3], 1, 3, 2, 6).unwrap();
/// assert_eq!(row, Tables::for_order(&fresh, 1 << 20).unwrap().search(&fresh).unwrap());
/// assert_eq!(Quote::of(order, 5), Err(Refusal::WordLength));
/// ```
#[derive(Clone, Debug, PartialEq, Eq)]
pub struct Quote {
    long: Order,
    short: Order,
}

impl Quote {
    /// The length `bits` from the events of this order, or the first question of
    /// `quote` from 2 on that says no. The library is asked: with nothing lent, it
    /// refuses a wrong quote by its question, and a right one by question 10.
    pub fn of(order: AnyOrder, bits: u64) -> Result<Quote, Refusal> {
        match quote(order, bits, Lent::nothing()) {
            Err(refusal) if refusal != Refusal::Room => Err(refusal),
            // What a quote asks of both lengths is what is asked of an order.
            _ => Ok(Quote {
                long: Order::of(order)?,
                short: Order::of(AnyOrder { bits, ..order })?,
            }),
        }
    }

    /// The order whose events are collected.
    pub fn long(&self) -> &Order {
        &self.long
    }

    /// The order that the row is for.
    pub fn short(&self) -> &Order {
        &self.short
    }
}

#[cfg(test)]
mod tests {
    use super::Quote;
    use crate::{AnyOrder, Link, Order, Refusal};

    fn refused(order: AnyOrder, bits: u64) -> Option<u64> {
        Quote::of(order, bits).err().map(Refusal::number)
    }

    #[test]
    fn an_order_and_a_shorter_one() {
        let any = AnyOrder::new(&[0o13, 0o17], 3, 128, 6, 14);
        let quote = Quote::of(any, 70).unwrap();
        assert_eq!(quote.long(), &Order::of(any).unwrap());
        let short = Order::new(&[0o13, 0o17], 3, 70, 6, 14).unwrap();
        assert_eq!(quote.short(), &short);
        // N itself is the greatest, v the least above m.
        assert_eq!(refused(any, 128), None);
        assert_eq!(refused(any, 7), None);
        assert_eq!(refused(AnyOrder { m: 2, ..any }, 3), None);
    }

    #[test]
    fn the_first_question_that_says_no() {
        let order = |v, bits, m, d| AnyOrder::new(&[1, 3], v, bits, m, d);
        let terminated = order(1, 4, 2, 6).with_link(Link::Terminated);
        assert_eq!(refused(terminated, 3), Some(2));
        assert_eq!(refused(AnyOrder { n: 5, ..terminated }, 9), Some(2));
        let five = AnyOrder {
            n: 5,
            ..order(9, 4, 2, 6)
        };
        assert_eq!(refused(five, 9), Some(3));
        assert_eq!(refused(order(9, 4, 2, 6), 9), Some(4));
        for bits in [0, 5, 128, 129, u64::MAX] {
            // Before m, which is wrong, too.
            assert_eq!(refused(order(1, 4, 4, 0), bits), Some(5), "{bits}");
        }
        assert_eq!(refused(order(1, 129, 2, 6), 4), Some(5));
        for m in [0, 3, 4] {
            assert_eq!(refused(order(1, 4, m, 0), 3), Some(6), "{m}");
        }
        assert_eq!(refused(order(1, 4, 2, 0), 3), Some(7));
        let shared = AnyOrder::new(&[3, 3], 1, 4, 2, 6);
        assert_eq!(refused(shared, 3), Some(16));
        assert_eq!(refused(order(1, 4, 2, 6), 3), None);
    }
}
