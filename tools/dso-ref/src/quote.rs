//! A shorter length N' quoted from the events for N. Only its questions and the
//! event table are about N: the row is that of an order of length N', made as any
//! other, and no event that was listed for N is looked at for it.

use crate::events::{self, Event};
use crate::link::Code;
use crate::order::Order;
use crate::questions::{self, Refusal};
use crate::row::{self, Failure, Lent, Method, Row};

/// The order for N and the one for N'.
#[derive(Clone, Debug, PartialEq, Eq)]
pub struct Quote {
    /// For N, the code's length.
    pub long: Order,
    /// For N'.
    pub short: Order,
}

impl Quote {
    /// Asks questions 2 to 9 and 16 about a code, m, d and N': 2 is for
    /// tail-biting links alone, 5 and 6 are about both lengths.
    pub fn new(
        code: Code,
        degree: usize,
        threshold: usize,
        length: usize,
    ) -> Result<Quote, Refusal> {
        questions::tail_biting(code.version)?;
        questions::generator_count(code.generators.len())?;
        questions::memory(code.memory)?;
        questions::length(code.memory, code.length)?;
        questions::quoted_length(code.memory, length, code.length)?;
        questions::degree(degree, code.length)?;
        questions::degree(degree, length)?;
        let short = Code { length, ..code };
        Ok(Quote {
            long: Order::new(code, degree, threshold)?,
            short: Order::new(short, degree, threshold)?,
        })
    }

    /// The events for N, or refusal 13 where they are more than the capacity.
    pub fn events(&self, capacity: usize) -> Result<Vec<Event>, Refusal> {
        events::list(&self.long, capacity)
    }
}

/// The row for N' of an order, after question 13 about N.
pub fn row(order: &Order, length: usize, lent: Lent, method: Method) -> Result<Row, Failure> {
    let (degree, threshold) = (order.degree(), order.threshold());
    let quote = Quote::new(order.code(), degree, threshold, length)?;
    events::count(&quote.long, lent.events)?;
    let any = Lent {
        events: usize::MAX,
        ..lent
    };
    row::row(&quote.short, any, None, method)
}

#[cfg(test)]
mod tests {
    use super::*;
    use crate::link::Kind;

    const S: Code = Code::of(Kind::TailBiting, 1, 4, &[1, 3]);

    fn no(code: Code, degree: usize, threshold: usize, length: usize) -> u8 {
        match Quote::new(code, degree, threshold, length) {
            Ok(_) => 0,
            Err(Refusal(number)) => number,
        }
    }

    #[test]
    fn questions_in_order() {
        assert_eq!(no(S, 2, 6, 3), 0);
        assert_eq!(no(S, 2, 6, 4), 0);
        assert_eq!(no(Code { version: 2, ..S }, 0, 0, 9), 2);
        assert_eq!(no(Code { version: 3, ..S }, 0, 0, 9), 2);
        let bare = Code {
            generators: &[1],
            memory: 0,
            ..S
        };
        assert_eq!(no(bare, 0, 0, 9), 3);
        assert_eq!(no(Code { memory: 9, ..S }, 0, 0, 9), 4);
        for length in [0, 5, 128, 129, usize::MAX] {
            assert_eq!(no(S, 0, 0, length), 5, "{length}");
        }
        assert_eq!(no(Code { length: 129, ..S }, 0, 0, 4), 5);
        assert_eq!(no(Code { length: 0, ..S }, 0, 0, 0), 5);
        // m below N alone, and below neither.
        assert_eq!(no(S, 3, 0, 3), 6);
        assert_eq!(no(S, 4, 0, 4), 6);
        assert_eq!(no(S, 0, 0, 4), 6);
        assert_eq!(no(S, 2, 65, 3), 7);
        let generators = |generators| Code { generators, ..S };
        assert_eq!(no(generators(&[0, 3]), 2, 6, 3), 8);
        assert_eq!(no(generators(&[1, 1]), 2, 6, 3), 9);
        assert_eq!(no(generators(&[3, 3]), 2, 6, 3), 16);
    }

    #[test]
    fn code_s_of_length_3_from_4() {
        let quote = Quote::new(S, 2, 6, 3).unwrap();
        assert_eq!((quote.long.length(), quote.short.length()), (4, 3));
        assert_eq!(quote.events(5).map(|events| events.len()), Ok(5));
        assert_eq!(quote.events(4), Err(Refusal(13)));
        let with = |events, paths| row(&quote.long, 3, Lent { events, paths }, Method::Both);
        let found = with(5, 7).unwrap();
        assert_eq!((found.events, found.paths), (4, 7));
        assert_eq!((found.polynomial, found.shared), (0x5, 1));
        assert_eq!(found.order, quote.short);
        assert_eq!(with(4, 7), Err(Refusal(13).into()));
        assert_eq!(with(5, 6), Err(Refusal(14).into()));
    }

    #[test]
    fn who_shares_the_counts_is_asked_about_the_shorter_length() {
        let shared = |length, threshold, quoted| {
            let order = Order::new(Code { length, ..S }, 2, threshold).unwrap();
            let found = row(&order, quoted, Lent::default(), Method::Both).unwrap();
            (found.polynomial, found.shared)
        };
        assert_eq!(shared(4, 3, 3), (0x5, 2));
        // Two at 4, one at 3 and at 5.
        assert_eq!(shared(4, 5, 3), (0x5, 1));
        assert_eq!(shared(4, 5, 4), (0x5, 2));
        assert_eq!(shared(5, 5, 4), (0x5, 2));
        assert_eq!(shared(5, 5, 5), (0x7, 1));
    }
}
