//! The row of an order: questions 11, 13 and 14, and the counts.

use crate::events;
use crate::order::Order;
use crate::paths;
use crate::questions::{self, Refusal};
use crate::search::{self, Best, Counter};
use crate::table::Table;
use crate::words::Words;

/// The lent tables, as far as an answer depends on them.
#[derive(Clone, Copy, Debug)]
pub struct Lent {
    /// Entries of the event table.
    pub events: usize,
    /// Entries of the path table.
    pub paths: usize,
}

impl Default for Lent {
    /// What `dso` lends.
    fn default() -> Lent {
        Lent {
            events: 512,
            paths: 2048,
        }
    }
}

/// How counts are made.
#[derive(Clone, Copy, Debug, PartialEq, Eq)]
pub enum Method {
    /// All words one by one, N up to 20.
    Words,
    /// A table moved through the trellis.
    Table,
    /// Both, compared; the table alone where N is above 20.
    Both,
}

/// A row as `dso` prints it.
#[derive(Clone, Debug, PartialEq, Eq)]
pub struct Row {
    /// The order.
    pub order: Order,
    /// How many events are listed.
    pub events: usize,
    /// How many paths are listed.
    pub paths: u128,
    /// Plain counts by weight, from 1.
    pub plain: Vec<u128>,
    /// Undetected counts by weight, from 1.
    pub undetected: Vec<u128>,
    /// The polynomial given, or the smallest of the best.
    pub polynomial: u64,
    /// How many candidates have the best counts; 0 where the polynomial was
    /// given, and nobody was compared with it.
    pub shared: usize,
}

/// Why there is no row.
#[derive(Clone, Debug, PartialEq, Eq)]
pub enum Failure {
    /// The answer is a refusal.
    Refused(Refusal),
    /// The words were asked for, but the order is too long for them.
    TooLong,
    /// The two methods differ: what each of them gave.
    Disagree(String),
}

impl From<Refusal> for Failure {
    fn from(refusal: Refusal) -> Failure {
        Failure::Refused(refusal)
    }
}

/// The row of an order: of the polynomial given, or else of the smallest of the
/// best.
pub fn row(order: &Order, lent: Lent, of: Option<u64>, method: Method) -> Result<Row, Failure> {
    let Some(p) = of else {
        return among(order, lent, &order.candidates(), method);
    };
    questions::polynomial(p, order.degree())?;
    let row = among(order, lent, &[p], method)?;
    Ok(Row { shared: 0, ..row })
}

/// The row of an order with the smallest of the best among these candidates.
pub fn among(order: &Order, lent: Lent, who: &[u64], method: Method) -> Result<Row, Failure> {
    let events = events::count(order, lent.events)?;
    let counted = by(
        method,
        order,
        |words| count(words, order, lent.paths, who),
        || count(&mut Table::new(order), order, lent.paths, who),
    )??;
    let Counted { plain, best } = counted;
    Ok(Row {
        order: order.clone(),
        events,
        paths: plain.iter().sum(),
        plain,
        polynomial: best.smallest(),
        shared: best.who.len(),
        undetected: best.counts,
    })
}

/// The paths of an order, weight and number each, after questions 13 and 14.
pub fn paths(order: &Order, lent: Lent, method: Method) -> Result<Vec<(u32, u128)>, Failure> {
    events::count(order, lent.events)?;
    by(
        method,
        order,
        |words| {
            plain_within(words, order.threshold(), lent.paths)?;
            Ok(words.paths())
        },
        || {
            let mut table = Table::new(order);
            plain_within(&mut table, order.threshold(), lent.paths)?;
            Ok::<_, Failure>(paths::list(&table, order.threshold()))
        },
    )?
}

/// Plain counts, and the best counts with the candidates that have them.
#[derive(Clone, Debug, PartialEq, Eq)]
pub struct Counted {
    /// Plain counts by weight, from 1.
    pub plain: Vec<u128>,
    /// The best undetected counts.
    pub best: Best,
}

/// Question 14 and all counts, by one method. A polynomial that stands alone is
/// the best.
pub fn count(
    counter: &mut impl Counter,
    order: &Order,
    capacity: usize,
    who: &[u64],
) -> Result<Counted, Refusal> {
    let plain = plain_within(counter, order.threshold(), capacity)?;
    let best = search::best(counter, who.to_vec(), &plain);
    Ok(Counted { plain, best })
}

/// Plain counts of the weights from 1 below d, or refusal 14. The heaviest weight
/// rises, so that a great many paths are noticed where they are still few.
pub fn plain_within(
    counter: &mut impl Counter,
    d: usize,
    capacity: usize,
) -> Result<Vec<u128>, Refusal> {
    let mut plain = Vec::new();
    for heaviest in 1..d {
        plain = counter.plain(heaviest);
        let paths = plain
            .iter()
            .fold(0u128, |sum, &count| sum.saturating_add(count));
        if paths > capacity as u128 {
            return Err(Refusal(14));
        }
    }
    Ok(plain)
}

/// What the method asked for gives; both, and compared, where both apply.
pub(crate) fn by<A: PartialEq + std::fmt::Debug>(
    method: Method,
    order: &Order,
    from_words: impl FnOnce(&mut Words) -> A,
    from_table: impl FnOnce() -> A,
) -> Result<A, Failure> {
    if method == Method::Table {
        return Ok(from_table());
    }
    match (Words::new(order), method) {
        (None, Method::Words) => Err(Failure::TooLong),
        (None, _) => Ok(from_table()),
        (Some(mut words), Method::Words) => Ok(from_words(&mut words)),
        (Some(mut words), _) => {
            let (one, other) = (from_words(&mut words), from_table());
            if one == other {
                Ok(one)
            } else {
                Err(Failure::Disagree(format!(
                    "words give {one:?}, table gives {other:?}"
                )))
            }
        }
    }
}
