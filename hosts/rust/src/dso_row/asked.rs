//! What is asked for of an order.

use crate::lengths::Left;
use crate::numbers::{self, Numbers};
use dohvrin::{AnyOrder, Entries, LengthSet, Order, Quote, Refusal, Row, Tables};

/// The words before the length of a quote and before the lengths of a set in a
/// list.
const QUOTE: &str = "quote";
const LENGTHS: &str = "lengths";

#[derive(Clone, Debug, PartialEq, Eq)]
pub enum Asked {
    /// The row of the best polynomial.
    Best,
    /// The row of this polynomial.
    Of(u64),
    /// The row of the best polynomial for a shorter length.
    Quote(u64),
    /// The row for the longest of these lengths, of one polynomial for all.
    Set(Vec<u64>),
}

/// The same of an order that the library accepts for it.
pub enum Wanted {
    Best(Order),
    Of(u64, Order),
    Quote(Quote),
    Set(LengthSet),
}

impl Asked {
    /// What a word and the one after it ask for in a list.
    pub fn named(word: &str, value: &str) -> Option<Asked> {
        match word {
            QUOTE => numbers::digits(value, 10).map(Asked::Quote),
            LENGTHS => numbers::lengths(value).map(Asked::Set),
            _ => None,
        }
    }

    /// This of an order, or the first question about both that says no.
    pub fn of(&self, order: AnyOrder) -> Result<Wanted, Refusal> {
        Ok(match self {
            Asked::Best => Wanted::Best(Order::of(order)?),
            Asked::Of(polynomial) => Wanted::Of(*polynomial, Order::of(order)?),
            Asked::Quote(bits) => Wanted::Quote(Quote::of(order, *bits)?),
            Asked::Set(lengths) => Wanted::Set(LengthSet::of(order, lengths)?),
        })
    }

    /// The numbers in the ORDER line of the row.
    pub fn printed(&self, numbers: &Numbers) -> Numbers {
        match self {
            Asked::Best | Asked::Of(_) => numbers.clone(),
            Asked::Quote(bits) => numbers.with_bits(*bits),
            // An empty list is none that can be typed.
            Asked::Set(lengths) => numbers.with_bits(lengths[0]),
        }
    }

    /// What stands before the ORDER line of a row in a list, since that line does
    /// not say it: the lengths of a set, and the kind of link.
    pub fn before(&self, numbers: &Numbers) -> String {
        let kind = numbers.kind_before();
        match self {
            Asked::Best | Asked::Of(_) | Asked::Quote(_) => kind,
            Asked::Set(lengths) => {
                let lengths: Vec<String> = lengths.iter().map(u64::to_string).collect();
                format!("{LENGTHS} {} {kind}", lengths.join(","))
            }
        }
    }

    /// The line of a refused one in a list. Of a quote it is that of the order
    /// itself, after the length: an order of that length may well have a row.
    pub fn line(&self, numbers: &Numbers) -> String {
        let order = format!("{}{numbers}", self.before(numbers));
        match self {
            Asked::Quote(bits) => format!("{QUOTE} {bits} {order}"),
            _ => order,
        }
    }
}

impl Wanted {
    /// The sizes of the tables that it needs.
    pub fn needed(&self) -> Entries {
        match self {
            Wanted::Best(order) | Wanted::Of(_, order) => Entries::needed(order),
            Wanted::Quote(quote) => Entries::needed_to(quote),
            Wanted::Set(set) => Entries::needed_by(set),
        }
    }

    /// What the library answers with these tables.
    pub fn row(&self, tables: &mut Tables) -> Result<Row, Refusal> {
        match self {
            Wanted::Best(order) => tables.search(order),
            Wanted::Of(polynomial, order) => tables.count(order, *polynomial),
            Wanted::Quote(quote) => tables.quote(quote),
            Wanted::Set(set) => tables.search_set(set),
        }
    }

    /// What each length of a set left, by the tables in which its row was made; of
    /// anything else nothing.
    pub fn left(&self, tables: &mut Tables) -> Vec<Left> {
        match self {
            Wanted::Set(set) => Left::of(set, tables),
            _ => Vec::new(),
        }
    }
}
