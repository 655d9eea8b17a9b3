//! The line at which a row or an order begins, with what a list has before it.

use crate::asked::Asked;
use crate::numbers::kind_of;
use dohvrin::Link;

pub struct Head<'a> {
    /// What is asked for: a length to quote, or the lengths of a set.
    pub asked: Option<Asked>,
    pub kind: Option<Link>,
    /// The line from ORDER, or the numbers, on.
    pub order: &'a str,
}

impl Head<'_> {
    pub fn of(line: &str) -> Head<'_> {
        let (asked, line) = asked(line).map_or((None, line), |(asked, rest)| (Some(asked), rest));
        let kind = first(line, kind_of);
        let (kind, order) = kind.map_or((None, line), |(kind, rest)| (Some(kind), rest));
        Head { asked, kind, order }
    }
}

/// What the first two words of a line ask for, and the line after them.
fn asked(line: &str) -> Option<(Asked, &str)> {
    let (word, rest) = line.split_once(' ')?;
    first(rest, |value| Asked::named(word, value))
}

/// What the first word of a line says, and the line after it.
fn first<T>(line: &str, says: impl Fn(&str) -> Option<T>) -> Option<(T, &str)> {
    let (word, rest) = line.split_once(' ')?;
    Some((says(word)?, rest))
}
