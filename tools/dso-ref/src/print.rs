//! What `dso` prints, line for line.

use crate::events::Event;
use crate::order::Order;
use crate::questions::Refusal;
use crate::row::Row;
use crate::set::Left;
use std::fmt;

impl fmt::Display for Refusal {
    fn fmt(&self, f: &mut fmt::Formatter) -> fmt::Result {
        write!(f, "NO {}", self.0)
    }
}

impl fmt::Display for Order {
    fn fmt(&self, f: &mut fmt::Formatter) -> fmt::Result {
        write_order(f, numbers_of(self), self.generators())
    }
}

impl fmt::Display for Row {
    fn fmt(&self, f: &mut fmt::Formatter) -> fmt::Result {
        let printed = Printed {
            numbers: numbers_of(&self.order),
            generators: self.order.generators(),
            events: self.events,
            paths: self.paths,
            plain: &self.plain,
            undetected: &self.undetected,
            polynomial: self.polynomial,
            shared: self.shared,
        };
        printed.fmt(f)
    }
}

/// The numbers of a row, right or not: printing asks nothing.
#[derive(Clone, Copy, Debug)]
pub struct Printed<'a> {
    /// v, N, m and d.
    pub numbers: [usize; 4],
    /// The generators.
    pub generators: &'a [u64],
    /// How many events are listed.
    pub events: usize,
    /// How many paths are listed.
    pub paths: u128,
    /// Plain counts by weight, from 1.
    pub plain: &'a [u128],
    /// Undetected counts by weight, from 1.
    pub undetected: &'a [u128],
    /// The polynomial.
    pub polynomial: u64,
    /// How many share its counts.
    pub shared: usize,
}

impl fmt::Display for Printed<'_> {
    fn fmt(&self, f: &mut fmt::Formatter) -> fmt::Result {
        write_order(f, self.numbers, self.generators)?;
        writeln!(f, "\nEVENTS {}\nPATHS {}", self.events, self.paths)?;
        for (w, (plain, undetected)) in (1..).zip(self.plain.iter().zip(self.undetected)) {
            writeln!(f, "A {w} {plain} {undetected}")?;
        }
        write!(f, "CRC 0x{:X} {}", self.polynomial, self.shared)
    }
}

/// v, N, m and d.
fn numbers_of(order: &Order) -> [usize; 4] {
    [
        order.memory(),
        order.length(),
        order.degree(),
        order.threshold(),
    ]
}

fn write_order(f: &mut fmt::Formatter, numbers: [usize; 4], generators: &[u64]) -> fmt::Result {
    write!(f, "ORDER {}", generators.len())?;
    numbers.iter().try_for_each(|x| write!(f, " {x}"))?;
    generators.iter().try_for_each(|g| write!(f, " {g:o}"))
}

impl fmt::Display for Event {
    fn fmt(&self, f: &mut fmt::Formatter) -> fmt::Result {
        write!(
            f,
            "{} {} {} {}",
            self.state, self.length, self.weight, self.input
        )
    }
}

impl fmt::Display for Left {
    fn fmt(&self, f: &mut fmt::Formatter) -> fmt::Result {
        write!(f, "{} {} {}", self.length, self.first, self.many)
    }
}
