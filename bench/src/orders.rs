//! The orders that are timed, and how many events and paths they have.

use crate::sets::Set;
use dohvrin::{AnyOrder, Link};
use dso_ref::link::Code;

#[derive(Clone, Copy)]
pub struct Order {
    pub link: Link,
    pub generators: [u64; 2],
    pub v: u64,
    pub bits: u64,
    pub m: u64,
    pub d: u64,
    pub events: usize,
    pub paths: usize,
}

impl Order {
    /// The order as the library takes it.
    pub fn given(&self) -> AnyOrder {
        AnyOrder::new(&self.generators, self.v, self.bits, self.m, self.d).with_link(self.link)
    }

    /// Its code, as plain Rust takes it.
    pub fn code(&self) -> Code<'_> {
        Code {
            version: self.link.version(),
            memory: self.v as usize,
            length: self.bits as usize,
            generators: &self.generators,
        }
    }

    /// The same order on a terminated link, where it has so many events and paths.
    const fn terminated(self, events: usize, paths: usize) -> Order {
        Order {
            link: Link::Terminated,
            events,
            paths,
            ..self
        }
    }
}

/// Document 000, Table I.
pub const TABLE_1: Order = order_13_17(70, 18, 15_852, 1_940_785);

/// Long words, of which nearly all bits are 0.
pub const LONG: Order = order_13_17(128, 15, 2_111, 333_056);

/// Document 004, Table II, m = 12.
pub const TABLE_2: Order = Order {
    link: Link::TailBiting,
    generators: [0o561, 0o753],
    v: 8,
    bits: 76,
    m: 12,
    d: 21,
    events: 5_079_947,
    paths: 882_816,
};

/// Both on a terminated link. In the second 89 polynomials detect all.
pub const TERMINATED: [Order; 2] = [
    TABLE_1.terminated(11_561, 1_627_283),
    TABLE_2.terminated(11_617, 673_899),
];

/// More states than 13, 17 and fewer events than 561, 753.
pub const MIDDLE: Order = Order {
    link: Link::TailBiting,
    generators: [0o133, 0o171],
    v: 6,
    bits: 70,
    m: 6,
    d: 14,
    events: 6_903,
    paths: 3_430,
};

pub const BY_N: [Order; 4] = [
    order_13_17(40, 14, 1_134, 23_780),
    order_13_17(70, 14, 1_134, 48_965),
    order_13_17(100, 14, 1_134, 80_450),
    order_13_17(128, 14, 1_134, 115_520),
];

pub const BY_D: [Order; 4] = [
    order_13_17(70, 12, 357, 7_000),
    order_13_17(70, 14, 1_134, 48_965),
    order_13_17(70, 16, 4_036, 324_240),
    TABLE_1,
];

/// An order, and the same one with a shorter length.
#[derive(Clone, Copy)]
pub struct Quote {
    pub long: Order,
    pub short: Order,
}

/// All events of the first are short enough for its row; of the second 8,807 of
/// 15,852 are, of the third 78,169 of 5,079,947.
pub const QUOTES: [Quote; 3] = [
    Quote {
        long: BY_N[3],
        short: BY_N[1],
    },
    Quote {
        long: TABLE_1,
        short: order_13_17(20, 18, 8_807, 225_866),
    },
    Quote {
        long: TABLE_2,
        short: Order {
            bits: 20,
            events: 78_169,
            paths: 655_649,
            ..TABLE_2
        },
    },
];

/// Eight lengths of several codes, and one.
pub const SETS: [Set; 7] = [
    Set {
        order: LONG,
        lengths: &[128, 112, 100, 88, 76, 64, 52, 40],
    },
    Set {
        order: MIDDLE,
        lengths: &[70, 64, 58, 52, 46, 40, 34, 28],
    },
    Set {
        order: Order { d: 16, ..TABLE_2 },
        lengths: &[76, 70, 64, 58, 52, 46, 40, 34],
    },
    Set {
        order: Order {
            d: 16,
            ..TERMINATED[0]
        },
        lengths: &[70, 64, 58, 52, 46, 40, 34, 28],
    },
    Set {
        order: TABLE_1,
        lengths: &[70],
    },
    Set {
        order: LONG,
        lengths: &[128],
    },
    Set {
        order: TABLE_2,
        lengths: &[76],
    },
];

const fn order_13_17(bits: u64, d: u64, events: usize, paths: usize) -> Order {
    Order {
        link: Link::TailBiting,
        generators: [0o13, 0o17],
        v: 3,
        bits,
        m: 6,
        d,
        events,
        paths,
    }
}
