//! Point 3: paths that never pass state 0. A list that was made for codes that
//! are terminated has none of them; whether there must be some, the trellis
//! says.

use super::{trellis, Paths};
use dohvrin::Order;
use std::io::{self, Write};

/// Whether the lightest of them is listed where it should be.
pub fn write(out: &mut impl Write, order: &Order, paths: &Paths) -> io::Result<bool> {
    writeln!(out, "\n3. Paths that never pass state 0")?;
    let mut first = None;
    for (weight, part) in paths.weights() {
        let never = |path: &&u128| !passes_zero(**path, order.v() as u32, paths);
        let count = part.iter().filter(never).count();
        let example = part.iter().find(never);
        let shown = example.map_or(String::new(), |path| format!(", such as {path:#X}"));
        writeln!(out, "   weight {weight}: {count} of {}{shown}", part.len())?;
        first = first.or(example.map(|_| weight as u64));
    }
    trellis::write_lightest(out, order, "such word", lightest(order), first)
}

/// The least weight of a closed walk that is never in state 0.
fn lightest(order: &Order) -> u64 {
    let states = 1 << order.v();
    let from = |start| closed_walk(order, start);
    (1..states)
        .filter_map(from)
        .min()
        .expect("all ones is such a word")
}

/// The least weight of a walk from a state back to it, if there is one.
fn closed_walk(order: &Order, start: usize) -> Option<u64> {
    let mut least = trellis::at(order, start);
    let states = least.len();
    for _ in 0..order.bits() {
        least = trellis::step(order, &least, |window| window % states != 0);
    }
    least[start]
}

/// Whether v places in a row are zero, the first after the last: the bits of a
/// state are v places in a row.
fn passes_zero(word: u128, v: u32, paths: &Paths) -> bool {
    let (mut turn, mut ones) = (word, word);
    for _ in 1..v {
        turn = paths.turned(turn);
        ones |= turn;
    }
    ones != u128::MAX >> (128 - paths.bits)
}

#[cfg(test)]
mod tests {
    use super::{lightest, passes_zero};
    use crate::checklist::Paths;
    use dohvrin::{Link, Order};

    #[test]
    fn zeros_in_a_row() {
        let paths = |bits| Paths {
            link: Link::TailBiting,
            bits,
            by_weight: Vec::new(),
        };
        assert!(!passes_zero(7, 1, &paths(3)));
        assert!(passes_zero(5, 1, &paths(3)));
        assert!(!passes_zero(5, 2, &paths(3)));
        // Across the end: places 3 and 0 are zero.
        assert!(passes_zero(6, 2, &paths(4)));
        assert!(!passes_zero(5, 2, &paths(4)));
        assert!(!passes_zero(u128::MAX, 8, &paths(128)));
        assert!(passes_zero(u128::MAX >> 4 << 4, 4, &paths(128)));
    }

    #[test]
    fn lightest_of_all_words() {
        for (generators, v, bits) in [([1, 3], 1, 4), ([5, 7], 2, 9), ([0o13, 0o17], 3, 10)] {
            let order = Order::new(&generators, v, bits, 1, 1).unwrap();
            let paths = Paths {
                link: Link::TailBiting,
                bits: bits as u32,
                by_weight: Vec::new(),
            };
            let never = (1..1 << bits).filter(|&word| !passes_zero(word, v as u32, &paths));
            let weights = never.map(|word| dohvrin::weigh(order.any(), word).unwrap());
            assert_eq!(weights.min(), Some(lightest(&order)));
        }
    }
}
