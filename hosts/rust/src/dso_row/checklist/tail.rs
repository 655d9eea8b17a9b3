//! Point 3 of a terminated link: the zeros after the word. A list made for
//! tail-biting links, or without the zeros, has paths of other weights; whether
//! some must end in the zeros, the trellis says.

use super::{trellis, Paths};
use dohvrin::Order;
use std::io::{self, Write};

/// Whether all paths weigh what the list says, and the lightest of those that
/// end in the zeros is listed where it should be.
pub fn write(out: &mut impl Write, order: &Order, paths: &Paths) -> io::Result<bool> {
    let (v, steps) = (order.v(), order.steps());
    writeln!(
        out,
        "\n3. Paths weighed over {steps} steps, the last {v} of them zeros"
    )?;
    let (mut right, mut first) = (true, None);
    for (weight, part) in paths.weights() {
        let same = |path: &&u128| weighed(order, **path) == weight as u64;
        let found = part.iter().filter(same).count();
        let ends = |path: &&u128| **path >> (order.bits() - v) != 0;
        let count = part.iter().filter(ends).count();
        let example = part.iter().find(ends);
        let shown = example.map_or(String::new(), |path| format!(", such as {path:#X}"));
        let sign = if found == part.len() { "" } else { "DIFFERS: " };
        writeln!(
            out,
            "   {sign}weight {weight}: {found} of {}; end in the zeros: {count}{shown}",
            part.len()
        )?;
        right = right && found == part.len();
        first = first.or(example.map(|_| weight as u64));
    }
    let such = "word that ends in the zeros";
    let listed = trellis::write_lightest(out, order, such, lightest(order), first)?;
    Ok(right && listed)
}

/// The weight of a word, walked from state 0 bit by bit, and through the zeros.
fn weighed(order: &Order, word: u128) -> u64 {
    let (mut window, mut rest, mut weight) = (0, word, 0);
    for _ in 0..order.steps() {
        window = (window << 1 | (rest & 1) as u64) & ((2 << order.v()) - 1);
        rest >>= 1;
        weight += trellis::step_weight(order, window);
    }
    weight
}

/// The least weight of a walk that is not at state 0 when the zeros begin.
fn lightest(order: &Order) -> u64 {
    let mut least = trellis::at(order, 0);
    for _ in 0..order.bits() {
        least = trellis::step(order, &least, |_| true);
    }
    least[0] = None;
    for _ in 0..order.v() {
        least = trellis::step(order, &least, |window| window % 2 == 0);
    }
    least[0].expect("the last bit alone is such a word")
}

#[cfg(test)]
mod tests {
    use super::{lightest, weighed, write};
    use crate::checklist::Paths;
    use dohvrin::{AnyOrder, Link, Order};

    fn terminated(generators: &[u64], v: u64, bits: u64, d: u64) -> Order {
        let any = AnyOrder::new(generators, v, bits, 1, d);
        Order::of(any.with_link(Link::Terminated)).unwrap()
    }

    #[test]
    fn as_the_library_weighs() {
        for (generators, v, bits) in [([1, 3], 1, 4), ([5, 7], 2, 9), ([0o13, 0o17], 3, 10)] {
            let order = terminated(&generators, v, bits, 1);
            let weigh = |word| dohvrin::weigh(order.any(), word).unwrap();
            for word in 0..1 << bits {
                assert_eq!(weighed(&order, word), weigh(word));
            }
            let ending = 1 << (bits - v)..1 << bits;
            assert_eq!(ending.map(weigh).min(), Some(lightest(&order)));
        }
    }

    /// Code S, N = 3, d = 6, with these lists for weights 3, 4 and 5.
    fn said(lists: [&[u128]; 3]) -> (bool, String) {
        // Weights 1 and 2.
        let none = [&[][..]; 2];
        let paths = Paths {
            link: Link::Terminated,
            bits: 3,
            by_weight: none
                .iter()
                .chain(&lists)
                .map(|list| list.to_vec())
                .collect(),
        };
        let mut out = Vec::new();
        let fine = write(&mut out, &terminated(&[1, 3], 1, 3, 6), &paths).unwrap();
        (fine, String::from_utf8(out).unwrap())
    }

    #[test]
    fn a_list_of_another_kind_is_seen() {
        let (fine, text) = said([&[1, 2, 4], &[3, 6], &[7]]);
        assert!(fine);
        assert!(text.contains("weight 3: 3 of 3; end in the zeros: 1, such as 0x4\n"));
        // Tail-biting: 7 weighs 3, and 5 weighs 4.
        let (fine, text) = said([&[1, 2, 4, 7], &[3, 5, 6], &[]]);
        assert!(!fine);
        assert!(text.contains("DIFFERS: weight 3: 3 of 4; "));
        // Without the words that end in the zeros.
        let (fine, text) = said([&[1, 2], &[3], &[]]);
        assert!(!fine);
        assert!(text.contains("DIFFERS: by the trellis, the lightest word that ends"));
    }
}
