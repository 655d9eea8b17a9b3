//! An order as it is typed or printed, whatever its numbers are.

use dohvrin::{AnyOrder, Link, Order};
use std::fmt;

/// The names of the numbers before the generators.
const NAMES: [&str; 5] = ["n", "v", "N", "m", "d"];

#[derive(Clone, Debug, PartialEq, Eq)]
pub struct Numbers {
    link: Link,
    v: u64,
    bits: u64,
    m: u64,
    d: u64,
    generators: Vec<u64>,
}

impl Numbers {
    /// Reads n, v, N, m, d and n generators. The kind of link may stand before
    /// them, where it is not the one given here, and then ORDER. The error names
    /// what is wrong.
    pub fn read(words: &[&str], link: Link) -> Result<Numbers, String> {
        let (link, words) = match words.split_first() {
            Some((first, rest)) => kind_of(first).map_or((link, words), |kind| (kind, rest)),
            None => (link, words),
        };
        let words = words.strip_prefix(&["ORDER"]).unwrap_or(words);
        let mut numbers = [0; 5];
        for (place, name) in NAMES.iter().enumerate() {
            let word = words
                .get(place)
                .ok_or_else(|| format!("{name} is missing"))?;
            numbers[place] = digits(word, 10)
                .ok_or_else(|| format!("{word}: {name} is not a decimal number"))?;
        }
        let octal =
            |word: &&str| digits(word, 8).ok_or_else(|| format!("{word}: not an octal generator"));
        let generators: Vec<u64> = words[5..].iter().map(octal).collect::<Result<_, _>>()?;
        let [n, v, bits, m, d] = numbers;
        if n != generators.len() as u64 {
            return Err(format!(
                "n is {n}, but the generators are {}",
                generators.len()
            ));
        }
        Ok(Numbers {
            link,
            v,
            bits,
            m,
            d,
            generators,
        })
    }

    /// Reads one line.
    pub fn read_line(line: &str, link: Link) -> Result<Numbers, String> {
        Numbers::read(&line.split_whitespace().collect::<Vec<_>>(), link)
    }

    /// Those of an order.
    pub fn of(order: &Order) -> Numbers {
        Numbers {
            link: order.link(),
            v: order.v(),
            bits: order.bits(),
            m: order.m(),
            d: order.d(),
            generators: order.generators().to_vec(),
        }
    }

    /// The order as the calls take it.
    pub fn any(&self) -> AnyOrder {
        let any = AnyOrder::new(&self.generators, self.v, self.bits, self.m, self.d);
        any.with_link(self.link)
    }

    /// The kind of its link.
    pub fn link(&self) -> Link {
        self.link
    }

    /// What stands before its ORDER line in a list, since that line has no kind:
    /// nothing for a tail-biting link.
    pub fn kind_before(&self) -> String {
        match self.link {
            Link::TailBiting => String::new(),
            Link::Terminated => format!("{} ", self.link),
        }
    }

    /// The same numbers with this N.
    pub fn with_bits(&self, bits: u64) -> Numbers {
        Numbers {
            bits,
            ..self.clone()
        }
    }

    /// The same numbers for the other kind of link.
    pub fn for_other_link(&self) -> Numbers {
        Numbers {
            link: match self.link {
                Link::TailBiting => Link::Terminated,
                Link::Terminated => Link::TailBiting,
            },
            ..self.clone()
        }
    }
}

/// The kind of link that a word names.
pub fn kind_of(word: &str) -> Option<Link> {
    let named = |link: &Link| link.to_string() == word;
    Link::ALL.into_iter().find(named)
}

/// The ORDER line, which has no kind of link.
impl fmt::Display for Numbers {
    fn fmt(&self, f: &mut fmt::Formatter) -> fmt::Result {
        let n = self.generators.len();
        write!(
            f,
            "ORDER {n} {} {} {} {}",
            self.v, self.bits, self.m, self.d
        )?;
        self.generators.iter().try_for_each(|g| write!(f, " {g:o}"))
    }
}

/// One length, or several between commas.
pub fn lengths(value: &str) -> Option<Vec<u64>> {
    value.split(',').map(|word| digits(word, 10)).collect()
}

/// A number of digits alone: the parser of the language would take a sign.
pub fn digits(word: &str, radix: u32) -> Option<u64> {
    if word.starts_with('+') {
        return None;
    }
    u64::from_str_radix(word, radix).ok()
}
