//! The order and its record.

use crate::link::{Code, Kind};
use crate::poly;
use crate::questions::{self, Asked, Refusal};

/// An order that has passed questions 2 to 9 and 16.
#[derive(Clone, Debug, PartialEq, Eq)]
pub struct Order {
    kind: Kind,
    memory: usize,
    length: usize,
    degree: usize,
    threshold: usize,
    generators: Vec<u64>,
}

impl Order {
    /// Asks questions 2 to 9 and 16 about a code, m and d.
    pub fn new(code: Code, degree: usize, threshold: usize) -> Result<Order, Refusal> {
        let kind = questions::kind(code.version)?;
        questions::generator_count(code.generators.len())?;
        questions::memory(code.memory)?;
        questions::length(code.memory, code.length)?;
        questions::degree(degree, code.length)?;
        questions::threshold(threshold)?;
        questions::generators(code.memory, code.generators)?;
        Ok(Order {
            kind,
            memory: code.memory,
            length: code.length,
            degree,
            threshold,
            generators: code.generators.to_vec(),
        })
    }

    /// Asks questions 1 to 9 and 16 about the bytes of a record.
    pub fn from_record(bytes: &[u8]) -> Result<Order, Refusal> {
        let body = body_of(bytes)?;
        let version = *body.first().ok_or(Refusal(2))?;
        let kind = questions::kind(version.into())?;
        check_count(body)?;
        let number = |at: usize| usize::from(body[at]);
        let generators: Vec<u64> = body[6..]
            .chunks_exact(2)
            .map(|pair| u64::from(u16::from_be_bytes([pair[0], pair[1]])))
            .collect();
        let code = Code::of(kind, number(2), number(3), &generators);
        Order::new(code, number(4), number(5))
    }

    /// The kind of its link.
    pub fn kind(&self) -> Kind {
        self.kind
    }

    /// The memory v.
    pub fn memory(&self) -> usize {
        self.memory
    }

    /// The length N.
    pub fn length(&self) -> usize {
        self.length
    }

    /// The check degree m.
    pub fn degree(&self) -> usize {
        self.degree
    }

    /// The threshold d.
    pub fn threshold(&self) -> usize {
        self.threshold
    }

    /// The generators, in the order's order.
    pub fn generators(&self) -> &[u64] {
        &self.generators
    }

    /// The candidates of its degree, in order.
    pub fn candidates(&self) -> Vec<u64> {
        poly::candidates(self.degree).collect()
    }

    /// Its code, as the calls take it.
    pub fn code(&self) -> Code<'_> {
        Code::of(self.kind, self.memory, self.length, &self.generators)
    }
}

/// Question 1: two bytes of length that count the bytes after them.
fn body_of(bytes: &[u8]) -> Result<&[u8], Refusal> {
    if bytes.len() < 2 {
        return Err(Refusal(1));
    }
    let (length, body) = bytes.split_at(2);
    if usize::from(u16::from_be_bytes([length[0], length[1]])) != body.len() {
        return Err(Refusal(1));
    }
    Ok(body)
}

/// Question 3 in a record, where n is a byte of its own.
fn check_count(body: &[u8]) -> Asked {
    let n = usize::from(*body.get(1).ok_or(Refusal(3))?);
    questions::generator_count(n)?;
    if body.len() != 6 + 2 * n {
        return Err(Refusal(3));
    }
    Ok(())
}

/// The record of a link with n, v, N, m, d and any generators, right or not;
/// nothing where its length does not fit into 2 bytes.
pub fn record_bytes(kind: Kind, numbers: [u8; 5], generators: &[u16]) -> Option<Vec<u8>> {
    let length = u16::try_from(6 + 2 * generators.len()).ok()?;
    let mut bytes = length.to_be_bytes().to_vec();
    bytes.push(kind.version() as u8);
    bytes.extend_from_slice(&numbers);
    for g in generators {
        bytes.extend_from_slice(&g.to_be_bytes());
    }
    Some(bytes)
}

#[cfg(test)]
mod tests {
    use super::*;

    const ROW: [u8; 12] = [0, 10, 1, 2, 1, 4, 2, 6, 0, 1, 0, 3];

    #[test]
    fn the_record_of_document_01_is_read_and_written() {
        let order = Order::from_record(&ROW).unwrap();
        let kind = Kind::TailBiting;
        let code = Code::of(kind, 1, 4, &[1, 3]);
        assert_eq!(order, Order::new(code, 2, 6).unwrap());
        assert_eq!(record_bytes(kind, [2, 1, 4, 2, 6], &[1, 3]).unwrap(), ROW);
        assert_eq!(record_bytes(kind, [0; 5], &[0; 32_765]), None);
    }

    #[test]
    fn the_version_says_the_kind() {
        for version in 0..=255 {
            let mut bytes = ROW;
            bytes[2] = version;
            let read = Order::from_record(&bytes);
            match version {
                1 => assert_eq!(read.unwrap().kind(), Kind::TailBiting),
                2 => {
                    assert_eq!(read.unwrap().kind(), Kind::Terminated);
                    let numbers = [2, 1, 4, 2, 6];
                    let written = record_bytes(Kind::Terminated, numbers, &[1, 3]);
                    assert_eq!(written.unwrap(), bytes);
                }
                _ => assert_eq!(read, Err(Refusal(2))),
            }
            // Before n is looked at.
            bytes[3] = 0;
            let number = if (1..=2).contains(&version) { 3 } else { 2 };
            assert_eq!(Order::from_record(&bytes), Err(Refusal(number)));
        }
    }

    #[test]
    fn a_record_cut_off_anywhere_is_refused_by_question_1() {
        for bytes in 0..ROW.len() {
            assert_eq!(Order::from_record(&ROW[..bytes]), Err(Refusal(1)));
        }
    }

    #[test]
    fn a_record_that_ends_early_is_refused_where_it_ends() {
        for after in 0..10u8 {
            let mut bytes = vec![0, after];
            bytes.extend_from_slice(&ROW[2..2 + usize::from(after)]);
            let number = if after == 0 { 2 } else { 3 };
            assert_eq!(Order::from_record(&bytes), Err(Refusal(number)));
        }
    }

    #[test]
    fn the_limits_of_questions_4_to_9_and_16() {
        let no = |v, length, m, d, g: &[u64]| {
            let [one, other] =
                Kind::ALL.map(
                    |kind| match Order::new(Code::of(kind, v, length, g), m, d) {
                        Ok(_) => 0,
                        Err(Refusal(number)) => number,
                    },
                );
            assert_eq!(one, other);
            one
        };
        assert_eq!(no(0, 4, 2, 6, &[1, 3]), 4);
        assert_eq!(no(9, 20, 2, 6, &[1, 3]), 4);
        assert_eq!(no(1, 128, 2, 6, &[1, 3]), 0);
        assert_eq!(no(1, 129, 2, 6, &[1, 3]), 5);
        assert_eq!(no(1, 0, 2, 6, &[1, 3]), 5);
        assert_eq!(no(1, 13, 12, 6, &[1, 3]), 0);
        assert_eq!(no(1, 12, 12, 6, &[1, 3]), 6);
        assert_eq!(no(1, 4, 0, 6, &[1, 3]), 6);
        assert_eq!(no(1, 4, 2, 64, &[1, 3]), 0);
        assert_eq!(no(1, 4, 2, 0, &[1, 3]), 7);
        assert_eq!(no(1, 4, 2, 65, &[1, 3]), 7);
        assert_eq!(no(1, 4, 2, 6, &[1, 4]), 8);
        assert_eq!(no(1, 4, 2, 6, &[2, 2]), 9);
        assert_eq!(no(1, 4, 2, 6, &[1, 1]), 9);
        assert_eq!(no(1, 4, 2, 6, &[3, 3]), 16);
        assert_eq!(no(2, 4, 2, 6, &[5, 3]), 16);
        assert_eq!(no(3, 4, 2, 6, &[0o13, 0o17]), 0);
        assert_eq!(no(1, 4, 2, 6, &[1]), 3);
    }
}
