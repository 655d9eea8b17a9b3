//! An order that the library accepts.

use crate::refusal::accepted;
use crate::{calls, search, AnyOrder, Lent, Link, Refusal};

/// An order. There is none that questions 1 to 9, or 16, would refuse.
///
/// ```
/// use dohvrin::{Order, Refusal};
///
/// let order = Order::new(&[1, 3], 1, 4, 2, 6).unwrap();
/// assert_eq!(Order::from_record(&order.record()), Ok(order));
/// assert_eq!(Order::new(&[1, 4], 1, 4, 2, 6), Err(Refusal::Generator));
/// assert_eq!(Order::new(&[3, 3], 1, 4, 2, 6), Err(Refusal::SharedFactor));
/// ```
///
/// Without a word about it the link is tail-biting:
///
/// ```
/// use dohvrin::{weigh, AnyOrder, Link, Order};
///
/// let any = AnyOrder::new(&[1, 3], 1, 3, 2, 6);
/// let terminated = Order::of(any.with_link(Link::Terminated)).unwrap();
/// assert_eq!(terminated.link(), Link::Terminated);
/// assert_eq!(weigh(terminated.any(), 7), Ok(5));
/// assert_eq!(weigh(any, 7), Ok(3));
/// ```
#[derive(Clone, Debug, PartialEq, Eq)]
pub struct Order(AnyOrder);

impl AnyOrder {
    /// The order of these numbers, for a tail-biting link. Of more than four
    /// generators, which question 3 refuses, the first four are kept.
    pub fn new(generators: &[u64], v: u64, bits: u64, m: u64, d: u64) -> AnyOrder {
        let mut four = [0; 4];
        for (to, g) in four.iter_mut().zip(generators) {
            *to = *g;
        }
        AnyOrder {
            version: Link::TailBiting.version(),
            n: generators.len() as u64,
            v,
            bits,
            m,
            d,
            generators: four,
        }
    }
}

impl Order {
    /// The order of these numbers, for a tail-biting link, or the first question
    /// from 3 on that says no.
    pub fn new(generators: &[u64], v: u64, bits: u64, m: u64, d: u64) -> Result<Order, Refusal> {
        Order::of(AnyOrder::new(generators, v, bits, m, d))
    }

    /// The order, or the first question from 2 on that says no. The library is
    /// asked: with nothing lent, the search refuses a wrong order by its
    /// question, and a right one by question 10.
    pub fn of(mut order: AnyOrder) -> Result<Order, Refusal> {
        match search(order, Lent::nothing()) {
            Err(refusal) if refusal != Refusal::Room => Err(refusal),
            _ => {
                // As a record gives it, so that equal orders are equal.
                order.generators[order.n as usize..].fill(0);
                Ok(Order(order))
            }
        }
    }

    /// The order of a record, or the first question that says no.
    pub fn from_record(bytes: &[u8]) -> Result<Order, Refusal> {
        let answer = calls::read_order(bytes);
        accepted(answer.refusal)?;
        Ok(Order(answer.order))
    }

    /// The bytes of its record.
    pub fn record(&self) -> Vec<u8> {
        // No number of an accepted order is above 128, no generator above 2^9 - 1.
        let AnyOrder {
            version,
            n,
            v,
            bits,
            m,
            d,
            ..
        } = self.0;
        let mut bytes = vec![0, 6 + 2 * n as u8];
        bytes.extend([version, n, v, bits, m, d].map(|number| number as u8));
        let generators = self.generators().iter();
        bytes.extend(generators.flat_map(|&g| (g as u16).to_be_bytes()));
        bytes
    }

    /// The order as the calls take it.
    pub fn any(&self) -> AnyOrder {
        self.0
    }

    /// The kind of its link.
    pub fn link(&self) -> Link {
        Link::of(self.0.version).expect("question 2 passed it")
    }

    /// The n generators.
    pub fn generators(&self) -> &[u64] {
        &self.0.generators[..self.0.n as usize]
    }

    /// v, the memory.
    pub fn v(&self) -> u64 {
        self.0.v
    }

    /// N, the bits of a word.
    pub fn bits(&self) -> u64 {
        self.0.bits
    }

    /// The steps of a word: N, and v more on a terminated link.
    pub fn steps(&self) -> u64 {
        self.link().steps(self.0.v, self.0.bits)
    }

    /// m, the check degree.
    pub fn m(&self) -> u64 {
        self.0.m
    }

    /// d, the threshold on weights.
    pub fn d(&self) -> u64 {
        self.0.d
    }
}

#[cfg(test)]
mod tests {
    use super::Order;
    use crate::{AnyOrder, Link, Refusal};

    #[test]
    fn the_first_question_that_says_no() {
        let refused = |gs: &[u64], v, bits, m, d| Order::new(gs, v, bits, m, d).unwrap_err();
        assert_eq!(refused(&[], 0, 0, 0, 0), Refusal::GeneratorCount);
        assert_eq!(refused(&[1; 5], 1, 4, 2, 6), Refusal::GeneratorCount);
        assert_eq!(refused(&[1, 3], 9, 0, 0, 0), Refusal::Memory);
        assert_eq!(refused(&[1, 3], 1, 129, 0, 0), Refusal::WordLength);
        assert_eq!(refused(&[1, 3], 1, 4, 4, 0), Refusal::CheckDegree);
        assert_eq!(refused(&[1, 3], 1, 4, 2, 65), Refusal::Threshold);
        assert_eq!(refused(&[1, 4], 1, 4, 2, 6), Refusal::Generator);
        assert_eq!(refused(&[2, 2], 1, 4, 2, 6), Refusal::GeneratorEnds);
        assert_eq!(refused(&[3, 3], 1, 4, 2, 6), Refusal::SharedFactor);
        assert_eq!(refused(&[5, 3], 2, 4, 2, 6), Refusal::SharedFactor);
        assert_eq!(refused(&[1, 3], u64::MAX, 4, 2, 6), Refusal::Memory);
    }

    #[test]
    fn the_kind_is_asked_about_first() {
        let right = AnyOrder::new(&[1, 3], 1, 4, 2, 6);
        for version in [0, 3, 255, 1 << 32 | 1, u64::MAX] {
            let none = Err(Refusal::Version);
            assert_eq!(Order::of(AnyOrder { version, ..right }), none);
            let n = 0;
            assert_eq!(
                Order::of(AnyOrder {
                    version,
                    n,
                    ..right
                }),
                none
            );
        }
    }

    #[test]
    fn a_record_and_back() {
        for link in Link::ALL {
            let bytes = [0, 10, link.version() as u8, 2, 1, 4, 2, 6, 0, 1, 0, 3];
            let order = Order::from_record(&bytes).unwrap();
            let any = AnyOrder::new(&[1, 3], 1, 4, 2, 6).with_link(link);
            assert_eq!(Order::of(any), Ok(order.clone()));
            assert_eq!((order.link(), order.record()), (link, bytes.to_vec()));
            let large = AnyOrder::new(&[0o561, 0o753, 0o400, 1], 8, 128, 12, 64);
            let large = Order::of(large.with_link(link)).unwrap();
            assert_eq!(Order::from_record(&large.record()), Ok(large));
        }
    }

    #[test]
    fn generators_past_the_nth_make_no_difference() {
        let mut any = AnyOrder::new(&[1, 3], 1, 4, 2, 6);
        any.generators[2..].fill(7);
        assert_eq!(Order::of(any), Order::new(&[1, 3], 1, 4, 2, 6));
    }

    #[test]
    fn damaged_records() {
        assert_eq!(Order::from_record(&[]), Err(Refusal::RecordLength));
        assert_eq!(Order::from_record(&[0, 0]), Err(Refusal::Version));
        assert_eq!(Order::from_record(&[0, 1, 3]), Err(Refusal::Version));
        assert_eq!(Order::from_record(&[0, 1, 2]), Err(Refusal::GeneratorCount));
        assert_eq!(Order::from_record(&[0, 1, 1]), Err(Refusal::GeneratorCount));
    }
}
