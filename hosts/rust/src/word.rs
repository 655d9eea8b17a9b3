//! The calls on one word, which is a `u128`.

use crate::refusal::accepted;
use crate::{calls, AnyOrder, Refusal};

/// What stripping a word gives.
#[derive(Clone, Copy, Debug, PartialEq, Eq)]
pub enum Stripped {
    /// The message: the polynomial divides the word.
    Message(u128),
    /// The remainder, not zero.
    Damaged(u64),
}

/// The word of a message of `bits - m` bits: x^m f plus its remainder.
pub fn append(bits: u64, m: u64, polynomial: u64, message: u128) -> Result<u128, Refusal> {
    let answer = calls::append(bits, m, polynomial, message);
    accepted(answer.refusal)?;
    Ok(joined(answer.low, answer.high))
}

/// The message of a word of `bits` bits, or its nonzero remainder.
pub fn strip(bits: u64, m: u64, polynomial: u64, word: u128) -> Result<Stripped, Refusal> {
    let answer = calls::strip(bits, m, polynomial, word);
    accepted(answer.refusal)?;
    Ok(match answer.value {
        0 => Stripped::Message(joined(answer.low, answer.high)),
        rest => Stripped::Damaged(rest),
    })
}

/// Whether the polynomial divides a word of `bits` bits.
pub fn test(bits: u64, m: u64, polynomial: u64, word: u128) -> Result<bool, Refusal> {
    let answer = calls::test(bits, m, polynomial, word);
    accepted(answer.refusal)?;
    Ok(answer.value == 1)
}

/// The weight of a word. The order's m and d are not asked about.
pub fn weigh(order: AnyOrder, word: u128) -> Result<u64, Refusal> {
    let answer = calls::weigh(order, word);
    accepted(answer.refusal)?;
    Ok(answer.value)
}

/// The codeword of a word, n bits for each step, of which a terminated link has
/// v more, each a byte, and zeros to the end of the output. A refusal leaves the output as it was. The order's m and
/// d are not asked about.
pub fn encode(order: AnyOrder, word: u128, output: &mut [u8]) -> Result<(), Refusal> {
    accepted(calls::encode(order, word, output))
}

/// A word's low and high half.
pub fn halves(word: u128) -> (u64, u64) {
    (word as u64, (word >> 64) as u64)
}

/// The word of a low and a high half.
pub fn joined(low: u64, high: u64) -> u128 {
    u128::from(high) << 64 | u128::from(low)
}
