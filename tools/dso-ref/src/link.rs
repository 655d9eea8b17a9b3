//! The link itself: its kind, encoder, weight, and the check remainder of a
//! word.

use crate::poly;
use crate::questions::{self, Asked, Refusal};
use std::ops::Range;

/// What comes before a word and after it.
#[derive(Clone, Copy, Debug, PartialEq, Eq)]
pub enum Kind {
    /// The word's own end comes before its start: products are cyclic, and a
    /// walk of N steps ends in the state where it began, which may be any.
    TailBiting,
    /// v zeros on either side: products are ordinary, and a walk of N+v steps
    /// begins and ends at state 0.
    Terminated,
}

impl Kind {
    /// Both.
    pub const ALL: [Kind; 2] = [Kind::TailBiting, Kind::Terminated];

    /// The version of its records.
    pub const fn version(self) -> u64 {
        match self {
            Kind::TailBiting => 1,
            Kind::Terminated => 2,
        }
    }
}

/// A code and the kind of its link as the encoder takes them: no question is
/// asked before a call.
#[derive(Clone, Copy, Debug)]
pub struct Code<'a> {
    /// The version of its records, which says the kind.
    pub version: u64,
    /// The memory v.
    pub memory: usize,
    /// The length N.
    pub length: usize,
    /// The n generators.
    pub generators: &'a [u64],
}

impl<'a> Code<'a> {
    /// The code of these numbers.
    pub const fn of(kind: Kind, memory: usize, length: usize, generators: &'a [u64]) -> Code<'a> {
        Code {
            version: kind.version(),
            memory,
            length,
            generators,
        }
    }

    /// The kind of a right code's link.
    pub fn kind(&self) -> Kind {
        questions::kind(self.version).expect("a right code")
    }

    /// The steps of the walk of a word of a right code.
    pub fn steps(&self) -> usize {
        match self.kind() {
            Kind::TailBiting => self.length,
            Kind::Terminated => self.length + self.memory,
        }
    }

    /// The states where walks of a right code begin and end, whose events are
    /// listed.
    pub fn homes(&self) -> Range<usize> {
        match self.kind() {
            Kind::TailBiting => 0..1 << self.memory,
            Kind::Terminated => 0..1,
        }
    }

    /// Questions 2, 3, 4, 5, 8, 9 and 16.
    fn ask(&self) -> Asked {
        questions::kind(self.version)?;
        questions::generator_count(self.generators.len())?;
        questions::memory(self.memory)?;
        questions::length(self.memory, self.length)?;
        questions::generators(self.memory, self.generators)
    }
}

/// The codeword of a word: n bits for each step, the first generator first,
/// each bit a byte. `room` is the size of the output that is to take it.
pub fn encode(code: Code, word: u128, room: usize) -> Result<Vec<u8>, Refusal> {
    code.ask()?;
    questions::codeword_room(room, code.generators.len(), code.steps())?;
    questions::below_power(word, code.length)?;
    let outputs: Vec<[u128; 2]> = outputs(code, word).collect();
    let put_out = |t| {
        outputs
            .iter()
            .map(move |out| poly::bit(out[t / 128], t % 128))
    };
    Ok((0..code.steps()).flat_map(put_out).collect())
}

/// The weight of a word: the number of ones in all n outputs.
pub fn weight(code: Code, word: u128) -> Result<u32, Refusal> {
    code.ask()?;
    questions::below_power(word, code.length)?;
    Ok(ones(code, word))
}

/// The same of a right code and word, without a question.
pub fn ones(code: Code, word: u128) -> u32 {
    let halves = outputs(code, word).flatten();
    halves.map(u128::count_ones).sum()
}

/// The output of each generator, its bits below 128 and those from there on.
fn outputs(code: Code<'_>, word: u128) -> impl Iterator<Item = [u128; 2]> + '_ {
    let kind = code.kind();
    code.generators.iter().map(move |&g| match kind {
        Kind::TailBiting => [poly::cyclic_product(word, g, code.length), 0],
        Kind::Terminated => poly::product(word, g),
    })
}

/// What stripping a word gives.
#[derive(Clone, Copy, Debug, PartialEq, Eq)]
pub enum Stripped {
    /// The message: the polynomial divides the word.
    Message(u128),
    /// The remainder, not zero.
    Remainder(u64),
}

/// The word of a message f: x^m f plus the remainder of x^m f.
pub fn append(length: usize, m: usize, p: u64, message: u128) -> Result<u128, Refusal> {
    ask_check(length, m, p)?;
    questions::below_power(message, length - m)?;
    let shifted = message << m;
    Ok(shifted ^ u128::from(poly::remainder(shifted, p)))
}

/// The message of a word, or the nonzero remainder.
pub fn strip(length: usize, m: usize, p: u64, word: u128) -> Result<Stripped, Refusal> {
    ask_check(length, m, p)?;
    questions::below_power(word, length)?;
    Ok(match poly::remainder(word, p) {
        0 => Stripped::Message(word >> m),
        rest => Stripped::Remainder(rest),
    })
}

/// Whether the polynomial divides the word.
pub fn divides(length: usize, m: usize, p: u64, word: u128) -> Result<bool, Refusal> {
    ask_check(length, m, p)?;
    questions::below_power(word, length)?;
    Ok(poly::divides(p, word))
}

/// Questions 5, 6 and 11 of a call that takes no code.
fn ask_check(length: usize, m: usize, p: u64) -> Asked {
    questions::length(1, length)?;
    questions::degree(m, length)?;
    questions::polynomial(p, m)
}

#[cfg(test)]
mod tests {
    use super::*;

    const S: Code = Code::of(Kind::TailBiting, 1, 4, &[1, 3]);

    #[test]
    fn hand_rows_of_append() {
        assert_eq!(append(4, 2, 0x7, 1), Ok(7));
        assert_eq!(append(4, 2, 0x5, 3), Ok(15));
    }

    #[test]
    fn messages_come_back() {
        for (length, m) in [(2, 1), (4, 2), (9, 3), (12, 11)] {
            for p in poly::candidates(m) {
                for f in 0..1u128 << (length - m) {
                    let word = append(length, m, p, f).unwrap();
                    assert_eq!(strip(length, m, p, word), Ok(Stripped::Message(f)));
                    let bad = strip(length, m, p, word ^ 1);
                    assert_eq!(bad, Ok(Stripped::Remainder(1)));
                    assert_eq!(divides(length, m, p, word), Ok(true));
                    assert_eq!(divides(length, m, p, word ^ 1), Ok(false));
                }
            }
        }
    }

    #[test]
    fn the_longest_messages_come_back() {
        for f in [
            0,
            1,
            1 << 115,
            (1 << 116) - 1,
            0x1234_5678_9ABC_DEF0_0FED_CBA9,
        ] {
            let word = append(128, 12, 0x1565, f).unwrap();
            assert_eq!(strip(128, 12, 0x1565, word), Ok(Stripped::Message(f)));
        }
        assert_eq!(append(128, 12, 0x1565, 1 << 116), Err(Refusal(12)));
    }

    #[test]
    fn check_calls_ask_in_order() {
        assert_eq!(append(0, 13, 0, !0), Err(Refusal(5)));
        assert_eq!(strip(129, 2, 0x5, 0), Err(Refusal(5)));
        assert_eq!(append(1, 1, 0x3, 0), Err(Refusal(6)));
        assert_eq!(append(4, 2, 0x6, 9), Err(Refusal(11)));
        assert_eq!(append(4, 2, 0xD, 0), Err(Refusal(11)));
        assert_eq!(append(4, 2, 0x5, 4), Err(Refusal(12)));
        assert_eq!(strip(4, 2, 0x5, 16), Err(Refusal(12)));
        assert_eq!(divides(4, 2, 0x5, 16), Err(Refusal(12)));
    }

    #[test]
    fn the_codeword_stands_step_by_step() {
        // Word 1: the first output is 1000, the second 1100.
        assert_eq!(encode(S, 1, 8).unwrap(), [1, 1, 0, 1, 0, 0, 0, 0]);
        assert_eq!(weight(S, 1), Ok(3));
        assert_eq!(weight(S, 5), Ok(6));
        assert_eq!(weight(S, 10), Ok(6));
        let all = Code::of(Kind::TailBiting, 8, 128, &[0o561, 0o753]);
        assert_eq!(encode(all, !0, 256).unwrap(), [1; 256]);
    }

    #[test]
    fn word_7_of_code_s() {
        let bits = |kind| encode(Code::of(kind, 1, 3, &[1, 3]), 7, 8).unwrap();
        // The outputs are 111 and 000; then 1110 and 1001.
        assert_eq!(bits(Kind::TailBiting), [1, 0, 1, 0, 1, 0]);
        assert_eq!(bits(Kind::Terminated), [1, 1, 1, 0, 1, 0, 0, 1]);
        let weight = |kind| weight(Code::of(kind, 1, 3, &[1, 3]), 7);
        assert_eq!(weight(Kind::TailBiting), Ok(3));
        assert_eq!(weight(Kind::Terminated), Ok(5));
    }

    #[test]
    fn the_longest_terminated_word() {
        let long = Code::of(Kind::Terminated, 8, 128, &[0o561, 0o753]);
        assert_eq!(long.steps(), 136);
        // The last bit alone: the generators, from step 127 on.
        let bits = encode(long, 1 << 127, 272).unwrap();
        assert!(bits[..254].iter().all(|&bit| bit == 0));
        let of = |g: u64, j: usize| (g >> j & 1) as u8;
        let tail: Vec<u8> = (0..9).flat_map(|j| [of(0o561, j), of(0o753, j)]).collect();
        assert_eq!(bits[254..], tail);
        assert_eq!(weight(long, 1 << 127), Ok(12));
        assert_eq!(encode(long, 0, 271), Err(Refusal(10)));
        assert_eq!(encode(long, 0, 272), Ok(vec![0; 272]));
    }

    #[test]
    fn the_kind_is_asked_about_first() {
        for version in [0, 3, 255, 1 << 32 | 1, u64::MAX] {
            let none = Code {
                version,
                memory: 0,
                length: 0,
                generators: &[0],
            };
            assert_eq!(encode(none, !0, 0), Err(Refusal(2)));
            assert_eq!(weight(Code { version, ..S }, 0), Err(Refusal(2)));
        }
    }

    #[test]
    fn encoder_calls_ask_in_order() {
        let none = Code::of(Kind::Terminated, 0, 0, &[0]);
        assert_eq!(encode(none, !0, 0), Err(Refusal(3)));
        let two = Code {
            generators: &[0, 0],
            ..none
        };
        assert_eq!(encode(two, !0, 0), Err(Refusal(4)));
        let short = Code::of(Kind::Terminated, 2, 1, &[0, 0]);
        assert_eq!(encode(short, !0, 0), Err(Refusal(5)));
        let zero = Code { length: 2, ..short };
        assert_eq!(weight(zero, !0), Err(Refusal(8)));
        let no_end = Code {
            generators: &[1, 3],
            ..zero
        };
        assert_eq!(weight(no_end, !0), Err(Refusal(9)));
        let shared = Code {
            generators: &[5, 3],
            ..zero
        };
        assert_eq!(weight(shared, !0), Err(Refusal(16)));
        assert_eq!(encode(shared, !0, 0), Err(Refusal(16)));
        assert_eq!(encode(S, 16, 7), Err(Refusal(10)));
        assert_eq!(encode(S, 16, 8), Err(Refusal(12)));
        assert_eq!(weight(S, 16), Err(Refusal(12)));
    }
}
