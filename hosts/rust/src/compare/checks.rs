//! Appending, stripping and testing a remainder.

use crate::random::Random;
use crate::tally::Tally;
use crate::{number, size, word_answer};
use dohvrin::calls::{self, Answer};
use dso_ref::link;
use dso_ref::poly;

const ASKED: &[u64] = &[5, 6, 11, 12];

/// What the three calls take; `word` is a message for the first.
#[derive(Clone, Copy, Debug)]
struct Input {
    bits: u64,
    m: u64,
    polynomial: u64,
    word: u128,
}

pub fn append(inputs: u64) -> Tally {
    let mut random = Random::new(0xA99E4D);
    let mut tally = Tally::new("append", ASKED);
    for _ in 0..inputs {
        let i = draw(&mut random, true);
        let plain = link::append(size(i.bits), size(i.m), i.polynomial, i.word).map_err(number);
        let expected = word_answer(plain, |word| {
            let (low, high) = dohvrin::halves(word);
            Answer {
                low,
                high,
                ..Answer::default()
            }
        });
        let answer = calls::append(i.bits, i.m, i.polynomial, i.word);
        let safe = dohvrin::append(i.bits, i.m, i.polynomial, i.word).map_err(|no| no.number());
        let same = answer == expected && safe == plain;
        tally.count(expected.refusal, same, || {
            format!("{i:?}: library {answer:?} {safe:?}, second tool {expected:?}")
        });
    }
    tally
}

pub fn strip(inputs: u64) -> Tally {
    let mut random = Random::new(0x57819);
    let mut tally = Tally::new("strip", ASKED).with_kind("damaged");
    for _ in 0..inputs {
        let i = draw(&mut random, false);
        let plain = link::strip(size(i.bits), size(i.m), i.polynomial, i.word).map_err(number);
        let expected = word_answer(plain, |stripped| match stripped {
            link::Stripped::Message(message) => {
                let (low, high) = dohvrin::halves(message);
                Answer {
                    low,
                    high,
                    ..Answer::default()
                }
            }
            link::Stripped::Remainder(value) => Answer {
                value,
                ..Answer::default()
            },
        });
        let answer = calls::strip(i.bits, i.m, i.polynomial, i.word);
        let safe = dohvrin::strip(i.bits, i.m, i.polynomial, i.word).map_err(|no| no.number());
        let plain = plain.map(|stripped| match stripped {
            link::Stripped::Message(message) => dohvrin::Stripped::Message(message),
            link::Stripped::Remainder(rest) => dohvrin::Stripped::Damaged(rest),
        });
        let same = answer == expected && safe == plain;
        if expected.value != 0 {
            tally.count_kind("damaged");
        }
        tally.count(expected.refusal, same, || {
            format!("{i:?}: library {answer:?} {safe:?}, second tool {expected:?}")
        });
    }
    tally
}

pub fn test(inputs: u64) -> Tally {
    let mut random = Random::new(0x7E57);
    let mut tally = Tally::new("test", ASKED).with_kind("divisible");
    for _ in 0..inputs {
        let i = draw(&mut random, false);
        let plain = link::divides(size(i.bits), size(i.m), i.polynomial, i.word).map_err(number);
        let expected = word_answer(plain, |divides| Answer {
            value: u64::from(divides),
            ..Answer::default()
        });
        let answer = calls::test(i.bits, i.m, i.polynomial, i.word);
        let safe = dohvrin::test(i.bits, i.m, i.polynomial, i.word).map_err(|no| no.number());
        let same = answer == expected && safe == plain;
        if expected.value != 0 {
            tally.count_kind("divisible");
        }
        tally.count(expected.refusal, same, || {
            format!("{i:?}: library {answer:?} {safe:?}, second tool {expected:?}")
        });
    }
    tally
}

/// Half of the inputs are right; of the others most have one thing wrong.
fn draw(random: &mut Random, message: bool) -> Input {
    match random.within(0, 15) {
        0..=7 => right(random, message),
        8..=12 => damaged(random, message),
        13 | 14 => wild(random),
        _ => {
            let mut i = right(random, message);
            match random.within(0, 2) {
                0 => i.bits = random.huge(i.bits),
                1 => i.m = random.huge(i.m),
                _ => i.polynomial = random.huge(i.polynomial),
            }
            i
        }
    }
}

fn right(random: &mut Random, message: bool) -> Input {
    let bits = random.length(2);
    let m = random.within(1, 12.min(bits - 1));
    let polynomial = 1 << m | random.next() & ((1 << m) - 1) | 1;
    let mut word = random.word(bits - m);
    if !message {
        word = if random.within(0, 2) == 0 {
            random.word(bits)
        } else {
            whole(random, bits, m, polynomial, word)
        };
    }
    Input {
        bits,
        m,
        polynomial,
        word,
    }
}

/// A word that the polynomial divides, or one with a bit of it changed.
fn whole(random: &mut Random, bits: u64, m: u64, polynomial: u64, message: u128) -> u128 {
    let shifted = message << m;
    let word = shifted ^ u128::from(poly::remainder(shifted, polynomial));
    if random.within(0, 3) == 0 {
        word ^ 1 << random.within(0, bits - 1)
    } else {
        word
    }
}

fn damaged(random: &mut Random, message: bool) -> Input {
    let mut i = right(random, message);
    match random.within(0, 7) {
        0 => i.bits = random.pick(&[0, 1, 129, 130, 192, 200]),
        1 => i.bits = random.within(1, i.m),
        2 => i.m = random.pick(&[0, 13, 14, 20, 63, 64, 65, 128]),
        3 => i.m = random.within(0, 20),
        4 => i.polynomial &= !1,
        5 => i.polynomial ^= 1 << i.m,
        6 => i.polynomial |= 1 << random.within(i.m + 1, 63),
        _ => i.word = random.word_above(i.bits - if message { i.m } else { 0 }),
    }
    i
}

fn wild(random: &mut Random) -> Input {
    let m = random.within(0, 20);
    Input {
        bits: random.within(0, 200),
        m,
        polynomial: random.next() & ((1 << (m + 2)) - 1),
        word: random.word(128),
    }
}
