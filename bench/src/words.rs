//! Calls on one word. A turn makes `CALLS` calls over the same words.

use crate::plain;
use crate::turns::{time, Turns};
use dohvrin::{AnyOrder, Link};
use dso_ref::link;
use std::fmt::Debug;
use std::hint::black_box;

pub const CALLS: usize = 8192;
const WORDS: usize = 256;

const POLYNOMIAL: u64 = 0x180F;
const DEGREE: u64 = 12;
/// The bytes of the longest codeword, of 128 bits on a tail-biting link.
const OUTPUT: usize = 256;

/// A code of two generators.
#[derive(Clone, Copy)]
struct Code {
    generators: &'static [u64; 2],
    memory: u64,
    link: Link,
}

/// The code where no other is named.
const USUAL: Code = Code {
    generators: &[0o13, 0o17],
    memory: 3,
    link: Link::TailBiting,
};

const TERMINATED: Code = Code {
    link: Link::Terminated,
    ..USUAL
};

/// With the longest memory.
const LONGEST: Code = Code {
    generators: &[0o561, 0o753],
    memory: 8,
    link: Link::TailBiting,
};

/// Each kind of call with its times.
pub fn all(turns: usize) -> [(&'static str, Turns); 11] {
    let m = DEGREE as usize;
    let test = |word| dohvrin::test(128, DEGREE, black_box(POLYNOMIAL), word).ok();
    let same = |word| plain::words::test(128, m, black_box(POLYNOMIAL), word).ok();
    let second = |word| link::divides(128, m, black_box(POLYNOMIAL), word).ok();
    [
        ("test, 128 bits, degree 12", race(turns, 128, test, same)),
        (
            "the same, beside the second tool's division by set bits",
            race(turns, 128, test, second),
        ),
        ("strip, 128 bits, degree 12", strip(turns)),
        ("append, 128 bits, degree 12", append(turns)),
        ("weigh, 70 bits", weigh(turns, USUAL, 70)),
        ("weigh, 128 bits", weigh(turns, USUAL, 128)),
        ("weigh, 128 bits, 561, 753", weigh(turns, LONGEST, 128)),
        ("encode, 70 bits", encode(turns, USUAL, 70)),
        ("encode, 128 bits", encode(turns, USUAL, 128)),
        ("weigh, 70 bits, terminated", weigh(turns, TERMINATED, 70)),
        ("encode, 70 bits, terminated", encode(turns, TERMINATED, 70)),
    ]
}

/// Of words that the polynomial divides.
fn strip(turns: usize) -> Turns {
    let m = DEGREE as usize;
    let whole = |message| plain::words::append(128, m, POLYNOMIAL, message).unwrap_or(0);
    race_over(
        turns,
        &words(128 - DEGREE)
            .into_iter()
            .map(whole)
            .collect::<Vec<_>>(),
        |word| dohvrin::strip(128, DEGREE, black_box(POLYNOMIAL), word).ok(),
        |word| plain::words::strip(128, m, black_box(POLYNOMIAL), word).ok(),
    )
}

fn append(turns: usize) -> Turns {
    race(
        turns,
        128 - DEGREE,
        |message| dohvrin::append(128, DEGREE, black_box(POLYNOMIAL), message).ok(),
        |message| {
            let m = DEGREE as usize;
            plain::words::append(128, m, black_box(POLYNOMIAL), message).ok()
        },
    )
}

fn weigh(turns: usize, code: Code, bits: u64) -> Turns {
    race(
        turns,
        bits,
        |word| dohvrin::weigh(given(code, bits), word).ok(),
        |word| {
            let weight = plain::words::weigh(same(code, bits), word);
            weight.ok().map(u64::from)
        },
    )
}

/// Into an output of just the codeword's size.
fn encode(turns: usize, code: Code, bits: u64) -> Turns {
    let size = 2 * code.link.steps(code.memory, bits) as usize;
    let (mut ours, mut theirs) = ([0; OUTPUT], [0; OUTPUT]);
    race(
        turns,
        bits,
        |word| {
            let answer = dohvrin::encode(given(code, bits), word, &mut ours[..size]);
            answer.is_ok().then_some(black_box(ours))
        },
        |word| {
            let answer = plain::words::encode(same(code, bits), word, &mut theirs[..size]);
            answer.is_ok().then_some(black_box(theirs))
        },
    )
}

/// The code as the library takes it, and as the second tool does.
fn given(code: Code, bits: u64) -> AnyOrder {
    let [g1, g2] = *black_box(code.generators);
    AnyOrder {
        version: code.link.version(),
        n: 2,
        v: code.memory,
        bits,
        m: DEGREE,
        d: 1,
        generators: [g1, g2, 0, 0],
    }
}

fn same(code: Code, bits: u64) -> link::Code<'static> {
    link::Code {
        version: code.link.version(),
        memory: code.memory as usize,
        length: bits as usize,
        generators: black_box(code.generators),
    }
}

/// Both over the same words of `bits` bits.
fn race<T: Debug + PartialEq>(
    turns: usize,
    bits: u64,
    library: impl FnMut(u128) -> T,
    plain: impl FnMut(u128) -> T,
) -> Turns {
    race_over(turns, &words(bits), library, plain)
}

/// Both over the same words, turn by turn.
fn race_over<T: Debug + PartialEq>(
    turns: usize,
    words: &[u128],
    mut library: impl FnMut(u128) -> T,
    mut plain: impl FnMut(u128) -> T,
) -> Turns {
    for &word in words {
        assert_eq!(library(word), plain(word), "{word:#x}");
    }
    let mut times = Turns::default();
    for _ in 0..turns {
        times.push(turn(words, &mut library), turn(words, &mut plain));
    }
    times
}

/// The nanoseconds of a call in one turn.
fn turn<T>(words: &[u128], call: &mut impl FnMut(u128) -> T) -> f64 {
    let (all, ()) = time(|| {
        for &word in words.iter().cycle().take(CALLS) {
            black_box(call(black_box(word)));
        }
    });
    all / CALLS as f64
}

/// Words of `bits` bits, the same in every run.
fn words(bits: u64) -> Vec<u128> {
    let mut state = 1u128;
    let next = |_| {
        state = state.wrapping_mul(0xDA94_2042_E4DD_58B5).wrapping_add(1);
        (state ^ state << 61) >> (128 - bits)
    };
    (0..WORDS).map(next).collect()
}
