//! The calls on one word: the same questions, then the same steps.

use dohvrin::Stripped;
use dso_ref::link::{Code, Kind};
use dso_ref::questions::{self, Refusal};

/// The window that is kept: the state before a step, of at most eight bits, and
/// the bits of the word that are still to come.
#[derive(Clone, Copy)]
struct Window {
    state: u8,
    rest: u128,
}

impl Window {
    /// Before the first step: state 0 or, where the link bites its tail, what the
    /// last v bits leave.
    fn first(code: Code, kind: Kind, word: u128) -> Window {
        let Code {
            memory: v,
            length: n,
            ..
        } = code;
        let last = Window {
            state: 0,
            rest: word >> (n - v),
        };
        let state = match kind {
            Kind::TailBiting => (0..v).fold(last, |window, _| window.moved(v)).state,
            Kind::Terminated => 0,
        };
        Window { state, rest: word }
    }

    /// The inputs that the generators tap.
    fn inputs(self) -> u64 {
        2 * u64::from(self.state) + (self.rest & 1) as u64
    }

    /// One step later, where the state has v bits.
    fn moved(self, v: usize) -> Window {
        Window {
            state: (self.inputs() % (1 << v)) as u8,
            rest: self.rest >> 1,
        }
    }
}

/// The weight of a word: the ones of each step.
pub fn weigh(code: Code, word: u128) -> Result<u32, Refusal> {
    let kind = ask(code)?;
    questions::below_power(word, code.length)?;
    let mut window = Window::first(code, kind, word);
    let mut weight = 0;
    for _ in 0..code.steps() {
        let ones = |g: &u64| (g & window.inputs()).count_ones() % 2;
        weight += code.generators.iter().map(ones).sum::<u32>();
        window = window.moved(code.memory);
    }
    Ok(weight)
}

/// The codeword into the output, a step at a time, and zeros after it.
pub fn encode(code: Code, word: u128, output: &mut [u8]) -> Result<(), Refusal> {
    let generators = code.generators;
    let kind = ask(code)?;
    questions::codeword_room(output.len(), generators.len(), code.steps())?;
    questions::below_power(word, code.length)?;
    output.fill(0);
    let mut window = Window::first(code, kind, word);
    for (_, step) in (0..code.steps()).zip(output.chunks_exact_mut(generators.len())) {
        for (out, g) in step.iter_mut().zip(generators) {
            *out = (g & window.inputs()).count_ones() as u8 % 2;
        }
        window = window.moved(code.memory);
    }
    Ok(())
}

/// Whether the polynomial divides a word.
pub fn test(length: usize, m: usize, p: u64, word: u128) -> Result<bool, Refusal> {
    ask_check(length, m, p)?;
    questions::below_power(word, length)?;
    Ok(remainder(length, m, p, word) == 0)
}

/// The message of a word, or its remainder.
pub fn strip(length: usize, m: usize, p: u64, word: u128) -> Result<Stripped, Refusal> {
    ask_check(length, m, p)?;
    questions::below_power(word, length)?;
    Ok(match remainder(length, m, p, word) {
        0 => Stripped::Message(word >> m),
        rest => Stripped::Damaged(rest),
    })
}

/// The word of a message.
pub fn append(length: usize, m: usize, p: u64, message: u128) -> Result<u128, Refusal> {
    ask_check(length, m, p)?;
    questions::below_power(message, length - m)?;
    let shifted = message << m;
    Ok(shifted | u128::from(remainder(length, m, p, shifted)))
}

/// The register takes a bit at a time, the highest first.
fn remainder(length: usize, m: usize, p: u64, word: u128) -> u64 {
    (0..length).rev().fold(0, |r, t| {
        let s = 2 * r + (word >> t & 1) as u64;
        s ^ ((s >> m) * p)
    })
}

fn ask_check(length: usize, m: usize, p: u64) -> Result<(), Refusal> {
    questions::length(1, length)?;
    questions::degree(m, length)?;
    questions::polynomial(p, m)
}

fn ask(code: Code) -> Result<Kind, Refusal> {
    let kind = questions::kind(code.version)?;
    questions::generator_count(code.generators.len())?;
    questions::memory(code.memory)?;
    questions::length(code.memory, code.length)?;
    questions::generator_bits(code.memory, code.generators)?;
    match code.generators.iter().fold(0, |d, &g| gcd(d, g)) {
        1 => Ok(kind),
        _ => Err(Refusal(16)),
    }
}

/// The greatest common divisor of two polynomials, by Euclid's scheme.
fn gcd(mut a: u64, mut b: u64) -> u64 {
    while b != 0 {
        (a, b) = (b, rest(a, b));
    }
    a
}

/// What remains of a after division by b, which is not 0.
fn rest(mut a: u64, b: u64) -> u64 {
    while a.leading_zeros() <= b.leading_zeros() {
        a ^= b << (b.leading_zeros() - a.leading_zeros());
    }
    a
}
