//! The weight of a word, and the encoder with its lent output.

use crate::generators;
use crate::random::Random;
use crate::tally::Tally;
use crate::{number, size, word_answer};
use dohvrin::calls::{self, Answer};
use dohvrin::{AnyOrder, Link};
use dso_ref::link::{self, Code};

/// The bytes of an output before a call, and those around it.
const FILL: u8 = 0xA5;
const GUARD: u8 = 0x3C;
const GUARDS: usize = 64;

/// The kind of words that are taken whatever m and d are.
const WRONG: &str = "with m and d wrong";

/// What a call takes of a code, and a word: the first n generators; the others
/// stand behind them in the order and must not matter. No more do m and d, where
/// a call does not ask about them.
#[derive(Clone, Copy, Debug)]
pub struct Input {
    /// The kind of link, or a number that is none.
    pub version: u64,
    pub generators: [u64; 4],
    pub n: u64,
    pub v: u64,
    pub bits: u64,
    pub unasked: Unasked,
    pub word: u128,
}

/// m and d for a call that asks for one of them or for none.
#[derive(Clone, Copy, Debug)]
pub struct Unasked {
    pub m: u64,
    pub d: u64,
}

impl Input {
    /// A right code of these generators, no check degree, no threshold, no word.
    pub fn of(link: Link, given: &[u64], v: u64, bits: u64) -> Input {
        let AnyOrder { n, generators, .. } = AnyOrder::new(given, v, bits, 0, 0);
        Input {
            version: link.version(),
            generators,
            n,
            v,
            bits,
            unasked: Unasked { m: 0, d: 0 },
            word: 0,
        }
    }

    /// The order as the library takes it.
    pub fn given(&self) -> AnyOrder {
        let Unasked { m, d } = self.unasked;
        AnyOrder {
            version: self.version,
            n: self.n,
            v: self.v,
            bits: self.bits,
            m,
            d,
            generators: self.generators,
        }
    }

    /// The same with a threshold, for a call that asks about it.
    pub fn below(&self, d: u64) -> AnyOrder {
        AnyOrder { d, ..self.given() }
    }

    /// The code as the second tool takes it.
    pub fn code(&self) -> Code<'_> {
        Code {
            version: self.version,
            memory: size(self.v),
            length: size(self.bits),
            generators: first(&self.generators, self.n),
        }
    }

    /// Whether a search would refuse the order for its m.
    pub fn wrong_degree(&self) -> bool {
        let m = self.unasked.m;
        !(1..=12).contains(&m) || m >= self.bits
    }

    /// Or for its d.
    pub fn wrong_threshold(&self) -> bool {
        !(1..=64).contains(&self.unasked.d)
    }
}

/// The first n of four generators, as the second tool takes them: more than four
/// are as wrong as none.
pub fn first(generators: &[u64; 4], n: u64) -> &[u64] {
    generators.get(..size(n)).unwrap_or(&[])
}

pub fn weigh(inputs: u64) -> Tally {
    let mut random = Random::new(0x3E16);
    let mut tally = Tally::of_links("weigh", &[2, 3, 4, 5, 8, 9, 16, 12]).with_kind(WRONG);
    for _ in 0..inputs {
        let i = draw(&mut random);
        let plain = link::weight(i.code(), i.word)
            .map(u64::from)
            .map_err(number);
        let expected = word_answer(plain, |value| Answer {
            value,
            ..Answer::default()
        });
        let answer = calls::weigh(i.given(), i.word);
        let safe = dohvrin::weigh(i.given(), i.word).map_err(|no| no.number());
        let same = answer == expected && safe == plain;
        if plain.is_ok() && i.wrong_degree() && i.wrong_threshold() {
            tally.count_kind(WRONG);
        }
        tally.count_of(i.version, expected.refusal, same, || {
            format!("{i:?}: library {answer:?} {safe:?}, second tool {expected:?}")
        });
    }
    tally
}

pub fn encode(inputs: u64) -> Tally {
    let mut random = Random::new(0xE4C0DE);
    let mut tally = Tally::of_links("encode", &[2, 3, 4, 5, 8, 9, 16, 10, 12]).with_kind(WRONG);
    for _ in 0..inputs {
        let i = draw(&mut random);
        let room = draw_room(&mut random, &i);
        let plain = link::encode(i.code(), i.word, room).map_err(number);
        let refusal = plain.as_ref().err().copied().unwrap_or(0);
        if plain.is_ok() && i.wrong_degree() && i.wrong_threshold() {
            tally.count_kind(WRONG);
        }
        let expected = output_after(plain.ok(), room);
        let before = 1 + random.index(GUARDS);
        let raw = |output: &mut [u8]| calls::encode(i.given(), i.word, output);
        let safe = |output: &mut [u8]| {
            let answer = dohvrin::encode(i.given(), i.word, output);
            answer.err().map_or(0, |no| no.number())
        };
        let (raw, safe) = (encoded(before, room, raw), encoded(before, room, safe));
        let expected = (refusal, guarded(before, &expected));
        let same = raw == expected && safe == expected;
        tally.count_of(i.version, refusal, same, || {
            format!("{i:?} room {room}: library {raw:?}, safe {safe:?}, second tool {expected:?}")
        });
    }
    tally
}

/// What a call answers, and what it leaves of an output of this size among
/// guard bytes.
fn encoded(before: usize, room: usize, call: impl Fn(&mut [u8]) -> u64) -> (u64, Vec<u8>) {
    let mut bytes = guarded(before, &vec![FILL; room]);
    let refusal = call(&mut bytes[before..before + room]);
    (refusal, bytes)
}

/// What a call must leave: the codeword and zeros, or the fill.
fn output_after(codeword: Option<Vec<u8>>, room: usize) -> Vec<u8> {
    match codeword {
        Some(mut bytes) => {
            bytes.resize(room, 0);
            bytes
        }
        None => vec![FILL; room],
    }
}

/// An output among guard bytes, `before` of them in front.
fn guarded(before: usize, output: &[u8]) -> Vec<u8> {
    let mut bytes = vec![GUARD; before];
    bytes.extend_from_slice(output);
    bytes.resize(before + output.len() + GUARDS, GUARD);
    bytes
}

/// None, one short, exact, longer, or any; or about what the other kind of link
/// takes, with v steps more or fewer.
fn draw_room(random: &mut Random, i: &Input) -> usize {
    let (n, v, bits) = (i.n.min(8), i.v.min(12), i.bits.min(200));
    let [tail_biting, terminated] = Link::ALL.map(|link| size(n * link.steps(v, bits)));
    let exact = match Link::of(i.version) {
        Some(Link::Terminated) => terminated,
        _ => tail_biting,
    };
    match random.within(0, 11) {
        0 => 0,
        1 => exact.saturating_sub(1),
        2..=5 => exact,
        6..=8 => exact + random.index(100),
        9 => random.index(600),
        10 => tail_biting + random.index(terminated - tail_biting + 1),
        _ => terminated + tail_biting - exact,
    }
}

/// Half of the inputs are right; of the others most have one thing wrong.
pub fn draw(random: &mut Random) -> Input {
    match random.within(0, 15) {
        0..=7 => right(random),
        8..=11 => damaged(random),
        12 => shared(random),
        13 | 14 => wild(random),
        _ => {
            let mut i = right(random);
            match random.within(0, 3) {
                0 => i.v = random.huge(i.v),
                1 => i.bits = random.huge(i.bits),
                2 => i.n = random.huge(i.n),
                _ => {
                    let g = &mut i.generators[random.index(size(i.n))];
                    *g = random.huge(*g);
                }
            }
            i
        }
    }
}

pub fn right(random: &mut Random) -> Input {
    let v = random.within(1, 8);
    let bits = random.length(v);
    let count = 2 + random.index(3);
    let mut generators = [0; 4];
    match random.coin() {
        true => generators.fill_with(|| random.huge(0)),
        false => generators.fill_with(|| random.within(1, (2 << v) - 1)),
    }
    generators[..count].copy_from_slice(&generators::right(random, v, count));
    let word = random.word(bits);
    Input {
        version: random.version(),
        generators,
        n: count as u64,
        v,
        bits,
        unasked: unasked(random, bits),
        word,
    }
}

/// Right for an order of words of so many bits, or each zero, too large or any.
fn unasked(random: &mut Random, bits: u64) -> Unasked {
    let most = 12.min(bits.saturating_sub(1)).max(1);
    let (m, d) = (random.within(1, most), random.within(1, 64));
    if random.coin() {
        return Unasked { m, d };
    }
    let mut wrong = |right: u64| match random.within(0, 3) {
        0 => 0,
        1 => random.within(65, 200),
        _ => random.huge(right),
    };
    Unasked {
        m: wrong(m),
        d: wrong(d),
    }
}

fn damaged(random: &mut Random) -> Input {
    let mut i = right(random);
    let given = size(i.n);
    let one = random.index(given);
    match random.within(0, 11) {
        10 => i.version = random.wrong_version(),
        // The version is asked about before all else.
        11 => (i.version, i.n) = (random.wrong_version(), random.within(0, 6)),
        0 => i.n = random.pick(&[0, 1, 5, 6]),
        1 => i.v = random.pick(&[0, 9, 10, 11, 12]),
        2 => i.bits = random.within(0, i.v - 1),
        3 => i.bits = random.within(129, 200),
        4 => i.generators[one] = 0,
        5 => i.generators[one] |= 2 << i.v,
        6 => i.generators[one] |= 1 << random.within(i.v + 1, 63),
        // No given generator has bit v, or none bit 0; those behind them may.
        7 => i.generators[..given]
            .iter_mut()
            .for_each(|g| *g = *g & !(1 << i.v) | 1),
        8 => i.generators[..given]
            .iter_mut()
            .for_each(|g| *g = *g & !1 | 1 << i.v),
        _ => i.word = random.word_above(i.bits),
    }
    i
}

/// A common divisor, every other time with another fault, which a question
/// before or after 16 asks about.
fn shared(random: &mut Random) -> Input {
    let mut i = right(random);
    let given = size(i.n);
    i.generators[..given].copy_from_slice(&generators::shared(random, i.v, given));
    let one = random.index(given);
    match random.within(0, 11) {
        0 => i.generators[one] = 0,
        1 => i.generators[one] <<= i.v + 1,
        // One is too large, and none has bit 0.
        2 => i.generators[..given].iter_mut().for_each(|g| *g <<= 1),
        // None has bit v.
        3 => (i.v, i.bits) = (8.min(i.v + 1), i.bits.max(8)),
        4 => i.bits = random.within(129, 200),
        5 | 6 => i.word = random.word_above(i.bits),
        _ => {}
    }
    i
}

fn wild(random: &mut Random) -> Input {
    let v = random.within(0, 12);
    let bits = random.within(0, 200);
    let mut generators = [0; 4];
    for g in &mut generators {
        *g = random.within(0, (2 << v) + 1);
    }
    Input {
        version: random.within(0, 3),
        generators,
        n: random.within(0, 6),
        v,
        bits,
        unasked: unasked(random, bits),
        word: random.word(128),
    }
}
