//! Reading an order from any bytes.

use crate::generators;
use crate::number;
use crate::random::Random;
use crate::tally::Tally;
use dohvrin::calls::{self, OrderAnswer};
use dohvrin::AnyOrder;
use dso_ref::link::Kind;
use dso_ref::order::record_bytes;
use dso_ref::Order;

pub fn read_order(inputs: u64) -> Tally {
    let mut random = Random::new(0x0DE8);
    let mut tally = Tally::of_links("read_order", &[1, 2, 3, 4, 5, 6, 7, 8, 9, 16]);
    for _ in 0..inputs {
        let bytes = right(&mut random);
        let (bytes, size) = damaged(&mut random, bytes);
        let plain = Order::from_record(&bytes[..size]).map_err(number);
        let expected = answer_of(&plain);
        let answer = calls::read_order(&bytes[..size]);
        let safe = dohvrin::Order::from_record(&bytes[..size]).map_err(|no| no.number());
        let same = answer == expected && safe == plain.map(order_of);
        tally.count_of(version_in(&bytes[..size]), expected.refusal, same, || {
            let shown = &bytes[..size.min(40)];
            format!("{shown:02X?} of {size}: library {answer:?} {safe:?}, second tool {expected:?}")
        });
    }
    tally
}

/// The version in a record that is long enough.
pub fn version_in(bytes: &[u8]) -> u64 {
    bytes.get(2).copied().unwrap_or(0).into()
}

fn answer_of(plain: &Result<Order, u64>) -> OrderAnswer {
    let order = match plain {
        Ok(order) => order,
        Err(refusal) => {
            return OrderAnswer {
                refusal: *refusal,
                ..OrderAnswer::default()
            };
        }
    };
    OrderAnswer {
        refusal: 0,
        order: any_of(order),
    }
}

/// Generators past the n-th are 0.
fn any_of(order: &Order) -> AnyOrder {
    let any = AnyOrder::new(
        order.generators(),
        order.memory() as u64,
        order.length() as u64,
        order.degree() as u64,
        order.threshold() as u64,
    );
    AnyOrder {
        version: order.kind().version(),
        ..any
    }
}

fn order_of(order: Order) -> dohvrin::Order {
    dohvrin::Order::of(any_of(&order)).expect("both accept it")
}

/// A right record or what became of it, and how many of the bytes are given;
/// the others stand behind those in memory and must not matter. One in sixteen
/// has generators with a common divisor, whatever else is wrong.
pub fn damaged(random: &mut Random, mut bytes: Vec<u8>) -> (Vec<u8>, usize) {
    let mut size = bytes.len();
    if random.within(0, 15) == 0 {
        share_factor(random, &mut bytes);
    }
    match random.within(0, 23) {
        0..=5 => {}
        6 => {
            bytes = any_bytes(random);
            size = bytes.len();
        }
        7 => bytes[random.index(size)] = random.byte(),
        8 => bytes[random.index(size)] ^= 1 << random.within(0, 7),
        9 => size = random.index(size),
        10 => {
            for _ in 0..=random.index(8) {
                bytes.push(random.byte());
            }
            size = bytes.len();
        }
        11 => bytes[1] = bytes[1].wrapping_add(random.pick(&[1, 2, 254, 255]) as u8),
        12 => bytes[0] = random.byte(),
        13 => {
            size = 2 + random.index(size - 2);
            set_length(&mut bytes, size);
        }
        14 => {
            bytes.resize(size + 1 + random.index(8), 0);
            size = bytes.len();
            set_length(&mut bytes, size);
        }
        15 => set_version(random, &mut bytes),
        16 => bytes[3] = random.within(0, 6) as u8,
        17 => bytes[4] = random.within(0, 12) as u8,
        18 => bytes[5] = random.within(0, 200) as u8,
        19 => bytes[6] = random.within(0, 20) as u8,
        20 => bytes[7] = random.pick(&[0, 1, 63, 64, 65, 66, 255]) as u8,
        21 => set_generator(random, &mut bytes),
        22 => clear_end(random, &mut bytes),
        _ => {
            if random.within(0, 63) == 0 {
                size = long(random, &mut bytes);
            }
        }
    }
    (bytes, size)
}

/// A version of no kind, or any, every other time with an n that is wrong too.
fn set_version(random: &mut Random, bytes: &mut [u8]) {
    bytes[2] = match random.coin() {
        true => random.wrong_version() as u8,
        false => random.byte(),
    };
    if random.coin() {
        bytes[3] = random.within(0, 6) as u8;
    }
}

/// Any bytes, every other time with the length and a version that are right.
fn any_bytes(random: &mut Random) -> Vec<u8> {
    let mut bytes: Vec<u8> = (0..random.index(40)).map(|_| random.byte()).collect();
    let size = bytes.len();
    if size > 2 && random.coin() {
        set_length(&mut bytes, size);
        bytes[2] = random.version() as u8;
    }
    bytes
}

fn right(random: &mut Random) -> Vec<u8> {
    let v = random.within(1, 8);
    let length = random.length(v.max(2));
    let m = random.within(1, 12.min(length - 1));
    let d = random.within(1, 64);
    record(random, [v, length, m, d])
}

/// The record of v, N, m and d, of either kind, with any right generators.
pub fn record(random: &mut Random, numbers: [u64; 4]) -> Vec<u8> {
    let [v, length, m, d] = numbers;
    let n = 2 + random.index(3);
    let generators = generators::right(random, v, n);
    let generators: Vec<u16> = generators.into_iter().map(|g| g as u16).collect();
    let numbers = [n as u8, v as u8, length as u8, m as u8, d as u8];
    let kind = Kind::ALL[random.index(2)];
    record_bytes(kind, numbers, &generators).expect("at most 4 generators")
}

/// Generators with a common divisor in a right record.
fn share_factor(random: &mut Random, bytes: &mut [u8]) {
    let (n, v) = (bytes[3], bytes[4]);
    let generators = generators::shared(random, v.into(), n.into());
    for (pair, g) in bytes[8..].chunks_exact_mut(2).zip(generators) {
        pair.copy_from_slice(&(g as u16).to_be_bytes());
    }
}

/// The length field of a record of `size` bytes in all.
fn set_length(bytes: &mut [u8], size: usize) {
    let length = ((size - 2) as u16).to_be_bytes();
    bytes[..2].copy_from_slice(&length);
}

/// One generator zero, too large or any.
fn set_generator(random: &mut Random, bytes: &mut [u8]) {
    let at = 8 + 2 * random.index((bytes.len() - 8) / 2);
    let any = random.next() as u16;
    let g = match random.within(0, 2) {
        0 => 0,
        1 => u16::from_be_bytes([bytes[at], bytes[at + 1]]) | 2 << bytes[4],
        _ => any,
    };
    bytes[at..at + 2].copy_from_slice(&g.to_be_bytes());
}

/// No generator with bit v, or none with bit 0.
fn clear_end(random: &mut Random, bytes: &mut [u8]) {
    let v = bytes[4];
    let (off, on) = if random.coin() {
        (1 << v, 1)
    } else {
        (1, 1 << v)
    };
    for pair in bytes[8..].chunks_exact_mut(2) {
        let g = u16::from_be_bytes([pair[0], pair[1]]) & !off | on;
        pair.copy_from_slice(&g.to_be_bytes());
    }
}

/// A record that its two length bytes can just count, or no more: there the
/// field is right modulo 2^16 alone.
fn long(random: &mut Random, bytes: &mut Vec<u8>) -> usize {
    let size = match random.within(0, 2) {
        0 => 2 + 0xFFFF,
        1 => 2 + 0x1_0000,
        _ => bytes.len() + 0x1_0000,
    };
    bytes.resize(size, 0);
    set_length(bytes, size);
    size
}
