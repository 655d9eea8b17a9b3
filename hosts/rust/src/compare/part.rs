//! The part of one weight.

use crate::guards::Any;
use crate::number;
use crate::random::Random;
use crate::tally::Tally;
use dohvrin::calls::{self, Part};
use dso_ref::listing;

/// Kinds of weights, of which the first two are accepted.
const NOT_EMPTY: &str = "not empty";
const LAST: &str = "of the last weight";
const ZERO: &str = "of weight 0";
const AFTER: &str = "of the weight after the last";
const FAR: &str = "of weights far above";

/// Any counts, right ones and others, over small tables.
pub fn part(inputs: u64) -> Tally {
    let mut random = Random::new(0x9A87);
    let mut tally = Tally::new("part", &[10])
        .with_kind(NOT_EMPTY)
        .with_kind(LAST)
        .with_kind_of(10, ZERO)
        .with_kind_of(10, AFTER)
        .with_kind_of(10, FAR);
    for _ in 0..inputs {
        let paths: Vec<u64> = (0..random.index(80)).map(u64::any).collect();
        let counts = draw_counts(&mut random, paths.len() / 2);
        let weight = draw_weight(&mut random, counts.len() as u64);
        let plain = listing::part(paths.len(), &counts, weight).map_err(number);
        let expected = Part {
            refusal: plain.as_ref().err().copied().unwrap_or(0),
            start: plain.as_ref().map_or(0, |part| part.start as u64),
            numbers: plain.as_ref().map_or(0, |part| part.len() as u64),
        };
        let answer = calls::part(&paths, &counts, weight);
        let safe = dohvrin::part(&paths, &counts, weight).map_err(|no| no.number());
        let same = answer == expected && safe == plain.map(|part| &paths[part]);
        count_kinds(&mut tally, counts.len() as u64, weight, expected);
        tally.count(expected.refusal, same, || {
            format!(
                "{} numbers, {counts:?}, weight {weight}: \
                 library {answer:?} {safe:?}, second tool {expected:?}",
                paths.len()
            )
        });
    }
    tally
}

fn count_kinds(tally: &mut Tally, last: u64, weight: u64, expected: Part) {
    if expected.numbers > 0 {
        tally.count_kind(NOT_EMPTY);
    }
    match weight {
        0 => tally.count_kind(ZERO),
        _ if weight > last + 1 => tally.count_kind(FAR),
        _ if weight > last => tally.count_kind(AFTER),
        _ if weight == last && expected.refusal == 0 => tally.count_kind(LAST),
        _ => {}
    }
}

/// A weight that has a count, mostly; or 0, the last, the one after it, one far
/// above.
fn draw_weight(random: &mut Random, last: u64) -> u64 {
    match random.within(0, 15) {
        0 => 0,
        1 => last,
        2 => last + 1,
        3 => random.huge(last),
        _ => random.within(1, last.max(1)),
    }
}

/// Counts that fill a table of so many paths, or do not, or pass 64 bits.
fn draw_counts(random: &mut Random, paths: usize) -> Vec<u64> {
    let mut left = paths as u64;
    let mut counts = Vec::new();
    for _ in 0..random.index(20) {
        let count = random.within(0, left).min(random.within(0, 9));
        left -= count;
        counts.push(count);
    }
    if counts.is_empty() {
        return counts;
    }
    let one = random.index(counts.len());
    match random.within(0, 5) {
        0 => counts[one] += left,
        1 => counts[one] += left + 1,
        2 => counts[one] = random.huge(counts[one]),
        3 => {
            // The sum comes back to a small number, modulo 2^64.
            let other = random.index(counts.len());
            counts[one] = counts[one].wrapping_add(1 << 63);
            counts[other] = counts[other].wrapping_add(1 << 63);
        }
        _ => {}
    }
    counts
}
