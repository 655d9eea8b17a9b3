//! The search for the best check polynomial, after the listing. A word passes
//! the check where it has an even number of ones at the places of each of m
//! rows; a candidate is left at the first weight where it counts more than the
//! best so far.

use super::paths::list;
use dohvrin::Event;
use dso_ref::link::Code;
use std::cmp::Ordering;

/// What a search finds.
#[derive(Debug, PartialEq, Eq)]
pub struct Best {
    /// The smallest with the best counts.
    pub polynomial: u64,
    /// How many have them.
    pub shared: u64,
}

/// The best polynomial of degree m: its counts are left in `undetected`; the other
/// tables are as `list` leaves them. Nothing where a table is too small.
pub fn search(
    code: Code,
    m: u64,
    d: u64,
    events: &mut [Event],
    paths: &mut [u128],
    plain: &mut [u64],
    undetected: &mut [u64],
) -> Option<Best> {
    list(code, d, events, paths, plain)?;
    // No candidate counts as many.
    undetected.fill(u64::MAX);
    let mut best = Vec::new();
    for p in (1 << m..2 << m).filter(|p| p % 2 == 1) {
        let rows = check_rows(code.length, m, p);
        match improve(&rows[..m as usize], paths, plain, undetected) {
            Ordering::Less => best = vec![p],
            Ordering::Equal => best.push(p),
            Ordering::Greater => {}
        }
    }
    Some(Best {
        polynomial: *best.first()?,
        shared: best.len() as u64,
    })
}

/// Bit j of row i is bit i of x^j modulo p.
fn check_rows(bits: usize, m: u64, p: u64) -> [u128; 12] {
    let mut rows = [0; 12];
    let mut power = 1;
    for j in 0..bits {
        for (i, row) in rows.iter_mut().enumerate() {
            *row |= u128::from(power >> i & 1) << j;
        }
        power <<= 1;
        if power >> m == 1 {
            power ^= p;
        }
    }
    rows
}

/// How a candidate's counts compare with the best so far; fewer ones take their
/// place, from the first weight where they differ on.
fn improve(rows: &[u128], paths: &[u128], plain: &[u64], undetected: &mut [u64]) -> Ordering {
    let mut outcome = Ordering::Equal;
    let mut rest = paths;
    for (&words, best) in plain.iter().zip(undetected) {
        let part;
        (part, rest) = rest.split_at(words as usize);
        let limit = match outcome {
            Ordering::Equal => *best,
            _ => u64::MAX,
        };
        let found = count_up_to(limit, rows, part);
        if found > limit {
            return Ordering::Greater;
        }
        if found < limit {
            outcome = Ordering::Less;
        }
        *best = found;
    }
    outcome
}

/// How many of the words pass, up to one more than the limit.
fn count_up_to(limit: u64, rows: &[u128], words: &[u128]) -> u64 {
    let mut found = 0;
    for &word in words {
        if passes(word, rows) {
            found += 1;
            if found > limit {
                break;
            }
        }
    }
    found
}

/// Whether a word has an even number of ones at every row. Four rows are looked
/// at together: that a word fails at one of four can nearly be foretold.
fn passes(word: u128, rows: &[u128]) -> bool {
    let odd = |row: &u128| oddness(word & row);
    let mut fours = rows.chunks_exact(4);
    fours.all(|four| four.iter().map(odd).sum::<u32>() == 0)
        && fours.remainder().iter().all(|row| odd(row) == 0)
}

/// The ones of a word, modulo 2: the halves are counted as one.
fn oddness(word: u128) -> u32 {
    let (low, high) = dohvrin::halves(word);
    (low ^ high).count_ones() % 2
}
