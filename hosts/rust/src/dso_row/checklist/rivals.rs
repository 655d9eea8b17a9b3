//! Point 4: the next best polynomials, and where each of them loses. A choice
//! that was only good has one before it.

use super::remainders::Remainders;
use super::Paths;
use dohvrin::{Order, Row};
use std::io::{self, Write};

/// Rivals shown, and polynomials that share the best counts.
const RIVALS: usize = 5;
const SHARING: usize = 16;
/// Candidates that are ranked: the best, and its rivals.
const WANTED: usize = 1 + RIVALS;

/// A polynomial, and how many listed paths of each weight from 1 it divides.
struct Candidate {
    polynomial: u64,
    remainders: Remainders,
    counts: Vec<u64>,
}

/// What a row says of its polynomial.
#[derive(Clone, Copy, PartialEq, Eq)]
pub struct Choice<'a> {
    polynomial: u64,
    /// How many polynomials have its counts, it among them.
    shared: u64,
    undetected: &'a [u64],
}

impl Choice<'_> {
    pub fn of(row: &Row) -> Choice<'_> {
        Choice {
            polynomial: row.polynomial(),
            shared: row.shared(),
            undetected: row.undetected(),
        }
    }
}

/// Whether the paths give the same choice among these polynomials: the smallest of those with the best
/// counts, how many these are, and the counts.
pub fn write(
    out: &mut impl Write,
    order: &Order,
    who: &[u64],
    row: &Choice,
    paths: &Paths,
) -> io::Result<bool> {
    let ranked = ranked(order, who, paths);
    let counts = &ranked[0].counts;
    let sharing = ranked.partition_point(|candidate| candidate.counts == *counts);
    let (first, others) = ranked.split_at(sharing);
    let best = Choice {
        polynomial: first[0].polynomial,
        shared: first.len() as u64,
        undetected: counts,
    };
    let (p, unseen) = (best.polynomial, listed(counts));
    writeln!(out, "\n4. Rivals, of {} polynomials", who.len())?;
    writeln!(out, "   best by the listed paths: 0x{p:X}, {unseen}")?;
    if first.len() > 1 {
        writeln!(out, "   and {}", more(&first[1..]))?;
    }
    if *row != best {
        let (p, shared, unseen) = (row.polynomial, row.shared, listed(row.undetected));
        writeln!(
            out,
            "   DIFFERS from the row: CRC 0x{p:X} {shared}, {unseen}"
        )?;
    }
    for rival in others.iter().take(RIVALS) {
        writeln!(out, "   {}", loss(rival, counts))?;
    }
    Ok(*row == best)
}

/// How many share the counts of the best, and the first of them.
fn more(sharing: &[Candidate]) -> String {
    let shown = sharing.iter().take(SHARING);
    let names: String = shown.map(|c| format!(" 0x{:X}", c.polynomial)).collect();
    let rest = if sharing.len() > SHARING { " .." } else { "" };
    format!("{} more with the same counts:{names}{rest}", sharing.len())
}

/// Where a rival loses.
fn loss(rival: &Candidate, best: &[u64]) -> String {
    let (p, counts) = (rival.polynomial, &rival.counts);
    let mut both = (1..).zip(counts.iter().zip(best));
    let (weight, (count, least)) = both.find(|(_, (a, b))| a != b).expect("it loses");
    let listed = listed(counts);
    format!("0x{p:X} loses at weight {weight}, {count} to {least}: {listed}")
}

/// The counts that are not 0, with their weights.
fn listed(counts: &[u64]) -> String {
    let some: Vec<String> = (1..)
        .zip(counts)
        .filter(|(_, &count)| count > 0)
        .map(|(weight, count)| format!("{count} at {weight}"))
        .collect();
    if some.is_empty() {
        return "nothing undetected".to_string();
    }
    format!("undetected {}", some.join(", "))
}

/// The best candidates, and all others with the same counts as the last of
/// them; those with the same counts in increasing order, which sorting keeps. At
/// each weight those are dropped that are not among the best so far.
fn ranked(order: &Order, who: &[u64], paths: &Paths) -> Vec<Candidate> {
    let mut alive = candidates(order, who);
    for part in &paths.by_weight {
        count(&mut alive, part);
        alive.sort_by(|one, other| one.counts.cmp(&other.counts));
        let worst = last_wanted(&alive);
        alive.retain(|candidate| candidate.counts <= worst);
    }
    alive
}

/// The counts of the last candidate that is wanted, of candidates in order.
fn last_wanted(alive: &[Candidate]) -> Vec<u64> {
    alive[alive.len().min(WANTED) - 1].counts.clone()
}

/// Counts the paths of one weight for candidates in order. Those at their end,
/// with the same counts so far, are counted only as far as they can be wanted.
fn count(alive: &mut [Candidate], part: &[u128]) {
    let worst = last_wanted(alive);
    let better = alive.partition_point(|candidate| candidate.counts < worst);
    let mut fewest = Vec::new();
    for (place, candidate) in alive.iter_mut().enumerate() {
        let bound = fewest.get(WANTED - 1 - better).copied();
        let counted = candidate
            .remainders
            .divided(part, bound.unwrap_or(part.len()));
        candidate.counts.push(counted as u64);
        if place >= better {
            let at = fewest.partition_point(|&other| other <= counted);
            fewest.insert(at, counted);
        }
    }
}

/// These polynomials, before the first weight.
fn candidates(order: &Order, who: &[u64]) -> Vec<Candidate> {
    who.iter()
        .map(|&polynomial| Candidate {
            polynomial,
            remainders: Remainders::new(polynomial, order.m(), order.bits()),
            counts: Vec::new(),
        })
        .collect()
}

#[cfg(test)]
mod tests {
    use super::{candidates, more, write, Choice};
    use crate::checklist::Paths;
    use crate::lengths::all_of_degree;
    use dohvrin::{Order, Tables};

    /// Whether a choice is the one for code S with N = 4, and what is said of it.
    fn said(d: u64, polynomial: u64, shared: u64, undetected: &[u64]) -> (bool, String) {
        let order = Order::new(&[1, 3], 1, 4, 2, d).unwrap();
        let mut tables = Tables::with_entries(5, 13);
        tables.search(&order).unwrap();
        let choice = Choice {
            polynomial,
            shared,
            undetected,
        };
        let (mut out, paths) = (Vec::new(), Paths::of(&order, &tables));
        let who = all_of_degree(&order);
        let right = write(&mut out, &order, &who, &choice, &paths).unwrap();
        (right, String::from_utf8(out).unwrap())
    }

    #[test]
    fn a_wrong_choice_is_seen() {
        let counts = [0, 0, 0, 1, 0];
        let (right, text) = said(6, 0x5, 1, &counts);
        assert!(right && !text.contains("more") && !text.contains("DIFFERS"));
        for (polynomial, shared, counts, told) in [
            (0x7, 1, counts, "CRC 0x7 1, undetected 1 at 4"),
            (0x5, 2, counts, "CRC 0x5 2, undetected 1 at 4"),
            (0x5, 0, counts, "CRC 0x5 0, undetected 1 at 4"),
            (0x5, 1, [0; 5], "CRC 0x5 1, nothing undetected"),
        ] {
            let (right, text) = said(6, polynomial, shared, &counts);
            assert!(!right, "{told}");
            let expected = format!("\n   DIFFERS from the row: {told}\n");
            assert!(text.contains(&expected), "{text}");
        }
    }

    #[test]
    fn those_that_share_the_best_counts_are_named() {
        let counts = [0, 0, 0, 1];
        let (right, text) = said(5, 0x5, 2, &counts);
        assert!(right);
        let named = "0x5, undetected 1 at 4\n   and 1 more with the same counts: 0x7\n";
        assert!(text.ends_with(named), "{text}");
        // Not the smallest of them, one too few, one too many.
        for (polynomial, shared) in [(0x7, 2), (0x5, 1), (0x5, 3)] {
            let (right, text) = said(5, polynomial, shared, &counts);
            let differs = format!(" the row: CRC 0x{polynomial:X} {shared}, undetected 1 at 4\n");
            assert!(!right && text.ends_with(&differs), "{text}");
        }
    }

    #[test]
    fn the_first_of_many_are_named() {
        let order = Order::new(&[1, 3], 1, 8, 6, 1).unwrap();
        let mut tables = Tables::with_entries(1, 0);
        let row = tables.search(&order).unwrap();
        let (mut out, paths) = (Vec::new(), Paths::of(&order, &tables));
        let who = all_of_degree(&order);
        assert!(write(&mut out, &order, &who, &Choice::of(&row), &paths).unwrap());
        let text = String::from_utf8(out).unwrap();
        assert!(text.contains("best by the listed paths: 0x41, nothing undetected\n"));
        assert!(text.contains("\n   and 31 more with the same counts: 0x43 "));
        assert!(text.ends_with(" 0x61 ..\n"), "{text}");
        // As many as are named, and one more.
        let all = candidates(&order, &who);
        assert!(more(&all[..16]).ends_with(" 0x5F"));
        assert!(more(&all[..17]).ends_with(" 0x5F .."));
    }
}
