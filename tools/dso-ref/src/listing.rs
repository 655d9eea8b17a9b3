//! The listing of paths as a call that takes no check degree: its questions,
//! the paths with their plain counts, and the part of one weight.

use crate::events;
use crate::link::Code;
use crate::paths;
use crate::questions::{self, Asked, Refusal};
use crate::row::plain_within;
use crate::table::Table;
use crate::weights;
use crate::words::Words;
use std::ops::Range;

/// The greatest length at which all words are taken one by one.
pub const LONGEST: usize = 18;

/// Questions 2, 3, 4, 5, 7, 8, 9, 16, and 10 about a work area of `work` numbers and
/// plain counts of `counts` entries.
pub fn ask(code: Code, threshold: usize, counts: usize, work: usize) -> Asked {
    events::ask(code, threshold, work)?;
    questions::count_entries(counts, threshold)
}

/// The paths of a right code: weight and number, ordered by weight, then
/// number. Refusal 14 where they are more than `capacity`.
///
/// All words are taken one by one, or, where they are too long for that, walks
/// from each start state, after a table has counted them.
pub fn list(code: Code, threshold: usize, capacity: usize) -> Result<Vec<(u32, u128)>, Refusal> {
    if code.length <= LONGEST {
        if let Some(words) = Words::of(code, threshold) {
            let paths = words.paths();
            questions::path_entries(capacity, paths.len())?;
            return Ok(paths);
        }
    }
    let mut table = Table::of(code, threshold);
    plain_within(&mut table, threshold, capacity)?;
    Ok(paths::list(&table, threshold))
}

/// How many paths of a right code weigh w, for each w from 1 below the threshold,
/// by the table. Refusal 14 where they are more than `capacity`.
pub fn plain(code: Code, threshold: usize, capacity: usize) -> Result<Vec<u128>, Refusal> {
    plain_within(&mut Table::of(code, threshold), threshold, capacity)
}

/// The plain counts of a list of paths.
pub fn counts_of(threshold: usize, paths: &[(u32, u128)]) -> Vec<u128> {
    let mut counts = vec![0; threshold - 1];
    for &(weight, _) in paths {
        counts[weights::entry(weight as usize)] += 1;
    }
    counts
}

/// The numbers of a path table, two a path, that hold the paths of one weight,
/// by counts of the weights from 1 that the caller gives; or refusal 10 where
/// there is no such count or the table ends before them.
pub fn part(numbers: usize, counts: &[u64], weight: u64) -> Result<Range<usize>, Refusal> {
    let counted = |weight: &usize| (1..=counts.len()).contains(weight);
    let weight = usize::try_from(weight).ok().filter(counted);
    let weight = weight.ok_or(Refusal(10))?;
    // 2^64 numbers of 64 bits do not pass 128 bits.
    let sum = |counts: &[u64]| counts.iter().map(|&c| u128::from(c)).sum::<u128>();
    let end = sum(&counts[..weight]);
    if end > numbers as u128 / 2 {
        return Err(Refusal(10));
    }
    let start = sum(&counts[..weights::entry(weight)]);
    Ok(2 * start as usize..2 * end as usize)
}

#[cfg(test)]
mod tests {
    use super::*;
    use crate::link::Kind;

    const S: Code = Code::of(Kind::TailBiting, 1, 4, &[1, 3]);

    #[test]
    fn the_hand_row_of_s() {
        let paths = list(S, 7, 15).unwrap();
        assert_eq!(paths.len(), 15);
        let of = |w: u32| -> Vec<u128> {
            let part = paths.iter().filter(|path| path.0 == w);
            part.map(|path| path.1).collect()
        };
        assert_eq!(of(3), [1, 2, 4, 8]);
        assert_eq!(of(6), [5, 10]);
        assert_eq!(list(S, 7, 14), Err(Refusal(14)));
        let counts = counts_of(7, &paths);
        assert_eq!(counts, [0, 0, 4, 5, 4, 2]);
        assert_eq!(counts, plain(S, 7, 15).unwrap());
        assert_eq!(plain(S, 7, 14), Err(Refusal(14)));
    }

    #[test]
    fn the_terminated_row_of_s() {
        let code = Code::of(Kind::Terminated, 1, 3, &[1, 3]);
        let paths = [(3, 1), (3, 2), (3, 4), (4, 3), (4, 6), (5, 7)];
        assert_eq!(list(code, 6, 6).unwrap(), paths);
        assert_eq!(list(code, 6, 5), Err(Refusal(14)));
        assert_eq!(plain(code, 6, 6).unwrap(), [0, 0, 3, 2, 1]);
    }

    #[test]
    fn questions_in_order() {
        assert_eq!(ask(S, 7, 6, 8192), Ok(()));
        assert_eq!(ask(S, 7, 5, 8192), Err(Refusal(10)));
        assert_eq!(ask(S, 7, 6, 8191), Err(Refusal(10)));
        assert_eq!(ask(S, 2, 0, 8192), Err(Refusal(10)));
        assert_eq!(ask(S, 0, 6, 0), Err(Refusal(7)));
        assert_eq!(ask(Code { version: 3, ..S }, 0, 6, 0), Err(Refusal(2)));
        let shared = Code {
            generators: &[3, 3],
            ..S
        };
        assert_eq!(ask(shared, 7, 0, 0), Err(Refusal(16)));
    }

    #[test]
    fn no_weight_below_the_least_threshold() {
        assert_eq!(ask(S, 1, 0, 8192), Ok(()));
        for kind in Kind::ALL {
            let code = Code::of(kind, 1, 4, &[1, 3]);
            assert_eq!(list(code, 1, 0), Ok(vec![]));
            assert_eq!(plain(code, 1, 0), Ok(vec![]));
        }
    }

    #[test]
    fn parts_of_tables() {
        let no = Err(Refusal(10));
        let counts = [0, 0, 4, 5, 4, 2];
        assert_eq!(part(30, &counts, 6), Ok(26..30));
        assert_eq!(part(31, &counts, 6), Ok(26..30));
        assert_eq!(part(29, &counts, 6), no);
        // The paths of the heavier weights may be missing.
        assert_eq!(part(29, &counts, 5), Ok(18..26));
        assert_eq!(part(30, &counts, 1), Ok(0..0));
        assert_eq!(part(8, &counts, 3), Ok(0..8));
        assert_eq!(part(0, &[0], 1), Ok(0..0));
        assert_eq!(part(0, &[1, 0], 2), no);
        let wraps = [u64::MAX, 1, 0];
        assert_eq!(part(30, &wraps, 3), no);
    }

    #[test]
    fn weights_that_have_no_count() {
        for weight in [0, 7, 1 << 32 | 6, u64::MAX] {
            let counts = [0, 0, 4, 5, 4, 2];
            assert_eq!(part(30, &counts, weight), Err(Refusal(10)), "{weight}");
            assert_eq!(part(30, &[], weight), Err(Refusal(10)), "{weight}");
        }
    }
}
