//! Error events and paths, in tables that the caller lends.

use crate::refusal::accepted;
use crate::{calls, joined, AnyOrder, Event, Refusal, RowAnswer};

/// The least numbers of a work area.
pub const WORK: usize = 8192;

/// The entries of a list of counts that is long enough for every d: those of the
/// weights from 1 to 63.
pub const COUNTS: usize = 63;

/// The error events of weight below d, at most N steps long, or on a terminated
/// link those of state 0 alone, at most N+v steps long: how many, and nothing
/// else, is told. The table has them first, by state, length and input number, and
/// zero records after them; the work area, of `WORK` numbers at least, is zeros.
/// Refusal 13, more events than entries, leaves zeros in both; another refusal
/// leaves both as they were. The order's m is not asked about.
pub fn collect(
    order: AnyOrder,
    events: &mut [Event],
    work: &mut [u64],
) -> Result<RowAnswer, Refusal> {
    calls::collect(order, events, work).accepted()
}

/// The paths of weight below d, nonzero words of N bits, with the events that
/// they are joined of: how many there are of both is told. The path table has two
/// numbers for each path, its low half first, ordered by weight and number, and
/// zeros after them; `plain` says how many paths there are of each weight from
/// 1 to d - 1, with zeros after them; the event table is as `collect` leaves it;
/// the work area, of `WORK` numbers at least, is zeros. Refusals 13, more events
/// than entries, and 14, more paths than the table takes, leave zeros in all
/// four; another refusal leaves all four as they were. The order's m is not
/// asked about.
pub fn list(
    order: AnyOrder,
    events: &mut [Event],
    paths: &mut [u64],
    plain: &mut [u64],
    work: &mut [u64],
) -> Result<RowAnswer, Refusal> {
    calls::list(order, events, paths, plain, work).accepted()
}

/// The words of one weight in a path table, two numbers each, by the counts of
/// its paths of each weight from 1. Refusal 10: there is no count of that weight,
/// as of weight 0, or the table ends before the words that the counts tell of.
pub fn part<'a>(paths: &'a [u64], counts: &[u64], weight: u64) -> Result<&'a [u64], Refusal> {
    let answer = calls::part(paths, counts, weight);
    accepted(answer.refusal)?;
    let start = answer.start as usize;
    Ok(&paths[start..start + answer.numbers as usize])
}

/// The words of a path table, or of a part of it.
pub fn words(numbers: &[u64]) -> impl Iterator<Item = u128> + '_ {
    numbers.chunks_exact(2).map(|pair| joined(pair[0], pair[1]))
}

impl Event {
    /// The input number: the first input is bit 0.
    pub fn input(&self) -> u128 {
        joined(self.low, self.high)
    }
}
