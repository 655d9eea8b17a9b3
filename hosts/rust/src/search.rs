//! The search for the best polynomial, of an order, of a shorter length or of a
//! set of lengths, the counts of one, and their texts.

use crate::refusal::accepted;
use crate::{calls, AnyOrder, Event, Refusal, RowAnswer};

/// The least bytes of a text buffer; no text has more.
pub const TEXT: usize = 4096;

/// What is lent to a search, a quote, a set or a count.
#[derive(Debug)]
pub struct Lent<'a> {
    pub events: &'a mut [Event],
    /// Two numbers a path.
    pub paths: &'a mut [u64],
    /// How many paths there are of each weight from 1: d - 1 entries at least.
    pub plain: &'a mut [u64],
    /// How many of them pass the check: as many entries.
    pub undetected: &'a mut [u64],
    /// `WORK` numbers at least.
    pub work: &'a mut [u64],
}

impl Lent<'_> {
    /// Tables of no entries: question 10 refuses them, after all that is asked
    /// about an order.
    pub(crate) fn nothing() -> Self {
        Lent {
            events: &mut [],
            paths: &mut [],
            plain: &mut [],
            undetected: &mut [],
            work: &mut [],
        }
    }

    /// The whole answer of `calls::search` with these.
    pub fn search(self, order: AnyOrder) -> RowAnswer {
        let (plain, undetected) = (self.plain, self.undetected);
        calls::search(order, self.events, self.paths, plain, undetected, self.work)
    }

    /// The same of `calls::quote`.
    pub fn quote(self, order: AnyOrder, bits: u64) -> RowAnswer {
        calls::quote(
            order,
            bits,
            self.events,
            self.paths,
            self.plain,
            self.undetected,
            self.work,
        )
    }

    /// The same of `calls::search_set`.
    pub fn search_set(self, order: AnyOrder, lengths: &[u64]) -> RowAnswer {
        calls::search_set(
            order,
            lengths,
            self.events,
            self.paths,
            self.plain,
            self.undetected,
            self.work,
        )
    }

    /// The same of `calls::count`.
    pub fn count(self, order: AnyOrder, polynomial: u64) -> RowAnswer {
        calls::count(
            order,
            polynomial,
            self.events,
            self.paths,
            self.plain,
            self.undetected,
            self.work,
        )
    }
}

/// The best check polynomial of degree m, by the paths of weight below d: the
/// smallest number of those with the best counts. The tables and `plain` are as
/// `list` leaves them; `undetected` says how many paths of each weight from 1 to
/// d - 1 pass the check of the polynomial, with zeros after them. Refusals 13 and
/// 14 leave zeros in all five; another refusal leaves all five as they were.
pub fn search(order: AnyOrder, lent: Lent) -> Result<RowAnswer, Refusal> {
    lent.search(order).accepted()
}

/// The same for the shorter length `bits`, from the events of a tail-biting
/// order: those are collected for its own N and left so, and all else is told
/// and left as `search` does for `bits`. Refusal 5: `bits` is above N, too; 13 is
/// about N, 14 is about `bits`.
///
/// ```
/// use dohvrin::{quote, AnyOrder, Event, Lent, WORK};
///
/// let order = AnyOrder::new(&[1, 3], 1, 4, 2, 6);
/// let (mut events, mut paths, mut work) = ([Event::default(); 5], [0; 14], vec![0; WORK]);
/// let (mut plain, mut undetected) = ([0; 5], [0; 5]);
/// let lent = Lent {
///     events: &mut events,
///     paths: &mut paths,
///     plain: &mut plain,
///     undetected: &mut undetected,
///     work: &mut work,
/// };
/// let row = quote(order, 3, lent).unwrap();
/// assert_eq!((row.events, row.paths), (4, 7));
/// assert_eq!((row.polynomial, row.shared), (0x5, 1));
/// assert_eq!(events.map(|event| event.length), [1, 2, 3, 4, 1]);
/// assert_eq!(plain, [0, 0, 4, 3, 0]);
/// ```
pub fn quote(order: AnyOrder, bits: u64, lent: Lent) -> Result<RowAnswer, Refusal> {
    lent.quote(order, bits).accepted()
}

/// One polynomial for all of these lengths, the longest first; the order's own is
/// not looked at. Each length in turn keeps those of the polynomials still left
/// whose first undetected weight is largest, and of those that the last one leaves
/// the best at the longest length is found. All is told and left as `search` does
/// for that length, but `shared` is of those left. Refusal 17: the lengths are not
/// 1 to 8, each below the one before; 5 is about every length, 6 about the
/// shortest, 13 about the longest, and 14 about every one.
///
/// ```
/// use dohvrin::{search_set, AnyOrder, Event, Lent, WORK};
///
/// let order = AnyOrder::new(&[1, 3], 1, 0, 2, 5);
/// let (mut events, mut paths, mut work) = ([Event::default(); 4], [0; 18], vec![0; WORK]);
/// let (mut plain, mut undetected) = ([0; 4], [0; 4]);
/// let lent = Lent {
///     events: &mut events,
///     paths: &mut paths,
///     plain: &mut plain,
///     undetected: &mut undetected,
///     work: &mut work,
/// };
/// // At 4 alone 0x7 is as good.
/// let row = search_set(order, &[4, 3], lent).unwrap();
/// assert_eq!((row.events, row.paths), (4, 9));
/// assert_eq!((row.polynomial, row.shared), (0x5, 1));
/// assert_eq!((plain, undetected), ([0, 0, 4, 5], [0, 0, 0, 1]));
/// ```
pub fn search_set(order: AnyOrder, lengths: &[u64], lent: Lent) -> Result<RowAnswer, Refusal> {
    lent.search_set(order, lengths).accepted()
}

/// The undetected counts of one polynomial, which question 11 asks for degree m
/// and constant term 1; all tables are left as `search` leaves them. The answer
/// has that polynomial, and `shared` is 0.
pub fn count(order: AnyOrder, polynomial: u64, lent: Lent) -> Result<RowAnswer, Refusal> {
    lent.count(order, polynomial).accepted()
}

/// The text of a row, as `dso` prints it, of any numbers: how many bytes of the
/// buffer it takes, with zeros after them. The text does not say the kind of
/// link. Only the version (2), the number of generators (3), d (7), and the sizes
/// are asked for (10: fewer counts than the d - 1 of the weights from 1, a buffer
/// below `TEXT`); a refusal leaves the buffer as it was. Of an answer with a
/// refusal in it the text is that of the refusal, and only the buffer is asked for.
pub fn row_text(
    order: AnyOrder,
    row: RowAnswer,
    plain: &[u64],
    undetected: &[u64],
    text: &mut [u8],
) -> Result<usize, Refusal> {
    let answer = calls::row_text(order, row, plain, undetected, text);
    accepted(answer.refusal)?;
    // Not more than the buffer has.
    Ok(answer.value as usize)
}

/// The text of a refusal, as `dso` prints it: how many bytes of the buffer it
/// takes, with zeros after them. The number may be any. Refusal 10, a buffer
/// below `TEXT`, leaves it as it was.
pub fn refusal_text(number: u64, text: &mut [u8]) -> Result<usize, Refusal> {
    let answer = calls::refusal_text(number, text);
    accepted(answer.refusal)?;
    // Not more than the buffer has.
    Ok(answer.value as usize)
}
