//! One call of a search, a count, a quote or a set, with its five lent tables: what
//! it must answer and leave. Whole tables are compared, and what stands around them.

use crate::codes::Input;
use crate::guards::Guarded;
use crate::listed::{self, draw_counts, too_short, Tables};
use crate::paths;
use crate::random::Random;
use crate::tally::Tally;
use crate::{number, row_answer, size};
use dohvrin::{AnyOrder, RowAnswer, LENGTHS};
use dso_ref::quote::Quote;
use dso_ref::search::{best, Best, Counter};
use dso_ref::set::Set;
use dso_ref::{events, poly, questions, Order, Refusal};

/// One call: the order, what is asked for, and the sizes of what is lent.
#[derive(Clone, Copy, Debug)]
pub struct Call {
    pub input: Input,
    pub m: u64,
    pub d: u64,
    pub asked: Asked,
    pub lent: Sizes,
}

#[derive(Clone, Copy, Debug)]
pub enum Asked {
    /// The best polynomial.
    Best,
    /// The counts of this one.
    Of(u64),
    /// The best for this length, from the events for the order's.
    Quote(u64),
    /// The best for all of these lengths.
    Set(List),
}

/// Lengths, as many as a set may have or one more.
#[derive(Clone, Copy, Debug)]
pub struct List {
    lengths: [u64; LENGTHS + 1],
    many: usize,
}

impl List {
    pub fn of(given: &[u64]) -> List {
        let (mut lengths, many) = ([0; LENGTHS + 1], given.len());
        lengths[..many].copy_from_slice(given);
        List { lengths, many }
    }

    pub fn all(&self) -> &[u64] {
        &self.lengths[..self.many]
    }
}

/// The tables of a listing, and the undetected counts.
#[derive(Clone, Copy, Debug)]
pub struct Sizes {
    pub listing: listed::Sizes,
    pub undetected: usize,
}

impl Call {
    /// The order as the library takes it.
    fn given(&self) -> AnyOrder {
        AnyOrder {
            m: self.m,
            ..self.input.below(self.d)
        }
    }

    /// What the row is for: another length, where that is quoted, or the longest of
    /// a set.
    pub fn input_of_row(&self) -> Input {
        match self.asked {
            Asked::Quote(bits) => Input { bits, ..self.input },
            Asked::Set(list) => Input {
                bits: list.all().first().copied().unwrap_or(0),
                ..self.input
            },
            _ => self.input,
        }
    }

    /// The second tool's set of these lengths.
    pub fn set(&self, list: List) -> Result<Set, Refusal> {
        let lengths: Vec<usize> = list.all().iter().map(|&bits| size(bits)).collect();
        Set::new(self.input.code(), size(self.m), size(self.d), &lengths)
    }

    /// The order of the row, or the number of the first question before 13 that
    /// says no.
    pub fn order(&self) -> Result<Order, u64> {
        let (m, d) = (size(self.m), size(self.d));
        let code = self.input.code();
        let order = match self.asked {
            Asked::Quote(bits) => Quote::new(code, m, d, size(bits)).map(|quote| quote.short),
            Asked::Set(list) => self.set(list).map(|set| set.longest().clone()),
            _ => Order::new(code, m, d),
        };
        let asked = |order: Order| {
            questions::count_entries(self.lent.listing.counts, d)?;
            questions::count_entries(self.lent.undetected, d)?;
            questions::work_size(self.lent.listing.work)?;
            if let Asked::Of(p) = self.asked {
                questions::polynomial(p, m)?;
            }
            Ok::<_, Refusal>(order)
        };
        order.and_then(asked).map_err(number)
    }

    /// How many events the row has, where so many are in the table: for another
    /// length they are counted anew.
    pub fn told(&self, events: usize) -> usize {
        match (self.asked, self.order()) {
            (Asked::Quote(_), Ok(order)) => {
                events::count(&order, usize::MAX).expect("room for any")
            }
            _ => events,
        }
    }

    /// How many candidates have the best counts: 0 where the polynomial is given,
    /// and nobody is compared with it.
    fn shared(&self, best: &Best) -> u64 {
        match self.asked {
            Asked::Of(_) => 0,
            _ => best.who.len() as u64,
        }
    }

    /// The best counts, or those of the call's polynomial.
    pub fn best(&self, counter: &mut impl Counter) -> Best {
        let plain = counter.plain(size(self.d) - 1);
        match self.asked {
            Asked::Of(p) => best(counter, vec![p], &plain),
            _ => best(counter, poly::candidates(size(self.m)).collect(), &plain),
        }
    }
}

/// What is to be left: the tables with the counts and who has them, or what
/// the refusal leaves.
pub type Expected<'a> = Result<(&'a Tables, &'a Best), u64>;

/// What is left in the call's tables: question 10, then 13, then 14.
pub fn within<'a>(call: &Call, tables: &'a Tables, best: &'a Best) -> Expected<'a> {
    if call.lent.undetected < best.counts.len() {
        return Err(10);
    }
    let tables = tables.within(call.lent.listing)?;
    Ok((tables, best))
}

/// The call as C sees it, then the safe function.
pub fn compare(tally: &mut Tally, call: &Call, expected: Expected) {
    let told = expected.map(|(tables, best)| RowAnswer {
        refusal: 0,
        events: tables.told as u64,
        paths: tables.words.len() as u64,
        polynomial: best.smallest(),
        shared: call.shared(best),
    });
    let answer = row_answer(told);
    let mut lent = Lent::new(call.lent);
    let raw = lent.raw(call);
    let (raw_left, as_fresh) = (lent.is_left(expected), lent.is_fresh(call, raw));
    let (safe, safe_left) = Lent::new(call.lent).safe(call, expected);
    let same = raw == answer && safe == told && raw_left && safe_left && as_fresh;
    let lists = [call.lent.listing.counts, call.lent.undetected];
    tally.count_lists(answer.refusal, call.d, &lists);
    tally.count_shared(call.input.version, answer.shared);
    tally.count_of(call.input.version, answer.refusal, same, || {
        format!(
            "{call:?}: library {raw:?} {safe:?}, second tool {answer:?}, \
             memory as it should be: {raw_left} {safe_left}, as a search leaves it: {as_fresh}"
        )
    });
}

/// The five tables among guards.
struct Lent {
    listing: paths::Lent,
    undetected: Guarded<u64>,
}

impl Lent {
    fn new(lent: Sizes) -> Lent {
        Lent {
            listing: paths::Lent::new(lent.listing),
            undetected: Guarded::new(lent.undetected),
        }
    }

    fn lent(&mut self) -> dohvrin::Lent<'_> {
        dohvrin::Lent {
            events: self.listing.events.lent(),
            paths: self.listing.paths.lent(),
            plain: self.listing.counts.lent(),
            undetected: self.undetected.lent(),
            work: self.listing.work.lent(),
        }
    }

    fn raw(&mut self, call: &Call) -> RowAnswer {
        let order = call.given();
        match call.asked {
            Asked::Best => self.lent().search(order),
            Asked::Quote(bits) => self.lent().quote(order, bits),
            Asked::Set(list) => self.lent().search_set(order, list.all()),
            Asked::Of(polynomial) => self.lent().count(order, polynomial),
        }
    }

    /// Whether a search for the length of a quote, or for that of a set of one, with
    /// tables of the same sizes, answers and leaves the same. Of a quote the event
    /// table is another one, and it need not where that was refused by 13 or before.
    fn is_fresh(&self, call: &Call, answered: RowAnswer) -> bool {
        let (bits, quoted) = match (call.asked, answered.refusal) {
            (Asked::Quote(bits), 0 | 14) => (bits, true),
            (Asked::Set(list), _) if list.many == 1 => (list.lengths[0], false),
            _ => return true,
        };
        let mut fresh = Lent::new(call.lent);
        let order = AnyOrder {
            bits,
            ..call.given()
        };
        let answer = fresh.lent().search(order);
        let (ours, theirs) = (&self.listing, &fresh.listing);
        answer == answered
            && (quoted || ours.events == theirs.events)
            && ours.paths == theirs.paths
            && ours.counts == theirs.counts
            && self.undetected == fresh.undetected
            && ours.work == theirs.work
    }

    fn safe(mut self, call: &Call, expected: Expected) -> (Result<RowAnswer, u64>, bool) {
        let order = call.given();
        let answer = match call.asked {
            Asked::Best => dohvrin::search(order, self.lent()),
            Asked::Quote(bits) => dohvrin::quote(order, bits, self.lent()),
            Asked::Set(list) => dohvrin::search_set(order, list.all(), self.lent()),
            Asked::Of(polynomial) => dohvrin::count(order, polynomial, self.lent()),
        };
        (answer.map_err(|no| no.number()), self.is_left(expected))
    }

    /// Whether the call left what it should: the lists and zeros, zeros, or
    /// nothing changed; and in any case the guards.
    fn is_left(&self, expected: Expected) -> bool {
        let changed = matches!(expected, Ok(_) | Err(13 | 14));
        let best = expected.ok().map(|(_, best)| best);
        let undetected = |k: usize| best.and_then(|b| b.counts.get(k)).map(|&c| c as u64);
        self.listing.is_left(expected.map(|(tables, _)| tables))
            && self.undetected.is_left(changed, undetected)
    }
}

/// Tables that are exactly full.
pub fn full(tables: &Tables) -> Sizes {
    let listing = tables.sizes();
    Sizes {
        listing,
        undetected: listing.counts,
    }
}

/// The sizes of a listing's tables, with undetected counts enough or more; then
/// too few of those, alone and with tables too small.
pub fn draw_sizes(random: &mut Random, tables: &Tables, full: Sizes) -> Vec<Sizes> {
    let mut all = Vec::new();
    for listing in listed::draw_sizes(random, tables) {
        let more = random.pick(&[0, 0, 1, 30, 200]);
        all.push(Sizes {
            listing,
            undetected: full.undetected + size(more),
        });
    }
    for undetected in too_short(random, full.undetected) {
        all.push(Sizes { undetected, ..full });
        let mut small = Sizes { undetected, ..full };
        small.listing.events = 0;
        small.listing.paths = 0;
        all.push(small);
    }
    all
}

/// Order, counts and work area right or damaged; the sizes of the two other
/// tables come later.
pub fn draw(random: &mut Random) -> Call {
    let (input, d, listing) = listed::draw(random);
    let most = 12.min(input.bits.saturating_sub(1)).max(1);
    let m = match random.within(0, 31) {
        0 => random.pick(&[0, 13, 14, 64, 65, 128]),
        1 => random.huge(most),
        2 => input.bits.min(12),
        _ => random.within(1, most),
    };
    let undetected = draw_counts(random, d, 24);
    Call {
        input,
        m,
        d,
        asked: Asked::Best,
        lent: Sizes {
            listing,
            undetected,
        },
    }
}

/// One time in four a polynomial that is none of degree m.
pub fn draw_polynomial(random: &mut Random, m: u64) -> u64 {
    let m = m.min(20);
    match random.within(0, 3) {
        0 => wrong_polynomial(random, m),
        _ => right_polynomial(random, m),
    }
}

pub fn right_polynomial(random: &mut Random, m: u64) -> u64 {
    1 << m | random.next() & ((1 << m) - 1) | 1
}

/// An even one, one of another degree, or any.
pub fn wrong_polynomial(random: &mut Random, m: u64) -> u64 {
    let p = right_polynomial(random, m);
    match random.within(0, 5) {
        0 => p & !1,
        1 => p ^ 1 << m,
        2 => p ^ 3 << m,
        3 => p | 1 << random.within(m + 1, 63),
        4 => random.pick(&[0, 1, u64::MAX]),
        _ => random.huge(p) & !1,
    }
}
