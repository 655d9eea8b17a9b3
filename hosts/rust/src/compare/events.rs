//! The collection of error events, with its lent table and work area. Whole
//! tables are compared, and what stands around them.

use crate::codes::{self, Input};
use crate::guards::{entry_of, Guarded};
use crate::random::Random;
use crate::tally::Tally;
use crate::{number, row_answer, size};
use dohvrin::{calls, Event, Link, RowAnswer, WORK};
use dso_ref::events;

/// Entries of a table whose events the second tool lists for any order.
const ENTRIES: usize = 3000;
/// Steps that the second tool takes without a cut, at most: in a small order,
/// and in a large one.
const STEPS: usize = 1 << 17;
const MANY_STEPS: usize = 1 << 23;

/// One call: the code, the threshold, and the sizes of what is lent.
#[derive(Clone, Copy, Debug)]
struct Call {
    input: Input,
    d: u64,
    entries: usize,
    work: usize,
}

/// What the second tool says: the events to be listed, or a refusal.
type Expected<'a> = Result<&'a [dso_ref::Event], u64>;

/// Any inputs, right and damaged, of any length.
pub fn collect(inputs: u64) -> Tally {
    let mut random = Random::new(0xC011EC8);
    let mut tally =
        Tally::of_links("collect", &[2, 3, 4, 5, 7, 8, 9, 16, 10, 13]).with_kind("with m wrong");
    for _ in 0..inputs {
        let mut call = draw(&mut random);
        let code = call.input.code();
        let all = events::collect(code, size(call.d), ENTRIES, call.work).map_err(number);
        call.entries = draw_entries(&mut random, all.as_ref().map_or(ENTRIES, Vec::len));
        let plain = events::collect(code, size(call.d), call.entries, call.work).map_err(number);
        if plain.is_ok() && call.input.wrong_degree() {
            tally.count_kind("with m wrong");
        }
        compare(&mut tally, &call, plain.as_deref().map_err(|no| *no));
    }
    tally
}

/// Small orders, whose events the second tool finds without a cut, each with
/// tables exactly full, one short, empty, larger and far larger.
pub fn small_tables(orders: u64) -> Tally {
    let mut random = Random::new(0x5A11);
    let mut tally = Tally::of_links("small event tables", &[13]);
    let mut done = 0;
    while done < orders {
        let call = draw_small(&mut random);
        let code = call.input.code();
        if let Some(listed) = events::walked(code, size(call.d), STEPS) {
            let more = listed.len() + 1 + random.index(40);
            let tables = [listed.len(), listed.len() - 1, 0, more, 3 * more + 1000];
            compare_tables(&mut tally, &call, &listed, &tables);
            done += 1;
        }
    }
    tally
}

/// The large orders, whose numbers of events are stored here, each with tables
/// exactly full and one short.
pub fn large_tables(_: u64) -> Tally {
    let mut tally = Tally::of_links("large event tables", &[13]);
    let mut both = |generators: &[u64], v, bits, d, events: [usize; 2]| {
        for (link, events) in Link::ALL.into_iter().zip(events) {
            large(&mut tally, Input::of(link, generators, v, bits), d, events);
        }
    };
    both(&[0o13, 0o17], 3, 70, 18, [15_852, 11_561]);
    both(&[0o133, 0o171], 6, 70, 14, [6_903, 50]);
    both(&[0o133, 0o171, 0o165], 6, 64, 24, [19_301, 201]);
    // 1.5 billion walks without a cut: this list is the second tool's own cut one.
    both(&[0o561, 0o753], 8, 76, 21, [5_079_947, 11_617]);
    // Some have all 136 steps.
    let generators = &[0o401, 0o401, 0o401, 1];
    let longest = Input::of(Link::Terminated, generators, 8, 128);
    large(&mut tally, longest, 30, 84_199);
    tally
}

/// The second tool's list must have the stored number of events, each of them
/// walked once more, once and in order.
fn large(tally: &mut Tally, input: Input, d: u64, events: usize) {
    let call = Call {
        input,
        d,
        entries: 0,
        work: WORK,
    };
    let code = call.input.code();
    let listed = events::walked(code, size(d), MANY_STEPS)
        .or_else(|| events::collect(code, size(d), events, WORK).ok())
        .unwrap_or_default();
    let right = listed.len() == events && events::are_listed(code, size(d), &listed);
    assert!(right, "{call:?}: not the {events} events of the order");
    compare_tables(tally, &call, &listed, &[events, events - 1]);
}

/// One call for each size of a table.
fn compare_tables(tally: &mut Tally, call: &Call, listed: &[dso_ref::Event], tables: &[usize]) {
    for &entries in tables {
        let expected = if listed.len() <= entries {
            Ok(listed)
        } else {
            Err(13)
        };
        compare(tally, &Call { entries, ..*call }, expected);
    }
}

/// The call as C sees it, then the safe function.
fn compare(tally: &mut Tally, call: &Call, expected: Expected) {
    let told = expected.map(|listed| RowAnswer {
        events: listed.len() as u64,
        ..RowAnswer::default()
    });
    let answer = row_answer(told);
    let (raw, raw_left) = Lent::new(call).raw(call, expected);
    let (safe, safe_left) = Lent::new(call).safe(call, expected);
    let same = raw == answer && safe == told && raw_left && safe_left;
    tally.count_of(call.input.version, answer.refusal, same, || {
        format!(
            "{call:?}: library {raw:?} {safe:?}, second tool {answer:?}, \
             memory as it should be: {raw_left} {safe_left}"
        )
    });
}

/// A table and a work area among guards.
struct Lent {
    table: Guarded<Event>,
    work: Guarded<u64>,
}

impl Lent {
    fn new(call: &Call) -> Lent {
        Lent {
            table: Guarded::new(call.entries),
            work: Guarded::new(call.work),
        }
    }

    fn raw(mut self, call: &Call, expected: Expected) -> (RowAnswer, bool) {
        let (table, work) = (self.table.lent(), self.work.lent());
        let answer = calls::collect(call.input.below(call.d), table, work);
        (answer, self.is_left(expected))
    }

    fn safe(mut self, call: &Call, expected: Expected) -> (Result<RowAnswer, u64>, bool) {
        let (table, work) = (self.table.lent(), self.work.lent());
        let answer = dohvrin::collect(call.input.below(call.d), table, work);
        (answer.map_err(|no| no.number()), self.is_left(expected))
    }

    /// Whether the call left what it should: the events and zeros, zeros, or
    /// nothing changed; and in any case the guards.
    fn is_left(&self, expected: Expected) -> bool {
        let changed = matches!(expected, Ok(_) | Err(13));
        let listed = expected.unwrap_or(&[]);
        let entry = |at: usize| listed.get(at).map(entry_of);
        self.table.is_left(changed, entry) && self.work.is_left(changed, |_| None)
    }
}

/// Code, threshold and work area right or damaged; the table comes later.
fn draw(random: &mut Random) -> Call {
    let d = match random.within(0, 15) {
        0 => random.pick(&[0, 65, 66, 128]),
        1 => random.huge(5),
        2..=4 => random.within(1, 64),
        _ => random.within(1, 14),
    };
    let work = match random.within(0, 15) {
        0 => random.index(WORK),
        1 => WORK - 1,
        2..=12 => WORK,
        _ => WORK + random.index(1000),
    };
    Call {
        input: codes::draw(random),
        d,
        entries: 0,
        work,
    }
}

/// None, one short, exact, larger, or any.
fn draw_entries(random: &mut Random, exact: usize) -> usize {
    match random.within(0, 9) {
        0 => 0,
        1 | 2 => exact.saturating_sub(1),
        3..=5 => exact,
        6..=8 => exact + random.index(100),
        _ => random.index(ENTRIES),
    }
}

/// A right code of at most 24 steps.
fn draw_small(random: &mut Random) -> Call {
    let mut input = codes::right(random);
    input.bits = random.within(input.v, 24);
    let most = random.pick(&[12, 64]);
    Call {
        input,
        d: random.within(1, most),
        entries: 0,
        work: WORK + random.index(100),
    }
}
