//! What is to be listed, and the sizes of the tables that are lent for it.

use crate::codes::{self, Input};
use crate::guards::entry_of;
use crate::random::Random;
use crate::size;
use dohvrin::{Event, WORK};
use dso_ref::{events, listing};

/// Events and paths that are listed for any order.
pub const EVENTS: usize = 3000;
pub const PATHS: usize = 3000;
/// Steps that the second tool takes without a cut, at most, in a small order.
const STEPS: usize = 1 << 15;

#[derive(Clone, Copy, Debug)]
pub struct Sizes {
    pub events: usize,
    /// Numbers, two a path.
    pub paths: usize,
    pub counts: usize,
    pub work: usize,
}

impl Sizes {
    pub fn with_events(self, events: usize) -> Sizes {
        Sizes { events, ..self }
    }

    pub fn with_paths(self, paths: usize) -> Sizes {
        Sizes { paths, ..self }
    }

    fn with_counts(self, counts: usize) -> Sizes {
        Sizes { counts, ..self }
    }
}

/// What is to be listed of a right code.
pub struct Tables {
    pub input: Input,
    pub d: u64,
    pub events: Vec<Event>,
    /// How many of them the row has: all, but for a quote.
    pub told: usize,
    pub words: Vec<u128>,
    pub counts: Vec<u64>,
}

impl Tables {
    /// Of a small order: its events without a cut, where they are few enough
    /// for that, and its paths among all words one by one.
    pub fn small(input: Input, d: u64) -> Tables {
        let paths = listing::list(input.code(), size(d), usize::MAX).expect("a right code");
        Tables::new(input, d, small_events(input, d), paths)
    }

    pub fn new(input: Input, d: u64, events: Vec<Event>, paths: Vec<(u32, u128)>) -> Tables {
        let counts = listing::counts_of(size(d), &paths);
        Tables {
            input,
            d,
            told: events.len(),
            events,
            words: paths.into_iter().map(|(_, word)| word).collect(),
            counts: counts.into_iter().map(|count| count as u64).collect(),
        }
    }

    /// The sizes of tables that are exactly full.
    pub fn sizes(&self) -> Sizes {
        Sizes {
            events: self.events.len(),
            paths: 2 * self.words.len(),
            counts: self.counts.len(),
            work: WORK,
        }
    }

    /// The counts must be those of the second tool's table, which knows no list.
    pub fn count_again(&self) {
        let capacity = self.words.len();
        let again = listing::plain(self.input.code(), size(self.d), capacity).unwrap_or_default();
        let same = self.counts.iter().map(|&count| u128::from(count)).eq(again);
        assert!(same, "{:?}, d {}: not so many paths", self.input, self.d);
    }

    /// What is left in tables of these sizes: question 10, then 13, then 14.
    pub fn within(&self, lent: Sizes) -> Result<&Tables, u64> {
        let full = self.sizes();
        if lent.counts < full.counts || lent.work < full.work {
            Err(10)
        } else if lent.events < full.events {
            Err(13)
        } else if lent.paths < full.paths {
            Err(14)
        } else {
            Ok(self)
        }
    }
}

/// The events of a small order.
pub fn small_events(input: Input, d: u64) -> Vec<Event> {
    let code = input.code();
    let events = events::walked(code, size(d), STEPS)
        .or_else(|| events::collect(code, size(d), usize::MAX, WORK).ok())
        .expect("a right code");
    events.iter().map(entry_of).collect()
}

/// Tables exactly full, odd, larger and far larger; then each too small, empty
/// or one short, and some of them at the same time.
pub fn draw_sizes(random: &mut Random, tables: &Tables) -> Vec<Sizes> {
    let full = tables.sizes();
    let Sizes {
        events,
        paths,
        counts,
        ..
    } = full;
    let larger = Sizes {
        events: events + 1 + random.index(40),
        paths: paths + 2 + random.index(40),
        counts: counts + 1 + random.index(40),
        work: WORK + 1 + random.index(100),
    };
    let far_larger = Sizes {
        events: 3 * events + 500,
        paths: 3 * paths + 1001,
        counts: counts + 200,
        work: 2 * WORK,
    };
    let mut all = vec![full, full.with_paths(paths + 1), larger, far_larger];
    for short in [paths.saturating_sub(1), paths.saturating_sub(2), 0] {
        let short = full.with_paths(short);
        all.extend([short, short.with_events(events - 1)]);
    }
    all.extend([full.with_events(events - 1), full.with_events(0)]);
    let empty = full.with_events(0).with_paths(0);
    for short in too_short(random, counts) {
        all.extend([full.with_counts(short), empty.with_counts(short)]);
    }
    all.push(Sizes {
        work: WORK - 1,
        ..full
    });
    all
}

/// Entries of a list that are too few, where so many are enough: one short, none,
/// and any. For d = 1 none is too short.
pub fn too_short(random: &mut Random, enough: usize) -> Vec<usize> {
    match enough {
        0 => Vec::new(),
        _ => vec![enough - 1, 0, random.index(enough)],
    }
}

/// Entries of a list of counts: as many as a threshold asks for, more, and three
/// times in so many one short, none, or any.
pub fn draw_counts(random: &mut Random, d: u64, times: u64) -> usize {
    let enough = size(d.clamp(1, 64)) - 1;
    match random.within(1, times) {
        1 => enough.saturating_sub(1),
        2 => 0,
        3 => random.index(64),
        few if few <= 2 * times / 3 => enough,
        _ => enough + random.index(40),
    }
}

/// Code, threshold, counts and work area right or damaged; the sizes of the
/// two other tables come later.
pub fn draw(random: &mut Random) -> (Input, u64, Sizes) {
    let d = match random.within(0, 15) {
        0 => random.pick(&[0, 65, 66, 128]),
        1 => random.huge(5),
        2..=4 => random.within(1, 64),
        5 => 1,
        _ => random.within(1, 14),
    };
    let work = match random.within(0, 15) {
        0 => random.index(WORK),
        1 => WORK - 1,
        2..=12 => WORK,
        _ => WORK + random.index(1000),
    };
    let lent = Sizes {
        events: 0,
        paths: 0,
        counts: draw_counts(random, d, 16),
        work,
    };
    (codes::draw(random), d, lent)
}

/// None, one short, exact, or larger where that may be.
pub fn draw_size(random: &mut Random, exact: usize, larger: bool) -> usize {
    match random.within(0, 15) {
        0 => 0,
        1 | 2 => exact.saturating_sub(1),
        9..=15 if larger => exact + random.index(100),
        _ => exact,
    }
}

/// Tables of any size, every fourth empty, for a call that a question before 13
/// refuses.
pub fn any_tables(random: &mut Random, lent: &mut Sizes) {
    let mut any = |most| match random.within(0, 3) {
        0 => 0,
        _ => random.index(most),
    };
    (lent.events, lent.paths) = (any(EVENTS), any(2 * PATHS));
}

/// A right code of at most `most` steps, and a threshold. Every fourth has no
/// more steps than memory, and every eighth no weight below its threshold.
pub fn draw_small(random: &mut Random, most: u64) -> (Input, u64) {
    let mut input = codes::right(random);
    input.bits = match random.within(0, 3) {
        0 => input.v,
        _ => random.within(input.v, most),
    };
    let most = match random.within(0, 7) {
        0 => 1,
        _ => random.pick(&[12, 64]),
    };
    (input, random.within(1, most))
}
