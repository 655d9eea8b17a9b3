//! The listing of paths. The tables of each state's events are made once.
//! Lengths and weights are bytes, so that the compiler sees that they are within
//! the tables.

use super::events::collect;
use super::sort::sort;
use dohvrin::Event;
use dso_ref::link::{Code, Kind};

/// No chain weighs as much: past every threshold.
const NEVER: u8 = 255;

/// How many paths there are below d of a right code. The words are in the table
/// by weight and number, zeros after them, and the counts by weight from 1; the
/// events are as `collect` leaves them. Nothing where a table is too small.
pub fn list(
    code: Code,
    d: u64,
    events: &mut [Event],
    paths: &mut [u128],
    counts: &mut [u64],
) -> Option<usize> {
    let n = collect(code, d, events)?;
    let mut rest = &events[..n];
    let mut states = Vec::new();
    while let Some(first) = rest.first() {
        let same = rest.partition_point(|e| e.state == first.state);
        states.push(State::new(&rest[..same], code));
        rest = &rest[same..];
    }
    let mut found = Found { paths, at: 0 };
    counts.fill(0);
    for (w, count) in (1..d).zip(counts) {
        let before = found.at;
        for state in &states {
            state.chain(state.steps, w as u8, 0, 1, &mut found);
        }
        sort(found.paths.get_mut(before..found.at)?, code.length);
        *count = (found.at - before) as u64;
    }
    let Found { paths, at } = found;
    paths[at..].fill(0);
    Some(at)
}

/// The path table, and how many words were found.
struct Found<'a> {
    paths: &'a mut [u128],
    at: usize,
}

impl Found<'_> {
    fn push(&mut self, word: u128) {
        if let Some(entry) = self.paths.get_mut(self.at) {
            *entry = word;
        }
        self.at += 1;
    }
}

/// The events of one state, and what bounds the chains of them.
struct State<'a> {
    steps: u8,
    /// Whether a chain may be entered at any step of its first event.
    turned: bool,
    events: &'a [Event],
    /// By length: where its events begin.
    starts: [usize; 257],
    /// By length: the least weight of an event.
    least: [u8; 256],
    /// By steps: no chain weighs less.
    fill: [u8; 256],
    /// Where the zero loop is the only event of one step: no other event weighs
    /// less. 0 where it is not.
    light: u8,
}

impl<'a> State<'a> {
    fn new(events: &'a [Event], code: Code) -> State<'a> {
        let mut state = State {
            steps: code.steps() as u8,
            turned: code.kind() == Kind::TailBiting,
            events,
            starts: [events.len(); 257],
            least: [NEVER; 256],
            fill: [0; 256],
            light: 0,
        };
        let mut known = 0;
        for (at, e) in events.iter().enumerate() {
            let l = e.length as usize;
            if known < l {
                state.starts[known + 1..=l].fill(at);
                known = l;
            }
            state.least[l] = state.least[l].min(e.weight as u8);
        }
        for k in 1..=code.steps() {
            let sums = (1..=k).map(|l| state.least[l].saturating_add(state.fill[k - l]));
            state.fill[k] = sums.min().unwrap_or(NEVER);
        }
        let loops = events.iter().take_while(|e| e.length == 1).count();
        if loops == 1 && events[0].weight == 0 && events[0].input() == 0 {
            state.light = state.least[2..].iter().copied().min().unwrap_or(NEVER);
        }
        state
    }

    /// The words of weight `budget` more whose chains begin with these inputs
    /// and go on for `left` steps; `first` is the first event's length, or 1
    /// where nothing is turned.
    fn chain(&self, left: u8, budget: u8, word: u128, first: u8, found: &mut Found) {
        let place = self.steps - left;
        let mut from = 1;
        while let Some(l) = self.next_length(left, budget, from) {
            let first = if place == 0 && self.turned { l } else { first };
            let after = self.fill[usize::from(left - l)];
            for e in &self.events[self.starts[usize::from(l)]..self.starts[usize::from(l) + 1]] {
                let weight = e.weight as u8;
                if weight + after > budget {
                    continue;
                }
                // From place 128 on there are zero loops alone.
                let word = word | e.input().wrapping_shl(place.into());
                // What is left is used up by zero loops alone, or by nothing.
                if l == left || budget - weight < self.light {
                    if weight == budget && word != 0 {
                        self.turns(word, first, found);
                    }
                } else {
                    self.chain(left - l, budget - weight, word, first, found);
                }
            }
            from = l + 1;
        }
    }

    /// The first length from `from` on of which an event may be joined.
    fn next_length(&self, left: u8, budget: u8, from: u8) -> Option<u8> {
        (from..=left).find(|&l| {
            let after = self.fill[usize::from(left - l)];
            self.least[usize::from(l)].saturating_add(after) <= budget
        })
    }

    /// The word begun 0 to `first` - 1 steps later.
    fn turns(&self, mut word: u128, first: u8, found: &mut Found) {
        found.push(word);
        for _ in 1..first {
            word = word >> 1 | (word & 1) << (self.steps - 1);
            found.push(word);
        }
    }
}
