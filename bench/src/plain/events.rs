//! The collection of error events, into a table of the library's records. States
//! are bytes, so that the compiler sees that they are within the tables.

use dohvrin::Event;
use dso_ref::link::Code;

/// No walk weighs as much: past every threshold.
const NEVER: u8 = 64;

/// The events of weight below d of a right code, in their order, and zero
/// records after them. Nothing where they do not fit.
pub fn collect(code: Code, d: u64, table: &mut [Event]) -> Option<usize> {
    let mut walk = Walk {
        top: 1 << (code.memory - 1),
        weights: [[0; 2]; 256],
        need: vec![[NEVER; 256]; code.steps()],
        below: d as u8,
        home: 0,
        length: 0,
        table,
        at: 0,
    };
    for (window, weight) in (0..).zip(walk.weights.iter_mut().flatten()) {
        let ones = |g: &u64| (g & window).count_ones() as u8 & 1;
        *weight = code.generators.iter().map(ones).sum();
    }
    for home in code.homes() {
        walk.home = home as u8;
        walk.fill();
        for length in 1..=code.steps() {
            walk.length = length;
            walk.back(length, walk.home, 0, 0);
        }
    }
    let events = walk.at;
    match table.get_mut(events..) {
        Some(rest) => rest.fill(Event::default()),
        None => {
            table.fill(Event::default());
            return None;
        }
    }
    Some(events)
}

/// The walks back from one state.
struct Walk<'a> {
    top: u8,
    /// By state, then input: what the step weighs.
    weights: [[u8; 2]; 256],
    /// By steps, then state: the least weight from home through states above.
    need: Vec<[u8; 256]>,
    below: u8,
    home: u8,
    length: usize,
    table: &'a mut [Event],
    at: usize,
}

impl Walk<'_> {
    fn fill(&mut self) {
        self.need[0].fill(NEVER);
        self.need[0][usize::from(self.home)] = 0;
        for t in 1..self.need.len() {
            let (done, rest) = self.need.split_at_mut(t);
            let (before, row) = (&done[t - 1], &mut rest[0]);
            row[..=usize::from(self.home)].fill(NEVER);
            let above = usize::from(self.home) + 1..2 * usize::from(self.top);
            for (s, least) in above.clone().zip(&mut row[above]) {
                let through = |p: usize| before[p] + self.weights[p][s % 2];
                let (low, high) = (s / 2, s / 2 + usize::from(self.top));
                *least = through(low).min(through(high)).min(NEVER);
            }
        }
    }

    /// Appends the events that end in a walk from `state` of this weight and
    /// input, `left` steps before it.
    fn back(&mut self, left: usize, state: u8, weight: u8, input: u128) {
        if left == 0 {
            return self.push(weight, input);
        }
        let b = state % 2;
        for before in [state / 2, state / 2 + self.top] {
            let weight = weight + self.weights[usize::from(before)][usize::from(b)];
            if weight + self.need[left - 1][usize::from(before)] < self.below {
                self.back(left - 1, before, weight, input << 1 | u128::from(b));
            }
        }
    }

    fn push(&mut self, weight: u8, input: u128) {
        let (low, high) = dohvrin::halves(input);
        if let Some(entry) = self.table.get_mut(self.at) {
            *entry = Event {
                state: u64::from(self.home),
                length: self.length as u64,
                weight: u64::from(weight),
                low,
                high,
            };
        }
        self.at += 1;
    }
}
