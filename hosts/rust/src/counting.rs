//! How many events and paths an order has, found without a list of them. These
//! counts are tested against the library and not proved: nothing but the sizes
//! of tables may depend on them.

use crate::{Entries, Link, Order};
use std::mem::{replace, swap};
use std::ops::Range;

/// Counts the events of each state, and the words that they are joined to.
pub fn count(order: &Order) -> Entries {
    let trellis = Trellis::of(order);
    let (mut events, mut words) = (0u64, 0u64);
    for state in trellis.homes() {
        let by_length = trellis.events(state);
        events = events.saturating_add(total(&by_length));
        words = words.saturating_add(trellis.words(&by_length));
    }
    Entries {
        events: events as usize,
        // The word zero is no path; a number that is too large stays so.
        paths: words.saturating_sub(u64::from(words < u64::MAX)) as usize,
    }
}

/// Counts the events alone.
pub fn events(order: &Order) -> usize {
    let trellis = Trellis::of(order);
    let of_states = trellis.homes().map(|state| total(&trellis.events(state)));
    of_states.fold(0, u64::saturating_add) as usize
}

/// How many there are of all lengths.
fn total(by_length: &[Enumerator]) -> u64 {
    let all = by_length.iter().map(Enumerator::total);
    all.fold(0, u64::saturating_add)
}

/// The steps of a code, and the bounds of what is counted.
struct Trellis {
    states: usize,
    /// The weight of the step in which the last v+1 inputs are these.
    step_weights: Vec<usize>,
    link: Link,
    /// The steps of a word.
    steps: usize,
    /// The threshold: weights below it are counted.
    d: usize,
}

impl Trellis {
    fn of(order: &Order) -> Trellis {
        let states = 1 << order.v();
        let weight = |window: u64| {
            let one = |g: &u64| (g & window).count_ones() as usize % 2;
            order.generators().iter().map(one).sum()
        };
        Trellis {
            states,
            step_weights: (0..2 * states as u64).map(weight).collect(),
            link: order.link(),
            steps: order.steps() as usize,
            d: order.d() as usize,
        }
    }

    /// The states that have events: on a terminated link, 0 alone.
    fn homes(&self) -> Range<usize> {
        match self.link {
            Link::TailBiting => 0..self.states,
            Link::Terminated => 0..1,
        }
    }

    /// The events of a state by length from 0: walks from it back to it whose
    /// states in between are all greater.
    fn events(&self, state: usize) -> Vec<Enumerator> {
        let none = Enumerator::none(self.d);
        let mut walks = vec![none.clone(); self.states];
        let mut next = walks.clone();
        walks[state] = Enumerator::one(self.d);
        let mut events = vec![none.clone()];
        for _ in 0..self.steps {
            self.step(state, &walks, &mut next);
            swap(&mut walks, &mut next);
            // A return to the state ends the event.
            events.push(replace(&mut walks[state], none.clone()));
        }
        events
    }

    /// The walks to each state, one step longer, between states that are not
    /// below the lowest.
    fn step(&self, lowest: usize, walks: &[Enumerator], next: &mut [Enumerator]) {
        for (to, sum) in next.iter_mut().enumerate().skip(lowest) {
            sum.clear();
            for window in [to, to + self.states] {
                // The state before the step is in the window's upper bits.
                let from = window / 2;
                if from >= lowest {
                    sum.add(&walks[from], self.step_weights[window]);
                }
            }
        }
    }

    /// The words whose smallest state has these events: such a word is a chain of
    /// them, entered at any step of the first, or on a terminated link at the
    /// first step alone.
    fn words(&self, events: &[Enumerator]) -> u64 {
        let mut chains = vec![Enumerator::one(self.d)];
        for length in 1..self.steps {
            let mut sum = Enumerator::none(self.d);
            for (last, event) in events.iter().enumerate().take(length + 1).skip(1) {
                sum.add_product(1, event, &chains[length - last]);
            }
            chains.push(sum);
        }
        let mut words = Enumerator::none(self.d);
        for (first, event) in events.iter().enumerate().skip(1) {
            let entries = match self.link {
                Link::TailBiting => first as u64,
                Link::Terminated => 1,
            };
            words.add_product(entries, event, &chains[self.steps - first]);
        }
        words.total()
    }
}

/// A weight enumerator: how many there are of each weight below d.
#[derive(Clone)]
struct Enumerator {
    counts: Vec<u64>,
    /// There are none of a weight below this one.
    least: usize,
}

impl Enumerator {
    fn none(d: usize) -> Enumerator {
        Enumerator {
            counts: vec![0; d],
            least: d,
        }
    }

    /// One of weight 0.
    fn one(d: usize) -> Enumerator {
        let mut one = Enumerator::none(d);
        (one.counts[0], one.least) = (1, 0);
        one
    }

    fn clear(&mut self) {
        self.counts[self.least..].fill(0);
        self.least = self.counts.len();
    }

    /// Adds others, each made so much heavier.
    fn add(&mut self, others: &Enumerator, heavier: usize) {
        let least = others.least + heavier;
        if let Some(counts) = self.counts.get_mut(least..) {
            self.least = self.least.min(least);
            for (count, more) in counts.iter_mut().zip(&others.counts[others.least..]) {
                *count = count.saturating_add(*more);
            }
        }
    }

    /// Adds so many times the pairs of one and another.
    fn add_product(&mut self, times: u64, one: &Enumerator, other: &Enumerator) {
        for (weight, &count) in one.counts.iter().enumerate().skip(one.least) {
            let Some(counts) = self.counts.get_mut(weight + other.least..) else {
                return;
            };
            self.least = self.least.min(weight + other.least);
            let count = count.saturating_mul(times);
            for (sum, &more) in counts.iter_mut().zip(&other.counts[other.least..]) {
                *sum = sum.saturating_add(count.saturating_mul(more));
            }
        }
    }

    fn total(&self) -> u64 {
        let counts = self.counts.iter().copied();
        counts.fold(0, u64::saturating_add)
    }
}
