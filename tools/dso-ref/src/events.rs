//! Error events, walked as they are defined: from state i back to i in 1 to N
//! steps, all states in between greater than i, weight below d. A terminated
//! link has those of state 0 alone, in 1 to N+v steps.

use crate::link::Code;
use crate::order::Order;
use crate::poly;
use crate::questions::{self, Asked, Refusal};
use crate::trellis::{Trellis, NEVER};

/// An event. Events are ordered by state, length, input number.
#[derive(Clone, Copy, Debug, PartialEq, Eq, PartialOrd, Ord)]
pub struct Event {
    /// The state it leaves and comes back to.
    pub state: usize,
    /// Its number of steps.
    pub length: usize,
    /// Its input number: the first input is bit 0.
    pub input: u128,
    /// Its weight.
    pub weight: u32,
}

impl Event {
    /// The walk of no steps from a state.
    fn start(state: usize) -> Event {
        Event {
            state,
            length: 0,
            input: 0,
            weight: 0,
        }
    }

    /// A walk that has come to `at`, one step longer, and where it comes to.
    fn step(self, trellis: &Trellis, at: usize, b: usize) -> (usize, Event) {
        let (next, weight) = trellis.step(at, b);
        let longer = Event {
            length: self.length + 1,
            // A one past all bits is on no walk that comes home in time.
            input: self.input | poly::at_place(b, self.length),
            weight: self.weight + u32::from(weight),
            ..self
        };
        (next, longer)
    }
}

/// How many events are to be listed, or refusal 13 where they are more than
/// the capacity.
pub fn count(order: &Order, capacity: usize) -> Result<usize, Refusal> {
    let mut events = 0;
    let mut take = |_| {
        events += 1;
        events <= capacity
    };
    if walk_all(order.code(), order.threshold(), &mut take) {
        Ok(events)
    } else {
        Err(Refusal(13))
    }
}

/// The events to be listed, in order, or refusal 13 where they are more than
/// the capacity.
pub fn list(order: &Order, capacity: usize) -> Result<Vec<Event>, Refusal> {
    listed(order.code(), order.threshold(), capacity)
}

/// The collection as a call that takes no check degree: questions 2, 3, 4, 5, 7,
/// 8, 9, 16, 10 about a work area of `work` numbers, and 13.
pub fn collect(
    code: Code,
    threshold: usize,
    entries: usize,
    work: usize,
) -> Result<Vec<Event>, Refusal> {
    ask(code, threshold, work)?;
    listed(code, threshold, entries)
}

/// Questions 2, 3, 4, 5, 7, 8, 9, 16, and 10 about a work area of `work` numbers.
pub fn ask(code: Code, threshold: usize, work: usize) -> Asked {
    questions::kind(code.version)?;
    questions::generator_count(code.generators.len())?;
    questions::memory(code.memory)?;
    questions::length(code.memory, code.length)?;
    questions::threshold(threshold)?;
    questions::generators(code.memory, code.generators)?;
    questions::work_size(work)
}

fn listed(code: Code, threshold: usize, capacity: usize) -> Result<Vec<Event>, Refusal> {
    let mut events = Vec::new();
    let mut take = |event| {
        events.push(event);
        events.len() <= capacity
    };
    if !walk_all(code, threshold, &mut take) {
        return Err(Refusal(13));
    }
    events.sort_unstable();
    Ok(events)
}

/// The events to be listed, in order, of a right code: every walk from each
/// home is followed until it is back, below home, as heavy as the threshold
/// or as long as the walk of a word, and none is cut for what it still needs. Nothing
/// where that takes more than `most` steps.
pub fn walked(code: Code, threshold: usize, most: usize) -> Option<Vec<Event>> {
    let trellis = Trellis::new(code.memory, code.generators);
    let (mut events, mut ahead, mut steps) = (Vec::new(), Vec::new(), 0);
    for home in code.homes() {
        ahead.push((home, Event::start(home)));
        while let Some((state, so_far)) = ahead.pop() {
            for b in 0..2 {
                let (next, longer) = so_far.step(&trellis, state, b);
                steps += 1;
                if next < home || longer.weight as usize >= threshold {
                    continue;
                }
                if next == home {
                    events.push(longer);
                } else if longer.length < code.steps() {
                    ahead.push((next, longer));
                }
            }
            if steps > most {
                return None;
            }
        }
    }
    events.sort_unstable();
    Some(events)
}

/// Whether records are events to be listed, each once and in their order.
pub fn are_listed(code: Code, threshold: usize, records: &[Event]) -> bool {
    let trellis = Trellis::new(code.memory, code.generators);
    let right = |record: &Event| {
        code.homes().contains(&record.state)
            && is_walk_home(&trellis, code.steps(), threshold, record)
    };
    let name = |e: &Event| (e.state, e.length, e.input);
    records.iter().all(right) && records.windows(2).all(|two| name(&two[0]) < name(&two[1]))
}

/// Whether the record's input leads from its state through states above it
/// home, in its length and with its weight, both within the limits.
fn is_walk_home(trellis: &Trellis, steps: usize, threshold: usize, record: &Event) -> bool {
    let short = (1..=steps).contains(&record.length);
    if !short || record.input.checked_shr(record.length as u32).unwrap_or(0) != 0 {
        return false;
    }
    let (mut state, mut walk) = (record.state, Event::start(record.state));
    for t in 0..record.length {
        if t > 0 && state <= record.state {
            return false;
        }
        (state, walk) = walk.step(trellis, state, poly::bit(record.input, t).into());
    }
    state == record.state && walk == *record && (walk.weight as usize) < threshold
}

/// Hands every event to `take`, until it answers false. True: `take` has had
/// them all.
fn walk_all(code: Code, threshold: usize, take: &mut impl FnMut(Event) -> bool) -> bool {
    let trellis = Trellis::new(code.memory, code.generators);
    code.homes().all(|home| {
        let need = least_return(&trellis, home, code.steps());
        let mut walk = Walk {
            trellis: &trellis,
            home,
            need,
            below: threshold,
            take,
        };
        walk.go_on(Event::start(home), home)
    })
}

/// By steps left, then state: the least weight of a walk back home in at most
/// these steps, through states above home.
fn least_return(trellis: &Trellis, home: usize, steps: usize) -> Vec<Vec<u8>> {
    let mut here = vec![NEVER; trellis.states()];
    here[home] = 0;
    let longer = |after: &Vec<u8>| {
        let mut before = trellis.step_before(after);
        before[..home].fill(NEVER);
        before[home] = 0;
        Some(before)
    };
    std::iter::successors(Some(here), longer)
        .take(steps)
        .collect()
}

struct Walk<'a, T> {
    trellis: &'a Trellis,
    home: usize,
    need: Vec<Vec<u8>>,
    below: usize,
    take: &'a mut T,
}

impl<T: FnMut(Event) -> bool> Walk<'_, T> {
    /// Goes on from a state by both inputs, where enough steps and weight are
    /// left to come back. False: `take` wants no more.
    fn go_on(&mut self, so_far: Event, state: usize) -> bool {
        let left = match self.need.len().checked_sub(so_far.length + 1) {
            Some(left) => left,
            None => return true,
        };
        (0..2).all(|b| {
            let (next, longer) = so_far.step(self.trellis, state, b);
            if longer.weight as usize + usize::from(self.need[left][next]) >= self.below {
                return true;
            }
            if next == self.home {
                (self.take)(longer)
            } else {
                self.go_on(longer, next)
            }
        })
    }
}
