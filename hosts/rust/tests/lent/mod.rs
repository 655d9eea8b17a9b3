//! Tables that a refused call must not change.

use dohvrin::{Event, Lent};

/// What a call answers with tables of so many entries and a work area of so many
/// numbers, none of which it may change.
pub fn lent<T>(entries: usize, work: usize, call: impl Fn(Lent) -> T) -> T {
    let held = Event {
        state: 9,
        ..Event::default()
    };
    let (mut events, mut work) = (vec![held; entries], vec![9; work]);
    let mut numbers = [vec![9; 2 * entries], vec![9; entries], vec![9; entries]];
    let before = (events.clone(), numbers.clone(), work.clone());
    let [paths, plain, undetected] = &mut numbers;
    let answer = call(Lent {
        events: &mut events,
        paths,
        plain,
        undetected,
        work: &mut work,
    });
    assert!((events, numbers, work) == before);
    answer
}
