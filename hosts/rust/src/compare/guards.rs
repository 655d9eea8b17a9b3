//! What is lent, among guards. Before each call every lent entry, and some on
//! either side, have values of their own, so that one that was left, moved or
//! changed is seen.

use dohvrin::Event;

/// The entries on either side.
const GUARDS: usize = 9;

/// A table of so many entries among guards.
#[derive(PartialEq)]
pub struct Guarded<T>(Vec<T>);

/// What a table holds before a call.
pub trait Any: PartialEq + Default {
    /// A value, not zero, that no other place has.
    fn any(at: usize) -> Self;
}

impl Any for u64 {
    fn any(at: usize) -> u64 {
        (at as u64 + 1).wrapping_mul(0x9E37_79B9_7F4A_7C15)
    }
}

impl Any for Event {
    fn any(at: usize) -> Event {
        let field = |k| u64::any(5 * at + k);
        Event {
            state: field(0),
            length: field(1),
            weight: field(2),
            low: field(3),
            high: field(4),
        }
    }
}

impl<T: Any> Guarded<T> {
    pub fn new(entries: usize) -> Guarded<T> {
        Guarded((0..entries + 2 * GUARDS).map(T::any).collect())
    }

    /// The table without its guards.
    pub fn lent(&mut self) -> &mut [T] {
        let end = self.0.len() - GUARDS;
        &mut self.0[GUARDS..end]
    }

    /// Whether the table holds what is listed and zeros after it, or what it
    /// held before where it must not be changed; and the guards in any case.
    pub fn is_left(&self, changed: bool, listed: impl Fn(usize) -> Option<T>) -> bool {
        let entries = self.0.len() - 2 * GUARDS;
        let right = |at: usize| match at.checked_sub(GUARDS) {
            Some(entry) if changed && entry < entries => listed(entry).unwrap_or_default(),
            _ => T::any(at),
        };
        (0..).zip(&self.0).all(|(at, entry)| *entry == right(at))
    }
}

/// The second tool's event as the table has it.
pub fn entry_of(event: &dso_ref::Event) -> Event {
    let (low, high) = dohvrin::halves(event.input);
    Event {
        state: event.state as u64,
        length: event.length as u64,
        weight: u64::from(event.weight),
        low,
        high,
    }
}
