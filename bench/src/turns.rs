//! Times of turns, and what they say together.

use crate::clock::nanoseconds;
use std::hint::black_box;

/// The nanoseconds of a call.
pub fn time<T>(call: impl FnOnce() -> T) -> (f64, T) {
    let start = nanoseconds();
    let answer = black_box(call());
    ((nanoseconds() - start) as f64, answer)
}

/// The nanoseconds of both sides, turn by turn.
#[derive(Default)]
pub struct Turns(Vec<(f64, f64)>);

impl Turns {
    pub fn push(&mut self, one: f64, other: f64) {
        self.0.push((one, other));
    }

    /// The last cells of a row: the median of either side, and of the ratio of
    /// neighbouring turns with the middle half of them.
    pub fn cells(&self) -> String {
        let one = self.first();
        let other = self.quarters(|turn| turn.1)[1];
        let [low, median, high] = self.quarters(|turn| turn.0 / turn.1);
        format!(
            "{} | {} | {median:.2} ({low:.2}-{high:.2})",
            shown(one),
            shown(other)
        )
    }

    /// The median of the first side, in nanoseconds.
    pub fn first(&self) -> f64 {
        self.quarters(|turn| turn.0)[1]
    }

    fn quarters(&self, of: fn(&(f64, f64)) -> f64) -> [f64; 3] {
        let mut values: Vec<f64> = self.0.iter().map(of).collect();
        values.sort_by(f64::total_cmp);
        [1, 2, 3].map(|quarter| values[values.len() * quarter / 4])
    }
}

/// A time in the unit that suits it.
pub fn shown(nanoseconds: f64) -> String {
    match nanoseconds {
        t if t < 1e4 => format!("{t:.0} ns"),
        t if t < 1e6 => format!("{:.0} µs", t / 1e3),
        t if t < 1e8 => format!("{:.1} ms", t / 1e6),
        t => format!("{:.2} s", t / 1e9),
    }
}
