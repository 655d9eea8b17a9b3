//! Least weights of walks, a step at a time, and what they say of the list.

use dohvrin::Order;
use std::io::{self, Write};

/// The least weight of a walk to each state, where there is one.
pub type Least = Vec<Option<u64>>;

/// Walks of no steps, at one state.
pub fn at(order: &Order, state: usize) -> Least {
    let mut least = vec![None; 1 << order.v()];
    least[state] = Some(0);
    least
}

/// All walks longer by one of the steps that may be taken, each given by the
/// last v+1 inputs.
pub fn step(order: &Order, least: &Least, may: impl Fn(usize) -> bool) -> Least {
    let states = least.len();
    let mut next: Least = vec![None; states];
    for window in (0..2 * states).filter(|&window| may(window)) {
        // The state before the step is in the window's upper bits.
        let to = window % states;
        let Some(before) = least[window / 2] else {
            continue;
        };
        let weight = before + step_weight(order, window as u64);
        next[to] = Some(next[to].map_or(weight, |other| weight.min(other)));
    }
    next
}

/// How many generators put out a one where the last v+1 inputs are these.
pub fn step_weight(order: &Order, window: u64) -> u64 {
    let ones = |g: &u64| u64::from((g & window).count_ones() % 2);
    order.generators().iter().map(ones).sum()
}

/// Whether the first weight at which the list has such a word is that of the
/// lightest one by the trellis, where it is below the threshold.
pub fn write_lightest(
    out: &mut impl Write,
    order: &Order,
    such: &str,
    lightest: u64,
    first: Option<u64>,
) -> io::Result<bool> {
    let right = first == Some(lightest).filter(|&weight| weight < order.d());
    let sign = if right { "" } else { "DIFFERS: " };
    writeln!(
        out,
        "   {sign}by the trellis, the lightest {such} weighs {lightest}"
    )?;
    Ok(right)
}
