//! Counting by a table over (state, remainder, weight), moved through the N
//! steps of the trellis, once for each start state, and read where the state
//! has come back and the remainder is 0. On a terminated link the only start
//! is state 0, and the steps are N+v: a walk that is back has had zeros in the
//! last v of them.

use crate::layer::{Key, Layer};
use crate::link::Code;
use crate::order::Order;
use crate::search::Counter;
use crate::trellis::{Trellis, NEVER};
use crate::weights;
use std::ops::Range;

/// The table of a code and length: what is the same for every polynomial.
pub struct Table {
    trellis: Trellis,
    steps: usize,
    starts: Range<usize>,
    /// By start state.
    least: Vec<Return>,
    cells: Cells,
}

/// For one start state: by steps left, then state, the least weight of a walk
/// back to the start state in exactly these steps.
pub type Return = Vec<Vec<u8>>;

impl Table {
    /// The table of the order's code and length.
    pub fn new(order: &Order) -> Table {
        Table::of(order.code(), order.threshold())
    }

    /// The table of a right code, for weights below the threshold.
    pub fn of(code: Code, threshold: usize) -> Table {
        let trellis = Trellis::new(code.memory, code.generators);
        let (steps, starts) = (code.steps(), code.homes());
        let of = |start| least_return(&trellis, start, steps);
        let least = starts.clone().map(of).collect();
        Table {
            trellis,
            steps,
            starts,
            least,
            cells: Cells::new(threshold),
        }
    }

    /// The trellis that the walks go through.
    pub fn trellis(&self) -> &Trellis {
        &self.trellis
    }

    /// The steps of a word's walk.
    pub fn steps(&self) -> usize {
        self.steps
    }

    /// The states where walks begin.
    pub fn starts(&self) -> Range<usize> {
        self.starts.clone()
    }

    /// The least weights back to a start state.
    pub fn least(&self, start: usize) -> &Return {
        &self.least[start]
    }

    /// Counts, by weight from 1, the nonzero words whose sum of `powers` over
    /// their places is 0. After each start state `stop` may end it.
    fn count(&mut self, powers: &[u32], counts: &mut [u128], stop: impl Fn(&[u128]) -> bool) {
        // Most words start at state 0: kept for last, it is often spared.
        for start in self.starts().rev() {
            self.cells.start(start);
            for (t, &power) in powers.iter().enumerate() {
                let need = &self.least[start][self.steps - 1 - t];
                self.cells.step(&self.trellis, power, need, counts.len());
            }
            self.cells.read(start, counts);
            if stop(counts) {
                return;
            }
        }
    }

    fn counts(&mut self, powers: &[u32], heaviest: usize) -> Vec<u128> {
        let mut counts = vec![0; heaviest];
        self.count(powers, &mut counts, |_| false);
        counts
    }
}

impl Counter for Table {
    fn plain(&mut self, heaviest: usize) -> Vec<u128> {
        self.counts(&vec![0; self.steps], heaviest)
    }

    fn undetected(&mut self, p: u64, heaviest: usize) -> Vec<u128> {
        self.counts(&powers_of_x(p as u32, self.steps), heaviest)
    }

    fn undetected_up_to(&mut self, most: u128, p: u64, w: usize) -> Option<u128> {
        let (mut counts, last) = (vec![0; w], weights::entry(w));
        self.count(&powers_of_x(p as u32, self.steps), &mut counts, |counts| {
            counts[last] > most
        });
        Some(counts[last]).filter(|&count| count <= most)
    }
}

/// x^t mod p for the places t from 0. The walk meets the low end of the word
/// first, so a remainder is the sum of these over the word's ones.
fn powers_of_x(p: u32, steps: usize) -> Vec<u32> {
    let top = 1 << (31 - p.leading_zeros());
    let times_x = |r: &u32| {
        Some(if r << 1 & top == 0 {
            r << 1
        } else {
            r << 1 ^ p
        })
    };
    // Degree 1 or more: x^0 is its own remainder.
    std::iter::successors(Some(1), times_x)
        .take(steps)
        .collect()
}

fn least_return(trellis: &Trellis, start: usize, steps: usize) -> Return {
    let mut here = vec![NEVER; trellis.states()];
    here[start] = 0;
    let longer = |after: &Vec<u8>| Some(trellis.step_before(after));
    std::iter::successors(Some(here), longer)
        .take(steps)
        .collect()
}

/// The table before a step. State 0 is kept apart, by weight: input 0 changes
/// nothing there, and walks of low weight are there most of the time.
struct Cells {
    rest: Vec<Layer>,
    /// No resting cell weighs less.
    lightest: usize,
    moving: Layer,
    moved: Layer,
}

impl Cells {
    fn new(threshold: usize) -> Cells {
        let rest = (0..threshold).map(|_| Layer::new()).collect();
        Cells {
            rest,
            lightest: 0,
            moving: Layer::new(),
            moved: Layer::new(),
        }
    }

    fn start(&mut self, state: usize) {
        self.moving.clear();
        self.rest.iter_mut().for_each(Layer::clear);
        self.lightest = if state == 0 { 0 } else { self.rest.len() };
        let first = if state == 0 {
            &mut self.rest[0]
        } else {
            &mut self.moving
        };
        first.add(Key::new(state, 0, 0), 1);
    }

    /// Moves every cell by both inputs. A cell is dropped where its weight and
    /// the least still needed are more than the heaviest.
    fn step(&mut self, trellis: &Trellis, power: u32, need: &[u8], heaviest: usize) {
        let fits = |state: usize, weight: usize| weight + usize::from(need[state]) <= heaviest;
        let (state, step) = trellis.step(0, 1);
        for (w, layer) in self.rest[..=heaviest]
            .iter()
            .enumerate()
            .skip(self.lightest)
        {
            let weight = w + usize::from(step);
            if !fits(state, weight) {
                break; // nor do the heavier ones
            }
            for cell in layer.cells() {
                let key = Key::new(state, weight, cell.key.remainder() ^ power);
                self.moved.add(key, cell.count);
            }
        }
        for cell in self.moving.cells() {
            for (b, sum) in [(0, 0), (1, power)] {
                let (state, step) = trellis.step(cell.key.state(), b);
                let weight = cell.key.weight() + usize::from(step);
                if !fits(state, weight) {
                    continue;
                }
                let key = Key::new(state, weight, cell.key.remainder() ^ sum);
                if state == 0 {
                    self.lightest = self.lightest.min(weight);
                    self.rest[weight].add(key, cell.count);
                } else {
                    self.moved.add(key, cell.count);
                }
            }
        }
        self.moving.clear();
        std::mem::swap(&mut self.moving, &mut self.moved);
    }

    /// Reads the nonzero words that have come back to the start state.
    fn read(&self, start: usize, counts: &mut [u128]) {
        // A one at state 0 weighs something: a walk that rests there without
        // weight, and began there, is the zero word's.
        let resting = match start {
            0 => &self.rest[1..],
            _ => &[],
        };
        // After the last step only the start state needs no more weight, so
        // cells still moving are there.
        let back = resting.iter().chain([&self.moving]);
        for cell in back
            .flat_map(Layer::cells)
            .filter(|cell| cell.key.remainder() == 0)
        {
            let count = &mut counts[weights::entry(cell.key.weight())];
            *count = count.saturating_add(cell.count);
        }
    }
}
