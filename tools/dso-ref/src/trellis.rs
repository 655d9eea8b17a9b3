//! The trellis of a code: from state s, input b leads to (2s+b) mod 2^v.

/// A weight past every threshold: no walk.
pub const NEVER: u8 = u8::MAX;

/// The states and the weights of the steps between them.
pub struct Trellis {
    states: usize,
    weights: Vec<u8>,
}

impl Trellis {
    /// The trellis of the code of a memory and generators.
    pub fn new(memory: usize, generators: &[u64]) -> Trellis {
        let states = 1 << memory;
        // 2s+b has the input at bit 0 and the state's bits above it, which is
        // the order of a generator's coefficients.
        let ones = |window: u64| {
            generators
                .iter()
                .map(move |g| (g & window).count_ones() % 2)
        };
        let weights = (0..2 * states).map(|window| ones(window as u64).sum::<u32>() as u8);
        Trellis {
            states,
            weights: weights.collect(),
        }
    }

    /// The number of states, 2^v.
    pub fn states(&self) -> usize {
        self.states
    }

    /// Where input b leads from a state, and the weight of that step.
    pub fn step(&self, state: usize, b: usize) -> (usize, u8) {
        let window = 2 * state + b;
        (window & (self.states - 1), self.weights[window])
    }

    /// One step more at the front: for each state, the least weight of a step
    /// from it followed by what `after` gives for where the step leads.
    pub fn step_before(&self, after: &[u8]) -> Vec<u8> {
        let through = |state, b| {
            let (next, weight) = self.step(state, b);
            after[next].saturating_add(weight)
        };
        (0..self.states)
            .map(|state| through(state, 0).min(through(state, 1)))
            .collect()
    }
}
