//! Listing the paths by walking the trellis from each start state for as many
//! steps as a word's walk has.

use crate::poly;
use crate::table::Table;

/// The paths below the threshold: weight and number, ordered by weight, then
/// number. A walk is cut where it cannot come back below the threshold.
pub fn list(table: &Table, below: usize) -> Vec<(u32, u128)> {
    let mut paths = Vec::new();
    for start in table.starts() {
        let mut walk = Walk {
            table,
            start,
            steps: table.steps(),
            below,
            paths: &mut paths,
        };
        walk.go_on(0, start, 0, 0);
    }
    paths.retain(|&(_, word)| word != 0);
    paths.sort_unstable();
    paths
}

struct Walk<'a> {
    table: &'a Table,
    start: usize,
    steps: usize,
    below: usize,
    paths: &'a mut Vec<(u32, u128)>,
}

impl Walk<'_> {
    fn go_on(&mut self, t: usize, state: usize, weight: u32, word: u128) {
        if t == self.steps {
            self.paths.push((weight, word));
            return;
        }
        let left = self.steps - 1 - t;
        for b in 0..2 {
            let (next, step) = self.table.trellis().step(state, b);
            let weight = weight + u32::from(step);
            let need = self.table.least(self.start)[left][next];
            if weight as usize + usize::from(need) < self.below {
                self.go_on(t + 1, next, weight, word | poly::at_place(b, t));
            }
        }
    }
}
