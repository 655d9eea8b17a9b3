//! The search for the best check polynomial.

/// A way to count the words of an order by weight. Weights asked for are below
/// the order's threshold.
pub trait Counter {
    /// How many nonzero words weigh w, for each w from 1 to the heaviest.
    fn plain(&mut self, heaviest: usize) -> Vec<u128>;

    /// How many of them p divides, for each w from 1 to the heaviest.
    fn undetected(&mut self, p: u64, heaviest: usize) -> Vec<u128>;

    /// How many nonzero words of weight w p divides; nothing where they are
    /// more than `most`.
    fn undetected_up_to(&mut self, most: u128, p: u64, w: usize) -> Option<u128>;
}

/// The best counts and the candidates that have them.
#[derive(Clone, Debug, PartialEq, Eq)]
pub struct Best {
    /// The undetected count for each weight from 1.
    pub counts: Vec<u128>,
    /// Every candidate with these counts, in order.
    pub who: Vec<u64>,
}

impl Best {
    /// The smallest number among them: the one that a search answers with.
    pub fn smallest(&self) -> u64 {
        *self.who.iter().min().expect("one at the least is best")
    }
}

/// Those of the candidates left after the last weight. `plain` holds the plain
/// counts of the weights to be compared, from 1.
///
/// All candidates are counted at a weight before the next one is looked at:
/// where words are many, few candidates are left to be counted.
pub fn best(counter: &mut impl Counter, mut who: Vec<u64>, plain: &[u128]) -> Best {
    let mut counts = Vec::new();
    for (w, &words) in (1..).zip(plain) {
        if who.len() == 1 {
            return Best {
                counts: counter.undetected(who[0], plain.len()),
                who,
            };
        }
        counts.push(match words {
            0 => 0,
            _ => drop_worse(counter, &mut who, w),
        });
    }
    Best { counts, who }
}

/// Keeps the candidates with the fewest undetected words of weight w, and
/// gives that number.
fn drop_worse(counter: &mut impl Counter, who: &mut Vec<u64>, w: usize) -> u128 {
    let mut fewest = u128::MAX;
    let mut kept = Vec::new();
    for &p in who.iter() {
        // A candidate past the fewest so far is out, however far past it is.
        if let Some(count) = counter.undetected_up_to(fewest, p, w) {
            if count < fewest {
                fewest = count;
                kept.clear();
            }
            kept.push(p);
        }
    }
    *who = kept;
    fewest
}
