//! Lists by weight. No nonzero word of a right code weighs 0, so a list begins
//! at weight 1: below the threshold d it has d-1 entries, and a list of e
//! entries goes up to weight e.

/// The entry of a weight.
pub fn entry(weight: usize) -> usize {
    weight
        .checked_sub(1)
        .expect("no nonzero word of a right code weighs 0")
}
