//! The questions of document 01, one function each. A call asks those that
//! concern the values it takes, in the order of their numbers, but for 16, which
//! stands after 9, and 17, which stands after 4. No question has the number 15.

use crate::link::Kind;
use crate::poly;

/// The answer of a refused call: the number of the first question answered with
/// no.
#[derive(Clone, Copy, Debug, PartialEq, Eq)]
pub struct Refusal(pub u8);

/// What a question gives: nothing, or the refusal.
pub type Asked = Result<(), Refusal>;

fn ask(number: u8, yes: bool) -> Asked {
    if yes {
        Ok(())
    } else {
        Err(Refusal(number))
    }
}

/// Question 2: is the version that of a kind of link, and of which?
pub fn kind(version: u64) -> Result<Kind, Refusal> {
    let named = |kind: &Kind| kind.version() == version;
    Kind::ALL.into_iter().find(named).ok_or(Refusal(2))
}

/// Question 2 for a quote: is the version that of a tail-biting link?
pub fn tail_biting(version: u64) -> Asked {
    ask(2, version == Kind::TailBiting.version())
}

/// Question 3 outside a record: are there 2 to 4 generators?
pub fn generator_count(n: usize) -> Asked {
    ask(3, (2..=4).contains(&n))
}

/// Question 4: is the memory from 1 to 8?
pub fn memory(v: usize) -> Asked {
    ask(4, (1..=8).contains(&v))
}

/// Question 5: is the length from `least` to 128? `least` is the memory, or 1
/// where a call takes no memory.
pub fn length(least: usize, n: usize) -> Asked {
    ask(5, least <= n && n <= 128)
}

/// Question 5 for a quote from the events for N: is its length from the memory
/// to N?
pub fn quoted_length(v: usize, quoted: usize, n: usize) -> Asked {
    ask(5, v <= quoted && quoted <= n)
}

/// Question 17: is this a list of 1 to 8 strictly falling lengths?
pub fn length_list(lengths: &[usize]) -> Asked {
    let falling = lengths.windows(2).all(|pair| pair[0] > pair[1]);
    ask(17, (1..=8).contains(&lengths.len()) && falling)
}

/// Question 6: is the check degree from 1 to 12 and below the length?
pub fn degree(m: usize, length: usize) -> Asked {
    ask(6, (1..=12).contains(&m) && m < length)
}

/// Question 7: is the threshold from 1 to 64?
pub fn threshold(d: usize) -> Asked {
    ask(7, (1..=64).contains(&d))
}

/// Questions 8, 9 and 16.
pub fn generators(v: usize, generators: &[u64]) -> Asked {
    generator_bits(v, generators)?;
    common_divisor(v, generators)
}

/// Questions 8 and 9: every generator nonzero and below 2^(v+1); some
/// generator with bit v, some with bit 0.
pub fn generator_bits(v: usize, generators: &[u64]) -> Asked {
    ask(8, generators.iter().all(|&g| g != 0 && g >> (v + 1) == 0))?;
    let either = generators.iter().fold(0, |all, g| all | g);
    ask(9, either >> v & 1 == 1 && either & 1 == 1)
}

/// Question 16: is 1 the only common divisor of the generators? Every other
/// polynomial of degree up to v is tried.
pub fn common_divisor(v: usize, generators: &[u64]) -> Asked {
    let divides_all = |p| generators.iter().all(|&g| poly::divides(p, g.into()));
    ask(16, !(2..2 << v).any(divides_all))
}

/// Question 10, for the codeword output: is there room for n bits a step?
pub fn codeword_room(room: usize, n: usize, steps: usize) -> Asked {
    ask(10, room >= n * steps)
}

/// Question 10, for the work area: has it 8,192 numbers or more?
pub fn work_size(size: usize) -> Asked {
    ask(10, size >= 8192)
}

/// Question 10, for a list of counts: is there an entry for each weight from 1
/// to d-1? The threshold has passed question 7.
pub fn count_entries(entries: usize, d: usize) -> Asked {
    ask(10, entries >= d - 1)
}

/// Question 11: has the polynomial degree m and constant term 1?
pub fn polynomial(p: u64, m: usize) -> Asked {
    ask(11, p >> m == 1 && p & 1 == 1)
}

/// Question 12: is the word, or message, below 2^bits?
pub fn below_power(word: u128, bits: usize) -> Asked {
    // A shift by 128 is no shift at all, and every u128 is below 2^128.
    ask(12, bits >= 128 || word >> bits == 0)
}

/// Question 14: are there at most as many paths as entries?
pub fn path_entries(entries: usize, paths: usize) -> Asked {
    ask(14, paths <= entries)
}

#[cfg(test)]
mod tests {
    use super::*;

    /// Whether generators that pass 8 and 9 pass 16.
    fn coprime(v: usize, given: &[u64]) -> bool {
        assert_eq!(generator_bits(v, given), Ok(()));
        generators(v, given) != Err(Refusal(16))
    }

    #[test]
    fn generators_with_a_common_divisor() {
        assert!(coprime(3, &[0o13, 0o17]));
        assert!(!coprime(1, &[3, 3]));
        assert!(!coprime(2, &[5, 3]));
        // All of degree v, alone.
        assert!(!coprime(3, &[0o13, 0o13]));
        assert!(!coprime(8, &[0o561; 4]));
        // x+1 divides all but the last; x all but the first.
        assert!(coprime(3, &[0o11, 3, 5, 0o13]));
        assert!(coprime(3, &[1, 2, 4, 0o10]));
    }

    #[test]
    fn two_of_three_share_a_factor() {
        // (x+1)(x^2+x+1), (x+1)(x^3+x+1), (x^2+x+1)(x^3+x+1)
        assert!(coprime(5, &[0o11, 0o35, 0o61]));
        assert!(!coprime(5, &[0o11, 0o61, 0o61]));
        assert!(!coprime(4, &[0o35, 0o35, 0o13]));
        assert!(coprime(4, &[0o35, 0o35, 7]));
    }

    #[test]
    fn questions_8_and_9_come_first() {
        assert_eq!(generators(1, &[0, 0]), Err(Refusal(8)));
        assert_eq!(generators(1, &[6, 6]), Err(Refusal(8)));
        assert_eq!(generators(1, &[2, 2]), Err(Refusal(9)));
        assert_eq!(generators(2, &[3, 3]), Err(Refusal(9)));
    }

    fn product(a: u64, b: u64) -> u64 {
        let powers = (0..64).filter(|j| b >> j & 1 == 1);
        powers.fold(0, |sum, j| sum ^ a << j)
    }

    #[test]
    fn pairs_are_refused_that_are_products_with_one_polynomial() {
        for v in 1..=4 {
            let all = || 1..2 << v;
            let multiples = |p| all().map(move |a| product(p, a)).collect::<Vec<_>>();
            let multiples: Vec<Vec<u64>> = all().skip(1).map(multiples).collect();
            for (one, other) in all().flat_map(|one| all().map(move |other| (one, other))) {
                if generator_bits(v, &[one, other]).is_ok() {
                    let both = |m: &Vec<u64>| m.contains(&one) && m.contains(&other);
                    let shared = multiples.iter().any(both);
                    assert_eq!(coprime(v, &[one, other]), !shared, "{one:o} {other:o}");
                }
            }
        }
    }
}
