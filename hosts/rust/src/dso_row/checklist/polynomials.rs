//! Point 1: a figure that was entered from the wrong end is seen at once, and so
//! is a factor that all generators share.

use std::io::{self, Write};

/// Whether no factor is shared by all generators.
pub fn write(out: &mut impl Write, generators: &[u64], check: u64) -> io::Result<bool> {
    writeln!(out, "\n1. The polynomials written out")?;
    let factored: Vec<Vec<u64>> = generators.iter().map(|&g| factors(g)).collect();
    for (&generator, factors) in generators.iter().zip(&factored) {
        let product = product(factors);
        let sum = sum(generator);
        writeln!(out, "   generator {generator:o} is {sum}{product}")?;
    }
    let shared = shared(&factored);
    match shared {
        None => writeln!(out, "   no factor is shared by all generators")?,
        Some(factor) => writeln!(out, "   SHARED by all generators: {}", sum(factor))?,
    }
    writeln!(out, "   check 0x{check:X} is {}", sum(check))?;
    Ok(shared.is_none())
}

/// The polynomial as a sum of powers, the highest first.
fn sum(polynomial: u64) -> String {
    let powers = (0..64).rev().filter(|&j| polynomial >> j & 1 == 1);
    let terms: Vec<String> = powers
        .map(|j| match j {
            0 => "1".to_string(),
            1 => "x".to_string(),
            _ => format!("x^{j}"),
        })
        .collect();
    terms.join("+")
}

/// What is said of a polynomial's factors after its sum.
fn product(factors: &[u64]) -> String {
    match factors {
        [] => String::new(),
        [_] => ", irreducible".to_string(),
        _ => {
            let factors = factors.iter().map(|&factor| format!("({})", sum(factor)));
            format!(" = {}", factors.collect::<String>())
        }
    }
}

/// The first factor that all have.
fn shared(factored: &[Vec<u64>]) -> Option<u64> {
    let (first, others) = factored.split_first()?;
    let in_all = |factor: &u64| others.iter().all(|factors| factors.contains(factor));
    first.iter().copied().find(in_all)
}

/// The irreducible factors of a polynomial other than 0, with repeats, in
/// increasing order. All are tried from x on: one that divides has no factor
/// that was tried before.
fn factors(polynomial: u64) -> Vec<u64> {
    let (mut rest, mut tried) = (polynomial, 2);
    let mut factors = Vec::new();
    while rest > 1 {
        match quotient(rest, tried) {
            Some(quotient) => {
                factors.push(tried);
                rest = quotient;
            }
            None => tried += 1,
        }
    }
    factors
}

/// By long division, where nothing remains.
fn quotient(polynomial: u64, divisor: u64) -> Option<u64> {
    let (mut rest, mut quotient) = (polynomial, 0);
    while rest != 0 && rest.leading_zeros() <= divisor.leading_zeros() {
        let place = divisor.leading_zeros() - rest.leading_zeros();
        quotient |= 1 << place;
        rest ^= divisor << place;
    }
    (rest == 0).then_some(quotient)
}

#[cfg(test)]
mod tests {
    use super::{factors, sum, write};

    #[test]
    fn sums() {
        assert_eq!(sum(0o13), "x^3+x+1");
        assert_eq!(sum(0x43), "x^6+x+1");
        assert_eq!(sum(0x61), "x^6+x^5+1");
        assert_eq!(sum(2), "x");
    }

    #[test]
    fn factors_with_repeats() {
        assert!(factors(1).is_empty());
        assert_eq!(factors(0o13), [0o13]);
        assert_eq!(factors(0o61), [7, 0o13]);
        assert_eq!(factors(0o401), [3; 8]);
        assert_eq!(factors(0o60), [2, 2, 2, 2, 3]);
        let irreducible = (2..512).filter(|&p| factors(p).len() == 1);
        let degree = |p: u64| p.ilog2();
        let counts = irreducible.fold([0; 9], |mut counts, p| {
            counts[degree(p) as usize] += 1;
            counts
        });
        assert_eq!(counts, [0, 2, 1, 2, 3, 6, 9, 18, 30]);
    }

    fn said(generators: &[u64]) -> (bool, String) {
        let mut out = Vec::new();
        let fine = write(&mut out, generators, 0x43).unwrap();
        (fine, String::from_utf8(out).unwrap())
    }

    /// The line of the check, which is the last.
    const CHECK: &str = "   check 0x43 is x^6+x+1\n";

    #[test]
    fn no_factor_in_all() {
        let (fine, text) = said(&[1, 5, 6, 0o13]);
        let expected = "
1. The polynomials written out
   generator 1 is 1
   generator 5 is x^2+1 = (x+1)(x+1)
   generator 6 is x^2+x = (x)(x+1)
   generator 13 is x^3+x+1, irreducible
   no factor is shared by all generators
";
        assert_eq!((fine, text), (true, format!("{expected}{CHECK}")));
        // Each two of them share one.
        assert!(said(&[0o11, 0o35, 0o61]).0);
    }

    #[test]
    fn a_factor_in_all() {
        let (fine, text) = said(&[5, 3]);
        assert!(!fine);
        assert!(text.ends_with(&format!("   SHARED by all generators: x+1\n{CHECK}")));
        let (fine, text) = said(&[0o13, 0o35, 0o61]);
        assert!(!fine);
        assert!(text.contains("   SHARED by all generators: x^3+x+1\n"));
    }
}
