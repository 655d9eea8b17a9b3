//! Polynomials over GF(2): bit j of a number is the coefficient of x^j.

/// x^j times u, modulo x^N+1: u turned by j places among its N.
pub fn turn(u: u128, j: usize, length: usize) -> u128 {
    let j = j % length;
    if j == 0 {
        return u;
    }
    let low = if length == 128 { !0 } else { (1 << length) - 1 };
    (u << j | u >> (length - j)) & low
}

/// u times g, modulo x^N+1.
pub fn cyclic_product(u: u128, g: u64, length: usize) -> u128 {
    (0..64)
        .filter(|j| g >> j & 1 == 1)
        .fold(0, |sum, j| sum ^ turn(u, j, length))
}

/// u times g, the ordinary product: its bits below 128, and those from there on.
pub fn product(u: u128, g: u64) -> [u128; 2] {
    let powers = (0..64).filter(|j| g >> j & 1 == 1);
    powers.fold([0; 2], |[low, high], j| {
        [low ^ u << j, high ^ u.checked_shr(128 - j).unwrap_or(0)]
    })
}

/// The bit of u at a place, which may be past all bits.
pub fn bit(u: u128, place: usize) -> u8 {
    u.checked_shr(place as u32)
        .map_or(0, |rest| (rest & 1) as u8)
}

/// b at this place, and 0 elsewhere; 0 where no bit has the place.
pub fn at_place(b: usize, place: usize) -> u128 {
    (b as u128).checked_shl(place as u32).unwrap_or(0)
}

/// The remainder of the ordinary division of u by p, a nonzero polynomial.
pub fn remainder(u: u128, p: u64) -> u64 {
    let p = u128::from(p);
    let mut rest = u;
    // As long as the rest reaches p's degree, take p away under its top bit.
    while rest != 0 && rest.leading_zeros() <= p.leading_zeros() {
        rest ^= p << (p.leading_zeros() - rest.leading_zeros());
    }
    rest as u64
}

/// Whether u is the ordinary product of p with some polynomial.
pub fn divides(p: u64, u: u128) -> bool {
    remainder(u, p) == 0
}

/// The 2^(m-1) polynomials of degree m with constant term 1, in order.
pub fn candidates(m: usize) -> impl Iterator<Item = u64> {
    (0..1u64 << (m - 1)).map(move |middle| 1 << m | middle << 1 | 1)
}

#[cfg(test)]
mod tests {
    use super::*;

    #[test]
    fn division_undoes_the_product() {
        for p in 1..64u64 {
            for q in 0..64 {
                for r in (0..64).filter(|r| r < &(1u128 << (63 - p.leading_zeros()))) {
                    let u = product(q, p)[0] ^ r;
                    assert_eq!(u128::from(remainder(u, p)), r);
                }
            }
        }
    }

    #[test]
    fn the_cyclic_product_is_the_product_modulo_x_n_plus_1() {
        for length in 1..10usize {
            for u in 0..1u128 << length {
                for g in 0..512u64 {
                    let [whole, above] = product(u, g);
                    let expected = u128::from(remainder(whole, 1 << length | 1));
                    assert_eq!(above, 0);
                    assert_eq!(cyclic_product(u, g, length), expected);
                }
            }
        }
    }

    #[test]
    fn products_of_more_than_128_bits() {
        assert_eq!(product(!0, 3), [1, 1]);
        assert_eq!(product(1 << 127, 0o561), [1 << 127, 0o561 >> 1]);
        // A word of two parts that meet in no bit: the products add up.
        for g in 1..512 {
            let low = product(0x1234_5678_9ABC_DEF0, g);
            let high = product(0x0FED_CBA9 << 96, g);
            let both = product(0x0FED_CBA9 << 96 | 0x1234_5678_9ABC_DEF0, g);
            assert_eq!(both, [low[0] ^ high[0], low[1] ^ high[1]]);
            assert_eq!(high[1], product(0x0FED_CBA9, g)[0] >> 32);
        }
        assert_eq!(
            [bit(2, 1), bit(2, 0), bit(!0, 127), bit(!0, 128)],
            [1, 0, 1, 0]
        );
        assert_eq!(
            [at_place(1, 127), at_place(1, 128), at_place(0, 128)],
            [1 << 127, 0, 0]
        );
    }

    #[test]
    fn words_of_128_places_turn_too() {
        assert_eq!(turn(1 << 127 | 1, 1, 128), 0b11);
        assert_eq!(turn(1 << 127, 129, 128), 1);
        assert_eq!(remainder(!0, 3), 0);
        assert_eq!(remainder(1 << 127, 3), 1);
    }

    #[test]
    fn the_candidates_of_degree_3() {
        assert_eq!(candidates(3).collect::<Vec<_>>(), [9, 11, 13, 15]);
        assert_eq!(candidates(1).collect::<Vec<_>>(), [3]);
        assert_eq!(candidates(12).count(), 2048);
    }
}
