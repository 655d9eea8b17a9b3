//! Which words a polynomial divides.

/// The remainders of a polynomial: for each byte of a word, what its 256 values
/// add to the word's remainder.
pub struct Remainders(Vec<[u16; 256]>);

impl Remainders {
    pub fn new(polynomial: u64, m: u64, bits: u64) -> Remainders {
        let mut power: u64 = 1;
        let mut tables = vec![[0; 256]; (bits as usize + 7) / 8];
        for table in &mut tables {
            for bit in 0..8 {
                // The upper half of the values so far: this bit is set.
                for value in 0..1 << bit {
                    table[1 << bit | value] = table[value] ^ power as u16;
                }
                power <<= 1;
                if power >> m & 1 == 1 {
                    power ^= polynomial;
                }
            }
        }
        Remainders(tables)
    }

    fn divides(&self, word: u128) -> bool {
        let bytes = word.to_le_bytes();
        let parts = self.0.iter().zip(bytes);
        parts.fold(0, |sum, (table, byte)| sum ^ table[usize::from(byte)]) == 0
    }

    /// How many of the words it divides; more than the bound are not counted on.
    pub fn divided(&self, words: &[u128], bound: usize) -> usize {
        let divided = words.iter().filter(|&&word| self.divides(word));
        divided.take(bound + 1).count()
    }
}

#[cfg(test)]
mod tests {
    use super::Remainders;

    #[test]
    fn divides_as_the_library_tests() {
        for p in [0b101, 0b111, 0x61, 0x43, 0x1565] {
            let m = u64::from(63 - u64::leading_zeros(p));
            let remainders = Remainders::new(p, m, 128);
            let mut word: u128 = 1;
            for _ in 0..500 {
                word = word.wrapping_mul(0x2545_F491_4F6C_DD1D_9E37_79B9_7F4A_7C15) ^ word >> 64;
                assert_eq!(
                    remainders.divides(word),
                    dohvrin::test(128, m, p, word).unwrap()
                );
                let multiple = dohvrin::append(128, m, p, word >> m).unwrap();
                assert!(remainders.divides(multiple));
            }
        }
    }
}
