//! Numbers that look random and come out the same in every run (splitmix64),
//! and the values that every family draws.

use dohvrin::Link;

pub struct Random(u64);

impl Random {
    pub fn new(seed: u64) -> Random {
        Random(seed)
    }

    pub fn next(&mut self) -> u64 {
        self.0 = self.0.wrapping_add(0x9E37_79B9_7F4A_7C15);
        let mut x = self.0;
        x = (x ^ x >> 30).wrapping_mul(0xBF58_476D_1CE4_E5B9);
        x = (x ^ x >> 27).wrapping_mul(0x94D0_49BB_1331_11EB);
        x ^ x >> 31
    }

    /// A number from `low` to `high`.
    pub fn within(&mut self, low: u64, high: u64) -> u64 {
        low + self.next() % (high - low + 1)
    }

    /// An index below `size`, which is not 0.
    pub fn index(&mut self, size: usize) -> usize {
        (self.next() % size as u64) as usize
    }

    pub fn pick(&mut self, values: &[u64]) -> u64 {
        values[self.index(values.len())]
    }

    pub fn coin(&mut self) -> bool {
        self.next() >> 63 == 1
    }

    pub fn byte(&mut self) -> u8 {
        self.next() as u8
    }

    /// The version of either kind of link.
    pub fn version(&mut self) -> u64 {
        Link::ALL[self.index(2)].version()
    }

    /// A version of no kind: beside the right ones, the greatest of a byte, or
    /// far too large, with a right one in its low bits or not.
    pub fn wrong_version(&mut self) -> u64 {
        match self.within(0, 2) {
            0 => self.pick(&[0, 3]),
            1 => self.pick(&[4, 127, 128, 255, 256 | 1, 256 | 2]),
            _ => loop {
                let right = self.version();
                let version = self.huge(right);
                if Link::of(version).is_none() {
                    break version;
                }
            },
        }
    }

    /// A length from `least` to 128, often at an edge of the halves.
    pub fn length(&mut self, least: u64) -> u64 {
        let edge = self.pick(&[least, least + 1, 63, 64, 65, 127, 128]);
        if edge >= least && edge <= 128 && self.within(0, 3) == 0 {
            return edge;
        }
        self.within(least, 128)
    }

    /// A word of up to `bits` bits, at most 128: any, short, one bit, all ones
    /// or zero.
    pub fn word(&mut self, bits: u64) -> u128 {
        let any = u128::from(self.next()) << 64 | u128::from(self.next());
        match self.within(0, 7) {
            0 => any & ones(self.within(0, bits)),
            1 if bits > 0 => 1 << self.within(0, bits - 1),
            2 => ones(bits),
            3 if self.coin() => 0,
            _ => any & ones(bits),
        }
    }

    /// A word with a bit at `bits` or above, where there is such a bit.
    pub fn word_above(&mut self, bits: u64) -> u128 {
        let word = self.word(bits);
        if bits >= 128 {
            return word;
        }
        let place = if self.coin() {
            bits
        } else {
            self.within(bits, 127)
        };
        word | 1 << place
    }

    /// A number that is far too large, of which some low part may look right.
    pub fn huge(&mut self, right: u64) -> u64 {
        match self.within(0, 5) {
            0 => u64::MAX,
            1 => 1 << 63,
            2 => right.wrapping_neg(),
            3 => right | self.next() << 32 | 1 << 32,
            4 => right | 1 << self.within(8, 63),
            _ => self.next(),
        }
    }
}

/// The `bits` lowest bits, at most 128.
pub fn ones(bits: u64) -> u128 {
    if bits >= 128 {
        u128::MAX
    } else {
        (1 << bits) - 1
    }
}
