//! Random numbers from a seed (splitmix64): the same seed gives the same run on every machine.

pub struct Random {
    place: u64,
}

impl Random {
    pub fn new(seed: u64) -> Random {
        Random { place: seed }
    }

    /// Any 64 bits.
    pub fn word(&mut self) -> u64 {
        self.place = self.place.wrapping_add(0x9E37_79B9_7F4A_7C15);
        let mut z = self.place;
        z = (z ^ (z >> 30)).wrapping_mul(0xBF58_476D_1CE4_E5B9);
        z = (z ^ (z >> 27)).wrapping_mul(0x94D0_49BB_1331_11EB);
        z ^ (z >> 31)
    }

    /// Any byte.
    pub fn byte(&mut self) -> u8 {
        (self.word() >> 56) as u8
    }

    /// A number below n, which is not 0.
    pub fn below(&mut self, n: usize) -> usize {
        ((self.word() >> 32) * n as u64 >> 32) as usize
    }

    /// True k times out of n.
    pub fn chance(&mut self, k: usize, n: usize) -> bool {
        self.below(n) < k
    }

    /// One of the given bytes.
    pub fn one_of(&mut self, from: &[u8]) -> u8 {
        from[self.below(from.len())]
    }

    /// Fills a slice with any bytes.
    pub fn fill(&mut self, to: &mut [u8]) {
        for part in to.chunks_mut(8) {
            let word = self.word().to_le_bytes();
            part.copy_from_slice(&word[..part.len()]);
        }
    }
}
