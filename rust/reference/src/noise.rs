//! A small generator of numbers from a fixed seed, so that every run of a test is the same run.

/// Marsaglia's xorshift of 64 bits, its output multiplied.
pub struct Noise(u64);

impl Noise {
    pub fn new(seed: u64) -> Noise {
        Noise(seed.wrapping_mul(0x9E37_79B9_7F4A_7C15) | 1)
    }

    pub fn number(&mut self) -> u64 {
        self.0 ^= self.0 >> 12;
        self.0 ^= self.0 << 25;
        self.0 ^= self.0 >> 27;
        self.0.wrapping_mul(0x2545_F491_4F6C_DD1D)
    }

    /// A number below the bound; 0 where the bound is 0.
    pub fn below(&mut self, bound: usize) -> usize {
        ((self.number() >> 32) as usize).checked_rem(bound).unwrap_or(0)
    }

    /// A number from one to the other, both included.
    pub fn between(&mut self, low: usize, high: usize) -> usize {
        low + self.below(high - low + 1)
    }

    pub fn byte(&mut self) -> u8 {
        (self.number() >> 56) as u8
    }

    pub fn bytes(&mut self, count: usize) -> Vec<u8> {
        (0..count).map(|_| self.byte()).collect()
    }

    /// Symbols below a bound of at most 256.
    pub fn symbols(&mut self, count: usize, bound: usize) -> Vec<u8> {
        (0..count).map(|_| self.below(bound) as u8).collect()
    }

    /// Different places below n, as many as asked for or n.
    pub fn places(&mut self, n: usize, count: usize) -> Vec<usize> {
        let mut all: Vec<usize> = (0..n).collect();
        let count = count.min(n);
        for i in 0..count {
            let other = self.between(i, n - 1);
            all.swap(i, other);
        }
        all.truncate(count);
        all
    }

    /// Changes the symbol at each of these places to another one below the bound.
    pub fn strike(&mut self, word: &mut [u8], places: &[usize], bound: usize) {
        for &place in places {
            word[place] ^= self.between(1, bound - 1) as u8;
        }
    }
}
