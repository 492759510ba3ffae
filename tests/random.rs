//! Random numbers for the outside tests and the benchmark, the same for the same seed.

/// A small generator of random numbers (splitmix64).
pub struct Random(pub u64);

impl Random {
    pub fn next(&mut self) -> u64 {
        self.0 = self.0.wrapping_add(0x9E37_79B9_7F4A_7C15);
        let mut z = self.0;
        z = (z ^ z >> 30).wrapping_mul(0xBF58_476D_1CE4_E5B9);
        z = (z ^ z >> 27).wrapping_mul(0x94D0_49BB_1331_11EB);
        z ^ z >> 31
    }

    /// A number below the limit.
    pub fn below(&mut self, limit: usize) -> usize {
        (self.next() % limit as u64) as usize
    }

    /// True once in so many times.
    pub fn one_in(&mut self, times: usize) -> bool {
        self.below(times) == 0
    }

    pub fn octet(&mut self) -> u8 {
        self.next() as u8
    }

    pub fn octets(&mut self, length: usize) -> Vec<u8> {
        (0..length).map(|_| self.octet()).collect()
    }

    pub fn array<const N: usize>(&mut self) -> [u8; N] {
        std::array::from_fn(|_| self.octet())
    }

    pub fn stamp(&mut self) -> u16 {
        self.next() as u16
    }

    pub fn address(&mut self) -> u32 {
        self.next() as u32 >> 8
    }

    pub fn pick<T: Clone>(&mut self, some: &[T]) -> T {
        some[self.below(some.len())].clone()
    }

    /// Another octet than this one.
    pub fn other_octet(&mut self, octet: u8) -> u8 {
        octet ^ (1 + self.below(255)) as u8
    }

    /// Turn so many random bits round.
    pub fn flip(&mut self, octets: &mut [u8], times: usize) {
        for _ in 0..times {
            let bit = self.below(8 * octets.len());
            octets[bit / 8] ^= 0x80 >> (bit % 8);
        }
    }
}
