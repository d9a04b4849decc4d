//! A small generator of pseudo-random numbers (splitmix64), so that a seed alone fixes every input.

/// A sequence of pseudo-random numbers.
pub struct Random(u64);

impl Random {
    /// The sequence of a seed.
    pub fn new(seed: u64) -> Self {
        Random(seed)
    }

    /// The sequence of one numbered item (a trace, a script) under a seed, so that it can be made again alone.
    pub fn of_item(seed: u64, item: u64) -> Self {
        let mut base = Random(seed);
        Random(base.next_u64() ^ Random(item).next_u64())
    }

    /// The next 64 bits.
    pub fn next_u64(&mut self) -> u64 {
        self.0 = self.0.wrapping_add(0x9E37_79B9_7F4A_7C15);
        let mut z = self.0;
        z = (z ^ (z >> 30)).wrapping_mul(0xBF58_476D_1CE4_E5B9);
        z = (z ^ (z >> 27)).wrapping_mul(0x94D0_49BB_1331_11EB);
        z ^ (z >> 31)
    }

    /// A number from 0 to `bound` - 1.
    pub fn below(&mut self, bound: usize) -> usize {
        assert!(bound > 0, "nothing is below 0");
        ((u128::from(self.next_u64()) * bound as u128) >> 64) as usize
    }

    /// A number from `low` to `high`, both included.
    pub fn within(&mut self, low: usize, high: usize) -> usize {
        low + self.below(high - low + 1)
    }

    /// True `times` times in a thousand.
    pub fn chance(&mut self, times: usize) -> bool {
        self.below(1000) < times
    }

    /// A byte.
    pub fn byte(&mut self) -> u8 {
        self.next_u64() as u8
    }

    /// One of the items.
    pub fn pick<T: Copy>(&mut self, items: &[T]) -> T {
        items[self.below(items.len())]
    }

    /// That many bytes.
    pub fn bytes(&mut self, size: usize) -> Vec<u8> {
        let mut bytes = Vec::with_capacity(size + 7);
        while bytes.len() < size {
            bytes.extend_from_slice(&self.next_u64().to_be_bytes());
        }
        bytes.truncate(size);
        bytes
    }
}

#[cfg(test)]
mod tests {
    use super::*;

    #[test]
    fn gives_the_published_sequence() {
        let mut random = Random::new(1_234_567);
        assert_eq!(random.next_u64(), 6_457_827_717_110_365_317);
        assert_eq!(random.next_u64(), 3_203_168_211_198_807_973);
    }

    #[test]
    fn stays_within_bounds_and_reaches_them() {
        let mut random = Random::new(1);
        let mut seen = [false; 5];
        for _ in 0..1000 {
            seen[random.within(3, 7) - 3] = true;
        }
        assert_eq!(seen, [true; 5]);
    }

    #[test]
    fn items_have_sequences_of_their_own() {
        let first = Random::of_item(1, 0).next_u64();
        assert_eq!(first, Random::of_item(1, 0).next_u64());
        assert_ne!(first, Random::of_item(1, 1).next_u64());
        assert_ne!(first, Random::of_item(2, 0).next_u64());
    }

    #[test]
    fn gives_as_many_bytes_as_asked() {
        for size in 0..20 {
            assert_eq!(Random::new(9).bytes(size).len(), size);
        }
    }
}
