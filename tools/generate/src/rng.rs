//! A small generator of pseudo-random numbers (splitmix64): the same seed, the same scripts.

pub struct Rng(u64);

impl Rng {
    /// The stream of item `index` under `seed`: an item can be made again without those before it.
    pub fn of(seed: u64, index: u64) -> Rng {
        let mut first = Rng(seed);
        let start = first.next();
        Rng(start ^ index.wrapping_mul(0xD134_2543_DE82_EF95))
    }

    pub fn next(&mut self) -> u64 {
        self.0 = self.0.wrapping_add(0x9E37_79B9_7F4A_7C15);
        let mut z = self.0;
        z = (z ^ (z >> 30)).wrapping_mul(0xBF58_476D_1CE4_E5B9);
        z = (z ^ (z >> 27)).wrapping_mul(0x94D0_49BB_1331_11EB);
        z ^ (z >> 31)
    }

    /// A stream of its own for these bytes, which leaves this one where it is.
    pub fn aside(&self, bytes: &[u8]) -> Rng {
        let fold = |sum: u64, &byte: &u8| (sum ^ u64::from(byte)).wrapping_mul(0x0100_0000_01B3);
        Rng(self.0 ^ bytes.iter().fold(0xCBF2_9CE4_8422_2325, fold))
    }

    /// From 0 to `count` - 1.
    pub fn below(&mut self, count: usize) -> usize {
        (self.next() % count as u64) as usize
    }

    /// From `low` to `high`, both included.
    pub fn range(&mut self, low: i64, high: i64) -> i64 {
        low + (self.next() % (high - low + 1) as u64) as i64
    }

    pub fn chance(&mut self, percent: usize) -> bool {
        self.below(100) < percent
    }

    pub fn pick<T: Copy>(&mut self, items: &[T]) -> T {
        items[self.below(items.len())]
    }
}
