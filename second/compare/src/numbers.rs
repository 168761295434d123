//! Numbers at random, from a seed.

/// The generator splitmix64.
pub struct Numbers(u64);

impl Numbers {
    /// The numbers of a seed.
    pub fn new(seed: u64) -> Numbers {
        Numbers(seed)
    }

    /// The numbers of one table of a run: they depend on the run's seed and the table's number only.
    pub fn of_table(seed: u64, number: u64) -> Numbers {
        let mut first = Numbers(seed);
        let mut second = Numbers(first.next() ^ number.wrapping_mul(0xD134_2543_DE82_EF95));
        Numbers(second.next())
    }

    /// The next number, of 64 bits.
    pub fn next(&mut self) -> u64 {
        self.0 = self.0.wrapping_add(0x9E37_79B9_7F4A_7C15);
        let mut z = self.0;
        z = (z ^ (z >> 30)).wrapping_mul(0xBF58_476D_1CE4_E5B9);
        z = (z ^ (z >> 27)).wrapping_mul(0x94D0_49BB_1331_11EB);
        z ^ (z >> 31)
    }

    /// A number below `end`, which is not 0.
    pub fn below(&mut self, end: usize) -> usize {
        ((u128::from(self.next()) * end as u128) >> 64) as usize
    }

    /// True in `part` of `whole` cases.
    pub fn chance(&mut self, part: usize, whole: usize) -> bool {
        self.below(whole) < part
    }

    /// One of the items.
    pub fn pick<T: Copy>(&mut self, items: &[T]) -> T {
        items[self.below(items.len())]
    }

    /// A 16-bit number, often one at an edge.
    pub fn word(&mut self) -> u16 {
        match self.below(4) {
            0 => self.pick(&[0, 1, 2, 255, 256, 0x7FFF, 0x8000, 0x8001, 0xFFFE, 0xFFFF]),
            1 => self.below(16) as u16,
            _ => self.next() as u16,
        }
    }

    /// Bytes.
    pub fn bytes(&mut self, count: usize) -> Vec<u8> {
        (0..count).map(|_| self.next() as u8).collect()
    }
}
