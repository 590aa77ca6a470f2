//! Seeded random numbers (SplitMix64), so that a run can be made again.

use reference::{HOUSE_LIMIT, SUM_LIMIT};

pub struct Random(u64);

impl Random {
    /// The numbers for one input of a seed.
    pub fn new(seed: u64, input: u64) -> Random {
        let mut random = Random(seed);
        random.0 = random.next() ^ input.wrapping_mul(0xD134_2543_DE82_EF95);
        random.next();
        random
    }

    pub fn next(&mut self) -> u64 {
        self.0 = self.0.wrapping_add(0x9E37_79B9_7F4A_7C15);
        let mut z = self.0;
        z = (z ^ (z >> 30)).wrapping_mul(0xBF58_476D_1CE4_E5B9);
        z = (z ^ (z >> 27)).wrapping_mul(0x94D0_49BB_1331_11EB);
        z ^ (z >> 31)
    }

    /// A number below a limit, which is not 0.
    pub fn below(&mut self, limit: u64) -> u64 {
        ((self.next() as u128 * limit as u128) >> 64) as u64
    }

    /// A place in a list that is not empty.
    pub fn place<T>(&mut self, list: &[T]) -> usize {
        self.below(list.len() as u64) as usize
    }

    /// A number from one to another, both included.
    pub fn from(&mut self, least: u64, most: u64) -> u64 {
        least + self.below(most - least + 1)
    }

    /// Whether something happens that happens once in so many times.
    pub fn once_in(&mut self, times: u64) -> bool {
        self.below(times) == 0
    }

    pub fn pick<T: Copy>(&mut self, list: &[T]) -> T {
        list[self.place(list)]
    }

    /// A number with as many bits as chance gives it, up to some.
    pub fn bits(&mut self, most: u64) -> u64 {
        let bits = self.from(1, most);
        self.next() >> (64 - bits)
    }

    /// Any number, with a liking for limits and their neighbours.
    pub fn wild(&mut self) -> u64 {
        const EDGES: [u64; 14] = [
            0,
            1,
            2,
            HOUSE_LIMIT - 1,
            HOUSE_LIMIT,
            HOUSE_LIMIT + 1,
            SUM_LIMIT - 1,
            SUM_LIMIT,
            SUM_LIMIT + 1,
            1 << 62,
            (1 << 63) - 1,
            1 << 63,
            u64::MAX - 1,
            u64::MAX,
        ];
        if self.once_in(2) {
            self.pick(&EDGES)
        } else {
            self.bits(64)
        }
    }
}
