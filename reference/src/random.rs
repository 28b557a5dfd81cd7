//! A small deterministic source of numbers (splitmix64).

pub struct Random {
    state: u64,
}

impl Random {
    pub fn new(seed: u64) -> Random {
        Random { state: seed }
    }

    /// The source of case `number` of a seed.
    pub fn for_case(seed: u64, number: u64) -> Random {
        let mut of_seed = Random::new(seed);
        let start = of_seed.any();
        let mut of_case = Random::new(start ^ number);
        Random::new(of_case.any())
    }

    /// Any 64-bit number.
    pub fn any(&mut self) -> u64 {
        self.state = self.state.wrapping_add(0x9e37_79b9_7f4a_7c15);
        let mut z = self.state;
        z = (z ^ (z >> 30)).wrapping_mul(0xbf58_476d_1ce4_e5b9);
        z = (z ^ (z >> 27)).wrapping_mul(0x94d0_49bb_1331_11eb);
        z ^ (z >> 31)
    }

    /// A number from `low` to `high`, both possible. Needs low <= high.
    pub fn between(&mut self, low: u32, high: u32) -> u32 {
        let size = u64::from(high) - u64::from(low) + 1;
        low + (self.any() % size) as u32
    }

    /// The same for lengths and indexes.
    pub fn index(&mut self, low: usize, high: usize) -> usize {
        self.between(low as u32, high as u32) as usize
    }

    /// True once in `times`, on average.
    pub fn one_in(&mut self, times: u32) -> bool {
        self.between(1, times) == 1
    }

    /// One of the listed things.
    pub fn pick<T: Copy>(&mut self, things: &[T]) -> T {
        things[self.index(0, things.len() - 1)]
    }

    /// Any bytes.
    pub fn bytes(&mut self, count: usize) -> Vec<u8> {
        (0..count).map(|_| self.any() as u8).collect()
    }
}
