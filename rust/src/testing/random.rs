//! Random numbers that a seed repeats (the splitmix64 generator).

/// A source of random numbers.
pub struct Random {
    state: u64,
}

impl Random {
    /// The source that a seed gives.
    pub fn of_seed(seed: u64) -> Random {
        Random { state: seed }
    }

    fn next(&mut self) -> u64 {
        self.state = self.state.wrapping_add(0x9e37_79b9_7f4a_7c15);
        let mut word = self.state;
        word = (word ^ (word >> 30)).wrapping_mul(0xbf58_476d_1ce4_e5b9);
        word = (word ^ (word >> 27)).wrapping_mul(0x94d0_49bb_1331_11eb);
        word ^ (word >> 31)
    }

    /// Any 32-bit word.
    pub fn word(&mut self) -> u32 {
        (self.next() >> 32) as u32
    }

    /// A number below a bound, which isn't 0.
    pub fn below(&mut self, bound: u32) -> u32 {
        ((u64::from(self.word()) * u64::from(bound)) >> 32) as u32
    }

    /// A place below a bound, which isn't 0.
    pub fn place(&mut self, bound: usize) -> usize {
        self.below(bound as u32) as usize
    }

    /// A number from one to another.
    pub fn between(&mut self, least: u32, most: u32) -> u32 {
        least + self.below(most - least + 1)
    }

    /// True in so many cases of a hundred.
    pub fn percent(&mut self, cases: u32) -> bool {
        self.below(100) < cases
    }

    /// One of several things.
    pub fn one_of<A: Copy>(&mut self, things: &[A]) -> A {
        things[self.place(things.len())]
    }
}
