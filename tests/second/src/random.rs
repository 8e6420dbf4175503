//! A small random source by seed (splitmix64).

pub struct Random {
    state: u64,
}

const GOLDEN: u64 = 0x9E37_79B9_7F4A_7C15;

fn mixed(state: u64) -> u64 {
    let first = (state ^ (state >> 30)).wrapping_mul(0xBF58_476D_1CE4_E5B9);
    let second = (first ^ (first >> 27)).wrapping_mul(0x94D0_49BB_1331_11EB);
    second ^ (second >> 31)
}

impl Random {
    /// The source of one call: its numbers hang on the seed and the call's index only.
    pub fn of_call(seed: u64, index: u64) -> Random {
        let of_seed = mixed(seed.wrapping_add(GOLDEN));
        Random { state: mixed(of_seed ^ mixed(index.wrapping_mul(GOLDEN).wrapping_add(1))) }
    }

    pub fn next(&mut self) -> u64 {
        self.state = self.state.wrapping_add(GOLDEN);
        mixed(self.state)
    }

    /// A number from `low` to `high`, both included.
    pub fn between(&mut self, low: u64, high: u64) -> u64 {
        low + self.next() % (high - low + 1)
    }

    /// A small number of the kind wanted, from `low` to `high`.
    pub fn small(&mut self, low: u32, high: u32) -> u32 {
        self.between(u64::from(low), u64::from(high)) as u32
    }

    /// A place below `length`.
    pub fn place(&mut self, length: usize) -> usize {
        self.between(0, length as u64 - 1) as usize
    }

    pub fn one_in(&mut self, n: u64) -> bool {
        self.between(1, n) == 1
    }

    pub fn pick<T: Copy>(&mut self, choices: &[T]) -> T {
        choices[self.place(choices.len())]
    }

    /// A number of 1 to `most`, as likely to be short as to be long.
    pub fn of_any_size(&mut self, most: u32) -> u32 {
        let bits = self.between(1, 32);
        let limit = ((1_u64 << bits) - 1).min(u64::from(most));
        self.between(1, limit) as u32
    }
}
