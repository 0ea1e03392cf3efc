//! Fixed random numbers: xorshift with the shifts 13, 7, 17 on 64 bits.
//! Assumes a seed that is not 0.

pub const SEED: u64 = 0x9E37_79B9_7F4A_7C15;

/// Says where a word's random numbers come from.
pub fn say_seed(word: &str) {
    println!("{word}: random numbers: xorshift 13 7 17, seed {SEED:016X}");
}

/// 2 to the e, for a normal result.
pub fn two(e: i32) -> f32 {
    f32::from_bits(((e + 127) as u32) << 23)
}

pub struct Random(pub u64);

impl Random {
    pub fn next(&mut self) -> u64 {
        self.0 ^= self.0 << 13;
        self.0 ^= self.0 >> 7;
        self.0 ^= self.0 << 17;
        self.0
    }

    /// A number below `limit`, from the upper half of the state.
    pub fn below(&mut self, limit: usize) -> usize {
        (((self.next() >> 32) * limit as u64) >> 32) as usize
    }

    /// Any 32 bits.
    pub fn pattern(&mut self) -> u32 {
        (self.next() >> 16) as u32
    }

    /// A whole number from `low` to `high`.
    pub fn between(&mut self, low: i32, high: i32) -> i32 {
        low + self.below((high - low + 1) as usize) as i32
    }

    /// True once in so many times.
    pub fn once_in(&mut self, times: usize) -> bool {
        self.below(times) == 0
    }

    pub fn one_of<T: Copy>(&mut self, list: &[T]) -> T {
        list[self.below(list.len())]
    }

    /// Even in -1..1, in steps of 2^-24.
    pub fn unit(&mut self) -> f32 {
        (self.below(1 << 25) as i32 - (1 << 24)) as f32 * two(-24)
    }

    /// The bit of a sign, set or not.
    pub fn sign(&mut self) -> u32 {
        (self.below(2) as u32) << 31
    }
}
