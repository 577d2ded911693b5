//! The generator, which gives the same numbers in each run.

/// The generator xorshift64* (Marsaglia's shifts, then Vigna's multiplier): small, and even
/// enough in its upper bits for choices like these.
pub struct Random(u64);

impl Random {
    /// A generator of its own for each seed; the state must not be 0.
    pub fn new(seed: u64) -> Random {
        Random(seed.wrapping_mul(0x9E37_79B9_7F4A_7C15) | 1)
    }

    /// A generator that starts from the given state, which must not be 0: the benchmark's seeds are
    /// states.
    pub fn from_state(state: u64) -> Random {
        Random(state)
    }

    /// The next 32 bits: the upper half, since the lower bits are the weaker ones.
    pub fn word(&mut self) -> u32 {
        self.0 ^= self.0 >> 12;
        self.0 ^= self.0 << 25;
        self.0 ^= self.0 >> 27;
        (self.0.wrapping_mul(0x2545_F491_4F6C_DD1D) >> 32) as u32
    }

    /// A number below the limit, which is not 0, by scaling; uneven only by one part in 2^32 / limit.
    pub fn below(&mut self, limit: usize) -> usize {
        ((u64::from(self.word()) * limit as u64) >> 32) as usize
    }

    /// A number from the first to the last one, both included.
    pub fn within(&mut self, first: usize, last: usize) -> usize {
        first + self.below(last - first + 1)
    }

    /// True so many times in a hundred.
    pub fn percent(&mut self, chance: usize) -> bool {
        self.below(100) < chance
    }

    /// One of some values.
    pub fn pick<T: Copy>(&mut self, values: &[T]) -> T {
        values[self.below(values.len())]
    }

    /// So many bytes of any value.
    pub fn bytes(&mut self, count: usize) -> Vec<u8> {
        let mut bytes: Vec<u8> = (0..count.div_ceil(4))
            .flat_map(|_| self.word().to_le_bytes())
            .collect();
        bytes.truncate(count);
        bytes
    }

    /// Puts values into any order.
    pub fn shuffle<T>(&mut self, values: &mut [T]) {
        for last in (1..values.len()).rev() {
            values.swap(last, self.below(last + 1));
        }
    }
}
