//! A small generator of numbers with a fixed sequence for each seed (xorshift64*).

pub struct Random(u64);

impl Random {
    pub fn new(seed: u64) -> Random {
        // Neighbouring seeds start far apart, and zero is no state.
        Random((seed.wrapping_add(1)).wrapping_mul(0x9E37_79B9_7F4A_7C15) | 1)
    }

    pub fn bits(&mut self) -> u32 {
        self.0 ^= self.0 >> 12;
        self.0 ^= self.0 << 25;
        self.0 ^= self.0 >> 27;
        (self.0.wrapping_mul(0x2545_F491_4F6C_DD1D) >> 32) as u32
    }

    /// From `low` to `high`, both included.
    pub fn range(&mut self, low: i32, high: i32) -> i32 {
        let count = (i64::from(high) - i64::from(low) + 1) as u64;
        (i64::from(low) + ((u64::from(self.bits()) * count) >> 32) as i64) as i32
    }

    /// Below `end`.
    pub fn index(&mut self, end: usize) -> usize {
        self.range(0, end as i32 - 1) as usize
    }

    /// True once in `times` on average.
    pub fn once_in(&mut self, times: i32) -> bool {
        self.range(1, times) == 1
    }

    pub fn pick<T: Copy>(&mut self, from: &[T]) -> T {
        from[self.index(from.len())]
    }

    /// From 0 up to 1.
    pub fn unit(&mut self) -> f32 {
        self.bits() as f32 / u32::MAX as f32
    }

    pub fn float(&mut self, low: f32, high: f32) -> f32 {
        low + (high - low) * self.unit()
    }

    pub fn byte(&mut self) -> u8 {
        self.bits() as u8
    }

    pub fn fill_bytes(&mut self, bytes: &mut [u8]) {
        bytes.iter_mut().for_each(|byte| *byte = self.byte());
    }

    pub fn fill_numbers(&mut self, numbers: &mut [i32]) {
        numbers.iter_mut().for_each(|number| *number = self.bits() as i32);
    }
}
