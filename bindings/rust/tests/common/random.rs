//! Numbers that are the same each time.

pub struct Random(pub u64);

impl Random {
    pub fn below(&mut self, n: u64) -> u64 {
        self.0 ^= self.0 << 13;
        self.0 ^= self.0 >> 7;
        self.0 ^= self.0 << 17;
        self.0 % n
    }

    /// From -r to r.
    pub fn within(&mut self, r: i32) -> i32 {
        self.below(2 * r as u64 + 1) as i32 - r
    }
}
