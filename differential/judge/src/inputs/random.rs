//! Random numbers that follow from a seed: splitmix64.

#[derive(Clone)]
pub struct Random(u64);

impl Random {
    pub fn new(seed: u64) -> Self {
        Self(seed)
    }

    /// Other numbers, which follow from where these stand. Drawing them leaves these as they are, so
    /// that the inputs of a seed stay the same where something is added to them.
    pub fn apart(&self) -> Self {
        Self(!self.0)
    }

    pub fn bits64(&mut self) -> u64 {
        self.0 = self.0.wrapping_add(0x9e37_79b9_7f4a_7c15);
        let mut mixed = self.0;
        mixed = (mixed ^ (mixed >> 30)).wrapping_mul(0xbf58_476d_1ce4_e5b9);
        mixed = (mixed ^ (mixed >> 27)).wrapping_mul(0x94d0_49bb_1331_11eb);
        mixed ^ (mixed >> 31)
    }

    pub fn bits32(&mut self) -> u32 {
        (self.bits64() >> 32) as u32
    }

    /// A float of any bits.
    pub fn float(&mut self) -> f32 {
        f32::from_bits(self.bits32())
    }

    /// A whole number below `limit`.
    pub fn below(&mut self, limit: u32) -> u32 {
        ((u64::from(self.bits32()) * u64::from(limit)) >> 32) as u32
    }

    /// True in `part` of a hundred cases.
    pub fn percent(&mut self, part: u32) -> bool {
        self.below(100) < part
    }

    /// From 0 up to 1, in steps of two to the -24.
    pub fn unit(&mut self) -> f32 {
        (self.bits32() >> 8) as f32 / 16_777_216.0
    }

    pub fn between(&mut self, low: f32, high: f32) -> f32 {
        low + (high - low) * self.unit()
    }

    /// From 1 up to 2, times two to a power between `low` and `high`, of either sign.
    pub fn sized(&mut self, low: i32, high: i32) -> f32 {
        let power = low + self.below((high - low + 1) as u32) as i32;
        let sign = if self.percent(50) { -1.0 } else { 1.0 };
        (sign * f64::from(1.0 + self.unit()) * 2f64.powi(power)) as f32
    }

    pub fn pick<T: Copy>(&mut self, from: &[T]) -> T {
        from[self.below(from.len() as u32) as usize]
    }
}
