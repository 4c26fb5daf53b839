//! Numbers for the task sets: splitmix64 (Steele, Lea and Flood, 2014), the same from the same seed on every machine.

pub struct Random {
    state: u64,
}

impl Random {
    pub fn new(seed: u64) -> Self {
        Random { state: seed }
    }

    fn draw(&mut self) -> u64 {
        self.state = self.state.wrapping_add(0x9E37_79B9_7F4A_7C15);
        let high = (self.state ^ (self.state >> 30)).wrapping_mul(0xBF58_476D_1CE4_E5B9);
        let low = (high ^ (high >> 27)).wrapping_mul(0x94D0_49BB_1331_11EB);
        low ^ (low >> 31)
    }

    /// Uniform from `least` to `most`, both included. The ranges here are below 2^14, so the remainder's bias is below
    /// 2^-50.
    pub fn between(&mut self, least: u64, most: u64) -> u64 {
        least + self.draw() % (most - least + 1)
    }
}
