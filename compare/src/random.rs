//! A fixed sequence of numbers (splitmix64), the same on every machine and in every run.

/// Where every part's sequence starts.
pub const SEED: u64 = 0x4E6F_766C_697A_6562;

pub struct Random(u64);

impl Random {
    pub fn new() -> Self {
        Random(SEED)
    }

    pub fn next(&mut self) -> u64 {
        self.0 = self.0.wrapping_add(0x9E37_79B9_7F4A_7C15);
        let z = (self.0 ^ (self.0 >> 30)).wrapping_mul(0xBF58_476D_1CE4_E5B9);
        let z = (z ^ (z >> 27)).wrapping_mul(0x94D0_49BB_1331_11EB);
        z ^ (z >> 31)
    }

    /// Below `end`, which is not 0.
    pub fn below(&mut self, end: u64) -> u64 {
        self.next() % end
    }

    /// One of the choices.
    pub fn pick<T: Copy>(&mut self, choices: &[T]) -> T {
        choices[self.below(choices.len() as u64) as usize]
    }

    /// From 0 to 1, 1 excluded.
    pub fn fraction(&mut self) -> f64 {
        (self.next() >> 11) as f64 / (1u64 << 53) as f64
    }

    /// Any pattern of bits at all.
    pub fn pattern(&mut self) -> f64 {
        f64::from_bits(self.next())
    }
}
