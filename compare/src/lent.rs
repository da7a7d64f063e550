//! Memory that is lent to this project with a pattern in it, so that each word that a call writes, or leaves, shows.

/// A word of the pattern: no two near each other are equal, and none is a number that a small page gives.
fn mark(i: usize) -> u32 {
    (i as u32).wrapping_mul(0x9E37_79B1) | 0x8000_0001
}

/// Lent words.
pub struct Words(pub Vec<u32>);

impl Words {
    pub fn new() -> Self {
        Words(Vec::new())
    }

    /// As many words of the pattern.
    pub fn lend(&mut self, length: usize) -> &mut [u32] {
        self.0.clear();
        self.0.extend((0..length).map(mark));
        &mut self.0
    }

    /// The first word from this place on that is not of the pattern any more.
    pub fn written_from(&self, from: usize) -> Option<usize> {
        (from..self.0.len()).find(|&i| self.0[i] != mark(i))
    }
}

/// Lent bytes.
pub struct Bytes(pub Vec<u8>);

impl Bytes {
    pub fn new() -> Self {
        Bytes(Vec::new())
    }

    /// As many bytes of the pattern.
    pub fn lend(&mut self, length: usize) -> &mut [u8] {
        self.0.clear();
        self.0.extend((0..length).map(|i| (mark(i) >> 24) as u8));
        &mut self.0
    }

    /// The first byte from this place on that is not of the pattern any more.
    pub fn written_from(&self, from: usize) -> Option<usize> {
        (from..self.0.len()).find(|&i| self.0[i] != (mark(i) >> 24) as u8)
    }
}
