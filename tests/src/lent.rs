//! Buffers with guard bytes on both sides of the slice that is lent.

use crate::random::Rng;

const GUARD: usize = 48;

/// A slice to lend, somewhere inside a larger buffer of random bytes.
#[derive(Clone)]
pub struct Lent {
    whole: Vec<u8>,
    from: usize,
    len: usize,
}

impl Lent {
    /// The guards are random and at least 33 bytes long, so that the slice starts at any alignment.
    pub fn new(rng: &mut Rng, content: &[u8]) -> Lent {
        let from = GUARD - rng.below(16) as usize;
        let len = content.len();
        let mut whole = vec![0; from + len + GUARD];
        for guard in (0..from).chain(from + len..from + len + GUARD) {
            whole[guard] = rng.byte();
        }
        whole[from..from + len].copy_from_slice(content);
        Lent { whole, from, len }
    }

    pub fn bytes(&self) -> &[u8] {
        &self.whole[self.from..self.from + self.len]
    }

    pub fn bytes_mut(&mut self) -> &mut [u8] {
        &mut self.whole[self.from..self.from + self.len]
    }

    /// Where the two differ first, as an index into the slice (negative: in the guard before it).
    pub fn difference(&self, other: &Lent) -> Option<i64> {
        if self.whole == other.whole {
            return None;
        }
        let at = self.whole.iter().zip(&other.whole).position(|(a, b)| a != b);
        Some(at.unwrap_or(self.whole.len()) as i64 - self.from as i64)
    }
}
