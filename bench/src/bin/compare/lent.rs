//! Lent buffers with canaries around them.

use skriemelt_bench::gen::rng::Rng;

/// Canary bytes on each side.
const SIDE: usize = 64;

/// A buffer of `room` bytes that begins at `from`; all bytes as they are lent.
#[derive(Clone, PartialEq)]
pub struct Lent {
    bytes: Vec<u8>,
    from: usize,
    room: usize,
}

impl Lent {
    /// Filled with bytes that a call is not likely to write by chance, at one of
    /// 16 alignments.
    pub fn new(rng: &mut Rng, room: usize) -> Self {
        let (from, fill) = (SIDE + rng.below(16), rng.byte());
        let byte = |at: usize| (at as u8).wrapping_mul(31) ^ fill;
        Self {
            bytes: (0..from + room + SIDE).map(byte).collect(),
            from,
            room,
        }
    }

    pub fn lend(&mut self) -> &mut [u8] {
        &mut self.bytes[self.from..self.from + self.room]
    }

    pub fn room(&self) -> usize {
        self.room
    }

    /// The first bytes of the buffer.
    pub fn first(&self, used: usize) -> &[u8] {
        &self.bytes[self.from..self.from + used]
    }

    /// `Err` says where two buffers differ that were lent to both.
    pub fn same(&self, other: &Self) -> Result<(), String> {
        let mut all = self.bytes.iter().zip(&other.bytes);
        match all.position(|(a, b)| a != b) {
            None => Ok(()),
            Some(at) => Err(format!("buffers differ at {at}, buffer from {}", self.from)),
        }
    }

    /// `Err` if a byte changed beside the first `used` ones of the buffer.
    pub fn kept(&self, fresh: &Self, used: usize) -> Result<(), String> {
        let (from, to) = (self.from, self.from + used);
        if self.bytes[..from] == fresh.bytes[..from] && self.bytes[to..] == fresh.bytes[to..] {
            return Ok(());
        }
        Err(format!("bytes changed beside the first {used}"))
    }
}
