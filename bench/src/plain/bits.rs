//! Reading of fields, from the top bit of the first byte.

use super::refusal;

/// Why a call is refused, and where; of a payload that ends early, how many bits
/// were missing.
#[derive(Clone, Copy, Debug, PartialEq, Eq)]
pub struct Refusal {
    pub number: u32,
    pub place: u64,
    pub missing: u32,
}

impl Refusal {
    pub fn new(number: u32, place: usize) -> Self {
        Self {
            number,
            place: place as u64,
            missing: 0,
        }
    }

    /// A field or a size that passes an end by so many bits: they are missing
    /// where that is the payload's.
    fn past(number: u32, place: usize, by: usize) -> Self {
        let missing = if number == refusal::PAST_PAYLOAD {
            by as u32
        } else {
            0
        };
        Self {
            missing,
            ..Self::new(number, place)
        }
    }
}

/// A place within a payload, and the end that fields are held against: that of
/// the payload (refusal 2) or that of a known element (refusal 8).
pub struct Bits<'a> {
    bytes: &'a [u8],
    at: usize,
    end: usize,
    short: u32,
}

impl<'a> Bits<'a> {
    /// A reader of a whole payload.
    pub fn new(bytes: &'a [u8]) -> Self {
        Self::up_to(bytes, 8 * bytes.len())
    }

    /// A reader of a payload of `end` bits, which need not be whole bytes.
    pub fn up_to(bytes: &'a [u8], end: usize) -> Self {
        debug_assert!(end <= 8 * bytes.len());
        Self {
            bytes,
            at: 0,
            end,
            short: refusal::PAST_PAYLOAD,
        }
    }

    /// The next bit, counted from the start of the payload.
    pub fn place(&self) -> usize {
        self.at
    }

    /// Passes over a run of bits, which is one field.
    #[inline]
    pub fn pass(&mut self, width: usize) -> Result<(), Refusal> {
        let left = self.end - self.at;
        if left < width {
            return Err(Refusal::past(self.short, self.at, width - left));
        }
        self.at += width;
        Ok(())
    }

    /// Reads one field of 1 to 32 bits as an unsigned number.
    #[inline]
    pub fn take(&mut self, width: usize) -> Result<u32, Refusal> {
        let start = self.at;
        self.pass(width)?;
        let word = word_at(self.bytes, start / 8);
        Ok(((word << (start % 8)) >> (64 - width)) as u32)
    }

    /// Reads one field of 1 to 8 bits.
    #[inline]
    pub fn byte(&mut self, width: usize) -> Result<u8, Refusal> {
        debug_assert!(width <= 8);
        Ok(self.take(width)? as u8)
    }

    /// Reads one flag.
    #[inline]
    pub fn flag(&mut self) -> Result<bool, Refusal> {
        Ok(self.take(1)? != 0)
    }

    /// Reads one field whose values from `limit` on are reserved (refusal 5).
    #[inline]
    pub fn below(&mut self, width: usize, limit: u8) -> Result<u8, Refusal> {
        let place = self.at;
        let value = self.byte(width)?;
        if value >= limit {
            return Err(Refusal::new(refusal::RESERVED, place));
        }
        Ok(value)
    }

    /// Reads one field whose values below `least` are reserved (refusal 5).
    #[inline]
    pub fn from(&mut self, width: usize, least: u8) -> Result<u8, Refusal> {
        let place = self.at;
        let value = self.byte(width)?;
        if value < least {
            return Err(Refusal::new(refusal::RESERVED, place));
        }
        Ok(value)
    }

    /// Reads a field that grows by a further one when all its bits are 1.
    pub fn grown(&mut self, width: usize, more: usize) -> Result<u8, Refusal> {
        let value = self.byte(width)?;
        if value == (1 << width) - 1 {
            return Ok(value + self.byte(more)?);
        }
        Ok(value)
    }

    /// Parts off the next `bytes` bytes as an element and passes over them. If
    /// they pass the end, the place is that of their size.
    pub fn part(&mut self, bytes: usize, size_place: usize) -> Result<Bits<'a>, Refusal> {
        let start = self.at;
        self.pass(8 * bytes).map_err(|why| Refusal {
            place: size_place as u64,
            ..why
        })?;
        Ok(Bits {
            bytes: self.bytes,
            at: start,
            end: self.at,
            short: refusal::PAST_ELEMENT,
        })
    }
}

/// The eight bytes from `first` on as one word, zeros past the last byte.
#[inline]
fn word_at(bytes: &[u8], first: usize) -> u64 {
    match bytes[first..].first_chunk() {
        Some(chunk) => u64::from_be_bytes(*chunk),
        None => last_word(&bytes[first..]),
    }
}

#[cold]
fn last_word(tail: &[u8]) -> u64 {
    let mut chunk = [0; 8];
    chunk[..tail.len()].copy_from_slice(tail);
    u64::from_be_bytes(chunk)
}
