//! Where written fields go: counted first, then put into bytes.

/// Takes fields, the first bit sent first.
pub trait Sink {
    /// Takes a field of 1 to 32 bits; `value` fits it.
    fn put(&mut self, width: usize, value: u32);

    fn flag(&mut self, value: bool) {
        self.put(1, u32::from(value));
    }
}

/// Counts bits.
#[derive(Default)]
pub struct Count(pub usize);

impl Sink for Count {
    #[inline]
    fn put(&mut self, width: usize, _value: u32) {
        self.0 += width;
    }
}

/// Writes bits into bytes that are known to have room for them.
pub struct Pen<'a> {
    out: &'a mut [u8],
    at: usize,
    /// The last `held` bits of `word` are still to be written; below 32.
    word: u64,
    held: usize,
}

impl<'a> Pen<'a> {
    pub fn new(out: &'a mut [u8]) -> Self {
        Self {
            out,
            at: 0,
            word: 0,
            held: 0,
        }
    }

    /// Writes what is held, zeros up to the end of the last byte.
    pub fn finish(self) {
        let rest = self.held.div_ceil(8);
        let word = (self.word << (32 - self.held)) as u32;
        self.out[self.at..self.at + rest].copy_from_slice(&word.to_be_bytes()[..rest]);
    }
}

impl Sink for Pen<'_> {
    #[inline]
    fn put(&mut self, width: usize, value: u32) {
        self.word = self.word << width | u64::from(value);
        self.held += width;
        if self.held >= 32 {
            self.held -= 32;
            let word = (self.word >> self.held) as u32;
            self.out[self.at..self.at + 4].copy_from_slice(&word.to_be_bytes());
            self.at += 4;
        }
    }
}
