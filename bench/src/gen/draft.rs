//! Bits under construction, with the places a reader would name.

use super::rng::Rng;

/// A run of bits, its fields in reading order, and what is wrong with it.
#[derive(Default)]
pub struct Draft {
    bits: Vec<bool>,
    /// First bit and bit after the last, of each field and declared size.
    fields: Vec<(usize, usize)>,
    /// The first fault: refusal and place.
    pub fault: Option<(u32, usize)>,
}

impl Draft {
    pub fn len(&self) -> usize {
        self.bits.len()
    }

    /// Adds one field.
    pub fn field(&mut self, width: usize, value: usize) {
        let start = self.len();
        self.number(width, value);
        self.fields.push((start, self.len()));
    }

    /// Adds a number that cannot be refused for its place.
    pub fn number(&mut self, width: usize, value: usize) {
        debug_assert!(value < 1 << width);
        self.bits
            .extend((0..width).rev().map(|k| value >> k & 1 != 0));
    }

    pub fn flag(&mut self, value: bool) {
        self.field(1, usize::from(value));
    }

    /// Adds a field that grows by a further one when all its bits are 1.
    pub fn grown(&mut self, width: usize, more: usize, value: usize) {
        let most = (1 << width) - 1;
        self.field(width, value.min(most));
        if value >= most {
            self.field(more, value - most);
        }
    }

    /// Adds a run of arbitrary bits as one field.
    pub fn run(&mut self, rng: &mut Rng, width: usize) {
        let start = self.len();
        self.noise(rng, width);
        self.fields.push((start, self.len()));
    }

    /// Adds arbitrary bits that no reader looks at, often zeros.
    pub fn noise(&mut self, rng: &mut Rng, width: usize) {
        let zeros = rng.chance(30);
        self.bits
            .extend((0..width).map(|_| !zeros && rng.word() >> 63 != 0));
    }

    /// Notes that the field added next is refused, if nothing is before it.
    pub fn fail(&mut self, refusal: u32) {
        self.fail_at(refusal, self.len());
    }

    pub fn fail_at(&mut self, refusal: u32, place: usize) {
        self.fault.get_or_insert((refusal, place));
    }

    /// Adds the size of an element in groups of 4 bits with their flags; the
    /// declared bytes begin after it. The flag after a fifth group is arbitrary.
    /// Answers the number of groups.
    pub fn size(&mut self, bytes: usize) -> usize {
        let start = self.len();
        let digits = size_digits(bytes - 1);
        for (index, digit) in digits.iter().enumerate() {
            self.field(4, *digit);
            self.flag(index + 1 < digits.len() || (index == 4 && bytes.is_multiple_of(2)));
        }
        self.fields.push((start, self.len() + 8 * bytes));
        digits.len()
    }

    /// Adds the first `width` bits of an element's content. Its fields are held
    /// against the element's end: one that passes it is refused with 8.
    pub fn content(&mut self, content: Draft, width: usize) {
        let base = self.len();
        if let Some((refusal, place)) = content.fault {
            self.fail_at(refusal, base + place);
        }
        if let Some((place, _)) = content.first_past(width) {
            self.fail_at(8, base + place);
        }
        self.bits.extend(content.bits.iter().take(width));
    }

    /// Adds all of another draft, its fields, too.
    pub fn add(&mut self, part: &Draft) {
        let base = self.len();
        if let Some((refusal, place)) = part.fault {
            self.fail_at(refusal, base + place);
        }
        let fields = part.fields.iter();
        self.fields
            .extend(fields.map(|(from, to)| (base + from, base + to)));
        self.bits.extend(&part.bits);
    }

    /// What is refused first in an element's content of `width` bits, and where:
    /// its fault, or a field that passes its end.
    pub fn first_refused(&self, width: usize) -> Option<(u32, usize)> {
        let past = self.first_past(width).map(|(place, _)| (8, place));
        match (past, self.fault) {
            (Some(past), Some(fault)) if fault.1 < past.1 => Some(fault),
            (past, fault) => past.or(fault),
        }
    }

    /// The first field, in reading order, that passes `end`: its first bit, and
    /// the bits by which it does.
    pub fn first_past(&self, end: usize) -> Option<(usize, usize)> {
        let mut fields = self.fields.iter();
        let field = fields.find(|field| field.1 > end)?;
        Some((field.0, field.1 - end))
    }

    /// The bits as bytes, the last one filled up with `fill`.
    pub fn bytes(&self, fill: bool) -> Vec<u8> {
        let byte = |chunk: &[bool]| {
            let bit = |k: usize| *chunk.get(k).unwrap_or(&fill);
            (0..8).fold(0, |byte, k| byte << 1 | u8::from(bit(k)))
        };
        self.bits.chunks(8).map(byte).collect()
    }
}

/// The digits of a size value (5.5.1), by the ranges that each number of groups
/// covers: 16, then 256, 4,096, 65,536 and 1,048,576 values.
fn size_digits(value: usize) -> Vec<usize> {
    let (mut first, mut groups) = (0, 1);
    while value - first >= 1 << (4 * groups) {
        first += 1 << (4 * groups);
        groups += 1;
    }
    let rest = value - first;
    (0..groups).rev().map(|k| rest >> (4 * k) & 15).collect()
}
