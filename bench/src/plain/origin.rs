//! Where each byte of a record comes from, noted while it is read.
//!
//! The reader says before each field which bytes of the record it is read for,
//! so the note that stays is that of the last one. `read` keeps no notes.

use super::record::*;
use std::ops::RangeInclusive;

/// The fields that a byte can come from, with their numbers in an answer.
#[derive(Clone, Copy, Debug, PartialEq, Eq)]
pub enum Field {
    NotActive = 1,
    GainIndex,
    GainBits,
    DefaultPriority,
    PriorityBits,
    DifferenceX,
    DifferenceY,
    DifferenceZ,
    PositionX,
    PositionY,
    PositionZ,
    DistanceSpecified,
    AtInfinity,
    DistanceIndex,
    ZoneIndex,
    EnableElevation,
    SizeIndex,
    SizeBits,
    Width,
    Depth,
    Height,
    UseScreen,
    ScreenFactor,
    DepthIndex,
    Snap,
    Divergence,
    DivergenceMode,
    DivergenceTable,
    DivergenceCode,
    Presence,
    PreciseX,
    PreciseY,
    PreciseZ,
}

/// A bit of the payload, counted from its first.
type Bit = usize;

/// Where a byte comes from.
#[derive(Clone, Copy, Debug, PartialEq, Eq)]
pub enum Origin {
    /// A field that begins at this bit.
    Field(Field, Bit),
    Programme,
    /// The defaults of Table 28 and of Table 29.
    BasicDefault,
    RenderDefault,
    /// Bytes 17 to 23: the byte's field was not sent.
    Nothing,
    /// The same byte of the block before.
    Before,
    /// That byte, moved by a difference of 3 bits as carried.
    Moved(Field, Bit, u8),
    /// The same byte of the object before.
    Above,
}

/// Where the bytes of a record come from of which nothing was sent.
const UNSENT: [Origin; RECORD_BYTES] = {
    let mut origins = [Origin::Nothing; RECORD_BYTES];
    let mut byte = 0;
    while byte <= SNAP {
        origins[byte] = match byte {
            CLASS => Origin::Programme,
            0..X => Origin::BasicDefault,
            _ => Origin::RenderDefault,
        };
        byte += 1;
    }
    origins
};

/// What is told where the bytes come from.
pub trait Notes {
    /// The record that the next notes are of: object x blocks + block.
    fn record(&mut self, at: usize);

    /// These bytes come from here, whatever was noted before.
    fn note(&mut self, bytes: RangeInclusive<usize>, origin: Origin);

    /// A field is read next, at this bit, for these bytes.
    #[inline(always)]
    fn field(&mut self, bytes: RangeInclusive<usize>, field: Field, bit: Bit) {
        self.note(bytes, Origin::Field(field, bit));
    }
}

/// No notes.
pub struct Silent;

impl Notes for Silent {
    #[inline(always)]
    fn record(&mut self, _: usize) {}

    #[inline(always)]
    fn note(&mut self, _: RangeInclusive<usize>, _: Origin) {}
}

/// Notes of all records.
#[derive(Default)]
pub struct Noted {
    pub records: Vec<[Origin; RECORD_BYTES]>,
    at: usize,
}

impl Notes for Noted {
    fn record(&mut self, at: usize) {
        self.at = at;
        if self.records.len() <= at {
            self.records.resize(at + 1, UNSENT);
        }
    }

    fn note(&mut self, bytes: RangeInclusive<usize>, origin: Origin) {
        self.records[self.at][bytes].fill(origin);
    }
}
