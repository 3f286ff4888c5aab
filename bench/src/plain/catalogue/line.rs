//! One line of a text by itself: its form, and the range of each number.

use crate::plain::record::RECORD_BYTES;
use crate::plain::{Update, MAX_BLOCKS, MAX_OBJECTS};
use std::ops::RangeInclusive;
use std::str::FromStr;

/// The key of each byte of a record, with the least and the greatest value that
/// it can have.
pub const FIELDS: [(&str, u8, u8); RECORD_BYTES] = [
    ("active", 0, 1),
    ("class", 0, 2),
    ("gain", 0, 65),
    ("priority", 0, 32),
    ("x", 0, 62),
    ("y", 0, 62),
    ("z", 49, 79),
    ("distance", 0, 17),
    ("width", 0, 31),
    ("depth", 0, 31),
    ("height", 0, 31),
    ("zone", 0, 5),
    ("elevation", 0, 1),
    ("screen", 0, 1),
    ("screen_factor", 0, 7),
    ("screen_depth", 0, 3),
    ("snap", 0, 1),
    ("divergence", 0, 1),
    ("divergence_mode", 0, 2),
    ("divergence_value", 0, 63),
    ("precise", 0, 7),
    ("precise_x", 0, 3),
    ("precise_y", 0, 3),
    ("precise_z", 0, 3),
];

/// What a line says.
pub enum Line {
    Refused {
        frame: u32,
        refusal: u32,
    },
    Frame {
        frame: u32,
        objects: u8,
        blocks: u8,
    },
    Update(Update),
    Object {
        object: usize,
        /// One or more, each as its byte of a record and the value, ascending.
        fields: Vec<(usize, u8)>,
    },
}

impl Line {
    /// What the line says, given without its LF; none if it is no line at all.
    pub fn parse(line: &[u8]) -> Option<Self> {
        let line = str::from_utf8(line).ok()?;
        let pairs = line.split(',').map(|pair| pair.split_once('='));
        let pairs: Vec<(&str, &str)> = pairs.collect::<Option<_>>()?;
        match pairs[..] {
            [("frame", frame), ("refusal", refusal)] => Some(Self::Refused {
                frame: number(frame, 0..=u32::MAX)?,
                // those of a read with room enough, and an entry outside the store
                refusal: number(refusal, 1..=8).or_else(|| number(refusal, 12..=12))?,
            }),
            [("frame", frame), ("objects", objects), ("blocks", blocks)] => Some(Self::Frame {
                frame: number(frame, 0..=u32::MAX)?,
                objects: number(objects, 1..=MAX_OBJECTS as u8)?,
                blocks: number(blocks, 0..=MAX_BLOCKS as u8)?,
            }),
            [("start", start), ("ramp", ramp)] => Some(Self::Update(Update {
                start: number(start, 0..=2047)?,
                ramp: number(ramp, 0..=2048)?,
            })),
            [("object", object), ref fields @ ..] if !fields.is_empty() => Some(Self::Object {
                object: number(object, 0..=MAX_OBJECTS - 1)?,
                fields: ascending(fields)?,
            }),
            _ => None,
        }
    }
}

/// The fields of an object's line, if they stand in the order of a record, none
/// of them twice.
fn ascending(pairs: &[(&str, &str)]) -> Option<Vec<(usize, u8)>> {
    let field = |(key, value): &(&str, &str)| {
        let field = FIELDS.iter().position(|(name, ..)| name == key)?;
        let (_, least, most) = FIELDS[field];
        Some((field, number(value, least..=most)?))
    };
    let fields: Vec<(usize, u8)> = pairs.iter().map(field).collect::<Option<_>>()?;
    let ordered = fields.is_sorted_by(|(a, _), (b, _)| a < b);
    ordered.then_some(fields)
}

/// A number of the range in the one form that it has: decimal digits without a
/// sign and without leading zeros.
fn number<T: FromStr + PartialOrd>(text: &str, range: RangeInclusive<T>) -> Option<T> {
    // the standard library takes a plus and zeros before a number
    if text != "0" && text.starts_with(['+', '0']) {
        return None;
    }
    text.parse().ok().filter(|value| range.contains(value))
}
