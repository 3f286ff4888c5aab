//! The catalogue: a segment of payloads as a text of lines of key=number pairs,
//! one line for each frame and each update, and under an update one for each
//! object that changed; and the way back, from the text to answer lines and
//! records.
//!
//! Both ways everything is made first, as `Sheet`s and as a `String`, and laid
//! into the lent buffers last, so that a refused call leaves them as they came.
//! What is made fits into memory, so none of the places passes 64 bits.

mod back;
mod line;
mod sheet;
mod text;

use super::batch::part;
use super::record::RECORD_BYTES;
use super::{refusal, MAX_OBJECTS};
use sheet::{Rows, Sheet};

/// Bytes of the update before as it is carried from call to call: the number of
/// its objects, and the first 24 bytes of the record of each, if there are as
/// many as there may be.
pub const BEFORE_BYTES: usize = 1 + RECORD_BYTES * MAX_OBJECTS;
/// Bytes of a frame's answer line.
pub const LINE_BYTES: usize = 40;

/// What writing answers. On a refusal the length is 0.
#[derive(Clone, Copy, Debug, Default, PartialEq, Eq)]
pub struct CatalogueAnswer {
    pub refusal: u32,
    pub place: u64,
    /// Bytes of the text.
    pub length: u64,
}

/// What reading back answers. On a refusal all but refusal and place are 0.
#[derive(Clone, Copy, Debug, Default, PartialEq, Eq)]
pub struct BackAnswer {
    pub refusal: u32,
    pub place: u64,
    /// Number of answer lines.
    pub frames: u64,
    /// Bytes of the records.
    pub bytes: u64,
}

impl CatalogueAnswer {
    fn refused(refusal: u32, place: usize) -> Self {
        Self {
            refusal,
            place: place as u64,
            length: 0,
        }
    }
}

impl BackAnswer {
    fn refused(refusal: u32, place: usize) -> Self {
        Self {
            refusal,
            place: place as u64,
            ..Self::default()
        }
    }
}

/// Writes the catalogue of a segment that no other comes before.
pub fn write_catalogue(
    store: &[u8],
    starts: &[u64],
    lengths: &[u64],
    frames: &[u32],
    text: &mut [u8],
) -> CatalogueAnswer {
    let mut nothing = [0; BEFORE_BYTES];
    write_catalogue_on(store, starts, lengths, frames, &mut nothing, text)
}

/// Writes the catalogue of the parts of a store that starts and lengths give,
/// behind the update that `before` holds, and leaves the last update there.
/// Refusals in this order: 13, 9 for `before`, 18.
pub fn write_catalogue_on(
    store: &[u8],
    starts: &[u64],
    lengths: &[u64],
    frames: &[u32],
    before: &mut [u8],
    text: &mut [u8],
) -> CatalogueAnswer {
    let count = starts.len();
    if lengths.len() != count || frames.len() != count {
        return CatalogueAnswer::refused(refusal::LISTS, count);
    }
    if before.len() < BEFORE_BYTES {
        return CatalogueAnswer::refused(refusal::ROOM, BEFORE_BYTES);
    }
    let (mut rows, mut whole) = (carried(before), String::new());
    for ((start, length), frame) in starts.iter().zip(lengths).zip(frames) {
        let sheet = Sheet::of(part(store, *start, *length), *frame);
        text::lay(sheet, &mut rows, &mut whole).expect("a string takes any text");
    }
    let Some(room) = text.get_mut(..whole.len()) else {
        return CatalogueAnswer::refused(refusal::SHORT_TEXT, whole.len());
    };
    room.copy_from_slice(whole.as_bytes());
    carry(&rows, before);
    CatalogueAnswer {
        length: whole.len() as u64,
        ..CatalogueAnswer::default()
    }
}

/// Reads the text of a segment that no other comes before.
pub fn read_catalogue(text: &[u8], lines: &mut [u8], records: &mut [u8]) -> BackAnswer {
    read_catalogue_on(text, &mut [0; BEFORE_BYTES], lines, records)
}

/// Reads a text back to a line for each frame and the records of all updates,
/// behind the update that `before` holds, and leaves the last update there.
/// Refusals in this order: 9 for `before`, 17, 9 for the records, 9 for the lines.
pub fn read_catalogue_on(
    text: &[u8],
    before: &mut [u8],
    lines: &mut [u8],
    records: &mut [u8],
) -> BackAnswer {
    if before.len() < BEFORE_BYTES {
        return BackAnswer::refused(refusal::ROOM, BEFORE_BYTES);
    }
    let mut rows = carried(before);
    let sheets = match back::sheets(text, &mut rows) {
        Ok(sheets) => sheets,
        Err(line) => return BackAnswer::refused(refusal::BAD_LINE, line),
    };
    let all_records: Vec<u8> = sheets.iter().flat_map(Sheet::records).collect();
    let all_lines: Vec<u8> = sheets.iter().flat_map(Sheet::line).collect();
    let Some(room) = records.get_mut(..all_records.len()) else {
        return BackAnswer::refused(refusal::ROOM, all_records.len());
    };
    let Some(line_room) = lines.get_mut(..all_lines.len()) else {
        return BackAnswer::refused(refusal::ROOM, all_lines.len());
    };
    room.copy_from_slice(&all_records);
    line_room.copy_from_slice(&all_lines);
    carry(&rows, before);
    BackAnswer {
        frames: sheets.len() as u64,
        bytes: all_records.len() as u64,
        ..BackAnswer::default()
    }
}

/// The rows that a call is given, none if there is no update yet. A number that
/// no update has counts as the greatest.
fn carried(before: &[u8]) -> Rows {
    let objects = usize::from(before[0]).min(MAX_OBJECTS);
    before[1..].as_chunks().0[..objects].to_vec()
}

/// Leaves rows for the next call; what lies behind them stays.
fn carry(rows: &Rows, before: &mut [u8]) {
    let bytes = rows.as_flattened();
    before[0] = rows.len() as u8;
    before[1..][..bytes.len()].copy_from_slice(bytes);
}

const _: () = assert!(BEFORE_BYTES == 3817);
