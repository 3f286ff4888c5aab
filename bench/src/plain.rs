//! Plain reading and writing of OAMD payloads, without proofs and without I/O.
//!
//! All public structs are `repr(C)`. Their offsets in bytes are given with each
//! one and held by the constant assertions at the end of this file.

mod assignment;
mod batch;
mod bits;
mod catalogue;
mod extended;
mod object;
mod origin;
mod put;
mod reader;
mod record;
mod salvage;
mod sink;
mod summary;
mod trim;
mod valid;
mod why;
mod writer;

#[cfg(test)]
mod canonical_tests;

use origin::Silent;
use reader::{Scratch, Tables};
use record::times;

pub use batch::{answer_bytes, read_batch, BatchAnswer, Shelf, ANSWER_BYTES};
pub use catalogue::{read_catalogue, read_catalogue_on, write_catalogue, write_catalogue_on};
pub use catalogue::{BackAnswer, CatalogueAnswer, BEFORE_BYTES, LINE_BYTES};
pub use record::{Record, FRAME_SAMPLES, RECORD_BYTES, RECORD_STRIDE};
pub use salvage::{salvage, Dropped, SalvageAnswer};
pub use summary::{summarise, Summary, MAX_ENTRIES};
pub use why::{why, Reasons, WhyAnswer, WhyStep, MAX_STEPS};

/// Longest payload in bytes (house rule).
pub const MAX_PAYLOAD: usize = 4096;
/// A buffer of this many bytes holds the records of every payload.
pub const MAX_RECORD_BYTES: usize = 40_960;
/// Most beds: num_bed_instances_bits + 2 (5.6.0.10).
pub const MAX_BEDS: usize = 9;
/// Most update blocks: num_obj_info_blocks_bits + 1 (5.6.2.4).
pub const MAX_BLOCKS: usize = 8;
/// Most objects: object_count_bits with its extension + 1 (5.6.0.2).
pub const MAX_OBJECTS: usize = 159;
/// Most records.
pub const MAX_RECORDS: usize = MAX_OBJECTS * MAX_BLOCKS;
/// A buffer of this many bytes holds the trim table of every payload.
pub const MAX_TRIM_BYTES: usize = trim::FIRST_FLAG + MAX_OBJECTS;

/// The numbers of the refusals (docs/DECISIONS.md, "The refusals").
pub mod refusal {
    pub const ACCEPTED: u32 = 0;
    pub const TOO_LONG: u32 = 1;
    pub const PAST_PAYLOAD: u32 = 2;
    pub const VERSION: u32 = 3;
    pub const COUNTS: u32 = 4;
    pub const RESERVED: u32 = 5;
    pub const TWICE: u32 = 6;
    pub const ORDER: u32 = 7;
    pub const PAST_ELEMENT: u32 = 8;
    pub const ROOM: u32 = 9;
    pub const TABLES: u32 = 10;
    pub const FORM: u32 = 11;
    pub const OUTSIDE: u32 = 12;
    pub const LISTS: u32 = 13;
    pub const NO_SUCH: u32 = 14;
    pub const MANY: u32 = 16;
    pub const BAD_LINE: u32 = 17;
    pub const SHORT_TEXT: u32 = 18;
}

/// One bed instance (5.5.3). 8 bytes, aligned to 4: assignment at 0, lfeonly at
/// 4, standard at 5, two bytes of tail padding that carry nothing.
#[repr(C)]
#[derive(Clone, Copy, Debug, Default, PartialEq, Eq)]
pub struct Bed {
    /// bed_channel_assignment (10 bits) or nonstd_bed_channel_assignment (17
    /// bits) as carried: index 0 is the top bit; 0 for an LFE-only bed.
    pub assignment: u32,
    /// b_lfe_only.
    pub lfeonly: u8,
    /// b_standard_chan_assign, 0 for an LFE-only bed.
    pub standard: u8,
}

/// The object count and the program assignment as carried (5.5.2, 5.5.3). 84
/// bytes, aligned to 4: eight single bytes at 0 to 7, beds at 8 to 79, isf at
/// 80, dynamics at 81, two bytes of tail padding. What is not carried is 0.
#[repr(C)]
#[derive(Clone, Copy, Debug, Default, PartialEq, Eq)]
pub struct Programme {
    /// object_count, 1 to 159.
    pub objects: u8,
    /// b_dyn_object_only_program.
    pub dynonly: u8,
    /// b_lfe_present.
    pub lfe: u8,
    /// content_description as a number of 4 bits, index 0 its top bit:
    /// 8 reserved, 4 dynamic, 2 ISF, 1 bed (Table 11a).
    pub content: u8,
    /// b_bed_chan_distribute.
    pub distribute: u8,
    /// b_multiple_bed_instances_present.
    pub multiple: u8,
    /// num_bed_instances_bits, 0 to 7.
    pub instances: u8,
    /// Number of bed instances, 0 to 9; entries of `beds` from here on are 0.
    pub bedcount: u8,
    pub beds: [Bed; MAX_BEDS],
    /// intermediate_spatial_format_idx, 0 to 5.
    pub isf: u8,
    /// num_dynamic_objects_bits with its extension added, 0 to 158.
    pub dynamics: u8,
}

/// One property update (5.5.7). 4 bytes, aligned to 2: start at 0, ramp at 2.
#[repr(C)]
#[derive(Clone, Copy, Debug, Default, PartialEq, Eq)]
pub struct Update {
    /// Sample offset + 32 x block offset factor, 0 to 2,047 samples.
    pub start: u16,
    /// Ramp duration, 0 to 2,048 samples.
    pub ramp: u16,
}

/// The timing of all blocks (5.5.6). 34 bytes, aligned to 2: blocks at 0, one
/// byte of padding, updates at 2 to 33; entries from `blocks` on are 0.
#[repr(C)]
#[derive(Clone, Copy, Debug, Default, PartialEq, Eq)]
pub struct Timing {
    /// Number of update blocks; 0 without a known object element.
    pub blocks: u8,
    pub updates: [Update; MAX_BLOCKS],
}

/// What a read answers. 144 bytes, aligned to 8: refusal at 0, four bytes of
/// padding, place at 8, programme at 16, timing at 100, two bytes of padding,
/// unknown at 136, missing at 140. On a refusal all but refusal and place are 0,
/// and but the missing bits of a payload that ends early.
#[repr(C)]
#[derive(Clone, Copy, Debug, Default, PartialEq, Eq)]
pub struct Answer {
    pub refusal: u32,
    pub place: u64,
    pub programme: Programme,
    pub timing: Timing,
    /// Number of unknown elements, 0 to 46.
    pub unknown: u32,
    /// With refusal 2, the bits that the field or the size at the place lacks.
    pub missing: u32,
}

/// What a write answers. 24 bytes, aligned to 8: refusal at 0, four bytes of
/// padding, place at 8, length at 16. On a refusal the length is 0.
#[repr(C)]
#[derive(Clone, Copy, Debug, Default, PartialEq, Eq)]
pub struct WriteAnswer {
    pub refusal: u32,
    pub place: u64,
    /// Length of the payload in bytes.
    pub length: u64,
}

/// Reads one payload. If it is accepted, the first 32 x objects x blocks bytes
/// of `records` hold the records, each with its time in this frame, the first
/// 94 + objects bytes of `trim` the trim table, and no other byte is changed; if
/// it is refused, no byte is changed.
pub fn read(payload: &[u8], frame: u32, records: &mut [u8], trim: &mut [u8]) -> Answer {
    let mut scratch = Scratch {
        records: [[0; RECORD_BYTES]; MAX_RECORDS],
        trim: [0; MAX_TRIM_BYTES],
    };
    let rooms = (records.len(), trim.len());
    match reader::payload(payload, rooms, &mut scratch, &mut Silent) {
        Ok(tables) => {
            lay_records(&scratch.records, frame, &tables, records);
            let bytes = trim_needed(&tables.programme);
            trim[..bytes].copy_from_slice(&scratch.trim[..bytes]);
            Answer {
                refusal: refusal::ACCEPTED,
                place: 0,
                programme: tables.programme,
                timing: tables.timing,
                unknown: tables.unknown,
                missing: 0,
            }
        }
        Err(why) => Answer {
            refusal: why.number,
            place: why.place,
            missing: why.missing,
            ..Answer::default()
        },
    }
}

/// Lays each record and its time into the lent buffer, which has room for them.
fn lay_records(records: &[Record], frame: u32, tables: &Tables, out: &mut [u8]) {
    let times = times(frame, &tables.timing);
    let times = times[..usize::from(tables.timing.blocks)].iter().cycle();
    let out = &mut out[..needed(&tables.programme, &tables.timing)];
    let entries = out.as_chunks_mut::<RECORD_STRIDE>().0;
    for ((entry, record), time) in entries.iter_mut().zip(records).zip(times) {
        let (first, last) = entry.split_at_mut(RECORD_BYTES);
        first.copy_from_slice(record);
        last.copy_from_slice(time);
    }
}

/// Writes the one form of the tables (docs/DECISIONS.md, "The written form"). The
/// records hold their times in this frame; the form does not depend on it. If it
/// is accepted, the first `length` bytes of `out` hold the payload and no other
/// byte is changed; if it is refused, no byte is changed.
pub fn write(
    programme: &Programme,
    timing: &Timing,
    frame: u32,
    records: &[u8],
    trim: &[u8],
    out: &mut [u8],
) -> WriteAnswer {
    match writer::payload(programme, timing, (frame, records), trim, out) {
        Ok(length) => WriteAnswer {
            refusal: refusal::ACCEPTED,
            place: 0,
            length: length as u64,
        },
        Err(why) => WriteAnswer {
            refusal: why.number,
            place: why.place,
            length: 0,
        },
    }
}

/// Bytes of all records: 32 x objects x blocks.
pub fn needed(programme: &Programme, timing: &Timing) -> usize {
    RECORD_STRIDE * usize::from(programme.objects) * usize::from(timing.blocks)
}

/// Bytes of the trim table: 94 + objects.
pub fn trim_needed(programme: &Programme) -> usize {
    trim::FIRST_FLAG + usize::from(programme.objects)
}

/// The promised layouts.
const _: () = {
    use core::mem::{offset_of, size_of};
    assert!(size_of::<Bed>() == 8);
    assert!(offset_of!(Bed, lfeonly) == 4 && offset_of!(Bed, standard) == 5);
    assert!(size_of::<Programme>() == 84 && offset_of!(Programme, bedcount) == 7);
    assert!(offset_of!(Programme, beds) == 8 && offset_of!(Programme, isf) == 80);
    assert!(offset_of!(Programme, dynamics) == 81);
    assert!(size_of::<Update>() == 4 && offset_of!(Update, ramp) == 2);
    assert!(size_of::<Timing>() == 34 && offset_of!(Timing, updates) == 2);
    assert!(offset_of!(Answer, place) == 8 && offset_of!(Answer, programme) == 16);
    assert!(offset_of!(Answer, timing) == 100 && offset_of!(Answer, unknown) == 136);
    assert!(offset_of!(Answer, missing) == 140 && size_of::<Answer>() == 144);
    assert!(offset_of!(WriteAnswer, place) == 8 && offset_of!(WriteAnswer, length) == 16);
    assert!(size_of::<WriteAnswer>() == 24);
    assert!(trim::FIRST_FLAG == 94 && MAX_TRIM_BYTES == 253);
    assert!(RECORD_STRIDE == 32 && RECORD_STRIDE * MAX_RECORDS <= MAX_RECORD_BYTES);
};
