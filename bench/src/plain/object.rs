//! The object element (5.5.5 to 5.5.11).

use super::bits::{Bits, Refusal};
use super::origin::{Field, Notes, Origin};
use super::record::*;
use super::{Programme, Timing};

/// Table 23.
const SAMPLE_OFFSETS: [u16; 4] = [8, 16, 18, 24];

/// Table 25.
pub const RAMPS: [u16; 16] = [
    32, 64, 128, 256, 320, 480, 1000, 1001, 1024, 1600, 1601, 1602, 1920, 2000, 2002, 2048,
];

/// object_element: fills the first objects x blocks records, bytes 17 to 23
/// with 0, and answers the timing.
pub fn object_element<N: Notes>(
    bits: &mut Bits,
    programme: &Programme,
    records: &mut [Record],
    notes: &mut N,
) -> Result<Timing, Refusal> {
    let timing = md_update_info(bits)?;
    // b_reserved_data_not_present: the 5 bits follow when it is 0 (point 5).
    if !bits.flag()? {
        bits.pass(5)?;
    }
    let counts = Counts::of(programme);
    let blocks = usize::from(timing.blocks);
    for object in 0..usize::from(programme.objects) {
        let class = counts.class(object);
        for block in 0..blocks {
            let at = object * blocks + block;
            let context = Context {
                class,
                before: (block > 0).then(|| &records[at - 1]),
                gain_above: (object > 0).then(|| records[at - blocks][GAIN]),
            };
            notes.record(at);
            records[at] = object_info_block(bits, &context, notes)?;
        }
    }
    Ok(timing)
}

/// md_update_info (5.5.6, Tables 22 and 23).
fn md_update_info(bits: &mut Bits) -> Result<Timing, Refusal> {
    let offset = match bits.below(2, 3)? {
        0 => 0,
        1 => SAMPLE_OFFSETS[bits.take(2)? as usize],
        _ => bits.take(5)? as u16,
    };
    let mut timing = Timing {
        blocks: bits.byte(3)? + 1,
        ..Timing::default()
    };
    for update in &mut timing.updates[..usize::from(timing.blocks)] {
        update.start = offset + 32 * bits.take(6)? as u16;
        update.ramp = ramp_duration(bits)?;
    }
    Ok(timing)
}

/// The ramp of block_update_info (5.5.7, Tables 24 and 25, point 6).
pub fn ramp_duration(bits: &mut Bits) -> Result<u16, Refusal> {
    match bits.take(2)? {
        0 => Ok(0),
        1 => Ok(512),
        2 => Ok(1536),
        _ if bits.flag()? => Ok(RAMPS[bits.take(4)? as usize]),
        _ => Ok(bits.take(11)? as u16),
    }
}

/// What a record depends on beside its own bits.
struct Context<'a> {
    class: u8,
    /// The record of the block before, unless this is block 0.
    before: Option<&'a Record>,
    /// Byte 2 of the object before in the same block, unless this is object 0
    /// (point 22).
    gain_above: Option<u8>,
}

/// object_info_block (5.5.9).
fn object_info_block<N: Notes>(
    bits: &mut Bits,
    context: &Context,
    notes: &mut N,
) -> Result<Record, Refusal> {
    let mut record = DEFAULTS;
    record[CLASS] = context.class;
    notes.field(ACTIVE..=ACTIVE, Field::NotActive, bits.place());
    let not_active = bits.flag()?;
    if !not_active {
        record[ACTIVE] = 1;
        object_basic_info(bits, context, &mut record, notes)?;
        if context.class == DYNAMIC {
            object_render_info(bits, context, &mut record, notes)?;
        }
    }
    // b_additional_table_data_exists, in inactive blocks too (point 7).
    if bits.flag()? {
        let size = bits.take(4)? as usize;
        bits.pass(8 * (size + 1))?;
    }
    Ok(record)
}

/// Table 28, and Table 29 likewise: what a block does with a group of values.
enum Status<'a> {
    Default,
    Full,
    Reuse(&'a Record),
    Mixed(&'a Record),
}

/// A status: full in block 0, else 2 bits.
fn status<'a>(bits: &mut Bits, context: &Context<'a>) -> Result<Status<'a>, Refusal> {
    let Some(before) = context.before else {
        return Ok(Status::Full);
    };
    Ok(match bits.take(2)? {
        0 => Status::Default,
        1 => Status::Full,
        2 => Status::Reuse(before),
        _ => Status::Mixed(before),
    })
}

/// Flags of object_basic_info (Table 30; index 0 is sent first, point 1).
const HAS_GAIN: u32 = 1;
const HAS_PRIORITY: u32 = 2;

/// object_basic_info_status_idx and object_basic_info (5.5.10).
fn object_basic_info<N: Notes>(
    bits: &mut Bits,
    context: &Context,
    record: &mut Record,
    notes: &mut N,
) -> Result<(), Refusal> {
    let carried = match status(bits, context)? {
        Status::Default => return Ok(()),
        Status::Full => HAS_GAIN | HAS_PRIORITY,
        Status::Reuse(before) => {
            record[GAIN..=PRIORITY].copy_from_slice(&before[GAIN..=PRIORITY]);
            notes.note(GAIN..=PRIORITY, Origin::Before);
            return Ok(());
        }
        Status::Mixed(before) => {
            record[GAIN..=PRIORITY].copy_from_slice(&before[GAIN..=PRIORITY]);
            notes.note(GAIN..=PRIORITY, Origin::Before);
            bits.take(2)?
        }
    };
    if carried & HAS_GAIN != 0 {
        record[GAIN] = object_gain(bits, context.gain_above, notes)?;
    }
    if carried & HAS_PRIORITY != 0 {
        record[PRIORITY] = object_priority(bits, notes)?;
    }
    Ok(())
}

/// Tables 18 and 19, in dB plus 50; minus infinity is 0.
pub fn object_gain<N: Notes>(
    bits: &mut Bits,
    above: Option<u8>,
    notes: &mut N,
) -> Result<u8, Refusal> {
    notes.field(GAIN..=GAIN, Field::GainIndex, bits.place());
    Ok(match bits.take(2)? {
        0 => GAIN_ZERO,
        1 => 0,
        2 => {
            notes.field(GAIN..=GAIN, Field::GainBits, bits.place());
            match bits.byte(6)? {
                code @ 0..=14 => GAIN_ZERO + 15 - code,
                code => GAIN_ZERO + 14 - code,
            }
        }
        _ => match above {
            Some(gain) => {
                notes.note(GAIN..=GAIN, Origin::Above);
                gain
            }
            None => GAIN_ZERO,
        },
    })
}

/// Clause 5.6.1.3, in 32nds.
pub fn object_priority<N: Notes>(bits: &mut Bits, notes: &mut N) -> Result<u8, Refusal> {
    notes.field(PRIORITY..=PRIORITY, Field::DefaultPriority, bits.place());
    if bits.flag()? {
        Ok(32)
    } else {
        notes.field(PRIORITY..=PRIORITY, Field::PriorityBits, bits.place());
        bits.byte(5)
    }
}

/// Flags of obj_render_info (Table 31 decides, points 1 and 2).
const HAS_POSITION: u32 = 1;
const HAS_ZONE: u32 = 2;
const HAS_SIZE: u32 = 4;
const HAS_SCREEN: u32 = 8;

/// object_render_info_status_idx and object_render_info (5.5.11).
fn object_render_info<N: Notes>(
    bits: &mut Bits,
    context: &Context,
    record: &mut Record,
    notes: &mut N,
) -> Result<(), Refusal> {
    let carried = match status(bits, context)? {
        Status::Default => return Ok(()),
        Status::Full => HAS_POSITION | HAS_ZONE | HAS_SIZE | HAS_SCREEN,
        Status::Reuse(before) => {
            record[X..=SNAP].copy_from_slice(&before[X..=SNAP]);
            notes.note(X..=SNAP, Origin::Before);
            return Ok(());
        }
        Status::Mixed(before) => {
            record[X..=SNAP].copy_from_slice(&before[X..=SNAP]);
            notes.note(X..=SNAP, Origin::Before);
            bits.take(4)?
        }
    };
    if carried & HAS_POSITION != 0 {
        match context.before {
            Some(before) if bits.flag()? => moved_position(bits, before, record, notes)?,
            _ => absolute_position(bits, record, notes)?,
        }
        record[DISTANCE] = object_distance(bits, notes)?;
    }
    if carried & HAS_ZONE != 0 {
        notes.field(ZONE..=ZONE, Field::ZoneIndex, bits.place());
        record[ZONE] = bits.below(3, 6)?;
        notes.field(ELEVATION..=ELEVATION, Field::EnableElevation, bits.place());
        record[ELEVATION] = bits.byte(1)?;
    }
    if carried & HAS_SIZE != 0 {
        record[WIDTH..=HEIGHT].copy_from_slice(&object_size(bits, notes)?);
    }
    if carried & HAS_SCREEN != 0 {
        record[SCREEN..=DEPTH_INDEX].copy_from_slice(&screen_reference(bits, notes)?);
    }
    // Snap stands outside the guarded groups (point 8).
    notes.field(SNAP..=SNAP, Field::Snap, bits.place());
    record[SNAP] = bits.byte(1)?;
    Ok(())
}

/// Clauses 5.6.1.1.8 to 5.6.1.1.11 (point 18). The sign is read before the
/// bits of z, so z comes from the bits.
pub fn absolute_position<N: Notes>(
    bits: &mut Bits,
    record: &mut Record,
    notes: &mut N,
) -> Result<(), Refusal> {
    notes.field(X..=X, Field::PositionX, bits.place());
    record[X] = bits.byte(6)?.min(XY_MAX);
    notes.field(Y..=Y, Field::PositionY, bits.place());
    record[Y] = bits.byte(6)?.min(XY_MAX);
    let positive = bits.flag()?;
    notes.field(Z..=Z, Field::PositionZ, bits.place());
    let z = bits.byte(4)?;
    record[Z] = if positive { Z_ZERO + z } else { Z_ZERO - z };
    Ok(())
}

/// Clauses 5.6.1.1.12 to 5.6.1.1.14: from the block before, kept within the
/// range (point 19).
fn moved_position<N: Notes>(
    bits: &mut Bits,
    before: &Record,
    record: &mut Record,
    notes: &mut N,
) -> Result<(), Refusal> {
    let z = (Z_ZERO - 15, Z_ZERO + 15);
    for (byte, field, (least, most)) in [
        (X, Field::DifferenceX, (0, XY_MAX)),
        (Y, Field::DifferenceY, (0, XY_MAX)),
        (Z, Field::DifferenceZ, z),
    ] {
        let place = bits.place();
        let code = bits.byte(3)?;
        notes.note(byte..=byte, Origin::Moved(field, place, code));
        record[byte] = moved(code, before[byte], least, most);
    }
    Ok(())
}

/// A two's complement difference of 3 bits added to `before`.
fn moved(code: u8, before: u8, least: u8, most: u8) -> u8 {
    let code = code as i8;
    let difference = if code < 4 { code } else { code - 8 };
    before.saturating_add_signed(difference).clamp(least, most)
}

/// Clauses 5.6.1.1.15 to 5.6.1.1.17.
pub fn object_distance<N: Notes>(bits: &mut Bits, notes: &mut N) -> Result<u8, Refusal> {
    notes.field(DISTANCE..=DISTANCE, Field::DistanceSpecified, bits.place());
    if !bits.flag()? {
        return Ok(0);
    }
    notes.field(DISTANCE..=DISTANCE, Field::AtInfinity, bits.place());
    if bits.flag()? {
        return Ok(1);
    }
    notes.field(DISTANCE..=DISTANCE, Field::DistanceIndex, bits.place());
    Ok(2 + bits.byte(4)?)
}

/// Width, depth and height (Table 17).
pub fn object_size<N: Notes>(bits: &mut Bits, notes: &mut N) -> Result<[u8; 3], Refusal> {
    notes.field(WIDTH..=HEIGHT, Field::SizeIndex, bits.place());
    match bits.below(2, 3)? {
        0 => Ok([0; 3]),
        1 => {
            notes.field(WIDTH..=HEIGHT, Field::SizeBits, bits.place());
            Ok([bits.byte(5)?; 3])
        }
        _ => {
            notes.field(WIDTH..=WIDTH, Field::Width, bits.place());
            let width = bits.byte(5)?;
            notes.field(DEPTH..=DEPTH, Field::Depth, bits.place());
            let depth = bits.byte(5)?;
            notes.field(HEIGHT..=HEIGHT, Field::Height, bits.place());
            Ok([width, depth, bits.byte(5)?])
        }
    }
}

/// Flag, factor bits and depth index (5.6.1.1.18 to 5.6.1.1.20).
pub fn screen_reference<N: Notes>(bits: &mut Bits, notes: &mut N) -> Result<[u8; 3], Refusal> {
    notes.field(SCREEN..=DEPTH_INDEX, Field::UseScreen, bits.place());
    if !bits.flag()? {
        return Ok([0; 3]);
    }
    notes.field(
        SCREEN_FACTOR..=SCREEN_FACTOR,
        Field::ScreenFactor,
        bits.place(),
    );
    let factor = bits.byte(3)?;
    notes.field(DEPTH_INDEX..=DEPTH_INDEX, Field::DepthIndex, bits.place());
    Ok([1, factor, bits.byte(2)?])
}
