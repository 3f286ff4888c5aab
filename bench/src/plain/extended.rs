//! The extended object element (5.5.13 to 5.5.15).

use super::bits::{Bits, Refusal};
use super::origin::{Field, Notes};
use super::record::*;

/// extended_object_element: fills bytes 17 to 23 of active dynamic records.
pub fn extended_object_element<N: Notes>(
    bits: &mut Bits,
    records: &mut [Record],
    notes: &mut N,
) -> Result<(), Refusal> {
    if bits.flag()? {
        for (at, record) in extending(records) {
            notes.record(at);
            obj_div_block(bits, record, notes)?;
        }
    }
    if bits.flag()? {
        for (at, record) in extending(records) {
            notes.record(at);
            ext_prec_pos_block(bits, record, notes)?;
        }
    }
    Ok(())
}

/// The records that carry extended data, with their indices.
fn extending(records: &mut [Record]) -> impl Iterator<Item = (usize, &mut Record)> {
    let all = records.iter_mut().enumerate();
    all.filter(|(_, record)| extends(record))
}

/// Only active dynamic records carry extended data (point 10).
pub fn extends(record: &Record) -> bool {
    record[ACTIVE] != 0 && record[CLASS] == DYNAMIC
}

/// obj_div_block (5.5.14, Tables 40 to 42, point 9). Each byte comes from its
/// own field or from none.
pub fn obj_div_block<N: Notes>(
    bits: &mut Bits,
    record: &mut Record,
    notes: &mut N,
) -> Result<(), Refusal> {
    const VALUE: usize = DIVERGENCE_VALUE;
    notes.field(DIVERGENCE..=DIVERGENCE, Field::Divergence, bits.place());
    if !bits.flag()? {
        return Ok(());
    }
    record[DIVERGENCE] = 1;
    notes.field(
        DIVERGENCE_MODE..=DIVERGENCE_MODE,
        Field::DivergenceMode,
        bits.place(),
    );
    record[DIVERGENCE_MODE] = bits.below(2, 3)?;
    match record[DIVERGENCE_MODE] {
        0 => {
            notes.field(VALUE..=VALUE, Field::DivergenceTable, bits.place());
            record[VALUE] = bits.byte(2)?;
        }
        1 => {}
        _ => {
            notes.field(VALUE..=VALUE, Field::DivergenceCode, bits.place());
            record[VALUE] = bits.from(6, 1)?;
        }
    }
    Ok(())
}

/// ext_prec_pos_block (5.5.15, Tables 43 to 46): codes of x, y, z in this
/// order, each if its presence bit is set.
pub fn ext_prec_pos_block<N: Notes>(
    bits: &mut Bits,
    record: &mut Record,
    notes: &mut N,
) -> Result<(), Refusal> {
    if !bits.flag()? {
        return Ok(());
    }
    notes.field(PRESENCE..=PRESENCE, Field::Presence, bits.place());
    record[PRESENCE] = bits.byte(3)?;
    for (bit, code, field) in [
        (1, PRECISE_X, Field::PreciseX),
        (2, PRECISE_Y, Field::PreciseY),
        (4, PRECISE_Z, Field::PreciseZ),
    ] {
        if record[PRESENCE] & bit != 0 {
            notes.field(code..=code, field, bits.place());
            record[code] = bits.byte(2)?;
        }
    }
    Ok(())
}
