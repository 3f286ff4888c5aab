//! The payload and its elements (5.5.1, 5.5.2, 5.5.4).

use super::assignment::program_assignment;
use super::bits::{Bits, Refusal};
use super::extended::extended_object_element;
use super::object::object_element;
use super::origin::Notes;
use super::record::Record;
use super::trim::{trim_element, PRESENT};
use super::{needed, refusal, trim_needed};
use super::{Programme, Timing, MAX_PAYLOAD, MAX_RECORDS, MAX_TRIM_BYTES};

/// What has been read so far, the records and the trim table left out.
pub struct Tables {
    pub programme: Programme,
    pub timing: Timing,
    pub unknown: u32,
}

/// Room for the records and the trim table of every payload.
pub struct Scratch {
    pub records: [Record; MAX_RECORDS],
    pub trim: [u8; MAX_TRIM_BYTES],
}

/// Reads a payload into `scratch`, which holds zeros. The rooms are those of the
/// lent buffers, of records and of trim: refusal 9 last of all, records first.
pub fn payload<N: Notes>(
    bytes: &[u8],
    (records_room, trim_room): (usize, usize),
    scratch: &mut Scratch,
    notes: &mut N,
) -> Result<Tables, Refusal> {
    if bytes.len() > MAX_PAYLOAD {
        return Err(Refusal::new(refusal::TOO_LONG, bytes.len()));
    }
    let tables = metadata(&mut Bits::new(bytes), scratch, notes)?;
    let needed = needed(&tables.programme, &tables.timing);
    if records_room < needed {
        return Err(Refusal::new(refusal::ROOM, needed));
    }
    let needed = trim_needed(&tables.programme);
    if trim_room < needed {
        return Err(Refusal::new(refusal::ROOM, needed));
    }
    Ok(tables)
}

/// object_audio_metadata_payload (5.5.2) up to the end of its bits, into
/// `scratch`, which holds zeros.
pub fn metadata<N: Notes>(
    bits: &mut Bits,
    scratch: &mut Scratch,
    notes: &mut N,
) -> Result<Tables, Refusal> {
    let programme = header(bits)?;
    elements(bits, programme, scratch, notes)
}

/// The version, the object count and the program assignment.
pub fn header(bits: &mut Bits) -> Result<Programme, Refusal> {
    if bits.grown(2, 3)? != 0 {
        return Err(Refusal::new(refusal::VERSION, 0));
    }
    let objects = bits.grown(5, 7)? + 1;
    program_assignment(bits, objects)
}

fn elements<N: Notes>(
    bits: &mut Bits,
    programme: Programme,
    scratch: &mut Scratch,
    notes: &mut N,
) -> Result<Tables, Refusal> {
    let Scratch { records, trim } = scratch;
    let trim = &mut trim[..trim_needed(&programme)];
    let mut tables = Tables {
        programme,
        timing: Timing::default(),
        unknown: 0,
    };
    let mut extended = false;
    let alternate = bits.flag()?;
    for _ in 0..bits.grown(4, 5)? {
        let place = bits.place();
        let (kind, mut body) = element(bits, alternate)?;
        let blocks = usize::from(tables.timing.blocks);
        match kind {
            Kind::Object if blocks != 0 => return Err(Refusal::new(refusal::TWICE, place)),
            Kind::Extended if extended => return Err(Refusal::new(refusal::TWICE, place)),
            Kind::Trim if trim[PRESENT] != 0 => return Err(Refusal::new(refusal::TWICE, place)),
            Kind::Extended if blocks == 0 => return Err(Refusal::new(refusal::ORDER, place)),
            Kind::Object => {
                tables.timing = object_element(&mut body, &programme, records, notes)?;
            }
            Kind::Extended => {
                extended = true;
                let count = usize::from(programme.objects) * blocks;
                extended_object_element(&mut body, &mut records[..count], notes)?;
            }
            Kind::Trim => trim_element(&mut body, trim)?,
            Kind::Unknown => tables.unknown += 1,
        }
    }
    Ok(tables)
}

/// The kind of an element (point 16).
pub enum Kind {
    Object,
    Trim,
    Extended,
    Unknown,
}

/// oa_element_md up to its fields: the kind, and the body after the discard
/// flag. `bits` stands after the element afterwards.
pub fn element<'a>(bits: &mut Bits<'a>, alternate: bool) -> Result<(Kind, Bits<'a>), Refusal> {
    let id = bits.take(4)?;
    let size_place = bits.place();
    let size = element_size(bits)?;
    let mut body = bits.part(size, size_place)?;
    // The size counts from here (5.6.4.3): one byte holds both fields.
    let alternate_id = if alternate { body.take(4)? } else { 0 };
    body.flag()?;
    // Table 27 gives the alternate id a meaning for the object element only.
    let kind = match (id, alternate_id) {
        (1, 0) => Kind::Object,
        (2, _) => Kind::Trim,
        (5, _) => Kind::Extended,
        _ => Kind::Unknown,
    };
    Ok((kind, body))
}

/// oa_element_size in bytes. variable_bits_max(4, 4) as printed reads up to five
/// groups; the flag after a fifth is read and ignored.
pub fn element_size(bits: &mut Bits) -> Result<usize, Refusal> {
    let mut value = bits.take(4)? as usize;
    let mut more = bits.flag()?;
    for _ in 0..4 {
        if !more {
            break;
        }
        value = value * 16 + 16 + bits.take(4)? as usize;
        more = bits.flag()?;
    }
    Ok(value + 1)
}

#[cfg(test)]
mod tests {
    use super::*;

    /// "Worked by hand": size groups as pairs of digit and flag.
    #[test]
    fn size_groups() {
        let cases: [(&[(u32, u32)], usize); 6] = [
            (&[(0, 0)], 0),
            (&[(15, 0)], 15),
            (&[(0, 1), (0, 0)], 16),
            (&[(15, 1), (15, 0)], 271),
            (&[(0, 1), (0, 1), (0, 0)], 272),
            (&[(0, 1), (0, 1), (0, 1), (0, 1), (0, 1)], 69_904),
        ];
        for (groups, value) in cases {
            let number = groups.iter().fold(0, |n, (g, f)| n << 5 | g << 1 | f);
            let bytes = (number << (32 - 5 * groups.len())).to_be_bytes();
            let mut bits = Bits::new(&bytes);
            assert_eq!(element_size(&mut bits), Ok(value + 1));
            assert_eq!(bits.place(), 5 * groups.len());
        }
    }
}
