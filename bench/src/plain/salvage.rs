//! Salvage, as it is asked for: a payload is read; if it is refused for what
//! stands in an element, that element's bits are taken out, the element count
//! is written anew, and what is left is read again, until nothing is refused.

use super::bits::{Bits, Refusal};
use super::origin::Silent;
use super::reader::{self, Kind, Scratch, Tables};
use super::refusal;
use super::{MAX_PAYLOAD, MAX_RECORDS, MAX_TRIM_BYTES, RECORD_BYTES};

/// An element that was dropped.
#[derive(Clone, Copy, Debug, Default, PartialEq, Eq)]
pub struct Dropped {
    /// The refusal's place in the payload as it came.
    pub place: u64,
    /// oa_element_id_idx.
    pub id: u8,
    pub refusal: u32,
}

/// What a salvage answers. On a refusal there is no drop, and the length is 0.
#[derive(Clone, Debug, Default, PartialEq, Eq)]
pub struct SalvageAnswer {
    pub refusal: u32,
    pub place: u64,
    /// With refusal 2, the bits that the field or the size at the place lacks.
    pub missing: u32,
    /// Length of what is left in bytes.
    pub length: u64,
    /// In the order in which they were dropped.
    pub drops: Vec<Dropped>,
}

/// Salvages one payload. If it is accepted, the first `length` bytes of `out`
/// hold what is left and no other byte is changed; if it is refused, no byte is
/// changed.
pub fn salvage(payload: &[u8], out: &mut [u8]) -> SalvageAnswer {
    match salvaged(payload, out) {
        Ok((length, drops)) => SalvageAnswer {
            length: length as u64,
            drops,
            ..SalvageAnswer::default()
        },
        Err(why) => SalvageAnswer {
            refusal: why.number,
            place: why.place,
            missing: why.missing,
            ..SalvageAnswer::default()
        },
    }
}

/// The loop, and last of all the room: refusal 11.
fn salvaged(payload: &[u8], out: &mut [u8]) -> Result<(usize, Vec<Dropped>), Refusal> {
    if payload.len() > MAX_PAYLOAD {
        return Err(Refusal::new(refusal::TOO_LONG, payload.len()));
    }
    let (mut left, mut drops) = (Left::of(payload), vec![]);
    while let Err(why) = left.read() {
        let place = left.places[why.place as usize] as u64;
        let came = Refusal { place, ..why };
        // Refused in the program assignment, or for what is in no element.
        let outline = left.outline().map_err(|_| came)?;
        let element = outline.element_of(&why).ok_or(came)?;
        drops.push(Dropped {
            place,
            id: element.id,
            refusal: why.number,
        });
        left = left.without(&outline, element);
    }
    let length = left.bytes.len();
    let Some(room) = out.get_mut(..length) else {
        return Err(Refusal::new(refusal::FORM, length));
    };
    room.copy_from_slice(&left.bytes);
    Ok((length, drops))
}

/// What is left of a payload.
struct Left {
    /// Its bits, the last byte filled up with zeros.
    bytes: Vec<u8>,
    /// Where each of its bits stood in the payload as it came; last, where that
    /// ended.
    places: Vec<usize>,
}

/// A known element: its first bit, the first bit behind it, its id.
struct Element {
    from: usize,
    to: usize,
    id: u8,
}

/// Where the parts of a payload stand.
struct Outline {
    /// First bit of the element count, and first bit behind it.
    count_from: usize,
    count_to: usize,
    count: usize,
    /// The known elements, up to the first one that passes the end.
    known: Vec<Element>,
}

impl Left {
    /// All of it.
    fn of(payload: &[u8]) -> Self {
        Self {
            bytes: payload.to_vec(),
            places: (0..=8 * payload.len()).collect(),
        }
    }

    fn end(&self) -> usize {
        self.places.len() - 1
    }

    /// The bits that are left, without those that fill up the last byte.
    fn bits(&self) -> Bits<'_> {
        Bits::up_to(&self.bytes, self.end())
    }

    /// Reads it, from the start.
    fn read(&self) -> Result<Tables, Refusal> {
        let mut scratch = Scratch {
            records: [[0; RECORD_BYTES]; MAX_RECORDS],
            trim: [0; MAX_TRIM_BYTES],
        };
        reader::metadata(&mut self.bits(), &mut scratch, &mut Silent)
    }

    /// Looks for the elements by their ids and sizes alone.
    fn outline(&self) -> Result<Outline, Refusal> {
        let mut bits = self.bits();
        reader::header(&mut bits)?;
        let alternate = bits.flag()?;
        let count_from = bits.place();
        let count = usize::from(bits.grown(4, 5)?);
        let count_to = bits.place();
        let mut known = vec![];
        for _ in 0..count {
            let from = bits.place();
            let Ok((kind, _)) = reader::element(&mut bits, alternate) else {
                break;
            };
            let id = match kind {
                Kind::Object => 1,
                Kind::Trim => 2,
                Kind::Extended => 5,
                Kind::Unknown => continue,
            };
            let to = bits.place();
            known.push(Element { from, to, id });
        }
        Ok(Outline {
            count_from,
            count_to,
            count,
            known,
        })
    }

    /// The same with an element taken out and the count written anew.
    fn without(&self, outline: &Outline, element: &Element) -> Self {
        let bit = |at: usize| self.bytes[at / 8] >> (7 - at % 8) & 1;
        let kept = |from, to| (from..to).map(|at| (bit(at), self.places[at]));
        // 15 and more as 15 and a further 5 bits.
        let (width, count) = match outline.count - 1 {
            count @ 0..15 => (4, count),
            count => (9, 15 << 5 | (count - 15)),
        };
        let place = self.places[outline.count_from];
        let anew = (0..width).rev().map(|k| ((count >> k & 1) as u8, place));
        let (bits, mut places): (Vec<u8>, Vec<usize>) = kept(0, outline.count_from)
            .chain(anew)
            .chain(kept(outline.count_to, element.from))
            .chain(kept(element.to, self.end()))
            .unzip();
        places.push(self.places[self.end()]);
        let byte = |bits: &[u8]| (0..8).fold(0, |byte, k| byte << 1 | bits.get(k).unwrap_or(&0));
        let bytes = bits.chunks(8).map(byte).collect();
        Self { bytes, places }
    }
}

impl Outline {
    /// The known element in which the place of refusal 5, 6, 7 or 8 lies. A
    /// field that begins at its element's end passes it, too, so there 8 means
    /// the element before the place.
    fn element_of(&self, why: &Refusal) -> Option<&Element> {
        let place = why.place as usize;
        let mut known = self.known.iter();
        known.find(|element| match why.number {
            refusal::RESERVED | refusal::TWICE | refusal::ORDER => {
                (element.from..element.to).contains(&place)
            }
            refusal::PAST_ELEMENT => element.from < place && place <= element.to,
            _ => false,
        })
    }
}
