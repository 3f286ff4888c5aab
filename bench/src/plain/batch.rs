//! A shelf of payloads read in one call: each entry is a part of one store, and
//! has a slot for its records, a slot for its trim table and a place for its
//! answer.

use super::{read, refusal, Answer};

/// Bytes of an answer's place: those of the C struct, padding 0.
pub const ANSWER_BYTES: usize = 136;

/// What a call looks at.
#[derive(Clone, Copy, Debug)]
pub struct Shelf<'a> {
    pub store: &'a [u8],
    /// Where each payload begins in the store, and how long it is.
    pub starts: &'a [u64],
    pub lengths: &'a [u64],
    /// The frame of each payload.
    pub frames: &'a [u32],
    /// Bytes of every slot, of records and of trim.
    pub record_slot: usize,
    pub trim_slot: usize,
}

/// What the whole call answers; what the entries give is in their places.
#[derive(Clone, Copy, Debug, Default, PartialEq, Eq)]
pub struct BatchAnswer {
    pub refusal: u32,
    pub place: u64,
}

/// Reads every entry of the shelf in list order, each as a payload by itself.
/// Refusal 13 comes first, and then nothing is read or written.
pub fn read_batch(
    shelf: &Shelf,
    records: &mut [u8],
    trims: &mut [u8],
    answers: &mut [u8],
) -> BatchAnswer {
    let count = shelf.starts.len();
    let holds = |room: &[u8], slot: usize| match count.checked_mul(slot) {
        Some(bytes) => bytes <= room.len(),
        None => false,
    };
    let enough = holds(records, shelf.record_slot)
        && holds(trims, shelf.trim_slot)
        && holds(answers, ANSWER_BYTES);
    let lists = shelf.lengths.len() == count && shelf.frames.len() == count;
    if !lists || !enough {
        return BatchAnswer {
            refusal: refusal::LISTS,
            place: count as u64,
        };
    }
    let (mut records, mut trims) = (records, trims);
    let entries = shelf.starts.iter().zip(shelf.lengths).zip(shelf.frames);
    for (((start, length), frame), place) in entries.zip(answers.chunks_exact_mut(ANSWER_BYTES)) {
        let (slot, more) = records.split_at_mut(shelf.record_slot);
        let (trim_slot, more_trims) = trims.split_at_mut(shelf.trim_slot);
        let answer = match part(shelf.store, *start, *length) {
            Some(payload) => read(payload, *frame, slot, trim_slot),
            None => outside(*start),
        };
        place.copy_from_slice(&answer_bytes(&answer));
        (records, trims) = (more, more_trims);
    }
    BatchAnswer::default()
}

/// A part of the store, if it does not leave it.
pub(super) fn part(store: &[u8], start: u64, length: u64) -> Option<&[u8]> {
    let end = usize::try_from(start.checked_add(length)?).ok()?;
    store.get(usize::try_from(start).ok()?..end)
}

/// The answer of an entry that leaves the store, before anything else is said
/// of it.
fn outside(start: u64) -> Answer {
    Answer {
        refusal: refusal::OUTSIDE,
        place: start,
        ..Answer::default()
    }
}

/// The place of an answer: its fields at the offsets of the C struct, least byte
/// first.
pub fn answer_bytes(answer: &Answer) -> [u8; ANSWER_BYTES] {
    let (p, t) = (&answer.programme, &answer.timing);
    let mut place = [0; ANSWER_BYTES];
    let mut lay = |at: usize, bytes: &[u8]| place[at..at + bytes.len()].copy_from_slice(bytes);
    lay(0, &answer.place.to_le_bytes());
    lay(8, &[answer.refusal as u8, answer.unknown as u8]);
    lay(12, &[p.objects, p.dynonly, p.lfe, p.content, p.distribute]);
    lay(
        17,
        &[p.multiple, p.instances, p.bedcount, p.isf, p.dynamics],
    );
    for (k, bed) in p.beds.iter().enumerate() {
        lay(24 + 8 * k, &bed.assignment.to_le_bytes());
        lay(28 + 8 * k, &[bed.lfeonly, bed.standard]);
    }
    lay(96, &[t.blocks]);
    for (k, update) in t.updates.iter().enumerate() {
        lay(98 + 4 * k, &update.start.to_le_bytes());
        lay(100 + 4 * k, &update.ramp.to_le_bytes());
    }
    lay(132, &answer.missing.to_le_bytes());
    place
}
