//! The lists of a call that takes many payloads, and what is lent to it.

use crate::mixture::Store;
use crate::times::PART;
use skriemelt_bench::plain::{Shelf, ANSWER_BYTES, MAX_RECORD_BYTES, MAX_TRIM_BYTES};
use skriemelt_bench::proved::ReadAnswer;

/// The lists of one call: a part of the payloads.
pub struct Lists<'a> {
    pub store: &'a [u8],
    pub starts: Vec<u64>,
    pub lengths: Vec<u64>,
    pub frames: Vec<u32>,
}

impl<'a> Lists<'a> {
    /// The payloads of a store, on shelves of `PART`, in frames that follow each other.
    pub fn all(store: &'a Store) -> Vec<Self> {
        let start = |span: &(usize, usize)| span.0 as u64;
        let length = |span: &(usize, usize)| (span.1 - span.0) as u64;
        let mut frames = 0..;
        let parts = store.spans.chunks(PART);
        parts
            .map(|part| Self {
                store: &store.bytes,
                starts: part.iter().map(start).collect(),
                lengths: part.iter().map(length).collect(),
                frames: frames.by_ref().take(part.len()).collect(),
            })
            .collect()
    }

    pub fn shelf(&self) -> Shelf<'_> {
        Shelf {
            store: self.store,
            starts: &self.starts,
            lengths: &self.lengths,
            frames: &self.frames,
            record_slot: MAX_RECORD_BYTES,
            trim_slot: MAX_TRIM_BYTES,
        }
    }
}

/// Slots and places for a shelf; the answers of single reads are kept as they are given. Buffers are not cleared.
pub struct Slots {
    pub records: Vec<u8>,
    pub trims: Vec<u8>,
    pub places: Vec<u8>,
    pub answers: Vec<Option<ReadAnswer>>,
}

impl Slots {
    pub fn new() -> Self {
        Self {
            records: vec![0; PART * MAX_RECORD_BYTES],
            trims: vec![0; PART * MAX_TRIM_BYTES],
            places: vec![0; PART * ANSWER_BYTES],
            answers: vec![None; PART],
        }
    }
}
