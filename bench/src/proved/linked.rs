//! The library's functions, linked.

use super::{BackAnswer, CatalogueAnswer, CatalogueBefore, CatalogueFrame};
use super::{BatchAnswer, Programme, ReadAnswer, SalvageAnswer};
use super::{Summary, Timing, WhyAnswer, WriteAnswer};
use crate::plain::Shelf;

#[link(name = "skriemelt", kind = "static")]
extern "C" {
    fn skriemelt_version() -> u32;
    fn skriemelt_read(
        payload: *const u8,
        payload_bytes: usize,
        frame: u32,
        records: *mut u8,
        records_bytes: usize,
        trim: *mut u8,
        trim_bytes: usize,
    ) -> ReadAnswer;
    fn skriemelt_read_batch(
        store: *const u8,
        store_bytes: usize,
        starts: *const u64,
        starts_count: usize,
        lengths: *const u64,
        lengths_count: usize,
        frames: *const u32,
        frames_count: usize,
        record_slot: usize,
        trim_slot: usize,
        records: *mut u8,
        records_bytes: usize,
        trims: *mut u8,
        trims_bytes: usize,
        answers: *mut ReadAnswer,
        answers_bytes: usize,
    ) -> BatchAnswer;
    fn skriemelt_summarise(
        store: *const u8,
        store_bytes: usize,
        starts: *const u64,
        starts_count: usize,
        lengths: *const u64,
        lengths_count: usize,
    ) -> Summary;
    fn skriemelt_catalogue_write(
        store: *const u8,
        store_bytes: usize,
        starts: *const u64,
        starts_count: usize,
        lengths: *const u64,
        lengths_count: usize,
        frames: *const u32,
        frames_count: usize,
        text: *mut u8,
        text_bytes: usize,
    ) -> CatalogueAnswer;
    fn skriemelt_catalogue_write_on(
        store: *const u8,
        store_bytes: usize,
        starts: *const u64,
        starts_count: usize,
        lengths: *const u64,
        lengths_count: usize,
        frames: *const u32,
        frames_count: usize,
        before: *mut CatalogueBefore,
        before_bytes: usize,
        text: *mut u8,
        text_bytes: usize,
    ) -> CatalogueAnswer;
    fn skriemelt_catalogue_read(
        text: *const u8,
        text_bytes: usize,
        lines: *mut CatalogueFrame,
        lines_bytes: usize,
        records: *mut u8,
        records_bytes: usize,
    ) -> BackAnswer;
    fn skriemelt_catalogue_read_on(
        text: *const u8,
        text_bytes: usize,
        before: *mut CatalogueBefore,
        before_bytes: usize,
        lines: *mut CatalogueFrame,
        lines_bytes: usize,
        records: *mut u8,
        records_bytes: usize,
    ) -> BackAnswer;
    fn skriemelt_why(
        payload: *const u8,
        payload_bytes: usize,
        object: u32,
        block: u32,
        byte: u32,
    ) -> WhyAnswer;
    fn skriemelt_salvage(
        payload: *const u8,
        payload_bytes: usize,
        out: *mut u8,
        out_bytes: usize,
    ) -> SalvageAnswer;
    fn skriemelt_write(
        programme: Programme,
        timing: Timing,
        frame: u32,
        records: *const u8,
        records_bytes: usize,
        trim: *const u8,
        trim_bytes: usize,
        payload: *mut u8,
        payload_bytes: usize,
    ) -> WriteAnswer;
}

/// The version of the library.
pub fn version() -> u32 {
    // SAFETY: it takes nothing and returns a number.
    unsafe { skriemelt_version() }
}

/// Reads one payload with the proved library.
#[inline]
pub fn read(payload: &[u8], frame: u32, records: &mut [u8], trim: &mut [u8]) -> ReadAnswer {
    // SAFETY: the slices are valid for their lengths and do not overlap.
    unsafe {
        skriemelt_read(
            payload.as_ptr(),
            payload.len(),
            frame,
            records.as_mut_ptr(),
            records.len(),
            trim.as_mut_ptr(),
            trim.len(),
        )
    }
}

/// Reads a shelf of payloads with the proved library. The answers are bytes here: the library writes them one by one, at any alignment.
#[inline]
pub fn read_batch(
    shelf: &Shelf,
    records: &mut [u8],
    trims: &mut [u8],
    answers: &mut [u8],
) -> BatchAnswer {
    // SAFETY: the slices are valid for their lengths, and those to be filled overlap none.
    unsafe {
        skriemelt_read_batch(
            shelf.store.as_ptr(),
            shelf.store.len(),
            shelf.starts.as_ptr(),
            shelf.starts.len(),
            shelf.lengths.as_ptr(),
            shelf.lengths.len(),
            shelf.frames.as_ptr(),
            shelf.frames.len(),
            shelf.record_slot,
            shelf.trim_slot,
            records.as_mut_ptr(),
            records.len(),
            trims.as_mut_ptr(),
            trims.len(),
            answers.as_mut_ptr().cast(),
            answers.len(),
        )
    }
}

/// Summarises a segment of payloads with the proved library.
#[inline]
pub fn summarise(store: &[u8], starts: &[u64], lengths: &[u64]) -> Summary {
    // SAFETY: the slices are valid for their lengths, and none is filled.
    unsafe {
        skriemelt_summarise(
            store.as_ptr(),
            store.len(),
            starts.as_ptr(),
            starts.len(),
            lengths.as_ptr(),
            lengths.len(),
        )
    }
}

/// Writes the catalogue of a segment with the proved library.
pub fn write_catalogue(
    store: &[u8],
    starts: &[u64],
    lengths: &[u64],
    frames: &[u32],
    text: &mut [u8],
) -> CatalogueAnswer {
    // SAFETY: the slices are valid for their lengths, and the text overlaps none.
    unsafe {
        skriemelt_catalogue_write(
            store.as_ptr(),
            store.len(),
            starts.as_ptr(),
            starts.len(),
            lengths.as_ptr(),
            lengths.len(),
            frames.as_ptr(),
            frames.len(),
            text.as_mut_ptr(),
            text.len(),
        )
    }
}

/// Writes the catalogue of a segment behind an update with the proved library.
pub fn write_catalogue_on(
    store: &[u8],
    starts: &[u64],
    lengths: &[u64],
    frames: &[u32],
    before: &mut [u8],
    text: &mut [u8],
) -> CatalogueAnswer {
    // SAFETY: the slices are valid for their lengths, and those to be filled overlap none.
    unsafe {
        skriemelt_catalogue_write_on(
            store.as_ptr(),
            store.len(),
            starts.as_ptr(),
            starts.len(),
            lengths.as_ptr(),
            lengths.len(),
            frames.as_ptr(),
            frames.len(),
            before.as_mut_ptr().cast(),
            before.len(),
            text.as_mut_ptr(),
            text.len(),
        )
    }
}

/// Reads a catalogue's text back with the proved library. The lines are bytes here: the library writes them one by one, at any alignment.
pub fn read_catalogue(text: &[u8], lines: &mut [u8], records: &mut [u8]) -> BackAnswer {
    // SAFETY: the slices are valid for their lengths, and those to be filled overlap none.
    unsafe {
        skriemelt_catalogue_read(
            text.as_ptr(),
            text.len(),
            lines.as_mut_ptr().cast(),
            lines.len(),
            records.as_mut_ptr(),
            records.len(),
        )
    }
}

/// Reads a catalogue's text back behind an update with the proved library.
pub fn read_catalogue_on(
    text: &[u8],
    before: &mut [u8],
    lines: &mut [u8],
    records: &mut [u8],
) -> BackAnswer {
    // SAFETY: the slices are valid for their lengths, and those to be filled overlap none.
    unsafe {
        skriemelt_catalogue_read_on(
            text.as_ptr(),
            text.len(),
            before.as_mut_ptr().cast(),
            before.len(),
            lines.as_mut_ptr().cast(),
            lines.len(),
            records.as_mut_ptr(),
            records.len(),
        )
    }
}

/// Asks the proved library why a byte of a record is what it is.
pub fn why(payload: &[u8], object: u32, block: u32, byte: u32) -> WhyAnswer {
    // SAFETY: the slice is valid for its length, and nothing is filled.
    unsafe { skriemelt_why(payload.as_ptr(), payload.len(), object, block, byte) }
}

/// Salvages one payload with the proved library.
pub fn salvage(payload: &[u8], out: &mut [u8]) -> SalvageAnswer {
    // SAFETY: the slices are valid for their lengths and do not overlap.
    unsafe { skriemelt_salvage(payload.as_ptr(), payload.len(), out.as_mut_ptr(), out.len()) }
}

/// Writes tables with the proved library.
#[inline]
pub fn write(
    programme: Programme,
    timing: Timing,
    frame: u32,
    records: &[u8],
    trim: &[u8],
    payload: &mut [u8],
) -> WriteAnswer {
    // SAFETY: the slices are valid for their lengths, and the payload overlaps none.
    unsafe {
        skriemelt_write(
            programme,
            timing,
            frame,
            records.as_ptr(),
            records.len(),
            trim.as_ptr(),
            trim.len(),
            payload.as_mut_ptr(),
            payload.len(),
        )
    }
}
