//! Batches and summaries, beside single reads of the same payloads by the proved library through its C interface, and beside their plain counterparts.

use crate::lists::{Lists, Slots};
use crate::times::Work;
use skriemelt_bench::plain::{self, MAX_RECORD_BYTES, MAX_TRIM_BYTES};
use skriemelt_bench::proved;
use std::hint::black_box;

fn batch(lists: &Lists, lent: &mut Slots) {
    let (records, trims) = (&mut lent.records, &mut lent.trims);
    let places = &mut lent.places;
    black_box(proved::read_batch(&lists.shelf(), records, trims, places));
}

fn plain_batch(lists: &Lists, lent: &mut Slots) {
    let (records, trims) = (&mut lent.records, &mut lent.trims);
    let places = &mut lent.places;
    black_box(plain::read_batch(&lists.shelf(), records, trims, places));
}

/// Each payload by a call of its own, into the slots of a batch.
fn single(lists: &Lists, lent: &mut Slots) {
    let records = lent.records.chunks_exact_mut(MAX_RECORD_BYTES);
    let slots = records.zip(lent.trims.chunks_exact_mut(MAX_TRIM_BYTES));
    let entries = lists.starts.iter().zip(&lists.lengths).zip(&lists.frames);
    for ((entry, slot), answer) in entries.zip(slots).zip(&mut lent.answers) {
        let ((start, length), frame) = entry;
        let start = *start as usize;
        let payload = &lists.store[start..start + *length as usize];
        *answer = Some(proved::read(payload, *frame, slot.0, slot.1));
    }
    black_box(&lent.answers);
}

fn summary(lists: &Lists, _: &mut Slots) {
    let (starts, lengths) = (&lists.starts, &lists.lengths);
    black_box(proved::summarise(lists.store, starts, lengths));
}

fn plain_summary(lists: &Lists, _: &mut Slots) {
    let (starts, lengths) = (&lists.starts, &lists.lengths);
    black_box(plain::summarise(lists.store, starts, lengths));
}

/// Work on shelves, one of them a part.
fn shelved<P, Q>(names: (&'static str, &'static str), first: P, second: Q) -> Work<P, Q> {
    Work {
        names,
        part: 1,
        first,
        second,
    }
}

pub fn batching<'a>() -> Work<impl Fn(&Lists<'a>, &mut Slots), impl Fn(&Lists<'a>, &mut Slots)> {
    shelved(("batch", "single"), batch, single)
}

pub fn batching_both<'a>() -> Work<impl Fn(&Lists<'a>, &mut Slots), impl Fn(&Lists<'a>, &mut Slots)>
{
    shelved(("proved", "plain"), batch, plain_batch)
}

pub fn summing<'a>() -> Work<impl Fn(&Lists<'a>, &mut Slots), impl Fn(&Lists<'a>, &mut Slots)> {
    shelved(("sum", "single"), summary, single)
}

pub fn summing_both<'a>() -> Work<impl Fn(&Lists<'a>, &mut Slots), impl Fn(&Lists<'a>, &mut Slots)>
{
    shelved(("proved", "plain"), summary, plain_summary)
}
