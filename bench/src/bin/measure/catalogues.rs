//! Catalogues written, and read back, by the proved library and by the plain code.

use crate::lists::Lists;
use crate::times::{Work, PART};
use skriemelt_bench::plain::{self, refusal, LINE_BYTES};
use skriemelt_bench::proved;
use std::hint::black_box;

/// One shelf as a catalogue by itself: what it is written from, and its text.
pub struct Catalogue<'a> {
    lists: Lists<'a>,
    pub text: Vec<u8>,
    /// Bytes of the records that it is read back to.
    record_bytes: usize,
}

impl<'a> Catalogue<'a> {
    /// The catalogue of a shelf. Both must write the same text and read it back to as many bytes, so that no refusal is measured.
    pub fn new(lists: Lists<'a>) -> Self {
        let mut catalogue = Self {
            lists,
            text: vec![],
            record_bytes: 0,
        };
        // a refused call says how many bytes it takes
        let short = plain_write(&catalogue.lists, &mut []);
        assert_eq!(short.refusal, refusal::SHORT_TEXT);
        catalogue.text = vec![0; short.place as usize];
        plain_write(&catalogue.lists, &mut catalogue.text);
        let mut text = vec![0; catalogue.text.len()];
        proved_write(&catalogue.lists, &mut text);
        assert!(text == catalogue.text, "the two texts differ");
        let mut lines = [0; PART * LINE_BYTES];
        let short = plain::read_catalogue(&text, &mut lines, &mut []);
        catalogue.record_bytes = short.place as usize;
        let other = proved::read_catalogue(&text, &mut lines, &mut []).plain();
        assert_eq!(other, short, "the two read it back differently");
        catalogue
    }
}

/// What is lent to a call: the text, or lines and records. Buffers are not cleared.
pub struct Pages {
    text: Vec<u8>,
    lines: Vec<u8>,
    records: Vec<u8>,
}

impl Pages {
    /// Room for each of the catalogues.
    pub fn new(catalogues: &[Catalogue]) -> Self {
        let text = catalogues.iter().map(|c| c.text.len()).max();
        let records = catalogues.iter().map(|c| c.record_bytes).max();
        Self {
            text: vec![0; text.unwrap_or(0)],
            lines: vec![0; PART * LINE_BYTES],
            records: vec![0; records.unwrap_or(0)],
        }
    }
}

fn plain_write(lists: &Lists, text: &mut [u8]) -> plain::CatalogueAnswer {
    let (starts, lengths, frames) = (&lists.starts, &lists.lengths, &lists.frames);
    plain::write_catalogue(lists.store, starts, lengths, frames, text)
}

fn proved_write(lists: &Lists, text: &mut [u8]) -> proved::CatalogueAnswer {
    let (starts, lengths, frames) = (&lists.starts, &lists.lengths, &lists.frames);
    proved::write_catalogue(lists.store, starts, lengths, frames, text)
}

pub fn cataloguing<'a>(
) -> Work<impl Fn(&Catalogue<'a>, &mut Pages), impl Fn(&Catalogue<'a>, &mut Pages)> {
    Work {
        names: ("proved", "plain"),
        part: 1,
        first: |c: &Catalogue, lent: &mut Pages| {
            black_box(proved_write(&c.lists, &mut lent.text));
        },
        second: |c: &Catalogue, lent: &mut Pages| {
            black_box(plain_write(&c.lists, &mut lent.text));
        },
    }
}

pub fn reading_back<'a>(
) -> Work<impl Fn(&Catalogue<'a>, &mut Pages), impl Fn(&Catalogue<'a>, &mut Pages)> {
    Work {
        names: ("proved", "plain"),
        part: 1,
        first: |c: &Catalogue, lent: &mut Pages| {
            let (lines, records) = (&mut lent.lines, &mut lent.records);
            black_box(proved::read_catalogue(&c.text, lines, records));
        },
        second: |c: &Catalogue, lent: &mut Pages| {
            let (lines, records) = (&mut lent.lines, &mut lent.records);
            black_box(plain::read_catalogue(&c.text, lines, records));
        },
    }
}
