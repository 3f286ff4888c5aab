//! The payloads that are measured, held in memory: the mixture of valid and damaged ones, or one like a library.

use crate::inputs::Tables;
use crate::lists::Lists;
use skriemelt_bench::gen::library::Library;
use skriemelt_bench::gen::Gen;
use skriemelt_bench::plain::RECORD_STRIDE;

/// The payloads one behind the other, as in a file.
pub struct Store {
    pub bytes: Vec<u8>,
    pub spans: Vec<(usize, usize)>,
}

impl Store {
    fn new(payloads: impl Iterator<Item = Vec<u8>>) -> Self {
        let mut store = Self {
            bytes: vec![],
            spans: vec![],
        };
        for payload in payloads {
            let from = store.bytes.len();
            store.bytes.extend_from_slice(&payload);
            store.spans.push((from, store.bytes.len()));
        }
        store
    }

    pub fn payloads(&self) -> Vec<&[u8]> {
        let spans = self.spans.iter();
        spans.map(|(from, to)| &self.bytes[*from..*to]).collect()
    }
}

/// Payloads, and the tables of the accepted ones.
pub struct Mixture {
    pub store: Store,
    pub tables: Vec<Tables>,
}

impl Mixture {
    /// Valid and damaged payloads of all sorts.
    pub fn generated(count: usize, seed: u64) -> Self {
        let mut gen = Gen::new(seed);
        Self::of(Store::new((0..count).map(|_| gen.case().payload)))
    }

    /// Payloads like those of a library.
    pub fn library(count: usize, seed: u64) -> Self {
        let mut library = Library::new(seed);
        Self::of(Store::new((0..count).map(|_| library.frame().payload)))
    }

    fn of(store: Store) -> Self {
        let payloads = store.payloads();
        let tables = payloads.iter().filter_map(|payload| Tables::of(payload));
        Self {
            tables: tables.collect(),
            store,
        }
    }

    /// The payloads on shelves, for the calls that take many.
    pub fn lists(&self) -> Vec<Lists<'_>> {
        Lists::all(&self.store)
    }

    /// Bytes that are written of the tables.
    pub fn written_bytes(&self) -> usize {
        self.tables.iter().map(Tables::form_bytes).sum()
    }

    /// Says what is measured.
    pub fn describe(&self, name: &str) {
        let records = self.tables.iter().map(|t| t.records.len() / RECORD_STRIDE);
        let forms = self.tables.iter().map(Tables::form_bytes);
        let written = forms.filter(|bytes| *bytes > 0).count();
        let trims = self.tables.iter().filter(|t| t.trim[0] != 0).count();
        println!(
            "\n{name}: {} payloads, {} bytes in memory; the tables of the {} accepted ones are written, {} records, {trims} with a trim element; {written} of them are accepted again, with {} bytes",
            self.store.spans.len(),
            self.store.bytes.len(),
            self.tables.len(),
            records.sum::<usize>(),
            self.written_bytes()
        );
    }
}
