//! Segments of payloads summarised with both: refusal, place and every counter.

use skriemelt_bench::plain::{self, refusal, Summary, MAX_ENTRIES};
use skriemelt_bench::proved;

/// Payloads of one object in eight blocks with ramps of 2,048 samples, the longest. The blocks of the first start at samples 1,535 and 1,567 by turns, those
/// of the second at 1,504 and 1,536: half of them past the frame.
const EDGES: [&[u8]; 2] = [
    &[
        0x01, 0x04, 0x42, 0x05, 0xFF, 0x7F, 0xFC, 0x3F, 0xDF, 0xFF, 0x0F, 0xF7, 0xFF, 0xC3, 0xFD,
        0xFF, 0xF0, 0xFF, 0xAA, 0xAA, 0x00,
    ],
    &[
        0x01, 0x04, 0x7C, 0x3D, 0xFF, 0xF0, 0xFF, 0x7F, 0xFC, 0x3F, 0xDF, 0xFF, 0x0F, 0xF7, 0xFF,
        0xC3, 0xFE, 0xAA, 0xA8,
    ],
];

/// What the summaries gave.
#[derive(Default)]
pub struct Summaries {
    accepted: u64,
    lists: u64,
    many: u64,
    records: u64,
    late: u64,
    ramps: u64,
}

impl Summaries {
    /// Summarises with both and compares all that both give.
    pub fn both(&mut self, store: &[u8], starts: &[u64], lengths: &[u64]) -> Result<(), String> {
        let summary = proved::summarise(store, starts, lengths).plain();
        let other = plain::summarise(store, starts, lengths);
        if summary != other {
            return Err(format!(
                "summary: proved {summary:?}\nsummary: plain  {other:?}"
            ));
        }
        held(&summary, starts.len(), lengths.len())?;
        self.count(&summary);
        Ok(())
    }

    /// As many payloads as a summary takes, with the greatest sum of ramps, and more.
    pub fn limits(&mut self) -> Result<(), String> {
        let (store, second) = (EDGES.concat(), EDGES[0].len() as u64);
        let most = MAX_ENTRIES;
        let (starts, lengths): (Vec<u64>, Vec<u64>) = (0..=most)
            .map(|i| (second * (i % 2) as u64, EDGES[i % 2].len() as u64))
            .unzip();
        for (a, b) in [(most, most), (most + 1, most + 1), (most + 1, most)] {
            self.both(&store, &starts[..a], &lengths[..b])?;
        }
        let summary = proved::summarise(&store, &starts[..most], &lengths[..most]);
        let counts = (summary.records, summary.late, summary.ramps);
        if counts != (1 << 19, 1 << 18, 1 << 30) {
            return Err(format!("records, late blocks and ramps {counts:?}"));
        }
        Ok(())
    }

    fn count(&mut self, summary: &Summary) {
        match summary.refusal {
            refusal::LISTS => self.lists += 1,
            refusal::MANY => self.many += 1,
            _ => self.accepted += 1,
        }
        self.records += u64::from(summary.records);
        self.late += u64::from(summary.late);
        self.ramps += u64::from(summary.ramps);
    }

    pub fn print(&self) {
        let Self { records, late, .. } = self;
        println!("summary, refusal 0 (accepted calls): {}", self.accepted);
        println!("summary, refusal 13 (lists): {}", self.lists);
        println!("summary, refusal 16 (too many): {}", self.many);
        println!("summary, records: {records}; late blocks: {late}");
        println!("summary, samples of ramps: {}", self.ramps);
    }
}

/// What holds of every summary of lists of these lengths.
fn held(summary: &Summary, starts: usize, lengths: usize) -> Result<(), String> {
    let expected = match (starts == lengths, starts > MAX_ENTRIES) {
        (false, _) => (refusal::LISTS, starts as u64),
        (true, true) => (refusal::MANY, starts as u64),
        (true, false) => (refusal::ACCEPTED, 0),
    };
    if (summary.refusal, summary.place) != expected {
        return Err(format!("{summary:?}, not {expected:?}"));
    }
    let sum = |counters: &[u32]| counters.iter().map(|n| u64::from(*n)).sum::<u64>();
    let sums = [
        sum(&summary.gains),
        sum(&summary.zones),
        sum(&summary.classes),
        sum(&summary.activity),
    ];
    let entries = match summary.refusal {
        refusal::ACCEPTED => starts as u64,
        _ => 0,
    };
    if sums != [u64::from(summary.records); 4] || sum(&summary.payloads) != entries {
        return Err(format!("{summary:?} does not add up"));
    }
    Ok(())
}
