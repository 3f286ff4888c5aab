//! What a segment of payloads holds: records counted by gain, zone, class and
//! activity, late blocks, ramps, and payloads by refusal.

use super::batch::part;
use super::record::{Entry, ACTIVE, CLASS, GAIN, ZONE};
use super::{needed, read, refusal, Answer, Timing, FRAME_SAMPLES};
use super::{MAX_RECORD_BYTES, MAX_TRIM_BYTES};

/// Most payloads of a segment; more are refused.
pub const MAX_ENTRIES: usize = 65_536;

/// The counters. All but `payloads` are of accepted payloads only. On a refusal
/// all but refusal and place are 0.
#[derive(Clone, Copy, Debug, PartialEq, Eq)]
pub struct Summary {
    pub refusal: u32,
    pub place: u64,
    /// Objects x blocks of each payload.
    pub records: u32,
    /// Records by the byte of their gain: 0 minus infinity, k is k - 50 dB.
    pub gains: [u32; 66],
    pub zones: [u32; 6],
    pub classes: [u32; 3],
    /// Records that are not active, and those that are.
    pub activity: [u32; 2],
    /// Blocks that start past the last sample of their frame.
    pub late: u32,
    /// Samples of all ramps, block by block.
    pub ramps: u32,
    /// Payloads by refusal, 0 the accepted ones.
    pub payloads: [u32; 13],
}

impl Default for Summary {
    fn default() -> Self {
        Self {
            refusal: refusal::ACCEPTED,
            place: 0,
            records: 0,
            gains: [0; 66],
            zones: [0; 6],
            classes: [0; 3],
            activity: [0; 2],
            late: 0,
            ramps: 0,
            payloads: [0; 13],
        }
    }
}

impl Summary {
    fn refused(refusal: u32, entries: usize) -> Self {
        Self {
            refusal,
            place: entries as u64,
            ..Self::default()
        }
    }

    fn add_record(&mut self, record: &Entry) {
        let at = |byte: usize| usize::from(record[byte]);
        self.records += 1;
        self.gains[at(GAIN)] += 1;
        self.zones[at(ZONE)] += 1;
        self.classes[at(CLASS)] += 1;
        self.activity[at(ACTIVE)] += 1;
    }

    fn add_timing(&mut self, timing: &Timing) {
        for update in &timing.updates[..usize::from(timing.blocks)] {
            self.late += u32::from(u64::from(update.start) >= FRAME_SAMPLES);
            self.ramps += u32::from(update.ramp);
        }
    }

    /// Adds an entry that was answered so, with its records.
    fn add(&mut self, answer: &Answer, records: &[u8]) {
        self.payloads[answer.refusal as usize] += 1;
        if answer.refusal != refusal::ACCEPTED {
            return;
        }
        let used = &records[..needed(&answer.programme, &answer.timing)];
        for record in used.as_chunks().0 {
            self.add_record(record);
        }
        self.add_timing(&answer.timing);
    }
}

/// Summarises the parts of a store that starts and lengths give. Refusal 13 comes
/// first, then 16, and then nothing is counted.
pub fn summarise(store: &[u8], starts: &[u64], lengths: &[u64]) -> Summary {
    if starts.len() != lengths.len() {
        return Summary::refused(refusal::LISTS, starts.len());
    }
    if starts.len() > MAX_ENTRIES {
        return Summary::refused(refusal::MANY, starts.len());
    }
    let mut summary = Summary::default();
    let (mut records, mut trim) = ([0; MAX_RECORD_BYTES], [0; MAX_TRIM_BYTES]);
    for (start, length) in starts.iter().zip(lengths) {
        match part(store, *start, *length) {
            Some(payload) => {
                let answer = read(payload, 0, &mut records, &mut trim);
                summary.add(&answer, &records);
            }
            None => summary.payloads[refusal::OUTSIDE as usize] += 1,
        }
    }
    summary
}
