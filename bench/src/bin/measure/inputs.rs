//! What is read and what is written, prepared before the clock starts.

use crate::times::{Buffers, Work, PART};
use skriemelt_bench::gen::rng::Rng;
use skriemelt_bench::gen::timed;
use skriemelt_bench::plain::{
    self, needed, trim_needed, Programme, Record, Timing, Update, MAX_PAYLOAD, RECORD_BYTES,
};
use skriemelt_bench::proved;
use std::hint::black_box;

/// The frame that all is read and written in: its number has four bytes that are not 0.
const FRAME: u32 = 0x0123_4567;

/// The tables of an accepted payload, as both take them.
pub struct Tables {
    programme: Programme,
    timing: Timing,
    proved_programme: proved::Programme,
    proved_timing: proved::Timing,
    pub records: Vec<u8>,
    pub trim: Vec<u8>,
}

impl Tables {
    /// `None` if the payload is refused.
    pub fn of(payload: &[u8]) -> Option<Self> {
        let mut lent = Buffers::new();
        let answer = plain::read(payload, FRAME, &mut lent.bytes, &mut lent.trim);
        (answer.refusal == 0).then(|| Self {
            programme: answer.programme,
            timing: answer.timing,
            proved_programme: (&answer.programme).into(),
            proved_timing: (&answer.timing).into(),
            records: lent.bytes[..needed(&answer.programme, &answer.timing)].to_vec(),
            trim: lent.trim[..trim_needed(&answer.programme)].to_vec(),
        })
    }

    /// Bytes of the form, 0 if it is refused.
    pub fn form_bytes(&self) -> usize {
        let mut out = [0; MAX_PAYLOAD];
        self.write(&mut out).length as usize
    }

    /// Writes with the plain code.
    fn write(&self, out: &mut [u8]) -> plain::WriteAnswer {
        plain::write(
            &self.programme,
            &self.timing,
            FRAME,
            &self.records,
            &self.trim,
            out,
        )
    }
}

pub fn reading() -> Work<impl Fn(&&[u8], &mut Buffers), impl Fn(&&[u8], &mut Buffers)> {
    Work {
        names: ("proved", "plain"),
        part: PART,
        first: |payload: &&[u8], lent: &mut Buffers| {
            black_box(proved::read(
                payload,
                FRAME,
                &mut lent.bytes,
                &mut lent.trim,
            ));
        },
        second: |payload: &&[u8], lent: &mut Buffers| {
            black_box(plain::read(payload, FRAME, &mut lent.bytes, &mut lent.trim));
        },
    }
}

pub fn writing() -> Work<impl Fn(&&Tables, &mut Buffers), impl Fn(&&Tables, &mut Buffers)> {
    Work {
        names: ("proved", "plain"),
        part: PART,
        first: |t: &&Tables, lent: &mut Buffers| {
            let (programme, timing) = (t.proved_programme, t.proved_timing);
            let out = &mut lent.bytes;
            let (records, trim) = (&t.records, &t.trim);
            black_box(proved::write(programme, timing, FRAME, records, trim, out));
        },
        second: |t: &&Tables, lent: &mut Buffers| {
            black_box(t.write(&mut lent.bytes));
        },
    }
}

/// A payload of n dynamic objects and k blocks, every record of its own; `None` if it does not fit.
pub fn shaped(rng: &mut Rng, objects: usize, blocks: usize) -> Option<Vec<u8>> {
    let programme = Programme {
        objects: objects as u8,
        dynonly: 1,
        ..Programme::default()
    };
    let mut timing = Timing {
        blocks: blocks as u8,
        ..Timing::default()
    };
    for (index, update) in timing.updates[..blocks].iter_mut().enumerate() {
        *update = Update {
            start: 32 * index as u16,
            ramp: 512,
        };
    }
    let records: Vec<Record> = (0..objects * blocks).map(|_| active(rng)).collect();
    let trim = vec![0; trim_needed(&programme)];
    let mut out = vec![0; MAX_PAYLOAD];
    let records = timed(&records, &timing, FRAME);
    let answer = plain::write(&programme, &timing, FRAME, &records, &trim, &mut out);
    out.truncate(answer.length as usize);
    (answer.refusal == 0).then_some(out)
}

/// An active dynamic record.
fn active(rng: &mut Rng) -> Record {
    let mut record = [0; RECORD_BYTES];
    record[0] = 1;
    record[1] = 2;
    record[2] = rng.pick(&[0, 50, 40, 60]);
    record[3] = rng.below(33) as u8;
    record[4] = rng.below(63) as u8;
    record[5] = rng.below(63) as u8;
    record[6] = 64 + rng.below(16) as u8;
    record[8] = rng.below(32) as u8;
    record[9] = rng.below(32) as u8;
    record[12] = 1;
    record
}
