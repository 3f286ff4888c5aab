//! Tables written with both: answers and whole buffers, with canaries around them.

use crate::lent::Lent;
use skriemelt_bench::gen::rng::Rng;
use skriemelt_bench::gen::{longest, Gen, TableCase};
use skriemelt_bench::plain::{self, needed, trim_needed, MAX_PAYLOAD};
use skriemelt_bench::proved;

/// What both read of a payload: the answer, and the tables of an accepted one.
pub struct Read {
    pub answer: plain::Answer,
    pub frame: u32,
    pub records: Vec<u8>,
    pub trim: Vec<u8>,
}

/// How the writes ended.
#[derive(Default)]
pub struct Writes {
    accepted: u64,
    with_trim: u64,
    not_valid: u64,
    bad_record: u64,
    bad_time: u64,
    bad_trim: u64,
    no_room: u64,
    past_limit: u64,
}

impl Writes {
    fn count(&mut self, case: &TableCase, answer: &plain::WriteAnswer) {
        let records = u64::from(case.programme.objects) * u64::from(case.timing.blocks);
        let outcome = match (answer.refusal, answer.place) {
            (0, _) if case.trim[0] != 0 => &mut self.with_trim,
            (0, _) => &mut self.accepted,
            (10, 0) => &mut self.not_valid,
            (10, place) if place > records => &mut self.bad_trim,
            (10, _) if case.kind.starts_with("another ") => &mut self.bad_time,
            (10, _) => &mut self.bad_record,
            (_, place) if place <= MAX_PAYLOAD as u64 => &mut self.no_room,
            _ => &mut self.past_limit,
        };
        *outcome += 1;
    }

    pub fn print(&self) {
        println!("written, refusal 0 (accepted, no trim): {}", self.accepted);
        println!("written, refusal 0 (with trim): {}", self.with_trim);
        let text = "programme, timing or too few record bytes";
        println!("written, refusal 10, place 0 ({text}): {}", self.not_valid);
        println!("written, refusal 10 (a record): {}", self.bad_record);
        let text = "another time or frame, nothing else";
        println!("written, refusal 10 ({text}): {}", self.bad_time);
        println!("written, refusal 10 (trim table): {}", self.bad_trim);
        println!("written, refusal 11 (buffer too short): {}", self.no_room);
        println!("written, refusal 11 (above 4,096): {}", self.past_limit);
    }
}

/// Writes with both and compares all that both give; the answer and the payload.
fn both(case: &TableCase, fresh: Lent) -> Result<(plain::WriteAnswer, Vec<u8>), String> {
    let (mut a, mut b) = (fresh.clone(), fresh.clone());
    let (programme, timing) = ((&case.programme).into(), (&case.timing).into());
    let (records, trim) = (&case.records, &case.trim);
    let frame = case.frame;
    let answer = proved::write(programme, timing, frame, records, trim, a.lend()).plain();
    let (programme, timing) = (&case.programme, &case.timing);
    let other = plain::write(programme, timing, frame, records, trim, b.lend());
    if answer != other {
        return Err(format!("proved {answer:?}\nplain  {other:?}"));
    }
    a.same(&b)?;
    let (used, most) = (answer.length as usize, fresh.room().min(MAX_PAYLOAD));
    let sound = match answer.refusal {
        0 => answer.place == 0 && used <= most,
        10 => used == 0,
        11 => used == 0 && answer.place > most as u64,
        _ => false,
    };
    if !sound {
        return Err(format!("{answer:?} with room {}", fresh.room()));
    }
    a.kept(&fresh, used)?;
    Ok((answer, a.first(used).to_vec()))
}

/// The payload, read with the proved library, gives the tables it was written from.
fn reads_back(case: &TableCase, payload: &[u8]) -> Result<(), String> {
    let bytes = needed(&case.programme, &case.timing);
    let trim_bytes = trim_needed(&case.programme);
    let (mut records, mut trim) = (vec![0xC3; bytes], vec![0xC3; trim_bytes]);
    let answer = proved::read(payload, case.frame, &mut records, &mut trim).plain();
    let expected = plain::Answer {
        programme: case.programme,
        timing: case.timing,
        ..plain::Answer::default()
    };
    let same = records == case.records[..bytes] && trim == case.trim[..trim_bytes];
    if answer != expected || !same {
        return Err(format!("written and read back: {answer:?}"));
    }
    Ok(())
}

/// What a writer needs beside the tables.
pub struct Writer {
    gen: Gen,
    rng: Rng,
    pub writes: Writes,
}

impl Writer {
    pub fn new(seed: u64) -> Self {
        Self {
            gen: Gen::new(seed ^ 0x7AB1E5),
            rng: Rng::new(seed ^ 0xF0121),
            writes: Writes::default(),
        }
    }

    fn written(&mut self, case: &TableCase, room: usize) -> Result<plain::WriteAnswer, String> {
        let fresh = Lent::new(&mut self.rng, room);
        let answer = both(case, fresh).and_then(|(answer, payload)| {
            if answer.refusal == 0 {
                reads_back(case, &payload)?;
            }
            Ok(answer)
        });
        let answer = answer.map_err(|message| {
            let (kind, programme, timing) = (case.kind, case.programme, case.timing);
            let (frame, trim) = (case.frame, &case.trim);
            format!("writing {kind}, frame {frame}, room {room}: {message}\n{programme:?}\n{timing:?}\n{trim:?}")
        })?;
        self.writes.count(case, &answer);
        Ok(answer)
    }

    /// Room enough; then as much as the form takes, and too little.
    fn in_rooms(&mut self, case: &TableCase) -> Result<plain::WriteAnswer, String> {
        let room = MAX_PAYLOAD + self.rng.below(9);
        let answer = self.written(case, room)?;
        if answer.refusal == 0 {
            let length = answer.length as usize;
            let exact = self.written(case, length)?;
            let short = self.rng.pick(&[0, length - 1, length / 2]);
            let refused = self.written(case, short)?;
            let got = (exact.refusal, refused.refusal, refused.place);
            if got != (0, 11, length as u64) {
                return Err(format!("{length} bytes, exact and too short: {got:?}"));
            }
        }
        Ok(answer)
    }

    /// The tables of an accepted payload as they were read, then damaged.
    pub fn rewrite(&mut self, read: &Read) -> Result<(), String> {
        let answer = &read.answer;
        let mut case = TableCase {
            kind: "tables of a payload",
            programme: answer.programme,
            timing: answer.timing,
            frame: read.frame,
            records: read.records.clone(),
            trim: read.trim.clone(),
            valid: None,
            place: None,
        };
        let wrote = self.in_rooms(&case)?;
        let reserved = answer.programme.content & 8 != 0;
        if reserved != (wrote.refusal == 10) || (reserved && wrote.place != 0) {
            return Err(format!("the tables of a payload: {wrote:?}"));
        }
        self.gen.damage_tables(&mut case);
        let room = self.rng.pick(&[0, 16, 300, MAX_PAYLOAD, 5000]);
        let room = self.rng.below(room + 1);
        self.written(&case, room)?;
        Ok(())
    }

    /// Generated tables, held to what the generator knows of them.
    pub fn generated(&mut self) -> Result<(), String> {
        let case = self.gen.tables();
        let answer = self.in_rooms(&case)?;
        let valid = answer.refusal != 10;
        if case.valid.is_some_and(|expected| expected != valid) {
            return Err(format!("{}: {answer:?}", case.kind));
        }
        if !valid && case.place.is_some_and(|place| place != answer.place) {
            return Err(format!("{}: {answer:?}, not its place", case.kind));
        }
        Ok(())
    }

    /// The tables with the longest form of all.
    pub fn longest(&mut self) -> Result<(), String> {
        let answer = self.in_rooms(&longest())?;
        if (answer.refusal, answer.place) != (11, 14_481) {
            return Err(format!("the longest form: {answer:?}"));
        }
        Ok(())
    }
}
