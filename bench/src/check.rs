//! The promises of the requirements held against answers, without a second reader.

pub mod length;
mod why;

use self::length::form_bytes;
use crate::gen::{timed, Case, TableCase};
use crate::plain::{needed, read, trim_needed, write};
use crate::plain::{Answer, Record, WriteAnswer, RECORD_STRIDE};

pub use self::why::check_why;

/// Fails with a message.
macro_rules! ensure {
    ($holds:expr, $($message:tt)*) => {
        if !$holds {
            return Err(format!($($message)*));
        }
    };
}

/// What a read leaves: its answer and both buffers.
struct Left {
    answer: Answer,
    records: Vec<u8>,
    trim: Vec<u8>,
}

/// A payload and its frame.
type Framed<'a> = (&'a [u8], u32);

/// Reads into buffers of these rooms, filled with a pattern.
fn left((payload, frame): Framed, (room, trim_room): (usize, usize), seed: u8) -> Left {
    let (mut records, mut trim) = (pattern(room, seed), pattern(trim_room, !seed));
    let answer = read(payload, frame, &mut records, &mut trim);
    Left {
        answer,
        records,
        trim,
    }
}

/// Refused with this and nothing else, both buffers as they came.
fn refused(left: &Left, expect: (u32, u64, u32), seed: u8) -> Result<(), String> {
    let answer = &left.answer;
    let bare = Answer {
        refusal: expect.0,
        place: expect.1,
        missing: expect.2,
        ..Answer::default()
    };
    ensure!(*answer == bare, "refused, expected {expect:?}: {answer:?}");
    let untouched = left.records == pattern(left.records.len(), seed)
        && left.trim == pattern(left.trim.len(), !seed);
    ensure!(untouched, "a buffer changed on a refusal");
    Ok(())
}

fn framed(case: &Case) -> Framed<'_> {
    (&case.payload, case.frame)
}

/// Reads a case and checks the answer and the buffers.
pub fn check_case(case: &Case) -> Result<Answer, String> {
    let left = left(framed(case), (case.room, case.trim_room), 0xA5);
    let answer = left.answer;
    let got = (answer.refusal, answer.place, answer.missing);
    if let Some(expect) = case.expect {
        ensure!(got == expect, "got {got:?}, expected {expect:?}");
    }
    ensure!(answer.refusal <= 9, "refusal {}", answer.refusal);
    let early = answer.refusal == 2;
    ensure!(early == (answer.missing > 0), "{answer:?}");
    if answer.refusal != 0 {
        refused(&left, got, 0xA5)?;
        return Ok(answer);
    }
    ensure!(answer.place == 0, "accepted with place {}", answer.place);
    accepted(case, &left)?;
    Ok(answer)
}

/// What holds of an accepted payload.
fn accepted(case: &Case, first: &Left) -> Result<(), String> {
    let answer = &first.answer;
    let bytes = needed(&answer.programme, &answer.timing);
    let trim_bytes = trim_needed(&answer.programme);
    let enough = bytes <= case.room && trim_bytes <= case.trim_room;
    ensure!(enough, "accepted without room");
    let untouched = first.records[bytes..] == pattern(case.room, 0xA5)[bytes..]
        && first.trim[trim_bytes..] == pattern(case.trim_room, !0xA5)[trim_bytes..];
    ensure!(untouched, "bytes past the records or the trim table");
    let (records, trim) = (&first.records[..bytes], &first.trim[..trim_bytes]);
    if let Some(tables) = &case.tables {
        ensure!(answer.programme == tables.programme, "programme");
        ensure!(answer.timing == tables.timing, "timing");
        ensure!(answer.unknown == tables.unknown, "unknown");
        ensure!(records == tables.records, "records");
        ensure!(trim == tables.trim, "trim {trim:?}, not {:?}", tables.trim);
    }
    let second = left(framed(case), (bytes, trim_bytes), 0x3C);
    ensure!(second.answer == *answer, "another answer with exact room");
    ensure!(
        second.records == records,
        "a record byte was left as it was"
    );
    ensure!(second.trim == trim, "a trim byte was left as it was");
    too_short(case, bytes, trim_bytes)?;
    other_frame(case, &second)?;
    appended(case, &second)
}

/// In another frame the same is read, but for the times, which are all moved by
/// as many frames.
fn other_frame(case: &Case, second: &Left) -> Result<(), String> {
    let frame = !case.frame;
    let rooms = (second.records.len(), second.trim.len());
    let other = left((&case.payload, frame), rooms, 0x3C);
    let same = other.answer == second.answer && other.trim == second.trim;
    ensure!(same, "another answer or trim table in frame {frame}");
    let entries = |left: &Left| left.records.as_chunks::<RECORD_STRIDE>().0.to_vec();
    for (a, b) in entries(second).iter().zip(&entries(&other)) {
        ensure!(a[..24] == b[..24], "another record in frame {frame}");
        let from = |entry: &[u8], frame: u32| {
            let time = entry[24..]
                .iter()
                .rev()
                .fold(0, |t, b| t << 8 | u64::from(*b));
            time.wrapping_sub(1536 * u64::from(frame))
        };
        let starts = (from(a, case.frame), from(b, frame));
        ensure!(starts.0 == starts.1, "starts {starts:?} in frame {frame}");
        ensure!(starts.0 < 2048, "a start of {}", starts.0);
    }
    Ok(())
}

/// One byte short of either, then of both: the records are named first.
fn too_short(case: &Case, bytes: usize, trim_bytes: usize) -> Result<(), String> {
    let short = left(framed(case), (bytes, trim_bytes - 1), 0x3C);
    refused(&short, (9, trim_bytes as u64, 0), 0x3C)?;
    if bytes > 0 {
        for trim_room in [trim_bytes, trim_bytes - 1, 0] {
            let short = left(framed(case), (bytes - 1, trim_room), 0x3C);
            refused(&short, (9, bytes as u64, 0), 0x3C)?;
        }
    }
    Ok(())
}

/// Appended bytes are padding: the answer stays.
fn appended(case: &Case, second: &Left) -> Result<(), String> {
    if case.payload.len() < 4096 {
        let mut longer = case.payload.clone();
        longer.push(0xFF);
        let rooms = (second.records.len(), second.trim.len());
        let again = left((&longer, case.frame), rooms, 0x3C);
        let same = again.answer == second.answer
            && again.records == second.records
            && again.trim == second.trim;
        ensure!(same, "another answer or buffer with a byte appended");
    }
    Ok(())
}

/// Writes the tables of an accepted payload: valid unless the reserved content
/// flag is set.
pub fn check_rewrite(case: &Case, answer: &Answer) -> Result<WriteAnswer, String> {
    let rooms = (
        needed(&answer.programme, &answer.timing),
        trim_needed(&answer.programme),
    );
    let left = left(framed(case), rooms, 0);
    let tables = TableCase {
        kind: "read",
        programme: answer.programme,
        timing: answer.timing,
        frame: case.frame,
        records: left.records,
        trim: left.trim,
        valid: Some(answer.programme.content & 8 == 0),
        place: Some(0),
    };
    check_tables(&tables)
}

/// Writes tables and checks the answer, the buffer and the way back.
pub fn check_tables(case: &TableCase) -> Result<WriteAnswer, String> {
    let (answer, out) = written(case, 5000);
    match answer.refusal {
        0 => {
            let length = answer.length as usize;
            ensure!(length <= 4096, "{length} bytes written");
            ensure!(length == form_bytes(case), "{length} bytes written");
            ensure!(answer.place == 0, "written with a place");
            read_back(case, &out[..length])?;
            rooms(case, length, &out[..length])?;
            other_frame_written(case, &out[..length])?;
        }
        10 | 11 => {
            ensure!(out == pattern(5000, 0x5A), "buffer changed on a refusal");
            ensure!(answer.length == 0, "refused with a length");
        }
        other => return Err(format!("refusal {other}")),
    }
    if answer.refusal == 11 {
        ensure!(answer.place > 4096, "5,000 bytes are room enough");
        ensure!(answer.place == form_bytes(case) as u64, "{answer:?}");
        let (again, _) = written(case, answer.place as usize);
        ensure!(again == answer, "4,096 bytes are the limit");
    }
    if let (10, Some(place)) = (answer.refusal, case.place) {
        ensure!(answer.place == place, "place {place}, answer {answer:?}");
    }
    if let Some(valid) = case.valid {
        let got = answer.refusal != 10;
        ensure!(got == valid, "valid {valid}, answer {answer:?}");
    }
    Ok(answer)
}

/// Exact room, one byte less, a little more, none.
fn rooms(case: &TableCase, length: usize, payload: &[u8]) -> Result<(), String> {
    for room in [length, length + 3] {
        let (answer, out) = written(case, room);
        ensure!(answer.refusal == 0, "room {room}: {answer:?}");
        ensure!(out[..length] == *payload, "room {room}: another form");
        let untouched = &pattern(room, 0x5A)[length..];
        ensure!(&out[length..] == untouched, "bytes past the payload");
    }
    for room in [length - 1, 0] {
        let (answer, out) = written(case, room);
        let got = (answer.refusal, answer.place, answer.length);
        ensure!(got == (11, length as u64, 0), "room {room}: {answer:?}");
        ensure!(out == pattern(room, 0x5A), "buffer changed on a refusal");
    }
    Ok(())
}

/// The form is the same in another frame, if the times are of that; if they are
/// not, the first record is bad.
fn other_frame_written(case: &TableCase, payload: &[u8]) -> Result<(), String> {
    let mut other = case.clone();
    other.frame = !case.frame;
    let (answer, _) = written(&other, payload.len());
    let expected = if case.timing.blocks == 0 {
        (0, 0)
    } else {
        (10, 1)
    };
    let got = (answer.refusal, answer.place);
    ensure!(got == expected, "frame {}: {answer:?}", other.frame);
    let entries = case.records.as_chunks::<RECORD_STRIDE>().0.iter();
    let records: Vec<Record> = entries
        .map(|r| *r.first_chunk().expect("a record"))
        .collect();
    let count = needed(&case.programme, &case.timing) / RECORD_STRIDE;
    other.records = timed(&records[..count], &case.timing, other.frame);
    let (answer, out) = written(&other, payload.len());
    ensure!(answer.refusal == 0 && out == payload, "another form");
    Ok(())
}

/// The written bytes are read as the same tables, nothing unknown, and these
/// are written as the same bytes.
fn read_back(case: &TableCase, payload: &[u8]) -> Result<(), String> {
    let bytes = needed(&case.programme, &case.timing);
    let trim_bytes = trim_needed(&case.programme);
    let Left {
        answer,
        records,
        trim,
    } = left((payload, case.frame), (bytes, trim_bytes), 0xC3);
    ensure!(
        answer.refusal == 0,
        "what was written is refused: {answer:?}"
    );
    ensure!(answer.unknown == 0, "unknown elements written");
    ensure!(answer.programme == case.programme, "another programme");
    ensure!(answer.timing == case.timing, "another timing");
    ensure!(records == case.records[..bytes], "other records");
    ensure!(trim == case.trim[..trim_bytes], "another trim table");
    let mut out = pattern(payload.len(), 0x11);
    let (programme, timing) = (&answer.programme, &answer.timing);
    let again = write(programme, timing, case.frame, &records, &trim, &mut out);
    ensure!(again.refusal == 0, "written once only: {again:?}");
    ensure!(out == payload, "another form the second time");
    Ok(())
}

fn written(case: &TableCase, room: usize) -> (WriteAnswer, Vec<u8>) {
    let mut out = pattern(room, 0x5A);
    let answer = write(
        &case.programme,
        &case.timing,
        case.frame,
        &case.records,
        &case.trim,
        &mut out,
    );
    (answer, out)
}

/// Bytes that a call is not likely to write by chance.
fn pattern(length: usize, seed: u8) -> Vec<u8> {
    (0..length)
        .map(|at| (at as u8).wrapping_mul(31) ^ seed)
        .collect()
}
