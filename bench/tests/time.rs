//! The time of a record, bytes 24 to 31, read and written.

mod common;

use common::{bytes, element, ONE};
use skriemelt_bench::plain::{read, write, Answer};

const SAMPLE: &[u8] = include_bytes!("../../samples/three-objects.oamd");

/// The sample's records and answer in a frame.
fn sample(frame: u32) -> (Answer, [u8; 192]) {
    let mut records = [0xEE; 192];
    let answer = read(SAMPLE, frame, &mut records, &mut [0; 97]);
    assert_eq!((answer.refusal, answer.timing.blocks), (0, 2));
    (answer, records)
}

/// Refusal and place of the sample's tables, written in a frame.
fn written(frame: u32, answer: &Answer, records: &[u8]) -> (u32, u64) {
    let mut out = [0xEE; 100];
    let (programme, timing) = (&answer.programme, &answer.timing);
    let answer = write(programme, timing, frame, records, &[0; 97], &mut out);
    let untouched = &out[answer.length as usize..];
    assert!(untouched.iter().all(|byte| *byte == 0xEE));
    (answer.refusal, answer.place)
}

fn hex(bytes: &[u8]) -> String {
    bytes.iter().map(|byte| format!("{byte:02x}")).collect()
}

#[test]
fn sample_in_frames() {
    let (_, records) = sample(0);
    let second = "01003e041f1f4000000000000100000000000000000000002000000000000000";
    assert_eq!(hex(&records[32..64]), second);
    let (answer, other) = sample(7);
    assert_eq!(hex(&other[56..64]), "202a000000000000");
    // Every object, the inactive record of the last one too: 0x2A00 is 7 x 1,536.
    for (index, record) in other.chunks(32).enumerate() {
        let time = ["002a000000000000", "202a000000000000"][index % 2];
        assert_eq!(hex(&record[24..]), time);
        assert_eq!(record[..24], records[32 * index..][..24]);
    }
    assert_eq!(written(7, &answer, &other), (0, 0));
}

#[test]
fn last_frame_and_last_start() {
    let content = "0 10 11111 000 111111 00 1  1 0";
    let payload = bytes(&format!("{ONE} 0001 {}", element(1, content)));
    let mut record = [0xEE; 32];
    let answer = read(&payload, u32::MAX, &mut record, &mut [0; 95]);
    assert_eq!((answer.refusal, answer.timing.updates[0].start), (0, 2047));
    assert_eq!(hex(&record[24..]), "ff01000000060000");
    let mut out = [0; 20];
    let (programme, timing) = (&answer.programme, &answer.timing);
    let answer = write(programme, timing, u32::MAX, &record, &[0; 95], &mut out);
    assert_eq!(answer.refusal, 0);
}

#[test]
fn room() {
    let mut records = [0xEE; 191];
    let answer = read(SAMPLE, 7, &mut records, &mut [0; 97]);
    assert_eq!((answer.refusal, answer.place), (9, 192));
    assert_eq!(records, [0xEE; 191]);
}

#[test]
fn other_times() {
    let (answer, records) = sample(7);
    assert_eq!(written(8, &answer, &records), (10, 1));
    for index in 0..6 {
        for byte in 24..32 {
            let mut bad = records;
            bad[32 * index + byte] ^= 1;
            assert_eq!(written(7, &answer, &bad), (10, 1 + index as u64));
        }
    }
    assert_eq!(written(7, &answer, &records[..191]), (10, 0));
}

/// The first record that is bad counts, by its own bytes or by its time.
#[test]
fn first_bad() {
    let (answer, records) = sample(7);
    for (gain, time) in [(1, 3), (3, 1), (2, 2)] {
        let mut bad = records;
        bad[32 * gain + 2] = 66;
        bad[32 * time + 31] = 1;
        let first = gain.min(time) as u64;
        assert_eq!(written(7, &answer, &bad), (10, 1 + first));
    }
}

#[test]
fn no_blocks() {
    let payload = bytes(&format!("{ONE} 0000"));
    for frame in [0, 7, u32::MAX] {
        let mut trim = [0xEE; 95];
        let answer = read(&payload, frame, &mut [], &mut trim);
        assert_eq!((answer.refusal, answer.timing.blocks), (0, 0));
        assert_eq!(written(!frame, &answer, &[]), (0, 0));
    }
}
