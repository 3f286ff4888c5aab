//! The examples of docs/DECISIONS.md, "Worked by hand", and what stands about them.

mod common;

use common::{bytes, element, read_all, ONE};
use skriemelt_bench::plain::{read, Answer, Programme, Timing, Update};

#[test]
fn listing_example() {
    let (answer, records) = read_all(&[0x01, 0x07, 0xC1, 0x00]);
    let expected = Answer {
        programme: Programme {
            objects: 1,
            dynonly: 1,
            ..Programme::default()
        },
        unknown: 1,
        ..Answer::default()
    };
    assert_eq!(answer, expected);
    assert!(records.iter().all(|byte| *byte == 0xEE));
}

#[test]
fn listing_example_cut() {
    let payload = [0x01, 0x07, 0xC1, 0x00];
    for (length, place, missing) in [(3, 18, 7), (2, 14, 2), (1, 8, 1), (0, 0, 2)] {
        let (answer, _) = read_all(&payload[..length]);
        let expected = Answer {
            refusal: 2,
            place,
            missing,
            ..Answer::default()
        };
        assert_eq!(answer, expected, "{length} bytes");
    }
}

#[test]
fn version_one() {
    let (answer, _) = read_all(&[0x41, 0x00]);
    assert_eq!((answer.refusal, answer.place), (3, 0));
    // Version 3 + 0: the extension is there, the version is not 0.
    let (answer, _) = read_all(&[0xC0]);
    assert_eq!((answer.refusal, answer.place), (3, 0));
}

#[test]
fn lengths() {
    let mut payload = vec![0xFF; 4097];
    payload[..4].copy_from_slice(&[0x01, 0x07, 0xC1, 0x00]);
    let (answer, _) = read_all(&payload[..4096]);
    assert_eq!((answer.refusal, answer.unknown), (0, 1));
    let (answer, _) = read_all(&payload);
    assert_eq!((answer.refusal, answer.place), (1, 4097));
    let (answer, _) = read_all(&vec![0xFF; 70_000]);
    assert_eq!((answer.refusal, answer.place), (1, 70_000));
}

/// The start of the single block of an inactive object.
fn start(offset: &str, factor: &str) -> u16 {
    let content = format!("0 {offset} 000 {factor} 00 1  1 0");
    let payload = bytes(&format!("{ONE} 0001 {}", element(1, &content)));
    let (answer, _) = read_all(&payload);
    assert_eq!((answer.refusal, answer.timing.blocks), (0, 1));
    answer.timing.updates[0].start
}

#[test]
fn starts() {
    assert_eq!(start("00", "110000"), 1536);
    assert_eq!(start("01 10", "000000"), 18);
    assert_eq!(start("10 11111", "111111"), 2047);
    for (index, offset) in [("00", 8), ("01", 16), ("10", 18), ("11", 24)] {
        assert_eq!(start(&format!("01 {index}"), "000001"), 32 + offset);
    }
}

#[test]
fn ramps() {
    let table = [
        32, 64, 128, 256, 320, 480, 1000, 1001, 1024, 1600, 1601, 1602, 1920, 2000, 2002, 2048,
    ];
    let mut cases: Vec<(String, u16)> = vec![
        ("00".into(), 0),
        ("01".into(), 512),
        ("10".into(), 1536),
        ("11 0 00000000011".into(), 3),
        ("11 0 11111111111".into(), 2047),
    ];
    for (index, ramp) in table.into_iter().enumerate() {
        cases.push((format!("11 1 {index:04b}"), ramp));
    }
    for (bits, ramp) in cases {
        let content = format!("0 00 000 000000 {bits} 0 11111  1 0");
        let (answer, _) = read_all(&bytes(&format!("{ONE} 0001 {}", element(1, &content))));
        let mut timing = Timing {
            blocks: 1,
            ..Timing::default()
        };
        timing.updates[0] = Update { start: 0, ramp };
        assert_eq!((answer.refusal, answer.timing), (0, timing), "{bits}");
    }
}

#[test]
fn gains() {
    let cases = [
        ("00", 50),
        ("01", 0),
        ("11", 50),
        ("10 000000", 65),
        ("10 001110", 51),
        ("10 001111", 49),
        ("10 111111", 1),
    ];
    for (bits, gain) in cases {
        // An LFE object alone: a bed object with basic values only.
        let content = format!("0 00 000 000000 00 1  0 {bits} 1 0");
        let payload = bytes(&format!("00 00000 1 1 0 0001 {}", element(1, &content)));
        let mut records = [0xEE; 32];
        let answer = read(&payload, 0, &mut records, &mut [0xEE; 95]);
        assert_eq!((answer.refusal, answer.programme.lfe), (0, 1));
        assert_eq!(records[..4], [1, 0, gain, 32], "{bits}");
        assert_eq!(records[4..17], [31, 31, 64, 0, 0, 0, 0, 0, 1, 0, 0, 0, 0]);
    }
}
