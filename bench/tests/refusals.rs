//! Refusals and places by hand, and which of two comes first.

mod common;

use common::{bytes, element, read_all, refusal, ONE};
use skriemelt_bench::plain::{read, write, Bed, Programme, Timing, Update};

/// An object element of one inactive object, 14 bits from the discard flag on.
const INACTIVE: &str = "0 00 000 000000 00 1  1 0";

#[test]
fn cut_fields() {
    assert_eq!(refusal("00 11111 0"), (2, 7));
    assert_eq!(refusal("00 00000 0"), (2, 8));
    // An ISF of four objects puts the first group at bit 24 and the fifth flag
    // at bit 48: it must be there, and is ignored.
    let five = "00 00011 0 0010 000 0 0001 1111 0001 1 0001 1 0001 1 0001 1 0001";
    assert_eq!(refusal(five), (2, 48));
    assert_eq!(refusal(&format!("{five} 1")), (2, 24));
    assert_eq!(refusal(&format!("{five} 0")), (2, 24));
}

#[test]
fn cut_reserved_run() {
    // The run of 16 bits begins at bit 16.
    assert_eq!(refusal("00 00000 0 1000 0001 11111111"), (2, 16));
    assert_eq!(
        refusal("00 00000 0 1000 0001 11111111 00000000 0 0000"),
        (0, 0)
    );
}

#[test]
fn counts() {
    assert_eq!(refusal("00 00000 0 0000"), (4, 12));
    // Two dynamic objects for three: bit 17 may be there or not.
    assert_eq!(refusal("00 00010 0 0100 00001"), (4, 17));
    assert_eq!(refusal("00 00010 0 0100 00010 0 0000"), (0, 0));
    // A bed of no object.
    assert_eq!(refusal("00 00000 0 0001 0 0 0 1 0000000000"), (4, 26));
    // Under the reserved flag fewer are right, more are not.
    let run = "0000 00000000";
    assert_eq!(
        refusal(&format!("00 00010 0 1100 00001 {run} 0 0000")),
        (0, 0)
    );
    assert_eq!(
        refusal(&format!("00 00000 0 1100 00001 {run} 0 0000")),
        (4, 29)
    );
}

#[test]
fn reserved_values() {
    assert_eq!(refusal("00 00000 0 0010 110"), (5, 12));
    assert_eq!(refusal("00 00000 0 0010 111"), (5, 12));
    // The discard flag is bit 23, the sample offset code bit 24.
    let offset = element(1, "0 11 000 000000 00 1  1 0");
    assert_eq!(refusal(&format!("{ONE} 0001 {offset}")), (5, 24));
}

#[test]
fn reserved_render_values() {
    let start = "0 00 000 000000 00 1  0 00 1  000000 000000 0 0000 0 ";
    let at = |content: &str| refusal(&format!("{ONE} 0001 {}", element(1, content)));
    // 14 bits of header, 4 of id, 5 of size; 37 bits up to the zone.
    assert_eq!(at(&format!("{start} 110 0  00 0 0 0")), (5, 23 + 37));
    assert_eq!(at(&format!("{start} 111 0  00 0 0 0")), (5, 23 + 37));
    assert_eq!(at(&format!("{start} 000 0  11 0 0 0")), (5, 23 + 41));
}

#[test]
fn reserved_divergence() {
    let object = element(
        1,
        "0 00 000 000000 00 1  0 00 1  000000 000000 0 0000 0  000 0 00 0 0 0",
    );
    let base = 14 + object.replace(' ', "").len() as u64;
    let at = |content: &str| refusal(&format!("{ONE} 0010 {object}{}", element(5, content)));
    // Id and size take 9 bits; then discard, block flag, flag, mode, code.
    assert_eq!(at("0 1 1 11 000000 0"), (5, base + 9 + 3));
    assert_eq!(at("0 1 1 10 000000 0"), (5, base + 9 + 5));
    assert_eq!(at("0 1 1 01 0"), (0, 0));
    // A code of 6 bits that the element's end cuts: 8 comes before 5.
    assert_eq!(at("0 1 1 10 000"), (8, base + 9 + 5));
}

#[test]
fn twice_and_early() {
    let object = element(1, INACTIVE);
    let width = object.replace(' ', "").len() as u64;
    let extended = element(5, "0 0 0");
    let place = 14 + width;
    assert_eq!(refusal(&format!("{ONE} 0010 {object}{object}")), (6, place));
    assert_eq!(refusal(&format!("{ONE} 0010 {object}{extended}")), (0, 0));
    let three = format!("{ONE} 0011 {object}{extended}{extended}");
    assert_eq!(refusal(&three), (6, place + 17));
    assert_eq!(refusal(&format!("{ONE} 0001 {extended}")), (7, 14));
    // The size is held against the payload before 7.
    assert_eq!(refusal(&format!("{ONE} 0001 0101 1111 0 0")), (2, 18));
}

/// One object with alternate ids.
const ALTERNATE: &str = "00 00000 1 0 1 ";

/// Of another alternate id an object element is unknown, an extended one is not.
#[test]
fn alternate_ids() {
    let known = element(1, &format!("0000 {INACTIVE}"));
    let other = element(1, "0001 0 111");
    for id in ["0000", "0001", "1111"] {
        let extended = element(5, &format!("{id} 0 0 0"));
        let payload = format!("{ALTERNATE} 0100 {other}{known}{other}{extended}");
        let (answer, _) = read_all(&bytes(&payload));
        assert_eq!((answer.refusal, answer.unknown), (0, 2));
        assert_eq!(answer.timing.blocks, 1);
        assert_eq!(
            refusal(&format!("{ALTERNATE} 0010 {extended}{known}")),
            (7, 14)
        );
        // An object element of another alternate id does not come before 7.
        let payload = format!("{ALTERNATE} 0010 {other}{extended}");
        assert_eq!(refusal(&payload), (7, 14 + 17));
        // The alternate ids of two extended elements need not be the same for 6.
        for first in ["0000", "0001"] {
            let first = element(5, &format!("{first} 0 0 0"));
            let payload = format!("{ALTERNATE} 0011 {known}{first}{extended}");
            assert_eq!(refusal(&payload), (6, 14 + 33 + 17));
        }
    }
}

/// Behind an alternate id the fields of an extended element are read as ever:
/// the block flag is 4 bits further.
#[test]
fn reserved_divergence_behind_an_alternate_id() {
    let object = "0000 0 00 000 000000 00 1  0 00 1  000000 000000 0 0000 0  000 0 00 0 0 0";
    let object = element(1, object);
    let base = 14 + object.replace(' ', "").len() as u64;
    let at = |content: &str| {
        let extended = element(5, content);
        refusal(&format!("{ALTERNATE} 0010 {object}{extended}"))
    };
    assert_eq!(at("0111 0 1 1 11 000000 0"), (5, base + 9 + 7));
    assert_eq!(at("0111 0 1 1 10 000000 0"), (5, base + 9 + 9));
    // The second bit of the mode is past the element's end.
    assert_eq!(at("0111 0 1 1 1"), (8, base + 9 + 7));
    assert_eq!(at("0111 0 1 1 10 000001 0"), (0, 0));
}

#[test]
fn past_the_element() {
    // 14 bits want two bytes: in one byte the block offset factor, 6 bits from
    // bit 29 on, passes the end at bit 31; the payload goes on.
    let short = "0001 0000 0 0 00 000 00  00 00 1 1 0  11111111";
    assert_eq!(refusal(&format!("{ONE} 0001 {short}")), (8, 29));
    // Additional data of 16 bytes is one field.
    let additional = "0 00 000 000000 00 1  1 1 1111 0";
    let payload = format!("{ONE} 0001 {} 11111111", element(1, additional));
    assert_eq!(refusal(&payload), (8, 23 + 21));
}

#[test]
fn room() {
    let payload = bytes(&format!("{ONE} 0001 {}", element(1, INACTIVE)));
    for (room, refusal) in [(0, 9), (24, 9), (31, 9), (32, 0), (33, 0)] {
        let (mut records, mut trim) = (vec![0xEE; room], [0xEE; 95]);
        let answer = read(&payload, 0, &mut records, &mut trim);
        let place = if refusal == 9 { 32 } else { 0 };
        assert_eq!((answer.refusal, answer.place), (refusal, place));
        let untouched = if refusal == 9 { 0 } else { 32 };
        assert!(records[untouched..].iter().all(|byte| *byte == 0xEE));
    }
    // Last of all: a second object element is refused first.
    let twice = format!("{ONE} 0010 {0}{0}", element(1, INACTIVE));
    let answer = read(&bytes(&twice), 0, &mut [], &mut []);
    assert_eq!(answer.refusal, 6);
}

/// One dynamic object, one block.
fn tables() -> (Programme, Timing, [u8; 32]) {
    let programme = Programme {
        objects: 1,
        dynonly: 1,
        ..Programme::default()
    };
    let mut timing = Timing {
        blocks: 1,
        ..Timing::default()
    };
    timing.updates[0] = Update { start: 0, ramp: 0 };
    let mut record = [0; 32];
    record[..7].copy_from_slice(&[1, 2, 50, 32, 31, 31, 64]);
    (programme, timing, record)
}

/// Refusal, place and length, in frame 0 and without trim.
fn answer(programme: &Programme, timing: &Timing, records: &[u8]) -> (u32, u64, u64) {
    let answer = write(programme, timing, 0, records, &[0; 253], &mut [0; 100]);
    (answer.refusal, answer.place, answer.length)
}

#[test]
fn tables_that_are_not_valid() {
    let (programme, timing, record) = tables();
    // 14 bits, id and size 9; the element has 1 + 2 + 3 + 8 + 1 bits, then
    // 1 + 2 + 1 + 17 + 1 + 4 + 2 + 1 + 1 + 1: 46 bits, so 6 bytes. 71 in all.
    assert_eq!(answer(&programme, &timing, &record), (0, 0, 9));
    assert_eq!(answer(&programme, &timing, &record[..31]), (10, 0, 0));
    for (byte, value) in (0..24).zip([
        2, 1, 66, 33, 63, 63, 80, 18, 32, 32, 32, 6, 2, 2, 1, 1, 2, 2, 1, 1, 8, 1, 1, 1,
    ]) {
        let mut bad = record;
        bad[byte] = value;
        assert_eq!(answer(&programme, &timing, &bad), (10, 1, 0), "byte {byte}");
    }
    let two = Timing {
        blocks: 2,
        ..timing
    };
    let mut bad = record;
    bad[6] = 48;
    assert_eq!(
        answer(&programme, &two, &[record, bad].concat()),
        (10, 2, 0)
    );
    assert_eq!(answer(&programme, &two, &[bad, bad].concat()), (10, 1, 0));
    // What is wrong with the programme or the timing is named first.
    let wrong = Programme {
        objects: 0,
        ..programme
    };
    assert_eq!(answer(&wrong, &timing, &bad), (10, 0, 0));
}

#[test]
fn divergence_triples() {
    let (programme, timing, record) = tables();
    let valid = |triple: (u8, u8, u8)| {
        let mut record = record;
        (record[17], record[18], record[19]) = triple;
        answer(&programme, &timing, &record).0 == 0
    };
    let mut count = 0;
    for flag in [0, 1, 2, 128, 255] {
        for mode in [0, 1, 2, 3, 4, 255] {
            for value in 0..=255 {
                count += u32::from(valid((flag, mode, value)));
            }
        }
    }
    assert_eq!(count, 1 + 4 + 1 + 63);
    assert!(valid((0, 0, 0)) && valid((1, 0, 3)) && valid((1, 1, 0)));
    assert!(valid((1, 2, 1)) && valid((1, 2, 63)) && !valid((1, 2, 0)));
}

#[test]
fn timings() {
    let (programme, _, record) = tables();
    let with = |starts: &[u16], ramp: u16| {
        let mut records = vec![];
        let mut timing = Timing {
            blocks: starts.len() as u8,
            ..Timing::default()
        };
        for (update, start) in timing.updates.iter_mut().zip(starts) {
            *update = Update {
                start: *start,
                ramp,
            };
            records.extend(&record[..24]);
            records.extend(u64::from(*start).to_le_bytes());
        }
        let answer = answer(&programme, &timing, &records);
        (answer.0, answer.1)
    };
    assert_eq!(with(&[2047, 31, 63], 2048), (0, 0));
    assert_eq!(with(&[2048], 0), (10, 0));
    assert_eq!(with(&[0], 2049), (10, 0));
    assert_eq!(with(&[31, 32], 0), (10, 0));
    let mut timing = Timing::default();
    timing.updates[0].ramp = 1;
    assert_eq!(answer(&programme, &timing, &[]), (10, 0, 0));
    timing = Timing {
        blocks: 9,
        ..Timing::default()
    };
    assert_eq!(answer(&programme, &timing, &record.repeat(9)), (10, 0, 0));
}

/// Whether a programme, changed in some of its fields, can be written.
fn changed(base: &Programme, change: impl Fn(&mut Programme)) -> bool {
    let mut programme = *base;
    change(&mut programme);
    answer(&programme, &Timing::default(), &[]).0 == 0
}

#[test]
fn bed_programmes() {
    let mut base = Programme {
        objects: 1,
        content: 1,
        bedcount: 1,
        ..Programme::default()
    };
    let bed = |lfeonly, standard, assignment| {
        changed(&base, |p| {
            p.beds[0] = Bed {
                assignment,
                lfeonly,
                standard,
            }
        })
    };
    assert!(bed(1, 0, 0) && bed(0, 1, 2) && bed(0, 0, 1 << 16) && bed(0, 1, 512));
    assert!(!bed(0, 1, 1) && !bed(0, 1, 1024) && !bed(0, 0, 1 << 17));
    assert!(!bed(1, 1, 0) && !bed(1, 0, 1) && !bed(2, 0, 0) && !bed(0, 2, 1));
    base.beds[0].lfeonly = 1;
    assert!(changed(&base, |p| p.distribute = 1));
    assert!(!changed(&base, |p| p.distribute = 2));
    assert!(!changed(&base, |p| p.instances = 1));
    assert!(!changed(&base, |p| p.bedcount = 2));
    assert!(!changed(&base, |p| p.isf = 1));
    assert!(!changed(&base, |p| p.dynamics = 1));
    assert!(!changed(&base, |p| p.lfe = 1));
    assert!(!changed(&base, |p| p.content = 9));
    assert!(!changed(&base, |p| p.beds[1].lfeonly = 1));
    (base.multiple, base.bedcount, base.objects) = (1, 2, 2);
    base.beds[1].lfeonly = 1;
    assert!(changed(&base, |_| {}));
    assert!(!changed(&base, |p| p.instances = 1));
    assert!(!changed(&base, |p| p.beds[8].assignment = 1));
}

#[test]
fn other_programmes() {
    let dynamic = Programme {
        objects: 159,
        content: 4,
        dynamics: 158,
        ..Programme::default()
    };
    assert!(changed(&dynamic, |_| {}));
    assert!(!changed(&dynamic, |p| p.dynamics = 157));
    assert!(!changed(&dynamic, |p| (p.objects, p.dynamics) = (160, 159)));
    let isf = Programme {
        objects: 30,
        content: 2,
        isf: 5,
        ..Programme::default()
    };
    assert!(changed(&isf, |_| {}));
    assert!(!changed(&isf, |p| p.isf = 6));
    let only = Programme {
        objects: 1,
        dynonly: 1,
        lfe: 1,
        ..Programme::default()
    };
    assert!(changed(&only, |_| {}) && changed(&only, |p| p.objects = 159));
    assert!(!changed(&only, |p| p.lfe = 2) && !changed(&only, |p| p.dynonly = 2));
    assert!(!changed(&only, |p| p.content = 4) && !changed(&only, |p| p.objects = 160));
}
