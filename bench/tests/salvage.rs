//! Salvage of payloads worked by hand.

mod common;

use common::{bytes, element, read_all, read_both, ONE};
use skriemelt_bench::gen::{Gen, Remains};
use skriemelt_bench::plain::{salvage, Dropped, SalvageAnswer};

const FILL: u8 = 0xA7;

/// An object element of one byte with the reserved sample offset code, whose
/// place is 10 bits behind its first.
const RESERVED: &str = "0 11 00000";
/// An object element of an inactive object.
const INACTIVE: &str = "0 00 000 000000 00 1  1 0";
/// The timing of an object element of one block.
const TIMING: &str = "0 00 000 000000 00 1";
/// An active dynamic object in block 0: the position is 33, 5, 6.
const ACTIVE: &str = "0 00 1  100001 000101 1 0110 0  000 0  00  0  0  0";

/// Salvages with room that is longer than needed, exact, one byte short and
/// none: the answer, and what is left.
fn salvaged(payload: &[u8]) -> (SalvageAnswer, Vec<u8>) {
    let mut out = vec![FILL; payload.len() + 3];
    let answer = salvage(payload, &mut out);
    let length = answer.length as usize;
    assert!(out[length..].iter().all(|byte| *byte == FILL));
    out.truncate(length);
    let mut exact = vec![FILL; length];
    assert_eq!(salvage(payload, &mut exact), answer);
    assert_eq!(exact, out);
    if answer.refusal == 0 {
        for room in [length - 1, 0] {
            let mut short = vec![FILL; room];
            let refused = salvage(payload, &mut short);
            assert_eq!(refused, refusal(11, length as u64, 0));
            assert_eq!(short, vec![FILL; room]);
        }
    }
    (answer, out)
}

fn refusal(refusal: u32, place: u64, missing: u32) -> SalvageAnswer {
    SalvageAnswer {
        refusal,
        place,
        missing,
        ..SalvageAnswer::default()
    }
}

/// Accepted with these drops, each place, id and refusal, and this left; which
/// is accepted, and salvaged to itself.
fn left(payload: &[u8], drops: &[(u64, u8, u32)], left: &[u8]) {
    let drop = |(place, id, refusal)| Dropped { place, id, refusal };
    let expected = SalvageAnswer {
        length: left.len() as u64,
        drops: drops.iter().copied().map(drop).collect(),
        ..SalvageAnswer::default()
    };
    assert_eq!(salvaged(payload), (expected, left.to_vec()), "{payload:x?}");
    assert_eq!(read_all(left).0.refusal, 0, "{left:x?}");
    let same = SalvageAnswer {
        length: left.len() as u64,
        ..SalvageAnswer::default()
    };
    assert_eq!(salvaged(left), (same, left.to_vec()), "{left:x?}");
}

/// Bytes 17 to 19 of each of the records in frame 0.
fn divergences(payload: &[u8], records: usize) -> Vec<[u8; 3]> {
    let (_, bytes) = read_all(payload);
    let records = bytes.chunks(32).take(records);
    records.map(|r| [r[17], r[18], r[19]]).collect()
}

/// The padding bit behind the element stays.
#[test]
fn reserved_code() {
    left(&[0x01, 0x04, 0x40, 0xC1], &[(24, 1, 5)], &[0x01, 0x02]);
}

/// The extended element behind it comes too early then, the trim element stays.
#[test]
fn early_behind_a_drop() {
    let payload = [0x01, 0x0C, 0x40, 0xC0, 0xA0, 0x00, 0x21, 0x10, 0xC0, 0x00];
    let drops = [(24, 1, 5), (31, 5, 7)];
    left(&payload, &drops, &[0x01, 0x04, 0x84, 0x43, 0x00, 0x00]);
}

/// The place of the refusal is the first bit of the next, unknown element.
#[test]
fn field_at_the_end() {
    let payload = [0x01, 0x08, 0x40, 0x41, 0x20, 0x00];
    left(&payload, &[(31, 1, 8)], &[0x01, 0x06, 0x40, 0x00]);
}

/// Bits are missing at a place that only the second reading comes to; the zeros
/// that fill up its last byte are none of them.
#[test]
fn broken_behind_a_drop() {
    let payload = [0x01, 0x08, 0x40, 0xC0];
    assert_eq!(salvaged(&payload), (refusal(2, 31, 3), vec![]));
}

/// From 15 elements to 14 the count has 5 bits less. The bits behind the last
/// element are ones.
#[test]
fn shorter_count() {
    let unknown: String = (1..15).map(|k| element(9, &format!("{k:08b}"))).collect();
    let first = element(1, RESERVED);
    let payload = bytes(&format!("{ONE} 1111 00000 {first} {unknown} 111111"));
    let expected = bytes(&format!("{ONE} 1110 {unknown} 111111"));
    assert_eq!((payload.len(), expected.len()), (35, 33));
    left(&payload, &[(29, 1, 5)], &expected);
}

/// From 16 to 15 it keeps its length.
#[test]
fn fifteen() {
    let unknown: String = (1..16).map(|k| element(0, &format!("{k:08b}"))).collect();
    let first = element(1, RESERVED);
    let payload = bytes(&format!("{ONE} 1111 00001 {first} {unknown} 10"));
    let expected = bytes(&format!("{ONE} 1111 00000 {unknown} 10"));
    left(&payload, &[(29, 1, 5)], &expected);
}

/// Of two good object elements the second goes.
#[test]
fn second_object() {
    let first = element(1, &format!("{TIMING} {ACTIVE}"));
    let second = element(1, INACTIVE);
    let payload = bytes(&format!("{ONE} 0010 {first} {second}"));
    let place = 14 + first.replace(' ', "").len() as u64;
    let expected = bytes(&format!("{ONE} 0001 {first}"));
    left(&payload, &[(place, 1, 6)], &expected);
    let (_, records) = read_all(&expected);
    assert_eq!(records[..7], [1, 2, 50, 32, 33, 5, 70]);
}

/// A refused object element, then a good one, then a good extended one: the
/// first alone goes.
#[test]
fn good_behind_refused() {
    let first = element(1, RESERVED);
    let second = element(1, &format!("{TIMING} {ACTIVE}"));
    let third = element(5, "0 1 1 10 101010 0");
    let payload = bytes(&format!("{ONE} 0011 {first} {second} {third} 1"));
    let expected = bytes(&format!("{ONE} 0010 {second} {third} 1"));
    left(&payload, &[(24, 1, 5)], &expected);
    assert_eq!(divergences(&expected, 1), [[1, 2, 42]]);
}

/// An extended element that is refused behind a good divergence, of two active
/// objects, then a good one, which shows nothing of it.
fn half_way(refused: &str, second: (u64, u32)) {
    let two = "00 00001 1 0 0";
    let object = element(1, &format!("{TIMING} {ACTIVE} {ACTIVE}"));
    let good = element(5, "0 1 0 1 00 01 0");
    let payload = bytes(&format!("{two} 0011 {object} {refused} {good} 11"));
    let expected = bytes(&format!("{two} 0010 {object} {good} 11"));
    let place = 14 + object.replace(' ', "").len() as u64 + second.0;
    left(&payload, &[(place, 5, second.1)], &expected);
    assert_eq!(divergences(&expected, 2), [[0, 0, 0], [1, 0, 1]]);
}

#[test]
fn half_way_reserved() {
    // id, size, discard, block flag; flag, mode, code; flag
    let place = 4 + 5 + 1 + 1 + 1 + 2 + 6 + 1;
    half_way(&element(5, "0 1 1 10 101010 1 11 0"), (place, 5));
}

#[test]
fn half_way_short() {
    // The second code begins at bit 14 of the two bytes.
    let place = 4 + 5 + 14;
    half_way(&element(5, "0 1 1 10 101010 1 10 10"), (place, 8));
}

/// Payloads that salvage refuses, and some that it need not touch.
#[test]
fn refused() {
    let long = vec![0; 4097];
    assert_eq!(salvaged(&long), (refusal(1, 4097, 0), vec![]));
    assert_eq!(salvaged(&[]), (refusal(2, 0, 2), vec![]));
    assert_eq!(salvaged(&[0x41, 0x00]), (refusal(3, 0, 0), vec![]));
    let counts = bytes("00 00010 0 0100 00001 0 0000");
    assert_eq!(salvaged(&counts), (refusal(4, 17, 0), vec![]));
    // The ISF index: no element is there to be dropped for it.
    let index = bytes("00 00000 0 0010 110");
    assert_eq!(salvaged(&index), (refusal(5, 12, 0), vec![]));
    left(&[0x01, 0x07, 0xC1, 0x00], &[], &[0x01, 0x07, 0xC1, 0x00]);
}

/// What is left is read to the tables of the kept elements.
fn holds(remains: &Remains) {
    let (answer, records, trim) = read_both(&remains.payload);
    let tables = &remains.tables;
    assert_eq!((answer.refusal, answer.unknown), (0, tables.unknown));
    assert_eq!(answer.programme, tables.programme);
    assert_eq!(answer.timing, tables.timing);
    assert_eq!(records[..tables.records.len()], tables.records);
    assert_eq!(trim[..tables.trim.len()], tables.trim);
}

/// Payloads put together of elements that the generator knows to be kept or
/// dropped. All sorts of them occur.
#[test]
fn generated() {
    let mut gen = Gen::new(31);
    let (mut drops, mut refusals, mut kinds) = ([0; 4], [0; 3], [[0; 9]; 6]);
    let mut below = 0;
    for _ in 0..5000 {
        let wreck = gen.wreck();
        match &wreck.left {
            Ok(remains) => {
                left(&wreck.payload, &remains.drops, &remains.payload);
                holds(remains);
                drops[remains.drops.len().min(3)] += 1;
                for (_, id, refusal) in &remains.drops {
                    kinds[usize::from(*id)][*refusal as usize] += 1;
                }
                let kept = wreck.count - remains.drops.len();
                below += u32::from(wreck.count >= 15 && kept < 15);
            }
            Err((number, place, missing)) => {
                let expected = refusal(*number, *place, *missing);
                assert_eq!(salvaged(&wreck.payload), (expected, vec![]));
                refusals[*number as usize] += 1;
            }
        }
    }
    assert!(drops.iter().all(|count| *count > 200), "{drops:?}");
    assert!(refusals[1] > 20 && refusals[2] > 200, "{refusals:?}");
    assert!(below > 200, "{below} counts fall below 15");
    // An object element cannot come too early, nor can a trim element.
    for (id, refusals) in [
        (1, vec![5, 6, 8]),
        (2, vec![5, 6, 8]),
        (5, vec![5, 6, 7, 8]),
    ] {
        for refusal in refusals {
            assert!(kinds[id][refusal] > 20, "{kinds:?}");
        }
    }
}
