//! Payloads composed by hand, with the tables and the written form by hand.

mod common;

use common::{bytes, element, read_all, ONE};
use skriemelt_bench::plain::{write, Answer, Bed, Programme, Timing, Update};

/// Writes the tables of an answer in frame 0 without trim, with room to spare.
fn written(answer: &Answer, records: &[u8]) -> Vec<u8> {
    let mut out = vec![0xEE; 4096];
    let trim = vec![0; 94 + usize::from(answer.programme.objects)];
    let (programme, timing) = (&answer.programme, &answer.timing);
    let result = write(programme, timing, 0, records, &trim, &mut out);
    assert_eq!((result.refusal, result.place), (0, 0));
    assert!(out[result.length as usize..].iter().all(|b| *b == 0xEE));
    out.truncate(result.length as usize);
    out
}

/// One dynamic object, two blocks: everything given, then mixed and moved.
#[test]
fn moved_and_mixed() {
    let content = "0  10 00001 001  000000 00  110000 11 1 1111  0 10101
        0  10 000000  0 11111  111111 000000 0 1111  1 0 1111  101 0
           10 00001 00010 00011  1 111 11  1  0
        0  11 10 1  11 0001  1 011 100 111  0  0  1 0000 10101010";
    let (answer, records) = read_all(&bytes(&format!("{ONE} 0001 {}", element(1, content))));
    assert_eq!((answer.refusal, answer.unknown), (0, 0));
    let mut timing = Timing {
        blocks: 2,
        ..Timing::default()
    };
    timing.updates[0] = Update { start: 1, ramp: 0 };
    timing.updates[1] = Update {
        start: 1537,
        ramp: 2048,
    };
    assert_eq!(answer.timing, timing);
    let first = [
        1, 2, 65, 31, 62, 0, 49, 17, 1, 2, 3, 5, 0, 1, 7, 3, 1, 0, 0, 0, 0, 0, 0, 0, // time 1
        1, 0, 0, 0, 0, 0, 0, 0,
    ];
    let second = [
        1, 2, 65, 32, 62, 0, 49, 0, 1, 2, 3, 5, 0, 1, 7, 3, 0, 0, 0, 0, 0, 0, 0,
        0, // time 1,537
        1, 6, 0, 0, 0, 0, 0, 0,
    ];
    assert_eq!(records[..64], [first, second].concat());
    assert_eq!(records[64], 0xEE);
    let form = "0  10 00001 001  000000 00  110000 11 1 1111  1
        0  10 000000  0 11111  111110 000000 0 1111  1 0 1111  101 0
           10 00001 00010 00011  1 111 11  1  0
        0  01 10 000000  1  01 0 111110 000000 0 1111  0  101 0
           10 00001 00010 00011  1 111 11  0  0";
    let form = bytes(&format!("{ONE} 0001 {}", element(1, form)));
    assert_eq!(written(&answer, &records[..64]), form);
}

/// Bed (L/R, C, LFE), ISF 0 and two dynamic objects: 4 + 4 + 2, one block; gain
/// index 3 down the objects; divergence and a precise position behind an alternate
/// id; an id-1 element of another alternate id before all.
fn ten_objects() -> (Answer, Vec<u8>) {
    let header = "00 01001  0 0111  1 0  0 1 0000000111  000  00001  1 0011 ";
    let object = "0000 1  00 000 000000 01  1
        0 11 1 0   0 01 1 0   0 11 0 00001 0   1 0
        0 11 1 0   0 10 001111 1 0   0 11 1 0   0 00 1 0
        0 11 1  011111 011111 1 0000  0  000 1  00  0  0  0
        0 11 1  000001 000010 0 0000  1 1  010 1  01 00101  0  1  0";
    let elements = [
        element(1, "0111 1 101"),
        element(1, object),
        element(5, "1001 0  1  1 10 111111  0   1  1 101 01 10  0"),
    ];
    let (answer, records) = read_all(&bytes(&format!("{header}{}", elements.concat())));
    assert_eq!((answer.refusal, answer.place, answer.unknown), (0, 0, 1));
    (answer, records)
}

#[test]
fn programme_and_timing() {
    let (answer, _) = ten_objects();
    let mut programme = Programme {
        objects: 10,
        content: 7,
        distribute: 1,
        bedcount: 1,
        dynamics: 1,
        ..Programme::default()
    };
    programme.beds[0] = Bed {
        assignment: 7,
        lfeonly: 0,
        standard: 1,
    };
    assert_eq!(answer.programme, programme);
    let mut timing = Timing {
        blocks: 1,
        ..Timing::default()
    };
    timing.updates[0].ramp = 512;
    assert_eq!(answer.timing, timing);
}

#[test]
fn classes_gains_and_extension() {
    let (_, records) = ten_objects();
    let starts = [
        [1, 0, 50, 32],
        [1, 0, 0, 32],
        [1, 0, 0, 1],
        [0, 0, 0, 0],
        [1, 1, 0, 32],
        [1, 1, 49, 32],
        [1, 1, 49, 32],
        [1, 1, 50, 32],
        [1, 2, 50, 32],
        [1, 2, 50, 32],
    ];
    for (object, start) in starts.into_iter().enumerate() {
        let rest = match object {
            8 => [
                31, 31, 64, 0, 0, 0, 0, 0, 1, 0, 0, 0, 0, 1, 2, 63, 5, 1, 0, 2,
            ],
            9 => [1, 2, 64, 1, 5, 5, 5, 2, 1, 0, 0, 0, 1, 0, 0, 0, 0, 0, 0, 0],
            _ => [
                31, 31, 64, 0, 0, 0, 0, 0, 1, 0, 0, 0, 0, 0, 0, 0, 0, 0, 0, 0,
            ],
        };
        let record = &records[32 * object..32 * object + 32];
        assert_eq!((&record[..4], &record[4..24]), (&start[..], &rest[..]));
        assert_eq!(record[24..], [0; 8]);
    }
}

#[test]
fn form_of_ten_objects() {
    let (answer, records) = ten_objects();
    let header = "00 01001  0 0111  1 0  0 1 0000000111  000  00001  0 0010 ";
    let object = "0  00 000 000000 01  1
        0 00 1 0   0 01 1 0   0 01 0 00001 0   1 0
        0 01 1 0   0 10 001111 1 0   0 10 001111 1 0   0 00 1 0
        0 00 1  011111 011111 0 0000  0  000 1  00  0  0  0
        0 00 1  000001 000010 0 0000  1 1  010 1  01 00101  0  1  0";
    let extended = "0  1  1 10 111111  0   1  1 101 01 10  0";
    let elements = [element(1, object), element(5, extended)];
    let form = bytes(&format!("{header}{}", elements.concat()));
    assert_eq!(written(&answer, &records[..320]), form);
}

/// Objects inactive, default, reuse: each from the block before.
#[test]
fn status_rules() {
    let content = "0  00 110  000000 00 000001 00 000010 00 000011 00 000100 00
                                000101 00 000110 00  1
        0  10 000001 0 00111  000001 000010 1 0011  0  001 0  01 00001  0  1  0
        0  10 10  0
        0  00 10  0
        0  10 11 0000 0  0
        1  0
        0  11 01 01  10  0
        0  01 00 1  01 1 111 001 100  1 1  101 1  00  1 011 10  0  0";
    let (answer, records) = read_all(&bytes(&format!("{ONE} 0001 {}", element(1, content))));
    assert_eq!((answer.refusal, answer.timing.blocks), (0, 7));
    let record = |block: usize| &records[32 * block..32 * block + 17];
    let first = [1, 2, 64, 7, 1, 2, 67, 0, 1, 1, 1, 1, 0, 0, 0, 0, 1];
    assert_eq!(record(0), first);
    assert_eq!(record(1), first);
    // Basic default, render reused.
    let third = [1, 2, 0, 0, 1, 2, 67, 0, 1, 1, 1, 1, 0, 0, 0, 0, 1];
    assert_eq!(record(2), third);
    // Basic reused; mixed with nothing but snap.
    let fourth = [1, 2, 0, 0, 1, 2, 67, 0, 1, 1, 1, 1, 0, 0, 0, 0, 0];
    assert_eq!(record(3), fourth);
    let fifth = [0, 2, 0, 0, 31, 31, 64, 0, 0, 0, 0, 0, 1, 0, 0, 0, 0];
    assert_eq!(record(4), fifth);
    // Gain alone is new; the rest is that of the inactive block.
    let sixth = [1, 2, 0, 0, 31, 31, 64, 0, 0, 0, 0, 0, 1, 0, 0, 0, 0];
    assert_eq!(record(5), sixth);
    // Full, moved by -1, 1, -4 from the block before.
    let seventh = [1, 2, 50, 32, 30, 32, 60, 1, 0, 0, 0, 5, 1, 1, 3, 2, 0];
    assert_eq!(record(6), seventh);
}

/// No blocks: no elements.
#[test]
fn nothing_but_a_programme() {
    let (answer, records) = read_all(&bytes(
        "00 11111 0000000 1 1  1 0010
        0000 0000 0 0000 0 000  0001 0000 0 0001 1 000",
    ));
    assert_eq!((answer.refusal, answer.unknown), (0, 2));
    assert_eq!((answer.programme.objects, answer.programme.lfe), (32, 1));
    assert_eq!(
        written(&answer, &records[..0]),
        bytes("00 11111 0000000 1 1  0 0000")
    );
}
