//! The trim element (5.5.12, docs/DECISIONS.md, "The trim element"): tables, forms, refusals and
//! places by hand.

mod common;

use common::{bytes, element, read_both, refusal, ONE};
use skriemelt_bench::plain::{read, write, Answer, Programme, Timing};

/// The nine configurations of `EVERY_FIELD` in bits: default, disabled, nothing,
/// each value alone, all.
const CONFIGS: &str = "1  01  00 00000  00 00001 1110  00 00010 0100  00 00100 1111
    00 01000 1 1001  00 10000 0 0011  00 11111 0000 0101 0110 0 1111 1 0000 ";

/// Their bytes.
const CONFIG_BYTES: [[u8; 10]; 9] = [
    [1, 0, 0, 0, 0, 0, 0, 0, 0, 0],
    [0, 1, 0, 0, 0, 0, 0, 0, 0, 0],
    [0, 0, 0, 0, 0, 0, 0, 0, 0, 0],
    [0, 0, 1, 14, 0, 0, 0, 0, 0, 0],
    [0, 0, 2, 0, 4, 0, 0, 0, 0, 0],
    [0, 0, 4, 0, 0, 15, 0, 0, 0, 0],
    [0, 0, 8, 0, 0, 0, 1, 9, 0, 0],
    [0, 0, 16, 0, 0, 0, 0, 0, 0, 3],
    [0, 0, 31, 0, 5, 6, 0, 15, 1, 0],
];

/// Three dynamic objects: 14 bits up to the first id.
const THREE: &str = "00 00010 1 0 0 ";

/// The same with alternate ids.
const ALTERNATE: &str = "00 00010 1 0 1 ";

/// A table of three objects, from its parts.
fn table(modes: [u8; 2], configs: &[[u8; 10]; 9], objects: [u8; 4]) -> Vec<u8> {
    [&[1][..], &modes, configs.as_flattened(), &objects].concat()
}

/// Reads a payload of three objects that is accepted: its trim table.
fn trim_of(text: &str) -> Vec<u8> {
    let (answer, _, trim) = read_both(&bytes(text));
    assert_eq!((answer.refusal, answer.place), (0, 0));
    assert!(trim[97..].iter().all(|byte| *byte == 0xEE));
    trim[..97].to_vec()
}

/// Writes three dynamic objects without blocks.
fn written(trim: &[u8]) -> Result<Vec<u8>, (u32, u64)> {
    let programme = Programme {
        objects: 3,
        dynonly: 1,
        ..Programme::default()
    };
    let mut out = vec![0xEE; 100];
    let answer = write(&programme, &Timing::default(), 0, &[], trim, &mut out);
    let length = answer.length as usize;
    assert!(out[length..].iter().all(|byte| *byte == 0xEE));
    out.truncate(length);
    match answer.refusal {
        0 => Ok(out),
        other => Err((other, answer.place)),
    }
}

#[test]
fn every_field() {
    // Warp 1, reserved 11, custom; the objects' flags 1, 0, 1.
    let content = format!("1 01 11 10 {CONFIGS} 1 101");
    let text = format!("{THREE} 0001 {}", element(2, &content));
    let expected = table([1, 2], &CONFIG_BYTES, [1, 1, 0, 1]);
    assert_eq!(trim_of(&text), expected);
    // Written with discard flag and reserved bits 0.
    let content = format!("0 01 00 10 {CONFIGS} 1 101");
    let form = bytes(&format!("{THREE} 0001 {}", element(2, &content)));
    assert_eq!(written(&expected), Ok(form));
}

#[test]
fn other_modes() {
    for (mode, bits) in [(0, "00"), (1, "01")] {
        let one = format!("{THREE} 0001 0010 0000 0  0 00 00 {bits} 0");
        let expected = table([0, mode], &[[0; 10]; 9], [0; 4]);
        assert_eq!(trim_of(&one), expected);
        assert_eq!(written(&expected), Ok(bytes(&one)));
    }
    // The flags are carried, though all are 0.
    let flags = format!("{THREE} 0001 {}", element(2, "0 00 00 00 1 000"));
    let expected = table([0, 0], &[[0; 10]; 9], [1, 0, 0, 0]);
    assert_eq!(trim_of(&flags), expected);
    assert_eq!(written(&expected), Ok(bytes(&flags)));
}

#[test]
fn without_the_element() {
    let none = format!("{THREE} 0000");
    assert_eq!(trim_of(&none), [0; 97]);
    assert_eq!(written(&[0; 97]), Ok(bytes(&none)));
}

/// Its alternate id is read and ignored (Table 27).
#[test]
fn every_alternate_id() {
    let expected = table([1, 1], &[[0; 10]; 9], [1, 0, 1, 0]);
    for id in 0..16 {
        let trim = element(2, &format!("{id:04b} {TRIM}"));
        let text = format!("{ALTERNATE} 0001 {trim}");
        assert_eq!(trim_of(&text), expected);
        assert_eq!(read_both(&bytes(&text)).0.unknown, 0);
        // Its fields are looked at: warp 3, behind 14 + 9 + 5 bits.
        let bad = element(2, &format!("{id:04b} 1 11 1"));
        assert_eq!(refusal(&format!("{ALTERNATE} 0001 {bad}")), (5, 28));
    }
}

/// An object element of three inactive objects in one block, an extended one.
const OBJECT: &str = "0 00 000 000000 00 1  10 10 10";
const EXTENDED: &str = "0 0 0";
const TRIM: &str = "0 01 00 01 1 010";

#[test]
fn anywhere() {
    let [object, extended, trim] = [element(1, OBJECT), element(5, EXTENDED), element(2, TRIM)];
    let unknown = element(7, "1 1111111");
    let expected = table([1, 1], &[[0; 10]; 9], [1, 0, 1, 0]);
    for elements in [
        [&trim, &object, &extended, &unknown],
        [&object, &trim, &extended, &unknown],
        [&object, &extended, &trim, &unknown],
        [&unknown, &object, &extended, &trim],
    ] {
        let text = elements.map(String::as_str).concat();
        assert_eq!(trim_of(&format!("{THREE} 0100 {text}")), expected);
    }
    // An extended element is early behind a trim element, too.
    let text = format!("{THREE} 0010 {trim}{extended}");
    assert_eq!(refusal(&text), (7, 14 + 25));
}

#[test]
fn twice() {
    let trim = element(2, TRIM);
    assert_eq!(refusal(&format!("{THREE} 0010 {trim}{trim}")), (6, 14 + 25));
    // Its fields are not looked at: warp 3.
    let bad = element(2, "0 11 00 00 0");
    assert_eq!(refusal(&format!("{THREE} 0010 {trim}{bad}")), (6, 14 + 25));
    // A size that does not fit comes first.
    let long = "0010 1111 0 0";
    assert_eq!(refusal(&format!("{THREE} 0010 {trim}{long}")), (2, 43));
    // One of another alternate id counts, in each order.
    let [one, other] = ["0000", "0011"].map(|id| element(2, &format!("{id} 0 00 00 00 0")));
    for elements in [[&one, &other], [&other, &one], [&other, &other]] {
        let text = elements.map(String::as_str).concat();
        assert_eq!(
            refusal(&format!("{ALTERNATE} 0010 {text}")),
            (6, 14 + 4 + 5 + 16)
        );
    }
}

#[test]
fn reserved_values() {
    // The discard flag is bit 23, warp_mode 24, global_trim_mode 28.
    let at = |content: &str| refusal(&format!("{ONE} 0001 {}", element(2, content)));
    assert_eq!(at("0 10 00 00 0"), (5, 24));
    assert_eq!(at("0 11 00 11 0"), (5, 24));
    assert_eq!(at("0 01 11 11 0"), (5, 28));
    // The first configuration begins at bit 30, its values at 37.
    for value in ["0000", "0001", "0010", "0011"] {
        assert_eq!(at(&format!("0 00 00 10 00 00010 {value}")), (5, 37));
        assert_eq!(at(&format!("0 00 00 10 00 00100 {value}")), (5, 37));
        let both = format!("0 00 00 10 00 00110 0100 {value}");
        assert_eq!(at(&both), (5, 41));
        let centre = format!("0 00 00 10 00 00001 {value} 11111111 0");
        assert_eq!(at(&centre), (0, 0));
    }
    // The last configuration, behind eight of the default.
    let last = "0 00 00 10 11111111 00 00111 1111 1111 0011";
    assert_eq!(at(last), (5, 30 + 8 + 7 + 8));
}

/// The bits of a trim element that ends within each field in turn: refusal 8 at
/// that field's first bit.
#[test]
fn past_the_element() {
    let cut = |bytes: usize, content: &str| {
        let size = format!("{:04b} 0", bytes - 1);
        refusal(&format!(
            "{THREE} 0001 0010 {size} {content} {}",
            "1".repeat(99)
        ))
    };
    // With an alternate id 4 bits fewer are left: the reserved field is cut.
    for id in ["0000", "1000"] {
        let alternate = format!("{ALTERNATE} 0001 0010 0000 0  {id} 0 01 00 00 1");
        assert_eq!(refusal(&alternate), (8, 23 + 7));
    }
    // One byte: discard 1 and modes 6, then the first configuration's flag.
    assert_eq!(cut(1, "0 00 00 10 0 0"), (8, 31));
    assert_eq!(cut(1, "0 00 00 10 1 0"), (8, 31));
    // The flags of three objects.
    assert_eq!(cut(1, "0 00 00 00 1 000"), (8, 31));
    // Two bytes: the presence bits end at bit 14, centre at 18.
    assert_eq!(cut(2, "0 00 00 10 00 00001 0000"), (8, 23 + 14));
    assert_eq!(cut(2, "0 00 00 10 00 00010 0000"), (8, 23 + 14));
    assert_eq!(cut(2, "0 00 00 10 00 00100 0000"), (8, 23 + 14));
    assert_eq!(cut(2, "0 00 00 10 00 01000 0 0000"), (8, 23 + 15));
    assert_eq!(cut(2, "0 00 00 10 00 10000 1 0000"), (8, 23 + 15));
    assert_eq!(cut(2, "0 00 00 10 1 00 00001 0000"), (8, 23 + 15));
    assert_eq!(cut(2, "0 00 00 10 1111 00 00001"), (8, 23 + 13));
    assert_eq!(cut(2, "0 00 00 10 111111101 1"), (8, 23 + 16));
    // The flag behind the configurations.
    assert_eq!(cut(2, "0 00 00 10 111111111 0"), (8, 23 + 16));
    assert_eq!(cut(3, "0 00 00 10 111111111 0"), (0, 0));
    // The end is the payload's end as well: still 8, and 8 before 5.
    let text = format!("{THREE} 0001 0010 0001 0 0 00 00 10 00 00010 00");
    assert_eq!(refusal(&text), (8, 23 + 14));
}

#[test]
fn rooms() {
    let text = format!("{THREE} 0010 {}{}", element(1, OBJECT), element(2, TRIM));
    let payload = bytes(&text);
    let answer = |room: usize, trim_room: usize| {
        let (mut records, mut trim) = (vec![0xEE; room], vec![0xEE; trim_room]);
        let answer = read(&payload, 0, &mut records, &mut trim);
        let (used, trim_used) = if answer.refusal == 0 {
            (96, 97)
        } else {
            (0, 0)
        };
        assert!(records[used..].iter().all(|byte| *byte == 0xEE));
        assert!(trim[trim_used..].iter().all(|byte| *byte == 0xEE));
        let bare = Answer {
            refusal: answer.refusal,
            place: answer.place,
            missing: if answer.refusal == 2 {
                answer.missing
            } else {
                0
            },
            ..Answer::default()
        };
        assert!(answer.refusal == 0 || answer == bare);
        (answer.refusal, answer.place)
    };
    assert_eq!(answer(96, 97), (0, 0));
    assert_eq!(answer(110, 253), (0, 0));
    assert_eq!(answer(96, 96), (9, 97));
    assert_eq!(answer(96, 0), (9, 97));
    assert_eq!(answer(95, 97), (9, 96));
    assert_eq!(answer(95, 96), (9, 96));
    assert_eq!(answer(0, 0), (9, 96));
}

#[test]
fn room_without_the_element() {
    let payload = bytes(&format!("{ONE} 0000"));
    for (room, expected) in [(0, (9, 95)), (94, (9, 95)), (95, (0, 0)), (96, (0, 0))] {
        let mut trim = vec![0xEE; room];
        let answer = read(&payload, 0, &mut [], &mut trim);
        assert_eq!((answer.refusal, answer.place), expected);
        let used = if expected.0 == 0 { 95 } else { 0 };
        assert!(trim[..used].iter().all(|byte| *byte == 0));
        assert!(trim[used..].iter().all(|byte| *byte == 0xEE));
    }
}

/// Each byte of a valid table set to each value: accepted exactly where listed.
#[test]
fn every_byte() {
    let base = table([1, 2], &CONFIG_BYTES, [1, 1, 0, 1]);
    for at in 0..97 {
        let valid: Vec<u8> = (0..=255)
            .filter(|value| {
                let mut trim = base.clone();
                trim[at] = *value;
                let result = written(&trim);
                assert!(result.is_ok() || result == Err((10, 1)));
                result.is_ok()
            })
            .collect();
        assert_eq!(valid, accepted_values(at), "byte {at}");
    }
}

/// The values that byte `at` of the table in `every_byte` may have.
fn accepted_values(at: usize) -> Vec<u8> {
    let config = if (3..93).contains(&at) {
        (at - 3) / 10
    } else {
        9
    };
    match (at, config, (at + 7) % 10) {
        (0, ..) => vec![1],
        (1, ..) => vec![0, 1],
        (2, ..) => vec![2],
        // Without its flag the objects' bits are not carried.
        (93, ..) => vec![1],
        (94.., ..) => vec![0, 1],
        // The empty one may be default or disabled, and these may be empty.
        (_, 2, 0 | 1) | (_, 0, 0) | (_, 1, 1) => vec![0, 1],
        // Centre and balances may be carried as 0, surround and height not.
        (_, 2, 2) => [0, 1, 8, 9, 16, 17, 24, 25].to_vec(),
        (_, 3, 2) => [1, 9, 17, 25].to_vec(),
        (_, 4, 2) => [2, 3, 10, 11, 18, 19, 26, 27].to_vec(),
        (_, 5, 2) => [4, 5, 12, 13, 20, 21, 28, 29].to_vec(),
        (_, 6, 2) => [8, 9, 24, 25].to_vec(),
        (_, 7, 2) => [16, 17, 24, 25].to_vec(),
        // All are carried; the centre alone is 0 and may be left out.
        (_, 8, 2) => [30, 31].to_vec(),
        (_, 3 | 8, 3) => (0..16).collect(),
        (_, 4 | 8, 4) | (_, 5 | 8, 5) => (4..16).collect(),
        (_, 6 | 8, 6) | (_, 7 | 8, 8) => vec![0, 1],
        (_, 6 | 8, 7) | (_, 7 | 8, 9) => (0..16).collect(),
        _ => vec![0],
    }
}

#[test]
fn absent_and_short() {
    for at in 0..97 {
        let mut trim = [0; 97];
        trim[at] = 1;
        let result = written(&trim);
        // An element of all zeros is there, if only byte 0 is set.
        assert_eq!(result.is_ok(), at == 0, "byte {at}");
    }
    assert_eq!(written(&[0; 96]), Err((10, 1)));
    assert_eq!(written(&[]), Err((10, 1)));
    // What stands behind is not looked at.
    let longer = [&[0; 97][..], &[0xEE; 9]].concat();
    assert_eq!(written(&longer), written(&[0; 97]));
}

#[test]
fn order_of_refusals() {
    let programme = Programme {
        objects: 2,
        dynonly: 1,
        ..Programme::default()
    };
    let timing = Timing {
        blocks: 1,
        ..Timing::default()
    };
    let mut record = [0; 32];
    (record[1], record[4], record[5], record[6], record[12]) = (2, 31, 31, 64, 1);
    let records = record.repeat(2);
    let place = |programme, records: &[u8], trim: &[u8], room| {
        let answer = write(&programme, &timing, 0, records, trim, &mut vec![0; room]);
        (answer.refusal, answer.place)
    };
    let mut bad = records.clone();
    bad[32] = 2;
    // 14 + 4 + 5 bits, 1 + 2 + 3 + 8 + 1 + 4 = 19 of the element: 3 bytes.
    assert_eq!(place(programme, &records, &[0; 96], 100), (0, 0));
    assert_eq!(place(programme, &records, &[0; 96], 5), (11, 6));
    // Two records: a bad trim table has place 3, whatever the room.
    assert_eq!(place(programme, &records, &[2; 96], 0), (10, 3));
    assert_eq!(place(programme, &records, &[0; 95], 100), (10, 3));
    assert_eq!(place(programme, &bad, &[2; 96], 100), (10, 2));
    assert_eq!(place(programme, &records[..63], &[2; 96], 100), (10, 0));
    let other = Programme {
        lfe: 2,
        ..programme
    };
    assert_eq!(place(other, &bad, &[2; 96], 100), (10, 0));
}

/// The written element stands behind the extended one.
#[test]
fn last_of_the_form() {
    let programme = Programme {
        objects: 1,
        dynonly: 1,
        ..Programme::default()
    };
    let timing = Timing {
        blocks: 1,
        ..Timing::default()
    };
    let mut record = [0; 32];
    record[..7].copy_from_slice(&[1, 2, 50, 32, 31, 31, 64]);
    (record[17], record[18]) = (1, 1);
    let mut trim = [0; 95];
    (trim[0], trim[2], trim[93], trim[94]) = (1, 1, 1, 1);
    let mut out = vec![0; 100];
    let answer = write(&programme, &timing, 0, &record, &trim, &mut out);
    assert_eq!(answer.refusal, 0);
    out.truncate(answer.length as usize);
    let object = "0 00 000 000000 00 1  0 00 1  011111 011111 0 0000 0  000 0 00 0 0 0";
    let elements = [
        element(1, object),
        element(5, "0 1 1 01 0"),
        element(2, "0 00 00 01 1 1"),
    ];
    assert_eq!(out, bytes(&format!("{ONE} 0011 {}", elements.concat())));
}
