//! Where bytes of records come from: payloads whose bits are counted by hand,
//! and generated ones, whose answers are held against their bits.

mod common;

use common::{bytes, read_all};
use skriemelt_bench::check::check_why;
use skriemelt_bench::gen::rng::Rng;
use skriemelt_bench::gen::{longest_chain as generated_chain, Gen};
use skriemelt_bench::plain::{why, Reasons, WhyAnswer, WhyStep, MAX_STEPS, RECORD_STRIDE};

const FIELD: u8 = 1;
const PROGRAMME: u8 = 2;
const BASIC_DEFAULT: u8 = 3;
const RENDER_DEFAULT: u8 = 4;
const NOTHING: u8 = 5;
const BEFORE: u8 = 6;
const ABOVE: u8 = 7;

/// A step without a field.
fn step(object: u8, block: u8, value: u8, source: u8) -> WhyStep {
    WhyStep {
        object,
        block,
        value,
        source,
        ..WhyStep::default()
    }
}

/// A step that a field ends.
fn field(object: u8, block: u8, value: u8, field: u8, bit: u32) -> WhyStep {
    WhyStep {
        field,
        bit,
        ..step(object, block, value, FIELD)
    }
}

/// A step to the block before with a difference, as carried.
fn moved(object: u8, block: u8, value: u8, field: u8, bit: u32, difference: u8) -> WhyStep {
    WhyStep {
        field,
        bit,
        difference,
        ..step(object, block, value, BEFORE)
    }
}

/// Asks for each byte of a table of answers.
fn holds(payload: &[u8], answers: &[((u32, u32, u32), &[WhyStep])]) {
    for ((object, block, byte), steps) in answers {
        let answer = why(payload, *object, *block, *byte);
        let expected = WhyAnswer {
            steps: steps.to_vec(),
            ..WhyAnswer::default()
        };
        assert_eq!(answer, expected, "{object}, {block}, {byte}");
    }
}

/// Refusal, place and missing bits, with nothing else.
fn refused(payload: &[u8], (object, block, byte): (u32, u32, u32)) -> (u32, u64, u32) {
    let answer = why(payload, object, block, byte);
    assert!(answer.steps.is_empty() && answer.refusal != 0);
    (answer.refusal, answer.place, answer.missing)
}

/// A payload of fields, each with the bit at which it begins.
fn laid(fields: &[(usize, &str)]) -> Vec<u8> {
    let mut text = String::new();
    for (bit, bits) in fields {
        let bits: String = bits.chars().filter(|c| "01".contains(*c)).collect();
        assert_eq!(text.len(), *bit, "{bits}");
        text.push_str(&bits);
    }
    bytes(&text)
}

/// Two dynamic objects, two blocks, an object element and an extended element.
const TWO: [u8; 25] = [
    0x03, 0x08, 0x42, 0x00, 0x40, 0x01, 0x29, 0x48, 0x2a, 0x54, 0x20, 0x58, 0xea, 0x81, 0x8f, 0xf8,
    0x0f, 0x08, 0x1c, 0x4c, 0x05, 0x22, 0xd0, 0xd0, 0x00,
];

#[test]
fn worked() {
    let gain = [
        step(1, 1, 44, BEFORE),
        step(1, 0, 44, ABOVE),
        field(0, 0, 44, 3, 54),
    ];
    holds(
        &TWO,
        &[
            ((1, 1, 2), &gain),
            // 1 - 3 stays at 0
            (
                (0, 1, 4),
                &[moved(0, 1, 0, 6, 98, 5), field(0, 0, 1, 9, 61)],
            ),
            (
                (0, 1, 6),
                &[moved(0, 1, 65, 8, 104, 4), field(0, 0, 69, 11, 74)],
            ),
            ((1, 0, 4), &[field(1, 0, 62, 9, 119)]),
            ((0, 1, 11), &[step(0, 1, 0, BEFORE), field(0, 0, 0, 15, 79)]),
            ((0, 1, 16), &[field(0, 1, 0, 25, 108)]),
            ((0, 0, 1), &[step(0, 0, 2, PROGRAMME)]),
            ((0, 0, 17), &[field(0, 0, 0, 26, 175)]),
            ((0, 0, 18), &[step(0, 0, 0, NOTHING)]),
            ((0, 1, 19), &[field(0, 1, 33, 29, 179)]),
            // mode 1 sends neither table nor code
            ((1, 0, 19), &[step(1, 0, 0, NOTHING)]),
        ],
    );
    assert_eq!(refused(&TWO, (2, 0, 0)), (14, 1, 0));
    assert_eq!(refused(&TWO, (0, 2, 24)), (14, 2, 0));
    assert_eq!(refused(&TWO, (0, 0, 24)), (14, 3, 0));
    assert_eq!(refused(&TWO, (u32::MAX, u32::MAX, u32::MAX)), (14, 1, 0));
    assert_eq!(refused(&TWO, (1, u32::MAX, u32::MAX)), (14, 2, 0));
    assert_eq!(refused(&TWO, (1, 1, u32::MAX)), (14, 3, 0));
}

/// No object element, so objects and no block; and what comes before 14.
#[test]
fn refusals() {
    let payload = [0x01, 0x07, 0xC1, 0x00];
    assert_eq!(refused(&payload, (0, 0, 0)), (14, 2, 0));
    assert_eq!(refused(&payload, (1, 0, 0)), (14, 1, 0));
    assert_eq!(refused(&payload[..3], (9, 9, 99)), (2, 18, 7));
    assert_eq!(refused(&[0; 4097], (9, 9, 99)), (1, 4097, 0));
    assert_eq!(refused(&[0x41, 0x00], (9, 9, 99)), (3, 0, 0));
    assert_eq!(refused(&bytes("00 00000 0 0000"), (9, 9, 99)), (4, 12, 0));
    assert_eq!(
        refused(&bytes("00 00000 0 0010 110"), (9, 9, 99)),
        (5, 12, 0)
    );
    // an object element of one inactive object, twice; an extended one first
    let object = "0001 0010 0  0 00 000 000000 00 1  1 0  0000000";
    let head = "00 00000 1 0 0 0010";
    let twice = bytes(&format!("{head} {object} {object}"));
    assert_eq!(refused(&twice, (9, 9, 99)), (6, 47, 0));
    let early = bytes(&format!("{head} 0101 0000 0 00000000 {object}"));
    assert_eq!(refused(&early, (9, 9, 99)), (7, 14, 0));
    // the timing passes a declared end of one byte
    let short = bytes("00 00000 1 0 0 0001  0001 0000 0  0 00 000 000000 00");
    assert_eq!(refused(&short, (9, 9, 99)), (8, 29, 0));
}

/// A bed object and a dynamic one, three blocks; an unknown element of 17 bytes
/// stands before the object element, the extended one is the last.
fn three_blocks() -> Vec<u8> {
    laid(&[
        (0, "00 00001 1 1 0"), // version, objects, dynamic only, LFE, alternate ids
        (10, "0011"),          // elements
        (14, "0111 0000 1 0000 0"),
        (
            28,
            "1011001110001111000011111000001111110000001111111000000011111111",
        ),
        (
            92,
            "0000000011111111111111111111000000000000000000001111111111111111",
        ),
        (156, "10101010"),
        (164, "0001 0000 1 1011 0"), // 28 bytes
        (178, "0 00 010"),
        (184, "000000 00  000001 00  000010 00  1"),
        // object 0, of the bed, block 0
        (209, "0"),
        (210, "10 001111"), // 49: -1 dB
        (218, "0 10001"),
        (224, "0"),
        (225, "0 10 0"),          // block 1: reuse
        (229, "0 11 01"),         // block 2: mixed, the gain
        (234, "01"),              // minus infinity
        (236, "1 0000 11111111"), // additional data
        // object 1, dynamic, block 0
        (249, "0"),
        (250, "11"), // the gain of the object before
        (252, "0 00111"),
        (258, "000010"), // x 2
        (264, "111111"), // y 62
        (270, "0 1111"), // z -15
        (275, "0"),
        (276, "100 0"),    // zone 4, no elevation
        (280, "01 00110"), // all three 6
        (287, "1 101 10"), // screen
        (293, "1"),        // snap
        (294, "0"),
        // block 1
        (295, "0"),
        (296, "01 11 1"), // full: the gain of the object before, default priority
        (301, "11 0101"), // mixed, size and position
        (307, "1 100 001 110"), // moved by -4, 1, -2
        (317, "1 0 1001"), // distance 9
        (323, "10 00001 00010 00011"),
        (340, "0"),
        (341, "1 0000 00000000"),
        // block 2
        (354, "0 10 11 0001"),  // reuse; mixed, position
        (363, "1 011 111 010"), // moved by 3, -1, 2
        (373, "1 1"),           // at infinity
        (375, "1 0"),
        (377, "0000000000000000000000000"), // up to 28 bytes from bit 178
        (402, "0101 0010 0"),               // 3 bytes
        (411, "0 1"),
        (413, "1 00 11"), // block 0: by table, 3
        (418, "1 01"),    // block 1: as before
        (421, "0"),       // block 2: none
        (422, "1"),
        (423, "1 011 10 11"), // block 0: x and y
        (431, "0"),           // block 1: none
        (432, "0"),           // block 2: none
        (433, "00"),
    ])
}

#[test]
fn bed_object() {
    holds(
        &three_blocks(),
        &[
            ((0, 0, 0), &[field(0, 0, 1, 1, 209)]),
            ((0, 0, 1), &[step(0, 0, 0, PROGRAMME)]),
            ((0, 0, 2), &[field(0, 0, 49, 3, 212)]),
            ((0, 0, 3), &[field(0, 0, 17, 5, 219)]),
            (
                (0, 1, 2),
                &[step(0, 1, 49, BEFORE), field(0, 0, 49, 3, 212)],
            ),
            (
                (0, 1, 3),
                &[step(0, 1, 17, BEFORE), field(0, 0, 17, 5, 219)],
            ),
            ((0, 2, 2), &[field(0, 2, 0, 2, 234)]),
            (
                (0, 2, 3),
                &[
                    step(0, 2, 17, BEFORE),
                    step(0, 1, 17, BEFORE),
                    field(0, 0, 17, 5, 219),
                ],
            ),
            ((0, 2, 0), &[field(0, 2, 1, 1, 229)]),
            ((0, 2, 4), &[step(0, 2, 31, RENDER_DEFAULT)]),
            ((0, 1, 12), &[step(0, 1, 1, RENDER_DEFAULT)]),
            ((0, 0, 16), &[step(0, 0, 0, RENDER_DEFAULT)]),
            ((0, 0, 17), &[step(0, 0, 0, NOTHING)]),
            ((0, 2, 23), &[step(0, 2, 0, NOTHING)]),
        ],
    );
}

#[test]
fn dynamic_object() {
    holds(
        &three_blocks(),
        &[
            ((1, 0, 2), &[step(1, 0, 49, ABOVE), field(0, 0, 49, 3, 212)]),
            // index 3 in block 1 looks at block 1 of the object before, which looks back
            (
                (1, 2, 2),
                &[
                    step(1, 2, 49, BEFORE),
                    step(1, 1, 49, ABOVE),
                    step(0, 1, 49, BEFORE),
                    field(0, 0, 49, 3, 212),
                ],
            ),
            (
                (1, 2, 3),
                &[step(1, 2, 32, BEFORE), field(1, 1, 32, 4, 300)],
            ),
            // 2 - 4 stays at 0, so + 3 is 3
            (
                (1, 2, 4),
                &[
                    moved(1, 2, 3, 6, 364, 3),
                    moved(1, 1, 0, 6, 308, 4),
                    field(1, 0, 2, 9, 258),
                ],
            ),
            // 62 + 1 stays at 62, - 1 is 61
            (
                (1, 2, 5),
                &[
                    moved(1, 2, 61, 7, 367, 7),
                    moved(1, 1, 62, 7, 311, 1),
                    field(1, 0, 62, 10, 264),
                ],
            ),
            // -15 - 2 stays at -15, + 2 is -13
            (
                (1, 2, 6),
                &[
                    moved(1, 2, 51, 8, 370, 2),
                    moved(1, 1, 49, 8, 314, 6),
                    field(1, 0, 49, 11, 271),
                ],
            ),
            ((1, 0, 7), &[field(1, 0, 0, 12, 275)]),
            ((1, 1, 7), &[field(1, 1, 11, 14, 319)]),
            ((1, 2, 7), &[field(1, 2, 1, 13, 374)]),
            ((1, 0, 8), &[field(1, 0, 6, 18, 282)]),
            ((1, 0, 10), &[field(1, 0, 6, 18, 282)]),
            ((1, 2, 8), &[step(1, 2, 1, BEFORE), field(1, 1, 1, 19, 325)]),
            ((1, 2, 9), &[step(1, 2, 2, BEFORE), field(1, 1, 2, 20, 330)]),
            ((1, 1, 10), &[field(1, 1, 3, 21, 335)]),
            (
                (1, 2, 11),
                &[
                    step(1, 2, 4, BEFORE),
                    step(1, 1, 4, BEFORE),
                    field(1, 0, 4, 15, 276),
                ],
            ),
            ((1, 0, 12), &[field(1, 0, 0, 16, 279)]),
            ((1, 0, 13), &[field(1, 0, 1, 22, 287)]),
            ((1, 0, 14), &[field(1, 0, 5, 23, 288)]),
            (
                (1, 1, 15),
                &[step(1, 1, 2, BEFORE), field(1, 0, 2, 24, 291)],
            ),
            ((1, 0, 16), &[field(1, 0, 1, 25, 293)]),
            ((1, 1, 16), &[field(1, 1, 0, 25, 340)]),
            ((1, 2, 16), &[field(1, 2, 1, 25, 375)]),
            ((1, 0, 17), &[field(1, 0, 1, 26, 413)]),
            ((1, 0, 18), &[field(1, 0, 0, 27, 414)]),
            ((1, 0, 19), &[field(1, 0, 3, 28, 416)]),
            ((1, 1, 18), &[field(1, 1, 1, 27, 419)]),
            ((1, 1, 19), &[step(1, 1, 0, NOTHING)]),
            ((1, 2, 17), &[field(1, 2, 0, 26, 421)]),
            ((1, 2, 18), &[step(1, 2, 0, NOTHING)]),
            ((1, 0, 20), &[field(1, 0, 3, 30, 424)]),
            ((1, 0, 21), &[field(1, 0, 2, 31, 427)]),
            ((1, 0, 22), &[field(1, 0, 3, 32, 429)]),
            ((1, 0, 23), &[step(1, 0, 0, NOTHING)]),
            ((1, 1, 20), &[step(1, 1, 0, NOTHING)]),
        ],
    );
}

/// One dynamic object: index 3 at the first object, sizes and screen by their
/// first field, an inactive block, both statuses default; a presence without a
/// bit, and a code of z.
#[test]
fn defaults() {
    let payload = laid(&[
        (0, "00 00000 1 0 1"),
        (10, "0010"),
        (14, "0001 1110 0"), // 15 bytes
        (23, "0000 1 00 011"),
        (33, "000000 00 000000 00 000000 00 000000 00 1"),
        (66, "0 11 0 00001"),
        (75, "000001 000010 1 0011"),
        (92, "0 001 1 00 0 0 0"),
        (102, "1 0"),
        (104, "0 00 00 0"),
        (110, "0 10 01"),
        (115, "0 111111 000000 0 0000"),
        (133, "0 000 0 00 0 1 0"),
        (143, "0101 0010 0"), // 3 bytes
        (152, "1111 0 0 1"),  // alternate id, discard, no divergence, precise
        (159, "1 000"),       // block 0
        (163, "1 100 01"),    // block 2
        (169, "0"),           // block 3
        (170, "111111"),
    ]);
    holds(
        &payload,
        &[
            ((0, 0, 2), &[field(0, 0, 50, 2, 67)]),
            ((0, 0, 8), &[field(0, 0, 0, 17, 97)]),
            ((0, 0, 9), &[field(0, 0, 0, 17, 97)]),
            ((0, 0, 14), &[field(0, 0, 0, 22, 99)]),
            ((0, 0, 15), &[field(0, 0, 0, 22, 99)]),
            ((0, 1, 0), &[field(0, 1, 0, 1, 102)]),
            ((0, 1, 1), &[step(0, 1, 2, PROGRAMME)]),
            ((0, 1, 2), &[step(0, 1, 0, BASIC_DEFAULT)]),
            ((0, 1, 3), &[step(0, 1, 0, BASIC_DEFAULT)]),
            ((0, 1, 6), &[step(0, 1, 64, RENDER_DEFAULT)]),
            ((0, 1, 16), &[step(0, 1, 0, RENDER_DEFAULT)]),
            ((0, 2, 2), &[step(0, 2, 0, BASIC_DEFAULT)]),
            ((0, 2, 12), &[step(0, 2, 1, RENDER_DEFAULT)]),
            ((0, 2, 7), &[step(0, 2, 0, RENDER_DEFAULT)]),
            (
                (0, 3, 3),
                &[step(0, 3, 0, BEFORE), step(0, 2, 0, BASIC_DEFAULT)],
            ),
            // full in a later block: the flag that would say moved is clear
            ((0, 3, 4), &[field(0, 3, 62, 9, 116)]),
            ((0, 3, 6), &[field(0, 3, 64, 11, 129)]),
            ((0, 3, 16), &[field(0, 3, 1, 25, 141)]),
            ((0, 0, 17), &[step(0, 0, 0, NOTHING)]),
            ((0, 0, 20), &[field(0, 0, 0, 30, 160)]),
            ((0, 0, 21), &[step(0, 0, 0, NOTHING)]),
            ((0, 1, 20), &[step(0, 1, 0, NOTHING)]),
            ((0, 2, 20), &[field(0, 2, 4, 30, 164)]),
            ((0, 2, 22), &[step(0, 2, 0, NOTHING)]),
            ((0, 2, 23), &[field(0, 2, 1, 33, 167)]),
            ((0, 3, 20), &[step(0, 3, 0, NOTHING)]),
        ],
    );
}

/// 159 objects, all with index 3 in block 0; the last one looks back seven times
/// before it looks at the others.
#[test]
fn longest_chain() {
    let first = "0 11 1  000000 000000 0 0000 0  000 0  00  0  0  0 ";
    let others = format!("{first} {}", "1 0 ".repeat(7)).repeat(158);
    let last = format!("{first} {}", "0 10 10 0 ".repeat(7));
    let timing = format!("0 00 111 {} 1", "000000 00 ".repeat(8));
    let content = format!("{timing} {others} {last}");
    let count = |text: &str| text.chars().filter(|c| "01".contains(*c)).count();
    // 71 of timing, 31 of each first block, 2 of an inactive one, 6 of a reuse
    assert_eq!(count(&content), 71 + 159 * 31 + 158 * 14 + 42);
    // 7,254 bits are 907 bytes: 906 is 272 + 634, and 634 is 2, 7, 10 of 16
    let head = "00 11111 1111111 1 0 0 0001  0001  0010 1 0111 1 1010 0";
    let payload = bytes(&format!("{head} {content} 00"));
    assert_eq!(payload, generated_chain());
    let answer = why(&payload, 158, 7, 2);
    assert_eq!((answer.refusal, answer.steps.len()), (0, MAX_STEPS));
    for (at, step) in answer.steps.iter().enumerate() {
        let (object, block) = match at {
            0..=7 => (158, 7 - at),
            _ => (165 - at, 0),
        };
        let expected = match at {
            0..=6 => BEFORE,
            7..=164 => ABOVE,
            _ => FIELD,
        };
        assert_eq!((step.object, step.block), (object as u8, block as u8));
        assert_eq!((step.value, step.source), (50, expected));
    }
    // 21 bits of header, 4 of id, 15 of size, 71 of timing; then b_object_not_active
    assert_eq!(answer.steps[165], field(0, 0, 50, 2, 21 + 4 + 15 + 71 + 1));
    // object 158 in block 0 stands behind 158 of 45 bits
    let zone = field(158, 0, 0, 15, 111 + 158 * 45 + 22);
    let seven: Vec<WhyStep> = (1..=7).rev().map(|b| step(158, b, 0, BEFORE)).collect();
    holds(&payload, &[((158, 7, 11), &[&seven[..], &[zone]].concat())]);
}

/// All bytes of generated payloads of a few records, some bytes of the others:
/// each answer is what its own bits say, and its value the record's.
#[test]
fn generated() {
    let (mut gen, mut rng) = (Gen::new(21), Rng::new(22));
    let (mut seen, mut sources) = ([0; 34], [0; 8]);
    for index in 0..6000 {
        let payload = gen.case().payload;
        let (read, records) = read_all(&payload);
        let reasons = Reasons::of(&payload);
        let (objects, blocks) = (read.programme.objects, read.timing.blocks);
        if read.refusal != 0 || blocks == 0 {
            let answer = reasons.why(0, 0, 0);
            let expected = match read.refusal {
                0 => (14, 2, 0),
                refusal => (refusal, read.place, read.missing),
            };
            let got = (answer.refusal, answer.place, answer.missing);
            assert_eq!(got, expected, "{index}");
            assert!(answer.steps.is_empty(), "{index}");
            continue;
        }
        let all = u32::from(objects) * u32::from(blocks) <= 24;
        for at in 0..usize::from(objects) * usize::from(blocks) * 24 {
            let (record, byte) = (at / 24, at % 24);
            if !all && !rng.chance(2) {
                continue;
            }
            let (object, block) = (record / usize::from(blocks), record % usize::from(blocks));
            let answer = reasons.why(object as u32, block as u32, byte as u32);
            assert_eq!((answer.refusal, answer.place, answer.missing), (0, 0, 0));
            let value = records[RECORD_STRIDE * record + byte];
            let asked = (object as u8, block as u8, byte);
            check_why(&payload, asked, value, &answer)
                .unwrap_or_else(|why| panic!("{index}, {asked:?}: {why}"));
            for step in &answer.steps {
                sources[usize::from(step.source)] += 1;
                seen[usize::from(step.field)] += 1;
            }
        }
    }
    assert!(seen.iter().all(|count| *count > 0), "{seen:?}");
    assert!(sources[1..].iter().all(|count| *count > 0), "{sources:?}");
}
