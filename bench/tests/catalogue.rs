//! The catalogue that is worked by hand: the segment of the batch in frames 7, 8
//! and 9; every refusal of a text, with its place; the update before, carried;
//! and round trips of generated segments, whole, in pieces and damaged.

mod common;

use common::catalogue::{back, back_on, bad, cut, read_text, segment, text, text_of, with};
use common::catalogue::{worked, write_text, Segment, EMPTY, FILL, WORKED};
use skriemelt_bench::gen::edges;
use skriemelt_bench::gen::rng::Rng;
use skriemelt_bench::gen::texts::damage;
use skriemelt_bench::gen::Gen;
use skriemelt_bench::plain::{read, write_catalogue, write_catalogue_on};
use skriemelt_bench::plain::{BackAnswer, CatalogueAnswer, BEFORE_BYTES};

const SAMPLE: &[u8] = include_bytes!("../../samples/three-objects.oamd");

#[test]
fn worked_text() {
    assert_eq!(WORKED.len(), 936);
    assert_eq!(worked().len(), 10);
    let (answer, text) = segment().write(936);
    let written = CatalogueAnswer {
        length: 936,
        ..CatalogueAnswer::default()
    };
    assert_eq!((answer, text), (written, WORKED.as_bytes().to_vec()));
    let (answer, text) = segment().write(1000);
    assert_eq!((answer, &text[..936]), (written, WORKED.as_bytes()));
    assert_eq!(text[936..], [FILL; 64]);
    for room in [935, 1, 0] {
        let (answer, text) = segment().write(room);
        let short = CatalogueAnswer {
            refusal: 18,
            place: 936,
            length: 0,
        };
        assert_eq!((answer, text), (short, vec![FILL; room]));
    }
}

#[test]
fn written_refused() {
    let Segment {
        store,
        starts,
        lengths,
        frames,
    } = segment();
    let refused = |(a, b, c): (usize, usize, usize), before: usize, room: usize| {
        let (mut before, mut text) = (vec![FILL; before], vec![FILL; room]);
        let (starts, lengths, frames) = (&starts[..a], &lengths[..b], &frames[..c]);
        let answer = write_catalogue_on(&store, starts, lengths, frames, &mut before, &mut text);
        assert!([before, text].concat().iter().all(|byte| *byte == FILL));
        assert_eq!(answer.length, 0);
        (answer.refusal, answer.place)
    };
    for lists in [(3, 2, 3), (3, 3, 2), (3, 2, 2), (3, 0, 3)] {
        assert_eq!(refused(lists, BEFORE_BYTES, 936), (13, 3));
        assert_eq!(refused(lists, 0, 0), (13, 3));
    }
    assert_eq!(refused((2, 3, 3), BEFORE_BYTES, 0), (13, 2));
    assert_eq!(refused((0, 0, 1), BEFORE_BYTES, 0), (13, 0));
    assert_eq!(refused((3, 3, 3), BEFORE_BYTES - 1, 936), (9, 3817));
    assert_eq!(refused((3, 3, 3), 0, 0), (9, 3817));
    assert_eq!(refused((0, 0, 0), 3816, 0), (9, 3817));
    let long = refused((3, 3, 3), BEFORE_BYTES, 0);
    assert_eq!(long.0, 18);
    let none = write_catalogue(&store, &[], &[], &[], &mut []);
    assert_eq!(none, CatalogueAnswer::default());
}

/// Entries that leave the store, in frames of any order.
#[test]
fn outside() {
    let most = u64::MAX;
    let segment = Segment {
        starts: vec![46, 50, most, 1, 49],
        lengths: vec![4, 0, 1, most, 0],
        frames: vec![4_294_967_295, 0, 0, 12, 10],
        ..segment()
    };
    let expected = "frame=4294967295,refusal=12\nframe=0,refusal=12\nframe=0,refusal=12\n\
                    frame=12,refusal=12\nframe=10,refusal=2\n";
    assert_eq!(
        write_text(&segment, &mut EMPTY.to_vec()),
        expected.as_bytes()
    );
    assert_eq!(bad(expected), 0);
}

/// The answer lines of the worked text.
fn worked_lines() -> Vec<u8> {
    let mut lines = vec![0; 120];
    lines[..12].copy_from_slice(&[7, 0, 0, 0, 0, 3, 2, 0, 0, 0, 0, 0]);
    lines[12] = 32;
    (lines[40], lines[44]) = (8, 2);
    (lines[80], lines[85]) = (9, 1);
    lines
}

#[test]
fn worked_back() {
    let mut records = vec![FILL; 192];
    read(SAMPLE, 7, &mut records, &mut [0; 97]);
    let (answer, lines, got) = back_on(WORKED.as_bytes(), &mut EMPTY.to_vec(), (120, 192));
    let expected = BackAnswer {
        frames: 3,
        bytes: 192,
        ..BackAnswer::default()
    };
    assert_eq!(
        (answer, &lines, &got),
        (expected, &worked_lines(), &records)
    );
    let (answer, lines, got) = back_on(WORKED.as_bytes(), &mut EMPTY.to_vec(), (130, 200));
    assert_eq!(answer, expected);
    assert_eq!(
        (&lines[..120], &got[..192]),
        (&worked_lines()[..], &records[..])
    );
    assert_eq!(
        (&lines[120..], &got[192..]),
        (&[FILL; 10][..], &[FILL; 8][..])
    );
    let (answer, ..) = back(b"");
    assert_eq!(answer, BackAnswer::default());
}

#[test]
fn back_refused() {
    let refused = |text: &str, before: usize, rooms: (usize, usize)| {
        let mut state = vec![0; before];
        let (answer, lines, records) = back_on(text.as_bytes(), &mut state, rooms);
        assert_eq!(state, vec![0; before]);
        assert!([lines, records].concat().iter().all(|byte| *byte == FILL));
        assert_eq!((answer.frames, answer.bytes), (0, 0));
        (answer.refusal, answer.place)
    };
    assert_eq!(refused(WORKED, 3817, (120, 191)), (9, 192));
    assert_eq!(refused(WORKED, 3817, (119, 192)), (9, 120));
    assert_eq!(refused(WORKED, 3817, (0, 0)), (9, 192));
    assert_eq!(refused(WORKED, 3816, (120, 192)), (9, 3817));
    assert_eq!(refused("", 0, (0, 0)), (9, 3817));
    let wrong = with(7, "object=0,gain=66");
    assert_eq!(refused(&wrong, 3816, (0, 0)), (9, 3817));
    assert_eq!(refused(&wrong, 3817, (0, 0)), (17, 7));
    assert_eq!(
        refused("frame=9,objects=1,blocks=0\n", 3817, (39, 0)),
        (9, 40)
    );
}

/// Block 1 repeats block 0 where nothing is listed under it.
#[test]
fn repeated() {
    let (answer, _, records) = back(text(&worked()[..6]).as_bytes());
    assert_eq!((answer.refusal, answer.frames, answer.bytes), (0, 1, 192));
    for object in records.chunks(64) {
        assert_eq!(object[..24], object[32..56]);
        assert_eq!(object[24..32], [0, 0x2A, 0, 0, 0, 0, 0, 0]);
        assert_eq!(object[56..], [0x20, 0x2A, 0, 0, 0, 0, 0, 0]);
    }
}

/// A text in the state that the texts before left is the text of the whole.
#[test]
fn carried() {
    let whole = segment();
    let mut before = EMPTY.to_vec();
    let mut pieces = vec![];
    for entry in 0..3 {
        pieces.push(write_text(&whole.part(entry, entry + 1), &mut before));
    }
    assert_eq!(pieces.concat(), WORKED.as_bytes());
    assert_eq!(before[0], 3);
    assert_eq!(before[1..8], [1, 0, 62, 4, 31, 31, 64]);
    assert_eq!(before[49..56], [1, 2, 0, 0, 9, 8, 57]);
    assert_eq!(before[73..], EMPTY[73..]);
    // the sample again: its first update lists what differs from its second
    let again = write_text(&whole.part(0, 1), &mut before);
    let expected = "frame=7,objects=3,blocks=2\nstart=0,ramp=0\nobject=0,gain=50,priority=2\n\
                    object=2,active=0,x=31,y=31,z=64\nstart=32,ramp=0\nobject=0,gain=62,priority=4\n\
                    object=2,active=1,x=9,y=8,z=57\n";
    assert_eq!(again, expected.as_bytes());
    assert_eq!(bad(expected), 3);
    let twice = format!("{WORKED}{expected}");
    assert_eq!(bad(&twice), 0);
    let (mut state, mut records) = (EMPTY.to_vec(), vec![]);
    for piece in cut(twice.as_bytes()) {
        records.extend(read_text(piece, &mut state).1);
    }
    assert_eq!(records, back(twice.as_bytes()).2);
    assert_eq!(state, before);
}

/// What a call leaves in the update before, whatever stood there.
#[test]
fn states() {
    let mut rng = Rng::new(3);
    let garbage: Vec<u8> = (0..BEFORE_BYTES + 9).map(|_| rng.byte()).collect();
    for count in [0, 1, 2, 3, 4, 158, 159, 160, 255] {
        let mut start = garbage.clone();
        (start[0], start[3]) = (count, 50);
        // no update is met: the number alone is held to 159
        let mut after = start.clone();
        after[0] = count.min(159);
        let mut before = start.clone();
        assert_eq!(
            write_text(&segment().part(1, 3), &mut before),
            text(&worked()[8..]).as_bytes()
        );
        assert_eq!(before, after);
        let mut before = start.clone();
        read_text(text(&worked()[8..]).as_bytes(), &mut before);
        assert_eq!(before, after);
        // updates: their rows, and what lies behind them stays
        let (mut written, mut back) = (start.clone(), start.clone());
        let text = write_text(&segment(), &mut written);
        assert_eq!(written[0], 3);
        assert_eq!(written[73..], start[73..]);
        let (_, records) = read_text(&text, &mut back);
        assert_eq!(back, written);
        for object in 0..3 {
            assert_eq!(
                records[64 * object + 32..][..24],
                written[1 + 24 * object..][..24]
            );
        }
        // of as many objects as there were: the first has the gain that it had
        let text = String::from_utf8(text).expect("ASCII");
        assert_eq!(count != 3, text == WORKED);
        assert_eq!(count != 3, text.contains("class=0,gain=50,priority=2"));
    }
}

/// Rows that no call gives are taken as they stand.
#[test]
fn strange_rows() {
    let mut before = vec![200; BEFORE_BYTES];
    before[0] = 1;
    let head = "frame=0,objects=1,blocks=1\nstart=1,ramp=2\n";
    let (_, records) = read_text(format!("{head}object=0,gain=9\n").as_bytes(), &mut before);
    let mut row = [200; 24];
    row[2] = 9;
    assert_eq!(records[..24], row);
    assert_eq!(before[1..25], row);
    let (answer, ..) = back_on(
        format!("{head}object=0,gain=9\n").as_bytes(),
        &mut before,
        (40, 32),
    );
    assert_eq!((answer.refusal, answer.place), (17, 3));
    let (answer, ..) = back_on(
        format!("{head}object=0,gain=200\n").as_bytes(),
        &mut before,
        (40, 32),
    );
    assert_eq!((answer.refusal, answer.place), (17, 3));
    let (_, records) = read_text(head.as_bytes(), &mut before);
    assert_eq!(records[..24], row);
}

/// A frame without blocks, or refused, does not come between updates.
#[test]
fn passed_over() {
    let twice = |between: (u64, u64)| Segment {
        starts: vec![0, between.0, 0],
        lengths: vec![45, between.1, 45],
        ..segment()
    };
    for between in [(45, 3), (45, 4), (45, 5), (0, 0)] {
        let text = write_text(&twice(between), &mut EMPTY.to_vec());
        let text = String::from_utf8(text).expect("ASCII");
        assert_eq!(text.matches("active=").count(), 6, "{text}");
        assert!(text.contains("\nobject=0,gain=50,priority=2\n"), "{text}");
    }
}

/// A segment of generated payloads: a few of them, some again, some that leave
/// the store.
fn generated(gen: &mut Gen, rng: &mut Rng) -> Segment {
    let mut segment = Segment::default();
    for _ in 0..rng.within(1, 3) {
        let payload = gen.case().payload;
        let start = segment.store.len() as u64;
        segment.store.extend(&payload);
        for _ in 0..rng.within(1, 2) {
            segment.starts.push(start);
            let outside = u64::from(rng.chance(5)) * 5000;
            segment.lengths.push(payload.len() as u64 + outside);
            segment.frames.push(rng.word() as u32);
        }
    }
    let (a, b) = (
        rng.below(segment.starts.len()),
        rng.below(segment.starts.len()),
    );
    segment.starts.swap(a, b);
    segment.lengths.swap(a, b);
    segment
}

/// What is carried, without the bytes behind it, which earlier calls may have left.
fn last_rows(before: &[u8]) -> &[u8] {
    &before[..1 + 24 * usize::from(before[0])]
}

#[test]
fn round_trips() {
    let (mut gen, mut rng) = (Gen::new(13), Rng::new(13));
    for _ in 0..600 {
        let segment = generated(&mut gen, &mut rng);
        let mut written = EMPTY.to_vec();
        let text = write_text(&segment, &mut written);
        let mut left = EMPTY.to_vec();
        let (lines, records) = read_text(&text, &mut left);
        assert!(left == written);
        assert!((lines, records) == segment.single_reads());
        // in pieces: of the lists, and of the text
        let (mut before, at) = (EMPTY.to_vec(), rng.below(segment.starts.len() + 1));
        let first = write_text(&segment.part(0, at), &mut before);
        let second = write_text(&segment.part(at, segment.starts.len()), &mut before);
        assert!([first, second].concat() == text);
        assert!(last_rows(&before) == last_rows(&written));
        let (mut before, mut pieces) = (EMPTY.to_vec(), (vec![], vec![]));
        for piece in cut(&text) {
            let (lines, records) = read_text(piece, &mut before);
            pieces.0.extend(lines);
            pieces.1.extend(records);
        }
        assert!(pieces == segment.single_reads());
        assert!(last_rows(&before) == last_rows(&written));
    }
}

/// A damaged text that is accepted is the text of what it gives, and no other is.
#[test]
fn text_only() {
    let (mut gen, mut rng) = (Gen::new(17), Rng::new(17));
    let (mut accepted, mut refused) = (0, 0);
    for _ in 0..300 {
        let segment = generated(&mut gen, &mut rng);
        let whole = write_text(&segment, &mut EMPTY.to_vec());
        if whole.len() > 5000 {
            continue;
        }
        for _ in 0..20 {
            let mut text = whole.clone();
            damage(&mut rng, &mut text);
            let (answer, lines, records) = back(&text);
            match answer.refusal {
                0 => {
                    assert_eq!(text_of(&lines, &records).as_bytes(), text);
                    accepted += 1;
                }
                17 => {
                    assert_ne!(text, whole);
                    first_bad(&text, answer.place as usize);
                    refused += 1;
                }
                _ => panic!("{answer:?}"),
            }
        }
    }
    assert!(accepted > 500 && refused > 500, "{accepted}, {refused}");
}

/// The same of each text that differs from a short one in one place.
#[test]
fn text_only_at_the_edges() {
    let whole = edges::text();
    let (mut accepted, mut refused) = (0, 0);
    for text in edges::edges().chain([whole]) {
        let (answer, lines, records) = back(&text);
        if answer.refusal == 0 {
            assert!(text_of(&lines, &records).as_bytes() == text);
            accepted += 1;
        } else {
            first_bad(&text, answer.place as usize);
            refused += 1;
        }
    }
    assert!(accepted > 500 && refused > 5000, "{accepted}, {refused}");
}

/// The lines before a bad one are bad nowhere but at their end, if at all: more
/// of them may have to follow. With the bad one they are bad there.
fn first_bad(text: &[u8], number: usize) {
    let lines: Vec<&[u8]> = text.split_inclusive(|byte| *byte == b'\n').collect();
    assert!((1..=lines.len() + 1).contains(&number));
    let (answer, ..) = back(&lines[..number - 1].concat());
    let more = answer.refusal == 17 && answer.place == number as u64;
    assert!(answer.refusal == 0 || more, "{answer:?}");
    if let Some(upto) = lines.get(..number) {
        let (answer, ..) = back(&upto.concat());
        assert_eq!((answer.refusal, answer.place), (17, number as u64));
    }
}
