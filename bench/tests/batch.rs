//! The shelf that is worked by hand: the sample of three objects and two blocks,
//! and four bytes behind it.

use skriemelt_bench::plain::{answer_bytes, read, read_batch, Answer, BatchAnswer, Shelf};

const SAMPLE: &[u8] = include_bytes!("../../samples/three-objects.oamd");
const FILL: u8 = 0xEE;

/// Starts, lengths and frames.
type Lists<'a> = (&'a [u64], &'a [u64], &'a [u32]);

/// What a call leaves.
struct Left {
    answer: BatchAnswer,
    records: Vec<u8>,
    trims: Vec<u8>,
    places: Vec<u8>,
}

fn store() -> Vec<u8> {
    [SAMPLE, &[0x01, 0x07, 0xC1, 0x00]].concat()
}

/// Reads into buffers of these lengths.
fn call(lists: Lists, slots: (usize, usize), rooms: [usize; 3]) -> Left {
    let store = store();
    let shelf = Shelf {
        store: &store,
        starts: lists.0,
        lengths: lists.1,
        frames: lists.2,
        record_slot: slots.0,
        trim_slot: slots.1,
    };
    let [mut records, mut trims, mut places] = rooms.map(|room| vec![FILL; room]);
    let answer = read_batch(&shelf, &mut records, &mut trims, &mut places);
    Left {
        answer,
        records,
        trims,
        places,
    }
}

/// The places of entries, with room that is exact.
fn places(entries: &[(u64, u64)], slots: (usize, usize)) -> Vec<Vec<u8>> {
    let (starts, lengths): (Vec<u64>, Vec<u64>) = entries.iter().copied().unzip();
    let n = entries.len();
    let left = call(
        (&starts, &lengths, &vec![7; n]),
        slots,
        [n * slots.0, n * slots.1, n * 136],
    );
    assert_eq!(left.answer, BatchAnswer::default());
    left.places.chunks(136).map(<[u8]>::to_vec).collect()
}

/// A place that is 0 but for these bytes.
fn place(bytes: &[(usize, u8)]) -> Vec<u8> {
    let mut place = vec![0; 136];
    for (at, byte) in bytes {
        place[*at] = *byte;
    }
    place
}

const SEGMENT: [(u64, u64); 3] = [(0, 45), (45, 3), (45, 4)];

fn accepted_sample() -> Vec<u8> {
    place(&[(12, 3), (13, 1), (14, 1), (96, 2), (102, 32)])
}

fn accepted_small() -> Vec<u8> {
    place(&[(9, 1), (12, 1), (13, 1)])
}

fn ends_early() -> Vec<u8> {
    place(&[(0, 18), (8, 2), (132, 7)])
}

fn no_room(bytes: u8) -> Vec<u8> {
    place(&[(0, bytes), (8, 9)])
}

#[test]
fn segment() {
    let (all, early) = (accepted_sample(), ends_early());
    let small = accepted_small();
    let slots = |records, trims| places(&SEGMENT, (records, trims));
    assert_eq!(slots(192, 97), [all, early.clone(), small.clone()]);
    let short = [no_room(192), early.clone(), small];
    assert_eq!(slots(191, 97), short);
    assert_eq!(slots(0, 97), short);
    assert_eq!(slots(192, 94), [no_room(97), early, no_room(95)]);
}

#[test]
fn slots_as_single_reads() {
    let (starts, lengths) = ([0, 45, 45, 0], [45, 3, 4, 49]);
    let frames = [7, 8, 9, u32::MAX];
    let lists = (&starts[..], &lengths[..], &frames[..]);
    let left = call(lists, (200, 100), [820, 410, 560]);
    let store = store();
    for i in 0..4 {
        let (mut records, mut trim) = ([FILL; 200], [FILL; 100]);
        let (from, to) = (starts[i] as usize, (starts[i] + lengths[i]) as usize);
        let answer = read(&store[from..to], frames[i], &mut records, &mut trim);
        assert_eq!(left.records[200 * i..][..200], records);
        assert_eq!(left.trims[100 * i..][..100], trim);
        assert_eq!(left.places[136 * i..][..136], answer_bytes(&answer));
    }
    let behind = [
        &left.records[800..],
        &left.trims[400..],
        &left.places[544..],
    ];
    assert!(behind.concat().iter().all(|byte| *byte == FILL));
    // 7 x 1,536 + 32 is 0x2A20; 4,294,967,295 x 1,536 is 0x5FFFFFFFA00
    assert_eq!(left.records[32 + 24..][..8], [0x20, 0x2A, 0, 0, 0, 0, 0, 0]);
    let last = [0x20, 0xFA, 0xFF, 0xFF, 0xFF, 0x05, 0, 0];
    assert_eq!(left.records[600 + 32 + 24..][..8], last);
}

#[test]
fn outside() {
    let most = u64::MAX;
    let entries = [(46, 4), (50, 0), (most, 1), (most, 0), (1, most), (0, 50)];
    let outside = |start: u64| {
        answer_bytes(&Answer {
            refusal: 12,
            place: start,
            ..Answer::default()
        })
    };
    for (got, (start, _)) in places(&entries, (192, 97)).iter().zip(entries) {
        assert_eq!(got[..], outside(start));
    }
    assert_eq!(
        outside(most)[..9],
        [255, 255, 255, 255, 255, 255, 255, 255, 12]
    );
    let empty = place(&[(8, 2), (132, 2)]);
    assert_eq!(places(&[(49, 0)], (192, 97)), [empty]);
}

#[test]
fn lists() {
    let (starts, lengths, frames) = ([0, 45, 45], [45, 3, 4, 45], [0; 4]);
    let enough = [576, 291, 408];
    let refused = |left: Left, place: u64| {
        let expected = BatchAnswer { refusal: 13, place };
        assert_eq!(left.answer, expected);
        let all = [left.records, left.trims, left.places].concat();
        assert!(all.iter().all(|byte| *byte == FILL));
    };
    for (n, m) in [(3, 2), (3, 4), (2, 3), (0, 1), (1, 0)] {
        for lists in [
            (&starts[..n], &lengths[..m], &frames[..n]),
            (&starts[..n], &lengths[..n], &frames[..m]),
            (&starts[..n], &lengths[..m], &frames[..m]),
        ] {
            refused(call(lists, (192, 97), enough), n as u64);
        }
    }
    let lists = (&starts[..], &lengths[..3], &frames[..3]);
    for short in 0..3 {
        let mut rooms = enough;
        rooms[short] -= 1;
        refused(call(lists, (192, 97), rooms), 3);
    }
    // 3 x the last is 2^64 + 2
    for slot in [193, 1 << 63, usize::MAX, usize::MAX / 3 + 1] {
        refused(call(lists, (slot, 97), enough), 3);
        refused(call(lists, (192, slot), enough), 3);
    }
    let none = call((&[], &[], &[]), (usize::MAX, usize::MAX), [0, 5, 5]);
    assert_eq!(none.answer, BatchAnswer::default());
    assert_eq!((none.trims, none.places), (vec![FILL; 5], vec![FILL; 5]));
}
