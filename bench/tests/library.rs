//! The payloads like those of a library: read as they were made, and of the sorts that they are said to be.

use skriemelt_bench::gen::library::{Frame, Library};
use skriemelt_bench::plain::{self, needed, MAX_RECORD_BYTES, MAX_TRIM_BYTES, RECORD_STRIDE};

/// Reads a frame; whether it has a trim element, and its blocks, if it is accepted.
fn held(frame: &Frame) -> Option<(bool, usize)> {
    let (mut records, mut trim) = ([0; MAX_RECORD_BYTES], [0; MAX_TRIM_BYTES]);
    let answer = plain::read(&frame.payload, 7, &mut records, &mut trim);
    if frame.damaged {
        return None;
    }
    assert_eq!(answer.refusal, 0);
    assert_eq!(answer.programme, frame.programme);
    let used = &records[..needed(&answer.programme, &answer.timing)];
    let entries = used.as_chunks::<RECORD_STRIDE>().0.iter();
    assert!(entries.map(|entry| &entry[..24]).eq(&frame.records));
    Some((trim[0] != 0, answer.timing.blocks.into()))
}

#[test]
fn as_said() {
    let mut library = Library::new(1);
    let frames: Vec<Frame> = (0..20_000).map(|_| library.frame()).collect();
    let read: Vec<(bool, usize)> = frames.iter().filter_map(held).collect();
    let share = |count: usize| 1000 * count / frames.len();
    let dynamic = |frame: &&Frame| {
        let active = frame
            .records
            .iter()
            .step_by(frame.records.len() / usize::from(frame.programme.objects));
        (8..=16).contains(&active.filter(|record| record[1] == 2).count())
    };
    assert!((900..1000).contains(&share(frames.iter().filter(dynamic).count())));
    assert!((1..10).contains(&share(frames.len() - read.len())));
    assert!((50..150).contains(&share(read.iter().filter(|(trim, _)| *trim).count())));
    let blocks = |range: std::ops::RangeInclusive<usize>| {
        read.iter()
            .filter(|(_, blocks)| range.contains(blocks))
            .count()
    };
    assert!(share(blocks(1..=1)) > 950 && blocks(8..=8) > 0);
    let most = frames.iter().map(|frame| frame.programme.objects).max();
    assert!(most > Some(80));
}

/// All follows from the seed.
#[test]
fn same_seed() {
    let (mut one, mut two) = (Library::new(5), Library::new(5));
    for _ in 0..500 {
        assert_eq!(one.frame().payload, two.frame().payload);
    }
}
