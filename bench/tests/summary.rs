//! Summaries that are worked by hand: the segment of the batch, late blocks,
//! ramps, the limits.

mod common;

use common::{bytes, element, ONE};
use skriemelt_bench::gen::Gen;
use skriemelt_bench::plain::{read, summarise, Summary, MAX_ENTRIES};

const SAMPLE: &[u8] = include_bytes!("../../samples/three-objects.oamd");

fn store() -> Vec<u8> {
    [SAMPLE, &[0x01, 0x07, 0xC1, 0x00]].concat()
}

fn of(store: &[u8], entries: &[(u64, u64)]) -> Summary {
    let (starts, lengths): (Vec<u64>, Vec<u64>) = entries.iter().copied().unzip();
    summarise(store, &starts, &lengths)
}

/// The summary of one payload.
fn alone(payload: &[u8]) -> Summary {
    of(payload, &[(0, payload.len() as u64)])
}

#[test]
fn segment() {
    let mut expected = Summary {
        records: 6,
        classes: [2, 0, 4],
        activity: [1, 5],
        ..Summary::default()
    };
    (expected.gains[50], expected.gains[62], expected.gains[0]) = (3, 1, 2);
    expected.zones[0] = 6;
    (expected.payloads[0], expected.payloads[2]) = (2, 1);
    assert_eq!(of(&store(), &[(0, 45), (45, 3), (45, 4)]), expected);
    assert_eq!(of(&store(), &[(45, 4), (0, 45), (45, 3)]), expected);
    assert_eq!(of(&store(), &[]), Summary::default());
}

#[test]
fn outside() {
    let most = u64::MAX;
    let entries = [(46, 4), (50, 0), (most, 1), (1, most), (0, 50), (49, 0)];
    let mut expected = Summary::default();
    (expected.payloads[12], expected.payloads[2]) = (5, 1);
    assert_eq!(of(&store(), &entries), expected);
}

#[test]
fn refused() {
    let store = store();
    let lists = |starts: usize, lengths: usize| {
        let summary = summarise(&store, &vec![0; starts], &vec![45; lengths]);
        (summary.refusal, summary.place)
    };
    let all = MAX_ENTRIES;
    assert_eq!(lists(3, 2), (13, 3));
    assert_eq!(lists(0, 1), (13, 0));
    assert_eq!(lists(all + 1, all), (13, all as u64 + 1));
    assert_eq!(lists(all, all + 1), (13, all as u64));
    assert_eq!(lists(all + 1, all + 1), (16, all as u64 + 1));
    let refused = Summary {
        refusal: 16,
        place: all as u64 + 1,
        ..Summary::default()
    };
    assert_eq!(of(&store, &vec![(0, 45); all + 1]), refused);
    let most = of(&store, &vec![(0, 45); all]);
    assert_eq!((most.refusal, most.place), (0, 0));
    assert_eq!((most.records, most.payloads[0]), (6 * 65_536, 65_536));
    assert_eq!(
        (most.gains[50], most.activity),
        (3 * 65_536, [65_536, 5 * 65_536])
    );
}

/// The summary of inactive objects, so many, whose blocks have these bits of
/// offset, factor and ramp.
fn timed(objects: usize, offset: &str, updates: &[&str]) -> Summary {
    let blocks = updates.len();
    let records = "1 0 ".repeat(objects * blocks);
    let content = format!(
        "0 {offset} {:03b} {} 1 {records}",
        blocks - 1,
        updates.concat()
    );
    let head = ONE.replacen("00000", &format!("{:05b}", objects - 1), 1);
    let summary = alone(&bytes(&format!("{head} 0001 {}", element(1, &content))));
    assert_eq!(summary.payloads[0], 1);
    assert_eq!(summary.records as usize, objects * blocks);
    assert_eq!(summary.activity, [summary.records, 0]);
    summary
}

#[test]
fn late_blocks() {
    // sample offset 31 and factor 47: sample 1,535, the last of the frame
    assert_eq!(timed(1, "10 11111", &["101111 00"]).late, 0);
    assert_eq!(timed(1, "00", &["110000 00"]).late, 1);
    assert_eq!(timed(1, "10 11111", &["111111 00"]).late, 1);
    let both = ["101111 00", "110000 00", "111111 00"];
    assert_eq!(timed(1, "00", &both).late, 2);
    // by block, not by object
    assert_eq!(timed(5, "00", &both).late, 2);
}

#[test]
fn ramps() {
    let ramps = |objects, updates: &[&str]| timed(objects, "00", updates).ramps;
    assert_eq!(ramps(1, &["000000 00"]), 0);
    assert_eq!(ramps(1, &["000000 01", "000001 10"]), 512 + 1536);
    assert_eq!(ramps(1, &["000000 11 1 1111"; 8]), 8 * 2048);
    assert_eq!(ramps(4, &["000000 11 0 00000000011"]), 3);
}

/// Refused payloads are counted by number, and nothing else of them is.
#[test]
fn refused_payloads() {
    let payload = bytes(&format!(
        "{ONE} 0001 {}",
        element(1, "0 00 000 110000 10 1  1 0")
    ));
    assert_eq!((alone(&payload).late, alone(&payload).ramps), (1, 1536));
    let mut expected = Summary::default();
    expected.payloads[2] = 1;
    let cut = &payload[..payload.len() - 1];
    assert_eq!(alone(cut), expected);
}

/// The counts of generated payloads one by one add up to those of all, and each
/// sort of count to the records.
#[test]
fn sums() {
    let mut gen = Gen::new(7);
    let (mut store, mut entries, mut records) = (vec![], vec![], 0);
    for _ in 0..2000 {
        let payload = gen.case().payload;
        entries.push((store.len() as u64, payload.len() as u64));
        store.extend(&payload);
        let answer = read(&payload, 1, &mut [0; 40_960], &mut [0; 253]);
        records += u32::from(answer.programme.objects) * u32::from(answer.timing.blocks);
    }
    let all = of(&store, &entries);
    assert_eq!(all.records, records);
    assert_eq!(all.gains.iter().sum::<u32>(), records);
    assert_eq!(all.zones.iter().sum::<u32>(), records);
    assert_eq!(all.classes.iter().sum::<u32>(), records);
    assert_eq!(all.activity.iter().sum::<u32>(), records);
    assert_eq!(all.payloads.iter().sum::<u32>(), 2000);
    assert_eq!(all.payloads[9..12], [0; 3]);
    let each = entries.iter().map(|entry| of(&store, &[*entry]));
    let (late, ramps) = each.fold((0, 0), |(l, r), one| (l + one.late, r + one.ramps));
    assert_eq!((all.late, all.ramps), (late, ramps));
}
