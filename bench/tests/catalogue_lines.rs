//! Lines of a catalogue's text that cannot stand where they do: by their form, by
//! their place, by the range of a number, and because nothing changed.

mod common;

use common::catalogue::{back, bad, text, with, worked, WORKED};
use skriemelt_bench::gen::texts::FIELDS;

/// The bad texts that were worked by hand.
#[test]
fn bad_lines() {
    assert_eq!(bad(WORKED), 0);
    assert_eq!(bad(&WORKED[..935]), 10);
    assert_eq!(bad(&format!("{WORKED}\n")), 11);
    assert_eq!(bad(&WORKED.replacen('\n', "\r\n", 1)), 1);
    let without = |number: usize| {
        let mut lines = worked();
        lines.remove(number - 1);
        bad(&text(&lines))
    };
    assert_eq!(without(5), 5);
    assert_eq!(without(3), 3);
    assert_eq!(without(2), 2);
    assert_eq!(without(1), 1);
    assert_eq!(without(6), 6);
    assert_eq!([7, 8, 9, 10].map(without), [0; 4]);
    let first = |lines: usize| bad(&text(&worked()[..lines]));
    assert_eq!([1, 2, 3, 4, 5].map(first), [2, 3, 4, 5, 6]);
    assert_eq!([0, 6, 7, 8, 9, 10].map(first), [0; 6]);
    for line in [
        "object=0,gain=50,priority=4",
        "object=0,gain=66,priority=4",
        "object=0,gain=062,priority=4",
        "object=0,priority=4,gain=62",
        "object=0,gain=62,priority=2",
    ] {
        assert_eq!(bad(&with(7, line)), 7, "{line}");
    }
    assert_eq!(bad(&with(9, "frame=8,refusal=9")), 9);
}

/// No lines, where that of a refused frame would be good.
const NO_FRAME: &str = " |,|=|frame|frame=|frame=8|frame=8,|frame=8,refusal|frame=8,refusal=|\
frame=8,refusal=2,|,frame=8,refusal=2|frame=8, refusal=2| frame=8,refusal=2|frame=8,refusal=2 |\
frame=8,refusal=2\r|frame=8,refusal=2\0|frame= 8,refusal=2|Frame=8,refusal=2|frame=8,refusal=+2|\
frame=+8,refusal=2|frame=-8,refusal=2|frame=-0,refusal=2|frame=+0,refusal=2|frame=08,refusal=2|\
frame=00,refusal=2|frame=8,refusal=02|frame=0x8,refusal=2|frame=8.0,refusal=2|\
frame=8,refusal=2,refusal=2|frame=8,frame=8,refusal=2|refusal=2|refusal=2,frame=8|\
frame=8,refusal=2,objects=1,blocks=0|frame=8,refusal=0,objects=1,blocks=0|frame=8,objects=1|\
frame=8,blocks=0,objects=1|frame=8,objects=1,blocks=0,objects=1|frame=8,objects=1,blocks=00|\
frame=8,objects=01,blocks=0|frame==8,refusal=2|frame=8=8,refusal=2|frame:8,refusal=2|\
frame=8;refusal=2|#|frame=8,refusal=2#|frame=8,refusal=2,place=18|frame=\u{668},refusal=2|\
frame=8,refusal=\u{B2}|start=0|ramp=0|start=0,ramp=0,ramp=0|ramp=0,start=0|object=0|object=0,|\
object=0,gain|gain=62|";

/// No lines, where that of an object would be good.
const NO_OBJECT: &str = "object=0|object=0,|object=,gain=62|object=00,gain=62|object=0,gain=|\
object=0,gain=62,|object=0,gain=62,gain=62|object=0,gain=62,gain=61|object=0,Gain=62|\
object=0,gai=62|object=0,gains=62|object=0,gain=62,object=2|gain=62,object=0|\
object=0,gain=62,start=0|object=0,,gain=62|object=0,time=62|object=0,precise=1,divergence=1|\
object=0,screen_factor=1,screen=1|object=0,x=1,gain=62|object=0 gain=62|start=32|start=32,ramp=0|\
start=32,ramp=0,object=0,gain=62|frame=7,objects=3";

/// No lines, where that of an update would be good.
const NO_UPDATE: &str = "start=32|start=32,ramp=00|start=032,ramp=0|ramp=0,start=32|\
start=32,ramp=0,|start=32,|start=32,ramp=|start=,ramp=0|Start=32,ramp=0|start=32,ramp=0,ramp=0";

#[test]
fn forms() {
    for (number, lines) in [(9, NO_FRAME), (7, NO_OBJECT), (6, NO_UPDATE)] {
        for line in lines.split('|') {
            assert_eq!(bad(&with(number, line)), number as u64, "{line:?}");
        }
    }
    let (head, rest) = WORKED.as_bytes().split_at(10);
    let not_text = [head, b"\xFF", rest].concat();
    assert_eq!(back(&not_text).0.place, 1);
}

/// The number of the bad line of the worked text with one line more, which gets
/// this number.
fn inserted(number: usize, line: &str) -> u64 {
    let mut lines = worked();
    lines.insert(number - 1, line);
    bad(&text(&lines))
}

/// A frame's line while updates are left, or an object is not listed; and between
/// an update and its objects, which then stand there no more.
#[test]
fn frames_out_of_place() {
    for line in ["frame=8,refusal=2", "frame=3,objects=2,blocks=0"] {
        let bad = |number| inserted(number, line);
        assert_eq!([2, 3, 4, 5, 6].map(bad), [2, 3, 4, 5, 6]);
        assert_eq!([7, 8].map(bad), [8, 9]);
        assert_eq!([1, 9, 10, 11].map(bad), [0; 4]);
    }
}

/// An update's line before any frame, in a full update, or with none left to come;
/// and one that makes another one too many.
#[test]
fn updates_out_of_place() {
    let bad = |number| inserted(number, "start=5,ramp=6");
    assert_eq!([1, 3, 4, 5].map(bad), [1, 3, 4, 5]);
    assert_eq!([7, 8, 9, 10, 11].map(bad), [7, 8, 9, 10, 11]);
    assert_eq!([2, 6].map(bad), [3, 7]);
}

/// An object's line outside of an update, with a number that is not above the last
/// one or not below the number of objects, or in a full update.
#[test]
fn objects_out_of_place() {
    let bad_one = |number| inserted(number, "object=1,gain=7");
    assert_eq!([1, 2, 3, 4, 5, 6].map(bad_one), [1, 2, 3, 4, 5, 6]);
    assert_eq!([7, 8, 9].map(bad_one), [8, 0, 9]);
    assert_eq!([10, 11].map(bad_one), [10, 11]);
    assert_eq!(inserted(8, "object=0,x=7"), 8);
    assert_eq!(inserted(9, "object=2,gain=7"), 9);
    assert_eq!(inserted(9, "object=3,gain=7"), 9);
    assert_eq!(bad(&with(8, "object=3,gain=7")), 8);
    assert_eq!(bad(&with(8, "object=158,gain=7")), 8);
}

/// In an update that lists every field each object comes with all of them, as the
/// next one.
#[test]
fn full_updates() {
    let lines = worked();
    for number in 3..=5 {
        let line = lines[number - 1];
        let (_, fields) = line.split_once(',').expect("fields");
        let object = |object: usize| format!("object={object},{fields}");
        assert_eq!(bad(&with(number, &object(number - 3))), 0);
        assert_eq!(bad(&with(number, &object(number - 2))), number as u64);
        assert_eq!(bad(&with(number, &object(3))), number as u64);
        for (key, ..) in FIELDS {
            let pairs = line
                .split(',')
                .filter(|pair| pair.split('=').next() != Some(key));
            let less = pairs.collect::<Vec<_>>().join(",");
            assert_eq!(bad(&with(number, &less)), number as u64, "{less}");
        }
    }
    let mut swapped = lines.clone();
    swapped.swap(3, 4);
    assert_eq!(bad(&text(&swapped)), 4);
    // all 24 are listed of an object that changed in all of them, too
    let (all, other): (String, String) = FIELDS
        .iter()
        .map(|(key, least, most)| (format!(",{key}={least}"), format!(",{key}={most}")))
        .unzip();
    let whole = |a: &str, b: &str| {
        let head = "frame=0,objects=1,blocks=2\nstart=0,ramp=0\n";
        bad(&format!("{head}object=0{a}\nstart=0,ramp=0\nobject=0{b}\n"))
    };
    assert_eq!((whole(&all, &other), whole(&other, &all)), (0, 0));
    assert_eq!((whole(&all, &all), whole(&other, &other)), (5, 5));
}

/// Numbers of all sizes, those that would wrap among them.
fn numbers() -> impl Iterator<Item = u64> {
    let large = [511, 512, 65_536, 65_544, 1 << 32, (1 << 32) + 1, u64::MAX];
    (0..=300).chain(2040..=2060).chain(large)
}

/// A line, with a number in the place of #, is good in the worked text, as the
/// line of this number, exactly with these.
fn exactly(number: usize, line: &str, good: &dyn Fn(u64) -> bool) {
    for value in numbers() {
        let line = line.replace('#', &value.to_string());
        let expected = if good(value) { 0 } else { number as u64 };
        assert_eq!(bad(&with(number, &line)), expected, "{line}");
    }
    let long = line.replace('#', "18446744073709551616");
    assert_eq!(bad(&with(number, &long)), number as u64, "{long}");
    let negative = line.replace('#', "-1");
    assert_eq!(bad(&with(number, &negative)), number as u64, "{negative}");
}

#[test]
fn ranges() {
    exactly(10, "frame=9,refusal=#", &|n| matches!(n, 1..=8 | 12));
    exactly(10, "frame=#,refusal=12", &|n| n < 1 << 32);
    exactly(10, "frame=#,objects=1,blocks=0", &|n| n < 1 << 32);
    exactly(10, "frame=9,objects=#,blocks=0", &|n| matches!(n, 1..=159));
    exactly(6, "start=#,ramp=0", &|n| n <= 2047);
    exactly(6, "start=0,ramp=#", &|n| n <= 2048);
    exactly(8, "object=#,gain=7", &|n| matches!(n, 1 | 2));
    // each block of the last frame repeats the rows before it
    for blocks in 0..=9 {
        let updates = "\nstart=0,ramp=0".repeat(blocks);
        let line = format!("frame=9,objects=3,blocks={blocks}{updates}");
        assert_eq!(bad(&with(10, &line)) == 0, blocks <= 8);
    }
}

/// Each field's range, in a full update.
#[test]
fn field_ranges() {
    for (key, least, most) in FIELDS {
        let pair = format!("{key}=");
        let at = worked()[2].find(&format!(",{pair}")).expect("a field") + 1;
        let (head, tail) = worked()[2].split_at(at);
        let rest = tail.split_once(',').map_or("", |(_, rest)| rest);
        let line = format!("{head}{pair}#,{rest}");
        let line = line.trim_end_matches(',');
        // what is listed below must still be a change
        let below = |value| match *key {
            "gain" => value != 62,
            "priority" => value != 4,
            _ => true,
        };
        for value in numbers() {
            let line = line.replace('#', &value.to_string());
            let expected = match (least..=most).contains(&&value) {
                true if below(value) => 0,
                true => 7,
                false => 3,
            };
            assert_eq!(bad(&with(3, &line)), expected, "{line}");
        }
    }
    let z = FIELDS.iter().find(|(key, ..)| *key == "z");
    assert_eq!(z, Some(&("z", 49, 79)));
}

/// In an update that lists changes alone each value but the one before is good.
#[test]
fn changed_ranges() {
    let row: Vec<u64> = worked()[2]
        .split([',', '='])
        .filter_map(|word| word.parse().ok())
        .collect();
    for ((key, least, most), before) in FIELDS.iter().zip(&row[1..]) {
        let good = |value| (*least..=*most).contains(&value) && value != *before;
        exactly(7, &format!("object=0,{key}=#"), &good);
    }
}
