//! The writer's choice of each field or group of fields held against all bit
//! strings that the reader reads as the same value: fewest bits, then the
//! smallest number.

use super::bits::{Bits, Refusal};
use super::origin::Silent;
use super::record::*;
use super::sink::Sink;
use super::{extended, object, put, trim, writer};
use std::collections::HashMap;
use std::fmt::Debug;
use std::hash::Hash;

/// Keeps fields as one number.
#[derive(Default)]
struct Number {
    width: usize,
    value: u32,
}

impl Sink for Number {
    fn put(&mut self, width: usize, value: u32) {
        assert!(u64::from(value) < 1 << width);
        self.width += width;
        self.value = self.value << width | value;
    }
}

/// For each value, the first of all strings of up to `longest` bits that is
/// read as it and to its last bit: in the order of lengths, then of numbers.
fn shortest<T: Hash + Eq>(
    longest: usize,
    read: impl Fn(&mut Bits) -> Result<T, Refusal>,
) -> HashMap<T, (usize, u32)> {
    let mut found = HashMap::new();
    for width in 1..=longest {
        for value in 0..1u32 << width {
            let bytes = (u64::from(value) << (64 - width)).to_be_bytes();
            let mut bits = Bits::new(&bytes);
            if let Ok(what) = read(&mut bits) {
                if bits.place() == width {
                    found.entry(what).or_insert((width, value));
                }
            }
        }
    }
    found
}

/// Holds the writer against `shortest`; answers the longest form in bits.
fn agree<T: Hash + Eq + Debug>(
    found: &HashMap<T, (usize, u32)>,
    write: impl Fn(&mut Number, &T),
) -> usize {
    for (value, best) in found {
        let mut number = Number::default();
        write(&mut number, value);
        assert_eq!((number.width, number.value), *best, "{value:?}");
    }
    found.values().map(|(width, _)| *width).max().unwrap()
}

fn with(
    set: impl Fn(&mut Bits, &mut Record, &mut Silent) -> Result<(), Refusal>,
) -> impl Fn(&mut Bits) -> Result<Record, Refusal> {
    move |bits| {
        let mut record = DEFAULTS;
        record[ACTIVE] = 1;
        record[CLASS] = DYNAMIC;
        set(bits, &mut record, &mut Silent)?;
        Ok(record)
    }
}

#[test]
fn gain_and_priority() {
    // Index 3 is kept out by a value that no other index gives.
    let mut gains = shortest(8, |bits| object::object_gain(bits, Some(255), &mut Silent));
    gains.remove(&255);
    assert_eq!(gains.len(), 66);
    assert_eq!(agree(&gains, |sink, g| put::object_gain(sink, *g)), 8);
    let priorities = shortest(6, |bits| object::object_priority(bits, &mut Silent));
    assert_eq!(priorities.len(), 33);
    assert_eq!(
        agree(&priorities, |sink, p| put::object_priority(sink, *p)),
        6
    );
}

#[test]
fn render_groups() {
    let positions = shortest(17, with(object::absolute_position));
    assert_eq!(positions.len(), 63 * 63 * 31);
    assert_eq!(agree(&positions, put::absolute_position), 17);
    let distances = shortest(6, |bits| object::object_distance(bits, &mut Silent));
    assert_eq!(distances.len(), 18);
    assert_eq!(
        agree(&distances, |sink, d| put::object_distance(sink, *d)),
        6
    );
    let sizes = shortest(17, |bits| object::object_size(bits, &mut Silent));
    assert_eq!(sizes.len(), 32 * 32 * 32);
    assert_eq!(agree(&sizes, |sink, s| put::object_size(sink, *s)), 17);
    let screens = shortest(6, |bits| object::screen_reference(bits, &mut Silent));
    assert_eq!(screens.len(), 33);
    assert_eq!(
        agree(&screens, |sink, s| put::screen_reference(sink, *s)),
        6
    );
}

#[test]
fn extended_groups() {
    let divergences = shortest(9, with(extended::obj_div_block));
    assert_eq!(divergences.len(), 1 + 4 + 1 + 63);
    assert_eq!(agree(&divergences, put::obj_div_block), 9);
    let positions = shortest(10, with(extended::ext_prec_pos_block));
    assert_eq!(positions.len(), 5 * 5 * 5);
    assert_eq!(agree(&positions, put::ext_prec_pos_block), 10);
}

/// The reserved bits are 0. Configurations of up to 17 bits: at most two of
/// centre, surround, height and the two balances are carried.
#[test]
fn trim_groups() {
    let modes = shortest(6, trim::trim_modes);
    assert_eq!(modes.len(), 2 * 3);
    assert_eq!(agree(&modes, |sink, m| put::trim_modes(sink, *m)), 6);
    let configs = shortest(17, trim::trim_config);
    let values = [16, 12, 12, 32, 32];
    let pairs = (0..5).flat_map(|a| (0..a).map(move |b| values[a] * values[b]));
    let count = 3 + values.iter().sum::<usize>() + pairs.sum::<usize>();
    assert_eq!(configs.len(), count);
    assert_eq!(agree(&configs, put::trim_config), 17);
}

/// The rule for ramps is not the fewest bits: 11 bits stand before an index.
#[test]
fn ramps() {
    let all = shortest(14, object::ramp_duration);
    assert_eq!(all.len(), 2049);
    for ramp in 0..=2048 {
        let mut number = Number::default();
        put::ramp_duration(&mut number, ramp);
        let bytes = (u64::from(number.value) << (64 - number.width)).to_be_bytes();
        let mut bits = Bits::new(&bytes);
        assert_eq!(object::ramp_duration(&mut bits), Ok(ramp));
        assert_eq!(bits.place(), number.width);
        let width = match ramp {
            0 | 512 | 1536 => 2,
            2048 => 7,
            _ => 14,
        };
        assert_eq!(number.width, width);
    }
}

#[test]
fn sizes() {
    let all = shortest(20, super::reader::element_size);
    assert_eq!(all.len(), 69_904);
    assert_eq!(
        agree(&all, |sink, size| writer::element_size(sink, *size)),
        20
    );
}
