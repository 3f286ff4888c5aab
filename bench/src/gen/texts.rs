//! Texts of the catalogue, damaged. The keys and their ranges are written down
//! here anew.

use super::rng::Rng;

/// Every key, with the least and the greatest number that it can have.
pub const KEYS: [(&str, u64, u64); 31] = [
    ("frame", 0, 4_294_967_295),
    ("refusal", 1, 12),
    ("objects", 1, 159),
    ("blocks", 0, 8),
    ("start", 0, 2047),
    ("ramp", 0, 2048),
    ("object", 0, 158),
    ("active", 0, 1),
    ("class", 0, 2),
    ("gain", 0, 65),
    ("priority", 0, 32),
    ("x", 0, 62),
    ("y", 0, 62),
    ("z", 49, 79),
    ("distance", 0, 17),
    ("width", 0, 31),
    ("depth", 0, 31),
    ("height", 0, 31),
    ("zone", 0, 5),
    ("elevation", 0, 1),
    ("screen", 0, 1),
    ("screen_factor", 0, 7),
    ("screen_depth", 0, 3),
    ("snap", 0, 1),
    ("divergence", 0, 1),
    ("divergence_mode", 0, 2),
    ("divergence_value", 0, 63),
    ("precise", 0, 7),
    ("precise_x", 0, 3),
    ("precise_y", 0, 3),
    ("precise_z", 0, 3),
];
/// The keys of the 24 bytes of a record.
pub const FIELDS: &[(&str, u64, u64)] = KEYS.split_at(7).1;

/// A line as its pairs.
pub(super) type Pairs = Vec<(String, String)>;

/// Damages a text of whole lines in one place or two. Many of the texts are still
/// those of some segment.
pub fn damage(rng: &mut Rng, text: &mut Vec<u8>) {
    match rng.below(10) {
        0 => damage_bytes(rng, text),
        1 => damage_ends(rng, text),
        2..=3 => damage_lines(rng, text),
        4 => {
            damage_pairs(rng, text);
            damage_pairs(rng, text);
        }
        5 => list_again(rng, text),
        _ => damage_pairs(rng, text),
    }
}

/// A byte changed, put in or taken out.
fn damage_bytes(rng: &mut Rng, text: &mut Vec<u8>) {
    let byte = match rng.below(3) {
        0 => rng.byte(),
        1 => b'0' + rng.below(10) as u8,
        _ => rng.pick(b",=\n\r +-_xyz"),
    };
    let at = rng.below(text.len() + 1);
    match (text.get_mut(at), rng.below(4)) {
        (None, _) | (_, 0) => text.insert(at, byte),
        (_, 1) => {
            text.remove(at);
        }
        (Some(old), 2) => *old = byte,
        (Some(old), _) => *old ^= 1 << rng.below(8),
    }
}

/// An LF left out or added, a CR before one, or the text cut.
fn damage_ends(rng: &mut Rng, text: &mut Vec<u8>) {
    let ends: Vec<usize> = (0..text.len()).filter(|at| text[*at] == b'\n').collect();
    let Some(last) = ends.last() else {
        return text.push(b'\n');
    };
    let any = ends[rng.below(ends.len())];
    match rng.below(7) {
        0 => text.truncate(*last),
        1 => text.push(b'\n'),
        2 => text.insert(any, b'\r'),
        3 => text.insert(any, b'\n'),
        4 => {
            text.remove(any);
        }
        5 => text.truncate(any + 1),
        _ => text.truncate(rng.below(text.len())),
    }
}

/// Lines left out, doubled, exchanged or moved.
fn damage_lines(rng: &mut Rng, text: &mut Vec<u8>) {
    let mut lines = split(text);
    if lines.is_empty() {
        return;
    }
    let (a, b) = (pick_line(rng, &lines), pick_line(rng, &lines));
    let next = (a + 1) % lines.len();
    match rng.below(6) {
        0..=1 => {
            lines.remove(a);
        }
        2 => lines.insert(a, lines[a].clone()),
        3 => lines.insert(a, lines[b].clone()),
        4 => lines.swap(a, b),
        _ => lines.swap(a, next),
    }
    *text = lines.concat();
}

/// A pair of a line changed, left out, doubled, exchanged or added.
fn damage_pairs(rng: &mut Rng, text: &mut Vec<u8>) {
    let mut lines = split(text);
    if lines.is_empty() {
        return;
    }
    let line = pick_line(rng, &lines);
    let Some(mut pairs) = pairs(&lines[line]) else {
        return;
    };
    let (at, other) = (rng.below(pairs.len()), rng.below(pairs.len()));
    match rng.below(12) {
        0 => {
            pairs.remove(at);
        }
        1 => pairs.insert(at, pairs[at].clone()),
        2 => pairs.swap(at, other),
        3 => pairs[at].0 = rng.pick(&KEYS).0.to_string(),
        4 => pairs[at].1.insert(0, rng.pick(&['0', '0', '+', ' ', '1'])),
        5 => pairs[at].1.clear(),
        6..=7 => {
            let (key, least, most) = rng.pick(FIELDS);
            let value = rng.within(least as usize, most as usize);
            list(&mut pairs, key, value.to_string());
        }
        _ => pairs[at].1 = number(rng, &pairs[at]),
    }
    lines[line] = joined(&pairs);
    *text = lines.concat();
}

/// Lists a field of an object with the value that it has from an earlier line.
fn list_again(rng: &mut Rng, text: &mut Vec<u8>) {
    let mut lines = split(text);
    let objects: Vec<usize> = (0..lines.len())
        .filter(|at| lines[*at].starts_with(b"object="))
        .collect();
    if objects.is_empty() {
        return;
    }
    let line = objects[rng.below(objects.len())];
    let key = rng.pick(FIELDS).0;
    let Some(mut pairs) = pairs(&lines[line]) else {
        return;
    };
    let earlier = lines[..line].iter().rev().filter_map(|line| {
        let of_object = self::pairs(line).filter(|other| other[0] == pairs[0])?;
        of_object.into_iter().find(|pair| pair.0 == key)
    });
    if let Some((_, value)) = earlier.take(1).next() {
        list(&mut pairs, key, value);
    }
    lines[line] = joined(&pairs);
    *text = lines.concat();
}

/// Lists a field in a line, in the order of a record.
fn list(pairs: &mut Pairs, key: &str, value: String) {
    let index = |key: &str| KEYS.iter().position(|(name, ..)| *name == key);
    let at = pairs.partition_point(|pair| index(&pair.0) < index(key));
    match pairs.get_mut(at) {
        Some(pair) if pair.0 == key => pair.1 = value,
        _ => pairs.insert(at, (key.to_string(), value)),
    }
}

/// Another number for a pair: any of its range, the ends of it, and numbers beyond.
fn number(rng: &mut Rng, (key, value): &(String, String)) -> String {
    let (_, least, most) = match KEYS.iter().find(|(name, ..)| name == key) {
        Some(range) => *range,
        None => ("", 0, u64::from(u32::MAX)),
    };
    let any = rng.within(least as usize, most as usize) as u64;
    let old: u64 = value.parse().unwrap_or(0);
    let numbers = [any, any, any, least, most, most + 1, least.wrapping_sub(1)];
    match rng.below(14) {
        at @ 0..7 => numbers[at].to_string(),
        7..=8 => old.wrapping_add(1).to_string(),
        9..=10 => old.saturating_sub(1).to_string(),
        // beyond 8, 16, 32 and 64 bits, by what a number that wraps would give
        11 => (any + (1 << rng.pick(&[8, 16, 32]))).to_string(),
        12 => (u128::from(any) + (1 << 64)).to_string(),
        _ => format!("{any}{any}{any}"),
    }
}

/// Any line, or one of a frame or an update, which are fewer.
fn pick_line(rng: &mut Rng, lines: &[Vec<u8>]) -> usize {
    let any = rng.below(lines.len());
    if rng.chance(50) {
        return any;
    }
    let head = |at: &usize| !lines[*at].starts_with(b"object=");
    (0..=any).rev().find(head).unwrap_or(any)
}

/// The lines with their ends.
pub(super) fn split(text: &[u8]) -> Vec<Vec<u8>> {
    let lines = text.split_inclusive(|byte| *byte == b'\n');
    lines.map(<[u8]>::to_vec).collect()
}

pub(super) fn pairs(line: &[u8]) -> Option<Pairs> {
    let line = str::from_utf8(line).ok()?.strip_suffix('\n')?;
    let pair = |pair: &str| {
        let (key, value) = pair.split_once('=')?;
        Some((key.to_string(), value.to_string()))
    };
    line.split(',').map(pair).collect()
}

pub(super) fn joined(pairs: &Pairs) -> Vec<u8> {
    let pairs: Vec<String> = pairs.iter().map(|(k, v)| format!("{k}={v}")).collect();
    format!("{}\n", pairs.join(",")).into_bytes()
}
