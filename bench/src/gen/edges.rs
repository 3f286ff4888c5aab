//! A short text of the catalogue, and the texts that differ from it in one place,
//! all of a sort: none is left to chance.

use super::texts::{joined, pairs, split, FIELDS, KEYS};

/// A refused frame, and one of two objects that lists all fields twice: as it has
/// to, and because all of them change.
pub fn text() -> Vec<u8> {
    let fields = |more: u64| {
        let field = |(key, least, _): &(&str, u64, u64)| format!(",{key}={}", least + more);
        FIELDS.iter().map(field).collect::<String>()
    };
    let update = |head: &str, more: u64| {
        let fields = fields(more);
        format!("{head}\nobject=0{fields}\nobject=1{fields}\n")
    };
    let (first, second) = (update("start=1,ramp=2", 1), update("start=3,ramp=4", 0));
    format!("frame=5,refusal=3\nframe=6,objects=2,blocks=2\n{first}{second}").into_bytes()
}

/// The text with each number in turn at the ends of its range and beyond, each
/// pair, line and byte in turn left out, doubled or exchanged, and cut anywhere.
pub fn edges() -> impl Iterator<Item = Vec<u8>> {
    let (text, lines) = (text(), split(&text()));
    let of_lines = (0..lines.len()).flat_map(move |at| {
        let other = lines.clone();
        let of_pairs = line_edges(&lines[at]).into_iter().map(move |line| {
            let mut lines = other.clone();
            lines[at] = line;
            lines
        });
        of_pairs.chain(list_edges(&lines, at))
    });
    let of_bytes = (0..text.len()).flat_map(move |at| byte_edges(&text, at));
    of_lines.map(|lines| lines.concat()).chain(of_bytes)
}

/// A list without one of its parts, with it twice, and with it behind the next.
fn list_edges<T: Clone>(list: &[T], at: usize) -> Vec<Vec<T>> {
    let [mut less, mut more, mut other] = [list.to_vec(), list.to_vec(), list.to_vec()];
    less.remove(at);
    more.insert(at, list[at].clone());
    other.swap(at, (at + 1) % list.len());
    vec![less, more, other]
}

/// The line with a pair or a number changed.
fn line_edges(line: &[u8]) -> Vec<Vec<u8>> {
    let pairs = pairs(line).expect("a line of pairs");
    let mut changed = vec![];
    for (at, (key, _)) in pairs.iter().enumerate() {
        changed.extend(list_edges(&pairs, at));
        for number in numbers(key) {
            let mut pairs = pairs.clone();
            pairs[at].1 = number;
            changed.push(pairs);
        }
    }
    changed.iter().map(joined).collect()
}

/// Numbers at the ends of a key's range and beyond, and such as are none.
fn numbers(key: &str) -> Vec<String> {
    let (_, least, most) = KEYS[KEYS
        .iter()
        .position(|(name, ..)| *name == key)
        .expect("a key")];
    let (low, high) = (i128::from(least), i128::from(most));
    let wrapped = [8, 16, 32, 64].map(|bits| low + (1 << bits));
    let ends = [low - 1, low, low + 1, high - 1, high, high + 1, 10 * high];
    let between = 8..=13; // the refusals that no line has are among these
    let all = between.chain(ends).chain(wrapped);
    let words = ["", "+1", "01", "00", "1 ", " 1", "1.", "0x1"].map(str::to_string);
    all.map(|number| number.to_string()).chain(words).collect()
}

/// The text with one byte left out, doubled or changed, and the text up to it.
fn byte_edges(text: &[u8], at: usize) -> Vec<Vec<u8>> {
    let mut all = list_edges(text, at);
    for byte in [text[at] + 1, text[at] ^ 0x80, text[at] ^ 0x20, b'\n', b'\r'] {
        let mut text = text.to_vec();
        text[at] = byte;
        all.push(text);
    }
    all.push(text[..at].to_vec());
    all
}
