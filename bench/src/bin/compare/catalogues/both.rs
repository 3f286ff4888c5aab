//! One call with both, and all that both give: the answer and the lent buffers.

use crate::lent::Lent;
use skriemelt_bench::gen::rng::Rng;
use skriemelt_bench::plain::{self, BackAnswer, CatalogueAnswer};
use skriemelt_bench::plain::{BEFORE_BYTES, LINE_BYTES};
use skriemelt_bench::proved;

/// Payloads in a store.
#[derive(Clone, Copy)]
pub struct Segment<'a> {
    pub store: &'a [u8],
    pub starts: &'a [u64],
    pub lengths: &'a [u64],
    pub frames: &'a [u32],
}

impl Segment<'_> {
    /// Some of the entries.
    pub fn part(&self, from: usize, to: usize) -> Self {
        Self {
            store: self.store,
            starts: &self.starts[from..to],
            lengths: &self.lengths[from..to],
            frames: &self.frames[from..to],
        }
    }

    /// Whether the lists are of one length.
    pub fn even(&self) -> bool {
        self.starts.len() == self.lengths.len() && self.starts.len() == self.frames.len()
    }
}

/// What both wrote: the answer, the text, and the update before as it was left.
pub struct Written {
    pub answer: CatalogueAnswer,
    pub text: Vec<u8>,
    pub after: Lent,
}

/// What both read back: the answer, the lines and the records, and the update before as it was left.
pub struct Back {
    pub answer: BackAnswer,
    pub lines: Vec<u8>,
    pub records: Vec<u8>,
    pub after: Lent,
}

/// Whether a call is given no update before, as those without `_on` are.
fn nothing(before: &Lent) -> bool {
    before.room() == BEFORE_BYTES && before.first(BEFORE_BYTES).iter().all(|byte| *byte == 0)
}

/// The bytes that are carried in an update before: its number of objects and their rows.
pub fn rows(before: &Lent) -> &[u8] {
    before.first(1 + 24 * usize::from(before.first(1)[0]))
}

/// `Err` if the two differ in the update before, or bytes of it changed that must not.
fn same_before(a: &Lent, b: &Lent, fresh: &Lent, refusal: u32) -> Result<(), String> {
    let used = match refusal {
        0 => rows(b).len(),
        _ => 0,
    };
    let same = a.same(b).and_then(|()| a.kept(fresh, used));
    same.map_err(|why| format!("update before: {why}"))
}

/// Writes with both.
pub fn write(
    rng: &mut Rng,
    segment: &Segment,
    before: &Lent,
    room: usize,
) -> Result<Written, String> {
    let Segment {
        store,
        starts: s,
        lengths: l,
        frames: f,
    } = *segment;
    let text = Lent::new(rng, room);
    let [mut a, mut b] = [text.clone(), text.clone()];
    let [mut a_before, mut b_before] = [before.clone(), before.clone()];
    let answer = proved::write_catalogue_on(store, s, l, f, a_before.lend(), a.lend()).plain();
    let other = plain::write_catalogue_on(store, s, l, f, b_before.lend(), b.lend());
    if answer != other {
        return Err(format!("proved {answer:?}\nplain  {other:?}"));
    }
    same_before(&a_before, &b_before, before, answer.refusal)?;
    let used = answer.length as usize;
    let same = a.same(&b).and_then(|()| a.kept(&text, used));
    same.map_err(|why| format!("text: {why}"))?;
    if nothing(before) {
        let mut again = text.clone();
        let other = proved::write_catalogue(store, s, l, f, again.lend()).plain();
        if other != answer || again != a {
            return Err(format!(
                "without an update before {other:?}, not {answer:?}"
            ));
        }
    }
    Ok(Written {
        answer,
        text: a.first(used).to_vec(),
        after: a_before,
    })
}

/// Reads back with both, with these rooms of lines and of records.
pub fn read(
    rng: &mut Rng,
    text: &[u8],
    before: &Lent,
    rooms: (usize, usize),
) -> Result<Back, String> {
    let (lines, records) = (Lent::new(rng, rooms.0), Lent::new(rng, rooms.1));
    let [mut a, mut b] = [lines.clone(), lines.clone()];
    let [mut a_records, mut b_records] = [records.clone(), records.clone()];
    let [mut a_before, mut b_before] = [before.clone(), before.clone()];
    let (left, right) = (a_records.lend(), b_records.lend());
    let answer = proved::read_catalogue_on(text, a_before.lend(), a.lend(), left).plain();
    let other = plain::read_catalogue_on(text, b_before.lend(), b.lend(), right);
    if answer != other {
        return Err(format!("proved {answer:?}\nplain  {other:?}"));
    }
    same_before(&a_before, &b_before, before, answer.refusal)?;
    let (used, bytes) = (LINE_BYTES * answer.frames as usize, answer.bytes as usize);
    let same = a.same(&b).and_then(|()| a.kept(&lines, used));
    same.map_err(|why| format!("lines: {why}"))?;
    let same = a_records.same(&b_records);
    same.and_then(|()| a_records.kept(&records, bytes))
        .map_err(|why| format!("records: {why}"))?;
    if nothing(before) {
        let (mut again, mut again_records) = (lines.clone(), records.clone());
        let other = proved::read_catalogue(text, again.lend(), again_records.lend()).plain();
        if other != answer || again != a || again_records != a_records {
            return Err(format!(
                "without an update before {other:?}, not {answer:?}"
            ));
        }
    }
    Ok(Back {
        answer,
        lines: a.first(used).to_vec(),
        records: a_records.first(bytes).to_vec(),
        after: a_before,
    })
}
