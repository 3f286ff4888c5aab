//! Shelves of payloads read with both: the whole call's answer and three whole buffers, with canaries around them. Each is summarised, too, and some are catalogued.

use crate::catalogues::{Catalogues, Segment};
use crate::lent::Lent;
use crate::summaries::Summaries;
use crate::KINDS;
use skriemelt_bench::gen::rng::Rng;
use skriemelt_bench::plain::{self, refusal, Shelf, ANSWER_BYTES};
use skriemelt_bench::plain::{MAX_RECORD_BYTES, MAX_TRIM_BYTES};
use skriemelt_bench::proved;

/// Most payloads of one shelf.
const MOST: usize = 12;

/// What is wrong with a call that is refused as a whole.
const CAUSES: [&str; 4] = [
    "lists of unequal length",
    "record slots",
    "trim slots",
    "answer places",
];

/// A call: what it looks at, and the rooms of records, trims and answers.
struct Draft {
    store: Vec<u8>,
    starts: Vec<u64>,
    lengths: Vec<u64>,
    frames: Vec<u32>,
    slots: (usize, usize),
    rooms: [usize; 3],
    /// An index of `CAUSES`, if it is to be refused as a whole.
    cause: Option<usize>,
}

impl Draft {
    fn shelf(&self) -> Shelf<'_> {
        Shelf {
            store: &self.store,
            starts: &self.starts,
            lengths: &self.lengths,
            frames: &self.frames,
            record_slot: self.slots.0,
            trim_slot: self.slots.1,
        }
    }

    fn described(&self) -> String {
        let hex: String = self.store.iter().map(|b| format!("{b:02x}")).collect();
        let lists = (&self.starts, &self.lengths, &self.frames);
        let (slots, rooms) = (self.slots, self.rooms);
        format!("starts, lengths, frames {lists:?}, slots {slots:?}, rooms {rooms:?}\n{hex}")
    }
}

/// Payloads that wait for their shelf, and what the shelves gave.
pub struct Shelves {
    rng: Rng,
    waiting: Vec<Vec<u8>>,
    /// Bytes that the tables of each accepted one take, of records and of trim.
    needs: Vec<(usize, usize)>,
    calls: u64,
    causes: [u64; 4],
    /// Entries by refusal.
    entries: [u64; 14],
    summaries: Summaries,
    catalogues: Catalogues,
}

impl Shelves {
    pub fn new(seed: u64) -> Self {
        Self {
            rng: Rng::new(seed ^ 0x5AE1F),
            waiting: vec![],
            needs: vec![],
            calls: 0,
            causes: [0; 4],
            entries: [0; 14],
            summaries: Summaries::default(),
            catalogues: Catalogues::new(seed),
        }
    }

    /// Takes a payload, with the bytes of its tables if it is accepted; every few of them are read as a shelf.
    pub fn add(&mut self, payload: &[u8], needs: Option<(usize, usize)>) -> Result<(), String> {
        self.waiting.push(payload.to_vec());
        self.needs.extend(needs);
        if self.waiting.len() == MOST || self.rng.chance(10) {
            return self.read();
        }
        Ok(())
    }

    /// Reads what waits, which may be nothing.
    pub fn read(&mut self) -> Result<(), String> {
        let draft = self.draft();
        self.waiting.clear();
        self.needs.clear();
        let result = self.both(&draft).and_then(|()| {
            let (starts, lengths) = (&draft.starts, &draft.lengths);
            self.summaries.both(&draft.store, starts, lengths)?;
            self.catalogues.shelf(&Segment {
                store: &draft.store,
                starts,
                lengths,
                frames: &draft.frames,
            })
        });
        result.map_err(|message| format!("{message}\n{}", draft.described()))
    }

    /// Summarises the longest segments, and longer ones; reads a catalogue's text with a change in each of its places.
    pub fn limits(&mut self) -> Result<(), String> {
        self.summaries.limits()?;
        self.catalogues.limits()
    }

    fn draft(&mut self) -> Draft {
        let (mut store, mut spans) = (vec![], vec![]);
        for payload in &self.waiting {
            store.extend((0..self.rng.below(4)).map(|at| 0xA5 ^ at as u8));
            spans.push((store.len(), payload.len()));
            store.extend(payload);
        }
        let entries = spans.iter().map(|span| self.entry(*span, store.len()));
        let mut entries: Vec<(u64, u64)> = entries.collect();
        if entries.len() > 1 && self.rng.chance(30) {
            let (a, b) = (self.rng.below(entries.len()), self.rng.below(entries.len()));
            entries.swap(a, b);
            entries.push(entries[a]);
        }
        let (count, slots) = (entries.len(), self.slots());
        let mut room = |slot: usize| count * slot + self.rng.pick(&[0, 0, 1, 200]);
        let rooms = [room(slots.0), room(slots.1), room(ANSWER_BYTES)];
        let (starts, lengths) = entries.into_iter().unzip();
        let frames = (0..count).map(|_| self.frame()).collect();
        let mut draft = Draft {
            store,
            starts,
            lengths,
            frames,
            slots,
            rooms,
            cause: None,
        };
        if self.rng.chance(10) {
            self.spoil(&mut draft);
        }
        draft
    }

    /// Where an entry begins and how long it is: a payload as it is, cut, with what follows it, any part of the store, or something that leaves it.
    fn entry(&mut self, (start, length): (usize, usize), all: usize) -> (u64, u64) {
        let rng = &mut self.rng;
        let (start, length) = match rng.below(24) {
            0 => (start, rng.below(length + 1)),
            1 => (start, rng.within(length, all - start)),
            2 => {
                let any = rng.below(all + 1);
                (any, rng.below(all - any + 1))
            }
            3 => (start, all - start + rng.within(1, 3)),
            4 => (all + rng.within(1, 3), rng.below(3)),
            5 => (all, 0),
            // sums that would wrap around to a place within the store
            6 => (start, usize::MAX - rng.below(start + 1)),
            7 => (usize::MAX - rng.below(4), rng.within(1, 8)),
            _ => (start, length),
        };
        (start as u64, length as u64)
    }

    /// Any frame, the first and the last one more often.
    fn frame(&mut self) -> u32 {
        let any = self.rng.word() as u32;
        self.rng.pick(&[0, 1, any % 100_000, any, u32::MAX])
    }

    /// Slot lengths: enough for all, for one of the payloads or not quite, anything.
    fn slots(&mut self) -> (usize, usize) {
        let needs = self.needs.iter();
        let most = needs.fold((0, 0), |m, n| (m.0.max(n.0), m.1.max(n.1)));
        let rng = &mut self.rng;
        let one = match self.needs.len() {
            0 => (100, 100),
            count => self.needs[rng.below(count)],
        };
        let records = match rng.below(20) {
            0 => 0,
            1 => rng.below(MAX_RECORD_BYTES / 8),
            2..=5 => one.0,
            6 => one.0.saturating_sub(1),
            7 => most.0 + 1,
            _ => most.0,
        };
        let trim = match rng.below(20) {
            0 => 0,
            1 => rng.below(MAX_TRIM_BYTES),
            2..=5 => one.1,
            6 => one.1.saturating_sub(1),
            7 => MAX_TRIM_BYTES,
            _ => most.1,
        };
        (records, trim)
    }

    /// Makes lists of unequal length, or too little room for slots or places, if there are any to lack it.
    fn spoil(&mut self, draft: &mut Draft) {
        let (count, cause) = (draft.starts.len(), self.rng.below(CAUSES.len()));
        let (records, trims) = (count * draft.slots.0, count * draft.slots.1);
        // times a count of two or more, the last two pass 64 bits
        let slot = [0, 1 << 62, usize::MAX, usize::MAX / count.max(2) + 1];
        let slot = self.rng.pick(&slot);
        let less = [1, ANSWER_BYTES, self.rng.within(1, ANSWER_BYTES)];
        match cause {
            0 => self.spoil_list(draft),
            1 if count > 0 && slot > 0 => draft.slots.0 = slot,
            1 if records > 0 => draft.rooms[0] = records - 1,
            2 if count > 0 && slot > 0 => draft.slots.1 = slot,
            2 if trims > 0 => draft.rooms[1] = trims - 1,
            3 if count > 0 => draft.rooms[2] = count * ANSWER_BYTES - self.rng.pick(&less),
            _ => return,
        }
        draft.cause = Some(cause);
    }

    /// Makes one of the lists behind the starts longer, or shorter if it is not empty.
    fn spoil_list(&mut self, draft: &mut Draft) {
        let count = draft.starts.len();
        let longer = count == 0 || self.rng.chance(50);
        let less = self.rng.pick(&[0, count.saturating_sub(1)]);
        match (self.rng.chance(50), longer) {
            (true, true) => draft.lengths.push(0),
            (true, false) => draft.lengths.truncate(less),
            (false, true) => draft.frames.push(0),
            (false, false) => draft.frames.truncate(less),
        }
    }

    /// Reads with both and compares all that both give.
    fn both(&mut self, draft: &Draft) -> Result<(), String> {
        let (shelf, rng) = (draft.shelf(), &mut self.rng);
        let fresh = draft.rooms.map(|room| Lent::new(rng, room));
        let (mut a, mut b) = (fresh.clone(), fresh.clone());
        let [records, trims, answers] = a.each_mut().map(Lent::lend);
        let answer = proved::read_batch(&shelf, records, trims, answers).plain();
        let [records, trims, answers] = b.each_mut().map(Lent::lend);
        let other = plain::read_batch(&shelf, records, trims, answers);
        if answer != other {
            return Err(format!("proved {answer:?}\nplain  {other:?}"));
        }
        let count = shelf.starts.len();
        let (expected, slots) = match draft.cause {
            None => ((0, 0), [draft.slots.0, draft.slots.1, ANSWER_BYTES]),
            Some(_) => ((refusal::LISTS, count as u64), [0; 3]),
        };
        if (answer.refusal, answer.place) != expected {
            return Err(format!("{answer:?}, not {expected:?}"));
        }
        for (which, slot) in slots.into_iter().enumerate() {
            let name = ["records", "trims", "answers"][which];
            let same = a[which].same(&b[which]);
            same.and_then(|()| a[which].kept(&fresh[which], count * slot))
                .map_err(|why| format!("{name}: {why}"))?;
        }
        self.count(draft.cause, a[2].first(count * slots[2]));
        Ok(())
    }

    fn count(&mut self, cause: Option<usize>, answers: &[u8]) {
        match cause {
            Some(cause) => self.causes[cause] += 1,
            None => self.calls += 1,
        }
        for place in answers.chunks_exact(ANSWER_BYTES) {
            self.entries[usize::from(place[8])] += 1;
        }
    }

    pub fn print(&self) {
        println!("batch, refusal 0 (accepted calls): {}", self.calls);
        for (cause, count) in CAUSES.iter().zip(self.causes) {
            println!("batch, refusal 13 ({cause}): {count}");
        }
        for (refusal, kind) in KINDS.iter().enumerate() {
            let count = self.entries[refusal];
            println!("batch, entries of refusal {refusal} ({kind}): {count}");
        }
        let count = self.entries[refusal::OUTSIDE as usize];
        println!("batch, entries of refusal 12 (leaves the store): {count}");
        self.summaries.print();
        self.catalogues.print();
    }
}
