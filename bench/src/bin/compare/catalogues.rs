//! Catalogues of segments, written and read back with both: answers and all lent buffers, the update before among them, with canaries around them.

mod both;

use crate::lent::Lent;
use both::{rows, Back, Written};
use skriemelt_bench::gen::edges::{edges, text};
use skriemelt_bench::gen::rng::Rng;
use skriemelt_bench::gen::texts::damage;
use skriemelt_bench::plain::{self, refusal, BEFORE_BYTES, LINE_BYTES};
use skriemelt_bench::plain::{MAX_RECORD_BYTES, MAX_TRIM_BYTES};

pub use both::Segment;

/// How many of a hundred shelves are catalogued.
const SHARE: usize = 10;
/// Most entries of a segment: their text stays below a megabyte, which is what host/serve.c takes.
const MOST: usize = 3;
/// How often an entry is looked for that has updates.
const TRIES: usize = 4;
/// Damaged texts of each segment: of a text of more than so many bytes, and of a shorter one, which takes less time.
const DAMAGED: (usize, usize) = (4, 12);
const LONG: usize = 2000;

/// What the catalogues gave, by refusal.
pub struct Catalogues {
    rng: Rng,
    /// The update before that the last segment left.
    carried: Vec<u8>,
    writes: [u64; 19],
    /// Reads of texts of segments, whole and in parts.
    reads: [u64; 19],
    damaged: [u64; 19],
    /// Bytes of the texts of segments.
    bytes: u64,
}

impl Catalogues {
    pub fn new(seed: u64) -> Self {
        Self {
            rng: Rng::new(seed ^ 0xCA7A),
            carried: vec![0; BEFORE_BYTES],
            writes: [0; 19],
            reads: [0; 19],
            damaged: [0; 19],
            bytes: 0,
        }
    }

    /// Takes a shelf; of some of them, a few entries are written and read back.
    pub fn shelf(&mut self, shelf: &Segment) -> Result<(), String> {
        if !self.rng.chance(SHARE) {
            return Ok(());
        }
        if !shelf.even() {
            return self.uneven(shelf);
        }
        let (entries, frames) = self.chosen(shelf);
        let (starts, lengths): (Vec<u64>, Vec<u64>) = entries.into_iter().unzip();
        let segment = Segment {
            store: shelf.store,
            starts: &starts,
            lengths: &lengths,
            frames: &frames,
        };
        let result = self.segment(&segment);
        result.map_err(|why| format!("catalogue of {starts:?}, {lengths:?}, {frames:?}: {why}"))
    }

    /// Lists of unequal length come first, whatever the rooms are.
    fn uneven(&mut self, shelf: &Segment) -> Result<(), String> {
        let (before, room) = (self.before(), self.rng.pick(&[0, 100, 5000]));
        let short = Lent::new(&mut self.rng, BEFORE_BYTES - 1);
        for before in [before, short] {
            let answer = self.write(shelf, &before, room)?.answer;
            let place = shelf.starts.len() as u64;
            expect((answer.refusal, answer.place), (refusal::LISTS, place))?;
        }
        Ok(())
    }

    /// A few entries of a shelf, drawn from two of them, so that some follow their like; one of the two has updates, if that is soon found.
    fn chosen(&mut self, shelf: &Segment) -> (Vec<(u64, u64)>, Vec<u32>) {
        let all = shelf.starts.len();
        if all == 0 {
            return (vec![], vec![]);
        }
        let mut two = [self.rng.below(all), self.rng.below(all)];
        for _ in 0..TRIES {
            if has_updates(shelf, two[0]) {
                break;
            }
            two[0] = self.rng.below(all);
        }
        let count = self.rng.pick(&[0, 1, 1, 2, 2, 2, MOST, MOST]);
        let entry = |_| {
            let at = self.rng.pick(&two);
            ((shelf.starts[at], shelf.lengths[at]), shelf.frames[at])
        };
        (0..count).map(entry).unzip()
    }

    /// An update before: none, the one that was left last, or that with some bytes changed to any; in a buffer that is longer now and then.
    fn before(&mut self) -> Lent {
        let more = self.rng.pick(&[0, 0, 0, 1, 50]);
        let mut before = Lent::new(&mut self.rng, BEFORE_BYTES + more);
        let lent = &mut before.lend()[..BEFORE_BYTES];
        match self.rng.below(4) {
            0..=1 => lent.fill(0),
            2 => lent.copy_from_slice(&self.carried),
            _ => {
                lent.copy_from_slice(&self.carried);
                self.spoil(&mut before);
            }
        }
        if self.rng.chance(5) {
            before.lend()[0] = self.rng.pick(&[0, 1, 158, 159, 160, 255]);
        }
        before
    }

    /// Changes some bytes of the first rows to any: no call gives such an update.
    fn spoil(&mut self, before: &mut Lent) {
        for _ in 0..10 {
            before.lend()[self.rng.within(1, 100)] = self.rng.byte();
        }
    }

    /// A segment behind some update, and now and then behind its own last one, which has as many objects as the first more often than not.
    fn segment(&mut self, segment: &Segment) -> Result<(), String> {
        let before = self.before();
        let after = self.behind(segment, &before)?;
        self.carried = after.first(BEFORE_BYTES).to_vec();
        if self.rng.chance(25) {
            let mut before = after;
            if self.rng.chance(50) {
                self.spoil(&mut before);
            }
            self.behind(segment, &before)?;
        }
        Ok(())
    }

    /// Writes a segment and reads it back, whole, in parts and damaged; gives what is left in the place of the update before.
    fn behind(&mut self, segment: &Segment, before: &Lent) -> Result<Lent, String> {
        let written = self.whole(segment, before)?;
        let back = self.whole_back(&written, before)?;
        if back.answer.frames != segment.starts.len() as u64 {
            return Err(format!("{:?} of another number of entries", back.answer));
        }
        self.written_in_parts(segment, &written, before)?;
        self.read_in_parts(&written, &back, before)?;
        let times = match written.text.len() > LONG {
            true => DAMAGED.0,
            false => DAMAGED.1,
        };
        for _ in 0..times {
            self.damaged(&written, &back, before)?;
        }
        Ok(written.after)
    }

    /// The text of a segment, with room that is exact or more; and now and then with less, or with too few bytes for the update before.
    fn whole(&mut self, segment: &Segment, before: &Lent) -> Result<Written, String> {
        let (lists, mut state) = (segment, before.clone());
        let (starts, lengths, frames) = (lists.starts, lists.lengths, lists.frames);
        let (store, lent) = (lists.store, state.lend());
        let answer = plain::write_catalogue_on(store, starts, lengths, frames, lent, &mut []);
        let length = answer.place as usize;
        if length > 0 && self.rng.chance(30) {
            let room = [0, length - 1, length - 1, self.rng.below(length)];
            let room = self.rng.pick(&room);
            let answer = self.write(segment, before, room)?.answer;
            let expected = (refusal::SHORT_TEXT, length as u64);
            expect((answer.refusal, answer.place), expected)?;
        }
        if self.rng.chance(5) {
            let short = self.short_before();
            let answer = self.write(segment, &short, length)?.answer;
            let expected = (refusal::ROOM, BEFORE_BYTES as u64);
            expect((answer.refusal, answer.place), expected)?;
        }
        let room = length + self.rng.pick(&[0, 0, 1, 64]);
        let written = self.write(segment, before, room)?;
        let answer = &written.answer;
        expect((answer.refusal, answer.length), (0, length as u64))?;
        self.bytes += answer.length;
        Ok(written)
    }

    /// Too few bytes for an update before.
    fn short_before(&mut self) -> Lent {
        let room = [0, 1, BEFORE_BYTES - 1, self.rng.below(BEFORE_BYTES)];
        let room = self.rng.pick(&room);
        Lent::new(&mut self.rng, room)
    }

    /// Reads a text of a segment with room that is exact or more, and once with less, of the lines, the records or the update before.
    fn whole_back(&mut self, written: &Written, before: &Lent) -> Result<Back, String> {
        let text = &written.text;
        let (lines, bytes) = needs(text, before);
        match self.rng.below(4) {
            0 if bytes > 0 => {
                let rooms = (self.rng.pick(&[lines, 0]), bytes - 1);
                self.no_room(text, before, rooms, bytes)?;
            }
            1 if lines > 0 => self.no_room(text, before, (lines - 1, bytes), lines)?,
            2 => {
                let (short, rooms) = (self.short_before(), (lines, bytes));
                self.no_room(text, &short, rooms, BEFORE_BYTES)?;
            }
            _ => {}
        }
        let rooms = [(0, 0), (0, 0), (1, 0), (39, 31), (200, 200)];
        let more = self.rng.pick(&rooms);
        let back = self.read(text, before, (lines + more.0, bytes + more.1))?;
        let answer = &back.answer;
        expect((answer.refusal, answer.bytes), (0, bytes as u64))?;
        if back.after.first(BEFORE_BYTES) != written.after.first(BEFORE_BYTES) {
            return Err("another update is left".to_string());
        }
        Ok(back)
    }

    /// Reads with too little room for something, and expects refusal 9 with this place.
    fn no_room(
        &mut self,
        text: &[u8],
        before: &Lent,
        rooms: (usize, usize),
        place: usize,
    ) -> Result<(), String> {
        let answer = self.read(text, before, rooms)?.answer;
        let expected = (refusal::ROOM, place as u64);
        expect((answer.refusal, answer.place), expected)
    }

    /// The texts of two parts of the lists are the text of the whole.
    fn written_in_parts(
        &mut self,
        segment: &Segment,
        whole: &Written,
        before: &Lent,
    ) -> Result<(), String> {
        let count = segment.starts.len();
        if count < 2 {
            return Ok(());
        }
        let at = self.rng.within(1, count - 1);
        let room = whole.text.len();
        let first = self.write(&segment.part(0, at), before, room)?;
        let second = self.write(&segment.part(at, count), &first.after, room)?;
        let same = [first.text, second.text].concat() == whole.text;
        if !same || rows(&second.after) != rows(&whole.after) {
            return Err(format!("written in parts, from entry {at}: another text"));
        }
        Ok(())
    }

    /// What the parts of the text give, frame by frame or in two, is what the whole gives.
    fn read_in_parts(
        &mut self,
        written: &Written,
        whole: &Back,
        before: &Lent,
    ) -> Result<(), String> {
        let text = &written.text;
        let heads = (1..text.len()).filter(|at| text[*at..].starts_with(b"frame="));
        let mut cuts: Vec<usize> = heads.collect();
        if cuts.len() > 1 && self.rng.chance(50) {
            cuts = vec![self.rng.pick(&cuts)];
        }
        cuts.push(text.len());
        let rooms = (whole.lines.len(), whole.records.len());
        let (mut from, mut state) = (0, before.clone());
        let (mut lines, mut records) = (vec![], vec![]);
        for to in cuts {
            let part = self.read(&text[from..to], &state, rooms)?;
            lines.extend(part.lines);
            records.extend(part.records);
            (from, state) = (to, part.after);
        }
        let same = lines == whole.lines && records == whole.records;
        if !same || rows(&state) != rows(&whole.after) {
            return Err("read in parts: other lines or records".to_string());
        }
        Ok(())
    }

    /// Reads the text with some damage, in room that would do for the text as it was, or some more; now and then behind another update.
    fn damaged(&mut self, written: &Written, back: &Back, before: &Lent) -> Result<(), String> {
        let mut text = written.text.clone();
        damage(&mut self.rng, &mut text);
        let (line, update) = self.rng.pick(&[(0, 0), (LINE_BYTES, 5088)]);
        let rooms = (back.lines.len() + line, back.records.len() + update);
        if self.rng.chance(10) {
            let before = self.before();
            return self.read_damaged(&text, &before, rooms);
        }
        self.read_damaged(&text, before, rooms)
    }

    fn read_damaged(
        &mut self,
        text: &[u8],
        before: &Lent,
        rooms: (usize, usize),
    ) -> Result<(), String> {
        let result = both::read(&mut self.rng, text, before, rooms);
        let back = result.map_err(|why| format!("{why}\n{}", text.escape_ascii()))?;
        self.damaged[back.answer.refusal as usize] += 1;
        Ok(())
    }

    /// Reads a short text, and all texts that differ from it in one place.
    pub fn limits(&mut self) -> Result<(), String> {
        let mut before = Lent::new(&mut self.rng, BEFORE_BYTES);
        before.lend().fill(0);
        // of two frames, and of two objects in two blocks
        let rooms = (2 * LINE_BYTES, 4 * 32);
        let answer = self.read(&text(), &before, rooms)?.answer;
        expect((answer.refusal, answer.frames), (0, 2))?;
        for text in edges() {
            self.read_damaged(&text, &before, rooms)?;
        }
        Ok(())
    }

    fn write(&mut self, segment: &Segment, before: &Lent, room: usize) -> Result<Written, String> {
        let written = both::write(&mut self.rng, segment, before, room)?;
        self.writes[written.answer.refusal as usize] += 1;
        Ok(written)
    }

    fn read(&mut self, text: &[u8], before: &Lent, rooms: (usize, usize)) -> Result<Back, String> {
        let result = both::read(&mut self.rng, text, before, rooms);
        let back = result.map_err(|why| format!("{why}\n{}", text.escape_ascii()))?;
        self.reads[back.answer.refusal as usize] += 1;
        Ok(back)
    }

    pub fn print(&self) {
        let kinds = [
            (refusal::ACCEPTED, "accepted calls"),
            (refusal::LISTS, "lists"),
            (
                refusal::ROOM,
                "no room for lines, records or the update before",
            ),
            (refusal::BAD_LINE, "bad line"),
            (refusal::SHORT_TEXT, "text too short"),
        ];
        let all = [
            ("written", self.writes),
            ("read back", self.reads),
            ("damaged and read back", self.damaged),
        ];
        for (what, counts) in all {
            for (refusal, kind) in kinds {
                let count = counts[refusal as usize];
                if count > 0 {
                    println!("catalogue, {what}, refusal {refusal} ({kind}): {count}");
                }
            }
        }
        println!("catalogue, bytes of text: {}", self.bytes);
    }
}

/// The bytes of lines and of records of a text of a segment.
fn needs(text: &[u8], before: &Lent) -> (usize, usize) {
    let lines = text.split_inclusive(|byte| *byte == b'\n');
    let frames = lines.filter(|line| line.starts_with(b"frame=")).count();
    let (mut lines, mut state) = (vec![0; LINE_BYTES * frames], before.clone());
    // without records it is accepted and has no place, with some it is refused for their room
    let answer = plain::read_catalogue_on(text, state.lend(), &mut lines, &mut []);
    (lines.len(), answer.place as usize)
}

/// Whether an entry is accepted and has blocks.
fn has_updates(shelf: &Segment, at: usize) -> bool {
    let (start, length) = (shelf.starts[at], shelf.lengths[at]);
    let Some(end) = start.checked_add(length) else {
        return false;
    };
    let payload = shelf.store.get(start as usize..end as usize);
    let (mut records, mut trim) = ([0; MAX_RECORD_BYTES], [0; MAX_TRIM_BYTES]);
    payload.is_some_and(|payload| {
        let answer = plain::read(payload, 0, &mut records, &mut trim);
        answer.timing.blocks > 0
    })
}

/// `Err` if an answer is not as expected.
fn expect(got: (u32, u64), expected: (u32, u64)) -> Result<(), String> {
    match got == expected {
        true => Ok(()),
        false => Err(format!("{got:?}, not {expected:?}")),
    }
}
