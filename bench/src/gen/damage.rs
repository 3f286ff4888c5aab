//! Cases: payloads as composed, with one fault, or damaged afterwards.

use super::draft::Draft;
use super::marks::{Group, Marks};
use super::payload::Whole;
use super::{Case, Fault, Gen, Tables, ROOM, STRIDE};

const FAULTS: [Fault; 19] = [
    Fault::Version,
    Fault::Counts,
    Fault::Isf,
    Fault::OffsetCode,
    Fault::Zone,
    Fault::SizeIndex,
    Fault::DivergenceMode,
    Fault::DivergenceCode,
    Fault::WarpMode,
    Fault::GlobalMode,
    Fault::Surround,
    Fault::TrimHeight,
    Fault::TwiceObject,
    Fault::TwiceExtended,
    Fault::TwiceTrim,
    Fault::Early,
    Fault::ShortElement,
    Fault::ShortTrim,
    Fault::LongSize,
];

/// What is said of a payload without faults that ends with `bytes`.
fn cut(draft: &Draft, bytes: &[u8]) -> (u32, usize, usize) {
    match draft.first_past(8 * bytes.len()) {
        Some((place, missing)) => (2, place, missing),
        None => (0, 0, 0),
    }
}

/// The bytes that the tables need, of records and of trim.
fn needed(tables: &Tables) -> (usize, usize) {
    (tables.records.len(), tables.trim.len())
}

impl Gen {
    /// The next payload.
    pub fn case(&mut self) -> Case {
        self.marks = Marks::default();
        self.fault = None;
        self.draw_frame();
        match self.rng.below(100) {
            0..=39 => self.valid(),
            40..=62 => self.faulty(),
            63..=72 => self.truncated(),
            73..=80 => self.flipped(),
            81..=84 => self.appended(),
            85..=91 => self.noisy(),
            92..=95 => self.random(),
            96..=97 => self.about_the_limit(),
            _ => self.spoilt(),
        }
    }

    fn valid(&mut self) -> Case {
        let whole = self.whole();
        let bytes = self.bytes(&whole.draft);
        self.marks.set(Group::Trailing, 0);
        self.finish("valid", bytes, (0, 0, 0), whole.tables)
    }

    fn faulty(&mut self) -> Case {
        let fault = self.rng.pick(&FAULTS);
        let whole = self.faulty_whole(fault);
        let mut bytes = self.bytes(&whole.draft);
        let mut expect = match whole.draft.fault {
            Some((2, _)) => cut(&whole.draft, &bytes),
            Some((refusal, place)) => (refusal, place, 0),
            None => (0, 0, 0),
        };
        if fault == Fault::LongSize && self.rng.chance(50) {
            // Cut about the size, whose groups and flags are fields as well.
            bytes.truncate(bytes.len().saturating_sub(self.rng.below(14)));
            expect = cut(&whole.draft, &bytes);
        }
        let kind = match fault {
            Fault::Version => "version",
            Fault::Counts => "counts",
            Fault::Isf => "reserved ISF",
            Fault::OffsetCode => "reserved offset",
            Fault::Zone => "reserved zone",
            Fault::SizeIndex => "reserved size",
            Fault::DivergenceMode => "reserved mode",
            Fault::DivergenceCode => "reserved code",
            Fault::WarpMode => "reserved warp",
            Fault::GlobalMode => "reserved trim mode",
            Fault::Surround => "reserved surround",
            Fault::TrimHeight => "reserved trim height",
            Fault::TwiceObject | Fault::TwiceExtended => "twice",
            Fault::TwiceTrim => "twice trim",
            Fault::Early => "early extended",
            Fault::ShortElement => "short element",
            Fault::ShortTrim => "short trim element",
            Fault::LongSize => "long size",
        };
        self.finish(kind, bytes, expect, whole.tables)
    }

    fn faulty_whole(&mut self, fault: Fault) -> Whole {
        self.fault = Some(fault);
        let whole = self.whole();
        self.fault = None;
        whole
    }

    /// Cut after any byte: the first field that no longer fits is refused.
    fn truncated(&mut self) -> Case {
        let whole = self.whole();
        let mut bytes = self.bytes(&whole.draft);
        let most = if self.rng.chance(30) { 8 } else { bytes.len() };
        bytes.truncate(self.rng.below(most.min(bytes.len()) + 1));
        let expect = cut(&whole.draft, &bytes);
        self.finish("truncated", bytes, expect, whole.tables)
    }

    fn flipped(&mut self) -> Case {
        let whole = self.whole();
        let mut bytes = self.bytes(&whole.draft);
        self.flip(&mut bytes);
        self.finish_open("flipped", bytes, needed(&whole.tables))
    }

    /// Flips a few bits, half of them near the start.
    pub(super) fn flip(&mut self, bytes: &mut [u8]) {
        for _ in 0..self.rng.within(1, 4) {
            let limit = if self.rng.chance(50) { 16 } else { bytes.len() };
            let at = self.rng.below(limit.min(bytes.len()));
            bytes[at] ^= 1 << self.rng.below(8);
        }
    }

    fn appended(&mut self) -> Case {
        let whole = self.whole();
        let mut bytes = self.bytes(&whole.draft);
        for _ in 0..self.rng.within(1, 40) {
            bytes.push(self.rng.byte());
        }
        self.marks.set(Group::Trailing, 1);
        self.finish("appended", bytes, (0, 0, 0), whole.tables)
    }

    /// A good header, then elements of arbitrary content.
    fn noisy(&mut self) -> Case {
        let programme = self.programme(true);
        let mut draft = Draft::default();
        self.header(&mut draft, &programme);
        let alternate = self.rng.chance(20);
        draft.flag(alternate);
        let count = self.rng.within(1, 4);
        draft.field(4, count);
        for index in 0..count {
            let ids = [[1, 1, 2, 5], [5, 5, 1, 2]][index.min(1)];
            let id = self.rng.pick(&ids);
            draft.field(4, id);
            let most = 4 + 12 * usize::from(programme.objects);
            let bytes = self.rng.within(1, most);
            draft.size(bytes);
            let mut width = 8 * bytes;
            if alternate {
                let other = self.rng.chance(if id == 1 { 10 } else { 50 });
                draft.number(4, if other { self.rng.within(1, 15) } else { 0 });
                width -= 4;
            }
            for _ in 0..width {
                draft.number(1, self.rng.below(2));
            }
        }
        let bytes = self.bytes(&draft);
        let objects = usize::from(programme.objects);
        let needed = STRIDE * objects * self.rng.within(1, 8);
        self.finish_open("noisy", bytes, (needed, 94 + objects))
    }

    fn random(&mut self) -> Case {
        let most = self.rng.pick(&[4, 20, 200, 4200]);
        let length = self.rng.below(most);
        let mut bytes: Vec<u8> = (0..length).map(|_| self.rng.byte()).collect();
        if let Some(first) = bytes.first_mut() {
            *first &= self.rng.pick(&[0xFF, 0x3F, 0x3F, 0x07]);
        }
        let needed = (self.rng.below(ROOM), self.rng.within(95, 253));
        self.finish_open("random", bytes, needed)
    }

    /// A good payload of 4,090 to 4,100 bytes, filled up by an unknown element,
    /// by bytes after the last element, or by both.
    fn about_the_limit(&mut self) -> Case {
        let length = self.rng.within(4090, 4100);
        self.fill = self.rng.chance(60).then_some(length);
        let whole = self.whole();
        self.fill = None;
        let mut bytes = self.bytes(&whole.draft);
        let trailing = bytes.len() < length;
        self.marks.set(Group::Trailing, usize::from(trailing));
        while bytes.len() < length {
            bytes.push(self.rng.byte());
        }
        if self.rng.chance(10) {
            bytes.truncate(bytes.len() - 1);
            return self.finish_open("about 4,096", bytes, needed(&whole.tables));
        }
        self.finish("about 4,096", bytes, (0, 0, 0), whole.tables)
    }

    /// A fault, then a flip, a cut, or both.
    fn spoilt(&mut self) -> Case {
        let fault = self.rng.pick(&FAULTS);
        let whole = self.faulty_whole(fault);
        let mut bytes = self.bytes(&whole.draft);
        if self.rng.chance(60) {
            self.flip(&mut bytes);
        }
        if self.rng.chance(60) {
            bytes.truncate(self.rng.below(bytes.len()));
        }
        self.finish_open("spoilt", bytes, needed(&whole.tables))
    }

    /// The bits as bytes, the last one filled with zeros or ones.
    fn bytes(&mut self, draft: &Draft) -> Vec<u8> {
        draft.bytes(self.rng.chance(50))
    }

    /// A case whose answer is not known, nor are the bytes that it needs of
    /// records and trim.
    fn finish_open(
        &mut self,
        kind: &'static str,
        payload: Vec<u8>,
        (records, trim): (usize, usize),
    ) -> Case {
        let length = payload.len();
        Case {
            kind,
            payload,
            frame: self.frame,
            room: self.room(records),
            trim_room: self.trim_room(trim),
            expect: (length > 4096).then_some((1, length as u64, 0)),
            tables: None,
            marks: Marks::default(),
        }
    }

    /// A case whose answer is known but for the length and the rooms.
    fn finish(
        &mut self,
        kind: &'static str,
        payload: Vec<u8>,
        expect: (u32, usize, usize),
        tables: Tables,
    ) -> Case {
        let (records, trim) = needed(&tables);
        let (room, trim_room) = (self.room(records), self.trim_room(trim));
        let expect = match expect {
            _ if payload.len() > 4096 => (1, payload.len(), 0),
            (0, ..) if room < records => (9, records, 0),
            (0, ..) if trim_room < trim => (9, trim, 0),
            other => other,
        };
        Case {
            kind,
            payload,
            frame: self.frame,
            room,
            trim_room,
            expect: Some((expect.0, expect.1 as u64, expect.2 as u32)),
            tables: Some(tables),
            marks: self.marks,
        }
    }

    /// The room of the trim buffer likewise, rather enough.
    fn trim_room(&mut self, needed: usize) -> usize {
        match self.rng.below(50) {
            0..=19 => needed,
            20..=37 => 253,
            38..=46 => needed + self.rng.within(1, 100),
            47..=48 => needed - 1,
            _ => self.rng.below(needed),
        }
    }

    /// Exact, ample, longer, one short, or none.
    fn room(&mut self, needed: usize) -> usize {
        match self.rng.below(20) {
            0..=6 => needed,
            7..=12 => ROOM,
            13..=16 => needed + self.rng.within(1, 100),
            17..=18 => needed.saturating_sub(1),
            _ => 0,
        }
    }
}
