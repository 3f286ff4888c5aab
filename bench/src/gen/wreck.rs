//! Payloads put together of elements of which some cannot be kept, and what is
//! to be left of them.

use super::draft::Draft;
use super::object::ObjectElement;
use super::programme::counts;
use super::{timed, Fault, Gen, Tables};
use crate::plain::{Programme, Record, Timing};

/// A payload, and what salvage is to make of it.
pub struct Wreck {
    pub payload: Vec<u8>,
    /// How many elements it says that it has.
    pub count: usize,
    /// What is left, or refusal, place and missing bits.
    pub left: Result<Remains, (u32, u64, u32)>,
}

/// What is left of a payload.
pub struct Remains {
    pub payload: Vec<u8>,
    /// Place, id and refusal of each element that is not kept.
    pub drops: Vec<(u64, u8, u32)>,
    /// What the kept elements give, in frame 0.
    pub tables: Tables,
}

/// What stands in one place of the list of elements.
#[derive(Clone, Copy)]
enum Piece {
    Unknown,
    Object,
    Extended,
    Trim,
}

/// A known element's content, and what it gives if it is kept.
struct Content {
    draft: Draft,
    gives: Gives,
}

enum Gives {
    Object(ObjectElement),
    /// The records of the object element, completed.
    Extended(Vec<Record>),
    Trim(Vec<u8>),
}

/// A payload under construction.
struct Heap {
    programme: Programme,
    alternate: bool,
    /// All of the payload, and the kept elements alone.
    all: Draft,
    kept: Draft,
    drops: Vec<(u64, u8, u32)>,
    /// What the kept elements give.
    object: Option<ObjectElement>,
    extended: bool,
    trim: Option<Vec<u8>>,
    unknown: u32,
}

impl Gen {
    /// The next payload of several elements.
    pub fn wreck(&mut self) -> Wreck {
        self.fault = None;
        let pieces = self.pieces();
        let programme = self.small_programme(pieces.len());
        let mut head = Draft::default();
        self.header(&mut head, &programme);
        let alternate = self.rng.chance(30);
        head.flag(alternate);
        let mut heap = Heap::new(programme, alternate);
        heap.all.add(&head);
        heap.all.grown(4, 5, pieces.len());
        let broken = self.rng.chance(10);
        let mut last = heap.all.len();
        for (index, piece) in pieces.iter().enumerate() {
            last = heap.all.len();
            match index + 1 == pieces.len() && broken {
                true => self.long_size(&mut heap.all),
                false => self.piece(&mut heap, *piece),
            }
        }
        let bits = heap.all.len();
        let mut payload = heap.all.bytes(self.rng.chance(50));
        if !broken {
            self.end(&mut payload, last);
        }
        let count = pieces.len();
        let left = heap.left(&head, count, bits, &payload);
        Wreck {
            payload,
            count,
            left,
        }
    }

    /// Which elements there are: a few, about 15, or as many as there can be.
    fn pieces(&mut self) -> Vec<Piece> {
        let count = match self.rng.below(20) {
            0..=11 => self.rng.within(1, 5),
            12..=14 => self.rng.within(0, 14),
            15..=17 => self.rng.within(14, 20),
            18 => self.rng.within(21, 45),
            _ => 46,
        };
        use Piece::{Extended, Object, Trim, Unknown};
        let mixture = self.rng.pick(&[
            [Object, Object, Extended, Extended, Trim, Unknown],
            [Object, Extended, Trim, Unknown, Unknown, Unknown],
            [Object, Object, Object, Extended, Extended, Extended],
        ]);
        (0..count).map(|_| self.rng.pick(&mixture)).collect()
    }

    /// A programme of fewer objects where there are many elements, so that most
    /// payloads stay within the limit.
    fn small_programme(&mut self, elements: usize) -> Programme {
        let most = match elements {
            0..=3 => self.rng.pick(&[2, 8, 20, 159]),
            4..=8 => self.rng.pick(&[2, 4, 8]),
            _ => self.rng.pick(&[1, 2, 4]),
        };
        loop {
            let programme = self.programme(true);
            if programme.objects <= most {
                return programme;
            }
        }
    }

    /// Adds bytes behind the last element, a few or up to the limit; or cuts into
    /// it, anywhere or within a byte of its first bit.
    fn end(&mut self, payload: &mut Vec<u8>, last: usize) {
        match self.rng.below(20) {
            0..=3 => {
                for _ in 0..self.rng.within(1, 4) {
                    payload.push(self.rng.byte());
                }
            }
            4 => payload.truncate(self.rng.within(last / 8, payload.len())),
            5 => payload.truncate(last.div_ceil(8)),
            6 => {
                let length = self.rng.within(4094, 4098).max(payload.len());
                payload.resize_with(length, || self.rng.byte());
            }
            _ => {}
        }
    }

    /// One element, good or bad by itself.
    fn piece(&mut self, heap: &mut Heap, piece: Piece) {
        let mut element = Draft::default();
        let (id, content) = match piece {
            Piece::Unknown => {
                let bytes = self.unknown_bytes();
                self.unknown(&mut element, heap.alternate, bytes);
                heap.unknown += 1;
                heap.keep(&element);
                return;
            }
            Piece::Object => (1, self.object_content(heap)),
            Piece::Trim => (2, self.trim_content(heap)),
            Piece::Extended => (5, self.extended_content(heap)),
        };
        let Content { draft, gives } = content;
        let bytes = self.declared_bytes(draft.len());
        element.field(4, id);
        element.size(bytes);
        let base = heap.all.len() + element.len();
        let refused = heap.too_many(&gives).or(draft
            .first_refused(8 * bytes)
            .map(|(refusal, place)| (refusal, base + place)));
        let padding = (8 * bytes).saturating_sub(draft.len());
        element.content(draft, 8 * bytes);
        element.noise(&mut self.rng, padding);
        match refused {
            Some((refusal, place)) => {
                heap.drops.push((place as u64, id as u8, refusal));
                heap.all.add(&element);
            }
            None => {
                heap.take(gives);
                heap.keep(&element);
            }
        }
    }

    /// The declared bytes of a known element: just enough, more, one too few, or
    /// any fewer.
    fn declared_bytes(&mut self, bits: usize) -> usize {
        let exact = bits.div_ceil(8);
        match self.rng.below(20) {
            0..=12 => exact,
            13..=15 => exact + self.rng.below(20),
            16..=18 => (exact - 1).max(1),
            _ => self.rng.within(1, exact),
        }
    }

    /// Wants one of these faults in some of the elements.
    fn want(&mut self, faults: &[Fault]) {
        let fault = self.rng.pick(faults);
        self.fault = self.rng.chance(40).then_some(fault);
    }

    /// The alternate id, if there are such, and the discard flag.
    fn content_start(&mut self, heap: &Heap, id: usize) -> Draft {
        let any = self.rng.below(16);
        let alternate = match id {
            1 => 0,
            _ => self.rng.pick(&[0, any]),
        };
        self.element_start(heap.alternate.then_some(alternate))
    }

    fn object_content(&mut self, heap: &Heap) -> Content {
        self.want(&[Fault::OffsetCode, Fault::Zone, Fault::SizeIndex]);
        let mut draft = self.content_start(heap, 1);
        let (bed, isf, _) = counts(&heap.programme);
        let objects = heap.programme.objects.into();
        let object = self.object_element(&mut draft, objects, (bed, bed + isf));
        self.fault = None;
        Content {
            draft,
            gives: Gives::Object(object),
        }
    }

    /// Of the records that were read before it, or of none.
    fn extended_content(&mut self, heap: &Heap) -> Content {
        self.want(&[Fault::DivergenceMode, Fault::DivergenceCode]);
        let mut draft = self.content_start(heap, 5);
        let object = heap.object.as_ref();
        let mut records = object.map_or(vec![], |object| object.records.clone());
        self.extended_element(&mut draft, &mut records);
        self.fault = None;
        Content {
            draft,
            gives: Gives::Extended(records),
        }
    }

    fn trim_content(&mut self, heap: &Heap) -> Content {
        self.want(&[
            Fault::WarpMode,
            Fault::GlobalMode,
            Fault::Surround,
            Fault::TrimHeight,
        ]);
        let mut draft = self.content_start(heap, 2);
        let table = self.trim_element(&mut draft, heap.programme.objects.into());
        self.fault = None;
        Content {
            draft,
            gives: Gives::Trim(table),
        }
    }
}

impl Heap {
    fn new(programme: Programme, alternate: bool) -> Self {
        Self {
            programme,
            alternate,
            all: Draft::default(),
            kept: Draft::default(),
            drops: vec![],
            object: None,
            extended: false,
            trim: None,
            unknown: 0,
        }
    }

    /// Refusal 6 or 7, at the id of the element that comes next.
    fn too_many(&self, gives: &Gives) -> Option<(u32, usize)> {
        let (there, early) = match gives {
            Gives::Object(_) => (self.object.is_some(), false),
            Gives::Extended(_) => (self.extended, self.object.is_none()),
            Gives::Trim(_) => (self.trim.is_some(), false),
        };
        match (there, early) {
            (true, _) => Some((6, self.all.len())),
            (_, true) => Some((7, self.all.len())),
            _ => None,
        }
    }

    /// Takes over what a kept element gives.
    fn take(&mut self, gives: Gives) {
        match gives {
            Gives::Object(object) => self.object = Some(object),
            Gives::Extended(records) => {
                self.extended = true;
                let object = self.object.as_mut().expect("an object element before it");
                object.records = records;
            }
            Gives::Trim(table) => self.trim = Some(table),
        }
    }

    fn keep(&mut self, element: &Draft) {
        self.all.add(element);
        self.kept.add(element);
    }

    /// What is left, where the elements are to end before bit `bits`. Behind a
    /// dropped one reading goes on, so what passes the payload's end is met.
    fn left(
        self,
        head: &Draft,
        count: usize,
        bits: usize,
        payload: &[u8],
    ) -> Result<Remains, (u32, u64, u32)> {
        if payload.len() > 4096 {
            return Err((1, payload.len() as u64, 0));
        }
        if let Some((place, missing)) = self.all.first_past(8 * payload.len()) {
            return Err((2, place as u64, missing as u32));
        }
        let mut left = Draft::default();
        left.add(head);
        left.grown(4, 5, count - self.drops.len());
        left.add(&self.kept);
        for at in bits..8 * payload.len() {
            left.number(1, usize::from(payload[at / 8] >> (7 - at % 8) & 1));
        }
        let objects = usize::from(self.programme.objects);
        let (timing, records) = match &self.object {
            Some(object) => (object.timing, &object.records[..]),
            None => (Timing::default(), &[][..]),
        };
        Ok(Remains {
            payload: left.bytes(false),
            drops: self.drops,
            tables: Tables {
                programme: self.programme,
                timing,
                records: timed(records, &timing, 0),
                trim: self.trim.unwrap_or_else(|| vec![0; 94 + objects]),
                unknown: self.unknown,
            },
        })
    }
}
